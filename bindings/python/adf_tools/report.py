"""adf-catalogue export --report: a collection on one page for print: what it has, and then which images want something done."""

from __future__ import annotations

import sqlite3
from typing import Dict, Iterator, Sequence, Tuple

from adf_tools.advice import GROUPS, SOUND, Advice
from adf_tools.image_pages import lost_text
from adf_tools.lists import KNOWN, NAMES, ORDERS, group_list, list_name, verdict_of
from adf_tools.markup import Html, html, joined, shown
from adf_tools.pages import STYLE, cell, count_of, facts, long_table, page, table

PRINT = Html("""
@page { margin: 15mm }
@media print { :root { color-scheme: light; --text: #000; --back: #fff; --line: #bbb; --head: #eee; --fault: #000; --note: #333 }
body { margin: 0; font-size: 10pt } thead th { position: static } tr { break-inside: avoid } caption { break-after: avoid } }
""")
MOST_NAMED = 50  # images of a group
LEFT = (*SOUND, "published")  # groups whose images are not named: nothing is to be done with them
FILES = "SELECT COUNT(*) AS files, COALESCE(SUM(bytes), 0) AS bytes FROM files"
LAST = "SELECT MAX(COALESCE(ended, begun)) AS at, program FROM runs"
CHANGED = "SELECT COUNT(*) FROM (SELECT path FROM sums GROUP BY path HAVING COUNT(*) > 1)"
COUNTED = "SELECT {0}, COUNT(*) FROM images WHERE {0} IS NOT NULL GROUP BY {0} ORDER BY 2 DESC, 1".format
PASSED = "SELECT kind, SUM(count) FROM passed GROUP BY kind ORDER BY 2 DESC, 1 LIMIT ?"
NAMED = "SELECT name, verdict, advice, form, fits, dirs, files, lost, lost_least, judged FROM images WHERE advice = ? ORDER BY {} LIMIT ?".format


class Report:
    """The page of a collection, whose totals are given; the rest is asked of its database."""

    def __init__(self, connection: sqlite3.Connection, totals: Dict[str, int]) -> None:
        self.connection, self.totals = connection, totals
        self.groups = self.counts("advice")

    def counts(self, column: str) -> Dict[str, int]:
        """How many images have each value of a column, the most first."""
        return {str(value): int(count) for value, count in self.connection.execute(COUNTED(column))}

    def fact(self, name: str) -> str:
        row = self.connection.execute("SELECT value FROM facts WHERE name = ?", (name,)).fetchone()
        return str(row[0]) if row else ""

    def page(self) -> Html:
        title = f"Report of {self.fact('title') or 'a collection'}"
        parts = (facts("Collection", self.facts()), *self.tables(), *map(self.named, GROUPS))
        return page(title, joined(parts), style=joined((STYLE, PRINT)))

    def facts(self) -> Iterator[Tuple[str, object]]:
        """What the collection is, and the totals."""
        read, last = self.connection.execute(FILES).fetchone(), self.connection.execute(LAST).fetchone()
        folder, whole = self.fact("folder"), sum(self.groups.values())
        judged = self.counts("judged")
        if folder:
            yield "Folder", shown(folder)
        yield "Read", f"{last['at'] or 'never'} UTC, by {last['program'] or 'no program'}"
        yield "Files", f"{count_of(read['files'], 'file')} of {count_of(read['bytes'], 'byte')}"
        yield "Images", f"{count_of(whole, 'image')}, {sum(judged.get(name, 0) for name in SOUND)} sound"
        for what, count in self.totals.items():
            yield what.capitalize(), count
        changed = self.connection.execute(CHANGED).fetchone()[0]
        yield "Changed", f"{count_of(changed, 'file has', 'files have')} had another SHA-256 in an earlier run"

    def tables(self) -> Iterator[Html]:
        """The counts: by what is to be done, by fault, by published lists, and of what is no image."""
        groups = [(group.title, self.groups[group.name], group.text) for group in GROUPS if self.groups.get(group.name)]
        known = self.counts("known")
        lists = [(title, known.get(name, 0), text) for name, title, text in KNOWN] if known else []
        passed = self.connection.execute(PASSED, (MOST_NAMED,)).fetchall()
        yield counted("What to do", ("Images", "Count", "What to do"), groups)
        yield counted("First faults", ("Fault", "Images"), list(self.counts("cause").items()))
        yield counted("Published lists", ("Images", "Count", "Means"), lists)
        yield counted("No images", ("Kind", "Files"), [(row[0], row[1]) for row in passed])

    def named(self, group: Advice) -> Html:
        """The images of a group, or the first of them."""
        count = self.groups.get(group.name, 0)
        if not count or group.name in LEFT:
            return html("")
        rows = self.connection.execute(NAMED(ORDERS.get(group.name, NAMES)), (group.name, MOST_NAMED))
        return long_table(group.title, ("Image", "Verdict", "Lost"), map(image_row, rows), count, list_name(group_list(group), 1))


def counted(name: str, heads: Tuple[str, ...], rows: Sequence[Tuple[object, ...]]) -> Html:
    """A table of counts, where there is anything to be counted."""
    kinds = "text", "number", "text"
    lines = (joined(cell(shown(value), kind) for value, kind in zip(row, kinds)) for row in rows)
    return table(name, heads, lines) if rows else html("")


def image_row(row: sqlite3.Row) -> Html:
    """The line of an image that wants something done."""
    is_told = row["verdict"] != "ok" and row["lost"] is not None
    lost = lost_text(row, str(row["lost"]), "all") if is_told else ""
    return joined((cell(shown(row["name"]), "text"), cell(verdict_of(row), "text"), cell(lost, "number")))
