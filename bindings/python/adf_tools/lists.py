"""The pages that list images: the index, which says first what is to be done, and a list of each group."""

from __future__ import annotations

import functools
import hashlib
import marshal
import sqlite3
from typing import Callable, Iterator, List, NamedTuple

from adf_tools.advice import GROUPS, SOUND, TITLES, Advice
from adf_tools.image_pages import NO_FAULT, is_page, lost_text
from adf_tools.markup import Html, html, joined, link, shown
from adf_tools.out_folder import TWICE
from adf_tools.pages import cell, count_of, day, page, paragraph, table
from adf_tools.scripts import SCRIPT, SEARCHING

INDEX = "index.html"
HEADS = ("Image", "Verdict", "Label", "-Kind", "-Full", "-Files", "Lost", "-Changed")
KNOWN = (
    ("known", "Known", "A published list has the image, by its checksums."),
    ("differs", "Differs", "A published list has a disk of this name with other checksums."),
    ("unknown", "Unknown", "No published list has the image."),
)
MOST_IMAGES = 500  # of a page
NAMES = "name, number"
ORDERS = {"read again": f"dirs + files > 0, lost DESC, lost_least DESC, {NAMES}"}  # of the lists that begin with the worst
PASSED = "SELECT kind, SUM(count) AS count FROM passed WHERE (file IS NULL) = ? GROUP BY kind ORDER BY 2 DESC, 1"
COLUMNS = "name, page, verdict, advice, form, fits, label, kind, used, blocks, dirs, files, lost, lost_least, judged, altered, known_as"
MOST_KINDS, PLAIN = 20, 2  # that the index names; the form of marshal in which equal rows are equal bytes
ROW = """<td class="text">{anchor}</td><td class="verdict" data-key="{key}">{verdict}</td><td class="text">{label}</td>
<td class="nowrap wide">{kind}</td><td class="nowrap wide" data-key="{full}">{meter}</td><td class="number wide">{files}</td>
<td class="number" data-key="{count}">{lost}</td><td class="nowrap wide">{day}</td>{known}""".replace("\n", "")
METER = '<meter max="100" value="{value}" aria-label="full"></meter> {percent} %'
FILTER = Html('<p><label>Filter this page <input id="filter" type="search"></label> <span id="shown" role="status"></span></p>\n')
SEARCH = Html("""<form role="search" id="search"><p><label>Find disks and files, by words or a SHA-256 <input id="wanted" type="search"></label>
<button>Find</button> <span id="told" role="status"></span></p></form><ul id="places"></ul>
""")


class ListPage(NamedTuple):
    """A page of a list: its name, a sum of all that it shows, and what makes it."""

    name: str
    shows: str
    make: Callable[[], Html]


class Listed(NamedTuple):
    """A list: its name, the title of its pages, what stands before its images on the first of them, which images it has, and how many."""

    name: str
    title: str
    front: Html
    where: str
    value: str
    whole: int
    order: str = NAMES

    @property
    def pages(self) -> range:
        """The numbers of its pages, from 1."""
        return range(1, max(1, -(-self.whole // MOST_IMAGES)) + 1)


def list_name(name: str, number: int) -> str:
    """The name of the page with this number, from 1, of a list."""
    return f"{name}-{number}.html" if number > 1 else f"{name}.html"


class Lists:
    """The pages that list the images of a database."""

    def __init__(self, connection: sqlite3.Connection, title: str) -> None:
        self.connection, self.title = connection, title
        rows = connection.execute("SELECT advice, COUNT(*) FROM images GROUP BY advice")
        self.counts = {str(name): int(count) for name, count in rows}
        rows = connection.execute("SELECT known, COUNT(*) FROM images WHERE known IS NOT NULL GROUP BY known")
        self.known = {str(name): int(count) for name, count in rows}

    def all(self) -> Iterator[Listed]:
        """The lists; the index is the last."""
        above = paragraph(link(INDEX, "All images"))
        for group in GROUPS[1:]:
            if self.counts.get(group.name):
                front = joined((above, paragraph(shown(group.text))))
                title, order = f"{self.title}: {group.title}", ORDERS.get(group.name, NAMES)
                yield Listed(group_list(group), title, front, "WHERE advice = :value", group.name, self.counts[group.name], order)
        for name, title, text in KNOWN if self.known else ():
            front = joined((above, paragraph(shown(text)), self.known_table()))
            yield Listed(f"list-{name}", f"{self.title}: {title}", front, "WHERE known = :value", name, self.known.get(name, 0))
        yield Listed("index", self.title, self.front(), "", "", sum(self.counts.values()))

    def names(self) -> List[str]:
        """The names of all pages."""
        return [list_name(each.name, number) for each in self.all() for number in each.pages]

    def pages(self) -> Iterator[ListPage]:
        """All pages; the index is the last."""
        for each in self.all():
            yield from self.pages_of(each)

    def known_table(self) -> Html:
        """How many images published lists know."""
        if not self.known:
            return html("")
        rows = (list_row(f"list-{name}", title, self.known.get(name, 0), text) for name, title, text in KNOWN)
        return table("Known, unknown, differs", ("Images", "Count", "Means"), rows)

    def front(self) -> Html:
        """What stands on the index before the images: how many there are, and what is to be done with them."""
        whole = sum(self.counts.values())
        (sound,) = self.connection.execute(f"SELECT COUNT(*) FROM images WHERE judged IN {SOUND}").fetchone()
        rows = [group_row(group, self.counts[group.name]) for group in GROUPS if self.counts.get(group.name)]
        counts = paragraph(f"{count_of(whole, 'image')}, {sound} sound")
        groups = table("What to do", ("Images", "Count", "What to do"), rows) if rows else html("")
        return joined((counts, self.passed(), groups, self.known_table(), paragraph(link(TWICE, "What is there twice")), SEARCH))

    def passed(self) -> Html:
        """How many files are no images, by their kinds: below the folder, and in archives."""
        told = []
        for is_below, where in ((1, "No images"), (0, "No images, in archives")):
            rows = self.connection.execute(PASSED, (is_below,)).fetchall()
            more = sum(row["count"] for row in rows[MOST_KINDS:])
            texts = [f"{row['count']} {row['kind']}" for row in rows[:MOST_KINDS]] + ([f"{more} of other kinds"] if more else [])
            told += [paragraph(shown(f"{where}: {', '.join(texts)}"), "note")] if texts else []
        return joined(told)

    def pages_of(self, each: Listed) -> Iterator[ListPage]:
        """The pages of one list, the last first."""
        rows_of = self.rows_of(each)
        for number in reversed(each.pages):
            rows = rows_of(number).fetchall()
            shows = hashlib.sha256(marshal.dumps((repr(each), number, list(map(tuple, rows))), PLAIN)).hexdigest()
            yield ListPage(list_name(each.name, number), shows, functools.partial(self.page_of, each, number, rows))

    def page_of(self, each: Listed, number: int, rows: List[sqlite3.Row]) -> Html:
        """A page of a list, with these images."""
        has_known, links = "known" in each.where, self.links(each.name, number, each.pages[-1])
        images = table("Images", (*HEADS, "Known as") if has_known else HEADS, (index_row(row, has_known) for row in rows))
        script = joined((SCRIPT, SEARCHING)) if each.name == "index" and number == 1 else SCRIPT
        top = each.front if number == 1 else paragraph(link(list_name(each.name, 1), "The first page"))
        form = '{top}{filter}{links}<div id="images">{images}</div>{links}'
        return page(each.title, html(form, top=top, filter=FILTER, links=links, images=images), script)

    def rows_of(self, each: Listed) -> Callable[[int], sqlite3.Cursor]:
        """What gives the images of a page of a list, by its number."""
        if each.order != NAMES:
            line = f"SELECT {COLUMNS} FROM images {each.where} ORDER BY {each.order} LIMIT {MOST_IMAGES} OFFSET :begin"
            return lambda number: self.connection.execute(line, {"value": each.value, "begin": MOST_IMAGES * (number - 1)})
        begins = self.begins(each.where, each.value) or [("", 0)]
        later = f"{each.where} AND" if each.where else "WHERE"
        plain = f"SELECT {COLUMNS} FROM images {later} (name, number) >= (:name, :number) ORDER BY {NAMES} LIMIT {MOST_IMAGES}"
        places = [{"value": each.value, "name": name, "number": number} for name, number in begins]
        return lambda number: self.connection.execute(plain, places[number - 1])

    def begins(self, where: str, value: str) -> List[tuple[str, int]]:
        """The first image of each page of a list."""
        rows = self.connection.execute(f"SELECT name, number FROM images {where} ORDER BY name, number", {"value": value})
        return [(row[0], row[1]) for place, row in enumerate(rows) if place % MOST_IMAGES == 0]

    @staticmethod
    def links(name: str, number: int, last: int) -> Html:
        """Links to the other pages of a list, where there are any."""
        if last == 1:
            return html("")
        near = sorted({1, last, *range(max(1, number - 3), min(last, number + 3) + 1)})
        parts = joined((html("<strong>{each}</strong>", each=each) if each == number else link(list_name(name, each), each) for each in near), " ")
        return html('<nav aria-label="Pages">Page {parts} of {last}</nav>\n', parts=parts, last=last)


def group_list(group: Advice) -> str:
    return "list-" + group.name.replace(" ", "-")


def group_row(group: Advice, count: int) -> Html:
    """The line of a group on the first page."""
    if group is GROUPS[0]:  # most images, as a rule
        return joined((cell(group.title, "text"), cell(count, "number"), cell(group.text, "text")))
    return list_row(group_list(group), group.title, count, group.text)


def list_row(name: str, title: str, count: int, text: str) -> Html:
    """The line that leads to a list."""
    return joined((cell(link(list_name(name, 1), title), "text"), cell(count, "number"), cell(text, "text")))


def verdict_of(row: sqlite3.Row) -> Html:
    """What is wrong with an image, and the length that fits."""
    is_sound = row["verdict"] == "ok"
    told = TITLES.get(row["advice"], "") if row["advice"] in ("tables", "volumes not read") and is_sound else row["verdict"]
    told = f"{told}: {row['form']}" if row["form"] else told
    kind = "note" if row["advice"] in NO_FAULT else "refused"
    verdict = shown(told) if told == "ok" else html('<span class="{kind}">{told}</span>', kind=kind, told=shown(told))
    return verdict if row["fits"] is None else html("{verdict}<br>{fits} blocks fit", verdict=verdict, fits=row["fits"])


def full_of(row: sqlite3.Row) -> float | None:
    """How full a sound volume is, of 100."""
    is_volume = row["verdict"] == "ok" and row["used"] is not None and row["blocks"] is not None
    return 100 * row["used"] / max(row["blocks"] - 2, 1) if is_volume else None


def index_row(row: sqlite3.Row, has_known: bool) -> Html:
    """The line of an image, with the name that a published list has for it, where that is wanted."""
    is_sound, full, has_page = row["verdict"] == "ok", full_of(row), is_page(row["page"])
    anchor = link(row["page"], row["name"]) if has_page else shown(row["name"])
    meter = html("") if full is None else html(METER, value=f"{full:.1f}", percent=f"{full:.0f}")
    found = (row["dirs"] or 0) + (row["files"] or 0)
    told = "" if is_sound or row["lost"] is None else lost_text(row, str(row["lost"]), "all")
    lost = link(row["page"], told, "found") if told and found and has_page else shown(told)
    return html(
        ROW, anchor=anchor, key="" if is_sound else row["verdict"].split(": ")[-1], verdict=verdict_of(row), label=shown(row["label"] or ""),
        kind=shown(row["kind"] or ""), full=f"{full or 0:.1f}", meter=meter, files=row["files"], count=row["lost"] or 0, lost=lost,
        day=shown(day(row["altered"])), known=cell(shown(row["known_as"] or ""), "text") if has_known else html(""),
    )  # fmt: skip
