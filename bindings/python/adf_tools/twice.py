"""The page of what a collection has twice: images with the same bytes, with the same files, or with the same boot blocks, and the files that
are on most disks."""

from __future__ import annotations

import sqlite3
from typing import Iterator, List, Sequence

from adf_tools.image_pages import is_page
from adf_tools.markup import Html, html, joined, link, shown
from adf_tools.pages import cell, count_of, page, paragraph, table

INDEX = "index.html"
MOST_GROUPS, MOST_NAMES = 500, 20  # of a table, and the images of a group that are named
BYTES = """SELECT sha256 AS sum, COUNT(*) AS count FROM images WHERE sha256 IS NOT NULL GROUP BY sha256 HAVING count > 1
ORDER BY count DESC, sum LIMIT ?"""
FILES = """SELECT tree AS sum, COUNT(*) AS count FROM images WHERE tree IS NOT NULL GROUP BY tree HAVING COUNT(DISTINCT sha256) > 1
ORDER BY count DESC, sum LIMIT ?"""
BOOTS = """SELECT boot_crc32 AS sum, boot, COUNT(*) AS count FROM images WHERE boot_crc32 IS NOT NULL GROUP BY boot_crc32 HAVING count > 1
ORDER BY count DESC, sum LIMIT ?"""
MANY = """SELECT entries.sha256 AS sum, COUNT(DISTINCT image) AS count, MIN(path) AS path, size FROM holders JOIN entries USING (sha256)
WHERE size > 0 GROUP BY entries.sha256 HAVING count > 1 ORDER BY count DESC, path, sum LIMIT ?"""


class Twice:
    """The page, whose rows are asked of the database."""

    def __init__(self, connection: sqlite3.Connection) -> None:
        self.connection = connection

    def page(self) -> Html:
        heads = ("Count", "Images")
        boots = map(self.boot_row, self.connection.execute(BOOTS, (MOST_GROUPS,)).fetchall())
        files = map(file_row, self.connection.execute(MANY, (MOST_GROUPS,)))
        tables = (
            ("Images with the same bytes", heads, list(self.groups(BYTES, "sha256"))),
            ("Images with the same files, which differ in free blocks, dates or places", heads, list(self.groups(FILES, "tree"))),
            ("Boot blocks that are on the most disks", ("Disks", "CRC-32", "Boot blocks", "Images"), list(boots)),
            ("Files that are on the most disks", ("Disks", "Path", "Size"), list(files)),
        )
        body = joined(table(name, heads, rows) for name, heads, rows in tables if rows) or paragraph("Nothing.")
        note = paragraph(f"Each table ends after {count_of(MOST_GROUPS, 'line')}.", "note")
        return page("What is there twice", joined((paragraph(link(INDEX, "All images")), body, note)))

    def names(self, column: str, sum_: str) -> List[Html]:
        """The first images that have a sum in this column."""
        line = f"SELECT name, page FROM images WHERE {column} = ? ORDER BY name, number LIMIT {MOST_NAMES}"
        return [link(name, text) if is_page(name) else shown(text) for text, name in self.connection.execute(line, (sum_,))]

    def boot_row(self, row: sqlite3.Row) -> Html:
        """The line of boot blocks."""
        names = self.names("boot_crc32", row["sum"])
        more = f", and {row['count'] - len(names)} more" if row["count"] > len(names) else ""
        crc = html("<code>{crc}</code>", crc=shown(row["sum"]))
        return joined((cell(row["count"], "number"), cell(crc), cell(shown(row["boot"] or "")), named(names, more)))

    def groups(self, query: str, column: str) -> Iterator[Html]:
        """The lines of images that share a sum."""
        for row in self.connection.execute(query, (MOST_GROUPS,)).fetchall():
            names = self.names(column, row["sum"])
            every = link(INDEX, "all", f"find={row['sum']}")
            yield joined((cell(row["count"], "number"), named([*names, every] if row["count"] > len(names) else names)))


def named(names: Sequence[Html], more: str = "") -> Html:
    """The cell of images, and what follows them."""
    return cell(html("{names}{more}", names=joined(names, ", "), more=more), "text")


def file_row(row: sqlite3.Row) -> Html:
    places = link(INDEX, row["path"], f"find={row['sum']}")
    return joined((cell(row["count"], "number"), cell(places, "text"), cell(row["size"], "number")))
