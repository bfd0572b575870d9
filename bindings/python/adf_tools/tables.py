"""The tables of a catalogue as text, which are queries of its database."""

from __future__ import annotations

import sqlite3
from typing import Any, BinaryIO, Callable, Iterable, Sequence

import adf
from adf._paths import is_long
from adf_tools.names import CONTROL, bytes_of, one_line

IMAGE_QUERY = """SELECT name AS image, images.bytes, images.sha256, verdict, kind, blocks, used, free, dirs, images.files, label, root, altered, created,
unlisted, advice, lost, fits, rescued, images.crc32, images.md5, images.sha1, boot_crc32, boot_is_right, boot, boot_others, lost_least, form,
files.path AS file, files.sha256 AS file_sha256, known, known_as, deleted, deleted_whole FROM images JOIN files ON files.id = images.file
LEFT JOIN (SELECT boot_crc32 AS crc, COUNT(*) - 1 AS boot_others FROM images GROUP BY boot_crc32) ON crc = boot_crc32 ORDER BY name, number"""
PASSED_QUERY = """SELECT CASE SUBSTR(kind, 1, 1) WHEN '.' THEN '*' ELSE '' END || kind AS image,
CASE WHEN file IS NULL THEN 'no image' ELSE 'no image, in an archive' END AS verdict, SUM(count) AS files, 'passed' AS advice
FROM passed GROUP BY kind, verdict ORDER BY 2, 1"""
ENTRY_QUERY = """SELECT images.name AS image, entries.kind, size, printf('%08x', protection) AS protection, date, header, entries.sha256,
path, comment, state FROM entries JOIN images ON images.id = image ORDER BY images.name, images.number, entries.id"""
NAMES, PATH, TEXTS = ("image", "file", "form", "known_as"), "path", ("label", "comment")


def escaped_name(name: str) -> str:
    """The escape form of a name of the host."""
    return adf.escape(bytes_of(name.encode("utf-8"), True))


def escaped_text(text: str) -> str:
    """The escape form of a text of an Amiga; of one that no Amiga has, the one of a name of the host."""
    try:
        return adf.escape(bytes_of(text.encode("utf-8")))
    except ValueError:
        return escaped_name(text)


def escaped_path(text: str) -> str:
    """The escape form of a path of an Amiga; of a long one that of its names, behind the block."""
    front, slash, names = text.partition("/") if is_long(text) else ("", "", text)
    return front + slash + escaped_text(names)


def form_of(column: str, is_escaped: bool) -> Callable[[Any], str]:
    """How the values of a column are written."""
    if is_escaped and column in (*NAMES, PATH, *TEXTS):
        change = escaped_name if column in NAMES else escaped_path if column == PATH else escaped_text
        return lambda value: "" if value is None else change(value)
    return lambda value: "" if value is None else one_line(value)


def write_table(connection: sqlite3.Connection, queries: Sequence[str], file: BinaryIO, is_escaped: bool) -> None:
    """Writes the rows of a query, behind a line that names its columns, and then those of others, which have some of its columns."""
    rows = connection.execute(queries[0])
    columns = [column[0] for column in rows.description]
    forms = [form_of(column, is_escaped) for column in columns]
    file.write(("\t".join(columns) + "\n").encode("ascii"))
    file.writelines((line_of(row, forms, is_escaped) + "\n").encode("utf-8") for row in rows)
    for query in queries[1:]:
        others = ([row[name] if name in row.keys() else None for name in columns] for row in connection.execute(query))
        file.writelines((line_of(row, forms, is_escaped) + "\n").encode("utf-8") for row in others)


def line_of(row: Iterable[Any], forms: Sequence[Callable[[Any], str]], is_escaped: bool) -> str:
    """The line of a row. As a rule no value has what could break a line."""
    line = "\t".join(["" if value is None else str(value) for value in row])
    if not is_escaped and line.count("\t") == len(forms) - 1 and not CONTROL.search(line.replace("\t", "")):
        return line
    return "\t".join(form(value) for form, value in zip(forms, row))
