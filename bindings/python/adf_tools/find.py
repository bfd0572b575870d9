"""adf-catalogue find: asks a catalogue which disks, files and deleted files have these words, or this checksum."""

from __future__ import annotations

import argparse
import itertools
import os
import re
import sqlite3
import sys
from typing import Iterator, Sequence

from adf_tools import database
from adf_tools.names import digits_of, one_line
from adf_tools.program import FAILED, NOT_FOUND, command_line, host_text, stop

SUM_COLUMNS = {8: "crc32", 32: "md5", 40: "sha1", 64: "sha256"}
SUM = re.compile("[0-9a-f]+")
HIDDEN = re.compile("[\x7f-\x9f\u200b-\u200f\u2028-\u202e\u2060-\u206f\ufeff\ud800-\udfff]")  # what JSON has as it is, and no terminal shows
PARTING, TOGETHER = {ord("\t"): None, ord("\n"): None}, 1000  # what parts places; so many of them are written at once
PLACE = "images.name AS image, entries.path"
FIELDS = f"{PLACE}, entries.kind, entries.size, entries.date, entries.state, entries.sha256"
OF_IMAGE = "images.name AS image, NULL AS path, kind, bytes AS size, altered AS date, verdict AS state, sha256"
BY_ENTRY = """SELECT {} FROM entry_words JOIN entries ON entries.id = entry_words.rowid JOIN images ON images.id = image
WHERE entry_words MATCH ? ORDER BY images.name, images.number, entries.id"""
BY_IMAGE = f"""SELECT {OF_IMAGE} FROM image_words JOIN images ON images.id = image_words.rowid
WHERE image_words MATCH ? ORDER BY images.name, images.number"""
BY_TEXT = f"""SELECT {FIELDS} FROM text_words JOIN entries ON entries.id = text_words.rowid JOIN images ON images.id = image
WHERE text_words MATCH ? ORDER BY images.name, images.number, entries.id"""
BY_DELETED = """SELECT images.name AS image, deleted.path, deleted.kind, deleted.size, deleted.date, deleted.state, deleted.block
FROM deleted_words JOIN deleted ON deleted.id = deleted_words.rowid JOIN images ON images.id = image
WHERE deleted_words MATCH ? ORDER BY images.name, images.number, deleted.id"""
BY_FILE_SUM = f"SELECT {FIELDS} FROM entries JOIN images ON images.id = image WHERE entries.sha256 = ? ORDER BY images.name, images.number, entries.id"


def query_of(texts: Sequence[str]) -> str:
    """The query for what has a word that begins with each of these; what stands between spaces is a word."""
    plain = (database.words_of(text.encode("utf-8", "replace").decode()) or "" for text in texts)
    words = [word.replace('"', '""') for text in plain for word in text.split()] or [""]
    return " ".join(f'"{word}"*' for word in words)


def by_words(connection: sqlite3.Connection, words: Sequence[str], fields: str = FIELDS) -> Iterator[sqlite3.Row]:
    """The images whose name or label has the words, and then the entries whose path or comment has them, with these fields."""
    yield from connection.execute(BY_IMAGE, (query_of(words),))
    yield from connection.execute(BY_ENTRY.format(fields), (query_of(words),))


def by_text(connection: sqlite3.Connection, words: Sequence[str], out: str) -> Iterator[sqlite3.Row]:
    """The text files whose contents have the words."""
    if not connection.execute("SELECT value FROM facts WHERE name = 'texts'").fetchone():
        stop(FAILED, f"{host_text(out)}: contents are found only if --index-text was given once")
    yield from connection.execute(BY_TEXT, (query_of(words),))


def by_deleted(connection: sqlite3.Connection, words: Sequence[str]) -> Iterator[sqlite3.Row]:
    """The deleted headers whose path or comment has the words."""
    yield from connection.execute(BY_DELETED, (query_of(words),))


def accept_sum(connection: sqlite3.Connection, digits: str, out: str) -> None:
    """A catalogue has checksums of this kind."""
    if SUM_COLUMNS[len(digits)] != "sha256" and connection.execute("SELECT 1 FROM facts WHERE name = 'sums'").fetchone():
        stop(FAILED, f"{host_text(out)}: it was written with --sha256-only, and has no other checksums")


def by_sum(connection: sqlite3.Connection, digits: str) -> Iterator[sqlite3.Row]:
    """The images with this checksum, and the files, if it is a SHA-256."""
    column = SUM_COLUMNS[len(digits)]
    yield from connection.execute(f"SELECT {OF_IMAGE} FROM images WHERE {column} = ? ORDER BY name, number", (digits,))
    if column == "sha256":
        yield from connection.execute(BY_FILE_SUM, (digits,))


def plain(text: object) -> str:
    """A text of a database in one line, of which a terminal shows all, and does nothing that it says."""
    if isinstance(text, str) and text.isascii() and text.isprintable():
        return text
    return HIDDEN.sub(lambda found: digits_of(found[0].encode("utf-8", "replace")), one_line(text))


def lines_of(rows: Sequence[sqlite3.Row]) -> str:
    """The lines of places. A terminal shows all of them, and does nothing that they say; as a rule they have nothing else."""
    lines = "".join([f"{row[0] or ''}\t{row[1] or ''}\n" for row in rows])
    if lines.isascii() and lines.count("\t") == lines.count("\n") == len(rows) and lines.translate(PARTING).isprintable():
        return lines
    return "".join(f"{plain(row[0] or '')}\t{plain(row[1] or '')}\n" for row in rows)


def json_lines_of(rows: Sequence[sqlite3.Row]) -> str:
    """The lines of places as JSON objects."""
    import json

    lines = (json.dumps({name: row[name] for name in row.keys() if row[name] is not None}, ensure_ascii=False, default=str) for row in rows)
    return "".join(HIDDEN.sub(lambda found: json.dumps(found[0])[1:-1], line_) + "\n" for line_ in lines)


def checksum(text: str) -> str:
    """The digits of a checksum that a word of the command line gives."""
    digits = text.lower()
    if not SUM.fullmatch(digits) or len(digits) not in SUM_COLUMNS:
        raise argparse.ArgumentTypeError(f"not a checksum of 8, 32, 40 or 64 hexadecimal digits: {text!r}")
    return digits


def work(words: argparse.Namespace) -> int:
    """Writes a line for each place that is found; the status says whether there is one."""
    count = 0
    with database.asked(os.path.join(words.out, database.NAME)) as connection:
        if words.sum:
            accept_sum(connection, words.sum, words.out)
            rows = by_sum(connection, words.sum)
        elif words.text:
            rows = by_text(connection, words.words, words.out)
        elif words.deleted:
            rows = by_deleted(connection, words.words)
        else:
            rows = by_words(connection, words.words, FIELDS if words.json else PLACE)
        while some := list(itertools.islice(rows, TOGETHER)):
            sys.stdout.buffer.write((json_lines_of if words.json else lines_of)(some).encode("utf-8", "backslashreplace"))
            count += len(some)
    return 0 if count else NOT_FOUND


def line() -> argparse.ArgumentParser:
    parser = command_line("adf-catalogue find", "Finds disks and files of a catalogue: a line IMAGE, tab, PATH for each.")
    parser.add_argument("words", metavar="WORDS", nargs="*", help="words with which words of names, labels, paths and comments begin, all of them")
    parser.add_argument("out", metavar="OUT", help="the catalogue")
    either = parser.add_mutually_exclusive_group()
    either.add_argument("--sum", type=checksum, metavar="SUM", help="in place of words: a CRC-32, MD5, SHA-1 or SHA-256 of an image, a SHA-256 of a file")
    either.add_argument("--text", action="store_true", help="find text files by their contents, if the catalogue was written with --index-text")
    either.add_argument("--deleted", action="store_true", help="find what was deleted and whose header still stands, by paths and comments")
    parser.add_argument("--json", action="store_true", help="write JSON Lines: an object for each")
    return parser


def checked(words: argparse.Namespace) -> int:
    """Words or a checksum are wanted, and not both."""
    if bool(words.words) == bool(words.sum):
        line().error("either words or --sum is wanted")
    return work(words)
