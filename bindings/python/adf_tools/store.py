"""What is kept of each file, put into the database of a catalogue, and taken out of it."""

from __future__ import annotations

import hashlib
import json
import os
import sqlite3
from collections import Counter
from typing import Any, Dict, Iterable, NamedTuple, Optional, Sequence, Tuple

from adf_tools.out_folder import TWICE
from adf_tools.reader import Read
from adf_tools.volumes import Record, Rows

Stamp = Tuple[int, int, int, int]
LONGEST_WORDS = 1024  # letters of a path, from its end, that are searched
NO_STAMP = (None, None, None, None)
MOST_NUMBER = 2**63 - 1
TABLES = {
    "entries": ("kind", "path", "size", "protection", "date", "comment", "header", "state", "sha256"),
    "findings": ("first", "last", "cause", "path", "owner"),
    "left_out": ("why", "path"),
    "deleted": ("block", "state", "kind", "path", "size", "protection", "date", "comment"),
    "icons": ("path", "width", "height", "palette", "pixels"),
}
PARTITION = ("number", "name", "kind", "first", "blocks", "flags", "priority", "block", "fault")
OF_FILES = "file IN (SELECT value FROM json_each(?1))"
GOING = (
    f"""INSERT INTO image_words (image_words, rowid, name, label) SELECT 'delete', id, words_of(name), words_of(label)
        FROM images WHERE {OF_FILES}""",
    f"""INSERT INTO entry_words (entry_words, rowid, path, comment) SELECT 'delete', entries.id, words_of(substr(path, -1024)), words_of(comment)
        FROM entries JOIN images ON images.id = image WHERE {OF_FILES}""",
    f"""INSERT INTO deleted_words (deleted_words, rowid, path, comment)
        SELECT 'delete', deleted.id, words_of(substr(path, -1024)), words_of(comment) FROM deleted JOIN images ON images.id = image WHERE {OF_FILES}""",
    f"DELETE FROM text_words WHERE rowid IN (SELECT entries.id FROM entries JOIN images ON images.id = image WHERE {OF_FILES})",
    "DELETE FROM files WHERE id IN (SELECT value FROM json_each(?1))",
)
COMING = (
    f"INSERT INTO image_words (rowid, name, label) SELECT id, words_of(name), words_of(label) FROM images WHERE {OF_FILES}",
    f"""INSERT INTO entry_words (rowid, path, comment) SELECT entries.id, words_of(substr(path, -1024)), words_of(comment)
        FROM entries JOIN images ON images.id = image WHERE {OF_FILES}""",
    f"""INSERT INTO deleted_words (rowid, path, comment) SELECT deleted.id, words_of(substr(path, -1024)), words_of(comment)
        FROM deleted JOIN images ON images.id = image WHERE {OF_FILES}""",
)
SHOWN = """SELECT name, number, page, label, NULL AS path, NULL AS comment, sha256, tree FROM images WHERE file = ?1
    UNION ALL SELECT name, number, page, label, path, comment, entries.sha256, NULL FROM entries JOIN images ON images.id = image WHERE file = ?1"""
LISTED = f"SELECT name, number, page, boot_crc32, boot FROM images WHERE {OF_FILES}"
FILE_BITS, NAMES = 32, "i-"  # of the 40 bits of an image's number, those that do not name the part of the search that has its name; its begin
TOUCH = "INSERT INTO touched VALUES (?, ?) ON CONFLICT (sha256) DO UPDATE SET name = MIN(name, excluded.name)"
TOUCHED = (
    f"""INSERT INTO touched SELECT * FROM (
            SELECT entries.sha256, name FROM entries JOIN images ON images.id = entries.image WHERE {OF_FILES} AND entries.sha256 IS NOT NULL
            UNION SELECT sha256, name FROM images WHERE {OF_FILES} AND sha256 IS NOT NULL
            UNION SELECT tree, name FROM images WHERE {OF_FILES} AND tree IS NOT NULL)
        WHERE TRUE ON CONFLICT (sha256) DO UPDATE SET name = MIN(name, excluded.name)""",
    f"INSERT INTO touched_words (words) SELECT words_of(name || ' ' || COALESCE(label, '')) FROM images WHERE {OF_FILES}",
    f"""INSERT INTO touched_words (words) SELECT words_of(substr(path, -1024) || ' ' || comment)
        FROM entries JOIN images ON images.id = image WHERE {OF_FILES}""",
)


class Kept(NamedTuple):
    """A file with its stamp, and what is kept of it."""

    path: str
    stamp: Optional[Stamp]
    read: Read


def stamp_of(path: bytes) -> Optional[Stamp]:
    """What changes if a file does, or another one takes its place: its size, date, inode, and when the system last changed any of
    these, as far as a database has room for the numbers. None if they cannot be had."""
    try:
        found = os.stat(path)
        return found.st_size, found.st_mtime_ns & MOST_NUMBER, found.st_ino & MOST_NUMBER, found.st_ctime_ns & MOST_NUMBER
    except OSError:
        return None


def wants_texts(connection: sqlite3.Connection, is_asked: bool) -> bool:
    """Whether the contents of text files are kept: once that was asked for, they are."""
    if is_asked:
        connection.execute("INSERT OR REPLACE INTO facts VALUES ('texts', '1')")
    return connection.execute("SELECT 1 FROM facts WHERE name = 'texts'").fetchone() is not None


def wants_all_sums(connection: sqlite3.Connection, is_short: bool = False, has_lists: bool = False) -> bool:
    """Whether all checksums are made: once that of SHA-256 alone was asked for, they are not, until lists of known disks come."""
    if is_short:
        connection.execute("INSERT OR REPLACE INTO facts VALUES ('sums', 'sha256')")
    if has_lists:
        connection.execute("DELETE FROM facts WHERE name = 'sums'")
    return connection.execute("SELECT 1 FROM facts WHERE name = 'sums'").fetchone() is None


def counts(connection: sqlite3.Connection) -> Tuple[int, int, int]:
    """How many images there are, how many of them are refused, or have a fault in the tables of a hard disk, and how many not read."""
    line = """SELECT COUNT(*), COALESCE(SUM(verdict != 'ok' OR judged = 'tables'), 0), COALESCE(SUM(judged = 'not read'), 0) FROM images"""
    whole, others, unread = connection.execute(line).fetchone()
    return whole, others - unread, unread


def insert(connection: sqlite3.Connection, table: str, columns: Dict[str, Any]) -> int:
    """Adds a row to a table, and gives its number."""
    names, marks = ", ".join(columns), ", ".join("?" * len(columns))
    return connection.execute(f"INSERT INTO {table} ({names}) VALUES ({marks})", tuple(columns.values())).lastrowid or 0


def insert_rows(connection: sqlite3.Connection, table: str, names: Sequence[str], first: Tuple[str, int], rows: Rows) -> None:
    """Adds rows to a table, each with one more value in front."""
    line = f"INSERT INTO {table} ({first[0]}, {', '.join(names)}) VALUES (?{', ?' * len(names)})"
    connection.executemany(line, ((first[1], *row) for row in rows))


def each_of(connection: sqlite3.Connection, lines: Iterable[str], files: Sequence[int]) -> None:
    """Does this with all of these files at once, which costs an index of words far less than one after the other."""
    for line in lines if files else ():
        connection.execute(line, (json.dumps(files),))


def is_noted(connection: sqlite3.Connection) -> bool:
    """Whether it is noted what came or went: once there are pages, of which only some are made again."""
    return connection.execute("SELECT 1 FROM facts WHERE name = 'parts'").fetchone() is not None


def remove(connection: sqlite3.Connection, files: Sequence[int]) -> None:
    """Takes files out, with all that is kept of their images. The words and sums that they had are noted."""
    if is_noted(connection):
        each_of(connection, TOUCHED, files)
        note_listed(connection, listed_of(connection, files), [])
    each_of(connection, GOING, files)


def number_of(name: str, number: int) -> int:
    """What an image is called in the parts of the search: a number of 40 bits that is the same in each run."""
    return int.from_bytes(hashlib.sha256(f"{name}\0{number}".encode("utf-8", "replace")).digest()[:5], "big")


def names_part(name: str, number: int) -> str:
    """The part of the search that has the name and the page of an image."""
    return f"{NAMES}{number_of(name, number) >> FILE_BITS}"


def listed_of(connection: sqlite3.Connection, files: Sequence[int]) -> Rows:
    """What the pages that name all images of a kind tell of those in these files."""
    return [tuple(row) for row in connection.execute(LISTED, (json.dumps(files),))]


def note_listed(connection: sqlite3.Connection, before: Rows, after: Rows) -> None:
    """Notes which of these pages are due, by the images that came or went."""
    due = {names_part(row[0], row[1]) for row in changed(before, after)}
    connection.executemany("INSERT OR IGNORE INTO parts_due VALUES (?)", [(name,) for name in sorted(due | {TWICE})] if due else [])


def shown_of(connection: sqlite3.Connection, file: int) -> Rows:
    """What pages and the search show of a file: of each image and entry its names, and then its sums."""
    return [tuple(row) for row in connection.execute(SHOWN, (file,))]


def changed(before: Rows, after: Rows) -> Iterable[Tuple[Any, ...]]:
    """The rows that came or went, each once."""
    one, other = Counter(before), Counter(after)
    return {**(one - other), **(other - one)}


def put(connection: sqlite3.Connection, files: Sequence[Tuple[Optional[int], Kept]], run: int) -> None:
    """Puts files in, each in the place of what is known of it by its number. The words and sums of what came or went are noted."""
    has_notes = is_noted(connection)
    known = [number for number, _ in files if number is not None]
    before = {number: shown_of(connection, number) for number in known} if has_notes else {}
    listed = listed_of(connection, known) if has_notes else []
    each_of(connection, GOING, known)
    added = [(number, add(connection, kept, run)) for number, kept in files]
    each_of(connection, COMING, [new for _, new in added])
    if has_notes:
        note_listed(connection, listed, listed_of(connection, [new for _, new in added]))
        each_of(connection, TOUCHED, [new for number, new in added if number is None])
        for number, new in added:
            if number is not None:
                note_changes(connection, before[number], shown_of(connection, new))


def note_changes(connection: sqlite3.Connection, before: Rows, after: Rows) -> None:
    """Notes the words and sums of a file that has changed."""
    for name, _, _, label, path, comment in changed([row[:6] for row in before], [row[:6] for row in after]):
        text = f"{name} {label or ''}" if path is None else f"{path[-LONGEST_WORDS:]} {comment}"
        connection.execute("INSERT INTO touched_words (words) VALUES (words_of(?))", (text,))
    sums = changed(*([(*row[:6], each) for row in rows for each in row[6:] if each is not None] for rows in (before, after)))
    connection.executemany(TOUCH, [(row[6], row[0]) for row in sums])


def add(connection: sqlite3.Connection, kept: Kept, run: int) -> int:
    """Adds a file, and gives its number. What could not be read has no stamp, so the next run reads it again."""
    path, stamp, read = kept
    is_read = all(record.columns["advice"] != "not read" for record in read.records)
    size, altered, inode, changed = stamp if stamp and is_read else NO_STAMP
    columns = dict(path=path, size=size, altered_ns=altered, inode=inode, changed_ns=changed, run=run)
    if read.sums and stamp:
        columns.update(read.sums._asdict(), bytes=stamp[0])
        note_sum(connection, path, run, stamp[0], read.sums.sha256)
    file = insert(connection, "files", columns)
    add_passed(connection, file, read.passed)
    disk = None
    for record in read.records:
        if "partition" in record.columns:
            add_volume(connection, file, disk, record)
        else:
            disk = add_image(connection, file, None, record)
    return file


def note_sum(connection: sqlite3.Connection, path: str, run: int, size: int, digest: str) -> None:
    """Keeps that a file had this sum in a run, if it is not what was noted of it last."""
    last = connection.execute("SELECT bytes, sha256 FROM sums WHERE path = ? ORDER BY id DESC LIMIT 1", (path,)).fetchone()
    if last is None or tuple(last) != (size, digest):
        insert(connection, "sums", dict(path=path, run=run, bytes=size, sha256=digest))


def add_passed(connection: sqlite3.Connection, file: Optional[int], kinds: Dict[str, int]) -> None:
    """Notes how many files of each kind are no images, in an archive, or below the folder if none is given."""
    connection.executemany("INSERT INTO passed (file, kind, count) VALUES (?, ?, ?)", [(file, *pair) for pair in sorted(kinds.items())])


def set_passed(connection: sqlite3.Connection, kinds: Dict[str, int]) -> None:
    """Notes how many files of each kind below the folder are no images, in the place of what was noted before."""
    connection.execute("DELETE FROM passed WHERE file IS NULL")
    add_passed(connection, None, kinds)


def add_volume(connection: sqlite3.Connection, file: int, disk: Optional[int], record: Record) -> None:
    """Adds the volume of a partition of a hard disk."""
    columns = dict(record.columns)
    number = columns.pop("partition")
    volume = add_image(connection, file, disk, record._replace(columns=columns))
    connection.execute("UPDATE partitions SET volume = ? WHERE disk = ? AND number = ?", (volume, disk, number))


def add_image(connection: sqlite3.Connection, file: int, disk: Optional[int], record: Record) -> int:
    """Adds an image and its rows; gives its number."""
    columns: Dict[str, Any] = {**record.columns, "judged": record.columns["advice"], "file": file, "disk": disk}
    image = insert(connection, "images", columns)
    for table, names in TABLES.items():
        insert_rows(connection, table, names, ("image", image), getattr(record, table))
    insert_rows(connection, "partitions", PARTITION, ("disk", image), record.partitions)
    if record.texts:
        (first,) = connection.execute("SELECT MIN(id) FROM entries WHERE image = ?", (image,)).fetchone()
        connection.executemany("INSERT INTO text_words (rowid, content) VALUES (?, ?)", ((first + place, text) for place, text in record.texts))
    return image
