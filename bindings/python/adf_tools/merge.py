"""adf-catalogue scan and merge: parts of a collection are read on several machines, each into a database of its own, and put together."""

from __future__ import annotations

import argparse
import contextlib
import hashlib
import os
import re
import sqlite3
from collections import Counter
from typing import Any, Dict, Iterator, List, NamedTuple, Optional, Sequence, Tuple

import adf
from adf_tools import database, store
from adf_tools.collection import is_below
from adf_tools.database import told, transaction
from adf_tools.out_folder import OutFolder, OwnNames
from adf_tools.names import one_line
from adf_tools.program import FAILED, REFUSED, command_line, host_text, open_input, stop
from adf_tools.reader import Read, Wanted, most_common
from adf_tools.scan import WEIGHT, Names, Options, Part, Scan
from adf_tools.sums import Sums
from adf_tools.volumes import Record, Rows, record

PART = re.compile("([1-9][0-9]{0,5})/([1-9][0-9]{0,5})")
IMAGE = tuple(
    """name number member page bytes crc32 md5 sha1 sha256 tree advice verdict block cause kind type blocks used free dirs files label root
    altered created boot boot_crc32 boot_is_right faults sound lost lost_least unlisted deleted deleted_whole fits form roles""".split()
)
FILES = 100  # of a transaction


def part_of(text: str) -> Part:
    """The part that a word of the command line names, as 3/8."""
    found = PART.fullmatch(text)
    if not found or int(found[1]) > int(found[2]):
        raise argparse.ArgumentTypeError(f"not a part, as 3/8, the third of eight: {text!r}")
    return Part(int(found[1]), int(found[2]))


# Scan


def names_in(path: str, folder: bytes) -> Names:
    """The names in a file, as `find -print0` writes those of a folder."""
    with open_input(path) as file:
        content = file.read()
    paths = content.split(b"\0")
    if paths.pop():
        stop(FAILED, f"{host_text(path)}: its last name does not end in a NUL: find -print0 writes such names")
    other = next((each for each in paths if not is_below(each, folder)), None)
    if other is not None:
        stop(FAILED, f"{host_text(path)}: {host_text(other) or 'an empty name'} is not below {host_text(folder)}")
    return Names(paths, hashlib.sha256(content).hexdigest())


@contextlib.contextmanager
def working_beside(path: str, connection: sqlite3.Connection) -> Iterator[OwnNames]:
    """A working folder beside the database of a part, which names it."""
    folder = os.path.dirname(os.path.abspath(path))
    fd = os.open(folder, os.O_RDONLY | os.O_DIRECTORY | os.O_CLOEXEC)
    try:
        own = OwnNames(connection, OutFolder(folder, fd))
        with own.working():
            yield own
    finally:
        os.close(fd)


def scan(words: argparse.Namespace) -> int:
    """Reads a part of the files into a database, or brings that up to date."""
    adf.load()
    os.listdir(os.fsencode(words.folder))
    listed = None if words.names is None else names_in(words.names, os.fsencode(words.folder))
    with database.alone(words.out), database.opened(words.out, not os.path.exists(words.out)) as connection:
        with working_beside(words.out, connection) as names:
            out = names.out
            left_out = {out.identity} if out.status(database.NAME) else set()
            wanted = Wanted(False, store.wants_texts(connection, words.index_text), store.wants_all_sums(connection, words.sha256_only))
            options = Options(wanted, words.fresh, words.part, listed)
            Scan(connection, os.fsencode(words.folder), names, left_out, options).update()
        _, refused, unread = store.counts(connection)
    return FAILED if unread else REFUSED if refused else 0


def scan_line() -> argparse.ArgumentParser:
    parser = command_line("adf-catalogue scan", "Reads a part of the images in a folder into a database, which adf-catalogue merge takes.")
    parser.add_argument("part", metavar="PART", type=part_of, help="which part, as 3/8: the third of eight")
    parser.add_argument("folder", metavar="FOLDER", help="the images, as of adf-catalogue")
    parser.add_argument("out", metavar="DATABASE", help="the database of the part, which is created or brought up to date")
    parser.add_argument("--index-text", action="store_true", help="keep the contents of text files too")
    parser.add_argument("--sha256-only", action="store_true", help="make no other checksums of images; later runs of this part do so too")
    parser.add_argument("--fresh", action="store_true", help="read all files again, not only those that have changed")
    parser.add_argument("--names", metavar="LIST", help="do not list the folder: LIST has the names of its files, of find FOLDER/ ! -type d -print0")
    return parser


# Merge


def facts_of(connection: sqlite3.Connection) -> Dict[str, str]:
    return {name: value for name, value in connection.execute("SELECT name, value FROM facts")}


class OpenPart(NamedTuple):
    """The database of a part: its path, and the connection to it."""

    path: str
    connection: sqlite3.Connection


class Row(NamedTuple):
    """A file in a part."""

    path: str
    part: OpenPart
    row: sqlite3.Row


def checked(parts: Sequence[OpenPart]) -> Dict[str, str]:
    """The facts of the parts, which have to be all parts of one collection, read in one way."""
    each = [(part.path, facts_of(part.connection)) for part in parts]
    found = [PART.fullmatch(facts.get("part", "")) for _, facts in each]
    for (path, facts), which in zip(each, found):
        pairs = [(facts.get(name), each[0][1].get(name)) for name in ("reader", "title", "names")] + [(which and which[2], found[0] and found[0][2])]
        if which is None or any(own != first for own, first in pairs):
            stop(FAILED, f"{host_text(path)}: not a part of the same collection as the first one, read by the same program, with the same list of names")
    whole, numbers = int(found[0][2]) if found[0] else 0, sorted(int(which[1]) for which in found if which)
    if numbers != list(range(1, whole + 1)):
        stop(FAILED, f"the parts of a whole are wanted, 1/{whole} to {whole}/{whole}, each once; these are {', '.join(map(str, numbers))}")
    return each[0][1]


def read_of(part: sqlite3.Connection, file: sqlite3.Row) -> Read:
    """What a part keeps of a file, as a reader gives it."""
    found = [file[name] for name in Sums._fields]
    passed = dict(part.execute("SELECT kind, count FROM passed WHERE file = ?", (file["id"],)).fetchall())
    records = records_of(part, file["id"])
    return Read(records, Sums(*found) if file["sha256"] else None, passed, sum(record.weight for record in records))


def records_of(part: sqlite3.Connection, file: int) -> List[Record]:
    """What a part keeps of the images in a file."""
    numbers = {volume: (disk, number) for volume, disk, number in part.execute(
        "SELECT volume, partitions.disk, partitions.number FROM partitions JOIN images ON images.id = partitions.disk WHERE file = ?", (file,))}  # fmt: skip
    found = []
    for row in part.execute("SELECT * FROM images WHERE file = ? ORDER BY COALESCE(disk, id), id", (file,)).fetchall():
        columns: Dict[str, Any] = {name: row[name] for name in IMAGE}
        if row["disk"] is not None and row["id"] in numbers:
            columns["partition"] = numbers[row["id"]][1]
        found.append(rows_of(part, row["id"], columns))
    return found


def rows_of(part: sqlite3.Connection, image: int, columns: Dict[str, Any]) -> Record:
    """An image of a part with its rows of all tables."""
    tables: Dict[str, Tuple[str, ...]] = {**store.TABLES, "partitions": store.PARTITION}
    rows: Dict[str, Any] = {
        table: [tuple(row) for row in part.execute(f"SELECT {', '.join(names)} FROM {table} WHERE {key} = ? ORDER BY id", (image,))]
        for table, names in tables.items()
        for key in ["disk" if table == "partitions" else "image"]
    }
    line = "SELECT c0 FROM entries LEFT JOIN text_words_content AS texts ON texts.id = entries.id WHERE image = ? ORDER BY entries.id"
    texts: Rows = [(place, text) for place, (text,) in enumerate(part.execute(line, (image,))) if text is not None]
    return record(columns)._replace(texts=texts, **rows)


def passed_of(parts: Sequence[OpenPart]) -> Dict[str, int]:
    """How many files of each kind are no images, in all parts."""
    found: Counter[str] = Counter()
    for part in parts:
        with told(part.path):
            found.update(dict(part.connection.execute("SELECT kind, count FROM passed WHERE file IS NULL").fetchall()))
    return most_common(found)


def files_of(parts: Sequence[OpenPart]) -> List[Row]:
    """The files of all parts by their paths; each path is in one part."""
    files: Dict[str, Row] = {}
    for part in parts:
        with told(part.path):
            for row in part.connection.execute("SELECT * FROM files"):
                first = files.setdefault(row["path"], Row(row["path"], part, row))
                if first.row is not row:
                    stop(FAILED, f"{host_text(part.path)}: {one_line(row['path'])} is in {host_text(first.part.path)} too")
    return [files[path] for path in sorted(files)]


class Merge:
    """Puts parts into the database of a catalogue. What it has of a file already is left as it is."""

    def __init__(self, connection: sqlite3.Connection, parts: Sequence[OpenPart]) -> None:
        self.connection, self.parts = connection, parts

    def update(self) -> None:
        facts = checked(self.parts)
        known = self.begun(facts)
        files = files_of(self.parts)
        new = [file for file in files if known.get(file.path, (0, None))[1] != stamp_of(file.row) or file.row["size"] is None]
        for at in range(0, len(new), FILES):
            self.add(known, new[at : at + FILES])
        names = {file.path for file in files}
        with transaction(self.connection):
            store.set_passed(self.connection, passed_of(self.parts))
            gone = [number for path, (number, _) in known.items() if path not in names]
            store.remove(self.connection, gone)
            self.connection.execute("UPDATE runs SET ended = datetime('now'), removed = ? WHERE id = ?", (len(gone), self.run))

    def begun(self, facts: Dict[str, str]) -> Dict[str, Tuple[int, Any]]:
        """Notes that a run begins; gives the files that the catalogue has."""
        with transaction(self.connection):
            if facts_of(self.connection).get("reader") != facts.get("reader"):
                self.connection.execute("UPDATE files SET size = NULL")
            kept = {name: facts[name] for name in ("reader", "title", "texts", "sums") if name in facts}
            self.connection.execute("DELETE FROM facts WHERE name = 'sums'")
            self.connection.executemany("INSERT OR REPLACE INTO facts VALUES (?, ?)", kept.items())
            line = "INSERT INTO runs (begun, program) VALUES (datetime('now'), ?)"
            self.run = self.connection.execute(line, (f"adf-catalogue merge {adf.__version__}",)).lastrowid or 0
        return {row["path"]: (row["id"], stamp_of(row)) for row in self.connection.execute("SELECT * FROM files")}

    def add(self, known: Dict[str, Tuple[int, Any]], files: Sequence[Row]) -> None:
        with transaction(self.connection):
            found: List[Tuple[Optional[int], store.Kept]] = []
            weight = 0
            for path, part, row in files:
                with told(part.path):
                    read = read_of(part.connection, row)
                found.append((known[path][0] if path in known else None, store.Kept(path, stamp_of(row), read)))
                weight += read.weight
                if weight > WEIGHT:
                    store.put(self.connection, found, self.run)
                    found, weight = [], 0
            store.put(self.connection, found, self.run)
            self.connection.execute("UPDATE runs SET read = read + ? WHERE id = ?", (len(files), self.run))


def stamp_of(row: sqlite3.Row) -> Any:
    stamp = tuple(row[name] for name in ("size", "altered_ns", "inode", "changed_ns"))
    return None if stamp[0] is None else stamp


@contextlib.contextmanager
def opened_parts(paths: Sequence[str]) -> Iterator[List[OpenPart]]:
    """The databases of the parts, which are only asked."""
    with contextlib.ExitStack() as stack:
        yield [OpenPart(path, stack.enter_context(database.asked(path, True))) for path in paths]
