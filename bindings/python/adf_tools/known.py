"""Published lists of known disks (Logiqx XML, as TOSEC and others publish them), and which images they name."""

from __future__ import annotations

import os
import re
import sqlite3
from typing import Any, BinaryIO, Dict, Iterator, List, NamedTuple, NoReturn, Optional, Sequence, Tuple
from xml.parsers import expat

from adf_tools.database import transaction
from adf_tools.names import host_letters
from adf_tools.program import FAILED, host_text, stop

MOST_BYTES, MOST_DISKS, MOST_TEXT, MOST_TAG, MOST_DEPTH, PART = 1 << 30, 5_000_000, 1024, 4 << 20, 100, 1 << 20
SUMS = {"crc": (8, "crc32"), "md5": (32, "md5"), "sha1": (40, "sha1")}
HEXADECIMAL = re.compile("[0-9a-f]+")
PACKED = (".gz", ".adz", ".hdz", ".zip")
STATUSES = {"baddump": "a bad dump", "nodump": "not dumped"}
PUBLISHED = "published"
INSERT = "INSERT INTO known (list, game, name, plain_name, size, crc32, md5, sha1, status) VALUES (?, ?, ?, ?, ?, ?, ?, ?, ?)"
MATCHES = """
SELECT images.id, known.list, game, known.name, status, status IS NOT NULL FROM images JOIN known ON known.sha1 = images.sha1
UNION ALL SELECT images.id, known.list, game, known.name, status, status IS NOT NULL FROM images JOIN known ON known.md5 = images.md5 WHERE known.sha1 IS NULL
UNION ALL SELECT images.id, known.list, game, known.name, status, status IS NOT NULL FROM images JOIN known ON known.crc32 = images.crc32 AND known.size = bytes
    WHERE known.sha1 IS NULL AND known.md5 IS NULL
ORDER BY 1, 6, 4, 3, 2"""


class Noted(NamedTuple):
    """Whether a list has an image, what it calls it, and whether it says nothing bad of it."""

    known: Optional[str]
    known_as: Optional[str]
    is_good: bool = False


class Disk(NamedTuple):
    """A disk that a list names: its list, the game or set it is of, its own name, its length, its checksums, and what the list says of it."""

    list: str
    game: str
    name: str
    size: Optional[int]
    crc32: Optional[str]
    md5: Optional[str]
    sha1: Optional[str]
    status: Optional[str]


class BadList(Exception):
    """What a list has that it may not have."""


def refused(*_what: Any) -> NoReturn:
    raise BadList("it declares entities, which no list needs")


def plain_name(name: str) -> str:
    """The name of an image without folders, in small letters, and without what an archive adds."""
    name = name.rsplit("/", 1)[-1].lower()
    for end in PACKED:
        name = name[: -len(end)] if name.endswith(end) else name
    return name if name.endswith((".adf", ".hdf")) else name + ".adf"


def text(attributes: Dict[str, str], name: str) -> str:
    return host_letters(attributes.get(name, "")[:MOST_TEXT].encode("utf-8", "surrogateescape"))


def digits(attributes: Dict[str, str], name: str) -> Optional[str]:
    """A checksum, if it has as many digits as it should."""
    value = attributes.get(name, "").lower()
    return value if len(value) == SUMS[name][0] and HEXADECIMAL.fullmatch(value) else None


class Parser:
    """Reads a list step by step. Nothing that it names is loaded, and no entity is taken."""

    def __init__(self, title: str) -> None:
        self.title, self.game, self.depth, self.found = title, "", 0, []  # type: str, str, int, List[Disk]
        self.parser = expat.ParserCreate()
        self.parser.StartElementHandler, self.parser.EndElementHandler = self.begun, self.ended
        self.parser.EntityDeclHandler = self.parser.ExternalEntityRefHandler = refused

    def begun(self, element: str, attributes: Dict[str, str]) -> None:
        self.depth += 1
        if self.depth > MOST_DEPTH:
            raise BadList(f"it has tags in more than {MOST_DEPTH} tags")
        if element in ("game", "machine"):
            self.game = text(attributes, "name")
        elif element == "rom":
            size = attributes.get("size", "")
            number = int(size) if re.fullmatch("[0-9]{1,15}", size) else None
            status = attributes.get("status", "")
            told = [*(digits(attributes, name) for name in SUMS), status if status in STATUSES else None]
            self.found.append(Disk(self.title, self.game, text(attributes, "name"), number, *told))

    def ended(self, _element: str) -> None:
        self.depth -= 1

    def disks(self, file: BinaryIO) -> Iterator[Disk]:
        """The disks of an open file that have a checksum, or are said not to be dumped."""
        count = read = 0
        while part := file.read(PART):
            read += len(part)
            if read > MOST_BYTES:
                raise BadList(f"it has more than {MOST_BYTES} bytes")
            self.parser.Parse(part, False)
            if read - self.parser.CurrentByteIndex > MOST_TAG:
                raise BadList(f"it has a tag of more than {MOST_TAG} bytes")
            found, self.found = [disk for disk in self.found if disk.sha1 or disk.md5 or disk.crc32 or disk.status == "nodump"], []
            count += len(found)
            if count > MOST_DISKS:
                raise BadList(f"it has more than {MOST_DISKS} disks")
            yield from found
        self.parser.Parse(b"", True)


def has_lists(connection: sqlite3.Connection) -> bool:
    """Whether the database has any list."""
    return connection.execute("SELECT 1 FROM known LIMIT 1").fetchone() is not None


def take(connection: sqlite3.Connection, paths: Sequence[str]) -> None:
    """Puts these lists in the place of those that the database has; if one of them cannot be read, nothing changes."""
    with transaction(connection):
        connection.execute("DELETE FROM known")
        for path in paths:
            try:
                with open(path, "rb") as file:
                    disks = Parser(host_letters(os.path.basename(os.fsencode(path)))).disks(file)
                    connection.executemany(INSERT, (row_of(disk) for disk in disks))
            except (expat.ExpatError, BadList, ValueError) as error:
                stop(FAILED, f"{host_text(path)}: not a list of known disks: {error}")


def row_of(disk: Disk) -> Tuple[Any, ...]:
    return disk.list, disk.game, disk.name, plain_name(disk.name), *disk[3:]


def note(connection: sqlite3.Connection) -> None:
    """Notes of each image whether a list knows it, and as what, and in which group it is by that; pages that say something else by that
    are made again."""
    found: Dict[int, Noted] = {}
    if is_listed := has_lists(connection):
        for image, title, game, name, status, _ in connection.execute(MATCHES):
            found.setdefault(image, Noted("known", called(name or game, title, status), status is None))
    with transaction(connection):
        others = "" if is_listed else "WHERE known IS NOT NULL OR known_as IS NOT NULL OR advice IS NOT judged"
        rows = connection.execute(f"SELECT id, name, sha256, judged, advice, known, known_as FROM images {others}").fetchall()
        for row in rows:
            now = found.get(row["id"]) or (unmatched(connection, row) if is_listed and row["sha256"] else Noted(None, None))
            advice = PUBLISHED if now.is_good and row["judged"] not in ("sound", "not read") else row["judged"]
            if (now.known, now.known_as, advice) != (row["known"], row["known_as"], row["advice"]):
                line = "UPDATE images SET known = ?, known_as = ?, advice = ?, is_shown = 0 WHERE id = ?"
                connection.execute(line, (now.known, now.known_as, advice, row["id"]))


def called(name: str, title: str, status: Optional[str]) -> str:
    """What a list calls a disk, and what it says of it."""
    return f"{name} ({title}, {STATUSES[status]})" if status in STATUSES else f"{name} ({title})"


def unmatched(connection: sqlite3.Connection, row: sqlite3.Row) -> Noted:
    """Of an image that no list has by its checksums: whether a list has its name, and checksums for it."""
    line = """SELECT name, list, status, COALESCE(sha1, md5, crc32) IS NOT NULL AS has_sums FROM known WHERE plain_name = ?
        ORDER BY has_sums DESC, list, name LIMIT 1"""
    named = connection.execute(line, (plain_name(row["name"]),)).fetchone()
    if named is None:
        return Noted("unknown", None)
    return Noted("differs" if named["has_sums"] else "unknown", called(named["name"], named["list"], named["status"]))
