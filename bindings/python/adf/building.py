"""Volumes that are built from memory: adf.build, adf.Addition and adf.NotBuilt."""

from __future__ import annotations

import ctypes
from typing import Any, Iterable, NamedTuple, Sequence

from adf import _arguments, _structs
from adf._arguments import EntryPath, Image
from adf._layout import ALL_CAPITALS, BLOCK, CAPITALS, KINDS, MOST_BLOCKS, TYPES
from adf._library import NO_MEMORY, calls
from adf._texts import escape
from adf.dates import Date
from adf.entries import Entry
from adf.errors import Error, NoMemory

NEVER = Date(0, 0, 0)
DONE, EXISTS, FULL = 0, 8, 11
SAME_NAMES = "the case of letters does not count"
MOST_SIZE = 2**63 - 1
DATES = "root", "last change", "creation"
REFUSALS = {
    1: "no kind of volume", 2: "a label is longer than 30 bytes", 3: "bad size", 4: "the room is too small", 5: "no parent",
    6: "parent is file", 7: "no name of an Amiga", 8: "exists", 9: "a comment is longer than 79 bytes", 10: "past the contents",
}


class Addition(NamedTuple):
    """A directory or file to build: its path, its bytes (None for a directory), comment, protection and date. Texts are in Latin-1."""

    path: EntryPath
    content: Image | None = None
    comment: str | bytes = b""
    protection: int = 0
    date: Date = NEVER

    @classmethod
    def of(cls, entry: Entry) -> Addition:
        """What an entry of a volume is, to build it again."""
        content = entry.read() if entry.is_file else None
        return cls(entry.raw_path, content, entry.raw_comment, entry.protection, entry.date)


class NotBuilt(Error, ValueError):
    """No volume is built: why; the path of the addition that has the fault, and its number from 1 (`entry` is the addition itself); of
    one that `exists` the path of the earlier one, `twin`; for a tree that does not fit the blocks that it needs and those that there are,
    without the two boot blocks."""

    def __init__(self, why: str, path: str = "", number: int = 0, need: int = 0, have: int = 0) -> None:
        super().__init__(why, path, number, need, have)
        self.why, self.path, self.number, self.need, self.have = why, path, number, need, have
        self.entry: Addition | None = None
        self.twin = ""

    @property
    def reason(self) -> str:
        """Why, and what it is that exists."""
        return f"{self.why}, as {escape(self.twin)}: {SAME_NAMES}" if self.twin else self.why

    def __str__(self) -> str:
        return f"{escape(self.path)}: {self.reason}" if self.path else self.reason


def _filled(field: Any, raw: bytes) -> int:
    """Puts bytes into a field; the length that tells how many, or that they are too many."""
    ctypes.memmove(field, raw, min(len(raw), len(field)))
    return min(len(raw), 255)


def _stamp(what: str, date: Date) -> Any:
    """A date as the library takes it."""
    if not isinstance(date, (tuple, list)) or len(date) != len(Date._fields):
        raise TypeError(f"{what} is an adf.Date, and not {date!r}")
    return _structs.Date(*(_arguments.within(f"{what}, {field}", number) for field, number in zip(Date._fields, date)))


class Plan:
    """The table of what is added to a volume of a kind, in order, and where the bytes of each file are in the contents, whose size is
    `size`."""

    def __init__(self, kind: str) -> None:
        self.size, self.largest, self.capitals = 0, 0, CAPITALS if kind in KINDS else ALL_CAPITALS
        self._rows: list[tuple[int, int, int | None, int, Any, bytes, bytes]] = []

    def __len__(self) -> int:
        return len(self._rows)

    def put(self, parent: int, name: bytes, size: int | None, comment: str | bytes, protection: int, date: Date) -> int:
        """Adds a file of so many bytes, or a directory (None), to addition `parent`, 0 for the root. Where its bytes begin. TypeError or
        ValueError if the table has no room for one of them."""
        begin, count = self.size, 0 if size is None else _arguments.within("the size", size, MOST_SIZE)
        numbers = _arguments.within("the parent", parent, MOST_SIZE), begin, None if size is None else count
        meta = _arguments.within("the protection", protection), _stamp("the date", date)
        self._rows.append((*numbers, *meta, _arguments.raw("the name", name), _arguments.raw("the comment", comment)))
        self.size, self.largest = begin + count, max(self.largest, count)
        return begin

    def path_of(self, number: int) -> bytes:
        """The path of an addition."""
        names = []
        while 0 < number <= len(self._rows):
            row = self._rows[number - 1]
            names.append(row[5])
            number = row[0] if row[0] < number else 0
        return b"/".join(reversed(names))

    def twin_of(self, number: int) -> bytes:
        """The path of the first addition in the directory of this one that has its name."""
        parent, name = self._rows[number - 1][0], self._rows[number - 1][5].translate(self.capitals)
        rows = enumerate(self._rows[: number - 1], 1)
        return next((self.path_of(each) for each, row in rows if row[0] == parent and row[5].translate(self.capitals) == name), b"")

    def table(self, is_shared: bool = False) -> Any:
        """The table for the library; if it is shared, the bytes of all files begin at the first one of the contents."""
        table = (_structs.Addition * max(len(self._rows), 1))()
        for row, (parent, begin, size, protection, date, name, comment) in zip(table, self._rows):
            row.parent, row.begin, row.size, row.protection = parent, 0 if is_shared else begin, size or 0, protection
            row.date, row.is_file = date, size is not None
            row.name_length, row.comment_length = _filled(row.name, name), _filled(row.comment, comment)
        return table


def new_volume(kind: str, blocks: int, label: str | bytes = b"", dates: Sequence[Date] = (NEVER, NEVER, NEVER)) -> Any:
    """A volume to build, as the library takes it."""
    if kind not in TYPES:
        raise ValueError(f"a kind is one of {', '.join(TYPES)}, and not {kind!r}")
    if len(dates) != len(DATES):
        raise ValueError("the dates are three: of the root, of the last change, and of the creation")
    count = min(max(_arguments.whole("the number of blocks", blocks), 0), _arguments.MOST_NUMBER)
    volume = _structs.NewVolume(TYPES.index(kind), count, *(_stamp(f"the date of the {name}", date) for name, date in zip(DATES, dates)))
    volume.label_length = _filled(volume.label, _arguments.raw("the label", label))
    return volume


def _done(number: int, told: Any, plan: Plan) -> int:
    """The number of blocks, or the error that a number means."""
    if number == NO_MEMORY:
        raise NoMemory
    if number == FULL:
        raise NotBuilt(f"full: need {told.need}, have {told.have}", "", 0, told.need, told.have)
    if number != DONE:
        error = NotBuilt(REFUSALS.get(number, str(number)), plan.path_of(told.addition).decode("latin-1"), told.addition)
        error.twin = plan.twin_of(told.addition).decode("latin-1") if number == EXISTS else ""
        raise error
    return int(told.blocks)


def need_of(volume: Any, plan: Plan, contents: Any, is_shared: bool = False) -> int:
    """The fewest blocks of a volume in which a plan has room."""
    told = _structs.Built()
    number = calls().adf_need(
        ctypes.byref(volume), plan.table(is_shared), len(plan), *_arguments.to_read(contents), ctypes.byref(told))
    return _done(number, told, plan)


def build_into(room: Any, volume: Any, plan: Plan, contents: Any) -> None:
    """Builds a volume at the front of a room, of a plan and its contents."""
    told, places = _structs.Built(), (*_arguments.to_read(contents), *_arguments.to_write(room))
    number = calls().adf_build(ctypes.byref(volume), plan.table(), len(plan), *places, ctypes.byref(told))
    _done(number, told, plan)


def _planned(kind: str, entries: Sequence[Addition]) -> tuple[Plan, list[memoryview]]:
    """The plan of these entries of a volume of a kind, and the bytes of their files. TypeError and ValueError name the path of an entry that has a fault."""
    plan, parts, numbers = Plan(kind), [], {b"": 0}  # type: Plan, list[memoryview], dict[bytes, int]
    for number, entry in enumerate(entries, 1):
        try:
            path = _arguments.raw("the path", entry.path)
            above, slash, name = path.rpartition(b"/")
            content = None if entry.content is None else _arguments.view(entry.content)
            parent = number if slash and not above else numbers.get(above.translate(plan.capitals), number)
            plan.put(parent, name, None if content is None else len(content), entry.comment, entry.protection, entry.date)
        except (TypeError, ValueError) as error:
            raised = TypeError if isinstance(error, TypeError) else ValueError
            raise raised(f"{_shown(entry.path, number)}: {error}") from None
        parts += [] if content is None else [content]
        numbers.setdefault(path.translate(plan.capitals), number)
    return plan, parts


def _shown(path: object, number: int) -> str:
    """The path of an addition in a line of text, or its number."""
    return ascii(path) if isinstance(path, (str, bytes)) else f"entry {number}"


def build(
    kind: str, blocks: int | None, entries: Iterable[Addition], label: str | bytes = b"",
    dates: Sequence[Date] = (NEVER, NEVER, NEVER),
) -> bytes:
    """The image of a volume with these entries, each directory before what is in it: the kind (one of TYPES), the blocks (None for the
    fewest), the label, and the dates of the root, of the last change and of the creation. NotBuilt if there is none."""
    given = [each._replace(path=_arguments.plain_path(each.path)) for each in (Addition(*entry) for entry in entries)]
    volume = new_volume(kind, 0 if blocks is None else blocks, label, dates)
    plan, parts = _planned(kind, given)
    contents = b"".join(parts)
    try:
        if blocks is None:
            volume.blocks = need_of(volume, plan, contents)
        room = bytearray(BLOCK * volume.blocks if volume.blocks <= MOST_BLOCKS else 0)
        build_into(room, volume, plan, contents)
    except NotBuilt as error:
        if error.number:
            error.entry = given[error.number - 1]
            error.path = _arguments.raw("the path", error.entry.path).decode("latin-1")
        raise
    return bytes(room)
