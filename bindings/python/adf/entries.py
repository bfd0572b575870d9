"""Entries of a volume: adf.Entry, adf.Entries and adf.File."""

from __future__ import annotations

import errno
import io
import os
from typing import TYPE_CHECKING, Any, NamedTuple, Sequence, overload

from adf import _arguments
from adf._arguments import Buffer
from adf._library import calls
from adf._paths import is_long
from adf._texts import escape
from adf.dates import Date
from adf.errors import NotAFile

if TYPE_CHECKING:
    from adf.volumes import Volume


ROW = "path", "name", "is_file", "size", "protection", "date", "comment", "number", "parent", "header"


def row_of(entry: Any) -> dict[str, Any]:
    """What a row of a table has of an entry, of a volume or found."""
    return {name: entry.date.civil if name == "date" else getattr(entry, name) for name in ROW}


class Entries(Sequence["Entry"]):
    """The entries of a volume, each made as it is asked for."""

    def __init__(self, volume: Volume) -> None:
        self._volume, self._numbers = volume, range(1, volume._tables[1][1] + 1)

    def __len__(self) -> int:
        return len(self._numbers)

    @overload
    def __getitem__(self, place: int) -> Entry: ...

    @overload
    def __getitem__(self, place: slice) -> list[Entry]: ...

    def __getitem__(self, place: int | slice) -> Entry | list[Entry]:
        taken = self._numbers[place]
        return self._volume._entry(taken) if isinstance(taken, int) else [self._volume._entry(number) for number in taken]


class _Fields(NamedTuple):
    volume: Volume
    number: int
    parent: int
    header: int
    size: int
    protection: int
    date: Date
    is_file: bool
    raw_name: bytes
    raw_comment: bytes


class Entry(_Fields):
    """A directory or a file: entry n is volume.entries[n - 1], and `parent` is the number of its directory, 0 for the root."""

    __slots__ = ()

    def _asdict(self) -> dict[str, Any]:
        """The entry as a row, as for a table of pandas: its date as `civil`, no bytes, and of a long path its `path_text`."""
        text = self.path_text
        return {**row_of(self), **({"path": text} if is_long(text) else {})}

    @property
    def name(self) -> str:
        return self.raw_name.decode("latin-1")

    @property
    def comment(self) -> str:
        return self.raw_comment.decode("latin-1")

    @property
    def path(self) -> str:
        return self.raw_path.decode("latin-1")

    @property
    def path_text(self) -> str:
        """The path in the escape form, to be printed: one of more than 1,024 bytes is `\\block B/` and its last names, where B is the block of
        the header of the directory that the first of these is in; of a volume of what stands that is a block of the image, 0 if no chain leads
        to the directory."""
        return self.volume._paths.text_in(self.volume._tree(), self.parent, escape(self.raw_name))

    @property
    def raw_path(self) -> bytes:
        return self.volume._path_to(self.parent) + self.raw_name

    def __repr__(self) -> str:
        return f"<adf.Entry {self.path!r}>"

    def read_into(self, room: Buffer, offset: int = 0) -> int:
        """Puts the bytes of the file from an offset on into a buffer, as many as there are and fit; answers how many."""
        if not self.is_file:
            raise NotAFile(errno.EISDIR, os.strerror(errno.EISDIR), self.path)
        (image, table, blocks), begin = self.volume._tables, self._begin(offset)
        return int(calls().adf_read(*image, *table, *blocks, self.number, begin, *_arguments.to_write(room)))

    def read(self, offset: int = 0, count: int = -1) -> bytes:
        """The bytes of the file from an offset on: all, or at most so many where the count is not negative."""
        left = self.size - self._begin(offset)
        room = bytearray(left if _arguments.whole("a count", count) < 0 else min(count, left))
        self.read_into(room, offset)
        return bytes(room)

    def _begin(self, offset: int) -> int:
        """An offset, or the end of the file if that comes first."""
        if _arguments.whole("an offset", offset) < 0:
            raise ValueError("an offset is below 0")
        return min(offset, self.size)

    def open(self) -> io.BufferedReader:
        """The file as one of Python, buffered, to read and seek."""
        self.read_into(bytearray())
        return io.BufferedReader(File(self))


class File(io.RawIOBase):
    """A file of a volume, unbuffered; Entry.open has it behind a buffer."""

    def __init__(self, entry: Entry) -> None:
        self._entry, self._at = entry, 0

    def readable(self) -> bool:
        return True

    def seekable(self) -> bool:
        return True

    def readinto(self, room: Any) -> int:
        self._accept_open()
        moved = self._entry.read_into(room, self._at)
        self._at += moved
        return moved

    def seek(self, offset: int, whence: int = io.SEEK_SET) -> int:
        self._accept_open()
        if whence not in (io.SEEK_SET, io.SEEK_CUR, io.SEEK_END):
            raise ValueError(f"whence is {whence}, and not 0, 1 or 2")
        at = _arguments.whole("an offset", offset) + (0, self._at, self._entry.size)[whence]
        if at < 0:
            raise OSError(errno.EINVAL, os.strerror(errno.EINVAL))
        self._at = at
        return at

    def _accept_open(self) -> None:
        if self.closed:
            raise ValueError("the file is closed")
