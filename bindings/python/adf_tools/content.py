"""The bytes of an image: in memory, or, of a large one, in a file from which they are read where they are asked for. A file of others is
never mapped: one that is cut while it is mapped ends the program."""

from __future__ import annotations

import io
import mmap
import os
import tempfile
from typing import IO, BinaryIO, Iterator, Optional

import adf
from adf._arguments import Mapped, mapped
from adf_tools.volumes import disk_of, is_volume, why_unread

CHANGED = "changed while it was read"


class Content:
    """Bytes in memory."""

    def __init__(self, content: bytes) -> None:
        self.content, self.size = content, len(content)

    def begin(self) -> bytes:
        """All bytes, but at most one more than the largest volume has."""
        return self.content

    def mapped(self) -> bytes | Mapped:
        """All bytes, mapped if they are in a file of this program's own."""
        return self.content

    def parts(self) -> Iterator[memoryview]:
        """All bytes, in parts."""
        view = memoryview(self.content)
        yield from (view[at : at + adf.PART] for at in range(0, len(view), adf.PART))

    def disk(self) -> Optional[adf.Disk]:
        """The hard disk, if it is one."""
        return disk_of(self.content)

    def volume(self, disk: adf.Disk, partition: adf.Partition) -> Optional[Content]:
        """The volume of a partition, if it has one of an Amiga; a large one is read when it is asked for."""
        if why_unread(disk, partition) or not is_volume(partition):
            return None
        part = Slice(self, adf.BLOCK * partition.first, adf.BLOCK * partition.blocks)
        return part if part.size > adf.LARGE else Content(part.read(0, part.size))

    def read(self, at: int, count: int) -> bytes:
        """So many bytes from a place, of those that there are."""
        return self.content[at : at + count]


class FileContent(Content):
    """The bytes of an open file, of a length that it has to keep."""

    def __init__(self, file: IO[bytes], size: int) -> None:
        self.file, self.size = file, size

    def read(self, at: int, count: int) -> bytes:
        """So many bytes from a place, of those that there are."""
        room = io.BytesIO()
        whole = max(0, min(count, self.size - at))
        while part := os.pread(self.file.fileno(), min(whole - room.tell(), adf.PART), at + room.tell()):
            room.write(part)
        if room.tell() != whole:
            raise OSError(CHANGED)
        return room.getvalue()

    def begin(self) -> bytes:
        return self.read(0, adf.MOST_BYTES + 1)

    def mapped(self) -> bytes | Mapped:
        return mapped(self.file.fileno(), self.size)

    def parts(self) -> Iterator[memoryview]:
        yield from (memoryview(self.read(at, adf.PART)) for at in range(0, self.size, adf.PART))

    def disk(self) -> Optional[adf.Disk]:
        """The hard disk; only its tables are read: behind them is a hole in a file of this program's own."""
        with tempfile.TemporaryFile() as tables:
            tables.write(self.read(0, adf.MOST_TABLES))
            tables.truncate(self.size)
            return disk_of(mmap.mmap(tables.fileno(), 0, access=mmap.ACCESS_READ))


class Slice(Content):
    """A part of other bytes, which is read where it is asked for."""

    def __init__(self, whole: Content, first: int, size: int) -> None:
        self.whole, self.first, self.size = whole, first, size

    def read(self, at: int, count: int) -> bytes:
        return self.whole.read(self.first + at, max(0, min(count, self.size - at)))

    def begin(self) -> bytes:
        return self.read(0, adf.MOST_BYTES + 1)

    def parts(self) -> Iterator[memoryview]:
        yield from (memoryview(self.read(at, adf.PART)) for at in range(0, self.size, adf.PART))


def content_in(file: BinaryIO, size: int) -> Content:
    """The bytes of an open file that has so many, and has to keep them."""
    if size > adf.LARGE:
        return FileContent(file, size)
    content = adf.read_image(file)
    if len(content) != size:
        raise OSError(CHANGED)
    return Content(content)
