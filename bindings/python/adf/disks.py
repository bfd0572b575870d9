"""Hard disks: adf.Disk, adf.Partition and adf.partitions."""

from __future__ import annotations

import ctypes
import errno
import re
from typing import Any, Iterator, NamedTuple

from adf import _arguments, _structs
from adf._arguments import Image
from adf._layout import BLOCK, MOST_PARTITIONS, MOST_TABLES, TYPES
from adf._library import calls, text_of
from adf._read_only import ReadOnly
from adf._texts import escape
from adf.errors import Damaged, NoMemory, NoSuchPath, Refused

DOS_TYPE = 0x444F5300


class Partition(NamedTuple):
    """A partition of a hard disk: its number from 1, the drive's name, the kind (one of TYPES, or the four bytes of another file
    system in the escape form), the first block of its volume and how many it has (0 and 0 where it has no place), flags, boot
    priority, its partition block, and what is wrong with it, as `over tables`, or an empty text. A volume has a place whatever
    is wrong with the fields of its file system or with its name."""

    number: int
    raw_name: bytes
    kind: str
    first: int
    blocks: int
    flags: int
    priority: int
    block: int
    fault: str

    @property
    def name(self) -> str:
        return self.raw_name.decode("latin-1")


def rows_of(tables: bytes, blocks: int) -> tuple[Any, list[Partition]]:
    """What is told of a disk of so many blocks whose tables are these, and its partitions."""
    told, rows = _structs.Disk(), (_structs.Partition * MOST_PARTITIONS)()
    if calls().adf_disk_index(tables, len(tables), blocks, rows, MOST_PARTITIONS, ctypes.byref(told)) != 0:
        raise NoMemory
    return told, [_partition(number, row) for number, row in enumerate(rows[: told.partitions], 1)]


def _partition(number: int, row: Any) -> Partition:
    kind = row.dos_type - DOS_TYPE
    text = TYPES[kind] if 0 <= kind < len(TYPES) else escape(row.dos_type.to_bytes(4, "big"))
    fields = row.first, row.blocks, row.flags, row.priority, row.block, text_of(calls().adf_partition_fault_text, row.fault)
    return Partition(number, bytes(row.name)[: row.name_length], text, *fields)


class Disk(ReadOnly):
    """The partitions of a whole hard disk, in the order of its tables: `for partition in disk`, `len(disk)`, `disk["DH0"]`, `"DH0" in disk`,
    `disk.keys()`. cause and block, the first fault of these, or an empty text
    and 0. Where they have one, the partitions are those that can be read nevertheless, as `adf-disk survey` tells them.

    The image may be an mmap: of it only the tables are read here, and a volume where it is asked for.
    """

    image: Image
    partitions: list[Partition]
    cause: str
    block: int
    _number: int

    def __init__(self, image: Image) -> None:
        view = _arguments.view(image)
        told, partitions = rows_of(bytes(view[:MOST_TABLES]), len(view) // BLOCK)
        cause = text_of(calls().adf_disk_cause_text, told.cause)
        vars(self).update(image=image, partitions=partitions, cause=cause, block=told.block, _number=told.cause)

    def __repr__(self) -> str:
        return f"<adf.Disk: {len(self.partitions)} partitions" + (f", block {self.block}: {self.cause}>" if self.cause else ">")

    def __iter__(self) -> Iterator[Partition]:
        return iter(self.partitions)

    def __len__(self) -> int:
        return len(self.partitions)

    def __contains__(self, wanted: Partition | int | str | bytes) -> bool:
        """Whether `disk[wanted]` finds a partition; or whether this is one of them."""
        if isinstance(wanted, Partition):
            return wanted in self.partitions
        try:
            return bool(self[wanted])
        except NoSuchPath:
            return False

    def keys(self) -> list[str | int]:
        """What `disk[key]` finds each partition by, in their order: its name, or its number if it has none or an earlier one has the same."""
        first: dict[str, int] = {}
        for partition in self.partitions:
            first.setdefault(_upper(partition.name), partition.number)
        return [row.name if row.name and first[_upper(row.name)] == row.number else row.number for row in self.partitions]

    def __getitem__(self, wanted: int | str | bytes) -> Partition:
        """The partition with a number, or the first with a name, a text or bytes; the case of a to z does not count. NoSuchPath if there
        is none."""
        name = wanted.decode("latin-1") if isinstance(wanted, bytes) else wanted
        if isinstance(name, bool) or not isinstance(name, (int, str)):
            raise TypeError(f"a partition has a number or a name, and not {type(name).__name__}")
        for partition in self.partitions:
            if name == partition.number or isinstance(name, str) and _upper(name) == _upper(partition.name):
                return partition
        raise NoSuchPath(wanted)

    def volume(self, wanted: int | str | bytes) -> bytes:
        """The bytes of its volume. NoSuchPath if there is no such partition, Damaged if it has no place."""
        partition, view = self[wanted], _arguments.view(self.image)
        past = BLOCK * (partition.first + partition.blocks)
        if not partition.blocks or past > len(view):
            raise Damaged(errno.EIO, partition.fault or "the image is shorter than it was", partition.name)
        return bytes(view[BLOCK * partition.first : past])


def partitions(image: Image) -> list[Partition]:
    """The partitions of a whole hard disk. Refused where its tables have a fault: Disk(image) has what can be read then."""
    disk = Disk(image)
    if disk.cause:
        raise Refused(disk.cause, disk.block, disk._number)
    return disk.partitions


def _upper(text: str) -> str:
    return re.sub("[a-z]+", lambda found: found[0].upper(), text)
