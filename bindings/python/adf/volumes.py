"""Volumes: adf.Volume."""

from __future__ import annotations

import bisect
import ctypes
import functools
import mmap
from typing import Any, Iterator, Sequence

from adf import _arguments, _structs
from adf._arguments import EntryPath, Image, Path
from adf._layout import FIRST_ROOM, LETTERS, TOLD_TYPES
from adf._library import NO_MEMORY, accept, calls
from adf._paths import Paths, Tree
from adf._read_only import ReadOnly
from adf._rescues import LeftOut
from adf._texts import escape
from adf.boots import Boot
from adf.dates import Date, date_of
from adf.deleted import Deleted
from adf.entries import Entries, Entry
from adf.errors import Closed, NoMemory, NoSuchPath
from adf.findings import Finding
from adf.surveys import Survey


class Volume(ReadOnly):
    """The volume of an image in memory, which is checked here; Refused where it is that of none.

    label, raw_label, kind (one of TYPES, as "ofs" or "ffs-international", or "ofs-cached" or "ffs-cached"), letters ("ascii": the case of
    a to z is ignored in names; "international": that of all letters of Latin-1), blocks, used, free; date, altered and created, the dates of
    the root, of the last change and of the creation; image, its bytes (an mmap, if it is large); entries, in the order of `adf list`: each
    directory before what is in it. They can only be read. Once it is closed, its image is empty and nothing more is read of it: ValueError.
    """

    image: bytes | mmap.mmap
    kind: str
    letters: str
    blocks: int
    used: int
    free: int
    date: Date
    altered: Date
    created: Date
    raw_label: bytes
    label: str
    _known_tables: Any
    _last_path: tuple[int, bytes]

    def __init__(self, image: Image, filename: Path | None = None) -> None:
        raw, contents = _arguments.plain(image), _structs.Contents()
        rooms, wanted = (0, 0), (FIRST_ROOM, FIRST_ROOM)
        while rooms != wanted:
            rooms = wanted
            tables = (_structs.Entry * rooms[0])(), rooms[0], (_structs.WORD * rooms[1])(), rooms[1]
            accept(calls().adf_index_types(raw, len(raw), *tables, ctypes.byref(contents)), contents.block, filename)
            wanted = max(rooms[0], contents.entries), max(rooms[1], contents.data_blocks)
        label = bytes(contents.label)[: contents.label_length]
        vars(self).update(
            image=raw, kind=TOLD_TYPES[contents.kind], letters=LETTERS[min(contents.kind // 2, 1)],
            blocks=contents.blocks, used=contents.used, free=contents.free,
            date=date_of(contents.root), altered=date_of(contents.altered), created=date_of(contents.created),
            raw_label=label, label=label.decode("latin-1"),
            _known_tables=((raw, len(raw)), (tables[0], contents.entries), (tables[2], contents.data_blocks)), _last_path=(0, b""),
        )

    def close(self) -> None:
        """Gives the image and the tables back."""
        vars(self).update(image=b"", _known_tables=None)

    def __repr__(self) -> str:
        told = f"{self.kind}, {self.blocks} blocks"
        return f"<adf.Volume {self.label!r}: {told if self._known_tables else 'closed'}>"

    def __reduce__(self) -> Any:
        """Pickled as its image, which is checked again."""
        return Volume, (self._tables[0][0][:],)

    def __enter__(self) -> Volume:
        self._accept_open()
        return self

    def __exit__(self, *_error: object) -> None:
        self.close()

    def _accept_open(self) -> None:
        if self._known_tables is None:
            raise Closed("the volume is closed")

    @property
    def _tables(self) -> Any:
        known = self._known_tables
        self._accept_open()
        return known

    @property
    def _table(self) -> Any:
        return self._tables[1][0]

    @property
    def entries(self) -> Entries:
        return Entries(self)

    @property
    def deleted(self) -> list[Deleted]:
        """What was deleted from its image, and whose header still stands; for it the image is surveyed."""
        return Survey(self._tables[0][0]).deleted

    @property
    def boot(self) -> Boot:
        """The boot blocks of its image: of a Rescued one those of the new volume, which are kept if the image begins with `DOS`."""
        return Boot.of(self._tables[0][0])

    @property
    def left_out(self) -> list[LeftOut]:
        """What is on the image and not in this volume, and what is in it in doubt: nothing, unless it is a Rescued one."""
        return []

    @property
    def findings(self) -> Sequence[Finding]:
        """What is wrong with the image: nothing, unless it is a Rescued one."""
        return ()

    def __getitem__(self, path: EntryPath) -> Entry:
        """The entry under a path, a text, bytes or a PurePath: names with `/` between them. NoSuchPath if there is none."""
        number = self._find(path)
        if not number:
            raise NoSuchPath(path)
        return self._entry(number)

    def __contains__(self, path: EntryPath) -> bool:
        return bool(self._find(path))

    def __iter__(self) -> Iterator[str]:
        return (entry.path for entry in self.entries)

    def walk(self, top: Any = "") -> Iterator[tuple[Any, list[Any], list[Any]]]:
        """As os.walk: for each directory from `top` on its path, and the names of the directories and of the files in it.
        What is taken out of the directories is not gone into. Bytes are told where bytes are given."""
        top = _arguments.entry_path(top)
        slash, waiting = b"/" if isinstance(top, bytes) else "/", [(top, self._find(top))]
        while waiting:
            path, number = waiting.pop()
            if number is None or number > 0 and self._table[number - 1].is_file:
                raise NoSuchPath(path)
            inside = self.entries[bisect.bisect_left(self._parents, number) : bisect.bisect_right(self._parents, number)]
            named = [(entry, entry.raw_name if isinstance(top, bytes) else entry.name) for entry in inside]
            numbers = {name: entry.number for entry, name in named if not entry.is_file}
            directories = list(numbers)
            yield path, directories, [name for entry, name in named if entry.is_file]
            for name in reversed(directories):
                below = path + slash + name if path else name
                waiting.append((below, numbers[name] if name in numbers else self._find(below)))

    def owners(self) -> bytes:
        """The role of each block, a byte for each, as a place in ROLES."""
        image, roles = self._tables[0], ctypes.create_string_buffer(self.blocks)
        accept(calls().adf_owners_types(*image, roles, self.blocks), 0)
        return roles.raw

    def _path_to(self, number: int) -> bytes:
        """The path of a directory and a slash, nothing for the root. The last one is kept: so the paths of a deep tree, one after the other,
        take no longer than they are."""
        (kept, begin), names, at = self._last_path, [], number
        while at not in (0, kept):
            row = self._table[at - 1]
            names.append(bytes(row.name)[: row.name_length] + b"/")
            at = row.parent
        path = (begin if at else b"") + b"".join(reversed(names))
        vars(self)["_last_path"] = number, path
        return path

    @functools.cached_property
    def _paths(self) -> Paths:
        return Paths()

    def _tree(self) -> Tree:
        return Tree(self._step, self._block_of)

    def _step(self, number: int) -> tuple[int, str]:
        """The number of the directory of an entry, and its name in the escape form."""
        row = self._table[number - 1]
        return row.parent, escape(bytes(row.name)[: row.name_length])

    def _block_of(self, number: int) -> int:
        """The block of the header of a directory."""
        return int(self._table[number - 1].header)

    @functools.cached_property
    def _parents(self) -> list[int]:
        return [self._table[place].parent for place in range(len(self.entries))]

    def _entry(self, number: int) -> Entry:
        row = self._table[number - 1]
        name, comment = bytes(row.name)[: row.name_length], bytes(row.comment)[: row.comment_length]
        fields = row.parent, row.header, row.size, row.protection, date_of(row.date), bool(row.is_file)
        return Entry(self, number, *fields, name, comment)

    def _find(self, path: EntryPath) -> int | None:
        """The number under a path, 0 for the empty one, None where nothing is there."""
        name = _arguments.entry_path(path)
        try:
            text = escape(name).encode("ascii")
        except UnicodeEncodeError:
            return None
        node = ctypes.c_size_t()
        answer = calls().adf_find_types(TOLD_TYPES.index(self.kind), *self._tables[1], text, len(text), ctypes.byref(node))
        if answer == NO_MEMORY:
            raise NoMemory
        return node.value if answer == 0 else None
