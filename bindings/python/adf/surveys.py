"""Surveys: adf.survey and adf.Survey, all that is wrong with an image, and what is found in it."""

from __future__ import annotations

import ctypes
import errno
import functools
import os
from typing import Any, Iterator

from adf import _arguments, _sizes, _structs, _texts
from adf._arguments import EntryPath, Image, Mapped
from adf._layout import BLOCK, FIRST_ROOM, KINDS, LEAST_CHUNK, TYPES
from adf._library import NO_MEMORY, NOT_DOS, SMALL_ROOM, calls, cause_text
from adf._paths import Paths, Tree
from adf._read_only import ReadOnly
from adf._texts import escape
from adf.dates import Date, date_of
from adf.deleted import Deleted, deleted_of
from adf.errors import Damaged, NoMemory, NoSuchPath, NotAFile
from adf.findings import Finding, Findings, Found
from adf.links import Link, links_of

OWN = 0  # of findings for which the library has no number: `owner` is then the place of their text
NO_BLOCK, NO_BYTES = 2**32 - 1, b"\xff"  # in the table of a file, and each of its bytes there; a number of a block has one that is 0


def survey(image: Image, blocks: int | None = None) -> Survey:
    """All that is wrong with an image, and what is found in it all the same; with a number of blocks as if it had so many."""
    return Survey(image, blocks)


def _subject(image: bytes | Mapped, blocks: int | None) -> tuple[bytes | Mapped, Any]:
    """The image that `adf-survey` surveys of one that is cut to so many blocks, and what is told of it."""
    told, length, wanted = _structs.Subject(), -1, len(image) if blocks is None else BLOCK * blocks
    while length != wanted:
        length, room = wanted, _arguments.room_of(wanted)
        number = calls().adf_survey_subject(image, len(image), blocks or 0, room, length, ctypes.byref(told))
        wanted = max(length, told.length)
        if number != 0 and (number != SMALL_ROOM or wanted == length):
            raise NoMemory
    is_given = told.length == len(image) and not told.is_begun and not told.is_retyped
    return image if is_given else _arguments.taken(room, told.length), told


def _front(image: bytes | Mapped, told: Any, stated: int) -> Iterator[tuple[int, int, str]]:
    """The findings in front of those of the image that is surveyed, where so many blocks were stated: the first and the last block, and
    the cause."""
    taken = told.length // BLOCK
    if taken != stated:
        yield min(taken, stated), max(taken, stated) - 1, "behind the volume" if taken < stated else "no data"
    if told.is_begun:
        yield 0, 0, cause_text(NOT_DOS)
    if told.is_retyped:
        yield 0, 0, f"files of {TYPES[image[3]]}"


class Survey(ReadOnly):
    """What is found in an image by `adf-survey`: findings and entries, in its order; label, raw_label, kind ("ofs" or "ffs") and
    the three dates, as the root tells them (kind "" and an empty label where there is none); image, its bytes.

    Where nothing but the boot block is lost, and where the files say another type, the image is surveyed as if it began with the type
    that its files say: `is_begun`, or `is_retyped`. Where it is a floppy that is cut, or has tracks behind the volume, it is surveyed, and
    `image` is told, with the blocks of that floppy. Then the first findings say so: `not dos`, `files of ffs` (or another of TYPES) at
    block 0, `no data` of the blocks that are cut off, `behind the volume` of those that are too many. Otherwise it has no findings exactly
    where `check` takes the image, and the first of them is what `Refused` says.
    """

    image: bytes | Mapped
    entries: list[Found]
    kind: str
    date: Date
    altered: Date
    created: Date
    raw_label: bytes
    label: str
    is_begun: bool
    is_retyped: bool
    _rows: Any
    _given: tuple[bytes | Mapped, int | None]
    _opened: bytes | Mapped
    _held: int
    _own_causes: list[str]
    _last_path: tuple[int, bytes]

    def __init__(self, image: Image, blocks: int | None = None) -> None:
        blocks = _sizes.number_of_blocks(blocks)
        given = _sizes.cut(_arguments.plain(image), blocks)
        raw, subject = _subject(given, blocks)
        told = _structs.Surveyed()
        rooms, wanted = (0, 0), (FIRST_ROOM, FIRST_ROOM)
        while rooms != wanted:
            rooms = wanted
            tables = (_structs.Finding * rooms[0])(), rooms[0], (_structs.Found * rooms[1])(), rooms[1]
            if calls().adf_survey_index(raw, len(raw), *tables, ctypes.byref(told)) != 0:
                raise NoMemory
            wanted = max(rooms[0], told.findings), max(rooms[1], told.entries)
        label = bytes(told.label)[: told.label_length]
        vars(self).update(
            image=given[:4] + raw[4:] if subject.is_begun or subject.is_retyped else raw, kind=KINDS[told.kind] if told.blocks else "",
            date=date_of(told.root), altered=date_of(told.altered), created=date_of(told.created),
            raw_label=label, label=label.decode("latin-1"), is_begun=bool(subject.is_begun), is_retyped=bool(subject.is_retyped),
            _given=(given, blocks), _opened=raw, _held=subject.held, _last_path=(0, b""),
        )
        self._mark_missing(tables[2])
        vars(self)["entries"] = [self._entry(place + 1, tables[2][place]) for place in range(told.entries)]
        front = list(_front(raw, subject, len(given) // BLOCK if blocks is None else blocks))
        first = [_structs.Finding(*blocks, owner=place, cause=OWN) for place, (*blocks, _) in enumerate(front)]
        rows, row = (_structs.Finding * (len(first) + told.findings))(*first), ctypes.sizeof(_structs.Finding)
        ctypes.memmove(ctypes.byref(rows, row * len(first)), tables[0], row * told.findings)
        vars(self).update(_rows=rows, _own_causes=[cause for *_, cause in front])

    def __repr__(self) -> str:
        return f"<adf.Survey {self.label!r}: {len(self.findings)} findings, {len(self.entries)} entries>"

    def __reduce__(self) -> Any:
        """Pickled as its image, which is surveyed again."""
        image, blocks = self._given
        return Survey, (image[:], blocks)

    def _mark_missing(self, rows: Any) -> None:
        """Marks files with data in blocks that the image does not have as damaged: the table has zeros there for data."""
        if self._held < len(self._opened) // BLOCK:
            for part in self._parts[self._held :]:
                if part.node:
                    rows[part.node - 1].is_sound = 0

    @property
    def findings(self) -> Findings:
        return Findings(self)

    @functools.cached_property
    def deleted(self) -> list[Deleted]:
        """What was deleted from the image, and whose header still stands; for it the image is surveyed again."""
        return list(deleted_of(self))

    @functools.cached_property
    def links(self) -> list[Link]:
        """The right links that are found, in the order of their entries; for them the image is surveyed again."""
        return links_of(self)

    @functools.cached_property
    def _targets(self) -> dict[int, Found | bytes]:
        """What the right links lead to, by the numbers of their entries."""
        return {link.entry.number: link.target for link in self.links}

    @functools.cached_property
    def _parts(self) -> Any:
        """Which part of what is found each block is."""
        rows = (_structs.Part * (len(self._opened) // BLOCK))()
        if calls().adf_survey_parts(self._opened, len(self._opened), rows, len(rows)) != 0:
            raise NoMemory
        return rows

    def _own_blocks(self, found: Found, size: int) -> tuple[Any, int]:
        """The table of a file of so many bytes, by its number, and how many data blocks it has up to the last that is left."""
        image, parts, most = self._opened, self._parts, size // LEAST_CHUNK + 1
        blocks = (_structs.WORD * most)()
        count = min(calls().adf_found_blocks(image, len(image), parts, len(parts), found.number, found.header, blocks, most), most)
        if self._held < len(image) // BLOCK:
            blocks[:count] = [block if block < self._held else NO_BLOCK for block in blocks[:count]]
        left = len(bytes(memoryview(blocks).cast("B")[: 4 * count]).rstrip(NO_BYTES))
        return blocks, -(-left // 4)

    def _remains(self, found: Found) -> tuple[bytes, list[range]]:
        """What is left of a file, by its number: its bytes up to the last block that is its own, and what is lost of those that it states."""
        image, size = self._opened, min(found.size, len(self._opened))
        blocks, count = self._own_blocks(found, size)
        content, gap, lost, at = bytearray(min(size, BLOCK * count)), _structs.SIZE(), [], 0
        while at < len(content):
            room = (ctypes.c_char * (len(content) - at)).from_buffer(content, at)
            at += calls().adf_found_read(image, len(image), found.header, blocks, count, at, room, len(content) - at, ctypes.byref(gap))
            if not gap.value:
                break
            lost.append(range(at, at + gap.value))
            at += gap.value
        return bytes(memoryview(content)[:at]), lost + ([range(at, size)] if at < size else [])

    def ranges(self) -> Iterator[range]:
        """The blocks of each finding, without paths, which can be very long."""
        return (range(row.first, row.last + 1) for row in self._rows)

    def _path_to(self, number: int) -> bytes:
        """The path of a directory and a slash; nothing for the root. The last one is kept: so the paths of a deep tree, one after the other,
        take no longer than they are."""
        (kept, raw), above, at = self._last_path, [], number
        while at not in (0, kept):
            above.append(self.entries[at - 1])
            at = above[-1].parent
        raw = (raw if at else b"") + b"".join(found.raw_name + b"/" for found in reversed(above))
        vars(self)["_last_path"] = number, raw
        return raw

    @functools.cached_property
    def _paths(self) -> Paths:
        return Paths()

    def _tree(self) -> Tree:
        return Tree(self._step, lambda number: self.entries[number - 1].header)

    def _step(self, number: int) -> tuple[int, str]:
        """The number of the directory of an entry, and its name as `adf-survey` spells it."""
        found = self.entries[number - 1]
        return found.parent, found.name

    def _entry(self, number: int, row: Any) -> Found:
        name, comment = bytes(row.name)[: row.name_length], bytes(row.comment)[: row.comment_length]
        fields = row.parent, row.header, row.size, row.protection, date_of(row.date), bool(row.is_file), bool(row.is_sound)
        return Found(self, number, *fields, name, comment)

    def _finding(self, row: Any) -> Finding:
        if row.cause == OWN:
            return Finding(row.first, row.last, self._own_causes[row.owner], None, None)
        path = self.entries[row.node - 1].path if row.node else None
        if row.is_within:
            path = f"{path or ''}/"
        return Finding(row.first, row.last, cause_text(row.cause), path, self.entries[row.owner - 1].path if row.owner else None)

    def read(self, path: EntryPath) -> bytes:
        """The bytes of a sound file, for which the image is surveyed again; of several with this path those of the first. The path is a
        text in Latin-1, or as `adf-survey` spells it, or bytes, which mean themselves. NoSuchPath if nothing has it, as none has one
        through a name that is not one; NotAFile if it is not a file, Damaged if it is damaged."""
        found = self._file(path)
        if not found.is_sound:
            raise Damaged(errno.EIO, "damaged", path)
        return self._remains(found)[0]

    def remains(self, path: EntryPath) -> tuple[bytes, list[range]]:
        """What is left of a file, sound or damaged, for which the image is surveyed again: its bytes up to the last block that is its own,
        with zeros for those that are lost, and the ranges of these, up to the size that its header states; of several with this path those
        of the first. NoSuchPath and NotAFile as of `read`."""
        return self._remains(self._file(path))

    def owners(self) -> bytes:
        """The role of each block as the survey finds it, a byte for each, as a place in ROLES: 0 where nothing is, and everywhere without
        a root."""
        roles = ctypes.create_string_buffer(len(self.image) // BLOCK or 1)
        if calls().adf_survey_owners(self._opened, len(self._opened), roles, len(roles)) != 0:
            raise NoMemory
        return roles.raw[: len(self.image) // BLOCK]

    def _file(self, path: EntryPath) -> Found:
        """The file under a path, the first of several."""
        name = _arguments.entry_path(path)
        try:
            text = (escape(name) if isinstance(name, bytes) else _texts.as_spelled(name)).encode("ascii")
        except UnicodeEncodeError:
            raise NoSuchPath(path) from None
        node = _structs.SIZE()
        answer = calls().adf_survey_find(self._opened, len(self._opened), text, len(text), ctypes.byref(node))
        if answer == NO_MEMORY:
            raise NoMemory
        if answer != 0:
            raise NoSuchPath(path)
        if not node.value or not self.entries[node.value - 1]._has_bytes():
            raise NotAFile(errno.EISDIR, os.strerror(errno.EISDIR), path)
        return self.entries[node.value - 1]
