"""Rescues: the new volume of what stands of an image, and what is not in it. This module alone asks the library for them."""

from __future__ import annotations

import ctypes
import enum
from typing import Any, NamedTuple, Sequence

from adf import _arguments, _sizes, _structs, _texts
from adf._arguments import Image
from adf._layout import BLOCK, FIRST_ROOM
from adf._library import SMALL_ROOM, accept, calls

FIRST_PATHS = 1 << 16


class Reason(enum.IntEnum):
    """Why something is not in the volume of a rescue, by the numbers of `enum adf_loss_why`: an entry is damaged, is a link, or has no
    room; headers are lost in a directory, or blocks are. And why an entry that is in the volume is in doubt: the checksum of its header
    is wrong, it is perhaps a deleted one, no directory leads to it, or the rescue made it for what names a lost directory."""

    DAMAGED = 1
    LINK = 2
    NO_ROOM = 3
    HEADERS = 4
    BLOCKS = 5
    IN_DOUBT = 6
    PERHAPS_DELETED = 7
    FOUND_AGAIN = 8
    MADE = 9
    RENAMED = 10
    COMMENT_CUT = 11
    LABEL_CUT = 12
    BITMAP = 13


KEPT = (Reason.IN_DOUBT, Reason.PERHAPS_DELETED, Reason.FOUND_AGAIN, Reason.MADE)
NOTED = (Reason.RENAMED, Reason.COMMENT_CUT, Reason.LABEL_CUT, Reason.BITMAP)
OF_BLOCKS = (Reason.BLOCKS, Reason.LABEL_CUT, Reason.BITMAP)
WHY = {**{reason: reason.name.lower().replace("_", " ") for reason in Reason}, Reason.HEADERS: "lost", Reason.BLOCKS: "lost"}


class _Loss(NamedTuple):
    reason: Reason | int
    raw_path: bytes
    first: int
    last: int


class LeftOut(_Loss):
    """What a rescue leaves out, keeps in doubt, or has by another name: the bytes of the path of an entry, or of the directory in which
    headers are lost, and the block of its header twice (0 for the root); or the first and the last of blocks. A reason of a newer
    library is its number. As a text it is the line of `adf-survey rescue`. A name in the bytes may have any, as `/`, or be `..`, which
    leads out of a folder: those of an entry that is renamed are of the path that its header states. Of a path that the library tells
    from a block on (`\\block B/` and the last names) the bytes are those of this text."""

    _text: str | None = None

    @property
    def why(self) -> str:
        """The reason as a text: `damaged`, `link` or `no room` of an entry that is left out; `in doubt`, `perhaps deleted`, `found again` or
        `made` of one that is kept; `renamed` or `comment cut` of either; `lost`, `label cut` or `bitmap`."""
        return next((text for reason, text in WHY.items() if reason == self.reason), f"reason {self.reason}")

    @property
    def path(self) -> str:
        """The path of an entry, as `adf-survey` spells it, of one that is renamed the stated one; of what is lost `in c/` or
        `blocks 44 to 65`."""
        if self.reason in OF_BLOCKS:
            return _texts.blocks_text(range(self.first, self.last + 1))
        return self._spelled.partition(": ")[0] if self.directory is None else f"in {self.directory}/"

    @property
    def new_path(self) -> str | None:
        """The path of an entry that is renamed, by its new name, as `adf-survey` spells it; None for anything else."""
        return self._spelled.partition(": ")[2] if self.reason == Reason.RENAMED else None

    @property
    def is_entry(self) -> bool:
        """Whether it is an entry that is found, with its path."""
        return self.reason not in (Reason.HEADERS, *OF_BLOCKS)

    @property
    def is_kept(self) -> bool:
        """Whether it is an entry that is in the new volume, in doubt."""
        return self.reason in KEPT

    @property
    def is_noted(self) -> bool:
        """Whether it is neither left out nor in doubt for this: a name, a comment or a label is another one, or a page of the bitmap cannot
        be read."""
        return self.reason in NOTED

    @property
    def blocks(self) -> range:
        """The blocks that are lost, if they are what is lost: in use and of no entry, not in the image, behind the volume, or made anew."""
        return range(self.first, self.last + 1) if self.reason == Reason.BLOCKS else range(0)

    @property
    def directory(self) -> str | None:
        """The path of the directory in which headers are lost, as `adf-survey` spells it, empty for the root; None for anything else."""
        return self._spelled if self.reason == Reason.HEADERS else None

    @property
    def _spelled(self) -> str:
        return _texts.escape(self.raw_path) if self._text is None else self._text

    def __str__(self) -> str:
        return f"{self.why}: {self.path}" + (f": {self.new_path}" if self.new_path is not None else "")


def _left_out(row: Any, paths: bytes) -> LeftOut:
    """A row of the table of losses, with its path in the text of all paths."""
    text = paths[row.path : row.path + row.path_length].decode("ascii")
    reason = Reason(row.why) if row.why in list(Reason) else row.why
    left_out = LeftOut(reason, _texts.raw_path(text.partition(": ")[0]), row.first, row.last)
    left_out._text = text
    return left_out


def counts(left_out: Sequence[LeftOut]) -> str:
    """How many are left out, and how many are kept in doubt or noted, if there are any."""
    kept, noted = sum(each.is_kept for each in left_out), sum(each.is_noted for each in left_out)
    told = f"{len(left_out) - kept - noted} left out" + (f", {kept} in doubt" if kept else "")
    return told + (f", {noted} noted" if noted else "")


def rescue(image: Image, blocks: int | None = None, keep_type: bool = False) -> tuple[bytes, list[LeftOut]]:
    """A new, sound volume with all that exists in an image, what is left out, and what is kept in doubt; with a number of blocks as if the
    image had so many. It has as many blocks, or those of the volume where the image is cut, or has tracks behind it. It is of type 0
    or 1, or with `keep_type` of type 2 or 3, if the image has their letters. Refused where nothing stands."""
    blocks, told = _sizes.number_of_blocks(blocks), _structs.RescueTold()
    raw = _sizes.cut(_arguments.plain(image), blocks)
    rooms, wanted = (-1, -1, -1), (BLOCK * blocks if blocks else len(raw), FIRST_ROOM, FIRST_PATHS)
    while rooms != wanted:
        if wanted[0] != rooms[0]:
            volume = _arguments.room_of(wanted[0])
        rooms = wanted
        losses, paths = (_structs.Loss * rooms[1])(), ctypes.create_string_buffer(rooms[2])
        tables = volume, rooms[0], losses, rooms[1], paths, rooms[2], ctypes.byref(told)
        call = calls().adf_rescue_types if keep_type else calls().adf_rescue
        number = call(raw, len(raw), blocks or 0, *tables)
        wanted = max(rooms[0], BLOCK * told.blocks), max(rooms[1], told.losses), max(rooms[2], told.paths)
        if number != SMALL_ROOM or wanted == rooms:
            accept(number, told.block)
    text = _arguments.taken(paths, told.paths)
    return _arguments.taken(volume, BLOCK * told.blocks), [_left_out(row, text) for row in losses[: told.losses]]
