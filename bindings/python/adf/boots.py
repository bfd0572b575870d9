"""Boot blocks: adf.Boot, adf.with_boot, adf.with_standard_boot, adf.without_boot and adf.BadBoot."""

from __future__ import annotations

import ctypes
from typing import Any, NamedTuple, Union

from adf import _arguments, _structs
from adf._arguments import Buffer, Image
from adf._layout import BLOCK
from adf._library import calls
from adf.errors import Error

BYTES = 2 * BLOCK
REFUSALS = {1: "bad size", 2: "not dos", 3: "boot blocks: bad size", 4: "boot blocks: not dos"}


class BadBoot(Error, ValueError):
    """An image has no boot blocks, or gets none: `why` it is so, of the image, or of the `boot blocks` that are to be put into it."""

    def __init__(self, why: str) -> None:
        super().__init__(why)
        self.why = why


class Boot(NamedTuple):
    """Boot blocks: their 1,024 bytes and the CRC-32 of these; whether they begin with DOS, and the type behind it; whether the sum of
    their words is right; whether an Amiga starts them, which takes both; whether anything but zeros is behind the type."""

    raw: bytes
    crc: int
    begins_with_dos: bool
    type: int
    has_right_sum: bool
    is_bootable: bool
    has_code: bool

    @classmethod
    def of(cls, image: Image) -> Boot:
        """The boot blocks at the front of an image, or of a file of them. BadBoot if it is shorter."""
        raw, told = bytes(_arguments.view(image)[:BYTES]), _structs.BootBlocks()
        _accept(calls().adf_boot(raw, len(raw), ctypes.byref(told)))
        marks = bool(told.has_right_sum), bool(told.is_bootable), bool(told.has_code)
        return cls(raw, told.crc, bool(told.begins_with_dos), told.volume_type, *marks)

    @property
    def state(self) -> str:
        """Whether an Amiga starts them, or why not, in the word of `adf-boot`."""
        if self.is_bootable:
            return "bootable"
        return ("bad-sum" if self.has_code else "no-code") if self.begins_with_dos else "not-dos"

    def __bytes__(self) -> bytes:
        return self.raw

    def __repr__(self) -> str:
        return f"<adf.Boot {self.crc:08x}: {self.state}>"


def _accept(number: int) -> None:
    if number != 0:
        raise BadBoot(REFUSALS.get(number, str(number)))


def _changed(call: Any, image: Image, *source: Any) -> bytes:
    """A copy of an image, changed by a call."""
    room = bytearray(_arguments.view(image))
    _change(call, room, *source)
    return bytes(room)


def _change(call: Any, room: Buffer, *source: Any) -> None:
    """Has a call change an image where it is."""
    _accept(call(*_arguments.to_write(room), *source))


def _source(boot: Union[Boot, Image]) -> Any:
    return _arguments.plain(boot.raw if isinstance(boot, Boot) else boot)


def copy_into(room: Buffer, boot: Union[Boot, Image]) -> None:
    """Puts boot blocks into an image where it is, as with_boot."""
    source = _source(boot)
    _change(calls().adf_boot_copy, room, source, len(source))


def install_into(room: Buffer) -> None:
    """Puts standard boot blocks into an image where it is, as with_standard_boot."""
    _change(calls().adf_boot_install, room)


def with_boot(image: Image, boot: Union[Boot, Image]) -> bytes:
    """The image with other boot blocks: those of a volume (volume.boot), of another image, or the bytes of a file of them. It keeps its
    type, and gets the checksum with which an Amiga starts it. BadBoot if there are none."""
    source = _source(boot)
    return _changed(calls().adf_boot_copy, image, source, len(source))


def with_standard_boot(image: Image) -> bytes:
    """The image with boot blocks that start AmigaDOS. BadBoot if the image cannot have them."""
    return _changed(calls().adf_boot_install, image)


def without_boot(image: Image) -> bytes:
    """The image with zeros behind the type in its boot blocks. BadBoot if the image cannot have them."""
    return _changed(calls().adf_boot_clear, image)
