"""What is not an image as it stands: a packed one, which the reader of the programs unpacks within its limits (adf_tools/archives.py), a
hard disk, or one of tracks or flux."""

from __future__ import annotations

import errno
import importlib
from typing import Any, BinaryIO

from adf._arguments import Mapped, Path
from adf._layout import BLOCK, MOST_BYTES, MOST_TABLES
from adf.checks import check
from adf.disks import rows_of
from adf.errors import NotUnpacked, Refused

DOS, LONGEST_BEGIN = b"DOS", 16


def _reader(module: str) -> Any:
    """A module of the programs; None if the programs are not there."""
    try:
        return importlib.import_module(f"adf_tools.{module}")
    except ModuleNotFoundError:
        return None


def form_of(begin: bytes) -> str:
    """How an image is packed that begins so; an empty text if it is not."""
    archives = None if begin.startswith(DOS) else _reader("archives")
    return str(archives.form_of(begin)) if archives else ""


def place_of(path: str) -> tuple[str, bytes]:
    """The file that a path leads to, and the name behind it of a member of that file, or none."""
    members = _reader("members")
    file, member = members.place_of(path) if members else (path, b"")
    return file, member


def unpacked(file: BinaryIO, form: str, wanted: bytes, name: Path | None) -> bytes | Mapped:
    """The image that is wanted of an open packed file; a large one is mapped, in a temporary file. NotUnpacked if there is none."""
    archives, members = _reader("archives"), _reader("members")
    try:
        image = members.image_of_member(file, form, wanted, b"")
    except MemoryError:
        raise
    except archives.FAULTS as error:
        raise NotUnpacked(getattr(error, "errno", None) or errno.EIO, archives.fault_of(error), name) from None
    if image.fault:
        raise NotUnpacked(errno.EFBIG, image.fault, name)
    held: bytes | Mapped = image.content.mapped()
    return held


def no_volume(begin: bytes | Mapped, length: int) -> str:
    """What an image of this length is that cannot be a volume, by its begin; an empty text if it may be one."""
    if begin[: len(DOS)] != DOS:
        told, partitions = rows_of(begin[:MOST_TABLES], length // BLOCK)
        if partitions:
            return f"a hard disk: adf.Disk(image) has its partitions ({len(partitions)})"
    return f"it has more than {MOST_BYTES} bytes, the most that a volume has" if length > MOST_BYTES else ""


def refused_for_length(begin: bytes, length: int, name: Path | None) -> Refused:
    """Why a file is refused that has more bytes than the largest volume, by its begin."""
    try:
        check(b"")
    except Refused as refused:  # for its length too
        return Refused(refused.cause, refused.block, refused.number, name, no_volume(begin, length))
    raise AssertionError("an image of no bytes is accepted")


def foreign(begin: bytes | Mapped) -> str:
    """What an image is that is refused, if its begin says so for certain; an empty text else."""
    archives = None if begin[: len(DOS)] == DOS else _reader("archives")
    if archives is None:
        return ""
    form = archives.form_of(begin[:LONGEST_BEGIN])
    return f"packed by {form}: unpack it first" if form else str(archives.foreign(begin))
