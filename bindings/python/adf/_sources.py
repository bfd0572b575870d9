"""Where the bytes of an image come from: a path, an open file, or what is packed in one of them."""

from __future__ import annotations

import contextlib
import errno
import io
import os
from typing import Any, BinaryIO, Iterator, Union

from adf import _packed
from adf._arguments import Mapped, Path, mapped
from adf._layout import BLOCK, LARGE, MOST_BYTES, MOST_TABLES, PART

Source = Union[Path, BinaryIO]
OF_THE_HOST = io.BufferedReader, io.BufferedRandom, io.FileIO


def read_image(file: BinaryIO) -> bytes:
    """The rest of an open file, but at most one byte more than the largest image has; memory is taken for what is there. TypeError if it
    is a file of text."""
    return _rest(file, MOST_BYTES + 1)


def _rest(file: BinaryIO, most: int) -> bytes:
    """The rest of an open file, but at most so many bytes."""
    size = _descriptor_size(file)
    image = _accepted(file, min(size + 1, most))
    if len(image) <= size:
        return image
    room = io.BytesIO()
    room.write(image)
    while part := file.read(min(PART, most - room.tell())):
        room.write(part)
    return room.getvalue()


def _accepted(file: BinaryIO, count: int) -> bytes:
    """The first bytes of a file. TypeError if it is one of text."""
    try:
        begin: Any = None if isinstance(file, io.TextIOBase) else file.read(count)
    except UnicodeDecodeError:
        begin = None
    if not isinstance(begin, bytes):
        raise TypeError("a file of bytes is needed, as open(path, 'rb') gives it, and not one of text")
    return begin


def _descriptor_size(file: BinaryIO) -> int:
    """How many bytes the host says that a file has; 0 if it is none of the host, and of a pipe."""
    try:
        return os.fstat(file.fileno()).st_size
    except (AttributeError, OSError):
        return 0


def length_of(file: BinaryIO) -> int | None:
    """How many bytes an open file of the host has, if that is known before it is read."""
    try:
        if not isinstance(file, OF_THE_HOST) or file.fileno() < 0 or file.tell() != 0:
            return None
        end = file.seek(0, os.SEEK_END)
        file.seek(0)
        return end
    except OSError:
        return None


@contextlib.contextmanager
def opened(source: Source) -> Iterator[tuple[BinaryIO, bytes, Path | None]]:
    """The open file of an image, the name of a member that is wanted of it, or none, and what the image is called."""
    given: Any = source
    if hasattr(given, "read"):
        name = getattr(given, "name", None)
        yield given, b"", name if isinstance(name, (str, bytes)) else None
        return
    path, member = os.fspath(given), b""
    try:
        file = io.open(path, "rb")
    except NotADirectoryError:
        place, member = _packed.place_of(os.fsdecode(path))
        if not member:
            raise
        file = io.open(place, "rb")
    with file:
        yield file, member, path


def image_in(file: BinaryIO, member: bytes, name: Path | None, blocks: int | None) -> bytes | Mapped:
    """The bytes of the image in an open file, unpacked; of one that is not packed no more than so many blocks are read. A large one is
    mapped."""
    length = length_of(file)
    if length is None:
        file = io.BytesIO(read_image(file))
    form = _packed.form_of(_begin(file, _packed.LONGEST_BEGIN))
    if form:
        return _packed.unpacked(file, form, member, name)
    if member:
        raise NotADirectoryError(errno.ENOTDIR, os.strerror(errno.ENOTDIR), name)
    if length is not None and length > MOST_BYTES and blocks is None:
        raise _packed.refused_for_length(_begin(file, MOST_TABLES), length, name)
    wanted = MOST_BYTES + 1 if blocks is None else BLOCK * blocks
    count = min(length or 0, wanted)
    return mapped(file.fileno(), count) if count > LARGE else _rest(file, wanted)


def _begin(file: BinaryIO, count: int) -> bytes:
    """The first bytes of a file, which is read from its begin again."""
    begin = file.read(count)
    file.seek(0)
    return begin
