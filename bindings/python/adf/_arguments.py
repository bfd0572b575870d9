"""What callers give, checked before the library gets it: numbers, texts and buffers. ctypes cuts a number that is too large, and takes
the items of a buffer for bytes."""

from __future__ import annotations

import ctypes
import mmap
import operator
import os
import pathlib
from typing import Any, Union

Path = Union[str, bytes, "os.PathLike[str]", "os.PathLike[bytes]"]
EntryPath = Union[str, bytes, pathlib.PurePath]
Image = Union[bytes, bytearray, memoryview, mmap.mmap]
Buffer = Union[bytearray, memoryview, mmap.mmap]
MOST_NUMBER, PART, PRIVATE = 2**32 - 1, 1 << 20, mmap.MAP_PRIVATE | mmap.MAP_ANONYMOUS


class _View(ctypes.Structure):
    """A Py_buffer: where the bytes begin, and what else it has."""

    _fields_ = [("begin", ctypes.c_void_p), ("rest", ctypes.c_void_p * 15)]


class Mapped(mmap.mmap):
    """The first bytes of a file, which nothing else may write while they are used: to read only, also for the library. They stay until
    nothing refers to them."""

    @property
    def _as_parameter_(self) -> int | None:
        """Where the library reads them."""
        view, interface = _View(), ctypes.pythonapi
        interface.PyObject_GetBuffer(ctypes.py_object(self), ctypes.byref(view), 0)
        begin: int | None = view.begin
        interface.PyBuffer_Release(ctypes.byref(view))
        return begin

    def close(self) -> None:
        """Nothing: a volume may be of them."""

    def __exit__(self, *_error: object) -> None:
        """Nothing, too."""


def mapped(descriptor: int, count: int) -> Mapped:
    """The first bytes of an open file that has at least so many."""
    return Mapped(descriptor, count, mmap.MAP_PRIVATE, mmap.PROT_READ)


def whole(what: str, given: Any) -> int:
    """A whole number, of any size. TypeError if it is another thing, as a bool."""
    if isinstance(given, bool) or not hasattr(type(given), "__index__"):
        raise TypeError(f"{what} is a whole number, and not {given!r}")
    return operator.index(given)


def within(what: str, given: Any, most: int = MOST_NUMBER) -> int:
    """A whole number from 0 to the most. TypeError and ValueError say what is wrong, and with which value."""
    number = whole(what, given)
    if not 0 <= number <= most:
        raise ValueError(f"{what} is from 0 to {most}, and not {number}")
    return number


def plain_path(given: Any) -> Any:
    """A PurePath as a text, which is empty if it has no parts; all else as it is."""
    if isinstance(given, pathlib.PurePath):
        return given.as_posix() if given.parts else ""
    return given


def entry_path(given: Any) -> Any:
    """A path of an entry as a text or bytes. TypeError if it is another thing."""
    path = plain_path(given)
    if not isinstance(path, (str, bytes)):
        raise TypeError(f"a path is a str, bytes or PurePath, and not {type(given).__name__}; entries[n] is the entry n + 1")
    return path


def raw(what: str, given: Any) -> bytes:
    """The bytes of a text in Latin-1, or bytes themselves."""
    if isinstance(given, bytes):
        return bytes(plain(given))
    if not isinstance(given, str):
        raise TypeError(f"{what} is a str or bytes, and not {type(given).__name__}")
    try:
        return str.encode(given, "latin-1")
    except UnicodeEncodeError as error:
        raise ValueError(f"{what} has a letter that is not in Latin-1: {given[error.start]!r}") from None


def plain(image: Image) -> Any:
    """The bytes that a buffer shows: bytes themselves, those of a file that is mapped, and a copy of anything else."""
    return image if type(image) in (bytes, Mapped) else bytes(memoryview(image))


def view(image: Image) -> memoryview:
    """The bytes that a buffer shows, one behind the other; not copied if they stand so in memory."""
    shown = memoryview(image)
    try:
        return shown.cast("B")
    except (TypeError, ValueError):  # it leaves bytes out, or its items are of a kind that Python does not cast
        return memoryview(shown.tobytes())


def to_read(image: Image) -> tuple[Any, int]:
    """A buffer as the library reads it, and how many bytes. It can be neither closed nor resized while they are held."""
    if type(image) is Mapped:
        return image, len(image)
    shown = view(image)
    if not shown.readonly:
        return to_write(shown)
    return (image if type(image) is bytes else bytes(shown)), len(shown)


def room_of(count: int) -> Any:
    """Room for so many bytes that the library writes. A large one takes memory only where it is written."""
    return ctypes.create_string_buffer(count or 1) if count <= PART else (ctypes.c_char * count).from_buffer(mmap.mmap(-1, count, PRIVATE))


def taken(room: Any, count: int) -> bytes:
    """The first bytes of a room, as many as there may be; ctypes.string_at cuts the number to 31 bits."""
    return bytes(memoryview(room)[:count])


def to_write(room: Buffer) -> tuple[Any, int]:
    """A buffer as the library writes into it, and how many bytes. TypeError if it can only be read, or leaves bytes out."""
    shown = memoryview(room).cast("B")
    if shown.readonly:
        raise TypeError("a buffer to write into is needed, and not one that can only be read")
    return (ctypes.c_char * len(shown)).from_buffer(shown) if len(shown) else b"", len(shown)
