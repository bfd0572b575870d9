"""What the module itself raises, and what it warns of."""

from __future__ import annotations

import os

from adf._arguments import Path


def shown(filename: Path) -> str:
    """The name of a file in a line of text, without what a terminal obeys."""
    return "".join(letter if letter.isprintable() else ascii(letter)[1:-1] for letter in os.fsdecode(filename))


class Error(Exception):
    """What the module itself raises; each kind is also the error of Python that fits."""


class NoLibrary(Error, ImportError):
    """The shared library was not found, or cannot be loaded."""


class NoMemory(Error, MemoryError):
    """The library was refused memory."""


class Closed(Error, ValueError):
    """The volume is closed."""


class NoSuchPath(Error, KeyError):
    """Nothing has this path, or no partition this name or number."""


class NotAFile(Error, IsADirectoryError):
    """It has no bytes to read: a directory, or a link."""


class Damaged(Error, OSError):
    """A file of a survey is damaged, or something is wrong with a partition."""


class NotUnpacked(Error, OSError):
    """A packed image cannot be unpacked, or it is not said which of several is wanted."""


class Refused(Error):
    """No volume has the image: the cause of the first fault, as `bad sum`, its block and its number, and the file, if it is one; a hint
    what it is else, as a hard disk, if its begin tells.

    Its text is that of `adf check`, behind the name of the file, and the hint.
    """

    def __init__(self, cause: str, block: int, number: int, filename: Path | None = None, hint: str = "") -> None:
        super().__init__(cause, block, number, filename, hint)
        self.cause, self.block, self.number, self.filename, self.hint = cause, block, number, filename, hint

    def __str__(self) -> str:
        name = "" if self.filename is None else f"{shown(self.filename)}: "
        return f"{name}block {self.block}: {self.cause}" + (f"; {self.hint}" if self.hint else "")


class DamagedWarning(UserWarning):
    """`adf.open` was given an image that is refused, and opened what stands of it."""
