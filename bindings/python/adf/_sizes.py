"""Images read as if they had another number of blocks."""

from __future__ import annotations

from adf import _arguments
from adf._arguments import Mapped
from adf._layout import BLOCK, MOST_BLOCKS


def number_of_blocks(blocks: int | None) -> int | None:
    """A number of blocks as which an image is read, if one is given."""
    return None if blocks is None else _arguments.within("the number of blocks", blocks, MOST_BLOCKS)


def cut(image: bytes | Mapped, blocks: int | None) -> bytes | Mapped:
    """What an image has of so many blocks."""
    return image if blocks is None or len(image) <= BLOCK * blocks else image[: BLOCK * blocks]


def sized(image: bytes | Mapped, blocks: int | None) -> bytes | Mapped:
    """The image of so many blocks that begins with these bytes; zeros stand for what is missing."""
    given = cut(image, blocks)
    return given if blocks is None or len(given) == BLOCK * blocks else given[:].ljust(BLOCK * blocks, b"\0")
