"""What was deleted from an image and whose header still stands, as rows of a catalogue. `adf-survey deleted` tells it. It surveys the image
again, so it is asked only where that may find something: where a block says that it is a header, and is not that of an entry. Each of the
headers of a small image can have a long path, so what it may take is bounded: where it takes more, nothing is known."""

from __future__ import annotations

import re
import struct
from typing import Any, Dict, Iterator, List, Optional, Set, Tuple

import adf
from adf._arguments import Mapped
from adf.deleted import told_of
from adf_tools.names import letters, spelled_letters
from adf_tools.processes import memory_at_most
from adf_tools.standing import HEADER, words_of

LOW_BYTE, FRONT = 3, struct.Struct(">2I")  # of the first word; a block's first word, and its own key
MOST_TOLD = 64 << 20  # bytes of all lines; those of a floppy of real files are some thousands
MEMORY, COPIES = 128 << 20, 6  # what it may take: so many bytes, and the image so often
WHOLE = "whole"
Row = Tuple[Any, ...]


def headers_in(image: bytes | Mapped) -> Set[int]:
    """The blocks that say that they are headers, by their first word and their own key."""
    whole = memoryview(image)[: len(image) // adf.BLOCK * adf.BLOCK]
    found = re.finditer(b"%c" % HEADER, bytes(whole[LOW_BYTE :: adf.BLOCK]))
    return {block for block in (each.start() for each in found) if FRONT.unpack_from(whole, adf.BLOCK * block) == (HEADER, block)}


def is_sealed(image: bytes | Mapped, block: int) -> bool:
    """Whether the checksum of a block is right."""
    return sum(words_of(image, block)) % 2**32 == 0


def rows_of_volume(image: bytes | Mapped, headers: Set[int]) -> Optional[List[Row]]:
    """What was deleted from a valid volume whose entries have their headers in these blocks."""
    return rows_of(image, None) if headers_in(image) - headers else []


def rows_of_survey(survey: adf.Survey) -> Optional[List[Row]]:
    """What was deleted from an image that is surveyed. A header with a wrong checksum is read with another word, so that it may no longer
    lead to others, which are then taken for deleted."""
    image, blocks = survey._given
    headers = headers_in(image)
    is_whole = headers <= {found.header for found in survey.entries} and all(is_sealed(image, block) for block in headers)
    return [] if is_whole else rows_of(image, blocks)


def rows_of(image: bytes | Mapped, blocks: int | None) -> Optional[List[Row]]:
    """The rows of all deleted headers; None where they take too much memory."""
    try:
        with memory_at_most(MEMORY + COPIES * len(image)):
            return list(rows_told(image, blocks))
    except MemoryError:
        return None


def rows_told(image: bytes | Mapped, blocks: int | None) -> Iterator[Row]:
    for block, state, size, protection, date, is_file, path, comment in told_of(image, blocks, MOST_TOLD):
        kind = "file" if is_file else "dir"
        yield block, spelled_letters(state), kind, spelled_letters(path), size, protection, str(date), letters(comment)


def counts_of(rows: List[Row]) -> Dict[str, int]:
    """How many headers were deleted, and how many of them are of what is whole."""
    return {"deleted": len(rows), "deleted_whole": sum(state == WHOLE for _, state, *_ in rows)}
