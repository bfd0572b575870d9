"""What was deleted: adf.Deleted, a row for each deleted header that still stands."""

from __future__ import annotations

import errno
import os
import re
from typing import TYPE_CHECKING, Any, Iterator, NamedTuple, Tuple

from adf import _texts, commands
from adf._arguments import Mapped
from adf.dates import Date
from adf.entries import row_of
from adf.errors import Damaged, NoMemory, NotAFile

if TYPE_CHECKING:
    from adf.surveys import Survey

LINES = re.compile(
    r"^block (\d+): (whole|contested: [^:\n]*|overwritten: \d+ of \d+ blocks): (file|dir ) ([0-9a-f]{8}) +(\d+|-) (\d+:\d+:\d+|\S+ \S+) (.*)\n"
    r"(?:note (.*)\n)?",
    re.M,
)
GAP = re.compile(r"^bytes (\d+) to (\d+): no data$", re.M)
NO_MEMORY = 3
Told = Tuple[int, str, int, int, Date, bool, str, bytes]  # what is told of a deleted header: the fields of Deleted behind its survey


class _Fields(NamedTuple):
    survey: Survey
    block: int
    state: str
    size: int
    protection: int
    date: Date
    is_file: bool
    path: str
    raw_comment: bytes


class Deleted(_Fields):
    """A deleted header as `adf-survey deleted` tells it: its block; `state`, what speaks for its file: `whole`, `contested: PATH` where a
    later deleted header names one of its blocks, or `overwritten: N of M blocks`; and what it says. `path` is where it was, spelled as by
    `adf-survey`, with `?` in place of what is above a directory that is gone."""

    __slots__ = ()

    def _asdict(self) -> dict[str, Any]:
        """The header as a row, as for a table of pandas: its date as `civil`, and no bytes."""
        return {**row_of(self), "block": self.block, "state": self.state}

    @property
    def name(self) -> str:
        return self.path.rpartition("/")[2]

    @property
    def raw_path(self) -> bytes:
        return _texts.raw_path(self.path)

    @property
    def raw_name(self) -> bytes:
        return _texts.raw_name(self.name)

    @property
    def comment(self) -> str:
        return self.raw_comment.decode("latin-1")

    @property
    def is_whole(self) -> bool:
        return self.state == "whole"

    def __repr__(self) -> str:
        return f"<adf.Deleted {self.path!r}: {self.state}>"

    def read(self) -> bytes:
        """The bytes of a whole file. NotAFile if it is a directory or a link, Damaged if it is not whole."""
        left, _ = self.remains()
        if not self.is_whole:
            raise Damaged(errno.EIO, self.state, self.path)
        return left

    def remains(self) -> tuple[bytes, list[range]]:
        """What is left of a file: its bytes, with zeros for those that are lost, and the ranges of these; of a contested one they may be
        those of the other. NotAFile if it is a directory or a link."""
        status, left, errors = survey_answer(*self.survey._given, ("cat", "--deleted", str(self.block)))
        if status == 1 and errors == b"not a file\n":
            raise NotAFile(errno.EISDIR, os.strerror(errno.EISDIR), self.path)
        return left, [range(int(first), int(last) + 1) for first, last in GAP.findall(errors.decode("ascii"))]


def survey_answer(image: bytes | Mapped, blocks: int | None, words: tuple[str, ...], most: int | None = None) -> commands.Answer:
    """What `adf-survey` answers to these words about an image, read as if it had so many blocks, if a number is given. NoMemory if that
    has more than the most bytes."""
    front = () if blocks is None else ("--blocks", str(blocks))
    answer = commands.run_program("adf-survey", (*front, *words), image, most)
    if answer.status == NO_MEMORY:
        raise NoMemory
    return answer


def told_of(image: bytes | Mapped, blocks: int | None, most: int | None = None) -> Iterator[Told]:
    """What `adf-survey deleted` tells of each deleted header, in the order of their blocks. NoMemory if the lines have more than the most
    bytes."""
    for found in LINES.finditer(survey_answer(image, blocks, ("deleted",), most).output.decode("ascii")):
        block, state, kind, protection, size, date, path, note = found.groups()
        length, comment = 0 if size == "-" else int(size), _texts.unescape(note or "")
        yield int(block), state, length, int(protection, 16), Date.of(date), kind == "file", path, comment


def deleted_of(survey: Survey) -> Iterator[Deleted]:
    """The deleted headers of the image that was surveyed, in the order of their blocks."""
    return (Deleted(survey, *told) for told in told_of(*survey._given))
