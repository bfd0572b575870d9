"""What a survey tells: adf.Finding and adf.Found, a row for each."""

from __future__ import annotations

import errno
import os
from typing import TYPE_CHECKING, Any, Iterator, NamedTuple, Sequence, overload

from adf import _texts
from adf._layout import BLOCK, FILE_TYPE
from adf.dates import Date
from adf.entries import row_of
from adf.errors import Damaged, NotAFile

if TYPE_CHECKING:
    from adf.surveys import Survey


class Finding(NamedTuple):
    """Blocks from the first to the last with one cause, as `bad sum`; the path of the entry that is concerned, or of the directory in
    which a header was skipped, with a `/` behind it (`/` for the root); the path of the entry that owns a taken block. The paths are
    spelled as by `adf-survey`."""

    first: int
    last: int
    cause: str
    path: str | None
    owner: str | None


class _Fields(NamedTuple):
    survey: Survey
    number: int
    parent: int
    header: int
    size: int
    protection: int
    date: Date
    is_file: bool
    is_sound: bool
    raw_name: bytes
    raw_comment: bytes


class Found(_Fields):
    """A directory, file or link that is found: entry n is survey.entries[n - 1], and `parent` is the number of its directory, 0 for
    the root; a link counts as a file.

    The name is that of the header, which need not be one: `raw_name` and `raw_path` may have any bytes, as `/` in a name, or `..`, which
    leads out of a folder. `name` and `path` are these as `adf-survey` spells them: in the escape form, with \\x2f for a `/` in a name. A path
    of more than 1,024 bytes is `\\block B/` and its last names, where B is the block of the header of the directory that the first is in.
    """

    __slots__ = ()

    def _asdict(self) -> dict[str, Any]:
        """The entry as a row, as for a table of pandas: its date as `civil`, and no bytes."""
        return {**row_of(self), "is_sound": self.is_sound}

    @property
    def name(self) -> str:
        return _texts.spelled_name(self.raw_name)

    @property
    def comment(self) -> str:
        return self.raw_comment.decode("latin-1")

    @property
    def path(self) -> str:
        return self.survey._paths.text_in(self.survey._tree(), self.parent, self.name)

    @property
    def raw_path(self) -> bytes:
        return self.survey._path_to(self.parent) + self.raw_name

    @property
    def target(self) -> Found | bytes | None:
        """What a right link leads to, for which the image is surveyed again: of a hard link the file or the directory, of a soft link the
        bytes of its path. None of a wrong link, and of what is no link."""
        return self.survey._targets.get(self.number)

    def __repr__(self) -> str:
        return f"<adf.Found {self.path!r}>"

    def read(self) -> bytes:
        """The bytes of a sound file: those of this entry, also where an earlier one has its path. NotAFile, or Damaged."""
        if not self.is_sound and self._has_bytes():
            raise Damaged(errno.EIO, "damaged", self.path)
        return self.remains()[0]

    def remains(self) -> tuple[bytes, list[range]]:
        """What is left of a file, sound or damaged: its bytes up to the last block that is its own, with zeros for those that are lost,
        and the ranges of these, up to the size that its header states. NotAFile if it is a directory or a link."""
        if not self._has_bytes():
            raise NotAFile(errno.EISDIR, os.strerror(errno.EISDIR), self.path)
        return self.survey._remains(self)

    def _has_bytes(self) -> bool:
        """Whether it is a file, by its header, and no link."""
        past = BLOCK * (self.header + 1)
        return self.is_file and self.survey.image[past - 4 : past] == FILE_TYPE

    def pieces(self) -> Iterator[tuple[int, bytes]]:
        """What is left of a file: each run of bytes that is found, with its place in the file. What lies between the runs is lost. A
        directory has none."""
        left, lost = self.survey._remains(self) if self._has_bytes() else (b"", [])
        at = 0
        for gap in (*lost, range(len(left), len(left))):
            if at < gap.start:
                yield at, left[at : gap.start]
            at = gap.stop

    @property
    def gaps(self) -> list[range]:
        """The ranges of the bytes of a file that are lost."""
        return self.survey._remains(self)[1] if self._has_bytes() else []


class Findings(Sequence["Finding"]):
    """The findings of a survey, each made as it is asked for; equal to a list of the same."""

    def __init__(self, survey: Survey) -> None:
        self._survey, self._rows = survey, survey._rows

    def __len__(self) -> int:
        return len(self._rows)

    @overload
    def __getitem__(self, place: int) -> Finding: ...

    @overload
    def __getitem__(self, place: slice) -> list[Finding]: ...

    def __getitem__(self, place: int | slice) -> Finding | list[Finding]:
        taken = self._rows[place]
        return [self._survey._finding(row) for row in taken] if isinstance(place, slice) else self._survey._finding(taken)

    def __eq__(self, other: object) -> bool:
        return isinstance(other, (list, Findings)) and list(self) == list(other)

    def __repr__(self) -> str:
        return repr(list(self))
