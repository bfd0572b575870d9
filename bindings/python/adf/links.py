"""The right links of what is found, and what each leads to: adf.Link."""

from __future__ import annotations

import ctypes
from typing import TYPE_CHECKING, Any, NamedTuple

from adf import _structs
from adf._library import calls
from adf.errors import NoMemory

if TYPE_CHECKING:
    from adf.findings import Found
    from adf.surveys import Survey

FIRST_ROOM = 64


class Link(NamedTuple):
    """A right link that is found: its entry, and what it leads to: of a hard link the entry of a file or a directory, which is no link; of
    a soft link the bytes of the path in its header, as an Amiga reads it, which may name another volume, or nothing."""

    entry: Found
    target: Found | bytes


def links_of(survey: Survey) -> list[Link]:
    """The right links that a survey finds, in the order of their entries; for them the image is surveyed again."""
    image, room, count = survey._opened, 0, _structs.SIZE(FIRST_ROOM)
    rows: Any = None
    while room < count.value:
        room, rows = count.value, (_structs.Link * count.value)()
        if calls().adf_survey_links(image, len(image), rows, room, ctypes.byref(count)) != 0:
            raise NoMemory
    return [_link(survey, rows[place]) for place in range(count.value)]


def _link(survey: Survey, row: Any) -> Link:
    entries, end = survey.entries, row.path + row.path_length
    return Link(entries[row.node - 1], entries[row.target - 1] if row.target else bytes(survey._opened[row.path : end]))
