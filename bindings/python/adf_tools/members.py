"""The one image that is wanted of a packed file."""

from __future__ import annotations

import itertools
import os
from typing import IO, List, Tuple

from adf_tools.archives import Budget, Image, Member, Unread, is_image, members_of, unpacked
from adf_tools.names import host_letters

MOST_MEMBERS, MOST_LISTED = 65536, 20  # of an archive; of those that are to be chosen from


class NotChosen(Unread):
    """No image of a packed file is the one that is wanted, or more than one is."""


def place_of(path: str) -> Tuple[str, bytes]:
    """The file that a word names, and the name behind it of a member of that file, or none."""
    file = path
    while file and not os.path.lexists(file):
        file = os.path.dirname(file)
    member = os.fsencode(path[len(file) + 1 :])
    return (file, member) if member and os.path.isfile(file) else (path, b"")


def chosen(members: List[Member], wanted: bytes) -> int:
    """Which member has the name that is wanted; without a name the one image that is there, or the one file."""
    if len(members) > MOST_MEMBERS:
        raise NotChosen(f"more than {MOST_MEMBERS} files in it")
    images = [place for place, member in enumerate(members) if is_image(member)] or list(range(len(members)))
    fit = [place for place, member in enumerate(members) if member.name == wanted] if wanted else images
    if len(fit) == 1:
        return fit[0]
    if wanted:
        raise NotChosen(f"{'more than one' if fit else 'no'} image has this name")
    if not fit:
        raise NotChosen("no image in it")
    listed = [host_letters(members[place].name) for place in fit[:MOST_LISTED]]
    more = f" and {len(fit) - MOST_LISTED} more" if len(fit) > MOST_LISTED else ""
    raise NotChosen(f"{len(fit)} images in it, give one as FILE/NAME: {', '.join(listed)}{more}")


def image_of_member(file: IO[bytes], form: str, wanted: bytes, name: bytes) -> Image:
    """The one image that is wanted of an open packed file, which is called so."""
    budget = Budget()
    place = chosen(list(itertools.islice(budget.each(members_of(file, form)), MOST_MEMBERS + 1)), wanted)
    members = members_of(file, form)  # the archive is open as long as this is kept
    member = next(itertools.islice(budget.each(members), place, None))
    if member.fault:
        raise Unread(member.fault)
    with member.open() as packed:
        return unpacked(packed, name, 0, budget)
