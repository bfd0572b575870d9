"""What to do with an image, from what the library says of it: the groups of the first page of a catalogue."""

from __future__ import annotations

from typing import Dict, Iterator, NamedTuple, Optional

import adf

FLOPPIES = (1760, 3520)
BITMAP = {"not validated", "lost block", "owned free"}


class Advice(NamedTuple):
    """A group of images: its name in the database, what it is called on a page, and what to do."""

    name: str
    title: str
    text: str


GROUPS = (
    Advice("sound", "Sound", "Nothing is to be done."),
    Advice("sound ffs", "Sound; file contents have no checksums on FFS", "Nothing is to be done: what has a checksum is right. Whether the contents"
           " of files are, only a second reading or a published list can tell."),
    Advice("published", "As published", "A published list has the image, by its checksums: nothing is to be done, whatever a check says."),
    Advice("other type", "Readable, of another type", "The volume is of type 4 or 5, and the cache of a directory is wrong: an Amiga may list it"
           " wrongly. All files can be read."),
    Advice("bitmap", "Files whole, bitmap wrong", "All files can be read. The disk was perhaps taken out before its bitmap was written."),
    Advice("read again", "Read again", "A checksum, a block or the end is wrong: read the disk once more, and compare. The worst come first."),
    Advice("wrong length", "Wrong length", "The image is cut, or longer than its disk. Its line says the length that fits, in blocks."),
    Advice("tables", "Hard disk with a fault", "The tables of the disk, or of a partition, have a fault. Other partitions are read all the same."),
    Advice("volumes not read", "Hard disk, not all of it read", "The tables have no fault. A partition is of a file system that is not read, or has none:"
           " whether it is sound is not known."),
    Advice("too long", "Longer than 4 GiB", "No volume of that length is read: whether it is sound is not known."),
    Advice("loader", "Starts by its own loader", "It has boot blocks with code or a right checksum, and no volume behind them: keep it, and do not mend it."),
    Advice("other form", "Another form of image", "Not the sectors of a disk, one after the other. Its line says what it is."),
    Advice("no volume", "Not a volume of an Amiga", "It may be of another computer, or start by its own loader: keep it, and do not mend it."),
    Advice("not read", "Not read", "The file or its archive cannot be read: copy it again. Where its line says no memory, read it on a larger machine."),
)
SOUND = "sound", "sound ffs"  # the groups of images without a fault
NOT_JUDGED = "volumes not read", "too long", "loader", "other form", "no volume", "not read"  # of what is no volume that is read
TITLES = {group.name: group.title for group in GROUPS}


def lengths(count: int, is_whole: bool) -> Iterator[int]:
    """The lengths in blocks that an image of another length may be meant to have, the nearest first."""
    near = sorted(FLOPPIES, key=lambda blocks: abs(blocks - count))
    yield from (blocks for blocks in near if blocks != count or not is_whole)
    if not is_whole:
        yield from (blocks for blocks in (count, count + 1) if blocks not in FLOPPIES and blocks <= adf.MOST_BLOCKS)


def length_that_fits(image: adf.Image, refused: adf.Refused) -> Optional[int]:
    """The blocks of the first of these lengths at which the survey finds a root, if the image has none as it is."""
    count, rest = divmod(len(image), adf.BLOCK)
    if refused.cause != "bad size" and (refused.block != count // 2 or count in FLOPPIES):
        return None
    return next((blocks for blocks in lengths(count, not rest) if has_root(image, blocks)), None)


def has_root(image: adf.Image, blocks: int) -> bool:
    survey = adf.survey(image, blocks)
    return len(survey.image) == adf.BLOCK * blocks and bool(survey.label)


def passed(survey: adf.Survey) -> int:
    """How many of the first findings are no fault: the one of a volume of type 2 or 3, whose letters are read."""
    return int(len(survey.findings) > 0 and survey.findings[0].cause == "international")


def sound_group(kind: str) -> str:
    """The group of a sound volume of this kind."""
    return "sound ffs" if kind.startswith("ffs") else "sound"


def starts_alone(columns: Dict[str, object]) -> bool:
    """Whether boot blocks that begin with DOS have code, or a right checksum."""
    return columns.get("boot") in ("bootable", "bad-sum") or columns.get("boot") == "no-code" and bool(columns.get("boot_is_right"))


def advice_of(refused: adf.Refused, survey: adf.Survey, columns: Dict[str, object]) -> str:
    """The group of a refused image, of which the survey finds what stands."""
    if columns.get("form"):
        return "other form"
    if refused.cause == "directory cache" and len(survey.findings) == 1:
        return "other type"
    has_nothing = not survey.entries and not survey.label
    if has_nothing and starts_alone(columns) and len(survey.image) >= adf.BLOCK * FLOPPIES[0]:
        return "loader"
    if len(survey.image) != columns["bytes"] or refused.cause == "bad size":
        return "wrong length" if not has_nothing or survey.image[:3] == b"DOS" else "no volume"
    if refused.cause == "not dos" and not survey.entries:
        return "no volume"
    causes = {finding.cause for finding in survey.findings[passed(survey) : 1000]}
    return "bitmap" if causes <= BITMAP and len(survey.findings) <= 1000 else "read again"
