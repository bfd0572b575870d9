"""What is judged: the programs, by the calls of the library; the program adf-survey; and the reference of bench/evidence.py."""

from __future__ import annotations

import os
import re
import struct
import subprocess
import warnings
from typing import Callable, Dict, List, Optional, Set, Tuple

import adf
from adf import _texts
from adf._rescues import LeftOut, rescue
from truth_judge import Answer, Back, Line, Listed
from truth_volumes import Path

BEHIND_TYPE = ("international", "directory cache")
OF_ENTRIES = ("damaged", "link", "no room", "in doubt", "perhaps deleted", "found again", "made", "comment cut")
OF_BLOCKS = ("lost", "label cut", "bitmap")
BLOCKS = re.compile(r"blocks? (\d+)(?: to (\d+))?")


def path_told(text: str) -> Path:
    """A path as `adf-survey` spells it, by the bytes of its names, in which `/` may be; empty for the root."""
    return tuple(map(_texts.raw_name, text.split("/"))) if text else ()


def date_of(date: object) -> Tuple[int, int, int]:
    return tuple(date)[:3]  # type: ignore


def tree_of(image: bytes) -> Tuple[Dict[Path, Back], bytes, Tuple[Tuple[int, int, int], ...]]:
    """The tree of a sound volume, its label and its dates."""
    volume, paths, things = adf.Volume(image), {0: ()}, {}
    for entry in volume.entries:
        path: Path = (*paths[entry.parent], entry.raw_name)
        paths[entry.number] = path  # type: ignore
        content = entry.read() if entry.is_file else None
        things[path] = Back(content, entry.raw_comment, entry.protection, date_of(entry.date))
    return things, volume.raw_label, tuple(map(date_of, (volume.date, volume.altered, volume.created)))


def found_tree(image: bytes) -> Tuple[Dict[Path, Back], bytes, Tuple[Tuple[int, int, int], ...]]:
    """The same of a volume whose type the module does not read, by its survey: a rescue with `--keep-all` has directory caches."""
    root = len(image) // 512 // 2 * 512
    dates = tuple(struct.unpack_from(">3I", image, root + at) for at in (420, 472, 484))
    return {each.path: each.back for each in survey_of(image, None)[1]}, image[root + 433 : root + 433 + image[root + 432]], dates  # type: ignore


def line_of(left: LeftOut) -> Line:
    """A row of a rescue by the library."""
    blocks = range(left.first, left.last + 1)
    if left.directory is not None:
        return Line(str(left), None, path_told(left.directory))
    if left.new_path is not None:
        return Line(str(left), path_told(left.path), None, blocks, path_told(left.new_path))
    return Line(str(left), path_told(left.path) if left.is_entry else None, None, blocks)


def listed_of(found: adf.Found, path: Path) -> Listed:
    is_file = found._has_bytes()
    left, gaps = found.remains() if is_file else (b"", [])
    back = Back(left if is_file else None, found.raw_comment, found.protection, date_of(found.date))
    return Listed(path, back, found.is_sound and (is_file or not found.is_file), left, gaps, bool(gaps))


def survey_of(image: bytes, blocks: Optional[int]) -> Tuple[bool, List[Listed]]:
    survey, paths, listed = adf.survey(image, blocks), {0: ()}, []
    for found in survey.entries:
        path: Path = (*paths[found.parent], found.raw_name)
        paths[found.number] = path  # type: ignore
        listed.append(listed_of(found, path))
    return any(finding.cause not in BEHIND_TYPE for finding in survey.findings), listed


def programs(image: bytes, blocks: Optional[int], option: Optional[str] = None) -> Answer:
    """By the library, which does what the programs do; of the options of a rescue it has `keep-type`."""
    has_findings, listed = survey_of(image, blocks)
    try:
        new, left_out = rescue(image, blocks, option == "keep-type")
    except adf.Refused:
        return Answer({}, [], b"", (), True, listed, True)
    things, label, dates = tree_of(new)
    return Answer(things, [line_of(each) for each in left_out], label, dates, has_findings, listed)


def line_told(text: str) -> Line:
    """A line of `adf-survey rescue`, by its text alone."""
    why, _, rest = text.partition(": ")
    if why == "renamed":
        old, _, new = rest.partition(": ")
        return Line(text, path_told(old), None, range(0), path_told(new))
    blocks = BLOCKS.fullmatch(rest) if why in OF_BLOCKS else None
    if blocks:
        return Line(text, None, None, range(int(blocks[1]), int(blocks[2] or blocks[1]) + 1))
    if why == "lost":
        return Line(text, None, path_told(rest[len("in ") : -len("/")]))
    assert why in OF_ENTRIES, text
    return Line(text, path_told(rest))


def commands(image: bytes, blocks: Optional[int], option: Optional[str] = None) -> Answer:
    """By the program that ADF_SURVEY names; its survey by the library, but of what was before a format, of which there is none."""
    has_findings, listed = (True, []) if option == "before-format" else survey_of(image, blocks)
    words = [os.environ["ADF_SURVEY"], *([] if blocks is None else ["--blocks", str(blocks)]), "rescue", *([f"--{option}"] if option else [])]
    done = subprocess.run(words, input=image, capture_output=True)
    if not done.stdout:
        return Answer({}, [], b"", (), True, listed, True)
    lines = [line_told(line[len("adf-survey: ") :]) for line in done.stderr.decode().splitlines()]
    things, label, dates = (found_tree if option == "keep-all" else tree_of)(done.stdout)
    assert done.returncode == bool(lines)
    return Answer(things, lines, label, dates, has_findings, listed, has_deleted=option == "deleted")


def evidence(image: bytes, blocks: Optional[int], unread: Callable[[bytes], Set[int]] = lambda image: set()) -> Answer:
    """By the reference in Python."""
    from evidence import read

    return read(image, blocks, unread(image))


warnings.simplefilter("ignore")
