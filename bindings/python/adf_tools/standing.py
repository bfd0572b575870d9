"""What stands of a refused image, as every program shows it: the entries of its rescue, each with its mark, and behind them what is left
out, each by the library's words for it."""

from __future__ import annotations

import functools
import struct
from typing import Dict, Iterable, Iterator, List, NamedTuple, Optional, Sequence, Set, Tuple, Union

import adf
from adf import _texts
from adf._arguments import Mapped
from adf._paths import BLOCK_FRONT, is_long
from adf_tools.advice import length_that_fits

Source = Union[adf.Entry, adf.Found]
SOUND, DAMAGED = "sound", "damaged"
HARMLESS, FEW = {"not validated", "owned free", "international", "directory cache"}, 1000  # causes that lose no file; findings that are asked
TELLS = {8: 1, 16: 125}  # the word that names the header of a file, by the type of its blocks: OFS data blocks, extension blocks
HEADER, MOST_TYPE = 2, 33  # the first word of a header, and the highest of any block


class Stood(NamedTuple):
    """An entry: that of the new volume, or what is found of one that is left out; the block of its header in the image; and `sound`, its mark,
    or why it is left out. A directory in which something is lost is `damaged`, and kept."""

    source: Source
    header: int
    state: str

    @property
    def is_kept(self) -> bool:
        return isinstance(self.source, adf.Entry)


def first_word(image: bytes | Mapped, block: int) -> int:
    return int.from_bytes(image[adf.BLOCK * block : adf.BLOCK * block + 4], "big")


def words_of(image: bytes | Mapped, block: int) -> Sequence[int]:
    """The words of a block; zeros where an image ends within it."""
    return struct.unpack(">128I", image[adf.BLOCK * block : adf.BLOCK * (block + 1)].ljust(adf.BLOCK, b"\0"))


def rescued(image: bytes, blocks: Optional[int]) -> Tuple[Optional[adf.Rescued], adf.Survey]:
    """The rescue of an image, if anything stands, and its survey; with a number of blocks as if it had so many."""
    try:
        volume = adf.Rescued(image, blocks=blocks)
    except adf.Refused:
        return None, adf.survey(image, blocks)
    return volume, volume.survey


class Names:
    """Which entries of a rescue the paths of its lines mean: by the names of all entries, and by the headers of those that are known."""

    def __init__(self, entries: Iterable[adf.Entry], headers: Dict[int, int]) -> None:
        self.named = {(entry.parent, entry.raw_name): entry.number for entry in entries}
        self.headers = dict(headers)
        self.called: Dict[str, List[int]] = {"": [0]}  # directories by their paths as the lines tell them

    def numbers(self, path: str, header: int) -> Iterator[int]:
        """What has a path may be: what is called lost- and its block, or has its name, in a directory with the path before that."""
        above, _, name = path.rpartition("/")
        directories = self.called.get(above) or self._led_to(above)
        places = ((directory, last) for last in (b"lost-%d" % header, _texts.raw_name(name)) for directory in directories)
        return (self.named[place] for place in places if place in self.named)

    def add(self, path: str, header: int, number: int) -> None:
        """An entry is what has this path and this header."""
        self.called.setdefault(path, []).append(number)
        self.headers.setdefault(header, number)

    def _led_to(self, path: str) -> List[int]:
        """The directory that a path leads to, from the root or from a block on; none if there is none."""
        names = path.split("/")
        block = names.pop(0)[len(BLOCK_FRONT) :] if is_long(path) else ""
        number = self.headers.get(int(block)) if block.isdecimal() else 0
        for name in names:
            number = None if number is None else self.named.get((number, _texts.raw_name(name)))
        return [] if number is None else [number]


class Standing:
    """What stands of an image that is refused: its survey, its rescue, if anything stands, what that leaves out, and all entries. It is read
    as the programs read it; where then nothing stands, at the length that fits."""

    def __init__(self, image: bytes, refused: adf.Refused) -> None:
        self.volume, self.survey = rescued(image, None)
        if self.volume is None and not self.survey.entries:
            fits = length_that_fits(image, refused)
            if fits is not None:
                self.volume, self.survey = rescued(image, fits)
        self.fits = len(self.survey.image) // adf.BLOCK if len(self.survey.image) != len(image) else None
        self.left_out = [] if self.volume is None else self.volume.left_out
        self.entries = list(self._entries())

    def _entries(self) -> Iterator[Stood]:
        """The entries of the survey in its order, but for those that the rescue finds elsewhere; then those that only the rescue finds."""
        why = {each.first: each.why for each in self.left_out if each.is_entry and not each.is_noted}
        kept = {each.first for each in self.left_out if each.is_kept}
        seen: Dict[int, int] = {}  # the numbers of entries by their headers
        for found in self.survey.entries:
            entry = None if self.volume is None else self.volume.entry_of(found)
            if entry is None and found.header not in kept:
                yield Stood(found, found.header, why.get(found.header, DAMAGED))
            elif entry is not None:
                seen[found.header] = entry.number
                is_whole = found.is_sound or found.is_file
                yield Stood(entry, found.header, why.get(found.header, SOUND if is_whole else DAMAGED))
        numbers = set(seen.values())
        rest = [] if self.volume is None else [entry for entry in self.volume.entries if entry.number not in numbers]
        headers = self._headers_of(rest, seen)
        yield from (Stood(entry, *headers.get(entry.number, (0, SOUND))) for entry in rest)

    def _headers_of(self, rest: List[adf.Entry], seen: Dict[int, int]) -> Dict[int, Tuple[int, str]]:
        """The header and the mark of each entry that only the rescue finds. An entry whose name is used already, or is none, is called lost-
        and its block."""
        found: Dict[int, Tuple[int, str]] = {}
        waiting, names = {entry.number for entry in rest}, Names(self.volume.entries if self.volume and rest else (), seen)
        for each in self.left_out if waiting else ():
            if each.is_kept and each.first not in seen:
                number = next((number for number in names.numbers(each.path, each.first) if number in waiting), None)
                if number is not None:
                    waiting.discard(number)
                    names.add(each.path, each.first, number)
                    found[number] = each.first, each.why
        return found

    @property
    def type(self) -> int:
        """The type that the image is read by: its own, or the one that its files say."""
        is_told = self.survey.is_begun or self.survey.is_retyped
        return self.volume.image[3] if self.volume is not None and is_told else self.survey.image[3]

    @property
    def lost(self) -> int:
        """How many files are known that are not in the rescue: those that the survey finds, and those that only their blocks tell of."""
        links = {each.first for each in self.left_out if each.reason == adf.Reason.LINK}
        found = {entry.header for entry in self.survey.entries if entry.is_file} - links
        return len(found - {stood.header for stood in self.entries if stood.is_kept}) + len(self._headers_told())

    @property
    def is_least(self) -> bool:
        """Whether more may be lost than is counted: headers, directories or blocks in use are missing, nothing stands, or the rescue alone finds
        what it leaves out, which may have been deleted."""
        if self.volume is None:
            return not {finding.cause for finding in self.survey.findings[:FEW]} <= HARMLESS or not self.survey.kind
        surveyed = {entry.header for entry in self.survey.entries}
        if any(each.is_entry and not each.is_kept and each.first not in surveyed for each in self.left_out):
            return True
        roles = self.roles  # the blocks of a file whose header's checksum is wrong are lost, and known to be of that file
        return any(
            each.reason in (adf.Reason.HEADERS, adf.Reason.MADE) or any(not roles[block] for block in self._in_use(each)) for each in self.left_out
        )

    @functools.cached_property
    def roles(self) -> bytes:
        """The role of each block, as the survey finds it."""
        return self.survey.owners()

    def _in_use(self, each: adf.LeftOut) -> range:
        """The blocks in use that are lost by a line; none, if it is about the boot block, or about what is behind the volume."""
        return each.blocks if each.first and each.first < len(self.survey.image) // adf.BLOCK else range(0)

    def _headers_told(self) -> Set[int]:
        """The headers that are not found, but that lost OFS data blocks or extension blocks name as theirs, and that were not deleted: a chain
        leads to them, or a bitmap that is believed has them in use, and they hold no header."""
        image = self.survey.image
        lost = [self._in_use(each) for each in self.left_out]
        telling = (words_of(image, block) for blocks in lost for block in blocks if first_word(image, block) in TELLS)
        told = {words[TELLS[words[0]]] for words in telling if sum(words) % 2**32 == 0}
        told -= {stood.header for stood in self.entries} | {each.first for each in self.left_out if each.is_entry}
        led = {finding.first for finding in self.survey.findings[:FEW] if (finding.path or "").endswith("/")}
        used = told.intersection(block for blocks in lost for block in blocks) if told and self._is_bitmap_believed else set()
        return told & led | {block for block in used if first_word(image, block) != HEADER}

    @property
    def _is_bitmap_believed(self) -> bool:
        """Whether nothing speaks against the bitmap: no page has a wrong checksum, or zeros or the first word of another block for one, and
        nothing that is found is free, or perhaps deleted."""
        findings, pages = self.survey.findings, [block for block, role in enumerate(self.roles) if adf.ROLES[role] == "page"]
        if len(findings) > FEW or any(finding.cause == "owned free" for finding in findings):
            return False
        if any(each.reason == adf.Reason.PERHAPS_DELETED for each in self.left_out):
            return False
        return all(words[0] > MOST_TYPE and sum(words) % 2**32 == 0 for words in (words_of(self.survey.image, page) for page in pages))
