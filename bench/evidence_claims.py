"""What is claimed of a damaged volume: the things that exist, in which order, by which name, and what is amiss. The last part of
bench/evidence.py."""

from __future__ import annotations

from bisect import bisect_left
from typing import Callable, List, NamedTuple, Tuple

from evidence_files import Files
from evidence_image import COMMENT, LINK_FILE, LINKS, LOST, MADE, NAME, PERHAPS, REACHED, SOFT, Bitmap
from evidence_reading import FFS, OFS, Kinds
from evidence_walk import Orphans, Walk
from truth_volumes import DIR, PAGE_BITS, upper

MOST_NAME, MOST_COMMENT = 30, 79
Key = Tuple[int, bytes]  # a directory and a name in upper case


class Claim(NamedTuple):
    """A thing that exists: the block of its header (of a made directory, where that was), its directory (0 for the root, else one more than
    the index of an earlier claim), its name, what it is, why it is claimed, and whether it is whole, so that it is given back; of a hard
    link also the claim that it leads to (one more than its index; 0 if it is wrong)."""

    head: int
    directory: int
    name: bytes
    kind: int
    why: int
    is_given: bool
    is_certain: bool
    target: int


class Amiss(NamedTuple):
    """What is not as it was, or may not be: its cause, the claim (one more than its index) or the directory that it is about, and blocks."""

    cause: str
    claim: int
    first: int
    past: int


def runs(first: int, past: int, is_in: Callable[[int], bool]) -> List[Tuple[int, int]]:
    """The runs of numbers that are in, each by its first one and the one behind it."""
    some: List[Tuple[int, int]] = []
    begin = past
    for b in range(first, past):
        if is_in(b):
            begin = min(begin, b)
        elif begin < past:
            some.append((begin, b))
            begin = past
    return [*some, (begin, past)] if begin < past else some


class Claims:
    """The claims on a volume that is read as one kind, with these letters, and everything that is amiss."""

    def __init__(self, walk: Walk, kinds: Kinds, bitmap: Bitmap, is_ffs: bool) -> None:
        self.walk, self.kinds, self.image, self.bitmap = walk, kinds, walk.image, bitmap
        self.files = Files(walk.image, self.bitmap, walk.is_head, is_ffs)
        reached = len(walk.order)
        self.orphans = Orphans(walk, self.bitmap, self.files)
        self.is_freed = bytearray(self.image.blocks)  # reached, and the bitmap has a block of it free
        for h in walk.order[1:reached]:
            self.is_freed[h] = any(map(self.bitmap.is_free, self.orphans.own(h)))
        self.files.settle(walk, self.is_freed)
        self.is_given = bytearray(self.image.blocks)
        for h in walk.order[1:]:
            self.is_given[h] = self.may_be_given(h)
        self.place_of = [0] * self.image.blocks  # of the root and of each header that is claimed
        for i, h in enumerate(walk.order):
            self.place_of[h] = i
        self.names = Names(self)
        self.all = [self.claim(h, name) for h, name in zip(walk.order[1:], self.names.all)]
        self.amiss: List[Amiss] = []
        self.find_amiss()

    def may_be_given(self, h: int) -> bool:
        """A directory, or a whole file that, where nothing leads to it from the root, does not tell the other kind."""
        if not self.walk.is_file(h):
            return self.walk.is_dir(h)
        other = OFS if self.files.is_ffs else FFS
        return self.files.is_whole(self.walk, h) and not (self.walk.why[h] != REACHED and self.kinds.says(h) == other)

    def claim(self, h: int, name: bytes) -> Claim:
        kind = DIR if self.walk.is_dir(h) else self.walk.kind(h)
        directory, why = self.place_of[self.walk.parent[h]], self.walk.why[h]
        return Claim(h, directory, name, kind, why, self.is_given[h] != 0, self.is_certain(h), self.target(h, kind))

    def target(self, h: int, kind: int) -> int:
        """What a hard link leads to: the file or the directory whose header it names."""
        r = self.image.word(h, 117)
        if kind not in LINKS or kind == SOFT or not self.image.has(r) or not self.walk.why[r]:
            return 0
        is_right = self.walk.is_file(r) if kind == LINK_FILE else self.walk.is_dir(r)
        return self.place_of[r] if is_right else 0

    def is_wrong_link(self, h: int) -> bool:
        """A hard link that leads to nothing of its kind, or a link with a wrong sum."""
        kind = self.walk.kind(h)
        return not self.walk.is_sound(h) or kind != SOFT and self.target(h, kind) == 0

    def takes_name(self, h: int) -> bool:
        is_link = not self.walk.is_dir(h) and self.walk.kind(h) in LINKS
        return self.is_given[h] != 0 or is_link and not self.is_wrong_link(h)

    def is_certain(self, h: int) -> bool:
        """Its sum is right, and it was not deleted by anything that is whole."""
        why = self.walk.why[h]
        is_live = why in (REACHED, MADE) or why == LOST and self.orphans.trusted and self.bitmap.is_used(h)
        return self.walk.is_sound(h) and is_live and not self.is_freed[h]

    def held(self, h: int, k: int) -> int:
        """How many bytes of a file are in its data block k: what an OFS one says itself counts only where the sum of the header is wrong."""
        if k > self.files.told[h] or not self.files.is_good(h, k):
            return 0
        if self.files.is_ffs or self.walk.is_sound(h):
            return self.files.size_of(h, k)
        return self.image.word(self.files.names(h, k), 3)

    # What is amiss

    def find_amiss(self) -> None:
        r = self.image.root
        if not self.bitmap.has_root:
            self.tell("root", 0, r, r + 1)
        if self.bitmap.is_like_root and self.image.bytes[512 * r + NAME] > MOST_NAME:
            self.tell("label cut", 0, r, r + 1)
        for i in self.bitmap.lost_pages():
            page = self.bitmap.places[i]
            if not self.is_full_page(i, page):
                self.tell("bitmap", 0, page, page + 1)
        for p in sorted(p for p in self.walk.order if self.walk.is_dir(p) and (self.walk.broken[p] or self.walk.doubted[p])):
            self.tell("lost in", self.place_of[p], p, p + 1)
        for h in self.walk.order[1:]:
            self.tell_of(h)
        self.tell_lost_blocks()

    def tell(self, cause: str, claim: int, first: int, past: int) -> None:
        self.amiss.append(Amiss(cause, claim, first, past))

    def tell_of(self, h: int) -> None:
        """What is amiss with a header that is claimed."""
        cause = self.cause(h)
        if cause:
            self.tell(cause, self.place_of[h], h, h + 1)
        if self.names.is_other[h]:
            self.tell("renamed", self.place_of[h], h, h + 1)
        if self.is_given[h] and self.walk.why[h] != MADE and self.image.bytes[512 * h + COMMENT] > MOST_COMMENT:
            self.tell("comment cut", self.place_of[h], h, h + 1)

    def cause(self, h: int) -> str:
        if not self.is_given[h]:
            return "link" if self.walk.kind(h) in LINKS and not self.is_wrong_link(h) else "damaged"
        if not self.walk.is_sound(h) or self.is_odd(h):
            return "in doubt"
        told = {MADE: "made", PERHAPS: "perhaps deleted", LOST: "found again"}
        return told.get(self.walk.why[h], "owned free" if self.is_freed[h] else "")

    def is_odd(self, h: int) -> bool:
        """It is reached, but not in its slot, or its data blocks do not lead to each other or are its by a date alone."""
        is_torn = self.walk.is_file(h) and (not self.files.is_joined(h) or self.files.is_ffs and self.files.disputed[h])
        return self.walk.why[h] == REACHED and bool(self.walk.misplaced[h] or is_torn)

    def tell_lost_blocks(self) -> None:
        """Runs of blocks in use that nothing has."""
        if self.orphans.trusted and self.bitmap.has_root:
            for first, past in runs(2, self.image.blocks, lambda b: not self.is_had(b) and self.bitmap.is_used(b)):
                self.tell("lost", 0, first, past)

    def is_full_page(self, i: int, page: int) -> bool:
        """A page of zeros, which has all of its blocks in use, is right if something has each of them."""
        if not self.image.has(page) or any(self.image.words(page)):
            return False
        first, past = 2 + PAGE_BITS * i, min(2 + PAGE_BITS * (i + 1), self.image.blocks)
        return all(b == page or self.is_had(b) for b in range(first, past))

    def is_had(self, b: int) -> bool:
        return bool(self.files.is_part[b] or self.files.claims[b] or self.walk.why[b] or self.image.is_cache(b))

    def is_spare(self, b: int) -> bool:
        """Nothing has the block, and a trusted bitmap has it free."""
        return self.orphans.trusted and not self.is_had(b) and self.bitmap.is_free(b)


class Names:
    """The name of each claim: its own, or another one where that cannot be or another claim has it."""

    def __init__(self, claims: Claims) -> None:
        self.walk, self.image, self.claims = claims.walk, claims.image, claims
        self.turn = [0] * self.image.blocks
        self.is_other = bytearray(self.image.blocks)
        for turn, h in enumerate(sorted(self.walk.order[1:], key=self.precedence)):
            self.turn[h] = turn
        self.keep()
        self.all = [self.place(h) for h in self.walk.order[1:]]

    def precedence(self, h: int) -> Tuple[int, ...]:
        """By rank; then what is in its own slot and has no block free; then the latest."""
        rank = self.claims.files.rank(self.walk, h)
        return rank, self.walk.misplaced[h], self.claims.is_freed[h], -self.image.moment(h)

    def keep(self) -> None:
        """Of those that are given back or are right links, and have one name in one directory, the first keeps it."""
        self.keeper: List[int] = []
        self.kept: List[Key] = []  # in order
        named = [h for h in self.walk.order[1:] if self.claims.takes_name(h) and is_name(self.said(h))]
        for h in sorted(named, key=lambda h: (self.key(h, self.said(h)), 1 - self.claims.is_given[h], self.turn[h])):
            if not self.kept or self.kept[-1] != self.key(h, self.said(h)):
                self.kept.append(self.key(h, self.said(h)))
                self.keeper.append(h)

    def has(self, h: int, name: bytes) -> int:
        """The header that keeps this name in the directory of h; 0 if none does."""
        i = bisect_left(self.kept, self.key(h, name))
        return self.keeper[i] if i < len(self.kept) and self.kept[i] == self.key(h, name) else 0

    def place(self, h: int) -> bytes:
        """Its own name, or the first of `lost-` and its block, with numbers behind it, that no other keeps."""
        name, number = self.said(h), 0
        if is_name(name) and self.has(h, name) in (0, h):
            return name
        self.is_other[h] = 1
        name = b"lost-%d" % h
        while self.has(h, name):
            number += 1
            name = b"lost-%d-%d" % (h, number)
        return name

    def said(self, h: int) -> bytes:
        """The name that its header says, or of a made directory the record of a cache."""
        if self.walk.why[h] != MADE:
            return self.image.text(h, NAME, 79)
        return self.claims.orphans.caches.name(h) if self.claims.orphans.caches.record[h] else b"lost-%d" % h

    def key(self, h: int, name: bytes) -> Key:
        return self.walk.parent[h], upper(name, self.walk.international)


def is_name(name: bytes) -> bool:
    """The format of a new volume has such names."""
    return 1 <= len(name) <= MOST_NAME and b"/" not in name and b":" not in name
