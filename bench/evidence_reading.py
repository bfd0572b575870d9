"""By which length, letters and kind a damaged volume is read. The first part of bench/evidence.py."""

from __future__ import annotations

from typing import List, NamedTuple, Optional

from evidence_image import LONG_NAME, NAME, Bitmap, Image
from evidence_walk import Walk
from truth_volumes import DIR, FILE, POINTERS, VALID, slot

USUAL = tuple(many * tracks for many in (22, 44) for tracks in range(80, 85))
FLOPPIES, MOST_CYLINDERS = (1760, 3520), 84
LONG_TYPES, MOST_LONG = (6, 7), 107
NEWEST = 5  # so many files are asked for the kind where none is reached


class Length(NamedTuple):
    """How many blocks the volume has, and the middles of other lengths whose roots are not older."""

    blocks: int
    rivals: List[int]


# The length


def is_own_root(image: Image, b: int) -> bool:
    """Like a root, and no copy of another one: where its table leads to headers, one names it; where to none, the page that it names is one."""
    if not image.is_like_root(b):
        return False
    heads = [h for h in image.table(b) if image.has(h) and image.is_head(h)]
    if heads or not image.sealed(b):
        return not heads or any(image.word(h, 125) == b for h in heads)
    return not any(image.table(b)) or image.is_page(image.word(b, 79))


def moment_at(image: Image, b: int, i: int) -> int:
    """The date in three words as one number: a later one is larger; 0 if it is none."""
    days, minutes, ticks = image.date(b, i)
    is_date = days < 2**16 and minutes < 1440 and ticks < 3000
    return (days << 64) + (minutes << 32) + ticks if is_date else 0


def date_of_root(image: Image, r: int) -> int:
    """The latest date that a root says, as one number; 0 if it says none."""
    return max(moment_at(image, r, i) for i in (105, 118, 121))


class Middles:
    """The blocks that the root may be in: the middle of the stated length, and those of the usual ones."""

    def __init__(self, image: Image, stated: int, usual: List[int]) -> None:
        self.image = image
        self.all = [stated // 2, *(n // 2 for n in usual if n != stated and n // 2 < image.held)]
        self.naming = [0] * len(self.all)  # how many headers name the middle as their directory
        self.earliest, self.latest = [0] * len(self.all), [0] * len(self.all)  # the dates of these
        for b in range(2, image.held):
            r = image.word(b, 125)
            if r in self.all and image.is_head(b):
                self.count(self.all.index(r), b)
        free = [i for i, r in enumerate(self.all) if not image.is_head(r)]
        self.free = free or [0]
        self.roots = [i for i in self.free if is_own_root(image, self.all[i])]

    def count(self, i: int, h: int) -> None:
        moment = self.image.moment(h)
        self.earliest[i] = min(self.earliest[i], moment) if self.naming[i] else moment
        self.latest[i] = max(self.latest[i], moment_at(self.image, h, 105))
        self.naming[i] += 1

    def date(self, i: int) -> int:
        """The latest date that a root says; where its sum is not right, also of those that the headers say that name it."""
        said = date_of_root(self.image, self.all[i]) if i in self.roots else 0
        return said if self.image.is_root(self.all[i]) else max(said, self.latest[i])

    def best(self) -> int:
        """The middle with the latest root, or, if none has one, that which more headers name; of equals the stated one. But a lost middle
        comes first if each header that names it is later than that root, which was whole and flushed."""
        best = (self.roots or self.free)[0]
        for i in (self.roots or self.free)[1:]:
            best = i if self.weight(i) > self.weight(best) else best
        r = self.all[best]
        if self.image.is_root(r) and self.image.word(r, 78) == VALID:  # so no header of its volume is later than this root
            for i in self.free:
                is_later = i not in self.roots and self.naming[i] and self.earliest[i] > date_of_root(self.image, r)
                best = i if is_later and (self.all[best] == r or self.naming[i] > self.naming[best]) else best
        return best

    def weight(self, i: int) -> int:
        return self.date(i) if self.roots else self.naming[i]

    def rivals(self, best: int) -> List[int]:
        """The middles with another whole root, not older."""
        others = [i for i in self.roots if self.all[i] != self.all[best] and self.image.is_root(self.all[i])]
        return sorted({self.all[i] for i in others if date_of_root(self.image, self.all[i]) >= self.date(best)})


def plausible(image: Image, stated: int) -> Middles:
    """The middles of floppies whose density the input's length fits, first of those whose end is not missing; of all floppies if no header
    names one of these."""
    density = [n for n in USUAL if image.held <= (MOST_CYLINDERS * 22 if n <= MOST_CYLINDERS * 22 else MOST_CYLINDERS * 44)]
    middles = Middles(image, stated, [n for n in density if n <= image.held or n in FLOPPIES])
    if not middles.roots:
        longer = Middles(image, stated, density)
        middles = longer if longer.roots else middles
    return middles if middles.roots or any(middles.naming) else Middles(image, stated, list(USUAL))


def length_of(given: bytes, blocks: Optional[int]) -> Length:
    """The length that the user states; else the one that the roots and the headers tell."""
    if blocks is not None:
        return Length(blocks, [])
    stated = len(given) // 512 // 2 * 2
    image = Image(given, max(stated, 2 * max(USUAL)))
    middles = plausible(image, stated)
    if stated in FLOPPIES and image.is_root(stated // 2) and 0 in middles.roots:  # no dump has just as many blocks by chance
        return Length(stated, [])
    best = 0 if stated in FLOPPIES and 0 in middles.roots else middles.best()
    return Length(2 * middles.all[best], middles.rivals(best))


# The letters


class Letters:
    """How many headers stand in a chain where their name belongs by the letters of types 0 and 1 alone, and by international ones alone."""

    def __init__(self, image: Image) -> None:
        self.image = image
        self.plain = self.international = 0
        self.is_below_root = True
        self.short = self.long = 0  # names where types 0 to 5 have them, and where types 6 and 7 have long ones

    def count_all(self) -> None:
        """From the root on; if no header is reached, in all sound directories."""
        self.count([self.image.root])
        if not self.plain and not self.international:
            self.is_below_root = False
            self.count([b for b in range(2, self.image.blocks) if self.image.is_head(b) and self.image.word(b, 127) == DIR])

    def count(self, directories: List[int]) -> None:
        """In these directories and in those below."""
        is_seen = bytearray(self.image.blocks)
        for p in directories:
            is_seen[p] = 1
        at = 0
        while at < len(directories):
            p, at = directories[at], at + 1
            for s, b in enumerate(self.image.table(p)):
                while self.image.has(b) and not is_seen[b] and self.image.is_head(b) and self.image.word(b, 125) == p:
                    is_seen[b] = 1
                    self.vote(s, b)
                    if self.image.word(b, 127) == DIR:
                        directories.append(b)
                    b = self.image.word(b, 124)

    def vote(self, s: int, b: int) -> None:
        name = self.image.text(b, NAME, 79)
        plain, international = slot(name, False), slot(name, True)
        self.plain += plain != international and plain == s
        self.international += plain != international and international == s
        long = self.image.text(b, LONG_NAME, MOST_LONG)
        is_short, is_long = s in (plain, international), long != b"" and slot(long, True) == s
        self.short += is_short and not is_long
        self.long += is_long and not is_short


def is_long(letters: Letters, stated: int) -> bool:
    """Names are long: the type says so, and no more headers say the contrary; or more headers say so."""
    return letters.long > letters.short or stated in LONG_TYPES and letters.long == letters.short


def is_international(letters: Letters, stated: bool) -> bool:
    """The stated letters, unless more names below the root stand where they belong by the others; if none below the root tells, all names
    in sound directories must tell the others."""
    if letters.is_below_root:
        return letters.international > letters.plain or stated and letters.international == letters.plain
    if stated:
        return not (letters.plain and not letters.international)
    return letters.international > 0 and letters.plain == 0


# The kind

OFS, FFS, NEITHER = 0, 1, 2


class Kinds:
    """What files tell of their kind."""

    def __init__(self, image: Image) -> None:
        self.image = image
        self.pointers = [-1] * image.blocks  # how many blocks the tables of a file name, where it was asked
        self.is_counted = bytearray(image.blocks)  # extension blocks

    def count(self, h: int) -> int:
        """How many blocks the tables of a file name."""
        if self.pointers[h] < 0:
            self.pointers[h] = self.counted(h)
        return self.pointers[h]

    def counted(self, h: int) -> int:
        at, count, is_more = h, 0, True
        while is_more:
            many = 0
            while many < POINTERS and self.image.word(at, 77 - many):
                many += 1
            count, at = count + many, self.image.word(at, 126)
            is_more = many == POINTERS and self.image.is_ext(at, h) and not self.is_counted[at]
            if is_more:
                self.is_counted[at] = 1
        return count

    def is_ofs(self, h: int) -> bool:
        """A block that a header names says that it is an OFS one of that file."""
        return any(self.says_ofs(h, k) for k in range(1, POINTERS + 1))

    def says_ofs(self, h: int, k: int) -> bool:
        return self.image.is_data(self.image.word(h, 77 - (k - 1)), h, k)

    def speaks(self, h: int, k: int) -> bool:
        """The block that a header names for data block k is held, and is not filled with one pattern."""
        d = self.image.word(h, 77 - (k - 1))
        return self.image.has(d) and self.image.is_held[d] != 0 and not self.image.is_filled(d)

    def speaking(self, h: int) -> List[int]:
        """Which of the data blocks that a header names speak."""
        return [k for k in range(1, min(POINTERS, self.count(h)) + 1) if self.speaks(h, k)]

    def says(self, h: int) -> int:
        """What the header of a file tells: the kind in which its size needs just as many blocks as its table has; where both need as many,
        OFS if most of its blocks that speak say that they are OFS ones of that file."""
        size, count = self.image.word(h, 81), self.count(h)
        is_ofs, is_ffs = count == -(-size // 488), count == -(-size // 512)
        if is_ofs != is_ffs:
            return FFS if is_ffs else OFS
        speaking = self.speaking(h)
        return OFS if 2 * sum(self.says_ofs(h, k) for k in speaking) > len(speaking) else NEITHER


def is_ffs(walk: Walk, kinds: Kinds, bitmap: Bitmap, stated: Optional[int]) -> bool:
    """The kind that is stated, unless more of the files that are reached tell the other. OFS gives way too if two or more blocks of reached
    files are not filled, and no block of the files of now says OFS."""
    full = [h for h in walk.heads if walk.kind(h) == FILE and walk.image.word(h, 81)]
    reached = [h for h in full if walk.why[h]]
    doubted = [h for h in walk.order[1:] if not walk.is_head[h] and walk.is_file(h)]
    said = [kinds.says(h) for h in reached] + [OFS for h in doubted if kinds.is_ofs(h)]
    ofs, ffs = said.count(OFS), said.count(FFS)
    if ofs or ffs:
        return ffs > ofs or ffs == ofs and stated != OFS
    spoken = sum(len(kinds.speaking(h)) for h in reached)
    earliest = min(map(walk.image.moment, reached), default=0)
    if reached and (stated is not None or spoken >= 2):
        return stated == FFS or spoken >= 2 and not any(kinds.is_ofs(h) for h in full if is_of_now(walk, bitmap, h, earliest))
    return newest_tell(walk, kinds, full, stated)


def may_be_lost(walk: Walk, h: int) -> bool:
    """It is reached, or the way to it may be lost."""
    p = walk.home[h]
    is_reached = p < walk.image.blocks and (p == walk.image.root or walk.why[p] != 0)
    return walk.why[h] != 0 or walk.is_open(h) or not is_reached


def is_of_now(walk: Walk, bitmap: Bitmap, h: int, earliest: int) -> bool:
    """A file is no older than the earliest one that is reached, or the way to it may be lost and the bitmap has it in use."""
    return walk.image.moment(h) >= earliest or may_be_lost(walk, h) and bitmap.is_used(h)


def newest_tell(walk: Walk, kinds: Kinds, full: List[int], stated: Optional[int]) -> bool:
    """Where no file is reached: of newest to oldest the first that tells its kind, or FFS once two blocks speak that do not say OFS. Where a
    kind is stated, the five newest files, and all that are as new, must all tell the other one."""
    asked = [h for h in full if may_be_lost(walk, h) and (stated == OFS or kinds.speaks(h, 1))]
    asked.sort(key=walk.image.moment, reverse=True)
    if stated is None:
        return first_tells(kinds, asked)
    if stated == OFS:
        asked = [h for h in asked if kinds.says(h) != NEITHER]
    since = walk.image.moment(asked[min(NEWEST, len(asked)) - 1]) if asked else 0
    told = [h for h in asked if walk.image.moment(h) >= since]
    other = OFS + FFS - stated
    is_other = len(told) > 0 and all(kinds.says(h) == other for h in told)
    return (other if is_other else stated) == FFS


def first_tells(kinds: Kinds, asked: List[int]) -> bool:
    spoken = 0
    for h in asked:
        kind, spoken = kinds.says(h), spoken + len(kinds.speaking(h))
        if kind != NEITHER or spoken >= 2:
            return kind != OFS
    return True
