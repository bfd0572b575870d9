"""Which blocks are whose: each is claimed by one word of one table, or by none. The third part of bench/evidence.py."""

from __future__ import annotations

from typing import TYPE_CHECKING, Iterator, List

from evidence_image import MADE, Bitmap, Image
from truth_volumes import POINTERS

if TYPE_CHECKING:
    from evidence_walk import Walk

DOUBTED = 3
RANKS = (DOUBTED, 0, 0, 1, 2)  # by why a header is claimed


class Files:
    """The extension blocks of each file, and the owners of data blocks: arrays with one value a block."""

    def __init__(self, image: Image, bitmap: Bitmap, is_head: bytearray, is_ffs: bool) -> None:
        self.image, self.bitmap, self.is_head = image, bitmap, is_head
        self.is_ffs, self.chunk = is_ffs, 512 if is_ffs else 488
        self.exts: List[int] = []  # of all files, one behind the other
        self.first_ext, self.many_exts = [0] * image.blocks, [0] * image.blocks
        self.told = [0] * image.blocks  # how many data blocks the table of a file names
        self.is_file = bytearray(image.blocks)  # its table is read
        self.is_led_ext = bytearray(image.blocks)  # the chain of the header that it names leads to it
        self.is_part = bytearray(image.blocks)  # headers, extension blocks, pages and the root
        self.claims = [0] * image.blocks  # how many files name a block
        self.owner = [0] * image.blocks
        self.is_seen = bytearray(image.blocks)  # of the one table that is read now
        self.disputed = bytearray(image.blocks)  # files that have a block by their date alone
        for b in (*bitmap.pages, *bitmap.maps, image.root if bitmap.is_like_root else 0):
            self.is_part[b] = b != 0
        self.known = 1

    # Tables

    def count(self, h: int) -> int:
        """How many data blocks the size of a file needs."""
        return -(-self.image.word(h, 81) // self.chunk)

    def read_table(self, h: int) -> None:
        """Follows the extension blocks of a file, as many as its size needs."""
        if self.is_file[h]:
            return
        count, at = self.count(h), h
        self.is_file[h], self.first_ext[h], self.told[h] = 1, len(self.exts), min(count, POINTERS)
        while self.told[h] < count:
            at = self.image.word(at, 126)
            if not self.image.is_ext(at, h) or self.is_led_ext[at]:
                return
            self.is_led_ext[at] = 1
            self.exts.append(at)
            self.many_exts[h] += 1
            self.told[h] = min(count, self.told[h] + POINTERS)

    def exts_of(self, h: int) -> List[int]:
        return self.exts[self.first_ext[h] : self.first_ext[h] + self.many_exts[h]]

    def names(self, h: int, k: int) -> int:
        """The block that the table names for data block k; 0 if it names none."""
        if not 1 <= k <= self.told[h]:
            return 0
        at = h if k <= POINTERS else self.exts[self.first_ext[h] + (k - 1) // POINTERS - 1]
        return self.image.word(at, 77 - (k - 1) % POINTERS)

    def datas(self, h: int) -> Iterator[int]:
        return (self.names(h, k) for k in range(1, self.told[h] + 1))

    def apart(self, h: int) -> List[int]:
        """The blocks of the volume that the table names, each once."""
        some = []
        for d in self.datas(h):
            if self.image.has(d) and not self.is_seen[d]:
                self.is_seen[d] = 1
                some.append(d)
        for d in some:
            self.is_seen[d] = 0
        return some

    # Claims

    def know(self, walk: Walk) -> None:
        """What is newly given back claims its header, its extension blocks, and the data blocks that its table names."""
        while self.known < len(walk.order):
            h, self.known = walk.order[self.known], self.known + 1
            if walk.why[h] != MADE:
                self.is_part[h] = 1
            if walk.is_file(h):
                self.read_table(h)
                for e in self.exts_of(h):
                    self.is_part[e] = 1
                for d in self.apart(h):
                    self.claims[d] += 1

    def rank(self, walk: Walk, h: int) -> int:
        return RANKS[walk.why[h]] if walk.is_sound(h) else DOUBTED

    def firm(self, walk: Walk) -> bytearray:
        """The blocks of what is reached: those that parts are in, and the data that files with right sums claim and that agrees."""
        firm = bytearray(self.is_part)
        for h in walk.order[1:]:
            if walk.is_file(h) and self.rank(walk, h) == 0:
                for k in range(1, self.told[h] + 1):
                    if self.is_agreed(h, k):
                        firm[self.names(h, k)] = 1
        return firm

    def latest(self, walk: Walk) -> List[int]:
        """Of each block that a file that is reached or was lost names the latest date of such a file."""
        latest = [0] * self.image.blocks
        for h in walk.order[1:]:
            if walk.is_file(h) and self.rank(walk, h) <= 1:
                for d in self.apart(h):
                    latest[d] = max(latest[d], self.image.moment(h))
        return latest

    # Owners

    def settle(self, walk: Walk, freed: bytearray) -> None:
        """Each data block is that of its first claimant: by rank; then of what no free block and no chain that leads astray tells against;
        then by the later date, then by how few of its blocks others claim. Who loses one block claims only what no other has."""
        files = [h for h in walk.order[1:] if walk.is_file(h)]
        sure = [0] * self.image.blocks
        for h in files:
            sure[h] = 4 * self.rank(walk, h) + 2 * freed[h] + self.is_astray(walk, h)
        beaten = []
        for h in sorted(files, key=lambda h: (sure[h], -self.image.moment(h), self.rivals(h))):
            mine = self.apart(h)
            if any(self.owner[d] or self.is_part[d] for d in mine):
                beaten.append(h)
                for d in mine:
                    if self.owner[d] and sure[self.owner[d]] == sure[h]:
                        self.disputed[self.owner[d]] = 1
            else:
                self.own_all(h, mine)
        for h in beaten:
            self.own_all(h, self.apart(h))

    def own_all(self, h: int, mine: List[int]) -> None:
        """The file has each of the blocks that no other has."""
        for d in mine:
            self.owner[d] = self.owner[d] or h

    def rivals(self, h: int) -> int:
        """How many of its blocks others claim."""
        return sum(self.claims[d] > 1 for d in self.apart(h))

    def is_astray(self, walk: Walk, h: int) -> bool:
        """Its chain goes on to a sound header that is of another chain: so it was deleted."""
        b = self.image.word(h, 124)
        if b >= self.image.blocks or not walk.is_head[b]:
            return False
        return not walk.is_head[h] or (walk.home[b], walk.slot[b]) != (walk.home[h], walk.slot[h])

    # What is whole

    def is_agreed(self, h: int, k: int) -> bool:
        """The block that the table names for data block k is held and may be that: on OFS it says so, on FFS it is no sound header and no
        sound block of a cache."""
        d = self.names(h, k)
        if not self.image.has(d) or not self.image.is_held[d]:
            return False
        if not self.is_ffs:
            return self.image.is_data(d, h, k)
        return not self.is_head[d] and not (self.image.is_cache(d) and self.image.sealed(d))

    def is_good(self, h: int, k: int) -> bool:
        """The block that the table names for data block k is the file's own."""
        d = self.names(h, k)
        return self.is_agreed(h, k) and (not self.is_ffs or self.owner[d] == h and not self.is_part[d])

    def size_of(self, h: int, k: int) -> int:
        """How many bytes of the file are in its data block k."""
        return min(self.chunk, self.image.word(h, 81) - self.chunk * (k - 1))

    def is_joined(self, h: int) -> bool:
        """OFS: each data block leads to the next one of the table, and says how many bytes of the file it has."""
        return self.is_ffs or all(self.is_next_right(h, k) for k in range(1, self.told[h] + 1))

    def is_next_right(self, h: int, k: int) -> bool:
        size, following = self.image.words(self.names(h, k))[3:5]
        return (size, following) == (self.size_of(h, k), self.names(h, k + 1))

    def is_whole(self, walk: Walk, h: int) -> bool:
        """Each block of the file is its own, and its header's sum is right."""
        is_told = self.told[h] == self.count(h)
        return walk.is_sound(h) and is_told and all(self.is_good(h, k) for k in range(1, self.told[h] + 1))
