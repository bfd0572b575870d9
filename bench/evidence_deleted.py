"""The headers that were deleted, and which of their blocks are still theirs: none that anything live has."""

from __future__ import annotations

from typing import NamedTuple

from evidence_claims import Claims
from evidence_image import LINKS, NAME, SOFT
from truth_volumes import FILE, LIST, POINTERS, SHORT


class Deleted(NamedTuple):
    """A deleted header: what it is, its name, the directory that it says, how many data blocks it needs, how many of these are not its own
    any more, the latest other deleted header that names one of them (0: none), and of a hard link the header that it leads to."""

    head: int
    kind: int
    name: bytes
    directory: int
    needs: int
    overwritten: int
    rival: int
    target: int


class DeletedHeaders:
    """The sound headers that nothing claims. What is live comes first: each block that anything live has is no block of these."""

    def __init__(self, claims: Claims) -> None:
        self.claims, self.image, self.files, self.walk = claims, claims.image, claims.files, claims.walk
        self.heads = [h for h in self.walk.heads if not self.walk.why[h]]
        self.is_live = bytearray(self.image.blocks)
        self.first, self.second = [0] * self.image.blocks, [0] * self.image.blocks  # the two latest deleted files that name a block
        self.find_live()
        for h in sorted(filter(self.is_file, self.heads), key=lambda h: (-self.image.moment(h), h)):
            self.name_blocks(h)
        self.all = [self.deleted(h) for h in self.heads]

    def is_file(self, h: int) -> bool:
        return self.walk.kind(h) == FILE

    # What is live

    def find_live(self) -> None:
        """Parts and data of what is claimed, blocks of caches, and what headers and extension blocks name that are none of a sound header."""
        for b in range(2, self.image.blocks):
            if self.files.is_part[b] or self.files.claims[b] or self.image.is_cache(b) and self.image.sealed(b):
                self.is_live[b] = 1
            if not self.walk.why[b] and (self.is_doubted_head(b) or self.is_ext_alone(b)):
                self.mark(b)

    def is_doubted_head(self, b: int) -> bool:
        """It says that it is the header of a file, with a wrong sum, in a directory that is claimed."""
        words = self.image.words(b)
        says = words[0] == SHORT and words[1] == b and words[127] == FILE and not self.walk.is_head[b]
        return says and words[125] < self.image.blocks and (words[125] == self.image.root or self.walk.why[words[125]] != 0)

    def is_ext_alone(self, b: int) -> bool:
        """It says that it is an extension block, and the header that it names is gone."""
        words = self.image.words(b)
        says = words[0] == LIST and words[1] == b and words[127] == FILE and not self.claims.bitmap.is_free(b)
        return says and self.image.has(words[125]) and not self.walk.is_head[words[125]]

    def mark(self, b: int) -> None:
        self.is_live[b] = 1
        for k in range(POINTERS):
            d = self.image.word(b, 77 - k)
            if self.image.has(d):
                self.is_live[d] = 1

    # What is deleted

    def name_blocks(self, h: int) -> None:
        for d in self.files.apart(h):
            if not self.first[d]:
                self.first[d] = h
            elif not self.second[d]:
                self.second[d] = h

    def is_own(self, h: int, k: int) -> bool:
        """The block for data block k is still that of the deleted file: nothing live has it, no bitmap has it in use, and it agrees."""
        d = self.files.names(h, k)
        if not self.files.is_agreed(h, k) or self.is_live[d]:
            return False
        return not self.files.is_ffs or not self.claims.bitmap.is_used(d)

    def rival(self, h: int) -> int:
        """FFS: the latest other deleted file that names the first of its blocks that another one names."""
        for d in self.files.apart(h) if self.files.is_ffs else []:
            other = self.second[d] if self.first[d] == h else self.first[d]
            if other:
                return other
        return 0

    def deleted(self, h: int) -> Deleted:
        kind, name, directory = self.walk.kind(h), self.image.text(h, NAME, 79), self.walk.home[h]
        if kind != FILE:
            target = self.image.word(h, 117) if kind in LINKS and kind != SOFT else 0
            return Deleted(h, kind, name, directory, 0, 0, 0, target)
        needs = self.files.count(h)
        own = sum(self.is_own(h, k) for k in range(1, self.files.told[h] + 1))
        return Deleted(h, kind, name, directory, needs, needs - own, self.rival(h), 0)
