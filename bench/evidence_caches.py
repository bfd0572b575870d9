"""What directory caches of types 4 and 5 say of directories whose headers are lost."""

from __future__ import annotations

from evidence_image import Bitmap, Image
from truth_volumes import DIR, Date

FIRST_RECORD, NAME_IN_RECORD = 24, 24  # bytes: of a block, of a record
MOST_RECORDS = 19


class Caches:
    """The record of each directory in the cache of the one above it, by the place of its first byte in the image; 0 where there is none."""

    def __init__(self, image: Image, bitmap: Bitmap) -> None:
        self.image = image
        self.record = [0] * image.blocks
        if image.bytes[:3] == b"DOS" and image.bytes[3] in (4, 5):
            for b in range(2, image.blocks):
                if image.is_cache(b) and image.sealed(b) and not bitmap.is_free(b):
                    self.read(b)

    def read(self, b: int) -> None:
        """Reads the records of a sound block of a cache."""
        at = 512 * b + FIRST_RECORD
        records = min(self.image.word(b, 3), MOST_RECORDS)
        while records:
            past = self.past(at, 512 * b + 512)
            if past == 0:
                return
            records -= 1
            h = int.from_bytes(self.image.bytes[at : at + 4], "big")
            if self.image.has(h) and self.image.bytes[at + 22] == DIR:
                self.record[h] = at
            at = past

    def past(self, at: int, end: int) -> int:
        """The end of a record: behind its name and its comment, at an even byte; 0 if the block ends before."""
        comment = at + NAME_IN_RECORD + (self.image.bytes[at + 23] if at + NAME_IN_RECORD < end else 512)
        past = comment + 1 + (self.image.bytes[comment] if comment < end else 512)
        return past + past % 2 if past <= end else 0

    def directory(self, p: int) -> int:
        """The directory whose cache has the record of p; 0 if none has."""
        return self.image.word(self.record[p] // 512, 2) if self.image.has(p) and self.record[p] else 0

    # The words of a record

    def name(self, p: int) -> bytes:
        at = self.record[p] + NAME_IN_RECORD
        return self.image.bytes[at : at + self.image.bytes[at - 1]]

    def comment(self, p: int) -> bytes:
        at = self.record[p] + NAME_IN_RECORD + len(self.name(p))
        return self.image.bytes[at + 1 : at + 1 + self.image.bytes[at]]

    def protection(self, p: int) -> int:
        at = self.record[p] + 8
        return int.from_bytes(self.image.bytes[at : at + 4], "big")

    def date(self, p: int) -> Date:
        days, minutes, ticks = (int.from_bytes(self.image.bytes[self.record[p] + i : self.record[p] + i + 2], "big") for i in (16, 18, 20))
        return days, minutes, ticks
