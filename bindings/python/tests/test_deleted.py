"""What was deleted: adf.Survey.deleted, adf.Volume.deleted. A file is deleted as AmigaDOS does it: its slot in the root is 0, and its blocks are free."""

from __future__ import annotations

import struct
import unittest

import adf

ROOT, PAGE, SLOT_OF_A = 8, 9, 12
ALL_FREE = 0x3F3F  # the 14 bits from block 2 on, without those of the root and the page


def with_word(image: bytes, block: int, place: int, value: int, sum_at: int = 5) -> bytes:
    """The image with a word of a block, and its sum."""
    words = list(struct.unpack_from(">128I", image, 512 * block))
    words[place], words[sum_at] = value, 0
    words[sum_at] = -sum(words) % 2**32
    return image[: 512 * block] + struct.pack(">128I", *words) + image[512 * (block + 1) :]


def without_a(image: bytes) -> bytes:
    return with_word(with_word(image, ROOT, SLOT_OF_A, 0), PAGE, 1, ALL_FREE, 0)


WITH_A = adf.build("ofs", 16, [adf.Addition("a", b"A" * 489, "mine: all")])


class TestDeleted(unittest.TestCase):
    def test_tells_a_whole_file(self):
        self.assertEqual(adf.survey(WITH_A).deleted, [])
        (each,) = adf.survey(without_a(WITH_A)).deleted
        self.assertEqual((each.block, each.state, each.is_whole, each.path, each.size), (2, "whole", True, "a", 489))
        self.assertEqual((each.is_file, each.comment, str(each.date)), (True, "mine: all", "1978-01-01 00:00:00.00"))
        self.assertEqual(each.read(), b"A" * 489)
        self.assertEqual(each.remains(), (b"A" * 489, []))

    def test_tells_that_of_a_volume(self):
        (each,) = adf.Volume(without_a(WITH_A)).deleted
        self.assertEqual((each.block, each.path, each.read()), (2, "a", b"A" * 489))
        self.assertEqual(adf.Volume(WITH_A).deleted, [])
        closed = adf.Volume(WITH_A)
        closed.close()
        self.assertRaises(adf.Closed, lambda: closed.deleted)

    def test_tells_what_is_lost(self):
        (each,) = adf.survey(with_word(without_a(WITH_A), 4, 1, 5)).deleted
        self.assertEqual((each.state, each.is_whole), ("overwritten: 1 of 2 blocks", False))
        self.assertEqual(each.remains(), (b"A" * 488 + b"\0", [range(488, 489)]))
        self.assertRaisesRegex(adf.Damaged, "overwritten", each.read)

    def test_tells_directories(self):
        image = with_word(adf.build("ffs", 16, [adf.Addition("a")]), ROOT, SLOT_OF_A, 0)
        (each,) = adf.survey(with_word(image, PAGE, 1, ALL_FREE, 0)).deleted
        self.assertEqual((each.path, each.is_file, each.size), ("a", False, 0))
        self.assertRaises(adf.NotAFile, each.read)

    def test_tells_nothing_of_no_volume(self):
        self.assertEqual(adf.survey(bytes(600)).deleted, [])


if __name__ == "__main__":
    unittest.main()
