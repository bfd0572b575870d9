"""Tests of what is left of damaged files, by a library of the tests' own: they need no other."""

from __future__ import annotations

import os
import tempfile
import types
import unittest
from typing import Any, Dict, Sequence
from unittest import mock

import adf
from adf import _library, _structs
from adf.surveys import NO_BLOCK
from adf_tools.links import left_out_with
from adf_tools.names import LETTERS
from adf_tools.unpack import Additions, Unpacker, directories_of

CHUNK, SOME, NONE = 488, 5, NO_BLOCK  # bytes in an OFS data block; a block, and none, of a table


class Library:
    """A library that finds these data blocks of files, by their headers, and reads `A` in each."""

    def __init__(self, tables: Dict[int, Sequence[int]], sizes: Dict[int, int]) -> None:
        self.tables, self.sizes = tables, sizes

    def adf_found_blocks(self, image: bytes, length: int, parts: Any, count: int, node: int, header: int, blocks: Any, room: int) -> int:
        table = self.tables[header]
        blocks[: min(room, len(table))] = table[:room]
        return len(table)

    def adf_found_read(self, image: bytes, length: int, header: int, blocks: Any, count: int, at: int, room: Any, most: int, lost: Any) -> int:
        def is_left(place: int) -> bool:
            return place // CHUNK < count and blocks[place // CHUNK] != NONE

        size, end = min(self.sizes[header], length), at
        while end < min(size, at + most) and is_left(end):
            end = min(end // CHUNK * CHUNK + CHUNK, size, at + most)
        room[: end - at] = b"A" * (end - at)
        past = end
        while past < min(size, CHUNK * count) and not is_left(past):
            past = min(past // CHUNK * CHUNK + CHUNK, size)
        lost._obj.value = past - end
        return end - at


def survey_of(image: bytes) -> Any:
    """A survey of an image, of which nothing is known but its bytes."""
    survey: Any = object.__new__(adf.Survey)
    vars(survey).update(image=image, entries=[], _opened=image, _held=len(image) // 512, _parts=())
    return survey


def found_of(survey: Any, header: int, size: int) -> adf.Found:
    return adf.Found(survey, header, 0, header, size, 0, adf.Date(0, 0, 0), True, False, b"f%d" % header, b"")


class Remains(unittest.TestCase):
    def remains(self, table: Sequence[int], size: int) -> Any:
        survey = survey_of(bytes(901120))
        with mock.patch.object(_library, "_loaded", Library({7: table}, {7: size})):
            return survey._remains(found_of(survey, 7, size))

    def test_end_with_the_last_block_of_the_file(self) -> None:
        block, zeros = b"A" * CHUNK, bytes(CHUNK)
        for table, size, want in (
            *(([SOME, SOME], 976, (2 * block, [])), ([SOME, SOME], 490, (block + b"AA", [])), ([], 0, (b"", []))),
            ([NONE] * 1847, 901120, (b"", [range(0, 901120)])),
            ([SOME, *[NONE] * 1846], 901120, (block, [range(488, 901120)])),
            ([SOME, NONE, SOME, *[NONE] * 1844], 901120, (block + zeros + block, [range(488, 976), range(1464, 901120)])),
            ([NONE, SOME], 700, (zeros + block[:212], [range(0, 488)])),
            ([SOME, *[NONE] * 1846], 2**32 - 1, (block, [range(488, 901120)])),
        ):
            self.assertEqual(self.remains(table, size), want, (table[:4], size))

    def test_have_no_block_that_the_image_lacks(self) -> None:
        survey = survey_of(bytes(901120))
        vars(survey)["_held"] = 100
        with mock.patch.object(_library, "_loaded", Library({7: [99, 100, 99, 255, 100]}, {7: 5 * CHUNK})):
            left, lost = survey._remains(found_of(survey, 7, 5 * CHUNK))
        self.assertEqual((left, lost), (b"A" * CHUNK + bytes(CHUNK) + b"A" * CHUNK, [range(488, 976), range(1464, 2440)]))

    def test_take_no_memory_for_what_is_stated(self) -> None:
        with mock.patch("builtins.bytearray", wraps=bytearray) as room:
            self.remains([SOME, *[NONE] * 1846], 901120)
        self.assertEqual([call.args for call in room.call_args_list], [(512,)])

    def test_are_read_in_pieces(self) -> None:
        survey = survey_of(bytes(901120))
        past = 512 * 8
        vars(survey)["image"] = bytes(past - 4) + b"\xff\xff\xff\xfd" + bytes(901120 - past)
        table = [SOME, NONE, SOME, *[NONE] * 1844]
        with mock.patch.object(_library, "_loaded", Library({7: table}, {7: 901120})):
            self.assertEqual(list(found_of(survey, 7, 901120).pieces()), [(0, b"A" * CHUNK), (976, b"A" * CHUNK)])


class Directories(unittest.TestCase):
    def test_are_those_that_the_volume_has(self) -> None:
        volume: Any = object.__new__(adf.Rescued)
        survey = survey_of(bytes(901120))
        rest = 0, 0, adf.Date(0, 0, 0), False, True, b"d", b""
        vars(survey)["entries"] = [adf.Found(survey, number, parent, number, *rest) for number, parent in ((1, 0), (2, 1), (3, 2), (4, 0))]
        kept = {1: 7, 4: 9}
        vars(volume)["survey"] = survey
        with mock.patch.object(adf.Rescued, "entry_of", lambda _, each: types.SimpleNamespace(number=kept[each.number]) if each.number in kept else None):
            self.assertEqual(directories_of(volume), {1: 7, 2: 7, 3: 7, 4: 9})


class Unpacked(unittest.TestCase):
    """Many damaged files that each state all bytes of an image."""

    FILES = range(2, 40)

    def unpacked(self, folder: str, table: Sequence[int]) -> Unpacker:
        volume: Any = object.__new__(adf.Rescued)
        survey, none = survey_of(bytes(901120)), (_structs.Entry * 1)()
        left_out = [adf.LeftOut(adf.Reason.DAMAGED, b"f%d" % header, header, header) for header in self.FILES]
        vars(volume).update(_known_tables=((b"", 0), (none, 0), (none, 0)), _last_path=(0, b""), survey=survey, _left_out=left_out)
        library = Library({header: table for header in self.FILES}, {header: 901120 for header in self.FILES})
        found = [found_of(survey, header, 901120) for header in self.FILES]
        with mock.patch.object(_library, "_loaded", library), mock.patch.object(adf.Found, "_has_bytes", lambda _: True):
            unpacker = Unpacker(volume, LETTERS, False, Additions(damaged=found))
            unpacker.write(folder)
        self.lines = left_out_with(volume, [], unpacker.short)
        return unpacker

    def test_have_the_bytes_that_are_left(self) -> None:
        with tempfile.TemporaryDirectory() as folder:
            self.assertEqual(self.unpacked(folder, [SOME, *[NONE] * 1846]).failed, [])
            self.assertEqual(len(os.listdir(folder)), 2 * len(self.FILES))
            self.assertEqual({os.path.getsize(os.path.join(folder, f"f{header}.damaged")) for header in self.FILES}, {CHUNK})
            with open(os.path.join(folder, "f2.gaps"), encoding="ascii") as file:
                self.assertEqual(file.read(), "bytes 488 to 901119: no data\n")
        self.assertEqual(self.lines[0], "damaged: f2: 488 of 901120 bytes are written")

    def test_are_not_written_if_they_have_too_many_bytes_together(self) -> None:
        with tempfile.TemporaryDirectory() as folder:
            self.unpacked(folder, [*[NONE] * 1846, SOME])
            sizes = [os.path.getsize(os.path.join(folder, name)) for name in os.listdir(folder) if name.endswith(".damaged")]
            self.assertEqual(sizes, [901120] * 16)
        self.assertEqual((self.lines[0], self.lines[15]), ("damaged: f2", "damaged: f17"))
        self.assertEqual(self.lines[16], "damaged: f18: not written, since all damaged files together have too many bytes")
