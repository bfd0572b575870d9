"""Tests that need no library: what callers give, texts, pages, files NAME.uaem, and the line of commands."""

from __future__ import annotations

import argparse
import array
import contextlib
import ctypes
import io
import os
import tempfile
import unittest
from unittest import mock

import adf
from adf import _arguments, _library, _structs, _texts, surveys
from adf_tools import collection, processes
from adf_tools.given import number_of_blocks
from adf_tools.markup import Html, html, joined, link
from adf_tools.program import command_line
from adf_tools.uaem import kept_in


class Arguments(unittest.TestCase):
    def test_takes_whole_numbers_in_their_range(self):
        self.assertEqual((_arguments.within("n", 2**32 - 1), _arguments.within("n", 0)), (2**32 - 1, 0))
        for given in (2**32, -1, 2**40 + 5):
            with self.assertRaisesRegex(ValueError, f"n is from 0 to 4294967295, and not {given}"):
                _arguments.within("n", given)
        for given in (True, 1.0, "1", None):
            self.assertRaises(TypeError, _arguments.within, "n", given)

    def test_takes_buffers_by_their_bytes(self):
        self.assertEqual(bytes(_arguments.view(array.array("I", [1, 2]))), (1).to_bytes(4, "little") + (2).to_bytes(4, "little"))
        self.assertEqual(bytes(_arguments.view(memoryview(b"abcdef")[::2])), b"ace")
        self.assertRaises(TypeError, _arguments.to_write, b"read only")

    def test_takes_numbers_of_blocks(self):
        self.assertEqual((number_of_blocks("1"), number_of_blocks("8388608")), (1, 8388608))
        for text in ("0", "-1", "8388609", "1e3", "", " 1", "\u0661", "9" * 30):
            self.assertRaises(argparse.ArgumentTypeError, number_of_blocks, text)


class Folders(unittest.TestCase):
    def test_opens_only_the_files_that_are_wanted(self):
        with tempfile.TemporaryDirectory() as folder:
            for name in ("a/one", "a/two", "b/three", "b/four", "five", "six.adf"):
                path = os.path.join(folder, name)
                os.makedirs(os.path.dirname(path), exist_ok=True)
                with open(path, "wb") as file:
                    file.write(b"DOS\0" if "o" in name else b"none")
            os.symlink("a", os.path.join(folder, "link"))
            every = [os.path.join(folder, name).encode() for name in ("a/one", "a/two", "b/four", "six.adf")]
            for wanted in (every[:2], every[1:3], [folder.encode() + b"/five"], []):
                opened, passed = [], []
                with mock.patch.object(collection, "opened", lambda path: opened.append(path) or open(path, "rb")):
                    found = collection.files_below(folder.encode(), (), lambda path, _: passed.append(path), wanted.__contains__)
                self.assertEqual((found, sorted(opened)), ([path for path in wanted if path in every], wanted))
                self.assertEqual(passed, [path for path in wanted if path not in every])
            self.assertEqual(collection.files_below(folder.encode()), every)


class Library:
    """A library that wants a room of so many blocks, for a volume of a byte `V` each, and for so many losses."""

    def __init__(self, blocks: int, losses: int) -> None:
        self.blocks, self.losses, self.rooms = blocks, losses, []

    def adf_survey_subject(self, image, length, blocks, room, room_length, subject):
        self.rooms.append(room_length)
        subject._obj.length = 512 * self.blocks
        if room_length < 512 * self.blocks:
            return 24
        ctypes.memset(room, ord("V"), 512 * self.blocks)
        return 0

    def adf_rescue(self, image, length, blocks, room, room_length, losses, losses_room, paths, paths_room, told):
        told._obj.losses = told._obj.paths = 0
        number = self.adf_survey_subject(image, length, blocks, room, room_length, ctypes.byref(_structs.Subject()))
        told._obj.blocks = self.blocks
        if number == 0:
            told._obj.losses = self.losses
            for place in range(min(self.losses, losses_room)):
                losses[place] = _structs.Loss(first=place, last=place, why=5 + place % 5)
        return number

    def adf_cause_text(self, number, room, length):
        return 0


class Rooms(unittest.TestCase):
    def test_grow_until_all_is_in_them(self):
        for blocks, losses, rooms in ((1760, 3, [870400, 901120]), (1700, 3, [870400]), (4, 3, [870400]), (1760, 9000, [870400, 901120, 901120])):
            library = Library(blocks, losses)
            with mock.patch.object(_library, "_loaded", library):
                volume, left_out = adf.rescue(bytes(870400))
            self.assertEqual((volume, len(left_out), library.rooms), (b"V" * 512 * blocks, losses, rooms))
            self.assertEqual([str(each) for each in left_out[:3]], ["lost: block 0", "in doubt: ", "perhaps deleted: "])

    def test_grow_for_what_is_surveyed(self):
        for blocks, rooms in ((1760, [870400, 901120]), (1700, [870400]), (4, [870400])):
            library = Library(blocks, 0)
            with mock.patch.object(_library, "_loaded", library):
                subject, told = surveys._subject(b"V" * 870400, None)
            self.assertEqual((subject, told.length, library.rooms), (b"V" * 512 * blocks, 512 * blocks, rooms))

    def test_are_not_asked_for_without_end(self):
        library = Library(1760, 0)
        library.adf_rescue = library.adf_survey_subject = lambda *_: 24
        with mock.patch.object(_library, "_loaded", library):
            self.assertRaises(adf.Refused, adf.rescue, bytes(512))
            self.assertRaises(adf.NoMemory, surveys._subject, bytes(512), None)


class Texts(unittest.TestCase):
    def test_spells_names_of_any_bytes(self):
        self.assertEqual("/".join(map(_texts.spelled_name, [b"c", b"", b"a/b:\x1b", b".."])), "c/\\x/a\\x2fb\\x3a\\x1b/..")
        self.assertEqual(_texts.raw_path("c/\\x/a\\x2fb"), b"c//a/b")

    def test_has_dates(self):
        self.assertEqual(adf.Date.of("2000-01-01 00:00:00.00"), adf.Date(8035, 0, 0))
        for text in ("1977-12-31 00:00:00.00", "4294967296:0:0", "2000-02-30 00:00:00.00", "1:2"):
            self.assertRaises(ValueError, adf.Date.of, text)

    def test_reads_what_is_kept_beside_a_file(self):
        kept = kept_in(b"----rwed 1978-01-02 00:01:02.10 a%0ab\n")
        self.assertEqual((kept.stamp, kept.comment), ("1:1:105", b"a\nb"))
        for line in (b"", b"----rwed 1977-01-01 00:00:00.00 ", b"----rwed 1978-01-02 25:00:00.00 ", b"----rwed 1978-01-02 00:00:00.00 " + b"%41" * 80):
            self.assertRaises(ValueError, kept_in, line)


class Pages(unittest.TestCase):
    def test_escape_what_comes_from_elsewhere(self):
        evil = '"><b id=evil>\'&\x1b\u2028'
        self.assertEqual(html('<i title="{a}">{a}</i>', a=evil), f'<i title="{shown_by_hand()}">{shown_by_hand()}</i>')
        self.assertEqual(html("<b>{a}{n}</b>", a=html("{b}", b="<"), n=None), "<b>&lt;</b>")
        self.assertEqual(joined([Html("<hr>"), html("{a}", a="&")], "<"), "<hr>&lt;&amp;")
        self.assertIn('href="javascript%3Aalert%281%29"', link("javascript:alert(1)", "x"))


def shown_by_hand() -> str:
    return "&quot;&gt;&lt;b id=evil&gt;&#x27;&amp;\\x1b\\x2028"


class Lines(unittest.TestCase):
    def test_keeps_wrong_words_in_one_line(self):
        said = io.StringIO()
        with contextlib.redirect_stderr(said), self.assertRaises(SystemExit) as ended:
            command_line("adf-try", "Tries.").parse_args(["a\n\x1b[2J"])
        self.assertEqual((ended.exception.code, said.getvalue().splitlines()[-1]), (2, "adf-try: error: unrecognized arguments: a\\x0a\\x1b[2J"))


class Memory(unittest.TestCase):
    def test_is_that_of_the_group_of_a_job(self):
        with tempfile.TemporaryDirectory() as folder:
            os.makedirs(f"{folder}/jobs/one")
            names = {"MEMORY": f"{folder}/none", "GROUP": folder, "OWN_GROUP": f"{folder}/own"}
            with mock.patch.multiple(processes, **names):
                for own, files, free in (
                    *(("", {}, None), ("1:memory:/jobs\n0::/jobs/one\n", {"jobs/memory.max": 5000, "jobs/memory.current": 1000}, 4000)),
                    ("0::/jobs/one\n", {"jobs/one/memory.max": 300, "jobs/one/memory.current": 100}, 200),
                    *(("0::/jobs/one\n", {"jobs/one/memory.max": "max"}, 4000), ("0::/../../jobs\n", {}, 4000), ("0::/nix\n", {}, None)),
                ):
                    for name, text in {"own": own, **files}.items():
                        with open(f"{folder}/{name}", "w", encoding="ascii") as file:
                            file.write(str(text))
                    self.assertEqual(processes.free_memory(), free, own)

    def test_is_taken_in_turn(self):
        with mock.patch.object(processes, "free_memory", lambda: 1000):
            for count, need, taken in ((1, 100, 1000), (3, 100, 800)):
                turns = processes.Turns(count, need)
                for _ in range(2):
                    with turns.take(taken):
                        self.assertFalse(turns.lock.acquire(False))
                    with self.assertRaises(MemoryError), turns.take(taken + 1):
                        self.fail()
        with mock.patch.object(processes, "free_memory", lambda: None), processes.Turns(2, 1 << 40).take(1 << 40):
            pass
