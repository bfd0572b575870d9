"""Tests of names of the host."""

import ctypes
import os
import random
import re
import shutil
import subprocess
import unittest

import adf
from adf_tools.names import ESCAPE, LETTERS, UAEM, bytes_of, host_name
from adf_tools.uaem import name_in
from tests.shared import TOP, Folder

NAMES_C = os.path.join(TOP, "bindings", "fuse", "names.c")
FORMS = (LETTERS, ESCAPE, UAEM)
DEVICES = re.compile(rb"(?i)(aux|con|nul|prn|com[0-9]|lpt[0-9])(\..*)?", re.DOTALL)
WAYS_BACK = {LETTERS: bytes_of, ESCAPE: lambda text: bytes_of(text, is_escaped=True), UAEM: name_in}


def hostile_names(count):
    """Names as they may stand in a damaged header."""
    chance, parts = random.Random(1), (b".", b"..", b"/", b"con", b"LPT7", b"nul", b".uaem", b"\0", b"\\", b"\\x41", b"%", b"\xff\xfe", b"a", b" ", b":")
    yield from (b"\1" * 79, b"\xe9" * 79, b"a" * 79, b"", b".", b"..", b"con", b"COM1.x", b"auxx", b"com", b"com12", b"lpt:", b"x.UAEM", b"uaem")
    yield from (b"".join(chance.choices(parts, k=chance.randrange(30)))[: chance.choice((30, 79))] for _ in range(count))


class HostNames(unittest.TestCase):
    def test_lead_nowhere(self):
        for raw, plain, uaem in (
            *((b"../a", b"..\\x2fa", b"..%2fa"), (b"/abs", b"\\x2fabs", b"%2fabs"), (b"a:b\0", b"a\\x3ab\\x00", b"a%3ab%00")),
            *((b"", b"\\x", b"%"), (b".", b"\\x2e", b"%2e"), (b"..", b"\\x2e\\x2e", b".%2e"), (b"...", b"...", b"..%2e")),
            *((b"con", b"co\\x6e", b"co%6e"), (b"AUX.a", b"AU\\x58.a", b"AU%58.a"), (b"lpt1", b"lp\\x741", b"lp%741"), (b"conn", b"conn", b"conn")),
            *((b"a.uaem", b"a.uae\\x6d", b"a.uae%6d"), (b"B\xfc\\", "Bü\\x5c".encode(), "Bü%5c".encode())),
        ):
            self.assertEqual((host_name(raw), host_name(raw, UAEM)), (plain, uaem))
            self.assertEqual(host_name(raw, ESCAPE), plain.replace("ü".encode(), b"\\xfc"))

    def test_are_shortened(self):
        # 4 bytes for each of 79 are 316: 61 of them and the CRC-32 behind ~ are 253; a letter less than before a longer ending.
        self.assertEqual(host_name(b"\1" * 79), b"\\x01" * 61 + b"~20d9d952")
        self.assertEqual(host_name(b"\1" * 79, endings=(b".damaged",)), b"\\x01" * 59 + b"~20d9d952")
        self.assertEqual(host_name(b"\xe9" * 79), "é".encode() * 79)
        self.assertEqual(host_name(b"a" * 300), b"a" * 246 + b"~89971909")

    def test_are_told_apart(self):
        taken = {b"a.damaged", b"a-7.gaps"}
        self.assertEqual(host_name(b"a", endings=(b".damaged", b".gaps"), taken=taken, number=7), b"a-7-2")
        self.assertEqual(host_name(b"a", taken=taken), b"a")
        long = host_name(b"\1" * 79)
        self.assertEqual(host_name(b"\1" * 79, taken={long}, number=1048575), b"\\x01" * 59 + b"~20d9d952-1048575")

    def test_hold_whatever_the_bytes(self):
        chance = random.Random(1)
        for form in FORMS:
            taken = set()
            for raw in hostile_names(3000):
                endings = chance.choice(((b"",), (b".damaged", b".gaps"), (b"", b".uaem")))
                name = host_name(raw, form, endings, taken, chance.randrange(1 << 20))
                for whole in (name + ending for ending in endings):
                    self.assertTrue(0 < len(whole) <= 255 and not set(whole) & set(b"/\0:") and whole not in (b".", b".."), raw)
                    self.assertFalse(DEVICES.fullmatch(whole) or whole in taken, raw)
                    taken.add(whole)

    def test_have_a_way_back(self):
        chance, names = random.Random(2), [bytes([byte]) * length for byte in range(256) if byte not in b"/:" for length in (1, 2, 30)]
        names += (b"con", b"Prn.x", b"com0", b"lpt9.", b"x.UAEM", b".uaem", b"\\x41", b"%41", b"a. ", b"co\\x6e")
        names += (bytes(chance.choices([byte for byte in range(256) if byte not in b"/:"], k=30)) for _ in range(1000))
        for form in FORMS:
            for raw in names:
                self.assertEqual(WAYS_BACK[form](host_name(raw, form)), raw)


@unittest.skipUnless(shutil.which("cc") and os.path.exists(NAMES_C), "needs cc and the sources of adf-mount")
class Mounted(Folder):
    def test_are_those_of_the_mount(self):
        subprocess.run(["cc", "-shared", "-fPIC", "-o", "names.so", NAMES_C], check=True)
        mount, room = ctypes.CDLL("./names.so"), ctypes.create_string_buffer(256)
        is_escaped, path = ctypes.c_bool.in_dll(mount, "is_escaped"), ctypes.create_string_buffer(1024)
        for is_escaped.value, form in ((False, LETTERS), (True, ESCAPE)):
            for raw in hostile_names(3000):
                for number, taken in ((7, set()), (1048575, {host_name(raw, form)})):
                    mount.show_name(raw, ctypes.c_size_t(len(raw)), b"-%d" % number if taken else b"", room)
                    self.assertEqual(room.value, host_name(raw, form, taken=taken, number=number), raw)
                if len(raw) <= 30 and not set(raw) & set(b"/:"):
                    mount.show_name(raw, ctypes.c_size_t(len(raw)), b"", room)
                    mount.escape_path(room, path)
                    self.assertEqual(path.value.decode(), adf.escape(raw) or "\\x")
