"""Tests of icons."""

import os
import re

from adf_tools import icons
from tests.samples import icon, volume
from tests.shared import written
from tests.test_catalogue import Catalogues, pages_of


class Icons(Catalogues):
    def test_reads_what_the_format_says(self):
        planes = bytes.fromhex("a800 0000 f800" + "f800 0000 5000".replace(" ", ""))
        for drawer in (False, True):
            found = icons.icon_of(icon(planes=planes, drawer=drawer))
            self.assertEqual((found.width, found.height, found.palette), (5, 3, 1))
            self.assertEqual(found.pixels, bytes([3, 2, 3, 2, 3, 0, 0, 0, 0, 0, 1, 3, 1, 3, 1]))
        self.assertEqual(icons.icon_of(icon(planes=planes, used=2)).pixels, bytes([2, 0, 2, 0, 2, 0, 0, 0, 0, 0, 2, 2, 2, 2, 2]))

    def test_has_a_colour_for_planes_that_are_not_there(self):
        image = bytearray(icon(planes=bytes.fromhex("a800 0000 f800".replace(" ", "")) + bytes(6), used=1))
        image[78 + 15] = 2  # bits that are set for all pixels
        self.assertEqual(icons.icon_of(bytes(image)).pixels, bytes([3, 2, 3, 2, 3, 2, 2, 2, 2, 2, 3, 3, 3, 3, 3]))
        wide = icons.icon_of(icon(width=17, height=2, depth=1, planes=bytes.fromhex("8000800040008000"), used=1))
        self.assertEqual(wide.pixels, bytes([1, *[0] * 15, 1, 0, 1, *[0] * 14, 1]))

    def test_draws_each_run_once(self):
        drawn = icons.icon_picture("<x>", icons.Icon(4, 1, 0, bytes([0, 4, 4, 1])), 99)
        self.assertEqual(re.findall('stroke="(#[0-9a-f]*)".*? d="([^"]*)"', drawn), [("#0055aa", "M0 1h3"), ("#ffffff", "M3 1h1")])
        self.assertIn('aria-label="&lt;x&gt;"', drawn)
        self.assertIsNone(icons.icon_picture("x", icons.Icon(4, 1, 0, bytes([0, 1, 0, 1])), 9))

    def test_leaves_out_what_is_none(self):
        whole = icon()
        for length in range(len(whole)):
            self.assertIsNone(icons.icon_of(whole[:length]))
        for bad in (icon(width=0), icon(width=9999, planes=b""), icon(depth=9, planes=b""), icon(height=0), b"\xe3\x10\0\2" + whole[4:], b"X" + whole[1:]):
            self.assertIsNone(icons.icon_of(bad))

    def test_shows_those_of_the_disk_and_its_drawers(self):
        os.mkdir("disks")
        files = ("Disk.info", icon()), ("Games.info", icon(drawer=True)), ("other.info", icon()), ("Bad.info", b"no icon"), ("Games/x.info", icon())
        written("disks/a.adf", volume(*files, dirs=["Games", "Bad"]))
        self.catalogue("disks", "out")
        (page,) = pages_of("out")
        self.assertEqual(re.findall(r'role="img" aria-label="([^"]*)" shape', page.text), ["Disk.info", "Games.info"])
        self.assertEqual(page.tags.count("svg"), 3)
