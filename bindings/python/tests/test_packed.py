"""Tests of packed images, as they are given to the programs."""

from __future__ import annotations

import gzip
import io
import os
import pty
import shutil
import subprocess
import sys
import unittest
import unittest.mock
import zipfile
import zlib

from adf_tools import archives
from tests.packing import MODES, dms, lha, zipped
from tests.shared import Folder, built, image_of, written

SMALL = built("volume ofs 1760\nlabel Small\nfile 8035:0:0 00000000 a\ndata 41\n")


def encrypted(archive: bytes) -> bytes:
    """An archive of one member, of which the directory says that it is encrypted."""
    at = archive.index(b"PK\1\2") + 8
    return archive[:at] + b"\1" + archive[at + 1 :]


class Packed(Folder):
    def recipe_of(self, *words: str, given: bytes = b"") -> bytes:
        return bytes(self.tool("recipe", *words, given=given))

    def test_are_read_at_each_door(self) -> None:
        want = self.recipe_of(given=SMALL)
        packed = {
            **{"a.adz": gzip.compress(SMALL), "nameless": zipped(("", b"x"), ("a.adf", SMALL)), "other": zipped(("disk", SMALL))},
            "a.zip": zipped(("read.me", b"x"), ("disks/a.adf", SMALL)),
        }
        for name, content in packed.items():
            written(name, content)
            self.assertEqual(self.recipe_of(name), want)
            self.assertEqual(self.recipe_of(given=content), want)
            self.assertIn(b"of 1760 blocks used", self.tool("map", name))
            self.tool("unpack", name, "new")
            self.assertEqual(os.listdir("new"), ["a"])
            shutil.rmtree("new")
        self.assertEqual(self.recipe_of("a.zip/disks/a.adf"), want)

    def test_are_chosen_by_their_names(self) -> None:
        written("two.zip", zipped(("one.adf", SMALL), ("../x\x1b.adf", image_of()), ("twice.adf", SMALL), ("twice.adf", b"")))
        self.refused(1, "two.zip: 4 images in it, give one as FILE/NAME: one.adf, ../x\\x1b.adf, twice.adf, twice.adf\n", "recipe", "two.zip")
        self.refused(1, "two.zip/twice.adf: more than one image has this name\n", "recipe", "two.zip/twice.adf")
        self.refused(1, "two.zip/nix.adf: no image has this name\n", "recipe", "two.zip/nix.adf")
        os.mkdir("in")
        self.tool("unpack", "two.zip/../x\x1b.adf", "in/new")
        self.assertEqual(sorted(os.listdir("in/new")), ["c", "empty", "large", "none"])
        self.leaves("in", "two.zip")
        written("many.zip", zipped(*((f"{number}.adf", b"") for number in range(22))))
        self.refused(1, ", 19.adf and 2 more\n", "unpack", "many.zip", "new")
        written("none.zip", zipped())
        self.refused(1, "none.zip: no image in it\n", "recipe", "none.zip")

    def test_are_refused_in_one_line(self) -> None:
        whole, stored = gzip.compress(SMALL), zipped(("a.adf", SMALL), method=zipfile.ZIP_STORED)
        for content, told in (
            *((whole[:-9], "damaged archive"), (whole[:40], "damaged archive"), (whole[:-8] + bytes(8), "damaged archive")),
            *((stored[:5000], "damaged archive"), (stored.replace(b"DOS\0", b"DOS\1", 1), "damaged archive"), (encrypted(stored), "encrypted")),
            (zipped(("a.adf", SMALL), method=zipfile.ZIP_LZMA), "packed by a method that is not read"),
        ):
            written("packed", content)
            self.refused(3, f"packed: {told}\n", "recipe", "packed")
            self.refused(3, f"standard input: {told}\n", "map", given=content)
        written("a.adf", SMALL)
        self.refused(3, "a.adf/x: Not a directory\n", "recipe", "a.adf/x")

    def test_cost_no_more_than_the_limit(self) -> None:
        bomb = zlib.compressobj(9, zlib.DEFLATED, 31)
        with open("bomb.adz", "wb") as file:
            for _ in range(1024):
                file.write(bomb.compress(bytes(1 << 20)))
            file.write(bomb.flush())
        self.assertLess(os.path.getsize("bomb.adz"), 2 << 20)
        line = "import adf; adf.LARGE = 2 << 20; from adf_tools import recipe; recipe.main()"
        ran = self.run_python("-c", line, "bomb.adz", prefix=["prlimit", "--as=400000000"])
        told = b"bomb.adz: no volume, and more than 2097152 bytes: it is not unpacked"
        self.assertEqual((ran.returncode, ran.stdout, told in ran.stderr), (3, b"", True), ran.stderr)

    def test_that_are_none_are_named(self) -> None:
        for begin, told in (
            *((b"SCP\x22", "a flux image (SCP): adf reads sectors"), (b"HXCPICFE", "an image of tracks (HFE): adf reads sectors")),
            *((b"CAPS\0\0\0\x0c", "an image of tracks (IPF)"), (b"UAE-1ADF", "an image of tracks (extended ADF)")),
            (b"OD\0S", "the bytes are swapped in pairs"),
        ):
            written("disk", begin + bytes(901120 - len(begin)))
            self.refused(1, f"disk: {told}", "recipe", "disk")
            self.assertIn(f"disk: {told}".encode(), self.run_tool("map", "disk").stderr)
        written("a.zip", zipped(("a.dms", b"DMS!" + bytes(901116))))
        self.refused(1, "a.zip: packed by DMS in an archive: unpack it first\n", "recipe", "a.zip")


class Dms(Folder):
    def test_need_ancient(self) -> None:
        written("a.dms", dms(SMALL))
        os.mkdir("empty")
        with unittest.mock.patch.dict(os.environ, {"PATH": os.path.abspath("empty")}):
            self.refused(3, "a.dms: packed by DMS: ancient (Debian's) is needed to read it\n", "recipe", "a.dms")

    @unittest.skipUnless(shutil.which("ancient"), "needs ancient")
    def test_are_read_by_ancient(self) -> None:
        written("a.dms", dms(image_of(), MODES))
        self.assertEqual(self.tool("recipe", "a.dms"), self.tool("recipe", given=image_of()))
        written("a.dms", dms(image_of())[:5000])
        self.refused(3, "a.dms: ancient: ", "recipe", "a.dms")


class Lha(Folder):
    def test_need_libarchive(self) -> None:
        written("a.lha", lha(b"a.adf", SMALL))
        line = "import sys; sys.modules['libarchive'] = None; from adf_tools import recipe; recipe.main()"
        ran = self.run_python("-c", line, "a.lha")
        told = "adf-recipe: a.lha: packed by LHA: python3-libarchive-c (Debian's) is needed to read it\n"
        self.assertEqual((ran.returncode, ran.stderr.decode()), (3, told))

    def test_are_read_by_libarchive(self) -> None:
        try:
            archives.libarchive_module()
        except archives.Unread:
            self.skipTest("needs python3-libarchive-c")
        for content, want in ((lha(b"x/a.adf", SMALL), SMALL), (lha(b"a.adf", SMALL, crc=1), b"")):
            images = list(archives.images_in_archive(io.BytesIO(content), b"a.lha", archives.LHA))
            self.assertEqual([(image.content.begin(), image.fault) for image in images], [(want, "" if want else archives.DAMAGED)])
        self.assertRaises(archives.Unread, list, archives.members_of(io.BytesIO(lha(b"a.adf", SMALL)[:9000]), archives.LHA))


class Terminal(Folder):
    def test_is_said_to_be_waited_for(self) -> None:
        ours, theirs = pty.openpty()
        for tool, words in (("recipe", []), ("map", ["-"]), ("unpack", ["new"])):
            line = [sys.executable, "-m", f"adf_tools.{tool}", *words]
            with subprocess.Popen(line, stdin=theirs, stdout=subprocess.DEVNULL, stderr=subprocess.PIPE, env=self.python()) as ran:
                assert ran.stderr is not None
                self.assertEqual(ran.stderr.readline().decode(), f"adf-{tool}: reading an image from standard input; -h for help\n")
                ran.kill()
        os.close(ours)
        os.close(theirs)
