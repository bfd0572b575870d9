"""Tests of adf-map."""

import os
import re
from xml.etree import ElementTree

import adf
from tests.shared import Folder, built, changed, image_of, written


def squares(picture):
    """How many squares a picture has."""
    lines = re.findall(r'stroke="#\w+" d="([^"]*)"><title>', picture)
    return sum(int(length) // 10 for line in lines for length in re.findall(r"h(\d+)", line))


class Maps(Folder):
    def drawn(self, name, content, status=0):
        """The picture of an image in a file of this name."""
        written(name, content)
        ran = self.run_tool("map", name)
        self.assertEqual(ran.returncode, status)
        ElementTree.fromstring(ran.stdout)
        return ran.stdout.decode()

    def test_draws_a_square_for_each_block(self):
        for blocks in (4, 1760, 3520, 120000):
            picture = self.drawn("a.adf", built(f"volume ffs {blocks}\n"))
            self.assertEqual(squares(picture), blocks)
            self.assertIn(f"of {blocks} blocks used", picture)

    def test_draws_refused_images(self):
        for content, count, why in ((changed(image_of(), 880, 440, 1), 1760, "block 880: bad sum"), (b"", 0, "block 0: bad size")):
            picture = self.drawn("a.adf", content, 1)
            self.assertEqual(squares(picture), count)
            self.assertIn(why, picture)

    def test_draws_files_of_any_name(self):
        for name in (b'<&">', b"a\1\x1bb", b"a\nb", b"\xff\xfe", b"./-x"):
            self.assertEqual(squares(self.drawn(name, image_of())), 1760)

    def test_names_what_cannot_be_read(self):
        self.refused(3, "nix.adf: No such file or directory", "map", "nix.adf")
        self.refused(3, ".: Is a directory", "map", ".")

    def test_needs_a_library(self):
        written("a.adf", image_of())
        self.refused(3, "no shared library of adf", "map", "a.adf", library="nix")

    def test_takes_memory_for_the_image_alone(self):
        written("a.adf", image_of())
        for name, words in (("map", ["a.adf"]), ("unpack", ["new"]), ("recipe", []), ("catalogue", [".", "pages"])):
            self.tool(name, *words, given=image_of(), prefix=["prlimit", "--as=500000000"])

    def test_reads_pipes(self):
        for image, blocks in ((image_of(), 1760), (bytes(3_000_000), 5859)):
            self.assertEqual(squares(self.run_tool("map", "/dev/stdin", given=image).stdout.decode()), blocks)

    def test_says_what_is_too_long(self):
        with open("a.adf", "wb") as file:
            file.truncate(adf.MOST_BYTES + 1)
        self.assertEqual(self.run_tool("map", "a.adf").stderr, b"adf-map: a.adf: block 0: bad size; it has 4294967297 bytes\n")
        os.truncate("a.adf", 5 << 30)
        for name, words in (("map", ["a.adf"]), ("recipe", ["a.adf"])):
            told = f"adf-{name}: a.adf: block 0: bad size; it has 5368709120 bytes\n"
            self.assertEqual(self.run_tool(name, *words).stderr.decode(), told)

    def test_draws_what_is_missing(self):
        written("a.adf", image_of())
        ran = self.run_tool("map", "--blocks", "3520", "a.adf")
        picture = ran.stdout.decode()
        self.assertEqual((ran.returncode, squares(picture)), (1, 3520))
        for told in (">a.adf: refused, block 1760: bad type, 1760 missing<", ">missing: 1760<"):
            self.assertIn(told, picture)
        self.assertEqual(ran.stderr, b"adf-map: a.adf: block 1760: bad type\nadf-map: a.adf: blocks 1760 to 3519: no data\n")
        written("cut.adf", image_of()[:-100])
        ran = self.run_tool("map", "--blocks", "1760", "cut.adf")
        used = adf.Volume(image_of()).used
        self.assertIn(f">cut.adf: ofs, {used} of 1760 blocks used, 1 missing<", ran.stdout.decode())
        self.assertEqual((ran.returncode, ran.stderr), (1, b"adf-map: cut.adf: block 1759: no data\n"))

    def test_takes_numbers_of_blocks_alone(self):
        written("a.adf", image_of())
        for name, words in (("map", ["a.adf"]), ("unpack", ["a.adf", "new"]), ("recipe", ["a.adf"])):
            for blocks in ("-1", "0", "8388609", "9" * 5000, "x", "", " 4", "+4", "1_0", "\u0664", "4.0"):
                ran = self.run_tool(name, f"--blocks={blocks}", *words)
                self.assertEqual((ran.returncode, ran.stdout), (2, b""), blocks)
                self.assertTrue(ran.stderr.endswith(b"argument --blocks: a number of blocks from 1 to 8388608\n"), ran.stderr)
        self.leaves("a.adf")
