"""Tests of adf-recipe."""

import os

import adf
from tests.shared import Folder, built, changed, image_of, international, listed


class Recipes(Folder):
    def test_gives_the_same_tree(self):
        for kind in adf.KINDS:
            image = image_of(kind)
            self.assertEqual(built(self.tool("recipe", given=image).decode()), adf.run(["convert", kind], image).output)

    def test_names_international_letters(self):
        for kind in adf.KINDS:
            ran = self.run_tool("recipe", given=international(kind))
            first, rest = ran.stdout.decode().split("\n", 1)
            self.assertEqual((ran.returncode, ran.stderr, first), (0, b"", f"volume {kind}-international 1760"))
            self.assertEqual([line.split()[-1] for line in listed(built(f"volume {kind} 1760\n{rest}"))], ["c", "\\xe9"])

    def test_refuses(self):
        self.refused(1, "block 880: bad sum", "recipe", "--strict", given=changed(image_of(), 880, 440, 1))

    def test_refuses_what_is_too_long(self):
        for parts, is_taken in ((240, True), (270, False)):
            image = built("volume ffs 20000\nfile 0:0:0 00000000 a\n" + "".join(f"data {os.urandom(30000).hex()}\n" for _ in range(parts)))
            if is_taken:
                self.assertEqual(adf.Volume(built(self.tool("recipe", given=image).decode()))["a"].read(), adf.Volume(image)["a"].read())
            else:
                self.refused(1, "more than 16777216 bytes, the most that adf build takes", "recipe", given=image)

    def test_says_that_nothing_can_be_written(self):
        with open("disk.adf", "wb") as file:
            file.write(image_of())
        line = "exec {} -m adf_tools.recipe < disk.adf > /dev/full"
        self.assertEqual(self.shell(line), (3, "adf-recipe: No space left on device\n"))

    def test_is_silent_where_nobody_reads_on(self):
        with open("disk.adf", "wb") as file:
            file.write(built("volume ofs 1760\nfile 0:0:0 00000000 a\n" + "".join(f"data {os.urandom(3000).hex()}\n" for _ in range(100))))
        self.assertEqual(self.shell("{} -m adf_tools.recipe < disk.adf | head -1 > line"), (0, ""))
        with open("line", encoding="ascii") as file:
            self.assertEqual(file.read(), "volume ofs 1760\n")
