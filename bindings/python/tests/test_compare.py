"""Tests of what stands twice in a collection, and of adf-catalogue compare."""

import gzip
import os
import zipfile

import adf
from tests.samples import BAD, OFS, Asked, disk, volume
from tests.shared import changed, written
from tests.test_catalogue import Page, pages_of


class Twice(Asked):
    def also(self, name):
        """The links of an image's page to other images."""
        (page,) = [page for page in pages_of("out") if f"<h1 class=\"text\">{name}</h1>" in page.text.replace("<wbr>", "")]
        return {os.path.basename(link).split("-")[0] for link in page.links if not link.startswith("..")}

    def test_links_to_the_same_file_on_other_disks(self):
        written("disks/new.adf", volume(("x", b"\0\1" * 300)))
        self.catalogue("disks", "out", status=1)
        self.assertEqual(self.also("new.adf"), {"games", "tools"})
        self.assertEqual(self.also("tools.adf"), {"games", "new"})
        os.remove("disks/new.adf")
        os.remove("disks/games/copy.adf")
        self.catalogue("disks", "out", status=1)
        self.assertEqual((self.also("tools.adf"), self.also("games/bad.adf")), ({"games"}, {"tools"}))
        os.remove("disks/games/bad.adf")
        self.catalogue("disks", "out", status=1)
        self.assertEqual(self.also("tools.adf"), set())

    def test_knows_disks_that_differ_in_free_blocks_or_dates(self):
        files = ("a", b"abc"), ("b", b"")
        one, later, other = volume(*files), volume(*files, date="9000:1:2"), volume(*files, label="Other")
        for name, content in (("one", one), ("later", later), ("other", other), ("free", one[:-512] + b"\1" * 512)):
            written(f"disks/{name}.adf", content)
        self.catalogue("disks", "out", status=1)
        rows = self.asked("out", "SELECT GROUP_CONCAT(name) FROM (SELECT * FROM images ORDER BY name) WHERE tree IS NOT NULL GROUP BY tree")
        self.assertEqual(sorted(rows), [("a.zip/B\xfc.adf",), ("free.adf,later.adf,one.adf",), ("games/copy.adf,tools.adf",), ("other.adf",)])
        self.assertIn("The same files", [page.text for page in pages_of("out") if "<h1 class=\"text\">one" in page.text][0])

    def test_has_a_page_of_what_is_there_twice(self):
        with open("disks/tools.adf", "rb") as file:
            written("disks/free.adf", file.read()[:-512] + b"\1" * 512)
        self.catalogue("disks", "out", status=1)
        page = Page("out/twice.html")
        same, files, boots, many = (text.count("<tr>") - 1 for text in page.text.split("<caption>")[1:])
        self.assertEqual((same, files, boots, many), (1, 1, 1, 2))
        self.assertIn(f"index.html#find={self.sum}", page.links)
        self.assertIn("twice.html", Page("out/index.html").links)

    def test_compares_by_path_and_then_by_block(self):
        one = volume(("a", b"abc"), ("d/b", b"same"), ("gone", b"old"), ("x", b"1"), dirs=["d"])
        other = volume(("a", b"abd"), ("d/c", b"same"), ("new", b"new"), ("x", b"1"), dirs=["d"], label="Other")
        written("one.adf", one)
        written("other.adf.gz", gzip.compress(other))
        ran = self.run_tool("catalogue", "compare", "one.adf", "other.adf.gz")
        lines = ran.stdout.decode().splitlines()
        self.assertEqual((ran.returncode, ran.stderr), (1, b""))
        paths = ["label\tTry\tOther", "removed\tgone", "added\tnew", "renamed\td/b\td/c", "changed\ta\tbytes"]
        self.assertEqual(lines[: len(paths)], paths)
        blocks = [block for block in range(1760) if one[512 * block : 512 * block + 512] != other[512 * block : 512 * block + 512]]
        ranges = [tuple(map(int, line.split("\t")[1:])) for line in lines[len(paths) :]]
        self.assertEqual([block for first, last in ranges for block in range(first, last + 1)], blocks)
        self.assertTrue(all(line.startswith("blocks\t") for line in lines[len(paths) :]))
        self.assertEqual(self.tool("catalogue", "compare", "one.adf", "one.adf"), b"")

    def test_compares_damaged_images_members_and_partitions(self):
        with zipfile.ZipFile("two.zip", "w") as archive:
            for name, content in (("x/a.adf", OFS), ("b.adf", BAD)):
                archive.writestr(name, content)
        written("disk.hdf", disk(volume(blocks=64), volume(("new", b"1"), blocks=64)))
        for one, other, lines in (
            ("two.zip/x/a.adf", "two.zip/b.adf", ["verdict\tok\tblock 880: bad sum", "blocks\t880\t880"]),
            ("disk.hdf/DH0", "disk.hdf/2", ["added\tnew"]),
        ):
            ran = self.run_tool("catalogue", "compare", one, other)
            self.assertEqual(ran.stdout.decode().splitlines()[: len(lines)], lines)
        bad = ("two.zip", "two.zip: more than one image"), ("two.zip/c.adf", "no image has this name"), ("disk.hdf/DH7", "no partition has this name")
        for one, told in bad:
            self.refused(3, told, "catalogue", "compare", one, "two.zip/b.adf")
        self.refused(3, "nix: ", "catalogue", "compare", "nix", "two.zip/b.adf")

    def test_compares_the_names_of_a_damaged_image_by_their_letters(self):
        files = volume(("B\\xfccher", b"1"), ("a\\x5cb", b"2"), ("\\x1b[2J", b"3"))
        written("one.adf", files)
        written("other.adf", changed(files, 880, 440, 1))
        ran = self.run_tool("catalogue", "compare", "one.adf", "other.adf")
        self.assertEqual(ran.stdout.decode().splitlines(), ["verdict\tok\tblock 880: bad sum", "blocks\t880\t880"])
        os.mkdir("damaged")
        written("damaged/x.adf", changed(files, adf.Volume(files)["B\xfccher"].header, 433, ord("B") ^ ord("/")))
        self.catalogue("damaged", "out", status=1)
        self.assertEqual(sorted(self.asked("out", "SELECT path FROM entries")), [("\\x1b[2J",), ("\\x2f\xfccher",), ("a\\x5cb",)])
