"""Tests of whole hard disks in a catalogue, and of their pictures."""

import hashlib
import os
import zipfile

from tests.samples import BAD, OFS, disk, volume
from tests.shared import Folder, written
from tests.test_catalogue import Catalogues, pages_of, rows_of, trees_of


class HardDisks(Catalogues):
    def setUp(self):
        super().setUp()
        os.mkdir("disks")
        self.work, self.games = volume(("readme", b"abc"), blocks=64, label="Work"), volume(("readme", b"abc"), kind="ffs", blocks=128, label="Games")
        self.whole = disk(self.work, self.games)

    def test_has_each_partition_with_its_volume(self):
        written("disks/disk.hdf", self.whole)
        written("disks/plain.hdf", self.work)
        with zipfile.ZipFile("disks/packed.zip", "w", zipfile.ZIP_DEFLATED) as archive:
            archive.writestr("d.hdf", self.whole)
        self.catalogue("disks", "out", "--tsv")
        kinds = {row["image"]: row["kind"] for row in rows_of("out/images.tsv")}
        names = {"disk.hdf": "disk", "disk.hdf/DH0": "ofs", "disk.hdf/DH1": "ffs", "plain.hdf": "ofs"}
        self.assertEqual(kinds, {**names, "packed.zip/d.hdf": "disk", "packed.zip/d.hdf/DH0": "ofs", "packed.zip/d.hdf/DH1": "ffs"})
        line = """SELECT partitions.number, partitions.name, first, partitions.blocks, fault, images.name, label
            FROM partitions JOIN images ON images.id = volume ORDER BY 6, 1"""
        rows = [(1, "DH0", 16, 64, "", "disk.hdf/DH0", "Work"), (2, "DH1", 80, 128, "", "disk.hdf/DH1", "Games")]
        self.assertEqual(self.asked("out", line), rows + [(*row[:5], row[5].replace("disk.hdf", "packed.zip/d.hdf"), row[6]) for row in rows])
        page = next(page for page in pages_of("out") if "<title>disk.hdf</title>" in page.text)
        self.assertEqual((page.tags.count("svg"), sum("disk-hdf-dh" in link for link in page.links)), (1, 2))
        self.assertEqual(self.asked("out", "SELECT sha256 FROM images WHERE name = 'disk.hdf/DH0'"), [(hashlib.sha256(self.work).hexdigest(),)])

    def test_says_what_is_wrong_with_a_disk(self):
        damaged = bytearray(self.whole)
        damaged[512 * 2 + 40] ^= 1
        written("disks/sum.hdf", damaged)
        written("disks/cut.hdf", self.whole[: 512 * 100])
        written("disks/volume.hdf", self.work[:512] + self.whole[512:])
        written("disks/lost.hdf", bytes(512) + self.whole[512:])
        self.catalogue("disks", "out", "--tsv", status=1)
        verdicts = self.verdicts("out")
        self.assertEqual((verdicts["sum.hdf"], verdicts["sum.hdf/DH0"], "sum.hdf/DH1" in verdicts), ("block 2: bad sum", "ok", False))
        self.assertEqual([verdicts[f"lost.hdf{behind}"] for behind in ("", "/DH0", "/DH1")], ["block 0: no rigid disk", "ok", "ok"])
        self.assertEqual((verdicts["cut.hdf"], verdicts["cut.hdf/DH0"], "cut.hdf/DH1" in verdicts), ("ok", "ok", False))
        self.assertIn("beyond image", next(page.text for page in pages_of("out") if "<title>cut.hdf</title>" in page.text))
        self.assertTrue(verdicts["volume.hdf"].startswith("block "))

    def test_takes_a_disk_that_is_larger_than_memory(self):
        written("disks/large.hdf", self.whole)
        os.truncate("disks/large.hdf", 3 << 30)
        self.catalogue("disks", "out", prefix=["prlimit", "--as=4500000000"])
        names = "large.hdf", "large.hdf/DH0", "large.hdf/DH1"
        self.assertEqual(self.asked("out", "SELECT name, verdict FROM images ORDER BY name"), [(name, "ok") for name in names])

    def test_updates_as_it_begins(self):
        written("disks/disk.hdf", self.whole)
        self.catalogue("disks", "out", "--tsv")
        written("disks/disk.hdf", disk(self.games))
        self.catalogue("disks", "out", "--tsv")
        self.catalogue("disks", "new", "--tsv")
        self.assertEqual(trees_of("out"), trees_of("new"))


class WholeMaps(Folder):
    def test_draws_whole_disks_and_their_volumes(self):
        work = volume(blocks=64, label="Work")
        written("disk.hdf", disk(work, BAD))
        drawn = self.tool("map", "disk.hdf").decode()
        self.assertIn("DH0: block 16 to 79, ofs", drawn)
        self.assertIn("DH1: block 80 to 1839, ofs", drawn)
        for name in ("DH0", "dh0", "1"):
            self.assertIn("of 64 blocks used", self.tool("map", "--partition", name, "disk.hdf").decode())
        self.assertEqual(self.run_tool("map", "--partition", "DH1", "disk.hdf").stderr, b"adf-map: disk.hdf: DH1: block 880: bad sum\n")
        written("plain.adf", OFS)
        for wanted in ("DH9", "²", "9" * 5000):
            self.refused(1, f"disk.hdf: no such partition: {wanted}", "map", "--partition", wanted, "disk.hdf")
        self.refused(1, "plain.adf: block 0: no rigid disk", "map", "--partition", "DH0", "plain.adf")
        with open("disk.hdf", "r+b") as file:
            file.seek(512 + 40)
            file.write(b"X")
        ran = self.run_tool("map", "disk.hdf")
        self.assertEqual((ran.returncode, ran.stderr), (1, b"adf-map: disk.hdf: block 1: bad sum\n"))
        ran = self.run_tool("map", "--partition", "DH1", "disk.hdf")
        told = b"adf-map: disk.hdf: DH1: block 880: bad sum\nadf-map: disk.hdf: block 1: bad sum\n"
        self.assertEqual((ran.returncode, ran.stderr, b"DH1: refused" in ran.stdout), (1, told, True))

    def test_draws_large_disks(self):
        written("disk.hdf", disk(volume(blocks=64)))
        os.truncate("disk.hdf", 8 << 30)
        self.assertLess(len(self.tool("map", "disk.hdf", prefix=["prlimit", "--as=9500000000"])), 20000)
