"""Tests of where the bytes of an image come from, of what is told of one that no volume has, and of look-ups as Python has them."""

import gzip
import io
import os
import pathlib
import pickle
import shutil
import tempfile
import time
import unittest
import unittest.mock
import warnings
import zipfile

import adf
from adf import _arguments, _sources
from tests.samples import disk, table, volume
from tests.shared import Folder, image_of, nested, written
from tests.packing import dms, lha

OFS = image_of()


class Sources(Folder):
    def zipped(self, name, **members):
        with zipfile.ZipFile(name, "w", zipfile.ZIP_DEFLATED) as archive:
            for member, content in members.items():
                archive.writestr(member.replace("_", "."), content)

    def test_opens_what_is_open(self):
        self.zipped("games.zip", a_adf=OFS, b_adf=volume(label="Other"))
        written("a.adf", OFS)
        with zipfile.ZipFile("games.zip") as archive, open("a.adf", "rb") as file:
            for source in (io.BytesIO(OFS), file, archive.open("a.adf"), gzip.GzipFile(fileobj=io.BytesIO(gzip.compress(OFS)))):
                self.assertEqual(adf.open(source).image, OFS)
            self.assertEqual(adf.open(archive.open("b.adf")).label, "Other")
        front = io.BytesIO(b"front" + OFS)
        front.seek(5)
        self.assertEqual(adf.read_image(front), OFS)

    def test_takes_no_text(self):
        written("a.adf", OFS)
        for source in (io.StringIO("DOS"), 3, None):
            self.assertRaises(TypeError, adf.open, source)
        with open("a.adf", encoding="utf-8") as file, tempfile.NamedTemporaryFile("w+", encoding="utf-8") as other:
            other.write("DOS")
            other.seek(0)
            for source in (file, other):
                self.assertRaisesRegex(TypeError, "and not one of text", adf.open, source)
                self.assertRaisesRegex(TypeError, "and not one of text", adf.read_image, source)

    def test_unpacks(self):
        self.zipped("one.zip", disk_adf=OFS, readme=b"no image")
        self.zipped("two.zip", a_adf=OFS, b_adf=volume(label="Other"))
        written("a.adz", gzip.compress(OFS))
        for source in ("one.zip", b"a.adz", pathlib.Path("two.zip/a.adf"), "two.zip/a.adf", io.BytesIO(gzip.compress(OFS))):
            self.assertEqual(adf.open(source).image, OFS)
        for path, told in (("two.zip", "2 images in it, give one as FILE/NAME: a.adf, b.adf"), ("two.zip/c", "no image has this name")):
            with self.assertRaises(adf.NotUnpacked) as caught:
                adf.open(path)
            self.assertEqual((caught.exception.strerror, caught.exception.filename), (told, path))
        written("cut.adz", gzip.compress(OFS)[:-20])
        self.assertRaisesRegex(OSError, "damaged archive: 'cut.adz'", adf.open, "cut.adz")
        written("plain.adf", OFS)
        self.assertRaises(NotADirectoryError, adf.open, "plain.adf/a.adf")

    @unittest.skipUnless(shutil.which("ancient"), "needs ancient")
    def test_unpacks_disks_of_dms(self):
        written("a.dms", dms(OFS))
        self.assertEqual(adf.open("a.dms").image, OFS)
        self.assertEqual(adf.open(io.BytesIO(dms(OFS))).image, OFS)
        self.assertRaisesRegex(adf.NotUnpacked, "ancient: ", adf.open, io.BytesIO(dms(OFS)[:5000]))

    def test_unpacks_archives_of_lha(self):
        written("a.lha", lha(b"a.adf", OFS))
        try:
            self.assertEqual(adf.open("a.lha").image, OFS)
        except adf.NotUnpacked as error:
            self.assertEqual(error.strerror, "packed by LHA: python3-libarchive-c (Debian's) is needed to read it")

    def test_maps_what_is_large(self):
        written("a.adf", OFS)
        written("cut.adf", OFS[:-1024])
        whole = adf.open("a.adf")
        with unittest.mock.patch.object(_sources, "LARGE", 1000), open("a.adf", "rb") as file:
            for opened in (adf.open("a.adf"), adf.open(file), adf.open("a.adf", blocks=1760)):
                self.assertEqual((type(opened.image), bytes(opened.image)), (_arguments.Mapped, OFS))
                self.assertEqual([(entry.path, entry.is_file and entry.read()) for entry in opened.entries],
                                 [(entry.path, entry.is_file and entry.read()) for entry in whole.entries])  # fmt: skip
                self.assertEqual((opened.owners(), opened.boot, adf.check(opened.image).files), (whole.owners(), whole.boot, 3))
                self.assertEqual((pickle.loads(pickle.dumps(opened)).image, adf.survey(opened.image).findings), (OFS, []))
                with opened.image as image:  # closing it would pull the bytes from under the volume
                    image.close()
                self.assertEqual(opened.image[:3], b"DOS")
                self.assertRaises(TypeError, opened.image.__setitem__, 0, 1)
            with warnings.catch_warnings():
                warnings.simplefilter("ignore", adf.DamagedWarning)
                for opened in (adf.open("cut.adf", blocks=1760), adf.open("cut.adf")):
                    self.assertEqual([str(each) for each in opened.left_out], ["lost: blocks 1758 to 1759"])
                    self.assertEqual(opened.survey.entries[0].path, whole.entries[0].path)
                    self.assertEqual(len(pickle.loads(pickle.dumps(opened)).image), len(OFS))
            self.assertRaisesRegex(adf.Refused, "^cut.adf: block 879: ", adf.open, "cut.adf", strict=True)

    def test_says_what_has_no_volume(self):
        whole, length = disk(volume(blocks=64)), 1760 * 512
        written("disk.hdf", whole)
        written("packed.hdz", gzip.compress(whole))
        for path in ("disk.hdf", "packed.hdz"):
            self.assertRaisesRegex(adf.Refused, f"^{path}: block 0: not dos; a hard disk: adf.Disk.image. has its partitions .1.$", adf.open, path)
        os.truncate("disk.hdf", 8 << 30)
        begun = time.monotonic()
        self.assertRaisesRegex(adf.Refused, "block 0: bad size; a hard disk", adf.open, "disk.hdf")
        self.assertLess(time.monotonic() - begun, 1)
        os.truncate("disk.hdf", 0)
        os.truncate("disk.hdf", 8 << 30)
        self.assertRaisesRegex(adf.Refused, "block 0: bad size; it has more than 4294967296 bytes", adf.open, "disk.hdf")
        for begin, told in ((b"SCP", "a flux image"), (b"CAPS\0\0\0\x0c", "an image of tracks .IPF."), (b"OD\0S", "the bytes are swapped")):
            self.assertRaisesRegex(adf.Refused, f"block 0: not dos; {told}", adf.open, io.BytesIO(begin.ljust(length, b"\0")))
        self.assertRaisesRegex(adf.Refused, "^block 0: not dos; packed by gzip: unpack it first$", adf.open_image, gzip.compress(OFS).ljust(length, b"\0"))

    def test_warns_of_the_disk_that_was_asked_for(self):
        written("cut.adf", OFS[: 1000 * 512])
        for source, name in (("cut.adf", "cut.adf"), (io.BytesIO(OFS[: 1000 * 512]), "image")):
            with warnings.catch_warnings(record=True) as told:
                warnings.simplefilter("always")
                adf.open(source, blocks=1760)
            self.assertRegex(str(told[0].message), f"^{name}: blocks 1000 to 1759: no data: [0-9]+ left out")
            self.assertEqual(told[0].filename, __file__)

    def test_reads_no_more_than_is_asked_for(self):
        written("long.adf", OFS)
        os.truncate("long.adf", 8 << 30)
        self.assertEqual(adf.open("long.adf", blocks=1760).image, OFS)


class LookUps(Folder):
    def test_has_partitions_as_a_container(self):
        found = adf.Disk(disk(volume(blocks=64), volume(blocks=128)))
        self.assertEqual([row.name for row in found], ["DH0", "DH1"])
        self.assertEqual((len(found), found.keys(), dict(found)["DH1"].blocks), (2, ["DH0", "DH1"], 128))
        for wanted in ("DH0", "dh1", b"DH0", 1, 2, found["DH0"]):
            self.assertIn(wanted, found)
        for wanted in ("DH2", "", 0, 3, found["DH0"]._replace(first=1)):
            self.assertNotIn(wanted, found)
        self.assertEqual((len(adf.Disk(bytes(1024))), list(adf.Disk(bytes(1024)))), (0, []))

    def test_has_numbers_where_names_do_not_tell(self):
        whole = bytearray(disk(volume(blocks=64), volume(blocks=128), volume(blocks=64)))
        for block, name in ((2, 0x03646830), (3, 0)):
            words = {place: int.from_bytes(whole[512 * block + 4 * place : 512 * block + 4 * place + 4], "big") for place in range(128)}
            whole[512 * block : 512 * block + 512] = table({**words, 2: 0, 9: name})
        self.assertEqual(adf.Disk(bytes(whole)).keys(), ["DH0", 2, 3])

    def test_takes_paths_of_pathlib(self):
        opened, found = adf.open_image(OFS), adf.survey(OFS)
        for path in (pathlib.PurePosixPath("c/readme"), pathlib.PureWindowsPath("c\\readme")):
            self.assertEqual((opened[path].read(), found.read(path), path in opened), (b"Hello\n", b"Hello\n", True))
        self.assertNotIn(pathlib.PurePosixPath("/c/readme"), opened)
        self.assertEqual([path for path, _, _ in opened.walk(pathlib.PurePath("c"))], ["c"])
        self.assertEqual(next(opened.walk(pathlib.PurePath()))[1], ["c", "empty"])
        image = adf.build("ffs", None, [adf.Addition(pathlib.PurePosixPath("a")), adf.Addition(pathlib.PurePosixPath("a/b"), b"x")])
        self.assertEqual(adf.open_image(image)["a/b"].read(), b"x")

    def test_has_entries_as_rows(self):
        row = adf.open_image(OFS)["c/readme"]._asdict()
        self.assertEqual({**row, "header": 0, "number": 0}, {
            "path": "c/readme", "name": "readme", "is_file": True, "size": 6, "protection": 15, "date": adf.Date(8035, 0, 0).civil,
            "comment": "ein <\xdcbel>", "number": 0, "parent": row["parent"], "header": 0})
        found = next(entry for entry in adf.survey(OFS).entries if entry.path == "c/readme")
        self.assertEqual({**found._asdict(), "number": 0, "parent": 0}, {**row, "number": 0, "parent": 0, "is_sound": True})

    def test_spells_deep_paths_in_linear_time(self):
        image = nested(1700)
        opened, found = adf.open_image(image), adf.survey(image)
        begun = time.monotonic()
        # Behind `\\block 1449/`, of 12 bytes, 252 directories and the file fit into 1,024.
        for entries, last in ((opened.entries, "ddd/" * 1700 + "f"), (found.entries, "\\block 1449/" + "ddd/" * 252 + "f")):
            paths = [entry.path for entry in entries]
            self.assertEqual((paths[0], paths[-1]), ("ddd", last))
        self.assertEqual(sum(1 for _ in opened.walk()), 1701)
        self.assertLess(time.monotonic() - begun, 1)
        self.assertEqual(opened.entries[5].path, "/".join(["ddd"] * 6))
