"""Tests of volumes that are built from memory, and of adf-pack --image."""

import argparse
import array
import ctypes
import os
import random

import adf
from adf import building
from adf_tools import pack, packed_image, program, trees
from tests.shared import Folder, built, image_of, listed, written

DATE = adf.Date(1, 2, 3)
ENTRIES = [
    adf.Addition("c", comment="ein <\u00dcbel>"), adf.Addition("C/list", b"L" * 600, b"N", 15, DATE), adf.Addition(b"none", b""),
]


class Longer(bytes):
    """Bytes that say that there are more of them than there are."""

    def __len__(self):
        return 1 << 40


class Volumes(Folder):
    def test_builds_what_is_read(self):
        for kind in adf.KINDS:
            old = adf.Volume(image_of(kind))
            entries = [adf.Addition.of(entry) for entry in old.entries]
            again = adf.build(kind, old.blocks, entries, old.raw_label, (old.date, old.altered, old.created))
            self.assertEqual(again, old.image)

    def test_builds_volumes_with_international_letters(self):
        names = [adf.Addition("\u00c9t\u00e9"), adf.Addition("\u00e9T\u00c9/a", b"A")]
        for number, kind in enumerate(adf.TYPES):
            entries = names if number >= 2 else [names[0], adf.Addition("\u00c9T\u00e9/a", b"A")]
            image = adf.build(kind, None, entries, "W")
            self.assertEqual((image[:4], adf.check(image, international=True).kind), (b"DOS" + bytes([number]), kind))
            volume = adf.Volume(image)
            self.assertEqual((volume.kind, [entry.path for entry in volume.entries]), (kind, ["\u00c9t\u00e9", "\u00c9t\u00e9/a"]))
            again = adf.build(kind, volume.blocks, map(adf.Addition.of, volume.entries), volume.raw_label)
            self.assertEqual(again, image)
        twins = [adf.Addition("\u00e9"), adf.Addition("\u00c9")]
        self.assertEqual(len(adf.Volume(adf.build("ffs", None, twins)).entries), 2)
        with self.assertRaisesRegex(adf.NotBuilt, r"^\\xc9: exists, as \\xe9: the case of letters does not count$"):
            adf.build("ffs-international", None, twins)

    def test_builds_what_a_manifest_does(self):
        volume = ["volume ffs 1760", "label W", "stamps 1:2:3 0:0:0 0:0:0", "dir 0:0:0 00000000 c", r"note ein <\xdcbel>"]
        wanted = built([*volume, "file 1:2:3 0000000f c/list", "note N", "fill 600 4c", "file 0:0:0 00000000 none"])
        entries = [ENTRIES[0], ENTRIES[1]._replace(path="c/list"), ENTRIES[2]]
        self.assertEqual(adf.build("ffs", 1760, entries, "W", (DATE, building.NEVER, building.NEVER)), wanted)

    def test_takes_as_few_blocks_as_suffice(self):
        image = adf.build("ffs", None, ENTRIES)
        self.assertEqual(len(image), 512 * 10)
        with self.assertRaises(adf.NotBuilt) as caught:
            adf.build("ffs", 8, ENTRIES)
        self.assertEqual((str(caught.exception), caught.exception.need, caught.exception.have), ("full: need 7, have 6", 7, 6))
        self.assertEqual(len(adf.build("ofs", None, [])), 512 * 4)

    def test_tells_the_entry_that_has_a_fault(self):
        for path, why in (
            *((path, "no parent") for path in ("x/y", "/c", "x\x1b/y")), ("none/y", "parent is file"), ("c/", "no name of an Amiga"),
            ("c/LIST", "exists, as c/list: the case of letters does not count"),
        ):
            with self.assertRaises(adf.NotBuilt) as caught:
                adf.build("ofs", 1760, [*ENTRIES, adf.Addition(path), adf.Addition("x/z")])
            self.assertEqual((str(caught.exception), caught.exception.number), (f"{adf.escape(path)}: {why}", 4))
            self.assertEqual(caught.exception.entry, adf.Addition(path))
        for given, why in ((adf.Addition("a" * 31), "no name"), (adf.Addition("a", comment="b" * 80), "a comment is longer")):
            with self.assertRaisesRegex(adf.NotBuilt, why):
                adf.build("ofs", 1760, [given])

    def test_tells_what_no_volume_has(self):
        for blocks, label, why in ((7, "", "bad size"), (2**23 + 2, "", "bad size"), (1760, "a" * 31, "a label is longer")):
            with self.assertRaisesRegex(adf.NotBuilt, why):
                adf.build("ofs", blocks, [], label)
        for kind in ("pfs", "ffs-cached", None, 0, ["ofs"]):
            self.assertRaises(ValueError, adf.build, kind, 1760, [])
        for blocks in (-1, 0, 2**32 + 1760, 2**64 + 1760):
            with self.assertRaisesRegex(adf.NotBuilt, "bad size"):
                adf.build("ofs", blocks, [])
        for blocks in (1760.0, "1760", True, b""):
            self.assertRaises(TypeError, adf.build, "ofs", blocks, [])

    def test_takes_the_bytes_that_a_buffer_shows(self):
        apart = memoryview(bytes(range(12)))[::2]
        for content, size in (
            (array.array("H", [0x3130] * 3), 6), (array.array("I", [0x33323130]), 4), (array.array("I"), 0), (apart, 6), (bytearray(b"abc"), 3),
            (memoryview(b"abcdef").cast("B", (2, 3)), 6), ((ctypes.c_uint16 * 2)(1, 2), 4), (Longer(b"abc"), 3),
        ):  # fmt: skip
            volume = adf.Volume(adf.build("ofs", None, [adf.Addition("a", content), adf.Addition("b", b"next")]))
            self.assertEqual((volume["a"].size, volume["a"].read(), volume["b"].read()), (size, memoryview(content).tobytes(), b"next"))

    def test_takes_the_largest_numbers_and_cuts_none(self):
        most = 2**32 - 1
        entry = adf.Addition("a", b"", protection=most, date=adf.Date(most, most, most))
        volume = adf.Volume(adf.build("ofs", None, [entry], dates=[entry.date] * 3))
        self.assertEqual((volume["a"].protection, volume["a"].date, volume.created), (most, entry.date, entry.date))
        wrongs = [(2**40 + 5, ValueError), (2**32, ValueError), (-1, ValueError), *((wrong, TypeError) for wrong in (5.0, True, "5", None))]
        for wrong, error in wrongs:
            for given in (
                entry._replace(protection=wrong), *(entry._replace(date=entry.date._replace(**{field: wrong})) for field in adf.Date._fields),
            ):  # fmt: skip
                with self.assertRaisesRegex(error, f"^'c/a': .*{wrong}"):
                    adf.build("ofs", None, [adf.Addition("c"), given._replace(path="c/a")])
            for place in range(3):
                dates = [building.NEVER] * 3
                dates[place] = adf.Date(0, wrong, 0)
                with self.assertRaisesRegex(error, f"date of the .*{wrong}"):
                    adf.build("ofs", None, [], dates=dates)

    def test_takes_no_other_texts_buffers_and_dates(self):
        for entry, error, said in (
            (adf.Addition("c/\u20ac"), ValueError, r"'c/\\u20ac': the path .*'\u20ac'"),
            (adf.Addition("a", b"", "\u20ac"), ValueError, "'a': the comment .*\u20ac"),
            (adf.Addition("a", "text"), TypeError, "^'a': .*'str'"), (adf.Addition("a", 7), TypeError, "^'a': .*'int'"),
            (adf.Addition("a", [65]), TypeError, "^'a': .*'list'"), (adf.Addition("a", b"", None), TypeError, "'a': the comment"),
            (adf.Addition(None), TypeError, "^entry 2: the path"), (adf.Addition(7), TypeError, "^entry 2: the path"),
            (adf.Addition(bytearray(b"a")), TypeError, "^entry 2: the path"), (adf.Addition("a", date=(5,)), TypeError, "^'a': the date .*5"),
            (adf.Addition("a", date="8035:0:0"), TypeError, "^'a': the date"), (adf.Addition("a", date=None), TypeError, "^'a': the date"),
        ):  # fmt: skip
            with self.assertRaisesRegex(error, said):
                adf.build("ofs", None, [adf.Addition("c"), entry])
        for label, error in (("\u20ac", ValueError), (None, TypeError), (7, TypeError)):
            with self.assertRaisesRegex(error, "the label"):
                adf.build("ofs", None, [], label)

    def test_writes_into_no_buffer_that_can_only_be_read(self):
        room, plan = bytes(8192), building.Plan("ofs")
        for wrong in (room, memoryview(room), memoryview(bytearray(16384))[::2]):
            self.assertRaises(TypeError, building.build_into, wrong, building.new_volume("ofs", 16), plan, b"")
        self.assertEqual(room, bytes(8192))
        words = array.array("I", [0] * 2048)
        building.build_into(words, building.new_volume("ofs", 16), plan, array.array("H", [1]))
        self.assertEqual(words.tobytes(), adf.build("ofs", 16, []))


class Images(Folder):
    def packed(self, *words):
        self.assertEqual(self.tool("pack", "--image", "new.hdf", *words), b"")
        with open("new.hdf", "rb") as file:
            image = file.read()
        os.remove("new.hdf")
        return image

    def test_packs_as_the_manifest_does(self):
        for kind in adf.KINDS:
            self.tool("unpack", "--uaem", kind, given=image_of(kind))
            by_manifest = self.pack("--label", "Work", kind, "1760", kind)
            self.assertEqual(self.packed("--label", "Work", kind, "1760", kind), by_manifest)
            self.assertEqual(self.packed("--size", "880K", "--label", "Work", kind), adf.run(["convert", "ffs"], by_manifest).output
                             if kind == "ofs" else by_manifest)

    def test_brings_random_folders_back(self):
        draw = random.Random(1)
        os.mkdir("f")
        folders = ["f"]
        for number in range(40):
            path = os.path.join(draw.choice(folders), f"{number}")
            if draw.random() < 0.3:
                os.mkdir(path)
                folders.append(path)
            else:
                written(path, draw.randbytes(draw.choice((0, 1, 488, 512, 36864, 36865, 200000))))
        image = self.packed("f")
        self.assertEqual(adf.check(image).kind, "ffs")
        self.tool("unpack", "again", given=image)
        for above, inner, files in os.walk("f"):
            other = "again" + above[1:]
            self.assertEqual((sorted(inner), sorted(files)), tuple(sorted(names) for names in next(os.walk(other))[1:]))
            for name in files:
                with open(os.path.join(above, name), "rb") as one, open(os.path.join(other, name), "rb") as two:
                    self.assertEqual(one.read(), two.read())

    def test_tells_at_once_what_does_not_fit(self):
        os.mkdir("f")
        with open("f/sparse", "wb") as file:
            file.truncate(1 << 40)
        self.refused(1, "f/sparse: with this file there are more bytes than any volume has", "pack", "--image", "new.hdf", "f")
        os.truncate("f/sparse", 1 << 20)
        self.refused(1, "full: the files need 2082 blocks, and the image has 1760", "pack", "--image", "new.hdf", "--size", "880K", "f")
        self.refused(1, "bad size", "pack", "--image", "new.hdf", "--size", "5G", "f")
        self.assertEqual(os.listdir("."), ["f"])

    def test_refuses_names_and_leaves_no_image(self):
        for name in (b"a:b", b"a" * 31):
            written(name)
            self.refused(1, os.fsdecode(name), "pack", "--image", "new.hdf", ".")
            os.remove(name)
        written("a")
        written("A")
        self.refused(1, "a: exists", "pack", "--image", "new.hdf", ".")
        os.remove("A")
        written("new.hdf")
        self.refused(3, "new.hdf: File exists", "pack", "--image", "new.hdf", ".")
        self.assertEqual(sorted(os.listdir(".")), ["a", "new.hdf"])

    def test_wants_kind_and_blocks_for_a_manifest(self):
        for words in (["."], ["ffs", "."], ["--size", "880K", "ffs", "1760", "."]):
            self.refused(2, "without --image", "pack", *words)
        self.assertEqual(self.run_tool("pack", "--image", "new.hdf", "--size", "7", ".").returncode, 2)

    def test_refuses_what_changes_while_it_is_read(self):
        os.mkdir("f")
        for name in "abc":
            written(f"f/{name}", b"12345")
        packer = pack.Packer(argparse.Namespace(escape=False, no_uaem=False, blocks=None))
        plan, found = packed_image.planned("ffs", packer, b"f")
        view = memoryview(bytearray(plan.size))
        packed_image.read_all(view, packer, b"f", found)
        self.assertEqual(view, b"12345" * 3)
        for change in (lambda: written("f/c", b"1234"), lambda: written("f/c", b"123456"), lambda: os.remove("f/c"), lambda: os.mkdir("f/c")):
            change()
            with self.assertRaisesRegex(program.Stop, "f/c: changed while it was read"):
                packed_image.read_all(view, packer, b"f", found)

    def test_packs_deep_trees(self):
        names = [f"dir 8035:0:0 00000000 {'ddd/' * level}ddd" for level in range(1200)]
        self.tool("unpack", "deep", given=built(["volume ffs 4000", *names]))
        self.assertEqual(len(listed(self.packed("ffs", "4000", "deep"))), 1200)
        trees.remove("deep")
