"""Tests of what a catalogue says of refused images, of hard disks that are not read, and of what is no image."""

import hashlib
import os
import struct
import zipfile

import adf
from tests.samples import BAD, dat, disk, volume
from tests.shared import changed, written
from tests.test_catalogue import Catalogues, Page, pages_of, rows_of


def sum_of(content):
    return hashlib.sha256(content).hexdigest()


def sealed(image, block, word=5):
    """The image with the sum of a block made right."""
    words = list(struct.unpack_from(">128I", image, 512 * block))
    words[word] = 0
    words[word] = -sum(words) % 2**32
    copy = bytearray(image)
    struct.pack_into(">128I", copy, 512 * block, *words)
    return bytes(copy)


def with_word(image, block, place, value):
    """The image with a word of a block, and no sum set."""
    copy = bytearray(image)
    struct.pack_into(">I", copy, 512 * block + 4 * place, value)
    return bytes(copy)


def without(image, path):
    """The image without the header of a file in the root, and without the pointer to it."""
    header = adf.Volume(image)[path].header
    slot = next(place for place in range(6, 78) if struct.unpack_from(">I", image, 512 * 880 + 4 * place) == (header,))
    cut = sealed(with_word(image, 880, slot, 0), 880)
    return cut[: 512 * header] + bytes(512) + cut[512 * (header + 1) :]


class Standing(Catalogues):
    """The entries of a refused image are those of its rescue."""

    def setUp(self):
        super().setUp()
        os.mkdir("disks")

    def entries(self, name):
        line = "SELECT path, state, entries.sha256 FROM entries JOIN images ON images.id = image WHERE name = ? ORDER BY path"
        return self.asked("out", line, name)

    def test_has_what_stands_of_a_volume_without_a_root(self):
        whole = volume(("a", b"one"), ("b", b"two"))
        written("disks/root.adf", whole[: 512 * 880] + bytes(512) + whole[512 * 881 :])
        self.catalogue("disks", "out", "--rescue", status=1)
        found = [("a", "perhaps deleted", sum_of(b"one")), ("b", "perhaps deleted", sum_of(b"two"))]
        self.assertEqual(self.entries("root.adf"), found)
        self.assertEqual(self.asked("out", "SELECT files, lost, lost_least FROM images"), [(2, 0, 1)])
        ran = self.run_tool("catalogue", "find", "--sum", sum_of(b"two"), "out")
        self.assertEqual(ran.stdout, b"root.adf\tb\n")
        (page,) = pages_of("out")
        self.assertIn("at least 0 files", page.text)
        self.assertEqual(page.text.count("perhaps deleted"), 4)  # as a mark of the entry, and as a line of the rescue
        (link,) = self.asked("out", "SELECT rescued FROM images")[0]
        with open(f"out/{link}", "rb") as file:
            self.assertEqual(sorted(adf.Volume(file.read())), ["a", "b"])

    def test_reads_cut_and_longer_floppies_as_floppies(self):
        whole = volume(("a", b"one"))
        written("disks/cut.adf", whole[: 512 * 1700])
        written("disks/long.adf", whole + bytes(11264))
        written("disks/odd.adf", whole + b"\0")
        self.catalogue("disks", "out", "--rescue", status=1)
        for name in ("cut.adf", "long.adf", "odd.adf"):
            self.assertEqual(self.entries(name), [("a", "sound", sum_of(b"one"))], name)
        self.assertEqual(self.asked("out", "SELECT fits, lost FROM images"), [(1760, 0)] * 3)
        self.assertEqual(self.asked("out", "SELECT COUNT(rescued) FROM images"), [(3,)])

    def test_counts_files_that_only_their_blocks_tell_of(self):
        whole = volume(("a", b"x" * 1000), ("b", b"y" * 1000), ("c", b""))
        header = adf.Volume(whole)["a"].header
        written("disks/gone.adf", whole[: 512 * header] + bytes(512) + whole[512 * (header + 1) :])
        header = adf.Volume(whole)["b"].header
        written("disks/named.adf", changed(whole, header, 323, 1))
        self.catalogue("disks", "out", status=1)
        rows = self.asked("out", "SELECT name, lost, lost_least FROM images ORDER BY name")
        self.assertEqual(rows, [("gone.adf", 1, 1), ("named.adf", 1, 1)])
        index = Page("out/list-read-again.html").text.partition('id="images"')[2]
        self.assertLess(index.index("gone.adf"), index.index("named.adf"))
        self.assertIn(">at least 1<", index)

    def test_counts_what_a_bitmap_has_in_use_only_if_nothing_speaks_against_it(self):
        whole = volume(("a", b"x" * 1000), ("b", b"y" * 1000))
        gone = without(whole, "a")
        place, bit = divmod(adf.Volume(whole)["b"].header - 2, 32)
        (word,) = struct.unpack_from(">I", gone, 512 * 881 + 4 * (1 + place))
        written("disks/gone.adf", gone)
        written("disks/old.adf", sealed(with_word(gone, 881, 1 + place, word | 1 << bit), 881, 0))
        self.catalogue("disks", "out", status=1)
        rows = self.asked("out", "SELECT name, lost, lost_least FROM images ORDER BY name")
        self.assertEqual(rows, [("gone.adf", 1, 1), ("old.adf", 0, 0)])

    def test_lists_a_file_once_that_is_in_another_directory(self):
        whole = volume(("one/f", b"x" * 10), dirs=("one", "two"))
        header, other = (adf.Volume(whole)[path].header for path in ("one/f", "two"))
        moved = sealed(with_word(whole, header, 125, other), header)
        written("disks/moved.adf", moved)
        self.catalogue("disks", "out", status=1)
        self.assertEqual(self.entries("moved.adf"), [("one", "damaged", None), ("two", "sound", None), ("two/f", "perhaps deleted", sum_of(b"x" * 10))])
        self.assertEqual(self.asked("out", "SELECT lost FROM images"), [(0,)])

    def test_lists_the_worst_first(self):
        whole = volume(*((name, b"x" * 1000) for name in "abc"))
        for count, name in enumerate(("z", "y", "x")):
            image = whole
            for path in "abc"[: 3 - count]:
                image = changed(image, adf.Volume(whole)[path].header, 323, 1)
            written(f"disks/{name}.adf", image)
        self.catalogue("disks", "out", status=1)
        index = Page("out/list-read-again.html").text.partition('id="images"')[2]
        self.assertTrue(index.index("z.adf") < index.index("y.adf") < index.index("x.adf"))
        self.assertEqual(self.asked("out", "SELECT name, lost FROM images ORDER BY name"), [("x.adf", 1), ("y.adf", 2), ("z.adf", 3)])


class Groups(Catalogues):
    """What is sound, what is not read, and what is something else."""

    def groups(self):
        return dict(self.asked("out", "SELECT name, advice FROM images"))

    def test_says_that_contents_have_no_checksums_on_ffs(self):
        os.mkdir("disks")
        written("disks/ffs.adf", volume(("a", b"one"), kind="ffs"))
        written("disks/ofs.adf", volume(("a", b"one")))
        self.catalogue("disks", "out")
        self.assertEqual(self.groups(), {"ffs.adf": "sound ffs", "ofs.adf": "sound"})
        told = "Sound; file contents have no checksums on FFS"
        ffs, _ = pages_of("out")
        self.assertTrue(all(told in page.text for page in (Page("out/index.html"), Page("out/list-sound-ffs.html"), ffs)))
        self.assertIn("2 images, 2 sound", Page("out/index.html").text)

    def test_takes_a_published_list_for_the_last_word(self):
        os.mkdir("disks")
        for name, content in (("known.adf", BAD), ("bad.adf", changed(BAD, 1700, 0, 1)), ("other.adf", changed(BAD, 1700, 0, 2))):
            written(f"disks/{name}", content)
        bad = dat(("bad.adf", changed(BAD, 1700, 0, 1))).replace(b"/>", b' status="baddump"/>')
        written("bad.dat", bad)
        written("good.dat", dat(("known.adf", BAD)))
        self.catalogue("--dat", "good.dat", "--dat", "bad.dat", "disks", "out", status=1)
        self.assertEqual(self.groups(), {"known.adf": "published", "bad.adf": "read again", "other.adf": "read again"})
        self.catalogue("--dat", "bad.dat", "disks", "out", status=1)
        self.assertEqual(self.groups()["known.adf"], "read again")

    def test_names_what_is_no_volume(self):
        os.mkdir("disks")
        loader = adf.with_standard_boot(volume())[:1024] + b"\x11" * (901120 - 1024)
        forms = {"hfe": b"HXCPICFE", "scp": b"SCP\x12", "ipf": b"CAPS\0\0\0\x0c", "extended": b"UAE-1ADF", "swapped": b"OD\0S"}
        for name, begin in forms.items():
            written(f"disks/{name}.adf", begin.ljust(901120, b"\x11"))
        written("disks/loader.adf", loader)
        written("disks/cut.adf", loader[: 512 * 700])
        written("disks/empty.adf")
        self.catalogue("disks", "out", status=1)
        self.assertEqual(self.groups(), {**{f"{name}.adf": "other form" for name in (*forms, "empty")}, "loader.adf": "loader", "cut.adf": "read again"})
        told = dict(self.asked("out", "SELECT name, form FROM images"))
        self.assertEqual((told["empty.adf"], told["loader.adf"]), ("an empty file", None))
        self.assertIn("swap", told["swapped.adf"])
        self.assertIn("an image of tracks (IPF)", Page("out/list-other-form.html").text)

    def test_explains_the_damage_and_not_the_type(self):
        os.mkdir("disks")
        cached = bytearray(volume(("a", b"one")))
        cached[3] = 4
        written("disks/cached.adf", changed(bytes(cached), 880, 440, 1))
        self.catalogue("disks", "out", status=1)
        (page,) = pages_of("out")
        self.assertIn("block 880: bad sum", page.text)
        self.assertIn("do not add up to 0", page.text)

    def test_calls_nothing_sound_that_was_not_read(self):
        os.mkdir("disks")
        whole, bad = (disk(each) for each in (volume(blocks=64, label="Work"), changed(volume(blocks=64), 32, 440, 1)))
        written("disks/whole.hdf", whole)
        written("disks/other.hdf", typed(whole, 0x50465303))
        written("disks/untyped.hdf", typed(whole, 0))
        written("disks/untyped_bad.hdf", typed(bad, 0))
        self.catalogue("disks", "out", status=1)
        volumes = {"untyped.hdf/DH0": "sound", "untyped_bad.hdf/DH0": "read again", "whole.hdf/DH0": "sound"}
        disks = {"other.hdf": "volumes not read", "untyped.hdf": "sound", "untyped_bad.hdf": "sound", "whole.hdf": "sound"}
        self.assertEqual(self.groups(), {**disks, **volumes})
        self.assertIn("7 images, 5 sound", Page("out/index.html").text)

    def test_calls_no_partition_bad_that_is_not_read(self):
        os.mkdir("disks")
        whole = disk(volume(blocks=64, label="Work"))
        changes = {"reserved": {38: 4}, "words": {33: 256}, "sectors": {36: 2}, "odd": {37: 1, 41: 16, 42: 78}, "preallocated": {39: 8}}
        for name, words in changes.items():
            written(f"disks/{name}.hdf", worded(whole, words))
        self.catalogue("disks", "out", status=0)
        disks = {f"{name}.hdf": "volumes not read" for name in changes}
        self.assertEqual(self.groups(), {**disks, "preallocated.hdf": "sound", "preallocated.hdf/DH0": "sound"})
        reasons = dict(self.asked("out", "SELECT images.name, fault FROM partitions JOIN images ON images.id = partitions.disk WHERE fault != ''"))
        told = {"reserved": "reserved 4", "words": "other block size: 1 x 1024", "sectors": "other block size: 2 x 512", "odd": "odd blocks"}
        self.assertEqual(reasons, {f"{name}.hdf": reason for name, reason in told.items()})

    def test_reads_no_volume_that_is_too_long(self):
        os.mkdir("disks")
        written("disks/large.hdf", disk(volume(blocks=64, label="Work"), volume(blocks=256, label="Large")))
        ran = self.run_python("-c", "import adf; adf.MOST_BYTES = 50_000; from adf_tools import catalogue; catalogue.main()", "disks", "out")
        self.assertEqual(ran.returncode, 1)
        self.assertEqual(self.groups(), {"large.hdf": "volumes not read", "large.hdf/DH0": "sound", "large.hdf/DH1": "too long"})
        rows = self.asked("out", "SELECT bytes, sha256, verdict FROM images WHERE name = 'large.hdf/DH1'")
        self.assertEqual(rows, [(131072, sum_of(volume(blocks=256, label="Large")), "block 0: bad size")])


def worded(image, changes):
    """A hard disk whose only partition block has these words."""
    words = list(struct.unpack_from(">128I", image, 512))
    for place, word in {**changes, 2: 0}.items():
        words[place] = word
    words[2] = -sum(words) % 2**32
    return image[:512] + struct.pack(">128I", *words) + image[1024:]


def typed(image, number):
    """A hard disk whose only partition is of this type."""
    return worded(image, {48: number})


class Passed(Catalogues):
    """What is no image is counted."""

    def test_counts_files_and_members_by_kind(self):
        os.makedirs("disks/more")
        for name in ("a.ipf", "more/b.IPF", "more/readme", "x.y.TXT", "long." + "x" * 40):
            written(f"disks/{name}")
        with zipfile.ZipFile("disks/some.zip", "w") as archive:
            for name in ("one.adf", "two/readme.txt", "three"):
                archive.writestr(name, volume(blocks=64))
        written("disks/notes.gz", b"\x1f\x8b\x08no image")
        os.symlink("more", "disks/link")
        self.catalogue("disks", "out", "--tsv")
        below = [(".ipf", 2), ("no ending", 2), (".txt", 1), ("link to a folder", 1)]
        self.assertEqual(sorted(self.asked("out", "SELECT kind, count FROM passed WHERE file IS NULL")), sorted(below))
        line = "SELECT path, kind, count FROM passed JOIN files ON files.id = file ORDER BY 1, 2"
        self.assertEqual(self.asked("out", line), [("notes.gz", ".gz", 1), ("some.zip", ".txt", 1), ("some.zip", "no ending", 1)])
        self.assertIn("No images: 2 .ipf, 2 no ending, 1 .txt, 1 link to a folder", Page("out/index.html").text.replace("<wbr>", ""))
        rows = [(row["image"], row["files"], row["verdict"]) for row in rows_of("out/images.tsv") if row["advice"] == "passed"]
        self.assertEqual(rows, [
            *(("*.ipf", "2", "no image"), ("*.txt", "1", "no image"), ("link to a folder", "1", "no image"), ("no ending", "2", "no image")),
            *((name, "1", "no image, in an archive") for name in ("*.gz", "*.txt", "no ending")),
        ])  # fmt: skip
        os.remove("disks/a.ipf")
        os.remove("disks/some.zip")
        self.catalogue("disks", "out")
        self.assertEqual(self.asked("out", "SELECT SUM(count) FROM passed"), [(6,)])
