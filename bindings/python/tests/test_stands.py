"""Tests of what stands of damaged images: in Python, and of the programs that take them."""

import os
import pickle
import unittest
import warnings

import adf
from tests.samples import disk
from tests.shared import Folder, built, changed, image_of, written

# Blocks of the OFS volume of 16 blocks: 2 is `a`, 3 to 5 its data, 6 `b`, 7 its data, 8 the root, 9 its page.
SMALL = "volume {} 16\nlabel Kept\nfile 0:0:0 00000000 a\nfill 1200 41\nfile 0:0:0 00000000 b\nnote kept\ndata 42\n".format
SOUND = built(SMALL("ofs"))
DAMAGED = changed(SOUND, adf.Volume(SOUND)["a"].header + 2, 3, 8)  # the type of a data block: bytes 488 to 975 of `a` are lost
FAULT = adf.LeftOut(adf.Reason.DAMAGED, b"a", 2, 2)


def opened(*words, **more):
    """What is opened, and the texts of the warnings."""
    with warnings.catch_warnings(record=True) as told:
        warnings.simplefilter("always")
        volume = adf.open_image(*words, **more)
    return volume, [(each.category, str(each.message), each.filename) for each in told]


class Stands(Folder):
    def test_opens_a_sound_volume_as_it_is(self):
        volume, told = opened(SOUND)
        self.assertEqual((type(volume), volume.image, volume.left_out, list(volume.findings), told), (adf.Volume, SOUND, [], [], []))

    def test_opens_what_stands_and_says_what_does_not(self):
        written("a.adf", DAMAGED)
        with self.assertWarns(adf.DamagedWarning) as told:
            volume = adf.open("a.adf")
        self.assertEqual((str(told.warning), told.filename), (f"{volume.refused}: 1 left out (volume.left_out)", __file__))
        self.assertEqual(([entry.path for entry in volume.entries], volume["b"].read(), volume["b"].comment), (["b"], b"B", "kept"))
        self.assertEqual((volume.left_out, [str(each) for each in volume.left_out]), ([FAULT], ["damaged: a"]))
        self.assertEqual(volume.survey.findings, volume.findings)
        self.assertEqual(str(volume.refused), f"a.adf: block {volume.findings[0].first}: {volume.findings[0].cause}")
        self.assertEqual(adf.run(["check"], volume.image).status, 0)
        self.assertEqual(repr(volume), "<adf.Rescued 'Kept': ofs, 16 blocks, 1 left out>")

    def test_refuses_if_it_is_told_to_or_nothing_stands(self):
        written("a.adf", DAMAGED)
        for call in (lambda: adf.open("a.adf", strict=True), lambda: adf.Volume(DAMAGED, "a.adf")):
            with self.assertRaises(adf.Refused) as raised:
                call()
            self.assertEqual((raised.exception.filename, raised.exception.cause), ("a.adf", adf.survey(DAMAGED).findings[0].cause))
        for image, cause in ((b"", "bad size"), (bytes(8192), "not dos")):
            for strict in (False, True):
                with self.assertRaises(adf.Refused) as raised:
                    adf.open_image(image, "b.adf", strict=strict)
                self.assertEqual((raised.exception.cause, raised.exception.filename), (cause, "b.adf"))
        with warnings.catch_warnings():
            warnings.simplefilter("error", adf.DamagedWarning)
            self.assertRaises(adf.DamagedWarning, adf.open, "a.adf")

    def test_takes_no_hint_to_a_hard_disk_for_what_is_left_out(self):
        image = bytearray(DAMAGED)
        image[:4], image[12 * 512 : 12 * 512 + 4] = bytes(4), b"RDSK"  # the boot block, and a free block
        self.assertEqual(opened(bytes(image))[0].left_out, [adf.LeftOut(adf.Reason.BLOCKS, b"", 0, 0), FAULT])
        self.assertRaises(adf.Damaged, adf.survey(bytes(image)).read, "a")

    def test_can_be_closed_and_pickled(self):
        volume = adf.Rescued(DAMAGED)
        copy = pickle.loads(pickle.dumps(volume))
        self.assertEqual((copy.left_out, copy["b"].read()), ([FAULT], b"B"))
        first = volume.survey.entries[0]
        volume.close()
        self.assertRaises(adf.Closed, volume.__getitem__, "b")
        for call in (lambda: volume.findings, lambda: volume.survey, lambda: volume.refused, lambda: volume.entry_of(first), lambda: pickle.dumps(volume)):
            self.assertRaises(adf.Closed, call)
        self.assertEqual((volume.left_out, repr(volume)), ([FAULT], "<adf.Rescued 'Kept': closed, 1 left out>"))
        for name in ("left_out", "survey", "more"):
            self.assertRaises(AttributeError, setattr, copy, name, 1)

    def test_tells_which_entry_is_which(self):
        volume = adf.Rescued(DAMAGED)
        self.assertEqual([(found.path, volume.entry_of(found)) for found in volume.survey.entries], [("a", None), ("b", volume["b"])])
        both = adf.Rescued(changed(changed(SOUND, 6, 433, 3), 6, 401, 1))  # `b` is called `a` too, and its checksum is right
        self.assertEqual(str(both.left_out[-1]), "renamed: a: lost-6")
        self.assertEqual([both.entry_of(found) for found in both.survey.entries], [both["a"], both["lost-6"]])

    def test_tells_what_is_lost(self):
        sound = built("volume ofs 64\ndir 0:0:0 00000000 c\nfile 0:0:0 00000000 c/x\nfill 900 41\n")
        volume = adf.Rescued(sound[: 512 * 3] + bytes(512) + sound[512 * 4 :])
        self.assertEqual(volume.left_out, [adf.LeftOut(adf.Reason.HEADERS, b"c", 2, 2), adf.LeftOut(adf.Reason.BLOCKS, b"", 3, 5)])
        self.assertEqual([str(each) for each in volume.left_out], ["lost: in c/", "lost: blocks 3 to 5"])
        self.assertEqual([(each.is_entry, each.directory, each.blocks) for each in volume.left_out], [(False, "c", range(0)), (False, None, range(3, 6))])

    def test_tells_each_reason_as_a_text(self):
        for reason, path, first, last, text in (
            (1, b"c/\xfc", 5, 5, r"damaged: c/\xfc"), (2, b"a", 5, 5, "link: a"), (3, b"a", 5, 5, "no room: a"), (4, b"", 0, 0, "lost: in /"),
            (4, b"c/d", 7, 7, "lost: in c/d/"), (5, b"", 44, 44, "lost: block 44"), (5, b"", 44, 65, "lost: blocks 44 to 65"), (6, b"c", 5, 5, "in doubt: c"),
            (7, b"a", 5, 5, "perhaps deleted: a"), (8, b"a/b", 5, 5, "found again: a/b"), (9, b"lost-8", 8, 8, "made: lost-8"),
            (11, b"a", 5, 5, "comment cut: a"), (12, b"", 8, 8, "label cut: block 8"), (13, b"", 9, 9, "bitmap: block 9"), (14, b"a", 5, 5, "reason 14: a"),
        ):  # fmt: skip
            told = adf.LeftOut(reason, path, first, last)
            self.assertEqual((str(told), told.is_kept, told.is_entry), (text, 6 <= reason <= 9, reason not in (4, 5, 12, 13)))

    def test_tells_what_is_in_the_volume_in_doubt(self):
        # Block 2 is `c`, 3 is `c/a`, 4 its data. The checksum of `c` is wrong, so its date may be, and it and the chain that it is in may lack things.
        sound = built("volume ofs 16\ndir 0:0:0 00000000 c\nfile 0:0:0 00000000 c/a\ndata 41\n")
        volume, told = opened(changed(sound, 2, 323, 1))
        lost = [adf.LeftOut(adf.Reason.HEADERS, b"c", 2, 2), adf.LeftOut(adf.Reason.HEADERS, b"", 0, 0)]
        self.assertEqual(volume.left_out, [*lost, adf.LeftOut(adf.Reason.IN_DOUBT, b"c", 2, 2)])
        self.assertEqual([volume.entry_of(found) for found in volume.survey.entries], [volume["c"], volume["c/a"]])
        self.assertEqual([text for _, text, _ in told], ["block 2: bad sum: 2 left out, 1 in doubt (volume.left_out)"])
        self.assertEqual(repr(volume), "<adf.Rescued '': ofs, 16 blocks, 2 left out, 1 in doubt>")

    def test_tells_what_is_found_again(self):
        # The root, block 8, does not lead to `c` any more: the word of its slot is 0, and its checksum wrong.
        image = bytearray(built("volume ofs 16\nlabel Kept\ndir 0:0:0 00000000 c\nfile 0:0:0 00000000 c/a\ndata 41\n"))
        place = image.index(bytes([0, 0, 0, 2]), 512 * 8 + 24)
        image[place : place + 4] = bytes(4)
        volume = adf.Rescued(image)
        lines = ["lost: block 8", "lost: in /", "found again: c", "found again: c/a"]
        self.assertEqual(([str(each) for each in volume.left_out], volume["c/a"].read(), volume.label), (lines, b"A", "Kept"))
        self.assertEqual([(each.reason, each.first, each.is_kept) for each in volume.left_out], [(5, 8, False), (4, 0, False), (8, 2, True), (8, 3, True)])

    def test_reads_floppies_with_tracks_behind_them_and_without_their_end(self):
        sound = image_of()
        for image, first, last, cause in (
            (sound + bytes(512 * 44), 1760, 1803, "behind the volume"),
            *((sound[: 512 * held], held, 1759, "no data") for held in (1700, 882)),
        ):
            volume = adf.Rescued(image)
            self.assertEqual(volume.left_out, [adf.LeftOut(adf.Reason.BLOCKS, b"", first, last)])
            self.assertEqual((volume.blocks, volume["c/readme"].read(), volume.findings[0]), (1760, b"Hello\n", adf.Finding(first, last, cause, None, None)))
            self.assertEqual((len(volume.survey.image), len(volume.survey.owners())), (901120, 1760))
            self.assertEqual({found.path for found in volume.survey.entries if found.is_sound}, set(adf.Volume(sound)))
            self.assertEqual(pickle.loads(pickle.dumps(volume.survey)).findings, volume.survey.findings)

    def test_reads_a_floppy_whose_end_is_missing(self):
        for kind in adf.KINDS:
            manifest = f"volume {kind} 1760\n" + "".join(f"file 0:0:0 00000000 {name}\nfill 300000 {name}1\n" for name in "ab")
            sound = built(manifest)
            cut, header = sound[: 512 * 900], adf.Volume(sound)["b"].header
            told_of_b = [adf.LeftOut(adf.Reason.BLOCKS, b"", 900, 1759), adf.LeftOut(adf.Reason.DAMAGED, b"b", header, header)]
            volume, told = opened(cut, "cut.adf", blocks=1760)
            self.assertEqual(len(told), 1)
            self.assertEqual(([entry.path for entry in volume.entries], volume.left_out), (["a"], told_of_b))
            self.assertEqual(volume["a"].read(), b"\xa1" * 300000)
            survey = adf.survey(cut, 1760)
            self.assertEqual([(found.path, found.is_sound) for found in survey.entries], [("a", True), ("b", False)])
            self.assertRaises(adf.Damaged, survey.read, "b")
            left, lost = survey.entries[1].remains()
            self.assertEqual((left, [gap.stop for gap in lost]), (b"\xb1" * lost[0].start, [300000]))
            self.assertEqual((adf.rescue(cut, 1760)[1], adf.rescue(cut)), (told_of_b, adf.rescue(cut, 1760)))
            self.assertRaises(adf.Refused, adf.open_image, cut, blocks=1760, strict=True)
        longer = image_of() + bytes(1024)
        self.assertEqual(opened(longer, blocks=1760)[0].image, image_of())

    def test_gives_each_of_two_equal_names_its_own_bytes(self):
        sound = built("volume ofs 64\ndir 0:0:0 00000000 d\nfile 0:0:0 00000000 d/f\ndata 31\ndir 0:0:0 00000000 e\nfile 0:0:0 00000000 e/f\ndata 32\n")
        volume = adf.Volume(sound)
        image = changed(sound, volume["e"].header, 433, ord("e") ^ ord("d"))
        found = [entry for entry in adf.survey(image).entries if entry.is_file]
        self.assertEqual([(entry.path, entry.is_sound) for entry in found], [("d/f", True), (f"lost-{volume['e'].header}/f", True)])
        content = {volume["d/f"].header: b"1", volume["e/f"].header: b"2"}
        self.assertEqual([entry.read() for entry in found], [content[entry.header] for entry in found])
        self.assertEqual([entry.remains() for entry in found], [(content[entry.header], []) for entry in found])


class Programs(Folder):
    def setUp(self):
        super().setUp()
        written("a.adf", DAMAGED)
        written("b.adf", SOUND)

    def ends(self, status, lines, name, *words, **more):
        """The output of adf-NAME, which ends with this status and these lines on errors."""
        ran = self.run_tool(name, *words, **more)
        self.assertEqual((ran.returncode, ran.stderr.decode()), (status, "".join(f"adf-{name}: {line}\n" for line in lines)))
        return ran.stdout

    def files(self, folder):
        found = {}
        for name in os.listdir(folder):
            with open(os.path.join(folder, name), "rb") as file:
                found[name] = file.read()
        return found

    def test_unpack_copies_what_stands(self):
        self.ends(1, ["a.adf: damaged: a"], "unpack", "a.adf", "new")
        self.assertEqual(self.files("new"), {"b": b"B"})
        self.ends(1, ["damaged: a"], "unpack", "-", "other", given=DAMAGED)
        self.ends(1, ["damaged: a"], "unpack", "third", given=DAMAGED)
        self.assertEqual((self.files("other"), self.files("third")), ({"b": b"B"}, {"b": b"B"}))
        self.tool("unpack", "b.adf", "--escape", "whole")
        self.assertEqual(self.files("whole"), {"a": b"A" * 1200, "b": b"B"})

    def test_unpack_copies_what_is_left_of_damaged_files(self):
        self.ends(1, ["a.adf: damaged: a"], "unpack", "--damaged", "a.adf", "new")
        left = b"A" * 488 + bytes(488) + b"A" * 224
        self.assertEqual(self.files("new"), {"b": b"B", "a.damaged": left, "a.gaps": b"bytes 488 to 975: no data\n"})

    def test_unpack_never_writes_over_a_file(self):
        sound = built(SMALL("ofs").replace("000 b", "000 a.damaged"))
        header = adf.Volume(sound)["a"].header
        written("c.adf", changed(sound, header + 2, 3, 8))
        self.ends(1, ["c.adf: damaged: a"], "unpack", "--damaged", "c.adf", "new")
        self.assertEqual(sorted(self.files("new")), [f"a-{header}.damaged", f"a-{header}.gaps", "a.damaged"])

    def test_are_strict_if_they_are_told_to(self):
        why = str(adf.Rescued(DAMAGED).refused)
        for name, words in (("unpack", ["a.adf", "new"]), ("recipe", ["a.adf"])):
            self.assertEqual(self.ends(1, [f"a.adf: {why}"], name, "--strict", *words), b"")
        self.leaves("a.adf", "b.adf")

    def test_tell_what_is_in_doubt(self):
        written("c.adf", changed(built("volume ofs 16\ndir 0:0:0 00000000 c\n"), 2, 323, 1))
        self.ends(1, ["c.adf: lost: in c/", "c.adf: lost: in /", "c.adf: in doubt: c"], "unpack", "c.adf", "new")
        self.assertEqual(os.listdir("new"), ["c"])

    def test_recipe_writes_what_stands(self):
        rescued = adf.Rescued(DAMAGED)
        self.assertEqual(built(self.ends(1, ["a.adf: damaged: a"], "recipe", "a.adf").decode()), rescued.image)
        self.assertEqual(self.tool("recipe", "b.adf"), self.tool("recipe", "-", given=SOUND))

    def test_map_takes_standard_input(self):
        self.assertIn(b"standard input: ofs, ", self.tool("map", "-", given=SOUND))
        self.assertIn(b"standard input: ofs, ", self.tool("map", given=SOUND))

    def test_name_what_helps(self):
        written("cut.adf", image_of()[:-100])
        written("disk.hdf", disk(image_of(), image_of("ffs")))
        fits = f"cut.adf: block 0: bad size; it has {901120 - 100} bytes, and 901120 would fit: --blocks 1760"
        cut_out = "disk.hdf: block 0: not dos; a hard disk: adf-disk volume DH0 < IMAGE > VOLUME cuts a volume out (adf-disk list < IMAGE)"
        written("short.hdf", disk(image_of(), image_of("ffs"))[: 512 * 64])
        short = "short.hdf: block 0: not dos; a hard disk without a volume that can be read: adf-disk survey < IMAGE tells why"
        for name, words in (("unpack", ["new"]), ("recipe", [])):
            self.ends(1, [fits], name, "--strict", "cut.adf", *words)
            self.ends(1, [cut_out], name, "disk.hdf", *words)
            self.ends(1, [short], name, "short.hdf", *words)
            self.ends(1, ["block 0: bad size; it has 5 bytes"], name, *words, given=b"DOS\0\0")
        for number, options in enumerate(([], ["--blocks", "1760"])):
            self.ends(1, ["cut.adf: lost: block 1759"], "unpack", *options, "cut.adf", f"new{number}")
        self.assertEqual(self.run_tool("map", "cut.adf").stderr.decode(), f"adf-map: {fits}\n")


if __name__ == "__main__":
    unittest.main()
