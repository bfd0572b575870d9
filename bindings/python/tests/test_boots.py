"""Tests of boot blocks: of the module, of adf-pack and adf-unpack, and of what a catalogue tells of them."""

import array
import os
import zlib

import adf
from adf import boots
from tests.samples import volume
from tests.shared import Folder, changed, image_of, written
from tests.test_catalogue import Catalogues, pages_of, rows_of

OFS = image_of()
STANDARD = adf.with_standard_boot(OFS)
STANDARD_CRC = 0x01261547  # of the bytes that FORMAT.md and examples/boot.s say, for a root at 880
AMIGA = (bytes.fromhex("444f5300c0200f1900000370 43fa00184eaeffa04a80670a20402068001670004e7570ff60fa") + b"dos.library").ljust(1024, b"\0")


def with_words(*words):
    """Boot blocks that begin with these words."""
    return b"".join(word.to_bytes(4, "big") for word in words).ljust(1024, b"\0")


class Boots(Folder):
    def test_tells_what_they_are(self):
        boot = adf.Volume(STANDARD).boot
        self.assertEqual((bytes(boot), boot.crc, boot.type), (STANDARD[:1024], STANDARD_CRC, 0))
        self.assertTrue(boot.is_bootable and boot.has_code and boot.has_right_sum and boot.begins_with_dos)
        self.assertEqual(repr(boot), "<adf.Boot 01261547: bootable>")
        states = ((AMIGA, "bootable"), (OFS, "no-code"), (AMIGA[:-1] + b"\1", "bad-sum"), (b"KICK" + AMIGA[4:], "not-dos"), (bytes(1024), "not-dos"))
        for content, state in states:
            boot = adf.Boot.of(content)
            self.assertEqual((boot.state, boot.crc, boot.raw), (state, zlib.crc32(content[:1024]), content[:1024]))
        self.assertEqual(adf.Boot.of(memoryview(AMIGA)).raw, AMIGA)

    def test_adds_the_words_with_their_carries(self):
        for words, right in (
            ((0x444F5300,), 0xBBB0ACFF), ((0x444F5300, 5), 0xBBB0ACFF), ((0x444F5300, 0, 880), 0xBBB0A98F),
            ((0xFFFFFFFF, 0, 1), 0xFFFFFFFE), ((0xFFFFFFFF, 0, 0xFFFFFFFF), 0), ((), 0xFFFFFFFF),
        ):  # fmt: skip
            first, rest = words[:1] or (0,), words[2:]
            self.assertTrue(adf.Boot.of(with_words(*first, right, *rest)).has_right_sum, words)
            self.assertFalse(adf.Boot.of(with_words(*first, right ^ 1, *rest)).has_right_sum, words)

    def test_goes_from_disk_to_disk(self):
        ffs = image_of("ffs")
        for source in (AMIGA, AMIGA + b"\0", adf.Boot.of(AMIGA), bytearray(adf.with_boot(OFS, AMIGA))):
            new = adf.with_boot(ffs, source)
            self.assertEqual((new[:8], new[8:1024], new[1024:]), (b"DOS\1\xc0\x20\x0f\x18", AMIGA[8:], ffs[1024:]))
        self.assertEqual(adf.Volume(new)["c/readme"].read(), b"Hello\n")
        self.assertEqual(adf.without_boot(new), ffs)
        self.assertEqual(adf.with_standard_boot(bytearray(OFS)), STANDARD)

    def test_refuses_what_has_none(self):
        for image, source, why in (
            (OFS[:1536], AMIGA, "bad size"), (OFS[:-1], AMIGA, "bad size"), (b"X" + OFS[1:], AMIGA, "not dos"), (b"", AMIGA, "bad size"),
            (OFS, AMIGA[:-1], "boot blocks: bad size"), (OFS, b"", "boot blocks: bad size"),
            (OFS, bytes(1024), "boot blocks: not dos"),
        ):  # fmt: skip
            with self.assertRaises(adf.BadBoot) as caught:
                adf.with_boot(image, source)
            self.assertEqual(caught.exception.why, why)
        for wrong in (None, 7, "DOS", [68]):
            for call in (adf.Boot.of, adf.with_standard_boot, adf.without_boot, lambda source: adf.with_boot(OFS, source)):
                self.assertRaises(TypeError, call, wrong)
        self.assertRaises(TypeError, adf.with_boot, OFS, adf.Boot.of(AMIGA)._replace(raw="DOS"))
        self.assertRaises(adf.BadBoot, adf.Boot.of, AMIGA[:-1])
        self.assertRaises(adf.BadBoot, adf.with_standard_boot, bytes(2048))
        self.assertRaises(adf.Closed, lambda: closed().boot)

    def test_takes_the_bytes_that_a_buffer_shows(self):
        apart = bytearray(2 * len(AMIGA))
        apart[::2] = AMIGA
        for source in (array.array("H", AMIGA), memoryview(AMIGA).cast("I"), memoryview(apart)[::2]):
            self.assertEqual(adf.with_boot(array.array("I", OFS), source), adf.with_boot(OFS, AMIGA))
        room = array.array("I", OFS)
        boots.copy_into(room, AMIGA)
        self.assertEqual(room.tobytes(), adf.with_boot(OFS, AMIGA))
        for wrong in (OFS, memoryview(OFS), memoryview(bytearray(OFS))[::2]):
            self.assertRaises(TypeError, boots.copy_into, wrong, AMIGA)

    def test_is_kept_of_what_stands_unless_it_is_lost(self):
        damaged = changed(adf.with_boot(OFS, AMIGA), 880, 440, 1)
        self.assertEqual(adf.Rescued(damaged).boot, adf.Boot.of(damaged))
        self.assertEqual(adf.Rescued(changed(damaged, 0, 0, 1)).boot.state, "no-code")


def closed():
    found = adf.Volume(OFS)
    found.close()
    return found


class Packed(Folder):
    def setUp(self):
        super().setUp()
        os.mkdir("f")
        written("f/a", b"A")
        written("boot", AMIGA)

    def packed(self, *words):
        self.assertEqual(self.tool("pack", "--image", "new.adf", "--size", "880K", *words, "f"), b"")
        with open("new.adf", "rb") as file:
            image = file.read()
        os.remove("new.adf")
        self.assertEqual(adf.Volume(image)["a"].read(), b"A")
        return image

    def test_has_the_boot_blocks_that_are_asked_for(self):
        plain = self.packed("ofs")
        self.assertEqual(self.packed("--bootable", "ofs"), adf.with_standard_boot(plain))
        self.assertEqual(self.packed("--boot", "boot", "ofs"), adf.with_boot(plain, AMIGA))
        written("disk.adf", STANDARD)
        self.assertEqual(self.packed("--boot", "disk.adf")[:1024], adf.with_boot(image_of("ffs"), STANDARD)[:1024])

    def test_refuses_other_files_and_writes_nothing(self):
        for content, told in ((AMIGA[:-1], "boot blocks: bad size; it has 1023 bytes"), (b"", "bad size"),
                              (b"X" + AMIGA[1:], "boot blocks: not dos"), (bytes(901120), "not dos")):  # fmt: skip
            written("bad", content)
            self.refused(1, f"bad: {told}" if told.startswith("boot") else told, "pack", "--image", "new.adf", "--boot", "bad", "f")
        self.refused(3, "nix: No such file", "pack", "--image", "new.adf", "--boot", "nix", "f")
        for words in (["--bootable"], ["--boot", "boot"]):
            self.refused(2, "a manifest has no boot blocks", "pack", *words, "ofs", "1760", "f")
        both = self.run_tool("pack", "--image", "new.adf", "--bootable", "--boot", "boot", "f")
        self.assertEqual((both.returncode, both.stdout), (2, b""))
        self.leaves("f", "boot", "bad")

    def test_is_unpacked(self):
        self.tool("unpack", "--boot", "old", "new", given=adf.with_boot(OFS, AMIGA))
        with open("old", "rb") as file:
            self.assertEqual(file.read(), AMIGA)
        self.assertEqual(sorted(os.listdir("new")), ["c", "empty", "large", "none"])
        damaged = changed(adf.with_boot(OFS, AMIGA), 880, 440, 1)
        self.assertEqual(self.run_tool("unpack", "--boot", "damaged", "what", given=damaged).returncode, 1)
        with open("damaged", "rb") as file:
            self.assertEqual(file.read(), AMIGA)

    def test_is_not_unpacked_over_another_file(self):
        for words, told in ((["--boot", "boot", "new"], "boot: File exists"), (["--boot", "old", "f"], "f: File exists"),
                            (["--boot", "nix/old", "new"], "nix/old: No such file")):  # fmt: skip
            self.refused(3, told, "unpack", *words, given=OFS)
        self.refused(2, "new: FOLDER and the FILE of --boot are the same", "unpack", "--boot", "./new", "new", given=OFS)
        self.refused(1, "bad size", "unpack", "--boot", "old", "new", given=OFS[:1000])
        self.leaves("f", "boot")


class Kept(Catalogues):
    """A catalogue tells of each disk whether it starts, and how many others have its boot blocks."""

    def boots(self):
        """What the pages say of boot blocks, by image."""
        texts = [page.text for page in pages_of("out")]
        names = [text.split('<h1 class="text">')[1].split("<")[0] for text in texts]
        return dict(zip(names, [text.split('"row">Boot blocks</th>')[1].split("</td>")[0] for text in texts]))

    def test_counts_disks_with_the_same_boot_blocks(self):
        os.mkdir("disks")
        written("disks/a.adf", STANDARD)
        written("disks/b.adf", adf.with_standard_boot(volume(("x", b"x"))))
        written("disks/c.adf", adf.with_boot(OFS, AMIGA))
        self.catalogue("--tsv", "disks", "out")
        rows = {row["image"]: (row["boot"], row["boot_crc32"], row["boot_others"]) for row in rows_of("out/images.tsv")}
        standard, amiga = f"{STANDARD_CRC:08x}", f"{zlib.crc32(AMIGA):08x}"
        self.assertEqual(rows, {"a.adf": ("bootable", standard, "1"), "b.adf": ("bootable", standard, "1"), "c.adf": ("bootable", amiga, "0")})
        told = self.boots()
        self.assertIn(f"bootable: CRC-32 <code>{standard}</code>, as on 1 other disk", told["a.adf"])
        self.assertIn(f"<code>{amiga}</code>, on no other disk", told["c.adf"])
        with open("out/twice.html", encoding="utf-8") as file:
            self.assertIn(f"<code>{standard}</code>", file.read())

    def test_writes_pages_again_whose_number_changes(self):
        os.mkdir("disks")
        for name in "ab":
            written(f"disks/{name}.adf", volume((name, b"")))
        written("disks/c.adf", STANDARD)
        self.catalogue("disks", "out")
        os.remove("disks/b.adf")
        written("disks/d.adf", adf.with_standard_boot(volume(("d", b""))))
        self.catalogue("disks", "out")
        told = self.boots()
        self.assertIn("without code: CRC-32", told["a.adf"])
        self.assertIn("on no other disk", told["a.adf"])
        self.assertIn("as on 1 other disk", told["c.adf"])
