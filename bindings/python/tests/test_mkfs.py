"""Tests of mkfs.affs on files; trials/linux tries it on devices."""

import os
from unittest import mock

import adf
from tests.shared import Folder, built, written

STAMP = "17497:356:2000"  # 2025-11-27 05:56:40, 1764223000 seconds since 1970


def content_of(path):
    with open(path, "rb") as file:
        return file.read()


class Mkfs(Folder):
    """Empty volumes are made."""

    def made(self, *words, status=0):
        """What mkfs.affs says, on output and on errors; of the latter one line, unless the words are not accepted."""
        with mock.patch.dict(os.environ, SOURCE_DATE_EPOCH="1764223000"):
            ran = self.run_tool("mkfs", *words)
        self.assertEqual(ran.returncode, status, ran.stderr)
        if status == 1:
            self.assertEqual((ran.stdout, ran.stderr.count(b"\n"), ran.stderr[:11]), (b"", 1, b"mkfs.affs: "))
        return ran.stdout.decode(), ran.stderr.decode()

    def test_makes_each_kind(self):
        for kind in adf.TYPES:
            self.assertEqual(self.made("-t", kind, "-v", "-L", "B\xfccher", kind, "880")[0], f"{kind}: {kind} volume of 1760 blocks of 512 bytes\n")
            volume = adf.Volume(content_of(kind))
            self.assertEqual((volume.kind, volume.blocks, volume.label, list(volume.entries), volume.used), (kind, 1760, "B\xfccher", [], 2))
            self.assertEqual([str(date) for date in (volume.date, volume.altered, volume.created)], ["2025-11-27 05:56:40.00"] * 3)
        for kind in adf.KINDS:
            manifest = (f"volume {kind} 1760", "label B\\xfccher", f"stamps {STAMP} {STAMP} {STAMP}")
            self.assertEqual(content_of(kind), built(manifest))

    def test_makes_large_volumes_of_few_bytes(self):
        with open("large", "wb") as file:
            file.write(b"X" * 4096)
            file.truncate(600 << 20)
        self.made("-L", "Large", "large")
        self.assertLess(512 * os.stat("large").st_blocks, 4 << 20)
        with adf.open("large") as volume:
            self.assertEqual((volume.label, volume.blocks, volume.used, bytes(volume.image[1024:4096])), ("Large", 1228800, 307, bytes(3072)))
            self.assertRaisesRegex(adf.Refused, "^block 0: bad size$", adf.check, volume.image)
            self.assertEqual(adf.check(volume.image, international=True).blocks, 1228800)

    def test_leaves_what_is_behind_an_even_number_of_blocks(self):
        written("odd", b"X" * (512 * 1761 + 100))
        self.assertIn("the last of 1761 blocks is left out", self.made("odd")[1])
        self.assertEqual((adf.check(content_of("odd")[: 512 * 1760]).kind, content_of("odd")[512 * 1760 :]), ("ffs", b"X" * 612))

    def test_refuses_what_can_be_no_volume(self):
        written("small", bytes(1536))
        written("other", b"X" * 901120)
        os.symlink("other", "link")
        with open("large", "wb") as file:
            file.truncate(adf.MOST_BYTES + 1024)
        for words, told in (
            (["small"], "small: 2 blocks: bad size"), (["large"], "at most 8388608 (4 GiB)"), (["link"], "a link to a file"),
            (["new", "0"], "new: 0 blocks: bad size"), (["new", "999999999999"], "at most 8388608"), (["-L", "a:b", "other"], "no name on an Amiga has a :"),
            (["-L", "x" * 31, "other"], "a name of 31 bytes"), (["other", "880"], "keeps its size"), (["new"], "BLOCKS makes one"),
        ):  # fmt: skip
            self.assertIn(told, self.made(*words, status=1)[1])
        for words in (["-t", "pfs", "other"], ["-t", "ofs-intl", "other"], ["other", "x"], []):
            self.assertIn("usage: mkfs.affs", self.made(*words, status=2)[1])
        self.assertEqual((content_of("small"), content_of("other")), (bytes(1536), b"X" * 901120))
        self.leaves("large", "link", "other", "small")

    def test_writes_nothing_where_that_is_asked(self):
        written("other", b"X" * 901120)
        self.assertEqual(self.made("-n", "other")[0], "other: ffs volume of 1760 blocks of 512 bytes, not written\n")
        self.assertEqual(self.made("-n", "new", "880")[0], "new: ffs volume of 1760 blocks of 512 bytes, not written\n")
        self.assertEqual(content_of("other"), b"X" * 901120)
        self.leaves("other")

    def test_says_that_a_file_cannot_be_written(self):
        ran = self.shell("ulimit -f 100; exec {} -m adf_tools.mkfs new 880")
        self.assertEqual(ran, (1, "mkfs.affs: new: File too large\n"))
        self.leaves()
