"""Tests of a collection that is read in parts, on several machines."""

import os
import subprocess

from tests.samples import BAD, OFS, Asked, dat, disk, icon, volume, without
from tests.shared import written
from tests.test_catalogue import trees_of


class Machines(Asked):
    """A collection that is read in parts."""

    def scanned(self, whole, *more, least=1):
        for number in range(1, whole + 1):
            ran = self.run_tool("catalogue", "scan", f"{number}/{whole}", "disks", f"part{number}", *more)
            self.assertLessEqual(ran.returncode, least, ran.stderr)
        return [f"part{number}" for number in range(1, whole + 1)]

    def test_gives_the_same_as_one_machine(self):
        written("disks/disk.hdf", disk(volume(("a", b"a"), ("Disk.info", icon()), blocks=64), BAD, without(volume(("letter", b"a"), blocks=64), "letter")))
        for number in range(20):
            written(f"disks/{number}.adf", OFS if number % 3 else BAD)
        parts = self.scanned(3, "--index-text")
        self.catalogue("merge", "merged", *parts, "--tsv", status=1)
        self.catalogue("disks", "whole", "--tsv", "--index-text", status=1)
        self.assertEqual(trees_of("merged"), trees_of("whole"))
        self.assertEqual(self.find("--text", "hello", "merged"), self.find("--text", "hello", "whole"))
        self.assertEqual(self.find("--deleted", "letter", "merged"), [("disk.hdf/DH2", "letter")])
        line = "SELECT deleted.block, state, path, images.deleted FROM deleted JOIN images ON images.id = image"
        self.assertEqual(self.asked("merged", line), self.asked("whole", line))
        written("disks/5.adf", BAD)
        os.remove("disks/6.adf")
        self.scanned(3, "--index-text")
        self.catalogue("merge", "merged", *parts, status=1)
        self.assertEqual(self.asked("merged", "SELECT read, removed FROM runs ORDER BY id"), [(26, 0), (1, 1)])
        self.catalogue("disks", "whole", "--tsv", "--index-text", status=1)
        self.assertEqual(trees_of("merged"), trees_of("whole"))
        self.catalogue("disks", "merged", status=1)
        self.assertEqual(self.asked("merged", "SELECT read FROM runs ORDER BY id")[-1], (0,))

    def test_asks_no_list_where_the_sha256_alone_was_made(self):
        written("list.dat", dat(("b.adf", OFS)))
        parts = self.scanned(2, "--sha256-only")
        self.refused(3, "the parts were read with --sha256-only", "catalogue", "merge", "merged", *parts, "--dat", "list.dat")
        self.catalogue("merge", "merged", *parts, status=1)
        self.catalogue("--sha256-only", "disks", "whole", status=1)
        self.assertEqual(trees_of("merged"), trees_of("whole"))
        self.assertEqual(self.asked("merged", "SELECT COUNT(md5) FROM images"), [(0,)])

    def listed(self, folder=b"disks"):
        """A list of the names of all files below a folder, as find writes it."""
        written("list", subprocess.run([b"find", folder + b"/", b"!", b"-type", b"d", b"-print0"], stdout=subprocess.PIPE, check=True).stdout)

    def test_lists_a_folder_once_for_all_parts(self):
        for name in (b"disks/latin\xfc.adf", b"disks/line\nfeed.adf", b"disks/no ending", b"disks/read.me", b"disks/games/plain"):
            written(name, OFS if name.endswith((b"adf", b"plain")) else b"text")
        os.symlink("games", "disks/folder")
        os.symlink("ring.adf", "disks/ring.adf")
        os.symlink("../other.adf", "disks/games/again.adf")
        self.listed()
        parts = self.scanned(3, "--names", "list", least=3)
        self.catalogue("merge", "merged", *parts, "--tsv", status=3)
        self.catalogue("disks", "whole", "--tsv", status=3)
        self.assertEqual(trees_of("merged"), trees_of("whole"))
        written("disks/new.adf", OFS)
        os.remove("disks/other.adf")
        parts = self.scanned(3, "--names", "list", least=3)
        self.catalogue("merge", "merged", *parts, status=3)
        names = [row[0] for row in self.asked("merged", "SELECT name FROM images WHERE advice = 'not read' ORDER BY name")]
        self.assertEqual(names, ["games/again.adf", "other.adf", "ring.adf"])
        self.assertEqual(self.asked("merged", "SELECT COUNT(*) FROM images WHERE name = 'new.adf'"), [(0,)])

    def test_refuses_lists_of_other_names(self):
        for content, told in (
            (b"disks/tools.adf", "its last name does not end in a NUL"), (b"disks/tools.adf\0/etc/passwd\0", "/etc/passwd is not below disks"),
            (b"disks/../outside.adf\0", "disks/../outside.adf is not below disks"), (b"disks/./a\0", "not below"), (b"disks//a\0", "not below"),
            (b"disksa\0", "not below"), (b"\0", "an empty name is not below disks"), (b"a\nb\0", "a\\x0ab is not below disks"),
        ):  # fmt: skip
            written("list", content)
            self.refused(3, told, "catalogue", "scan", "--names", "list", "1/1", "disks", "part")
        self.refused(3, "nix: No such file or directory", "catalogue", "scan", "--names", "nix", "1/1", "disks", "part")
        self.leaves("disks", "list")
        one, _ = self.scanned(2)
        self.listed()
        self.assertIn(self.run_tool("catalogue", "scan", "--names", "list", "2/2", "disks", "part2").returncode, (0, 1))
        self.refused(3, "not a part of the same collection", "catalogue", "merge", "merged", one, "part2")

    def test_refuses_parts_that_do_not_fit(self):
        one, two = self.scanned(2)
        self.catalogue("disks", "out", status=1)
        for parts, told in (
            ([one], "the parts of a whole are wanted, 1/2 to 2/2"), ([one, one], "each once; these are 1, 1"),
            ([one, "out/collection.sqlite"], "not a part of the same"),
            ([one, "nix"], "nix: unable to open database file"), ([one, "disks/tools.adf"], "disks/tools.adf: damaged"),
        ):  # fmt: skip
            self.refused(3, told, "catalogue", "merge", "merged", *parts)
            self.assertFalse(os.path.exists("merged"))
        for word in ("0/2", "3/2", "1", "a/b", "1/0", "1/2/3"):
            self.assertEqual(self.run_tool("catalogue", "scan", word, "disks", "new").returncode, 2)
        self.leaves("disks", "out", "part1", "part2")
