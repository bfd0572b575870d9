"""Tests of adf-pack."""

import os
import re
import time
from unittest import mock

import adf
from adf_tools import trees
from tests.shared import Folder, built, image_of, international, listed, nested, written


class Folders(Folder):
    def test_packs_what_was_unpacked(self):
        for kind in adf.KINDS:
            self.tool("unpack", kind, given=image_of(kind))
            again = self.pack("--label", "Bücher", kind, "1760", kind)
            self.assertEqual(adf.Volume(again).label, "Bücher")
            dated = sorted(line[14:] for line in listed(image_of(kind)) if not line.startswith("note"))
            self.assertEqual(sorted(line[14:] for line in listed(again)), dated)
            self.assertEqual(adf.Volume(again)["large"].read(), adf.Volume(image_of(kind))["large"].read())

    def test_packs_deep_trees(self):
        self.tool("unpack", "deep", given=nested(1200))
        again = self.pack("ffs", "4000", "deep")
        self.assertEqual(listed(again), listed(nested(1200)))
        trees.remove("deep")

    def test_refuses_a_tree_that_is_too_deep_for_a_manifest(self):
        with trees.Place(".") as place:
            for _ in range(1100):
                os.mkdir(b"d" * 30, dir_fd=place.fd)
                place.go_in(b"d" * 30)
        self.refused(1, "more than 16777216 bytes", "pack", "ofs", "1760", ".")
        trees.remove("d" * 30)

    def test_refuses_links_and_pipes(self):
        for make in (os.mkfifo, lambda path: os.symlink("nix", path)):
            make("a")
            self.refused(1, "./a: neither a file nor a directory", "pack", "ofs", "1760", ".")
            os.remove("a")

    def test_takes_a_link_to_the_folder(self):
        os.mkdir("real")
        written("real/a", b"A")
        os.symlink("real", "link")
        self.assertEqual(adf.Volume(self.pack("ofs", "1760", "link"))["a"].read(), b"A")

    def test_refuses_what_is_not_there(self):
        written("file")
        for folder, why in (("nix", "No such file"), ("file", "Not a directory")):
            self.refused(3, f"{folder}: {why}", "pack", "ofs", "1760", folder)


class International(Folder):
    """Kinds by whose letters 0xC9 and 0xE9 are one, as É and é."""

    def test_is_named_in_a_manifest(self):
        os.mkdir("f")
        written("f/é", b"A")
        written("f/x-international", b"B")
        for kind in adf.KINDS:
            rest = self.tool("pack", "--label", "É", kind, "1760", "f").decode().split("\n", 1)[1]
            for words in ((f"{kind}-international",), ("--international", kind), ("--international", f"{kind}-international")):
                made = self.tool("pack", "--label", "É", *words, "1760", "f").decode()
                self.assertEqual(made, f"volume {kind}-international 1760\n{rest}")

    def test_refuses_names_that_are_one(self):
        os.makedirs("f/d")
        written("f/d/É")
        written("f/d/é")
        self.assertEqual(sorted(adf.Volume(self.pack("ffs", "1760", "f"))), ["d", "d/É", "d/é"])
        for words in ((), ("--image", "new.adf")):
            self.refused(1, "f/d/\\xe9: exists, as d/\\xc9: the case of letters does not count", "pack", *words, "--international", "ffs", "1760", "f")
        self.leaves("f")

    def test_refuses_names_that_are_one_by_any_letters(self):
        os.mkdir("f")
        written("f/A")
        written("f/a")
        self.refused(1, "line 4: exists", "pack", "ffs-international", "1760", "f")

    def test_refuses_what_no_volume_is(self):
        os.mkdir("f")
        self.refused(1, "line 1: ", "pack", "--international", "ffs", "7", "f")
        self.refused(2, "without --image the words are KIND", "pack", "--international", "f")
        self.refused(2, "with --edits the only other words are", "pack", "--edits", "/", "--international", "f")

    def test_goes_into_a_folder_and_back_with_its_boot_code(self):
        for kind in adf.KINDS:
            old = adf.with_standard_boot(international(kind))
            self.tool("unpack", "--boot", f"{kind}.boot", kind, given=old)
            self.assertEqual(self.tool("pack", "--image", kind + ".adf", "--boot", f"{kind}.boot", "--international", kind, "1760", kind), b"")
            with open(f"{kind}.adf", "rb") as file:
                new = file.read()
            found = [(each.path, each.date, each.is_file and each.read()) for each in adf.Volume(new).entries]
            self.assertEqual(sorted(found), [("c", (0, 0, 0), False), ("é", (0, 0, 0), b"A")])
            self.assertEqual((new[:1024], adf.Volume(new).kind, "É" in adf.Volume(new)), (old[:1024], f"{kind}-international", True))


class Edits(Folder):
    """The lines for adf-edit. 709,993,800 seconds after 1970 is 1992-07-01 12:30."""

    def test_folders_come_before_what_is_in_them(self):
        os.makedirs("f/d")
        written("f/d/é", b"E")
        written("f/a b", b"A")
        written("f/d.uaem", b"--p-rwed 1992-07-01 12:30:00.04 a note")
        for path in ("f/a b", "f/d/é", "f/d"):
            os.utime(path, (709_993_800, 709_993_800))
        wanted = [
            "put\tf/a b\tx/y/a b", "date\tx/y/a b\t5295:750:0",
            "dir\tx/y/d", "date\tx/y/d\t5295:750:2", "protect\tx/y/d\t00000020", "note\tx/y/d\ta note",
            "put\tf/d/é\tx/y/d/\\xe9", "date\tx/y/d/\\xe9\t5295:750:0",
        ]
        self.assertEqual(self.tool("pack", "--edits", "x/y/", "f").decode().splitlines(), wanted)

    def test_what_no_line_can_say_is_refused(self):
        os.mkdir("f")
        self.assertEqual(self.tool("pack", "--edits", "/", "f"), b"")
        written("f/a\tb", b"A")
        self.refused(1, "f/a\\x09b: a tab or a line feed", "pack", "--edits", "/", "f")
        self.refused(1, "a:b: no name on an Amiga has a :", "pack", "--edits", "a:b", "f")
        self.refused(2, "with --edits the only other words are", "pack", "--edits", "/", "--label", "x", "f")


class Limits(Folder):
    """What cannot fit is not read."""

    def test_reads_no_more_than_the_volume_has(self):
        os.mkdir("f")
        with open("f/sparse", "wb") as file:
            file.truncate(1 << 40)
        begin = time.monotonic()
        self.refused(1, "f/sparse: with this file there are more bytes than 1760 blocks have", "pack", "ofs", "1760", "f")
        self.assertLess(time.monotonic() - begin, 20)

    def test_makes_no_more_than_a_manifest_has(self):
        os.mkdir("f")
        written("f/noise", os.urandom(9_000_000))
        self.refused(1, "the manifest has more than 16777216 bytes, the most that adf build takes", "pack", "ofs", "40000", "f")

    def test_refuses_sizes_that_no_volume_has(self):
        written("a", b"A")
        for blocks in ("-4", "0", "7", "2097152"):
            self.refused(1, "", "pack", "ofs", blocks, ".")

    def test_fills_equal_bytes(self):
        os.mkdir("f")
        content = b"ab" + bytes(3_000_000) + b"c" * 64 + b"d" * 63 + b"e" * 2_000_000
        written("f/a", content)
        manifest = self.tool("pack", "ffs", "12000", "f").decode()
        self.assertEqual(len(re.findall("^fill", manifest, re.M)), 3)
        self.assertEqual(adf.Volume(built(manifest))["a"].read(), content)


class Names(Folder):
    def test_keeps_letters(self):
        os.mkdir("f")
        for name in ("gr\u00f6\u00dfe", "u\u0308ber"):
            written(f"f/{name}")
        volume = adf.Volume(self.pack("--label", "Bu\u0308cher", "ofs", "1760", "f"))
        self.assertEqual((sorted(volume), volume.label), (["größe", "über"], "Bücher"))

    def test_takes_letters_of_two_characters_beside_sidecars(self):
        written("u\u0308.uaem", b"----rwed 2000-01-01 00:00:00.00 x\n")
        written("u\u0308")
        self.assertEqual(adf.Volume(self.pack("ofs", "1760", "."))["ü"].comment, "x")

    def test_says_why_a_volume_cannot_have_a_name(self):
        for name, why in (
            ("a" * 31, "a name of 31 bytes, and an Amiga has at most 30"),
            ("c:list", "no name on an Amiga has a :"),
            ("a\\x2fb", "no name on an Amiga has a /"),
            ("\u20ac", "Latin-1, in which an Amiga writes, has no \u20ac"),
        ):
            os.makedirs("f/d", exist_ok=True)
            written(f"f/d/{name}")
            self.refused(1, why, "pack", "ofs", "1760", "f")
            self.refused(1, "adf-pack: f/d/", "pack", "ofs", "1760", "f")
            os.remove(f"f/d/{name}")
            self.refused(1, why, "pack", "--label", name, "ofs", "1760", "f")

    def test_takes_bytes_in_the_escape_form(self):
        os.mkdir("f")
        written(b"f/B\xfccher")
        self.refused(1, "not UTF-8", "pack", "ofs", "1760", "f")
        self.assertEqual(list(adf.Volume(self.pack("--escape", "ofs", "1760", "f"))), ["Bücher"])

    def test_shows_the_line_of_names_that_are_equal(self):
        for name in ("f/" + "d" * 30, "f/" + "d" * 30 + "/" + "e" * 30, "f/" + "d" * 30 + "/" + "e" * 30 + "/" + "f" * 30):
            os.makedirs(name)
        written(f"{name}/list")
        written(f"{name}/LIST")
        self.refused(1, "exists", "pack", "ofs", "1760", "f")
        told = self.run_tool("pack", "ofs", "1760", "f").stderr
        self.assertTrue(told.endswith(b"fffff/LIST: the case of letters does not count\n") and b"fffff/list; as " in told, told)
        self.refused(1, "exists, as ", "pack", "--image", "new.adf", "ofs", "1760", "f")


class Sidecars(Folder):
    """Files NAME.uaem."""

    line = b"h--a---d 1978-01-01 00:00:00.99 x\r\n"

    def test_gives_what_they_keep(self):
        written("a")
        written("a.uaem", self.line)
        (entry,) = adf.Volume(self.pack("ofs", "1760", ".")).entries
        self.assertEqual((entry.path, entry.protection, entry.date, entry.comment), ("a", 0x9E, (0, 0, 49), "x"))
        self.assertEqual(sorted(adf.Volume(self.pack("--no-uaem", "ofs", "1760", "."))), ["a", "a.uaem"])
        os.remove("a")
        self.assertEqual(list(adf.Volume(self.pack("ofs", "1760", "."))), ["a.uaem"])

    def test_are_regular_files_alone(self):
        written("a")
        os.mkdir("a.uaem")
        self.assertEqual(sorted(adf.Volume(self.pack("ofs", "1760", "."))), ["a", "a.uaem"])
        os.rmdir("a.uaem")
        for make in (os.mkfifo, lambda path: os.symlink("a", path)):
            make("a.uaem")
            self.refused(1, "./a.uaem: neither a file nor a directory", "pack", "ofs", "1760", ".")
            os.remove("a.uaem")

    def test_have_none_of_their_own(self):
        for name in ("a", "a.uaem.uaem"):
            written(name)
        written("a.uaem", self.line)
        self.assertEqual(sorted(adf.Volume(self.pack("ofs", "1760", "."))), ["a", "a.uaem.uaem"])

    def test_refuses_other_lines(self):
        written("a")
        for line in (
            *(b"", b"rwed", b"\xff", b"----rwed 2026-13-25 06:56:04.10 x", b"----rwed 1977-12-31 23:59:59.00 x"),
            *(b"----rwex 2026-11-25 06:56:04.10 x", self.line * 200, b"----rwed 2026-11-25 06:56:04.10 " + b"x" * 80),
        ):
            written("a.uaem", line)
            self.refused(1, "./a.uaem: ", "pack", "ofs", "1760", ".")

    def test_may_have_flags_alone(self):
        written("a")
        os.utime("a", (946684800 + 60, 946684800 + 60))
        written("a.uaem", b"-s--r--d\n")
        (entry,) = adf.Volume(self.pack("ofs", "1760", ".")).entries
        self.assertEqual((entry.protection, entry.date, entry.comment), (0x46, (8035, 1, 0), ""))

    def test_keeps_digits_of_comments(self):
        written("a")
        written("a.uaem", b"----rwed 2000-01-01 00:00:00.00 B%fccher %2Fx%2541 C:\\x41 \xe4\n")
        self.assertEqual(adf.Volume(self.pack("ofs", "1760", "."))["a"].comment, "Bücher /x%41 C:\\x41 ä")


class Attributes(Folder):
    """What adf-mount shows of an entry beside its bytes."""

    def put(self, name, **values):
        try:
            for attribute, value in values.items():
                os.setxattr(name, f"user.amiga.{attribute}", value)
        except OSError as error:
            self.skipTest(str(error))

    def test_are_taken(self):
        os.makedirs("f/c")
        for name in ("f/a", "f/b", "f/d"):
            written(name)
            os.utime(name, (946684800, 946684800))
        self.put("f/a", protection=b"hs--r-e-", comment="Bücher \\x5c\\x01".encode())
        self.put("f/b", protection=b"--------", comment=b"no")
        self.put("f/c", comment=b"folder")
        self.put("f/d", protection=b"--------", comment=b"kept")
        written("f/b.uaem", b"----rwed 2000-01-01 00:00:00.00 yes\n")
        written("f/d.uaem", b"----rwed")
        entries = adf.Volume(self.pack("ofs", "1760", "f"))
        self.assertEqual([(entries[name].protection, entries[name].raw_comment) for name in "abcd"], [
            (0xC5, b"B\xfccher \\\1"), (0, b"yes"), (0, b"folder"), (0, b"kept"),
        ])  # fmt: skip

    def test_are_refused_in_one_line(self):
        written("a")
        for values, told in (
            *(({"protection": b"rwed\n"}, "not as in: ----rwed"), ({"protection": b"----rwed", "comment": b"x" * 80}, "a comment of 80 bytes")),
            ({"protection": b"----rwed", "comment": b"\xff"}, "a comment that is not in UTF-8 or Latin-1"),
        ):
            self.put("a", **values)
            self.refused(1, f"./a: attribute user.amiga: {told}", "pack", "ofs", "1760", ".")


class Dates(Folder):
    def test_are_no_later_than_the_environment_says(self):
        os.mkdir("f")
        for name, seconds in (("f/old", 946684800), ("f/new", 2**33)):
            written(name)
            os.utime(name, (seconds, seconds))
        written("f/said")
        written("f/said.uaem", b"----rwed 2026-11-25 06:56:04.10 x")
        with mock.patch.dict(os.environ, {"SOURCE_DATE_EPOCH": "1000000000"}):
            volume = adf.Volume(self.pack("ofs", "1760", "f"))
        self.assertEqual([str(volume[name].date)[:19] for name in ("old", "new", "said")], [
            "2000-01-01 00:00:00", "2001-09-09 01:46:40", "2026-11-25 06:56:04",
        ])  # fmt: skip
        for text in ("", "x", "-1", "1.5", "1\n"):
            with mock.patch.dict(os.environ, {"SOURCE_DATE_EPOCH": text}):
                self.refused(2, "SOURCE_DATE_EPOCH: a number of seconds since 1970", "pack", "ofs", "1760", "f")

    def test_words_say_what_is_wanted(self):
        for words, told in (
            (("--image", "new", "--size", "880k", "f"), b"--size: a size as 880K, 100M or 1G, or a number of bytes that is a multiple of 512, and not '880k'"),
            (("--date", "x", "ofs", "1760", "f"), b"argument --date: a date as 2026-11-25"),
            (("ofs", "x", "f"), b"argument BLOCKS: a number of blocks of 512 bytes"),
        ):
            ran = self.run_tool("pack", *words)
            self.assertEqual((ran.returncode, told in ran.stderr), (2, True), ran.stderr)

    def test_takes_dates(self):
        os.mkdir("f")
        volume = adf.Volume(self.pack("--date", "2026-11-25 06:56:04.05", "--altered", "2026-11-25", "--created", "1:2:3", "ofs", "1760", "f"))
        self.assertEqual((volume.date, volume.altered, volume.created), ((17860, 416, 205), (17860, 0, 0), (1, 2, 3)))

    def test_refuses_what_is_no_date(self):
        for text in ("2026-11-25 06:56:04.99", "2026-11-25 06:56:04x05", "2026-11-25 06:56:04.-1", "2026-13-01", "1:2", "1:2:4294967296", "1977-12-31"):
            ran = self.run_tool("pack", "--date", text, "ofs", "1760", ".")
            self.assertEqual(ran.returncode, 2)
