"""Tests of adf-catalogue find, and of the queries of its manual page."""

import glob
import hashlib
import json
import os
import re
import shutil
import subprocess
import unittest
import zlib

import adf
from tests.samples import OFS, Asked, dat, disk, volume, without
from tests.shared import TOP, changed, written

PAGE = os.path.join(TOP, "docs", "adf-catalogue.1")


class Find(Asked):
    def setUp(self):
        super().setUp()
        self.catalogue("disks", "out", status=1)

    def test_finds_names_paths_comments_and_labels(self):
        lemmings = [("games/bad.adf", "lemmings"), ("games/copy.adf", "lemmings"), ("tools.adf", "lemmings")]
        startup = [(image, "s/startup-sequence") for image in ("games/bad.adf", "games/copy.adf", "tools.adf")]
        for words, found in (
            (["lemmings"], lemmings), (["LEMM"], lemmings), (["startup", "seq"], startup), (["startup-sequence"], startup), (["seq", "s"], startup),
            (["\xfcbel"], [("a.zip/B\xfc.adf", "c/readme")]), (["ein", "ubel"], [("a.zip/B\xfc.adf", "c/readme")]),
            (["bucher"], [("a.zip/B\xfc.adf", "")]), (["other"], [("other.adf", "")]), (["startup seq"], startup),
            (["EIN ubel"], [("a.zip/B\xfc.adf", "c/readme")]),
        ):  # fmt: skip
            self.assertEqual(self.find(*words, "out"), found, words)

    def test_takes_any_words(self):
        for words in (["nothing"], ['"'], ["-"], ["a OR b"], ["NEAR("], ["lemmings", "nothing"], ["*"], ["\u2028"], ["path:"], ["' OR 1"], [b"\xff"]):
            self.assertEqual(self.find(*words, "out", status=1), [], words)

    def test_finds_checksums(self):
        self.assertEqual(self.find("--sum", self.sum, "out"), [(name, "lemmings") for name in ("games/bad.adf", "games/copy.adf", "tools.adf")])
        with open("disks/tools.adf", "rb") as file:
            content = file.read()
        for digest in (f"{zlib.crc32(content):08X}", *(hashlib.new(name, content).hexdigest() for name in ("md5", "sha1", "sha256"))):
            self.assertEqual(self.find("--sum", digest, "out"), [("games/copy.adf", ""), ("tools.adf", "")])
        self.assertEqual(self.find("--sum", "0" * 64, "out", status=1), [])

    def test_refuses_words_that_ask_nothing(self):
        more = ["--deleted", "out"], ["--deleted", "--sum", self.sum, "out"], ["--deleted", "--text", "a", "out"], ["--sum", self.sum, "--text", "out"]
        for words in (["out"], ["--sum", "xyz", "out"], ["--sum", "0" * 9, "out"], ["--sum", self.sum, "word", "out"], [], *more):
            ran = self.run_tool("catalogue", "find", *words)
            self.assertEqual((ran.returncode, ran.stdout), (2, b""))
        self.refused(3, "nix/collection.sqlite: unable to open database file", "catalogue", "find", "a", "nix")
        self.refused(3, "contents are found only if --index-text was given once", "catalogue", "find", "--text", "hello", "out")

    def test_writes_json_lines(self):
        ran = self.tool("catalogue", "find", "--json", "lemmings", "out")
        rows = [json.loads(line) for line in ran.splitlines()]
        found = [(row["image"], row["path"], row["size"], row.get("sha256")) for row in rows]
        self.assertEqual(found, [(name, "lemmings", 600, self.sum) for name in ("games/bad.adf", "games/copy.adf", "tools.adf")])

    def test_finds_what_has_come_and_not_what_has_gone(self):
        os.remove("disks/tools.adf")
        written("disks/new.adf", volume(("turrican", b"x")))
        self.catalogue("disks", "out", status=1)
        self.assertEqual(self.find("turrican", "out"), [("new.adf", "turrican")])
        self.assertEqual(self.find("--sum", self.sum, "out"), [("games/bad.adf", "lemmings"), ("games/copy.adf", "lemmings")])

    def test_finds_texts_where_they_are_kept(self):
        self.catalogue("--index-text", "disks", "out", status=1)
        startup = [(image, "s/startup-sequence") for image in ("games/bad.adf", "games/copy.adf", "tools.adf")]
        self.assertEqual(self.find("--text", "HELLO", "wor", "out"), startup)
        self.assertEqual(self.find("--text", "nothing", "out", status=1), [])
        written("disks/new.adf", volume(("readme", b"gr\xfc\xdfe\n"), ("binary", b"gr\xfc\xdfe\0")))
        os.remove("disks/tools.adf")
        self.catalogue("disks", "out", status=1)
        self.assertEqual(self.find("--text", "gr\xfc\xdfe", "out"), [("new.adf", "readme")])
        self.assertEqual(self.find("--text", "hello", "out"), [("a.zip/B\xfc.adf", "c/readme"), *startup[:2]])

    def test_finds_what_was_deleted(self):
        letter = volume(("letter", b"Dear all\n" * 99), ("lemmings", b"x"), label="Gone")
        written("disks/gone.adf", without(letter, "letter"))
        written("disks/games/gone bad.adf", changed(without(letter, "letter"), 880, 440, 1))
        self.catalogue("disks", "out", status=1)
        self.assertEqual(self.find("--deleted", "LETT", "out"), [("games/gone bad.adf", "letter"), ("gone.adf", "letter")])
        self.assertEqual(self.find("letter", "out", status=1), [])
        self.assertEqual(self.find("--deleted", "lemmings", "out", status=1), [])
        rows = [json.loads(line) for line in self.tool("catalogue", "find", "--deleted", "--json", "letter", "out").splitlines()]
        told = {"path": "letter", "kind": "file", "size": 891, "date": "2000-01-01 00:00:00.00", "state": "whole", "block": adf.Volume(letter)["letter"].header}
        self.assertEqual(rows, [{"image": image, **told} for image in ("games/gone bad.adf", "gone.adf")])
        with open("disks/gone.adf", "rb") as file:
            self.assertEqual(adf.survey(file.read()).deleted[0].read(), b"Dear all\n" * 99)
        line = "from adf_tools import catalogue, deletions; deletions.MOST_TOLD = 150; catalogue.main()"
        many = without(without(volume(("letter", b"x"), ("note", b"x"), ("draft", b"x")), "letter"), "note")
        written("disks/many.adf", without(many, "draft"))
        self.assertEqual(self.run_python("-c", line, "disks", "out").returncode, 1)
        self.assertEqual(self.asked("out", "SELECT verdict, deleted FROM images WHERE name = 'many.adf'"), [("ok", None)])
        self.assertEqual(self.find("--deleted", "draft", "out", status=1), [])
        os.remove("disks/many.adf")
        written("disks/gone.adf", letter)
        self.catalogue("disks", "out", status=1)
        self.assertEqual(self.find("--deleted", "letter", "out"), [("games/gone bad.adf", "letter")])
        self.assertEqual(self.find("letter", "out"), [("gone.adf", "letter")])

    def test_loads_what_it_needs_alone(self):
        line = "import sys; from adf_tools import find; print([name for name in ('adf', 'ctypes', 'multiprocessing') if name in sys.modules])"
        self.assertEqual(self.run_python("-c", line).stdout, b"[]\n")

    def test_leaves_a_database_that_cannot_be_asked(self):
        written("out/collection.sqlite", b"no database" * 99)
        self.refused(3, "out/collection.sqlite: damaged", "catalogue", "find", "a", "out")


def queries():
    """The queries of the manual page."""
    with open(PAGE, encoding="utf-8") as file:
        blocks = re.findall(r"^\.Bd[^\n]*\n(.*?)^\.Ed", file.read(), re.DOTALL | re.MULTILINE)
    return [block.replace("\\e", "\\") for block in blocks if block.startswith("SELECT")]


class Queries(Asked):
    """The queries of the manual page, each with what it has to find here."""

    def test_find_what_the_page_says(self):
        with open("disks/tools.adf", "rb") as file:
            tools = bytearray(file.read())
        tools[512 * 1700 : 512 * 1701] = b"X" * 512
        written("disks/free.adf", tools)
        written("disks/cut.adf", OFS[: 512 * 1700])
        written("disks/disk.hdf", disk(volume(blocks=64, label="Work"), changed(volume(blocks=64, label="Bad"), 32, 440, 1)))
        written("disks/start.adf", adf.with_standard_boot(volume(("x", b""), label="Start")))
        written("disks/gone.adf", without(volume(("letter", b"Dear all\n"), label="Gone"), "letter"))
        other = f"{zlib.crc32(b'no volume'.ljust(1024, bytes(1))):08x}"
        written("list.dat", dat(("Tools.adf", OFS)))
        self.catalogue("--dat", "list.dat", "disks", "out", status=1)
        startup = [(image, "s/startup-sequence") for image in ("free.adf", "games/bad.adf", "games/copy.adf", "tools.adf")]
        with open("disks/tools.adf", "rb") as file:
            same = hashlib.sha256(file.read()).hexdigest()
        expected = {
            "path LIKE": startup,
            "HAVING COUNT(*) > 1": [(same, 2, "games/copy.adf, tools.adf")],
            "COUNT(DISTINCT sha256) > 1": [("free.adf, games/copy.adf, tools.adf",)],
            "MIN(path)": [(4, "lemmings"), (4, "s/startup-sequence"), (2, "c/readme"), (2, "large")],
            "advice = 'read again'": [("disk.hdf/DH1", "block 32: bad sum", 0, 1), ("games/bad.adf", "block 880: bad sum", 0, 1)],
            "FROM deleted": [("gone.adf", adf.Volume(volume(("letter", b"Dear all\n")))["letter"].header, "letter")],
            "GROUP BY cause": [("bad sum", 2), ("bad type", 1), ("not dos", 1)],
            "fits": [("cut.adf", 870400, 901120)],
            "known = 'differs'": [("tools.adf", "Tools.adf (list.dat)")],
            "boot, COUNT": [("b442e953", "no-code", 9), ("01261547", "bootable", 1), (other, "not-dos", 1)],
            "boot = 'bootable'": [("start.adf", "01261547")],
            "partitions": [("disk.hdf", "DH0", "ofs", "ok"), ("disk.hdf", "DH1", "ofs", "block 32: bad sum")],
        }
        found = queries()
        self.assertEqual(len(found), 13)
        for word, rows in expected.items():
            (query,) = [query for query in found if word in query]
            self.assertEqual(self.asked("out", query), rows, query)
            found.remove(query)
        (query,) = found
        names = sorted(os.path.relpath(path, "disks") for path in glob.glob("disks/**/*.*", recursive=True))
        self.assertEqual(sorted(row[0] for row in self.asked("out", query)), names)

    @unittest.skipUnless(shutil.which("sqlite3"), "needs sqlite3")
    def test_are_taken_by_sqlite3(self):
        self.catalogue("disks", "out", status=1)
        for query in queries():
            subprocess.run(["sqlite3", "-readonly", "out/collection.sqlite", query], check=True, stdout=subprocess.PIPE)
