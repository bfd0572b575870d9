"""Tests of adf-catalogue."""

import contextlib
import fcntl
import glob
import gzip
import hashlib
import html.parser
import os
import shutil
import signal
import sqlite3
import struct
import subprocess
import sys
import time
import unittest.mock
import zipfile
import zlib

import adf
from adf_tools import collection, database, processes, trees
from tests.shared import Folder, built, changed, image_of, written

OFS, SMALLEST = image_of(), built("volume ofs 4\n")
BAD = changed(OFS, 880, 440, 1)
UNPRIVILEGED = ["setpriv", "--bounding-set=-dac_override,-dac_read_search"]


class Page(html.parser.HTMLParser):
    """The tags, links and ids of a page, and its text."""

    def __init__(self, path):
        super().__init__()
        self.path, self.tags, self.ids, self.links = path, [], [], []
        with open(path, encoding="utf-8") as file:
            self.text = file.read()
        self.feed(self.text)

    def handle_starttag(self, tag, attributes):
        self.tags.append(tag)
        self.ids += [value for name, value in attributes if name == "id"]
        self.links += [value for name, value in attributes if name == "href"]
        for name, value in attributes:
            assert name not in ("src", "style", "xlink:href") and not name.startswith("on"), (self.path, name)
            if name == "href":
                assert os.path.isfile(os.path.join(os.path.dirname(self.path), value.partition("#")[0])), (self.path, value)


def rows_of(path):
    """The lines of a table, each a dictionary."""
    with open(path, encoding="utf-8") as file:
        heads, *lines = (line.split("\t") for line in file.read().split("\n")[:-1])
    assert all(len(line) == len(heads) for line in lines), path
    return [dict(zip(heads, line)) for line in lines]


def pages_of(out):
    return [Page(path) for path in sorted(glob.glob(f"{out}/images/*.html"))]


def trees_of(out):
    """The bytes of all files in a folder but a database, by their paths."""
    paths = [os.path.join(path, name) for path, _, names in os.walk(out) for name in names if name != database.NAME]
    found = {}
    for path in paths:
        with open(path, "rb") as file:
            found[os.path.relpath(path, out)] = file.read()
    return found


def long_answer(piece):
    """An answer that is too large to wait in memory."""
    return [piece] * 1000


class Catalogues(Folder):
    def catalogue(self, *words, status=0, told="", **more):
        """Runs adf-catalogue, which says nothing, or how many images are refused and not read."""
        ran = self.run_tool("catalogue", *words, **more)
        said = ran.stderr.decode()
        self.assertEqual((ran.returncode, ran.stdout), (status, b""), said)
        self.assertRegex(said, f"^adf-catalogue: .*{told}.*\n$" if status else "^$")

    def asked(self, out, query, *values):
        """The rows of a query."""
        with contextlib.closing(sqlite3.connect(f"{out}/{database.NAME}")) as connection:
            return connection.execute(query, values).fetchall()

    def verdicts(self, out):
        return {row["image"]: row["verdict"] for row in rows_of(f"{out}/images.tsv") if row["advice"] != "passed"}


class Pages(Catalogues):
    def test_has_a_page_for_each_image(self):
        os.makedirs("disks/games")
        for name, content in (
            *((b"bad_sum.adf", BAD), (b"a\tb\\c.adf", OFS), ("a\nbü.adf".encode(), OFS), (b"readme.txt", b"no image")),
            *((b"games/<script>alert(1)<.aDf", b"X" + OFS[1:]), (b"games/boot", SMALLEST)),
        ):
            written(b"disks/" + name, content)
        os.mkfifo("disks/pipe.adf")
        os.mkfifo("disks/pipe")
        self.catalogue("disks", "out", "--tsv", status=3, told="out/index.html: of 6 images 2 refused, 1 not read")
        index, pages = Page("out/index.html"), pages_of("out")
        self.assertEqual((index.tags.count("script"), len(pages), index.text.split('id="images"')[1].count("<tr>")), (1, 5, 7))
        self.assertEqual(sum(link.endswith("#found") for link in index.links), sum("found" in page.ids for page in pages))
        self.assertFalse(any("script" in page.tags for page in pages))
        self.assertTrue(all(page.tags.count("svg") == 1 for page in pages))
        bad = "block 880: bad sum"
        self.assertEqual(
            self.verdicts("out"),
            {
                **{"a\\x09b\\x5cc.adf": "ok", "a\\x0abü.adf": "ok", "bad_sum.adf": bad, "games/boot": "ok"},
                **{"games/<script>alert(1)<.aDf": "block 0: not dos", "pipe.adf": "read fault: not a file"},
            },
        )
        self.assertEqual({row["label"] for row in rows_of("out/images.tsv")}, {"Bücher", ""})
        states = [(row["path"], row["state"]) for row in rows_of("out/entries.tsv") if row["image"] == "bad_sum.adf"]
        self.assertEqual(sorted(states), [(path, "sound") for path in ("c", "c/readme", "empty", "large", "none")])
        (refused,) = (page.text for page in pages if "not dos" in page.text)
        self.assertIn("does not begin as a volume of this format", refused)
        self.assertIn("&lt;script&gt;alert(1)&lt;", refused.replace("<wbr>", ""))

    def test_counts_in_plain_words(self):
        os.mkdir("disks")
        sound = built("volume ofs 16\ndir 0:0:0 00000000 c\n")
        written("disks/sound.adf", sound)
        written("disks/bad.adf", changed(sound, 2, 323, 1))
        self.catalogue("disks", "out", "--rescue", status=1)
        bad, good = (page.text for page in pages_of("out"))
        self.assertIn("1 line; 0 of 1 entry sound", bad)
        self.assertIn("0 entries left out, 1 in doubt", bad)  # the checksum of the directory is wrong
        self.assertIn("1 directory, 0 files", good)
        self.assertIn("2 images, 1 sound", Page("out/index.html").text)

    def test_writes_tables_in_the_escape_form(self):
        os.mkdir("disks")
        written("disks/ü.adf", built(MANIFEST_OF_LETTERS))
        self.catalogue("--escape", "--tsv", "disks", "plain")
        self.catalogue("--tsv", "disks", "lettered")
        (plain,), (lettered,) = (rows_of(f"{out}/images.tsv") for out in ("plain", "lettered"))
        self.assertEqual((plain["image"], plain["label"]), ("\\xc3\\xbc.adf", "Gr\\xf6\\xdfe"))
        self.assertEqual((lettered["image"], lettered["label"]), ("ü.adf", "Größe"))
        self.assertEqual([rows_of(f"{out}/entries.tsv")[-1]["path"] for out in ("plain", "lettered")], ["B\\xfccher/gr\\xf6\\xdfe", "Bücher/größe"])

    def test_takes_any_text_for_its_filter(self):
        self.catalogue(".", "out")
        self.assertIn("try { return decodeURIComponent(text); } catch { return text; }", Page("out/index.html").text)

    def test_offers_new_volumes(self):
        os.mkdir("disks")
        written("disks/bad.adf", BAD)
        written("disks/zeros.adf", bytes(901120))
        self.catalogue("--rescue", "disks", "out", status=1)
        (path,) = glob.glob("out/images/*.adf")
        with open(path, "rb") as file:
            self.assertEqual(adf.check(file.read()).files, 3)
        self.assertTrue(any(f'href="{os.path.basename(path)}" download' in page.text for page in pages_of("out")))
        self.catalogue("disks", "out", status=1)
        self.assertEqual(glob.glob("out/images/*.adf"), [])


MANIFEST_OF_LETTERS = "volume ofs 1760\nlabel Gr\\xf6\\xdfe\ndir 0:0:0 00000000 B\\xfccher\nfile 0:0:0 00000000 B\\xfccher/gr\\xf6\\xdfe\n"


class Bounds(Catalogues):
    """What one small file can make a catalogue write."""

    def nested(self, depth):
        names = ("/".join(["d" * 30] * (level + 1)) for level in range(depth))
        return built(["volume ffs 4000", *(f"dir 0:0:0 00000000 {name}" for name in names)])

    def test_has_all_of_long_paths(self):
        os.mkdir("disks")
        written("disks/deep.adf", self.nested(1000))
        self.catalogue("disks", "out")
        (page,) = pages_of("out")
        self.assertLess(len(page.text), 10 << 20)
        self.assertEqual(page.text.partition("<caption>Entries")[2].count("<tr>") - 1, 1000)

    def test_has_all_of_findings(self):
        os.mkdir("disks")
        image = bytearray(self.nested(1000))
        for entry in adf.Volume(image).entries:
            image[512 * entry.header + 323] ^= 1
        written("disks/deep.adf", image)
        self.catalogue("disks", "out", "--rescue", status=1)
        (page,) = pages_of("out")
        self.assertLess(len(page.text), 30 << 20)
        self.assertNotIn("left out: <code>", page.text)

    def test_bounds_what_deleted_headers_take(self):
        """A sound floppy that is full of deleted directories, each in the one before, with long names: from the root their paths have 127 MB."""
        image, above = bytearray(built("volume ffs 1760\n")), 880
        for block in (*range(2, 880), *range(882, 1760)):
            header = bytearray(struct.pack(">2I424xB79s", 2, block, 79, bytes([1]) * 79))
            struct.pack_into(">I4xi", header, 500, above, 2)
            struct.pack_into(">I", header, 20, -sum(struct.unpack(">128I", header)) % 2**32)
            image[512 * block : 512 * (block + 1)], above = header, block
        os.mkdir("disks")
        written("disks/deep.adf", image)
        self.catalogue("disks", "out")
        self.assertEqual(self.asked("out", "SELECT verdict, deleted, deleted_whole FROM images"), [("ok", 1756, 1756)])
        self.assertLess(len(pages_of("out")[0].text), 10 << 20)

    def test_says_what_is_not_in_the_table(self):
        os.mkdir("disks")
        written("disks/many.adf", OFS)
        self.run_python("-c", "from adf_tools import catalogue, volumes; volumes.MOST_LETTERS = 300; catalogue.main()", "disks", "out", "--tsv")
        (row,), entries = rows_of("out/images.tsv"), rows_of("out/entries.tsv")
        self.assertEqual((int(row["unlisted"]) + len(entries), row["verdict"]), (5, "ok"))
        self.assertGreater(int(row["unlisted"]), 0)
        self.assertIn(f"the last {row['unlisted']} of the entries", pages_of("out")[0].text)

    def test_leaves_out_the_rest_of_an_archive(self):
        os.mkdir("disks")
        with zipfile.ZipFile("disks/many.zip", "w", zipfile.ZIP_DEFLATED) as archive:
            for number in range(9):
                archive.writestr(f"{number}.adf", SMALLEST)
        for limit, read, told in (
            ("archives.MOST_IMAGES = 4", 4, "5 of 9 images in it are left out"),
            (f"archives.MOST_UNPACKED = {len(SMALLEST) * 5}", 5, "4 of 9 images in it are left out"),
            ("reader.MOST_WRITTEN = 250", 0, "further images in it are left out"),
        ):
            line = f"from adf_tools import archives, catalogue, collection, reader; {limit}; catalogue.main()"
            ran = self.run_python("-c", line, "disks", "out", "--tsv")
            self.assertEqual(ran.returncode, 3)
            verdicts = self.verdicts("out")
            self.assertIn(told, verdicts.pop("many.zip"))
            self.assertEqual((set(verdicts.values()), read or len(verdicts)), ({"ok"}, len(verdicts)))
            self.assertIn(told, Page("out/index.html").text)
            shutil.rmtree("out")

    def test_goes_on_if_an_image_needs_too_much_memory(self):
        os.mkdir("disks")
        written("disks/a.adf", OFS)
        with open("disks/b.hdf", "wb") as file:
            file.truncate(500_000_000)
        self.catalogue("disks", "out", "--tsv", status=3, prefix=["prlimit", "--as=400000000"])
        self.assertEqual(self.verdicts("out"), {"a.adf": "ok", "b.hdf": "read fault: no memory"})

    def test_has_as_many_workers_as_memory_allows(self):
        with unittest.mock.patch.object(processes, "free_memory", lambda: 5 << 30), unittest.mock.patch.object(os, "sched_getaffinity", lambda _: range(16)):
            self.assertEqual([processes.workers(pieces, 1 << 30) for pieces in (0, 3, 99)], [1, 3, 5])
            self.assertEqual([processes.workers(99, need) for need in (1, 6 << 30)], [16, 1])

    def test_lets_large_answers_wait_in_files(self):
        os.mkdir("waiting")
        pieces, folder = range(40), os.open("waiting", os.O_RDONLY)
        self.addCleanup(os.close, folder)
        with unittest.mock.patch.multiple(processes, LARGE=1000, workers=lambda _pieces, _need: 3):
            answers = processes.in_order(long_answer, pieces, 1, folder)
            self.assertEqual([next(answers) for _ in range(3)], [long_answer(piece) for piece in pieces[:3]])
            time.sleep(0.5)
            self.assertGreater(len(os.listdir("waiting")), 10)
            self.assertEqual(list(answers), [long_answer(piece) for piece in pieces[3:]])
            self.assertEqual(os.listdir("waiting"), [])

    def test_gives_answers_in_order_however_many_there_are(self):
        for count in (2, 70, 500):
            with unittest.mock.patch.object(processes, "workers", lambda _pieces, _need: 2):
                self.assertEqual(list(processes.in_order(str, range(count), 1)), list(map(str, range(count))))

    def test_knows_the_memory_of_its_group(self):
        for name, text in (("memory.max", "3000\n"), ("memory.current", "1000\n"), ("meminfo", "MemTotal: 9 kB\nMemAvailable:  7 kB\n")):
            written(name, text.encode())
        with unittest.mock.patch.multiple(processes, MEMORY="meminfo", GROUP="."):
            self.assertEqual(processes.free_memory(), 2000)
            written("memory.max", b"max\n")
            self.assertEqual(processes.free_memory(), 7 * 1024)
            os.remove("meminfo")
            self.assertIsNone(processes.free_memory())


class Archives(Catalogues):
    def test_reads_images_in_archives(self):
        os.mkdir("packed")
        with zipfile.ZipFile("packed/a.zip", "w", zipfile.ZIP_DEFLATED) as archive:
            for name in ("../../out.adf", "x/B\xfc.ADF", "x.adf/"):
                archive.writestr(name, OFS)
            archive.writestr("lzma.adf", OFS, zipfile.ZIP_LZMA)
            archive.writestr("readme.txt", OFS)
        for name, content in (("b.adz", OFS), ("c.adf.gz", OFS), ("d.gz", OFS), ("notes.gz", b"no image"), ("empty.adz", b"")):
            written(f"packed/{name}", gzip.compress(content))
        with open("packed/a.zip", "rb") as file:
            written("packed/cut.zip", file.read()[:-9])
        written("packed/cut.adf.gz", gzip.compress(OFS)[:-9])
        with gzip.open("packed/long.adz", "wb", 1) as file:
            for _ in range(513):
                file.write(bytes(1 << 20))
        self.catalogue("packed", "out", "--tsv", status=3)
        self.assertEqual(
            [(row["image"], row["bytes"], row["verdict"]) for row in rows_of("out/images.tsv") if row["advice"] != "passed"],
            [
                *(("a.zip/../../out.adf", "901120", "ok"), ("a.zip/lzma.adf", "", "read fault: packed by a method that is not read")),
                *(("a.zip/x/Bü.ADF", "901120", "ok"), ("b.adz", "901120", "ok")),
                *(("c.adf.gz", "901120", "ok"), ("cut.adf.gz", "", "read fault: damaged archive")),
                *(("cut.zip", "", "read fault: damaged archive"), ("d.gz", "901120", "ok")),
                *(("empty.adz", "0", "block 0: bad size"), ("long.adz", "", "read fault: no volume, and more than 536870912 bytes: it is not unpacked")),
            ],
        )
        self.assertEqual(len(rows_of("out/entries.tsv")), 25)


class Folders(Catalogues):
    """What is below the folder, and what is not."""

    def put_deep(self, name, depth):
        """Puts an image below folders in folders with this name."""
        with trees.Place("disks") as place:
            for _ in range(depth):
                os.mkdir(name, dir_fd=place.fd)
                place.go_in(name)
            with place.create(b"a.adf") as file:
                file.write(SMALLEST)

    def test_says_why_a_folder_cannot_be_read(self):
        os.makedirs("disks/closed")
        written("disks/a.adf", OFS)
        os.chmod("disks/closed", 0)
        self.catalogue("disks", "out", "--tsv", status=3, prefix=UNPRIVILEGED if os.getuid() == 0 else [])
        self.assertEqual(self.verdicts("out"), {"a.adf": "ok", "closed": "read fault: Permission denied"})

    def test_goes_into_deep_folders_as_far_as_paths_go(self):
        os.mkdir("disks")
        self.put_deep(b"ddd", 1100)
        self.catalogue("disks", "out", "--tsv", status=3)
        (verdict,) = self.verdicts("out").values()
        self.assertEqual(verdict, "read fault: File name too long")
        trees.remove("disks")

    def test_reads_files_in_deep_folders(self):
        os.mkdir("disks")
        self.put_deep(b"d", 1100)
        self.catalogue("disks", "out", "--tsv")
        self.assertEqual(list(self.verdicts("out").values()), ["ok"])
        trees.remove("disks")

    def test_does_not_list_its_own_volumes(self):
        os.mkdir("disks")
        written("disks/bad.adf", BAD)
        for _ in range(2):
            self.catalogue("disks", "disks/out", "--tsv", "--rescue", status=1)
            self.assertEqual(list(self.verdicts("disks/out")), ["bad.adf"])
        written("disks/out/more.adf", OFS)
        self.catalogue("disks/out", "disks/out", "--tsv")
        self.assertEqual(list(self.verdicts("disks/out")), ["more.adf"])

    def test_does_not_list_what_another_run_makes(self):
        os.makedirs("disks/.adf-x/whole/images")
        written("disks/.adf-x/whole/images/bad.adf", BAD)
        self.assertEqual(collection.files_below(b"disks"), [])

    def test_follows_no_links_to_folders(self):
        os.makedirs("disks/real.adf")
        written("disks/real.adf/a.adf", OFS)
        os.symlink("real.adf", "disks/link.adf")
        os.symlink("nix", "disks/nix.adf")
        os.symlink("real.adf/a.adf", "disks/b.adf")
        self.assertEqual(collection.files_below(b"disks"), [b"disks/b.adf", b"disks/nix.adf", b"disks/real.adf/a.adf"])


class Again(Catalogues):
    """What a second run reads, and what it leaves."""

    def setUp(self):
        super().setUp()
        os.mkdir("disks")
        for number in range(12):
            written(f"disks/{number}.adf", BAD if number in (3, 7) else OFS)
        with gzip.open("disks/9.adf.gz", "wb") as file:
            file.write(OFS)

    def agrees(self):
        """A second run leaves what a first one would."""
        self.catalogue("disks", "again", "--tsv", status=1)
        shutil.rmtree("fresh", ignore_errors=True)
        self.catalogue("disks", "fresh", "--tsv", status=1)
        again = trees_of("again")
        own = again.pop("images/own.html", None)
        self.assertEqual(again, trees_of("fresh"))
        return own

    def read_again(self, *words, **more):
        """How many files the next run reads again."""
        self.catalogue("disks", "again", *words, status=1, **more)
        return self.asked("again", "SELECT read FROM runs ORDER BY id DESC")[0][0]

    def test_reads_what_has_changed_alone(self):
        self.agrees()
        self.assertEqual(self.read_again(), 0)
        written("disks/5.adf", BAD)
        self.assertEqual(self.read_again(), 1)
        self.agrees()
        os.rename("disks/4.adf", "four.adf")
        self.agrees()
        written("again/images/own.html", b"own")
        os.rename("four.adf", "disks/4.adf")
        self.assertEqual(self.agrees(), b"own")
        with open("again/entries.tsv", "r+b") as file:
            file.seek(99)
            file.write(b"X")
        self.agrees()
        os.remove(glob.glob("again/images/1*.html")[0])
        self.agrees()

    def test_keeps_lists_of_all_images_up_to_date(self):
        self.agrees()
        for change in (
            lambda: os.rename("disks/11.adf", "disks/0/eleven.adf"), lambda: written("disks/5.adf", changed(OFS, 1759, 0, 1)),
            lambda: written("disks/6.adf", adf.with_standard_boot(OFS)), lambda: written("disks/5.adf", changed(OFS, 1759, 0, 2)),
            lambda: os.remove("disks/1.adf"), lambda: written("disks/6.adf", OFS), lambda: written("disks/5.adf", BAD), lambda: os.remove("again/twice.html"),
            lambda: os.remove(glob.glob("again/search/i-*.js")[0]),
        ):  # fmt: skip
            os.makedirs("disks/0", exist_ok=True)
            change()
            self.agrees()
            self.assertEqual(self.asked("again", "SELECT COUNT(*) FROM parts_due"), [(0,)])

    def test_reads_a_floppy_that_was_swapped_under_one_date(self):
        self.agrees()
        found = os.stat("disks/5.adf")
        written("disks/5.adf", BAD)
        os.utime("disks/5.adf", ns=(found.st_atime_ns, found.st_mtime_ns))
        self.agrees()
        written("other.adf", OFS)
        os.utime("other.adf", ns=(found.st_atime_ns, found.st_mtime_ns))
        os.replace("other.adf", "disks/5.adf")
        self.agrees()
        self.assertEqual(self.verdicts("again")["5.adf"], "ok")

    def test_reads_all_again_if_that_is_wanted(self):
        self.agrees()
        self.assertEqual(self.read_again("--fresh"), 13)

    def test_reads_all_again_by_another_library(self):
        self.agrees()
        shutil.copy(adf.library_path(), "library.so")
        with open("library.so", "ab") as file:
            file.write(b"\0")
        self.assertEqual(self.read_again(library=os.path.abspath("library.so")), 13)
        self.assertEqual(self.read_again(library=os.path.abspath("library.so")), 0)

    def test_keeps_tables_up_to_date(self):
        self.agrees()
        written("disks/5.adf", BAD)
        self.catalogue("disks", "again", status=1)
        self.assertEqual(self.verdicts("again")["5.adf"], "block 880: bad sum")
        self.agrees()

    def test_leaves_no_two_runs_in_one_catalogue(self):
        self.agrees()
        whole = trees_of("again")
        held = os.open("again", os.O_RDONLY)
        fcntl.flock(held, fcntl.LOCK_EX)
        self.catalogue("disks", "again", status=3, told="again: another run is writing this catalogue")
        os.close(held)
        self.assertEqual(trees_of("again"), whole)

    def test_gives_the_same_by_one_processor(self):
        processor = str(min(os.sched_getaffinity(0)))
        self.catalogue("disks", "alone", "--tsv", status=1, prefix=["taskset", "-c", processor])
        self.catalogue("disks", "all", "--tsv", status=1)
        self.assertEqual(trees_of("alone"), trees_of("all"))


class Failures(Catalogues):
    def setUp(self):
        super().setUp()
        os.mkdir("disks")
        for number in range(40):
            written(f"disks/{number}.adf", OFS)

    def test_names_what_is_wrong(self):
        written("file")
        os.mkdir("there")
        for folder, out, told in (
            *(("nix", "out", "nix: No such file or directory"), ("file", "out", "file: Not a directory")),
            *(("disks", "there", "there: File exists"), ("disks", "nix/out", "nix/out: No such file or directory")),
        ):
            self.refused(3, told, "catalogue", folder, out)
        self.refused(3, "no shared library of adf", "catalogue", "disks", "out", library="nix")
        self.leaves("disks", "file", "there")

    def test_names_the_file_that_cannot_be_written(self):
        self.refused(3, "adf-catalogue: out/collection.sqlite: ", "catalogue", "disks", "out", prefix=["prlimit", "--fsize=512"])
        self.leaves("disks")
        self.catalogue("disks", "out")
        page = glob.glob("out/images/0-*.html")[0]
        os.remove(page)
        os.mkdir(page)
        written("disks/0.adf", BAD)
        self.refused(3, f"adf-catalogue: {page}: Is a directory", "catalogue", "disks", "out")

    def broken_off(self, number, part):
        """A run that gets a signal after a part of a second; gives its status and what it says on errors."""
        process = self.started("catalogue", "disks", "out", "--tsv")
        while not os.path.exists("out") and process.poll() is None:
            time.sleep(0.001)
        time.sleep(part)
        process.send_signal(number)
        errors = process.communicate(timeout=60)[1]
        return process.returncode, errors

    def test_is_taken_up_where_it_was_interrupted(self):
        self.catalogue("disks", "whole", "--tsv")
        for number, statuses in ((signal.SIGTERM, (0, 3, -signal.SIGTERM)), (signal.SIGKILL, (0, -signal.SIGKILL))):
            for part in (0, 0.05, 0.2, 0.4):
                status, errors = self.broken_off(number, part)
                self.assertIn(status, statuses)
                self.assertEqual(errors, b"adf-catalogue: interrupted\n" if status == 3 else b"")
                self.catalogue("disks", "out", "--tsv")
                self.assertEqual(trees_of("out"), trees_of("whole"))
                shutil.rmtree("out")

    def test_goes_on_with_what_was_read(self):
        line = "from adf_tools import catalogue, scan; scan.FILES = 7; catalogue.main()"
        self.run_python("-c", line, "disks", "out")
        self.assertEqual(self.asked("out", "SELECT read FROM runs"), [(40,)])
        with contextlib.closing(sqlite3.connect("out/collection.sqlite")) as connection, connection:
            connection.execute("DELETE FROM files WHERE path < '2'")
            connection.execute("UPDATE runs SET ended = NULL")
        self.catalogue("disks", "out")
        self.assertEqual(self.asked("out", "SELECT read, ended IS NULL FROM runs"), [(40, 1), (12, 0)])

    def test_leaves_a_catalogue_as_it_was(self):
        self.catalogue("disks", "out", "--tsv")
        whole = trees_of("out")
        written("disks/0.adf", BAD)
        self.refused(3, "adf-catalogue: out/", "catalogue", "disks", "out", prefix=["prlimit", "--fsize=512"])
        self.assertEqual(trees_of("out"), whole)


class Databases(Catalogues):
    """The database of a catalogue, whole and damaged."""

    def setUp(self):
        super().setUp()
        os.mkdir("disks")
        written("disks/a.adf", OFS)
        written("disks/bad.adf", BAD)
        with zipfile.ZipFile("disks/two.zip", "w") as archive:
            archive.writestr("b.adf", OFS)

    def test_keeps_what_is_known_of_each_image(self):
        self.catalogue("disks", "out", status=1)
        names = "name, member, bytes, crc32, md5, sha1, sha256, verdict, block, cause, kind, type, dirs, files, label, advice, lost"
        digests = (f"{zlib.crc32(OFS):08x}", *(hashlib.new(name, OFS).hexdigest() for name in ("md5", "sha1", "sha256")))
        rows = self.asked("out", f"SELECT {names} FROM images ORDER BY name")
        sound = (901120, *digests, "ok", None, None, "ofs", 0, 2, 3, "B\xfccher", "sound", 0)
        self.assertEqual((rows[0], rows[2]), (("a.adf", None, *sound), ("two.zip/b.adf", "b.adf", *sound)))
        self.assertEqual(rows[1][7:10] + rows[1][-5:], ("block 880: bad sum", 880, "bad sum", 2, 3, "B\xfccher", "read again", 0))
        self.assertEqual(self.asked("out", "SELECT first, last, cause, path FROM findings"), [(880, 880, "bad sum", None)])
        line = """SELECT path, size, protection, comment, state, entries.sha256 FROM entries JOIN images ON images.id = image
            WHERE name = ? AND path LIKE 'c/%'"""
        readme = hashlib.sha256(b"Hello\n").hexdigest()
        self.assertEqual(self.asked("out", line, "a.adf"), [("c/readme", 6, 15, "ein <\xdcbel>", "sound", readme)])
        self.assertEqual(self.asked("out", line, "bad.adf"), [("c/readme", 6, 15, "ein <\xdcbel>", "sound", readme)])
        self.assertEqual(self.asked("out", "SELECT COUNT(DISTINCT sha256), COUNT(*) FROM entries WHERE kind = 'file'"), [(3, 9)])
        self.assertEqual(self.asked("out", "PRAGMA user_version"), [(len(database.STEPS),)])
        self.assertEqual(self.asked("out", "PRAGMA integrity_check"), [("ok",)])

    def test_keeps_how_much_was_deleted_where_it_was_asked(self):
        written("disks/no.adf", b"X" * 901120)
        written("disks/cut.zip", b"no archive")
        self.catalogue("disks", "out", "--tsv", status=3)
        none = [(name, 0, 0) for name in ("a.adf", "bad.adf")]
        rows = self.asked("out", "SELECT name, deleted, deleted_whole FROM images ORDER BY name")
        self.assertEqual(rows, [*none, ("cut.zip", None, None), ("no.adf", 0, 0), ("two.zip/b.adf", 0, 0)])
        told = {row["image"]: (row["deleted"], row["deleted_whole"]) for row in rows_of("out/images.tsv") if row["advice"] != "passed"}
        self.assertEqual(told, {"a.adf": ("0", "0"), "bad.adf": ("0", "0"), "cut.zip": ("", ""), "no.adf": ("0", "0"), "two.zip/b.adf": ("0", "0")})

    def test_says_that_a_database_is_damaged_and_leaves_it(self):
        self.catalogue("disks", "out", "--tsv", status=1)
        with open("out/collection.sqlite", "rb") as file:
            whole = file.read()
        page = int.from_bytes(whole[16:18], "big")
        overwritten = whole[:page] + b"\xff" * page + whole[2 * page :], whole[:20] + b"\xff" * 80 + whole[100:]
        damages = b"no database at all" * 99, whole[: len(whole) // 2], *overwritten
        before = trees_of("out")
        written("disks/c.adf", OFS)
        for content in damages:
            written("out/collection.sqlite", content)
            self.refused(3, "out/collection.sqlite: ", "catalogue", "disks", "out")
            with open("out/collection.sqlite", "rb") as file:
                self.assertEqual(file.read(), content)
            self.assertEqual(trees_of("out"), before)
        written("out/collection.sqlite", whole)
        self.catalogue("disks", "out", status=1)
        self.assertEqual(self.verdicts("out")["c.adf"], "ok")

    def test_leaves_a_database_of_another_program_or_version(self):
        self.catalogue("disks", "out", status=1)
        for pragma, told in (("user_version = 99", "of version 99, and this program knows"), ("application_id = 7", "not the database of a catalogue")):
            with contextlib.closing(sqlite3.connect("out/collection.sqlite")) as connection:
                connection.execute(f"PRAGMA {pragma}")
            with open("out/collection.sqlite", "rb") as file:
                whole = file.read()
            self.refused(3, told, "catalogue", "disks", "out")
            with open("out/collection.sqlite", "rb") as file:
                self.assertEqual(file.read(), whole)

    def test_tells_what_a_database_is_made_of_as_sqlite_makes_it(self):
        for version in range(1, len(database.STEPS) + 1):
            self.assertEqual(database.told_schema(version), database.own_schema(version), version)

    def test_brings_an_older_version_to_this_one(self):
        self.catalogue("disks", "new", "--tsv", status=1)
        os.mkdir("old")
        with contextlib.closing(sqlite3.connect("old/collection.sqlite")) as connection:
            connection.executescript(database.STEPS[0] + f"PRAGMA user_version = 1; PRAGMA application_id = {database.APPLICATION};")
        self.catalogue("disks", "old", "--tsv", status=1)
        self.assertEqual(trees_of("old"), trees_of("new"))
        self.assertEqual(self.asked("old", "PRAGMA user_version"), [(len(database.STEPS),)])

    def test_takes_the_place_of_a_catalogue_without_a_database(self):
        os.mkdir("out")
        written("out/adf-catalogue.state", b"{}")
        self.catalogue("disks", "out", "--tsv", status=1)
        self.assertFalse(os.path.exists("out/adf-catalogue.state"))
        self.catalogue("disks", "new", "--tsv", status=1)
        self.assertEqual(trees_of("out"), trees_of("new"))

    def test_relies_on_nothing_that_a_database_says(self):
        self.catalogue("disks", "out", status=1)
        written("evil.html", b"own")
        with contextlib.closing(sqlite3.connect("out/collection.sqlite")) as connection, connection:
            connection.execute("UPDATE images SET page = '../evil.html', rescued = '../../etc', roles = x'00', is_shown = 0 WHERE name = 'a.adf'")
            connection.execute("UPDATE images SET label = '<script>', name = '<img src=x>', verdict = '<b>', is_shown = 0 WHERE name = 'bad.adf'")
            connection.execute("UPDATE images SET roles = ?, is_shown = 0 WHERE name LIKE 'two%'", (zlib.compress(bytes(50_000_000)),))
        ran = self.run_tool("catalogue", "disks", "out")
        self.assertIn(ran.returncode, (1, 3))
        with open("evil.html", "rb") as file:
            self.assertEqual(file.read(), b"own")
        for path in ("out/index.html", *glob.glob("out/images/*.html")):
            with open(path, encoding="utf-8") as file:
                self.assertNotRegex(file.read(), "<img|<b>|<script>[^\n]")

    def test_takes_any_name_for_its_folder(self):
        for name in (b"o?mode=memory", b"#x%41", b"\xff\xfe", "\u00fc ".encode(), b"a\nb"):
            self.catalogue("disks", name, status=1)
            self.assertTrue(os.path.isfile(name + b"/collection.sqlite"))
            self.assertEqual(self.run_tool("catalogue", "find", "readme", name).stdout.count(b"c/readme"), 3)

    def test_waits_for_a_program_that_asks(self):
        self.catalogue("disks", "out", status=1)
        with contextlib.closing(sqlite3.connect("out/collection.sqlite", isolation_level=None)) as connection:
            connection.execute("BEGIN EXCLUSIVE")
            line = "from adf_tools import catalogue, database; database.WAIT = 0.1; catalogue.main()"
            ran = self.run_python("-c", line, "disks", "out")
            self.assertEqual((ran.returncode, ran.stderr), (3, b"adf-catalogue: out/collection.sqlite: database is locked\n"))


class Terminals(Catalogues):
    def on_terminal(self, *words):
        """What is seen on a terminal."""
        line = "import pty, sys; pty.spawn(sys.argv[1:])"
        ran = subprocess.run(
            [sys.executable, "-c", line, sys.executable, "-m", "adf_tools.catalogue", *words],
            stdin=subprocess.DEVNULL, stdout=subprocess.PIPE, env=self.python(), timeout=300,
        )
        return ran.stdout.decode()

    def test_says_how_far_it_is(self):
        os.mkdir("disks")
        for number in range(20):
            written(f"disks/{number}.adf", OFS)
        for number in range(2):
            with zipfile.ZipFile(f"disks/{number}.zip", "w", zipfile.ZIP_DEFLATED) as archive:
                for disk in range(5):
                    archive.writestr(f"{disk}.adf", OFS)
        self.assertRegex(self.on_terminal("disks", "out", "--tsv"), "22 of 22 files, [0-9]+ a second, 0 s left")
        self.assertEqual(list(self.verdicts("out").values()), ["ok"] * 30)
        self.catalogue("disks", "again", "--tsv")
        self.assertEqual(trees_of("out"), trees_of("again"))
