"""Tests of adf-catalogue with folders, databases and files that somebody has prepared."""

import ast
import contextlib
import fcntl
import glob
import gzip
import hashlib
import os
import re
import socket
import sqlite3
import struct
import unittest.mock
import zipfile
import zlib

import adf
from adf_tools import content, database, image_pages, markup, program, trees
from adf_tools.reader import page_name
from tests.samples import BAD, OFS, disk, icon, volume
from tests.shared import HERE, changed, written
from tests.test_catalogue import Catalogues, Page, trees_of

TOOLS = os.path.join(os.path.dirname(HERE), "adf_tools")
MARKUP = "'\"><script>alert(1)</script><img src=x onerror=alert(1)>&\x1b]0;x\x07\x9b"
FILE_SUMS = ("bytes", "crc32", "md5", "sha1", "sha256")
NEWER, NEWER_COLUMNS = ("sums", "passed", "lists", "written", "deleted", "deleted_words"), ("form", "lost_least", "judged", "deleted", "deleted_whole")
FIRST_RUN = """
import contextlib, fcntl, os
from adf_tools import catalogue, update
made = update.new_folder
@contextlib.contextmanager
def new_folder(path):
    with made(path) as folder:
        yield folder
    {}
update.new_folder = new_folder
catalogue.main()
"""


def read(path):
    with open(path, "rb") as file:
        return file.read()


class Links(Catalogues):
    """What stands in the folder of a catalogue, and is not of it."""

    def setUp(self):
        super().setUp()
        os.mkdir("disks")
        os.mkdir("victim")
        written("disks/a.adf", OFS)
        written("victim/kept", b"kept")
        written("rc", b"rc")

    def unharmed(self):
        self.assertEqual((read("victim/kept"), read("rc"), os.listdir("victim")), (b"kept", b"rc", ["kept"]))

    def test_follows_none_that_it_finds(self):
        self.catalogue("disks", "out", "--tsv")
        (page,) = glob.glob("out/images/a-adf-*.html")
        for name in ("index.html", "twice.html", "images.tsv", page[len("out/") :]):
            os.symlink(os.path.abspath("rc"), f"out/{name}.new")
        os.symlink("../victim", "out/.adf-x")
        os.remove("out/index.html")
        os.symlink("../rc", "out/index.html")
        written("disks/a.adf", BAD)
        self.catalogue("disks", "out", "--rescue", status=1)
        self.unharmed()
        self.assertFalse(os.path.islink("out/index.html"))
        self.assertTrue(os.path.islink("out/.adf-x"))

    def test_leaves_a_file_of_others_that_has_the_name_of_a_page(self):
        self.catalogue("disks", "out")
        written("disks/b.adf", OFS)
        page = "out/" + page_name(b"b.adf", 0)
        written(page, b"mine")
        self.refused(3, "and it is not of this catalogue", "catalogue", "disks", "out")
        self.assertEqual(read(page), b"mine")
        os.remove(page)
        self.catalogue("disks", "out")

    def test_leaves_it_where_many_pages_are_new(self):
        line = "from adf_tools import catalogue, out_folder; out_folder.MANY = 3; catalogue.main()"
        self.assertEqual(self.run_python("-c", line, "disks", "out").returncode, 0)
        for name in "bcde":
            written(f"disks/{name}.adf", OFS)
        page = "out/" + page_name(b"d.adf", 0)
        for make in (lambda: written(page, b"mine"), lambda: os.symlink("nix", page)):
            make()
            ran = self.run_python("-c", line, "disks", "out")
            self.assertEqual(ran.returncode, 3)
            self.assertIn(b"and it is not of this catalogue", ran.stderr)
            os.remove(page)
        self.assertEqual(self.run_python("-c", line, "disks", "out").returncode, 0)
        self.assertEqual(len(glob.glob("out/images/*.html")), 5)

    def test_refuses_links_in_place_of_its_own_folders(self):
        self.catalogue("disks", "out")
        for name, told in (("images", "out/images: Not a directory"), ("search", "out/search: Not a directory"), (database.NAME, "not a file")):
            os.rename(f"out/{name}", "aside")
            os.symlink(os.path.abspath("aside" if name == database.NAME else "victim"), f"out/{name}")
            self.refused(3, told, "catalogue", "disks", "out")
            os.remove(f"out/{name}")
            os.rename("aside", f"out/{name}")
        os.symlink("../rc", f"out/{database.NAME}-journal")
        self.refused(3, "not a file", "catalogue", "disks", "out")
        self.unharmed()

    def test_leaves_files_and_folders_of_others(self):
        self.catalogue("disks", "out", "--rescue")
        os.mkdir("out/.adf-mine")
        names = ["list-favourites.html", "list-read-again-2.html", ".adf-note", ".adf-mine/note", "images/x-0123456789abcdef.html", "search/abc.js"]
        for name in names:
            written(f"out/{name}", b"mine")
        os.remove("disks/a.adf")
        written("disks/b.adf", BAD)
        self.catalogue("disks", "out", status=1)
        self.assertEqual([read(f"out/{name}") for name in names], [b"mine"] * len(names))
        self.assertEqual(len(glob.glob("out/images/*-adf-*")), 1)

    def test_writes_over_nothing_of_others(self):
        self.catalogue("disks", "out")
        written("out/list-read-again.html", b"mine")
        written("out/images.tsv", b"mine")
        self.refused(3, "out/images.tsv: File exists, and it is not of this catalogue", "catalogue", "disks", "out", "--tsv")
        written("disks/a.adf", BAD)
        self.refused(3, "out/list-read-again.html: File exists, and it is not of this catalogue", "catalogue", "disks", "out")
        self.assertEqual((read("out/images.tsv"), read("out/list-read-again.html")), (b"mine", b"mine"))

    def test_removes_what_a_killed_run_has_left(self):
        self.catalogue("disks", "out")
        with contextlib.closing(sqlite3.connect("out/collection.sqlite")) as connection, connection:
            connection.execute("INSERT INTO written VALUES (?), ('../victim/kept'), ('/etc/passwd'), ('.adf-own/')", (".adf-" + "0" * 32 + "/",))
        for name in (".adf-" + "0" * 32, ".adf-own"):
            os.mkdir(f"out/{name}")
            os.symlink("../../victim", f"out/{name}/link")
            written(f"out/{name}/half", b"half")
        self.catalogue("disks", "out")
        self.assertEqual(glob.glob("out/.adf-*"), ["out/.adf-own"])
        self.unharmed()

    def test_takes_the_files_of_an_earlier_version_for_its_own(self):
        self.catalogue("disks", "out", "--tsv")
        with contextlib.closing(sqlite3.connect("out/collection.sqlite")) as connection, connection:
            connection.executescript("".join(f"DROP TABLE {name};" for name in NEWER) + "PRAGMA user_version = 5")
            for column in (*(f"images {name}" for name in NEWER_COLUMNS), *(f"files {name}" for name in FILE_SUMS), "known status"):
                connection.execute("ALTER TABLE {} DROP COLUMN {}".format(*column.split()))
        os.remove("disks/a.adf")
        written("disks/b.adf", BAD)
        written("out/list-favourites.html", b"mine")
        self.catalogue("disks", "out", status=1)
        self.catalogue("disks", "fresh", "--tsv", status=1)
        self.assertEqual(read("out/list-favourites.html"), b"mine")
        os.remove("out/list-favourites.html")
        self.assertEqual(trees_of("out"), trees_of("fresh"))

    def test_writes_to_no_folder_that_is_another_one_by_now(self):
        os.mkdir("out")
        with unittest.mock.patch.object(fcntl, "flock", lambda *_words: (os.rename("out", "gone"), os.mkdir("out"))):
            with self.assertRaisesRegex(program.Stop, "another run is writing this catalogue"):
                database.lock("out", os.O_DIRECTORY)

    def test_has_its_folder_alone_from_the_first_moment(self):
        lock = "with contextlib.suppress(BlockingIOError): fcntl.flock(os.open(path, os.O_RDONLY), fcntl.LOCK_EX | fcntl.LOCK_NB)"
        ran = self.run_python("-c", FIRST_RUN.format(lock), "disks", "out")
        self.assertEqual((ran.returncode, ran.stderr, os.path.isfile("out/index.html")), (0, b"", True))

    def test_removes_of_a_first_run_what_it_made(self):
        os.mkdir("none")
        ran = self.run_python("-c", FIRST_RUN.format("open(path + '/mine', 'w').close()"), "--dat", "nix", "none", "out")
        self.assertEqual((ran.returncode, os.listdir("out")), (3, ["mine"]))
        self.refused(3, "nix: No such file", "catalogue", "--dat", "nix", "none", "again")
        self.assertFalse(os.path.exists("again"))

    def test_waits_for_no_pipe(self):
        self.catalogue("disks", "out")
        for name in ("index.html", "twice.html"):
            os.remove(f"out/{name}")
            os.mkfifo(f"out/{name}")
        self.catalogue("disks", "out")
        self.assertTrue(os.path.isfile("out/index.html"))


class Strange(Catalogues):
    """Databases from elsewhere."""

    def part(self, path, script="", **columns):
        """The database of a part, as its one scan would write it, but for these columns of its image, and what this script does."""
        row = dict(file=1, name="a.adf", number=0, page="images/a-adf-0123456789abcdef.html", bytes=901120, advice="sound", verdict="ok", kind="ofs")
        row.update(blocks=1760, used=3, free=1757, dirs=0, files=1, label="L", sha256="0" * 64, root="d", altered="d", created="d")
        row.update(columns)
        with database.opened(path, True) as connection:
            connection.executescript("""INSERT INTO facts VALUES ('part', '1/1'), ('reader', 'x'), ('title', 'Try');
                INSERT INTO runs (begun, program) VALUES ('a', 'b');
                INSERT INTO files (path, size, altered_ns, inode, changed_ns, run) VALUES ('a.adf', 1, 1, 1, 1, 1)""")
            line = f"INSERT INTO images ({', '.join(row)}) VALUES ({', '.join('?' * len(row))})"
            connection.execute(line, tuple(row.values()))
            connection.execute("""INSERT INTO entries (image, kind, path, size, protection, date, comment, header, state, sha256)
                VALUES (1, 'file', 'x', 1, 0, 'd', 'c', 5, 'sound', '1')""")
            connection.executescript(script)
        return path

    def test_is_escaped_on_every_page(self):
        texts = ("name", "label", "kind", "verdict", "cause", "root", "altered", "created", "crc32", "md5", "sha1", "sha256", "tree", "boot_crc32", "boot")
        rows = f"""UPDATE entries SET kind = {quoted(MARKUP)}, path = {quoted(MARKUP)}, date = {quoted(MARKUP)}, comment = {quoted(MARKUP)};
            UPDATE facts SET value = {quoted(MARKUP)} WHERE name = 'title';
            INSERT INTO findings (image, first, last, cause, path, owner) VALUES (1, 1, 2, {', '.join([quoted(MARKUP)] * 3)});
            INSERT INTO deleted (image, block, state, kind, path, size, protection, date, comment)
                VALUES (1, 9, {', '.join([quoted(MARKUP)] * 3)}, 1, 2, {', '.join([quoted(MARKUP)] * 2)});
            INSERT INTO icons (image, path, width, height, palette, pixels) VALUES (1, {quoted(MARKUP)}, 1, 1, 0, x'{zlib.compress(bytes(1)).hex()}');
            INSERT INTO partitions (disk, number, name, kind, first, blocks, flags, priority, block, fault)
                VALUES (1, 1, {quoted(MARKUP)}, {quoted(MARKUP)}, 0, 9, 0, 0, 0, {quoted(MARKUP)})"""
        for verdict, kind in (("ok", MARKUP), (MARKUP, MARKUP), (MARKUP, "disk")):
            columns = {**dict.fromkeys(texts, MARKUP), "verdict": verdict, "kind": kind, "faults": 1, "deleted": 1, "advice": "read again"}
            self.catalogue("merge", "out", self.part("part", rows, **columns), "--tsv", status=int(verdict != "ok"))
            pages = glob.glob("out/**/*.html", recursive=True)
            self.assertEqual(len(pages), 4)
            for path in pages:
                tags = Tags(path)
                self.assertEqual((tags.wrong, tags.count("img"), tags.count("script")), ([], 0, int("list-" in path or "index" in path)), path)
                self.assertNotRegex(tags.text, "[\x07\x1b\x9b]")
            for path in glob.glob("out/search/*.js"):
                self.assertNotRegex(read(path).decode("ascii"), "[<>]")
            self.assertEqual({len(line.split("\t")) for line in read("out/images.tsv").decode().split("\n")[:-1]}, {34})
            os.rename("out", f"out{verdict == 'ok'}{kind == 'disk'}")
            os.remove("part")

    def test_is_refused_if_it_has_another_schema(self):
        endless = "WITH RECURSIVE endless (x) AS (SELECT 1 UNION ALL SELECT x + 1 FROM endless)"
        for script in (
            f"ALTER TABLE findings RENAME TO real; CREATE VIEW findings AS {endless} SELECT x AS id, 1 AS image, x AS first, x AS last FROM endless",
            "CREATE TRIGGER t AFTER INSERT ON runs BEGIN DELETE FROM files; END",
            "CREATE VIRTUAL TABLE v USING fts5 (x)", "ALTER TABLE images ADD COLUMN more TEXT", "DROP TABLE icons", "CREATE INDEX i ON images (hex(name))",
        ):  # fmt: skip
            part = self.part("part", script)
            for words in (["merge", "out", part], ["scan", "1/1", ".", part]):
                self.refused(3, "part: not the database of a catalogue: ", "catalogue", *words)
            os.makedirs("own", exist_ok=True)
            os.rename(part, "own/collection.sqlite")
            for words in (["find", "x", "own"], [".", "own"]):
                self.refused(3, "own/collection.sqlite: not the database of a catalogue: ", "catalogue", *words)

    def test_is_refused_if_a_value_has_another_type(self):
        os.mkdir("own")
        for column, value in (("dirs", "a text"), ("bytes", MARKUP), ("label", b"bytes"), ("roles", "a text"), ("fits", 7.5)):
            part = self.part("part", **{column: value})
            self.refused(3, "part: damaged: images has a value of another type than its column", "catalogue", "merge", "out", part)
            os.rename(part, "own/collection.sqlite")
            self.refused(3, "own/collection.sqlite: damaged: images has a value of another type", "catalogue", ".", "own")
            os.remove("own/collection.sqlite")

    def test_is_refused_if_it_is_not_text(self):
        self.part("part", "UPDATE images SET label = CAST(x'ff1b5d' AS TEXT)")
        self.refused(3, "part: damaged", "catalogue", "merge", "out", "part")
        written("part", read("part").replace(b"CREATE TABLE runs", b"CREATE TABLE \xff\xff\xff ("))
        self.refused(3, "part: damaged", "catalogue", "merge", "out", "part")

    def test_removes_no_file_that_its_journal_names(self):
        self.part("part")
        written("victim", b"kept")
        name = os.path.abspath("victim").encode()
        end = struct.pack(">2I", len(name), sum(name)) + database.JOURNAL_MARK
        head = database.JOURNAL_MARK + struct.pack(">5I", 0, 0, os.path.getsize("part") // 4096, 512, 4096)
        written("part-journal", head.ljust(512, b"\0") + struct.pack(">I", 2**30 // 4096 + 1) + name + end)
        os.mkdir("own")
        for end in ("", "-journal"):
            written(f"own/collection.sqlite{end}", read(f"part{end}"))
        self.refused(3, "own/collection.sqlite: its journal is of another program", "catalogue", "find", "x", "own")
        self.refused(3, "own/collection.sqlite: its journal is of another program", "catalogue", ".", "own")
        self.refused(3, "part: a run is writing it, or was broken off", "catalogue", "merge", "out", "part")
        self.assertEqual(read("victim"), b"kept")

    def test_has_numbers_of_any_size(self):
        last = 2**63 - 1
        self.part("part", f"UPDATE entries SET id = {last}, header = -{last}, size = {last}; INSERT INTO text_words (rowid, content) VALUES ({last}, 'hello')",
                  fits=last, blocks=-last, used=last, block=-last, faults=last)  # fmt: skip
        for verdict in ("ok", "block 1: x"):
            with database.opened("part") as connection:
                connection.execute("UPDATE images SET verdict = ?, advice = 'read again'", (verdict,))
            self.catalogue("merge", "out", "part", status=int(verdict != "ok"))
            self.assertEqual(self.asked("out", "SELECT path, content FROM entries JOIN text_words ON text_words.rowid = entries.id"), [("x", "hello")])
            os.rename("out", f"out-{verdict}")

    def test_has_each_file_once(self):
        self.part("one", "UPDATE facts SET value = '1/2' WHERE name = 'part'")
        self.part("two", "UPDATE facts SET value = '2/2' WHERE name = 'part'")
        self.refused(3, "two: a.adf is in one too", "catalogue", "merge", "out", "one", "two")

    def test_prints_what_a_terminal_shows(self):
        out = self.part("part", label="x" + MARKUP, name="\u202ex" + MARKUP)
        os.mkdir("out")
        os.rename(out, "out/collection.sqlite")
        with database.opened("out/collection.sqlite") as connection:
            connection.execute("INSERT INTO image_words (rowid, name, label) SELECT id, name, label FROM images")
        for words in (["x"], ["--json", "x"]):
            said = self.tool("catalogue", "find", *words, "out").decode()
            self.assertNotRegex(said, "[\x00-\x08\x0b-\x1f\x7f-\x9f\u202e]")
            self.assertEqual(said.count("\n"), 1)


def quoted(text):
    return "'" + text.replace("'", "''") + "'"


class Tags(Page):
    """The tags of a page, and those that a text of a database has made."""

    def __init__(self, path):
        self.wrong = []
        super().__init__(path)

    def count(self, tag):
        return self.tags.count(tag)

    def handle_starttag(self, tag, attributes):
        self.wrong += [name for name, _ in attributes if name.startswith("on") or name == "src"]
        super().handle_starttag(tag, [(name, value) for name, value in attributes if name != "href" or "find=" not in (value or "")])


class Templates(unittest.TestCase):
    """What the modules say that write pages."""

    def trees(self):
        for path in glob.glob(f"{TOOLS}/*.py"):
            yield os.path.basename(path), ast.parse(read(path))

    def test_escape_what_they_are_given(self):
        self.assertEqual(markup.html('<a href="{x}">{y}</a>', x="'\"<&\x1b", y=markup.html("<b>{z}</b>", z=">")),
                         '<a href="&#x27;&quot;&lt;&amp;\\x1b"><b>&gt;</b></a>')  # fmt: skip
        self.assertEqual(markup.link("javascript:a b/\u00e4.html", "x/y", 'find="#'), '<a href="javascript%3Aa%20b/%C3%A4.html#find=%22%23">x/<wbr>y</a>')
        self.assertEqual(markup.shown(markup.Html("<b>")), "&lt;b&gt;")

    def test_make_html_of_own_texts_alone(self):
        for name, tree in self.trees():
            for node in ast.walk(tree):
                if isinstance(node, ast.Call) and isinstance(node.func, ast.Name) and node.func.id == "Html" and name != "markup.py":
                    self.assertIsInstance(node.args[0], ast.Constant, f"{name}:{node.lineno}")
                if isinstance(node, ast.JoinedStr) and name not in ("picture.py", "markup.py"):
                    texts = [part.value for part in node.values if isinstance(part, ast.Constant)]
                    self.assertFalse([text for text in texts if re.search("<[a-z/!]", text)], f"{name}:{node.lineno}")

    def test_have_quotes_round_attributes(self):
        for name, tree in self.trees():
            for node in ast.walk(tree):
                if isinstance(node, ast.Constant) and isinstance(node.value, str) and re.search("<[a-z]", node.value):
                    self.assertNotRegex(node.value, r"<[a-z][^>]*=[{']", f"{name}:{node.lineno}")


class Deep(Catalogues):
    """An image of 880 KB that has nothing but directories in directories, whose names have no letters."""

    def setUp(self):
        super().setUp()
        name = b"\x1b" * 30
        self.image = adf.build("ffs", 1760, [adf.Addition(b"/".join([name] * depth)) for depth in range(1, 1757)])
        os.mkdir("disks")
        written("disks/a.adf", self.image)

    def test_has_pages_in_proportion(self):
        for image, status in ((self.image, 0), (changed(self.image, 880, 440, 1), 1)):
            written("disks/a.adf", image)
            self.catalogue("disks", "out", "--tsv", status=status)
            (path,) = glob.glob("out/images/*.html")
            self.assertLess(os.path.getsize(path), 8 << 20)
            self.assertLess(sum(os.path.getsize(os.path.join(above, name)) for above, _, names in os.walk("out") for name in names), 32 << 20)
            paths = [path for path, in self.asked("out", "SELECT path FROM entries ORDER BY LENGTH(path)")]
            self.assertEqual((len(paths), paths[0], paths[-1][:7]), (1756, "\\x1b" * 30, "\\block "))
            self.assertLessEqual(len(paths[-1]), 1024)

    def test_is_unpacked_with_its_names(self):
        self.tool("unpack", "disks/a.adf", "new")
        with trees.Place("new") as place:
            for _ in range(1756):
                place.go_in(b"\\x1b" * 30)
        trees.remove("new")

    def test_is_surveyed_with_short_paths(self):
        damaged = changed(self.image, 880, 440, 1)
        self.assertLessEqual(max(len(found.path) for found in adf.survey(damaged).entries), 1024)
        volume = adf.open_image(self.image)
        headers = [entry.header for entry in volume.entries]
        self.assertEqual(volume.entries[-1].path_text, f"\\block {headers[-9]}/" + "/".join(["\\x1b" * 30] * 8))


class Claims(Catalogues):
    """An image of 880 KB with many damaged files that each state 901,120 bytes."""

    def test_are_written_as_far_as_there_are_blocks(self):
        image = bytearray(adf.build("ffs", 1760, [adf.Addition(b"f%d" % number, b"A") for number in range(871)]))
        for entry in adf.Volume(image).entries[1:]:
            image[512 * entry.header + 324 : 512 * entry.header + 328] = (901120).to_bytes(4, "big")
        ran = self.run_tool("unpack", "--damaged", "-", "new", given=bytes(image))
        self.assertEqual((ran.returncode, ran.stderr.count(b"of 901120 bytes are written")), (1, 870), ran.stderr[-200:])
        self.assertLessEqual(sum(os.path.getsize(f"new/{name}") for name in os.listdir("new")), len(image))


class Disks(Catalogues):
    """Hard disks that are not read into memory, which are small ones here."""

    SMALL = "import adf, os; adf.LARGE = 1 << 20; from adf_tools import archives, catalogue, collection; {}; catalogue.main()"

    def setUp(self):
        super().setUp()
        os.mkdir("disks")
        self.disk = disk(OFS, BAD)
        self.assertGreater(len(self.disk), 1 << 20)

    def rows(self, out="out"):
        return self.asked(out, "SELECT name, bytes, verdict, sha256 FROM images ORDER BY name")

    def test_are_read_in_archives_too(self):
        written("disks/a.hdf", self.disk)
        written("disks/b.hdf.gz", gzip.compress(self.disk))
        with zipfile.ZipFile("disks/c.zip", "w", zipfile.ZIP_DEFLATED) as archive:
            archive.writestr("x.hdf", self.disk)
        self.assertEqual(self.run_python("-c", self.SMALL.format("0"), "disks", "out").returncode, 1)
        whole, first, second = (hashlib.sha256(part).hexdigest() for part in (self.disk, OFS, BAD))
        rows = self.rows()
        for place, name in enumerate(("a.hdf", "b.hdf.gz", "c.zip/x.hdf")):
            self.assertEqual(rows[3 * place : 3 * place + 3], [
                (name, len(self.disk), "ok", whole), (f"{name}/DH0", len(OFS), "ok", first), (f"{name}/DH1", len(BAD), "block 880: bad sum", second),
            ])  # fmt: skip

    def test_have_volumes_that_wait_for_memory(self):
        written("disks/a.hdf", self.disk)
        few = "from adf_tools import processes; processes.free_memory = lambda: 1000; adf.LARGE = 1000"
        self.assertEqual(self.run_python("-c", self.SMALL.format(few), "disks", "out").returncode, 3)
        told = [("a.hdf", "ok"), ("a.hdf/DH0", "read fault: no memory"), ("a.hdf/DH1", "read fault: no memory")]
        self.assertEqual([(name, verdict) for name, _, verdict, _ in self.rows()], told)
        self.assertEqual(self.run_python("-c", self.SMALL.format("adf.LARGE = 1000"), "disks", "out").returncode, 1)
        self.assertEqual([verdict for _, _, verdict, _ in self.rows()], ["ok", "ok", "block 880: bad sum"])

    def test_are_not_read_if_they_are_too_large(self):
        written("disks/b.hdf.gz", gzip.compress(self.disk))
        ran = self.run_python("-c", self.SMALL.format("archives.MOST_UNPACKED = 1500000"), "disks", "out")
        self.assertEqual(ran.returncode, 3)
        self.assertEqual(self.rows(), [("b.hdf.gz", None, "read fault: more than 1500000 bytes are not unpacked", None)])

    def test_cost_one_file_if_they_are_cut_while_they_are_read(self):
        written("disks/a.hdf", self.disk)
        written("disks/b.adf", OFS)
        cut = "read = adf.Disk.__init__; adf.Disk.__init__ = lambda *words: (read(*words), os.truncate('disks/a.hdf', 4096))[0]"
        ran = self.run_python("-c", self.SMALL.format(cut), "disks", "out")
        self.assertEqual((ran.returncode, b"of 2 images 0 refused, 1 not read" in ran.stderr), (3, True), ran.stderr)
        self.assertEqual([row[2] for row in self.rows()], ["read fault: changed while it was read", "ok"])

    def test_say_that_a_file_was_changed(self):
        for size in (10, 3):
            with self.assertRaisesRegex(OSError, "changed while it was read"):
                content.content_in(self.opened(b"12345"), size)

    def opened(self, given):
        written("file", given)
        file = open("file", "rb")
        self.addCleanup(file.close)
        return file


class Files(Catalogues):
    """What a folder can have that is no image."""

    def test_costs_a_line_each(self):
        os.makedirs("disks/x.adf/y.zip/z.adz")
        os.makedirs(b"disks/\xff\xfe\n\x1b[2J")
        written(b"disks/\xff\xfe\n\x1b[2J/\xf0\x9f.adf", OFS)
        os.mkfifo("disks/pipe.zip")
        os.mkfifo("disks/pipe")
        os.symlink("ring.adf", "disks/ring.adf")
        os.symlink(".", "disks/self")
        os.symlink("/dev/zero", "disks/zero.adf")
        with contextlib.closing(socket.socket(socket.AF_UNIX)) as bound:
            bound.bind("disks/socket.adf")
        written("disks/none.zip")
        self.catalogue("disks", "out", "--tsv", status=3)
        self.assertEqual(self.verdicts("out"), {
            "\\xff\\xfe\\x0a\\x1b[2J/\\xf0\\x9f.adf": "ok", "none.zip": "read fault: damaged archive", "pipe.zip": "read fault: not a file",
            "ring.adf": "read fault: Too many levels of symbolic links", "socket.adf": "read fault: not a file", "zero.adf": "read fault: not a file",
        })  # fmt: skip

    def test_reads_members_of_any_name(self):
        os.mkdir("disks")
        with zipfile.ZipFile("disks/a.zip", "w", zipfile.ZIP_DEFLATED) as archive, unittest.mock.patch("warnings.warn"):
            for name in ("../../../up.adf", "/abs.adf", "same.adf", "same.adf", "C:\\x\n.adf", "a/" * 3000 + "deep.adf", ".adf"):
                archive.writestr(name, BAD)
        whole = bytearray(read("disks/a.zip"))
        whole[whole.rindex(b"same.adf") - 46 + 16] ^= 1  # the sum of the second of two members with one name
        written("disks/a.zip", whole)
        self.catalogue("disks", "out", "--rescue", "--tsv", status=3)
        verdicts = [verdict for verdict, in self.asked("out", "SELECT verdict FROM images WHERE name LIKE '%same.adf' ORDER BY number")]
        self.assertEqual(verdicts, ["block 880: bad sum", "read fault: damaged archive"])
        self.leaves("disks", "out")
        self.assertEqual(len(glob.glob("out/images/*.adf")), 6)

    def test_goes_on_behind_what_nobody_foresaw(self):
        os.mkdir("disks")
        for name in "abc":
            written(f"disks/{name}.adf", OFS)
        line = """
from adf_tools import catalogue, reader
whole = reader.Reader.record_of
def record_of(self, image):
    if image.name == b"b.adf":
        raise KeyError(1)
    return whole(self, image)
reader.Reader.record_of = record_of
catalogue.main()"""
        ran = self.run_python("-c", line, "disks", "out", "--tsv")
        self.assertEqual((ran.returncode, b"of 3 images 0 refused, 1 not read" in ran.stderr), (3, True), ran.stderr)
        self.assertEqual(self.verdicts("out"), {"a.adf": "ok", "b.adf": "read fault: an error that nobody foresaw: KeyError", "c.adf": "ok"})

    def test_takes_any_date_of_a_file(self):
        os.mkdir("disks")
        for number, date in enumerate((-(2**33), 0, 2**40)):
            written(f"disks/{number}.adf", OFS)
            os.utime(f"disks/{number}.adf", (date, date))
        for read_ in (3, 0):
            self.catalogue("disks", "out")
            self.assertEqual(self.asked("out", "SELECT read FROM runs ORDER BY id DESC")[0], (read_,))


class Bounded(Catalogues):
    """What a page draws."""

    def test_draws_no_blocks_that_are_too_many(self):
        self.assertIn("<svg", image_pages.blocks_drawn("x", bytes([0, 1]) * 50_000))
        self.assertIn("adf-map &lt; IMAGE", image_pages.blocks_drawn("x", bytes([0, 1]) * 50_000 + b"\0"))

    def test_draws_what_a_page_has_room_for(self):
        os.makedirs("disks/noise")
        noise = b"".join(hashlib.sha256(number.to_bytes(4, "big")).digest() for number in range(8180))  # 261,760 bytes
        drawn = icon(640, 409, 8, noise, used=255)
        names = ("Disk.info", "A.info", "B.info")
        written("disks/noise/x.adf", volume(*((name, drawn) for name in names), dirs=["A", "B"]))
        begun = os.times().children_user
        self.catalogue("disks/noise", "out")
        (path,) = glob.glob("out/images/*.html")
        page = Page(path)
        self.assertLess(len(page.text), 1 << 20)
        self.assertLess(os.times().children_user - begun, 15)
        self.assertIn("3 icons not drawn", page.text)
