"""Tests of adf-catalogue verify and export: whether the files are as they were, and the forms of archives."""

import hashlib
import os
import re
import shutil
import subprocess
import xml.etree.ElementTree
from unittest import mock

from adf_tools import bags, database
from adf_tools.program import Stop
from adf_tools.verify import File
from tests.samples import Asked, volume
from tests.shared import written

PREMIS, DFXML = "{http://www.loc.gov/premis/v3}", "{http://www.forensicswiki.org/wiki/Category:Digital_Forensics_XML}"


def content_of(path):
    with open(path, "rb") as file:
        return file.read()


def sha256(path):
    return hashlib.sha256(content_of(path)).hexdigest()


class Verify(Asked):
    def setUp(self):
        super().setUp()
        self.catalogue("disks", "out", status=1)

    def verified(self, *words, status):
        """The lines of adf-catalogue verify, and its count; the database stays as it is."""
        before = content_of(f"out/{database.NAME}")
        ran = self.run_tool("catalogue", "verify", *words)
        self.assertEqual((ran.returncode, content_of(f"out/{database.NAME}")), (status, before), ran.stderr)
        return ran.stdout.decode().splitlines(), ran.stderr.decode()

    def test_says_that_all_is_as_it_was(self):
        self.assertEqual(self.verified("out", status=0), ([], ""))
        os.rename("disks", "elsewhere")
        self.assertEqual(self.verified("out", "elsewhere", status=0), ([], ""))

    def test_says_what_differs_is_gone_and_is_new(self):
        found = os.stat("disks/tools.adf")
        with open("disks/tools.adf", "r+b") as file:
            file.seek(901000)
            file.write(b"X")
        os.utime("disks/tools.adf", ns=(found.st_atime_ns, found.st_mtime_ns))
        written("disks/games/bad.adf", b"another")
        os.remove("disks/other.adf")
        written("disks/new.adf", volume(("a", b"")))
        lines, told = self.verified("out", status=1)
        self.assertEqual(lines, [
            "gone\tother.adf", "differs\tgames/bad.adf\tof another date", "new\tnew.adf", "differs\ttools.adf\tof the same date",
        ])  # fmt: skip
        self.assertEqual(told, "adf-catalogue: out: of 6 files 2 same, 2 differs, 1 gone, 1 new, 0 not read\n")

    def test_goes_on_where_a_file_cannot_be_read(self):
        os.remove("disks/tools.adf")
        os.mkfifo("disks/tools.adf")
        self.assertEqual(self.verified("out", status=3)[0], ["not read\ttools.adf\tnot a file"])

    def test_opens_no_name_that_the_database_says(self):
        written("outside.adf", b"secret")
        with database.opened(f"out/{database.NAME}") as connection:
            connection.execute("UPDATE files SET path = '../outside.adf' WHERE path = 'tools.adf'")
        self.assertEqual(self.verified("out", status=1)[0], ["gone\t../outside.adf", "new\ttools.adf"])

    def test_does_nothing_that_the_database_says(self):
        with database.opened(f"out/{database.NAME}") as connection:
            connection.execute("UPDATE files SET path = 'a' || CHAR(10, 27) || '[2J' WHERE path = 'tools.adf'")
        self.assertEqual(self.verified("out", status=1)[0], ["gone\ta\\x0a\\x1b[2J", "new\ttools.adf"])

    def test_keeps_each_sum_that_a_file_has_had(self):
        first = sha256("disks/tools.adf")
        self.catalogue("--fresh", "disks", "out", status=1)
        written("disks/tools.adf", b"another")
        self.catalogue("disks", "out", status=1)
        rows = self.asked("out", "SELECT run, bytes, sha256 FROM sums WHERE path = 'tools.adf' ORDER BY id")
        self.assertEqual(rows, [(1, 901120, first), (3, 7, sha256("disks/tools.adf"))])
        archive = self.asked("out", "SELECT bytes, sha256 FROM files WHERE path = 'a.zip'")
        self.assertEqual(archive, [(os.path.getsize("disks/a.zip"), sha256("disks/a.zip"))])


class Export(Asked):
    def exported(self, form, *words):
        return self.tool("catalogue", "export", f"--{form}", *words)

    def test_writes_a_list_for_sha256sum(self):
        for name in (b"back\\slash.adf", b"line\nfeed.adf", b"latin\xfc.adf"):
            written(b"disks/" + name, volume((name[:3].decode(), b"")))
        self.catalogue("disks", "out", status=1)
        written("sums", self.exported("sha256", "out"))
        ran = subprocess.run(["sha256sum", "-c", "--quiet", "../sums"], cwd="disks", stdout=subprocess.PIPE, stderr=subprocess.PIPE)
        self.assertEqual((ran.returncode, ran.stdout, ran.stderr), (0, b"", b""))
        self.assertEqual(content_of("sums").count(b"\n"), 8)

    def test_lists_no_file_outside_of_the_folder(self):
        self.catalogue("disks", "out", status=1)
        with database.opened(f"out/{database.NAME}") as connection:
            connection.execute("UPDATE files SET path = '../outside' WHERE path = 'tools.adf'")
            connection.execute("UPDATE files SET sha256 = sha256 || CHAR(10) || 'x' WHERE path = 'other.adf'")
        lines = self.exported("sha256", "out").decode().splitlines()
        self.assertEqual([line[66:] for line in lines], ["a.zip", "games/bad.adf", "games/copy.adf"])

    def test_writes_premis(self):
        self.catalogue("disks", "out", status=1)
        root = xml.etree.ElementTree.fromstring(self.exported("premis", "out"))
        objects = {each.find(f".//{PREMIS}objectIdentifierValue").text: each for each in root.iter(f"{PREMIS}object")}
        self.assertEqual(sorted(objects), ["a.zip", "games/bad.adf", "games/copy.adf", "other.adf", "tools.adf"])
        fixities = {each[0].text: each[1].text for each in objects["a.zip"].iter(f"{PREMIS}fixity")}
        self.assertEqual(fixities["SHA-256"], sha256("disks/a.zip"))
        outcomes = {each.findtext(f".//{PREMIS}eventDetail"): each.findtext(f".//{PREMIS}eventOutcome") for each in root.iter(f"{PREMIS}event")}
        self.assertEqual((outcomes["a.zip/B\xfc.adf"], outcomes["games/bad.adf"]), ("ok", "block 880: bad sum"))
        notes = [each.text for each in root.iter(f"{PREMIS}eventOutcomeDetailNote")]
        self.assertEqual(notes[-1], "files sound 9, files rescued 0, files lost at least 0, images not judged 1")

    def test_writes_dfxml(self):
        self.catalogue("disks", "out", status=1)
        root = xml.etree.ElementTree.fromstring(self.exported("dfxml", "out"))
        images = {each.findtext(f"{DFXML}image_filename"): each for each in root.iter(f"{DFXML}diskimageobject")}
        self.assertEqual(sorted(images), ["a.zip/B\xfc.adf", "games/bad.adf", "games/copy.adf", "other.adf", "tools.adf"])
        files = {each.findtext(f"{DFXML}filename"): each for each in images["games/bad.adf"].iter(f"{DFXML}fileobject")}
        self.assertEqual((files["lemmings"].findtext(f"{DFXML}hashdigest"), files["lemmings"].findtext(f"{DFXML}filesize")), (self.sum, "600"))
        self.assertEqual((files["s"].findtext(f"{DFXML}name_type"), files["s"].find(f"{DFXML}hashdigest")), ("d", None))
        self.assertEqual(files["lemmings"].findtext(f"{DFXML}mtime"), "2000-01-01T00:00:00")

    def test_says_nothing_that_xml_does_not_have(self):
        self.catalogue("disks", "out", status=1)
        with database.opened(f"out/{database.NAME}") as connection:
            connection.execute("UPDATE images SET label = '</dfxml>' || CHAR(1, 65535), name = '<&\"' WHERE name = 'tools.adf'")
        root = xml.etree.ElementTree.fromstring(self.exported("dfxml", "out"))
        self.assertIn("</dfxml>\\x01\\xffff", [each.text for each in root.iter(f"{DFXML}volume_name")])

    def test_makes_a_bag(self):
        written(b"disks/latin\xfc.adf", volume(("b", b"")))
        written("disks/100%.adf", volume(("a", b"")))
        self.catalogue("disks", "out", status=1)
        self.assertEqual(self.tool("catalogue", "export", "--bagit", "bag", "out"), b"")
        self.assertEqual(content_of("bag/bagit.txt"), b"BagIt-Version: 1.0\nTag-File-Character-Encoding: UTF-8\n")
        manifest = [line.split("  ") for line in content_of("bag/manifest-sha256.txt").decode().splitlines()]
        names = ["100%25.adf", "a.zip", "games/bad.adf", "games/copy.adf", "latin\\xfc.adf", "other.adf", "tools.adf"]
        self.assertEqual([name for _, name in manifest], [f"data/{name}" for name in names])
        for digest, name in manifest:
            self.assertEqual(sha256(f"bag/{name.replace('%25', '%')}"), digest)
        for line in content_of("bag/tagmanifest-sha256.txt").decode().splitlines():
            digest, name = line.split("  ")
            self.assertEqual(sha256(f"bag/{name}"), digest)
        told = content_of("bag/bag-info.txt").decode()
        size = sum(os.path.getsize(os.path.join(path, name)) for path, _, names in os.walk("disks") for name in names)
        self.assertIn(f"Payload-Oxum: {size}.7\n", told)
        self.assertIn("Files-Lost-At-Least: 0\n", told)
        self.refused(3, "bag: File exists", "catalogue", "export", "--bagit", "bag", "out")

    def test_makes_no_bag_of_files_that_differ(self):
        self.catalogue("disks", "out", status=1)
        written("disks/tools.adf", b"another")
        self.refused(1, "disks/tools.adf: not as the catalogue has it", "catalogue", "export", "--bagit", "bag", "out")
        os.remove("disks/tools.adf")
        self.refused(1, "1 file of the catalogue not there: tools.adf", "catalogue", "export", "--bagit", "bag", "out")
        self.assertFalse(os.path.exists("bag"))

    def test_has_the_module_bagit_look_at_a_bag(self):
        seen = []

        class Bag:
            def __init__(self, path):
                self.path = path

            def validate(self):
                seen.append(sorted(os.listdir(self.path)))

        written("a.adf", b"content")
        with mock.patch.object(bags, "bagit_module", lambda: mock.Mock(Bag=Bag)):
            bags.write("bag", [File(b"a.adf", "a.adf")], {"a.adf": hashlib.sha256(b"content").hexdigest()}, {})
        self.assertEqual(seen, [["bag-info.txt", "bagit.txt", "data", "manifest-sha256.txt", "tagmanifest-sha256.txt"]])
        shutil.rmtree("bag")
        with self.assertRaises(Stop):
            bags.write("bag", [File(b"a.adf", "a.adf")], {"a.adf": "0" * 64}, {})

    def test_writes_a_page_for_print(self):
        self.catalogue("disks", "out", status=1)
        page = self.exported("report", "out").decode()
        self.assertEqual([word for word in ("<script", "href", "src=", "url(") if word in page], [])
        rows = [re.sub("<[^>]*>", " ", row).split("  ") for row in re.findall("<tr>(.*?)</tr>", page.replace("<wbr>", ""), re.S)]
        told = [[part.strip() for part in row if part.strip()] for row in rows]
        for row in (["Images", "5 images, 3 sound"], ["Files lost at least", "0"], ["Sound", "3", "Nothing is to be done."], ["bad sum", "1"]):
            self.assertIn(row, told)
        self.assertIn(["games/bad.adf", "block 880: bad sum"], [row[:2] for row in told])
        self.assertEqual(page, self.exported("report", "out").decode())

    def test_names_the_first_images_of_a_group_for_print(self):
        self.catalogue("disks", "out", status=1)
        with database.opened(f"out/{database.NAME}") as connection:
            connection.execute("UPDATE facts SET value = '</title><script>' WHERE name = 'title'")
            connection.execute("UPDATE images SET name = '<b>' || CHAR(27) || 'a.adf' WHERE name = 'games/bad.adf'")
            connection.execute("UPDATE images SET advice = 'nothing that is known' WHERE name = 'tools.adf'")
            line = """INSERT INTO images (file, name, number, advice, verdict, dirs, files, lost)
                SELECT file, ?, 0, 'read again', 'x', 1, 1, ? FROM images LIMIT 1"""
            connection.executemany(line, [(f"more{number}.adf", number) for number in range(1, 61)])
        page = self.exported("report", "out").decode()
        self.assertNotIn("<script", page)
        self.assertIn("11 more are left out: <code>list-read-again.html</code> has all", page)
        names = re.findall(r">(more\d+\.adf)<", page)
        self.assertEqual((names[0], len(names)), ("more60.adf", 50))

    def test_wants_one_form(self):
        for words in (["out"], ["--premis", "--dfxml", "out"], ["--bagit"]):
            self.assertEqual(self.run_tool("catalogue", "export", *words).returncode, 2)
        self.refused(3, "nix/collection.sqlite: unable to open database file", "catalogue", "export", "--sha256", "nix")
