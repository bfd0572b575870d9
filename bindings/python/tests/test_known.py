"""Tests of published lists of known disks."""

import glob
import zlib

from tests.samples import OFS, Asked, dat
from tests.shared import written
from tests.test_catalogue import Page, pages_of, trees_of


class Known(Asked):
    def known(self):
        return {name: (known, known_as) for name, known, known_as in self.asked("out", "SELECT name, known, known_as FROM images")}

    def test_names_images_by_their_checksums(self):
        with open("disks/tools.adf", "rb") as file:
            tools = file.read()
        written("tosec.dat", dat(("Tools v1 (1990)(Try).adf", tools), ("other.adf", OFS[:-1] + b"\1")))
        self.catalogue("--dat", "tosec.dat", "disks", "out", status=1)
        as_tools = ("known", "Tools v1 (1990)(Try).adf (tosec.dat)")
        bad = ("unknown", None)
        self.assertEqual(self.known(), {"tools.adf": as_tools, "games/copy.adf": as_tools, "games/bad.adf": bad, "a.zip/B\xfc.adf": bad,
                                        "other.adf": ("differs", "other.adf (tosec.dat)")})  # fmt: skip
        index = Page("out/index.html")
        self.assertIn("Known, unknown, differs", index.text)
        for name, count in (("known", 2), ("differs", 1), ("unknown", 2)):
            self.assertEqual(Page(f"out/list-{name}.html").text.split('id="images"')[1].count("<tr>") - 1, count)
        before = trees_of("out")
        self.catalogue("disks", "out", status=1)
        self.assertEqual(trees_of("out"), before)
        written("none.dat", dat())
        self.catalogue("--dat", "none.dat", "disks", "out", status=1)
        self.assertEqual(set(self.known().values()), {(None, None)})
        self.assertFalse(glob.glob("out/list-known*"))

    def test_takes_lists_with_a_crc_alone(self):
        written("crc.dat", f'<datafile><machine name="G"><rom name="b" size="901120" crc="{zlib.crc32(OFS):08x}"/></machine></datafile>'.encode())
        self.catalogue("--dat", "crc.dat", "disks", "out", status=1)
        self.assertEqual(self.known()["a.zip/B\xfc.adf"], ("known", "b (crc.dat)"))

    def test_tells_what_a_list_says_of_a_dump(self):
        roms = f"""<rom name="b.adf" size="901120" crc="{zlib.crc32(OFS):08x}" status="baddump"/><rom name="tools.adf" status="nodump"/>
            <rom name="other.adf" size="1" crc="00000000" status="baddump"/><rom name="bad.adf" status="good"/>"""
        self.catalogue("--dat", self.list_of(f"<datafile><machine>{roms}</machine></datafile>".encode()), "disks", "out", status=1)
        self.assertEqual(self.known(), {
            "a.zip/B\xfc.adf": ("known", "b.adf (list.dat, a bad dump)"), "tools.adf": ("unknown", "tools.adf (list.dat, not dumped)"),
            "other.adf": ("differs", "other.adf (list.dat, a bad dump)"), "games/bad.adf": ("unknown", None), "games/copy.adf": ("unknown", None),
        })  # fmt: skip
        self.assertIn("unknown: tools.adf (list.dat, not dumped)", "".join(page.text for page in pages_of("out")))
        good = f"""<datafile><rom name="good" size="901120" crc="{zlib.crc32(OFS):08x}"/></datafile>"""
        written("good.dat", good.encode())
        self.catalogue("--dat", "list.dat", "--dat", "good.dat", "disks", "out", status=1)
        self.assertEqual(self.known()["a.zip/B\xfc.adf"], ("known", "good (good.dat)"))

    def test_refuses_lists_that_are_none(self):
        bomb = '<!DOCTYPE datafile [<!ENTITY a "aaaaaaaa">' + "".join(f'<!ENTITY a{n} "&a;&a;&a;&a;">' for n in range(20)) + "]>"
        outside = '<!DOCTYPE datafile [<!ENTITY a SYSTEM "file:///etc/passwd">]>'
        self.catalogue("--dat", self.list_of(dat(("x.adf", OFS))), "disks", "out", status=1)
        before = trees_of("out"), self.known()
        long = b'<datafile><game name="' + b"a" * (8 << 20) + b'"/></datafile>'
        for content in (b"", b"no list", b"<datafile>", long, dat(head=bomb), dat(head=outside), b"\xff\xfe", b"<a>" * 99999, b"<a>" * 200 + b"</a>" * 200):
            self.refused(3, "list.dat: not a list of known disks: ", "catalogue", "--dat", self.list_of(content), "disks", "out")
            self.assertEqual((trees_of("out"), self.known()), before)
        self.refused(3, "nix.dat: No such file", "catalogue", "--dat", "nix.dat", "disks", "out")
        self.catalogue("--dat", self.list_of(b'<datafile><rom name="&lt;b>../\t" size="-1" crc="zz" md5="0"/><rom/></datafile>'), "disks", "out", status=1)

    def sums(self):
        """How many images and files have a SHA-256, and how many have the other checksums too."""
        counts = "SELECT COUNT(sha256), COUNT(COALESCE(crc32, md5, sha1)) FROM {}".format
        return self.asked("out", counts("images")) + self.asked("out", counts("files"))

    def test_are_not_asked_where_the_sha256_alone_is_made(self):
        self.catalogue("--sha256-only", "disks", "out", status=1)
        self.assertEqual(self.sums(), [(5, 0), (5, 0)])
        self.assertFalse([page.path for page in pages_of("out") if "SHA-1" in page.text or "CRC-32</th>" in page.text])
        told = "it was written with --sha256-only, and has no other checksums"
        for digits in ("0" * 8, "0" * 32, "0" * 40):
            self.refused(3, told, "catalogue", "find", "--sum", digits, "out")
        self.assertEqual(len(self.find("--sum", self.sum, "out")), 3)
        self.catalogue("disks", "out", status=1)
        self.assertEqual(self.asked("out", "SELECT read FROM runs ORDER BY id"), [(5,), (0,)])
        self.assertEqual(self.run_tool("catalogue", "verify", "out").returncode, 0)
        for form in ("--premis", "--dfxml", "--report"):
            self.assertEqual(self.run_tool("catalogue", "export", form, "out").returncode, 0)
        lists = self.list_of(dat(("b.adf", OFS)))
        ran = self.run_tool("catalogue", "--sha256-only", "--dat", lists, "disks", "out")
        self.assertEqual((ran.returncode, b"not allowed with" in ran.stderr), (2, True))
        self.catalogue("--dat", lists, "disks", "out", status=1)
        self.assertEqual((self.sums(), self.known()["a.zip/B\xfc.adf"][0]), ([(5, 5), (5, 5)], "known"))
        self.refused(3, "the catalogue has published lists", "catalogue", "--sha256-only", "disks", "out")
        self.catalogue("disks", "all", status=1)
        written("none.dat", dat())
        self.catalogue("--dat", "none.dat", "disks", "out", status=1)
        self.assertEqual(trees_of("out"), trees_of("all"))

    def list_of(self, content):
        written("list.dat", content)
        return "list.dat"

    def test_reads_a_long_list_within_bounds(self):
        written("list.dat", dat(("x.adf", OFS)) + b" " * (3 << 20))
        for limit in ("MOST_BYTES = 1000", "MOST_DISKS = 0"):
            ran = self.run_python("-c", f"from adf_tools import catalogue, known; known.{limit}; catalogue.main()", "--dat", "list.dat", "disks", "out")
            self.assertEqual((ran.returncode, b"it has more than" in ran.stderr), (3, True))
