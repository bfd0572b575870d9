"""What links lead to: adf.Found.target, adf.Survey.links, and within what stands, adf_tools.links."""

from __future__ import annotations

import contextlib
import os
import sqlite3
import unittest

import adf
from adf_tools import trees
from adf_tools.links import NOTHING, OUT, RING, Ways, components, left_out_with, ways_of
from tests.shared import Folder
from tests.test_deleted import with_word

FILE_LINK, DIRECTORY_LINK, SOFT_LINK = 2**32 - 4, 4, 3
# An OFS volume of 40 blocks: the headers of a, the directory b, c, d, e and f are blocks 2 to 7.
PLAIN = adf.build("ofs", 40, [adf.Addition("a", b""), adf.Addition("b"), *(adf.Addition(name, b"") for name in "cdef")])
# Hard links c and d to a, and e to b; a soft link f to b/x: block, word, value.
WORDS = (
    (4, 127, FILE_LINK), (4, 117, 2), (4, 118, 5), (5, 127, FILE_LINK), (5, 117, 2), (6, 127, DIRECTORY_LINK), (6, 117, 3),
    (7, 127, SOFT_LINK), (7, 6, 0x622F7800), (2, 118, 4), (3, 118, 6),
)  # fmt: skip


def linked() -> bytes:
    image = PLAIN
    for block, place, value in WORDS:
        image = with_word(image, block, place, value)
    return image


class TestLinks(unittest.TestCase):
    def test_tells_what_right_links_lead_to(self):
        survey = adf.survey(linked())
        a, b = survey.entries[:2]
        self.assertEqual([each.target for each in survey.entries], [None, None, a, a, b, b"b/x"])

    def test_tells_nothing_of_wrong_ones(self):
        survey = adf.survey(with_word(with_word(linked(), 4, 117, 31), 7, 6, 0))
        a, b = survey.entries[:2]
        self.assertEqual([each.target for each in survey.entries], [None, None, None, a, b, None])

    def test_tells_nothing_where_there_are_none(self):
        self.assertEqual({each.target for each in adf.survey(PLAIN).entries}, {None})

    def test_tells_all_links_in_order(self):
        survey = adf.survey(linked())
        a, b, c, d, e, f = survey.entries
        self.assertEqual(survey.links, [adf.Link(c, a), adf.Link(d, a), adf.Link(e, b), adf.Link(f, b"b/x")])
        names = [f"l{number}" for number in range(100)]
        image = with_links(adf.build("ofs", None, [adf.Addition(name, b"") for name in ("a", *names)]), soft={name: b"a" for name in names})
        self.assertEqual({link.target for link in adf.survey(image).links}, {b"a"})
        self.assertEqual(len(adf.survey(image).links), 100)


def with_links(image: bytes, hard: dict[str, str] | None = None, soft: dict[str, bytes] | None = None) -> bytes:
    """The image of a volume in which files are links: hard ones to entries with these paths, soft ones with these paths."""
    volume = adf.Volume(image)
    for path, target in (hard or {}).items():
        at, to = volume[path].header, volume[target].header
        kind = FILE_LINK if volume[target].is_file else DIRECTORY_LINK
        first = int.from_bytes(image[512 * to + 472 : 512 * to + 476], "big")
        for block, place, value in ((at, 127, kind), (at, 117, to), (at, 118, first), (to, 118, at)):
            image = with_word(image, block, place, value)
    for path, raw in (soft or {}).items():
        at, padded = volume[path].header, raw + bytes(4 - len(raw) % 4)
        image = with_word(image, at, 127, SOFT_LINK)
        for place in range(0, len(padded), 4):
            image = with_word(image, at, 6 + place // 4, int.from_bytes(padded[place : place + 4], "big"))
    return image


def tree(*paths: str | bytes, label: str = "") -> bytes:
    """A volume with directories, whose paths end with a slash, and files, which are empty unless they are called x or y."""
    raws = [path if isinstance(path, bytes) else path.encode("latin-1") for path in paths]
    contents = [b"x" if raw[-1:] in (b"x", b"y") else b"" for raw in raws]
    additions = [adf.Addition(raw[:-1]) if raw.endswith(b"/") else adf.Addition(raw, content) for raw, content in zip(raws, contents)]
    return adf.build("ffs", 1760, additions, label)


class TestWays(unittest.TestCase):
    def ways(self, image: bytes) -> dict[str, tuple[str | None, str]]:
        """The path that each link leads to, and why it leads to none."""
        volume = adf.Rescued(image)
        told = {}
        for way in Ways(volume):
            to = None if way.target is None else volume.entries[way.target - 1].path if way.target else ""
            told[way.link.entry.path] = to, way.why
        return told

    def test_reads_paths_as_an_amiga_does(self):
        self.assertEqual([components(path) for path in (b"a/b", b"a/b/", b"/a", b"//", b"", b"a//b")], [
            [b"a", b"b"], [b"a", b"b"], [b"", b"a"], [b"", b""], [], [b"a", b"", b"b"]])  # fmt: skip

    def test_follows_links_within_the_volume(self):
        names = "abcdefghijklmnopq"
        image = tree("x", "dir/", "dir/y", "dir/up", *names, label="Work")
        soft = {
            "dir/up": b"/x", "a": b"dir/y", "b": b":dir/y", "c": b"Work:x", "d": b"wORK:DIR/Y", "e": b"Other:x", "f": b"/x", "g": b"dir//x",
            "h": b"nix", "i": b"x/y", "j": b"j", "k": b"l", "l": b"m/x", "m": b"k", "n": b"q/y", "o": b":", "p": b"../x",
        }  # fmt: skip
        told = self.ways(with_links(image, {"q": "dir"}, soft))
        inside = {"dir/up": "x", "a": "dir/y", "b": "dir/y", "c": "x", "d": "dir/y", "g": "x", "n": "dir/y", "o": "", "q": "dir"}
        self.assertEqual({path: to for path, (to, why) in told.items() if not why}, inside)
        self.assertEqual({path: why for path, (_, why) in told.items() if why}, {
            **{"e": OUT, "f": OUT, "h": NOTHING, "i": NOTHING, "p": NOTHING}, **dict.fromkeys("jklm", RING)})  # fmt: skip

    def test_takes_any_number_of_links_on_the_way(self):
        names = [f"l{number}" for number in range(1000)]
        image = tree("x", *names)
        told = self.ways(with_links(image, soft={name: after.encode() for name, after in zip(names, [*names[1:], "x"])}))
        self.assertEqual(set(told.values()), {("x", "")})

    def test_compares_names_by_the_letters_of_the_volume(self):
        for kind, told in (("ffs", (None, NOTHING)), ("ffs-international", ("\xc4", ""))):
            image = adf.build(kind, 1760, [adf.Addition("\xc4", b""), adf.Addition("l", b"")])
            self.assertEqual(self.ways(with_links(image, soft={"l": b"\xe4"})), {"l": told})

    def test_leads_to_nothing_that_is_left_out(self):
        plain = tree("x", "y", "b", "c")
        image = with_word(with_links(plain, {"b": "x"}, {"c": b"x"}), adf.Volume(plain)["x"].header, 77, 1760)  # its data block is past the end
        self.assertEqual(set(self.ways(image).values()), {(None, NOTHING)})


class TestUnpacked(Folder):
    def test_writes_links_within_the_folder(self):
        image = tree("x", "dir/", "dir/y", "dir/in/", "dir/in/up", "a", "b", "c", "o")
        self.tool("unpack", "new", given=with_links(image, {"a": "x", "b": "dir"}, {"c": b"dir/y", "dir/in/up": b"//x", "o": b":dir/in"}))
        told = {path: os.readlink(f"new/{path}") for path in ("a", "b", "c", "o", "dir/in/up")}
        self.assertEqual(told, {"a": "x", "b": "dir", "c": "dir/y", "o": "dir/in", "dir/in/up": "../../x"})
        with open("new/dir/in/up", "rb") as file:
            self.assertEqual(file.read(), b"x")
        self.assertEqual(sorted(os.listdir("new")), ["a", "b", "c", "dir", "o", "x"])
        self.leaves("new")

    def test_leaves_out_what_leads_elsewhere(self):
        image = with_links(tree("x", "a", "b", "c", "d"), soft={"a": b"Other:x", "b": b"//etc", "c": b"c", "d": b"../../../etc/passwd"})
        ran = self.run_tool("unpack", "new", given=image)
        lines = [f"adf-unpack: link: {name}: {why}\n" for name, why in zip("abcd", (OUT, OUT, RING, NOTHING))]
        self.assertEqual((ran.returncode, ran.stderr.decode(), os.listdir("new")), (1, "".join(lines), ["x"]))
        self.leaves("new")

    def test_has_names_that_stay_in_the_folder(self):
        names = b"..", b".", b"\xe4\x01", b"con"
        image = with_links(tree("../", "../x", *(name.decode("latin-1") for name in names[1:])), soft={
            name.decode("latin-1"): b"../x" for name in names[1:]})  # fmt: skip
        self.tool("unpack", "in", given=image)
        self.assertEqual(sorted(os.listdir("in")), sorted(["\\x2e\\x2e", "\\x2e", "\xe4\\x01", "co\\x6e"]))
        self.assertEqual({os.readlink(f"in/{name}") for name in os.listdir("in") if os.path.islink(f"in/{name}")}, {"\\x2e\\x2e/x"})
        self.leaves("in")

    def test_copies_files_that_are_followed(self):
        image = with_links(tree("x", "dir/", "a", "b", "c"), {"a": "x", "b": "dir"}, {"c": b"x"})
        self.tool("unpack", "--follow", "--uaem", "new", given=image)
        for name in "ac":
            self.assertFalse(os.path.islink(f"new/{name}"))
            with open(f"new/{name}", "rb") as file:
                self.assertEqual(file.read(), b"x")
        self.assertEqual(os.readlink("new/b"), "dir")
        self.assertEqual(sorted(os.listdir("new")), ["a", "a.uaem", "b", "c", "c.uaem", "dir", "dir.uaem", "x", "x.uaem"])

    def test_gives_a_link_a_name_of_its_own(self):
        plain = tree("x", "a", "b")
        a, b = (adf.Volume(plain)[name].header for name in "ab")
        slot = next(place for place in range(6, 78) if plain[512 * 880 + 4 * place :][:4] == b.to_bytes(4, "big"))
        image = bytearray(with_links(plain, {"b": "x"}))
        image[512 * b + 433] = ord("a")  # the link is called `a` too, and stands behind `a` in the chain of their slot
        for block, place, value in ((b, 3, 0), (a, 124, b), (880, slot, 0)):
            image[:] = with_word(bytes(image), block, place, value)
        ran = self.run_tool("unpack", "new", given=bytes(image))
        self.assertEqual((ran.returncode, ran.stderr.decode()), (1, f"adf-unpack: renamed: a: lost-{b}\n"))
        self.assertEqual((sorted(os.listdir("new")), os.readlink(f"new/lost-{b}")), (["a", f"lost-{b}", "x"], "x"))

    def test_leads_through_deep_trees(self):
        paths = ["/".join(["d"] * depth) + "/" for depth in range(1, 700)]
        image = with_links(adf.build("ffs", 3520, [adf.Addition(path[:-1]) for path in paths] + [adf.Addition(paths[-1] + "l", b""), adf.Addition("x", b"")]),
                           soft={paths[-1] + "l": b":x"})  # fmt: skip
        self.tool("unpack", "deep", given=image)
        with trees.Place("deep") as place:
            for _ in paths:
                place.go_in(b"d")
            self.assertEqual(os.readlink(b"l", dir_fd=place.fd), b"../" * 699 + b"x")
        trees.remove("deep")

    def test_of_a_sound_volume_there_are_none(self):
        volume = adf.open(tree_file("x"))
        self.assertEqual((ways_of(volume), left_out_with(volume, [])), ([], []))


class TestCatalogued(Folder):
    def test_tells_what_links_lead_to(self):
        os.mkdir("disks")
        with open("disks/links.adf", "wb") as file:
            file.write(with_links(tree("x", "dir/", "a", "b", "c", "d"), {"a": "x", "b": "dir"}, {"c": b"Work:\xe4<b>", "d": b"x"}))
        self.run_tool("catalogue", "disks", "out")
        with contextlib.closing(sqlite3.connect("out/collection.sqlite")) as database:
            rows = database.execute("SELECT kind, path, state FROM entries ORDER BY path").fetchall()
            page = database.execute("SELECT page FROM images").fetchone()[0]
        wanted = [("link", "a", "to x"), ("link", "b", "to dir"), ("link", "c", "path Work:\xe4<b>"), ("link", "d", "path x")]
        self.assertEqual(rows, [*wanted, ("dir", "dir", "sound"), ("file", "x", "sound")])
        with open(f"out/{page}", encoding="utf-8") as file:
            text = file.read()
        self.assertIn("path Work:\xe4&lt;b&gt;", text)
        self.assertIn("to dir", text)
        self.assertIn(b"link", self.run_tool("catalogue", "find", "c", "out").stdout)


def tree_file(*paths: str) -> str:
    with open("tree.adf", "wb") as file:
        file.write(tree(*paths))
    return "tree.adf"
