"""Tests of the pages that list images: what to do, pages of the index, and the parts that it searches."""

import glob
import hashlib
import json
import os
import re
import struct

import adf
from tests.samples import BAD, volume
from tests.shared import changed, written
from tests.test_catalogue import Catalogues, Page, rows_of


class Triage(Catalogues):
    def test_says_what_to_do(self):
        os.mkdir("disks")
        sound = volume(("a", b"abc"), ("b", b"x" * 2000))
        header = adf.Volume(sound)["b"].header
        international, cached = bytearray(sound), bytearray(sound)
        international[3], cached[3] = 2, 4
        images = {
            "sound": sound, "cut": sound[: 512 * 1701], "long": sound + bytes(11264), "odd": sound + b"\0", "sum": changed(sound, header, 323, 1),
            "other": b"X" * 901120, "text": b"DOS, a text", "type": bytes(cached), "bitmap": bitmap_changed(sound),
            "letters": bytes(international), "letters sum": changed(bytes(international), header, 323, 1),
            "letters bitmap": bitmap_changed(bytes(international)),
        }  # fmt: skip
        for name, content in images.items():
            written(f"disks/{name}.adf", content)
        written("disks/z.zip", b"no archive")
        self.catalogue("disks", "out", "--rescue", "--tsv", status=3)
        rows = {row["image"]: (row["advice"], row["fits"], row["lost"]) for row in rows_of("out/images.tsv")}
        self.assertEqual(rows, {
            "sound.adf": ("sound", "", "0"), "cut.adf": ("wrong length", "1760", "0"), "long.adf": ("wrong length", "1760", "0"),
            "odd.adf": ("wrong length", "1760", "0"),
            "sum.adf": ("read again", "", "1"), "other.adf": ("no volume", "", "0"), "text.adf": ("wrong length", "", "0"), "type.adf": ("other type", "", "0"),
            "letters.adf": ("sound", "", "0"), "letters sum.adf": ("read again", "", "1"), "letters bitmap.adf": ("bitmap", "", "0"),
            "bitmap.adf": ("bitmap", "", "0"), "z.zip": ("not read", "", ""),
        })  # fmt: skip
        index = Page("out/index.html")
        self.assertEqual(sorted(name for name in os.listdir("out") if name.startswith("list-")), sorted(
            f"list-{name}.html" for name in ("wrong-length", "read-again", "no-volume", "other-type", "bitmap", "not-read")))  # fmt: skip
        self.assertTrue(all(f"list-{name}.html" in index.links for name in ("bitmap", "read-again")))
        for name, is_red in (("type", False), ("bitmap", False), ("sum", True)):
            row = re.search(f'<tr><td class="text"><a href="images/{name}-adf-.*?</tr>', index.text)[0]
            self.assertEqual('class="refused"' in row, is_red, name)
        rescued = {row["image"]: row["rescued"] for row in rows_of("out/images.tsv")}
        self.assertTrue(os.path.isfile(f"out/{rescued['sum.adf']}"))
        self.assertEqual(rescued["other.adf"], "")


def bitmap_changed(image):
    """The image with one more free block in its bitmap, and the page's sum mended."""
    copy = bytearray(image)
    words = list(struct.unpack_from(">128I", copy, 512 * 881))
    words[1] ^= 1 << 3
    words[0] = -sum(words[1:]) % 2**32
    struct.pack_into(">128I", copy, 512 * 881, *words)
    return bytes(copy)


class Large(Catalogues):
    def test_parts_the_index(self):
        os.mkdir("disks")
        for number in range(23):
            written(f"disks/{number:02}.adf", volume((f"file{number}", b"x")) if number == 7 else BAD)
        line = "from adf_tools import catalogue, lists; lists.MOST_IMAGES = 10; catalogue.main()"
        self.run_python("-c", line, "disks", "out")
        names = sorted(name for name in os.listdir("out") if name.endswith(".html") and name != "twice.html")
        lists = [f"{name}{number}.html" for name in ("index", "list-read-again") for number in ("-2", "-3", "")]
        self.assertEqual(names, lists)
        counts = [Page(f"out/{name}").text.split('id="images"')[1].count("<tr>") - 1 for name in ("index.html", "index-2.html", "index-3.html")]
        self.assertEqual(counts, [10, 10, 3])
        self.assertIn("index-3.html", Page("out/index.html").links)
        for number in range(10, 23):
            os.remove(f"disks/{number:02}.adf")
        self.run_python("-c", line, "disks", "out")
        self.assertEqual(sorted(name for name in os.listdir("out") if name.endswith(".html")), ["index.html", "list-read-again.html", "twice.html"])

    def test_has_parts_to_search(self):
        os.mkdir("disks")
        written("disks/a.adf", volume(("s/startup-sequence", b"x"), dirs=["s"], label="Gr\\xfc\\xdfe"))
        self.catalogue("disks", "out")
        parts = {}
        for path in glob.glob("out/search/*.js"):
            with open(path, encoding="ascii") as file:
                text = file.read()
            name, images, words = json.loads(text[len("part(") : -len(");\n")])
            self.assertEqual(os.path.basename(path), f"{name}.js")
            parts[name] = images, words
        self.assertEqual(parts["sta"][1], {"startup": [[[0, "s/startup-sequence"]]]})
        self.assertEqual([image[0] for image in parts["gru"][0]], ["a.adf"])
        self.assertEqual(len(parts["s__"][1]["s"][0]), 2)
        digest = hashlib.sha256(b"x").hexdigest()
        self.assertEqual(parts[digest[:3]][1][digest], [[[0, "s/startup-sequence"]]])
