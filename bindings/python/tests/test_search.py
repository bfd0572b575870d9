"""Tests of the search of the pages: its script, run by node over parts that are made of a database. No library is needed."""

from __future__ import annotations

import json
import os
import shutil
import sqlite3
import subprocess
import tempfile
import unittest
from typing import Sequence
from unittest import mock

from adf_tools import database, scripts, search, store

NODE = shutil.which("node")
BEFORE = """
const fs = require("fs"), elements = {};
class Element {
  value = ""; textContent = ""; children = [];
  append(...more) { this.children.push(...more); }
  replaceChildren(...all) { this.children = all; }
}
const element = () => new Element();
globalThis.window = {}; globalThis.location = { hash: "" };
const run = script => fs.existsSync(script.src) ? eval(fs.readFileSync(script.src, "utf8")) : script.onerror();
const head = { append: run };
globalThis.document = { head, createElement: element, querySelector: name => elements[name] ??= element() };
const order = new Intl.Collator("en", { numeric: true });
function hash() { return location.hash.slice(1); }
"""
AFTER = """
const text = line => line.children.map(part => part.textContent ?? part).join("");
(async () => {
  for (const wanted of JSON.parse(process.argv[2])) {
    document.querySelector("#wanted").value = wanted;
    await find();
    console.log(JSON.stringify([elements["#told"].textContent, elements["#places"].children.map(text)]));
  }
})();
"""


def collection(numbers: Sequence[int] = range(1, 9)) -> sqlite3.Connection:
    """A database of eight images, in rows in this order, each with four entries."""
    connection = database.made_in_memory(len(database.STEPS))
    connection.row_factory = sqlite3.Row
    connection.execute("INSERT INTO runs (id, begun, program) VALUES (1, '', '')")
    for row, number in enumerate(numbers, 1):
        store.insert(connection, "files", dict(id=row, path=f"d{number}.adf", run=1))
        label = "Tools" if number == 8 else "Work"
        page = f"images/d{number}-{number:016x}.html"
        names = dict(id=row, file=row, name=f"d{number}.adf", number=0, page=page, label=label)
        columns = dict(names, advice="sound", judged="sound", verdict="ok", sha256=f"{number:064x}")
        store.insert(connection, "images", columns)
        north = f"\xe6ble/{'o' * (number % 2)}\xf8{number}"
        for path, comment in (("s/startup", ""), (f"c/even{number % 2}", "note" if number == 7 else ""), (f"\\x0alemmings{number}", ""), (north, "")):
            columns = dict(image=row, kind="file", path=path, size=1, protection=0, date="", comment=comment, header=2, state="sound")
            store.insert(connection, "entries", columns)
    store.each_of(connection, store.COMING, list(range(1, 9)))
    return connection


@unittest.skipUnless(NODE, "needs node")
class Search(unittest.TestCase):
    """Parts have three places of a word, and four words at most."""

    def setUp(self) -> None:
        folder = tempfile.TemporaryDirectory()
        self.addCleanup(folder.cleanup)
        self.folder, self.connection = folder.name, collection()
        patch = mock.patch.multiple(search, MOST_PLACES=3, MOST_TERMS=4)
        patch.start()
        self.addCleanup(patch.stop)
        os.mkdir(os.path.join(self.folder, "search"))
        for name, content in self.parts(search.part_names(self.connection)):
            with open(os.path.join(self.folder, search.file_of(name)), "wb") as file:
                file.write(content or b"")
        with open(os.path.join(self.folder, "script.js"), "w", encoding="utf-8") as script:
            script.write(BEFORE + scripts.SEARCHING + AFTER)

    def parts(self, names: list[str]) -> list[search.Part]:
        """The parts of these names, and those that name the images."""
        places = search.Places(self.connection)
        return [*(part for name in names for part in places.one(name)), *places.names()]

    def asked(self, *texts: str) -> list[tuple[str, list[str]]]:
        """What the page tells of each text, and the lines that it shows."""
        ran = subprocess.run([str(NODE), "script.js", json.dumps(texts)], cwd=self.folder, stdout=subprocess.PIPE, timeout=60, check=True)
        return [tuple(json.loads(line)) for line in ran.stdout.decode().splitlines()]

    def test_finds_all_places_of_words_that_are_in_few(self):
        self.assertEqual(self.asked("note", "lemmings5", "EVEN1 note", "tools", "note startup", "nothing startup"), [
            ("1 found", ["d7.adf: c/even1"]), ("1 found", ["d5.adf: \\x0alemmings5"]), ("1 found", ["d7.adf: c/even1"]), ("1 found", ["d8.adf"]),
            ("0 found", []), ("0 found", []),
        ])  # fmt: skip

    def test_finds_all_images_of_words_that_are_in_many(self):
        (many,) = self.asked("startup")
        first = [f"d{number}.adf: s/startup" for number in (1, 2, 3)]
        rest = [f"d{number}.adf: entries on its page" for number in (4, 5, 6, 7, 8)]
        self.assertEqual(many, ("3 found, and in 5 more images; adf-catalogue find lists all", first + rest))

    def test_finds_what_has_one_word_and_is_in_what_has_another(self):
        told = "0 found, and in 1 more images; adf-catalogue find lists all"
        self.assertEqual(self.asked("tools startup"), [(told, ["d8.adf: entries on its page"])])

    def test_finds_words_by_two_letters(self):
        self.assertEqual(self.asked("no", "to"), [("1 found", ["d7.adf: c/even1"]), ("1 found", ["d8.adf"])])

    def test_finds_words_with_letters_that_are_not_of_ascii(self):
        self.assertEqual(self.asked("\xf86", "o\xf83", "\xe6b")[:2], [("1 found", ["d6.adf: \xe6ble/\xf86"]), ("1 found", ["d3.adf: \xe6ble/o\xf83"])])
        self.assertEqual(len(self.asked("\xe6ble")[0][1]), 8)

    def test_finds_sums_by_all_of_their_digits(self):
        self.assertEqual(self.asked(f"{3:064X}", "00", f"{3:064x}"[:63]), [("1 found", ["d3.adf"]), ("0 found", []), ("0 found", [])])

    def test_finds_words_in_parts_that_are_parted(self):
        self.assertTrue(os.path.exists(os.path.join(self.folder, "search", "lemmings5.js")))
        told, lines = self.asked("lemmi")[0]
        self.assertEqual((told, len(lines)), ("3 found, and in 5 more images; adf-catalogue find lists all", 8))
        self.assertEqual(self.asked("lemmings9", "lemmingsx"), [("0 found", [])] * 2)
        self.assertEqual(self.asked("lemmings8 tools"), [("1 found", ["d8.adf: \\x0alemmings8"])])

    def test_gives_the_same_parts_whatever_the_rows_are(self):
        names = search.part_names(self.connection)
        parts = self.parts(names)
        self.connection = collection((4, 7, 8, 2, 6, 5, 3, 1))
        self.assertEqual(self.parts(names), parts)

    def test_makes_parts_that_no_word_has_any_more_empty(self):
        self.assertEqual([name for name, _ in self.parts(["zzz", "z__", "___"]) if not name.startswith("i-")], [])


if __name__ == "__main__":
    unittest.main()
