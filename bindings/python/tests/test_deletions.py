"""Tests of what a catalogue keeps of deleted files: which images are asked for it, its rows, and how they are found and shown. No library is
needed: what it would answer is given."""

from __future__ import annotations

import argparse
import contextlib
import os
import resource
import sqlite3
import struct
import types
import unittest
from typing import Any, Iterator
from unittest import mock

import adf
from adf import commands, deleted
from adf_tools import database, deletions, find, image_pages, store, volumes
from tests.shared import Folder

EVIL = "<script>alert(1)</script>/\\x1b[31m&\"'"
LINES = (
    r"block 893: whole: file 0000000f        712 1994-03-01 18:20:00.00 letters/dr\xe4ft",
    r"note mine: \xfc\x0a",
    r"block 902: contested: letters/n\xe9w: file 00000000       1100 1994-02-27 09:02:10.00 letters/old",
    r"block 917: overwritten: 2 of 5 blocks: file 00000000 4294967295 4000000:1:2 ?/a\x2fb",
    r"block 920: whole: dir  00000000          - 1994-01-30 21:15:40.00 letters",
    r"note block 1: whole: file 00000000 1 1:2:3 x",
)
TEXT = "".join(line + "\n" for line in LINES).encode()
ROWS = [
    (893, "whole", "file", "letters/dr\xe4ft", 712, 15, "1994-03-01 18:20:00.00", "mine: \xfc\\x0a"),
    (902, "contested: letters/n\xe9w", "file", "letters/old", 1100, 0, "1994-02-27 09:02:10.00", ""),
    (917, "overwritten: 2 of 5 blocks", "file", "?/a\\x2fb", 2**32 - 1, 0, "4000000:1:2", ""),
    (920, "whole", "dir", "letters", 0, 0, "1994-01-30 21:15:40.00", "block 1: whole: file 00000000 1 1:2:3 x"),
]


def header(block: int, more: int = 0) -> bytes:
    """A block that says that it is a header, with a right sum but for this."""
    return struct.pack(">2I12xi488x", 2, block, more - 2 - block)


def image_of(*headers: bytes) -> bytes:
    """An image of 16 blocks with these headers, each in the block that it says."""
    blocks = {struct.unpack_from(">I", each, 4)[0]: each for each in headers}
    return b"".join(blocks.get(block, bytes(512)) for block in range(16))


def survey_of(image: bytes, *headers: int) -> Any:
    """What stands for a survey that finds entries with these headers."""
    return types.SimpleNamespace(_given=(image, None), entries=[types.SimpleNamespace(header=block) for block in headers])


@contextlib.contextmanager
def answering(output: bytes, status: int = 0, errors: bytes = b"") -> Iterator[mock.Mock]:
    """In here `adf-survey` answers so, as far as it is let."""

    def run(_program: str, _words: Any, _image: bytes, most: int | None) -> commands.Answer:
        is_cut = most is not None and len(output) > most
        return commands.Answer(3 if is_cut else status, output[:most], b"write fault\n" if is_cut else errors)

    with mock.patch.object(commands, "run_program", side_effect=run) as asked:
        yield asked


class Told(unittest.TestCase):
    """What is read of the lines of `adf-survey deleted`."""

    def test_has_a_row_for_each_header(self) -> None:
        with answering(TEXT) as asked:
            self.assertEqual(deletions.rows_of(b"image", 1760), ROWS)
        self.assertEqual(asked.call_args[0], ("adf-survey", ("--blocks", "1760", "deleted"), b"image", deletions.MOST_TOLD))
        self.assertEqual(deletions.counts_of(ROWS), {"deleted": 4, "deleted_whole": 2})
        with answering(b"", 1, b"no volume\n"):
            self.assertEqual(deletions.rows_of(b"", None), [])

    def test_has_no_rows_where_they_take_too_much(self) -> None:
        for most, rows in ((len(TEXT), ROWS), (len(TEXT) - 1, None), (0, None)):
            with answering(TEXT), mock.patch.object(deletions, "MOST_TOLD", most):
                self.assertEqual(deletions.rows_of(b"", None), rows)
        with answering(TEXT, 3, b"no memory\n"):
            self.assertEqual(volumes.with_deleted(volumes.record({}), deletions.rows_of(b"", None)), volumes.record({}))

    def test_takes_no_more_memory_than_it_may(self) -> None:
        before = resource.getrlimit(resource.RLIMIT_AS)

        def run(*_words: Any) -> commands.Answer:
            return commands.Answer(0, bytes(sizes.pop()), b"")

        sizes = [deletions.MEMORY + (64 << 20), 1 << 20]
        with mock.patch.object(commands, "run_program", run):
            self.assertEqual((deletions.rows_of(b"", None), deletions.rows_of(b"", None)), ([], None))
        self.assertEqual((sizes, resource.getrlimit(resource.RLIMIT_AS)), ([], before))

    def test_says_that_there_is_no_memory(self) -> None:
        for errors in (b"no memory\n", b"write fault\n"):
            with answering(TEXT, 3, errors), self.assertRaises(adf.NoMemory):
                list(deleted.told_of(b"", None))


class Asked(unittest.TestCase):
    """The library is asked where a header is not that of an entry, and else not."""

    def test_knows_headers(self) -> None:
        other = header(5)[:4] + struct.pack(">I", 6) + header(5)[8:]
        image = image_of(header(2), header(9)) + header(16) + header(17)[:99]
        self.assertEqual(deletions.headers_in(image), {2, 9, 16})
        self.assertEqual(deletions.headers_in(other * 5), set())

    def asked(self, call: Any, *words: Any) -> bool:
        with answering(TEXT) as asked:
            self.assertEqual(call(*words), ROWS if asked.called else [])
        return asked.called

    def test_asks_of_a_volume_with_another_header(self) -> None:
        image = image_of(header(2), header(9))
        self.assertFalse(self.asked(deletions.rows_of_volume, image, {2, 9}))
        self.assertFalse(self.asked(deletions.rows_of_volume, image, {2, 7, 9}))
        self.assertTrue(self.asked(deletions.rows_of_volume, image, {2}))

    def test_asks_of_a_survey_with_another_or_a_damaged_header(self) -> None:
        image = image_of(header(2), header(9))
        self.assertFalse(self.asked(deletions.rows_of_survey, survey_of(image, 2, 9)))
        self.assertTrue(self.asked(deletions.rows_of_survey, survey_of(image, 2)))
        self.assertTrue(self.asked(deletions.rows_of_survey, survey_of(image_of(header(2), header(9, more=1)), 2, 9)))
        self.assertFalse(self.asked(deletions.rows_of_survey, survey_of(b"x")))

    def test_keeps_no_more_than_an_image_may_have(self) -> None:
        with mock.patch.object(volumes, "MOST_LETTERS", sum(map(volumes.letters_of, ROWS[:2]))):
            found = volumes.with_deleted(volumes.record({"name": "a"}), ROWS)
        self.assertEqual((found.columns, found.deleted), ({"name": "a", "deleted": 4, "deleted_whole": 2}, ROWS[:2]))
        self.assertGreater(found.weight, volumes.record({}).weight)


def added(connection: sqlite3.Connection, number: int, rows: Any, **columns: Any) -> None:
    """Adds an image with these deleted headers."""
    connection.execute("INSERT OR IGNORE INTO runs (id, begun, program) VALUES (1, '', '')")
    store.insert(connection, "files", dict(id=number, path=f"d{number}.adf", run=1))
    page = f"images/d{number}-{number:016x}.html"
    plain = dict(name=f"d{number}.adf", number=0, page=page, bytes=8192, advice="sound", verdict="ok", kind="ofs", blocks=16, used=3, free=11, dirs=0, files=0)
    store.add_image(connection, number, None, volumes.with_deleted(volumes.record({**plain, **columns}), rows))
    store.each_of(connection, store.COMING, [number])


class Database(Folder):
    """A database in a folder of its own."""

    def setUp(self) -> None:
        super().setUp()
        os.mkdir("out")
        self.path = os.path.join("out", database.NAME)

    @staticmethod
    def found(connection: sqlite3.Connection, *words: str) -> list[tuple[Any, ...]]:
        return [tuple(row) for row in find.by_deleted(connection, words)]


class Kept(Database):
    """The rows in a database."""

    def test_are_found_while_they_are_there(self) -> None:
        with database.opened(self.path, True) as connection:
            added(connection, 1, ROWS)
            added(connection, 2, ROWS[2:])
            self.assertEqual(self.found(connection, "draft"), [("d1.adf", "letters/dr\xe4ft", "file", 712, "1994-03-01 18:20:00.00", "whole", 893)])
            self.assertEqual([row[::6] for row in self.found(connection, "LETT")], [("d1.adf", 893), ("d1.adf", 902), ("d1.adf", 920), ("d2.adf", 920)])
            self.assertEqual([row[6] for row in self.found(connection, "mine u")], [893])
            self.assertEqual(self.found(connection, "contested"), [])
            self.assertEqual(list(find.by_words(connection, ["letters"])), [])
            store.each_of(connection, store.GOING, [1])
            self.assertEqual([row[0] for row in self.found(connection, "letters")], ["d2.adf"])
            self.assertEqual(connection.execute("SELECT COUNT(*) FROM deleted").fetchone()[0], 2)
            connection.execute("INSERT INTO deleted_words (deleted_words) VALUES ('integrity-check')")

    def test_are_not_asked_for_in_an_older_database(self) -> None:
        with contextlib.closing(sqlite3.connect(self.path)) as connection:
            database.add_functions(connection)
            connection.executescript("".join(database.STEPS[:7]) + f"PRAGMA user_version = 7; PRAGMA application_id = {database.APPLICATION};")
            connection.executescript("""INSERT INTO runs (id, begun, program) VALUES (1, '', ''); INSERT INTO files (id, path, run) VALUES (1, 'a.adf', 1);
                INSERT INTO images (file, name, number, advice, verdict) VALUES (1, 'a.adf', 0, 'sound', 'ok')""")
        with database.opened(self.path) as connection:
            self.assertEqual(connection.execute("PRAGMA user_version").fetchone()[0], len(database.STEPS))
            self.assertEqual(tuple(connection.execute("SELECT deleted, deleted_whole FROM images").fetchone()), (None, None))
            self.assertEqual(self.found(connection, "letters"), [])

    def test_are_of_the_types_of_their_columns(self) -> None:
        with database.opened(self.path, True) as connection:
            added(connection, 1, ROWS)
            connection.execute("UPDATE deleted SET size = 'many'")
        with self.assertRaisesRegex(Exception, "damaged: deleted has a value of another type"), database.opened(self.path):
            pass


class Find(Database):
    """`adf-catalogue find --deleted`."""

    def setUp(self) -> None:
        super().setUp()
        with database.opened(self.path, True) as connection:
            added(connection, 1, ROWS)

    def ran(self, *words: str) -> tuple[int, str]:
        ran = self.run_tool("catalogue", "find", *words, library="nix")
        return ran.returncode, ran.stdout.decode()

    def test_writes_lines(self) -> None:
        self.assertEqual(self.ran("--deleted", "draft", "out"), (0, "d1.adf\tletters/dr\xe4ft\n"))
        self.assertEqual(self.ran("--deleted", "nothing", "out"), (1, ""))
        self.assertEqual(self.ran("draft", "out"), (1, ""))
        row = '{"image": "d1.adf", "path": "letters/old", "kind": "file", "size": 1100, "date": "1994-02-27 09:02:10.00", '
        self.assertEqual(self.ran("--deleted", "--json", "old", "out"), (0, row + '"state": "contested: letters/n\xe9w", "block": 902}\n'))

    def test_takes_words_alone(self) -> None:
        for words in (["--deleted", "out"], ["--deleted", "--text", "a", "out"], ["--deleted", "--sum", "0" * 64, "out"], ["--sum", "0" * 64, "--text", "out"]):
            self.assertEqual(self.ran(*words), (2, ""), words)


class Shown(unittest.TestCase):
    """The page of an image."""

    def page(self, rows: Any, **columns: Any) -> str:
        with contextlib.closing(database.made_in_memory(len(database.STEPS))) as connection:
            connection.row_factory = sqlite3.Row
            added(connection, 1, rows, **columns)
            image = connection.execute("SELECT * FROM images").fetchone()
            return str(image_pages.ImagePage(connection, image).page()).replace("<wbr>", "")

    def test_tells_what_was_deleted_behind_all_else(self) -> None:
        page = self.page(ROWS)
        self.assertIn('<th scope="row">Deleted</th><td class="text">4 headers, 2 whole</td>', page)
        front, _, table = page.partition("<code>adf-survey cat --deleted BLOCK &lt; IMAGE &gt; FILE</code>")
        self.assertNotIn("<caption>Deleted", front)
        self.assertEqual((table.count("<tr>"), table.count("<caption>"), table.count("left out")), (5, 1, 0))
        self.assertIn('contested: letters/n\xe9w</span></td><td class="text">letters/old</td><td class="nowrap">file</td><td class="number">1100</td>', table)
        self.assertIn('<td class="text">whole</td><td class="text">letters</td><td class="nowrap">dir</td><td class="number"></td>', table)
        self.assertIn('<td class="number wide">917</td>', table)

    def test_tells_nothing_where_nothing_was_deleted(self) -> None:
        self.assertNotIn("eleted", self.page([]))

    def test_reads_a_refused_image_at_the_length_that_fits(self) -> None:
        page = self.page(ROWS, verdict="block 8: bad sum", block=8, cause="bad sum", advice="wrong length", fits=1760)
        self.assertIn("4 headers, 2 whole", page)
        self.assertIn("<code>adf-survey --blocks 1760 cat --deleted BLOCK &lt; IMAGE &gt; FILE</code>", page)

    def test_ends_a_long_table(self) -> None:
        with mock.patch.object(volumes, "MOST_LETTERS", sum(map(volumes.letters_of, ROWS[:3]))):
            self.assertIn("1 more are left out: <code>adf-survey deleted &lt; IMAGE</code> has all", self.page(ROWS))

    def test_takes_every_text_for_a_text(self) -> None:
        for verdict in ("ok", "block 8: bad sum"):
            page = self.page([(EVIL, EVIL, EVIL, EVIL, 1, 2, EVIL, EVIL)], verdict=verdict)
            self.assertNotIn("<script", page)
            self.assertNotIn("\x1b", page)
            self.assertIn("&lt;script&gt;alert(1)", page)


class Words(unittest.TestCase):
    def test_writes_no_letter_that_a_terminal_obeys(self) -> None:
        rows: Any = [("a\x1b[31m", "b\u202e", "file", 1, "d", EVIL, 2)]
        self.assertEqual(find.lines_of(rows), "a\\x1b[31m\tb\\xe2\\x80\\xae\n")

    def test_has_one_kind_of_question(self) -> None:
        parsed: argparse.Namespace = find.line().parse_intermixed_args(["--deleted", "--json", "a", "b", "out"])
        self.assertEqual((parsed.words, parsed.out, parsed.deleted, parsed.text, parsed.sum), (["a", "b"], "out", True, False, None))


if __name__ == "__main__":
    unittest.main()
