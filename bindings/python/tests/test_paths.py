"""Tests of the texts of paths, in trees that no library has read: they need none."""

from __future__ import annotations

import contextlib
import os
import tempfile
import time
import tracemalloc
import types
import unittest
from typing import Any, Iterator, List, Sequence, Tuple
from unittest import mock

import adf
from adf import _structs
from adf._paths import LONGEST_TEXT, Paths, Tree
from adf_tools import compare, tables, trees, volumes
from adf_tools.names import LETTERS
from adf_tools.standing import Names, Standing
from adf_tools.unpack import Unpacker, line_of

NO = "No such file or directory"
DEPTH, NAME, ESCAPED = 1756, b"\x1b" * 30, "\\x1b" * 30  # of an image of 880 KB that has nothing but directories
Row = Tuple[int, int, bytes, bool]  # the number of the directory of an entry, its header, its name, and whether it is a file


def volume_of(rows: Sequence[Row], kind: Any = adf.Volume) -> Any:
    """A volume with these entries, whose files are empty."""
    table = (_structs.Entry * max(1, len(rows)))()
    for place, (parent, header, name, is_file) in enumerate(rows):
        table[place].parent, table[place].header, table[place].is_file, table[place].name_length = parent, header, is_file, len(name)
        table[place].name[: len(name)] = list(name)
    volume = object.__new__(kind)
    tables = (b"DOS\0" + bytes(1020), 1024), (table, len(rows)), ((_structs.WORD * 1)(), 0)
    vars(volume).update(_known_tables=tables, _last_path=(0, b""), kind="ffs", blocks=1760, label="", image=tables[0][0])
    return volume


def survey_of(rows: Sequence[Row]) -> Any:
    """A survey that finds these entries."""
    survey: Any = object.__new__(adf.Survey)
    none = 0, 0, adf.Date(0, 0, 0)
    found = [adf.Found(survey, place + 1, parent, header, *none, is_file, True, name, b"") for place, (parent, header, name, is_file) in enumerate(rows)]
    vars(survey).update(entries=found, _last_path=(0, b""))
    return survey


def chain(depth: int = DEPTH, name: bytes = NAME) -> List[Row]:
    """Directories in directories: that with number n has its header in block n + 100."""
    return [(number, number + 101, name, False) for number in range(depth)]


@contextlib.contextmanager
def costs(test: unittest.TestCase, seconds: float, most: int) -> Iterator[None]:
    """What is done in here costs no more than so many seconds of a processor, and so many bytes."""
    begun = time.process_time()
    tracemalloc.start()
    try:
        yield
        peak = tracemalloc.get_traced_memory()[1]
    finally:
        tracemalloc.stop()
    test.assertLess(time.process_time() - begun, seconds)
    test.assertLess(peak, most)


class Texts(unittest.TestCase):
    def text(self, names: Sequence[str]) -> str:
        """The text of the path with these names; the directory with number n has its header in block n + 100."""
        return Paths().text(Tree(lambda number: (number - 1, names[number - 1]), lambda number: number + 100), len(names))

    def test_are_whole_up_to_1024_bytes(self) -> None:
        for names in (["a"], ["c", "list"], ["x" * 1024], ["x" * 500, "y" * 523], ["a"] * 512):
            self.assertEqual(self.text(names), "/".join(names))

    def test_of_a_long_path_begin_with_a_block(self) -> None:
        for names, want in (
            (["x" * 500, "y" * 524], "\\block 101/" + "y" * 524),
            (["x" * 20, "y" * 507, "z" * 505], "\\block 101/" + "y" * 507 + "/" + "z" * 505),  # 1,024 bytes
            (["x" * 20, "y" * 508, "z" * 505], "\\block 102/" + "z" * 505),
            (["a"] * 513, "\\block 106/" + "/".join(["a"] * 507)),  # 11 + 1,013 bytes
            ([ESCAPED] * 1000, f"\\block {100 + 1000 - 8}/" + "/".join([ESCAPED] * 8)),
        ):
            self.assertEqual(self.text(names), want)
            self.assertLessEqual(len(want), LONGEST_TEXT)

    def test_are_the_same_in_any_order(self) -> None:
        names = ["n%d" % (number % 97) for number in range(1500)]
        tree = Tree(lambda number: (number - 1, names[number - 1]), lambda number: number)
        whole, paths = [Paths().text(tree, number) for number in range(1, 1501)], Paths()
        for order in (range(1, 1501), range(1500, 0, -1), [number * 7 % 1500 + 1 for number in range(1500)]):
            self.assertEqual([paths.text(tree, number) for number in order], [whole[number - 1] for number in order])


class Volumes(unittest.TestCase):
    def test_have_short_texts(self) -> None:
        volume = volume_of([*chain(3, b"a\xe9"), (3, 99, b"f", True)])
        self.assertEqual([entry.path_text for entry in volume.entries], ["a\\xe9", "a\\xe9/a\\xe9", "a\\xe9/a\\xe9/a\\xe9", "a\\xe9/a\\xe9/a\\xe9/f"])
        self.assertEqual(volume.entries[3]._asdict()["path"], "a\xe9/a\xe9/a\xe9/f")
        deep = volume_of(chain()).entries[-1]
        text = f"\\block {100 + DEPTH - 8}/" + "/".join([ESCAPED] * 8)
        self.assertEqual((deep.path_text, deep._asdict()["path"], len(deep.raw_path)), (text, text, 31 * DEPTH - 1))

    def test_cost_no_more_than_their_entries(self) -> None:
        volume = volume_of(chain())
        with costs(self, 10, 8 << 20):
            self.assertLess(sum(len(entry.path_text) for entry in volume.entries), LONGEST_TEXT * DEPTH)
        with costs(self, 10, 12 << 20):
            rows = [volumes.entry_row(entry, entry.header, "sound", None) for entry in volume.entries]
        self.assertLess(sum(map(volumes.letters_of, rows)), 2 * LONGEST_TEXT * DEPTH)

    def test_of_a_rescue_have_blocks_of_the_image(self) -> None:
        volume = volume_of(chain(20, b"x" * 30), adf.Rescued)
        found = [types.SimpleNamespace(header=900 + number) for number in range(20)]
        vars(volume).update(survey=types.SimpleNamespace(entries=found), _places={0: 0, **{number: number for number in range(1, 20)}})
        self.assertEqual(volume.entries[19].path_text, "/".join(["x" * 30] * 20))
        longer = volume_of(chain(40, b"x" * 30), adf.Rescued)
        vars(longer).update(survey=volume.survey, _places=volume._places)
        self.assertEqual(longer.entries[39].path_text, "\\block 907/" + "/".join(["x" * 30] * 32))


class Surveys(unittest.TestCase):
    def test_have_short_paths(self) -> None:
        survey = survey_of(chain(name=b"a/\x1b"))
        self.assertEqual(survey.entries[1].path, "a\\x2f\\x1b/a\\x2f\\x1b")
        with costs(self, 10, 8 << 20):
            paths = [found.path for found in survey.entries]
        self.assertLessEqual(max(map(len, paths)), LONGEST_TEXT)
        self.assertEqual(paths[-1], f"\\block {100 + DEPTH - 101}/" + "/".join(["a\\x2f\\x1b"] * 101)[:1014])
        self.assertEqual(survey.entries[-1].raw_path, b"/".join([b"a/\x1b"] * DEPTH))

    def test_find_entries_by_the_lines_of_a_rescue(self) -> None:
        rows = [*chain(4, b"d"), (4, 7, b"f", True), (4, 8, b"lost-55", True), (0, 9, b"lost-66", False), (7, 10, b"g", True)]
        names = Names(volume_of(rows).entries, {700: 4})
        self.assertEqual(list(names.numbers("d/d/d/d/f", 1)), [5])
        self.assertEqual(list(names.numbers("\\block 700/f", 1)), [5])
        self.assertEqual(list(names.numbers("\\block 700/x\\x2f", 55)), [6])
        self.assertEqual(list(names.numbers("\\block 701/f", 1)), [])
        self.assertEqual(list(names.numbers("nix", 66)), [7])
        names.add("nix", 66, 7)
        self.assertEqual((list(names.numbers("nix/g", 1)), list(names.numbers("\\block 66/g", 1))), ([8], [8]))

    def test_give_headers_to_what_a_rescue_alone_finds(self) -> None:
        rows = [(0, 3, b"lost-70", False), (1, 4, b"f", True)]
        standing: Any = object.__new__(Standing)
        left_out = [adf.LeftOut(adf.Reason.FOUND_AGAIN, path, block, block) for path, block in ((b"d", 70), (b"d/f", 71), (b"d/nix", 72))]
        standing.volume, standing.left_out = volume_of(rows), left_out
        self.assertEqual(standing._headers_of(list(standing.volume.entries), {}), {1: (70, "found again"), 2: (71, "found again")})


class Tools(unittest.TestCase):
    def test_escape_names_and_no_blocks(self) -> None:
        form = tables.form_of("path", True)
        for text, want in (("\\block 12/B\xfc/\\x1b", "\\block 12/B\\xfc/\\x1b"), ("\\x5cblock 12/\xfc", "\\x5cblock 12/\\xfc")):
            self.assertEqual(form(text), want)

    def test_sum_trees_whatever_blocks_they_have(self) -> None:
        deep = [*chain(), (DEPTH, 5, b"f", True)]
        sums = []
        for rows in (deep, [(parent, header + 1, name, is_file) for parent, header, name, is_file in deep], [(0, 50, b"g", False), *deep[1:]]):
            volume = volume_of(rows)
            made = [volumes.entry_row(entry, entry.header, "sound", None)[:6] + (0, "sound", None) for entry in volume.entries]
            with mock.patch.object(adf.Volume, "boot", types.SimpleNamespace(raw=b"")):
                sums.append(volumes.tree_sum(volume, list(volume.entries), made))
        self.assertEqual(sums[0], sums[1])
        self.assertNotEqual(sums[0], sums[2])

    def test_compare_deep_trees_by_their_names(self) -> None:
        deep = [*chain(), (DEPTH, 5, b"f", True)]
        moved = [(parent, header + 1, name, is_file) for parent, header, name, is_file in deep]
        more = [*deep, (DEPTH, 6, b"g", True)]
        with mock.patch.object(adf, "Volume", lambda image: volume_of({b"a": deep, b"b": moved, b"c": more}[image])), costs(self, 20, 32 << 20):
            one, other, third = map(compare.side_of, (b"a", b"b", b"c"))
            self.assertEqual(list(compare.by_path(one, other)), [])
            self.assertEqual(list(compare.by_path(one, third)), [f"added\t\\block {100 + DEPTH - 8}/" + "/".join([ESCAPED] * 8 + ["g"])])


class Unpacked(unittest.TestCase):
    def test_costs_no_more_than_it_writes(self) -> None:
        with tempfile.TemporaryDirectory() as folder:
            top = os.path.join(folder, "new")
            os.mkdir(top)
            unpacker = Unpacker(volume_of(chain()), LETTERS, writes_uaem=False)
            with costs(self, 20, 8 << 20):
                unpacker.write(top)
            self.assertEqual(unpacker.failed, [])
            with trees.Place(top) as place:
                for _ in range(DEPTH):
                    place.go_in(b"\\x1b" * 30)
            trees.remove(top)

    def test_tells_what_the_host_refuses_by_short_paths(self) -> None:
        rows = [*chain(60), *((number, 9, b"f", True) for number in range(61))]
        rows.sort()
        numbers = {0: 0}
        for place, (parent, header, _, is_file) in enumerate(rows):
            if not is_file:
                numbers[header - 100] = place + 1
        rows = [(numbers[parent], header, name, is_file) for parent, header, name, is_file in rows]
        with tempfile.TemporaryDirectory() as folder, mock.patch.object(Unpacker, "write_file", lambda *_: os.link(b"/", b"/nix/nix")):
            unpacker = Unpacker(volume_of(rows), LETTERS, writes_uaem=False)
            unpacker.write(folder)
            lines = [line_of(error, folder) for error in unpacker.failed]
            trees.remove(folder)
            os.mkdir(folder)
        shown = "/".join(["\\x5cx1b" * 30] * 8)
        self.assertEqual((len(lines), lines[0], lines[-1]), (61, f"{folder}/f: {NO}", f"{folder}/\\block 152/{shown}/f: {NO}"))
