"""Tests of the calls for C, as Python sees them: structs, rooms that are too small, tables that are changed, texts."""

import ctypes
import os
import re
import shutil
import subprocess
import tempfile
import unittest

import adf
from adf import _structs
from tests.shared import TOP, built, changed

MANIFEST = """volume ofs 1760
label Try
dir 8035:0:0 00000000 c
file 8035:0:0 0000000f c/readme
note try
data 48656c6c6f0a
dir 0:0:0 00000000 empty
file 0:0:0 00000000 none
file 9000:1:2 00000000 large
fill 80000 41
"""
HEADER = os.path.join(TOP, "include", "adf.h")
STRUCTS = {name[4:]: struct for struct in vars(_structs).values() for name in [getattr(struct, "__name__", "")] if name.startswith("adf_")}


def layout():
    """A program in C that compiles if each struct of the module is that of the header."""
    yield '#include <stddef.h>\n#include "adf.h"'
    for name, struct in STRUCTS.items():
        yield f'_Static_assert(sizeof(struct adf_{name}) == {ctypes.sizeof(struct)}, "size of {name}");'
        for field, _ in struct._fields_:
            place = getattr(struct, field)
            yield f'_Static_assert(offsetof(struct adf_{name}, {field}) == {place.offset}, "place of {name}.{field}");'
            yield f'_Static_assert(sizeof(((struct adf_{name} *)0)->{field}) == {place.size}, "size of {name}.{field}");'


class Structs(unittest.TestCase):
    def compiles(self, lines):
        with tempfile.TemporaryDirectory() as folder:
            path = os.path.join(folder, "layout.c")
            with open(path, "w", encoding="ascii") as file:
                file.write("\n".join(lines) + "\n")
            line = ["cc", "-std=c11", "-I", os.path.join(TOP, "include"), "-fsyntax-only", path]
            return subprocess.run(line, stderr=subprocess.PIPE, universal_newlines=True)

    @unittest.skipUnless(shutil.which("cc") and os.path.exists(HEADER), "needs cc and adf.h")
    def test_are_those_of_the_header(self):
        self.assertEqual(self.compiles(layout()).stderr, "")
        self.assertNotEqual(self.compiles([*layout(), '_Static_assert(sizeof(struct adf_disk) == 1, "");']).returncode, 0)

    @unittest.skipUnless(os.path.exists(HEADER), "needs adf.h")
    def test_are_all_compared(self):
        with open(HEADER, encoding="ascii") as file:
            self.assertEqual(set(re.findall(r"^struct adf_(\w+) {$", file.read(), re.MULTILINE)), set(STRUCTS))


class Words(unittest.TestCase):
    """Memory that is called words but holds no text, and rooms that are too small."""

    def setUp(self):
        self.library, self.image = adf.load(adf.library_path()), built(MANIFEST)

    def run_in(self, words, room, said=256):
        """A run with rooms of these sizes: its status, output and errors, and which room was full."""
        output, errors = ctypes.create_string_buffer(b"?" * (room + 1)), ctypes.create_string_buffer(b"?" * (said + 1))
        moved = _structs.Moved(7, 7, 7)
        status = self.library.adf_run(words, len(words), self.image, len(self.image), output, room, errors, said, ctypes.byref(moved))
        self.assertEqual((output.raw[room], errors.raw[said]), (ord("?"), ord("?")))
        return status, output.raw[: moved.output], errors.raw[: moved.errors], moved.output_full, moved.errors_full

    def test_rooms_are_kept(self):
        line = adf.run(["check"], self.image).output
        for words, rooms, answer in (
            (b"adf\0check\0", (len(line),), (0, line, b"", False, False)),
            (b"adf\0check\0", (len(line) - 1,), (3, line[:-1], b"write fault\n", True, False)),
            (b"adf\0check\0", (0, 5), (3, b"", b"write", True, True)),
            (b"adf\0cat\0nix\0", (99, 4), (1, b"", b"no s", False, True)),
            (b"adf\0cat\0nix\0", (99, 0), (1, b"", b"", False, True)),
        ):
            self.assertEqual(self.run_in(words, *rooms), answer)

    def test_words_that_are_none_are_refused(self):
        for words in (b"adf\0check", b"adf\0ch\xffeck\0", b"check", b"", b"\0", b"adf\0", b"adf\0frob\0"):
            status, output, errors, full, short = self.run_in(words, 99)
            self.assertEqual((status, output, full, short, errors[:11]), (2, b"", False, False, b"usage: adf "))

    def test_owners_fill_their_room(self):
        owners = adf.Volume(self.image).owners()
        for room in (0, 1, 881, 1760, 2000):
            roles = ctypes.create_string_buffer(b"?" * 2001)
            self.assertEqual(self.library.adf_owners(self.image, len(self.image), roles, room), 0)
            whole = min(room, 1760)
            self.assertEqual((roles.raw[:whole], set(roles.raw[whole:-1])), (owners[:room], set(b"?")))
        roles = ctypes.create_string_buffer(b"?" * 9)
        self.assertEqual((self.library.adf_owners(self.image, 7, roles, 9), roles.raw[:9]), (1, b"?" * 9))


class Subjects(unittest.TestCase):
    """What is surveyed of an image, in rooms of any size, and look-ups of any text in it."""

    def setUp(self):
        self.library, self.image = adf.load(adf.library_path()), built("volume ofs 16\nfile 0:0:0 00000000 a\nfill 1000 41\n")

    def subject(self, image, blocks, room):
        told, place = _structs.Subject(7, 7, 7, 7), ctypes.create_string_buffer(b"?" * (room + 1))
        number = self.library.adf_survey_subject(image, len(image), blocks, place, room, ctypes.byref(told))
        self.assertEqual(place.raw[room], ord("?"))
        return number, (told.length, told.held, told.is_begun, told.is_retyped), place.raw[:room]

    def test_fill_their_rooms(self):
        lost, sound = bytes(1024) + self.image[1024:], self.image
        for image, blocks, told, whole in (
            (sound, 0, (8192, 16, 0, 0), sound),
            (lost, 0, (8192, 16, 1, 0), b"DOS\0" + lost[4:]),
            (b"DOS\1" + sound[4:], 0, (8192, 16, 0, 1), sound),
            (sound[:5000], 16, (8192, 9, 0, 0), sound[:5000] + bytes(3192)),
            (sound[:5000], 0, (4096, 8, 0, 0), sound[:4096]),
            (b"", 0, (0, 0, 0, 0), b""),
        ):
            for more in (0, 9):
                self.assertEqual(self.subject(image, blocks, len(whole) + more), (0, told, whole + b"?" * more))
            for room in {0, len(whole) - 1} if whole else ():
                self.assertEqual(self.subject(image, blocks, room), (24, (len(whole), 0, 0, 0), b"?" * room))
        self.assertEqual(self.subject(sound, 2**32 - 1, 9), (24, (512 * (2**32 - 1), 0, 0, 0), b"?" * 9))

    def test_take_the_length_of_a_floppy(self):
        # The image of 1,760 blocks and 44 more, and its first 1,700; and these as if it had 1,804 and 1,700, which wins over everything.
        whole, long, cut = built(MANIFEST), built(MANIFEST) + bytes(512 * 44), built(MANIFEST)[: 512 * 1700]
        for image, blocks, wanted, told in (
            (long, 0, whole, (901120, 1760, 0, 0)), (long, 1804, long, (512 * 1804, 1804, 0, 0)), (cut, 0, cut + bytes(512 * 60), (901120, 1700, 0, 0)),
            (cut, 1700, cut, (512 * 1700, 1700, 0, 0)), (cut, 1804, cut + bytes(512 * 104), (512 * 1804, 1700, 0, 0)),
        ):  # fmt: skip
            self.assertEqual(self.subject(image, blocks, len(wanted) + 9), (0, told, wanted + b"?" * 9))
            self.assertEqual(self.subject(image, blocks, len(wanted) - 1), (24, (len(wanted), 0, 0, 0), b"?" * (len(wanted) - 1)))

    def test_are_searched_for_any_text(self):
        for text, answer in ((b"A", (0, 1)), (b"", (0, 0)), (b"b", (1, 7)), (b"a/b", (1, 7)), (b"a//b", (2, 7)), (b"\\x4", (2, 7)), (b"\xe4", (2, 7))):
            node = ctypes.c_size_t(7)
            number = self.library.adf_survey_find(self.image, len(self.image), text, len(text), ctypes.byref(node))
            self.assertEqual((number, node.value), answer)
        self.assertEqual((self.library.adf_survey_find(b"", 0, b"a", 1, ctypes.byref(node)), node.value), (1, 7))


class Tables(unittest.TestCase):
    """Tables in rooms that are too small, of a refused image, and with words of theirs changed."""

    def setUp(self):
        self.library, self.image = adf.load(adf.library_path()), built(MANIFEST)
        _, (self.entries, self.count), (self.blocks, self.total) = adf.Volume(self.image)._tables
        self.whole, self.numbers = bytes(self.entries)[: 144 * self.count], bytes(self.blocks)[: 4 * self.total]

    def index(self, image, rooms):
        """The cause, the contents, and the two tables with question marks behind them."""
        sizes = (144, self.count), (4, self.total)
        table, places = (ctypes.create_string_buffer(b"?" * size * (length + 2)) for size, length in sizes)
        contents = _structs.Contents()
        cause = self.library.adf_index(image, len(image), table, rooms[0], places, rooms[1], ctypes.byref(contents))
        return cause, contents, table.raw[:-1], places.raw[:-1]

    def test_fill_their_rooms(self):
        more = self.count, self.total
        for rooms in (more, (more[0] - 1, more[1]), (more[0], more[1] - 1), (0, 0), (more[0] + 1, more[1] + 1)):
            cause, contents, *filled = self.index(self.image, rooms)
            self.assertEqual((cause, contents.entries, contents.data_blocks), (0, *more))
            for raw, wanted, length in zip(filled, (self.whole, self.numbers), (144 * rooms[0], 4 * rooms[1])):
                self.assertEqual(raw.rstrip(b"?"), wanted[:length].rstrip(b"?"))

    def test_stay_as_they_are_for_a_refused_image(self):
        cause, contents, *filled = self.index(changed(self.image, 880, 440, 1), (self.count, self.total))
        self.assertEqual((cause, contents.block, contents.entries, set(b"".join(filled))), (7, 880, 0, set(b"?")))

    def use(self, entries, blocks, offset):
        """Looks up and reads by these tables."""
        part, node = ctypes.create_string_buffer(3000), ctypes.c_size_t()
        assert self.library.adf_find(entries, self.count, b"c/readme", 8, ctypes.byref(node)) in (0, 1, 2)
        tables = self.image, len(self.image), entries, self.count, blocks, self.total
        for number in range(self.count + 2):
            assert self.library.adf_read(*tables, number, offset, part, 3000) <= 3000

    def test_may_be_changed(self):
        for value in (0, 1, 255, 1760, 2**31 - 1, 2**32 - 1):
            for place in range(36 * self.count):
                entries = (ctypes.c_uint32 * (36 * self.count)).from_buffer_copy(self.whole)
                entries[place] = value
                self.use(entries, self.blocks, 0)
            for offset in (0, 487, 60000, 2**64 - 1):
                self.use(self.entries, (ctypes.c_uint32 * self.total)(*[value] * self.total), offset)


class Causes(unittest.TestCase):
    def text(self, number, size, call="adf_cause_text"):
        room = ctypes.create_string_buffer(b"?" * 64)
        length = getattr(adf.load(adf.library_path()), call)(number, room, size)
        self.assertEqual(set(room.raw[min(length, size) : 64]), set(b"?"))
        return length, room.raw[: min(length, size)]

    def test_have_their_texts(self):
        for call, last in (("adf_cause_text", 23), ("adf_disk_cause_text", 7), ("adf_partition_fault_text", 7)):
            for number in range(1, last + 1):
                length, whole = self.text(number, 63, call)
                self.assertTrue(length == len(whole) > 0)
                self.assertEqual((self.text(number, length - 1, call), self.text(number, 0, call)[0]), ((length, whole[:-1]), length))
            self.assertEqual({self.text(number, 63, call) for number in (0, last + 1, 255)}, {(0, b"")})

    def test_of_disks_are_those_of_the_program(self):
        disk_causes = [self.text(number, 63, "adf_disk_cause_text")[1] for number in range(1, 8)]
        faults = [self.text(number, 63, "adf_partition_fault_text")[1] for number in range(1, 8)]
        with open(os.path.join(TOP, "docs", "adf-disk.1"), encoding="utf-8") as file:
            page = file.read()
        for text in (*disk_causes, *faults):
            self.assertIn(text.decode(), page)
        self.assertEqual((disk_causes[0], faults[3]), (b"no rigid disk", b"beyond image"))

    def test_have_a_library_of_this_version(self):
        with open(os.path.join(TOP, "include", "adf.h"), encoding="utf-8") as file:
            self.assertIn(f"#define ADF_VERSION_NUMBER {adf.library_version()}\n", file.read())

    def test_have_paragraphs_in_the_page_of_faults(self):
        with open(os.path.join(TOP, "docs", "FAULTS.md"), encoding="utf-8") as file:
            page = file.read()
        for number in range(1, 24):
            self.assertIn(f"**`{self.text(number, 63)[1].decode()}`**", page)


class Manifests(unittest.TestCase):
    """What a manifest is refused for, and a line that is right in the place of the wrong one: KIND|WRONG|RIGHT."""

    head = ["volume ofs 1760", "dir 8035:0:0 00000000 c", "file 8035:0:0 00000000 a"]
    cases = r"""
bad line|volume ofs 1760^|volume ofs 1760
bad line|volume OFS 1760|volume ofs 1760
bad line|volume ofs  1760|volume ffs 1760
bad line||data 00
bad line|# games|data 00
bad line|dir 2000-01-01 00000000 d|dir 8035:0:0 00000000 d
bad line|file 8035:0:0 0000000F b|file 8035:0:0 0000000f b
bad line|data 48656C6C6F|data 48656c6c6f
bad line|fill 00 512|fill 512 00
bad line|label Work|note Work
bad text|file 8035:0:0 00000000 abcdefghijklmnopqrstuvwxyz01234|file 8035:0:0 00000000 abcdefghijklmnopqrstuvwxyz0123
bad text|file 8035:0:0 00000000 c:list|file 8035:0:0 00000000 c/list
bad text|file 8035:0:0 00000000 B\xFCcher|file 8035:0:0 00000000 B\xfccher
bad text|file 8035:0:0 00000000 \x42|file 8035:0:0 00000000 B
"""

    def build(self, line):
        lines = [line, *self.head[1:]] if line.startswith("volume") else [*self.head, line]
        status, _, said = adf.run(["build"], "".join(text + "\n" for text in lines).replace("^", "\r").encode())
        return status, said.decode().strip().partition(": ")[2]

    def test_are_refused_for_a_line(self):
        for kind, wrong, right in (line.split("|") for line in self.cases.strip("\n").split("\n")):
            self.assertEqual((self.build(wrong), self.build(right)), ((1, kind), (0, "")))
