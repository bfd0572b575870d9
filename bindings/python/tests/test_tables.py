"""Tests of the calls for C on small volumes: what they return, the rows that they write, and that nothing behind these is written."""

import ctypes
import struct
import unittest

import adf
from adf import _structs
from tests.samples import table
from tests.shared import built

LONG = "file 0:0:0 00000000 long\n"
NO_BLOCK, MOST = 2**32 - 1, 2**64 - 1
OFS, FFS, INTERNATIONAL = 0, 1, 2
GUARD = b"\x09"


def with_bytes(image, *bytes_at):
    """The image with these bytes, each a place and a value."""
    copy = bytearray(image)
    for at, value in bytes_at:
        copy[at] = value
    return bytes(copy)


def with_words(image, *words, sums=()):
    """The image with these words, each a block, a place and a value; then right sums in these, each a block and the place of its sum."""
    copy = bytearray(image)
    for block, word, value in words:
        struct.pack_into(">I", copy, 512 * block + 4 * word, value)
    for block, word in sums:
        struct.pack_into(">I", copy, 512 * block + 4 * word, 0)
        struct.pack_into(">I", copy, 512 * block + 4 * word, -sum(struct.unpack_from(">128I", copy, 512 * block)) % 2**32)
    return bytes(copy)


def fields(row, names):
    return tuple(getattr(row, name) for name in names.split())


class Calls(unittest.TestCase):
    """Tests with the library, and rooms that begin as nines."""

    def setUp(self):
        self.library = adf.load(adf.library_path())

    def room(self, kind, count):
        """A room for rows, and one row more, which is nines as long as it lives."""
        rows = (kind * (count + 1))()
        ctypes.memset(rows, 9, ctypes.sizeof(rows))
        return rows

    def is_nines(self, rows, first):
        """Whether the rows from this one on are as they were."""
        size = ctypes.sizeof(rows) // len(rows)
        return set(bytes(rows)[size * first :]) <= set(GUARD)

    def told(self, kind):
        return self.room(kind, 0)


class Images(Calls):
    """The calls on an image."""

    def index(self, image, entries=3, blocks=3, call="adf_index"):
        rows, datas, told = self.room(_structs.Entry, entries), self.room(ctypes.c_uint32, blocks), self.told(_structs.Contents)
        return getattr(self.library, call)(image, len(image), rows, entries, datas, blocks, told), rows, datas, told[0]

    def check(self, image, names, call="adf_check"):
        told = self.told(_structs.Verdict)
        return (getattr(self.library, call)(image, len(image), told), *fields(told[0], names))

    def roles(self, image, room=16, call="adf_owners"):
        roles = self.room(ctypes.c_uint8, room)
        return getattr(self.library, call)(image, len(image), roles, room), bytes(roles)

    def find(self, rows, count, path, call="adf_find", kind=()):
        node = ctypes.c_size_t(9)
        return getattr(self.library, call)(*kind, rows, count, path, len(path), ctypes.byref(node)), node.value

    def read(self, image, rows, datas, node, offset, room):
        place = self.room(ctypes.c_uint8, room)
        count = self.library.adf_read(image, len(image), rows, len(rows) - 1, datas, len(datas) - 1, node, offset, place, room)
        return count, bytes(place)


class Checked(Images):
    """An OFS volume with the directory `c` and in it the files `long` and `short`: headers 2, 3 and 6, data blocks 4, 5 and 7."""

    def setUp(self):
        super().setUp()
        self.image = built("volume ofs 16\ndir 0:0:0 00000000 c\nfile 0:0:0 00000000 c/long\nfill 489 41\nfile 0:0:0 00000000 c/short\ndata 42\n")
        # A bit of the root, in its part of zeros.
        self.damaged = with_bytes(self.image, (8 * 512 + 300, 1))

    def test_sound_images(self):
        cause, rows, datas, told = self.index(self.image)
        self.assertEqual((cause, told.entries, told.data_blocks, rows[1].first, rows[2].first), (0, 3, 3, 0, 2))
        self.assertEqual([*datas[:3]], [4, 5, 7])
        self.assertTrue(self.is_nines(rows, 3) and self.is_nines(datas, 3))
        self.assertEqual(self.check(self.image, "used dirs files"), (0, 8, 1, 2))
        cause, roles = self.roles(self.image)
        self.assertEqual((cause, roles[0], roles[8], roles[16]), (0, 1, 2, 9))

    def test_other_types(self):
        # The names have one slot by all letters. Type 4 has directory caches, which are not there, and there is no type 6.
        for kind, wanted in ((0, (0, 0, 2)), (2, (0, 2, 2)), (6, (2, 0, 0))):
            self.assertEqual(self.check(with_bytes(self.image, (3, kind)), "kind files", "adf_check_types"), wanted)
        for kind in (2, 4):
            self.assertEqual(self.check(with_bytes(self.image, (3, kind)), "kind files")[1:], (0, 0))

    def test_files_are_found_and_read(self):
        _, rows, datas, _ = self.index(self.image)
        self.assertEqual(self.find(rows, 3, b"c/LONG"), (0, 2))
        self.assertEqual(self.read(self.image, rows, datas, 2, 486, 4), (3, b"AAA\x09\x09"))

    def test_letters(self):
        # The header of 0xE9 is in the slot of 0xC9, 70, in place of 30: by ASCII letters in a wrong one.
        image = built("volume ffs 16\nfile 0:0:0 00000000 \\xe9\ndata 42\n")
        slots = 8 * 512 + 4 * 6 + 3
        for kind, call, wanted, found in ((3, "adf_index_types", (0, 3), (0, 1)), (1, "adf_index_types", (14, 0), (1, 9))):
            cause, rows, _, told = self.index(with_bytes(image, (3, kind), (slots + 120, 0), (slots + 280, 2)), 1, 1, call)
            self.assertEqual((cause, told.kind), wanted)
            self.assertEqual(self.find(rows, 1, b"\\xc9", "adf_find_types", (told.kind,)), found)
            self.assertEqual(self.find(rows, 1, b"\\xc9"), (1, 9))
        cause, roles = self.roles(with_bytes(image, (3, 3), (slots + 120, 0), (slots + 280, 2)), call="adf_owners_types")
        self.assertEqual((cause, roles[2], roles[3], roles[8], roles[16]), (0, 5, 7, 2, 9))

    def test_refused_images(self):
        cause, rows, datas, told = self.index(self.damaged)
        self.assertEqual((cause, told.block, told.entries), (7, 8, 0))
        self.assertTrue(self.is_nines(rows, 0) and self.is_nines(datas, 0))
        self.assertEqual(self.check(self.damaged, "block blocks"), (7, 8, 0))
        self.assertEqual(self.roles(self.damaged), (7, GUARD * 17))

    def test_surveys_fill_their_tables(self):
        # The headers of `c` and of `short` with a bit in the low byte of their protection (word 80), so with a wrong sum.
        image = with_bytes(self.image, (2 * 512 + 323, 1), (6 * 512 + 323, 1))
        findings, rows, told = self.room(_structs.Finding, 3), self.room(_structs.Found, 4), self.told(_structs.Surveyed)
        cause = self.library.adf_survey_index(image, len(image), findings, 3, rows, 4, told)
        self.assertEqual((cause, *fields(told[0], "kind findings entries blocks")), (0, 0, 2, 3, 16))
        names = "first last node owner cause is_within"
        self.assertEqual([fields(row, names) for row in findings[:2]], [(2, 2, 1, 0, 7, 0), (6, 6, 3, 0, 7, 0)])
        self.assertEqual([row.is_sound for row in rows[:3]], [0, 1, 0])
        names = "parent header size protection is_file name_length comment_length"
        self.assertEqual([fields(row, names) for row in rows[:2]], [(0, 2, 0, 1, 0, 1, 0), (1, 3, 489, 0, 1, 4, 0)])
        self.assertEqual(bytes(rows[1].name), b"long".ljust(79, b"\0"))
        self.assertTrue(self.is_nines(findings, 2) and self.is_nines(rows, 3))
        self.assertEqual(self.library.adf_survey_index(b"", 0, findings, 0, rows, 0, told), 0)
        self.assertEqual(fields(told[0], "kind entries blocks label_length"), (0, 0, 0, 0))

    def test_runs_fill_their_rooms(self):
        # An output with just enough room is not taken for one with too little. Words that no zero byte ends are none.
        image = with_bytes(self.image, (2 * 512 + 323, 1))
        found = b"block 2: bad sum: c\n"
        for words, wanted in ((b"adf-survey\0", (1, 8192, 20, False, found)), (b"adf-survey", (2, 0, 0, False, bytes(20)))):
            output, errors, moved = ctypes.create_string_buffer(20), ctypes.create_string_buffer(80), _structs.Moved()
            status = self.library.adf_survey_run(words, len(words), image, len(image), output, 20, errors, 80, ctypes.byref(moved))
            self.assertEqual((status, *fields(moved, "input output output_full"), output.raw), wanted)


class Cached(Images):
    """A volume with directory caches: an OFS volume with the file `a`, whose header is block 2 and whose data are blocks 3 and 4. The root is
    block 8, the page 9, and block 5 the cache of the root: type 33, own key 5, directory 8, one record from byte 24 on."""

    words = (0, 0, 0x444F5304), *((5, *word) for word in ((0, 33), (1, 5), (2, 8), (3, 1), (6, 2), (7, 489), (11, 0xFD01), (12, 0x61000000)))
    sums = (5, 5), (8, 5), (9, 0)

    def cached(self, *words):
        """The image with these words further, under right sums. The bits of blocks 2 to 15 are bits 0 to 13 of word 1 of the page."""
        image = built("volume ofs 16\nfile 0:0:0 00000000 a\nfill 489 41\n")
        return with_words(image, *self.words, (8, 126, 5), (9, 1, 0x3F30), *words, sums=self.sums)

    def test_verdicts(self):
        # A record that is missing is cause 4 at the root; the cache free in the bitmap 22 at its block; another lost block 21; a data block
        # that the root names as its page 6. Type 2 has no caches, so block 5 is lost; there is no type 6.
        for word, wanted in (
            ((9, 1, 0x3F30), (0, 4, 6, 8, 0, 1)), ((5, 3, 0), (4, 0, 0, 0, 8, 0)), ((9, 1, 0x3F38), (22, 0, 0, 0, 5, 0)),
            ((9, 1, 0x3F20), (21, 0, 0, 0, 6, 0)), ((8, 79, 3), (6, 0, 0, 0, 3, 0)), ((0, 0, 0x444F5302), (21, 0, 0, 0, 5, 0)),
            ((0, 0, 0x444F5306), (2, 0, 0, 0, 0, 0)),
        ):  # fmt: skip
            self.assertEqual(self.check(self.cached(word), "kind used free block files", "adf_check_types"), wanted)

    def test_tables(self):
        cause, rows, datas, told = self.index(self.cached(), 2, 3, "adf_index_types")
        self.assertEqual((cause, *fields(told, "kind block blocks used free entries data_blocks")), (0, 4, 0, 16, 6, 8, 1, 2))
        self.assertEqual((rows[0].header, *datas[:2]), (2, 3, 4))
        self.assertTrue(self.is_nines(rows, 1) and self.is_nines(datas, 2))
        for word, wanted in (((5, 3, 0), (4, 0, 8, 0)), ((8, 79, 3), (6, 0, 3, 0))):
            cause, rows, datas, told = self.index(self.cached(word), 2, 3, "adf_index_types")
            self.assertEqual((cause, *fields(told, "kind block used")), wanted)
            self.assertTrue(self.is_nines(rows, 0) and self.is_nines(datas, 0))

    def test_files_are_read_beside_caches(self):
        image = self.cached()
        _, rows, datas, told = self.index(image, 2, 3, "adf_index_types")
        self.assertEqual(self.find(rows, 1, b"A", "adf_find_types", (told.kind,)), (0, 1))
        self.assertEqual(self.read(image, rows, datas, 1, 486, 4), (3, b"AAA\x09\x09"))
        self.assertEqual(self.read(image, rows, datas, 1, 0, 490), (489, b"A" * 489 + GUARD * 2))

    def test_roles(self):
        # Boot blocks, header, data, cache, free blocks, root and page; behind them is no block.
        roles = bytes((1, 1, 5, 7, 7, 6, 0, 0, 2, 3, 0, 0, 0, 0, 0, 0, 9))
        self.assertEqual(self.roles(self.cached(), call="adf_owners_types"), (0, roles))
        self.assertEqual(self.roles(self.cached((5, 3, 0)), 6, "adf_owners_types"), (4, GUARD * 7))


class Found(Images):
    """An OFS volume with the files `long`, of three data blocks, and `none`: headers 2 and 6, the data blocks of `long` 3, 4 and 5; and the same on
    FFS."""

    def setUp(self):
        super().setUp()
        rest = "file 0:0:0 00000000 none\n"
        self.image, self.fast = built(f"volume ofs 16\n{LONG}fill 977 41\n{rest}"), built(f"volume ffs 16\n{LONG}fill 1025 41\n{rest}")

    def without(self, *blocks):
        """The image in which these blocks have no type."""
        return with_bytes(self.image, *((512 * block + 3, 0) for block in blocks))

    def parts(self, image, room=16):
        rows = self.room(_structs.Part, room)
        self.assertEqual(self.library.adf_survey_parts(image, len(image), rows, room), 0)
        return rows

    def table(self, image, rows, count, node=1, room=4, header=2):
        """How many data blocks a file has, and its table; the row behind it is as it was."""
        datas = self.room(ctypes.c_uint32, room)
        wanted = self.library.adf_found_blocks(image, len(image), rows, count, node, header, datas, room)
        self.assertTrue(self.is_nines(datas, min(room, wanted)))
        return wanted, [*datas[: min(room, wanted)]]

    def found(self, image, datas, offset, room=1000, header=2):
        """The bytes of a file from a place on, and how many behind them are lost."""
        place, lost, blocks = self.room(ctypes.c_uint8, room), ctypes.c_size_t(9), (ctypes.c_uint32 * len(datas))(*datas)
        count = self.library.adf_found_read(image, len(image), header, blocks, len(datas), offset, place, room, ctypes.byref(lost))
        self.assertTrue(self.is_nines(place, count))
        return bytes(place)[:count], lost.value

    def test_rows_of_blocks(self):
        rows = self.parts(self.image)
        self.assertEqual([fields(row, "node number") for row in rows[2:9]], [(1, 0), (1, 1), (1, 2), (1, 3), (2, 0), (0, 0), (0, 0)])
        self.assertTrue(self.is_nines(rows, 16))

    def test_files_are_read(self):
        # A sound file is read whole and in parts. What is lost in the middle of a file and at its end is told, and never read.
        for lost, datas, offset, read in (
            ((), [3, 4, 5], 0, (977, 0)), ((), [3, 4, 5], 487, (490, 0)), ((), [3, 4, 5], 977, (0, 0)), ((), [3, 4, 5], MOST, (0, 0)),
            ((4,), [3, NO_BLOCK, 5], 0, (488, 488)), ((4,), [3, NO_BLOCK, 5], 500, (0, 476)), ((4,), [3, NO_BLOCK, 5], 976, (1, 0)),
            ((5,), [3, 4, NO_BLOCK], 0, (976, 1)), ((3, 4, 5), [NO_BLOCK] * 3, 1, (0, 976)),
        ):  # fmt: skip
            image = self.without(*lost)
            self.assertEqual(self.table(image, self.parts(image), 16), (3, datas))
            self.assertEqual(self.found(image, datas, offset), (b"A" * read[0], read[1]))
        self.assertEqual(self.found(self.image, [3, 4, 5], 975, 2), (b"AA", 0))

    def test_other_tables(self):
        # Tables that are shorter than the file, and one with a block that the image does not have and one behind the file.
        for datas, offset, read in (([3], 0, (488, 0)), ([3], 488, (0, 0)), ([], 0, (0, 0)), ([3, 16, 5, 4], 0, (488, 488))):
            self.assertEqual(self.found(self.image, datas, offset), (b"A" * read[0], read[1]))

    def test_what_has_no_bytes(self):
        # An empty file, a block that is no file's header, and one that the image does not have; and bytes that are no whole blocks.
        rows = self.parts(self.image)
        for header in (6, 8, 3, 16, NO_BLOCK):
            self.assertEqual(self.table(self.image, rows, 16, 2, 1, header), (0, []))
            self.assertEqual(self.found(self.image, [3], 0, 1, header), (b"", 0))
        self.assertEqual(self.table(bytes(8191), self.parts(bytes(8191)), 16, room=0), (0, []))

    def test_other_rows(self):
        # What cut rows do not have is lost, and those of another file have nothing of it.
        rows = self.parts(self.fast)
        self.assertEqual(self.table(self.fast, rows, 5), (3, [3, 4, NO_BLOCK]))
        self.assertEqual(self.table(self.fast, rows, 5, 2, 1), (3, [NO_BLOCK]))
        self.assertEqual(self.table(self.image, rows, 0), (3, [NO_BLOCK] * 3))

    def test_a_block_that_is_named_twice(self):
        # An FFS block that the table names as data blocks 1 and 2 has the last of these places.
        image = with_bytes(self.fast, (2 * 512 + 4 * 76 + 3, 3))
        rows = self.parts(image)
        self.assertEqual((*fields(rows[3], "node number"), rows[5].number), (1, 2, 3))
        self.assertEqual(self.table(image, rows, 16), (3, [NO_BLOCK, 3, 5]))

    def test_names_are_escaped(self):
        for name, wanted in ((b"a\\\xe4 ", (10, b"a\\x5c\\xe\x09")), (b"ab", (2, b"ab" + GUARD * 7))):
            room = self.room(ctypes.c_uint8, 8)
            self.assertEqual((self.library.adf_escape(name, len(name), room, 8), bytes(room)), wanted)

    def test_roles(self):
        # Those of a sound image are the same by its check; a data block that is lost has none; a root of which one type is lost is one still; and of
        # bytes that are no whole blocks nothing is written.
        roles = bytes((1, 1, 5, 7, 7, 7, 5, 0, 2, 3, 0, 0, 0, 0, 0, 0, 9))
        self.assertEqual(self.roles(self.image), (0, roles))
        self.assertEqual(self.roles(self.image, call="adf_survey_owners"), (0, roles))
        self.assertEqual(self.roles(self.without(4), 6, "adf_survey_owners"), (0, bytes((1, 1, 5, 7, 0, 7, 9))))
        self.assertEqual(self.roles(self.without(8), call="adf_survey_owners"), (0, roles))
        self.assertEqual(self.roles(bytes(8191), call="adf_survey_owners"), (0, GUARD * 17))


class Links(Calls):
    """An OFS volume with the hard links `c` and `d` to the file `a`, `e` to the directory `b`, and the soft link `f` with the path `b/x`: headers 2 to
    7."""

    words = (
        (4, 127, 0xFFFFFFFC), (4, 117, 2), (4, 118, 5), (5, 127, 0xFFFFFFFC), (5, 117, 2), (6, 127, 4), (6, 117, 3), (7, 127, 3), (7, 6, 0x622F7800),
        (2, 118, 4), (3, 118, 6),
    )  # fmt: skip
    rows = [(3, 1, 0, 0, 4, 1), (4, 1, 0, 0, 5, 1), (5, 2, 0, 0, 6, 2), (6, 0, 3608, 3, 7, 3)]

    def links(self, *words, room=5, image=None):
        kinds = zip("fdffff", "abcdef")
        given = built("volume ofs 16\n" + "".join(f"{'dir' if kind == 'd' else 'file'} 0:0:0 00000000 {name}\n" for kind, name in kinds))
        given = with_words(given, *self.words, *words, sums=[(block, 5) for block in range(2, 8)]) if image is None else image
        rows, count = self.room(_structs.Link, room), ctypes.c_size_t(9)
        self.assertEqual(self.library.adf_survey_links(given, len(given), rows, room, ctypes.byref(count)), 0)
        self.assertTrue(self.is_nines(rows, min(room, count.value)))
        return count.value, [fields(row, "node target path path_length header kind") for row in rows[: min(room, count.value)]]

    def test_have_rows(self):
        self.assertEqual(self.links(), (4, self.rows))
        self.assertEqual(self.links(room=2), (4, self.rows[:2]))
        # The chain of `a` leaves `c` out, which tells nothing; `c` names no header; and the path of `f` is empty.
        self.assertEqual(self.links((2, 118, 5)), (4, self.rows))
        self.assertEqual(self.links((4, 117, 15), (7, 6, 0)), (2, self.rows[1:3]))
        self.assertEqual(self.links(image=b""), (0, []))


class Rescues(Calls):
    """An OFS volume with the files `long` and `none`. The header of `long` is block 2, and its data blocks are 3, 4 and 5."""

    def setUp(self):
        super().setUp()
        self.image = built(f"volume ofs 16\n{LONG}fill 977 41\nfile 0:0:0 00000000 none\n")

    def rescue(self, image, room=8192, call="adf_rescue"):
        """What is returned and told, the room, and the loss and its path."""
        volume, loss, path = self.room(ctypes.c_uint8, room), self.room(_structs.Loss, 1), self.room(ctypes.c_uint8, 8)
        told = self.told(_structs.RescueTold)
        number = getattr(self.library, call)(image, len(image), 0, volume, room, loss, 1, path, 8, told)
        return (number, *fields(told[0], "losses paths blocks block")), bytes(volume), loss, bytes(path)

    def test_sound_images_are_their_own(self):
        told, volume, loss, _ = self.rescue(self.image)
        self.assertEqual((told, volume), ((0, 0, 0, 16, 0), self.image + GUARD))
        self.assertTrue(self.is_nines(loss, 0))

    def test_damaged_files_are_left_out(self):
        told, _, loss, path = self.rescue(with_bytes(self.image, (3 * 512 + 40, 0)))
        self.assertEqual((told, fields(loss[0], "why first last path path_length"), path), ((0, 1, 4, 16, 0), (1, 2, 2, 0, 4), b"long" + GUARD * 5))

    def test_refused_rescues_write_nothing(self):
        for image, room, wanted in ((self.image, 8191, (24, 0, 0, 16, 0)), (bytes(8192), 8192, (2, 0, 0, 0, 0))):
            told, volume, loss, path = self.rescue(image, room)
            self.assertEqual((told, set(volume + path)), (wanted, set(GUARD)))
            self.assertTrue(self.is_nines(loss, 0))

    def test_keep_letters(self):
        # The header of 0xE9, block 2, in its slot by international letters, 70 in place of 30. The volume is of type 3.
        image = built("volume ffs 16\nfile 0:0:0 00000000 \\xe9\n")
        for kind in (3, 5):
            moved = [with_bytes(image, (3, given), (4096 + 147, 0), (4096 + 307, 2)) for given in (kind, 3)]
            self.assertEqual(self.rescue(moved[0], call="adf_rescue_types")[1], moved[1] + GUARD)

    def test_are_those_of_the_command(self):
        output, errors, moved = ctypes.create_string_buffer(8192), ctypes.create_string_buffer(999), _structs.Moved()
        for image in (self.image, with_bytes(self.image, (3 * 512 + 40, 0)), self.image[:4096] + bytes(4096)):
            for words, call in ((b"adf-survey\0rescue\0", "adf_rescue"), (b"adf-survey\0rescue\0--keep-type\0", "adf_rescue_types")):
                told, volume, *_ = self.rescue(image, call=call)
                status = self.library.adf_survey_run(words, len(words), image, 8192, output, 8192, errors, 999, ctypes.byref(moved))
                self.assertEqual((volume, status), (output.raw[: moved.output].ljust(8193, GUARD), int(bool(told[0] or told[1]))))


class Builds(Calls):
    """An OFS volume of 16 blocks with the directory `c` and in it the files `long` and `one`."""

    contents = b"B" + b"A" * 489

    def setUp(self):
        super().setUp()
        self.volume, self.rows = _structs.NewVolume(kind=OFS, blocks=16), (_structs.Addition * 3)()
        long = {"parent": 1, "begin": 1, "size": 489, "protection": 15, "is_file": 1, "comment": b"N"}
        one = {"parent": 1, "size": 1, "date": (1, 2, 3), "is_file": 2}
        for place, (name, row) in enumerate(((b"c", {"begin": 999, "size": 999}), (b"long", long), (b"one", one))):
            self.name(place, name)
            for field, value in row.items():
                self.put(place, field, value)

    def name(self, place, name):
        self.rows[place].name, self.rows[place].name_length = (ctypes.c_uint8 * 30)(*name.ljust(30, b".")), len(name)

    def put(self, place, field, value):
        if field == "comment":
            self.rows[place].comment, self.rows[place].comment_length = (ctypes.c_uint8 * 79)(*value), len(value)
        else:
            setattr(self.rows[place], field, _structs.Date(*value) if field == "date" else value)

    def build(self, *names):
        """What is returned and told, and the room."""
        room, told = self.room(ctypes.c_uint8, 8199), self.told(_structs.Built)
        number = self.library.adf_build(ctypes.byref(self.volume), self.rows, 3, self.contents, 490, room, 8199, told)
        return (number, *fields(told[0], " ".join(names))), bytes(room)

    def need(self, names):
        told = self.told(_structs.Built)
        return (self.library.adf_need(ctypes.byref(self.volume), self.rows, 3, self.contents, 490, told), *fields(told[0], names))

    def test_are_those_of_a_manifest(self):
        image = built(
            "volume ofs 16\ndir 0:0:0 00000000 c\nfile 0:0:0 0000000f c/long\nnote N\nfill 489 41\nfile 1:2:3 00000000 c/one\ndata 42\n"
        )
        self.assertEqual(self.build("addition", "blocks"), ((0, 0, 16), image + GUARD * 8))
        self.assertEqual(self.need("blocks"), (0, 10))

    def refused(self, number, addition):
        self.assertEqual(self.build("addition"), ((number, addition), GUARD * 8200))

    def test_of_a_volume_that_is_none(self):
        for field, value, number in (("kind", 4, 1), ("label_length", 31, 2), ("blocks", 15, 3), ("blocks", 18, 4), ("blocks", 8, 11)):
            self.setUp()
            setattr(self.volume, field, value)
            self.refused(number, 0)

    def test_of_additions_that_are_none(self):
        for place, field, value, number in (
            (1, "parent", 2, 5), (2, "parent", 2, 6), (2, "name_length", 0, 7), (2, "name_length", 31, 7), (1, "comment_length", 80, 9),
            (1, "begin", 2, 10), (2, "begin", MOST, 10),
        ):  # fmt: skip
            self.setUp()
            setattr(self.rows[place], field, value)
            self.refused(number, place + 1)
        for place, name, number in ((2, b"l/n", 7), (0, b":", 7), (2, b"LONG", 8)):
            self.setUp()
            self.name(place, name)
            self.refused(number, place + 1)
            self.assertEqual(self.need("addition blocks"), (number, place + 1, 0))

    def test_have_the_letters_of_their_type(self):
        self.name(1, b"\xe9")
        self.name(2, b"\xc9")
        for kind, number in ((OFS, 0), (FFS, 0), (INTERNATIONAL, 8), (3, 8)):
            self.volume.kind = kind
            (came,), room = self.build()
            self.assertEqual((came, room[:4]), (number, GUARD * 4 if number else b"DOS" + bytes([kind])))

    def test_begin_with_their_type(self):
        for kind in range(4):
            self.volume.kind = kind
            (number,), room = self.build()
            self.assertEqual((number, room[3]), (0, kind))

    def test_tell_what_does_not_fit(self):
        self.volume.blocks = 8
        self.assertEqual(self.build("need", "have")[0], (11, 8, 6))


class Boots(Calls):
    """The boot blocks of an FFS image of four blocks, of which the last two are sevens. The sums and the CRCs are those that Python computes."""

    empty = b"DOS\x01" + bytes(1020) + b"\x07" * 1024
    # Those that AmigaOS 1.3 writes, but for what is behind their code.
    code = bytes.fromhex("444f5300c0200f190000037043fa00184eaeffa04a80670a2040206800167000 4e7570ff 60fa") + b"dos.library"
    amiga = code.ljust(1024, b"\0")

    def tells(self, image, *wanted):
        told = self.told(_structs.BootBlocks)
        self.assertEqual(self.library.adf_boot(bytes(image), len(image), told), 0)
        self.assertEqual(fields(told[0], "crc volume_type begins_with_dos has_right_sum is_bootable has_code"), wanted)

    def change(self, call, image, *source):
        room = ctypes.create_string_buffer(image, len(image))
        return getattr(self.library, f"adf_boot_{call}")(room, len(image), *source), room.raw

    def test_are_written_in_place(self):
        self.tells(self.empty, 0xA08BFA1C, 1, 1, 0, 0, 0)
        number, image = self.change("install", self.empty)
        self.assertEqual(number, 0)
        self.tells(image, 0xA625AC2C, 1, 1, 1, 1, 1)
        number, image = self.change("copy", image, self.amiga, 1024)
        self.assertEqual(number, 0)
        self.tells(image, 0x075C6A06, 1, 1, 1, 1, 1)
        self.assertEqual(self.change("clear", image), (0, self.empty))
        self.tells(self.amiga, 0x7C9EFC5E, 0, 1, 1, 1, 1)
        self.tells(bytes(1024), 0xEFB5AF2E, 0, 0, 0, 0, 0)

    def test_are_refused(self):
        # The bytes of an image and of a source, whether they begin with `DOS`, and the number: of the source first, and of the size.
        for size, is_dos, source_size, source_is_dos, wanted in (
            (2048, True, 1024, True, 0), (1536, True, 1024, True, 1), (2047, False, 1024, True, 1), (2048, False, 1024, True, 2),
            (2048, True, 1023, True, 3), (1536, True, 1023, False, 3), (1536, True, 1025, False, 4), (2048, True, 1025, True, 0),
            (2048, True, 2000, True, 0), (2048, False, 2048, False, 4),
        ):  # fmt: skip
            image, source = (with_bytes(self.empty, (0, 0x44 if dos else 0)) for dos in (is_dos, source_is_dos))
            number, changed = self.change("copy", image[:size], source[:source_size], source_size)
            self.assertEqual(number, wanted)
            self.assertTrue(number == 0 or changed == image[:size])
        told = self.told(_structs.BootBlocks)
        self.assertEqual(self.library.adf_boot(bytes(1023), 1023, told), 1)
        self.assertTrue(self.is_nines(told, 0))


class Disks(Calls):
    """A disk of 80 blocks: DH0 has its block in block 1, and DH1 in block 2. A cylinder has 2 surfaces of 4 blocks, and the tables take the first."""

    def tables(self, **changes):
        """The tables, with words of the block of DH0 changed."""
        shared = {0: 0x50415254, 1: 64, 32: 16, 33: 128, 35: 2, 36: 1, 37: 4, 38: 2}
        first = {**shared, 4: 2, 5: 1, 9: 0x03444830, 41: 1, 42: 4, 47: 2**32 - 5, 48: 0x444F5301}
        second = {**shared, 4: NO_BLOCK, 9: 0x03444831, 41: 5, 42: 9, 48: 0x444F5300}
        head = {0: 0x5244534B, 1: 64, 4: 512, 7: 1, 33: 7}
        return b"".join(table(words) for words in (head, {**first, **{int(word[1:]): value for word, value in changes.items()}}, second))

    def index(self, tables, blocks):
        rows, told = self.room(_structs.Partition, 1), self.told(_structs.Disk)
        self.assertEqual(self.library.adf_disk_index(tables, len(tables), blocks, rows, 1, told), 0)
        self.assertTrue(self.is_nines(rows, 1))
        return rows[0], fields(told[0], "partitions block cause")

    def test_have_rows(self):
        row, _ = self.index(self.tables(), 80)
        self.assertEqual(fields(row, "flags priority dos_type name_length"), (1, -5, 0x444F5301, 3))
        self.assertEqual(bytes(row.name), b"DH0".ljust(31, b"\0"))
        # Other fields of DH0 do not move its place; it ends beyond a disk of 39 blocks; and what is no partition block is none, so DH1 is found.
        for changes, blocks, told, place in (
            ({}, 80, (2, 0, 0), (8, 32, 1, 0)), ({"w36": 2}, 80, (2, 0, 0), (8, 32, 1, 2)), ({}, 39, (2, 0, 0), (0, 0, 1, 4)),
            ({"w0": 0}, 80, (1, 1, 5), (40, 40, 2, 0)),
        ):  # fmt: skip
            row, came = self.index(self.tables(**changes), blocks)
            self.assertEqual((came, fields(row, "first blocks block fault")), (told, place))
