"""Tests of the module adf."""

import array
import copy
import ctypes
import datetime
import io
import mmap
import os
import pickle
import random
import re
import struct
import tempfile
import threading
import unittest
import unittest.mock

import adf
from adf import _arguments, _library, _sources, _structs, commands
from tests.shared import HERE, LARGE, NAME_BYTES, TOP, Folder, built, cached, changed, image_of, international, written


class Longer(bytes):
    """Bytes that say that there are more of them than there are."""

    def __len__(self):
        return 1 << 40


class Volumes(unittest.TestCase):
    def test_tells_the_numbers_of_a_volume(self):
        for kind in adf.KINDS:
            volume = adf.Volume(image_of(kind))
            status, line, _ = adf.run(["check"], volume.image)
            verdict = adf.check(volume.image)
            self.assertEqual((volume.kind, volume.blocks, volume.used, volume.free), verdict[:4])
            self.assertEqual(
                line.decode(), "ok {} blocks {} used {} free {} dirs {} files {}\n".format(*verdict)
            )
            self.assertEqual((volume.label, volume.raw_label), ("Bücher", b"B\xfccher"))
            self.assertEqual((volume.date, volume.altered, volume.created), ((1, 2, 3), (4, 5, 6), (4000000, 1, 1)))

    def test_accepts_international_letters_where_they_are_asked_for(self):
        for kind, other in (("ofs", 2), ("ffs", 3)):
            image = adf.build(kind, None, [adf.Addition("c"), adf.Addition("c/list", b"..")], "Work")
            typed = image[:3] + bytes([other]) + image[4:]
            self.assertEqual(adf.check(image, international=True), adf.check(image))
            self.assertEqual(adf.check(typed, international=True), (f"{kind}-international", *adf.check(image)[1:]))
            self.assertRaisesRegex(adf.Refused, "block 0: international", adf.check, typed)
            with self.assertRaisesRegex(adf.Refused, "block [1-9][0-9]*: directory cache"):
                adf.check(image[:3] + bytes([other + 2]) + image[4:], international=True)

    def test_reads_directory_caches_that_are_right(self):
        for number, kind in ((4, "ofs-cached"), (5, "ffs-cached")):
            image = cached(number)
            volume = adf.Volume(image)
            self.assertEqual((volume.kind, volume.letters, volume.image), (kind, "international", image))
            self.assertEqual((volume["A"].read(), volume.owners()[5], volume.used), (b"A", adf.ROLES.index("extension"), 5))
            self.assertEqual(adf.check(image, international=True), (kind, 16, 5, 9, 0, 1))
            self.assertRaisesRegex(adf.Refused, "block 0: directory cache", adf.check, image)

    def test_reads_international_letters_as_they_come(self):
        for kind in adf.KINDS:
            image = international(kind)
            volume = adf.open_image(image, strict=True)
            self.assertEqual((volume.kind, volume.letters, volume.image), (f"{kind}-international", "international", image))
            self.assertEqual([volume[path].read() for path in ("é", "É", b"\xc9")], [b"A"] * 3)
            self.assertNotIn("÷", volume)
            self.assertEqual([volume.owners().count(role) for role in (adf.ROLES.index("header"), adf.ROLES.index("data"))], [2, 1])
            self.assertEqual(pickle.loads(pickle.dumps(volume)).kind, volume.kind)
            self.assertRaisesRegex(adf.Refused, "block [1-9][0-9]*: directory cache", adf.Volume, image[:3] + bytes([4 + adf.KINDS.index(kind)]) + image[4:])
            plain = image[:3] + bytes([adf.KINDS.index(kind)]) + image[4:]
            self.assertRaisesRegex(adf.Refused, "wrong slot", adf.Volume, plain)
        self.assertEqual((adf.Volume(image_of()).letters, "B\xfccher" in adf.Volume(image_of())), ("ascii", False))

    def test_says_why_a_damaged_volume_of_other_letters_is_refused(self):
        block = adf.Volume(international())["é"].header
        with self.assertWarnsRegex(adf.DamagedWarning, f"block {block}: bad sum"):
            volume = adf.open_image(changed(international(), block, 500, 1))
        self.assertEqual((volume.refused.cause, volume.refused.block, list(volume)), ("bad sum", block, ["c"]))
        self.assertEqual((volume.kind, "C" in volume, adf.rescue(volume.survey.image)[0][3]), ("ffs-international", True, 1))
        self.assertRaisesRegex(adf.Refused, "block 880: bad type", adf.open_image, b"DOS\2" + bytes(1760 * 512 - 4))

    def test_tells_the_entries(self):
        volume = adf.Volume(image_of())
        self.assertEqual(set(volume), {"c", "c/readme", "empty", "none", "large"})
        self.assertEqual([entry.number for entry in volume.entries], [1, 2, 3, 4, 5])
        readme = volume["c/readme"]
        self.assertEqual((readme.name, readme.size, readme.protection, readme.is_file), ("readme", 6, 15, True))
        self.assertEqual((readme.comment, readme.raw_comment), ("ein <Übel>", b"ein <\xdcbel>"))
        self.assertEqual(volume.entries[readme.parent - 1].path, "c")
        self.assertEqual((volume["c"].parent, volume["c"].size, volume["c"].is_file), (0, 0, False))
        self.assertEqual(volume["c"].date, (8035, 61, 151))

    def test_finds_paths(self):
        volume = adf.Volume(image_of())
        for path in ("c/readme", "C/README", b"c/readme"):
            self.assertEqual(volume[path].path, "c/readme")
            self.assertIn(path, volume)
        for path in ("", "nix", "c/", "/c", "c//readme", "c/readme/x", "c:readme", "\u20ac", "\\x63", b"\xff", "c\0"):
            self.assertNotIn(path, volume)
            with self.assertRaises(KeyError):
                volume[path]

    def test_takes_no_other_paths(self):
        volume = adf.Volume(image_of())
        for path in (0, None, 1.5, ["c"], bytearray(b"c")):
            with self.assertRaises(TypeError):
                volume[path]
            with self.assertRaises(TypeError):
                path in volume

    def test_can_only_be_read(self):
        volume, survey = adf.Volume(image_of()), adf.survey(b"")
        for thing, name in ((volume, "label"), (volume, "more"), (volume.entries[0], "size"), (survey, "findings")):
            with self.assertRaises(AttributeError):
                setattr(thing, name, 0)
        with self.assertRaises(AttributeError):
            del volume.label
        self.assertEqual(volume.label, "Bücher")

    def test_says_what_it_is(self):
        volume, survey = adf.Volume(image_of()), adf.survey(changed(image_of(), 880, 440, 1))
        self.assertEqual(repr(volume), "<adf.Volume 'Bücher': ofs, 1760 blocks>")
        self.assertEqual((repr(volume["c"]), repr(survey)), ("<adf.Entry 'c'>", "<adf.Survey 'Bücher': 1 findings, 5 entries>"))
        self.assertEqual(repr(adf.Disk(b"")), "<adf.Disk: 0 partitions, block 0: no rigid disk>")
        volume.close()
        self.assertEqual(repr(volume), "<adf.Volume 'Bücher': closed>")

    def test_is_pickled_with_its_entries(self):
        entry = adf.Volume(image_of())["c/readme"]
        of_package = pickle.loads(re.sub(rb"\bcadf\.\w+\n", b"cadf\n", pickle.dumps(entry, 0)))
        for again in (pickle.loads(pickle.dumps(entry)), of_package, copy.deepcopy(entry)):
            self.assertEqual((again.path, again.read(), again[1:]), ("c/readme", b"Hello\n", entry[1:]))
        survey = pickle.loads(pickle.dumps(adf.survey(changed(image_of(), 880, 440, 1))))
        self.assertEqual((survey.findings[0].cause, survey.entries[0].survey), ("bad sum", survey))
        refused = pickle.loads(pickle.dumps(adf.Refused("bad sum", 880, 7, "disk.adf")))
        self.assertEqual(str(refused), "disk.adf: block 880: bad sum")
        entry.volume.close()
        with self.assertRaises(adf.Closed):
            pickle.dumps(entry)

    def test_is_closed(self):
        with adf.Volume(image_of()) as volume:
            entry = volume["c/readme"]
            self.assertEqual(entry.read(), b"Hello\n")
        self.assertEqual((volume.label, volume.image, entry.size), ("Bücher", b"", 6))
        for call in (entry.read, volume.owners, lambda: volume["c"], lambda: volume.entries, lambda: entry.path, lambda: next(volume.walk())):
            with self.assertRaises(ValueError):
                call()
        self.assertRaises(adf.Closed, volume.__enter__)

    def test_walks(self):
        lines = "".join(f"dir 0:0:0 00000000 {path}\n" for path in ("a", "b", "a/c", "a/c/d"))
        volume = adf.Volume(built("volume ffs 60\n" + lines))
        self.assertEqual([step[0] for step in volume.walk()], ["", "a", "a/c", "a/c/d", "b"])
        self.assertEqual([path for path, _, _ in volume.walk(b"a")], [b"a", b"a/c", b"a/c/d"])
        seen = []
        for path, directories, _ in volume.walk():
            seen.append(path)
            if path == "a":
                directories.clear()
        self.assertEqual(seen, ["", "a", "b"])
        with self.assertRaises(KeyError):
            next(adf.Volume(image_of()).walk("large"))

    def test_tells_owners(self):
        volume = adf.Volume(image_of())
        roles = volume.owners()
        self.assertEqual((len(roles), adf.ROLES[roles[0]], adf.ROLES[roles[880]]), (1760, "boot", "root"))
        self.assertEqual(roles.count(0), volume.free)
        self.assertTrue(all(adf.ROLES[roles[entry.header]] == "header" for entry in volume.entries))

    def test_tells_dates(self):
        for date, text, civil in (
            ((0, 0, 0), "1978-01-01 00:00:00.00", datetime.datetime(1978, 1, 1)),
            ((8035, 61, 151), "2000-01-01 01:01:03.01", datetime.datetime(2000, 1, 1, 1, 1, 3, 20000)),
            ((2929974, 1439, 2999), "9999-12-31 23:59:59.49", datetime.datetime(9999, 12, 31, 23, 59, 59, 980000)),
            ((2929975, 0, 0), "2929975:0:0", None),
            ((0, 1440, 0), "0:1440:0", None),
            ((0, 0, 3000), "0:0:3000", None),
            ((2**32 - 1,) * 3, "4294967295:4294967295:4294967295", None),
        ):
            self.assertEqual((str(adf.Date(*date)), adf.Date(*date).civil), (text, civil))
            self.assertEqual((adf.Date.of(text), adf.Date.of(adf.Date(*date).stamp)), (date, date))
            image = built(f"volume ofs 4\nstamps {adf.Date(*date).stamp} 0:0:0 0:0:0\n")
            self.assertIn(f"root {text}\n".encode(), adf.run(["list"], image)[1])

    def test_takes_no_other_dates(self):
        for text in (
            *("", "2026-11-25 06:56:04.99", "2026-11-25 06:56:04x49", "2026-11-25 06:56:04.-1", "2026-11-25 06:56:04", "2026-11-25"),
            *("2026-11-25 06:56:04.5", "2026-13-25 06:56:04.05", "1977-12-31 23:59:59.00", "2026-11-25T06:56:04.05", "2026-11-25 06:56:04.05 "),
            *("1:2", "1:2:3:4", "-1:0:0", "+1:0:0", "01:0:0", "1_0:0:0", " 1:2:3", "\u0661:0:0", "4294967296:0:0"),
        ):
            with self.assertRaises(ValueError, msg=text):
                adf.Date.of(text)

    def test_has_names_of_every_byte(self):
        names = [bytes([byte]) for byte in NAME_BYTES if not 97 <= byte <= 122]
        names += [bytes(NAME_BYTES[at : at + 30]) for at in range(0, 240, 30)]
        lines = ((adf.escape(name), name.hex()) for name in names)
        manifest = "".join(f"file 0:0:0 00000000 {text}\nnote {text}\ndata {digits}\n" for text, digits in lines)
        volume = adf.Volume(built("volume ofs 1760\n" + manifest))
        self.assertEqual(sorted(entry.raw_name for entry in volume.entries), sorted(names))
        for name in names:
            for path in (name, name.decode("latin-1")):
                self.assertEqual((volume[path].raw_comment, volume[path].read()), (name, name))

    def test_has_no_label_and_no_entry(self):
        volume = adf.Volume(built("volume ffs 4\n"))
        self.assertEqual((volume.label, list(volume.entries), list(volume.walk())), ("", [], [("", [], [])]))

    def test_has_more_entries_than_a_floppy(self):
        names = [f"{number:05}" for number in range(5000)]
        volume = adf.Volume(built("volume ofs 12000\n" + "".join(f"file 0:0:0 00000000 {name}\ndata 41\n" for name in names)))
        self.assertEqual(sorted(volume), names)
        self.assertEqual({entry.read() for entry in volume.entries}, {b"A"})

    def test_keeps_its_own_bytes(self):
        buffer = bytearray(image_of())
        volume = adf.Volume(buffer)
        buffer[:] = bytes(len(buffer))
        self.assertEqual(volume["c/readme"].read(), b"Hello\n")
        self.assertEqual(adf.Volume(memoryview(volume.image)).label, "Bücher")
        for wrong in (7, "text", None):
            with self.assertRaises(TypeError):
                adf.Volume(wrong)

    def test_takes_the_bytes_that_a_view_shows(self):
        image = image_of()
        apart = bytearray(2 * len(image))
        apart[::2] = image
        for view in (memoryview(apart)[::2], memoryview(image).cast("I"), memoryview(image[::-1])[::-1], array.array("H", image), Longer(image)):
            self.assertEqual((adf.Volume(view).image, adf.check(view).blocks, adf.survey(view).findings), (image, 1760, []))
            self.assertEqual((adf.rescue(view), adf.Boot.of(view).raw, type(adf.Volume(view).image)), ((image, []), image[:1024], bytes))

    def test_takes_no_buffer_that_is_gone(self):
        released, closed = memoryview(image_of()), mmap.mmap(-1, 901120)
        released.release()
        closed.close()
        for gone in (released, closed):
            for call in (adf.Volume, adf.check, adf.survey, adf.rescue, adf.Disk, adf.Boot.of, adf.open_image, adf.with_standard_boot):
                self.assertRaises(ValueError, call, gone)

    def test_holds_a_buffer_while_it_is_used(self):
        room, mapped = bytearray(b"abc"), mmap.mmap(-1, 4096)
        for take in (_arguments.to_write, _arguments.to_read):
            held = take(room), take(mapped)
            for change in (lambda: room.append(0), room.clear, mapped.close, lambda: mapped.resize(8192)):
                self.assertRaises(BufferError, change)
            self.assertEqual([size for _, size in held], [3, 4096])
            del held
        mapped.close()
        disk = adf.Disk(mapped := mmap.mmap(-1, 901120))
        mapped.close()
        self.assertEqual(disk.cause, "no rigid disk")

    def test_takes_no_other_numbers_of_blocks(self):
        image = image_of()
        for blocks, error in ((-1, ValueError), (2**23 + 1, ValueError), (2**32 + 1760, ValueError), (1760.0, TypeError), (True, TypeError), ("16", TypeError)):
            for call in (adf.survey, adf.rescue, lambda image, blocks: adf.Rescued(image, None, blocks), lambda *both: adf.open_image(both[0], blocks=both[1])):
                with self.assertRaisesRegex(error, re.escape(f"{blocks!r}")):
                    call(image, blocks)

    def test_answers_odd_things_with_the_errors_that_fit(self):
        volume, survey, disk = adf.Volume(image_of()), adf.survey(changed(image_of(), 880, 440, 1)), adf.Disk(b"")
        entry, file = volume["large"], adf.File(volume["large"])
        released = memoryview(b"abc")
        released.release()
        calls = (
            *(adf.Volume, adf.Rescued, adf.check, adf.survey, adf.rescue, adf.Disk, adf.partitions, adf.open_image, adf.escape, adf.unescape, adf.Date.of),
            *(adf.Boot.of, adf.with_standard_boot, adf.without_boot, lambda odd: adf.with_boot(image_of(), odd), adf.run, lambda odd: adf.run(["check"], odd)),
            *(lambda odd: adf.survey(b"", odd), lambda odd: adf.rescue(b"", odd), lambda odd: adf.open_image(b"", blocks=odd)),
            *(volume.__getitem__, volume.__contains__, lambda odd: list(volume.walk(odd)), volume.entries.__getitem__, survey.findings.__getitem__),
            *(survey.read, survey.remains, disk.__getitem__, disk.volume, entry.read, lambda odd: entry.read(0, odd), entry.read_into),
            *(lambda odd: entry.read_into(bytearray(1), odd), file.readinto, file.seek, lambda odd: file.seek(0, odd)),
            *(lambda odd: adf.build(odd, None, []), lambda odd: adf.build("ofs", odd, []), lambda odd: adf.build("ofs", None, odd)),
            *(lambda odd: adf.build("ofs", None, [], odd), lambda odd: adf.build("ofs", None, [], dates=odd), lambda odd: adf.build("ofs", None, [odd])),
            *(lambda odd, place=place: adf.build("ofs", None, [adf.Addition(*["a", b"", b"", 0, (0, 0, 0)][:place], odd)]) for place in range(5)),
        )  # fmt: skip
        odds = (None, True, -1, 7, 2**31, -(2**63), 2**64, 1.5, "x", "\u20ac", "\udcff", b"", b"x" * 7, bytearray(3), [], [65], {}, {"a"}, object(), int)
        for odd in (*odds, released, array.array("H", [1]), memoryview(b"abcdef")[::2], (1, 2, 3), (b"a", b"b"), [None]):
            for call in calls:
                try:
                    call(odd)
                except (adf.Error, TypeError, ValueError, IndexError, OSError):
                    pass

    def test_opens_paths_alone(self):
        for path in (0, True, None, 1.0):
            self.assertRaises(TypeError, adf.open, path)


class Refusals(unittest.TestCase):
    def test_refuses_as_the_command_does(self):
        sound = image_of()
        (page,) = struct.unpack_from(">I", sound, 512 * 880 + 4 * 79)
        images = [b"", bytes(511), bytes(1760 * 512), sound[:-1], changed(sound, 0, 0, 0x50)]
        images += [changed(sound, 880, 440, 1), changed(sound, page, 7, 9)]
        for image in images:
            status, line, _ = adf.run(["check"], image)
            for call in (adf.Volume, adf.check):
                with self.assertRaises(adf.Refused) as raised:
                    call(image)
                self.assertEqual((status, line.decode()), (1, f"{raised.exception}\n"))
        self.assertEqual((raised.exception.block, raised.exception.filename), (page, None))

    def test_refuses_by_size(self):
        large = bytes(adf.LARGE + 1024)
        self.assertEqual(adf.run(["check"], large), (1, b"block 0: bad size\n", b""))
        for is_international, told in ((False, "block 0: bad size"), (True, "block 0: not dos")):
            self.assertRaisesRegex(adf.Refused, f"^{told}$", adf.check, large, is_international)
        self.assertRaisesRegex(adf.Refused, "^block 0: not dos$", adf.Volume, large)

    def test_opens_files(self):
        with tempfile.TemporaryDirectory() as folder:
            path = os.path.join(folder, "disk.adf")
            with self.assertRaises(FileNotFoundError):
                adf.open(path)
            with self.assertRaises(IsADirectoryError):
                adf.open(folder)
            with open(path, "wb") as file:
                file.write(image_of())
            self.assertEqual(adf.open(path).label, "Bücher")
            self.assertEqual(adf.open(os.fsencode(path)).label, "Bücher")
            with open(path, "wb"):
                pass
            for name in (path, os.fsencode(path)):
                with self.assertRaises(adf.Refused) as raised:
                    adf.open(name)
                self.assertEqual((raised.exception.filename, str(raised.exception)), (name, f"{path}: block 0: bad size"))

    def test_reads_no_more_than_there_is(self):
        image = image_of()
        with tempfile.TemporaryDirectory() as folder:
            path = os.path.join(folder, "disk.adf")
            with open(path, "wb") as file:
                file.write(image)
            with open(path, "rb") as file:
                asked = unittest.mock.Mock(wraps=file)
                self.assertEqual(adf.read_image(asked), image)
                asked.read.assert_called_once_with(len(image) + 1)
            reading, writing = os.pipe()
            with open(reading, "rb") as pipe, open(writing, "wb") as file:
                threading.Thread(target=lambda: (file.write(image), file.close())).start()
                self.assertEqual(adf.read_image(pipe), image)
            with open(path, "r+b") as file, unittest.mock.patch.object(_sources, "MOST_BYTES", 512 * 1000):
                self.assertEqual(len(adf.read_image(file)), 512 * 1000 + 1)

    def test_names_a_file_by_what_can_be_printed(self):
        for name, shown in (("B\xfc \u20ac.adf", "B\xfc \u20ac.adf"), ("a\x1b[2J\n", r"a\x1b[2J\n"), (b"a\x9b\xff", r"a\udc9b\udcff")):
            self.assertEqual(str(adf.Refused("bad sum", 880, 7, name)), f"{shown}: block 880: bad sum")

    def test_raises_errors_of_its_own(self):
        for kind, python in (
            *((adf.Refused, Exception), (adf.NoLibrary, ImportError), (adf.NoMemory, MemoryError), (adf.Closed, ValueError)),
            *((adf.NoSuchPath, KeyError), (adf.NotAFile, IsADirectoryError), (adf.Damaged, OSError)),
        ):
            self.assertTrue(issubclass(kind, adf.Error) and issubclass(kind, python))
        volume = adf.Volume(image_of())
        with self.assertRaises(adf.NoSuchPath) as missing:
            volume["nix"]
        with self.assertRaises(adf.NotAFile) as directory:
            volume["c"].read()
        self.assertEqual((str(missing.exception), directory.exception.filename), ("'nix'", "c"))
        with self.assertRaises(adf.Error):
            adf.load("/nix/libadf.so")

    def test_runs_commands(self):
        self.assertEqual(adf.run(["cat", "nix"], image_of())[::2], (1, b"no such path\n"))
        self.assertEqual(adf.run(["frob"])[0], 2)
        self.assertEqual(adf.run(["cat", "large"], image_of()), (0, LARGE, b""))
        self.assertEqual(len(adf.run(["build"], b"volume ffs 20000\n")[1]), 20000 * 512)
        with self.assertRaises(ValueError):
            adf.run(["cat", "a\0b"], image_of())
        ran = adf.run(["check"], built("volume ofs 4\n"))
        self.assertEqual((ran.status, ran.output, ran.errors), (0, b"ok ofs blocks 4 used 2 free 0 dirs 0 files 0\n", b""))
        for words in ("check", b"check", ["cat", b"c"], 7):
            with self.assertRaises(TypeError):
                adf.run(words, image_of())

    def test_cuts_output_at_the_largest_room(self):
        manifest, image = b"volume ofs 80\n", built("volume ofs 80\n")
        for room, answer in ((80 * 512, (0, image, b"")), (80 * 512 - 1, (3, image[:-1], b"write fault\n"))):
            with unittest.mock.patch.object(commands, "MOST_OUTPUT", room):
                status, output, errors = adf.run(["build"], manifest)
            self.assertEqual((status, errors), answer[::2])
            self.assertTrue(answer[1].startswith(output))

    def test_says_that_there_is_no_library(self):
        for path in ("/nix/libadf.so", adf.__file__):
            with self.assertRaisesRegex(ImportError, "no shared library of adf"):
                adf.load(path)


class Surveys(unittest.TestCase):
    def test_tells_findings_and_what_is_found(self):
        # The header of `c` is the first free block, 2, that of its file the next; byte 323 is the last of the protection.
        sound = built("volume ofs 16\nlabel B\\xfccher\ndir 0:0:0 00000000 c\nfile 8035:1:50 0000000f c/l\\xf6ng\nnote a\\x09b\nfill 488 41\n")
        damaged = adf.survey(changed(sound, 2, 323, 1))
        self.assertEqual(adf.survey(sound).findings, [])
        self.assertEqual(damaged.findings, [adf.Finding(2, 2, "bad sum", "c", None)])
        directory, file = damaged.entries
        self.assertEqual(directory[1:], (1, 0, 2, 0, 1, adf.Date(0, 0, 0), False, False, b"c", b""))
        self.assertEqual(file[1:], (2, 1, 3, 488, 15, adf.Date(8035, 1, 50), True, True, b"l\xf6ng", b"a\tb"))
        self.assertEqual((file.name, file.path, file.raw_path, file.comment), (r"l\xf6ng", r"c/l\xf6ng", b"c/l\xf6ng", "a\tb"))
        self.assertEqual((damaged.label, damaged.raw_label, damaged.kind), ("B\xfccher", b"B\xfccher", "ofs"))
        for path in (file.path, file.raw_path, "C/l\xf6ng"):
            self.assertEqual((damaged.read(path), damaged.remains(path), file.read()), (b"A" * 488, (b"A" * 488, []), b"A" * 488))
        for path in ("", "c"):
            with self.assertRaises(IsADirectoryError):
                damaged.read(path)
        for path in ("nix", "c//", "\u20ac", "\\x", b"c/l\\xf6ng"):
            with self.assertRaises(KeyError):
                damaged.read(path)
        for path in (0, None, ["c"], bytearray(b"c")):
            with self.assertRaises(TypeError):
                damaged.read(path)
        with self.assertRaisesRegex(OSError, "damaged"):
            adf.survey(changed(sound, 3, 323, 1)).read(file.path)

    def test_tells_what_is_left_of_a_file(self):
        # The header of `a` is block 2, its data 3 to 5, with 488 bytes in each but the last; the types of 3 and 5 become 0.
        sound = built("volume ofs 16\nfile 0:0:0 00000000 a\nfill 1000 41\ndir 0:0:0 00000000 c\n")
        self.assertEqual(adf.survey(sound).remains("a"), (b"A" * 1000, []))
        damaged = adf.survey(changed(changed(sound, 3, 3, 8), 5, 3, 8))
        left = bytes(488) + b"A" * 488, [range(0, 488), range(976, 1000)]
        self.assertEqual((damaged.remains(b"A"), damaged.entries[0].remains()), (left, left))
        with self.assertRaises(IsADirectoryError):
            damaged.remains("c")
        with self.assertRaises(KeyError):
            damaged.remains("nix")

    def test_reads_what_is_left_by_number(self):
        # As above: blocks 3 and 5 are lost. Then the name becomes one that no path has, and the image is cut before block 5.
        sound = built("volume ofs 16\nfile 0:0:0 00000000 a\nfill 1000 41\ndir 0:0:0 00000000 c\n")
        file, directory = adf.survey(sound).entries
        self.assertEqual((list(file.pieces()), file.gaps), ([(0, b"A" * 1000)], []))
        self.assertEqual((list(directory.pieces()), directory.gaps), ([], []))
        damaged = changed(changed(changed(sound, 3, 3, 8), 5, 3, 8), 2, 433, ord("a") ^ ord("/"))
        survey = adf.survey(damaged)
        self.assertEqual(list(survey.entries[0].pieces()), [(488, b"A" * 488)])
        self.assertEqual(survey.entries[0].gaps, [range(0, 488), range(976, 1000)])
        self.assertEqual([adf.ROLES[role] for role in survey.owners()[2:6]], ["header", "free", "data", "free"])
        ffs = built("volume ffs 16\nfile 0:0:0 00000000 a\nfill 1000 41\n")
        found = pickle.loads(pickle.dumps(adf.survey(ffs[: 9 * 512], 16)))
        self.assertEqual(found.entries[0].gaps, [])
        self.assertEqual(adf.survey(b"").owners(), b"")

    def test_surveys_what_adf_survey_opens(self):
        # Both boot blocks are lost; then the type is that of FFS, and the files say OFS.
        sound = built("volume ofs 16\nfile 0:0:0 00000000 a\nfill 1000 41\n")
        for image, cause in ((bytes(1024) + sound[1024:], "not dos"), (changed(sound, 0, 3, 1), "files of ofs")):
            survey = pickle.loads(pickle.dumps(adf.survey(image)))
            self.assertEqual((survey.findings, list(survey.ranges())), ([adf.Finding(0, 0, cause, None, None)], [range(1)]))
            self.assertEqual((survey.is_begun, survey.is_retyped, survey.kind, survey.image), (cause == "not dos", cause != "not dos", "ofs", image))
            self.assertEqual((survey.read("A"), survey.remains("a"), survey.entries[0].read()), (b"A" * 1000, (b"A" * 1000, []), b"A" * 1000))
            self.assertEqual([adf.ROLES[role] for role in survey.owners()[2:6]], ["header", "data", "data", "data"])
            rescued = adf.Rescued(image)
            self.assertEqual(rescued.entry_of(rescued.survey.entries[0]).read(), b"A" * 1000)
        # The name 0xE9 is in the slot that it has by international letters: so is the type.
        for kind in adf.KINDS:
            image = changed(international(kind), 0, 3, 2)
            survey = adf.survey(image)
            found = [adf.Finding(0, 0, cause, None, None) for cause in (f"files of {kind}-international", "international")]
            self.assertEqual((survey.findings, survey.is_retyped, survey.kind), (found, True, kind))
            self.assertEqual((survey.image, survey.read(b"\xc9"), [entry.is_sound for entry in survey.entries]), (image, b"A", [True, True]))
        cut = adf.survey((bytes(4) + sound[4:])[: 512 * 9], 16)
        self.assertEqual((cut.is_begun, len(cut.image), cut.entries[0].is_sound), (True, 8192, True))
        self.assertEqual(adf.survey((bytes(4) + sound[4:])[: 512 * 4], 16).findings[0].cause, "not dos")

    def test_tells_what_findings_concern(self):
        # The chain of `b`, in slot 7, goes on to the header of `a`, which slot 6 has; byte 499 is the last of the next in the chain.
        sound = built("volume ofs 16\nfile 0:0:0 00000000 a\nfill 9 41\nfile 0:0:0 00000000 b\n")
        one, other = (adf.Volume(sound)[name].header for name in "ab")
        found = adf.survey(changed(sound, other, 499, one))
        self.assertEqual(found.findings, [adf.Finding(other, other, "bad sum", "b", None), adf.Finding(one, one, "taken", "/", "a")])
        self.assertEqual([(entry.path, entry.is_sound) for entry in found.entries], [("a", True), ("b", False)])

    def test_reads_no_file_for_another_one(self):
        # The header of `b` gets the name `a` or `A`, and its sum stays right: byte 432 is the length of the name, 433 its first.
        for kind in adf.KINDS:
            sound = built(f"volume {kind} 16\nfile 0:0:0 00000000 a\ndata 31\nfile 0:0:0 00000000 b\ndata 32\n")
            for name in b"aA":
                image = bytearray(sound)
                place = 512 * adf.Volume(sound)["b"].header
                image[place + 433] = name
                (total,) = struct.unpack_from(">I", image, place + 20)
                struct.pack_into(">I", image, place + 20, (total + ((ord("b") - name) << 16)) % 2**32)
                survey = adf.survey(image)
                first, second = survey.entries
                self.assertEqual([entry.path for entry in survey.entries], ["a", f"lost-{place // 512}"])
                self.assertEqual((first.remains(), survey.remains("a")), ((b"1", []), (b"1", [])))
                self.assertEqual((second.is_sound, second.remains(), second.read()), (True, (b"2", []), b"2"))

    def test_reads_no_file_in_a_directory_of_another_one(self):
        sound = built("volume ofs 32\ndir 0:0:0 00000000 a\nfile 0:0:0 00000000 a/f\ndata 31\ndir 0:0:0 00000000 b\nfile 0:0:0 00000000 b/f\ndata 32\n")
        image, place = bytearray(sound), 512 * adf.Volume(sound)["b"].header
        image[place + 433] = ord("a")
        survey = adf.survey(image)
        other = f"lost-{place // 512}"
        self.assertEqual([entry.path for entry in survey.entries], ["a", other, "a/f", f"{other}/f"])
        self.assertEqual([entry.read() for entry in survey.entries[2:]], [b"1", b"2"])

    def test_compares_names_by_the_type_of_the_image(self):
        # Of types 0 and 1 the names differ, of types 2 and 3 they are the same: both headers are then in the slot of 0xC4. Block 8 is the root.
        sound = built("volume ofs 16\nfile 0:0:0 00000000 \\xe4\ndata 31\nfile 0:0:0 00000000 \\xc4\ndata 32\n")
        self.assertEqual({entry.read() for entry in adf.survey(sound).entries}, {b"1", b"2"})
        small, capital = (adf.Volume(sound)[name].header.to_bytes(4, "big") for name in (b"\xe4", b"\xc4"))
        image, own, place = bytearray(sound), sound.index(small, 512 * 8 + 24), sound.index(capital, 512 * 8 + 24)
        image[own : own + 4], image[place : place + 4], image[3] = bytes(4), small, 2
        image[512 * small[3] + 496 : 512 * small[3] + 500] = capital
        survey = adf.survey(image)
        self.assertEqual((survey.is_retyped, len(survey.entries)), (False, 2))
        # The header of the small letter has a wrong checksum.
        self.assertEqual({entry.raw_name: entry.remains()[0] for entry in survey.entries}, {b"lost-%d" % small[3]: b"1", b"\xc4": b"2"})

    def test_reads_a_file_that_no_path_leads_to(self):
        sound = built("volume ofs 16\nfile 0:0:0 00000000 ab\ndata 31\n")
        for name in b"/:":
            (entry,) = adf.survey(changed(sound, adf.Volume(sound)["ab"].header, 433, name ^ ord("a"))).entries
            self.assertEqual(entry.remains(), (b"1", []))

    def test_spells_names_that_are_none_as_adf_survey_does(self):
        # The header of `c` is block 2, that of `c/ab` block 3, its data block 4, whose type becomes 0. Byte 432 is the length of a name.
        sound = changed(built("volume ofs 16\ndir 0:0:0 00000000 c\nfile 0:0:0 00000000 c/ab\ndata 41\n"), 4, 3, 8)
        for name, stated, path in (
            *((b"\2/b", r"c/\x2fb", "c/lost-3"), (b"\2..", "c/..", "c/.."), (b"\2:\x1b", r"c/\x3a\x1b", "c/lost-3"), (b"\0ab", r"c/\x", "c/lost-3")),
            (b"\2\\\xfc", r"c/\x5c\xfc", r"c/\x5c\xfc"),
        ):
            image = bytearray(sound)
            image[512 * 3 + 432 : 512 * 3 + 435] = name
            survey = adf.survey(image)
            found, raw = survey.entries[1], name[1 : 1 + name[0]]
            is_same, new = path == stated, raw if path == stated else b"lost-3"
            self.assertEqual((found.path, found.name, found.raw_path, found.raw_name), (path, path[2:], b"c/" + new, new))
            self.assertIn(f"blocks 3 to 4: bad sum: {stated}", lines_of("--list", image))
            self.assertEqual({finding.path for finding in survey.findings} - {None, "c", "c/"}, {path})
            self.assertTrue(any(line.startswith("damaged file") and line.endswith(f" {path}") for line in lines_of("--list", image)))
            left_out = adf.rescue(image)[1]
            told = [(path, b"c/" + new), *([] if is_same else [(stated, b"c/" + raw)])]
            self.assertEqual([(each.path, each.raw_path) for each in pickle.loads(pickle.dumps(left_out)) if each.is_entry], told)
            self.assertEqual([str(each) for each in left_out], lines_of("rescue", image))

    def test_spells_random_names_as_adf_survey_does(self):
        names = [f"{'d/' * depth}n{number}" for depth in (0, 1) for number in range(9)]
        sound = built(["volume ofs 64", "dir 0:0:0 00000000 d", *(f"file 0:0:0 00000000 {name}" for name in names)])
        draw, headers = random.Random(1), [entry.header for entry in adf.Volume(sound).entries]
        for _ in range(20):
            image = bytearray(sound)
            for header in draw.sample(headers, 6):
                length = draw.choice((0, 1, 2, 30, 31, 79, 80, 255))
                image[512 * header + 432] = length
                image[512 * header + 433 : 512 * header + 433 + min(length, 40)] = draw.choices(b"/:.\\x\0\x1b\x7f\x9b\xfc ab", k=min(length, 40))
            lines = [line for line in lines_of("--list", image) if re.match("(sound|damaged) ", line)]
            survey = adf.survey(image)
            self.assertEqual([re.sub(r"^(?:\S+ +){4}(?:\S+:\S+|\S+ \S+) ", "", line) for line in lines], [found.path for found in survey.entries])
            self.assertEqual([str(each) for each in adf.rescue(image)[1]], lines_of("rescue", image))

    def test_reads_no_other_file_for_a_name_with_a_slash(self):
        # `a/b` is a file in `a`, and becomes the name of the file `axb` too; that one is read by itself alone.
        sound = built("volume ofs 16\ndir 0:0:0 00000000 a\nfile 0:0:0 00000000 a/b\ndata 31\nfile 0:0:0 00000000 axb\ndata 32\n")
        header = adf.Volume(sound)["axb"].header
        survey = adf.survey(changed(sound, header, 434, ord("x") ^ ord("/")))
        found = next(entry for entry in survey.entries if entry.header == header)
        self.assertEqual((found.path, found.remains()[0], survey.read("a/b"), survey.read(b"a/b")), (f"lost-{header}", b"2", b"1", b"1"))
        self.assertRaises(adf.Damaged, survey.read, found.path)
        self.assertRaises(adf.NoSuchPath, survey.read, r"a\x2fb")

    def test_has_findings_as_a_list_has(self):
        findings = adf.survey(changed(changed(image_of(), 880, 440, 1), 0, 3, 2)).findings
        self.assertEqual((findings[:1], [findings[-2]], list(findings)), ([findings[0]], [findings[0]], findings))
        self.assertEqual((len(findings), findings[0] in findings, repr(findings)), (2, True, repr(list(findings))))
        self.assertFalse(findings == [] or findings == 7)

    def test_makes_paths_when_they_are_asked_for(self):
        # Each directory of 1,000 has a finding; from the root on all their paths together have 15 million letters.
        names = ["/".join(["d" * 30] * (level + 1)) for level in range(1000)]
        image = bytearray(built(["volume ffs 4000", *(f"dir 0:0:0 00000000 {name}" for name in names)]))
        for entry in adf.Volume(image).entries:
            image[512 * entry.header + 323] ^= 1
        survey = adf.survey(image)
        self.assertEqual((len(survey.findings), len(list(survey.ranges()))), (1000, 1000))
        # Behind `\\block 963/`, of 11 bytes, 32 names with their separators fit into 1,024.
        self.assertEqual(survey.findings[-1].path.partition("/")[2], "/".join(["d" * 30] * 32))

    def test_finds_nothing_in_no_volume(self):
        nothing = adf.survey(b"")
        self.assertEqual((nothing.findings, nothing.entries), ([adf.Finding(0, 0, "bad size", None, None)], []))
        self.assertEqual((nothing.label, nothing.raw_label, nothing.kind), ("", b"", ""))

    def test_rescues_what_stands(self):
        sound = built("volume ofs 16\nfile 0:0:0 00000000 a\nfill 489 41\ndir 0:0:0 00000000 c\n")
        self.assertEqual(adf.rescue(sound), (sound, []))
        new, left_out = adf.rescue(changed(sound, 3, 40, 1))
        self.assertEqual(left_out, [adf.LeftOut(adf.Reason.DAMAGED, b"a", 2, 2)])
        self.assertEqual([entry.path for entry in adf.Volume(new).entries], ["c"])
        # Where nothing stands, the first fault is told: a cause has the number that include/adf.h gives it.
        for image, blocks, fault in ((b"", None, ("bad size", 0, 1)), (b"", 16, ("not dos", 0, 2)), (bytes(8192), None, ("not dos", 0, 2))):
            with self.assertRaises(adf.Refused) as raised:
                adf.rescue(image, blocks)
            self.assertEqual((raised.exception.cause, raised.exception.block, raised.exception.number), fault)

    def test_takes_an_image_as_if_it_had_its_blocks(self):
        sound = built("volume ofs 16\nfile 0:0:0 00000000 a\nfill 489 41\n")
        cut = adf.survey(sound[:5120], 16)
        self.assertEqual(cut.findings, [])
        self.assertEqual(cut.read("a"), b"A" * 489)
        self.assertEqual(adf.rescue(sound[:5120], 16), (sound, [adf.LeftOut(adf.Reason.BLOCKS, b"", 10, 15)]))
        # Without its root the file is found by its header, which names the root's block as its directory. Block 5 is the new root.
        new, left_out = adf.rescue(sound[:5120])
        self.assertEqual([entry.path for entry in adf.Volume(new).entries], ["lost-8", "lost-8/a"])
        lines = ["lost: block 5", "lost: in /", "lost: in lost-8/", "made: lost-8", "perhaps deleted: lost-8/a"]
        self.assertEqual((adf.Volume(new)["lost-8/a"].read(), [str(each) for each in left_out]), (b"A" * 489, lines))
        for blocks in (-1, 1 << 23 | 1):
            with self.assertRaises(ValueError):
                adf.survey(sound, blocks)

    def test_tells_all_that_a_rescue_leaves_out(self):
        names = [f"{number:030}" for number in range(300)]
        image = built("volume ofs 1760\ndir 0:0:0 00000000 c\n" + "".join(f"file 0:0:0 00000000 {name}\n" for name in names))
        for block in range(2, 303):
            image = changed(image, block, 323, 1)
        _, left_out = adf.rescue(image)
        self.assertEqual(sorted(entry.path for entry in left_out if entry.is_entry), [*names, "c"])
        self.assertEqual([entry.path for entry in left_out if entry.is_kept], ["c"])


def lines_of(word, image):
    """The lines of adf-survey for an image: those of its output without a word for `rescue`, whose output is a volume, and its errors."""
    words, image = b"adf-survey\0" + word.encode() + b"\0", bytes(image)
    output, errors, moved = ctypes.create_string_buffer(1 << 16), ctypes.create_string_buffer(1 << 16), _structs.Moved()
    call = adf.load(adf.library_path()).adf_survey_run
    call.argtypes = _library.CALLS["adf_run"][1:]
    call(words, len(words), image, len(image), output, len(output), errors, len(errors), ctypes.byref(moved))
    told = (b"" if word == "rescue" else output.raw[: moved.output]) + errors.raw[: moved.errors]
    return told.decode("ascii").splitlines()


def table(words):
    """A block of a disk's tables with these words, and its sum in word 2."""
    block = [0] * 128
    for place, value in words.items():
        block[place] = value
    block[2] = -sum(block) % 2**32
    return struct.pack(">128I", *block)


RIGID_DISK = {0: 0x5244534B, 1: 64, 4: 512, 7: 1, 32: 0, 33: 15}
DRIVE = {0: 0x50415254, 1: 64, 5: 1, 32: 16, 33: 128, 35: 1, 36: 1, 37: 16, 47: 0xFFFFFFFB}


class Disks(unittest.TestCase):
    """A disk of 132 blocks: DH0 has blocks 16 to 31, and DH1 blocks 32 to 143, beyond the end."""

    first = {**DRIVE, 4: 2, 9: 0x03444830, 41: 1, 42: 1, 48: 0x444F5301}
    second = {**DRIVE, 4: 0xFFFFFFFF, 9: 0x03444831, 41: 2, 42: 8, 48: 0x50465303}

    def disk(self, head=RIGID_DISK):
        volume = built("volume ffs 16\nfile 0:0:0 00000000 a\ndata 616263\n")
        return (table(head) + table(self.first) + table(self.second)).ljust(16 * 512, b"\0") + volume + bytes(100 * 512)

    def test_tells_partitions(self):
        disk = adf.Disk(self.disk())
        self.assertEqual((disk.cause, disk.block), ("", 0))
        self.assertEqual(disk.partitions, adf.partitions(self.disk()))
        self.assertEqual(
            disk.partitions,
            [(1, b"DH0", "ffs", 16, 16, 1, -5, 1, ""), (2, b"DH1", "PFS\\x03", 0, 0, 1, -5, 2, "beyond image")],
        )
        self.assertEqual((disk["dh0"].number, disk[2].name), (1, "DH1"))
        self.assertEqual(adf.Volume(disk.volume("DH0"))["a"].read(), b"abc")
        for wanted in (0, 3, -1, 2**64 + 1, "DH", "DH2", "\u20ac", b"\xff"):
            self.assertRaises(KeyError, disk.volume, wanted)
        for wanted in (None, True, 1.0, ["DH0"]):
            self.assertRaises(TypeError, disk.volume, wanted)
        self.assertEqual(disk[b"dh0"], disk["DH0"])
        self.assertRaises(OSError, disk.volume, "DH1")

    def test_says_that_an_image_is_shorter_than_it_was(self):
        image = bytearray(self.disk())
        disk = adf.Disk(image)
        del image[31 * 512 :]
        self.assertRaises(adf.Damaged, disk.volume, "DH0")

    def test_finds_volumes_whatever_their_file_system(self):
        head, volume = self.disk()[:512], self.disk()[16 * 512 : 32 * 512]
        for words, fault in (({32: 9}, "short environment"), ({36: 2}, "other block size"), ({9: 0x03443A30}, "bad name")):
            other = adf.Disk((head + table({**self.first, **words}) + table(self.second)).ljust(16 * 512, b"\0") + volume)
            self.assertEqual((other[1].first, other[1].blocks, other[1].fault, other.volume(1)), (16, 16, fault, volume))

    def test_takes_the_bytes_that_a_view_shows(self):
        whole = self.disk()
        apart = bytearray(2 * len(whole))
        apart[::2] = whole
        for view in (memoryview(apart)[::2], memoryview(whole).cast("I")):
            self.assertEqual(adf.Disk(view).partitions, adf.Disk(whole).partitions)
            self.assertEqual(adf.Disk(view).volume(1), adf.Disk(whole).volume(1))

    def test_tells_what_can_be_read(self):
        damaged = self.disk({**RIGID_DISK, 7: 3})
        disk = adf.Disk(bytearray(damaged))
        self.assertEqual((disk.cause, disk.block, [each.name for each in disk.partitions]), ("not a partition", 3, ["DH0", "DH1"]))
        with self.assertRaises(adf.Refused) as refused:
            adf.partitions(damaged)
        self.assertEqual(str(refused.exception), "block 3: not a partition")
        self.assertEqual(str(adf.Disk(b"").cause), "no rigid disk")


class Files(unittest.TestCase):
    def setUp(self):
        self.volumes = [adf.Volume(image_of(kind)) for kind in adf.KINDS]

    def test_reads_parts(self):
        for volume in self.volumes:
            entry = volume["large"]
            self.assertEqual(entry.read(), LARGE)
            for offset in (0, 1, 487, 488, 489, 511, 512, 513, 36863, 36864, 59999, 60000, 60001, 2**70):
                for count in (0, 1, 24, 488, 512, 1000, 70000):
                    self.assertEqual(entry.read(offset, count), LARGE[offset : offset + count])
            room = bytearray(b"?" * 10)
            self.assertEqual((entry.read_into(memoryview(room)[2:5], 100), bytes(room)), (3, b"??" + LARGE[100:103] + b"?" * 5))
            self.assertEqual((volume["none"].read(), volume["none"].read(5), volume["none"].read_into(room)), (b"", b"", 0))

    def test_refuses_what_is_no_part(self):
        entry = self.volumes[0]["large"]
        for offset in (-1, -(10**12), -(2**64)):
            self.assertRaises(ValueError, entry.read, offset)
            self.assertRaises(ValueError, entry.read_into, bytearray(5), offset)
        for number in (None, "1", 1.0, True):
            self.assertRaises(TypeError, entry.read, number)
            self.assertRaises(TypeError, entry.read, 0, number)
            self.assertRaises(TypeError, entry.read_into, bytearray(5), number)
        for room in (bytes(5), b"", memoryview(bytes(5)), memoryview(bytearray(8))[::2], 5, None, [0]):
            self.assertRaises(TypeError, entry.read_into, room)
        for call in (self.volumes[0]["c"].read, self.volumes[0]["c"].open):
            with self.assertRaises(IsADirectoryError):
                call()

    def test_fills_buffers_of_any_items(self):
        for volume in self.volumes:
            for room in (array.array("H", [0] * 4), memoryview(bytearray(8)).cast("B", (2, 4)), (ctypes.c_uint32 * 2)()):
                self.assertEqual((volume["large"].read_into(room, 100), bytes(room)), (8, LARGE[100:108]))

    def test_is_a_file_that_seeks(self):
        wanted = io.BytesIO(LARGE)
        for volume in self.volumes:
            with volume["large"].open() as file:
                steps = (0, 0, 10), (500, 1, 700), (-7, 2, 20), (3, 2, 5), (70000, 0, 1), (100, 0, -1), (0, 0, 9000)
                for offset, whence, count in steps:
                    self.assertEqual(file.seek(offset, whence), wanted.seek(offset, whence))
                    self.assertEqual((file.read(count), file.tell()), (wanted.read(count), wanted.tell()))
                with self.assertRaises(OSError):
                    file.seek(-1)
                for whence in (-1, 3):
                    with self.assertRaises(ValueError):
                        adf.File(volume["large"]).seek(0, whence)
                for offset in (1.0, None, True):
                    self.assertRaises(TypeError, adf.File(volume["large"]).seek, offset)
                with self.assertRaises(io.UnsupportedOperation):
                    file.write(b"x")
            with self.assertRaises(ValueError):
                file.read()
            bare = adf.File(volume["large"])
            bare.close()
            self.assertRaises(ValueError, bare.readinto, bytearray(1))
            self.assertRaises(ValueError, bare.seek, 0)
            with volume["none"].open() as file:
                self.assertEqual((file.read(), file.seek(0, 2)), (b"", 0))
            self.assertEqual(list(io.TextIOWrapper(volume["c/readme"].open(), "latin-1")), ["Hello\n"])

    def test_is_read_by_many_threads(self):
        came = []

        def work(volume, first):
            for offset in range(first, 60000, 997):
                came.append(volume["LARGE"].read(offset, 1500) == LARGE[offset : offset + 1500])
            came.append(len(volume.entries) == 5 and adf.Volume(volume.image).owners() == volume.owners())

        crowd = [threading.Thread(target=work, args=(self.volumes[n % 2], n)) for n in range(8)]
        for thread in crowd:
            thread.start()
        for thread in crowd:
            thread.join()
        self.assertEqual((set(came), len(came)), ({True}, 8 * 62))


class Pages(Folder):
    """What the page of the module and the example in Python tell to write."""

    @unittest.skipUnless(os.path.exists(os.path.join(HERE, "..", "README.md")), "needs README.md")
    def test_change_a_volume_with_its_dates_and_boot_blocks(self):
        dates = adf.Date(1, 2, 3), adf.Date(4, 5, 6), adf.Date(7, 8, 9)
        entries = [adf.Addition("s", date=dates[0]), adf.Addition("readme", b"A"), adf.Addition("s/startup-sequence", b"B", b"N", 5, dates[1])]
        old = adf.build("ffs", 1760, entries, "Games", dates)
        for image in (old, adf.with_standard_boot(old), old[:12] + b"code" + old[16:]):
            written("games.adf", image)
            with open(os.path.join(HERE, "..", "README.md"), encoding="utf-8") as file:
                (lines,) = re.findall(r"build it again.*?```python\n(.*?)```", file.read(), re.DOTALL)
            names = {"adf": adf}
            exec(lines, names)
            new = adf.Volume(names["image"])
            self.assertEqual((new.boot.raw, new.label, new.blocks, (new.date, new.altered, new.created)), (image[:1024], "Games", 1760, dates))
            files = {entry.path: entry.read() for entry in new.entries if entry.is_file}
            self.assertEqual(files, {"s/startup-sequence": b"B", "s/user-startup": b"echo Hello\n"})
            self.assertEqual(new["s/startup-sequence"][5:], adf.Volume(image)["s/startup-sequence"][5:])

    @unittest.skipUnless(os.path.exists(os.path.join(TOP, "examples", "list.py")), "needs examples")
    def test_write_nothing_that_a_terminal_obeys(self):
        names = [bytes([byte]) + b"[2J" for byte in NAME_BYTES if byte != 91 and not 97 <= byte <= 122]
        image = adf.build("ofs", None, [adf.Addition(name, name) for name in names], b"\x1b[2J")
        header = adf.Volume(image)[b"\x1b[2J"].header
        for content in (image, changed(image, header + 1, 3, 8)):
            written("a.adf", content)
            ran = self.run_python(os.path.join(TOP, "examples", "list.py"), "a.adf")
            self.assertEqual((ran.returncode, {byte for byte in ran.stdout + ran.stderr if not 32 <= byte <= 126}), (0, {10}))
            self.assertIn(b"\\x1b[2J\n", ran.stdout)
        ran = self.run_python(os.path.join(TOP, "examples", "list.py"), "a.adf", r"\xff[2J")
        self.assertEqual((ran.returncode, ran.stdout), (0, b"\xff[2J"))
        for word in ("nix", "\\", "\xff"):
            ran = self.run_python(os.path.join(TOP, "examples", "list.py"), "a.adf", word)
            self.assertEqual((ran.returncode, ran.stdout, b"Traceback" in ran.stderr), (1, b"", False))
