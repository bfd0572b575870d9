"""Tests of adf-unpack."""

import errno
import os
import zlib
from unittest import mock

import adf
from adf_tools import trees, uaem
from adf_tools.names import LETTERS, UAEM, host_name
from adf_tools.unpack import Unpacker
from tests.shared import LARGE, NAME_BYTES, Folder, built, changed, image_of, listed, nested, written


class Folders(Folder):
    def test_writes_all_files_with_their_dates(self):
        for kind in adf.KINDS:
            self.tool("unpack", kind, given=image_of(kind))
            self.assertEqual(sorted(os.listdir(kind)), ["c", "empty", "large", "none"])
            with open(f"{kind}/large", "rb") as file:
                self.assertEqual(file.read(), LARGE)
            self.assertEqual(os.listdir(f"{kind}/empty"), [])
            self.assertEqual(os.stat(f"{kind}/c").st_mtime_ns, (946684800 + 61 * 60 + 3) * 10**9 + 20_000_000)
            self.assertEqual(os.stat(f"{kind}/c/readme").st_mtime_ns, 946684800 * 10**9)

    def test_writes_deep_trees(self):
        self.tool("unpack", "--uaem", "deep", given=nested(1756))
        with trees.Place("deep") as place:
            for _ in range(1756):
                self.assertEqual(place.status(b"ddd").st_mtime_ns, 946684800 * 10**9)
                place.go_in(b"ddd")
            self.assertEqual(sorted(place.names()), [b"f", b"f.uaem"])
        trees.remove("deep")

    def test_leaves_out_what_the_host_refuses(self):
        self.refused(3, "new/large: File too large", "unpack", "new/", given=image_of(), prefix=["prlimit", "--fsize=512"])
        self.assertEqual((sorted(os.listdir("new")), os.listdir("new/c")), (["c", "empty", "none"], ["readme"]))
        self.assertEqual(os.stat("new/c").st_mtime_ns, (946684800 + 61 * 60 + 3) * 10**9 + 20_000_000)
        self.leaves("new")

    def test_leaves_out_a_directory_with_what_is_in_it(self):
        os.mkdir("new")
        written("new/c")
        volume = adf.Volume(image_of())
        unpacker = Unpacker(volume, LETTERS, writes_uaem=False)
        unpacker.write("new")
        self.assertEqual([(error.filename, error.errno) for error in unpacker.failed], [(b"new/c", errno.EEXIST)])
        self.assertEqual(sorted(os.listdir("new")), ["c", "empty", "large", "none"])

    def test_follows_no_links(self):
        for name in ("out", "new"):
            os.mkdir(name)
        os.symlink("../out", "new/c")
        os.symlink("../out/none", "new/none")
        os.symlink("new", "link")
        unpacker = Unpacker(adf.Volume(image_of()), LETTERS, writes_uaem=False)
        unpacker.write("new")
        self.assertEqual((os.listdir("out"), [error.filename for error in unpacker.failed]), ([], [b"new/c", b"new/none"]))
        self.assertRaises(NotADirectoryError, unpacker.write, "link")

    def test_leaves_nothing_if_no_file_can_be_written(self):
        with mock.patch.object(os, "mkdir", side_effect=OSError(errno.ENOSPC, "No space left on device")):
            unpacker = Unpacker(adf.Volume(nested(3)), LETTERS, writes_uaem=False)
            self.assertRaises(OSError, unpacker.write, ".")
        self.leaves()

    def test_refuses(self):
        os.mkdir("there")
        self.refused(3, "there: File exists", "unpack", "there", given=image_of())
        self.refused(3, "nix/new: No such file or directory", "unpack", "nix/new", given=image_of())
        self.refused(1, "block 880: bad sum", "unpack", "--strict", "new", given=changed(image_of(), 880, 440, 1))
        self.leaves("there")


class Names(Folder):
    def volume_of(self, *names):
        """A volume of files with these names."""
        return built(["volume ofs 1760", *(f"file 8035:0:0 00000000 {adf.escape(name)}" for name in names)])

    def test_keeps_all_bytes(self):
        names = {bytes(byte for byte in NAME_BYTES[at : at + 16]).lower() for at in range(0, 254, 16)}
        image = self.volume_of(*names, b".", b"..", b"...", b"a\\x2e", b"B\xfccher")
        for number, options in enumerate((["--escape"], [], ["--uaem"], ["--uaem", "--escape"])):
            self.tool("unpack", *options, f"f{number}", given=image)
            packed = self.pack(*(option for option in options if option == "--escape"), "ofs", "1760", f"f{number}")
            self.assertEqual(listed(packed), listed(image))
            self.assertTrue(os.path.exists(f"f{number}/" + ("B\\xfccher" if "--escape" in options else "Bücher")))

    def test_names_files_as_emulators_do(self):
        names = {
            **{b"a": "a", b"a.uaem": "a.uae%6d", b"A.UAEM": "A.UAE%4d", b"a*b%41. ": "a%2ab%2541.%20", b"..": ".%2e", b"B\xfc\x85\\r": "Bü%85%5cr"},
            **{b"aux": "au%78", b"CON": "CO%4e", b"prn.x": "pr%6e.x", b"Nul": "Nu%6c", b"com1": "co%6d1", b"lpt0.a.b": "lp%740.a.b"},
            **{b"auxx": "auxx", b"com": "com", b"com12": "com12", b"xaux": "xaux", b"aux_": "aux_"},
        }
        for name, host in names.items():
            self.assertEqual(host_name(name, UAEM).decode(), host)
            self.assertEqual(uaem.name_in(host.encode()), name)
        image = self.volume_of(*(name for name in names if name != b"A.UAEM"))
        self.tool("unpack", "--uaem", "new", given=image)
        hosts = [host for name, host in names.items() if name != b"A.UAEM"]
        self.assertEqual(sorted(os.listdir("new")), sorted([*hosts, *(f"{host}.uaem" for host in hosts)]))
        self.assertEqual(listed(self.pack("ofs", "1760", "new")), listed(image))

    def test_tells_files_from_those_beside_them(self):
        line = b"----rwed 2000-01-01 00:00:00.00 x\n"
        image = built(["volume ofs 1760", "file 8035:0:0 00000000 a", "file 8035:0:0 00000000 a.uaem", f"data {line.hex()}"])
        for number, options in enumerate(([], ["--escape"], ["--uaem"], ["--uaem", "--escape"])):
            self.tool("unpack", *options, f"f{number}", given=image)
            packed = self.pack(*(option for option in options if option == "--escape"), "ofs", "1760", f"f{number}")
            self.assertEqual((listed(packed), adf.Volume(packed)["a.uaem"].read()), (listed(image), line))


def renamed(image, raw):
    """The image of a volume whose file `a` has these bytes as its name, and its old checksum."""
    copy, at = bytearray(image), 512 * (adf.Volume(image)["a"].header + 1) - 80
    copy[at : at + 1 + len(raw)] = bytes([len(raw)]) + raw
    return bytes(copy)


class Damaged(Folder):
    """What is left of damaged files, under the names in their headers."""

    image = built("volume ofs 1760\nfile 8035:0:0 00000000 a\ndata 41\nfile 8035:0:0 00000000 sound\n")

    def test_stays_in_the_folder(self):
        for raw, name in (
            *((b"../escaped", "..\\x2fescaped"), (b"/tmp/abs", "\\x2ftmp\\x2fabs"), (b"..", "\\x2e\\x2e"), (b"nix/b", "nix\\x2fb")),
            *((b"con", "co\\x6e"), (b"a\0:b", "a\\x00\\x3ab"), (b"", "\\x"), (b"x.uaem", "x.uae\\x6d"), (b"\x1b[2J", "\\x1b[2J")),
        ):
            ran = self.run_tool("unpack", "--damaged", "in/new", given=renamed(self.image, raw), prefix=["sh", "-c", 'mkdir in && exec "$@"', "sh"])
            self.assertEqual((ran.returncode, ran.stderr.count(b"\n")), (1, 2), ran.stderr)  # the file, and its block
            self.assertEqual(sorted(os.listdir("in/new")), sorted([f"{name}.damaged", f"{name}.gaps", "sound"]))
            self.leaves("in")
            self.assertEqual(os.listdir("in"), ["new"])
            trees.remove("in")

    def test_has_names_that_are_short_enough(self):
        ran = self.run_tool("unpack", "--damaged", "new", given=renamed(self.image, b"\1" * 64))
        self.assertEqual(ran.returncode, 1, ran.stderr)
        name = "\\x01" * 59 + f"~{zlib.crc32(bytes([1]) * 64):08x}"
        self.assertEqual(sorted(os.listdir("new")), [f"{name}.damaged", f"{name}.gaps", "sound"])

    def test_has_names_of_its_own(self):
        image = built("volume ofs 1760\n" + "".join(f"file 8035:0:0 00000000 {name}\ndata 4{n}\n" for n, name in enumerate(("a", "b", "b.damaged"))))
        header, copy = adf.Volume(image)["b"].header, bytearray(renamed(image, b"b"))
        copy[512 * header + 20] ^= 1  # the sum of `b` is wrong too: two damaged files are called `b`
        self.assertEqual(self.run_tool("unpack", "--damaged", "new", given=bytes(copy)).returncode, 1)
        other = adf.Volume(image)["a"].header
        self.assertEqual(sorted(os.listdir("new")), sorted(["b.damaged", *(f"b-{block}.{end}" for block in (header, other) for end in ("damaged", "gaps"))]))

    def test_ends_with_its_last_block(self):
        image = bytearray(self.image)
        header = 512 * adf.Volume(self.image)["a"].header
        image[header + 324 : header + 328] = (900_000).to_bytes(4, "big")
        ran = self.run_tool("unpack", "--damaged", "new", given=bytes(image))
        self.assertIn(b"adf-unpack: damaged: a: 488 of 900000 bytes are written\n", ran.stderr)
        self.assertEqual(os.stat("new/a.damaged").st_size, 488)
        with open("new/a.gaps", "rb") as file:
            self.assertEqual(file.read(), b"bytes 488 to 899999: no data\n")

    def test_is_written_with_holes(self):
        image = built("volume ofs 1760\nfile 8035:0:0 00000000 a\nfill 800000 41\ndir 0:0:0 00000000 c\n")
        first = 512 * adf.Volume(image)["a"].header + 512
        holes = b"".join(bytes(512) if first <= at < first + 700_000 and image[at + 3] == 8 else image[at : at + 512] for at in range(0, len(image), 512))
        self.run_tool("unpack", "--damaged", "new", given=holes)
        status = os.stat("new/a.damaged")
        self.assertEqual(status.st_size, 800_000)
        self.assertLess(512 * status.st_blocks, 300_000)


class Sidecars(Folder):
    def test_keep_all(self):
        image = built(
            [
                *("volume ofs 1760", "label Kept", "stamps 17860:416:205 17860:0:0 1:2:3", "dir 8035:0:0 00000005 c"),
                *("note B\\xfccher \\x5cx41 C:\\x5cfoo", "file 17860:416:205 000000ff c/a", "file 0:0:1 00000000 b"),
                *("note  x \\x09\\x85 ", "file 9000:1:2 0000000f B\\xfccher", "data 41"),
            ]
        )
        self.tool("unpack", "--uaem", "kept", given=image)
        for name, line in (("c/a", "hspa---- 2026-11-25 06:56:04.10 "), ("c", "----r-e- 2000-01-01 00:00:00.00 B%fccher %5cx41 C:%5cfoo")):
            with open(f"kept/{name}.uaem", "rb") as file:
                self.assertEqual(file.read().decode(), line + "\n")
        words = ("--label", "Kept", "--date", "2026-11-25 06:56:04.05", "--altered", "2026-11-25", "--created", "1:2:3", "ofs", "1760", "kept")
        self.assertEqual(listed(self.pack(*words)), listed(image))
        written("kept/b.uaem", b"----rwed 2000-01-01 00:00:00.00")
        self.assertIn("file 00000000          0 2000-01-01 00:00:00.00 b", listed(self.pack("ofs", "1760", "kept")))
