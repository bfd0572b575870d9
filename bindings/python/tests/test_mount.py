"""Tests of adf-mount's words, and of what it takes for a volume; trials/mount tries what it shows."""

import glob
import gzip
import os
import shlex
import shutil
import struct
import subprocess
import unittest
import unittest.mock
import zipfile

import adf
from adf_tools.names import host_name
from tests.shared import TOP, Folder, built, changed, image_of, written
from tests.packing import dms, lha
from tests.test_unpack import renamed

SOURCES = glob.glob(os.path.join(TOP, "bindings", "fuse", "*.c"))
RIGID_DISK = {0: 0x5244534B, 1: 64, 4: 512, 7: 3, 32: 0, 33: 15}
DRIVE = {0: 0x50415254, 1: 64, 4: 0xFFFFFFFF, 5: 1, 9: 0x03444830, 32: 16, 33: 128, 35: 1, 36: 1, 37: 16, 38: 2, 41: 1, 42: 1, 48: 0x444F5301}


def flags():
    """What the compiler is told of libfuse, or None."""
    if not (shutil.which("pkg-config") and shutil.which("cc") and shutil.which("fusermount3") and os.path.exists("/dev/fuse")):
        return None
    ran = subprocess.run(["pkg-config", "--cflags", "--libs", "fuse3"], stdout=subprocess.PIPE, stderr=subprocess.DEVNULL)
    return shlex.split(ran.stdout.decode()) if ran.returncode == 0 and SOURCES else None


def table(words):
    """A block of a disk's tables with these words, and its sum in word 2."""
    block = [0] * 128
    for place, value in words.items():
        block[place] = value
    block[2] = -sum(block) % 2**32
    return struct.pack(">128I", *block)


def flags_of(library, mark):
    """What the compiler is told of a library that may be left out; nothing if it is not there."""
    ran = subprocess.run(["pkg-config", "--cflags", "--libs", library], stdout=subprocess.PIPE, stderr=subprocess.DEVNULL)
    return [mark, *shlex.split(ran.stdout.decode())] if ran.returncode == 0 else []


def zlib_flags():
    return flags_of("zlib", "-DADF_ZLIB")


def archive_flags():
    return flags_of("libarchive", "-DADF_LIBARCHIVE")


@unittest.skipUnless(flags(), "needs cc, libfuse 3, fusermount3 and /dev/fuse")
class Mounts(Folder):
    def setUp(self):
        super().setUp()
        shutil.copy(adf.library_path(), adf.SONAME)
        line = ["cc", "-std=c11", "-o", "adf-mount", "-I", os.path.join(TOP, "include"), *SOURCES, os.path.abspath(adf.SONAME), *flags(), *zlib_flags()]
        line += archive_flags()
        subprocess.run([*line, f"-Wl,-rpath,{os.getcwd()}"], check=True)
        os.mkdir("seen")
        self.addCleanup(subprocess.run, ["fusermount3", "-u", "-q", os.path.abspath("seen")], stderr=subprocess.DEVNULL)
        written("a.adf", image_of())

    def mount(self, *words):
        """The status, output and errors."""
        ran = subprocess.run(["./adf-mount", *words], stdout=subprocess.PIPE, stderr=subprocess.PIPE, timeout=60)
        return ran.returncode, ran.stdout.decode(), ran.stderr.decode()

    def test_takes_a_floppy_with_a_saved_table_for_a_volume(self):
        # Block 1 becomes the rigid disk block, and block 3, the data of `a`, the block of the only partition.
        image = bytearray(built(f"volume ffs 1760\nfile 0:0:0 00000000 a\ndata {table(DRIVE).hex()}\n"))
        image[512:1024] = table(RIGID_DISK)
        self.assertEqual([(each.name, each.first, each.fault) for each in adf.Disk(image).partitions], [("DH0", 16, "")])
        written("saved.adf", image)
        self.assertEqual(self.mount("saved.adf", "seen"), (0, "", ""))
        self.assertEqual(os.listdir("seen"), ["a"])
        subprocess.run(["fusermount3", "-u", "seen"], check=True)
        self.assertEqual(self.mount("saved.adf", "seen", "--partition", "DH0"), (1, "", "adf-mount: saved.adf: block 0: not dos\n"))

    def test_reads_what_gzip_packed(self):
        packed = gzip.compress(image_of())
        bomb = gzip.compress(bytes(1 << 29)) + gzip.compress(b"x") if zlib_flags() else b""
        for content, status, told in (
            *((packed, 0, ""), (packed[:-9], 3, "damaged archive"), (packed[:99], 3, "damaged archive"), (packed[:-8] + bytes(8), 3, "damaged archive")),
            (bomb, 1, "packed by gzip: more than 536870912 bytes are not unpacked"),
        ):
            if not zlib_flags():
                status, told = 3, "packed by gzip, and adf-mount is built without zlib (Debian's zlib1g-dev)"
            written("packed", content)
            self.assertEqual(self.mount("packed", "seen"), (status, "", f"adf-mount: packed: {told}\n" if told else ""))
            if status == 0:
                self.assertEqual(sorted(os.listdir("seen")), ["c", "empty", "large", "none"])
                subprocess.run(["fusermount3", "-u", "seen"], check=True)

    def test_names_what_is_no_image_of_sectors(self):
        for begin, told in (
            *((b"SCP", "a flux image (SCP): adf reads sectors"), (b"CAPS\0\0\0\x0c", "an image of tracks (IPF): adf reads sectors")),
        ):
            written("other", begin.ljust(901120, b"\1"))
            self.assertEqual(self.mount("other", "seen"), (1, "", f"adf-mount: other: {told}\n"))

    def seen(self, *words):
        """What a mount shows, which says nothing."""
        self.assertEqual(self.mount(*words, "seen"), (0, "", ""))
        names = sorted(os.listdir("seen"))
        subprocess.run(["fusermount3", "-u", "seen"], check=True)
        return names

    @unittest.skipUnless(archive_flags(), "needs libarchive")
    def test_reads_members_of_archives(self):
        other = built("volume ofs 4\n")
        with zipfile.ZipFile("two.zip", "w", zipfile.ZIP_DEFLATED) as archive:
            archive.writestr("b.ADF", other)
            archive.writestr("s/a\n.adf", image_of())
            archive.writestr("readme", b"no image")
        with zipfile.ZipFile("one.zip", "w") as archive:
            archive.writestr("readme", b"no image")
            archive.writestr("B\xfccher.adf", image_of())
        with zipfile.ZipFile("none.zip", "w"):
            pass
        shown = ["c", "empty", "large", "none"]
        self.assertEqual((self.seen("one.zip"), self.seen("one.zip/B\xfccher.adf")), (shown, shown))
        self.assertEqual(self.seen("two.zip/s/a\n.adf"), shown)
        self.assertEqual(self.seen("two.zip/b.ADF"), [])
        written("a.lha", lha(b"a.adf", image_of()))
        self.assertEqual((self.seen("a.lha"), self.seen("a.lha/a.adf")), (shown, shown))
        written("bad.lha", lha(b"a.adf", image_of(), crc=0))
        with open("one.zip", "rb") as file:
            content = bytearray(file.read())
        content[200] ^= 1
        written("damaged.zip", content)
        for words, status, told in (
            *((("two.zip",), 1, "2 images in it, give one as FILE/NAME: b.ADF, s/a\\x0a.adf"), (("two.zip/c",), 1, "no image has this name")),
            *((("none.zip",), 1, "no image in it"), (("damaged.zip",), 3, "damaged archive"), (("a.adf/x",), 3, "Not a directory")),
            (("bad.lha",), 3, "damaged archive"),
        ):
            self.assertEqual(self.mount(*words, "seen"), (status, "", f"adf-mount: {words[0]}: {told}\n"))

    @unittest.skipUnless(archive_flags(), "needs libarchive")
    def test_ends_for_hostile_archives(self):
        with zipfile.ZipFile("bomb.zip", "w", zipfile.ZIP_DEFLATED) as archive:
            with archive.open("a.adf", "w", force_zip64=True) as member:
                for _ in range(513):
                    member.write(bytes(1 << 20))
        self.assertEqual(self.mount("bomb.zip", "seen"), (1, "", "adf-mount: bomb.zip: packed: more than 536870912 bytes are not unpacked\n"))
        for begin in (b"PK\3\4", b"PK\5\6", b"..-lh5-", b"..-lzs-"):
            written("other", begin.ljust(901120, b"\1"))
            status, output, errors = self.mount("other", "seen")
            self.assertEqual((status in (1, 3), output, errors.count("\n")), (True, "", 1), errors)

    @unittest.skipUnless(shutil.which("ancient"), "needs ancient")
    def test_reads_disks_of_dms(self):
        written("a.dms", dms(image_of()))
        self.assertEqual(self.seen("a.dms"), ["c", "empty", "large", "none"])
        written("a.dms", dms(image_of())[:5000])
        self.assertRegex(self.mount("a.dms", "seen")[2], "^adf-mount: a.dms: ancient: [^\n]*\n$")

    def test_says_what_ancient_says(self):
        written("disk.dms", b"DMS!".ljust(1000, b"\1"))
        program = "ancient: " if shutil.which("ancient") else "packed by DMS: ancient (Debian's) is needed to read it"
        status, output, errors = self.mount("disk.dms", "seen")
        self.assertEqual((status, output, errors.count("\n")), (3, "", 1))
        self.assertIn(f"adf-mount: disk.dms: {program}", errors)
        os.mkdir("bin")
        for line, told in (
            *((f"cp {os.path.abspath('a.adf')} disk.adf", ""), ("echo 'a\x1bb' >&2; exit 1", "ancient: a\\x1bb")),
            *(("exit 0", "ancient: it wrote no disk"), ("exit 4", "ancient: status 4")),
        ):
            written("bin/ancient", f"#!/bin/sh\n{line}\n".encode())
            os.chmod("bin/ancient", 0o755)
            with unittest.mock.patch.dict(os.environ, {"PATH": os.path.abspath("bin") + ":" + os.environ["PATH"], "TMPDIR": os.getcwd()}):
                self.assertEqual(self.mount("disk.dms", "seen"), (3 if told else 0, "", f"adf-mount: disk.dms: {told}\n" if told else ""))
            if not told:
                subprocess.run(["fusermount3", "-u", "seen"], check=True)
        self.leaves("a.adf", "adf-mount", "bin", "disk.dms", adf.SONAME, "seen")

    def test_ends_at_2_for_words_that_it_does_not_take(self):
        for words in (("a.adf", "seen", "-o", "frobnicate"), ("a.adf", "seen", "--frobnicate"), ("a.adf",), (), ("a.adf", "seen", "more"), ("a.adf", "nix")):
            status, output, errors = self.mount(*words)
            self.assertEqual((status, output), (2, ""), words)
            self.assertRegex(errors, "^(usage: adf-mount |adf-mount: )[^\n]*\n$")
        self.assertEqual(self.mount("a.adf", "seen", "-o", "frobnicate")[2], "adf-mount: unknown option(s): `-o frobnicate'\n")

    def test_names_the_program_in_each_error(self):
        written("bad.adf", changed(image_of(), 880, 440, 1))
        for words, status, told in (
            *((("--strict", "bad.adf", "seen"), 1, "bad.adf: block 880: bad sum"), (("nix.adf", "seen"), 3, "nix.adf: No such file or directory")),
            *((("a.adf", "bad.adf"), 3, "bad.adf: Not a directory"), (("seen", "seen"), 3, "seen: Is a directory")),
        ):
            self.assertEqual(self.mount(*words), (status, "", f"adf-mount: {told}\n"))

    def test_shows_damaged_files_under_names_that_stay_in_the_folder(self):
        image = built("volume ofs 1760\n" + "".join(f"file 8035:0:0 00000000 {name}\ndata 4{n}\n" for n, name in enumerate("abc")))
        header = adf.Volume(image)["b"].header
        twice = changed(renamed(image, b"b"), header, 20, 1)  # the sum of `b` is wrong too: two damaged files are called `b`
        other = max(adf.Volume(image)["a"].header, header)
        for content, names in (
            *((renamed(image, b"../x"), ["..\\x2fx"]), (renamed(image, b"con.uaem"), ["co\\x6e.uae\\x6d"])),
            *((renamed(image, b"\1" * 64), [host_name(b"\1" * 64).decode()]), (twice, ["b", f"b-{other}"])),
        ):
            written("b.adf", content)
            self.assertEqual(self.mount("--damaged", "left", "b.adf", "seen")[0], 0)
            self.assertEqual(sorted(os.listdir("seen/left")), names)
            for name in names:
                with open(f"seen/left/{name}", "rb") as file:
                    self.assertIn(file.read(), (b"@", b"A"))
            subprocess.run(["fusermount3", "-u", "seen"], check=True)
        self.leaves("a.adf", "adf-mount", "b.adf", adf.SONAME, "seen")

    def test_says_how_long_an_image_is(self):
        with open("long.adf", "wb") as file:
            file.truncate(4_294_968_320)
        self.assertEqual(self.mount("long.adf", "seen"), (1, "", "adf-mount: long.adf: block 0: bad size; it has 4294968320 bytes\n"))
        written("disk.hdf", table(RIGID_DISK) + bytes(1024) + table({**DRIVE, 37: 64, 42: 131073}))  # 131,073 cylinders of 64 blocks
        os.truncate("disk.hdf", 5 << 30)
        self.assertEqual(self.mount("disk.hdf", "seen", "--partition", "DH0")[::2], (1, "adf-mount: disk.hdf: block 0: bad size; it has 4295000064 bytes\n"))

    def test_takes_numbers_of_blocks_alone(self):
        for blocks in ("-1", "0", "8388609", "9" * 5000, "x", "", " 4", "+4", "4.0"):
            status, output, errors = self.mount("a.adf", "seen", f"--blocks={blocks}")
            self.assertEqual((status, output), (2, ""), blocks)
            self.assertEqual(errors, "adf-mount: argument --blocks: a number of blocks from 1 to 8388608\n")

    def test_waits_for_no_pipe_and_escapes_names(self):
        os.mkfifo("pipe")
        self.assertEqual(self.mount("pipe", "seen"), (3, "", "adf-mount: pipe: a pipe: give it as /dev/stdin\n"))
        told = "adf-mount: a\\x0a\\x1b\\xffü: No such file or directory\n"
        self.assertEqual(self.mount(b"a\n\x1b\xff\xc3\xbc", "seen"), (3, "", told))

    def test_stands_closed_streams(self):
        output = "adf-mount: standard output: {}\n".format
        for line, status, told in (
            *(("--help >&-", 3, output("Bad file descriptor")), ("--version > /dev/full", 3, output("No space left on device"))),
            *(("nix.adf seen 2>&-", 3, ""), ("a.adf seen <&- >&- 2>&-", 0, "")),
        ):
            ran = subprocess.run(f"./adf-mount {line}", shell=True, stderr=subprocess.PIPE, timeout=60)
            self.assertEqual((ran.returncode, ran.stderr.decode()), (status, told), line)
        with open("seen/c/readme", "rb") as file:
            self.assertEqual(file.read(), b"Hello\n")

    def test_answers_help_and_version(self):
        used, version = "usage: adf-mount IMAGE FOLDER ", f"adf-mount {adf.__version__}, libfuse "
        for words, told in ((["-h"], used), (["a.adf", "seen", "more", "--help"], used), (["-V"], version), (["--version"], version)):
            status, output, errors = self.mount(*words)
            self.assertEqual((status, errors, output.startswith(told)), (0, "", True))
