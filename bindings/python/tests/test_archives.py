"""Tests of hostile archives, and of the programs that unpack, which need no library."""

from __future__ import annotations

import gzip
import io
import lzma
import os
import shutil
import socket
import tempfile
import time
import unittest
import unittest.mock
from typing import Any

from adf_tools import archives, collection, confined, content, members
from tests.packing import MODES, TRACK, dms, lha, track, zipped

IMAGE = b"DOS\0" + bytes(range(256)) * 8
LZOP, LRZIP, GRZIP = b"\x89LZO\0\r\n\x1a\n", b"LRZI\0\6", b"GRZipII\0\2\4:)"
PROGRAMS = {"lzop": LZOP, "lrzip": LRZIP, "grzip": GRZIP}
HAS_ANCIENT = shutil.which(archives.UNPACKER)


def has_libarchive() -> bool:
    try:
        return bool(archives.libarchive_module())
    except archives.Unread:
        return False


class Folder(unittest.TestCase):
    """A test with a folder of its own."""

    def setUp(self) -> None:
        folder = tempfile.TemporaryDirectory()
        self.addCleanup(folder.cleanup)
        self.folder = folder.name

    def read(self, name: str, whole: bytes) -> list[Any]:
        """The names and the faults of the images in a file of this name and content, as a catalogue reads it."""
        path = os.path.join(self.folder, name)
        with open(path, "wb") as file:
            file.write(whole)
        return [(os.fsdecode(image.name), image.fault) for image in collection.images_in(os.fsencode(path), name.encode())]

    def program(self, name: str, script: str) -> Any:
        """What the environment is with a program of this script."""
        path = os.path.join(self.folder, name)
        with open(path, "w", encoding="ascii") as file:
            file.write(f"#!/bin/sh\n{script.format(here=self.folder)}\n")
        os.chmod(path, 0o755)
        return unittest.mock.patch.dict(os.environ, {"PATH": f"{self.folder}:{os.environ['PATH']}"})


class Forms(Folder):
    """A file is read in one form, that of its name and of its first bytes."""

    def test_are_those_of_the_first_bytes(self) -> None:
        whole = {"a.lha": lha(b"a.adf", IMAGE), "a.zip": zipped(("0.adf", IMAGE)), "a.adz": gzip.compress(IMAGE), "a.dms": dms(IMAGE.ljust(TRACK, b"\0"), [0])}
        for name in whole:
            for other in set(whole) - {name}:
                self.assertEqual(self.read(name, whole[other]), [(name, archives.DAMAGED)])
        self.assertEqual((self.read("a.zip", whole["a.zip"]), self.read("a.adz", whole["a.adz"])), ([("a.zip/0.adf", "")], [("a.adz", "")]))

    @unittest.skipUnless(has_libarchive(), "needs python3-libarchive-c")
    def test_of_lha_have_no_filter(self) -> None:
        self.assertEqual(self.read("a.lha", lha(b"a.adf", IMAGE)), [("a.lha/a.adf", "")])
        for packed in (lzma.compress(lha(b"a.adf", IMAGE)), lzma.compress(lzma.compress(lha(b"a.adf", IMAGE))), gzip.compress(lha(b"a.adf", IMAGE))):
            self.assertEqual(self.read("a.lha", packed), [("a.lha", archives.DAMAGED)])
            self.assertRaises(archives.Unread, list, archives.members_of_lha(io.BytesIO(packed)))

    @unittest.skipUnless(has_libarchive(), "needs python3-libarchive-c")
    def test_run_no_program(self) -> None:
        for program, begin in PROGRAMS.items():
            with self.program(program, "touch {here}/ran; cat"):
                self.assertEqual(self.read("a.lha", begin.ljust(600, b"\0")), [("a.lha", archives.DAMAGED)])
                self.assertRaises(archives.Unread, list, archives.members_of_lha(io.BytesIO(begin.ljust(600, b"\0"))))
            self.assertFalse(os.path.exists(os.path.join(self.folder, "ran")), program)


class Budgets(Folder):
    """Bytes and seconds are those of all of an archive together."""

    def test_have_the_bytes_of_what_is_no_volume(self) -> None:
        no_disk = unittest.mock.patch.object(content.Content, "disk", lambda _: None)
        with no_disk, unittest.mock.patch.multiple(archives, MOST_UNPACKED=2500), unittest.mock.patch("adf.LARGE", 999):
            found = self.read("a.zip", zipped(*[(f"{number}.adf", bytes(2000)) for number in range(5)]))
        none = "no volume, and more than 999 bytes: it is not unpacked"
        self.assertEqual([fault for _, fault in found], [none, none, "more than 2500 bytes are not unpacked", "2 of 5 images in it are left out"])

    def test_have_the_seconds_of_all_images(self) -> None:
        class Slow(io.BytesIO):
            def read(self, count: int | None = -1) -> bytes:
                end = time.thread_time() + 0.2
                while time.thread_time() < end:
                    pass
                return super().read(count)

        slow = [archives.Member(b"%d.adf" % number, lambda: Slow(IMAGE)) for number in range(9)]
        with unittest.mock.patch.multiple(archives, MOST_SECONDS=1, members_of=lambda *_: iter(slow)):
            found = list(archives.images_in_archive(io.BytesIO(), b"a.zip", archives.ZIP))
        self.assertEqual([image.fault for image in found], ["", "", "stopped after 1 seconds", "6 of 9 images in it are left out"])

    def test_have_the_seconds_of_names(self) -> None:
        def endless() -> Any:
            while True:
                yield archives.Member(b"a.adf", io.BytesIO)

        with unittest.mock.patch.multiple(archives, MOST_SECONDS=1, members_of=lambda *_: endless()):
            self.assertRaisesRegex(archives.Unread, "stopped after 1 seconds", list, archives.images_in_archive(io.BytesIO(), b"a.zip", archives.ZIP))

    def test_are_those_of_one_image_too(self) -> None:
        with unittest.mock.patch.multiple(archives, MOST_UNPACKED=len(IMAGE) - 1):
            with self.assertRaisesRegex(archives.Unread, f"more than {len(IMAGE) - 1} bytes are not unpacked"):
                members.image_of_member(io.BytesIO(gzip.compress(IMAGE)), archives.GZIP, b"", b"a.adz")


class Confined(Folder):
    """What a program that unpacks can do."""

    LIMITS = confined.Limits(1 << 20, 256 << 20, 2)

    def ran(self, script: str) -> confined.Ran:
        """How a script ended that writes out."""
        with tempfile.TemporaryDirectory() as folders, self.program("unpacker", script), unittest.mock.patch.object(tempfile, "tempdir", folders):
            path = confined.path_of("unpacker")
            assert path is not None
            ran = confined.run([path], "given", b"packed", "out", self.LIMITS)
            self.assertEqual(os.listdir(folders), [])
        return ran

    def test_writes_a_file(self) -> None:
        self.assertEqual(self.ran("cat given > out; echo said >&2"), (0, b"said\n", b"packed"))
        self.assertEqual(self.ran("echo no >&2; exit 3"), (3, b"no\n", None))

    def test_has_an_empty_folder_and_no_environment(self) -> None:
        with unittest.mock.patch.dict(os.environ, {"SECRET": "x", "LD_PRELOAD": ""}):
            status, _, written = self.ran("ls > out; env >> out; readlink /proc/self/fd/0 >> out")
        assert written is not None
        names = [line for line in written.decode().splitlines() if not line.startswith(("PWD=", "OLDPWD=", "_=", "SHLVL="))]
        self.assertEqual((status, names), (0, ["errors", "given", "out", "/dev/null"]))

    def test_has_no_network(self) -> None:
        with socket.socket() as server:
            server.bind(("127.0.0.1", 0))
            server.listen()
            port = server.getsockname()[1]
            line = f'import socket; socket.create_connection((\\"127.0.0.1\\", {port}), 1)'
            if not self.can_have_no_network():
                self.skipTest("the system gives no name space")
            status, errors, _ = self.ran(f'exec /usr/bin/python3 -c "{line}"')
            self.assertNotEqual(status, 0, errors)

    def can_have_no_network(self) -> bool:
        """Whether the system gives a process a name space, and has a Python by a plain path."""
        return os.path.exists("/usr/bin/python3") and self.ran("readlink /proc/self/ns/net > out").written != os.readlink("/proc/self/ns/net").encode() + b"\n"

    def test_writes_no_more_than_the_limit(self) -> None:
        status, _, written = self.ran("exec cat /dev/zero > out")
        self.assertEqual((status, len(written or b"")), (-25, 1 << 20))

    def test_writes_nothing_that_is_no_file(self) -> None:
        for script in ("ln -s given out", "ln -s /etc/passwd out", "mkfifo out", "mkdir out"):
            self.assertEqual(self.ran(script).written, None)

    def test_ends_in_time_with_all_that_it_started(self) -> None:
        for script, status in (("sleep 47 & sleep 48", None), ("sleep 47 > /dev/null 2>&1 & exit 0", 0)):
            begun = time.monotonic()
            self.assertEqual(self.ran(script).status, status)
            while self.runs("sleep", "47"):  # what is killed needs a moment
                self.assertLess(time.monotonic() - begun, 10, script)

    def runs(self, *words: str) -> bool:
        """Whether a process with these words runs."""
        for number in filter(str.isdigit, os.listdir("/proc")):
            try:
                with open(f"/proc/{number}/cmdline", "rb") as file:
                    if file.read().decode("utf-8", "replace").split("\0")[:-1] == list(words):
                        return True
            except OSError:
                pass
        return False

    def test_is_stopped_if_it_uses_too_much_memory(self) -> None:
        status, errors, _ = self.ran("exec /usr/bin/python3 -c 'bytes(300 << 20)'")
        self.assertTrue(status != 0 and b"Memory" in errors or not os.path.exists("/usr/bin/python3"), errors)


class Dms(Folder):
    """Disks of DMS."""

    def test_need_a_program(self) -> None:
        with unittest.mock.patch.dict(os.environ, {"PATH": self.folder}):
            self.assertEqual(self.read("a.dms", dms(bytes(TRACK), [0])), [("a.dms", "packed by DMS: ancient (Debian's) is needed to read it")])

    def test_say_what_the_program_says(self) -> None:
        for script, told in (("echo Error >&2; echo more >&2; exit 1", "Error"), ("exit 7", "status 7"), ("exit 0", "it wrote no disk")):
            with self.program(archives.UNPACKER, script):
                self.assertEqual(self.read("a.dms", dms(bytes(TRACK), [0])), [("a.dms", f"ancient: {told}")])

    def test_are_not_larger_than_the_limit(self) -> None:
        with unittest.mock.patch.object(archives, "MOST_DMS", 99):
            self.assertEqual(self.read("a.dms", dms(bytes(TRACK), [0])), [("a.dms", "DMS of more than 99 bytes is not unpacked")])

    @unittest.skipUnless(HAS_ANCIENT, "needs ancient")
    def test_are_read_in_each_mode(self) -> None:
        text = b"".join(b"line %d of a file, repeated words, repeated words\n" % number for number in range(2 * TRACK))
        image = b"DOS\0" + text[: 2 * TRACK - 4]
        for modes in (*([mode] for mode in MODES), MODES):
            image_ = members.image_of_member(io.BytesIO(dms(image, modes)), archives.DMS, b"", b"a.dms")
            self.assertEqual(image_.content.begin(), image.ljust(80 * TRACK, b"\0"), modes)

    @unittest.skipUnless(HAS_ANCIENT, "needs ancient")
    def test_with_tracks_of_any_bytes_end(self) -> None:
        noise = bytes((at * at * 31 + at // 7) % 256 for at in range(6000))
        for mode in MODES:
            whole = dms(bytes(TRACK), [mode], track(0, bytes(TRACK), mode, packed=noise))
            ((_, fault),) = self.read("a.dms", whole)
            self.assertRegex(fault, "ancient: .*(failed|invalid)", mode)
        self.assertRegex(self.read("a.dms", dms(bytes(TRACK), [0])[:900])[0][1], "ancient: ")
