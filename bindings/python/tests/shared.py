"""What the tests share: images, which the library itself builds, and runs of the programs."""

from __future__ import annotations

import functools
import os
import struct
import subprocess
import sys
import tempfile
import unittest
from typing import Any, Iterable

import adf

HERE = os.path.dirname(os.path.abspath(__file__))
TOP = os.path.normpath(os.path.join(HERE, "..", "..", ".."))
NAME_BYTES = [byte for byte in range(256) if byte not in b"/:"]
LARGE = bytes((n * 7 + n // 251) % 256 for n in range(60000))
MANIFEST = """volume {kind} {blocks}
label B\\xfccher
stamps 1:2:3 4:5:6 4000000:1:1
dir 8035:61:151 00000000 c
file 8035:0:0 0000000f c/readme
note ein <\\xdcbel>
data 48656c6c6f0a
dir 0:0:0 00000000 empty
file 0:0:0 00000000 none
file 9000:1:2 00000000 large
""".format


def built(manifest: str | Iterable[str]) -> bytes:
    """The image of a manifest, a text or lines."""
    text = manifest if isinstance(manifest, str) else "".join(line + "\n" for line in manifest)
    status, image, errors = adf.run(["build"], text.encode())
    assert status == 0, errors
    return image


@functools.lru_cache(maxsize=None)
def image_of(kind: str = "ofs", blocks: int = 1760) -> bytes:
    return built(MANIFEST(kind=kind, blocks=blocks) + "".join(f"data {LARGE[at : at + 100].hex()}\n" for at in range(0, len(LARGE), 100)))


def international(kind: str = "ffs", blocks: int = 1760) -> bytes:
    """A volume of type 2 or 3 with a directory, and a file whose name is 0xE9. Its slot in the table of the root is that of 0xC9, 70, in
    place of 30 by ASCII letters."""
    image = bytearray(built(f"volume {kind} {blocks}\ndir 0:0:0 00000000 c\nfile 0:0:0 00000000 \\xe9\ndata 41\n"))
    plain, raised = (512 * (blocks // 2) + 4 * (6 + slot) for slot in (30, 70))
    image[raised : raised + 4], image[plain : plain + 4] = image[plain : plain + 4], bytes(4)
    image[3] |= 2
    return bytes(image)


def cached(kind: int) -> bytes:
    """A volume of type 4 or 5 in 16 blocks with the file `a`, whose header is block 2 and whose byte is in block 3. The root is block 8, the page of
    the bitmap 9, and block 5 the cache of the root: type 33, its own number, that of the root, and from word 6 on one record: header 2, size 1,
    type -3, the name `a` and no comment. The bits of blocks 2, 3, 5, 8 and 9 are clear."""
    image = bytearray(built(f"volume {adf.KINDS[kind % 2]} 16\nfile 0:0:0 00000000 a\ndata 41\n"))
    image[3] = kind
    words = {0: 33, 1: 5, 2: 8, 3: 1, 6: 2, 7: 1, 11: 0xFD01, 12: 0x61000000}
    for block, word, value in (*((5, word, value) for word, value in words.items()), (8, 126, 5), (9, 1, 0x3F34)):
        struct.pack_into(">I", image, 512 * block + 4 * word, value)
    for block, word in ((5, 5), (8, 5), (9, 0)):
        struct.pack_into(">I", image, 512 * block + 4 * word, 0)
        struct.pack_into(">I", image, 512 * block + 4 * word, -sum(struct.unpack_from(">128I", image, 512 * block)) % 2**32)
    return bytes(image)


@functools.lru_cache(maxsize=None)
def nested(depth: int, size: int = 1) -> bytes:
    """A volume of directories in directories, with a file of this size in the last."""
    names = (f"dir 8035:0:0 00000000 {'ddd/' * level}ddd" for level in range(depth))
    return built(["volume ffs 4000", *names, f"file 8035:0:0 00000000 {'ddd/' * depth}f", f"fill {size} 41"])


def changed(image: bytes, block: int, byte: int, bits: int) -> bytes:
    """The image with bits of one byte turned and no sum set."""
    copy = bytearray(image)
    copy[512 * block + byte] ^= bits
    return bytes(copy)


def written(path: str | bytes, content: bytes = b"") -> None:
    with open(path, "wb") as file:
        file.write(content)


def listed(image: bytes) -> list[str]:
    """The lines of entries and comments of `adf list`, sorted."""
    return sorted(line for line in adf.run(["list"], image).output.decode().splitlines() if line[:4] in ("dir ", "file", "note"))


class Folder(unittest.TestCase):
    """A test that works in a folder of its own."""

    def setUp(self) -> None:
        folder = tempfile.TemporaryDirectory()
        self.addCleanup(folder.cleanup)
        self.addCleanup(os.chdir, os.getcwd())
        os.chdir(folder.name)

    def python(self, library: str | None = None) -> dict[str, str]:
        """The environment for Python that has the module and the library."""
        own = {"PYTHONPATH": os.path.dirname(HERE), "ADF_LIBRARY": library or adf.library_path(), "PYTHONDONTWRITEBYTECODE": "1"}
        return {name: value for name, value in {**os.environ, **own}.items() if name != "PYTHONUNBUFFERED"}

    def run_python(self, *words: Any, given: bytes = b"", prefix: Iterable[str] = (), library: str | None = None) -> Any:
        """A run of Python, which never hangs."""
        line = [*prefix, sys.executable, *words]
        return subprocess.run(line, input=given, stdout=subprocess.PIPE, stderr=subprocess.PIPE, env=self.python(library), timeout=300)

    def started(self, name: str, *words: Any, prefix: Iterable[str] = ()) -> subprocess.Popen[bytes]:
        """A run of adf-NAME that goes on."""
        line = [*prefix, sys.executable, "-m", f"adf_tools.{name}", *words]
        return subprocess.Popen(line, stdin=subprocess.DEVNULL, stdout=subprocess.PIPE, stderr=subprocess.PIPE, env=self.python())

    def shell(self, line: str) -> tuple[int, str]:
        """The status and the errors of a line for the shell, in which {} is Python."""
        ran = subprocess.run(line.format(sys.executable), shell=True, stderr=subprocess.PIPE, env=self.python(), timeout=300)
        return ran.returncode, ran.stderr.decode()

    def run_tool(self, name: str, *words: Any, **more: Any) -> Any:
        """A run of adf-NAME, which never has a traceback."""
        ran = self.run_python("-m", f"adf_tools.{name}", *words, **more)
        self.assertNotIn(b"Traceback", ran.stderr)
        return ran

    def tool(self, name: str, *words: Any, **more: Any) -> bytes:
        """What adf-NAME writes to output. It succeeds, and says nothing."""
        ran = self.run_tool(name, *words, **more)
        self.assertEqual((ran.returncode, ran.stderr.decode()), (0, ""))
        return ran.stdout

    def refused(self, status: int, told: str, name: str, *words: Any, **more: Any) -> None:
        """adf-NAME ends with this status, nothing on output, and one line on errors, which names it and has this."""
        ran = self.run_tool(name, *words, **more)
        said = ran.stderr.decode()
        self.assertEqual((ran.returncode, ran.stdout, said.count("\n")), (status, b"", 1), said)
        self.assertTrue(said.startswith(f"adf-{name}: ") and told in said, said)

    def pack(self, *words: Any, **more: Any) -> bytes:
        """The volume of a folder."""
        return built(self.tool("pack", *words, **more).decode())

    def leaves(self, *names: str) -> None:
        """These names are in the folder, and no others."""
        self.assertEqual(sorted(os.listdir(".")), sorted(names))
