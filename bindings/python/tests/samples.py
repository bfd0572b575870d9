"""Collections that several tests share: hard disks, icons, published lists, and disks in archives."""

from __future__ import annotations

import hashlib
import os
import struct
import zipfile
import zlib

import adf
from tests.shared import built, changed, image_of, written
from tests.test_catalogue import Catalogues

OFS = image_of()
BAD = changed(OFS, 880, 440, 1)


def table(words):
    """A block of a disk's tables with these words, and its sum in word 2."""
    block = [words.get(place, 0) for place in range(128)]
    block[2] = -sum(block) % 2**32
    return struct.pack(">128I", *block)


def disk(*volumes, cylinder=16):
    """A hard disk of these volumes, DH0, DH1, .., with 16 blocks a cylinder."""
    image, at = table({0: 0x5244534B, 1: 64, 4: 512, 7: 1, 33: 15}), 1
    for number, volume in enumerate(volumes):
        past = at + -(-len(volume) // (512 * cylinder))
        words = {0: 0x50415254, 1: 64, 4: number + 2 if number + 1 < len(volumes) else 0xFFFFFFFF, 9: 0x03444830 + number}
        image += table({**words, 32: 16, 33: 128, 35: 1, 36: 1, 37: cylinder, 38: 2, 41: at, 42: past - 1, 48: 0x444F5300 + volume[3]})
        at = past
    return b"".join(part.ljust(-(-len(part) // (512 * cylinder)) * 512 * cylinder, b"\0") for part in (image, *volumes))


def icon(width=5, height=3, depth=2, planes=None, drawer=False, used=3):
    """An icon of the system's version 2 with these planes."""
    line = -(-width // 16) * 2 * height
    planes = planes if planes is not None else bytes(range(line * depth))
    head = struct.pack(">HH4xHHHH3H5IHI", 0xE310, 1, 0, 0, width, height, 4, 3, 1, 1, 0, 0, 0, 0, 0, 1)
    head += struct.pack(">BxIIiiIIi", 1, 0, 0, 0, 0, int(drawer), 0, 4096)
    return head + bytes(56 if drawer else 0) + struct.pack(">hhHHHIBBI", 0, 0, width, height, depth, 1, used, 0, 0) + planes


def volume(*files, label="Try", kind="ofs", blocks=1760, dirs=(), date="8035:0:0"):
    """A volume with these files, each a path and its bytes."""
    lines = [f"volume {kind} {blocks}", f"label {label}", *(f"dir {date} 00000000 {path}" for path in dirs)]
    for path, content in files:
        lines += [f"file {date} 00000000 {path}", *(f"data {content[at : at + 100].hex()}" for at in range(0, len(content), 100))]
    return built(lines)


def without(image, path):
    """The volume without a file in its root that is the first of its slot, deleted as AmigaDOS does it: the slot leads to what comes behind it,
    and its blocks are free."""
    words, root, header = list(struct.unpack(f">{len(image) // 4}I", image)), len(image) // 1024, adf.Volume(image)[path].header
    slot, page = words.index(header, 128 * root + 6, 128 * root + 78), words[128 * root + 79]
    words[slot] = words[128 * header + 124]
    for block in (header, *(words[128 * header + 77 - place] for place in range(words[128 * header + 2]))):
        words[128 * page + 1 + (block - 2) // 32] |= 1 << (block - 2) % 32
    for at in (128 * root + 5, 128 * page):
        words[at] = 0
        words[at] = -sum(words[at // 128 * 128 : (at // 128 + 1) * 128]) % 2**32
    return struct.pack(f">{len(words)}I", *words)


def dat(*disks, head="", game="Game"):
    """A published list."""
    lines = []
    for name, content in disks:
        md5, sha1 = (hashlib.new(kind, content).hexdigest() for kind in ("md5", "sha1"))
        lines.append(f'<rom name="{name}" size="{len(content)}" crc="{zlib.crc32(content):08X}" md5="{md5}" sha1="{sha1}"/>')
    kind = '<!DOCTYPE datafile PUBLIC "-//Logiqx//DTD ROM Management Datafile//EN" "http://www.logiqx.com/Dats/datafile.dtd">'
    return f'<?xml version="1.0"?>\n{head or kind}\n<datafile><header><name>Try</name></header><game name="{game}">{"".join(lines)}</game></datafile>'.encode()


class Asked(Catalogues):
    """A collection with two equal disks, a damaged one, one in an archive, and one that is not a volume."""

    def setUp(self):
        super().setUp()
        os.makedirs("disks/games")
        tools = volume(("s/startup-sequence", b"echo hello world\n"), ("lemmings", b"\0\1" * 300), dirs=["s"], label="Tools")
        written("disks/tools.adf", tools)
        written("disks/games/copy.adf", tools)
        written("disks/games/bad.adf", changed(tools, 880, 440, 1))
        with zipfile.ZipFile("disks/a.zip", "w", zipfile.ZIP_DEFLATED) as archive:
            archive.writestr("B\xfc.adf", OFS)
        written("disks/other.adf", b"no volume".ljust(901120, b"\0"))
        self.sum = hashlib.sha256(b"\0\1" * 300).hexdigest()

    def find(self, *words, status=0):
        """The lines of adf-catalogue find."""
        ran = self.run_tool("catalogue", "find", *words)
        self.assertEqual((ran.returncode, ran.stderr), (status, b""))
        return [tuple(line.split("\t")) for line in ran.stdout.decode().splitlines()]
