"""Archives for the tests: of zip and LHA, whose members are stored or deflated, and disks of DMS in each of its modes."""

from __future__ import annotations

import io
import struct
import warnings
import zipfile
from typing import Callable, Iterable, Sequence

TRACK = 11264  # bytes of a cylinder of a floppy
NONE, SIMPLE, QUICK, MEDIUM, DEEP, HEAVY1, HEAVY2 = MODES = tuple(range(7))  # the modes of DMS, by their numbers
MARK, LONGEST_RUN = 0x90, 255  # of the runs of SIMPLE
LEAVES = 314  # of the tree of DEEP: each byte, and the lengths of copies
NODES, MOST_COUNT = 2 * LEAVES - 1, 0x8000


def crc16(content: bytes) -> int:
    """The CRC of LHA and DMS: CRC-16/ARC."""
    value = 0
    for byte in content:
        value ^= byte
        for _ in range(8):
            value = value >> 1 ^ (0xA001 if value & 1 else 0)
    return value


def zipped(*members: tuple[str, bytes], method: int = zipfile.ZIP_DEFLATED) -> bytes:
    """A zip archive of these members, some of which may have one name."""
    room = io.BytesIO()
    with warnings.catch_warnings(), zipfile.ZipFile(room, "w", method) as archive:
        warnings.simplefilter("ignore")
        for name, content in members:
            archive.writestr(zipfile.ZipInfo(name), content, method)
    return room.getvalue()


def lha(name: bytes, content: bytes, crc: int | None = None) -> bytes:
    """An LHA archive of a stored file, with a header of level 0."""
    sizes = struct.pack("<IIIBB", len(content), len(content), 0, 0x20, 0)
    head = b"-lh0-" + sizes + bytes([len(name)]) + name + struct.pack("<H", crc16(content) if crc is None else crc)
    return bytes([len(head), sum(head) % 256]) + head + content + b"\0"


# DMS


def dms(image: bytes, modes: Sequence[int] = (NONE,), tracks: bytes | None = None) -> bytes:
    """A disk of DMS, whose tracks are packed by these modes in turn."""
    parts = [image[at : at + TRACK] for at in range(0, len(image), TRACK)]
    packed = b"".join(track(number, part, modes[number % len(modes)]) for number, part in enumerate(parts)) if tracks is None else tracks
    head = b" PRO" + struct.pack(">IIHHII", 0, 0, 0, len(parts) - 1, len(packed), len(image)) + bytes(18) + struct.pack(">HHHH", 111, 0, modes[0], 0)
    return b"DMS!" + head + struct.pack(">H", crc16(head)) + packed


def track(number: int, content: bytes, mode: int, packed: bytes | None = None) -> bytes:
    """A track that is packed by a mode, or holds these bytes in place of that."""
    middle = content if mode == NONE else runs(content)
    held = PACKERS[mode](middle) if packed is None else packed
    flags = 6 if mode in (HEAVY1, HEAVY2) else 0  # it has tables, and runs within
    sizes = struct.pack(">HHHBB", len(held), len(middle), len(content), flags, mode)
    head = b"TR" + struct.pack(">HH", number, 0) + sizes + struct.pack(">HH", sum(content) % 65536, crc16(held))
    return head + struct.pack(">H", crc16(head)) + held


class Bits:
    """Bits of a stream, the highest of a byte first."""

    def __init__(self, pairs: Iterable[tuple[int, int]]) -> None:
        self.text = "".join(f"{value:0{width}b}" for value, width in pairs if width)

    def bytes(self) -> bytes:
        padded = self.text + "0" * (-len(self.text) % 8 + 32)
        return int(padded, 2).to_bytes(len(padded) // 8, "big")


def runs(content: bytes) -> bytes:
    """SIMPLE: a run is the mark, its length and its byte; a byte that is the mark has a zero behind it."""
    packed, at = bytearray(), 0
    while at < len(content):
        end = at + 1
        while end < len(content) and content[end] == content[at] and end - at < LONGEST_RUN - 1:
            end += 1
        if end - at > 3:
            packed += bytes([MARK, end - at, content[at]])
        else:
            packed += content[at:end].replace(bytes([MARK]), bytes([MARK, 0]))
        at = end
    return bytes(packed)


def quick(content: bytes) -> bytes:
    """QUICK: each byte, or a copy of the three bytes before if they are the same."""
    pairs, at = [], 0
    while at < len(content):
        if at >= 3 and content[at : at + 3] == content[at - 3 : at]:
            pairs += [(0, 1), (1, 2), (2, 8)]
            at += 3
        else:
            pairs += [(1, 1), (content[at], 8)]
            at += 1
    return Bits(pairs).bytes()


def medium(content: bytes) -> bytes:
    """MEDIUM, without copies."""
    return Bits(pair for byte in content for pair in ((1, 1), (byte, 8))).bytes()


def heavy(content: bytes) -> bytes:
    """HEAVY1 and HEAVY2, without copies: a table by which each byte has eight bits, and one of no distances."""
    tables = [(256, 9), *[(8, 5)] * 256, (0, 5), (0, 5)]
    return Bits([*tables, *((byte, 8) for byte in content)]).bytes()


class Tree:
    """The tree of DEEP: codes of bytes, which become shorter as they are used. It is begun anew before it would be halved."""

    def __init__(self) -> None:
        self.counts = [1] * LEAVES + [0] * (NODES - LEAVES) + [0xFFFF]
        self.below = [place + NODES for place in range(LEAVES)] + [0] * (NODES - LEAVES)
        self.above = [0] * NODES + list(range(LEAVES))
        for node in range(LEAVES, NODES):
            first = 2 * (node - LEAVES)
            self.counts[node], self.below[node] = self.counts[first] + self.counts[first + 1], first
            self.above[first] = self.above[first + 1] = node

    def code(self, byte: int) -> str:
        bits, node = "", self.above[byte + NODES]
        while node != NODES - 1:
            bits, node = bits + str(node & 1), self.above[node]
        return bits[::-1]

    def count(self, byte: int) -> None:
        assert self.counts[NODES - 1] < MOST_COUNT
        node = self.above[byte + NODES]
        while True:
            self.counts[node] += 1
            other = node
            while self.counts[node] > self.counts[other + 1]:
                other += 1
            if other != node:
                self.exchange(node, other)
                node = other
            if node == NODES - 1:
                return
            node = self.above[node]

    def exchange(self, node: int, other: int) -> None:
        for table in (self.counts, self.below):
            table[node], table[other] = table[other], table[node]
        for place in (node, other):
            below = self.below[place]
            self.above[below] = place
            if below < NODES:
                self.above[below + 1] = place


def deep(content: bytes) -> bytes:
    """DEEP, without copies."""
    tree, bits = Tree(), []
    for byte in content:
        code = tree.code(byte)
        bits.append((int(code, 2), len(code)))
        tree.count(byte)
    return Bits(bits).bytes()


PACKERS: Sequence[Callable[[bytes], bytes]] = (bytes, bytes, quick, medium, deep, heavy, heavy)
