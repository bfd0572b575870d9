#!/usr/bin/env python3
"""Makes a collection of disks whose truth is known, for adf-catalogue: volumes with a history (truth_histories.py), most of them damaged
(truth_damage.py), as they are and packed, some of them twice, some on hard disks, and a published list.

    bench/truth_collection.py COUNT FOLDER [SEED]

FOLDER/disks has the files, FOLDER/list.dat names some of them, FOLDER/images.tsv has a line for each image, with what was done to it, and
FOLDER/entries.tsv one for each entry that was there, with the SHA-256 of its bytes. Nothing of adf is asked.
"""

from __future__ import annotations

import functools
import gzip
import hashlib
import io
import os
import random
import struct
import sys
import zipfile
import zlib
from typing import Dict, Iterator, List, NamedTuple, Optional, Tuple
from xml.sax.saxutils import quoteattr

sys.dont_write_bytecode = True
sys.path.insert(0, os.path.dirname(os.path.abspath(__file__)))
from truth_damage import Damaged, damage
from truth_histories import History, history

SHARES = 4  # disks of one volume: one of them as it was left, the others damaged
FORMS = ("adf", "adf", "adf", "adz", "zip", "zip", "copy", "hdf")
CYLINDER = 16 * 512
STATUSES = ("", "", "", "baddump")


class Disk(NamedTuple):
    """A disk of the collection: the name that a catalogue has for it, its file, its bytes, the volume that it was, what was done to it, and
    what a published list says of it: `known`, `differs`, `unknown`, and whether it is a bad dump."""

    name: str
    file: str
    image: bytes
    history: History
    damaged: Damaged
    known: str
    is_bad_dump: bool


@functools.lru_cache(maxsize=16)
def volume_of(seed: str, number: int) -> History:
    return history(f"{seed} collection", number)


def damaged_of(seed: str, number: int) -> Damaged:
    """What a disk is: the first of a volume as it was left, the others damaged."""
    whole = volume_of(seed, number // SHARES)
    if number % SHARES == 0:
        return Damaged(whole.image, None, set(), "nothing", "nothing")
    return damage(random.Random(f"{seed} disk {number}"), whole)


class Collection:
    """A collection that is made: the files that are still open, and the disks."""

    def __init__(self, count: int, folder: str, seed: str) -> None:
        self.count, self.folder, self.seed = count, folder, seed
        self.dice = random.Random(f"{seed} files")
        self.lines: List[str] = []
        self.known: Dict[str, bool] = {}  # whether the list calls a disk a bad dump, by the disk's SHA-1

    def form(self, number: int) -> str:
        """How a disk is kept."""
        return random.Random(f"{self.seed} form {number}").choice(FORMS)

    def disks(self) -> Iterator[Disk]:
        """Writes the files, and gives each disk."""
        last: Optional[Disk] = None
        for number in range(self.count):
            whole, damaged, form = volume_of(self.seed, number // SHARES), damaged_of(self.seed, number), self.form(number)
            below = f"{number // 100:03}"
            if form == "copy" and last is not None:
                name = f"{below}/copy{number}.adf"  # which no list has
                yield self.put(last._replace(name=name, file=name, known="known" if last.known == "known" else "unknown"))
            elif form == "hdf" and fits_on_disk(damaged.image):
                file = f"{below}/disk{number}.hdf"
                self.write(file, hard_disk(damaged.image, whole.volume.kind))
                yield Disk(f"{file}/DH0", file, damaged.image, whole, damaged, "unknown", False)
            else:
                last = self.put(self.listed(self.named(number, below, form, whole, damaged)))
                yield last

    def named(self, number: int, below: str, form: str, whole: History, damaged: Damaged) -> Disk:
        """A disk with its names."""
        member = f"disk{number}.adf"
        file = {"zip": f"{below}/some{number}.zip", "adz": f"{below}/disk{number}.adz"}.get(form, f"{below}/{member}")
        return Disk(f"{file}/{member}" if form == "zip" else file, file, damaged.image, whole, damaged, "unknown", False)

    def listed(self, disk: Disk) -> Disk:
        """A third of the disks is in the published list; of some of these the list has other checksums."""
        known = self.dice.choice(["known", "differs", "unknown", "unknown", "unknown", "unknown"])
        status = self.dice.choice(STATUSES) if known == "known" else ""
        if known != "unknown":
            content = disk.image if known == "known" else disk.image + b"another"
            name = os.path.basename(disk.name).replace(".adz", ".adf")
            sums = f'crc="{zlib.crc32(content):08x}" sha1="{hashlib.sha1(content).hexdigest()}"'
            more = f' status="{status}"' if status else ""
            if known == "known":
                digest = hashlib.sha1(content).hexdigest()
                self.known[digest] = bool(status) and self.known.get(digest, True)
            self.lines.append(f'<game name="Some"><rom name={quoteattr(name)} size="{len(content)}" {sums}{more}/></game>\n')
        return disk._replace(known=known, is_bad_dump=bool(status))

    def settled(self, disk: Disk) -> Disk:
        """A disk with the bytes of one that is in the list is known too."""
        digest = hashlib.sha1(disk.image).hexdigest()
        return disk._replace(known="known", is_bad_dump=self.known[digest]) if digest in self.known else disk

    def put(self, disk: Disk) -> Disk:
        """Writes the file of a disk."""
        if disk.file.endswith(".zip"):
            room = io.BytesIO()
            with zipfile.ZipFile(room, "w", zipfile.ZIP_DEFLATED, compresslevel=1) as archive:
                archive.writestr("readme.txt", "no image\n")
                archive.writestr(os.path.basename(disk.name), disk.image)
            self.write(disk.file, room.getvalue())
        else:
            self.write(disk.file, gzip.compress(disk.image, 1, mtime=0) if disk.file.endswith(".adz") else disk.image)
        return disk

    def write(self, name: str, content: bytes) -> None:
        path = os.path.join(self.folder, "disks", name)
        os.makedirs(os.path.dirname(path), exist_ok=True)
        with open(path, "wb") as file:
            file.write(content)

    def write_list(self) -> None:
        with open(os.path.join(self.folder, "list.dat"), "w", encoding="ascii") as file:
            file.write(f'<?xml version="1.0"?>\n<datafile><header><name>Truth</name></header>\n{"".join(self.lines)}</datafile>\n')


def table(words: Dict[int, int]) -> bytes:
    """A block of the tables of a hard disk with these words, and its sum in word 2."""
    block = [words.get(place, 0) for place in range(128)]
    block[2] = -sum(block) % 2**32
    return struct.pack(">128I", *block)


def hard_disk(image: bytes, kind: int) -> bytes:
    """A hard disk with one partition, DH0 of this type, in cylinders of 16 blocks."""
    past = 1 + len(image) // CYLINDER
    tables = table({0: 0x5244534B, 1: 64, 4: 512, 7: 1, 33: 15})
    words = {0: 0x50415254, 1: 64, 4: 2**32 - 1, 9: 0x03444830, 32: 16, 33: 128, 35: 1, 36: 1, 37: 16, 38: 2, 41: 1, 42: past - 1}
    return (tables + table({**words, 48: 0x444F5300 + kind})).ljust(CYLINDER, b"\0") + image


def fits_on_disk(image: bytes) -> bool:
    """A volume of a hard disk is whole cylinders of 16 blocks, so that nothing stands behind it."""
    return len(image) % CYLINDER == 0 and len(image) > 0


def text_of(name: bytes) -> str:
    """A name as a catalogue writes it: Latin-1, with digits for what cannot be printed and for the backslash."""
    return "".join(f"\\x{c:02x}" if c < 32 or 127 <= c < 160 or c == 92 else chr(c) for c in name)


def line_of(values: Tuple[object, ...]) -> str:
    return "\t".join("" if value is None else str(value) for value in values) + "\n"


def write_tables(folder: str, disks: List[Disk]) -> None:
    """Writes what is known of each disk, and of each entry that was on it."""
    with open(os.path.join(folder, "images.tsv"), "w", encoding="utf-8") as images, open(os.path.join(folder, "entries.tsv"), "w", encoding="utf-8") as entries:
        images.write("image\tfile\tbytes\tsha256\ttype\tblocks\tstate\tdamage\tdirs\tfiles\tlabel\tknown\n")
        entries.write("image\tkind\tpath\tsize\tprotection\tcomment\tsha256\n")
        for disk in disks:
            whole = disk.history
            things: Dict = whole.live
            files = sum(thing.content is not None for thing in things.values())
            images.write(line_of((
                disk.name, disk.file, len(disk.image), hashlib.sha256(disk.image).hexdigest(), whole.volume.kind, whole.volume.blocks, whole.state,
                disk.damaged.told, len(things) - files, files, text_of(whole.label), disk.known)))  # fmt: skip
            for path, thing in things.items():
                kind, digest = ("dir", None) if thing.content is None else ("file", hashlib.sha256(thing.content).hexdigest())
                size = len(thing.content or b"")
                entries.write(line_of((disk.name, kind, text_of(b"/".join(path)), size, f"{thing.protection:08x}", text_of(thing.comment), digest)))


def make(count: int, folder: str, seed: str = "1") -> List[Disk]:
    """Makes a collection in a new folder, and gives its disks."""
    os.makedirs(os.path.join(folder, "disks"))
    collection = Collection(count, folder, seed)
    disks = list(map(collection.settled, list(collection.disks())))
    collection.write("notes.txt", b"no image\n")
    collection.write_list()
    write_tables(folder, disks)
    return disks


if __name__ == "__main__":
    if len(sys.argv) not in (3, 4):
        sys.exit(__doc__)
    make(int(sys.argv[1]), *sys.argv[2:])
