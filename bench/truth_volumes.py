"""Volumes as an Amiga fills them, written word by word and without adf's builder: a tree with a history, and all that was deleted.

    python3 bench/truth_volumes.py TYPE BLOCKS FILE     writes one with some hundred files into a new file, with holes for its zeros
"""

from __future__ import annotations

import mmap
import random
import sys
from struct import pack, pack_into, unpack_from
from typing import Dict, Iterator, List, Optional, Set, Tuple, Union

DIR, FILE, SLOTS, POINTERS, PAGE_BITS, ROOT_PAGES, MAP_PAGES = 2, 2**32 - 3, 72, 72, 4064, 25, 127
VALID, CACHE, LIST, DATA, SHORT = 2**32 - 1, 33, 16, 8, 2
Path = Tuple[bytes, ...]
Date = Tuple[int, int, int]
Image = Union[bytearray, mmap.mmap]
LETTERS = b"abcdefghijklmnopqrstuvwxyzABCDEFGHIJKLMNOPQRSTUVWXYZ0123456789.-_ "
ACCENTS = bytes(c for c in range(0xC0, 0x100))


def upper(name: bytes, international: bool) -> bytes:
    """The name in upper case: a to z, and with international letters 0xe0 to 0xfe but 0xf7."""
    return bytes(c - 32 if 97 <= c <= 122 or international and 0xE0 <= c <= 0xFE and c != 0xF7 else c for c in name)


def slot(name: bytes, international: bool) -> int:
    """The slot of a name's chain."""
    number = len(name)
    for c in upper(name, international):
        number = (number * 13 + c) % 2048
    return number % SLOTS


class Thing:
    """A directory or a link (its content is None) or a file, live or deleted, with its blocks."""

    is_link = False

    def __init__(self, name: bytes, parent: Optional[Thing], header: int, content: Optional[bytes] = None) -> None:
        self.name, self.parent, self.header, self.content = name, parent, header, content
        self.comment, self.protection, self.date = b"", 0, (0, 0, 0)
        self.exts: List[int] = []
        self.datas: List[int] = []
        self.caches: List[int] = []
        self.children: Dict[bytes, Thing] = {}

    @property
    def is_dir(self) -> bool:
        return self.content is None

    def path(self) -> Path:
        return () if self.parent is None else (*self.parent.path(), self.name)

    def blocks(self) -> List[int]:
        return [self.header, *self.exts, *self.datas, *self.caches]

    def below(self) -> Iterator[Thing]:
        """All that is in it, each directory before what it has."""
        for child in self.children.values():
            yield child
            yield from child.below()


class Link(Thing):
    """A link to a thing, or a soft one, to a path."""

    is_link = True


class Ghost:
    """What was deleted: its path then, its bytes, and its blocks as they were in the image."""

    def __init__(self, thing: Thing, image: Image, kind: int) -> None:
        self.path, self.content, self.header = thing.path(), thing.content, thing.header
        self.blocks, self.datas, self.kind = thing.blocks(), list(thing.datas), kind
        self.stood = {b: bytes(image[512 * b : 512 * b + 512]) for b in self.blocks}


class Volume:
    """A volume of type 0 to 5 with the tree that stands on it at this moment."""

    def __init__(self, dice: random.Random, kind: int, blocks: int, image: Optional[Image] = None) -> None:
        self.dice, self.blocks, self.root = dice, blocks, blocks // 2
        self.image = bytearray(self.filled(dice.choice(["zeros", "zeros", "counted", "noise"]))) if image is None else image
        self.ghosts: List[Ghost] = []
        self.former: Set[int] = set()
        self.limbo: List[Ghost] = []
        self.clock, self.fit = 3000 + dice.randrange(3000), dice.choice(["rover", "first"])
        self.deletes, self.links = "amiga", "amiga"
        self.journal: Optional[List[Tuple[int, bytes]]] = None
        self.chained: List[int] = []  # how many blocks had been written when a chain was another one
        self.tree, self.kind = Thing(b"", None, self.root), kind
        self.format(kind)

    def filled(self, how: str) -> bytes:
        if how == "noise":
            return b"".join(self.dice.randbytes(512 * min(2048, self.blocks - b)) for b in range(0, self.blocks, 2048))
        if how == "zeros":
            return bytes(512 * self.blocks)
        return b"".join((0x444F5300 + i % 128).to_bytes(4, "big") for i in range(128)) * self.blocks

    # Words

    def word(self, b: int, i: int) -> int:
        return int(unpack_from(">I", self.image, 512 * b + 4 * i)[0])

    def put(self, b: int, i: int, value: int) -> None:
        pack_into(">I", self.image, 512 * b + 4 * i, value)

    def text(self, b: int, at: int, text: bytes, most: int) -> None:
        self.image[512 * b + at : 512 * b + at + 1 + most] = bytes([len(text)]) + text + bytes(most - len(text))

    def seal(self, b: int, i: int = 5) -> None:
        self.put(b, i, 0)
        self.put(b, i, -sum(unpack_from(">128I", self.image, 512 * b)) % 2**32)
        self.written(b)

    def written(self, b: int) -> None:
        """The block goes to the disk now."""
        if self.journal is not None:
            self.journal.append((b, bytes(self.image[512 * b : 512 * b + 512])))

    def has_chain(self) -> None:
        """A chain is another one from this write on."""
        if self.journal is not None:
            self.chained.append(len(self.journal))

    def clear(self, b: int) -> None:
        self.image[512 * b : 512 * b + 512] = bytes(512)

    def stamp(self, b: int, i: int) -> Date:
        """The next moment, written at three words."""
        self.clock += 1
        date = self.clock // 10, self.clock * 7 % 1440, self.clock * 31 % 3000
        pack_into(">3I", self.image, 512 * b + 4 * i, *date)
        return date

    # The volume

    def format(self, kind: int) -> None:
        """An empty volume of this type; what was on the disk stays in its blocks, as a quick format leaves it."""
        self.ghosts += [Ghost(thing, self.image, self.kind) for thing in self.tree.below()]
        self.kind, self.international, self.cached = kind, kind >= 2, kind >= 4
        self.chunk = 512 if kind % 2 else 488
        pages = -(-(self.blocks - 2) // PAGE_BITS)
        maps = max(0, -(-(pages - ROOT_PAGES) // MAP_PAGES))
        places = self.places(pages + maps)
        self.pages, self.maps = places[:pages], places[pages:]
        self.former.update(places)
        self.used: Set[int] = {self.root, *self.pages, *self.maps}
        self.rover, self.tree = self.root, Thing(b"", None, self.root)
        self.image[:1024] = b"DOS" + bytes([kind]) + bytes(1020)
        self.write_root()
        self.sync()

    def places(self, count: int) -> List[int]:
        """Where the bitmap is: behind the root as a rule."""
        if self.dice.random() < 0.9:
            return [self.root + 1 + i for i in range(count)]
        return self.dice.sample([b for b in range(2, self.blocks) if b != self.root], count)

    def write_root(self) -> None:
        r = self.root
        self.clear(r)
        self.label = self.some_name(self.dice.randrange(1, 20))
        for i, value in ((0, SHORT), (3, SLOTS), (78, VALID), (127, 1)):
            self.put(r, i, value)
        for i, page in enumerate(self.pages[:ROOT_PAGES]):
            self.put(r, 79 + i, page)
        self.put(r, 104, self.maps[0] if self.maps else 0)
        for j, at in enumerate(self.maps):
            self.clear(at)
            for i, page in enumerate(self.pages[ROOT_PAGES + MAP_PAGES * j :][:MAP_PAGES]):
                self.put(at, i, page)
            self.put(at, 127, self.maps[j + 1] if j + 1 < len(self.maps) else 0)
        self.text(r, 432, self.label, 30)
        for i in (105, 118, 121):
            self.stamp(r, i)
        self.add_cache(self.tree)
        self.seal(r)

    def add_cache(self, thing: Thing) -> None:
        """The directory cache of a directory, on types 4 and 5; without records, since nothing reads them."""
        if self.cached:
            thing.caches = self.take(1)
            b = thing.caches[0]
            self.clear(b)
            for i, value in ((0, CACHE), (1, b), (2, thing.header)):
                self.put(b, i, value)
            self.seal(b)
            self.put(thing.header, 126, b)

    def record(self, thing: Thing) -> bytes:
        """What a directory cache has of an entry, of an even length."""
        kind = self.word(thing.header, 127)
        dates = [word % 65536 for word in thing.date]
        front = pack(">3I5HB", thing.header, len(thing.content or b""), thing.protection, 0, 0, *dates, kind % 256)
        record = front + bytes([len(thing.name)]) + thing.name + bytes([len(thing.comment)]) + thing.comment
        return record + bytes(len(record) % 2)

    def fill_caches(self) -> None:
        """The caches of each directory have a record of each of its entries."""
        for thing in (self.tree, *(thing for thing in self.tree.below() if thing.is_dir)):
            parts: List[List[bytes]] = [[]]
            for record in map(self.record, thing.children.values()):
                if sum(map(len, parts[-1])) + len(record) > 488:
                    parts.append([])
                parts[-1].append(record)
            if len(parts) - len(thing.caches) > self.free():
                continue
            thing.caches += self.take(len(parts) - len(thing.caches))
            for k, (part, b) in enumerate(zip(parts, thing.caches)):
                past = thing.caches[k + 1] if k + 1 < len(parts) else 0
                block = pack(">6I", CACHE, b, thing.header, len(part), past, 0) + b"".join(part)
                self.image[512 * b : 512 * b + 512] = block.ljust(512, b"\0")
                self.seal(b)

    def dates(self) -> Tuple[Date, ...]:
        """The dates of the root, of the last change and of the creation."""
        return tuple(tuple(self.word(self.root, i + k) for k in range(3)) for i in (105, 118, 121))  # type: ignore

    def sync(self) -> None:
        """The bitmap tells what is in use now, and is valid."""
        whole = bytearray(b"\1" * self.blocks) + bytes(PAGE_BITS)
        for b in self.used:
            whole[b] = 0
        for i, page in enumerate(self.pages):
            bits = whole[2 + PAGE_BITS * i : 2 + PAGE_BITS * (i + 1)]
            words = [int("".join("01"[bit] for bit in bits[32 * j + 31 : (32 * j - 1 if j else None) : -1]), 2) for j in range(127)]
            pack_into(">128I", self.image, 512 * page, -sum(words) % 2**32, *words)

    def flag(self, value: int) -> None:
        self.put(self.root, 78, value)
        self.seal(self.root)

    # Blocks

    def free(self) -> int:
        return self.blocks - 2 - len(self.used)

    def take(self, count: int) -> List[int]:
        assert count <= self.free()
        taken: List[int] = []
        at = self.rover if self.fit == "rover" else 1
        while len(taken) < count:
            at = at + 1 if at + 1 < self.blocks else 2
            if at not in self.used:
                self.used.add(at)
                taken.append(at)
        self.rover = at
        return taken

    # Chains

    def link(self, thing: Thing) -> None:
        """The header comes into its chain: on OFS first, on FFS by its number, as foreign programs do it last."""
        assert thing.parent
        at, i = thing.parent.header, 6 + slot(thing.name, self.international)
        while self.goes_on(self.word(at, i), thing.header):
            at, i = self.word(at, i), 124
        self.put(thing.header, 124, self.word(at, i))
        self.put(thing.header, 125, thing.parent.header)
        self.seal(thing.header)
        self.put(at, i, thing.header)
        self.seal(at)
        self.has_chain()
        self.touch(thing.parent)
        thing.parent.children[upper(thing.name, self.international)] = thing

    def goes_on(self, there: int, b: int) -> bool:
        """The header b comes behind the one that is there."""
        if self.links == "foreign":
            return there != 0
        return self.kind % 2 == 1 and there != 0 and there < b

    def unlink(self, thing: Thing) -> None:
        assert thing.parent
        at, i = thing.parent.header, 6 + slot(thing.name, self.international)
        while self.word(at, i) != thing.header:
            at, i = self.word(at, i), 124
        self.put(at, i, self.word(thing.header, 124))
        self.seal(at)
        self.has_chain()
        self.touch(thing.parent)
        del thing.parent.children[upper(thing.name, self.international)]

    def touch(self, thing: Thing) -> None:
        """The directory has changed now; so has the volume."""
        thing.date = self.stamp(thing.header, 105)
        if thing.header != self.root:
            self.seal(thing.header)
        self.stamp(self.root, 118)
        self.seal(self.root)

    # What a user does

    def head(self, thing: Thing) -> None:
        """The words that each header has."""
        b = thing.header
        self.clear(b)
        for i, value in ((0, SHORT), (1, b), (80, thing.protection), (127, DIR if thing.is_dir else FILE)):
            self.put(b, i, value)
        self.text(b, 432, thing.name, 30)
        self.text(b, 328, thing.comment, 79)
        thing.date = self.stamp(b, 105)

    def make_dir(self, parent: Thing, name: bytes) -> Thing:
        thing = Thing(name, parent, self.take(1)[0])
        self.head(thing)
        self.add_cache(thing)
        self.link(thing)
        return thing

    def make_link(self, parent: Thing, name: bytes, target: Optional[Thing], text: bytes) -> Thing:
        """The newest hard link is the first one of its target, which is the original of all; a soft one has a path."""
        thing = Link(name, parent, self.take(1)[0])
        self.head(thing)
        b = thing.header
        self.put(b, 127, 3 if target is None else 4 if target.is_dir else 2**32 - 4)
        if target is None:
            self.image[512 * b + 24 : 512 * b + 24 + len(text)] = text
        else:
            self.put(b, 117, target.header)
            self.put(b, 118, self.word(target.header, 118))
            self.put(target.header, 118, b)
            self.seal(target.header)
        self.link(thing)
        return thing

    def need(self, size: int) -> int:
        datas = -(-size // self.chunk)
        return 1 + datas + max(0, -(-(datas - POINTERS) // POINTERS))

    def make_file(self, parent: Thing, name: bytes, content: bytes) -> Thing:
        thing = self.unlinked(parent, name, content)
        self.link(thing)
        return thing

    def unlinked(self, parent: Thing, name: bytes, content: bytes) -> Thing:
        """A file that no chain leads to yet."""
        thing = Thing(name, parent, self.take(1)[0], content)
        self.head(thing)
        self.put(thing.header, 125, parent.header)
        self.lay(thing)
        return thing

    def lay(self, thing: Thing) -> None:
        """Writes the tables and the data of a file, into more blocks where it has too few."""
        content = thing.content or b""
        count = -(-len(content) // self.chunk)
        thing.exts += self.take(max(0, -(-(count - POINTERS) // POINTERS)) - len(thing.exts))
        thing.datas += self.take(count - len(thing.datas))
        members = [thing.header, *thing.exts]
        for j, at in enumerate(members):
            if j:
                self.clear(at)
                for i, value in ((0, LIST), (1, at), (125, thing.header), (127, FILE)):
                    self.put(at, i, value)
            named = thing.datas[POINTERS * j : POINTERS * (j + 1)]
            self.put(at, 2, len(named))
            for k, d in enumerate(named):
                self.put(at, 77 - k, d)
            self.put(at, 126, members[j + 1] if j + 1 < len(members) else 0)
        self.put(thing.header, 81, len(content))
        self.put(thing.header, 4, thing.datas[0] if thing.datas else 0)
        for k in range(count):
            self.write_data(thing, k, content[self.chunk * k : self.chunk * (k + 1)])
        for at in reversed(members):
            self.seal(at)

    def write_data(self, thing: Thing, k: int, piece: bytes) -> None:
        """Data block k; behind a short piece zeros, or what a buffer held of another block."""
        d, after = thing.datas[k], thing.datas[k + 1] if k + 1 < len(thing.datas) else 0
        start, buffer = 512 * d + 512 - self.chunk, 512 * self.dice.choice([thing.header, self.root, 0]) + 512 - self.chunk
        rest = bytes(self.image[buffer : buffer + self.chunk]) if self.dice.random() < 0.3 else bytes(self.chunk)
        self.image[start : start + self.chunk] = piece + rest[len(piece) :]
        if self.chunk == 488:
            pack_into(">5I", self.image, 512 * d, DATA, thing.header, k + 1, len(piece), after)
            self.seal(d)
        else:
            self.written(d)

    def append(self, thing: Thing, more: bytes) -> None:
        thing.content = (thing.content or b"") + more
        thing.date = self.stamp(thing.header, 105)
        self.lay(thing)

    def rewrite(self, thing: Thing, content: bytes) -> None:
        """Other content: the header stays, its old blocks are free first."""
        self.ghosts.append(Ghost(thing, self.image, self.kind))
        self.used -= {*thing.exts, *thing.datas}
        thing.exts, thing.datas, thing.content = [], [], content
        self.image[512 * thing.header + 24 : 512 * thing.header + 312] = bytes(288)
        thing.date = self.stamp(thing.header, 105)
        self.lay(thing)

    def move(self, thing: Thing, parent: Thing, name: bytes) -> None:
        self.unlink(thing)
        thing.parent, thing.name = parent, name
        self.text(thing.header, 432, name, 30)
        self.link(thing)

    def describe(self, thing: Thing, comment: bytes, protection: int) -> None:
        thing.comment, thing.protection = comment, protection
        self.text(thing.header, 328, comment, 79)
        self.put(thing.header, 80, protection)
        self.seal(thing.header)

    def remove(self, thing: Thing) -> None:
        """A file or an empty directory is deleted: out of its chain, its blocks free, what is in them stays."""
        self.ghosts.append(Ghost(thing, self.image, self.kind))
        self.unlink(thing)
        self.used -= set(thing.blocks())
        if self.deletes == "adflib" and not thing.is_dir:
            self.used.add(thing.header)
        if self.deletes == "linux":
            self.put(thing.header, 125, 0)

    def remove_tree(self, thing: Thing, at_once: bool) -> None:
        """A directory with all that is in it, from the leaves up; or only its header out of its chain and all blocks free."""
        if not at_once:
            for child in list(thing.children.values()):
                self.remove_tree(child, False)
        else:
            for child in thing.below():
                self.ghosts.append(Ghost(child, self.image, self.kind))
                self.used -= set(child.blocks())
        self.remove(thing)

    # What is called how, and is in it

    def some_name(self, length: int) -> bytes:
        letters = LETTERS + (ACCENTS if self.dice.random() < 0.3 else b"")
        return bytes(self.dice.choice(letters) for _ in range(length))

    def some_content(self, most: int) -> bytes:
        some = [0, 1, self.chunk - 1, self.chunk, self.chunk + 1, 73 * self.chunk, self.dice.randrange(most // 4 + 1), self.dice.randrange(most + 1)]
        size = min(self.dice.choice(some), most)
        how = self.dice.random()
        if how < 0.1:
            return bytes([self.dice.choice([0, 0xE5, 0xFF, 8])]) * size
        if how < 0.3:
            return (b"%d bottles of beer on the wall, " % size * (size // 20 + 1))[:size]
        return self.dice.randbytes(size)


def main(kind: str, blocks: str, path: str) -> None:
    """Some hundred files in some directories, behind a file of a tenth of the volume."""
    from shared import empty_image, save

    volume = Volume(random.Random(1), int(kind), int(blocks), empty_image(int(blocks)))
    volume.make_file(volume.tree, b"large", bytes(int(blocks) * 48))
    parent = volume.tree
    for i in range(300):
        parent = volume.make_dir(volume.tree, b"drawer%d" % i) if i % 20 == 0 else parent
        volume.make_file(parent, b"file%d" % i, volume.some_content(60000))
    volume.sync()
    save(volume.image, path)


if __name__ == "__main__":
    main(*sys.argv[1:])
