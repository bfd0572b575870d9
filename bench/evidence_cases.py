#!/usr/bin/env python3
"""What the judge of bench/evidence.py decides, each on its smallest image, with the expected answer by hand.

    bench/evidence_cases.py [NAME..]        the status is 1 if a case fails

A case is a function `case_NAME`: it lays a disk word by word, damages it, and compares the lines, and what is given back, with what it says.
"""

from __future__ import annotations

import sys
from struct import pack, pack_into, unpack_from
from typing import Dict, List, Sequence

sys.dont_write_bytecode = True
from evidence import Refusal, judge, read
from evidence_answer import spelled
from evidence_claims import Claims
from evidence_deleted import DeletedHeaders
from evidence_image import LINK_DIR, LINK_FILE, SOFT
from truth_volumes import CACHE, DATA, DIR, FILE, LIST, PAGE_BITS, SHORT, SLOTS, VALID, slot

Words = Dict[int, int]


class Disk:
    """A disk that is laid word by word: its root in the middle, the page of the bitmap behind it."""

    def __init__(self, blocks: int, kind: int = 0) -> None:
        self.image, self.blocks, self.root, self.kind = bytearray(512 * blocks), blocks, blocks // 2, kind
        self.image[:4] = b"DOS" + bytes([kind])
        self.used = {self.root, self.root + 1}
        self.words(self.root, {0: SHORT, 3: SLOTS, 78: VALID, 79: self.root + 1, 105: 1, 127: 1})
        self.text(self.root, 432, b"Disk")

    def words(self, b: int, words: Words) -> None:
        for i, value in words.items():
            pack_into(">I", self.image, 512 * b + 4 * i, value)

    def word(self, b: int, i: int) -> int:
        return int(unpack_from(">I", self.image, 512 * b + 4 * i)[0])

    def text(self, b: int, at: int, text: bytes) -> None:
        self.image[512 * b + at : 512 * b + at + 1 + len(text)] = bytes([len(text)]) + text

    def seal(self, b: int) -> None:
        self.words(b, {5: 0})
        self.words(b, {5: -sum(unpack_from(">128I", self.image, 512 * b)) % 2**32})

    def clear(self, *blocks: int) -> None:
        for b in blocks:
            self.image[512 * b : 512 * b + 512] = bytes(512)

    def header(self, b: int, name: bytes, p: int, words: Words, at: int = 432) -> int:
        """A header in the chain of its directory; answers its block."""
        self.words(b, {0: SHORT, 1: b, 105: 2, 125: p, **words})
        self.text(b, at, name)
        s = slot(name, self.kind >= 2)
        self.words(b, {124: self.word(p, 6 + s)})
        self.words(p, {6 + s: b})
        self.seal(b)
        if p != self.root:
            self.seal(p)
        self.used.add(b)
        return b

    def directory(self, b: int, name: bytes, p: int = 0, at: int = 432) -> int:
        return self.header(b, name, p or self.root, {127: DIR}, at)

    def file(self, b: int, name: bytes, content: bytes, datas: Sequence[int], p: int = 0) -> int:
        chunk = 512 if self.kind % 2 else 488
        table = {77 - k: d for k, d in enumerate(datas)}
        self.header(b, name, p or self.root, {**table, 2: len(datas), 4: datas[0] if datas else 0, 81: len(content), 127: FILE})
        for k, d in enumerate(datas):
            piece = content[chunk * k : chunk * k + chunk]
            self.image[512 * d + 512 - chunk : 512 * d + 512 - chunk + len(piece)] = piece
            if chunk == 488:
                self.words(d, {0: DATA, 1: b, 2: k + 1, 3: len(piece), 4: [*datas, 0][k + 1]})
                self.seal(d)
            self.used.add(d)
        return b

    def link(self, b: int, name: bytes, kind: int, target: int) -> int:
        return self.header(b, name, self.root, {117: target, 127: kind})

    def delete(self, b: int, *blocks: int) -> None:
        """Out of its chain; it and these blocks are free."""
        p = self.word(b, 125)
        for i in range(6, 78):
            if self.word(p, i) == b:
                self.words(p, {i: self.word(b, 124)})
        self.used -= {b, *blocks}

    def cache(self, b: int, p: int, records: List[bytes]) -> None:
        """A block of the cache of a directory."""
        self.words(b, {0: CACHE, 1: b, 2: p, 3: len(records)})
        joined = b"".join(record + bytes(len(record) % 2) for record in records)
        self.image[512 * b + 24 : 512 * b + 24 + len(joined)] = joined
        self.seal(b)
        self.used.add(b)

    def done(self) -> bytes:
        """The image, its bitmap and its root up to date."""
        bits = [0] * 127
        for b in range(2, min(self.blocks, 2 + PAGE_BITS)):
            if b not in self.used:
                bits[(b - 2) // 32] |= 1 << (b - 2) % 32
        page = self.root + 1
        self.words(page, {0: -sum(bits) % 2**32, **{1 + i: word for i, word in enumerate(bits)}})
        self.seal(self.root)
        return bytes(self.image)


def lines(image: bytes, *rest: object) -> List[str]:
    return [line.text for line in read(image, *rest).lines]  # type: ignore


def paths(image: bytes, *rest: object) -> List[str]:
    return sorted(spelled(path) for path in read(image, *rest).things)  # type: ignore


def claimed(image: bytes, *rest: object) -> Claims:
    claims = judge(image, *rest)  # type: ignore
    assert isinstance(claims, Claims)
    return claims


def same(got: object, expected: object) -> None:
    assert got == expected, f"{got} for {expected}"


# The kind and the length


def case_blank_data_tells_nothing() -> None:
    """Four OFS files whose data is blank are no FFS files of zeros."""
    disk = Disk(20)
    for k in range(4):
        disk.file(2 + k, b"f%d" % k, b"some", [14 + k])
    image = bytearray(disk.done())
    image[512 * 14 : 512 * 18] = bytes(2048)
    same(lines(bytes(image)), ["damaged: f0", "damaged: f1", "damaged: f2", "damaged: f3"])
    same(paths(bytes(image)), [])


def case_pattern_tells_nothing() -> None:
    """Nor do blocks that a dumping program filled."""
    disk = Disk(20)
    for k in range(4):
        disk.file(2 + k, b"f%d" % k, b"some", [14 + k])
    image = bytearray(disk.done())
    image[512 * 14 : 512 * 18] = b"-=[BAD SECTOR]=-" * 128
    same(lines(bytes(image))[0], "damaged: f0")


def case_size_tells_kind() -> None:
    """A table with as many blocks as 512 bytes each need tells FFS, whatever type is stated."""
    disk = Disk(20, 1)
    disk.file(2, b"f", b"a" * 1000, [14, 15])
    image = b"DOS\0" + disk.done()[4:]
    same(lines(image), ["lost: block 0"])
    same(read(image).things[(b"f",)].content, b"a" * 1000)


def case_stated_length_wins() -> None:
    """3,520 blocks are stated: headers that name the middle of 1,760 do not win over it."""
    disk = Disk(1760)
    for k in range(3):
        disk.file(100 + k, b"f%d" % k, b"some", [200 + k])
    image = bytearray(disk.done().ljust(512 * 3520, b"\0"))
    same(claimed(bytes(image)).image.blocks, 1760)
    same(claimed(bytes(image), 3520).image.blocks, 3520)
    same(lines(bytes(image), 3520)[0], "lost: block 1760")


def case_odd_length() -> None:
    """1,761 blocks hold a floppy and one block more."""
    disk = Disk(1760)
    disk.directory(100, b"d")
    same(lines(disk.done() + bytes(512)), ["lost: block 1760"])
    same(lines(disk.done() + bytes(1024)), ["lost: blocks 1760 to 1761"])
    same(judge(disk.done(), 1761), Refusal("bad size"))


def case_floppy_over_an_older_root() -> None:
    """A floppy's own length with a root in its middle holds, whatever the clock said when an older root was written."""
    disk = Disk(3520)
    disk.directory(100, b"d")
    disk.words(880, {0: SHORT, 3: SLOTS, 78: VALID, 79: 881, 105: 9, 127: 1})
    disk.seal(880)
    same(paths(disk.done()), ["d"])
    same(lines(disk.done()), [])


def case_full_page() -> None:
    """A bitmap page of zeros has all blocks in use: nothing is amiss where each is had."""
    disk = Disk(4)
    image = bytearray(disk.done())
    image[512 * 3 : 512 * 4] = bytes(512)
    same(lines(bytes(image)), [])


def case_unread_free_blocks() -> None:
    """A free block that was not read is not missed; one in use is."""
    disk = Disk(20)
    disk.file(2, b"f", b"some", [14])
    same(lines(disk.done(), None, [16]), [])
    same(lines(disk.done(), None, [14]), ["lost: block 14", "damaged: f"])


def case_long_names() -> None:
    """Types 6 and 7 have long names; a type byte of 6 alone does not make them."""
    disk = Disk(20, 6)
    same(judge(disk.done()), Refusal("long names"))
    disk.directory(2, b"a name of more than thirty bytes, as it is", 0, 328)
    same(judge(disk.done()), Refusal("long names"))
    same(judge(b"DOS\3" + disk.done()[4:]), Refusal("long names"))
    plain = Disk(20)
    plain.directory(2, b"d")
    same(lines(b"DOS\6" + plain.done()[4:]), ["lost: block 0"])


# Names, comments, labels


def case_names() -> None:
    """Names that a new volume cannot have, and the second of two equal ones in a chain, are replaced, each with a line."""
    disk = Disk(40)
    disk.directory(2, b"a/b")
    disk.directory(3, b"c:d")
    disk.directory(4, b"n" * 31)
    disk.directory(5, b"same")
    disk.directory(6, b"SAME")
    same(paths(disk.done()), ["SAME", "lost-2", "lost-3", "lost-4", "lost-5"])
    renamed = [f"renamed: {old}: {new}" for old, new in (("a\\x2fb", "lost-2"), ("c\\x3ad", "lost-3"), ("n" * 31, "lost-4"), ("same", "lost-5"))]
    same(sorted(lines(disk.done())), sorted(renamed))


def case_name_of_its_block_is_used() -> None:
    disk = Disk(20)
    disk.directory(3, b"a:b")
    disk.directory(2, b"lost-3")
    same(paths(disk.done()), ["lost-3", "lost-3-1"])
    same(lines(disk.done()), ["renamed: a\\x3ab: lost-3-1"])


def case_cut_texts() -> None:
    """A comment of more than 79 bytes and a label of more than 30 are cut, each with a line."""
    disk = Disk(20)
    disk.directory(2, b"d")
    disk.text(2, 328, b"c" * 80)
    disk.seal(2)
    disk.text(disk.root, 432, b"l" * 31)
    same(lines(disk.done()), ["label cut: block 10", "comment cut: d"])
    same(len(read(disk.done()).things[(b"d",)].comment), 79)


# Links


def case_link_by_its_target() -> None:
    """A lost header of a link leaves the other links of its target as they are."""
    disk = Disk(20)
    disk.file(2, b"f", b"some", [14])
    for k in range(3):
        disk.link(3 + k, b"l%d" % k, LINK_FILE, 2)
    disk.link(6, b"wrong", LINK_DIR, 2)
    image = bytearray(disk.done())
    image[512 * 4 : 512 * 5] = bytes(512)
    links = {claim.name: claim.target for claim in claimed(bytes(image)).all if claim.kind in (LINK_FILE, LINK_DIR)}
    same({name for name, target in links.items() if target}, {b"l0", b"l2"})
    same(sorted(lines(bytes(image))), ["damaged: wrong", "link: l0", "link: l2", "lost: block 4", "lost: in /"])


def case_links_and_names() -> None:
    """A link takes no name from what is given back, and none from another link."""
    disk = Disk(20)
    disk.link(4, b"f", LINK_FILE, 2)
    disk.file(2, b"f", b"some", [14])
    disk.link(5, b"l", LINK_FILE, 2)
    disk.link(6, b"L", LINK_FILE, 2)
    same({claim.head: claim.name for claim in claimed(disk.done()).all}, {2: b"f", 4: b"lost-4", 5: b"lost-5", 6: b"L"})


# Deleted headers


def case_deleted_file_after_live_one() -> None:
    """A live file whose header has a wrong sum keeps its block from a deleted one."""
    disk = Disk(20, 1)
    disk.file(2, b"old", b"old", [14])
    disk.delete(2, 14)
    disk.file(3, b"new", b"new", [14])
    image = bytearray(disk.done())
    image[512 * 3 + 4 * 100] = 1
    deleted = DeletedHeaders(claimed(bytes(image))).all
    same([(each.head, each.needs, each.overwritten) for each in deleted], [(2, 1, 1)])


def case_deleted_file_after_its_own_words() -> None:
    """So does a live file that no chain leads to and whose header has a wrong sum, where no bitmap tells."""
    disk = Disk(20, 1)
    disk.file(2, b"old", b"old", [14])
    disk.delete(2, 14)
    disk.file(3, b"new", b"new", [14])
    disk.words(disk.root, {78: 0, 6 + slot(b"new", False): 0})
    image = bytearray(disk.done())
    image[512 * 3 + 4 * 100] = 1
    same([each.overwritten for each in DeletedHeaders(claimed(bytes(image))).all], [1])


def case_deleted_file_after_extension_block() -> None:
    """A live file's header is gone: its extension block still claims a block."""
    disk = Disk(20, 1)
    disk.file(2, b"old", b"old", [14])
    disk.delete(2, 14)
    disk.words(disk.root, {78: 0})
    disk.words(4, {0: LIST, 1: 4, 77: 14, 125: 3, 127: FILE})
    disk.seal(4)
    same([each.overwritten for each in DeletedHeaders(claimed(disk.done())).all], [1])


def case_deleted_link() -> None:
    """A deleted link is a link, with its target; a deleted file that nothing overwrote is whole."""
    disk = Disk(20)
    disk.file(2, b"f", b"some", [14])
    disk.link(3, b"l", LINK_FILE, 2)
    disk.link(4, b"s", SOFT, 0)
    disk.file(5, b"g", b"more", [15])
    disk.delete(3)
    disk.delete(4)
    disk.delete(5, 15)
    deleted = DeletedHeaders(claimed(disk.done())).all
    same([(each.kind, each.name, each.target, each.overwritten) for each in deleted], [(LINK_FILE, b"l", 2, 0), (SOFT, b"s", 0, 0), (FILE, b"g", 0, 0)])


# Lost directories


def record(h: int, name: bytes, comment: bytes) -> bytes:
    return pack(">3I5HB", h, 0, 5, 0, 0, 7, 8, 9, DIR) + bytes([len(name)]) + name + bytes([len(comment)]) + comment


def case_lost_directories_by_caches() -> None:
    """The headers of a directory, of one in it and of an empty one are gone: caches have their names, comments, protection and dates."""
    disk = Disk(40, 4)
    disk.directory(2, b"outer")
    disk.directory(3, b"inner", 2)
    disk.file(4, b"f", b"some", [14], 3)
    disk.directory(5, b"empty")
    disk.cache(30, disk.root, [record(2, b"outer", b"note"), record(5, b"empty", b"")])
    disk.cache(31, 2, [record(3, b"inner", b"")])
    disk.words(disk.root, {126: 30})
    disk.clear(2, 3, 5)
    answer = read(disk.done())
    same(paths(disk.done()), ["empty", "outer", "outer/inner", "outer/inner/f"])
    same(answer.things[(b"outer",)], (None, b"note", 5, (7, 8, 9)))
    same([line.text for line in answer.lines if line.text.startswith("made")], ["made: outer", "made: outer/inner", "made: empty"])


def case_lost_directory_without_cache() -> None:
    disk = Disk(20)
    disk.directory(2, b"d")
    disk.file(3, b"f", b"some", [14], 2)
    disk.clear(2)
    same(paths(disk.done()), ["lost-2", "lost-2/f"])


def case_directory_under_an_older_file() -> None:
    """The header of a directory was not written: an older file's is there, but later headers name it as their directory."""
    disk = Disk(20)
    disk.directory(4, b"e")
    disk.file(2, b"old", b"some", [15], 4)
    disk.delete(2, 15)
    disk.seal(4)
    old = bytes(disk.image[512 * 2 : 512 * 3])
    disk.clear(2)
    disk.directory(2, b"d")
    disk.file(3, b"f", b"more", [14], 2)
    disk.directory(5, b"g", 2)
    for b in (3, 5):
        disk.words(b, {105: 3})
        disk.seal(b)
    disk.image[512 * 2 : 512 * 3] = old
    same(paths(disk.done()), ["e", "lost-2", "lost-2/f", "lost-2/g"])


def case_directory_that_says_another() -> None:
    """A directory that is not empty, and says that it is in one that is not there, is where a broken chain leads to it."""
    disk = Disk(20)
    disk.directory(2, b"d")
    disk.file(3, b"f", b"some", [14], 2)
    disk.words(2, {125: 3})
    disk.seal(2)
    disk.words(disk.root, {78: 0})
    same(paths(disk.done()), ["d", "d/f"])
    same(lines(disk.done()), ["lost: in /", "found again: d", "found again: d/f"])


# Files


def case_ofs_words_that_nothing_needs() -> None:
    """A data block with another next block, or another length, and a right sum: the file exists, with a line."""
    for word in (3, 4):
        disk = Disk(20)
        disk.file(2, b"f", b"a" * 600, [14, 15])
        disk.words(14, {word: 7})
        disk.seal(14)
        same(lines(disk.done()), ["in doubt: f"])
        same(read(disk.done()).things[(b"f",)].content, b"a" * 600)
        same(read(disk.done()).listed[0].left, b"a" * 600)


def case_header_is_no_data() -> None:
    """FFS: a table names a sound header; the header is that of a file, not bytes of the other one."""
    disk = Disk(20, 1)
    disk.file(2, b"f", b"some", [14])
    disk.file(3, b"g", b"more", [15])
    disk.words(2, {77: 3})
    disk.seal(2)
    same(paths(disk.done()), ["g"])
    same(lines(disk.done()), ["damaged: f", "lost: block 14"])


def main() -> int:
    cases = {name[5:]: case for name, case in globals().items() if name.startswith("case_")}
    failed = 0
    for name in sys.argv[1:] or cases:
        try:
            cases[name]()
        except AssertionError as error:
            print(f"{name}: {error}")
            failed += 1
    print(f"{len(sys.argv[1:] or cases)} tried, {failed} failed")
    return int(failed > 0)


if __name__ == "__main__":
    sys.exit(main())
