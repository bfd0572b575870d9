#!/usr/bin/env python3
"""Which directory caches of a volume of type 4 or 5 are wrong, and what a check makes of it, by their definitions (crates/adf_caches,
crates/adf_uncached); and volumes that get caches.

    bench/caches.py IMAGE..      a line for each image: how many directories it has, and the blocks of those whose cache is wrong

The chain of a directory begins in word 126 of its header and goes on in word 4 of each block, to 0. Each record is that of an entry of the
directory, and each entry has one record.
"""

import sys
from struct import pack, pack_into, unpack_from

sys.dont_write_bytecode = True
from survey import DIR, FILE, OTHER_TYPES, PAGE_BITS, Survey, page

DIR_CACHE, FIRST, NEXT, START = 33, 126, 4, 24
OF_BIT = ("lost block", "owned free")


def records(survey, b):
    """The records of a cache block, each as the block of its header, a size, a type and a name; none at all if one is not within the block."""
    at, end, found = 512 * b + START, 512 * b + 512, []
    for _ in range(survey.word(b, 3)):
        if at + 24 >= end:
            return None
        name = at + 24
        comment = name + survey.image[at + 23]
        if comment >= end or comment + 1 + survey.image[comment] > end:
            return None
        header, size = (int.from_bytes(survey.image[i : i + 4], "big") for i in (at, at + 4))
        found.append((header, size, survey.image[at + 22], bytes(survey.image[name:comment])))
        at = comment + 1 + survey.image[comment]
        at += at % 2
    return found


def cached(survey, directory):
    """The blocks and the records of the chain of the directory with this header; none at all if a block is no cache block of the directory."""
    b, seen, found = survey.word(directory, FIRST), [], []
    while b:
        if not 2 <= b < survey.blocks or b in survey.owner or b in seen or survey.word(b, 0) != DIR_CACHE or survey.word(b, 1) != b:
            return None
        here = records(survey, b)
        if survey.word(b, 2) != directory or not survey.sealed(b) or here is None:
            return None
        seen.append(b)
        found += here
        b = survey.word(b, NEXT)
    return seen, found


def recorded(survey, header):
    """What the record of an entry with this header has, but for the size of what is no file."""
    kind = survey.word(header, 127)
    return header, survey.word(header, 81) if kind == FILE else -1, kind % 256, survey.text(header, 432)[:79]


def directories(survey):
    """The node and the header of the root and of each directory, and the headers of its entries."""
    entries = {}
    for n in range(1, len(survey.nodes)):
        entries.setdefault(survey.nodes[n][2], []).append(survey.block_of(n))
    for n in range(len(survey.nodes)):
        header = survey.block_of(n)
        if not n or survey.word(header, 127) == DIR:
            yield n, header, entries.get(n, [])


def wrong_caches(survey):
    """The nodes of the directories whose cache is wrong, the root first."""
    if not survey.nodes or not survey.cached:
        return []
    wrong = []
    for n, header, within in directories(survey):
        found = cached(survey, header)
        told = None if found is None else sorted((h, s if k == FILE % 256 else -1, k, name) for h, s, k, name in found[1])
        if told != sorted(recorded(survey, h) for h in within):
            wrong.append(n)
    return wrong


# What a check makes of a volume of type 4 or 5: of the same volume of type 2 or 3, without caches


def bit_of(survey, b):
    """The page that has the bit of a block, the word there and the bit in it; none if the page is not found."""
    at, bit = survey.walk.get(page((b - 2) // PAGE_BITS)[0]), (b - 2) % PAGE_BITS
    return None if at is None else (at, 1 + bit // 32, bit % 32)


def is_free(survey, b):
    at = bit_of(survey, b)
    return at is not None and survey.word(*at[:2]) >> at[2] & 1 == 1


def with_bits(survey, image, blocks, free):
    """Changes the bits of these blocks in a copy of the image, and the first word of their pages by as much, so that the sum of each stays."""
    for b in blocks:
        at = bit_of(survey, b)
        if at is not None and is_free(survey, b) != free:
            change = 1 << at[2] if free else -1 << at[2]
            for i, more in ((at[1], change), (0, -change)):
                place = 512 * at[0] + 4 * i
                pack_into(">I", image, place, (unpack_from(">I", image, place)[0] + more) % 2**32)


def counts(survey, used):
    """The line of a sound volume, with so many blocks of caches in use."""
    free = sum(is_free(survey, b) for b in range(2, survey.blocks))
    dirs = sum(1 for _ in directories(survey)) - 1
    kind = ("ofs-cached", "ffs-cached")[survey.image[3] % 2]
    in_use, files = survey.blocks - 2 - free + used, len(survey.nodes) - 1 - dirs
    return f"ok {kind} blocks {survey.blocks} used {in_use} free {free - used} dirs {dirs} files {files}"


def verdict(image):
    """The line of a check of an image of type 4 or 5: its first fault is of a part, else of the caches, else of a bit."""
    survey = Survey(image)
    wrong = wrong_caches(survey)
    chains = [] if wrong else [b for _, header, _ in directories(survey) for b in cached(survey, header)[0]]
    plain = bytearray(image)
    plain[3] -= 2
    with_bits(survey, plain, chains, True)
    found = Survey(bytes(plain))
    faults = [(at, cause) for _, at, cause in found.findings if cause not in OTHER_TYPES]
    bits = [fault for fault in faults if fault[1] in OF_BIT]
    caches = [(survey.block_of(n), "directory cache") for n in wrong] + [(b, "owned free") for b in chains if is_free(survey, b)]
    for at, cause in [fault for fault in faults if fault[1] not in OF_BIT] + caches + bits:
        return f"block {at}: {cause}"
    return counts(found, len(chains))


# Volumes that get caches


def record_of(survey, header):
    """The record of the entry with this header, of an even length."""
    kind, name, comment = survey.word(header, 127), survey.text(header, 432), survey.text(header, 328)
    size, dates = survey.word(header, 81) if kind == FILE else 0, (survey.word(header, i) % 65536 for i in (105, 106, 107))
    front = pack(">3I5HB", header, size, survey.word(header, 80), 0, 0, *dates, kind % 256)
    record = front + bytes([len(name)]) + name + bytes([len(comment)]) + comment
    return record + bytes(len(record) % 2)


def filled(records, most):
    """The records of each block of a cache: as many as fit, and no more than this."""
    blocks = [[]]
    for record in records:
        if len(blocks[-1]) == most or sum(map(len, blocks[-1])) + len(record) > 512 - START:
            blocks.append([])
        blocks[-1].append(record)
    return blocks


def seal(image, b):
    pack_into(">I", image, 512 * b + 20, 0)
    pack_into(">I", image, 512 * b + 20, -sum(unpack_from(">128I", image, 512 * b)) % 2**32)


def with_caches(image, most=488):
    """The image of a sound volume of type 2 or 3 as one of type 4 or 5: each directory has a cache, in blocks that were free, with no more
    than so many records in each."""
    survey, new = Survey(image), bytearray(image)
    new[3] += 2
    free = iter([b for b in range(2, survey.blocks) if is_free(survey, b)])
    taken = []
    for _, header, within in directories(survey):
        parts = filled([record_of(survey, h) for h in within], most)
        chain = [next(free) for _ in parts]
        taken += chain
        pack_into(">I", new, 512 * header + 4 * FIRST, chain[0])
        seal(new, header)
        for part, b, past in zip(parts, chain, [*chain[1:], 0]):
            new[512 * b : 512 * b + 512] = (pack(">6I", DIR_CACHE, b, header, len(part), past, 0) + b"".join(part)).ljust(512, b"\0")
            seal(new, b)
    with_bits(survey, new, taken, False)
    return bytes(new)


def main():
    for path in sys.argv[1:]:
        with open(path, "rb") as it:
            survey = Survey(it.read())
        count = sum(1 for _ in directories(survey))
        print(path, count, "directories, wrong:", *map(survey.block_of, wrong_caches(survey)))


if __name__ == "__main__":
    main()
