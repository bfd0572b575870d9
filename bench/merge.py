#!/usr/bin/env python3
"""The merge of several readings of one disk by its definition (crates/adf_readings, crates/adf_maps, crates/adf_merge_cmd).

    bench/merge.py [--map MAP ..] A B [C..] > NEW      the new image; on errors the lines of what was left to chance, or is in no reading; status 1
                                                       if there are any. The maps are sound ones of ddrescue, in the order of the readings; - is none
"""

import argparse
import sys
from itertools import zip_longest
from struct import unpack_from
from typing import List, Optional, Sequence, Set, Tuple

BLOCK = 512


def is_filler(version: bytes) -> bool:
    """16 bytes over and over."""
    return version[16:] == version[:-16]


def has_own_number(b: int, words: Sequence[int]) -> bool:
    """A header, an extension block or a directory cache has its own number; a root, a data block and a bitmap page have none."""
    has_one = words[0] in (16, 33) or words[0] == 2 and words[127] != 1
    return words[1] == b if has_one else True


def is_credible(b: int, version: bytes) -> bool:
    words = unpack_from(">128I", version)
    return sum(words) % 2**32 == 0 and not is_filler(version) and has_own_number(b, words)


def taken(b: int, versions: Sequence[bytes]) -> Tuple[bytes, int]:
    """The version that is taken, and how many readings have another; 0 if nothing is left to chance."""
    if all(version == versions[0] for version in versions):
        return versions[0], 0
    weights = [(is_credible(b, version), versions.count(version), not is_filler(version)) for version in versions]
    best = versions[weights.index(max(weights))]
    credible = sum(weight[0] for weight in weights)
    return best, 0 if versions.count(best) == credible else len(versions) - versions.count(best)


def unread(text: str, size: int) -> Set[int]:
    """The blocks of a disk of which a byte was not read, by its map."""
    has = bytearray(size)
    rows = [line.split() for line in text.splitlines() if line.split() and not line.startswith("#")]
    for start, length, status in rows[1:]:
        at, count = int(start, 0), int(length, 0)
        has[at : at + count] = (b"\1" if status == "+" else b"\0") * count
    return {b for b in range(size // BLOCK) if not all(has[BLOCK * b : BLOCK * b + BLOCK])}


Doubts = List[Tuple[int, Optional[int]]]


def merged(readings: Sequence[bytes], lacking: Sequence[Set[int]] = ()) -> Tuple[bytes, Doubts]:
    """The new image, and each block that is told: with how many readings differ, or None if no reading has it."""
    blocks, doubts = [], []  # type: ignore
    for b in range(len(readings[0]) // BLOCK):
        having = [reading for reading, lacks in zip_longest(readings, lacking, fillvalue=set()) if b not in lacks]
        version, differing = taken(b, [reading[BLOCK * b : BLOCK * b + BLOCK] for reading in having or readings])
        blocks.append(version)
        if differing or not having:
            doubts.append((b, differing if having else None))
    return b"".join(blocks), doubts


def lines(doubts: Doubts) -> List[str]:
    """A line for each run of blocks of which the same is told."""
    runs: List[List[Optional[int]]] = []
    for b, differing in doubts:
        if runs and runs[-1][1] == b - 1 and runs[-1][2] == differing:
            runs[-1][1] = b
        else:
            runs.append([b, b, differing])
    return [told(*run) for run in runs]  # type: ignore


def told(first: int, last: int, differing: Optional[int]) -> str:
    blocks = f"block {first}" if first == last else f"blocks {first} to {last}"
    if differing is None:
        return f"{blocks}: in no reading"
    return f"{blocks}: 1 reading differs" if differing == 1 else f"{blocks}: {differing} readings differ"


def main() -> int:
    parser = argparse.ArgumentParser(description="Merges readings of one disk.")
    parser.add_argument("--map", action="append", default=[])
    parser.add_argument("readings", nargs="+")
    options, readings, lacking = parser.parse_args(), [], []
    for name in options.readings:
        with open(name, "rb") as file:
            readings.append(file.read())
    for name in options.map:
        if name == "-":
            lacking.append(set())
            continue
        with open(name, encoding="ascii") as file:
            lacking.append(unread(file.read(), len(readings[0])))
    image, doubts = merged(readings, lacking)
    sys.stdout.buffer.write(image)
    for line in lines(doubts):
        print(line, file=sys.stderr)
    return int(bool(doubts))


if __name__ == "__main__":
    sys.exit(main())
