"""Faults of an image: which blocks no longer hold what was written to them, and how."""

from __future__ import annotations

import random
from struct import pack_into, unpack_from
from typing import Callable, Dict, Iterable, List, NamedTuple, Optional, Set, Tuple

from truth_histories import OTHER_CYLINDERS, History
from truth_volumes import SLOTS, Ghost

Fault = Callable[[random.Random, History, bytearray], Set[int]]
WEIGHTY = (0, 1, 4, 5, 77, 78, 79, 81, 108, 124, 125, 126, 127)


class Damaged(NamedTuple):
    """A damaged image: the blocks that it is read as, those that were changed, and what was done."""

    image: bytes
    blocks: Optional[int]
    touched: Set[int]
    kind: str
    told: str
    unread: Set[int] = set()
    is_formatted: bool = False  # the damage is a quick format
    since: Tuple[Ghost, ...] = ()  # what was made and deleted again behind it


def in_role(role: str, history: History) -> List[int]:
    """The blocks of a role by what was written."""
    v, things = history.volume, history.live.values()
    roles: Dict[str, List[int]] = {
        "boot": [0],
        "root": [v.root],
        "page": v.pages,
        "map": v.maps,
        "dir": [thing.header for thing in things if thing.is_dir and not thing.is_link],
        "link": [thing.header for thing in things if thing.is_link],
        "file": [thing.header for thing in things if not thing.is_dir],
        "ext": [b for thing in things for b in thing.exts],
        "data": [b for thing in things for b in thing.datas],
        "cache": [b for thing in (v.tree, *things) for b in thing.caches],
    }
    return roles[role]


# What is done to blocks


def filled(dice: random.Random, image: bytearray, blocks: List[int], how: str) -> Set[int]:
    for b in blocks:
        content = {"zeroed": bytes(512), "formatted": b"\xe5" * 512}.get(how) or dice.randbytes(512)
        image[512 * b : 512 * b + 512] = content
    return set(blocks)


def flipped(dice: random.Random, image: bytearray, b: int) -> Set[int]:
    """One bit is another one: of any word, or of one that leads somewhere."""
    i = dice.choice(WEIGHTY) if b and dice.random() < 0.5 else dice.randrange(1 if b == 0 and dice.random() < 0.7 else 128)
    image[512 * b + 4 * i + dice.randrange(4)] ^= 1 << dice.randrange(8)
    return {b}


def a_flaw(how: str, role: str) -> Fault:
    """A block of a role, flawed."""

    def fault(dice: random.Random, history: History, image: bytearray) -> Set[int]:
        blocks = in_role(role, history)
        if not blocks:
            return set()
        b = dice.choice(blocks)
        return flipped(dice, image, b) if how == "bit" else filled(dice, image, [b], how)

    return fault


def swapped(dice: random.Random, history: History, image: bytearray) -> Set[int]:
    return placed(dice, history, image, True)


def repeated(dice: random.Random, history: History, image: bytearray) -> Set[int]:
    return placed(dice, history, image, False)


def placed(dice: random.Random, history: History, image: bytearray, both: bool) -> Set[int]:
    """A block of a used one's bytes stands in another's place, neighbours mostly; and the other way round."""
    used = sorted(b for b in history.volume.used if b < history.volume.blocks)
    k = dice.randrange(len(used))
    one = used[k]
    other = used[(k + 1) % len(used)] if dice.random() < 0.5 else dice.choice(used)
    first, second = (bytes(image[512 * b : 512 * b + 512]) for b in (one, other))
    image[512 * other : 512 * other + 512] = first
    if both:
        image[512 * one : 512 * one + 512] = second
    return set() if first == second else {other, one} if both else {other}


def words_of(history: History, b: int, thing_is_dir: bool) -> List[int]:
    """The words of a header that lead to other blocks."""
    words = unpack_from(">128I", history.image, 512 * b)
    table = [i for i in range(6, 78) if words[i]]
    return [*table[:SLOTS], 124, 125] if thing_is_dir else [*table[-3:], *table[:1], 124, 125, 126]


def misled(dice: random.Random, history: History, image: bytearray) -> Set[int]:
    """A word of the root or a header leads to another header, live or deleted; its sum is right."""
    headers = in_role("dir", history) + in_role("file", history)
    dead = [ghost.header for ghost in history.volume.ghosts]
    if not headers:
        return set()
    b = dice.choice([history.root, *headers])
    is_dir = b == history.root or history.live[history.owner[b]].is_dir
    i = dice.choice(words_of(history, b, is_dir)[: -2 if b == history.root else None] or [6])
    value = dice.choice(headers * 3 + [history.root] + (dead if dice.random() < 0.3 else []))
    pack_into(">I", image, 512 * b + 4 * i, value)
    pack_into(">I", image, 512 * b + 20, 0)
    pack_into(">I", image, 512 * b + 20, -sum(unpack_from(">128I", image, 512 * b)) % 2**32)
    return {b} if image[512 * b : 512 * b + 512] != history.image[512 * b : 512 * b + 512] else set()


def sectors(dice: random.Random, history: History) -> int:
    """The sectors of a track: 11 of a floppy, fewer where the volume is small."""
    blocks = history.volume.blocks
    return 11 if blocks >= 1000 else dice.choice([2, 4, 5, 8]) if blocks > 40 else 2


def tracks_lost(dice: random.Random, history: History, image: bytearray) -> Set[int]:
    """One to three tracks, one after the other."""
    size = sectors(dice, history)
    first = dice.randrange(-(-history.volume.blocks // size))
    return a_run(dice, history, image, size * first, size * (first + dice.choice([1, 1, 2, 3])))


def root_track_lost(dice: random.Random, history: History, image: bytearray) -> Set[int]:
    """The track that has the root, and the bitmap behind it."""
    size = sectors(dice, history)
    first = history.root // size * size
    return a_run(dice, history, image, first, max(first + size, history.root + 1 + len(history.volume.pages)))


def a_run(dice: random.Random, history: History, image: bytearray, first: int, past: int) -> Set[int]:
    how = dice.choice(["zeroed", "formatted", "noisy"])
    return filled(dice, image, list(range(first, min(past, history.volume.blocks))), how)


def head_lost(dice: random.Random, history: History, image: bytearray) -> Set[int]:
    """One head over some cylinders: every second track."""
    size, blocks = sectors(dice, history), history.volume.blocks
    cylinders = -(-blocks // (2 * size))
    first, head = dice.randrange(cylinders), dice.randrange(2)
    past = min(cylinders, first + dice.choice([2, 3, 5, cylinders]))
    lost = [b for c in range(first, past) for b in range((2 * c + head) * size, (2 * c + head + 1) * size) if b < blocks]
    return filled(dice, image, lost, dice.choice(["zeroed", "formatted", "noisy"]))


def typed_otherwise(dice: random.Random, history: History, image: bytearray) -> Set[int]:
    """The type is another one."""
    image[3] = dice.choice([t for t in range(6) if t != history.volume.kind])
    return {0}


def changed(history: History, image: bytearray, blocks: Iterable[int]) -> Set[int]:
    """Those of some blocks that are no longer what was written."""
    return {b for b in blocks if image[512 * b : 512 * b + 512] != history.image[512 * b : 512 * b + 512]}


def stale(role: str) -> Fault:
    """A block of a role was not written the last time: it is what it was at an earlier moment."""

    def fault(dice: random.Random, history: History, image: bytearray) -> Set[int]:
        blocks = in_role(role, history)
        if not blocks or not history.older:
            return set()
        b, old = dice.choice(blocks), dice.choice(history.older)
        image[512 * b : 512 * b + 512] = old[512 * b : 512 * b + 512]
        return changed(history, image, [b])

    return fault


def some_run(dice: random.Random, history: History) -> range:
    """Sectors one after the other, anywhere or from a block of a role on."""
    some = in_role(dice.choice(["root", "page", "dir", "file", "ext", "data"]), history)
    first = dice.choice(some) if some and dice.random() < 0.8 else dice.randrange(history.volume.blocks)
    return range(first, min(history.volume.blocks, first + dice.choice([1, 2, 3, 5, 11, 22])))


def shifted(dice: random.Random, history: History, image: bytearray) -> Set[int]:
    """Each sector of a run holds what the one before it held, or the one behind it."""
    run, by = some_run(dice, history), dice.choice([-1, 1])
    for b in run:
        from_there = min(max(b + by, 0), history.volume.blocks - 1)
        image[512 * b : 512 * b + 512] = history.image[512 * from_there : 512 * from_there + 512]
    return changed(history, image, run)


def bytes_swapped(dice: random.Random, history: History, image: bytearray) -> Set[int]:
    """The two bytes of each word of 16 bits are the other way round, in a run or in all of the image."""
    run = some_run(dice, history) if dice.random() < 0.97 else range(history.volume.blocks)
    for b in run:
        block = image[512 * b : 512 * b + 512]
        image[512 * b : 512 * b + 512 : 2], image[512 * b + 1 : 512 * b + 512 : 2] = block[1::2], block[::2]
    return changed(history, image, run)


def filler(dice: random.Random, history: History, image: bytearray) -> Set[int]:
    """A dumping program left its filler where it could not read."""
    run, content = some_run(dice, history), dice.choice(FILLERS)
    for b in run:
        image[512 * b : 512 * b + 512] = content
    return changed(history, image, run)


FILLERS = (bytes(512), b"\xf6" * 512, b"\xde\xad\xbe\xef" * 128, b"-=[BAD SECTOR]=-" * 32)
FLAWS: Dict[str, Fault] = {
    f"{how}: {role}": a_flaw(how, role)
    for role in ("boot", "root", "page", "map", "dir", "file", "ext", "data")
    for how in ("bit", "zeroed", "noisy")
}
FAULTS: Dict[str, Fault] = {
    **FLAWS,
    "swapped": swapped,
    "repeated": repeated,
    "misled pointer": misled,
    "tracks": tracks_lost,
    "root's track": root_track_lost,
    "head": head_lost,
    "type": typed_otherwise,
}
MORE_FAULTS: Dict[str, Fault] = {
    **{f"stale: {role}": stale(role) for role in ("root", "page", "dir", "file", "ext", "data")},
    **{f"{how}: {role}": a_flaw(how, role) for role in ("cache", "link") for how in ("bit", "zeroed")},
    "shifted": shifted,
    "bytes swapped": bytes_swapped,
    "filler": filler,
}
ALL_FAULTS = {**FAULTS, **MORE_FAULTS}


def cut(dice: random.Random, damaged: Damaged, blocks: int) -> Damaged:
    """The image without its end, read as if it had all blocks; of floppies also as it is."""
    held = dice.randrange(max(3, blocks // 3), blocks)
    length = 512 * held + dice.choice([0, 0, 100])
    touched = {*damaged.touched, *range(held, blocks)}
    stated = None if blocks in (1760, 3520) and held > blocks // 2 and dice.random() < 0.4 else blocks
    return Damaged(damaged.image[:length], stated, touched, damaged.kind, f"{damaged.told}; cut after {held} blocks")


def longer(dice: random.Random, damaged: Damaged, blocks: int) -> Damaged:
    """A floppy that was read with 81 to 84 tracks."""
    more = 22 * dice.choice([1, 2, 3, 4])
    behind = dice.choice([bytes(512 * more), b"\xe5" * (512 * more), dice.randbytes(512 * more)])
    return Damaged(damaged.image + behind, None, damaged.touched, damaged.kind, f"{damaged.told}; {more} blocks behind it")


def dumped(dice: random.Random, damaged: Damaged, blocks: int) -> Damaged:
    """A floppy of 81 to 84 cylinders, read with another number of them, 80 to 84."""
    held = dice.choice([many for many in (1760, *OTHER_CYLINDERS) if many != blocks])
    behind = bytes(max(0, 512 * (held - blocks)))
    image = damaged.image[: 512 * held] + behind
    return Damaged(image, None, {*damaged.touched, *range(held, blocks)}, damaged.kind, f"{damaged.told}; {held} blocks were read")


def one_fault(dice: random.Random, history: History, image: bytearray, names: List[str]) -> Tuple[str, Set[int]]:
    """A fault of the history that changes something."""
    for _ in range(20):
        name = dice.choice(names)
        touched = ALL_FAULTS[name](dice, history, image)
        if touched:
            return name, touched
    return "nothing", set()


def damage(dice: random.Random, history: History, faults: Optional[Dict[str, Fault]] = None) -> Damaged:
    """One fault, or two, or none; of the whole image, in some cases with its end cut or with tracks behind it."""
    image, share, blocks = bytearray(history.image), dice.random(), history.volume.blocks
    names, kinds, touched = list(faults or FAULTS), [], set()
    ends = 0.0 if share < 0.03 else dice.random()
    for _ in range(0 if share < 0.03 else 1 if share < 0.6 or ends < 0.1 else 2):
        name, some = one_fault(dice, history, image, names)
        kinds.append(name)
        touched |= some
    kind = f"nothing, {history.state}" if not kinds else kinds[0] if len(kinds) == 1 else f"{kinds[0]} + another"
    told = " + ".join(kinds) or "nothing"
    result = Damaged(bytes(image), None, touched, kind, told)
    if faults and blocks in OTHER_CYLINDERS and dice.random() < 0.5:
        whole = Damaged(history.image, None, set(), "other cylinders", "whole") if dice.random() < 0.5 else result._replace(kind="other cylinders + another")
        return dumped(dice, whole, blocks)
    if ends < 0.05 and kinds:
        whole = Damaged(history.image, None, set(), "cut end", "whole") if dice.random() < 0.6 else result._replace(kind="cut end + another")
        return cut(dice, whole, blocks)
    if blocks == 1760 and dice.random() < 0.3:
        whole = Damaged(history.image, None, set(), "81 to 84 tracks", "whole") if dice.random() < 0.5 else result._replace(kind="81 to 84 tracks + another")
        return longer(dice, whole, blocks)
    return result


def formatted(dice: random.Random, history: History) -> Damaged:
    """A quick format, which is a damage of what was there before."""
    later = history.formatted_anew(dice)
    image, v = bytes(later.volume.image), history.volume
    touched = {b for b in range(v.blocks) if image[512 * b : 512 * b + 512] != history.image[512 * b : 512 * b + 512]}
    kind = f"formatted{', written to' if later.volume.tree.children or later.volume.ghosts else ''}"
    return Damaged(image, None, touched, kind, kind, set(), True, tuple(later.volume.ghosts))


# Sectors that were not read


def unread_at(dice: random.Random, history: History, image: bytearray) -> Set[int]:
    """Runs of sectors that were not read, anywhere or from a block of a role on: a filler stands there."""
    blocks, lost = history.volume.blocks, set()
    for _ in range(dice.choice([1, 1, 2, 3, 5])):
        some = in_role(dice.choice(["root", "page", "dir", "file", "ext", "data", "data", "data"]), history)
        first = dice.choice(some) if some and dice.random() < 0.8 else dice.randrange(blocks)
        lost |= set(range(first, min(blocks, first + dice.choice([1, 1, 1, 2, 5, 11, 22]))))
    filler = dice.choice(FILLERS)
    for b in lost:
        image[512 * b : 512 * b + 512] = filler
    return lost


def unread(dice: random.Random, history: History) -> Damaged:
    """Sectors that were not read; in some cases with another fault, and in some of the whole image."""
    image, kind, touched = bytearray(history.image), "unread", set()
    if dice.random() < 0.2:
        kind, touched = one_fault(dice, history, image, list(FAULTS))
        kind = f"unread + {kind}"
    lost = unread_at(dice, history, image)
    return Damaged(bytes(image), None, touched | lost, kind, kind, lost)
