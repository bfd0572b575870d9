"""Answers made from the truth, and spoilt: the judge has to let the first pass, and to catch the others."""

from __future__ import annotations

import functools
import random
from collections import Counter
from typing import Callable, Dict, Iterator, List, Optional, Set, Tuple

from truth_damage import ALL_FAULTS, Damaged, damage, formatted
from truth_histories import History, lived
from truth_judge import Answer, Back, Judge, Line, Listed
from truth_volumes import POINTERS, Ghost, Path, Thing

NO_DATES = ((0, 0, 0),) * 3
LEAST = 0.9  # of the answers that are spoilt in a way
Spoil = Callable[["Truth"], Optional[Answer]]


def told(why: str, path: Path, header: int) -> Line:
    """A line of an entry."""
    return Line(f"{why}: {path!r}", path, None, range(header, header + 1))


class Truth:
    """What the truth itself answers to a damaged image: what is whole, in its place or below `lost-N`, and a line for whatever is not."""

    def __init__(self, history: History, damaged: Damaged, dice: random.Random) -> None:
        self.history, self.damaged, self.dice = history, damaged, dice
        self.now: Dict[Path, Path] = {(): ()}
        self.given: Set[Path] = set()
        self.lost_in: Set[Path] = set()
        for path, thing in reversed(list(history.live.items())):
            if self.is_given(thing) or any(below[: len(path)] == path for below in self.given):
                self.given.add(path)
        for path, thing in history.live.items():
            is_made = self.is_made(path, thing)
            self.now[path] = (b"lost-%d" % thing.header,) if is_made else (*self.now[path[:-1]], path[-1])
        self.answer = self.told()
        self.judge = Judge(history, damaged, self.answer)

    def is_touched(self, thing: Thing) -> bool:
        return thing.header in self.damaged.touched

    def is_made(self, path: Path, thing: Thing) -> bool:
        """A directory in the place of one whose header a fault touched."""
        return thing.is_dir and self.is_touched(thing) and path in self.given

    def is_held(self, b: int) -> bool:
        return 512 * b + 512 <= len(self.damaged.image)

    def is_given(self, thing: Thing) -> bool:
        """Its header and its extension blocks are whole, and its data, or its data is such that no reader can tell."""
        if thing.is_link or {thing.header, *thing.exts} & self.damaged.touched:
            return False
        is_ffs = self.history.volume.chunk == 512
        return all(is_ffs and self.is_held(d) for d in thing.datas if d in self.damaged.touched)

    def piece(self, thing: Thing, k: int) -> bytes:
        """Data block k as a reader gives it: FFS data that was changed is what stands there."""
        chunk, d = self.history.volume.chunk, thing.datas[k]
        piece = (thing.content or b"")[chunk * k : chunk * k + chunk]
        return self.damaged.image[512 * d : 512 * d + len(piece)] if d in self.damaged.touched and chunk == 512 else piece

    def back(self, thing: Thing) -> Back:
        if thing.content is None:
            words = (b"", 0, (0, 0, 0)) if self.is_touched(thing) else (thing.comment, thing.protection, thing.date)
            return Back(None, *words)
        return Back(b"".join(self.piece(thing, k) for k in range(len(thing.datas))), thing.comment, thing.protection, thing.date)

    def told(self) -> Answer:
        """The whole answer."""
        live, is_whole = self.history.live, self.history.root not in self.damaged.touched
        things = {self.now[path]: self.back(live[path]) for path in live if path in self.given}
        lines = [*self.front(), *self.entry_lines()]
        label, dates = (self.history.label, self.history.dates) if is_whole else (b"", NO_DATES)
        listed = [self.listed(path, thing) for path, thing in live.items() if not self.is_touched(thing)]
        return Answer(things, lines, label, dates, bool(lines), listed)

    def front(self) -> Iterator[Line]:
        """The lines of the volume and of its directories."""
        touched, v = self.damaged.touched, self.history.volume
        for why, blocks in (("type", [0]), ("root", [v.root]), ("bitmap", [*v.pages, *v.maps])):
            yield from (Line(f"{why}: block {b}", None, None, range(b, b + 1)) for b in blocks if b in touched)
        hit_things = [(path, thing) for path, thing in self.history.live.items() if self.is_touched(thing)]
        hit = {path[:-1] for path, _ in hit_things} | {path for path, thing in hit_things if thing.is_dir}
        for path in sorted(hit | ({()} if v.root in touched else set())):
            yield Line(f"lost: in {self.now[path]!r}", None, self.now[path])

    def entry_lines(self) -> Iterator[Line]:
        for path, thing in self.history.live.items():
            if path not in self.given:
                yield told("link" if thing.is_link else "damaged", self.now[path], thing.header)
            elif self.now[path] != path:
                yield told("made" if self.is_made(path, thing) else "found again", self.now[path], thing.header)

    def listed(self, path: Path, thing: Thing) -> Listed:
        """What a survey has of an entry whose header is whole."""
        if thing.content is None:
            return Listed(self.now[path], self.back(thing), True, b"", [], False)
        left, gaps, chunk = bytearray(), [], self.history.volume.chunk
        for k in range(len(thing.datas)):
            piece, first = self.piece(thing, k), len(left)
            is_left = self.is_left(thing, k)
            left += piece if is_left else bytes(len(piece))
            if not is_left:
                gaps.append(range(gaps.pop().start if gaps and gaps[-1].stop == first else first, len(left)))
        assert len(left) <= chunk * len(thing.datas)
        whole = Back(bytes(left), thing.comment, thing.protection, thing.date)
        return Listed(self.now[path], whole, path in self.given, bytes(left), gaps, bool(gaps))

    def is_left(self, thing: Thing, k: int) -> bool:
        """Data block k can be told: the extension blocks in front of it are whole, and it is."""
        if self.damaged.touched & set(thing.exts[: k // POINTERS]):
            return False
        return thing.datas[k] not in self.damaged.touched or self.history.volume.chunk == 512 and self.is_held(thing.datas[k])

    def is_taken(self, path: Path) -> bool:
        return path in self.history.live or path in self.answer.things

    def is_cut_off(self, path: Path) -> bool:
        """The way to an entry is broken."""
        return any(self.judge.is_broken(self.history.live[path[:k]]) for k in range(1, len(path) + 1))

    # What can be spoilt

    def whole(self, wanted: Callable[[Thing], object] = lambda thing: True) -> Optional[Path]:
        """An entry that no fault touched, nor its directories below the root, and that stands in its place."""
        some = [path for path, thing in self.history.live.items() if self.judge.whole_kind(thing) in ("untouched", "root") and wanted(thing)]
        return self.dice.choice(some) if some else None

    def ghost(self, wanted: Callable[[Ghost], object] = lambda ghost: True) -> Optional[Ghost]:
        """What was deleted, that has a name and a directory of now, and no foreign program half deleted."""
        live, v = self.history.live, self.history.volume
        some = [ghost for ghost in v.ghosts if ghost.path not in live and (ghost.path[:-1] in self.answer.things or len(ghost.path) == 1)]
        some = [ghost for ghost in some if not self.judge.let_off(ghost) and not self.is_live(ghost) and wanted(ghost)]
        return self.dice.choice(some) if some else None

    def is_live(self, ghost: Ghost) -> bool:
        """It was moved or written anew, and stands in another place."""
        return any(self.judge.is_like(path, ghost.path, as_it_was(ghost)) for path in self.history.live)

    def with_things(self, *removed: Path, **more: object) -> Answer:
        """The answer without these entries and what is in them, but with other lines or things."""
        things = {path: back for path, back in self.answer.things.items() if not any(path[: len(each)] == each for each in removed)}
        added: Dict[Path, Back] = more.pop("added", {})  # type: ignore
        return self.answer._replace(things={**things, **added}, **more)  # type: ignore

    def with_line(self, line: Line, *removed: Path, **more: object) -> Answer:
        return self.with_things(*removed, lines=[*self.answer.lines, line], has_findings=True, **more)


def as_it_was(ghost: Ghost) -> Back:
    return Back(ghost.content, b"", 0, (0, 0, 0))


def other(content: bytes, at: int) -> bytes:
    """The bytes with another one at a place."""
    return content[:at] + bytes([content[at] ^ 0x55]) + content[at + 1 :]


# Ways to spoil an answer


def refuses_all(truth: Truth) -> Optional[Answer]:
    """All is refused once the root is touched."""
    is_hit = truth.history.root in truth.damaged.touched and truth.whole()
    return Answer({}, [], b"", (), True, truth.answer.listed, True) if is_hit else None


def gives_nothing(truth: Truth) -> Optional[Answer]:
    """Nothing is back, and one line says `lost: in /`."""
    return truth.answer._replace(things={}, lines=[Line("lost: in /", None, ())], has_findings=True) if truth.whole() else None


def raises_all(truth: Truth) -> Optional[Answer]:
    """Every deleted thing is live, and one line says `lost: in /`."""
    if truth.ghost() is None:
        return None
    dead = {ghost.path: as_it_was(ghost) for ghost in truth.history.volume.ghosts if ghost.path not in truth.history.live}
    return truth.with_line(Line("lost: in /", None, ()), added=dead)


def garbles_all(truth: Truth) -> Optional[Answer]:
    """All bytes are wrong, where the type is whole, the root is touched and files are few."""
    files, touched = [thing for thing in truth.history.live.values() if thing.content], truth.damaged.touched
    if truth.history.root not in touched or 0 in touched or len(files) >= 8 or not truth.whole(lambda thing: thing.content):
        return None
    return truth.answer._replace(things={path: garbled(back) for path, back in truth.answer.things.items()})


def garbled(back: Back) -> Back:
    return back._replace(content=bytes(c ^ 0x55 for c in back.content)) if back.content else back


def doubts_directory(truth: Truth) -> Optional[Answer]:
    """What is in a directory whose header is touched is left out, and a line says `in doubt` of the directory."""
    live = truth.history.live
    whole = {path[:k] for path, thing in live.items() if truth.judge.whole_kind(thing) == "dir" for k in range(1, len(path))}
    some = [path for path in whole if live[path].is_dir and truth.is_touched(live[path])]
    if not some:
        return None
    path = truth.dice.choice(sorted(some))
    now, header = truth.now[path], truth.history.live[path].header
    lines = [line for line in truth.answer.lines if (line.path or line.directory or ())[: len(now)] != now]
    return truth.with_things(now, lines=[*lines, told("in doubt", now, header)], added={now: truth.answer.things[now]})


def links_limbo(truth: Truth) -> Optional[Answer]:
    """A file that was never linked stands as `lost-N`, at status 0."""
    if truth.answer.lines or not truth.history.volume.limbo:
        return None
    ghost = truth.dice.choice(truth.history.volume.limbo)
    if ghost.header in truth.history.owner:
        return None
    return truth.with_things(added={(b"lost-%d" % ghost.header,): as_it_was(ghost)})


def cuts_name(truth: Truth) -> Optional[Answer]:
    """A name lacks its last letter, without a line."""
    path = truth.whole(lambda thing: len(thing.name) > 1 and not truth.is_taken((*thing.path()[:-1], thing.name[:-1])))
    return path and moved(truth, path, (*path[:-1], path[-1][:-1]))


def moved(truth: Truth, path: Path, to: Path) -> Answer:
    """The answer with an entry, and what is in it, elsewhere."""
    below = {(*to, *each[len(path) :]): back for each, back in truth.answer.things.items() if each[: len(path)] == path}
    return truth.with_things(path, added=below)


def moves_entry(truth: Truth) -> Optional[Answer]:
    """An entry is in another directory, without a line."""
    path = truth.whole()
    parents = [(), *(each for each, back in truth.answer.things.items() if back.content is None)]
    parents = [each for each in parents if path and each != path[:-1] and each[: len(path)] != path and not truth.is_taken((*each, path[-1]))]
    return moved(truth, path, (*truth.dice.choice(parents), path[-1])) if path and parents else None


def renames_elsewhere(truth: Truth) -> Optional[Answer]:
    """An entry is in another directory, and a line says that it is renamed."""
    spoilt = moves_entry(truth)
    if spoilt is None:
        return None
    old, new = set(truth.answer.things) - set(spoilt.things), set(spoilt.things) - set(truth.answer.things)
    line = Line("renamed", min(old, key=len), None, range(0), min(new, key=len))
    return spoilt._replace(lines=[*spoilt.lines, line], has_findings=True)


def renames_directory(truth: Truth) -> Optional[Answer]:
    """A directory has another name, without a line."""
    path = truth.whole(lambda thing: thing.is_dir)
    return path and moved(truth, path, (*path[:-1], b"lost-%d" % truth.history.live[path].header))


def swaps(truth: Truth, field: str, wanted: Callable[[Thing], object]) -> Optional[Answer]:
    """Two entries have each other's bytes, dates or comments."""
    one, two = truth.whole(wanted), truth.whole(wanted)
    if not one or not two:
        return None
    first, second = truth.answer.things[one], truth.answer.things[two]
    if getattr(first, field) == getattr(second, field):
        return None
    changed = {one: first._replace(**{field: getattr(second, field)}), two: second._replace(**{field: getattr(first, field)})}
    return truth.with_things(added=changed)


def swaps_bytes(truth: Truth) -> Optional[Answer]:
    """Two files have each other's bytes."""
    return swaps(truth, "content", lambda thing: not thing.is_dir)


def swaps_dates(truth: Truth) -> Optional[Answer]:
    """Two entries have each other's dates."""
    return swaps(truth, "date", lambda thing: True)


def swaps_comments(truth: Truth) -> Optional[Answer]:
    """Two entries have each other's comments."""
    return swaps(truth, "comment", lambda thing: True)


def changes(truth: Truth, changed: Callable[[bytes], bytes]) -> Optional[Answer]:
    """A file that is whole has other bytes, in the volume and in `cat`."""
    path = truth.whole(lambda thing: thing.content)
    if not path:
        return None
    back = truth.answer.things[path]
    return truth.with_things(added={path: back._replace(content=changed(back.content or b""))})


def one_byte(truth: Truth) -> Optional[Answer]:
    """One byte of a file is wrong."""
    return changes(truth, lambda content: other(content, truth.dice.randrange(len(content))))


def one_byte_doubted(truth: Truth) -> Optional[Answer]:
    """One byte of a file is wrong, and a line says `in doubt` of it."""
    path = truth.whole(lambda thing: thing.content)
    if not path:
        return None
    back = truth.answer.things[path]
    changed = {path: back._replace(content=other(back.content or b"", truth.dice.randrange(len(back.content or b""))))}
    return truth.with_line(told("in doubt", path, truth.history.live[path].header), added=changed)


def longer_by_block(truth: Truth) -> Optional[Answer]:
    """A file is longer by a block."""
    return changes(truth, lambda content: content + bytes(truth.history.volume.chunk))


def shorter_by_block(truth: Truth) -> Optional[Answer]:
    """A file lacks its last block."""
    return changes(truth, lambda content: content[: (len(content) - 1) // truth.history.volume.chunk * truth.history.volume.chunk])


def twice(truth: Truth) -> Optional[Answer]:
    """An entry stands a second time in the root."""
    path = truth.whole(lambda thing: len(thing.path()) > 1 and not truth.is_taken((thing.name,)))
    if not path:
        return None
    ghosts = [ghost for ghost in truth.history.volume.ghosts if truth.judge.is_ghost(ghost, path[-1:], truth.answer.things[path])]
    return None if any(map(truth.judge.let_off, ghosts)) else truth.with_things(added={path[-1:]: truth.answer.things[path]})


def other_protection(truth: Truth) -> Optional[Answer]:
    """One bit of a protection is another one."""
    path = truth.whole()
    if not path:
        return None
    back = truth.answer.things[path]
    return truth.with_things(added={path: back._replace(protection=back.protection ^ 8)})


def other_label(truth: Truth) -> Optional[Answer]:
    """The label is another one, though the root is whole."""
    return None if truth.history.root in truth.damaged.touched else truth.answer._replace(label=truth.history.label + b"x")


def hides_losses(truth: Truth) -> Optional[Answer]:
    """Status 0, though something is lost."""
    return truth.answer._replace(lines=[]) if set(truth.history.live) - set(truth.answer.things) else None


def tells_another(truth: Truth) -> Optional[Answer]:
    """An entry is gone, and a line tells of another one."""
    path, another = truth.whole(), truth.whole()
    if not path or not another or another == path or another[: len(path)] == path:
        return None
    return truth.with_line(told("damaged", another, truth.history.live[another].header), path)


def tells_directory(truth: Truth) -> Optional[Answer]:
    """An entry is gone, and a line tells of its directory as an entry."""
    path = truth.whole(lambda thing: len(thing.path()) > 1)
    return path and truth.with_line(told("damaged", path[:-1], truth.history.live[path[:-1]].header), path)


def tells_chain(truth: Truth) -> Optional[Answer]:
    """An entry is gone, and a line says `lost: in` of its directory, whose chain is whole."""
    path = truth.whole()
    return path and truth.with_line(Line("lost: in", None, path[:-1]), path)


def tells_blocks(truth: Truth) -> Optional[Answer]:
    """An entry is gone, and a line says `lost: blocks` of its own blocks."""
    path = truth.whole()
    return path and truth.with_line(Line("lost: blocks", None, None, range(min(own := truth.history.live[path].blocks()), max(own) + 1)), path)


def loses_damaged(truth: Truth) -> Optional[Answer]:
    """The line of a file that is damaged is gone, others are left."""
    live = truth.history.live.items()
    some = [path for path, thing in live if path not in truth.given and not truth.is_touched(thing) and not truth.is_cut_off(path)]
    if not some:
        return None
    path = truth.now[truth.dice.choice(some)]
    lines = [line for line in truth.answer.lines if line.path != path]
    return truth.answer._replace(lines=[*lines, Line("lost: in /", None, ())])


def found_elsewhere(truth: Truth) -> Optional[Answer]:
    """What stands below `lost-N` has no line, and neither has the directory; others are left."""
    some = [now for path, now in truth.now.items() if path in truth.given and now != path]
    lines = [line for line in truth.answer.lines if line.path is None or line.path[:1] not in {now[:1] for now in some}]
    return truth.answer._replace(lines=lines) if some else None


def zeros(truth: Truth) -> Optional[Answer]:
    """A file whose data is hit is back with zeros in its place."""
    wanted = [path for path, thing in truth.history.live.items() if path not in truth.given and thing.content and not truth.is_touched(thing)]
    wanted = [path for path in wanted if any((truth.history.live[path].content or b"")) and truth.now[path[:-1]] in {(), *truth.answer.things}]
    if not wanted:
        return None
    path = truth.dice.choice(wanted)
    thing = truth.history.live[path]
    zeroed = Back(bytes(len(thing.content or b"")), thing.comment, thing.protection, thing.date)
    return truth.with_things(added={truth.now[path]: zeroed})


def raises_one(truth: Truth) -> Optional[Answer]:
    """A deleted file is live, at status 1 by lines of others."""
    ghost = truth.ghost(lambda ghost: ghost.content is not None)
    return ghost and truth.with_line(Line("lost: in /", None, ()), added={ghost.path: as_it_was(ghost)})


def raises_directory(truth: Truth) -> Optional[Answer]:
    """A deleted directory is live, at status 1 by lines of others."""
    ghost = truth.ghost(lambda ghost: ghost.content is None)
    return ghost and truth.with_line(Line("lost: in /", None, ()), added={ghost.path: as_it_was(ghost)})


def spoils_deleted(truth: Truth) -> Optional[Answer]:
    """A deleted file is back with a line of its own, and one byte is wrong."""
    ghost = truth.ghost(lambda ghost: ghost.content)
    if ghost is None:
        return None
    content = other(ghost.content or b"", truth.dice.randrange(len(ghost.content or b"")))
    back = as_it_was(ghost)._replace(content=content)
    return truth.with_line(told("deleted", ghost.path, ghost.header), added={ghost.path: back})


def invents_file(truth: Truth) -> Optional[Answer]:
    """A file that was never there stands as `lost-N`, with a line of its own."""
    header = truth.history.volume.blocks - 1
    if header in truth.history.owner or any(ghost.header == header for ghost in truth.history.volume.ghosts):
        return None
    path = (b"lost-%d" % header,)
    return truth.with_line(told("found again", path, header), added={path: Back(b"never there", b"", 0, (0, 0, 0))})


def makes_directory(truth: Truth) -> Optional[Answer]:
    """A directory is made, with a line of its own, in the place of the header of a file that is whole."""
    path = truth.whole(lambda thing: not thing.is_dir)
    if not path:
        return None
    header = truth.history.live[path].header
    made = (b"lost-%d" % header,)
    return truth.with_line(told("made", made, header), added={made: Back(None, b"", 0, (0, 0, 0))})


def hides_link(truth: Truth) -> Optional[Answer]:
    """A link is left out without its line."""
    some = [path for path, thing in truth.history.live.items() if thing.is_link and not truth.is_cut_off(path)]
    if not some:
        return None
    gone = truth.now[truth.dice.choice(some)]
    return truth.answer._replace(lines=[*(line for line in truth.answer.lines if line.path != gone), Line("lost: in /", None, ())])


def spoils_kept(truth: Truth) -> Optional[Answer]:
    """A deleted file is in a directory of deleted ones, as it was asked for, and one byte is wrong."""
    ghost = truth.ghost(lambda ghost: ghost.content)
    if ghost is None or truth.is_taken((b"deleted",)):
        return None
    content = other(ghost.content or b"", truth.dice.randrange(len(ghost.content or b"")))
    kept = {(b"deleted",): Back(None, b"", 0, (0, 0, 0)), (b"deleted", ghost.path[-1]): as_it_was(ghost)._replace(content=content)}
    return truth.with_things(added=kept, has_deleted=True)


def keeps_live(truth: Truth) -> Optional[Answer]:
    """A live file stands a second time in the directory of deleted ones."""
    path = truth.whole(lambda thing: thing.content)
    dead = [ghost for ghost in truth.history.volume.ghosts if path and truth.judge.is_ghost(ghost, path[-1:], truth.answer.things[path])]
    if not path or dead or truth.is_taken((b"deleted",)):
        return None
    kept = {(b"deleted",): Back(None, b"", 0, (0, 0, 0)), (b"deleted", path[-1]): truth.answer.things[path]}
    return truth.with_things(added=kept, has_deleted=True)


def listed_anew(truth: Truth, wanted: Callable[[Listed], object], changed: Callable[[Listed], Listed]) -> Optional[Answer]:
    """The survey has another entry in place of one."""
    some = [k for k, each in enumerate(truth.answer.listed) if each.path in truth.history.live and wanted(each)]
    if not some:
        return None
    k, listed = truth.dice.choice(some), list(truth.answer.listed)
    listed[k] = changed(listed[k])
    return truth.answer._replace(listed=listed)


def spoils_cat(truth: Truth) -> Optional[Answer]:
    """`cat` gives a file that is whole with one byte wrong."""
    at = lambda each: truth.dice.randrange(len(each.left))
    return listed_anew(truth, lambda each: each.is_sound and each.left, lambda each: each._replace(left=other(each.left, at(each))))


def spoils_left(truth: Truth) -> Optional[Answer]:
    """`cat --damaged` gives a byte outside of the gaps wrong, at status 1."""
    held = lambda each: [at for at in range(len(each.left)) if not any(at in gap for gap in each.gaps)]
    return listed_anew(truth, lambda each: each.gaps and held(each), lambda each: each._replace(left=other(each.left, truth.dice.choice(held(each)))))


def hides_gaps(truth: Truth) -> Optional[Answer]:
    """`cat --damaged` gives zeros for what is lost, and tells no gap."""
    is_plain = lambda each: each.gaps and any((truth.history.live[each.path].content or b"")[gap.start : gap.stop].strip(b"\0") for gap in each.gaps)
    return listed_anew(truth, is_plain, lambda each: each._replace(gaps=[], is_told=False))


def calls_sound(truth: Truth) -> Optional[Answer]:
    """A file with gaps is called sound."""
    is_plain = lambda each: each.gaps and any((truth.history.live[each.path].content or b"")[gap.start : gap.stop].strip(b"\0") for gap in each.gaps)
    return listed_anew(truth, is_plain, lambda each: each._replace(is_sound=True))


def finds_nothing(truth: Truth) -> Optional[Answer]:
    """The survey lacks an entry, and has no findings."""
    return truth.answer._replace(has_findings=False, listed=truth.answer.listed[1:]) if truth.answer.listed and not truth.judge.relinked else None


def alarms(truth: Truth) -> Optional[Answer]:
    """A volume that no fault touched has a line."""
    is_whole = not truth.damaged.touched and truth.history.state == "valid" and truth.damaged.image == truth.history.image
    is_whole = is_whole and not any(thing.is_link for thing in truth.history.live.values())
    return truth.with_line(Line("lost: in /", None, ())) if is_whole else None


MUTANTS: Tuple[Spoil, ...] = (
    refuses_all, gives_nothing, raises_all, garbles_all, doubts_directory, links_limbo, cuts_name, moves_entry, renames_elsewhere,
    renames_directory, swaps_bytes, one_byte, one_byte_doubted, longer_by_block, shorter_by_block, twice, swaps_dates, swaps_comments,
    other_protection, other_label, hides_losses, tells_another, tells_directory, tells_chain, tells_blocks, loses_damaged, found_elsewhere, zeros,
    raises_one, raises_directory, spoils_deleted, invents_file, makes_directory, hides_link, spoils_kept, keeps_live, spoils_cat, spoils_left, hides_gaps, calls_sound, finds_nothing, alarms,
)  # fmt: skip


Tried = Tuple[int, List[Tuple[str, str]], Dict[str, int], Dict[str, int], List[str]]


@functools.lru_cache(maxsize=4)
def volume_of(seed: str, number: int) -> History:
    return lived(f"{seed} mutants", number)


def truth_of(seed: str, number: int, shares: int = 5) -> Truth:
    """The truth of a case: the first of each volume is not damaged, the second is formatted anew."""
    subject, dice = volume_of(seed, number // shares), random.Random(f"{seed} mutant {number}")
    if number % shares == 0:
        return Truth(subject, Damaged(subject.image, None, set(), "nothing", "nothing"), dice)
    return Truth(subject, formatted(dice, subject) if number % shares == 1 else damage(dice, subject, ALL_FAULTS), dice)


def tried(seed: str, number: int) -> Tried:
    """What came of a case: the truth's own failures; how many answers were spoilt in each way, and how many caught; what was not."""
    truth, spoilt, caught, missed = truth_of(seed, number), Counter(), Counter(), []  # type: ignore
    for mutant in MUTANTS:
        answer = mutant(truth)
        if answer is not None:
            name = mutant.__name__
            is_caught = bool(Judge(truth.history, truth.damaged, answer).failures)
            spoilt[name] += 1
            caught[name] += is_caught
            if not is_caught:
                missed.append(name)
    return number, truth.judge.failures, spoilt, caught, missed


def report(cases: List[Tried], examples: int) -> int:
    """Prints the table, and answers the status."""
    spoilt, caught = (sum((case[i] for case in cases), Counter()) for i in (2, 3))  # type: ignore
    false = [f"case {case[0]}: {case[1][0][0]}: {case[1][0][1][:300]}" for case in cases if case[1]]
    print("| answers | tried | caught |", "|---|---|---|", sep="\n")
    print(f"| The truth itself, which must pass. | {len(cases)} | {len(false)} |")
    failed = [mutant for mutant in MUTANTS if not spoilt[mutant.__name__] or caught[mutant.__name__] < LEAST * spoilt[mutant.__name__]]
    for mutant in MUTANTS:
        print(f"| {(mutant.__doc__ or '').strip()} | {spoilt[mutant.__name__]} | {caught[mutant.__name__]} |")
    for text in false[:examples]:
        print(f"failed: the truth itself: {text}")
    for mutant in failed:
        some = [case[0] for case in cases if mutant.__name__ in case[4]]
        print(f"failed: {(mutant.__doc__ or '').strip()} Not caught in cases {some[:examples]}")
    print(f"{len(MUTANTS) + 1} tried, {len(failed) + bool(false)} failed")
    return int(bool(failed or false))
