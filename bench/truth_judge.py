"""The judge: compares what a reader says of a damaged image with what was there, and with no definition of what a reader should say."""

from __future__ import annotations

from collections import Counter
from struct import unpack_from
from typing import Dict, Iterator, List, NamedTuple, Optional, Set, Tuple

from truth_damage import Damaged
from truth_histories import History
from truth_volumes import DATA, DIR, FILE, PAGE_BITS, POINTERS, Date, Ghost, Path, Thing, slot

KINDS_OF_WHOLE = {"untouched": "not back", "root": "root gone", "dir": "dir gone"}
FAILURES = ("not back", "root gone", "dir gone", "unsaid", "wrong", "risen", "silent", "survey", "cat", "left", "needless")
COLUMNS = ("cases", "live", "links", "kept", "moved", "untouched", "root", "dir", "back", "told", "unseen", "doubted", "alarm", *FAILURES)


class Back(NamedTuple):
    """A directory (its content is None) or a file of a new volume."""

    content: Optional[bytes]
    comment: bytes
    protection: int
    date: Date


class Line(NamedTuple):
    """A line of what is not as it was: the path of an entry, or of the directory in which headers are lost, and blocks, the header of an
    entry; of `renamed` also the path that it has now."""

    text: str
    path: Optional[Path] = None
    directory: Optional[Path] = None
    blocks: range = range(0)
    now: Optional[Path] = None


class Listed(NamedTuple):
    """An entry of a survey: what is copied of it if it is sound, and what is left of it with the ranges of bytes that are lost; whether
    `cat --damaged` ends with status 1."""

    path: Path
    back: Back
    is_sound: bool
    left: bytes
    gaps: List[range]
    is_told: bool


class Answer(NamedTuple):
    """What a reader says: the tree of the new volume and its lines (status 1 if there is one), and its survey; whether it was asked to put
    deleted files into a directory of their own."""

    things: Dict[Path, Back]
    lines: List[Line]
    label: bytes
    dates: Tuple[Date, ...]
    has_findings: bool
    listed: List[Listed]
    refused: bool = False
    has_deleted: bool = False


class Lines:
    """What the lines of an answer name: entries by their paths and headers, directories in which headers are lost, and new names."""

    def __init__(self, history: History, answer: Answer) -> None:
        self.by_header: Dict[int, Path] = {history.root: (), **{thing.header: path for path, thing in history.live.items()}}
        self.renamed: Dict[Path, Path] = {}
        self.headed: Dict[Path, Path] = {}
        for line in sorted((line for line in answer.lines if line.now), key=lambda line: len(line.now or ())):
            self.rename(line)
        by_block = [(line.path, self.by_header.get(line.blocks.start)) for line in answer.lines if line.path and line.blocks]
        self.headed = {path: known for path, known in by_block if known}
        self.here = {line.path for line in answer.lines if line.path is not None and line.now is None}
        self.named = self.here | set(map(self.canonical, self.here))
        within = {line.directory for line in answer.lines if line.directory is not None}
        self.within = within | set(map(self.canonical, within)) | ({()} if answer.refused else set())
        self.headers = {b for line in answer.lines if line.path is not None for b in line.blocks}
        self.blocks = [line.blocks for line in answer.lines if line.blocks and line.path is None]

    def rename(self, line: Line) -> None:
        """A new name counts where the directory is the same one, by its path in the answer or as it was."""
        if line.path and line.now:
            directory = self.canonical(line.now[:-1])
            if line.path[:-1] in (line.now[:-1], directory):
                self.renamed[line.now] = (*directory, line.path[-1])

    def canonical(self, path: Path) -> Path:
        """A path of the answer as it was: without new names, and with the directory that had its header there in place of each `lost-` and
        block, and of each path that a line tells with its header."""
        real: Path = ()
        for k, name in enumerate(path, 1):
            number = name[5:]
            known = self.by_header.get(int(number)) if name.startswith(b"lost-") and number.isdigit() else None
            real = self.renamed.get(path[:k]) or self.headed.get(path[:k]) or ((*real, name) if known is None else known)
        return real

    def has_header(self, path: Path) -> bool:
        """An entry is called `lost-` and its block, which is the header of a line."""
        number = path[-1][5:]
        return path[-1].startswith(b"lost-") and number.isdigit() and int(number) in self.headers

    def says_where(self, path: Path, now: Path) -> bool:
        """A line names the new place of an entry; or that of a directory above which has another name, and below it the names are as they
        were."""
        if now in self.here or self.renamed.get(now) == path:
            return True
        for k in range(1, len(now)):
            old = self.canonical(now[:k])
            if (now[:k] in self.here or now[:k] in self.renamed) and old != now[:k] and (*old, *now[k:]) == path:
                return True
        return False


class Judge:
    """One answer beside the truth. Counts, and texts of what failed by its column."""

    def __init__(self, history: History, damaged: Damaged, answer: Answer) -> None:
        self.history, self.damaged, self.answer = history, damaged, answer
        self.counts: Counter[str] = Counter(cases=1)
        self.failures: List[Tuple[str, str]] = []
        self.lines = Lines(history, answer)
        self.ghosts = (*history.volume.ghosts, *damaged.since)
        tells = self.has_bitmap or damaged.is_formatted
        self.relinked, self.misled = (set() if tells else self.chains_that_lie(by_sum) for by_sum in (True, False))
        self.amiss = {path for path, thing in history.live.items() if not self.is_as_it_was(path, thing)}
        self.place = self.places()
        self.judge_root()
        for path, thing in history.live.items():
            self.judge_thing(path, thing)
        for path, back in answer.things.items():
            if path not in history.live and path not in self.place.values():
                self.judge_extra(path, back)
        whole = not self.amiss and (set(answer.things), answer.label, answer.dates) == (set(history.live), history.label, history.dates)
        self.counts["alarm"] += whole and not self.is_zero
        is_plain = history.state == "valid" and not any(thing.is_link for thing in history.live.values())
        if not damaged.touched and not self.is_zero and is_plain and len(damaged.image) == len(history.image):
            self.fail("needless", "no fault touched it")
        self.judge_survey()

    def fail(self, column: str, text: str) -> None:
        self.counts.update([column, f"{column} at 0"] if self.is_zero else [column])
        self.failures.append((column, f"{text}; {[line.text for line in self.answer.lines[:20]]}"))

    @property
    def is_zero(self) -> bool:
        return not self.answer.lines and not self.answer.refused

    # What covers what

    def covers(self, path: Path, thing: Thing) -> bool:
        """A line names the entry, by its path or its header; or the directory in which its own way is broken."""
        if path in self.lines.named or thing.header in self.lines.headers:
            return True
        return any(path[:k] in self.lines.within and self.is_broken(self.history.live[path[: k + 1]]) for k in range(len(path)))

    def is_broken(self, thing: Thing) -> bool:
        """The chain that leads to it was hit in front of it: the slot of its directory, a header, or the words of its own by which chains
        go."""
        image, b = self.history.image, thing.parent.header if thing.parent else thing.header
        words = [0, 127, 6 + slot(thing.name, self.history.volume.international)]
        passed: Set[int] = set()
        while b not in passed:
            if any(self.differs(b, i) for i in words):
                return True
            passed.add(b)
            if b == thing.header or not b:
                return self.differs(b, 1) or self.has_other_name(b)
            b, words = word(image, b, words[-1]), [0, 1, 125, 127, 124]
        return False

    def differs(self, b: int, i: int) -> bool:
        """The word is no longer what was written."""
        at = 512 * b + 4 * i
        return b in self.damaged.touched and self.damaged.image[at : at + 4] != self.history.image[at : at + 4]

    def has_other_name(self, b: int) -> bool:
        at = 512 * b + 432
        return b in self.damaged.touched and self.damaged.image[at : at + 31] != self.history.image[at : at + 31]

    # What was there

    def judge_root(self) -> None:
        """The label and the dates of the root are as they were, or a fault touched it and a line names the root. Let off: a root with a right
        sum says these, which nothing else tells."""
        history = self.history
        as_it_was = (self.answer.label, self.answer.dates) == (history.label, history.dates)
        told = () in self.lines.within or any(history.root in blocks for blocks in self.lines.blocks)
        is_told = told and history.root in self.damaged.touched
        if not as_it_was and not self.answer.refused and not is_told and not self.is_root_right():
            self.fail("wrong", "the label or the dates of the root")

    def is_root_right(self) -> bool:
        """What stands in the place of the root is a root with a right sum, and says the label and the dates of the answer."""
        image, r = self.damaged.image, self.history.root
        label = image[512 * r + 433 : 512 * r + 433 + image[512 * r + 432]] if r in self.damaged.touched and sealed(image, r) else None
        if label is None:
            return False
        dates = tuple(tuple(word(image, r, i + k) for k in range(3)) for i in (105, 118, 121))
        is_whole = (word(image, r, 0), word(image, r, 127)) == (2, 1)
        return is_whole and (self.answer.label, tuple(map(tuple, self.answer.dates))) == (label, dates)

    def whole_kind(self, thing: Thing) -> Optional[str]:
        """Of what has its own blocks whole, what a fault touched above it: nothing, the root alone, or a directory."""
        if thing.is_link or {thing.header, *thing.exts, *thing.datas} & self.damaged.touched:
            return None
        if self.is_claimed(thing) or self.is_kind_unknown() or self.is_past(thing):
            return None
        if thing.parent is not None and self.is_below(thing.parent):
            return "dir"
        return "root" if self.history.root in self.damaged.touched else "untouched"

    def is_below(self, thing: Thing) -> bool:
        """A fault touched the header of the directory, or of one above it, but the root."""
        return thing.parent is not None and (thing.header in self.damaged.touched or self.is_below(thing.parent))

    def is_claimed(self, thing: Thing) -> bool:
        """Let off: an FFS block that the table of another file names as well, under a right sum, where a fault made it lie, and its date is not
        the earlier one."""
        image, own = self.damaged.image, set(thing.datas)
        if self.history.volume.chunk == 488 or not own:
            return False
        liars = [h for h in self.damaged.touched if is_header(image, h) and word(image, h, 127) == FILE and date_at(image, h) >= thing.date]
        return any(word(image, h, i) in own for h in liars for i in range(6, 78))

    def is_kind_unknown(self) -> bool:
        """Let off: no type is stated any more, or another one, and one data block of a file says what the kind was, or none."""
        image, touched = self.damaged.image, self.damaged.touched
        if image[:4] == self.history.image[:4]:
            return False
        return sum(d not in touched for thing in self.history.live.values() if thing.header not in touched for d in thing.datas) < 2

    def is_as_it_was(self, path: Path, thing: Thing) -> bool:
        back = self.answer.things.get(path)
        return back is not None and not thing.is_link and self.has_own_words(thing, back) and self.same_bytes(thing, back.content)

    def has_own_words(self, thing: Thing, back: Back) -> bool:
        return back[1:] == (thing.comment, thing.protection, thing.date)

    def same_bytes(self, thing: Thing, content: Optional[bytes]) -> bool:
        """The bytes are those of the file, but for what nothing tells."""
        if thing.content == content:
            return True
        if thing.content is None or content is None or len(content) != len(thing.content):
            return False
        chunk = self.history.volume.chunk
        for k in range(len(thing.datas)):
            piece = content[chunk * k : chunk * k + chunk]
            if piece != thing.content[chunk * k : chunk * k + chunk] and not (self.is_unseen(thing, k) and self.stands(thing, k, 0, piece)):
                return False
        return True

    def is_unseen(self, thing: Thing, k: int) -> bool:
        """Let off: FFS data that was changed in place; an FFS table that names another block, with its sum made right, unless that block is
        another file's, or a header by its own words; and OFS data of another time, which has a right sum, and says that it is this block."""
        if self.history.volume.chunk == 488:
            d = thing.datas[k]
            says = [word(self.damaged.image, d, i) for i in range(3)]
            return d in self.damaged.touched and sealed(self.damaged.image, d) and says == [DATA, thing.header, k + 1]
        if thing.datas[k] in self.damaged.touched:
            return True
        image, owned = self.damaged.image, self.history.owner
        d = word(image, thing.header, 77 - k) if k < POINTERS else thing.datas[k]
        if d == thing.datas[k] or not sealed(image, thing.header):
            return False
        says_head = sealed(image, d) and (word(image, d, 0), word(image, d, 1)) == (2, d)
        return not says_head and (d not in owned or not self.whole_kind(self.history.live[owned[d]]))

    def stands(self, thing: Thing, k: int, at: int, piece: bytes) -> bool:
        """The bytes stand from a byte on in the block that the table names now for data block k, or named."""
        named = {self.named_now(thing.header, k), thing.datas[k] if k < len(thing.datas) else None}
        at += 512 - self.history.volume.chunk
        return any(d and piece == self.damaged.image[512 * d + at : 512 * d + at + len(piece)] for d in named)

    def named_now(self, at: int, k: int) -> int:
        """The block that the table of a header names now for data block k."""
        image = self.damaged.image
        for _ in range(k // POINTERS):
            at = word(image, at, 126)
        return word(image, at, 77 - k % POINTERS)

    def says(self, h: int, back: Back) -> bool:
        """Let off: a fault touched the header, but its sum is right, as of one of another time, and it has these words and bytes."""
        image, chunk, content = self.damaged.image, self.history.volume.chunk, back.content or b""
        if h not in self.damaged.touched or not sealed(image, h) or (word(image, h, 0), word(image, h, 1)) != (2, h):
            return False
        comment = image[512 * h + 329 : 512 * h + 329 + min(image[512 * h + 328], 79)]
        if back[1:] != (comment, word(image, h, 80), date_at(image, h)) or (back.content is None) != (word(image, h, 127) == DIR):
            return False
        if back.content is not None and len(content) != word(image, h, 81):
            return False
        return all(self.has_piece(self.named_now(h, at // chunk), content[at : at + chunk]) for at in range(0, len(content), chunk))

    def has_piece(self, d: int, piece: bytes) -> bool:
        start = 512 * d + 512 - self.history.volume.chunk
        return self.damaged.image[start : start + len(piece)] == piece

    @property
    def has_bitmap(self) -> bool:
        """The bitmap is valid, right and whole, and so is the root in what it says of it."""
        v, image = self.history.volume, self.damaged.image
        is_told = v.root not in self.damaged.touched or sealed(image, v.root) and not any(self.differs(v.root, i) for i in (0, 127, *range(78, 105)))
        return self.history.state in ("valid", "foreign") and is_told and not self.damaged.touched & {*v.pages, *v.maps}

    def judge_thing(self, path: Path, thing: Thing) -> None:
        kind, back, now = self.whole_kind(thing), self.answer.things.get(path), self.place.get(path)
        self.counts["links"] += thing.is_link
        self.counts.update(["live", kind] if kind else ["live"])
        if path not in self.amiss:
            self.counts.update(kept=1, back=kind is not None, unseen=back is not None and back.content != thing.content)
            self.counts["doubted"] += kind == "untouched" and path in self.lines.here
            return
        if now is not None:
            self.counts.update(moved=1, back=kind is not None)
            if not self.lines.says_where(path, now):
                self.fail("unsaid", f"{path} is at {now}")
        elif kind:
            self.fail(KINDS_OF_WHOLE[kind], f"{path} is nowhere")
        if back is not None:
            self.judge_other(path, thing, back)
        elif now is None and not self.covers(path, thing) and not self.is_past(thing):
            self.fail("silent", f"{path} is missing")

    def judge_other(self, path: Path, thing: Thing, back: Back) -> None:
        """What stands in its place is not as it was: other bytes, or words that a line must tell, if a fault touched them."""
        if self.says(thing.header, back) and name_at(self.damaged.image, thing.header) == thing.name:
            self.counts["unseen"] += 1
        elif thing.is_link or not self.same_bytes(thing, back.content):
            if not self.stands_in(path, back):
                self.fail("wrong", f"{path} has other bytes")
        elif thing.header not in self.damaged.touched or not (path in self.lines.named or thing.header in self.lines.headers):
            self.fail("wrong", f"{path}: {back[1:]} for {(thing.comment, thing.protection, thing.date)}")

    # What stands elsewhere

    def places(self) -> Dict[Path, Path]:
        """Where what is amiss stands, each in a place of its own: by its directories first, then by its name, then by a line with its
        header."""
        place: Dict[Path, Path] = {}
        extras = [path for path in self.answer.things if path not in self.history.live]
        headers = {line.path: line.blocks for line in self.answer.lines if line.path is not None}
        for candidates in (
            {now: [self.lines.canonical(now)] for now in extras},
            {now: self.called(now[-1]) for now in extras},
            {now: [self.lines.by_header[b] for b in headers.get(now, ()) if b in self.lines.by_header] for now in extras},
        ):
            taken = set(place.values())
            for now in (now for now in extras if now not in taken):
                known = next((path for path in candidates[now] if path in self.amiss and path not in place and self.is_it(path, now)), None)
                if known is not None:
                    place[known] = now
        return place

    def called(self, name: bytes) -> List[Path]:
        """What is amiss and has this name, or `lost-` and its block."""
        number = name[5:]
        known = self.lines.by_header.get(int(number)) if name.startswith(b"lost-") and number.isdigit() else None
        return [path for path in self.amiss if path[-1] == name or path == known]

    def is_it(self, path: Path, now: Path) -> bool:
        """What stands there is this entry as it was; of one whose header a fault touched, by its bytes alone."""
        thing, back = self.history.live[path], self.answer.things[now]
        has_words = not thing.is_link and (thing.header in self.damaged.touched or self.has_own_words(thing, back))
        return has_words and thing.is_dir == (back.content is None) and self.same_bytes(thing, back.content)

    # Chains that lie

    def chains_that_lie(self, by_sum: bool) -> Set[Tuple[int, int]]:
        """Let off: chains, by directory and slot, of which a word was made to lead past members or to a deleted one, with its sum made
        right, so that it is a chain; where no bitmap tells. For `cat` also where the sum is wrong, since a line says so of the directory."""
        image, was = self.damaged.image, self.history.image
        lies = set()
        for h in self.damaged.touched:
            if 512 * h < len(image) and (sealed(image, h) or not by_sum) and word(image, h, 0) == 2:
                for i in (i for i in (*range(6, 78), 124) if word(image, h, i) != word(was, h, i)):
                    there = (image, was) if by_sum else (image,)
                    lies |= {self.home_in(each, word(each, h, i)) for each in there if is_header(each, word(each, h, i))}
        return lies

    def home_in(self, image: bytes, b: int) -> Tuple[int, int]:
        """The directory and the slot that a header says itself."""
        return word(image, b, 125), slot(name_at(image, b), self.history.volume.international)

    def is_relinked(self, header: int) -> bool:
        return self.home_of(header) in self.relinked

    def home_of(self, header: int) -> Tuple[int, int]:
        return self.home_in(self.history.image, header)

    def is_past(self, thing: Thing) -> bool:
        """It, or a directory above it, is in a chain that lies."""
        return thing.parent is not None and (self.is_relinked(thing.header) or self.is_past(thing.parent))

    def stands_in(self, path: Path, back: Back) -> bool:
        """Let off: where no bitmap tells, what was deleted under the same path, or not linked yet, stands for what is lost, by a line that
        names it, or by a chain that lies."""
        dead = [ghost for ghost in (*self.ghosts, *self.history.volume.limbo) if self.is_ghost(ghost, path, back)]
        if not dead or self.has_bitmap and not any(map(self.let_off, dead)):
            return False
        return path in self.lines.named or self.is_past(self.history.live[path])

    # What was not there

    def is_ghost(self, ghost: Ghost, path: Path, back: Back) -> bool:
        """It may be this deleted thing: by its name, and by bytes that it had, or that stand in its blocks now."""
        if (ghost.content is None) != (back.content is None) or path[-1] not in ghost_names(ghost):
            return False
        if ghost.content == back.content or ghost.content is None or back.content is None:
            return True
        return len(ghost.content) == len(back.content) and self.history.volume.chunk == 512 and self.is_of_blocks(ghost, back.content)

    def is_of_blocks(self, ghost: Ghost, content: bytes, runs: Optional[List[Tuple[int, int]]] = None) -> bool:
        """The bytes, or those of some runs, are what a deleted file had, or what stands in its FFS blocks, unless these are now those of a live
        file that is whole."""
        had, chunk = ghost.content or b"", self.history.volume.chunk
        for first, past in runs or [(0, len(content))]:
            for k in range(first // chunk, -(-past // chunk)):
                a, z = max(first, chunk * k), min(past, chunk * (k + 1))
                if content[a:z] != had[a:z] and not (chunk == 512 and self.is_in_block(ghost, k, a - chunk * k, content[a:z])):
                    return False
        return True

    def is_in_block(self, ghost: Ghost, k: int, at: int, piece: bytes) -> bool:
        d = ghost.datas[k] if k < len(ghost.datas) else 0
        start, owner = 512 * d + at, self.history.owner.get(d)
        is_free = owner is None or not self.whole_kind(self.history.live[owner])
        return d != 0 and is_free and piece == self.damaged.image[start : start + len(piece)]

    def is_kept_deleted(self, path: Path) -> bool:
        """It is the directory that was asked for, or a file in it."""
        return self.answer.has_deleted and len(path) <= 2 and path[0].startswith(b"deleted") and path[:1] not in self.history.live

    def judge_extra(self, path: Path, back: Back) -> None:
        ghosts = [ghost for ghost in (*self.ghosts, *self.history.volume.limbo) if self.is_ghost(ghost, path, back)]
        is_told = path in self.lines.here or self.is_kept_deleted(path) or self.lines.has_header(path)
        said = [h for h in self.damaged.touched if name_at(self.damaged.image, h) == path[-1] and self.says(h, back)]
        if any(self.home_in(self.damaged.image, h) == self.home_of(h) for h in said):
            self.counts["unseen"] += 1
        elif not said and not ghosts and back.content is not None:
            self.fail("wrong", f"{path} was never there")
        elif self.is_made_over(path, back):
            self.fail("risen", f"{path} was made in the place of what is back")
        elif is_told:
            self.counts["told"] += 1
        elif any(map(self.let_off, ghosts)):
            self.counts["unseen"] += 1
        else:
            self.fail("risen", f"{path} was {'deleted' if ghosts or said else 'made'}")

    def is_made_over(self, path: Path, back: Back) -> bool:
        """A directory was made in the place of a block of what is whole, and back as well."""
        number = path[-1][5:] if path[-1].startswith(b"lost-") and path[-1][5:].isdigit() else b"0"
        owner = self.history.owner.get(int(number)) if back.content is None else None
        if owner is None or owner in self.amiss and owner not in self.place:
            return False
        return bool(self.whole_kind(self.history.live[owner]))

    def let_off(self, ghost: Ghost) -> bool:
        """Let off: a file that a foreign program removed, whose header it left in use, without data that is free; and what a chain that
        lies leads to."""
        if self.is_relinked(ghost.header):
            return True
        return self.history.state == "foreign" and {ghost.header, *ghost.datas} <= self.history.volume.used

    # The survey

    def judge_survey(self) -> None:
        history, answer = self.history, self.answer
        found = {each.path for each in answer.listed}
        if not answer.has_findings and found != set(history.live) and not self.relinked:
            self.fail("survey", f"no findings, {sorted(set(history.live) ^ found)[:3]}")
        for each in answer.listed:
            thing = history.live.get(each.path)
            if each.back.content is None or thing is not None and thing.is_dir:
                continue
            if thing is not None:
                self.judge_listed(thing, each)
            elif self.is_deleted(each):
                self.fail("cat", f"{each.path} was deleted")

    def judge_listed(self, thing: Thing, each: Listed) -> None:
        """What `cat` gives of a file, and `cat --damaged`."""
        back = each.back._replace(content=each.left)
        same = self.same_bytes(thing, each.left) and self.has_own_words(thing, back)
        let_off = self.stands_in(each.path, back) or self.says(thing.header, back)
        if each.is_sound and not same and not let_off:
            self.fail("cat", f"{each.path} is sound, and another")
        elif not self.is_left(thing, each) and not let_off and not self.is_left_of_ghost(each) and not self.is_kind_unknown():
            self.fail("left", f"{each.path}: other bytes outside of {each.gaps}")

    def is_deleted(self, each: Listed) -> bool:
        """It is called sound, and was deleted. Let off: a bitmap that says that it is valid has it in use."""
        back = each.back._replace(content=each.left)
        ghosts = [ghost for ghost in self.ghosts if self.is_ghost(ghost, each.path, back)]
        believed = any(self.is_called_used(ghost.header) for ghost in ghosts)
        believed = believed or any(self.home_of(ghost.header) in self.misled for ghost in ghosts)
        is_live = any(self.is_like(path, each.path, back) for path in self.amiss)
        return each.is_sound and bool(ghosts) and not believed and not is_live

    def is_called_used(self, b: int) -> bool:
        """A bitmap page with a right sum, of a volume that was left in such a state or of another time, has the block in use."""
        v, image = self.history.volume, self.damaged.image
        page, bit = v.pages[(b - 2) // PAGE_BITS], (b - 2) % PAGE_BITS
        is_other = self.history.state in ("stale", "foreign") or bool({page, v.root} & self.damaged.touched)
        return is_other and sealed(image, page) and not word(image, page, 1 + bit // 32) >> bit % 32 & 1

    def is_like(self, path: Path, now: Path, back: Back) -> bool:
        """It is this entry, which is not in its place."""
        thing = self.history.live[path]
        called = now[-1] in (path[-1], b"lost-%d" % thing.header)
        return called and thing.is_dir == (back.content is None) and self.same_bytes(thing, back.content)

    def is_left_of_ghost(self, each: Listed) -> bool:
        """Let off, as in `stands_in`: what is left of a file that was deleted under the same path, by a line that names it."""
        back = each.back._replace(content=each.left)
        dead = [ghost for ghost in (*self.ghosts, *self.history.volume.limbo) if ghost.path[-1] == each.path[-1] and ghost.content]
        runs = list(found_runs(each))
        agreed = any(self.is_ghost(ghost, each.path, back) or runs and self.is_of_blocks(ghost, each.left, runs) for ghost in dead)
        return each.path in self.lines.named and agreed and (not self.has_bitmap or any(map(self.let_off, dead)))

    def is_left(self, thing: Thing, each: Listed) -> bool:
        """The bytes outside of the gaps are those of the file. Let off, on FFS: what stands in a block that was changed, or that a table with
        a wrong sum names now, at status 1."""
        content, chunk = thing.content or b"", self.history.volume.chunk
        is_doubted = each.is_told and bool({thing.header, *thing.exts} & self.damaged.touched)
        for first, past in found_runs(each):
            for k in range(first // chunk, -(-past // chunk)):
                a, z = max(first, chunk * k), min(past, chunk * (k + 1))
                if each.left[a:z] == content[a:z] and z <= len(content):
                    continue
                unseen = is_doubted and chunk == 512 or k < len(thing.datas) and self.is_unseen(thing, k)
                if not unseen or not self.stands(thing, k, a - chunk * k, each.left[a:z]):
                    return False
        return True


def word(image: bytes, b: int, i: int) -> int:
    return int.from_bytes(image[512 * b + 4 * i : 512 * b + 4 * i + 4], "big")


def ghost_names(ghost: Ghost) -> Tuple[bytes, ...]:
    return ghost.path[-1], b"lost-%d" % ghost.header, b"deleted-%d" % ghost.header


def date_at(image: bytes, b: int) -> Date:
    return word(image, b, 105), word(image, b, 106), word(image, b, 107)


def is_header(image: bytes, b: int) -> bool:
    return sealed(image, b) and (word(image, b, 0), word(image, b, 1)) == (2, b)


def name_at(image: bytes, b: int) -> bytes:
    return image[512 * b + 433 : 512 * b + 433 + min(image[512 * b + 432], 30)] if 512 * b + 512 <= len(image) else b""


def sealed(image: bytes, b: int) -> bool:
    """The sum is right."""
    return 512 * b + 512 <= len(image) and sum(unpack_from(">128I", image, 512 * b)) % 2**32 == 0


def found_runs(each: Listed) -> Iterator[Tuple[int, int]]:
    """The runs of bytes that are found."""
    at = 0
    for gap in (*each.gaps, range(len(each.left), len(each.left))):
        if at < gap.start:
            yield at, gap.start
        at = gap.stop
