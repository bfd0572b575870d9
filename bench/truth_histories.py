"""What was done to a volume, at random, and what is there at the end."""

from __future__ import annotations

import copy
import random
from struct import unpack_from
from typing import Callable, List, Optional

from truth_volumes import PAGE_BITS, VALID, Ghost, Thing, Volume, upper

STATES = ("valid", "valid", "valid", "valid", "flag 0", "interrupted", "interrupted", "stale", "foreign")
SMALL = (60, 80, 100, 120, 160, 200, 240, 300, 400)
LIVES = ("crash", "crash", "crash", "long", "long", "disks", "older root", "older root", "cylinders", "caches", "links")
OTHER_CYLINDERS = (22 * 81, 22 * 82, 22 * 83, 22 * 84)


class History:
    """What was done to a volume, at random: it is filled, emptied, formatted anew, and left in one of STATES."""

    def __init__(self, dice: random.Random, blocks: int, state: str, kind: Optional[int] = None) -> None:
        self.dice, self.state, self.life = dice, state, state
        self.older: List[bytes] = []  # the image at some moments
        kind = dice.choice([0, 0, 0, 1, 1, 1, 2, 3, *([4, 5] if blocks > 6 else [])]) if kind is None else kind
        self.volume = self.new_volume(kind, blocks)
        if state == "foreign":
            self.volume.deletes, self.volume.links = dice.choice(["adflib", "linux"]), "foreign"
        self.most = min(60000, 512 * max(1, blocks // 4))
        for _ in range(dice.choice([0, 0, 0, 1, 2])):
            self.work(self.steps())
            self.volume.format(dice.choice([kind % 2, 1 - kind % 2, kind]) if kind < 2 else dice.choice([kind, kind ^ 1]))
        self.work(self.steps())
        self.volume.sync()
        self.end()
        self.truth()

    def new_volume(self, kind: int, blocks: int) -> Volume:
        return Volume(self.dice, kind, blocks)

    def steps(self) -> int:
        return self.dice.choice([15, 40, 80, 120]) if self.volume.blocks <= 4000 else 12

    def formatted_anew(self, dice: random.Random) -> "History":
        """What comes of it by a quick format, of its kind or another, and in half of the cases by work on the new volume."""
        later = copy.deepcopy(self)
        v = later.volume
        v.dice = later.dice = dice
        v.format(dice.choice([v.kind % 2, 1 - v.kind % 2, v.kind]) if v.kind < 2 else dice.choice([v.kind, v.kind ^ 1]))
        v.ghosts = []
        later.work(dice.choice([0, 0, 0, 3, 10, 30]))
        v.sync()
        v.flag(VALID)
        return later

    def truth(self) -> None:
        """What is there at the end: things by path, and by block; what was deleted, by its bytes."""
        v = self.volume
        self.image = bytes(v.image)
        self.live = {thing.path(): thing for thing in v.tree.below()}
        self.owner = {b: path for path, thing in self.live.items() for b in thing.blocks()}
        self.dates, self.label, self.root = v.dates(), v.label, v.root

    def says_used(self, b: int) -> bool:
        """The bitmap of the whole image has the block in use."""
        bit = (b - 2) % PAGE_BITS
        return not self.volume.word(self.volume.pages[(b - 2) // PAGE_BITS], 1 + bit // 32) >> bit % 32 & 1

    def dirs(self) -> List[Thing]:
        return [self.volume.tree, *(thing for thing in self.volume.tree.below() if thing.is_dir)]

    def files(self) -> List[Thing]:
        return [thing for thing in self.volume.tree.below() if not thing.is_dir]

    def name_in(self, parent: Thing) -> bytes:
        """A name that is new in the directory; that of something deleted there in some cases."""
        old = [ghost.path[-1] for ghost in self.volume.ghosts[-50:]]
        for _ in range(100):
            name = self.dice.choice(old) if old and self.dice.random() < 0.3 else self.volume.some_name(self.dice.choice([1, 3, 8, 20, 30]))
            if upper(name, self.volume.international) not in parent.children:
                return name
        return self.volume.some_name(30)

    def work(self, steps: int) -> None:
        for done in range(steps):
            self.step()
            if done % 9 == 0 and self.volume.blocks <= 4000:
                self.older = [*self.older[-3:], bytes(self.volume.image)]

    def step(self) -> None:
        v, dice = self.volume, self.dice
        files, things = self.files(), list(v.tree.below())
        done = dice.random()
        if v.free() < 4 or done < 0.17 and things:
            if things:
                thing = dice.choice(files if files and dice.random() < 0.7 else things)
                v.remove_tree(thing, dice.random() < 0.15)
        elif done < 0.35:
            parent = dice.choice(self.dirs())
            if len(parent.path()) < 6 and v.free() > 3:
                v.make_dir(parent, self.name_in(parent))
        elif done < 0.75 or not files:
            self.new_file()
        elif done < 0.87:
            self.change(dice.choice(files))
        elif done < 0.93:
            v.describe(dice.choice(things), v.some_name(dice.choice([0, 5, 30, 79])), dice.choice([0, 0, 1, 15, 0x40, dice.randrange(2**32)]))
        else:
            self.move(dice.choice(things))

    def new_file(self) -> Optional[Thing]:
        parent, content = self.dice.choice(self.dirs()), self.volume.some_content(min(self.most, self.volume.free() // 3 * 512))
        if self.volume.need(len(content)) > self.volume.free():
            return None
        return self.volume.make_file(parent, self.name_in(parent), content)

    def change(self, thing: Thing) -> None:
        """The file is longer, or another one."""
        v, more = self.volume, self.volume.some_content(self.most // 2)
        if v.need(len(thing.content or b"") + len(more)) > v.free():
            return
        if self.dice.random() < 0.5:
            v.append(thing, more)
        else:
            v.rewrite(thing, more)

    def move(self, thing: Thing) -> None:
        within = [thing, *thing.below()]
        parents = [parent for parent in self.dirs() if parent not in within and len(parent.path()) < 6]
        if parents:
            parent = self.dice.choice(parents)
            self.volume.move(thing, parent, self.name_in(parent))

    def end(self) -> None:
        """The state in which the volume was left: its flag, and whether its bitmap is of another time."""
        v = self.volume
        if self.state in ("interrupted", "stale"):
            pages = [bytes(v.image[512 * page : 512 * page + 512]) for page in v.pages]
            self.work(self.dice.choice([0, 1, 3, 8]))
            if self.dice.random() < 0.7:
                self.broken_off()
            for page, content in zip(v.pages, pages):
                v.image[512 * page : 512 * page + 512] = content
        v.flag(0 if self.state in ("flag 0", "interrupted") else VALID)

    def broken_off(self) -> None:
        """The last file was not closed: it has no bytes yet, or no chain leads to it."""
        v, content = self.volume, self.volume.some_content(self.most)
        if v.need(len(content)) > v.free():
            return
        parent = self.dice.choice(self.dirs())
        thing = v.unlinked(parent, self.name_in(parent), content)
        if self.dice.random() < 0.5:
            v.limbo.append(Ghost(thing, v.image, v.kind))
            return
        whole = Ghost(thing, v.image, v.kind)
        v.limbo.append(whole)
        thing.exts, thing.datas, thing.content = [], [], b""
        v.head(thing)
        v.lay(thing)
        v.link(thing)


class Large(History):
    """A volume of a hard disk, on which things reach the pages behind the bitmap extension block."""

    def new_volume(self, kind: int, blocks: int) -> Volume:
        made = super().new_volume(kind, blocks)
        made.fit = "rover"
        return made

    def step(self) -> None:
        if self.dice.random() < 0.4:
            self.volume.rover = self.dice.randrange(2 + 25 * PAGE_BITS - 10, self.volume.blocks - 1)
        super().step()

    def steps(self) -> int:
        return self.dice.choice([12, 40])


class LongLife(History):
    """Hundreds of operations."""

    def steps(self) -> int:
        return self.dice.choice([200, 400, 800])


class Disks(History):
    """Files that hold images of disks, in some cases with blocks that stood in just these places."""

    def steps(self) -> int:
        return 15

    def new_file(self) -> Optional[Thing]:
        if self.dice.random() < 0.5:
            return super().new_file()
        v, inner = self.volume, History(self.dice, self.dice.choice([6, 20, 60, 120]), "valid", self.dice.choice([0, 1]))
        if v.need(len(inner.image)) > v.free():
            return None
        parent = self.dice.choice(self.dirs())
        thing = v.make_file(parent, self.name_in(parent), inner.image)
        if v.chunk == 512 and self.older and self.dice.random() < 0.25:
            old = self.dice.choice(self.older)
            v.rewrite(thing, b"".join(old[512 * d : 512 * d + 512] for d in thing.datas))
        return thing


class Cached(History):
    """The directory caches of types 4 and 5 have their records."""

    def end(self) -> None:
        self.volume.fill_caches()
        self.volume.sync()
        super().end()


class Linked(History):
    """Links to what stands there, some of them deleted again, which changes the chain of its target's links."""

    def end(self) -> None:
        v, made = self.volume, []
        for _ in range(self.dice.choice([1, 3, 8, 20])):
            things = [thing for thing in v.tree.below() if not thing.is_link]
            if things and v.free() > 3:
                parent, target = self.dice.choice([thing for thing in self.dirs() if not thing.is_link]), self.dice.choice([None, *things])
                text = self.dice.choice([b"Work:" + v.some_name(8), b"/".join(self.dice.choice(things).path())])
                made.append((v.make_link(parent, self.name_in(parent), target, text[:280]), target))
        for link, target in made:
            if self.dice.random() < 0.15:
                self.unlink(link, target)
        if v.cached:
            v.fill_caches()
        v.sync()
        super().end()

    def unlink(self, link: Thing, target: Optional[Thing]) -> None:
        v = self.volume
        if target:
            at = target.header
            while v.word(at, 118) != link.header:
                at = v.word(at, 118)
            v.put(at, 118, v.word(link.header, 118))
            v.seal(at)
        v.remove(link)


class OlderRoot(History):
    """Another volume was there before, of another length, so that its root stands in another place."""

    def new_volume(self, kind: int, blocks: int) -> Volume:
        before = Volume(self.dice, kind % 2, 1760 if blocks == 3520 else self.dice.randrange(blocks // 2, blocks) // 2 * 2, bytearray(512 * blocks))
        self.volume = before
        self.most = min(60000, 512 * max(1, blocks // 4))
        self.work(self.steps())
        before.sync()
        before.flag(VALID)
        after = Volume(self.dice, kind, blocks, before.image)
        after.ghosts += [*before.ghosts, *(Ghost(thing, before.image, before.kind) for thing in before.tree.below())]
        after.former |= before.former | {before.root}
        return after


class Crash(History):
    """The machine stopped between two writes of the last change, in the order in which AmigaDOS writes: a new header before the chain that leads
    to it, a chain without a header before that is written anew, data before the table that names it, and the bitmap last."""

    def end(self) -> None:
        v = self.volume
        v.flag(0)
        before, done = bytes(v.image), self.dice.choice([self.creates, self.creates, self.deletes, self.renames, self.appends])
        v.journal, v.chained = [], []
        settle, writes = done(), v.journal
        v.journal = None
        many = self.dice.randrange(len(writes) + 1)
        v.image[:] = before
        for b, content in writes[:many]:
            v.image[512 * b : 512 * b + 512] = content
        settle(many)
        for thing in v.tree.below():
            thing.date = unpack_from(">3I", v.image, 512 * thing.header + 420)  # type: ignore
        self.life = f"crash: {done.__name__}"

    def nothing(self, many: int) -> None:
        """The tree is as it was."""

    def creates(self) -> Callable[[int], None]:
        """A directory, or a file that is empty yet."""
        v, parent = self.volume, self.dice.choice(self.dirs())
        if v.free() < 3:
            return self.nothing
        name = self.name_in(parent)
        thing = v.make_dir(parent, name) if self.dice.random() < 0.3 else v.make_file(parent, name, b"")

        def settle(many: int) -> None:
            if many < v.chained[0]:
                v.limbo.append(Ghost(thing, v.image, v.kind))
                del parent.children[upper(name, v.international)]

        return settle

    def deletes(self) -> Callable[[int], None]:
        v = self.volume
        some = [thing for thing in v.tree.below() if not thing.children]
        if not some:
            return self.nothing
        thing = self.dice.choice(some)
        v.remove(thing)

        def settle(many: int) -> None:
            if many < v.chained[0] and thing.parent:
                thing.parent.children[upper(thing.name, v.international)] = thing
                v.used |= set(thing.blocks())
                v.ghosts.pop()

        return settle

    def renames(self) -> Callable[[int], None]:
        """Between both chains nothing leads to it."""
        v, things = self.volume, list(self.volume.tree.below())
        if not things:
            return self.nothing
        thing = self.dice.choice(things)
        parent, name = thing.parent, thing.name
        self.move(thing)
        if len(v.chained) < 2:
            return self.nothing

        def settle(many: int) -> None:
            if many >= v.chained[1] or not thing.parent or not parent:
                return
            del thing.parent.children[upper(thing.name, v.international)]
            if many >= v.chained[0]:
                v.limbo += [Ghost(each, v.image, v.kind) for each in (thing, *thing.below())]
                thing.name = name
                v.limbo += [Ghost(each, v.image, v.kind) for each in (thing, *thing.below())]
                return
            thing.parent, thing.name = parent, name
            parent.children[upper(name, v.international)] = thing

        return settle

    def appends(self) -> Callable[[int], None]:
        """Until the header is written the file is as it was."""
        v, files = self.volume, self.files()
        if not files:
            return self.nothing
        thing, more = self.dice.choice(files), v.some_content(self.most // 2)
        content, exts, datas = thing.content or b"", list(thing.exts), list(thing.datas)
        if v.need(len(content) + len(more)) > v.free():
            return self.nothing
        v.append(thing, more)
        whole = len(v.journal or ())

        def settle(many: int) -> None:
            if many < whole:
                v.limbo.append(Ghost(thing, v.image, v.kind))
                thing.content, thing.exts, thing.datas = content, exts, datas

        return settle


def lived(seed: str, number: int) -> History:
    """As `history`; of each third volume a life of another kind."""
    if number % 3 != 2:
        return history(seed, number)
    dice = random.Random(f"{seed} life {number}")
    life = dice.choice(LIVES)
    state = dice.choice(STATES)
    if life == "crash":
        return Crash(dice, dice.choice(SMALL), "crash")
    if life == "cylinders":
        made: History = History(dice, dice.choice(OTHER_CYLINDERS), state)
    elif life == "links":
        made = Linked(dice, dice.choice([*SMALL, 1760]), dice.choice(["valid", "valid", "flag 0"]))
    elif life == "caches":
        made = Cached(dice, dice.choice([*SMALL, 1760]), dice.choice(["valid", "flag 0"]), dice.choice([4, 5]))
    elif life == "long":
        made = LongLife(dice, dice.choice(SMALL[3:]), state)
    elif life == "disks":
        made = Disks(dice, dice.choice([400, 800, 1760]), state)
    else:
        made = OlderRoot(dice, dice.choice([*SMALL, 1760, 3520]), state)
    made.life = life
    return made


def history(seed: str, number: int) -> History:
    """Volume so and so of a seed: small ones mostly, some floppies, a few tiny ones."""
    dice = random.Random(f"{seed} volume {number}")
    share = dice.random()
    blocks = dice.choice(SMALL) if share < 0.8 else dice.choice([4, 6, 8, 12, 20, 30]) if share < 0.86 else dice.choice([1760, 1760, 1760, 1760, 1804, 3520])
    return History(dice, blocks, dice.choice(STATES))


def large(seed: str, number: int, blocks: int = 0) -> History:
    """One above 25 bitmap pages, which has bitmap extension blocks; of so many blocks, if they are given."""
    dice = random.Random(f"{seed} large {number}")
    some = dice.choice([101620, 104000, 110000, 122880] * 6 + [160000, 204800, 409600, 1228800])
    return Large(dice, blocks or some, dice.choice(STATES))
