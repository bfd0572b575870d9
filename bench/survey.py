#!/usr/bin/env python3
"""The survey of an image by its definition (crates/adf_findings): every part that has a cause, and what is found all the same.

    bench/survey.py < IMAGE      a line for each finding with the path that it concerns

What is next is the least role that the walk asks for and that is neither in the walk nor skipped; no order of reading is followed.
A role is its key (first, second, third), its name, and its numbers.
"""

import sys
from heapq import heappop, heappush
from struct import unpack_from

SLOTS, POINTERS, ROOT_PAGES, MAP_PAGES, PAGE_BITS = 72, 72, 25, 127, 4064
DIR, FILE, LINKS = 2, 2**32 - 3, (3, 4, 2**32 - 4)
SLIGHT = {"short file", "bad sum", "link", "bad name", "bad comment", "wrong slot", "bad first", "same name"} | {"bad hash size", "not validated"}
OTHER_TYPES = {"international", "directory cache"}
ROOT = (0, 0, 0), "root"


def upper(name, international):
    """The name in upper case: a to z, and on types 2 to 5 also 0xe0 to 0xfe but 0xf7."""
    return bytes(c - 32 if 97 <= c <= 122 or international and 0xE0 <= c <= 0xFE and c != 0xF7 else c for c in name)


def slot(name, international):
    h = len(name)
    for c in upper(name, international):
        h = (h * 13 + c) % 2048
    return h % SLOTS


def page(i):
    return (0, 1, i + (i + MAP_PAGES - ROOT_PAGES) // MAP_PAGES), "page", i


def map_ext(j):
    return (0, 1, ROOT_PAGES + (1 + MAP_PAGES) * j), "map", j


def head(p, s, j):
    return (p + 1, s + 2, j), "head", p, s, j


def ext(n, k):
    return (n + 1, 0, k), "ext", n, k


def data(n, k):
    return (n + 1, 1, k), "data", n, k


def judged(demands, slight):
    """The block and the cause of the first demand that fails, and whether each holds but those of slight causes."""
    first = None
    for cause, at, holds in demands:
        if not holds():
            first = first or (at, cause)
            if cause not in slight:
                return first, False
    return first, True


class Survey:
    def __init__(self, image):
        self.image, self.blocks = image, len(image) // 512
        self.walk, self.owner, self.nodes, self.skipped, self.findings = {}, {}, [], {}, []
        self.asked = {}  # by key: the role, and the block and the word that name its block
        self.waiting = []  # the keys that were asked for, the least first
        self.root = self.blocks // 2
        first, readable = judged(self.boot_demands(), OTHER_TYPES)
        if first:
            self.findings.append((None, *first))
        if not readable:
            return
        self.international, self.cached = image[3] >= 2, image[3] >= 4
        self.offset, self.chunk = (24, 488) if image[3] % 2 == 0 else (0, 512)
        first, itself = judged(self.root_demands(), SLIGHT)
        if first:
            self.findings.append((ROOT if itself else None, *first))
        if not itself:
            return
        self.pages = -(-(self.blocks - 2) // PAGE_BITS)
        self.take(ROOT, self.root)
        while self.waiting:
            key = heappop(self.waiting)
            if key not in self.walk and key not in self.skipped:
                self.judge(*self.asked[key])
        self.compare()

    def word(self, b, i):
        return unpack_from(">I", self.image, 512 * b + 4 * i)[0]

    def byte(self, b, at):
        return self.image[512 * b + at]

    def text(self, b, at):
        return self.image[512 * b + at + 1 : 512 * b + at + 1 + self.byte(b, at)]

    def sealed(self, b):
        return sum(unpack_from(">128I", self.image, 512 * b)) % 2**32 == 0

    def boot_demands(self):
        size = len(self.image)
        yield "bad size", 0, lambda: size % 1024 == 0 and 4 <= self.blocks <= 8388608
        yield "not dos", 0, lambda: self.image[:3] == b"DOS" and self.image[3] <= 5
        yield "international", 0, lambda: self.image[3] not in (2, 3)
        yield "directory cache", 0, lambda: self.image[3] not in (4, 5)

    def root_demands(self):
        b = self.root
        yield "bad sum", b, lambda: self.sealed(b)
        yield "bad type", b, lambda: self.word(b, 0) == 2 and self.word(b, 127) == 1
        yield "bad name", b, lambda: self.byte(b, 432) <= 30
        yield "bad hash size", b, lambda: self.word(b, 3) == SLOTS
        yield "not validated", b, lambda: self.word(b, 78) == 2**32 - 1

    def ask(self, role, a, i):
        self.asked[role[0]] = role, a, i
        heappush(self.waiting, role[0])

    def take(self, role, b):
        """The role at block b is a member of the walk, and asks for what its words name."""
        key, name, *at = role
        self.walk[key], self.owner[b] = b, role
        if name in ("root", "head"):
            node = len(self.nodes)
            self.nodes.append(role)
            self.asks_of_node(node, b)
        if name == "head" and self.word(b, 124):
            self.ask(head(at[0], at[1], at[2] + 1), b, 124)
        if name == "ext":
            self.asks_of_table(at[0], at[1], b)
        if name == "root":
            for k in range(min(self.pages, ROOT_PAGES)):
                self.ask(page(k), b, 79 + k)
            if self.pages > ROOT_PAGES:
                self.ask(map_ext(0), b, 104)
        if name == "map":
            first = ROOT_PAGES + MAP_PAGES * at[0]
            for k in range(first, min(self.pages, first + MAP_PAGES)):
                self.ask(page(k), b, k - first)
            if self.pages > first + MAP_PAGES:
                self.ask(map_ext(at[0] + 1), b, 127)

    def asks_of_node(self, n, b):
        if n == 0 or self.word(b, 127) == DIR:
            for s in range(SLOTS):
                if self.word(b, 6 + s):
                    self.ask(head(n, s, 0), b, 6 + s)
        elif self.word(b, 127) == FILE:
            self.asks_of_table(n, 0, b)

    def asks_of_table(self, n, m, b):
        """Member m of the header of file n and its extension blocks asks for the next one and for its data blocks."""
        if self.word(b, 126):
            self.ask(ext(n, m + 1), b, 126)
        for k in range(POINTERS * m, min(self.data_count(n), POINTERS * (m + 1))):
            self.ask(data(n, k + 1), b, 77 - k % POINTERS)

    def block_of(self, n):
        return self.walk[self.nodes[n][0]]

    def size(self, n):
        return self.word(self.block_of(n), 81)

    def data_count(self, n):
        return -(-self.size(n) // self.chunk)

    def ext_count(self, n):
        return sum(role[1] == "ext" and role[2] == n for role in self.owner.values())

    def next_data(self, n, k):
        if k >= self.data_count(n):
            return 0
        m = k // POINTERS
        b = self.block_of(n) if m == 0 else self.walk.get(ext(n, m)[0], 0)
        return self.word(b, 77 - k % POINTERS)

    def demands(self, role, a, b):
        """What must hold of the role at block b, named by block a, in order: the cause, the block then named, and a test."""
        name, at = role[1], role[2:]
        if name == "data" and at[1] == 1:
            yield "short file", a, lambda: self.data_count(at[0]) <= POINTERS * (1 + self.ext_count(at[0]))
        yield "out of range", a, lambda: 2 <= b < self.blocks
        yield "taken", b, lambda: b not in self.owner
        if name == "page" or name in ("head", "ext") or name == "data" and self.offset:
            yield "bad sum", b, lambda: self.sealed(b)
        if name == "head":
            yield from self.head_demands(*at, b)
        if name == "ext":
            yield "bad type", b, lambda: self.word(b, 0) == 16 and self.word(b, 127) == FILE
            yield "bad own key", b, lambda: self.word(b, 1) == b
            yield "bad parent", b, lambda: self.word(b, 125) == self.block_of(at[0])
        if name == "data" and self.offset:
            n, k = at
            held = min(self.chunk, self.size(n) - self.chunk * (k - 1))
            yield "bad type", b, lambda: self.word(b, 0) == 8
            yield "bad data", b, lambda: unpack_from(">4I", self.image, 512 * b + 4) == (self.block_of(n), k, held, self.next_data(n, k))

    def head_demands(self, p, s, j, b):
        earlier = [self.walk[key] for key in [(p + 1, s + 2, k) for k in range(j)] if key in self.walk]
        kind, name = lambda: self.word(b, 127), lambda: self.text(b, 432)
        first = lambda: self.offset == 0 or kind() != FILE or self.word(b, 81) == 0 or self.word(b, 4) == self.word(b, 77)
        yield "bad type", b, lambda: self.word(b, 0) == 2 and kind() in (DIR, FILE, *LINKS)
        yield "link", b, lambda: kind() not in LINKS
        yield "bad own key", b, lambda: self.word(b, 1) == b
        yield "bad parent", b, lambda: self.word(b, 125) == self.block_of(p)
        yield "bad name", b, lambda: 1 <= self.byte(b, 432) <= 30 and not {47, 58} & set(name())
        yield "bad comment", b, lambda: self.byte(b, 328) <= 79
        yield "wrong slot", b, lambda: slot(name(), self.international) == s
        yield "bad first", b, first
        raised = lambda text: upper(text, self.international)
        yield "same name", b, lambda: raised(name()) not in [raised(self.text(c, 432)) for c in earlier]

    def judge(self, role, a, i):
        """The role is taken, where its block is in range, no one else's and says of itself that it is the part; its first cause is reported."""
        b = self.word(a, i)
        first, itself = judged(self.demands(role, a, b), () if role[1] == "page" else SLIGHT)
        if first:
            self.findings.append((role, *first))
        if itself:
            self.take(role, b)
        else:
            self.skipped[role[0]] = b

    def is_cache(self, b):
        """The block says that it is a directory cache, on a volume that has them."""
        return self.cached and self.word(b, 0) == 33 and self.word(b, 1) == b

    def compare(self):
        """Where the bitmap is valid, each block whose page is in the walk is in use where it has an owner, and only there.

        A block without an owner that was skipped or is a directory cache is not compared."""
        if self.word(self.root, 78) != 2**32 - 1:
            return
        skipped = set(self.skipped.values())
        for b in range(2, self.blocks):
            bit = (b - 2) % PAGE_BITS
            at = self.walk.get(page((b - 2) // PAGE_BITS)[0])
            if at is None or b not in self.owner and (b in skipped or self.is_cache(b)):
                continue
            free = self.word(at, 1 + bit // 32) >> bit % 32 & 1
            if free != (b not in self.owner):
                self.findings.append((None, b, "owned free" if free else "lost block"))

    def node_of(self, role):
        """The node of the entry that the role is a part of: of a header that is found, or of an extension or data block."""
        if role is None or role[1] in ("root", "page", "map"):
            return None
        if role[1] in ("ext", "data"):
            return role[2]
        return next((n for n, known in enumerate(self.nodes) if known[0] == role[0]), None)

    def concern(self, role):
        """What a finding concerns: the path of an entry; of a header that was skipped, its directory."""
        node = self.node_of(role)
        if node is not None:
            return spelled(self.path(node))
        return f"in {spelled(self.path(role[2]))}/" if role and role[1] == "head" else None

    def owner_path(self, at, cause):
        """The path of the entry that owns a taken block."""
        node = self.node_of(self.owner[at]) if cause == "taken" else None
        return None if node is None else spelled(self.path(node))

    def leads(self, role, cause):
        """What the right link leads to that a finding concerns: bench/surveyed.py tells it, by the judge."""
        return ""

    def path(self, n):
        return [] if n == 0 else self.path(self.nodes[n][2]) + [self.text(self.block_of(n), 432)[:79]]

    def found(self):
        """A line for each run of findings with one cause, that concern the same and with one owner, at one block or at neighbouring
        ones; then one for each directory whose cache is wrong."""
        from caches import wrong_caches

        runs = []
        for role, at, cause in self.findings:
            told = [cause, self.concern(role), self.owner_path(at, cause), self.leads(role, cause)]
            if runs and runs[-1][2:] == told and (runs[-1][1] == at - 1 or runs[-1][:2] == [at, at]):
                runs[-1][1] = at
            else:
                runs.append([at, at, *told])
        for first, last, cause, concern, owner, leads in runs:
            where = f"block {first}" if first == last else f"blocks {first} to {last}"
            owned = "" if owner is None else f": owned by {owner}"
            yield f"{where}: {cause}" + ("" if concern is None else f": {concern}") + owned + leads
        for n in wrong_caches(self):
            yield f"block {self.block_of(n)}: wrong cache: {spelled(self.path(n))}/"


def spelled(path):
    return "/".join("".join(chr(c) if 32 <= c <= 126 and c not in b"\\/:" else f"\\x{c:02x}" for c in name) or "\\x" for name in path)


def escaped(text):
    return "".join(chr(c) if 32 <= c <= 126 and c != 92 else f"\\x{c:02x}" for c in text)


def main():
    if len(sys.argv) > 1:
        sys.exit(__doc__)
    for line in Survey(sys.stdin.buffer.read()).found():
        print(line)


if __name__ == "__main__":
    main()
