"""Floppies that were written to: files are made, removed and made again, blocks are taken by a rover; and damages of them."""

import random
from struct import pack_into, unpack_from

from survey import slot

DIR, FILE, SLOTS, POINTERS, PAGE_BITS = 2, 2**32 - 3, 72, 72, 4064


class File:
    def __init__(self, path, content, blocks):
        self.path, self.content, self.blocks = path, content, blocks


class Disk:
    """An OFS (kind 0) or FFS (1) volume, also one of international letters, with one or more bitmap pages behind its root."""

    def __init__(self, kind, blocks=1760, international=False):
        self.kind, self.blocks, self.root, self.international = kind, blocks, blocks // 2, international
        self.image = bytearray(512 * blocks)
        self.image[:4] = b"DOS" + bytes([kind + 2 * international])
        pages = -(-(blocks - 2) // PAGE_BITS)
        self.pages = list(range(self.root + 1, self.root + 1 + pages))
        self.used = {self.root, *self.pages}
        self.rover, self.files, self.dirs, self.removed = self.root, {}, {(): self.root}, []
        for i, value in ((0, 2), (3, SLOTS), (78, 2**32 - 1), (127, 1)):
            self.put(self.root, i, value)
        for i, page in enumerate(self.pages):
            self.put(self.root, 79 + i, page)
        self.text(self.root, 432, b"Work")

    def word(self, b, i):
        return unpack_from(">I", self.image, 512 * b + 4 * i)[0]

    def put(self, b, i, value):
        pack_into(">I", self.image, 512 * b + 4 * i, value)

    def text(self, b, at, text):
        self.image[512 * b + at : 512 * b + at + 1 + len(text)] = bytes([len(text)]) + text

    def seal(self, b, i=5):
        self.put(b, i, 0)
        self.put(b, i, -sum(unpack_from(">128I", self.image, 512 * b)) % 2**32)

    def take(self, count):
        taken = []
        while len(taken) < count:
            self.rover = self.rover + 1 if self.rover + 1 < self.blocks else 2
            if self.rover not in self.used:
                self.used.add(self.rover)
                taken.append(self.rover)
        return taken

    def free(self):
        return self.blocks - 2 - len(self.used)

    def link(self, parent, name, b):
        """The header b becomes the last of its chain."""
        at, i = parent, 6 + slot(name, self.international)
        while self.word(at, i):
            at, i = self.word(at, i), 124
        self.put(at, i, b)
        self.seal(at)

    def header(self, path, secondary):
        b = self.take(1)[0]
        self.image[512 * b : 512 * b + 512] = bytes(512)
        for i, value in ((0, 2), (1, b), (125, self.dirs[path[:-1]]), (127, secondary), (105, 5000), (106, b)):
            self.put(b, i, value)
        self.text(b, 432, path[-1])
        return b

    def make_dir(self, path):
        b = self.header(path, DIR)
        self.seal(b)
        self.link(self.dirs[path[:-1]], path[-1], b)
        self.dirs[path] = b

    def write(self, path, content):
        chunk = 512 if self.kind else 488
        count = -(-len(content) // chunk)
        h = self.header(path, FILE)
        exts = self.take(max(0, -(-(count - POINTERS) // POINTERS)))
        datas = self.take(count)
        members = [h, *exts]
        for j, e in enumerate(exts):
            self.image[512 * e : 512 * e + 512] = bytes(512)
            for i, value in ((0, 16), (1, e), (125, h), (127, FILE)):
                self.put(e, i, value)
        for j, member in enumerate(members):
            named = datas[POINTERS * j : POINTERS * (j + 1)]
            self.put(member, 2, len(named))
            for k, d in enumerate(named):
                self.put(member, 77 - k, d)
            self.put(member, 126, members[j + 1] if j + 1 < len(members) else 0)
        self.put(h, 81, len(content))
        self.put(h, 4, datas[0] if datas else 0)
        for k, d in enumerate(datas):
            piece = content[chunk * k : chunk * (k + 1)]
            self.image[512 * d : 512 * d + 512] = bytes(512)
            if self.kind == 0:
                for i, value in ((0, 8), (1, h), (2, k + 1), (3, len(piece)), (4, datas[k + 1] if k + 1 < count else 0)):
                    self.put(d, i, value)
            self.image[512 * d + 512 - chunk : 512 * d + 512 - chunk + len(piece)] = piece
            if self.kind == 0:
                self.seal(d)
        for member in members:
            self.seal(member)
        self.link(self.dirs[path[:-1]], path[-1], h)
        self.files[path] = File(path, content, [h, *exts, *datas])

    def remove(self, path):
        """The header is taken out of its chain, and its blocks are free; they stay as they are."""
        file = self.files.pop(path)
        h, at, i = file.blocks[0], self.dirs[path[:-1]], 6 + slot(path[-1], self.international)
        while self.word(at, i) != h:
            at, i = self.word(at, i), 124
        self.put(at, i, self.word(h, 124))
        self.seal(at)
        self.used -= set(file.blocks)
        self.removed.append(file)

    def validated(self):
        """The image with its bitmap."""
        for i, page in enumerate(self.pages):
            self.image[512 * page : 512 * page + 512] = bytes(512)
            for j in range(127):
                bits = 0
                for bit in range(32):
                    b = 2 + PAGE_BITS * i + 32 * j + bit
                    if b < self.blocks and b not in self.used:
                        bits |= 1 << bit
                self.put(page, 1 + j, bits)
            self.seal(page, 0)
        self.seal(self.root)
        return bytes(self.image)


def written(kind, blocks=1760, files=50, international=False):
    """A volume with some files two directories deep, some removed and made again; the names of half of them have a letter
    above 0xE0 where letters are international."""
    disk = Disk(kind, blocks, international)
    places = [()]
    for i in range(6):
        disk.make_dir((b"dir%d" % i,))
        places.append((b"dir%d" % i,))
        if i % 2:
            disk.make_dir((b"dir%d" % i, b"sub%d" % i))
            places.append((b"dir%d" % i, b"sub%d" % i))
    sizes = [size for size in (0, 100, 2000, 9000, 30000, 50000) if size <= 30 * blocks]
    made = 0
    while made < 5 * files:
        made += 1
        while len(disk.files) >= files or disk.free() < max(sizes) // 480 + 5:
            disk.remove(random.choice(list(disk.files)))
        number = made if random.random() < 0.9 else random.randrange(made)
        letter = bytes([0xE0 + number % 31]) if international and number % 2 else b""
        path = (*random.choice(places), b"file%d%s" % (number, letter))
        if path in disk.files:
            disk.remove(path)
        disk.write(path, random.randbytes(random.choice(sizes)))
    return disk


# Damages: each answers the changed image, and the blocks that lost bytes


def lost(image, blocks, garbage=True):
    image = bytearray(image)
    for b in blocks:
        image[512 * b : 512 * b + 512] = random.randbytes(512) if garbage else bytes(512)
    return image, set(blocks)


def bit(image, b):
    image = bytearray(image)
    at = 512 * b + random.randrange(512)
    image[at] ^= 1 << random.randrange(8)
    return image, {b}


def cylinder(b, size=22):
    return [c for c in range(b // size * size, b // size * size + size) if c >= 2]


def both(one, other):
    def damage(disk, image):
        first, some = one(disk, image)
        second, more = other(disk, first)
        return second, some | more

    return damage


def a_dir(disk, deep):
    return random.choice([b for path, b in disk.dirs.items() if len(path) == deep])


def not_validated(disk, image):
    image = bytearray(image)
    pack_into(">I", image, 512 * disk.root + 312, 0)
    return image, set()


def heads_of(disk):
    return [file.blocks[0] for file in disk.files.values()]


def with_word(image, b, i, value):
    pack_into(">I", image, 512 * b + 4 * i, value)
    pack_into(">I", image, 512 * b + 20, 0)
    pack_into(">I", image, 512 * b + 20, -sum(unpack_from(">128I", image, 512 * b)) % 2**32)


def cross_linked(disk, image):
    image, touched = bytearray(image), set()
    full = [file for file in disk.files.values() if file.content]
    for _ in range(3):
        one, other = random.choice(full), random.choice(full)
        with_word(image, one.blocks[0], 76, other.blocks[-1])
        touched.add(one.blocks[0])
    return image, touched


def chain_bent(disk, image):
    image = bytearray(image)
    for h in random.sample(heads_of(disk), 3):
        with_word(image, h, 124, random.choice(heads_of(disk)))
    return image, set()


def chain_ring(disk, image):
    image = bytearray(image)
    for h in random.sample(heads_of(disk), 2):
        with_word(image, h, 124, h)
    return image, set()


def header_copied(disk, image):
    image, touched = bytearray(image), set()
    for _ in range(2):
        one, other = random.sample(heads_of(disk), 2)
        image[512 * other : 512 * other + 512] = image[512 * one : 512 * one + 512]
        touched.add(other)
    return image, touched


def in_use(disk, image, b):
    """The bitmap tells that block b is in use."""
    page, bit = disk.pages[(b - 2) // PAGE_BITS], (b - 2) % PAGE_BITS
    word = unpack_from(">I", image, 512 * page + 4 + 4 * (bit // 32))[0] & ~(1 << bit % 32)
    pack_into(">I", image, 512 * page + 4 + 4 * (bit // 32), word)
    pack_into(">I", image, 512 * page, 0)
    pack_into(">I", image, 512 * page, -sum(unpack_from(">128I", image, 512 * page)) % 2**32)


def crossed_claims(disk, image):
    """Headers of files, there or removed, some of them copied into other blocks, name blocks of other files as their data or directory."""
    image, touched = bytearray(image), set()
    files = [file for file in [*disk.files.values(), *disk.removed] if file.content]
    for _ in range(random.randrange(1, 6)):
        one, other = random.choice(files), random.choice(files)
        h = one.blocks[0]
        if random.random() < 0.5:
            h = random.choice([random.randrange(2, disk.blocks), random.choice(other.blocks), *disk.removed[-1].blocks[:1]])
            image[512 * h : 512 * h + 512] = image[512 * one.blocks[0] : 512 * one.blocks[0] + 512]
            with_word(image, h, 1, h)
        if random.random() < 0.7:
            with_word(image, h, 77 - random.randrange(min(POINTERS, len(one.blocks) - 1)), random.choice(other.blocks))
        if random.random() < 0.4:
            with_word(image, h, 125, random.choice([*disk.pages, *other.blocks, disk.root, random.randrange(disk.blocks)]))
        if random.random() < 0.6 and h > 1:
            in_use(disk, image, h)
        touched.add(h)
    return image, touched


def boot_lost(disk, image):
    return lost(image, [0, 1])


def root_cylinder(disk, image):
    return lost(image, cylinder(disk.root))


def some_garbage(disk, image):
    return lost(image, [b for b in range(2, disk.blocks) if random.random() < 0.01])


def root_bit(disk, image):
    return bit(image, disk.root)


def a_cylinder(disk, image):
    return lost(image, cylinder(random.randrange(2, disk.blocks)))


DAMAGES = {
    "nothing": lambda disk, image: (image, set()),
    "root, one bit": root_bit,
    "root zeroed": lambda disk, image: lost(image, [disk.root], False),
    "root garbage": lambda disk, image: lost(image, [disk.root]),
    "root cylinder lost": root_cylinder,
    "bitmap page lost": lambda disk, image: lost(image, disk.pages),
    "root and pages lost": lambda disk, image: lost(image, [disk.root, *disk.pages]),
    "not validated": not_validated,
    "directory zeroed": lambda disk, image: lost(image, [a_dir(disk, 1)], False),
    "directory, one bit": lambda disk, image: bit(image, a_dir(disk, 1)),
    "nested directory zeroed": lambda disk, image: lost(image, [a_dir(disk, 2)], False),
    "one cylinder lost": a_cylinder,
    "one track lost": lambda disk, image: lost(image, cylinder(random.randrange(2, disk.blocks), 11)),
    "1 % garbage": some_garbage,
    "cut at 60 %": lambda disk, image: lost(image, range(disk.blocks * 6 // 10, disk.blocks), False),
    "cross-linked, 3": cross_linked,
    "crossed claims, 5": crossed_claims,
    "chain bent, 3": chain_bent,
    "chain ring, 2": chain_ring,
    "header copied, 2": header_copied,
    "boot blocks lost": boot_lost,
    "root, a bit, cylinder": both(root_bit, a_cylinder),
    "boot, root cyl., 1 %": both(both(boot_lost, root_cylinder), some_garbage),
}


def read(image):
    """The files of a sound volume: path and bytes."""
    def word(b, i):
        return unpack_from(">I", image, 512 * b + 4 * i)[0]

    files, chunk = {}, 512 if image[3] else 488
    waiting = [((), len(image) // 1024)]
    while waiting:
        path, d = waiting.pop()
        for s in range(SLOTS):
            b = word(d, 6 + s)
            while b:
                name = image[512 * b + 433 : 512 * b + 433 + image[512 * b + 432]]
                if word(b, 127) == DIR:
                    waiting.append(((*path, name), b))
                else:
                    left, member, out = word(b, 81), b, []
                    for k in range(-(-left // chunk)):
                        if k and k % POINTERS == 0:
                            member = word(member, 126)
                        at = 512 * word(member, 77 - k % POINTERS) + 512 - chunk
                        out.append(image[at : at + min(left, chunk)])
                        left -= chunk
                    files[(*path, name)] = b"".join(out)
                b = word(b, 124)
    return files
