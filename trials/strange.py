"""Hostile input for trials/hostile: images, folders, archives, collections and databases, each made by chance."""

import functools
import gzip
import io
import lzma
import os
import sqlite3
import struct
import warnings
import zipfile
import zlib

import adf

BLOCK, HEADER, ENDS = 512, 2, (2, 2**32 - 3, 2**32 - 4, 3, 4)
EVIL = b'"><b id=evil>'  # stands on no page but escaped
RAW_NAMES = (
    b"", b".", b"..", b"../escaped", b"a/../../escaped", b"/abs", b"\0", b"a\0b", b"\xff" * 79, b"/" * 79, b"con", b"AUX.txt", b"nul.", b"com1",
    b"x.damaged", b"x.gaps", b"x.uaem", b"-rf", b"--strict", b"\x1b]0;evil\x07", EVIL, b"</script>", b"a\nb", b"C:", b"a:b", b"\\x2e\\x2e",
    b"%2e%2e", b"=1+1", b"~root", b"\xe2\x80\xae", b" ", b"a ", b"$(id)", b"`id`", b"*", b"'", b"\\", b"x" * 30, b"x" * 79,
)  # fmt: skip
NAMES = [name for name in RAW_NAMES if 0 < len(name) <= 30 and not set(name) & set(b"/:\0")]


def put(path, content=b""):
    with open(path, "wb") as file:
        file.write(content)


# Images


@functools.lru_cache(maxsize=None)
def volume(kind, blocks, number):
    """A volume of some directories and files; of the names that valid volumes can have."""
    lines, above = [f"volume {kind} {blocks}", f"label {adf.escape(NAMES[number % len(NAMES)])}"], [""]
    for place in range(4 + number % 5):
        name = adf.escape(NAMES[(7 * number + place) % len(NAMES)])
        path = above[place % len(above)] + name
        if place % 3 == 0:
            lines.append(f"dir 9000:0:0 00000000 {path}")
            above.append(path + "/")
        else:
            lines += [f"file 9000:0:0 0000000f {path}", f"note {adf.escape(EVIL)}", f"fill {700 * place} 41", "data 3c623e"]
    status, image, errors = adf.run(["build"], "".join(line + "\n" for line in dict.fromkeys(lines)).encode())
    assert status == 0, errors
    return image


def headers(image):
    """The blocks that say that they are headers."""
    words = (struct.unpack_from(">I", image, at)[0] for at in range(0, len(image) - 511, BLOCK))
    return [b for b, word in enumerate(words) if word == HEADER and struct.unpack_from(">I", image, BLOCK * b + 508)[0] in ENDS]


def seal(image, b):
    struct.pack_into(">I", image, BLOCK * b + 20, 0)
    struct.pack_into(">I", image, BLOCK * b + 20, -sum(struct.unpack_from(">128I", image, BLOCK * b)) % 2**32)


def renamed(image, b, name):
    """A header gets a raw name, of up to 79 bytes."""
    image[BLOCK * b + 432 : BLOCK * b + 433 + len(name)] = bytes([len(name)]) + name


def mutated(chance, image, raw_names):
    """An image with one to four faults; whether sums are made right again is left to chance."""
    image = bytearray(image)
    for _ in range(chance.randint(1, 4)):
        found, way = headers(image), chance.randrange(9)
        b = chance.choice(found) if found and way < 7 else chance.randrange(max(1, len(image) // BLOCK))
        if len(image) < BLOCK * (b + 1):
            continue
        if way < 2:
            renamed(image, b, chance.choice(raw_names))
        elif way < 5:
            image[BLOCK * b + chance.randrange(BLOCK)] ^= 1 << chance.randrange(8)
        elif way == 5:
            word = chance.choice((0, 1, 2, 4, 6 + chance.randrange(72), 81, 124, 125, 126, 127))
            struct.pack_into(">I", image, BLOCK * b + 4 * word, chance.choice((0, 1, b, len(image) // BLOCK, 2**31, 2**32 - 1, *found)))
        elif way == 6:
            image[BLOCK * b + 432] = chance.randrange(256)
        elif way == 7:
            image[BLOCK * b : BLOCK * b + BLOCK] = chance.choice((bytes(BLOCK), chance.randbytes(BLOCK)))
        else:
            image[3:4] = bytes([chance.choice((0, 1, 2, 3, 4, 5, 6, 255))])
        if chance.random() < 0.4 and b > 1:
            seal(image, b)
    if chance.random() < 0.1:
        del image[chance.randrange(len(image)) :]
    return bytes(image)


def table(words):
    """A block of a disk's tables with these words, and its sum."""
    block = [words.get(place, 0) for place in range(128)]
    block[2] = -sum(block) % 2**32
    return struct.pack(">128I", *block)


def disk(chance, *volumes):
    """A hard disk of these volumes, whose partitions have any names."""
    image, at = table({0: 0x5244534B, 1: 64, 4: 512, 7: 1, 33: 15}), 1
    for number, content in enumerate(volumes):
        past = at + -(-len(content) // (BLOCK * 16))
        name = chance.choice(RAW_NAMES)[:31].ljust(31, b"\0")
        words = {0: 0x50415254, 1: 64, 4: number + 2 if number + 1 < len(volumes) else 0xFFFFFFFF, 9: 0x03444830 + number}
        if chance.random() < 0.5:
            words.update({9 + i: word for i, word in enumerate(struct.unpack(">8I", bytes([chance.randrange(40)]) + name))})
        image += table({**words, 32: 16, 33: 128, 35: 1, 36: 1, 37: 16, 38: 2, 41: at, 42: past - 1, 48: 0x444F5300 + content[3]})
        at = past
    return b"".join(part.ljust(-(-len(part) // (BLOCK * 16)) * BLOCK * 16, b"\0") for part in (image, *volumes))


@functools.lru_cache(maxsize=None)
def deep():
    """A volume of directories in directories with names without letters, and a file in each; the host has its paths just so."""
    paths = [b"/".join([b"\x1b" * 30] * depth) for depth in range(1, 31)]
    return adf.build("ffs", 400, [addition for path in paths for addition in (adf.Addition(path), adf.Addition(path + b"/f", b"A"))])


@functools.lru_cache(maxsize=None)
def claiming():
    """A volume whose files each state as many bytes as it has."""
    whole = bytearray(adf.build("ffs", 400, [adf.Addition(b"f%d" % number, b"A") for number in range(190)]))
    for entry in adf.Volume(whole).entries:
        struct.pack_into(">I", whole, BLOCK * entry.header + 324, len(whole))
    return bytes(whole)


def image(chance, raw_names=RAW_NAMES):
    """An image, mostly a damaged volume."""
    if chance.random() < 0.02:
        return mutated(chance, chance.choice((deep(), claiming())), raw_names)
    given = volume(chance.choice(("ofs", "ffs")), chance.choice((64, 120, 400)), chance.randrange(40))
    way = chance.random()
    if way < 0.05:
        return given
    if way < 0.13:
        return mutated(chance, disk(chance, given, volume("ffs", 64, chance.randrange(40))), raw_names)
    return mutated(chance, given, raw_names)


# Folders


def some_name(chance):
    """A name of the host."""
    name = chance.choice((*RAW_NAMES, chance.randbytes(chance.randint(1, 40)), "Bücher".encode(), "日本".encode(), b"x" * 255))
    name = name.replace(b"/", b"_").replace(b"\0", b"_")[:255]
    return name + chance.choice((b"", b"", b".adf", b".zip", b".uaem")) if name not in (b"", b".", b"..") and len(name) < 250 else b"plain"


def special(chance, path, outside):
    """What is neither a file nor a directory."""
    way = chance.randrange(6)
    if way == 0:
        os.mkfifo(path)
    elif way == 1:
        os.symlink(chance.choice((os.path.join(outside, b"rc"), os.path.join(outside, b"victim"), b"/etc/passwd", b"/")), path)
    elif way == 2:
        os.symlink(b".", path)
    elif way == 3:
        os.symlink(os.path.basename(path), path)
    elif way == 4:
        os.mkdir(path, 0o000)
    else:
        put(path, chance.randbytes(9))
        os.chmod(path, 0o000)


def folder(chance, path, outside, content):
    """Fills a folder with anything: files of this content, folders, links, pipes."""
    os.makedirs(path, exist_ok=True)
    places = [path]
    for _ in range(chance.randint(0, 7)):
        new = os.path.join(chance.choice(places), some_name(chance))
        if os.path.lexists(new) or len(new) > 3000:
            continue
        way = chance.random()
        if way < 0.2:
            special(chance, new, outside)
        elif way < 0.4:
            os.mkdir(new)
            places.append(new)
        else:
            put(new, content(chance))
    return path


def bytes_of_a_file(chance):
    line = b"----rwed 2026-11-25 06:56:04.10 " + chance.choice(RAW_NAMES)
    return chance.choice((b"", b"a", bytes(3000), chance.randbytes(200), line, line[: chance.randrange(40)], EVIL))


# Archives and collections


def lha(name, content, method):
    """An archive of LHA, whose checksum is that of no content."""
    head = method + struct.pack("<IIIBBB", len(content), len(content), 0, 0x20, 0, len(name)) + name + bytes(2)
    return bytes([len(head), sum(head) % 256]) + head + content + b"\0"


def filtered(chance, content):
    """What libarchive's filters would unpack, or would run a program for."""
    begins = (b"\x89LZO\0\r\n\x1a\n", b"LRZI\0\6", b"GRZipII\0\2\4:)", b"begin 644 a\n", b"\xed\xab\xee\xdb\3\0")
    return chance.choice((lzma.compress(content), lzma.compress(lzma.compress(content)), chance.choice(begins) + content))


def packed(chance):
    """A file that has images, or says so."""
    given, way = image(chance), chance.randrange(9)
    if way < 2:
        return given
    if way == 2:
        whole = gzip.compress(given, 1)
    elif way == 3:
        whole = b"DMS!" + chance.randbytes(chance.randint(0, 99)) + given
    elif way == 5:
        whole = filtered(chance, lha(b"a.adf", given, b"-lh0-"))
    elif way == 4:
        whole = lha(chance.choice(RAW_NAMES)[:60] + b".adf", given, chance.choice((b"-lh0-", b"-lh5-", b"-lzs-")))
    else:
        room = io.BytesIO()
        with warnings.catch_warnings(), zipfile.ZipFile(room, "w", zipfile.ZIP_DEFLATED) as archive:
            warnings.simplefilter("ignore", UserWarning)  # of names that come twice
            for _ in range(chance.randint(1, 3)):
                name = chance.choice(RAW_NAMES).decode("latin-1").replace("\0", "_") + chance.choice((".adf", "", ".hdf"))
                archive.writestr(zipfile.ZipInfo(name), image(chance))
        whole = room.getvalue()
    whole = bytearray(whole)
    for _ in range(chance.choice((0, 0, 1, 3))):
        whole[chance.randrange(len(whole))] ^= 1 << chance.randrange(8)
    return bytes(whole[: len(whole) if chance.random() < 0.8 else chance.randrange(len(whole))])


# Databases

CHANGES = (
    "UPDATE images SET kind = '{evil}'", "UPDATE images SET bytes = '{evil}'", "UPDATE images SET dirs = 'text', files = x'00ff'",
    "UPDATE images SET name = '{evil}', verdict = '{evil}'", "UPDATE images SET page = '../escaped.html'", "UPDATE images SET page = '/abs.html'",
    "UPDATE images SET rescued = '../../outside/rc'", "UPDATE images SET roles = x'ff'", "UPDATE images SET roles = NULL, blocks = -5",
    "UPDATE images SET blocks = 1099511627776", "UPDATE images SET advice = '{evil}', cause = '{evil}', label = '{evil}'",
    "UPDATE images SET root = '{evil}', altered = x'00', created = 5", "UPDATE files SET path = '../../outside/rc'", "UPDATE files SET size = 'x'",
    "UPDATE entries SET size = '{evil}', protection = 'x', date = '{evil}'", "UPDATE entries SET state = '{evil}', kind = '{evil}', header = -1",
    "UPDATE icons SET width = 100000, height = 100000", "UPDATE icons SET pixels = x'00', palette = 99999", "UPDATE icons SET path = '{evil}'",
    "UPDATE facts SET value = '{evil}'", "DELETE FROM facts", "UPDATE runs SET files = 'x'", "DROP TABLE entries", "DROP TABLE findings",
    "CREATE VIEW more AS WITH RECURSIVE r(x) AS (SELECT 1 UNION ALL SELECT x + 1 FROM r) SELECT x FROM r",
    "ALTER TABLE files RENAME TO kept; CREATE VIEW files AS WITH RECURSIVE r(x) AS (SELECT 1 UNION ALL SELECT x + 1 FROM r) SELECT x AS id FROM r",
    "CREATE TRIGGER more AFTER INSERT ON runs BEGIN DELETE FROM images; END", "CREATE TABLE more (x)", "PRAGMA user_version = 99",
    "PRAGMA application_id = 0", "PRAGMA user_version = 0", "UPDATE partitions SET name = '{evil}', first = 'x', blocks = -1",
    "UPDATE known SET name = '{evil}', game = '{evil}'", "UPDATE images SET known = '{evil}', known_as = '{evil}'", "UPDATE images SET disk = id",
    "UPDATE images SET crc32 = '{evil}', sha256 = '{evil}', sha1 = x'00'", "UPDATE findings SET first = 'x', last = -1, cause = '{evil}', path = x'ff'",
    "UPDATE images SET fits = '{evil}', faults = '{evil}', sound = 'x', lost = 1.5", "UPDATE images SET number = 'x', member = '../x'",
)  # fmt: skip


def database(chance, given):
    """The bytes of a database that was changed by SQL, or by bits."""
    if chance.random() < 0.3:
        whole = bytearray(given)
        for _ in range(chance.choice((1, 5, 50))):
            whole[chance.randrange(len(whole))] = chance.randrange(256)
        return bytes(whole[: len(whole) if chance.random() < 0.8 else chance.randrange(len(whole))])
    path = "changing.sqlite"
    put(path, given)
    connection = sqlite3.connect(path, isolation_level=None)
    for _ in range(chance.randint(1, 3)):
        try:
            connection.executescript(chance.choice(CHANGES).format(evil=EVIL.decode() + chance.choice(("", "\x1b[2J", "\n", "\t", "\\u2028"))))
        except sqlite3.Error:
            pass
    connection.close()
    with open(path, "rb") as file:
        whole = file.read()
    os.remove(path)
    return whole


def list_of_disks(chance):
    """A published list, Logiqx XML."""
    rows = "".join(
        f'<rom name="{chance.choice(("a.adf", "../x", "&lt;b&gt;", "&#x1b;"))}" size="{chance.choice(("901120", "-1", "x", "9" * 30))}" '
        f'crc="{zlib.crc32(b""):08x}" status="{chance.choice(("good", "baddump", "nodump", "x"))}"/>'
        for _ in range(chance.randint(0, 3))
    )
    head = chance.choice(('<?xml version="1.0"?>', "", '<!DOCTYPE d [<!ENTITY a "b"><!ENTITY c SYSTEM "file:///etc/passwd">]>'))
    whole = f"{head}<datafile><header><name>{chance.choice(('Try', '&c;', '&a;'))}</name></header><game name=\"g\">{rows}</game></datafile>".encode()
    return whole[: len(whole) if chance.random() < 0.7 else chance.randrange(len(whole))]
