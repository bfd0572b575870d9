"""What `peers` and `amiga` share: random trees, and AROS, a system for Amigas whose ROM FS-UAE has."""

import os
import signal
import struct
import subprocess
import sys
import tempfile
import time

HERE = os.path.dirname(os.path.abspath(__file__))
sys.path.append(os.path.join(HERE, "..", "bindings", "python"))
os.environ["PYTHONPATH"] = os.pathsep.join(filter(None, sys.path))
os.environ["PYTHONDONTWRITEBYTECODE"] = "1"
import adf

SIZES = (0, 1, 72, 487, 488, 489, 511, 512, 513, 4000, 36864, 36865, 60000)
PLAIN_LETTERS = "abcdefghijklmnopqrstuvwxyzABCDEFGHIJKLMNOPQRSTUVWXYZ0123456789 -_+"
NAME_LETTERS = PLAIN_LETTERS + "\xe4\xf6\xfc\xdf\xe9\xc5\xf1"
HIGH_LETTERS = PLAIN_LETTERS + "".join(map(chr, range(0xA0, 0x100)))
COMMENT_LETTERS = NAME_LETTERS + "/:.,!"
HIGH_NAME = ("file 5000:600:0 00000000 \\xe0\\xe9\\xf7\\xff\\xc5\\xd7\\xdf\\xfe", "data 00")  # two bytes of it are no letters
LOWER = bytes((*range(0x61, 0x7B), *range(0xE0, 0xF7), *range(0xF8, 0xFF)))
UPPER = bytes(byte - 32 for byte in LOWER)
OTHER_CASE = bytes.maketrans(LOWER + UPPER, UPPER + LOWER)
CAPITALS = bytes.maketrans(LOWER, UPPER)
IDLE = "SYS:copy SYS:none SYS:none\n"  # copies nothing, and waits, since AROS writes late
SCRIPT = "SECTIONS { . = 0; .text : { *(.text.start) *(.text*) *(.rodata*) *(.data*) *(.bss*) } /DISCARD/ : { *(*) } }"
OPTIONS = "--amiga-model=A1200 --kickstart-file=internal --cpu=68020 --uae-cpu-speed=max --warp-mode=1 --floppy-drive-count=4"
OPTIONS += " --floppy-drive-speed=0 --writable-floppy-images=1 --audio-driver=dummy --automatic-input-grab=0"
LONGEST = 600  # seconds of a start
AROS = "fs-uae xvfb-run m68k-linux-gnu-gcc m68k-linux-gnu-objcopy"


def said(*words, status=None, **more):
    """What a program writes; it may end with any status, or with this one."""
    done = subprocess.run(words, stdout=subprocess.PIPE, stderr=subprocess.DEVNULL, **more)
    if status is not None and done.returncode != status:
        sys.exit(f"{words}: status {done.returncode}")
    return done.stdout


def tool(name, *words, given=b""):
    """What a program over the module writes."""
    return said(sys.executable, "-m", f"adf_tools.{name}", *words, status=0, input=given)


def put(path, content):
    with open(path, "wb") as file:
        file.write(content)


def of_folder(folder, *options):
    """The volume of a folder of the host."""
    return adf.Volume(adf.run(["build"], tool("pack", *options, "ffs", "40000", folder))[1])


def tree(chance, letters=NAME_LETTERS):
    """The lines of a random tree, whose names have these letters. Its files are readable, since some obey that bit."""
    above = [""]
    for number in range(chance.randrange(1, 30)):
        path = chance.choice(above) + "".join(chance.choices(letters, k=chance.randrange(27))) + f"{number}x"
        kind, stamp = chance.choice(("file", "file", "dir")), f"{chance.randrange(3000, 17000)}:{chance.randrange(1440)}:{chance.randrange(3000)}"
        yield f"{kind} {stamp} {chance.randrange(256) & ~8:08x} {adf.escape(path)}"
        comment = "".join(chance.choices(COMMENT_LETTERS, k=chance.randrange(80))).strip()
        if comment and chance.randrange(2):
            yield f"note {adf.escape(comment)}"
        if kind == "file":
            yield f"data {chance.randbytes(chance.choice(SIZES)).hex()}"
        elif path.count("/") < 5:
            above.append(path + "/")


def built(kind, blocks, lines=()):
    """The image that adf builds of these lines; of international letters, with the other type, and its headers in the slots of these; with
    directory caches, as adf-edit lays them."""
    plain, *letters = kind.split("-")
    manifest = "".join(f"{line}\n" for line in (f"volume {plain} {blocks}", "label Peer", *lines) if line != "data ")
    status, image, errors = adf.run(["build"], manifest.encode())
    if status != 0:
        sys.exit(errors.decode())
    if letters == ["cached"]:
        return said("adf-edit", status=0, input=b"letters cached\nend\n" + image)
    return international(image) if letters else image


def slot(name):
    """The slot of a name by international letters."""
    number = len(name)
    for byte in name.translate(CAPITALS):
        number = (13 * number + byte) & 0x7FF
    return number % 72


def sealed(block):
    """A header whose checksum is right."""
    words = list(struct.unpack(">128I", block))
    words[5] = 0
    words[5] = -sum(words) % 2**32
    return struct.pack(">128I", *words)


def international(image):
    """A volume of the tree of this image, of the type with international letters: each chain has its headers in their order."""
    volume = adf.Volume(image)
    headers = [volume.blocks // 2, *(entry.header for entry in volume.entries)]
    blocks = {header: bytearray(image[512 * header : 512 * header + 512]) for header in headers}
    for number in {0, *(entry.number for entry in volume.entries if not entry.is_file)}:
        blocks[headers[number]][24:312] = bytes(288)
    for entry in sorted(volume.entries, key=lambda entry: -entry.header):
        above, place = blocks[headers[entry.parent]], 24 + 4 * slot(entry.raw_name)
        blocks[entry.header][496:500] = above[place : place + 4]
        above[place : place + 4] = entry.header.to_bytes(4, "big")
    new = bytearray(image)
    new[3] += 2
    for header, block in blocks.items():
        new[512 * header : 512 * header + 512] = sealed(block)
    return bytes(new) if everything(adf.Volume(new)) == everything(volume) else sys.exit("another tree by international letters")


def contents(volume):
    """The bytes of each file, and None for each directory."""
    return {entry.raw_path: entry.read() if entry.is_file else None for entry in volume.entries}


def everything(volume):
    """All that entries have; of the protection the bits for which the host keeps a letter."""
    more = {entry.raw_path: (entry.protection & 255, entry.date, entry.raw_comment) for entry in volume.entries}
    return contents(volume), more


def amiga_program(folder):
    """The bytes of the program `copy`, which trials/peers.c is, as a load file of one part."""
    put(script := os.path.join(folder, "script"), SCRIPT.encode())
    elf, code = os.path.join(folder, "elf"), os.path.join(folder, "code")
    flags = ("-m68020", "-mpcrel", "-Os", "-ffreestanding", "-nostdlib", "-Wl,--build-id=none", "-T", script)
    said("m68k-linux-gnu-gcc", *flags, "-o", elf, os.path.join(HERE, "peers.c"), status=0)
    said("m68k-linux-gnu-objcopy", "-O", "binary", "-j", ".text", "--pad-to", "4096", elf, code, status=0)
    with open(code, "rb") as file:
        return struct.pack(">8I", 0x3F3, 0, 1, 0, 0, 1024, 0x3E9, 1024) + file.read() + struct.pack(">I", 0x3F2)


def run_aros(top, drives, ends):
    """Starts AROS with a folder as its drive DH0, and these drives. It is ended when one of the files is in the folder."""
    words = ["xvfb-run", "-a", "fs-uae", *OPTIONS.split(), f"--hard-drive-0={top}", *(f"--{drive}={path}" for drive, path in drives)]
    with tempfile.TemporaryDirectory(prefix="adf-aros.") as folder:  # xvfb-run, when it is ended, leaves its files there
        environment = {**os.environ, "TMPDIR": folder, "HOME": top, "TZ": "UTC", "LIBGL_ALWAYS_SOFTWARE": "1", "SDL_AUDIODRIVER": "dummy"}
        with subprocess.Popen(words, env=environment, start_new_session=True, stdout=subprocess.DEVNULL, stderr=subprocess.DEVNULL) as emulator:
            try:
                end = time.monotonic() + LONGEST
                while time.monotonic() < end and not any(os.path.exists(os.path.join(top, name)) for name in ends):
                    time.sleep(0.2)
                time.sleep(1)
            finally:
                os.killpg(emulator.pid, signal.SIGTERM)


def start(top, drives, lines):
    """Starts AROS from a folder with these drives, where it runs the lines, and one more that tells of the end."""
    put(os.path.join(top, "S", "Startup-Sequence"), "".join([*lines, *[IDLE] * 3, "SYS:copy SYS:S SYS:\n"]).encode())
    run_aros(top, drives, ["Startup-Sequence"])
