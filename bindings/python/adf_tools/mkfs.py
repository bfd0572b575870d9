"""mkfs.affs: makes an empty volume on a file or a block device (docs/mkfs.affs.8); the library builds it."""

from __future__ import annotations

import argparse
import contextlib
import errno
import glob
import mmap
import os
import re
import stat
import time
from typing import Iterator, NamedTuple, Optional

import adf
from adf import building
from adf_tools.pack import amiga_name, latest_stamp, stamp_of
from adf_tools.processes import accept_memory
from adf_tools.program import REFUSED, begin, command_line, host_text, new_file, stop, tell
from adf_tools.trees import named

PROGRAM = "mkfs.affs"
UNIT, ZEROS = 1024, bytes(adf.PART)  # bytes of BLOCKS; and those of a part that is empty
MOUNTS, LOOPS = "/proc/self/mounts", b"/sys/block/loop*/loop/backing_file"
OPTIONS = os.O_CLOEXEC | os.O_NONBLOCK | os.O_NOCTTY


class Target(NamedTuple):
    """A file or device: its name for lines, and how many bytes it has."""

    name: str
    size: int

    def blocks(self) -> int:
        """The blocks of its volume: an odd last one, and less than a block, are left out."""
        blocks = self.size // adf.BLOCK // 2 * 2
        if blocks > adf.MOST_BLOCKS:
            stop(REFUSED, f"{self.name}: {blocks} blocks of 512 bytes; a volume has at most {adf.MOST_BLOCKS} (4 GiB)")
        return blocks

    def tell_rest(self) -> None:
        """A line for what is left out."""
        blocks = self.blocks()
        if self.size // adf.BLOCK > blocks:
            tell(PROGRAM, f"{self.name}: the last of {blocks + 1} blocks is left out: the affs of Linux needs the option root={blocks // 2}")


def number(text: str) -> int:
    """The number of units that a word is."""
    if re.fullmatch("[0-9]{1,12}", text):
        return int(text)
    raise argparse.ArgumentTypeError(f"a number of units of 1,024 bytes, and not {text!r}")


def label_of(text: str) -> bytes:
    """The bytes of a label, which is in UTF-8, with \\x and two digits for any byte."""
    name = os.fsencode(text)
    if name != text.encode("utf-8", "replace"):
        stop(REFUSED, f"{host_text(text)}: not UTF-8 (\\x and two digits stand for a byte)")
    return amiga_name(name, text, False)


def volume_of(words: argparse.Namespace, target: Target) -> mmap.mmap:
    """The image of an empty volume, whose dates are now, or those that the environment has."""
    given = latest_stamp()
    date = adf.Date.of(stamp_of(time.time_ns() if given is None else given))
    volume = building.new_volume(words.kind, target.blocks(), label_of(words.label or ""), (date, date, date))
    accept_memory(adf.BLOCK * target.blocks())
    image = mmap.mmap(-1, max(adf.BLOCK * target.blocks(), adf.BLOCK), mmap.MAP_PRIVATE | mmap.MAP_ANONYMOUS)
    try:
        building.build_into(image, volume, building.Plan(words.kind), b"")
    except adf.NotBuilt as error:
        stop(REFUSED, f"{target.name}: {target.blocks()} blocks: {error}")
    return image


def mounted_on(path: bytes) -> Optional[bytes]:
    """Where a file or device is mounted, as far as the system tells."""
    with contextlib.suppress(FileNotFoundError), open(MOUNTS, "rb") as table:
        for line in table:
            source, place = (re.sub(rb"\\([0-3][0-7]{2})", lambda octal: bytes([int(octal[1], 8)]), field) for field in line.split(b" ")[:2])
            if source == path:
                return place
    return None


def loop_of(path: bytes) -> Optional[bytes]:
    """The loop device that shows a file, as far as the system tells."""
    for shown in sorted(glob.glob(LOOPS)):
        with contextlib.suppress(OSError), open(shown, "rb") as file:
            if file.read() == path + b"\n":
                return shown.split(b"/")[3]
    return None


def refuse_used(path: str) -> None:
    """Refuses what is mounted, or shown by a loop device."""
    real = os.path.realpath(os.fsencode(path))
    place, loop = mounted_on(real), loop_of(real)
    if place is not None:
        stop(REFUSED, f"{host_text(path)}: mounted on {host_text(place)}")
    if loop is not None:
        stop(REFUSED, f"{host_text(path)}: in use by /dev/{host_text(loop)}")


@contextlib.contextmanager
def opened(path: str, access: int) -> Iterator[int]:
    """A file or block device that is there. No link leads to a file, and nothing else is opened; a device that is in use is refused."""
    with named(path):
        is_device = stat.S_ISBLK(os.stat(path).st_mode)
        kind, how = (stat.S_IFBLK, os.O_EXCL) if is_device else (stat.S_IFREG, os.O_NOFOLLOW)
        if not is_device and not stat.S_ISREG(os.lstat(path).st_mode):
            stop(REFUSED, f"{host_text(path)}: neither a file nor a block device, or a link to a file")
        fd = os.open(path, access | how | OPTIONS)
    try:
        if stat.S_IFMT(os.fstat(fd).st_mode) != kind:
            stop(REFUSED, f"{host_text(path)}: it has become another thing")
        yield fd
    finally:
        os.close(fd)


def write_over(words: argparse.Namespace) -> Target:
    """Makes a volume on a file or device that is there."""
    refuse_used(words.device)
    with opened(words.device, os.O_RDONLY if words.dry else os.O_RDWR) as fd:
        with named(words.device):
            target = Target(host_text(words.device), os.lseek(fd, 0, os.SEEK_END))
            os.lseek(fd, 0, os.SEEK_SET)
        write(words, target, fd)
    return target


def write_new(words: argparse.Namespace) -> Target:
    """Makes a volume in a new file."""
    target = Target(host_text(words.device), UNIT * words.blocks)
    if words.dry:
        volume_of(words, target)
    else:
        with new_file(words.device) as fd:
            with named(words.device):
                os.ftruncate(fd, adf.BLOCK * target.blocks())
            write(words, target, fd)
    return target


def write(words: argparse.Namespace, target: Target, fd: int) -> None:
    """Writes the volume into an open file, and waits until it is there, if that is wanted."""
    image, done = volume_of(words, target), 0
    if not words.dry:
        with named(words.device):
            while done < len(image):
                part = image[done : done + adf.PART]
                is_there = part == ZEROS[: len(part)] and is_hole(fd, done, len(part))
                done += len(part) if is_there else os.pwrite(fd, part, done)
            os.fsync(fd)


def is_hole(fd: int, begin: int, count: int) -> bool:
    """Whether nothing was ever written to this part of a file, so that it has zeros. No device tells it."""
    try:
        return os.lseek(fd, begin, os.SEEK_DATA) >= begin + count
    except OSError as error:  # no data is behind that place
        return error.errno == errno.ENXIO


def work(words: argparse.Namespace) -> int:
    is_there = os.path.lexists(words.device)
    if is_there and words.blocks is not None:
        stop(REFUSED, f"{host_text(words.device)}: it is there, and keeps its size: BLOCKS is for a new file")
    if not is_there and words.blocks is None:
        stop(REFUSED, f"{host_text(words.device)}: no such file: BLOCKS makes one")
    target = write_over(words) if is_there else write_new(words)
    target.tell_rest()
    if words.verbose or words.dry:
        print(f"{target.name}: {words.kind} volume of {target.blocks()} blocks of 512 bytes{', not written' if words.dry else ''}")
    return 0


def main() -> None:
    line = command_line(PROGRAM, "Makes an empty volume of an Amiga on a file or a block device. What was there is lost.")
    line.add_argument("-L", dest="label", metavar="LABEL", help="the name of the volume")
    kinds = ", ".join(adf.TYPES)
    line.add_argument("-t", dest="kind", metavar="KIND", choices=adf.TYPES, default="ffs", help=f"the kind of the volume, {kinds}; without it ffs")
    line.add_argument("-n", dest="dry", action="store_true", help="write nothing, and say what would be made")
    line.add_argument("-v", dest="verbose", action="store_true", help="say what was made")
    line.add_argument("device", metavar="DEVICE", help="a block device or a file, which keeps its size")
    line.add_argument("blocks", metavar="BLOCKS", nargs="?", type=number, help="make a new file of so many units of 1,024 bytes")
    begin(line, work, failed=REFUSED)


if __name__ == "__main__":
    main()
