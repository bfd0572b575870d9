"""The image that a program is given, as a file, packed in one, or on standard input, and what stands of it."""

from __future__ import annotations

import argparse
import contextlib
import errno
import io
import os
import re
import stat
import sys
import warnings
from typing import IO, BinaryIO, Iterator, NamedTuple, Optional, Sequence, Tuple

import adf
from adf._arguments import Mapped, mapped
from adf_tools.advice import length_that_fits
from adf_tools.archives import FAULTS, LONGEST_BEGIN, fault_of, foreign, form_of
from adf_tools.members import NotChosen, image_of_member, place_of
from adf_tools.names import letters
from adf_tools.processes import accept_memory
from adf_tools.program import FAILED, REFUSED, host_text, open_input, stop, tell
from adf_tools.trees import named
from adf_tools.volumes import disk_of

STANDARD_INPUT = "-"
COPIES = 4  # how often a rescue has an image
IS_IMAGE = "the image, also packed (.adz, .gz, .zip, .dms, .lha), or games.zip/disk1.adf; without it, or for -, standard input"
Content = Tuple[adf.Image, Optional[int]]  # the bytes of an image, and how many its file has, if that is known


def number_of_blocks(text: str) -> int:
    """The number of blocks that a word of the command line is."""
    if re.fullmatch("[0-9]{1,10}", text) and 0 < int(text) <= adf.MOST_BLOCKS:
        return int(text)
    raise argparse.ArgumentTypeError(f"a number of blocks from 1 to {adf.MOST_BLOCKS}")


def add_image(line: argparse.ArgumentParser, more: str = "") -> None:
    """Adds the word for the image, and the option for how many blocks it is meant to have."""
    line.add_argument("image", metavar="IMAGE", nargs="?", default=STANDARD_INPUT, help=f"{IS_IMAGE}{more}")
    does = "read the image as if it had so many blocks; those that it lacks are lost"
    line.add_argument("--blocks", type=number_of_blocks, metavar="N", help=does)
    line.set_defaults(program=line.prog)


def add_strict(line: argparse.ArgumentParser) -> None:
    line.add_argument("--strict", action="store_true", help="refuse an image that is not a valid volume, in place of taking what stands")


class Given(NamedTuple):
    """An image that was given: the name of its file, empty for standard input, its bytes, as far as a volume has any, the blocks that it
    is meant to have, and how many bytes its file has, if that is known."""

    name: str
    content: bytes | Mapped
    blocks: Optional[int]
    size: Optional[int]

    def line(self, told: object) -> str:
        """A line about the image."""
        return f"{self.name}: {told}" if self.name else str(told)

    def volume(self, strict: bool) -> adf.Volume:
        """The volume of the image, or of what stands of it; where nothing does, the program ends."""
        if adf.LARGE < len(self.content) <= adf.MOST_BYTES and not strict and disk_of(self.content) is None:
            self.accept_memory()
        with warnings.catch_warnings():
            warnings.simplefilter("ignore", adf.DamagedWarning)
            try:
                return adf.open_image(self.content, strict=strict, blocks=self.blocks)
            except adf.Refused as refused:
                fault = f"block {refused.block}: {refused.cause}{help_of(self.content, refused, self.size)}"
                stop(REFUSED, self.line(foreign(self.content) or fault))

    def accept_memory(self) -> None:
        """MemoryError if the image is refused, and there is no memory for what stands of it."""
        try:
            adf.check(self.content, international=True)
        except adf.Refused:
            accept_memory(COPIES * len(self.content))

    def tell(self, program: str, volume: adf.Volume) -> int:
        """A line for all that is left out; the status to end with."""
        return self.tell_lines(program, volume.left_out)

    def tell_lines(self, program: str, lines: Sequence[object]) -> int:
        for each in lines:
            tell(program, self.line(each))
        return REFUSED if lines else 0


@contextlib.contextmanager
def opened(path: str, program: str) -> Iterator[BinaryIO]:
    """The file of an image, or standard input, which errors name. That a terminal is waited for is said."""
    if path == STANDARD_INPUT:
        if sys.stdin.isatty():
            tell(program, "reading an image from standard input; -h for help")
        with named("standard input"):
            yield sys.stdin.buffer
    else:
        with open_input(path) as file, named(path):
            yield file


def size_of(file: BinaryIO) -> Optional[int]:
    """How many bytes a file or a block device has, if that is known before it is read."""
    kind = stat.S_IFMT(os.fstat(file.fileno()).st_mode)
    return end_of(file) if kind in (stat.S_IFREG, stat.S_IFBLK) else None


def end_of(file: IO[bytes]) -> int:
    """Where a file ends; a block device has no other size. The place in it stays."""
    at = file.tell()
    end = file.seek(0, os.SEEK_END)
    file.seek(at)
    return end


def name_of(path: str) -> str:
    return "standard input" if path == STANDARD_INPUT else host_text(path)


def content_given(words: argparse.Namespace, is_whole: bool = False) -> Content:
    """The bytes of the image that the words name, unpacked, as far as a volume has any; those of a whole hard disk if that is wanted."""
    path, member = place_of(words.image)
    with opened(path, words.program) as file:
        size = size_of(file)
        if size is None or path == STANDARD_INPUT:
            content = adf.read_image(file)
            form = form_of(content[:LONGEST_BEGIN])
            return unpacked_from(in_memory(content, path), form, words.image, member) if form else (content, size)
        form = form_of(file.read(LONGEST_BEGIN))
        file.seek(0)
        if form:
            return unpacked_from(file, form, words.image, member)
        if member:
            stop(FAILED, f"{host_text(words.image)}: {os.strerror(errno.ENOTDIR)}")
        wanted = size if is_whole else min(size, adf.MOST_BYTES + 1)
        return mapped(file.fileno(), wanted) if wanted > adf.LARGE else adf.read_image(file), size


def in_memory(content: bytes, path: str) -> IO[bytes]:
    """A packed file that was read whole."""
    if len(content) > adf.LARGE:
        stop(REFUSED, f"{name_of(path)}: packed, in more than {adf.LARGE} bytes: give it as a file")
    return io.BytesIO(content)


def unpacked_from(file: IO[bytes], form: str, path: str, wanted: bytes) -> Content:
    """The bytes of the one image that is wanted of a packed file."""
    name = name_of(path)
    try:
        image = image_of_member(file, form, wanted, os.fsencode(path))
    except NotChosen as error:
        stop(REFUSED, f"{name}: {error}")
    except FAULTS as error:
        stop(FAILED, f"{name}: {fault_of(error)}")
    if image.fault:
        stop(FAILED, f"{name}: {image.fault}")
    return image.content.mapped(), image.length


def given(words: argparse.Namespace) -> Given:
    """The image that the words name."""
    content, size = content_given(words)
    assert isinstance(content, (bytes, Mapped))
    return Given("" if words.image == STANDARD_INPUT else host_text(words.image), content, words.blocks, size)


def bytes_text(image: adf.Image, size: Optional[int]) -> str:
    """How many bytes an image has; at most one more than the largest volume has is read."""
    if len(image) <= adf.MOST_BYTES:
        return f"{len(image)} bytes"
    return f"more than {adf.MOST_BYTES} bytes" if size is None else f"{size} bytes"


def help_of(image: adf.Image, refused: adf.Refused, size: Optional[int] = None) -> str:
    """What helps with an image that is refused as a whole: it is a hard disk, or has a length that no disk has."""
    disk = disk_of(image)
    if disk is not None:
        name = next((letters(row.name) or str(row.number) for row in disk.partitions if row.blocks), None)
        if name is None:
            return "; a hard disk without a volume that can be read: adf-disk survey < IMAGE tells why"
        return f"; a hard disk: adf-disk volume {name} < IMAGE > VOLUME cuts a volume out (adf-disk list < IMAGE)"
    fits = length_that_fits(image, refused)
    if fits is not None:
        return f"; it has {bytes_text(image, size)}, and {adf.BLOCK * fits} would fit: --blocks {fits}"
    return f"; it has {bytes_text(image, size)}" if refused.cause == "bad size" else ""
