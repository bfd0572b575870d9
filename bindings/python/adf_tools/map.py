"""adf-map: draws a volume as SVG, a square for each block, coloured by its role, or a whole hard disk (docs/adf-map.1)."""

from __future__ import annotations

import argparse
import os
import re
import sys
from typing import Optional, Tuple

import adf
from adf_tools.archives import foreign
from adf_tools.given import STANDARD_INPUT, add_image, content_given, help_of
from adf_tools.names import letters
from adf_tools.picture import Fault, disk_picture, picture, roles_of_refused, without
from adf_tools.program import REFUSED, begin, command_line, host_text, stop, tell
from adf_tools.volumes import disk_of, is_long, volume_of, why_unread


def write(text: str) -> None:
    sys.stdout.buffer.write(text.encode("utf-8"))


def refuse(name: str, why: object) -> int:
    tell("adf-map", f"{name}: {why}")
    return REFUSED


def meant(image: adf.Image, blocks: Optional[int]) -> Tuple[adf.Image, range]:
    """An image of so many blocks, and those of them that are missing, for which zeros stand."""
    if blocks is None:
        return image, range(0)
    given = bytes(image[: adf.BLOCK * blocks])
    return given.ljust(adf.BLOCK * blocks, b"\0"), range(len(given) // adf.BLOCK, blocks)


def draw_volume(name: str, image: adf.Image, blocks: Optional[int] = None, size: Optional[int] = None) -> int:
    """Draws a volume, or a refused image, read as if it had so many blocks; its file may have more bytes than the image."""
    (whole, missing), status = meant(image, blocks), 0
    told = f", {len(missing)} missing" if missing else ""
    try:
        volume = adf.Volume(whole)
        write(picture(f"{name}: {volume.kind}, {volume.used} of {volume.blocks} blocks used{told}", without(volume.owners(), missing)))
    except adf.Refused as refused:
        survey = adf.survey(image if len(image) <= adf.MOST_BYTES or blocks else b"", blocks)
        roles = without(roles_of_refused(survey, survey.owners()), missing)
        write(picture(f"{name}: refused, {refused}{told}", roles, Fault(refused.block, str(refused))))
        help_ = "" if missing else help_of(image, refused, size)
        status = refuse(name, foreign(image) or f"{refused}{help_}")
    if missing:
        first, last = missing[0], missing[-1]
        status = refuse(name, f"block {first}: no data" if first == last else f"blocks {first} to {last}: no data")
    return status


def fault_of_tables(disk: adf.Disk) -> Optional[Fault]:
    """The first fault of the tables of a hard disk, if there is one."""
    return Fault(disk.block, f"block {disk.block}: {disk.cause}") if disk.cause else None


def draw_disk(name: str, disk: adf.Disk) -> int:
    """Draws the partitions of a hard disk. The first fault of its tables is marked."""
    blocks = len(memoryview(disk.image)) // adf.BLOCK
    rows = [{"number": row.number, "name": letters(row.name), "kind": row.kind, "first": row.first, "blocks": row.blocks} for row in disk.partitions]
    fault = fault_of_tables(disk)
    write(disk_picture(f"{name}: hard disk, {len(rows)} partitions, {blocks} blocks", blocks, rows, refused=fault))
    return refuse(name, fault) if fault else 0


def volume_in(name: str, disk: adf.Disk, wanted: str) -> bytes:
    """The volume of a partition, by its name or number."""
    try:
        partition = disk[int(wanted) if re.fullmatch("[0-9]{1,9}", wanted) else wanted]
    except adf.NoSuchPath:
        is_disk = disk.partitions or disk.cause != "no rigid disk"
        stop(REFUSED, f"{name}: no such partition: {host_text(wanted)}" if is_disk else f"{name}: block {disk.block}: {disk.cause}")
    if is_long(partition):
        stop(REFUSED, f"{name}: {host_text(wanted)}: block 0: bad size; it has {adf.BLOCK * partition.blocks} bytes")
    volume = volume_of(disk, partition)
    if volume is None:
        stop(REFUSED, f"{name}: {host_text(wanted)}: {why_unread(disk, partition) or 'no volume of an Amiga'}")
    return volume


def draw_partition(name: str, disk: adf.Disk, wanted: str, blocks: Optional[int]) -> int:
    """Draws the volume of a partition, and says the first fault of the tables that it is found by."""
    volume, fault = volume_in(name, disk, wanted), fault_of_tables(disk)
    status = draw_volume(f"{name}: {host_text(wanted)}", volume, blocks, len(volume))
    return refuse(name, fault) if fault else status


def work(words: argparse.Namespace) -> int:
    name = "standard input" if words.image == STANDARD_INPUT else host_text(os.path.basename(words.image))
    content, size = content_given(words, is_whole=True)
    if words.partition is not None:
        return draw_partition(name, adf.Disk(content), words.partition, words.blocks)
    disk = disk_of(content)
    if disk is not None:
        return draw_disk(name, disk)
    return draw_volume(name, content, words.blocks, size)


def main() -> None:
    line = command_line("adf-map", "Draws a disk as SVG, on standard output: a square for each block, or a whole hard disk with its partitions.")
    add_image(line, "; if it is refused, its findings are drawn, and the status is 1")
    line.add_argument("--partition", metavar="NAME", help="draw the volume of this partition of a hard disk, by its name or number")
    begin(line, work)


if __name__ == "__main__":
    main()
