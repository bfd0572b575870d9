"""adf-pack --image: a folder becomes an image, without a manifest between them."""

from __future__ import annotations

import argparse
import mmap
import os
from typing import Any, NoReturn, Optional

import adf
from adf import boots, building
from adf_tools.pack import DEFAULT_KIND, Item, Packer, amiga_name, opened, stop_at
from adf_tools.processes import accept_memory
from adf_tools.program import REFUSED, Progress, host_text, new_file, open_input, stop
from adf_tools.trees import Place

ROW = 500  # the bytes of memory that the library takes for an addition


def changed(place: Place, name: bytes) -> NoReturn:
    stop(REFUSED, f"{host_text(place.path_of(name))}: changed while it was read")


def planned(kind: str, packer: Packer, folder: bytes) -> tuple[building.Plan, list[Item]]:
    """What is to be added to a volume of a kind, by the sizes of the files, and what was found."""
    plan, found, above = building.Plan(kind), [], [0]
    with Place(folder) as place:
        for item in packer.items(place):
            del above[item.depth + 1 :]
            kept, size = item.kept, item.size if item.is_file else None
            if plan.size + item.size > adf.MOST_BYTES:
                stop(REFUSED, f"{host_text(place.path_of(item.name))}: with this file there are more bytes than any volume has")
            plan.put(above[-1], item.raw_name, size, kept.comment, kept.protection, adf.Date.of(kept.stamp))
            found.append(item)
            if not item.is_file:
                above.append(len(plan))
    return plan, found


def read_into(view: memoryview, place: Place, item: Item) -> None:
    """Reads a file that has exactly as many bytes as were found."""
    with opened(place, item.name) as file:
        done = 0
        while done < len(view):
            count = file.readinto(view[done:])  # type: ignore[attr-defined]
            if not count:
                changed(place, item.name)
            done += count
        if file.read(1):
            changed(place, item.name)


def read_all(view: memoryview, packer: Packer, folder: bytes, found: list[Item]) -> None:
    """Reads the bytes of all files that were found, one behind the other."""
    progress, begin = Progress(len(found), "files and folders"), 0
    with Place(folder) as place:
        waiting = iter(found)
        for item in packer.items(place):
            if item != next(waiting, None):
                changed(place, item.name)
            if item.is_file:
                read_into(view[begin : begin + item.size], place, item)
                begin += item.size
            progress.step()
        gone = next(waiting, None)
        if gone is not None:
            changed(place, gone.name)
    progress.close()


def fewest(volume: Any, plan: building.Plan) -> int:
    """The fewest blocks of a volume in which the files have room. Their bytes do not count, and zeros stand for them."""
    return building.need_of(volume, plan, mmap.mmap(-1, plan.largest, mmap.MAP_PRIVATE | mmap.MAP_ANONYMOUS) if plan.largest else b"", is_shared=True)


def boot_in(path: Optional[str]) -> Optional[adf.Boot]:
    """The boot blocks of a file, if one is named; an empty image gets them, before the folder is read."""
    if path is None:
        return None
    with open_input(path) as file:
        source = adf.read_image(file)
    try:
        return adf.Boot.of(adf.with_boot(adf.build("ffs", None, []), source))
    except adf.BadBoot as error:
        stop(REFUSED, f"{host_text(path)}: {error}; it has {len(source)} bytes")


def put_boot(image: memoryview, boot: Optional[adf.Boot], is_bootable: bool) -> None:
    """Puts boot blocks into an image, if they are wanted."""
    if boot is not None:
        boots.copy_into(image, boot)
    elif is_bootable:
        boots.install_into(image)


def filled(fd: int, size: int, volume: Any, plan: building.Plan, packer: Packer, folder: bytes, found: list[Item]) -> memoryview:
    """Writes the image into a file, and gives it; the contents stand behind it until it is built."""
    os.posix_fallocate(fd, 0, size + plan.size)
    whole = memoryview(mmap.mmap(fd, size + plan.size))
    read_all(whole[size:], packer, folder, found)
    building.build_into(whole[:size], volume, plan, whole[size:])
    os.ftruncate(fd, size)
    return whole[:size]


def volume_of(words: argparse.Namespace) -> Any:
    label = amiga_name(os.fsencode(words.label), words.label, words.escape) if words.label else b""
    return building.new_volume(words.kind or DEFAULT_KIND, 0, label, (words.date, words.altered, words.created))


def write_image(words: argparse.Namespace) -> int:
    """Packs a folder into a new image. What does not fit is told before a file is read."""
    volume, packer, folder, boot = volume_of(words), Packer(words), os.fsencode(words.folder), boot_in(words.boot)
    try:
        plan, found = planned(words.kind or DEFAULT_KIND, packer, folder)
        accept_memory(plan.size + ROW * len(plan))
        least = fewest(volume, plan)
        wanted = next((blocks for blocks in (words.blocks, words.size) if blocks is not None), least)
        if wanted < least:
            stop(REFUSED, f"full: the files need {least} blocks, and the image has {wanted}")
        if not 0 <= wanted <= adf.MOST_BLOCKS:
            stop(REFUSED, f"bad size: {wanted} blocks, and the largest volume has {adf.MOST_BLOCKS}")
        volume.blocks = wanted
        with new_file(words.image) as fd:
            put_boot(filled(fd, adf.BLOCK * wanted, volume, plan, packer, folder, found), boot, words.bootable)
    except building.NotBuilt as error:
        stop_at(folder, error)
    except (FileNotFoundError, NotADirectoryError) as error:
        if error.filename is None or os.fsencode(error.filename) in (folder, os.fsencode(words.image)):
            raise
        stop(REFUSED, f"{host_text(error.filename)}: changed while it was read")
    return 0
