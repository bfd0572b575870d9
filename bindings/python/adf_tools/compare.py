"""adf-catalogue compare: what two images do not share, by path, and then by block."""

from __future__ import annotations

import argparse
import os
import sys
from typing import Dict, Iterable, Iterator, List, NamedTuple, Optional, Tuple

import adf
from adf_tools.collection import Image, images_in
from adf_tools.names import letters
from adf_tools.program import FAILED, REFUSED, command_line, host_text, stop
from adf_tools.standing import Source, Standing, Stood
from adf_tools.volumes import file_sum, path_of, path_sums


class Thing(NamedTuple):
    """What is compared of an entry; the sum is that of the bytes of a file, and of a damaged one its state."""

    kind: str
    bytes: str
    protection: str
    date: str
    comment: str


class Side(NamedTuple):
    """One of the two images: its bytes, its verdict and label, and its entries, each with the text of its path, by the sums of their paths."""

    image: bytes
    verdict: str
    label: str
    things: Dict[bytes, Tuple[str, Thing]]

    def path(self, which: bytes) -> str:
        return self.things[which][0]

    def thing(self, which: bytes) -> Thing:
        return self.things[which][1]

    def in_order(self, which: Iterable[bytes]) -> List[bytes]:
        """These, in the order of their paths."""
        return sorted(which, key=self.path)


def image_at(path: bytes) -> bytes:
    """The image in a file, in an archive, or in a partition of a hard disk, named as a catalogue names it."""
    file, rest = path, b""
    while not os.path.isfile(file) and os.path.dirname(file) not in (file, b""):
        file = os.path.dirname(file)
        rest = path[len(file) :]
    image = only(images_in(file, file), path, bool(rest))
    if image.fault:
        stop(FAILED, f"{host_text(path)}: {image.fault}")
    return content_at(image, path)


def only(images: Iterator[Image], path: bytes, is_inside: bool) -> Image:
    """The one image that has this name, or that of a file which it is inside; others are not kept."""
    found = None
    for image in images:
        if not is_inside or path == image.name or path.startswith(image.name + b"/"):
            if found is not None:
                stop(FAILED, f"{host_text(path)}: more than one image has this name")
            found = image
    if found is None:
        stop(FAILED, f"{host_text(path)}: no image has this name")
    return found


def content_at(image: Image, path: bytes) -> bytes:
    """The bytes of an image, or of the volume of its partition."""
    if image.name == path or not path.startswith(image.name + b"/"):
        return image.content.begin()
    disk, name = image.content.disk(), path[len(image.name) + 1 :]
    partition = next((one for one in disk.partitions if name in (one.raw_name, b"%d" % one.number)), None) if disk else None
    volume = image.content.volume(disk, partition) if disk and partition else None
    if volume is None:
        stop(FAILED, f"{host_text(path)}: no partition has this name, or it has no volume")
    return volume.begin()


def thing_of(entry: Source, content: str) -> Thing:
    return Thing("file" if entry.is_file else "directory", content, f"{entry.protection:08x}", str(entry.date), letters(entry.comment))


def stood_sum(stood: Stood) -> str:
    """A sum of the bytes of a file that stands of a damaged image; of one that does not its block, which no sum is equal to."""
    if isinstance(stood.source, adf.Entry):
        return file_sum(stood.source) if stood.source.is_file else ""
    return f"{stood.state}, block {stood.header}"


def side_of(image: bytes) -> Side:
    """What is compared of an image; of a refused one what stands of it."""
    try:
        volume = adf.Volume(image)
    except adf.Refused as refused:
        standing = Standing(image, refused)
        return Side(image, str(refused), letters(standing.survey.label), things_of(standing))
    entries = list(volume.entries)
    sums, digests = path_sums(entries), ((entry, file_sum(entry) if entry.is_file else "") for entry in entries)
    return Side(image, "ok", letters(volume.label), {sums[entry.number]: (path_of(entry), thing_of(entry, digest)) for entry, digest in digests})


def things_of(standing: Standing) -> Dict[bytes, Tuple[str, Thing]]:
    """What stands of a refused image; of several things with one path the first."""
    kept, found = path_sums(standing.volume.entries if standing.volume else ()), path_sums(standing.survey.entries)
    sources = ((stood, (kept if stood.is_kept else found)[stood.source.number]) for stood in reversed(standing.entries))
    return {path: (path_of(stood.source), thing_of(stood.source, stood_sum(stood))) for stood, path in sources}


def same_elsewhere(gone: List[bytes], new: List[bytes], one: Side, other: Side) -> Dict[bytes, bytes]:
    """The files that stand under another name, by the sums of their paths: the old one, and the new one."""
    waiting: Dict[str, List[bytes]] = {}
    for path in reversed(new):
        if other.thing(path).kind == "file":
            waiting.setdefault(other.thing(path).bytes, []).append(path)
    return {path: waiting[one.thing(path).bytes].pop() for path in gone if one.thing(path).kind == "file" and waiting.get(one.thing(path).bytes)}


def by_path(one: Side, other: Side) -> Iterator[str]:
    """What differs in the entries."""
    gone, new = one.in_order(set(one.things) - set(other.things)), other.in_order(set(other.things) - set(one.things))
    moved = same_elsewhere(gone, new, one, other)
    come = set(moved.values())
    yield from (f"removed\t{one.path(path)}" for path in gone if path not in moved)
    yield from (f"added\t{other.path(path)}" for path in new if path not in come)
    yield from (f"renamed\t{one.path(path)}\t{other.path(moved[path])}" for path in gone if path in moved)
    for path in one.in_order(set(one.things) & set(other.things)):
        pair = one.thing(path), other.thing(path)
        differing = [name for name, first, second in zip(Thing._fields, *pair) if first != second]
        if differing:
            yield f"changed\t{one.path(path)}\t{', '.join(differing)}"


def by_block(one: bytes, other: bytes) -> Iterator[str]:
    """The ranges of blocks that differ; a block that one of them does not have differs."""
    count, begin = -(-max(len(one), len(other)) // adf.BLOCK), None  # type: int, Optional[int]
    first, second = memoryview(one), memoryview(other)
    for block in range(count + 1):
        place = slice(adf.BLOCK * block, adf.BLOCK * (block + 1))
        is_same = block == count or first[place] == second[place]
        if not is_same and begin is None:
            begin = block
        elif is_same and begin is not None:
            yield f"blocks\t{begin}\t{block - 1}"
            begin = None


def lines(one: Side, other: Side) -> Iterator[str]:
    for name in ("verdict", "label"):
        if getattr(one, name) != getattr(other, name):
            yield f"{name}\t{getattr(one, name)}\t{getattr(other, name)}"
    yield from by_path(one, other)
    yield from by_block(one.image, other.image)


def work(words: argparse.Namespace) -> int:
    """Writes a line for each difference; the status says whether there is one."""
    adf.load()
    one, other = (side_of(image_at(os.fsencode(path))) for path in (words.one, words.other))
    found = 0
    for line_ in lines(one, other):
        sys.stdout.buffer.write((line_ + "\n").encode("utf-8"))
        found += 1
    return REFUSED if found else 0


def line() -> argparse.ArgumentParser:
    parser = command_line("adf-catalogue compare", "Says what two images do not share: a line for each difference, by path and then by block.")
    parser.add_argument("one", metavar="A", help="an image; one in an archive, or in a partition, as a catalogue names it: games.zip/disk1.adf")
    parser.add_argument("other", metavar="B", help="another image")
    return parser
