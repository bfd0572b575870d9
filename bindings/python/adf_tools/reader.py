"""Reads the images in a file, for the database of a catalogue; the new volumes of refused ones are written where they are wanted."""

from __future__ import annotations

import hashlib
import os
import re
import sys
from collections import Counter
from typing import Dict, Iterator, List, NamedTuple, Optional, Tuple

import adf
from adf_tools.archives import foreign
from adf_tools.collection import ARCHIVES, Image, fault_of, images_in, kinds_passed, opened, unforeseen, unread
from adf_tools.names import host_letters
from adf_tools.out_folder import NEW_FILE, PAGES
from adf_tools.processes import Turns
from adf_tools.program import FAILED, Stop, stop
from adf_tools.sums import Sums, sums_of
from adf_tools.volumes import Columns, Record, disk_record, image_record, long_record, record

MOST_WRITTEN = 128 << 20  # letters that are kept of one file; of an archive the rest is left out
MOST_KINDS, OTHERS = 1000, "others"  # kinds of files that are counted, and what the rest is called
IMAGE_COPIES = 6  # how often a process has an image in memory


class Read(NamedTuple):
    """What is kept of a file: of each image in it; the file's checksums, if it could be read; how many files of each kind it has that are no
    images; and how many letters that is, roughly."""

    records: List[Record]
    sums: Optional[Sums]
    passed: Dict[str, int]
    weight: int = 0


def page_name(name: bytes, number: int) -> str:
    """The name of an image's page, plain on every server: what is plain of its own, and a part of a sum of all of it."""
    plain = re.sub(rb"[^A-Za-z0-9]+", b"-", name).decode().strip("-").lower()[:40]
    which = b"\0%d" % number if number else b""
    return f"{PAGES}/{plain}-{hashlib.sha256(name + which).hexdigest()[:16]}.html"


def columns_of(image: Image) -> Columns:
    """The columns of an image that is not read yet, or cannot be."""
    columns: Columns = {"name": host_letters(image.name), "number": image.number, "member": image.member and host_letters(image.member)}
    return {**columns, "verdict": f"read fault: {image.fault}", "advice": "not read"} if image.fault else columns


def facts_of(image: Image, has_all_sums: bool) -> Columns:
    """The length and the checksums of an image; if it is longer than what was read of it, neither is known."""
    is_whole = image.length == image.content.size
    return {"bytes": image.length, **(sums_of(image.content.parts(), has_all_sums)._asdict() if is_whole else {})}


def form_of(image: bytes) -> Optional[str]:
    """What an image is that has no sectors one after the other, if its begin says so."""
    return foreign(image) or None if image else "an empty file"


def own_sums(records: List[Record]) -> Optional[Sums]:
    """The checksums of a file that is an image: those of the image."""
    columns = records[0].columns if records else {}
    return Sums(*(columns[name] for name in Sums._fields)) if columns.get("sha256") else None


def file_sums(path: bytes, has_all: bool) -> Optional[Sums]:
    """The checksums of a file, if it can be read."""
    try:
        with opened(path) as file:
            return sums_of(iter(lambda: file.read(adf.PART), b""), has_all)
    except OSError:
        return None


def most_common(kinds: Counter[str]) -> Dict[str, int]:
    """How many files there are of each kind; of more than MOST_KINDS the rest is one."""
    found = dict(kinds.most_common(MOST_KINDS))
    rest = sum(kinds.values()) - sum(found.values())
    return {**found, OTHERS: found.get(OTHERS, 0) + rest} if rest else found


class Wanted(NamedTuple):
    """What is wanted of the files that are read: the new volumes of refused images; the contents of text files; all checksums, or the SHA-256
    alone."""

    rescues: bool = False
    texts: bool = False
    all_sums: bool = True


class Reader:
    """Reads a file below a folder, large volumes in turn with other processes. The new volumes go into a folder, by its descriptor."""

    def __init__(self, folder: bytes, volumes: int, wanted: Wanted, turns: Turns) -> None:
        self.folder, self.volumes, self.wanted, self.turns = folder, volumes, wanted, turns

    def __call__(self, path: bytes) -> Read:
        """What is kept of a file."""
        records, weight = self.records_in(path)
        is_packed = path.lower().endswith(ARCHIVES)
        passed = kinds_passed(path, bool(records)) if is_packed else Counter()
        return Read(records, file_sums(path, self.wanted.all_sums) if is_packed else own_sums(records), most_common(passed), weight)

    def records_in(self, path: bytes) -> Tuple[List[Record], int]:
        """What is kept of the images in a file, and how many letters that is; of a hard disk its volumes follow it."""
        records: list[Record] = []
        name, weight = os.path.relpath(path, self.folder), 0
        for image in images_in(path, name):
            if weight > MOST_WRITTEN:
                records.append(record(columns_of(unread(name, f"further images in it are left out: {weight} letters are kept of it"))))
                break
            found = self.all_of(image)
            weight += sum(one.weight for one in found)
            records += found
        return records, weight

    def all_of(self, image: Image) -> list[Record]:
        """What is kept of one image. What goes wrong with it costs no other image."""
        try:
            return list(self.records_of(image))
        except Stop:
            raise
        except (MemoryError, OSError) as error:
            fault = fault_of(error)
        except Exception as error:
            if sys.flags.dev_mode:
                raise
            fault = unforeseen(error)
        return [record(columns_of(unread(image.name, fault, image.number, image.member)))]

    def records_of(self, image: Image) -> Iterator[Record]:
        """What is kept of one image."""
        if image.fault:
            yield record(columns_of(image))
            return
        disk = image.content.disk()
        if disk is None:
            yield self.record_of(image)
            return
        page = page_name(image.name, image.number)
        yield disk_record(disk, {**columns_of(image), "page": page, **facts_of(image, self.wanted.all_sums)})
        for partition in disk.partitions:
            content = image.content.volume(disk, partition)
            if content is not None:
                name = image.name + b"/" + (partition.raw_name or b"%d" % partition.number)
                volume = Image(name, self.number_of(disk, partition, image), content, adf.BLOCK * partition.blocks, "", image.member)
                found = self.record_of(volume)
                yield found._replace(columns={**found.columns, "partition": partition.number})

    @staticmethod
    def number_of(disk: adf.Disk, partition: adf.Partition, image: Image) -> int:
        """Which volume it is of those with its name."""
        earlier = sum(other.raw_name == partition.raw_name for other in disk.partitions[: partition.number - 1])
        return image.number * adf.MOST_PARTITIONS + earlier

    def record_of(self, image: Image) -> Record:
        """What is kept of the image of a volume."""
        columns = {**columns_of(image), "page": page_name(image.name, image.number), **facts_of(image, self.wanted.all_sums)}
        if image.content.size > adf.MOST_BYTES:
            return long_record(columns)
        if image.content.size <= adf.LARGE:
            return self.read_record(image, columns)
        try:
            with self.turns.take(IMAGE_COPIES * image.content.size):
                return self.read_record(image, columns)
        except MemoryError:
            return record({**columns_of(image._replace(fault="no memory")), "bytes": image.length})

    def read_record(self, image: Image, columns: Columns) -> Record:
        """What is kept of the image of a volume that is read into memory."""
        content = image.content.begin()
        found, volume = image_record(content, {**columns, "form": form_of(content)}, self.wanted.texts)
        return self.rescued(volume, found, self.volumes) if self.wanted.rescues and volume is not None else found

    @staticmethod
    def rescued(volume: adf.Rescued, found: Record, folder: int) -> Record:
        """Writes the new volume of what stands in a refused image; it is to stand beside its page."""
        link = found.columns["page"][: -len("html")] + "adf"
        try:
            with open(os.open(os.path.basename(link), NEW_FILE, 0o666, dir_fd=folder), "wb") as file:
                file.write(volume.image)
        except FileExistsError:  # two images have one name
            return found
        except OSError as error:
            stop(FAILED, f"{link}: {error.strerror}")
        return found._replace(columns={**found.columns, "rescued": link})
