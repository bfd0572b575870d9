"""What a catalogue keeps of an image: of a volume, of a refused image, and of a whole hard disk with its partitions."""

from __future__ import annotations

import functools
import hashlib
import itertools
import struct
import zlib
from typing import Any, Dict, Iterable, Iterator, List, NamedTuple, Optional, Sequence, Tuple

import adf
from adf_tools import deletions, icons
from adf_tools.advice import advice_of, passed, sound_group
from adf_tools.links import led_text
from adf_tools.names import letters, spelled_letters
from adf_tools.picture import roles_of_refused
from adf_tools.standing import SOUND, Source, Standing, Stood
from adf_tools.sums import boot_facts

DOS, UNTYPED = b"DOS", adf.escape(bytes(4))  # how a volume begins; a type of 0, which parted writes
MOST_LETTERS, MOST_FINDINGS, LINE = 64 << 20, 100_000, 100  # of the texts of one image; a row has so many letters beside them
LONGEST_TEXT, MOST_ICONS, INFO = 1 << 16, 32, b".info"
LINK = "link"  # the kind of a link that is right, and the state of one that is not
SECTOR_WORDS, BLOCK_SECTORS, RESERVED = 33, 36, 38  # words of a partition block
READ_RESERVED = 2  # the reserved blocks of volumes that are read
OTHER_BLOCKS = "other block size"
UNREAD = OTHER_BLOCKS, "reserved", "odd blocks"  # how the reasons begin that are no faults
CONTROLS = bytes({*range(32), 127} - set(b"\t\n\r\f\x1b"))  # no text has them
Columns = Dict[str, Any]
Rows = List[Tuple[Any, ...]]


class Record(NamedTuple):
    """What is kept of one image: its columns, and its rows of the tables entries, findings, left_out, deleted, partitions and icons; of text
    files the place among the entries, and the text, where that is wanted."""

    columns: Columns
    entries: Rows
    findings: Rows
    left_out: Rows
    deleted: Rows
    partitions: Rows
    icons: Rows
    texts: Rows

    @property
    def weight(self) -> int:
        """How many letters it has, roughly."""
        rows = (*self.entries, *self.findings, *self.left_out, *self.deleted, *self.partitions, *self.texts)
        return LINE + sum(map(letters_of, rows))


def letters_of(row: Tuple[Any, ...]) -> int:
    """How many letters a row has, roughly."""
    return LINE + sum([len(value) for value in row if type(value) is str])


def record(columns: Columns) -> Record:
    return Record(columns, [], [], [], [], [], [], [])


def limited(rows: Iterable[Tuple[Any, ...]]) -> Rows:
    """As many rows as an image may have in the database."""
    taken: Rows = []
    count = 0
    for row in rows:
        count += letters_of(row)
        if count > MOST_LETTERS:
            break
        taken.append(row)
    return taken


def file_sum(entry: adf.Entry) -> str:
    """The SHA-256 of the bytes of a file."""
    digest, room = hashlib.sha256(), reading_room()
    for at in range(0, entry.size, adf.PART):
        digest.update(memoryview(room)[: entry.read_into(room, at)])
    return digest.hexdigest()


@functools.lru_cache(maxsize=1)
def reading_room() -> bytearray:
    """Room for a part of a file, which is taken once: a disk has many small files."""
    return bytearray(adf.PART)


@functools.lru_cache(maxsize=4096)
def date_text(date: adf.Date) -> str:
    """A date as it is kept: many entries of a disk have the same one."""
    return str(date)


def path_of(entry: Source) -> str:
    """The text of the path of an entry in letters; of one that is found as adf-survey spells it."""
    return spelled_letters(entry.path_text if isinstance(entry, adf.Entry) else entry.path)


def name_of(entry: Source) -> str:
    """The name of an entry in letters; of one that is found as adf-survey spells it."""
    return letters(entry.name) if isinstance(entry, adf.Entry) else spelled_letters(entry.name)


def path_sums(entries: Iterable[Source]) -> Dict[int, bytes]:
    """A sum of the names that lead to each entry, by its number. Each is behind its directory."""
    sums = {0: b""}
    for entry in entries:
        sums[entry.number] = hashlib.sha256(sums[entry.parent] + b"/" + name_of(entry).encode("utf-8")).digest()
    return sums


def entry_row(entry: Source, header: int, state: str, digest: Optional[str]) -> Tuple[Any, ...]:
    kind, path, comment = "file" if entry.is_file else "dir", path_of(entry), letters(entry.comment)
    return kind, path, entry.size, entry.protection, date_text(entry.date), comment, header, state, digest


def link_row(link: adf.Link) -> Tuple[Any, ...]:
    """The row of a right link, whose state is what it leads to."""
    _, *fields, _, digest = entry_row(link.entry, link.entry.header, "", None)
    return LINK, *fields, led_text(link.target), digest


def volume_row(entry: adf.Entry) -> Tuple[Any, ...]:
    return entry_row(entry, entry.header, "sound", file_sum(entry) if entry.is_file else None)


def stood_row(links: Dict[int, adf.Link], stood: Stood) -> Tuple[Any, ...]:
    """The row of an entry of a refused image, of which these are the links by their headers; a file that is in the rescue has its SHA-256."""
    source = stood.source
    if isinstance(source, adf.Found) and source.header in links:
        return link_row(links[source.header])
    return entry_row(source, stood.header, stood.state, file_sum(source) if isinstance(source, adf.Entry) and source.is_file else None)


def dates_of(volume: adf.Volume | adf.Survey) -> Columns:
    return {"root": str(volume.date), "altered": str(volume.altered), "created": str(volume.created)}


def tree_sum(volume: adf.Volume, entries: Sequence[adf.Entry], rows: Rows) -> str:
    """A sum of all that a volume is but its dates, its free blocks, and which blocks hold what, by the rows of its entries."""
    digest, sums = hashlib.sha256(volume.boot.raw), path_sums(entries)
    digest.update(repr((volume.kind, volume.blocks, volume.label)).encode())
    for path, row in sorted((sums[entry.number], row) for entry, row in zip(entries, rows)):
        kind, _, size, protection, _, comment, _, _, content = row
        digest.update(repr((kind, path, size, protection, comment, content)).encode())
    return digest.hexdigest()


def icon_rows(entries: Sequence[Source]) -> Iterator[Tuple[Any, ...]]:
    """The icons of the disk and of its drawers, as far as they are sound."""
    drawers = {entry.raw_path.lower() for entry in entries if not entry.is_file and not entry.parent} | {b"disk"}
    for entry in entries:
        if entry.is_file and not entry.parent and entry.raw_name.lower().endswith(INFO) and entry.raw_name.lower()[: -len(INFO)] in drawers:
            icon = icons.icon_of(content_of(entry)) if entry.size <= icons.MOST_BYTES else None
            if icon:
                yield path_of(entry), icon.width, icon.height, icon.palette, zlib.compress(icon.pixels)


def content_of(entry: Source) -> bytes:
    """The bytes of a file that is in a volume, or in the rescue of one; of any other none."""
    return entry.read() if isinstance(entry, adf.Entry) else b""


def text_rows(entries: Sequence[Source]) -> Iterator[Tuple[Any, ...]]:
    """The text files of a volume, or those that stand on a refused image, each by its place among the entries."""
    for place, entry in enumerate(entries):
        content = content_of(entry) if entry.is_file and 0 < entry.size <= LONGEST_TEXT else b""
        if content and len(content.translate(None, CONTROLS)) == len(content):
            yield place, content.decode("latin-1")


def volume_record(volume: adf.Volume, columns: Columns, has_texts: bool) -> Record:
    """What is kept of a volume."""
    entries = list(volume.entries)  # each is made when it is asked for
    rows = limited(map(volume_row, entries))
    whole, files = len(entries), sum(entry.is_file for entry in entries)
    numbers = {"kind": volume.kind, "blocks": volume.blocks, "used": volume.used, "free": volume.free, "type": volume.image[3]}
    counts = {"dirs": whole - files, "files": files, "faults": 0, "sound": whole, "lost": 0, "lost_least": 0, "unlisted": whole - len(rows)}
    tree = tree_sum(volume, entries, rows) if len(rows) == whole else None
    told = {"verdict": "ok", "advice": sound_group(volume.kind), "label": letters(volume.label), "tree": tree, "roles": zlib.compress(volume.owners())}
    texts = limited(text_rows(entries[: len(rows)])) if has_texts else []
    drawn = list(itertools.islice(icon_rows(entries), MOST_ICONS))
    return record({**columns, **numbers, **counts, **dates_of(volume), **told})._replace(entries=rows, icons=drawn, texts=texts)


def refused_record(standing: Standing, refused: adf.Refused, columns: Columns, has_texts: bool) -> Record:
    """What is kept of a refused image: its findings, and what stands of it all the same, as its rescue has it."""
    survey, sources = standing.survey, [stood.source for stood in standing.entries]
    links = {link.entry.header: link for link in survey.links} if any(stood.state == LINK for stood in standing.entries) else {}
    rows, findings = limited(map(functools.partial(stood_row, links), standing.entries)), limited(finding_rows(survey))
    told = {"verdict": str(refused), "block": refused.block, "cause": refused.cause, "label": letters(survey.label), "fits": standing.fits}
    told.update(counts_of(standing), unlisted=len(sources) - len(rows), faults=len(survey.findings) - passed(survey))
    told.update(advice=advice_of(refused, survey, columns), roles=zlib.compress(roles_of_refused(survey, standing.roles)))
    if survey.kind:
        told.update(kind=survey.kind, type=standing.type, blocks=(columns["bytes"] or 0) // adf.BLOCK, **dates_of(survey))
    left_out = limited((each.why, spelled_letters(each.path)) for each in standing.left_out)
    texts = limited(text_rows(sources[: len(rows)])) if has_texts else []
    drawn = list(itertools.islice(icon_rows(sources), MOST_ICONS))
    return record({**columns, **told})._replace(entries=rows, findings=findings, left_out=left_out, icons=drawn, texts=texts)


def counts_of(standing: Standing) -> Columns:
    """How many entries there are, how many of them stand, and how many files are lost."""
    files = sum(stood.source.is_file for stood in standing.entries)
    sound = sum(stood.state == SOUND for stood in standing.entries)
    return {"dirs": len(standing.entries) - files, "files": files, "sound": sound, "lost": standing.lost, "lost_least": int(standing.is_least)}


def finding_rows(survey: adf.Survey) -> Iterator[Tuple[Any, ...]]:
    for place in range(passed(survey), min(len(survey.findings), MOST_FINDINGS)):
        first, last, cause, *paths = survey.findings[place]
        yield first, last, cause, *(None if path is None else spelled_letters(path) for path in paths)


def with_deleted(found: Record, rows: Optional[Rows]) -> Record:
    """What is kept of an image, and what was deleted from it, if that is known."""
    return found if rows is None else found._replace(columns={**found.columns, **deletions.counts_of(rows)}, deleted=limited(rows))


def image_record(image: bytes, columns: Columns, has_texts: bool) -> Tuple[Record, Optional[adf.Rescued]]:
    """What is kept of the image of a volume, refused or not, and the new volume of a refused one."""
    columns = {**columns, **boot_facts(image)}
    try:
        volume = adf.Volume(image)
    except adf.Refused as refused:
        standing = Standing(image, refused)
        found = refused_record(standing, refused, columns, has_texts)
        return with_deleted(found, deletions.rows_of_survey(standing.survey)), standing.volume
    found = volume_record(volume, columns, has_texts)
    return with_deleted(found, deletions.rows_of_volume(image, {header for *_, header, _, _ in found.entries})), None


def long_record(columns: Columns) -> Record:
    """What is kept of a volume that is longer than any that is read."""
    return record({**columns, "verdict": "block 0: bad size", "block": 0, "cause": "bad size", "advice": "too long"})


def disk_of(content: adf.Image) -> Optional[adf.Disk]:
    """The hard disk of an image, if it is one. What begins as a volume is not, whatever else stands in it."""
    if bytes(memoryview(content)[: len(DOS)]) == DOS:
        return None
    disk = adf.Disk(content)
    return disk if disk.partitions or disk.cause != "no rigid disk" else None


def is_volume(partition: adf.Partition) -> bool:
    """Whether the volume of a partition may be one of an Amiga, by its type; 0 says nothing, so it may."""
    return partition.kind.startswith((*adf.KINDS, "DOS")) or partition.kind == UNTYPED


def is_long(partition: adf.Partition) -> bool:
    """Whether its volume is longer than any that is read."""
    return adf.BLOCK * partition.blocks > adf.MOST_BYTES


def is_faulty(partition: adf.Partition) -> bool:
    """Whether something is wrong with a partition: larger blocks of its file system are none."""
    return partition.fault not in ("", OTHER_BLOCKS)


def why_unread(disk: adf.Disk, partition: adf.Partition) -> str:
    """Why the volume of a partition is not read whatever its type, in the words of `adf-disk check`, or an empty text."""
    words = struct.unpack_from(">128I", memoryview(disk.image), adf.BLOCK * partition.block)
    if partition.fault == OTHER_BLOCKS:
        return f"{OTHER_BLOCKS}: {words[BLOCK_SECTORS]} x {4 * words[SECTOR_WORDS]}"
    if partition.fault or not is_volume(partition):
        return partition.fault
    if words[RESERVED] != READ_RESERVED:
        return f"reserved {words[RESERVED]}"
    return "odd blocks" if partition.blocks % 2 else ""


def disk_record(disk: adf.Disk, columns: Columns) -> Record:
    """What is kept of a whole hard disk, without its volumes."""
    faults = sum(map(is_faulty, disk.partitions))
    told = {"kind": "disk", "verdict": f"block {disk.block}: {disk.cause}" if disk.cause else "ok", "faults": faults + bool(disk.cause)}
    cause = {"block": disk.block, "cause": disk.cause} if disk.cause else {}
    is_read = all(is_volume(row) and not is_long(row) and not why_unread(disk, row) for row in disk.partitions)
    blocks, advice = len(memoryview(disk.image)) // adf.BLOCK, "tables" if told["faults"] else "sound" if is_read else "volumes not read"
    return record({**columns, **told, **cause, "blocks": blocks, "advice": advice})._replace(
        partitions=[
            (row.number, letters(row.name), row.kind, row.first, row.blocks, row.flags, row.priority, row.block, why_unread(disk, row))
            for row in disk.partitions
        ]
    )


def volume_of(disk: adf.Disk, partition: adf.Partition) -> Optional[bytes]:
    """The bytes of the volume of a partition, if it has one of an Amiga; of one that is too large none."""
    if why_unread(disk, partition) or not is_volume(partition):
        return None
    begin = adf.BLOCK * partition.first
    return b"" if is_long(partition) else bytes(memoryview(disk.image)[begin : begin + adf.BLOCK * partition.blocks])
