"""Packed images: those of gzip and zip are unpacked by Python's own libraries, those of LHA by libarchive, which reads that form alone and
no filter, and those of DMS by the program ancient (adf_tools/confined.py). A file is read in one form: that of its first bytes. What is
long is unpacked into a temporary file, which has no name, if it begins as a volume does or is a hard disk.

What an archive says of itself is not relied on: of anything else at most adf.LARGE bytes are unpacked, and of all of an archive together so
many images, bytes and seconds as MOST_IMAGES, MOST_UNPACKED and MOST_SECONDS say; the rest is told in one line.
"""

from __future__ import annotations

import errno
import gzip
import importlib
import io
import logging
import re
import struct
import tempfile
import time
import zipfile
import zlib
from typing import IO, Any, Callable, Iterator, NamedTuple, Union

import adf
from adf_tools import confined
from adf_tools.content import CHANGED, Content, FileContent
from adf_tools.names import one_line

SIGN = b"DOS"
IMAGES, PACKED_IMAGES = (b".adf", b".hdf"), (b".adz", b".hdz", b".adf.gz", b".hdf.gz")
GZIP, ZIP, DMS, LHA = "gzip", "zip", "DMS", "LHA"
BEGINS = ((GZIP, rb"\x1f\x8b\x08"), (ZIP, rb"PK(\x03\x04|\x05\x06)"), (DMS, rb"DMS!"), (LHA, rb"..-l[hz][0-9a-z]-"))
ENDINGS = {GZIP: (b".gz", b".adz", b".hdz"), ZIP: (b".zip",), DMS: (b".dms",), LHA: (b".lha", b".lzh")}
LONGEST_BEGIN = 16
OTHERS = (
    (rb"SCP", "a flux image (SCP): adf reads sectors"),
    (rb"HXC(PICFE|HFEV3)", "an image of tracks (HFE): adf reads sectors"),
    (rb"CAPS\x00\x00\x00\x0c", "an image of tracks (IPF): adf reads sectors"),
    (rb"UAE-[-1]ADF", "an image of tracks (extended ADF): adf reads sectors"),
    (rb"OD[\x00-\x07]S", "the bytes are swapped in pairs: dd conv=swab swaps them back"),
)
METHODS = (zipfile.ZIP_STORED, zipfile.ZIP_DEFLATED)
ENCRYPTED = 1
MOST_IMAGES, MOST_UNPACKED, MOST_SECONDS = 4096, 4 << 30, 120  # of all of an archive; the seconds are those of a processor
MOST_DMS, DMS_SECONDS, DMS_MEMORY = 16 << 20, 60, 256 << 20  # of a disk of DMS, and of the program that unpacks it
PACKED_DISK, DISK, UNPACKER = "disk.dms", "disk.adf", "ancient"
NO_FILE, DAMAGED = "not a file", "damaged archive"
FAULTS = (OSError, EOFError, ValueError, RuntimeError, MemoryError, struct.error, zlib.error, zipfile.BadZipFile)

Stream = Union[IO[bytes], gzip.GzipFile]


class Unread(ValueError):
    """Why what is packed cannot be read, in the words that are told."""


class Image(NamedTuple):
    """An image: the name of its file, and behind that its name in an archive; which it is of those with this name; its bytes; how many there
    are, if that is known; why it cannot be read, else an empty text; its name in an archive, if it is in one."""

    name: bytes
    number: int
    content: Content
    length: int | None
    fault: str
    member: bytes | None = None


class Member(NamedTuple):
    """What is packed in a file: its name there, or an empty one if there is none; what it is unpacked from, which is to be opened before the
    next one is asked for; why it cannot be, else an empty text."""

    name: bytes
    open: Callable[[], Stream]
    fault: str = ""


class Budget:
    """What may still be unpacked of an archive, of all that is in it together: bytes, and seconds of a processor."""

    def __init__(self) -> None:
        self.most, self.left, self.seconds = MOST_UNPACKED, MOST_UNPACKED, float(MOST_SECONDS)

    def is_spent(self) -> bool:
        return self.left <= 0 or self.seconds <= 0

    def spent(self, work: Callable[[], Any]) -> Any:
        """What the work answers, whose time is taken from what is left. Unread if that is too much."""
        begun = time.thread_time()
        try:
            return work()
        finally:
            self.seconds -= time.thread_time() - begun
            if self.seconds < 0:
                raise Unread(f"stopped after {MOST_SECONDS} seconds")

    def read(self, packed: Stream, count: int) -> bytes:
        """At most so many bytes of a stream."""
        part: bytes = self.spent(lambda: packed.read(min(count, self.left + 1)))
        self.left -= len(part)
        if self.left < 0:
            raise Unread(f"more than {self.most} bytes are not unpacked")
        return part

    def each(self, members: Iterator[Member]) -> Iterator[Member]:
        """The members of an archive, one after the other."""
        while (member := self.spent(lambda: next(members, None))) is not None:
            yield member


def unread(name: bytes, fault: str, number: int = 0, member: bytes | None = None) -> Image:
    return Image(name, number, Content(b""), None, fault, member)


def begins_as_volume(file: Stream) -> bool:
    """Whether an open file begins as a volume does; it is read from its begin again."""
    try:
        begin = file.read(len(SIGN))
        file.seek(0)
        return begin == SIGN
    except FAULTS:
        return False


def form_of(begin: bytes) -> str:
    """How an image is packed whose file begins so; an empty text if it is not."""
    return next((form for form, pattern in BEGINS if re.match(pattern, begin, re.DOTALL)), "")


def foreign(image: adf.Image) -> str:
    """What an image is that is refused, if its begin says so for certain; an empty text else."""
    begin = bytes(image[:LONGEST_BEGIN])
    form = form_of(begin)
    if form:
        return f"packed by {form} in an archive: unpack it first"
    return next((text for pattern, text in OTHERS if re.match(pattern, begin)), "")


def form_named(path: bytes) -> str:
    """How an image is packed, by the end of its name; an empty text if it is not."""
    return next((form for form, endings in ENDINGS.items() if path.lower().endswith(endings)), "")


def members_of(file: IO[bytes], form: str) -> Iterator[Member]:
    """All that is packed in an open file of this form, if its first bytes say that form."""
    file.seek(0)
    begin = file.read(LONGEST_BEGIN)
    file.seek(0)
    if form_of(begin) != form:
        raise Unread(DAMAGED)
    if form == GZIP:
        return iter([Member(b"", lambda: gzip.GzipFile(fileobj=file))])
    if form == DMS:
        return iter([Member(b"", lambda: disk_of_dms(file))])
    return members_of_zip(file) if form == ZIP else members_of_lha(file)


def images_in_archive(file: IO[bytes], name: bytes, form: str) -> Iterator[Image]:
    """The images in a file of this form, by their names there; one without a name if it is named as an image, or begins as a volume does."""
    budget = Budget()
    if form in (GZIP, DMS):
        (member,) = members_of(file, form)
        if form == DMS or name.lower().endswith(PACKED_IMAGES) or begins_as_volume(gzip.GzipFile(fileobj=file)):
            file.seek(0)
            yield unpacked_member(member, name, 0, budget)
        return
    whole = sum(map(is_image, budget.each(members_of(file, form))))
    seen: dict[bytes, int] = {}
    for place, member in enumerate(filter(is_image, budget.each(members_of(file, form)))):
        seen[member.name] = seen.get(member.name, -1) + 1
        yield unpacked_member(member, name + b"/" + member.name, seen[member.name], budget)._replace(member=member.name)
        left_out = whole - place - 1
        if left_out and (place + 1 == MOST_IMAGES or budget.is_spent()):
            yield unread(name, f"{left_out} of {whole} images in it are left out")
            return


def is_image(member: Member) -> bool:
    return member.name.lower().endswith(IMAGES)


def unpacked_member(member: Member, name: bytes, number: int, budget: Budget) -> Image:
    """The image of a member, which is called so."""
    if member.fault:
        return unread(name, member.fault, number)
    try:
        with member.open() as packed:
            return unpacked(packed, name, number, budget)
    except FAULTS as error:
        return unread(name, fault_of(error), number)


def begin_of(read: Callable[[int], bytes]) -> bytes:
    """What is read into memory of what is so read: as much as the largest image that is kept there has, and a byte."""
    room = io.BytesIO()
    while part := read(min(adf.LARGE + 1 - room.tell(), adf.PART)):
        room.write(part)
    return room.getvalue()


def unpacked(packed: Stream, name: bytes, number: int, budget: Budget) -> Image:
    """The image in an open archive, of which no more is unpacked than is left."""
    content = begin_of(lambda count: budget.read(packed, count))
    image = Image(name, number, Content(content), len(content), "")
    if len(content) <= adf.LARGE:
        return image
    if content[: len(SIGN)] != SIGN and image.content.disk() is None:
        return unread(name, f"no volume, and more than {adf.LARGE} bytes: it is not unpacked", number)
    return unpacked_long(packed, image, budget)


def unpacked_long(packed: Stream, image: Image, budget: Budget) -> Image:
    """A large image in a temporary file; its beginning is unpacked already."""
    file = tempfile.TemporaryFile()
    try:
        size = file.write(image.content.begin())
        while part := budget.read(packed, adf.PART):
            size += file.write(part)
        file.flush()
    except BaseException:
        file.close()
        raise
    return image._replace(content=FileContent(file, size), length=size)


def unforeseen(error: BaseException) -> str:
    return f"an error that nobody foresaw: {type(error).__name__}"


def fault_of(error: BaseException) -> str:
    """Why a file cannot be read: what the system says, else that the archive is damaged, which may lead nowhere."""
    if isinstance(error, MemoryError):
        return "no memory"
    if isinstance(error, OSError) and error.errno not in (None, errno.EINVAL):
        return error.strerror
    if not isinstance(error, FAULTS):
        return unforeseen(error)
    return str(error) if isinstance(error, Unread) or str(error) in (NO_FILE, CHANGED) else DAMAGED


# Zip


def members_of_zip(file: IO[bytes]) -> Iterator[Member]:
    """All files of a zip archive. Only methods that unpack step by step are used."""
    with zipfile.ZipFile(file) as archive:
        for member in archive.infolist():
            fault = "encrypted" if member.flag_bits & ENCRYPTED else ""
            if not fault and member.compress_type not in METHODS:
                fault = "packed by a method that is not read"
            if not member.filename.endswith("/"):
                yield Member(member.filename.encode("utf-8", "surrogateescape"), lambda which=member: archive.open(which), fault)  # type: ignore[misc]


# LHA


class Warnings(logging.Handler):
    """Keeps what libarchive warns of, which it would write to standard error: a wrong checksum is among it."""

    def __init__(self) -> None:
        super().__init__()
        self.said: list[str] = []

    def emit(self, record: logging.LogRecord) -> None:
        self.said.append(record.getMessage())


class Blocks(io.RawIOBase):
    """A file of blocks, which come one after the other. What is warned of ends it."""

    def __init__(self, blocks: Iterator[bytes], warnings: Warnings, fault: type[Exception]) -> None:
        self.blocks, self.warnings, self.fault, self.block = blocks, warnings, fault, b""
        self.warnings.said.clear()

    def readable(self) -> bool:
        return True

    def readinto(self, room: Any) -> int:
        try:
            self.block = self.block or next(self.blocks, b"")
        except self.fault:
            raise Unread(DAMAGED) from None
        if self.warnings.said:
            raise Unread(DAMAGED)
        count = min(len(room), len(self.block))
        room[:count], self.block = self.block[:count], self.block[count:]
        return count


def libarchive_module() -> Any:
    try:
        return importlib.import_module("libarchive")
    except (ImportError, AttributeError, OSError, TypeError):  # the last three, if the library itself is missing
        raise Unread("packed by LHA: python3-libarchive-c (Debian's) is needed to read it") from None


def members_of_lha(file: IO[bytes]) -> Iterator[Member]:
    """All files of an LHA archive. No filter is enabled: some are programs, which libarchive runs on what begins as theirs."""
    libarchive, warnings = libarchive_module(), Warnings()
    file.seek(0)
    content = begin_of(file.read)
    if len(content) > adf.LARGE:
        raise Unread(f"an archive of more than {adf.LARGE} bytes is not unpacked")
    fault, logger = libarchive.exception.ArchiveError, logging.getLogger("libarchive")
    logger.addHandler(warnings)
    try:
        with libarchive.memory_reader(content, format_name="lha", filter_name="none") as archive:
            for entry in archive:
                if entry.isfile:
                    name = entry.pathname or b""
                    raw = name if isinstance(name, bytes) else name.encode("utf-8", "surrogateescape")
                    yield Member(raw, lambda each=entry: io.BufferedReader(Blocks(each.get_blocks(), warnings, fault)))  # type: ignore[misc]
    except fault:
        raise Unread(DAMAGED) from None
    finally:
        logger.removeHandler(warnings)


# DMS


def disk_of_dms(file: IO[bytes]) -> Stream:
    """The disk in a file of DMS, which a program unpacks."""
    file.seek(0)
    content, program = file.read(MOST_DMS + 1), confined.path_of(UNPACKER)
    if len(content) > MOST_DMS:
        raise Unread(f"DMS of more than {MOST_DMS} bytes is not unpacked")
    if program is None:
        raise Unread(f"packed by DMS: {UNPACKER} (Debian's) is needed to read it")
    limits = confined.Limits(MOST_DMS, DMS_MEMORY, DMS_SECONDS)
    ran = confined.run([program, "decompress", PACKED_DISK, DISK], PACKED_DISK, content, DISK, limits)
    if ran.status != 0 or ran.written is None:
        raise Unread(f"{UNPACKER}: {why_not_unpacked(ran)}")
    return io.BytesIO(ran.written)


def why_not_unpacked(ran: confined.Ran) -> str:
    """Why a program wrote no disk: what it says, else how it ended."""
    said = ran.errors.decode("utf-8", "replace").strip().splitlines()
    if ran.status is None:
        return f"stopped after {DMS_SECONDS} seconds"
    if ran.status == 0:
        return "it wrote no disk"
    return one_line(said[0]) if said else f"stopped by signal {-ran.status}" if ran.status < 0 else f"status {ran.status}"
