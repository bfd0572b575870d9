"""adf-pack: writes a manifest of a folder, of which `adf build` or `adf-edit` makes a volume, or its edits for `adf-edit` (docs/adf-pack.1)."""

from __future__ import annotations

import argparse
import itertools
import os
import re
import stat
import sys
from typing import BinaryIO, Iterable, Iterator, NamedTuple, NoReturn, Optional

import adf
from adf import building
from adf_tools.names import bytes_of, host_letters
from adf_tools.program import REFUSED, USAGE, add_escape, begin, command_line, host_text, manifest_of, run_lines, stop
from adf_tools.trees import Place
from adf_tools.uaem import ENDING, Kept, comment_of, flags_in, kept_in, name_in

TICKS_TO_1978 = 2922 * 86400 * 50
NEVER = adf.Date(0, 0, 0)
LONGEST_SIDECAR, LONGEST_LINE = 4096, 100
ATTRIBUTES = ("user.amiga.protection", "user.amiga.comment")
UNITS = {"": 1, "K": 1 << 10, "M": 1 << 20, "G": 1 << 30}
DEFAULT_KIND = "ffs"


class Item(NamedTuple):
    """What is found in a folder: how many folders it is in, its name on the host and on the volume, the bytes of a file, and what is
    kept of it."""

    depth: int
    name: bytes
    raw_name: bytes
    size: int
    kept: Kept
    is_file: bool


def amiga_name(text: bytes, path: str | bytes, is_escaped: bool, is_kept: bool = False) -> bytes:
    """The bytes that a text of the host stands for, or a name that has a file NAME.uaem; if a volume cannot have them, its path is
    told."""
    try:
        raw = name_in(text) if is_kept and not is_escaped else bytes_of(text, is_escaped)
    except UnicodeEncodeError as error:
        stop(REFUSED, f"{host_text(path)}: Latin-1, in which an Amiga writes, has no {error.object[error.start]}")
    except UnicodeDecodeError:
        stop(REFUSED, f"{host_text(path)}: not UTF-8 (with --escape bytes stand for themselves)")
    for byte in "/:":
        if byte.encode() in raw:
            stop(REFUSED, f"{host_text(path)}: no name on an Amiga has a {byte}")
    if len(raw) > adf.LONGEST_NAME:
        stop(REFUSED, f"{host_text(path)}: a name of {len(raw)} bytes, and an Amiga has at most {adf.LONGEST_NAME}")
    return raw


def stamp_of(nanoseconds: int) -> str:
    ticks = max(nanoseconds // 20_000_000 - TICKS_TO_1978, 0)
    return f"{ticks // 4_320_000}:{ticks // 3000 % 1440}:{ticks % 3000}"


def opened(place: Place, name: bytes) -> BinaryIO:
    """A regular file, to be read. It may have become another thing since its folder was read."""
    file = place.open(name)
    if not stat.S_ISREG(os.fstat(file.fileno()).st_mode):
        file.close()
        stop(REFUSED, f"{host_text(place.path_of(name))}: neither a file nor a directory")
    return file


def latest_stamp() -> Optional[int]:
    """The last date that a file may have here, in nanoseconds, if the environment has one: https://reproducible-builds.org/specs/."""
    text = os.environ.get("SOURCE_DATE_EPOCH")
    if text is not None and not re.fullmatch("[0-9]{1,12}", text):
        stop(USAGE, f"SOURCE_DATE_EPOCH: a number of seconds since 1970: {host_text(text)}")
    return None if text is None else int(text) * 10**9


def kept_as_attributes(place: Place, name: bytes, own: Kept) -> Kept:
    """What is kept of a file or directory in its attributes, as adf-mount shows them, in place of its own."""
    flags, comment = (place.attribute(name, attribute) for attribute in ATTRIBUTES)
    try:
        protection = own.protection if flags is None else flags_in(flags.decode("latin-1"))
        return own._replace(protection=protection, comment=own.comment if comment is None else comment_of(bytes_of(comment)))
    except ValueError as error:
        why = "a comment that is not in UTF-8 or Latin-1" if isinstance(error, UnicodeError) else error
        stop(REFUSED, f"{host_text(place.path_of(name))}: attribute user.amiga: {why}")


def kept_beside(place: Place, name: bytes, own: Kept) -> Kept:
    """What is kept in the file NAME.uaem beside a file or directory; its own where that does not say."""
    beside = name + os.fsencode(ENDING)
    with opened(place, beside) as file:
        content = file.read(LONGEST_SIDECAR + 1)
    try:
        return kept_in(content, own)
    except ValueError as error:
        stop(REFUSED, f"{host_text(place.path_of(beside))}: {error}")


def entry_lines(kind: str, text: str, kept: Kept) -> Iterator[str]:
    yield f"{kind} {kept.stamp} {kept.protection:08x} {text}"
    if kept.comment:
        yield f"note {adf.escape(kept.comment)}"


def kept_edits(text: str, kept: Kept) -> Iterator[str]:
    """The edits of what a new entry does not have by itself."""
    yield f"date\t{text}\t{kept.stamp}"
    if kept.protection:
        yield f"protect\t{text}\t{kept.protection:08x}"
    if kept.comment:
        yield f"note\t{text}\t{adf.escape(kept.comment)}"


def host_word(path: bytes) -> str:
    """The path of a host file as a word of an edit."""
    try:
        text = path.decode()
    except UnicodeDecodeError:
        stop(REFUSED, f"{host_text(path)}: not UTF-8, which a file of edits is")
    if "\t" in text or "\n" in text:
        stop(REFUSED, f"{host_text(path)}: a tab or a line feed, which no word of a file of edits has")
    return text


class Packer:
    """Makes the lines of a folder: whether names are in the escape form, whether files NAME.uaem are read, and how many bytes files
    may have before the volume is full."""

    def __init__(self, words: argparse.Namespace) -> None:
        self.is_escaped, self.reads_uaem, self.latest = words.escape, not words.no_uaem, latest_stamp()
        self.blocks, self.left = words.blocks, adf.BLOCK * (words.blocks or 0)

    def names(self, place: Place) -> Iterator[tuple[bytes, bool]]:
        """The names in a folder, each with whether a file beside it keeps what it has; such a file is not one of them."""
        found = set(place.names())
        for name in sorted(found):
            if name in found:
                beside = name + os.fsencode(ENDING)
                is_kept = self.reads_uaem and beside in found and stat.S_ISREG(place.status(beside).st_mode)
                if is_kept:
                    found.remove(beside)
                yield name, is_kept

    def parts(self, place: Place, name: bytes) -> Iterator[bytes]:
        """The bytes of a file, in parts."""
        with opened(place, name) as file:
            while part := file.read(adf.PART):
                self.left -= len(part)
                if self.left < 0:
                    stop(REFUSED, f"{host_text(place.path_of(name))}: with this file there are more bytes than {self.blocks} blocks have")
                yield part

    def lines(self, folder: bytes, names: building.Plan) -> Iterator[str]:
        """The lines of all that is in a folder, by names, each folder before what is in it. The plan gets the names, and no bytes."""
        with Place(folder) as place:
            above = [("", 0)]
            for item in self.items(place):
                del above[item.depth + 1 :]
                front, parent = above[-1]
                text = front + adf.escape(item.raw_name)
                names.put(parent, item.raw_name, 0 if item.is_file else None, b"", 0, NEVER)
                if item.is_file:
                    yield from entry_lines("file", text, item.kept)
                    yield from run_lines(self.parts(place, item.name))
                else:
                    yield from entry_lines("dir", text, item.kept)
                    above.append((text + "/", len(names)))

    def edits(self, folder: bytes, directory: str) -> Iterator[str]:
        """The edits that put all that is in a folder into a directory of a volume, each folder before what is in it."""
        with Place(folder) as place:
            above = [directory]
            for item in self.items(place):
                del above[item.depth + 1 :]
                text = above[-1] + adf.escape(item.raw_name)
                if item.is_file:
                    yield f"put\t{host_word(place.path_of(item.name))}\t{text}"
                else:
                    yield f"dir\t{text}"
                    above.append(text + "/")
                yield from kept_edits(text, item.kept)

    def directory(self, path: str) -> str:
        """The path of a directory of a volume in the escape form, with a / behind each name."""
        names = [name for name in os.fsencode(path).split(b"/") if name]
        return "".join(adf.escape(amiga_name(name, path, self.is_escaped)) + "/" for name in names)

    def kept(self, place: Place, name: bytes, is_beside: bool, changed: int) -> Kept:
        """What is kept of a file or directory: beside it, in its attributes, and when it was changed."""
        stamp = stamp_of(changed if self.latest is None else min(changed, self.latest))
        own = kept_as_attributes(place, name, Kept(0, stamp, b""))
        return kept_beside(place, name, own) if is_beside else own

    def items(self, place: Place) -> Iterator[Item]:
        """All that is in a folder, by names, each folder before what is in it; the place is where an item is, as it comes."""
        waiting = [self.names(place)]
        while waiting:
            name, is_kept = next(waiting[-1], (b"", False))
            if not name:
                waiting.pop()
                if waiting:
                    place.go_out()
                continue
            path, found = place.path_of(name), place.status(name)
            raw = amiga_name(name, path, self.is_escaped, is_kept)
            is_file = stat.S_ISREG(found.st_mode)
            if not is_file and not stat.S_ISDIR(found.st_mode):
                stop(REFUSED, f"{host_text(path)}: neither a file nor a directory")
            kept = self.kept(place, name, is_kept, found.st_mtime_ns)
            yield Item(len(waiting) - 1, name, raw, found.st_size if is_file else 0, kept, is_file)
            if not is_file:
                place.go_in(name)
                waiting.append(self.names(place))


def date(text: str) -> adf.Date:
    """A date as `adf list` writes it, with or without the time, or as a manifest does."""
    try:
        return adf.Date.of(f"{text} 00:00:00.00" if re.fullmatch(r"[0-9-]+", text) else text)
    except ValueError:
        raise argparse.ArgumentTypeError(f"a date as 2026-11-25, '2026-11-25 06:56:04.10' or 17860:416:205, and not {text!r}") from None


def blocks_in(size: str) -> int:
    """The blocks of a size, as 880K or 100M."""
    found = re.fullmatch(r"([0-9]{1,12})([KMG]?)", size)
    if not found or int(found[1]) * UNITS[found[2]] % adf.BLOCK:
        raise argparse.ArgumentTypeError(f"a size as 880K, 100M or 1G, or a number of bytes that is a multiple of {adf.BLOCK}, and not {size!r}")
    return int(found[1]) * UNITS[found[2]] // adf.BLOCK


def number(text: str) -> int:
    """The number of blocks that a word is; of one that no volume has the library says so."""
    if not re.fullmatch("-?[0-9]{1,20}", text):
        raise argparse.ArgumentTypeError(f"a number of blocks of 512 bytes, as 1760, and not {text!r}")
    return int(text)


def shortened(line: str) -> str:
    """A line of a manifest for an error: its begin and its end, if it is long."""
    return line if len(line) <= LONGEST_LINE else f"{line[:40]} .. {line[4 + 40 - LONGEST_LINE :]}"


def twin_of(lines: list[str], number: int) -> str:
    """What is to be said of a line whose entry exists: the path of the earlier one."""
    wanted = path_in(lines[number - 1])
    twin = next((line for line in lines[: number - 1] if path_in(line) == wanted), "")
    return f"; as {shortened(twin.split(' ', 3)[3])}: {building.SAME_NAMES}" if twin and wanted else ""


def path_in(line: str) -> bytes:
    """The path in a line of an entry, without the case of its letters; nothing of another line."""
    words = line.split(" ", 3)
    return adf.unescape(words[3]).translate(adf.CAPITALS) if words[0] in ("dir", "file") else b""


def stop_at(folder: bytes, error: adf.NotBuilt) -> NoReturn:
    """Ends with why no volume is built of a folder, and the path of what has the fault."""
    path = os.path.join(folder, error.path.encode("latin-1")) if error.path else b""
    stop(REFUSED, f"{host_letters(path)}: {error.reason}" if path else error.reason)


def refuse_twins(kind: str, names: building.Plan, folder: bytes) -> None:
    """Refuses names of one directory that are one by the letters of a kind."""
    try:
        building.need_of(building.new_volume(kind, 0), names, b"")
    except adf.NotBuilt as error:
        stop_at(folder, error)


def tried(lines: Iterable[str], kind: str) -> bytes:
    """The manifest of these lines, which `adf build` takes, of an international kind with the other kind of its blocks in its place."""
    manifest = manifest_of(lines)
    status, _, refusal = adf.run(["build"], manifest.replace(kind.encode(), by_letters(kind, "ascii").encode(), 1))
    if status:
        said = refusal.decode().strip()
        number = re.match(r"line ([1-9][0-9]*)", said)
        if number:
            made, at = manifest.decode().splitlines(), int(number[1])
            said += f": {shortened(made[at - 1])}{twin_of(made, at) if said.endswith('exists') else ''}"
        stop(status, said)
    return manifest


def by_letters(kind: str, letters: str) -> str:
    """The kind with these letters, one of adf.LETTERS, whose blocks are those of a kind."""
    return adf.TYPES[adf.TYPES.index(kind) % 2 + 2 * adf.LETTERS.index(letters)]


def head_of(words: argparse.Namespace) -> Iterator[str]:
    """The lines of the volume."""
    yield f"volume {words.kind} {words.blocks}"
    if words.label:
        yield "label " + adf.escape(amiga_name(os.fsencode(words.label), words.label, words.escape))
    yield f"stamps {words.date.stamp} {words.altered.stamp} {words.created.stamp}"


def write_edits(words: argparse.Namespace) -> int:
    """Writes the edits of a folder."""
    others = (words.kind, words.blocks, words.image, words.size, words.label, words.boot)
    dates = (words.date, words.altered, words.created)
    if words.bootable or any(word is not None for word in others) or any(date != NEVER for date in dates):
        stop(USAGE, "with --edits the only other words are FOLDER, --no-uaem and --escape")
    packer = Packer(words)
    edits = list(packer.edits(os.fsencode(words.folder), packer.directory(words.edits)))
    sys.stdout.buffer.write("".join(f"{edit}\n" for edit in edits).encode())
    return 0


def write_manifest(words: argparse.Namespace) -> int:
    """Writes the manifest of a folder, once it is tested."""
    if words.bootable or words.boot is not None:
        stop(USAGE, "a manifest has no boot blocks: --bootable and --boot go with --image")
    if words.kind is None or words.blocks is None or words.size is not None:
        stop(USAGE, "without --image the words are KIND, BLOCKS and FOLDER, and no --size")
    if not 0 <= words.blocks <= adf.MOST_PLAIN_BLOCKS:
        tried(head_of(words), words.kind)
    folder, names = os.fsencode(words.folder), building.Plan(words.kind)
    manifest = tried(itertools.chain(head_of(words), Packer(words).lines(folder, names)), words.kind)
    if words.kind not in adf.KINDS:
        refuse_twins(words.kind, names, folder)
    sys.stdout.buffer.write(manifest)
    return 0


def work(words: argparse.Namespace) -> int:
    if words.international:
        words.kind = by_letters(words.kind or DEFAULT_KIND, "international")
    if words.edits is not None:
        return write_edits(words)
    if words.image is not None:
        from adf_tools.packed_image import write_image

        return write_image(words)
    return write_manifest(words)


def main() -> None:
    line = command_line("adf-pack", "Writes a manifest of a folder on standard output, of which adf build makes a volume, or an image, or edits.")
    line.add_argument(
        "kind", metavar="KIND", nargs="?", choices=adf.TYPES,
        help="ofs, ffs, ofs-international or ffs-international; with --image it may be left out: ffs")
    line.add_argument(
        "blocks", metavar="BLOCKS", nargs="?", type=number, help="blocks of 512 bytes; a floppy of 880 KB has 1760; not with --size")
    line.add_argument("folder", metavar="FOLDER")
    line.add_argument("--image", metavar="FILE", help="write the image itself, into a new file")
    line.add_argument("--edits", metavar="PATH", help="write lines for adf-edit -f that put what is in FOLDER into the directory PATH of a disk")
    line.add_argument("--size", metavar="SIZE", type=blocks_in, help="the size of the image, as 880K or 100M; without it as small as may be")
    boot = line.add_mutually_exclusive_group()
    boot.add_argument("--bootable", action="store_true", help="with --image: write the standard boot blocks, which start AmigaDOS")
    boot.add_argument("--boot", metavar="FILE", help="with --image: write the boot blocks at the front of a file, 1,024 bytes, or of another disk")
    line.add_argument(
        "--international", action="store_true", help="ignore the case of accented letters in names too: the international kind of KIND")
    line.add_argument("--label", metavar="TEXT", help="the name of the volume")
    for option, what in (("--date", "the root"), ("--altered", "the last change of the volume"), ("--created", "its creation")):
        line.add_argument(option, metavar="DATE", type=date, default=NEVER, help=f"the date of {what}, as 2026-11-25 06:56:04.10")
    line.add_argument("--no-uaem", action="store_true", help="pack files NAME.uaem like other files")
    add_escape(line, "read names and the label")
    setattr(line, "parse_args", line.parse_intermixed_args)  # options may stand between words that may be left out
    begin(line, work)


if __name__ == "__main__":
    main()
