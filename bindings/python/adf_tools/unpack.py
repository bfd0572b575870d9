"""adf-unpack: copies the directories and files of an image into a new folder, with their dates (docs/adf-unpack.1). Of a damaged image
it copies what stands; with --damaged also what is left of its damaged files, under names of their own. A link becomes a symbolic link to
what it leads to, which is in the folder, or with --follow a copy of the file."""

from __future__ import annotations

import argparse
import contextlib
import errno
import itertools
import os
from typing import Dict, Iterable, Iterator, List, NamedTuple, Optional, Sequence, Set, Tuple

import adf
from adf._paths import Paths, Tree, is_long
from adf_tools import uaem
from adf_tools.given import Given, add_image, add_strict, given
from adf_tools.links import Way, left_out_with, ways_of
from adf_tools.names import ESCAPE, LETTERS, UAEM, Form, host_name
from adf_tools.program import (
    FAILED, REFUSED, USAGE, add_escape, begin, command_line, host_text, moved_error, new_file, new_folder, stop, tell, why)
from adf_tools.trees import Place, named

DAYS_TO_1978 = 2922
DAMAGED, GAPS, BESIDE = b".damaged", b".gaps", os.fsencode(uaem.ENDING)
LONGEST_PATH = 4095
MOST_TIMES = 16  # so often the bytes of the image what is left of damaged files may have, with zeros
OF_ALL = (errno.ENOSPC, errno.EDQUOT, errno.EROFS, errno.EIO, errno.ENOMEM, errno.EMFILE, errno.ENFILE)  # errors that each file would have


class Content(NamedTuple):
    """What is written into a file: its bytes at their places, with zeros between them, up to its size, and its date."""

    size: int
    parts: Iterable[Tuple[int, bytes]]
    date: Optional[adf.Date] = None


def content_of(entry: adf.Entry) -> Content:
    """The content of a file of a volume."""
    return Content(entry.size, ((at, entry.read(at, adf.PART)) for at in range(0, entry.size, adf.PART)), entry.date)


def text(line: bytes) -> Content:
    return Content(len(line), [(0, line)])


def runs(left: bytes, lost: Sequence[range]) -> Iterator[Tuple[int, bytes]]:
    """What is left of a file between its gaps."""
    at = 0
    for gap in (*lost, range(len(left), len(left))):
        yield at, left[at : gap.start]
        at = gap.stop


def times_of(date: adf.Date) -> Tuple[int, int]:
    """A date, read as UTC, as the host has it."""
    minutes = 1440 * (date.days + DAYS_TO_1978) + date.mins
    when = 60 * 10**9 * minutes + 20_000_000 * date.ticks
    return when, when


def set_date(fd: int, date: adf.Date) -> None:
    """Gives an open file or folder its date, if it is one."""
    if date.civil:
        os.utime(fd, ns=times_of(date))


class Additions(NamedTuple):
    """What is written beside the entries of a volume: its links, whether they are followed to files, and the files that are left out."""

    ways: Sequence[Way] = ()
    is_followed: bool = False
    damaged: Sequence[adf.Found] = ()


NOTHING_MORE = Additions()


class Unpacker:
    """Writes the tree of a volume into a folder, by the form of names, and whether files NAME.uaem are written. An error of the host
    costs one file, or one directory with what is in it; `failed` has all of them. `short` says, by their headers, what of the damaged files
    that are written is not, of the size that they state."""

    def __init__(self, volume: adf.Volume, form: Form, writes_uaem: bool, more: Additions = NOTHING_MORE) -> None:
        self.entries, self.form, self.endings = volume.entries, form, (b"", BESIDE) if writes_uaem else (b"",)
        self.is_followed = more.is_followed
        self.folder, self.paths, self.tree = b"", Paths(), Tree(self.step, volume._block_of)
        self.failed: List[OSError] = []
        self.short: Dict[int, str] = {}
        self.room = MOST_TIMES * len(volume.survey.image) if isinstance(volume, adf.Rescued) and more.damaged else 0
        self.inside = {number: list(each) for number, each in itertools.groupby(volume.entries, lambda entry: entry.parent)}
        self.ways: Dict[int, List[Way]] = {}
        for way in more.ways:
            if way.target is not None:
                self.ways.setdefault(way.directory, []).append(way)
        self.damaged: Dict[int, List[adf.Found]] = {}
        directories = directories_of(volume) if more.damaged else {}
        for found in more.damaged:
            self.damaged.setdefault(directories.get(found.parent, 0), []).append(found)

    def write(self, folder: str) -> None:
        """Writes all directories and files. A directory gets its date when all that is in it is written."""
        self.folder = os.fsencode(folder).rstrip(b"/")
        with Place(folder, is_link_followed=False) as place:
            self.write_beside(place, 0)
            waiting = [self.entries_in(0)]
            above: list[adf.Entry] = []
            while waiting:
                entry = next(waiting[-1], None)
                if entry:
                    if self.write_entry(place, entry):
                        self.write_beside(place, entry.number)
                        waiting.append(self.entries_in(entry.number))
                        above.append(entry)
                    continue
                waiting.pop()
                if above:
                    entry = above.pop()
                    with self.kept(entry.parent, self.host(entry)):
                        set_date(place.fd, entry.date)
                    place.go_out()

    def path_of(self, directory: int, name: bytes) -> bytes:
        """The path of what has this name in a directory; a long one is written from a block on, as all texts of paths."""
        return self.folder + b"/" + self.paths.text_in(self.tree, directory, name.decode("latin-1")).encode("latin-1")

    def step(self, number: int) -> Tuple[int, str]:
        """The number of the directory of an entry, and the bytes of its name on the host."""
        entry = self.entries[number - 1]
        return entry.parent, self.host(entry).decode("latin-1")

    @contextlib.contextmanager
    def kept(self, directory: int, name: bytes) -> Iterator[None]:
        """An error in here is kept as one of what has this name in a directory, unless all other files would have it too."""
        try:
            with named(lambda: self.path_of(directory, name)):
                yield
        except OSError as error:
            if error.errno in OF_ALL:
                raise
            self.failed.append(error)

    def entries_in(self, number: int) -> Iterator[adf.Entry]:
        """The entries of a directory."""
        return iter(self.inside.get(number, ()))

    def host(self, entry: adf.Entry) -> bytes:
        """The name of an entry on the host; those of a directory of a volume all differ."""
        return host_name(entry.raw_name, self.form, self.endings)

    def write_file(self, place: Place, directory: int, name: bytes, content: Content) -> None:
        """Writes a new file; nothing is left of one that cannot be written. It stays if its date is refused."""
        with place.create(name) as file:
            try:
                for at, part in content.parts:
                    file.seek(at)
                    file.write(part)
                file.truncate(content.size)
            except OSError:
                os.unlink(name, dir_fd=place.fd)
                raise
            if content.date:
                with self.kept(directory, name):
                    set_date(file.fileno(), content.date)

    def write_entry(self, place: Place, entry: adf.Entry) -> bool:
        """Writes a file or a directory, and beside it what the host has no room for. Goes into a directory, and says whether it did."""
        name = self.host(entry)
        with self.kept(entry.parent, name):
            if entry.is_file:
                self.write_file(place, entry.parent, name, content_of(entry))
            else:
                place.make(name)
            for beside in (name + ending for ending in self.endings[1:]):
                with self.kept(entry.parent, beside):
                    self.write_file(place, entry.parent, beside, text(uaem.line_of(entry)))
            if not entry.is_file:
                place.go_in(name)
                return True
        return False

    def write_beside(self, place: Place, number: int) -> None:
        """Writes the links of a directory, and what is left of its damaged files."""
        if number in self.ways or number in self.damaged:
            taken = {self.host(entry) + ending for entry in self.entries_in(number) for ending in self.endings}
            self.write_links(place, number, taken)
            self.write_damaged(place, number, taken)

    def write_links(self, place: Place, number: int, taken: Set[bytes]) -> None:
        """Writes the links of a directory: symbolic links to what they lead to, or copies of files."""
        for way in self.ways.get(number, ()):
            found, target = way.link.entry, way.target or 0
            name = host_name(found.raw_name, self.form, self.endings, taken, found.header)
            taken.update(name + ending for ending in self.endings)
            with self.kept(number, name):
                if self.is_followed and target and self.entries[target - 1].is_file:
                    self.write_copy(place, number, name, self.entries[target - 1])
                    continue
                place.link(name, self.path_between(number, target))
                if found.date.civil:
                    os.utime(name, ns=times_of(found.date), dir_fd=place.fd, follow_symlinks=False)

    def write_copy(self, place: Place, directory: int, name: bytes, entry: adf.Entry) -> None:
        """Writes the file that a link leads to in its place."""
        self.write_file(place, directory, name, content_of(entry))
        for beside in (name + ending for ending in self.endings[1:]):
            self.write_file(place, directory, beside, text(uaem.line_of(entry)))

    def path_between(self, directory: int, target: int) -> bytes:
        """The path on the host from a directory to an entry or the root, which leads up no further than both have in common. An error if it
        is longer than the host takes."""
        behind: List[bytes] = []
        ups, size = 0, 0
        while directory != target:
            if directory > target:  # an entry has a higher number than its directory
                directory, ups, size = self.entries[directory - 1].parent, ups + 1, size + len(b"../")
            else:
                behind.append(self.host(self.entries[target - 1]))
                target, size = self.entries[target - 1].parent, size + len(behind[-1]) + 1
            if size > LONGEST_PATH:
                raise OSError(errno.ENAMETOOLONG, os.strerror(errno.ENAMETOOLONG))
        return b"/".join([b".."] * ups + behind[::-1]) or b"."

    def write_damaged(self, place: Place, number: int, taken: Set[bytes]) -> None:
        """Writes what is left of the damaged files of a directory, with zeros for what is lost up to the last block that is the file's own,
        and beside it a line for each gap."""
        for found in self.damaged.get(number, ()):
            try:
                left, lost = found.remains() if self.room >= 0 else (b"", [])
            except adf.NotAFile:  # a link
                continue
            self.room -= len(left)
            if self.room < 0:
                self.short[found.header] = "not written, since all damaged files together have too many bytes"
                continue
            if len(left) < found.size:
                self.short[found.header] = f"{len(left)} of {found.size} bytes are written"
            name = host_name(found.raw_name, self.form, (DAMAGED, GAPS), taken, found.header)
            lines = b"".join(b"bytes %d to %d: no data\n" % (gap.start, gap.stop - 1) for gap in lost)
            contents = ((DAMAGED, Content(len(left), runs(left, lost), found.date)), (GAPS, text(lines)))
            for path, content in ((name + ending, content) for ending, content in contents):
                taken.add(path)
                with self.kept(number, path):
                    self.write_file(place, number, path, content)


def directories_of(volume: adf.Volume) -> Dict[int, int]:
    """The numbers in a volume of the directories that are found, by their numbers there; of one that it lacks that of the next one above."""
    numbers: Dict[int, int] = {}
    if not isinstance(volume, adf.Rescued):
        return numbers
    for found in volume.survey.entries:
        if not found.is_file:
            kept = volume.entry_of(found)
            numbers[found.number] = kept.number if kept else numbers.get(found.parent, 0)
    return numbers


def damaged_files(volume: adf.Volume) -> List[adf.Found]:
    """The files of an image that are left out of the volume of what stands; links are among them."""
    if not isinstance(volume, adf.Rescued):
        return []
    return [found for found in volume.survey.entries if found.is_file and not volume.entry_of(found)]


@contextlib.contextmanager
def boot_file(path: Optional[str], image: Given) -> Iterator[None]:
    """Writes the boot blocks of an image, damaged or not, into a new file, if one is named. It gets its name after all else is done."""
    if path is None:
        yield
        return
    try:
        boot = adf.Boot.of(image.content)
    except adf.BadBoot as error:
        stop(REFUSED, image.line(f"{error}: it has no boot blocks"))
    with new_file(path) as fd:
        with open(fd, "wb", closefd=False) as file:
            file.write(boot.raw)
        yield


def line_of(error: OSError, folder: str) -> str:
    """The line of an error in a folder. No name that is written there has a `\\` with `block` behind it."""
    top, path = os.fsencode(folder).rstrip(b"/") + b"/", os.fsencode(error.filename or b"")
    front, _, names = path[len(top) :].partition(b"/")
    if not path.startswith(top) or not is_long(front.decode("latin-1")):
        return why(error)[1]
    return f"{host_text(top)}{front.decode('ascii')}/{host_text(names)}: {error.strerror or error}"


def work(words: argparse.Namespace) -> int:
    image = given(words)
    volume = image.volume(words.strict)
    if words.boot is not None and os.path.abspath(words.boot) == os.path.abspath(words.folder):
        stop(USAGE, f"{host_text(words.folder)}: FOLDER and the FILE of --boot are the same")
    form = ESCAPE if words.escape else UAEM if words.uaem else LETTERS
    ways = ways_of(volume)
    unpacker = Unpacker(volume, form, words.uaem, Additions(ways, words.follow, damaged_files(volume) if words.damaged else ()))
    with boot_file(words.boot, image), new_folder(words.folder) as folder:
        unpacker.write(folder)
    status = image.tell_lines("adf-unpack", left_out_with(volume, ways, unpacker.short))
    for error in unpacker.failed:
        tell("adf-unpack", line_of(moved_error(error, folder, words.folder), words.folder))
    is_refused = all(error.errno == errno.ENAMETOOLONG for error in unpacker.failed)
    return status if not unpacker.failed else REFUSED if is_refused else FAILED


def main() -> None:
    line = command_line("adf-unpack", "Copies the directories and files of an image into a new folder; of a damaged image, what stands.")
    add_image(line)
    line.add_argument("folder", metavar="FOLDER", help="the new folder, which must not exist")
    add_strict(line)
    line.add_argument("--damaged", action="store_true", help="write what is left of a damaged file as NAME.damaged, and its gaps as NAME.gaps")
    line.add_argument("--follow", action="store_true", help="write a copy of the file that a link leads to in its place")
    line.add_argument("--boot", metavar="FILE", help="write the boot blocks, 1,024 bytes, into a new file too")
    add_escape(line, "write names")
    line.add_argument("--uaem", action="store_true", help="keep protection, date and comment in files NAME.uaem, for FS-UAE and WinUAE")
    begin(line, work)


if __name__ == "__main__":
    main()
