"""The images of a collection: files below a folder, as they are or in archives (adf_tools/archives.py)."""

from __future__ import annotations

import os
import stat
import sys
from collections import Counter
from typing import BinaryIO, Callable, Container, Iterable, Iterator

from adf_tools.archives import (
    DMS, ENDINGS, FAULTS, GZIP, IMAGES, NO_FILE, Budget, Image, begins_as_volume, fault_of, form_named, images_in_archive, is_image, members_of,
    unforeseen, unread)
from adf_tools.content import content_in
from adf_tools.names import host_letters
from adf_tools.program import WORKING
from adf_tools.trees import Identity

__all__ = ["ARCHIVES", "Image", "fault_of", "files_below", "files_named", "images_in", "is_below", "kind_of", "kinds_passed", "opened", "unforeseen", "unread"]
ARCHIVES = tuple(ending for endings in ENDINGS.values() for ending in endings)
LONGEST_KIND, NO_KIND, LINK = 16, "no ending", "link to a folder"
FILE = os.O_RDONLY | os.O_NONBLOCK | os.O_NOCTTY | os.O_CLOEXEC


def is_candidate(path: bytes) -> bool:
    """Whether a file can have images, by the end of its name, or begins as a volume does."""
    if path.lower().endswith((*IMAGES, *ARCHIVES)):
        return True
    try:
        with opened(path) as file:
            return begins_as_volume(file)
    except OSError:
        return False


def opened(path: bytes) -> BinaryIO:
    """A file to be read. What is no file is an error, and no pipe is waited for."""
    if not stat.S_ISREG(os.stat(path).st_mode):  # a device may do something if it is opened
        raise OSError(NO_FILE)
    file = open(os.open(path, FILE), "rb")
    if not stat.S_ISREG(os.fstat(file.fileno()).st_mode):
        file.close()
        raise OSError(NO_FILE)
    return file


def is_folder(entry: os.DirEntry[bytes]) -> bool:
    try:
        return entry.is_dir()
    except OSError:
        return False


def is_left_out(entry: os.DirEntry[bytes], left_out: Container[Identity]) -> bool:
    """Whether a folder is not gone into: it is a link, or left out, or what a run of adf-catalogue is making."""
    if entry.is_symlink() or entry.name.startswith(os.fsencode(WORKING)):
        return True
    try:
        found = entry.stat(follow_symlinks=False)
        return (found.st_dev, found.st_ino) in left_out
    except OSError:
        return False


def passed_by(_path: bytes, _kind: str) -> None:
    """What is no image is not told."""


def every(_path: bytes) -> bool:
    """All files are wanted."""
    return True


def files_below(
    folder: bytes, left_out: Container[Identity] = (), note: Callable[[bytes, str], None] = passed_by, wants: Callable[[bytes], bool] = every
) -> list[bytes]:
    """The paths of all files below a folder that can have images, and of folders that cannot be read, by their bytes. Of all others the path
    and the kind are noted. Of what is not wanted only the names are read."""
    found: list[bytes] = []
    waiting = [folder]
    while waiting:
        path = waiting.pop()
        try:
            with os.scandir(path) as entries:
                inside = [entry for entry in entries if wants(entry.path) or is_folder(entry)]
            for entry in inside:
                if is_folder(entry):
                    if not entry.is_symlink():
                        if not is_left_out(entry, left_out):
                            waiting.append(entry.path)
                    elif wants(entry.path):
                        note(entry.path, LINK)
                elif is_candidate(entry.path):
                    found.append(entry.path)
                else:
                    note(entry.path, kind_of(entry.name))
        except OSError:
            if wants(path):
                found.append(path)
    return sorted(found)


def is_below(path: bytes, folder: bytes) -> bool:
    """Whether a path leads below a folder, by its words."""
    begin = os.path.join(folder, b"")
    return path.startswith(begin) and not {b"", b".", b".."} & set(path[len(begin) :].split(b"/"))


def files_named(
    names: Iterable[bytes], note: Callable[[bytes, str], None] = passed_by, wants: Callable[[bytes], bool] = every
) -> list[bytes]:
    """Of these paths those of files that can have images, each once; of all others but folders the path and the kind are noted."""
    found: list[bytes] = []
    for path in sorted(set(filter(wants, names))):
        if os.path.isdir(path):
            if os.path.islink(path):
                note(path, LINK)
        elif is_candidate(path):
            found.append(path)
        else:
            note(path, kind_of(os.path.basename(path)))
    return found


def kind_of(name: bytes) -> str:
    """What a file is by the end of its name, in small letters."""
    ending = os.path.splitext(name)[1].lower()
    return host_letters(ending) if 1 < len(ending) <= LONGEST_KIND else NO_KIND


def kinds_passed(path: bytes, has_image: bool) -> Counter[str]:
    """How many files of each kind an archive has that are no images; a packed file that has none is one of its own kind."""
    form = form_named(path)
    if form in (GZIP, DMS):
        return Counter() if has_image else Counter([kind_of(path)])
    kinds: Counter[str] = Counter()
    if form:
        try:
            with opened(path) as file:
                members = Budget().each(members_of(file, form))
                kinds.update(kind_of(member.name.rpartition(b"/")[2]) for member in members if not is_image(member))
        except Exception as error:  # which is told of the file
            if sys.flags.dev_mode and not isinstance(error, FAULTS):
                raise
    return kinds


def images_in(path: bytes, name: bytes) -> Iterator[Image]:
    """The images in a file of this name, one after the other."""
    form = form_named(path)
    try:
        if os.path.isdir(path):
            os.listdir(path)
        with opened(path) as file:
            size = os.fstat(file.fileno()).st_size
            if form:
                yield from images_in_archive(file, name, form)
            else:
                yield Image(name, 0, content_in(file, size), size, "")
    except Exception as error:
        if sys.flags.dev_mode and not isinstance(error, FAULTS):
            raise
        yield unread(name, fault_of(error))
