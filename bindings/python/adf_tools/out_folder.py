"""The folder of a catalogue. What is written there is reached by descriptors: it stays below the folder, and no link is followed.

A file is written whole in a working folder inside, and then takes its place. The database names all that the catalogue has written: what
it does not name belongs to others, and is neither written over nor removed.
"""

from __future__ import annotations

import contextlib
import errno
import os
import re
import secrets
import sqlite3
import stat
from typing import BinaryIO, Iterable, Iterator, List, Set, Tuple

from adf_tools.advice import GROUPS
from adf_tools.database import transaction
from adf_tools.program import FAILED, WORKING, host_text, stop, uninterrupted
from adf_tools.trees import Identity, named

FOLDER = os.O_RDONLY | os.O_DIRECTORY | os.O_NOFOLLOW | os.O_CLOEXEC
FILE = os.O_RDONLY | os.O_NOFOLLOW | os.O_NONBLOCK | os.O_NOCTTY | os.O_CLOEXEC
NEW_FILE = os.O_WRONLY | os.O_CREAT | os.O_EXCL | os.O_NOFOLLOW | os.O_CLOEXEC
PAGES, PARTS = "images", "search"  # the folders inside
IMAGES, ENTRIES, TWICE = "images.tsv", "entries.tsv", "twice.html"
LISTS = "|".join([*(group.name.replace(" ", "-") for group in GROUPS[1:]), "known", "differs", "unknown"])
PAGE_NAME = re.compile(rf"{PAGES}/[a-z0-9-]*-[0-9a-f]{{16}}\.(html|adf)")
PART_NAME = re.compile(rf"{PARTS}/([a-z0-9_]{{3,20}}|i-[0-9]{{1,12}})\.js")
LIST_NAME = re.compile(rf"(index|list-({LISTS}))(-[0-9]+)?\.html")
WORKING_NAME = re.compile(rf"{re.escape(WORKING)}[0-9a-f]{{32}}/")
MANY = 250  # names for which the folders inside are listed
OTHER_NAMES = (f"{PAGES}/", f"{PARTS}/", IMAGES, ENTRIES, TWICE)
OWN_NAME = re.compile("|".join(f"(?:{pattern.pattern})" for pattern in (PAGE_NAME, PART_NAME, LIST_NAME, WORKING_NAME)))


def new_name() -> str:
    """A name that nothing has."""
    return secrets.token_hex(16)


def is_own(name: object) -> bool:
    """Whether a catalogue can have written what has this name, which may be anything."""
    return isinstance(name, str) and (name in OTHER_NAMES or OWN_NAME.fullmatch(name) is not None)


def emptied(folder: int) -> None:
    """Removes the files in a folder, in which there are no folders."""
    for name in os.listdir(folder):
        with contextlib.suppress(OSError):
            os.unlink(name, dir_fd=folder)


class OutFolder:
    """A folder by its descriptor, with the path that it is told by. Processes that begin later have its descriptors too."""

    def __init__(self, path: str, fd: int) -> None:
        self.path, self.fd, self.work = path, fd, -1

    def path_of(self, name: str) -> str:
        return os.path.join(self.path, name)

    @property
    def identity(self) -> Identity:
        found = os.fstat(self.fd)
        return found.st_dev, found.st_ino

    @contextlib.contextmanager
    def above(self, name: str) -> Iterator[Tuple[int, str]]:
        """The descriptor of the folder that a name is in, which is this one or one inside, and what it is called there."""
        folder, _, last = name.rpartition("/")
        if folder not in ("", PAGES, PARTS):
            raise ValueError(name)
        with named(self.path_of(name)):
            if not folder:
                yield self.fd, last
                return
            inner = os.open(folder, FOLDER, dir_fd=self.fd)
            try:
                yield inner, last
            finally:
                os.close(inner)

    def status(self, name: str) -> os.stat_result | None:
        """What the system says of a name, if it is there; a link is not followed."""
        with contextlib.suppress(FileNotFoundError), self.above(name) as (folder, last):
            return os.stat(last, dir_fd=folder, follow_symlinks=False)
        return None

    def names(self, folder: str) -> List[str]:
        """The names of all in a folder inside."""
        with self.above(f"{folder}/") as (inner, _):
            return os.listdir(inner)

    def make(self, folder: str) -> None:
        """Makes a folder inside, if it is not there. A link is no folder."""
        with named(self.path_of(folder)):
            with contextlib.suppress(FileExistsError):
                os.mkdir(folder, dir_fd=self.fd)
            os.close(os.open(folder, FOLDER, dir_fd=self.fd))

    def has(self, name: str, content: bytes) -> bool:
        """Whether a file is there with these bytes."""
        with contextlib.suppress(OSError), self.above(name) as (folder, last):
            with open(os.open(last, FILE, dir_fd=folder), "rb") as file:
                found = os.fstat(file.fileno())
                return stat.S_ISREG(found.st_mode) and found.st_size == len(content) and file.read() == content
        return False

    @contextlib.contextmanager
    def new_file(self, name: str) -> Iterator[BinaryIO]:
        """A file that takes this name when all is written, and is removed if something fails."""
        passing = new_name()
        with named(self.path_of(name)):
            fd = os.open(passing, NEW_FILE, 0o666, dir_fd=self.work)
        try:
            with named(self.path_of(name)), open(fd, "wb") as file:
                yield file
            self.move(passing, name)
        except BaseException:
            with contextlib.suppress(OSError):
                os.unlink(passing, dir_fd=self.work)
            raise

    def move(self, passing: str, name: str) -> None:
        """Gives a file of the working folder its place."""
        with self.above(name) as (folder, last):
            os.replace(passing, last, src_dir_fd=self.work, dst_dir_fd=folder)

    def write(self, name: str, content: bytes) -> None:
        """Writes a file whole, and not at all if it is there with the same bytes."""
        if not self.has(name, content):
            with self.new_file(name) as file:
                file.write(content)

    def remove(self, name: str) -> None:
        """Removes a file, if it is there and is one."""
        found = self.status(name)
        if found is not None and stat.S_ISREG(found.st_mode):
            with self.above(name) as (folder, last), contextlib.suppress(FileNotFoundError):
                os.unlink(last, dir_fd=folder)

    def remove_any(self, name: str) -> None:
        """Removes a file, or a folder, whose name ends with `/`."""
        if name.endswith("/"):
            self.remove_folder(name[:-1])
        else:
            self.remove(name)

    def remove_folder(self, folder: str) -> None:
        """Removes a working folder, or one that is empty; a link is left alone, and what has files of others."""
        try:
            inner = os.open(folder, FOLDER, dir_fd=self.fd)
        except OSError:
            return
        try:
            if folder.startswith(WORKING):
                emptied(inner)
        finally:
            os.close(inner)
        with contextlib.suppress(OSError):
            os.rmdir(folder, dir_fd=self.fd)


class OwnNames:
    """The names of what a catalogue has written in its folder, which its database keeps. Those of folders end with `/`."""

    def __init__(self, connection: sqlite3.Connection, out: OutFolder) -> None:
        self.connection, self.out = connection, out
        self.names: Set[str] = {row[0] for row in connection.execute("SELECT name FROM written") if is_own(row[0])}

    def note(self, names: Iterable[str]) -> None:
        """Notes what is to be written. Nothing may have such a name that is not noted."""
        new = [name for name in names if name not in self.names]
        for name in new if len(new) < MANY else self.perhaps_there(new):
            if self.out.status(name.rstrip("/")) is not None:
                stop(FAILED, f"{host_text(self.out.path_of(name.rstrip('/')))}: {os.strerror(errno.EEXIST)}, and it is not of this catalogue")
        if new:
            with transaction(self.connection):
                self.connection.executemany("INSERT OR IGNORE INTO written VALUES (?)", [(name,) for name in new])
            self.names.update(new)

    def perhaps_there(self, names: Iterable[str]) -> Iterator[str]:
        """These names without those of files that are not in the folders inside, which costs less than to ask for each."""
        there = {f"{folder}/{name}" for folder in (PAGES, PARTS) for name in self.out.names(folder)}
        return (name for name in names if name in there or name.endswith("/") or not name.startswith((f"{PAGES}/", f"{PARTS}/")))

    def take(self, names: Iterable[str]) -> None:
        """Notes what an earlier version has written, whose database does not name it."""
        there = [(name,) for name in names if self.out.status(name.rstrip("/")) is not None]
        with transaction(self.connection):
            self.connection.executemany("INSERT OR IGNORE INTO written VALUES (?)", there)
        self.names.update(name for name, in there)

    def make(self, *folders: str) -> None:
        """Makes folders, which are noted."""
        self.note(f"{folder}/" for folder in folders)
        for folder in folders:
            self.out.make(folder)

    def write(self, name: str, content: bytes) -> None:
        """Writes a file, which is noted."""
        self.note([name])
        self.out.write(name, content)

    def remove(self, names: Iterable[str]) -> None:
        """Removes what is noted of these names, and forgets it."""
        old = [name for name in names if name in self.names]
        for name in old:
            self.out.remove_any(name)
        if old:
            with transaction(self.connection):
                self.connection.executemany("DELETE FROM written WHERE name = ?", [(name,) for name in old])
            self.names.difference_update(old)

    @contextlib.contextmanager
    def working(self) -> Iterator[None]:
        """The folder has a working folder inside, which is removed at the end, and with it those of runs that were killed."""
        self.remove([name for name in self.names if name.startswith(WORKING)])
        name = WORKING + new_name()
        self.note([f"{name}/"])
        try:
            with named(self.out.path), uninterrupted():
                os.mkdir(name, 0o700, dir_fd=self.out.fd)
                self.out.work = os.open(name, FOLDER, dir_fd=self.out.fd)
            yield
        finally:
            with uninterrupted():
                if self.out.work >= 0:
                    os.close(self.out.work)
                    self.out.work = -1
                self.remove([f"{name}/"])
