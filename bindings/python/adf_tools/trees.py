"""Trees of folders of any depth, which are gone through by file descriptors: at most two are open, and no path is longer than a name."""

from __future__ import annotations

import contextlib
import errno
import os
from typing import BinaryIO, Callable, Iterator, Optional, Tuple, Union

FOLDER = os.O_RDONLY | os.O_DIRECTORY | os.O_CLOEXEC
FILE = os.O_RDONLY | os.O_NOFOLLOW | os.O_NONBLOCK | os.O_NOCTTY | os.O_CLOEXEC
NEW_FILE = os.O_WRONLY | os.O_CREAT | os.O_EXCL | os.O_NOFOLLOW | os.O_CLOEXEC
NO_ATTRIBUTE = (errno.ENODATA, errno.ENOTSUP) if hasattr(errno, "ENODATA") else (errno.ENOTSUP,)
Identity = Tuple[int, int]


@contextlib.contextmanager
def named(path: Union[str, bytes, Callable[[], bytes]]) -> Iterator[None]:
    """Errors of files in here are those of the file with this path, which may be made for an error alone."""
    try:
        yield
    except OSError as error:
        error.filename = path() if callable(path) else path
        raise


def identity(folder: int | str | bytes) -> Identity:
    """What a folder is known by, however it is reached: its device and inode."""
    found = os.stat(folder)
    return found.st_dev, found.st_ino


class Place:
    """A place in a tree, which goes into a folder and out again: `fd` is the descriptor of the folder where it is. A link is followed
    to the top alone, and there if that is wanted."""

    def __init__(self, path: str | bytes, is_link_followed: bool = True) -> None:
        top = os.fsencode(path).rstrip(b"/")
        self.fd = os.open(path, FOLDER) if is_link_followed else os.open(top or b"/", FOLDER | os.O_NOFOLLOW)
        self._names = [top]
        self._above: list[Identity] = []

    def __enter__(self) -> Place:
        return self

    def __exit__(self, *_error: object) -> None:
        os.close(self.fd)

    @property
    def path(self) -> bytes:
        """The path of the folder; it may be longer than the system takes."""
        return b"/".join(self._names) or b"/"

    def path_of(self, name: bytes) -> bytes:
        """The path of what has this name here."""
        return b"/".join((*self._names, name))

    def names(self) -> list[bytes]:
        """The names of all that is here."""
        with named(lambda: self.path):
            return list(map(os.fsencode, os.listdir(self.fd)))

    def status(self, name: bytes) -> os.stat_result:
        """What the system says of a name here; a link is not followed."""
        with named(lambda: self.path_of(name)):
            return os.stat(name, dir_fd=self.fd, follow_symlinks=False)

    def open(self, name: bytes) -> BinaryIO:
        """A file here, to be read. A link is not followed, and a pipe not waited for."""
        with named(lambda: self.path_of(name)):
            return os.fdopen(os.open(name, FILE, dir_fd=self.fd), "rb")

    def attribute(self, name: bytes, attribute: str) -> Optional[bytes]:
        """An extended attribute of a file or folder here, if it has that; a link is not followed."""
        if not hasattr(os, "getxattr"):
            return None
        with named(lambda: self.path_of(name)):
            fd = os.open(name, FILE, dir_fd=self.fd)
            try:
                return os.getxattr(fd, attribute)
            except OSError as error:
                if error.errno in NO_ATTRIBUTE:
                    return None
                raise
            finally:
                os.close(fd)

    def create(self, name: bytes) -> BinaryIO:
        """A new file here, to be written."""
        with named(lambda: self.path_of(name)):
            return os.fdopen(os.open(name, NEW_FILE, 0o666, dir_fd=self.fd), "wb")

    def link(self, name: bytes, target: bytes) -> None:
        """A new symbolic link here."""
        with named(lambda: self.path_of(name)):
            os.symlink(target, name, dir_fd=self.fd)

    def make(self, name: bytes) -> None:
        """Makes a new folder here."""
        with named(lambda: self.path_of(name)):
            os.mkdir(name, dir_fd=self.fd)

    def go_in(self, name: bytes) -> None:
        """Goes into the folder with this name."""
        with named(lambda: self.path_of(name)):
            inner = os.open(name, FOLDER | os.O_NOFOLLOW, dir_fd=self.fd)
        self._above.append(identity(self.fd))
        self._names.append(name)
        self._be_in(inner)

    def go_out(self) -> bytes:
        """Goes out of the folder, to where it was gone in, and gives its name. A folder that was moved in the meantime is an error."""
        with named(lambda: self.path):
            self._be_in(os.open("..", FOLDER, dir_fd=self.fd))
            if identity(self.fd) != self._above.pop():
                raise OSError(errno.ESTALE, "The folder was moved")
        return self._names.pop()

    def _be_in(self, fd: int) -> None:
        os.close(self.fd)
        self.fd = fd


def remove(path: str | bytes) -> None:
    """Removes a folder and all that is in it. Links are not followed, and one at the top is an error."""
    with Place(path, is_link_followed=False) as place:
        waiting = [place.names()]
        while waiting:
            if not waiting[-1]:
                waiting.pop()
                if waiting:
                    os.rmdir(place.go_out(), dir_fd=place.fd)
                continue
            name = waiting[-1].pop()
            try:
                os.unlink(name, dir_fd=place.fd)
            except IsADirectoryError:
                place.go_in(name)
                waiting.append(place.names())
    os.rmdir(path)
