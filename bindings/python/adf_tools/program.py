"""What the programs share: their command lines, their ends, new folders, and the texts of manifests."""

from __future__ import annotations

import argparse
import contextlib
import errno
import os
import re
import signal
import stat
import sys
import time
from typing import Any, BinaryIO, Callable, Iterable, Iterator, NoReturn

from adf_tools import trees
from adf_tools.names import host_letters, one_line

MOST_MANIFEST_BYTES = 16_777_216
FILL = re.compile(rb"(.)\1{63,}", re.DOTALL)
FEWEST, DATA = 64, 32  # so many equal bytes are a line `fill`, and so many others at most a line `data`
REFUSED, NOT_FOUND, USAGE, FAILED = 1, 1, 2, 3
WORKING = ".adf-"  # the names of folders that are being made begin so
INTERRUPTS = (signal.SIGINT, signal.SIGTERM)


class Stop(Exception):
    """What cannot be done: the status to end with, and why."""

    def __init__(self, status: int, text: str) -> None:
        super().__init__(status, text)
        self.status, self.text = status, text


def stop(status: int, text: str) -> NoReturn:
    raise Stop(status, text)


class CommandLine(argparse.ArgumentParser):
    """A command line whose errors are one line, whatever the words have."""

    def error(self, message: str) -> NoReturn:
        super().error(one_line(message))


class Version(argparse.Action):
    """Writes the version, which is that of the module adf: that is loaded where it is asked for."""

    def __call__(self, parser: argparse.ArgumentParser, namespace: argparse.Namespace, values: Any, option_string: str | None = None) -> NoReturn:
        import adf

        print(f"{parser.prog} {adf.__version__}")
        parser.exit()


def command_line(program: str, does: str, more: str | None = None) -> argparse.ArgumentParser:
    """The command line of a program, to which its words are to be added. Wrong words end it with the usage, at status 2."""
    line = CommandLine(prog=program, description=does, epilog=more, allow_abbrev=False)
    told = "show program's version number and exit"
    line.add_argument("--version", action=Version, nargs=0, dest=argparse.SUPPRESS, default=argparse.SUPPRESS, help=told)
    return line


def tell(program: str, text: str) -> None:
    """Writes a line to standard error, if that takes it."""
    with contextlib.suppress(OSError):
        print(f"{program}: {one_line(text)}", file=sys.stderr, flush=True)


def open_input(path: str) -> BinaryIO:
    """A file that the words name, to be read. A pipe with a name is refused, since nobody may ever write to it."""
    file = open(path, "rb", opener=lambda name, flags: os.open(name, flags | os.O_NONBLOCK | os.O_NOCTTY | os.O_CLOEXEC))
    place = os.path.realpath(path)
    if stat.S_ISFIFO(os.fstat(file.fileno()).st_mode) and os.path.exists(place) and not place.startswith("/dev/"):
        file.close()
        stop(FAILED, f"{host_text(path)}: a pipe: give it as standard input")
    os.set_blocking(file.fileno(), True)
    return file


def add_escape(line: argparse.ArgumentParser, what: str) -> None:
    """Adds the option that wants the escape form in place of letters."""
    line.add_argument("--escape", action="store_true", help=f"{what} in the escape form: \\x and two digits for bytes outside 32 to 126")


def of_library(name: str) -> Any:
    """A kind of errors of the module adf, for isinstance; if that is not loaded, it has raised none."""
    return getattr(sys.modules.get("adf"), name, ())


def why(error: BaseException) -> tuple[int, str]:
    """The status that a program ends with for an error, and what it says; an empty text if nobody reads on."""
    if isinstance(error, Stop):
        return error.status, error.text
    if isinstance(error, of_library("Refused")):
        return REFUSED, str(error)
    if isinstance(error, BrokenPipeError):
        return FAILED, ""
    if isinstance(error, KeyboardInterrupt):
        return FAILED, "interrupted"
    if isinstance(error, MemoryError):
        return FAILED, str(error) or "no memory"
    if isinstance(error, OSError):
        output = "standard output: " if error.errno == errno.EBADF else ""
        name = output if error.filename is None else host_text(error.filename) + ": "
        return FAILED, name + (error.strerror or str(error))
    if isinstance(error, ImportError):
        return FAILED, str(error)
    return FAILED, f"an error that nobody foresaw: {type(error).__name__}: {error}".replace("\n", " ")


def fill_streams() -> None:
    """Puts streams in the place of standard ones that are closed, so that no file is opened as one: the input cannot be read, the output
    cannot be written, and errors are lost."""
    for number, name, access in ((0, "stdin", os.O_WRONLY), (1, "stdout", os.O_RDONLY), (2, "stderr", os.O_WRONLY)):
        if getattr(sys, name) is None:
            setattr(sys, name, open(os.open(os.devnull, access), "w" if number else "r", closefd=False))


def status_of(line: argparse.ArgumentParser, work: Callable[[argparse.Namespace], int]) -> int:
    """Does the work that the words ask for, or answers for help and version; the status."""
    try:
        return work(line.parse_intermixed_args())
    except SystemExit as end:  # of the command line
        return int(end.code or 0)


def begin(line: argparse.ArgumentParser, work: Callable[[argparse.Namespace], int], failed: int = FAILED) -> NoReturn:
    """Runs a program: does the work that the words ask for, and ends with the status that it returns, or that of what failed. An error is
    one line, and what waits for standard output is not written then; PYTHONDEVMODE=1 shows where an error comes from that nobody foresaw."""
    heard = [number for number in INTERRUPTS if signal.getsignal(number) != signal.SIG_IGN]
    try:
        for number in heard:
            signal.signal(number, signal.default_int_handler)
        fill_streams()
        status = status_of(line, work)
        sys.stdout.flush()
        for number in heard:
            signal.signal(number, signal.SIG_DFL)
    except BaseException as error:
        status, text = why(error)
        if sys.flags.dev_mode and not isinstance(error, (of_library("Error"), Stop, OSError, MemoryError, KeyboardInterrupt)):
            raise
        if text:
            tell(line.prog.split()[0], text)
        os._exit(failed if status == FAILED else status)
    sys.exit(status)


class Progress:
    """How far long work is: a line on standard error that is written over, where that is a terminal."""

    def __init__(self, whole: int, what: str) -> None:
        self.whole, self.what, self.done, self.begun, self.shown = whole, what, 0, time.monotonic(), 0.0

    def step(self, count: int = 1) -> None:
        self.done += count
        now = time.monotonic()
        if sys.stderr.isatty() and (now - self.shown > 0.1 or self.done == self.whole):
            self.shown, rate = now, self.done / max(now - self.begun, 0.001)
            left = (self.whole - self.done) / rate
            self.write(f"{self.done} of {self.whole} {self.what}, {rate:.0f} a second, {left:.0f} s left")

    def close(self) -> None:
        if self.shown:
            self.write("")

    @staticmethod
    def write(text: str) -> None:
        print(f"\r\x1b[K{text}", end="", file=sys.stderr, flush=True)


@contextlib.contextmanager
def uninterrupted() -> Iterator[None]:
    """What interrupts the program waits until this is done."""
    before = signal.pthread_sigmask(signal.SIG_BLOCK, INTERRUPTS)
    try:
        yield
    finally:
        signal.pthread_sigmask(signal.SIG_SETMASK, before)


@contextlib.contextmanager
def working_folder(above: str, path: str) -> Iterator[str]:
    """A folder in the one above, which is removed at the end; that it cannot be made is told of this path."""
    import tempfile

    folder = ""
    try:
        with trees.named(path), uninterrupted():
            folder = tempfile.mkdtemp(prefix=WORKING, dir=above)
        yield folder
    finally:
        if folder:
            with uninterrupted():
                trees.remove(folder)


@contextlib.contextmanager
def new_folder(path: str) -> Iterator[str]:
    """A folder that takes this path when all is written in it, and is removed if something fails."""
    path = path.rstrip("/") or path
    with trees.named(path):
        if os.path.lexists(path):
            raise FileExistsError(errno.EEXIST, os.strerror(errno.EEXIST))
    with working_folder(os.path.dirname(path) or ".", path) as beside:
        folder = os.path.join(beside, "whole")
        with trees.named(path):
            os.mkdir(folder)
        with moved(folder, path):
            yield folder
        with trees.named(path):
            os.rename(folder, path)


@contextlib.contextmanager
def new_file(path: str) -> Iterator[int]:
    """A file that takes this path when all is written in it, and is removed if something fails."""
    with trees.named(path):
        if os.path.lexists(path):
            raise FileExistsError(errno.EEXIST, os.strerror(errno.EEXIST))
    with working_folder(os.path.dirname(path) or ".", path) as beside:
        whole = os.path.join(beside, "whole")
        with moved(whole, path):
            fd = os.open(whole, os.O_RDWR | os.O_CREAT | os.O_EXCL | os.O_CLOEXEC, 0o666)
            try:
                yield fd
            finally:
                os.close(fd)
        with trees.named(path):
            os.rename(whole, path)


def moved_error(error: OSError, folder: str, path: str) -> OSError:
    """An error of a file in a folder as if this had another path already; so is one of no file, such as that no space is left."""
    name = folder if error.filename is None else os.fsdecode(error.filename)
    if name == folder or name.startswith(folder + "/"):
        error.filename = path.rstrip("/") + name[len(folder) :]
    return error


@contextlib.contextmanager
def moved(folder: str, path: str) -> Iterator[None]:
    """Errors of files in a folder are told as if it had this path already."""
    try:
        yield
    except OSError as error:
        raise moved_error(error, folder, path)


def host_text(name: str | bytes | os.PathLike[str]) -> str:
    """A name of the host as a text that can be printed."""
    return host_letters(os.fsencode(name))


def run_lines(parts: Iterable[bytes]) -> Iterator[str]:
    """The lines of a file's bytes, which come in parts: `fill` for 64 or more that are equal, else `data` of at most 32."""
    left, more = b"", 0  # bytes that have no line yet, and how many more there are of the run with which they begin
    for part in parts:
        left += part
        cut = certain(left)
        yield from lines_of(left[:cut], more)
        left, more = left[cut:], 0 if cut else more
        if left and left.count(left[:1]) == len(left) > FEWEST:
            left, more = left[:FEWEST], more + len(left) - FEWEST
    yield from lines_of(left, more)


def certain(content: bytes) -> int:
    """How many bytes at the front have lines that do not depend on what follows."""
    last = len(content.rstrip(content[-1:]))  # where the last run begins, which may go on
    if len(content) - last >= FEWEST:
        return last
    at = 0
    for fill in FILL.finditer(content, 0, last):
        at = fill.end()
    return last - (last - at) % DATA


def lines_of(content: bytes, more: int) -> Iterator[str]:
    """The lines of bytes; the run at the front has so many more."""
    at = 0
    for fill in [*FILL.finditer(content), None]:
        end = fill.start() if fill else len(content)
        yield from (f"data {content[i : min(i + DATA, end)].hex()}" for i in range(at, end, DATA))
        if fill:
            yield f"fill {len(fill[0]) + (0 if fill.start() else more)} {fill[1].hex()}"
            at = fill.end()


def manifest_of(lines: Iterable[str]) -> bytes:
    """The bytes of a manifest; no more is made than `adf build` takes."""
    manifest = bytearray()
    for line in lines:
        manifest += line.encode("ascii") + b"\n"
        if len(manifest) > MOST_MANIFEST_BYTES:
            stop(REFUSED, f"the manifest has more than {MOST_MANIFEST_BYTES} bytes, the most that adf build takes")
    return bytes(manifest)
