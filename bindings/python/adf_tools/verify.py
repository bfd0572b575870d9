"""adf-catalogue verify: reads the files of a collection again, and says which are not as its catalogue has them. Nothing is written."""

from __future__ import annotations

import argparse
import contextlib
import hashlib
import os
import sqlite3
import sys
from typing import Dict, Iterator, List, NamedTuple, Optional

import adf
from adf_tools import database, store, trees
from adf_tools.collection import fault_of, files_below, opened
from adf_tools.find import plain
from adf_tools.names import bytes_of, host_letters
from adf_tools.out_folder import PAGES
from adf_tools.pages import count_of
from adf_tools.processes import in_order
from adf_tools.program import FAILED, REFUSED, Progress, command_line, host_text, stop, tell

MEMORY = 64 << 20  # what a process takes


class File(NamedTuple):
    """A file below the folder, and what a catalogue calls it."""

    path: bytes
    name: str


class Found(NamedTuple):
    """What is read of a file: its SHA-256, or why it cannot be read."""

    sha256: str
    fault: str = ""


def read(path: bytes) -> Found:
    """The SHA-256 of a file."""
    digest = hashlib.sha256()
    try:
        if os.path.isdir(path):
            os.listdir(path)
        with opened(path) as file:
            for part in iter(lambda: file.read(adf.PART), b""):
                digest.update(part)
    except OSError as error:
        return Found("", fault_of(error))
    return Found(digest.hexdigest())


def folder_of(connection: sqlite3.Connection, words: argparse.Namespace) -> bytes:
    """The folder of the collection: the one that is given, or the one that was read last."""
    if words.folder is not None:
        return os.fsencode(words.folder)
    row = connection.execute("SELECT value FROM facts WHERE name = 'folder'").fetchone()
    if row is None:
        stop(FAILED, f"{host_text(words.out)}: it does not say which folder was read: name it behind OUT")
    return bytes_of(str(row[0]).encode("utf-8", "surrogateescape"), True)


def files_in(folder: bytes, out: str) -> List[File]:
    """The files of a collection, as adf-catalogue takes them. The names in the database are never opened."""
    left_out = set()
    for path in (out, os.path.join(out, PAGES)):
        with contextlib.suppress(OSError):
            left_out.add(trees.identity(path))
    begin = os.path.join(folder, b"")
    os.listdir(folder)
    paths = files_below(folder, left_out)
    return [File(path, host_letters(path[len(begin) :] if path.startswith(begin) else b".")) for path in paths]


class Verify:
    """The comparison of a folder with the database of its catalogue, and how many files have come out how."""

    def __init__(self, connection: sqlite3.Connection, files: List[File]) -> None:
        rows = connection.execute("SELECT path, sha256, altered_ns FROM files")
        self.files, self.counts = files, dict.fromkeys(("same", "differs", "gone", "new", "not read"), 0)
        self.stored: Dict[str, sqlite3.Row] = {row["path"]: row for row in rows}

    def lines(self) -> Iterator[str]:
        """A line for each file that is not as it was."""
        names = {file.name for file in self.files}
        for name in sorted(set(self.stored) - names):
            self.counts["gone"] += 1
            yield f"gone\t{plain(name)}"
        progress = Progress(len(self.files), "files")
        answers = in_order(read, [file.path for file in self.files], MEMORY)
        with contextlib.closing(progress), contextlib.closing(answers):
            for file, found in zip(self.files, answers):
                progress.step()
                what, more = self.compared(file, found)
                self.counts[what] += 1
                if what != "same":
                    yield f"{what}\t{plain(file.name)}" + (f"\t{more}" if more else "")

    def compared(self, file: File, found: Found) -> tuple[str, str]:
        """How a file has come out, and what more is told of it."""
        row = self.stored.get(file.name)
        if found.fault:
            return "not read", found.fault
        if row is None or row["sha256"] is None:
            return "new", ""
        if row["sha256"] == found.sha256:
            return "same", ""
        return "differs", "of the same date" if has_date(file.path, row["altered_ns"]) else "of another date"


def has_date(path: bytes, altered: Optional[int]) -> bool:
    stamp = store.stamp_of(path)
    return stamp is not None and stamp[1] == altered


def work(words: argparse.Namespace) -> int:
    """Writes a line for each file that is not as the catalogue has it; the status says whether there is one."""
    with database.asked(os.path.join(words.out, database.NAME), True) as connection:
        verify = Verify(connection, files_in(folder_of(connection, words), words.out))
        for line_ in verify.lines():
            sys.stdout.buffer.write((line_ + "\n").encode("utf-8", "backslashreplace"))
    sys.stdout.flush()
    counts, whole = verify.counts, sum(verify.counts.values())
    if whole == counts["same"]:
        return 0
    tell("adf-catalogue", f"{host_text(words.out)}: of {count_of(whole, 'file')} " + ", ".join(f"{count} {what}" for what, count in counts.items()))
    return FAILED if counts["not read"] else REFUSED


def line() -> argparse.ArgumentParser:
    does = "Reads the files of a collection again, and says which are not as the catalogue has them. Nothing is written."
    parser = command_line("adf-catalogue verify", does)
    parser.add_argument("out", metavar="OUT", help="the catalogue")
    parser.add_argument("folder", metavar="FOLDER", nargs="?", help="the images, if they are no longer where they were read last")
    return parser
