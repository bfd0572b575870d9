"""Brings the database of a catalogue up to date with the files below a folder, in transactions of some files each: a run that is
broken off is taken up by the next one."""

from __future__ import annotations

import contextlib
import glob
import hashlib
import json
import os
import sqlite3
import time
import zlib
from collections import Counter
from typing import Container, Dict, Iterator, List, NamedTuple, Optional, Tuple

import adf
from adf_tools import store
from adf_tools.collection import ARCHIVES, files_below, files_named
from adf_tools.database import transaction
from adf_tools.names import host_letters
from adf_tools.processes import Turns, in_order, workers
from adf_tools.out_folder import OwnNames, is_own
from adf_tools.program import Progress
from adf_tools.reader import IMAGE_COPIES, Read, Reader, Wanted, most_common
from adf_tools.trees import Identity

HERE = os.path.dirname(os.path.abspath(__file__))
READING = (  # the modules by which files are read
    "advice", "archives", "collection", "confined", "content", "deletions", "icons", "links", "names", "picture", "reader", "standing", "sums",
    "volumes")  # fmt: skip
LEAST_MEMORY, PACKED = 256 << 20, 8  # what a process takes, and how small an archive packs an image
FILES, WEIGHT, SECONDS = 100, 16 << 20, 2.0  # of a transaction


class Part(NamedTuple):
    """One of so many parts of a collection: the files whose names' sums say so, whatever other files there are."""

    number: int
    whole: int

    def has(self, name: bytes) -> bool:
        return self.whole == 1 or zlib.crc32(name) % self.whole == self.number - 1


class File(NamedTuple):
    """A file below the folder: its path, its name there, and its stamp."""

    path: bytes
    name: str
    stamp: Optional[store.Stamp]


class Names(NamedTuple):
    """The paths of all files below a folder, which were listed once for all parts, and a sum of them."""

    paths: List[bytes]
    sum: str


class Options(NamedTuple):
    """What is wanted of the files; that all are read again; a part of them alone; and their names, where the folder is not to be listed."""

    wanted: Wanted = Wanted()
    is_fresh: bool = False
    part: Part = Part(1, 1)
    names: Optional[Names] = None


def sum_of(path: str) -> str:
    digest = hashlib.sha256()
    with open(path, "rb") as file:
        for part in iter(lambda: file.read(adf.PART), b""):
            digest.update(part)
    return digest.hexdigest()


def reader_of(options: Options) -> str:
    """What reads the files: the version of the module, its files, the library, and the options."""
    own = [path for path in sorted(glob.glob(os.path.join(HERE, "*.py"))) if os.path.basename(path)[:-3] in READING]
    module = sorted(glob.glob(os.path.join(os.path.dirname(adf.__file__), "*.py")))
    return json.dumps([adf.__version__, *map(sum_of, (adf.library_path(), *module, *own)), *options.wanted])


def links_of(read: Read) -> List[str]:
    """The new volumes of what was read of a file."""
    return [record.columns["rescued"] for record in read.records if "rescued" in record.columns]


def memory_for(files: List[File]) -> int:
    """How many bytes a process may take that reads these files. What an archive has is guessed by its size; large images are read in turn."""
    sizes = ((file.stamp or [0])[0] * (PACKED if file.path.lower().endswith(ARCHIVES) else 1) for file in files)
    return LEAST_MEMORY + IMAGE_COPIES * min(max(sizes, default=0), adf.LARGE)


class Scan:
    """An update of a database, which is in another folder, from the files below a folder."""

    def __init__(self, connection: sqlite3.Connection, folder: bytes, own_names: OwnNames, own: Container[Identity], options: Options) -> None:
        self.connection, self.folder, self.own_names, self.options = connection, folder, own_names, options
        self.begin = os.path.join(folder, b"")
        self.passed: Counter[str] = Counter()
        if options.names is None:
            paths = files_below(folder, own, self.pass_by, self.is_wanted)
        else:
            paths = files_named(options.names.paths, self.pass_by, self.is_wanted)
        self.files = [File(path, host_letters(self.name_of(path)), store.stamp_of(path)) for path in paths]

    def name_of(self, path: bytes) -> bytes:
        """The name of a file in the folder."""
        return path[len(self.begin) :] if path.startswith(self.begin) else b"."

    def is_wanted(self, path: bytes) -> bool:
        """Whether a file is of the part that is read."""
        return self.options.part.has(self.name_of(path))

    def pass_by(self, _path: bytes, kind: str) -> None:
        """Counts what is no image."""
        self.passed[kind] += 1

    def update(self) -> None:
        """Reads the files that are new or have changed, and takes out those that are gone."""
        run = self.begun()
        known = self.known()
        gone = set(known) - {file.name for file in self.files}
        with transaction(self.connection):
            store.set_passed(self.connection, most_common(self.passed))
            store.remove(self.connection, [known[name][0] for name in gone])
        new = [file for file in self.files if file.name not in known or known[file.name][1] != file.stamp or file.stamp is None]
        for batch in self.batches(new):
            self.own_names.note(link for _, read in batch for link in links_of(read))
            with transaction(self.connection):
                files = [(known[file.name][0] if file.name in known else None, store.Kept(file.name, file.stamp, read)) for file, read in batch]
                store.put(self.connection, files, run)
                self.connection.execute("UPDATE runs SET read = read + ? WHERE id = ?", (len(batch), run))
            for link in (link for _, read in batch for link in links_of(read)):
                self.own_names.out.move(os.path.basename(link), link)
        with transaction(self.connection):
            self.connection.execute("UPDATE runs SET ended = datetime('now'), removed = ? WHERE id = ?", (len(gone), run))

    def begun(self) -> int:
        """The number of the run that begins. If files are read in another way than before, all are read again."""
        reader = reader_of(self.options)
        with transaction(self.connection):
            last = self.connection.execute("SELECT value FROM facts WHERE name = 'reader'").fetchone()
            if self.options.is_fresh or last is None or last[0] != reader:
                self.connection.execute("UPDATE files SET size = NULL")
            place = host_letters(os.path.abspath(self.folder))
            facts = {"reader": reader, "title": self.title(), "folder": place, "part": f"{self.options.part.number}/{self.options.part.whole}"}
            facts.update({"names": self.options.names.sum} if self.options.names else {})
            self.connection.execute("DELETE FROM facts WHERE name = 'names'")
            self.connection.executemany("INSERT OR REPLACE INTO facts VALUES (?, ?)", facts.items())
            line = "INSERT INTO runs (begun, program, files) VALUES (datetime('now'), ?, ?)"
            return self.connection.execute(line, (f"adf-catalogue {adf.__version__}", len(self.files))).lastrowid or 0

    def title(self) -> str:
        """What the pages are called: the folder, without those that it is in."""
        return host_letters(os.path.basename(os.path.abspath(self.folder)) or self.folder)

    def known(self) -> Dict[str, Tuple[int, object]]:
        """The files in the database: the number and the stamp of each. One whose new volumes are not all there has no stamp."""
        lost = set()
        if self.options.wanted.rescues:
            rows = self.connection.execute("SELECT file, rescued FROM images WHERE rescued IS NOT NULL")
            lost = {file for file, link in rows if not is_own(link) or self.own_names.out.status(link) is None}
        rows = self.connection.execute("SELECT path, id, size, altered_ns, inode, changed_ns FROM files")
        return {path: (number, None if number in lost else tuple(stamp)) for path, number, *stamp in rows}

    def batches(self, files: List[File]) -> Iterator[List[Tuple[File, Read]]]:
        """What is read of these files, some of them at a time."""
        work, need = self.own_names.out.work, memory_for(files)
        turns, progress = Turns(workers(len(files), need), need), Progress(len(files), "files")
        reader = Reader(self.folder, work, self.options.wanted, turns)
        batch: List[Tuple[File, Read]] = []
        weight, begun = 0, time.monotonic()
        answers = in_order(reader, [file.path for file in files], need, work)
        with contextlib.closing(progress), contextlib.closing(answers):
            for file, read in zip(files, answers):
                batch.append((file, read))
                weight += read.weight
                progress.step()
                if len(batch) >= FILES or weight > WEIGHT or time.monotonic() - begun > SECONDS:
                    yield batch
                    batch, weight, begun = [], 0, time.monotonic()
        yield batch
