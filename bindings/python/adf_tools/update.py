"""Brings a catalogue up to date: its database, from the files in a folder or from parts that were read on several machines, and its pages."""

from __future__ import annotations

import argparse
import contextlib
import os
import sqlite3
import sys
from typing import Iterator, Tuple

import adf
from adf_tools import database, known, merge, store, trees
from adf_tools.lists import INDEX
from adf_tools.out_folder import ENTRIES, FOLDER, OTHER_NAMES, PAGES, PARTS, OutFolder, OwnNames, is_own
from adf_tools.pages import count_of
from adf_tools.program import FAILED, REFUSED, add_escape, command_line, host_text, new_folder, stop
from adf_tools.reader import Wanted
from adf_tools.scan import Options, Scan
from adf_tools.site import Site

FORMER = "adf-catalogue.state"  # what a catalogue was known by before it had a database


def is_catalogue(path: str) -> bool:
    return any(os.path.isfile(os.path.join(path, name)) for name in (database.NAME, FORMER))


def made(path: str) -> int:
    """The descriptor of a new folder with an empty database, which no other run has from its begin on."""
    with contextlib.ExitStack() as stack:
        with new_folder(path) as folder:
            with database.opened(os.path.join(folder, database.NAME), True, path):
                pass
            held = database.lock(folder, FOLDER)
            stack.callback(os.close, held)
        stack.pop_all()
    return held


@contextlib.contextmanager
def folder_for(path: str) -> Iterator[OutFolder]:
    """The folder of a catalogue, which no other run has. It is made with an empty database if nothing is there; one that is made is removed
    again if no file was read."""
    path = path.rstrip("/") or path
    is_new = not is_catalogue(path)
    out = OutFolder(path, made(path) if is_new else database.lock(path, os.O_DIRECTORY))
    try:
        yield out
    except BaseException:
        if is_new:
            unmake(out)
        raise
    finally:
        os.close(out.fd)


def unmake(out: OutFolder) -> None:
    """Removes a catalogue that was made, if it has nothing that was read of a file, from which the next run can go on: what it has written,
    and its database. What others have put there is left."""
    with contextlib.suppress(sqlite3.Error, OSError):
        with contextlib.closing(database.connection_to(out.path_of(database.NAME), "ro")) as connection:
            if connection.execute("SELECT COUNT(*) FROM files").fetchone()[0]:
                return
            names = sorted(OwnNames(connection, out).names, key=lambda name: name.endswith("/"))
        for name in names:
            out.remove_any(name)
        for name in (database.NAME, *(database.NAME + end for end in database.BESIDE)):
            out.remove(name)
        if trees.identity(out.path) == out.identity:
            os.rmdir(out.path)


@contextlib.contextmanager
def opened(out: OutFolder) -> Iterator[Tuple[sqlite3.Connection, OwnNames]]:
    """The database of a catalogue, to be written, and the names of what it has written beside."""
    with database.opened(out.path_of(database.NAME), out.status(database.NAME) is None) as connection:
        own = OwnNames(connection, out)
        if out.status(FORMER) is not None or connection.execute("SELECT 1 FROM facts WHERE name = 'unnoted'").fetchone():
            take_former(own)
            connection.execute("DELETE FROM facts WHERE name = 'unnoted'")
        own.make(PAGES, PARTS)
        with own.working():
            yield connection, own


def take_former(own: OwnNames) -> None:
    """Takes for the catalogue's own what an earlier version has written, which did not note it."""
    names = [name for name in os.listdir(own.out.fd) if is_own(name)] + [name for name in OTHER_NAMES if name.endswith("/")]
    for folder in (PAGES, PARTS):
        if own.out.status(folder) is not None:
            names += [f"{folder}/{name}" for name in own.out.names(folder) if is_own(f"{folder}/{name}")]
    own.take(names)


def own_folders(out: OutFolder) -> set[trees.Identity]:
    """The folders of a catalogue, whose volumes are not images of the collection."""
    with out.above(f"{PAGES}/") as (pages, _):
        return {out.identity, trees.identity(pages)}


def note_known(connection: sqlite3.Connection, words: argparse.Namespace) -> None:
    """Notes which images published lists know, by new lists, if some are given."""
    if (words.dat or known.has_lists(connection)) and not store.wants_all_sums(connection):
        stop(FAILED, "the parts were read with --sha256-only, and published lists know an image by its other checksums")
    if words.dat:
        known.take(connection, words.dat)
    known.note(connection)


def write_pages(connection: sqlite3.Connection, own: OwnNames, words: argparse.Namespace) -> None:
    """Brings the pages of a catalogue up to date, and its tables, if they are wanted or there."""
    has_tables = words.tsv or own.out.status(ENTRIES) is not None and ENTRIES in own.names
    Site(connection, own).write(has_tables, words.escape)
    own.out.remove(FORMER)


def ended(connection: sqlite3.Connection, index: str) -> int:
    """Says in one line how many images are refused or not read, if any is; gives the status."""
    whole, refused, unread = store.counts(connection)
    if not refused and not unread:
        return 0
    with contextlib.suppress(OSError):  # nobody reads it
        print(f"adf-catalogue: {host_text(index)}: of {count_of(whole, 'image')} {refused} refused, {unread} not read", file=sys.stderr, flush=True)
    return FAILED if unread else REFUSED


def options_of(connection: sqlite3.Connection, words: argparse.Namespace) -> Options:
    """What is wanted of the files."""
    if words.sha256_only and known.has_lists(connection):
        stop(FAILED, "--sha256-only: the catalogue has published lists, which know an image by its other checksums")
    sums = store.wants_all_sums(connection, words.sha256_only, bool(words.dat))
    return Options(Wanted(words.rescue, store.wants_texts(connection, words.index_text), sums), words.fresh)


def work(words: argparse.Namespace) -> int:
    """Brings a catalogue up to date: its database, and then its pages."""
    adf.load()
    folder = os.fsencode(words.folder)
    os.listdir(folder)
    with folder_for(words.out) as out, opened(out) as (connection, own):
        Scan(connection, folder, own, own_folders(out), options_of(connection, words)).update()
        note_known(connection, words)
        write_pages(connection, own, words)
        return ended(connection, out.path_of(INDEX))


def merged(words: argparse.Namespace) -> int:
    """Puts parts that were read on several machines into a catalogue."""
    with merge.opened_parts(words.parts) as parts, folder_for(words.out) as out, opened(out) as (connection, own):
        merge.Merge(connection, parts).update()
        note_known(connection, words)
        if not words.no_pages:
            write_pages(connection, own, words)
        return ended(connection, out.path_of(database.NAME if words.no_pages else INDEX))


def line() -> argparse.ArgumentParser:
    does = "Keeps a database of the images in a folder, and pages for a browser: an index, and one for each image."
    more = "Other commands: adf-catalogue find, compare, scan, merge, verify, export, each with -h. A folder with such a name is written ./find."
    parser = command_line("adf-catalogue", does, more)
    parser.add_argument("folder", metavar="FOLDER", help="the images, in all folders below: *.adf, *.hdf, files that begin with DOS, also in .zip, .gz, .adz")
    parser.add_argument("out", metavar="OUT", help="the catalogue, which is created or brought up to date; its index is index.html")
    parser.add_argument("--tsv", action="store_true", help="also write the tables images.tsv and entries.tsv, which later runs keep up to date")
    parser.add_argument("--rescue", action="store_true", help="write a new volume of what is left of each refused image, with a link on its page")
    parser.add_argument("--fresh", action="store_true", help="read all files again, not only those that have changed")
    parser.add_argument("--index-text", action="store_true", help="keep the contents of text files, for adf-catalogue find; later runs do so too")
    either = parser.add_mutually_exclusive_group()
    either.add_argument("--dat", action="append", metavar="FILE", help="a published list of known disks, Logiqx XML; may be given more than once")
    either.add_argument("--sha256-only", action="store_true", help="make no other checksums of images; later runs do so too, until --dat is given")
    add_escape(parser, "write texts of the tables")
    return parser


def merge_line() -> argparse.ArgumentParser:
    parser = command_line("adf-catalogue merge", "Puts the parts that adf-catalogue scan wrote into a catalogue, and writes its pages.")
    parser.add_argument("out", metavar="OUT", help="the catalogue, which is created or brought up to date")
    parser.add_argument("parts", metavar="DATABASE", nargs="+", help="the databases of all parts")
    either = parser.add_mutually_exclusive_group()
    either.add_argument("--tsv", action="store_true", help="also write the tables images.tsv and entries.tsv")
    either.add_argument("--no-pages", action="store_true", help="write the database alone: the next run writes the pages")
    parser.add_argument("--dat", action="append", metavar="FILE", help="a published list of known disks; may be given more than once")
    add_escape(parser, "write texts of the tables")
    return parser
