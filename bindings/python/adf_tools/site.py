"""Writes the pages and tables of a catalogue from its database. A page of an image is written if what it shows has changed."""

from __future__ import annotations

import contextlib
import functools
import glob
import itertools
import json
import os
import sqlite3
import stat
from typing import Iterator, List, Optional, Sequence, Set

import adf
from adf_tools import database, search, store, tables
from adf_tools.database import transaction
from adf_tools.image_pages import ALSO, MOST_BOOTS, ImagePage, is_page, pairs_of
from adf_tools.lists import Lists
from adf_tools.out_folder import ENTRIES, IMAGES, OTHER_NAMES, PAGES, PARTS, PART_NAME, TWICE, WORKING_NAME, OutFolder, OwnNames
from adf_tools.pages import FAULTS, HERE
from adf_tools.processes import in_order
from adf_tools.program import Progress
from adf_tools.scan import sum_of
from adf_tools.store import NAMES
from adf_tools.twice import Twice

PIECE, MEMORY, NOTED = 50, 256 << 20, 500  # pages of a piece of work, and what it takes; parts that are noted together
HOLDING = "SELECT image FROM entries WHERE sha256 = ?1 UNION SELECT id FROM images WHERE sha256 = ?1 UNION SELECT id FROM images WHERE tree = ?1"
COUNTED = """SELECT touched.sha256, touched.name, holders.images, (SELECT COUNT(*) FROM (
    SELECT image FROM entries WHERE entries.sha256 = touched.sha256 UNION SELECT id FROM images WHERE images.sha256 = touched.sha256
    UNION SELECT id FROM images WHERE tree = touched.sha256 LIMIT 2)) FROM touched LEFT JOIN holders ON holders.sha256 = touched.sha256"""
SHARED = """INSERT OR REPLACE INTO touched SELECT sha256, '' FROM (SELECT sha256 FROM entries WHERE sha256 IS NOT NULL
    UNION ALL SELECT sha256 FROM images WHERE sha256 IS NOT NULL UNION ALL SELECT tree FROM images WHERE tree IS NOT NULL)
    GROUP BY sha256 HAVING COUNT(*) > 1"""
BOOTS = """SELECT crc, now.images FROM (SELECT boot_crc32 AS crc, MIN(COUNT(*), ?) AS images FROM images WHERE crc IS NOT NULL GROUP BY crc)
    AS now LEFT JOIN boots ON boots.crc32 = crc WHERE boots.images IS NOT now.images"""
FIRSTS = ALSO + 2  # images of a sum that are kept: those that a page links to, itself, and one more


@functools.lru_cache(maxsize=1)
def connection_of(path: str, _process: int) -> sqlite3.Connection:
    """The connection of a process, which only asks."""
    return database.large_connection_to(path, "ro")


def is_behind(name: str, images: Optional[str]) -> bool:
    """Whether an image comes behind all that are kept of those that hold a sum, so that these stay as they are."""
    kept = pairs_of(images)
    return len(kept) == FIRSTS and name > kept[-1][0]


class PageWriter:
    """Writes the pages of some images."""

    def __init__(self, out: OutFolder) -> None:
        self.out = out

    def __call__(self, images: Sequence[int]) -> Sequence[int]:
        path = self.out.path_of(database.NAME)
        with database.told(path):
            connection = connection_of(path, os.getpid())
            for number in images:
                image = connection.execute("SELECT * FROM images WHERE id = ?", (number,)).fetchone()
                if image is not None and is_page(image["page"]):
                    self.out.write(image["page"], ImagePage(connection, image).page().encode("utf-8"))
        return images


class Site:
    """The pages of a catalogue, in the folder of its database."""

    def __init__(self, connection: sqlite3.Connection, own: OwnNames) -> None:
        self.connection, self.own, self.out = connection, own, own.out

    def write(self, has_tables: bool, is_escaped: bool) -> None:
        self.note_maker()
        self.note_holders()
        self.note_boots()
        self.note_lost_pages()
        self.write_images()
        self.write_parts()
        lists = self.write_lists()
        if has_tables:
            self.write_tables(is_escaped)
        self.remove_old(lists)

    def note_maker(self) -> None:
        """If the programs that make pages are other ones than before, all pages are made again."""
        maker = json.dumps([adf.__version__, *map(sum_of, sorted([FAULTS, *glob.glob(os.path.join(HERE, "*.py"))]))])
        last = self.connection.execute("SELECT value FROM facts WHERE name = 'maker'").fetchone()
        if last is None or last[0] != maker:
            with transaction(self.connection):
                self.connection.execute("UPDATE images SET is_shown = 0 WHERE is_shown")
                self.connection.execute("DELETE FROM lists")
                self.connection.execute("INSERT OR IGNORE INTO parts_due VALUES (?)", (TWICE,))
                self.connection.execute("INSERT OR REPLACE INTO facts VALUES ('maker', ?)", (maker,))

    def note_holders(self) -> None:
        """Brings the table of the first images that hold a sum up to date; pages whose links change by that are made again."""
        if not store.is_noted(self.connection):
            self.note_sums()
        touched = self.connection.execute(COUNTED).fetchall()
        found = [row for row in touched if not is_behind(row["name"], row["images"])]
        due = search.touched_parts(self.connection) | ({TWICE} if any(count > 1 or before for _, _, before, count in touched) else set())
        with transaction(self.connection):
            for digest, _, before, count in found:
                now = self.first_holders(digest) if count > 1 else None
                if now != before:
                    self.hold(digest, now)
            self.connection.executemany("INSERT OR IGNORE INTO parts_due VALUES (?)", [(name,) for name in due])
            self.connection.execute("DELETE FROM touched")
            self.connection.execute("INSERT INTO touched_words (touched_words) VALUES ('delete-all')")

    def note_sums(self) -> None:
        """Before the first pages are made, notes all sums that several images hold, and those that did when a run was broken off."""
        with transaction(self.connection):
            self.connection.execute(SHARED)
            self.connection.execute("INSERT OR IGNORE INTO touched SELECT sha256, '' FROM holders")

    def hold(self, digest: str, now: Optional[str]) -> None:
        """Notes which images hold a sum."""
        if now is None:
            self.connection.execute("DELETE FROM holders WHERE sha256 = ?", (digest,))
        else:
            self.connection.execute("INSERT OR REPLACE INTO holders VALUES (?, ?)", (digest, now))
        if self.is_any_shown:
            self.connection.execute(f"UPDATE images SET is_shown = 0 WHERE is_shown AND id IN ({HOLDING})", (digest,))

    @functools.cached_property
    def is_any_shown(self) -> bool:
        """Whether any page was there when the run began: before the first pages are made, none has to be made again."""
        return self.connection.execute("SELECT 1 FROM images WHERE is_shown LIMIT 1").fetchone() is not None

    def first_holders(self, digest: str) -> str:
        """The first images, by name, that hold a sum, and one more than a page links to, as a text."""
        line = f"SELECT name, page FROM images WHERE id IN ({HOLDING}) AND page IS NOT NULL ORDER BY name, number LIMIT {FIRSTS}"
        return json.dumps([[name, page] for name, page in self.connection.execute(line, (digest,))])

    def note_boots(self) -> None:
        """Brings the table of how many images have the same boot blocks up to date; pages that tell another number are made again."""
        found = [(row[0], row[1]) for row in self.connection.execute(BOOTS, (MOST_BOOTS,))]
        with transaction(self.connection):
            self.connection.executemany("INSERT OR REPLACE INTO boots VALUES (?, ?)", found)
            self.connection.executemany("UPDATE images SET is_shown = 0 WHERE is_shown AND boot_crc32 = ?", [(crc,) for crc, _ in found])
            self.connection.execute("DELETE FROM boots WHERE crc32 NOT IN (SELECT boot_crc32 FROM images WHERE boot_crc32 IS NOT NULL)")

    def note_lost_pages(self) -> None:
        """Pages that are no longer there are made again."""
        there = {f"{PAGES}/{name}" for name in self.out.names(PAGES)}
        rows = self.connection.execute("SELECT id, page FROM images WHERE is_shown AND page IS NOT NULL")
        lost = [(number,) for number, name in rows if name not in there]
        with transaction(self.connection):
            self.connection.executemany("UPDATE images SET is_shown = 0 WHERE id = ?", lost)

    def write_images(self) -> None:
        """Writes the pages of images that are not shown as they are."""
        rows = self.connection.execute("SELECT id, page FROM images WHERE NOT is_shown AND page IS NOT NULL ORDER BY name, number").fetchall()
        due = [row["id"] for row in rows]
        self.own.note(row["page"] for row in rows if is_page(row["page"]))
        pieces = [due[at : at + PIECE] for at in range(0, len(due), PIECE)]
        progress = Progress(len(due), "pages")
        with contextlib.closing(progress), contextlib.closing(in_order(PageWriter(self.out), pieces, MEMORY)) as answers:
            for images in answers:
                with transaction(self.connection):
                    self.connection.executemany("UPDATE images SET is_shown = 1 WHERE id = ?", [(number,) for number in images])
                progress.step(len(images))

    def write_parts(self) -> None:
        """Writes the parts that the index searches: all, if the programs are other ones, else those that are due."""
        facts = dict(self.connection.execute("SELECT name, value FROM facts").fetchall())
        is_whole, noted = facts.get("parts") != facts["maker"], self.noted_due()
        due = search.part_names(self.connection) if is_whole else sorted(name for name in noted if name != TWICE and not name.startswith(NAMES))
        own = {search.part_in(name) for name in self.own.names if PART_NAME.fullmatch(name)}
        lost = own - {search.part_in(f"{PARTS}/{name}") for name in self.out.names(PARTS)}
        fronts, images = set(due), {name for name in noted | own if name.startswith(NAMES) and (is_whole or name in noted | lost)}
        written = self.write_some(self.made_parts(due, None if is_whole else images))
        of_these = {name for name in own if is_whole or name[: search.FRONT] in fronts or name in images}
        self.own.remove(search.file_of(name) for name in of_these - written)
        with transaction(self.connection):
            self.connection.execute("DELETE FROM parts_due WHERE name != ?", (TWICE,))
            self.connection.execute("INSERT OR REPLACE INTO facts VALUES ('parts', ?)", (facts["maker"],))

    def noted_due(self) -> Set[str]:
        """The parts that are noted as due, and the page of what is there twice."""
        return {str(row[0]) for row in self.connection.execute("SELECT name FROM parts_due")}

    def made_parts(self, names: Sequence[str], images: Optional[Set[str]]) -> Iterator[search.Part]:
        """The parts of these names, and those that name the images: all, or these."""
        if not names and images is not None and not images:
            return
        places = search.Places(self.connection)
        pieces = [names[at : at + PIECE] for at in range(0, len(names), PIECE)]
        maker = search.PartMaker(self.out.path_of(database.NAME), places.images)
        with contextlib.closing(in_order(maker, pieces, MEMORY, self.out.work)) as answers:
            for parts in answers:
                yield from parts
        yield from places.names(images)

    def write_some(self, parts: Iterator[search.Part]) -> Set[str]:
        """Writes these parts, as far as there are such; gives their names."""
        written: Set[str] = set()
        while some := list(itertools.islice(parts, NOTED)):
            there = {name: content for name, content in some if PART_NAME.fullmatch(search.file_of(name))}
            self.own.note(map(search.file_of, there))
            for name, content in there.items():
                self.out.write(search.file_of(name), content)
            written.update(there)
        return written

    def write_lists(self) -> List[str]:
        """Writes the pages of lists, the index last; gives their names."""
        title = self.connection.execute("SELECT value FROM facts WHERE name = 'title'").fetchone()
        lists = Lists(self.connection, title[0] if title else "")
        names = [TWICE, *lists.names()]
        self.own.note(names)
        if TWICE in self.noted_due() or not self.is_there(TWICE):
            self.out.write(TWICE, Twice(self.connection).page().encode("utf-8"))
        known = dict(self.connection.execute("SELECT name, shows FROM lists").fetchall())
        made = []
        for each in lists.pages():
            if known.get(each.name) != each.shows or not self.is_there(each.name):
                self.connection.execute("DELETE FROM lists WHERE name = ?", (each.name,))  # what is broken off here is made again
                self.out.write(each.name, each.make().encode("utf-8"))
                made.append((each.name, each.shows))
        with transaction(self.connection):
            self.connection.executemany("INSERT OR REPLACE INTO lists VALUES (?, ?)", made)
            self.connection.execute("DELETE FROM parts_due")
        return names

    def is_there(self, name: str) -> bool:
        """Whether a page is there, as a file."""
        there = self.out.status(name)
        return there is not None and stat.S_ISREG(there.st_mode)

    def write_tables(self, is_escaped: bool) -> None:
        self.own.note((IMAGES, ENTRIES))
        for name, queries in ((IMAGES, (tables.IMAGE_QUERY, tables.PASSED_QUERY)), (ENTRIES, (tables.ENTRY_QUERY,))):
            with self.out.new_file(name) as file:
                tables.write_table(self.connection, queries, file, is_escaped)

    def remove_old(self, lists: Sequence[str]) -> None:
        """Removes pages and volumes to which no row leads, and lists that are no longer written."""
        kept = {*itertools.chain.from_iterable(self.connection.execute("SELECT page, rescued FROM images")), *lists, *OTHER_NAMES}
        self.own.remove([name for name in self.own.names if name not in kept and not PART_NAME.fullmatch(name) and not WORKING_NAME.fullmatch(name)])
