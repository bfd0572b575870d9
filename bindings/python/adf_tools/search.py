"""The parts of a catalogue that its index searches, each a script that is loaded when a word that begins so is looked for: a search of
100,000 disks loads some of them alone. Of a word that is in many places a part has the first of these by the names of images, and all
images."""

from __future__ import annotations

import functools
import heapq
import itertools
import json
import os
import re
import sqlite3
from typing import Container, Dict, Iterable, Iterator, List, NamedTuple, Optional, Sequence, Set, Tuple

from adf_tools import database
from adf_tools.image_pages import is_page
from adf_tools.out_folder import PARTS
from adf_tools.store import FILE_BITS, NAMES, number_of

Part = Tuple[str, bytes]  # its name, and its bytes
Place = Tuple[int, str, str]  # of a word: the row of an image, and the path and the comment of an entry in it; empty for the image itself
Terms = Tuple[List[Place], List[int]]  # of a word: its places, or the first of them, and then the steps of all its images
ENCODER = json.JSONEncoder(separators=(",", ":"))
MARKUP = re.compile("[<>&\x7f]")  # letters that a text of a script has by their numbers
FRONT, LONGEST_FRONT = 3, 20  # letters of a word that name its part, and of a part of one that is too large
MOST_PLACES, MOST_TERMS = 200, 2000  # places of a word that a part has; words of a part
NO_LETTER, SUM = re.compile("[^a-z0-9]"), re.compile("[0-9a-f]{64}")
AFTER, NO_ASCII, LAST = "\x01", "\x80", chr(0x10FFFF)  # what comes behind a word before all that is longer; other letters than those of ASCII
BETWEEN = "{0} >= ?1 AND {0} < ?2".format
PLACES = (  # of the words from one on and before another, in their order
    f"SELECT term, doc, '', '' FROM image_terms WHERE {BETWEEN('term')}",
    f"SELECT term, image, path, comment FROM entry_terms CROSS JOIN entries ON entries.id = doc WHERE {BETWEEN('term')}",
    f"SELECT sha256, id, '', '' FROM images WHERE {BETWEEN('sha256')} ORDER BY sha256, id",
    f"SELECT tree, id, '', '' FROM images WHERE {BETWEEN('tree')} ORDER BY tree, id",
    f"SELECT sha256, image, path, comment FROM entries WHERE {BETWEEN('sha256')} ORDER BY sha256, id",
)
NEXT = {query: f"SELECT term FROM {table} WHERE term >= ?1 LIMIT 1" for query, table in zip(PLACES, ("image_terms", "entry_terms"))}
FRONTS = f"""SELECT substr(term, 1, {FRONT}) FROM image_vocabulary UNION SELECT substr(term, 1, {FRONT}) FROM entry_vocabulary
UNION SELECT substr(sha256, 1, {FRONT}) FROM images WHERE sha256 IS NOT NULL UNION SELECT substr(tree, 1, {FRONT}) FROM images WHERE tree IS NOT NULL
UNION SELECT substr(sha256, 1, {FRONT}) FROM entries WHERE sha256 IS NOT NULL"""
IMAGES_OF = """SELECT doc FROM image_terms WHERE term = ?1 UNION SELECT image FROM entry_terms CROSS JOIN entries ON entries.id = doc WHERE term = ?1
UNION SELECT image FROM entries WHERE sha256 = ?1 UNION SELECT id FROM images WHERE sha256 = ?1 OR tree = ?1"""
PLACES_IN = """WITH these AS (SELECT value AS id FROM json_each(?2)), own AS (SELECT id FROM entries WHERE image IN these)
SELECT doc, '', '' FROM image_terms WHERE term = ?1 AND doc IN these
UNION SELECT image, path, comment FROM entry_terms CROSS JOIN entries ON entries.id = doc WHERE term = ?1 AND doc IN own
UNION SELECT image, path, comment FROM entries WHERE sha256 = ?1 AND image IN these
UNION SELECT id, '', '' FROM images WHERE (sha256 = ?1 OR tree = ?1) AND id IN these"""
IMAGES_BETWEEN = """SELECT doc FROM image_terms WHERE term BETWEEN ?1 AND ?2
UNION SELECT image FROM entry_terms CROSS JOIN entries ON entries.id = doc WHERE term BETWEEN ?1 AND ?2"""


def part_of(term: str, length: int = FRONT) -> str:
    """The part that has a word: its first letters, three of them, with `_` for what is no letter or digit of ASCII."""
    return NO_LETTER.sub("_", term[:length]).ljust(length, "_")


def script_of(value: object) -> str:
    """A value for a script, in which no text ends a string or an element."""
    return MARKUP.sub(lambda found: f"\\u{ord(found[0]):04x}", ENCODER.encode(value))


class NamedImage(NamedTuple):
    """An image, as a part has it."""

    name: str
    page: str
    number: int
    label: str


def named_image(row: sqlite3.Row) -> NamedImage:
    return NamedImage(row["name"], row["page"] if is_page(row["page"]) else "", number_of(row["name"], row["number"]), row["label"] or "")


def images_of(connection: sqlite3.Connection) -> Dict[int, NamedImage]:
    """All images by their rows, as the parts have them."""
    return {row["id"]: named_image(row) for row in connection.execute("SELECT id, name, page, number, label FROM images")}


def limits_of(name: str) -> List[Tuple[str, str]]:
    """From where on, and before what, the words of a part are. Its `_` is a letter that is not of ASCII, or behind the end of a word."""
    begin = name.partition("_")[0]
    return [(begin, begin + LAST)] if begin == name else [(begin, begin + AFTER), (begin + NO_ASCII, begin + LAST)]


class Places:
    """The places of words, as the parts have them: a number for each image, and the path in it."""

    def __init__(self, connection: sqlite3.Connection, images: Optional[Dict[int, NamedImage]] = None) -> None:
        self.connection = connection
        self.images = images_of(connection) if images is None else images
        self.gaps: Dict[str, Tuple[str, str]] = {}  # from where on, and before what, an index was found to have no words

    def asked(self, query: str, *values: str) -> sqlite3.Cursor:
        """What a query gives, as plain rows."""
        cursor = self.connection.cursor()
        cursor.row_factory = None
        return cursor.execute(query, values)

    def images_of(self, query: str, *values: str) -> List[int]:
        """The rows of the images that a query gives, as far as there are such."""
        return [image for image, in self.asked(query, *values) if image in self.images]

    def steps_to(self, images: Iterable[int]) -> List[int]:
        """The numbers of images, each as what it is more than the one before."""
        numbers = sorted({self.images[image].number for image in images})
        return [number - before for before, number in zip([0, *numbers], numbers)]

    def part(self, name: str, terms: Dict[str, Terms]) -> bytes:
        """A part: for each word the images and paths of its places, or of the first of them; the images are named once. If there are more,
        all images follow by their numbers."""
        numbers: Dict[int, int] = {}
        words = {}
        for term, (places, steps) in terms.items():
            found = [(numbers.setdefault(image, len(numbers)), path, comment) for image, path, comment in places]
            told = [place if place[2] else place[:2] for place in found]
            words[term] = (told, steps) if steps else (told,)
        images = [self.images[image] for image in numbers]
        return f"part({script_of([name, images, words])});\n".encode("ascii")

    def tree(self, name: str, terms: Dict[str, Terms]) -> Iterator[Part]:
        """A part; of one with too many words one for each next letter, and for all of them one word that is empty."""
        if len(terms) <= MOST_TERMS or len(name) == LONGEST_FRONT:
            yield name, self.part(name, terms)
            return
        yield name, self.part(name, {"": self.together(terms)})
        longer = (term for term in terms if len(term) > len(name))
        for front, some in itertools.groupby(longer, lambda term: part_of(term, len(name) + 1)):
            yield from self.tree(front, {term: terms[term] for term in some})

    def together(self, terms: Dict[str, Terms]) -> Terms:
        """What a part has of many words as of one: the first of the places, and all images. Sums are found by all of their digits alone."""
        places = itertools.islice((place for term, (places, _) in terms.items() if not SUM.fullmatch(term) for place in places), MOST_PLACES)
        return sorted(places, key=self.rank), self.steps_to(self.images_of(IMAGES_BETWEEN, min(terms), max(terms)))

    def is_gap(self, query: str, begin: str, end: str) -> bool:
        """Whether a query is known to have no words from one on and before another."""
        first, past = self.gaps.get(query, (LAST, ""))
        return first <= begin and end <= past

    def note_gap(self, query: str, begin: str, end: str) -> None:
        """Notes that an index of words has none from one on and before another, and what the next one is: most parts have sums alone."""
        if query in NEXT:
            following = self.asked(NEXT[query], end).fetchone()
            self.gaps[query] = begin, following[0] if following else LAST

    def gather(self, found: Dict[str, Set[Place]], query: str, begin: str, end: str) -> None:
        """Adds what a query has to the places of words. Of a word with more than a part has the rest is not read."""
        first, term = begin, ""
        while begin:
            rows, begin = self.asked(query, begin, end), ""
            for term, image, path, comment in rows:
                places = found.setdefault(term, set())
                if len(places) > MOST_PLACES:
                    begin = term + AFTER
                    break
                if image in self.images:
                    places.add((image, path, comment))
        if not term:
            self.note_gap(query, first, end)

    def one(self, name: str) -> Iterator[Part]:
        """The part of this name, if a word has it, and those that it is parted into."""
        found: Dict[str, Set[Place]] = {}
        for query, (begin, end) in itertools.product(PLACES, limits_of(name)):
            if not self.is_gap(query, begin, end):
                self.gather(found, query, begin, end)
        terms = {term: self.kept(term, found[term]) for term in sorted(found) if "_" not in name or part_of(term) == name}
        yield from self.tree(name, terms) if terms else ()

    def rank(self, place: Place) -> Tuple[NamedImage, str, str]:
        """What the places of a word are ordered by: not by rows, since an image that changed has another one."""
        image, path, comment = place
        return self.images[image], path, comment

    def kept(self, term: str, places: Set[Place]) -> Terms:
        """What a part has of the places of a word: all, or the first of them, which are in the first of its images, and all images."""
        if len(places) == 1:
            return list(places), []
        if len(places) <= MOST_PLACES:
            return sorted(places, key=self.rank), []
        images = self.images_of(IMAGES_OF, term)
        first = heapq.nsmallest(MOST_PLACES, images, key=self.images.__getitem__)
        return heapq.nsmallest(MOST_PLACES, self.asked(PLACES_IN, term, json.dumps(first)), key=self.rank), self.steps_to(images)

    def names(self, wanted: Optional[Container[str]] = None) -> Iterator[Part]:
        """The names and pages of images, in files by the first bits of their numbers: all, or those that are wanted."""
        groups: Dict[int, List[NamedImage]] = {}
        for image in self.images.values():
            groups.setdefault(image.number >> FILE_BITS, []).append(image)
        for group, images in sorted(groups.items()):
            name = f"{NAMES}{group}"
            if wanted is None or name in wanted:
                told = {image.number: (image.name, image.page) for image in sorted(images)}
                yield name, f"part({script_of([name, told, {}])});\n".encode("ascii")


def part_names(connection: sqlite3.Connection) -> List[str]:
    """The names of all parts, without those that they are parted into."""
    return sorted({part_of(row[0]) for row in connection.execute(FRONTS)})


@functools.lru_cache(maxsize=1)
def connection_of(path: str, _process: int) -> sqlite3.Connection:
    """The connection of a process, which only asks."""
    return database.large_connection_to(path, "ro")


class PartMaker:
    """Makes the parts of these names from a database, each if a word has it."""

    def __init__(self, path: str, images: Dict[int, NamedImage]) -> None:
        self.path, self.images = path, images

    def __call__(self, names: Sequence[str]) -> List[Part]:
        with database.told(self.path):
            places = Places(connection_of(self.path, os.getpid()), self.images)
            return [part for name in names for part in places.one(name)]


def touched_parts(connection: sqlite3.Connection) -> Set[str]:
    """The parts of the words and sums of all that came or went."""
    rows = connection.execute("SELECT term FROM touched_vocabulary UNION ALL SELECT sha256 FROM touched")
    return {part_of(row[0]) for row in rows}


def file_of(name: str) -> str:
    return f"{PARTS}/{name}.js"


def part_in(file: str) -> str:
    """The name of the part that a file has."""
    return file[len(f"{PARTS}/") : -len(".js")]
