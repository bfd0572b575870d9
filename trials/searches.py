"""What a search of the pages of a catalogue has to find, by the indexes of words that `find` asks, for trials/catalogue and trials/search."""

import random
import re
import urllib.parse

from adf_tools import database, find

MOST_LINES = 500  # that the index shows


class Searches:
    """What a search of the pages has to find, by the indexes of words that `find` asks."""

    def __init__(self, rows):
        self.rows, self.dice = rows, random.Random(1)
        self.names = dict(rows("SELECT id, name FROM images"))
        self.entries = {row[0]: row[1:] for row in rows("SELECT id, image, path, comment FROM entries")}

    def rows_with(self, index, word):
        return {row[0] for row in self.rows(f"SELECT rowid FROM {index}_words WHERE {index}_words MATCH ?", find.query_of([word]))}

    def places(self, text):
        """The places with all words of a text: the name of an image and an empty path, or the path of an entry; the word of an entry may be
        in the name or the label of its image."""
        each = [(self.rows_with("image", word), self.rows_with("entry", word)) for word in text.split()]
        found = {(self.names[image], "", "") for image in self.names if all(image in images for images, _ in each)}
        for entry in set().union(*(entries for _, entries in each)):
            image, path, comment = self.entries[entry]
            if all(entry in entries or image in images for images, entries in each):
                found.add((self.names[image], path, comment))
        return found

    def some(self, query, count):
        return self.dice.sample(found := sorted(row[0] for row in self.rows(query)), min(count, len(found)))

    def texts(self):
        """What is asked: whole words, begins of words of two letters, two words of one path, words behind an escaped byte, and a word of an
        image with one of an entry in it."""
        line = "SELECT term FROM {}_vocabulary WHERE length(term) > 1".format
        whole = self.some(line("entry"), 20) + self.some(line("image"), 10)
        paths = self.some("SELECT DISTINCT path FROM entries WHERE path GLOB '*[a-z]*/*[a-z]*'", 200)
        escaped = self.some("SELECT DISTINCT path FROM entries WHERE path LIKE '%\\x%'", 1000)
        pairs = [" ".join(found[:2]) for found in (plain_words(path) for path in paths) if len(found) > 1]
        behind = [found[1] for found in (re.search(r"\\x[0-9a-f]{2}([^\W_]{2,})", path) for path in escaped) if found]
        mixed = [f"{plain_words(self.names[image])[-2]} {plain_words(path)[0]}" for image, path, _ in self.dice.sample(sorted(self.entries.values()), 40)
                 if plain_words(path) and len(plain_words(self.names[image])) > 1]  # fmt: skip
        return [*whole, *sorted({word[:2] for word in whole}), *pairs[:20], *behind[:20], *mixed[:10], "nothing at all"]


def plain_words(text):
    return re.findall(r"[^\W_]{2,}", database.words_of(text))


def compared(searches, browser, address):
    """Searches in a browser: what was looked at of each, what it has, and what it should have."""
    for text in searches.texts():
        browser.open("about:blank")
        browser.open(f"{address}#find={urllib.parse.quote(text)}")
        browser.wait("told.textContent !== ''", True)
        told, lines = browser.value("[told.textContent, [...document.querySelectorAll('#places li')].map(line => line.textContent)]")
        places = searches.places(text)
        count, more = re.match("([0-9]+) found(?:, and in ([0-9]+) more)?", told).groups()
        if more is None:
            yield f"search {text!r}: count", int(count), len(places)
        if len(lines) < MOST_LINES:
            wanted = {f"{name}: {path}" if path else name for name, path, _ in places}
            extra = {line for line in lines if line.endswith(": entries on its page")} if more else set()
            yield f"search {text!r}: only what has the words", set(lines) - extra <= wanted, True
            yield f"search {text!r}: every image", {line.split(": ")[0] for line in lines} >= {name for name, _, _ in places}, True
