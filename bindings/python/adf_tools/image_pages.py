"""The page of an image, from what the database of a catalogue says of it."""

from __future__ import annotations

import functools
import json
import os
import sqlite3
import zlib
from typing import Any, Dict, Iterator, List, Optional, Tuple

import adf
from adf_tools.advice import GROUPS, NOT_JUDGED
from adf_tools.icons import MOST_SIDE, Icon, icon_picture, pixels_of
from adf_tools.links import is_led
from adf_tools.markup import Html, address, drawn, html, joined, link, shown
from adf_tools.out_folder import PAGE_NAME
from adf_tools.pages import cell, count_of, facts, long_table, page, paragraph, paragraphs_of_causes, text_cell
from adf_tools.picture import RUN, Fault, disk_picture, picture
from adf_tools.protection import protection_text
from adf_tools.volumes import UNREAD

ENTRY_HEADS = ("Path", "Kind", "Size", "-Protection", "-Date", "-Header", "-Comment", "Also on")
FOUND_HEADS = ("State", "Path", "Kind", "Size", "-Protection", "-Date", "-Comment", "Also on")
DELETED_HEADS = ("State", "Path", "Kind", "Size", "-Date", "-Block")
FINDING_HEADS = ("Blocks", "Cause", "Path", "Owned by")
PARTITION_HEADS = ("Partition", "Verdict", "Kind", "First block", "Blocks", "-Flags", "-Priority", "Label")
ADVICE = {group.name: group for group in GROUPS}
ENTRIES = """SELECT state, path, kind, size, protection, date, header, comment, entries.sha256, holders.images
FROM entries LEFT JOIN holders ON holders.sha256 = entries.sha256 WHERE image = :image ORDER BY entries.id"""
COLUMNS = '<td class="text">{path}</td>{kind}<td class="number">{size}</td>{protection}{date}'  # of an entry, found in a volume or in a refused image
ENTRY_ROW = COLUMNS + '<td class="number wide">{header}</td>{comment}<td class="text">{also}</td>'
FOUND_ROW = '<td class="nowrap">{mark}</td>' + COLUMNS + '{comment}<td class="text">{also}</td>'
ALSO, LONGEST_KEPT = 3, 4096  # other images that a page links to; letters of the row of them, if its links are kept for other pages
NOTHING = html("")
BOOTS = {
    "bootable": "bootable", "no-code": "not bootable, without code", "bad-sum": "not bootable, their checksum is wrong",
    "not-dos": "not bootable, they do not begin with DOS",
}
KEPT = {each.why for each in (adf.LeftOut(reason, b"", 0, 0) for reason in adf.Reason) if each.is_kept}  # entries that are in doubt
MOST_BOOTS = 100  # disks with the same boot blocks that are counted for a page
MOST_DRAWN, MOST_RUNS = 1 << 19, 100_000  # letters of all icons of a page; runs of equal blocks of a picture
INDEX = "../index.html"
NO_FAULT = "other type", "bitmap", "published"  # groups of refused images of which all files stand, or nothing is to be done
TYPES = "international", "directory cache"  # causes that are no damage
LOST, NOBODY_KNOWS = "lost", "not judged"  # why a line tells of blocks or headers, and of no entry; what is said of files of what is no volume
Row = sqlite3.Row


def is_page(name: object) -> bool:
    """Whether a page can have this name, which may be anything."""
    return isinstance(name, str) and bool(PAGE_NAME.fullmatch(name))


def pairs_of(text: object) -> List[Tuple[str, str]]:
    """The names and pages that a row of `holders` keeps as a text, which may be anything."""
    try:
        found = json.loads(str(text or "[]"))
        return [(str(name), str(link_)) for name, link_ in found]
    except (ValueError, TypeError, RecursionError):
        return []


def links_of(found: str, own: str, sum_: Optional[str]) -> Html:
    """Links to the pages that a row of `holders` has but its own one, and to all images that hold the sum, if there are more."""
    pairs = pairs_of(found)
    links = [link(os.path.basename(page_), name) for name, page_ in pairs if is_page(page_) and page_ != own]
    every = [link(INDEX, "all", f"find={sum_}")] if len(pairs) > ALSO else []
    return joined(links[:ALSO] + every, ", ")


links_kept = functools.lru_cache(maxsize=4096, typed=True)(links_of)  # what many images hold is on the page of each


def others(found: Optional[str], own: str, sum_: Optional[str]) -> Html:
    """Links to other images that hold the same bytes, and to all of them, if there are more."""
    if not found:
        return NOTHING
    return links_of(found, own, sum_) if own in found or len(found) > LONGEST_KEPT else links_kept(found, "", sum_)


def code(text: object) -> Html:
    return html("<code>{text}</code>", text=shown(text))


def blocks_drawn(name: object, roles: bytes, fault: Optional[Fault] = None) -> Html:
    """The picture of a volume, unless it is too large for a page."""
    for count, _ in enumerate(RUN.finditer(roles)):
        if count == MOST_RUNS:
            return html("<p><code>adf-map &lt; IMAGE</code> draws the blocks: they are too many for a page.</p>\n")
    return drawn(picture("", roles, fault, name=f"Blocks of {name}"))


def lost_text(image: Row, count: str, every: str) -> str:
    """How many files of an image are lost: a lower bound, where headers or directories are missing; every one where nothing is found of a
    volume. Of what is no volume nobody knows it."""
    if image["judged"] in NOT_JUDGED:
        return NOBODY_KNOWS
    if image["lost_least"] and not image["dirs"] and not image["files"]:
        return every
    return f"at least {count}" if image["lost_least"] else count


class ImagePage:
    """The page of one image, whose rows are asked of the database."""

    def __init__(self, connection: sqlite3.Connection, image: Row) -> None:
        self.connection, self.image, self.name = connection, image, image["page"]

    def rows(self, line: str) -> Iterator[Row]:
        return iter(self.connection.execute(line, {"image": self.image["id"]}))

    def page(self) -> Html:
        """The whole page."""
        image, above = self.image, link(INDEX, "All images")
        if image["disk"] is not None:
            disk = self.connection.execute("SELECT name, page FROM images WHERE id = ?", (image["disk"],)).fetchone()
            if disk is not None and is_page(disk["page"]):
                above = html("{above}, the whole disk: {disk}", above=above, disk=link(os.path.basename(disk["page"]), disk["name"]))
        if image["kind"] == "disk":
            body = self.disk_body()
        else:
            body = self.volume_body() if image["verdict"] == "ok" else self.refused_body()
        return page(image["name"], joined((paragraph(above), body)))

    # Facts

    def same(self, column: str) -> Html:
        """Links to images with the same sum in this column."""
        found = self.connection.execute("SELECT images FROM holders WHERE sha256 = ?", (self.image[column],)).fetchone()
        return others(found[0], self.name, self.image[column]) if found else NOTHING

    def sum_facts(self) -> List[Tuple[str, object]]:
        """The length, the checksums, and which images are the same."""
        image = self.image
        pairs: List[Tuple[str, object]] = [("What it is", shown(image["form"]))] if image["form"] else []
        pairs.append(("Bytes", image["bytes"]))
        sums = (("CRC-32", "crc32"), ("MD5", "md5"), ("SHA-1", "sha1"), ("SHA-256", "sha256"))
        pairs += ((head, code(image[column])) for head, column in sums if image[column])
        pairs += self.file_facts()
        if image["boot_crc32"]:
            pairs.append(("Boot blocks", self.boot_text()))
        same = [(head, self.same(column)) for head, column in (("The same bytes", "sha256"), ("The same files", "tree"))]
        pairs += [(head, links) for head, links in same if links]
        if image["known"]:
            pairs.append(("Published lists", self.known_text()))
        if image["unlisted"]:
            pairs.append(("Not in the database", f"the last {image['unlisted']} of the entries"))
        return pairs

    def file_facts(self) -> List[Tuple[str, object]]:
        """The file that an image was packed in, or is a part of, and its checksum."""
        row = self.connection.execute("SELECT path, sha256 FROM files WHERE id = ?", (self.image["file"],)).fetchone()
        if row is None or row["path"] == self.image["name"] or not row["sha256"]:
            return []
        return [("Its file", html("{path}: SHA-256 {digest}", path=shown(row["path"]), digest=code(row["sha256"])))]

    def known_text(self) -> Html:
        """What published lists say of the image."""
        known, name = self.image["known"], shown(self.image["known_as"] or "")
        if known == "known":
            return name
        return html("other checksums than {name}" if known == "differs" else "unknown: {name}" if name else "unknown", name=name)

    def boot_text(self) -> Html:
        """Whether an Amiga starts the boot blocks, their CRC-32, and how many other disks have them."""
        crc, state = self.image["boot_crc32"], shown(BOOTS.get(self.image["boot"], ""))
        found = self.connection.execute("SELECT images FROM boots WHERE crc32 = ?", (crc,)).fetchone()
        count = found[0] - 1 if found else 0
        many = f"{count} or more" if count + 1 >= MOST_BOOTS else count
        others_ = f", as on {many} other {'disk' if count == 1 else 'disks'}" if count else ", on no other disk"
        return html("{state}: CRC-32 {crc}{others}", state=state, crc=code(crc), others=others_)

    def date_facts(self) -> List[Tuple[str, object]]:
        return [(head, shown(self.image[column])) for head, column in (("Root", "root"), ("Changed", "altered"), ("Created", "created"))]

    def deleted_facts(self) -> List[Tuple[str, object]]:
        """How many headers of deleted files and directories still stand, if there are any."""
        count = self.image["deleted"]
        return [("Deleted", f"{count_of(count, 'header')}, {self.image['deleted_whole'] or 0} whole")] if count else []

    def advice(self) -> Html:
        group = ADVICE.get(self.image["advice"])
        if group is None:
            return html("")
        told = html("<strong>{title}.</strong> {text}", title=shown(group.title), text=shown(group.text))
        if not self.image["fits"]:
            return told
        form = "{told} At {fits} blocks the survey finds a root: <code>adf-survey {option}&lt; IMAGE</code>."
        return html(form, told=told, fits=self.image["fits"], option=self.option())

    def option(self) -> str:
        """What adf-survey is told of the length that fits, where the image has another."""
        return f"--blocks {self.image['fits']} " if self.image["fits"] else ""

    def roles(self) -> bytes:
        """The role of each block; there are no more blocks than the largest volume has."""
        try:
            return zlib.decompressobj().decompress(self.image["roles"] or b"", adf.MOST_BLOCKS)
        except zlib.error:
            return b""

    def icons(self) -> Html:
        """The icons of the disk and its drawers, each with its name, as far as a page has room for them."""
        figures: List[Html] = []
        letters = left_out = 0
        for row in self.rows("SELECT * FROM icons WHERE image = :image ORDER BY path NOT LIKE 'disk.info', path"):
            icon = icon_in(row)
            picture_ = icon_picture(row["path"], icon, MOST_DRAWN - letters) if icon else None
            if picture_ is not None:
                letters += len(picture_)
                figures.append(html("<figure>{picture}<figcaption>{name}</figcaption></figure>", picture=picture_, name=shown(row["path"])))
            left_out += picture_ is None
        told = paragraph(f"{count_of(left_out, 'icon')} not drawn: too much for a page, or damaged", "note") if left_out else html("")
        return joined((html('<div class="icons">{figures}</div>\n', figures=joined(figures)) if figures else html(""), told))

    # Bodies

    def beside(self, picture_: Html, part: Html) -> Html:
        return html('<div class="beside">{picture}{part}</div>', picture=picture_, part=part)

    def volume_body(self) -> Html:
        """The page of a volume."""
        image = self.image
        numbers = f"{image['kind']}, {image['used']} of {image['blocks']} blocks used, {image['free']} free"
        dirs, files = image["dirs"] or 0, image["files"] or 0
        counts = f"{count_of(dirs, 'directory', 'directories')}, {count_of(files, 'file')}"
        told = group.title if (group := ADVICE.get(image["advice"])) else ""
        pairs = [("State", shown(told)), ("Label", shown(image["label"] or "")), ("Volume", numbers), ("Holds", counts), *self.deleted_facts()]
        pairs += [*self.date_facts(), *self.sum_facts()]
        rows = map(self.entry_row, self.rows(ENTRIES))
        entries = long_table("Entries", ENTRY_HEADS, rows, dirs + files, "adf list < IMAGE") if dirs + files else html("")
        return joined((facts("Volume", pairs), self.icons(), self.beside(blocks_drawn(image["name"], self.roles()), entries), self.deleted_part()))

    def refused_body(self) -> Html:
        """The page of a refused image: its first fault, all findings, what is found all the same, and the new volume, if there is one."""
        image = self.image
        whole = (image["dirs"] or 0) + (image["files"] or 0)
        counts = f"{count_of(image['faults'] or 0, 'line')}; {image['sound'] or 0} of {count_of(whole, 'entry', 'entries')} sound"
        kind, lost = "note" if image["advice"] in NO_FAULT else "refused", count_of(image["lost"] or 0, "file")
        pairs: List[Tuple[str, object]] = [("What to do", self.advice()), ("Refused", marked_as(kind, image["verdict"]))]
        pairs += [("Label", shown(image["label"]))] if image["label"] else []
        pairs += [("Findings", counts), ("Lost", lost_text(image, lost, "all that was there")), *self.deleted_facts(), *self.sum_facts()]
        cause = html("") if image["form"] else paragraphs_of_causes().get(self.damage(), html(""))
        fault = Fault(image["block"] or 0, image["verdict"])
        beside = self.beside(blocks_drawn(image["name"], self.roles(), fault), self.found_part(whole))
        return joined((facts("Image", pairs), cause, self.finding_table(), self.rescue_part(), self.icons(), beside, self.deleted_part()))

    def damage(self) -> str:
        """The cause that is explained: that of the damage, if there is any beside the type."""
        line = f"SELECT cause FROM findings WHERE image = :image AND cause NOT IN {TYPES} ORDER BY id LIMIT 1"
        found = next(self.rows(line), None)
        return str(found["cause"] if found and self.image["cause"] in TYPES else self.image["cause"])

    def disk_body(self) -> Html:
        """The page of a whole hard disk: its partitions, each with its volume."""
        image = self.image
        verdict = "the tables are whole" if image["verdict"] == "ok" else marked_as("refused", image["verdict"])
        pairs = [("Hard disk", verdict), ("Blocks", image["blocks"]), *([] if image["advice"] == "sound" else [("What to do", self.advice())])]
        line = """SELECT partitions.*, images.verdict, images.label, images.page FROM partitions LEFT JOIN images ON images.id = volume
            WHERE partitions.disk = :image ORDER BY number LIMIT 1024"""
        rows: List[Dict[str, Any]] = [dict(row) for row in self.rows(line)]
        picture_ = drawn(disk_picture("", max(0, image["blocks"] or 0), rows, name=f"Partitions of {image['name']}"))
        whole = long_table("Partitions", PARTITION_HEADS, map(partition_row, rows), len(rows), "adf-disk list < IMAGE")
        cut = html("<p><code>adf-disk volume NAME &lt; IMAGE &gt; VOLUME</code> cuts the volume of a partition out.</p>\n")
        return joined((facts("Disk", [*pairs, *self.sum_facts()]), cut, self.beside(picture_, whole)))

    # Parts

    def entry_row(self, row: Row, template: str = ENTRY_ROW) -> Html:
        """The line of an entry, found in a volume or in a refused image."""
        state, path, kind, size, protection, date, header, comment, digest, images = row
        return html(
            template, mark=mark_of(state), path=shown(path), kind=text_cell(kind), size=size if kind == "file" else NOTHING,
            protection=protection_cell(protection), date=text_cell(date, "nowrap wide"), header=header, comment=text_cell(comment, "text wide"),
            also=others(images, self.name, digest),
        )  # fmt: skip

    def found_row(self, row: Row) -> Html:
        return self.entry_row(row, FOUND_ROW)

    def found_part(self, whole: int) -> Html:
        """The entries that are found in a refused image."""
        if not whole:
            return html("")
        form = """<div id="found"><p><code>adf-unpack {option}IMAGE FOLDER</code> writes what stands, and says what does not.</p>\n{found}</div>"""
        found = long_table("Found", FOUND_HEADS, map(self.found_row, self.rows(ENTRIES)), whole, f"adf-survey {self.option()}--list < IMAGE")
        return html(form, option=self.option(), found=found)

    def deleted_part(self) -> Html:
        """What was deleted and whose header still stands, and how to get it."""
        whole = self.image["deleted"]
        if not whole:
            return html("")
        form = """<p><code>adf-survey {option}cat --deleted BLOCK &lt; IMAGE &gt; FILE</code> writes what is left of a deleted file.</p>\n{table}"""
        rows = map(deleted_row, self.rows("SELECT * FROM deleted WHERE image = :image ORDER BY id"))
        found = long_table("Deleted", DELETED_HEADS, rows, whole, f"adf-survey {self.option()}deleted < IMAGE")
        return html(form, option=self.option(), table=found)

    def finding_table(self) -> Html:
        rows = map(finding_row, self.rows("SELECT * FROM findings WHERE image = :image ORDER BY id"))
        return long_table("Findings", FINDING_HEADS, rows, self.image["faults"] or 0, f"adf-survey {self.option()}< IMAGE")

    def rescue_part(self) -> Html:
        """The new volume of a refused image, if it was written, what its rescue leaves out, and what that keeps in doubt."""
        found = list(self.rows("SELECT * FROM left_out WHERE image = :image ORDER BY id"))
        kept, lost = sum(row["why"] in KEPT for row in found), sum(row["why"] == LOST for row in found)
        counts = f"{count_of(len(found) - kept - lost, 'entry', 'entries')} left out" + (f", {kept} in doubt" if kept else "")
        counts += f", and {count_of(lost, 'line')} of what is lost" if lost else ""
        told = html("")
        if is_page(self.image["rescued"]):
            form = '<p><a href="{name}" download>A new, sound volume</a> of all that stands, {counts}.</p>\n'
            told = html(form, name=address(os.path.basename(self.image["rescued"])), counts=counts)
        rows = [row_of(row["why"], row["path"]) for row in found]
        head, command = "Left out or in doubt" if kept else "Left out", f"adf-survey {self.option()}rescue < IMAGE"
        return joined((told, long_table(head, ("Why", "Path"), rows, len(rows), command) if rows else html("")))


@functools.lru_cache(maxsize=64, typed=True)
def mark_of(state: str) -> Html:
    """The mark of an entry, which is kept."""
    return shown(state) if state == "sound" else marked_as("note" if state in KEPT or is_led(state) else "refused", state)


@functools.lru_cache(maxsize=4096, typed=True)
def protection_cell(protection: int) -> Html:
    """The cell of protection bits, which is kept."""
    return cell(html("<code>{bits} {text}</code>", bits=f"{protection:08x}", text=protection_text(protection)), "nowrap wide")


def icon_in(row: Row) -> Optional[Icon]:
    """The icon that a row keeps, if it is one."""
    if not (0 < row["width"] <= MOST_SIDE and 0 < row["height"] <= MOST_SIDE and row["palette"] in (0, 1)):
        return None
    pixels = pixels_of(row["pixels"], row["width"] * row["height"])
    return None if pixels is None else Icon(row["width"], row["height"], row["palette"], pixels)


def marked_as(kind: str, text: object) -> Html:
    return html('<span class="{kind}">{text}</span>', kind=kind, text=shown(text))


def row_of(why: object, path: object) -> Html:
    return joined((cell(shown(why)), cell(shown(path), "text")))


def deleted_row(row: Row) -> Html:
    """The line of a deleted header."""
    state = shown(row["state"]) if row["state"] == "whole" else marked_as("note", row["state"])
    size = row["size"] if row["kind"] == "file" else ""
    cells = [cell(state, "text"), cell(shown(row["path"]), "text"), text_cell(row["kind"]), cell(size, "number")]
    return joined((*cells, text_cell(row["date"], "nowrap wide"), cell(row["block"], "number wide")))


def finding_row(row: Row) -> Html:
    blocks = row["first"] if row["first"] == row["last"] else f"{row['first']} to {row['last']}"
    texts = (cell(shown(row["path"] or ""), "text"), cell(shown(row["owner"] or ""), "text"))
    return joined((cell(blocks, "number"), cell(shown(row["cause"])), *texts))


def partition_row(row: Dict[str, Any]) -> Html:
    """The line of a partition. What is wrong with it, else with its volume, is its verdict."""
    name = row["name"] or row["number"]
    named = link(os.path.basename(row["page"]), name) if is_page(row["page"]) else shown(name)
    verdict = row["fault"] or row["verdict"] or "not read"
    kind = "note" if verdict.startswith(UNREAD) else "refused"
    shown_verdict = shown(verdict) if verdict in ("ok", "not read") else marked_as(kind, verdict)
    flags = ", ".join(text for bit, text in ((1, "bootable"), (2, "not mounted")) if row["flags"] & bit)
    cells = [cell(named, "text"), cell(shown_verdict), cell(shown(row["kind"])), cell(row["first"], "number"), cell(row["blocks"], "number")]
    return joined((*cells, cell(flags, "nowrap wide"), cell(row["priority"], "number wide"), cell(shown(row["label"] or ""), "text")))
