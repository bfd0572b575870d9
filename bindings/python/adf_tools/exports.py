"""adf-catalogue export: what a catalogue has, in the forms of archives: a list for sha256sum, PREMIS, DFXML, and a bag (BagIt); and as a
page for print."""

from __future__ import annotations

import argparse
import contextlib
import os
import re
import sqlite3
import sys
from typing import Any, BinaryIO, Dict, Iterator, NamedTuple, Optional
from xml.sax.saxutils import XMLGenerator

import adf
from adf_tools import bags, database
from adf_tools.advice import NOT_JUDGED, TITLES
from adf_tools.image_pages import NOBODY_KNOWS, lost_text
from adf_tools.names import bytes_of
from adf_tools.program import command_line
from adf_tools.report import Report
from adf_tools.verify import files_in, folder_of

PREMIS, XSI = "http://www.loc.gov/premis/v3", "http://www.w3.org/2001/XMLSchema-instance"
DFXML = "http://www.forensicswiki.org/wiki/Category:Digital_Forensics_XML"
NO_XML = re.compile("[\x00-\x08\x0b\x0c\x0e-\x1f\ud800-\udfff\ufffe\uffff]")  # letters that no XML has
PROGRAM, SUMS = "adf-catalogue", (("CRC-32", "crc32"), ("MD5", "md5"), ("SHA-1", "sha1"), ("SHA-256", "sha256"))
SHA256 = re.compile("[0-9a-f]{64}")
CIVIL = re.compile(r"([0-9]{4}-[0-9]{2}-[0-9]{2}) ([0-9]{2}:[0-9]{2}:[0-9]{2})\.[0-9]{2}")
AT = "COALESCE(ended, begun) AS at"
RESCUED = "in doubt", "perhaps deleted", "found again", "made"


def totals(connection: sqlite3.Connection) -> Dict[str, int]:
    """How many files are sound, how many stand in doubt in a rescue, how many are lost at least, and how many images were not judged."""

    def number(line: str) -> int:
        return int(connection.execute(line).fetchone()[0] or 0)

    files = "SELECT COUNT(*) FROM entries WHERE kind = 'file' AND state"
    return {
        "files sound": number(f"{files} = 'sound'"),
        "files rescued": number(f"{files} IN {RESCUED}"),
        "files lost at least": number("SELECT SUM(lost) FROM images"),
        "images not judged": number(f"SELECT COUNT(*) FROM images WHERE judged IN {NOT_JUDGED}"),
    }


def totals_text(connection: sqlite3.Connection) -> str:
    return ", ".join(f"{what} {count}" for what, count in totals(connection).items())


def is_inside(path: str) -> bool:
    """Whether a path leads to a file of the folder."""
    return not path.startswith("/") and not {"", ".", ".."} & set(path.split("/"))


def files(connection: sqlite3.Connection) -> Iterator[sqlite3.Row]:
    """The files whose checksums are known, by names of files in the folder: the database may say anything."""
    line = "SELECT files.*, program FROM files JOIN runs ON runs.id = run WHERE sha256 IS NOT NULL ORDER BY path"
    yield from (row for row in connection.execute(line) if is_inside(row["path"]) and SHA256.fullmatch(row["sha256"]))


# A list for sha256sum


def sum_line(path: bytes, digest: str) -> bytes:
    """The line of a file, as sha256sum writes it."""
    marks = path.replace(b"\\", b"\\\\").replace(b"\n", b"\\n").replace(b"\r", b"\\r")
    return (b"\\" if marks != path else b"") + digest.encode("utf-8", "replace") + b"  " + marks + b"\n"


def write_sums(connection: sqlite3.Connection, out: BinaryIO) -> None:
    for row in files(connection):
        out.write(sum_line(bytes_of(row["path"].encode("utf-8", "surrogateescape"), True), row["sha256"]))


# XML


class Xml:
    """A document that is written element by element."""

    def __init__(self, out: BinaryIO) -> None:
        self.out = XMLGenerator(out, "utf-8", short_empty_elements=True)  # type: ignore[arg-type]
        self.out.startDocument()
        self.depth = 0

    def break_line(self) -> None:
        self.out.ignorableWhitespace("\n" + "  " * self.depth)

    @contextlib.contextmanager
    def inside(self, name: str, **attributes: str) -> Iterator[None]:
        """An element with others in it."""
        if self.depth:
            self.break_line()
        self.out.startElement(name, {key.replace("_", ":"): plain(value) for key, value in attributes.items()})  # type: ignore[arg-type]
        self.depth += 1
        yield
        self.depth -= 1
        self.break_line()
        self.out.endElement(name)
        if not self.depth:
            self.out.ignorableWhitespace("\n")

    def put(self, name: str, value: object, **attributes: str) -> None:
        """An element with a text in it; none for no value."""
        if value is not None:
            self.break_line()
            self.out.startElement(name, attributes)  # type: ignore[arg-type]
            self.out.characters(plain(value))
            self.out.endElement(name)

    def nested(self, *names: str, text: object) -> None:
        """A text in elements in one another."""
        if len(names) == 1:
            self.put(names[0], text)
            return
        with self.inside(names[0]):
            self.nested(*names[1:], text=text)


def plain(value: object) -> str:
    """The text of a value, with digits for what no XML has."""
    return NO_XML.sub(lambda found: f"\\x{ord(found[0]):02x}", str(value))


def moment(text: object) -> str:
    """A time of SQLite, as XML has it."""
    return str(text).replace(" ", "T") + "Z"


# PREMIS


class Event(NamedTuple):
    """What was done once: its number, its kind, when, what came of it, the file, and of which image."""

    number: str
    kind: str
    at: object
    outcome: str
    note: str
    path: Optional[str] = None
    detail: str = ""


class Premis:
    """The files of a catalogue as objects of PREMIS 3, and what was done to them as events."""

    def __init__(self, connection: sqlite3.Connection, out: BinaryIO) -> None:
        self.connection, self.xml = connection, Xml(out)

    def write(self) -> None:
        with self.xml.inside("premis", xmlns=PREMIS, xmlns_xsi=XSI, version="3.0"):
            for row in files(self.connection):
                self.write_object(row)
            for event in self.events():
                self.write_event(event)
            with self.xml.inside("agent"):
                self.identify("agentIdentifier", "program", PROGRAM)
                for name, text in (("agentName", PROGRAM), ("agentType", "software"), ("agentVersion", adf.__version__)):
                    self.xml.put(name, text)

    def identify(self, name: str, kind: str, value: object) -> None:
        with self.xml.inside(name):
            self.xml.put(f"{name}Type", kind)
            self.xml.put(f"{name}Value", value)

    def write_object(self, row: sqlite3.Row) -> None:
        """A file, with its checksums."""
        with self.xml.inside("object", xsi_type="file"):
            self.identify("objectIdentifier", "path", row["path"])
            with self.xml.inside("objectCharacteristics"):
                for name, column in SUMS:
                    if row[column]:
                        with self.xml.inside("fixity"):
                            self.xml.put("messageDigestAlgorithm", name)
                            self.xml.put("messageDigest", row[column])
                            self.xml.put("messageDigestOriginator", row["program"])
                self.xml.put("size", row["bytes"])
                ending = os.path.splitext(row["path"])[1].lower()
                self.xml.nested("format", "formatDesignation", "formatName", text=f"image of an Amiga disk ({ending or 'no ending'})")
            self.xml.put("originalName", row["path"])

    def events(self) -> Iterator[Event]:
        """When each checksum was made, what was found of each image, and the totals."""
        for row in self.connection.execute(f"SELECT sums.*, {AT} FROM sums JOIN runs ON runs.id = run ORDER BY sums.id"):
            note = f"{row['bytes']} bytes, SHA-256 {row['sha256']}"
            yield Event(f"sum {row['id']}", "message digest calculation", row["at"], "sha256", note, row["path"])
        line = f"SELECT images.*, path, {AT} FROM images JOIN files ON files.id = file JOIN runs ON runs.id = run ORDER BY images.id"
        for row in self.connection.execute(line):
            yield Event(f"image {row['id']}", "validation", row["at"], row["verdict"], note_of(row), row["path"], row["name"])
        last = self.connection.execute("SELECT MAX(COALESCE(ended, begun)) FROM runs").fetchone()[0]
        yield Event("totals", "validation", last, "totals", totals_text(self.connection), detail="the whole collection")

    def write_event(self, event: Event) -> None:
        with self.xml.inside("event"):
            self.identify("eventIdentifier", PROGRAM, event.number)
            self.xml.put("eventType", event.kind)
            self.xml.put("eventDateTime", moment(event.at))
            if event.detail:
                self.xml.nested("eventDetailInformation", "eventDetail", text=event.detail)
            with self.xml.inside("eventOutcomeInformation"):
                self.xml.put("eventOutcome", event.outcome)
                self.xml.nested("eventOutcomeDetail", "eventOutcomeDetailNote", text=event.note)
            self.identify("linkingAgentIdentifier", "program", PROGRAM)
            if event.path is not None:
                self.identify("linkingObjectIdentifier", "path", event.path)


def note_of(row: sqlite3.Row) -> str:
    """What a catalogue says of an image, beside its verdict."""
    told = [TITLES.get(row["advice"], row["advice"])]
    if row["verdict"] != "ok" and row["lost"] is not None:
        told.append(NOBODY_KNOWS if row["judged"] in NOT_JUDGED else "lost " + lost_text(row, str(row["lost"]), "all that was there"))
    return ", ".join([*told, *([row["form"]] if row["form"] else [])])


# DFXML


class Dfxml:
    """The images of a catalogue and the entries in them, as DFXML."""

    def __init__(self, connection: sqlite3.Connection, out: BinaryIO) -> None:
        self.connection, self.xml = connection, Xml(out)

    def write(self) -> None:
        with self.xml.inside("dfxml", xmlns=DFXML, xmlns_dc="http://purl.org/dc/elements/1.1/", version="1.3.0"):
            with self.xml.inside("metadata"):
                self.xml.put("dc:type", "Disk Images")
                self.xml.put("dc:description", totals_text(self.connection))
            with self.xml.inside("creator", version="1.0"):
                self.xml.put("program", PROGRAM)
                self.xml.put("version", adf.__version__)
            for row in self.connection.execute("SELECT * FROM images ORDER BY name, number").fetchall():
                with self.xml.inside("diskimageobject"):
                    self.write_image(row)

    def write_image(self, image: sqlite3.Row) -> None:
        self.xml.put("image_filename", image["name"])
        self.xml.put("image_size", image["bytes"])
        for name in ("md5", "sha1", "sha256"):
            self.xml.put("hashdigest", image[name], type=name)
        if image["kind"] == "disk" or image["kind"] is None:
            self.xml.put("error", None if image["verdict"] == "ok" else image["verdict"])
            return
        with self.xml.inside("volume"):
            self.xml.put("sector_size", 512)
            self.xml.put("block_size", 512)
            self.xml.put("block_count", image["blocks"])
            self.xml.put("ftype_str", image["kind"])
            self.xml.put("volume_name", image["label"])
            for row in self.connection.execute("SELECT * FROM entries WHERE image = ? ORDER BY id", (image["id"],)):
                self.write_entry(row)
            self.xml.put("error", None if image["verdict"] == "ok" else f"{image['verdict']}; {note_of(image)}")

    def write_entry(self, row: sqlite3.Row) -> None:
        with self.xml.inside("fileobject"):
            self.xml.put("filename", row["path"])
            self.xml.put("name_type", {"file": "r", "link": "l"}.get(row["kind"], "d"))
            self.xml.put("filesize", row["size"] if row["kind"] == "file" else None)
            self.xml.put("inode", row["header"])
            date = CIVIL.fullmatch(row["date"])
            self.xml.put("mtime", f"{date[1]}T{date[2]}" if date else None)
            self.xml.put("hashdigest", row["sha256"], type="sha256")
            self.xml.put("error", None if row["state"] == "sound" or row["kind"] == "link" else row["state"])
            self.xml.put("link_target", row["state"].partition(" ")[2] if row["kind"] == "link" else None)


# The command


def work(words: argparse.Namespace) -> int:
    """Writes what a catalogue has in the form that is wanted."""
    with database.asked(os.path.join(words.out, database.NAME), True) as connection:
        if words.bagit is not None:
            known = {row["path"]: row["sha256"] for row in files(connection)}
            found = files_in(folder_of(connection, words), words.out)
            bags.write(words.bagit, found, known, totals(connection))
        elif words.sha256:
            write_sums(connection, sys.stdout.buffer)
        elif words.report:
            sys.stdout.buffer.write(Report(connection, totals(connection)).page().encode("utf-8"))
        else:
            writer: Any = Premis if words.premis else Dfxml
            writer(connection, sys.stdout.buffer).write()
    return 0


def line() -> argparse.ArgumentParser:
    parser = command_line("adf-catalogue export", "Writes what a catalogue has of its files, in the forms of archives.")
    form = parser.add_mutually_exclusive_group(required=True)
    form.add_argument("--sha256", action="store_true", help="a list of the files, for sha256sum -c in the folder")
    form.add_argument("--premis", action="store_true", help="PREMIS 3: each file with its checksums, and what was found of its images")
    form.add_argument("--dfxml", action="store_true", help="DFXML: each image, and the entries in it with their checksums")
    form.add_argument("--bagit", metavar="BAG", help="make a bag (BagIt) of the files in a new folder")
    form.add_argument("--report", action="store_true", help="a page for print: the totals, and the images that want something done")
    parser.add_argument("out", metavar="OUT", help="the catalogue")
    parser.add_argument("folder", metavar="FOLDER", nargs="?", help="the images, for a bag, if they are no longer where they were read last")
    return parser
