"""Files NAME.uaem, in which FS-UAE and WinUAE keep beside a file what a host has no room for: protection, date and comment.

A line: `----rwed 2026-11-25 06:56:04.10 comment`, with hundredths of a second, or its flags alone. In the comment % and two hexadecimal digits stand for
a byte: 0 to 31, 128 to 255, each of "%*/<>?\\|, and a dot or space at the end. Every other byte stands for itself.

A name that has such a file is in UTF-8, with % and digits for bytes that have no letter, for these bytes, for the last letter of
.uaem at the end, and for the third letter of names that Windows keeps for itself (adf_tools/names.py). FS-UAE 3.1.66 writes the
same, but for bytes 127 to 159, which it does not turn into digits.
"""

from __future__ import annotations

import datetime
import re
import unicodedata
from typing import NamedTuple

import adf
from adf_tools.protection import protection_of, protection_text

ENDING = ".uaem"
FLAGS = "[h-][s-][p-][a-][r-][w-][e-][d-]"
LINE = re.compile(rf"({FLAGS}) ([\d-]{{10}} [\d:]{{8}})\.(\d\d)(?: (.*))?")
NOT_PLAIN = re.compile(rb'[^ -\x7f]|["%*/<>?\\|]|[. ]\Z')
DIGITS = re.compile(rb"%([0-9a-fA-F]{2})")
CIVIL = "%Y-%m-%d %H:%M:%S"
NEVER = datetime.datetime(1978, 1, 1)


class Kept(NamedTuple):
    """What such a file keeps; the comment in bytes."""

    protection: int
    stamp: str
    comment: bytes


def with_digits(pattern: re.Pattern[bytes], raw: bytes) -> bytes:
    """Bytes with % and two digits for each that fits the pattern."""
    return pattern.sub(lambda found: b"%%%02x" % ord(found[0]), raw)


def without_digits(text: bytes) -> bytes:
    """The bytes that stand in a text with % and digits."""
    return DIGITS.sub(lambda found: bytes.fromhex(found[1].decode("ascii")), text)


def name_in(text: bytes) -> bytes:
    """The name of an Amiga for one of the host that has such a file. UnicodeError if it is not UTF-8, or not in Latin-1."""
    return without_digits(unicodedata.normalize("NFC", text.decode("utf-8")).encode("latin-1"))


def line_of(entry: adf.Entry) -> bytes:
    """The bytes of the line that keeps what an entry has. A value that is not a date is kept as the first of all."""
    hundredths = entry.date.ticks % 50 * 2 if entry.date.civil else 0
    front = f"{protection_text(entry.protection)} {entry.date.civil or NEVER:{CIVIL}}.{hundredths:02} "
    return front.encode("ascii") + with_digits(NOT_PLAIN, entry.raw_comment) + b"\n"


def flags_in(text: str) -> int:
    """The protection that these letters are. ValueError if they are not."""
    if not re.fullmatch(FLAGS, text):
        raise ValueError("not as in: ----rwed")
    return protection_of(text)


def comment_of(raw: bytes) -> bytes:
    """A comment that an Amiga can have. ValueError if it is too long."""
    if len(raw) > adf.LONGEST_COMMENT:
        raise ValueError(f"a comment of {len(raw)} bytes, and an Amiga has at most {adf.LONGEST_COMMENT}")
    return raw


def kept_in(content: bytes, own: Kept = Kept(0, "0:0:0", b"")) -> Kept:
    """What is kept in the bytes of such a file; where it has the flags alone, the date and the comment are the file's own. ValueError if
    they are not such a line."""
    line = content.decode("latin-1").rstrip("\r\n")
    if re.fullmatch(FLAGS, line):
        return own._replace(protection=flags_in(line))
    found = LINE.fullmatch(line)
    if not found:
        raise ValueError("not as in: ----rwed 2026-11-25 06:56:04.10 comment")
    letters, civil, hundredths, comment = found.groups()
    past = datetime.datetime.strptime(civil, CIVIL) - adf.EPOCH
    if past.days < 0:
        raise ValueError("a date before 1978")
    stamp = f"{past.days}:{past.seconds // 60}:{past.seconds % 60 * 50 + int(hundredths) // 2}"
    return Kept(flags_in(letters), stamp, comment_of(without_digits((comment or "").encode("latin-1"))))
