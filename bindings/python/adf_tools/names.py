"""Names of an Amiga on the host, and the way back.

Amigas write in Latin-1. On the host a text is in UTF-8, with \\x and two hexadecimal digits for each byte that has no letter: 0 to 31,
127 to 159, and the backslash. So no name is lost, and the way back is exact. The escape form has \\x for each byte outside 32 to
126, too.

The header of a damaged file may have any bytes as its name. `host_name` makes a name of it that is safe to open in a folder. It has
digits for what leads out of the folder, for the third letter of the devices of Windows, which are files in every folder (aux, con,
nul, prn, com0 to com9, lpt0 to lpt9, also with a dot and more behind them), and for the last letter of .uaem at the end, by which a
name is told from the file that FS-UAE keeps beside another (adf_tools/uaem.py).
"""

from __future__ import annotations

import itertools
import re
import unicodedata
import zlib
from typing import Container, Iterator, List, NamedTuple, Sequence, Set

LONGEST_HOST_NAME = 255
DOTS = rb"\A\.(?=\.?\Z)|(?<=\A\.)\.\Z"
DEVICES = rb"(?<=\Aau)x(?=\.|\Z)|(?:(?<=\Aco)|(?<=\Apr))n(?=\.|\Z)|(?<=\Anu)l(?=\.|\Z)|(?:(?<=\Aco)m|(?<=\Alp)t)(?=[0-9](?:\.|\Z))"
BESIDE = rb"(?<=\.uae)m\Z"
NO_LETTER = re.compile(r"[\x00-\x1f\\\x7f-\x9f]")
CONTROL = re.compile(r"[\x00-\x1f\x7f-\x9f\u2028\u2029]")
ESCAPED = re.compile(rb"\\x([0-9a-f]{2})")
ESCAPED_LETTER = re.compile(r"\\x([a-f][0-9a-f])")


def letters(text: str | bytes) -> str:
    """The text of bytes, or of a text in Latin-1, with \\x and two digits for what has no letter."""
    plain = text.decode("latin-1") if isinstance(text, bytes) else text
    return NO_LETTER.sub(lambda found: f"\\x{ord(found[0]):02x}", plain)


def spelled_letters(path: str) -> str:
    """The letters of a path that adf-survey spells: \\x and two digits stay for what has no letter, and for a `/` in a name."""
    return ESCAPED_LETTER.sub(lambda found: chr(int(found[1], 16)), path)


def one_line(text: object) -> str:
    """A text that should be one line already, without what could break or hide it."""
    return CONTROL.sub(lambda found: f"\\x{ord(found[0]):02x}", str(text))


def bytes_of(text: bytes, is_escaped: bool = False) -> bytes:
    """The bytes for which a text of the host stands, in UTF-8 or in the escape form. ValueError if it is not UTF-8, or has a
    letter that Latin-1 does not have. A letter may be written as two characters, as on macOS."""
    latin = text if is_escaped else unicodedata.normalize("NFC", text.decode("utf-8")).encode("latin-1")
    return ESCAPED.sub(lambda found: bytes.fromhex(found[1].decode("ascii")), latin)


def host_letters(name: bytes) -> str:
    """A name of the host, of any bytes, as a text that can be printed: \\x and two digits for each byte of what cannot."""
    text = name.decode("utf-8", "surrogateescape")
    if text.isprintable() and "\\" not in text:
        return text
    plain = (c if c.isprintable() and c != "\\" else digits_of(c.encode("utf-8", "surrogateescape")) for c in text)
    return "".join(plain)


def digits_of(raw: bytes) -> str:
    """What stands for bytes that cannot be printed: \\x and two digits for each."""
    return "".join(map("\\x{:02x}".format, raw))


class Form(NamedTuple):
    """How names are written: what stands before two digits, and the pattern of the bytes of a name that have digits."""

    mark: bytes
    pattern: bytes

    def with_digits(self, raw: bytes) -> Set[int]:
        """The places in a name of the bytes that have digits."""
        return {found.start() for found in re.finditer(self.pattern, raw, re.IGNORECASE)}


def form_of(mark: bytes, *parts: bytes) -> Form:
    """The form in which bytes that fit one of these patterns have digits, and what no host takes."""
    return Form(mark, b"|".join((*parts, DEVICES, BESIDE)))


LETTERS = form_of(b"\\x", rb"[^ -~\xa0-\xff]|[/:\\]", DOTS)
ESCAPE = form_of(b"\\x", rb"[^ -~]|[/:\\]", DOTS)
UAEM = form_of(b"%", rb'[^ -~\xa0-\xff]|["%*/:<>?\\|]|[. ]\Z')


def pieces_of(raw: bytes, form: Form) -> List[bytes]:
    """What stands in a name of the host for each byte of a name of an Amiga; for none the mark alone."""
    digits = form.with_digits(raw)
    pieces = (b"%s%02x" % (form.mark, byte) if at in digits else chr(byte).encode("utf-8") for at, byte in enumerate(raw))
    return list(pieces) or [form.mark]


def shortened(pieces: Sequence[bytes], raw: bytes, room: int) -> bytes:
    """The pieces in so many bytes: as they are, or as many as have room before ~ and the CRC-32 of the name."""
    whole = b"".join(pieces)
    if len(whole) <= room:
        return whole
    check = b"~%08x" % zlib.crc32(raw)
    ends = itertools.accumulate(map(len, pieces))
    return b"".join(piece for piece, end in zip(pieces, ends) if end + len(check) <= room) + check


def numbers_behind(number: int) -> Iterator[bytes]:
    """What tells names apart that are the same: nothing, the number, the number and a count."""
    yield b""
    yield b"-%d" % number
    yield from (b"-%d-%d" % (number, count) for count in itertools.count(2))


def host_name(raw: bytes, form: Form = LETTERS, endings: Sequence[bytes] = (b"",), taken: Container[bytes] = (), number: int = 1) -> bytes:
    """A name of the host for any bytes that an Amiga has as a name. It is never empty, has no `/`, NUL or `:`, and leads neither out of
    its folder nor to a device. With each of the endings, which are put behind it, it has at most 255 bytes and is not taken: `-` and
    the number stand behind a name that is. A name that a valid volume can have is not shortened, and its way back is exact."""
    pieces, room = pieces_of(raw, form), LONGEST_HOST_NAME - max(map(len, endings))
    names = (shortened(pieces, raw, room - len(more)) + more for more in numbers_behind(number))
    return next(name for name in names if not any(name + ending in taken for ending in endings))
