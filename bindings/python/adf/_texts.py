"""Texts of an image: the escape form, and the paths of what is found, whose names need not be names."""

from __future__ import annotations

import re

NO_BYTES = "\\x"  # how adf-survey spells a name without bytes
ESCAPED = re.compile(r"\\x([0-9a-f]{2})")
ESCAPE_FORM = re.compile(r"(?:[ -\[\]-~]|\\x[0-9a-f]{2})*")
SPELLED_OR_RAW = re.compile(r"(\\x(?:[0-9a-f]{2}|(?=/|\Z)))|[^ -\[\]-~]")


def escape(text: str | bytes) -> str:
    """The escape form of bytes or of a text in Latin-1: bytes outside 32 to 126, and the backslash, are \\x and two digits."""
    if not isinstance(text, (str, bytes)):
        raise TypeError(f"a text is a str or bytes, and not {type(text).__name__}")
    raw = text if isinstance(text, bytes) else text.encode("latin-1")
    return re.sub(rb"[^ -\[\]-~]", lambda found: b"\\x%02x" % ord(found[0]), raw).decode("ascii")


def unescape(text: str) -> bytes:
    """The bytes of a text in the escape form. ValueError if it is not in that form."""
    if not ESCAPE_FORM.fullmatch(text):
        raise ValueError(f"not in the escape form: {text!r}")
    return raw_name(text)


def raw_name(text: str) -> bytes:
    """The bytes of a name as `adf-survey` spells it."""
    return b"" if text == NO_BYTES else ESCAPED.sub(lambda found: chr(int(found[1], 16)), text).encode("latin-1")


def raw_path(text: str) -> bytes:
    """The bytes of a path as `adf-survey` spells it."""
    return b"/".join(map(raw_name, text.split("/")))


def spelled_name(name: bytes) -> str:
    """A name that need not be one, as `adf-survey` spells it: in the escape form, with \\x2f for `/`, \\x3a for `:`, and \\x for no bytes."""
    return escape(name).replace("/", "\\x2f").replace(":", "\\x3a") if name else NO_BYTES


def blocks_text(blocks: range) -> str:
    """A run of blocks as a text."""
    return f"block {blocks[0]}" if len(blocks) == 1 else f"blocks {blocks[0]} to {blocks[-1]}"


def as_spelled(path: str) -> str:
    """The escape form of a path in Latin-1, or of one that `adf-survey` spells, which stays as it is."""
    return SPELLED_OR_RAW.sub(lambda found: found[1] or escape(found[0]), path)
