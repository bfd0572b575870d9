"""Protection bits as AmigaDOS lists them: a letter for what is set, but of rwed for what is not forbidden."""

from __future__ import annotations

LETTERS, FORBIDDING = "hsparwed", 0xF


def protection_text(protection: int) -> str:
    """The letters of the low eight bits, `-` for each that is not there."""
    bits = protection ^ FORBIDDING
    return "".join(letter if bits >> 7 - place & 1 else "-" for place, letter in enumerate(LETTERS))


def protection_of(text: str) -> int:
    """The bits that have these letters."""
    return sum((character != "-") << 7 - place for place, character in enumerate(text)) ^ FORBIDDING
