"""Checksums of images, and of their boot blocks."""

from __future__ import annotations

import hashlib
import zlib
from typing import Iterable, NamedTuple, Optional

import adf


class Sums(NamedTuple):
    """The checksums of bytes, as hexadecimal digits; the first three are none where they are not wanted."""

    crc32: Optional[str]
    md5: Optional[str]
    sha1: Optional[str]
    sha256: str


def sums_of(parts: Iterable[adf.Image], has_all: bool = True) -> Sums:
    """The checksums of bytes that come in parts: all, or the SHA-256 alone."""
    crc, digests = 0, {name: hashlib.new(name) for name in (Sums._fields[1:] if has_all else ["sha256"])}
    for part in parts:
        crc = zlib.crc32(part, crc) if has_all else crc
        for digest in digests.values():
            digest.update(part)
    found = {name: digest.hexdigest() for name, digest in digests.items()}
    return Sums(f"{crc:08x}" if has_all else None, found.get("md5"), found.get("sha1"), found["sha256"])


def boot_facts(content: adf.Image) -> dict[str, object]:
    """Whether an Amiga starts the boot blocks of an image, their CRC-32, and whether their checksum is right; nothing if the image is
    shorter."""
    try:
        boot = adf.Boot.of(content)
    except adf.BadBoot:
        return {}
    return {"boot": boot.state, "boot_crc32": f"{boot.crc:08x}", "boot_is_right": boot.has_right_sum}
