"""Icons of disks and drawers, the files that end in .info, as pictures (docs/FORMAT.md, "Icons"). One that is not as it should be has
no picture."""

from __future__ import annotations

import struct
import zlib
from typing import Any, Dict, List, NamedTuple, Optional

from adf_tools.markup import Html, html, joined
from adf_tools.picture import RUN

MARK, VERSION = 0xE310, 1
GADGET, OBJECT, DRAWER, IMAGE = 4, 78, 56, 20  # where the gadget begins; the lengths of the parts
MOST_SIDE, MOST_DEPTH, MOST_BYTES = 640, 8, 1 << 18  # pixels, planes, bytes of an icon
OLD = ("#0055aa", "#ffffff", "#000000", "#ff8800")
NEW = ("#aaaaaa", "#000000", "#ffffff", "#6688bb", "#999999", "#bbbbbb", "#bb9977", "#ffbbaa")
PALETTES = (OLD, NEW)
BITS = [bytes(byte >> (7 - place) & 1 for byte in range(256)) for place in range(8)]  # of each byte the bit at a place, from the highest
SVG = """<svg xmlns="http://www.w3.org/2000/svg" width="{width}" height="{height}" viewBox="0 0 {width} {height}" role="img" \
aria-label="{name}" shape-rendering="crispEdges">{paths}</svg>"""


class Icon(NamedTuple):
    """A picture: its width and height, which palette it has, and a byte for each pixel, row after row."""

    width: int
    height: int
    palette: int
    pixels: bytes


def icon_of(content: bytes) -> Optional[Icon]:
    """The first picture of an icon, if the file is one."""
    try:
        mark, version, is_new = *struct.unpack_from(">HH", content), content[GADGET + 43] & 1
        (drawer,) = struct.unpack_from(">I", content, 66)
        if (mark, version) != (MARK, VERSION):
            return None
        begin = OBJECT + (DRAWER if drawer else 0)
        width, height, depth = struct.unpack_from(">HHH", content, begin + 4)
        if not (0 < width <= MOST_SIDE and 0 < height <= MOST_SIDE and 0 < depth <= MOST_DEPTH):
            return None
        used, rest = content[begin + 14], content[begin + 15]
        pixels = chunky(content, begin + IMAGE, (width, height, depth), used, rest)
        return None if pixels is None else Icon(width, height, is_new, pixels)
    except (struct.error, IndexError):
        return None


def spread(plane: bytes) -> int:
    """A byte for each bit of a plane, as one number."""
    room = bytearray(8 * len(plane))
    for place, bits in enumerate(BITS):
        room[place::8] = plane.translate(bits)
    return int.from_bytes(room, "big")


def chunky(content: bytes, begin: int, size: tuple[int, int, int], used: int, rest: int) -> Optional[bytes]:
    """The colour of each pixel, by the planes that follow one another, each used for the next bit that is set."""
    width, height, depth = size
    line = -(-width // 16) * 2
    plane = line * height
    if begin + depth * plane > len(content):
        return None
    colours, at = 0, begin
    for bit in range(depth):
        if used >> bit & 1:
            colours |= spread(content[at : at + plane]) << bit
            at += plane
        elif rest >> bit & 1:
            colours |= int.from_bytes(b"\1" * (8 * plane), "big") << bit
    rows = colours.to_bytes(8 * plane, "big")
    return b"".join(rows[8 * line * y : 8 * line * y + width] for y in range(height))


def pixels_of(packed: Any, count: int) -> Optional[bytes]:
    """The pixels that a database keeps, if they are as many."""
    try:
        pixels = zlib.decompressobj().decompress(packed, count + 1) if isinstance(packed, bytes) else b""
    except zlib.error:
        return None
    return pixels if len(pixels) == count else None


def icon_picture(name: str, icon: Icon, most: int) -> Optional[Html]:
    """The picture as SVG, in which a pixel is twice as high as wide, as on the screens that icons are made for; none if it has more letters
    than are wanted."""
    palette = PALETTES[icon.palette]
    pixels = icon.pixels.translate(bytes(colour % len(palette) for colour in range(256)))
    lines: Dict[int, List[str]] = {}
    letters = 0
    for y in range(icon.height):
        for run in RUN.finditer(pixels[y * icon.width : (y + 1) * icon.width]):
            piece = f"M{run.start()} {2 * y + 1}h{len(run[0])}"
            lines.setdefault(run[1][0], []).append(piece)
            letters += len(piece)
        if letters > most:
            return None
    path = '<path stroke="{colour}" stroke-width="2" d="{lines}"/>'
    paths = joined(html(path, colour=palette[colour], lines="".join(lines[colour])) for colour in sorted(lines))
    return html(SVG, width=icon.width, height=2 * icon.height, name=name, paths=paths)
