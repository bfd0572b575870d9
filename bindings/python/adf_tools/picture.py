"""A picture of a volume as SVG: a square for each block, coloured by its role; and one of a whole hard disk, a square for
each of its partitions' parts. adf-map and adf-catalogue draw them."""

from __future__ import annotations

import functools
import html
import re
from typing import Any, Iterable, Mapping, NamedTuple, Sequence

import adf

CYLINDER = 22
STEP, SIDE, MARGIN = 10, 9, 12
LINE, LEGEND = 20, 17
UNKNOWN, NOTED, MISSING = range(len(adf.ROLES), len(adf.ROLES) + 3)
NAMES = (*adf.ROLES, "unknown", "has a finding", "missing")
COLOURS = ("#e8e8e8", "#333333", "#2ca02c", "#9467bd", "#c5b0d5", "#ff7f0e", "#bcbd22", "#1f77b4", "#bbbbbb", "#d62728", "#ffc0cb")
FAULT = "#d62728"
RUN = re.compile(rb"(.)\1*", re.DOTALL)
MOST_SQUARES, OUTSIDE, TABLES, OWN = 4096, 0, 1, 2  # of a disk; what its squares are: outside of partitions, tables, the first partition
DISK_COLOURS = ("#e8e8e8", "#333333", "#1f77b4", "#ff7f0e", "#2ca02c", "#9467bd", "#8c564b", "#e377c2", "#bcbd22", "#17becf", "#777777")


class Fault(NamedTuple):
    """The fault of a refused image: its block, and its text."""

    block: int
    text: str

    def __str__(self) -> str:
        return self.text


class Roles(NamedTuple):
    """What the squares of a picture are: what each role is called, and its colour. A role without a count is called by its name
    alone."""

    names: Sequence[str]
    colours: Sequence[str]
    has_counts: bool = True

    def text(self, role: int, roles: bytes) -> str:
        return f"{self.names[role]}: {roles.count(role)}" if self.has_counts else self.names[role]


VOLUME = Roles(NAMES, COLOURS)


def roles_of_refused(survey: adf.Survey, owners: bytes) -> bytes:
    """The roles of a refused image: what its survey finds at a block, that the block has a finding, or that nobody knows."""
    roles = bytearray(owners.replace(b"\0", bytes([UNKNOWN])))
    for blocks in survey.ranges():
        inside = range(blocks.start, min(blocks.stop, len(roles)))
        roles[blocks.start : blocks.start + len(inside)] = bytes([NOTED]) * len(inside)
    return bytes(roles)


def without(roles: bytes, missing: range) -> bytes:
    """The roles of a volume whose last blocks, these, are missing."""
    return roles[: missing.start] + bytes([MISSING]) * len(missing) if missing else roles


def width_of(count: int) -> int:
    """The blocks of a row: a cylinder of a floppy, 22, or 44 of one of high density; of larger volumes 88, 176 and so on."""
    width = CYLINDER
    while count > 4 * width * width:
        width *= 2
    return width


def lines_of(roles: bytes, width: int) -> dict[int, str]:
    """For each role the path of its blocks: a line for each run in a row, which is dashed into squares."""
    found: dict[int, list[str]] = {}
    for top in range(0, len(roles), width):
        y = str(top // width * STEP + SIDE / 2)
        for role, begin, length in runs_of(roles[top : top + width]):
            found.setdefault(role, []).append(f"M{begin} {y}h{length}")
    return {role: "".join(found[role]) for role in sorted(found)}


@functools.lru_cache(maxsize=1024)
def runs_of(row: bytes) -> list[tuple[int, int, int]]:
    """The runs of a row, which is kept, since most rows are like others: the role, where it begins, and how long it is."""
    return [(run[1][0], run.start() * STEP, len(run[0]) * STEP) for run in RUN.finditer(row)]


def escape(text: str) -> str:
    """A text as the contents of an element. The module of XML that has this loads one for the network."""
    return html.escape(text, quote=False)


def attribute(text: str) -> str:
    """A text as the value of an attribute, in quotes."""
    plain = escape(text).replace("\n", "&#10;").replace("\r", "&#13;").replace("\t", "&#9;")
    if '"' not in plain:
        return f'"{plain}"'
    return f"'{plain}'" if "'" not in plain else '"' + plain.replace('"', "&quot;") + '"'


def mark(x: int, y: int) -> str:
    """A frame round the block of a fault, and a cross over it."""
    frame = f"M{x - 3} {y - 3}h{SIDE + 6}v{SIDE + 6}h-{SIDE + 6}z"
    return f'<path d="{frame}M{x} {y}l{SIDE} {SIDE}M{x + SIDE} {y}l-{SIDE} {SIDE}" fill="none" stroke="{FAULT}" stroke-width="2"/>'


def legend(parts: Iterable[tuple[str, str]], top: int) -> list[str]:
    """A line for each part: what is drawn, and its text."""
    lines = []
    for i, (drawn, text) in enumerate(parts):
        y = top + i * LEGEND
        lines.append(f'<g transform="translate(0 {y})">{drawn}</g><text x="{LINE}" y="{y + SIDE}">{escape(text)}</text>')
    return lines


def picture(title: str, roles: bytes, refused: Fault | None = None, name: str = "", told: Roles = VOLUME) -> str:
    """The picture of these roles, a byte for each square; of a refused image the block of its fault is marked, and says why. It is
    called by this name where it is not seen."""
    width = width_of(len(roles))
    rows, paths = -(-len(roles) // width), lines_of(roles, width)
    parts = [(f'<rect width="{SIDE}" height="{SIDE}" fill="{told.colours[r]}"/>', told.text(r, roles)) for r in paths]
    if refused is not None:
        parts.insert(0, (mark(0, 0), str(refused)))
    top = MARGIN + LINE if title else MARGIN
    high = top + rows * STEP + LINE + len(parts) * LEGEND + MARGIN
    wide = 2 * MARGIN + max(width * STEP, *(8 * len(text) for text in (title, *(text for _, text in parts))))
    font = 'font-family="sans-serif" font-size="11"'
    seen = f'role="img" aria-label={attribute(name or title)}'
    lines = [f'<svg xmlns="http://www.w3.org/2000/svg" width="{wide}" height="{high}" viewBox="0 0 {wide} {high}" {font} {seen}>']
    lines.append('<rect width="100%" height="100%" fill="#ffffff"/>')
    if title:
        lines.append(f'<title>{escape(title)}</title><text x="{MARGIN}" y="{LINE}">{escape(title)}</text>')
    lines.append(f'<g transform="translate({MARGIN} {top})">')
    lines.append(f'<g fill="none" stroke-width="{SIDE}" stroke-dasharray="{SIDE} {STEP - SIDE}">')
    lines += (f'<path stroke="{told.colours[role]}" d="{path}"><title>{escape(told.names[role])}</title></path>' for role, path in paths.items())
    lines.append("</g>")
    if refused is not None and refused.block < len(roles):
        lines.append(mark(refused.block % width * STEP, refused.block // width * STEP))
    lines += legend(parts, rows * STEP + LINE)
    return "\n".join(lines) + "\n</g>\n</svg>\n"


# Whole disks


def disk_picture(title: str, blocks: int, partitions: Sequence[Mapping[str, Any]], name: str = "", refused: Fault | None = None) -> str:
    """The picture of a whole hard disk, by its partitions: a square stands for so many blocks that there are not too many squares."""
    unit = 1
    while blocks > unit * MOST_SQUARES:
        unit *= 2
    squares = bytearray(-(-blocks // unit))
    squares[:1] = bytes([TABLES])[: len(squares)]
    names = ["outside of partitions", "tables"]
    placed = [row for row in partitions if row["blocks"] and 0 <= row["first"] < blocks]
    last = len(DISK_COLOURS) - 1
    for place, row in enumerate(placed):
        begin, end = row["first"] // unit, min(-(-(row["first"] + row["blocks"]) // unit), len(squares))
        squares[begin:end] = bytes([min(OWN + place, last)]) * (end - begin)
        if OWN + place < last:
            names.append(f"{row['name'] or row['number']}: block {row['first']} to {row['first'] + row['blocks'] - 1}, {row['kind']}")
    fault = None if refused is None else refused._replace(block=refused.block // unit)
    legend_title = f"{title}; a square is {unit} blocks" if title else ""
    return picture(legend_title, bytes(squares), fault, name, Roles((*names, "further partitions"), DISK_COLOURS, False))
