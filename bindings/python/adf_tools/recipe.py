"""adf-recipe: writes the manifest of an image; `adf build` of it gives the same tree, or `adf-edit -o NEW`, which takes types 2 and 3 too
(docs/adf-recipe.1). Of a damaged image it is that of what stands."""

from __future__ import annotations

import argparse
import sys
from typing import Iterator

import adf
from adf_tools.given import add_image, add_strict, given
from adf_tools.program import REFUSED, begin, command_line, manifest_of, run_lines, stop


def parts_of(entry: adf.Entry) -> Iterator[bytes]:
    """The bytes of a file, in parts."""
    return (entry.read(at, adf.PART) for at in range(0, entry.size, adf.PART))


def entry_lines(entry: adf.Entry) -> Iterator[str]:
    kind = "file" if entry.is_file else "dir"
    yield f"{kind} {entry.date.stamp} {entry.protection:08x} {adf.escape(entry.raw_path)}"
    if entry.raw_comment:
        yield f"note {adf.escape(entry.raw_comment)}"
    if entry.is_file:
        yield from run_lines(parts_of(entry))


def lines_of(volume: adf.Volume) -> Iterator[str]:
    yield f"volume {volume.kind.replace('-cached', '-international')} {volume.blocks}"  # no volume has new caches
    if volume.raw_label:
        yield f"label {adf.escape(volume.raw_label)}"
    yield f"stamps {volume.date.stamp} {volume.altered.stamp} {volume.created.stamp}"
    for entry in volume.entries:
        yield from entry_lines(entry)


def work(words: argparse.Namespace) -> int:
    image = given(words)
    volume = image.volume(words.strict)
    if volume.blocks > adf.MOST_PLAIN_BLOCKS:
        stop(REFUSED, image.line(f"{volume.blocks} blocks: a manifest has at most {adf.MOST_PLAIN_BLOCKS}"))
    sys.stdout.buffer.write(manifest_of(lines_of(volume)))
    return image.tell("adf-recipe", volume)


def main() -> None:
    line = command_line("adf-recipe", "Writes the manifest of an image, or of what stands of it; adf build of it gives the same tree.")
    add_image(line)
    add_strict(line)
    begin(line, work)


if __name__ == "__main__":
    main()
