"""The volumes of images: adf.open and adf.open_image."""

from __future__ import annotations

import warnings

from adf import _arguments, _packed, _sizes, _sources, _texts
from adf._arguments import Image, Mapped, Path
from adf._layout import BLOCK, MOST_BYTES
from adf._rescues import counts
from adf._sources import Source
from adf.errors import DamagedWarning, Refused, shown
from adf.rescued import Rescued
from adf.volumes import Volume


def open(source: Source, *, strict: bool = False, blocks: int | None = None) -> Volume:
    """The volume of an image in a file, or in an open one, as `open_image` of its bytes: also of a packed image (.adz, .gz, .zip, .dms,
    .lha), and of "games.zip/disk1.adf". A file of more than 512 MiB is mapped: nothing may write it while the volume is open. OSError if it
    cannot be read, NotUnpacked if it cannot be unpacked."""
    blocks = _sizes.number_of_blocks(blocks)
    with _sources.opened(source) as (file, member, name):
        image = _sources.image_in(file, member, name, blocks)
    return _opened(image, name, strict, blocks)


def open_image(image: Image, filename: Path | None = None, *, strict: bool = False, blocks: int | None = None) -> Volume:
    """The volume of an image of type 0 to 3. If the image is refused, a DamagedWarning says so, and the volume is a Rescued one, that of
    what stands: `left_out` is what is not in it, and what is in it in doubt. Refused if nothing stands, or with `strict` if the image is
    not a volume. With a number of blocks it is read as if it had so many; those that it does not have are lost."""
    return _opened(_arguments.plain(image), filename, strict, _sizes.number_of_blocks(blocks))


def _opened(image: bytes | Mapped, filename: Path | None, strict: bool, blocks: int | None) -> Volume:
    """What `open` and `open_image` give."""
    given = _sizes.cut(image, blocks)
    try:
        return _volume(given, filename, strict, blocks)
    except Refused as refused:
        hint = "" if blocks is not None else _packed.no_volume(given, len(given)) or _packed.foreign(given)
        raise Refused(refused.cause, refused.block, refused.number, filename, hint) from None


def _volume(given: bytes | Mapped, filename: Path | None, strict: bool, blocks: int | None) -> Volume:
    """The volume of an image, or that of what stands of it; the warning is told of the caller of `open` or `open_image`."""
    if strict or len(given) > MOST_BYTES or len(given) == BLOCK * (len(given) // BLOCK if blocks is None else blocks):
        try:
            return Volume(given, filename)
        except Refused:
            if strict or blocks is None and _packed.no_volume(given, len(given)):
                raise
    volume = Rescued(given, filename, blocks)
    missing = range(len(given) // BLOCK, blocks or 0)
    why = f"{'image' if filename is None else shown(filename)}: {_texts.blocks_text(missing)}: no data" if missing else str(volume.refused)
    warnings.warn(f"{why}: {counts(volume.left_out)} (volume.left_out)", DamagedWarning, stacklevel=4)
    return volume
