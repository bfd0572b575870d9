"""Volumes of what stands in a damaged image: adf.Rescued."""

from __future__ import annotations

import functools
from typing import Any

from adf import _arguments, _sizes
from adf._arguments import Image, Mapped, Path
from adf._rescues import LeftOut, counts, rescue
from adf.checks import check
from adf.deleted import Deleted
from adf.entries import Entry
from adf.errors import Closed, Refused
from adf.findings import Findings, Found
from adf.surveys import Survey
from adf.volumes import Volume


class Rescued(Volume):
    """The volume of what stands in an image that is refused: its rescue, in memory, with the letters of the image. `left_out` is what is not
    in it, and what is in it in doubt, and `findings` all that is wrong with the image, by its `survey`; `refused` says why it is refused.
    Its blocks, and the headers of its entries, are not those of the image. Refused if nothing stands."""

    _given: tuple[bytes | Mapped, Path | None, int | None] | None
    _left_out: list[LeftOut]

    def __init__(self, image: Image, filename: Path | None = None, blocks: int | None = None) -> None:
        given, blocks = _arguments.plain(image), _sizes.number_of_blocks(blocks)
        try:
            new, left_out = rescue(given, blocks, keep_type=True)
        except Refused as refused:
            raise Refused(refused.cause, refused.block, refused.number, filename) from None
        super().__init__(new, filename)
        vars(self).update(_given=(given, filename, blocks), _left_out=left_out)

    def __repr__(self) -> str:
        return f"{super().__repr__()[:-1].replace('Volume', 'Rescued', 1)}, {counts(self.left_out)}>"

    def __reduce__(self) -> Any:
        """Pickled as its image, which is rescued again."""
        image, *how = self._image_given
        return Rescued, (image[:], *how)

    def close(self) -> None:
        super().close()
        vars(self).update(_given=None)
        for name in ("survey", "_places", "_headers"):
            vars(self).pop(name, None)

    @property
    def _image_given(self) -> tuple[bytes | Mapped, Path | None, int | None]:
        """The image that was rescued, its file, and its blocks; Closed if they are given back."""
        given = self._given
        if given is None:
            raise Closed("the volume is closed")
        return given

    @property
    def left_out(self) -> list[LeftOut]:
        return list(self._left_out)

    @functools.cached_property
    def survey(self) -> Survey:
        """The survey of the image, made when it is asked for first."""
        image, _, blocks = self._image_given
        return Survey(image, blocks)

    def entry_of(self, found: Found) -> Entry | None:
        """The entry of this volume that is an entry of `survey`; None if it is left out."""
        self._accept_open()
        return self._entry(self._places[found.number]) if found.number in self._places else None

    @functools.cached_property
    def _places(self) -> dict[int, int]:
        """The numbers of entries, by those of the entries of the survey that they are. An entry whose name is not a name, or is used
        already, is called lost- and its block."""
        left_out = {each.first for each in self._left_out if each.is_entry and not each.is_kept and not each.is_noted}
        named, places = {(entry.parent, entry.raw_name): entry.number for entry in self.entries}, {0: 0}
        for found in self.survey.entries:
            if found.parent in places and found.header not in left_out:
                parent = places[found.parent]
                name = found.raw_name if (parent, found.raw_name) in named else b"lost-%d" % found.header
                if (parent, name) in named:
                    places[found.number] = named.pop((parent, name))
        return places

    @functools.cached_property
    def _headers(self) -> dict[int, int]:
        """The blocks of the headers that the survey finds, by the numbers of the entries that they are here."""
        found = self.survey.entries
        return {place: found[number - 1].header for number, place in self._places.items() if number}

    def _block_of(self, number: int) -> int:
        return self._headers.get(number, 0)

    @property
    def findings(self) -> Findings:
        return self.survey.findings

    @property
    def deleted(self) -> list[Deleted]:
        """What was deleted from the image, by its `survey`."""
        return self.survey.deleted

    @functools.cached_property
    def refused(self) -> Refused | None:
        """Why the image is refused, read as if it had the blocks that were asked for; None if it is sound."""
        image, filename, blocks = self._image_given
        try:
            check(_sizes.sized(image, blocks), international=True)
        except Refused as refused:
            return Refused(refused.cause, refused.block, refused.number, filename)
        return None
