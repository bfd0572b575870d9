"""The numbers of a volume: adf.check and adf.Verdict."""

from __future__ import annotations

import ctypes
from typing import NamedTuple

from adf import _arguments, _structs
from adf._arguments import Image
from adf._layout import TOLD_TYPES
from adf._library import accept, calls


class Verdict(NamedTuple):
    """The numbers of a volume, as `adf check` writes them."""

    kind: str
    blocks: int
    used: int
    free: int
    dirs: int
    files: int


def check(image: Image, international: bool = False) -> Verdict:
    """The numbers of the volume that has this image; Refused where none has. If international letters are accepted too (types 2
    and 3), so are those with right directory caches (types 4 and 5) and of up to 4 GiB in place of 512 MiB, and the kind is one of TYPES,
    as `ffs-international`, or `ofs-cached` or `ffs-cached`."""
    image, verdict = _arguments.plain(image), _structs.Verdict()
    call = calls().adf_check_types if international else calls().adf_check
    accept(call(image, len(image), ctypes.byref(verdict)), verdict.block)
    return Verdict(TOLD_TYPES[verdict.kind], *(getattr(verdict, name) for name in Verdict._fields[1:]))
