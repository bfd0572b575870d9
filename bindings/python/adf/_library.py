"""The shared library: where it is, its calls, and what they answer."""

from __future__ import annotations

import ctypes
import os
import shutil
from typing import Any

from adf._arguments import Path
from adf._structs import BYTE, LONG, SIZE, WORD, struct
from adf.errors import NoLibrary, NoMemory, Refused

SONAME = "libadf.so.1"
NOT_DOS, NO_MEMORY = 2, 23  # of enum adf_cause
SMALL_ROOM = 24  # what adf_rescue and adf_survey_subject answer, if more room is wanted than was given
LONGEST_TEXT = 64
POINTER = ctypes.c_void_p
# The type of what each call returns, and those of its arguments.
CALLS = {
    "adf_check": (BYTE, POINTER, SIZE, POINTER),
    "adf_check_types": (BYTE, POINTER, SIZE, POINTER),
    "adf_owners": (BYTE, POINTER, SIZE, POINTER, SIZE),
    "adf_owners_types": (BYTE, POINTER, SIZE, POINTER, SIZE),
    "adf_index": (BYTE, POINTER, SIZE, POINTER, SIZE, POINTER, SIZE, POINTER),
    "adf_index_types": (BYTE, POINTER, SIZE, POINTER, SIZE, POINTER, SIZE, POINTER),
    "adf_find": (BYTE, POINTER, SIZE, POINTER, SIZE, POINTER),
    "adf_find_types": (BYTE, WORD, POINTER, SIZE, POINTER, SIZE, POINTER),
    "adf_read": (SIZE, *(POINTER, SIZE) * 3, SIZE, SIZE, POINTER, SIZE),
    "adf_cause_text": (SIZE, BYTE, POINTER, SIZE),
    "adf_version": (WORD,),
    "adf_run": (BYTE, *(POINTER, SIZE) * 4, POINTER),
    "adf_survey_run": (BYTE, *(POINTER, SIZE) * 4, POINTER),
    "adf_survey_subject": (BYTE, POINTER, SIZE, WORD, POINTER, SIZE, POINTER),
    "adf_survey_index": (BYTE, POINTER, SIZE, POINTER, SIZE, POINTER, SIZE, POINTER),
    "adf_survey_links": (BYTE, *(POINTER, SIZE) * 2, POINTER),
    "adf_survey_parts": (BYTE, *(POINTER, SIZE) * 2),
    "adf_survey_owners": (BYTE, *(POINTER, SIZE) * 2),
    "adf_survey_find": (BYTE, *(POINTER, SIZE) * 2, POINTER),
    "adf_found_blocks": (SIZE, *(POINTER, SIZE) * 2, SIZE, WORD, POINTER, SIZE),
    "adf_found_read": (SIZE, POINTER, SIZE, WORD, POINTER, SIZE, SIZE, POINTER, SIZE, POINTER),
    "adf_rescue": (BYTE, POINTER, SIZE, WORD, *(POINTER, SIZE) * 3, POINTER),
    "adf_rescue_types": (BYTE, POINTER, SIZE, WORD, *(POINTER, SIZE) * 3, POINTER),
    "adf_escape": (SIZE, *(POINTER, SIZE) * 2),
    "adf_disk_index": (BYTE, POINTER, SIZE, LONG, POINTER, SIZE, POINTER),
    "adf_disk_cause_text": (SIZE, BYTE, POINTER, SIZE),
    "adf_partition_fault_text": (SIZE, BYTE, POINTER, SIZE),
    "adf_build": (BYTE, *(POINTER,) * 2, SIZE, *(POINTER, SIZE) * 2, POINTER),
    "adf_need": (BYTE, *(POINTER,) * 2, SIZE, POINTER, SIZE, POINTER),
    "adf_boot": (BYTE, POINTER, SIZE, POINTER),
    "adf_boot_install": (BYTE, POINTER, SIZE),
    "adf_boot_copy": (BYTE, *(POINTER, SIZE) * 2),
    "adf_boot_clear": (BYTE, POINTER, SIZE),
}
_loaded: ctypes.CDLL | None = None


def _places() -> list[str]:
    """Where the shared library may be, in the order in which it is looked for."""
    beside, program = os.path.dirname(os.path.abspath(__file__)), shutil.which("adf")
    folders = [os.path.join(beside, "..", "..", "..")]
    if program:
        folders.append(os.path.join(os.path.dirname(os.path.realpath(program)), "..", "lib"))
    own = os.path.join(beside, SONAME)
    return [*([own] if os.path.exists(own) else []), SONAME, *(os.path.join(os.path.normpath(folder), SONAME) for folder in folders)]


def load(path: str | os.PathLike[str] | None = None) -> ctypes.CDLL:
    """Takes the shared library from here on, as the head of `adf` says; NoLibrary if it cannot be loaded."""
    global _loaded
    given, said = path or os.environ.get("ADF_LIBRARY"), None
    for place in [os.path.abspath(given)] if given else _places():
        try:
            library = ctypes.CDLL(place)
            for call, (answer, *types) in CALLS.items():
                getattr(library, call).restype, getattr(library, call).argtypes = answer, types
            _loaded = library
            return library
        except (OSError, AttributeError) as error:
            said = said or error
    raise NoLibrary(f"no shared library of adf ({said}); ADF_LIBRARY may name it")


def calls() -> ctypes.CDLL:
    """The shared library, which is loaded when it is asked for first."""
    return _loaded or load()


def library_path() -> str:
    """The file of the shared library that is loaded."""
    found = struct("Dl_info", ("name", ctypes.c_char_p), ("base", POINTER), ("symbol", ctypes.c_char_p), ("place", POINTER))()
    if not ctypes.CDLL(None).dladdr(ctypes.cast(calls().adf_check, POINTER), ctypes.byref(found)):
        raise NoLibrary("the system does not tell the file of the shared library")
    return os.fsdecode(found.name)


def library_version() -> int:
    """The version of the shared library: 10000 for each major version, 100 for each minor one."""
    return int(calls().adf_version())


def text_of(call: Any, number: int) -> str:
    """The text that a call of the library has for a number."""
    room = ctypes.create_string_buffer(LONGEST_TEXT)
    length = call(number, room, len(room))
    return room.raw[:length].decode("ascii")


def cause_text(number: int) -> str:
    """The text of a cause."""
    return text_of(calls().adf_cause_text, number)


def accept(number: int, block: int, filename: Path | None = None) -> None:
    """Nothing if the number of a cause is 0; else NoMemory, or Refused at this block of the file."""
    if number == NO_MEMORY:
        raise NoMemory
    if number != 0:
        raise Refused(cause_text(number), block, number, filename)
