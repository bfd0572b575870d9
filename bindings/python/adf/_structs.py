"""The structs of include/adf.h, each with its name and its fields."""

from __future__ import annotations

import ctypes
from typing import Any

WORD, LONG, BYTE, BOOL, SIZE = ctypes.c_uint32, ctypes.c_uint64, ctypes.c_uint8, ctypes.c_bool, ctypes.c_size_t


def struct(name: str, *fields: tuple[str, Any]) -> Any:
    """A struct of C: its name, and the names of fields with their type."""
    each = [(field, kind) for names, kind in fields for field in names.split()]
    return type(name, (ctypes.Structure,), {"_fields_": each})


Date = struct("adf_date", ("days mins ticks", WORD))
DATES, LABEL = ("root altered created", Date), (("label_length", BYTE), ("label", BYTE * 30))
COMMENT = (("comment_length", BYTE), ("comment", BYTE * 79))

Verdict = struct("adf_verdict", ("kind blocks used free", WORD), ("dirs files", SIZE), ("block", WORD))
Entry = struct(
    "adf_entry", ("parent header size first protection", WORD), ("date", Date), ("is_file name_length", BYTE), ("name", BYTE * 30),
    *COMMENT,
)
Contents = struct("adf_contents", ("kind blocks used free", WORD), ("entries data_blocks", SIZE), ("block", WORD), DATES, *LABEL)

Finding = struct("adf_finding", ("first last", WORD), ("node owner", SIZE), ("cause is_within", BYTE))
Found = struct(
    "adf_found", ("parent", SIZE), ("header size protection", WORD), ("date", Date), ("is_file is_sound name_length", BYTE),
    ("name", BYTE * 79), *COMMENT,
)
Link = struct("adf_link", ("node target path path_length", SIZE), ("header", WORD), ("kind", BYTE))
Part = struct("adf_part", ("node", SIZE), ("number", WORD))
Subject = struct("adf_subject", ("length", SIZE), ("held", WORD), ("is_begun is_retyped", BYTE))
Surveyed = struct("adf_surveyed", ("kind blocks", WORD), ("findings entries", SIZE), DATES, *LABEL)
Loss = struct("adf_loss", ("path path_length", SIZE), ("first last", WORD), ("why", BYTE))
RescueTold = struct("adf_rescue_told", ("losses paths", SIZE), ("blocks block", WORD))

Partition = struct(
    "adf_partition", ("first blocks", LONG), ("block flags", WORD), ("priority", ctypes.c_int32), ("dos_type", WORD),
    ("fault name_length", BYTE), ("name", BYTE * 31),
)
Disk = struct("adf_disk", ("partitions", SIZE), ("block", WORD), ("cause", BYTE))

Addition = struct(
    "adf_addition", ("parent begin size", SIZE), ("protection", WORD), ("date", Date), ("is_file name_length", BYTE),
    ("name", BYTE * 30), *COMMENT,
)
NewVolume = struct("adf_new_volume", ("kind blocks", WORD), DATES, *LABEL)
Built = struct("adf_built", ("addition", SIZE), ("need have", LONG), ("blocks", WORD))

BootBlocks = struct("adf_boot_blocks", ("crc", WORD), ("begins_with_dos volume_type has_right_sum is_bootable has_code", BYTE))
Moved = struct("adf_moved", ("input output errors", SIZE), ("output_full errors_full", BOOL))
