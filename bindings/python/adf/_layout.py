"""The numbers of images: sizes, types and roles."""

from __future__ import annotations

BLOCK, LEAST_CHUNK = 512, 488
MOST_BLOCKS, MOST_PLAIN_BLOCKS = 8_388_608, 1_048_576  # of a volume, and of one for `adf check` and `adf build`
MOST_BYTES, LARGE = BLOCK * MOST_BLOCKS, BLOCK * MOST_PLAIN_BLOCKS  # of an image; a larger one than this is mapped
MOST_PARTITIONS, MOST_TABLES = 1024, BLOCK * 65536
KINDS = ("ofs", "ffs")
TYPES = (*KINDS, "ofs-international", "ffs-international")
TOLD_TYPES = (*TYPES, "ofs-cached", "ffs-cached")  # of volumes that are checked; no volume of the last two is built
LETTERS = ("ascii", "international")
ROLES = ("free", "boot", "root", "page", "map extension", "header", "extension", "data")
FILE_TYPE = b"\xff\xff\xff\xfd"
LONGEST_NAME, LONGEST_COMMENT = 30, 79
CAPITALS = bytes(byte - 32 if 97 <= byte <= 122 else byte for byte in range(256))
ALL_CAPITALS = bytes(byte - 32 if 224 <= byte <= 254 and byte != 247 else CAPITALS[byte] for byte in range(256))
PART = 1 << 20  # bytes of a file that are read at once
FIRST_ROOM = 2048  # rows of a table for which memory is taken first
