"""What is read of an image of which some blocks were not read, by its definition (crates/adf_unread)."""

from struct import pack_into, unpack_from

PATTERNS = (bytes(16), b"\xf6" * 16, b"\xde\xad\xbe\xef" * 4, b"-=[BAD SECTOR]=-")


def word(image, b, i):
    return unpack_from(">I", image, 512 * b + 4 * i)[0]


def blank(image):
    """The blocks of an image that are one of the patterns over and over."""
    return {b for b in range(len(image) // 512) if bytes(image[512 * b : 512 * b + 512]) in {p * 32 for p in PATTERNS}}


def is_plain_table(image, b):
    """The block claims to be the header or an extension block of a file, and none of its blocks says that it is an OFS data block of it."""
    if word(image, b, 0) not in (2, 16) or word(image, b, 127) != 2**32 - 3 or word(image, b, 1) != b:
        return False
    h, blocks = b if word(image, b, 0) == 2 else word(image, b, 125), len(image) // 512
    named = unpack_from(">72I", image, 512 * b + 24)
    return not any(p < blocks and (word(image, p, 0), word(image, p, 1)) == (8, h) for p in named)


def without(unread, image):
    """The image with zeros in the blocks that were not read, and 0 in the words of files' tables that lead to them; sums stay as they were."""
    new = bytearray(image)
    for b in unread:
        if 512 * b + 512 <= len(new):
            new[512 * b : 512 * b + 512] = bytes(512)
    for b in range(len(new) // 512):
        if is_plain_table(new, b):
            for i in range(6, 78):
                p = word(new, b, i)
                if p in unread:
                    pack_into(">I", new, 512 * b + 20, (word(new, b, 5) + p) % 2**32)
                    pack_into(">I", new, 512 * b + 4 * i, 0)
    return bytes(new)
