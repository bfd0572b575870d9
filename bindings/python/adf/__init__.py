"""Volumes of Amiga floppies and hard disks, checked once and then read: adf for Python, over its shared library.

    import adf

    volume = adf.open("games.adf")                  # of a damaged image what stands of it; adf.Refused if nothing does
    print(adf.escape(volume.label), volume.kind, volume.free, volume.created)
    for each in volume.left_out:                    # what is not in it, or in doubt: nothing for a sound image, else as `damaged: c/list`
        print(each)
    volume = adf.open("games.adf", strict=True)     # or adf.Refused: .filename, .block and .cause, as "bad sum"
    for entry in volume.entries:
        print(entry.path_text, entry.size, entry.date, adf.escape(entry.comment))
    start = volume["s/startup-sequence"].read()     # bytes; the case of its letters does not count; KeyError where nothing is there
    file = volume["c/list"].open()                  # a file of Python, which seeks
    rows = [entry._asdict() for entry in volume.entries]  # as for pandas.DataFrame(rows)
    volume = adf.open("games.zip/disk1.adf")        # a packed image; also adf.open(io.BytesIO(image)), or any file open for bytes
    for path, directories, files in volume.walk():  # as os.walk
        print(adf.escape(path), directories, files)
    roles = volume.owners()                         # a byte for each block: adf.ROLES[roles[880]] is "root"
    with adf.open("large.hdf") as volume:           # at the end the memory is given back
        print(volume.used)
    found = adf.survey(image)                       # of a damaged image: found.findings, found.entries, found.read("c/list")
    left, lost = found.remains("c/list")            # what is left of a damaged file, and the ranges of its bytes that are lost
    pieces = found.entries[0].pieces()              # the same by number: each run of bytes that is found, with its place in the file
    to = {each.entry.path: each.target for each in found.links}  # what links lead to: an entry, or the bytes of a path
    whole = [each.read() for each in found.deleted if each.is_whole and each.is_file]   # what was deleted and still stands
    new, left_out = adf.rescue(image)               # a sound volume of all that stands; what it leaves out, and what it keeps in doubt
    image = adf.build("ffs", None, [adf.Addition("c"), adf.Addition("c/list", b"..")], "Work")  # a new volume, here as small as may be
    image = adf.with_boot(image, volume.boot)       # with the boot blocks of another: .is_bootable, .has_code, .crc
    disk = adf.Disk(image)                          # of a whole hard disk: for row in disk, disk["DH0"], adf.Volume(disk.volume("DH0"))

Texts are in Latin-1, as Amigas have them, so each byte is one character and nothing is lost; where a path is given, bytes do
as well, and mean themselves. `raw_label`, `raw_name`, `raw_path` and `raw_comment` are the bytes. Any byte but `/` and `:` may be in a
name, also one that a terminal obeys: adf.escape(text) is fit to print, and adf.unescape the way back; `entry.path_text` is that of a path,
or of a long one `\\block B/` and its last names. Of a damaged image even these may be in a name: the paths of what is found there, and of
what is left out, are spelled as by adf-survey, and fit to print as they are. No path is one of the host: a name may be `..`.

The shared library is the one that `adf.load(path)` is given; else the one that ADF_LIBRARY names; else that beside this file;
else libadf.so.1, where the loader finds it; else that in PREFIX/lib, if this module is installed in PREFIX or the program
PREFIX/bin/adf is on the path. include/adf.h says what its calls promise. Threads may share a volume.

What the module itself raises is an adf.Error, and also the error of Python that fits: so adf.NoSuchPath is a KeyError, adf.NoMemory
a MemoryError. A file that cannot be read is an OSError, and a wrong argument a TypeError or ValueError, as everywhere.
"""

from adf._arguments import Buffer, EntryPath, Image, Path
from adf._layout import BLOCK, KINDS, LETTERS, MOST_BYTES, PART, ROLES, TYPES
from adf._library import library_path, library_version, load
from adf._rescues import LeftOut, Reason, rescue
from adf._sources import Source, read_image
from adf._texts import escape, unescape
from adf.boots import BadBoot, Boot, with_boot, with_standard_boot, without_boot
from adf.building import Addition, NotBuilt, build
from adf.checks import Verdict, check
from adf.commands import Answer, run
from adf.dates import Date
from adf.deleted import Deleted
from adf.disks import Disk, Partition, partitions
from adf.entries import Entries, Entry, File
from adf.errors import Closed, Damaged, DamagedWarning, Error, NoLibrary, NoMemory, NoSuchPath, NotAFile, NotUnpacked, Refused
from adf.findings import Finding, Findings, Found
from adf.links import Link
from adf.opening import open, open_image
from adf.rescued import Rescued
from adf.surveys import Survey, survey
from adf.volumes import Volume

# What adf_tools takes besides, which __all__ does not promise.
from adf._layout import CAPITALS as CAPITALS, LONGEST_COMMENT as LONGEST_COMMENT, LONGEST_NAME as LONGEST_NAME
from adf._layout import LARGE as LARGE, MOST_BLOCKS as MOST_BLOCKS, MOST_PARTITIONS as MOST_PARTITIONS
from adf._layout import MOST_PLAIN_BLOCKS as MOST_PLAIN_BLOCKS, MOST_TABLES as MOST_TABLES
from adf._library import SONAME as SONAME
from adf.dates import EPOCH as EPOCH

__all__ = [
    "Addition", "Answer", "BLOCK", "BadBoot", "Boot", "Buffer", "Closed", "Damaged", "DamagedWarning", "Date", "Deleted", "Disk",
    "Entries", "Entry", "EntryPath", "Error", "File", "Finding", "Findings", "Found", "Image", "KINDS", "LETTERS", "LeftOut", "Link",
    "MOST_BYTES", "NoLibrary", "NoMemory", "NoSuchPath", "NotAFile", "NotBuilt", "NotUnpacked", "PART", "Partition", "Path", "ROLES",
    "Reason", "Refused", "Rescued", "Source", "Survey", "TYPES", "Verdict", "Volume", "build", "check", "escape", "library_path",
    "library_version", "load", "open", "open_image", "partitions", "read_image", "rescue", "run", "survey", "unescape", "with_boot",
    "with_standard_boot", "without_boot",
]  # fmt: skip
__version__ = "1.1"
