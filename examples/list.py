"""Lists an image, or writes one of its files: python3 list.py games.adf [PATH].

Paths are in the escape form: a name may have bytes that a terminal obeys.
"""

import sys

import adf

try:
    volume = adf.open(sys.argv[1])  # of a damaged image, what stands, with a warning
    if sys.argv[2:]:
        sys.stdout.buffer.write(volume[adf.unescape(sys.argv[2])].read())
    else:
        for entry in volume.entries:
            print(f"{entry.size:10} {entry.date} {entry.path_text}")
        for each in volume.left_out:
            print(each)  # damaged: c/list
except (adf.Error, OSError, ValueError) as error:
    sys.exit(str(error))  # games.adf: block 0: not dos
