"""The programs adf-catalogue, adf-map, adf-unpack, adf-pack, adf-recipe and mkfs.affs, which stand on the module adf.

Until the work of a program begins, Ctrl-C ends it at once, without a traceback of what is being loaded. The module `signal` is one of
the things that are loaded; what it stands on is there from the beginning.
"""

import _signal  # type: ignore
import os
import sys

IS_MODULE = sys.argv[0] == "-m" and any(word.startswith("adf_tools.") for word in getattr(sys, "orig_argv", ()))
IS_PROGRAM = IS_MODULE or os.path.basename(sys.argv[0]).startswith(("adf-", "mkfs."))
if IS_PROGRAM and _signal.getsignal(_signal.SIGINT) == _signal.default_int_handler:
    _signal.signal(_signal.SIGINT, _signal.SIG_DFL)
