"""Runs the tests of the module and of the tools: all of them if the library is there, else those that need none.

python3 -m tests    in bindings/python; its last line says what is left out
"""

from __future__ import annotations

import sys
import unittest

import adf

WITHOUT_LIBRARY = ("test_archives", "test_deletions", "test_names", "test_paths", "test_plain", "test_remains", "test_search")


def main() -> None:
    loader, left_out = unittest.TestLoader(), ""
    try:
        adf.load()
        tests = loader.discover("tests", top_level_dir=".")
    except adf.NoLibrary:
        tests = loader.loadTestsFromNames([f"tests.{name}" for name in WITHOUT_LIBRARY])
        left_out = "left out: the tests that need the library, which is not there"
    done = unittest.TextTestRunner(buffer=True).run(tests)
    if left_out:
        print(left_out, file=sys.stderr)
    sys.exit(not done.wasSuccessful())


if __name__ == "__main__":
    main()
