"""Tests of what the programs share: their words, and how they end."""

import os
import random
import signal
import time
import unittest

import adf
from adf_tools import trees
from adf_tools.program import FILL, new_folder, run_lines
from tests.shared import Folder, image_of, written

TOOLS = ("catalogue", "map", "pack", "recipe", "unpack")
FAILING = """
import errno, sys
from adf_tools.program import begin, command_line
def work(_words):
    print("more")
    {}
begin(command_line("adf-try", "Tries."), work)
"""


class Words(Folder):
    def test_answers_help_and_version(self):
        for tool in TOOLS:
            for word in ("-h", "--help"):
                self.assertTrue(self.tool(tool, word).decode().startswith(f"usage: adf-{tool} "))
            self.assertEqual(self.tool(tool, "--version").decode(), f"adf-{tool} {adf.__version__}\n")

    def test_refuses_words(self):
        for tool in TOOLS:
            ran = self.run_tool(tool, "1", "2", "3", "4", "5")
            self.assertEqual((ran.returncode, ran.stdout), (2, b""))
            self.assertTrue(ran.stderr.decode().startswith(f"usage: adf-{tool} "))


class Ends(Folder):
    def ended(self, body):
        """The status, output and errors of a program whose work is this."""
        ran = self.run_python("-c", FAILING.format(body))
        return ran.returncode, ran.stdout.decode(), ran.stderr.decode()

    def test_says_each_error_in_one_line(self):
        for body, told in (
            ('raise RuntimeError("one\\ntwo")', "an error that nobody foresaw: RuntimeError: one two"),
            ("work(_words)", "an error that nobody foresaw: RecursionError"),
            ("raise MemoryError", "no memory"),
            ('raise OSError(errno.EIO, "damaged", "file")', "file: damaged"),
            ("raise KeyboardInterrupt", "interrupted"),
        ):
            status, output, errors = self.ended(body)
            self.assertEqual((status, output, errors.count("\n")), (3, "", 1), errors)
            self.assertTrue(errors.startswith(f"adf-try: {told}"), errors)

    def test_is_interrupted_without_a_traceback(self):
        written("a.adf", image_of())
        for part in range(40):
            process = self.started("map", "a.adf")
            time.sleep(0.003 * part + 0.01)
            process.send_signal(signal.SIGINT)
            errors = process.communicate(timeout=60)[1].decode()
            if "adf_tools" in errors or "adf-map" in errors:  # else it is Python's own, before it has found the program
                self.assertEqual(errors, "adf-map: interrupted\n")

    def test_goes_on_if_interrupts_are_ignored(self):
        written("a.adf", image_of())
        for part in range(8):
            process = self.started("map", "a.adf", prefix=["sh", "-c", "trap '' INT; exec \"$@\"", "sh"])
            time.sleep(0.02 * part + 0.02)
            process.send_signal(signal.SIGINT)
            output, errors = process.communicate(timeout=60)
            if process.returncode != -signal.SIGINT:  # the shell itself, before its trap
                self.assertEqual((process.returncode, errors, output[-7:]), (0, b"", b"</svg>\n"))


class Streams(Folder):
    """Standard streams that are closed or full, and names that lead to no regular file."""

    def test_may_be_closed(self):
        written("a.adf", image_of())
        closed = "{}: standard {}put: Bad file descriptor\n"
        for line, status, told in (
            *(("map a.adf >&-", 3, closed.format("adf-map", "out")), ("map <&-", 3, closed.format("adf-map", "in"))),
            *(("recipe <&-", 3, closed.format("adf-recipe", "in")), ("unpack a.adf new <&- >&-", 0, ""), ("unpack a.adf n2 <&- >&- 2>&-", 0, "")),
            *(("map nix 2>&-", 3, ""), ("map a.adf <&- 2>&- > a.svg", 0, ""), ("recipe --help >&-", 3, closed.format("adf-recipe", "out"))),
            *(("map nix 2> /dev/full", 3, ""), ("map --version > /dev/full", 3, "adf-map: No space left on device\n")),
        ):
            self.assertEqual(self.shell(f"{{}} -m adf_tools.{line}"), (status, told), line)
        self.assertTrue(os.path.getsize("a.svg") > 1000 and os.path.exists("n2/c/readme"))

    def test_are_files_that_can_be_read(self):
        os.mkfifo("pipe")
        os.mkfifo("folder.uaem")
        for name, words in (("map", []), ("unpack", ["new"]), ("recipe", [])):
            self.refused(3, "pipe: a pipe: give it as standard input", name, "pipe", *words)
            self.refused(3, ": No such file or directory", name, "", *words)
            self.refused(3, "File name too long", name, "a" * 300, *words)
            self.refused(3, ".: Is a directory", name, ".", *words)
            self.refused(3, "a\\x0ab\\xff: No such file or directory", name, b"a\nb\xff", *words)
            if name != "map":
                self.refused(1, "bad size", name, "/dev/null", *words)
        self.refused(3, "pipe: a pipe: give it as standard input", "pack", "--boot", "pipe", "--image", "a.adf", ".")
        told = "adf-recipe: /dev/stdin: block 0: bad size; it has 9 bytes\n"
        self.assertEqual(self.shell("head -c 9 /dev/zero | {} -m adf_tools.recipe /dev/stdin"), (1, told))


class NewFolders(Folder):
    def test_takes_its_path_when_it_is_whole(self):
        with new_folder("new/") as folder:
            os.mkdir(os.path.join(folder, "a"))
            self.assertFalse(os.path.exists("new"))
        self.assertEqual(os.listdir("new"), ["a"])
        self.leaves("new")

    def test_names_the_file_that_an_error_is_about(self):
        for inside, told in ((lambda _: "/nix/file", "/nix/file"), (lambda folder: f"{folder}/x/y", "new/x/y"), (lambda _: None, "new")):
            with self.assertRaises(OSError) as raised:
                with new_folder("new") as folder:
                    raise OSError(5, "wrong", inside(folder))
            self.assertEqual(raised.exception.filename, told)
            self.leaves()


class Places(Folder):
    def test_know_their_paths(self):
        os.makedirs("a/b")
        for top, path in (("a", b"a"), ("a/", b"a"), (os.path.abspath("a"), os.path.abspath("a").encode())):
            with trees.Place(top) as place:
                place.go_in(b"b")
                self.assertEqual((place.path, place.path_of(b"c")), (path + b"/b", path + b"/b/c"))
                self.assertEqual((place.go_out(), place.path, place.names()), (b"b", path, [b"b"]))
        with trees.Place("/") as place:
            self.assertEqual((place.path, place.path_of(b"a")), (b"/", b"/a"))

    def test_say_that_a_folder_was_moved(self):
        os.makedirs("a/b")
        with trees.Place("a") as place:
            place.go_in(b"b")
            os.rename("a/b", "b")
            with self.assertRaisesRegex(OSError, "The folder was moved"):
                place.go_out()

    def test_follow_no_links(self):
        os.makedirs("a/b")
        os.symlink("b", "a/c")
        with trees.Place("a") as place:
            for call in (place.go_in, place.open):
                with self.assertRaises(OSError) as raised:
                    call(b"c")
                self.assertEqual(raised.exception.filename, b"a/c")
        trees.remove("a")
        self.leaves()


class Lines(unittest.TestCase):
    def test_are_the_same_whatever_the_parts(self):
        def whole(content):
            at = 0
            for fill in [*FILL.finditer(content), None]:
                end = fill.start() if fill else len(content)
                yield from (f"data {content[i : min(i + 32, end)].hex()}" for i in range(at, end, 32))
                if fill:
                    yield f"fill {len(fill[0])} {fill[1].hex()}"
                    at = fill.end()

        chance = random.Random(1)
        for _ in range(2000):
            lengths = chance.choices([1, 2, 5, 31, 32, 33, 63, 64, 65, 127, 128, 129, 500], k=chance.randrange(12))
            content = b"".join(bytes([chance.randrange(3)]) * length for length in lengths)
            cuts = [0, *sorted(chance.choices(range(len(content) + 1), k=chance.randrange(8))), len(content)]
            parts = [content[begin:end] for begin, end in zip(cuts, cuts[1:])]
            self.assertEqual(list(run_lines(parts)), list(whole(content)))
