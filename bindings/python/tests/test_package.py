"""Tests of the wheel, the sdist and the editable wheel. No network is asked."""

import ast
import glob
import os
import shutil
import subprocess
import sys
import tarfile
import unittest
import zipfile

import adf
from adf import _library
from tests.shared import HERE, TOP, Folder, image_of, written

SOURCE = os.path.dirname(HERE)
ARCHIVE = os.path.join(TOP, "crates", "adf_c", "out", "libadf_c.a")
LIBRARY = adf.load() and adf.library_path()
USER = '''"""What a user writes."""

from __future__ import annotations

import array
import mmap

import adf


def listed(path: str) -> list[str]:
    with adf.open(path, strict=True) as volume:
        verdict: adf.Verdict = adf.check(volume.image)
        boot: adf.Boot = volume.boot
        texts = [f"{entry.size} {entry.date.civil} {adf.escape(entry.path)}" for entry in volume.entries]
        return [*texts, verdict.kind, volume.label, boot.state, adf.ROLES[volume.owners()[0]]]


def read(volume: adf.Volume, path: str | bytes) -> bytes:
    room = bytearray(8)
    count: int = volume[path].read_into(room)
    with volume[path].open() as file:
        return file.read() + bytes(room[:count]) + volume[path].read(0, 1)


def rebuilt(volume: adf.Volume) -> bytes:
    entries = [adf.Addition.of(entry) for entry in volume.entries] + [adf.Addition("x", bytearray(b"X"), date=adf.Date.of("1:2:3"))]
    try:
        new: bytes = adf.build(volume.kind, None, entries, volume.raw_label, (volume.date, volume.altered, volume.created))
        return adf.with_boot(adf.with_standard_boot(adf.without_boot(new)), volume.boot)
    except (adf.NotBuilt, adf.BadBoot) as error:
        raise SystemExit(error.why)


def surveyed(image: adf.Image) -> list[str]:
    new, left_out = adf.rescue(image, 1760)
    survey: adf.Survey = adf.survey(image)
    lost: list[adf.LeftOut] = [each for each in left_out if each.reason is adf.Reason.DAMAGED]
    paths = [found.path for found in survey.entries] + [finding.path or "" for finding in survey.findings]
    return [*paths, *map(str, lost), adf.unescape(survey.entries[0].path).decode("latin-1"), str(len(new))]


def partition(image: mmap.mmap) -> adf.Partition:
    return adf.Disk(image)["DH0"] if adf.partitions(image) else adf.Disk(memoryview(array.array("H")))[1]


def ran() -> tuple[int, bytes, bytes]:
    answer: adf.Answer = adf.run(["check"], b"")
    return answer.status, answer.output, answer.errors + adf.library_path().encode() + bytes(adf.library_version())


errors: tuple[type[Exception], ...] = (adf.Refused, adf.NoSuchPath, adf.NotAFile, adf.Damaged, adf.Closed, adf.NoMemory, adf.NoLibrary, adf.DamagedWarning)
'''


def has_venv():
    return subprocess.run([sys.executable, "-c", "import venv, ensurepip"], stderr=subprocess.DEVNULL).returncode == 0


def names_imported(path):
    """The modules of adf that a module imports when it runs; `__init__` is the package itself."""
    with open(path, encoding="utf-8") as file:
        body = ast.parse(file.read()).body
    for node in body:
        if isinstance(node, ast.Import):
            yield from ("__init__" for name in node.names if name.name == "adf")
        if isinstance(node, ast.ImportFrom) and node.module == "adf":
            yield from (name.name for name in node.names)
        elif isinstance(node, ast.ImportFrom) and node.module.startswith("adf."):
            yield node.module[4:]


class Packages(Folder):
    def setUp(self):
        super().setUp()
        ignored = shutil.ignore_patterns("__pycache__", "libadf.so.1")
        shutil.copytree(SOURCE, "clone/bindings/python", ignore=ignored)
        os.mkdir("clone/docs")
        shutil.copy(os.path.join(TOP, "docs", "FAULTS.md"), "clone/docs")
        self.source = os.path.abspath("clone/bindings/python")

    def built_by(self, hook, source=None, library=""):
        """The name of what a hook of the backend builds into this folder."""
        line = f"import backend; print(backend.{hook}({os.getcwd()!r}))"
        environment = {**os.environ, "ADF_LIBRARY": library, "PYTHONDONTWRITEBYTECODE": "1"}
        words = [sys.executable, "-c", line]
        return subprocess.run(words, cwd=source or self.source, env=environment, check=True, stdout=subprocess.PIPE).stdout.decode().strip()

    def test_names_the_glibc_that_a_library_wants(self):
        for wants, newest in ((b"GLIBC_2.2.5\0GLIBC_2.14\0GLIBC_2.9", 14), (b"GLIBC_2.4", 5), (b"", 5)):
            line = f"import backend; print(backend.tag_of({wants!r}))"
            ran = subprocess.run([sys.executable, "-c", line], cwd=os.path.dirname(HERE), check=True, stdout=subprocess.PIPE)
            self.assertEqual(ran.stdout.decode().strip(), f"py3-none-manylinux_2_{newest}_x86_64")

    def test_has_the_library_if_there_is_one(self):
        for library, tag in (("", "any"), (LIBRARY, "manylinux_2_[0-9]+_x86_64")):
            name = self.built_by("build_wheel", library=library)
            self.assertRegex(name, rf"\Aadf-{adf.__version__}-py3-none-{tag}\.whl\Z")
            with zipfile.ZipFile(name) as wheel:
                names = set(wheel.namelist())
            self.assertEqual("adf/libadf.so.1" in names, bool(library))
            self.assertTrue({"adf/__init__.py", "adf/py.typed", "adf_tools/trees.py", "adf_tools/FAULTS.md"} < names)
            self.assertFalse(any(name.startswith("tests") for name in names))

    def test_builds_the_same_wheel_of_an_sdist(self):
        name = self.built_by("build_sdist")
        self.assertEqual(name, f"adf-{adf.__version__}.tar.gz")
        with tarfile.open(name) as archive:
            archive.extractall("sdist")
        top = os.path.abspath(f"sdist/adf-{adf.__version__}")
        self.assertTrue({"PKG-INFO", "README.md", "backend.py", "pyproject.toml", "tests"} < set(os.listdir(top)))
        with open(self.built_by("build_wheel"), "rb") as file:
            wheel = file.read()
        with open(self.built_by("build_wheel", source=top), "rb") as file:
            self.assertEqual(file.read(), wheel)

    def test_puts_the_library_beside_an_editable_module(self):
        with zipfile.ZipFile(self.built_by("build_editable", library=LIBRARY)) as wheel:
            self.assertEqual(wheel.read("adf.pth").decode(), self.source + "\n")
        self.assertTrue(os.path.exists(os.path.join(self.source, "adf", "libadf.so.1")))

    @unittest.skipUnless(os.path.exists(ARCHIVE) and shutil.which("rt") and shutil.which("nm"), "needs rt lib in crates/adf_c, and nm")
    def test_links_a_library_that_shows_its_calls_alone(self):
        line = "import backend, sys; sys.stdout.buffer.write(backend.library())"
        environment = {**os.environ, "ADF_LIBRARY": "", "PYTHONDONTWRITEBYTECODE": "1"}
        words = [sys.executable, "-c", line]
        written("libadf.so", subprocess.run(words, cwd=SOURCE, env=environment, check=True, stdout=subprocess.PIPE).stdout)
        shown = subprocess.run(["nm", "-D", "--defined-only", "libadf.so"], check=True, stdout=subprocess.PIPE).stdout.decode().split()[2::3]
        self.assertTrue(set(_library.CALLS) <= set(shown) and all(name.startswith("adf_") for name in shown), shown)

    @unittest.skipUnless(shutil.which("mypy"), "needs mypy")
    def test_is_typed_for_those_who_use_it(self):
        for text, status in ((USER, 0), (USER.replace("volume.kind, None", "volume.blocks, None"), 1), (USER + "adf.nix()\n", 1)):
            written("user.py", text.encode())
            ran = subprocess.run(["mypy", "--strict", "user.py"], env={**os.environ, "MYPYPATH": SOURCE}, stdout=subprocess.PIPE)
            self.assertEqual((ran.returncode, ran.stdout.count(b": error:")), (status, status), ran.stdout.decode())

    def test_names_all_that_it_exports(self):
        public = {name for name, value in vars(adf).items() if getattr(value, "__module__", "").startswith("adf") and not name.startswith("_")}
        self.assertEqual(public - set(adf.__all__), set())
        self.assertEqual([name for name in adf.__all__ if not hasattr(adf, name)], [])

    def test_has_modules_that_stand_on_one_another_in_an_order(self):
        stands_on = {os.path.basename(path)[:-3]: set(names_imported(path)) for path in glob.glob(os.path.join(SOURCE, "adf", "*.py"))}
        self.assertIn("_library", stands_on["volumes"])
        while stands_on:
            lowest = [name for name, below in stands_on.items() if not below & set(stands_on)]
            self.assertTrue(lowest, f"in a ring, or on one: {sorted(stands_on)}")
            for name in lowest:
                del stands_on[name]

    @unittest.skipUnless(has_venv(), "needs venv")
    def test_is_installed_by_pip(self):
        written("a.adf", image_of())
        subprocess.run([sys.executable, "-m", "venv", "venv"], check=True)
        pip = ["venv/bin/pip", "install", "-q", "--no-index", "--force-reinstall", "--disable-pip-version-check"]
        environment = {"PATH": os.environ["PATH"], "ADF_LIBRARY": LIBRARY}
        sdist = self.built_by("build_sdist")
        for what in ([self.source], [sdist], ["-e", self.source]):
            subprocess.run([*pip, *what], check=True, env=environment)
            bare = {"PATH": os.path.abspath("venv/bin") + ":/usr/bin:/bin"}
            line = 'import adf; assert adf.open("a.adf")["c/readme"].read() == b"Hello\\n"; print(adf.__file__)'
            ran = subprocess.run(["venv/bin/python", "-c", line], env=bare, check=True, stdout=subprocess.PIPE)
            self.assertEqual(ran.stdout.decode().startswith(self.source), what[0] == "-e")
            for tool in ("catalogue", "map", "pack", "recipe", "unpack"):
                subprocess.run([f"venv/bin/adf-{tool}", "--version"], env=bare, check=True, stdout=subprocess.DEVNULL)
            picture = subprocess.run(["venv/bin/adf-map", "a.adf"], env=bare, check=True, stdout=subprocess.PIPE).stdout
            self.assertIn(b"</svg>", picture)
