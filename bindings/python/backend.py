"""Makes the wheel, the sdist and the editable wheel of the module and the programs over it, by Python's own modules alone: pip calls
it, and from Python 3.11 on needs no network. pyproject.toml says what they are.

A wheel has the shared library that ADF_LIBRARY names, else that of the clone, once `rt lib` was run in crates/adf_c. If there is
neither, the wheel is for every system, and finds the library that is installed. An editable wheel leads to this folder, where the
library then lies beside the module. An sdist has no library.
"""

from __future__ import annotations

import base64
import glob
import hashlib
import io
import os
import re
import subprocess
import tarfile
import tempfile
import zipfile
from typing import Any, Dict, Optional

HERE = os.path.dirname(os.path.abspath(__file__))
TOP = os.path.join(HERE, "..", "..")
ARCHIVE = os.path.join(TOP, "crates", "adf_c", "out", "libadf_c.a")
SONAME, CALLS = "libadf.so.1", "{ global: adf_*; local: *; };\n"
OLDEST_GLIBC = 5  # pip knows none that is older
SOURCES = ("adf/py.typed", "adf/*.py", "adf_tools/*.py")
OWN = ("README.md", "backend.py", "pyproject.toml", "tests/*.py")
WHEEL = "Wheel-Version: 1.0\nGenerator: adf\nRoot-Is-Purelib: {is_pure}\nTag: {tag}\n"
Files = Dict[str, bytes]
Settings = Optional[Dict[str, Any]]


def content_of(*path: str) -> bytes:
    with open(os.path.join(*path), "rb") as file:
        return file.read()


def project() -> dict[str, Any]:
    """What pyproject.toml says of the project, with its version."""
    try:
        import tomllib
    except ImportError:
        import tomli as tomllib  # type: ignore[no-redef]
    found = re.search(r'^__version__ = "(.*)"$', content_of(HERE, "adf", "__init__.py").decode("utf-8"), re.M)
    assert found
    return {**tomllib.loads(content_of(HERE, "pyproject.toml").decode("utf-8"))["project"], "version": found[1]}


def library() -> bytes | None:
    """The bytes of the shared library, or None. It shows the calls of adf.h alone."""
    if os.environ.get("ADF_LIBRARY"):
        return content_of(os.environ["ADF_LIBRARY"])
    if not os.path.exists(ARCHIVE):
        return None
    page = subprocess.run(["rt", "doc"], check=True, stdout=subprocess.PIPE, universal_newlines=True).stdout.strip()
    return linked(ARCHIVE, os.path.join(os.path.dirname(page), "c", "liblibc_c.a"))


def linked(archive: str, libc: str) -> bytes:
    """The bytes of the shared library of an archive, whose calls the loader looks up once, before they can be written over."""
    with tempfile.TemporaryDirectory() as folder:
        with open(os.path.join(folder, "calls"), "w", encoding="ascii") as file:
            file.write(CALLS)
        names = [f"-Wl,-soname,{SONAME}", f"-Wl,--version-script={folder}/calls", "-Wl,-z,relro,-z,now"]
        subprocess.run(["cc", "-shared", "-o", f"{folder}/library", *names, "-Wl,--whole-archive", archive, "-Wl,--no-whole-archive", libc], check=True)
        return content_of(folder, "library")


def files_like(*patterns: str) -> Files:
    """The files of this folder, by their names."""
    paths = sorted(path for pattern in patterns for path in glob.glob(os.path.join(HERE, pattern)))
    return {os.path.relpath(path, HERE): content_of(path) for path in paths}


def sources() -> Files:
    """The module and the programs, and the page of faults, which lies elsewhere in a clone."""
    own = os.path.join(HERE, "adf_tools", "FAULTS.md")
    page = own if os.path.exists(own) else os.path.join(TOP, "docs", "FAULTS.md")
    return {**files_like(*SOURCES), "adf_tools/FAULTS.md": content_of(page)}


def metadata(about: dict[str, Any]) -> bytes:
    """The metadata of the project."""
    lines = [f"Metadata-Version: 2.1\nName: {about['name']}\nVersion: {about['version']}\nSummary: {about['description']}"]
    lines.append(f"Requires-Python: {about['requires-python']}")
    lines += (f"Classifier: {text}" for text in about["classifiers"])
    lines.append("Description-Content-Type: text/markdown\n\n")
    return "\n".join(lines).encode("utf-8") + content_of(HERE, about["readme"])


def sum_of(content: bytes) -> str:
    return base64.urlsafe_b64encode(hashlib.sha256(content).digest()).decode("ascii").rstrip("=")


def write_wheel(folder: str, files: Files, tag: str) -> str:
    """Writes a wheel of these files, and gives its name."""
    about = project()
    info = f"{about['name']}-{about['version']}.dist-info"
    scripts = "".join(f"{name} = {place}\n" for name, place in about["scripts"].items())
    whole = {
        **files,
        f"{info}/METADATA": metadata(about),
        f"{info}/WHEEL": WHEEL.format(is_pure=str(tag.endswith("any")).lower(), tag=tag).encode("ascii"),
        f"{info}/entry_points.txt": f"[console_scripts]\n{scripts}".encode("ascii"),
    }
    lines = (f"{name},sha256={sum_of(content)},{len(content)}\n" for name, content in whole.items())
    whole[f"{info}/RECORD"] = ("".join(lines) + f"{info}/RECORD,,\n").encode("utf-8")
    name = f"{about['name']}-{about['version']}-{tag}.whl"
    with zipfile.ZipFile(os.path.join(folder, name), "w", zipfile.ZIP_DEFLATED) as wheel:
        for path, content in whole.items():
            wheel.writestr(zipfile.ZipInfo(path), content, zipfile.ZIP_DEFLATED)
    return name


def tag_of(shared: bytes) -> str:
    """The systems that load a library: those with glibc of the newest version that it names, or a later one; musl does not."""
    newest = max((int(minor) for minor in re.findall(rb"GLIBC_2\.(\d+)", shared)), default=0)
    return f"py3-none-manylinux_2_{max(newest, OLDEST_GLIBC)}_x86_64"


def build_wheel(wheel_directory: str, config_settings: Settings = None, metadata_directory: str | None = None) -> str:
    """Writes the wheel into a folder, and gives its name."""
    shared = library()
    own = {f"adf/{SONAME}": shared} if shared else {}
    return write_wheel(wheel_directory, {**sources(), **own}, tag_of(shared) if shared else "py3-none-any")


def build_editable(wheel_directory: str, config_settings: Settings = None, metadata_directory: str | None = None) -> str:
    """Writes a wheel that leads to this folder, and puts the library, if there is one, beside the module here."""
    shared = library()
    if shared:
        with open(os.path.join(HERE, "adf", SONAME), "wb") as file:
            file.write(shared)
    return write_wheel(wheel_directory, {"adf.pth": f"{HERE}\n".encode("utf-8")}, "py3-none-any")


def build_sdist(sdist_directory: str, config_settings: Settings = None) -> str:
    """Writes the sdist into a folder, and gives its name. The same sources give the same bytes but for those of gzip."""
    about = project()
    top = f"{about['name']}-{about['version']}"
    with tarfile.open(os.path.join(sdist_directory, f"{top}.tar.gz"), "w:gz", format=tarfile.PAX_FORMAT) as archive:
        for path, content in {**files_like(*OWN), **sources(), "PKG-INFO": metadata(about)}.items():
            member = tarfile.TarInfo(f"{top}/{path}")
            member.size, member.mode, member.mtime = len(content), 0o644, int(os.environ.get("SOURCE_DATE_EPOCH", 0))
            archive.addfile(member, io.BytesIO(content))
    return f"{top}.tar.gz"
