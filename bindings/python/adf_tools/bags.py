"""Bags (BagIt, RFC 8493) of the files of a collection: each is copied, and has to have the checksum that its catalogue has."""

from __future__ import annotations

import datetime
import hashlib
import importlib
import os
from typing import Any, Dict, List, Optional, Sequence

import adf
from adf_tools.collection import fault_of, opened
from adf_tools.names import bytes_of
from adf_tools.pages import count_of
from adf_tools.program import FAILED, REFUSED, Progress, host_text, new_folder, stop
from adf_tools.verify import File

DECLARATION = "BagIt-Version: 1.0\nTag-File-Character-Encoding: UTF-8\n"
MANIFEST, INFO = "manifest-sha256.txt", "bag-info.txt"
NEW_FILE = os.O_WRONLY | os.O_CREAT | os.O_EXCL | os.O_NOFOLLOW | os.O_CLOEXEC


def bagit_module() -> Optional[Any]:
    """Python's module bagit, if it is there."""
    try:
        return importlib.import_module("bagit")
    except ImportError:
        return None


def name_in(file: File) -> str:
    """The name of a file in a bag, which is in UTF-8: one that is not has the name that the catalogue has for it."""
    try:
        return bytes_of(file.name.encode("utf-8"), True).decode("utf-8")
    except UnicodeDecodeError:
        return file.name


def manifest_line(digest: str, name: str) -> str:
    return f"{digest}  {name.replace('%', '%25').replace(chr(13), '%0D').replace(chr(10), '%0A')}\n"


def copy(path: bytes, new: str) -> tuple[str, int]:
    """Copies a file; gives its SHA-256 and its length."""
    os.makedirs(os.path.dirname(new), exist_ok=True)
    digest, size = hashlib.sha256(), 0
    with opened(path) as file, open(os.open(new, NEW_FILE, 0o666), "wb") as out:
        for part in iter(lambda: file.read(adf.PART), b""):
            digest.update(part)
            size += out.write(part)
    return digest.hexdigest(), size


def write_tag(bag: str, name: str, text: str) -> str:
    """Writes a file that says what a bag is; gives its line of the manifest of these."""
    content = text.encode("utf-8")
    with open(os.path.join(bag, name), "xb") as file:
        file.write(content)
    return manifest_line(hashlib.sha256(content).hexdigest(), name)


def info(count: int, size: int, totals: Dict[str, int]) -> str:
    """What a bag says of itself."""
    pairs = [("Bagging-Date", datetime.date.today().isoformat()), ("Bag-Software-Agent", f"adf-catalogue {adf.__version__}")]
    pairs += [("Payload-Oxum", f"{size}.{count}")]
    pairs += [("-".join(word.capitalize() for word in what.split()), str(number)) for what, number in totals.items()]
    return "".join(f"{label}: {text}\n" for label, text in pairs)


def payload(bag: str, found: Sequence[File], known: Dict[str, str]) -> tuple[List[str], int]:
    """Copies the files; gives the lines of their manifest, and how many bytes they have."""
    lines, whole, progress = [], 0, Progress(len(found), "files")
    for file in found:
        name = name_in(file)
        try:
            digest, size = copy(file.path, os.path.join(bag, "data", name))
        except OSError as error:
            if error.filename is not None and os.fsencode(error.filename) != file.path:
                raise
            stop(FAILED, f"{host_text(file.path)}: {fault_of(error)}")
        if digest != known.get(file.name):
            stop(REFUSED, f"{host_text(file.path)}: not as the catalogue has it; adf-catalogue verify names all such files")
        lines.append(manifest_line(digest, f"data/{name}"))
        whole += size
        progress.step()
    progress.close()
    return lines, whole


def write(path: str, found: Sequence[File], known: Dict[str, str], totals: Dict[str, int]) -> None:
    """Makes a bag of files whose checksums are known, and has the module bagit look at it, if that is there."""
    missing = sorted(set(known) - {file.name for file in found})
    if missing:
        stop(REFUSED, f"{count_of(len(missing), 'file')} of the catalogue not there: {host_text(missing[0])}")
    with new_folder(path) as bag:
        os.mkdir(os.path.join(bag, "data"))
        lines, size = payload(bag, found, known)
        tags = [write_tag(bag, "bagit.txt", DECLARATION), write_tag(bag, INFO, info(len(lines), size, totals))]
        tags.append(write_tag(bag, MANIFEST, "".join(sorted(lines, key=lambda line: line.split("  ", 1)[1]))))
        write_tag(bag, "tagmanifest-sha256.txt", "".join(tags))
        bagit = bagit_module()
        if bagit is not None:
            bagit.Bag(bag).validate()
