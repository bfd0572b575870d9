"""What bench/truth asks of bench/evidence.py: the bytes, the paths and the lines of claims. In the programs the keeper and the report do this."""

from __future__ import annotations

from typing import Iterator, List, Tuple

from evidence_claims import Amiss, Claim, Claims
from evidence_image import COMMENT, MADE
from truth_judge import Answer, Back, Line, Listed
from truth_volumes import Path


def spelled(path: Path) -> str:
    return "/".join("".join(chr(c) if 32 <= c <= 126 and c not in b"\\/:" else f"\\x{c:02x}" for c in name) or "\\x" for name in path)


class Telling:
    """The answer that claims give."""

    def __init__(self, claims: Claims) -> None:
        self.claims, self.image, self.files = claims, claims.image, claims.files
        self.paths: List[Path] = [()]
        for claim in claims.all:
            self.paths.append((*self.paths[claim.directory], claim.name))

    def answer(self) -> Answer:
        lines = [self.line(amiss) for amiss in self.claims.amiss]
        listed = list(self.listed())
        things = {each.path: each.back for each, claim in zip(listed, self.claims.all) if claim.is_given}
        r, has_words = self.image.root, self.claims.bitmap.is_like_root
        dates = tuple(self.image.date(r, i) if has_words else (0, 0, 0) for i in (105, 118, 121))
        label = self.image.text(r, 432, 30) if has_words else b""
        return Answer(things, lines, label, dates, bool(lines), listed)  # type: ignore

    def listed(self) -> Iterator[Listed]:
        """The entries that are found, and what is left of each file."""
        for i, claim in enumerate(self.claims.all):
            is_file = self.claims.walk.is_file(claim.head)
            left, gaps = self.remains(claim.head) if is_file else (b"", [])
            is_sure = claim.is_given and claim.is_certain
            yield Listed(self.paths[i + 1], self.back(claim, left if is_file else None), is_sure, left, gaps, bool(gaps) or not claim.is_certain)

    def back(self, claim: Claim, content: object) -> Back:
        h = claim.head
        caches = self.claims.orphans.caches
        if claim.why == MADE and caches.record[h]:
            return Back(None, caches.comment(h), caches.protection(h), caches.date(h))
        if claim.why == MADE:
            return Back(None, b"", 0, (0, 0, 0))
        return Back(content, self.image.text(h, COMMENT, 79), self.image.word(h, 80), self.image.date(h))  # type: ignore

    def remains(self, h: int) -> Tuple[bytes, List[range]]:
        """What is left of a file, with zeros for what is not in a block of its own, and the ranges of these."""
        size, chunk, out = min(self.image.word(h, 81), len(self.image.bytes)), self.files.chunk, bytearray()
        gaps: List[range] = []
        for k in range(1, -(-size // chunk) + 1):
            many = min(chunk, size - chunk * (k - 1))
            held = min(many, self.claims.held(h, k))
            start = 512 * self.files.names(h, k) + 512 - chunk
            out += self.image.bytes[start : start + held]
            if held < many:
                first = gaps.pop().start if gaps and gaps[-1].stop == len(out) else len(out)
                out += bytes(many - held)
                gaps.append(range(first, len(out)))
        return bytes(out), gaps

    def line(self, amiss: Amiss) -> Line:
        """The line of `adf-survey rescue`."""
        blocks = range(amiss.first, amiss.past)
        path = self.paths[amiss.claim]
        if amiss.cause == "lost in":
            return Line(f"lost: in {spelled(path)}/", None, path)
        if amiss.cause == "renamed":
            old = self.claims.names.said(self.claims.all[amiss.claim - 1].head)
            return Line(f"renamed: {spelled((*path[:-1], old))}: {spelled(path)}", path, None, blocks)
        if amiss.claim:
            word = "perhaps deleted" if amiss.cause == "owned free" else amiss.cause
            return Line(f"{word}: {spelled(path)}", path, None, blocks)
        word = amiss.cause if amiss.cause in ("bitmap", "label cut") else "lost"
        return Line(f"{word}: {run_text(amiss)}", None, None, blocks)


def run_text(amiss: Amiss) -> str:
    return f"block {amiss.first}" if amiss.past - amiss.first == 1 else f"blocks {amiss.first} to {amiss.past - 1}"
