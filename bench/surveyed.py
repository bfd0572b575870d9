"""What `adf-survey` surveys of an input: the image of the length and the type by which bench/evidence.py reads it, over bench/survey.py."""

from __future__ import annotations

import sys
from typing import Any, List, NamedTuple, Optional

sys.dont_write_bytecode = True
from evidence import Refusal, judge
from evidence_answer import Telling, spelled
from evidence_claims import Claims
from evidence_image import LINKS, SOFT
from survey import Survey, escaped

KINDS = "ofs", "ffs", "ofs-international", "ffs-international"


def run_text(first: int, last: int) -> str:
    return f"block {first}" if first == last else f"blocks {first} to {last}"


class JudgedSurvey(Survey):
    """A survey whose right links lead to where the judge finds it."""

    def __init__(self, image: bytes, claims: Optional[Claims]) -> None:
        super().__init__(image)
        self.claims = claims

    def leads(self, role: Any, cause: str) -> str:
        node = self.node_of(role) if cause == "link" else None
        number = 0 if node is None or self.claims is None else self.claims.place_of[self.block_of(node)]
        target = target_of(self.claims, number) if number and self.claims else ""
        if not target or not self.claims:
            return ""
        return f": to {target}" if self.claims.all[number - 1].target else f": path {target}"


class Surveyed:
    """The survey of an input, and the lines in front of its findings."""

    def __init__(self, given: bytes, blocks: Optional[int] = None) -> None:
        claims = judge(given, blocks)
        self.front: List[str] = []
        if isinstance(claims, Refusal):
            self.claims = None
            image = given if blocks is None else given[: 512 * blocks].ljust(512 * blocks, b"\0")
            if claims.cause == "long names":
                self.front.append("block 0: long names")
        else:
            self.claims = claims
            count = claims.image.blocks
            image = given[: 512 * count].ljust(512 * count, b"\0")
            self.tell_length(given, blocks, count)
            image = self.typed(given, image, 2 * claims.walk.international + claims.files.is_ffs)
        self.image, self.survey = image, JudgedSurvey(image, self.claims)

    def tell_length(self, given: bytes, asked: Optional[int], count: int) -> None:
        held, begun = min(len(given) // 512, count), -(-len(given) // 512)
        if held < count:
            self.front.append(run_text(held, count - 1) + ": no data")
        if asked is None and count < begun:
            self.front.append(run_text(count, begun - 1) + ": behind the volume")

    def typed(self, given: bytes, image: bytes, kind: int) -> bytes:
        """The image with the type that is read; its own, with directory caches or without, if that is of this kind and these letters."""
        is_of_kind = len(given) > 3 and given[3] <= 5 and given[3] % 2 == kind % 2 and (given[3] >= 2) == (kind >= 2)
        is_stated = given[:3] == b"DOS" and len(given) > 3 and given[3] <= 5
        if is_stated and is_of_kind:
            return image
        self.front.append(f"block 0: files of {KINDS[kind]}" if is_stated else "block 0: not dos")
        has_byte = is_of_kind and sum(a == b for a, b in zip(given, b"DOS")) >= 2
        return b"DOS" + bytes([given[3] if has_byte else kind]) + image[4:]

    def findings(self) -> List[str]:
        return [*self.front, *self.survey.found()]


class Found(NamedTuple):
    """An entry that a list shows: its mark, its path, what is left of a file up to the last block of its own, and the lines of its gaps;
    what a right link leads to, else nothing."""

    mark: str
    path: str
    is_file: bool
    content: bytes
    gaps: List[str]
    target: str


def target_of(claims: Claims, number: int) -> str:
    """What a right link leads to, by the number of its claim: the path of an entry, or the one that its header has. Nothing of all else."""
    claim = claims.all[number - 1]
    if claim.kind not in LINKS or claims.is_wrong_link(claim.head):
        return ""
    if claim.kind != SOFT:
        return spelled(Telling(claims).paths[claim.target])
    path, end, _ = claims.image.bytes[512 * claim.head + 24 : 512 * claim.head + 312].partition(b"\0")
    return escaped(path) if end else ""


def found_in(claims: Optional[Claims]) -> List[Found]:
    """The entries that exist, in the order of a list; none where nothing is judged."""
    if claims is None:
        return []
    broken = {amiss.claim for amiss in claims.amiss if amiss.cause == "lost in"}
    found = []
    for number, (listed, claim) in enumerate(zip(Telling(claims).listed(), claims.all), 1):
        target = target_of(claims, number)
        is_sound = listed.is_sound and number not in broken or target != ""
        is_cut = bool(listed.gaps) and listed.gaps[-1].stop == len(listed.left)
        content = listed.left[: listed.gaps[-1].start] if is_cut else listed.left
        gaps = [f"bytes {gap.start} to {gap.stop - 1}: no data" for gap in listed.gaps]
        found.append(Found("sound" if is_sound else "damaged", spelled(listed.path), claims.walk.is_file(claim.head), content, gaps, target))
    return found
