"""Where the links of an image lead within what stands of it, as an Amiga follows them: to an entry of the volume, or out of it, or to
nothing. The rescue that the programs show has no links: they are those of the survey, beside it. No path here is one of the host."""

from __future__ import annotations

from typing import Dict, Generator, Iterator, List, Mapping, NamedTuple, Optional, Tuple, Union

import adf
from adf._layout import ALL_CAPITALS
from adf_tools.names import letters, spelled_letters

ROOT = 0
OUT, RING, NOTHING, AWAY = "leads out of the volume", "leads to itself", "leads to nothing that is kept", "its directory is left out"
PLAIN_TYPES = (0, 1)  # those whose names are compared by the letters of ASCII alone
Answer = Union[int, str]  # the number of what a link leads to among what is found, 0 for the root, or why it leads to nothing
Steps = Generator[int, Answer, Answer]


class Way(NamedTuple):
    """A right link: the number of its directory in the volume, and what it leads to there: the number of an entry, 0 for the root; None
    where it leads to nothing, and why."""

    link: adf.Link
    directory: int
    target: Optional[int]
    why: str


def components(path: bytes) -> List[bytes]:
    """The names of an Amiga's path behind its volume, one after the other; an empty one goes to the parent."""
    names = path.split(b"/")
    return names[:-1] if not names[-1] else names


class Ways:
    """The right links of an image that is refused, each with where it leads. A link that leads through others is followed, each once."""

    def __init__(self, volume: adf.Rescued) -> None:
        self.volume, self.survey = volume, volume.survey
        self.links = {link.entry.number: link for link in self.survey.links}
        self.capitals = adf.CAPITALS if self.survey.image[3] in PLAIN_TYPES else ALL_CAPITALS
        self._known: Dict[int, Answer] = {}
        self._named: Dict[Tuple[int, bytes], int] = {}
        for found in self.survey.entries if self.links else ():
            self._named.setdefault((found.parent, self._folded(found.raw_name)), found.number)

    def __iter__(self) -> Iterator[Way]:
        return (self._way(link) for link in self.links.values())

    def _folded(self, name: bytes) -> bytes:
        return name.translate(self.capitals)

    def _kept(self, number: int) -> Optional[int]:
        """The number in the volume of what is found, if it is kept there."""
        entry = self.volume.entry_of(self.survey.entries[number - 1]) if number else None
        return ROOT if not number else entry.number if entry else None

    def _way(self, link: adf.Link) -> Way:
        directory, answer = self._kept(link.entry.parent), self._led_to(link.entry.number)
        target = self._kept(answer) if isinstance(answer, int) else None
        if directory is None:
            return Way(link, ROOT, None, AWAY)
        return Way(link, directory, target, answer if isinstance(answer, str) else NOTHING if target is None else "")

    def _led_to(self, number: int) -> Answer:
        """What a link leads to. What leads through a link that is being followed leads to itself."""
        if number in self._known:
            return self._known[number]
        self._known[number] = RING
        waiting = [(number, self._steps(self.links[number]))]
        answer: Optional[Answer] = None
        while waiting:
            at, steps = waiting[-1]
            try:
                asked = next(steps) if answer is None else steps.send(answer)
            except StopIteration as ended:
                self._known[at] = answer = ended.value
                waiting.pop()
                continue
            answer = self._known.get(asked)
            if answer is None:
                self._known[asked] = RING
                waiting.append((asked, self._steps(self.links[asked])))
        return self._known[number]

    def _steps(self, link: adf.Link) -> Steps:
        """Follows a link. It asks for what each link on its way leads to."""
        if isinstance(link.target, adf.Found):
            return link.target.number
        front, colon, behind = link.target.partition(b":")
        if colon and front and self._folded(front) != self._folded(self.survey.raw_label):
            return OUT
        at: Answer = ROOT if colon else link.entry.parent
        for name in components(behind if colon else front):
            if isinstance(at, int):
                at = self._next(at, name)
            if isinstance(at, int) and at in self.links:
                at = yield at
        return at

    def _next(self, at: int, name: bytes) -> Answer:
        """What a name leads to from here, or an empty one, which leads to the parent."""
        if at and self.survey.entries[at - 1].is_file:
            return NOTHING
        if name:
            return self._named.get((at, self._folded(name)), NOTHING)
        return self.survey.entries[at - 1].parent if at else OUT


def ways_of(volume: adf.Volume) -> List[Way]:
    """The right links of the image that a volume was made of, and where they lead; none of a sound one."""
    has_links = any(each.reason == adf.Reason.LINK for each in volume.left_out)
    return list(Ways(volume)) if has_links and isinstance(volume, adf.Rescued) else []


def led_text(target: adf.Found | bytes) -> str:
    """What a right link leads to, in letters: `to` the path of an entry, or `path` and the bytes in its header."""
    return f"to {spelled_letters(target.path)}" if isinstance(target, adf.Found) else f"path {letters(target)}"


def is_led(state: str) -> bool:
    """Whether a state is that of a right link."""
    return state.startswith(("to ", "path "))


NOTHING_SHORT: Mapping[int, str] = {}


def left_out_with(volume: adf.Volume, ways: List[Way], short: Mapping[int, str] = NOTHING_SHORT) -> List[str]:
    """The lines for what is left out of a volume that is shown with its links: a link that leads to something is not, and another one has
    why behind it; a damaged file has what is said of its header, if there is something."""
    told = {way.link.entry.header: way for way in ways}
    lines = []
    for each in volume.left_out:
        way = told.get(each.first) if each.reason == adf.Reason.LINK else None
        why = way.why if way else short.get(each.first, "") if each.reason == adf.Reason.DAMAGED else ""
        if way is None or way.why:
            lines.append(f"{each}: {why}" if why else str(each))
    return lines
