"""The texts of paths. One of more than 1,024 bytes is written from a block on: `\\block B/` and the last names that there is room for, where
B is the block of the header of the directory that the first of them is in. No other text of a path has a `\\` that no `x` follows."""

from __future__ import annotations

from typing import Callable, Iterable, NamedTuple

LONGEST_TEXT, MOST_KEPT = 1024, 1024  # bytes of a text; directories whose texts are kept
BLOCK_FRONT = "\\block "


class Tree(NamedTuple):
    """A tree by the numbers of its entries, each above that of its directory; 0 is the root. Of an entry the number of its directory and the
    text of its name; of a directory the block of its header."""

    step: Callable[[int], tuple[int, str]]
    block_of: Callable[[int], int]


class _End(NamedTuple):
    """The names at the end of a path: the number of the directory that the first is in, those of the entries, and the text."""

    above: int = 0
    numbers: tuple[int, ...] = ()
    text: str = ""

    def front(self, tree: Tree) -> str:
        return f"{BLOCK_FRONT}{tree.block_of(self.above)}/" if self.above else ""

    def with_names(self, names: Iterable[tuple[int, str]]) -> _End:
        """With names behind these."""
        pairs = list(names)
        text = "/".join([*([self.text] if self.numbers else []), *(name for _, name in pairs)])
        return _End(self.above, (*self.numbers, *(number for number, _ in pairs)), text)

    def cut(self, tree: Tree) -> _End:
        """As many of the last names as have room."""
        end = self
        while len(end.text) + len(end.front(tree)) > LONGEST_TEXT and len(end.numbers) > 1:
            end = _End(end.numbers[0], end.numbers[1:], end.text.partition("/")[2])
        return end


def is_long(text: str) -> bool:
    """Whether a text is that of a path that is written from a block on."""
    return text.startswith(BLOCK_FRONT)


class Paths:
    """The texts of the paths of a tree. Those of directories are kept for what is in them, so that none takes longer than it is."""

    def __init__(self) -> None:
        self._kept: dict[int, _End] = {}

    def text(self, tree: Tree, number: int) -> str:
        """The text of the path of an entry."""
        return self.text_in(tree, *tree.step(number))

    def text_in(self, tree: Tree, directory: int, name: str) -> str:
        """The text of the path of what has this name in a directory."""
        end = self._end_of(tree, directory).with_names([(0, name)]).cut(tree)
        return end.front(tree) + end.text

    def _end_of(self, tree: Tree, directory: int) -> _End:
        """The end of the path of a directory. It looks at no more directories above it than have room."""
        names: list[tuple[int, str]] = []
        at, room, begin = directory, LONGEST_TEXT, self._kept.get(directory)
        while at and begin is None and room > 0:
            above, name = tree.step(at)
            names.append((at, name))
            at, room, begin = above, room - len(name) - 1, self._kept.get(above)
        end = (begin or _End(at)).with_names(reversed(names)).cut(tree)
        if len(self._kept) >= MOST_KEPT:
            self._kept.clear()
        if directory:
            self._kept[directory] = end
        return end
