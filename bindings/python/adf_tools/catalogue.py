"""adf-catalogue: keeps a database of the images in a folder, and static pages of it (docs/adf-catalogue.1). A command loads only what it needs."""

from __future__ import annotations

import importlib
import sys
from typing import Dict, NamedTuple

from adf_tools.program import begin


class Command(NamedTuple):
    """The module of a command, and the names of its functions there: the words that it takes, and what it does."""

    module: str
    line: str = "line"
    work: str = "work"


UPDATE = Command("update")
COMMANDS: Dict[str, Command] = {
    "find": Command("find", work="checked"),
    "compare": Command("compare"),
    "scan": Command("merge", "scan_line", "scan"),
    "merge": Command("update", "merge_line", "merged"),
    "verify": Command("verify"),
    "export": Command("exports"),
}


def main() -> None:
    command = COMMANDS[sys.argv.pop(1)] if len(sys.argv) > 1 and sys.argv[1] in COMMANDS else UPDATE
    module = importlib.import_module(f"adf_tools.{command.module}")
    begin(getattr(module, command.line)(), getattr(module, command.work))


if __name__ == "__main__":
    main()
