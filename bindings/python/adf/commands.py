"""Programs that are run over memory: adf.run and adf.Answer."""

from __future__ import annotations

import ctypes
from typing import Iterable, NamedTuple

from adf import _arguments, _structs
from adf._arguments import Image
from adf._library import calls

FIRST_OUTPUT, FIRST_ERRORS, MOST_OUTPUT = 4096, 4096, 1 << 32


class Answer(NamedTuple):
    """How a command ended: its status, and what it wrote to output and to errors."""

    status: int
    output: bytes
    errors: bytes


def run(words: Iterable[str], given: Image = b"") -> Answer:
    """Runs the command `adf` with these words over the input. An output of more than 4 GiB is cut there, with status 3 and
    `write fault` on errors."""
    if isinstance(words, (str, bytes)):
        raise TypeError('words are a list of str, as ["cat", "c/list"]')
    return run_program("adf", words, given)


def run_program(program: str, words: Iterable[str], given: Image, limit: int | None = None) -> Answer:
    """The same of `adf` or of `adf-survey`, cut where the output has more bytes than the limit, if there is one."""
    most = MOST_OUTPUT if limit is None else limit
    call = {"adf": calls().adf_run, "adf-survey": calls().adf_survey_run}[program]
    all_words, given = (program, *words), _arguments.plain(given)
    if not all(isinstance(word, str) for word in all_words):
        raise TypeError('words are a list of str, as ["cat", "c/list"]')
    line = b"".join(word.encode() + b"\0" for word in all_words)
    if line.count(b"\0") != len(all_words):
        raise ValueError("a word has a zero byte")
    moved, most_output, most_errors = _structs.Moved(), min(len(given) + FIRST_OUTPUT, most), FIRST_ERRORS
    while True:
        output, errors = ctypes.create_string_buffer(most_output), ctypes.create_string_buffer(most_errors)
        rooms = (output, most_output, errors, most_errors, ctypes.byref(moved))
        status = call(line, len(line), given, len(given), *rooms)
        more_output = moved.output_full and most_output < most
        more_errors = moved.errors_full and most_errors < MOST_OUTPUT
        if not more_output and not more_errors:
            return Answer(status, _arguments.taken(output, moved.output), _arguments.taken(errors, moved.errors))
        if more_output:
            most_output = min(4 * most_output, most)
        if more_errors:
            most_errors = min(4 * most_errors, MOST_OUTPUT)
