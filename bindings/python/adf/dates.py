"""Dates of the disk."""

from __future__ import annotations

import datetime
import re
from typing import Any, NamedTuple

from adf._arguments import MOST_NUMBER

EPOCH = datetime.datetime(1978, 1, 1)
LAST_DAY = (datetime.datetime.max - EPOCH).days
STAMP = re.compile(":".join([r"(0|[1-9][0-9]*)"] * 3))
CIVIL = re.compile(r"([0-9]{4}-[0-9]{2}-[0-9]{2} [0-9]{2}:[0-9]{2}:[0-9]{2})\.([0-4][0-9])")


class Date(NamedTuple):
    """A date of the disk, of no time zone: days since 1978-01-01, minutes of the day, fiftieths of a second in the minute."""

    days: int
    mins: int
    ticks: int

    @classmethod
    def of(cls, text: str) -> Date:
        """The date that `adf list` or a manifest writes so. ValueError if the text is no date."""
        numbers, civil = STAMP.fullmatch(text), CIVIL.fullmatch(text)
        if numbers:
            date = cls(*map(int, numbers.groups()))
        elif civil:
            past = datetime.datetime.fromisoformat(civil[1]) - EPOCH
            date = cls(past.days, past.seconds // 60, past.seconds % 60 * 50 + int(civil[2]))
        else:
            raise ValueError(f"not a date, as 2026-11-25 06:56:04.05 or 17860:416:205: {text!r}")
        if date.days < 0 or max(date) > MOST_NUMBER:
            raise ValueError(f"no disk has this date: {text!r}")
        return date

    @property
    def civil(self) -> datetime.datetime | None:
        """The date as a datetime, or None if it is not in the years up to 9999."""
        is_civil = 0 <= self.days <= LAST_DAY and 0 <= self.mins < 1440 and 0 <= self.ticks < 3000
        return EPOCH + datetime.timedelta(self.days, 60 * self.mins, 20_000 * self.ticks) if is_civil else None

    def __str__(self) -> str:
        """The date as `adf list` writes it."""
        civil = self.civil
        return f"{civil:%Y-%m-%d %H:%M:%S}.{self.ticks % 50:02}" if civil else self.stamp

    @property
    def stamp(self) -> str:
        """The date as a manifest has it."""
        return f"{self.days}:{self.mins}:{self.ticks}"


def date_of(date: Any) -> Date:
    return Date(date.days, date.mins, date.ticks)
