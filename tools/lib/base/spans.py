"""Sets of periods: read from words such as `8`, `8-20` or `1;3;5-7`, and written so that runs stand together."""

from __future__ import annotations

import re
from collections.abc import Iterable

RUN = re.compile(r"([1-9][0-9]{0,3})(?:-([1-9][0-9]{0,3}))?")
DASH = re.compile(r"[-\u2010-\u2015\u2212]")  # of people and word processors


def dashed(words: str) -> str:
    """Words in which each dash is `-`, without spaces around it."""
    return "-".join(part.strip() for part in DASH.split(words))


def parse_periods(words: str, greatest: int, separators: str = ";", periods: int | None = None) -> list[int]:
    """The periods of a text, in its order; a ValueError says the right form of the text, for a day of this number of periods if they are
    known."""
    numbers: list[int] = []
    parts = [part for each in re.split(f"[{separators}]", words) if (part := each.strip(" "))]
    for part in parts or [""]:
        run = RUN.fullmatch(part)
        first, last = (int(run[1]), int(run[2] or run[1])) if run else (0, 0)
        if not run or first > last or last > greatest:
            by = separators[0]
            raise ValueError(f"periods and runs of them, such as 8, 8-20 or 1{by}3{by}5-7, from 1 to {periods or greatest}")
        numbers += range(first, last + 1)
    return numbers


def runs_of(numbers: Iterable[int]) -> list[list[int]]:
    """The first and the last number of each run of numbers that follow one another."""
    runs: list[list[int]] = []
    for number in numbers:
        if runs and runs[-1][1] == number - 1:
            runs[-1][1] = number
        else:
            runs.append([number, number])
    return runs


def spans_text(numbers: Iterable[int], to: str = "-", between: str = ";") -> str:
    return between.join(str(first) if first == last else f"{first}{to}{last}" for first, last in runs_of(numbers))


def spans_text_in_prose(numbers: Iterable[int]) -> str:
    """As `8 to 20` or `1, 3 to 5`."""
    return spans_text(numbers, " to ", ", ")
