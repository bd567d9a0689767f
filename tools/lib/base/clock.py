"""Clock times of a delivery day: when its periods begin, also on the days on which the clocks change."""

from __future__ import annotations

import collections
import functools

from . import rules

USUAL = 24 * 60  # minutes of a day on which the clocks don't change
# In spring the clocks go from the end of the second hour to the end of the third. In autumn the third hour comes twice.
SPRING, AUTUMN = 2 * 60, 3 * 60


def begin_minute(periods: int, number: int) -> int:
    """When a period begins on a day of `periods` of them, in minutes of the clock; the one after the last begins at the day's end."""
    passed = int((number - 1) * rules.DAYS[periods] * 60)
    gained = int(periods * rules.DAYS[periods] * 60) - USUAL
    if gained < 0 and passed >= SPRING or gained > 0 and passed >= AUTUMN:
        return passed - gained
    return passed


def begin_time(periods: int, number: int) -> str:
    """The same as a text, such as `17:45`; a day ends at `24:00`."""
    hours, rest = divmod(begin_minute(periods, number), 60)
    return f"{hours:02}:{rest:02}"


def time_span(periods: int, number: int) -> str:
    """From when to when a period goes, by the clock at its beginning."""
    end = begin_minute(periods, number) + int(rules.DAYS[periods] * 60)
    return f"{begin_time(periods, number)} to {end // 60:02}:{end % 60:02}"


def end_times(periods: int, number: int) -> tuple[str, str]:
    """When a period ends: as the next one begins, and by the clock at its own beginning."""
    return begin_time(periods, number + 1), time_span(periods, number).rpartition(" ")[2]


@functools.lru_cache
def periods_by_begin_and_end(periods: int) -> tuple[dict[str, list[int]], dict[str, list[int]]]:
    """The periods of a day by the time at which they begin, and by that at which they end: as the next one begins, or, of the times at
    which none does so, by the clock at its own beginning."""
    starts: dict[str, list[int]] = collections.defaultdict(list)
    stops: dict[str, list[int]] = collections.defaultdict(list)
    own_stops: dict[str, list[int]] = collections.defaultdict(list)
    for number in range(1, periods + 1):
        end, own_end = end_times(periods, number)
        starts[begin_time(periods, number)].append(number)
        stops[end].append(number)
        own_stops[own_end].append(number)
    return starts, {**own_stops, **stops}


def parse_periods_between_times(periods: int, first: str, last: str) -> list[int]:
    """The periods of a day from one clock time to another, such as `07:00` and `09:00`. A ValueError names the fault of a time."""
    last = "24:00" if last == "00:00" else last
    starts, stops = (numbers.get(time, []) for numbers, time in zip(periods_by_begin_and_end(periods), (first, last)))
    for found, time, does in (starts, first, "begins"), (stops, last, "ends"):
        if not found:
            raise ValueError(f"no period of the day {does} at {time}")
        if len(found) > 1:
            raise ValueError(f"{time} comes twice on this day: write the numbers of periods, such as {found[0]} or {found[1]}")
    if stops[0] < starts[0]:
        raise ValueError(f"{last} isn't after {first}")
    return list(range(starts[0], stops[0] + 1))
