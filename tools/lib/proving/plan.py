"""The order of the crates and the jobs of each, planned from estimates of their times, and how long it is likely to take."""

from __future__ import annotations

import math
import os
import re
import time
from collections.abc import Iterable, Mapping
from typing import Dict, List, NamedTuple, Tuple

from ..crates.sources import TOP, list_source_files
from .bar import shown

CRATES = f"{TOP}/crates"
# Seconds of a processor for a proof from nothing, as measured; of dam_curve, in the scale of dam_hour and dam_blocks. Only the order and
# the shares depend on them. A crate that isn't here is taken at SECONDS_EACH for a byte of src/ and specs/.
SECONDS = {
    "dam_book": 336,
    "dam_hour": 223,
    "dam_blocks": 260,
    "dam_curve": 150,
    "dam_bound": 309,
    "dam_plan": 20,
    "dam_search": 226,
    "dam_line": 186,
    "dam_store": 160,
    "dam_results": 494,
    "dam_gate": 769,
    "dam_device": 37,
    "dam_engines": 260,
    "dam_cli": 60,
    "dam_desk": 400,
    "dam_refusals": 251,
    "dam_example": 204,
}
SECONDS_EACH = 0.005
# Seconds if a crate's work is kept: of a crate that is as it was, and of one that is proved again over it.
SECONDS_BUILT = 1
SECONDS_KEPT = 30
# How many times as fast a crate is proved with one job, two, three and four.
SPEED = (1, 1.3, 1.45, 1.55)
MEMORY_EACH = 2_500_000_000
Crates = Dict[str, List[str]]  # with the libraries that each uses


def read_numbers(file: str, pattern: str) -> list[int]:
    try:
        with open(file, encoding="utf-8") as text:
            found = re.search(pattern, text.read())
    except OSError:
        found = None
    return [int(it) for it in found.groups()] if found else []


def read_possible_jobs() -> int:
    """Returns how many jobs the processors and the free memory are enough for, those of a control group if there is one."""
    found = len(os.sched_getaffinity(0))
    quota = read_numbers("/sys/fs/cgroup/cpu.max", r"^(\d+) (\d+)")
    if quota:
        found = min(found, quota[0] // quota[1])
    free = [1024 * it for it in read_numbers("/proc/meminfo", r"MemAvailable:\s+(\d+)")]
    limit = read_numbers("/sys/fs/cgroup/memory.max", r"^(\d+)")
    held = read_numbers("/sys/fs/cgroup/memory.current", r"^(\d+)")
    if limit and held:
        free.append(limit[0] - held[0])
    return max(min([found, *(it // MEMORY_EACH for it in free)]), 1)


def read_probable_seconds(crates: Crates) -> dict[str, float]:
    """Returns for each crate the seconds of a processor that it is likely to take."""
    seconds: dict[str, float] = {}
    dates: dict[str, float] = {}

    def read_date(name: str) -> float:
        if name not in dates:
            dates[name] = max([0, *map(os.path.getmtime, list_source_files(name)), *map(read_date, crates[name])])
        return dates[name]

    for name in crates:
        size = sum(os.path.getsize(it) for it in list_source_files(name) if not it.startswith(f"{CRATES}/{name}/proofs/"))
        seconds[name] = SECONDS.get(name, 1 + SECONDS_EACH * size)
        built = f"{CRATES}/{name}/out/rlib"
        if os.path.isdir(built) and os.path.getmtime(built) >= read_date(name):
            seconds[name] = min(seconds[name], SECONDS_BUILT)
        elif os.path.isdir(f"{CRATES}/{name}/out/incremental"):
            seconds[name] = min(seconds[name], SECONDS_KEPT)
    return seconds


class PlannedTimes(NamedTuple):
    """When all is proved, the seconds of a processor, and the crates with when each begins and ends."""

    end: float
    used: float
    begins: List[Tuple[str, float, float]]


class Plan:
    """Which crates to prove next, and with how many jobs each."""

    def __init__(self, crates: Crates, works: dict[str, float], most: int) -> None:
        self.crates, self.works, self.most, self.time_left = crates, works, most, TimeLeft()
        self.ranks: dict[str, float] = {}
        for name in crates:
            self.keep_and_return_rank(name)

    def keep_and_return_rank(self, name: str) -> float:
        """Returns the seconds of the longest chain of crates that begins with this one."""
        if name not in self.ranks:
            above = [self.keep_and_return_rank(it) for it in self.crates if name in self.crates[it]]
            self.ranks[name] = self.works[name] + max([0, *above])
        return self.ranks[name]

    def simulate(self, left: Iterable[str], running: Mapping[str, tuple[int, float]], jobs: Mapping[str, int]) -> PlannedTimes:
        """The outcome if each crate gets these jobs. A running proof ends at the time that is given with its jobs."""
        now, used = 0.0, 0.0
        begins: list[tuple[str, float, float]] = []
        left, running = sorted(left, key=lambda it: -self.ranks[it]), dict(running)
        while left or running:
            idle = self.most - sum(it for it, _ in running.values())
            for name in [it for it in left if not any(dep in left or dep in running for dep in self.crates[it])]:
                if jobs[name] <= idle:
                    takes = self.works[name] / SPEED[jobs[name] - 1]
                    idle -= jobs[name]
                    used += jobs[name] * takes
                    begins.append((name, now, now + takes))
                    left.remove(name)
                    running[name] = jobs[name], now + takes
            now = min(end for _, end in running.values())
            running = {it: (count, end) for it, (count, end) in running.items() if end > now}
        return PlannedTimes(now, used, begins)

    def choose_jobs(self, left: Iterable[str], running: Mapping[str, tuple[int, float]]) -> tuple[dict[str, int], PlannedTimes]:
        """The jobs for each crate, changed one crate at a time for as long as all is proved sooner, and the outcome."""
        largest = min(self.most, len(SPEED))
        found: list[tuple[dict[str, int], PlannedTimes]] = []
        for first in range(1, largest + 1):
            jobs = {it: first for it in left}
            result, before = self.simulate(left, running, jobs), PlannedTimes(math.inf, math.inf, [])
            while result != before:
                before = result
                for name in sorted(left, key=lambda it: -self.ranks[it]):
                    for count in range(1, largest + 1):
                        other = {**jobs, name: count}
                        result_of_other = self.simulate(left, running, other)
                        if result_of_other[:2] < result[:2]:
                            jobs, result = other, result_of_other
            found.append((jobs, result))
        return min(found, key=lambda it: it[1][:2])


class TimeLeft:
    """How long it is likely to take until all is proved. The estimates are for another machine, so they are scaled by the crates that were
    proved here."""

    def __init__(self) -> None:
        self.began = self.planned = time.time()
        self.seconds, self.took, self.estimate = 0.0, 0.0, 0.0

    def note_plan(self, seconds: float) -> None:
        """From now on, it should take this many seconds."""
        self.planned, self.seconds = time.time(), seconds

    def note_scale(self, took: float, estimate: float) -> None:
        """Notes how long a crate took, compared with its estimate."""
        # short ones say little
        if estimate > SECONDS_KEPT:
            self.took, self.estimate = self.took + took, self.estimate + estimate

    def show_bar(self, names: Iterable[str]) -> None:
        """Shows the time that is left, and the crates that are being proved."""
        scale = min(max(self.took / self.estimate, 0.3), 5) if self.estimate else 1
        now = time.time()
        # a crate can take longer than was thought, so something is left until it ends
        left = scale * max(self.seconds - (now - self.planned), self.seconds / 20, 1)
        words = f"some {math.ceil(left / 60)} min left" if left > 60 else "less than a minute left"
        shown.show((now - self.began) / (now - self.began + left), f"{words}: {', '.join(sorted(names))}")
