"""The measured programs, and runs of programs by turns with their times."""

import math
import os
import subprocess
import tempfile
import threading
import time
from collections.abc import Callable, Hashable, Mapping, Sequence
from dataclasses import dataclass
from pathlib import Path
from typing import NamedTuple, TypeVar

from drawn_books import DrawnBook
from lib.tool import exits
from shared.generated_books import generate_book

BENCH = Path(__file__).resolve().parent
TOP, OUT = BENCH.parent, BENCH / "out"

BASELINE, TWIN, PLAIN_GATE = (f"{OUT}/{name}" for name in ("baseline", "twin", "gate"))
RUN_SECONDS = 60.0  # after which a run is ended

# By how many bytes a program's stack moves from turn to turn, and over how many places.
STACK_STEP, STACK_PLACES = 32, 32

Words = Sequence[str]  # the command of a program
Key = TypeVar("Key", bound=Hashable)
Result = TypeVar("Result")


class BenchFault(exits.Stop):
    """Ends the bench with a line."""

    def __init__(self, line: str) -> None:
        super().__init__(line, exits.FAILED)


class Plan(NamedTuple):
    """The workers of a search, and how many of the first blocks are cut."""

    workers: int
    cut: int


DEFAULT_PLAN, ONE_WORKER = Plan(2, 3), Plan(1, 0)


@dataclass(frozen=True)
class Programs:
    """The paths of the measured programs."""

    dam: str = f"{TOP}/crates/dam_cli/out/dam_cli"
    desk: str = f"{TOP}/crates/dam_desk/out/dam_desk"
    probe: str = f"{OUT}/probe"


class TimedRun(NamedTuple):
    """The output of a program, and its seconds."""

    text: bytes
    stderr: bytes
    wall: float
    processor: float

    def reported_seconds(self, name: str) -> float:
        """The seconds that the program reports under this name."""
        reported = dict(line.split() for line in self.stderr.decode().splitlines())
        if name not in reported:
            raise BenchFault(f"a program printed no time of '{name}'")
        return int(reported[name]) / 1e9


class Solved(NamedTuple):
    """The greatest welfare that a program found, and its seconds."""

    welfare: int
    seconds: float


def run_program(words: Words, given: str = os.devnull, limit: float = RUN_SECONDS) -> TimedRun:
    """Runs a program on a file. It is a fault if it doesn't end in time."""
    if run := run_in_time(words, given, limit):
        return run
    raise BenchFault(f"{' '.join(words)} < {given}: it didn't end in {limit:g} s")


def run_in_time(words: Words, given: str = os.devnull, limit: float = RUN_SECONDS, padding: int = 0) -> TimedRun | None:
    """Runs a program on a file, or returns None if it doesn't end in time. It is a fault if it fails. The padding is the number of bytes
    that are added to its environment, which move its stack."""
    with open(given, "rb") as text, tempfile.TemporaryFile() as printed, tempfile.TemporaryFile() as errors:
        begun = time.perf_counter()
        surroundings = {**os.environ, "PADDING": "." * padding}
        started = subprocess.Popen(words, stdin=text, stdout=printed, stderr=errors, env=surroundings)
        clock = threading.Timer(limit, started.kill)
        clock.start()
        _, status, used = os.wait4(started.pid, 0)
        wall = time.perf_counter() - begun
        clock.cancel()
        started.returncode = os.waitstatus_to_exitcode(status)
        if wall >= limit:
            return None
        printed.seek(0)
        errors.seek(0)
        done = TimedRun(printed.read(), errors.read(), wall, used.ru_utime + used.ru_stime)
    if started.returncode:
        raise BenchFault(f"{' '.join(words)} < {given}: status {started.returncode}, {done.stderr.decode()}")
    return done


def make_journal(script: str, *words: object) -> str:
    """Writes the journal that a script of the bench prints to a file that is named after its words, and returns its path."""
    path = OUT / f"{'-'.join([script.removesuffix('.py'), *map(str, words)])}.csv"
    path.write_bytes(generate_book(script, *words))
    return str(path)


def make_book(drawn: DrawnBook) -> str:
    """Writes the journal of a book, and returns its path."""
    return make_journal(drawn.script, *drawn.words)


def call_in_turns(
    functions: Mapping[Key, Callable[[int], Result | None]], most: int = 31, seconds: float = 5.0, longest: float = math.inf
) -> dict[Key, list[Result]]:
    """Calls functions in turns, with the number of the turn. Returns for each name its results: at most `most`, and no further one after
    `seconds`. A function isn't called again if it returned None, or if it took longer than `longest`; that call doesn't count
    among the seconds."""
    found: dict[Key, list[Result]] = {name: [] for name in functions}
    left, again = seconds, dict(functions)
    for turn in range(most):
        for name, function in list(again.items()):
            begun = time.perf_counter()
            result = function(turn)
            taken = time.perf_counter() - begun
            if result is not None:
                found[name].append(result)
            if result is None or taken > longest:
                del again[name]
            left -= taken if taken <= longest else 0
        if left < 0:
            break
    return found


def run_function(words: Words, given: str) -> Callable[[int], TimedRun | None]:
    """A function that runs a program on a file. Each turn has the program's stack at another place, because the time of a walk varies with
    that."""
    return lambda turn: run_in_time(words, given, padding=STACK_STEP * (turn % STACK_PLACES))


def run_in_turns(
    programs: Mapping[Key, Words], given: str, most: int = 31, seconds: float = 5.0, longest: float = math.inf
) -> dict[Key, list[TimedRun]]:
    """Runs programs on a file in turns, and returns the runs of each; a program that doesn't end in time has none."""
    return call_in_turns({name: run_function(words, given) for name, words in programs.items()}, most, seconds, longest)


def measure_peak_mebibytes(words: Words, given: str) -> float:
    """The peak memory of a program in MiB. (The system's report on a child of this process also counts this process's pages.)"""
    with open(given, "rb") as text, tempfile.NamedTemporaryFile("r") as used:
        timed = ["/usr/bin/time", "-f", "%M", "-o", used.name, *words]
        ran = subprocess.run(timed, stdin=text, stdout=subprocess.DEVNULL, stderr=subprocess.DEVNULL)
        if ran.returncode:
            raise BenchFault(f"{' '.join(words)} < {given}: status {ran.returncode}")
        return int(used.read()) / 1024
