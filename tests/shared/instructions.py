"""How many instructions a run takes, by valgrind: other work of the machine doesn't change that."""

from __future__ import annotations

import errno
import re
import shutil

from shared.counts import Counts
from shared.preload import HostileProgram, RefusedCalls, Words

TIMES = 3  # names that collide take less than 3 times the instructions of others; with the fixed seed 50 times or more
MOST_TIMES = 3  # a run on a full book takes less than three times the instructions that were counted
SECONDS = 1_200  # for a run of some seconds, on a machine that has much else to do
DRAWN = RefusedCalls("random")
FIXED = RefusedCalls("random", first=1, error=errno.ENOSYS)
COUNTED = re.compile(r"I +refs: +([\d,]+)")


def measure_instructions(program: HostileProgram, words: Words, data: bytes, refusal: RefusedCalls, status: int = 0) -> int:
    """How many instructions a run takes, which must end with this status."""
    return measure_counts(program, words, data, refusal, status)[0]


def measure_counts(program: HostileProgram, words: Words, data: bytes, refusal: RefusedCalls, status: int = 0) -> tuple[int, int]:
    """The same, and how many calls for memory it makes."""
    log = program.counts_file().with_suffix(".valgrind")
    count = [shutil.which("valgrind") or "", "--tool=cachegrind", "--cache-sim=no", "--cachegrind-out-file=/dev/null", f"--log-file={log}"]
    printed, _, growths = program.run_counting(words, data, refusal, seconds=SECONDS, under=count)
    if printed.status != status:
        raise ValueError(f"{words} under valgrind: status {printed.status}, {printed.stderr[:80]!r}")
    return int(COUNTED.findall(log.read_text())[0].replace(",", "")), growths


def check_and_print_millions(counts: Counts, about: str, taken: int, millions: float, times: float = MOST_TIMES) -> None:
    """Compares the instructions of a run with the millions that were counted before; `about` begins the line that says them."""
    took = f"{about} {taken / 1e6:.1f} million instructions"
    print(took, flush=True)
    counts.check(f"{took}, more than {times} times {millions} million", taken < times * millions * 1e6)
