#!/usr/bin/env python3
"""Reads random Excel workbooks as the tools do. Each case is a table of cells, written in one of the many ways that Excel allows. The
reader must return exactly these cells, and mark those that Excel shows in another way. Half of the workbooks are then broken in one place:
there the reader must report a fault.

With --large it also reads workbooks and texts of at most 5 MB that are made to take memory and time. Each read must end within 10 seconds
of a processor, and take at most 42 MiB more memory than the tools themselves, which have some 22. Otherwise it reads only a few of these.

Each case depends only on the seed and its number. The last line is 'N passed, M failed'."""

import os
import random
import resource
import sys
import time
from collections.abc import Iterable
from pathlib import Path

sys.dont_write_bytecode = True
sys.path[:1] = [str(Path(__file__).resolve().parents[2] / folder) for folder in ("tests", "tools")]

from fuzz.broken_workbooks import BREAKS
from lib.tables import cell_values, order_table, table_files
from shared.arguments import parser_of_cases
from shared.costly_workbooks import FEW, LARGE
from shared.counts import Counts
from shared.drawn_workbooks import RandomWorkbook, trimmed

MOST_SECONDS, MOST_MEMORY, MOST_BYTES = 10, 42 * 2**20, 5 * 10**6


def try_random_workbook(rng: random.Random) -> str | None:
    """What is wrong with the reader on a random workbook; None if nothing is."""
    drawn = RandomWorkbook(rng)
    broken = rng.choice(BREAKS) if rng.random() < 0.5 else None
    words = broken(drawn) if broken else ""
    data = words if isinstance(words, bytes) else drawn.draw_bytes()
    try:
        found = [(number, trimmed(cells)) for number, cells in table_files.parse_rows_and_add_notes(data)[0]]
    except table_files.BadTable as fault:
        if broken is None:
            return f"it is right, and refused: {fault}"
        return None if isinstance(words, bytes) or words in str(fault) else f"{broken.__name__}: another fault: {fault}"
    except Exception as fault:
        return f"{broken and broken.__name__}: the reader fails: {fault!r}"
    if broken:
        return f"{broken.__name__}: no fault"
    read, wanted = ([(number, marked_cells(cells)) for number, cells in rows if cells] for rows in (found, drawn.expected_rows()))
    return None if read == wanted else f"it has {read} instead of {wanted}"


def marked_cells(cells: Iterable[str]) -> list[tuple[str, bool]]:
    """The text of each cell, and whether every column refuses it."""
    return [(str(cell), is_refused(cell)) for cell in cells]


def is_refused(cell: str) -> bool:
    try:
        cell_values.refuse_unlike(cell, False)
        return False
    except order_table.BadOrders:
        return True


def try_in_fork(data: bytes, words: str | None) -> str:
    """What is wrong with a read, in a process of its own that may take as much time and memory as is allowed."""
    reading, writing = os.pipe()
    child = os.fork()
    if child == 0:
        try:
            os.close(reading)
            os.write(writing, try_within_limits(data, words).encode()[:2_000])
        finally:
            os._exit(0)
    os.close(writing)
    with open(reading, "rb") as pipe:
        found = pipe.read().decode(errors="replace")
    _, status = os.waitpid(child, 0)
    return f"it ends with {os.waitstatus_to_exitcode(status)}" if status else found


def try_within_limits(data: bytes, words: str | None) -> str:
    """Limits this process, and returns the fault of a read in it."""
    pages = int(Path("/proc/self/statm").read_text().split()[0])
    resource.setrlimit(resource.RLIMIT_AS, (pages * resource.getpagesize() + MOST_MEMORY,) * 2)
    resource.setrlimit(resource.RLIMIT_CPU, (int(time.process_time()) + MOST_SECONDS,) * 2)
    try:
        order_table.parse_tables([("", data)], 100)
        fault = None
    except order_table.BadOrders as wrong:
        fault = str(wrong)
    except MemoryError:
        return f"it takes more than {MOST_MEMORY // 2**20} MiB"
    if words == "" or fault is None and words is None or words and words in (fault or ""):
        return ""
    # A table that is read may have rows that are no orders.
    return "" if words is None and fault and fault.startswith("line 2,") else f"another fault: {fault}"


def main() -> int:
    parser = parser_of_cases("tests/fuzz/workbooks.py", __doc__, "cases", 2_000, has_program=False)
    parser.add_argument("--large", action="store_true", help="also all workbooks that take memory or time")
    args = parser.parse_args()
    counts = Counts()
    for number in range(args.first, args.first + args.count):
        wrong = try_random_workbook(random.Random(f"workbooks {args.seed} {number}"))
        counts.check(f"case {number} of seed {args.seed}: {wrong}", wrong is None)
    for name, (words, make) in {**FEW, **(LARGE if args.large else {})}.items():
        data = make()
        began = sum(resource.getrusage(resource.RUSAGE_CHILDREN)[:2])
        wrong = try_in_fork(data, words) or (f"the case has {len(data)} bytes" if len(data) > MOST_BYTES else "")
        seconds = sum(resource.getrusage(resource.RUSAGE_CHILDREN)[:2]) - began
        counts.check(f"{name}: {wrong} ({seconds:.1f} s)", not wrong)
    return counts.print_totals_and_return_status()


if __name__ == "__main__":
    sys.exit(main())
