"""The costs of runs, compared with the tables counted.csv and growths.csv of a folder, or written to them."""

import csv
from collections.abc import Iterable, Sequence
from pathlib import Path
from typing import NamedTuple

from shared.counts import Counts

COUNTED, GROWTHS = ["run", "instructions", "bytes"], ["run", "growths"]  # the heads of the tables
TIMES = 1.25
ROOM = 16 << 10  # bytes that a run may hold beyond


class Cost(NamedTuple):
    """The instructions of a run, the most bytes that it holds at once, and its calls for memory, or None if their number varies."""

    instructions: int
    bytes: int = 0
    growths: int | None = None


def write_tables(folder: Path, costs: Iterable[tuple[str, Cost]]) -> None:
    """Writes the tables of a folder."""
    costs = list(costs)
    each = [[about, cost.instructions, cost.bytes] for about, cost in costs]
    growths = [[about, cost.growths] for about, cost in costs if cost.growths is not None]
    write_table(folder / "counted.csv", [COUNTED, *each])
    write_table(folder / "growths.csv", [GROWTHS, *growths])


def write_table(path: Path, rows: Iterable[Sequence[object]]) -> None:
    with open(path, "w", newline="") as file:
        csv.writer(file, lineterminator="\n").writerows(rows)


def read_tables(folder: Path) -> dict[str, Cost]:
    """The costs that the tables of a folder have, by the names of the runs."""
    with open(folder / "counted.csv", newline="") as each, open(folder / "growths.csv", newline="") as growths:
        found = {row["run"]: Cost(int(row["instructions"]), int(row["bytes"]), 0) for row in csv.DictReader(each)}
        for row in csv.DictReader(growths):
            found[row["run"]] = found[row["run"]]._replace(growths=int(row["growths"]))
    return found


def check_costs(counts: Counts, folder: Path, costs: Iterable[tuple[str, Cost]]) -> None:
    """Compares the costs of runs with those of the tables of a folder, which have each of the runs and no other."""
    before = read_tables(folder)
    most = [0.0, 0.0]
    for about, (took, held, growths) in costs:
        then, held_then, growths_then = before.pop(about)
        counts.check(f"{about}: {took:,} instructions, {TIMES} times {then:,} or more", took < TIMES * then)
        counts.check(f"{about}: {held:,} bytes were held, {TIMES} times {held_then:,} or more", held < TIMES * held_then + ROOM)
        if growths is not None:
            counts.check(f"{about}: {growths:,} calls for memory, more than {growths_then or 0:,}", growths <= (growths_then or 0))
        most = [max(most[0], took / then), max(most[1], held / max(held_then, 1))]
    counts.check(f"runs that were counted, and aren't there: {[*before]}", not before)
    print("shapes: at most {:.2f} times the instructions that were counted, and {:.2f} times the bytes".format(*most), flush=True)
