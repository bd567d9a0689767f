"""The costs of a desk for journals of each shape, as `tests/hostile/costs_by_shape.py` has those of `dam`: with a new file, with that file
opened again, for the journal of the file, and for the second half of the journal in a file that has the first. Files of more commands on
each length of a day, of a full journal and with a torn end are only opened again; long lines come to a file that has only its day."""

from __future__ import annotations

import itertools
import shutil
from collections.abc import Callable, Iterable, Iterator
from concurrent.futures import ThreadPoolExecutor
from typing import Any

from desk import files
from desk.device import DeskProgram
from desk.journals import DamProgram
from desk.streams import LONGEST_LINE
from lib.base import rules
from shared import shapes
from shared.cost_tables import Cost, check_costs, write_tables
from shared.counts import Counts
from shared.crash_files import HEAD
from shared.instructions import DRAWN, FIXED, measure_counts, measure_instructions
from shared.place import TOP
from shared.preload import HostileProgram, RefusedCalls, Words
from shared.records import DAY, journal_text, records_of_full_journal

Measure = Callable[..., Iterator[tuple[str, Cost]]]  # of the program, the desk, and a row of arguments
HERE = TOP / "tests/desk"  # the folder of the tables
HELD, AT_ONCE = 1_000, 64  # orders, and bytes of a read
JOURNAL, JOURNAL_SEED, SEED = "--journal", FIXED, FIXED._replace(first=3)  # an opened file draws twice before
COMMANDS = dict(zip(rules.DAYS, (1_050, 1_600, 2_400, 3_600, 5_400, 8_100)))  # of a file that is opened again, by the day's length
# the lengths of long lines, and their bytes in all, or those of one line
LINES, IN_ALL = (12_000, 30_000, LONGEST_LINE, 100_000, 16_000_000), 2_000_000
TORN = (20_000, 500_000, 10_000_000)  # bytes after the end of a file's lines
DAYS_AGAIN = 10_000  # how often the record of a day comes again


def named_journals() -> Iterator[tuple[str, bytes]]:
    """Yields a journal of each shape, each command and each refusal."""
    for shape in (shapes.SHORT, shapes.LONG, *shapes.OTHERS):
        first, kinds = list(shape.submits_of_book()), list(shapes.named_commands(shape))
        for about, records in kinds if shape is shapes.LONG else kinds[-1:]:
            yield f"{shape.periods}: {about}", journal_text([*first, *itertools.islice(records, shapes.COMMANDS)], True, shape.periods)


def named_longer_journals() -> Iterator[tuple[str, bytes]]:
    """Yields a journal of each length of a day, and a full one."""
    for periods, count in COMMANDS.items():
        shape = shapes.Shape(periods, "BRAVO", "N-%d", False)
        *_, (_, records) = shapes.named_commands(shape)
        first = list(shape.submits_of_book())
        yield f"{periods}: {count:,} commands", journal_text([*first, *itertools.islice(records, count - len(first))], False, periods)
    yield "24: all commands of a full journal", journal_text(records_of_full_journal())


def measure_count(program: HostileProgram, words: Words, data: bytes, refusal: RefusedCalls) -> int:
    """How many calls a run makes, or bytes it holds, which must end with status 0."""
    printed, count = program.run(words, data, refusal)
    if printed.status:
        raise ValueError(f"{words}: status {printed.status}, {printed.stderr[:80]!r}")
    return count


def measure_cost(program: HostileProgram, words: Words, data: bytes, words_of_second: Words) -> Cost:
    """What a run costs. It is made twice, and the second time with other words: those of a file that is the same."""
    found, growths = measure_counts(program, words, data, JOURNAL_SEED if JOURNAL in words else SEED)
    return Cost(found, measure_count(program, words_of_second, data, RefusedCalls("peak")), growths)


def measure_costs_of_journal(program: HostileProgram, desk: DeskProgram, about: str, data: bytes) -> Iterator[tuple[str, Cost]]:
    """Yields the name of each run, and its cost."""
    file, copy = (desk.make_path() for _ in range(2))
    yield f"new {about}", measure_cost(program, [file], data, [copy])
    yield f"again {about}", measure_cost(program, [file], b"", [file])
    yield f"journal {about}", measure_cost(program, [JOURNAL, file], b"", [JOURNAL, file])
    yield f"rest {about}", measure_cost_of_rest(program, desk, data)


def measure_costs_of_longer(program: HostileProgram, desk: DeskProgram, about: str, data: bytes) -> Iterator[tuple[str, Cost]]:
    """Yields what the file of a journal costs that is opened again."""
    file = desk.make_path()
    measure_count(program, [file], data, DRAWN)
    yield f"again {about}", measure_cost(program, [file], b"", [file])


def measure_cost_of_rest(program: HostileProgram, desk: DeskProgram, data: bytes) -> Cost:
    """What the second half of a journal costs, whose first half a file has."""
    lines = data.splitlines(keepends=True)
    first, rest = (b"".join(part) for part in (lines[: len(lines) // 2], lines[len(lines) // 2 :]))
    file, copy = (desk.make_path() for _ in range(2))
    for path in (file, copy):
        measure_count(program, [path], first, DRAWN)
    return measure_cost(program, [file], rest, [copy])


def measure_costs_of_torn(program: HostileProgram, desk: DeskProgram, count: int) -> Iterator[tuple[str, Cost]]:
    """Yields what the opening of a file costs that a crash left with line feeds after its lines: its end is repaired."""
    file, copy = (files.make_desk_file(desk.make_folder(), HEAD + b"+" + DAY + b"\n" * count) for _ in range(2))
    yield f"again after {count:,} bytes torn", measure_cost(program, [file], b"", [copy])


def measure_costs_of_lines(program: HostileProgram, desk: DeskProgram, length: int) -> Iterator[tuple[str, Cost]]:
    """Yields what lines cost whose first byte isn't ASCII: they are copied, but not read as records."""
    data = DAY + (b"\xff" + b"A" * (length - 1) + b"\n") * max(1, IN_ALL // length)
    file, copy = (desk.make_path() for _ in range(2))
    yield f"new, lines of {length:,} bytes", measure_cost(program, [file], data, [copy])


def measure_costs_of_days(program: HostileProgram, desk: DeskProgram, about: str, records: Iterable[str]) -> Iterator[tuple[str, Cost]]:
    """Yields what the record of a day costs that comes again and again, each time with the same answer."""
    file, copy = (desk.make_path() for _ in range(2))
    data = journal_text(records, False) + DAY * DAYS_AGAIN
    yield f"new, the same day {DAYS_AGAIN:,} times {about}", measure_cost(program, [file], data, [copy])


def measure_costs_of_small_reads(program: HostileProgram, desk: DeskProgram) -> Iterator[tuple[str, Cost]]:
    """Yields the runs of a desk that gets a few lines at a time, with a book of many orders after a cancel: it draws its own seeds."""
    shape = shapes.SHORT
    amends = dict(shapes.named_commands(shape))["hourly orders amended"]
    records = [*shape.submits_of_book(HELD), shape.cancel_of(shape.name_of(1)), *itertools.islice(amends, shapes.COMMANDS)]
    data, file = journal_text(records, True, shape.periods), desk.make_path()
    found = measure_instructions(program, [file], data, RefusedCalls("read", most=AT_ONCE))
    yield f"new, {AT_ONCE} bytes a read", Cost(found)


def measure_costs(desk: DeskProgram) -> list[tuple[str, Cost]]:
    program = HostileProgram(desk.words[0], desk.room)
    tried: list[tuple[Measure, Iterable[Any]]] = [(measure_costs_of_journal, it) for it in named_journals()]
    tried += [(measure_costs_of_longer, it) for it in named_longer_journals()]
    tried += [(measure_costs_of_torn, [count]) for count in TORN]
    tried += [(measure_costs_of_lines, [length]) for length in LINES]
    tried += [(measure_costs_of_days, it) for it in (("without orders", []), ("after a book", shapes.SHORT.submits_of_book()))]
    tried.append((measure_costs_of_small_reads, []))
    with ThreadPoolExecutor() as pool:
        found = pool.map(lambda it: list(it[0](program, desk, *it[1])), tried)
        return list(itertools.chain.from_iterable(found))


def run_and_write_cost_tables(desk: DeskProgram) -> None:
    write_tables(HERE, measure_costs(desk))


def check_shape_costs(counts: Counts, desk: DeskProgram, dam: DamProgram, whole: bool) -> None:
    if shutil.which("valgrind"):
        check_costs(counts, HERE, measure_costs(desk))
    else:
        counts.count_and_print_left_out("what a desk costs for each shape of a journal: valgrind, which counts instructions, is missing", 1)
