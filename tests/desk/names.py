"""Names of orders that collide in a book's map under the fixed seed, in a new file, in one that is opened again, and in a printed journal,
on each length of a day.

A desk draws a seed of its own, so they take no more instructions than others, which valgrind counts. If a desk gets no random bytes for its
seed, it takes the fixed one, and then they do: so the names collide. The others take about as many as were counted before, and so does a
full journal with amends and cancels: a step for each line that goes over all lines or orders would take several times as many."""

import errno
import shutil
import time
from collections.abc import Iterable, Iterator, Sequence
from concurrent.futures import ThreadPoolExecutor

from desk.device import DeskProgram
from desk.journals import DamProgram
from shared import records
from shared.counts import Counts
from shared.instructions import DRAWN, TIMES, check_and_print_millions, measure_instructions
from shared.preload import HostileProgram, RefusedCalls
from shared.records import journal_text, capture_colliding_names, submits_of
from lib.base import rules

ABOUT = ["in a new file", "in a file that is opened again", "in a printed journal"]
MILLIONS_OF_OTHERS = [31.2, 22.0, 22.1]  # instructions that were counted with other names
MILLIONS_OF_FULL_JOURNAL = 71.9
SOME = 1_000  # of the names, on other days
FAULT = b"A\n"  # a line before the day
FIXED = RefusedCalls("random", first=3, error=errno.ENOSYS)  # a file draws twice before


def iterate_instructions_of_desk(
    program: HostileProgram, desk: DeskProgram, records: Iterable[str], refusal: RefusedCalls, periods: int = 24
) -> Iterator[int]:
    """Yields the instructions of a desk with a new file that takes the records, with that file again, and for the file's journal."""
    file = desk.make_path()
    yield measure_instructions(program, [file], journal_text(records, True, periods), refusal)
    yield measure_instructions(program, [file], b"", refusal)
    yield measure_instructions(program, ["--journal", file], b"", refusal)


def records_of_full_journal(names: Sequence[str]) -> list[str]:
    """A submit of each name, an amend, and as many cancels as there may be before the close."""
    found = [*submits_of(names), *(f"amend,A,{name},,,1,1:2,,\n" for name in names)]
    return found + [f"cancel,A,{name},,,,,,\n" for name in names[: rules.MOST_DAY_COMMANDS - len(found)]]


def check_full_journals(counts: Counts, program: HostileProgram, desk: DeskProgram) -> None:
    """Names that collide in a journal of as many records as there may be, which is longer than one of the submits alone."""
    names = records.ordinary_names(), capture_colliding_names(desk.room)
    others, colliding = (list(iterate_instructions_of_desk(program, desk, records_of_full_journal(it), DRAWN)) for it in names)
    for about, taken, by_others in zip(ABOUT, colliding, others):
        took = f"names that collide in a full journal, {about}, take {taken / by_others:.1f} times the instructions of others"
        counts.check(took, taken < TIMES * by_others)


def check_names(counts: Counts, desk: DeskProgram, dam: DamProgram, whole: bool) -> None:
    if not shutil.which("valgrind"):
        counts.count_and_print_left_out("a desk with names that collide: valgrind, which counts instructions, is missing", 1)
        return
    begun = time.monotonic()
    program = HostileProgram(desk.words[0], desk.room)
    others, colliding = submits_of(records.ordinary_names()), submits_of(capture_colliding_names(desk.room))
    tried = [iterate_instructions_of_desk(program, desk, others, DRAWN), iterate_instructions_of_desk(program, desk, colliding, DRAWN)]
    with ThreadPoolExecutor() as pool:
        fixed = pool.submit(lambda: next(iterate_instructions_of_desk(program, desk, colliding, FIXED)))
        usual, drawn = pool.map(list[int], tried)
    for about, taken, by_others in zip(ABOUT, drawn, usual):
        took = f"names that collide {about} take {taken / by_others:.1f} times the instructions of others"
        print(took, flush=True)
        counts.check(took, taken < TIMES * by_others)
    for about, taken, millions in zip(ABOUT, usual, MILLIONS_OF_OTHERS):
        check_and_print_millions(counts, f"other names {about} take", taken, millions)
    check_full_journals(counts, program, desk)
    some = submits_of(capture_colliding_names(desk.room, SOME))
    after = measure_instructions(program, [desk.make_path()], FAULT + journal_text(some), DRAWN)
    took = f"{SOME:,} names that collide after a line with a fault take {after / usual[0]:.1f} times the instructions of"
    counts.check(f"{took} {records.ORDERS:,} others", after < usual[0])
    for periods in set(rules.DAYS) - {24}:
        each = iterate_instructions_of_desk(program, desk, some, DRAWN, periods)
        for about, taken, by_others in zip(ABOUT, each, usual):
            took = f"{SOME:,} names that collide {about}, on {periods} periods, take {taken / by_others:.1f} times the instructions of"
            counts.check(f"{took} {records.ORDERS:,} others", taken < by_others)
    full = measure_instructions(program, [desk.make_path()], journal_text(records.records_of_full_journal()), DRAWN)
    check_and_print_millions(counts, "a full journal takes", full, MILLIONS_OF_FULL_JOURNAL)
    took = f"with the fixed seed, they take {fixed.result() / usual[0]:.1f} times those"
    print(took, flush=True)
    counts.check(took, fixed.result() > TIMES * usual[0])
    print(f"names: {time.monotonic() - begun:.1f} s", flush=True)
