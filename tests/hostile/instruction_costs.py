"""What names of orders that collide cost, many cancels, and full books, as a number of instructions, which valgrind counts: it does not
depend on what else the machine does.

Names that collide in a book's map under the fixed seed cost no more than others, since the program draws a seed of its own. If it gets no
random bytes, it takes the fixed seed, and then they do: so the names collide, and each engine passes its seed on. So do
`Gate::begin_seeded` and `run_commands`, which `dam_refusals` calls with a seed that it draws in the same way. Nor do participants and names
cost more that differ in a few letters alone, in whichever places: each letter is hashed.

An old order costs no more to cancel than a new one, and a name that is used again no more than another. A book that moved all later
orders up at each cancel would take ten times as much. The cost is that of a journal that submits as many orders as a book holds, less that
of the journal of the submits alone.

A run on a full book, or of a full journal, takes about as many instructions as the program took when they were last counted, and so do
calls at a gate up to a full journal, each with a look after it. With a step for each order, command or look that goes over all orders,
entries or receipts, they would take several times as many."""

import functools
import itertools
import struct
from collections.abc import Iterable, Iterator, Sequence
from typing import NamedTuple

from hostile.retried_calls import REFUSALS
from hostile.right_answers import UNFINISHED
from hostile.row_runner import RowRunner
from lib.base import rules
from shared.instructions import DRAWN, FIXED, MOST_TIMES, TIMES, check_and_print_millions, measure_instructions
from shared.preload import HostileProgram, RefusedCalls
from shared.records import (
    ORDERS,
    capture_colliding_names,
    journal_text,
    ordinary_names,
    participant_codes,
    records_of_full_journal,
    submits_of,
    submits_of_book,
    volumes_text,
)

CANCEL_TIMES = 2  # cancels take less than twice the instructions of others
SOME = 1_000  # of the names, if there are many runs: with the fixed seed, those that collide take 20 times the instructions
RANDOM = bytes(range(1, 17))  # random bytes, each another
VARIED = list(map("".join, itertools.product("ABCDEFGHIJ", repeat=3)))  # the letters in which the orders of a kind differ
KINDS = ORDERS // len(VARIED)  # of a journal
KINDS_TIMES = 2  # a journal takes less than 2 times the instructions of another: if those of a kind collided, 3.5 times or more
LONG = "PARTICIP"
WORKERS = {"clear": {2: 23, 3: 25, 4: 92, 8: 100}, "day": {2: 100, 3: 92, 4: 25, 8: 23}}  # and the length of the day
OTHER_DAYS = (23, 25, 92, 100)  # the lengths on which a replay and the calls of the gate are tried besides
AGAIN = 2_990  # the orders that are cancelled, each with a submit after it, so that all fit a journal of 10,000 records
SEARCH_TIMES = 1.5  # and as many for a search by relaxed welfares, most of whose time goes to finding places among many steps
REFUSED = 500  # the commands that are refused, each after an accepted one
# Each engine by its words, and the two calls of the gate that take a seed by those of `dam_refusals`; those of `OPEN` take no close.
ENGINES: list[list[str]] = [["replay"], ["clear"], ["day"], ["clear", "--nodes", "20"], ["clear", "--workers", "1"], ["day", "--workers", "1", "--cut", "0"]]
GATES: dict[str, list[str]] = {"begin_seeded": [], "run_commands": ["threads"]}
OPEN = [*(words for words in ENGINES if words[0] == "day"), *GATES.values()]
LOOKS = 49.7  # millions of instructions of the calls of `dam_refusals` up to a full journal, each with a look after it


def check_names(runs: RowRunner) -> None:
    """Tries each engine and each call of the gate with a seed that is drawn and with the fixed one, and with a drawn one on a longer day
    with a second participant too."""
    refusals = HostileProgram(REFUSALS, runs.program.room)
    tried: list[tuple[str, HostileProgram, list[str]]] = [(" ".join(words), runs.program, words) for words in ENGINES]
    tried += [(call, refusals, words) for call, words in GATES.items()]
    lists = submits_of(ordinary_names()), submits_of(capture_colliding_names(runs.program.room))
    plans: list[tuple[RefusedCalls, int, list[str]]] = [(DRAWN, 24, []), (FIXED, 24, []), (DRAWN, 96, ["submit,B,N-1,hour,buy,0,1:1,,\n"])]
    asked = [
        (program, words, journal_text(more + records, words not in OPEN, periods), refusal)
        for _, program, words in tried
        for refusal, periods, more in plans
        for records in lists
    ]
    counts = list(runs.pool.map(lambda it: measure_instructions(*it), asked))
    for at, (about, _, _) in enumerate(tried):
        drawn, fixed, long = (counts[6 * at + pair + 1] / counts[6 * at + pair] for pair in (0, 2, 4))
        took = f"{drawn:.1f} times the instructions of others, {fixed:.1f} times with the fixed seed"
        print(f"{about}, names that collide: {took}", flush=True)
        runs.check(f"{about}: names that collide take {drawn:.1f} times the instructions of others", drawn < TIMES)
        runs.check(f"{about}, quarter-hours: names that collide take {long:.1f} times the instructions of others", long < TIMES)
        runs.check(f"{about}: with the fixed seed, names that collide take only {fixed:.1f} times those of others", fixed > TIMES)
    check_names_on_other_days(runs)
    check_seed_bytes(runs)
    check_letters(runs)


def runs_on_other_days(runs: RowRunner) -> Iterator[tuple[str, HostileProgram, list[str], list[tuple[list[str], int]]]]:
    """Each engine and each call of the gate: its name, its program, its words, and the further words and the length of each day."""
    for word, days in WORKERS.items():
        yield word, runs.program, [word], [(["--workers", str(workers)], periods) for workers, periods in days.items()]
    refusals = HostileProgram(REFUSALS, runs.program.room)
    yield "replay", runs.program, ["replay"], [([], periods) for periods in OTHER_DAYS]
    for call, words in GATES.items():
        yield call, refusals, words, [([], periods) for periods in OTHER_DAYS]


def measure_drawn(program: HostileProgram, given: tuple[list[str], bytes]) -> int:
    """The instructions of a run with these words and this text, which draws its seed."""
    return measure_instructions(program, *given, DRAWN)


def check_names_on_other_days(runs: RowRunner) -> None:
    """Names that collide, with several workers and on other days, compared with others on the longest day."""
    others = submits_of(ordinary_names()[:SOME], LONG)
    colliding = submits_of(capture_colliding_names(runs.program.room, SOME, LONG), LONG)
    for name, program, words, days in runs_on_other_days(runs):
        texts = [(words, journal_text(others, words not in OPEN, 100))]
        texts += [(words + more, journal_text(colliding, words not in OPEN, periods)) for more, periods in days]
        usual, *found = runs.pool.map(functools.partial(measure_drawn, program), texts)
        for (more, periods), count in zip(days, found):
            about = f"{' '.join([name, *more])}, {periods} periods"
            took = f"{about}: names that collide take {count / usual:.1f} times the instructions of others"
            runs.check(took, count < TIMES * usual)


def check_seed_bytes(runs: RowRunner) -> None:
    """The seed is of all random bytes: names that collide under the seed of these take few instructions if any byte is another."""
    refusals = HostileProgram(REFUSALS, runs.program.room)
    records = submits_of(capture_colliding_names(runs.program.room, SOME, LONG, struct.unpack("<2Q", RANDOM)), LONG)
    engines = [(runs.program, [word]) for word in ("replay", "clear", "day")] + [(refusals, words) for words in GATES.values()]
    others = [RANDOM[:place] + b"\0" + RANDOM[place + 1 :] for place in range(len(RANDOM))]
    asked = [(*engine, RANDOM) for engine in engines] + [(*engines[0], other) for other in others]

    def run(program: HostileProgram, words: Sequence[str], given: bytes) -> int:
        refusal = RefusedCalls("given", *struct.unpack("<2Q", given))
        return measure_instructions(program, words, journal_text(records, words not in OPEN), refusal)

    counts = list(runs.pool.map(lambda it: run(*it), asked))
    slow, quick = counts[: len(engines)], counts[len(engines) :]
    times = min(slow) / max(quick)
    took = f"names that collide under the seed of given random bytes take {times:.1f} times as long as if a byte is another"
    print(took, flush=True)
    runs.check(f"{took}: {slow}, {quick}", min(slow) > TIMES * max(quick))


def texts_that_differ(length: int, place: int) -> list[str]:
    """Texts of this length that differ in the letters from this place on alone."""
    return ["Z" * place + letters + "Z" * (length - place - len(letters)) for letters in VARIED]


def submits_by_kind() -> Iterator[list[str]]:
    """Yields the submits of orders whose participants, or whose names, differ in three letters alone: of each length, in each place."""
    for longest, is_name in ((rules.LONGEST_PARTICIPANT, False), (rules.LONGEST_NAME, True)):
        for length in range(3, longest + 1):
            for place in range(length - 2):
                texts = texts_that_differ(length, place)
                if is_name:
                    yield submits_of(texts, LONG[: 1 + length % len(LONG)])
                else:
                    yield [record for text in texts for record in submits_of([f"B{length}"], text)]


def check_letters(runs: RowRunner) -> None:
    """Each letter of a participant and of a name is hashed. Orders of several kinds share a journal, and take about as long as others."""
    kinds = list(submits_by_kind())
    journals = [journal_text(itertools.chain.from_iterable(kinds[at : at + KINDS])) for at in range(0, len(kinds), KINDS)]
    counts = list(runs.pool.map(lambda data: measure_instructions(runs.program, ["replay"], data, DRAWN), journals))
    times = max(counts) / min(counts)
    took = f"participants and names that differ in three letters take at most {times:.2f} times the instructions of others"
    print(took, flush=True)
    runs.check(f"{took}: {counts}", times < KINDS_TIMES)


def numbered_submits(numbers: Iterable[int]) -> list[str]:
    return submits_of(f"N-{number}" for number in numbers)


def cancels_of(numbers: Iterable[int]) -> list[str]:
    return [f"cancel,A,N-{number},,,,,,\n" for number in numbers]


def in_alternation(*lists: Iterable[str]) -> list[str]:
    return [record for records in zip(*lists) for record in records]


def journals_with_cancels() -> dict[str, tuple[list[str], list[str]]]:
    """The records after the submits of a book's orders, by name, each with those that they are compared with."""
    oldest, newest = range(AGAIN), [ORDERS - 1] * AGAIN
    from_the_back = cancels_of(reversed(range(ORDERS)))
    last_again = in_alternation(cancels_of(newest), numbered_submits(newest))
    return {
        "cancels from the front": (cancels_of(range(ORDERS)), from_the_back),
        "the oldest order cancelled and its name used again": (in_alternation(cancels_of(oldest), numbered_submits(oldest)), last_again),
        "one order cancelled and its name used again": (in_alternation(cancels_of([0] * AGAIN), numbered_submits([0] * AGAIN)), last_again),
    }


def check_cancels(runs: RowRunner) -> None:
    """Counts the instructions of each journal with cancels, and of the one that it is compared with."""
    begin = numbered_submits(range(ORDERS))
    tried = {name: tuple(journal_text(begin + records) for records in both) for name, both in journals_with_cancels().items()}
    needed = {journal_text(begin)}.union(*tried.values())
    counts = dict(zip(needed, runs.pool.map(lambda data: measure_instructions(runs.program, ["replay"], data, DRAWN), needed)))
    alone = counts[journal_text(begin)]
    for name, (one, other) in tried.items():
        times = (counts[one] - alone) / (counts[other] - alone)
        print(f"replay, {name}: {times:.2f} times the instructions of the same from the back", flush=True)
        runs.check(f"replay: {name} takes {times:.2f} times the instructions of the same from the back", times < CANCEL_TIMES)


def refused_commands() -> list[str]:
    """A full book, and by turns an amend and a submit that is refused because its order is there."""
    begin = [*submits_of_book(24)]
    amends = [f"amend,{code},N-{at},,,{4_000 + at},{1 + at % 24}:7,,\n" for at, code in zip(range(REFUSED), participant_codes())]
    return begin + in_alternation(amends, begin)


def records_of_crowded_book() -> list[str]:
    """A full book whose hourly orders are all in one period."""
    return [*submits_of_book(1, blocks=0), *submits_of_book(24, orders=0)]


def submits_with_long_amends() -> Iterator[str]:
    """Amends of a block in each period of the longest day."""
    periods = rules.GREATEST_PERIOD
    yield f"submit,A,K-1,block,sell,5000,{volumes_text(periods, lambda period: period)},,\n"
    for cents in range(1_000):
        yield f"amend,A,K-1,,,{cents},{volumes_text(periods, lambda period: period + cents)},,\n"


class WorkOfRun(NamedTuple):
    """A run: the day's periods, the records, the words, the millions of instructions that were counted, how many times as many are too
    many, and the status."""

    periods: int
    records: Iterable[str]
    words: list[str]
    millions: float
    times: float = MOST_TIMES
    status: int = 0


def runs_by_name() -> dict[str, WorkOfRun]:
    """Each run, by its name."""
    clear, day = ["clear", "--workers", "1"], ["day", "--workers", "1"]
    limited = [*clear, "--cut", "0", "--nodes"]
    return {
        "replay of a full journal": WorkOfRun(24, records_of_full_journal(), ["replay"], 30.1),
        "clear of a full book": WorkOfRun(24, submits_of_book(24), clear, 18.5),
        "clear of a full book of quarter-hours": WorkOfRun(96, submits_of_book(96), clear, 24.2),
        "clear of 12 blocks within 8,000 nodes": WorkOfRun(24, submits_of_book(24, orders=480, blocks=12), [*limited, "8000"], 60.9),
        "clear of 24 blocks by 4 workers": WorkOfRun(24, submits_of_book(24, orders=480), ["clear", "--workers", "4"], 3.94, SEARCH_TIMES),
        "clear of a crowded period up to 2,000 nodes": WorkOfRun(24, records_of_crowded_book(), [*limited, "2000"], 83.1, SEARCH_TIMES, UNFINISHED),
        "day of a full journal": WorkOfRun(24, records_of_full_journal(), day, 96.5),
        "day of a full book and refused commands": WorkOfRun(24, refused_commands(), day, 54.3),
        "day of amends of 100 volumes": WorkOfRun(rules.GREATEST_PERIOD, submits_with_long_amends(), day, 60.8),
    }


def check_full_books(runs: RowRunner) -> None:
    """Counts the instructions of runs on full books, and of a journal that is filled at a gate."""
    tried = runs_by_name()
    asked = [(it.words, journal_text(it.records, it.words[0] != "day", it.periods), DRAWN, it.status) for it in tried.values()]
    counts = runs.pool.map(lambda it: measure_instructions(runs.program, *it), asked)
    for (about, work), count in zip(tried.items(), counts):
        check_and_print_millions(runs, f"{about}:", count, work.millions, work.times)
    looks = measure_instructions(HostileProgram(REFUSALS, runs.program.room), ["full"], b"", DRAWN)
    check_and_print_millions(runs, "calls up to a full journal, each with a look after it:", looks, LOOKS)
