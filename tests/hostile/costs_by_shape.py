"""The costs of `dam` for journals of each shape: the instructions, the most bytes and the calls for memory of a run, compared with those that were
counted before.

A body that does some work once more for each command, order, period or node, or keeps a copy of something, costs more on the shapes that
it does so on. So there is a journal for each command and each refusal, on short and long days, with short and long names, and with volumes
in one period or in each; one for each length of a day; books with all kinds of blocks and bonds in all kinds of markets; and a text in each
form. A run costs less than 1.25 times the cost in `counted.csv`, and makes at most as many calls for memory as `growths.csv` has.
`run PROGRAM --count` counts all of them again: look at each row that grew.

The seed of the maps is the fixed one, and one participant enters the commands of a day, so that a run always costs the same. The table is
of a program as `rt ci` builds it: `tools/unproved` doesn't optimize, so count first what its program of the unchanged sources takes."""

import itertools
import random
from collections.abc import Iterable, Iterator, Sequence
from pathlib import Path
from typing import NamedTuple

from hostile.instruction_costs import records_of_crowded_book
from hostile.retried_calls import REFUSALS
from hostile.right_answers import UNFINISHED
from hostile.row_runner import RowRunner
from lib.base import rules
from shared.cost_tables import Cost
from shared.full_days import BONDS, MARKETS, FullDay, Size
from shared.generated_books import generate_book
from shared.instructions import FIXED, measure_counts
from shared.place import TOP
from shared.preload import HostileProgram, RefusedCalls
from shared.records import capture_colliding_names, journal_text, volumes_text
from shared.shapes import COMMANDS, LONG, OTHERS, SHORT, SIDES, Shape, named_commands

HERE = TOP / "tests/hostile"  # the folder of the tables
FULL_HOURS, FULL_COMMANDS = rules.MOST_HOURLY - 10, 2_000  # of a full book, but for the orders that the commands submit
SEARCHED = Size(480, 14, 1_000)
WHOLE = Size(rules.MOST_HOURLY, rules.MOST_BLOCKS, rules.MOST_RECORDS)
LONG_TEXT = 2 << 20
THIN = 240  # hourly orders of a thin market
COLLIDING, CHANGES = 700, 1_500  # orders whose names collide, and the commands that change them
MOST_WORKERS = 8  # of a plan
KINDS = ["base", "peaks", "shaped", "odd", "random", "mixed", "wide"]
FAMILIES = ["market", "paradox", "spread", "nearties", "links", "groups", "ties"]


class Run(NamedTuple):
    """A run with these words and this text, and the statuses that it may end with; of another program, if one is given."""

    words: list[str]
    data: bytes
    statuses: tuple[int, ...] = (0,)
    program: Path | None = None

    @property
    def is_alone(self) -> bool:
        """Whether one thread does it, so that it always makes as many calls for memory."""
        return self.words[:1] != ["clear"] or self.words[1:3] == ALONE[:2]


Runs = Iterator[tuple[str, Run]]  # each with its name
ALONE = ["--workers", "1", "--cut", "0"]
REPLAY, CLEAR, DAY = ["replay"], ["clear", *ALONE], ["day", *ALONE]


def runs_of_engines(shape: Shape, records: Iterable[str], is_closed: bool = True) -> Iterator[Run]:
    """A journal as `dam replay` and as `dam day` take it."""
    records = list(records)
    yield Run(REPLAY, journal_text(records, is_closed, shape.periods))
    yield Run(DAY, journal_text(records, False, shape.periods))


def runs_of_commands() -> Runs:
    """Yields the runs on commands of each kind."""
    for shape in (SHORT, LONG):
        first = list(shape.submits_of_book())
        for about, records in named_commands(shape):
            for run in runs_of_engines(shape, [*first, *itertools.islice(records, COMMANDS)]):
                yield f"{run.words[0]} {shape.periods}: {about}", run
        refused = itertools.cycle([shape.submit_of_hour(0), first[-1], shape.amend_of("X", 1, shape.volumes()), shape.cancel_of("X")])
        closed = [*first[:-1], "close,,,,,,,,\n", *itertools.islice(refused, COMMANDS)]
        yield f"replay {shape.periods}: Closed", Run(REPLAY, journal_text(closed, True, shape.periods))
    for shape in OTHERS:
        *_, (about, records) = named_commands(shape)
        for run in runs_of_engines(shape, [*shape.submits_of_book(), *itertools.islice(records, COMMANDS)]):
            yield f"{run.words[0]} {shape.periods}: {about}", run


def runs_of_full_books() -> Runs:
    """Yields the runs on full books: with commands of each kind, by one participant, and with orders that they refuse."""
    first = list(SHORT.submits_of_book(FULL_HOURS))
    less_one = [*first, SHORT.cancel_of(SHORT.name_of(1))]
    for about, commands in named_commands(SHORT):
        if about != "hourly orders":
            yield f"replay of a full book: {about}", Run(REPLAY, journal_text([*less_one, *itertools.islice(commands, FULL_COMMANDS)]))
    cancelled = itertools.islice(dict(named_commands(SHORT))["blocks submitted and cancelled"], FULL_COMMANDS)
    yield "day of a full book: blocks submitted and cancelled", Run(DAY, journal_text([*first, *cancelled], False))
    *_, (about, commands) = named_commands(SHORT)
    journal = journal_text([*less_one, *itertools.islice(commands, rules.MOST_DAY_COMMANDS - len(first) - 1)], False)
    yield f"day of a full journal of one participant: {about}", Run(DAY, journal)
    for shape in (SHORT, LONG):
        hours = [shape.submit_of_hour(number) for number in range(rules.MOST_HOURLY)]
        refused = [shape.submit_of_hour(5_000 + number) for number in range(COMMANDS)]
        blocks = [shape.submit_of_block(number) for number in range(rules.MOST_BLOCKS + COMMANDS)]
        for about, records in [("HourlyFull", hours + refused), ("BlocksFull", blocks)]:
            yield f"replay {shape.periods}: {about}", Run(REPLAY, journal_text(records, True, shape.periods))


def runs_of_participants() -> Runs:
    """Yields the runs on a book in which each order has a participant of its own."""
    names = map("".join, itertools.product("ABCDEFGHIJKLMNOP", repeat=3))
    hours = [SHORT._replace(who=name).submit_of_hour(number) for number, name in enumerate(itertools.islice(names, rules.MOST_HOURLY))]
    for run in (Run(REPLAY, journal_text(hours)), Run(CLEAR, journal_text(hours))):
        yield f"{run.words[0]} of {rules.MOST_HOURLY:,} participants", run


def runs_of_colliding_names(names: Sequence[str]) -> Runs:
    """Yields the runs on orders of these names, which collide. Most of their instructions are those of look-ups, so they show one more for
    each command: a command that is decided again, or an order that isn't found at the place of its outcome."""
    submits = [SHORT.submit_of_hour(number, name=name) for number, name in enumerate(names)]
    amends = (SHORT.amend_of(names[at % len(names)], at, f"{1 + at % SHORT.periods}:7") for at in itertools.count())
    again = (line for submit, name in zip(submits, names) for line in (SHORT.cancel_of(name), submit))
    for about, records in [("amended", amends), ("cancelled and submitted", itertools.cycle(again))]:
        for run in runs_of_engines(SHORT, [*submits, *itertools.islice(records, CHANGES)]):
            yield f"{run.words[0]} of names that collide: hourly orders {about}", run


def generate_runs_by_workers() -> Runs:
    """Yields the clearings of a book by each number of workers."""
    data = generate_book("make_blocks.py", "random", 20, 1, 1, 20, THIN, "free")
    for workers in range(2, MOST_WORKERS + 1):
        yield f"clear by {workers} workers", Run(["clear", "--workers", str(workers)], data)


def runs_of_small_books() -> Runs:
    """Yields the runs on an empty book and on one order, on each length of a day."""
    for periods in rules.DAYS:
        shape = SHORT._replace(periods=periods)
        yield f"day without orders, {periods} periods", Run(DAY, journal_text([], False, periods))
        yield f"clear without orders, {periods} periods", Run(CLEAR, journal_text([], True, periods))
        yield f"clear of one order, {periods} periods", Run(CLEAR, journal_text([shape.submit_of_hour(0)], True, periods))


def runs_of_closes() -> Runs:
    """Yields the runs on orders and on closes of the operator, whose receipts are settled: `dam_refusals` enters them at a gate, and one
    close more."""
    for count in (30, 3_000):
        records = [*SHORT.submits_of_book(), *["close,,,,,,,,\n"] * count]
        yield f"{count:,} closes at a gate", Run([], journal_text(records, False), program=REFUSALS)


def runs_at_gates() -> Runs:
    """Yields the runs on a full book on each length of a day: a keeper takes the orders, and then a gate, with a look after each of them."""
    for periods in rules.DAYS:
        data = journal_text(map(SHORT._replace(periods=periods).submit_of_hour, range(FULL_HOURS)), False, periods)
        yield f"{FULL_HOURS:,} orders at a gate, {periods} periods", Run([], data, program=REFUSALS)


def runs_of_gaps() -> Runs:
    """Yields the runs on books from which an order was cancelled. Until its close, a book keeps a gap in the place of the order, and takes
    longer to find each later one."""
    for count in (30, 300, 2_900, FULL_HOURS):
        records = [*map(SHORT.submit_of_hour, range(count)), SHORT.cancel_of(SHORT.name_of(count // 2))]
        for run in (Run(CLEAR, journal_text(records)), Run(DAY, journal_text(records, False))):
            yield f"{run.words[0]} of {count:,} orders less one", run


def runs_of_searches() -> Runs:
    """Yields the runs on a book of each length of a day in each market, without a limit that the search comes to, and some with one."""
    for number, (market, periods) in enumerate(itertools.product(MARKETS, rules.DAYS)):
        bonds, is_flat = BONDS[(number + number // 6) % 4], number % 2 == 0
        drawn = FullDay(random.Random(f"shapes {market} {periods}"), periods, market, SEARCHED, is_flat, bonds)
        data, about = drawn.draw_text(), f"{market} {periods}, {bonds}"
        yield f"clear: {about}", Run(CLEAR, data)
        if number % 5 == 0:
            yield f"clear, limited: {about}", Run([*CLEAR, "--nodes", "500"], data, (0, UNFINISHED))
            yield f"clear by pieces: {about}", Run(["clear", "--workers", "1", "--cut", "8"], data)
        for cut, nodes in ((3, 20), (8, 1)) if number % 10 == 0 else ():
            words = ["clear", "--workers", "1", "--cut", str(cut), "--nodes", str(nodes)]
            yield f"clear by {1 << cut} pieces, limited: {about}", Run(words, data, (0, UNFINISHED))


def generate_runs_of_blocks() -> Runs:
    """Yields the runs on blocks as users have them, in markets with few orders for a period, and on families of books that are hard."""
    for number, (kind, parts) in enumerate(itertools.product(KINDS, (1, 4))):
        bonds = BONDS[(number + number // 2) % 4]
        data = generate_book("make_blocks.py", kind, 50, 1, parts, 12, 400, bonds)
        yield f"clear: {kind}, {24 * parts} periods, {bonds}", Run(CLEAR, data)
    for family in FAMILIES:
        yield f"clear: {family}", Run(CLEAR, generate_book("make_family.py", family, 400, 12))
    for count in (4, 8, *range(16, rules.MOST_BLOCKS + 1)):
        data = generate_book("make_blocks.py", "random", 20, 1, 1, count, THIN, "free")
        yield f"clear: {count} blocks in a thin market", Run(CLEAR, data)
        if count == 16:
            words = [*CLEAR, "--nodes", str((2 << count) - 1)]
            yield f"clear: {count} blocks in a thin market, the least limit that can't bind", Run(words, data)
    for periods in rules.DAYS:
        drawn = FullDay(random.Random(f"whole {periods}"), periods, "large", WHOLE, True, "free")
        yield f"clear: a full book of large blocks, {periods} periods", Run(CLEAR, drawn.draw_text())
    yield "clear of a crowded period up to a node", Run([*CLEAR, "--nodes", "1"], journal_text(records_of_crowded_book()), (UNFINISHED,))


def generate_runs_of_one_sided_books() -> Runs:
    """Yields the clearings of books without the hourly orders of a side, and blocks with a volume of their own in each period."""
    for (kind, count), side in itertools.product((("shaped", 16), ("shaped", 20), ("random", 20)), SIDES):
        data = generate_book("make_blocks.py", kind, 20, 1, 1, count, THIN, "free").splitlines(keepends=True)
        kept = b"".join(line for line in data if f",hour,{side},".encode() not in line)
        yield f"clear: {count} {kind} blocks without an hourly {side}", Run(CLEAR, kept)


def runs_of_walks() -> Runs:
    """Yields searches by relaxed welfares: of books whose blocks are all accepted, and of books with large net volumes of either sign."""
    limited = [*CLEAR, "--nodes", "500"]
    for periods, count in ((24, 13), (24, rules.MOST_BLOCKS), (rules.GREATEST_PERIOD, rules.MOST_BLOCKS)):
        shape = SHORT._replace(periods=periods, is_wide=True)
        places = [(at, SIDES[at % 2], 6_000 - at % 2 * 2_000, 1 + at // 2) for at in range(2 * periods)]
        hours = [f"submit,A,H-{at},hour,{side},{cents},{period}:500,,\n" for at, side, cents, period in places]
        accepted = [f"submit,A,K-{at},block,sell,-500,{shape.volumes(1)},,\n" for at in range(count)]
        yield f"clear, limited: {count} accepted blocks, {periods} periods", Run(limited, journal_text(hours + accepted, True, periods))
    for side in SIDES:
        yield f"clear, limited: large {side} blocks", Run(limited, journal_text(draw_large_book(side)), (0, UNFINISHED))


def draw_large_book(side: str) -> Iterator[str]:
    """A book of blocks of one side and of hourly orders with large volumes, nearly all in one period."""
    rng, periods = random.Random("large volumes"), [1] * 3_500 + [2, 3, 4] * 60
    for at, period in enumerate(periods):
        yield f"submit,A,N-{at},hour,{rng.choice(SIDES)},{rng.randint(4_000, 8_000)},{period}:{rng.randint(1_000, 90_000)},,\n"
    for at in range(rules.MOST_BLOCKS):
        cents, found = rng.randint(5_600, 6_400), volumes_text(4, lambda _: rng.randint(30_000, rules.GREATEST_VOLUME))
        yield f"submit,A,K-{at},block,{side},{cents},{found},,\n"


def filled_text(begin: bytes, part: bytes, end: bytes = b"") -> bytes:
    """A long text, with that part as often as it fits."""
    return begin + part * ((LONG_TEXT - len(begin) - len(end)) // len(part)) + end


def runs_of_long_texts() -> Runs:
    """Yields the runs on long texts: most aren't journals."""
    day, close = b"day,24,,,,,,,\n", b"close,,,,,,,,\n"
    yield "replay of empty lines", Run(REPLAY, filled_text(day, b"\n", close))
    for words, end in ((REPLAY, close), (CLEAR, close), (DAY, b"")):
        yield f"{words[0]} of empty lines that end with CR", Run(words, filled_text(day.replace(b"\n", b"\r"), b"\r", end))
    faulty = {
        "a text without a day": filled_text(b"", b"x\n"),
        "one long field": filled_text(day, b"A"),
        "one long quoted field": filled_text(day + b'"', b"A", b'"'),
        "doubled quotes": filled_text(day + b'"', b'""', b'"'),
        "commas": filled_text(day, b","),
        "a last byte that isn't ASCII": filled_text(day, b"\n", b"\xff"),
        "many records": filled_text(day, close),
    }
    for about, data in faulty.items():
        yield f"replay of {about}", Run(REPLAY, data, (1,))


def runs_of_texts() -> Runs:
    """Yields the runs on a text in each form, and on one with a fault in its last record; and on a full book in one form."""
    for words in (CLEAR, DAY):
        text = journal_text(map(SHORT.submit_of_hour, range(FULL_HOURS)), words == CLEAR)
        yield f"{words[0]} of {FULL_HOURS:,} orders: CR LF", Run(words, text.replace(b"\n", b"\r\n"))
    for shape, words in itertools.product((SHORT, LONG), (REPLAY, CLEAR, DAY)):
        text = journal_text(list(shape.submits_of_book()), words != DAY, shape.periods)
        fields = [line.split(b",") for line in text.splitlines()]
        forms = {
            "CR LF": text.replace(b"\n", b"\r\n"),
            "in quotes": b"".join(b",".join(b'"%b"' % field for field in line) + b"\n" for line in fields),
            "empty lines": text.replace(b"\n", b"\n\n\n"),
        }
        for about, data in forms.items():
            yield f"{words[0]} {shape.periods}: {about}", Run(words, data)
        yield f"{words[0]} {shape.periods}: a fault", Run(words, text[:-1] + b",\n", (1,))


def generate_runs_of_every_kind(room: Path) -> dict[str, Run]:
    books = [runs_of_commands(), runs_of_full_books(), runs_of_participants(), runs_of_small_books(), runs_of_closes(), runs_at_gates()]
    books += [runs_of_gaps(), runs_of_colliding_names(capture_colliding_names(room, COLLIDING))]
    scripts = [generate_runs_by_workers(), generate_runs_of_blocks(), generate_runs_of_one_sided_books()]
    searches = [runs_of_searches(), *scripts, runs_of_walks()]
    return dict(itertools.chain(*books, *searches, runs_of_texts(), runs_of_long_texts()))


def measure_cost(program: HostileProgram, run: Run) -> Cost:
    program = HostileProgram(run.program, program.room) if run.program else program
    printed, peak = program.run(run.words, run.data, RefusedCalls("peak"))
    if printed.status not in run.statuses:
        raise ValueError(f"{run.words}: status {printed.status}, {printed.stderr[:80]!r}")
    found, growths = measure_counts(program, run.words, run.data, FIXED, printed.status)
    program.write_input(run.data).unlink(missing_ok=True)
    return Cost(found, peak, growths if run.is_alone else None)


def measure_costs(runs: RowRunner) -> Iterator[tuple[str, Cost]]:
    """Yields the name of each run, and its cost."""
    tried = generate_runs_of_every_kind(runs.program.room)
    yield from zip(tried, runs.pool.map(lambda run: measure_cost(runs.program, run), tried.values()))
