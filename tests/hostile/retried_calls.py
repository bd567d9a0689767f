"""Memory is refused to one call after another of `dam_refusals`, which makes each call again that was refused memory, and checks that the
refused call changed nothing and that the same call then gives its row's answer."""

import bisect
from collections.abc import Iterable, Iterator, Sequence
from pathlib import Path
from typing import NamedTuple

from hostile import right_answers
from hostile.row_runner import RowRunner
from lib.base import rules
from lib.runs.by_library import MOST_NODES
from shared.place import TOP
from shared.preload import ABOVE_ANY_CALL, HostileProgram, RefusedCalls
from shared.printed import Printed

REFUSALS = TOP / "crates/dam_refusals/out/dam_refusals"
# The output if memory is refused before the first call of the row: to its words or its input, or to the state that it needs.
BEFORE = {Printed(1, b"", b"Error: Kind(OutOfMemory)\n"), Printed(0, b"memory\n", b"")}
SPREAD = 40  # of the calls for memory of a long beginning, as many as this are refused
COPIED = 30  # orders of a book that is copied with each number of them


class RowOfRetries(NamedTuple):
    """A row of calls, each of which is refused memory once and then answered."""

    about: str
    words: Sequence[str]
    data: bytes
    answer: str
    least: int = 1  # how many refusals come to the calls of the row, at least
    is_split: bool = False  # whether the state that the row needs is made between its calls too
    goes_on: bool = False  # whether a refused call for memory may change nothing: for a thread, whose work the caller does, or in `clap`
    beginning: Sequence[str] = ()  # the words of a row that is this one's long beginning

    def right_output(self, refused: int) -> Printed:
        return Printed(0, f"{self.answer}, {refused} calls refused\n".encode(), b"")

    def is_right(self, printed: Printed) -> bool:
        """Whether a run may print this, in which a call of the row itself was refused."""
        return printed == self.right_output(1) or self.goes_on and printed == self.right_output(0)


class RetryingRuns:
    """Runs of `dam_refusals`."""

    def __init__(self, runs: RowRunner, room: Path) -> None:
        self.runs = runs
        self.program = HostileProgram(REFUSALS, room)

    def run_refused(self, row: RowOfRetries, refusal: RefusedCalls) -> Printed:
        return self.program.run(row.words, row.data, refusal)[0]

    def measure_count_of_calls(self, words: Sequence[str], data: bytes) -> int:
        """How many calls for memory it makes."""
        return self.program.run(words, data, RefusedCalls("memory", ABOVE_ANY_CALL, ABOVE_ANY_CALL))[1]

    def measure_refused_numbers(self, row: RowOfRetries, total: int) -> list[int]:
        """The calls for memory that are refused: each, but of a long beginning only some; and one that no run comes to."""
        first = self.measure_count_of_calls(row.beginning, row.data) if row.beginning else 0
        begun = {1 + at * first // SPREAD for at in range(SPREAD)} if first else set()
        return sorted(begun | set(range(first + 1, total + 2)))

    def run_check_and_count_repeats(self, row: RowOfRetries) -> int:
        """Refuses one call for memory after another. The first ones come before the row's calls; the others come from these, each of
        which is refused once and then answered."""
        check = self.runs.check
        check(f"{row.about}, nothing refused", self.run_refused(row, right_answers.NOTHING_REFUSED) == row.right_output(0))
        total = self.measure_count_of_calls(row.words, row.data)
        numbers = self.measure_refused_numbers(row, total)
        *printed, last = self.runs.pool.map(lambda number: self.run_refused(row, RefusedCalls("memory", number, number)), numbers)
        # one call for memory, for the words, is made again by the kit if it is refused
        before = next((at for at, got in enumerate(printed) if got not in BEFORE | {row.right_output(0)}), len(printed))
        check(f"{row.about}: refused calls change nothing", row.goes_on or printed[:before].count(row.right_output(0)) <= 1)
        again = 0
        for number, got in list(zip(numbers, printed))[before:]:
            again += got == row.right_output(1)
            is_right = row.is_right(got) or row.is_split and got in BEFORE
            check(f"{row.about}: call {number}: {got.stdout!r}, {got.stderr[:80]!r}", is_right)
        check(f"{row.about}, no such call", row.is_right(last) if row.goes_on else last == row.right_output(0))
        check(f"{row.about}: {again} calls are made again, and not {row.least}", again >= row.least)
        return again


def rows_of_journals_at_gate(given: Iterable[tuple[str, bytes]]) -> Iterator[RowOfRetries]:
    """Journals that are entered at a gate."""
    for about, data in given:
        entries = data.count(b"\n")
        yield RowOfRetries(f"{about} at a gate", [], data, f"{entries} entries", least=entries)


def rows_of_journals_on_threads(given: Iterable[tuple[str, bytes]]) -> Iterator[RowOfRetries]:
    """Journals of which each participant enters its commands on a thread of its own, at a gate whose turnstile is called as often after its
    jobs as before."""
    for about, data in given:
        entries = data.count(b"\n")
        yield RowOfRetries(f"{about} on threads", ["threads"], data, f"{entries} entries", least=entries, goes_on=True)


def rows_of_gates() -> Iterator[RowOfRetries]:
    """Gates that refuse a call for another reason than memory: a full journal, and passes and receipts of others."""
    yield RowOfRetries("a journal that is filled", ["full"], b"", "10000 entries", least=2, beginning=["filled"])
    yield RowOfRetries("a gate that gives nine passes", ["others"], b"", "0 entries", least=9)
    yield RowOfRetries("receipts of other gates", ["settle"], b"", "2 entries", least=12, is_split=True)


def capture_rows_of_texts(
    program: HostileProgram, given: Iterable[tuple[str, bytes]], written: Iterable[tuple[str, bytes]]
) -> Iterator[RowOfRetries]:
    """Texts that are read, and journals that are written."""
    for about, data in given:
        replies, _ = program.run(["replay"], data, right_answers.NOTHING_REFUSED)
        commands = replies.stdout.count(b"\n") - 1
        answer = replies.stderr.decode().rstrip("\n") if replies.status else f"{commands} commands"
        yield RowOfRetries(f"{about}, read", ["read"], data, answer, least=commands >= 0)
    for about, data in written:
        yield RowOfRetries(f"{about}, written", ["write"], data, f"{data.count(LINE) - 1} entries")


def rows_of_searches(two_equal: bytes, group: bytes) -> Iterator[RowOfRetries]:
    """Searches of the books of two equal blocks and of a group: by one worker and by several, and one that ends unfinished."""
    for plan in ["--workers 2 --cut 1", "--workers 4 --cut 2", "--workers 8 --cut 0", "--workers 8 --cut 8"]:
        words = ["search", "clear", *plan.split()]
        yield RowOfRetries(f"search of two equal blocks by {plan}", words, two_equal, "welfare 20000", least=20, goes_on=True)
    words = ["search", "clear", "--workers", "1", "--cut", "0"]
    yield RowOfRetries("search of a group", words, group, "welfare 30000", least=20, goes_on=True)
    unfinished = [*words, "--nodes", "1"]
    answer = "unfinished: piece 0 after 1 nodes"
    yield RowOfRetries("search of a group within one node", unfinished, group, answer, least=20, goes_on=True)


LINE = b"\n"
LINES = [
    ("day --cut 0 --workers 8", f"workers 8 cut 0 nodes {MOST_NODES}"),
    ("clear", f"workers 2 cut 3 nodes {MOST_NODES}"),
    ("replay", "replay"),
    ("clear --workers 9", "refused"),
    ("clear --nodes 0", "refused"),
    (f"clear --nodes {MOST_NODES + 1}", "refused"),
    ("clear --cut 9", "refused"),
    ("clear --workers", "refused"),
    ("replay --cut 1", "refused"),
    ("replay x", "refused"),
    ("sell", "refused"),
    ("", "refused"),
    ("--help", "help"),
    ("clear --help", "help"),
]


def rows_of_lines() -> Iterator[RowOfRetries]:
    """Command lines that are read."""
    for line, answer in LINES:
        yield RowOfRetries(f"the line {line!r}", ["line", *line.split()], b"", answer, least=5, goes_on=True)


def records_of_few_orders(periods: int) -> Iterator[bytes]:
    """A day of some orders, every fifth of them a block."""
    yield b"day,%d,,,,,,,\n" % periods
    for at in range(COPIED):
        kind, volumes = (b"block", b"1:5;2:6") if at % 5 == 4 else (b"hour", b"%d:5" % (at % 20 + 1))
        yield b"submit,A,%d,%b,%b,%d,%b,,\n" % (at, kind, [b"buy", b"sell"][at % 2], at, volumes)


def check_copies_of_books(runs: RowRunner, room: Path) -> None:
    """A gate copies its book for the call after one that was refused memory. So each call for memory at a gate is refused in turn, on each
    length of a day: the call is made again, and takes as many calls for memory on each length."""
    refusals, made = RetryingRuns(runs, room), dict[int, list[int]]()
    for periods in rules.DAYS:
        data = b"".join(records_of_few_orders(periods))
        row = RowOfRetries(f"{COPIED} orders on {periods} periods", [], data, f"{COPIED + 1} entries")
        plans = [RefusedCalls("memory", number, number) for number in range(1, refusals.measure_count_of_calls([], data) + 1)]
        plans = plans[bisect.bisect_left(plans, True, key=lambda plan: refusals.run_refused(row, plan) == row.right_output(1)) :]
        ran = list(runs.pool.map(lambda plan: refusals.program.run(row.words, row.data, plan), plans))
        for plan, (got, _) in zip(plans, ran):
            runs.check(f"{row.about}: call {plan.first}: {got.stdout!r}, {got.stderr[:80]!r}", got == row.right_output(1))
        made[periods] = [count for _, count in ran]
    least = [min(counts) for counts in zip(*made.values())]
    for periods, counts in made.items():
        about = f"{COPIED} orders on {periods} periods take {sum(counts) - sum(least)} calls for memory more than on other lengths of a day"
        runs.check(about, counts == least)


def check_rows(runs: RowRunner, room: Path, rows: Iterable[RowOfRetries]) -> None:
    runs.check("dam_refusals is built", REFUSALS.exists())
    if not REFUSALS.exists():
        return
    check_copies_of_books(runs, room)
    refusals = RetryingRuns(runs, room)
    again, count = 0, 0
    for row in rows:
        again += refusals.run_check_and_count_repeats(row)
        count += 1
    print(f"memory refused to the calls of {count} rows: {again} calls made again", flush=True)
