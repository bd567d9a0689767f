"""How long `dam clear` takes by the default plan for a book, alone and compared with other programs.

It takes turns with the twin on some books, and with an enumeration of all selections, `tools/audit --best` by four threads, which also
checks the results. Then deep books take turns with HiGHS; highs.py describes its model. The time of HiGHS is that of solving alone, and
that of `dam clear` is from its start to its last byte. HiGHS gets longer than its target needs, any other program 60 s. A program that
takes longer than 1 s isn't run again."""

import enum
from collections.abc import Mapping, Sequence
from pathlib import Path

from drawn_books import DrawnBook
from figures import Figures, Label, Quartiles, multiple_text, quartiles_of
from highs import run_highs
from running import RUN_SECONDS, TOP, BenchFault, Solved, TimedRun, Words
from running import call_in_turns, make_book, run_function, run_in_time, run_in_turns

TURNS, SECONDS = 5, 6.0  # at most, for a book
LONGEST_OF_REPEATED = 1.0  # seconds; a program that takes longer isn't run again
LEAST_OF_HIGHS = 20  # times as long as `dam clear`
SECONDS_OF_HIGHS = 1.0  # at least


class Program(enum.Enum):
    """The programs that run on a book, by their names on the page. Their names here are the keys of the figures."""

    CLEAR, BEFORE, TWIN = "dam clear", "the program before", "the twin"
    ENUMERATION, HIGHS = "the enumeration", "HiGHS"

    @property
    def key(self) -> str:
        return self.name.lower()


def welfare_of(cleared: TimedRun) -> int:
    return int(cleared.text.split(b"welfare,")[1].split(b"\n")[0])


class TimedBook:
    """A book with its journal, and the seconds of each run of `dam clear` and other programs; a program that didn't end has none."""

    def __init__(self, drawn: DrawnBook, path: str, dam: str) -> None:
        self.drawn, self.path, self.dam = drawn, path, dam
        self.seconds = dict[Program, list[float]]()

    def run_and_note_seconds(self, others: Mapping[Program, Words]) -> dict[Program, list[TimedRun]]:
        """Runs `dam clear` and others in turns, notes their seconds, and returns the runs."""
        programs: dict[Program, Words] = {Program.CLEAR: [self.dam, "clear"], **others}
        runs = run_in_turns(programs, self.path, TURNS, SECONDS, LONGEST_OF_REPEATED)
        self.seconds = {program: [each.wall for each in found] for program, found in runs.items()}
        return runs

    def run_clear_and_write_results(self) -> str | None:
        """The path of the results; None if `dam clear` doesn't end in time."""
        cleared = run_in_time([self.dam, "clear"], self.path)
        if cleared is None:
            return None
        results = f"{self.path}.txt"
        Path(results).write_bytes(cleared.text)
        return results

    def quartiles_of(self, program: Program) -> Quartiles:
        """The quartiles of the seconds of a program, or the limit if it didn't end."""
        return quartiles_of(self.seconds[program] or [RUN_SECONDS])

    def add_comparison(self, figures: Figures, other: Program, more: str = "", note: str = "") -> None:
        """Adds how many times as long as another program `dam clear` takes."""
        label = Label(other.key, f"{Program.CLEAR.value} compared with {other.value}{more}", self.drawn.name)
        if self.seconds[Program.CLEAR] and self.seconds[other]:
            figures.add_ratio(label, self.seconds[Program.CLEAR], self.seconds[other], note=note)
        else:
            figures.add_without_value(label, f"one of them didn't end in {RUN_SECONDS:g} s")

    def measure(self, figures: Figures, twin: Words = ()) -> None:
        """Adds the seconds of `dam clear`, and the comparison with the twin if its command is given; it must find the same welfare. The
        enumeration tries all selections, and fails if the results aren't right and best."""
        others = {Program.TWIN: twin} if twin else {}
        if results := self.run_clear_and_write_results():
            others[Program.ENUMERATION] = [f"{TOP}/tools/audit", "--best", "--quiet", "--jobs", "4", self.path, results]
        runs = self.run_and_note_seconds(others)
        clears, twins = runs[Program.CLEAR], runs.get(Program.TWIN, [])
        if clears and any(int(each.text.split()[1]) != welfare_of(clears[0]) for each in twins):
            raise BenchFault(f"{self.drawn.name}: {Program.TWIN.value} finds another welfare")
        self.add_seconds(figures)

    def add_seconds(self, figures: Figures) -> None:
        label = Label(Program.CLEAR.key, Program.CLEAR.value, self.drawn.name)
        if self.seconds[Program.CLEAR]:
            figures.add_median(label, self.seconds[Program.CLEAR], details=self.drawn.note)
        else:
            figures.add_unended(label, RUN_SECONDS)
        if Program.TWIN in self.seconds:
            self.add_comparison(figures, Program.TWIN)

    def run_in_turns_with_highs(self, limit: float) -> dict[Program, list[Solved]]:
        clear = run_function([self.dam, "clear"], self.path)

        def run_clear(turn: int) -> Solved | None:
            return (run := clear(turn)) and Solved(welfare_of(run), run.wall)

        functions = {Program.CLEAR: run_clear, Program.HIGHS: lambda _: run_highs(self.path, limit)}
        return call_in_turns(functions, TURNS, SECONDS, LONGEST_OF_REPEATED)

    def measure_highs(self, figures: Figures) -> None:
        """Runs `dam clear` and HiGHS in turns, and adds how many times as long HiGHS takes."""
        if not self.seconds[Program.CLEAR]:
            return
        limit = max(1.5 * LEAST_OF_HIGHS * self.quartiles_of(Program.CLEAR).median, SECONDS_OF_HIGHS)
        (clears, solved) = self.run_in_turns_with_highs(limit).values()
        (welfare, _), seconds = clears[0], [each.seconds for each in clears]
        label = Label(Program.HIGHS.key, f"{Program.HIGHS.value} compared with {Program.CLEAR.value}", self.drawn.name)
        if not solved:
            figures.add_unended(label, limit / quartiles_of(seconds).upper, multiple_text)
        elif (found := solved[0].welfare) > welfare:
            raise BenchFault(f"{self.drawn.name}: HiGHS finds the welfare {found}, and dam clear {welfare}")
        else:
            note = f"it finds less welfare, {found} of {welfare}" if found < welfare else ""
            figures.add_ratio(label, [each.seconds for each in solved], seconds, note=note)


def make_timed_book(drawn: DrawnBook, dam: str) -> TimedBook:
    return TimedBook(drawn, make_book(drawn), dam)


def add_worst_enumeration(figures: Figures, books: Sequence[TimedBook]) -> None:
    """Adds the comparison with the enumeration on the book where it is worst."""
    clear, enumeration = Program.CLEAR, Program.ENUMERATION
    if tried := [book for book in books if book.seconds[clear] and book.seconds.get(enumeration)]:
        worst = max(tried, key=lambda book: book.quartiles_of(clear).median / book.quartiles_of(enumeration).median)
        worst.add_comparison(figures, enumeration, f", the worst of {len(tried)} books")
