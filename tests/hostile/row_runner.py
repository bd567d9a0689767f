"""The runs of the program on one input with each of its calls refused in turn, and how many of them were right."""

from __future__ import annotations

import os
import time
from collections.abc import Callable, Iterable
from concurrent.futures import ThreadPoolExecutor
from typing import NamedTuple

from hostile import right_answers
from shared.counts import Counts
from shared.preload import ABOVE_ANY_CALL, HostileProgram, RefusedCalls, Words
from shared.printed import Printed

FEW = 40  # how many calls of a row are refused if not each is
ANY = 10_000  # more calls than any row makes of which each has to be refused


class RowOfRuns(NamedTuple):
    """Runs on one input that differ in the number of the refused call."""

    about: str
    words: Words
    data: bytes
    kind: str
    judge: Callable[[AnswerToRow, RefusedCalls, Printed, int], bool]
    last: int | None = None  # the last refused call, if that isn't the first one
    error: int = 0
    most: int = 0
    each: int = FEW  # without --all, each call is refused if a run has no more than this
    some: int = FEW  # of a run that has more, as many as this, evenly spread

    def refused_calls(self, number: int) -> RefusedCalls:
        return RefusedCalls(self.kind, number, self.last or number, self.error, self.most)


class RowRunner(Counts):
    """The runs of rows, side by side, and how many were right."""

    def __init__(self, program: HostileProgram, whole: bool) -> None:
        super().__init__()
        self.program = program
        self.whole = whole
        self.pool = ThreadPoolExecutor(os.cpu_count() or 1)
        self.answers: dict[tuple[Words, bytes], AnswerToRow] = {}
        self.tried = self.calls = 0  # the runs, and how many there would be if each call were refused
        self.rows = self.whole_rows = 0  # all rows, and those of which each call was refused

    def capture_answer(self, words: Words, data: bytes) -> AnswerToRow:
        key = (tuple(words), data)
        if key not in self.answers:
            self.answers[key] = AnswerToRow(self, words, data)
        return self.answers[key]

    def refused_numbers(self, row: RowOfRuns, total: int) -> list[int]:
        """The refused calls: each, and one that no run comes to; or some of them, evenly spread."""
        if self.whole or total <= row.each:
            return list(range(1, total + 2))
        return sorted({1 + at * total // (row.some - 1) for at in range(row.some)})

    def try_call(self, row: RowOfRuns, answer: AnswerToRow, number: int) -> str | None:
        """The fault of a run, or nothing."""
        refusal = row.refused_calls(number)
        got, calls = self.program.run(row.words, row.data, refusal)
        if row.judge(answer, refusal, got, calls):
            return None
        return f"{row.about}: call {number}: status {got.status}, {len(got.stdout)} bytes, {got.stderr[:80]!r}"

    def run_and_check_row(self, row: RowOfRuns) -> None:
        begun = time.monotonic()
        answer = self.capture_answer(row.words, row.data)
        _, total = self.program.run(row.words, row.data, row.refused_calls(ABOVE_ANY_CALL))
        if row.kind == "memory":
            self.check(f"{row.about}: {total} calls are counted", total > 0)
        numbers = self.refused_numbers(row, total)
        if row.each == ANY:
            self.check(f"{row.about}: each of {total} calls is refused", len(numbers) == total + 1)
        self.tried += len(numbers)
        self.calls += total + 1
        self.rows += 1
        self.whole_rows += len(numbers) == total + 1
        found = list(self.pool.map(lambda number: self.try_call(row, answer, number), numbers))
        wrong = [line for line in found if line]
        if self.whole or wrong:
            print(f"{row.about}: {len(numbers)} runs of {total + 1}, {len(wrong)} wrong, {time.monotonic() - begun:.1f} s")
        self.count_and_print_runs(len(found), wrong)

    def check_rows(self, about: str, rows: Iterable[RowOfRuns]) -> None:
        """Runs the rows. Says in how many of them each call was refused, and how many runs were left out in the others."""
        begun, passed, failed = time.monotonic(), self.passed, self.failed
        before = self.tried, self.calls, self.rows, self.whole_rows
        for row in rows:
            self.run_and_check_row(row)
        after = self.tried, self.calls, self.rows, self.whole_rows
        tried, calls, count, whole = (now - then for now, then in zip(after, before))
        shown = f"each call in {whole} of {count} rows; {tried} of {calls} runs, {calls - tried} left out"
        took = time.monotonic() - begun
        print(f"{about}: {shown}; {self.passed - passed} right, {self.failed - failed} wrong, {took:.1f} s", flush=True)


class AnswerToRow(right_answers.RightAnswer):
    def __init__(self, runs: RowRunner, words: Words, data: bytes) -> None:
        super().__init__(runs.program, words, data)
        self.runs = runs
        self.words = words

    def capture_front(self, count: int) -> AnswerToRow:
        """The answer to the first `count` bytes."""
        return self.runs.capture_answer(self.words, self.data[:count])
