"""The output that a run with calls refused may have: the same run's with none refused, or the fault's line and status."""

import re
import threading

from shared.preload import HostileProgram, RefusedCalls, Words
from shared.printed import Printed, faults_of_journal
from lib.journal import journal
from lib.results import results

NOTHING_REFUSED = RefusedCalls("memory")
MACHINE = 4  # the status of a fault of the machine
UNFINISHED = 3  # that of a search that came to its limit on nodes
MEMORY = Printed(MACHINE, b"", b"memory\n")
READ = Printed(MACHINE, b"", b"device: read\n")
WRITE = re.compile(rb"device: write after (\d+) bytes\n")


class RightAnswer:
    """The output of a run with no call refused. The text of a day is one of many, each of which is looked at once: its journal has
    each participant's commands in their order and then the close, and its results are those that the program makes of that
    journal."""

    def __init__(self, program: HostileProgram, words: Words, data: bytes) -> None:
        self.program = program
        self.data = data
        self.usual, _ = program.run(words, data, NOTHING_REFUSED)
        self.is_day = words[:1] == ["day"] and "--help" not in words and self.usual.status == 0
        self.texts: dict[bytes, bool] = {}
        self.lock = threading.Lock()

    def run_and_see_if_given(self, got: Printed) -> bool:
        if not self.is_day or got.status or got.stderr:
            return got == self.usual
        with self.lock:
            if got.stdout not in self.texts:
                self.texts[got.stdout] = self.run_and_see_if_text_of_day(got.stdout)
            return self.texts[got.stdout]

    def run_and_see_if_text_of_day(self, text: bytes) -> bool:
        parted = results.journal_and_results(text)
        if parted is None:
            return False
        written, published = parted
        wrong, _ = faults_of_journal(journal.parse_journal(self.data), written)
        cleared, _ = self.program.run(["clear"], written, NOTHING_REFUSED)
        return not wrong and cleared == Printed(0, published, b"")


def is_right_without_memory(answer: RightAnswer, refusal: RefusedCalls, got: Printed, calls: int) -> bool:
    """Memory is refused: the usual answer, or the line for memory, which needs no memory itself."""
    return answer.run_and_see_if_given(got) or calls >= refusal.first and got == MEMORY


def is_unchanged(answer: RightAnswer, _refusal: RefusedCalls, got: Printed, _calls: int) -> bool:
    """A refused thread or refused random bytes change no answer."""
    return answer.run_and_see_if_given(got)


def is_right_after_read(answer: RightAnswer, refusal: RefusedCalls, got: Printed, calls: int) -> bool:
    """A failed read ends the run, and nothing is written."""
    if calls < refusal.first:
        return answer.run_and_see_if_given(got)
    return got == READ


def is_right_after_write(answer: RightAnswer, refusal: RefusedCalls, got: Printed, calls: int) -> bool:
    """A failed write ends the run; the written bytes are the first of the text, and the line says how many."""
    text = answer.usual.stdout
    if calls < refusal.first:
        return got == answer.usual
    written = text[: refusal.moved_before(len(text))]
    line = WRITE.fullmatch(got.stderr)
    return line is not None and int(line[1]) == len(written) and got == Printed(MACHINE, written, got.stderr)


def is_right_after_report(answer: RightAnswer, refusal: RefusedCalls, got: Printed, calls: int) -> bool:
    """If the fault's line can't be written, its first bytes are there, and its status stays."""
    line = answer.usual.stderr
    if calls < refusal.first:
        return got == answer.usual
    return got == answer.usual._replace(stderr=line[: refusal.moved_before(len(line))])
