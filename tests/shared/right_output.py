"""The output that the program must print on an input, by the rules of `tools/lib`, and how its output differs."""

import functools
from collections.abc import Sequence

from shared.timed_program import ENDED, LATE, TimedProgram
from shared.printed import Printed, faults_of_journal
from lib.audit import recursive_enumeration
from lib.base import rules
from lib.journal import book, journal
from lib.journal.journal import Journal, JournalFault
from lib.results import check, results, selection

# A program that tries all selections takes twice the time with each block.
MOST_BLOCKS = 10


def refused_output(line: object) -> Printed:
    return Printed(1, b"", f"{line}\n".encode())


@functools.lru_cache(maxsize=1)
def journal_or_fault(data: bytes) -> Journal | JournalFault:
    """The journal or the fault that the rules read from an input. The last one is kept, since several commands get the same input."""
    try:
        return journal.parse_journal(data)
    except journal.JournalFault as fault:
        return fault


def capture_right_output_or_none(command: str, words: Sequence[str], data: bytes, like: TimedProgram | None = None) -> Printed | None:
    """The output that a command must print for an input, by another program or else by the rules; None if that takes too long."""
    if like is None:
        return right_output(command, data)
    answer = like.capture_output([command, *words], data)
    return None if answer.status == ENDED else answer


@functools.lru_cache(maxsize=1)
def right_output(command: str, data: bytes) -> Printed | None:
    """The right output of a command for an input, by the rules; None if that takes too long. The last answer is kept, for several plans."""
    read = journal_or_fault(data)
    if isinstance(read, journal.JournalFault):
        return refused_output(read)
    return {"replay": right_replies, "clear": right_results_or_none}[command](read)


def right_replies(read: Journal) -> Printed:
    return Printed(0, book.replies_text(read).encode(), b"")


def right_results_or_none(read: Journal) -> Printed | None:
    closed, _ = book.book_and_refusals(read)
    if not closed.closed:
        return refused_output("input: StillOpen")
    problem = selection.Problem(closed)
    if len(problem.blocks) > MOST_BLOCKS:
        return None
    found, _ = recursive_enumeration.search_recursively(problem)
    text = results.results_text(problem, found.accepted, selection.outcome(problem, found.accepted)).encode()
    _, wrong = check.results_and_faults(problem, text)
    if wrong:
        raise AssertionError(f"the audit refuses its own results: {wrong[0]}")
    return Printed(0, text, b"")


def fault_of_day_or_none(read: Journal) -> str | None:
    """The fault of `dam day` on a journal; None if there is none."""
    if len(read.commands) > rules.MOST_DAY_COMMANDS:
        return "input: TooManyCommands"
    participants = set()
    for record, command in enumerate(read.commands, 2):
        if isinstance(command, journal.Close):
            return f"input: CloseGiven in record {record}"
        participants.add(command.who)
        if len(participants) > rules.MOST_DAY_PARTICIPANTS:
            return f"input: TooManyParticipants in record {record}"
    return None


def day_differences(data: bytes, got: Printed) -> list[str]:
    """The faults of the output of `dam day`. Its participants' commands may come in any order that keeps each one's own,
    so that no one text is right."""
    if got.status == ENDED:
        return [LATE]
    try:
        given = journal.parse_journal(data)
        fault = fault_of_day_or_none(given)
    except journal.JournalFault as found:
        fault = str(found)
    if fault:
        return [] if got == refused_output(fault) else [f"the fault is {fault}"]
    texts = results.journal_and_results(got.stdout)
    if got.status or got.stderr or texts is None:
        return ["there is no text of a day"]
    written, published = texts
    wrong, run = faults_of_journal(given, written)
    right = run and right_results_or_none(run)
    if right is not None and published != right.stdout:
        wrong.append("its results aren't those of its journal")
    return wrong


def try_command(program: TimedProgram, command: str, words: Sequence[str], data: bytes, like: TimedProgram | None = None) -> list[str]:
    """The faults of a command's output for an input, by another program or else by the rules: nothing if all is right, only LATE
    if it took too long. A failure of the tool is a difference too."""
    try:
        return try_command_or_raise(program, command, words, data, like)
    except Exception as fault:
        return [f"the tool fails: {fault!r}"]


def try_command_or_raise(program: TimedProgram, command: str, words: Sequence[str], data: bytes, like: TimedProgram | None) -> list[str]:
    if command == "day":
        return day_differences(data, program.capture_output([command, *words], data))
    right = capture_right_output_or_none(command, words, data, like)
    if right is None:
        return []
    got = program.capture_output([command, *words], data)
    if got.status == ENDED:
        return [LATE]
    return [f"{part} differs" for part, one, other in zip(Printed._fields, right, got) if one != other]
