"""Rows of runs of the program: on one input, with each of its calls refused in turn."""

from __future__ import annotations

import errno
import os
from collections.abc import Callable, Iterator
from typing import Any

from hostile import retried_calls, right_answers
from hostile.retried_calls import RowOfRetries
from hostile.row_runner import ANY, FEW, AnswerToRow, RowOfRuns
from shared import cases
from shared.place import EXAMPLES
from shared.preload import ABOVE_ANY_CALL, HostileProgram, RefusedCalls, Words
from shared.printed import Printed
from shared.records import CLOSE, DAY

MANY = 200  # how many calls of a large row are refused if not each is
SMALL = 1_100  # each call for memory of a worked case is refused if it makes no more than this


def read_example(name: str, wanted: Callable[[bytes], bool] = lambda record: True) -> bytes:
    """The records of an example that are wanted, with the day's."""
    day, *rest = (EXAMPLES / name).read_bytes().splitlines(keepends=True)
    return b"".join([day, *filter(wanted, rest)])


def is_command(record: bytes) -> bool:
    return not record.startswith(b"close")


def read_worked_cases() -> list[tuple[str, list[str], bytes]]:
    """The worked cases for the built program: each with its name, its words and its input."""
    return [(case.name, case.words, case.stdin) for case in cases.read_all_cases()]


AUCTION = read_example("auction-day.csv")
FIRST = read_example("first-day.csv")
QUARTERS = read_example("quarter-hours.csv")
OPEN_AUCTION = read_example("auction-day.csv", is_command)
OPEN_FIRST = read_example("first-day.csv", is_command)
ONE_PARTICIPANT = read_example("auction-day.csv", lambda record: b",GAS," in record)
BROKEN = AUCTION + b"amend,NORD\n"
QUOTED = b"".join(b'"%b"\r\n' % record.replace(b",", b'","') for record in AUCTION.splitlines())
QUOTED_IN_PART = AUCTION.replace(b"submit", b'"sub"mit').replace(b"close", b'"clo"se')
TWO_ORDERS = DAY + b"submit,A,S1,hour,sell,3000,1:10,,\nsubmit,B,B1,hour,buy,5000,1:10,,\n"
TWO_BLOCKS = TWO_ORDERS + b"submit,A,K1,block,sell,4000,1:5,,\nsubmit,A,K2,block,sell,4000,1:5,K1,\n"
# The longest day, with the longest names and codes, and blocks and amends of 100 volumes.
WIDE = b";".join(b"%d:10" % period for period in range(1, 101))
LONGEST_DAY = b"""day,100,,,,,,,
submit,SELLERAB,SELL-ORDER-1,hour,sell,3000,100:10,,
submit,BUYERABC,BUY-ORDER-01,hour,buy,5000,100:30,,
submit,SELLERAB,PARENT-BLOCK,block,sell,4000,%b,,
submit,SELLERAB,CHILD-BLOCK1,block,sell,4000,100:5,PARENT-BLOCK,GROUP-OF-TWO
submit,SELLERAB,CHILD-BLOCK2,block,sell,3900,%b,PARENT-BLOCK,GROUP-OF-TWO
amend,SELLERAB,PARENT-BLOCK,,,4100,%b,,
amend,BUYERABC,BUY-ORDER-01,,,5100,100:20,,
amend,BUYERABC,BUY-ORDER-01,,,5100,%b,,
cancel,SELLERAB,CHILD-BLOCK2,,,,,,
cancel,SELLERAB,PARENT-BLOCK,,,,,,
""" % ((WIDE,) * 4)
CLOSED_FIRST = DAY + CLOSE + b"submit,A,B1,hour,buy,5000,1:10,,\namend,A,B1,,,5000,1:10,,\ncancel,A,B1,,,,,,\n" + CLOSE

CUTTINGS = [["--workers", "1", "--cut", "0"], ["--workers", "2", "--cut", "3"], ["--workers", "8", "--cut", "8"]]


def row_of_growths(about: str, words: Words, data: bytes, **how: Any) -> RowOfRuns:
    return RowOfRuns(about, words, data, "memory", right_answers.is_right_without_memory, **how)


def read_rows_of_cases() -> Iterator[RowOfRuns]:
    """One call for memory refused in the worked cases: each in turn, but in a few large ones."""
    for about, words, data in read_worked_cases():
        yield row_of_growths(f"{about}, one growth", words, data, each=SMALL)


def read_rows_of_cases_without_memory() -> Iterator[RowOfRuns]:
    """All calls for memory refused from one on, in the worked cases."""
    for about, words, data in read_worked_cases():
        yield row_of_growths(f"{about}, all growths from one on", words, data, last=ABOVE_ANY_CALL, each=0, some=8)


def rows_of_memory() -> Iterator[RowOfRuns]:
    """A call for memory refused alone, and with all that come later."""
    inputs: list[tuple[str, list[str], bytes, int]] = [
        ("clear of two blocks by eight workers", ["clear", "--workers", "8", "--cut", "8"], TWO_BLOCKS + CLOSE, ANY),
        ("day of two blocks", ["day"], TWO_BLOCKS, ANY),
        ("replay of the auction day", ["replay"], AUCTION, MANY),
        ("replay of the first day", ["replay"], FIRST, FEW),
        ("replay of a quoted journal", ["replay"], QUOTED, FEW),
        ("replay of a journal quoted in part", ["replay"], QUOTED_IN_PART, FEW),
        ("replay of a broken journal", ["replay"], BROKEN, FEW),
        ("clear of the auction day", ["clear"], AUCTION, MANY),
        ("clear of the open auction day", ["clear"], OPEN_AUCTION, FEW),
        ("clear that ends unfinished", ["clear", "--workers", "1", "--cut", "0", "--nodes", "1"], AUCTION, FEW),
        ("day of the auction day", ["day"], OPEN_AUCTION, MANY),
        ("day of the first day", ["day"], OPEN_FIRST, FEW),
        ("day of the closed auction day", ["day"], AUCTION, FEW),
        ("replay of the longest day", ["replay"], LONGEST_DAY + CLOSE, FEW),
        ("clear of the longest day", ["clear"], LONGEST_DAY + CLOSE, FEW),
        ("day of the longest day", ["day"], LONGEST_DAY, FEW),
        ("a word that isn't UTF-8", [os.fsdecode(b"\xff")], b"", ANY),
    ]
    inputs += [(f"{word} by {' '.join(plan)}", [word, *plan], data, FEW)
               for plan in CUTTINGS for word, data in [("clear", AUCTION), ("day", OPEN_AUCTION)]]
    for about, words, data, some in inputs:
        each = ANY if some == ANY else FEW
        yield row_of_growths(f"{about}, one growth", words, data, each=each, some=some)
        yield row_of_growths(f"{about}, all growths from one on", words, data, last=ABOVE_ANY_CALL, each=each, some=some // 2)


def capture_rows_of_calls(program: HostileProgram) -> Iterator[RowOfRetries]:
    """Rows whose calls `dam_refusals` makes, each again if it was refused memory."""
    worked = {name: (words, data) for name, words, data in read_worked_cases()}
    days = [("two orders", TWO_ORDERS)]
    days += [(f"the commands of {name}", worked[f"replay/{name}"][1]) for name in ["stored-run", "closed", "links"]]
    yield from retried_calls.rows_of_journals_at_gate([*days, ("the longest day", LONGEST_DAY), ("the auction day", OPEN_AUCTION)])
    yield from retried_calls.rows_of_journals_on_threads([("two orders", TWO_ORDERS), ("the auction day", OPEN_AUCTION)])
    yield from retried_calls.rows_of_gates()
    texts = [(name, data) for name, (words, data) in worked.items() if words == ["replay"] or name == "clear/quoted-crlf"]
    written = [("two orders", TWO_ORDERS + CLOSE), ("the longest day", LONGEST_DAY + CLOSE), ("the auction day", AUCTION)]
    yield from retried_calls.capture_rows_of_texts(program, [*texts, ("the longest day", LONGEST_DAY + CLOSE)], written)
    yield from retried_calls.rows_of_searches(worked["clear/two-equal-blocks"][1], worked["clear/group"][1])
    yield from retried_calls.rows_of_lines()


def rows_of_threads() -> Iterator[RowOfRuns]:
    for plan in CUTTINGS:
        for word, data in [("clear", AUCTION), ("day", OPEN_AUCTION)]:
            about, words = f"{word} by {' '.join(plan)}", [word, *plan]
            row = RowOfRuns(f"{about}, one thread", words, data, "thread", right_answers.is_unchanged, error=errno.EAGAIN)
            yield row
            yield row._replace(about=f"{about}, all threads from one on", last=ABOVE_ANY_CALL)


def rows_of_random_bytes() -> Iterator[RowOfRuns]:
    for words, data in [(["replay"], AUCTION), (["clear"], AUCTION), (["day"], OPEN_AUCTION)]:
        for error in [errno.EIO, errno.ENOSYS]:
            yield RowOfRuns(f"{words[0]} without random bytes", words, data, "random", right_answers.is_unchanged, error=error)


def rows_of_devices() -> Iterator[RowOfRuns]:
    jobs = [(["replay"], CLOSED_FIRST, ANY), (["replay"], FIRST, FEW), (["replay"], AUCTION, FEW), (["clear"], AUCTION, FEW),
            (["day"], ONE_PARTICIPANT, FEW)]
    for words, data, each in jobs:
        for most in [0, 1, 64]:
            about = f"{words[0]} of {len(data)} bytes, " + (f"{most} at a time" if most else "as they come")
            how = {"most": most, "each": each}
            for error in [errno.EIO, errno.EINTR, errno.EAGAIN]:
                failing = f"{about}, a read with {errno.errorcode[error]}"
                yield RowOfRuns(failing, words, data, "read", right_answers.is_right_after_read, error=error, **how)
            yield RowOfRuns(f"{about}, a read of 0 bytes", words, data, "read", is_right_at_end_of_input, **how)
            for error in [errno.EIO, errno.ENOSPC, errno.EINTR, errno.EAGAIN]:
                failing = f"{about}, a write with {errno.errorcode[error]}"
                yield RowOfRuns(failing, words, data, "write", right_answers.is_right_after_write, error=error, **how)
            yield RowOfRuns(f"{about}, a write of 0 bytes", words, data, "write", right_answers.is_right_after_write, **how)
    for words, data in [(["replay"], BROKEN), (["clear"], OPEN_AUCTION), (["day"], AUCTION), (["clear", "--cut", "9"], b"")]:
        for error in [errno.EIO, 0]:
            about = f"{' '.join(words)} with a fault, its line with " + (errno.errorcode.get(error) or "0 bytes taken")
            yield RowOfRuns(about, words, data, "report", right_answers.is_right_after_report, last=ABOVE_ANY_CALL, error=error, most=1)


def is_right_at_end_of_input(answer: AnswerToRow, refusal: RefusedCalls, got: Printed, calls: int) -> bool:
    """A read of 0 bytes is the end of the input: the answer is the answer to the bytes before it."""
    if calls < refusal.first:
        return answer.run_and_see_if_given(got)
    return answer.capture_front(refusal.moved_before(len(answer.data))).run_and_see_if_given(got)
