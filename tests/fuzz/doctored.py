#!/usr/bin/env python3
"""Doctors journals and their results, and judges the audit by the program: it must accept a pair exactly if the program prints these
results for this journal, and end with no status but the documented ones.

Each case is a random day of few blocks with the results that the program prints. One of them is changed: a byte, a field, a line, its
order or its encoding, or another journal or other results take its place. The audit of the changed pair then must have

    0  if the program prints the very bytes of the results for the journal
    6  if it prints the same but for line ends, a byte order mark or quotes
    1  if it prints anything else
    3  if the program refuses the journal, or one of the texts is of another kind

Each case depends only on the seed and its number. A case that goes wrong is kept in a folder. The last line is 'N passed, M failed'."""

import argparse
import contextlib
import io
import json
import random
import re
import sys
import tempfile
from collections import Counter
from pathlib import Path

sys.dont_write_bytecode = True
sys.path[:1] = [str(Path(__file__).resolve().parents[2] / folder) for folder in ("tests", "tools")]

from lib.audit import day_audit, recursive_enumeration
from lib.base.json_value import JsonObject
from lib.journal import book, journal
from lib.results import results, selection
from lib.tables import kinds
from lib.tool import exits
from shared import days, timed_program
from shared.arguments import parse_with_programs_or_exit, parser_of_cases
from shared.counts import Counts
from shared.doctored_texts import decoded_or_none, draw_doctored, draw_other_encoding

MOST_BLOCKS = 6
RIGHT, WRONG, UNREAD, ENCODING = exits.DONE, exits.DIFFERS, exits.NO_INPUT, exits.ENCODING


def parse_arguments() -> argparse.Namespace:
    parser = parser_of_cases("tests/fuzz/doctored.py", __doc__, "cases", 5_000)
    parser.add_argument("--keep", metavar="FOLDER", help="keeps each pair on which the audit is wrong here")
    return parse_with_programs_or_exit(parser)


class Pairs:
    """Random days with the results that the program prints; some are kept for later cases."""

    def __init__(self, program: str) -> None:
        self.program = timed_program.TimedProgram(program)
        self.other = (b"day,24,,,,,,,\nclose,,,,,,,,\n", b"")

    def draw_journal_and_capture_results(self, rng: random.Random) -> tuple[bytes, bytes]:
        """A closed journal that the program clears, and the results."""
        while True:
            data = days.draw_text(rng, MOST_BLOCKS)
            ran = self.program.capture_output(["clear"], data)
            if ran.status == 0 and len(data) < 100_000:
                return data, ran.stdout

    def capture_results_or_none(self, data: bytes) -> bytes | None:
        """The results that the program prints for a journal, or None if it refuses it."""
        ran = self.program.capture_output(["clear"], data)
        return ran.stdout if ran.status == 0 else None


def is_open(data: bytes) -> bool:
    """Whether a text is a journal that no command closes."""
    try:
        return not book.book_and_refusals(journal.parse_journal(data))[0].closed
    except journal.JournalFault:
        return False


def capture_right_status(pairs: Pairs, data: bytes, text: bytes) -> int:
    """The status that the audit of a pair must have, by the program."""
    if kinds.kind_of_bytes(data) not in (None, kinds.JOURNAL) or kinds.kind_of_bytes(text) not in (None, kinds.RESULTS):
        return UNREAD
    right = pairs.capture_results_or_none(data)
    if right is None:
        return WRONG if is_open(data) else UNREAD
    if text == right:
        return RIGHT
    return ENCODING if decoded_or_none(text) == right else WRONG


def write_and_audit(folder: str, data: bytes, text: bytes) -> tuple[int, JsonObject]:
    """The status and the record of the audit of a pair."""
    paths = Path(folder, "journal"), Path(folder, "results")
    for path, content in zip(paths, (data, text)):
        path.write_bytes(content)
    options = argparse.Namespace(
        journal=str(paths[0]), results=str(paths[1]), best=True, by=None, seconds=60, jobs=None, replies=False, sent=None, head=None,
        quiet=True,
    )
    audit = day_audit.Audit(options)
    try:
        with contextlib.redirect_stderr(io.StringIO()):
            audit.read_inputs_and_check_or_stop()
    except exits.Stop as stop:
        return stop.status, audit.verdict.record(stop.status, str(stop))
    return audit.verdict.status, audit.verdict.record(audit.verdict.status)


def draw_worse_results_or_none(rng: random.Random, data: bytes) -> bytes | None:
    """The results of another selection of a day's blocks, eligible or not; None if it has no other whose periods balance."""
    problem = selection.Problem(book.book_and_refusals(journal.parse_journal(data))[0])
    for _ in range(8):
        accepted = frozenset(place for place in range(len(problem.blocks)) if rng.random() < 0.5)
        outcome = selection.outcome(problem, accepted)
        if outcome.welfare is not None and accepted != recursive_enumeration.search_recursively(problem)[0].accepted:
            return results.results_text(problem, accepted, outcome).encode()
    return None


def draw_changed_pair(rng: random.Random, pairs: Pairs, data: bytes, text: bytes) -> tuple[bytes, bytes, str]:
    """A doctored pair, and in words how."""
    kind = rng.randrange(10)
    if kind == 0:
        return data, pairs.other[1], "results of another journal"
    if kind == 1:
        return pairs.other[0], text, "another journal"
    if kind == 2:
        other = draw_worse_results_or_none(rng, data)
        if other is not None:
            return data, other, "another selection"
    if kind == 3:
        words, other = draw_other_encoding(rng, text)
        return data, other, words
    if kind in (4, 5):
        words, other = draw_doctored(rng, data)
        return other, text, f"{words} of the journal"
    words, other = draw_doctored(rng, text)
    return data, other, f"{words} of the results"


def try_audit(folder: str, pairs: Pairs, data: bytes, text: bytes) -> tuple[int, str | None]:
    """The fault of the audit of a pair; nothing if all is right."""
    right = capture_right_status(pairs, data, text)
    try:
        status, record = write_and_audit(folder, data, text)
        json.dumps(record)
    except Exception as fault:
        return right, f"the audit fails: {fault!r}"
    if status != right:
        return right, f"the status is {status} and should be {right}"
    if (status == WRONG) != any(fault["kind"] != "encoding" for fault in record["faults"]):
        return right, "a verdict without a fault, or a fault without a verdict"
    return right, None


def main() -> int:
    args = parse_arguments()
    pairs, seen, failed = Pairs(args.dam), Counter[int](), 0
    with tempfile.TemporaryDirectory() as folder:
        for number in range(args.first, args.first + args.count):
            rng = random.Random(f"doctored {args.seed} {number}")
            pairs.other = pairs.draw_journal_and_capture_results(random.Random(f"other {args.seed} {number}"))
            pair = pairs.draw_journal_and_capture_results(rng)
            data, text, words = draw_changed_pair(rng, pairs, *pair)
            status, wrong = try_audit(folder, pairs, data, text)
            seen[status] += 1
            if wrong:
                failed += 1
                print(f"case {number} of seed {args.seed}: {words}: {wrong}")
                if args.keep:
                    Path(args.keep).mkdir(parents=True, exist_ok=True)
                    for name, content in (("csv", data), ("txt", text)):
                        Path(args.keep, f"{re.sub('[^A-Za-z0-9]', '-', args.seed)}-{number}.{name}").write_bytes(content)
    print(f"by status: {', '.join(f'{seen[status]} with {status}' for status in sorted(seen))}")
    return Counts(args.count - failed, failed).print_totals_and_return_status()


if __name__ == "__main__":
    sys.exit(main())
