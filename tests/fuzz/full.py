#!/usr/bin/env python3
"""Clears books at their limits, with 4,000 hourly orders and 24 blocks, and compares the results with the rules as `tools/audit` does.

Each length of a day has a book in each of six markets: a deep one; one of 4,000 small orders, in which each block moves the prices; one
with only two orders of each side in a period; one with a single price; one whose blocks are so large that the search looks at thousands of
net volumes; and one with all hourly orders in one period. In every second book each block has another volume in each
period. The blocks are free, linked, in groups, or both. Three of the books come from journals of 10,000 commands, which amend and cancel
orders, submit them again, and submit orders that the book refuses; the replies to these journals are compared too. Each book is cleared
under three plans, whose results must be equal, with a limit of a few nodes, which either changes nothing or ends the search, and with one
of a node, which ends it in a piece that is known. The last line is 'N passed, M failed'."""

import argparse
import random
import re
import sys
from collections.abc import Iterator
from pathlib import Path
from typing import NamedTuple

sys.dont_write_bytecode = True
sys.path[:1] = [str(Path(__file__).resolve().parents[2] / folder) for folder in ("tests", "tools")]

from shared import right_output, timed_program
from shared.arguments import add_programs, parse_with_programs_or_exit
from shared.counts import Counts
from shared.full_days import BONDS, MARKETS, FullDay, Size
from lib.base import rules
from lib.journal import book, journal
from lib.results import check, selection

MOST_COMMANDS = rules.MOST_RECORDS - 1
PLANS: list[list[str]] = [[], ["--workers", "1", "--cut", "0"], ["--workers", "8", "--cut", "8"]]
LIMITED, UNFINISHED = ["--nodes", "100"], re.compile(rb"unfinished: piece \d+ after \d+ nodes\n")
ONE_NODE = ["--workers", "1", "--cut", "3", "--nodes", "1"]
LEAST = {"free": 0, "links": 0, "groups": 3, "both": 1}  # the least of eight pieces that has selections: in a full book, many
LONG = [("deep", 24), ("thin", 100), ("level", 96)]  # the books that come from a long journal


class Case(NamedTuple):
    """A journal, and whether its book or itself is at the limits."""

    name: str
    data: bytes
    is_full: bool
    is_long: bool
    least: int | None  # of eight pieces that a node doesn't finish; None if the book isn't full


def draw_cases(size: Size) -> Iterator[Case]:
    for number, (market, periods) in enumerate((market, periods) for market in MARKETS for periods in rules.DAYS):
        bonds, is_flat, is_long = BONDS[(number + number // 6) % 4], number % 2 == 0, (market, periods) in LONG
        drawn = FullDay(random.Random(f"full {market} {periods}"), periods, market, size, is_flat, bonds)
        name = f"{market} {periods}, {bonds}, {'one volume' if is_flat else 'a volume in each period'}"
        least = LEAST[bonds] if size.blocks == rules.MOST_BLOCKS else None
        yield Case(name, drawn.draw_text(size.commands if is_long else None), MARKETS[market].hourly > 0, is_long, least)


def faults_of_sizes(case: Case, held: book.Book, size: Size) -> Iterator[str]:
    """Why the book or the journal isn't at its limits, if it should be."""
    hourly, blocks = held.held["hour"], held.held["block"]
    if blocks != size.blocks or case.is_full and hourly != size.hourly:
        yield f"the book has {hourly} hourly orders and {blocks} blocks"
    if case.is_long and len(case.data.splitlines()) != size.commands + 1:
        yield f"the journal has {len(case.data.splitlines())} records"


def try_results(program: timed_program.TimedProgram, data: bytes, held: book.Book, least: int | None) -> Iterator[str]:
    """The faults of the results, in words."""
    printed = [program.capture_output(["clear", *plan], data) for plan in PLANS]
    for plan, got in zip(PLANS, printed):
        words = " ".join(["clear", *plan])
        if got.status:
            yield f"{words}: {got.stderr.decode().strip() or f'status {got.status}'}"
        elif got != printed[0]:
            yield f"{words}: other results than without a plan"
    limited = program.capture_output(["clear", *LIMITED], data)
    if limited != printed[0] and (limited.status, limited.stdout, bool(UNFINISHED.fullmatch(limited.stderr))) != (3, b"", True):
        yield f"clear {' '.join(LIMITED)}: {limited.stderr.decode().strip() or f'status {limited.status}'}"
    if least is not None:
        ended = program.capture_output(["clear", *ONE_NODE], data)
        if ended != (3, b"", b"unfinished: piece %d after 1 nodes\n" % least):
            yield f"clear {' '.join(ONE_NODE)}: {ended.stderr.decode().strip() or f'status {ended.status}'}"
    if not printed[0].status:
        _, wrong = check.results_and_faults(selection.Problem(held), printed[0].stdout)
        yield from wrong[:1]


def try_case(program: timed_program.TimedProgram, case: Case, size: Size) -> list[str]:
    """The faults of a case."""
    held, _ = book.book_and_refusals(journal.parse_journal(case.data))
    wrong = [*faults_of_sizes(case, held, size), *try_results(program, case.data, held, case.least)]
    if case.is_long:
        wrong += right_output.try_command(program, "replay", [], case.data)
    return wrong


def parse_arguments() -> argparse.Namespace:
    parser = argparse.ArgumentParser(
        prog="tests/fuzz/full.py", description=__doc__, formatter_class=argparse.RawDescriptionHelpFormatter, allow_abbrev=False
    )
    add_programs(parser, "dam")
    parser.add_argument("--hourly", type=int, default=rules.MOST_HOURLY, help="the most hourly orders of a book (4,000)")
    parser.add_argument("--blocks", type=int, default=rules.MOST_BLOCKS, help="the blocks of a book (24)")
    parser.add_argument("--commands", type=int, default=MOST_COMMANDS, help="the commands of a long journal (10,000)")
    return parse_with_programs_or_exit(parser)


def main() -> int:
    args = parse_arguments()
    size = Size(args.hourly, args.blocks, args.commands)
    program, counts = timed_program.TimedProgram(args.dam), Counts()
    for case in draw_cases(size):
        wrong = try_case(program, case, size)
        counts.check(f"{case.name}: {'; '.join(map(str, wrong))}", not wrong)
    return counts.print_totals_and_return_status()


if __name__ == "__main__":
    sys.exit(main())
