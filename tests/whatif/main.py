"""Compares the worst limits of tools/whatif with a scan of every cent: on random small books with the rules, by each selection of blocks
and each limit of the range; and on changed sunny days with the program, in a window round the limit. Each rejected block of a full book
has a limit on the page of tools/report, and is accepted with it, and rejected one cent past it.

Each book depends only on the seed and its number. It needs numpy. The last line is 'N passed, M failed'."""

import argparse
import itertools
import os
import random
import re
from collections.abc import Iterator
from typing import Any

import numpy
from lib.day import day_files
from lib.journal import book, journal
from lib.results import selection
from lib.runs import engine
from lib.whatif import limits, scenarios
from shared import market_books
from shared.arguments import add_programs, parse_with_programs_or_exit
from shared.counts import Counts
from shared.generated_books import generate_book
from shared.place import TOP

SUNNY = TOP / "examples" / "sunny-day.csv"
WINDOW = 50  # cents to each side
FULL = ("make_family.py", "market", 4_000, 24, 4)  # a book at its limits, of 96 periods


def parse_arguments() -> argparse.Namespace:
    parser = argparse.ArgumentParser(prog="tests/whatif/run", description=__doc__, allow_abbrev=False)
    add_programs(parser, "dam")
    parser.add_argument("--seed", default="1", help="of the random books (1)")
    parser.add_argument("--count", type=int, default=200, help="how many small books (200)")
    parser.add_argument("--windows", type=int, default=20, help="how many sunny days (20)")
    return parse_with_programs_or_exit(parser)


def limit_search_of(held: book.Book, key: tuple[str, str], program: str) -> limits.LimitSearch:
    return limits.LimitSearch(held, key, lambda text: engine.clear_and_return_output_or_fault(text, program))


def count_accepted(found: Any, side: str) -> int:
    return 0 if found.limit is None else limits.place_of(side, found.limit) + 1


def signed_volume(order: journal.Order) -> int:
    return sum(volume for _, volume in selection.net_volumes(order))


def allowed_selections(problem: selection.Problem) -> Iterator[frozenset[int]]:
    """The selections that links and groups allow, in the order in which they rank among equals."""
    count = len(problem.blocks)
    for flags in itertools.product((True, False), repeat=count):
        accepted = frozenset(place for place in range(count) if flags[place])
        if not any(selection.link_breaches(problem, accepted)):
            yield accepted


def accepted_by_place(problem: selection.Problem, place: int) -> numpy.ndarray[Any, Any]:
    """For each place of a limit in the range, from the best: whether the rules accept the block at a place with that limit. Each selection
    is tried by tools/lib, without the law that a better limit keeps a block, and without the program."""
    order = problem.blocks[place].order
    limit = numpy.array([limits.limit_at(order.side, at) for at in range(limits.COUNT)], dtype=numpy.int64)
    lost = (limit - order.price) * signed_volume(order)  # of the surplus, compared with the block's own limit
    best = numpy.full(limits.COUNT, numpy.iinfo(numpy.int64).min)
    found = numpy.zeros(limits.COUNT, dtype=bool)
    for accepted in allowed_selections(problem):
        then = selection.outcome(problem, accepted)
        if then.welfare is None:
            continue
        better = then.welfare - lost > best if place in accepted else then.welfare > best
        for other in accepted:
            family = {other, *selection.accepted_rescuers(problem, accepted, other)}
            gain = sum(then.surpluses[member] or 0 for member in family)
            better &= gain - lost >= 0 if place in family else gain >= 0
        best[better] = (then.welfare - lost)[better] if place in accepted else then.welfare
        found[better] = place in accepted
    return found


def check_small_and_count(counts: Counts, program: str, seed: str, number: int) -> int:
    """A block of a small book: its worst limit, and the answer of the rules for each limit."""
    rng = random.Random(f"whatif {seed} {number}")
    drawn = market_books.draw_book(rng)
    while not drawn.blocks:
        drawn = market_books.draw_book(rng)
    held, _ = book.book_and_refusals(journal.parse_journal(drawn.journal_text()))
    problem = selection.Problem(held)
    place = rng.randrange(len(problem.blocks))
    block = problem.blocks[place]
    found = limit_search_of(held, (block.who, block.name), program).search_for_worst()
    count = count_accepted(found, block.order.side)
    scanned = accepted_by_place(problem, place)
    right = bool(scanned[:count].all() and not scanned[count:].any()) and found.clearings <= limits.MOST_CLEARINGS
    counts.check(f"book {number} of seed {seed}, block {block}: {count} limits, {int(scanned.sum())} by the scan", right)
    return count


def check_window(counts: Counts, program: str, seed: str, number: int) -> None:
    """A block of a sunny day with other limits and volumes: each cent near its worst limit."""
    held, _ = book.book_and_refusals(journal.parse_journal(SUNNY.read_bytes()))
    rng = random.Random(f"window {seed} {number}")
    rows = held.rows = scenarios.Sampler(held, "", f"window {seed}", 300, 0.1).draw_rows(number)
    key = rng.choice([key for key, order in rows.items() if order.kind == "block"])
    search, side = limit_search_of(held, key, program), rows[key].side
    count = count_accepted(search.search_for_worst(), side)
    places = range(max(count - WINDOW, 0), min(count + WINDOW, limits.COUNT))
    wrong = [place for place in places if search.run_and_see_acceptance(limits.limit_at(side, place)) != (place < count)]
    counts.check(f"sunny day {number} of seed {seed}, block {','.join(key)}: {len(wrong)} limits differ", not wrong)


def check_full(counts: Counts, program: str) -> None:
    """The sentences of a page for the rejected blocks of a full book."""
    data = generate_book(*FULL)
    cleared = engine.clear_and_return_output_or_fault(data, program)
    assert isinstance(cleared, bytes), cleared
    day = day_files.Day(journal.parse_journal(data), cleared)
    os.environ["DAM"] = program
    said = limits.capture_rejected_sentences_and_print_notes(day)
    rejected = [place for place in range(len(day.problem.blocks)) if place not in day.published.accepted]
    counts.check(f"a full book: limits of {len(said)} blocks, {len(rejected)} are rejected", list(said) == rejected != [])
    for place, words in said.items():
        block = day.problem.blocks[place]
        search = limit_search_of(day.book, (block.who, block.name), program)
        found = re.match(r"With a limit of ([-0-9.,]+) EUR/MWh or (?:lower|higher) it would", words)
        limit = round(float(found[1].replace(",", "")) * 100) if found else 0
        past = limits.limit_at(block.order.side, limits.place_of(block.order.side, limit) + 1)
        is_right = bool(found) and search.run_and_see_acceptance(limit) and not search.run_and_see_acceptance(past)
        counts.check(f"a full book, block {block.who},{block.name}: {words}", is_right)


def main() -> int:
    args = parse_arguments()
    counts, accepted = Counts(), []
    for number in range(1, args.count + 1):
        accepted.append(check_small_and_count(counts, args.dam, args.seed, number))
    for number in range(1, args.windows + 1):
        check_window(counts, args.dam, args.seed, number)
    check_full(counts, args.dam)
    between = sum(0 < count < limits.COUNT for count in accepted)
    print(f"{between} of {len(accepted)} blocks have a worst limit within the range, {accepted.count(0)} none")
    return counts.print_totals_and_return_status()
