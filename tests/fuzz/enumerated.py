#!/usr/bin/env python3
"""Runs the program on random days of up to 24 blocks, and tries every selection of each by `tools/lib/audit/numpy_enumeration.py`.

The results that the program prints must be as the rules say, and no selection may be better. Then they are altered to those of an eligible
selection that ranks below, the best one that differs in one block and what hangs on it; and the enumeration must find the program's
selection above it. Each case is drawn from the seed and its number alone. With --families the days are those of bench/make_family.py with
24 blocks, which are hard for a search: of 24 and 96 periods, with 500 and 4,000 hourly orders. With --books they are the 70 deep
markets of bench/make_blocks.py, with 24 blocks, most of them as users have them, with --thin its thin markets, and with --profiles random
days with such blocks. Without numpy, random days have at most 12 blocks, and the others can't be tried. The last line printed is
'N passed, M failed'."""

import argparse
import random
import sys
from collections import Counter
from collections.abc import Iterator
from pathlib import Path

sys.dont_write_bytecode = True
sys.path[:1] = [str(Path(__file__).resolve().parents[2] / folder) for folder in ("tests", "tools")]

from shared import days, timed_program
from shared.arguments import parse_with_programs_or_exit, parser_of_cases
from shared.counts import Counts
from lib.audit import better
from lib.journal import book, journal
from lib.process.progress import Progress
from lib.results import check, results, selection
from lib.tool import exits, modules
from shared.generated_books import generate_book
from shared.place import TOP

LEAST_BLOCKS, MOST_BLOCKS = 5, 24
FEW_BLOCKS = 12  # of a day, without numpy


def parse_arguments() -> argparse.Namespace:
    parser = parser_of_cases("tests/fuzz/enumerated.py", __doc__, "cases", 200)
    parser.add_argument("--blocks", type=int, help="how many blocks are submitted (any number up to 24)")
    parser.add_argument("--wait", type=float, default=timed_program.SECONDS, help="how many seconds the program may take to answer (60)")
    kinds = parser.add_mutually_exclusive_group()
    kinds.add_argument("--families", action="store_true", help="the days of bench/make_family.py instead of random ones")
    kinds.add_argument("--books", action="store_true", help="the deep markets of bench/make_blocks.py instead of random days")
    kinds.add_argument("--thin", action="store_true", help="its thin markets")
    kinds.add_argument("--profiles", action="store_true", help="random days with blocks as users have them")
    parser.add_argument("--jobs", type=int, default=1, help="how many threads try the selections (1)")
    return parse_with_programs_or_exit(parser)


def draw_inputs(args: argparse.Namespace) -> Iterator[tuple[str, bytes]]:
    """The days, each with a name."""
    wanted = slice(args.first - 1, args.first - 1 + args.count)
    if args.families or args.books or args.thin:
        sys.path.insert(0, f"{TOP}/bench")
        import make_blocks
        import make_family

        books = make_family.DEEP if args.families else make_blocks.THIN if args.thin else make_blocks.DEEP
        for drawn in books[wanted]:
            yield f"book {drawn.name}", generate_book(drawn.script, *drawn.words)
    else:
        for number in range(args.first, args.first + args.count):
            yield f"case {number} of seed {args.seed}", draw_day(random.Random(f"selections {args.seed} {number}"), args)


def draw_day(rng: random.Random, args: argparse.Namespace) -> bytes:
    """A closed day with blocks whose prices and volumes meet, or not; or with profiles as users have them."""
    blocks = args.blocks or min(rng.randint(LEAST_BLOCKS, MOST_BLOCKS), args.most_blocks)
    if args.profiles:
        return days.draw_day_with_profiles(rng, blocks)
    draft = days.Draft(rng)
    if rng.random() < 0.7:
        draft.set_meeting_prices()
    days.add_mixed(draft, draft.hourly, blocks)
    return days.text_of_lines([*draft.lines, "close,,,,,,,,"])


def lower_selection_or_none(problem: selection.Problem, accepted: frozenset[int], welfare: int) -> tuple[frozenset[int], int] | None:
    """The best eligible selection below this one, and its welfare, of those that take one block in or out; a block that is out
    takes its descendants along, and one that is in takes its ancestors along and its rivals away. None if there is none."""
    found = []
    for place in range(len(problem.blocks)):
        if place in accepted:
            other = accepted - {place, *problem.rescuers[place]}
        else:
            line = {place, *(above for above in range(place) if place in problem.rescuers[above])}
            away = {rival for group in problem.groups().values() if line & set(group) for rival in set(group) - line}
            away |= {below for rival in away for below in problem.rescuers[rival]}
            other = (accepted | line) - away
        value = selection.eligible_welfare(problem, other)
        if value is not None and selection.ranks_above(len(problem.blocks), welfare, accepted, value, other):
            found.append((value, [block in other for block in range(len(problem.blocks))], other))
    if not found:
        return None
    value, _, other = max(found, key=lambda one: one[:2])
    return other, value


def search_for_best_above(problem: selection.Problem, said: results.Results, jobs: int) -> tuple[frozenset[int], int] | None:
    """The selection that ranks above these results, as a set and its welfare; None if none does."""
    found, _ = better.search_by_enumeration(problem, said, Progress("fuzz", 600, quiet=True), jobs, few=0)
    return found and (found.accepted, found.welfare)


def try_day(program: timed_program.TimedProgram, data: bytes, jobs: int) -> tuple[str | None, str | None]:
    """The faults of a day, in words; and the altered results, None if they couldn't be."""
    problem = selection.Problem(book.book_and_refusals(journal.parse_journal(data))[0])
    got = program.capture_output(["clear"], data)
    if got.status:
        return f"the program ends with {got.stderr.decode().strip() or f'status {got.status}'}", None
    said, wrong = check.results_and_faults(problem, got.stdout)
    if wrong or said is None:
        return wrong[0], None
    above = search_for_best_above(problem, said, jobs)
    if above:
        return f"the selection {sorted(above[0])} is better, with {above[1]}", None
    accepted = frozenset(said.accepted)
    altered = lower_selection_or_none(problem, accepted, said.welfare)
    if altered is None:
        return None, None
    kind = "of less welfare" if altered[1] < said.welfare else "of the same welfare"
    text = results.results_text(problem, altered[0], selection.outcome(problem, altered[0])).encode()
    published, wrong = check.results_and_faults(problem, text)
    if wrong or published is None:
        return f"altered to {sorted(altered[0])} it isn't as the rules say: {wrong[0]}", kind
    above = search_for_best_above(problem, published, jobs)
    if above != (accepted, said.welfare):
        return f"altered to {sorted(altered[0])} it finds {above}, and not the program's selection", kind
    return None, kind


def main() -> int:
    args = parse_arguments()
    modules.exec_with_modules("numpy")
    if args.families or args.books or args.thin or (args.blocks or 0) > FEW_BLOCKS:
        modules.exec_or_require_modules("numpy")
    args.most_blocks = MOST_BLOCKS if modules.has_module("numpy") else FEW_BLOCKS
    program, counts, altered = timed_program.TimedProgram(args.dam, args.wait), Counts(), Counter[str]()
    for name, data in draw_inputs(args):
        wrong, kind = try_day(program, data, args.jobs)
        altered[kind or ""] += 1
        counts.check(f"{name}: {wrong}", wrong is None)
    for kind in sorted(kind for kind in altered if kind):
        print(f"{altered[kind]} altered to an eligible selection {kind}")
    return counts.print_totals_and_return_status()


exits.run_and_exit("fuzz", main)
