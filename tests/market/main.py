"""Runs the laws of the market on random small books: the program clears each book and changes of it, and what it prints is compared with
the law's conclusion. docs/MARKET.md has the laws. They are proved of the definitions; this shows that the built program keeps them.

Each book depends only on the seed and its number, so it can be drawn again with --first and --count. The last line is
'N passed, M failed', with each law counted for each book."""

import random

from market import laws
from shared import market_books
from shared.arguments import parse_with_programs_or_exit, parser_of_cases
from shared.counts import Counts
from shared.timed_program import TimedProgram


def check_laws(counts: Counts, market: laws.MarketOfProgram, seed: str, number: int) -> None:
    """Counts each law for one book."""
    book = market_books.draw_book(random.Random(f"market {seed} {number}"))
    for name, law in laws.LAWS.items():
        rng = random.Random(f"{name} {seed} {number}")
        try:
            wrong = list(law(market, book, rng))
        except laws.NoResults as refused:
            wrong = [f"the program refuses: {refused}"]
        counts.check(f"{name}, book {number} of seed {seed}: {'; '.join(wrong)}", not wrong)


def main() -> int:
    args = parse_with_programs_or_exit(parser_of_cases("tests/market/run", __doc__, "books", 2_000))
    counts = Counts()
    program = TimedProgram(args.dam)
    for number in range(args.first, args.first + args.count):
        check_laws(counts, laws.MarketOfProgram(program), args.seed, number)
    return counts.print_totals_and_return_status()
