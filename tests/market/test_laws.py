"""The tests of the laws: each law finds results that break it, and finds nothing in those that keep it."""

import random
import sys
import unittest
from collections.abc import Sequence
from pathlib import Path

TOP = Path(__file__).resolve().parents[2]
sys.path[:0] = [f"{TOP}/tests", f"{TOP}/tools"]

from lib.base import rules
from lib.journal.journal import Order
from market import laws
from market.laws import Results
from shared import market_books
from shared.market_books import MarketBook, OrderRow

UNIT = OrderRow("GEN", "UNIT", Order("block", "sell", 4_000, ((1, 20),)))
START = OrderRow("GAS", "START", Order("block", "sell", 3_000, ((1, 10),)))
TOWN = OrderRow("CITY", "TOWN", Order("hour", "buy", 5_000, ((1, 20),)))
MILL = OrderRow("MILL", "SAW", Order("hour", "buy", 5_000, ((1, 20),)))
BOOK = MarketBook(1, (UNIT, TOWN))
RIGHT = Results(20_000, [5_000], [20], {UNIT.key: (True, 20_000), TOWN.key: 20})
NOTHING = Results(0, [5_000], [0], {UNIT.key: (False, 20_000), TOWN.key: 0})


class FixedMarket:
    """A market whose results are given: first those for one book, and last those for every other."""

    def __init__(self, book: MarketBook, results: Sequence[Results]) -> None:
        self.book, self.printed, self.others = book, results[0], results[-1]

    def capture_results(self, book: MarketBook) -> Results:
        return self.printed if book == self.book else self.others


def faults_of_law(law: laws.Law, results: Sequence[Results], book: MarketBook = BOOK) -> list[str]:
    """The faults that a law finds by several changes of the book."""
    return [text for seed in range(10) for text in law(FixedMarket(book, results), book, random.Random(seed))]


class Laws(unittest.TestCase):
    def check_law(self, law: laws.Law, right: Sequence[Results], breaking: Sequence[Results], book: MarketBook = BOOK) -> None:
        """The law holds for the first pair of results, and not for the second."""
        self.assertEqual(faults_of_law(law, right, book), [])
        self.assertNotEqual(faults_of_law(law, breaking, book), [])

    def test_welfare_is_shared_out(self) -> None:
        self.check_law(laws.try_that_welfare_is_shared_out, [RIGHT], [RIGHT._replace(welfare=20_001)])

    def test_money_balances(self) -> None:
        self.check_law(laws.try_that_money_balances, [RIGHT], [RIGHT._replace(orders={**RIGHT.orders, TOWN.key: 19})])
        self.check_law(laws.try_that_money_balances, [RIGHT], [RIGHT._replace(volumes=[40])])

    def test_nobody_loses(self) -> None:
        self.check_law(laws.try_that_nobody_loses, [RIGHT], [RIGHT._replace(prices=[5_001])])
        self.check_law(laws.try_that_nobody_loses, [RIGHT], [RIGHT._replace(prices=[3_999])])

    def test_a_family_may_not_lose(self) -> None:
        child = OrderRow("GEN", "NEXT", Order("block", "sell", 5_010, ((1, 20),), parent="UNIT"))
        book = MarketBook(1, (UNIT, child, TOWN))
        printed = RIGHT._replace(orders={**RIGHT.orders, child.key: (False, -200)})
        self.check_law(
            laws.try_that_nobody_loses,
            [printed],
            [printed._replace(welfare=19_800, orders={**printed.orders, child.key: (True, -200)})],
            book,
        )

    def test_the_better_of_two_blocks(self) -> None:
        start = START._replace(order=UNIT.order._replace(price=3_000))
        book = MarketBook(1, (UNIT, start, TOWN))
        right = RIGHT._replace(orders={UNIT.key: (False, 20_000), start.key: (True, 40_000), TOWN.key: 20})
        breaking = right._replace(orders={UNIT.key: (True, 20_000), start.key: (False, 40_000), TOWN.key: 20})
        keys = (UNIT.key, start.key, ("GEN", "MORE"), ("GAS", "MORE"))
        others = right._replace(orders={key: (True, 0) for key in keys})
        self.check_law(laws.try_the_better_of_two_blocks, [right, others], [breaking, others], book)

    def test_fair_in_a_period(self) -> None:
        two = MarketBook(1, (UNIT, TOWN, MILL))
        first = RIGHT._replace(orders={**RIGHT.orders, MILL.key: 0})
        self.check_law(
            laws.try_that_a_period_is_fair, [first], [first._replace(orders={**first.orders, TOWN.key: 0, MILL.key: 20})], two
        )
        self.check_law(
            laws.try_that_a_period_is_fair, [RIGHT], [RIGHT._replace(prices=[4_999], orders={**RIGHT.orders, TOWN.key: 19})]
        )
        self.check_law(laws.try_that_a_period_is_fair, [RIGHT], [RIGHT._replace(prices=[5_001])])

    def test_a_better_limit_keeps_a_block(self) -> None:
        self.check_law(laws.try_a_better_limit, [RIGHT, RIGHT], [RIGHT, NOTHING])

    def test_there_is_a_worst_limit(self) -> None:
        class Sided:
            """A market that accepts the block with low limits alone, or with high ones alone."""

            def __init__(self, accepts_low: bool) -> None:
                self.accepts_low = accepts_low

            def capture_results(self, book: MarketBook) -> Results:
                return RIGHT if (book.rows[0].order.price <= 4_000) == self.accepts_low else NOTHING

        self.assertEqual(list(laws.try_that_there_is_a_worst_limit(Sided(True), BOOK, random.Random(1))), [])
        self.assertNotEqual(list(laws.try_that_there_is_a_worst_limit(Sided(False), BOOK, random.Random(1))), [])

    def test_a_worse_limit_keeps_a_rejection(self) -> None:
        other = NOTHING._replace(orders={**NOTHING.orders, UNIT.key: (False, 10_000)})
        self.check_law(laws.try_a_worse_limit, [NOTHING, other], [NOTHING, RIGHT])
        self.check_law(
            laws.try_a_worse_limit, [NOTHING, other], [NOTHING, other._replace(prices=[4_999])]
        )

    def test_a_withdrawn_block_changes_nothing(self) -> None:
        alone = NOTHING.without_order(UNIT.key)
        self.check_law(
            laws.try_a_rejected_block_withdrawn, [NOTHING, alone], [NOTHING, alone._replace(prices=[0])]
        )
        self.check_law(
            laws.try_a_rejected_block_withdrawn,
            [NOTHING, alone],
            [NOTHING, alone._replace(orders={TOWN.key: 1})],
        )

    def test_a_block_more_never_lowers_welfare(self) -> None:
        class Sized:
            """A market in which the welfare depends on the number of blocks alone."""

            def __init__(self, *welfares: int) -> None:
                self.welfares = welfares

            def capture_results(self, book: MarketBook) -> Results:
                return RIGHT._replace(welfare=self.welfares[len(book.blocks)])

        for welfares, is_kept in (((0, 0, 5), True), ((1, 0, 5), False), ((0, 5, 0), False)):
            found = list(laws.try_a_block_more(Sized(*welfares), BOOK, random.Random(1)))
            self.assertEqual(found == [], is_kept)

    def test_book_order(self) -> None:
        hourly = MarketBook(1, (UNIT, TOWN, MILL, START))
        given = RIGHT._replace(orders={**RIGHT.orders, MILL.key: 0, START.key: (False, 0)})
        turned = RIGHT._replace(orders={**given.orders, TOWN.key: 0, MILL.key: 20})
        other = given._replace(orders={**given.orders, UNIT.key: (False, 0), START.key: (True, 0)})
        self.check_law(
            laws.try_ties_of_hourly_orders,
            [given, turned],
            [given, turned._replace(prices=[4_500])],
            hourly,
        )
        self.check_law(laws.try_ties_of_hourly_orders, [given, turned], [given, other], hourly)
        self.check_law(
            laws.try_ties_of_blocks, [given, other], [given, other._replace(welfare=1)], hourly
        )
        self.check_law(laws.try_ties_of_blocks, [given, given], [given, turned], hourly)


class Books(unittest.TestCase):
    def test_parents_stay_before_their_children(self) -> None:
        parent = OrderRow("A", "K1", Order("block", "sell", 0, ((1, 1),)))
        child = OrderRow("A", "K2", Order("block", "sell", 0, ((1, 1),), "K1"))
        book = MarketBook(24, (parent, START, child, TOWN))
        shuffled = {book.draw_blocks_shuffled(random.Random(seed)).rows for seed in range(50)}
        self.assertEqual(len(shuffled), 3)
        self.assertTrue(all(rows.index(parent) < rows.index(child) and rows[3] == TOWN for rows in shuffled))

    def test_limits_move_as_they_should(self) -> None:
        for seed in range(100):
            rng = random.Random(seed)
            self.assertLess(market_books.draw_better_limit_or_none(rng, UNIT.order) or 4_000, 4_000)
            self.assertGreater(market_books.draw_worse_limit_or_none(rng, UNIT.order) or 4_000, 4_000)
            self.assertGreater(market_books.draw_better_limit_or_none(rng, TOWN.order) or 5_000, 5_000)
            self.assertIsNone(market_books.draw_better_limit_or_none(rng, UNIT.order._replace(price=rules.LOWEST_PRICE)))

    def test_drawn_books_fit_the_laws(self) -> None:
        drawn = [market_books.draw_book(random.Random(f"market check {number}")) for number in range(1, 201)]
        self.assertTrue(any(book.periods == 24 for book in drawn))
        self.assertTrue(any(book.periods == 96 for book in drawn))
        for has in ("parent", "group"):
            self.assertGreater(sum(any(getattr(row.order, has) for row in book.blocks) for book in drawn), 20)


if __name__ == "__main__":
    unittest.main()
