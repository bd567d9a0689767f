"""The laws of the market, each run on a book: the program's output for the book and for a change of it is compared with the law's
conclusion. docs/MARKET.md says each law in words, and names the function whose contract states it."""

from __future__ import annotations

import itertools
import random
from collections.abc import Callable, Iterator, Sequence
from typing import Any, NamedTuple, Protocol

from lib.base import rules
from lib.journal.journal import Order

from shared import market_books
from shared.market_books import MarketBook, OrderRow
from shared.timed_program import TimedProgram

Key = tuple[str, str]  # of an order: its participant and its name


class Results(NamedTuple):
    """The results that the program prints for a book."""

    welfare: int
    prices: list[int]  # by period, from 1
    volumes: list[int]
    orders: dict[Key, Any]  # by participant and name: an executed volume, or a pair of whether the block is accepted and its surplus

    def without_order(self, key: Key) -> Results:
        """All of it but the line of one order."""
        return self._replace(orders={other: value for other, value in self.orders.items() if other != key})

    def accepts(self, row: OrderRow) -> bool:
        return self.orders[row.key][0]

    def accepted_keys(self, book: MarketBook) -> set[Key]:
        return {row.key for row in book.blocks if self.accepts(row)}


class NoResults(Exception):
    """The program printed no results."""


class Market(Protocol):
    def capture_results(self, book: MarketBook) -> Results:
        """The results of a book."""


Law = Callable[[Market, MarketBook, random.Random], Iterator[str]]


def parse_results(text: bytes) -> Results:
    lines = [line.split(",") for line in text.decode().splitlines()]
    periods = [line for line in lines if line[0] == "period"]
    orders = {}
    for kind, who, name, *values in (line for line in lines if line[0] in ("hour", "block")):
        orders[who, name] = int(values[0]) if kind == "hour" else (values[0] == "accepted", int(values[1]))
    (welfare,) = (int(line[1]) for line in lines if line[0] == "welfare")
    return Results(welfare, [int(line[2]) for line in periods], [int(line[3]) for line in periods], orders)


class MarketOfProgram:
    """The program, and its output for the books so far."""

    def __init__(self, program: TimedProgram) -> None:
        self.program = program
        self.kept: dict[MarketBook, Results] = {}

    def capture_results(self, book: MarketBook) -> Results:
        if book not in self.kept:
            printed = self.program.capture_output(["clear"], book.journal_text())
            if printed.status:
                raise NoResults(printed.stderr.decode())
            self.kept[book] = parse_results(printed.stdout)
        return self.kept[book]


def signed_by_side(order: Order, amount: int) -> int:
    return amount if order.side == "buy" else -amount


def surplus(row: OrderRow, printed: Results) -> int:
    """The gain of an order: an hourly one by its executed volume, a block if it is accepted, by its limit, volumes and the prices."""
    volumes = executed_volumes(row, printed)
    return sum(signed_by_side(row.order, (row.order.price - printed.prices[period - 1]) * volume) for period, volume in volumes)


def executed_volumes(row: OrderRow, printed: Results) -> Sequence[tuple[int, int]]:
    """The executed volume of an order in each of its periods; none of a block that is rejected."""
    if row.is_block:
        return row.order.volumes if printed.accepts(row) else ()
    return [(row.order.volumes[0][0], printed.orders[row.key])]


def traded_volumes(book: MarketBook, printed: Results) -> dict[str, list[int]]:
    """The volume that each side trades in each period: of hourly orders and of accepted blocks."""
    volumes = {"buy": [0] * book.periods, "sell": [0] * book.periods}
    for row in book.rows:
        for period, volume in executed_volumes(row, printed):
            volumes[row.order.side][period - 1] += volume
    return volumes


# Each takes the market, a book and the generator of its change, and yields the faults, if there are any. LAWS has the name of its law.


def try_that_welfare_is_shared_out(market: Market, book: MarketBook, _: random.Random) -> Iterator[str]:
    printed = market.capture_results(book)
    shares = sum(surplus(row, printed) for row in book.rows)
    if shares != printed.welfare:
        yield f"the welfare is {printed.welfare}, and the surpluses add up to {shares}"
    for row in book.blocks:
        if printed.accepts(row) and surplus(row, printed) != printed.orders[row.key][1]:
            yield f"block {row.name} has another surplus"


def try_that_money_balances(market: Market, book: MarketBook, _: random.Random) -> Iterator[str]:
    printed = market.capture_results(book)
    volumes = traded_volumes(book, printed)
    if volumes["buy"] != volumes["sell"] or volumes["buy"] != printed.volumes:
        yield "buyers and sellers trade different volumes, or the published ones are others"


def try_that_nobody_loses(market: Market, book: MarketBook, _: random.Random) -> Iterator[str]:
    printed = market.capture_results(book)
    gains: dict[str, int] = {}
    for row in book.rows:
        gain = surplus(row, printed)
        gains[row.who] = gains.get(row.who, 0) + gain
        if gain < 0 and not row.is_block:
            yield f"the hourly order {row.name} loses"
        if row.is_block and printed.accepts(row) and family_surplus(book, row, printed) < 0:
            yield f"block {row.name} loses, with its accepted descendants"
    if sum(gains.values()) != printed.welfare:
        yield "the participants' surpluses don't add up to the welfare"
    yield from (f"participant {who} loses" for who, gain in gains.items() if gain < 0)


def family_surplus(book: MarketBook, row: OrderRow, printed: Results) -> int:
    """The gain of a block with its accepted descendants; a rejected block has none."""
    return surplus(row, printed) + sum(family_surplus(book, child, printed) for child in book.child_rows(row))


def try_that_a_period_is_fair(market: Market, book: MarketBook, _: random.Random) -> Iterator[str]:
    printed = market.capture_results(book)
    seen: dict[tuple[int, str, int], bool] = {}  # of a period, a side and a price: whether the last order is executed in full
    for row in book.hourly_rows:
        ((period, volume),) = row.order.volumes
        margin = signed_by_side(row.order, row.order.price - printed.prices[period - 1])
        executed = printed.orders[row.key]
        if margin > 0 and executed != volume or margin < 0 and executed:
            yield f"the hourly order {row.name} is better than the price and cut, or worse and executed"
        fellows = period, row.order.side, row.order.price
        if executed and not seen.get(fellows, True):
            yield f"the hourly order {row.name} comes before an earlier one"
        seen[fellows] = executed == volume
    # a volume in between gains in between, since the surplus grows evenly with it


def try_a_better_limit(market: Market, book: MarketBook, rng: random.Random) -> Iterator[str]:
    printed = market.capture_results(book)
    for row in book.blocks:
        limit = market_books.draw_better_limit_or_none(rng, row.order)
        if printed.accepts(row) and limit is not None:
            if not market.capture_results(book.with_limit(row, limit)).accepts(row):
                yield f"block {row.name} is accepted, and with the better limit {limit} it isn't"


def try_that_there_is_a_worst_limit(market: Market, book: MarketBook, rng: random.Random) -> Iterator[str]:
    """A few limits of one block, from the worst to the best."""
    if not book.blocks:
        return
    row = rng.choice(book.blocks)
    moves = 3 * (market_books.draw_better_limit_or_none, market_books.draw_worse_limit_or_none)
    drawn = {limit for move in moves if (limit := move(rng, row.order)) is not None}
    limits = sorted(drawn, key=lambda limit: signed_by_side(row.order, limit))
    accepted = [market.capture_results(other).accepts(book_row(other, row)) for other in (book.with_limit(row, limit) for limit in limits)]
    if accepted != sorted(accepted):
        yield f"block {row.name} is accepted with some limit and not with a better one: {limits}"


def book_row(book: MarketBook, row: OrderRow) -> OrderRow:
    return next(other for other in book.rows if other.key == row.key)


def try_a_worse_limit(market: Market, book: MarketBook, rng: random.Random) -> Iterator[str]:
    printed = market.capture_results(book)
    for row in book.blocks:
        limit = market_books.draw_worse_limit_or_none(rng, row.order)
        if not printed.accepts(row) and limit is not None:
            other = market.capture_results(book.with_limit(row, limit))
            if other.accepts(row) or other.without_order(row.key) != printed.without_order(row.key):
                yield f"block {row.name} is rejected, and with the worse limit {limit} the results are others"


def try_the_better_of_two_blocks(market: Market, book: MarketBook, rng: random.Random) -> Iterator[str]:
    """Of the book, and of it with one more block that is like one of the others, with another limit."""
    more = [book.draw_with_one_more(rng)] if book.blocks and len(book.blocks) < rules.MOST_BLOCKS else []
    for other in (book, *more):
        printed = market.capture_results(other)
        alone = [row for row in other.blocks if not (row.order.parent or row.order.group or other.child_rows(row))]
        for better, worse in itertools.permutations(alone, 2):
            alike = (better.order.side, better.order.volumes) == (worse.order.side, worse.order.volumes)
            if alike and signed_by_side(better.order, better.order.price) > signed_by_side(worse.order, worse.order.price):
                if printed.accepts(worse) and not printed.accepts(better):
                    yield f"block {worse.name} is accepted, and {better.name}, which is better, isn't"


def try_a_rejected_block_withdrawn(market: Market, book: MarketBook, _: random.Random) -> Iterator[str]:
    printed = market.capture_results(book)
    for row in book.blocks:
        if not printed.accepts(row) and not book.child_rows(row):
            if market.capture_results(book.without(row)) != printed.without_order(row.key):
                yield f"block {row.name} is rejected, and without it the results are others"


def try_a_block_more(market: Market, book: MarketBook, rng: random.Random) -> Iterator[str]:
    """Each block without children is one more than the others; and one like another, with another limit, comes at the end."""
    printed = market.capture_results(book)
    for row in book.blocks:
        if not book.child_rows(row) and market.capture_results(book.without(row)).welfare > printed.welfare:
            yield f"without block {row.name} the welfare is greater"
    if book.blocks and len(book.blocks) < rules.MOST_BLOCKS:
        if market.capture_results(book.draw_with_one_more(rng)).welfare < printed.welfare:
            yield "with a block more at the end the welfare is less"


def try_ties_of_hourly_orders(market: Market, book: MarketBook, rng: random.Random) -> Iterator[str]:
    printed, other = market.capture_results(book), market.capture_results(book.draw_hourly_shuffled(rng))
    if (other.welfare, other.prices, other.volumes, other.accepted_keys(book)) != (
        printed.welfare,
        printed.prices,
        printed.volumes,
        printed.accepted_keys(book),
    ):
        yield "with the hourly orders in another order the results are others"


def try_ties_of_blocks(market: Market, book: MarketBook, rng: random.Random) -> Iterator[str]:
    printed, other = market.capture_results(book), market.capture_results(book.draw_blocks_shuffled(rng))
    if other.welfare != printed.welfare:
        yield "with the blocks in another order the welfare is another"
    if other.accepted_keys(book) == printed.accepted_keys(book) and other != printed:
        yield "with the blocks in another order the same selection has other prices or executions"


LAWS: dict[str, Law] = {
    "welfare_is_shared_out": try_that_welfare_is_shared_out,
    "money_balances": try_that_money_balances,
    "nobody_loses": try_that_nobody_loses,
    "a_period_is_fair": try_that_a_period_is_fair,
    "a_better_limit_keeps_a_block": try_a_better_limit,
    "there_is_a_worst_limit": try_that_there_is_a_worst_limit,
    "a_worse_limit_keeps_a_rejection": try_a_worse_limit,
    "the_better_of_two_blocks_goes_first": try_the_better_of_two_blocks,
    "a_rejected_block_withdrawn_changes_nothing": try_a_rejected_block_withdrawn,
    "a_block_more_never_lowers_welfare": try_a_block_more,
    "book_order_of_hourly_orders_decides_only_ties": try_ties_of_hourly_orders,
    "book_order_of_blocks_decides_only_ties": try_ties_of_blocks,
}
