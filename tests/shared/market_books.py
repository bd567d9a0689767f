"""Closed books of orders, drawn at random, and the changes of them that the laws of the market speak of."""

from __future__ import annotations

import random
from collections.abc import Callable
from typing import NamedTuple

from shared import days
from lib.base import rules
from lib.journal import book, journal
from lib.journal.journal import Close, Journal, Order, Submit

MOST_BLOCKS = 8
SPAN = rules.HIGHEST_PRICE - rules.LOWEST_PRICE


class OrderRow(NamedTuple):
    who: str
    name: str
    order: Order

    @property
    def key(self) -> tuple[str, str]:
        return self.who, self.name

    @property
    def is_block(self) -> bool:
        return self.order.kind == "block"


class MarketBook(NamedTuple):
    periods: int
    rows: tuple[OrderRow, ...]  # in book order

    @property
    def hourly_rows(self) -> list[OrderRow]:
        return [row for row in self.rows if not row.is_block]

    @property
    def blocks(self) -> list[OrderRow]:
        return [row for row in self.rows if row.is_block]

    def journal_text(self) -> bytes:
        """The journal that submits the rows in their order, and closes the book."""
        submits = [Submit(row.who, row.name, row.order) for row in self.rows]
        return journal.journal_text(Journal(self.periods, [*submits, Close()])).encode()

    def child_rows(self, row: OrderRow) -> list[OrderRow]:
        return [other for other in self.blocks if (other.who, other.order.parent) == row.key]

    def with_limit(self, row: OrderRow, limit: int) -> MarketBook:
        """The book with another limit for a row."""
        return self.changed(lambda other: other._replace(order=other.order._replace(price=limit)) if other == row else other)

    def changed(self, change: Callable[[OrderRow], OrderRow]) -> MarketBook:
        return self._replace(rows=tuple(change(row) for row in self.rows))

    def without(self, row: OrderRow) -> MarketBook:
        return self._replace(rows=tuple(other for other in self.rows if other != row))

    def draw_with_one_more(self, rng: random.Random) -> MarketBook:
        """The book with a block more at its end: like another one, with a limit that may be better or worse."""
        like = rng.choice(self.blocks)
        limit = rng.choice([draw_better_limit_or_none, draw_worse_limit_or_none])(rng, like.order)
        more = like._replace(name="MORE", order=like.order._replace(price=like.order.price if limit is None else limit))
        return self._replace(rows=(*self.rows, more))

    def draw_hourly_shuffled(self, rng: random.Random) -> MarketBook:
        """The book with its hourly orders in another order, at the places of hourly orders."""
        others = iter(rng.sample(self.hourly_rows, len(self.hourly_rows)))
        return self.changed(lambda row: row if row.is_block else next(others))

    def draw_blocks_shuffled(self, rng: random.Random) -> MarketBook:
        """The book with its blocks in another order, parents before their children, at the places of blocks."""
        left, placed = rng.sample(self.blocks, len(self.blocks)), []
        while left:
            free = [row for row in left if not any((row.who, row.order.parent) == other.key for other in left)]
            placed.append(free[0])
            left.remove(free[0])
        others = iter(placed)
        return self.changed(lambda row: next(others) if row.is_block else row)


def draw_book(rng: random.Random) -> MarketBook:
    """A closed book, with blocks, links and groups more often than not, and prices and volumes that meet or tie."""
    draft = days.Draft(rng)
    if rng.random() < 0.5:
        draft.periods = rng.choice([24, 96])
    if rng.random() < 0.5:
        draft.set_meeting_prices()
    days.add_mixed(draft, draft.hourly, rng.randint(1, MOST_BLOCKS))
    read = journal.parse_journal("".join(f"{line}\n" for line in draft.lines).encode())
    run, _ = book.book_and_refusals(read)
    return MarketBook(run.periods, tuple(OrderRow(who, name, order) for (who, name), order in run.rows.items()))


def draw_better_limit_or_none(rng: random.Random, order: Order) -> int | None:
    """A limit that is better than the order's own: higher for a buy, lower for a sell. None if there is none."""
    return draw_moved_limit_or_none(rng, order, 1 if order.side == "buy" else -1)


def draw_worse_limit_or_none(rng: random.Random, order: Order) -> int | None:
    return draw_moved_limit_or_none(rng, order, -1 if order.side == "buy" else 1)


def draw_moved_limit_or_none(rng: random.Random, order: Order, sign: int) -> int | None:
    """A limit in that direction, often near; None if the order's own is at the end of the range."""
    end = rules.HIGHEST_PRICE if sign > 0 else rules.LOWEST_PRICE
    room = abs(end - order.price)
    return order.price + sign * rng.randint(1, min(room, rng.choice([1, 300, SPAN]))) if room else None
