"""The trades of the results of a day, order by order and participant by participant."""

from collections.abc import Iterator
from typing import NamedTuple, Protocol

from ..journal.journal import Order
from .results import Results
from .selection import Outcome, Problem, Row

SHARES = [(kind, side) for side in ("buy", "sell") for kind in ("hour", "block")]


class PublishedDay(Protocol):
    problem: Problem
    published: Results


class ClearedDay(PublishedDay, Protocol):
    outcome: Outcome  # of the published selection


class Trade(NamedTuple):
    """An executed volume of an order in a period."""

    who: str
    name: str
    side: str
    period: int
    volume: int  # tenths of a MW
    price: int  # cents per MWh

    def amount(self) -> int:
        """Volume times price, in cents per MWh times tenths of a MW."""
        return self.volume * self.price

    def gain(self, limit: int) -> int:
        """The gain compared with trading at the limit, in the same unit."""
        return self.volume * (self.price - limit if self.side == "sell" else limit - self.price)


class Total(NamedTuple):
    """The trades of a participant over the day: sums of tenths of a MW, of volume times price, and of surpluses."""

    bought: int = 0
    sold: int = 0
    paid: int = 0
    received: int = 0
    gained: int = 0


def is_traded(day: PublishedDay, number: int) -> bool:
    """Whether anything is traded in a period. If not, its price says little: without any order it is the middle of the range."""
    return day.published.volumes[number - 1] > 0


def traded_periods(day: PublishedDay) -> list[int]:
    return [number for number in range(1, day.problem.periods + 1) if is_traded(day, number)]


def rows_and_trades(day: PublishedDay) -> Iterator[tuple[Row, list[Trade]]]:
    """Each row of the book with its trades."""
    executed, place = iter(day.published.executed), 0
    for row in day.problem.rows:
        if row.order.kind == "hour":
            volumes = [(row.order.volumes[0][0], next(executed))]
        else:
            volumes = list(row.order.volumes) if place in day.published.accepted else []
            place += 1
        prices = day.published.prices
        yield row, [
            Trade(row.who, row.name, row.order.side, number, volume, prices[number - 1])
            for number, volume in volumes
            if volume
        ]


def rows_and_surpluses(day: PublishedDay) -> Iterator[tuple[Row, int]]:
    """Each row of the book with its surplus as far as it is executed: an hourly order's by its executed volume, and the published one of an
    accepted block; the surplus of a rejected block is 0."""
    blocks = iter(enumerate(day.published.surpluses))
    for row, made in rows_and_trades(day):
        if row.order.kind == "hour":
            yield row, sum(trade.gain(row.order.price) for trade in made)
        else:
            place, surplus = next(blocks)
            yield row, surplus if place in day.published.accepted else 0


def execution_text(order: Order, executed: int) -> str:
    """How far an hourly order is executed, in words."""
    return "in full" if executed == order.volumes[0][1] else "in part" if executed else "not"


def volume_shares(day: PublishedDay) -> dict[int, dict[tuple[str, str], int]]:
    """The bought and sold volumes in each period, by hourly orders and by blocks: tenths of a MW by `SHARES`."""
    found = {number: dict.fromkeys(SHARES, 0) for number in day.problem.orders}
    for row, made in rows_and_trades(day):
        for trade in made:
            found[trade.period][row.order.kind, trade.side] += trade.volume
    return found


def totals(day: PublishedDay) -> dict[str, Total]:
    """The total of each participant of the book, by name."""
    found: dict[str, list[int]] = {}
    for (row, made), (_, gain) in zip(rows_and_trades(day), rows_and_surpluses(day)):
        sums = found.setdefault(row.who, [0, 0, 0, 0, 0])
        for trade in made:
            buys = trade.side == "buy"
            sums[0 if buys else 1] += trade.volume
            sums[2 if buys else 3] += trade.amount()
        sums[4] += gain
    return {who: Total(*sums) for who, sums in sorted(found.items())}
