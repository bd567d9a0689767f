"""A cleared day as comparisons take it: the orders of its book by participant and name, and the outcome of each. It is made of the output
of a run of the program, which is checked here, or of results that were checked."""

import itertools
from collections.abc import Mapping
from dataclasses import dataclass
from fractions import Fraction
from typing import NamedTuple

from ..base import rules
from ..journal import journal
from ..journal.journal import Key, Order, Volumes
from ..results import check, results, selection, trades
from .errors import Fault, Wrong

NO_RESULTS = "the program printed no results of this journal"
THE_DAY = "the day"


class Held(NamedTuple):
    """The part of a book that its clearing needs."""

    rows: Mapping[Key, Order]
    periods: int


class Printed(NamedTuple):
    """Results: of each hourly order the executed volume in tenths of a MW, and of each block whether it is accepted."""

    welfare: int | None
    prices: list[int]
    volumes: list[int]
    orders: dict[Key, int]


@dataclass(eq=False)
class Cleared:
    """`rows` are the orders by participant and name, in book order; the outcomes are as in `Printed`."""

    rows: Mapping[Key, Order]
    periods: int
    welfare: int
    prices: list[int]
    volumes: list[int]
    orders: dict[Key, int]

    @property
    def hours(self) -> Fraction:
        return rules.DAYS[self.periods]

    @classmethod
    def of_text(cls, rows: Mapping[Key, Order], periods: int, printed: bytes, name: str = THE_DAY) -> "Cleared":
        """The same from the output of `dam clear` for a book. If it isn't of this book, or breaks the rules, that is a fault."""
        try:
            read = parse_printed(printed.decode())
        except (ValueError, IndexError):
            raise Fault(NO_RESULTS) from None
        if read.welfare is None or len(read.prices) != periods or read.orders.keys() != rows.keys():
            raise Fault(NO_RESULTS)
        refuse_wrong_results(Held(rows, periods), read.orders, printed, name)
        return cls(rows, periods, read.welfare, read.prices, read.volumes, read.orders)

    @classmethod
    def of_day(cls, day: trades.PublishedDay) -> "Cleared":
        """The same of results that were read."""
        published = day.published
        executed, accepted = iter(published.executed), (place in published.accepted for place in itertools.count())
        rows = {(row.who, row.name): row.order for row in day.problem.rows}
        orders = {key: next(executed if order.kind == "hour" else accepted) for key, order in rows.items()}
        return cls(rows, day.problem.periods, published.welfare, published.prices, published.volumes, orders)

    def executed_volumes(self, key: Key) -> Volumes:
        """The executed volumes of an order, as pairs of a period and tenths of a MW; none of an order that isn't in the book."""
        order = self.rows.get(key)
        if order is None or not self.orders[key]:
            return ()
        return order.volumes if order.kind == "block" else ((order.volumes[0][0], self.orders[key]),)

    def executed(self, key: Key) -> int:
        """The sum of these volumes."""
        return sum(volume for _, volume in self.executed_volumes(key))

    def amount(self, key: Key) -> int:
        """The payment to the participant for an order, below 0 if it pays, in cents per MWh times tenths of a MW."""
        paid = sum(volume * self.prices[period - 1] for period, volume in self.executed_volumes(key))
        return -paid if paid and self.rows[key].side == "buy" else paid

    def surplus(self, key: Key) -> int:
        """The gain of an order compared with trading at its limit: for a block at the prices, whether it is accepted or not."""
        order = self.rows[key]
        volumes = order.volumes if order.kind == "block" else self.executed_volumes(key)
        sign = 1 if order.side == "sell" else -1
        return sign * sum(volume * (self.prices[period - 1] - order.price) for period, volume in volumes)

    def gain(self, who: str) -> int:
        """The sum of the surpluses of a participant's orders, as far as they are executed."""
        return sum(self.surplus(key) for key in self.rows if key[0] == who and self.orders[key])

    def net(self, who: str) -> int:
        """The payments to a participant less its own payments."""
        return sum(self.amount(key) for key in self.rows if key[0] == who)

    def outcome(self, key: Key) -> str:
        """The outcome of an order, in a word or two; nothing for one that isn't in the book."""
        order = self.rows.get(key)
        if order is None:
            return ""
        if order.kind == "block":
            return "accepted" if self.orders[key] else "rejected"
        return trades.execution_text(order, self.orders[key])


def parse_printed(printed: str) -> Printed:
    welfare: int | None = None
    prices: list[int] = []
    volumes: list[int] = []
    orders: dict[Key, int] = {}
    for line in printed.splitlines():
        kind, *fields = line.split(",")
        if kind == "welfare":
            welfare = int(fields[0])
        elif kind == "period":
            prices.append(int(fields[1]))
            volumes.append(int(fields[2]))
        elif kind == "hour":
            orders[fields[0], fields[1]] = int(fields[2])
        elif kind == "block":
            orders[fields[0], fields[1]] = fields[2] == "accepted"
    return Printed(welfare, prices, volumes, orders)


def refuse_wrong_results(held: Held, orders: dict[Key, int], printed: bytes, name: str) -> None:
    """A fault if results break the rules. They may be right, and another selection of blocks better: this isn't looked at."""
    problem = selection.Problem(held)
    accepted = {place for place, block in enumerate(problem.blocks) if orders[block.who, block.name]}
    if printed == results_of_selection(problem, accepted):  # the usual case, and far quicker to see
        return
    published, wrong = check.results_and_faults(problem, printed)
    if published is None:
        raise Fault(f"{NO_RESULTS}: {wrong[0]}")
    raise Wrong(f"the program's results of {name} break the rules ({wrong[0]})")


def results_of_selection(problem: selection.Problem, accepted: selection.Places) -> bytes | None:
    """The results of the selection that accepts these places; None if it isn't eligible."""
    outcome = selection.outcome(problem, accepted)
    if any(selection.link_breaches(problem, accepted)) or outcome.welfare is None:
        return None
    return None if selection.losses_of(problem, accepted, outcome.surpluses) else results.results_text(problem, accepted, outcome).encode()


def journal_bytes(rows: Mapping[Key, Order], periods: int) -> bytes:
    """The text of a journal that submits the orders of a book in book order, and closes it: its book is the same."""
    submits = [journal.Submit(who, name, order) for (who, name), order in rows.items()]
    return journal.journal_text(journal.Journal(periods, [*submits, journal.Close()])).encode()
