"""The first three laws of docs/MARKET.md, checked on published results by adding: welfare is shared out, money balances, nobody loses.

Nothing is cleared: prices, executed volumes, acceptances, surpluses and the welfare are the published ones, limits and the volumes of blocks
those of the book."""

from collections.abc import Iterable, Iterator
from dataclasses import dataclass
from typing import NamedTuple

from . import trades
from .faults import FaultLine
from .results import Results, subject_fault
from .selection import Problem, Row


@dataclass
class PublishedDay:
    """Results as `trades` takes them."""

    problem: Problem
    published: Results


def sum_faults(problem: Problem, published: Results) -> Iterator[FaultLine]:
    """A fault for each sum that isn't as the laws say."""
    day = PublishedDay(problem, published)
    gains = list(trades.rows_and_surpluses(day))
    yield from volume_faults(day)
    yield from hourly_loss_faults(day, gains)
    yield from participant_loss_faults(day, gains)
    yield from welfare_sum_faults(day, gains)


def volume_faults(day: PublishedDay) -> Iterator[FaultLine]:
    """In each period, the bought volume is the sold one, and the period's volume; so at its one price payments are receipts."""
    for number, parts in trades.volume_shares(day).items():
        bought, sold = (sum(parts[kind, side] for kind in ("hour", "block")) for side in ("buy", "sell"))
        volume = day.published.volumes[number - 1]
        if not bought == sold == volume:
            words = f"period {number}: the orders buy {bought} and sell {sold}, and the volume is {volume}"
            yield subject_fault(words, "money", day.published, f"period {number}")


def hourly_loss_faults(day: PublishedDay, gains: Iterable[tuple[Row, int]]) -> Iterator[FaultLine]:
    for row, gain in gains:
        if row.order.kind == "hour" and gain < 0:
            about = f"hour {row}"
            yield subject_fault(f"{about}: at the price it loses {-gain} with its executed volume", "loss", day.published, about)


def participant_loss_faults(day: PublishedDay, gains: Iterable[tuple[Row, int]]) -> Iterator[FaultLine]:
    """The participants whose surpluses add up to less than 0, each at the line of the order that loses most."""
    own: dict[str, list[tuple[int, Row]]] = {}
    for row, gain in gains:
        own.setdefault(row.who, []).append((gain, row))
    for who, pairs in own.items():
        total = sum(gain for gain, _ in pairs)
        if total < 0:
            _, row = min(pairs, key=lambda pair: pair[0])
            about = f"{row.order.kind} {row}"
            yield subject_fault(f"{about}: {who} loses {-total} with all its orders, and most with this one", "loss", day.published, about)


def welfare_sum_faults(day: PublishedDay, gains: Iterable[tuple[Row, int]]) -> Iterator[FaultLine]:
    total = sum(gain for _, gain in gains)
    if day.published.welfare != total:
        words = f"the welfare is {day.published.welfare}, and the surpluses add up to {total}"
        yield subject_fault(words, "sum", day.published, "the welfare")


class Sums(NamedTuple):
    """Sums over the orders of a day, in cents per MWh times tenths of a MW."""

    paid: int
    received: int
    hourly_surplus: int
    block_surplus: int  # of the accepted blocks


def sums(problem: Problem, published: Results) -> Sums:
    day = PublishedDay(problem, published)
    totals = trades.totals(day).values()
    surpluses = {"hour": 0, "block": 0}
    for row, gain in trades.rows_and_surpluses(day):
        surpluses[row.order.kind] += gain
    return Sums(sum(total.paid for total in totals), sum(total.received for total in totals), surpluses["hour"], surpluses["block"])


def payments_line(problem: Problem, totals: Sums) -> str:
    """The payments of buyers and to sellers, in words, of right results."""
    paid, received = problem.euros_text(totals.paid), problem.euros_text(totals.received)
    return f"by adding: buyers pay {paid} EUR, sellers receive {received} EUR; the surpluses add up to the welfare, and nobody loses"
