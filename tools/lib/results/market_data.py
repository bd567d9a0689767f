"""The data that others publish of a day: the aggregated curves of its periods and its figures; and long forms of the tables."""

import math
from collections.abc import Iterable, Iterator
from fractions import Fraction

from ..base import clock, rules, text
from . import sums, trades
from .trades import PublishedDay

Cells = list[str | int | float]  # of a row of a table

# The hours of a day, by the clock, whose mean price is the peak price.
PEAK = 8 * 60, 20 * 60


def curve_steps(day: PublishedDay, number: int, side: str) -> Iterator[tuple[str, int, int]]:
    """The curve of a side in a period: the volume of its accepted blocks, which has no price of its own and so stands at the limit of
    the range, and then its hourly orders by price, the best first. Each as a part, a price and a volume."""
    blocks = sum(volume for at, volume in volumes_of_accepted_blocks(day, side) if at == number)
    if blocks:
        yield "blocks", rules.HIGHEST_PRICE if side == "buy" else rules.LOWEST_PRICE, blocks
    merged: dict[int, int] = {}
    for of, limit, volume in day.problem.orders[number]:
        if of == side:
            merged[limit] = merged.get(limit, 0) + volume
    for limit in sorted(merged, reverse=side == "buy"):
        yield "hourly", limit, merged[limit]


def volumes_of_accepted_blocks(day: PublishedDay, side: str) -> Iterator[tuple[int, int]]:
    """Pairs of a period and a volume in it: those of each accepted block of a side."""
    for place in day.published.accepted:
        order = day.problem.blocks[place].order
        if order.side == side:
            yield from order.volumes


def curve_rows(day: PublishedDay) -> Iterator[Cells]:
    """A row for each step of the demand and the supply of each period, and one for the point at which it is cleared."""
    yield ["period", "curve", "part", "price_eur_mwh", "from_mw", "to_mw"]
    for number in day.problem.orders:
        for curve, side in (("demand", "buy"), ("supply", "sell")):
            end = 0
            for part, limit, volume in curve_steps(day, number, side):
                yield [number, curve, part, text.eur_per_mwh(limit), text.mw(end), text.mw(end + volume)]
                end += volume
        if trades.is_traded(day, number):
            traded = text.mw(day.published.volumes[number - 1])
            yield [number, "clearing", "", text.eur_per_mwh(day.published.prices[number - 1]), traded, traded]


def is_peak(periods: int, number: int) -> bool:
    return PEAK[0] <= clock.begin_minute(periods, number) < PEAK[1]


def mean(prices: Iterable[int]) -> int | None:
    """The mean of prices in cents, rounded to a cent."""
    prices = list(prices)
    return round_half_up(Fraction(sum(prices), len(prices))) if prices else None


def round_half_up(value: Fraction) -> int:
    return math.floor(value + Fraction(1, 2))


def mean_prices(day: PublishedDay) -> dict[str, int | None]:
    """The mean prices of a day by their names, in cents, over the periods in which something is traded."""
    prices = {number: day.published.prices[number - 1] for number in trades.traded_periods(day)}
    volumes = {number: day.published.volumes[number - 1] for number in prices}
    periods = day.problem.periods
    weighted = sum(price * volumes[number] for number, price in prices.items())
    return {
        "base": mean(prices.values()),
        "peak": mean(price for number, price in prices.items() if is_peak(periods, number)),
        "off_peak": mean(price for number, price in prices.items() if not is_peak(periods, number)),
        "by_volume": round_half_up(Fraction(weighted, sum(volumes.values()))) if prices else None,
        "least": min(prices.values(), default=None),
        "greatest": max(prices.values(), default=None),
    }


def figure_rows(day: PublishedDay) -> Iterator[Cells]:
    yield ["figure", "unit", "value"]
    yield ["welfare", "EUR", text.eur(day.published.welfare, day.problem.hours, "")]
    yield ["energy", "MWh", text.energy(sum(day.published.volumes), day.problem.hours, "")]
    yield ["traded_periods", "", len(trades.traded_periods(day))]
    for name, price in mean_prices(day).items():
        yield [f"{name}_price", "EUR/MWh", "" if price is None else text.eur_per_mwh(price)]
    for name, amount in sums.sums(day.problem, day.published)._asdict().items():
        yield [name, "EUR", text.eur(amount, day.problem.hours, "")]


def long_period_rows(rows: Iterator[Cells]) -> Iterator[Cells]:
    """The periods' table with a row for each of its numbers."""
    heads = [str(head) for head in next(rows)]
    kept = [at for at, head in enumerate(heads) if head.endswith(("_eur_mwh", "_mw"))]
    yield ["period", "traded", "quantity", "value"]
    for row in rows:
        for at in kept:
            if row[at] != "":
                yield [row[0], row[heads.index("traded")], heads[at], row[at]]


def long_order_rows(day: PublishedDay, kind: str | None = None) -> Iterator[Cells]:
    """A row for each period of each order, or of each block."""
    heads = ["participant", "order", "kind", "side", "limit_eur_mwh", "period", "offered_mw", "executed_mw", "price_eur_mwh"]
    yield [*heads, "amount_eur"]
    for row, made in trades.rows_and_trades(day):
        executed = {trade.period: trade for trade in made}
        for number, offered in row.order.volumes:
            if kind in (None, row.order.kind):
                trade = executed.get(number)
                amount = 0 if trade is None else trade.amount() * (1 if trade.side == "sell" else -1)
                order: Cells = [row.who, row.name, row.order.kind, row.order.side, text.eur_per_mwh(row.order.price), number]
                volumes = [text.mw(offered), text.mw(trade.volume if trade else 0)]
                price = text.eur_per_mwh(day.published.prices[number - 1]) if trades.is_traded(day, number) else ""
                yield [*order, *volumes, price, text.eur(amount, day.problem.hours, "")]


def long_participant_rows(day: PublishedDay) -> Iterator[Cells]:
    """A row for each period in which a participant trades."""
    yield ["participant", "period", "bought_mw", "sold_mw", "paid_eur", "received_eur"]
    found: dict[tuple[str, int], list[int]] = {}
    for _, made in trades.rows_and_trades(day):
        for trade in made:
            sums = found.setdefault((trade.who, trade.period), [0, 0, 0, 0])
            sums[trade.side == "sell"] += trade.volume
            sums[2 + (trade.side == "sell")] += trade.amount()
    for (who, number), sums in sorted(found.items()):
        amounts = [text.eur(amount, day.problem.hours, "") for amount in sums[2:]]
        yield [who, number, *map(text.mw, sums[:2]), *amounts]
