"""The clearing of one period: its supporting prices, its price and its best execution, for a net volume of the accepted
blocks. Orders are in book order."""

import functools
from collections.abc import Callable, Iterable, Iterator
from typing import NamedTuple

from ..base import rules


class Hourly(NamedTuple):
    side: str
    limit: int
    volume: int


Orders = tuple[Hourly, ...]


class Clearing(NamedTuple):
    low: int  # the least and the greatest supporting price
    high: int
    price: int
    case: str  # of the rule for the price
    executed: tuple[int, ...]  # of each order
    welfare: int  # of the hourly orders


def volume(orders: Orders, side: str, holds: Callable[[int], bool]) -> int:
    """The volume of the orders of a side whose limit price passes a test."""
    return sum(quantity for of, limit, quantity in orders if of == side and holds(limit))


def sells_too_little(orders: Orders, net: int, price: int) -> bool:
    """At the price even all sells that it admits, with the net volume, are less than the buys that it demands."""
    admitted = volume(orders, "sell", lambda limit: limit <= price)
    return admitted + net < volume(orders, "buy", lambda limit: limit > price)


def sells_too_much(orders: Orders, net: int, price: int) -> bool:
    """At the price the sells that it demands, with the net volume, are more than all buys that it admits."""
    demanded = volume(orders, "sell", lambda limit: limit < price)
    return demanded + net > volume(orders, "buy", lambda limit: limit >= price)


def least_that_holds(least: int, greatest: int, holds: Callable[[int], bool]) -> int:
    """The first number from `least` to `greatest` for which something holds, if it then holds for all that follow; else the
    one after `greatest`."""
    greatest += 1
    while least < greatest:
        middle = (least + greatest) // 2
        if holds(middle):
            greatest = middle
        else:
            least = middle + 1
    return least


def supporting_prices(orders: Orders, net: int) -> tuple[int, int] | None:
    """The least and the greatest supporting price; None if no execution balances.

    A price supports a balanced execution exactly if it sells neither too little nor too much, for each volume between
    its demanded and its admitted volume can be had. As the price grows it only ever sells more and buys less, so that a price
    is supporting from where it no longer sells too little to where it doesn't sell too much yet."""
    bounds = rules.LOWEST_PRICE, rules.HIGHEST_PRICE
    low = least_that_holds(*bounds, lambda price: not sells_too_little(orders, net, price))
    high = least_that_holds(*bounds, lambda price: sells_too_much(orders, net, price)) - 1
    return (low, high) if low <= high else None


def is_better(order: Hourly, price: int) -> bool:
    side, limit, _ = order
    return limit > price if side == "buy" else limit < price


def volumes_at_price(orders: Orders, side: str, price: int, total: int) -> Iterator[tuple[int, int]]:
    """Gives a total volume to the orders of a side at the price, in book order: pairs of a place and a volume."""
    for place, (of, limit, quantity) in enumerate(orders):
        if of == side and limit == price:
            yield place, min(quantity, total)
            total -= min(quantity, total)


def executed_volumes(orders: Orders, net: int, price: int) -> tuple[int, ...]:
    """The executed volume of each order, at a supporting price.

    Each execution that the price supports has the greatest welfare. Of these the one that buys most lets the orders at the
    price buy all that may be sold, and the earlier order comes before the later one."""
    executed = [order[2] if is_better(order, price) else 0 for order in orders]
    bought = volume(orders, "buy", lambda limit: limit > price)
    sold = volume(orders, "sell", lambda limit: limit < price)
    buying = volume(orders, "buy", lambda limit: limit == price)
    selling = volume(orders, "sell", lambda limit: limit == price)
    buying = min(buying, sold + selling + net - bought)
    selling = bought + buying - net - sold
    for side, total in (("buy", buying), ("sell", selling)):
        for place, quantity in volumes_at_price(orders, side, price, total):
            executed[place] = quantity
    return tuple(executed)


def welfare(orders: Orders, executed: Iterable[int]) -> int:
    """Limit times volume over buys, less the same over sells."""
    return sum(
        limit * quantity if side == "buy" else -limit * quantity for (side, limit, _), quantity in zip(orders, executed)
    )


@functools.lru_cache(maxsize=1_000)
def clear(orders: Orders, net: int) -> Clearing | None:
    """The clearing of a period; None if no execution balances."""
    ends = supporting_prices(orders, net)
    if ends is None:
        return None
    price, case = rules.price_and_case(*ends)
    executed = executed_volumes(orders, net, price)
    return Clearing(*ends, price, case, executed, welfare(orders, executed))
