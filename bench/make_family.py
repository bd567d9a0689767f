#!/usr/bin/env python3
"""Prints the journal of a closed day of 24 hours, with hourly orders and blocks. The families are hard in different ways for a search over
selections of blocks. Every run with the same arguments prints the same bytes.

market    hourly orders around a daily curve of prices, and blocks around it
paradox   blocks that gain alone and lose together, because each moves the price
spread    many small blocks with a wide spread of limits
nearties  blocks of nearly the same worth
links     deep families of linked blocks
groups    exclusive groups of blocks
ties      blocks that don't change the welfare, so that all selections are equally good"""

import argparse
import random
from collections.abc import Callable, Iterable, Iterator
from itertools import chain

from drawn_books import CLOSE, HOURS, MOST_BLOCKS, MOST_HOURLY, PARTICIPANTS, PERIODS_OF_HOUR, DayMarket, DrawnBook, Order, Volumes
from drawn_books import draw_side, hourly_order, number_up_to, print_day

Span = tuple[int, int]  # from the least to the greatest
SEED = 20_251_001
DEEP_HOURLY, THIN_HOURLY = (500, 4_000), 200


class FamilyMarket(DayMarket):
    """A day, and the generator of blocks over spans of its hours."""

    def draw_span(self, least: int, most: int) -> range:
        length = self.rng.randint(least, most)
        first = self.rng.randint(1, HOURS - length + 1)
        return self.periods_of(first, first + length)

    def draw_blocks(self, count: int, hours: Span, sizes: Span, above: Callable[[], float], side: str = "") -> Iterator[Order]:
        """Blocks over a span of this number of hours, with one volume and of this side, or of a random one; `above` draws by how much the
        limit is above the mean price."""
        for number in range(count):
            periods, size = self.draw_span(*hours), self.rng.randint(*sizes)
            volumes = dict.fromkeys(periods, size)
            price = round(self.mean_price(volumes) + above())
            yield block_of_alpha(number, side or draw_side(self.rng), price, volumes)


def block_of_alpha(number: int, side: str, price: int, volumes: Volumes) -> Order:
    return Order("ALPHA", f"BLOCK-{number}", "block", side, price, volumes)


def draw_hourly(day: FamilyMarket, number: int) -> Order:
    period = 1 + number % day.periods
    side = "buy" if (number // day.periods) % 2 == 0 else "sell"
    price = day.price_at(period) + round(day.rng.gauss(0, 1_500)) + (700 if side == "buy" else -700)
    return hourly_order(day.rng.choice(PARTICIPANTS), number, side, price, period, day.rng.randint(50, 500))


def flat_hourly(day: FamilyMarket, number: int) -> Order:
    """Of each period, one buy and one sell that leave much of both at 6,000 cents, and small ones that never matter."""
    period, rank = 1 + number % day.periods, number // day.periods
    side = "buy" if rank % 2 == 0 else "sell"
    price, volume = (6_000, 50_000) if rank < 2 else (1_000 if side == "buy" else 11_000, 1)
    return hourly_order("ALPHA", number, side, price, period, volume)


def draw_market(day: FamilyMarket, count: int, volume: int) -> Iterable[Order]:
    return day.draw_blocks(count, (4, 12), (volume // 2, volume), lambda: day.rng.gauss(0, 450))


def draw_paradox(day: FamilyMarket, count: int, volume: int) -> Iterable[Order]:
    return day.draw_blocks(count, (3, 12), (volume // 2, volume), lambda: -day.rng.uniform(0, 200), "sell")


def draw_spread(day: FamilyMarket, count: int, volume: int) -> Iterable[Order]:
    sizes = max(volume // 20, 1), max(volume // 4, 2)
    return day.draw_blocks(count, (2, 24), sizes, lambda: day.rng.uniform(-1_200, 1_200))


def draw_nearties(day: FamilyMarket, count: int, volume: int) -> Iterable[Order]:
    volumes = dict.fromkeys(day.periods_of(8, 21), volume // 4)
    price = round(day.mean_price(volumes)) - 300
    return [block_of_alpha(number, "sell", price + 20 * number, volumes) for number in range(count)]


def draw_links(day: FamilyMarket, count: int, volume: int) -> Iterable[Order]:
    for number, each in enumerate(draw_market(day, count, volume)):
        each.side, each.parent = "sell", f"BLOCK-{number - 1}" if number % 6 else ""
        yield each


def draw_groups(day: FamilyMarket, count: int, volume: int) -> Iterable[Order]:
    for number, each in enumerate(draw_market(day, count, 2 * volume)):
        each.group = f"GROUP-{number // 3}"
        yield each


def draw_ties(day: FamilyMarket, count: int, _volume: int) -> Iterable[Order]:
    return [block_of_alpha(number, "sell", 6_000, dict.fromkeys(day.draw_span(1, 6), 1)) for number in range(count)]


DRAWS = draw_market, draw_paradox, draw_spread, draw_nearties, draw_links, draw_groups, draw_ties
FAMILIES = {draw.__name__.removeprefix("draw_"): draw for draw in DRAWS}


def book_of_family(family: str, hourly: int, per_hour: int) -> DrawnBook:
    name = f"{family} {hourly:,}, {HOURS * per_hour} periods"
    return DrawnBook(name, family, "make_family.py", [family, *map(str, (hourly, MOST_BLOCKS, per_hour))])


DEEP = [book_of_family(family, hourly, per_hour) for family in FAMILIES for hourly in DEEP_HOURLY for per_hour in PERIODS_OF_HOUR]
THIN = [book_of_family(bond, THIN_HOURLY, per_hour) for bond in ("links", "groups") for per_hour in PERIODS_OF_HOUR]


def main() -> None:
    parser = argparse.ArgumentParser(description=__doc__, formatter_class=argparse.RawDescriptionHelpFormatter)
    parser.add_argument("family", metavar="FAMILY", choices=FAMILIES)
    parser.add_argument("hourly", type=number_up_to(MOST_HOURLY), help=f"the number of hourly orders, at most {MOST_HOURLY}")
    parser.add_argument("blocks", type=number_up_to(MOST_BLOCKS), nargs="?", default=MOST_BLOCKS, help="their number (default: %(default)s)")
    parser.add_argument("periods", metavar="PERIODS", type=int, choices=PERIODS_OF_HOUR, nargs="?", default=1, help="of an hour (default: 1)")
    given = parser.parse_args()
    day = FamilyMarket(given.periods, random.Random(f"{SEED} {given.family} {given.hourly}"))
    order = flat_hourly if given.family == "ties" else draw_hourly
    volume = max(given.hourly * 275 // day.periods // 20, 10)  # a tenth of that of one side of a period
    hourly = (order(day, number) for number in range(given.hourly))
    print_day(day.periods, chain(hourly, FAMILIES[given.family](day, given.blocks, volume), [CLOSE]))


if __name__ == "__main__":
    main()
