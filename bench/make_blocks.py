#!/usr/bin/env python3
"""Prints the journal of a closed day of 24 hours with blocks as users have them, whose limits are within SPREAD cents of the mean price of
their delivery, and with hourly orders. A market is thin with 1,500 hourly orders or fewer: then each block moves the prices. Every run with
the same arguments prints the same bytes.

base    baseload: one volume over the whole day
peaks   by turns base, peak (hours 9 to 20) and night (the other hours), with one volume each
shaped  over the whole day, with a volume for each hour that rises and falls once
odd     baseload, but one block with a random volume in each period
random  a random volume in each period
mixed   by turns base, peak, night and a span of hours, with one volume each; every second span has a volume for each hour
wide    a random volume in each period, and each block of another size; in each period large hourly orders of both sides at one price

BONDS tie the blocks of a book together, whose volumes and limits stay the same. Blocks that are tied have one participant.

free    no block is tied to another one; the default
links   bundles of six: each block but the first has an earlier one of its bundle as its parent
groups  of each three blocks at most one is accepted
both    bundles of four: of three blocks at most one is accepted, and the fourth is their parent"""

import argparse
import math
import random
from collections.abc import Callable, Collection, Iterator

from drawn_books import CLOSE, HOURS, MOST_BLOCKS, MOST_HOURLY, PARTICIPANTS, PERIODS_OF_HOUR, DayMarket, DrawnBook, Order, Volumes
from drawn_books import draw_side, hourly_order, number_up_to, print_day

USUAL_HOURLY, USUAL_SPREAD = 3_800, 50
AROUND = 2_000  # by how many cents the limit of an hourly order differs from the price at most
HOURLY_VOLUMES, BLOCK_VOLUMES = (50, 399), (20, 119)  # from the least to the greatest, in tenths of a MW
LEVEL, LEVEL_VOLUMES = 6_000, (5_000, 8_999)  # the one price of the hourly orders of a wide book, in cents, and their volumes
LEAST_WIDE, MOST_WIDE = 10, (60, 300)  # the least volume of a wide block, and between which two its greatest lies
ALL = range(1, HOURS + 1)
PEAK = range(9, 21)
NIGHT = [hour for hour in ALL if hour not in PEAK]
BY_TURNS = [ALL, PEAK, NIGHT]


class BlockMarket(DayMarket):
    """A day, and the generator of its hourly orders and of the volumes of its blocks."""

    def draw_hourly(self, number: int) -> Order:
        period, side = 1 + number % self.periods, draw_side(self.rng)
        price = self.price_at(period) + self.rng.randint(-AROUND, AROUND)
        volume = self.rng.randint(*HOURLY_VOLUMES)
        return hourly_order(self.rng.choice(PARTICIPANTS), number, side, price, period, volume)

    def draw_volume(self) -> int:
        return self.rng.randint(*BLOCK_VOLUMES)

    def volumes_by_period(self, volumes: Volumes) -> Volumes:
        """The volumes of a block whose volume in each hour is given."""
        return {period: volume for hour, volume in volumes.items() for period in self.periods_of(hour, hour + 1)}

    def draw_flat(self, hours: Collection[int]) -> Volumes:
        return self.volumes_by_period(dict.fromkeys(hours, self.draw_volume()))

    def draw_shaped(self) -> Volumes:
        """Volumes that rise and fall once in a day, by up to six tenths of their mean."""
        mean, highest, share = self.draw_volume(), self.rng.uniform(0, HOURS), self.rng.uniform(0.2, 0.6)
        wave = {hour: math.cos((hour - highest) * 2 * math.pi / HOURS) for hour in ALL}
        return self.volumes_by_period({hour: round(mean * (1 + share * height)) for hour, height in wave.items()})

    def draw_noise(self, volumes: tuple[int, int] = BLOCK_VOLUMES) -> Volumes:
        return {period: self.rng.randint(*volumes) for period in range(1, self.periods + 1)}

    def draw_hours(self, by_hour: bool) -> Volumes:
        """A span of hours, with one volume or with a volume for each hour."""
        hours = range(*sorted(self.rng.sample(range(1, HOURS + 2), 2)))
        return self.volumes_by_period({hour: self.draw_volume() for hour in hours}) if by_hour else self.draw_flat(hours)


class LevelMarket(BlockMarket):
    """A day of which every period has the same price, with a buy and a sell by turns."""

    def price_at(self, _period: int) -> int:
        return LEVEL

    def draw_hourly(self, number: int) -> Order:
        period, side = 1 + number % self.periods, "sell" if number // self.periods % 2 else "buy"
        return hourly_order(self.rng.choice(PARTICIPANTS), number, side, LEVEL, period, self.rng.randint(*LEVEL_VOLUMES))


def draw_mixed(day: BlockMarket, number: int) -> Volumes:
    turn = number % 4
    return day.draw_flat(BY_TURNS[turn]) if turn < 3 else day.draw_hours(by_hour=number % 8 == turn)


# The volumes of a day's block, by its number.
USUAL_KINDS: dict[str, Callable[[BlockMarket, int], Volumes]] = {
    "base": lambda day, number: day.draw_flat(ALL),
    "peaks": lambda day, number: day.draw_flat(BY_TURNS[number % 3]),
    "shaped": lambda day, number: day.draw_shaped(),
    "odd": lambda day, number: day.draw_noise() if number == MOST_BLOCKS // 2 else day.draw_flat(ALL),
    "random": lambda day, number: day.draw_noise(),
}
WIDE = "wide"
KINDS = {**USUAL_KINDS, "mixed": draw_mixed, WIDE: lambda day, number: day.draw_noise((LEAST_WIDE, day.rng.randint(*MOST_WIDE)))}


def iterate_bundles_with_one_participant(blocks: list[Order], size: int) -> Iterator[tuple[int, list[Order]]]:
    """Yields the blocks by bundles of this size, each with its number, and gives them the participant of its first block."""
    for first in range(0, len(blocks), size):
        bundle = blocks[first : first + size]
        for block in bundle:
            block.who = bundle[0].who
        yield first // size, bundle


def set_links(blocks: list[Order], rng: random.Random) -> None:
    for _, bundle in iterate_bundles_with_one_participant(blocks, 6):
        for place, block in enumerate(bundle[1:], 1):
            block.parent = rng.choice(bundle[:place]).name


def set_groups(blocks: list[Order], _rng: random.Random) -> None:
    for number, bundle in iterate_bundles_with_one_participant(blocks, 3):
        for block in bundle:
            block.group = f"GROUP-{number}"


def set_links_and_groups(blocks: list[Order], _rng: random.Random) -> None:
    for number, (parent, *children) in iterate_bundles_with_one_participant(blocks, 4):
        for block in children:
            block.parent, block.group = parent.name, f"GROUP-{number}"


FREE = "free"
Bond = Callable[[list[Order], random.Random], None]
BONDS: dict[str, Bond] = {FREE: lambda blocks, rng: None, "links": set_links, "groups": set_groups, "both": set_links_and_groups}


def book_of_kind(kind: str, spread: int, seed: int, per_hour: int, hourly: int = USUAL_HOURLY, bonds: str = FREE) -> DrawnBook:
    told = f", {bonds}" if bonds != FREE else ""
    told += f", {hourly:,} orders" if hourly != USUAL_HOURLY else ""
    return DrawnBook(
        name=f"{kind} {HOURS * per_hour}{told}, spread {spread:,}, seed {seed}",
        kind=kind,
        script="make_blocks.py",
        words=[kind, *map(str, (spread, seed, per_hour, MOST_BLOCKS, hourly)), bonds],
        note="a subset sum of equal limits" if spread == 0 and kind in ("base", "odd") else "",
    )


# Deep markets: realistic books, of each seed for the usual spread; mixed ones; and wide ones with two orders of each side in a period, or
# with many.
SPREADS, SEEDS, FEW_HOURLY = (5, 50, 300, 1_000), (1, 2, 3), {1: 96, 4: 384}
DEEP = [
    book_of_kind(kind, spread, seed, per_hour)
    for kind in USUAL_KINDS
    for per_hour in PERIODS_OF_HOUR
    for spread in SPREADS
    for seed in (SEEDS if spread == USUAL_SPREAD else SEEDS[:1])
]
DEEP += [book_of_kind("mixed", spread, 1, per_hour) for per_hour in PERIODS_OF_HOUR for spread in (20, 50)]
DEEP += [
    book_of_kind(WIDE, spread, 1, per_hour, orders)
    for per_hour, few in FEW_HOURLY.items()
    for spread, orders in ((0, few), (50, few), (0, USUAL_HOURLY))
]
# Thin markets: the spreads take turns, so that each kind has each of them on each length of a day.
THIN_HOURLY, THIN_SPREADS = (200, 500, 1_500), (0, 20, 50)
THIN = [
    book_of_kind(kind, THIN_SPREADS[(kinds + lengths + turn) % len(THIN_SPREADS)], 1, per_hour, orders)
    for kinds, kind in enumerate(USUAL_KINDS)
    for lengths, per_hour in enumerate(PERIODS_OF_HOUR)
    for turn, orders in enumerate(THIN_HOURLY)
]
# One of equal limits, so that a search looks for a sum of volumes, and one that took more than 30 s while bounds came from tables.
THIN += [book_of_kind("odd", 0, 2, 4, 500), book_of_kind("base", 20, 6, 4, 1_500)]
# The thin markets that took a search longest, of 2,575 that were drawn at random: by number of orders, spread and seed.
ODD = {1_000: [(0, 249)], 800: [(0, 285)], 300: [(0, 242)]}
RANDOM = {500: [(200, 686), (5, 30), (5, 284), (50, 347), (0, 109), (5, 752)], 800: [(300, 1)]}
THIN += [
    book_of_kind(kind, *drawn, 4, orders)
    for kind, found in (("odd", ODD), ("random", RANDOM))
    for orders, each in found.items()
    for drawn in each
]
# Thin markets with tied blocks.
THIN += [book_of_kind("base", 20, 1, per_hour, orders, bonds) for bonds in list(BONDS)[1:] for per_hour, orders in ((1, 200), (4, 500))]


def draw_block(day: BlockMarket, kind: str, spread: int, number: int) -> Order:
    volumes = KINDS[kind](day, number)
    price = round(day.mean_price(volumes)) + day.rng.randint(-spread, spread)
    side, who = draw_side(day.rng), day.rng.choice(PARTICIPANTS)
    return Order(who, f"BLOCK-{number}", "block", side, price, volumes)


def parse_arguments() -> argparse.Namespace:
    parser = argparse.ArgumentParser(description=__doc__, formatter_class=argparse.RawDescriptionHelpFormatter)
    parser.add_argument("kind", metavar="KIND", choices=KINDS)
    parser.add_argument("spread", type=number_up_to(10_000), help="of the blocks' limits around the mean price, in cents")
    parser.add_argument("seed", type=number_up_to(1_000_000))
    parser.add_argument("periods", metavar="PERIODS", type=int, choices=PERIODS_OF_HOUR, nargs="?", default=1, help="of an hour (default: 1)")
    parser.add_argument("blocks", type=number_up_to(MOST_BLOCKS), nargs="?", default=MOST_BLOCKS, help="their number (default: %(default)s)")
    parser.add_argument("hourly", type=number_up_to(MOST_HOURLY), nargs="?", default=USUAL_HOURLY, help="orders (default: %(default)s)")
    parser.add_argument("bonds", metavar="BONDS", choices=BONDS, nargs="?", default=FREE)
    return parser.parse_args()


def main() -> None:
    given = parse_arguments()
    drawn = f"{given.kind} {given.spread} {given.seed} {given.periods}"
    day = (LevelMarket if given.kind == WIDE else BlockMarket)(given.periods, random.Random(drawn))
    hourly = [day.draw_hourly(number) for number in range(given.hourly)]
    blocks = [draw_block(day, given.kind, given.spread, number) for number in range(given.blocks)]
    BONDS[given.bonds](blocks, random.Random(f"{drawn} {given.bonds}"))
    print_day(day.periods, [*hourly, *blocks, CLOSE])


if __name__ == "__main__":
    main()
