"""Days at the limits of a book, drawn at random, in six markets: hourly orders and blocks, and commands that change them."""

import math
import random
from typing import NamedTuple

from shared import days
from lib.base import rules

PARTICIPANTS = ["A", "BRAVO", "CHARLIE", "DELTA", "ECHO", "FOXTROT", "GOLF", "PARTICIP"]
LEVEL = 6_000  # the mean price of a day, in cents per MWh
CROWDED = 18  # the period of all orders of a crowded market


class FullMarket(NamedTuple):
    """The hourly orders of a day, and the blocks: the limits of both are at most so far from the price, in cents."""

    hourly: int  # how many; 0 for two of each side in a period
    volumes: tuple[int, int]  # of hourly orders, in tenths of a MW
    far: int
    blocks: tuple[int, int]  # the volumes of blocks
    near: int
    swing: int = 1_500  # by which the price of a period differs from the mean
    is_crowded: bool = False  # whether all hourly orders are in one period


MARKETS = {
    "deep": FullMarket(rules.MOST_HOURLY, (50, 399), 2_000, (20, 119), 50),
    "thin": FullMarket(rules.MOST_HOURLY, (1, 9), 2_000, (10, 39), 100),
    "few": FullMarket(0, (50, 399), 2_000, (1, 40), 100),
    "level": FullMarket(rules.MOST_HOURLY, (500, 999), 0, (10, 60), 0, swing=0),
    "large": FullMarket(rules.MOST_HOURLY, (50, 399), 2_000, (500, 1_999), 50),
    "crowded": FullMarket(rules.MOST_HOURLY, (1, 99), 2_000, (50, 999), 0, is_crowded=True),
}
BONDS = ["free", "links", "groups", "both"]


class Size(NamedTuple):
    """The most orders and commands: a book's and a journal's limits, unless a test makes them smaller."""

    hourly: int
    blocks: int
    commands: int


class FullDay:
    """A day in the making: its submits, and how its orders are drawn."""

    def __init__(self, rng: random.Random, periods: int, market: str, size: Size, is_flat: bool, bonds: str) -> None:
        self.rng, self.periods, self.market, self.is_flat = rng, periods, MARKETS[market], is_flat
        count = min(self.market.hourly or 4 * periods, size.hourly)
        self.is_full = count == rules.MOST_HOURLY
        self.submits = [self.draw_hour(number) for number in range(count)]
        self.submits += [self.draw_block(number, bonds) for number in range(size.blocks)]

    def price_at(self, period: int) -> int:
        return LEVEL + round(self.market.swing * math.sin(2 * math.pi * period / self.periods))

    def draw_around(self, price: int, width: int) -> int:
        return price + self.rng.randint(-width, width)

    def draw_hour(self, number: int) -> str:
        """The record of an hourly order. The names have from 1 to 12 bytes."""
        at, period = divmod(number, self.periods)
        at, period = (number, CROWDED - 1) if self.market.is_crowded else (at, period)
        period, side = period + 1, "sell" if at % 2 else "buy"
        who, name = PARTICIPANTS[number % len(PARTICIPANTS)], f"H{number}" if number % 3 else f"HOURLY-{number:05}"
        return f"submit,{who},{name if number else 'H'},hour,{side},{self.draw_limit(period)},{self.draw_volume(period)},,"

    def draw_limit(self, period: int) -> int:
        return self.draw_around(self.price_at(period), self.market.far)

    def draw_volume(self, period: int) -> str:
        return f"{period}:{self.rng.randint(*self.market.volumes)}"

    def draw_block(self, number: int, bonds: str) -> str:
        bundle, place = divmod(number, 4)
        parent = group = ""
        if bonds == "links" and place:
            parent = f"K{4 * bundle + self.rng.randrange(place)}"
        if bonds == "both" and place:
            parent = f"K{4 * bundle}"
        if bonds == "groups" or bonds == "both" and place:
            group = f"GROUP-{bundle}"
        side, (price, volumes) = self.rng.choice(["buy", "sell"]), self.draw_offer()
        return f"submit,{PARTICIPANTS[bundle % len(PARTICIPANTS)]},K{number},block,{side},{price},{volumes},{parent},{group}"

    def draw_offer(self) -> tuple[int, str]:
        """A limit price near the mean price of the volumes, and these."""
        one = self.rng.randint(*self.market.blocks)
        periods = [CROWDED] if self.market.is_crowded else range(1, self.periods + 1)
        volumes = {period: one if self.is_flat else self.rng.randint(*self.market.blocks) for period in periods}
        mean = sum(self.price_at(period) * volume for period, volume in volumes.items()) / sum(volumes.values())
        return self.draw_around(round(mean), self.market.near), ";".join(f"{period}:{volume}" for period, volume in volumes.items())

    def draw_amend(self, submit: str) -> str:
        """A record that changes the limit and the volumes of this submit's order."""
        _, who, name, kind, _, _, volumes, *_ = submit.split(",")
        if kind == "block":
            price, volumes = self.draw_offer()
        else:
            period = int(volumes.partition(":")[0])
            price, volumes = self.draw_limit(period), self.draw_volume(period)
        return f"amend,{who},{name},,,{price},{volumes},,"

    def draw_change(self, submit: str) -> list[str]:
        """Commands that change this submit's order, or that the book refuses; the number of orders stays the same."""
        kind, is_hour = self.rng.random(), ",hour," in submit
        if kind < 0.6:
            return [self.draw_amend(submit)]
        if kind < 0.9 and is_hour:
            _, who, name, *_ = submit.split(",")
            return [f"cancel,{who},{name},,,,,,", submit]
        # The name is taken, or there is no place for another hourly order.
        return [submit.replace(",H", ",X", 1) if self.is_full else submit]

    def draw_commands(self, count: int) -> list[str]:
        """This number of commands before the close: the submits in any order, changes, and the blocks again, of which some were refused
        because their parent came later."""
        hours, blocks = ([submit for submit in self.submits if kind in submit] for kind in (",hour,", ",block,"))
        lines, last = list(self.submits), count - len(blocks)
        self.rng.shuffle(lines)
        while len(lines) < last:
            change = self.draw_change(self.rng.choice(hours if self.rng.random() < 0.95 else blocks))
            if len(lines) + len(change) <= last:
                lines += change
        return lines + blocks

    def draw_text(self, count: int | None = None) -> bytes:
        """The journal of the day; with this number of commands, if it is given."""
        lines = self.submits if count is None else self.draw_commands(count - 1)
        return days.text_of_lines([f"day,{self.periods},,,,,,,", *lines, "close,,,,,,,,"])
