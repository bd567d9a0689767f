"""Code of the generators: orders, the market of a day, the books that they print, and the numbers of a command line."""

import argparse
import math
import random
from collections.abc import Callable, Iterable
from dataclasses import dataclass
from typing import NamedTuple

HOURS = 24
PERIODS_OF_HOUR = (1, 4)
MOST_BLOCKS, MOST_HOURLY = 24, 4_000  # the limits of a book
PARTICIPANTS = ["ALPHA", "BRAVO", "CHARLIE", "DELTA", "ECHO", "FOXTROT", "GOLF", "HOTEL"]
CLOSE = "close,,,,,,,,"
Volumes = dict[int, int]  # by the period or the hour


@dataclass
class Order:
    """An order, with its volume in each period. As text it is the record of its submit."""

    who: str
    name: str
    kind: str
    side: str
    price: int
    volumes: Volumes
    parent: str = ""
    group: str = ""

    def __str__(self) -> str:
        pairs = ";".join(f"{period}:{volume}" for period, volume in self.volumes.items())
        return f"submit,{self.who},{self.name},{self.kind},{self.side},{self.price},{pairs},{self.parent},{self.group}"


def hourly_order(who: str, number: int, side: str, price: int, period: int, volume: int) -> Order:
    return Order(who, f"HOUR-{number}", "hour", side, price, {period: volume})


def draw_side(rng: random.Random) -> str:
    return rng.choice(["buy", "sell"])


class DayMarket:
    """The periods of a day, of which each hour has as many, and the generator of its orders."""

    def __init__(self, per_hour: int, rng: random.Random) -> None:
        self.per_hour, self.rng = per_hour, rng
        self.periods = HOURS * per_hour

    def price_at(self, period: int) -> int:
        """The price around which the hourly orders of a period lie, in cents per MWh."""
        hour = 1 + (period - 1) // self.per_hour
        return round(6_000 + 2_500 * math.sin((hour - 7) * math.pi / 12))

    def mean_price(self, volumes: Volumes) -> float:
        """The mean price of the volumes of a block."""
        return sum(self.price_at(period) * volume for period, volume in volumes.items()) / sum(volumes.values())

    def periods_of(self, first: int, last: int) -> range:
        """The periods of these hours, without the last one."""
        return range(1 + self.per_hour * (first - 1), 1 + self.per_hour * (last - 1))


class DrawnBook(NamedTuple):
    """A book with the most blocks: its name, and the script and the arguments that print it."""

    name: str
    kind: str
    script: str
    words: list[str]
    note: str = ""  # a fact about the book that explains a long search


def print_day(periods: int, lines: Iterable[Order | str]) -> None:
    print(f"day,{periods},,,,,,,", *lines, sep="\n")


def number_up_to(most: int) -> Callable[[str], int]:
    """The type of an argument that is a number from 0 to this one."""

    def parse_number(word: str) -> int:
        if not (word.isascii() and word.isdecimal()) or int(word) > most:
            raise argparse.ArgumentTypeError(f"'{word}' isn't a number from 0 to {most}")
        return int(word)

    return parse_number
