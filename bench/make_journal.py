#!/usr/bin/env python3
"""make_journal.py [day | blocks]: prints a journal of 10,000 records: a day of 24 periods, hourly orders and cancels of 8 participants,
and a close; with `day` the close is replaced by another command. With `blocks` it prints a day of 100 periods and 10,000 commands, each
of them a block with a volume of five digits in every period: 9 MB of the 16,777,216 bytes that may be read, about as long as a written
journal gets. Every run with the same arguments prints the same bytes."""

import random
import sys
from collections.abc import Iterator

from drawn_books import CLOSE, HOURS, PARTICIPANTS, Order, draw_side, print_day

RECORDS, PERIODS_OF_BLOCKS = 10_000, 100
# Of a hundred commands, how many submit a new order and how many cancel one; the book refuses the rest.
SUBMITS, CANCELS = 62, 33


def draw_hour_order(who: str, name: str, rng: random.Random) -> Order:
    side, price = draw_side(rng), rng.randint(-5_000, 30_000)
    return Order(who, name, "hour", side, price, {rng.randint(1, HOURS): rng.randint(1, 5_000)})


def draw_commands(count: int, rng: random.Random) -> Iterator[Order | str]:
    standing, made = list[tuple[str, str]](), 0
    for _ in range(count):
        draw = rng.randrange(100)
        if draw < SUBMITS or not standing:
            made += 1
            standing.append((rng.choice(PARTICIPANTS), f"ORDER-{made}"))
            yield draw_hour_order(*standing[-1], rng)
        elif draw < SUBMITS + CANCELS:
            who, name = standing.pop(rng.randrange(len(standing)))
            yield f"cancel,{who},{name},,,,,,"
        elif draw % 2 == 0:
            yield draw_hour_order(*rng.choice(standing), rng)
        else:
            yield f"cancel,{rng.choice(PARTICIPANTS)},NEVER-{made},,,,,,"


def draw_blocks(count: int, rng: random.Random) -> Iterator[Order]:
    for number in range(count):
        volumes = {period: rng.randint(10_000, 99_999) for period in range(1, PERIODS_OF_BLOCKS + 1)}
        who, side = rng.choice(PARTICIPANTS), draw_side(rng)
        yield Order(who, f"BLOCK-{number}", "block", side, rng.randint(10_000, 99_999), volumes)


def main() -> None:
    rng = random.Random(20_240_601)
    match sys.argv[1:]:
        case []:
            print_day(HOURS, [*draw_commands(RECORDS - 2, rng), CLOSE])
        case ["day"]:
            print_day(HOURS, draw_commands(RECORDS - 1, rng))
        case ["blocks"]:
            print_day(PERIODS_OF_BLOCKS, draw_blocks(RECORDS, rng))
        case _:
            sys.exit(__doc__)


if __name__ == "__main__":
    main()
