"""Days of each shape, with commands of each kind and for each refusal: on short and long days, with short and long names, and with volumes
in one period or in each."""

import itertools
from collections.abc import Iterator
from typing import NamedTuple

from lib.base import rules

from .records import volumes_text

HOURS, BLOCKS = 100, rules.MOST_BLOCKS - 4  # of a book before the commands that are counted
COMMANDS = 400
SIDES = ["buy", "sell"]


class Shape(NamedTuple):
    """A day's number of periods, the participant, the names, and the volumes of blocks and amends."""

    periods: int
    who: str
    name: str  # with a number in it
    is_wide: bool

    def name_of(self, number: int) -> str:
        return self.name % number

    def volumes(self, volume: int = 7) -> str:
        return volumes_text(self.periods if self.is_wide else 1, lambda period: volume + period % 3)

    def submit_of_hour(self, number: int, cents: int = 5_000, name: str | None = None) -> str:
        side, period = SIDES[number % 2], 1 + number % self.periods
        return f"submit,{self.who},{name or self.name_of(number)},hour,{side},{cents + number % 50},{period}:{5 + number % 9},,\n"

    def submit_of_block(
        self, number: int, cents: int = 4_900, name: str | None = None, parent: str = "", group: str = "", volumes: str | None = None
    ) -> str:
        side = SIDES[(number + 1) % 2]
        found = name or self.name_of(9_000 + number)
        return f"submit,{self.who},{found},block,{side},{cents + number % 200},{volumes or self.volumes()},{parent},{group}\n"

    def amend_of(self, name: str, cents: int, volumes: str) -> str:
        return f"amend,{self.who},{name},,,{cents},{volumes},,\n"

    def cancel_of(self, name: str) -> str:
        return f"cancel,{self.who},{name},,,,,,\n"

    def submits_of_book(self, hours: int = HOURS) -> Iterator[str]:
        """The submits of a book: hourly orders, and blocks, of which every second one is a child of the one before, in one group."""
        yield from (self.submit_of_hour(number if number < HOURS else 1_000_000 + number) for number in range(hours))
        for number in range(BLOCKS):
            parent = self.name_of(9_000 + number - 1) if number % 2 else ""
            yield self.submit_of_block(number, parent=parent, group="G" if number % 2 else "")


SHORT, LONG = Shape(24, "A", "%X", False), Shape(100, "PARTICIP", "NAME-%07d", True)
OTHERS = [Shape(periods, "BRAVO", "N-%d", periods % 2 == 0) for periods in rules.DAYS if periods not in (24, 100)]


def named_commands(shape: Shape) -> Iterator[tuple[str, Iterator[str]]]:
    """Yields a name and an endless list of commands for each kind of accepted command, and each reason for a refusal but those of a full
    book and of one that is closed."""
    hours, blocks, one = range(HOURS), range(BLOCKS), "1:9"
    hour, free = shape.name_of(0), shape.name_of(9_000 + BLOCKS + 1)
    beyond = f"{rules.GREATEST_PERIOD}:1"
    yield "hourly orders", (shape.submit_of_hour(number) for number in itertools.count(1_000))
    yield "hourly orders amended", (
        shape.amend_of(shape.name_of(at % HOURS), at, f"{1 + at % shape.periods}:{1 + at % 99}") for at in itertools.count()
    )
    yield "hourly orders cancelled and submitted", (
        line for at in itertools.cycle(hours) for line in (shape.cancel_of(shape.name_of(at)), shape.submit_of_hour(at))
    )
    yield "blocks amended", (shape.amend_of(shape.name_of(9_000 + at), 4_000 + at, shape.volumes(at + 1)) for at in itertools.cycle(blocks))
    yield "blocks submitted and cancelled", (
        line
        for at in itertools.count()
        for line in (shape.submit_of_block(at, name=free, parent=shape.name_of(9_000 + at % BLOCKS), group="G"), shape.cancel_of(free))
    )
    if shape.periods < rules.GREATEST_PERIOD:
        yield "PeriodOutOfDay", itertools.cycle(
            [
                shape.submit_of_block(0, name=free, volumes=beyond),
                shape.amend_of(hour, 1, beyond),
                f"submit,{shape.who},{free},hour,buy,1,{beyond},,\n",
            ]
        )
    yield "NameTaken", itertools.cycle([shape.submit_of_hour(1, name=hour), shape.submit_of_block(1, name=shape.name_of(9_001))])
    yield "UnknownOrder", itertools.cycle([shape.amend_of(free, 1, shape.volumes()), shape.cancel_of(free)])
    several = volumes_text(shape.periods if shape.is_wide else 2, lambda period: period)
    yield "WrongShape", itertools.cycle([shape.amend_of(hour, 1, several)])
    yield "UnknownParent", itertools.cycle([shape.submit_of_block(1, name=free, parent=shape.name_of(8_000), group="G")])
    yield "ParentNotBlock", itertools.cycle([shape.submit_of_block(1, name=free, parent=hour)])
    yield "HasChildren", itertools.cycle([shape.cancel_of(shape.name_of(9_000 + at)) for at in blocks if at % 2 == 0])
    yield "a command of each kind", itertools.cycle(
        [
            shape.amend_of(hour, 1, one),
            shape.amend_of(shape.name_of(9_000), 1, shape.volumes()),
            shape.submit_of_hour(0, name=free),
            shape.cancel_of(free),
        ]
    )
