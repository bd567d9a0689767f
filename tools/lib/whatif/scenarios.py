"""Scenarios of a day: those of a table, with its changes, and random ones, in which the orders of all but one participant have other
limits and volumes. And the tables of scenarios: the requested values of each, and the outcomes of a participant's blocks over all."""

import functools
import hashlib
import itertools
import re
from collections.abc import Callable, Iterable, Iterator, Mapping, Sequence
from fractions import Fraction
from typing import TYPE_CHECKING, NamedTuple, TypeVar

from ..base import rules, text
from ..journal.book import Book
from ..journal.journal import Key, Order
from ..lint.sent import OwnCommand
from ..results import selection
from ..runs.cleared import NO_RESULTS, Cleared, journal_bytes
from ..runs.errors import Fault, Wrong
from ..tables import cell_values, order_table, table_files
from ..tables.command_table import Columns
from . import changes
from .changes import Cells

if TYPE_CHECKING:
    from numpy import ndarray

Line = tuple[int, str, list[str]]  # of a table: its number, its scenario and its cells
Number = TypeVar("Number", int, float)
SCENARIO = "scenario"
CONTROL = re.compile("[\0-\x1f\x7f-\x9f\ufffe\uffff]")  # in no name: a line of a text, or a cell of a workbook, couldn't hold it
MOST_ROWS = 50_000  # of a table, after the first one: a longer one can be parted, since no scenario depends on another
# The columns of a block over all scenarios. For each part of its surpluses, in per cent, there is one more column.
BLOCK = ["participant", "order", "price_eur_mwh", "scenarios", "accepted", "share", "mean_eur"]
PARTS = [5, 25, 50, 75, 95]
EACH = 16  # the first random scenario, and every 16th after it, is checked whole: to check all would take several times as long as to clear


class Scenario(NamedTuple):
    name: str
    text: bytes  # of the journal that has its book
    rows: Callable[[], Mapping[Key, Order]]  # the source of the orders of its book, by participant and name


class Listed(NamedTuple):
    """A scenario of a table."""

    name: str
    book: Book  # of the day, with the scenario's commands

    def rows(self) -> Mapping[Key, Order]:
        return self.book.rows

    @property
    def text(self) -> bytes:
        return journal_bytes(self.book.rows, self.book.periods)


class Sampler:
    """Random scenarios of a book, each by its number. The orders of all but one participant get another limit and other volumes: to the
    limit a normally distributed number of cents is added, and the volumes, all of a block alike, are multiplied by a factor with the mean
    1. Both stay in their ranges. A scenario depends only on the book, the seed and its number."""

    def __init__(self, held: Book, who: str, seed: str, price_sd: float, volume_sd: float) -> None:
        import numpy

        self.held, self.seed, self.numpy = held, seed, numpy
        self.random = numpy.random.RandomState(0)  # seeded again for each scenario: to make one takes longer than to draw
        orders = list(held.rows.values())
        changes_it = numpy.array([key[0] != who for key in held.rows])
        self.sds = numpy.where(changes_it, price_sd, 0), numpy.where(changes_it, volume_sd, 0)
        self.prices = numpy.array([order.price for order in orders])
        self.volumes = numpy.array([volume for order in orders for _, volume in order.volumes])
        counts = [len(order.volumes) for order in orders]
        self.owners = numpy.repeat(numpy.arange(len(orders)), counts)  # the order of each volume
        # Where the numbers of the text stand: of each order its limit, and then its volumes.
        self.at_price = numpy.concatenate([[0], numpy.cumsum(numpy.array(counts) + 1)[:-1]]).astype(int)
        self.at_volume = numpy.arange(len(self.volumes)) + self.owners + 1
        self.template = "".join(map(self.line, held.rows.items()))

    @staticmethod
    def line(row: tuple[Key, Order]) -> str:
        """The record of an order with places for its numbers."""
        (who, name), order = row
        volumes = ";".join(f"{period}:%d" for period, _ in order.volumes)
        return f"submit,{who},{name},{order.kind},{order.side},%d,{volumes},{order.parent},{order.group}\n"

    def draw_numbers(self, number: int) -> tuple["ndarray", "ndarray"]:
        digest = hashlib.sha256(f"{self.seed} {number}".encode(errors="surrogateescape")).digest()
        self.random.seed(self.numpy.frombuffer(digest, dtype="<u4"))
        added, factors = (self.random.standard_normal(len(self.prices)) * sd for sd in self.sds)
        prices = self.numpy.rint(self.prices + added).clip(rules.LOWEST_PRICE, rules.HIGHEST_PRICE)
        volumes = self.numpy.rint(self.volumes * (1 + factors)[self.owners]).clip(1, rules.GREATEST_VOLUME)
        return prices.astype(int), volumes.astype(int)

    def draw_text(self, number: int) -> bytes:
        prices, volumes = self.draw_numbers(number)
        every = self.numpy.empty(len(prices) + len(volumes), dtype=int)
        every[self.at_price], every[self.at_volume] = prices, volumes
        return f"day,{self.held.periods},,,,,,,\n{self.template % tuple(every.tolist())}close,,,,,,,,\n".encode()

    def draw_rows(self, number: int) -> dict[Key, Order]:
        prices, volumes = self.draw_numbers(number)
        rest, made = iter(volumes.tolist()), {}
        for (key, order), price in zip(self.held.rows.items(), prices.tolist()):
            made[key] = order._replace(price=price, volumes=tuple((period, next(rest)) for period, _ in order.volumes))
        return made

    def draw_scenarios(self, count: int) -> Iterator[Scenario]:
        """The first scenarios, named by their numbers from 1."""
        for number in range(1, count + 1):
            yield Scenario(str(number), self.draw_text(number), functools.partial(self.draw_rows, number))


class Table:
    """The scenarios of a table: each is the book with the commands of its lines, which stand together. None is kept: a caller
    that goes through them again reads the table again. An error of the table is a fault."""

    def __init__(self, name: str, data: bytes, held: Book) -> None:
        self.name, self.held = name, held
        try:
            self.columns = Columns(order_table.parse_cells(data, MOST_ROWS, is_long=True), (SCENARIO,))
        except order_table.BadOrders as fault:
            raise Fault(f"{name}: {changes.first_lines_text(fault)}") from None
        self.count = self.count_or_raise()

    def __len__(self) -> int:
        return self.count

    def __iter__(self) -> Iterator[Listed]:
        return (Listed(scenario, self.book_or_raise(rows)) for scenario, rows in self.parts())

    def parts(self) -> Iterator[tuple[str, Iterator[Line]]]:
        """The name of each scenario, with its rows."""
        lines = ((line, self.columns.places.cell_text(cells, SCENARIO), cells) for line, cells in self.columns.table.rows)
        return itertools.groupby(lines, lambda each: each[1])

    def count_or_raise(self) -> int:
        """The number of the scenarios, which are right. They are tried out in one book, since a copy for each would take long."""
        trial = self.held.copy()
        seen: dict[str, int] = {}
        for scenario, rows in self.parts():
            first = next(rows)
            if not scenario:
                raise Fault(f"{self.name}: line {first[0]}, column {SCENARIO}: it should name the scenario")
            if CONTROL.search(scenario):
                words = f"{text.quoted(scenario)} has a control character: remove it"
                raise Fault(f"{self.name}: line {first[0]}, column {SCENARIO}: {words}")
            if not table_files.fits_cell(scenario):
                words = f"{text.quoted(scenario)} would be too long for a cell of the output: shorten it"
                raise Fault(f"{self.name}: line {first[0]}, column {SCENARIO}: {words}")
            if scenario in seen:
                words = f"line {first[0]}: there is a scenario {text.quoted(scenario)} in line {seen[scenario]}"
                raise Fault(f"{self.name}: {words}: the lines of a scenario stand together, and no two have one name")
            seen[scenario] = first[0]
            self.enter_and_take_back_or_raise(trial, itertools.chain([first], rows))
        if not seen:
            raise Fault(f"{self.name}: it has no scenarios")
        return len(seen)

    def book_or_raise(self, rows: Iterable[Line]) -> Book:
        """The book of the day with the commands of the lines of a scenario, which it takes."""
        after = self.held
        for line, command in self.commands_or_raise(rows):
            after = self.held.copy() if after is self.held else after
            self.enter_or_raise(after, line, command)
        return after

    def enter_and_take_back_or_raise(self, trial: Book, rows: Iterable[Line]) -> None:
        """Enters the commands of the lines of a scenario, and takes them back."""
        before: dict[Key, Order | None] = {}
        for line, command in self.commands_or_raise(rows):
            before.setdefault((command.who, command.name), trial.order_of(command))
            self.enter_or_raise(trial, line, command)
        for key, order in before.items():
            trial.put_back(key, order)

    def commands_or_raise(self, rows: Iterable[Line]) -> Iterator[tuple[int, OwnCommand]]:
        """The commands of lines, each with its line."""
        for line, _, cells in rows:
            if (command := self.command_or_raise(line, cells)) is not None:
                yield line, command

    def enter_or_raise(self, held: Book, line: int, command: OwnCommand) -> None:
        try:
            changes.enter_or_raise(held, f"line {line}", command)
        except Fault as fault:
            raise Fault(f"{self.name}: {fault}") from None

    def command_or_raise(self, line: int, cells: list[str]) -> OwnCommand | None:
        try:
            cell_values.refuse_unlike(self.columns.places.given_cell(cells, SCENARIO), True)
        except order_table.BadOrders as fault:
            raise Fault(f"{self.name}: line {line}, column {SCENARIO}: {fault}") from None
        command, faults = self.columns.parse_row_and_faults(cells, self.held.periods)
        if faults:
            wrong = "\n".join(order_table.row_fault_text(line, words) for words in faults)
            raise Fault(f"{self.name}: {changes.first_lines_text(wrong)}")
        return command


def parse_table_and_notes(name: str, data: bytes, held: Book) -> tuple[Table, list[str]]:
    made = Table(name, data, held)
    return made, made.columns.table.notes


def welfare_rows(scenario: str, before: Cleared, after: Cleared, _: object) -> Iterator[Cells]:
    number_format = changes.NumberFormat(after)
    yield [scenario, number_format.eur_text(after.welfare), number_format.eur_text(after.welfare - before.welfare)]


def price_rows(scenario: str, before: Cleared, after: Cleared, _: object) -> Iterator[Cells]:
    for period, (cents, volume, was) in enumerate(zip(after.prices, after.volumes, before.prices), 1):
        yield [scenario, period, text.eur_per_mwh(cents), text.mw(volume), text.eur_per_mwh(cents - was)]


def order_rows(scenario: str, _: object, after: Cleared, is_asked: Callable[[tuple[str, str | None]], bool]) -> Iterator[Cells]:
    number_format = changes.NumberFormat(after)
    for key, order in after.rows.items():
        if is_asked(key):
            surplus = number_format.eur_text(after.surplus(key)) if order.kind == "block" else ""
            energy, amount = number_format.mwh_text(after.executed(key)), number_format.eur_text(after.amount(key))
            yield [scenario, *key, order.kind, after.outcome(key), energy, surplus, amount]


def participant_rows(scenario: str, _: object, after: Cleared, is_asked: Callable[[tuple[str, str | None]], bool]) -> Iterator[Cells]:
    number_format = changes.NumberFormat(after)
    for who in sorted({who for who, name in after.rows if is_asked((who, None))}):
        own = [key for key in after.rows if key[0] == who]
        energies = [sum(after.executed(key) for key in own if after.rows[key].side == side) for side in ("buy", "sell")]
        amounts = after.net(who), after.gain(who)
        yield [scenario, who, *map(number_format.mwh_text, energies), *map(number_format.eur_text, amounts)]


# Each table with its columns after the first, which names the scenario.
TABLES = {
    "welfare": (welfare_rows, ["welfare_eur", "change_eur"]),
    "prices": (price_rows, ["period", "price_eur_mwh", "volume_mw", "change_eur_mwh"]),
    "orders": (order_rows, ["participant", "order", "kind", "outcome", "executed_mwh", "surplus_eur", "amount_eur"]),
    "participants": (participant_rows, ["participant", "bought_mwh", "sold_mwh", "net_eur", "gain_eur"]),
}


class Distribution:
    """The outcomes of some blocks over many scenarios: whether each is accepted, and its surplus at the prices."""

    def __init__(self, held: Book, keys: Sequence[Key]) -> None:
        self.rows, self.keys, self.periods, self.hours = held.rows, keys, held.periods, rules.DAYS[held.periods]
        self.surpluses: dict[Key, list[int]] = {key: [] for key in keys}  # of the scenarios that accept it
        self.rejected = dict.fromkeys(keys, 0)

    def add_or_raise(self, name: str, printed: bytes) -> None:
        """Adds a scenario by the output of `dam clear` for it. A fault if it isn't of this book, or a surplus isn't the one at its prices."""
        try:
            lines = printed.decode().split("\n", self.periods + 2)[2:-1]  # after the day and the welfare
            prices = {number: int(line.split(",")[2]) for number, line in enumerate(lines, 1)}
            found = {key: (*parse_block(printed, key), selection.surplus_at(self.rows[key], prices)) for key in self.keys}
        except (ValueError, LookupError):
            raise Fault(NO_RESULTS) from None
        for key, (is_accepted, amount, right) in found.items():
            if amount != right:
                words = f"block {','.join(key)}: the surplus is {amount}, and at the prices {right}"
                raise Wrong(f"the program's results of {text.safe(name)} break the rules ({words})")
            if is_accepted:
                self.surpluses[key].append(amount)
            else:
                self.rejected[key] += 1

    def heads(self) -> Cells:
        return [*BLOCK, *(f"p{part:02}_eur" for part in PARTS)]

    def table_rows(self) -> Iterator[Cells]:
        """A row for each block; amounts are rounded to whole cents."""
        yield self.heads()
        for key in self.keys:
            surpluses = sorted(self.surpluses[key])
            whole = len(surpluses) + self.rejected[key]
            amounts: list[Fraction | int | None] = [Fraction(sum(surpluses), whole), *(quantile(surpluses, part) for part in PARTS)]
            shares: Cells = [whole, len(surpluses), f"{len(surpluses) / whole:.4f}"]
            yield [*key, text.eur_per_mwh(self.rows[key].price), *shares, *map(self.eur_text, amounts)]

    def eur_text(self, amount: Fraction | int | None) -> str:
        return "" if amount is None else f"{float(amount * self.hours / 1_000):.2f}"


def parse_block(printed: bytes, key: Key) -> tuple[bool, int]:
    """Whether a block is accepted in an output of `dam clear`, and its surplus; a ValueError or a KeyError if it isn't there."""
    begin = printed.index(f"\nblock,{key[0]},{key[1]},".encode()) + 1
    outcome, surplus = printed[begin : printed.index(b"\n", begin)].split(b",")[3:]
    return {b"accepted": True, b"rejected": False}[outcome], int(surplus)


def quantile(numbers: Sequence[Number], part: int) -> Number | None:
    """The number of a sorted list that this per cent of it are at most."""
    return numbers[max(-(-len(numbers) * part // 100) - 1, 0)] if numbers else None


def distribution_lines(distribution: Distribution) -> Iterator[str]:
    """One line for each block."""
    for key in distribution.keys:
        found = distribution.surpluses[key]
        whole = len(found) + distribution.rejected[key]
        line = f"{' '.join(key)} is accepted in {len(found):,} of {whole:,} scenarios"
        if (middle := quantile(sorted(found), 50)) is not None:
            line += f"; the median of its surplus is then {text.amount(middle, distribution.hours)} EUR"
        yield line
