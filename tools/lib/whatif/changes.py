"""The differences between two cleared days, as a table; and further commands of a day, which are put before its close."""

from collections.abc import Callable, Iterable, Iterator

from ..base import text
from ..journal import book, journal
from ..journal.book import Book
from ..journal.journal import Command, Key
from ..lint import sent
from ..lint.sent import OwnCommand
from ..runs.cleared import Cleared
from ..runs.errors import Fault
from ..tables import command_table, order_table

Cells = list[str | int]  # of a row of a table
Placed = tuple[str, OwnCommand]  # a command with where it stands
MOST_LINES = 5  # of the faults of a table
HEADS: Cells = ["what", "unit", "participant", "order", "period", "before", "after", "change", "outcome_before", "outcome_after"]


class NumberFormat:
    """How the numbers of two days are written."""

    def __init__(self, day: Cleared) -> None:
        self.hours = day.hours

    def row(
        self,
        what: str,
        unit: str,
        before: int | None,
        after: int | None,
        who: str = "",
        name: str = "",
        period: int | str = "",
        outcomes: tuple[str, str] = ("", ""),
    ) -> Cells:
        """A row of the table; of a number that is None in one of the days the cells are empty."""
        writers: dict[str, Callable[[int], str]] = {"EUR": self.eur_text, "EUR/MWh": text.eur_per_mwh, "MWh": self.mwh_text, "MW": text.mw}
        write = writers[unit]
        change = "" if before is None or after is None else write(after - before)
        cells = ["" if value is None else write(value) for value in (before, after)]
        return [what, unit, who, name, period, *cells, change, *outcomes]

    def eur_text(self, amount: int) -> str:
        return text.eur(amount, self.hours, thousands="")

    def mwh_text(self, tenths: int) -> str:
        return text.energy(tenths, self.hours, thousands="")


def difference_rows(before: Cleared, after: Cleared, who: str | None = None) -> Iterator[Cells]:
    """A row for each number that differs between two days of as many periods: the welfare, prices and volumes, and each order's executed
    energy and amount, of one participant or of all. With a participant also its gain and its net amount, whether they differ or not."""
    number_format = NumberFormat(before)
    yield HEADS
    if who:
        yield number_format.row("gain", "EUR", before.gain(who), after.gain(who), who)
        yield number_format.row("net", "EUR", before.net(who), after.net(who), who)
    if before.welfare != after.welfare:
        yield number_format.row("welfare", "EUR", before.welfare, after.welfare)
    for what, unit, numbers in (
        ("price", "EUR/MWh", zip(traded_prices(before), traded_prices(after))),
        ("volume", "MW", zip(before.volumes, after.volumes)),
    ):
        for period, (one, other) in enumerate(numbers, 1):
            if one != other:
                yield number_format.row(what, unit, one, other, period=period)
    for key in {**before.rows, **after.rows}:
        if not who or key[0] == who:
            yield from order_rows(number_format, before, after, key)


def traded_prices(day: Cleared) -> list[int | None]:
    """The price of each period; None of one in which nothing is traded, whose price says nothing."""
    return [price if volume else None for price, volume in zip(day.prices, day.volumes)]


def order_rows(number_format: NumberFormat, before: Cleared, after: Cleared, key: Key) -> Iterator[Cells]:
    """The rows of an order; of one that is in one book alone there are both, if it is executed there or not."""
    outcomes = before.outcome(key), after.outcome(key)
    alone = "" in outcomes
    for what, unit, number in (("executed", "MWh", "executed"), ("amount", "EUR", "amount")):
        one, other = (getattr(day, number)(key) if key in day.rows else None for day in (before, after))
        if one != other or alone:
            yield number_format.row(what, unit, one, other, *key, outcomes=outcomes)


def differing_orders(before: Cleared, after: Cleared, but: Key | None = None) -> list[Key]:
    """The orders that both days have and whose executed volume differs, without one of them."""
    return [key for key in before.rows if key != but and key in after.rows and before.orders[key] != after.orders[key]]


def first_lines_text(fault: object) -> str:
    """The first lines of the faults, and how many more there are, also those that one of the lines counts."""
    lines, counted = str(fault).split("\n"), getattr(fault, "more", 0)
    more = len(lines) + max(counted - 1, 0) - MOST_LINES
    return "\n  ".join(lines[:MOST_LINES] + ([f"and {more} more"] if more > 0 else []))


def parse_changes_and_notes(data: bytes, periods: int) -> tuple[Iterable[Placed], list[str]]:
    """Further commands for a day: records of a journal, with the records `day` and `close` or without them; a table of commands; or one of
    orders, each a submit. They are to go through once; with notes on the table."""
    try:
        if sent.WORDS.match(data.removeprefix(text.MARK)):
            return [(f"record {entry.record}", entry.command) for entry in sent.parse_records(data, periods)], []
        table = order_table.parse_cells(data)
        if command_table.is_command_table(table):
            commands, notes = command_table.parse_commands_and_notes(table, periods)
            return ((f"line {line}", command) for line, command in commands), notes
        orders = order_table.parse_tables([("", table)], periods)
        return [(f"order {number}", submit) for number, submit in orders.submits], orders.notes
    except (sent.BadSentText, order_table.BadOrders) as fault:
        raise Fault(first_lines_text(fault)) from None


def book_before_close_or_raise(read: journal.Journal) -> Book:
    """The book of a journal as it is before its close."""
    held = book.Book(read.periods)
    for command in read.commands:
        if isinstance(command, journal.Close):
            return held
        held.apply_or_return_refusal(command)
    raise Fault("no command closes the book: end the journal with close,,,,,,,,")


def book_with_commands_or_raise(held: Book, commands: Iterable[Placed]) -> Book:
    """A book with further commands, each with where it stands; the book itself stays as it is. A command that it refuses is a fault."""
    after = held.copy()
    for place, command in commands:
        enter_or_raise(after, place, command)
    return after


def enter_or_raise(held: Book, place: str, command: Command) -> None:
    """Enters a command that stands at a place. If the book refuses it, that is a fault."""
    if reason := held.apply_or_return_refusal(command):
        remedy = "; amend it, or use another name" if reason == "NameTaken" else ""
        raise Fault(f"{place}: the book refuses {journal.command_record_text(command)}: {book.REASONS[reason].words} ({reason}){remedy}")
