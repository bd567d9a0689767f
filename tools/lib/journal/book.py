"""The order book: the effect of each command on it, or why it is refused."""

from collections import Counter
from collections.abc import Callable, Iterable
from typing import Any, NamedTuple

from ..base import rules
from .journal import Amend, Cancel, Close, Command, Journal, Key, Order, Submit


class Book:
    """The rows of a day in book order: a dictionary from participant and name to the order. It keeps the order of the
    submits; an amended order keeps its place, a cancelled one loses it."""

    def __init__(self, periods: int) -> None:
        self.periods = periods
        self.closed = False
        self.rows: dict[Key, Order] = {}
        self.held = {"hour": 0, "block": 0}
        self.children: Counter[Key] = Counter()  # of each block, by its participant and name

    def copy(self) -> "Book":
        made = Book(self.periods)
        made.closed, made.rows, made.held, made.children = self.closed, dict(self.rows), dict(self.held), Counter(self.children)
        return made

    def apply_or_return_refusal(self, command: Command) -> str | None:
        """Carries out the command and returns None, or changes nothing and returns the reason."""
        reason = self.refusal_of(command)
        if reason is None:
            self.carry_out(command)
        return reason

    def refusal_of(self, command: Command) -> str | None:
        for word, applies in TESTS[type(command)]:
            if applies(self, command):
                return word
        return None

    def order_of(self, command: Submit | Amend | Cancel) -> Order | None:
        return self.rows.get((command.who, command.name))

    def parent_of(self, command: Submit) -> Order | None:
        """The order that a new block names as its parent."""
        return self.rows.get((command.who, command.order.parent))

    def is_out_of_day(self, command: Submit | Amend) -> bool:
        volumes = command.order.volumes if isinstance(command, Submit) else command.volumes
        return any(period > self.periods for period, _ in volumes)

    def is_full(self, command: Submit, kind: str, most: int) -> bool:
        return command.order.kind == kind and self.held[kind] >= most

    def carry_out(self, command: Command) -> None:
        match command:
            case Submit(who, name, order):
                self.rows[who, name] = order
                self.held[order.kind] += 1
                if order.parent:
                    self.children[who, order.parent] += 1
            case Amend(who, name, price, volumes):
                self.rows[who, name] = self.rows[who, name]._replace(price=price, volumes=volumes)
            case Cancel(who, name):
                order = self.rows.pop((who, name))
                self.held[order.kind] -= 1
                if order.parent:
                    self.children[who, order.parent] -= 1
            case Close():
                self.closed = True

    def put_back(self, key: Key, before: Order | None) -> None:
        """Gives a participant and name the order that they had before, or None. The order may then have another place in the book's order,
        on which no reply depends."""
        for order, count in ((self.rows.pop(key, None), -1), (before, 1)):
            if order is not None:
                self.held[order.kind] += count
                if order.parent:
                    self.children[key[0], order.parent] += count
        if before is not None:
            self.rows[key] = before


class Reason(NamedTuple):
    """Why the book refuses a command."""

    words: str
    commands: tuple[type[Command], ...]  # the kinds that it can refuse
    applies: Callable[[Book, Any], object]  # whether it refuses a command of these kinds on a book


# The reasons, in the order in which the book looks for them.
REASONS = {
    "Closed": Reason("the book was already closed", (Submit, Amend, Cancel, Close), lambda book, _: book.closed),
    "PeriodOutOfDay": Reason("it names a period that the day doesn't have", (Submit, Amend), Book.is_out_of_day),
    "NameTaken": Reason("the participant has an order of that name", (Submit,), lambda book, command: book.order_of(command) is not None),
    "UnknownOrder": Reason(
        "the participant has no such order: it was cancelled, refused, or never entered",
        (Amend, Cancel),
        lambda book, command: book.order_of(command) is None,
    ),
    "WrongShape": Reason(
        "an hourly order has exactly one period",
        (Amend,),
        lambda book, command: (order := book.order_of(command)) and order.kind == "hour" and len(command.volumes) != 1,
    ),
    "UnknownParent": Reason(
        "the participant has no order of the parent's name",
        (Submit,),
        lambda book, command: command.order.parent and book.parent_of(command) is None,
    ),
    "ParentNotBlock": Reason(
        "the parent is an hourly order",
        (Submit,),
        lambda book, command: (parent := book.parent_of(command)) and parent.kind == "hour",
    ),
    "HourlyFull": Reason(
        f"the book holds {rules.MOST_HOURLY:,} hourly orders",
        (Submit,),
        lambda book, command: book.is_full(command, "hour", rules.MOST_HOURLY),
    ),
    "BlocksFull": Reason(
        f"the book holds {rules.MOST_BLOCKS} blocks",
        (Submit,),
        lambda book, command: book.is_full(command, "block", rules.MOST_BLOCKS),
    ),
    "HasChildren": Reason(
        "blocks name this one as their parent",
        (Cancel,),
        lambda book, command: book.children[command.who, command.name] > 0,
    ),
}
# For each kind of command, the reasons that can refuse it, with their tests.
TESTS = {
    kind: [(word, reason.applies) for word, reason in REASONS.items() if kind in reason.commands] for kind in (Submit, Amend, Cancel, Close)
}


def book_and_refusals(journal: Journal) -> tuple[Book, list[str | None]]:
    """The book after the commands of a journal, and the reason for each refusal (None if the command was done)."""
    book = Book(journal.periods)
    return book, [book.apply_or_return_refusal(command) for command in journal.commands]


def replies_text(journal: Journal) -> str:
    """The printed text of a run: the day, and the reply to each command."""
    return replies_text_of(journal.periods, book_and_refusals(journal)[1])


def replies_text_of(periods: int, reasons: Iterable[str | None]) -> str:
    """The same from the reason for each refusal, or None."""
    lines = [f"day,{periods}"]
    for number, reason in enumerate(reasons, 1):
        lines.append(f"{number},done" if reason is None else f"{number},refused,{reason}")
    return "".join(f"{line}\n" for line in lines)
