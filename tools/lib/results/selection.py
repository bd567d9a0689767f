"""A closed book as a problem, and the consequences of a selection of its blocks."""

from collections.abc import Iterator, Mapping, Sequence, Set
from typing import NamedTuple, Protocol

from ..base import rules, text
from ..journal.journal import Order
from . import period

Places = Set[int]  # of blocks
Surpluses = Sequence[int | None]  # of the blocks by place; None without a price


class Row(NamedTuple):
    who: str
    name: str
    order: Order

    def __str__(self) -> str:
        return f"{self.who},{self.name}"


class ClosedBook(Protocol):
    @property
    def periods(self) -> int: ...

    @property
    def rows(self) -> Mapping[tuple[str, str], Order]: ...


class Problem:
    """The rows of a book in book order, its blocks by place, and the hourly orders of each period."""

    def __init__(self, book: ClosedBook) -> None:
        self.periods = book.periods
        self.hours = rules.DAYS[book.periods]  # of a period
        self.rows = [Row(who, name, order) for (who, name), order in book.rows.items()]
        self.blocks = [row for row in self.rows if row.order.kind == "block"]
        # The rows of the hourly orders of each period, and the same as `period` takes them.
        self.hourly: dict[int, list[Row]] = {number: [] for number in range(1, self.periods + 1)}
        for row in self.rows:
            if row.order.kind == "hour":
                self.hourly[row.order.volumes[0][0]].append(row)
        self.orders = {
            number: tuple(period.Hourly(row.order.side, row.order.price, row.order.volumes[0][1]) for row in rows)
            for number, rows in self.hourly.items()
        }
        self.parents = [self.place_of_block(block.who, block.order.parent) for block in self.blocks]
        self.rescuers = [descendants(place, self.blocks) for place in range(len(self.blocks))]

    def place_of_block(self, who: str, name: str) -> int | None:
        """The place among the blocks of the one with this name; None if there is none."""
        named = [at for at, block in enumerate(self.blocks) if (block.who, block.name) == (who, name)]
        return named[0] if named else None

    def euros_text(self, amount: int) -> str:
        """An amount in cents per MWh times tenths of a MW, over periods of this day, in EUR."""
        return text.exact_eur(amount, self.hours)

    def groups(self) -> dict[tuple[str, str], list[int]]:
        """The places of the blocks of each exclusive group."""
        members: dict[tuple[str, str], list[int]] = {}
        for place, block in enumerate(self.blocks):
            if block.order.group:
                members.setdefault((block.who, block.order.group), []).append(place)
        return members


class Outcome(NamedTuple):
    """The consequences of a selection. A period that doesn't balance has None, and then so has the welfare."""

    cleared: dict[int, period.Clearing | None]
    bought: dict[int, int]  # executed hourly buys and accepted buy blocks, by period
    surpluses: list[int | None]
    welfare: int | None


class Breach(NamedTuple):
    place: int
    kind: str
    words: str


def net_volumes(order: Order) -> list[tuple[int, int]]:
    """The volumes of a block as net volumes: its sold volumes, less its bought volumes."""
    return [(number, volume if order.side == "sell" else -volume) for number, volume in order.volumes]


def link_breaches(problem: Problem, accepted: Places) -> Iterator[Breach]:
    """Each breach of a link or a group if these places are accepted together."""
    for place in sorted(accepted):
        parent = problem.parents[place]
        if parent is not None and parent not in accepted:
            yield Breach(place, "link", f"block {problem.blocks[place]} is accepted and its parent {problem.blocks[parent]} isn't")
    for (who, group), members in problem.groups().items():
        chosen = [place for place in members if place in accepted]
        if len(chosen) > rules.MOST_OF_GROUP:
            names = " ".join(str(problem.blocks[place]) for place in chosen)
            words = f"group {group} of {who} has {len(chosen)} accepted blocks: {names}"
            yield Breach(chosen[rules.MOST_OF_GROUP], "group", words)


def surplus_at(order: Order, prices: Mapping[int, int | None]) -> int | None:
    """The gain of a block at the prices; None if it has a volume in a period without a price."""
    total = 0
    for number, net in net_volumes(order):
        price = prices[number]
        if price is None:
            return None
        total += net * (price - order.price)
    return total


def outcome(problem: Problem, accepted: Places) -> Outcome:
    """The consequences of the selection that accepts these places."""
    net = dict.fromkeys(problem.orders, 0)
    bought = dict.fromkeys(problem.orders, 0)
    value = 0
    for place in accepted:
        order = problem.blocks[place].order
        for number, volume in net_volumes(order):
            net[number] += volume
            bought[number] += max(-volume, 0)
            value -= order.price * volume
    cleared = {number: period.clear(orders, net[number]) for number, orders in problem.orders.items()}
    for number, clearing in cleared.items():
        if clearing is not None:
            sides = zip(problem.orders[number], clearing.executed)
            bought[number] += sum(quantity for (side, _, _), quantity in sides if side == "buy")
    prices = {number: clearing and clearing.price for number, clearing in cleared.items()}
    welfares = [clearing.welfare for clearing in cleared.values() if clearing is not None]
    return Outcome(
        cleared,
        bought,
        [surplus_at(block.order, prices) for block in problem.blocks],
        value + sum(welfares) if len(welfares) == len(cleared) else None,
    )


def descendants(place: int, blocks: Sequence[Row]) -> list[int]:
    """The places of the blocks that, if they are accepted, make up for the loss of the block at this place: the ones that descend
    from it, its children and theirs. Each comes after its parent."""
    family = {(blocks[place].who, blocks[place].name)}
    found = []
    for other in range(place + 1, len(blocks)):
        block = blocks[other]
        if (block.who, block.order.parent) in family:
            family.add((block.who, block.name))
            found.append(other)
    return found


def accepted_rescuers(problem: Problem, accepted: Places, place: int) -> list[int]:
    """The accepted blocks that make up for the loss of an accepted block."""
    return [other for other in problem.rescuers[place] if other in accepted]


def gain_with_rescuers(problem: Problem, accepted: Places, place: int, surpluses: Surpluses) -> int | None:
    """The gain of an accepted block, with the accepted blocks that make up for its loss; None if a surplus isn't known."""
    gains = [surpluses[other] for other in [place, *accepted_rescuers(problem, accepted, place)]]
    known = [gain for gain in gains if gain is not None]
    return sum(known) if len(known) == len(gains) else None


def losses_of(problem: Problem, accepted: Places, surpluses: Surpluses) -> dict[int, int]:
    """The accepted places that lose, each with its loss, as far as that is known."""
    gains = {place: gain_with_rescuers(problem, accepted, place, surpluses) for place in sorted(accepted)}
    return {place: -gain for place, gain in gains.items() if gain is not None and gain < 0}


def eligible_welfare(problem: Problem, accepted: Places) -> int | None:
    """The welfare of an eligible selection; None for any other."""
    if any(link_breaches(problem, accepted)):
        return None
    found = outcome(problem, accepted)
    if found.welfare is None or losses_of(problem, accepted, found.surpluses):
        return None
    return found.welfare


def ranks_above(blocks: int, welfare: int, accepted: Places, other_welfare: int, other: Places) -> bool:
    """Greater welfare; among equals, the one that accepts at the first block where two differ."""
    flags = [[place in chosen for place in range(blocks)] for chosen in (accepted, other)]
    return (welfare, flags[0]) > (other_welfare, flags[1])
