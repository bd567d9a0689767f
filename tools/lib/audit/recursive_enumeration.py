"""Whether a better selection of blocks exists, by trying all of them.

The welfare and the price of a period come from a curve here, made once, not from `period`; a selection found to be better
is checked again by the rules alone."""

import itertools
from bisect import bisect_left, bisect_right
from typing import NamedTuple

from ..base import rules
from ..journal.journal import Order
from ..process.progress import Progress
from ..results import selection
from ..results.period import Orders

# This many blocks take some ten seconds, and each further one doubles the time.
ENUMERABLE = 18
STEP = 256  # selections from one look at the time to the next


class Selection(NamedTuple):
    accepted: frozenset[int]
    welfare: int


class Curve:
    """The welfare and the price of a period's hourly orders by net volume.

    If all buys and no sells are executed, the net volume is the greatest, and the welfare is the value of all buys. Each
    tenth of a MW less comes from the cheapest order that is left: a sell that is executed, or a buy that no longer is. Of
    these tenths by their limit, the last one taken and the next one have the ends of the supporting prices."""

    def __init__(self, orders: Orders) -> None:
        self.most = sum(volume for side, _, volume in orders if side == "buy")
        self.value = sum(limit * volume for side, limit, volume in orders if side == "buy")
        merged: dict[int, int] = {}
        for _, limit, volume in orders:
            merged[limit] = merged.get(limit, 0) + volume
        self.limits = sorted(merged)
        self.volumes = [merged[limit] for limit in self.limits]
        self.ends = [0, *itertools.accumulate(self.volumes)]
        costs = [limit * volume for limit, volume in zip(self.limits, self.volumes)]
        self.costs = [0, *itertools.accumulate(costs)]
        # The net volumes at which an execution balances.
        self.least = self.most - self.ends[-1]

    def welfare_at(self, net: int) -> int | None:
        taken = self.most - net
        if not 0 <= taken <= self.ends[-1]:
            return None
        at = bisect_right(self.ends, taken) - 1
        part = taken - self.ends[at]
        return self.value - self.costs[at] - (part * self.limits[at] if part else 0)

    def supporting_prices(self, net: int) -> tuple[int, int]:
        """The ends of the supporting prices, if an execution balances."""
        taken = self.most - net
        low = self.limits[bisect_left(self.ends, taken) - 1] if taken else rules.LOWEST_PRICE
        high = self.limits[bisect_right(self.ends, taken) - 1] if taken < self.ends[-1] else rules.HIGHEST_PRICE
        return low, high


def curves_by_period(problem: selection.Problem) -> dict[int, Curve]:
    return {number: Curve(orders) for number, orders in problem.orders.items()}


class Search:
    """Tries the selections that links and groups admit, those first that accept earlier blocks."""

    def __init__(self, problem: selection.Problem, progress: Progress | None = None) -> None:
        self.problem, self.progress = problem, progress
        self.curves = curves_by_period(problem)
        self.group_of = {place: key for key, members in problem.groups().items() for place in members}
        self.best: Selection | None = None
        self.tried = 0

    def search_all(self) -> Selection:
        net = dict.fromkeys(self.curves, 0)
        self.search_and_keep_best(0, frozenset(), {}, net, {number: curve.welfare_at(0) for number, curve in self.curves.items()}, 0)
        assert self.best is not None  # without any block each period balances
        return self.best

    def search_and_keep_best(
        self,
        place: int,
        accepted: frozenset[int],
        taken: dict[tuple[str, str], int],
        net: dict[int, int],
        worth: dict[int, int | None],
        value: int,
    ) -> None:
        """Tries the selections that accept these blocks before a place: `taken` are their numbers by group, `net` and `worth` the net
        volumes and welfares of the periods, `value` the welfare that the blocks themselves add."""
        if place == len(self.problem.blocks):
            self.keep_if_better(accepted, net, worth, value)
            return
        order = self.problem.blocks[place].order
        parent, group = self.problem.parents[place], self.group_of.get(place)
        of_group = 0 if group is None else taken.get(group, 0)
        if (parent is None or parent in accepted) and of_group < rules.MOST_OF_GROUP:
            groups = taken if group is None else {**taken, group: of_group + 1}
            self.search_and_keep_best(place + 1, accepted | {place}, groups, *self.sums_with_block(order, net, worth, value))
        self.search_and_keep_best(place + 1, accepted, taken, net, worth, value)

    def sums_with_block(
        self, order: Order, net: dict[int, int], worth: dict[int, int | None], value: int
    ) -> tuple[dict[int, int], dict[int, int | None], int]:
        net, worth = dict(net), dict(worth)
        for number, volume in selection.net_volumes(order):
            net[number] += volume
            worth[number] = self.curves[number].welfare_at(net[number])
            value -= order.price * volume
        return net, worth, value

    def keep_if_better(self, accepted: frozenset[int], net: dict[int, int], worth: dict[int, int | None], value: int) -> None:
        """Keeps a selection if it is eligible and of greater welfare than those before."""
        self.tried += 1
        if self.progress and self.tried % STEP == 1:
            self.progress.count_and_show_or_raise(STEP)
        welfares = [found for found in worth.values() if found is not None]
        if len(welfares) < len(worth):
            return
        welfare = sum(welfares) + value
        if self.best is not None and welfare <= self.best.welfare:
            return
        prices = {number: rules.price_and_case(*curve.supporting_prices(net[number]))[0] for number, curve in self.curves.items()}
        surpluses = [selection.surplus_at(block.order, prices) for block in self.problem.blocks]
        if not selection.losses_of(self.problem, accepted, surpluses):
            self.best = Selection(accepted, welfare)


def search_recursively(problem: selection.Problem, progress: Progress | None = None) -> tuple[Selection, str]:
    search = Search(problem, progress)
    if progress:
        progress.add_expected_steps(2 ** len(problem.blocks))
    best = search.search_all()
    if selection.eligible_welfare(problem, best.accepted) != best.welfare:
        raise AssertionError(f"the selection {sorted(best.accepted)} is not eligible with the welfare that the search gave it")
    return best, tried_text(len(problem.blocks), search.tried)


def tried_text(blocks: int, admitted: int, losing: int = 0) -> str:
    """How many selections were tried, and how many of them links and groups admit; and, if none is better, how many would be if none
    of their blocks lost."""
    if blocks == 0:
        return "there is no block to select"
    whole = f"each of {2**blocks:,} selections was tried"
    if admitted < 2**blocks:
        whole += f", of which links and groups admit {admitted:,}"
    return whole + (f"; {losing:,} would be better if none of {'its' if losing == 1 else 'their'} blocks lost" if losing else "")
