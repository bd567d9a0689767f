"""Whether a better selection of blocks exists, by HiGHS (through scipy).

HiGHS is given a program of whole and real numbers of which each eligible selection is a solution: its executions, some
supporting price of each period at which no accepted block loses, links and groups. It is asked for a solution of more welfare
than that at hand; then, for each block that is rejected, for one of as much welfare that accepts this block and is the same on
the blocks before it. Each selection that it gives is looked at exactly, by the rules and in whole numbers: it is better, or it
is forbidden and HiGHS is asked again. When HiGHS has no more solution, none is better. That HiGHS misses none is taken on trust;
that its finds are better is checked."""

import contextlib
import itertools
import os
from collections.abc import Callable, Iterator, Sequence

import numpy
from scipy import optimize, sparse

from ..base import rules
from ..journal.journal import Order, Volumes
from ..process.progress import Progress
from ..results import selection
from . import recursive_enumeration
from .recursive_enumeration import Curve, Selection

EUR, MW = 100, 10  # cents and tenths: the program is reckoned in EUR per MWh and MW, for moderate numbers

# The size of rounding: half a unit of welfare, or this part of the greatest sum. HiGHS loses solutions where the rows leave no more
# room than that, so it gets more, and offers some selections that turn out to lose or to have less welfare. Where it has offered
# too many, its room for welfare is narrowed.
HALF, ROUNDING, ROOM, TOO_MANY = 0.5 / (EUR * MW), 1e-11, 1_000, 100


LIMIT, NO_SOLUTION = 1, 2  # statuses of scipy's


@contextlib.contextmanager
def discarding_stdout() -> Iterator[None]:
    """Discards the output of HiGHS itself on standard output."""
    print(end="", flush=True)
    kept, nowhere = os.dup(1), os.open(os.devnull, os.O_WRONLY)
    os.dup2(nowhere, 1)
    try:
        yield
    finally:
        os.dup2(kept, 1)
        os.close(kept)
        os.close(nowhere)


class GaveUp(Exception):
    """HiGHS says neither a solution nor that there is none; with its status as scipy numbers it."""


class Program:
    """Columns with a cost and bounds, and rows with bounds, as HiGHS takes them."""

    def __init__(self) -> None:
        self.costs: list[float] = []
        self.lower: list[float] = []
        self.upper: list[float] = []
        self.whole: list[bool] = []
        self.terms: list[tuple[int, int, float]] = []  # a row, a column and a factor
        self.rows: list[tuple[float, float]] = []

    def add_column(self, cost: float = 0.0, lower: float = 0.0, upper: float = numpy.inf, whole: bool = False) -> int:
        self.costs.append(cost)
        self.lower.append(lower)
        self.upper.append(upper)
        self.whole.append(whole)
        return len(self.costs) - 1

    def add_row(self, terms: Sequence[tuple[int, float]], lower: float = -numpy.inf, upper: float = numpy.inf) -> int:
        """Terms are pairs of a column and a factor. Answers the row's number."""
        self.terms += [(len(self.rows), column, factor) for column, factor in terms]
        self.rows.append((lower, upper))
        return len(self.rows) - 1

    def solve(self, seconds: float, presolve: bool) -> optimize.OptimizeResult:
        rows, columns, factors = zip(*self.terms)
        matrix = sparse.csc_matrix((factors, (rows, columns)), shape=(len(self.rows), len(self.costs)))
        lower, upper = zip(*self.rows)
        with discarding_stdout():
            return optimize.milp(
                numpy.array(self.costs),
                integrality=numpy.array(self.whole, dtype=int),
                bounds=optimize.Bounds(self.lower, self.upper),
                constraints=optimize.LinearConstraint(matrix, lower, upper),
                options={"time_limit": seconds, "mip_rel_gap": 0, "presolve": presolve},
            )


class Model:
    """The program of a problem.

    For each step of a period's curve: how much of it is taken, and at least its gain at the price. Welfare is the value of
    all buys less the cost of the part that is taken; the gain of all steps and accepted blocks together is never less, and equal exactly
    if the prices support the execution, which is the one row over the whole day."""

    def __init__(self, problem: selection.Problem) -> None:
        self.problem = problem
        self.program = Program()
        curves = recursive_enumeration.curves_by_period(problem)
        self.accepted = [self.program.add_column(whole=True, upper=1) for _ in problem.blocks]
        self.value = 0.0
        self.welfare: list[tuple[int, float]] = []
        self.duality: list[tuple[int, float]] = []
        self.size = 1.0  # of the greatest sum, by which the slack goes
        self.prices = {number: self.add_period(number, curve) for number, curve in curves.items()}
        gains = [self.add_gain(place, block.order) for place, block in enumerate(problem.blocks)]
        for place, gain in enumerate(gains):
            gains_of_rescuers = [(gains[other], 1) for other in problem.rescuers[place]]
            self.program.add_row([(gain, 1), *gains_of_rescuers], lower=0)
        self.add_links_and_groups()
        self.slack = max(HALF, ROUNDING * self.size)
        self.program.add_row(self.duality, upper=ROOM * self.slack)
        self.least = self.program.add_row(self.welfare)
        for column, factor in self.welfare:
            self.program.costs[column] -= factor

    def add_period(self, number: int, curve: Curve) -> int:
        """The rows of a period; its price's column."""
        nets = [
            (place, volume)
            for place, block in enumerate(self.problem.blocks)
            for at, volume in selection.net_volumes(block.order)
            if at == number
        ]
        least = max(sum(min(volume, 0) for _, volume in nets), curve.least)
        most = min(sum(max(volume, 0) for _, volume in nets), curve.most)
        lower, upper = least_and_greatest_price(curve, least, most)
        price = self.program.add_column(lower=lower / EUR, upper=upper / EUR)
        taken = []
        for cents, tenths in zip(curve.limits, curve.volumes):
            limit, volume = cents / EUR, tenths / MW
            take = self.program.add_column(upper=volume)
            gain = self.program.add_column()
            self.program.add_row([(gain, 1), (price, -volume)], lower=-limit * volume)
            self.welfare.append((take, -limit))
            self.duality += [(take, limit), (gain, 1)]
            self.size += abs(limit * volume)
            taken.append((take, 1))
        balance = [(self.accepted[place], tenths / MW) for place, tenths in nets]
        self.program.add_row(taken + balance, lower=curve.most / MW, upper=curve.most / MW)
        self.duality.append((price, -curve.most / MW))
        self.value += curve.value / (EUR * MW)
        return price

    def add_gain(self, place: int, order: Order) -> int:
        """The column of a block's gain: its surplus if it is accepted, else 0."""
        accepted, limit = self.accepted[place], order.price / EUR
        volumes = [(number, volume / MW) for number, volume in selection.net_volumes(order)]
        ends = [
            [net * (bound[self.prices[number]] - limit) for bound in (self.program.lower, self.program.upper)]
            for number, net in volumes
        ]
        least, most = min(0, sum(min(pair) for pair in ends)), max(0, sum(max(pair) for pair in ends))
        gain = self.program.add_column(lower=least, upper=most)
        self.program.add_row([(gain, 1), (accepted, -most)], upper=0)
        self.program.add_row([(gain, 1), (accepted, -least)], lower=0)
        surplus = [(self.prices[number], -net) for number, net in volumes]
        total = sum(net for _, net in volumes)
        # At least the surplus at the price, if it is accepted.
        self.program.add_row([(gain, 1), *surplus, (accepted, -most)], lower=-limit * total - most)
        self.welfare.append((accepted, -limit * total))
        self.duality += [(gain, 1), (accepted, limit * total)]
        self.size += max(abs(limit * total), most, -least)
        return gain

    def add_links_and_groups(self) -> None:
        for place, parent in enumerate(self.problem.parents):
            if parent is not None:
                self.program.add_row([(self.accepted[place], -1), (self.accepted[parent], 1)], lower=0)
        for members in self.problem.groups().values():
            self.program.add_row([(self.accepted[place], 1) for place in members], upper=rules.MOST_OF_GROUP)
        for one, other in pairs_of_equal_blocks(self.problem):
            self.program.add_row([(self.accepted[one], 1), (self.accepted[other], -1)], lower=0)

    def restrict(self, welfare: int, fixed: Sequence[int], room: float) -> None:
        """From now on solutions have at least a welfare, and accept or reject the blocks at the first places as in a list."""
        self.program.rows[self.least] = (welfare / (EUR * MW) - self.value - room * self.slack, numpy.inf)
        for place, column in enumerate(self.accepted):
            self.program.lower[column] = fixed[place] if place < len(fixed) else 0
            self.program.upper[column] = fixed[place] if place < len(fixed) else 1

    def forbid(self, accepted: frozenset[int]) -> None:
        terms = [(column, -1 if place in accepted else 1) for place, column in enumerate(self.accepted)]
        self.program.add_row(terms, lower=1 - len(accepted))

    def solve_for_selection(self, seconds: float) -> frozenset[int] | None:
        """A selection that isn't forbidden; None if there is none. Fails if HiGHS doesn't say.

        For books with equal prices HiGHS sometimes says wrongly that there is none, with its presolve or without; if it is
        asked in both ways, that is rare."""
        for presolve in (True, False):
            answer = self.program.solve(seconds, presolve)
            if answer.x is not None:
                return frozenset(place for place, column in enumerate(self.accepted) if answer.x[column] > 0.5)
            if answer.status == LIMIT:
                raise TimeoutError("the time is over")
            if answer.status != NO_SOLUTION:
                raise GaveUp(answer.status)
        return None


def least_and_greatest_price(curve: Curve, least: int, most: int) -> tuple[int, int]:
    """Between which prices the rule's price lies, for the net volumes from `least` to `most`: between supporting prices, and
    never beyond the limits of all orders but where no order or every one is taken."""
    edges = [rules.price_and_case(*curve.supporting_prices(net))[0] for net in (curve.least, curve.most)]
    lower, upper = min(curve.limits[:1] + edges), max(curve.limits[-1:] + edges)
    return max(lower, curve.supporting_prices(most)[0]), min(upper, curve.supporting_prices(least)[1])


def pairs_of_equal_blocks(problem: selection.Problem) -> Iterator[tuple[int, int]]:
    """Pairs of blocks that differ in name alone, without links and groups: the best selection doesn't accept the later one
    alone, since the earlier one in its place would rank above."""
    named = {place for place, parent in enumerate(problem.parents) if parent is not None}
    named |= {parent for parent in problem.parents if parent is not None}
    named |= {place for members in problem.groups().values() for place in members}
    last: dict[tuple[str, int, Volumes], int] = {}
    for place, block in enumerate(problem.blocks):
        if place not in named:
            key = block.order.side, block.order.price, block.order.volumes
            if key in last:
                yield last[key], place
            last[key] = place


def questions_to_highs(accepted: frozenset[int], welfare: int, blocks: int) -> Iterator[tuple[int, list[int]]]:
    """The question to HiGHS: the least welfare, and how the blocks at the first places are decided."""
    flags = [int(place in accepted) for place in range(blocks)]
    yield welfare + 1, []
    for place in range(blocks):
        if not flags[place]:
            yield welfare, flags[:place] + [1]


def search_with_highs(
    problem: selection.Problem,
    accepted: frozenset[int],
    welfare: int,
    progress: Progress,
    tell: Callable[[str], object] = lambda words: None,
) -> tuple[Selection | None, str]:
    """A selection that ranks above this eligible one, or None if HiGHS has none; and how that was found. `tell` gets in words how far
    the search is."""
    model = Model(problem)
    model.forbid(accepted)
    looked = 0
    tell(progress_text(looked))
    for least, fixed in questions_to_highs(accepted, welfare, len(problem.blocks)):
        for count in itertools.count():
            model.restrict(least, fixed, ROOM if count < TOO_MANY else 1)
            other = solve_in_time(model, progress, looked)
            if other is None:
                break
            looked += 1
            tell(progress_text(looked))
            value = selection.eligible_welfare(problem, other)
            if value is not None and selection.ranks_above(len(problem.blocks), value, other, welfare, accepted):
                return recursive_enumeration.Selection(other, value), "found by HiGHS"
            model.forbid(other)
    kind = "which breaks a rule or ranks below" if looked == 1 else "which break a rule or rank below"
    return None, f"HiGHS offers {looked} other{'s' * (looked > 1)}, {kind}" if looked else "HiGHS found none better"


def progress_text(looked: int) -> str:
    """How far the search is, in words, as long as nothing better was offered."""
    found = f", and has offered {looked} other selection{'s' * (looked > 1)}" if looked else ""
    return f"HiGHS is still searching{found}"


def solve_in_time(model: Model, progress: Progress, looked: int) -> frozenset[int] | None:
    """The next selection that HiGHS offers, or None. Fails if no time is left."""
    left = progress.seconds_left()
    try:
        if left > 0:
            return model.solve_for_selection(left)
    except TimeoutError:
        pass
    raise TimeoutError(progress.timeout_message(progress_text(looked)))
