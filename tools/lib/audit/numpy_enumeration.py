"""Whether a better selection of blocks exists, by trying every one: for n blocks each of the 2^n, with no bound and no solver.

A selection is a number of n bits, of which the first block has the highest: among selections of one welfare the greater number
ranks above. Its high bits say in which row it stands, and its low bits say where. Links and groups among the low bits are looked
at once, for all rows.

In a period, each tenth of a MW that hourly orders take comes from the cheapest order left: a sell that is executed, or a buy that
isn't. If they take none, all buys are executed and no sell; accepted buy blocks take more, and sell blocks less. So a period has
one table, of the welfare of its hourly orders by the tenths taken, over all that its blocks can reach; and a selection's welfare
is a sum of one number from each table, and of the worths of its blocks themselves.

Only a selection that ranks above the published one is checked for a loss. A selection that is found is checked again by the rules alone.

All numbers are whole, of 64 bits, which no sum exceeds (`greatest_sum`)."""

import itertools
import threading
from collections.abc import Iterable, Sequence
from concurrent.futures import ThreadPoolExecutor

import numpy

from ..base import rules
from ..process.progress import Progress
from ..results import selection
from ..results.period import Orders
from .recursive_enumeration import Curve, Selection, tried_text

Numbers = numpy.ndarray
LOW_BITS = 14
# The welfare of a period that doesn't balance. It is so low that a sum with it is under every welfare, and 100 of it are a number.
NEVER = -(2**56)
# Selections that are looked at for the loss of one block, and of all, at once.
MOST_SELECTIONS, FEW_SELECTIONS = 2**14, 2**10


def subset_sums(parts: Sequence[int]) -> Numbers:
    """The sum of each subset of these numbers, by the subset's number; the first part has the highest bit."""
    sums = numpy.zeros(1, dtype=numpy.int64)
    for part in reversed(parts):
        sums = numpy.concatenate([sums, sums + part])
    return sums


class Period:
    """The tables of a period, by how many tenths of a MW its hourly orders take."""

    def __init__(self, orders: Orders, takes: Sequence[int], low_bits: int) -> None:
        """`takes` has the tenths that each block takes, if it is accepted; a sell's are under 0."""
        self.curve = Curve(orders)
        self.limits, self.ends, self.buys = self.curve.limits, self.curve.ends, self.curve.most
        # The volumes that the blocks of high bits take, and the ones of low bits.
        high_bits = len(takes) - low_bits
        self.high, self.low = subset_sums(takes[:high_bits]), subset_sums(takes[high_bits:])
        # The volume that the orders take in all, at least and at most; and the same for the selections that balance.
        self.least = self.buys + int(self.high.min() + self.low.min())
        self.most = self.buys + int(self.high.max() + self.low.max())
        self.first, self.last = max(self.least, 0), min(self.most, self.ends[-1])
        self.lock = threading.Lock()
        self.coded: tuple[Numbers, Numbers] | None = None

    def welfares(self) -> Numbers:
        """The welfare by the volume that is taken, from `least` to `most`."""
        table = numpy.full(self.most - self.least + 1, NEVER, dtype=numpy.int64)
        balanced = table[self.first - self.least : self.last - self.least + 1]
        balanced[0] = self.curve.welfare_at(self.buys - self.first)
        # The welfare that each further tenth adds.
        counts = numpy.diff(numpy.clip(self.ends, self.first, self.last))
        balanced[1:] = numpy.repeat(-numpy.array(self.limits, dtype=numpy.int64), counts)
        numpy.cumsum(balanced, out=balanced)
        return table

    def prices(self, highs: Numbers, lows: Numbers) -> Numbers:
        """The period's price for each of these pairs of numbers of high and of low bits, for which it balances."""
        with self.lock:
            if self.coded is None:
                self.coded = self.codes_and_prices()
        codes, prices = self.coded
        taken = self.high.take(highs)
        taken += self.low.take(lows)
        taken += self.buys - self.first
        return prices.take(codes.take(taken))

    def codes_and_prices(self) -> tuple[Numbers, Numbers]:
        """For each number of tenths from `first` to `last` the place of its price in a list, and that list.

        The last tenth taken and the next one have the ends of the supporting prices. So the price changes only where the limits
        of two orders meet, and there it is a price of its own."""
        edges = [rules.LOWEST_PRICE, *self.limits, rules.HIGHEST_PRICE]
        begins, prices = [], []
        for place, end in enumerate(self.ends):
            begins += [end, end + 1]
            prices += [rules.price_and_case(edges[place], edges[place + 1])[0], edges[place + 1]]
        counts = numpy.diff(numpy.clip(begins, self.first, self.last + 1))
        there = numpy.flatnonzero(counts)
        kind = numpy.uint8 if len(there) <= 256 else numpy.uint16
        codes = numpy.repeat(numpy.arange(len(there), dtype=kind), counts[there])
        return codes, numpy.array(prices[:-1], dtype=numpy.int64)[there]


class Admissibility:
    """Which numbers links and groups admit."""

    def __init__(self, problem: selection.Problem) -> None:
        count = len(problem.blocks)
        bit = [1 << (count - 1 - place) for place in range(count)]
        # A child's bit needs its parent's, which is higher; too many bits of a group don't go together.
        self.needs = [(bit[child], bit[parent]) for child, parent in enumerate(problem.parents) if parent is not None]
        too_many = rules.MOST_OF_GROUP + 1
        self.apart = [
            sum(bit[place] for place in places)
            for members in problem.groups().values()
            for places in itertools.combinations(members, too_many)
        ]

    def admitted_within(self, bits: int, numbers: Numbers) -> Numbers:
        """Those of these numbers, which have some of these bits alone, that no link or group among the bits forbids."""
        admitted = numpy.ones(len(numbers), dtype=bool)
        for child, parent in self.needs:
            if child & bits and parent & bits:
                admitted &= (numbers & child == 0) | (numbers & parent != 0)
        for these in self.apart:
            if these & bits == these:
                admitted &= numbers & these != these
        return numbers[admitted]

    def are_admitted_across(self, low_bits: int, numbers: Numbers, high: int) -> Numbers:
        """Whether each number of low bits is admitted together with one of high bits."""
        admitted = numpy.ones(len(numbers), dtype=bool)
        for child, parent in self.needs:
            if child <= low_bits < parent and not high & parent:
                admitted &= numbers & child == 0
        for these in self.apart:
            low = these & low_bits
            if low and low != these and high & these == these - low:
                admitted &= numbers & low != low
        return admitted


class Floor:
    """The published selection, or the best one found above it: its welfare and its number."""

    def __init__(self, welfare: int, number: int) -> None:
        self.welfare, self.number = welfare, number

    def are_above(self, welfares: Numbers, numbers: Numbers) -> Numbers:
        return (welfares > self.welfare) | ((welfares == self.welfare) & (numbers > self.number))

    def lift_to_best(self, welfares: Numbers, numbers: Numbers) -> None:
        """The best of these selections, which rank above it, takes its place."""
        if len(numbers):
            self.welfare = int(welfares.max())
            self.number = int(numbers[welfares == self.welfare].max())


class Selections:
    """All selections of a problem, to be tried in some rows at a time."""

    def __init__(self, problem: selection.Problem, low_bits: int = LOW_BITS) -> None:
        self.problem = problem
        self.count = len(problem.blocks)
        self.low_bits = min(low_bits, self.count)
        self.admissibility = Admissibility(problem)
        takes = {number: [0] * self.count for number in problem.orders}
        for place, block in enumerate(problem.blocks):
            for number, net in selection.net_volumes(block.order):
                takes[number][place] = -net
        self.periods = {number: Period(orders, takes[number], self.low_bits) for number, orders in problem.orders.items()}
        # By period and block the sold less the bought volume; and the worth of a block, but for the prices.
        self.volumes = -numpy.array([*takes.values()], dtype=numpy.int64).T
        self.own = [-block.order.price * sum(net for _, net in selection.net_volumes(block.order)) for block in problem.blocks]
        high_bits = self.count - self.low_bits
        self.high_own, self.low_own = subset_sums(self.own[:high_bits]), subset_sums(self.own[high_bits:])
        self.all_low = (1 << self.low_bits) - 1
        self.lows = self.admissibility.admitted_within(self.all_low, numpy.arange(1 << self.low_bits))
        self.highs = self.admissibility.admitted_within((1 << self.count) - 1 - self.all_low, numpy.arange(1 << high_bits) << self.low_bits)
        greatest = greatest_sum(problem)
        if greatest >= -NEVER or (len(self.periods) + 1) * -NEVER >= 2**63:
            raise AssertionError(f"sums up to {greatest} don't fit")

    def prices(self, number: int, numbers: Numbers) -> Numbers:
        """The price of a period that follows from each of these selections, for which it balances."""
        return self.periods[number].prices(numbers >> self.low_bits, numbers & self.all_low)

    def are_accepted(self, numbers: Numbers, place: int) -> Numbers:
        return numbers & self.bit_of(place) != 0

    def surpluses(self, place: int, numbers: Numbers) -> Numbers:
        """The surplus of a block that follows from each of these selections."""
        volumes = selection.net_volumes(self.problem.blocks[place].order)
        total = numpy.full(len(numbers), self.own[place], dtype=numpy.int64)
        for number, net in volumes:
            total += net * self.prices(number, numbers)
        return total

    def are_losing(self, place: int, numbers: Numbers) -> Numbers:
        """Whether a block loses, together with its accepted descendants, in each of these selections, which accept it."""
        gain = self.surpluses(place, numbers)
        for other in self.problem.rescuers[place]:
            gain += self.surpluses(other, numbers) * self.are_accepted(numbers, other)
        return gain < 0

    def are_all_losing(self, numbers: Numbers) -> Numbers:
        """For each block, whether it is accepted and loses in each of these selections: by families, from the last block to the
        first."""
        prices = numpy.array([self.prices(number, numbers) for number in self.periods])
        gains = numpy.einsum("bp,ps->bs", self.volumes, prices) + numpy.array(self.own, dtype=numpy.int64)[:, None]
        for place in reversed(range(self.count)):
            gains[place] *= self.are_accepted(numbers, place)
            parent = self.problem.parents[place]
            if parent is not None:
                gains[parent] += gains[place]
        return gains < 0

    def bit_of(self, place: int) -> int:
        return 1 << (self.count - 1 - place)

    def number_of(self, accepted: Iterable[int]) -> int:
        return sum(self.bit_of(place) for place in accepted)

    def accepted_places(self, number: int) -> frozenset[int]:
        return frozenset(place for place in range(self.count) if number & self.bit_of(place))


def greatest_sum(problem: selection.Problem) -> int:
    """No sum of the enumeration is greater, of either sign: each order at the limits of prices, with its whole volume."""
    volumes = sum(volume for row in problem.rows for _, volume in row.order.volumes)
    return 2 * volumes * max(rules.HIGHEST_PRICE, -rules.LOWEST_PRICE)


class Rows:
    """Some rows of selections: their welfares, and the ones that rank above the published selection and have no loss."""

    def __init__(self, every: Selections, highs: Numbers, floor: Floor, progress: Progress) -> None:
        self.every, self.highs, self.progress = every, highs, progress
        self.floor = Floor(floor.welfare, floor.number)
        self.looked = self.admitted = 0
        # In which order blocks are looked at for a loss: those first that have lost most often, else from the last one.
        self.lost = dict.fromkeys(reversed(range(every.count)), 0)

    def lift(self) -> Floor:
        """The best of them that ranks above the floor, as a new floor."""
        welfares = self.welfares()
        waiting, held = [], 0
        for row in reversed(range(len(self.highs))):
            found = self.count_admitted_and_select_above(row, welfares[row])
            waiting.append(found)
            held += len(found[0])
            if held >= MOST_SELECTIONS or row == 0:
                self.lift_floor(*map(numpy.concatenate, zip(*waiting)))
                waiting, held = [], 0
        return self.floor

    def welfares(self) -> Numbers:
        """The welfare of each selection, a row for each number of high bits; NEVER or about that if a period doesn't balance."""
        every, rows = self.every, self.highs >> self.every.low_bits
        welfares = every.high_own[rows][:, None] + every.low_own[every.lows][None, :]
        for period in every.periods.values():
            self.add_period_welfare(welfares, period, rows)
            self.progress.count_and_show_or_raise(len(self.highs))
        return welfares

    def add_period_welfare(self, welfares: Numbers, period: Period, rows: Numbers) -> None:
        """Adds the welfare of a period. Rows whose blocks take the same volume of it get the same welfare."""
        table = period.welfares()
        places = period.low[self.every.lows] - period.low.min()
        starts = period.high[rows] - period.high.min()
        last = None
        for row in numpy.argsort(starts, kind="stable").tolist():
            if starts[row] != last:
                last = starts[row]
                worths = table[last:].take(places)
            welfares[row] += worths

    def count_admitted_and_select_above(self, row: int, welfares: Numbers) -> tuple[Numbers, Numbers]:
        """The numbers and welfares of the selections of a row that rank above the floor."""
        every, high = self.every, int(self.highs[row])
        admitted = every.admissibility.are_admitted_across(every.all_low, every.lows, high)
        self.admitted += numpy.count_nonzero(admitted)
        places = numpy.flatnonzero(admitted & (welfares >= self.floor.welfare))
        numbers, welfares = every.lows[places] | high, welfares[places]
        over = self.floor.are_above(welfares, numbers)
        return numbers[over], welfares[over]

    def lift_floor(self, numbers: Numbers, welfares: Numbers) -> None:
        """Checks some selections that rank above the floor for a loss. The best one without is the new floor."""
        for first in range(0, len(numbers), MOST_SELECTIONS):
            part = slice(first, first + MOST_SELECTIONS)
            over = self.floor.are_above(welfares[part], numbers[part])
            gaining = self.count_and_drop_losing(numbers[part][over])
            lasting = numpy.isin(numbers[part], gaining)
            self.floor.lift_to_best(welfares[part][lasting], numbers[part][lasting])

    def count_and_drop_losing(self, numbers: Numbers) -> Numbers:
        """Those of some selections of which no accepted block loses. As long as the block that has lost most often leaves out many,
        it alone is looked at, in the selections that accept it; then all blocks are."""
        self.looked += len(numbers)
        for place in sorted(self.lost, key=lambda place: -self.lost[place]):
            before = len(numbers)
            if before >= FEW_SELECTIONS:
                accepting = numpy.flatnonzero(self.every.are_accepted(numbers, place))
                losing = accepting[self.every.are_losing(place, numbers[accepting])]
                self.lost[place] += len(losing)
                numbers = numpy.delete(numbers, losing)
            self.progress.count_and_show_or_raise(0)
            if 4 * len(numbers) > 3 * before:
                break
        gaining = [numbers[:0]]
        for first in range(0, len(numbers), FEW_SELECTIONS):
            part = numbers[first : first + FEW_SELECTIONS]
            losing = self.every.are_all_losing(part)
            for place, count in enumerate(losing.sum(axis=1).tolist()):
                self.lost[place] += count
            gaining.append(part[~losing.any(axis=0)])
        return numpy.concatenate(gaining)


def search_with_numpy(
    problem: selection.Problem, accepted: frozenset[int], welfare: int, progress: Progress, jobs: int = 1, low_bits: int = LOW_BITS
) -> tuple[Selection | None, str]:
    """The best selection, if it ranks above this eligible one, else None; and how that was found."""
    every = Selections(problem, low_bits)
    first = Floor(welfare, every.number_of(accepted))
    shares = [Rows(every, highs, first, progress) for highs in numpy.array_split(every.highs, jobs) if len(highs)]
    progress.add_expected_steps(len(every.highs) * len(every.periods))
    with ThreadPoolExecutor(jobs) as threads:
        try:
            floors = [running.result() for running in [threads.submit(share.lift) for share in shares]]
        finally:
            progress.stop_and_erase()
    best = max(floors, key=lambda floor: (floor.welfare, floor.number))
    how = tried_text(len(problem.blocks), sum(share.admitted for share in shares), sum(share.looked for share in shares))
    if best.number == first.number:
        return None, how
    found = Selection(every.accepted_places(best.number), best.welfare)
    if selection.eligible_welfare(problem, found.accepted) != found.welfare:
        raise AssertionError(f"the selection {sorted(found.accepted)} is not eligible with the welfare that the tables gave it")
    return found, how
