"""The judgement on each block of a result: accepted, rejected, or paradoxically rejected, and the reason that decided, without words.

A rejected block is judged with the best family that it belongs to (see `families`): its gain at the prices, and the welfare that would
happen if it were accepted instead of the accepted blocks of its groups."""

from collections.abc import Sequence
from typing import NamedTuple

from . import families, selection

ACCEPTED, REJECTED, PARADOX = "accepted", "rejected", "paradoxically rejected"
# The deciding reasons of blocks, for programs and filters. docs/TABLES.md lists them.
GAINS, COVERED, LOSES, NEVER, NO_PRICE = "gains", "covered", "loses", "never", "no-price"
PARENT, GROUP, UNBALANCED, WOULD_LOSE, LESS, TIE, BETTER = "parent", "group", "unbalanced", "would-lose", "less-welfare", "tie", "better"


class Other(NamedTuple):
    """Another selection, and the reasons against it."""

    accepted: frozenset[int]
    unbalanced: int | None  # the first period that doesn't balance
    welfare: int | None  # if each period balances
    losers: dict[int, int]  # each accepted block that loses, with its loss


class Judgement(NamedTuple):
    kind: str
    code: str
    family: families.Family | None = None  # of a rejected block that can be accepted, and has a surplus
    other: Other | None = None  # the selection with that family
    tied: int | None = None  # an accepted block that offers the same as a rejected one
    conflict: Sequence[int] = ()  # the blocks of one group because of which a block can never be accepted


class Judge:
    """Judges the blocks of a result."""

    def __init__(self, problem: selection.Problem, accepted: frozenset[int], outcome: selection.Outcome) -> None:
        self.problem, self.accepted, self.outcome = problem, accepted, outcome

    def judgement(self, place: int) -> Judgement:
        if place in self.accepted:
            return Judgement(ACCEPTED, self.accepted_code(place))
        if conflict := families.members_never_together(self.problem, place):
            return Judgement(REJECTED, NEVER, conflict=conflict)
        family = families.best_family(self.problem, self.accepted, self.outcome.surpluses, place)
        if family is None:
            return Judgement(REJECTED, NO_PRICE)
        other, tied = self.selection_with(family), self.tied_place(place, family)
        is_paradox = not family.rivals and not family.losers() and family.gains[place] > 0 and family.gain() > 0
        code = self.rejected_code(place, family, other) if tied is None else TIE
        return Judgement(PARADOX if is_paradox else REJECTED, code, family, other, tied)

    def accepted_code(self, place: int) -> str:
        gain = self.outcome.surpluses[place]
        if gain is not None and gain >= 0:
            return GAINS
        if gain is not None:
            gain = selection.gain_with_rescuers(self.problem, self.accepted, place, self.outcome.surpluses)
        return NO_PRICE if gain is None else LOSES if gain < 0 else COVERED

    def tied_place(self, place: int, family: families.Family) -> int | None:
        """An accepted block that offers the same as a rejected one and stands earlier, in whose place that would be worth as much; None if
        there is none."""
        if family.rivals or family.members != {place} or family.gains[place] < 0 or self.outcome.welfare is None:
            return None
        order = self.problem.blocks[place].order
        for other in sorted(self.accepted):
            same = self.problem.blocks[other].order[:4] == order[:4]
            swapped = self.accepted - {other} | {place}
            if other < place and same and selection.eligible_welfare(self.problem, swapped) == self.outcome.welfare:
                return other
        return None

    def selection_with(self, family: families.Family) -> Other:
        """The result if a family were accepted."""
        accepted = self.accepted - family.removed | family.members
        then = selection.outcome(self.problem, accepted)
        unbalanced = next((number for number, found in then.cleared.items() if found is None), None)
        losers = selection.losses_of(self.problem, accepted, then.surpluses) if unbalanced is None else {}
        return Other(accepted, unbalanced, then.welfare, losers)

    def rejected_code(self, place: int, family: families.Family, other: Other) -> str:
        if family.rivals:
            return GROUP
        if family.gains[place] < 0:
            return LOSES
        return PARENT if family.losers() else self.code_against(other)

    def code_against(self, other: Other) -> str:
        """The reason against another selection: an unbalanced period, blocks that would lose, or the welfare."""
        if other.welfare is None:
            return UNBALANCED
        if other.losers:
            return WOULD_LOSE
        own = self.outcome.welfare
        if own is None or other.welfare > own:
            return BETTER
        return LESS if other.welfare < own else TIE
