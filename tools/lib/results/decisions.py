"""The decision on each block of a result with its reason in words, and the reason for the execution of an hourly order."""

from collections.abc import Iterable, Sequence
from typing import NamedTuple

from ..base import text
from . import families, judgement, selection
from .trades import PublishedDay

# At most this many losing blocks of another selection are named.
MOST_LOSERS = 3
# The deciding reasons of hourly orders, as `judgement` has those of blocks.
IN_THE_MONEY, AT_THE_PRICE, OUT_OF_THE_MONEY, NO_TRADE = "in-the-money", "at-the-price", "out-of-the-money", "no-trade"


class Decision(NamedTuple):
    """The judgement on a block, and why in words."""

    kind: str
    why: str
    code: str
    family: families.Family | None = None
    other: judgement.Other | None = None


class Reason(NamedTuple):
    code: str
    words: str


def decisions(problem: selection.Problem, accepted: selection.Places, outcome: selection.Outcome) -> list[Decision]:
    """The decision on each block, by place."""
    judge, wording = judgement.Judge(problem, frozenset(accepted), outcome), Wording(problem, frozenset(accepted), outcome)
    judged = map(judge.judgement, range(len(problem.blocks)))
    return [Decision(one.kind, wording.why_text(place, one), one.code, one.family, one.other) for place, one in enumerate(judged)]


class Wording:
    """The words for the judgements on the blocks of a result."""

    def __init__(self, problem: selection.Problem, accepted: frozenset[int], outcome: selection.Outcome) -> None:
        self.problem, self.accepted, self.outcome = problem, accepted, outcome
        self.surpluses = outcome.surpluses

    def why_text(self, place: int, judged: judgement.Judgement) -> str:
        if judged.kind == judgement.ACCEPTED:
            return self.accepted_text(place)
        if judged.conflict:
            return self.never_accepted_text(place, judged.conflict)
        if judged.family is None or judged.other is None:
            return self.no_price_text(place)
        if judged.tied is not None:
            return self.tie_text(place, judged.family, judged.tied)
        return self.rejected_text(place, judged.family, judged.other)

    def amount_in_eur(self, amount: int) -> str:
        return f"{text.amount(amount, self.problem.hours)} EUR"

    def name(self, place: int) -> str:
        return self.problem.blocks[place].name

    def names_text(self, places: Iterable[int]) -> str:
        return listed_text([self.name(place) for place in sorted(places)])

    def accepted_text(self, place: int) -> str:
        surplus, parent = self.surpluses[place], self.problem.parents[place]
        if surplus is None:
            return "is accepted, and has a period that doesn't balance, and so has no price"
        why = "gains at the prices" if surplus > 0 else "gains nothing"
        if surplus < 0:
            together = selection.gain_with_rescuers(self.problem, self.accepted, place, self.surpluses)
            rescuers = selection.accepted_rescuers(self.problem, self.accepted, place)
            why = "loses at the prices"
            if together is None:
                unpriced = next(self.name(other) for other in rescuers if self.surpluses[other] is None)
                return f"{why} by itself, and a period of {unpriced}, which descends from it, doesn't balance"
            if rescuers:
                does = "loses" if together < 0 else "gains"
                why += f" by itself, and with {self.names_text(rescuers)} it {does} {self.amount_in_eur(abs(together))}"
        return why + (f", and its parent {self.name(parent)} is accepted" if parent is not None else "")

    def never_accepted_text(self, place: int, of_group: Sequence[int]) -> str:
        group = self.problem.blocks[of_group[0]].order.group
        above = [self.name(other) for other in of_group if other != place]
        words = f"{listed_text(above)}, from which it descends," + (" and it" if place in of_group else "")
        return f"can never be accepted, because {words} are {'both' if len(of_group) == 2 else 'all'} of the group {group}"

    def no_price_text(self, place: int) -> str:
        why = "has a period that doesn't balance, and so has no price"
        if self.surpluses[place] is not None:
            why = "descends from a block with a period that doesn't balance, and so has no price"
        parent = self.problem.parents[place]
        return why if parent is None or parent in self.accepted else f"{why}; its parent {self.name(parent)} is rejected"

    def tie_text(self, place: int, family: families.Family, tied: int) -> str:
        other, own = self.problem.blocks[tied], self.problem.blocks[place]
        name = other.name if other.who == own.who else str(other)
        return f"{self.at_the_prices_text(place, family)}, but {name} offers the same and stands earlier in the book"

    def rejected_text(self, place: int, family: families.Family, other: judgement.Other) -> str:
        """The reason that decided a rejected block, and the consequences of its acceptance."""
        why, then = self.at_the_prices_text(place, family), self.consequence_text(place, other)
        if family.rivals:
            return f"{why}; {self.instead_text(place, family)} {then}"
        if family.gains[place] < 0:
            parent = self.problem.parents[place]
            return why + (f"; its parent {self.name(parent)} is rejected" if parent in family.needed else "")
        count = len(family.members)
        word = {1: "it", 2: "both"}.get(count, f"all {count}")
        join = "; " if family.losers() else ", but " if family.gain() else ", and "
        return f"{why}{join}if {word} were added and the other blocks stayed as they are, {then}"

    def at_the_prices_text(self, place: int, family: families.Family) -> str:
        """The gain or loss of a block at the prices, with its family."""
        own, rescuers = family.gains[place], family.members.intersection(self.problem.rescuers[place])
        if own < 0:
            return f"would lose {self.amount_in_eur(-own)} at the prices" + (f", even with {self.names_text(rescuers)}" if rescuers else "")
        losers = family.losers()
        others = rescuers if losers else family.members - {place}
        gain = own if losers else family.gain()
        start = f"with {self.names_text(others)} it " if others else ""
        why = start + (f"would gain {self.amount_in_eur(gain)} at the prices" if gain else "would gain nothing at the prices")
        if losers:
            word = "its parent " if losers[0] == self.problem.parents[place] else ""
            below = family.members.intersection(self.problem.rescuers[losers[0]])
            why += f", but {word}{self.name(losers[0])}, without which it can't be accepted, would lose"
            why += f" {self.amount_in_eur(-family.gains[losers[0]])} even with {'it' if below == {place} else self.names_text(below)}"
        return why

    def instead_text(self, place: int, family: families.Family) -> str:
        """Which accepted blocks leave no room in the groups, and the blocks that would take their place."""
        own = self.problem.blocks[place].order.group
        groups = []
        for rival in family.rivals:
            group = self.problem.blocks[rival].order.group
            of = next(member for member in family.needed if self.problem.blocks[member].order.group == group)
            words = f"its group {group}" if group == own else f"the group {group} of {self.name(of)}"
            groups.append(f"{self.name(rival)} of {words}")
        are = "is" if len(groups) == 1 else "are"
        their, them = ("its", "it") if len(groups) == 1 else ("their", "them")
        orphans = family.removed - set(family.rivals)
        besides = f" and that of {self.names_text(orphans)}, which can't be accepted without {them}," if orphans else ""
        return f"{listed_text(groups)} {are} accepted, and with {self.names_text(family.members)} in {their} place{besides}"

    def consequence_text(self, place: int, other: judgement.Other) -> str:
        """The words against another selection: an unbalanced period, who would lose, or the welfare."""
        if other.unbalanced is not None:
            return f"period {other.unbalanced} wouldn't balance: {self.unmatched_text(other.accepted, other.unbalanced)}"
        assert other.welfare is not None  # each period balances
        worth, own = self.worth_text(other.welfare), self.outcome.welfare
        if other.losers:
            more = own is not None and other.welfare > own
            return f"{self.loss_text(place, other)}, {'though' if more else 'and'} {worth}"
        if other.welfare != own:
            return worth
        above = selection.ranks_above(len(self.problem.blocks), other.welfare, other.accepted, own, self.accepted)
        return f"{worth}, and {'it ranks above' if above else 'of equal selections the one with the earlier block is taken'}"

    def unmatched_text(self, accepted: frozenset[int], number: int) -> str:
        """The volume of the accepted blocks that the period's hourly orders of the other side can't match."""
        net = 0
        for place in accepted:
            net += dict(selection.net_volumes(self.problem.blocks[place].order)).get(number, 0)
        side, word = ("buy", "buyer") if net > 0 else ("sell", "seller")
        volume = abs(net) - sum(quantity for one, _, quantity in self.problem.orders[number] if one == side)
        return f"{text.mw(volume)} MW would have no {word}"

    def worth_text(self, welfare: int) -> str:
        if self.outcome.welfare is None:
            return f"the welfare would be {self.amount_in_eur(welfare)}"
        more = welfare - self.outcome.welfare
        if not more:
            return "the welfare would be the same"
        return f"the welfare would be {self.amount_in_eur(abs(more))} {'greater' if more > 0 else 'less'}"

    def loss_text(self, place: int, other: judgement.Other) -> str:
        """Who would lose in another selection, the block itself first."""
        words = []
        first = sorted(other.losers, key=lambda loser: (loser != place, loser))[:MOST_LOSERS]
        for loser in first:
            family = " together with its accepted descendants" if selection.accepted_rescuers(self.problem, other.accepted, loser) else ""
            who = "the block itself" if loser == place else str(self.problem.blocks[loser])
            words.append(f"{who} would lose {self.amount_in_eur(other.losers[loser])}{family}")
        more = len(other.losers) - MOST_LOSERS
        if more > 0:
            words.append(f"{more} more block{'s' * (more > 1)} would lose")
        return listed_text(words)


def listed_text(words: Iterable[str]) -> str:
    """Words in a row, such as `A`, `A and B` or `A, B and C`."""
    words = list(words)
    return " and ".join([", ".join(words[:-1]), words[-1]] if len(words) > 1 else words)


def hourly_reason(day: PublishedDay, row: selection.Row, executed: int) -> Reason:
    number = row.order.volumes[0][0]
    if not day.published.volumes[number - 1]:
        return Reason(NO_TRADE, f"nothing is traded in period {number}")
    price, limit = day.published.prices[number - 1], row.order.price
    gain = limit - price if row.order.side == "buy" else price - limit
    shown = f"the price, {text.eur_per_mwh(price)} EUR/MWh"
    if gain > 0:
        return Reason(IN_THE_MONEY, f"its limit is better than {shown}")
    if gain < 0:
        return Reason(OUT_OF_THE_MONEY, f"its limit is worse than {shown}")
    if executed == row.order.volumes[0][1]:
        return Reason(AT_THE_PRICE, f"its limit is {shown}")
    short = "less is offered than is wanted at it" if row.order.side == "buy" else "not all that is offered at it is needed"
    return Reason(AT_THE_PRICE, f"its limit is {shown}; {short}")
