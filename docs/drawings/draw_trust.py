#!/usr/bin/env python3
"""draw_trust.py unit-7 | selections [--draw]: the numbers of TRUST.md, or with --draw the text of a picture of them.

`unit-7` is about what the block UNIT-7 would do to the prices of the sunny day: the picture is docs/unit-7.svg. `selections` is about how
many selections of its blocks each rule leaves: docs/selections.svg. The pictures need matplotlib (Debian's package python3-matplotlib)."""

import sys
from fractions import Fraction
from pathlib import Path
from typing import NamedTuple

TOP = Path(__file__).resolve().parents[2]
sys.dont_write_bytecode = True
sys.path.insert(0, str(TOP / "tools"))

from draw_bound import read_sunny_day
from lib.audit import recursive_enumeration
from lib.base import rules, text
from lib.results import selection
from lib.tool import exits, modules

BLOCK = "COAL", "UNIT-7"
LEFT = 0.6  # where the bars of the selections begin, so that one selection is seen


class Counting(recursive_enumeration.Search):
    """Sorts the selections that links and groups admit by whether a block loses, each with its welfare."""

    def __init__(self, problem):
        super().__init__(problem)
        self.eligible, self.losing = [], []

    def keep_if_better(self, accepted, net, worth, value):
        self.tried += 1
        if None in worth.values():
            return
        prices = {number: rules.price_and_case(*curve.supporting_prices(net[number]))[0] for number, curve in self.curves.items()}
        surpluses = [selection.surplus_at(block.order, prices) for block in self.problem.blocks]
        loses = selection.losses_of(self.problem, accepted, surpluses)
        self.best = recursive_enumeration.Selection(accepted, sum(worth.values()) + value)  # the last one
        (self.losing if loses else self.eligible).append((self.best.welfare, accepted))


class Counts(NamedTuple):
    """How many selections each rule leaves."""

    blocks: int
    admitted: int  # by links and groups
    balanced: int
    eligible: int
    greatest: int  # eligible, and none of them has more welfare
    above: list  # the selections with more welfare than these, in which a block loses: each as its other blocks and its welfare beyond
    less: int  # by how much the best eligible selection with the block has less welfare


class Effect(NamedTuple):
    """The prices of the block's periods, and its gain, if it is rejected and if it is accepted."""

    limit: int
    periods: list
    volumes: list
    prices: list  # of the two
    gains: list

    def averages(self):
        """The average price of the periods, each counted by the block's volume."""
        worth = [sum(volume * price for volume, price in zip(self.volumes, prices)) for prices in self.prices]
        return [Fraction(total, sum(self.volumes)) for total in worth]


def counted(day):
    """The counts, and the best selection."""
    search = Counting(day)
    search.search_all()
    welfare, accepted = max(search.eligible, key=lambda found: found[0])
    greatest = sum(other == welfare for other, _ in search.eligible)
    above = sorted((found for found in search.losing if found[0] > welfare), reverse=True, key=lambda found: found[0])
    above = [(differences(day, accepted, chosen), other - welfare) for other, chosen in above]
    with_block = [other for other, chosen in search.eligible if day.place_of_block(*BLOCK) in chosen]
    balanced = len(search.eligible) + len(search.losing)
    counts = Counts(len(day.blocks), search.tried, balanced, len(search.eligible), greatest, above, welfare - max(with_block))
    return counts, accepted


def differences(day, accepted, chosen):
    """How a selection differs from the accepted blocks: 'with A', or 'with A in place of B'."""
    more, less = (", ".join(day.blocks[place].name for place in sorted(places)) for places in (chosen - accepted, accepted - chosen))
    return " ".join([f"with {more}"] * bool(more) + ["in place of" if more else "without", less][: 2 * bool(less)])


def effect(day, accepted):
    place = day.place_of_block(*BLOCK)
    order = day.blocks[place].order
    periods, volumes = map(list, zip(*order.volumes))
    found = [selection.outcome(day, chosen) for chosen in (accepted, accepted | {place})]
    prices = [[outcome.cleared[number].price for number in periods] for outcome in found]
    return Effect(order.price, periods, volumes, prices, [outcome.surpluses[place] for outcome in found])


def steps(counts):
    """The selections that each rule leaves, from all selections down to the published one."""
    yield 2**counts.blocks, f"ways to accept or reject {counts.blocks} blocks"
    yield counts.admitted, "of these obey links and groups"
    yield counts.balanced, f"{'(all of these)' if counts.balanced == counts.admitted else 'of these'} balance in each hour"
    yield counts.eligible, "of these: every accepted block at least breaks even, counted with its accepted descendants"
    yield counts.greatest, "of these has the greatest welfare: the published one"


def say_effect(day):
    counts, accepted = counted(day)
    found = effect(day, accepted)
    name = f"{' '.join(BLOCK)}, {text.shown_volume(max(found.volumes)).removesuffix('.0')} MW"
    yield f"{name:<20}{'rejected':>10}{'accepted':>12}"
    for number, *prices in zip(found.periods, *found.prices):
        yield f"price of hour {number:<4}" + "".join(f"{text.eur_per_mwh(price):>12}" for price in prices)
    yield f"{'their average':<18}" + "".join(f"{text.shown_price(average):>12}" for average in found.averages())
    yield f"{'its limit':<18}" + f"{text.eur_per_mwh(found.limit):>12}" * 2
    yield f"{'its gain, EUR':<18}" + "".join(f"{day.euros_text(gain):>12}" for gain in found.gains)
    yield f"the best permitted selection with {BLOCK[1]} has {day.euros_text(counts.less)} EUR less welfare"


def say_selections(day):
    counts, _ = counted(day)
    for count, words in steps(counts):
        yield f"{count:>5,}  {words}"
    yield f"{len(counts.above):>5,}  have more welfare, but in each an accepted block loses, with its descendants:"
    for words, more in counts.above:
        yield f"       the published one {words}: {day.euros_text(more)} EUR more"


def draw_effect(day):
    """The prices of the block's periods without it and with it, and its limit."""
    from lib.pictures import canvas

    found = effect(day, counted(day)[1])
    edges = [found.periods[0] - 1, *found.periods]
    with canvas.matplotlib.rc_context(canvas.STYLE):
        drawn, axes = canvas.pyplot.subplots(figsize=(canvas.BROAD * 0.7, 3))
        looks = {"color": canvas.COLOURS["sell"], "linewidth": 2.2}, {"color": canvas.COLOURS["ink"], "linewidth": 1.6, "linestyle": "--"}
        for prices, look, words in zip(found.prices, looks, ("UNIT-7 is rejected", "UNIT-7 is accepted")):
            axes.stairs([canvas.eur(price) for price in prices], edges, baseline=None, label=f"price if {words}", **look)
        axes.axhline(canvas.eur(found.limit), color=canvas.COLOURS["soft"], linewidth=1)
        axes.annotate(f"its limit: {canvas.eur(found.limit):g}", (edges[0], canvas.eur(found.limit)), (3, 4), textcoords="offset points")
        axes.set_xticks([edge + 0.5 for edge in edges[:-1]], [f"hour {number}" for number in found.periods])
        axes.set_ylabel("EUR/MWh")
        axes.set_ylim(0)
        axes.legend(loc="lower left")
        drawn.tight_layout()
    return drawn


def draw_selections(day):
    """How many selections each rule leaves, as bars on a logarithmic scale."""
    from lib.pictures import canvas

    rows = list(steps(counted(day)[0]))
    with canvas.matplotlib.rc_context({**canvas.STYLE, "axes.grid": False}):
        drawn, axes = canvas.pyplot.subplots(figsize=(canvas.BROAD * 0.7, 3.2))
        axes.set_xscale("log")
        for at, (count, words) in enumerate(rows):
            axes.barh(-at, count - LEFT, left=LEFT, height=0.3, color=canvas.COLOURS["sell"])
            axes.annotate(f"{count:,} {words}", (LEFT, 0.18 - at), (1, 1), textcoords="offset points")
        axes.set_xlim(LEFT, rows[0][0])
        ticks = [10**digits for digits in range(len(str(rows[0][0])))]
        axes.set_xticks(ticks, [f"{tick:,}" for tick in ticks])
        axes.set_xlabel("selections, on a logarithmic scale: each mark is ten times the one before")
        axes.minorticks_off()
        axes.set_yticks([])
        axes.spines["left"].set_visible(False)
        drawn.tight_layout()
    return drawn


SUBJECTS = {"unit-7": (say_effect, draw_effect), "selections": (say_selections, draw_selections)}


def main():
    words = sys.argv[1:]
    if not words or words[0] not in SUBJECTS or words[1:] not in ([], ["--draw"]):
        sys.exit(__doc__.split("\n\n", 1)[0])
    say, draw = SUBJECTS[words[0]]
    if not words[1:]:
        print(*say(read_sunny_day()), sep="\n")
        return
    modules.exec_or_require_modules("matplotlib")
    from lib.pictures import canvas

    sys.stdout.buffer.write(canvas.render_and_close(draw(read_sunny_day()), "svg"))


if __name__ == "__main__":
    exits.run_and_exit("draw_trust.py", main)
