#!/usr/bin/env python3
"""draw_bound.py > docs/bound.svg: draws the picture of BOUND.md: one price for each period of the sunny day, the gains of its blocks at
these prices, and the tree of decisions that the bound by these prices cuts.

Of each period, the price is the clearing price at the middle of the net volumes that its blocks can make. The tree is that of a search
that knows the result's welfare from the start, and keeps these prices. It needs matplotlib, as
tools/plot does."""

import sys
from pathlib import Path
from typing import NamedTuple

TOP = Path(__file__).resolve().parents[2]
sys.dont_write_bytecode = True
sys.path.insert(0, str(TOP / "tools"))

from lib.base import rules
from lib.journal import book, journal
from lib.results import period, selection


def read_sunny_day():
    closed, _ = book.book_and_refusals(journal.parse_journal((TOP / "examples/sunny-day.csv").read_bytes()))
    return selection.Problem(closed)


def middle(day, number):
    """The middle of the net volumes that the blocks can make of a period, rounded down."""
    return sum(dict(selection.net_volumes(block.order)).get(number, 0) for block in day.blocks) // 2


def prices_of(day):
    return {number: period.clear(orders, middle(day, number)).price for number, orders in day.orders.items()}


class Bound(NamedTuple):
    """A bound by prices: the surplus of all hourly orders, and the gain of each block."""

    base: int
    gains: list

    def of(self, taken, undecided):
        """The greatest welfare that a selection can have that accepts the blocks taken, any of the undecided ones, and no others."""
        return self.base + sum(self.gains[place] for place in taken) + sum(max(self.gains[place], 0) for place in undecided)


def bound_by(day, prices):
    """The bound by these prices."""
    base = 0
    for number, orders in day.orders.items():
        for side, limit, volume in orders:
            gain = (limit - prices[number]) * volume
            base += max(gain if side == "buy" else -gain, 0)
    return Bound(base, [selection.surplus_at(block.order, prices) for block in day.blocks])


def order_of(day):
    """The places of the blocks by falling total volume."""
    return sorted(range(len(day.blocks)), key=lambda place: -sum(volume for _, volume in day.blocks[place].order.volumes))


class Node(NamedTuple):
    """Decisions on the first blocks of the order, as a word of 'a' (accepted) and 'r' (rejected), with the bound of all selections that
    agree with them."""

    decisions: str
    taken: frozenset
    bound: int
    is_cut: bool


def nodes(day, bound, order, least):
    """The nodes that a search by one bound visits, from the root on. A node is cut if its bound is less than `least()` at that time."""

    def visit(decisions, taken):
        undecided = order[len(decisions):]
        own = bound.of(taken, undecided)
        is_cut = own < least()
        yield Node(decisions, taken, own, is_cut)
        if is_cut or not undecided:
            return
        place, *later = undecided
        for accept in (True, False):
            if not is_forbidden(day, place, accept, taken, later):
                yield from visit(decisions + "ra"[accept], taken | {place} if accept else taken)

    yield from visit("", frozenset())


def is_forbidden(day, place, accept, taken, later):
    """Whether links or groups forbid this decision next to those on other blocks."""
    if not accept:
        return any(day.parents[other] == place for other in taken)
    parent = day.parents[place]
    if parent is not None and parent not in taken and parent not in later:
        return True
    return any(place in members and len(taken & set(members)) >= rules.MOST_OF_GROUP for members in day.groups().values())


def result(day, bound, order):
    """The greatest welfare of an eligible selection, by a search by one bound that begins with the empty selection."""
    best = selection.eligible_welfare(day, frozenset())
    for node in nodes(day, bound, order, lambda: best):
        if len(node.decisions) == len(order) and not node.is_cut:
            welfare = selection.eligible_welfare(day, node.taken)
            best = best if welfare is None else max(best, welfare)
    return best


def thousands(amount):
    """An amount in cents per MWh times tenths of a MW, over hours, in 1,000 EUR."""
    return amount / 1_000_000


def draw_prices(axes, day, prices, canvas):
    axes.step(list(prices), [canvas.eur(price) for price in prices.values()], where="mid", color=canvas.COLOURS["ink"], linewidth=1.4)
    axes.set_title("one price for each period, EUR/MWh", loc="left", fontsize=9)
    axes.set_xlabel("period")
    axes.set_xlim(0.5, day.periods + 0.5)


def draw_gains(axes, day, bound, order, canvas):
    gains = [thousands(bound.gains[place]) for place in order]
    colours = [canvas.COLOURS["sell" if gain >= 0 else "paradox"] for gain in gains]
    axes.barh(range(len(order)), gains, color=colours, edgecolor=canvas.COLOURS["ink"], linewidth=0.6)
    axes.set_yticks(range(len(order)), [f"{day.blocks[place].who} {day.blocks[place].name}" for place in order], fontsize=8)
    axes.invert_yaxis()
    axes.axvline(0, color=canvas.COLOURS["ink"], linewidth=0.8)
    axes.set_title("the blocks' gains at these prices, 1,000 EUR", loc="left", fontsize=9)


def draw_tree(axes, found, least, canvas):
    """Each node at its depth and bound, with a line to its parent."""
    from lib.pictures import matplotlib_settings

    height = {node.decisions: thousands(node.bound - least) for node in found}
    for letter, style in (("a", "-"), ("r", ":")):
        lines = [
            [(len(word) - 1, height[word[:-1]]), (len(word), height[word])]
            for word in (node.decisions for node in found)
            if word.endswith(letter)
        ]
        axes.add_collection(matplotlib_settings.LineCollection(lines, linestyle=style, color=canvas.COLOURS["soft"], linewidth=0.7, zorder=1))
    for is_cut, colour in ((False, "sell"), (True, "paradox")):
        words = [node.decisions for node in found if node.is_cut == is_cut]
        axes.scatter([len(word) for word in words], [height[word] for word in words], s=18, color=canvas.COLOURS[colour],
                     edgecolor=canvas.COLOURS["ink"], linewidth=0.5, zorder=2)
    axes.axhline(0, color=canvas.COLOURS["ink"], linewidth=0.8)
    blocks = max(map(len, height))
    axes.set_title(f"the bounds of {len(found)} of {2 ** (blocks + 1) - 1:,} nodes, over the result's welfare, 1,000 EUR", loc="left",
                   fontsize=9)
    axes.set_xlabel("blocks decided, in the order above: accepted (solid), rejected (dotted)")


def figure():
    from lib.pictures import canvas

    day = read_sunny_day()
    prices = prices_of(day)
    bound, order = bound_by(day, prices), order_of(day)
    least = result(day, bound, order)
    found = list(nodes(day, bound, order, lambda: least))
    with canvas.matplotlib.rc_context(canvas.STYLE):
        drawn, axes = canvas.pyplot.subplot_mosaic([["prices", "gains"], ["tree", "tree"]], figsize=(canvas.BROAD, 6))
        draw_prices(axes["prices"], day, prices, canvas)
        draw_gains(axes["gains"], day, bound, order, canvas)
        draw_tree(axes["tree"], found, least, canvas)
        drawn.tight_layout(w_pad=2)
    return drawn


if __name__ == "__main__":
    from lib.pictures import canvas

    sys.stdout.buffer.write(canvas.render_and_close(figure(), "svg"))
