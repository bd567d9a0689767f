"""Demand and supply of one period."""

from collections.abc import Iterable, Iterator
from fractions import Fraction
from typing import NamedTuple

from ..base import clock, rules, text
from ..results import selection, trades
from ..results.trades import PublishedDay
from .canvas import BROAD, COLOURS, STYLE, add_heading, add_hover, add_legend, digit_count, eur, is_narrow, mw, new_panels
from .canvas import set_label_places, set_margins, set_number_format
from .matplotlib_settings import AutoLocator, Axes, Figure, Rectangle, matplotlib

# Of the curves of a period, the steps within this share of the traded volume are shown, and those no further from the price than this, in
# EUR/MWh; but not a limit that is this many times further from it than the one before.
NEAR_SHARE, NEAR_PRICES, JUMP = 0.15, 20, 4
# The margins of a period's curves, in inches: left, right, bottom and top.
CURVE_MARGINS = {"broad": (0.85, 0.75, 0.5, 0.5), "narrow": (0.7, 0.62, 1.2, 0.5)}


class Curve(NamedTuple):
    """The points of a curve, and the volume at its end in tenths of a MW."""

    xs: list[float]
    ys: list[float]
    end: int

    def steps(self) -> Iterator[tuple[float, float, float]]:
        """Of each step the volumes at its ends, and the limit."""
        return zip(self.xs[::2], self.xs[1::2], self.ys[::2])


class CurveSheet:
    """A figure for the curves of one period after another, since to make new axes and ticks takes as long as half of the drawing."""

    def __init__(self, width: float = BROAD) -> None:
        with matplotlib.rc_context(STYLE):
            self.figure, (self.axes,) = new_panels([4.6 if width == BROAD else 4], width)
        set_margins(self.figure, *CURVE_MARGINS["broad" if width == BROAD else "narrow"])
        set_label_places(self.axes, 0.234, 0.47)

    def clear(self) -> None:
        """Takes away the drawing, and leaves the axes as they were made."""
        axes = self.axes
        for artist in [*axes.lines, *axes.patches, *axes.collections, *axes.texts, *filter(None, [axes.get_legend()])]:
            artist.remove()
        for axis in (axes.xaxis, axes.yaxis):
            axis.set_major_locator(AutoLocator())
        self.figure.hover = {}

    def redraw(self, day: PublishedDay, number: int) -> Figure:
        """The figure with a period's curves in place of the last ones."""
        self.clear()
        with matplotlib.rc_context(STYLE):
            draw_curves(self.axes, day, number)
        return self.figure


def curve_points(orders: Iterable[tuple[str, int, int]], side: str, begin: int) -> Curve:
    """The curve of the orders of a side from the best, from a volume on."""
    own = sorted((limit, volume) for of, limit, volume in orders if of == side)
    if side == "buy":
        own.reverse()
    curve, at = Curve([], [], begin), begin
    for limit, volume in own:
        curve.xs.extend((mw(at), mw(at + volume)))
        curve.ys.extend((eur(limit), eur(limit)))
        at += volume
    return curve._replace(end=at)


def sold_and_bought_volume(day: PublishedDay, number: int) -> tuple[int, int]:
    """The sold volume of the accepted blocks in a period, and their bought volume."""
    sold = bought = 0
    for place in day.published.accepted:
        for at, volume in selection.net_volumes(day.problem.blocks[place].order):
            if at == number:
                sold, bought = sold + max(volume, 0), bought + max(-volume, 0)
    return sold, bought


def price_range(day: PublishedDay, number: int, curves: Iterable[Curve]) -> tuple[float, float]:
    """The shown part of the price axis for a period's curves: the limits about the crossing, or all if they aren't far off."""
    limits = [limit for _, limit, _ in day.problem.orders[number]]
    price, traded = day.published.prices[number - 1], trades.is_traded(day, number)
    limits += [price] * (traded or not limits)
    least: float = min(limits)
    most: float = max(limits)
    if traded:
        at = day.published.volumes[number - 1]
        near = sorted(abs(limit - eur(price)) for curve in curves for limit in limits_near(curve, mw(at)))
        far: float = NEAR_PRICES
        for distance in near:
            if distance > JUMP * far:
                break
            far = max(far, distance)
        least, most = max(least, price - 120 * far), min(most, price + 120 * far)
    room = max(0.1 * (most - least), 500)
    return eur(least - room), eur(most + room)


def limits_near(curve: Curve, volume: float) -> list[float]:
    """The limits of a curve's steps about a volume, in EUR/MWh."""
    least, most = (1 - NEAR_SHARE) * volume, (1 + NEAR_SHARE) * volume
    return [limit for begin, end, limit in curve.steps() if begin <= most and end >= least]


def draw_tail_text(axes: Axes, day: PublishedDay, number: int, bottom: float, top: float) -> None:
    """Says how far the limits go that the price axis doesn't show."""
    limits = [eur(limit) for _, limit, _ in day.problem.orders[number]]
    under = {"facecolor": COLOURS["paper"], "edgecolor": "none", "pad": 1.5}
    look = {"transform": axes.transAxes, "color": COLOURS["soft"], "fontsize": 7, "bbox": under, "zorder": 4}
    if limits and max(limits) > top:
        words = f"\u2191 limits go up to {text.shown_price(round(max(limits) * 100))} EUR/MWh"
        axes.text(0.012, 0.985, words, va="top", ha="left", **look)
    if limits and min(limits) < bottom:
        words = f"\u2193 limits go down to {text.shown_price(round(min(limits) * 100))} EUR/MWh"
        axes.text(0.988, 0.015, words, va="bottom", ha="right", **look)


def add_step_hover(axes: Axes, points: Curve, name: str, bottom: float, top: float) -> None:
    """Shows the limit and the volumes of each step of a curve that the axis shows."""
    steps_shown = [step for step in points.steps() if bottom <= step[2] <= top]
    half = 0.012 * (top - bottom)
    areas = [[(begin, at - half), (end, at - half), (end, at + half), (begin, at + half)] for begin, end, at in steps_shown]
    told = [f"{name}: {shown_mw(begin)} to {shown_mw(end)} MW at {text.shown(Fraction(at).limit_denominator(100), 2)} EUR/MWh"
            for begin, end, at in steps_shown]
    add_hover(axes, name, areas, told)


def shown_mw(value: float) -> str:
    return text.shown(Fraction(value).limit_denominator(10), 1)


def draw_curves(axes: Axes, day: PublishedDay, number: int) -> None:
    """The hourly orders' demand and supply; the curve of the side that the blocks help begins after their net volume."""
    orders = day.problem.orders[number]
    sold, bought = sold_and_bought_volume(day, number)
    net = sold - bought
    traded = trades.is_traded(day, number)
    demand = curve_points(orders, "buy", max(-net, 0))
    supply = curve_points(orders, "sell", max(net, 0))
    bottom, top = price_range(day, number, (demand, supply))
    most = mw(max(demand.end, supply.end, 10))
    if net:
        draw_net(axes, net, bottom, top)
    ends = eur(2 * rules.LOWEST_PRICE), eur(2 * rules.HIGHEST_PRICE)  # beyond each limit
    look = {"color": COLOURS["ink"], "linestyle": "--", "label": "demand of hourly orders"}
    draw_curve(axes, demand, mw(max(-net, 0)), ends[1], ends[0], **look)
    draw_curve(axes, supply, mw(max(net, 0)), *ends, color=COLOURS["sell"], label="supply of hourly orders")
    if traded:
        draw_clearing(axes, day, number, net)
    axes.set_xlim(0, most * 1.03)
    axes.set_ylim(bottom, top)
    set_number_format(axes.xaxis, digit_count(most))
    set_number_format(axes.yaxis)
    if not orders and not traded:
        draw_without_orders(axes)
    add_step_hover(axes, demand, "demand", bottom, top)
    add_step_hover(axes, supply, "supply", bottom, top)
    draw_tail_text(axes, day, number, bottom, top)
    axes.set_xlabel("volume, MW")
    axes.set_ylabel("limit price, EUR/MWh")
    if axes.get_legend_handles_labels()[0]:
        add_legend(axes, columns=1 if is_narrow(axes) else 2, below=True)
    add_heading(axes, f"Period {number}, {clock.time_span(day.problem.periods, number)}" + ("" if traded else ": no trade"))


def draw_without_orders(axes: Axes) -> None:
    axes.set_xticks([])
    axes.set_yticks([])
    axes.text(0.5, 0.5, "no hourly orders", transform=axes.transAxes, ha="center", va="center", color=COLOURS["soft"])


def draw_clearing(axes: Axes, day: PublishedDay, number: int, net: int) -> None:
    """The price, and the point on the curves at which the hourly buys end that are executed."""
    price, buys = day.published.prices[number - 1], volume_of_executed_buys(day, number)
    axes.axhline(eur(price), color=COLOURS["soft"], linewidth=1, linestyle=":")
    axes.text(1.006, eur(price), f"{text.shown_price(price)}\nEUR/MWh", transform=axes.get_yaxis_transform(), va="center")
    words = f"{text.shown_volume(buys)} MW of hourly buys are executed"
    ring = {"marker": "o", "markersize": 7, "markerfacecolor": COLOURS["paper"], "linestyle": "none"}
    axes.plot([mw(buys + max(-net, 0))], [eur(price)], color=COLOURS["ink"], label=words, **ring)


def draw_net(axes: Axes, net: int, bottom: float, top: float) -> None:
    """The net volume of the accepted blocks: if they sell, it is under all supply, and if they buy, over all demand."""
    height = 0.05 * (top - bottom)
    low = bottom if net > 0 else top - height
    words = f"accepted blocks {'sell' if net > 0 else 'buy'} {text.shown_volume(abs(net))} MW net"
    look = {"facecolor": COLOURS["rejected"], "edgecolor": COLOURS["ink"], "linewidth": 0.7, "hatch": "////"}
    axes.add_patch(Rectangle((0, low), mw(abs(net)), height, label=words, **look))


def draw_curve(axes: Axes, points: Curve, begin: float, first: float, last: float, **look: str) -> None:
    """A curve, from the edge of the picture at its first volume to the edge at its last."""
    if points.xs:
        xs, ys = ([begin], [first]) if begin else ([], [])
        axes.plot([*xs, *points.xs, mw(points.end)], [*ys, *points.ys, last], linewidth=1.8, solid_joinstyle="miter", **look)


def volume_of_executed_buys(day: PublishedDay, number: int) -> int:
    rows = [row for row in day.problem.rows if row.order.kind == "hour"]
    return sum(
        executed
        for row, executed in zip(rows, day.published.executed)
        if row.order.side == "buy" and row.order.volumes[0][0] == number
    )
