"""Prices and volumes over the periods of a day, each in a panel."""

import math
from collections.abc import Iterable

from ..base import clock, spans, text
from ..results import trades
from ..results.trades import ClearedDay, PublishedDay
from .canvas import COLOURS, Look, add_heading, add_hover, add_legend, digit_count, eur, is_narrow, mw, set_number_format
from .matplotlib_settings import Axes, Patch

# Up to this many periods each bar has an outline.
MOST_OUTLINED = 25


def set_period_axis(axes: Axes, day: PublishedDay) -> None:
    """Periods along the bottom: the number of the first one of each hour, or of three, and under it when it begins."""
    periods = day.problem.periods
    numbers = range(1, periods + 1, int((3 if is_narrow(axes) else 1) / day.problem.hours))
    axes.set_xlim(0.5, periods + 0.5)
    axes.set_xticks(numbers, [f"{number}\n{clock.begin_time(periods, number)}" for number in numbers], fontsize=6.5)
    axes.set_xlabel("period of the day, and when it begins")


def step_points(values: Iterable[float]) -> tuple[list[float], list[float]]:
    """A level for each period from 1, as the points of a line with a step at each border."""
    xs, ys = [], []
    for number, value in enumerate(values, 1):
        xs += [number - 0.5, number + 0.5]
        ys += [value, value]
    return xs, ys


def draw_prices(axes: Axes, day: ClearedDay) -> None:
    """The price of each period in which something is traded, and the prices that support it; others are left out."""
    traded = trades.traded_periods(day)
    prices = {number: eur(day.published.prices[number - 1]) for number in traded}
    cleared = {number: day.outcome.cleared[number] for number in traded}
    ends = {number: (eur(found.low), eur(found.high)) if found else (prices[number],) * 2 for number, found in cleared.items()}
    levels = [prices.get(number, math.nan) for number in day.problem.orders]
    xs, lows = step_points([ends.get(number, (math.nan,))[0] for number in day.problem.orders])
    _, highs = step_points([ends.get(number, (math.nan,))[-1] for number in day.problem.orders])
    axes.fill_between(xs, lows, highs, color=COLOURS["band"], linewidth=0, label="supporting prices")
    axes.plot(*step_points(levels), color=COLOURS["ink"], linewidth=1.8, solid_joinstyle="miter", label="price")
    if traded:
        axes.set_ylim(*price_bounds(list(prices.values()), list(ends.values())))
        add_legend(axes, columns=2)
    else:
        axes.set_yticks([])
    draw_no_trade_marks(axes, [number for number in day.problem.orders if number not in prices], day.problem.periods)
    axes.set_ylabel("price, EUR/MWh")
    axes.grid(axis="x", visible=False)
    set_number_format(axes.yaxis)
    add_period_hover(axes, day, "prices")
    add_heading(axes, "Prices")


def period_text(day: PublishedDay, number: int) -> str:
    """A period in a line: when it is, its price and its volume."""
    words = f"period {number}, {clock.time_span(day.problem.periods, number)}"
    if not trades.is_traded(day, number):
        return f"{words}: no trade"
    price, volume = day.published.prices[number - 1], day.published.volumes[number - 1]
    return f"{words}: {text.shown_price(price)} EUR/MWh, {text.shown_volume(volume)} MW"


def add_period_hover(axes: Axes, day: PublishedDay, name: str) -> None:
    bottom, top = axes.get_ylim()
    numbers = list(day.problem.orders)
    areas = [[(at - 0.5, bottom), (at - 0.5, top), (at + 0.5, top), (at + 0.5, bottom)] for at in numbers]
    add_hover(axes, name, areas, [period_text(day, number) for number in numbers])


def draw_no_trade_marks(axes: Axes, numbers: Iterable[int], periods: int) -> None:
    for first, last in spans.runs_of(numbers):
        upright = (last - first + 1) / periods < 0.07
        place = {"transform": axes.get_xaxis_transform(), "ha": "center", "va": "center"}
        look = {"color": COLOURS["soft"], "fontsize": 7, "rotation": 90 if upright else 0}
        axes.text((first + last) / 2, 0.5, "no trade", **place, **look)


def price_bounds(prices: list[float], ends: Iterable[tuple[float, float]]) -> tuple[float, float]:
    """The shown part of the price axis: the prices, and the supporting prices that aren't far off."""
    least, most = min(prices), max(prices)
    far = max(most - least, 20)
    near = [end for pair in ends for end in pair if least - far <= end <= most + far]
    least, most = min([least, *near]), max([most, *near])
    room = max(0.08 * (most - least), 2)
    return least - room, most + room


def draw_volumes(axes: Axes, day: PublishedDay) -> None:
    """The bought volume above the line, the sold volume below it; the blocks' shares are hatched."""
    most, shares = 1.0, trades.volume_shares(day).values()
    for side, sign in (("buy", 1), ("sell", -1)):
        hourly = [mw(parts["hour", side]) for parts in shares]
        ends = [end + mw(parts["block", side]) for end, parts in zip(hourly, shares)]
        most = max(most, *ends)
        draw_bars_or_area(axes, [0] * len(ends), [sign * end for end in hourly], {"facecolor": COLOURS[side]})
        hatched = {"hatch": "////", "facecolor": COLOURS["rejected"]}
        draw_bars_or_area(axes, [sign * end for end in hourly], [sign * end for end in ends], hatched)
    axes.axhline(0, color=COLOURS["ink"], linewidth=0.9)
    axes.set_ylim(-1.12 * most, 1.12 * most)
    axes.yaxis.set_major_formatter(lambda value, _: text.shown(abs(value), digit_count(most)))
    axes.set_ylabel("sold below, bought above, MW" if not is_narrow(axes) else "MW")
    axes.grid(axis="x", visible=False)
    key = [Patch(facecolor=COLOURS[side], edgecolor=COLOURS["ink"], linewidth=0.5) for side in ("buy", "sell")]
    key.append(Patch(facecolor=COLOURS["rejected"], edgecolor=COLOURS["ink"], linewidth=0.5, hatch="////"))
    words = ["bought by hourly orders", "sold by hourly orders", "by accepted blocks"]
    if is_narrow(axes):
        words = ["hourly buys (above)", "hourly sells (below)", "blocks"]
    add_legend(axes, key, words, columns=3)
    add_period_hover(axes, day, "volumes")
    add_heading(axes, "Volumes")


def draw_bars_or_area(axes: Axes, begins: list[float], ends: list[float], look: Look) -> None:
    """A bar for each period from one level to another; an area without lines in it if there are many periods."""
    outline = {"edgecolor": COLOURS["ink"], "linewidth": 0.5}
    if len(ends) > MOST_OUTLINED:
        (xs, lows), (_, highs) = step_points(begins), step_points(ends)
        drawn = [low != high for low, high in zip(lows, highs)]
        axes.fill_between(xs, lows, highs, where=drawn, **outline, **look)
        return
    bars = [(number, end - begin, begin) for number, (begin, end) in enumerate(zip(begins, ends), 1) if begin != end]
    if bars:
        numbers, heights, bottoms = zip(*bars)
        axes.bar(numbers, heights, bottom=bottoms, width=0.72, **outline, **look)
