"""The pictures of a day's page, which stand in it with the page's colours; the curves of many periods are drawn by several processes."""

import contextlib
import functools
import multiprocessing
import os
import re
from collections.abc import Callable, Iterable, Iterator, Mapping, Sequence
from typing import NamedTuple

from markupsafe import Markup, escape
from matplotlib.figure import Figure

from ..base import clock, text
from ..day.day_files import Day
from ..pictures import canvas, curves
from ..process import child_call
from ..process.progress import StepBar
from ..results import trades
from ..results.decisions import Decision
from .page_tables import MARKS

MOST_SHOWN = 4  # curves that stand open
FEW_CURVES = 8  # that are drawn in one process


class Picture(NamedTuple):
    words: str
    broad: Markup
    narrow: Markup
    summary: Markup | None = None  # the part shown of a picture that has to be opened
    heads: None = None  # it is no table


def with_hover(drawn: str, hover: Mapping[str, Sequence[str]]) -> str:
    """A picture in which each area of some groups shows its words when the pointer is there."""
    for name, words in hover.items():
        begin = drawn.index(f'<g id="hover-{name}">')
        end = drawn.index("</g>", begin)
        waiting = iter(words)
        areas = re.sub(r"/>", lambda _: f"><title>{escape(next(waiting))}</title></path>", drawn[begin:end])
        drawn = drawn[:begin] + areas + drawn[end:]
    return drawn


def render_inline_and_close(figure: Figure, name: str, kind: str, words: str) -> Markup:
    """A picture within the page: its colours are the page's, and its identifiers its own."""
    hover = canvas.hover_of(figure)
    drawn = with_hover(canvas.render_and_close(figure, "svg", words_as_text=True).decode(), hover)
    drawn = drawn[drawn.index("<svg") :]
    drawn = re.sub(r"<metadata>.*?</metadata>", "", drawn, flags=re.DOTALL)
    drawn = re.sub(r'(<svg[^>]*?) width="[^"]*" height="[^"]*"', r"\1", drawn, count=1)
    drawn = drawn.replace("<svg", f'<svg class="{kind}" role="img" aria-label="{escape(words)}"', 1)
    for pattern in (r'(id=")', r"(url\(#)", r'(href="#)'):
        drawn = re.sub(pattern, rf"\g<1>{name}-{kind}-", drawn)
    for colour, hexadecimal in canvas.COLOURS.items():
        drawn = drawn.replace(f'fill="{hexadecimal}"', f'style="fill: var(--{colour})"')
        drawn = drawn.replace(hexadecimal, f"var(--{colour})")
    return Markup(drawn)


def render_picture(draw: Callable[[float], Figure], name: str, words: str) -> Picture:
    """A picture, for broad screens and for narrow ones."""
    broad, narrow = (render_inline_and_close(draw(width), name, kind, words) for kind, width in canvas.WIDTHS.items())
    return Picture(words, broad, narrow)


def prices_text(day: Day) -> str:
    """The picture of prices and volumes in words."""
    traded = trades.traded_periods(day)
    if not traded:
        return "Price and volume of each period: nothing is traded."
    prices = {day.published.prices[number - 1] for number in traded}
    if len(prices) == 1:
        return f"Price and volume of each period. The price of all that are traded is {text.shown_price(*prices)} EUR/MWh."
    least, most = (of(traded, key=lambda number: day.published.prices[number - 1]) for of in (min, max))
    ends = [f"{price_text(day, number)} in period {number}" for number in (least, most)]
    return f"Price and volume of each period. The price goes from {ends[0]} to {ends[1]}."


def curve_text(day: Day, number: int) -> str:
    words = f"Supply and demand in period {number}"
    if not trades.is_traded(day, number):
        return f"{words}: nothing is traded."
    return f"{words}: {volume_text(day, number)} are traded at {price_text(day, number)}."


def volume_text(day: Day, number: int) -> str:
    return f"{text.shown_volume(day.published.volumes[number - 1])} MW"


def price_text(day: Day, number: int) -> str:
    return f"{text.shown_price(day.published.prices[number - 1])} EUR/MWh"


def block_text(block_decisions: Sequence[Decision]) -> str:
    counts = [f"{sum(decision.kind == kind for decision in block_decisions)} {kind}" for kind in MARKS]
    words = f"Blocks over their periods: {', '.join(counts)}."
    return f"{words} An arrow leads from a parent to its child, and a bracket joins the blocks of an exclusive group."


class Shared:
    """The values that a process has from the one that started it."""

    day: Day


@functools.cache
def curve_sheet(width: float) -> curves.CurveSheet:
    return curves.CurveSheet(width)


def render_curves(day: Day, number: int, folded: bool) -> Picture:
    """The curves of a period, under a line that opens them if there are many: then one at a time is open."""
    draw = lambda width: curve_sheet(width).redraw(day, number)
    picture = render_picture(draw, f"period{number}", curve_text(day, number))
    if not folded:
        return picture
    words = "no trade"
    if trades.is_traded(day, number):
        words = f"{price_text(day, number)}, {volume_text(day, number)}"
    summary = Markup('<b>Period {}</b> {}: <span class="soft">{}</span>')
    return picture._replace(summary=summary.format(number, clock.time_span(day.problem.periods, number), words))


def render_folded_curves(number: int) -> Picture:
    """The same in a process of its own."""
    return render_curves(Shared.day, number, True)


@contextlib.contextmanager
def rendering_curves(day: Day, numbers: Sequence[int]) -> Iterator[Iterator[Picture]]:
    """A source of the curves of some periods, in their order. Many are drawn by several processes, which begin at once, so that the rest of
    the page can be made in the meantime; a line says how far they are."""
    jobs = min(len(os.sched_getaffinity(0)), len(numbers))
    if len(numbers) <= FEW_CURVES or jobs == 1:
        yield (render_curves(day, number, len(numbers) > MOST_SHOWN) for number in numbers)
        return
    Shared.day, bar = day, StepBar("report", len(numbers), "curves")
    with child_call.blocking_interrupts():
        made = multiprocessing.get_context("fork").Pool(jobs)
    with made as pool:
        try:
            yield iterate_with_steps(pool.imap(render_folded_curves, numbers), bar)
        finally:
            bar.erase()


def iterate_with_steps(pictures_of_curves: Iterable[Picture], bar: StepBar) -> Iterator[Picture]:
    """Yields each that is made, and takes a step of the bar after it."""
    for one in pictures_of_curves:
        yield one
        bar.count_and_show()
