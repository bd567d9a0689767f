"""Pictures of a day by matplotlib: prices, volumes and blocks over the periods, and the curves of one period."""

from ..results.trades import ClearedDay, PublishedDay
from .blocks import blocks_height, draw_blocks
from .canvas import BROAD, STYLE, new_panels
from .curves import CurveSheet
from .matplotlib_settings import Figure, matplotlib
from .prices import draw_prices, draw_volumes, set_period_axis


def new_day_figure(day: ClearedDay) -> Figure:
    with matplotlib.rc_context(STYLE):
        figure, axes = new_panels([2.3, 2.5] + ([blocks_height(day)] if day.problem.blocks else []), BROAD)
        draw_prices(axes[0], day)
        draw_volumes(axes[1], day)
        if day.problem.blocks:
            draw_blocks(axes[2], day)
        set_period_axis(axes[-1], day)
        figure.tight_layout(h_pad=1.2)
        return figure


def new_prices_figure(day: ClearedDay, width: float = BROAD) -> Figure:
    with matplotlib.rc_context(STYLE):
        figure, axes = new_panels([2.5, 2.6], width)
        draw_prices(axes[0], day)
        draw_volumes(axes[1], day)
        set_period_axis(axes[1], day)
        figure.tight_layout(h_pad=1.2)
        return figure


def new_blocks_figure(day: ClearedDay, width: float = BROAD) -> Figure:
    with matplotlib.rc_context(STYLE):
        figure, axes = new_panels([max(blocks_height(day, width), 1.2)], width)
        draw_blocks(axes[0], day)
        set_period_axis(axes[0], day)
        figure.tight_layout()
        return figure


def new_period_figure(day: PublishedDay, number: int, width: float = BROAD) -> Figure:
    return CurveSheet(width).redraw(day, number)
