"""Figures of matplotlib: their style, panels, legends, margins, and the words that a page shows when the pointer is there.

They are made for black and white: parts that matter differ in lightness, hatching or line. The colours stand in `COLOURS` by their
meanings, so that a page can replace them by its own."""

import io
from collections.abc import Iterable, Mapping
from fractions import Fraction

from ..base import text
from . import colours
from .matplotlib_settings import Axes, Axis, Figure, Patch, PolyCollection, matplotlib, pyplot

Look = Mapping[str, object]  # how matplotlib draws a thing
Area = list[tuple[float, float]]  # the corners
COLOURS = colours.PICTURES

STYLE = {
    "font.family": "DejaVu Sans",
    "font.size": 9,
    "text.color": COLOURS["ink"],
    "axes.edgecolor": COLOURS["soft"],
    "axes.labelcolor": COLOURS["ink"],
    "axes.facecolor": COLOURS["paper"],
    "figure.facecolor": COLOURS["paper"],
    "axes.grid": True,
    "axes.axisbelow": True,
    "axes.spines.top": False,
    "axes.spines.right": False,
    "grid.color": COLOURS["grid"],
    "grid.linewidth": 0.6,
    "xtick.color": COLOURS["ink"],
    "ytick.color": COLOURS["ink"],
    "xtick.major.size": 0,
    "hatch.linewidth": 0.6,
    "hatch.color": COLOURS["ink"],
    "legend.frameon": False,
    "svg.hashsalt": "dam",
}

# The widths of figures, in inches: for a page or a screen, and for a telephone's.
WIDTHS = {"broad": 10, "narrow": 4.6}
BROAD = WIDTHS["broad"]


def eur(cents: float) -> float:
    return cents / 100


def mw(tenths: float) -> float:
    return tenths / 10


def is_narrow(axes: Axes) -> bool:
    return axes.figure.get_figwidth() < BROAD


def add_legend(axes: Axes, *entries: list[Patch] | list[str], columns: int, below: bool = False, right: float = 1) -> None:
    """A legend above the panel, up to this share of its width: under its heading if the figure is narrow, or then below the panel."""
    if is_narrow(axes) and below:
        look = {"loc": "upper left", "bbox_to_anchor": (0, -0.2), "fontsize": 7}
    elif is_narrow(axes):
        look = {"loc": "lower left", "bbox_to_anchor": (0, 1), "fontsize": 7, "columnspacing": 1, "handlelength": 1.4}
    else:
        look = {"loc": "lower right", "bbox_to_anchor": (right, 1)}
    axes.legend(*entries, ncols=columns, borderaxespad=0, **look)


def render_and_close(figure: Figure, suffix: str, words_as_text: bool = False) -> bytes:
    """The bytes of a figure, in the format `svg` or `png`."""
    out = io.BytesIO()
    if not words_as_text:
        remove_hover(figure)
    with matplotlib.rc_context({"svg.fonttype": "none" if words_as_text else "path", "svg.hashsalt": "dam"}):
        kind: Look = {"metadata": {"Date": None, "Creator": None}} if suffix == "svg" else {"dpi": 150}
        # To find the box that fits takes as long as to draw.
        fitted = {} if getattr(figure, "has_margins", False) else {"bbox_inches": "tight"}
        figure.savefig(out, format=suffix, **fitted, **kind)
    pyplot.close(figure)
    return out.getvalue()


def set_margins(figure: Figure, left: float, right: float, bottom: float, top: float) -> None:
    """Gives a figure fixed margins, in inches, so that its layout needn't be found by drawing it."""
    width, height = figure.get_size_inches()
    figure.subplots_adjust(left / width, bottom / height, 1 - right / width, 1 - top / height)
    figure.has_margins = True


def set_label_places(axes: Axes, under: float, left: float) -> None:
    """Puts the axes' labels at distances in inches under and left of them, so that no place has to be found for it by drawing the ticks."""
    width, height = axes.get_position().size * axes.figure.get_size_inches()
    axes.xaxis.set_label_coords(0.5, -under / height)
    axes.yaxis.set_label_coords(-left / width, 0.5)


def add_hover(axes: Axes, name: str, areas: list[Area], words: Iterable[str]) -> None:
    """Areas in which a page shows words when the pointer is there: they aren't drawn. `page` finds them by their name."""
    look = {"facecolors": [(*matplotlib.colors.to_rgb(COLOURS["ink"]), 0)], "edgecolors": "none", "linewidths": 0, "zorder": 10}
    if areas:
        axes.add_collection(PolyCollection(areas, gid=f"hover-{name}", **look), autolim=False)
        axes.figure.hover = {**hover_of(axes.figure), name: list(words)}


def remove_hover(figure: Figure) -> None:
    """Takes away the areas that only a page has a use for."""
    for axes in figure.axes:
        for area in [area for area in axes.collections if str(area.get_gid()).startswith("hover-")]:
            area.remove()


def hover_of(figure: Figure) -> dict[str, list[str]]:
    """The words of each area of a figure, by the name of their group."""
    return getattr(figure, "hover", {})


def digit_count(most: float) -> int:
    """How many digits the numbers of an axis have that goes up to this volume in MW."""
    return 0 if most >= 5 else 1


def set_number_format(axis: Axis, digits: int = 0) -> None:
    """Numbers along an axis in the same form as everywhere."""
    axis.set_major_formatter(lambda value, _: text.shown(Fraction(value).limit_denominator(10_000), digits))


def new_panels(heights: list[float], width: float) -> tuple[Figure, list[Axes]]:
    figure, axes = pyplot.subplots(
        len(heights), 1, figsize=(width, sum(heights)), sharex=True, height_ratios=heights, squeeze=False
    )
    return figure, [row[0] for row in axes]


def add_heading(axes: Axes, words: str) -> None:
    # The place is given, since to find one takes as long as to draw the rest.
    look = {"fontweight": "bold", "fontsize": 10, "color": COLOURS["ink"]}
    axes.set_title(words, loc="left", y=1, pad=20 if is_narrow(axes) else 6, **look)
