"""Blocks over the periods of a day: a row for each, with links and groups."""

from ..base import spans, text
from ..results import decisions, judgement
from ..results.selection import Row
from ..results.trades import ClearedDay
from .canvas import BROAD, COLOURS, Look, add_heading, add_hover, add_legend, is_narrow
from .matplotlib_settings import Axes, Patch, Polygon

Ends = tuple[float, float]
LOOKS: dict[str, Look] = {
    judgement.ACCEPTED: {"facecolor": COLOURS["accepted"]},
    judgement.REJECTED: {"facecolor": COLOURS["rejected"]},
    judgement.PARADOX: {"facecolor": COLOURS["paradox"], "hatch": "xxx"},
}


def blocks_height(day: ClearedDay, width: float = BROAD) -> float:
    return 0.75 + (0.37 if width == BROAD else 0.48) * len(day.problem.blocks)


def draw_blocks(axes: Axes, day: ClearedDay) -> None:
    """A row for each block, with an area over its periods that is as high as its volume, compared with the greatest; links and groups."""
    blocks, right = day.problem.blocks, day.problem.periods + 0.5
    found = decisions.decisions(day.problem, day.published.accepted, day.outcome)
    for row, (block, decision) in enumerate(zip(blocks, found)):
        draw_block(axes, row, block, LOOKS[decision.kind])
        if row:
            axes.axhline(row - 0.5, color=COLOURS["grid"], linewidth=0.6)
        draw_block_label(axes, row, block, text.amount(day.published.surpluses[row], day.problem.hours))
    draw_links(axes, day)
    draw_groups(axes, day)
    words = [f"{block.who} {block.name}: {decision.kind}; {decision.why}" for block, decision in zip(blocks, found)]
    ends = [(row - 0.4, row + 0.4) for row in range(len(blocks))]
    add_hover(axes, "blocks", [[(0.5, top), (right, top), (right, bottom), (0.5, bottom)] for top, bottom in ends], words)
    axes.set_ylim(len(blocks) - 0.45, -0.55)
    axes.set_yticks([])
    axes.grid(visible=False)
    present = [kind for kind in LOOKS if any(decision.kind == kind for decision in found)]
    key = [Patch(edgecolor=COLOURS["ink"], linewidth=0.7, **LOOKS[kind]) for kind in present]
    add_legend(axes, key, present, columns=3, right=0.88)
    add_heading(axes, "Blocks")


def band_ends(axes: Axes, row: int) -> Ends:
    """Where a block stands in its row, and where its greatest volume ends: under its label if the figure is narrow."""
    return (row + 0.42, row - 0.06) if is_narrow(axes) else (row + 0.36, row - 0.26)


def draw_block(axes: Axes, row: int, block: Row, look: Look) -> None:
    """The volumes of a block: an area for each run of its periods, without lines between them."""
    volumes = dict(block.order.volumes)
    most, (bottom, greatest) = max(volumes.values()), band_ends(axes, row)
    for first, last in spans.runs_of(volumes):
        points = [(first - 0.5, bottom)]
        for number in range(first, last + 1):
            top = bottom - (bottom - greatest) * volumes[number] / most
            points += [(number - 0.5, top), (number + 0.5, top)]
        points.append((last + 0.5, bottom))
        axes.add_patch(Polygon(points, closed=True, edgecolor=COLOURS["ink"], linewidth=0.7, **look))


def period_ends(block: Row) -> Ends:
    """From where to where a block's periods go."""
    numbers = [number for number, _ in block.order.volumes]
    return numbers[0] - 0.5, numbers[-1] + 0.5


def draw_links(axes: Axes, day: ClearedDay) -> None:
    """An arrow from each parent, down from its beginning, to its child: to the nearer side of it, or onto it."""
    for row, parent in enumerate(day.problem.parents):
        if parent is None:
            continue
        begin, (left, right) = period_ends(day.problem.blocks[parent])[0], period_ends(day.problem.blocks[row])
        from_x = begin + 0.012 * day.problem.periods
        bottom, top = band_ends(axes, row)
        middle = (bottom + top) / 2
        corner, tip = [(from_x, middle)], (left if from_x < left else right, middle)
        if left <= from_x <= right:
            corner, tip = [], (from_x, top)
        xs, ys = zip((from_x, band_ends(axes, parent)[0]), *corner, tip)
        look = {"color": COLOURS["soft"], "linewidth": 1.1, "solid_joinstyle": "miter", "zorder": 3}
        axes.plot(xs[:-1], ys[:-1], **look)
        arrow = {"arrowstyle": "-|>", "color": COLOURS["soft"], "linewidth": 1.1, "shrinkA": 0, "shrinkB": 0}
        axes.annotate("", tip, (xs[-2], ys[-2]), arrowprops=arrow, zorder=3)


def draw_groups(axes: Axes, day: ClearedDay) -> None:
    """A bracket right of the blocks of each exclusive group, with its name."""
    ends: list[int] = []  # of each column of brackets, the last row
    place = {"transform": axes.get_yaxis_transform(), "clip_on": False}
    for (_, group), rows in day.problem.groups().items():
        column = next((at for at, end in enumerate(ends) if end < rows[0]), len(ends))
        ends[column : column + 1] = [rows[-1]]
        x = (1.012 if is_narrow(axes) else 1.10) + (0.05 if is_narrow(axes) else 0.03) * column
        look = {"color": COLOURS["ink"], "linewidth": 0.9, **place}
        axes.plot([x, x], [rows[0] - 0.2, rows[-1] + 0.2], **look)
        for row in rows:
            axes.plot([x - 0.006, x], [row, row], **look)
        middle = (rows[0] + rows[-1]) / 2
        axes.text(x + 0.005, middle, group, rotation=90, ha="left", va="center", fontsize=7, transform=place["transform"])


def draw_block_label(axes: Axes, row: int, block: Row, surplus: str) -> None:
    """A block's name left of its row, under it the side, the greatest volume and the limit price, and right of it its surplus. If the
    figure is narrow, all stand over the row."""
    volumes = {volume for _, volume in block.order.volumes}
    most = ("" if len(volumes) == 1 else "up to ") + text.shown_volume(max(volumes)).removesuffix(".0")
    words, name = f"{block.order.side} {most} MW at {text.shown_price(block.order.price)} EUR/MWh", f"{block.who} {block.name}"
    place = {"transform": axes.get_yaxis_transform(), "fontsize": 7}
    if is_narrow(axes):
        # Over the links, which would strike the words through.
        place |= {"fontsize": 6.5, "zorder": 4, "bbox": {"facecolor": COLOURS["paper"], "edgecolor": "none", "pad": 0.6}}
        axes.text(0.004, row - 0.12, f"{name}: {words}", va="bottom", **place)
        axes.text(0.996, row - 0.12, f"{surplus} EUR", va="bottom", ha="right", color=COLOURS["soft"], **place)
        return
    if not row:
        axes.text(1.088, -0.55, "surplus at these prices, EUR", ha="right", va="bottom", color=COLOURS["soft"], **place)
    axes.text(1.088, row, surplus, va="center", ha="right", **place)
    axes.text(-0.008, row + 0.06, words, va="top", ha="right", color=COLOURS["soft"], **place)
    axes.text(-0.008, row + 0.02, name, va="bottom", ha="right", **{**place, "fontsize": 8.5})
