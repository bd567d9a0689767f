#!/usr/bin/env python3
"""draw_hour.py > docs/hour-8.svg: draws the supply and the demand of hour 8 of GUIDE.md's first journal, and where they cross.

It needs matplotlib (Debian's package python3-matplotlib)."""

import sys
from pathlib import Path

TOP = Path(__file__).resolve().parents[2]
sys.dont_write_bytecode = True
sys.path.insert(0, str(TOP / "tools"))

from lib.base import text
from lib.journal import book, journal
from lib.results import selection
from lib.tool import exits, modules

JOURNAL, HOUR = TOP / "examples/guide/1-hour.csv", 8


def volume_of(row):
    return row.order.volumes[0][1]


def words_of(row, executed):
    """A sell's participant, volume and limit, and how far it is executed."""
    shown = {volume_of(row): "executed in full", 0: "not executed"}.get(executed, f"{shown_mw(executed)} executed")
    return f"{row.who}: {shown_mw(volume_of(row))}\nat {text.eur_per_mwh(row.order.price)} or more\n{shown}"


def shown_mw(volume):
    return f"{text.shown_volume(volume).removesuffix('.0')} MW"


def figure():
    from lib.pictures import canvas

    closed, _ = book.book_and_refusals(journal.parse_journal(JOURNAL.read_bytes()))
    problem = selection.Problem(closed)
    cleared = selection.outcome(problem, frozenset()).cleared[HOUR]
    orders = sorted(zip(problem.hourly[HOUR], cleared.executed), key=lambda order: order[0].order.price)
    sells = [order for order in orders if order[0].order.side == "sell"]
    (town,) = (row for row, _ in orders if row.order.side == "buy")
    with canvas.matplotlib.rc_context({**canvas.STYLE, "axes.grid": False}):
        drawn, axes = canvas.pyplot.subplots(figsize=(canvas.BROAD * 0.7, 3.2))
        draw_sells(axes, canvas, sells)
        draw_demand(axes, canvas, town, cleared.price)
        axes.set_xlim(0, canvas.mw(sum(volume_of(row) for row, _ in sells)))
        axes.set_ylim(0, 1.2 * canvas.eur(town.order.price))
        axes.set_xlabel("volume, MW")
        axes.set_ylabel("EUR/MWh")
        axes.legend(loc="upper right")
        drawn.tight_layout()
    return drawn


def draw_sells(axes, canvas, sells):
    """Each sell as a box: as broad as its volume, as high as its limit, and filled as far as it is executed."""
    at = 0
    for row, executed in sells:
        left, limit = canvas.mw(at), canvas.eur(row.order.price)
        axes.bar(left, limit, canvas.mw(executed), color=canvas.COLOURS["buy"], align="edge")
        axes.bar(left, limit, canvas.mw(volume_of(row)), fill=False, align="edge", edgecolor=canvas.COLOURS["sell"], linewidth=1.8)
        axes.annotate(words_of(row, executed), (left, limit), (5, 5), textcoords="offset points", fontsize=8)
        at += volume_of(row)


def draw_demand(axes, canvas, row, price):
    """The demand of the one buy, and where it crosses the supply at the price: the buy is in the money."""
    volume, limit, ink = canvas.mw(volume_of(row)), canvas.eur(row.order.price), canvas.COLOURS["ink"]
    words = f"{row.who} buys {shown_mw(volume_of(row))} at {text.eur_per_mwh(row.order.price)} or less"
    axes.plot([0, volume, volume], [limit, limit, 0], color=ink, linestyle="--", linewidth=2, label=words)
    ring = {"marker": "o", "markersize": 8, "markerfacecolor": canvas.COLOURS["paper"], "linestyle": "none", "zorder": 5}
    axes.plot([volume], [canvas.eur(price)], color=ink, label=f"the price: {text.eur_per_mwh(price)} EUR/MWh", **ring)
    axes.axhline(canvas.eur(price), color=canvas.COLOURS["soft"], linewidth=1, linestyle=":")


def main():
    modules.exec_or_require_modules("matplotlib")
    from lib.pictures import canvas

    sys.stdout.buffer.write(canvas.render_and_close(figure(), "svg"))


if __name__ == "__main__":
    exits.run_and_exit("draw_hour.py", main)
