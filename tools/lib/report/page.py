"""A whole day as one page of HTML, with its pictures in it and nothing to fetch. Its form is in lib/pages, and jinja2 fills it
in; this module has its sections and figures."""

import datetime
from collections.abc import Iterable, Iterator, Mapping, Sequence
from typing import NamedTuple

from ..base import text
from ..day.day_files import Day
from ..pages.rendering import read_and_render
from ..pictures import pictures
from ..results import decisions, market_data, trades
from ..results.decisions import Decision
from ..whatif import limits
from .page_pictures import Picture, block_text, prices_text, render_picture, rendering_curves
from .page_tables import MARKS, Table, amount_text, block_table, energy_text, own_period_table, participant_tables, period_table
from .page_tables import refusal_tables, statement_table


class Section(NamedTuple):
    name: str
    title: str
    parts: Sequence[Picture | Table]


class KeyFigure(NamedTuple):
    name: str
    value: str | int
    unit: str


def figures(day: Day, block_decisions: Sequence[Decision]) -> Iterator[KeyFigure]:
    """The figures of a day, in a few numbers."""
    kinds = [decision.kind for decision in block_decisions]
    yield KeyFigure("welfare", amount_text(day, day.published.welfare), "EUR")
    yield KeyFigure("energy traded", energy_text(day, sum(day.published.volumes)), "MWh")
    every = len(trades.traded_periods(day)) == day.problem.periods
    names = {
        "base": "mean price of the periods" if every else "mean price of the traded periods",
        "peak": "mean price, 8:00 to 20:00",
        "by_volume": "mean price by volume",
        "least": "lowest price",
        "greatest": "highest price",
    }
    prices = market_data.mean_prices(day)
    for name, words in names.items():
        if (price := prices[name]) is not None:
            yield KeyFigure(words, text.shown_price(price), "EUR/MWh")
    for kind in MARKS if kinds else ():
        yield KeyFigure(f"blocks {kind}", kinds.count(kind), f"of {len(kinds)}")


def render_sections(
    day: Day, block_decisions: Sequence[Decision], needed: Mapping[int, str], curves: Iterable[Picture]
) -> Iterator[Section]:
    """The sections of a day's page: prices, blocks, periods, curves, participants and refused commands."""
    parts = [render_picture(lambda width: pictures.new_prices_figure(day, width), "prices", prices_text(day))]
    yield Section("prices", "Prices and volumes", parts)
    if block_decisions:
        picture = render_picture(lambda width: pictures.new_blocks_figure(day, width), "blocks", block_text(block_decisions))
        yield Section("blocks", "Blocks", [picture, block_table(day, block_decisions, needed)])
    yield Section("periods", "Periods", [period_table(day)])
    if made := list(curves):
        yield Section("curves", "Supply and demand", made)
    yield Section("participants", "Participants", list(participant_tables(day, block_decisions)))
    refused = refusal_tables(day)
    if refused:
        yield Section("refused", "Refused commands", refused)


def render_own_sections(day: Day, who: str, needed: Mapping[int, str], curves: Iterable[Picture]) -> Iterator[Section]:
    """The sections of a participant's page: its statement, its periods, and the parts that everybody may see."""
    yield Section("statement", f"Orders of {who}", [statement_table(day, who, needed)])
    yield Section("periods", "Periods", [own_period_table(day, who)])
    prices = render_picture(lambda width: pictures.new_prices_figure(day, width), "prices", prices_text(day))
    yield Section("prices", "Prices and volumes", [prices])
    if made := list(curves):
        yield Section("curves", "Supply and demand", made)


def own_figures(day: Day, who: str) -> Iterator[KeyFigure]:
    total = trades.totals(day).get(who, trades.Total())
    refused = sum(reason is not None for command, reason in zip(day.journal.commands, day.reasons) if getattr(command, "who", None) == who)
    yield KeyFigure("orders in the book", sum(row.who == who for row in day.problem.rows), "")
    yield KeyFigure("commands refused", refused, "")
    for words, value, unit in (
        ("bought", energy_text(day, total.bought), "MWh"),
        ("sold", energy_text(day, total.sold), "MWh"),
        ("pays", amount_text(day, total.paid), "EUR"),
        ("is paid", amount_text(day, total.received), "EUR"),
        ("net", amount_text(day, total.received - total.paid), "EUR"),
        ("gain", amount_text(day, total.gained), "EUR"),
    ):
        yield KeyFigure(words, value, unit)


def capture_day_page(
    day: Day, title: str, curves: Sequence[int], date: datetime.date | None = None, who: str | None = None, with_limits: bool = True
) -> str:
    """The page of a day, or of a participant's part of it, with the curves of some periods, and the date of delivery if it is known; with
    the limits that rejected blocks needed, or without them."""
    found = decisions.decisions(day.problem, day.published.accepted, day.outcome)
    needed = limits.capture_rejected_sentences_and_print_notes(day, who, with_limits)  # before the curves, whose processes are copies of this one
    with rendering_curves(day, curves) as drawn_curves:
        parts = list(render_own_sections(day, who, needed, drawn_curves) if who else render_sections(day, found, needed, drawn_curves))
    return read_and_render(
        "day.html",
        title=title,
        style=read_and_render("page.css"),
        script=read_and_render("day.js"),
        date=f"{date:%A}, {date.day} {date:%B} {date.year}" if date else None,
        periods=day.problem.periods,
        hourly=len(day.problem.rows) - len(found),
        blocks=len(found),
        wrong=list(day.wrong),
        odd=list(day.odd),
        figures=list(own_figures(day, who) if who else figures(day, found)),
        sections=parts,
    )


def notable_periods(day: Day) -> list[int]:
    """The periods whose curves are worth a look if none are asked for: the cheapest and the most expensive one with a volume."""
    traded = trades.traded_periods(day)
    if not traded:
        return []
    ends = [of(traded, key=lambda number: day.published.prices[number - 1]) for of in (min, max)]
    return sorted(set(ends))
