"""The tables of a day's page: of its periods, blocks, participants and refused commands, and the statement of a participant."""

from collections.abc import Iterator, Mapping, Sequence
from fractions import Fraction
from typing import NamedTuple

from markupsafe import Markup

from ..base import clock, spans, text
from ..day.day_files import Day
from ..journal import book
from ..journal.journal import Key, Order, command_record_text
from ..results import judgement, market_data, trades
from ..results.decisions import Decision
from ..results.period import Clearing
from ..results.selection import Row
from ..tables import day_tables

Cells = list[str | int]  # of a row

MARKS = {judgement.ACCEPTED: "accepted", judgement.REJECTED: "rejected", judgement.PARADOX: "paradox"}
NUMBER = "n"  # the class of cells that stand to the right


class Heading(NamedTuple):
    words: str
    kind: str = ""


class Table(NamedTuple):
    caption: str
    heads: list[Heading]
    rows: Sequence[Cells]
    sum: Cells | None = None  # the last row
    summary: Markup | None = None  # the part shown of a table that has to be opened


def heads(*words: str) -> list[Heading]:
    """The heads of a table; those that end with a unit or begin with `#` stand over numbers."""
    units = (", MW", ", MWh", ", EUR", "EUR/MWh")
    return [Heading(word.lstrip("#"), NUMBER if word[0] == "#" or word.endswith(units) else "") for word in words]


def name_cell(*words: str) -> Markup:
    """A participant or an order: a narrow column breaks it between the words alone."""
    return Markup(" ").join(Markup('<span class="name">{}</span>').format(word) for word in words)


def energy_text(day: Day, tenths: int) -> str:
    return text.shown(Fraction(tenths) * day.problem.hours / 10, 1 if day.problem.hours == 1 else 2)


def amount_text(day: Day, amount: int) -> str:
    return text.amount(amount, day.problem.hours)


def supporting_text(cleared: Clearing | None) -> str:
    if cleared is None:
        return "none"
    low, high = text.shown_price(cleared.low), text.shown_price(cleared.high)
    return low if low == high else f"{low} to {high}"


def period_table(day: Day) -> Table:
    shares = trades.volume_shares(day)
    rows: list[Cells] = []
    for number, found in day.outcome.cleared.items():
        parts = map(text.shown_volume, shares[number].values())
        begins = clock.begin_time(day.problem.periods, number)
        cents = text.shown_price(day.published.prices[number - 1]) if trades.is_traded(day, number) else "no trade"
        rows.append([number, begins, cents, supporting_text(found), text.shown_volume(day.published.volumes[number - 1]), *parts])
    words = ["hourly buys, MW", "block buys, MW", "hourly sells, MW", "block sells, MW"]
    columns = heads("#period", "#begins", "price, EUR/MWh", "#supporting prices", "volume, MW", *words)
    return Table("The price of each period, the prices that support it, and the bought and sold volumes", columns, rows)


def periods_text(order: Order) -> str:
    return spans.spans_text_in_prose(number for number, _ in order.volumes)


def block_table(day: Day, block_decisions: Sequence[Decision], needed: Mapping[int, str]) -> Table:
    rows: list[Cells] = []
    for place, (block, surplus, decision) in enumerate(zip(day.problem.blocks, day.published.surpluses, block_decisions)):
        order = block.order
        why = f"{decision.why}. {needed[place]}" if place in needed else decision.why
        mark = Markup('<span class="mark {}"></span>{}').format(MARKS[decision.kind], decision.kind)
        total = energy_text(day, sum(tenths for _, tenths in order.volumes))
        links = [f"{word} {name}" for word, name in (("parent", order.parent), ("group", order.group)) if name]
        row = [order.side, text.shown_price(order.price), periods_text(order), total, ", ".join(links)]
        rows.append([name_cell(block.who, block.name), mark, why, amount_text(day, surplus), *row])
    columns = heads("surplus, EUR", "side", "limit, EUR/MWh", "periods", "offered, MWh", "linked by")
    caption = "Each block, the reason, and its surplus at the prices; for a rejected block, with the best family that it belongs to"
    return Table(caption, [Heading("block"), Heading("decision", "decision"), Heading("reason", "why"), *columns], rows)


def order_row(day: Day, row: Row, own_trades: Sequence[trades.Trade], decisions_by_name: Mapping[Key, Decision]) -> Cells:
    order = row.order
    done = sum(trade.volume for trade in own_trades)
    offered = sum(tenths for _, tenths in order.volumes)
    outcome = trades.execution_text(order, done) if order.kind == "hour" else decisions_by_name[row.who, row.name].kind
    amount = amount_text(day, sum(trade.amount() for trade in own_trades))
    energies = energy_text(day, offered), energy_text(day, done)
    return [name_cell(row.name), order.kind, order.side, text.shown_price(order.price), periods_text(order), *energies, outcome, amount]


def total_row(day: Day, who: str, count: int, total: trades.Total) -> Cells:
    amounts = [amount_text(day, amount) for amount in (total.paid, total.received, total.received - total.paid)]
    return [who, count, energy_text(day, total.bought), energy_text(day, total.sold), *amounts]


def participant_tables(day: Day, block_decisions: Sequence[Decision]) -> Iterator[Table]:
    """A table of the participants with their sum, and under it the orders of each."""
    by_name = {(block.who, block.name): decision for block, decision in zip(day.problem.blocks, block_decisions)}
    rows: dict[str, list[Cells]] = {}
    for row, made in trades.rows_and_trades(day):
        rows.setdefault(row.who, []).append(order_row(day, row, made, by_name))
    totals = trades.totals(day)
    summed = trades.Total(*map(sum, zip(*totals.values()))) if totals else trades.Total()
    columns = heads("participant", "#orders", "bought, MWh", "sold, MWh", "pays, EUR", "is paid, EUR", "net, EUR")
    count = sum(len(own) for own in rows.values())
    body = [total_row(day, who, len(rows[who]), total) for who, total in totals.items()]
    yield Table("What each participant buys and sells, pays and is paid", columns, body, total_row(day, "all", count, summed))
    columns = heads("order", "kind", "side", "limit, EUR/MWh", "periods", "offered, MWh", "executed, MWh", "outcome")
    for who in totals:
        summary = Markup('<b>{}</b> <span class="soft">{}</span>').format(who, text.counted(len(rows[who]), "order"))
        yield Table(f"The orders of {who}", [*columns, Heading("volume times price, EUR", NUMBER)], rows[who], summary=summary)


def refusal_tables(day: Day) -> list[Table]:
    rows: list[Cells] = [
        [number, reason, book.REASONS[reason].words, command_record_text(command)]
        for number, (command, reason) in enumerate(zip(day.journal.commands, day.reasons), 1)
        if reason
    ]
    columns = [Heading("command", NUMBER), Heading("reason"), Heading("in words", "why"), Heading("as given", "given")]
    return [Table("The commands that the order book refused; they have no part in the results", columns, rows)] if rows else []


def own_commands(day: Day, who: str) -> list[dict[str, str]]:
    """The commands of a participant as in its statement, each by the names of its columns: those of blocks first."""
    heads_of, *commands = day_tables.statement_rows(day)
    own = [cells for cells in (dict(zip(map(str, heads_of), map(str, row))) for row in commands) if cells["participant"] == who]
    blocks = {cells["order"] for cells in own if cells["kind"] == "block"}
    return sorted(own, key=lambda cells: cells["order"] not in blocks)


def statement_table(day: Day, who: str, needed: Mapping[int, str]) -> Table:
    """A participant's sent commands, the replies, and the outcomes of its orders, with the limits that its rejected blocks needed."""
    by_name = {day.problem.blocks[place].name: words for place, words in needed.items()}
    rows: list[Cells] = []
    for cells in own_commands(day, who):
        reply = "done" if cells["reply"] == "done" else f"refused: {cells['reason']}"
        amount = text.shown(Fraction(cells["amount_eur"]), 2) if cells["amount_eur"] else ""
        why = f"{cells['why']}. {by_name[cells['order']]}" if cells["outcome"] and cells["order"] in by_name else cells["why"]
        row = [name_cell(cells["order"]), cells["outcome"] or reply, why, amount]
        row += [cells[name] for name in ("executed_mwh", "command", "what", "kind", "side", "price_eur_mwh", "periods")]
        rows.append([*row, cells["volume_mw"].replace(";", "; ")])
    columns = heads("is paid, EUR", "executed, MWh", "#command", "what", "kind", "side", "limit, EUR/MWh", "periods")
    columns.append(Heading("volume, MW", f"{NUMBER} list"))
    caption = f"Each command of {who}: the result of its order, or the reply, and the reason; an amount below 0 is paid by {who}"
    return Table(caption, [Heading("order"), Heading("outcome", "outcome"), Heading("reason", "why"), *columns], rows)


def own_period_table(day: Day, who: str) -> Table:
    rows: list[Cells] = []
    for owner, number, *sums in list(market_data.long_participant_rows(day))[1:]:
        if owner == who and isinstance(number, int):
            price, begins = text.shown_price(day.published.prices[number - 1]), clock.begin_time(day.problem.periods, number)
            rows.append([number, begins, price, *(text.shown(Fraction(value), digits) for value, digits in zip(sums, (1, 1, 2, 2)))])
    columns = heads("#period", "#begins", "price, EUR/MWh", "bought, MW", "sold, MW", "pays, EUR", "is paid, EUR")
    return Table(f"What {who} trades in each period", columns, rows)
