"""Results as tables of comma-separated values: a header with units, then a row for each period, order or participant.

A table is a list of rows of which the first names the columns. docs/TABLES.md describes each column, and the form as JSON."""

from collections.abc import Callable, Iterable, Iterator, Sequence
from typing import NamedTuple, Protocol

from ..base import spans, text
from ..journal import journal
from ..journal.book import REASONS
from ..journal.journal import Command
from ..results import decisions, judgement, market_data, selection, trades
from .table_operations import Value

Rows = Iterator[Sequence[Value]]
Key = tuple[str, str]  # of an order: the participant and the name


class DayWithCommands(trades.ClearedDay, Protocol):
    journal: journal.Journal
    reasons: list[str | None]  # why the book refused each command; None of the others


# The columns of a table of orders that make a journal: `order_table` reads them.
ORDER = ["participant", "order", "kind", "side", "price_eur_mwh", "periods", "volume_mw", "parent", "group"]
# The further columns of the table of a result's orders.
RESULT = ["offered_mwh", "executed_mwh", "outcome", "surplus_eur", "amount_eur"]
# Those that tables of commands have apart from these and the first, `what`.
REPLY = ["command", "reply", "reason", "code", "why"]
MOST_NAMED = 5  # participants whose commands were refused


def amount_text(day: DayWithCommands, amount: int) -> str:
    return text.eur(amount, day.problem.hours, thousands="")


def energy_text(day: DayWithCommands, tenths: int) -> str:
    return text.energy(tenths, day.problem.hours, thousands="")


def period_rows(day: DayWithCommands) -> Iterator[market_data.Cells]:
    heads: market_data.Cells = ["period", "hours", "price_eur_mwh", "volume_mw", "traded", "low_eur_mwh", "high_eur_mwh"]
    yield heads + [f"{'hourly' if kind == 'hour' else kind}_{side}s_mw" for kind, side in trades.SHARES]
    for number, parts in trades.volume_shares(day).items():
        found = day.outcome.cleared[number]
        ends = ["", ""] if found is None else [text.eur_per_mwh(found.low), text.eur_per_mwh(found.high)]
        price_and_volume = [text.eur_per_mwh(day.published.prices[number - 1]), text.mw(day.published.volumes[number - 1])]
        traded = "yes" if trades.is_traded(day, number) else "no"
        yield [number, float(day.problem.hours), *price_and_volume, traded, *ends, *map(text.mw, parts.values())]


def order_cells(row: selection.Row) -> list[Value]:
    """The cells of `ORDER`."""
    order = row.order
    volumes = [text.mw(tenths) for _, tenths in order.volumes]
    each = volumes[0] if len(set(volumes)) == 1 else ";".join(volumes)
    numbers = spans.spans_text(number for number, _ in order.volumes)
    return [row.who, row.name, order.kind, order.side, text.eur_per_mwh(order.price), numbers, each, order.parent, order.group]


def amount_of(row_trades: Iterable[trades.Trade]) -> int:
    """The payment for an order's trades: to a participant for a sell, and by it, below 0, for a buy."""
    return sum(trade.amount() if trade.side == "sell" else -trade.amount() for trade in row_trades)


def order_rows(day: DayWithCommands) -> Rows:
    yield ORDER + RESULT
    found = results_by_row(day)
    for row in day.problem.rows:
        offered, result = energy_text(day, sum(tenths for _, tenths in row.order.volumes)), found[row.who, row.name]
        yield [*order_cells(row), offered, result.executed, result.outcome, result.surplus, result.amount]


def block_rows(day: DayWithCommands) -> Rows:
    """A row for each block: its order, its outcome and why, and, if it is rejected, the worth of its best family."""
    family_heads = ["family", "family_gain_eur", "family_welfare_eur"]
    yield [*ORDER, "offered_mwh", "executed_mwh", "outcome", "surplus_eur", *family_heads, "why", "code"]
    found = decisions.decisions(day.problem, day.published.accepted, day.outcome)
    for block, surplus, decision in zip(day.problem.blocks, day.published.surpluses, found):
        offered = sum(tenths for _, tenths in block.order.volumes)
        executed = offered if decision.kind == judgement.ACCEPTED else 0
        family = ["", "", ""]
        if decision.family and decision.other:
            names = " ".join(day.problem.blocks[place].name for place in sorted(decision.family.members))
            welfare = decision.other.welfare
            family = [names, amount_text(day, decision.family.gain()), "" if welfare is None else amount_text(day, welfare)]
        energies = [energy_text(day, tenths) for tenths in (offered, executed)]
        yield [*order_cells(block), *energies, decision.kind, amount_text(day, surplus), *family, decision.why, decision.code]


def participant_rows(day: DayWithCommands) -> Rows:
    yield ["participant", "orders", "bought_mwh", "sold_mwh", "paid_eur", "received_eur", "net_eur", "gain_eur"]
    for who, total in trades.totals(day).items():
        count = sum(row.who == who for row in day.problem.rows)
        energies = [energy_text(day, total.bought), energy_text(day, total.sold)]
        amounts = total.paid, total.received, total.received - total.paid, total.gained
        yield [who, count, *energies, *(amount_text(day, amount) for amount in amounts)]


def command_cells(command: Command) -> list[Value]:
    """The content of a command: its kind, and the cells of `ORDER`, empty if it says nothing."""
    match command:
        case journal.Submit(who, name, order):
            return ["submit", *order_cells(selection.Row(who, name, order))]
        case journal.Amend(who, name, cents, volumes):
            order = journal.Order("", "", cents, volumes)
            return ["amend", *order_cells(selection.Row(who, name, order))]
        case journal.Cancel(who, name):
            return ["cancel", who, name, *[""] * 7]
    return ["close", *[""] * 9]


def command_rows(read: journal.Journal, reasons: Iterable[str | None]) -> Rows:
    yield ["command", "what", *ORDER, "reply", "reason"]
    for number, (command, reason) in enumerate(zip(read.commands, reasons), 1):
        yield [number, *command_cells(command), "refused" if reason else "done", reason or ""]


class Result(NamedTuple):
    outcome: str
    surplus: str  # of a block, in EUR
    executed: str  # MWh
    amount: str  # EUR
    code: str
    why: str


def results_by_row(day: DayWithCommands) -> dict[Key, Result]:
    found = iter(zip(decisions.decisions(day.problem, day.published.accepted, day.outcome), day.published.surpluses))
    executed = iter(day.published.executed)
    rows: dict[Key, Result] = {}
    for row, row_trades in trades.rows_and_trades(day):
        sums = energy_text(day, sum(trade.volume for trade in row_trades)), amount_text(day, amount_of(row_trades))
        if row.order.kind == "hour":
            done = next(executed)
            outcome, why = trades.execution_text(row.order, done), decisions.hourly_reason(day, row, done)
            rows[row.who, row.name] = Result(outcome, "", *sums, *why)
        else:
            decision, surplus = next(found)
            rows[row.who, row.name] = Result(decision.kind, amount_text(day, surplus), *sums, decision.code, decision.why)
    return rows


def last_and_replaced_commands(day: DayWithCommands) -> tuple[dict[Key, int], dict[int, int]]:
    """The number of the last command that changed each order of the book; and of each other one that did, the number of the next one."""
    last: dict[Key, int] = {}
    replaced: dict[int, int] = {}
    for number, (command, reason) in enumerate(zip(day.journal.commands, day.reasons), 1):
        if reason is None and not isinstance(command, journal.Close):
            key = command.who, command.name
            if key in last:
                replaced[last[key]] = number
            last[key] = number
    return last, replaced


def statement_rows(day: DayWithCommands) -> Rows:
    """Each command with the book's reply, and with the outcome of its order if no later command changed it."""
    yield ["command", "what", *ORDER, "reply", "reason", "outcome", "executed_mwh", "surplus_eur", "amount_eur", "code", "why"]
    became, (last, replaced) = results_by_row(day), last_and_replaced_commands(day)
    for number, (command, reason) in enumerate(zip(day.journal.commands, day.reasons), 1):
        key = getattr(command, "who", ""), getattr(command, "name", "")
        cells = [number, *command_cells(command), "refused" if reason else "done", reason or ""]
        result = became.get(key) if last.get(key) == number else None
        if result:
            yield [*cells, result.outcome, result.executed, result.surplus, result.amount, result.code, result.why]
        else:
            why = REASONS[reason].words if reason else text_of_last_change(day, replaced[number]) if number in replaced else ""
            yield [*cells, "", "", "", "", "", why]


def text_of_last_change(day: DayWithCommands, number: int) -> str:
    does = "cancels" if isinstance(day.journal.commands[number - 1], journal.Cancel) else "changes"
    return f"command {number} {does} it"


def refused_text(read: journal.Journal, reasons: Sequence[str | None]) -> str | None:
    """How many commands of a journal were refused, and whose, in words; None if none was."""
    refusals = [command for command, reason in zip(read.commands, reasons) if reason]
    if not refusals:
        return None
    owners = list(dict.fromkeys(command.who for command in refusals if not isinstance(command, journal.Close)))
    whose = f" (of {', '.join(owners)})" if 0 < len(owners) <= MOST_NAMED else ""
    return f"{len(refusals)} of {len(reasons)} commands {'was' if len(refusals) == 1 else 'were'} refused{whose}"


def figure_values(day: DayWithCommands) -> dict[str, float | None]:
    """The figures of a day as numbers by name, with their unit in it."""
    _, *rows = market_data.figure_rows(day)
    ends = {"": "", "EUR": "_eur", "MWh": "_mwh", "EUR/MWh": "_eur_mwh"}
    return {
        f"{name}{ends[str(unit)]}": None if value == "" else value if isinstance(value, int) else float(value) for name, unit, value in rows
    }


TABLES: dict[str, Callable[[DayWithCommands], Rows]] = {
    "periods": period_rows,
    "orders": order_rows,
    "participants": participant_rows,
    "blocks": block_rows,
    "curves": market_data.curve_rows,
    "commands": lambda day: command_rows(day.journal, day.reasons),
    "statement": statement_rows,
    "figures": market_data.figure_rows,
}
# The same in a long form: a row for each period of each thing, or for each number of a period.
LONG: dict[str, Callable[[DayWithCommands], Rows]] = {
    "periods": lambda day: market_data.long_period_rows(period_rows(day)),
    "orders": market_data.long_order_rows,
    "participants": market_data.long_participant_rows,
    "blocks": lambda day: market_data.long_order_rows(day, "block"),
}
