"""Tables of commands: as a table of orders, with the column `what`, which names a row's command: submit, amend or cancel. So
tools/table --rows commands prints them."""

from collections.abc import Collection, Iterable, Iterator, Sequence

from ..base import text
from ..journal import journal
from . import cell_values, order_table, table_files
from .order_table import WHAT, Cells, Row
from .table_files import Line

# The columns that each command has. In the others its rows have no cell, which would have no effect.
CANCEL = ("participant", "order")
AMEND = (*CANCEL, "price_eur_mwh", "periods", "volume_mw")
Change = journal.Submit | journal.Amend | journal.Cancel
NEEDED: dict[str, Sequence[str]] = {"cancel": CANCEL, "amend": AMEND, "close": ()}


class Columns:
    """A table of commands or orders that has further columns. Those of orders are needed as far as its commands have them."""

    def __init__(self, table_cells: Cells, needed: Sequence[str]) -> None:
        names = table_files.column_names(table_cells.line_and_header()[1])
        self.places = order_table.Places({name: at for at, name in reversed(list(enumerate(names)))})  # the first of each name
        self.table = order_table.require_order_table("", table_cells, self.needed_columns(order_table.Below(table_cells)), (*needed, WHAT))
        for name in needed:
            if name not in self.places:
                raise order_table.BadOrders(f"line {table_cells.line_and_header()[0]}: there is no column {name}")

    def needed_columns(self, rows: Iterable[Line]) -> Collection[str]:
        """The columns of orders that the commands of the rows need; all of them if there are none."""
        commands: set[str] = set()
        for _, cells in rows:
            if any(self.places.cell_text(cells, name) for name in (WHAT, *order_table.ORDER)):
                commands.add(self.places.cell_text(cells, WHAT).lower())
        return {name for what in commands for name in NEEDED.get(what, order_table.NEEDED)} if commands else order_table.NEEDED

    def is_empty(self, cells: list[str]) -> bool:
        """Whether a row adds no command to a day: it has none, or the close, before which the commands are put."""
        is_filled = any(self.places.cell_text(cells, name) for name in (WHAT, *self.table.places))
        return not is_filled or self.places.cell_text(cells, WHAT).lower() == "close"

    def parse_row_and_faults(self, cells: list[str], periods: int) -> tuple[Change | None, list[str]]:
        """The command that a row adds to a day, None if it adds none; and the faults of the row."""
        row, what = order_table.Row(cells, self.table, periods), self.places.cell_text(cells, WHAT).lower()
        try:
            cell_values.refuse_unlike(self.places.given_cell(cells, WHAT), True)
        except order_table.BadOrders as fault:
            row.faults.append(f"column {WHAT}: {fault}")
        add_unneeded_cell_faults(row, what)
        if self.is_empty(cells):
            return None, row.faults
        return row.parse_unsplit_or_note_faults(lambda each: parse_command_or_note_faults(each, what)), row.faults


def is_command_table(table_cells: Cells) -> bool:
    return WHAT in table_files.column_names(table_cells.line_and_header()[1])


def add_unneeded_cell_faults(row: Row, word: str) -> None:
    """Adds to a row's faults its cells that the command doesn't have."""
    for name in order_table.ORDER if word in NEEDED else []:
        if name not in NEEDED[word] and (cell := row.cell_text(name)):
            article = "an" if word == "amend" else "a"
            row.faults.append(f"column {name}: {text.quoted(cell)} should be left out: {article} {word} has no {name}")


def parse_command_or_note_faults(row: Row, word: str) -> Change | None:
    """The command of a row: an order to submit, or the amend or cancel of one. Faults are added to the row's faults."""
    if word == "cancel":
        return journal.Cancel(*row.parse_names_or_note_faults())
    if word == "amend":
        return journal.Amend(*row.parse_names_or_note_faults(), *row.parse_values_or_note_faults())
    if word in ("", "submit"):
        return row.parse_submit_or_note_faults()
    row.faults.append(f"column {WHAT}: {text.quoted(word)} should be submit, amend or cancel")
    return None


class Commands:
    """The commands of a table without faults, each with its line. None is kept, since a row of a few bytes may name all periods: a caller
    that goes through them again reads the rows again."""

    def __init__(self, columns: Columns, periods: int) -> None:
        self.columns, self.periods = columns, periods

    def __iter__(self) -> Iterator[tuple[int, Change]]:
        for line, cells in self.columns.table.rows:
            command, _ = self.columns.parse_row_and_faults(cells, self.periods)
            if command:
                yield line, command


def parse_commands_and_notes(table_cells: Cells, periods: int) -> tuple[Commands, list[str]]:
    """The commands of a table, each with its line, and notes on it. Its faults, a line each, are `order_table.BadOrders`."""
    wrong = order_table.Faults()
    try:
        columns = Columns(table_cells, ())
    except order_table.BadOrders as fault:
        for words in str(fault).split("\n"):
            wrong.add(words)
        raise wrong.as_one_error() from None
    for line, cells in columns.table.rows:
        _, faults = columns.parse_row_and_faults(cells, periods)
        for words in faults:
            wrong.add(order_table.row_fault_text(line, words))
    if wrong.count:
        raise wrong.as_one_error()
    return Commands(columns, periods), columns.table.notes
