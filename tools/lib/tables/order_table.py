"""From tables of orders, one row each, to a journal: the tables of spreadsheets and scripts, read with errors that name the line and the
column."""

import itertools
import re
from collections.abc import Callable, Iterable, Iterator, Sequence
from typing import NamedTuple, TypeVar

from ..base import rules, text
from ..journal import book, fields, journal
from . import cell_values, kinds, table_files, table_operations
from .cell_values import BadOrders, Volumes
from .day_tables import ORDER
from .order_columns import KINDS, NAMES, NEEDED, OPTIONAL, SIDES, WHAT, Names, Places, Unused, places_and_unused_or_refuse
from .order_columns import refuse_commands, refuse_lost_command, refuse_lost_order, refuse_unnamed, unused_notes
from .table_files import Line

MOST_ERRORS = 20
MOST_ROWS = rules.MOST_RECORDS - 1  # after the first one: as many as a journal has commands
# Why the book refuses an order that is right in itself.
FULL = {
    "HourlyFull": f"a book holds at most {rules.MOST_HOURLY} hourly orders",
    "BlocksFull": f"a book holds at most {rules.MOST_BLOCKS} blocks",
}
DAYS = [str(periods) for periods in rules.DAYS]
SPLIT = re.compile(r"(-?[0-9]+),([0-9]+|[0-9]{3}\.[0-9]+)")  # two cells that may be a number with a comma
Held = tuple[str, Iterable[Sequence[str]]]  # an owner, and its orders in the book, as pairs of a name and a kind
Parsed = TypeVar("Parsed")
NO_PERIODS: tuple[int, ...] = ()
NO_VOLUMES: Volumes = ()


class Cells(NamedTuple):
    """The cells of a table: its rows that aren't empty, each with the number of its first line; and notes on the part of the file that was read."""

    rows: Iterable[Line]  # of a workbook or a long text they are read again whenever they are gone through
    separator: str | None  # None for a workbook
    read: list[str]

    def line_and_header(self) -> Line:
        return next(iter(self.rows))

    def rows_below(self) -> Iterator[Line]:
        return itertools.islice(self.rows, 1, None)


class Below:
    """The rows of a table below its header, without those that repeat it."""

    def __init__(self, table_cells: Cells) -> None:
        self.table_cells, self.header = table_cells, table_cells.line_and_header()[1]

    def __iter__(self) -> Iterator[Line]:
        return (row for row in self.table_cells.rows_below() if row[1] != self.header)


class Table(NamedTuple):
    """A table of orders: its name in messages, its rows with their lines, where its columns stand, and how many its header has."""

    name: str
    rows: Iterable[Line]
    places: Places
    width: int
    decimal_comma: bool
    notes: list[str]
    read: list[str]  # those of the notes that name the part of the file that was read

    def line_text(self, number: int) -> str:
        return f"line {number} of {self.name}" if self.name else f"line {number}"

    def named_text(self, words: str) -> str:
        return f"{self.name}: {words}" if self.name else words


class Row:
    """A row of the table of a day of `periods` periods: its faults are gathered by column."""

    def __init__(self, cells: list[str], table: Table, periods: int, raises: bool = False) -> None:
        """`raises`: names that aren't in capitals are put into them."""
        self.cells, self.table, self.periods, self.raises = cells, table, periods, raises
        self.decimal_comma = table.decimal_comma
        self.faults = [f"it has {len(cells)} cells, but the header has {table.width}"] if len(cells) > table.width else []
        self.raised: dict[str, str] = {}  # these names, by their text

    def cell_text(self, name: str) -> str:
        return self.table.places.cell_text(self.cells, name)

    def parse_cell_or_note_fault(self, name: str, parser: Callable[[str], Parsed], otherwise: Parsed) -> Parsed:
        """The value that a parser makes of a cell; another one if it is wrong, which is a fault of the row."""
        cell = self.cell_text(name)
        if self.raises and name in NAMES and cell.isascii() and cell != cell.upper() == self.probable_name(name):
            self.raised[cell] = cell = cell.upper()
        try:
            cell_values.refuse_unlike(self.table.places.given_cell(self.cells, name), name in NAMES, table_operations.unit_of(name))
            return parser(cell)
        except BadOrders as fault:
            self.faults.append(f"column {name}: {fault}")
            return otherwise

    def parse_link_or_note_fault(self, name: str, kind: str) -> str:
        if self.cell_text(name) and kind == "hour":
            self.faults.append(f"column {name}: an hourly order has none")
            return ""
        return self.parse_cell_or_note_fault(name, lambda cell: cell and cell_values.parse_name(cell), "")

    def assumed_periods(self, cell: str) -> Sequence[int]:
        """As many periods as there are volumes, if the periods can't be read."""
        return range(1, 1 + max(len(cell_values.split_parts(cell)), 1))

    def probable_name(self, name: str) -> str:
        """A name, or the one that was probably meant if it breaks its rule, so that other lines that name it aren't wrong too."""
        return fields.value_and_advice(name, self.cell_text(name))[0]

    def parse_names_or_note_faults(self) -> tuple[str, str]:
        who = self.parse_cell_or_note_fault("participant", cell_values.parse_participant, "")
        return who, self.parse_cell_or_note_fault("order", cell_values.parse_name, "")

    def parse_values_or_note_faults(self, kind: str = "") -> tuple[int, Volumes]:
        """The limit, and the volumes of the periods; of an hourly order there is one period."""
        price = self.parse_cell_or_note_fault("price_eur_mwh", lambda cell: cell_values.parse_price(cell, self.decimal_comma), 0)
        numbers = self.parse_cell_or_note_fault("periods", lambda cell: cell_values.parse_kept_periods(cell, self.periods), NO_PERIODS)
        if kind == "hour" and numbers and len(numbers) != 1:
            self.faults.append(f"column periods: an hourly order has one period, not {len(numbers)}")
        of_volumes = lambda cell: cell_values.parse_volumes(cell, numbers or self.assumed_periods(cell), self.decimal_comma)
        return price, self.parse_cell_or_note_fault("volume_mw", of_volumes, NO_VOLUMES)

    def parse_unsplit_or_note_faults(self, parse: Callable[["Row"], Parsed]) -> Parsed:
        """The command of the row. It is a fault if a comma after the price or the volume could be of that number."""
        command = parse(self)
        for name in () if self.faults or self.table.decimal_comma else ("price_eur_mwh", "volume_mw"):
            at = self.table.places.get(name, len(self.cells))
            split = SPLIT.fullmatch(",".join(map(str.strip, self.cells[at : at + 2])))
            if not split:
                continue
            other = Row([*self.cells[:at], split[1], *self.cells[at + 2 :]], self.table, self.periods, self.raises)
            parse(other)
            if not other.faults:
                number = split[0].replace(",", "" if len(split[2].partition(".")[0]) == 3 else ".")
                words = f"may be one number, or two cells: write {number}, or {split[1]}.0,{split[2]}"
                self.faults.append(f"column {name}: {text.quoted(split[0])} {words}")
        return command

    def parse_submit_or_note_faults(self) -> journal.Submit:
        """The submit that the row is; of no use if something is wrong."""
        who, name = self.parse_names_or_note_faults()
        kind = self.parse_cell_or_note_fault("kind", cell_values.word_parser(*KINDS), "")
        side = self.parse_cell_or_note_fault("side", cell_values.word_parser(*SIDES), "")
        price, volumes = self.parse_values_or_note_faults(kind)
        parent, group = (self.parse_link_or_note_fault(name, kind) for name in OPTIONAL)
        return journal.Submit(who, name, journal.Order(kind, side, price, volumes, parent, group))


class Entered:
    """The orders of the lines so far, also of those that can't be read: the links of the next line to them. And, for a participant who
    has a book, its orders there."""

    def __init__(self, periods: int, held: Held | None) -> None:
        self.held = book.Book(periods)
        self.owner, orders = held or ("", ())
        for name, kind in orders:
            self.held.carry_out(journal.Submit(self.owner, name, journal.Order(kind, "buy", 0, ())))
        self.lines: dict[tuple[str, str], tuple[str, str]] = {}  # the line and the kind of each order, by participant and name

    def enter_or_note_faults(self, line: str, row: Row, submit: journal.Submit) -> None:
        """Adds to the faults of a row why the book would refuse it."""
        who, name, parent = row.probable_name("participant"), row.probable_name("order"), submit.order.parent
        if who and name and (who, name) in self.lines:
            row.faults.append(f"column order: {who} has an order {name} in {self.lines[who, name][0]} (NameTaken)")
        if who and parent:
            if fault := self.parent_fault_text(who, parent):
                row.faults.append(f"column parent: {fault}")
        reason = None if row.faults else self.held.apply_or_return_refusal(submit)
        if reason in FULL:
            row.faults.append(f"{FULL[reason]} ({reason})")
        self.lines.setdefault((who, name), (line, submit.order.kind))

    def parent_fault_text(self, who: str, parent: str) -> str | None:
        """Why an order can't have this parent; None if it can."""
        line, kind = self.lines.get((who, parent), ("", ""))
        where, held = f"of {line}", self.held.rows.get((who, parent))
        if not line and held:  # in the owner's book
            where, kind = "in the book", held.kind
        elif not line and who == self.owner:
            return f"you have no order {parent}, neither in the book nor in a line above (UnknownParent)"
        elif not line:
            return f"{who} has no order {parent} in a line above (UnknownParent)"
        return f"{parent} {where} is an hourly order, not a block (ParentNotBlock)" if kind == "hour" else None


def parse_cells(data: bytes, most: int = MOST_ROWS, is_long: bool = False) -> Cells:
    """The cells of a table of `most` rows after its first one. Those of a text that may be long aren't kept."""
    kind = kinds.kind_of_bytes(data)
    read: list[str] = []
    if kind in (kinds.JOURNAL, kinds.DAY):
        raise BadOrders("this seems to be a journal already")
    if kind in kinds.FILES - {kinds.EXCEL}:
        raise BadOrders(f"this is {kind}: {kinds.ADVICE[kind]}")
    try:
        rows, separator = table_files.parse_rows_and_add_notes(data, NEEDED, read, most, is_long)
        count = count_rows_or_refuse(rows, most)
    except table_files.BadTable as fault:
        raise BadOrders(str(fault)) from None
    if not count:
        raise BadOrders("\n".join([f"the table is empty: its first line should name the columns {', '.join(ORDER)}", *read]))
    return Cells(rows, separator, read)


def count_rows_or_refuse(rows: Iterable[Line], most: int) -> int:
    count = 0
    for number, _ in rows:
        count += 1
        if count > most + 1:
            raise BadOrders(f"line {number}: a table has at most {most:,} rows after its first")
    return count


def require_order_table(name: str, table_cells: Cells, needed: Names = NEEDED, further: Names = ()) -> Table:
    """A table of orders by its cells, of which the header has been read; or one that needs other columns, and has further ones."""
    (line, header), read = table_cells.line_and_header(), table_cells.read
    if WHAT not in further:
        refuse_commands(header, table_cells.rows_below())
    try:
        places, unused = places_and_unused_or_refuse(line, header, needed, further)
        refuse_lost_order(line, unused, table_cells.rows_below())
        refuse_lost_command(line, unused if WHAT in further else {})
        refuse_unnamed(header, table_cells.rows_below())
    except BadOrders as fault:
        raise BadOrders("\n".join([str(fault), *read])) from None
    notes = [*read, *unused_notes(unused)]
    again = [number for number, cells in table_cells.rows_below() if cells == header]
    if again:
        more = f" and {len(again) - MOST_ERRORS:,} more" if len(again) > MOST_ERRORS else ""
        notes.append(f"line {', '.join(map(str, again[:MOST_ERRORS]))}{more} names the columns once more")
    if table_cells.separator == ";" and "volume_mw" in places:
        notes += unquoted_list_notes(places, unused, table_cells.rows_below())
    return Table(name, Below(table_cells), places, len(header), table_cells.separator != ",", notes, read)


def unquoted_list_notes(places: Places, unused: Unused, rows: Iterable[Line]) -> list[str]:
    """A note on the rows with a number after the volume, in a column that may have any text: the numbers may be of one list, which
    semicolons have separated."""
    at = places["volume_mw"] + 1
    is_free = at + 1 in unused or at in map(places.get, OPTIONAL)
    pairs = ((line, cells[at - 1 : at + 1]) for line, cells in (rows if is_free else ()) if at < len(cells))
    number = cell_values.DECIMAL[True]
    found = ((line, pair[1].strip()) for line, pair in pairs if all(number.fullmatch(cell.strip()) for cell in pair))
    line, cell = next(found, (0, ""))
    if not line:
        return []
    more = sum(1 for _ in found)
    others = f", as in {text.counted(more, 'other line')}" if more else ""
    words = f"is a number after the volume{others}: if the row has a list of periods or volumes, write quotes around it"
    return [f"line {line}, column {at + 1}: {text.quoted(cell)} {words}"]


def row_fault_text(line: int, words: str) -> str:
    return f"line {line}{',' if words.startswith('column ') else ':'} {words}"


class Faults:
    """The faults of tables: the first ones, and how many there are."""

    def __init__(self) -> None:
        self.first: list[str] = []
        self.count = 0

    def add(self, words: str) -> None:
        self.count += 1
        if self.count <= MOST_ERRORS:
            self.first.append(words)

    def as_one_error(self, notes: Iterable[str] = ()) -> BadOrders:
        """All of them as one, with notes."""
        more = self.count - len(self.first)
        return BadOrders("\n".join([*self.first, *([f"and {more} more"] if more else []), *notes]), more)


class Orders(NamedTuple):
    """The orders of some tables: pairs of their number, from 1, and a submit; notes on the tables; how many orders of others there are."""

    submits: list[tuple[int, journal.Submit]]
    notes: list[str]
    others: int


def parse_tables(
    sources: Iterable[tuple[str, bytes | Cells]], periods: int, who: str | None = None, raises: bool = False, held: Held | None = None
) -> Orders:
    """The orders of tables, given as pairs of a name for messages and bytes or cells, for a day of `periods` periods; of one participant,
    or of all. Of the others' rows only the participant and the number of cells are read. `raises`: names are put into capitals, with a
    note. `held`: an owner, whom the messages call you, and its orders in the book, as pairs of a name and a kind. If something is wrong
    with the tables, all of it, one line each."""
    if periods not in rules.DAYS:
        raise BadOrders(f"a day has {', '.join(DAYS[:-1])} or {DAYS[-1]} periods, not {periods}")
    wrong = Faults()
    notes: list[str] = []
    tables: list[Table] = []
    submits: list[tuple[int, journal.Submit]] = []
    for name, data in sources:
        try:
            tables.append(require_order_table(name, data if isinstance(data, Cells) else parse_cells(data)))
        except BadOrders as fault:
            for words in str(fault).split("\n"):
                wrong.add(f"{name}: {words}" if name else words)
    entered, number, others = Entered(periods, held), 0, 0
    for table in tables:
        notes += map(table.named_text, table.notes)
        raised: dict[str, str] = {}
        for line, cells in table.rows:
            row = Row(cells, table, periods, raises)
            number += 1
            if who and row.probable_name("participant") != who:
                row.parse_cell_or_note_fault("participant", cell_values.parse_participant, "")
                others += 1
            else:
                command = row.parse_unsplit_or_note_faults(Row.parse_submit_or_note_faults)
                entered.enter_or_note_faults(table.line_text(line), row, command)
                submits += [] if row.faults else [(number, command)]
                raised.update(row.raised)
            for words in row.faults:
                wrong.add(table.named_text(row_fault_text(line, words)))
        notes += [table.named_text(capitals_note(raised))] if raised else []
    if wrong.count:
        read = [table.named_text(note) for table in tables for note in table.read]
        raise wrong.as_one_error(read)
    return Orders(submits, notes, others)


def capitals_note(raised: dict[str, str]) -> str:
    (cell, value), *more = raised.items()
    others = f", and {text.counted(len(more), 'other name')}" if more else ""
    return f"names are in capitals: {text.quoted(cell)} was read as {value}{others}"


def journal_of(orders: Orders, periods: int, closing: bool) -> journal.Journal:
    """The journal of a day with these orders, with or without a close."""
    return journal.Journal(periods, [*(submit for _, submit in orders.submits), *[journal.Close()] * closing])


def parse_journal_of_orders(data: bytes, periods: int, closing: bool) -> journal.Journal:
    return journal_of(parse_tables([("", data)], periods), periods, closing)
