"""The columns of tables of orders: where each stands, and headings that are none, or may be a row."""

import difflib
import re
from collections.abc import Collection, Iterable, Sequence

from ..base import text
from ..journal import fields
from ..workbooks.cells import Struck, Styled, Uncomputed, Unseen
from ..workbooks.first_rows import ALIKE
from . import table_files, table_operations
from .cell_values import BadOrders
from .day_tables import ORDER, REPLY, RESULT
from .table_files import Line

Names = Collection[str]
Unused = dict[int, str]  # headings that aren't used, by their columns from 1

# The columns that a row may leave empty, or a table out.
OPTIONAL = ["parent", "group"]
NAMES = ["participant", "order", *OPTIONAL]  # the columns of names of orders
NEEDED = [name for name in ORDER if name not in OPTIONAL]
# The column of a table of commands that says the command of a row, which a table of orders can't say.
WHAT = "what"
COMMANDS_ALONE, OF_ORDERS = ("amend", "cancel", "close"), ("", "submit", "order")
# Words in headings of the columns that a table may leave out, of which a longer one may be misspelt.
OF_LINKS = {
    "group": "group", "parent": "parent", "link": "parent", "exclusive": "group", "exclusion": "group",
    "grp": "group", "predecessor": "parent", "depends": "parent",
}  # fmt: skip
LONG = 6  # letters of such a word
# Parts of an order or a command that are no heading: words, and cells with a digit and no letter.
KINDS, SIDES, LETTER, DIGIT = ("hour", "block"), ("buy", "sell"), re.compile(r"[^\W\d]"), re.compile(r"\d")
COMMAND_AT_END = re.compile("(?:submit|amend|cancel)$")  # of a cell


class Places(dict[str, int]):
    """The place of each column in the rows of a table, by the column's name."""

    def given_cell(self, cells: Sequence[str], name: str) -> str:
        """A cell of a row as the table has it; empty if the row ends before it, or the table has no such column."""
        at = self.get(name, len(cells))
        return cells[at] if at < len(cells) else ""

    def cell_text(self, cells: Sequence[str], name: str) -> str:
        """The same without spaces around it, and without the apostrophes that keep it from being taken for a formula."""
        return table_files.unescaped(self.given_cell(cells, name).strip())


def places_and_unused_or_refuse(line: int, header: list[str], needed: Names, further: Names) -> tuple[Places, Unused]:
    """Where each column stands, and the headings of those that aren't used, by their columns; if not, all that is wrong with the columns,
    a line each. Those that are needed have to be there; the further ones are used, and read by others."""
    names = table_files.column_names(header)
    missing = [name for name in ORDER if name not in names]
    places, unused = Places(), Unused()
    wrong: list[str] = []
    for at, (name, cell) in enumerate(zip(names, header), 1):
        if name in places or name in further and names.index(name) < at - 1:
            wrong.append(f"line {line}, column {at}: the column {text.quoted(name)} appears twice")
        elif isinstance(cell, (Struck, Styled, Uncomputed, Unseen)):
            wrong.append(f"line {line}, column {at}: {cell.fault_text()}")
        elif name in ORDER + RESULT:
            places[name] = at - 1
        elif name in further or WHAT in further and name in REPLY:
            continue
        elif alike := meant_columns(name, missing, needed):
            wrong.append(f"line {line}, column {at}: {text.quoted(cell)} is not a column: write {column_and_unit_text(alike[0])}")
        elif name and name not in further:
            unused[at] = cell
    lacking = [name for name in missing if name in needed]
    if lacking:
        wrong.append(f"line {line}: there is no column {', '.join(lacking)}; the columns are {', '.join([*further, *ORDER])}")
    if wrong:
        raise BadOrders("\n".join([*wrong, *(f"line {line}: {note}" for note in unused_notes(unused))] if lacking else wrong))
    return places, unused


def column_and_unit_text(name: str) -> str:
    """The name of a column with the unit of its numbers, which a heading that isn't one may have in another."""
    unit = table_operations.unit_of(name)
    return f"{name}, in {unit}" if unit else name


def unused_notes(unused: Unused) -> list[str]:
    return [f"the column {text.quoted(cell)} isn't used" for cell in unused.values()]


def meant_columns(name: str, missing: list[str], needed: Names) -> list[str]:
    """The missing columns that a name probably stands for: those that are needed, and of which it is the first word, or one like it, or one
    of which it has a word or one like it: without a column of links, orders would lose them."""
    begun = [one for one in missing if one in needed and one.startswith(f"{name}_")]
    alike = begun or difflib.get_close_matches(name, missing, 1, ALIKE)
    links = {word: one for word, one in OF_LINKS.items() if one in missing}
    words = [word for word in links if word in name]
    words = words or difflib.get_close_matches(name, [word for word in links if len(word) > LONG], 1, ALIKE)
    return alike or [links[word] for word in words]


def refuse_lost_order(line: int, unused: Unused, rows: Iterable[Line]) -> None:
    """Refuses a header that goes on with an order, or in a table without rows with a part of one."""
    words = [at for at, cell in unused.items() if cell.strip().lower() in KINDS + SIDES]
    numbers = [at for at, cell in unused.items() if DIGIT.search(cell) and not LETTER.search(cell)]
    if words and len(numbers) > 1 or (words or numbers) and next(iter(rows), None) is None:
        raise lost_row_error(line, min(words + numbers), unused, "an", "order")


def refuse_lost_command(line: int, unused: Unused) -> None:
    """Refuses a header that goes on with a command: with its word, or with one that ends the last heading, and the names after it."""
    for at, cell in unused.items():
        words = cell.strip().lower()
        advice = [fields.value_and_advice("order", unused.get(next_one, "").strip().upper())[1] for next_one in (at + 1, at + 2)]
        if COMMAND_AT_END.match(words) or COMMAND_AT_END.search(words) and advice == [None, None]:
            raise lost_row_error(line, at, unused, "a", "command")


def lost_row_error(line: int, at: int, unused: Unused, article: str, thing: str) -> BadOrders:
    words = f"is no heading, but may be of {article} {thing}: write each {thing} on a line of its own, and headings in words"
    return BadOrders(f"line {line}, column {at}: {text.quoted(unused[at])} {words}")


def refuse_unnamed(header: list[str], rows: Iterable[Line]) -> None:
    """Refuses a table with a cell below an empty heading, which may be one that orders have: of each such column the first cell."""
    first, unnamed = {}, {at for at, heading in enumerate(header, 1) if not heading.strip()}
    for line, cells in rows if unnamed else []:
        for at, cell in enumerate(cells, 1):
            if at in unnamed and at not in first and cell.strip():
                first[at] = f"line {line}, column {at}: {text.quoted(cell.strip())} is in a column without a name: write one, or remove it"
    if first:
        raise BadOrders("\n".join(first.values()))


def refuse_commands(header: list[str], rows: Iterable[Line]) -> None:
    """Refuses a table of commands with one that no order of a table can be, or with a word that may be meant for one."""
    names = table_files.column_names(header)
    at = names.index(WHAT) if WHAT in names else len(names)
    for line, cells in rows if at < len(names) else []:
        word = cells[at].strip().lower() if at < len(cells) and cells != header else ""
        if word in COMMANDS_ALONE:
            words = "this is a table of commands; a table of orders has no amend, cancel or close"
            raise BadOrders(f"line {line}, column {WHAT}: {text.quoted(word)}: {words}")
        if word not in OF_ORDERS:
            words = "should be submit, order or empty: remove the row, or give the column another name"
            raise BadOrders(f"line {line}, column {WHAT}: {text.quoted(word)} {words}")
