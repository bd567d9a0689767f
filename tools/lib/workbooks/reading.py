"""The rows of a workbook's sheet, and which one is read."""

from collections.abc import Sequence
from typing import NamedTuple

from ..base import text
from .cells import Rows
from .first_rows import FirstRows, Names
from .formulas import IN_BYTES
from .limits import MOST_HEADS, BadWorkbook, broken_error, too_many_error
from .package import Package
from .sheet import Sheet
from .workbook import Workbook

MOST_NAMED = 20  # sheets that a note names


def parse_rows_and_notes(data: bytes, preferred: str, needed: Sequence[str] = (), most: int | None = None) -> tuple[Rows[str], list[str]]:
    """The rows of the preferred sheet, or else of the first with the needed names in its first row, or else of the first; and notes.
    If there are `most`, more rows after the first are a fault."""
    book = Workbook(Package(data))
    chosen = choose_sheet_or_refuse(book, preferred, needed)
    sheet = Sheet(chosen.name, chosen.part, book, most)
    sheet.feed_or_refuse(book.package, sheet.part)
    notes = [chosen.note] if chosen.note else []
    if sheet.first_formula and book.is_computed and not book.is_current:
        words = f"the values of formulas, such as that of cell {sheet.first_formula}, are as saved by another program or an older"
        notes.append(f"{words} Excel: Excel computes them again once it opens the workbook")
    if place := volatile_place(book, chosen.name, sheet):
        notes.append(f"the values of formulas may depend on {place}, which changes whenever Excel opens the workbook")
    return sheet.rows_or_refuse(book.parse_strings(sheet.needed)), notes


class ChosenSheet(NamedTuple):
    name: str
    part: str
    note: str | None  # if there are several


def choose_sheet_or_refuse(book: Workbook, preferred: str, needed: Sequence[str]) -> ChosenSheet:
    """The sheet that is read, and a note on it, which names those that aren't read."""
    sheets = book.sheet_parts_or_refuse()
    tables = {name: part for name, part in sheets.items() if part}
    named = next((name for name in sheets if name.lower() == preferred), None)
    if len(sheets) == 1:
        return ChosenSheet(*next(iter(tables.items())), None)
    if named and named not in tables:
        raise broken_error(f"the sheet {text.quoted(named)} is one of macros: copy its table to another sheet")
    name, empty = (named, []) if named else find_sheet_and_empty_or_refuse(book, tables, needed, preferred)
    others = [text.quoted(other) for other in sheets if other != name and other not in empty]
    more = f" and {len(others) - MOST_NAMED:,} more" if len(others) > MOST_NAMED else ""
    passed = f", but not {', '.join(others[:MOST_NAMED])}{more}" if others else ""
    hidden = ", a hidden one" if name in book.hidden else ""
    return ChosenSheet(name, tables[name], f"of {len(sheets)} sheets, {text.quoted(name)} was read{hidden}{passed}")


def find_sheet_and_empty_or_refuse(
    book: Workbook, parts: dict[str, str], needed: Sequence[str], preferred: str
) -> tuple[str, list[str]]:
    """The first sheet with the needed names in its first row, or else the first one, and those that are empty. One that can't be read
    may have the names too: before that sheet it is a fault. One that isn't read is a fault if it has headings as these."""
    tables, names, heads = sorted(parts, key=book.hidden.__contains__), Names(needed), 0
    if not needed:
        return tables[0], []
    rows = {name: FirstRows(name, parts[name], book, names) for name in tables}
    for row in rows.values():
        row.parse_and_note_first_rows()
        heads += row.count()
        if heads > MOST_HEADS:
            raise too_many_error(MOST_HEADS, "strings in the first rows of its sheets")
    shared = book.parse_strings({number for row in rows.values() for number in row.strings()})
    for row in rows.values():
        row.note_headings_or_unread(shared)
    read = next((name for name, row in rows.items() if row.has_columns()), None)
    for name, row in rows.items():
        if name == read:
            break
        if row.unread:
            raise BadWorkbook(f"{row.unread}: repair the sheet {text.quoted(name)}, or name the one to read {preferred!r}")
    read = read or tables[0]
    for name, row in rows.items():
        if name != read:
            row.refuse_headings(read, preferred)
    return read, [name for name, row in rows.items() if row.is_empty()]


def volatile_place(book: Workbook, name: str, sheet: Sheet) -> str | None:
    """A volatile formula's cell, or its sheet if it isn't the one that is read, on which the other formulas of that may depend."""
    if sheet.is_volatile_alone or not sheet.first_formula:
        return None
    if sheet.first_volatile:
        return f"cell {sheet.first_volatile}"
    others = book.sheet_parts_or_refuse().items() if sheet.names_others or book.defined else ()
    found = (other for other, part in others if part and other != name and book.package.read_and_see_match(part, IN_BYTES))
    return next((f"the sheet {text.quoted(other)}" for other in found), None)
