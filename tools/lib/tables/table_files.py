"""Tables as files: text with separators, and Excel workbooks. Here they are rows of cells; others interpret them."""

import codecs
import contextlib
import csv
import functools
import io
import itertools
import os
import re
from collections.abc import Iterable, Iterator, Mapping, Sequence
from types import ModuleType
from typing import TYPE_CHECKING

from ..base import text
from ..process import ending
from ..workbooks import limits, reading
from ..workbooks.cells import escaped, trimmed
from . import table_operations
from .table_operations import Row, Value

if TYPE_CHECKING:
    from openpyxl.cell import Cell

Line = tuple[int, list[str]]  # a row of a table by the number of its first line

XLSX = b"PK\x03\x04"  # the first bytes of a workbook
PART, LONGEST_ROW = 1 << 20, 1 << 20  # bytes that are decoded at once, and characters of a row of a text
MOST_LINES = limits.LAST_ROW  # of a text
MANY = 10  # how many times the cells and the text of a workbook a text may have if its rows aren't limited
WORD = re.compile(r"[^\s,;\"]")  # a character that no empty row has
OTHER_ENDS = re.compile("[\v\f\x1c-\x1e\x85\u2028\u2029]")  # they end a line for some programs, and none of a text
PREFERRED = "orders"  # the sheet that is read if there are several
# The marks by which a program takes a cell for a formula, also the wide ones. In some languages a comma, a semicolon or a tab in a cell
# begins another one.
FORMULA = ("=", "+", "-", "@", "\uff1d", "\uff0b", "\uff0d", "\uff20", "\t", "\r", "\n")
CELL = r"(\A|[,;\t\r\n])"
MARK = f"(?=[{re.escape(''.join(FORMULA))}])"
UNESCAPED, ESCAPED = re.compile(CELL + MARK), re.compile(f"{CELL}'{MARK}")


class BadTable(Exception):
    """A file that isn't a table, or a table that has too many rows for a sheet."""


def column_names(header: Iterable[str]) -> list[str]:
    return [cell.strip().lower() for cell in header]


def parse_rows_and_add_notes(
    data: bytes, needed: Sequence[str] = (), notes: list[str] | None = None, most: int | None = None, is_long: bool = False
) -> tuple[Iterable[Line], str | None]:
    """The rows of a table, each with the number of its first line; and the separator of its cells, None for a workbook. A text is separated
    by commas, semicolons or tabs, whichever its header has most of. Of a workbook it is the sheet `orders`, or else the only one that has
    the needed columns. It isn't read further if it has more than `most` rows after its first one. Notes say which sheet was read, that a
    text isn't in UTF-8, and that formulas may get other values. The rows of a workbook are kept packed, and of a text that may be long not
    at all."""
    notes = [] if notes is None else notes
    if not data.startswith(XLSX):
        lines = Text(data, notes, most, MANY if is_long or most is None else 1)
        if is_long:
            return lines, lines.separator
        return list(lines), lines.separator
    try:
        rows, new_notes = reading.parse_rows_and_notes(data, PREFERRED, needed, most)
    except limits.BadWorkbook as fault:
        raise BadTable(str(fault)) from None
    notes += new_notes
    return rows, None


def require_encoding_and_add_note(data: bytes, notes: list[str]) -> str:
    """The encoding of a table: UTF-8, UTF-16 with its mark, or else Windows-1252, whose letters no order has, with a note that says so."""
    if data.startswith((codecs.BOM_UTF16_LE, codecs.BOM_UTF16_BE)):
        refuse_broken_utf_16(data)
        return "utf-16"
    place = first_wrong_place(data, "utf-8-sig")
    if place is None:
        return "utf-8-sig"
    line = data.count(b"\n", 0, place) + 1
    notes.append(f"line {line}: the table isn't in UTF-8, and was read as Windows-1252")
    if first_wrong_place(data, "cp1252") is not None:
        raise BadTable(f"line {line}: the table is neither in UTF-8 nor in Windows-1252: save it as CSV in UTF-8")
    return "cp1252"


def refuse_broken_utf_16(data: bytes) -> None:
    """Refuses a text in UTF-16 that lacks a byte: the characters after it, also line ends, would be others. One that lacks both bytes of a
    character is a text without that character, as it may be in any encoding: only its cells can be wrong, such as those of two lines that
    a lost line end has joined. At the end of the text, a lost line end changes nothing."""
    place = first_wrong_place(data, "utf-16")
    if place is not None:
        line = data[:place].decode("utf-16", "ignore").count("\n") + 1
        raise BadTable(f"line {line}: the table isn't in UTF-16, as its first bytes say: save it as CSV in UTF-8")


def first_wrong_place(data: bytes, encoding: str) -> int | None:
    """The place of the first byte that isn't of an encoding, if there is one. The text isn't kept."""
    decoder = codecs.getincrementaldecoder(encoding)()
    for start in range(0, len(data), PART):
        end = min(start + PART, len(data))
        try:
            decoder.decode(data[start:end], end == len(data))
        except UnicodeDecodeError as fault:
            return end - len(fault.object) + fault.start
    return None


class Lines:
    """The lines of a text. Each is a row: a cell that goes on in the next line could hide rows in a column that isn't used."""

    def __init__(self, file: io.TextIOWrapper, delimiter: str) -> None:
        self.file, self.delimiter = file, delimiter
        self.number, self.line = 0, ""  # the line that is being read, or nothing between rows

    def __iter__(self) -> Iterator[str]:
        return self

    def __next__(self) -> str:
        if self.line:
            column = len(next(csv.reader([self.line], delimiter=self.delimiter)))
            words = "a quote begins a cell that doesn't end on its line: write it on one line, or remove the quote"
            raise BadTable(f"line {self.number}, column {column}: {words}")
        self.number += 1
        if self.number > MOST_LINES:
            raise BadTable(f"line {self.number}: a table has at most {MOST_LINES:,} lines")
        self.line = self.file.readline(LONGEST_ROW + 1)
        if len(self.line) > LONGEST_ROW:
            raise csv.Error(f"a row has more than {LONGEST_ROW:,} characters")
        if not self.line:
            raise StopIteration
        return self.line


def find_long_cell(line: str, separator: str) -> int | None:
    """The column of the first cell of a line that is too long for the module csv; None if there is none."""
    most = csv.field_size_limit(max(1, len(line)))
    try:
        cells: list[str] = next(csv.reader([line], delimiter=separator), [])
    finally:
        csv.field_size_limit(most)
    return next((column for column, cell in enumerate(cells, 1) if len(cell) > most), None)


def refuse_other_ends(number: int, line: str, cells: list[str]) -> None:
    """Refuses a line that may be two: the second one could be lost in columns that aren't used."""
    for column, cell in enumerate(cells if OTHER_ENDS.search(line) else [], 1):
        if OTHER_ENDS.search(cell):
            words = f"{text.quoted(cell)} has a character that ends a line for some programs: remove it"
            raise BadTable(f"line {number}, column {column}: {words}")


class Count:
    """The cells and the text of a table, which are limited as the ones of a workbook."""

    def __init__(self, times: int) -> None:
        self.most_cells, self.most_text = times * limits.MOST_CELLS, times * limits.MOST_TEXT
        self.cells = self.size = 0

    def add_or_refuse(self, line: int, cells: list[str]) -> None:
        if len(cells) > limits.LAST_COLUMN:
            raise BadTable(f"line {line}: a row has at most {limits.LAST_COLUMN} cells")
        whole = "".join(cells)
        for column, cell in enumerate(cells if len(whole) > limits.LONGEST_CELL else [], 1):
            if len(cell) > limits.LONGEST_CELL:
                raise BadTable(f"line {line}, column {column}: it has more than {limits.LONGEST_CELL:,} characters")
        self.cells += len(cells)
        self.size += len(whole) if whole.isascii() else sum(map(limits.memory_size, cells))
        for count, most, things in (
            (self.cells, self.most_cells, "cells"),
            (self.size, self.most_text, "bytes of text"),
        ):
            if count > most:
                raise BadTable(f"line {line}: the table has more than {most:,} {things} up to this line: delete those that it doesn't need")


class Text:
    """The rows of a text that aren't empty, in bounded memory: at most `most` after the first and one more. Each pass reads them again."""

    def __init__(self, data: bytes, notes: list[str], most: int | None, times: int) -> None:
        """`times`: how many times the cells and the text of a workbook it may have."""
        self.data, self.notes, self.most, self.times = data, notes, most, times
        self.encoding = require_encoding_and_add_note(data, notes)
        self.separator = max(",;\t", key=self.first_line().count)
        self.is_counted = False  # once it was read to its end, it keeps to the limits

    def text_stream(self) -> io.TextIOWrapper:
        return io.TextIOWrapper(io.BytesIO(self.data), self.encoding, newline="")

    def first_line(self) -> str:
        """The header: the first line that isn't empty."""
        lines = iter(functools.partial(self.text_stream().readline, LONGEST_ROW), "")
        return next(filter(WORD.search, itertools.islice(lines, MOST_LINES)), "")

    def __iter__(self) -> Iterator[Line]:
        lines, found, count = Lines(self.text_stream(), self.separator), 0, Count(self.times)
        width = None  # of the header, with its empty cells
        try:
            for whole in csv.reader(lines, delimiter=self.separator, strict=True):
                if cells := trimmed(whole):
                    width = len(whole) if width is None else width
                    # more cells than the header, even empty ones: a number with a comma may be two of them
                    cells = whole if len(whole) > width else cells
                    if not self.is_counted:
                        refuse_other_ends(lines.number, lines.line, cells)
                        count.add_or_refuse(lines.number, cells)
                        if found and not lines.line.endswith(("\n", "\r")):
                            self.add_note_or_refuse_cut(lines.number, whole, width, lines.line.endswith('"'))
                    found += 1
                    yield lines.number, cells
                lines.line = ""
                if self.most is not None and found > self.most + 1:
                    return
        except csv.Error as fault:
            column = find_long_cell(lines.line, self.separator)
            if column is not None:
                raise BadTable(f"line {lines.number}, column {column}: it has more than {csv.field_size_limit():,} characters") from None
            raise BadTable(f"line {lines.number}: the table can't be read: {fault}") from None
        self.is_counted = True

    def add_note_or_refuse_cut(self, line: int, cells: list[str], width: int, is_closed: bool) -> None:
        """Refuses a last line without its end that lacks cells. A whole one is common: a note says that its last cell may be cut."""
        if len(cells) < width:
            words = f"has {text.counted(len(cells), 'cell')} and no line end, but the header has {width}"
            raise BadTable(f"line {line}: the last line {words}: get the whole file, or end the line if nothing is lost")
        if not is_closed:
            self.notes.append(f"line {line}: the last line has no line end: its last cell, {text.quoted(cells[-1])}, may be cut")


def csv_text(rows: Iterable[Row], decimal_comma: bool = False) -> str:
    """The text of a table, of which no cell of words is a formula. With a decimal comma, semicolons separate the cells."""
    heads, rows = table_operations.heads_and_rows(rows)
    kinds = [table_operations.column_description(name, heads).type for name in heads]
    out = io.StringIO()
    writer = csv.writer(out, lineterminator="\n", delimiter=";" if decimal_comma else ",")
    writer.writerow(heads)
    for row in rows:
        writer.writerow([cell_value(kind, value, decimal_comma) for kind, value in zip(kinds, row)])
    return out.getvalue()


def cell_value(kind: str, value: Value, decimal_comma: bool) -> Value:
    if kind == "string":
        return UNESCAPED.sub(r"\1'", str(value))
    return str(value).replace(".", ",") if decimal_comma and kind in ("number", "array") else value


def fits_cell(words: str) -> bool:
    """Whether words, as they are written in a text or a workbook, aren't longer than a cell may be."""
    return max(len(UNESCAPED.sub(r"\1'", words)), len(escaped(words))) <= limits.LONGEST_CELL


def unescaped(cell: str) -> str:
    """A cell that was read, without the apostrophes that keep it from being taken for a formula."""
    return ESCAPED.sub(r"\1", cell) if "'" in cell else cell


def import_openpyxl() -> ModuleType:
    """The package that writes workbooks. Each sheet is first a temporary file; lxml wouldn't say why one can't be written."""
    os.environ["OPENPYXL_LXML"] = "False"
    import openpyxl

    if remove_temporary_sheets not in ending.last_duties:
        ending.last_duties.append(remove_temporary_sheets)
    return openpyxl


def remove_temporary_sheets(*_: object) -> None:
    """Removes the files that openpyxl began: it does so only if Python itself ends, which a tool that fails doesn't wait for."""
    from openpyxl.worksheet import _writer

    for path in _writer.ALL_TEMP_FILES:
        with contextlib.suppress(OSError):
            os.unlink(path)


def workbook_bytes_or_refuse(tables: Mapping[str, Sequence[Row]]) -> bytes:
    """The bytes of a workbook with a sheet for each table, by name: numbers are numbers, and words are never formulas."""
    for name, rows in tables.items():
        if len(rows) > limits.LAST_ROW:
            raise BadTable(f"the table {name} has {len(rows):,} rows, but a sheet of an Excel workbook has at most {limits.LAST_ROW:,}")
    openpyxl = import_openpyxl()
    from openpyxl.styles import Font
    from openpyxl.utils import get_column_letter

    book = openpyxl.Workbook()
    book.remove(book.active)
    for name, rows in tables.items():
        sheet = book.create_sheet(name)
        heads, _ = table_operations.heads_and_rows(rows)
        kinds = [table_operations.column_description(head, heads).type for head in heads]
        for at, values in enumerate(rows, 1):
            for place, (head, kind, value) in enumerate(zip(heads, kinds, values), 1):
                fill_cell(sheet.cell(at, place), "string" if at == 1 else cell_kind(head, kind, value), value)
        for place, column in enumerate(zip(*rows), 1):
            sheet.cell(1, place).font = Font(bold=True)
            sheet.column_dimensions[get_column_letter(place)].width = 2 + min(60, max(len(str(value)) for value in column))
        sheet.freeze_panes = "A2"
        sheet.auto_filter.ref = sheet.dimensions
    out = io.BytesIO()
    book.save(out)
    return out.getvalue()


def cell_kind(head: str, kind: str, value: Value) -> str:
    """The kind of a cell of a workbook: one volume is a number, and several are a text."""
    return "number" if head == "volume_mw" and ";" not in str(value) else kind


def fill_cell(cell: "Cell", kind: str, value: Value) -> None:
    if value == "":
        return
    if kind in ("number", "integer"):
        cell.value = float(value) if kind == "number" else int(value)
    elif kind == "boolean":
        cell.value = value == "yes"
    else:
        cell.value = escaped(str(value))
        cell.data_type = "s"
