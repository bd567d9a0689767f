"""The content of a cell as its sheet shows it: a text, a number with its format, a date, or a formula without its value."""

import datetime
import math
import re

from ..base import text
from .cells import STRINGS, Cell, CellPlace, Date, Hidden, Reversed, Struck, Styled, Truth, Uncomputed, Unseen, Volatile, Zero
from .cells import text_of_kind, unescaped
from .limits import MOST_ELEMENTS, BadWorkbook
from .number_formats import digits_text
from .part import TRUTHS, Attributes, unsigned_number
from .styles import GENERAL_FORMAT, CellFormat
from .texts import Texts
from .workbook import Workbook

NUMBER = re.compile(r"[+-]?(?:[0-9]+(?:\.[0-9]*)?|\.[0-9]+)(?:[eE][+-]?[0-9]{1,3})?")
WHOLE = re.compile(r"-?[0-9]{1,15}")
DATE = re.compile(r"([0-9]{4}-[0-9]{2}-[0-9]{2})(?:T[0-9:.]*Z?)?")
CLOCK = re.compile(r"T?([0-9]{2}:[0-9]{2})(?::[0-9.]*)?Z?")


class CellContent(Texts):
    """A cell of a sheet, and where it is."""

    def __init__(self, place: str, book: Workbook) -> None:
        super().__init__()
        self.place, self.book, self.palette = place, book, book.styles.palette
        self.row = self.column = 0
        self.is_in_row = self.hides_zeros = self.is_volatile = False
        self.zero: CellPlace | None = None  # the first one
        self.kind, self.style = "n", "0"
        self.value: str | None = None
        self.formula: str | None = None

    def error_of(self, words: str) -> BadWorkbook:
        if self.is_in_row and self.column:
            return self.error_at(CellPlace(self.row, self.column), words)
        place = f", row {self.row}" if self.row and self.is_in_row else ""
        if self.row and not self.is_in_row and self.within[-1] == "sheetData":
            place = f", after row {self.row}"
        return BadWorkbook(f"{self.place}{place}: {words}")

    def error_at(self, place: CellPlace, words: str) -> BadWorkbook:
        return BadWorkbook(f"{self.place}, cell {place}: {words}")

    def open_v(self, _: Attributes) -> None:
        self.refuse_value(self.kind == "inlineStr")
        self.keep_text()

    def open_is(self, _: Attributes) -> None:
        self.refuse_value(self.kind != "inlineStr")
        self.begin_text()

    def refuse_value(self, is_other: bool) -> None:
        if self.value is not None:
            raise self.error_of("it has two values")
        if is_other:
            raise self.error_of(f"its value isn't of its type, {text.quoted(self.kind)}")

    def close_v(self) -> None:
        self.allow_no_text()
        self.value = self.pop_text()

    def close_is(self) -> None:
        self.value = self.pop_whole_text_or_refuse()

    def content_or_refuse(self) -> Cell:
        """The content of a cell, as in a text. A formula without its value, or a volatile one, stands for itself: it is no empty cell."""
        value, kind = self.value, self.kind
        if self.formula is not None and (value is None or value == "" and kind != "str" or not self.book.is_computed):
            return Uncomputed(f"={self.formula}")
        if self.is_volatile:
            return Volatile(f"={self.formula}")
        if value is None or value == "" and kind in ("n", "str", "inlineStr"):
            return ""
        if kind == "n":
            return self.number_text_or_refuse(value.strip())
        if kind == "s":
            if not WHOLE.fullmatch(value) or not 0 <= int(value) < MOST_ELEMENTS:
                raise self.error_of(f"it has no string {text.quoted(value)}")
            return STRINGS[self.text_kind_or_refuse()](value)
        if kind in ("str", "inlineStr"):
            return text_of_kind(self.text_kind_or_refuse(), unescaped(value))
        if kind == "e" and value:
            return value
        if kind == "b" and value in TRUTHS:
            return Truth(TRUTHS[value])
        if kind == "d" and (found := DATE.fullmatch(value) or CLOCK.fullmatch(value)):
            return Date(found[1])
        raise self.error_of(f"{text.quoted(value)} isn't of its type, {text.quoted(kind)}")

    def text_kind_or_refuse(self) -> type[str]:
        kind = (self.book.styles.cell_format(self.style_number_or_refuse()) or GENERAL_FORMAT).texts
        if self.is_marked and kind not in (Struck, Unseen):
            return Styled
        return kind

    def number_text_or_refuse(self, value: str) -> str:
        """A number with the digits that Excel shows, or the date that it stands for."""
        self.refuse_no_number(value)
        form = self.number_format_or_refuse()
        if not float(value):
            self.zero = self.zero or CellPlace(self.row, self.column)
        if self.hides_zeros and not float(value):
            return Hidden("0")
        if float(value) < 0 and form.is_from_right:
            return Reversed(digits_text(float(value)))
        if form.numbers is Date:
            return Date(self.date_text_or_refuse(float(value)))
        words = form.numbers(int(value) if WHOLE.fullmatch(value) else digits_text(float(value)))
        return Zero(words) if self.formula is not None and words == "0" and type(words) is str else words

    def refuse_no_number(self, value: str) -> None:
        if not NUMBER.fullmatch(value) or not math.isfinite(float(value)):
            raise self.error_of(f"{text.quoted(value)} isn't a number")

    def number_format_or_refuse(self) -> CellFormat:
        number = self.style_number_or_refuse()
        found = self.book.styles.cell_format(number) if number or self.book.styles.formats else GENERAL_FORMAT
        if found is None:
            raise self.error_of(f"it has no format {text.quoted(self.style)}")
        return found

    def style_number_or_refuse(self) -> int:
        number = unsigned_number(self.style)
        if number is None:
            raise self.error_of(f"it has no format {text.quoted(self.style)}")
        return number

    def date_text_or_refuse(self, serial: float) -> str:
        """The date, or of a number below 1 the time of day."""
        seconds = round(serial % 1 * 86_400)
        days = math.floor(serial) + seconds // 86_400
        if days == 0:
            return f"{seconds // 3_600:02}:{seconds // 60 % 60:02}"
        # Excel's calendar has a 29th of February 1900.
        first = datetime.date(1904, 1, 1) if self.book.from_1904 else datetime.date(1899, 12, 31 if days < 60 else 30)
        try:
            if days < 0:
                raise OverflowError
            return (first + datetime.timedelta(days)).isoformat()
        except OverflowError:
            raise self.error_of(f"{serial:.15g} is no date, which its format shows") from None
