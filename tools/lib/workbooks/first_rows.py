"""The first rows of a sheet, by which a workbook chooses the sheet that is read."""

import difflib
from collections.abc import Iterable
from typing import NamedTuple

from ..base import text
from .cells import Cell, CellPlace, Uncomputed
from .limits import MOST_OF_FORMULAS, BadWorkbook
from .sheet import Sheet
from .texts import Strings
from .workbook import Workbook

MOST_ROWS, LAST_ROW = 10, 100  # how many rows are looked at, and how far the last one may be from the first
MOST_COLUMNS = 256  # that are looked at in rows after the first
ALIKE = 0.75  # a text at least so similar to the name of a column may be meant for it
OTHER = "-"  # in place of the cells that are no heading


class Names:
    """The names of the needed columns, and the texts that are like one."""

    def __init__(self, names: Iterable[str]) -> None:
        self.names = set(names)
        self.alike: dict[str, bool] = {}
        bits = lambda name, letter: sum(1 << at for at, each in enumerate(name) if each == letter)
        self.letters = {name: {letter: bits(name, letter) for letter in name} for name in self.names}
        self.fewest = min(2, len(self.names))  # how many of them are a row of headings
        self.longest = max(map(len, self.names), default=0) * (2 / ALIKE - 1)  # the length of a text like the longest one

    def is_like_one(self, words: str) -> bool:
        """Whether a text isn't a name, but like one."""
        if words not in self.alike:
            near = [name for name in self.names if words not in self.names and self.may_be_like(words, name)]
            self.alike[words] = bool(near and difflib.get_close_matches(words, near, 1, ALIKE))
        return self.alike[words]

    def may_be_like(self, words: str, name: str) -> bool:
        """Whether a text may be like a name: enough of the name's letters stand in it in their order. It takes less time than difflib."""
        fewest = ALIKE / 2 * (len(words) + len(name))
        if min(len(words), len(name)) < fewest:
            return False
        letters, rest = self.letters[name], 2 ** len(name) - 1  # a bit for each letter that the longest such part lacks
        for letter in words:
            found = rest & letters.get(letter, 0)
            rest = rest + found | rest - found
        return len(name) - (rest % 2 ** len(name)).bit_count() >= fewest


class Headings(NamedTuple):
    """The texts of a row that may be headings, each with its column."""

    row: int
    columns: dict[str, int]

    def place_and_text(self, names: Names) -> tuple[CellPlace, str] | None:
        """Those of a heading, if the row has some: two of the names, or a text like one that doesn't stand alone."""
        named = [words for words in self.columns if words in names.names]
        alike = [words for words in self.columns if names.is_like_one(words)] if len(self.columns) > 1 else []
        if not alike and len(named) < names.fewest:
            return None
        words = (alike or named)[0]
        return CellPlace(self.row, self.columns[words]), words


class Enough(Exception):
    """The first rows of a sheet were read."""


class FirstRows(Sheet):
    """The first rows of a sheet that have a cell. It is `unread`, by a fault, if its headings can't be read, or are uncomputed formulas."""

    def __init__(self, name: str, part: str, book: Workbook, names: Names) -> None:
        super().__init__(name, part, book, None)
        self.opening["tablePart"] = None  # of a sheet that isn't read, tables don't count
        self.names = names
        self.found: list[tuple[int, dict[Cell, int]]] = []  # each row, with the first column of each cell that may be a heading
        self.unread: BadWorkbook | None = None
        self.is_whole = True  # whether all its cells were looked at, unless a fault ended it
        self.uncomputed = 0  # how many cells of the first row are formulas without their values
        self.headings: list[Headings] = []  # of each row, once the shared strings are known

    def content_or_refuse(self) -> Cell:
        """The content of a cell, or a word in its place if it is no heading."""
        words = super().content_or_refuse()
        if isinstance(words, int) or not words:
            return words
        if isinstance(words, Uncomputed):
            self.uncomputed += not self.found
        elif self.kind != "n" and not words.strip():
            return ""
        elif self.kind != "n" and len(words.strip()) <= self.names.longest:
            return words
        return OTHER

    def count_formula_or_refuse(self, characters: int) -> None:
        self.book.size_of_first_formulas += characters
        if self.book.size_of_first_formulas > MOST_OF_FORMULAS:
            raise self.error_of(f"the first rows of the sheets have more than {MOST_OF_FORMULAS:,} characters in their formulas up to this cell")

    def number_text_or_refuse(self, value: str) -> str:
        """The word in place of a number, without the time that its text would take: no name is a number."""
        self.refuse_no_number(value)
        self.number_format_or_refuse()
        return OTHER

    def close_row(self) -> None:
        """Keeps of a row the cells that may be headings: the first place of each."""
        if self.cells:
            places: dict[Cell, int] = {}
            seen = self.cells[: MOST_COLUMNS if self.found else None]
            self.is_whole = self.is_whole and len(seen) == len(self.cells)
            for at, cell in enumerate(seen, 1):
                if cell != "":
                    places.setdefault(cell, at)
            self.found.append((self.row, places))
        self.leave_row()
        if len(self.found) == MOST_ROWS or self.found and self.row - self.found[0][0] >= LAST_ROW:
            raise Enough

    def parse_and_note_first_rows(self) -> None:
        """Parses the sheet until they were read."""
        try:
            self.feed_or_refuse(self.book.package, self.part)
        except Enough:
            self.is_whole = False
        except BadWorkbook as fault:
            self.unread = BadWorkbook(str(fault))  # without its frames, which would hold the parser

    def strings(self) -> Iterable[int]:
        """The numbers of the shared strings that are kept."""
        return (cell for _, cells in self.found for cell in cells if isinstance(cell, int))

    def count(self) -> int:
        return sum(len(cells) for _, cells in self.found)

    def note_headings_or_unread(self, shared: Strings) -> None:
        """Finds the headings by the shared strings. A fault after the first ones is left to a reader of the whole sheet."""
        for row, cells in self.found:
            columns: dict[str, int] = {}
            for cell, column in cells.items():
                words = shared.texts.get(cell) if isinstance(cell, int) else cell
                if words is None and not self.headings:
                    self.unread = self.error_at(CellPlace(row, column), f"it has no string '{cell}'")
                    return
                if words and words.strip():
                    columns.setdefault(words.strip().lower(), column)
            if columns:
                self.headings.append(Headings(row, columns))
        if self.headings:
            self.unread = None
        lacking = self.names.names - set(self.headings[0].columns if self.headings else ())
        if not self.headings and not self.found and not self.has_data and not self.unread:
            self.unread = self.error_of("it has no table of cells")
        if 0 < len(lacking) <= self.uncomputed:
            self.unread = BadWorkbook(f"{self.place}: a formula of its first row was saved without its value")

    def is_empty(self) -> bool:
        """Whether the sheet was read to its end without a cell that can be seen."""
        return self.is_whole and not self.headings and not self.unread

    def has_columns(self) -> bool:
        return not self.unread and bool(self.headings) and self.names.names <= set(self.headings[0].columns)

    def refuse_headings(self, read: str, preferred: str) -> None:
        """Refuses a sheet that isn't read, but may be a table as the one that is read."""
        for headings in self.headings:
            if found := headings.place_and_text(self.names):
                said = f"{text.quoted(found[1])} may be a heading of the table, but the sheet {text.quoted(read)} is read"
                raise self.error_at(found[0], f"{said}: name the one to read {preferred!r}, or remove the other")
