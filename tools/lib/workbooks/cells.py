"""The kinds of cells, the texts of cells, and rows of cells in little memory."""

import array
import bisect
import functools
import re
from collections.abc import Callable, Iterable, Iterator, Sequence
from typing import Generic, NamedTuple, TypeVar, cast

from ..base import text

Cell = str | int  # the text of a cell, or the number of its shared string until the strings are read
AnyCell = TypeVar("AnyCell")

COLUMN = re.compile(r"[A-Z]{1,3}")
ESCAPE = re.compile(r"_x(?![dD][89a-fA-F])([0-9a-fA-F]{4})_")  # a character, but no half of one

# A text that is shown alike from left to right and from right to left: letters and digits, words of them from a letter on, a plain number.
EITHER_WAY = re.compile(r"[A-Za-z0-9]*|[A-Za-z][ -~]*[A-Za-z0-9]|[0-9]+[.,][0-9]+")


class Unlike(str):
    """The text of a cell that Excel shows in another way than it is read."""

    kind, remedy = "", "make the cell one of text"

    def fault_text(self) -> str:
        return f"{text.quoted(self)} is {self.kind}: {self.remedy}"


class Date(Unlike):
    kind = "a date or a time"


class Formatted(Unlike):
    kind = "a number with a format"


class Price(Formatted):
    """A number of which a format says that it is in EUR, or EUR/MWh."""

    shown_unit, unit = "EUR", "EUR/MWh"  # the part that the format shows at least, and the unit of a column of such numbers


class Power(Formatted):
    """A number of which a format says that it is in MW."""

    shown_unit = unit = "MW"


class Percentage(Unlike):
    """A number of which Excel shows a hundred times as much."""

    kind, remedy = "a number that Excel shows as a percentage", "give its cell the format General"


class Changed(Unlike):
    """A number of which Excel shows a thousandth, or with another sign or other digits next to it, or nothing."""

    kind, remedy = "a number that Excel shows in another way", "give its cell the format General"


class Currency(Changed):
    kind = "a number that Excel shows with the currency of each system"


class Repeated(Changed):
    kind, remedy = "a number that fills its cell again and again", "give its cell another horizontal alignment"


class Struck(Changed):
    kind, remedy = "struck out", "remove its row, or clear its formats"


class Unseen(Changed):
    """A text or number in the colour of its cell, or in a font of symbols or one that is too small to be read."""

    kind, remedy = "hidden by the colour, the size or the symbols of its font", "clear its formats"


class Reversed(Changed):
    """A text or number that Excel shows from right to left, so that its parts change places."""

    kind, remedy = "shown from right to left", "give its cell the text direction Left-to-Right"


class Hidden(Changed):
    kind, remedy = "a zero that its sheet hides", "show the sheet's zeros (in Excel's advanced options)"


class Rounded(Changed):
    """A number, and the one that Excel shows instead, with a blank between them."""

    remedy = "round it, or give its cell the format General"

    def fault_text(self) -> str:
        number, shown = self.split()
        return f"{text.quoted(number)} is a number that Excel shows as {shown}: {self.remedy}"


class Worded(Changed):
    """A number, and the words that Excel shows next to it, with a blank between them."""

    def fault_text(self) -> str:
        number, words = self.split(" ", 1)
        return f"{text.quoted(number)} is a number whose format adds {text.quoted(words)}: {self.remedy}"


class Styled(Unlike):
    """A text that a format shows in another way, or of which a part is struck out, or above or below the line."""

    kind, remedy = "a text with a format", "clear its formats"


class Shortened(Unlike):
    kind = "a number of which Excel shows fewer digits"


class Truth(Unlike):
    kind = "a truth value"


class Zero(Unlike):
    """The number 0 of a formula, also of one that links to an empty cell."""

    kind, remedy = "the number of a formula, as it is if it links to an empty cell", "write a text, or clear the cell"


class Uncomputed(Unlike):
    """The formula of a cell that was saved without its value."""

    kind, remedy = "a formula that was saved without its value", "open the workbook in Excel, and save it"


class Volatile(Uncomputed):
    """A formula that Excel computes again once it opens the workbook, so that it may show another value than was saved."""

    kind, remedy = "a formula whose value changes whenever Excel opens the workbook", "write the value in place of it"


class Numbers:
    """A set of small numbers, which takes little memory."""

    def __init__(self) -> None:
        self.flags = bytearray()

    def add(self, number: int) -> None:
        if number >= len(self.flags):
            self.flags.extend(bytes(number + 1 - len(self.flags)))
        self.flags[number] = 1

    def __contains__(self, number: int) -> bool:
        return number < len(self.flags) and self.flags[number] == 1

    def __bool__(self) -> bool:
        return bool(self.flags)


class Kept:
    """Strings by their numbers, which increase: in UTF-8, and so in less memory than strings of their own."""

    def __init__(self) -> None:
        self.numbers: array.array[int] = array.array("I")
        self.ends: array.array[int] = array.array("I")
        self.data = bytearray()

    def add(self, number: int, words: str) -> None:
        self.data += words.encode(errors="surrogatepass")
        self.numbers.append(number)
        self.ends.append(len(self.data))

    def get(self, number: int) -> str | None:
        at = bisect.bisect_left(self.numbers, number)
        if at == len(self.numbers) or self.numbers[at] != number:
            return None
        return self.data[self.ends[at - 1] if at else 0 : self.ends[at]].decode()


# The kinds of cells: before each cell of a packed row stands a half of a character, which no text has, and says its kind.
NUMBERS_CHANGED = Changed, Currency, Repeated, Struck, Unseen, Reversed, Hidden, Rounded, Worded
NUMBERS_SHOWN = Formatted, Price, Power, Percentage, *NUMBERS_CHANGED, Shortened
# The number of a shared string, which a cell has until the strings are read: a class for each kind of the cell's text.
STRINGS: dict[type[str], type[int]] = {str: int}
KINDS_OF_TEXTS: tuple[type[str], ...] = (Styled, Struck, Unseen, Reversed)
for kind_of_bytes in KINDS_OF_TEXTS:
    STRINGS[kind_of_bytes] = cast(type[int], type(f"{kind_of_bytes.__name__}String", (int,), {}))  # `type` doesn't say that
KINDS_OF_STRINGS = {number: kind for kind, number in STRINGS.items()}
TEXTS: tuple[type[str], ...] = (str, Uncomputed, Volatile, Date, *NUMBERS_SHOWN, Styled, Truth, Zero)
CELLS: tuple[type[Cell], ...] = (*TEXTS, *KINDS_OF_STRINGS)
HALVES = {kind: chr(0xD800 + at) for at, kind in enumerate(CELLS)}
PACKED = re.compile("([\ud800-\udfff])([^\ud800-\udfff]*)")


class Rows(Kept, Generic[AnyCell]):
    """Rows of cells by their numbers, packed: a cell of its own takes some 100 bytes. A caller that goes through them again unpacks each
    again. `kinds`: the first ones of `CELLS`, as far as its cells are of these."""

    def __init__(self, kinds: Sequence[Callable[[str], AnyCell]]) -> None:
        super().__init__()
        self.kinds = kinds

    def __len__(self) -> int:
        return len(self.numbers)

    def __iter__(self) -> Iterator[tuple[int, list[AnyCell]]]:
        begin = 0
        for number, end in zip(self.numbers, self.ends):
            cells = PACKED.findall(self.data[begin:end].decode(errors="surrogatepass"))
            yield number, [self.kinds[ord(half) - 0xD800](words) for half, words in cells]
            begin = end

    def add_row(self, number: int, cells: Iterable[Cell]) -> None:
        self.add(number, "".join([f"{HALVES[type(cell)]}{cell}" for cell in cells]))


class CellPlace(NamedTuple):
    row: int
    column: int

    def __str__(self) -> str:
        return f"{column_name(self.column)}{self.row}"


def text_of_kind(kind: type[str], words: str) -> str:
    """The text of a cell of a kind; a plain one if it is the same from right to left."""
    return words if kind is str or kind is Reversed and EITHER_WAY.fullmatch(words.strip()) else kind(words)


def trimmed(cells: list[str]) -> list[str]:
    """The cells of a row without the empty ones at its end, which spreadsheets leave."""
    count = len(cells)
    while count and not cells[count - 1].strip():
        count -= 1
    return cells[:count]


def escaped(words: str) -> str:
    """A text of which no part is one of Excel's escapes of characters."""
    return re.sub("_(?=x[0-9a-fA-F]{4}_)", "_x005F_", words)


def unescaped(words: str) -> str:
    return ESCAPE.sub(lambda found: chr(int(found[1], 16)), words) if "_x" in words else words


@functools.lru_cache(None)
def column_name(column: int) -> str:
    before, last = divmod(column - 1, 26)
    return (column_name(before) if before else "") + chr(ord("A") + last)


@functools.lru_cache(2**15)
def column_number(letters: str) -> int:
    """The number of a column; 0 if the letters are none."""
    if not COLUMN.fullmatch(letters):
        return 0
    number = 0
    for letter in letters:
        number = 26 * number + ord(letter) - ord("A") + 1
    return number
