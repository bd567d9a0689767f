"""The values of the cells of tables of orders: numbers, periods, volumes and names, as people write them in spreadsheets."""

import functools
import re
from collections.abc import Callable, Sequence
from fractions import Fraction
from typing import NamedTuple

from ..base import clock, rules, spans, text
from ..journal import fields
from ..workbooks.cells import Changed, Percentage, Power, Price, Styled, Uncomputed, Unlike

MOST_KEPT = 2**12  # cells whose values are kept, since those of a table are often alike
MOST_LISTS = 2**8  # the same of cells with volumes, whose values take more
TIMES = re.compile(r"([0-9]{1,2}:[0-9]{2})-([0-9]{1,2}:[0-9]{2})")
TIME = re.compile(r"([0-9]{1,2}):([0-5][0-9])")
DATE = re.compile(r"[0-9]{4}-[0-9]{2}-[0-9]{2}")
OTHER_SPACE = re.compile(r"[^\S ]")  # white space that Excel may show as nothing, or as a space of another width
THOUSANDS = re.compile("[ \u00a0\u202f]+")  # spaces that may separate thousands
SEVERAL = re.compile("[-0-9.,:]+(?: +[-0-9.,:]+)+")  # values with only spaces between them

# By whether a comma may be the decimal point.
DECIMAL = {comma: re.compile(rf"(-?)([0-9]{{1,9}})(?:[{points}]([0-9]+))?") for comma, points in ((False, "."), (True, ".,"))}
# A number with separators of thousands, such as 1.234,50 or 1'234.50: they are alike, and differ from the decimal point.
GROUPED = re.compile(r"(?P<whole>-?[0-9]{1,3}([.,' \u00a0\u202f])[0-9]{3}(?:\2[0-9]{3})*)(?:(?!\2)[.,](?P<digits>[0-9]+))?")


Volumes = tuple[tuple[int, int], ...]  # pairs of a period and tenths of a MW
Parser = Callable[[str], str]


class Scale(NamedTuple):
    """A kind of decimal numbers: a factor makes each whole, and gets it into a range."""

    factor: int
    least: int
    greatest: int
    unit: str


PRICE = Scale(100, rules.LOWEST_PRICE, rules.HIGHEST_PRICE, "EUR/MWh")
VOLUME = Scale(10, 1, rules.GREATEST_VOLUME, "MW")


class BadOrders(Exception):
    """A fault of a cell, or of a table; or several, a line each."""

    def __init__(self, words: str, more: int = 0) -> None:
        """`more`: how many faults a line only counts."""
        super().__init__(words)
        self.more = more


def refuse_unlike(cell: str, is_name: bool, unit: str | None = None) -> None:
    """Refuses a cell that Excel shows in another way, one with another unit than its column has, and a date as a name."""
    if isinstance(cell, (Uncomputed, Percentage, Changed, Styled)) or is_name and isinstance(cell, Unlike):
        raise BadOrders(cell.fault_text())
    if isinstance(cell, (Price, Power)) and cell.unit != unit:
        column = f"the column is in {unit}" if unit else "the column has no unit"
        words = f"{text.quoted(cell)} is a number whose format says {cell.shown_unit}, but {column}"
        raise BadOrders(f"{words}: check it, and give its cell the format General")


@functools.lru_cache(MOST_KEPT)
def parse_scaled(cell: str, scale: Scale, decimal_comma: bool) -> int:
    """A number times the factor. Further digits are refused even if they are zeros: 2.000 may be meant for two thousand."""
    if not cell:
        raise BadOrders(f"it is empty, or a formula that wasn't saved with its value: it should be a number of {scale.unit}, such as 92.5")
    found = DECIMAL[decimal_comma].fullmatch(cell)
    if not found:
        raise BadOrders(f"{text.quoted(cell)} should be a number of {scale.unit}, {example_text(cell, decimal_comma)}")
    sign, whole, rest = found.groups()
    digits = len(str(scale.factor)) - 1
    if len(rest or "") > digits:
        hint = ": write thousands without a separator" if len(rest) == 3 else ""
        raise BadOrders(f"{text.quoted(cell)} has more than {digits} digit{'s' * (digits > 1)} after the decimal point{hint}")
    value = int(f"{sign}{whole}{(rest or '').ljust(digits, '0')}")
    if not scale.least <= value <= scale.greatest:
        ends = [text.fixed_point(Fraction(end) / scale.factor, digits) for end in (scale.least, scale.greatest)]
        raise BadOrders(f"{text.quoted(cell)} should be from {ends[0]} to {ends[1]} {scale.unit}")
    return value


def example_text(cell: str, decimal_comma: bool) -> str:
    """An example of a number, or how to write the one of a cell that has separators of thousands."""
    found = GROUPED.fullmatch(cell)
    if not found:
        return "such as 92.5"
    whole, digits, mark = re.sub(r"[^0-9-]", "", found["whole"]), found["digits"], "," if decimal_comma else "."
    return f"without separators of thousands: {whole}{mark + digits if digits else ''}"


def split_parts(cell: str) -> list[str]:
    return [part for each in cell.split(";") if (part := each.strip(" "))]


def refuse_other_spaces(cell: str) -> None:
    """Refuses a list with white space that isn't a space: Excel may show the values around a tab as one."""
    if found := OTHER_SPACE.search(cell):
        words = f"{text.quoted(cell)} has the white space U+{ord(found[0]):04X}"
        raise BadOrders(f"{words}: write a space instead, or a semicolon between values")


def refuse_joined_values(cell: str) -> None:
    """Refuses a list with only spaces between two values: they may be one, or a semicolon may be lost."""
    for part in split_parts(cell):
        if SEVERAL.fullmatch(part):
            raise BadOrders(f"{text.quoted(part)} has a space between values: write a semicolon there")


def refuse_empty_part(cell: str) -> None:
    """Refuses a list with an empty part: its value may be lost, as by a formula that joins cells."""
    found = cell.split(";")
    for number, part in enumerate(found if len(found) > 1 else [], 1):
        if not part.strip():
            raise BadOrders(f"part {number} of {text.quoted(cell)} is empty: write it, or remove its semicolon")


def parse_periods(cell: str, periods: int) -> list[int]:
    """Increasing periods, such as `8`, `8-20` or `1;3;5-7`, or clock times, such as `07:00-08:00`, with dashes of any kind."""
    refuse_empty_part(cell)
    refuse_other_spaces(cell)
    cell = spans.dashed(cell)
    refuse_joined_values(cell)
    if not split_parts(cell):
        raise BadOrders("it should name a period, such as 8, or several, such as 8-20 or 1;3;5-7, or times, such as 07:00-20:00")
    if ":" in cell:
        numbers = parse_clock_times(cell, periods)
    else:
        numbers = parse_period_numbers(cell, periods)
    if any(one >= other for one, other in zip(numbers, numbers[1:])):
        raise BadOrders(f"the periods {text.quoted(cell)} should increase")
    if numbers[-1] > periods:
        late = next(number for number in numbers if number > periods)
        raise BadOrders(f"the day has periods 1 to {periods}, so there is no period {late} (PeriodOutOfDay)")
    return numbers


@functools.lru_cache(MOST_KEPT)
def parse_kept_periods(cell: str, periods: int) -> tuple[int, ...]:
    """The same, kept for other cells."""
    return tuple(parse_periods(cell, periods))


def refuse_many_parts(parts: list[str], cell: str) -> None:
    """Refuses a cell with more parts than a day has periods, before each is read."""
    if len(parts) > rules.GREATEST_PERIOD:
        raise BadOrders(f"{text.quoted(cell)} has {len(parts):,} parts: a day has at most {rules.GREATEST_PERIOD} periods")


def parse_period_numbers(cell: str, periods: int) -> list[int]:
    refuse_many_parts(split_parts(cell), cell)
    try:
        return spans.parse_periods(cell, rules.GREATEST_PERIOD, periods=periods)
    except ValueError as fault:
        hint = ": a spreadsheet has taken it for a date, so make the cell one of text" if DATE.fullmatch(cell) else ""
        raise BadOrders(f"{text.quoted(cell)} should be {fault}{hint}") from None


def example_hour_text(cell: str) -> str:
    """The clock times of an hour: the one that begins at a cell, if it is a time."""
    found = TIME.fullmatch(cell)
    hour, minute = (int(found[1]), found[2]) if found and int(found[1]) < 24 else (7, "00")
    return f"{hour:02}:{minute}-{hour + 1:02}:{minute}"


def parse_clock_times(cell: str, periods: int) -> list[int]:
    numbers: list[int] = []
    spans_of_time = split_parts(cell)
    refuse_many_parts(spans_of_time, cell)
    for part in spans_of_time:
        found = TIMES.fullmatch(part)
        if not found:
            raise BadOrders(f"{text.quoted(part)} should be two clock times, such as {example_hour_text(part)}")
        try:
            numbers += clock.parse_periods_between_times(periods, *(time.zfill(5) for time in found.groups()))
        except ValueError as fault:
            raise BadOrders(f"{text.quoted(part)}: {fault}") from None
    return numbers


def refuse_thousands(cell: str) -> None:
    """Refuses a list with a part that may be one number, with spaces as separators of thousands, or several numbers."""
    for part in cell.split(";"):
        numbers = THOUSANDS.split(part.strip())
        found = GROUPED.fullmatch(" ".join(numbers)) if len(numbers) > 1 else None
        if found and found[2] == " ":
            either = f"write {''.join(numbers)} or {';'.join(numbers)}"
            raise BadOrders(f"{text.quoted(part.strip())} may be one number or {len(numbers)}: {either}")


@functools.lru_cache(MOST_LISTS)
def parse_volumes(cell: str, numbers: Sequence[int], decimal_comma: bool) -> Volumes:
    """One volume for all periods, or one for each, separated by `;`."""
    refuse_empty_part(cell)
    refuse_thousands(cell)
    refuse_other_spaces(cell)
    refuse_joined_values(cell)
    found = split_parts(cell)
    values = [parse_scaled(part, VOLUME, decimal_comma) for part in found[: rules.GREATEST_PERIOD]]
    if len(found) == 1:
        values *= len(numbers)
    elif len(found) != len(numbers):
        raise BadOrders(f"there are {len(found)} volumes for {len(numbers)} period{'s' * (len(numbers) > 1)}: give one, or one for each")
    return tuple(zip(numbers, values))


def word_parser(*words: str) -> Parser:
    def parse(cell: str) -> str:
        if cell.lower() not in words:
            raise BadOrders(f"{text.quoted(cell)} should be {' or '.join(words)}")
        return cell.lower()

    return parse


def field_parser(name: str) -> Parser:
    """A name, as a field of a journal; for one that breaks its rule the message says the right form."""

    @functools.lru_cache(MOST_KEPT)
    def parse(cell: str) -> str:
        found, wrong = fields.value_and_advice(name, cell)
        if wrong:
            raise BadOrders(f"{text.quoted(cell)} {wrong.removeprefix('it ')}")
        return found

    return parse


parse_participant, parse_name = field_parser("participant"), field_parser("order")


def parse_price(cell: str, decimal_comma: bool) -> int:
    return parse_scaled(cell, PRICE, decimal_comma)
