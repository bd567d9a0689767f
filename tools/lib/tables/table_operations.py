"""Operations on any table: times of a date, only some periods, typed records, and JSON."""

import datetime
import json
import re
import zoneinfo
from collections.abc import Collection, Iterable, Iterator, Mapping, Sequence
from typing import NamedTuple

from ..base import rules, spans, text
from ..base.json_value import Json, JsonObject

ZONE = "Europe/Berlin"  # Central European Time
UNITS = {"_eur_mwh": "EUR/MWh", "_mwh": "MWh", "_mw": "MW", "_eur": "EUR"}
WHOLE = {"period", "command", "orders", "others", "scenarios", "accepted"}
NUMBERS = {"hours", "value", "before", "after", "change", "share"}  # without a unit in their name
LISTS = {"periods", "volume_mw"}  # of a table that has both
Value = str | int | float  # of a cell
Row = Sequence[Value]


class Column(NamedTuple):
    name: str
    type: str
    unit: str | None


class BadDate(Exception):
    """A text that is no date, or a date that doesn't fit the day."""


def parse_date(words: str) -> datetime.date:
    try:
        if re.fullmatch(r"[0-9]{4}-[0-9]{2}-[0-9]{2}", words):
            return datetime.date.fromisoformat(words)
    except ValueError:
        pass
    raise BadDate(f"{text.safe(words)}: it should be a day, such as 2026-11-25")


def as_date(date: datetime.date | str) -> datetime.date:
    """A date, the date of a time, or the date of a text."""
    if isinstance(date, str):
        return parse_date(date)
    try:
        return datetime.date(date.year, date.month, date.day)
    except (AttributeError, TypeError, ValueError):
        raise BadDate(f"{text.safe(repr(date))}: it should be a datetime.date, or a text such as 2026-11-25") from None


def begin_times_or_raise(date: datetime.date, periods: int, zone: str = ZONE) -> list[datetime.datetime]:
    """When each period of a delivery day begins, and when the last one ends, in a time zone, such as Central European Time."""
    local, utc = zoneinfo.ZoneInfo(zone), datetime.timezone.utc
    try:
        begin, end = (datetime.datetime.combine(day, datetime.time(), local) for day in (date, date + datetime.timedelta(1)))
        first, behind = begin.astimezone(utc), end.astimezone(utc)
    except OverflowError:
        raise BadDate(f"{date} is the first or the last day of the calendar: it should be another") from None
    if (begin.utcoffset() or datetime.timedelta()) % datetime.timedelta(minutes=1):
        raise BadDate(f"{date} is before {zone} had a time in whole minutes: it should be a later day")
    length = datetime.timedelta(hours=float(rules.DAYS[periods]))
    if first + periods * length != behind:
        hours = int((behind - first) / datetime.timedelta(hours=1))
        days = " or ".join(str(number) for number, part in rules.DAYS.items() if number * part == hours)
        raise BadDate(f"{date} has {hours} hours, so {days} periods, but the day has {periods}")
    return [(first + number * length).astimezone(local) for number in range(periods + 1)]


def heads_and_rows(rows: Iterable[Row]) -> tuple[list[str], Iterator[Row]]:
    """The names of a table's columns, and its other rows."""
    rest = iter(rows)
    return [str(name) for name in next(rest)], rest


def rows_with_times(rows: Iterable[Row], date: datetime.date, periods: int) -> Iterator[Row]:
    """A table with a column of when each period begins, if it has one of periods."""
    times = begin_times_or_raise(date, periods)
    heads, rows = heads_and_rows(rows)
    at = heads.index("period") + 1 if "period" in heads else None
    yield heads if at is None else [*heads[:at], "begins", *heads[at:]]
    for row in rows:
        yield row if at is None else [*row[:at], times[int(row[at - 1]) - 1].isoformat(), *row[at:]]


def rows_with(rows: Iterable[Row], column: str, values: Collection[Value]) -> Iterator[Row]:
    """The rows with one of the values in a column."""
    heads, rows = heads_and_rows(rows)
    yield heads
    at = heads.index(column)
    yield from (row for row in rows if row[at] in values)


def day_record(periods: int, date: datetime.date | None = None) -> JsonObject:
    """A day without its results, as JSON."""
    return {"date": date.isoformat() if date else None, "periods": periods, "hours_per_period": float(rules.DAYS[periods])}


def unit_of(column: str) -> str | None:
    return next((unit for end, unit in UNITS.items() if column.endswith(end)), None)


def column_description(name: str, heads: Iterable[str]) -> Column:
    if LISTS <= set(heads) and name in LISTS:
        kind = "array"
    elif name in WHOLE:
        kind = "integer"
    elif name == "traded":
        kind = "boolean"
    else:
        kind = "number" if unit_of(name) or name in NUMBERS else "string"
    return Column(name, kind, unit_of(name))


def typed_value(kind: str, name: str, cell: Value, row: Mapping[str, Value]) -> Json:
    """A cell as a value: None if it is empty."""
    if cell == "":
        return [] if kind == "array" else None
    if kind == "array":
        numbers = spans.parse_periods(str(row["periods"]), rules.GREATEST_PERIOD)
        if name == "periods":
            return numbers
        volumes = [float(part) for part in str(cell).split(";")]
        return volumes if len(volumes) > 1 else volumes * len(numbers)
    if kind == "integer":
        return int(cell)
    if kind == "number":
        return cell if isinstance(cell, int) else float(cell)
    return cell == "yes" if kind == "boolean" else cell


def records(rows: Iterable[Row], flat: bool = False) -> Iterator[JsonObject]:
    """The rows of a table as dictionaries with numbers, lists and None instead of texts. If they are to be flat, lists stay texts."""
    heads, rows = heads_and_rows(rows)
    kinds = [column_description(name, heads).type for name in heads]
    if flat:
        kinds = ["string" if kind == "array" else kind for kind in kinds]
    for row in rows:
        named = dict(zip(heads, row))
        yield {name: typed_value(kind, name, cell, named) for kind, (name, cell) in zip(kinds, named.items())}


def json_text(name: str, rows: Iterable[Row], day: JsonObject) -> str:
    """The text of a table as JSON; `day` says of which day it is."""
    heads, rows = heads_and_rows(rows)
    columns = [column_description(head, heads)._asdict() for head in heads]
    lines = [json.dumps(record, ensure_ascii=False) for record in records([heads, *rows])]
    parts = [f'"{key}": {json.dumps(value)}' for key, value in (("table", name), ("day", day), ("columns", columns))]
    return "{" + ",\n ".join(parts) + ',\n "rows": [\n  ' + ",\n  ".join(lines) + "\n ]}\n"
