"""The fields of a journal's record, parse one by one: the fault of each in words, and the value that it is taken for, so that one
fault isn't reported as several.

A parser takes the text of a field and returns a value, or None if it has none, and the fault of the text: the allowed texts
and the text to write instead."""

import re
from collections.abc import Callable
from fractions import Fraction
from typing import Any

from ..base import rules, text
from .journal import Volumes

# The names of the fields, and those that each kind of command has. The others are empty.
NAMES = ["command", "participant", "order", "kind", "side", "price", "volumes", "parent", "group"]
USED: dict[str, list[str]] = {
    "submit": NAMES[1:],
    "amend": ["participant", "order", "price", "volumes"],
    "cancel": ["participant", "order"],
    "close": [],
}
DECIMAL = re.compile(r"([+-]?)([0-9]{1,9})(?:[.,]([0-9]{1,6}))?")


def word_parser(words: list[str]) -> Callable[[str], tuple[str | None, str | None]]:
    allowed = f"{', '.join(words[:-1])} or {words[-1]}"

    def parse(field: str) -> tuple[str | None, str | None]:
        if field in words:
            return field, None
        if field.lower() in words:
            return field.lower(), f"it should be {allowed}: write {field.lower()}"
        return None, f"it should be {allowed}"

    return parse


def day_and_advice(field: str) -> tuple[int | None, str | None]:
    days = [str(periods) for periods in rules.DAYS]
    if field in days:
        return int(field), None
    allowed = f"the number of periods should be {', '.join(days[:3])} (hours), {', '.join(days[3:-1])} or {days[-1]} (quarter-hours)"
    return None, allowed


def name_parser(allowed: str, parser: Callable[[bytes], str | None]) -> Callable[[str], tuple[str | None, str | None]]:
    def parse(field: str) -> tuple[str | None, str | None]:
        if field.isascii() and parser(field.encode()) is not None:
            return field, None
        better = field.upper().replace("_", "-").replace(" ", "-")
        if better.isascii() and parser(better.encode()) is not None:
            return better, f"it should be {allowed}: write {better}"
        return None, f"it should be {allowed}"

    return parse


participant_and_advice = name_parser(f"1 to {rules.LONGEST_PARTICIPANT} capitals A to Z", text.participant_or_none)
order_name_and_advice = name_parser(text.A_NAME, text.name_or_none)


def price_and_advice(field: str) -> tuple[int | None, str | None]:
    if field.isascii() and text.price_or_none(field.encode()) is not None:
        return int(field), None
    allowed = f"it should be whole cents per MWh from {rules.LOWEST_PRICE} to {rules.HIGHEST_PRICE}"
    return number_and_advice(field, allowed, 100, "EUR/MWh", rules.LOWEST_PRICE, rules.HIGHEST_PRICE)


def number_and_advice(field: str, allowed: str, factor: int, unit: str, least: int, greatest: int) -> tuple[int | None, str]:
    """The number that is meant by one that breaks its rule, if that is plain."""
    digits = DECIMAL.fullmatch(field.strip())
    if not digits:
        return None, allowed
    sign, whole, rest = digits.groups()
    value = Fraction(f"{whole}.{rest or 0}") * (-1 if sign == "-" else 1)
    if rest:
        value *= factor
    if value.denominator != 1 or not least <= value <= greatest:
        return None, allowed
    shown = f" for {field.strip().replace(',', '.')} {unit}" if rest else ""
    return int(value), f"{allowed}: write {int(value)}{shown}"


def pair_and_advice(pair: str) -> tuple[tuple[int, int] | None, str | None]:
    """A period and a volume of a text `period:volume`, and its fault."""
    number, colon, volume = (part.strip() for part in pair.partition(":"))
    if not colon:
        return None, f"{text.quoted(pair)} should be period:volume, such as 8:450"
    if re.fullmatch(r"[0-9]+-[0-9]+", number):
        return None, f"{text.quoted(pair)} has a range of periods: write a pair for each, such as 8:450;9:450"
    if text.number_or_none(number.encode(), 1, rules.GREATEST_PERIOD) is None:
        return None, f"{text.quoted(number)} in {text.quoted(pair)} should be a period from 1 to {rules.GREATEST_PERIOD}"
    if volume.isascii() and text.volume_or_none(volume.encode()) is not None:
        pair_now = int(number), int(volume)
        return pair_now, None if pair == f"{number}:{volume}" else f"{text.quoted(pair)} has a space: write {number}:{volume}"
    allowed = f"{text.quoted(volume)} in {text.quoted(pair)} should be whole tenths of a MW from 1 to {rules.GREATEST_VOLUME}"
    value, wrong = number_and_advice(volume, allowed, 10, "MW", 1, rules.GREATEST_VOLUME)
    return (None if value is None else (int(number), value)), wrong


def volumes_and_advice(field: str) -> tuple[Volumes | None, str | None]:
    """Pairs by increasing period: all that is wrong with them."""
    if field.isascii() and (volumes := text.volumes_or_none(field.encode())) is not None:
        return volumes, None
    if not field:
        return None, "it should be period:volume, such as 8:450, or several, such as 8:450;9:450"
    if (count := field.count(";") + 1) > rules.GREATEST_PERIOD:
        return None, f"it has {count:,} pairs, and a day has at most {rules.GREATEST_PERIOD} periods"
    pairs: list[tuple[int, int] | None] = []
    wrong: list[str] = []
    for part in field.split(";"):
        pair, fault = pair_and_advice(part) if part.strip() else (None, "a pair between `;` is missing, or there is one `;` too many")
        pairs.append(pair)
        wrong += [fault] if fault else []
    known = [pair for pair in pairs if pair]
    numbers = [number for number, _ in known]
    for one, other in zip(numbers, numbers[1:]):
        if one == other:
            wrong.append(f"period {one} appears twice")
        elif one > other:
            wrong.append(f"period {other} stands after {one}: write the pairs by increasing period")
    whole = tuple(sorted(known)) if len(set(numbers)) == len(pairs) else None
    return whole, "; ".join(wrong) or "it should be pairs period:volume by increasing period, with `;` between them"


PARSERS: dict[str, Callable[[str], tuple[object, str | None]]] = {
    "participant": participant_and_advice,
    "order": order_name_and_advice,
    "kind": word_parser(["hour", "block"]),
    "side": word_parser(["buy", "sell"]),
    "price": price_and_advice,
    "volumes": volumes_and_advice,
    "parent": order_name_and_advice,
    "group": order_name_and_advice,
}


def value_and_advice(name: str, field: str) -> tuple[Any, str | None]:
    """A field without the spaces around it: its value, and its fault."""
    bare = field.strip(" \t\u00a0")
    value, wrong = PARSERS[name](bare)
    if bare != field:
        spaces = f"there is a space around it: write {text.safe(bare)}"
        wrong = f"{spaces}; {wrong}" if wrong else spaces
    return value, wrong
