"""Journals: from bytes to a day and its commands, or to the first fault, and back to the written form."""

from collections.abc import Callable
from typing import Any, NamedTuple

from ..base import rules, text


Volumes = tuple[tuple[int, int], ...]  # pairs of a period and tenths of a MW, by increasing period
Key = tuple[str, str]  # the participant and the name of an order
NAMES_OF_ORDER = text.participant_or_none, text.name_or_none  # the parsers of the first two fields of a command


class Order(NamedTuple):
    kind: str  # "hour" or "block"
    side: str  # "buy" or "sell"
    price: int  # cents per MWh
    volumes: Volumes
    parent: str = ""
    group: str = ""


class Submit(NamedTuple):
    who: str
    name: str
    order: Order


class Amend(NamedTuple):
    who: str
    name: str
    price: int
    volumes: Volumes


class Cancel(NamedTuple):
    who: str
    name: str


class Close(NamedTuple):
    pass


Command = Submit | Amend | Cancel | Close


class Journal(NamedTuple):
    periods: int
    commands: list[Command]

    def __repr__(self) -> str:
        return f"<Journal: {self.periods} periods, {len(self.commands)} commands>"


class JournalFault(Exception):
    """The text isn't a journal: the line of docs/FORMATS.md that says why."""


class BadField(Exception):
    """The number of the least field of a record that breaks its rule."""


def parse_journal(data: bytes) -> Journal:
    """The journal that the bytes are, or its first fault."""
    if len(data) > rules.MOST_BYTES:
        raise JournalFault("input: TooLong")
    if not data.isascii():
        raise JournalFault(f"input: NotAscii at {next(at for at, byte in enumerate(data) if byte > 127)}")
    periods: int | None = None
    commands: list[Command] = []
    for number, fields in enumerate(text.records(data), 1):
        if number > rules.MOST_RECORDS:
            raise JournalFault("input: TooManyRecords")
        if number == 1 and fields[0] != b"day":
            raise JournalFault("input: NotDay")
        if len(fields) != 9:
            raise JournalFault(f"input: FieldCount in record {number}")
        try:
            if number == 1:
                periods = parse_day(fields)
            else:
                commands.append(parse_command(fields))
        except BadField as bad:
            raise JournalFault(f"input: BadField in record {number} field {bad}") from None
    if periods is None:
        raise JournalFault("input: NotDay")
    return Journal(periods, commands)


def empty_or_none(field: bytes) -> str | None:
    return "" if field == b"" else None


def optional_name_or_none(field: bytes) -> str | None:
    return "" if field == b"" else text.name_or_none(field)


def word_parser(*words: str) -> Callable[[bytes], str | None]:
    return lambda field: field.decode() if field.decode() in words else None


def one_volume_or_none(field: bytes) -> Volumes | None:
    pairs = text.volumes_or_none(field)
    return pairs if pairs and len(pairs) == 1 else None


def parse_fields(fields: list[bytes], *parsers: Callable[[bytes], object]) -> list[Any]:
    """The values that the parsers make of the fields after the first, one each; an empty field after the last parser's. The first
    that breaks its rule is the record's fault."""
    values = []
    for at in range(1, 9):
        parser = parsers[at - 1] if at <= len(parsers) else empty_or_none
        value = parser(fields[at])
        if value is None:
            raise BadField(at + 1)
        values.append(value)
    return values[: len(parsers)]


def parse_day(fields: list[bytes]) -> int:
    (periods,) = parse_fields(fields, word_parser(*map(str, rules.DAYS)))
    return int(periods)


def parse_command(fields: list[bytes]) -> Command:
    kind = fields[0]
    if kind == b"submit":
        # The fields up to the fourth say how the ones after it are read.
        behind: list[Callable[[bytes], object]] = [one_volume_or_none, empty_or_none, empty_or_none]
        if fields[3] != b"hour":
            behind = [text.volumes_or_none, optional_name_or_none, optional_name_or_none]
        words = word_parser("hour", "block"), word_parser("buy", "sell")
        who, name, *order = parse_fields(fields, *NAMES_OF_ORDER, *words, text.price_or_none, *behind)
        return Submit(who, name, Order(*order))
    if kind == b"amend":
        parsers = empty_or_none, empty_or_none, text.price_or_none, text.volumes_or_none
        who, name, _, _, price, volumes = parse_fields(fields, *NAMES_OF_ORDER, *parsers)
        return Amend(who, name, price, volumes)
    if kind == b"cancel":
        return Cancel(*parse_fields(fields, *NAMES_OF_ORDER))
    if kind == b"close":
        parse_fields(fields)
        return Close()
    raise BadField(1)


def volumes_text(volumes: Volumes) -> str:
    return ";".join(f"{period}:{volume}" for period, volume in volumes)


def command_record_text(command: Command) -> str:
    match command:
        case Submit(who, name, order):
            fields = ["submit", who, name, order.kind, order.side, str(order.price), volumes_text(order.volumes)]
            fields += [order.parent, order.group]
        case Amend(who, name, price, volumes):
            fields = ["amend", who, name, "", "", str(price), volumes_text(volumes), "", ""]
        case Cancel(who, name):
            fields = ["cancel", who, name, "", "", "", "", "", ""]
        case Close():
            fields = ["close", "", "", "", "", "", "", "", ""]
    return ",".join(fields)


def day_record_text(periods: int) -> str:
    return f"day,{periods},,,,,,,"


def journal_text(journal: Journal) -> str:
    lines = [day_record_text(journal.periods)] + [command_record_text(command) for command in journal.commands]
    return "".join(f"{line}\n" for line in lines)
