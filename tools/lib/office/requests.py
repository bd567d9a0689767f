"""The commands in the body of a request: records of a journal, or JSON. And the records that a table of orders or commands makes."""

import functools
import json
import re
from collections.abc import Iterable, Sequence
from typing import NamedTuple

from ..base import rules, text
from ..base.json_value import Json
from ..journal import book, journal
from ..journal.journal import Command
from ..lint import lint
from ..tables import command_table, kinds, order_table
from .folder import MOST_COMMANDS

RECORDS, JSON = "text/csv", "application/json"
FIELDS: dict[str, tuple[set[str], set[str]]] = {  # of a command in JSON, by its kind: those that it must have, and those that it may have
    "submit": ({"order", "kind", "side", "price", "volumes"}, {"parent", "group"}),
    "amend": ({"order", "price", "volumes"}, set()),
    "cancel": ({"order"}, set()),
}
MOST_LINTED, MOST_LINES = 1 << 12, 20  # bytes and lines of a body of which all faults are named
WITH_DAY = re.compile(rb'[\r\n]*"?day"?,')  # at the beginning of a body
RECORD = re.compile("record ([0-9]+)")
CODE = re.compile(rf" \((?:{'|'.join(book.REASONS)})\)$", re.MULTILINE)  # of the book, behind its words in a table's fault
DAY = f"{journal.day_record_text(rules.GREATEST_PERIOD)}\n".encode()  # before records; the desk's book knows the day's periods


class BadRequest(Exception):
    """The body has no commands of this participant: the fault in words, by its place."""


def parse_commands(body: bytes, kind: str, who: str, first: int = 1) -> list[Command]:
    """The commands of a body, of which the first one has this number."""
    if kind == JSON:
        body = "".join(f"{record}\n" for record in parse_json_records(body, who, first)).encode()
    elif kind != RECORDS:
        raise BadRequest(f"the type of the content should be {RECORDS} or {JSON}")
    try:
        commands = journal.parse_journal(DAY + body).commands
    except journal.JournalFault as fault:
        raise BadRequest(f"no records of a journal:{fault_text(body, fault)}") from None
    if not commands:
        raise BadRequest("there is no command")
    for place, command in enumerate(commands, 1):
        if isinstance(command, journal.Close):
            raise BadRequest(f"{place_text(place, first)} is a close, which only the office enters")
        if command.who != who:
            raise BadRequest(f"{place_text(place, first)} isn't yours: its participant should be {who}")
    return commands


def place_text(place: int, first: int) -> str:
    """A command by its place in a request and by its number, which may differ."""
    return f"command {place} of the request (number {first + place - 1})"


def fault_text(body: bytes, fault: journal.JournalFault) -> str:
    """The faults of a body in words. Of a long one, the first as it is named, counted from the first of its records."""
    if WITH_DAY.match(body):
        return " its first record is a day, which the office adds: send the commands alone"
    if len(body) <= MOST_LINTED and len(body.splitlines()) <= MOST_LINES:
        return lint.first_fault_text(body, rules.GREATEST_PERIOD)
    return " " + RECORD.sub(lambda found: f"record {int(found[1]) - 1}", str(fault).removeprefix("input: "))


require_unrepeated_members = functools.partial(text.require_unrepeated_members, lambda _: BadRequest("an object has two members of one name"))


def parse_json_records(body: bytes, who: str, first: int) -> list[str]:
    """The records of a command in JSON, or of a list of commands."""
    try:
        value = json.loads(body, object_pairs_hook=require_unrepeated_members)
    except BadRequest:
        raise
    except (ValueError, RecursionError):
        raise BadRequest("it isn't JSON") from None
    commands = value if isinstance(value, list) else [value]
    if len(commands) > MOST_COMMANDS:
        raise BadRequest(f"there are more than {MOST_COMMANDS:,} commands")
    return [parse_json_record(command, who, place_text(place, first)) for place, command in enumerate(commands, 1)]


def parse_json_record(value: Json, who: str, command: str) -> str:
    """The record of a command in JSON. Whether its fields are right is seen when the record is read."""
    kind = value.get("what") if isinstance(value, dict) else None
    if not isinstance(kind, str) or kind not in FIELDS:
        raise BadRequest(f"{command} should be an object whose member what is submit, amend or cancel")
    needed, further = FIELDS[kind]
    given = set(value) - {"what"}
    if not needed <= given <= needed | further:
        raise BadRequest(f"{command}: {kind} has the members {', '.join(['what', *sorted(needed | further)])}")
    words = {name: require_word(value[name], command, name) for name in given - {"price", "volumes"}}
    price = require_number_text(value["price"], command, "price") if "price" in given else ""
    volumes = require_volumes_text(value["volumes"], command) if "volumes" in given else ""
    of = words.get
    return ",".join([kind, who, words["order"], of("kind", ""), of("side", ""), price, volumes, of("parent", ""), of("group", "")])


def require_word(value: Json, command: str, name: str) -> str:
    if not isinstance(value, str) or not value.isascii() or not all(mark.isalnum() or mark == "-" for mark in value):
        raise BadRequest(f"{command}: {name} should be a text of letters, digits and -")
    return value


def require_number_text(value: Json, command: str, name: str) -> str:
    if type(value) is not int or abs(value) > rules.HIGHEST_PRICE:
        raise BadRequest(f"{command}: {name} should be an integer, prices in cents per MWh, volumes in tenths of a MW")
    return str(value)


def require_volumes_text(value: Json, command: str) -> str:
    """Pairs of a period and a volume."""
    if not isinstance(value, list) or not 0 < len(value) <= rules.GREATEST_PERIOD:
        raise BadRequest(f"{command}: volumes should be a list of 1 to {rules.GREATEST_PERIOD} pairs [period, volume]")
    if not all(isinstance(pair, list) and len(pair) == 2 for pair in value):
        raise BadRequest(f"{command}: volumes should be a list of pairs [period, volume]")
    return ";".join(":".join(require_number_text(part, command, "a volume") for part in pair) for pair in value)


class ReadTable(NamedTuple):
    """The records of the commands in a table, and notes on how it was read."""

    records: list[str]
    notes: list[str]


def parse_table(data: bytes, who: str, periods: int, orders: Iterable[Sequence[str]] = ()) -> ReadTable:
    """Reads a table of orders or of commands of this participant, whose orders in the book are pairs of a name and a kind. Nothing is
    entered."""
    kind = kinds.kind_of_bytes(data)
    if kind in kinds.FILES - {kinds.EXCEL, kinds.LOCKED}:  # a participant may have no tool that converts it
        raise BadRequest(f"this is {kind}: save the table as .xlsx or as CSV")
    try:
        cells = order_table.parse_cells(data)
        placed: Iterable[tuple[int, command_table.Change]]
        if command_table.is_command_table(cells):
            placed, notes = command_table.parse_commands_and_notes(cells, periods)
        else:
            read = order_table.parse_tables([("", cells)], periods, held=(who, orders))
            placed, notes = read.submits, read.notes
            if not placed:
                raise BadRequest("the table has no order below its first line")
    except order_table.BadOrders as fault:
        raise BadRequest(CODE.sub("", str(fault))) from None
    records, others = [], []
    for _, command in placed:
        records.append(journal.command_record_text(command))
        others += [] if command.who == who else [f"{command.name} of {command.who}"]
    if others:
        of_others = f"the table has {text.counted(len(others), 'command')} of other participants than {who}"
        raise BadRequest(f"{of_others}: the first one is for {others[0]}")
    if not records:
        raise BadRequest("the table has no command")
    return ReadTable(records, notes)
