"""Making the folder of an office, its participants and its days."""

import argparse
import contextlib
import datetime
import os
import re
import shutil
import tempfile
import zoneinfo
from collections.abc import Container, Iterator
from pathlib import Path

from ..base import rules, text
from ..process import replacing
from ..seal import heads, sealing, signing
from ..tables import cell_values, kinds, order_table, table_files, table_operations
from ..tool import exits, file_io, modules
from . import folder, tokens

CLOCK = re.compile(r"([01][0-9]|2[0-3]):[0-5][0-9]")
DAY_BEFORE = datetime.timedelta(days=1)
UNFINISHED = ".new-"  # begins the name of the folder of a day that is being made
RENEW = "renew prints a new token for each participant whose token wasn't printed"
WHO, SHARE = "participant", "commands"  # the columns of a table of participants
Shares = dict[str, int | None]  # how many commands each participant may enter; None if its cell is empty


def require_date(words: str) -> datetime.date:
    """The date of a word of the command line."""
    try:
        return table_operations.parse_date(words)
    except table_operations.BadDate as fault:
        raise exits.Stop(f"--day {fault}", exits.COMMAND_LINE) from None


def require_zone(words: str) -> zoneinfo.ZoneInfo:
    modules.refuse_missing_zone(table_operations.ZONE)
    try:
        return zoneinfo.ZoneInfo(words)
    except (zoneinfo.ZoneInfoNotFoundError, ValueError):
        raise exits.Stop(f"--zone {text.quoted(words)} isn't a time zone, such as {table_operations.ZONE}", exits.COMMAND_LINE) from None


def require_close(words: str, date: datetime.date, zone: zoneinfo.ZoneInfo) -> datetime.datetime:
    """The time of a close: on the day before delivery, or with a date of its own."""
    try:
        if CLOCK.fullmatch(words):
            words = f"{date - DAY_BEFORE}T{words}"
        local = datetime.datetime.strptime(words, "%Y-%m-%dT%H:%M")
        found = local.replace(tzinfo=zone).astimezone(datetime.timezone.utc)
        again = found.astimezone(zone).replace(tzinfo=None)
    except (ValueError, OverflowError):  # also of a time at an end of the calendar
        raise exits.Stop(
            f"--close {text.quoted(words)} should be a time such as 12:00, or 2026-11-28T12:00", exits.COMMAND_LINE
        ) from None
    if again != local:
        raise exits.Stop(f"--close {words}: there is no such time in {zone.key}, whose clocks change", exits.COMMAND_LINE)
    return found


def require_terms(args: argparse.Namespace, shares: dict[str, int], now: datetime.datetime | None = None) -> folder.Terms:
    """The terms of a day, by the words of the command line."""
    date, zone = require_date(args.day), require_zone(args.zone)
    if args.periods not in rules.DAYS:
        raise exits.Stop(f"--periods should be one of {', '.join(map(str, sorted(rules.DAYS)))}", exits.COMMAND_LINE)
    try:
        table_operations.begin_times_or_raise(date, args.periods, args.zone)
    except table_operations.BadDate as fault:
        raise exits.Stop(f"--periods: {fault}", exits.COMMAND_LINE) from None
    closes = require_close(args.close, date, zone)
    if closes <= (now or datetime.datetime.now(datetime.timezone.utc)):
        raise exits.Stop(f"--close: {closes.astimezone(zone):%Y-%m-%d %H:%M} {zone.key} is past", exits.COMMAND_LINE)
    return folder.Terms(args.day, args.periods, closes, args.zone, shares)


def is_closing_late(terms: folder.Terms) -> bool:
    """Whether a day closes after its first period has begun, which may be a slip."""
    return terms.closes.astimezone(zoneinfo.ZoneInfo(terms.zone)).date() >= require_date(terms.day)


def read_shares_and_print_notes(path: str) -> Shares:
    """The participants of a table, CSV or Excel, with the column participant; and how many commands each may enter, if a column commands
    says it."""
    data, notes = file_io.read_bytes(path), list[str]()
    kind = kinds.kind_of_bytes(data)
    if kind in kinds.FILES - {kinds.EXCEL}:
        raise exits.Stop(f"{exits.shown(path)} is {kind}: save the table as .xlsx or as CSV")
    try:
        found = parse_shares_and_append_notes(data, notes)
    except (table_files.BadTable, order_table.BadOrders) as fault:
        lines = "\n  ".join([*str(fault).split("\n"), *notes])
        raise exits.Stop(f"{exits.shown(path)}: {lines}") from None
    if not 0 < len(found) <= folder.MOST_COMMANDS:
        raise exits.Stop(f"{exits.shown(path)} has no participant, or more than {folder.MOST_COMMANDS:,}")
    for note in notes:
        exits.print_note("office", f"note: {exits.shown(path)}: {note}")
    return found


def parse_shares_and_append_notes(data: bytes, notes: list[str]) -> Shares:
    """The same of a table's bytes. A cell that would be lost is a fault. Notes say how the table was read."""
    (line, header), *rows = list(table_files.parse_rows_and_add_notes(data, [WHO], notes, folder.MOST_COMMANDS)[0]) or [(1, [])]
    table = order_table.Table("", rows, require_columns(line, header), len(header), False, [], notes)
    order_table.refuse_unnamed(header, rows)
    found, lines, wrong = Shares(), dict[str, int](), order_table.Faults()
    for line, cells in rows:
        row = order_table.Row(cells, table, 0)
        who = row.parse_cell_or_note_fault(WHO, cell_values.parse_participant, "")
        share = row.parse_cell_or_note_fault(SHARE, parse_share, None)
        if who and who in lines:
            row.faults.append(f"column {WHO}: {who} is in line {lines[who]} too")
        found[who] = share
        lines.setdefault(who, line)
        for words in row.faults:
            wrong.add(order_table.row_fault_text(line, words))
    if wrong.count:
        raise wrong.as_one_error()
    return found


def require_columns(line: int, header: list[str]) -> order_table.Places:
    """Where the columns of a table of participants stand. It has no others."""
    names, columns = table_files.column_names(header), f"the columns are {WHO}, {SHARE}"
    if WHO not in names:
        raise order_table.BadOrders(f"line {line}: there is no column {WHO}; {columns}")
    for at, name in enumerate(names):
        if name and name in names[:at]:
            raise order_table.BadOrders(f"line {line}, column {at + 1}: the column {text.quoted(name)} appears twice")
        if name not in (WHO, SHARE, ""):
            raise order_table.BadOrders(f"line {line}, column {at + 1}: {text.quoted(header[at])} is not a column; {columns}")
    return order_table.Places({name: at for at, name in enumerate(names) if name})


def parse_share(cell: str) -> int | None:
    """How many commands a participant may enter; None if its cell is empty."""
    if cell and not (cell.isascii() and cell.isdigit() and len(cell) < 6):
        raise order_table.BadOrders(f"{text.quoted(cell)} should be a whole number of at most 5 digits, such as 500")
    return int(cell) if cell else None


def require_shares(given: Shares) -> dict[str, int]:
    """How many commands each participant may enter: all of them together no more than a journal has, so that nobody takes another's."""
    free = folder.MOST_COMMANDS - sum(share for share in given.values() if share is not None)
    open_ones = sum(share is None for share in given.values())
    if free < open_ones:
        raise exits.Stop(f"the participants may enter more than {folder.MOST_COMMANDS:,} commands, which a journal doesn't have")
    return {who: free // open_ones if share is None else share for who, share in given.items()}


def make_office(office: folder.Folder) -> None:
    """Makes the folder with its key, without participants. Of several processes at once, one makes it, and the others find it."""
    os.makedirs(office.path, mode=0o700, exist_ok=True)
    with folder.holding_folder(office.path):
        if not office.path_of(folder.PARTICIPANTS).exists():
            replacing.remove_leftovers(office.path)
            make_keys_or_stop(office)
        office.read_public_text_or_stop(office.read_key())
        if not office.path_of(folder.PARTICIPANTS).exists():
            folder.write_synced(office.path_of(folder.PARTICIPANTS), folder.json_bytes({}))
        os.makedirs(office.path_of(folder.DAYS), exist_ok=True)


def make_keys_or_stop(office: folder.Folder) -> None:
    """Makes the two files of the key that aren't there: the public half is made of the other, so an `init` that was ended is repeated."""
    if not office.path_of(folder.KEY).exists():
        if any(os.scandir(office.path)):
            raise exits.Stop(f"{exits.shown(office.path)} isn't empty, and isn't the folder of an office")
        folder.write_synced(office.path_of(folder.KEY), signing.private_bytes(signing.draw_key()))
    if not office.path_of(folder.PUBLIC).exists():
        folder.write_synced(office.path_of(folder.PUBLIC), signing.public_bytes(office.read_key()))


def make_day_or_stop(office: folder.Folder, terms: folder.Terms) -> None:
    with making_day(office, terms):
        pass


@contextlib.contextmanager
def making_day(office: folder.Folder, terms: folder.Terms) -> Iterator[None]:
    """Makes the folder of a day, whole or not at all: it is there once the block has ended. Another process that makes a day waits until
    then, so that the block of a day that is there already never begins."""
    days = office.path_of(folder.DAYS)
    with folder.holding_folder(office.path):
        if (days / terms.day).exists():
            raise exits.Stop(f"there is a day {terms.day} already: {RENEW}")
        for left in days.glob(f"{UNFINISHED}*"):  # by a process that was ended
            shutil.rmtree(left)
        made = Path(tempfile.mkdtemp(prefix=UNFINISHED, dir=days))  # next to its place
        try:
            files = folder.DayFolder(made)
            folder.write_synced(files.path_of(folder.SALTS), heads.line_bytes_of(sealing.draw_salts(terms.day)))
            folder.write_synced(files.path_of(folder.TERMS), folder.json_bytes(terms.json_value()))
            for path in (files.path_of(folder.SALTS), files.path_of(folder.TERMS), made):
                folder.give_to_owner_of(path, office.path)
            yield
            os.rename(made, days / terms.day)
            folder.sync_folder(days)
        finally:
            shutil.rmtree(made, ignore_errors=True)


def make_or_extend_office(office: folder.Folder, args: argparse.Namespace) -> tuple[folder.Terms, dict[str, str]]:
    """Makes the office if there is none, its new participants and the day. Returns the terms, and the tokens of the new participants. A note
    names those whose tokens may have been lost, as an `init` was ended before it printed them."""
    register = tokens.Register(office.path_of(folder.PARTICIPANTS))
    is_new = not office.path_of(folder.PARTICIPANTS).exists()
    if args.participants is None and (is_new or not register.read_names()):
        raise exits.Stop("a new office needs --participants", exits.COMMAND_LINE)
    given = read_shares_and_print_notes(args.participants) if args.participants else dict.fromkeys(register.read_names())
    terms = require_terms(args, require_shares(given))
    make_office(office)
    with making_day(office, terms):  # a token is made only if it is shown
        unseen = list_participants_without_day(office, register, given)
        made = register.write_and_return_new_tokens(given)
    if unseen:
        exits.print_note("office", f"note: {', '.join(unseen)} had tokens already, but no day: {RENEW}")
    return terms, made


def list_participants_without_day(office: folder.Folder, register: tokens.Register, names: Container[str]) -> list[str]:
    """Those of some participants who have a token, but are in no day that can be read."""
    without = {who for who in register.read_names() if who in names} - set(register.read_revoked())
    for files in office.list_folders_by_day().values():
        with contextlib.suppress(*folder.UNREADABLE):
            without -= set(files.read_terms().shares)
    return sorted(without)
