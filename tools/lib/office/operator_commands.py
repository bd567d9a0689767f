"""The operator's commands on a folder. A request to an office that runs is a file, which it sees at its next look; so a request survives a
crash, and an office that doesn't run needs no other way."""

import asyncio
import datetime
import time
from collections.abc import Callable, Iterator
from typing import TypeVar

from ..base import text
from ..base.json_value import JsonObject
from ..journal import journal
from ..journal.journal import Command
from ..tool import exits
from . import folder, tokens
from .desk import DeskEnded, capture_records
from .folder import DayFolder, Folder

Changed = TypeVar("Changed")
CLOSE_SECONDS, TELL_SECONDS, STEP = 60, 2, 0.05  # to wait for the results of a close, and until it says why it waits


def capture_day_record_or_stop(files: DayFolder, desk: str, is_served: bool = False) -> JsonObject:
    """A day in a record, by its files, and by whether the office is served."""
    terms = files.read_terms()
    has = files.has_file
    commands = capture_commands_or_stop(files, desk) if has(folder.DESK) else []
    is_closed = bool(commands) and isinstance(commands[-1], journal.Close)
    is_open = not is_closed and not has(folder.CLOSE_NOW) and datetime.datetime.now(datetime.timezone.utc) < terms.closes
    stopped = read_stop_reason(files) if is_served and has(folder.STOPPED_DAY) else None
    counts = dict.fromkeys(terms.shares, 0)
    for one in commands:
        if not isinstance(one, journal.Close):
            counts[one.who] = counts.get(one.who, 0) + 1
    return {
        "day": terms.day,
        "state": files.read_state(stopped is not None, is_closed, is_open),
        "stopped": stopped,
        "periods": terms.periods,
        "closes": terms.closes.isoformat(),
        "zone": terms.zone,
        "entries": len(commands),
        "commands": {who: {"entered": count, "share": terms.shares.get(who, 0)} for who, count in counts.items()},
        "journal_published": has(folder.RESULTS) and has(folder.OPEN_JOURNAL),
    }


def capture_commands_or_stop(files: DayFolder, desk: str) -> list[Command]:
    """The commands of a day's journal, as its desk shows them."""
    try:
        records = asyncio.run(capture_records(desk, str(files.path_of(folder.DESK))))
        return journal.parse_journal("".join(f"{record}\n" for record in records).encode()).commands if records else []
    except (DeskEnded, OSError, journal.JournalFault) as fault:
        raise exits.Stop(f"the journal of {files.day} can't be read: {fault}") from None


def read_stop_reason(files: DayFolder) -> str:
    """Why the office that is served has stopped a day."""
    return files.read_file(folder.STOPPED_DAY).decode(errors="replace").strip() or "the log says why"


def capture_day_record_or_fault(files: DayFolder, desk: str, is_served: bool) -> JsonObject:
    """A day in a record; the fault alone, if its files can't be read."""
    try:
        return capture_day_record_or_stop(files, desk, is_served)
    except (OSError, exits.Stop) as fault:
        return {"day": files.day, "fault": exits.status_and_message(fault)[1]}


def capture_status_record(office: Folder, desk: str) -> JsonObject:
    """The days of an office, and whether it is served."""
    register = tokens.Register(office.path_of(folder.PARTICIPANTS))
    is_served = office.hold_and_see_if_served()
    days = [capture_day_record_or_fault(files, desk, is_served) for files in office.list_folders_by_day().values()]
    return {"served": is_served, "participants": len(register.read_names()), "revoked": register.read_revoked(), "days": days}


def status_lines(office_status: JsonObject) -> Iterator[str]:
    yield f"{'served' if office_status['served'] else 'not served'}, {text.counted(office_status['participants'], 'participant')}"
    if office_status["revoked"]:
        yield f"revoked: {', '.join(office_status['revoked'])}"
    for day in office_status["days"]:
        if "fault" in day:
            yield f"{day['day']}: can't be read"
            continue
        closes = f", closes {day['closes']}" if day["state"] in (folder.OPEN, folder.CLOSING, folder.STOPPED) else ""
        yield f"{day['day']}: {day['state']}, {text.counted(day['entries'], 'entry', 'entries')}{closes}"
        if day["stopped"]:
            yield f"  stopped: {day['stopped']}"


def write_request(files: DayFolder, name: str) -> None:
    """Leaves a request of the operator, which stays."""
    if not files.has_file(name):
        folder.write_synced(files.path_of(name), b"")
        folder.give_to_owner_of(files.path_of(name), files.path)


def close_and_wait_or_stop(office: Folder, files: DayFolder) -> bool:
    """Closes a day now. If the office runs, waits for the results. Returns whether there are results. A stopped day isn't closed: its
    journal may lack entries."""
    is_served = office.hold_and_see_if_served()
    if is_served and files.has_file(folder.STOPPED_DAY):
        raise exits.Stop(f"{files.day} is stopped, and wasn't closed: {read_stop_reason(files)}")
    write_request(files, folder.CLOSE_NOW)
    if not is_served and not files.has_file(folder.RESULTS):
        return False
    began, told, tell_at = time.monotonic(), None, TELL_SECONDS
    while not files.has_file(folder.RESULTS):
        waited = time.monotonic() - began
        if waited > CLOSE_SECONDS:
            raise exits.Stop(f"{files.day} has no results after {CLOSE_SECONDS} s: see the office's log", exits.UNDECIDED)
        if waited > tell_at:
            tell_at += TELL_SECONDS
            words = write_trial_and_explain_wait(files)
            if words != told:
                exits.print_note("office", words)
            told = words
        time.sleep(STEP)
    return True


def write_trial_and_explain_wait(files: DayFolder) -> str:
    """The reason for which a close waits, as far as the folder shows it."""
    missing = "results" if files.has_file(folder.HEAD) else "head"
    try:
        files.write_trial_or_raise()
    except OSError as fault:
        return f"{files.day} has no {missing} yet: {exits.shown(files.path)} can't be written: {fault.strerror}"
    return f"{files.day} has no {missing} yet: the office's log says why"


def write_publish_request_or_stop(files: DayFolder) -> None:
    """Leaves the request to publish the results of all orders, the journal and the replies of a day, which should have results."""
    if not files.has_file(folder.RESULTS):
        raise exits.Stop(f"{files.day} has no results yet, and is published after them")
    write_request(files, folder.OPEN_JOURNAL)


def require_and_change_token(office: Folder, who: str, call: Callable[[tokens.Register, str], Changed]) -> Changed:
    """Revokes or renews a participant's token. An office that runs heeds it from the next request on."""
    register = tokens.Register(office.path_of(folder.PARTICIPANTS))
    if who not in register.read_names():
        raise exits.Stop(f"there is no participant {who}")
    return call(register, who)
