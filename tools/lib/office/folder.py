"""The folder of an office: its key, its participants, and a folder for each day. A file is whole or not there. Only the owner reads any."""

from __future__ import annotations

import contextlib
import datetime
import fcntl
import functools
import json
import os
import tempfile
from collections.abc import Iterable, Iterator
from pathlib import Path
from typing import TYPE_CHECKING, NamedTuple

from ..base import place, rules, text
from ..base.json_value import Json
from ..process import replacing
from ..seal import heads
from ..tool import exits, file_io, modules

if TYPE_CHECKING:
    from cryptography.hazmat.primitives.asymmetric.ed25519 import Ed25519PrivateKey

KEY, PUBLIC, PARTICIPANTS, LOCK, DAYS = "operator.pem", "operator.pem.pub", "participants.json", "lock", "days"
TERMS, SALTS, DESK = "terms.json", "salts.json", "desk"  # of a day; the last one is the desk's file
HEAD, JOURNAL, REPLIES, RESULTS, STATEMENT = "head.json", "journal.csv", "replies.txt", "results.txt", "statement.json"
SUMS = "sums.json"  # of the results and the statement, as they were made
SIGNED = "signed-head.json"  # the newest head, while a day is open; HEAD is the last one
CLOSE_NOW, OPEN_JOURNAL = "close-now", "publish-journal"  # the operator's requests
STOPPED_DAY = "stopped"  # why the office that is served has stopped the day
OPEN, CLOSING, CLOSED, RESULTS_THERE, PUBLISHED = "open", "closing", "closed", "results", "published"  # the states of a day
STOPPED = "stopped"  # a state that only an office in service knows
MOST_COMMANDS = rules.MOST_RECORDS - 2  # of all participants: the day and the close are records too
UNREADABLE = (OSError, exits.Stop)  # by a file that is missing, damaged or another user's
PRIVATE, CHANGES = 0o077, 0o022  # the bits of a mode by which others read, change or run a file; those by which they change it
OFFICE_FILES = (KEY, PUBLIC, PARTICIPANTS, f"{PARTICIPANTS}.lock", LOCK)
# Those of a day with contents that count: the operator's requests are files whose names alone do.
DAY_FILES = (TERMS, SALTS, DESK, f"{DESK}-wal", SIGNED, HEAD, JOURNAL, REPLIES, RESULTS, STATEMENT, SUMS)
PUBLISHED_FILES = (HEAD, JOURNAL, REPLIES, RESULTS)
MOST_DIGITS = 20  # of a number that is read
ROOM = 1 << 17  # bytes: more than the desk writes at once


class Terms(NamedTuple):
    """The terms of a day, which never change."""

    day: str
    periods: int
    closes: datetime.datetime  # in UTC
    zone: str
    shares: dict[str, int]  # how many commands each participant may enter

    def json_value(self) -> dict[str, object]:
        return {**self._asdict(), "closes": self.closes.isoformat()}


class OddFile(ValueError):
    """A file of the office isn't as the office writes it: the words say where."""


require_unrepeated_members = functools.partial(text.require_unrepeated_members, lambda name: OddFile(f"{text.quoted(name)} comes twice"))


def parse_terms(data: bytes, day: str) -> Terms:
    """The terms of the day of a name."""
    value = json.loads(data, object_pairs_hook=require_unrepeated_members, parse_int=parse_whole_number)
    if not isinstance(value, dict):
        raise OddFile("it should be an object")
    for name in [*Terms._fields, *value]:
        if name not in value or name not in Terms._fields:
            raise OddFile(f"{text.quoted(name)} is {'missing' if name not in value else 'no member of it'}")
    closes = close_or_none(value["closes"])
    for name, is_right, should in (
        ("day", value["day"] == day, f"the name of its folder, {day}"),
        ("periods", type(value["periods"]) is int and value["periods"] in rules.DAYS, f"one of {', '.join(map(str, sorted(rules.DAYS)))}"),
        ("closes", closes is not None, "a time in UTC, such as 2026-11-28T11:00:00+00:00"),
        ("zone", isinstance(value["zone"], str) and modules.has_zone(value["zone"]), "a time zone of this system"),
        ("shares", isinstance(value["shares"], dict) and value["shares"], "an object that has each participant"),
    ):
        if not is_right:
            raise OddFile(f"{name} should be {should}, and is {shown_value(value[name])}")
    refuse_shares(value["shares"])
    value["closes"] = closes
    return Terms(**value)


def parse_whole_number(digits: str) -> float:
    """A whole number; one with more digits than any that is right is another."""
    return int(digits) if len(digits) <= MOST_DIGITS else float(digits)


def close_or_none(word: object) -> datetime.datetime | None:
    """The time of a close; None for any other value."""
    with contextlib.suppress(ValueError):
        if isinstance(word, str) and (found := datetime.datetime.fromisoformat(word)).utcoffset() == datetime.timedelta(0):
            return found
    return None


def refuse_shares(shares: dict[str, Json]) -> None:
    for who, share in shares.items():
        if text.participant_or_none(who.encode(errors="replace")) is None:
            raise OddFile(f"shares: {text.quoted(who)} should be {text.A_PARTICIPANT}")
        if type(share) is not int or not 0 <= share <= MOST_COMMANDS:
            raise OddFile(f"shares: {who} should have a whole number from 0 to {MOST_COMMANDS:,}, and has {shown_value(share)}")
    if (whole := sum(shares.values())) > MOST_COMMANDS:
        raise OddFile(f"shares: together they are {whole:,}, and a journal has {MOST_COMMANDS:,} commands")


def shown_value(value: object) -> str:
    """A value that was read, in a message."""
    return text.safe(json.dumps(value))


def write_synced(path: Path, data: bytes) -> None:
    """Writes a file that is whole, and on the disk, or not there."""
    with naming_file(path):
        replacing.write_replacing(path, data)
    sync_folder(Path(path).parent)


@contextlib.contextmanager
def naming_file(path: Path) -> Iterator[None]:
    """Lets a fault of the system name this file: one of a write names none, or one that is to take its place."""
    try:
        yield
    except OSError as fault:
        raise OSError(fault.errno, fault.strerror, str(path)) from None


def sync_folder(folder: Path) -> None:
    number = os.open(folder, os.O_RDONLY | os.O_DIRECTORY)
    try:
        with naming_file(folder):
            os.fsync(number)
    finally:
        os.close(number)


@contextlib.contextmanager
def holding_folder(path: Path) -> Iterator[None]:
    """Holds a folder: others that hold it wait until the end of the block. A process that ends lets go of it."""
    number = os.open(path, os.O_RDONLY | os.O_DIRECTORY | os.O_CLOEXEC)
    try:
        with naming_file(path):
            fcntl.flock(number, fcntl.LOCK_EX)
        yield
    finally:
        os.close(number)


def give_to_owner_of(file: Path | int, path: Path) -> None:
    """Gives a file that was made, by its path or its number, the owner of the office's folder: root may run a command on the office of a
    user, which has to read it."""
    if os.geteuid() == 0:
        owner = os.stat(path)
        os.chown(file, owner.st_uid, owner.st_gid)


@contextlib.contextmanager
def stopping_if_damaged(path: Path, kind: str) -> Iterator[None]:
    """Ends the reader of a file of the office with a fault that names the file, if it is damaged."""
    try:
        yield
    except (ValueError, TypeError, KeyError, RecursionError, heads.BadRecord) as fault:
        where = f": {fault}" if isinstance(fault, (OddFile, heads.BadRecord)) else ""
        raise exits.Stop(f"{exits.shown(path)} can't be used: it isn't {kind}{where}") from None


def json_bytes(value: object) -> bytes:
    return json.dumps(value, indent=1).encode() + b"\n"


class NamedFiles:
    """The files of a folder by their names."""

    def __init__(self, path: str | Path) -> None:
        self.path = Path(path)

    def path_of(self, name: str) -> Path:
        return self.path / name

    def refuse_shared_files(self, names: Iterable[str], public: Iterable[str]) -> None:
        """Ends the server of these files, which need not be there, if others may change one, or read one that isn't public."""
        for name in names:
            with contextlib.suppress(FileNotFoundError):
                if self.path_of(name).stat().st_mode & (CHANGES if name in public else PRIVATE):
                    raise exits.Stop(f"{exits.shown(self.path_of(name))} can be read or changed by others: chmod 600")


class DayFolder(NamedFiles):
    """The files of a day."""

    @property
    def day(self) -> str:
        return self.path.name

    def has_file(self, name: str) -> bool:
        return self.path_of(name).exists()

    def refuse_if_shared(self) -> None:
        """Ends the server of the day if others may read or change its files. All may read the published ones."""
        self.refuse_shared_files(DAY_FILES, PUBLISHED_FILES if self.has_file(OPEN_JOURNAL) else ())

    def read_file(self, name: str) -> bytes:
        return self.path_of(name).read_bytes()

    def remove(self, name: str) -> None:
        self.path_of(name).unlink(missing_ok=True)

    def read_state(self, is_stopped: bool, is_closed: bool, is_open: bool) -> str:
        """The state of the day: by its files, by whether the office has stopped it, whether its journal has the close, and whether a
        command that arrives now is in time."""
        if is_stopped:
            return STOPPED
        if self.has_file(RESULTS):
            return PUBLISHED if self.has_file(OPEN_JOURNAL) else RESULTS_THERE
        if is_closed:
            return CLOSED
        return OPEN if is_open else CLOSING

    def write_trial_or_raise(self) -> None:
        """Writes as much as a batch of the desk to a file without a name. Ends with an OSError unless the disk takes it now."""
        with naming_file(self.path), tempfile.TemporaryFile(dir=self.path) as file:
            file.write(bytes(ROOM))
            file.flush()
            os.fsync(file.fileno())

    def read_terms(self) -> Terms:
        with stopping_if_damaged(self.path_of(TERMS), "the terms of a day"):
            return parse_terms(self.read_file(TERMS), self.day)

    def read_salts(self) -> heads.Salts:
        with stopping_if_damaged(self.path_of(SALTS), "the salts of a day"):
            return heads.parse_value_and_is_written(self.read_file(SALTS), heads.parse_salts)[0]


class Folder(NamedFiles):
    """The files of an office."""

    def refuse_if_no_office(self) -> None:
        """Ends the tool if this isn't the folder of an office, or others may read its secrets or change its files."""
        if self.path_of(KEY).is_file() and self.path_of(DAYS).is_dir() and not self.path_of(PARTICIPANTS).is_file():
            raise exits.Stop(f"{exits.shown(self.path_of(PARTICIPANTS))} is missing: put it back")
        if not self.path_of(PARTICIPANTS).is_file():
            init = place.with_commands_of_here("tools/office init")
            raise exits.Stop(f"{exits.shown(self.path)} isn't the folder of an office: {init} makes one")
        self.refuse_shared_files(OFFICE_FILES, [PUBLIC])

    def read_key(self) -> Ed25519PrivateKey:
        from ..receipts import receipts
        from ..seal import signing

        path = str(self.path_of(KEY))
        return receipts.parse_key(path, file_io.read_bytes(path), signing.parse_private)

    def read_public_text_or_stop(self, key: Ed25519PrivateKey) -> str:
        """The public half of the office's key, as its file has it. Ends the tool if the file is of another key."""
        from ..seal import signing

        found = self.path_of(PUBLIC).read_bytes()
        if found.split() != signing.public_bytes(key).split():
            raise exits.Stop(f"{exits.shown(self.path_of(PUBLIC))} isn't the public key of {KEY}: put back the file that was changed")
        return found.decode("ascii")

    def list_folders_by_day(self) -> dict[str, DayFolder]:
        """The folder of each day, by its name."""
        with contextlib.suppress(FileNotFoundError):
            names = sorted(entry.name for entry in os.scandir(self.path_of(DAYS)) if heads.DAY.fullmatch(entry.name) and entry.is_dir())
            return {name: DayFolder(self.path_of(DAYS) / name) for name in names if not name.startswith(".")}
        return {}

    def find_day_or_stop(self, name: str | None) -> DayFolder:
        """The folder of a day; the only one if none is named."""
        days = self.list_folders_by_day()
        if name is None and len(days) == 1:
            return next(iter(days.values()))
        if name is None or name not in days:
            known = ", ".join(days) or "none"
            raise exits.Stop(f"there is no day {text.safe(name)}: there is {known}" if name else f"name a day: there is {known}")
        return days[name]

    @contextlib.contextmanager
    def holding(self) -> Iterator[None]:
        """Holds the office: one process at a time serves it. A process that ends lets go of it."""
        number = os.open(self.path_of(LOCK), os.O_RDWR | os.O_CREAT | os.O_CLOEXEC, 0o600)
        try:
            give_to_owner_of(number, self.path)
            fcntl.flock(number, fcntl.LOCK_EX | fcntl.LOCK_NB)
            yield
        except BlockingIOError:
            raise exits.Stop(f"another process serves {exits.shown(self.path)}") from None
        finally:
            os.close(number)

    def hold_and_see_if_served(self) -> bool:
        try:
            with self.holding():
                return False
        except exits.Stop:
            return True
