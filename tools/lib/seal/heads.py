"""Heads, receipts and extensions: an operator's statements about a journal, each as a line of JSON.

A head is the signed root of the tree over a journal's entries. A receipt shows that an entry is in the tree of a head. An extension shows
that the tree of a head begins with the tree of an earlier one. docs/FORMATS.md has the formats to the byte."""

import base64
import functools
import hmac
import json
import re
from collections.abc import Callable, Sequence
from typing import NamedTuple, TypeVar

from ..base import rules, text
from ..base.json_value import Json, JsonObject
from ..journal import book, journal
from ..journal.journal import Command
from . import merkle

HEAD, RECEIPT, EXTENSION, SALTS = "dam-head-1", "dam-receipt-1", "dam-extension-1", "dam-salts-1"
DAY = re.compile(r"[0-9A-Za-z._-]{1,32}")
A_DAY = "1 to 32 of A to Z, a to z, 0 to 9, '.', '_' and '-', such as 2026-11-28"
DONE = "done"
REPLIES = {DONE, *(f"refused,{reason}" for reason in book.REASONS)}
HASH_BYTES, SIGNATURE_BYTES = 32, 64
MOST_ENTRIES = rules.MOST_RECORDS - 1
LONGEST_PATH = MOST_ENTRIES.bit_length()  # hashes of an inclusion proof
LONGEST_PROOF = LONGEST_PATH + 1  # and of a consistency proof
MOST_SAID = 20  # characters of a stranger's text in a message
LONGEST_LINE = 16_384  # bytes; no head, receipt or extension has as many


class BadRecord(Exception):
    """The text doesn't have its form."""


class Head(NamedTuple):
    day: str  # the operator's name for it
    periods: int
    size: int  # how many entries the journal has
    root: bytes
    signature: bytes = b""

    def signed_bytes(self) -> bytes:
        """The bytes that the signature is of."""
        return "".join(f"{part}\n" for part in (HEAD, self.day, self.periods, self.size, base64_of(self.root))).encode()

    def json_value(self) -> JsonObject:
        return {
            "format": HEAD,
            "day": self.day,
            "periods": self.periods,
            "size": self.size,
            "root": base64_of(self.root),
            "signature": base64_of(self.signature),
        }

    def __str__(self) -> str:
        return f"the head of {self.day} with {text.counted(self.size, 'entry', 'entries')}"


class Receipt(NamedTuple):
    number: int  # of the entry, from 1
    record: str  # the command, as in the written journal
    reply: str  # the book's, as in the replies
    salt: bytes
    path: tuple[bytes, ...]
    head: Head

    @property
    def who(self) -> str | None:
        """The participant whose entry it is; a close has none."""
        return getattr(command_of_record(self.record), "who", None)

    def leaf(self) -> bytes:
        return leaf_of(self.number, self.record, self.reply, self.salt)

    def json_value(self) -> JsonObject:
        return {
            "format": RECEIPT,
            "number": self.number,
            "record": self.record,
            "reply": self.reply,
            "salt": base64_of(self.salt),
            "path": [base64_of(hashed) for hashed in self.path],
            "head": self.head.json_value(),
        }


class Extension(NamedTuple):
    old: Head
    new: Head
    path: tuple[bytes, ...]

    def json_value(self) -> JsonObject:
        path = [base64_of(hashed) for hashed in self.path]
        return {"format": EXTENSION, "from": self.old.json_value(), "to": self.new.json_value(), "path": path}

    def is_valid(self) -> bool:
        """Whether the proof shows that the new head's tree begins with the old head's, of the same day."""
        same = self.old.day == self.new.day and self.old.periods == self.new.periods
        return same and merkle.is_consistent(self.old.size, self.old.root, self.new.size, self.new.root, self.path)


class Salts(NamedTuple):
    """The secret of a journal, from which the salts of its entries are made."""

    day: str
    secret: bytes

    def salt(self, number: int, record: str, reply: str) -> bytes:
        """The salt of an entry. Another entry in its place has another salt."""
        return hmac.digest(self.secret, entry_bytes(number, record, reply), "sha256")

    def json_value(self) -> JsonObject:
        return {"format": SALTS, "day": self.day, "secret": base64_of(self.secret)}


Value = Head | Receipt | Extension | Salts
AValue = TypeVar("AValue", Head, Receipt, Extension, Salts)


def entry_bytes(number: int, record: str, reply: str) -> bytes:
    return f"{number}\n{record}\n{reply}\n".encode()


def leaf_of(number: int, record: str, reply: str, salt: bytes) -> bytes:
    return merkle.leaf_hash(salt + entry_bytes(number, record, reply))


def base64_of(data: bytes) -> str:
    return base64.b64encode(data).decode()


def line_bytes_of(value: Value) -> bytes:
    """The written form of a head, a receipt, an extension or salts."""
    return json.dumps(value.json_value(), separators=(",", ":")).encode() + b"\n"


def command_of_record(record: str) -> Command | None:
    """The command of a record in its written form."""
    try:
        read = journal.parse_journal(f"{journal.day_record_text(rules.GREATEST_PERIOD)}\n{record}".encode("ascii"))
    except (journal.JournalFault, UnicodeEncodeError):
        return None
    if len(read.commands) != 1 or journal.command_record_text(read.commands[0]) != record:
        return None
    return read.commands[0]


def parse_base64(word: Json, count: int) -> bytes:
    """The bytes that a word is in base64, with its padding."""
    digits = -(-count * 8 // 6)
    if isinstance(word, str) and re.fullmatch(f"[A-Za-z0-9+/]{{{digits}}}={{{-digits % 4}}}", word):
        return base64.b64decode(word)
    raise BadRecord(f"{shown_value(word)} should be {count} bytes in base64")


def shown_value(value: Json) -> str:
    """A value of a stranger in a message: too short to pass for a message of its own."""
    if isinstance(value, str):
        return text.quoted(value, MOST_SAID)
    return text.safe(json.dumps(value), MOST_SAID) if value is None or isinstance(value, (int, float)) else f"a {type(value).__name__}"


def parse_number(value: Json, least: int, most: int, name: str) -> int:
    if type(value) is not int or not least <= value <= most:
        raise BadRecord(f"{name} {shown_value(value)} should be a number from {least} to {most}")
    return value


def require_members(value: Json, kind: str, names: Sequence[str]) -> list[Json]:
    """The values of an object that has these members and no others."""
    if not isinstance(value, dict) or value.get("format") != kind:
        raise BadRecord(f"it isn't an object with the format {kind}")
    found = [name for name in value if name != "format"]
    if sorted(found) != sorted(names):
        lacking, others = ([name for name in one if name not in other] for one, other in ((names, found), (found, names)))
        raise BadRecord(f"it lacks the member {lacking[0]}" if lacking else f"a {kind} has no member {shown_value(others[0])}")
    return [value[name] for name in names]


def parse_head(value: Json) -> Head:
    day, periods, size, root, signature = require_members(value, HEAD, ("day", "periods", "size", "root", "signature"))
    if not isinstance(day, str) or not DAY.fullmatch(day):
        raise BadRecord(f"the day {shown_value(day)} should be {A_DAY}")
    if type(periods) is not int or periods not in rules.DAYS:
        raise BadRecord(f"the periods {shown_value(periods)} should be one of {', '.join(map(str, sorted(rules.DAYS)))}")
    size, root = parse_number(size, 0, MOST_ENTRIES, "the size"), parse_base64(root, HASH_BYTES)
    if size == 0 and root != merkle.EMPTY:
        raise BadRecord(f"the root of no entry is {base64_of(merkle.EMPTY)}")
    return Head(day, periods, size, root, parse_base64(signature, SIGNATURE_BYTES))


def parse_path(value: Json, most: int) -> tuple[bytes, ...]:
    if not isinstance(value, list) or len(value) > most:
        raise BadRecord(f"the path should be a list of at most {most} hashes")
    return tuple(parse_base64(word, HASH_BYTES) for word in value)


def parse_receipt(value: Json) -> Receipt:
    number, record, reply, salt, path, head = require_members(value, RECEIPT, ("number", "record", "reply", "salt", "path", "head"))
    number = parse_number(number, 1, MOST_ENTRIES, "the number")
    if not isinstance(record, str) or command_of_record(record) is None:
        raise BadRecord(f"the record {shown_value(record)} isn't a record of a written journal")
    if not isinstance(reply, str) or reply not in REPLIES:
        raise BadRecord(f"the reply {shown_value(reply)} isn't one of the book's")
    return Receipt(number, record, reply, parse_base64(salt, HASH_BYTES), parse_path(path, LONGEST_PATH), parse_head(head))


def parse_extension(value: Json) -> Extension:
    old, new, path = require_members(value, EXTENSION, ("from", "to", "path"))
    return Extension(parse_head(old), parse_head(new), parse_path(path, LONGEST_PROOF))


def parse_salts(value: Json) -> Salts:
    day, secret = require_members(value, SALTS, ("day", "secret"))
    if not isinstance(day, str) or not DAY.fullmatch(day):
        raise BadRecord(f"the day {shown_value(day)} should be {A_DAY}")
    return Salts(day, parse_base64(secret, HASH_BYTES))


require_unrepeated_members = functools.partial(text.require_unrepeated_members, lambda _: BadRecord("a member of an object comes twice"))


def parse_value_and_is_written(data: bytes, read: Callable[[Json], AValue]) -> tuple[AValue, bool]:
    """The value that the text of a head, a receipt, an extension or salts has, and whether the text is its written form."""
    if len(data) > LONGEST_LINE:
        raise BadRecord(f"it has {len(data):,} bytes, and none has more than {LONGEST_LINE:,}")
    try:
        value = read(json.loads(data.decode("ascii"), object_pairs_hook=require_unrepeated_members))
    except (ValueError, RecursionError):
        raise BadRecord("it isn't JSON in ASCII") from None
    return value, line_bytes_of(value) == data


def require_lines(data: bytes) -> list[bytes]:
    """The lines of a file, each with its end. There are at most as many as a journal has entries."""
    if data.count(b"\n") + data.count(b"\r") > 2 * MOST_ENTRIES or len(lines := data.splitlines(keepends=True)) > MOST_ENTRIES:
        raise BadRecord(f"it has more than {MOST_ENTRIES:,} lines")
    return lines
