"""The records that an audit prints for programs, also the one without a verdict of an audit that fails before it has made its record. This
needs little of its folder, since an import may fail too."""

from __future__ import annotations

import json
import os
import sys
from collections.abc import Iterable, Sequence

from ..base.json_value import JsonObject
from ..base.rules import VERSION
from ..process import ending

VERDICTS = RIGHT, WRONG, ENCODING, UNREAD, UNDECIDED, FAILED = "right", "wrong", "encoding", "unread", "undecided", "failed"


def unread_record(verdict: str, status: int, message: str | None, files: Iterable[tuple[str, str]] = ()) -> JsonObject:
    """The record of a day of which nothing is known. Of its files, each with its role, none was read."""
    inputs: list[JsonObject] = [{"role": role, "file": file, "bytes": None, "sha256": None} for role, file in files]
    said = {"verdict": verdict, "status": status, "message": message, "version": VERSION, "seconds": 0.0, "inputs": inputs}
    return {**said, "checked": [], "day": None, "search": None, "sent": None, "notes": [], "faults": []}


def verdict_counts(records: Sequence[JsonObject]) -> dict[str, int]:
    return {kind: sum(made["verdict"] == kind for made in records) for kind in VERDICTS}


def record_of_days(status: int, records: Sequence[JsonObject] = (), message: str | None = None) -> JsonObject:
    return {"status": status, "message": message, "version": VERSION, "counts": verdict_counts(records), "days": list(records)}


def undecided_record(words: list[str], status: int, message: str | None) -> JsonObject:
    """The record that a command line asks for, if there is no verdict."""
    if any(word.partition("=")[0] == "--days" for word in words):
        return record_of_days(status, message=message)
    return unread_record(FAILED, status, message)


def print_record_of_failure(status: int, message: str | None) -> None:
    """Prints the record of an audit that fails with --json, unless it was interrupted. tools/audit has it as a last duty."""
    words = sys.argv[1 : sys.argv.index("--")] if "--" in sys.argv else sys.argv[1:]
    if "--json" in words and status == ending.FAILED:
        os.write(1, f"{json.dumps(undecided_record(words, status, message), indent=1)}\n".encode())
