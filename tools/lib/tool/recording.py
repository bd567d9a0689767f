"""Records in JSON, for programs: one for each run with --json, also if it fails."""

import contextlib
import json
from collections.abc import Callable, Iterable, Iterator, Mapping, Sequence
from typing import NamedTuple

from ..base import text
from ..base.json_value import Json, JsonObject
from ..base.rules import VERSION
from ..process import ending
from . import exits, file_io


class CommandOutcome(NamedTuple):
    """The outcome of a command: the members of its record, its lines, its status, and faults."""

    record: Mapping[str, Json]
    lines: Iterable[str]
    status: int = exits.DONE
    faults: Sequence[str] = ()


def print_record(made: JsonObject) -> None:
    """Prints a record, so that none has to be printed at the end."""
    line = json.dumps(text.for_json(made), indent=1)
    ending.last_duties.clear()
    file_io.print_lines([line])


def command_record(name: str, status: int, message: str | None, more: Iterable[tuple[str, Json]] | Mapping[str, Json] = ()) -> JsonObject:
    return {"command": name, "status": status, "message": message, "version": VERSION, **dict(more)}


@contextlib.contextmanager
def recording_failure(is_json: bool, failure_record: Callable[[int, str], JsonObject]) -> Iterator[None]:
    """With --json a failure of the block prints a record too, which a function makes of its status and message."""
    try:
        yield
    except Exception as fault:
        if is_json:
            print_record(failure_record(*exits.status_and_message(fault)))
        raise


def print_outcome(name: str, is_json: bool, outcome: CommandOutcome) -> None:
    """Prints the deeds of a command of this name: with --json its record, otherwise its lines."""
    if is_json:
        print_record(command_record(name, outcome.status, "; ".join(outcome.faults) or None, outcome.record))
    else:
        file_io.print_lines(outcome.lines)
