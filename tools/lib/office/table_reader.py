"""Reads an uploaded table in a process of its own: one that takes long, or much memory, takes neither from the commands. `read` asks for
it; run as a program, with the participant and the day's periods as its words, this file does it, from standard input to standard output.
The first line of the input has the participant's orders in the book, as JSON: others on the machine see a process's words."""

import json
import os
import resource
import sys
from collections.abc import Iterable, Sequence
from pathlib import Path

if not __package__:  # the program: an isolated Python leaves the tools out
    sys.path.insert(0, str(Path(__file__).resolve().parents[2]))

from lib.office import programs, requests
from lib.office.refusals import RequestFault, Refused

MOST_SECONDS = 20  # for a table
MOST_MEMORY = 1 << 29  # bytes of addresses; a workbook of 1 MiB takes a tenth
NICENESS = 10


async def capture_table(data: bytes, who: str, periods: int, orders: Iterable[Sequence[str]] = ()) -> requests.ReadTable:
    """Reads a table of a participant, whose orders in the book are pairs of a name and a kind."""
    given = json.dumps(list(orders)).encode() + b"\n" + data
    try:
        words = [sys.executable, "-I", "-B", __file__, who, str(periods)]
        made = await programs.capture_output_or_raise(*words, data=given, seconds=MOST_SECONDS)
    except programs.ProgramFailed:
        why = f"the table can't be read within {MOST_SECONDS} s: it is too large, or the office is busy"
        raise Refused(RequestFault.MALFORMED, why) from None
    value = json.loads(made)
    if "wrong" in value:
        raise requests.BadRequest(value["wrong"])
    return requests.ReadTable(**value)


def limit_and_print_records(who: str, periods: str) -> None:
    os.nice(NICENESS)
    resource.setrlimit(resource.RLIMIT_AS, (MOST_MEMORY, MOST_MEMORY))
    resource.setrlimit(resource.RLIMIT_CPU, (MOST_SECONDS, MOST_SECONDS))
    orders = json.loads(sys.stdin.buffer.readline())
    try:
        made = requests.parse_table(sys.stdin.buffer.read(), who, int(periods), orders)._asdict()
    except requests.BadRequest as fault:
        made = {"wrong": str(fault)}
    json.dump(made, sys.stdout)


if __name__ == "__main__":
    limit_and_print_records(*sys.argv[1:])
