"""How a tool runs: its statuses, and the line on standard error with which a fault ends it."""

import os
import sys
from collections.abc import Callable
from typing import NoReturn, TextIO

from ..base import place, text
from ..process import children, ending

LONGEST_PATH = 400  # characters of the name of a file in a message

# The statuses of all tools. FAILED is a tool's that can't do its work: a package is missing, memory ran out, or it has a defect. FAULTY is
# that of the lint for a text that isn't a journal.
DONE, DIFFERS, COMMAND_LINE, NO_INPUT, UNDECIDED, FAILED, ENCODING, FAULTY = range(8)
INTERRUPTED = ending.INTERRUPTED


class Stop(Exception):
    """Ends a tool with a line and a status."""

    def __init__(self, line: str, status: int = NO_INPUT) -> None:
        super().__init__(line)
        self.status = status


def run_and_exit(name: str, main: Callable[[], int | None]) -> NoReturn:
    """Runs a tool's `main`, and ends with its status. A fault, Ctrl-C or another signal is one line on standard error."""
    open_closed_streams()
    children.stop_ignoring_children()
    ending.turn_signals_into_exceptions()
    try:
        sys.exit(main())
    except BrokenPipeError:
        redirect_to_devnull(sys.stdout)
        sys.exit(NO_INPUT)
    except (Stop, KeyboardInterrupt, OSError) as fault:
        status, said = status_and_message(fault)
        if status == FAILED and not isinstance(fault, Stop):
            raise
        print_note(name, said)
        sys.exit(status)


def status_and_message(fault: BaseException) -> tuple[int, str]:
    """The status with which a fault ends a tool, and the message."""
    if isinstance(fault, Stop):
        return fault.status, str(fault)
    if isinstance(fault, KeyboardInterrupt):
        return ending.status_and_message_of_interrupt(fault)
    if isinstance(fault, OSError) and not ending.is_lack_of_memory(fault) and not ending.is_lack_of_files(fault):
        where = "a device failed" if fault.filename is None else f"{shown(os.fsdecode(fault.filename))} can't be used"
        return NO_INPUT, f"{where}: {fault.strerror}"
    return FAILED, ending.failure_text(fault)


def without_controls(words: object) -> str:
    """Words for a terminal, which obeys nothing in them but line ends."""
    return "\n".join(map(text.escaped, str(words).split("\n")))


def print_note(tool: str, words: object) -> None:
    """Says something on standard error; if that can't be written, the status alone says it."""
    try:
        print(f"{place.command_name(tool)}: {without_controls(words)}", file=sys.stderr, flush=True)
    except OSError:
        redirect_to_devnull(sys.stderr)


def open_closed_streams() -> None:
    """Lets no other file take the number of a closed standard stream. Python has None for such a stream, and would print to standard
    output the text that is meant for a closed standard error."""
    while (number := os.open(os.devnull, os.O_RDWR)) <= 2:
        pass
    os.close(number)
    sys.stderr = sys.stderr or open(os.devnull, "w")


def redirect_to_devnull(stream: TextIO) -> None:
    """Discards the text that couldn't be written, so that Python doesn't try again at its end."""
    os.dup2(os.open(os.devnull, os.O_WRONLY), stream.fileno())


def shown(path: str | os.PathLike[str]) -> str:
    """The name of a file in a message."""
    return "standard input" if path == "-" else text.safe(str(path), LONGEST_PATH)
