"""The output of a run of the program."""

from collections.abc import Iterable
from typing import NamedTuple

from lib.journal import journal
from lib.journal.journal import Command, Journal


class Printed(NamedTuple):
    status: int
    stdout: bytes
    stderr: bytes


def commands_by_participant(commands: Iterable[Command]) -> dict[str | None, list[Command]]:
    """Each participant's commands, in their order."""
    lists: dict[str | None, list[Command]] = {}
    for command in commands:
        lists.setdefault(getattr(command, "who", None), []).append(command)
    return lists


def faults_of_journal(given: Journal, written: bytes) -> tuple[list[str], Journal | None]:
    """The faults of the journal that a day printed for the one given. Any order is right that keeps each participant's own, with the
    close at its end. And the journal as it is read; None if it can't be."""
    try:
        run = journal.parse_journal(written)
    except journal.JournalFault as fault:
        return [f"its journal is none: {fault}"], None
    wrong = []
    if journal.journal_text(run).encode() != written:
        wrong.append("its journal isn't in the written form")
    if run.periods != given.periods or commands_by_participant(run.commands[:-1]) != commands_by_participant(given.commands):
        wrong.append("its journal doesn't have each participant's commands in their order")
    if run.commands[-1:] != [journal.Close()]:
        wrong.append("its journal doesn't end with the close")
    return wrong, run
