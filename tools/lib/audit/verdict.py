"""The verdict of an audit: its checks and findings, the status that reports it, and the same as a record for programs."""

import time
from collections.abc import Sequence

from ..base import text
from ..base.json_value import JsonObject
from ..base.rules import VERSION
from ..results.faults import FaultLine
from ..tool import exits
from .inputs import Inputs
from .record import ENCODING, FAILED, RIGHT, UNDECIDED, UNREAD, WRONG

MOST_LINES = 20  # of the faults

# The verdict for each status.
OF_STATUS = {
    exits.DONE: RIGHT,
    exits.DIFFERS: WRONG,
    exits.COMMAND_LINE: FAILED,
    exits.NO_INPUT: UNREAD,
    exits.UNDECIDED: UNDECIDED,
    exits.FAILED: FAILED,
    exits.ENCODING: ENCODING,
}


class Verdict:
    """The verdict on a day, of which a record can be made at any time, also if the audit fails."""

    def __init__(self, inputs: Inputs) -> None:
        self.begun = time.monotonic()
        self.inputs = inputs
        self.checked: list[str] = []
        self.day: JsonObject | None = None  # figures of the day, if its journal could be read
        self.sent_faults: list[FaultLine] = []  # differences between the commands that were sent and the journal
        self.signed_faults: list[FaultLine] = []  # differences from the signed head, earlier heads and receipts
        self.rule_faults: list[FaultLine] = []  # of the results or replies
        self.odd = inputs.odd  # differences of encoding alone
        self.sent: dict[str, int] | None = None  # how many commands the participant has in the journal, and how many of them the book refused
        self.notes: list[str] = []  # on a table of orders that was sent
        self.foreign: list[FaultLine] = []  # receipts and earlier heads that weren't compared
        self.is_signed = True  # whether the key signed the head, if there is one
        self.search: JsonObject | None = None  # a record of the search for a better selection
        self.right: list[str] = []  # lines about the right parts
        self.last: str | None = None  # a line after the faults

    def note_unsigned(self, words: str) -> None:
        """Notes that the key didn't sign the head, so that nothing was compared with it."""
        self.is_signed, self.signed_faults, self.last = False, [FaultLine(words, "head")], f"{WRONG}: {words}"

    @property
    def wrong(self) -> list[FaultLine]:
        """All faults but differences of encoding, in the order of the parts."""
        return [*self.sent_faults, *self.signed_faults, *self.rule_faults]

    @property
    def status(self) -> int:
        if self.wrong:
            return exits.DIFFERS
        if self.foreign:
            return exits.NO_INPUT
        return exits.ENCODING if self.odd else exits.DONE

    @property
    def message(self) -> str | None:
        """Why there is no verdict, though the audit ended; None if there is one."""
        return f"{self.uncompared_text()}: not the operator's, or of another day" if self.status == exits.NO_INPUT else None

    def uncompared_text(self) -> str:
        return f"not compared: {text.counted(len(self.foreign), 'receipt or head', 'receipts or heads')}"

    def parts(self) -> list[tuple[str | None, list[FaultLine]]]:
        """The faults by part, each a headline and its faults; without --sent and --head there is one part, which has no headline."""
        if not self.is_signed:
            return []
        if self.inputs.options.sent is None and self.inputs.options.head is None:
            return [(None, self.rule_faults)]
        headlines = [
            self.uncompared_text(),
            f"not as sent: {text.counted(len(self.sent_faults), 'difference')} in the commands of {self.inputs.options.participant}",
            f"not as signed: {text.counted(len(self.signed_faults), 'difference')} from what the operator signed",
            f"not as the rules say: {text.counted(len(self.rule_faults), 'fault')} in the results",
        ]
        parts = self.foreign, self.sent_faults, self.signed_faults, self.rule_faults
        return [(headline, faults) for headline, faults in zip(headlines, parts) if faults]

    def lines(self, is_all: bool) -> list[str]:
        """The lines of the faults, and of the right parts: with --sent one part may be wrong and the other right."""
        odd = [f"the encoding differs: {fault}" for fault in self.odd]
        wrong = [line for head, faults in self.parts() for line in [*([head] if head else []), *first_fault_lines(faults, is_all)]]
        return [*odd, *wrong, *([self.last] if self.last else []), *self.right]

    def record(self, status: int, message: str | None = None) -> JsonObject:
        made = {
            "verdict": OF_STATUS[status],
            "status": status,
            "message": message,
            "version": VERSION,
            "seconds": round(time.monotonic() - self.begun, 3),
            "inputs": self.inputs.records,
            "checked": self.checked,
            "day": self.day,
            "search": self.search,
            "sent": self.sent,
            "notes": self.notes,
        }
        made["faults"] = [fault.record() for fault in [*self.wrong, *self.foreign, *self.odd]]
        return made


def first_fault_lines(faults: Sequence[FaultLine], is_all: bool) -> Sequence[str]:
    """The first faults, and how many more there are, as lines."""
    more = len(faults) - MOST_LINES
    if more <= 0 or is_all:
        return faults
    return [*faults[:MOST_LINES], f"and {more} more: --all prints every line"]
