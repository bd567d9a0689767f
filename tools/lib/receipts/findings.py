"""The findings of a run on heads and receipts: a verdict on a line of a file, and the verdict on all of them."""

from collections.abc import Iterable
from typing import NamedTuple

from ..seal.heads import Receipt
from ..tool import exits

# In the order in which one of them decides the status of a run.
WRONG, UNREAD, UNDECIDED, ENCODING, RIGHT = "wrong", "unread", "undecided", "encoding", "right"
# Of receipts that the operator signed: the published head isn't of a journal that has the entry, or no book gives the reply.
CONTRARY, IMPOSSIBLE = "contrary", "impossible"
STATUSES = {
    WRONG: exits.DIFFERS,
    CONTRARY: exits.DIFFERS,
    IMPOSSIBLE: exits.DIFFERS,
    UNREAD: exits.NO_INPUT,
    UNDECIDED: exits.UNDECIDED,
    ENCODING: exits.ENCODING,
    RIGHT: exits.DONE,
}
RECEIPT, FILE, LINE, EXTENSION, HEAD, CONTRADICTION = "receipt", "file", "line", "extension", "head", "contradiction"


class Place(NamedTuple):
    """A line of a file."""

    file: str
    line: int | None = None  # from 1; None for the whole file

    def __str__(self) -> str:
        return exits.shown(self.file) + ("" if self.line is None else f" line {self.line}")


class Finding(NamedTuple):
    """The verdict on one line of a file."""

    file: str
    line: int | None  # of the file, from 1; None for the whole file
    verdict: str
    words: str
    receipt: Receipt | None = None  # if the line could be read as one
    about: str = FILE  # as it is counted; a finding with a receipt counts as one

    def __str__(self) -> str:
        return f"{Place(self.file, self.line)}: {self.words}"

    @property
    def shown(self) -> Receipt:
        """The receipt of a finding that has one."""
        assert self.receipt is not None
        return self.receipt

    def record(self) -> dict[str, str | int | None]:
        made: dict[str, str | int | None] = {"file": self.file, "line": self.line, "verdict": self.verdict, "words": self.words}
        if self.receipt is not None:
            made.update(number=self.receipt.number, record=self.receipt.record, reply=self.receipt.reply)
        return made


def verdict(findings: Iterable[Finding]) -> str:
    found = min((finding.verdict for finding in findings), key=list(STATUSES).index, default=RIGHT)
    return WRONG if STATUSES[found] == exits.DIFFERS else found
