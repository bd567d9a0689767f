"""The findings of the lint on one journal: the status that reports them, and the same as a record for programs."""

import hashlib
from collections.abc import Sequence

from ..base import text
from ..base.json_value import JsonObject
from ..base.rules import VERSION
from ..process.progress import StepBar
from ..tool import exits, file_io
from . import lint

RIGHT, REFUSED, FAULTY, UNREAD, FAILED = "right", "refused", "faulty", "unread", "failed"
# The verdict for each status.
OF_STATUS = {exits.DONE: RIGHT, exits.DIFFERS: REFUSED, exits.FAULTY: FAULTY, exits.NO_INPUT: UNREAD, exits.FAILED: FAILED}


class Linted:
    """A journal for a command of the program, and the findings on it. A record can be made of it at any time, also if it can't be read."""

    def __init__(self, path: str, purpose: str, quiet: bool = False) -> None:
        self.path, self.purpose, self.quiet = path, purpose, quiet
        self.input: JsonObject = {"role": "journal", "file": text.for_json(path), "bytes": None, "sha256": None}
        self.findings: list[lint.Finding] = []

    def read_findings(self) -> None:
        data = file_io.read_bytes(self.path)
        self.input.update(bytes=len(data), sha256=hashlib.sha256(data).hexdigest())
        bar = StepBar("lint", len(data), "bytes", self.quiet)
        try:
            self.findings = lint.collect_findings(data, self.purpose, bar)
        finally:
            bar.erase()

    @property
    def status(self) -> int:
        return status_of(self.findings)

    def lines(self) -> list[object]:
        return [*self.findings, lint.summary_line(self.findings)]

    def record(self, status: int, message: str | None = None) -> JsonObject:
        return {
            "verdict": OF_STATUS[status],
            "status": status,
            "message": message,
            "version": VERSION,
            "for": self.purpose,
            "inputs": [self.input],
            "faults": [{"line": one.line, "field": one.field or None, "words": one.words} for one in self.findings if not one.refusal],
            "refused": [
                {"line": one.line, "field": one.field or None, "reason": one.refusal, "words": one.words}
                for one in self.findings
                if one.refusal
            ],
        }


def status_of(findings: Sequence[lint.Finding]) -> int:
    if all(one.refusal for one in findings):
        return exits.DIFFERS if findings else exits.DONE
    return exits.FAULTY
