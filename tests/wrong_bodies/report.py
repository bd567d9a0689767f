"""The output of a check: whether the crate is proved, and which functions were refused for themselves.

A check goes on after a function that it does not prove, and reports each function in a line `fn NAME: ..`. The goals that are not
proved stand in notes right above that line; the errors of proof files stand together at the top, and belong to the function of
their folder. A loop that may not end has no goal: the check asks for its measure, and that is a refusal. `it calls F, which is not
proved` alone is no refusal of the function's own: a caller of a function sees its contract and never its body, so a caller is checked
to its end all the same.
"""

import os
import re
from collections.abc import Callable
from typing import NamedTuple

GOAL = re.compile(r"note: (src/\S+:\d+:\d+: it is not proved that .*)")
ERROR = re.compile(r"(?:\./)?((?:src|specs|proofs)/\S+?):(\d+):\d+: error(?:\[[\w-]+\])?: (.*)")
VERDICT = re.compile(r"(?:fn|struct|enum|impl) (\S+): (.*)")
ENDLESS = re.compile(r"no proof: (expected a measure\b.*)")
CLOSURE = re.compile(r"::fn::(\S+?)::[^\s:+]+(?:\+Fn(?:Mut|Once)?::\w+)?$")
# A check speaks so of a proof that cites a name which an edit took away, of the facts that rest on a proof that was refused, and of a text
# that it cannot read.
GONE = re.compile(r"has no field|is not in scope|has no `")
RESTS = re.compile(r"was not admitted|rejected, (?:was|were) not checked")
UNREAD = re.compile(r"is not in scope|has no field|is no name|operand is missing|expected the end|cannot continue")
WIDTH = 300
TOO = " (and a proof of the function cites a name that went)"


class CheckError(NamedTuple):
    """An error of a check: the file and the line that it names, and its text."""

    path: str
    line: int
    text: str

    def __str__(self) -> str:
        return f"{self.path}:{self.line}: {self.text}"[:WIDTH]


class CheckReport:
    """The output of a check, read."""

    def __init__(self, printed: str) -> None:
        self.lines = printed.rstrip("\n").split("\n")
        self.is_proved = any(it.startswith("logic=proved ") for it in self.lines)
        self.is_refused = any(it.startswith("logic=not-proved") for it in self.lines)
        matches = [ERROR.match(it) for it in self.lines]
        self.errors = [CheckError(it[1], int(it[2]), it[3]) for it in matches if it]

    def refusals(self) -> dict[str, str]:
        """Returns the functions that are refused for themselves, each with the first of its goals that is not proved."""
        found, goals = dict[str, str](), list[str]()
        gone = self.proof_errors(GONE.search)
        wrong = self.proof_errors(lambda text: not GONE.search(text) and not RESTS.search(text))
        for line in self.lines:
            goal, verdict = GOAL.match(line), VERDICT.match(line)
            if goal:
                goals.append(goal[1][:WIDTH])
            elif verdict:
                name, words = verdict.groups()
                _, _, path = name.partition("::")
                endless = ENDLESS.match(words)
                if endless:
                    goals.append(f"no goal, but a loop without a measure: {endless[1]}"[:WIDTH])
                if words.startswith("not proved") and path in wrong:
                    goals.append(wrong[path])
                if goals and not words.startswith("proved"):
                    found.setdefault(function_of(name), goals[0] + (TOO if path in gone else ""))
                goals = []
        return found

    def proof_errors(self, is_meant: Callable[[str], object]) -> dict[str, str]:
        """Returns, by the name of the function in its crate, the first error of its proof files whose text is meant."""
        found: dict[str, str] = {}
        for it in self.errors:
            if it.path.startswith("proofs/") and is_meant(it.text):
                # A function that calls itself has the folder +NAME.
                folder = os.path.dirname(it.path)[len("proofs/") :].replace("/+", "/")
                found.setdefault(folder.replace("/", "::"), str(it))
        return found

    def error_of_reading_or_none(self) -> CheckError | None:
        """Returns an error by which the check could not read a text of src/ or specs/, or None."""
        return next((it for it in self.errors if it.path.startswith(("src/", "specs/")) and UNREAD.search(it.text)), None)


def function_of(name: str) -> str:
    """Returns the function that a name of the list belongs to. A closure belongs to the function that it stands in."""
    return CLOSURE.sub(r"::\1", name)
