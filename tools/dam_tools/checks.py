"""The audit, the lint and the what-if analysis for Python programs. Amounts are in EUR, prices in EUR/MWh, energies in MWh."""

from __future__ import annotations

import os
import types
from dataclasses import dataclass

from .given import JournalSource, Source, read_or_return_journal, read_source_bytes, source_name, read_journal_bytes
from .lib.audit import better, day_audit, inputs, recursive_enumeration
from .lib.day.day_files import Day
from .lib.journal.journal import Journal
from .lib.lint import lint as lint_of, linted
from .lib.results import selection
from .lib.runs.errors import Fault
from .lib.tables import table_operations
from .lib.tool import exits, modules
from .lib.whatif import changes, limits, whatif


@dataclass(frozen=True)
class Finding:
    """A fault of a journal, or a command that the book would refuse: then `reason` is the book's. `field` is None for a whole record."""

    line: int
    field: str | None
    words: str
    reason: str | None = None


@dataclass(frozen=True)
class Lint:
    """The findings of the lint; `verdict` is `right`, `refused` (commands, but no faults) or `faulty`."""

    verdict: str
    faults: list[Finding]
    refused: list[Finding]


@dataclass(frozen=True)
class AuditFault:
    """A fault of results: its kind, the line of the text and the subject of that line, or None, and words."""

    kind: str
    line: int | None
    about: str | None
    words: str


@dataclass(frozen=True)
class Audit:
    """A verdict of the audit: `right`, `wrong`, `encoding` (only this differs) or `undecided` (the search for a better selection had no
    time left, which `message` says). `better` has the blocks of a better selection, and `how` says how one was looked for."""

    verdict: str
    message: str | None
    checked: list[str]
    faults: list[AuditFault]
    better: list[str] | None
    how: str | None


@dataclass(frozen=True)
class LimitCase:
    """A day with a limit of a block. Of a period that isn't traded the price is nominal."""

    case: str
    limit_eur_mwh: float
    accepted: bool
    surplus_eur: float
    gain_eur: float
    welfare_eur: float
    prices_eur_mwh: list[float]
    traded: list[bool]


@dataclass(frozen=True)
class OtherOrder:
    """An order whose executed energy differs between the worst limit and one cent past it."""

    participant: str
    order: str
    past_mwh: float
    at_mwh: float


@dataclass(frozen=True)
class BlockLimit:
    """The worst limit at which a block is accepted; None if no limit is enough, and then `why` says why."""

    participant: str
    order: str
    side: str
    price_eur_mwh: float
    worst_limit_eur_mwh: float | None
    why: str | None
    clearings: int
    cases: list[LimitCase]
    others: list[OtherOrder]


@dataclass(frozen=True)
class Change:
    """A number that differs between two days, in its unit: None if a day doesn't have it."""

    what: str
    unit: str
    participant: str | None
    order: str | None
    period: int | None
    before: float | None
    after: float | None
    change: float | None
    outcome_before: str | None
    outcome_after: str | None


@dataclass(frozen=True)
class Changes:
    """The numbers that differ between two days; and notes on the further commands, such as a column of their table that isn't used."""

    changes: list[Change]
    notes: list[str]


def lint(source: JournalSource, command: str = "clear") -> Lint:
    """Every fault of a journal as a text for `dam clear`, `dam replay` or `dam day`, and each command that the book would refuse."""
    if command not in ("clear", "replay", "day"):
        raise ValueError(f"there is no command {command}: the commands are clear, replay and day")
    found = lint_of.collect_findings(read_journal_bytes(source), command)
    findings = [Finding(one.line, one.field or None, one.words, one.refusal or None) for one in found]
    parts = [[one for one in findings if (one.reason is not None) == is_refused] for is_refused in (False, True)]
    return Lint(linted.OF_STATUS[linted.status_of(found)], *parts)


class Sources(inputs.Inputs):
    """The inputs of an audit, which may be texts."""

    def __init__(self, sources: dict[str, bytes], options: types.SimpleNamespace) -> None:
        super().__init__(options)
        self.sources = sources

    def read_and_note(self, role: str, path: str) -> bytes:
        self.records.append({"role": role})
        return self.sources[role]


class Audited(day_audit.Audit):
    """An audit in a program, which isn't started again."""

    def search_for_better_and_note(self, problem: selection.Problem, published: object) -> object:
        """As the tool does it, but a missing package is a fault, instead of a start with another Python."""
        by_highs = self.options.by == better.HIGHS
        module = "scipy" if by_highs else "numpy"
        if (by_highs or len(problem.blocks) > recursive_enumeration.ENUMERABLE) and not modules.has_module(module):
            raise exits.Stop(modules.missing_message(module), exits.FAILED)
        return super().search_for_better_and_note(problem, published)


def audit(
    source: JournalSource | Day,
    results: Source | None = None,
    *,
    best: bool = False,
    by: str | None = None,
    seconds: float = day_audit.SECONDS,
    jobs: int = 1,
) -> Audit:
    """The verdict of tools/audit on a journal and its results, on a `Day`, or on the text of `dam day`; with `best` also on the selection
    of blocks. `Fault` says why there is no verdict."""
    if by not in (None, *better.METHODS):
        raise ValueError(f"there is no method {by}: the methods are {' and '.join(better.METHODS)}")
    journal: str | Journal | Source = source.journal if isinstance(source, Day) else source
    results = source.text if isinstance(source, Day) else results
    named = dict(journal=source_name(journal, "the journal"), results=None if results is None else source_name(results, "the results"))
    unused = dict.fromkeys(("sent", "participant", "receipts", "head", "earlier", "key", "salts"))
    flags = dict(best=best, by=by, seconds=seconds, jobs=jobs, replies=False, quiet=True, **unused)
    data = read_journal_bytes(journal)
    sources = {"day": data} if results is None else {"journal": data, "results": read_source_bytes(results)}
    options = types.SimpleNamespace(**named, **flags)
    made = Audited(options, Sources(sources, options))
    message, status = None, None
    try:
        made.read_inputs_and_check_or_stop()
    except exits.Stop as stop:
        if stop.status != exits.UNDECIDED:
            raise Fault(str(stop)) from None
        message, status = str(stop), stop.status
    told = made.verdict.record(made.verdict.status if status is None else status, message)
    search = told["search"] or {"better": None, "how": None}
    return Audit(told["verdict"], message, told["checked"], [AuditFault(**one) for one in told["faults"]], search["better"], search["how"])


def whatif_limit(source: JournalSource, participant: str, order: str, program: str | os.PathLike[str] | None = None) -> BlockLimit:
    """The worst limit at which a block of a closed journal is accepted, to the cent, as tools/whatif limit finds it. The day is cleared
    some twenty times, by the library or the program as `clear` has it. Results that break the rules are a `Fault`."""
    held, key = changes.book_before_close_or_raise(read_or_return_journal(source)), (participant, order)
    if key not in held.rows:
        raise Fault(whatif.unknown_order_text(held, *key))
    if held.rows[key].kind != "block":
        raise Fault(f"{order} of {participant} isn't a block")
    search = limits.LimitSearch(held, key, whatif.engine_function(program))
    told = limits.record(search, search.search_for_worst())
    del told["law"]
    told["cases"] = [LimitCase(**case) for case in told["cases"]]
    told["others"] = [OtherOrder(**other) for other in told["others"]]
    return BlockLimit(**told)


def whatif_change(
    source: JournalSource, commands: Source, participant: str | None = None, program: str | os.PathLike[str] | None = None
) -> Changes:
    """The differences if further commands come before the close of a journal: records as in a journal, or a table, as tools/whatif change
    takes them. With a participant only its orders, with its gain and net amount. Results that break the rules are a `Fault`."""
    held = changes.book_before_close_or_raise(read_or_return_journal(source))
    further, notes = changes.parse_changes_and_notes(read_source_bytes(commands), held.periods)
    after = changes.book_with_commands_or_raise(held, further)
    return Changes([Change(**row) for row in table_operations.records(whatif.capture_difference_rows([held, after], participant, program))], notes)
