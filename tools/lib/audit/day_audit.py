"""The audit of a day: the checks of its results or replies, of the commands that a participant sent, and of the operator's signed heads and receipts."""

import functools
from collections.abc import Iterator, Sequence
from typing import TYPE_CHECKING

from ..base import text
from ..base.json_value import JsonObject
from ..journal import book, journal
from ..lint import sent
from ..process.progress import Progress
from ..results import check, encodings, results, selection, sums
from ..results.faults import FaultLine, matched_pairs
from ..tool import exits
from . import better
from .inputs import Inputs, Options
from .verdict import Verdict

if TYPE_CHECKING:
    from ..receipts.under_head import UnderHead

SECONDS = 600  # that the search for a better selection, or the comparison of commands, may take
NOT_COMPARED = "no number was compared, since the form is wrong"
NOT_LOOKED = "no better selection was looked for, since the results break other rules"
NEITHER = "no number was compared and no better selection was looked for, since the form is wrong"
NOT_CHECKED = "; whether another selection of blocks is better was not checked (--best)"


class Audit:
    """An audit of one day by the options of the command line. `verdict` is the one so far."""

    def __init__(self, options: Options, inputs: Inputs | None = None) -> None:
        self.options = options
        self.inputs = inputs or Inputs(options)
        self.verdict = Verdict(self.inputs)

    def read_inputs_and_check_or_stop(self) -> None:
        """Makes the checks that the options ask for. Ends with `exits.Stop` if that can't be done."""
        options = self.options
        read, published_bytes = self.inputs.read_journal_and_published_bytes()
        closed, reasons = book.book_and_refusals(read)
        self.verdict.day = {"periods": read.periods, "commands": len(reasons), "refused": sum(reason is not None for reason in reasons)}
        try:
            signed = self.read_and_note_signed(read, reasons) if options.head is not None else None
        except exits.Stop as fault:
            if fault.status != exits.DIFFERS:
                raise
            self.verdict.note_unsigned(str(fault))
            return
        if options.sent is not None:
            proof_text = sent.no_proof_text if signed is None or options.receipts is None else signed.proof_text
            self.read_and_compare_sent_and_note(read, reasons, closed, proof_text)
        if signed is not None:
            self.verdict.checked += ["head", "receipts"] if options.receipts is not None else ["head"]
            self.read_and_add_earlier_heads(signed)
            self.compare_with_signed_and_note(signed)
        if options.replies and published_bytes is not None:
            self.check_replies_and_note(read.periods, reasons, published_bytes)
        elif published_bytes is not None:
            self.check_results_and_note(closed, reasons, published_bytes)

    @property
    def seconds(self) -> float:
        """How long a search, or a comparison of commands, may take."""
        return SECONDS if self.options.seconds is None else self.options.seconds

    def check_replies_and_note(self, periods: int, reasons: Sequence[str | None], published_bytes: bytes) -> None:
        self.verdict.checked.append("replies")
        data, odd = encodings.plain_text_and_faults(published_bytes)
        self.verdict.odd += odd
        self.verdict.rule_faults += reply_faults(periods, reasons, data)
        if not self.verdict.rule_faults:
            self.verdict.right.append(f"as the rules say: {text.counted(len(reasons), 'reply', 'replies')}{sent.refused_text(reasons)}")

    def check_results_and_note(self, closed: book.Book, reasons: Sequence[str | None], published_bytes: bytes) -> None:
        self.verdict.checked.append("results")
        data, odd = encodings.plain_text_and_faults(published_bytes)
        self.verdict.odd += odd
        if not closed.closed:
            self.verdict.rule_faults.append(FaultLine("no command closes the book, so it has no results", "journal"))
            return
        problem = selection.Problem(closed)
        published, faults = check.results_and_faults(problem, data)
        self.verdict.rule_faults += faults
        self.verdict.checked += ["sums"] if published is not None else []
        self.verdict.day = {**(self.verdict.day or {}), **day_figures(problem, published)}
        if faults or published is None:
            self.verdict.last = unmade_checks_line(published is not None, self.options.best)
            return
        how = self.search_for_better_and_note(problem, published) if self.options.best else None
        if self.verdict.search is None or self.verdict.search["better"] is None:
            if how:
                others = f"; no selection is better: {how}"
            else:
                others = NOT_CHECKED if problem.blocks else ""
            self.verdict.right.append(right_line(problem, published, reasons) + others)
            self.verdict.right.append(sums.payments_line(problem, sums.sums(problem, published)))
            if self.options.sent is not None:
                self.verdict.right += lines_of_participant(data, self.options.participant)

    def search_for_better_and_note(self, problem: selection.Problem, published: results.Results) -> str:
        """Looks for a better selection than the one of right results, and says how."""
        options = self.options
        by, whole = options.by or better.ENUMERATION, 2 ** len(problem.blocks)
        progress = Progress("audit", self.seconds, options.quiet, whole)
        self.verdict.search = {"by": by, "selections": whole, "tried": 0, "better": None, "how": None}
        try:
            found, how = better.search_by_method_or_stop(problem, published, by, progress, options.jobs or 1)
        finally:
            self.verdict.search["tried"] = None if by == better.HIGHS else progress.tried_count()
        self.verdict.checked.append("best selection")
        self.verdict.search["how"] = how
        if by == better.ENUMERATION:
            self.verdict.search["tried"] = whole
        if found is not None:
            words = list(better.better_lines(problem, published, found))
            self.verdict.rule_faults.append(FaultLine("\n".join(words), "better"))
            self.verdict.search["better"] = [str(problem.blocks[place]) for place in sorted(found.accepted)]
        return how

    def read_and_compare_sent_and_note(
        self, read: journal.Journal, reasons: Sequence[str | None], closed: book.Book, proof_text: sent.ProofWords
    ) -> None:
        """Compares a participant's sent commands with the journal. If the journal lacks a command, `proof_text` has the words for its
        receipts."""
        options = self.options
        self.verdict.checked.append("commands sent")
        entries = sent.own_entries(read, reasons, options.participant)
        has_none = bool(entries) and all(who != options.participant for who, _ in closed.rows)
        try:
            own = sent.parse_sent(self.inputs.read_and_note("sent", options.sent), options.participant, read.periods, has_none)
        except sent.BadSentText as fault:
            raise exits.Stop(f"{exits.shown(options.sent)} isn't what {options.participant} sent: {fault}") from None
        self.verdict.sent = {"commands": len(entries), "refused": sum(entry.reason is not None for entry in entries)}
        self.verdict.notes = [f"{exits.shown(options.sent)}: {note}" for note in own.notes]
        for note in [] if options.quiet else self.verdict.notes:
            exits.print_note("audit", note)
        progress = Progress("audit", self.seconds, options.quiet)
        words = f"the commands of {options.participant} aren't compared yet"
        try:
            look = functools.partial(progress.show_time_or_raise, words)
            self.verdict.sent_faults, right = sent.faults_and_lines_of_sent(own, entries, closed, options.participant, look, proof_text)
        except TimeoutError as fault:
            raise exits.Stop(str(fault), exits.UNDECIDED) from None
        finally:
            progress.stop_and_erase()
        self.verdict.right += [] if self.verdict.sent_faults else right

    def read_and_note_signed(self, read: journal.Journal, reasons: Sequence[str | None]) -> "UnderHead":
        """The journal with the operator's signed statements: its head, and receipts."""
        from ..receipts import receipts, under_head
        from ..seal import heads, signing

        options = self.options
        key = receipts.parse_key(options.key, self.inputs.read_and_note("key", options.key), signing.parse_public)
        odd: list[receipts.Finding] = []
        head = receipts.parse_head_and_note(options.head, self.inputs.read_and_note("head", options.head), key, odd, options.day)
        data = self.inputs.read_and_note("salts", options.salts)
        salts = receipts.parse_value_and_note(options.salts, data, heads.parse_salts, "the salts of a journal", odd)
        if salts.day != head.day:
            raise exits.Stop(f"{exits.shown(options.salts)} has the salts of {salts.day}, and the head is of {head.day}")
        read_receipts = functools.partial(self.inputs.read_and_note, "receipts")
        found = under_head.read_findings_of_folder(options.receipts, key, read_receipts) if options.receipts is not None else []
        signed = under_head.UnderHead(key, head, salts, read, reasons, found)
        signed.odd += odd
        return signed

    def read_and_add_earlier_heads(self, signed: "UnderHead") -> None:
        for path in self.options.earlier:
            signed.add_earlier_head(path, self.inputs.read_and_note("earlier", path))

    def compare_with_signed_and_note(self, signed: "UnderHead") -> None:
        self.verdict.signed_faults += [*signed.head_faults(), *signed.earlier_faults(), *signed.receipt_faults()]
        right = f"as signed: {signed.head}"
        if signed.earlier:
            right += f", which begins with {text.counted(len(signed.earlier), 'earlier head')}"
        if self.options.receipts is not None:
            right += f"; {text.counted(len(signed.findings), 'receipt')} of its entries"
        self.verdict.foreign = signed.foreign
        self.verdict.odd += [FaultLine(str(finding), "encoding") for finding in signed.odd]
        self.verdict.right += [] if self.verdict.signed_faults else [right]


def reply_faults(periods: int, reasons: Sequence[str | None], data: bytes) -> list[FaultLine]:
    """The lines of a replies text that differ from the book's replies."""
    (wanted, _), (found, more) = (results.lines_and_faults(part) for part in (book.replies_text_of(periods, reasons).encode(), data))
    numbers = [[line.split(b",")[0] for line in part] for part in (wanted, found)]
    wrong, last = more if data else [FaultLine("the replies are empty", "form")], 0
    for at, place in matched_pairs(*numbers):
        last = last if place is None else place + 1
        if place is None and at is not None:
            wrong.append(FaultLine(f"replies line {last + 1}: {text.quoted(wanted[at])} is missing", "missing", last + 1))
        elif at is None and place is not None:
            wrong.append(FaultLine(f"replies line {last}: {text.quoted(found[place])} is not a line of these replies", "stray", last))
        elif at is not None and place is not None and wanted[at] != found[place]:
            words = f"replies line {last}: it is {text.quoted(found[place])} and should be {text.quoted(wanted[at])}"
            wrong.append(FaultLine(words, "reply", last))
    return wrong


def day_figures(problem: selection.Problem, published: results.Results | None) -> JsonObject:
    """The figures of a day, for a record; as the rules have it if the results can't be read."""
    made: JsonObject = {"hourly_orders": len(problem.rows) - len(problem.blocks), "blocks": len(problem.blocks)}
    if published is not None:
        amounts = {"welfare": published.welfare, **sums.sums(problem, published)._asdict()}
        made["accepted"] = len(published.accepted)
        made.update((f"{name}_eur", text.eur(amount, problem.hours, "")) for name, amount in amounts.items())
    return made


def lines_of_participant(data: bytes, who: str) -> Iterator[str]:
    for number, line in enumerate(data.decode(errors="replace").splitlines(), 1):
        kind, *fields = line.split(",")
        if kind in ("hour", "block") and fields[0] == who:
            yield f"results line {number}: {line}"


def unmade_checks_line(is_compared: bool, is_best: bool) -> str | None:
    """The lines after the faults of results about the checks that weren't made."""
    if not is_compared:
        return NEITHER if is_best else NOT_COMPARED
    return NOT_LOOKED if is_best else None


def right_line(problem: selection.Problem, published: results.Results, reasons: Sequence[str | None]) -> str:
    hourly = text.counted(len(problem.rows) - len(problem.blocks), "hourly order")
    welfare = f"welfare {problem.euros_text(published.welfare)} EUR"
    return (
        f"as the rules say: {problem.periods} periods, {hourly}, {len(published.accepted)} of"
        f" {text.counted(len(problem.blocks), 'block')} accepted, {welfare}{sent.refused_text(reasons)}"
    )
