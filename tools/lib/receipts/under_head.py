"""The audit of a journal under the head that the operator signed, under earlier heads, and with receipts."""

import os
from collections.abc import Callable, Iterable, Iterator, Sequence
from pathlib import Path

from cryptography.hazmat.primitives.asymmetric.ed25519 import Ed25519PublicKey

from ..base import text
from ..journal import journal
from ..lint import sent
from ..results.faults import FaultLine
from ..seal import heads, merkle, sealing, signing
from ..seal.heads import Head, Receipt, Salts
from ..tool import exits, file_io
from . import receipts
from .findings import Finding

NOT_OWN = "not the operator's"
PROVED = ": the operator's fault, proved"


class UnderHead:
    """A journal and its replies, compared with the operator's signed statements: heads, and receipts with a finding on each. The operator doesn't
    sign journals, nor salts: only a journal that has the entries of a head, all and no others, is the operator's."""

    def __init__(
        self,
        key: Ed25519PublicKey,
        head: Head,
        salts: Salts,
        read: journal.Journal,
        reasons: Iterable[str | None],
        findings: Sequence[Finding],
    ) -> None:
        self.key, self.head, self.salts = key, head, salts
        self.earlier: list[tuple[str, Head]] = []  # the earlier heads that are compared, each with the name of its file
        self.findings = [finding for finding in findings if self.is_own(finding)]
        self.foreign = [self.foreign_fault(finding) for finding in findings if not self.is_own(finding)]
        self.odd = [finding for finding in self.findings if finding.verdict == receipts.ENCODING]
        self.under = self.places_by_head(findings)
        self.replies = [sealing.reply_of(reason) for reason in reasons]
        self.records = [journal.command_record_text(command) for command in read.commands]
        self.periods = read.periods
        self.tree = merkle.Tree(
            heads.leaf_of(number, record, reply, salts.salt(number, record, reply))
            for number, (record, reply) in enumerate(zip(self.records, self.replies), 1)
        )
        self.is_of_head = (self.periods, len(self.tree), self.tree.root()) == (head.periods, head.size, head.root)
        self.lacked: dict[str, Receipt] = {}  # of each record that the journal lacks, the first receipt, or one that proves a fault
        for finding in sorted(self.findings, key=lambda finding: not self.is_entry_signed(finding.shown)):
            if self.lacked_entry_text(finding.shown):
                self.lacked.setdefault(finding.shown.record, finding.shown)

    def is_entry_signed(self, receipt: Receipt) -> bool:
        """Whether the journal has the number of a receipt's entry by the operator's own signature. If it has another entry there, the
        operator signed two."""
        return self.is_of_head and receipt.number <= self.head.size

    def proved_text(self, receipt: Receipt) -> str:
        """The end of a line about a receipt whose entry the journal lacks."""
        return PROVED if self.is_entry_signed(receipt) else ""

    def other_beginning_text(self, head: Head) -> str | None:
        """Why the journal doesn't begin with a head's entries."""
        if head.periods != self.periods:
            return f"the journal's day has {self.periods} periods, and the head's {head.periods}{PROVED if self.is_of_head else ''}"
        if head.size > len(self.tree):
            count = text.counted(len(self.tree), "entry", "entries")
            return f"the journal has {count}, and the operator signed {head.size}"
        if self.tree.root(head.size) != head.root:
            return self.other_root_text(head)
        return None

    def other_root_text(self, head: Head) -> str:
        """Why the root of the journal's beginning isn't a head's. The salts aren't signed: a receipt under the head decides whether it has
        its salt from them."""
        words = f"the first {text.counted(head.size, 'entry', 'entries')} of the journal, with the book's replies"
        if self.is_of_head:
            return f"{words} and these salts, aren't the entries that the operator signed{PROVED}"
        own = [finding for finding in self.findings if receipts.unsigned(finding.shown.head) == receipts.unsigned(head)]
        if not own:
            return f"{words}, aren't the entries that the operator signed, or the salts aren't this journal's"
        finding = next(filter(self.is_salted, own), None)
        if finding is None:
            return f"the salts aren't this journal's: the receipt in {receipts.Place(own[0].file, own[0].line)} has another salt"
        return f"{words}, aren't the entries that the operator signed; the salts are right, by {receipts.Place(finding.file, finding.line)}"

    def is_salted(self, finding: Finding) -> bool:
        """Whether a receipt has its salt from the given ones."""
        receipt = finding.shown
        return receipt.salt == self.salts.salt(receipt.number, receipt.record, receipt.reply)

    def head_faults(self) -> list[FaultLine]:
        """The differences of the journal from its head."""
        words = self.other_beginning_text(self.head)
        if words is None and self.head.size < len(self.tree):
            more = text.counted(len(self.tree) - self.head.size, "entry", "entries")
            words = f"the journal has {more} after the {self.head.size} that the operator signed"
        return [FaultLine(f"{self.head}: {words}", "head")] if words else []

    def is_own(self, finding: Finding) -> bool:
        """Whether the operator signed a receipt, for this day."""
        return finding.verdict != receipts.WRONG and finding.shown.head.day == self.head.day

    def places_by_head(self, findings: Iterable[Finding]) -> dict[Head, receipts.Place]:
        """The heads that the operator signed for this day, each with the first receipt that is under it. That one may be changed itself."""
        found: dict[Head, receipts.Place] = {}
        for finding in findings:
            head = finding.shown.head
            if head.day == self.head.day and (finding.verdict != receipts.WRONG or signing.is_signed(self.key, head)):
                found.setdefault(receipts.unsigned(head), receipts.Place(finding.file, finding.line))
        return found

    def foreign_fault(self, finding: Finding) -> FaultLine:
        """Why a receipt isn't compared with the journal."""
        words = f"{NOT_OWN}: {finding.words}" if finding.verdict == receipts.WRONG else self.another_day_text(finding.shown.head)
        return FaultLine(f"{receipts.Place(finding.file, finding.line)}: {words}", "foreign")

    def another_day_text(self, head: Head) -> str:
        return f"it is of {head.day}, and the journal's head of {self.head.day}"

    def add_earlier_head(self, path: str, data: bytes) -> None:
        """Adds an earlier head, by the bytes of its file. One that isn't the operator's, or is of another day, isn't compared."""
        odd: list[Finding] = []
        head = receipts.parse_value_and_note(path, data, heads.parse_head, "a head", odd)
        is_own, name = signing.is_signed(self.key, head), exits.shown(path)
        if not is_own or head.day != self.head.day:
            words = self.another_day_text(head) if is_own else f"{NOT_OWN}: it {receipts.NOT_SIGNED}"
            self.foreign.append(FaultLine(f"{name}: {words}", "foreign"))
            return
        self.odd += odd
        self.earlier.append((name, head))

    def earlier_faults(self) -> Iterator[FaultLine]:
        return self.beginning_faults(self.earlier)

    def lacked_entry_text(self, receipt: Receipt) -> str | None:
        """How the journal differs from a receipt that the operator signed."""
        at, signed = receipt.number - 1, (receipt.record, receipt.reply)
        words = f"the operator signed entry {receipt.number} as {', '.join(signed)}"
        if at >= len(self.records):
            return f"{words}, which the journal doesn't have"
        if (self.records[at], self.replies[at]) != signed:
            return f"{words}; the journal has {self.records[at]}, {self.replies[at]}"
        return None

    def proof_text(self, command: sent.OwnCommand) -> str:
        """Whether a receipt proves that the operator had a command that the journal lacks, in words. The fault is the operator's only if
        it signed this very journal too: anyone can leave an entry out of a copy, and a later head may have more."""
        receipt = self.lacked.get(journal.command_record_text(command))
        if receipt is None:
            return "; no receipt proves that the operator had it"
        words = f"; the operator signed it as entry {receipt.number} of {receipt.head}"
        return words + self.proved_text(receipt)

    def receipt_faults(self) -> Iterator[FaultLine]:
        """The faults of receipts, and of the heads that they are under."""
        for finding in self.findings:
            receipt, name = finding.shown, receipts.Place(finding.file, finding.line)
            if words := self.lacked_entry_text(receipt):
                yield FaultLine(f"{name}: {words}{self.proved_text(receipt)}", "receipt", receipt.number + 1)
        yield from self.beginning_faults((name, head) for head, name in self.under.items() if head != receipts.unsigned(self.head))

    def beginning_faults(self, named_heads: Iterable[tuple[object, Head]]) -> Iterator[FaultLine]:
        """A fault for each of some heads, as pairs of a name and a head, with whose entries the journal doesn't begin."""
        for name, head in named_heads:
            if words := self.other_beginning_text(head):
                yield FaultLine(f"{name}: {head}: {words}", "head")


def list_receipt_files_or_stop(folder: str) -> Sequence[str | Path]:
    """The files of receipts of a folder, or the one that is given. A folder has no others."""
    if not os.path.isdir(folder):
        return [folder]
    paths = sorted(Path(folder).iterdir())
    for path in paths:
        if path.suffix != ".jsonl":
            raise exits.Stop(f"{exits.shown(folder)} has {text.quoted(path.name)}, which isn't a file of receipts, NAME.jsonl")
        if fault := file_io.find_unread_reason(path):
            raise exits.Stop(fault)
    if not paths:
        raise exits.Stop(f"{exits.shown(folder)} has no file of receipts, NAME.jsonl")
    return paths


def read_findings_of_folder(folder: str, key: Ed25519PublicKey, read: Callable[[str | Path], bytes] = file_io.read_bytes) -> list[Finding]:
    """The findings on the receipts of a folder, or of one file, whose bytes `read` gives: whether the operator signed each. All have to be
    receipts."""
    statements, findings = receipts.OperatorStatements(key), list[Finding]()
    for path in list_receipt_files_or_stop(folder):
        for finding in receipts.iterate_findings_of_lines(str(path), read(path), None, key, statements):
            if finding.verdict == receipts.UNREAD:
                raise exits.Stop(str(finding))
            findings.append(finding)
    return findings
