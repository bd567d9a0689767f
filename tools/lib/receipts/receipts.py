"""The verdict on receipts and heads: whether they are the operator's, and whether each belongs to one journal that only grew."""

from collections import Counter, defaultdict
from collections.abc import Callable, Iterable, Iterator, Mapping, Sequence, Set
from itertools import groupby
from typing import TypeVar

from cryptography.hazmat.primitives.asymmetric.ed25519 import Ed25519PublicKey

from ..base import text
from ..base.json_value import Json
from ..journal import journal
from ..lint import sent
from ..lint.sent import HeldCommand
from ..seal import heads, merkle, signing
from ..seal.heads import AValue, Extension, Head, Receipt
from ..tool import exits, file_io
from .contradictions import Signed, periods_differ_text, roots_differ_text, unsigned
from .findings import CONTRADICTION, CONTRARY, ENCODING, EXTENSION, HEAD, IMPOSSIBLE, LINE, RECEIPT, RIGHT, STATUSES, UNDECIDED, UNREAD, WRONG
from .findings import Finding, Place, verdict

NOT_WRITTEN = "the content is right, but the text isn't in its written form"
NOT_SIGNED = "isn't signed by this key: it isn't the operator's, or it was changed"
EMPTY = "it has no receipt"
MOST_UNREAD = 20  # lines of a file that are named, if they are no receipts
# Of each verdict on a receipt that the operator signed for the day, the words of the last line; others are named as they are.
WORDS = {CONTRARY: "contrary to the published head", IMPOSSIBLE: "with an impossible reply"}


AnyKey = Ed25519PublicKey | signing.Keys
AKey = TypeVar("AKey")


def read_key(path: str) -> Ed25519PublicKey:
    return parse_key(path, file_io.read_bytes(path), signing.parse_public)


def parse_key(path: str, data: bytes, read: Callable[[bytes], AKey]) -> AKey:
    try:
        return read(data)
    except signing.BadKey as fault:
        raise exits.Stop(f"{exits.shown(path)} can't be used: {fault}") from None


def read_value_and_note(path: str, read: Callable[[Json], AValue], name: str, odd: list[Finding]) -> AValue:
    """The value in a file of one line. If the file isn't in its written form, `odd` gets a finding."""
    return parse_value_and_note(path, file_io.read_bytes(path), read, name, odd)


def parse_value_and_note(path: str, data: bytes, read: Callable[[Json], AValue], name: str, odd: list[Finding]) -> AValue:
    """The same from the bytes of the file."""
    try:
        value, is_written = heads.parse_value_and_is_written(data, read)
    except heads.BadRecord as fault:
        raise exits.Stop(f"{exits.shown(path)} isn't {name}: {fault}") from None
    if not is_written:
        odd.append(Finding(path, None, ENCODING, NOT_WRITTEN))
    return value


def read_head_and_note(path: str, key: Ed25519PublicKey, odd: list[Finding], day: str | None = None) -> Head:
    """The head in a file, which has to be signed by the key, and of a day if one is named."""
    return parse_head_and_note(path, file_io.read_bytes(path), key, odd, day)


def parse_head_and_note(path: str, data: bytes, key: Ed25519PublicKey, odd: list[Finding], day: str | None = None) -> Head:
    """The same from the bytes of the file."""
    head = parse_value_and_note(path, data, heads.parse_head, "a head", odd)
    if not signing.is_signed(key, head):
        raise exits.Stop(f"{exits.shown(path)} {NOT_SIGNED}", exits.DIFFERS)
    if day not in (None, head.day):
        raise exits.Stop(f"{exits.shown(path)} is {head}, and not of {day}")
    return head


def unread_finding_or_raise(path: str, fault: exits.Stop) -> Finding:
    """The finding on a file that can't be read, or isn't of its kind."""
    if isinstance(fault, file_io.OwnOutput):
        raise fault
    return Finding(path, None, UNREAD, f"it {str(fault).removeprefix(exits.shown(path)).strip()}")


class OperatorStatements:
    """The signed statements of an operator, and the extensions, which show that a head's journal begins with another's."""

    def __init__(self, key: AnyKey) -> None:
        self.key, self.signed = key, Signed()
        self.earlier: dict[Head, Head] = {}

    @classmethod
    def read(cls, paths: Iterable[str], key: AnyKey, findings: list[Finding]) -> "OperatorStatements":
        """The statements with the extensions of these files. `findings` gets the findings on them."""
        statements = cls(key)
        later: dict[Head, set[Head]] = defaultdict(set)  # of each head, those that begin with it
        for path in paths:
            extension = statements.read_value_or_add_finding(path, heads.parse_extension, "an extension", findings)
            if extension is not None and statements.add_if_valid_and_see(path, extension, findings):
                later[unsigned(extension.old)].add(unsigned(extension.new))
        statements.earlier = longest_beginnings(later)
        return statements

    def read_value_or_add_finding(self, path: str, read: Callable[[Json], AValue], name: str, findings: list[Finding]) -> AValue | None:
        """The value in a file of one line. If there is none, `findings` gets that, and the other files are judged."""
        try:
            return read_value_and_note(path, read, name, findings)
        except exits.Stop as fault:
            findings.append(unread_finding_or_raise(path, fault))
            return None

    def add_if_valid_and_see(self, path: str, extension: Extension, findings: list[Finding]) -> bool:
        """Whether an extension connects its heads. If it doesn't, `findings` gets that. A wrong path proves no fault of the operator: anyone
        can make one."""
        one, other = (self.add_and_find_signer(path, end, findings, EXTENSION) for end in (extension.old, extension.new))
        if one is None or other is None:
            return False
        words = unlike_heads_text(extension, one, other)
        if words is None:
            self.signed.add_extension(extension, Place(path), one)
            words = None if extension.is_valid() else "its path doesn't lead from the earlier one to the later one"
        if words is not None:
            findings.append(Finding(path, None, UNDECIDED, f"it doesn't connect its heads: {words}", about=EXTENSION))
        return words is None

    def add_and_find_signer(self, path: str, head: Head, findings: list[Finding], about: str = HEAD) -> str | None:
        """The name of the key that signed a head. If none did, `findings` gets that."""
        key = signing.signer_name(self.key, head)
        if key is not None:
            self.signed.add_head(head, Place(path), key)
        else:
            findings.append(Finding(path, None, WRONG, f"{'it' if about == HEAD else head} {NOT_SIGNED}", about=about))
        return key

    def verdict_and_text_on_two(self, one: Head, other: Head) -> tuple[str, str]:
        """The verdict on two heads of one operator, and the words for it."""
        one, other = sorted(map(unsigned, (one, other)), key=lambda head: head.size)
        if one.day != other.day:
            return UNREAD, f"the heads are of different days, {one.day} and {other.day}"
        if one.periods != other.periods:
            return WRONG, periods_differ_text(one, other)
        if one == other:
            return RIGHT, f"the heads are the same: {one}"
        if one.size == other.size:
            return WRONG, roots_differ_text(one)
        if self.has_path(one, other):
            return RIGHT, f"{other} begins with {one}"
        return UNDECIDED, f"no extension shows that {other} begins with {one}: the operator has to give one"

    def has_path(self, one: Head, other: Head) -> bool:
        """Whether the extensions show that a head's journal begins with an earlier one. Each journal begins with the empty one."""
        one = unsigned(one)
        last: Head | None = unsigned(other)
        while last is not None and last.size > one.size:
            last = self.earlier.get(last)
        return last == one or one.size == 0

    def findings_on_gaps(self) -> Iterator[Finding]:
        """The findings on the heads of a day, each compared with the next one. Contradictions are reported elsewhere."""
        signed = self.signed.heads()
        for one, other in zip(signed, signed[1:]):
            found, words = self.verdict_and_text_on_two(one, other)
            if found in (RIGHT, UNDECIDED):
                yield Finding(*self.signed.places[other], found, words, about=HEAD)

    def day_lines(self) -> Iterator[str]:
        for day, own in groupby(self.signed.heads(), lambda head: head.day):
            *others, last = own
            yield f"{day}: {text.counted(len(others) + 1, 'head')}, the last with {text.counted(last.size, 'entry', 'entries')}"

    def summary_text(self) -> str:
        """How many heads there are, of how many days."""
        signed = self.signed.heads()
        return f"{text.counted(len(signed), 'head')} of {text.counted(len({head.day for head in signed}), 'day')}"


def unlike_heads_text(extension: Extension, old_key: str, new_key: str) -> str | None:
    """Why no extension connects two heads, signed with keys of these names."""
    old, new = extension.old, extension.new
    if old_key != new_key:
        return f"they are signed with two keys, {exits.shown(old_key)} and {exits.shown(new_key)}"
    if old.day != new.day:
        return f"they are of two days, {old.day} and {new.day}"
    if old.periods != new.periods:
        return f"they have {old.periods} and {new.periods} periods"
    if old.size > new.size:
        return f"the first one has {text.counted(old.size, 'entry', 'entries')}, and the second one {new.size}"
    return None


def longest_beginnings(later: Mapping[Head, Set[Head]]) -> dict[Head, Head]:
    """Of each head, the longest of the earlier ones with which its journal begins. Of two that it begins with, the longer one begins with
    the shorter one, so that this one need not be kept."""
    earlier: dict[Head, set[Head]] = defaultdict(set)
    for one, others in later.items():
        for other in others - {one}:
            earlier[other].add(one)
    found: dict[Head, Head] = {}
    for head in sorted({*later, *earlier}, key=size_key, reverse=True):
        if earlier[head]:
            *shorter, found[head] = sorted(earlier[head], key=size_key)
            earlier[found[head]].update(shorter)
    return found


def size_key(head: Head) -> tuple[int, bytes]:
    return head.size, head.root


def judge_and_add_receipt(
    receipt: Receipt, head: Head | None, key: AnyKey, statements: OperatorStatements, place: Place = Place("the receipt")
) -> tuple[str, str]:
    """The verdict on a receipt, compared with a head that was published if one is given, and the words for it. The signed heads
    and entries are added to the statements."""
    entry, signer = f"entry {receipt.number} of {receipt.head}", signing.signer_name(key, receipt.head)
    if signer is None:
        return WRONG, f"its head {NOT_SIGNED}"
    statements.signed.add_head(receipt.head, place, signer)
    root = merkle.root_of_inclusion(receipt.leaf(), receipt.number - 1, receipt.head.size, receipt.path)
    if root != receipt.head.root:
        return WRONG, f"it isn't {entry}: its record, reply, salt or path was changed, or belongs to another entry"
    statements.signed.add_entry(receipt, place, signer)
    shown = f"{entry}: {receipt.record}, {receipt.reply}"
    if head is None:
        return RIGHT, shown
    if words := impossible_reply_text(receipt):
        return IMPOSSIBLE, f"{shown}; {words}"
    found, words = statements.verdict_and_text_on_two(receipt.head, head)
    if found == WRONG:
        return CONTRARY, f"{shown}; the published head contradicts it: {words}"
    if found in (RIGHT, UNDECIDED) and receipt.number > head.size:
        return CONTRARY, f"{shown}; but the journal of {head} ends before it"
    return found, shown if found == RIGHT else f"{shown}; {words}"


def impossible_reply_text(receipt: Receipt) -> str | None:
    """Why no book gives this reply. Only the periods are looked at: of the rest, the entries before it decide."""
    found = heads.command_of_record(receipt.record)
    last = max((period for period, _ in getattr(getattr(found, "order", found), "volumes", ())), default=0)
    if receipt.reply == heads.DONE and last > receipt.head.periods:
        return f"the operator signed the reply {heads.DONE} for period {last} of a day with {receipt.head.periods}, which no book gives"
    return None


def iterate_findings_of_file(path: str, head: Head | None, key: AnyKey, statements: OperatorStatements, who: str | None = None) -> Iterator[Finding]:
    """Adds the receipts of a file, one in each line, to the statements, and yields the finding on each. A line that is none is named, and so is
    a file that can't be read. If a participant is named, all are its own."""
    try:
        data = file_io.read_bytes(path)
    except exits.Stop as fault:
        yield unread_finding_or_raise(path, fault)
        return
    yield from iterate_findings_of_lines(path, data, head, key, statements, who)


def iterate_findings_of_lines(
    path: str, data: bytes, head: Head | None, key: AnyKey, statements: OperatorStatements, who: str | None = None
) -> Iterator[Finding]:
    """The same from the bytes of the file."""
    try:
        lines = heads.require_lines(data)
    except heads.BadRecord as fault:
        yield Finding(path, None, UNREAD, f"it isn't read: {fault}")
        return
    if not lines:
        yield Finding(path, None, UNREAD, EMPTY)
    for number, data in enumerate(lines, 1):
        try:
            receipt, is_written = heads.parse_value_and_is_written(data, heads.parse_receipt)
        except heads.BadRecord as fault:
            yield Finding(path, number, UNREAD, f"it isn't a receipt: {fault}", about=LINE)
            continue
        verdict, words = judge_and_add_receipt(receipt, head, key, statements, Place(path, number))
        if who is not None and receipt.who != who and STATUSES[verdict] != exits.DIFFERS:
            verdict, words = UNREAD, f"it isn't a receipt of {who}: {words}"
        if verdict == RIGHT and not is_written:
            verdict, words = ENCODING, f"{NOT_WRITTEN}: {words}"
        yield Finding(path, number, verdict, words, receipt)


def finding_lines(findings: Iterable[Finding]) -> Iterator[str]:
    """A line about each finding that isn't right. Of the lines of a file that are no receipts, the first ones are named."""
    unread: Counter[str] = Counter()
    for finding in findings:
        unread[finding.file] += finding.about == LINE
        if finding.verdict != RIGHT and not (finding.about == LINE and unread[finding.file] > MOST_UNREAD):
            yield str(finding)
    for path, count in unread.items():
        if count > MOST_UNREAD:
            yield f"{exits.shown(path)}: {text.counted(count - MOST_UNREAD, 'more line')} without a receipt"


def received_commands(findings: Iterable[Finding], who: str, verdicts: Sequence[str]) -> list[HeldCommand]:
    """The commands of a participant of which there are receipts with one of some verdicts, in the order of the journal."""
    kept = [finding.receipt for finding in findings if finding.receipt and finding.verdict in verdicts and finding.receipt.who == who]
    every = {(receipt.number, receipt.record): heads.command_of_record(receipt.record) for receipt in kept}
    commands = sorted(every.items(), key=lambda one: one[0])
    own = [(number, command) for (number, _), command in commands if command is not None and not isinstance(command, journal.Close)]
    return [HeldCommand(number, command, f"the receipt of entry {number}") for number, command in own]


def is_none_read(findings: Sequence[Finding]) -> bool:
    """Whether there are lines or files that can't be read as receipts, and none that can."""
    return all(finding.receipt is None for finding in findings) and any(finding.words != EMPTY for finding in findings)


def difference_findings(path: str, commands: Sequence[sent.SentCommand], findings: Sequence[Finding], who: str) -> list[Finding]:
    """The findings on the commands that a participant sent, compared with those of which there are receipts. Whether the published journal
    has these may be undecided. A receipt that contradicts the published head is of another journal, whose entries may have other numbers:
    of the comparisons with the ones, the others and both, the one with the fewest differences is meant."""
    own, others = (RIGHT, ENCODING, UNDECIDED), (CONTRARY, IMPOSSIBLE)
    is_contrary = any(finding.verdict in others for finding in findings)
    each = [received_commands(findings, who, verdicts) for verdicts in ((own, others, own + others) if is_contrary else (own,))]
    found = min((sent.difference_faults(commands, one, "the receipts") for one in each), key=len)
    return [Finding(path, None, WRONG, str(fault)) for fault in found]


def refusal_lines(findings: Iterable[Finding]) -> list[str]:
    """The entries of right receipts that the book refused, each once, in words."""
    kept = [finding.receipt for finding in findings if finding.receipt and finding.verdict == RIGHT]
    every = {receipt.number: receipt for receipt in kept if receipt.reply != heads.DONE}
    return [f"entry {number}: {receipt.record}, {receipt.reply}" for number, receipt in sorted(every.items())]


def counts_and_repeats(findings: Sequence[Finding]) -> tuple[Counter[tuple[str, str]], int]:
    """How many findings there are of each kind and verdict, and how many receipts are of an entry that another one has too."""
    own = [(finding.verdict, finding.receipt.number, finding.receipt.leaf()) for finding in findings if finding.receipt]
    count = Counter((RECEIPT, kind) for kind, _, _ in set(own))
    count.update((finding.about, finding.verdict) for finding in findings if not finding.receipt)
    return count, len(own) - len(set(own))


def summary_line(findings: Sequence[Finding], unlike: Sequence[Finding], head: Head, as_sent: int | None = None) -> str:
    """The last line about receipts, and about the differences from the commands that were sent; `as_sent` is their number, if there are
    none. These commands are as they were sent in the published journal only if the receipts are right. Several receipts of an entry count
    once."""
    found, refused = verdict([*findings, *unlike]), len(refusal_lines(findings))
    count, more = counts_and_repeats(findings)
    others = [f"{more} more of the same entries"] if more else []
    others += [f"{text.counted(len(unlike), 'difference')} from the commands that were sent"] if unlike else []
    sent_text = "as sent" if found in (RIGHT, ENCODING) else "with a receipt"
    others += [f"{sent_text}: {text.counted(as_sent, 'command')}"] if as_sent is not None else []
    refusal = f", {refused} of them refused" if refused else ""
    if found == RIGHT:
        return "; ".join([f"right: {text.counted(count[RECEIPT, RIGHT], 'receipt')} of {head}{refusal}", *others])
    order = sorted(count.items(), key=lambda one: (one[0][0] != RECEIPT, -list(STATUSES).index(one[0][1])))
    kinds = {(about, kind): "" if about == CONTRADICTION else f" {WORDS.get(kind, kind)}" for about, kind in count}
    kinds[RECEIPT, RIGHT] = f" {RIGHT}{refusal}"
    parts = [f"{text.counted(number, about)}{kinds[about, kind]}" for (about, kind), number in order]
    return f"{found}: {'; '.join([*parts, *others])}; {head}"
