"""A participant's sent commands, compared with its commands in the published journal: each there once, in its order, and no others."""

import re
from bisect import bisect_left
from collections import Counter, defaultdict, deque
from collections.abc import Callable, Hashable, Iterable, Iterator, Sequence
from typing import NamedTuple, TypeVar

from ..base import subsequence, text
from ..journal import book, journal
from ..results.faults import FaultLine
from ..tables import command_table, kinds, order_table
from . import lint

JOURNAL, BOOK = "the journal", "the book at the end"
SPACES = b' \t\r\n\f\v"'
WORDS = re.compile(rb"(?:day|submit|amend|cancel|close)\b", re.IGNORECASE)


class BadSentText(Exception):
    """The text isn't from a participant of that name on that day."""


OwnCommand = journal.Submit | journal.Amend | journal.Cancel  # of a participant
ProofWords = Callable[[OwnCommand], str]


class SentCommand(NamedTuple):
    record: int  # of the list that was sent, from 1
    command: OwnCommand


class JournalCommand(NamedTuple):
    """A command of the participant in the published journal."""

    record: int  # of the journal; the record of the day is 1
    command: OwnCommand
    reason: str | None  # for which the book refused it

    @property
    def reply(self) -> str:
        return f"refused, {self.reason}" if self.reason else "done"

    @property
    def place(self) -> str:
        """The record with its number among the commands, which other tools print."""
        return f"record {self.record} (command {self.record - 1}) of {JOURNAL}"

    @property
    def line(self) -> int:
        return self.record


class HeldCommand(NamedTuple):
    """A command elsewhere: an order in the book at the end, as the command that would enter it, or one that a receipt has."""

    record: int  # its number there, from 1
    command: OwnCommand
    place: str
    line: int | None = None  # it is no line of the journal


AnyCommand = TypeVar("AnyCommand", JournalCommand, HeldCommand)


class SentCommands(NamedTuple):
    """The commands of a participant in a list that was sent."""

    commands: list[SentCommand]
    others: int  # how many commands of others the list has
    is_table: bool  # whether it is a table of orders, which may also be the orders at the end
    notes: list[str]  # on the table: what was read of it, and what wasn't


def parse_sent(data: bytes, who: str, periods: int, has_none: bool) -> SentCommands:
    """The commands of a participant in a list: records as in a journal, with the records `day` and `close` or without them, or a table
    of orders. Those of others are left out. A list with those of others alone is wrong, except a table if the participant `has_none` in the
    book at the end, having cancelled them."""
    if WORDS.match(data.removeprefix(text.MARK).lstrip(SPACES)):
        every = parse_records(data, periods)
        commands = [sent for sent in every if sent.command.who == who]
        own = SentCommands(commands, len(every) - len(commands), False, [])
    else:
        own = parse_table(data, periods, who)
    if own.others and not own.commands and not (own.is_table and has_none):
        raise BadSentText("\n".join([f"it has {text.counted(own.others, 'command')} of others, and none of {who}", *own.notes]))
    return own


def parse_records(data: bytes, periods: int) -> list[SentCommand]:
    own = data if lint.first_word(data) == "day" else f"{journal.day_record_text(periods)}\n".encode() + data
    try:
        read = journal.parse_journal(own)
    except journal.JournalFault:
        raise BadSentText(lint.first_fault_text(data, periods).lstrip()) from None
    if read.periods != periods:
        raise BadSentText(f"it is for a day of {read.periods} periods, but the journal is for one of {periods}")
    first = 2 if own is data else 1
    return [SentCommand(at, command) for at, command in enumerate(read.commands, first) if not isinstance(command, journal.Close)]


def parse_table(data: bytes, periods: int, who: str) -> SentCommands:
    try:
        table = order_table.parse_cells(data)
        if command_table.is_command_table(table):
            words = f"it is a table of commands, with the column {command_table.WHAT}"
            raise BadSentText(f"{words}: give records of a journal, or a table of orders")
        orders = order_table.parse_tables([("", table)], periods, who)
    except order_table.BadOrders as fault:
        is_table = kinds.kind_of_bytes(data) == kinds.ORDERS
        where = "its table has rows that aren't orders" if is_table else "it has no journal records and isn't a table of orders"
        raise BadSentText(f"{where}: {fault}") from None
    return SentCommands([SentCommand(number, submit) for number, submit in orders.submits], orders.others, True, orders.notes)


def own_entries(read: journal.Journal, reasons: Iterable[str | None], who: str) -> list[JournalCommand]:
    return [
        JournalCommand(record, command, reason)
        for record, (command, reason) in enumerate(zip(read.commands, reasons), 2)
        if not isinstance(command, journal.Close) and command.who == who
    ]


def pairs_and_rests(
    sent: Iterable[SentCommand], entries: Iterable[AnyCommand], key: Callable[[OwnCommand], Hashable]
) -> tuple[list[tuple[SentCommand, AnyCommand]], list[SentCommand], list[AnyCommand]]:
    """Pairs of a sent command and an entry with the same key, by their order; and the rest of both lists."""
    waiting: dict[Hashable, deque[AnyCommand]] = defaultdict(deque)
    for entry in entries:
        waiting[key(entry.command)].append(entry)
    pairs, left = [], []
    for one in sent:
        same = waiting[key(one.command)]
        if same:
            pairs.append((one, same.popleft()))
        else:
            left.append(one)
    return pairs, left, [entry for same in waiting.values() for entry in same]


def no_proof_text(_: OwnCommand) -> str:
    return ""


def faults_and_lines_of_sent(
    own: SentCommands,
    entries: Sequence[JournalCommand],
    closed: book.Book,
    who: str,
    look: Callable[[], None],
    proof_text: ProofWords = no_proof_text,
) -> tuple[list[FaultLine], list[str]]:
    """The faults of a participant's commands in a journal, and lines about the right ones. A table of orders may have the commands, or
    the orders at the end: of both, the one with fewer differences is meant. `look` is called now and then, and may end the comparison. Of a
    command that isn't in the journal as it was sent, `proof_text` says whether the operator had it."""
    commands, reasons = own.commands, [entry.reason for entry in entries]
    wrong = difference_faults(commands, entries, look=look, proof_text=proof_text)
    others = f" ({own.others} of others left out)" if own.others else ""
    if wrong and own.is_table:
        at_the_end = difference_faults(commands, held_of(closed, who), BOOK, look)
        if not at_the_end:
            count = f"{text.counted(len(commands), 'order')} of {who}"
            by = f"{text.counted(len(entries), 'command')} of {who}{refused_text(reasons)}"
            return [], [f"as in the table: {count} in {BOOK}, and no others, after {by}{others}"]
        wrong = min(wrong, at_the_end, key=len)
    count = f"{text.counted(len(commands), 'command')} of {who}"
    line = f"as sent: {count}, each once, in their order, and no others{refused_text(reasons)}{others}"
    return wrong, [line, *reply_lines(commands, entries)]


def refused_text(reasons: Sequence[str | None]) -> str:
    """How many of some commands the book refused, in words; nothing if it refused none."""
    count = sum(reason is not None for reason in reasons)
    return f", {count} of {len(reasons)} commands refused" if count else ""


def held_of(closed: book.Book, who: str) -> list[HeldCommand]:
    """The orders of a participant in the book, in its order."""
    own = [journal.Submit(who, name, order) for (owner, name), order in closed.rows.items() if owner == who]
    return [HeldCommand(number, submit, f"order {number} in {BOOK}") for number, submit in enumerate(own, 1)]


def difference_faults(
    sent: Sequence[SentCommand],
    entries: Sequence[AnyCommand],
    where: str = JOURNAL,
    look: Callable[[], None] = lambda: None,
    proof_text: ProofWords = no_proof_text,
) -> list[FaultLine]:
    """The faults of the journal's entries, or of the orders held in the book, by their records."""
    pairs = subsequence.longest_pairs([one.command for one in sent], [one.command for one in entries], look)
    there, here = ({place[side] for place in pairs} for side in (0, 1))
    left = [entry for at, entry in enumerate(sent) if at not in there]
    more = [entry for at, entry in enumerate(entries) if at not in here]
    moved, left, more = pairs_and_rests(left, more, lambda command: command)
    changed, left, more = pairs_and_rests(left, more, lambda command: (type(command), command.name))
    sent_times = Counter(entry.command for entry in sent)
    faults = [(other.record, moved_fault(one, other)) for one, other in moved]
    faults += [(other.record, changed_fault(one, other, proof_text(one.command))) for one, other in changed]
    matched_records = [(sent[at].record, entries[place].record) for at, place in pairs]
    for one in left:
        fault = missing_fault(one, where, proof_text(one.command))
        faults.append((last_record_before(one, matched_records), fault))
    faults += [(other.record, more_fault(other, sent_times[other.command])) for other in more]
    return [fault for _, fault in sorted(faults, key=lambda placed: placed[0])]


def subject_of(entry: SentCommand | JournalCommand | HeldCommand) -> str:
    return f"order {entry.command.who},{entry.command.name}"


def moved_fault(one: SentCommand, other: JournalCommand | HeldCommand) -> FaultLine:
    shown = journal.command_record_text(one.command)
    words = f"sent record {one.record} is moved: {other.place} is out of its order: {shown}"
    return FaultLine(words, "moved", other.line, subject_of(one))


def changed_fault(one: SentCommand, other: JournalCommand | HeldCommand, proof: str) -> FaultLine:
    was, now = journal.command_record_text(one.command), journal.command_record_text(other.command)
    words = f"sent record {one.record} is changed: it was '{was}', and {other.place} is '{now}'{proof}"
    return FaultLine(words, "changed", other.line, subject_of(one))


def missing_fault(one: SentCommand, where: str, proof: str) -> FaultLine:
    words = f"sent record {one.record} is missing in {where}: {journal.command_record_text(one.command)}{proof}"
    return FaultLine(words, "missing", None, subject_of(one))


def more_fault(other: JournalCommand | HeldCommand, times: int) -> FaultLine:
    """The fault of a record that wasn't sent, or not as often; its command was sent this many times."""
    shown = journal.command_record_text(other.command)
    if not times:
        return FaultLine(f"{other.place} was not sent: {shown}", "unsent", other.line, subject_of(other))
    count = "once" if times == 1 else f"{times} times"
    words = f"{other.place} repeats what was sent {count}: {shown}"
    return FaultLine(words, "repeated", other.line, subject_of(other))


def last_record_before(missing: SentCommand, matched_records: Sequence[tuple[int, int]]) -> int:
    """The number of the journal's record after which a missing command should come, or 0. The pairs of `matched_records` are of a record
    sent and the journal's record that is the same command, in the order of both."""
    count = bisect_left(matched_records, (missing.record,))
    return matched_records[count - 1][1] if count else 0


def reply_lines(sent: Iterable[SentCommand], entries: Iterable[JournalCommand]) -> Iterator[str]:
    """The reply to each command, if all entries are as they were sent."""
    for one, other in zip(sent, entries):
        shown = journal.command_record_text(one.command)
        yield f"sent record {one.record} is {other.place}; the book's reply is {other.reply}: {shown}"
