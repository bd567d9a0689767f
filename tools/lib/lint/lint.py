"""Every fault of a journal at once, in words: its line, the field, its text, the allowed texts and the remedy.

Breaches of the format are reported for each record, and then the record is taken for the one that was probably meant, so
that the commands after it are judged as well, also those that the book would refuse."""

import itertools
import re
from collections.abc import Callable, Sequence
from typing import Any, NamedTuple

from ..base import place, rules, text
from ..journal import book, fields, journal
from ..process.progress import StepBar
from ..tables import kinds

DAY = "day,24,,,,,,,"
CLOSE = "close,,,,,,,,"
RESULTS = ([b"results"],)  # the line before the results in the output of `dam day`
MOST_LINES = 20  # of those with characters that aren't ASCII
FEW = 5  # faults that other tools report
MOST_QUOTES = 20  # that aren't closed and are reported
SEPARATORS = {";": "semicolons", "\t": "tabs"}  # that stand in place of commas
AUDIT, LINT, TABLE = map(place.with_commands_of_here, ("tools/audit", "tools/lint", "tools/table"))
# The tool for a text of another kind.
OTHERS = {
    kinds.ORDERS: f"this seems to be a table of orders: {TABLE} --journal makes a journal of it",
    kinds.RESULTS: f"these seem to be results, which aren't a journal: {AUDIT} reads them with their journal",
    kinds.REPLIES: f"these seem to be replies of `dam replay`, which aren't a journal: {AUDIT} --replies reads them with their journal",
    **{kind: f"this is {kind}: {advice}" for kind, advice in kinds.ADVICE.items()},
}
Values = dict[str, Any]  # of a record's fields by their names, each with its own type; None if it hasn't its form
Volumes = tuple[tuple[int, int], ...]
LINE = re.compile(rb"[^\r\n]+")
BYTE_ORDER_MARKS = {b"\xef\xbb\xbf": "utf-8-sig", b"\xff\xfe": "utf-16", b"\xfe\xff": "utf-16"}


def is_journal(data: bytes) -> bool:
    try:
        journal.parse_journal(data)
    except journal.JournalFault:
        return False
    return True


class Finding(NamedTuple):
    line: int
    field: str  # its name, or nothing if the whole record or text is meant
    words: str
    refusal: str = ""  # the book's reason, if the format allows the record

    def __str__(self) -> str:
        return f"line {self.line}{', ' if self.field else ''}{self.field}: {self.words}"


class Lint:
    """Gathers the faults of a text that should be a journal for a command of the program. If `periods` are given, the text may lack
    the day, which has that number of periods."""

    def __init__(self, data: bytes, command: str, periods: int | None = None, bar: StepBar | None = None) -> None:
        self.command, self.periods, self.bar = command, periods, bar
        self.findings: list[Finding] = []
        self.book, self.has_day = book.Book(periods or rules.GREATEST_PERIOD), False
        self.lines: dict[tuple[str, str], int] = {}  # of each order of the book that was submitted, by participant and name
        self.unclear: set[tuple[str, str]] = set()  # participants and names of submits that couldn't be read
        self.others: set[str | None] = set()  # participants
        self.closed: int | None = None  # the line of the first close
        self.is_cut = False  # whether records at the end weren't looked at
        self.data = data
        self.has_semicolons = False  # between the fields of all lines

    def add_finding(self, line: int, words: str, field: str = "", refusal: str = "") -> None:
        self.findings.append(Finding(line, field, words, refusal))

    def collect_findings(self) -> list[Finding]:
        """The findings on the text, by line, and after them the commands that the book would refuse."""
        other = OTHERS.get(kinds.kind_of_bytes(self.data) or "")
        if other:
            self.add_finding(1, other)
            return self.findings
        if len(self.data) > rules.MOST_BYTES:
            remedy = f"remove empty lines; the day and {rules.MOST_RECORDS - 1} commands take less"
            self.add_finding(1, f"the text has {len(self.data):,} bytes, but a journal has at most {rules.MOST_BYTES:,}: {remedy}")
            return self.findings
        data = self.report_and_drop_long_lines(without_late_lines(self.report_and_drop_mark(self.data)))
        self.report_other_characters(data)
        comma = self.report_and_find_separator(data)
        data = self.report_and_mend_quotes(data, comma)
        self.has_semicolons = comma == b";"
        if self.periods and first_word(data, comma) != "day":
            self.has_day = True
        line, behind, number = 1, 0, 0
        for number, (at, record) in enumerate(text.placed_records(data, comma), 1):
            line += text.count_lines(data, behind, at)
            if self.bar:
                self.bar.count_and_show(at - behind)
            behind = at
            if number > rules.MOST_RECORDS:
                self.add_finding(line, f"a journal has at most {rules.MOST_RECORDS - 1} commands: remove the rest")
                self.is_cut = True
                break
            if record in RESULTS or record[0] == b"welfare":
                whole = "the results of a day begin here" if record in RESULTS else "these are results"
                self.add_finding(line, f"{whole}, which aren't part of a journal: {AUDIT} reads both")
                break
            self.lint_record(line, [field.decode(errors="replace") for field in record])
        self.lint_close(line, number)
        return sorted(self.findings, key=lambda finding: (bool(finding.refusal), finding.line))

    def report_and_drop_mark(self, data: bytes) -> bytes:
        """Reports a byte order mark. Returns the text in UTF-8 without it."""
        for mark, encoding in BYTE_ORDER_MARKS.items():
            if data.startswith(mark):
                name, tool = "a byte order mark", ""
                if encoding == "utf-16":
                    name, tool = "a byte order mark, and the text is in UTF-16", ", or convert it: iconv -f UTF-16 -t UTF-8 FILE"
                self.add_finding(1, f"the text begins with {name}: save it as plain CSV, in ASCII or UTF-8 without the mark{tool}")
                return data.decode(encoding, errors="replace").encode()
        return data

    def report_and_drop_long_lines(self, data: bytes) -> bytes:
        """Reports the long lines, which aren't looked at. Returns the text in which each is empty."""
        places = [found.span() for found in LINE.finditer(data) if found.end() - found.start() > text.LONG_LINE]
        for begin, end in reversed(places):
            line = text.count_lines(data, 0, begin) + 1
            self.add_finding(line, f"the line has {end - begin:,} bytes, far more than a command has: remove it")
            data = data[:begin] + data[end:]
        return data

    def report_and_find_separator(self, data: bytes) -> bytes:
        """The separator of the fields, by the first line. Any but a comma is reported."""
        first = re.split(rb"[\r\n]", data.lstrip(b"\r\n"), maxsplit=1)[0]
        for mark, name in SEPARATORS.items():
            if first.count(mark.encode()) > first.count(b",") != len(fields.NAMES) - 1:
                self.add_finding(1, f"the fields are separated by {name}: separate them by commas")
                return mark.encode()
        return b","

    def report_and_mend_quotes(self, data: bytes, comma: bytes) -> bytes:
        """Reports the quotes that aren't closed on their line. Returns the text without them, after which no line could be told from another.
        The last field of a journal may have such a quote."""
        for number in range(MOST_QUOTES):
            at = text.place_of_open_quote(data, comma)
            if at is None or not number and is_journal(data):
                break
            line = text.count_lines(data, 0, at) + 1
            self.add_finding(line, "a quote begins a field and isn't closed on its line: remove it, or close it")
            data = data[:at] + data[at + 1 :]
        return data

    def report_other_characters(self, data: bytes) -> None:
        """Reports the first character of each line that isn't ASCII, and if there are many such lines, how many."""
        lines, line, behind = {}, 1, 0
        for found in re.finditer(rb"([\x80-\xff]+)[^\r\n]*", data):
            line += text.count_lines(data, behind, found.start())
            behind = found.start()
            lines[line] = found[1].decode(errors="replace")
        allowed = "a journal has no accented letters, and no long dashes or special spaces"
        for at in list(lines)[:MOST_LINES]:
            self.add_finding(at, f"{text.quoted(lines[at])} isn't ASCII: {allowed}")
        if len(lines) > MOST_LINES:
            at = list(lines)[MOST_LINES]
            self.add_finding(at, f"{len(lines) - MOST_LINES} lines from here on aren't ASCII either: save the file as plain CSV, in ASCII")

    def report_and_split_record(self, line: int, record: list[str]) -> list[str] | None:
        """The fields of a record. If it alone has something other than commas between them, that is reported; None if they are too few or too
        many."""
        for mark, name in SEPARATORS.items():
            parts = record[0].split(mark)
            if len(record) == 1 and len(parts) > 1 and parts[0].strip().lower() in {"day", *fields.USED}:
                self.add_finding(line, f"the fields of this line are separated by {name}: separate them by commas")
                return parts if len(parts) == len(fields.NAMES) else None
        return record

    def lint_record(self, line: int, whole: list[str]) -> None:
        record = self.report_and_split_record(line, whole)
        if record is None:
            return
        if self.has_semicolons and len(record) > len(fields.NAMES):
            self.unclear.add((record[1], record[2]))  # those between volumes can't be told from those between fields
            return
        word = record[0].strip().lower()
        if not self.has_day:
            self.lint_day(line, record, word)
        elif word == "day":
            self.add_finding(line, "the day appears twice: a journal has one, as its first line")
        elif record[0].lstrip().startswith("#"):
            self.add_finding(line, "a journal has no comments: remove the line")
        elif not any(field.strip() for field in record):
            self.add_finding(line, "there is nothing in the line but commas: remove it")
        else:
            self.lint_entry(line, self.report_and_pad_record(line, record, CLOSE if word == "close" else None))

    def report_and_pad_record(self, line: int, record: list[str], whole: str | None = None) -> list[str]:
        """The nine fields of a record. If it has more or fewer, that is reported."""
        count, most = len(record), len(fields.NAMES)
        missing = most - count
        if missing > 0:
            commas = "a comma is missing" if missing == 1 else f"{missing} commas are missing"
            do = f"write {whole}" if whole else "complete it at its end"
            self.add_finding(line, f"it has {count} field{'s' * (count > 1)} and should have {most}, so {commas}: {do}")
        elif missing < 0:
            do = "a field can't contain a comma"
            if not any(record[most:]):
                do = f"remove {-missing} comma{'s' * (missing < -1)} at its end"
            self.add_finding(line, f"it has {count} fields and should have {most}: {do}")
        return (record + [""] * most)[:most]

    def lint_day(self, line: int, record: list[str], word: str) -> None:
        """The first record, which should be the day."""
        if word != "day":
            if set(map(str.lower, record)) & {*fields.NAMES, "who", "name", "limit", "volume"}:
                self.add_finding(line, f"this is a header, and a journal has none: begin with the day, such as {DAY}")
                return
            if word.startswith("#"):
                self.add_finding(line, f"a journal has no comments: remove the line, and begin with the day, such as {DAY}")
                return
            self.add_finding(line, f"the first line should be the day, such as {DAY}, but is {text.quoted(','.join(record))}")
            self.has_day = True
            if word in fields.USED:
                self.lint_record(line, record)
            return
        found = record[1].strip() if len(record) > 1 else ""
        periods, wrong = fields.day_and_advice(found)
        whole = journal.day_record_text(periods or 24)
        record = self.report_and_pad_record(line, record, whole)
        if record[0] != "day":
            self.add_finding(line, f"{text.quoted(record[0])} should be day: write {whole}", "command")
        if wrong or record[1] != found:
            why = wrong or f"there is a space around it: write {text.safe(found)}"
            self.add_finding(line, f"{text.quoted(record[1])}: {why}", "periods")
        for place in range(2, 9):
            if record[place]:
                self.add_finding(line, f"{text.quoted(record[place])} should be empty: write {whole}", fields.NAMES[place])
        self.book, self.has_day = book.Book(periods or rules.GREATEST_PERIOD), True

    def lint_entry(self, line: int, record: list[str]) -> None:
        kind, wrong = fields.word_parser(["submit", "amend", "cancel", "close"])(record[0].strip(" \t\u00a0"))
        if wrong or kind != record[0]:
            self.add_finding(line, f"{text.quoted(record[0])}: {wrong or f'there is a space around it: write {kind}'}", "command")
        if kind is None:
            return
        values, is_whole = {}, True
        hourly = kind == "submit" and record[3].strip().lower() == "hour"
        for place, name in list(enumerate(fields.NAMES))[1:]:
            field = record[place]
            if name not in fields.USED[kind] or hourly and name in ("parent", "group"):
                if field:
                    of = "an hourly order" if hourly and kind == "submit" else f"{'an' if kind == 'amend' else 'a'} {kind}"
                    self.add_finding(line, f"{text.quoted(field)} should be empty in {of}", name)
                values[name] = ""
            elif not field and name in ("parent", "group"):
                values[name] = ""
            else:
                values[name], wrong = fields.value_and_advice(name, field)
                if name == "volumes" and hourly and values[name] and len(values[name]) != 1:
                    wrong = f"an hourly order has one pair, such as 8:450, not {len(values[name])}" + (f"; {wrong}" if wrong else "")
                if wrong:
                    self.add_finding(line, f"{text.quoted(field)}: {wrong}" if field else f"it is empty: {wrong}", name)
                is_whole = is_whole and values[name] is not None
        if kind == "submit" and hourly and values["volumes"] and len(values["volumes"]) != 1:
            is_whole = False
        self.apply_or_report(line, kind, values, is_whole)

    def apply_or_report(self, line: int, kind: str, values: Values, is_whole: bool) -> None:
        who, name = values["participant"], values["order"]
        if kind == "close":
            if self.command == "day":
                self.add_finding(line, "a journal for `dam day` has no close: remove the line")
                return
            command: journal.Command = journal.Close()
        else:
            self.others.add(who)
            if not is_whole:
                self.unclear |= {(who, name)} if kind == "submit" else set()
                return
            makers: dict[str, Callable[..., journal.Command]] = {
                "submit": self.submit_of, "amend": journal.Amend, "cancel": journal.Cancel
            }
            command = makers[kind](*[values[field] for field in fields.USED[kind]])
        self.note_reply_or_report(line, kind, values, self.book.apply_or_return_refusal(command))

    def note_reply_or_report(self, line: int, kind: str, values: Values, reason: str | None) -> None:
        """Keeps the facts by which later commands are judged, or reports why the book refuses the command."""
        who, name = values["participant"], values["order"]
        if reason is None:
            if kind == "submit":
                self.lines[who, name] = line
            if kind == "close":
                self.closed = line
            return
        parent = who, values["parent"]
        if reason == "UnknownOrder" and (who, name) in self.unclear or reason == "UnknownParent" and parent in self.unclear:
            return
        field, words = self.refusal_field_and_text(reason, who, name, values)
        self.add_finding(line, f"{words} (the book refuses it: {reason})", field, reason)

    def submit_of(self, who: str, name: str, kind: str, side: str, price: int, volumes: Volumes, parent: str, group: str) -> journal.Submit:
        return journal.Submit(who, name, journal.Order(kind, side, price, volumes, parent, group))

    def refusal_field_and_text(self, reason: str, who: str, name: str, values: Values) -> tuple[str, str]:
        """The field that a refusal is about, and the remedy."""
        parent = values["parent"]
        if reason == "PeriodOutOfDay":
            late = next(number for number, _ in values["volumes"] if number > self.book.periods)
            words = f"the day has periods 1 to {self.book.periods}, so there is no period {late}"
            return "volumes", f"{words}: correct the period, or the day in the first line"
        if reason == "HasChildren":
            children = [other for (owner, other), order in self.book.rows.items() if (owner, order.parent) == (who, name)]
            line = self.lines[who, children[0]]
            return "order", f"{children[0]} of line {line} names {name} as its parent: cancel {children[0]} first"
        return {
            "Closed": ("", f"the book is closed by line {self.closed}: put the command before it"),
            "NameTaken": (
                "order",
                f"{who} has an order {name} since line {self.lines.get((who, name))}: amend that one, or take another name",
            ),
            "UnknownOrder": ("order", f"{who} has no order {name} here: it was never entered, was refused, or is cancelled"),
            "WrongShape": ("volumes", f"the order of line {self.lines.get((who, name))} is hourly: give it one pair, such as 8:450"),
            "UnknownParent": ("parent", f"{who} has no order {parent} here: submit the parent first"),
            "ParentNotBlock": (
                "parent",
                f"{parent} of line {self.lines.get((who, parent))} is an hourly order: name a block",
            ),
            "HourlyFull": ("", f"a book holds at most {rules.MOST_HOURLY} hourly orders: cancel others first"),
            "BlocksFull": ("", f"a book holds at most {rules.MOST_BLOCKS} blocks: cancel others first"),
        }.get(reason, ("", book.REASONS[reason].words))

    def lint_close(self, line: int, records: int) -> None:
        if not records:
            self.add_finding(1, f"the journal is empty: begin with the day, such as {DAY}")
        elif not self.has_day:
            self.add_finding(line, f"there is no day: begin with it, such as {DAY}")
        if self.command == "clear" and self.closed is None and records and not self.is_cut:
            self.add_finding(line, f"no command closes the book, so there are no results: end with {CLOSE}")
        if self.command == "day":
            if records > rules.MOST_DAY_COMMANDS + 1:
                self.add_finding(line, f"`dam day` takes at most {rules.MOST_DAY_COMMANDS} commands")
            count = len(self.others - {None})
            if count > rules.MOST_DAY_PARTICIPANTS:
                self.add_finding(line, f"`dam day` takes at most {rules.MOST_DAY_PARTICIPANTS} participants, but there are {count}")


def without_late_lines(data: bytes) -> bytes:
    """The text without the lines after those that a journal may have, and the first of them."""
    further = next(itertools.islice(LINE.finditer(data), rules.MOST_RECORDS + 1, None), None)
    return data[: further.start()] if further else data


def first_word(data: bytes, comma: bytes = b",") -> str:
    """The first field of a text, as a word that a journal may begin with."""
    return next(text.placed_records(data, comma), (0, [b""]))[1][0].strip().lower().decode(errors="replace")


def collect_findings(data: bytes, command: str = "clear", bar: StepBar | None = None) -> list[Finding]:
    """The faults of a text as a journal for `dam clear`, `dam replay` or `dam day`, by line, and then the commands that the book would
    refuse. A bar shows how far it is read."""
    return Lint(data, command, bar=bar).collect_findings()


def summary_line(findings: Sequence[Finding]) -> str:
    """How many faults there are, and how many commands the book would refuse."""
    refused = sum(1 for one in findings if one.refusal)
    counts = [(len(findings) - refused, "fault"), (refused, "refused command")]
    return ", ".join(f"{count} {name}{'s' * (count > 1)}" for count, name in counts if count) or "nothing is wrong"


def first_fault_text(data: bytes, periods: int | None = None) -> str:
    """The first faults of a text that can't be read as a journal, each on a line of its own; or as the commands of a day of as many
    periods, with the day or without it."""
    lines = [str(fault) for fault in Lint(data, "replay", periods).collect_findings() if not fault.refusal]
    more = [f"and {len(lines) - FEW} more: see {LINT}"] if len(lines) > FEW else []
    return "".join(f"\n  {line}" for line in lines[:FEW] + more)
