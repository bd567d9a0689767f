"""Random inputs of a desk: its output is `dam replay`'s for the entered records, with a fault line for each line that is none.

The faults are found by the reader of tools/lib, record by record. Each input is cut into batches in two ways, and one of the runs ends and
begins again in its middle."""

import os
import random
import signal
import subprocess
import time
from collections.abc import Iterable, Iterator, Sequence
from concurrent.futures import ThreadPoolExecutor
from pathlib import Path

from desk import device, journals
from desk.device import INPUT, LOCKED_LINE, SYNC, DeskProgram, Event
from desk.journals import DamProgram, DeskInput
from lib.base import rules
from lib.journal import journal as format_of
from shared import broken_texts, crash_files
from shared.processes import pipes_of, wait_and_see_if
from shared.counts import Counts
from shared.records import CLOSE

LONGEST_LINE = 65_536  # bytes of a line
FEW, MANY = 300, 1_000
MUTATIONS = [
    broken_texts.draw_front, broken_texts.draw_rest, broken_texts.with_insertion, broken_texts.with_gap,
    broken_texts.with_changed_byte, broken_texts.with_number,
    broken_texts.on_fields(broken_texts.in_quotes), broken_texts.on_fields(broken_texts.with_odd_quotes),
]  # fmt: skip


class LineFault(Exception):
    """The words of a fault line after the line's number."""


class ExpectedDesk:
    """Reads lines as a desk does: `records` are those that are entered, in their written form."""

    def __init__(self) -> None:
        self.day: int | None = None
        self.records: list[bytes] = []
        self.line = 0
        self.answers: list[bytes | int] = []  # for each line a fault line, or the number of the record that answers

    @property
    def entries(self) -> int:
        return max(0, len(self.records) - 1)

    def enter_line(self, line: bytes) -> None:
        """Reads a line without its end."""
        self.line += 1
        try:
            self.answers.append(self.enter_and_return_answer_or_raise(line))
        except LineFault as fault:
            self.answers.append(f"fault,{self.line},{fault}\n".encode())

    def enter_and_return_answer_or_raise(self, line: bytes) -> bytes | int:
        if len(line) > LONGEST_LINE:
            raise LineFault("TooLong")
        if not line.isascii():
            raise LineFault(f"NotAscii,{next(at for at, byte in enumerate(line) if byte > 127)}")
        line += b"\n"  # which a quote that isn't closed takes in
        if self.day is None:
            return self.enter_day_and_return_answer_or_raise(line)
        if self.periods_in_line_or_none(line):
            if self.periods_in_line_or_none(line) != self.day:
                raise LineFault("OtherDay")
            return 0
        commands = self.parse_or_raise(f"day,{rules.GREATEST_PERIOD},,,,,,,\n".encode() + line).commands
        if len(commands) != 1:
            raise LineFault("NotOneRecord")
        (command,) = commands
        most = rules.MOST_RECORDS - 1 if command == format_of.Close() else rules.MOST_RECORDS - 2
        if self.entries >= most:
            raise LineFault("JournalFull")
        self.records.append(f"{format_of.command_record_text(command)}\n".encode())
        return self.entries

    def enter_day_and_return_answer_or_raise(self, line: bytes) -> int:
        day = self.parse_or_raise(line)
        if day.commands:
            raise LineFault("NotOneRecord")
        self.day = day.periods
        self.records.append(f"day,{self.day},,,,,,,\n".encode())
        return 0

    @staticmethod
    def periods_in_line_or_none(line: bytes) -> int | None:
        """The periods of the day's record, if the line is one."""
        try:
            found = format_of.parse_journal(line)
        except format_of.JournalFault:
            return None
        return None if found.commands else found.periods

    @staticmethod
    def parse_or_raise(text: bytes) -> format_of.Journal:
        try:
            return format_of.parse_journal(text)
        except format_of.JournalFault as fault:
            words = str(fault).split()
            raise LineFault(f"{words[1]},{words[-1]}" if words[1] == "BadField" else words[1]) from None

    def end_input(self, rest: bytes) -> None:
        """The input ends in a line."""
        if rest:
            self.line += 1
            self.answers.append(f"fault,{self.line},CutShort\n".encode())

    def capture_output_of_dam(self, dam: DamProgram) -> list[bytes]:
        """The right output, by lines."""
        replies = dam.capture_replay(b"".join(self.records)).stdout.splitlines(keepends=True) if self.records else []
        return [answer if isinstance(answer, bytes) else replies[answer] for answer in self.answers]


def expected_desk_of(text: bytes) -> ExpectedDesk:
    reader = ExpectedDesk()
    *lines, rest = text.split(b"\n")
    for line in lines:
        reader.enter_line(line)
    reader.end_input(rest)
    return reader


def draw_other_form(rng: random.Random, record: bytes) -> bytes:
    """The record with fields in quotes, or another line end: it means the same."""
    fields = record[:-1].split(b",")
    if rng.random() < 0.5:
        fields = [broken_texts.in_quotes(rng, field) if rng.random() < 0.4 else field for field in fields]
    return b",".join(fields) + rng.choice([b"\n", b"\r\n", b"\r\n"])


def draw_stream(rng: random.Random) -> bytes:
    """The bytes of an input."""
    draw = rng.choice([journals.draw_day, journals.draw_day, journals.draw_day, journals.draw_short_names, journals.draw_long_names])
    lines = []
    rate = rng.choice([0, 0, 0.05, 0.3])
    for record in draw(rng, rng.choice([0, 1, 3, 10, 30, 80])):
        if rng.random() < rate:
            lines.append(rng.choice(MUTATIONS)(rng, record) + rng.choice([b"", b"\n"]))
        if rng.random() < rate:
            day, long = b"day,%d,,,,,,,\n" % rng.choice(list(rules.DAYS)), b"A" * rng.choice([9, 70_000]) + b"\n"
            lines.append(rng.choice([*journals.FAULTY, day, CLOSE, long]))
        lines.append(draw_other_form(rng, record) if rng.random() < rate else record)
    if rng.random() < 0.1:
        lines.append(rng.choice([CLOSE[:-1], CLOSE[:-9], b"x"]))
    return b"".join(lines)


def draw_cuts(rng: random.Random, text: bytes) -> list[bytes]:
    """The text in parts, which come in one by one: by lines, or anywhere."""
    if rng.random() < 0.4:
        return journals.draw_batches(rng, text.splitlines(keepends=True), rng.choice([1, 9, 60])) if b"\r" not in text else [text]
    parts, most = [], rng.choice([1 if len(text) < 2_000 else 7, 40, 400, device.PACKET])
    while text:
        count = rng.randint(1, most)
        parts.append(text[:count])
        text = text[count:]
    return parts


class RandomStreams:
    def __init__(self, desk: DeskProgram, dam: DamProgram) -> None:
        self.desk, self.dam = desk, dam
        self.lines = self.entries = self.faults = 0

    def try_stream(self, seed: int) -> Iterator[str]:
        """The faults of one random input."""
        rng = random.Random(f"stream {seed}")
        text = draw_stream(rng)
        reader = expected_desk_of(text)
        expected = reader.capture_output_of_dam(self.dam)
        self.lines, self.entries = self.lines + len(expected), self.entries + reader.entries
        self.faults += sum(line.startswith(b"fault,") for line in expected)
        yield from self.try_whole_stream(rng, text, reader, expected)
        yield from self.try_halves_of_stream(rng, text, reader, expected)

    def try_and_list_faults(self, seed: int) -> list[str]:
        """The faults of a stream. An exception is one too, so that the seed of its stream is named."""
        try:
            return list(self.try_stream(seed))
        except Exception as error:
            return [f"{type(error).__name__}: {error}"]

    def try_whole_stream(self, rng: random.Random, text: bytes, reader: ExpectedDesk, expected: Sequence[bytes]) -> Iterator[str]:
        file = self.desk.make_path()
        ran = self.desk.run(file, draw_cuts(rng, text))
        if ran.printed != (0, b"".join(expected), b""):
            yield f"status {ran.status}, {ran.stderr[:80]!r}, {first_difference(ran.stdout, expected)}"
        yield from self.try_kept_records(file, reader)
        yield from faults_of_syncs(ran.events)
        yield from faults_of_end(ran.events)

    def try_kept_records(self, file: Path, reader: ExpectedDesk) -> Iterator[str]:
        """The differences of the file and its journal from the entered records."""
        marked = b"".join(b"+" + record for record in reader.records)
        bytes_ = file.read_bytes()
        if crash_files.parse_marked_lines_or_none(bytes_) != marked or not crash_files.is_at_rest(bytes_):
            yield f"the file has {crash_files.parse_marked_lines_or_none(bytes_)!r:.300} for {marked!r:.300}"
        printed = self.desk.capture_journal(file)
        if printed != (0, b"".join(reader.records), b""):
            yield f"--journal: status {printed.status}, {printed.stderr[:80]!r}, {printed.stdout[-80:]!r}"

    def try_halves_of_stream(self, rng: random.Random, text: bytes, reader: ExpectedDesk, expected: Sequence[bytes]) -> Iterator[str]:
        """The same input in two runs, which both number their lines from 1."""
        lines = text.split(b"\n")
        half = rng.randrange(len(lines))
        front = b"".join(line + b"\n" for line in lines[:half])
        first = expected_desk_of(front)
        file = self.desk.make_path()
        begun = self.desk.run(file, draw_cuts(rng, front))
        ended = self.desk.run(file, draw_cuts(rng, text[len(front) :]))
        held = [] if not first.records else self.dam.capture_replay(b"".join(first.records)).stdout.splitlines(keepends=True)
        rest = [renumbered(line, half) for line in expected[half:]]
        if (begun.status, begun.stdout) != (0, b"".join(expected[:half])) or (ended.status, ended.stdout) != (0, b"".join([*held, *rest])):
            yield f"in two runs: statuses {begun.status} and {ended.status}, {first_difference(ended.stdout, [*held, *rest])}"
        yield from self.try_kept_records(file, reader)


def renumbered(line: bytes, before: int) -> bytes:
    if not line.startswith(b"fault,"):
        return line
    _, number, rest = line.split(b",", 2)
    return b"fault,%d,%b" % (int(number) - before, rest)


def first_difference(stdout: bytes, expected: Sequence[bytes]) -> str:
    lines = stdout.splitlines(keepends=True)
    for at, (line, right) in enumerate(zip(lines, expected)):
        if line != right:
            return f"line {at + 1} is {line!r} for {right!r}"
    return f"{len(lines)} lines for {len(expected)}"


def faults_of_syncs(events: Iterable[Event]) -> Iterator[str]:
    """Each read makes one batch at most, each batch two syncs at most, and a batch that enters nothing none."""
    counts, is_open = [], False
    for event in events:
        if event.kind == INPUT:
            counts.append([0, 0])
            is_open = True
        elif is_open and event.is_change:
            counts[-1][event.kind == SYNC] += 1
    wrong = [count for count in counts if count not in ([0, 0], [2, 2])]
    if wrong:
        yield f"a batch with {wrong[0][0]} writes and {wrong[0][1]} syncs"


def faults_of_end(events: Iterable[Event]) -> Iterator[str]:
    """The input ends with the first read that gets no byte: no read comes after it."""
    counts = [event.answer for event in events if event.kind == INPUT]
    if counts.count(0) != 1 or counts[-1] != 0:
        yield f"the input is read again after its end, or not up to it: the last reads get {counts[-3:]} bytes"


def check_second_desk(counts: Counts, desk: DeskProgram, dam: DamProgram) -> None:
    """A second desk, and the journal while a desk runs."""
    given = journals.draw_input(dam, "together", journals.draw_day, 40)
    file = desk.make_path()
    process, done = desk.start(file), 0
    stdin, stdout = pipes_of(process)
    for batch in given.batches:
        stdin.write(batch)
        stdin.flush()
        for _ in range(batch.count(b"\n")):
            line = stdout.readline()
            counts.check(f"together: answer {done}: {line!r}", line == given.journal.answers[done])
            done += 1
        before = file.read_bytes(), file.stat().st_mtime_ns
        other = desk.capture_output([file], CLOSE)
        counts.check(f"together: a second desk: {other}", other == (4, b"", LOCKED_LINE))
        shown = desk.capture_journal(file)
        right = given.journal.text(done)
        counts.check(f"together: the journal of {done} records: {shown}", shown == (0, right, b""))
        counts.check("together: nothing was changed", before == (file.read_bytes(), file.stat().st_mtime_ns))
    process.send_signal(signal.SIGSTOP)  # a desk that stands still has its file too
    other = desk.capture_output([file], CLOSE)
    counts.check(f"together: a desk that stands still: {other}", other == (4, b"", LOCKED_LINE))
    process.send_signal(signal.SIGCONT)
    stdin.close()
    counts.check("together: the first desk ends with 0", process.wait() == 0 and stdout.read() == b"")
    stdout.close()
    check_many_starts(counts, desk, given)


def check_journal_in_mid_load(counts: Counts, desk: DeskProgram, dam: DamProgram) -> None:
    """The journal, printed again and again while batches come in: whole batches, and each acknowledged one."""
    given = journals.draw_input(dam, "load", journals.draw_day, 900)
    file = desk.make_path()
    surroundings = {**os.environ, **desk.environment_for(file, DESK_SLOW="300")}
    ours, feeder = device.start_feeding(given.batches)
    with subprocess.Popen([*desk.words, str(file)], stdin=ours, stdout=subprocess.PIPE, env=surroundings) as process:
        os.close(ours)
        assert process.stdout
        answered, seen = bytearray(process.stdout.readline()), set()
        os.set_blocking(process.stdout.fileno(), False)
        while process.poll() is None:
            answered += process.stdout.read() or b""
            safe = answered.count(b"\n")
            shown = desk.capture_journal(file)
            count = shown.stdout.count(b"\n")
            is_right = (shown.status, shown.stderr) == (0, b"") and count in given.borders and shown.stdout == given.journal.text(count)
            counts.check(f"in mid-load: the journal has {count} records, {safe} acknowledged: {shown.stderr!r}", is_right and count >= safe)
            seen.add(count)
        answered += process.stdout.read() or b""
    feeder.join()
    counts.check("in mid-load: the answers", bytes(answered) == given.journal.all_printed)
    counts.check(f"in mid-load: {len(seen)} journals were seen", len(seen) > 3)


def check_many_starts(counts: Counts, desk: DeskProgram, given: DeskInput) -> None:
    """Of several desks that are started at once on a new file, one has it, and the others say so. Its input ends once they have ended: a
    desk that is still to open the file would have it after the first."""
    file = desk.make_path()
    started = [desk.start(file, stderr=subprocess.PIPE) for _ in range(8)]
    wait_and_see_if(lambda: sum(process.poll() is None for process in started) < 2, device.SECONDS)
    printed = [process.communicate(b"".join(given.batches)) for process in started]
    ends = sorted((process.returncode, *texts) for process, texts in zip(started, printed))
    right = [(0, given.journal.all_printed, b""), *[(4, b"", LOCKED_LINE)] * 7]
    counts.check(f"eight desks at once: statuses {[it[0] for it in ends]}", ends == right)


def text_of_stream(seed: int, found: Sequence[str]) -> str:
    return f"stream {seed} (`tests/desk/run streams --only {seed}`): {'; '.join(found)}"


def check_stream(counts: Counts, desk: DeskProgram, dam: DamProgram, seed: int) -> None:
    """One of the random inputs."""
    found = RandomStreams(desk, dam).try_and_list_faults(seed)
    counts.check(text_of_stream(seed, found), not found)


def check_streams(counts: Counts, desk: DeskProgram, dam: DamProgram, whole: bool) -> None:
    begun, streams = time.monotonic(), RandomStreams(desk, dam)
    count = MANY if whole else FEW
    with ThreadPoolExecutor(desk.jobs) as pool:
        for seed, found in enumerate(pool.map(streams.try_and_list_faults, range(count))):
            counts.check(text_of_stream(seed, found), not found)
    check_second_desk(counts, desk, dam)
    check_journal_in_mid_load(counts, desk, dam)
    print(f"streams: {count} of {streams.lines:,} lines, {streams.entries:,} entries and {streams.faults:,} fault lines; "
          f"{time.monotonic() - begun:.1f} s", flush=True)
