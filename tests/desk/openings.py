"""Openings of files of each shape: the calls that reach the file, and days of any number of commands.

A desk syncs its file once, reads each byte of it once, writes only a repair, and prints all replies by one call. The library that opens the
file syncs it before that. The tests of crashes allow further calls, which only cost time."""

import random
import time
from collections.abc import Iterator, Sequence
from pathlib import Path

from desk import kills
from desk.device import CUT, DESK, INPUT, OUTPUT, READ, SYNC, WRITE, DeskProgram, DeskRun
from desk.files import BATCH, file_of_records
from desk.journals import DamProgram, Journal, longest_records
from lib.base import rules
from shared.counts import Counts
from shared.crash_files import AFTER_FIRST, HEAD, MOST_FILE_BYTES, is_at_rest, parse_marked_lines_or_none
from shared.records import CLOSE, DAY

FileCall = tuple[str, int, int]  # its kind, its place in the file, and how many bytes moved
TORN = [round(1.5**power) for power in range(1, 41)]  # bytes after the lines of a file, up to as many as there may be
LENGTHS = sorted({*((1 << power) + step for power in range(7, 23) for step in (-1, 0, 1)), 3 * BATCH})  # bytes of files
COUNTS = (0, 1, 25, 300, 1_001, 1_700, 2_900, 4_800, 8_100, 9_898, 9_998)  # of commands
SYNCED = (SYNC, 0, 0)
CREATED = [(WRITE, 0, 1), SYNCED, (WRITE, 1, len(AFTER_FIRST)), SYNCED, (WRITE, 0, 1), SYNCED]


def calls_of_repair(end: int, blanks: int = 0) -> list[FileCall]:
    """The calls of a repair: the blanks after a file's lines, and then the mark."""
    return [*[(WRITE, end + 1, blanks), SYNCED] * (blanks > 0), (WRITE, end, 1), SYNCED]


def files_with_calls() -> Iterator[tuple[str, bytes | None, list[FileCall]]]:
    """Yields files, each with its bytes, and the calls after it was read."""
    end = len(file_of_records(DAY)) - 1
    yield "no file", None, CREATED
    yield "an empty file", b"", CREATED
    yield "one byte", HEAD[:1], CREATED
    yield "a file that was never made whole", b"-" + AFTER_FIRST, CREATED[2:]
    yield "a file at rest", file_of_records(DAY), []
    yield "a file of the greatest length", file_of_records(DAY).ljust(MOST_FILE_BYTES), []
    yield "no mark at the end", file_of_records(DAY)[:-1], calls_of_repair(end)
    yield "a torn line", file_of_records(DAY)[:-1] + b"+canc", calls_of_repair(end)
    full = file_of_records(DAY, *[CLOSE] * (rules.MOST_RECORDS - 2))
    yield "a long journal", full, []
    yield "a long journal and a torn line", full[:-1] + b"\n\n", calls_of_repair(len(full) - 1, 1)
    yield "a journal of long records", file_of_records(*longest_records(rules.MOST_RECORDS - 2)), []
    for length in LENGTHS:
        yield f"a file of {length:,} bytes", file_of_records(DAY).ljust(length), []
    for count in TORN:
        if end + count <= MOST_FILE_BYTES:
            yield f"{count:,} line feeds after the lines", file_of_records(DAY)[:-1] + b"\n" * count, calls_of_repair(end, count - 1)


def calls_before_repair(length: int) -> list[FileCall]:
    """The calls before a repair: the library's sync, and the desk's sync and read."""
    return [SYNCED, SYNCED, *[(READ, 0, length)] * (length > 0)]


def calls_of_file(ran: DeskRun) -> list[FileCall]:
    """The calls of the desk's file: the kind of each, its place, and how many bytes moved."""
    return [(it.kind, it.at, it.answer) for it in ran.events if it.target == DESK and it.kind in (READ, WRITE, SYNC, CUT)]


class OpeningTests:
    def __init__(self, counts: Counts, desk: DeskProgram, dam: DamProgram) -> None:
        self.counts, self.desk, self.dam = counts, desk, dam

    def check_opening(self, about: str, bytes_: bytes | None, after: Sequence[FileCall]) -> None:
        """Opens a file without input, and again with a close; and prints its journal."""
        file = self.desk.make_path()
        if bytes_ is not None:
            file.write_bytes(bytes_)
        ran = self.desk.run(file)
        self.check_same(f"{about} is opened by", calls_of_file(ran), [*calls_before_repair(len(bytes_ or b"")), *after])
        self.counts.check(f"{about}: status {ran.status}, {ran.stderr[:80]!r}", (ran.status, ran.stderr) == (0, b""))
        self.check_printed_once(about, ran)
        self.check_printed_before_input(about, ran)
        self.counts.check(f"{about} is at rest", is_at_rest(file.read_bytes()))
        length, marked = file.stat().st_size, parse_marked_lines_or_none(file.read_bytes()) or b""
        ran = self.desk.run(file, [CLOSE])
        self.check_same(f"{about} is opened again by", calls_of_file(ran)[: len(calls_before_repair(length))], calls_before_repair(length))
        asked = {it.asked for it in ran.events if it.kind == INPUT}
        self.counts.check(f"{about}: {asked} bytes are asked for at a time", asked == {BATCH})
        entered = b"+" + CLOSE if marked else b""
        self.counts.check(f"{about}: the close", parse_marked_lines_or_none(file.read_bytes()) == marked + entered)
        self.run_and_check_printed_and_remove(about, file)

    def check_same(self, about: str, found: object, right: object) -> None:
        self.counts.check(f"{about} the calls {found} in place of {right}", found == right)

    def check_printed_once(self, about: str, ran: DeskRun) -> None:
        made = sum(event.kind == OUTPUT for event in ran.events)
        self.counts.check(f"{about}: {made} calls print {len(ran.stdout):,} bytes", made == (ran.stdout != b""))

    def check_printed_before_input(self, about: str, ran: DeskRun) -> None:
        """A client reads the replies to the journal before it writes a line."""
        made = [event.kind for event in ran.events if event.kind in (INPUT, OUTPUT)]
        self.check_same(f"{about}, {len(ran.stdout):,} bytes of replies, is served by", made, [OUTPUT] * (ran.stdout != b"") + [INPUT])

    def run_and_check_printed_and_remove(self, about: str, file: Path) -> None:
        """Prints the journal of a file: each byte of it is read once, in order."""
        at, ran = 0, self.desk.run(file, words=["--journal"])
        self.check_printed_once(f"the journal of {about}", ran)
        for kind, place, count in calls_of_file(ran):
            self.counts.check(f"the journal of {about}: {kind} at {place} after {at} bytes", (kind, place) == (READ, at))
            at += count
        self.counts.check(f"the journal of {about}: {at} bytes are read", at == file.stat().st_size)
        file.unlink()

    def check_day(self, periods: int, count: int) -> None:
        """A day of this many commands that is opened again: its answers, and its journal."""
        _, *commands = kills.draw_load(random.Random(f"openings {periods} {count}"), count)
        journal = Journal([b"day,%d,,,,,,,\n" % periods, *commands], self.dam)
        file = self.desk.make_path()
        file.write_bytes(HEAD + journal.all_marked + b"-")
        ran = self.desk.run(file)
        about = f"a day of {periods} periods and {count:,} commands"
        self.check_printed_before_input(about, ran)
        is_right = ran.printed == (0, journal.all_printed, b"")
        self.counts.check(f"{about} is opened again: status {ran.status}, {ran.stderr[:80]!r}", is_right)
        shown = self.desk.run(file, words=["--journal"])
        is_right = shown.printed == (0, journal.text(len(journal)), b"")
        self.counts.check(f"the journal of {about}: status {shown.status}, {shown.stderr[:80]!r}", is_right)


def check_openings(counts: Counts, desk: DeskProgram, dam: DamProgram, whole: bool) -> None:
    begun_at, before = time.monotonic(), counts.passed + counts.failed
    tests = OpeningTests(counts, desk, dam)
    for about, bytes_, after in files_with_calls():
        tests.check_opening(about, bytes_, after)
    for periods in rules.DAYS:
        for count in COUNTS:
            tests.check_day(periods, count)
    print(f"openings: {counts.passed + counts.failed - before} checks; {time.monotonic() - begun_at:.1f} s", flush=True)
