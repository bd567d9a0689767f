"""Every crash of recorded runs: the files that a crash may leave at each moment are opened, and so are the files that another crash leaves
while they are opened.

Whether a file is right is decided by the reader of shared/crash_files.py, for each file, and compared with the program's opening, for each
file or a sample: its output, its status, and the file afterwards."""

import random
from collections.abc import Iterable, Iterator, Sequence
from typing import NamedTuple

from desk import journals, moments
from desk.device import DESK, FOLDER, OPEN, OUTPUT, SYNC, DeskProgram, DeskRun, Event
from desk.journals import DamProgram, DeskInput
from shared import crash_files
from shared.counts import Counts
from shared.crash_files import HEAD, DiskMoment, is_at_rest, parse_marked_lines_or_none

CHOSEN = 4_000  # files that are opened side by side, or of which the journal is printed
OPENED_TWICE = 2_000  # files of a run, about, whose opening is always crashed again; of later ones fewer are
OTHER_FILES = 60  # files of a second crash, for each of these
TAIL = 60  # bytes of a file that are shown
# Lines that a crash left in a file, which don't count.
LEFT = b"+cancel,A,NEVER,,,,,,\n\n+cancel,A,NEVER,,,,,,\n"


class CrashedFile(NamedTuple):
    """A file that a crash may leave, the moment of the crash, and how many records it may hold."""

    image: bytes
    moment: DiskMoment
    allowed: frozenset[int]


def is_name_safe(events: Iterable[Event]) -> bool:
    """Whether the folder of the file was synced after the file was made, and before the first answer."""
    kinds = [(event.kind, event.target, event.answer >= 0) for event in events]
    made, answered = kinds.index((OPEN, DESK, True)), [event.kind for event in events].index(OUTPUT)
    return (SYNC, FOLDER, True) in kinds[made:answered]


class Crashes:
    """The crashes of one run of a desk on an input."""

    def __init__(self, desk: DeskProgram, about: str, given: DeskInput, seed: str) -> None:
        self.desk, self.about, self.given, self.journal = desk, about, given, given.journal
        self.rng = random.Random(seed)
        self.wrong: list[str] = []
        self.files = self.opened = self.second = self.killed = 0

    def run_and_check_whole_input(self) -> DeskRun:
        """Runs the desk on the whole input."""
        folder = self.desk.make_folder()
        ran = self.desk.run(folder / "day.desk", self.given.batches)
        answers = [line for line in ran.stdout.splitlines(keepends=True) if not line.startswith(b"fault,")]
        entered = [line for line in answers if not line.startswith(b"day,")]
        if ran.status or ran.stderr or answers[:1] + entered != self.journal.answers:
            self.wrong.append(f"{self.about}: the run itself: status {ran.status}, {ran.stderr[:80]!r}")
        if not is_name_safe(ran.events):
            self.wrong.append(f"{self.about}: an answer came before the new file's folder was synced")
        return ran

    def allowed_counts(self, moment: DiskMoment) -> frozenset[int]:
        return frozenset(count for count in self.given.borders if moment.safe <= count <= max(moment.given, moment.safe))

    def draw_crashed_files(self, ran: DeskRun) -> Iterator[CrashedFile]:
        """The files that a crash may leave at each moment of the run."""
        for moment in moments.moments_of_run(ran.events, count_of_records_in=self.given.count_of_records_in):
            allowed = self.allowed_counts(moment)
            for image in crash_files.draw_files_at(moment, self.rng):
                yield CrashedFile(image, moment, allowed)

    def count_of_records_or_none(self, image: bytes) -> int | None:
        """How many records of the journal the file holds; None if it holds others, or isn't a journal."""
        marked = parse_marked_lines_or_none(image)
        if marked is None:
            return None
        count = marked.count(b"\n")
        return count if count <= len(self.journal) and marked == self.journal.marked_text(count) else None

    def note_fault(self, case: CrashedFile, why: str) -> None:
        held = self.count_of_records_or_none(case.image)
        self.wrong.append(f"{self.about}: {why}: {held} records for {sorted(case.allowed)}, the end {case.image[-TAIL:]!r}")

    def check_file(self, case: CrashedFile) -> None:
        """Compares a file with the records that it may hold."""
        self.files += 1
        if self.count_of_records_or_none(case.image) not in case.allowed:
            self.note_fault(case, "a file that a crash leaves")

    def check_opened(self, case: CrashedFile, ran: DeskRun, crash_again: bool = True) -> None:
        """Compares the opening of a file with the reader's, and crashes it."""
        count = self.count_of_records_or_none(case.image)
        self.opened += 1
        if count is None:
            return
        if (ran.status, ran.stderr) != (0, b"") or ran.stdout != self.journal.printed_text(count):
            self.note_fault(case, f"opened with status {ran.status}, {ran.stderr[:80]!r}, {ran.stdout[-TAIL:]!r}")
        elif not is_at_rest(ran.file) or self.count_of_records_or_none(ran.file) != count:
            self.note_fault(case, f"left as {ran.file[-TAIL:]!r} by the opening")
        elif crash_again:
            self.check_second_crash(case, ran, DiskMoment(case.image, (), 0, 0), frozenset([count]))

    def check_second_crash(self, case: CrashedFile, ran: DeskRun, first: DiskMoment, allowed: frozenset[int]) -> None:
        """Looks at the files that another crash leaves while the file is opened. The acknowledged records are also those that the opening
        printed."""
        others = [(other, image) for other in moments.moments_of_run(ran.events, first.base, first.changes, first.safe)
                  for image in crash_files.draw_files_at(other, self.rng, few=True)]
        for other, image in others if len(others) <= OTHER_FILES else self.rng.sample(others, OTHER_FILES):
            self.second += 1
            count = self.count_of_records_or_none(image)
            if count not in allowed or count < other.safe:
                self.note_fault(case, f"a second crash left {image[-TAIL:]!r}, with {count} records and {other.safe} acknowledged")
                return

    def open_and_check_killed(self, ran: DeskRun) -> None:
        """Looks at the run as if the process was killed at each moment, and the system went on: the next opening sees all writes, and a
        crash may still take those that weren't synced."""
        found = [moment for moment in moments.moments_of_run(ran.events, count_of_records_in=self.given.count_of_records_in) if moment.changes]
        opened = self.desk.iterate_runs_on_each([moment.seen_file for moment in found])
        for moment, ran_again in zip(found, opened):
            self.killed += 1
            case = CrashedFile(moment.seen_file, moment, self.allowed_counts(moment))
            self.check_second_crash(case, ran_again, moment, case.allowed)

    def run_and_check_printed_journal(self, cases: Sequence[CrashedFile]) -> None:
        """Compares the journals that are printed for files with the reader's, and the files afterwards."""
        for case, ran in zip(cases, self.desk.iterate_runs_on_each([case.image for case in cases], ["--journal"])):
            count = self.count_of_records_or_none(case.image)
            if count is not None and (ran.status, ran.stdout, ran.stderr, ran.file) != (0, self.journal.text(count), b"", case.image):
                self.note_fault(case, f"--journal with status {ran.status}, {ran.stderr[:80]!r}, {ran.stdout[-TAIL:]!r}")

    def open_and_check_repaired(self) -> None:
        """Opens files with lines after the mark that doesn't count, or after another byte in its place; and opens again all files that a
        crash leaves meanwhile."""
        borders = sorted(self.given.borders)
        cases = []
        for count in [*borders[:2], *borders[-2:]]:
            for gap in (b"-", b"\n", b"?", b"-+", b"\0"):
                image = HEAD + self.journal.marked_text(count) + gap + LEFT
                cases.append(CrashedFile(image, DiskMoment(image, (), 0, count), frozenset([count])))
        left = []
        for case, ran in zip(cases, self.desk.iterate_runs_on_each([case.image for case in cases])):
            self.check_opened(case, ran)
            for moment in moments.moments_of_run(ran.events, case.image):
                left += [CrashedFile(image, moment, case.allowed) for image in crash_files.draw_files_at(moment, self.rng, few=True)]
        for case, ran in zip(left, self.desk.iterate_runs_on_each([case.image for case in left])):
            self.check_file(case)
            self.check_opened(case, ran, crash_again=False)

    def run_and_check_rest(self, cases: Sequence[CrashedFile]) -> None:
        """Opens files with the rest of the input, which has to end as the run did."""
        for case in cases:
            count = self.count_of_records_or_none(case.image)
            if count is None:
                continue
            file = self.desk.make_path()
            file.write_bytes(case.image)
            rest = journals.draw_batches(self.rng, self.journal.records[count:], 9)
            ran = self.desk.run(file, rest)
            if ran.printed != (0, self.journal.all_printed, b""):
                self.note_fault(case, f"the rest of the input: status {ran.status}, {ran.stderr[:80]!r}, {ran.stdout[-TAIL:]!r}")
            elif parse_marked_lines_or_none(file.read_bytes()) != self.journal.all_marked:
                self.note_fault(case, "the rest of the input isn't in the file as given")

    def try_moments(self, sample: int | None = None) -> list[str]:
        """Opens a sample of the files by the program, or all, and looks at each of them. Returns the faults."""
        ran = self.run_and_check_whole_input()
        chosen, next_ones = list[CrashedFile](), list[CrashedFile]()
        for case in self.draw_crashed_files(ran):
            self.check_file(case)
            self.keep_drawn_case(chosen, case, sample or CHOSEN)
            if sample is None:
                next_ones.append(case)
            if len(next_ones) == CHOSEN:
                self.open_and_check_files(next_ones)
                next_ones = []
        self.open_and_check_files(chosen if sample else next_ones)
        self.open_and_check_killed(ran)
        self.run_and_check_printed_journal(chosen[: len(chosen) // 4])
        self.run_and_check_rest(self.rng.sample(chosen, min(len(chosen), 20)))
        return self.wrong

    def keep_drawn_case(self, chosen: list[CrashedFile], case: CrashedFile, most: int) -> None:
        """Keeps a sample of all files so far."""
        if len(chosen) < most:
            chosen.append(case)
            return
        place = self.rng.randrange(self.files)
        if place < most:
            chosen[place] = case

    def open_and_check_files(self, cases: Sequence[CrashedFile]) -> None:
        for case, opened in zip(cases, self.desk.iterate_runs_on_each([case.image for case in cases])):
            self.check_opened(case, opened, crash_again=self.rng.random() < OPENED_TWICE / max(OPENED_TWICE, self.opened))

    def try_moments_and_repairs(self, sample: int | None = None) -> list[str]:
        self.try_moments(sample)
        self.open_and_check_repaired()
        return self.wrong


def draw_inputs(dam: DamProgram, whole: bool) -> Iterator[tuple[str, DeskInput]]:
    """Yields the inputs whose runs are recorded."""
    yield "a random day", journals.draw_input(dam, "random", journals.draw_day, 60)
    yield "the longest names", journals.draw_input(dam, "long", journals.draw_long_names, 60)
    yield "faults between records", journals.draw_input(dam, "faulty", journals.draw_day, 60, faulty=0.3)
    if whole:
        yield "the shortest names", journals.draw_input(dam, "short", journals.draw_short_names, 60)
        for seed in range(2):
            yield f"random day {seed}", journals.draw_input(dam, seed, journals.draw_day, 60)


def check_crashes(counts: Counts, desk: DeskProgram, dam: DamProgram, whole: bool) -> None:
    files = opened = second = killed = 0
    for about, given in draw_inputs(dam, whole):
        crashes = Crashes(desk, about, given, about)
        wrong = crashes.try_moments_and_repairs(None if whole else 2_000)
        counts.count_and_print_runs(crashes.opened, wrong)
        print(f"crashes of {about}: {crashes.files:,} files, {crashes.opened:,} opened, {len(wrong)} wrong", flush=True)
        files, opened, second, killed = files + crashes.files, opened + crashes.opened, second + crashes.second, killed + crashes.killed
    least = 100_000 if whole else 20_000
    counts.check(f"{files:,} files of crashes are at least {least:,}", files >= least)
    print(f"crashes: {files:,} files that a crash may leave, {opened:,} of them opened by the program, {second:,} files of a second crash, "
          f"{killed:,} kills", flush=True)
