"""Each call of a desk refused in turn: of its file, of its standard streams, and for memory.

After each run, the file has to open as after a crash, also if another crash comes first: with every acknowledged record, and whole batches
of the given ones. A failed write or sync is never retried, but a sync that a signal interrupts: the kit's library makes that again. A read
or a write that a signal interrupts has failed."""

import errno
import os
import re
import resource
import signal
import subprocess
from collections.abc import Callable, Iterable, Iterator, Mapping, Sequence
from concurrent.futures import ThreadPoolExecutor
from pathlib import Path
from typing import IO, Any

from desk import crashes, journals, moments
from desk.device import (
    ABOVE_ANY_CALL,
    ADVICE,
    CUT,
    INPUT,
    LOCK,
    LOCKED_LINE,
    OPEN,
    OUTPUT,
    READ,
    SECONDS,
    STAT,
    SYNC,
    WRITE,
    DeskProgram,
    DeskRun,
    Event,
    RefusedFileCalls,
)
from desk.files import HELP
from desk.journals import DamProgram, DeskInput
from shared import crash_files
from shared.counts import Counts
from shared.preload import RefusedCalls, make_environment, read_counts

MODE = "M"
# The errors of each kind of call.
ERRORS = {
    OPEN: "ENOSPC EACCES EROFS EMFILE EIO", LOCK: "EAGAIN EACCES ENOLCK EIO EINTR EOPNOTSUPP", STAT: "EIO EACCES", ADVICE: "EIO ENOSYS",
    MODE: "EIO EROFS", READ: "EIO EINTR", WRITE: "ENOSPC EIO EROFS EDQUOT EINTR", SYNC: "ENOSPC EIO EROFS EDQUOT EINTR",
    CUT: "ENOSPC EIO EROFS", INPUT: "EIO EINTR EAGAIN", OUTPUT: "EIO ENOSPC EPIPE EINTR EAGAIN",
}  # fmt: skip
# The line on standard error after a refused call of this kind. The errors of some others are those of the system.
LINES = {READ: "file: the file can't be read: {}", WRITE: "file: the file can't be written: {}", INPUT: "device: read",
         OUTPUT: r"device: write after \d+ bytes"}  # fmt: skip
SYSTEM = "file: {}"
MEMORY = b"memory\n"
SHORT = [0, 1, 7]  # bytes that a write moves at most
MACHINE = 4  # the status
LONGEST_FILE = 1 << 20  # bytes of a file, more than a desk's
# After it a crash may leave each of its bytes torn, before the file is made whole again.
GARBAGE = b"\n+cancel,A,NEVER,,,,,,\n\nx\n"


def is_length_named(ran: DeskRun) -> bool:
    """Whether the fault of the output, if the run ended with it, says how many bytes the whole output has."""
    found = re.fullmatch(rb"device: write after (\d+) bytes\n", ran.stderr)
    return not found or int(found[1]) == len(ran.stdout)


def is_fault_line(kind: str, error: int, stderr: bytes) -> bool:
    """Whether this is the line of the fault."""
    if kind == LOCK and error in (errno.EAGAIN, errno.EACCES):
        return stderr == LOCKED_LINE
    own = rf"{re.escape(os.strerror(error))} \(os error {error}\)"
    ways = [LINES[kind]] if kind in LINES else [SYSTEM]
    ways += ["file: the file can't be synced: {}"] if kind == SYNC else [LINES[READ]] if kind == STAT else []
    return any(re.fullmatch(way.format(own) + "\n", stderr.decode()) for way in ways)


def is_made_again(kind: str, error: int) -> bool:
    """Whether the kit's library makes the call again that failed so."""
    return (kind, error) == (SYNC, errno.EINTR)


def are_retried(events: Iterable[Event]) -> bool:
    """Whether a write or a sync of the file follows a failed one."""
    changes = [event for event in events if event.is_change]
    failed = [at for at, event in enumerate(changes) if event.answer < 0 and not is_made_again(event.kind, -event.answer)]
    return bool(failed) and failed[0] + 1 < len(changes)


class RunsWithRefusals(crashes.Crashes):
    """Runs of a desk on an input with calls refused: with a new file, or with one that a crash left."""

    def __init__(self, desk: DeskProgram, about: str, given: DeskInput, start: bytes | None = None) -> None:
        super().__init__(desk, about, given, about)
        self.start, self.runs = start, 0
        self.held = 0 if start is None else self.count_of_records_or_none(start) or 0

    def make_held_file(self) -> Path:
        file = self.desk.make_path()
        if self.start is not None:
            file.write_bytes(self.start)
        return file

    def is_front(self, text: bytes, is_whole: bool) -> bool:
        """Whether this was printed for whole batches, or for a beginning of them."""
        fronts = [self.journal.printed_text(count) for count in {0, self.held} | self.given.borders]
        return text in fronts if is_whole else self.journal.all_printed.startswith(text)

    def count_of_records_in(self, lines: int) -> int:
        return max(self.held, self.given.count_of_records_in(lines))

    def check_after(self, about: str, ran: DeskRun, file: Path) -> None:
        """Looks at the files that a crash may leave, and opens the file again."""
        if are_retried(ran.events):
            self.wrong.append(f"{about}: a failed write or sync was followed by another one")
        for moment in moments.moments_of_run(ran.events, self.start or b"", safe=self.held, count_of_records_in=self.count_of_records_in):
            allowed = [count for count in {self.held} | self.given.borders if moment.safe <= count <= max(moment.given, moment.safe)]
            for image in crash_files.draw_files_at(moment, self.rng, few=True):
                self.files += 1
                if self.count_of_records_or_none(image) not in allowed:
                    self.wrong.append(f"{about}: a crash leaves {self.count_of_records_or_none(image)} records for {allowed}")
                    return
        again = self.desk.run(file)
        if not file.exists() or (again.status, again.stderr) != (0, b""):
            self.wrong.append(f"{about}: opened again with status {again.status}, {again.stderr[:80]!r}")
            return
        count = self.count_of_records_or_none(file.read_bytes())
        safe = crash_files.count_acknowledged(ran.stdout, self.held)
        if count is None or count < safe or again.stdout != self.journal.printed_text(count):
            self.wrong.append(f"{about}: opened again with {count} records, and {safe} were acknowledged")

    def run_and_check_refused(self, refusal: RefusedFileCalls, check: Callable[[RefusedFileCalls, DeskRun], bool] | None = None) -> None:
        """Runs the desk with a call refused."""
        file = self.make_held_file()
        ran = self.desk.run(file, self.given.batches, refusal)
        name = errno.errorcode.get(refusal.error) or f"{refusal.most} bytes"
        about = f"{self.about}: call {refusal.first} of {refusal.kind} with {name}"
        if not (check or self.is_fault)(refusal, ran):
            self.wrong.append(f"{about}: status {ran.status}, {ran.stderr[:80]!r}, {ran.stdout[-60:]!r}")
        self.check_after(about, ran, file)
        self.runs += 1

    def is_fault(self, refusal: RefusedFileCalls, ran: DeskRun) -> bool:
        """Whether the run ended with the fault of the refused call, or as if there was none, if the call is made again."""
        if is_made_again(refusal.kind, refusal.error):
            return self.is_whole(refusal, ran)
        is_line = is_fault_line(refusal.kind, refusal.error, ran.stderr) and is_length_named(ran)
        return ran.status == MACHINE and is_line and self.is_front(ran.stdout, True)

    def is_whole(self, _: object, ran: DeskRun) -> bool:
        return (ran.status, ran.stderr, ran.stdout) == (0, b"", self.journal.all_printed)

    def is_short(self, refusal: RefusedFileCalls, ran: DeskRun) -> bool:
        """Whether the run wasn't disturbed by a short write. A write of nothing is a fault."""
        if refusal.most:
            return self.is_whole(refusal, ran)
        of_output = b"device: write after %d bytes\n" % len(ran.stdout)
        line = b"file: the file can't be written: write zero\n" if refusal.kind == WRITE else of_output
        return ran.status == MACHINE and ran.stderr == line and self.is_front(ran.stdout, True)

    def refusals_with_checks(
        self, made: Mapping[str, int]
    ) -> Iterator[tuple[RefusedFileCalls, Callable[[RefusedFileCalls, DeskRun], bool] | None]]:
        for kind, errors in ERRORS.items():
            for name in errors.split():
                for number in range(1, made.get(kind, 0) + 1):
                    yield RefusedFileCalls(kind, number, number, getattr(errno, name)), None
        for kind in (WRITE, OUTPUT):
            for most in SHORT:
                for number in range(1, made.get(kind, 0) + 1):
                    yield RefusedFileCalls(kind, number, number, 0, most), self.is_short
            for most in SHORT[1:]:
                yield RefusedFileCalls(kind, 1, ABOVE_ANY_CALL, 0, most), self.is_short

    def try_refusals(self) -> list[str]:
        """Refuses each call in turn, and returns the faults."""
        ran = self.desk.run(self.make_held_file(), self.given.batches)
        made: dict[str, int] = {}
        for event in ran.events:
            made[event.kind] = made.get(event.kind, 0) + 1
        if not self.is_whole(None, ran) or not {OPEN, WRITE, SYNC, LOCK, INPUT, OUTPUT} <= set(made):
            self.wrong.append(f"{self.about}: no call refused: status {ran.status}, {ran.stderr[:80]!r}, calls {made}")
            return self.wrong
        with ThreadPoolExecutor(self.desk.jobs) as pool:
            list(pool.map(lambda row: self.run_and_check_refused(*row), self.refusals_with_checks(made)))
        return self.wrong


def run_with_refused_calls(
    desk: DeskProgram, file: Path, batches: Iterable[bytes], refusal: RefusedCalls, words: Sequence[str] = ()
) -> tuple[DeskRun, int]:
    """Runs the desk with calls refused by the library of refuse.c, and returns the run and the number of such calls."""
    counts = file.with_suffix(".calls")
    refusing = desk.with_surroundings(make_environment(f"{desk.library}:{desk.room}/refuse.so", refusal, counts))
    return refusing.run(file, batches, words=words), read_counts(counts)[0]


class RunsWithoutMemory(RunsWithRefusals):
    """The same with calls for memory refused."""

    def run_check_and_count_growths(self, numbers: tuple[int, int]) -> int:
        first, last = numbers
        file = self.make_held_file()
        ran, made = run_with_refused_calls(self.desk, file, self.given.batches, RefusedCalls("memory", first, last))
        about = f"{self.about}: growth {first}" + (" and all later ones" if last != first else "")
        if not (self.is_whole(None, ran) or (ran.status, ran.stderr) == (MACHINE, MEMORY) and self.is_front(ran.stdout, True)):
            self.wrong.append(f"{about}: status {ran.status}, {ran.stderr[:60]!r}, {ran.stdout[-60:]!r}")
        self.check_after(about, ran, file)
        self.runs += 1
        return made

    def try_refusals(self) -> list[str]:
        made = self.run_check_and_count_growths((ABOVE_ANY_CALL, ABOVE_ANY_CALL))
        if made < 10:
            self.wrong.append(f"{self.about}: {made} growths are counted")
        rows = [(first, last) for first in range(1, made + 1) for last in (first, ABOVE_ANY_CALL)]
        with ThreadPoolExecutor(self.desk.jobs) as pool:
            list(pool.map(self.run_check_and_count_growths, rows))
        return self.wrong


def limit_files(bytes_: int) -> None:
    """Files of this process may not grow beyond this length."""
    signal.signal(signal.SIGXFSZ, signal.SIG_IGN)
    resource.setrlimit(resource.RLIMIT_FSIZE, (bytes_, bytes_))


def run_with_file_limit(
    desk: DeskProgram, given: DeskInput, bytes_: int, stdout: IO[bytes] | int = subprocess.PIPE
) -> tuple[subprocess.CompletedProcess[bytes], Path]:
    """A run whose files may not grow beyond this length, and the desk's file."""
    file = desk.make_path()
    ran = subprocess.run([*desk.words, str(file)], input=b"".join(given.batches), stdout=stdout, stderr=subprocess.PIPE,
                         preexec_fn=lambda: limit_files(bytes_), timeout=SECONDS)
    return ran, file


def run_with_full_output(desk: DeskProgram, given: DeskInput, bytes_: int) -> tuple[subprocess.CompletedProcess[bytes], bytes, Path]:
    """A run whose answers go to a file that has room for this number of bytes, the answers there, and the desk's file."""
    with open(desk.make_folder() / "answers", "w+b") as answers:
        answers.seek(LONGEST_FILE - bytes_)
        ran, file = run_with_file_limit(desk, given, LONGEST_FILE, answers)
        answers.seek(LONGEST_FILE - bytes_)
        return ran, answers.read(), file


def check_real_refusals(counts: Counts, desk: DeskProgram, dam: DamProgram, given: DeskInput) -> None:
    """Refusals by the system itself: a file that may not grow, and a device that is full."""
    for bytes_ in (0, 1, 5, 13, 20, 200):
        ran, file = run_with_file_limit(desk, given, bytes_)
        line = f"file: the file can't be written: {os.strerror(errno.EFBIG)} (os error {errno.EFBIG})\n"
        counts.check(f"a file of at most {bytes_} bytes: {ran}", (ran.returncode, ran.stdout, ran.stderr.decode()) == (MACHINE, b"", line))
        again = desk.run(file, given.batches)
        is_whole = again.stdout.endswith(given.journal.all_printed)
        counts.check(f"a file of at most {bytes_} bytes, opened again", is_whole)
    whole = given.journal.all_printed
    many = journals.draw_input(dam, "refused many", journals.draw_day, 9_000)
    for answered, bytes_ in [*[(given, it) for it in (0, 1, 7, len(whole) - 1)], *[(many, it) for it in (65_536, 65_537, 90_000)]]:
        printed = answered.journal.all_printed
        ran, answers, file = run_with_full_output(desk, answered, bytes_)
        line = f"device: write after {bytes_} bytes\n"
        counts.check(f"answers cut off after {bytes_} bytes: {ran.returncode}, {ran.stderr!r}, {answers[-80:]!r}",
                     (ran.returncode, answers, ran.stderr.decode()) == (MACHINE, printed[:bytes_], line))
        again = desk.run(file)
        is_right = printed.startswith(again.stdout) and len(again.stdout) > bytes_ and (answered is many or again.stdout == printed)
        counts.check(f"answers cut off after {bytes_} bytes, opened again", is_right)
    file = desk.make_path()
    with open("/dev/full", "wb") as full:
        refused = desk.run(file, given.batches, stdout=full)
    is_right = (refused.status, refused.stderr) == (MACHINE, b"device: write after 0 bytes\n")
    counts.check(f"a full device: {refused.stderr!r}", is_right)
    again = desk.run(file)
    count = again.stdout.count(b"\n")
    counts.check("a full device: the first batch is in the file", count in given.borders and count > 0)


def make_desk_file_of(desk: DeskProgram, given: DeskInput) -> Path:
    """The file of a desk that has entered the input."""
    file = desk.make_path()
    desk.run(file, given.batches)
    return file


def check_texts_cut_off(counts: Counts, desk: DeskProgram, given: DeskInput) -> None:
    """The journal and the help, printed to a full device, to a pipe that nobody reads, and to a file that has room for fewer bytes."""
    file = make_desk_file_of(desk, given)
    for words, text in [(["--journal", str(file)], given.journal.text(len(given.journal))), (["--help"], HELP)]:
        def check_run(about: str, bytes_: int, stdout: IO[bytes] | int, **how: Any) -> None:
            how = {"stdin": subprocess.DEVNULL, "stdout": stdout, "stderr": subprocess.PIPE, "timeout": SECONDS, **how}
            ran = subprocess.run([*desk.words, *words], **how)
            line = b"device: write after %d bytes\n" % bytes_
            counts.check(f"{words[0]} {about}: {ran}", (ran.returncode, ran.stderr) == (MACHINE, line))

        with open("/dev/full", "wb") as full:
            check_run("to a full device", 0, full)
        ours, theirs = os.pipe()
        os.close(ours)
        check_run("to a pipe that nobody reads", 0, theirs, restore_signals=False)
        os.close(theirs)
        for bytes_ in (0, 1, 7, len(text) - 1):
            with open(desk.make_folder() / "printed", "w+b") as printed:
                check_run(f"cut off after {bytes_} bytes", bytes_, printed, preexec_fn=lambda: limit_files(bytes_))
                printed.seek(0)
                counts.check(f"{words[0]} cut off after {bytes_} bytes: the bytes before", printed.read() == text[:bytes_])


def check_refused_journal(counts: Counts, desk: DeskProgram, given: DeskInput) -> None:
    """Each call of `--journal` refused in turn: of the file, of the output, and for memory. The file stays as it is. The kit's library
    makes a read again that a signal interrupts."""
    file, text, words = make_desk_file_of(desk, given), given.journal.text(len(given.journal)), ["--journal"]
    before = file.read_bytes()
    ran, made = run_with_refused_calls(desk, file, (), RefusedCalls("memory"), words)
    kinds = {event.kind for event in ran.events}
    counts.check(f"--journal with no call refused: {ran.stderr!r}, {kinds}, {made}",
                 ran.printed == (0, text, b"") and {OPEN, READ, OUTPUT} <= kinds and made > 1)
    rows = [RefusedFileCalls(kind, number, number, getattr(errno, name)) for kind in kinds for name in ERRORS[kind].split()
            for number in range(1, 1 + sum(event.kind == kind for event in ran.events))]  # fmt: skip

    def check_row(row: RefusedFileCalls) -> None:
        ran = desk.run(file, refusal=row, words=words)
        own = b"device: write after %d bytes\n" % len(ran.stdout)
        line = own if row.kind == OUTPUT else f"file: {os.strerror(row.error)} (os error {row.error})\n".encode()
        is_read_again = (row.kind, row.error) == (READ, errno.EINTR)
        right = (0, text, b"") if is_read_again else (MACHINE, text[: len(ran.stdout)] if row.kind == OUTPUT else b"", line)
        counts.check(f"--journal: {row}: {ran}", ran.printed == right)

    with ThreadPoolExecutor(desk.jobs) as pool:
        list(pool.map(check_row, rows))
    for number in range(1, made + 1):
        for last in (number, ABOVE_ANY_CALL):
            ran, _ = run_with_refused_calls(desk, file, (), RefusedCalls("memory", number, last), words)
            is_right = (ran.status, ran.stderr, ran.stdout) in [(MACHINE, MEMORY, b""), (0, b"", text)]
            counts.check(f"--journal: growth {number} to {last} refused: {ran}", is_right)
    counts.check("--journal: the file is as it was", file.read_bytes() == before)


def check_random_bytes(counts: Counts, desk: DeskProgram, given: DeskInput) -> None:
    """Draws of random bytes refused: all, that of the library that opens a file, and that of the seed, which then is the fixed one."""
    whole = given.journal.all_printed
    for error in (errno.ENOSYS, errno.EPERM, errno.EOPNOTSUPP):
        own = f"{os.strerror(error)} (os error {error})\n".encode()
        for first, last, status, printed, line in [
            (1, ABOVE_ANY_CALL, MACHINE, b"", b"file: it can't be opened without random bytes: " + own),
            (2, 2, MACHINE, b"", b"file: " + own),
            (3, 3, 0, whole, b""),
        ]:
            file = desk.make_path()
            ran, made = run_with_refused_calls(desk, file, given.batches, RefusedCalls("random", first, last, error))
            about = f"random bytes refused from draw {first} to {last} of {made} with {errno.errorcode[error]}"
            counts.check(f"{about}: {ran}", made >= first and ran.printed == (status, printed, line))
            counts.check(f"{about}: the file is there: {file.exists()}", file.exists() == (first > 1))


def draw_inputs(dam: DamProgram, whole: bool) -> Iterator[tuple[str, DeskInput, bytes | None]]:
    """Yields each input, with the file that it begins with, or None."""
    given = journals.draw_input(dam, "refused", journals.draw_day, 9, most=4)
    yield "a new file", given, None
    held = sorted(given.borders)[1]
    rest = journals.DeskInput(given.journal, given.batches, [True] * len(given.journal))
    broken = crash_files.HEAD + given.journal.marked_text(held) + GARBAGE
    yield "a file after a crash", input_after(rest, held), broken
    if whole:
        yield "the longest names", journals.draw_input(dam, "refused long", journals.draw_long_names, 12, most=5), None


def input_after(given: DeskInput, held: int) -> DeskInput:
    """The input after the first records."""
    journal, lines = given.journal, given.journal.records[held:]
    half = len(lines) // 2
    found = journals.DeskInput(journal, [b"".join(lines[:half]), b"".join(lines[half:])], [True] * len(lines))
    found.given = [held + count for count in found.given]
    found.borders = {held, held + half, len(journal)}
    return found


def check_refused_calls(counts: Counts, desk: DeskProgram, dam: DamProgram, whole: bool) -> None:
    runs = files = 0
    for about, given, start in draw_inputs(dam, whole):
        for kind in (RunsWithRefusals, RunsWithoutMemory):
            row = kind(desk, about, given, start)
            wrong = row.try_refusals()
            counts.count_and_print_runs(row.runs, wrong)
            runs, files = runs + row.runs, files + row.files
    given = next(iter(draw_inputs(dam, False)))[1]
    check_real_refusals(counts, desk, dam, given)
    check_texts_cut_off(counts, desk, given)
    check_refused_journal(counts, desk, given)
    check_random_bytes(counts, desk, given)
    print(f"refusals: {runs:,} runs with a call refused, {files:,} files that a crash may leave after them", flush=True)
