"""The time and the memory of the desk with 10,000 records compared with `dam replay`, which keeps nothing, and the rate at which it keeps
them compared with python3's sqlite3 on the same disk, which keeps each as a row, in one transaction a batch (WAL, `synchronous=FULL`).

In memory, the desk and `dam replay` get one journal, each in a run of its own. On disk, the desk is a process that gets batch by batch
through a pipe; its time is from the first batch to the last answer. Batches of a packet of a pipe are given without waiting for the
answers before, and larger ones once those are there. The database's time is from the first transaction to the last, in one process. The
syncs of a batch are counted by tests/desk."""

import contextlib
import fcntl
import os
import select
import sqlite3
import subprocess
import tempfile
import time
from collections.abc import Callable, Sequence
from concurrent.futures import ThreadPoolExecutor
from pathlib import Path
from typing import IO, cast

from figures import MIB, PER_SECOND, Figures, Label, at_least, at_most
from part import Part
from running import OUT, BenchFault, Programs, TimedRun, call_in_turns, make_journal, measure_peak_mebibytes, run_program

MEMORY = "/dev/shm"
PIPE_BYTES = 1 << 20  # that a pipe to a desk holds
DISK_TURNS = 5
BATCHES = (1, 64, 1_000)  # records
TARGETS = {"replay": at_least(0.5), "open": at_most(2), "keep/1": at_least(0.8), "keep": at_least(2)}  # times as much
TARGETS["memory"] = at_most(10)  # MiB
TABLE = "CREATE TABLE journal (number INTEGER PRIMARY KEY, record TEXT NOT NULL)"


class Desk:
    """A desk with its file in a folder, and the journal that it keeps there."""

    def __init__(self, programs: Programs, folder: str, journal: str) -> None:
        self.dam, self.folder, self.journal = programs.dam, Path(folder), journal
        self.words = [programs.desk, f"{folder}/day.desk"]

    def remove_files(self) -> None:
        for path in self.folder.iterdir():
            path.unlink()

    def run(self, given: str = os.devnull) -> TimedRun:
        return run_program(self.words, given)

    def remove_files_and_run(self) -> TimedRun:
        """Keeps the journal in a new file."""
        self.remove_files()
        return self.run(self.journal)

    def run_in_turns_with_replay(self, run: Callable[[], TimedRun]) -> tuple[list[TimedRun], list[TimedRun]]:
        """These runs of the desk, and those of `dam replay` on the journal."""
        replay = lambda _: run_program([self.dam, "replay"], self.journal)
        runs = call_in_turns({"desk": lambda _: run(), "replay": replay}, seconds=30)
        return runs["desk"], runs["replay"]

    def measure_seconds(self, batches: list[bytes]) -> float:
        """The seconds of a desk that gets these batches."""
        self.remove_files()
        in_packets = max(map(len, batches)) <= select.PIPE_BUF
        ours, theirs = os.pipe2(os.O_CLOEXEC | (os.O_DIRECT if in_packets else 0))
        fcntl.fcntl(theirs, fcntl.F_SETPIPE_SZ, PIPE_BYTES)
        with subprocess.Popen(self.words, stdin=ours, stdout=subprocess.PIPE) as desk, ThreadPoolExecutor(1) as reader:
            os.close(ours)
            answers = cast(IO[bytes], desk.stdout)

            def enter(given: Sequence[bytes]) -> bytes:
                reading = reader.submit(read_answers, answers, given)
                for batch in given:
                    os.write(theirs, batch)
                return reading.result()

            enter([b"\r\n"])  # a line that enters nothing: once it is answered, the file is open
            begun = time.perf_counter()
            found = b"".join(map(enter, [batches] if in_packets else [[batch] for batch in batches]))
            taken = time.perf_counter() - begun
            os.close(theirs)
        if desk.returncode or b"fault" in found:
            raise BenchFault("the desk found faults")
        return taken


def read_answers(desk: IO[bytes], batches: Sequence[bytes]) -> bytes:
    """The next answers of a desk, one for each line of these batches."""
    answers, left = b"", sum(batch.count(b"\n") for batch in batches)
    while left > 0:
        if not (more := os.read(desk.fileno(), 1 << 16)):
            raise BenchFault(f"the desk ended, and {left} lines weren't answered")
        answers += more
        left -= more.count(b"\n")
    return answers


def measure_sqlite_seconds(path: str, batches: list[list[str]]) -> float:
    """The seconds in which sqlite3 keeps these batches of records in a new file."""
    with contextlib.closing(sqlite3.connect(path, isolation_level=None)) as database:
        for words in ("PRAGMA journal_mode=WAL", "PRAGMA synchronous=FULL", TABLE):
            database.execute(words)
        begun = time.perf_counter()
        for batch in batches:
            database.execute("BEGIN")
            database.executemany("INSERT INTO journal (record) VALUES (?)", [(record,) for record in batch])
            database.execute("COMMIT")
        return time.perf_counter() - begun


def measure_writing(figures: Figures, desk: Desk) -> None:
    runs, replays = desk.run_in_turns_with_replay(desk.remove_files_and_run)
    if runs[0].text != replays[0].text:
        raise BenchFault("the desk and dam replay print different texts")
    figures.add_times("replay", "dam replay compared with a desk in memory", replays, runs)


def measure_opening(figures: Figures, desk: Desk, key: str, medium: str) -> None:
    desk.remove_files_and_run()
    figures.add_times(f"open/{key}", f"opening {medium} compared with dam replay", *desk.run_in_turns_with_replay(desk.run))


def measure_rates(figures: Figures, desk: Desk) -> None:
    records = Path(desk.journal).read_bytes().splitlines(keepends=True)
    for size in BATCHES:
        batches = [records[at : at + size] for at in range(0, len(records), size)]
        texts, rows = [b"".join(batch) for batch in batches], [[record.decode().rstrip() for record in batch] for batch in batches]

        def run_sqlite(_: int) -> float:
            desk.remove_files()
            return len(records) / measure_sqlite_seconds(f"{desk.folder}/rows", rows)

        rates = call_in_turns({"desk": lambda _: len(records) / desk.measure_seconds(texts), "sqlite": run_sqlite}, DISK_TURNS, seconds=60)
        label = Label(f"keep/{size}", "rate of records that a desk keeps compared with sqlite3", f"batches of {size:,}")
        figures.add_ratio(label, rates["desk"], rates["sqlite"], PER_SECOND)


def measure_memory(figures: Figures, desk: Desk) -> None:
    blocks = make_journal("make_journal.py", "blocks")
    for key, variant, journal in [("records", "10,000 records", desk.journal), ("blocks", "10,000 blocks of 100 volumes", blocks)]:
        replay = measure_peak_mebibytes([desk.dam, "replay"], journal)
        desk.remove_files()
        for run, name, given in [("desk", "a desk", journal), ("opening", "an opening", os.devnull)]:
            more = measure_peak_mebibytes(desk.words, given) - replay
            label = Label(f"memory/{run}/{key}", f"memory of {name} above dam replay's", variant)
            figures.add_median(label, [more], MIB, f"dam replay has {MIB(replay)}")


def measure(figures: Figures, programs: Programs) -> None:
    journal = make_journal("make_journal.py")
    with tempfile.TemporaryDirectory(dir=MEMORY if os.path.isdir(MEMORY) else OUT, prefix="desk-") as folder:
        desk = Desk(programs, folder, journal)
        measure_writing(figures, desk)
        measure_opening(figures, desk, "memory", "in memory")
        measure_memory(figures, desk)
    with tempfile.TemporaryDirectory(dir=OUT, prefix="desk-") as folder:
        desk = Desk(programs, folder, journal)
        measure_opening(figures, desk, "disk", "on disk")
        measure_rates(figures, desk)


PART = Part("desk", __doc__, "two minutes", ["dam", "desk"], targets=TARGETS, measure=measure, packages=["libsqlite3-0"])
