"""SIGKILL at random moments of a load. Each acknowledged record has to be in the file, in order, before at most the given ones.

A planted desk, early.py, answers before its desk does. The same test has to find it."""

from __future__ import annotations

import os
import random
import signal
import sys
import threading
import time
from collections.abc import Iterator
from pathlib import Path
from typing import IO

from desk import journals
from desk.device import DeskProgram
from desk.journals import DamProgram, Journal
from shared import crash_files
from shared.place import TOP
from shared.processes import pipes_of
from shared.counts import Counts
from shared.crash_files import parse_marked_lines_or_none

EARLY = TOP / "tests/desk/early.py"
RECORDS, ENOUGH = 9_990, 0.9  # of a journal, and the share of them after which a new file is begun
MOST_SECONDS = 0.05  # seconds until the kill
PAUSES = [0, 0, 0, 0.0001, 0.001]  # seconds between batches
SLOW = ["0", "0", "300", "2000"]  # microseconds that a sync takes longer
ROUNDS, MANY, PLANTED = 10, 200, 10


def draw_load(rng: random.Random, count: int) -> Iterator[bytes]:
    """A day of hourly orders that are entered and cancelled."""
    yield b"day,24,,,,,,,\n"
    for at in range(count):
        who = b"ABCDEFGH"[at % 8 : at % 8 + 1]
        if at % 3 < 2:
            yield b"submit,%b,ORDER-%d,hour,%b,%d,%d:%d,,\n" % (who, at, rng.choice([b"buy", b"sell"]), at, at % 24 + 1, at % 500 + 1)
        else:
            yield b"cancel,%b,ORDER-%d,,,,,,\n" % (who, rng.randrange(at))


class Kills:
    """Rounds of one desk on one journal. A file is used by many rounds."""

    def __init__(self, desk: DeskProgram, journal: Journal, seed: str, killed: DeskProgram | None = None) -> None:
        """Kills the desk, or another program that starts it."""
        self.desk, self.killed, self.journal = desk, killed or desk, journal
        self.rng = random.Random(seed)
        self.file: Path | None = None
        self.acknowledged = self.unanswered = self.files = 0
        self.wrong: list[str] = []

    def read_count_of_held_or_none(self, file: Path) -> int | None:
        """How many records a file has; None if they aren't the first ones of the journal."""
        marked = parse_marked_lines_or_none(file.read_bytes()) if file.exists() else b""
        count = None if marked is None else marked.count(b"\n")
        return count if count is not None and marked == self.journal.marked_text(count) else None

    def write_records(self, stdin: IO[bytes], count: int) -> None:
        """Gives a desk the records from there on, as fast as it takes them, in batches of any length."""
        rng = random.Random(self.rng.random())
        try:
            while count < len(self.journal):
                more = rng.choice([1, 1, 1, 2, 5, 20, 60])
                os.write(stdin.fileno(), b"".join(self.journal.records[count : count + more]))
                count += more
                time.sleep(rng.choice(PAUSES))
        except BrokenPipeError:
            pass

    def run_kill_and_return_output(self, file: Path, held: int, is_at_once: bool) -> bytes:
        """The output of a run that is killed: at once with its start, or once it has answered something."""
        surroundings = {**os.environ, **self.desk.environment_for(file, DESK_SLOW=self.rng.choice(SLOW))}
        process = self.killed.start(file, env=surroundings, start_new_session=True)
        stdin, stdout = pipes_of(process)
        giver = threading.Thread(target=self.write_records, args=(stdin, held))
        giver.start()
        text = b"" if is_at_once else os.read(stdout.fileno(), 1 << 16)
        killer = threading.Timer(self.rng.uniform(0, MOST_SECONDS), os.killpg, (process.pid, signal.SIGKILL))
        killer.start()
        text += stdout.read()
        killer.join()
        process.wait()
        giver.join()
        stdin.close()
        stdout.close()
        return text

    def run_kill_and_check(self, may_be_at_once: bool = True) -> None:
        if self.file is None:
            self.file, self.files = self.desk.make_path(), self.files + 1
        before = self.read_count_of_held_or_none(self.file) or 0
        text = self.run_kill_and_return_output(self.file, before, may_be_at_once and self.rng.random() < 0.3)
        count, safe = self.read_count_of_held_or_none(self.file), crash_files.count_acknowledged(text[: text.rfind(b"\n") + 1], 0)
        whole = self.journal.all_printed
        if count is None or count < max(before, safe) or not whole.startswith(text):
            self.wrong.append(f"{before} records, {safe} acknowledged, now {count}; the output ends with {text[-60:]!r}")
            self.file = None
            return
        self.acknowledged, self.unanswered = self.acknowledged + max(0, safe - before), self.unanswered + count - max(before, safe)
        ran = self.desk.capture_journal(self.file)
        if ran != (0, self.journal.text(count), b""):
            self.wrong.append(f"--journal after a kill with {count} records: status {ran.status}, {ran.stderr[:80]!r}")
        if count > ENOUGH * len(self.journal):
            self.file = None

    def open_and_check_last_file(self) -> None:
        """The last file is opened and given the rest."""
        if self.file is None:
            return
        count = self.read_count_of_held_or_none(self.file) or 0
        rest = b"".join(self.journal.records[count:])
        ran = self.desk.capture_output([self.file], rest)
        if ran != (0, self.journal.all_printed, b""):
            self.wrong.append(f"opened after the last kill, and given the rest: status {ran.status}, {ran.stderr[:80]!r}")


def capture_journal_of_dam(dam: DamProgram) -> Journal:
    return journals.Journal(list(draw_load(random.Random("load"), RECORDS)), dam)


def make_planted_desk(desk: DeskProgram, journal: Journal) -> DeskProgram:
    """A desk that answers early, with a file of its answers."""
    replies = desk.room / "replies"
    replies.write_bytes(journal.all_printed)
    return DeskProgram([sys.executable, "-B", EARLY, replies, *desk.words], desk.room)


def check_kills(counts: Counts, desk: DeskProgram, dam: DamProgram, whole: bool) -> None:
    given = capture_journal_of_dam(dam)
    begun, rounds = time.monotonic(), MANY if whole else ROUNDS
    kills = Kills(desk, given, "kills")
    for _ in range(rounds):
        kills.run_kill_and_check()
    kills.open_and_check_last_file()
    counts.count_and_print_runs(rounds + 1, kills.wrong)
    counts.check(f"{kills.acknowledged} records were acknowledged before kills", kills.acknowledged > 10 * rounds)
    counts.check(f"{kills.unanswered} records were kept without an answer", not whole or kills.unanswered > 0)
    early = Kills(desk, given, "planted", make_planted_desk(desk, given))
    for _ in range(PLANTED):
        early.run_kill_and_check(may_be_at_once=False)
    counts.check(f"answers before the desk's are found by {PLANTED} kills", bool(early.wrong))
    print(f"kills: {rounds} of {kills.files} files, {kills.acknowledged:,} records acknowledged, {kills.unanswered:,} others kept; "
          f"{len(early.wrong)} of {PLANTED} find the planted early answers; {time.monotonic() - begun:.1f} s", flush=True)
