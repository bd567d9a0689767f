"""Journals of a day as a desk gets them: lines, some of which are records, and the answers of `dam replay`."""

import itertools
import random
import subprocess
from collections.abc import Callable, Iterable, Iterator, Sequence
from pathlib import Path

from shared import days
from shared.printed import Printed
from lib.base import rules

WIDE = b";".join(b"%d:%d" % (period, rules.GREATEST_VOLUME) for period in range(1, rules.GREATEST_PERIOD + 1))
WHO, NAMES = b"ABCDEFGH", [b"NAME-NUMBER%d" % at for at in range(1, 10)]
# Lines that a desk answers with a fault, and which enter nothing.
FAULTY = [b"\n", b"cancel,A\n", b"amend,A,B1,,,1,1:0,,\n", b"cancel,A,\xe9,,,,,,\n", b'"cancel,A,B1,,,,,,\n', b"day,25,,,,,,,x\n",
          b"\r\r\n"]  # fmt: skip


class DamProgram:
    """The program `dam`, which replays a journal."""

    def __init__(self, path: str | Path) -> None:
        self.path = str(path)

    def capture_replay(self, text: bytes) -> Printed:
        """The status, the output and the standard error of `dam replay`."""
        ran = subprocess.run([self.path, "replay"], input=text, stdout=subprocess.PIPE, stderr=subprocess.PIPE)
        return Printed(ran.returncode, ran.stdout, ran.stderr)


class Journal:
    """The records of a day in their written form, and what `dam replay` prints for them."""

    def __init__(self, records: Sequence[bytes], dam: DamProgram) -> None:
        self.records = records
        printed = dam.capture_replay(b"".join(records)) if records else Printed(0, b"", b"")
        if printed.status or printed.stdout.count(b"\n") != len(records):
            raise ValueError(f"no journal: {printed.stderr!r}: {records[:3]}")
        self.answers = printed.stdout.splitlines(keepends=True)
        self.lengths = [0, *itertools.accumulate(1 + len(record) for record in records)]
        self.all_marked = b"".join(b"+" + record for record in records)

    @property
    def all_printed(self) -> bytes:
        """The answers to all records."""
        return b"".join(self.answers)

    def __len__(self) -> int:
        return len(self.records)

    def marked_text(self, count: int) -> bytes:
        """The first records, as a file has them."""
        return self.all_marked[: self.lengths[count]]

    def text(self, count: int) -> bytes:
        return b"".join(self.records[:count])

    def printed_text(self, count: int) -> bytes:
        """The answers to the first records."""
        return b"".join(self.answers[:count])


class DeskInput:
    """Lines for a desk, in batches: records of a journal, and others that enter nothing."""

    def __init__(self, journal: Journal, batches: Sequence[bytes], is_record: Sequence[bool]) -> None:
        self.journal, self.batches = journal, batches
        self.given = [0, *itertools.accumulate(is_record)]
        ends = itertools.accumulate(batch.count(b"\n") for batch in batches)
        self.borders = {0, *(self.count_of_records_in(end) for end in ends)}

    def count_of_records_in(self, lines: int) -> int:
        """How many records these first lines are."""
        return self.given[min(lines, len(self.given) - 1)]


def draw_short_names(rng: random.Random, count: int) -> Iterator[bytes]:
    """Records of the shortest names and the least volumes."""
    yield b"day,%d,,,,,,,\n" % rng.choice(list(rules.DAYS))
    for at in range(count):
        yield b"submit,A,%d,hour,%b,%d,1:1,,\n" % (at % 7, rng.choice([b"buy", b"sell"]), rng.randrange(10))


def draw_long_names(rng: random.Random, count: int) -> Iterator[bytes]:
    """Records of the longest names, some with a volume in each of 100 periods."""
    yield b"day,%d,,,,,,,\n" % rules.GREATEST_PERIOD
    for at in range(count):
        volumes = WIDE if at // 3 % 3 == 1 else b"%d:%d" % (rules.GREATEST_PERIOD, rules.GREATEST_VOLUME)
        name = rng.choice(NAMES)
        lines = [b"submit,%b,%b,block,sell,%d,%b,%b,GROUP-NUMBER\n" % (WHO, name, rules.HIGHEST_PRICE, volumes, rng.choice([b"", *NAMES])),
                 b"amend,%b,%b,,,%d,%b,,\n" % (WHO, name, rules.LOWEST_PRICE, volumes), b"cancel,%b,%b,,,,,,\n" % (WHO, name)]
        yield lines[at % 3]


def longest_records(count: int) -> Iterator[bytes]:
    """The longest records: a journal of these is as long as there may be."""
    yield b"day,%d,,,,,,,\n" % rules.GREATEST_PERIOD
    for at in range(count):
        name, parent = NAMES[at % len(NAMES)], NAMES[(at + 1) % len(NAMES)]
        yield b"submit,%b,%b,block,sell,%d,%b,%b,GROUP-NUMBER\n" % (WHO, name, rules.HIGHEST_PRICE, WIDE, parent)


def draw_day(rng: random.Random, count: int) -> list[bytes]:
    """Records of a random day, with a close in their middle now and then."""
    draft = days.Draft(rng)
    while len(draft.lines) <= count:
        days.add_mixed(draft, max(1, draft.hourly), rng.randrange(6))
        if rng.random() < 0.02:
            draft.lines.append("close,,,,,,,,")
    return [f"{line}\n".encode() for line in draft.lines[: count + 1]]


def draw_batches(rng: random.Random, lines: Sequence[bytes], most: int) -> list[bytes]:
    """The lines in batches of 1 to `most`."""
    found = []
    while lines:
        count = rng.randint(1, most)
        found.append(b"".join(lines[:count]))
        lines = lines[count:]
    return found


def draw_input(
    dam: DamProgram, seed: int | str, draw: Callable[[random.Random, int], Iterable[bytes]], count: int, most: int = 9, faulty: float = 0.0
) -> DeskInput:
    """An input of this many commands in batches of 1 to `most` lines, with the share of lines that enter nothing."""
    rng = random.Random(seed)
    records = list(draw(rng, count))
    lines, is_record = list[bytes](), list[bool]()
    for record in records:
        while lines and rng.random() < faulty:
            lines.append(rng.choice([*FAULTY, records[0]]))
            is_record.append(False)
        lines.append(record)
        is_record.append(True)
    return DeskInput(Journal(records, dam), draw_batches(rng, lines, most), is_record)
