"""Runs of a program with calls refused, or moving few bytes, and counted: by the library of refuse.c."""

import hashlib
import struct
import subprocess
import threading
from collections.abc import Sequence
from pathlib import Path
from typing import IO, Any, NamedTuple

from .printed import Printed

Words = Sequence[str | Path]  # of a command line
SECONDS = 120
ABOVE_ANY_CALL = 2**63  # a number that no call has
NONE = -1
COUNTS = struct.Struct("@3L")  # what the library counts: calls, writes before each thread was joined, and calls for memory that got a block
LEFT = b"written before each thread was joined\n"


class RefusedCalls(NamedTuple):
    """The calls of a kind that fail, by their numbers from 1, with an error number or, if that is 0, with 0 bytes moved; and how many
    bytes every other call moves at most, if that isn't 0."""

    kind: str
    first: int = ABOVE_ANY_CALL
    last: int = ABOVE_ANY_CALL
    error: int = 0
    most: int = 0

    def moved_before(self, count: int) -> int:
        """How many of `count` bytes the reads or writes before the first refused one move."""
        return min(count, (self.first - 1) * (self.most or count))


def make_environment(library: Path | str, refusal: RefusedCalls, counts: Path) -> dict[str, str]:
    """The environment of a run with these calls refused, and with the library of refuse.c among those of LD_PRELOAD. Makes the file of the
    counts, in which nothing is counted yet."""
    counts.write_bytes(bytes(COUNTS.size))
    return {"LD_PRELOAD": str(library), "HOSTILE": " ".join(map(str, refusal)), "HOSTILE_CALLS": str(counts)}


def read_counts(counts: Path) -> tuple[int, int, int]:
    calls, early, growths = COUNTS.unpack(counts.read_bytes())
    return calls, early, growths


class HostileProgram:
    """The program, and a folder for the inputs and the counts of its runs."""

    def __init__(self, path: str | Path, room: str | Path) -> None:
        self.path = str(Path(path).resolve())
        self.room = Path(room)
        self.own = threading.local()

    def counts_file(self) -> Path:
        """The file that a run of this thread counts its calls in."""
        if not hasattr(self.own, "counts"):
            self.own.counts = self.room / f"calls-{threading.get_ident()}"
        return self.own.counts

    def write_input(self, data: bytes) -> Path:
        """The file of an input."""
        file = self.room / f"input-{hashlib.sha256(data).hexdigest()}"
        if not file.exists():
            part = file.with_suffix(f".{threading.get_ident()}")
            part.write_bytes(data)
            part.rename(file)
        return file

    def run(self, words: Words, data: bytes, refusal: RefusedCalls, **how: Any) -> tuple[Printed, int]:
        """Its output, and how many calls of the refusal's kind it made."""
        printed, made, _ = self.run_counting(words, data, refusal, **how)
        return printed, made

    def measure_peak(self, words: Words, data: bytes) -> tuple[Printed, int, int]:
        """Its output, the most bytes that it held at once, and how many calls for memory it made."""
        return self.run_counting(words, data, RefusedCalls("peak"))

    def run_counting(
        self,
        words: Words,
        data: bytes,
        refusal: RefusedCalls,
        source: IO[bytes] | int | None = None,
        stdout: IO[bytes] | int = subprocess.PIPE,
        seconds: float = SECONDS,
        under: Sequence[str] = (),
    ) -> tuple[Printed, int, int]:
        """Its output, and the numbers that the library counts. The input is the data, or comes from the source. The words of `under` go
        before the program. A program that writes before it has joined each thread that it started is at fault: that thread may still be
        running."""
        surroundings = make_environment(self.room / "refuse.so", refusal, self.counts_file())
        with open(self.write_input(data), "rb") as stdin:
            given, command, errors = source or stdin, [*under, self.path, *words], subprocess.PIPE
            try:
                ran = subprocess.run(command, stdin=given, stdout=stdout, stderr=errors, env=surroundings, timeout=seconds, close_fds=False)
                printed = Printed(ran.returncode, ran.stdout or b"", ran.stderr)
            except subprocess.TimeoutExpired:
                printed = Printed(NONE, b"", f"no answer in {seconds} seconds\n".encode())
        made, early, growths = read_counts(self.counts_file())
        return Printed(NONE, b"", LEFT) if early else printed, made, growths
