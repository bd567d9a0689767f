"""Runs of a desk under the library of device.c: its output, and each call that reached its file."""

from __future__ import annotations

import fcntl
import os
import struct
import subprocess
import tempfile
import threading
from collections.abc import Iterable, Iterator, Mapping, Sequence
from concurrent.futures import ThreadPoolExecutor
from pathlib import Path
from typing import IO, Any, NamedTuple

from shared.preload import Words
from shared.printed import Printed

SECONDS = 120
EVENT, RESULT, LENGTH = struct.Struct("=ccHiQII"), struct.Struct("=iIIII"), struct.Struct("=I")
PACKET = 4_096  # bytes that a read gets at once, if they were written at once
ROOM = 1 << 20  # of a pipe
ABOVE_ANY_CALL = 2**62  # a number that no call has
LOCKED_LINE = b"file: another process has it\n"  # the fault line of a desk whose file another one has
CHUNK = 500  # images that one process opens
OPEN, LOCK, STAT, READ, WRITE, SYNC, CUT, ADVICE, INPUT, OUTPUT = tuple("PLQRWSTAIO")
DESK, EXTRA, FOLDER, STREAM = tuple("FXDN")


class Event(NamedTuple):
    """A call: its kind and its target by their letters, its answer or its error number below 0, its place in the file, how many bytes it
    asked for, and the bytes that moved."""

    kind: str
    target: str
    answer: int
    at: int
    asked: int
    bytes: bytes

    @property
    def is_change(self) -> bool:
        """Whether it changes the bytes of the file, or what a crash leaves of them."""
        return self.target == DESK and self.kind in (WRITE, SYNC, CUT)


class RefusedFileCalls(NamedTuple):
    """The calls of a kind, by their numbers from 1, that fail with this error number. If that is 0, they move at most some bytes."""

    kind: str
    first: int
    last: int
    error: int = 0
    most: int = 0


class DeskRun(NamedTuple):
    status: int
    stdout: bytes
    stderr: bytes
    events: list[Event]
    file: bytes = b""  # afterwards, if it was asked for

    @property
    def printed(self) -> Printed:
        return Printed(self.status, self.stdout, self.stderr)


def parse_events(log: bytes) -> list[Event]:
    found, at = list[Event](), 0
    while at < len(log):
        kind, target, _, answer, place, asked, length = EVENT.unpack_from(log, at)
        at += EVENT.size + length
        found.append(Event(kind.decode(), target.decode().strip("\0"), answer, place, asked, log[at - length : at]))
    return found


def parse_runs(text: bytes) -> Iterator[DeskRun]:
    """Yields the runs of which a process has written the results."""
    at = 0
    while at < len(text):
        status, *lengths = RESULT.unpack_from(text, at)
        at += RESULT.size
        parts = []
        for length in lengths:
            parts.append(text[at : at + length])
            at += length
        yield DeskRun(status, parts[0], parts[1], parse_events(parts[2]), parts[3])


def batches_in_packets(batches: Iterable[bytes]) -> list[bytes]:
    """The batches, each in parts that a pipe takes as one packet."""
    return [batch[at : at + PACKET] for batch in batches for at in range(0, len(batch), PACKET)]


class DeskProgram:
    """A desk: the words of its command line before the file's, and a folder for its files."""

    def __init__(
        self, words: Iterable[str | Path], room: str | Path, surroundings: Mapping[str, str] | None = None, jobs: int | None = None
    ) -> None:
        self.words, self.room = [str(it) for it in words], Path(room)
        self.library = self.room / "device.so"
        self.surroundings = dict(surroundings or {})
        self.jobs = jobs or min(4, os.cpu_count() or 1)

    def make_folder(self) -> Path:
        """A new folder for a file."""
        return Path(tempfile.mkdtemp(dir=self.room))

    def make_path(self) -> Path:
        """The path of a file that isn't there yet, in a new folder."""
        return self.make_folder() / "day.desk"

    def with_surroundings(self, more: Mapping[str, str]) -> DeskProgram:
        """The same desk with these variables in its environment too."""
        return DeskProgram(self.words, self.room, {**self.surroundings, **more}, self.jobs)

    def environment_for(self, file: Path, **more: str) -> dict[str, str]:
        return {"LD_PRELOAD": str(self.library), "DESK_FILE": str(file), **self.surroundings, **more}

    def start(self, file: Path, **how: Any) -> subprocess.Popen[bytes]:
        """Starts the desk with the file, and with pipes."""
        return subprocess.Popen([*self.words, str(file)], stdin=subprocess.PIPE, stdout=subprocess.PIPE, **how)

    def capture_output(self, words: Words, text: bytes = b"", **how: Any) -> Printed:
        """Its output for these words and this input, without the library of device.c."""
        pipe = subprocess.PIPE
        ran = subprocess.run([*self.words, *map(str, words)], input=text, stdout=pipe, stderr=pipe, timeout=SECONDS, **how)
        return Printed(ran.returncode, ran.stdout, ran.stderr)

    def capture_journal(self, file: Path) -> Printed:
        return self.capture_output(["--journal", file])

    def run(
        self,
        file: Path,
        batches: Iterable[bytes] = (),
        refusal: RefusedFileCalls | None = None,
        words: Sequence[str] = (),
        stdout: IO[bytes] | int = subprocess.PIPE,
    ) -> DeskRun:
        """Runs the desk with the file. Each batch comes in by one read, if it isn't longer than a packet."""
        ours, theirs = start_feeding(batches_in_packets(batches))
        try:
            return self.run_on_source(file, ours, refusal, words, stdout)
        finally:
            os.close(ours)
            theirs.join()

    def run_on_source(
        self,
        file: Path,
        source: IO[bytes] | int,
        refusal: RefusedFileCalls | None = None,
        words: Sequence[str] = (),
        stdout: IO[bytes] | int = subprocess.PIPE,
    ) -> DeskRun:
        """Runs the desk with the file, and with an open file as its input."""
        log = Path(f"{file}.{threading.get_ident()}.log")
        log.write_bytes(b"")
        surroundings = self.environment_for(file, DESK_LOG=str(log))
        if refusal:
            surroundings["DESK_REFUSE"] = " ".join(map(str, refusal))
        command, errors = [*self.words, *words, str(file)], subprocess.PIPE
        ran = subprocess.run(command, stdin=source, stdout=stdout, stderr=errors, env=surroundings, timeout=SECONDS)
        events = parse_events(log.read_bytes())
        log.unlink()
        return DeskRun(ran.returncode, ran.stdout or b"", ran.stderr, events)

    def iterate_runs_on_each(self, images: Sequence[bytes], words: Sequence[str] = ()) -> Iterator[DeskRun]:
        """Runs the desk on a file of each of these bytes, with no input. The runs are in the order of the images."""
        parts = [images[at : at + CHUNK] for at in range(0, len(images), CHUNK)]
        with ThreadPoolExecutor(self.jobs) as pool:
            for at in range(0, len(parts), self.jobs):
                for found in pool.map(lambda part: self.run_on_chunk(part, words), parts[at : at + self.jobs]):
                    yield from found

    def run_on_chunk(self, images: Sequence[bytes], words: Sequence[str]) -> list[DeskRun]:
        """Does so in one process, and returns the runs."""
        folder = self.make_folder()
        file, given, results = folder / "day.desk", folder / "images", folder / "results"
        given.write_bytes(b"".join(LENGTH.pack(len(image)) + image for image in images))
        surroundings = self.environment_for(file, DESK_SERVE=f"{given} {results}")
        ran = self.capture_output([*words, file], env=surroundings)
        if ran != (0, b"", b""):
            raise RuntimeError(f"the files weren't opened: {ran}")
        found = list(parse_runs(results.read_bytes()))
        for path in folder.iterdir():
            path.unlink()
        folder.rmdir()
        if len(found) != len(images):
            raise RuntimeError(f"{len(found)} of {len(images)} files were opened")
        return found


def start_feeding(parts: Iterable[bytes]) -> tuple[int, threading.Thread]:
    """A pipe that gives each of these parts to one read, and the thread that fills it."""
    ours, theirs = os.pipe2(os.O_DIRECT | os.O_CLOEXEC)
    fcntl.fcntl(theirs, fcntl.F_SETPIPE_SZ, ROOM)

    def fill() -> None:
        try:
            for part in parts:
                os.write(theirs, part)
        except BrokenPipeError:
            pass
        finally:
            os.close(theirs)

    thread = threading.Thread(target=fill)
    thread.start()
    return ours, thread
