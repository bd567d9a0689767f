"""Runs of the program."""

import contextlib
import math
import os
import re
import select
import selectors
import subprocess
import sys
import threading
import time
from collections.abc import Iterator, Sequence
from typing import IO, Any, NamedTuple

from ..process import children
from . import which
from .errors import Fault, TimedOut, Unstarted

ONE_WORKER = ("clear", "--workers=1", "--cut=0")  # as the library searches: many days share the processors
RESULTS = re.compile(rb"day,[0-9]+\nwelfare,-?[0-9]+\n")  # the beginning of the results of a day
RELAYED: set[str] = set()  # lines of runs that were passed on
MOST_RELAYED = 200  # of them, after which no other is
MOST_PRINTED_BYTES = 1 << 20  # bytes of a run's output: no results and no replies have as many
MOST_SAID = 1 << 16  # bytes that are kept of a run's standard error, the last ones
PART = 1 << 16  # bytes that are read at once
PIPES = {name: subprocess.PIPE for name in ("stdin", "stdout", "stderr")}  # of a run
RUN_SECONDS = 3_600  # that a run may take if no timeout is named: of one that hangs, the others would wait for ever
MOST_SECONDS = 1_000_000  # of a timeout
HELD_SECONDS = 10  # that a run's output may stay open after its end, because a process that it started holds it
LOOK_SECONDS = 1  # from one look whether a run that prints nothing has ended to the next
START_SECONDS = 10  # that programs may take to start, if they are no longer wanted


class Ran(NamedTuple):
    """A run of a program that has ended: its output, and the last part of its standard error."""

    status: int
    output: bytes
    errors: bytes


def require_program(program: str | os.PathLike[str] | None = None) -> str:
    if program == "":
        raise Unstarted("a program with an empty name can't be run")
    if named := program or os.environ.get("DAM"):
        return os.fspath(named)
    if found := which.find_program():
        return found.path
    raise Unstarted("no program was found: build it, or name it as `program` or in the environment variable DAM")


def refuse_wrong_timeout(seconds: float | None) -> None:
    """Raises ValueError for a timeout that is none, such as NaN, or too long to wait for."""
    if seconds is not None and not seconds <= MOST_SECONDS:
        raise ValueError(f"timeout should be a number of seconds, at most {MOST_SECONDS:,}")


def run_program_and_relay_lines(words: Sequence[str], text: bytes, timeout: float | None = None, running: "Running | None" = None) -> Ran:
    """Runs a program. While it runs, it is among `running`."""
    if not children.are_children_heeded():
        raise Unstarted(f"{words[0]} can't be run: this process ignores SIGCHLD, so it wouldn't see with which status a run ends")
    with contextlib.ExitStack() as ends:
        try:
            process = ends.enter_context((running or Running()).running_process(words, **PIPES))
        except OSError as fault:
            raise Unstarted(f"{words[0]} can't be run: {fault.strerror}") from None
        ends.enter_context(process)
        try:
            out, error_output = exchange_pipes(process, text, timeout, words[0])
        except subprocess.TimeoutExpired:
            process.kill()
            raise TimedOut(f"{words[0]} took longer than {timeout:g} seconds") from None
        except BaseException:
            process.kill()
            raise
    if not process.returncode:
        relay_lines_once(error_output)
    return Ran(process.returncode, out, error_output)


def exchange_pipes(process: subprocess.Popen[bytes], text: bytes, timeout: float | None, name: str) -> tuple[bytes, bytes]:
    """Gives a process its input, and returns its output and the last part of its standard error, if that is a pipe, once it has ended. A
    process that prints without an end takes little memory: its output is a fault, with its name. So it is if another process holds the
    output for long after the end."""
    until = math.inf if timeout is None else time.monotonic() + timeout
    held_until = math.inf
    outputs = (process.stdout, BoundedOutput(name)), (process.stderr, LastOutput())
    left = memoryview(text)
    assert process.stdin
    with selectors.DefaultSelector() as waiting:
        waiting.register(process.stdin, selectors.EVENT_WRITE, (process.stdin, None))
        for stream, kept in outputs:
            if stream:
                waiting.register(stream, selectors.EVENT_READ, (stream, kept))
        while waiting.get_map():
            ready = waiting.select(max(min(until, held_until, time.monotonic() + LOOK_SECONDS) - time.monotonic(), 0))
            if time.monotonic() > until:
                raise subprocess.TimeoutExpired(process.args, timeout or 0)
            if process.poll() is not None and held_until == math.inf:
                held_until = time.monotonic() + HELD_SECONDS
            if not ready and time.monotonic() > held_until:
                raise TimedOut(f"{name} has ended, but another process has held its output for more than {HELD_SECONDS} seconds")
            for pipe, output in (key.data for key, _ in ready):
                if output is None:
                    left = left[write_some_and_count(pipe, left[: select.PIPE_BUF]) :]
                    is_over = not left
                else:
                    data = os.read(pipe.fileno(), PART)
                    output.append(data)
                    is_over = not data
                if is_over:
                    waiting.unregister(pipe)
                    pipe.close()
    process.wait(None if until == math.inf else max(until - time.monotonic(), 0))
    (_, out), (_, errors) = outputs
    return out.kept_bytes(), errors.kept_bytes()


def write_some_and_count(stream: IO[bytes], data: memoryview) -> int:
    """How many bytes a process has taken; all of them if it doesn't read any more."""
    try:
        return os.write(stream.fileno(), data)
    except BrokenPipeError:
        return sys.maxsize


class BoundedOutput:
    """The output of a run, which is a fault if it is longer than any."""

    def __init__(self, name: str) -> None:
        self.name, self.kept = name, bytearray()

    def append(self, data: bytes) -> None:
        self.kept += data
        if len(self.kept) > MOST_PRINTED_BYTES:
            raise Fault(f"{self.name} printed more than {MOST_PRINTED_BYTES:,} bytes")

    def kept_bytes(self) -> bytes:
        return bytes(self.kept)


class LastOutput:
    """The last part of a run's standard error, and how many bytes came before it."""

    def __init__(self) -> None:
        self.kept, self.lost = bytearray(), 0

    def append(self, data: bytes) -> None:
        self.kept += data
        more = max(len(self.kept) - MOST_SAID, 0)
        del self.kept[:more]
        self.lost += more

    def kept_bytes(self) -> bytes:
        """The last part, after a line that says how much is left out."""
        begin = f"[the first {self.lost:,} bytes of its standard error are left out]\n".encode() if self.lost else b""
        return begin + self.kept


def relay_lines_once(error_output: bytes) -> None:
    """Passes on the lines of a run that succeeded, such as that it isn't proved; each once, and not too many."""
    for line in error_output.decode(errors="replace").splitlines():
        if line not in RELAYED and len(RELAYED) <= MOST_RELAYED and sys.stderr:
            RELAYED.add(line)
            shown = line if len(RELAYED) <= MOST_RELAYED else "further lines of the program aren't shown"
            with contextlib.suppress(OSError):
                print(shown, file=sys.stderr, flush=True)


def capture_output(words: Sequence[str], text: bytes, timeout: float | None = None) -> bytes:
    ran = run_program_and_relay_lines(words, text, timeout)
    if ran.status:
        raise Fault(fault_text(ran.status, ran.errors), ran.status)
    return ran.output


def fault_text(status: int, error_output: bytes) -> str:
    """The words of a run that failed; one that said nothing was ended by the system, or isn't the program."""
    return error_output.decode(errors="replace").strip() or f"the program ended with status {status}"


def has_results(out: bytes) -> bool:
    """Whether an output begins as the results of a day do; whether these are right isn't looked at."""
    return RESULTS.match(out) is not None


class Running:
    """The programs that threads run, which end when the threads are no longer wanted."""

    def __init__(self) -> None:
        self.processes: set[subprocess.Popen[bytes]] = set()
        self.is_over = False
        self.starting, self.changed = 0, threading.Condition()

    @contextlib.contextmanager
    def running_process(self, words: Sequence[str], **streams: Any) -> Iterator[subprocess.Popen[bytes]]:
        """A process of these words. None is started any more once the threads are no longer wanted."""
        with self.changed:
            if self.is_over:
                raise Fault(f"{words[0]} isn't run any more")
            self.starting += 1
        try:
            process = subprocess.Popen(words, **streams)
            self.processes.add(process)
        finally:
            with self.changed:
                self.starting -= 1
                self.changed.notify_all()
        try:
            yield process
        finally:
            self.processes.discard(process)

    def kill_all(self) -> None:
        """Ends all programs, also those that threads are just starting."""
        with self.changed:
            self.is_over = True
            self.changed.wait_for(lambda: not self.starting, START_SECONDS)
        for process in list(self.processes):
            process.kill()
