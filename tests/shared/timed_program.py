"""Runs of a program, with a limit on their time, and streams in memory."""

import os
import select
import subprocess
import sys
from collections.abc import Sequence
from pathlib import Path
from typing import BinaryIO

if sys.version_info < (3, 10):
    sys.exit("fuzz: it needs Python 3.10 or newer")

from shared.printed import Printed

SECONDS = 60.0  # that a program may take to answer, if nothing else is said
COMMAND_LINE = 2  # the program's status
ENDED = -1  # the status of a program that took too long
LATE = "no answer in time"


class TimedProgram:
    """A program, and how many seconds it may take to answer."""

    def __init__(self, path: str | Path, seconds: float = SECONDS) -> None:
        self.path, self.seconds = path, seconds
        self.environment = dict(os.environb)  # which `os.environ` would encode for each run

    def capture_output(self, words: Sequence[str], data: bytes) -> Printed:
        """Its output for an input. Its streams are files in memory: pipes would have to be served while it runs, which takes longer
        than most runs."""
        with open_in_memory(data) as stdin, open_in_memory() as stdout, open_in_memory() as stderr:
            ran = subprocess.Popen([self.path, *words], stdin=stdin, stdout=stdout, stderr=stderr, close_fds=False, env=self.environment)
            try:
                wait_and_see_end(ran.pid, self.seconds)
            finally:
                status = ran.poll()
                if status is None:
                    ran.kill()
                    ran.wait()
            if status is None:
                return Printed(ENDED, b"", f"{LATE}\n".encode())
            return Printed(status, read_contents(stdout), read_contents(stderr))

    def run_and_see_command(self, words: Sequence[str]) -> bool:
        """Whether it has such a command: it then finds a fault in the empty input, and none in the command line."""
        return self.capture_output(words, b"").status != COMMAND_LINE


def open_in_memory(data: bytes = b"") -> BinaryIO:
    """A file in memory, at its beginning."""
    file = open(os.memfd_create("stream"), "w+b")
    file.write(data)
    file.seek(0)
    return file


def read_contents(file: BinaryIO) -> bytes:
    file.seek(0)
    return file.read()


def wait_and_see_end(pid: int, seconds: float) -> bool:
    """Waits until a process has ended, for at most this number of seconds: whether it has."""
    process = os.pidfd_open(pid)
    try:
        poll = select.poll()
        poll.register(process, select.POLLIN)
        return bool(poll.poll(seconds * 1_000))
    finally:
        os.close(process)
