"""Processes that a test writes to, and reads from, while they run."""

import resource
import subprocess
import time
from collections.abc import Callable
from typing import IO, AnyStr


def pipes_of(process: subprocess.Popen[AnyStr]) -> tuple[IO[AnyStr], IO[AnyStr]]:
    """The pipes to a process's standard input and from its standard output, with which it was started."""
    assert process.stdin
    return process.stdin, stdout_of(process)


def stdout_of(process: subprocess.Popen[AnyStr]) -> IO[AnyStr]:
    """The pipe from a process's standard output, with which it was started."""
    assert process.stdout
    return process.stdout


def read_processor_time() -> float:
    """The seconds of a processor that this process took so far, and those that it started and waited for."""
    both = (resource.getrusage(who) for who in (resource.RUSAGE_SELF, resource.RUSAGE_CHILDREN))
    return sum(used.ru_utime + used.ru_stime for used in both)


def wait_and_see_if(holds: Callable[[], object], seconds: float = 20, step: float = 0.02) -> bool:
    """Whether something holds within these seconds."""
    end = time.monotonic() + seconds
    while not (found := holds()) and time.monotonic() < end:
        time.sleep(step)
    return bool(found)
