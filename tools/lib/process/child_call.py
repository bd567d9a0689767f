"""A long call in a process of its own. Code written in C may keep Python from everything else, Ctrl-C too; another process can be
ended, and this one shows meanwhile how long it takes."""

from __future__ import annotations

import contextlib
import ctypes
import multiprocessing
import os
import signal
from collections.abc import Callable, Iterator
from multiprocessing.connection import Connection
from typing import Any, TypeVar

from .progress import Progress

PAUSE = 0.2  # seconds from one look at the time to the next
DEATH = 1  # Linux's PR_SET_PDEATHSIG: which signal a process gets if the one that started it dies

Result = TypeVar("Result")


class Died(Exception):
    """The other process ended without an answer."""


@contextlib.contextmanager
def blocking_interrupts() -> Iterator[None]:
    """Ctrl-C waits until the end of the block; processes that it starts keep it blocked, and the one that started them ends them."""
    before = signal.pthread_sigmask(signal.SIG_BLOCK, {signal.SIGINT})
    try:
        yield
    finally:
        signal.pthread_sigmask(signal.SIG_SETMASK, before)


def run_in_child(call: Callable[[Callable[[str], object]], Result], progress: Progress, words: str) -> Result:
    """The result of a call, in a process of its own. The words say how far it is; the call gets a function that reports others."""
    context = multiprocessing.get_context("fork")
    ours, theirs = context.Pipe(duplex=False)
    process = context.Process(target=call_and_send_result, args=(call, theirs), daemon=True)
    with blocking_interrupts():
        process.start()
    theirs.close()
    try:
        return receive_result_or_raise(ours, progress, words)
    finally:
        process.kill()
        process.join()
        progress.stop_and_erase()


def call_and_send_result(call: Callable[[Callable[[str], object]], object], pipe: Connection) -> None:
    """Sends the call's reports, and then its result or its failure. The last words of code in C that aborts aren't shown: the process that
    waits says that this one died."""
    if hasattr(system := ctypes.CDLL(None), "prctl"):
        system.prctl(DEATH, signal.SIGKILL)
    try:
        os.dup2(os.open(os.devnull, os.O_WRONLY), 2)
        pipe.send(("answer", call(lambda words: pipe.send(("words", words)))))
    except Exception as fault:
        pipe.send(("fault", fault))


def receive_result_or_raise(pipe: Connection, progress: Progress, words: str) -> Any:
    """The answer that comes; the reports before it are shown."""
    while True:
        if not pipe.poll(PAUSE):
            progress.show_time_or_raise(words)
            continue
        try:
            kind, value = pipe.recv()
        except EOFError:
            raise Died("the search ended without an answer: memory may have run out") from None
        if kind == "answer":
            return value
        if kind == "fault":
            raise value
        words = value
        progress.show_time_or_raise(words)
