"""Many journals at the same time, on threads or by any executor of `concurrent.futures`: the text of each goes in, and the output of
`dam clear` comes out."""

import collections
import concurrent.futures
import contextlib
import os
import queue
import sys
import threading
from collections.abc import Callable, Generator, Iterable, Iterator
from typing import Any, TypeVar

from . import by_library, by_program, which
from .by_library import MOST_NODES
from .errors import Fault, Lost, TimedOut, Unstarted

# How a clearing ended, unless with the status of a run: with an output; too late; before it began; with another fault.
CLEARED, LATE, UNSTARTED, FAILED = "cleared", "late", "unstarted", "failed"
AHEAD = 2  # texts for each job that wait for a thread
MOST_AHEAD = 1_024  # texts that wait for an executor

Result = TypeVar("Result")
Program = str | os.PathLike[str] | None
Texts = Iterable[bytes | Fault]  # of journals; one that can't be read is a fault
Outputs = Generator[bytes | Fault, None, None]  # of `dam clear`
# CLEARED and the output of `dam clear`; or LATE, UNSTARTED, FAILED or the status of a run that failed, and the words of the fault. It has
# no type of this package, so that any executor can send it.
Answer = tuple[str | int, bytes | str]


class Promise:
    """The later answer of a thread of a team. It is as a future, which takes longer to make and to wait for than a small day to clear."""

    def __init__(self) -> None:
        self.kept: queue.SimpleQueue[tuple[Any, BaseException | None]] = queue.SimpleQueue()

    def result(self) -> Any:
        found, fault = self.kept.get()
        if fault:
            raise fault
        return found

    def cancel(self) -> None:
        """Nothing: the team's end drops the jobs that haven't begun."""


Later = Promise | concurrent.futures.Future[Any]


class Team:
    """Threads that do the jobs they are given, in their order. The program doesn't wait for them when it ends."""

    def __init__(self, jobs: int) -> None:
        self.given: queue.SimpleQueue[tuple[Promise, Callable[..., Any], tuple[object, ...]] | None] = queue.SimpleQueue()
        self.jobs, self.is_over = jobs, False

    def start_threads(self) -> None:
        for _ in range(self.jobs):
            threading.Thread(target=self.do_jobs, daemon=True).start()

    def add_job_and_return_promise(self, call: Callable[..., Any], *words: object) -> Promise:
        promise = Promise()
        self.given.put((promise, call, words))
        return promise

    def do_jobs(self) -> None:
        for promise, call, words in iter(self.given.get, None):
            if self.is_over:
                continue
            try:
                promise.kept.put((call(*words), None))
            except BaseException as fault:
                promise.kept.put((None, fault))

    def end(self) -> None:
        self.is_over = True
        for _ in range(self.jobs):
            self.given.put(None)


@contextlib.contextmanager
def running_team(jobs: int) -> Iterator[tuple[Team, by_program.Running]]:
    """A team, and the programs that it runs, which end with the block."""
    running, team = by_program.Running(), Team(jobs)
    try:
        team.start_threads()
        yield team, running
    finally:
        running.kill_all()
        team.end()


def clear_and_return_answer(
    text: bytes, program: Program = None, running: by_program.Running | None = None, nodes: int = MOST_NODES, timeout: float | None = None
) -> Answer:
    """Clears a journal's text, by the library if there is one, and neither a program is named nor a timeout, which only runs can have."""
    try:
        path = None if program is not None or timeout is not None else which.find_library()
        if path:
            status, out = by_library.call_library(path, text, nodes)
            error_output = out
        else:
            words = [by_program.require_program(program), *by_program.ONE_WORKER, f"--nodes={nodes}"]
            seconds = by_program.RUN_SECONDS if timeout is None else timeout
            status, out, error_output = by_program.run_program_and_relay_lines(words, text, seconds, running)
            if not status and not by_program.has_results(out):
                return FAILED, f"{words[0]} printed no results of this journal"
    except TimedOut as fault:
        return LATE, str(fault)
    except Unstarted as fault:
        return UNSTARTED, str(fault)
    except Fault as fault:
        return FAILED, str(fault)
    if status:
        return status, by_program.fault_text(status, error_output)
    return CLEARED, out


def output_or_fault(answer: Answer) -> bytes | Fault:
    """The output of an answer of `clear_and_return_answer`, or its fault, which isn't raised."""
    end, found = answer
    if isinstance(found, bytes):
        return found
    return Fault(found, end) if isinstance(end, int) else {LATE: TimedOut, UNSTARTED: Unstarted, FAILED: Fault}[end](found)


def clear_and_return_output_or_fault(text: bytes, program: Program = None, running: by_program.Running | None = None) -> bytes | Fault:
    return output_or_fault(clear_and_return_answer(text, program, running))


def count_processors() -> int:
    return len(os.sched_getaffinity(0))


def iterate_outputs_or_faults(
    texts: Texts,
    jobs: int | None = None,
    executor: Any = None,
    program: Program = None,
    call: Callable[..., Answer] = clear_and_return_answer,
) -> Outputs:
    """For each text, in their order, the output of `dam clear` as bytes, or a `Fault`; a text that is a fault already stays one. Texts are
    taken as they are needed, so there may be any number of them. If no more answers are asked for, the runs that are left are ended."""
    if jobs is not None and jobs < 1:
        raise ValueError("jobs should be 1 or more")
    if executor is not None:
        yield from iterate_submitted_results(texts, lambda text: executor.submit(call, text, program), jobs or MOST_AHEAD)
        return
    jobs = jobs or count_processors()
    with running_team(jobs) as (team, running):
        yield from iterate_submitted_results(texts, lambda text: team.add_job_and_return_promise(call, text, program, running), AHEAD * jobs)


def iterate_submitted_results(texts: Texts, submit: Callable[[bytes], Later], most: int) -> Outputs:
    """The results of the jobs submitted for the texts, in order. At most `most` of them wait."""
    waiting: collections.deque[Later | Fault] = collections.deque()
    try:
        for text in texts:
            waiting.append(text if isinstance(text, Fault) else submit_or_raise(submit, text))
            if len(waiting) >= most:
                yield wait_for_result_or_fault(waiting.popleft())
        while waiting:
            yield wait_for_result_or_fault(waiting.popleft())
    finally:
        for future in waiting:
            if not isinstance(future, Fault):
                future.cancel()


def submit_or_raise(submit: Callable[[bytes], Later], text: bytes) -> Later:
    try:
        return submit(text)
    except (OSError, RuntimeError) as fault:  # of a broken pool, or one that was shut down
        raise Fault(f"the executor takes no more journals: {fault}") from None


def wait_for_result_or_fault(future: Later | Fault) -> bytes | Fault:
    """The result of a future; a fault if its executor has lost it."""
    if isinstance(future, Fault):
        return future
    try:
        return output_or_fault(future.result())
    except Lost:
        raise
    except (Exception, concurrent.futures.CancelledError) as fault:
        return Fault(f"the executor failed: {type(fault).__name__}: {fault}")


def iterate_with_bar(results: Iterable[Result], whole: int | None = None, unit: str = "day", quiet: bool = False) -> Iterable[Result]:
    """The same results, with a bar at a terminal that says how far they are, if tqdm is installed."""
    if quiet or not sys.stderr.isatty():
        return results
    try:
        import tqdm
    except ImportError:
        return results
    return tqdm.tqdm(results, total=whole, unit=f" {unit}s", leave=False, delay=0.5, file=sys.stderr)
