"""A cluster that goes away, or has no workers, ends tools/whatif with a fault, and Ctrl-C ends it at once."""

import contextlib
import os
import re
import shlex
import signal
import subprocess
import sys
import tempfile
import time
from collections.abc import Callable, Iterator, Sequence
from pathlib import Path
from typing import Any, NamedTuple, TypeVar

from lib.process import children
from shared.counts import Counts
from shared.place import EXAMPLES, TOP

Value = TypeVar("Value")
SECONDS = 30  # after which the fault is there
SOON = 5  # seconds that Ctrl-C may take
STARTED = 60  # seconds that a scheduler and its workers may take to start
SCENARIOS = 2_000


class Processes(NamedTuple):
    """Those of a run on a cluster."""

    scheduler: subprocess.Popen[bytes]
    workers: subprocess.Popen[bytes]
    tool: subprocess.Popen[bytes]


def send_signal(process: subprocess.Popen[bytes], number: int) -> None:
    """Sends a signal to a process and to all that it started."""
    os.killpg(process.pid, number)


@contextlib.contextmanager
def running_process(words: Sequence[str | Path], **how: Any) -> Iterator[subprocess.Popen[bytes]]:
    """A process in a group of its own, which ends with the block."""
    running = subprocess.Popen([str(word) for word in words], start_new_session=True, **how)
    try:
        yield running
    finally:
        children.kill_group(running)


def wait_for_value_or_raise(found: Callable[[], Value | None], what: str) -> Value:
    """What a call finds, as soon as that is something."""
    end = time.monotonic() + STARTED
    while not (value := found()):
        if time.monotonic() > end:
            raise TimeoutError(f"{what} didn't start in {STARTED} seconds")
        time.sleep(0.1)
    return value


@contextlib.contextmanager
def running_scheduler(folder: Path) -> Iterator[tuple[subprocess.Popen[bytes], str]]:
    """A scheduler, and its address."""
    log = folder / "scheduler"
    words = [sys.executable, "-m", "distributed.cli.dask_scheduler", "--host", "127.0.0.1", "--port", "0", "--no-dashboard"]
    with log.open("wb") as file, running_process(words, stdout=file, stderr=file) as running:
        at = wait_for_value_or_raise(lambda: re.search(r"Scheduler at: *(tcp://\S+)", log.read_text()), "the scheduler")
        yield running, at[1]


def make_slow_program(folder: Path, program: str) -> Path:
    """A program that takes some time, and leaves a mark when it runs."""
    path = folder / "slow"
    path.write_text(f"#!/bin/sh\n: > {shlex.quote(str(folder / 'mark'))}\nsleep 0.1\nexec {shlex.quote(program)} \"$@\"\n")
    path.chmod(0o755)
    return path


def write_table_and_return_running_whatif(folder: Path, address: str, program: str) -> contextlib.AbstractContextManager[subprocess.Popen[bytes]]:
    """A run of many scenarios, which differ: a cluster clears equal ones once."""
    table = folder / "scenarios.csv"
    heads = "scenario,participant,order,kind,side,price_eur_mwh,periods,volume_mw\n"
    table.write_text(heads + "".join(f"{number},GAS,MORE,hour,sell,{number}.00,1,0.1\n" for number in range(SCENARIOS)))
    tool, journal = TOP / "tools" / "whatif", EXAMPLES / "auction-day.csv"
    words: list[str | Path] = [sys.executable, tool, "scenarios", journal, table, "--cluster", address]
    return running_process([*words, "--program", program], stdin=subprocess.DEVNULL, stdout=subprocess.PIPE, stderr=subprocess.PIPE)


def check_ended(counts: Counts, what: str, running: subprocess.Popen[bytes], status: int, said: str, within: float) -> None:
    """The run ends in time with a status and one line."""
    began = time.monotonic()
    try:
        out, err = running.communicate(timeout=within)
    except subprocess.TimeoutExpired:
        counts.check(f"{what}: no end after {within} seconds", False)
        return
    took = time.monotonic() - began
    found = f"{what}: {running.returncode} after {took:.0f} seconds: {err.decode(errors='replace')[:500]}"
    counts.check(found, (running.returncode, out) == (status, b"") and bool(re.fullmatch(said, err.decode(errors="replace"))))


def stop_one_worker(processes: Processes) -> None:
    """Stops one of both workers, which threads of their process have started."""
    started = [pid for task in Path(f"/proc/{processes.workers.pid}/task").glob("*/children") for pid in task.read_text().split()]
    worker = next(pid for pid in started if b"spawn_main" in Path(f"/proc/{pid}/cmdline").read_bytes())
    os.kill(int(worker), signal.SIGSTOP)


def run_and_check_without_workers(counts: Counts, folder: Path, program: str) -> None:
    with running_scheduler(folder) as (_, address), write_table_and_return_running_whatif(folder, address, program) as running:
        check_ended(counts, "no workers", running, 3, f"whatif: the cluster {address} has no workers\n", SECONDS)


def run_and_check_in_the_middle(
    counts: Counts, folder: Path, program: str, what: str, deed: Callable[[Processes], object], status: int, said: str, within: float
) -> None:
    """The run, after a deed in the middle of it."""
    words = [sys.executable, "-m", "distributed.cli.dask_worker", "--nworkers", "2", "--nthreads", "1", "--no-dashboard"]
    own = {**os.environ, "PYTHONPATH": str(TOP / "tools"), "DAM": str(make_slow_program(folder, program))}
    own.pop("DAM_LIBRARY", None)
    with running_scheduler(folder) as (ruling, address), open(os.devnull, "wb") as null:
        with running_process([*words, "--local-directory", folder, address], stdout=null, stderr=null, env=own) as working:
            (folder / "mark").unlink(missing_ok=True)
            with write_table_and_return_running_whatif(folder, address, program) as running:
                wait_for_value_or_raise((folder / "mark").exists, "a scenario")
                deed(Processes(ruling, working, running))
                check_ended(counts, what, running, status, said.format(address), within)


def run_and_check_whatif(counts: Counts, program: str) -> None:
    """Runs of tools/whatif on a cluster, each of which ends in time."""
    lost, without = "whatif: the cluster {} doesn't answer any more\n", "whatif: the cluster {} has no workers\n"
    hung = "whatif: the workers of the cluster {} don't answer any more\n"

    one = r"whatif: the worker tcp://127\.0\.0\.1:[0-9]+ of the cluster {} doesn't answer any more\n"

    def stopped_and_interrupted(processes: Processes) -> None:
        send_signal(processes.scheduler, signal.SIGSTOP)
        time.sleep(2)
        processes.tool.send_signal(signal.SIGINT)

    with tempfile.TemporaryDirectory() as room:
        folder = Path(room)
        run_and_check_without_workers(counts, folder, program)
        for what, deed, status, said, within in (
            ("a scheduler that ends", lambda processes: processes.scheduler.terminate(), 3, lost, SECONDS),
            ("a scheduler that hangs", lambda processes: send_signal(processes.scheduler, signal.SIGSTOP), 3, lost, SECONDS),
            ("workers that end", lambda processes: send_signal(processes.workers, signal.SIGKILL), 3, without, SECONDS),
            ("workers that hang", lambda processes: send_signal(processes.workers, signal.SIGSTOP), 3, hung, SECONDS),
            ("a worker that hangs", stop_one_worker, 3, one, SECONDS),
            ("Ctrl-C", lambda processes: processes.tool.send_signal(signal.SIGINT), 130, "whatif: interrupted\n", SOON),
            ("Ctrl-C without a scheduler", stopped_and_interrupted, 130, "whatif: interrupted\n", SOON),
        ):
            run_and_check_in_the_middle(counts, folder, program, what, deed, status, said, within)
