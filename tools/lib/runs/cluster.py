"""A dask cluster as an executor. If its scheduler or one of its workers goes away, that is a fault after some seconds, and Ctrl-C ends a
run at once: dask itself would wait for them."""

import concurrent.futures
import contextlib
import logging
import os
import re
import socket
import time
import warnings
from collections.abc import Callable, Iterator
from typing import Any

from ..base import text
from ..process import surroundings
from .errors import Fault, Lost

SECONDS = 10  # that a cluster may take to answer, or be without workers
PAUSE = 1  # seconds from one look at a cluster to the next
ADDRESS = re.compile(r"(?:tcp|tls)://(?P<host>.+):(?P<port>[0-9]{1,5})")
SETTINGS = "/etc/dask", "~/.config/dask"  # the folders with the settings of dask
TLS = "distributed.comm.tls"  # those of them that are taken


def first_line(fault: BaseException) -> str:
    return getattr(fault, "strerror", None) or text.safe(str(fault).split("\n")[0]) or type(fault).__name__


@contextlib.contextmanager
def hiding_settings() -> Iterator[None]:
    """In this block dask finds no folder with settings."""
    before = dict(os.environ)
    os.environ.update(HOME=surroundings.NO_HOME, DASK_ROOT_CONFIG=surroundings.NO_HOME)
    try:
        yield
    finally:
        os.environ.clear()
        os.environ.update(before)


def import_dask() -> Any:
    """dask's part for clusters, with the settings that dask itself has: others may name code to run, or keep dask from being imported."""
    with hiding_settings():
        import dask.config

        dask.config.refresh(paths=[], env={})  # also without those of Python's own folder
        import distributed
    return distributed


def read_and_set_tls_settings(address: str) -> None:
    """Takes the settings of TLS, which are no code, if the address needs them."""
    if address.startswith("tls:"):
        import dask.config

        found = dask.config.get(TLS, {}, dask.config.collect(paths=list(SETTINGS), env={}))
        dask.config.update(dask.config.config, {"distributed": {"comm": {"tls": found}}})


class Cluster:
    """The executor of the cluster of an address."""

    def __init__(self, address: str) -> None:
        self.name = f"the cluster {text.safe(address)}"
        self.reports: dict[str, object] = {}
        self.address = address

    def connect_and_wait_for_workers(self) -> None:
        self.client = self.connect_and_return_client()
        self.restart_watch()
        while not self.count_and_note_workers_or_raise():
            time.sleep(PAUSE)
        self.executor = self.client.get_executor()

    def connect_and_return_client(self) -> Any:
        """The client of the scheduler. Lost connections, which dask reports, aren't shown."""
        address = self.address
        found = ADDRESS.fullmatch(address)
        if not found:
            raise Fault(f"{self.name} should be an address such as tcp://10.0.0.1:8786")
        distributed = import_dask()
        logging.disable(logging.CRITICAL)
        warnings.simplefilter("ignore")
        began = time.monotonic()
        try:
            read_and_set_tls_settings(address)
            socket.create_connection((found["host"].strip("[]"), int(found["port"])), SECONDS).close()
            return distributed.Client(address, timeout=SECONDS, set_as_default=False)
        except Exception as fault:
            # dask says that its time is over also if the other side closes the connection
            is_late = time.monotonic() - began >= SECONDS or "timed out" not in str(fault).lower()
            words = first_line(fault) if is_late else "it closed the connection"
            raise Fault(f"{self.name} can't be reached: {words}") from None

    def restart_watch(self) -> None:
        """From now on each worker has to report in time, and there has to be one."""
        self.heard: dict[str, float] = {}
        self.had = time.monotonic()

    def count_and_note_workers_or_raise(self) -> int:
        """How many workers the cluster has. A fault if it doesn't answer, if it has none, or if one hasn't reported for long."""
        try:
            found = self.client.sync(self.client.scheduler.identity, callback_timeout=SECONDS)["workers"]
            reports = {str(address): worker["last_seen"] for address, worker in found.items() if worker["status"] == "running"}
        except Exception:  # also of an answer that isn't a scheduler's
            raise self.lost_error() from None
        now = time.monotonic()
        heard, before = self.heard, self.reports
        self.heard = {address: heard.get(address, now) if before.get(address) == seen else now for address, seen in reports.items()}
        self.reports, self.had = reports, now if reports else self.had
        if now - self.had >= SECONDS:
            raise Lost(f"{self.name} has no workers")
        if said := hanging_text(self.heard, now, self.name):
            raise Lost(said)
        return len(reports)

    def lost_error(self) -> Lost:
        return Lost(f"{self.name} doesn't answer any more")

    def submit(self, call: Callable[..., Any], *words: object) -> "Awaited":
        try:
            return Awaited(self, self.executor.submit(call, *words))
        except Exception:  # of a client that is closed
            raise self.lost_error() from None


def hanging_text(heard: dict[str, float], now: float, name: str) -> str | None:
    """The words on workers that haven't reported for long, by when each was heard last, unless it isn't clear yet."""
    silent = [address for address, last in heard.items() if now - last >= SECONDS]
    if silent and len(silent) == len(heard):
        return f"the workers of {name} don't answer any more"
    if silent and any(now - last < SECONDS / 2 for last in heard.values()):
        return f"the worker {text.safe(silent[0])} of {name} doesn't answer any more"
    return None


class Awaited:
    """The later answer of a cluster, which is looked at while it doesn't come."""

    def __init__(self, cluster: Cluster, future: Any) -> None:
        self.cluster, self.future = cluster, future

    def result(self) -> Any:
        self.cluster.restart_watch()
        while True:
            try:
                return self.future.result(PAUSE)
            except concurrent.futures.CancelledError:
                raise self.cluster.lost_error() from None
            except concurrent.futures.TimeoutError:
                if self.future.done():
                    return self.future.result()
                self.cluster.count_and_note_workers_or_raise()

    def cancel(self) -> None:
        """Nothing: the cluster drops the jobs of a client that leaves it."""


@contextlib.contextmanager
def connecting(address: str) -> Iterator[Cluster]:
    """The executor of a cluster. After a failure it isn't waited for, so the process should end at once."""
    cluster = Cluster(address)
    cluster.connect_and_wait_for_workers()
    yield cluster
    with contextlib.suppress(Exception):
        cluster.client.close(SECONDS)
