"""An office that is served by the built programs, in a folder of a test."""

import contextlib
import http.client
import json
import os
import re
import signal
import socket
import subprocess
import sys
import tempfile
import time
from collections.abc import Iterator, Mapping, Sequence
from pathlib import Path
from typing import Any

from . import ports
from dam_tools.office import AsyncOffice, Office, OfficeFault
from shared.place import TOP

Answer = tuple[int, dict[str, str], bytes]  # the status, the headers and the body
DAY, CLOSE = "2099-11-29", "2099-11-28T12:00"
CLOCKS_CHANGE = {23: "2099-03-29", 92: "2099-03-29", 25: "2099-10-25", 100: "2099-10-25"}
START_SECONDS, STEP = 60, 0.02
TOOL = [sys.executable, "-I", "-B", str(TOP / "tools" / "office")]


def day_of(periods: int) -> str:
    """A day of this number of periods."""
    return CLOCKS_CHANGE.get(periods, DAY)


def names_of_participants(count: int) -> list[str]:
    """Names of participants, from short to long ones."""
    return [f"{'P' * (1 + number % 6)}{chr(65 + number // 26)}{chr(65 + number % 26)}" for number in range(count)]


class ServedOffice:
    """The office: its folder, its tokens, and the process that serves it, which a test may end."""

    tokens: dict[str, str]

    def __init__(
        self,
        room: tempfile.TemporaryDirectory[str],
        port: int,
        dam: str | Path,
        desk: str | Path,
        count: int = 3,
        periods: int = 24,
        words: Sequence[str] = (),
        day: str = DAY,
    ) -> None:
        self.room, self.port = room, port
        self.folder, self.log, self.words, self.day = Path(room.name, "office"), Path(room.name, "log"), list(words), day
        self.periods = periods
        self.environment = {**os.environ, "DAM": str(dam), "DAM_DESK": str(desk)}
        self.who = names_of_participants(count)
        self.started: subprocess.Popen[bytes] | None = None

    @classmethod
    def make(cls, *words: Any, **how: Any) -> "ServedOffice":
        """An office with these arguments, in a new folder and for a free port. It isn't served yet."""
        office = cls(tempfile.TemporaryDirectory(ignore_cleanup_errors=True), ports.find_free_port(), *words, **how)
        office.make_folder()
        return office

    def make_folder(self) -> None:
        table = Path(self.room.name, "p.csv")
        table.write_text("".join(f"{name}\n" for name in ["participant", *self.who]))
        words = ("--day", self.day, "--periods", self.periods, "--close", CLOSE, "--participants", table, "--json")
        self.tokens = json.loads(self.run_tool("init", self.folder, *words).stdout)["tokens"]

    def run_tool(self, *words: object) -> subprocess.CompletedProcess[bytes]:
        return subprocess.run([*TOOL, *map(str, words)], env=self.environment, capture_output=True, check=True)

    @property
    def process(self) -> subprocess.Popen[bytes]:
        """The process that was started last."""
        assert self.started is not None
        return self.started

    @property
    def url(self) -> str:
        return f"http://127.0.0.1:{self.port}"

    @property
    def files(self) -> Path:
        return self.folder / "days" / self.day

    def start_and_return_seconds(self) -> float:
        """Serves the office, and returns the seconds until the day takes commands."""
        began = time.monotonic()
        self.start_process()
        while not self.probe_and_see_readiness():
            if self.process.poll() is not None or time.monotonic() - began > START_SECONDS:
                raise RuntimeError(f"the office doesn't start: {self.log.read_text()[-2_000:]}")
            time.sleep(STEP)
        return time.monotonic() - began

    def start_process(self) -> None:
        with self.log.open("ab") as log:
            words = [*TOOL, "serve", str(self.folder), "--port", str(self.port), *self.words]
            self.started = subprocess.Popen(words, env=self.environment, stdout=subprocess.DEVNULL, stderr=log)

    def start_and_see_readiness(self) -> bool:
        """Serves the office, and returns whether the day takes commands, or its log says that it is stopped."""
        self.start_process()
        while not (self.probe_and_see_readiness() or b'"stopped"' in self.log.read_bytes() and self.probe_and_see_listening()):
            if self.process.poll() is not None:
                raise RuntimeError(f"the office doesn't start: {self.log.read_text()[-2_000:]}")
            time.sleep(STEP)
        return self.probe_and_see_readiness()

    def probe_and_see_listening(self) -> bool:
        with contextlib.suppress(OSError), socket.create_connection(("127.0.0.1", self.port)):
            return True
        return False

    def probe_and_see_readiness(self) -> bool:
        try:
            return self.send_request("/healthz")[0] == 200
        except OSError:
            return False

    def send_request(
        self, path: str, headers: Mapping[str, str] | None = None, method: str = "GET", body: str | bytes | None = None
    ) -> Answer:
        """The status, the headers and the body of an answer, without any client's help."""
        connection = http.client.HTTPConnection("127.0.0.1", self.port, timeout=30)
        try:
            connection.request(method, path, body=body, headers=headers or {})
            answer = connection.getresponse()
            return answer.status, dict(answer.getheaders()), answer.read()
        except http.client.HTTPException as fault:
            raise OSError(str(fault)) from None
        finally:
            connection.close()

    def read_metric_or_none(self, name: str) -> float | None:
        """A value of /metrics by its name, with its labels if it has any; None without it."""
        found = re.search(rf"^{re.escape(name)} (\S+)$", self.send_request("/metrics")[2].decode(), re.MULTILINE)
        return float(found[1]) if found else None

    def bearer_header(self, who: str) -> dict[str, str]:
        return {"Authorization": f"Bearer {self.tokens[who]}", "Content-Type": "text/csv"}

    def client_of(self, who: str) -> Office:
        return Office(self.url, self.tokens[who])

    def asynchronous_client_of(self, who: str) -> AsyncOffice:
        return AsyncOffice(self.url, self.tokens[who])

    def capture_desk_processes(self) -> list[int]:
        """The processes of desks of this office: those that it started."""
        found = subprocess.run(["ps", "-o", "pid=,args=", "--ppid", str(self.process.pid)], capture_output=True, text=True).stdout
        return [int(line.split()[0]) for line in found.splitlines() if str(self.files / "desk") in line]

    def kill(self, *parts: str) -> None:
        """Kills the office, its desk or both."""
        victims = self.capture_desk_processes() if "desk" in parts else []
        victims += [self.process.pid] if "office" in parts else []
        for victim in victims:
            with contextlib.suppress(ProcessLookupError):
                os.kill(victim, signal.SIGKILL)
        if "office" in parts:
            self.process.wait()

    def stop(self) -> None:
        if self.started and self.started.poll() is None:
            self.started.terminate()
            self.started.wait(30)

    def capture_journal_of_desk(self) -> list[str]:
        """The records in the desk's file, without the day."""
        shown = subprocess.run([self.environment["DAM_DESK"], "--journal", self.files / "desk"], capture_output=True, check=True)
        return shown.stdout.decode().splitlines()[1:]

    def close_day_and_return_seconds(self) -> float:
        """Closes the day, and returns the seconds until the results are published."""
        began = time.monotonic()
        (self.files / "close-now").touch()
        while self.send_request(f"/days/{self.day}/prices")[0] != 200:
            if time.monotonic() - began > START_SECONDS:
                raise RuntimeError(f"there are no results: {self.log.read_text()[-2_000:]}")
            time.sleep(STEP)
        return time.monotonic() - began


@contextlib.contextmanager
def running_office(*words: Any, kind: type[ServedOffice] = ServedOffice, **how: Any) -> Iterator[ServedOffice]:
    """An office of a kind with these arguments, which is stopped at the end, and whose folder is removed."""
    office = kind.make(*words, **how)
    try:
        yield office
    finally:
        office.stop()
        office.room.cleanup()


__all__ = ["DAY", "OfficeFault", "ServedOffice", "day_of", "running_office"]
