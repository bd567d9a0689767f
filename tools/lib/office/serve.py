"""Serving an office: its days, each with its writer, and the listener."""

import asyncio
import asyncio.sslproto
import contextlib
import ipaddress
import logging
import resource
import signal
import socket
import ssl
import time
from collections.abc import Callable, Coroutine, Iterator
from typing import TYPE_CHECKING, NamedTuple

from ..tool import exits
from . import connections, folder, monitoring, tokens
from .day_writer import Clock, DayWriter
from .programs import Programs
from .routes import Web

if TYPE_CHECKING:
    from cryptography.hazmat.primitives.asymmetric.ed25519 import Ed25519PrivateKey

LOOK_SECONDS = 1  # between two looks for days that were added
KNOWN_SECONDS, KNOWN_STEP = 2, 0.01  # that the journals of all days get to be read before it listens; between two looks
STOP_SECONDS = 3  # that open requests get at the end
BACKLOG = 128  # connections that wait to be accepted
TLS_BYTES = 1 << 15  # that a connection reads at once; asyncio reserves eight times as many for each
KEEP_SECONDS = 10  # that a connection stays open without a request


@contextlib.contextmanager
def noting_unreadable(name: str | None, missed: dict[str | None, str]) -> Iterator[None]:
    """Notes why a day can't be served, or all can't, and lets the others go on."""
    try:
        yield
    except folder.UNREADABLE as fault:
        missed[name] = str(fault)


class Office:
    """The days of an office that are served."""

    def __init__(
        self, files: folder.Folder, programs: Programs, log: monitoring.Log | None, key: "Ed25519PrivateKey", public_key: str
    ) -> None:
        self.files, self.programs, self.key, self.public_key = files, programs, key, public_key
        self.log, self.counts, self.clock = log or monitoring.Log(), monitoring.Counts(), Clock()
        self.register = tokens.Register(files.path_of(folder.PARTICIPANTS))
        self.writers: dict[str, DayWriter] = {}
        self.tasks: list[asyncio.Task[None]] = []
        self.missed: dict[str | None, str] = {}  # by the name of a day, why it isn't served; by None, why the days or the tokens aren't known

    @classmethod
    def read_or_stop(cls, files: folder.Folder, programs: Programs, log: monitoring.Log | None = None) -> "Office":
        """The office of a folder, with its keys and participants, but without its days."""
        key = files.read_key()
        office = cls(files, programs, log, key, files.read_public_text_or_stop(key))
        office.register.read_and_keep_if_changed()
        return office

    def take_up_days_and_return_faults(self) -> dict[str | None, str]:
        """Takes up the days that aren't yet; those that are open come first. Returns the faults of those that can't be."""
        missed: dict[str | None, str] = {}
        new: list[tuple[bool, str, folder.DayFolder]] = []
        with noting_unreadable(None, missed):
            self.register.read_and_keep_if_changed()
        for name, files in self.files.list_folders_by_day().items():
            with noting_unreadable(name, missed):
                if name not in self.writers:
                    files.refuse_if_shared()
                    new.append((files.has_file(folder.STATEMENT), name, files))
        for _, name, files in sorted(new, key=lambda one: one[:2]):
            with noting_unreadable(name, missed):
                self.writers[name] = DayWriter.read(files, self)
                self.tasks.append(asyncio.create_task(self.writers[name].write_until_published()))
        return missed

    def log_and_note_missed(self, missed: dict[str | None, str]) -> None:
        """Logs why days aren't served, once for each reason. They are tried again, and the others go on."""
        for name, fault in missed.items():
            if self.missed.get(name) != fault:
                self.log.write_event("not served", day=name, fault=fault)
        self.missed = missed

    @property
    def is_healthy(self) -> bool:
        return not self.missed and all(writer.is_healthy for writer in self.writers.values())

    async def take_up_days_forever(self) -> None:
        while True:
            try:
                self.log_and_note_missed(self.take_up_days_and_return_faults())
            except OSError as fault:  # such as too many open files: the days that are served go on
                self.log_and_note_missed({None: str(fault)})
            await asyncio.sleep(LOOK_SECONDS)

    async def wait_until_known(self) -> None:
        """Waits until the entries of each day are known, or it is stopped, so that no first request is turned away; but not long."""
        await asyncio.sleep(0)  # the first look
        until = time.monotonic() + KNOWN_SECONDS
        while time.monotonic() < until and not all(writer.is_known.is_set() or writer.fault for writer in self.writers.values()):
            await asyncio.sleep(KNOWN_STEP)

    async def stop_days(self) -> None:
        for task in self.tasks:
            task.cancel()
        await asyncio.gather(*self.tasks, return_exceptions=True)


def is_loopback(host: str) -> bool:
    try:
        return ipaddress.ip_address(host).is_loopback
    except ValueError:
        return host == "localhost"


def read_tls_context_or_stop(tls: tuple[str, str]) -> ssl.SSLContext:
    """The context of TLS, from a certificate and its key."""
    context = ssl.create_default_context(ssl.Purpose.CLIENT_AUTH)
    context.minimum_version = ssl.TLSVersion.TLSv1_2
    try:
        context.load_cert_chain(*tls, password=lambda: "")
    except (OSError, ssl.SSLError) as fault:
        raise exits.Stop(f"--tls: the certificate or its key can't be used: {fault.strerror or fault}") from None
    return context


def set_limit_of_open_files() -> None:
    """Lets this process open as many files as it may: a connection is one, and may be sent another."""
    soft, hard = resource.getrlimit(resource.RLIMIT_NOFILE)
    wanted = 2 * connections.MOST_CONNECTIONS + 500
    most = wanted if hard == resource.RLIM_INFINITY else min(hard, wanted)
    if soft < most:
        resource.setrlimit(resource.RLIMIT_NOFILE, (most, hard))


def open_listening_socket_or_stop(host: str, port: int) -> socket.socket:
    """A socket that listens at an address."""
    try:
        found = socket.create_server((host, port), family=socket.AF_INET6 if ":" in host else socket.AF_INET, backlog=BACKLOG)
    except OSError as fault:
        raise exits.Stop(f"can't listen at {host} port {port}: {fault.strerror}") from None
    found.setblocking(False)
    return found


class Listening(NamedTuple):
    """Where an office listens, and how."""

    host: str
    port: int
    tls: ssl.SSLContext | None = None
    behind_proxy: bool = False


async def serve(
    office: Office, at: Listening, demo: dict[str, str] | None = None, started: Callable[[int], Coroutine[None, None, None]] | None = None
) -> None:
    """Serves until it is stopped. `demo` has the tokens of a demo by participant; `started` gets the port once it listens."""
    resource.setrlimit(resource.RLIMIT_CORE, (0, 0))  # keeps the key out of core files, also those of the desk
    asyncio.sslproto.SSLProtocol.max_size = TLS_BYTES  # a connection over TLS reserves little memory
    for name in ("aiohttp", "asyncio"):
        logging.getLogger(name).handlers = [monitoring.Defects(office.log)]
        logging.getLogger(name).propagate = False
    application = Web.read(office, at.tls is not None, at.behind_proxy, demo).new_application()
    runner = connections.Runner(application, office.counts, keepalive_timeout=KEEP_SECONDS)
    days = asyncio.create_task(office.take_up_days_forever())
    stopped, listener = asyncio.Event(), None
    is_hung_up = signal.getsignal(signal.SIGHUP) != signal.SIG_IGN  # as nohup has it
    for number in (signal.SIGTERM, signal.SIGINT, *[signal.SIGHUP] * is_hung_up):
        asyncio.get_running_loop().add_signal_handler(number, stopped.set)
    try:
        await runner.setup()
        assert runner.server
        await office.wait_until_known()
        listener = connections.Listener(runner.server, open_listening_socket_or_stop(at.host, at.port), at.tls, office.counts)
        port = listener.socket.getsockname()[1]
        office.log.write_event("serving", host=at.host, port=port, tls=at.tls is not None)
        waits = asyncio.create_task(stopped.wait())
        if started:
            # a signal ends it too, if no desk opens
            starts = asyncio.create_task(started(port))
            await asyncio.wait({waits, days, starts}, return_when=asyncio.FIRST_COMPLETED)
            if not starts.done():
                starts.cancel()
            else:
                starts.result()
        await asyncio.wait({waits, days}, return_when=asyncio.FIRST_COMPLETED)
        waits.cancel()
    finally:
        days.cancel()
        with contextlib.suppress(asyncio.CancelledError):
            await days
        if listener and runner.server:
            await listener.close()
            await runner.shutdown()
            await runner.server.shutdown(STOP_SECONDS)
        await runner.cleanup()
        await office.stop_days()
        office.log.write_event("ended")
