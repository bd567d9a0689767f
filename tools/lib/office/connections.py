"""Limits on the connections of strangers: how many there are, how long they last, and how much they send ahead."""

from __future__ import annotations

import asyncio
import contextlib
import re
import socket
import ssl
from typing import Any, cast

from aiohttp import HttpVersion10, HttpVersion11, StreamReader, web, web_protocol
from aiohttp.http import RawRequestMessage
from multidict import CIMultiDict, CIMultiDictProxy

from .monitoring import Counts

MOST_CONNECTIONS = 1_000
IDLE_SECONDS = 15  # for the head of a request to come whole
BUSY_SECONDS = 60  # for a request, from its head to the last byte of its answer
LOOK_SECONDS = 1
ACCEPT_PAUSE = 0.1  # seconds until the next try, if a connection can't be accepted
MOST_AHEAD = 4  # requests that a connection may send before the answers
PIECE = 1 << 14  # bytes that are parsed without a look at these limits
MOST_UNSENT = 1 << 16  # bytes of an answer in pieces that wait to be sent
MOST_HEAD = 1 << 15  # bytes of a request's head
HEAD_END = re.compile(rb"\n(?:\n|\r.)", re.DOTALL)  # of its last line, and an empty one; as lax as the parser, to which CR is enough
MOST_LINE_BYTES = 1 << 12  # bytes of a line of a head
WAITS = "100-continue"  # the expectation of a client that waits for an answer before it sends the body
TEXTS = {"Content-Type": "text/plain", "X-Content-Type-Options": "nosniff", "Cache-Control": "no-store", "Server": "dam-office"}


def body_length(message: object) -> int:
    """The number of bytes of a request's body; 0 if it isn't known."""
    word = message.headers.get("Content-Length", "") if hasattr(message, "headers") else ""
    return int(word) if word.isascii() and word.isdigit() else 0


def plain_message(message: RawRequestMessage) -> RawRequestMessage:
    """A request as the office answers it. The name of an office is left out: there is one, and to decode another may take seconds. So is an
    expectation, but for that of a client that waits: aiohttp would refuse others before any limit, and repeat them; and a version that
    there isn't, which would be the answer's."""
    if message.version not in (HttpVersion10, HttpVersion11):
        message = message._replace(version=HttpVersion11)
    if message.url.is_absolute():
        message = message._replace(url=message.url.relative())
    if message.headers.get("Expect", WAITS).lower() != WAITS:
        headers = CIMultiDict(message.headers)
        del headers["Expect"]
        message = message._replace(headers=CIMultiDictProxy(headers))
    return message


class Handler(web_protocol.RequestHandler):
    """A connection. A request that can't be read gets a fixed answer, in which nothing of it stands."""

    __slots__ = ("head_bytes", "head_tail", "payload", "length", "is_deaf")

    _manager: Server | None  # None once the connection is lost

    def __init__(self, server: Server, **settings: Any) -> None:
        super().__init__(server, max_line_size=MOST_LINE_BYTES, max_field_size=MOST_LINE_BYTES, **settings)
        self.head_bytes, self.head_tail = 0, b""  # of the head that is coming: how many have come, and the last ones
        self.payload: StreamReader | None = None  # the body of the last request
        self.length = 0  # how many bytes it has
        self.is_deaf = False  # further bytes aren't read, and the connection ends after its answer

    @property
    def body_left(self) -> int:
        """How many bytes of the body are still to come."""
        return max(0, self.length - self.payload.total_bytes) if self.length and self.payload else 0

    def note_busy(self) -> None:
        """A request has come, and is answered from now on."""
        if self._manager is not None:
            self._manager.note_state(self, True)

    def abort(self) -> None:
        """Ends the connection now, if it isn't lost."""
        if self.transport is not None:
            self.transport.abort()

    def data_received(self, data: bytes) -> None:
        """Parses the bytes that have come, in pieces, so that no connection holds up the others for long."""
        at = 0
        while at < len(data):
            if self.is_deaf or self.transport is None or self.transport.is_closing():
                return
            piece = self.note_tail_and_cut_first_piece(data[at : at + PIECE])
            at += len(piece)
            try:
                self.parse_piece_and_note_state(piece)
            except Exception:  # a stranger's bytes at which aiohttp fails
                if self._manager is not None:
                    self._manager.counts.add("connections_malformed_total")
                self.abort()

    def note_tail_and_cut_first_piece(self, data: bytes) -> bytes:
        """The beginning of some bytes up to the end of a body or a head, so that each piece is of one of them alone."""
        if self.body_left:
            return data[: self.body_left]
        known = self.head_tail + data
        head = known if self.head_tail else known.lstrip(b"\r\n")  # empty lines before a head don't end it
        end = HEAD_END.search(head)
        self.head_tail = b"" if end else head[-2:]
        return data[: len(data) - len(head) + end.end()] if end else data

    def parse_piece_and_note_state(self, piece: bytes) -> None:
        self.head_bytes += 0 if self.body_left else len(piece)
        if self.head_bytes > MOST_HEAD:  # it isn't parsed: a head that is whole would be answered
            self.abort()
            return
        before = self._request_count
        super().data_received(piece)
        count = self._request_count - before  # of requests that have come
        for place in range(len(self._messages) - count, len(self._messages)):
            message, self.payload = self._messages[place]
            # no route takes a body in chunks, which is expensive to read, or another protocol; and a head ends at a known end
            odd = getattr(message, "chunked", False) or getattr(message, "upgrade", False) or getattr(message, "method", "") == "CONNECT"
            self.is_deaf = self.is_deaf or odd or self.head_tail != b""
            self.head_bytes, self.length = 0, body_length(message)
            if hasattr(message, "url"):  # else it is a fault of the parser
                self._messages[place] = plain_message(cast(RawRequestMessage, message)), self.payload
        if self.payload is not None and self.payload.is_eof() == (self.body_left > 0):
            self.is_deaf = True  # an odd header hides the length of the body, and so the start of the next head
        self._message_tail = b""  # the bytes after a request for another protocol
        if len(self._messages) > MOST_AHEAD:
            self.abort()

    async def _handle_request(self, request: web.BaseRequest, *words: Any) -> Any:
        if self.transport is None:  # the connection was lost when the request's turn had just come
            raise ConnectionError("the connection is lost")
        return await super()._handle_request(request, *words)

    async def finish_response(self, request: web.BaseRequest, response: web.StreamResponse, began: float) -> bool:
        if isinstance(response, web.HTTPException):  # of aiohttp itself, which says the request's words again
            response = self.handle_error(request, response.status)
        found = await super().finish_response(request, response, began)
        if self._manager is not None:  # the connection isn't lost
            self._manager.note_state(self, False)
        return found

    def handle_error(
        self, request: web.BaseRequest, status: int = 500, exc: BaseException | None = None, message: str | None = None
    ) -> web.StreamResponse:
        if request.writer.output_size > 0:
            raise ConnectionError("the answer has begun")
        response = web.Response(status=status, text="the request can't be answered\n", headers=TEXTS)
        response.force_close()
        return response


def handler_of(request: web.BaseRequest) -> Handler:
    return cast(Handler, request.protocol)  # `Server` makes no other


class Server(web.Server):
    """Counts the connections, and ends those that take too long."""

    def __init__(self, server: web.Server, counts: Counts) -> None:
        super().__init__(server.request_handler, request_factory=server.request_factory, loop=server._loop, **server._kwargs)
        self.counts = counts
        self.since: dict[web_protocol.RequestHandler, tuple[float, bool]] = {}  # since when a request is answered, or isn't
        self.watcher = self._loop.create_task(self.abort_late_connections())

    def __call__(self) -> Handler:
        return Handler(self, loop=self._loop, **self._kwargs)

    def connection_made(self, handler: web_protocol.RequestHandler, transport: asyncio.Transport) -> None:
        super().connection_made(handler, transport)
        if len(self._connections) > MOST_CONNECTIONS:  # more than the listener lets through
            self.counts.add("connections_refused_total")
            transport.abort()
        else:
            transport.set_write_buffer_limits(MOST_UNSENT)
            self.note_state(handler, False)

    def connection_lost(self, handler: web_protocol.RequestHandler, exc: BaseException | None = None) -> None:
        self.since.pop(handler, None)
        super().connection_lost(handler, exc)

    def note_state(self, handler: web_protocol.RequestHandler, is_busy: bool) -> None:
        """Notes that the connection's request has begun, or is answered."""
        if handler in self._connections:
            self.since[handler] = self._loop.time(), is_busy

    async def abort_late_connections(self) -> None:
        """Ends the connections that are late. The commands of a request that has come whole are entered nevertheless."""
        while True:
            await asyncio.sleep(LOOK_SECONDS)
            now = self._loop.time()
            for handler, (at, is_busy) in list(self.since.items()):
                if now - at > (BUSY_SECONDS if is_busy else IDLE_SECONDS) and handler.transport:
                    self.counts.add("connections_late_total")
                    handler.transport.abort()

    async def shutdown(self, timeout: float | None = None) -> None:
        self.watcher.cancel()
        with contextlib.suppress(asyncio.CancelledError):
            await self.watcher
        await super().shutdown(timeout)


class Listener:
    """Accepts connections, at most this number at a time. One counts from the moment that it is accepted, before its TLS handshake."""

    def __init__(self, server: web.Server, listening: socket.socket, tls: ssl.SSLContext | None, counts: Counts) -> None:
        self.server, self.socket, self.tls, self.counts = server, listening, tls, counts
        self.handshakes: set[asyncio.Task[None]] = set()
        self.task = asyncio.create_task(self.accept_connections())

    async def accept_connections(self) -> None:
        loop = asyncio.get_running_loop()
        while True:
            try:
                connection, _ = await loop.sock_accept(self.socket)
            except OSError:  # too many open files, or it is gone already
                await asyncio.sleep(ACCEPT_PAUSE)
                continue
            if len(self.server.connections) + len(self.handshakes) >= MOST_CONNECTIONS:
                self.counts.add("connections_refused_total")
                connection.close()
                continue
            task = loop.create_task(self.hand_over(connection))
            self.handshakes.add(task)
            task.add_done_callback(self.handshakes.discard)

    async def hand_over(self, connection: socket.socket) -> None:
        loop, seconds = asyncio.get_running_loop(), IDLE_SECONDS if self.tls else None
        try:
            await loop.connect_accepted_socket(self.server, connection, ssl=self.tls, ssl_handshake_timeout=seconds)
        except OSError:  # of which faults of TLS and late handshakes are kinds
            connection.close()

    async def close(self) -> None:
        self.task.cancel()
        for task in [self.task, *self.handshakes]:
            task.cancel()
            with contextlib.suppress(asyncio.CancelledError):
                await task
        self.socket.close()


class Runner(web.AppRunner):
    """Runs an application with such a server."""

    def __init__(self, app: web.Application, counts: Counts, **settings: Any) -> None:
        # a compressed body stays so: a few bytes of one may stand for all the memory
        super().__init__(app, access_log=None, auto_decompress=False, **settings)
        self.counts = counts

    async def _make_server(self) -> web.Server:
        return Server(await super()._make_server(), self.counts)
