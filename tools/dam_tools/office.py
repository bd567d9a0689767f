"""A client of an auction office (tools/office): `Office` for programs that wait, `AsyncOffice` for asyncio. It numbers commands, and sends
one again if no answer comes: the office enters it once.

    office = dam_tools.office.Office("https://auction.example", token)
    receipts = office.enter("2026-11-29", "submit,GAS,UNIT-8,hour,sell,6000,8:500,,")
"""

from __future__ import annotations

import asyncio
import functools
import http.client
import json
import ssl
import time
import urllib.request
from collections.abc import Iterator
from typing import Any, NamedTuple

RETRIES = 8
FIRST_PAUSE, LONGEST_PAUSE = 0.2, 5.0  # seconds before a request is sent again
AGAIN = (429, 502, 503, 504)  # statuses after which the same request may do
DONE = 200  # the status of each success


class OfficeFault(Exception):
    """An answer that isn't a success: the fault's name, such as NumberUsed, Closed or Token, and the status; None if no answer came."""

    def __init__(self, fault: str, words: str, status: int | None = None, more: dict | None = None) -> None:
        super().__init__(words)
        self.fault, self.status, self.more = fault, status, more or {}


class Asked(NamedTuple):
    """A request."""

    method: str
    path: str
    body: bytes | None = None
    kind: str = "text/csv"


def fault_of_answer(status: int, data: bytes) -> OfficeFault:
    try:
        found = json.loads(data)
        return OfficeFault(found.pop("fault"), found.pop("words"), status, found)
    except (ValueError, KeyError, TypeError, AttributeError, RecursionError):
        which = ": it redirects, which no office does" if 300 <= status < 400 else ""
        return OfficeFault("Unknown", f"the answer has the status {status}{which}", status)


def strange_fault() -> OfficeFault:
    """The fault of a success that no office sends, such as a proxy's page."""
    return OfficeFault("Unknown", f"the answer has the status {DONE}, but isn't an office's", DONE)


def parse_value(data: bytes, member: str | None = None) -> Any:
    """The value of an answer in JSON, or a member of it."""
    try:
        found = json.loads(data)
        return found if member is None else found[member]
    except (ValueError, KeyError, TypeError, RecursionError):
        raise strange_fault() from None


def iterate_pauses() -> Iterator[float]:
    """How long to wait before each try after the first."""
    pause = FIRST_PAUSE
    for _ in range(RETRIES):
        yield pause
        pause = min(2 * pause, LONGEST_PAUSE)


def body_and_kind(commands: tuple) -> tuple[bytes, str]:
    """The body of commands: records of a journal, or dictionaries as the office's OpenAPI file describes them."""
    if all(isinstance(one, str) for one in commands):
        return "".join(f"{one}\n" for one in commands).encode(), "text/csv"
    if all(isinstance(one, dict) for one in commands):
        return json.dumps(commands).encode(), "application/json"
    raise ValueError("commands are all records or all dictionaries")


def parse_receipts(data: bytes) -> list[dict]:
    """The receipts of an answer, at least one."""
    made = [parse_value(line) for line in data.splitlines()]
    if not made:
        raise strange_fault()
    return made


def parse_prices(data: bytes) -> list[tuple[int, int, int]]:
    """The numbers of an answer's lines of periods, at least one."""
    try:
        lines = data.decode().splitlines()
        numbers = [map(int, line.split(",")[1:4]) for line in lines if line.startswith("period,")]
        made = [(period, price, volume) for period, price, volume in numbers]
    except ValueError:
        raise strange_fault() from None
    if not made:
        raise strange_fault()
    return made


class Calls:
    """The basis of both clients: the requests of each call."""

    def __init__(self, url: str, token: str, timeout: float = 60, context: ssl.SSLContext | None = None) -> None:
        self.url, self.token, self.timeout, self.context = url.rstrip("/"), token, timeout, context
        self.who = token.partition(".")[0]
        self.numbers: dict[str, int] = {}  # the next number of each day

    def entering_request(self, day: str, body: bytes, kind: str) -> Asked:
        """The request that enters commands under the next number, which stays the next one until an answer says otherwise."""
        return Asked("PUT", f"{self.own_path(day, 'commands')}/{self.numbers[day]}", body, kind)

    def forget_wrong_number(self, day: str, fault: OfficeFault) -> None:
        """Forgets the next number, if it isn't the office's."""
        if fault.fault in ("NumberUsed", "NumberAhead"):
            del self.numbers[day]

    def own_path(self, day: str, part: str) -> str:
        return f"/days/{day}/{part}/{self.who}"

    def headers(self, asked: Asked) -> dict[str, str]:
        made = {"Authorization": f"Bearer {self.token}"}
        return {**made, "Content-Type": asked.kind} if asked.body is not None else made


class EachAnswer(urllib.request.HTTPErrorProcessor):
    """Takes each answer as it is: a redirect isn't followed, because its target would get the token."""

    def http_response(self, request: urllib.request.Request, response: http.client.HTTPResponse) -> http.client.HTTPResponse:
        return response

    https_response = http_response


class Office(Calls):
    """A client whose calls wait for the answer."""

    @functools.cached_property
    def opener(self) -> urllib.request.OpenerDirector:
        return urllib.request.build_opener(EachAnswer, urllib.request.HTTPSHandler(context=self.context))

    def once(self, asked: Asked) -> bytes:
        made = urllib.request.Request(self.url + asked.path, asked.body, self.headers(asked), method=asked.method)
        try:
            with self.opener.open(made, timeout=self.timeout) as answer:
                status, data = answer.status, answer.read()
        except (OSError, http.client.HTTPException) as fault:
            raise OfficeFault("Unreached", f"no answer came: {fault}") from None
        if status != DONE:
            raise fault_of_answer(status, data)
        return data

    def ask(self, asked: Asked) -> bytes:
        """The answer to a request, which is sent again if none comes, or the office can't answer yet."""
        for pause in iterate_pauses():
            try:
                return self.once(asked)
            except OfficeFault as fault:
                if fault.status not in (None, *AGAIN):
                    raise
            time.sleep(pause)
        return self.once(asked)

    def get(self, path: str, member: str | None = None) -> Any:
        return parse_value(self.ask(Asked("GET", path)), member)

    def days(self) -> list[dict]:
        """The days of the office, with their states."""
        return self.get("/days", "days")

    def next(self, day: str) -> int:
        """The number of the next command."""
        return self.get(f"{self.own_path(day, 'commands')}?since=99999", "next")

    def enter(self, day: str, *commands: str | dict) -> list[dict]:
        """Enters commands, and returns the receipt of each once it is on the office's disk. Its `reply` is the book's. If no answer comes
        (the fault's status is None), call it again with the same commands: they are entered once."""
        body, kind = body_and_kind(commands)
        if day not in self.numbers:
            self.numbers[day] = self.next(day)
        try:
            made = parse_receipts(self.ask(self.entering_request(day, body, kind)))
        except OfficeFault as fault:
            self.forget_wrong_number(day, fault)
            raise
        self.numbers[day] += len(made)
        return made

    def commands(self, day: str) -> list[dict]:
        """Each command so far: its number, its entry in the journal, its record and the reply."""
        return self.get(self.own_path(day, "commands"), "commands")

    def orders(self, day: str) -> list[dict]:
        """The orders in the book."""
        return self.get(self.own_path(day, "orders"), "orders")

    def receipts(self, day: str) -> bytes:
        """The receipts of all commands under the newest head, for `dam-receipts verify`."""
        return self.ask(Asked("GET", self.own_path(day, "receipts")))

    def head(self, day: str, since: int | None = None) -> bytes:
        """The newest signed head, or the proof that it goes on from the head of this number of entries."""
        return self.ask(Asked("GET", f"/days/{day}/head" + ("" if since is None else f"?since={since}")))

    def table(self, day: str, data: bytes) -> list[str]:
        """The records that a table of orders or commands (CSV or Excel) makes; `enter` enters them."""
        asked = Asked("POST", self.own_path(day, "tables"), data, "application/octet-stream")
        return parse_value(self.ask(asked), "records")

    def prices(self, day: str) -> list[tuple[int, int, int]]:
        """After the close, each period's number, price in cents per MWh and volume in tenths of a MW."""
        return parse_prices(self.ask(Asked("GET", f"/days/{day}/prices")))

    def statement(self, day: str) -> list[dict]:
        """After the close, the outcome of each command, and why."""
        return self.get(self.own_path(day, "statement"), "rows")

    def text(self, day: str, name: str) -> bytes:
        """`results`, `journal` or `replies`, if the operator has published the journal."""
        return self.ask(Asked("GET", f"/days/{day}/{name}"))


class AsyncOffice(Calls):
    """The same for asyncio, of a participant's own data, with aiohttp (Debian's python3-aiohttp). Use it as
    `async with AsyncOffice(url, token) as office:`."""

    async def __aenter__(self) -> AsyncOffice:
        import aiohttp

        self.faults = (aiohttp.ClientError, asyncio.TimeoutError, OSError)
        self.session = aiohttp.ClientSession(timeout=aiohttp.ClientTimeout(self.timeout))
        return self

    async def __aexit__(self, *_: object) -> None:
        await self.session.close()

    async def once(self, asked: Asked) -> bytes:
        how = {"data": asked.body, "headers": self.headers(asked), "ssl": self.context, "allow_redirects": False}
        try:
            async with self.session.request(asked.method, self.url + asked.path, **how) as answer:
                data = await answer.read()
        except self.faults as fault:
            raise OfficeFault("Unreached", f"no answer came: {fault}") from None
        if answer.status != DONE:
            raise fault_of_answer(answer.status, data)
        return data

    async def ask(self, asked: Asked) -> bytes:
        for pause in iterate_pauses():
            try:
                return await self.once(asked)
            except OfficeFault as fault:
                if fault.status not in (None, *AGAIN):
                    raise
            await asyncio.sleep(pause)
        return await self.once(asked)

    async def get(self, path: str, member: str | None = None) -> Any:
        return parse_value(await self.ask(Asked("GET", path)), member)

    async def next(self, day: str) -> int:
        return await self.get(f"{self.own_path(day, 'commands')}?since=99999", "next")

    async def enter(self, day: str, *commands: str | dict) -> list[dict]:
        body, kind = body_and_kind(commands)
        if day not in self.numbers:
            self.numbers[day] = await self.next(day)
        try:
            made = parse_receipts(await self.ask(self.entering_request(day, body, kind)))
        except OfficeFault as fault:
            self.forget_wrong_number(day, fault)
            raise
        self.numbers[day] += len(made)
        return made

    async def commands(self, day: str) -> list[dict]:
        return await self.get(self.own_path(day, "commands"), "commands")

    async def orders(self, day: str) -> list[dict]:
        return await self.get(self.own_path(day, "orders"), "orders")

    async def receipts(self, day: str) -> bytes:
        return await self.ask(Asked("GET", self.own_path(day, "receipts")))

    async def statement(self, day: str) -> list[dict]:
        return await self.get(self.own_path(day, "statement"), "rows")
