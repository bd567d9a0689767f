"""The answers to a participant: its commands are entered, and it gets its own data, nothing of another's."""

from __future__ import annotations

import asyncio
import json
import time
from typing import TYPE_CHECKING

from aiohttp import web

from ..journal.journal import Command
from ..seal import heads
from . import budgets, requests, table_reader
from .admission import Admission, content_type, read_body, require_length, require_query_number
from .day_writer import DayWriter
from .ledger import Ledger
from .refusals import RequestFault, Refused
from .responses import jsonl_response

if TYPE_CHECKING:
    from .serve import Office

ANSWER_SECONDS = 30  # for the entries of commands
LONG_BODY = 1 << 14  # bytes of a body that is read in a thread
RECEIPTS_AT_ONCE = 8  # that are made before others get a turn
TABLES_AT_ONCE, TABLE_SECONDS = 2, 1  # that are read, each of another participant; seconds until one may send the next


async def receipts_bytes(ledger: Ledger, entries: list[int], head: heads.Head | None = None) -> bytes:
    """The receipts of entries, each under its own head or all under this one."""
    made = []
    for place, entry in enumerate(entries, 1):
        made.append(heads.line_bytes_of(ledger.seal.receipt(entry, head) if head else ledger.receipt(entry)))
        if place % RECEIPTS_AT_ONCE == 0:
            await asyncio.sleep(0)
    return b"".join(made)


class ParticipantAnswers:
    def __init__(self, office: Office, admission: Admission) -> None:
        self.counts, self.admission, self.budgets = office.counts, admission, admission.budgets
        self.tables = asyncio.Semaphore(TABLES_AT_ONCE)
        self.reading: set[str] = set()  # the participants whose table is read, or waits for it

    def charge_and_answer(self, who: str, text: str) -> web.Response:
        """An answer of a participant's own data, which is charged by its length."""
        self.budgets.charge_bytes(who, len(text))
        return web.Response(text=text, content_type="application/json")

    async def answer_commands(self, request: web.Request) -> web.Response:
        writer, who = self.admission.require_writer_and_participant(request, self.budgets.commands)
        length = require_length(request)
        self.budgets.commands.charge(who, length // budgets.BYTES_OF_COMMAND)  # before it is read, so that not many are at once
        body = await read_body(request)
        self.admission.require_authorized_participant(request)  # again: the token may have been revoked
        began = time.monotonic()
        first = int(request.match_info["number"])
        commands = await self.parse_commands(body, content_type(request), who, first)
        self.budgets.commands.charge(who, max(0, len(commands) - 1 - len(body) // budgets.BYTES_OF_COMMAND))  # of short ones, each counts
        entries = await self.enter_or_refuse(writer, who, first, commands, request)
        answer = jsonl_response(await receipts_bytes(writer.ledger, entries))
        self.counts.note_seconds(time.monotonic() - began)
        return answer

    async def parse_commands(self, body: bytes, kind: str, who: str, first: int) -> list[Command]:
        """The commands of a body. A long one is read in a thread, so that others get their turns."""
        if len(body) < LONG_BODY:
            return requests.parse_commands(body, kind, who, first)
        return await asyncio.to_thread(requests.parse_commands, body, kind, who, first)

    async def enter_or_refuse(
        self, writer: DayWriter, who: str, first: int, commands: list[Command], request: web.Request
    ) -> list[int]:
        """The numbers of the entries of commands, once they are on the disk. A token that was revoked by then enters nothing more."""
        done = writer.submit_or_refuse(who, first, commands, lambda: self.admission.read_and_see_authorization(request))
        await asyncio.wait((done,), timeout=ANSWER_SECONDS)
        if not done.done():
            raise Refused(RequestFault.UNAVAILABLE, "the desk hasn't answered yet: send the same command again", seconds=1)
        return done.result()

    async def answer_receipt(self, request: web.Request) -> web.Response:
        writer, who = self.admission.require_writer_and_participant(request)
        number, count = int(request.match_info["number"]), writer.ledger.own_count(who)
        if number > count:
            raise Refused(RequestFault.NOT_FOUND, "there is no such command", next=count + 1)
        return jsonl_response(await receipts_bytes(writer.ledger, [writer.ledger.own_entry(who, number).entry]))

    async def answer_own_receipts(self, request: web.Request) -> web.Response:
        """All receipts of a participant, under the newest head."""
        writer, who = self.admission.require_writer_and_participant(request)
        self.budgets.reads.charge(who, writer.ledger.own_count(who) // budgets.RECEIPTS_OF_READ)
        made = await receipts_bytes(writer.ledger, list(writer.ledger.own.get(who, ())), writer.ledger.signed_head())
        self.budgets.charge_bytes(who, len(made))
        return jsonl_response(made)

    async def answer_own_commands(self, request: web.Request) -> web.Response:
        writer, who = self.admission.require_writer_and_participant(request)
        since = require_query_number(request, "since")
        self.budgets.reads.charge(who, max(0, writer.ledger.own_count(who) - since) // budgets.COMMANDS_OF_READ)
        found = [one._asdict() for one in writer.ledger.own_entries(who, since)]
        made = {"next": writer.ledger.own_count(who) + 1, "share": writer.ledger.share(who), "commands": found}
        return self.charge_and_answer(who, json.dumps(made))

    async def answer_own_orders(self, request: web.Request) -> web.Response:
        writer, who = self.admission.require_writer_and_participant(request)
        self.budgets.reads.charge(who, writer.ledger.own_count(who) // budgets.ORDERS_OF_READ)
        found = []
        for place, (name, order) in enumerate(writer.ledger.own_orders(who), 1):
            found.append(json.dumps({"order": name, **order._asdict()}))
            if place % budgets.ORDERS_OF_READ == 0:
                await asyncio.sleep(0)
        return self.charge_and_answer(who, f'{{"orders": [{", ".join(found)}]}}')

    async def answer_table(self, request: web.Request) -> web.Response:
        """The records that a table makes. They aren't entered: the participant sees them first."""
        writer, who = self.admission.require_writer_and_participant(request, count=budgets.READS_OF_TABLE)
        require_length(request)
        if who in self.reading:
            raise Refused(RequestFault.TOO_FAST, "your table before this one is still being read", seconds=TABLE_SECONDS)
        self.reading.add(who)
        try:
            body = await read_body(request)
            async with self.tables:
                if request.transport is None:  # the client is gone
                    raise ConnectionResetError
                orders = [(name, order.kind) for name, order in writer.ledger.own_orders(who)]
                read = await table_reader.capture_table(body, who, writer.terms.periods, orders)
        finally:
            self.reading.discard(who)
        return self.charge_and_answer(who, json.dumps(read._asdict()))

    async def answer_statement(self, request: web.Request) -> web.Response:
        writer, who = self.admission.require_writer_and_participant(request)
        found = await asyncio.to_thread(writer.published.read_and_cache_text, who)
        if found is None:
            raise Refused(RequestFault.NOT_FOUND, "there is no statement yet")
        return self.charge_and_answer(who, found)
