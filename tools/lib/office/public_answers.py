"""The answers that all may see: files that don't change, days with their heads and prices, and the operator's published files."""

from __future__ import annotations

from collections.abc import Mapping
from typing import TYPE_CHECKING

from aiohttp import web

from ..base import clock
from ..base.json_value import JsonObject
from ..seal import heads
from . import fixed_files, folder
from .admission import Admission, refuse_unknown, require_query_number
from .day_writer import DayWriter
from .refusals import RequestFault, Refused
from .responses import jsonl_response, send_file

if TYPE_CHECKING:
    from .serve import Office


FixedFiles = Mapping[str, tuple[str, str]]  # the text and the kind of each file that doesn't change, by its path in the office


def read_fixed_files(is_demo: bool) -> FixedFiles:
    files = {path: (fixed_files.read_page_part_text(name), kind) for path, (name, kind) in fixed_files.PARTS.items()}
    return {**files, "/openapi.json": (fixed_files.read_openapi_text(is_demo=is_demo), "application/json")}


class PublicAnswers:
    """`demo` has the tokens of a demo by participant; they guard nothing."""

    def __init__(self, office: Office, admission: Admission, demo: dict[str, str] | None, files: FixedFiles) -> None:
        self.office, self.counts, self.admission, self.budgets, self.demo = office, office.counts, admission, admission.budgets, demo
        self.files = {**files, "/key": (office.public_key, "application/x-pem-file")}

    async def answer_file(self, request: web.Request) -> web.Response:
        text, kind = self.files[request.path]
        return web.Response(text=text, content_type=kind)

    async def answer_no_icon(self, request: web.Request) -> web.Response:
        return web.Response(status=204)

    async def read_day_record(self, writer: DayWriter) -> JsonObject:
        terms, now, size = writer.terms, writer.clock.now(), writer.ledger.size
        closes = terms.closes.timestamp()
        state = await writer.read_state()
        return {
            "day": terms.day,
            "periods": terms.periods,
            "closes": terms.closes.isoformat(),
            "zone": terms.zone,
            "seconds_left": round(max(0, closes - now), 3) if state.name == folder.OPEN else 0,
            "state": state.name,
            "entries": size,
            "has_statement": state.has_statement,
            "has_journal": state.has_journal,
        }

    async def answer_days(self, request: web.Request) -> web.Response:
        self.budgets.charge_days(request, len(self.office.writers))
        days = [await self.read_day_record(writer) for writer in list(self.office.writers.values())]
        return web.json_response({"days": days, "demo": bool(self.demo)})

    async def answer_day(self, request: web.Request) -> web.Response:
        writer = self.admission.require_writer(request)
        periods = writer.terms.periods
        begins = [clock.begin_time(periods, number) for number in range(1, periods + 1)]
        return web.json_response({**await self.read_day_record(writer), "begins": begins})

    async def answer_head(self, request: web.Request) -> web.Response:
        """The newest head; with `since` the proof that it goes on from the head of this number of entries."""
        writer = self.admission.require_unstopped_writer(request)
        refuse_unknown(writer)
        ledger = writer.ledger
        if "since" not in request.query:
            return jsonl_response(heads.line_bytes_of(ledger.signed_head()))
        since = require_query_number(request, "since")
        if since > ledger.size:
            raise Refused(RequestFault.NOT_FOUND, "there is no such head yet")
        return jsonl_response(heads.line_bytes_of(ledger.seal.require_extension(ledger.signed_head(since), ledger.signed_head())))

    async def answer_prices(self, request: web.Request) -> web.Response:
        """The results without the orders and the welfare: the day, and each period's price and volume."""
        writer = self.admission.require_unstopped_writer(request)
        if not writer.published.has_results:
            raise Refused(RequestFault.NOT_FOUND, "there are no results yet")
        return web.Response(text=writer.published.read_and_cache_prices_text(writer.terms.periods), content_type="text/plain")

    async def answer_published(self, request: web.Request) -> web.StreamResponse:
        """The texts that have the orders of all: only if the operator publishes the journal."""
        writer, name = self.admission.require_unstopped_writer(request), request.path.rpartition("/")[2]
        if not writer.published.has_results:
            raise Refused(RequestFault.NOT_FOUND, "there are no results yet")
        if not writer.published.has_journal:
            raise Refused(RequestFault.NOT_FOUND, "the operator hasn't published the day; its prices are under prices")
        files = {"results": folder.RESULTS, "journal": folder.JOURNAL, "replies": folder.REPLIES}
        return await send_file(request, writer.files.path_of(files[name]))

    async def answer_health(self, request: web.Request) -> web.Response:
        is_healthy = self.office.is_healthy
        return web.json_response({"status": "ok" if is_healthy else "unavailable"}, status=200 if is_healthy else 503)

    async def answer_metrics(self, request: web.Request) -> web.Response:
        self.budgets.charge_days(request, len(self.office.writers))
        gauges = [("right", int(self.office.is_healthy))]
        for name, writer in list(self.office.writers.items()):
            label = f'{{day="{name}"}}'
            gauges += [(f"entries{label}", writer.ledger.size), (f"waiting{label}", len(writer.queue.waiting))]
            is_open = (await writer.read_state()).name == folder.OPEN
            gauges += [(f"ready{label}", int(writer.is_healthy)), (f"open{label}", int(is_open))]
        return web.Response(text=self.counts.prometheus_text(gauges), content_type="text/plain")

    # --- the demo

    async def answer_demo_tokens(self, request: web.Request) -> web.Response:
        """The made-up participants of a demo, with their tokens: they guard nothing."""
        return web.json_response({"participants": self.demo})

    async def begin_close_and_answer(self, request: web.Request) -> web.Response:
        writer = self.admission.require_writer(request)
        self.admission.refuse_stranger_to_demo(request)
        writer.begin_close()
        return web.json_response(await self.read_day_record(writer))
