"""The routes of the office, and the response to each request: a fault has fixed words."""

from __future__ import annotations

import asyncio
from collections.abc import Awaitable, Callable
from typing import TYPE_CHECKING

from aiohttp import web

from . import budgets, requests
from .admission import MOST_BODY, Admission
from .connections import handler_of
from .participant_answers import ParticipantAnswers
from .public_answers import FixedFiles, PublicAnswers, read_fixed_files
from .refusals import Refused, RequestFault
from .responses import fault_response

if TYPE_CHECKING:
    from .serve import Office

HEADERS = {
    "Content-Security-Policy": "default-src 'none'; script-src 'self'; style-src 'self'; connect-src 'self'; img-src 'self'; "
    "base-uri 'none'; form-action 'none'; frame-ancestors 'none'",
    "X-Content-Type-Options": "nosniff",
    "X-Frame-Options": "DENY",
    "Referrer-Policy": "no-referrer",
    "Cross-Origin-Opener-Policy": "same-origin",
    "Cross-Origin-Resource-Policy": "same-origin",
    "Cache-Control": "no-store",
    "Server": "dam-office",
}
SECURE = {"Strict-Transport-Security": "max-age=31536000"}  # over TLS
DAY = r"/days/{day:[0-9A-Za-z._-]{1,32}}"
OWN = r"/{who:[A-Z]{1,8}}"
NUMBER = r"/{number:[1-9][0-9]{0,4}}"
Answering = Callable[[web.Request], Awaitable[web.StreamResponse]]


class Web:
    """The application of an office; `office` has its days, by name, and its participants."""

    def __init__(self, office: Office, files: FixedFiles, is_secure: bool, behind_proxy: bool, demo: dict[str, str] | None) -> None:
        self.office, self.counts, self.log = office, office.counts, office.log
        self.headers = {**HEADERS, **(SECURE if is_secure else {})}
        self.budgets = budgets.Budgets(behind_proxy)
        self.admission = Admission(office, self.budgets)
        self.own, self.public = ParticipantAnswers(office, self.admission), PublicAnswers(office, self.admission, demo, files)

    @classmethod
    def read(cls, office: Office, is_secure: bool = False, behind_proxy: bool = False, demo: dict[str, str] | None = None) -> Web:
        """The application with the files that don't change, which are read."""
        return cls(office, read_fixed_files(bool(demo)), is_secure, behind_proxy, demo)

    def new_application(self) -> web.Application:
        app = web.Application(middlewares=[self.answer_request], client_max_size=MOST_BODY)
        app.on_response_prepare.append(self.add_headers)
        own, public = self.own, self.public
        get, put, post = app.router.add_get, app.router.add_put, app.router.add_post
        put(f"{DAY}/commands{OWN}{NUMBER}", own.answer_commands)  # first, since routes are tried in turn
        get(f"{DAY}/commands{OWN}{NUMBER}", own.answer_receipt)
        for path in public.files:
            get(path, public.answer_file)
        get("/favicon.ico", public.answer_no_icon)
        get("/healthz", public.answer_health)
        get("/metrics", public.answer_metrics)
        get("/days", public.answer_days)
        get(DAY, public.answer_day)
        get(f"{DAY}/head", public.answer_head)
        get(f"{DAY}/prices", public.answer_prices)
        for name in ("results", "journal", "replies"):
            get(f"{DAY}/{name}", public.answer_published)
        get(f"{DAY}/commands{OWN}", own.answer_own_commands)
        get(f"{DAY}/orders{OWN}", own.answer_own_orders)
        get(f"{DAY}/receipts{OWN}", own.answer_own_receipts)
        get(f"{DAY}/statement{OWN}", own.answer_statement)
        post(f"{DAY}/tables{OWN}", own.answer_table)
        if public.demo:
            get("/demo", public.answer_demo_tokens)
            post(f"{DAY}/close", public.begin_close_and_answer)
        return app

    async def add_headers(self, request: web.Request, response: web.StreamResponse) -> None:
        response.headers.update(self.headers)

    @web.middleware
    async def answer_request(self, request: web.Request, handler: Answering) -> web.StreamResponse:
        """Answers each request: a fault as JSON, with fixed words."""
        handler_of(request).note_busy()
        response: web.StreamResponse
        try:
            self.budgets.charge_look_or_refuse(request)
            response = await handler(request)
        except Refused as refused:
            response = fault_response(refused.fault, str(refused), refused.seconds, **refused.more)
        except requests.BadRequest as wrong:
            response = fault_response(RequestFault.MALFORMED, str(wrong))
        except web.HTTPRequestEntityTooLarge:
            response = fault_response(RequestFault.TOO_LARGE, f"a request has at most {MOST_BODY:,} bytes")
            response.force_close()
        except web.HTTPMethodNotAllowed as other:
            response = fault_response(RequestFault.METHOD, "this method isn't for this path")
            response.headers["Allow"] = other.headers["Allow"]
        except web.HTTPException as other:
            response = web.json_response({"fault": RequestFault.NOT_FOUND.word, "words": "there is nothing here"}, status=other.status)
        except (asyncio.CancelledError, ConnectionError):
            raise
        except Exception as wrong:
            day = {"day": request.match_info["day"]} if request.match_info.get("day") in self.office.writers else {}
            resource = request.match_info.route.resource
            self.log.write_event("defect", kind=type(wrong).__name__, route=resource.canonical if resource else "none", **day)
            response = fault_response(RequestFault.DEFECT, "the office failed at this request")
        if handler_of(request).is_deaf:
            response.force_close()
        method = request.method if request.method in ("GET", "HEAD", "PUT", "POST") else "other"
        self.counts.add("requests_total", f'{{method="{method}",status="{response.status:d}"}}')
        return response
