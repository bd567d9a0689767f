"""Whether a request is answered, in this order: the token, the rate, the size. A request that isn't answered is refused by an exception."""

from __future__ import annotations

import asyncio
from typing import TYPE_CHECKING

import async_timeout
from aiohttp import web

from . import budgets, folder
from .day_writer import DayWriter
from .refusals import STOPPED_WORDS, RequestFault, Refused, unread_tokens_refusal

if TYPE_CHECKING:
    from .serve import Office

MOST_BODY = 1 << 20  # bytes
BODY_SECONDS = 15  # for a body to come


class Admission:
    """The requests that each participant or stranger may make of an office. `office` has its days, by name, and its participants."""

    def __init__(self, office: Office, limits: budgets.Budgets) -> None:
        self.office, self.counts, self.budgets = office, office.counts, limits

    def require_writer(self, request: web.Request) -> DayWriter:
        writer = self.office.writers.get(request.match_info["day"])
        if writer is None:
            raise Refused(RequestFault.NOT_FOUND, "there is no such day")
        return writer

    def require_authorized_participant(self, request: web.Request) -> str:
        """The participant whose token the request has, and whose name its path has; all others are refused alike."""
        who = request.match_info["who"]
        try:
            is_authorized = self.read_and_see_authorization(request)
        except folder.UNREADABLE:
            raise unread_tokens_refusal() from None
        if not is_authorized:
            self.counts.add("wrong_tokens_total")
            self.budgets.charge_guess_or_refuse(request)
            raise Refused(RequestFault.TOKEN, "the token isn't of this participant")
        return who

    def read_and_see_authorization(self, request: web.Request) -> bool:
        """Whether the token is the participant's now. Of two headers, a proxy may have seen the other."""
        if len(request.headers.getall("Authorization", ())) > 1:
            raise Refused(RequestFault.MALFORMED, "the request has two Authorization headers")
        scheme, _, token = request.headers.get("Authorization", "").partition(" ")
        known = self.office.register.read_and_see_if_token_of(request.match_info["who"], token)
        return known and scheme.lower() == "bearer"

    def require_writer_and_participant(
        self, request: web.Request, buckets: budgets.Buckets | None = None, count: int = 1
    ) -> tuple[DayWriter, str]:
        """The day and the participant of a request of its own data."""
        who = self.require_authorized_participant(request)
        budgets.charge_or_refuse(buckets or self.budgets.reads, who, count)
        writer = self.require_unstopped_writer(request)
        refuse_unknown(writer)
        return writer, who

    def require_unstopped_writer(self, request: web.Request) -> DayWriter:
        """The day of a request. A stopped day shows nothing: its journal may differ from the one that earlier heads sign, or a file may
        have changed."""
        writer = self.require_writer(request)
        if writer.fault:
            raise Refused(RequestFault.UNAVAILABLE, STOPPED_WORDS)
        return writer

    def refuse_stranger_to_demo(self, request: web.Request) -> None:
        token = request.headers.get("Authorization", "").partition(" ")[2]
        if not self.office.register.read_and_see_if_token_of(token.partition(".")[0], token):
            raise Refused(RequestFault.TOKEN, "the token isn't of a participant")


def refuse_unknown(writer: DayWriter) -> None:
    if not writer.is_known.is_set():
        raise Refused(RequestFault.UNAVAILABLE, "the office is still reading the day's journal", seconds=1)


def require_length(request: web.Request) -> int:
    """The length of a body, which is known before it is read."""
    # aiohttp puts the value of a header without a name before the next one: a length below 0 would fill the bucket
    word = request.headers.get("Content-Length", "")
    if not (word.isascii() and word.isdigit()):
        raise Refused(RequestFault.MALFORMED, "the request needs a Content-Length")
    length = int(word)
    if length > MOST_BODY:
        raise web.HTTPRequestEntityTooLarge(MOST_BODY, length)
    return length


async def read_body(request: web.Request) -> bytes:
    if request.content.is_eof():  # it is here already
        return await request.read()
    try:
        async with async_timeout.timeout(BODY_SECONDS):
            return await request.read()
    except asyncio.TimeoutError:
        raise Refused(RequestFault.MALFORMED, f"the request didn't come whole within {BODY_SECONDS} s") from None


def content_type(request: web.Request) -> str:
    """The type of a body. aiohttp's own reader of it takes as long as the rest of a request."""
    return request.headers.get("Content-Type", "").partition(";")[0].strip().lower()


def require_query_number(request: web.Request, name: str) -> int:
    word = request.query.get(name, "0")
    if not (word.isascii() and word.isdigit() and len(word) <= 5):
        raise Refused(RequestFault.MALFORMED, f"{name} should be a number up to 99999")
    return int(word)
