"""The responses that several answers give: of faults, of records in lines, and of files."""

import os
from pathlib import Path

from aiohttp import web

from .refusals import RequestFault

PIECE = 1 << 14  # bytes of a file that are sent at once
JSONL = "application/jsonl"


def fault_response(fault: RequestFault, words: str, seconds: float | None = None, **more: int) -> web.Response:
    headers = {} if seconds is None else {"Retry-After": str(max(1, round(seconds)))}
    if fault is RequestFault.TOKEN:
        headers["WWW-Authenticate"] = "Bearer"
    return web.json_response({"fault": fault.word, "words": words, **more}, status=fault.status, headers=headers)


def jsonl_response(data: bytes) -> web.Response:
    return web.Response(body=data, content_type=JSONL)


async def send_file(request: web.Request, path: Path) -> web.StreamResponse:
    """A file, in pieces: over TLS, aiohttp's own way keeps a megabyte of it for each reader that is slow."""
    response = web.StreamResponse(headers={"Content-Type": "text/plain; charset=utf-8"})
    with path.open("rb") as file:
        response.content_length = os.fstat(file.fileno()).st_size
        await response.prepare(request)
        while request.method != "HEAD" and (piece := file.read(PIECE)):
            await response.write(piece)
    await response.write_eof()
    return response
