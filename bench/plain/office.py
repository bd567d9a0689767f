#!/usr/bin/env python3
"""office.py FILE PORT: an office to compare with. aiohttp takes a command, the book of tools/lib replies, and SQLite has a row for it
on the disk before the answer. It has the office's routes for one participant's commands, but neither tokens nor receipts."""

import sqlite3
import sys
from pathlib import Path

from aiohttp import web

sys.path.insert(0, str(Path(__file__).resolve().parents[2] / "tools"))

from lib.journal import book
from lib.seal import heads

TABLE = "CREATE TABLE entries (entry INTEGER PRIMARY KEY, who TEXT, number INTEGER, record TEXT, reply TEXT, UNIQUE (who, number))"


class PlainOffice:
    def __init__(self, path: str, periods: int = 24) -> None:
        self.rows = sqlite3.connect(path, isolation_level=None)
        for words in ("PRAGMA journal_mode=WAL", "PRAGMA synchronous=FULL", TABLE):
            self.rows.execute(words)
        self.book = book.Book(periods)

    async def answer_next_number(self, request: web.Request) -> web.Response:
        (count,) = self.rows.execute("SELECT count(*) FROM entries WHERE who = ?", (request.match_info["who"],)).fetchone()
        return web.json_response({"next": count + 1})

    async def enter_and_answer(self, request: web.Request) -> web.Response:
        record = (await request.text()).rstrip("\n")
        command = heads.command_of_record(record)
        assert command, record
        reason = self.book.apply_or_return_refusal(command)
        reply = f"refused,{reason}" if reason else heads.DONE
        row = request.match_info["who"], int(request.match_info["number"]), record, reply
        added = self.rows.execute("INSERT INTO entries (who, number, record, reply) VALUES (?, ?, ?, ?)", row)
        return web.json_response({"number": added.lastrowid, "record": record, "reply": reply})


def main(path: str, port: str) -> None:
    office, app = PlainOffice(path), web.Application()
    app.router.add_get("/days/{day}/commands/{who}", office.answer_next_number)
    app.router.add_put("/days/{day}/commands/{who}/{number}", office.enter_and_answer)
    web.run_app(app, host="127.0.0.1", port=int(port), print=lambda *_: None, access_log=None)


main(*sys.argv[1:])
