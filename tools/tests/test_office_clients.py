"""The office: the client for Python and its faults, and the heads of requests."""

import argparse
import asyncio
import contextlib
import http.server
import itertools
import json
import random
import re
import shutil
import socket
import struct
import tempfile
import threading
import unittest
from pathlib import Path
from unittest import mock

from office_support import DAY, aiohttp
from support import AUCTION, AUCTION_RESULTS, QUARTERS, QUARTERS_RESULTS, SUNNY, SUNNY_RESULTS, TOOLS, run_tool

from dam_tools import office as client
from lib.journal import journal
from lib.seal import heads

try:
    from lib.office import connections, folder, monitoring, published, refusals, requests, serve, table_reader as reader
except ImportError:  # without python3-aiohttp and the like, whose tests are skipped
    pass

NEEDS_AIOHTTP = unittest.skipIf(aiohttp is None, "python3-aiohttp is missing")


@NEEDS_AIOHTTP
class Requests(unittest.TestCase):
    def test_json_and_records_are_the_same(self):
        """On each command of the examples."""
        for path in (AUCTION, AUCTION.with_name("quarter-hours.csv"), AUCTION.with_name("first-day.csv")):
            for given in journal.parse_journal(path.read_bytes()).commands:
                match given:
                    case journal.Submit(who, name, order):
                        links = {"parent": order.parent, "group": order.group} if order.kind == "block" else {}
                        value = {"what": "submit", "order": name, "kind": order.kind, "side": order.side, "price": order.price, **links}
                        value["volumes"] = order.volumes
                    case journal.Amend(who, name, price, volumes):
                        value = {"what": "amend", "order": name, "price": price, "volumes": volumes}
                    case journal.Cancel(who, name):
                        value = {"what": "cancel", "order": name}
                    case _:
                        continue
                line = journal.command_record_text(given)
                self.assertEqual(requests.parse_commands(json.dumps(value).encode(), requests.JSON, who), [given])
                self.assertEqual(requests.parse_commands(line.encode(), requests.RECORDS, who), [given])
                self.assertEqual(requests.parse_commands(f"{line}\r\n{line}\n".encode(), requests.RECORDS, who), [given, given])

    def test_other_bodies_are_faults_with_their_place(self):
        right = {"what": "submit", "order": "A", "kind": "hour", "side": "buy", "price": 1, "volumes": [[1, 1]]}
        for body, kind, words in (
            (b"", requests.RECORDS, "no command"),
            (b"x", "text/html", "type of the content"),
            (b"close,,,,,,,,", requests.RECORDS, r"command 1 of the request \(number 7\) is a close"),
            (b"cancel,GAS,A,,,,,,\ncancel,OIL,A,,,,,,", requests.RECORDS, r"command 2 of the request \(number 8\) isn't yours"),
            (b"cancel,GAS,a,,,,,,", requests.RECORDS, "line 1, order"),
            (b"day,24,,,,,,,", requests.RECORDS, "no records of a journal: its first record is a day, which the office adds"),
            (b'\r\n"day",24,,,,,,,\ncancel,GAS,A,,,,,,', requests.RECORDS, "its first record is a day, which the office adds: send the commands"),
            (b"day,24,,,,,,,\n" + b"cancel,GAS,A,,,,,,\n" * 2_000, requests.RECORDS, "its first record is a day"),
            (b"\xff", requests.RECORDS, "no records of a journal"),
            (b"[", requests.JSON, "isn't JSON"),
            (b"[" * 100_000, requests.JSON, "isn't JSON"),
            (b"1", requests.JSON, "command 1"),
            (b'{"what":"cancel","order":"A","order":"B"}', requests.JSON, "two members of one name"),
            (json.dumps([right, {**right, "price": 1.5}]).encode(), requests.JSON, r"command 2 of the request \(number 8\): price"),
            (json.dumps({**right, "price": True}).encode(), requests.JSON, r"command 1 .*\(number 7\): price"),
            (json.dumps({**right, "order": "A,OIL"}).encode(), requests.JSON, r"\(number 7\): order"),
            (json.dumps({**right, "order": "A\nclose"}).encode(), requests.JSON, r"\(number 7\): order"),
            (json.dumps({**right, "volumes": {}}).encode(), requests.JSON, r"\(number 7\): volumes"),
            (json.dumps({**right, "volumes": [[1]]}).encode(), requests.JSON, r"\(number 7\): volumes"),
            (json.dumps({**right, "participant": "OIL"}).encode(), requests.JSON, "has the members"),
            (json.dumps({**right, "what": "close"}).encode(), requests.JSON, "submit, amend or cancel"),
            (json.dumps({**right, "what": []}).encode(), requests.JSON, "submit, amend or cancel"),
        ):
            with self.subTest(body=body[:80]):
                with self.assertRaisesRegex(requests.BadRequest, words):
                    requests.parse_commands(body, kind, "GAS", 7)

    def test_a_long_body_is_a_fault_with_its_place(self):
        body = b"cancel,GAS,A,,,,,,\n" * 2_000 + b"cancel,GAS,a,,,,,,\n"
        with self.assertRaisesRegex(requests.BadRequest, "BadField in record 2001 field 3"):
            requests.parse_commands(body, requests.RECORDS, "GAS")

    def test_few_faults_of_a_long_body_are_looked_for(self):
        for body, words in ((b"a\r" * 8_191, "FieldCount in record 1$"), (b"a\n" * 21, "FieldCount in record 1$"), (b"a\n", "line 1")):
            with self.subTest(body=body[:80]), self.assertRaisesRegex(requests.BadRequest, words):
                requests.parse_commands(body, requests.RECORDS, "GAS")

    def test_sums_of_all_orders_are_published_with_the_journal(self):
        with tempfile.TemporaryDirectory() as room:
            files = folder.DayFolder(room)
            day = {"periods": 24, "hourly_surplus_eur": "1.00", "block_surplus_eur": "2.00"}
            for name, text in ((folder.RESULTS, ""), (folder.STATEMENT, json.dumps({"day": day, "rows": []}))):
                files.path_of(name).write_text(text)
            self.assertEqual(published.Published(files).read_and_cache_statement("GAS")["day"], {"periods": 24})
            files.path_of(folder.OPEN_JOURNAL).touch()
            self.assertEqual(published.Published(files).read_and_cache_statement("GAS")["day"], day)

    def test_tables(self):
        table = b"participant,order,kind,side,price_eur_mwh,periods,volume_mw\nGAS,A,hour,buy,12.50,8,30\n"
        self.assertEqual(requests.parse_table(table, "GAS", 24), (["submit,GAS,A,hour,buy,1250,8:300,,"], []))
        changes = b"what,participant,order,price_eur_mwh,periods,volume_mw\namend,GAS,A,12.50,8-9,30\ncancel,GAS,B,,,\n"
        records, _ = requests.parse_table(changes, "GAS", 24)
        self.assertEqual(records, ["amend,GAS,A,,,1250,8:300;9:300,,", "cancel,GAS,B,,,,,,"])
        for data, words in (
            (table.replace(b"GAS", b"OIL"), "1 command of other participants than GAS: the first one is for A of OIL$"),
            (table[: table.index(b"GAS")], "^the table has no order below its first line$"),
            (table.replace(b",8,", b",25,"), "there is no period 25$"),
            (table.replace(b",8,", b",2026-08-10,"), "such as 8, 8-20 or 1;3;5-7, from 1 to 24: a spreadsheet has taken it for a date"),
            (b"", "empty"),
            (b"%PDF-1.4", r"^this is a PDF: save the table as \.xlsx or as CSV$"),
            (b"\xd0\xcf\x11\xe0\xa1\xb1\x1a\xe1" + "EncryptedPackage".encode("utf-16-le"), "password: save it without the password$"),
        ):
            with self.assertRaisesRegex(requests.BadRequest, words):
                requests.parse_table(data, "GAS", 24)

    def test_only_the_first_faults_of_a_table_are_told(self):
        """However many it has, the answer is short."""
        heads = "what,participant,order,kind,side,price_eur_mwh,periods,volume_mw,parent,group"
        for data, count in (
            (f"{heads}\n" + f"amend{',x' * 9}\n" * 4_000, 36_000),
            (f"{heads}\n" + "move\n" * 21, 21),
            (",".join([heads, *["what"] * 4_000]), 4_000),
            (heads.replace(",group", f"{',' * 4_001}group") + "\n" + ",".join(["x"] * 4_010) + "\n", 4_000),
        ):
            with self.subTest(data=data[:80], count=count), self.assertRaises(requests.BadRequest) as caught:
                requests.parse_table(data.encode(), "GAS", 24)
            lines = str(caught.exception).split("\n")
            self.assertEqual((len(lines), lines[-1]), (21, f"and {count - 20} more"))

    def test_a_table_links_to_orders_in_the_book(self):
        row = "participant,order,kind,side,price_eur_mwh,periods,volume_mw,parent\nGAS,KID%d,block,sell,50,15-16,5,BASE\n"
        read = lambda *orders: requests.parse_table((row % 2).encode(), "GAS", 24, orders)[0]
        self.assertEqual(read(("BASE", "block")), ["submit,GAS,KID2,block,sell,5000,15:50;16:50,BASE,"])
        for orders, words in (
            ([], "line 2, column parent: you have no order BASE, neither in the book nor in a line above"),
            ([("BASE2", "block")], "line 2, column parent: you have no order BASE, neither in the book nor in a line above"),
            ([("BASE", "hour")], "line 2, column parent: BASE in the book is an hourly order, not a block"),
            ([("BASE", "block"), *((f"B{number}", "block") for number in range(23))], "line 2: a book holds at most 24 blocks"),
        ):
            with self.subTest(orders=orders), self.assertRaisesRegex(requests.BadRequest, f"^{words}$"):
                read(*orders)

    def test_a_table_is_read_in_a_process_of_its_own(self):
        table = b"participant,order,kind,side,price_eur_mwh,periods,volume_mw\nGAS,A,block,buy,12.50,%d,30\n"
        read = lambda data, periods=24: asyncio.run(reader.capture_table(data, "GAS", periods))
        self.assertEqual(read(table % 8), (["submit,GAS,A,block,buy,1250,8:300,,"], []))
        self.assertEqual(read(table % 100, 100)[0], ["submit,GAS,A,block,buy,1250,100:300,,"])
        with self.assertRaisesRegex(requests.BadRequest, "there is no period 100$"):
            read(table % 100, 96)
        child = (table % 8).replace(b"mw\n", b"mw,parent\n").replace(b",30\n", b",30,BASE\n")
        linked = asyncio.run(reader.capture_table(child, "GAS", 24, [("BASE", "block")]))
        self.assertEqual(linked, (["submit,GAS,A,block,buy,1250,8:300,BASE,"], []))
        with self.assertRaisesRegex(requests.BadRequest, "you have no order BASE, neither in the book nor in a line above$"):
            read(child)
        with self.assertRaisesRegex(requests.BadRequest, "1 command of other"):
            read(table.replace(b"GAS", b"OIL") % 8)
        words = "can't be read within 0.001 s: it is too large, or the office is busy$"
        with mock.patch.object(reader, "MOST_SECONDS", 0.001), self.assertRaisesRegex(refusals.Refused, words):
            read(table % 8)
        with tempfile.TemporaryDirectory() as room:
            shutil.copytree(TOOLS / "lib", Path(room, "lib"), ignore=shutil.ignore_patterns("__pycache__"))
            path = Path(room, "lib", "office", "table_reader.py")
            path.write_text(path.read_text().replace("MOST_MEMORY = 1 << 29", "MOST_MEMORY = 1"))
            head, _, row = (table % 8).replace(b"block", b"hour").partition(b"\n")
            long = head + b"\n" + row.replace(b",A,", b",A%d,") * 4_000 % tuple(range(4_000))
            self.assertEqual(len(read(long)[0]), 4_000)
            with mock.patch.object(reader, "__file__", str(path)), self.assertRaisesRegex(refusals.Refused, "can't be read"):
                read(long)

    def test_until_the_journal_is_published_reasons_tell_of_own_orders_alone(self):
        """No number but the own gain, and no name, stands in a reason that compares with another selection."""
        codes = set()
        for day in (SUNNY, SUNNY_RESULTS), (AUCTION, AUCTION_RESULTS), (QUARTERS, QUARTERS_RESULTS):
            made = json.loads(run_tool("table", "--rows", "statement", "--json", "--quiet", *map(str, day))[1])
            for row in made["rows"]:
                codes.add(row["code"])
                shown = published.without_words_of_others(row)
                if row["code"] not in published.HIDDEN:
                    self.assertEqual(shown, row)
                    continue
                self.assertIn(shown["code"], (None, "group", "parent"))
                gain = re.match("would gain ([0-9.,]+) EUR at the prices", row["why"])
                self.assertLessEqual(set(re.findall("[0-9][0-9.,]*", shown["why"])), set(gain.groups() if gain else ()))
                self.assertNotRegex(shown["why"].replace("EUR", ""), "[A-Z]{2,}")
        self.assertLessEqual({"would-lose", "group", "loses", "covered"}, codes)
        compared = {"group", "parent", "unbalanced", "would-lose", "less-welfare", "tie", "better"}  # with another selection
        self.assertEqual(set(published.HIDDEN), compared)
        for code, words in published.HIDDEN.items():
            for why in ("period 8 wouldn't balance: 1.0 MW would have no buyer", "with A and B-1 it would gain 8.00 EUR at the prices, but x"):
                shown = published.without_words_of_others({"code": code, "why": why})["why"]
                self.assertIn(shown, (words.removeprefix("but "), f"with A and B-1 it would gain 8.00 EUR at the prices, {words}"))

    def test_published_reasons_have_own_orders_by_name(self):
        why = "would gain 8.00 EUR at the prices, but if it were added, GAS,LONG would lose 1.00 EUR and OIL,A would lose 3 EUR"
        self.assertEqual(published.without_own_participant(why, "OIL"), why.replace("OIL,", ""))
        self.assertEqual(published.without_own_participant(why.replace("OIL", "COAL"), "OAL"), why.replace("OIL", "COAL"))
        self.assertIsNone(published.without_own_participant(None, "OIL"))


class Answers(http.server.BaseHTTPRequestHandler):
    """An office that answers as a test has planned: None ends the connection without an answer, and bytes are the whole answer."""

    def do_PUT(self):
        self.rfile.read(int(self.headers["Content-Length"]))
        self.server.asked.append(self.path)
        answer = self.server.planned.pop(0)
        if isinstance(answer, bytes):
            self.wfile.write(answer)
        elif answer is not None:
            self.send_json(*answer)

    def do_GET(self):
        self.server.asked.append(self.path)
        if self.server.whole:
            self.wfile.write(self.server.whole)
        else:
            self.send_json(200, {"next": self.server.next})

    def send_json(self, status, value):
        body = json.dumps(value).encode() + b"\n"
        self.send_response(status)
        self.send_header("Content-Length", str(len(body)))
        self.end_headers()
        self.wfile.write(body)

    def log_message(self, *_):
        pass


class Clients(unittest.TestCase):
    """The clients send the same command under the same number until an answer comes, however often they are called."""

    def setUp(self):
        if aiohttp is None:
            self.skipTest("python3-aiohttp is missing")
        self.server = http.server.ThreadingHTTPServer(("127.0.0.1", 0), Answers)
        self.server.asked, self.server.planned, self.server.next, self.server.whole = [], [], 4, None
        threading.Thread(target=self.server.serve_forever, daemon=True).start()
        self.addCleanup(self.server.server_close)
        self.addCleanup(self.server.shutdown)
        for name, value in (("FIRST_PAUSE", 0.001), ("LONGEST_PAUSE", 0.001), ("RETRIES", 2)):
            patch = mock.patch.object(client, name, value)
            patch.start()
            self.addCleanup(patch.stop)

    def enter(self, found, *commands):
        return found.enter(DAY, *commands)

    def make_client(self):
        return client.Office(f"http://127.0.0.1:{self.server.server_port}", "GAS.x")

    def test_numbers(self):
        found, receipt = self.make_client(), (200, {"reply": "done"})
        busy, used = (503, {"fault": "Unavailable", "words": ""}), (409, {"fault": "NumberUsed", "words": "", "next": 9})
        self.server.planned = [None, busy, receipt, None, None, busy, receipt, used, receipt]
        self.assertEqual(self.enter(found, "a"), [{"reply": "done"}])
        with self.assertRaises(client.OfficeFault) as caught:
            self.enter(found, "b")
        self.assertEqual(caught.exception.fault, "Unavailable")
        self.assertEqual(self.enter(found, "b"), [{"reply": "done"}])
        with self.assertRaises(client.OfficeFault) as caught:
            self.enter(found, "c")
        self.assertEqual((caught.exception.fault, caught.exception.status, caught.exception.more), ("NumberUsed", 409, {"next": 9}))
        self.server.next = 9
        self.enter(found, "c")
        puts = [int(path.rpartition("/")[2]) for path in self.server.asked if "since" not in path]
        self.assertEqual(puts, [4, 4, 4, 5, 5, 5, 5, 6, 9])

    def test_no_answer_to_the_first_command(self):
        found = self.make_client()
        self.server.planned = [None, None, None, (200, {"reply": "done"})]
        with self.assertRaises(client.OfficeFault) as caught:
            self.enter(found, "a")
        self.assertEqual((caught.exception.fault, caught.exception.status), ("Unreached", None))
        self.server.next = 5  # it was entered
        self.enter(found, "a")
        self.assertEqual([path.rpartition("/")[2] for path in self.server.asked if "since" not in path], ["4"] * 4)

    def test_a_redirect_is_a_fault(self):
        """Its target would get the token."""
        target = f"http://localhost:{self.server.server_port}/elsewhere"
        self.server.whole = f"HTTP/1.0 302 Found\r\nLocation: {target}\r\nContent-Length: 0\r\n\r\n".encode()
        with self.assertRaisesRegex(client.OfficeFault, "^the answer has the status 302: it redirects, which no office does$") as caught:
            self.enter(self.make_client(), "a")
        self.assertEqual((caught.exception.fault, caught.exception.status), ("Unknown", 302))
        self.assertEqual(self.server.asked, [f"/days/{DAY}/commands/GAS?since=99999"])

    def test_answers_that_no_office_sends(self):
        """One that breaks off or isn't HTTP is none, and so the request is sent again."""
        head = b"HTTP/1.0 %s\r\nContent-Length: %d\r\n\r\n%s"
        for whole, fault, status, count in (
            (head % (b"200 OK", 100, b'{"next":'), "Unreached", None, 3),
            (head % (b"404 Not Found", 100, b'{"fault":'), "Unreached", None, 3),
            (b"220 mail.example ESMTP\r\n\r\n", "Unreached", None, 3),
            (head % (b"200 OK", 6, b"<html>"), "Unknown", 200, 1),
            (head % (b"200 OK", 2, b"{}"), "Unknown", 200, 1),
            (head % (b"200 OK", 2, b"[]"), "Unknown", 200, 1),
            (head % (b"200 OK", 1, b"\xff"), "Unknown", 200, 1),
            (head % (b"204 No Content", 0, b""), "Unknown", 204, 1),
        ):
            self.server.whole = whole
            self.server.asked.clear()
            with self.subTest(whole=whole), self.assertRaises(client.OfficeFault) as caught:
                self.enter(self.make_client(), "a")
            self.assertEqual((caught.exception.fault, caught.exception.status, len(self.server.asked)), (fault, status, count))

    def test_a_command_without_a_receipt_keeps_its_number(self):
        found = self.make_client()
        self.server.planned = [*(b"HTTP/1.0 200 OK\r\n\r\n" + body for body in (b"", b"<html>\n")), (200, {"reply": "done"})]
        for _ in range(2):
            with self.assertRaisesRegex(client.OfficeFault, "^the answer has the status 200, but isn't an office's$"):
                self.enter(found, "a")
        self.assertEqual(self.enter(found, "a"), [{"reply": "done"}])
        self.assertEqual([path.rpartition("/")[2] for path in self.server.asked if "since" not in path], ["4"] * 3)

    def test_prices(self):
        self.assertEqual(client.parse_prices(b"day,24\nperiod,1,500,30\nperiod,2,-1,0\n"), [(1, 500, 30), (2, -1, 0)])
        for data in (b"", b"<html>", b"period,1,x,1\n", b"\xff"):
            with self.subTest(data=data), self.assertRaisesRegex(client.OfficeFault, "isn't an office's"):
                client.parse_prices(data)


class AsyncClients(Clients):
    def enter(self, found, *commands):
        async def entered():
            async with found:
                return await found.enter(DAY, *commands)

        return asyncio.run(entered())

    def make_client(self):
        return client.AsyncOffice(f"http://127.0.0.1:{self.server.server_port}", "GAS.x")


class Connection(argparse.Namespace):
    """A connection as a handler sees it: of its server and its transport."""

    def __init__(self):
        super().__init__(request_handler=None, request_factory=None, is_aborted=False)

    def connection_made(self, *_):
        pass

    def get_extra_info(self, *_):
        pass

    def is_closing(self):
        return self.is_aborted

    def abort(self):
        self.is_aborted = True


@NEEDS_AIOHTTP
class RequestHeads(unittest.IsolatedAsyncioTestCase):
    """The limit of a request's head, in any pieces, and after any requests."""

    def connection(self):
        made, transport = connections.Handler(Connection(), loop=asyncio.get_running_loop(), access_log=None), Connection()
        made.connection_made(transport)
        self.addCleanup(made._task_handler.cancel)
        return made

    def head(self, size, end="\r\n", last="\r\n"):
        """A head of this number of bytes."""
        lines = ["GET /days HTTP/1.1", "Host: x"]
        while (left := size - len(end.join([*lines, "X: "]) + end + last)) > 3_000:
            lines.append(f"X: {'a' * 2_900}")
        lines.append(f"X: {'a' * left}")
        made = (end.join(lines) + end + last).encode()
        self.assertEqual(len(made), size)
        return made

    async def test_a_head_is_counted_whole_whatever_its_pieces(self):
        rng = random.Random(1)
        small = b"GET /days HTTP/1.1\r\n\r\n"
        put = b"PUT /days HTTP/1.1\r\nContent-Length: %d\r\n\r\n"
        empty_lines = b"\r\n\n" * 300
        befores = (0, b""), (1, small), (2, put % 20_000 + b"a\n\r\n" * 5_000 + small), (1, put % connections.PIECE + b"\n" * connections.PIECE)
        for size in (100, connections.PIECE, connections.PIECE + 1, connections.MOST_HEAD, connections.MOST_HEAD + 1, 40_000, 3 * connections.PIECE - 1, 100_000):
            for (count, before), line_end, cut in itertools.product(befores, (("\r\n", "\r\n"), ("\n", "\n"), ("\n", "\r\n")), range(8)):
                data = before + self.head(size, *line_end) + b"GET"
                cuts = [0, *sorted(rng.sample(range(1, len(data)), cut)), len(data)]
                made = self.connection()
                for begin, end in zip(cuts, cuts[1:]):
                    made.data_received(data[begin:end])
                is_taken = size <= connections.MOST_HEAD
                with self.subTest(size=size, count=count, line_end=line_end, cuts=cuts):
                    self.assertEqual((len(made._messages), made.transport.is_aborted), (count + is_taken, not is_taken))
        made = self.connection()
        made.data_received(empty_lines * 40 + small)
        self.assertTrue(made.transport.is_aborted, "empty lines before a request count")

    async def test_nothing_is_read_behind_a_head_whose_end_isnt_known(self):
        """The parser takes these: the last line of one ends with CR and any byte; in the others a header without a name changes the length,
        as the office sees it."""
        put = b"PUT /days HTTP/1.1\r\n%s\r\nContent-Length: 20\r\n\r\n" + b"a" * 20
        for odd in (b"GET /days HTTP/1.1\r\nX:\r \n", *(put % header for header in (b": 9", b": -9", b": x"))):
            for cut in (0, 30, 70):
                made, data = self.connection(), odd + self.head(33_000)
                for part in filter(None, (data[:cut], data[cut:])):
                    made.data_received(part)
                with self.subTest(odd=odd, cut=cut):
                    self.assertEqual((len(made._messages), made.is_deaf), (1, True))

    async def test_the_version_of_a_request(self):
        """The answer has it, if there is such a version."""
        for given, taken in (("1.0", (1, 0)), ("1.1", (1, 1)), ("1.2", (1, 1)), ("2.0", (1, 1)), ("9.9", (1, 1)), ("0.9", (1, 1))):
            made = self.connection()
            made.data_received(f"GET /days HTTP/{given}\r\nHost: x\r\n\r\n".encode())
            self.assertEqual([message.version for message, _ in made._messages], [taken], given)

    async def test_a_head_that_comes_byte_by_byte(self):
        for size in (connections.MOST_HEAD, connections.MOST_HEAD + 1):
            made = self.connection()
            for byte in self.head(size):
                made.data_received(bytes([byte]))
            self.assertEqual(made.transport.is_aborted, size > connections.MOST_HEAD)


class Connections(unittest.IsolatedAsyncioTestCase):
    """Connections to a listener, whose log has no defect."""

    async def asyncSetUp(self):
        if aiohttp is None:
            self.skipTest("python3-aiohttp is missing")
        application = aiohttp.web.Application()
        application.router.add_get("/", self.answer)
        self.counts = monitoring.Counts()
        self.runner = connections.Runner(application, self.counts)
        await self.runner.setup()
        listener = connections.Listener(self.runner.server, serve.open_listening_socket_or_stop("127.0.0.1", 0), None, self.counts)
        self.port = listener.socket.getsockname()[1]
        for step in (self.runner.cleanup, self.runner.server.shutdown, listener.close):
            self.addAsyncCleanup(step)

    async def answer(self, request):
        return aiohttp.web.Response(text="right")

    async def send_answers(self, count):
        """How many answers come to this number of requests that are sent at once, until the connection ends or is idle."""
        reader, writer = await asyncio.open_connection("127.0.0.1", self.port)
        writer.write(b"GET / HTTP/1.1\r\nHost: x\r\n\r\n" * count)
        found = b""
        with contextlib.suppress(asyncio.TimeoutError, ConnectionError):
            while part := await asyncio.wait_for(reader.read(1 << 16), 20 if found.count(b"right") < count else 0.2):
                found += part
        writer.close()
        return found.count(b"right")

    async def test_requests_that_are_sent_ahead(self):
        """One too many ends the connection, whichever of them has its turn."""
        with self.assertNoLogs("aiohttp"):
            for count in (1, connections.MOST_AHEAD, *[connections.MOST_AHEAD + 1] * 20, 2 * connections.MOST_AHEAD, 100):
                self.assertEqual(await self.send_answers(count), count if count <= connections.MOST_AHEAD else 0)

    async def test_a_connection_that_is_reset(self):
        """At once after a request, or with its answer on the way."""
        with self.assertNoLogs("aiohttp"):
            for number in range(100):
                one = socket.create_connection(("127.0.0.1", self.port))
                one.setsockopt(socket.SOL_SOCKET, socket.SO_LINGER, struct.pack("ii", 1, 0))
                one.sendall(b"GET / HTTP/1.1\r\nHost: x\r\n\r\n" * (1 + number % connections.MOST_AHEAD))
                await asyncio.sleep(number % 3 / 1_000)
                one.close()
            self.assertEqual(await self.send_answers(1), 1)


if __name__ == "__main__":
    unittest.main()
