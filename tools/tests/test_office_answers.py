"""The office's answers over a connection: to strangers, to participants about each other, before the journal is published, and of a stopped
day."""

import asyncio
import contextlib
import io
import json
import re
import unittest
from unittest import mock

from office_support import DAY, FUTURE, NAMES, Disk, Office, commands_of_records, patch_of_opening

try:
    from lib.office import connections, folder, monitoring, programs, requests, routes, serve as serving, setup, table_reader
except ImportError:  # without python3-aiohttp and the like, whose tests are skipped
    pass

DAY_PATH = "/days/{day}"
SHOWN_PATHS = [f"{DAY_PATH}{end}" for end in ("/head", "/prices")]
PUBLISHED_PATHS = [f"{DAY_PATH}/{name}" for name in ("results", "journal", "replies")]
OWN_PATHS = {
    f"{DAY_PATH}/commands/{{who}}/{{number}}": ("GET", "PUT"),
    f"{DAY_PATH}/commands/{{who}}": ("GET",),
    f"{DAY_PATH}/orders/{{who}}": ("GET",),
    f"{DAY_PATH}/receipts/{{who}}": ("GET",),
    f"{DAY_PATH}/statement/{{who}}": ("GET",),
    f"{DAY_PATH}/tables/{{who}}": ("POST",),
}
FILES = ["/", "/office.js", "/office.css", "/openapi.json", "/key", "/favicon.ico", "/healthz", "/metrics", "/days"]
PRICES = "".join(f"period,{period},5000,20\n" for period in range(1, 25))
SUMS = {"welfare_eur": 7_777.77, "hourly_surplus_eur": 8_888.88, "block_surplus_eur": 9_999.99}


def record_of(who):
    return f"submit,{who},SEC-{who},hour,buy,4321,1:10,,"


class Answers(Office):
    """An office that is served, with an order of each participant."""

    @contextlib.asynccontextmanager
    async def serving(self, demo=None):
        self.write_office()
        office = serving.Office.read_or_stop(self.office, programs.Programs("dam", "dam-desk"), monitoring.Log(io.StringIO()))
        self.tokens = {who: office.register.write_and_return_new_token(who) for who in NAMES}
        web = routes.Web.read(office, demo=demo)
        web.budgets.guesses.most = web.budgets.looks.most = web.budgets.reads.most = 1e9
        self.application = web.new_application()
        runner = connections.Runner(self.application, office.counts)
        with patch_of_opening(Disk()):
            self.assertEqual(office.take_up_days_and_return_faults(), {})
            self.writer = office.writers[DAY]
            await self.writer.is_ready.wait()
            for who in NAMES:
                await self.writer.submit_or_refuse(who, 1, commands_of_records(record_of(who)))
            await runner.setup()
            server = await asyncio.get_running_loop().create_server(runner.server, "127.0.0.1", 0)
            self.address = server.sockets[0].getsockname()
            try:
                yield office
            finally:
                server.close()
                await runner.cleanup()
                await office.stop_days()

    async def ask(self, method, path, authorization=None, body=b"", who="GAS"):
        """The status of an answer, its head and its body."""
        words = [f"{method} {path.format(day=DAY, who=who, number=1)} HTTP/1.1", "Host: x", "Connection: close"]
        words += [] if authorization is None else [f"Authorization: {authorization}"]
        words += [f"Content-Length: {len(body)}", "Content-Type: text/csv"] if method in ("PUT", "POST") else []
        reader, writer = await asyncio.open_connection(*self.address)
        writer.write("".join(f"{word}\r\n" for word in words).encode() + b"\r\n" + body)
        head, _, data = (await reader.read()).partition(b"\r\n\r\n")
        writer.close()
        return int(head[9:12]), head.decode(), data.decode()

    def bearer(self, who):
        return f"Bearer {self.tokens[who]}"

    async def close_and_write_files(self):
        """Closes the day; its files have orders and sums that aren't published yet."""
        self.writer.begin_close()
        await self.wait_until(lambda: self.writer.files.has_file(folder.RESULTS))
        files, orders = self.writer.files, "".join(f"hour,{who},SEC-{who},10\n" for who in NAMES)
        files.path_of(folder.RESULTS).write_text(f"day,24\nwelfare,777777\n{PRICES}{orders}")
        files.path_of(folder.JOURNAL).write_bytes(self.writer.ledger.journal_bytes())
        files.path_of(folder.REPLIES).write_bytes(self.writer.ledger.replies_bytes())
        rows = [{"participant": who, "order": f"SEC-{who}", "why": None, "code": None} for who in NAMES]
        files.path_of(folder.STATEMENT).write_text(json.dumps({"day": {"periods": 24, **SUMS}, "rows": rows}))

    def assert_silent(self, text, allowed=()):
        """A text says nothing of an order, nor of a sum of all orders."""
        for who in NAMES:
            if who not in allowed:
                self.assertNotIn(f"SEC-{who}", text)
                self.assertNotIn(f",{who},", text)
        self.assertNotRegex(text, r"_eur|welfare|7777\.77|8888\.88|9999\.99|777777")

    async def test_the_paths(self):
        """A path whose answers all may see is one of these."""
        async with self.serving():
            found = {}
            for route in self.application.router.routes():
                if route.method != "HEAD":
                    found.setdefault(re.sub(r"\{(\w+):[^/]*\}(?=/|$)", r"{\1}", route.resource.canonical), []).append(route.method)
        public = dict.fromkeys([*FILES, DAY_PATH, *SHOWN_PATHS, *PUBLISHED_PATHS], ["GET"])
        self.assertEqual({path: sorted(methods) for path, methods in found.items()}, {**public, **{path: [*each] for path, each in OWN_PATHS.items()}})

    async def test_each_path_of_a_participant_needs_its_token(self):
        async with self.serving() as office:
            office.register.write_revoked("A")
            before = self.writer.ledger.size
            own = [None, "", "Bearer", "Bearer ", "Bearer GAS", self.bearer("A"), self.bearer("LONGNAME"), f"Basic {self.tokens['GAS']}"]
            own += [self.tokens["GAS"], self.bearer("GAS")[:-1], f"{self.bearer('GAS')} {self.tokens['GAS']}"]
            for path, methods in OWN_PATHS.items():
                for method in (*methods, *["HEAD"] * ("GET" in methods)):
                    for who, headers in (("GAS", own), ("A", [None, "Bearer", "Bearer ", self.bearer("A"), self.bearer("GAS")]), ("B", [None, "Bearer "])):
                        for header in headers:
                            with self.subTest(method=method, path=path, who=who, header=header):
                                status, _, text = await self.ask(method, path, header, record_of(who).encode(), who)
                                self.assertEqual(status, 401)
                                self.assertEqual(set(json.loads(text)) if text else set(), {"fault", "words"} if method != "HEAD" else set())
                    status, _, _ = await self.ask(method, path, self.bearer("GAS"), record_of("GAS").encode())
                    self.assertNotEqual(status, 401)
            self.assertEqual(self.writer.ledger.size, before)

    async def test_two_headers_of_authorization_are_malformed(self):
        """A proxy may have seen the other."""
        async with self.serving():
            for first, other in (("GAS", "LONGNAME"), ("LONGNAME", "GAS"), ("GAS", "GAS")):
                for path, methods in OWN_PATHS.items():
                    both = f"{self.bearer(first)}\r\nAuthorization: {self.bearer(other)}"
                    status, _, text = await self.ask(methods[0], path, both, record_of("GAS").encode())
                    self.assertEqual((status, json.loads(text)["words"]), (400, "the request has two Authorization headers"))

    async def test_a_participant_sees_nothing_of_another(self):
        async with self.serving():
            for is_closed in (False, True):
                if is_closed:
                    await self.close_and_write_files()
                for who in NAMES:
                    for path, methods in OWN_PATHS.items():
                        if "GET" in methods:
                            status, _, text = await self.ask("GET", path, self.bearer(who), who=who)
                            with self.subTest(path=path, who=who, is_closed=is_closed):
                                self.assertEqual(status, 200 if is_closed or "statement" not in path else 404)
                                self.assertEqual(f"SEC-{who}" in text, status == 200)
                                self.assert_silent(text, [who])

    async def test_a_table_is_read_next_to_the_own_orders_alone(self):
        """A fault of a name that is taken would tell another's."""
        async with self.serving():
            with mock.patch.object(table_reader, "capture_table", return_value=requests.ReadTable([], [])) as capture:
                for who in NAMES:
                    status, _, _ = await self.ask("POST", f"{DAY_PATH}/tables/{{who}}", self.bearer(who), b"x", who)
                    self.assertEqual((status, capture.await_args.args), (200, (b"x", who, 24, [(f"SEC-{who}", "hour")])))

    async def test_nothing_of_the_orders_is_public_before_the_journal_is(self):
        async with self.serving():
            for is_closed in (False, True):
                if is_closed:
                    await self.close_and_write_files()
                for path in (*FILES, DAY_PATH, *SHOWN_PATHS, *PUBLISHED_PATHS):
                    status, _, text = await self.ask("GET", path)
                    with self.subTest(path=path, is_closed=is_closed):
                        is_missing = path in PUBLISHED_PATHS or path.endswith("/prices") and not is_closed
                        self.assertEqual(status, 404 if is_missing else 204 if path == "/favicon.ico" else 200)
                        if path not in FILES[:4]:
                            self.assert_silent(text)
            self.assertEqual((await self.ask("GET", f"{DAY_PATH}/prices"))[2], f"day,24\n{PRICES}")
            self.writer.files.path_of(folder.OPEN_JOURNAL).touch()
            for path in PUBLISHED_PATHS[:2]:
                status, _, text = await self.ask("GET", path)
                self.assertEqual((status, "SEC-GAS" in text), (200, True))
            self.assertIn("7777.77", (await self.ask("GET", f"{DAY_PATH}/statement/{{who}}", self.bearer("GAS")))[2])

    async def test_a_stopped_day_shows_its_state_alone(self):
        async with self.serving():
            await self.close_and_write_files()
            self.writer.files.path_of(folder.OPEN_JOURNAL).touch()
            every = [*SHOWN_PATHS, *PUBLISHED_PATHS, *(path for path, methods in OWN_PATHS.items() if "GET" in methods)]
            for path in every:
                self.assertEqual((await self.ask("GET", path, self.bearer("GAS")))[0], 200, path)
            self.writer.mark_stopped_and_refuse_waiting("LostEntries")
            for path in every:
                status, _, text = await self.ask("GET", path, self.bearer("GAS"))
                with self.subTest(path=path):
                    self.assertEqual((status, json.loads(text)["fault"]), (503, "Unavailable"))
            status, _, text = await self.ask("GET", DAY_PATH)
            self.assertEqual((status, json.loads(text)["state"]), (200, "stopped"))
            for method, path in (("PUT", f"{DAY_PATH}/commands/{{who}}/{{number}}"), ("POST", f"{DAY_PATH}/tables/{{who}}")):
                self.assertEqual((await self.ask(method, path, self.bearer("GAS"), record_of("GAS").encode()))[0], 503)

    async def test_no_answer_lets_another_site_in(self):
        """No cookie, no frame, no script of the page's own text, and no leave for other sites: also in refusals."""
        async with self.serving():
            for method, path in (
                *(("GET", path) for path in (*FILES, DAY_PATH, *SHOWN_PATHS, *PUBLISHED_PATHS, *OWN_PATHS, "/nothing")),
                ("OPTIONS", "/days"),
                ("OPTIONS", f"{DAY_PATH}/orders/{{who}}"),
                ("DELETE", "/days"),
                ("PUT", f"{DAY_PATH}/commands/{{who}}/{{number}}"),
            ):
                for header in (None, self.bearer("GAS")):
                    _, head, _ = await self.ask(method, path, header, b"x")
                    found = {name.lower(): value for name, _, value in (line.partition(": ") for line in head.split("\r\n")[1:])}
                    policy = dict(part.strip().split(" ", 1) for part in found["content-security-policy"].split(";"))
                    with self.subTest(method=method, path=path):
                        self.assertEqual([name for name in found if name == "set-cookie" or name.startswith("access-control")], [])
                        for name in ("default-src", "frame-ancestors", "form-action", "base-uri"):
                            self.assertEqual(policy[name], "'none'")
                        self.assertEqual({policy[name] for name in ("script-src", "style-src", "connect-src", "img-src")}, {"'self'"})
                        self.assertEqual((found["x-frame-options"], found["x-content-type-options"]), ("DENY", "nosniff"))
                        self.assertEqual((found["cache-control"], found["referrer-policy"]), ("no-store", "no-referrer"))
                        self.assertEqual(found["cross-origin-resource-policy"], "same-origin")

    async def test_no_stranger_closes_the_day_of_a_demo(self):
        path = f"{DAY_PATH}/close"
        async with self.serving() as office:
            self.assertEqual((await self.ask("POST", path, self.bearer("GAS")))[0], 404)
        self.office = folder.Folder(self.office.path.parent / "demo")
        async with self.serving(demo={"GAS": "GAS.token"}) as office:
            office.register.write_revoked("A")
            for header in (None, "", "Bearer", "Bearer ", "Bearer GAS", "Bearer A.", self.bearer("A"), self.bearer("GAS")[:-1]):
                with self.subTest(header):
                    self.assertEqual((await self.ask("POST", path, header))[0], 401)
                    self.assertFalse(self.writer.is_closing)
            self.assertEqual((await self.ask("POST", path, self.bearer("GAS")))[0], 200)
            self.assertTrue(self.writer.is_closing)

    def test_each_office_has_a_key_and_each_day_salts_of_its_own(self):
        """They are drawn: who knows those of one day knows nothing of another's."""
        keys, secrets = set(), set()
        for number in range(4):
            self.office = folder.Folder(self.office.path.parent / f"office-{number}")
            self.write_office()
            setup.make_day_or_stop(self.office, folder.Terms("2026-11-30", 24, FUTURE, "UTC", dict.fromkeys(NAMES, 10)))
            keys.add(self.office.path_of(folder.KEY).read_bytes())
            secrets |= {files.read_salts().secret for files in self.office.list_folders_by_day().values()}
        self.assertEqual((len(keys), len(secrets), {len(secret) for secret in secrets}), (4, 8, {32}))
        self.assertGreater(min(len(set(column)) for column in zip(*secrets)), 1)

    def test_without_tls_it_listens_at_a_loopback_address_alone(self):
        for host in ("127.0.0.1", "127.8.9.10", "::1", "localhost"):
            self.assertTrue(serving.is_loopback(host), host)
        for host in ("0.0.0.0", "::", "", "192.0.2.1", "10.0.0.1", "169.254.1.1", "fe80::1", "::ffff:192.0.2.1", "1270.0.0.1", "localhost.example"):
            self.assertFalse(serving.is_loopback(host), host)


if __name__ == "__main__":
    unittest.main()
