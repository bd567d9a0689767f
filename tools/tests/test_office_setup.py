"""The office: its folder, its description and its operation."""

import argparse
import asyncio
import contextlib
import datetime
import errno
import io
import itertools
import json
import os
import re
import shutil
import subprocess
import sys
import threading
import tracemalloc
import unittest
from pathlib import Path
from unittest import mock

from office_support import DAY, FUTURE, NAMES, SECONDS, Disk, Office, commands_of_records, patch_of_opening
from support import AUCTION, TOOLS, TOP, capture_unsaid_members, run_tool

from lib.process import async_child
from lib.tables import table_files
from lib.tool import exits, modules

try:
    from multidict import CIMultiDict
    from lib.office import admission, budgets, connections, demo, desk, folder, monitoring, newest_head, operator_commands, programs, refusals, routes, setup, tokens
    from lib.office import serve as serving
    from lib.seal import signing
except ImportError:  # without python3-aiohttp and the like, whose tests are skipped
    pass

PAUSE = 0.3  # seconds that another thread gets to overtake this one, if nothing holds it


def others(value):
    """JSON like that of a file of an office, with a value in each place that this one may not have."""
    yield json.dumps([*value.items()]).encode()
    for name in value:
        for other in ([], {"\ud800": 1}, {"GAS": "1"}, {"GAS": -1}, 1.5, True, "2026-11-28T11:00:00" if name == "closes" else []):
            yield json.dumps({**value, name: other}).encode()
    yield json.dumps({**value, "x": None}).encode()


class Setup(Office):
    def args(self, **words):
        return argparse.Namespace(**{"day": DAY, "periods": 24, "close": "12:00", "zone": "Europe/Berlin", "participants": None, **words})

    def terms(self, **words):
        return setup.require_terms(self.args(**words), {}, datetime.datetime(2026, 1, 1, tzinfo=datetime.timezone.utc))

    def test_the_close_is_on_the_day_before_in_its_zone(self):
        self.assertEqual(self.terms().closes.isoformat(), "2026-11-28T11:00:00+00:00")
        self.assertEqual(self.terms(day="2026-07-02").closes.isoformat(), "2026-07-01T10:00:00+00:00")
        self.assertEqual(self.terms(close="2026-11-27T09:30", zone="UTC").closes.isoformat(), "2026-11-27T09:30:00+00:00")
        twice = self.terms(close="2026-10-25T02:30", day="2026-10-26")  # the earlier one of the two
        self.assertEqual(twice.closes.isoformat(), "2026-10-25T00:30:00+00:00")
        for periods, day in ((23, "2026-03-29"), (92, "2026-03-29"), (25, "2026-10-25"), (100, "2026-10-25"), (96, DAY)):
            self.assertEqual(self.terms(periods=periods, day=day).periods, periods)

    def test_what_cant_be_is_refused(self):
        for words in (
            {"day": "tomorrow"},
            {"day": "2026-02-30"},
            {"periods": 25},
            {"periods": 7},
            {"periods": 24, "day": "2026-03-29"},
            {"close": "24:00"},
            {"close": "noon"},
            {"close": "2026-03-29T02:30", "day": "2026-03-30"},  # the clocks change
            {"close": "2025-11-27T09:30"},
            {"zone": "Atlantis"},
            {"zone": "../../etc/passwd"},
        ):
            with self.subTest(**words), self.assertRaises(exits.Stop) as caught:
                self.terms(**words)
            self.assertEqual(caught.exception.status, exits.COMMAND_LINE)

    def test_a_day_that_is_not_made_makes_no_token(self):
        """Nobody would see it, and a further day prints only new ones."""
        self.write_and_read_participants("participant\nGAS\n")
        words, path = ["--close", "12:00", "--participants", self.office.path.parent / "p.csv"], self.office.path
        self.assertEqual(run_tool("office", "init", path, "--day", "2099-11-29", *words)[0], exits.DONE)
        self.write_and_read_participants("participant\nGAS\nWIND\n")
        self.assertEqual(run_tool("office", "init", path, "--day", "2099-11-29", *words)[:2], (exits.NO_INPUT, b""))
        status, out, _ = run_tool("office", "init", path, "--day", "2099-11-30", *words)
        self.assertEqual((status, [line[:5] for line in out.splitlines()[-1:]]), (exits.DONE, [b"WIND."]))
        self.assertEqual(sorted(self.office.list_folders_by_day()), ["2099-11-29", "2099-11-30"])

    def test_an_office_that_is_ended_while_it_is_made_is_made_by_a_further_init(self):
        """Ended at each of its calls that change the file system, as by SIGKILL: no file of it stays, and no token is lost without a word."""
        words = self.args(day="2099-11-29", participants=str(self.table))
        again = ["init", self.office.path, "--day", words.day, "--close", "12:00", "--participants", self.table]
        self.write_and_read_participants("participant\nGAS\n")
        seen = set()
        for at in range(200):
            shutil.rmtree(self.office.path, ignore_errors=True)
            is_whole = self.run_ended_at(at, words)
            if self.office.path.is_dir():  # `status` knows whether the next command is `init`
                status, out, err = run_tool("office", "status", self.office.path)
                self.assertNotIn("put it back", err, at)
            status, out, err = run_tool("office", *again)
            left = sorted(path.name for path in self.office.path.rglob(".*"))
            self.assertEqual((left, err.count("\n")), ([], int(b"\nGAS." not in out)), (at, err))
            if status == exits.DONE and b"\nGAS." not in out:
                self.assertEqual(err, f"office: note: GAS had tokens already, but no day: {setup.RENEW}\n")
            elif status != exits.DONE:
                self.assertEqual((status, err), (exits.NO_INPUT, f"office: there is a day {words.day} already: {setup.RENEW}\n"))
            seen.add((status, bool(err)))
            if is_whole:
                break
        self.assertTrue(is_whole)
        self.assertEqual(seen, {(exits.DONE, False), (exits.DONE, True), (exits.NO_INPUT, True)})

    def run_ended_at(self, number, words):
        """Makes the office in a copy of this process, which is ended before one of its calls that change the file system. Returns whether it
        made fewer."""
        counted = itertools.count()

        def end(event, details):
            writes = event == "open" and isinstance(details[2], int) and details[2] & (os.O_WRONLY | os.O_RDWR)
            if (writes or event in ("os.mkdir", "os.rename", "os.remove", "os.rmdir")) and next(counted) == number:
                os._exit(1)

        child = os.fork()
        if child == 0:
            with contextlib.suppress(BaseException):
                os.umask(0o077)
                sys.addaudithook(end)
                setup.make_or_extend_office(self.office, words)
                os._exit(0)
            os._exit(2)
        status = os.waitstatus_to_exitcode(os.waitpid(child, 0)[1])
        self.assertIn(status, (0, 1))
        return status == 0

    def test_a_leftover_of_a_change_of_tokens_is_removed(self):
        self.write_office()
        register = tokens.Register(self.office.path_of(folder.PARTICIPANTS))
        left, other = self.office.path_of(".dam-0123456789abcdef"), self.office.path_of(".dam-notes")
        for path in (left, other):
            path.touch()
        register.write_and_return_new_tokens(["GAS"])
        self.assertEqual((left.exists(), other.exists()), (False, True))

    def test_tokens_of_an_office_without_days_are_noted(self):
        """Those of a participant who is in a day were printed, as those of one without a token will be by renew."""
        self.write_and_read_participants("participant\nGAS\nOIL\nWIND\n")
        words = ["init", self.office.path, "--close", "12:00", "--participants", self.table, "--day"]
        self.assertEqual(run_tool("office", *words, "2099-11-28")[::2], (exits.DONE, ""))
        self.assertEqual(run_tool("office", *words, "2099-11-29")[::2], (exits.DONE, ""))
        tokens.Register(self.office.path_of(folder.PARTICIPANTS)).write_and_return_new_tokens(["COAL"])
        tokens.Register(self.office.path_of(folder.PARTICIPANTS)).write_revoked("SUN")
        self.write_and_read_participants("participant\nCOAL\nGAS\nSUN\n")
        said = f"office: note: COAL had tokens already, but no day: {setup.RENEW}\n"
        self.assertEqual(run_tool("office", *words, "2099-11-30")[::2], (exits.DONE, said))
        self.assertEqual(run_tool("office", *words, "2099-12-01")[::2], (exits.DONE, ""))

    def test_two_at_once_make_one_office(self):
        """The key that each prints is the stored one."""
        made, printed = signing.draw_key, []

        def init():
            setup.make_office(self.office)
            printed.append(self.office.read_public_text_or_stop(self.office.read_key()))

        def overtaken():
            if other.ident is None:
                other.start()
                other.join(PAUSE)
            return made()

        other = threading.Thread(target=init)
        with mock.patch.object(signing, "draw_key", overtaken):
            init()
            other.join()
        self.assertEqual(printed, [self.office.path_of(folder.PUBLIC).read_text()] * 2)

    def test_two_at_once_make_one_day(self):
        """The other makes no token, which nobody would see."""
        self.write_office()
        terms, seen = folder.Terms("2026-11-30", 24, FUTURE, "UTC", {}), []

        def make():
            try:
                with setup.making_day(self.office, terms):
                    seen.append("a token")
            except exits.Stop as fault:
                seen.append(str(fault))

        other = threading.Thread(target=make)
        with setup.making_day(self.office, terms):
            other.start()
            other.join(PAUSE)
        other.join()
        self.assertEqual(seen, [f"there is a day 2026-11-30 already: {setup.RENEW}"])
        self.assertEqual(sorted(os.listdir(self.office.path_of(folder.DAYS))), [DAY, "2026-11-30"])

    @property
    def table(self):
        return self.office.path.parent / "p.csv"

    def write_and_read_participants(self, text):
        self.table.write_text(text)
        return setup.read_shares_and_print_notes(self.table)

    def test_tokens_that_can_not_be_printed(self):
        """The day is there, so it is said how the participants get others."""
        self.write_and_read_participants("participant\nGAS\n")
        words = ["init", self.office.path, "--close", "12:00", "--participants", self.table, "--day"]
        closed, pipe = os.pipe()
        os.close(closed)
        full = os.open("/dev/full", os.O_WRONLY)
        told = b"office: standard output can't be written: No space left on device"
        for day, stdout, more, last in (("2099-11-28", full, [], [told]), ("2099-11-29", pipe, ["--json"], [])):
            ran = subprocess.run([TOOLS / "office", *words, day, *more], stdout=stdout, stderr=subprocess.PIPE)
            os.close(stdout)
            said = b"%s was made; renew prints a new token for each participant whose token wasn't printed" % day.encode()
            self.assertEqual((ran.returncode, ran.stderr.splitlines()), (exits.NO_INPUT, [b"office: " + said, *last]))
            self.assertIn(day, self.office.list_folders_by_day())

    def test_a_public_key_of_another_key_is_seen(self):
        """By a start, and by a further day before it is made and a token is printed."""
        self.write_and_read_participants("participant\nGAS\n")
        words = ["--close", "12:00", "--participants", self.office.path.parent / "p.csv"]
        self.assertEqual(run_tool("office", "init", self.office.path, "--day", "2099-11-29", *words)[0], exits.DONE)
        public = self.office.path_of(folder.PUBLIC)
        kept = public.read_bytes()
        self.write_and_read_participants("participant\nGAS\nWIND\n")
        for other in (signing.public_bytes(signing.draw_key()), b"", kept[:-30]):
            public.write_bytes(other)
            with self.subTest(other=other):
                with self.assertRaisesRegex(exits.Stop, "operator.pem.pub isn't the public key of operator.pem"):
                    serving.Office.read_or_stop(self.office, programs.Programs("dam", "dam-desk"), monitoring.Log(io.StringIO()))
                status, out, err = run_tool("office", "init", self.office.path, "--day", "2099-11-30", *words)
                self.assertEqual((status, out), (exits.NO_INPUT, b""))
                self.assertIn("isn't the public key of operator.pem", err)
                self.assertEqual(list(self.office.list_folders_by_day()), ["2099-11-29"])
        public.write_bytes(kept.replace(b"\n", b"\r\n"))
        self.assertEqual(self.office.read_public_text_or_stop(self.office.read_key()).split(), kept.decode().split())

    def test_shares_never_exceed_the_journal(self):
        self.assertEqual(self.write_and_read_participants("participant\nA\nGAS\n"), {"A": None, "GAS": None})
        found = self.write_and_read_participants("participant,commands\nA,100\nGAS,\nOIL,\n")
        self.assertEqual(setup.require_shares(found), {"A": 100, "GAS": 4_949, "OIL": 4_949})
        self.assertLessEqual(sum(setup.require_shares(dict.fromkeys(map(str, range(7)))).values()), folder.MOST_COMMANDS)
        with self.assertRaises(exits.Stop):
            setup.require_shares({"A": 9_999, "B": None})
        for text in (
            "",
            "name\nA\n",
            "participant\na\n",
            "participant\nA\nA\n",
            "participant\nABCDEFGHI\n",
            "participant,commands\nA,-1\n",
            "participant\nÄ\n",
        ):
            with self.subTest(text=text), self.assertRaises(exits.Stop):
                self.write_and_read_participants(text)

    def test_no_cell_of_the_participants_is_lost(self):
        for table in (
            "participant, commands\nGAS, 10\n WIND ,\n",
            " Participant,COMMANDS\n\nGAS,10\n,\nWIND\n",
            "commands\tparticipant\n10\tGAS\n\tWIND\n",
        ):
            with self.subTest(table=table):
                self.assertEqual(self.write_and_read_participants(table), {"GAS": 10, "WIND": None})
        columns, number = "the columns are participant, commands", "should be a whole number of at most 5 digits, such as 500"
        for table, words in (
            ("participant,max_commands\nGAS,10\n", f"line 1, column 2: 'max_commands' is not a column; {columns}"),
            ("participant,participant\nGAS,COAL\n", "line 1, column 2: the column 'participant' appears twice"),
            ("participant,commands,Commands\nGAS,10,20\n", "line 1, column 3: the column 'commands' appears twice"),
            ("participant,,commands\nGAS,10,20\n", "line 2, column 2: '10' is in a column without a name: write one, or remove it"),
            ("participant,commands\nGAS,1,500\nWIND,20\n", "line 2: it has 3 cells, but the header has 2"),
            ("participant\nGAS,10\n", "line 2: it has 2 cells, but the header has 1"),
            (
                "participant,commands\nGAS,10\vOIL,5\n",
                "line 2, column 2: '10\\x0bOIL' has a character that ends a line for some programs: remove it",
            ),
            ("participant,commands\nGAS,1.5\n", f"line 2, column commands: '1.5' {number}"),
            (
                'participant,commands\n"GA\nS","1\n0"\n',
                "line 2, column 1: a quote begins a cell that doesn't end on its line: write it on one line, or remove the quote",
            ),
            (
                "participant\n\n\nGAS\n\nx\nGAS\n",
                "line 6, column participant: 'x' should be 1 to 8 capitals A to Z: write X\n"
                "  line 7, column participant: GAS is in line 4 too",
            ),
            ("%PDF-1.4\n", None),
        ):
            said = f"{self.table}: {words}" if words else f"{self.table} is a PDF: save the table as .xlsx or as CSV"
            with self.subTest(table=table), self.assertRaises(exits.Stop) as caught:
                self.write_and_read_participants(table)
            self.assertEqual(str(caught.exception), said)

    def test_a_table_of_excel_is_read(self):
        for text in ("\ufeffparticipant,commands\r\nA,100\r\nGAS,\r\n", "\ufeffparticipant;commands\r\nA;100\r\nGAS;\r\n"):
            self.assertEqual(self.write_and_read_participants(text), {"A": 100, "GAS": None})
        with self.assertRaisesRegex(exits.Stop, "column commands: '²' should be a whole number"):
            self.write_and_read_participants("participant,commands\nA,²\n")
        path = self.office.path.parent / "p.xlsx"
        path.write_bytes(b"PK\x03\x04\xff")
        with self.assertRaisesRegex(exits.Stop, "p.xlsx: line 1: the Excel workbook can't be read"):
            setup.read_shares_and_print_notes(path)

    def test_a_workbook_of_participants_is_read(self):
        if not modules.has_module("openpyxl"):
            self.skipTest("python3-openpyxl is missing")
        made, path = table_files.import_openpyxl().Workbook(), self.office.path.parent / "p.xlsx"
        for row in (["Participant", "commands"], ["A", 100], [], ["GAS"]):
            made.active.append(row)
        made.create_sheet("notes", 0).append(["x"])
        made.save(path)
        words = ["--day", "2099-11-29", "--close", "12:00", "--participants", path, "--json"]
        status, out, err = run_tool("office", "init", self.office.path, *words)
        self.assertEqual((status, err), (exits.DONE, f"office: note: {path}: of 2 sheets, 'Sheet' was read, but not 'notes'\n"))
        self.assertEqual(list(json.loads(out)["tokens"]), ["A", "GAS"])
        self.assertEqual(self.office.list_folders_by_day()["2099-11-29"].read_terms().shares, {"A": 100, "GAS": 9_899})
        made["Sheet"].append(["OIL", "=1+1"])
        made.save(path)
        said = "line 5, column commands: '=1\\+1' is a formula that was saved without its value: .*\n  of 2 sheets, 'Sheet' was read, but not 'notes'$"
        with self.assertRaisesRegex(exits.Stop, said):
            setup.read_shares_and_print_notes(path)

    def test_a_table_without_the_column_is_named(self):
        for text in ("GAS\nWIND\n", "name,commands\nGAS,1\n", "", "participants\nGAS\n"):
            with self.subTest(text=text), self.assertRaisesRegex(exits.Stop, "no column participant"):
                self.write_and_read_participants(text)

    def test_a_day_is_added_with_its_new_participants_alone(self):
        later = "2099-11-28", "2099-11-29"
        self.write_and_read_participants("participant\nA\nGAS\n")
        path = str(self.office.path.parent / "p.csv")
        _, made = setup.make_or_extend_office(self.office, self.args(day=later[0], participants=path))
        self.assertEqual(list(made), ["A", "GAS"])
        self.write_and_read_participants("participant\nA\nOIL\n")
        terms, made = setup.make_or_extend_office(self.office, self.args(day=later[1], participants=path))
        self.assertEqual((list(made), list(terms.shares)), (["OIL"], ["A", "OIL"]))
        self.assertEqual(list(self.office.list_folders_by_day()), list(later))
        with self.assertRaisesRegex(exits.Stop, "already"):
            setup.make_or_extend_office(self.office, self.args(day=later[1]))
        self.assertEqual([path.name for path in self.office.path_of(folder.DAYS).iterdir() if path.name.startswith(".")], [])

    def test_the_demo_has_the_orders_of_the_guide_and_more(self):
        guide = (AUCTION.parent / "guide" / "1-hour.csv").read_text().splitlines()
        self.assertEqual(demo.GUIDE, [record for record in guide[1:-1] if ",GAS," not in record])
        found = commands_of_records(*demo.ORDERS)
        shares = setup.require_shares(dict.fromkeys(demo.PARTICIPANTS))
        self.assertLessEqual({one.who for one in found}, set(shares) - {"GAS"})
        for side in ("buy", "sell"):
            self.assertEqual({one.order.volumes[0][0] for one in found if one.order.side == side}, set(range(1, 25)))

    def test_a_demo_that_closes_too_early(self):
        """Before the orders are in that are its own."""
        for seconds in ("0", "-1", "86401", "1.5", "x"):
            self.assertEqual(run_tool("office", "demo", "--no-browser", "--seconds", seconds)[0], exits.COMMAND_LINE, seconds)
        closed = mock.AsyncMock(side_effect=refusals.Refused(refusals.RequestFault.CLOSED, "closed"))
        writer = mock.Mock(is_ready=mock.Mock(wait=mock.AsyncMock()), submit_or_refuse=closed)
        with self.assertRaisesRegex(exits.Stop, r"^the demo's own orders weren't entered \(closed\): give more --seconds$") as raised:
            asyncio.run(demo.enter_orders_or_stop(writer))
        self.assertEqual(raised.exception.status, exits.COMMAND_LINE)

    def test_the_command_line(self):
        room = self.office.path.parent
        (room / "p.csv").write_text("participant\nGAS\n")
        words = ["--day", "2099-11-28", "--close", "12:00", "--participants", room / "p.csv"]
        status, out, err = run_tool("office", "init", self.office.path, *words, "--json")
        self.assertEqual((status, err), (0, ""))
        made = json.loads(out)
        self.assertEqual((made["command"], list(made["tokens"]), made["closes"]), ("init", ["GAS"], "2099-11-27T11:00:00+00:00"))
        self.assertEqual(run_tool("office", "init", self.office.path, *words)[0], exits.NO_INPUT)
        self.assertEqual(run_tool("office", "serve", self.office.path, "--host", "0.0.0.0")[0], exits.COMMAND_LINE)
        said = f"office: {room} isn't the folder of an office: tools/office init makes one\n"
        self.assertEqual(run_tool("office", "serve", room), (exits.NO_INPUT, b"", said))
        held, aside = self.office.path_of(folder.PARTICIPANTS), self.office.path_of("aside")
        held.rename(aside)
        said = f"office: {held} is missing: put it back\n"
        self.assertEqual(run_tool("office", "serve", self.office.path), (exits.NO_INPUT, b"", said))
        aside.rename(held)
        self.assertEqual(run_tool("office", "revoke", self.office.path, "OIL")[0], exits.NO_INPUT)
        status, out, _ = run_tool("office", "renew", self.office.path, "GAS")
        self.assertTrue(tokens.Register(self.office.path_of(folder.PARTICIPANTS)).read_and_see_if_token_of("GAS", out.decode().strip()))
        self.assertEqual(run_tool("office", "publish", self.office.path)[0], exits.NO_INPUT)
        self.assertEqual(run_tool("office", "revoke", self.office.path, "GAS")[0], 0)
        words[1] = "2099-11-29"
        status, out, _ = run_tool("office", "init", self.office.path, *words)
        self.assertEqual((status, out.decode().splitlines()[-1]), (0, "GAS has no token, which was revoked: renew gives it a new one"))
        words[1] = "2099-11-30"
        made = json.loads(run_tool("office", "init", self.office.path, *words, "--json")[1])
        self.assertEqual((made["revoked"], made["tokens"]), (["GAS"], {}))
        self.assertEqual(run_tool("office", "status", self.office.path, "--desk", "true")[0], 0)

    def test_words_like_the_end_of_options(self):
        """The first `--` ends the options, and each further one is a word: a day `--` isn't the only day, which could not be opened again."""
        self.write_and_read_participants("participant\nGAS\n")
        run_tool("office", "init", self.office.path, "--day", "2099-11-29", "--close", "12:00", "--participants", self.table)
        (day,) = self.office.list_folders_by_day().values()
        for name in ("close", "publish"):
            for words in ([self.office.path, "--", "--"], ["--", self.office.path, "--"]):
                said = "office: there is no day --: there is 2099-11-29\n"
                self.assertEqual(run_tool("office", name, *words), (exits.NO_INPUT, b"", said), words)
        for name in ("revoke", "renew"):
            status, out, err = run_tool("office", name, self.office.path, "--", "--")
            self.assertEqual((status, out), (exits.COMMAND_LINE, b""))
            self.assertIn("argument NAME: '--' should be 1 to 8 letters A to Z\n", err)
        status, out, err = run_tool("office", "close", self.office.path, "--", "--", "--")
        self.assertEqual((status, out, err.splitlines()[-1]), (exits.COMMAND_LINE, b"", "office: error: unrecognized arguments: --"))
        self.assertFalse(day.has_file(folder.CLOSE_NOW))
        said = b"2099-11-29 will be closed once the office is served\n"
        self.assertEqual(run_tool("office", "close", self.office.path, "--"), (exits.DONE, said, ""))
        self.assertTrue(day.has_file(folder.CLOSE_NOW))

    def test_the_words_on_a_day_with_results(self):
        self.write_and_read_participants("participant\nGAS\n")
        run_tool("office", "init", self.office.path, "--day", "2099-11-29", "--close", "12:00", "--participants", self.table)
        (day,) = self.office.list_folders_by_day().values()
        day.path_of(folder.RESULTS).touch()
        for name, said in (
            ("close", b"2099-11-29 is closed, and has its results\n"),
            ("publish", b"the journal, the results and the replies of 2099-11-29 are published\n"),
        ):
            self.assertEqual(run_tool("office", name, self.office.path), (exits.DONE, said, ""))

    def test_the_members_of_each_record_are_described(self):
        (self.office.path.parent / "p.csv").write_text("participant\nGAS\n")
        words = ["--day", "2099-11-28", "--close", "12:00", "--participants", self.office.path.parent / "p.csv"]
        seen = []
        for name, *more in (["init", *words], ["revoke", "GAS"], ["renew", "GAS"], ["close"], ["status", "--desk", "true"], ["publish"]):
            if name == "publish":
                (file,) = (files.path_of(folder.RESULTS) for files in self.office.list_folders_by_day().values())
                file.touch()
            made = json.loads(run_tool("office", name, self.office.path, *more, "--json")[1])
            parts = [part for day in made.get("days", []) for part in (day, *(of_one for of_one in day["commands"].values()))]
            seen += parts
            with self.subTest(name):
                self.assertEqual((made["status"], made["message"]), (0, None))
                self.assertEqual(capture_unsaid_members("office", made, *parts), set())
        self.assertEqual(len(seen), 2)

    def test_the_events_of_the_page(self):
        """The page has each event of the log, and no other."""
        sources = "".join(path.read_text() for path in (TOOLS / "lib" / "office").glob("*.py"))
        events = set(re.findall(r'\blog(?:_event|\.write_event)?\("([a-z ]+)"', sources))
        table = (TOP / "docs" / "OFFICE.md").read_text().partition("\n| Event | Meaning |\n")[2].partition("\n\n")[0]
        self.assertGreater(len(events), 10)
        self.assertEqual({event for line in table.splitlines() for event in re.findall(r"`([a-z ]+)`", line.split("|")[1])}, events)

    def test_the_limits_of_the_page(self):
        text = " ".join((TOP / "docs" / "SECURITY.md").read_text().split())
        for words in (
            f"{connections.MOST_CONNECTIONS:,} connections, before",
            f"{connections.MOST_HEAD >> 10} KiB for a request's head",
            f"{connections.MOST_AHEAD} requests ahead",
            f"{admission.MOST_BODY >> 20} MiB a body",
            f"{connections.IDLE_SECONDS} s for a head, {admission.BODY_SECONDS} s for its body, {connections.BUSY_SECONDS} s until its answer",
            f"{budgets.COMMANDS_A_SECOND} commands and {budgets.READS_A_SECOND} other requests a second",
            f"(at first {budgets.MOST_COMMANDS:,} and {budgets.MOST_READS})",
            f"{budgets.LOOKS_A_SECOND} requests a second for each address (at first {budgets.MOST_LOOKS:,})",
            f"after {budgets.MOST_GUESSES} wrong tokens of an address, one more a second",
            f"A /{budgets.NETWORK} of IPv6",
            f"all shares together are at most {folder.MOST_COMMANDS:,}",
        ):
            with self.subTest(words):
                self.assertIn(words, text)
        self.assertEqual(budgets.GUESSES_A_SECOND, 1)
        self.assertIn(f"The file may lack the last {newest_head.PAUSE} s.", " ".join((TOP / "docs" / "OFFICE.md").read_text().split()))

    def test_a_fault_of_the_disk_names_the_file(self):
        self.write_office()
        room = self.office.path.parent
        self.write_and_read_participants("participant\nGAS\n")
        tokens.Register(self.office.path_of(folder.PARTICIPANTS)).write_and_return_new_tokens(["GAS"])
        words = ["--day", "2099-11-28", "--close", "12:00", "--participants", room / "p.csv"]
        day = self.office.path_of(folder.DAYS) / DAY
        for path, asked in (
            (day / folder.TERMS, ["status", self.office.path, "--desk", "true"]),
            (self.office.path_of(f"{folder.PARTICIPANTS}.lock"), ["renew", self.office.path, "GAS"]),
            (self.office.path_of(f"{folder.PARTICIPANTS}.lock"), ["init", self.office.path, *words]),
        ):
            with contextlib.suppress(FileNotFoundError):
                path.unlink()
            path.mkdir()  # which no user can read as a file
            with self.subTest(path=path.name, asked=asked[0]):
                status, out, err = run_tool("office", *asked)
                said = f"not served, 1 participant\n{DAY}: can't be read\n".encode() if asked[0] == "status" else b""
                self.assertEqual((status, out), (exits.NO_INPUT, said))
                self.assertIn(f"{path} can't be used: Is a directory", err)
            path.rmdir()

    def test_a_fault_of_a_write_names_the_file(self):
        full = OSError(errno.ENOSPC, "No space left on device")
        for fault in (full, OSError(errno.ENOSPC, full.strerror, ".dam-0123")):
            with mock.patch.object(folder.replacing, "write_replacing", side_effect=fault), self.assertRaises(OSError) as caught:
                self.write_office()
            self.assertRegex(caught.exception.filename, "operator.pem")
            self.assertEqual(exits.status_and_message(caught.exception)[0], exits.NO_INPUT)
            self.assertIn(f"{caught.exception.filename} can't be used: No space", exits.status_and_message(caught.exception)[1])
        with mock.patch.object(os, "fsync", side_effect=full), self.assertRaises(OSError) as caught:
            folder.sync_folder(self.office.path)
        self.assertEqual(caught.exception.filename, str(self.office.path))
        with mock.patch.object(os, "fsync", side_effect=full), self.assertRaises(OSError) as caught:
            folder.DayFolder(self.office.path).write_trial_or_raise()
        self.assertEqual(caught.exception.filename, str(self.office.path))

    def test_a_file_is_on_the_disk_before_it_has_its_name(self):
        """And the folder with the name after that: a crash leaves the old file or the whole new one."""
        self.write_office()
        path, data, calls, rename = self.office.path / "results.txt", b"new" * 100, [], os.rename

        def synced(number):
            found = Path(os.readlink(f"/proc/self/fd/{number}"))
            calls.append(("sync", found, found.is_file() and found.read_bytes()))

        def renamed(made, target):
            calls.append(("rename", Path(made), Path(target)))
            rename(made, target)

        for old in (None, b"old"):
            calls.clear()
            with mock.patch.object(os, "fsync", synced), mock.patch.object(os, "rename", renamed):
                folder.write_synced(path, data)
            made = calls[0][1]
            self.assertEqual(calls, [("sync", made, data), ("rename", made, path), ("sync", path.parent, False)], old)

    async def test_a_day_that_cant_be_read_is_named_and_the_others_are_served(self):
        self.write_office()
        later = "2026-11-30"
        setup.make_day_or_stop(self.office, folder.Terms(later, 24, FUTURE, "UTC", dict.fromkeys(NAMES, 10)))
        salts = self.office.list_folders_by_day()[DAY].path_of(folder.SALTS)
        kept = salts.read_bytes()
        salts.unlink()
        salts.mkdir()
        log = io.StringIO()
        with patch_of_opening(Disk()), mock.patch.object(serving, "LOOK_SECONDS", 0.001):
            served = serving.Office.read_or_stop(self.office, programs.Programs("dam", "dam-desk"), monitoring.Log(log))
            task = asyncio.create_task(served.take_up_days_forever())
            await self.wait_until(lambda: later in served.writers)
            await served.writers[later].is_ready.wait()
            await asyncio.sleep(0.02)
            self.assertFalse(served.is_healthy)
            said = [one for one in map(json.loads, log.getvalue().splitlines()) if one["event"] == "not served"]
            self.assertEqual([one["day"] for one in said], [DAY])
            self.assertIn(str(salts), said[0]["fault"])
            salts.rmdir()
            salts.write_bytes(kept)
            await self.wait_until(lambda: DAY in served.writers)
            await served.writers[DAY].is_ready.wait()
            await self.wait_until(lambda: served.is_healthy)
            task.cancel()
            await asyncio.gather(task, return_exceptions=True)
            await served.stop_days()

    async def looked(self):
        """The reasons why days aren't served, after one look, and the days that are."""
        with patch_of_opening(Disk()):
            served = serving.Office.read_or_stop(self.office, programs.Programs("dam", "dam-desk"), monitoring.Log(io.StringIO()))
            missed = served.take_up_days_and_return_faults()
            await served.stop_days()
        return missed, list(served.writers)

    async def test_a_day_with_a_damaged_file_is_named_and_the_others_are_served(self):
        self.write_office()
        later = "2026-11-30"
        setup.make_day_or_stop(self.office, folder.Terms(later, 24, FUTURE, "UTC", dict.fromkeys(NAMES, 10)))
        files = self.office.list_folders_by_day()[DAY]
        for name in (folder.TERMS, folder.SALTS):
            kept = files.read_file(name)
            for damage in (b"", b"{\n", b"[]\n", b"{}\n", b"\xff", kept[:40]):
                files.path_of(name).write_bytes(damage)
                missed, served = await self.looked()
                with self.subTest(name=name, damage=damage):
                    self.assertEqual((list(missed), served), ([DAY], [later]))
                    self.assertIn(f"{files.path_of(name)} can't be used: it isn't the ", missed[DAY])
            files.path_of(name).write_bytes(kept)
        self.assertEqual(await self.looked(), ({}, [DAY, later]))

    async def test_a_day_whose_folder_cant_be_read_is_named_and_the_others_are_served(self):
        self.write_office()
        later = "2026-11-30"
        setup.make_day_or_stop(self.office, folder.Terms(later, 24, FUTURE, "UTC", dict.fromkeys(NAMES, 10)))
        has = folder.DayFolder.has_file

        def denied(files, name):
            if files.path.name == DAY:
                raise PermissionError(errno.EACCES, "Permission denied", str(files.path_of(name)))
            return has(files, name)

        with mock.patch.object(folder.DayFolder, "has_file", denied):
            missed, served = await self.looked()
        self.assertEqual((list(missed), served), ([DAY], [later]))
        self.assertIn("Permission denied", missed[DAY])

    async def test_damaged_tokens_are_named_and_no_defect_of_a_request(self):
        self.write_office()
        path, log = self.office.path_of(folder.PARTICIPANTS), io.StringIO()
        token = tokens.Register(path).write_and_return_new_tokens(["GAS"])["GAS"]
        kept = path.read_bytes()
        asked = mock.Mock(match_info={"who": "GAS"}, headers=CIMultiDict(Authorization=f"Bearer {token}"), remote="127.0.0.1")
        with patch_of_opening(Disk()), mock.patch.object(serving, "LOOK_SECONDS", 0.001):
            served = serving.Office.read_or_stop(self.office, programs.Programs("dam", "dam-desk"), monitoring.Log(log))
            answers = admission.Admission(served, budgets.Budgets(behind_proxy=False))
            task = asyncio.create_task(served.take_up_days_forever())
            await self.wait_until(lambda: DAY in served.writers and served.writers[DAY].is_ready.is_set() and served.is_healthy)
            self.assertEqual(answers.require_authorized_participant(asked), "GAS")
            for damage in (b"{", b"[1]", None):
                path.unlink(missing_ok=True)
                if damage is not None:
                    path.write_bytes(damage)
                with self.subTest(damage=damage), self.assertRaises(refusals.Refused) as caught:
                    answers.require_authorized_participant(asked)
                self.assertEqual(caught.exception.fault, refusals.RequestFault.UNAVAILABLE)
                await self.wait_until(lambda: not served.is_healthy)
                said = json.loads(log.getvalue().splitlines()[-1])
                self.assertEqual((said["event"], said["day"]), ("not served", None))
                self.assertIn(str(path), said["fault"])
                path.write_bytes(kept)
                await self.wait_until(lambda: served.is_healthy)
                self.assertEqual(answers.require_authorized_participant(asked), "GAS")
            task.cancel()
            await asyncio.gather(task, return_exceptions=True)
            await served.stop_days()

    def test_a_damaged_file_is_no_defect_of_the_tool(self):
        self.write_office()
        terms, participants = self.office.list_folders_by_day()[DAY].path_of(folder.TERMS), self.office.path_of(folder.PARTICIPANTS)
        for path, kind in ((terms, "the terms of a day"), (participants, "the digests of the participants' tokens")):
            kept = path.read_bytes()
            for damage in (b"{", b"[" * 100_000, *others(json.loads(kept))):
                path.write_bytes(damage)
                status, _, err = run_tool("office", "status", self.office.path, "--desk", "true")
                self.assertEqual(status, exits.NO_INPUT)
                self.assertIn(f"{path} can't be used: it isn't {kind}", err)
            path.write_bytes(kept)

    def test_where_the_terms_of_a_day_are_odd(self):
        """The fault names the member."""
        self.write_office()
        path = self.office.list_folders_by_day()[DAY].path_of(folder.TERMS)
        kept = path.read_bytes()
        value = json.loads(kept)
        periods, zone = "periods should be one of 23, 24, 25, 92, 96, 100, and is ", "zone should be a time zone of this system, and is "
        closes, each = "closes should be a time in UTC, such as 2026-11-28T11:00:00+00:00, and is ", "from 0 to 9,999, and has "
        for more, words in (
            ({"day": "2026-11-30"}, f'day should be the name of its folder, {DAY}, and is "2026-11-30"'),
            ({"day": 20261129}, f"day should be the name of its folder, {DAY}, and is 20261129"),
            ({"periods": 48}, f"{periods}48"),
            ({"periods": "24"}, f'{periods}"24"'),
            ({"periods": 24.0}, f"{periods}24.0"),
            ({"periods": True}, f"{periods}true"),
            ({"periods": 10**19}, f"{periods}10000000000000000000"),
            ({"periods": 10**20}, f"{periods}1e+20"),
            ({"shares": {"GAS": -(10**4_000)}}, f"shares: GAS should have a whole number {each}-Infinity"),
            ({"closes": "2026-11-28T11:00:00"}, f'{closes}"2026-11-28T11:00:00"'),
            ({"closes": "2026-11-28T12:00:00+01:00"}, f'{closes}"2026-11-28T12:00:00+01:00"'),
            ({"closes": "noon"}, f'{closes}"noon"'),
            ({"closes": 1795863600}, f"{closes}1795863600"),
            ({"zone": "Atlantis"}, f'{zone}"Atlantis"'),
            ({"zone": "../../etc/passwd"}, f'{zone}"../../etc/passwd"'),
            ({"zone": None}, f"{zone}null"),
            ({"shares": {}}, "shares should be an object that has each participant, and is {}"),
            ({"shares": ["GAS"]}, 'shares should be an object that has each participant, and is ["GAS"]'),
            ({"shares": {"gas": 1}}, "shares: 'gas' should be 1 to 8 letters A to Z"),
            ({"shares": {"GAS": 1, "A": -1}}, f"shares: A should have a whole number {each}-1"),
            ({"shares": {"GAS": 1.5}}, f"shares: GAS should have a whole number {each}1.5"),
            ({"shares": {"GAS": True}}, f"shares: GAS should have a whole number {each}true"),
            ({"shares": {"GAS": 10_000}}, f"shares: GAS should have a whole number {each}10000"),
            ({"shares": {"GAS": 9_000, "A": 1_000}}, "shares: together they are 10,000, and a journal has 9,999 commands"),
            ({"share": 1}, "'share' is no member of it"),
        ):
            self.check_odd_terms(path, json.dumps({**value, **more}).encode(), words)
        for name in value:
            self.check_odd_terms(path, json.dumps({other: value[other] for other in value if other != name}).encode(), f"'{name}' is missing")
            twice = kept.rstrip()[:-1] + f', "{name}": {json.dumps(value[name])}}}'.encode()
            self.check_odd_terms(path, twice, f"'{name}' comes twice")
        self.check_odd_terms(path, kept.replace(b'"GAS": 1000', b'"GAS": 1, "GAS": 2'), "'GAS' comes twice")
        self.check_odd_terms(path, b"[]", "it should be an object")
        self.check_odd_terms(path, kept.replace(b'"periods": 24', b'"periods": 1' + b"0" * 9_999), f"{periods}Infinity")
        self.check_odd_terms(path, kept.replace(b'"periods": 24', b'"periods": 1e999'), f"{periods}Infinity")
        with mock.patch("lib.tool.modules.has_zone", return_value=False):
            self.check_odd_terms(path, kept, f'{zone}"UTC"', False)
        path.write_bytes(kept)
        self.assertEqual(self.office.list_folders_by_day()[DAY].read_terms().json_value(), value)

    def check_odd_terms(self, path, data, words, by_status=True):
        """Terms whose fault has these words."""
        path.write_bytes(data)
        said = f"{path} can't be used: it isn't the terms of a day: {words}"
        with self.subTest(words):
            with self.assertRaises(exits.Stop) as fault:
                self.office.list_folders_by_day()[DAY].read_terms()
            self.assertEqual(str(fault.exception), said)
            if by_status:
                status, _, err = run_tool("office", "status", self.office.path, "--desk", "true")
                self.assertEqual((status, err), (exits.NO_INPUT, f"office: {DAY}: {said}\n"))

    def test_the_status_has_the_other_days_of_one_that_cant_be_read(self):
        self.write_office()
        later = "2026-11-30"
        setup.make_day_or_stop(self.office, folder.Terms(later, 24, FUTURE, "UTC", dict.fromkeys(NAMES, 10)))
        self.office.list_folders_by_day()[DAY].path_of(folder.TERMS).write_bytes(b"{")
        status, out, err = run_tool("office", "status", self.office.path, "--desk", "true")
        self.assertEqual((status, out.decode().splitlines()[1]), (exits.NO_INPUT, f"{DAY}: can't be read"))
        self.assertTrue(out.decode().splitlines()[2].startswith(f"{later}: open, 0 entries"))
        self.assertIn(f"{DAY}: ", err)
        status, out, _ = run_tool("office", "status", self.office.path, "--desk", "true", "--json")
        made = json.loads(out)
        self.assertEqual((status, made["status"], [one["day"] for one in made["days"]]), (exits.NO_INPUT,) * 2 + ([DAY, later],))
        self.assertIn("terms.json can't be used", made["days"][0]["fault"])

    def test_what_root_makes_is_the_owners(self):
        self.write_office()
        later = "2026-11-30"
        with mock.patch.object(os, "geteuid", return_value=0), mock.patch.object(os, "chown") as chown:
            setup.make_day_or_stop(self.office, folder.Terms(later, 24, FUTURE, "UTC", dict.fromkeys(NAMES, 10)))
            with self.office.holding():
                pass
            tokens.Register(self.office.path_of(folder.PARTICIPANTS)).write_and_return_new_tokens(["GAS"])
            operator_commands.write_request(self.office.list_folders_by_day()[later], folder.CLOSE_NOW)
        owner = os.stat(self.office.path)
        self.assertEqual({call.args[1:] for call in chown.call_args_list}, {(owner.st_uid, owner.st_gid)})
        given = [call.args[0] for call in chown.call_args_list]
        made, locks = [Path(path) for path in given if not isinstance(path, int)], [path for path in given if isinstance(path, int)]
        self.assertEqual(sorted(path.name.partition("-")[0] for path in made), [".new", "close", folder.SALTS, folder.TERMS])
        self.assertEqual(len(locks), 2)  # of the office, and of its participants

    def test_a_program_that_cant_be_run_is_seen_at_the_start(self):
        for dam, desk, missing in (("/nowhere/dam", "true", "dam"), ("true", "/nowhere/desk", "dam-desk"), ("true", __file__, "dam-desk")):
            with self.subTest(dam=dam, desk=desk), self.assertRaisesRegex(exits.Stop, f"the program {missing} can't be run: ") as caught:
                programs.find_programs_and_clear_trial_or_stop(dam, desk)
            self.assertEqual(caught.exception.status, exits.FAILED)

    def test_a_program_that_isnt_dam_is_seen_at_the_start(self):
        made = self.office.path.parent / "dam"
        made.touch(mode=0o755)
        prints = "test $1 = clear && cat > /dev/null && printf 'day,24\\nwelfare,0\\n'"
        for lines, fault in (
            ("#!/bin/sh\n", "it printed no results"),
            ("#!/bin/sh\ncat", "it printed no results"),
            (f"#!/bin/sh\n{prints}; exit 4", "it ended with status 4"),
            ("#!/bin/sh\nkill -9 $$", "it was ended by signal 9"),
            ("#!/bin/sh\nexec sleep 60", "it took more than 0.2 s"),
            ("#!/bin/sh\nexec head -c 3000000 /dev/zero", "it printed more than 1,048,576 bytes"),
            ("#!/nowhere/sh\n", "No such file or directory"),
        ):
            made.write_text(lines)
            seconds = mock.patch.object(programs, "TRIAL_SECONDS", 0.2 if "sleep" in lines else SECONDS)
            with seconds, self.subTest(lines), self.assertRaisesRegex(exits.Stop, f"didn't clear an empty day: .*: {fault}$") as caught:
                programs.find_programs_and_clear_trial_or_stop(made, "true")
            self.assertEqual(caught.exception.status, exits.FAILED)
        made.write_text(f"#!/bin/sh\n{prints}")
        self.assertEqual(programs.find_programs_and_clear_trial_or_stop(made, "false"), (str(made), "false"))

    def test_a_program_that_says_much(self):
        """Of its standard error, the office takes no more than it logs."""
        made = self.office.path.parent / "dam"
        made.write_text("#!/bin/sh\necho begin >&2\nhead -c 30000000 /dev/zero | tr '\\0' x >&2\nexit 3\n")
        made.chmod(0o755)
        tracemalloc.start()
        self.addCleanup(tracemalloc.stop)
        for call in (programs.capture_output_or_raise(str(made), "clear", data=b"x" * 300_000), desk.capture_records(str(made), "file")):
            with self.assertRaises((programs.ProgramFailed, desk.DeskEnded)) as raised:
                asyncio.run(call)
            self.assertTrue(str(raised.exception).endswith("ended with status 3: begin\n" + "x" * (async_child.MOST_FAULT - len("begin\n"))))
        self.assertLess(tracemalloc.get_traced_memory()[1], 8 << 20)
        made.write_text("#!/bin/sh\nexec head -c 3000000 /dev/zero\n")
        with mock.patch.object(async_child, "MOST_PRINTED_BYTES", 2_000_000):
            for call in (programs.capture_output_or_raise(str(made), "clear"), desk.capture_records(str(made), "file")):
                with self.assertRaisesRegex(OSError, f"it printed 2,000,000 bytes or more: '{made}'$"):
                    asyncio.run(call)

    def test_how_a_program_ended(self):
        self.assertEqual(async_child.end_text(4), "ended with status 4")
        self.assertEqual(async_child.end_text(-9), "was ended by signal 9")

    def test_the_proxy_of_the_examples_has_the_limits_of_the_office(self):
        """It is in front of the port of the unit, and limits addresses as an office without a proxy does."""
        text = (TOP / "examples" / "operating" / "nginx.conf").read_text()
        self.assertNotIn("--port", (TOP / "examples" / "operating" / "dam-office.service").read_text())
        port = re.search(r"^PORT = (\d+)$", (TOOLS / "office").read_text(), re.MULTILINE)[1]
        for line in (
            f"    server 127.0.0.1:{port};",
            f"zone=office_requests:10m rate={budgets.LOOKS_A_SECOND}r/s;",
            f"    limit_req zone=office_requests burst={budgets.MOST_LOOKS} nodelay;",
            f"    client_max_body_size {admission.MOST_BODY >> 20}m;",
            f"    client_header_timeout {connections.IDLE_SECONDS}s;",
            f"    client_body_timeout {admission.BODY_SECONDS}s;",
            "    add_header {} {} always;".format(*routes.SECURE, *routes.SECURE.values()),
        ):
            with self.subTest(line):
                self.assertIn(line, text)
        pause, kept = re.search(r"^    keepalive_timeout (\d+)s; # .* idle for (\d+) s$", text, re.MULTILINE).groups()
        self.assertLess(int(pause), int(kept))
        self.assertEqual(int(kept), serving.KEEP_SECONDS)

    def test_a_close_after_the_day_has_begun_is_noted(self):
        for close, is_late in (("23:59", False), ("2026-11-28T23:59", False), ("2026-11-29T00:00", True), ("2026-12-03T12:00", True)):
            with self.subTest(close=close):
                self.assertEqual(setup.is_closing_late(self.terms(day="2026-11-29", close=close)), is_late)
        self.write_and_read_participants("participant\nGAS\n")
        words = ["--day", "2099-11-28", "--close", "2099-11-28T12:00", "--participants", self.office.path.parent / "p.csv"]
        status, _, err = run_tool("office", "init", self.office.path, *words)
        self.assertEqual(status, 0)
        self.assertIn("note: 2099-11-28 closes after it has begun", err)

    def test_a_day_that_was_closed_early_doesnt_close_later(self):
        days = [{"day": DAY, "state": state, "stopped": None, "entries": 1, "closes": "T"} for state in (folder.OPEN, folder.CLOSED, folder.PUBLISHED)]
        found = {"served": True, "participants": 1, "revoked": [], "days": days}
        lines = list(operator_commands.status_lines(found))[1:]
        self.assertEqual(lines, [f"{DAY}: open, 1 entry, closes T", f"{DAY}: closed, 1 entry", f"{DAY}: published, 1 entry"])


if __name__ == "__main__":
    unittest.main()
