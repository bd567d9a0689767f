"""The module dam_tools: journals, runs of a program, records and frames."""

import ast
import datetime
import inspect
import json
import os
import re
import subprocess
import sys
import tempfile
import typing
import unittest
import unittest.mock
from pathlib import Path

import support
from support import AUCTION, AUCTION_RESULTS, FIRST, TOP, make_folder_for_case, read_results

import dam_tools
from dam_tools.lib.runs import which
from lib.tables import day_tables, table_files, table_operations
from lib.tool import modules

END = "is the first or the last day of the calendar: it should be another"
FAKE = support.TOOLS / "tests" / "fake_dam.py"


class Module(unittest.TestCase):
    def setUp(self):
        self.program = make_folder_for_case(self) / "dam"
        self.program.write_text(f'#!/bin/sh\nPYTHONPATH="{FAKE.parent}" exec "{sys.executable}" "{FAKE}" "$@"\n')
        self.program.chmod(0o755)

    def test_a_run_of_the_program(self):
        day = dam_tools.clear(dam_tools.read_journal(AUCTION), program=self.program, workers=2)
        self.assertEqual((day.wrong, day.published.welfare), ([], 3021520000))
        self.assertIs(day.said, day.published)
        rows = dam_tools.records(day)
        self.assertEqual((len(rows), rows[18]["price_eur_mwh"], rows[18]["traded"]), (24, 165.0, True))
        again = dam_tools.read_results(AUCTION, AUCTION_RESULTS)
        for name in dam_tools.TABLES:
            self.assertEqual(dam_tools.records(day, name), dam_tools.records(again, name))
        self.assertEqual(dam_tools.TABLES, tuple(day_tables.TABLES))

    def test_an_older_python(self):
        """It reads the file, and the import names its missing package."""
        code = "import sys; sys.version_info = (3, 9, 18); import dam_tools"
        ran = subprocess.run([sys.executable, "-B", "-c", code], cwd=support.TOOLS, capture_output=True, text=True)
        self.assertEqual(ran.stderr.splitlines()[-1:], ["ImportError: dam_tools needs Python 3.10 or newer"])
        ast.parse((support.TOOLS / "dam_tools" / "__init__.py").read_text(), feature_version=(3, 8))

    def test_replies_of_the_program(self):
        replies = dam_tools.replay(FIRST, program=self.program)
        self.assertEqual((len(replies), replies[0], replies[0].done), (15, (1, None), True))
        self.assertEqual([reply.command for reply in replies if not reply.done], [9, 12, 13, 15])
        self.assertEqual(replies[8].reason, "NameTaken")
        wrong = Path(self.program.parent, "wrong")
        for line, place in (
            (r"printf 'day,24\n1,done\n'", "replies line 3: '2,done' is missing"),
            (f'{self.program} "$@" | sed s/done/refused,Closed/', "replies line 2: it is '1,refused,Closed' and should be '1,done'"),
            (f'{self.program} "$@" | sed s/NameTaken/Closed/', "replies line 10: it is '9,refused,Closed' and should be '9,refused,NameTaken'"),
            (f'{self.program} "$@" | sed s/day,24/day,25/', "replies line 1: "),
            (":", "the replies are empty"),
        ):
            wrong.write_text(f"#!/bin/sh\n{line}\n")
            wrong.chmod(0o755)
            said = re.escape(f"the program printed other replies than those of the journal ({place}")
            with self.assertRaisesRegex(dam_tools.Fault, f"^{said}"):
                dam_tools.replay(FIRST, program=wrong)

    def test_what_is_printed_of_objects_is_short(self):
        self.assertEqual(repr(dam_tools.read_journal(FIRST)), "<Journal: 24 periods, 15 commands>")
        day = dam_tools.read_results(AUCTION, AUCTION_RESULTS)
        self.assertEqual(repr(day), "<Day: 24 periods, 80 hourly orders, 9 blocks, welfare 3,021,520.00 EUR>")
        day = dam_tools.read_results(AUCTION, read_results(AUCTION).replace(b"UNIT-7,rejected,7", b"UNIT-7,rejected,8"))
        self.assertTrue(repr(day).endswith(", 1 fault>"), day)
        self.assertRegex(dam_tools.__version__, r"^\d+\.\d+\.\d+$")

    def test_several_tables_of_orders(self):
        heads = b"participant,order,kind,side,price_eur_mwh,periods,volume_mw\n"
        made = dam_tools.journal_of_orders(heads + b"A,H,hour,buy,1,8,5\n", heads + b"B,H,hour,sell,1,07:00-08:00,5\n", close=False)
        self.assertEqual([(command.who, command.order.volumes) for command in made.commands], [("A", ((8, 50),)), ("B", ((8, 50),))])
        self.assertEqual(made.notes, [])
        made = dam_tools.journal_of_orders(heads[:-1] + b",note\nA,H,hour,buy,1,8,5,\xfc\n")
        self.assertEqual(made.notes, ["line 2: the table isn't in UTF-8, and was read as Windows-1252", "the column 'note' isn't used"])
        self.assertEqual(dam_tools.records(made, "commands")[0]["order"], "H")
        with self.assertRaisesRegex(dam_tools.Fault, "^/nowhere/a.xlsx can't be read"):
            dam_tools.journal_of_orders("/nowhere/a.xlsx")

    def test_flat_records(self):
        day = dam_tools.read_results(AUCTION, AUCTION_RESULTS)
        for name in dam_tools.TABLES:
            for row in dam_tools.records(day, name, flat=True):
                self.assertFalse([value for value in row.values() if isinstance(value, list)])
        self.assertEqual(dam_tools.records(day, "orders", flat=True)[-1]["periods"], "18-20")

    def test_bytes_and_tables_of_orders(self):
        journal = dam_tools.read_journal(FIRST)
        self.assertEqual(dam_tools.records(journal, "commands")[12]["reason"], "PeriodOutOfDay")
        day = dam_tools.read_results(AUCTION.read_bytes(), read_results(AUCTION))
        text = table_files.csv_text(day_tables.order_rows(day)).encode()
        made = dam_tools.journal_of_orders(text)
        self.assertEqual(dam_tools.clear(made, program=self.program).published.welfare, day.published.welfare)

    def test_faults(self):
        with self.assertRaises(dam_tools.Fault) as fault:
            dam_tools.read_journal(b"day,24\n")
        self.assertIn("FieldCount in record 1", str(fault.exception))
        opened = dam_tools.read_journal(b"day,24,,,,,,,\n")
        with self.assertRaises(dam_tools.Fault) as fault:
            dam_tools.clear(opened, program=self.program)
        self.assertEqual((str(fault.exception), fault.exception.status), ("input: StillOpen", 1))
        with self.assertRaises(dam_tools.Fault):
            dam_tools.read_results(AUCTION, b"day,24\n")
        with self.assertRaises(dam_tools.Fault):
            dam_tools.journal_of_orders(b"x\n")
        small = table_files.csv_text([day_tables.ORDER]).encode() + b"a,H,hour,buy,1,8,5,,\n"
        for call in (lambda: dam_tools.journal_of_orders(small), lambda: dam_tools.whatif_change(AUCTION, small, program=self.program)):
            with self.assertRaisesRegex(dam_tools.Fault, "^line 2, column participant: 'a' should be 1 to 8 capitals A to Z: write A"):
                call()
        with self.assertRaisesRegex(dam_tools.Fault, "a day has 23, 24, 25, 92, 96 or 100 periods, not 26"):
            dam_tools.journal_of_orders(table_files.csv_text([day_tables.ORDER]).encode(), periods=26)
        day = dam_tools.read_results(AUCTION, AUCTION_RESULTS)
        for words in ({"table": "none"}, {"table": "curves", "long": True}):
            with self.assertRaises(ValueError):
                dam_tools.records(day, **words)
        with self.assertRaises(ValueError):
            dam_tools.records(opened)

    def test_an_unknown_table_lists_the_tables(self):
        day = dam_tools.read_results(AUCTION, AUCTION_RESULTS)
        for words, listed, said in (
            (["block"], day_tables.TABLES, "there is no table block: the tables are "),
            (["curves", True], day_tables.LONG, "there is no table curves in a long form: the tables in a long form are "),
        ):
            with self.assertRaises(ValueError) as fault:
                dam_tools.records(day, *words)
            self.assertEqual(str(fault.exception), said + ", ".join(listed))
            self.assertIn("blocks", listed)

    def test_the_lint(self):
        """The same findings as of the tool, from a file, a text and a journal."""
        found = dam_tools.lint(AUCTION)
        told = json.loads(support.run_tool("lint", "--json", AUCTION)[1])
        self.assertEqual(found, dam_tools.Lint("refused", [], [dam_tools.Finding(**one) for one in told["refused"]]))
        self.assertEqual((found, found.refused[0].reason), (dam_tools.lint(dam_tools.read_journal(AUCTION)), "HasChildren"))
        found = dam_tools.lint("day,24\nclose\n")
        self.assertEqual((found.verdict, [one.line for one in found.faults], found.refused), ("faulty", [1, 2], []))
        self.assertEqual(dam_tools.lint(b"day,24,,,,,,,\n", "replay"), dam_tools.Lint("right", [], []))
        with self.assertRaisesRegex(dam_tools.Fault, "^/nowhere can't be read"):
            dam_tools.lint("/nowhere")
        with self.assertRaisesRegex(ValueError, "^there is no command run: the commands are clear, replay and day$"):
            dam_tools.lint(AUCTION, "run")

    def test_the_audit(self):
        day = dam_tools.read_results(AUCTION, AUCTION_RESULTS)
        right = dam_tools.audit(AUCTION, AUCTION_RESULTS)
        self.assertEqual((right.verdict, right.faults, right.checked), ("right", [], ["results", "sums"]))
        both = AUCTION.read_bytes() + b"results\n" + read_results(AUCTION)
        for sources in ((day,), (both,), (AUCTION.read_bytes(), read_results(AUCTION)), (day.journal, AUCTION_RESULTS)):
            found = dam_tools.audit(*sources, best=True)
            self.assertEqual((found.verdict, found.checked[-1], found.better), ("right", "best selection", None))
            self.assertIn("each of 512 selections was tried", found.how)
        wrong = read_results(AUCTION).replace(b"period,1,9200", b"period,1,9300")
        found = dam_tools.audit(AUCTION, wrong)
        told = json.loads(support.run_tool("audit", "--json", "-", data=AUCTION.read_bytes() + b"results\n" + wrong)[1])
        self.assertEqual(("wrong", [dam_tools.AuditFault(**one) for one in told["faults"]]), (found.verdict, found.faults))
        self.assertEqual((found.faults[0].kind, found.faults[0].line), ("price", 3))
        self.assertEqual(dam_tools.audit(AUCTION, read_results(AUCTION).replace(b"\n", b"\r\n")).verdict, "encoding")
        # nothing is accepted, which obeys the other rules, and the search has no time
        worse = dam_tools.audit(FIRST, support.results_of(FIRST, frozenset()), best=True, seconds=0)
        self.assertEqual((worse.verdict, worse.message[:46]), ("undecided", "the results obey the other rules, but after 0 "))
        worse = support.journal_of("submit,A,L,hour,buy,5000,1:20,,", "submit,B,U,block,sell,4000,1:20,,")
        found = dam_tools.audit(worse, support.results_of(worse, frozenset()), best=True)
        self.assertEqual((found.verdict, found.faults[0].kind, found.better), ("wrong", "better", ["B,U"]))

    def test_audits_without_a_verdict(self):
        for call, said in (
            (lambda: dam_tools.audit(AUCTION, "/nowhere"), "^/nowhere can't be read: No such file or directory$"),
            (lambda: dam_tools.audit(AUCTION), "auction-day.csv has no line 'results': give the results file after the journal$"),
            (lambda: dam_tools.audit(b"day,24\n", AUCTION_RESULTS), "^the journal isn't a journal: input: FieldCount in record 1"),
            (lambda: dam_tools.audit(AUCTION, AUCTION), "has a journal instead of results"),
        ):
            with self.assertRaisesRegex(dam_tools.Fault, said):
                call()
        with self.assertRaisesRegex(ValueError, "^there is no method x: the methods are enumeration and highs$"):
            dam_tools.audit(AUCTION, AUCTION_RESULTS, by="x")
        lacking = unittest.mock.patch.object(dam_tools.modules, "has_module", lambda _: False)
        with unittest.mock.patch("os.execv", side_effect=AssertionError), lacking:
            with self.assertRaisesRegex(dam_tools.Fault, "^it needs scipy, which Debian has in the package python3-scipy"):
                dam_tools.audit(AUCTION, AUCTION_RESULTS, best=True, by="highs")

    def test_what_if(self):
        lines = "submit,CITY,TOWN,hour,buy,5000,1:20,,", "submit,GEN,UNIT,block,sell,6000,1:20,,"
        journal = support.journal_of(*lines)
        found = dam_tools.whatif_limit(journal, "GEN", "UNIT", program=self.program)
        self.assertEqual((found.price_eur_mwh, found.worst_limit_eur_mwh, found.why), (60.0, 50.0, None))
        self.assertEqual([(case.case, case.accepted, any(case.traded)) for case in found.cases],
                         [("as it was", False, False), ("at the worst limit", True, True), ("one cent past it", False, False)])
        self.assertEqual(found.others, [dam_tools.OtherOrder("CITY", "TOWN", 0.0, 2.0)])
        found = dam_tools.whatif_change(journal, b"amend,GEN,UNIT,,,4000,1:20,,", "GEN", program=self.program)
        self.assertIn(dam_tools.Change("executed", "MWh", "GEN", "UNIT", None, 0.0, 2.0, 2.0, "rejected", "accepted"), found.changes)
        self.assertEqual(found.notes, [])
        table = b"what,participant,order,price_eur_mwh,periods,volume_mw,Note\namend,GEN,UNIT,40,1,2,x\n"
        again = dam_tools.whatif_change(journal, table, "GEN", program=self.program)
        self.assertEqual(again, dam_tools.Changes(found.changes, ["the column 'Note' isn't used"]))
        wrong = support.write_doctored_program(self.program.parent, self.program, "", "s/^welfare,/welfare,1/")
        for call in (dam_tools.whatif_limit, journal, "GEN", "UNIT", wrong), (dam_tools.whatif_change, journal, table, None, wrong):
            with self.assertRaisesRegex(dam_tools.Fault, r"^the program's results of the day break the rules \(results line 2: the welfare is 1"):
                call[0](*call[1:])
        for call, said in (
            (lambda: dam_tools.whatif_limit(journal, "GEN", "X"), "^GEN has no order X in the book: its blocks are UNIT$"),
            (lambda: dam_tools.whatif_limit(journal, "CITY", "TOWN"), "^TOWN of CITY isn't a block$"),
            (lambda: dam_tools.whatif_limit(b"day,24,,,,,,,\n", "GEN", "X"), "^no command closes the book"),
            (lambda: dam_tools.whatif_change(journal, b"cancel,GEN,X,,,,,,"), "^record 1: the book refuses cancel,GEN,X"),
            (lambda: dam_tools.whatif_change(journal, b"cancel,GEN,UNIT,,,,,,", "NOBODY"), "^NOBODY has no order in the book, before or after the changes$"),
            (lambda: dam_tools.whatif_change(journal, b"cancel,GEN,UNIT,,,,,,", ""), "^'' has no order in the book, before or after the changes$"),
            (lambda: dam_tools.whatif_change(journal, b"cancel,GEN,UNIT,,,,,,", program=""), "^a program with an empty name can't be run$"),
            (lambda: dam_tools.clear(journal, program=""), "^a program with an empty name can't be run$"),
        ):
            with self.assertRaisesRegex(dam_tools.Fault, said):
                call()

    def test_every_public_function_has_types(self):
        public = [getattr(dam_tools, name) for name in dam_tools.__all__ if inspect.isfunction(getattr(dam_tools, name))]
        own = [call for call in public if call.__module__.split(".")[1:2] != ["lib"]]
        self.assertGreater(len(own), 10)
        for call in own:
            signature = inspect.signature(call)
            annotations = [signature.return_annotation, *(one.annotation for one in signature.parameters.values())]
            self.assertNotIn(inspect.Signature.empty, annotations, call.__name__)
            typing.get_type_hints(call)
        self.assertTrue(Path(dam_tools.__file__).with_name("py.typed").exists())

    def test_faults_of_files_programs_and_dates(self):
        day = dam_tools.read_results(AUCTION, AUCTION_RESULTS)
        slow = Path(self.program.parent, "slow")
        slow.write_text("#!/bin/sh\nexec sleep 60\n")
        slow.chmod(0o755)
        for call, said in (
            (lambda: dam_tools.read_journal("/nowhere/a.csv"), "/nowhere/a.csv can't be read: No such file or directory"),
            (lambda: dam_tools.read_results(AUCTION, "/nowhere/a.txt"), "/nowhere/a.txt can't be read: No such file or directory"),
            (lambda: dam_tools.clear(AUCTION, program="/nowhere/dam"), "/nowhere/dam can't be run: No such file or directory"),
            (lambda: dam_tools.clear(AUCTION, program=slow, timeout=0.5), f"{slow} took longer than 0.5 seconds"),
            (lambda: dam_tools.records(day, date="25.11.2026"), "25.11.2026: it should be a day, such as 2026-11-25"),
            (lambda: dam_tools.records(day, date=20261125), "20261125: it should be a datetime.date, or a text such as 2026-11-25"),
            (lambda: dam_tools.records(day, date="2026-03-29"), "2026-03-29 has 23 hours, so 23 or 92 periods, but the day has 24"),
            (lambda: dam_tools.records(day, date="9999-12-31"), f"9999-12-31 {END}"),
            (lambda: dam_tools.records(day, date=datetime.date.min), f"0001-01-01 {END}"),
            (lambda: dam_tools.records(day, date=20.5), "20.5: it should be a datetime.date, or a text such as 2026-11-25"),
            (
                lambda: dam_tools.records(day, "orders", date="2026-11-25"),
                "a date can't be used with orders, which has no column of periods: long=True",
            ),
            (
                lambda: dam_tools.records(day, "figures", date="2026-11-25"),
                "a date can't be used with figures, which has no column of periods",
            ),
        ):
            if "date" in said and not modules.has_zone(table_operations.ZONE):
                continue
            with self.assertRaises(dam_tools.Fault) as fault:
                call()
            self.assertEqual(str(fault.exception), said)
        text = read_results(AUCTION)
        for other, said in (
            (text.replace(b"\n", b"\r\n"), "the lines end with CR LF instead of LF alone"),
            (b"\xef\xbb\xbf" + text, "the text begins with a byte order mark"),
        ):
            day = dam_tools.read_results(AUCTION, other)
            self.assertEqual((day.wrong, day.odd), ([], [said]))

    def test_what_is_a_number_is_one_everywhere(self):
        """A whole number in the figures of JSON, in its rows, and in records."""
        day = dam_tools.read_results(AUCTION, AUCTION_RESULTS)
        (row,) = (row for row in dam_tools.records(day, "figures") if row["figure"] == "traded_periods")
        self.assertEqual(repr(row["value"]), repr(day_tables.figure_values(day)["traded_periods"]))

    def test_an_old_library_is_left_alone(self):
        """After any change of a source, and after no change, whatever the dates."""
        with tempfile.TemporaryDirectory() as folder:
            library = support.make_recorded_library(folder)
            with unittest.mock.patch.object(which, "LIBRARY", library), unittest.mock.patch.object(which.sources, "TOP", folder):
                self.assertTrue(which.is_library_built())
                os.utime(library, (1_000, 1_000))
                self.assertTrue(which.is_library_built())
                for path in (*support.SOURCES_OF_LIBRARY, "library/out/libdam.so.1"):
                    before = Path(folder, path).read_bytes()
                    Path(folder, path).write_bytes(b"# another\n" + before)
                    os.utime(Path(folder, path), (1, 1))
                    with self.subTest(path=path):
                        self.assertFalse(which.is_library_built())
                    Path(folder, path).write_bytes(before)
                    self.assertTrue(which.is_library_built())
                library.with_name("libdam.so.1.json").unlink()
                self.assertFalse(which.is_library_built())

    @unittest.skipUnless(which.is_library_built(), "the library for C isn't built (library/build)")
    def test_the_library_for_c(self):
        with unittest.mock.patch.dict(os.environ), unittest.mock.patch.object(subprocess, "Popen", side_effect=AssertionError):
            os.environ.pop("DAM", None)
            day = dam_tools.clear(AUCTION)
            with self.assertRaises(dam_tools.Fault) as fault:
                dam_tools.clear(b"day,24,,,,,,,\n")
        again = dam_tools.read_results(AUCTION, AUCTION_RESULTS)
        for name in dam_tools.TABLES:
            self.assertEqual(dam_tools.records(day, name), dam_tools.records(again, name))
        self.assertEqual((str(fault.exception), fault.exception.status), ("input: StillOpen", 1))

    @unittest.skipUnless(modules.has_zone(table_operations.ZONE), "the time zones are missing (Debian's tzdata)")
    def test_dates(self):
        day = dam_tools.read_results(AUCTION, AUCTION_RESULTS)
        rows = dam_tools.records(day, "orders", long=True, date=datetime.date(2026, 7, 1))
        self.assertEqual(rows[0]["begins"], "2026-07-01T00:00:00+02:00")
        self.assertEqual(dam_tools.records(day, "orders", long=True, date="2026-07-01"), rows)

    @unittest.skipUnless(modules.has_module("pandas"), "pandas is missing (Debian's python3-pandas)")
    def test_frames(self):
        day = dam_tools.read_results(AUCTION, AUCTION_RESULTS)
        frame = dam_tools.frame(day, "periods", date=datetime.date(2026, 11, 25))
        self.assertEqual((len(frame), frame["price_eur_mwh"].max()), (24, 165.0))
        self.assertEqual(str(frame["begins"][0]), "2026-11-25 00:00:00+01:00")
        self.assertEqual([str(frame[name].dtype) for name in ("period", "traded", "price_eur_mwh")], ["int64", "bool", "float64"])
        orders = dam_tools.frame(day, "orders")
        self.assertEqual((orders["periods"][0], orders["volume_mw"][0]), ([1], [orders["offered_mwh"][0]]))
        self.assertEqual((orders["parent"][0], str(orders["surplus_eur"][0])), (None, "nan"))
        self.assertIsNone(dam_tools.records(day, "orders")[0]["surplus_eur"])
        without = dam_tools.read_results(FIRST, support.results_of(FIRST, frozenset()))
        self.assertEqual(str(dam_tools.frame(without, "orders")["surplus_eur"].dtype), "float64")
        frame = dam_tools.frame(day, "orders", long=True)
        self.assertAlmostEqual(frame["amount_eur"].sum(), 0)

    @unittest.skipUnless(modules.has_module("pandas") and modules.has_zone(table_operations.ZONE), "pandas or the time zones are missing")
    def test_the_example_of_the_pages(self):
        example = self.examples()[0]
        self.assertIn("dam_tools.clear(journal)", example)
        Path(self.program.parent, "day.csv").write_bytes(AUCTION.read_bytes())
        words = [sys.executable, "-B", "-c", example]
        path = {**os.environ, "PYTHONPATH": str(support.TOOLS), "DAM": str(self.program)}
        path.pop("DAM_LIBRARY", None)
        ran = subprocess.run(words, cwd=self.program.parent, env=path, capture_output=True, text=True)
        self.assertEqual((ran.returncode, ran.stderr), (0, ""))
        self.assertIn("OLD UNIT-7 paradoxically rejected would gain", ran.stdout)
        self.assertRegex(ran.stdout, r"STAD +-1193050\.0")

    def examples(self):
        """Those before the many days."""
        recipes = (TOP / "docs" / "PYTHON.md").read_text().partition("\n## Many days")[0]
        return re.findall(r"```python\n([^`]*import dam_tools.*?)```", recipes, re.DOTALL)

    def test_the_example_for_parquet(self):
        """It is run if pyarrow is there, and its query too if DuckDB is; otherwise the frames are written as CSV, which needs less."""
        self.assertEqual(len(self.examples()), 2)
        example, folder = self.examples()[1], self.program.parent
        if not modules.has_module("pandas"):
            self.skipTest("pandas is missing (Debian's python3-pandas)")
        Path(folder, "day.csv").write_bytes(AUCTION.read_bytes())
        Path(folder, "results.txt").write_bytes(read_results(AUCTION))
        if not modules.has_module("pyarrow"):
            example = example.replace("to_parquet", "to_csv")
        ran = subprocess.run([sys.executable, "-B", "-c", example], cwd=folder, env={**os.environ, "PYTHONPATH": str(support.TOOLS)})
        self.assertEqual(ran.returncode, 0)
        self.assertTrue(Path(folder, "orders.parquet").stat().st_size and Path(folder, "executions.parquet").stat().st_size)
        if modules.has_module("pyarrow") and modules.has_module("duckdb"):
            import duckdb

            query = re.search(r"```sql\n(.*?)```", (TOP / "docs" / "PYTHON.md").read_text(), re.DOTALL)[1]
            found = duckdb.sql(query.replace("executions.parquet", str(Path(folder, "executions.parquet")))).fetchall()
            self.assertAlmostEqual(dict(found)["STAD"], -1_193_050.0)

    def test_frames_without_pandas(self):
        day = dam_tools.read_results(AUCTION, AUCTION_RESULTS)
        with unittest.mock.patch.dict(sys.modules, {"pandas": None}), self.assertRaises(dam_tools.Fault) as fault:
            dam_tools.frame(day)
        self.assertIn("apt-get install python3-pandas", str(fault.exception))

    def test_the_project_file_names_the_packages(self):
        text = (TOP / "pyproject.toml").read_text()
        for name, folder in (("dam_tools", "tools/dam_tools"), ("dam_tools.lib", "tools/lib")):
            self.assertIn(f'"{name}" = "{folder}"', text)
            self.assertTrue(Path(TOP, folder, "__init__.py").is_file())


if __name__ == "__main__":
    unittest.main()
