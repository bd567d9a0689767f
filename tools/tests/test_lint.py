"""The lint: each fault by hand, and that it reports one exactly if the program's format or book has one."""

import hashlib
import json
import os
import random
import re
import time
import tracemalloc
import unittest
import unittest.mock

import support
from support import AUCTION, AUCTION_RESULTS, FIRST, journal_of, read_worked_cases, run_tool

from shared import days
from lib.base import rules
from lib.journal import book, fields, journal
from lib.lint import lint
from lib.tool import exits

GOOD = b"day,24,,,,,,,\nsubmit,NORD,WIND-8,hour,sell,1200,8:450,,\nsubmit,GAS,UNIT-1,block,sell,6800,8:200;9:200,,\nclose,,,,,,,,\n"
HOUR, BLOCK = GOOD.splitlines()[1:3]
CENTS = f"whole cents per MWh from {rules.LOWEST_PRICE} to {rules.HIGHEST_PRICE}"
BEYOND = rules.HIGHEST_PRICE + 1
TENTHS = f"should be whole tenths of a MW from 1 to {rules.GREATEST_VOLUME}"


def fault_lines(data, command="clear"):
    return [str(fault) for fault in lint.collect_findings(data, command)]


class Hand(unittest.TestCase):
    def check(self, data, *wanted, command="clear"):
        """Each fault that is reported begins and ends in one way."""
        found = fault_lines(data, command)
        self.assertEqual(len(found), len(wanted), found)
        for line, (begin, part) in zip(found, wanted):
            self.assertTrue(line.startswith(f"{begin}: ") and part in line, (line, begin, part))

    def test_nothing(self):
        self.check(GOOD)
        self.check(GOOD.replace(b"\n", b"\r\n\r\n"))
        self.check(GOOD.replace(b"day,24", b'"day","24"'))

    def test_the_whole_text(self):
        self.check(b"", ("line 1", "the journal is empty: begin with the day, such as day,24,,,,,,,"))
        self.check(b"\xef\xbb\xbf" + GOOD, ("line 1", "begins with a byte order mark: save it as plain CSV"))
        self.check(GOOD.decode().encode("utf-16"), ("line 1", "in UTF-16: save it as plain CSV"))
        semicolons = GOOD.replace(b"8:200;9:200", b'"8:200;9:200"').replace(b",", b";")
        self.check(semicolons, ("line 1", "separated by semicolons: separate them by commas"))
        self.check(GOOD.replace(b",", b";"), ("line 1", "separated by semicolons: separate them by commas"))
        self.check(GOOD.replace(b",", b"\t"), ("line 1", "separated by tabs"))
        header = b"kind,participant,name,type,side,price,volumes,parent,group\n"
        self.check(header + GOOD, ("line 1", "this is a header, and a journal has none: begin with the day"))
        self.check(header, ("line 1", "this is a header"), ("line 1", "there is no day"), ("line 1", "no command closes the book"))
        self.check(GOOD.replace(b"close,,,,,,,,\n", b""), ("line 3", "no command closes the book"))
        self.check(GOOD.replace(b"close,,,,,,,,\n", b""), command="replay")
        self.check(GOOD, ("line 4", "a journal for `dam day` has no close: remove the line"), command="day")
        self.check(GOOD.replace(b"day,24,,,,,,,\n", b""), ("line 1", "the first line should be the day, such as day,24,,,,,,,"))
        many = b"day,24,,,,,,,\n" + b"cancel,A,B,,,,,,\n" * 3
        self.check(many, *[("line %d, order" % line, "A has no order B here") for line in (2, 3, 4)], command="replay")

    def test_characters(self):
        data = GOOD.replace(b"NORD", "NØRD".encode())
        self.check(data, ("line 2", "'Ø' isn't ASCII: a journal has no accented letters"), ("line 2, participant", "A to Z"))
        found = fault_lines(b"\xd8\n" * 100)
        self.assertEqual(len([line for line in found if "isn't ASCII" in line]), lint.MOST_LINES)
        self.assertIn("line 21: 80 lines from here on aren't ASCII either: save the file as plain CSV, in ASCII", found)

    def test_results_are_no_journal(self):
        text = support.read_results(AUCTION)
        self.check(GOOD + b"results\n" + text, ("line 5", "the results of a day begin here, which aren't part of a journal"))
        self.check(b"day,24,,,,,,,\n" + text[7:], ("line 2", "these are results"), ("line 2", "no command closes the book"))

    def test_quotes_that_are_not_closed(self):
        """Each is reported on its line, and the text after it is read as if it weren't there."""
        said = "a quote begins a field and isn't closed on its line: remove it, or close it"
        self.check(GOOD.replace(b"WIND", b'"WIND'), ("line 2", said))
        self.check(GOOD.replace(b"WIND", b'"WIND').replace(b"UNIT", b'"UNIT'), ("line 2", said), ("line 3", said))
        self.check(GOOD.replace(b"WIND", b'"wind'), ("line 2", said), ("line 2, order", "write WIND-8"))
        self.check(GOOD.replace(b"close", b'"close'), ("line 4", said))
        self.check(GOOD.replace(b"day", b'"day'), ("line 1", said))
        self.assertEqual("\n".join(fault_lines(b'"a\n' * 100)).count(said), lint.MOST_QUOTES)

    def test_a_quote_that_is_not_closed_in_the_last_field(self):
        """The program takes it, if the rest of the text is a name or nothing."""
        self.check(b'day,24,,,,,,,\nclose,,,,,,,,"')
        self.assertEqual(lint.collect_findings(b"day,24,,,,,,,\n" + BLOCK + b'"G', "replay"), [])
        self.check(b'day,24,,,,,,,\nclose,,,,,,,,"\n', ("line 2", "a quote begins a field and isn't closed on its line"))

    def test_a_line_with_other_separators(self):
        """It alone; its fields are read nevertheless if there are nine."""
        for mark, name in ((";", "semicolons"), ("\t", "tabs")):
            said = ("line 2", f"the fields of this line are separated by {name}: separate them by commas")
            line = HOUR.decode().replace(",", mark).encode()
            self.check(GOOD.replace(HOUR, line), said)
            self.check(GOOD.replace(HOUR, line.replace(b"1200", b"12.5")), said, ("line 2, price", "write 1250"))
            self.check(GOOD.replace(HOUR, line + mark.encode()), said)
        self.check(GOOD.replace(BLOCK, BLOCK.replace(b",", b";")), ("line 3", "separated by semicolons"))

    def test_excel_workbooks(self):
        old = b"\xd0\xcf\x11\xe0\xa1\xb1\x1a\xe1"
        for signature, said in (b"PK\x03\x04", "this is an Excel workbook (.xlsx): "), (old, "this is an old Excel workbook (.xls): "):
            data = signature + bytes(range(256)) * 100
            self.check(data, ("line 1", said))
            for words in (["audit", "-", AUCTION], ["audit", AUCTION, "-"], ["table", "-", AUCTION], ["plot", AUCTION, "-"]):
                status, out, err = run_tool(*words, data=data)
                self.assertEqual((status, out, err.count("\n") <= 2), (exits.NO_INPUT, b"", True), err)
                self.assertIn("xcel workbook", err)

    def test_other_kinds_of_files(self):
        """One line says which kind of file it seems to be, and which tool reads it."""
        orders = run_tool("table", "--rows", "orders", AUCTION, AUCTION_RESULTS)[1]
        replies = book.replies_text(journal.parse_journal(AUCTION.read_bytes())).encode()
        for data, part in (
            (support.read_results(AUCTION), "these seem to be results, which aren't a journal: tools/audit reads them"),
            (replies, "these seem to be replies of `dam replay`, which aren't a journal: tools/audit --replies reads them"),
            (orders, "this seems to be a table of orders: tools/table --journal makes a journal of it"),
            (b"\xef\xbb\xbf" + orders.replace(b";", b" ").replace(b",", b";"), "this seems to be a table of orders"),
        ):
            self.check(data, ("line 1", part))

    def test_a_field_with_a_comma(self):
        data = GOOD.replace(b"6800,8:200;9:200,,", b"68,00,8:200;9:200,,G")
        found = fault_lines(data)
        self.assertEqual(found[0], "line 3: it has 10 fields and should have 9: a field can't contain a comma")

    def test_records(self):
        self.check(GOOD.replace(b"day,24,,,,,,,", b"day,24"), ("line 1", "it has 2 fields and should have 9, so 7 commas are"
                   " missing: write day,24,,,,,,,"))
        self.check(GOOD.replace(b"close,,,,,,,,", b"close"), ("line 4", "8 commas are missing: write close,,,,,,,,"))
        self.check(GOOD.replace(b"8:450,,", b"8:450,"), ("line 2", "it has 8 fields and should have 9, so a comma is missing"))
        self.check(GOOD.replace(b"8:450,,", b"8:450,,,"), ("line 2", "it has 10 fields and should have 9: remove 1 comma at its end"))
        self.check(GOOD.replace(b"close", b"# the end\n\n,,,,,,,,\nclose"), ("line 4", "no comments"), ("line 6", "nothing in the"))
        self.check(GOOD.replace(b"close", b"day,24,,,,,,,\nclose"), ("line 4", "the day appears twice"))
        self.check(GOOD.replace(b"submit,NORD", b"Submit,NORD"), ("line 2, command", "'Submit': it should be submit, amend, cancel"))
        self.check(GOOD.replace(b"close", b"stop,,,,,,,,\nclose"), ("line 4, command", "'stop': it should be submit, amend, cancel or"))
        self.check(GOOD.replace(b"day,24", b"day,22"), ("line 1, periods", "'22': the number of periods should be 23, 24, 25 (hours)"))
        self.check(GOOD.replace(b"day,24,", b"day, 24,A"), ("line 1, periods", "a space around it: write 24"), ("line 1, order", "empty"))

    def test_fields(self):
        for line, old, new, field, part in (
            (HOUR, b"NORD", b" NORD", "participant", "' NORD': there is a space around it: write NORD"),
            (HOUR, b"NORD", b"Nord", "participant", "'Nord': it should be 1 to 8 capitals A to Z: write NORD"),
            (HOUR, b"NORD", b"NORD2", "participant", "'NORD2': it should be 1 to 8 capitals A to Z"),
            (HOUR, b"NORD", b"", "participant", "it is empty: it should be 1 to 8 capitals"),
            (HOUR, b"WIND-8", b"wind_8", "order", "'wind_8': it should be 1 to 12 of A to Z, 0 to 9 and -: write WIND-8"),
            (HOUR, b"hour", b"Hour", "kind", "'Hour': it should be hour or block: write hour"),
            (HOUR, b"sell", b"offer", "side", "'offer': it should be buy or sell"),
            (HOUR, b"1200", b"12.50", "price", f"{CENTS}: write 1250 for 12.50 EUR/MWh"),
            (HOUR, b"1200", b'"12,5"', "price", "write 1250 for 12.5 EUR/MWh"),
            (HOUR, b"1200", b"012", "price", "write 12"),
            (HOUR, b"1200", b"-0", "price", "write 0"),
            (HOUR, b"1200", b"%d" % BEYOND, "price", f"'{BEYOND}': it should be whole cents"),
            (HOUR, b"1200", b"12 EUR", "price", "'12 EUR': it should be whole cents"),
            (HOUR, b"8:450", b"8:45.5", "volumes", f"'45.5' in '8:45.5' {TENTHS}: write 455 for"),
            (HOUR, b"8:450", b"8:0", "volumes", f"'0' in '8:0' {TENTHS}"),
            (HOUR, b"8:450", b"450", "volumes", "'450' should be period:volume, such as 8:450"),
            (HOUR, b"8:450", b"0:450", "volumes", "'0' in '0:450' should be a period from 1 to 100"),
            (HOUR, b"8:450", b"8:450;9:450", "volumes", "an hourly order has one pair, such as 8:450, not 2"),
            (HOUR, b"8:450", b"", "volumes", "it is empty: it should be period:volume"),
            (HOUR, b"8:450,,", b"8:450,K1,", "parent", "'K1' should be empty in an hourly order"),
            (BLOCK, b"8:200;9:200", b"8-9:200", "volumes", "'8-9:200' has a range of periods: write a pair for each"),
            (BLOCK, b"8:200;9:200", b"9:200;8:200", "volumes", "period 8 stands after 9: write the pairs by increasing period"),
            (BLOCK, b"8:200;9:200", b"8:200;8:100", "volumes", "period 8 appears twice"),
            (BLOCK, b"8:200;9:200", b"8:200; 9:200", "volumes", "has a space: write 9:200"),
            (BLOCK, b"8:200;9:200", b"8:200;", "volumes", "one `;` too many"),
            (BLOCK, b"9:200,,", b"9:200,,pump", "group", "write PUMP"),
        ):
            with self.subTest(new):
                self.assertIn(old, line)
                number = GOOD.splitlines().index(line) + 1
                self.check(GOOD.replace(line, line.replace(old, new)), (f"line {number}, {field}", part))

    def test_what_the_book_refuses(self):
        child = b"submit,GAS,UNIT-2,block,sell,6800,8:200,"
        for line, field, part in (
            (b"submit,NORD,WIND-9,hour,sell,1200,25:450,,", "volumes", "the day has periods 1 to 24, so there is no period 25"),
            (HOUR, "order", "NORD has an order WIND-8 since line 2: amend that one, or take another name"),
            (child + b"UNIT-9,", "parent", "GAS has no order UNIT-9 here: submit the parent first"),
            (b"submit,NORD,K,block,sell,1,8:1,WIND-8,", "parent", "WIND-8 of line 2 is an hourly order: name a block"),
            (b"cancel,NORD,WIND-9,,,,,,", "order", "NORD has no order WIND-9 here"),
            (b"amend,NORD,WIND-8,,,1200,8:1;9:1,,", "volumes", "the order of line 2 is hourly: give it one pair"),
        ):
            self.check(GOOD.replace(b"close", line + b"\nclose"), (f"line 4, {field}", part))
        both = child + b"UNIT-1,\ncancel,GAS,UNIT-1,,,,,,\n"
        self.check(GOOD.replace(b"close", both + b"close"), ("line 5, order", "UNIT-2 of line 4 names UNIT-1 as its parent: cancel UNIT-2 first"))
        self.check(GOOD + HOUR, ("line 5", "the book is closed by line 4: put the command before it"))
        blocks = b"".join(b"submit,A,K%d,block,sell,1,1:1,,\n" % number for number in range(rules.MOST_BLOCKS))
        found = f"line {3 + rules.MOST_BLOCKS}", f"a book holds at most {rules.MOST_BLOCKS} blocks"
        self.check(GOOD.replace(b"close", blocks + b"close"), found)

    def test_a_journal_that_is_too_long_is_not_called_open(self):
        cancels = b"cancel,NORD,WIND-8,,,,,,\n" * (rules.MOST_RECORDS - 1)
        self.assertEqual(
            [fault for fault in fault_lines(b"day,24,,,,,,,\n" + cancels + b"close,,,,,,,,\n") if "WIND-8" not in fault],
            [f"line {rules.MOST_RECORDS + 1}: a journal has at most {rules.MOST_RECORDS - 1} commands: remove the rest"],
        )

    def test_one_fault_is_not_told_of_as_many(self):
        # The order is taken for the one that was meant, so that the cancel finds it; one that can't be read isn't reported.
        cancel = GOOD.replace(b"close", b"cancel,NORD,WIND-8,,,,,,\nclose")
        self.check(cancel.replace(b"NORD,WIND-8,hour", b"nord,WIND-8,hour"), ("line 2, participant", "write NORD"))
        self.check(cancel.replace(b"8:450", b"x"), ("line 2, volumes", "'x' should be period:volume"))


class Random(unittest.TestCase):
    def test_a_fault_is_told_exactly_if_there_is_one(self):
        refused = faulty = 0
        for number in range(1_500):
            rng = random.Random(f"lint {number}")
            data = self.spoilt(rng, days.draw_text(rng, 6))
            found = lint.collect_findings(data, "replay")
            told = [fault for fault in found if not fault.refusal]
            try:
                read = journal.parse_journal(data)
            except journal.JournalFault as fault:
                faulty += 1
                self.assertTrue(told, (data, fault))
                continue
            self.assertEqual(told, [], data)
            reasons = [reason for reason in book.book_and_refusals(read)[1] if reason]
            refused += len(reasons)
            self.assertEqual([fault.refusal for fault in found], reasons)
            is_open = "Closed" not in reasons and journal.Close() not in read.commands
            self.assertEqual(any("no command closes" in fault.words for fault in lint.collect_findings(data)), is_open)
        self.assertGreater(refused, 300)
        self.assertGreater(faulty, 300)

    def spoilt(self, rng, data):
        """The text with some bytes changed, left out or doubled."""
        if rng.random() < 0.3 or len(data) > 5_000:
            return data
        for _ in range(rng.choice([1, 1, 2])):
            at = rng.randrange(len(data))
            new = rng.choice([b"", b" ", b",", b";", b":", b"0", b"-", b".", b'"', b"\n", b"a", b"\xff", data[at : at + 1] * 2])
            data = data[:at] + new + data[at + rng.choice([0, 1]) :]
        return data


class CommandLine(unittest.TestCase):
    def test_worked_cases(self):
        """Also a journal whose last quote isn't closed, which is valid."""
        for name, case in read_worked_cases("replay").items():
            with self.subTest(name):
                found = lint.collect_findings(case.stdin, "replay")
                self.assertEqual(any(not one.refusal for one in found), case.status != 0)
                if case.status == 0:
                    self.assertEqual(len(found), case.right_stdout.count(b",refused,"))

    def test_statuses(self):
        self.assertEqual(run_tool("lint", "-", data=GOOD), (exits.DONE, b"nothing is wrong\n", ""))
        status, out, _ = run_tool("lint", AUCTION)
        self.assertEqual((status, out.splitlines()[-1], b"line 94, order: STAY of line 86" in out), (exits.DIFFERS, b"1 refused command", True))
        self.assertEqual(run_tool("lint", "-", data=b"day,24\nclose\nclose\n")[1].splitlines()[-1], b"3 faults, 1 refused command")
        self.assertEqual(run_tool("lint", "--quiet", "-", data=FIRST), (exits.DIFFERS, b"", ""))
        self.assertEqual(run_tool("lint", "/nowhere/a.csv")[0], exits.NO_INPUT)
        self.assertEqual(run_tool("lint", "--fo", "day", AUCTION)[0], exits.COMMAND_LINE)
        for data, status in ((b"day,24\n", exits.FAULTY), (GOOD.replace(b"close", b"cancel"), exits.FAULTY), (FIRST, exits.DIFFERS)):
            self.assertEqual(run_tool("lint", "--quiet", "-", data=data), (status, b"", ""))
        self.assertEqual(run_tool("lint", "--json", "--quiet", AUCTION)[0], exits.COMMAND_LINE)

    def test_faults_come_before_refused_commands(self):
        """A day whose book refuses thousands of commands, and that has a record too many."""
        again = HOUR + b"\n"
        data = GOOD.replace(again, again * rules.MOST_RECORDS)
        status, out, _ = run_tool("lint", "-", data=data)
        lines = out.decode().splitlines()
        self.assertEqual((status, len(lines)), (exits.FAULTY, rules.MOST_RECORDS))
        self.assertEqual(lines[0], f"line {rules.MOST_RECORDS + 1}: a journal has at most 10000 commands: remove the rest")
        self.assertTrue(lines[1].startswith("line 3, order: NORD has an order WIND-8 since line 2"))
        self.assertEqual(lines[-1], f"1 fault, {rules.MOST_RECORDS - 2} refused commands")

    def record(self, *words, data=b""):
        """The status of a run, its record, and its lines on standard error."""
        status, out, err = run_tool("lint", "--json", *words, data=data)
        return status, json.loads(out), err

    def test_records(self):
        status, made, err = self.record("-", data=GOOD)
        digest = hashlib.sha256(GOOD).hexdigest()
        inputs = [{"role": "journal", "file": "-", "bytes": len(GOOD), "sha256": digest}]
        empty = {"message": None, "version": rules.VERSION, "for": "clear", "inputs": inputs, "faults": [], "refused": []}
        self.assertEqual((status, made, err), (exits.DONE, {"verdict": "right", "status": 0, **empty}, ""))
        both = GOOD.replace(BLOCK, HOUR).replace(b"close", b"cancel,NORD,WIND_8,,,,,,\nclose")
        status, made, _ = self.record("--for", "replay", "-", data=both)
        self.assertEqual([status, made["verdict"], made["status"], made["for"]], [exits.FAULTY, "faulty", 7, "replay"])
        self.assertEqual([(one["line"], one["field"]) for one in made["faults"]], [(4, "order")])
        self.assertEqual([(one["line"], one["field"], one["reason"]) for one in made["refused"]], [(3, "order", "NameTaken")])
        self.assertTrue(made["faults"][0]["words"].endswith("write WIND-8"))
        self.assertEqual(self.record("-")[1]["faults"][0]["field"], None)
        status, made, _ = self.record(AUCTION)
        self.assertEqual((status, made["verdict"], made["faults"], len(made["refused"])), (exits.DIFFERS, "refused", [], 1))

    def test_the_fields_of_the_page(self):
        page = (support.TOP / "docs" / "FORMATS.md").read_text().partition("\n`tools/lint --json` prints ")[2]
        said = re.search(r"a `field` \(([^)]*) or null\)", page)[1]
        self.assertEqual(re.findall(r"`(\w+)`", said), [*fields.NAMES, "periods"])
        self.assertEqual(self.record("-", data=GOOD.replace(b"24", b"26"))[1]["faults"][0]["field"], "periods")

    def test_a_record_of_a_file_that_cannot_be_read(self):
        status, made, err = self.record("/nowhere/a.csv")
        said = "/nowhere/a.csv can't be read: No such file or directory"
        self.assertEqual((status, made["verdict"], made["message"], err), (exits.NO_INPUT, "unread", said, f"lint: {said}\n"))
        self.assertEqual(made["inputs"], [{"role": "journal", "file": "/nowhere/a.csv", "bytes": None, "sha256": None}])
        with unittest.mock.patch("lib.lint.lint.collect_findings", side_effect=MemoryError):
            status, made, err = self.record(AUCTION)
        self.assertEqual((status, made["verdict"], made["message"], err), (exits.FAILED, "failed", "out of memory", "lint: out of memory\n"))

    def test_a_name_with_bytes_that_are_not_utf_8(self):
        """No reader of JSON has to take half of a character."""
        path = support.make_folder_for_case(self) / os.fsdecode(b"\xff.csv")
        for status, verdict in ((exits.NO_INPUT, "unread"), (exits.DONE, "right")):
            found, made, _ = self.record(path)
            self.assertEqual((found, made["verdict"], made["inputs"][0]["file"]), (status, verdict, f"{path.parent}/\\xff.csv"))
            path.write_bytes(GOOD)

    def test_other_tools_say_the_same(self):
        data = journal_of("submit,NORD,WIND-8,hour,sell,12.50,8:450,,", *["x,,,,,,,,"] * 6)
        status, _, err = run_tool("table", "--rows", "commands", "-", data=data)
        lines = err.splitlines()
        said = "table: standard input isn't a journal: input: BadField in record 2 field 6"
        self.assertEqual((status, lines[0]), (exits.NO_INPUT, said))
        self.assertIn("  line 2, price: '12.50': it should be whole cents", lines[1])
        self.assertEqual((len(lines), lines[-1]), (7, "  and 2 more: see tools/lint"))


class Long(unittest.TestCase):
    """Long lines and long texts take little memory and time, and their first fault is that of the program."""

    DAY, SIZE = b"day,24,,,,,,,\n", 2_000_000
    MOST_TIMES, MOST_SECONDS = 14, 4

    def measured(self, call, data):
        """The result of a call, which takes little more memory than the text."""
        tracemalloc.start()
        began = time.process_time()
        try:
            found = call(data)
        finally:
            seconds, most = time.process_time() - began, tracemalloc.get_traced_memory()[1]
            tracemalloc.stop()
        self.assertLess(most, self.MOST_TIMES * len(data))
        self.assertLess(seconds, self.MOST_SECONDS)
        return found

    def first(self, data):
        try:
            return journal.parse_journal(data)
        except journal.JournalFault as fault:
            return str(fault)

    def test_each_long_line(self):
        size, many = self.SIZE, "far more than a command has: remove it"
        submit, count = b"submit,A,K,block,buy,1,%s,,\n", "input: FieldCount in record 2"
        for line, first in (
            (b"," * size, count),
            (b";" * size, count),
            (b"A" * 70_000 + b"," * size, count),
            (b'"A",' * (size // 4), count),
            (b'"A"",' * (size // 5), count),
            (b'"' * size, count),
            (b'""A,' * (size // 4) + b'"', count),
            (b" " * size, count),
            (submit % (b"1:1;" * (size // 4)), "input: BadField in record 2 field 7"),
            (b"submit,A,%s,,,,,,\n" % (b"A" * size), "input: BadField in record 2 field 3"),
        ):
            with self.subTest(line[:30]):
                self.assertEqual(self.measured(self.first, self.DAY + line), first)
                found = self.measured(lambda data: fault_lines(data, "replay"), self.DAY + line)
                self.assertEqual(found, [f"line 2: the line has {len(line.strip(bytes([10]))):,} bytes, {many}"])
                self.measured(lambda data: fault_lines(data, "replay"), line + b"\n" + self.DAY)

    def test_the_lines_after_a_long_one(self):
        found = fault_lines(GOOD.replace(HOUR, b"," * 70_000 + b"\r\n" + HOUR.replace(b"1200", b"12.5")))
        self.assertEqual(found[0], "line 2: the line has 70,000 bytes, far more than a command has: remove it")
        self.assertEqual((len(found), found[1][:14]), (2, "line 3, price:"))

    def test_many_lines_and_volumes(self):
        accents = self.DAY + b"\xc3\xa9\n" * (self.SIZE // 3)
        self.assertIn("aren't ASCII either", "".join(self.measured(fault_lines, accents)))
        for lines in (b'""\n' * (self.SIZE // 3), b"\n" * self.SIZE, b'"A\n' * (self.SIZE // 3), b"a,\n" * (self.SIZE // 3)):
            self.measured(fault_lines, self.DAY + lines)
        for count in (rules.GREATEST_PERIOD, rules.GREATEST_PERIOD + 1, 15_000):
            found = fault_lines(self.DAY + b"submit,A,K,block,buy,1,%s1:1,,\n" % (b"1:1;" * (count - 1)), "replay")[0]
            self.assertEqual(f"it has {count:,} pairs, and a day has at most 100 periods" in found, count > rules.GREATEST_PERIOD)

    def test_a_text_that_is_too_long(self):
        data = self.DAY + b"," * rules.MOST_BYTES
        self.assertEqual(self.measured(self.first, data), "input: TooLong")
        said = f"line 1: the text has {len(data):,} bytes, but a journal has at most {rules.MOST_BYTES:,}"
        self.assertEqual(self.measured(fault_lines, data), [f"{said}: remove empty lines; the day and 10000 commands take less"])

    def test_only_empty_lines_make_a_journal_too_long(self):
        """The longest commands, with all fields in quotes and CR LF, take less than a journal may have."""
        name = "A" * rules.LONGEST_NAME
        volumes = ";".join(f"{period}:{rules.GREATEST_VOLUME}" for period in range(1, rules.GREATEST_PERIOD + 1))
        fields = ["submit", "A" * rules.LONGEST_PARTICIPANT, name, "block", "sell", str(rules.HIGHEST_PRICE), volumes, name, name]
        record = ",".join(f'"{field}"' for field in fields).encode() + b"\r\n"
        data = b"day,100,,,,,,,\n" + record * (rules.MOST_RECORDS - 1)
        self.assertEqual(len(journal.parse_journal(data).commands), rules.MOST_RECORDS - 1)
        self.assertEqual(self.first(data + b"\n" * (rules.MOST_BYTES + 1 - len(data))), "input: TooLong")


if __name__ == "__main__":
    unittest.main()
