"""What if: worst limits, further commands, and comparisons of two days; with the built program, or one that answers by the rules."""

import errno
import itertools
import json
import os
import re
import signal
import subprocess
import sys
import time
import unittest
import unittest.mock
from fractions import Fraction
from pathlib import Path

import support
from support import AUCTION, AUCTION_RESULTS, FIRST, QUARTERS, QUARTERS_RESULTS
from support import journal_of, make_folder_for_case, read_results, rows_of_csv, run_tool

from shared import right_output
from lib.base import rules, text
from lib.journal import book, journal
from lib.runs import by_program, cleared, engine, errors, which
from lib.tables import day_tables, order_table
from lib.tool import exits, modules
from lib.whatif import changes, limits, scenarios
from test_many import ends

FAKE = Path(__file__).with_name("fake_dam.py")
# TOWN buys 2 MW with a limit of 50.00; UNIT sells the same in a block with 40.00. One cent past 50.00 it would lose.
SMALL = ("submit,CITY,TOWN,hour,buy,5000,1:20,,", "submit,GEN,UNIT,block,sell,4000,1:20,,")
BUYER = ("submit,GEN,PLANT,hour,sell,2000,1:20,,", "submit,CITY,TOWN,block,buy,3000,1:20,,")
# A and B are of one group, and A is its parent: B can never be accepted.
NEVER = ("submit,CITY,TOWN,hour,buy,5000,1:20,,", "submit,GEN,A,block,sell,4000,1:20,,G", "submit,GEN,B,block,sell,4000,1:20,A,G")


def search(*lines, key, periods=24):
    held, _ = book.book_and_refusals(journal.parse_journal(journal_of(*lines).replace(b"day,24,", b"day,%d," % periods)))
    return limits.LimitSearch(held, key, lambda text: support.results_of(text, best(text)))


def best(text):
    """The places that the rules accept, by trying each selection."""
    out = right_output.right_results_or_none(journal.parse_journal(text)).stdout
    words = [line.split(",")[3] for line in out.decode().splitlines() if line.startswith("block,")]
    return {place for place, word in enumerate(words) if word == "accepted"}


# The head of a table of commands.
TABLE = b"what,participant,order,kind,side,price_eur_mwh,periods,volume_mw\n"


class Limits(unittest.TestCase):
    def test_a_block_that_sells(self):
        one = search(*SMALL, key=("GEN", "UNIT"))
        found = one.search_for_worst()
        self.assertEqual((found.limit, found.past_limit, found.at.surplus(one.key), found.past.surplus(one.key)), (5000, 5001, 0, -20))
        self.assertEqual((found.at.welfare, found.past.welfare, found.at.prices[0]), (0, 0, 5000))
        self.assertLessEqual(found.clearings, limits.MOST_CLEARINGS)
        self.assertEqual(limits.other_differing_orders(one, found), [("CITY", "TOWN")])

    def test_amounts_of_quarter_hours_are_a_fourth(self):
        """The same orders in a quarter of an hour have the same limits and prices, and a fourth of the energy and of each amount."""
        orders = [order.replace("1:20,", "1:200,") for order in SMALL]
        days = [search(*orders, key=("GEN", "UNIT"), periods=periods) for periods in (24, 96)]
        founds = [one.search_for_worst() for one in days]
        hour, quarter = (limits.record(one, found) for one, found in zip(days, founds))
        self.assertEqual(hour["cases"][0]["surplus_eur"], 200.0)
        for case, other in zip(hour["cases"], quarter["cases"]):
            self.assertEqual(case["limit_eur_mwh"], other["limit_eur_mwh"])
            for name in ("surplus_eur", "gain_eur", "welfare_eur"):
                self.assertEqual(case[name], 4 * other[name])
        (one,), (other,) = hour["others"], quarter["others"]
        self.assertEqual([(each["past_mwh"], each["at_mwh"]) for each in (one, other)], [(0.0, 20.0), (0.0, 5.0)])
        past = [limits.limit_cells(one, found._replace(at=found.past)) for one, found in zip(days, founds)]
        self.assertEqual([Fraction(cell) for cell in past[0][6:8]], [4 * Fraction(cell) for cell in past[1][6:8]])
        lines = [limits.answer_lines(*each) for each in zip(days, founds)]
        numbers = [[list(map(Fraction, re.findall(r"-?[0-9]+\.[0-9]+", line))) for line in each] for each in lines]
        heads = [line.split(",")[0] for line in lines[0]]
        self.assertEqual(numbers[0][0], [20, 40])  # the energy and the limit
        self.assertEqual(numbers[1][0], [5, 40])
        for name in ("surplus at these prices", "gain of GEN", "welfare"):
            one, other = (each[heads.index(name)] for each in numbers)
            self.assertEqual(one, [4 * number for number in other])
        self.assertEqual([each[-1] for each in numbers], [[0, 20], [0, 5]])

    def test_periods_without_trade(self):
        """Their prices are nominal: a record marks them, and a table leaves them out."""
        one = search(SMALL[0], SMALL[1].replace("4000", "6000"), key=("GEN", "UNIT"))
        found = one.search_for_worst()
        own, at, past = limits.record(one, found)["cases"]
        self.assertEqual([case["traded"] for case in (own, at, past)], [[False] * 24, [True, *[False] * 23], [False] * 24])
        self.assertEqual([case["gain_eur"] for case in (own, at, past)], [0.0, 0.0, 0.0])
        rows = [line.split("  ") for line in limits.answer_lines(one, found) if line.startswith("price of period")]
        self.assertEqual([[cell.strip() for cell in row if cell] for row in rows],
                         [["price of period 1, EUR/MWh", "no trade", "50.00", "no trade"]])

    def test_a_block_that_buys(self):
        one = search(*BUYER, key=("CITY", "TOWN"))
        found = one.search_for_worst()
        self.assertEqual((found.limit, found.past_limit), (2000, 1999))
        lines = "\n".join(limits.answer_lines(one, found))
        self.assertIn("Its worst limit is 20.00 EUR/MWh: with it, and with every higher limit, it is accepted; with a lower one", lines)

    def test_a_name_that_begins_another(self):
        """UNIT10 stands first, and offers the same for less than UNIT1: each is found by its whole name."""
        offers = [f"submit,GEN,{name},block,sell,{price},1:20,," for name, price in (("UNIT10", 4000), ("UNIT1", 4500))]
        founds = [search(SMALL[0], *offers, key=("GEN", name)).search_for_worst() for name in ("UNIT10", "UNIT1")]
        self.assertEqual([(found.limit, found.past_limit) for found in founds], [(4500, 4501), (3999, 4000)])

    def test_a_child_that_no_limit_helps(self):
        """The reason begins with its family."""
        lines = ["submit,TOWN,T,hour,buy,4000,1:10,,", "submit,GAS,PAR,block,sell,6000,1:10,,", "submit,GAS,CHILD,block,sell,3000,1:10,PAR,"]
        one = search("submit,GAS,UNIT,block,sell,1000,1:10,,", *lines, key=("GAS", "CHILD"))
        self.assertRegex("\n".join(limits.answer_lines(one, one.search_for_worst())), r"with the best, -500\.00 EUR/MWh, with PAR it would gain [0-9.,]+ EUR at the prices")

    def test_no_limit_is_enough(self):
        one = search(*NEVER, key=("GEN", "B"))
        found = one.search_for_worst()
        self.assertEqual((found.limit, found.at, found.past_limit), (None, None, rules.LOWEST_PRICE))
        self.assertIn(f"No limit of the range is enough: with the best, {rules.LOWEST_PRICE / 100:.2f} EUR/MWh, it can never be accepted, because",
                      "\n".join(limits.answer_lines(one, found)))
        self.assertIsNone(limits.record(one, found)["worst_limit_eur_mwh"])

    def test_every_limit_is_enough(self):
        dearest = f"submit,CITY,TOWN,hour,buy,{rules.HIGHEST_PRICE},1:30,,"
        one = search(dearest, "submit,GEN,UNIT,block,sell,4000,1:20,,", key=("GEN", "UNIT"))
        found = one.search_for_worst()
        self.assertEqual((found.limit, found.past, found.past_limit), (rules.HIGHEST_PRICE, None, None))
        self.assertIn(f"Every limit of the range is enough, up to the worst, {rules.HIGHEST_PRICE / 100:,.2f} EUR/MWh.", limits.answer_lines(one, found))

    def test_the_most_clearings(self):
        """No worst limit needs more clearings than the most, and some needs as many."""
        least, greatest = rules.LOWEST_PRICE, rules.HIGHEST_PRICE
        needed = set()
        worsts = (None, least, least + 1, 0, 1, 3_999, 4_000, 4_001, 123_456, greatest - 1, greatest)
        for own, worst in itertools.product((least, 4_000), worsts):
            with self.subTest(own=own, worst=worst):
                # the block is accepted up to the buyer's limit, and never if the buyer buys less than it sells
                buys = f"buy,{least if worst is None else worst},1:{10 if worst is None else 30}"
                one = search(SMALL[0].replace("buy,5000,1:20", buys), SMALL[1].replace("4000", str(own)), key=("GEN", "UNIT"))
                found = one.search_for_worst()
                self.assertEqual(found.limit, worst)
                needed.add(found.clearings)
        self.assertEqual(max(needed), limits.MOST_CLEARINGS)

    def test_a_fault_of_a_clearing_ends_the_search(self):
        held, _ = book.book_and_refusals(journal.parse_journal(journal_of(*SMALL)))
        with self.assertRaisesRegex(errors.Fault, "^memory$"):
            limits.LimitSearch(held, ("GEN", "UNIT"), lambda text: errors.Fault("memory", 4)).search_for_worst()


class Page(unittest.TestCase):
    """The sentence of a page for each rejected block."""

    def output(text, running=None):
        return support.results_of(text, best(text))

    def sentences(self, lines, output=output, results=None, *words):
        """The sentences, and the lines on standard error."""
        data = journal_of(*lines)
        day = support.day_of(data, results or support.results_of(data, best(data)))
        told = unittest.mock.patch.object(exits, "print_note", lambda _, line: self.notes.append(line))
        with unittest.mock.patch.object(engine, "clear_and_return_output_or_fault", output), told:
            return limits.capture_rejected_sentences_and_print_notes(day, *words)

    def setUp(self):
        self.notes = []

    def test_the_sentence(self):
        high = SMALL[0], SMALL[1].replace("4000", "6000")
        sentence = "With a limit of 50.00 EUR/MWh or lower it would have been accepted."
        self.assertEqual(self.sentences(high), {0: sentence})
        self.assertEqual([self.sentences(high, Page.output, None, who) for who in ("GEN", "CITY")], [{0: sentence}, {}])
        low = BUYER[0], BUYER[1].replace("3000", "1999")
        self.assertEqual(self.sentences(low), {0: sentence.replace("50", "20").replace("lower", "higher")})
        self.assertEqual(self.sentences(NEVER)[1], "With no limit would it have been accepted.")
        self.assertEqual((self.sentences(SMALL), self.notes), ({}, []))

    def test_each_rejected_block_has_one_however_long_it_takes(self):
        """A clock that jumps by an hour at each look, as on a machine that is busy with other work."""
        blocks = [f"submit,GEN,UNIT-{number},block,sell,{5000 + number},1:20,," for number in range(1, 5)]
        with unittest.mock.patch("time.monotonic", itertools.count(0, 3_600).__next__):
            said = self.sentences((SMALL[0], *blocks))
        self.assertEqual(said, dict.fromkeys(range(4), "With a limit of 50.00 EUR/MWh or lower it would have been accepted."))

    def test_a_limit_that_is_not_computed_says_so(self):
        high = SMALL[0], SMALL[1].replace("4000", "6000")
        wrong = support.results_of(journal_of(*high), frozenset()).replace(b"welfare,0", b"welfare,1")
        other = support.results_of(journal_of(*SMALL), frozenset())
        words = "the limits that rejected blocks needed weren't computed: the program"
        broken, unit = "the program's results break the rules", "the limit of GEN UNIT wasn't computed"

        def fails_later(text, running=None):
            return errors.Fault("memory", 4) if b"6000" not in text else Page.output(text)

        def breaks(mark):
            """Results with another welfare, if the journal has a mark."""
            return lambda text, running=None: Page.output(text).replace(b"welfare,", b"welfare,1" if mark in text else b"welfare,")

        for why, told, *given in (
            ("the program couldn't clear the day", f"{words} couldn't clear the day: memory", high, lambda text: errors.Fault("memory", 4)),
            ("a run of the program failed", "the limit of GEN UNIT wasn't computed: memory", high, fails_later),
            ("the program has other results", f"{words} has other results: see tools/audit --best", SMALL, Page.output, other),
            (broken, f"{words}'s results break the rules: the program's results of the day", high, breaks(b"6000")),
            (broken, f"{unit}: the program's results of the day with a limit of 50.00 EUR/MWh", high, breaks(b"sell,5000,")),
            (broken, f"{unit}: the program's results of the day with a limit of 50.01 EUR/MWh", high, breaks(b"sell,5001,")),
            ("the results break the rules", None, high, Page.output, wrong),
            ("the page was made without limits", None, high, Page.output, None, None, False),
        ):
            self.notes = []
            self.assertEqual(self.sentences(*given), {0: f"Its limit wasn't computed: {why}."})
            said = [line.partition(" break the rules (results line 2: the welfare is 1")[0] for line in self.notes]
            self.assertEqual(said, [told] * bool(told))


class Day(unittest.TestCase):
    def test_numbers_are_those_of_the_tables(self):
        """The amounts, outcomes and sums of a cleared day, and those that the tables have of the same results."""
        for data, text in ((AUCTION.read_bytes(), read_results(AUCTION)), (QUARTERS.read_bytes(), read_results(QUARTERS))):
            day = support.day_of(data, text)
            both = cleared.Cleared.of_day(day), cleared.Cleared.of_text(day.book.rows, day.problem.periods, text)
            write = changes.NumberFormat(both[0])
            heads, *rows = day_tables.order_rows(day)
            for cells in (dict(zip(heads, row)) for row in rows):
                key = cells["participant"], cells["order"]
                for one in both:
                    self.assertEqual(write.eur_text(one.amount(key)), cells["amount_eur"])
                    self.assertEqual(write.mwh_text(one.executed(key)), cells["executed_mwh"])
                    self.assertEqual(one.outcome(key), cells["outcome"].removeprefix("paradoxically "))
                    if cells["surplus_eur"]:
                        self.assertEqual(write.eur_text(one.surplus(key)), cells["surplus_eur"])
            heads, *rows = day_tables.participant_rows(day)
            for cells in (dict(zip(heads, row)) for row in rows):
                self.assertEqual(write.eur_text(both[1].net(cells["participant"])), cells["net_eur"])
            self.assertEqual(sum(both[1].gain(who) for who in {who for who, _ in day.book.rows}), day.published.welfare)


class Entered(unittest.TestCase):
    def test_a_block_with_children_is_cancelled_after_them(self):
        """As the book does: each sequence of cancels is refused, or not, at the same place."""
        lines = ["submit,P,TOP,block,sell,1,1:1,,", "submit,P,LOW,block,sell,1,1:1,TOP,", "submit,P,LAST,block,sell,1,1:1,LOW,"]
        held = changes.book_before_close_or_raise(journal.parse_journal(journal_of(*lines, "close,,,,,,,,")))
        for order in itertools.permutations(["TOP", "LOW", "LAST"]):
            with self.subTest(order):
                given = [(f"record {number}", journal.Cancel("P", name)) for number, name in enumerate(order, 1)]
                fresh = changes.book_before_close_or_raise(journal.parse_journal(journal_of(*lines, "close,,,,,,,,")))
                reasons = [fresh.apply_or_return_refusal(command) for _, command in given]
                if order == ("LAST", "LOW", "TOP"):
                    self.assertEqual((reasons, changes.book_with_commands_or_raise(held, given).rows), ([None] * 3, {}))
                else:
                    place = next(number for number, reason in enumerate(reasons, 1) if reason)
                    with self.assertRaisesRegex(changes.Fault, rf"^record {place}: the book refuses cancel,P,{order[place - 1]},.*HasChildren"):
                        changes.book_with_commands_or_raise(held, given)
                self.assertEqual(len(held.rows), 3)


class Tools(unittest.TestCase):
    def setUp(self):
        self.folder = make_folder_for_case(self)
        stand_in = self.write_script("dam", f'PYTHONPATH="{FAKE.parent}" exec "{sys.executable}" "{FAKE}" "$@"')
        self.program = which.BUILT if which.BUILT.exists() else stand_in  # the built program is far quicker
        self.journal = self.write_file("day.csv", journal_of(*SMALL))

    def write_script(self, name, line):
        path = self.write_file(name, f"#!/bin/sh\n{line}\n".encode())
        path.chmod(0o755)
        return path

    def write_file(self, name, data):
        path = Path(self.folder, name)
        path.write_bytes(data)
        return path

    def run_whatif(self, *words, data=b""):
        return run_tool("whatif", words[0], "--program", self.program, *words[1:], data=data)

    def test_a_limit_in_words_as_a_record_and_as_a_row(self):
        status, out, err = self.run_whatif("limit", self.journal, "--participant", "GEN", "--order", "UNIT")
        self.assertEqual((status, err), (0, ""))
        self.assertIn("Its worst limit is 50.00 EUR/MWh: with it, and with every lower limit, it is accepted", out.decode())
        self.assertIn("docs/MARKET.md", out.decode())
        lines = [line.split("  ") for line in out.decode().splitlines()]
        found = {cells[0]: [cell.strip() for cell in cells[1:] if cell.strip()] for cells in lines}
        self.assertEqual(found["surplus at these prices, EUR"], ["20.00", "0.00", "-0.02"])
        self.assertEqual(found["gain of GEN, EUR"], ["20.00", "0.00", "0.00"])
        status, out, _ = self.run_whatif("limit", self.journal, "--participant", "GEN", "--order", "UNIT", "--json")
        record = json.loads(out)
        self.assertEqual((record["worst_limit_eur_mwh"], [case["accepted"] for case in record["cases"]]), (50.0, [True, True, False]))
        self.assertEqual([case["surplus_eur"] for case in record["cases"]], [20.0, 0.0, -0.02])
        self.assertEqual(record["others"], [{"participant": "CITY", "order": "TOWN", "past_mwh": 0.0, "at_mwh": 2.0}])
        self.assertEqual([case["gain_eur"] for case in record["cases"]], [20.0, 0.0, 0.0])
        status, out, _ = self.run_whatif("limit", self.journal, "--participant", "GEN", "--all")
        (row,) = rows_of_csv(out)
        self.assertEqual((row["worst_limit_eur_mwh"], row["others"], row["surplus_eur"]), ("50.00", "1", "0.000"))
        # A file of values has a table, not words.
        path = Path(self.folder, "limits.CSV")
        self.run_whatif("limit", self.journal, "--participant", "GEN", "--order", "UNIT", "-o", path)
        self.assertEqual(path.read_bytes(), out)

    def test_an_hourly_order_is_sampled(self):
        words = ["--participant", "CITY", "--order", "TOWN", "--from", "39.99", "--to", "40.01", "--step", "0.01"]
        status, out, err = self.run_whatif("limit", self.journal, *words)
        self.assertEqual(status, 0)
        self.assertEqual([(row["limit_eur_mwh"], row["executed_mw"]) for row in rows_of_csv(out)],
                         [("39.99", "0.0"), ("40.00", "2.0"), ("40.01", "2.0"), ("50.00", "2.0")])
        said = "whatif: sampled at 4 limits, one of them the order's own, 50.00 EUR/MWh: between them the result may be another"
        self.assertTrue(err.startswith(said), err)
        err = self.run_whatif("limit", self.journal, *words[:4], "--from", "50", "--to", "51")[2]
        self.assertTrue(err.startswith("whatif: sampled at 2 limits: between"), err)
        quarters = self.write_file("quarters.csv", journal_of(*SMALL).replace(b"day,24,", b"day,96,"))
        for path, welfare in ((self.journal, 20), (quarters, 5)):
            out = self.run_whatif("limit", path, *words[:4], "--from", "50", "--to", "51")[1]
            self.assertEqual(Fraction(rows_of_csv(out)[0]["welfare_eur"]), welfare)

    def test_a_change_and_the_comparison_of_the_two_days(self):
        more = self.write_file("more.csv", b"submit,WIND,MILL,hour,sell,1000,1:20,,\n")
        status, out, err = self.run_whatif("change", self.journal, more, "--participant", "GEN")
        self.assertEqual((status, err), (0, ""))
        rows = {(row["what"], row["participant"], row["order"], row["period"]): row for row in rows_of_csv(out)}
        # MILL serves TOWN for 10.00 to 50.00; UNIT is rejected.
        self.assertEqual([rows["gain", "GEN", "", ""][name] for name in ("before", "after", "change")], ["20.000", "0.000", "-20.000"])
        unit = rows["executed", "GEN", "UNIT", ""]
        self.assertEqual((unit["outcome_before"], unit["outcome_after"], unit["change"]), ("accepted", "rejected", "-2.0"))
        self.assertEqual(rows["welfare", "", "", ""]["change"], "60.000")
        days = []
        for name, lines in (("a", SMALL), ("b", (*SMALL, more.read_text().strip()))):
            data = journal_of(*lines)
            days += [self.write_file(f"{name}.csv", data), self.write_file(f"{name}.txt", support.results_of(data, best(data)))]
        self.assertEqual(run_tool("compare", "--participant", "GEN", *days)[:2], (0, out))
        status, again, _ = run_tool("compare", *days)
        self.assertIn(b"executed,MWh,WIND,MILL,,,2.0,,,in full\n", again)
        self.assertEqual(run_tool("compare", *days[:2], *days[:2])[2], "compare: nothing differs\n")
        # without MILL and UNIT nothing is traded, and the price says nothing
        none = self.run_whatif("change", self.journal, "-", data=b"cancel,GEN,UNIT,,,,,,\n")[1]
        self.assertIn(b"price,EUR/MWh,,,1,50.00,,,,\nvolume,MW,,,1,2.0,0.0,-2.0,,\n", none)
        # a table of orders is such a change too, and so is standard input
        table = b"participant,order,kind,side,price_eur_mwh,periods,volume_mw\nWIND,MILL,hour,sell,10,1,2\n"
        self.assertEqual(self.run_whatif("change", self.journal, "-", "--participant", "GEN", data=table)[:2], (0, out))
        self.assertEqual(len(json.loads(run_tool("compare", "--json", *days)[1])["rows"]), len(again.splitlines()) - 1)

    def test_amends_and_cancels_change_a_day(self):
        status, out, _ = self.run_whatif("change", self.journal, "-", data=b"cancel,GEN,UNIT,,,,,,\n")
        self.assertEqual(status, 0)
        self.assertIn("executed,MWh,GEN,UNIT,,2.0,,,accepted,", out.decode())
        status, out, _ = self.run_whatif("change", self.journal, "-", data=b"day,24,,,,,,,\namend,GEN,UNIT,,,6000,1:20,,\nclose,,,,,,,,\n")
        self.assertIn("executed,MWh,GEN,UNIT,,2.0,0.0,-2.0,accepted,rejected", out.decode())
        # the same as a table of commands, as tools/table --rows commands prints it
        table = b"command,what,participant,order,kind,side,price_eur_mwh,periods,volume_mw,reply\n1,amend,GEN,UNIT,,,60,1,2,done\n"
        self.assertEqual(self.run_whatif("change", self.journal, "-", data=table), (0, out, ""))

    def test_bad_input_is_one_line(self):
        out = Path(self.folder, "out.csv")
        opened = self.write_file("open.csv", journal_of(*SMALL).replace(b"close,,,,,,,,\n", b""))
        own = ["--participant", "GEN", "--order"]
        for words, data, status, said in (
            (["limit", self.journal, *own, "UNIT-8"], b"", 3, "GEN has no order UNIT-8 in the book: its blocks are UNIT"),
            (["limit", self.journal, "--participant", "CITY", "--order", "X"], b"", 3,
             "CITY has no order X in the book: it has 1 hourly order and no block"),
            (["limit", self.journal, "--participant", "NONE", "--order", "X"], b"", 3, "NONE has no order in the book"),
            (["limit", self.journal, "--participant", "CITY", "--all"], b"", 3, "CITY has no block in the book"),
            (["limit", opened, *own, "UNIT"], b"", 3, f"{opened}: no command closes the book: end the journal with close,,,,,,,,"),
            (["limit", "/nowhere/a.csv", *own, "UNIT"], b"", 3, "/nowhere/a.csv can't be read: No such file or directory"),
            (["limit", self.journal, *own[:2]], b"", 2, "give --order with the order's name, or --all for every block"),
            (["limit", self.journal, *own, "UNIT", "--step", "1"], b"", 2,
             "--from, --to and --step can't be used with a block, whose limit is found exactly"),
            (["change", self.journal, "-"], b"submit,GEN,UNIT,hour,sell,1000,1:20,,\n", 3,
             "standard input: record 1: the book refuses submit,GEN,UNIT,hour,sell,1000,1:20,,: the participant has an order of that name"
             " (NameTaken); amend it, or use another name"),
            (["change", self.journal, "-"], b"cancel,GEN,OTHER,,,,,,\n", 3,
             "standard input: record 1: the book refuses cancel,GEN,OTHER,,,,,,: the participant has no such order: it was cancelled,"
             " refused, or never entered (UnknownOrder)"),
            (["change", self.journal, "-"], TABLE + b"submit,GEN,UNIT,hour,sell,10,1,2\n", 3,
             "standard input: line 2: the book refuses submit,GEN,UNIT,hour,sell,1000,1:20,,: the participant has an order of that name"
             " (NameTaken); amend it, or use another name"),
            (["change", self.journal, "-"], TABLE.removeprefix(b"what,") + b"GEN,UNIT,hour,sell,10,1,2\n", 3,
             "standard input: order 1: the book refuses submit,GEN,UNIT,hour,sell,1000,1:20,,: the participant has an order of that name"
             " (NameTaken); amend it, or use another name"),
            (["change", self.journal, "-"], TABLE + b"amend,GEN,UNIT,,,60,25,2\n", 3,
             "standard input: line 2, column periods: the day has periods 1 to 24, so there is no period 25 (PeriodOutOfDay)"),
            (["change", self.journal, "-"], b"what,participant,price_eur_mwh,periods,volume_mw\namend,GEN,60,1,2\n", 3,
             "standard input: line 1: there is no column order; the columns are what, participant, order, kind, side, price_eur_mwh,"
             " periods, volume_mw, parent, group"),
            (["change", self.journal, self.journal, "--participant", "NONE"], b"", 3, None),
        ):
            with self.subTest(said):
                found = self.run_whatif(*words, "-o", out, data=data)
                self.assertEqual((found[0], found[1], len(found[2].splitlines())), (status, b"", 1), found[2])
                if said:
                    self.assertEqual(found[2], f"whatif: {said}\n")
                self.assertFalse(out.exists())

    def test_several_faults_of_a_table_are_said(self):
        table = TABLE + b"amend,GEN,UNIT,,,60,25,2\nclose,,,,,,,\nmove,A,X,hour,buy,1,1,1\n"
        said = "whatif: standard input: line 2, column periods: the day has periods 1 to 24, so there is no period 25 (PeriodOutOfDay)\n"
        said += "  line 4, column what: 'move' should be submit, amend or cancel\n"
        self.assertEqual(self.run_whatif("change", self.journal, "-", data=table), (3, b"", said))
        for head, row in ((TABLE, b"move,A,X%d,hour,buy,1,1,1\n"), (TABLE.removeprefix(b"what,"), b"A,X%d,hour,buy,1,25,1\n")):
            for count in (9, 20, 21, 22, 100):
                data = head + b"".join(row % at for at in range(count))
                *lines, last = self.run_whatif("change", self.journal, "-", data=data)[2].splitlines()
                self.assertEqual((len(lines), last), (5, f"  and {count - 5} more"))

    def test_notes_say_how_a_table_was_read(self):
        amended = self.run_whatif("change", self.journal, "-", data=b"amend,GEN,UNIT,,,6000,1:20,,\n")[1]
        head, row = "what,participant,order,price_eur_mwh,periods,volume_mw,region,note\n", "amend,GEN,UNIT,60,1,2,,f\u00fcr\n"
        orders = "participant,order,kind,side,price_eur_mwh,periods,volume_mw,note\n", "GEN,MORE,hour,sell,60,1,2,f\u00fcr\n"
        code = ["line 2: the table isn't in UTF-8, and was read as Windows-1252"]
        unused = ["the column 'region' isn't used", "the column 'note' isn't used"]
        for table, said in (((head, row), code + unused), (orders, code + unused[1:])):
            data = "".join(table).encode("cp1252")
            status, out, err = self.run_whatif("change", self.journal, "-", data=data)
            self.assertEqual((status, err.splitlines()), (0, [f"whatif: standard input: {note}" for note in said]))
            self.assertEqual(self.run_whatif("change", "--quiet", self.journal, "-", data=data), (0, out, ""))
        self.assertEqual(self.run_whatif("change", self.journal, "-", data=(head + row).encode("cp1252"))[1], amended)
        # before a refusal too
        refused = self.run_whatif("change", self.journal, "-", data=(orders[0] + orders[1].replace("MORE", "UNIT")).encode())
        self.assertEqual((refused[0], refused[2].splitlines()[0]), (3, f"whatif: standard input: {unused[1]}"))
        self.assertEqual(self.run_whatif("change", "--quiet", self.journal, "-", data=b"close,,,,,,,,\n")[::2], (0, ""))

    def test_a_cell_beyond_the_header_is_a_fault_of_each_command(self):
        head = b"what,participant,order,price_eur_mwh,periods,volume_mw\n"
        for row, count in ((b"amend,GEN,UNIT,60,1,2,30", 7), (b"cancel,GEN,UNIT,,,,30", 7), (b"close,,,,,,,30", 8), (b",,,,,,30", 7)):
            said = f"whatif: standard input: line 3: it has {count} cells, but the header has 6\n"
            table = head + b"amend,GEN,UNIT,60,1,2\n" + row + b"\n"
            self.assertEqual(self.run_whatif("change", self.journal, "-", data=table), (3, b"", said))
            table = b"".join(b"%s%s\n" % (b"S," if at else b"scenario,", line) for at, line in enumerate(table.splitlines()))
            said = f"whatif: standard input: line 3: it has {count + 1} cells, but the header has 7\n"
            self.assertEqual(self.run_whatif("scenarios", self.journal, "-", data=table), (3, b"", said))

    def test_a_column_of_a_table_of_commands_that_appears_twice(self):
        for name, table, column in (
            ("change", b"what,participant,order,what\ncancel,GEN,UNIT,amend\n", "4: the column 'what'"),
            ("scenarios", b"scenario,what,participant,order,What\nS,cancel,GEN,UNIT,amend\n", "5: the column 'what'"),
            ("scenarios", b"scenario,what,participant,order,scenario\nS,cancel,GEN,UNIT,T\n", "5: the column 'scenario'"),
        ):
            said = f"whatif: standard input: line 1, column {column} appears twice\n"
            self.assertEqual(self.run_whatif(name, self.journal, "-", data=table), (3, b"", said))

    def test_a_table_needs_the_columns_of_its_commands(self):
        """An amend has no kind and no side, a cancel has neither limit nor volumes, and a close is left out."""
        amended = self.run_whatif("change", self.journal, "-", data=b"amend,GEN,UNIT,,,6000,1:20,,\n")
        table = b"what,participant,order,price_eur_mwh,periods,volume_mw\namend,GEN,UNIT,60,1,2\nclose,,,,,\n"
        self.assertEqual(self.run_whatif("change", self.journal, "-", data=table), amended)
        cancelled = self.run_whatif("change", self.journal, "-", data=b"cancel,GEN,UNIT,,,,,,\n")
        self.assertEqual(self.run_whatif("change", self.journal, "-", data=b"what,participant,order\ncancel,GEN,UNIT\n"), cancelled)
        self.assertEqual((amended[0], cancelled[0]), (0, 0))

    def test_a_cell_that_a_command_does_not_have(self):
        """An amend can't change a side or a group, and a cancel is of the whole order: such a cell would be ignored."""
        full = dict(zip(order_table.ORDER, "GEN,UNIT,block,sell,60,1,2,P,G".split(",")))
        held = changes.book_before_close_or_raise(journal.parse_journal(journal_of(*SMALL)))
        amend = {"participant", "order", "price_eur_mwh", "periods", "volume_mw"}
        for what, has in (("an Amend", amend), ("a cancel", {"participant", "order"}), ("a close", set())):
            for name in full.keys() - has:
                heads, cells = [",".join(part) for part in (full, (cell if each in {*has, name} else "" for each, cell in full.items()))]
                data = f"what,{heads}\n{what.split()[1]},{cells}\n"
                said = f"line 2, column {name}: '{full[name]}' should be left out: {what.lower()} has no {name}$"
                with self.assertRaisesRegex(errors.Fault, f"^{said}"):
                    changes.parse_changes_and_notes(data.encode(), 24)
                with self.assertRaisesRegex(errors.Fault, f"^a: {said}"):
                    scenarios.parse_table_and_notes("a", f"scenario,{data[:-1].replace(chr(10), chr(10) + 'S,')}".encode(), held)

    def test_bad_words_and_bad_comparisons(self):
        for word in ("abc", text.eur_per_mwh(rules.HIGHEST_PRICE + 1), "1e3", "0.001"):
            status, _, err = self.run_whatif("limit", self.journal, "--participant", "CITY", "--order", "TOWN", "--from", word)
            self.assertEqual((status, word in err), (2, True))
        days = AUCTION, AUCTION_RESULTS, QUARTERS, QUARTERS_RESULTS
        said = "compare: the days have 24 and 96 periods, so their prices can't be compared\n"
        self.assertEqual(run_tool("compare", *days), (3, b"", said))
        said = run_tool("compare", "--participant", "NONE", *days[:2], *days[:2])[2]
        self.assertEqual(said, "compare: NONE has no order in either book\n")
        self.assertEqual(run_tool("compare", days[0], days[3], *days[:2])[0], 3)
        self.assertEqual(run_tool("compare", "-o", days[0], *days[:2], *days[:2])[0], 2)

    def test_output_that_can_not_be_written(self):
        for name, words in (
            ("compare", [AUCTION, AUCTION_RESULTS] * 2),
            ("whatif", ["limit", "--program", self.program, self.journal, "--participant", "GEN", "--order", "UNIT"]),
            ("whatif", ["scenarios", "--help"]),
        ):
            with open("/dev/full", "wb") as full:
                ran = subprocess.run([sys.executable, support.TOOLS / name, *words], stdout=full, stderr=subprocess.PIPE, text=True)
            said = f"{name}: standard output can't be written: No space left on device"
            self.assertEqual((ran.returncode, ran.stderr.splitlines()[-1]), (3, said))
        status, out, err = self.run_whatif("limit", self.journal, "--participant", "GEN", "--all", "-o", "/nowhere/a.csv")
        self.assertEqual((status, out, err), (3, b"", "whatif: /nowhere/a.csv can't be written: No such file or directory\n"))

    def test_no_program_and_one_that_fails(self):
        status, out, err = run_tool("whatif", "limit", "--program", "/nowhere/dam", self.journal, "--participant", "GEN", "--order", "UNIT")
        self.assertEqual((status, out, err), (exits.FAILED, b"", "whatif: /nowhere/dam can't be run: No such file or directory\n"))
        with unittest.mock.patch.dict(os.environ, {"DAM_LIBRARY": "/nowhere/libdam.so"}):
            status, out, err = run_tool("whatif", "limit", self.journal, "--participant", "GEN", "--order", "UNIT")
        self.assertEqual((status, out), (exits.FAILED, b""))
        self.assertRegex(err, "^whatif: the library /nowhere/libdam.so can't be used: .*\n$")
        limit = ["limit", self.journal, "--participant", "GEN"]
        for end, status in (("exit 1", 3), ("exit 3", 3), ("exit 4", 5), ("exit 5", 5), ("exit 70", 5), ("kill -9 $$", 5)):
            self.program = self.write_script("fails", f"echo words >&2; {end}")
            for words in [*limit, "--order", "UNIT"], [*limit, "--all"], ["change", self.journal, "-"]:
                with self.subTest(end=end, words=words):
                    self.assertEqual(self.run_whatif(*words, data=TABLE + b"cancel,GEN,UNIT,,,,,\n"), (status, b"", "whatif: words\n"))

    def test_a_program_that_cant_be_started(self):
        """It is no fault of a file, whether memory or open files run out or it can't be run."""
        table = f"scenario,{','.join(day_tables.ORDER)}\nas it was{',' * len(day_tables.ORDER)}\n".encode()
        runs = [
            (["limit", self.journal, "--participant", "GEN", "--order", "UNIT"], b"", ""),
            (["scenarios", self.journal, "-"], table, "the day as it was: "),
        ]
        for number in (errno.EMFILE, errno.ENOMEM, errno.EACCES, errno.ENOENT):
            with unittest.mock.patch.object(subprocess, "Popen", side_effect=OSError(number, os.strerror(number))):
                for words, data, before in runs:
                    said = f"whatif: {before}{self.program} can't be run: {os.strerror(number)}\n"
                    self.assertEqual(self.run_whatif(*words, data=data), (exits.FAILED, b"", said))

    def test_a_program_that_prints_something_else(self):
        limit, more = ["limit", self.journal, "--participant", "GEN"], TABLE + b"cancel,GEN,UNIT,,,,,\n"
        for line, said in (
            (":", "{} printed no results of this journal"),
            ("printf 'day,24\nwelfare,0\n'", "the program printed no results of this journal"),
        ):
            self.program = self.write_script("other", line)
            for words in [*limit, "--all"], [*limit, "--order", "UNIT"], ["change", self.journal, "-"]:
                self.assertEqual(self.run_whatif(*words, data=more), (3, b"", f"whatif: {said.format(self.program)}\n"))

    def test_results_that_break_the_rules(self):
        """The first fault is named, with the clearing and its place, and nothing is printed."""
        more, real = self.write_file("more.csv", b"submit,WIND,MILL,hour,sell,1000,1:20,,\n"), self.program
        welfare = "s/^welfare,/welfare,1/", "results line 2: the welfare is 1"
        unit, town = (["--participant", who, "--order", name] for who, name in (("GEN", "UNIT"), ("CITY", "TOWN")))
        cases = [
            (["change", self.journal, more], mark, name, edit, place)
            for mark, name in (("5000", "the day"), ("MILL", "the day with the changes"))
            for edit, place in (
                welfare,
                ("s/^period,1,/period,1,1/", "results line 3: period 1: the price is 1"),
                (r"s/^\(period,1,.*\),[0-9]*$/\1,7/", "results line 3: period 1: the volume is 7, "),
                ("s/^hour,CITY,TOWN,.*/hour,CITY,TOWN,7/", "results line 27: hour CITY,TOWN: 7 is executed, "),
                (r"s/^\(block,GEN,UNIT,.*\),.*/\1,7/", "results line 28: block GEN,UNIT: the surplus is 7, "),
            )
        ]
        for words in (["limit", self.journal, *unit], ["limit", self.journal, *unit[:2], "--all"]):
            cases += [(words, f"sell,{limit},", "the day" + more, *welfare) for limit, more in (
                (4000, ""), (5000, " with a limit of 50.00 EUR/MWh"), (5001, " with a limit of 50.01 EUR/MWh"))]
        sample = ["limit", self.journal, *town, "--from", "50", "--to", "50.01", "--step", "0.01"]
        cases += [(sample, "buy,5001,", "the day with a limit of 50.01 EUR/MWh", *welfare)]
        for words, mark, name, edit, place in cases:
            self.program = support.write_doctored_program(self.folder, real, mark, edit)
            with self.subTest(words=words, mark=mark, edit=edit):
                status, out, err = self.run_whatif(*words)
                self.assertEqual((status, out, len(err.splitlines())), (exits.DIFFERS, b"", 1), err)
                self.assertTrue(err.startswith(f"whatif: the program's results of {name} break the rules ({place}"), err)

    def test_results_between_which_the_limit_is_sought(self):
        """They aren't checked, since they don't matter: a wrong one ends the search at it, or has no effect."""
        words = "limit", self.journal, "--participant", "GEN", "--order", "UNIT"
        right, real = self.run_whatif(*words), self.program
        middle = limits.limit_at("sell", (limits.place_of("sell", 4000) + 1 + limits.COUNT) // 2)
        for edit, status, said in (
            ("s/,rejected,/,accepted,/", exits.DIFFERS, "results line 28: block GEN,UNIT: it is accepted and loses "),
            ("s/^welfare,/welfare,1/", exits.DONE, ""),
        ):
            self.program = support.write_doctored_program(self.folder, real, f"sell,{middle},", edit)
            found = self.run_whatif(*words)
            self.assertEqual((found[0], said in found[2], found[1] == right[1]), (status, True, not said), found)

    def test_a_program_that_hangs(self):
        """It's ended, and named; also others of the team, which began later."""
        late = f"mkdir {self.folder}/first 2> {os.devnull} || sleep 1"
        hang = self.write_script("hang", f"{late}; echo $$ >> {self.folder}/pids; exec sleep 600")
        table, limit = self.write_file("s.csv", b"scenario,what,participant,order\nA,cancel,GEN,UNIT\n"), ["limit", "--participant", "GEN"]
        self.assertEqual(by_program.RUN_SECONDS, 3_600)
        for words, begin in (
            (["scenarios", "--jobs", "2", self.journal, table], "the day as it was: "),
            ([*limit, "--all", self.journal], ""),
            ([*limit, "--order", "UNIT", self.journal], ""),
        ):
            Path(self.folder, "pids").unlink(missing_ok=True)
            with unittest.mock.patch.object(by_program, "RUN_SECONDS", 3):
                found = support.run_tool("whatif", *words, "--program", hang)
            said = f"whatif: {begin}{hang} took longer than 3 seconds\n"
            self.assertEqual(found, (exits.FAILED, b"", said), words)
            self.assertTrue(all(map(ends, Path(self.folder, "pids").read_text().split())))

    def test_an_output_that_stays_open(self):
        """The program has ended, and a process that it started has its output."""
        hold = self.write_script("hold", f"sleep 600 & echo $! >> {self.folder}/pids")
        words = ["limit", "--participant", "GEN", "--order", "UNIT", self.journal]
        self.addCleanup(lambda: [os.kill(int(pid), signal.SIGKILL) for pid in Path(self.folder, "pids").read_text().split()])
        with unittest.mock.patch.object(by_program, "HELD_SECONDS", 2):
            found = support.run_tool("whatif", *words, "--program", hold)
        said = f"whatif: {hold} has ended, but another process has held its output for more than 2 seconds\n"
        self.assertEqual(found, (exits.FAILED, b"", said))

    def test_an_interrupt_ends_the_program_too(self):
        """The program hangs, or it has ended and its output stays open."""
        support.set_signal_handlers(self)
        for name, line in (("hang", "echo $$ >> PIDS; exec sleep 600"), ("hold", "sleep 600 & echo $! >> PIDS")):
            for order in (["--all"], ["--order", "UNIT"]):
                with self.subTest(name, order=order):
                    self.check_interrupt(self.write_script(name, line.replace("PIDS", f"{self.folder}/pids")), order, name == "hang")

    def check_interrupt(self, program, order, is_itself):
        """Ctrl-C ends a run at once, also the process that the program writes down, if that is the program itself."""
        Path(self.folder, "pids").unlink(missing_ok=True)
        words = [sys.executable, support.TOOLS / "whatif", "limit", "--program", program, self.journal, "--participant", "GEN", *order]
        running = subprocess.Popen(words, stderr=subprocess.PIPE, stdout=subprocess.PIPE, text=True, start_new_session=True)
        try:
            pids = Path(self.folder, "pids")
            while not pids.exists() or not pids.read_text():
                time.sleep(0.02)
            time.sleep(0.5)  # the program may begin before the tool waits for it
            began = time.monotonic()
            os.kill(running.pid, signal.SIGINT)
            out, err = running.communicate(timeout=30)
            self.assertLess(time.monotonic() - began, by_program.HELD_SECONDS - 1)
        finally:
            running.kill()
            running.communicate()
        self.assertEqual((running.returncode, out, err), (130, "", "whatif: interrupted\n"))
        if is_itself:
            self.assertTrue(all(map(ends, pids.read_text().split())))
        else:
            for pid in pids.read_text().split():
                os.kill(int(pid), signal.SIGKILL)

    def test_the_first_example_of_the_journals(self):
        """Refused commands and orders without trade are in the way of nothing."""
        path = self.write_file("first.csv", FIRST)
        who = next(command.who for command in journal.parse_journal(FIRST).commands if hasattr(command, "who"))
        status, out, err = self.run_whatif("change", path, "-", "--participant", who, data=b"day,24,,,,,,,\n")
        self.assertEqual((status, len(rows_of_csv(out))), (0, 2), err)


@unittest.skipUnless(which.BUILT.exists() and all(map(modules.has_module, ("numpy", "matplotlib"))), "the program or a package is missing")
class Examples(unittest.TestCase):
    """The page, and the section on many days: that the commands work, one after another, and print the quotes."""

    def setUp(self):
        self.folder = make_folder_for_case(self)
        for name, target in (("tools", support.TOOLS), ("examples", support.TOP / "examples"), ("dam", which.BUILT)):
            Path(self.folder, name).symlink_to(target)
        docs = support.TOP / "docs"
        page = (docs / "WHATIF.md").read_text() + (docs / "PYTHON.md").read_text().partition("\n## Many days")[2]
        self.blocks = re.findall(r"^```(\w+)\n(.*?)^```$", page, re.MULTILINE | re.DOTALL)

    def run_words(self, words):
        path = f"{Path(sys.executable).parent}:{os.environ['PATH']}"
        environment = {**os.environ, "PATH": path, "PYTHONPATH": str(support.TOOLS), "PYTHONDONTWRITEBYTECODE": "1"}
        return subprocess.run(words, cwd=self.folder, env=environment, capture_output=True, text=True)

    def test_the_commands_print_what_is_quoted(self):
        following = [*self.blocks[1:], ("", "")]
        shown = [(block, after) for (kind, block), (other, after) in zip(self.blocks, following) if kind == "sh" and other == "text"]
        self.assertEqual(len(shown), 3)
        quoted = dict(shown)
        for kind, block in self.blocks:
            if kind == "sh":
                with self.subTest(block):
                    ran = self.run_words(["sh", "-ec", block.replace("--sample 1000", "--sample 50")])
                    self.assertEqual(ran.returncode, 0, ran.stderr)
                    if block in quoted:
                        self.assertEqual(ran.stdout, quoted[block])

    def test_the_python_program(self):
        program = next(block for kind, block in self.blocks if kind == "python")
        ran = self.run_words([sys.executable, "-c", program])
        self.assertEqual((ran.returncode, ran.stderr), (0, ""))
        self.assertIn("auction-day.csv 3021520000 in the units of the program\n", ran.stdout)
        self.assertEqual(len(ran.stdout.splitlines()), len(list((support.TOP / "examples").glob("*.csv"))))


if __name__ == "__main__":
    unittest.main()
