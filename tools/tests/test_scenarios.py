"""Scenarios: tables of them, random ones, and the messages about bad ones."""

import functools
import json
import logging
import resource
import socket
import statistics
import subprocess
import sys
import tracemalloc
import unittest
import unittest.mock
from pathlib import Path

from support import AUCTION, TOOLS, journal_of, make_folder_for_case, results_of, rows_of_csv, run_tool, write_doctored_program

from lib.base import rules, text
from lib.journal import book, journal
from lib.runs import cleared, cluster, errors, which
from lib.tables import table_files
from lib.tool import exits, modules
from lib.whatif import changes, scenarios

HEADS = "scenario,participant,order,kind,side,price_eur_mwh,periods,volume_mw,parent,group\n"
COMMANDS = HEADS.replace("scenario,", "scenario,what,")
SMALL = ("submit,CITY,TOWN,hour,buy,5000,1:20,,", "submit,GEN,UNIT,block,sell,4000,1:20,,")
HELD = changes.book_before_close_or_raise(journal.parse_journal(journal_of(*SMALL)))


class Tables(unittest.TestCase):
    def read(self, table):
        found, notes = scenarios.parse_table_and_notes("a.csv", table.encode(), HELD)
        return {scenario.name: scenario.rows() for scenario in found}, notes

    def test_orders_and_commands(self):
        found, notes = self.read(HEADS + "A,WIND,M-1,hour,sell,10.00,1,2,,\nA,WIND,M-2,hour,sell,10.00,2,2,,\nB,,,,,,,,,\n")
        self.assertEqual([list(found), notes], [["A", "B"], []])
        self.assertEqual([len(found[name]) for name in "AB"], [4, 2])
        self.assertEqual(found["B"], HELD.rows)
        lines = "less,amend,GEN,UNIT,,,60,1,1.5,,\nnone,cancel,GEN,UNIT,,,,,,,\nmore,submit,GEN,X,hour,buy,1,1,2,,\n"
        found, _ = self.read(COMMANDS + lines)
        self.assertEqual(found["less"]["GEN", "UNIT"], journal.Order("block", "sell", 6_000, ((1, 15),)))
        self.assertEqual([list(found["none"]), ("GEN", "X") in found["more"]], [[("CITY", "TOWN")], True])
        self.assertEqual(len(HELD.rows), 2)

    def test_a_header_below_empty_lines(self):
        for blank in ("", "\n\n", ",,\n\n"):
            line = 1 + blank.count("\n")
            with self.assertRaisesRegex(errors.Fault, f"^a.csv: line {line}: there is no column scenario$"):
                self.read(f"{blank}what,participant,order\ncancel,GEN,UNIT\n")

    def test_cancels_need_no_other_columns(self):
        found, notes = self.read("scenario,what,participant,order\nnone,cancel,GEN,UNIT\n")
        self.assertEqual([list(found["none"]), notes], [[("CITY", "TOWN")], []])

    def test_each_begins_with_the_book_of_the_day(self):
        """None counts the blocks or the children of those before it."""
        child = "{0},submit,GEN,K{0},block,sell,40,1,2,UNIT,\n"
        lines = "".join(map(child.format, range(rules.MOST_BLOCKS + 1)))
        found, _ = self.read(f"{COMMANDS}{lines}none,cancel,GEN,UNIT,,,,,,,\n")
        self.assertEqual([len(found["0"]), list(found["none"])], [3, [("CITY", "TOWN")]])

    def test_all_scenarios_are_tried_out_in_one_book(self):
        """It is a copy, in which each finds the book of the day, whatever those before it did."""
        first = [
            "A,submit,GEN,P,block,sell,10,1,2,,", "A,submit,GEN,C,block,sell,10,1,2,P,", "A,cancel,CITY,TOWN,,,,,,,",
            "A,submit,CITY,TOWN,block,buy,10,1,2,,", "A,submit,CITY,T,block,buy,10,1,2,TOWN,", "A,amend,GEN,UNIT,,,1,2-3,9,,",
        ]  # fmt: skip
        table = COMMANDS + "".join(f"{line}\n" for line in first)
        rights = ["B,cancel,CITY,TOWN,,,,,,,", "B,cancel,GEN,UNIT,,,,,,,", "B,submit,GEN,P,block,sell,10,1,2,,", "B,amend,CITY,TOWN,,,1,3,9,,"]
        for right in rights:
            self.assertEqual(list(self.read(f"{table}{right}\n")[0]), ["A", "B"], right)
        for wrong, reason in (
            ("cancel,GEN,P,,,,,,,", "UnknownOrder"),
            ("submit,GEN,X,block,sell,1,1,1,P,", "UnknownParent"),
            ("submit,CITY,X,block,buy,1,1,1,TOWN,", "ParentNotBlock"),
            ("amend,CITY,TOWN,,,1,2-3,9,,", "WrongShape"),
            ("submit,GEN,UNIT,block,sell,1,1,1,,", "NameTaken"),
        ):
            with self.assertRaisesRegex(errors.Fault, rf"^a.csv: line 8: .*\({reason}\)"):
                self.read(f"{table}B,{wrong}\n")
        full = journal.parse_journal(journal_of(*(f"submit,A,O-{number},block,sell,1,1:1,," for number in range(rules.MOST_BLOCKS))))
        held, more = changes.book_before_close_or_raise(full), "submit,A,X,block,sell,1,1,1,,"
        lines = "".join(f"{name},cancel,A,O-{name},,,,,,,\n{name},{more}\n" for name in range(rules.MOST_BLOCKS))
        with unittest.mock.patch.object(book.Book, "copy", autospec=True, side_effect=book.Book.copy) as copy:
            self.assertEqual(len(scenarios.parse_table_and_notes("a.csv", (COMMANDS + lines).encode(), held)[0]), rules.MOST_BLOCKS)
        self.assertEqual(copy.call_count, 1)
        with self.assertRaisesRegex(errors.Fault, r"\(BlocksFull\)"):
            scenarios.parse_table_and_notes("a.csv", f"{COMMANDS}{lines}last,{more}\n".encode(), held)

    def test_the_texts_are_those_of_the_books(self):
        found, _ = scenarios.parse_table_and_notes("a.csv", (HEADS + "A,WIND,M-1,hour,sell,10.00,1,2,,\n").encode(), HELD)
        (scenario,) = found
        held, _ = book.book_and_refusals(journal.parse_journal(scenario.text))
        self.assertEqual(held.rows, scenario.rows())

    def test_many_scenarios_take_little_memory(self):
        """None is kept: they are read again when they are needed."""
        held = changes.book_before_close_or_raise(journal.parse_journal(AUCTION.read_bytes()))
        table = HEADS + "".join(f"S{number},,,,,,,,,\n" for number in range(1_000))
        tracemalloc.start()
        found, _ = scenarios.parse_table_and_notes("a.csv", table.encode(), held)
        most = tracemalloc.get_traced_memory()[1]
        tracemalloc.stop()
        self.assertEqual((len(found), {scenario.text for scenario in found}), (1_000, {cleared.journal_bytes(held.rows, 24)}))
        self.assertEqual([scenario.name for scenario in found], [f"S{number}" for number in range(1_000)])
        self.assertLess(most, 2**20)

    def test_the_most_rows(self):
        """A longer table isn't read: the fault names the first line that is too many, after an empty one."""
        for ending in ("\n", "\r\n"):
            table = HEADS + "".join(f"S{number}{ending}" for number in range(scenarios.MOST_ROWS))
            self.assertEqual(len(scenarios.parse_table_and_notes("a.csv", table.encode(), HELD)[0]), 50_000)
            with self.assertRaisesRegex(errors.Fault, "^a.csv: line 50003: a table has at most 50,000 rows after its first$"):
                scenarios.parse_table_and_notes("a.csv", f"{table}\nmore{ending * 9}x".encode(), HELD)

    def test_a_table_of_any_shape_takes_little_memory(self):
        """Of 5 MB: a scenario in each row, one of all rows, many cells, and long ones."""
        amend, wide = "amend,GEN,UNIT,,,60.5,{},{},,", ";".join(str(100 + number) for number in range(24))
        shapes = {
            "many scenarios": (f"S{number},{amend.format('7-20', number % 900 + 1)}" for number in range(scenarios.MOST_ROWS)),
            "one scenario": (f"S,{amend.format('7-20', number % 900 + 1)}" for number in range(scenarios.MOST_ROWS)),
            "volumes": (f"S{number},{amend.format('1-24', wide)}" for number in range(30_000)),
            "names": (f"{'S' * 90}{number}" for number in range(scenarios.MOST_ROWS)),
        }
        for shape, lines in shapes.items():
            table = (COMMANDS + "".join(f"{line}\n" for line in lines)).encode()
            tracemalloc.start()
            found, _ = scenarios.parse_table_and_notes("a.csv", table[: table.rindex(b"\n", 0, 5_000_000) + 1], HELD)
            most = tracemalloc.get_traced_memory()[1]
            tracemalloc.stop()
            self.assertLess(most, 32 << 20, shape)
            self.assertGreater(len(found) * (shape != "one scenario"), 25_000 * (shape != "one scenario") - 1)

    def test_bad_tables(self):
        for table, said in (
            ("x,y\n", "line 1: there is no column participant, order, kind, side, price_eur_mwh, periods, volume_mw; the columns are"),
            (HEADS.replace("scenario,", "name,"), "line 1: there is no column scenario"),
            (HEADS, "it has no scenarios"),
            (HEADS + ",WIND,M,hour,sell,10,1,2,,\n", "line 2, column scenario: it should name the scenario"),
            (HEADS + "A,,,,,,,,,\nB,,,,,,,,,\nA,,,,,,,,,\n", "line 4: there is a scenario 'A' in line 2: the lines of a scenario"),
            (HEADS + "A,WIND,M,hour,sell,10,25,2,,\n", "line 2, column periods: the day has periods 1 to 24, so there is no period 25"),
            (HEADS + "A,wind,M,hour,sell,1x,1,2,,\n",
             "line 2, column participant: 'wind' should be 1 to 8 capitals A to Z: write WIND\n  line 2, column price"),
            (HEADS + "A,GEN,UNIT,hour,sell,10,1,2,,\n", "line 2: the book refuses submit,GEN,UNIT,hour,sell,1000,1:20,,: the"),
            (COMMANDS + "A,stop,,,,,,,,,\n", "line 2, column what: 'stop' should be submit, amend or cancel"),
            (COMMANDS.replace("volume_mw,", "") + "A,amend,GEN,UNIT,,,50,1,,\n", "line 1: there is no column volume_mw; the columns are"),
            (COMMANDS + "A,cancel,GEN,NONE,,,,,,,\n", "line 2: the book refuses cancel,GEN,NONE,,,,,,: the participant has no such order"),
            (COMMANDS + "A,amend,GEN,UNIT,,,50000,1,2,,\n", "line 2, column price_eur_mwh: '50000' should be from "
             f"{rules.LOWEST_PRICE / 100:.2f} to {rules.HIGHEST_PRICE / 100:.2f}"),
        ):
            with self.subTest(said), self.assertRaises(errors.Fault) as fault:
                self.read(table)
            self.assertTrue(str(fault.exception).startswith(f"a.csv: {said}"), fault.exception)
            self.assertLessEqual(len(str(fault.exception).splitlines()), changes.MOST_LINES + 1)


def printed(outcome, surplus, price=None):
    """Results of `HELD` as far as they are read, with the price at which the block has a surplus."""
    periods = "".join(f"period,{number},{4_000 + surplus // 20 if price is None else price},0\n" for number in range(1, 25))
    return f"day,24\nwelfare,0\n{periods}hour,CITY,TOWN,0\nblock,GEN,UNIT,{outcome},{surplus}\n".encode()


class Distribution(unittest.TestCase):
    def test_what_is_counted(self):
        over = scenarios.Distribution(HELD, [("GEN", "UNIT")])
        for number in range(1, 21):
            over.add_or_raise("S", printed("accepted", number * 1_000))
        for _ in range(20):
            over.add_or_raise("S", printed("rejected", 999_980))
        _, row = over.table_rows()
        self.assertEqual(row, ["GEN", "UNIT", "40.00", 40, 20, "0.5000", "5.25", "1.00", "5.00", "10.00", "15.00", "19.00"])
        self.assertEqual(list(scenarios.distribution_lines(over)),
                         ["GEN UNIT is accepted in 20 of 40 scenarios; the median of its surplus is then 10.00 EUR"])
        held = changes.book_before_close_or_raise(journal.parse_journal(journal_of(*SMALL).replace(b"day,24,", b"day,96,")))
        quarters = scenarios.Distribution(held, [("GEN", "UNIT")])
        quarters.surpluses, quarters.rejected = over.surpluses, over.rejected
        self.assertEqual(list(quarters.table_rows())[1][7:], ["0.25", "1.25", "2.50", "3.75", "4.75"])
        self.assertIn("the median of its surplus is then 2.50 EUR", list(scenarios.distribution_lines(quarters))[0])
        none = scenarios.Distribution(HELD, [("GEN", "UNIT")])
        none.add_or_raise("S", printed("rejected", 20))
        self.assertEqual(list(none.table_rows())[1][4:], [0, "0.0000", "0.00", "", "", "", "", ""])

    def test_a_surplus_that_is_not_the_one_at_the_prices(self):
        over = scenarios.Distribution(HELD, [("GEN", "UNIT")])
        for outcome, surplus, price in (("accepted", 1_000, 4_051), ("accepted", 1_001, 4_050), ("rejected", -20, 4_000)):
            right = 20 * (price - 4_000)
            words = f"block GEN,UNIT: the surplus is {surplus}, and at the prices {right}"
            with self.assertRaises(errors.Wrong) as fault:
                over.add_or_raise("scenario x", printed(outcome, surplus, price))
            self.assertEqual(str(fault.exception), f"the program's results of scenario x break the rules ({words})")
        self.assertEqual((over.surpluses, over.rejected), ({("GEN", "UNIT"): []}, {("GEN", "UNIT"): 0}))

    @unittest.skipUnless(modules.has_module("matplotlib"), "matplotlib is missing (Debian's python3-matplotlib)")
    def test_the_median_of_a_picture(self):
        """Of quarter-hours it is a fourth."""
        from lib.pictures.matplotlib_settings import pyplot
        from lib.whatif import scenario_picture

        for periods, median in ((24, "10.00"), (96, "2.50")):
            held = changes.book_before_close_or_raise(journal.parse_journal(journal_of(*SMALL).replace(b"day,24,", b"day,%d," % periods)))
            over = scenarios.Distribution(held, [("GEN", "UNIT")])
            over.surpluses["GEN", "UNIT"] = [number * 1_000 for number in range(1, 21)]
            figure, axes = pyplot.subplots()
            scenario_picture.draw_distribution(axes, over, ("GEN", "UNIT"))
            self.assertEqual(axes.get_legend_handles_labels()[1], [f"median of the surplus: {median} EUR"])
            pyplot.close(figure)

    def test_an_output_that_is_none(self):
        over = scenarios.Distribution(HELD, [("GEN", "UNIT")])
        right = printed("accepted", 1_000)
        begin = right.index(b"accepted")
        for end in (b"accepted,x\n", b"accepted,\xff\n", b"rejected,\n", b"accepted\n", b"accepted,1000", b"Accepted,1000\n"):
            with self.assertRaisesRegex(errors.Fault, cleared.NO_RESULTS):
                over.add_or_raise("S", right[:begin] + end)
        for other in (b"day,24\n", right[: right.index(b"block")], right.replace(b"period,1,4050", b"period,1,x"), right[:40]):
            with self.assertRaisesRegex(errors.Fault, cleared.NO_RESULTS):
                over.add_or_raise("S", other)
        self.assertEqual((over.surpluses, over.rejected), ({("GEN", "UNIT"): []}, {("GEN", "UNIT"): 0}))
        over.add_or_raise("S", right)
        self.assertEqual(over.surpluses, {("GEN", "UNIT"): [1_000]})


@unittest.skipUnless(modules.has_module("numpy"), "numpy is missing (Debian's python3-numpy)")
class Samples(unittest.TestCase):
    def setUp(self):
        self.held = changes.book_before_close_or_raise(journal.parse_journal(AUCTION.read_bytes()))

    def sampler(self, who="OLD", seed="1", price_sd=300, volume_sd=0.1):
        return scenarios.Sampler(self.held, who, seed, price_sd, volume_sd)

    def test_the_text_is_that_of_the_orders(self):
        sampler = self.sampler()
        for scenario in sampler.draw_scenarios(5):
            self.assertEqual(scenario.text, cleared.journal_bytes(scenario.rows(), 24))

    def test_each_depends_on_the_seed_and_its_number(self):
        self.assertEqual(self.sampler().draw_text(3), list(self.sampler().draw_scenarios(3))[2].text)
        seeds = ("1", "2", "é", "\udcff")  # the last is a byte that isn't UTF-8
        texts = {self.sampler(seed=seed).draw_text(number) for seed in seeds for number in (1, 2)}
        self.assertEqual(len(texts), 8)

    def test_what_changes_and_what_does_not(self):
        drawn = [self.sampler().draw_rows(number) for number in range(1, 201)]
        for key, order in self.held.rows.items():
            for rows in drawn[:20]:
                self.assertEqual(rows[key]._replace(price=0, volumes=()), order._replace(price=0, volumes=()))
                self.assertEqual([period for period, _ in rows[key].volumes], [period for period, _ in order.volumes])
                if key[0] == "OLD":
                    self.assertEqual(rows[key], order)
        key = next(key for key, order in self.held.rows.items() if key[0] != "OLD" and order.kind == "block")
        order = self.held.rows[key]
        added = [rows[key].price - order.price for rows in drawn]
        factors = [rows[key].volumes[0][1] / order.volumes[0][1] for rows in drawn]
        self.assertTrue(abs(statistics.mean(added)) < 90 and 220 < statistics.stdev(added) < 380, added)
        self.assertTrue(abs(statistics.mean(factors) - 1) < 0.03 and 0.07 < statistics.stdev(factors) < 0.13, factors)
        one = drawn[0][key].volumes
        self.assertLess(max(volume / was for (_, volume), (_, was) in zip(one, order.volumes)) - factors[0], 0.01)

    def test_limits_and_volumes_stay_in_their_ranges(self):
        rows = self.sampler(price_sd=1e6, volume_sd=1e4).draw_rows(1)
        prices = {order.price for order in rows.values()}
        volumes = {volume for order in rows.values() for _, volume in order.volumes}
        self.assertLessEqual({rules.LOWEST_PRICE, rules.HIGHEST_PRICE}, prices)
        self.assertLessEqual({1, rules.GREATEST_VOLUME}, volumes)
        self.assertEqual((min(prices), max(prices)), (rules.LOWEST_PRICE, rules.HIGHEST_PRICE))
        self.assertEqual((min(volumes), max(volumes)), (1, rules.GREATEST_VOLUME))
        self.assertEqual(self.sampler(price_sd=0, volume_sd=0).draw_rows(7), self.held.rows)


class Tool(unittest.TestCase):
    def setUp(self):
        self.folder = make_folder_for_case(self)
        self.journal, self.table = Path(self.folder, "day.csv"), Path(self.folder, "s.csv")
        self.journal.write_bytes(journal_of(*SMALL))
        self.table.write_text(COMMANDS + "as is,,,,,,,,,,\nmill,submit,WIND,MILL,hour,sell,10,1,2,,\nhigh,amend,GEN,UNIT,,,60,1,2,,\n")

    @unittest.skipUnless(which.BUILT.exists(), "the program isn't built")
    def test_a_table(self):
        words = self.journal, self.table, "--program", which.BUILT
        status, out, err = run_tool("whatif", "scenarios", *words)
        self.assertEqual((status, err), (0, ""))
        self.assertEqual([(row["scenario"], row["welfare_eur"], row["change_eur"]) for row in rows_of_csv(out)],
                         [("as is", "20.000", "0.000"), ("mill", "80.000", "60.000"), ("high", "0.000", "-20.000")])
        found = rows_of_csv(run_tool("whatif", "scenarios", "--rows", "orders", "--participant", "GEN", *words)[1])
        self.assertEqual([row["order"] for row in found], ["UNIT"] * 3)
        self.assertEqual([row["outcome"] for row in found], ["accepted", "rejected", "rejected"])
        found = rows_of_csv(run_tool("whatif", "scenarios", "--rows", "participants", *words)[1])
        self.assertEqual([row["participant"] for row in found], ["CITY", "GEN", "CITY", "GEN", "WIND", "CITY", "GEN"])
        self.assertEqual([row["gain_eur"] for row in found if row["participant"] == "GEN"], ["20.000", "0.000", "0.000"])
        found = rows_of_csv(run_tool("whatif", "scenarios", "--rows", "prices", *words)[1])
        self.assertEqual((len(found), found[0]["price_eur_mwh"], found[24]["change_eur_mwh"]), (72, "50.00", "-20.00"))
        self.assertEqual(run_tool("whatif", "scenarios", *words, "--jobs", "1")[1], out)

    @unittest.skipUnless(which.BUILT.exists(), "the program isn't built")
    def test_results_that_break_the_rules(self):
        """Of the day as it was, and of any scenario of a table. The first is named, with its place, and nothing is printed."""
        whole = "the day as it was", "results line 2: the welfare is 120000 "
        for mark, edit, name, place in (
            ("UNIT", "s/^welfare,/welfare,1/", *whole),
            ("MILL", "s/^welfare,/welfare,1/", "scenario mill", "results line 2: the welfare is 180000 "),
            ("6000", "s/,rejected,/,accepted,/", "scenario high", "results line 28: block GEN,UNIT: it is accepted and loses "),
        ):
            words = "scenarios", self.journal, self.table, "--program", write_doctored_program(self.folder, which.BUILT, mark, edit)
            for shown in scenarios.TABLES:
                status, out, err = run_tool("whatif", *words, "--rows", shown)
                self.assertEqual((status, out, len(err.splitlines())), (exits.DIFFERS, b"", 1), err)
                self.assertTrue(err.startswith(f"whatif: the program's results of {name} break the rules ({place}"), err)

    @unittest.skipUnless(which.BUILT.exists() and modules.has_module("numpy"), "the program isn't built, or numpy is missing")
    def test_random_scenarios_whose_results_break_the_rules(self):
        """Each 16th is checked whole, from the first. In the others, the surpluses of the blocks are those at the prices."""
        sampler, own = scenarios.Sampler(HELD, "GEN", "1", 300, 0.1), "the day as it was"
        marks = [sampler.draw_text(number).decode().partition("TOWN,")[2].partition("\n")[0] for number in range(1, 18)]
        self.assertEqual(len({"hour,buy,5000,1:20,,", *marks}), 18)
        welfare, price = "s/^welfare,/welfare,1/", r"s/^period,1,\([0-9]*\),/period,1,9\1,/"
        for mark, edit, name, place in (
            ("hour,buy,5000,1:20,,", welfare, own, "results line 2: the welfare is 1"),
            (marks[0], welfare, "scenario 1", "results line 2: the welfare is 1"),
            (marks[1], welfare, None, None),
            (marks[1], price, "scenario 2", "block GEN,UNIT: the surplus is "),
            (marks[15], price, "scenario 16", "block GEN,UNIT: the surplus is "),
            (marks[16], welfare, "scenario 17", "results line 2: the welfare is 1"),
        ):
            program = write_doctored_program(self.folder, which.BUILT, mark, edit)
            status, out, err = run_tool("whatif", "scenarios", "--sample", 17, "--participant", "GEN", self.journal, "--program", program)
            self.assertEqual((status, out == b""), (exits.DIFFERS, True) if name else (0, False), err)
            if name:
                self.assertTrue(err.startswith(f"whatif: the program's results of {name} break the rules ({place}"), err)

    @unittest.skipUnless(modules.has_module("openpyxl"), "openpyxl is missing (Debian's python3-openpyxl)")
    def test_a_name_stays_as_it_is(self):
        """Also a long one, and one that a workbook would show as another."""
        names = ["x" * 200 + "1", "x" * 200 + "2", "a\u00a0b", "_x0041_", "_x005F_x0041_x0042_", "\U0001f469\u200d\U0001f527", "-1"]
        self.table.write_text(COMMANDS + "".join(f"{name},,,,,,,,,,\n" for name in names))
        program, printed = Path(self.folder, "program"), Path(self.folder, "results")
        printed.write_bytes(results_of(self.journal.read_bytes(), frozenset({0})))
        program.write_text(f"#!/bin/sh\ncat > /dev/null\ncat {printed}\n")
        program.chmod(0o755)
        words = "scenarios", self.journal, self.table, "--program", program
        shown = [*names[:-1], "'-1"]  # none is a formula
        self.assertEqual([row["scenario"] for row in rows_of_csv(run_tool("whatif", *words)[1])], shown)
        self.assertEqual([row["scenario"] for row in json.loads(run_tool("whatif", *words, "--json")[1])["rows"]], names)
        path = Path(self.folder, "a.xlsx")
        self.assertEqual(run_tool("whatif", *words, "-o", path), (0, b"", ""))
        self.assertEqual([cells[0] for _, cells in table_files.parse_rows_and_add_notes(path.read_bytes())[0]], ["scenario", *names])

    def test_characters_that_no_name_has(self):
        """No line of a text, or no cell of a workbook, could hold them."""
        for character in "\x1b", "\t", "\x7f", "\x9b", "\ufffe":
            self.table.write_text(f"{COMMANDS}a,,,,,,,,,,\na{character}b,,,,,,,,,,\n")
            said = f"whatif: {self.table}: line 3, column scenario: 'a{text.escaped(character)}b' has a control character: remove it\n"
            found = run_tool("whatif", "scenarios", "--program", "/bin/true", self.journal, self.table)
            self.assertEqual(found, (exits.NO_INPUT, b"", said))

    def test_a_name_that_no_cell_holds(self):
        """An apostrophe, or the escape of an escape, makes it longer than it was in the table."""
        for name in ("=" + "x" * 32_766, "_x0041_" + "x" * 32_755):
            self.table.write_text(f"{COMMANDS}{name[:-1]},,,,,,,,,,\n{name},,,,,,,,,,\n")
            said = f"line 3, column scenario: '{name[:80]}..' ({len(name):,} characters) would be too long for a cell of the output: shorten it"
            found = run_tool("whatif", "scenarios", "--program", "/bin/true", self.journal, self.table)
            self.assertEqual(found, (exits.NO_INPUT, b"", f"whatif: {self.table}: {said}\n"))

    def test_notes_come_before_a_fault(self):
        self.table.write_text(self.table.read_text().replace("group", "group,note"))
        note = f"whatif: {self.table}: the column 'note' isn't used\n"
        found = run_tool("whatif", "scenarios", "--program", "/bin/true", self.journal, self.table)
        self.assertEqual(found, (3, b"", f"{note}whatif: the day as it was: /bin/true printed no results of this journal\n"))
        self.assertNotIn("note", run_tool("whatif", "scenarios", "--quiet", "--program", "/bin/true", self.journal, self.table)[2])

    @unittest.skipUnless(which.BUILT.exists() and modules.has_module("numpy"), "the program isn't built, or numpy is missing")
    def test_a_sample(self):
        words = "--sample", 30, "--participant", "OLD", AUCTION, "--program", which.BUILT
        status, out, err = run_tool("whatif", "scenarios", *words)
        (row,) = rows_of_csv(out)
        self.assertEqual((status, row["order"], row["scenarios"]), (0, "UNIT-7", "30"))
        self.assertIn(f"OLD UNIT-7 is accepted in {row['accepted']} of 30 scenarios", err)
        self.assertEqual(run_tool("whatif", "scenarios", *words, "--jobs", "1", "--quiet"), (0, out, ""))
        self.assertNotEqual(run_tool("whatif", "scenarios", *words, "--price-sd", "30")[1], out)
        orders = rows_of_csv(run_tool("whatif", "scenarios", "--rows", "orders", "--order", "UNIT-7", *words)[1])
        accepted = [row for row in orders if row["outcome"] == "accepted"]
        self.assertEqual((len(orders), str(len(accepted))), (30, row["accepted"]))
        if modules.has_module("matplotlib"):
            for name, begin in (("a.svg", b"<?xml"), ("a.png", b"\x89PNG")):
                path = Path(self.folder, name)
                self.assertEqual(run_tool("whatif", "scenarios", "--quiet", *words, "-o", path), (0, out, ""))
                self.assertTrue(path.read_bytes().startswith(begin))
        self.assertIn("<!-- median of the surplus: ", Path(self.folder, "a.svg").read_text())

    def test_a_program_that_prints_something_else(self):
        """It's a fault, also if the output begins as results do."""
        program = Path(self.folder, "program")
        for printed in (r"\377\n", r"welfare,x\n", r"period\n", r"period,1,2,3.5\n", r"block,GEN,UNIT,accepted\n"):
            program.write_text(f"#!/bin/sh\ncat > /dev/null\nprintf 'day,24\\nwelfare,0\\n{printed}'\n")
            program.chmod(0o755)
            for name in ("change", "scenarios"):
                found = run_tool("whatif", name, "--quiet", "--program", program, self.journal, self.table)
                self.assertEqual(found, (exits.NO_INPUT, b"", f"whatif: {cleared.NO_RESULTS}\n"), printed)

    def test_few_files(self):
        words = [sys.executable, TOOLS / "whatif", "scenarios", "--program", "/bin/true", self.journal, self.table]
        limit = functools.partial(resource.setrlimit, resource.RLIMIT_NOFILE, (5, 5))
        ran = subprocess.run(words, capture_output=True, text=True, preexec_fn=limit)
        said = "whatif: the day as it was: /bin/true can't be run: Too many open files\n"
        self.assertEqual((ran.returncode, ran.stdout, ran.stderr), (exits.FAILED, "", said))

    def test_bad_input_is_one_line(self):
        out = Path(self.folder, "out.csv")
        sample = ["--sample", "5", "--program", "/bin/true", self.journal]
        table = ["--program", "/bin/true", self.journal, self.table]
        opened = Path(self.folder, "open.csv")
        opened.write_bytes(self.journal.read_bytes().replace(b"close,,,,,,,,\n", b""))
        for words, status, said in (
            ([*table, "--sample", "5"], 2, "give a table of scenarios, or --sample with how many random ones, not both; for another limit"
             " of your own, put an amend into a copy of the journal"),
            (table[:3], 2, "give a table of scenarios, or --sample with how many random ones"),
            ([*table, "--participant", "GEN"], 2,
             "--participant can't be used with --rows welfare: give --rows orders or --rows participants"),
            ([*table, "--rows", "orders", "--participant", "NOBODY"], 3, "NOBODY has no order in the book or in a scenario"),
            ([*table, "--rows", "orders", "--participant", "GEN", "--order", "NONE"], 3,
             "GEN has no order NONE in the book or in a scenario"),
            ([*table, "--rows", "orders", "--participant", "WIND", "--order", "MILL"], 3,
             "the day as it was: /bin/true printed no results of this journal"),
            ([*sample, "--participant", "GEN"], 3, "the day as it was: /bin/true printed no results of this journal"),
            ([*table, "--seed", "2"], 2, "--seed can't be used without --sample"),
            (sample, 2, "--sample needs --participant, whose orders stay as they are"),
            ([*sample, "--participant", "NOBODY"], 3, "NOBODY has no order in the book"),
            ([*sample, "--participant", "CITY"], 3, "CITY has no block in the book: give --rows orders or --rows participants"),
            ([*sample, "--participant", "CITY", "--order", "TOWN"], 3,
             "TOWN of CITY isn't a block: give --rows orders or --rows participants"),
            ([*sample, "--participant", "GEN", "--order", "NONE"], 3, "GEN has no order NONE in the book: its blocks are UNIT"),
            ([*table[:2], opened, self.table], 3, f"{opened}: no command closes the book: end the journal with close,,,,,,,,"),
            ([*table[:3], "/nowhere/s.csv"], 3, "/nowhere/s.csv can't be read: No such file or directory"),
            ([*table[:3], AUCTION], 3, None),
        ):
            with self.subTest(said):
                found = run_tool("whatif", "scenarios", *words, "-o", out)
                self.assertEqual((found[0], found[1], len(found[2].splitlines())), (status, b"", 1), found[2])
                if said:
                    self.assertEqual(found[2], f"whatif: {said}\n")
                self.assertFalse(out.exists())
        for option, word in (("--sample", "0"), ("--price-sd", "-1"), ("--volume-sd", "x"), ("--jobs", "0")):
            self.assertEqual(run_tool("whatif", "scenarios", *table, option, word)[0], 2)

    @unittest.skipUnless(modules.has_module("distributed"), "dask is missing (Debian's python3-distributed)")
    def test_a_cluster_that_is_not_there(self):
        for address, said in (
            ("here", "should be an address such as tcp://10.0.0.1:8786"),
            ("tcp://127.0.0.1:1", "can't be reached: Connection refused"),
        ):
            found = run_tool("whatif", "scenarios", "--program", "/bin/true", self.journal, self.table, "--cluster", address)
            self.assertEqual(found, (3, b"", f"whatif: the cluster {address} {said}\n"))

    def test_a_cluster_that_closes_at_once(self):
        """dask says then that its time is over, before it is."""
        self.addCleanup(logging.disable, logging.NOTSET)
        with socket.create_server(("127.0.0.1", 0)) as server:
            address = f"tcp://127.0.0.1:{server.getsockname()[1]}"
            fault = OSError(f"Timed out trying to connect to {address} after 10 s")
            dask = unittest.mock.Mock(Client=unittest.mock.Mock(side_effect=fault))
            for seconds, said in ((10, "it closed the connection"), (0, str(fault))):
                with (
                    unittest.mock.patch.object(cluster, "import_dask", return_value=dask),
                    unittest.mock.patch.object(cluster, "SECONDS", seconds or 1e-9),
                    unittest.mock.patch.object(cluster.socket, "create_connection"),
                    self.assertRaisesRegex(errors.Fault, f"the cluster {address} can't be reached: {said}$"),
                ):
                    cluster.Cluster(address).connect_and_wait_for_workers()


class Hanging(unittest.TestCase):
    """A worker of a cluster that doesn't answer ends the run in time, with its name."""

    def test_one_worker_of_several(self):
        """The others report all the time."""
        made, clock = self.cluster(), 100.0
        for clock in (100, 105, 109.9):
            self.assertEqual(self.look(made, clock, {"tcp://a:1": 1, "tcp://b:2": clock}), 2)
        for clock in (110, 114):
            with self.assertRaisesRegex(errors.Lost, "^the worker tcp://a:1 of the cluster C doesn't answer any more$"):
                self.look(made, clock, {"tcp://a:1": 1, "tcp://b:2": clock})
        made.restart_watch()
        self.assertEqual(self.look(made, 115, {"tcp://a:1": 1, "tcp://b:2": 115}), 2)
        self.assertEqual(self.look(made, 120, {"tcp://a:1": 2, "tcp://b:2": 120}), 2)
        self.assertEqual(self.look(made, 129, {"tcp://a:1": 3, "tcp://b:2": 129}), 2)

    def test_all_workers(self):
        """Not at the same moment."""
        made = self.cluster()
        self.assertEqual(self.look(made, 100, {"tcp://a:1": 1, "tcp://b:2": 1}), 2)
        self.assertEqual(self.look(made, 101, {"tcp://a:1": 1, "tcp://b:2": 2}), 2)
        self.assertEqual(self.look(made, 110, {"tcp://a:1": 1, "tcp://b:2": 2}), 2)
        with self.assertRaisesRegex(errors.Lost, "^the workers of the cluster C don't answer any more$"):
            self.look(made, 111, {"tcp://a:1": 1, "tcp://b:2": 2})

    def test_an_answer_that_is_not_a_scheduler_s(self):
        made = self.cluster()
        for answer in (None, [], {}, {"workers": None}, {"workers": [1]}, {"workers": {"a": None}}, {"workers": {"a": {"status": "running"}}}):
            made.client.sync.return_value = answer
            with self.assertRaisesRegex(errors.Lost, "^the cluster C doesn't answer any more$"):
                made.count_and_note_workers_or_raise()

    def test_no_worker(self):
        made = self.cluster()
        self.assertEqual([self.look(made, clock, {}) for clock in (100, 109)], [0, 0])
        self.assertEqual(self.look(made, 109.5, {"tcp://a:1": 1}), 1)
        self.assertEqual([self.look(made, clock, {}) for clock in (110, 119)], [0, 0])
        with self.assertRaisesRegex(errors.Lost, "^the cluster C has no workers$"):
            self.look(made, 119.5, {})

    def cluster(self):
        """A cluster at second 100, whose scheduler isn't there."""
        made = cluster.Cluster.__new__(cluster.Cluster)
        made.name, made.reports, made.client = "the cluster C", {}, unittest.mock.Mock()
        with unittest.mock.patch.object(cluster.time, "monotonic", return_value=100.0):
            made.restart_watch()
        return made

    def look(self, made, now, seen):
        """A look at a time at the workers' last reports."""
        workers = {address: {"last_seen": when, "status": "running"} for address, when in seen.items()}
        made.client.sync.return_value = {"workers": workers}
        with unittest.mock.patch.object(cluster.time, "monotonic", return_value=now):
            return made.count_and_note_workers_or_raise()


if __name__ == "__main__":
    unittest.main()
