"""The tables: that they add up, that the orders' table makes the same book again, and that errors name line and column."""

import csv
import io
import os
import re
import subprocess
import sys
import tempfile
import unittest
from fractions import Fraction
from pathlib import Path

import support
from support import AUCTION, AUCTION_RESULTS, FIRST, QUARTERS, QUARTERS_RESULTS, day_of, read_results, results_of, rows_as_written, run_tool

from lib.base import rules, text
from lib.journal import book, journal
from lib.tables import command_table, day_tables, order_table, table_files
from lib.tool import exits, modules, output

HEADER = "participant,order,kind,side,price_eur_mwh,periods,volume_mw,parent,group"
HOUR = "NORD,WIND-8,hour,sell,12.5,8,45,,"
BLOCK = "COAL,PEAK,block,sell,80,8-20,90,,FILL"
PRICES = f"from {text.eur_per_mwh(rules.LOWEST_PRICE)} to {text.eur_per_mwh(rules.HIGHEST_PRICE)} EUR/MWh"
THREE_TABLES = day_tables.period_rows, day_tables.order_rows, day_tables.participant_rows


def total(rows, column):
    return sum(Fraction(row[column]) for row in rows)


class Results(unittest.TestCase):
    def days(self):
        for name, data, text in support.read_cleared_cases():
            with self.subTest(name):
                yield day_of(data, text)

    def test_the_tables_add_up(self):
        for day in self.days():
            periods, orders, participants = (rows_as_written(of(day)) for of in THREE_TABLES)
            self.assertEqual((len(periods), len(orders)), (day.problem.periods, len(day.problem.rows)))
            bought = total(periods, "hourly_buys_mw") + total(periods, "block_buys_mw")
            sold = total(periods, "hourly_sells_mw") + total(periods, "block_sells_mw")
            self.assertEqual([bought, sold], [total(periods, "volume_mw")] * 2)
            self.assertEqual(total(participants, "bought_mwh"), bought * day.problem.hours)
            self.assertEqual(total(orders, "executed_mwh"), (bought + sold) * day.problem.hours)
            self.assertEqual([total(orders, "amount_eur"), total(participants, "net_eur")], [0, 0])
            self.assertEqual(total(participants, "orders"), len(orders))

    def test_the_participants_share_out_the_welfare(self):
        """Their amounts add up to nothing, and their surpluses to the welfare; so do those of the hourly orders and of the accepted blocks."""
        for day in self.days():
            participants, orders = rows_as_written(day_tables.participant_rows(day)), rows_as_written(day_tables.order_rows(day))
            welfare = Fraction(text.eur(day.published.welfare, day.problem.hours, ""))
            self.assertEqual([total(participants, "net_eur"), total(participants, "gain_eur")], [0, welfare])
            self.assertEqual([row for row in participants if Fraction(row["gain_eur"]) < 0], [])
            figures = {row["figure"]: Fraction(row["value"] or 0) for row in rows_as_written(day_tables.TABLES["figures"](day))}
            self.assertEqual(figures["paid"], total(participants, "paid_eur"))
            self.assertEqual(figures["received"], total(participants, "received_eur"))
            self.assertEqual(figures["paid"], figures["received"])
            self.assertEqual(figures["hourly_surplus"] + figures["block_surplus"], figures["welfare"])
            accepted = [row for row in orders if row["outcome"] == "accepted"]
            self.assertEqual(figures["block_surplus"], total(accepted, "surplus_eur"))

    def test_the_auction_day(self):
        day = day_of(AUCTION.read_bytes(), read_results(AUCTION))
        periods, orders, participants = (rows_as_written(of(day)) for of in THREE_TABLES)
        row = periods[18]
        self.assertEqual((row["period"], row["price_eur_mwh"], row["volume_mw"]), ("19", "165.00", "730.0"))
        self.assertEqual((periods[1]["low_eur_mwh"], periods[1]["high_eur_mwh"]), ("2.00", "92.00"))
        row = orders[-1]
        self.assertEqual(
            (row["outcome"], row["surplus_eur"], row["amount_eur"]), ("paradoxically rejected", "7920.000", "0.000")
        )
        # STEEL buys 210 MWh with a limit of 110 EUR.
        self.assertEqual((participants[-1]["paid_eur"], participants[-1]["gain_eur"]), ("19860.000", "3240.000"))

    def test_periods_without_trade_are_marked(self):
        for day in self.days():
            for row in rows_as_written(day_tables.period_rows(day)):
                self.assertEqual(row["traded"], "no" if row["volume_mw"] == "0.0" else "yes")
        periods = rows_as_written(day_tables.period_rows(day_of(FIRST, results_of(FIRST, frozenset()))))
        self.assertEqual([row["period"] for row in periods if row["traded"] == "yes"], ["8", "9"])
        middle = text.eur_per_mwh((rules.LOWEST_PRICE + rules.HIGHEST_PRICE) // 2)
        self.assertEqual((periods[0]["price_eur_mwh"], periods[0]["volume_mw"]), (middle, "0.0"))

    def test_the_table_of_orders_makes_the_same_book(self):
        for day in self.days():
            text = table_files.csv_text(day_tables.order_rows(day)).encode()
            again = order_table.parse_journal_of_orders(text, day.problem.periods, True)
            made, reasons = book.book_and_refusals(again)
            self.assertEqual(set(reasons), {None})
            self.assertEqual(list(made.rows.items()), list(day.book.rows.items()))


class Orders(unittest.TestCase):
    def records(self, *rows, header=HEADER, periods=24):
        table = "".join(f"{row}\n" for row in [header, *rows]).encode()
        return journal.journal_text(order_table.parse_journal_of_orders(table, periods, False)).splitlines()[1:]

    def wrong(self, *rows, header=HEADER):
        with self.assertRaises(order_table.BadOrders) as fault:
            self.records(*rows, header=header)
        return str(fault.exception)

    def test_orders(self):
        self.assertEqual(self.records(HOUR), ["submit,NORD,WIND-8,hour,sell,1250,8:450,,"])
        same = ";".join(f"{period}:900" for period in range(8, 21))
        self.assertEqual(self.records(BLOCK), [f"submit,COAL,PEAK,block,sell,8000,{same},,FILL"])
        self.assertEqual(self.records("A,K,block,buy,-0.05,1;3-4,5;0.1;7,,"), ["submit,A,K,block,buy,-5,1:50;3:1;4:70,,"])
        self.assertEqual(self.records("A,K,block,BUY, 0 ,1, 5.0 ,,"), ["submit,A,K,block,buy,0,1:50,,"])
        linked = self.records("A,K1,block,buy,1,1,5,,", "A,K2,block,buy,1,1,5,K1,")
        self.assertEqual(linked[1], "submit,A,K2,block,buy,100,1:50,K1,")

    def test_forms_of_tables(self):
        made = self.records(HOUR)
        short, head = "NORD,WIND-8,hour,sell,12.5,8,45", HEADER.removesuffix(",parent,group")
        self.assertEqual(self.records(short, header=head), made)
        self.assertEqual(self.records("", short + ",,", "", header=head + ",,"), made)
        self.assertEqual(
            self.records(
                "hour;WIND-8;NORD;8;45,0;12,5;sell", header="kind;order;participant;periods;volume_mw;price_eur_mwh;side"
            ),
            made,
        )
        self.assertEqual(self.records(HOUR.replace(",", "\t"), header=HEADER.replace(",", "\t")), made)
        self.assertEqual(self.records(HOUR + "\r", header="\ufeff" + HEADER.upper() + "\r"), made)

    def test_a_list_that_semicolons_may_have_separated(self):
        """A number after the volume may be of its list: a note names the first one, except in a column of further numbers."""
        heads, row = HEADER.removesuffix(",parent,group"), "A,{},block,sell,64.5,8-9,5,25"
        said = "line 2, column 8: '25' is a number after the volume{}: if the row has a list of periods or volumes, write quotes around it"
        for further, separator, names, notes in (
            ("group", ";", "K", [said.format("")]),
            ("group", ";", "KLM", [said.format(", as in 2 other lines")]),
            ("note", ";", "KL", ["the column 'note' isn't used", said.format(", as in 1 other line")]),
            ("group", "\t", "K", []),
            ("offered_mwh", ";", "K", []),
        ):
            lines = [f"{heads},{further}", *(row.format(name) for name in names)]
            with self.subTest(further, separator=separator):
                data = "\n".join([*lines, ""]).replace(",", separator).encode()
                self.assertEqual(order_table.parse_tables([("", data)], 24).notes, notes)
        for volume, group in (("5;25", ""), ("5", "G25"), ("5", ""), ("5;6", "25")):
            data = f'{heads},group\nA,K,block,sell,64.5,8-9,"{volume}",{group}\n'.replace(",", ";").encode()
            self.assertEqual(order_table.parse_tables([("", data)], 24).notes, [], volume)
        cancels = order_table.parse_cells(b"note;what;participant;order\n25;cancel;A;K\n")
        self.assertEqual(command_table.parse_commands_and_notes(cancels, 24)[1], ["the column 'note' isn't used"])

    def test_errors_name_line_and_column(self):
        for old, new, column, words in (
            ("NORD", "nord", "participant", "1 to 8 capitals A to Z"),
            ("NORD", "", "participant", "1 to 8 capitals A to Z"),
            ("NORD", "ØRSTED", "participant", "1 to 8 capitals A to Z"),
            ("WIND-8", "WIND_8", "order", "1 to 12 of A to Z"),
            ("WIND-8", "ABCDEFGHIJKLM", "order", "1 to 12 of A to Z"),
            ("hour", "hourly", "kind", "hour or block"),
            ("sell", "offer", "side", "buy or sell"),
            ("12.5", "", "price_eur_mwh", "a number of EUR/MWh"),
            ("12.5", "1e2", "price_eur_mwh", "a number of EUR/MWh"),
            ("12.5", "12.505", "price_eur_mwh", "more than 2 digits"),
            ("12.5", text.eur_per_mwh(rules.HIGHEST_PRICE + 1), "price_eur_mwh", PRICES),
            ("12.5", text.eur_per_mwh(rules.LOWEST_PRICE - 1), "price_eur_mwh", PRICES),
            (",8,", ",,", "periods", "it should name a period"),
            (",8,", ",0,", "periods", "periods and runs of them"),
            (",8,", ",101,", "periods", "from 1 to 24"),
            (",8,", ",9-8,", "periods", "periods and runs of them"),
            (",8,", ",8-9,", "periods", "an hourly order has one period"),
            (",8,", ",25,", "periods", "the day has periods 1 to 24, so there is no period 25 (PeriodOutOfDay)"),
            (",8,", ",100,", "periods", "the day has periods 1 to 24, so there is no period 100 (PeriodOutOfDay)"),
            (",45,", ",,", "volume_mw", "there are 0 volumes for 1 period"),
            (",45,", ",0,", "volume_mw", "from 0.1 to 9999.9 MW"),
            (",45,", ",-1,", "volume_mw", "from 0.1 to 9999.9 MW"),
            (",45,", ",10000,", "volume_mw", "from 0.1 to 9999.9 MW"),
            (",45,", ",0.25,", "volume_mw", "more than 1 digit"),
            (",45,", ",1;2,", "volume_mw", "there are 2 volumes for 1 period"),
            (",45,,", ",45,K1,", "parent", "an hourly order has none"),
            (",45,,", ",45,,G", "group", "an hourly order has none"),
        ):
            with self.subTest(new):
                self.assertNotEqual(HOUR.replace(old, new), HOUR)
                line = self.wrong(BLOCK, HOUR.replace(old, new))
                self.assertTrue(line.startswith(f"line 3, column {column}: "), line)
                self.assertIn(words, line)

    def test_what_the_book_would_refuse(self):
        self.assertEqual("line 3, column order: NORD has an order WIND-8 in line 2 (NameTaken)", self.wrong(HOUR, HOUR))
        line = self.wrong("A,K2,block,buy,1,1,5,K1,", "A,K1,block,buy,1,1,5,,")
        self.assertEqual(line, "line 2, column parent: A has no order K1 in a line above (UnknownParent)")
        said = "line 3, column parent: WIND-8 of line 2 is an hourly order, not a block (ParentNotBlock)"
        self.assertEqual(said, self.wrong(HOUR, "NORD,K,block,buy,1,1,5,WIND-8,"))
        blocks = [f"A,K{number},block,buy,1,1,5,," for number in range(rules.MOST_BLOCKS + 1)]
        self.assertIn(f"line {len(blocks) + 1}: a book holds at most {rules.MOST_BLOCKS} blocks (BlocksFull)", self.wrong(*blocks))

    def test_a_bad_line_makes_no_other_one_wrong(self):
        """A line that names its order isn't wrong, and its other faults are reported too."""
        child, last = "A,K2,block,buy,1,1,5,K1,", "A,K3,block,buy,1,1,5,K2,"
        for parent, column in (
            ("A,K1,block,buy,x,1,5,,", "price_eur_mwh"),
            ("a,K1,block,buy,1,1,5,,", "participant"),
            ("A,k1,block,buy,1,1,5,,", "order"),
            ("A,K1,Blok,buy,1,1,5,,", "kind"),
            ("A,K1,block,buy,1,x,1;2,,", "periods"),
        ):
            line = self.wrong(parent, child, last)
            self.assertTrue(line.startswith(f"line 2, column {column}: "), line)
            self.assertNotIn("\n", line)
        lines = self.wrong("A,K1,block,buy,x,25,5,K9,", "A,K1,block,buy,1,1,5,,").split("\n")
        self.assertEqual(
            lines[1:],
            [
                "line 2, column periods: the day has periods 1 to 24, so there is no period 25 (PeriodOutOfDay)",
                "line 2, column parent: A has no order K9 in a line above (UnknownParent)",
                "line 3, column order: A has an order K1 in line 2 (NameTaken)",
            ],
        )

    def test_what_is_quoted_stands_in_the_table(self):
        header = HEADER.replace(",", ";")
        beyond = text.eur_per_mwh(rules.HIGHEST_PRICE + 1).replace(".", ",")
        for row, words in (
            ("A;H;hour;buy;68,005;1;5;;", "'68,005' has more than 2 digits after the decimal point"),
            ("A;H;hour;buy;68,00;1;5,25;;", "'5,25' has more than 1 digit after the decimal point"),
            ("A;H;hour;buy;2.000;1;5;;", "'2.000' has more than 2 digits after the decimal point: write thousands without a separator"),
            ("A;H;hour;buy;2,000;1;5;;", "'2,000' has more than 2 digits after the decimal point: write thousands without a separator"),
            ("A;H;hour;buy;20;1;1.000;;", "'1.000' has more than 1 digit after the decimal point: write thousands without a separator"),
            ("A;H;hour;buy;20;1;5,00;;", "'5,00' has more than 1 digit after the decimal point"),
            (f"A;H;hour;buy;{beyond};1;5;;", f"'{beyond}' should be {PRICES}"),
            ("A;H;hour;buy;1,2,3;1;5;;", "'1,2,3' should be a number of EUR/MWh"),
        ):
            self.assertIn(words, self.wrong(row, header=header))

    def test_a_name_or_a_number_that_is_nearly_right(self):
        """The message says the right form."""
        header = HEADER.replace(",", ";")
        for row, words in (
            ("Coal;H;hour;buy;1;1;5;;", "column participant: 'Coal' should be 1 to 8 capitals A to Z: write COAL"),
            ("A;my_h;hour;buy;1;1;5;;", "column order: 'my_h' should be 1 to 12 of A to Z, 0 to 9 and -: write MY-H"),
            ("A;H;hour;buy;1.234,50;1;5;;", "should be a number of EUR/MWh, without separators of thousands: 1234,50"),
            ("A;H;hour;buy;-1'234;1;5;;", "should be a number of EUR/MWh, without separators of thousands: -1234"),
            ("A;H;hour;buy;1;1;1.234,5;;", "should be a number of MW, without separators of thousands: 1234,5"),
        ):
            self.assertIn(words, self.wrong(row, header=header))
        words = "'1,234.50' should be a number of EUR/MWh, without separators of thousands: 1234.50"
        self.assertIn(words, self.wrong('A,H,hour,buy,"1,234.50",1,5,,'))
        self.assertIn("such as 92.5", self.wrong("A,H,hour,buy,1.23.4,1,5,,"))

    def test_a_table_of_commands_is_none_of_orders(self):
        words = "this is a table of commands; a table of orders has no amend, cancel or close"
        for what, row in (("amend", "NORD,WIND-8,,,12.5,8,45,,"), ("cancel", "NORD,WIND-8,,,,,,,"), ("close", ",,,,,,,,")):
            said = self.wrong(f"submit,{HOUR}", f"{what},{row}", header=f"what,{HEADER}")
            self.assertEqual(said, f"line 3, column what: '{what}': {words}")
        for what in ("cancelled", "Delete", "withdrawn", "submit?", "x", "0"):
            said = self.wrong(f"submit,{HOUR}", f"{what},{HOUR}", header=f"what,{HEADER}")
            wanted = f"'{what.lower()}' should be submit, order or empty: remove the row, or give the column another name"
            self.assertEqual(said, f"line 3, column what: {wanted}")
        for what in ("submit", " Submit ", "order", ""):
            self.assertEqual(self.records(f"{what},{HOUR}", header=f"what,{HEADER}"), self.records(HOUR))
        self.assertEqual(self.records(f"submit,{HOUR}", f"what,{HEADER}", header=f"what,{HEADER}"), self.records(HOUR))

    def test_days_that_are_none(self):
        with self.assertRaisesRegex(order_table.BadOrders, "^a day has 23, 24, 25, 92, 96 or 100 periods, not 26$"):
            self.records(HOUR, periods=26)

    def test_tables_that_are_none(self):
        said = "line 1: there is no column kind; the columns are participant"
        self.assertTrue(self.wrong(header=HEADER.replace("kind", "typ")).startswith(said))
        self.assertEqual(self.wrong(header=HEADER.replace("parent", "parnt")), "line 1, column 8: 'parnt' is not a column: write parent")
        self.assertIn("'side' appears twice", self.wrong(header=HEADER.replace("kind", "side")))
        self.assertIn("there is no column kind", self.wrong(header=HEADER.replace("kind,", "")))
        for blank, line in (("\n", 2), ("\n \r\n", 3), (",,,\n", 2)):
            header = f"{blank}{HEADER}"
            for empty, other in (("", ","), ("\n\n", ";"), ("\n", "\t")):
                read = f"{empty}{header}".replace("parent", "parnt").replace(",", other)
                said = f"line {line + len(empty)}, column 8: 'parnt' is not a column: write parent"
                self.assertEqual(self.wrong(header=read), said)
            self.assertIn(f"line {line}: there is no column kind", self.wrong(header=header.replace("kind,", "")))
            self.assertIn(f"line {line}, column 4: the column 'side' appears twice", self.wrong(header=header.replace("kind", "side")))
        self.assertIn("the table is empty", self.wrong(header=""))
        self.assertIn("line 2: it has 10 cells, but the header has 9", self.wrong(BLOCK + ",1"))
        with self.assertRaises(order_table.BadOrders) as fault:
            order_table.parse_journal_of_orders(HEADER.encode() + b"\nN\x81RD", 24, True)
        said = "line 2: the table is neither in UTF-8 nor in Windows-1252: save it as CSV in UTF-8"
        self.assertEqual(str(fault.exception), said)
        self.assertIn("line 3: the table can't be read", self.wrong(BLOCK, HOUR + ',"x"y'))

    def test_a_line_is_one_of_the_file(self):
        line = self.wrong("", "", HOUR + ',"",', HOUR.replace("hour", "hourly"))
        self.assertIn("line 5, column kind: ", line)

    def test_only_the_first_errors_are_told(self):
        lines = self.wrong(*["x"] * 100).split("\n")
        self.assertEqual((len(lines), lines[-1][:4]), (order_table.MOST_ERRORS + 1, "and "))


class CommandLine(unittest.TestCase):
    def test_tables_and_journals(self):
        texts = [AUCTION, AUCTION_RESULTS]
        with tempfile.TemporaryDirectory() as folder:
            note = "table: 1 of 94 commands was refused (of GAS): see --rows commands\n"
            self.assertEqual(run_tool("table", *texts, "--all", folder), (0, b"", note))
            for name in day_tables.TABLES:
                said = "" if name in ("commands", "statement") else note
                self.assertEqual(run_tool("table", *texts, "--rows", name), (0, Path(folder, f"{name}.csv").read_bytes(), said))
            status, out, _ = run_tool("table", "--journal", Path(folder, "orders.csv"))
            self.assertEqual((status, out.splitlines()[0], out.splitlines()[-1]), (0, b"day,24,,,,,,,", b"close,,,,,,,,"))
            status, out, _ = run_tool("table", "--journal", "-", "--open", "--periods=25", data=f"{HEADER}\n{HOUR}\n".encode())
            self.assertEqual((status, out), (0, b"day,25,,,,,,,\nsubmit,NORD,WIND-8,hour,sell,1250,8:450,,\n"))

    def test_the_page_names_the_tables_with_periods(self):
        page = (support.TOP / "docs" / "TABLES.md").read_text().partition("\n## The long form\n")[2].partition("\n## ")[0]
        forms, options = (re.findall(r"\*\*(\w+)\*\*", part) for part in page.strip().split("\n\n"))
        self.assertEqual((len(forms), set(forms)), (4, set(day_tables.LONG)))
        day = day_of(AUCTION.read_bytes(), AUCTION_RESULTS.read_bytes())
        shown, longer = ([name for name, make in form.items() if "period" in next(iter(make(day)))] for form in (day_tables.TABLES, day_tables.LONG))
        self.assertEqual((options, set(longer)), ([*shown, "statement"], set(day_tables.LONG)))
        texts = [AUCTION, AUCTION_RESULTS]
        for name in day_tables.TABLES:
            for more, is_done in ((["--only", "8"], name in shown), (["--date", "2026-11-25"], name in shown), (["--date", "2026-11-25", "--json"], True)):
                with self.subTest(name, more=more):
                    status, _, said = run_tool("table", *texts, "--rows", name, *more)
                    self.assertEqual(status, exits.DONE if is_done else exits.COMMAND_LINE)
                    self.assertEqual("give --rows orders --long" in said, name == "statement" and not is_done)

        names = ["command", "what", "order", "price_eur_mwh", "periods", "volume_mw", "reply", "reason"]
        status, out, err = run_tool("table", "--rows", "commands", "-", data=FIRST)
        self.assertEqual((status, err), (0, ""))
        rows = [[row[name] for name in names] for row in csv.DictReader(io.StringIO(out.decode()))]
        self.assertEqual(rows[0], ["1", "submit", "WIND-8", "12.00", "8", "45.0", "done", ""])
        self.assertEqual(rows[8], ["9", "submit", "FURNACE-9", "76.00", "9", "28.0", "refused", "NameTaken"])
        self.assertEqual(rows[9], ["10", "cancel", "FURNACE-9", "", "", "", "done", ""])
        self.assertEqual(rows[12], ["13", "submit", "WIND-25", "8.00", "25", "10.0", "refused", "PeriodOutOfDay"])
        self.assertEqual(rows[13], ["14", "close", "", "", "", "", "done", ""])
        self.assertEqual(len(rows), 15)
        # A journal that is still open has commands too, and the text of a day has.
        opened = FIRST.replace(b"close,,,,,,,,\n", b"")
        self.assertEqual(len(run_tool("table", "--rows", "commands", "-", data=opened)[1].splitlines()), 15)
        day = AUCTION.read_bytes() + b"results\n" + read_results(AUCTION)
        out = run_tool("table", "--rows", "commands", "-", data=day)[1].decode()
        self.assertEqual(out, run_tool("table", "--rows", "commands", AUCTION, AUCTION_RESULTS)[1].decode())
        self.assertIn("93,cancel,GAS,START,,,,,,,,refused,HasChildren\n", out)
        self.assertIn(",amend,NORD,WIND-9,,,2.00,9,130.0,,,done,\n", out)

    def test_quarter_hours(self):
        rows = f"{HEADER}\nNORD,WIND,hour,sell,12.5,96,45,,\nA,K1,block,sell,60,1-96,0.1,,\n"
        status, out, _ = run_tool("table", "--journal", "-", "--periods=96", data=rows.encode())
        day, hour, block, close = out.splitlines()
        self.assertEqual((status, day, hour), (0, b"day,96,,,,,,,", b"submit,NORD,WIND,hour,sell,1250,96:450,,"))
        self.assertEqual((block.count(b":1;"), close), (95, b"close,,,,,,,,"))
        self.assertEqual(run_tool("table", "--journal", "-", "--periods=91", data=rows.encode())[0], exits.COMMAND_LINE)
        texts = [QUARTERS, QUARTERS_RESULTS]
        periods = run_tool("table", *texts)[1].decode().splitlines()
        self.assertEqual((len(periods), periods[96].split(",")[:5]), (97, ["96", "0.25", "74.00", "385.0", "yes"]))
        orders = run_tool("table", *texts, "--rows", "orders")[1].decode().splitlines()
        # A quarter of an hour of 375 MW, at 50 EUR; and 15 MW at 98 EUR.
        self.assertIn("STAD,LOAD-1,hour,buy,300.00,1,375.0,,,93.750,93.750,in full,,-4687.50000", orders)
        self.assertIn("GAS,FLEX-60,hour,sell,98.00,60,205.0,,,51.250,3.750,in part,,367.50000", orders)

    def test_some_periods(self):
        texts = [AUCTION, AUCTION_RESULTS]
        for words in ("1,3,5-7", "1;3;5-7"):
            rows = run_tool("table", *texts, "--only", words)[1].decode().splitlines()[1:]
            self.assertEqual([row.split(",")[0] for row in rows], ["1", "3", "5", "6", "7"])

    @unittest.skipUnless(modules.has_zone("Europe/Berlin"), "the time zones are missing (Debian's tzdata)")
    def test_dates_at_the_ends_of_the_calendar(self):
        texts = [AUCTION, AUCTION_RESULTS]
        end = "is the first or the last day of the calendar: it should be another"
        early = "is before Europe/Berlin had a time in whole minutes: it should be a later day"
        for date, words in (("9999-12-31", end), ("0001-01-01", end), ("1582-10-10", early), ("1893-03-31", early)):
            said = f"--date {date} {words}\n"
            self.assertEqual(run_tool("table", *texts, "--date", date), (exits.COMMAND_LINE, b"", f"table: {said}"))
            if modules.has_module("matplotlib") and modules.has_module("jinja2"):
                self.assertEqual(run_tool("report", *texts, "-o", "-", "--date", date), (exits.COMMAND_LINE, b"", f"report: {said}"))

    def test_more_cells_than_the_header_has(self):
        """A number with a comma is two cells, also if the row's last one is empty."""
        heads = "participant,order,kind,side,price_eur_mwh,periods,volume_mw"
        for header, row, cells in (
            (f"{heads},group", "NORD,A,block,buy,12,8-20,100,5,", 9),
            (f"{heads},comment", "NORD,A,hour,buy,12,5,8,100,", 9),
            (heads, "NORD,A,hour,buy,12,8,100, ,", 9),
            (f"{heads},,", "NORD,A,hour,buy,12,8,100,,,", 10),
        ):
            for end in ("", "NORD,B,hour,buy,12,8,100\n"):
                status, out, err = run_tool("table", "--journal", "-", data=f"{header}\n{row}\n{end}".encode())
                width = header.rstrip(",").count(",") + 1
                said = f"table: standard input: line 2: it has {cells} cells, but the header has {width}\n"
                self.assertEqual((status, out, err), (exits.NO_INPUT, b"", said), row)
        for header, row in ((heads, "NORD,A,hour,buy,12,8,100"), (f"{heads},,", "NORD,A,hour,buy,12,8,100,"), (heads, ",,,,,,,,,,,")):
            status, out, err = run_tool("table", "--journal", "-", data=f"{header}\n{row}\n".encode())
            self.assertEqual((status, b"NORD" in out), (0, "NORD" in row), err)

    def test_a_decimal_comma_that_makes_a_row_as_wide_as_its_header(self):
        """Its numbers would be those of the next columns: a row that can be read so is a fault if both readings are orders."""
        heads, said = "participant,order,kind,side,price_eur_mwh,periods,volume_mw", "'{}' may be one number, or two cells: write {}, or {}"
        price, volume = f"line 2, column price_eur_mwh: {said}", f"line 2, column volume_mw: {said}"
        for further, cells, fault in (
            ("note", "64,5,8,10", price.format("64,5", "64.5", "64.0,5")),
            ("note", "-0,5,8,10", price.format("-0,5", "-0.5", "-0.0,5")),
            ("note", "64.5,8,2,50", volume.format("2,50", "2.50", "2.0,50")),
            ("note", "64.5,8,1,234", volume.format("1,234", "1234", "1.0,234")),
            ("note", "64.5,8,1,234.50", volume.format("1,234.50", "1234.50", "1.0,234.50")),
            ("offered_mwh", "64.5,8,2,5", volume.format("2,5", "2.5", "2.0,5")),
            ("group", "64.5,8,2,5", volume.format("2,5", "2.5", "2.0,5")),
            ("note,other", "64,5,8,0,5", volume.format("8,0", "8.0", "8.0,0")),
            ("note", "64.0,5,8,10", volume.format("8,10", "8.10", "8.0,10")), ("note", "64.0,5,8.0,10", None), ("note", "64,5,8.0,10", None), ("note", "64,5,8,x", None), ("note", "64,5,25,", None),
            ("note", "64.5,8,2.5,7", None), ("note", "64,8,2.0,7", None), ("group", "64,8,2,G1", None),
        ):  # fmt: skip
            with self.subTest(cells):
                row = f"A,K,block,sell,{cells}"
                self.assertLessEqual(row.count(","), f"{heads},{further}".count(","))
                status, _, err = run_tool("table", "--journal", "--quiet", "-", data=f"{heads},{further}\n{row}\n".encode())
                self.assertEqual((status, fault is None or f"table: standard input: {fault}" in err.splitlines()), (3 if fault else 0, True), err)
        for end, is_fault in (("64,5,8,10", True), ("64.0,5,8.0,10", False)):
            data = f"what,participant,order,price_eur_mwh,periods,volume_mw,note\namend,A,K,{end}\n".encode()
            with self.subTest(end):
                try:
                    command_table.parse_commands_and_notes(order_table.parse_cells(data), 24)
                except order_table.BadOrders as wrong:
                    self.assertIn(price.format("64,5", "64.5", "64.0,5"), str(wrong))
                    self.assertTrue(is_fault)
                else:
                    self.assertFalse(is_fault)

    def test_a_last_line_without_its_end(self):
        """It may be cut: a short one is a fault, and the last cell of another one is named in a note."""
        rows = f"{HEADER}\n{HOUR}\n"
        for last, cells in (("COAL,PEAK,block,sell,80,8-20,90", 7), ("COAL,PEAK,block,sell,80", 5), (BLOCK[:-5], 8), ("C", 1)):
            words = f"has {cells} cell{'s' * (cells > 1)} and no line end, but the header has 9"
            said = f"table: standard input: line 3: the last line {words}: get the whole file, or end the line if nothing is lost\n"
            self.assertEqual(run_tool("table", "--journal", "-", data=f"{rows}{last}".encode()), (exits.NO_INPUT, b"", said))
        for last in ('COAL,PEAK,block,sell,80,8-9,"90', 'COAL,PEAK,block,sell,80,8-9,"', 'COAL,PEAK,block,sell,80,8-9,90,,"FI'):
            self.assertIn("line 3, column ", run_tool("table", "--journal", "-", data=f"{rows}{last}".encode())[2])
        for last, cell in ((BLOCK, "FILL"), (BLOCK[:-1], "FIL"), (BLOCK[:-4], ""), (f'{BLOCK[:-4]}"FILL"', None)):
            note = f"table: standard input: line 3: the last line has no line end: its last cell, '{cell}', may be cut\n"
            for code in ("utf-8", "utf-16"):
                status, _, err = run_tool("table", "--journal", "-", data=f"{rows}{last}".encode(code))
                self.assertEqual((status, err), (0, "" if cell is None else note))
        for end in ("\n", "\r\n", "\r"):
            self.assertEqual(run_tool("table", "--journal", "-", data=f"{rows}COAL,PEAK,block,sell,80,8-20,90{end}".encode())[::2], (0, ""))
        self.assertEqual(order_table.parse_tables([("", HEADER.encode())], 24).notes, [])

    def test_the_value_of_an_option_like_the_end_of_options(self):
        texts = [AUCTION, AUCTION_RESULTS]
        for option in ("--participant", "--only", "--rows", "--date", "--periods"):
            status, out, err = run_tool("table", *texts, f"{option}=--")
            self.assertEqual((status in (exits.COMMAND_LINE, exits.NO_INPUT), out, "--" in err), (True, b"", True), (option, err))
        with tempfile.TemporaryDirectory() as folder:
            words = [support.TOOLS / "table", *texts, "--out=--"]
            self.assertEqual(subprocess.run([sys.executable, *words], cwd=folder, capture_output=True).returncode, 0)
            self.assertEqual(Path(folder, "--").read_bytes(), run_tool("table", *texts)[1])

    def test_a_zone_file_that_is_none(self):
        with tempfile.TemporaryDirectory() as folder:
            Path(folder, "Europe").mkdir()
            Path(folder, "Europe", "Berlin").write_text("x")
            words = [sys.executable, support.TOOLS / "table", AUCTION, AUCTION_RESULTS, "--date", "2026-11-25"]
            ran = subprocess.run(words, capture_output=True, text=True, env={**os.environ, "PYTHONTZPATH": folder})
            said = "table: it needs the world's time zones, which Debian has in the package tzdata: apt-get install tzdata\n"
            self.assertEqual((ran.returncode, ran.stdout, ran.stderr), (exits.FAILED, "", said))

    def test_more_rows_than_a_sheet_has(self):
        most, said = table_files.MOST_LINES, "the table prices has 1,048,577 rows, but a sheet of an Excel workbook has at most 1,048,576"
        with self.assertRaisesRegex(exits.Stop, f"^{said}: write it as .csv$"):
            output.workbook_bytes_or_stop({"few": [["hour"]], "prices": [["hour"]] * (most + 1)})

    def test_a_table_without_orders(self):
        status, out, err = run_tool("table", "--journal", "-", data=f"{HEADER}\n".encode())
        self.assertEqual((status, out), (0, b"day,24,,,,,,,\nclose,,,,,,,,\n"))
        self.assertEqual(err, "table: standard input has no orders: the day of the journal is empty\n")

    def test_faults(self):
        texts = [AUCTION, AUCTION_RESULTS]
        status, out, err = run_tool("table", "--journal", "-", data=f"{HEADER}\n{HOUR},x\n".encode())
        self.assertEqual((status, out), (exits.NO_INPUT, b""))
        self.assertEqual(err, "table: standard input: line 2: it has 10 cells, but the header has 9\n")
        for words in (
            ["--journal", AUCTION, "--participant", "GAS"],
            ["--journal", AUCTION, "-o", "a.xlsx"],
            [*texts, "-o", "a.xlsx", "--json"],
            [*texts, "--json", "--decimal-comma"],
            [*texts, "--participant", "GAS", "--rows", "periods"],
            ["--journal", AUCTION, "--rows", "orders"],
            ["--journal", AUCTION, "--all", "."],
            [*texts, "--periods", "24"],
            [*texts, "--open"],
            [*texts, "--all", ".", "--rows", "orders"],
            [*texts, "--all", ".", "-o", "a.csv"],
        ):
            status, out, err = run_tool("table", *words)
            self.assertEqual((status, out, "can't be used with" in err), (exits.COMMAND_LINE, b"", True), words)
        said = "table: --periods can't be used with tables of results: it belongs to --journal\n"
        self.assertEqual(run_tool("table", *texts, "--periods", "24"), (exits.COMMAND_LINE, b"", said))
        for words in (["-o", "a.xls"], ["-o", "A.ODS"], ["--all", "a.xlsb"]):
            said = f"table: {words[1]}: a workbook is only written as .xlsx\n"
            self.assertEqual(run_tool("table", *texts, *words), (exits.COMMAND_LINE, b"", said))
        said = "table: --only 99: it should be periods and runs of them, such as 8, 8-20 or 1,3,5-7, from 1 to 24\n"
        self.assertEqual(run_tool("table", *texts, "--only", "99"), (exits.COMMAND_LINE, b"", said))
        for words in ([*texts, "--row", "orders"], ["--journ", AUCTION], ["--journal", "-", "--period", "24"]):
            status, out, err = run_tool("table", *words)
            self.assertEqual((status, "unrecognized arguments" in err), (exits.COMMAND_LINE, True), words)
        self.assertEqual(run_tool("table", "--rows", "rows", AUCTION)[0], exits.COMMAND_LINE)
        self.assertEqual(run_tool("table", AUCTION)[0], exits.NO_INPUT)
        status, _, err = run_tool("table", "-", data=b"day,24,,,,,,,\nresults\nday,24\n")
        self.assertEqual(
            (status, err),
            (exits.NO_INPUT, "table: no command of standard input closes the book, so it has no results\n"),
        )
        self.assertEqual(run_tool("table", AUCTION, AUCTION_RESULTS, "-o", "/nowhere/a.csv")[0], exits.NO_INPUT)


if __name__ == "__main__":
    unittest.main()
