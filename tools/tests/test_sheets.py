"""Tables of orders as spreadsheets have them, and tables for spreadsheets."""

import codecs
import csv
import io
import os
import re
import tempfile
import time
import unittest
from pathlib import Path

from support import AUCTION, AUCTION_RESULTS, TOP, journal_of, read_results, results_of, run_tool

from lib.base import clock, rules, text
from lib.journal import journal
from lib.tables import cell_values, command_table, order_table, table_files
from lib.tool import exits, modules

HEADER = "participant,order,kind,side,price_eur_mwh,periods,volume_mw,parent,group"
TEXTS = [AUCTION, AUCTION_RESULTS]
WITH_EXCEL = unittest.skipUnless(modules.has_module("openpyxl"), "openpyxl is missing (Debian's python3-openpyxl)")


def table(*rows, header=HEADER):
    return "".join(f"{row}\n" for row in [header, *rows]).encode()


def records_and_notes(*rows, header=HEADER, periods=24):
    orders = order_table.parse_tables([("", table(*rows, header=header))], periods)
    return journal.journal_text(order_table.journal_of(orders, periods, False)).splitlines()[1:], orders.notes


def wrong(*rows, header=HEADER, periods=24):
    try:
        records_and_notes(*rows, header=header, periods=periods)
    except order_table.BadOrders as fault:
        return str(fault).split("\n")
    raise AssertionError("the table is right")


class Columns(unittest.TestCase):
    ROW = "A,H,hour,buy,1,8,5,,"

    def test_other_columns_are_ignored_with_a_note(self):
        lines, notes = records_and_notes(f"{self.ROW},seen by Jo,7", header=f"{HEADER},comment,x\x1b")
        self.assertEqual(lines, ["submit,A,H,hour,buy,100,8:50,,"])
        self.assertEqual(notes, ["the column 'comment' isn't used", "the column 'x\\x1b' isn't used"])
        data = table(f"{self.ROW},a", header=f"{HEADER},comment")
        self.assertEqual(run_tool("table", "--journal", "-", data=data)[2], "table: standard input: the column 'comment' isn't used\n")
        self.assertEqual(run_tool("table", "--journal", "--quiet", "-", data=data)[2], "")

    def test_columns_of_links_with_longer_names(self):
        """Orders would lose their groups or parents."""
        for heading, name in (
            ("exclusive_group", "group"), ("group_name", "group"), ("Exclusive Group", "group"), ("parent_name", "parent"), ("linked to", "parent"),
            ("excl grp", "group"), ("exgrp", "group"), ("depends_on", "parent"), ("Predecessor", "parent"),
            ("exclusive", "group"), ("Exclusive with", "group"), ("exclusion", "group"), ("exlusive", "group"), ("exclusive parent", "parent"),
        ):  # fmt: skip
            header = HEADER.removesuffix(",parent,group")
            said = wrong("A,H,block,buy,1,8,5,X", header=f"{header},{heading}")
            self.assertEqual(said, [f"line 1, column 8: '{heading}' is not a column: write {name}"])
            _, notes = records_and_notes("A,H,block,buy,1,8,5,,,X", header=f"{HEADER},{heading}")
            self.assertEqual(notes, [f"the column '{heading}' isn't used"])
        for heading in ("line", "excluded", "included", "set"):
            _, notes = records_and_notes("A,H,block,buy,1,8,5,X", header=f"{header},{heading}")
            self.assertEqual(notes, [f"the column '{heading}' isn't used"])

    def test_a_column_without_a_name(self):
        """It may be one that orders have; if its cells are empty too, it separates others."""
        header = HEADER.replace("parent", " ")
        rows = ["A,K1,block,buy,1,8,5,,", "A,K2,block,buy,1,8,5, ,G", "B,K3,block,buy,1,8,5,K1,", "B,K4,block,buy,1,8,5,K2,"]
        said = ["line 4, column 8: 'K1' is in a column without a name: write one, or remove it"]
        self.assertEqual(wrong(*rows, header=header), said)
        first = ["line 2, column 1: 'X' is in a column without a name: write one, or remove it", said[0].replace("8", "9")]
        self.assertEqual(wrong(*(f"X,{row}" for row in rows), header=f",{header}"), first)
        self.assertEqual(records_and_notes(*rows[:2], header=header), records_and_notes(*rows[:2]))
        with self.assertRaises(order_table.BadOrders):  # also if the row is one of others
            order_table.parse_tables([("", table(*rows, header=header))], 24, "A")

    def test_many_columns_without_a_name(self):
        """Of each row only its own cells are looked at."""
        header = f"{HEADER.removesuffix(',parent,group')}{',' * 16_376},x"
        began = time.process_time()
        lines, notes = records_and_notes(*(f"A,H{number},hour,buy,1,8,5" for number in range(2_000)), header=header)
        self.assertLess(time.process_time() - began, 2)
        self.assertEqual((len(lines), notes), (2_000, ["the column 'x' isn't used"]))
        said = "line 3, column 16383: 'y' is in a column without a name: write one, or remove it"
        self.assertEqual(wrong("A,H,hour,buy,1,8,5", f"A,I,hour,buy,1,8,5{',' * 16_376}y", header=header), [said])

    def test_headings_of_many_digits(self):
        """Each is read once to see whether it may be a part of an order."""
        headings = [f"{number}{'1' * 30_000}x" for number in range(9)]
        began = time.process_time()
        self.assertEqual(len(records_and_notes(self.ROW, header=",".join([HEADER, *headings]))[1]), 9)
        self.assertLess(time.process_time() - began, 3)

    def test_all_wrong_columns_at_once(self):
        found = wrong(self.ROW, header="participants,order,order,side,price,periods,volume,parnt,group")
        self.assertEqual(found[0], "line 1, column 1: 'participants' is not a column: write participant")
        self.assertEqual(found[1], "line 1, column 3: the column 'order' appears twice")
        self.assertIn("line 1, column 8: 'parnt' is not a column: write parent", found)
        self.assertIn("line 1, column 7: 'volume' is not a column: write volume_mw, in MW", found)
        self.assertIn("line 1, column 5: 'price' is not a column: write price_eur_mwh, in EUR/MWh", found)
        said = "line 1: there is no column participant, kind, price_eur_mwh, volume_mw; the columns are participant, order"
        self.assertTrue(any(line.startswith(said) for line in found), found)

    def test_headings_with_another_unit(self):
        """No column is read in another unit than its name says."""
        for heading in ("price_mw", "price_ct_mwh", "price_usd_mwh", "price_eur_kwh", "price", "price_eur_mwh (ct)", "price eur mwh"):
            (said, lacking) = wrong(self.ROW, header=HEADER.replace("price_eur_mwh", heading))
            self.assertEqual(said, f"line 1, column 5: '{heading}' is not a column: write price_eur_mwh, in EUR/MWh")
            self.assertTrue(lacking.startswith("line 1: there is no column price_eur_mwh;"), lacking)
        for heading in ("volume_kw", "volume_mwh", "volume", "volume_eur_mwh", "volume (MW)"):
            said = wrong(self.ROW, header=HEADER.replace("volume_mw", heading))[0]
            self.assertEqual(said, f"line 1, column 7: '{heading}' is not a column: write volume_mw, in MW")

    def test_an_order_on_the_line_of_the_header(self):
        """It would be lost. Its first cell may be part of the last heading."""
        first, header = "GAS,LOAD-8,hour,buy,95.00,8,80", "participant,order,kind,side,price_eur_mwh,periods,volume_mw"
        ends = "is no heading, but may be of an order: write each order on a line of its own, and headings in words"
        for between in ("\v", "\f", "\x1c", "\x1d", "\x1e", "\x85", "\u2028", "\u2029"):
            said = f"{text.escaped(between)}GAS' has a character that ends a line for some programs: remove it"
            for rows in ([self.ROW], []):
                self.assertEqual(wrong(*rows, header=f"{header},note{between}{first}"), [f"line 1, column 8: 'note{said}"])
                self.assertEqual(wrong(*rows, header=f"{header},group{between}GAS"), [f"line 1, column 8: 'group{said}"])
            self.assertIn("has a character that ends a line", wrong(header=f"{header}{between}{first}{between}")[0])
            self.assertIn("has a character that ends a line", wrong(self.ROW, header=f"{header}{between}")[0])
            rows = [self.ROW, f"{self.ROW},x{between}{first},"]
            self.assertEqual(wrong(*rows, header=f"{HEADER}{',note' * 9}"), [f"line 3, column 10: 'x{said}"])
        for between in (" ", ",", "", ",,"):
            (said,) = wrong(self.ROW, header=f"{header},note{between}{first}")
            self.assertRegex(said, f"^line 1, column (9|10|11|12): 'hour' {ends}$")
        for heading in ("hour", "Sell", "2026", "8-20", "07:00-20:00", "1;3"):
            self.assertEqual(wrong(header=f"{header},{heading}"), [f"line 1, column 8: '{heading}' {ends}"])
        for headings in ("hour,2026", "2025,2026,2026-11-25", "block", "buy,sell", "hour of a day,buy price,1,2", "x\x1b", "price 2026"):
            self.assertEqual(len(records_and_notes(self.ROW.removesuffix(",,"), header=f"{header},{headings}")[0]), 1)

    def test_a_command_on_the_line_of_the_header(self):
        """It would be lost. A cancel has no number, side or kind, and its word may end the last heading."""
        ends = "is no heading, but may be of a command: write each command on a line of its own, and headings in words"
        for heads, command in (
            ("what,participant,order,note", "cancel,A,K1"),
            ("what,participant,order,price_eur_mwh,periods,volume_mw,note", "amend,A,8-20,1,8,5"),
            ("participant,order,what,note", "A,K1,Cancel"),
            ("scenario,what,participant,order,note", "1,cancel,A,K1"),
        ):
            for between in ("", " ", ",", ",,"):
                with self.subTest(command, between=between), self.assertRaises(order_table.BadOrders) as caught:
                    command_table.parse_commands_and_notes(order_table.parse_cells(f"{heads}{between}{command}\n{command}\n".encode()), 24)
                self.assertRegex(str(caught.exception).splitlines()[0], f"^line 1, column [0-9]: '(note ?)?([Cc]ancel|amend)' {ends}$")
        for heads in ("to cancel", "cancelled,by", "orders to cancel,with reason,date", "why amend,A1"):
            data = f"what,participant,order,{heads}\ncancel,A,K1\n".encode()
            found, _ = command_table.parse_commands_and_notes(order_table.parse_cells(data), 24)
            self.assertEqual(len(list(found)), 1, heads)

    def test_headers_of_tables_put_together(self):
        lines, notes = records_and_notes(self.ROW, HEADER, self.ROW.replace("A,", "B,"))
        self.assertEqual((len(lines), notes), (2, ["line 3 names the columns once more"]))
        said = f"line {', '.join(map(str, range(2, 22)))} and 3,005 more names the columns once more"
        self.assertEqual(records_and_notes(*[HEADER] * 3_025, self.ROW)[1], [said])
        commands = order_table.parse_cells(b"what,participant,order\ncancel,A,K\nwhat,participant,order\ncancel,A,L\n")
        found, notes = command_table.parse_commands_and_notes(commands, 24)
        self.assertEqual(([command.name for _, command in found], notes), (["K", "L"], ["line 3 names the columns once more"]))

    def test_several_files(self):
        with tempfile.TemporaryDirectory() as folder:
            one, other = Path(folder, "a.csv"), Path(folder, "b.csv")
            one.write_bytes(table("A,K1,block,buy,1,8,5,,"))
            other.write_bytes(table("A,K2,block,buy,1,8,5,K1,", "B,H,hour,buy,1,8,5,,").replace(b",", b";"))
            status, out, err = run_tool("table", "--journal", "--open", one, other)
            self.assertEqual((status, err, out.count(b"submit")), (0, "", 3))
            other.write_bytes(table("A,K1,block,buy,1,8,x,,", "B,H,hour,buy,1,8,5,,"))
            status, out, err = run_tool("table", "--journal", one, other)
            said = [
                f"table: {other}: line 2, column volume_mw: 'x' should be a number of MW, such as 92.5",
                f"table: {other}: line 2, column order: A has an order K1 in line 2 of {one} (NameTaken)",
            ]
            self.assertEqual((status, out, err.splitlines()), (exits.NO_INPUT, b"", said))


class Times(unittest.TestCase):
    def periods(self, cell, periods=24):
        lines, _ = records_and_notes(f"A,K,block,buy,1,{cell},5,,", periods=periods)
        return [int(pair.split(":")[0]) for pair in lines[0].split(",")[6].split(";")]

    def test_times_are_periods(self):
        self.assertEqual(self.periods("07:00-08:00"), [8])
        self.assertEqual(self.periods("7:00 - 9:00; 22:00\u201324:00"), [8, 9, 23, 24])
        self.assertEqual(self.periods("00:00-00:00"), list(range(1, 25)))
        self.assertEqual(self.periods("07:15-08:00", 96), [30, 31, 32])

    def test_days_on_which_the_clocks_change(self):
        self.assertEqual(self.periods("01:00-02:00", 23), [2])
        self.assertEqual(self.periods("00:00-04:00", 23), [1, 2, 3])
        self.assertEqual(self.periods("00:00-04:00", 25), [1, 2, 3, 4, 5])
        self.assertEqual(self.periods("03:00-04:00", 25), [5])
        said = "line 2, column periods: '02:00-03:00': 02:00 comes twice on this day: write the numbers of periods, such as 3 or 4"
        self.assertEqual(wrong("A,H,hour,buy,1,02:00-03:00,5,,", periods=25), [said])
        self.assertIn("no period of the day begins at 02:00", wrong("A,H,hour,buy,1,02:00-03:00,5,,", periods=23)[0])

    def test_each_period_by_its_own_times(self):
        for periods in rules.DAYS:
            for number in range(1, periods + 1):
                first, last = clock.time_span(periods, number).split(" to ")
                times = [clock.begin_time(periods, at) for at in range(1, periods + 1)]
                if times.count(first) == 1 and times.count(last) <= 1:
                    self.assertEqual(clock.parse_periods_between_times(periods, first, last), [number], (periods, first, last))

    def test_times_that_are_none(self):
        for cell, said in (
            ("07:30-08:00", "'07:30-08:00': no period of the day begins at 07:30"),
            ("07:00-08:30", "'07:00-08:30': no period of the day ends at 08:30"),
            ("07:00-24:01", "no period of the day ends at 24:01"),
            ("08:00-07:00", "'08:00-07:00': 07:00 isn't after 08:00"),
            ("07:00", "'07:00' should be two clock times, such as 07:00-08:00"),
            ("8:00", "'8:00' should be two clock times, such as 08:00-09:00"),
            ("23:00", "'23:00' should be two clock times, such as 23:00-24:00"),
            ("24:00", "'24:00' should be two clock times, such as 07:00-08:00"),
            ("8:60", "'8:60' should be two clock times, such as 07:00-08:00"),
            ("08:00-09:00;07:00-08:00", "the periods '08:00-09:00;07:00-08:00' should increase"),
            ("2026-08-20", "a spreadsheet has taken it for a date, so make the cell one of text"),
        ):
            self.assertIn(said, wrong(f"A,K,block,buy,1,{cell},5,,")[0])


class ForSpreadsheets(unittest.TestCase):
    def test_words_are_never_a_formula(self):
        data = journal_of("submit,A,-1,hour,buy,100,8:10,,", "submit,A,-K-2,block,sell,-100,8:10,,-G")
        results = results_of(data, frozenset())
        status, out, _ = run_tool("table", "--rows", "orders", "-", data=data + b"results\n" + results)
        rows = list(csv.reader(io.StringIO(out.decode())))
        self.assertEqual((status, rows[1][1], rows[2][1], rows[2][4], rows[2][8]), (0, "'-1", "'-K-2", "-1.00", "'-G"))
        status, again, _ = run_tool("table", "--journal", "-", data=out)
        self.assertEqual((status, again), (0, data))
        for name in ("orders", "blocks", "commands", "statement", "participants"):
            out = run_tool("table", "--rows", name, "-", data=data + b"results\n" + results)[1].decode()
            for row in csv.reader(io.StringIO(out)):
                for cell in row:
                    if cell.startswith(table_files.FORMULA):
                        float(cell)

    def test_no_part_of_a_word_is_a_formula(self):
        """In a spreadsheet of another language a semicolon, a comma or a tab begins another cell, and = may be wide."""
        for name, shown in (
            (";=1+1", ";'=1+1"),
            ("\uff1d1+1", "'\uff1d1+1"),
            ("a;\uff0b1", "a;'\uff0b1"),
            ("a,@x", "a,'@x"),
            ("\t=1", "'\t'=1"),
            ("\n-1", "'\n'-1"),
            ("a;b, -c; d", "a;b, -c; d"),
        ):
            for decimal_comma in (False, True):
                out = table_files.csv_text([["scenario", "period"], [name, 1]], decimal_comma)
                rows = list(csv.reader(io.StringIO(out, newline=""), delimiter=";" if decimal_comma else ","))
                self.assertEqual(rows[1], [shown, "1"])
            self.assertEqual(table_files.unescaped(shown), name)

    def test_a_journal_is_no_table_of_orders(self):
        status, _, err = run_tool("table", "--journal", AUCTION)
        self.assertEqual((status, err), (exits.NO_INPUT, f"table: {AUCTION}: this seems to be a journal already\n"))

    def test_an_empty_number(self):
        said = ["line 2, column price_eur_mwh: it is empty, or a formula that wasn't saved with its value: it should be a number of"]
        self.assertEqual([words[: len(said[0])] for words in wrong("A,K,block,buy,,1,5,,")], said)

    def test_many_decimals(self):
        """Python reads no number of more than 4,300 digits."""
        zeros = "5." + "0" * 5_000
        for at, column, said in ((4, "price_eur_mwh", "2 digits"), (6, "volume_mw", "1 digit")):
            cells = ["GAS", "K", "block", "buy", "1", "1", "5", "", ""]
            cells[at] = zeros
            data = table(",".join(cells))
            said = f"line 2, column {column}: '{zeros[:80]}..' (5,002 characters) has more than {said} after the decimal point"
            self.assertEqual(wrong(",".join(cells)), [said])
            self.assertEqual(run_tool("table", "--journal", "-", data=data), (exits.NO_INPUT, b"", f"table: standard input: {said}\n"))
            status, out, _ = run_tool("audit", AUCTION, "--sent", "-", "--participant", "GAS", "--json", data=data)
            self.assertEqual((status, zeros[:80] in out.decode()), (exits.NO_INPUT, True))

    def test_a_space_that_separates_thousands(self):
        for space, quoted in ((" ", " "), ("\u00a0", "\\xa0"), ("\u202f", "\\u202f"), ("  ", "  ")):
            said = f"line 2, column volume_mw: '1{quoted}500' may be one number or 2: write 1500 or 1;500"
            for periods, volumes in (("8-9", "1{}500"), ("8-10", "2;1{}500"), ("8-10", "1{}500 ; 2"), ("8", "1{}500")):
                self.assertEqual(wrong(f"A,K,block,buy,1,{periods},{volumes.format(space)},,"), [said])
        said = "line 2, column volume_mw: '1 500 200.5' may be one number or 3: write 1500200.5 or 1;500;200.5"
        self.assertEqual(wrong("A,K,block,buy,1,8-10,1 500 200.5,,"), [said])
        for volumes in ("1 50", "1 5000", "1.5 500", "1  50"):
            said = f"line 2, column volume_mw: '{volumes}' has a space between values: write a semicolon there"
            self.assertEqual(wrong(f"A,K,block,buy,1,8-9,{volumes},,"), [said])
        # these are several numbers
        for volumes in ("1;500", "1; 500", "1 ;500", "  1  ;  500 "):
            (line,), _ = records_and_notes(f"A,K,block,buy,1,8-9,{volumes},,")
            self.assertEqual(line.count(":"), 2)

    def test_only_semicolons_separate_values(self):
        """Excel shows 1 and 2 with a tab, or with a line end of a cell that isn't wrapped, between them as 12."""
        for periods in ("8 9", "8-9 11", "8; 9 10", "07:00-08:00 09:00-10:00", "8 - 9 11", "1 000"):
            (said,) = wrong(f"A,K,block,buy,1,{periods},5,,")
            self.assertRegex(said, "^line 2, column periods: '.*' has a space between values: write a semicolon there$")
        for number in (*range(9, 14), *range(0x1C, 0x20), 0x85, 0xA0, 0x1680, *range(0x2000, 0x200B), 0x2028, 0x2029, 0x202F, 0x205F, 0x3000):
            space, words = chr(number), f"has the white space U\\+{number:04X}: write a space instead, or a semicolon between values$"
            for cell in ("8{}9", "8;{}9", "8{}-9", "8 {} 9", "07:00-08:00{}08:00-09:00"):
                with self.subTest(cell, number=number), self.assertRaisesRegex(order_table.BadOrders, words):
                    cell_values.parse_periods(cell.format(space), 24)
            for cell in ("1{}2", "1;{}2", "1.5{}500", "1{}500 ;2"):
                may_be_thousands = cell == "1{}500 ;2" and space in "\u00a0\u202f"
                with self.subTest(cell, number=number), self.assertRaisesRegex(order_table.BadOrders, "may be one number" if may_be_thousands else words):
                    cell_values.parse_volumes(cell.format(space), (8, 9), True)
        for cell in (" 8 - 9 ", "8-9", "8 ; 9", "07:00-08:00 ;08:00 - 09:00"):
            self.assertEqual(cell_values.parse_periods(cell, 24), [8, 9])

    def test_an_empty_part_of_a_list(self):
        """One volume is for all periods, but not if others may have stood next to it."""
        for periods, volumes, column, at, cell in (
            ("8-9", "5;", "volume_mw", 2, "5;"),
            ("8-9", ";5", "volume_mw", 1, ";5"),
            ("8-9", "5; ;6", "volume_mw", 2, "5; ;6"),
            ("8", ";", "volume_mw", 1, ";"),
            ("8;", "5", "periods", 2, "8;"),
            ("07:00-08:00;;09:00-10:00", "5", "periods", 2, "07:00-08:00;;09:00-10:00"),
        ):
            said = f"line 2, column {column}: part {at} of '{cell}' is empty: write it, or remove its semicolon"
            self.assertEqual(wrong(f"A,K,block,buy,1,{periods},{volumes},,"), [said])

    def test_a_decimal_comma(self):
        status, out, _ = run_tool("table", "--decimal-comma", "--rows", "orders", *TEXTS)
        rows = list(csv.reader(io.StringIO(out.decode()), delimiter=";"))
        self.assertEqual((status, rows[1][4:7]), (0, ["300,00", "1", "360,0"]))
        self.assertNotIn(".", out.decode())
        right = run_tool("table", "--journal", "-", data=run_tool("table", "--rows", "orders", *TEXTS)[1])[1]
        self.assertEqual(run_tool("table", "--journal", "-", data=out)[1], right)

    @WITH_EXCEL
    def test_workbooks(self):
        import openpyxl

        with tempfile.TemporaryDirectory() as folder:
            path, every = Path(folder, "a.xlsx"), Path(folder, "all.XLSX")
            self.assertEqual(run_tool("table", "--quiet", "--rows", "orders", *TEXTS, "-o", path)[::2], (0, ""))
            self.assertEqual(run_tool("table", "--quiet", "--all", every, *TEXTS)[::2], (0, ""))
            sheet = openpyxl.load_workbook(path)["orders"]
            self.assertEqual([cell.value for cell in sheet[2]][:7], ["STAD", "LOAD-1", "hour", "buy", 300.0, "1", 360.0])
            self.assertEqual(sheet.freeze_panes, "A2")
            book = openpyxl.load_workbook(every)
            self.assertEqual(len(book.sheetnames), 8)
            self.assertEqual([cell.value for cell in book["periods"][20]][:5], [19, 1.0, 165.0, 730.0, True])
            right = run_tool("table", "--journal", "-", data=run_tool("table", "--rows", "orders", *TEXTS)[1])[1]
            others = ", ".join(f"'{each}'" for each in book.sheetnames if each != "orders")
            for name, note in ((path, ""), (every, f"table: {every}: of 8 sheets, 'orders' was read, but not {others}\n")):
                self.assertEqual(run_tool("table", "--journal", name), (0, right, note))
            data = journal_of("submit,A,-1,hour,buy,100,8:10,,")
            Path(folder, "day").write_bytes(data + b"results\n" + results_of(data, frozenset()))
            run_tool("table", "--rows", "orders", Path(folder, "day"), "-o", path)
            cell = openpyxl.load_workbook(path)["orders"]["B2"]
            self.assertEqual((cell.value, cell.data_type), ("-1", "s"))
            self.assertEqual(run_tool("table", "--journal", path)[1], data)

    @WITH_EXCEL
    def test_several_volumes_of_a_workbook_are_a_text(self):
        import openpyxl

        rows = [HEADER.split(","), *(f"A,K,block,buy,1.00,1-2,{volumes},,".split(",") for volumes in ("5.0", "5.0;6.5"))]
        sheet = openpyxl.load_workbook(io.BytesIO(table_files.workbook_bytes_or_refuse({"orders": rows})))["orders"]
        self.assertEqual([sheet.cell(line, 7).value for line in (2, 3)], [5.0, "5.0;6.5"])

    @WITH_EXCEL
    def test_cells_of_workbooks(self):
        import datetime

        import openpyxl

        book = openpyxl.Workbook()
        sheet = book.active
        sheet.append([*HEADER.split(","), "note"])
        sheet.append(["A", "H1", "hour", "buy", 0.1 + 0.2, 8, 45, None, None, datetime.date(2026, 1, 1)])
        sheet.append(["A", "K1", "block", "buy", "12,5", "08:00-10:00", "1;2,5"])
        sheet.append(["A", "H2", "hour", "buy", 1, datetime.datetime(2026, 8, 20), 1])
        out = io.BytesIO()
        book.save(out)
        status, _, err = run_tool("table", "--journal", "-", data=out.getvalue())
        said = "table: standard input: line 4, column periods: '2026-08-20' should be periods and runs of them, such as 8, 8-20 or 1;3;5-7,"
        self.assertEqual((status, err.startswith(said)), (exits.NO_INPUT, True), err)
        sheet.delete_rows(4)
        out = io.BytesIO()
        book.save(out)
        status, text, _ = run_tool("table", "--journal", "-", "--open", data=out.getvalue())
        self.assertEqual(text.decode().splitlines()[1:], ["submit,A,H1,hour,buy,30,8:450,,", "submit,A,K1,block,buy,1250,9:10;10:25,,"])

    @WITH_EXCEL
    def test_broken_workbooks(self):
        for data in (table_files.XLSX, table_files.XLSX + bytes(1_000)):
            status, out, err = run_tool("table", "--journal", "-", data=data)
            said = "table: standard input: line 1: the Excel workbook can't be read: "
            self.assertEqual((status, out, err.startswith(said)), (exits.NO_INPUT, b"", True), err)


class Tolerance(unittest.TestCase):
    """Tables as people write them: read if their meaning is plain, with one note on what was taken for what."""

    def read(self, data, *words):
        """The submits of the journal of a table, and the notes."""
        status, out, err = run_tool("table", "--journal", "--open", *words, "-", data=data)
        self.assertEqual(status, 0, err)
        return out.decode().splitlines()[1:], [line.removeprefix("table: standard input: ") for line in err.splitlines()]

    def test_dashes(self):
        for periods in ("8-9", "8 - 9", "8\u20139", "8 \u2014 9", "8\u22129", "8 -9", "07:00 \u2013 09:00"):
            self.assertEqual(self.read(table(f"A,K,block,buy,1,{periods},5,,")), (["submit,A,K,block,buy,100,8:50;9:50,,"], []))
        for periods in ("8--9", "-8", "8-", "9 - 8"):
            self.assertIn("should be periods and runs of them", "\n".join(wrong(f"A,K,block,buy,1,{periods},5,,")))

    def test_names_that_are_not_in_capitals(self):
        rows = ["Town,load,hour,buy,1,8,5,,", "town,K1,block,buy,1,8,5,,pair"]
        rows += [f"TOWN,k{number},block,buy,1,8,5,k1," for number in range(2, 20)]
        lines, notes = self.read(table(*rows))
        self.assertEqual(lines[:3], ["submit,TOWN,LOAD,hour,buy,100,8:50,,", "submit,TOWN,K1,block,buy,100,8:50,,PAIR",
                                     "submit,TOWN,K2,block,buy,100,8:50,K1,"])
        self.assertEqual(notes, ["names are in capitals: 'Town' was read as TOWN, and 22 other names"])
        self.assertEqual(self.read(table("A,k,hour,buy,1,8,5,,"))[1], ["names are in capitals: 'k' was read as K"])
        self.assertEqual(self.read(table(*rows), "--quiet")[1], [])
        # two names that differ by capitals alone are one
        said = run_tool("table", "--journal", "-", data=table("A,K,hour,buy,1,8,5,,", "a,k,hour,buy,1,9,5,,"))
        words = "table: standard input: line 3, column order: A has an order K in line 2 of standard input (NameTaken)\n"
        self.assertEqual(said[::2], (exits.NO_INPUT, words))
        # other characters, and names of other tools, stay faults
        for name in ("my_k", "\u00f8", "ABCDEFGHIJKLm", "", "stra\u00df", "\ufb01x", "\u0131-\u017f"):
            self.assertEqual(run_tool("table", "--journal", "-", data=table(f"A,{name},hour,buy,1,8,5,,"))[0], exits.NO_INPUT)
        self.assertIn("write TOWN", wrong(rows[0])[0])

    def test_texts_in_other_codes(self):
        data = table("A,K,block,buy,1,8\u20139,5,,,M\u00fcller \u2013 \u20ac", header=f"{HEADER},bem\u00e4rkung")
        lines, _ = self.read(data)
        self.assertEqual(lines, ["submit,A,K,block,buy,100,8:50;9:50,,"])
        lines_now, notes = self.read(data.decode().encode("cp1252"))
        said = ["line 1: the table isn't in UTF-8, and was read as Windows-1252", "the column 'bem\u00e4rkung' isn't used"]
        self.assertEqual((lines_now, notes), (lines, said))
        for code in ("utf-16", "utf-8-sig"):
            self.assertEqual(self.read(data.decode().replace(",", "\t").encode(code)), (lines, said[1:]))
        page = " ".join((TOP / "docs" / "TABLES.md").read_text().split())
        self.assertIn("`--journal` reads tables in UTF-8, UTF-16 or, with a note, Windows-1252, ", page)
        self.assertIn("the sheet `orders`, or else the only one with the columns, ", page)  # of a workbook: the next test

    def test_a_lost_byte_of_utf_16(self):
        """The bytes after it are those of other characters, also the line ends: all further orders would be in one cell."""
        rows = table(*(f"{who},H,hour,buy,1,8,5,,,xyz" for who in "ABC"), header=f"{HEADER},note").decode()
        said = "^line 2: the table isn't in UTF-16, as its first bytes say: save it as CSV in UTF-8$"
        for data in (rows.encode("utf-16"), b"\xfe\xff" + rows.encode("utf-16-be")):
            first = data.index(b"x", rows.index("xyz") * 2)
            for place in range(first, first + 6):
                for wrong_data in (data[:place] + data[place + 1 :], data[:place] + b"x" + data[place:]):
                    with self.assertRaisesRegex(order_table.BadOrders, said):
                        order_table.parse_tables([("", wrong_data)], 24)

    def test_two_lost_bytes_of_utf_16(self):
        """They are a character that the text lacks, or half of one that takes four bytes, which is seen. Lines without an end between them
        are one with too many cells; without the end of the last line nothing changes."""
        rows = table(*(f"{who},H,hour,buy,1,8,5,,,x\U0001f600" for who in "AB"), header=f"{HEADER},note").decode()
        data, faults = rows.encode("utf-16-le"), {}
        for place in range(0, len(data), 2):
            lacking = data[:place] + data[place + 2 :]
            try:
                plain = lacking.decode("utf-16-le").encode()
            except UnicodeDecodeError:
                faults[place] = self.fault_words_or_none(codecs.BOM_UTF16_LE + lacking)
                self.assertIn("isn't in UTF-16", faults[place])
            else:
                faults[place] = self.fault_words_or_none(plain)
                self.assertEqual(self.fault_words_or_none(codecs.BOM_UTF16_LE + lacking), faults[place], place)
        first, second, last = (found.start() for found in re.finditer("\n", rows.replace("\U0001f600", "xx")))
        self.assertIn("it has 19 cells, but the header has 10", faults[2 * second])
        self.assertEqual((faults[2 * last], faults[2 * first] is None), (None, False))

    def fault_words_or_none(self, data):
        """The fault of a table of orders; None if it has none."""
        try:
            order_table.parse_tables([("", data)], 24)
        except order_table.BadOrders as fault:
            return str(fault)
        return None

    @WITH_EXCEL
    def test_the_sheet_that_is_read(self):
        import openpyxl

        def saved(*sheets_of):
            book, out = openpyxl.Workbook(), io.BytesIO()
            book.remove(book.active)
            for title, rows in sheets_of:
                sheet = book.create_sheet(title)
                for row in rows:
                    sheet.append(row)
            book.save(out)
            return out.getvalue()

        def orders(name):
            return [HEADER.split(","), ["A", name, "hour", "buy", 1, "8", 5]]

        notes = "notes", [["How to fill this in"], [], ["participant", "your name"]]
        for sheets_of, name, said in (
            ([("x", orders("H"))], "H", []),
            ([notes, ("x", orders("H"))], "H", ["of 2 sheets, 'x' was read, but not 'notes'"]),
            ([("empty", []), notes, ("x", [[], *orders("H")]), ("y", [["seen by", "A"]])], "H",
             ["of 4 sheets, 'x' was read, but not 'notes', 'y'"]),
            ([("x", orders("H")), ("orders", orders("I"))], "I", ["of 2 sheets, 'orders' was read, but not 'x'"]),
        ):
            self.assertEqual(self.read(saved(*sheets_of)), ([f"submit,A,{name},hour,buy,100,8:50,,"], said))
        status, _, err = run_tool("table", "--journal", "-", data=saved(notes, ("more", [["x"]])))
        self.assertEqual((status, "line 1: there is no column participant, order, kind" in err), (exits.NO_INPUT, True), err)
        self.assertIn("table: standard input: of 2 sheets, 'notes' was read, but not 'more'\n", err)
        err = run_tool("table", "--journal", "-", data=saved(notes, ("x", [*orders("H"), ["A", "I", "hour", "buy", 1, "99", 5]])))[2]
        said = ["line 3, column periods: the day has periods 1 to 24, so there is no period 99 (PeriodOutOfDay)"]
        said += ["of 2 sheets, 'x' was read, but not 'notes'"]
        self.assertEqual(err.splitlines(), [f"table: standard input: {words}" for words in said])

    @WITH_EXCEL
    def test_the_template(self):
        """It is filled in and read; its cells take only what a table of orders may have."""
        import openpyxl

        with tempfile.TemporaryDirectory() as folder:
            path = Path(folder, "orders.xlsx")
            self.assertEqual(run_tool("table", "--template", path), (0, b"", ""))
            book = openpyxl.load_workbook(path)
            self.assertEqual(book.sheetnames, ["orders", "examples"])
            for sheet in book:
                self.assertEqual([cell.value for cell in sheet[1]], HEADER.split(","))
                self.assertTrue(all(cell.comment.text for cell in sheet[1]))
            sheet, (examples,) = book["orders"], [book["examples"]]
            checks = sheet.data_validations.dataValidation
            limits = [text.eur_per_mwh(end) for end in (rules.LOWEST_PRICE, rules.HIGHEST_PRICE)]
            words = {"C2:C5000": ("list", '"hour,block"', None), "D2:D5000": ("list", '"buy,sell"', None)}
            wanted = {**words, "E2:E5000": ("decimal", *limits)}
            self.assertEqual({str(check.sqref): (check.type, check.formula1, check.formula2) for check in checks}, wanted)
            self.assertEqual([column for column in "ABCDEFGHI" if sheet.column_dimensions[column].number_format == "@"], list("ABFHI"))
            status, out, err = run_tool("table", "--journal", "--open", path)
            self.assertEqual((status, out), (0, b"day,24,,,,,,,\n"))
            self.assertEqual(err.splitlines()[0], f"table: {path}: of 2 sheets, 'orders' was read, but not 'examples'")
            for row in list(examples.iter_rows(min_row=2, values_only=True)):
                sheet.append(row)
            book.save(path)
            made = run_tool("table", "--journal", "--open", "--quiet", path)[1].decode().splitlines()[1:]
            self.assertEqual(made, ["submit,NORD,WIND-8,hour,sell,1200,8:450,,",
                                    f"submit,GAS,UNIT-1,block,sell,6800,{';'.join(f'{number}:100' for number in range(8, 21))},,"])
            for words in (["--template", path, path], ["--template", path, "--journal"], ["--template", "a.csv"], ["--journal"]):
                self.assertEqual(run_tool("table", *words)[0], exits.COMMAND_LINE)
            self.assertEqual(run_tool("table", "--template", "/nowhere/a.xlsx")[0], exits.NO_INPUT)

    @WITH_EXCEL
    def test_a_template_that_was_filled_in_stays(self):
        with tempfile.TemporaryDirectory() as folder:
            path, link = Path(folder, "orders.xlsx"), Path(folder, "link.xlsx")
            path.write_bytes(b"filled in")
            link.symlink_to("gone.xlsx")
            for place in (path, link):
                status, out, err = run_tool("table", "--template", place)
                said = f"table: {place} is there already, and may have been filled in: write to another file\n"
                self.assertEqual((status, out, err), (exits.COMMAND_LINE, b"", said))
            self.assertEqual((path.read_bytes(), sorted(os.listdir(folder))), (b"filled in", ["link.xlsx", "orders.xlsx"]))


class Statement(unittest.TestCase):
    DATA = journal_of(
        "submit,A,H1,hour,buy,6000,8:10,,",
        "submit,B,S1,hour,sell,5000,8:10,,",
        "submit,A,H2,hour,buy,6000,9:10,,",
        "amend,A,H1,,,5500,8:10,,",
        "cancel,A,H2,,,,,,",
        "cancel,A,H9,,,,,,",
        "submit,A,K1,block,buy,4000,8:10,,",
    )
    DAY = DATA + b"results\n" + results_of(DATA, frozenset())

    def capture_rows(self, *words):
        status, out, err = run_tool("table", "--quiet", *words, "-", data=self.DAY)
        self.assertEqual((status, err), (0, ""))
        return list(csv.DictReader(io.StringIO(out.decode())))

    def test_what_was_sent_and_what_became_of_it(self):
        heads = ["command", "what", "order", "reply", "reason", "outcome", "executed_mwh", "amount_eur", "code"]
        found = [[row[head] for head in heads] for row in self.capture_rows("--participant", "A")]
        self.assertEqual(
            found,
            [
                ["1", "submit", "H1", "done", "", "", "", "", ""],
                ["3", "submit", "H2", "done", "", "", "", "", ""],
                ["4", "amend", "H1", "done", "", "in full", "1.0", "-52.500", "in-the-money"],
                ["5", "cancel", "H2", "done", "", "", "", "", ""],
                ["6", "cancel", "H9", "refused", "UnknownOrder", "", "", "", ""],
                ["7", "submit", "K1", "done", "", "rejected", "0.0", "0.000", "loses"],
            ],
        )
        whys = [row["why"] for row in self.capture_rows("--participant", "A")]
        self.assertEqual(whys[:2], ["command 4 changes it", "command 5 cancels it"])
        self.assertEqual(whys[2], "its limit is better than the price, 52.50 EUR/MWh")
        self.assertEqual(whys[4], "the participant has no such order: it was cancelled, refused, or never entered")

    def test_each_participants_statements_are_all_of_them(self):
        whole = self.capture_rows("--rows", "statement")
        parts = [row for who in "AB" for row in self.capture_rows("--participant", who)]
        self.assertEqual(sorted(parts, key=lambda row: int(row["command"])), whole[:-1])
        self.assertEqual(whole[-1]["what"], "close")

    def test_other_tables_of_a_participant(self):
        self.assertEqual([row["participant"] for row in self.capture_rows("--participant", "A", "--rows", "participants")], ["A"])
        self.assertEqual(len(self.capture_rows("--participant", "B", "--rows", "orders", "--long")), 1)
        self.assertEqual([row["command"] for row in self.capture_rows("--participant", "B", "--rows", "commands")], ["2"])

    def test_a_participant_without_a_command_is_a_fault(self):
        """Such as one whose name is misspelt: a script would take an empty table for an answer."""
        said = (exits.NO_INPUT, b"", "table: C has no command in the journal\n")
        for words in ([], ["--rows", "orders"], ["--rows", "commands"], ["--quiet"]):
            self.assertEqual(run_tool("table", "--participant", "C", *words, "-", data=self.DAY), said)

    def test_amounts_add_up(self):
        texts = [AUCTION, AUCTION_RESULTS]
        out = run_tool("table", "--rows", "statement", *texts)[1].decode()
        total = sum(float(row["amount_eur"] or 0) for row in csv.DictReader(io.StringIO(out)))
        self.assertAlmostEqual(total, 0)
        self.assertIn(read_results(AUCTION).decode().splitlines()[-1].split(",")[2], out)


if __name__ == "__main__":
    unittest.main()
