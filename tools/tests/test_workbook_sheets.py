"""The sheets of Excel workbooks: which one is read, and the notes on the others."""

import difflib
import random
import re
import unittest
from unittest import mock

from workbook_support import OrderOfWorkbook, row_of_order

from shared import costly_workbooks as costly, drawn_workbooks as made
from lib.journal.book import Book
from lib.office import requests
from lib.runs import errors
from lib.tables import order_table, table_files
from lib.whatif import scenarios
from lib.workbooks import first_rows, package, workbook
from lib.workbooks.limits import BadWorkbook


class Sheets(OrderOfWorkbook):
    """Workbooks of several sheets."""

    def parts_of_two(self, *names):
        """The parts of a workbook with two sheets of these names and states; the second has the order K2."""
        listed = '<workbook xmlns="{}" xmlns:r="{}"><sheets><sheet name="{}" r:id="r1"{}/><sheet name="{}" r:id="r2"{}/></sheets></workbook>'
        relation = f'<Relationship Id="r{{0}}" Type="{made.OFFICE[0]}/worksheet" Target="worksheets/sheet{{0}}.xml"/>'
        relations = f'{relation.format(1)}{relation.format(2)}<Relationship Id="s" Type="{made.OFFICE[0]}/sharedStrings" Target="sharedStrings.xml"/>'
        return {
            "xl/workbook.xml": listed.format(made.MAIN[0], made.OFFICE[0], *names).encode(),
            "xl/_rels/workbook.xml.rels": f'<Relationships xmlns="{made.RELATIONS}">{relations}</Relationships>'.encode(),
            "xl/worksheets/sheet2.xml": made.OPEN + row_of_order(2, "K2") + made.CLOSE,
        }

    def test_hidden_sheets(self):
        """One that is shown comes first; if a hidden one is read, the note says so."""
        hidden, very = ' state="hidden"', ' state="veryHidden"'
        for names, wanted, said in (
            (("a", "", "b", ""), None, "'b'"),
            (("a", hidden, "b", ""), None, "'a'"),
            (("a", hidden, "b", very), None, "'b'"),
            (("orders", very, "b", ""), "K1", "of 2 sheets, 'orders' was read, a hidden one, but not 'b'"),
        ):
            data = made.workbook_of_sheet(made.OPEN, row_of_order(2, "K1"), made.CLOSE, **self.parts_of_two(*names))
            if wanted:
                orders = order_table.parse_tables([("", data)], 24)
                self.assertEqual(([submit.name for _, submit in orders.submits], orders.notes), ([wanted], [said]))
            else:
                with self.assertRaisesRegex(order_table.BadOrders, f"^sheet {said}, cell A1: 'participant' may be a heading of the table, but"):
                    order_table.parse_tables([("", data)], 24)
        headless = {**self.parts_of_two("a", hidden, "b", ""), "xl/worksheets/sheet2.xml": made.ROOT + b"<sheetData/></worksheet>"}
        orders = order_table.parse_tables([("", made.workbook_of_sheet(made.OPEN, row_of_order(2, "K1"), made.CLOSE, **headless))], 24)
        self.assertEqual((len(orders.submits), orders.notes), (1, ["of 2 sheets, 'a' was read, a hidden one"]))

    def test_a_sheet_that_may_have_orders_isnt_passed_over(self):
        """One with a heading that is misspelt or missing, or a title above its headings, is a fault; another one is named by a note."""
        heads = made.OPEN[made.OPEN.index(b"<row") : made.OPEN.index(b"</row>") + 6].replace(b" r=\"1\"", b"")
        heads = re.sub(rb"<c r='[A-Z]+1'", b"<c", heads)
        title, gap = b"<row><c t='str'><v>Orders of today</v></c></row>", b"<row/><row><c t='str'><v> </v></c></row>"
        many = b"<row><c t='str'><v>a</v></c></row>"
        shared = {made.SHARED: f'<sst xmlns="{made.MAIN[0]}"><si><t>Sides</t></si><si><t>x</t></si></sst>'.encode()}
        for first, place, words in (
            (heads.replace(b"price_eur_mwh", b"price_eur_mhw"), "E1", "price_eur_mhw"),
            (heads.replace(b"<c t='inlineStr'><is><t>side</t></is></c>", b""), "A1", "participant"),
            (title + heads, "A2", "participant"), (title + gap + many * 8 + heads, "A12", "participant"), (title + many * 9 + heads, None, None),
            (b"<row><c/><c t='str'><v>kind</v></c><c><v>1</v></c><c t='str'><v> Side </v></c></row>", "B1", "kind"),
            (b"<row><c t='str'><v>kind</v></c><c t='str'><v>price</v></c></row>", None, None),
            (b"<row><c t='str'><v>Period</v></c><c t='str'><v>note</v></c></row>", "A1", "period"), (b"<row><c t='str'><v>Orders</v></c></row>", None, None),
            (b"<row><c t='s'><v>1</v></c><c t='s'><v>0</v></c></row>", "B1", "sides"), (b"<row><c><v>1</v></c></row>" * 20, None, None),
            (b"<row r='1'><c t='str'><v>a</v></c></row><row r='101'><c t='str'><v>b</v></c></row>" + heads, None, None),
            (b"<row r='1'><c t='str'><v>a</v></c></row><row r='99'><c t='str'><v>b</v></c></row>" + heads, "A100", "participant"),
        ):  # fmt: skip
            for state in ("", ' state="hidden"'):
                parts = {**self.parts_of_two("first", state, "second", ""), **shared}
                data = made.workbook_of_sheet(made.ROOT, b"<sheetData>", first, made.CLOSE, **parts)
                with self.subTest(first, state=state):
                    if place:
                        said = f"sheet 'first', cell {place}: '{words}' may be a heading of the table, but the sheet 'second' is read: "
                        said += "name the one to read 'orders', or remove the other"
                        with self.assertRaisesRegex(order_table.BadOrders, f"^{re.escape(said)}$"):
                            order_table.parse_tables([("", data)], 24)
                    else:
                        orders = order_table.parse_tables([("", data)], 24)
                        self.assertEqual([submit.name for _, submit in orders.submits], ["K2"])
                        self.assertEqual(orders.notes, ["of 2 sheets, 'second' was read, but not 'first'"])
                    named = {**parts, **self.parts_of_two("first", state, "Orders", "")}
                    data = made.workbook_of_sheet(made.ROOT, b"<sheetData>", first, made.CLOSE, **named)
                    self.assertEqual(order_table.parse_tables([("", data)], 24).notes, ["of 2 sheets, 'Orders' was read, but not 'first'"])

    def test_many_texts_like_headings(self):
        """difflib takes long: it compares only the texts that have enough letters of a name in their order, and finds the same ones."""
        rng, names = random.Random("headings"), first_rows.Names(order_table.NEEDED)
        texts = {"".join(rng.sample(name, len(name))) for name in order_table.NEEDED[4:] for _ in range(700)}
        texts |= {f"{name[:at]}x{name[at + skipped:]}" for name in order_table.NEEDED for at in range(len(name)) for skipped in (0, 1, 2)}
        close = {each: bool(difflib.get_close_matches(each, order_table.NEEDED, 1, first_rows.ALIKE)) for each in texts}
        with mock.patch("difflib.get_close_matches", side_effect=difflib.get_close_matches) as compared:
            found = {each: names.is_like_one(each) for each in texts}
        self.assertEqual((found, sum(close.values()) > 20), (close, True))
        self.assertLess(compared.call_count, len(texts) / 4)
        for name in order_table.NEEDED:
            self.assertEqual([names.is_like_one(each) for each in (name, f"{name}s", name[1:], name[::-1], "")], [False, True, len(name) > 3, False, False])

    def test_a_sheet_is_empty_only_if_it_was_read_to_its_end(self):
        """A cell with a shared string of spaces counts among the first rows, but can't be seen."""
        blank, heads = b"<row><c t='s'><v>0</v></c></row>", made.OPEN[made.OPEN.index(b"<row") :]
        orders, wide = heads + b"<row><c t='str'><v>A</v></c></row>", b"<row><c r='IW2' t='str'><v>x</v></c></row>"
        for first, is_empty in (
            (blank * 9, True),
            (b"", True),
            (blank * 10 + orders, False),
            (blank + b"<row r='101'/>" + orders, False),
            (blank + wide, False),
        ):
            for spaces in (" ", ""):
                shared = {made.SHARED: f'<sst xmlns="{made.MAIN[0]}"><si><t xml:space="preserve">{spaces}</t></si></sst>'.encode()}
                parts = {**self.parts_of_two("first", "", "second", ""), **shared}
                pieces = [made.ROOT, b"<sheetData>", first, made.CLOSE]
                with self.subTest(first, spaces=spaces):
                    read = order_table.parse_tables([("", made.workbook_of_sheet(*pieces, **parts))], 24)
                    self.assertEqual([submit.name for _, submit in read.submits], ["K2"])
                    self.assertEqual(read.notes, ["of 2 sheets, 'second' was read" + ("" if is_empty else ", but not 'first'")])
                    parts["xl/worksheets/sheet2.xml"] = b"".join(pieces)
                    with self.assertRaises(order_table.BadOrders) as raised:
                        order_table.parse_tables([("", made.workbook_of_sheet(made.ROOT, b"<sheetData/></worksheet>", **parts))], 24)
                    fault, note = str(raised.exception).split("\n")
                    self.assertIn("the table is empty: ", fault)
                    self.assertEqual(note, "of 2 sheets, 'first' was read" + ("" if is_empty else ", but not 'second'"))

    def test_a_fault_after_the_first_heading_of_a_sheet_that_isnt_read(self):
        """The sheet is no table of orders by its first row; a cell that can't be seen is no heading."""
        shared = {made.SHARED: f'<sst xmlns="{made.MAIN[0]}"><si><t> </t></si><si><t>x</t></si></sst>'.encode()}
        parts, twice = {**self.parts_of_two("first", "", "second", ""), **shared}, b"<row><c r='A2'/><c r='A2'/></row>"
        rows = [b"<sheetData><row><c t='s'><v>%d</v></c></row>" % at + twice for at in (0, 1)]
        blank, seen = (made.workbook_of_sheet(made.ROOT, row, made.CLOSE, **parts) for row in rows)
        with self.assertRaisesRegex(order_table.BadOrders, "^sheet 'first', cell A2: it occurs twice: repair the sheet 'first', or name "):
            order_table.parse_tables([("", blank)], 24)
        self.assertEqual(order_table.parse_tables([("", seen)], 24).notes, ["of 2 sheets, 'second' was read, but not 'first'"])

    def test_the_fault_of_a_sheet_that_isnt_read_holds_no_frames(self):
        """They would hold the parser of each such sheet, and all that it has kept."""
        cut = made.OPEN[: made.OPEN.index(b"<c t=")]
        for pieces in ([b"no XML"], [cut, b"<c r='A1'/><c r='A1'/>"], [cut, b"<c t='s'><v>9</v></c></row>", made.CLOSE], [made.ROOT, b"</worksheet>"]):
            book = workbook.Workbook(package.Package(made.workbook_of_sheet(*pieces)))
            row = first_rows.FirstRows("a", made.SHEET, book, first_rows.Names(order_table.NEEDED))
            row.parse_and_note_first_rows()
            row.note_headings_or_unread(book.parse_strings(set(row.strings())))
            with self.subTest(pieces):
                self.assertIsInstance(row.unread, BadWorkbook)
                self.assertEqual((row.unread.__traceback__, row.unread.__context__), (None, None))

    def test_a_note_names_at_most_twenty_sheets(self):
        others = [[b"<row><c t='str'><v>x</v></c></row>"]] * 24
        notes = order_table.parse_tables([("", costly.workbook_of_sheets(others))], 24).notes
        named = ", ".join(f"'S{at}'" for at in range(20))
        self.assertEqual(notes, [f"of 25 sheets, 'S24' was read, but not {named} and 4 more"])

    def test_a_later_sheet_that_cant_be_read_is_named(self):
        parts = {**self.parts_of_two("first", "", "second", ""), "xl/worksheets/sheet2.xml": b"<worksheet"}
        orders = order_table.parse_tables([("", made.workbook_of_sheet(made.OPEN, row_of_order(2, "K1"), made.CLOSE, **parts))], 24)
        self.assertEqual((len(orders.submits), orders.notes), (1, ["of 2 sheets, 'first' was read, but not 'second'"]))

    def test_an_earlier_sheet_that_cant_be_read(self):
        """It may be the table of today: no later sheet is read in its place, except if it is hidden and no headings were read."""
        heads, end = b"<c r='A1' t='inlineStr'><is><t>participant</t></is></c>", made.OPEN.index(b"<c t=")
        first = made.ROOT + b"<sheetData><row r='1'>" + heads.replace(b"participant", b"note") + heads.replace(b"A1", b"B1")
        repair = ": repair the sheet 'today', or name the one to read 'orders'"
        for pieces, said in (
            ([first.replace(b"B1", b"A1"), b"</row>", made.CLOSE], "sheet 'today', cell A1: it occurs twice"),
            ([made.ROOT, b"<sheetData><row r='0'>", heads, b"</row>", made.CLOSE], "sheet 'today': a row has the number '0': they go from 1 to 1048576"),
            ([made.OPEN.replace(b"<sheetData>", b"<other/><sheetData>"), made.CLOSE], "sheet 'today': an element 'other' stands in 'worksheet'"),
            ([b"no XML"], "line 1: the Excel workbook can't be read: 'xl/worksheets/sheet1.xml': syntax error: line 1, column 0"),
            ([made.OPEN.replace(b"<is>", b"<is/><is>", 1), made.CLOSE], "sheet 'today', cell A1: two elements 'is' stand in 'c'"),
            ([made.OPEN[:end], b"<c t='s'><v>9</v></c></row>", made.CLOSE], "sheet 'today', cell A1: it has no string '9'"),
            ([made.ROOT, b"</worksheet>"], "sheet 'today': it has no table of cells"),
            ([made.OPEN.replace(b"<is><t>side</t></is>", b"<f>A9</f>").replace(b"<c t='inlineStr'><f>", b"<c><f>"), made.CLOSE],
             "sheet 'today': a formula of its first row was saved without its value"),
            ([made.ROOT, b"<sheetData><row><c><f>SUM(A2:A9)</f></c></row>", made.CLOSE], None),
            ([made.ROOT, b"<sheetData/></worksheet>"], None),
        ):  # fmt: skip
            for hidden in (False, True):
                parts = self.parts_of_two("today", ' state="hidden"' * hidden, "old", "")
                data = made.workbook_of_sheet(*pieces, **parts)
                with self.subTest(said, hidden=hidden):
                    if said and hidden and "formula" in said:
                        with self.assertRaisesRegex(order_table.BadOrders, "^sheet 'today', cell A1: 'participant' may be a heading of the table, "):
                            order_table.parse_tables([("", data)], 24)
                    elif said and not hidden:
                        with self.assertRaisesRegex(order_table.BadOrders, f"^{re.escape(said + repair)}$"):
                            order_table.parse_tables([("", data)], 24)
                        with self.assertRaisesRegex(requests.BadRequest, f"^{re.escape(said + repair)}$"):
                            requests.parse_table(data, "A", 24)
                    else:
                        submits = order_table.parse_tables([("", data)], 24).submits
                        self.assertEqual([submit.name for _, submit in submits], ["K2"])

    def test_a_sheet_of_macros(self):
        """It has cells, which aren't read: it is no table of orders, and it counts among the sheets."""
        listed = '<workbook xmlns="{}" xmlns:r="{}"><sheets><sheet name="{}" r:id="r1"/><sheet name="{}" r:id="r9"/></sheets></workbook>'
        relation = '<Relationship Id="r{}" Type="{}/{}" Target="sheets/{}.xml"/>'
        for kind in ("xlMacrosheet", "xlIntlMacrosheet"):
            relations = relation.format(1, made.OFFICE[0], "worksheet", 1) + relation.format(9, "http://schemas.microsoft.com/office", kind, 9)
            for names, said in ((("a", "Orders"), "the sheet 'Orders' is one of macros: copy its table to another sheet"), (("a", "b"), None)):
                parts = {
                    "xl/workbook.xml": listed.format(made.MAIN[0], made.OFFICE[0], *names),
                    "xl/_rels/workbook.xml.rels": f'<Relationships xmlns="{made.RELATIONS}">{relations}</Relationships>',
                    "xl/sheets/1.xml": f'<worksheet xmlns="{made.MAIN[0]}"><sheetData/></worksheet>',
                }
                data = made.workbook_of_sheet(made.OPEN, made.CLOSE, **{name: part.encode() for name, part in parts.items()})
                if said:
                    with self.assertRaisesRegex(table_files.BadTable, said):
                        table_files.parse_rows_and_add_notes(data)
                else:
                    notes = []
                    table_files.parse_rows_and_add_notes(data, notes=notes)
                    self.assertEqual(notes, ["of 2 sheets, 'a' was read, but not 'b'"])

    def test_names_of_sheets(self):
        """Excel takes names that differ by capitals alone for one."""
        listed = '<workbook xmlns="{0}" xmlns:r="{1}"><sheets><sheet name="{2}" r:id="r5"/><sheet name="{3}" r:id="r1"/></sheets></workbook>'
        other = made.OPEN + row_of_order(2, "K9") + made.CLOSE
        for names, read in ((("a", "Orders"), "K1"), (("ORDERS", "b"), "K9"), (("orders", "Orders"), None)):
            sheets = listed.format(made.MAIN[0], made.OFFICE[0], *names).encode()
            data = made.workbook_of_sheet(made.OPEN, row_of_order(2, "K1"), made.CLOSE, **{"xl/workbook.xml": sheets, "xl/worksheets/other.xml": other})
            if read:
                self.assertEqual(order_table.parse_tables([("", data)], 24).submits[0][1].name, read)
            else:
                with self.assertRaisesRegex(order_table.BadOrders, "two sheets are named 'Orders'"):
                    order_table.parse_tables([("", data)], 24)

    def test_names_of_scenarios(self):
        """Two times of a day, or two numbers, may be shown alike."""
        for cell, said in (
            ('<c s="1"><v>46254.25</v></c>', "'2026-08-20' is a date or a time: make the cell one of text"),
            ('<c s="3"><v>4</v></c>', "'4' is a number whose format adds 'days': give its cell the format General"),
            ("<c><f>A1</f></c>", "'=A1' is a formula that was saved without its value"),
        ):
            data = made.workbook_of_sheet(made.OPEN.replace(b">group<", b">scenario<"), b"<row r='2'>" + b"<c/>" * 8 + cell.encode() + b"</row>", made.CLOSE)
            with self.assertRaisesRegex(errors.Fault, f"^a table: line 2, column scenario: {said}"):
                scenarios.parse_table_and_notes("a table", data, Book(24))


if __name__ == "__main__":
    unittest.main()
