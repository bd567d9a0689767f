"""Excel workbooks of strangers: nothing in them is lost, and each fault has its place."""

import contextlib
import csv
import io
import os
import tempfile
import time
import tracemalloc
import unittest
import zipfile
from pathlib import Path
from unittest import mock

from support import AUCTION, run_tool
from workbook_support import WorkbookOfTwoSheets, row_of_cells, row_of_order, workbook_of_rows

from shared import costly_workbooks as costly, drawn_workbooks as made
from lib.journal.book import Book
from lib.journal.journal import Order, Submit
from lib.office import requests
from lib.runs import errors
from lib.tables import cell_values, order_table, table_files
from lib.tool import exits
from lib.whatif import changes, scenarios
from lib.workbooks import limits

UP = "up to this line: delete those that it doesn't need"
LIMITED = "the sheet has more than 300,000 cells before this one: delete those that the table doesn't need"


class Faults(WorkbookOfTwoSheets):
    def test_the_stated_size_isnt_believed(self):
        """A sheet that states fewer rows, or fewer columns, still has all of its orders, with their groups."""
        rows = [row_of_order(2, "K1", ("I2", "G1")), row_of_order(3, "K2", ("I3", "G1")), row_of_order(4, "K3", ("I4", "G1"))]
        for size in ("A1:I3", "A1:G5", "A1", "A1:XFD1048576", "no size"):
            heads = made.OPEN.replace(b"<sheetData>", f'<dimension ref="{size}"/><sheetData>'.encode())
            self.assertEqual(self.capture_orders(made.workbook_of_sheet(heads, *rows, made.CLOSE)), [(name, "G1") for name in ("K1", "K2", "K3")], size)

    def test_each_fault_has_its_place(self):
        sheet = "sheet 'orders', "
        for pieces, said in (
            ([row_of_order(3, "K1"), row_of_order(2, "K2")], "row 2: it stands after row 3, but the rows should increase"),
            ([row_of_order(2, "K1"), row_of_order(2, "K2"), row_of_order(4, "K3")], "row 2: it occurs twice"),
            ([row_of_order(2, "K1"), row_of_order(5_000_000, "K2")], None),
            ([row_of_cells(2, ("B2", "K1"), ("A2", "A"))], "cell A2: it stands after B2, but the cells of a row should increase"),
            ([row_of_cells(2, ("A2", "A"), ("A2", "B"))], "cell A2: it occurs twice"),
            ([row_of_cells(2, ("A2", "A"), ("B3", "B"))], "cell A2: a cell of this row has the place 'B3'"),
            ([row_of_cells(2, ("A2", "A"), ("XFE2", "B"))], "cell XFE2: a row has at most 16384 cells"),
            ([b'<row r="2"><c r="H2"><v>1,5</v></c></row>'], "cell H2: '1,5' isn't a number"),
            ([b'<row r="2"><c r="H2" t="s"><v>7</v></c></row>'], "cell H2: it has no string '7'"),
            ([b'<row r="2"><c r="H2" t="q"><v>7</v></c></row>'], "cell H2: '7' isn't of its type, 'q'"),
            ([b'<row r="2"><c r="H2"><v>7</v><v>8</v></c></row>'], "cell H2: two elements 'v' stand in 'c'"),
            ([row_of_cells(at, (f"ALL{at}", "1")) for at in range(2, 400)], f"cell ALL301: {LIMITED}"),
        ):
            if said is None:
                self.assertEqual(self.capture_fault(workbook_of_rows(*pieces)), "sheet 'orders': a row has the number '5000000': they go from 1 to 1048576")
            else:
                self.assertEqual(self.capture_fault(workbook_of_rows(*pieces)), sheet + said)

    def test_merged_cells_of_the_table(self):
        """Of the merged cells of a column only the first has the group: the other orders would be in none."""
        rows = [row_of_order(2, "K1", ("I2", "G1")), row_of_order(3, "K2")]
        for ref in ("I2:I3", "I9:I2", "I9:A2", "A9:I2", "I2:A1", "A1:I1", "$A$3:$B$3"):
            close = made.CLOSE.replace(b"</worksheet>", f'<mergeCells><mergeCell ref="{ref}"/></mergeCells></worksheet>'.encode())
            said = f"sheet 'orders': the cells {ref} are merged, but each row of a table has its own"
            self.assertEqual(self.capture_fault(made.workbook_of_sheet(made.OPEN, *rows, close)), said)
        for ref in (b"K1:L9", b"L9:K1", b"A9:C4", b"K9:L1"):
            others = close.replace(b"$A$3:$B$3", ref)
            self.assertEqual(self.capture_orders(made.workbook_of_sheet(made.OPEN, *rows, others)), [("K1", "G1"), ("K2", "")])

    def test_a_table_has_no_more_rows_than_a_journal(self):
        said = f"a table has at most {order_table.MOST_ROWS:,} rows after its first"
        rows = [row_of_order(at, "K1") for at in range(2, order_table.MOST_ROWS + 3)]
        self.assertEqual(self.capture_fault(workbook_of_rows(*rows)), f"sheet 'orders', row {order_table.MOST_ROWS + 2}: {said}")
        table = ",".join(order_table.ORDER) + "\n" + "A,K1,block,buy,1,8,5,,\n" * (order_table.MOST_ROWS + 1)
        self.assertEqual(self.capture_fault(table.encode()), f"line {order_table.MOST_ROWS + 2}: {said}")
        self.assertIn("(NameTaken)", self.capture_fault(workbook_of_rows(*rows[:-1])))
        self.assertIn("(NameTaken)", self.capture_fault(table.encode()[:-23]))

    def test_a_text_takes_little_memory(self):
        """Empty rows aren't kept, rows after those that a table may have aren't read, and no row is too long."""
        for data, most, wanted in (
            (b"a\n" + b"\n" * 200_000 + b"b", 1, [(1, ["a"]), (200_002, ["b"])]),
            (b"a\r\n" + b" , \r" * 10**5 + b"b;", None, [(1, ["a"]), (10**5 + 2, ["b;"])]),
            (b"a\n" * 200_000, 1, [(1, ["a"]), (2, ["a"]), (3, ["a"])]),
            ("a\n".encode("utf-16") + "\n".encode("utf-16-le") * 200_000, 1, [(1, ["a"])]),
            (b"a\n" + b"," * 4_000_000, 1, "line 2: the table can't be read: a row has more than 1,048,576 characters"),
            (b"a\n" + (b"b," * 16_000 + b"\n") * 20, None, [(1, ["a"]), *((2 + at, ["b"] * 16_000 + [""]) for at in range(20))]),
            (b"a\n" + (b"b," * 16_000 + b"\n") * 20, 99, f"line 20: the table has more than 300,000 cells {UP}"),
            (b"a\n" + (b"," * 20_000 + b"\n") * 16, 99, [(1, ["a"])]),
            (b"a\n" + (b"b" * 30_000 + b"\n") * 199, 199, f"line 141: the table has more than 4,194,304 bytes of text {UP}"),
            (b"a\n" + b"b," * 16_385, 1, "line 2: a row has at most 16384 cells"),
            (b"a\nb," + b"c" * 32_768, 1, "line 2, column 2: it has more than 32,767 characters"),
        ):
            tracemalloc.start()
            try:
                found = table_files.parse_rows_and_add_notes(data, most=most)[0]
            except table_files.BadTable as fault:
                found = str(fault)
            most_memory = tracemalloc.get_traced_memory()[1]
            tracemalloc.stop()
            self.assertEqual(found, wanted)
            self.assertLess(most_memory, 24 * 2**20)

    def test_a_workbook_takes_little_memory(self):
        """Of its shared strings none is kept twice, and of its faults only those that are printed."""
        cells = b"<row>" + b"<c t='str'><v>%s</v></c>" % (costly.WIDE * 45) * 9 + b"</row>"
        shared = [b"<row>%s</row>" % b"".join(b"<c t='s'><v>%d</v></c>" % at for at in range(row, row + 30)) for row in range(0, 60_000, 30)]
        strings = {made.SHARED: costly.wide_strings(60_000, costly.WIDE * 6 + b"%d")}
        periods = b"".join(row_of_order(at, f"K{at}").replace(b"<v>8</v>", b"<v>1-100</v>") for at in range(2, 2_002))
        formats = {"xl/styles.xml": costly.styles_of_one_format(30_000)}
        for data, most, more in (
            (made.workbook_of_sheet(made.OPEN, costly.rows_of_numbers(costly.spelled_style, 60_000), made.CLOSE, **formats), 9, "\nand 19,980 more\n"),
            (made.workbook_of_sheet(made.OPEN, *[cells] * 1_000, made.CLOSE), 9, "\nand 8,980 more\n"),
            (made.workbook_of_sheet(made.OPEN, *shared, made.CLOSE, **strings), 12, "\nand 19,980 more\n"),
            (made.workbook_of_sheet(made.OPEN, periods, made.CLOSE), 8, "\nand 1,956 more\n"),
            (made.workbook_of_sheet(made.OPEN, *[cells] * 3_000, made.CLOSE), 8, "bytes of text before this cell"),
        ):
            tracemalloc.start()
            with self.assertRaises(order_table.BadOrders) as wrong:
                order_table.parse_tables([("", data)], 100)
            most_memory = tracemalloc.get_traced_memory()[1] / 2**20
            tracemalloc.stop()
            self.assertIn(more.replace(",", ""), str(wrong.exception)[-100:])
            self.assertLess(most_memory, most)

    def test_the_most_formats_take_little_memory(self):
        """Those of cells and of conditions that the limits allow; one more is a fault."""
        row = row_of_order(2, "K1")
        for more_cells, more_conditions, said in ((0, 0, None), (1, 0, "65,490 formats of cells"), (0, 1, "20,000 fonts, fills, .*")):
            styles = costly.styles_of_most_formats(limits.MOST_FORMATS + more_cells, limits.MOST_LOOKS + more_conditions)
            data = made.workbook_of_sheet(made.OPEN, row, made.CLOSE, **{"xl/styles.xml": styles})
            if said:
                with self.assertRaisesRegex(order_table.BadOrders, f"it has more than {said}$"):
                    order_table.parse_tables([("", data)], 24)
                continue
            tracemalloc.start()
            self.assertEqual(len(order_table.parse_tables([("", data)], 24).submits), 1)
            most_memory = tracemalloc.get_traced_memory()[1] / 2**20
            tracemalloc.stop()
            self.assertLess(most_memory, 30)

    def test_merged_cells_and_conditional_formats_are_limited(self):
        """Each takes time, and 1,500,000 of them have 170 KB."""
        merged, condition = b"<mergeCell ref='AA1:AB1'/>", b"<conditionalFormatting sqref='A1'><cfRule/></conditionalFormatting>"
        said = "^sheet 'orders': the sheet has more than 100,000 merged cells and conditional formats: delete those that the table doesn't need$"
        for many, rules, is_fault in ((40_000, 30_000, False), (40_001, 30_000, True), (40_000, 30_001, True)):
            after = b"</sheetData><mergeCells>" + merged * many + b"</mergeCells>" + condition * rules
            data = made.workbook_of_sheet(made.OPEN, row_of_order(2, "K1"), made.CLOSE.replace(b"</sheetData>", after))
            with self.assertRaisesRegex(order_table.BadOrders, said) if is_fault else contextlib.nullcontext():
                self.assertEqual(len(order_table.parse_tables([("", data)], 24).submits), 1)

    def test_fonts_fills_and_formats_of_conditions_are_limited_together(self):
        row, looks = row_of_order(2, "K1"), "<fonts>{}</fonts><fills>{}</fills><dxfs>{}</dxfs><tableStyles><tableStyle>{}</tableStyle></tableStyles>"
        for count, is_fault in ((5_000, False), (5_001, True)):
            parts = [f"<{name}/>" * many for name, many in (("font", 5_000), ("fill", 5_000), ("dxf", 5_000), ("tableStyleElement", count))]
            styles = f'<styleSheet xmlns="{made.MAIN[0]}">{looks.format(*parts)}</styleSheet>'.encode()
            data = made.workbook_of_sheet(made.OPEN, row, made.CLOSE, **{made.STYLES: styles})
            said = "it has more than 20,000 fonts, fills, formats of conditions and parts of styles of tables: delete those that no cell needs$"
            with self.assertRaisesRegex(order_table.BadOrders, said) if is_fault else contextlib.nullcontext():
                self.assertEqual(len(order_table.parse_tables([("", data)], 24).submits), 1)

    def test_the_name_of_a_part_with_a_percent_sign_is_a_fault(self):
        """It may stand for a character, so that another part is meant."""
        data = made.workbook_of_sheet(made.OPEN, row_of_order(2, "K1"), made.CLOSE)
        with zipfile.ZipFile(io.BytesIO(data)) as archive:
            parts = {name: archive.read(name) for name in archive.namelist()}
        (relations,) = (name for name in parts if name.endswith("workbook.xml.rels"))
        parts[relations] = parts[relations].decode("utf-16").replace(os.path.basename(made.SHEET), "sheet%30.xml").encode("utf-16")
        parts[made.SHEET.replace("1.xml", "%30.xml")] = parts[made.SHEET]
        with self.assertRaisesRegex(order_table.BadOrders, "the name of a part has a %: '.*sheet%30.xml'$"):
            order_table.parse_tables([("", made.archive_bytes(parts))], 24)

    def test_the_column_of_a_cell_that_the_module_csv_refuses(self):
        self.addCleanup(csv.field_size_limit, csv.field_size_limit(131_072))  # which the reading of a journal raises, in any test before
        data = b'a;"b;b";' + b"c" * (csv.field_size_limit() + 1) + b"\n"
        with self.assertRaisesRegex(table_files.BadTable, "^line 1, column 3: it has more than 131,072 characters$"):
            list(table_files.parse_rows_and_add_notes(data)[0])

    def test_a_text_has_no_more_lines_than_a_sheet(self):
        with self.assertRaisesRegex(table_files.BadTable, "^line 1048577: a table has at most 1,048,576 lines$"):
            table_files.parse_rows_and_add_notes(b"\n" * (2**20 + 1))

    def test_a_cell_of_a_text_that_does_not_end_on_its_line(self):
        """Two quotes in a column that isn't used could hide the rows between them."""
        head, said = ",".join(order_table.ORDER), "a quote begins a cell that doesn't end on its line: write it on one line, or remove the quote"
        one, other = ("A,K1,block,buy,1,8,5,,", "A,K2,block,buy,1,8,5,,")
        for text, place in (
            (f'{head},note\n{one},"see\n{other},"\n', "line 2, column 10"),
            (f'{head},note\n{one},see\n\n{other},"\r\n', "line 4, column 10"),
            (f'note,{head}\n"x\r{one}\r",{other}\r', "line 2, column 1"),
            (f'{head},"note\n{one},x"\n{other},x\n', "line 1, column 10"),
            (f'{head},note\nB,"K,block,buy,1,8,5,,,\n{one}"\n', "line 2, column 2"),  # of another participant
            (f'{head}\n{one.replace(",", ";")};"\n{other}'.replace(",", ";"), "line 2, column 10"),
        ):
            for code in ("utf-8", "utf-8-sig", "utf-16"):
                with self.subTest(text, code=code), self.assertRaisesRegex(order_table.BadOrders, f"^{place}: {said}$"):
                    order_table.parse_tables([("", text.encode(code))], 24, "A")
        quoted = f'"{head}",note\n'.replace(",", '","').replace('","note', ',"note, of one ""line"""') + f'{one},"a, b"\n'
        self.assertEqual(len(order_table.parse_tables([("", quoted.encode())], 24).submits), 1)

    def test_every_table_is_read_by_the_same_code(self):
        data, said = workbook_of_rows(row_of_order(3, "K1"), row_of_order(2, "K2")), "sheet 'orders', row 2: it stands after row 3"
        with tempfile.TemporaryDirectory() as folder:
            path = Path(folder, "orders.xlsx")
            path.write_bytes(data)
            status, _, err = run_tool("audit", AUCTION, "--sent", path, "--participant", "GAS")
            self.assertEqual((status, said in err), (exits.NO_INPUT, True), err)
        for read in (lambda: changes.parse_changes_and_notes(data, 24), lambda: scenarios.parse_table_and_notes("a table", data, Book(24))):
            with self.assertRaisesRegex(errors.Fault, said):
                read()

    def test_a_workbook_is_read_without_a_package(self):
        with mock.patch.dict("sys.modules", {"openpyxl": None}):
            self.assertEqual(list(table_files.parse_rows_and_add_notes(workbook_of_rows(row_of_cells(2, ("B2", "x"))))[0])[1:], [(2, ["", "x"])])

    def test_names_of_elements_are_limited(self):
        cant, tail = "line 1: the Excel workbook can't be read: ", b"</row>"
        long = f"{cant}the name of an element has more than 1,000 characters"
        many = f"{cant}it has more than 1,048,576 characters in the names of elements"
        for form in ("<{}/>", "<a {}=''/>", "<a xmlns='{}'/>", "<a xmlns:{}='a'/>"):
            for names, said in (["a" * 900], None), (["a" * 1_001], long), ([f"a{number:0900}" for number in range(1_200)], many):
                left_out = f"<extLst>{''.join(map(form.format, names))}</extLst></row>".encode()
                data = workbook_of_rows(row_of_order(2, "K1").replace(tail, left_out))
                with self.subTest(form, said=said):
                    self.assertEqual(self.capture_fault(data) if said else self.capture_orders(data), said or [("K1", "")])

    def test_an_archive_behind_another_one(self):
        """The last of the two would be read, and the rows of the first one lost."""
        first, last = workbook_of_rows(row_of_order(2, "K1"), row_of_order(3, "K2")), workbook_of_rows(row_of_order(2, "K1"))
        said = "line 1: the Excel workbook can't be read: other bytes stand before its archive, such as another workbook"
        for data in (first + last, first[:-2] + len(last).to_bytes(2, "little") + last, b"PK\3\4" + last):
            self.assertEqual(self.capture_fault(data), said)
        self.assertEqual(self.capture_orders(last), [("K1", "")])

    def test_bytes_behind_an_archive(self):
        """Such as another workbook that was cut: of it no row would be read."""
        first, last = workbook_of_rows(row_of_order(2, "K1")), workbook_of_rows(row_of_order(2, "K1"), row_of_order(3, "K2"))
        said = "line 1: the Excel workbook can't be read: other bytes stand after its archive, such as another workbook"
        for data in (first + last[:-22], first + b"x", first + b"\n"):
            self.assertEqual(self.capture_fault(data), said)
        with_comment = first[:-2] + (4).to_bytes(2, "little") + b"note"
        self.assertEqual(self.capture_orders(with_comment), [("K1", "")])
        self.assertEqual(self.capture_fault(with_comment + b"x"), said)

    def test_a_part_twice_with_a_slash(self):
        """A slash before the name of a part makes no other one of it."""
        data = io.BytesIO(workbook_of_rows(row_of_order(2, "K1")))
        with zipfile.ZipFile(data, "a") as archive:
            name = next(name for name in archive.namelist() if "worksheets/" in name)
            archive.writestr(f"/{name}", archive.read(name))
        self.assertEqual(self.capture_fault(data.getvalue()), f"line 1: the Excel workbook can't be read: two parts are named '/{name}'")

    def test_other_archives(self):
        said = "line 1: the Excel workbook can't be read: it isn't an Excel workbook (.xlsx), but another archive"
        self.assertEqual(self.capture_fault(made.archive_bytes({"xl/other": b""})), said)
        self.assertEqual(self.capture_fault(made.archive_bytes({"other": b""})), "this is an archive (.zip): unzip FILE unpacks it")

    def test_another_sheet_that_cant_be_read(self):
        """The sheet with the columns of orders is read, whatever the others are."""
        for other in (b"<worksheet", made.OPEN + b"<row r='0'/>" + made.CLOSE, made.OPEN + made.CLOSE + b"x"):
            data = made.workbook_of_sheet(made.OPEN, row_of_order(2, "K1"), made.CLOSE, **{"xl/worksheets/other.xml": other})
            self.assertEqual(self.capture_orders(data), [("K1", "")])


class Places(WorkbookOfTwoSheets):
    """An element or text that isn't in its place by the schema is a fault: nothing in it is lost."""

    ROWS = row_of_order(2, "K1"), row_of_order(3, "K2")
    SHEET = "sheet 'orders', "

    def changed(self, old, new, **parts):
        """A workbook of two orders, in which a part of its sheet is another one."""
        cells = b"".join([made.OPEN, *self.ROWS, made.CLOSE])
        self.assertEqual(cells.count(old), 1, old)
        return made.workbook_of_sheet(cells.replace(old, new), **parts)

    def test_elements_in_a_wrong_place(self):
        row, cell, end, mc = self.ROWS[1], b'<c r="I2" t="str"><v>G1</v></c>', b"</sheetData>", b'xmlns:m="other"'
        before = b"t=\"str\"><v>K1</v></c>"
        for old, new, said in (
            (row, b"<extLst>" + row + b"</extLst>", "sheet 'orders', after row 2: an element 'extLst' stands in 'sheetData'"),
            (row, b"<rPh>" + row + b"</rPh>", "sheet 'orders', after row 2: an element 'rPh' stands in 'sheetData'"),
            (row + end, end + row, "sheet 'orders': an element 'row' stands in 'worksheet'"),
            (row + end, end + b"<m:A " + mc + b">" + row + b"</m:A>", "sheet 'orders': an element 'row' stands in 'other A'"),
            (end, end + b"<m:A " + mc + b"><sheetData/></m:A>", "sheet 'orders': an element 'sheetData' stands in 'other A'"),
            (end, end + b"<cols><mergeCells/></cols>", "sheet 'orders': an element 'mergeCells' stands in 'cols'"),
            (end, end + b"<sheetData/>", "sheet 'orders': two elements 'sheetData' stand in 'worksheet'"),
            (end, end + b"<sheetCalcPr/><sheetCalcPr/>", "sheet 'orders': two elements 'sheetCalcPr' stand in 'worksheet'"),
            (end, end + b"<extLst/><cols/>", "sheet 'orders': an element 'cols' stands after the extensions of 'worksheet'"),
            (end, end + b"<extLst/><mergeCells/>", "sheet 'orders': an element 'mergeCells' of 'worksheet' stands after 'extLst', "
                                                   "but should stand before it"),
            (row, b"<extLst/></row>" + row[:-6], None),
            (before, b"t='str'><v>K1</v><extLst><v>5</v></extLst></c>", "cell B2: an element 'v' stands in 'extLst'"),
            (before, b"t='str'><extLst><v>5</v></extLst><v>K1</v></c>", "cell B2: an element 'v' stands in 'extLst'"),
            (before, b"t='str'><v>K1</v><f>A1</f></c>", "cell B2: an element 'f' of 'c' stands after 'v', but should stand before it"),
            (before, b"t='str'><rPr/><v>K1</v></c>", "cell B2: an element 'rPr' stands in 'c'"),
            (before, before + b"<c xmlns=''><v>1</v></c>", "cell B2: an element 'c' stands in 'row'"),
            (b"</row>" + row, b"<extLst>" + cell + b"</extLst></row>" + row, "cell G2: an element 'c' stands in 'extLst'"),
            (b"</row>" + row, b"<extLst/>" + cell + b"</row>" + row, "cell G2: an element 'c' of 'row' stands after 'extLst', "
                                                                     "but should stand before it"),
        ):  # fmt: skip
            if said is None:
                said = "sheet 'orders', after row 2: an element 'extLst' stands in 'sheetData'"
            found = self.capture_fault(self.changed(old, new))
            self.assertEqual(found, said if said.startswith("sheet") else self.SHEET + said, (old, new))

    def test_texts_in_a_wrong_place(self):
        row, end = self.ROWS[1], b"</row>" + self.ROWS[1]
        other = "the text 'G1' stands in "
        spoken, both = b"<is><rPh><t>G1</t></rPh></is>", b"<is><t>G</t><r><t>1</t></r></is>"
        for old, new, said in (
            (end, b"<c r='I2'>G1</c>" + end, f"cell I2: {other}'c'"),
            (end, b"<c r='I2' t='inlineStr'><is>\n G1</is></c>" + end, f"cell I2: {other}'is'"),
            (end, b"<c r='I2' t='inlineStr'><is><r>G1<t/></r></is></c>" + end, f"cell I2: {other}'r'"),
            (end, b"<c r='I2'/><![CDATA[G1]]>" + end, f"cell I2: {other}'row'"),
            (end, b"</row>\xc2\xa0" + row, "after row 2: the text '\\xa0' stands in 'sheetData'"),
            (row, b"G1" + row, f"after row 2: {other}'sheetData'"),
            (end, b"<c r='I2' t='s'><v/></c>" + end, "cell I2: it has no string ''"),
            (end, b"<c r='I2' t='b'><v/></c>" + end, "cell I2: '' isn't of its type, 'b'"),
            (end, b"<c r='I2' t='inlineStr'>" + spoken + b"</c>" + end, "cell I2: its only text is how it is pronounced (rPh)"),
            (end, b"<c r='I2' t='inlineStr'>" + both + b"</c>" + end, "cell I2: it has two texts: a whole one, and one in runs"),
        ):  # fmt: skip
            self.assertEqual(self.capture_fault(self.changed(old, new)), self.SHEET + said, (old, new))
        said = "sheet 'orders': the text 'x' stands in 'worksheet'"
        self.assertEqual(self.capture_fault(self.changed(b"</sheetData>", b"</sheetData>x")), said)

    def test_shared_strings_in_a_wrong_place(self):
        cant, end = "line 1: the Excel workbook can't be read: ", b"</row>" + self.ROWS[1]
        for item, said in (
            ("<si>G1</si>", "string 0 of its cells: the text 'G1' stands in 'si'"),
            ("<si><rPh><t>G1</t></rPh></si>", "string 0 of its cells: its only text is how it is pronounced (rPh)"),
            ("<si><t/><t>G1</t></si>", "string 0 of its cells: two elements 't' stand in 'si'"),
            ("<si><r><t/><t>G1</t></r></si>", "string 0 of its cells: two elements 't' stand in 'r'"),
            ("<si><rPr><t>G1</t></rPr></si>", "string 0 of its cells: an element 'rPr' stands in 'si'"),
            ("<si><t>G</t></si><extLst><si/></extLst>", "string 0 of its cells: an element 'si' stands in 'extLst'"),
        ):
            strings = f'<sst xmlns="{made.MAIN[0]}">{item}</sst>'.encode()
            data = self.changed(end, b"<c r='I2' t='s'><v>0</v></c>" + end, **{made.SHARED: strings})
            self.assertEqual(self.capture_fault(data), cant + said, item)

    def test_parts_of_the_workbook_in_a_wrong_place(self):
        cant = "line 1: the Excel workbook can't be read: "
        listed = '<workbook xmlns="{0}" xmlns:r="{1}">{2}</workbook>'
        sheets = '<sheets><sheet name="orders" r:id="r1"/></sheets>'
        for content, said in (
            (f'<o:A xmlns:o="other">{sheets}</o:A>{sheets}', "an element 'sheets' stands in 'other A'"),
            (f"{sheets}{sheets}", "two elements 'sheets' stand in 'workbook'"),
            (f"{sheets}<workbookPr/>", "an element 'workbookPr' of 'workbook' stands after 'sheets', but should stand before it"),
            (f"{sheets}<calcPr/><calcPr fullCalcOnLoad='1'/>", "two elements 'calcPr' stand in 'workbook'"),
            (f"{sheets}<sheet/>", "an element 'sheet' stands in 'workbook'"),
            (f"{sheets}<formats/>", "an element 'formats' stands in 'workbook'"),
        ):
            found = {"xl/workbook.xml": listed.format(made.MAIN[0], made.OFFICE[0], content).encode()}
            self.assertEqual(self.capture_fault(made.workbook_of_sheet(made.OPEN, made.CLOSE, **found)), cant + said, content)
        for styles in ("<dxfs><cellXfs/></dxfs>", "<cellXfs/><cellXfs/>", "<cellXfs/>x", "<cellXfs><b><xf/></b></cellXfs>"):
            found = {"xl/styles.xml": f'<styleSheet xmlns="{made.MAIN[0]}">{styles}</styleSheet>'.encode()}
            self.assertIn(cant, self.capture_fault(made.workbook_of_sheet(made.OPEN, made.CLOSE, **found)), styles)

    def test_right_places(self):
        """Extensions at the ends, further elements of Excel, and those of other namespaces, as Excel writes them."""
        office = 'xmlns:mc="http://schemas.openxmlformats.org/markup-compatibility/2006" xmlns:x="urn:x"'
        choice = "<mc:Choice Requires='x14'><controls><control>a</control></controls></mc:Choice>"
        known = f"<phoneticPr/><dataValidations><f1>1</f1></dataValidations><mc:AlternateContent {office}>{choice}</mc:AlternateContent>"
        ends = f"</sheetData><autoFilter/>{known}<extLst><ext {office}><x:f>A1</x:f>text</ext></extLst>"
        spoken = "<is><t>G1</t><rPh sb='0' eb='1'><t>no</t></rPh><phoneticPr/></is>"
        cells = f"<c r='I2' t='inlineStr'>{spoken}<extLst/></c><extLst><ext>a</ext></extLst></row>\n "
        row = self.ROWS[0].replace(b"</row>", cells.encode())
        data = made.workbook_of_sheet(made.OPEN.replace(b"<sheetData>", b"<sheetPr/>\n<cols><col/></cols><sheetData>"), row,
                             made.CLOSE.replace(b"</sheetData>", ends.encode()))  # fmt: skip
        self.assertEqual(self.capture_orders(data), [("K1", "G1")])


class Long(unittest.TestCase):
    """Cells that are long take no time."""

    def test_each_column(self):
        for column, cell, said in (
            ("periods", "7:00" + " " * 30_000 + "x", "should be two clock times"),
            ("periods", "1-100" + ";1-100" * 4_999, "has 5,000 parts: a day has at most 100 periods"),
            ("periods", "07:00-08:00 " * 2_500, "has a space between values: write a semicolon there"),
            ("periods", "07:00-08:00" + " ; 07:00-08:00" * 2_250, "has 2,251 parts: a day has at most 100 periods"),
            ("periods", "8" + " " * 32_000 + "9", "has a space between values: write a semicolon there"),
            ("volume_mw", "8" + " 8" * 16_000 + "x", "should be a number of MW"),
            ("periods", "8" + "\u3000" * 32_000 + "9", "has the white space U\\+3000: write a space instead, or a semicolon between values"),
            ("volume_mw", "5" + ";5" * 14_999, "there are 15000 volumes for 1 period: give one, or one for each"),
        ):
            cells = dict(zip(order_table.ORDER, "A,K1,block,buy,1,8,5,,".split(",")), **{column: cell})
            began = time.process_time()
            with self.assertRaisesRegex(order_table.BadOrders, said):
                order_table.parse_tables([("", f"{','.join(cells)}\n{','.join(cells.values())}\n".encode())], 24)
            self.assertLess(time.process_time() - began, 1)

    def test_many_columns(self):
        """A column is found at once, however many there are before it."""
        heads = ",".join([*(f"c{number}" for number in range(16_000)), "scenario", "what", "participant", "order"])
        data = f"{heads}\n".encode() + b"x\n" * 1_000
        began = time.process_time()
        for read in (changes.parse_changes_and_notes, lambda data, _: scenarios.parse_table_and_notes("a table", data, Book(24))):
            with self.assertRaises(errors.Fault):
                read(data, 24)
        self.assertLess(time.process_time() - began, 5)

    def test_commands_of_many_periods_take_little_memory(self):
        """A row of a few bytes makes a pair for each period."""
        rows = "".join(f"amend,GAS,B,1,1-96,{number / 10}\n" for number in range(1, 3_001))
        data = f"what,participant,order,price_eur_mwh,periods,volume_mw\n{rows}".encode()
        held = Book(96)
        held.carry_out(Submit("GAS", "B", Order("block", "sell", 1, ())))

        def amended():
            return changes.book_with_commands_or_raise(held, changes.parse_changes_and_notes(data, 96)[0]).rows["GAS", "B"].volumes[::95]

        def entered():
            return [line.rpartition(":")[2] for line in requests.parse_table(data, "GAS", 96)[0]][::2_999]

        for call, wanted in ((amended, ((1, 3_000), (96, 3_000))), (entered, ["1,,", "3000,,"])):
            tracemalloc.start()
            found = call()
            most = tracemalloc.get_traced_memory()[1]
            tracemalloc.stop()
            self.assertEqual(found, wanted)
            self.assertLess(most, 10 << 20)

    def test_equal_volumes_are_read_once(self):
        data = b"what,participant,order,price_eur_mwh,periods,volume_mw\namend,A,K,1,1-96,5\namend,A,L,2,1-96,5\namend,A,L,2,2-97,5\n"
        first, same, other = (command.volumes for _, command in changes.parse_changes_and_notes(data, 100)[0])
        self.assertTrue(first is same)
        self.assertEqual((first[0], other[0]), ((1, 50), (2, 50)))

    def test_periods_with_spaces_are_no_more_parts(self):
        quarters = ";".join(f"{at // 4:02}:{at % 4 * 15:02} - {(at + 1) // 4:02}:{(at + 1) % 4 * 15:02}" for at in range(96))
        self.assertEqual(cell_values.parse_periods(quarters, 96), list(range(1, 97)))


if __name__ == "__main__":
    unittest.main()
