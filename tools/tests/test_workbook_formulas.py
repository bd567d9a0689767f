"""Formulas of Excel workbooks: those that were saved without their values, and those whose values change by themselves."""

import time
import unittest
from unittest import mock

from workbook_support import OrderOfWorkbook, row_of_order, workbook_of_rows

from shared import drawn_workbooks as made
from lib.tables import order_table, table_files
from lib.workbooks import formulas, limits, package, sheet as sheet_module, workbook


class Formulas(OrderOfWorkbook):
    """Cells that Excel computes in another way than they are stored."""

    def computed(self, attributes):
        """The list of sheets, with what it says of formulas."""
        sheets = '<sheets><sheet name="orders" r:id="r1"/></sheets>'
        return {"xl/workbook.xml": f'<workbook xmlns="{made.MAIN[0]}" xmlns:r="{made.OFFICE[0]}">{sheets}<calcPr {attributes}/></workbook>'.encode()}

    def test_a_formula_without_its_value(self):
        """It is no empty cell. A program that doesn't compute formulas may store any values, and says so of the whole workbook."""
        for letter, name in self.COLUMNS.items():
            said = f"line 2, column {name}: '=A1' is a formula that was saved without its value: open the workbook in Excel, and save it"
            for cell, attributes in (
                ("<c><f>A1</f></c>", ""),
                ("<c><f>A1</f><v/></c>", 'calcId="1"'),
                ("<c><f>A1</f><v>0</v></c>", 'fullCalcOnLoad="1"'),
                ("<c t='str'><f>A1</f><v></v></c>", 'fullCalcOnLoad="true"'),
                ("<c t='s'><f>A1</f><v>0</v></c>", 'calcCompleted="0"'),
                ("<c><f>A1</f><v>0</v></c>", 'fullCalcOnLoad="&#9;1 "'),
                ("<c><f>A1</f><v>0</v></c>", 'calcCompleted=" false"'),
            ):
                found, fault = self.read(self.computed(attributes), **{letter: cell})
                self.assertEqual((fault, found is None), (said, True) if name != "note" else (None, False), cell)
        for attributes in ("", 'calcCompleted="1"', 'fullCalcOnLoad="0"'):
            found, _ = self.read(self.computed(attributes), I="<c t='str'><f>A1</f><v>G</v></c>", H="<c t='str'><f>A1</f><v></v></c>")
            self.assertEqual((found.order.group, found.order.parent), ("G", ""))

    def test_an_array_formula_without_the_values_of_its_other_cells(self):
        """A program that doesn't compute formulas writes its first cell alone: groups, or whole orders, would be lost."""
        cell = lambda place, formula="", value="<v>G1</v>": (f'<c r="{place}" t="str">{formula}{value}</c>').encode()
        line = lambda number, name, *cells: row_of_order(number, name).replace(b"</row>", b"".join(cells) + b"</row>")
        formula = '<f t="{}" ref="{}">X2:X4</f>'.format
        said = "the formula that fills it was saved without its value here: open the workbook in Excel, and save it"
        whole = [cell("I3"), cell("I4", value="<v></v>")]
        for kind in ("array", "dataTable"):
            for ref, others, place in (
                ("I2:I4", [b"", b""], "I3"), ("I2:I4", [cell("I3"), b""], "I4"), ("I2:I4", [cell("I3", value=""), cell("I4")], "I3"),
                ("I2:I5", whole, "I5"), ("I2:J2", whole, "J2"), ("I2:J2", [], "J2"), ("I2:I4", [], "I3"), ("$I$2:$I$1048576", whole, "I5"),
            ):  # fmt: skip
                rows = [line(2, "K2", cell("I2", formula(kind, ref))), *(line(at, f"K{at}", each) for at, each in enumerate(others, 3))]
                with self.subTest(ref, kind=kind), self.assertRaises(order_table.BadOrders) as caught:
                    order_table.parse_tables([("", workbook_of_rows(*rows))], 24)
                self.assertEqual(str(caught.exception), f"sheet 'orders', cell {place}: {said}")
            for ref in ("I2:I4", "$I$2:$I$4", "I2", "I2:I2"):
                rows = [line(2, "K2", cell("I2", formula(kind, ref))), *(line(at, f"K{at}", each) for at, each in enumerate(whole, 3))]
                found = order_table.parse_tables([("", workbook_of_rows(*rows))], 24).submits
                self.assertEqual([submit.order.group for _, submit in found], ["G1", "G1", ""])
            for ref, words in (("I3:I4", "its formula has the range 'I3:I4', which should begin at this cell"), ("x", "its formula has the range 'x'")):
                with self.assertRaisesRegex(order_table.BadOrders, f"cell I2: {words}"):
                    order_table.parse_tables([("", workbook_of_rows(line(2, "K2", cell("I2", formula(kind, ref)))))], 24)
            rows = [line(2, "K2", cell("I2", formula(kind, "I2:I4"))), line(3, "K3", cell("I3", formula(kind, "I3:I4"))), line(4, "K4", cell("I4"))]
            with self.assertRaisesRegex(order_table.BadOrders, "cell I3: two formulas have it in their ranges"):
                order_table.parse_tables([("", workbook_of_rows(*rows))], 24)

    def test_values_of_formulas_as_saved(self):
        """Excel computes all formulas again if an older one saved their values, or a program that it doesn't know: a note says so."""
        price = b'<c r="E2" t="str"><v>1</v></c>'
        said = "the values of formulas, such as that of cell E2, are as saved by another program or an older Excel: Excel computes them again"
        for attributes, is_current in (
            ("", False), ('calcId="1"', False), ('calcId="152511"', False), ('calcId="x"', False), ('calcId="191028"', True), ('calcId=" 191029"', True),
            (None, False),
        ):  # fmt: skip
            parts = self.computed(attributes or "")
            if attributes is None:
                parts["xl/workbook.xml"] = parts["xl/workbook.xml"].replace(b"<calcPr />", b"")
            for cell in (b'<c r="E2"><f>5*4</f><v>20</v></c>', b'<c r="E2" t="str"><f>A1</f><v>20</v></c>', price):
                rows = row_of_order(2, "K1").replace(price, cell), row_of_order(3, "K2")
                orders = order_table.parse_tables([("", made.workbook_of_sheet(made.OPEN, *rows, made.CLOSE, **parts))], 24)
                notes = [] if is_current or cell is price else [f"{said} once it opens the workbook"]
                self.assertEqual((len(orders.submits), orders.notes), (2, notes), (attributes, cell))

    def test_volatile_formulas(self):
        """Excel computes them again when it opens the workbook, and shows another value than was saved."""
        said = "line 2, column price_eur_mwh: '={}' is a formula whose value changes whenever Excel opens the workbook: write the value in place of it"
        for formula, attributes, is_volatile in (
            ("10+2", ' ca="1"', True), ("10+2", ' ca=" true"', True), ("10+2", ' ca="0"', False), ("10+2", "", False),
            ("NOW()", "", True), ("2*today ()", "", True), ("-RAND()", "", True), ("ROUND(RANDBETWEEN(1,9),2)", "", True), ("OFFSET(A1,1,1)", "", True),
            ("'a'!B1+INDIRECT('b'!A1)", "", True), ("_xlfn.RANDARRAY(1)", "", True), ('IF(CELL("row")=2,1,2)', "", True), ("A1+INFO(B1)", "", True),
            ("'NOW()'!A1", "", False), ('LEN("RAND()")', "", False), ("MYNOW()", "", False), ("TODAYS(1)", "", False), ("NOW+RAND", "", False),
            ("ROUND(A1,2)", "", False), ("RTD(A1,,B1)", "", True), ("'a\"b'!A1+NOW()+'c\"d'!A1", "", True), ("'a\"b'!A1=\"NOW()\"", "", False),
            ("'it''s'!A1+NOW()", "", True), ("'NOW()''s \"'!A1", "", False), ("T[O'#1]+RAND()+'a'!A1", "", True), ("T[[#All],[NOW()]]", "", False),
            ("\"it's\"=NOW()=\"it's\"", "", True), ("\"a\"\"NOW()\"='b'!A1", "", False), ("[1]a!B1*NOW()", "", True), ("T['[]+NOW()", "", True),
        ):  # fmt: skip
            for cell in (f"<c><f{attributes}>{formula}</f><v>12</v></c>", f'<c t="str"><f{attributes}>{formula}</f><v>12</v></c>'):
                found, fault = self.read(E=cell)
                self.assertEqual((fault, found is None), (said.format(formula), True) if is_volatile else (None, False), cell)
                self.assertIsNone(self.read(J=cell)[1])
        found, _ = self.read(self.computed('calcId="1"'), E="<c><f>10+2</f><v>12</v></c>")
        self.assertEqual(found.order.price, 1_200)

    def test_cells_on_which_formulas_may_depend(self):
        """A volatile formula of the sheet, or of one that a formula or a name refers to, is in a note if other formulas may depend on it."""
        rows = [row_of_order(2, "K1").replace(b'<c r="E2" t="str"><v>1</v>', b'<c r="E2"><f>%s</f><v>1</v>'), row_of_order(3, "K2").replace(b"</row>", b"%s</row>")]
        params = f'<worksheet xmlns="{made.MAIN[0]}"><sheetData><row><c><f>%s</f><v>6</v></c></row></sheetData></worksheet>'
        relations = f'<Relationships xmlns="{workbook.PACKAGING[0]}">' + "".join(
            f'<Relationship Id="r{at}" Type="{made.OFFICE[0]}/worksheet" Target="worksheets/sheet{at}.xml"/>' for at in (1, 2)) + "</Relationships>"
        today = b'<c r="J3"><f>TODAY()</f><v>5</v></c>'
        said = "the values of formulas may depend on {}, which changes whenever Excel opens the workbook"
        for formula, later, other, names, place in (
            (b"J3*2", today, "1+1", "", "cell J3"), (b"J3*2", b"", "RAND()", "", None), (b"params!A1*2", b"", "3*randbetween (1,9)", "", "the sheet 'params'"),
            (b"params!A1*2", b"", "1+1", "", None), (b"Table9[[#This Row],[p]]", b"", "RAND()", "", "the sheet 'params'"), (b"P", b"", "RAND()", "<definedNames><definedName name='P'>params!A1</definedName></definedNames>", "the sheet 'params'"),
        ):  # fmt: skip
            sheets = '<sheets><sheet name="orders" r:id="r1"/><sheet name="params" r:id="r2"/></sheets>'
            listed = f'<workbook xmlns="{made.MAIN[0]}" xmlns:r="{made.OFFICE[0]}">{sheets}{names}<calcPr calcId="191029"/></workbook>'
            parts = {"xl/workbook.xml": listed.encode(), "xl/_rels/workbook.xml.rels": relations.encode(), "xl/worksheets/sheet2.xml": (params % other).encode()}
            heads = made.OPEN.replace(b"</row>", b"<c t='inlineStr'><is><t>note</t></is></c></row>")
            data = made.workbook_of_sheet(heads, rows[0] % formula, rows[1] % later, made.CLOSE, **parts)
            found = [note for note in order_table.parse_tables([("", data)], 24).notes if "may depend" in note]
            self.assertEqual(found, [said.format(place)] if place else [], (formula, other))

    def test_a_match_across_parts_that_are_read_at_once(self):
        data = made.archive_bytes({"a": b" " * (limits.CHUNK - 3) + b"TODAY()"})
        self.assertTrue(package.Package(data).read_and_see_match("A", formulas.IN_BYTES))
        self.assertFalse(package.Package(data).read_and_see_match("b", formulas.IN_BYTES))

    def test_brackets_that_are_not_closed(self):
        """Excel writes none. The rest of the formula is read once, and counts as it is."""
        for first, again, last in (("", "['", ""), ("[", "'[", ""), ("[", "'[", "[[[")):
            began = time.process_time()
            self.assertTrue(formulas.has_volatile_function(f"NOW(){first}{again * 30_000}{last}"))
            self.assertLess(time.process_time() - began, 2)
        for formula, is_volatile in (("[NOW()", True), ("[[[NOW()]]]", True), ("[a+'NOW()'!A1", True), ("'NOW()'!A1+[a", False), ("[NOW()]+[a", False)):
            self.assertEqual(formulas.has_volatile_function(formula), is_volatile, formula)

    def defined(self, **formulas):
        """The list of sheets, with names of formulas."""
        names = "".join(f'<definedName name="{name.rstrip("_")}">{formula}</definedName>' for name, formula in formulas.items())
        return {"xl/workbook.xml": self.computed("")["xl/workbook.xml"].replace(b"<calcPr", f"<definedNames>{names}</definedNames><calcPr".encode())}

    def test_names_of_volatile_formulas(self):
        """A formula may have the name of a volatile one, also by other names."""
        names = self.defined(Now="NOW()", of="A1*2", by="2*then", then="of+nOw", local="A1", local_="RAND()", it="it+1", quoted='"NOW"')
        for formula, is_volatile in (
            ("Now", True), ("2*NOW", True), ("by+1", True), ("THEN", True), ("a!then", True), ("local", True), ("of", False), ("it", False),
            ('"now"', False), ("'now'!A1", False), ("T[now]", False), ("now2+a.now", False), ("quoted", False),
        ):  # fmt: skip
            said = f"line 2, column price_eur_mwh: '={formula}' is a formula whose value changes whenever Excel opens the workbook"
            found, fault = self.read(names, E=f"<c><f>{formula}</f><v>12</v></c>")
            with self.subTest(formula):
                self.assertEqual(((fault or "").split(": write")[0], found is None), (said.replace("'='", "'=\\'"), True) if is_volatile else ("", False))
        for count, length, said in ((20_001, 1, "20,000 names of formulas"), (70, 30_000, "2,097,152 characters in its names of formulas")):
            names = self.defined(**{f"n{at}": "1" * length for at in range(count)})
            self.assertEqual(self.read(names)[1], f"line 1: the Excel workbook can't be read: it has more than {said}")
        chain = self.defined(**{f"n{at}": f"n{at + 1}" for at in range(9_999)}, n9999="RAND()")
        self.assertIn("is a formula whose value changes", self.read(chain, E="<c><f>n0</f><v>12</v></c>")[1])

    def test_formulas_are_limited(self):
        cells = b"<row>" + b"<c><f>%s</f><v>1</v></c>" % (b"1+" * 16_000) * 100 + b"</row>"
        with self.assertRaisesRegex(table_files.BadTable, "^sheet 'orders', cell Y7: the sheet has more than 16,777,216 characters in its formulas up to"):
            table_files.parse_rows_and_add_notes(made.workbook_of_sheet(made.OPEN, *[cells] * 11, made.CLOSE))

    def test_formulas_of_first_rows_are_limited_in_all_sheets_together(self):
        """Of the sheets that aren't read, only the formulas of the first rows are looked at."""
        count, cell = 5, "<c><f>" + '"NOW("' + ",A+A+A" * 2_500 + "</f><v>1</v></c>"
        sheet = f'<worksheet xmlns="{made.MAIN[0]}"><sheetData>{f"<row>{cell * 60}</row>" * 9}</sheetData></worksheet>'.encode()
        names = ["first", *(f"s{at}" for at in range(2, count + 2))]
        relations = "".join(f'<Relationship Id="r{at}" Type="{made.OFFICE[0]}/worksheet" Target="worksheets/sheet{at}.xml"/>' for at in range(1, count + 2))
        listed = "".join(f'<sheet name="{name}" r:id="r{at}"/>' for at, name in enumerate(names, 1))
        parts = {f"xl/worksheets/sheet{at}.xml": sheet for at in range(2, count + 2)}
        parts["xl/workbook.xml"] = (
            f'<workbook xmlns="{made.MAIN[0]}" xmlns:r="{made.OFFICE[0]}"><sheets>{listed}</sheets>'
            '<definedNames><definedName name="VOL">NOW()</definedName></definedNames><calcPr calcId="191029"/></workbook>'
        ).encode()
        parts["xl/_rels/workbook.xml.rels"] = f'<Relationships xmlns="{workbook.PACKAGING[0]}">{relations}</Relationships>'.encode()
        data = made.workbook_of_sheet(made.OPEN, row_of_order(2, "K1"), made.CLOSE, **parts)
        sizes = []
        with mock.patch.object(sheet_module.Sheet, "note_volatile", lambda self, formula: sizes.append(len(formula))):
            self.assertEqual(len(order_table.parse_tables([("", data)], 24).submits), 1)
        self.assertLessEqual(sum(sizes), limits.MOST_OF_FORMULAS)
        self.assertGreater(sum(sizes) + len(cell), limits.MOST_OF_FORMULAS)

    def test_volatile_formulas_that_cells_share(self):
        """Only the first of them, here in a column that isn't used, has the text."""
        price = b'<c r="E3" t="str"><v>1</v></c>'
        for formula, other, is_volatile in (("RAND()", 1, True), ("RAND()", 2, False), ("A1", 1, False)):
            first = f'<c r="J2"><f t="shared" ref="J2:J9" si="1">{formula}</f><v>5</v></c></row>'.encode()
            same = f'<c r="E3"><f t="shared" si="{other}"/><v>1</v></c>'.encode()
            data = made.workbook_of_sheet(self.HEADS, row_of_order(2, "K1").replace(b"</row>", first), row_of_order(3, "K2").replace(price, same), made.CLOSE)
            with self.subTest(formula, other=other):
                if is_volatile:
                    with self.assertRaisesRegex(order_table.BadOrders, "^line 3, column price_eur_mwh: '=' is a formula whose value changes"):
                        order_table.parse_tables([("", data)], 24)
                else:
                    self.assertEqual(len(order_table.parse_tables([("", data)], 24).submits), 2)

    def test_a_sheet_without_its_values(self):
        """It says so after its cells, of which none may then have a formula."""
        price = b'<c r="E2" t="str"><v>1</v></c>'
        for cell, due, refused in (
            (b'<c r="E2"><f>5*4</f><v>0.1</v></c>', b' fullCalcOnLoad="1"', True),
            (b'<c r="E2" t="str"><f>5*4</f><v></v></c>', b' fullCalcOnLoad="true"', True),
            (b'<c r="E2"><f>5*4</f><v>0.1</v></c>', b' fullCalcOnLoad=" 1 "', True),
            (price, b' fullCalcOnLoad="1"', False),
            (b'<c r="E2"><f>5*4</f><v>0.1</v></c>', b"", False),
        ):
            close = made.CLOSE.replace(b"</sheetData>", b"</sheetData><sheetCalcPr%s/>" % due)
            data = made.workbook_of_sheet(made.OPEN, row_of_order(2, "K1").replace(price, cell), row_of_order(3, "K2"), close)
            with self.subTest(cell, due=due):
                if refused:
                    said = "^sheet 'orders', cell E2: its formula was saved without its value: open the workbook in Excel, and save it$"
                    with self.assertRaisesRegex(table_files.BadTable, said):
                        table_files.parse_rows_and_add_notes(data)
                else:
                    self.assertEqual(len(order_table.parse_tables([("", data)], 24).submits), 2)

    def test_a_heading_without_its_value(self):
        heads = made.OPEN.replace(b"<is><t>group</t></is>", b"<f>A1</f>").replace(b"<c t='inlineStr'><f>", b"<c><f>")
        with self.assertRaisesRegex(order_table.BadOrders, "^line 1, column 9: '=A1' is a formula that was saved without its value"):
            order_table.parse_tables([("", made.workbook_of_sheet(heads, row_of_order(2, "K1"), made.CLOSE))], 24)

    def test_a_zero_of_a_formula_is_no_name(self):
        """A link to an empty cell has the value 0, so that each block with such a group would be in the group 0."""
        said = "'0' is the number of a formula, as it is if it links to an empty cell: write a text, or clear the cell"
        for value, is_zero in (("0", True), ("-0.0", True), ("7", False)):
            cell = f"<c><f>Other!A9</f><v>{value}</v></c>"
            for letter in "ABHI":
                name = self.COLUMNS[letter]
                fault = self.read(**{letter: cell})[1]
                self.assertEqual(fault == f"line 2, column {name}: {said}", is_zero, (value, fault))
            self.assertIsNone(self.read(J=cell)[1])
        self.assertEqual(self.read(E="<c><f>A1-A1</f><v>0</v></c>")[0].order.price, 0)
        self.assertEqual(self.read(I="<c><v>0</v></c>")[0].order.group, "0")
        self.assertEqual(self.read(I="<c t='str'><f>A1</f><v>0</v></c>")[0].order.group, "0")


if __name__ == "__main__":
    unittest.main()
