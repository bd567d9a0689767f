"""Cells of Excel workbooks that conditions, fonts or styles strike out, hide or change."""

import unittest

from support import TOP
from workbook_support import OrderOfWorkbook, row_of_order

from shared import drawn_workbooks as made
from lib.tables import order_table, table_files
from lib.whatif import changes


class Looks(OrderOfWorkbook):
    """Cells that Excel shows struck out, hidden or in another order."""

    def test_conditional_formats(self):
        """A condition may show a price as a percentage, or a name in another way; its colours change nothing."""
        condition = '<conditionalFormatting sqref="E2:E9"><cfRule type="expression" dxfId="{}"><formula>1</formula></cfRule></conditionalFormatting>'
        said = "^sheet 'orders': the cells 'E2:E9' have a conditional format with a number format: delete it$"
        formats = ("0%", "&quot;X&quot;@", "d.m", "0", "General")
        changed = "".join(f'<dxf><font/><numFmt numFmtId="{170 + at}" formatCode="{code}"/><fill/></dxf>' for at, code in enumerate(formats))
        styles = f'<styleSheet xmlns="{made.MAIN[0]}"><dxfs><dxf><font/></dxf>{changed}</dxfs></styleSheet>'
        for number, is_read in (("0", True), ("1", False), (" 02", False), ("3", False), ("4", False), ("5", True), ("9", True)):
            close = made.CLOSE.replace(b"</sheetData>", f"</sheetData>{condition.format(0)}{condition.format(number)}".encode())
            data = made.workbook_of_sheet(made.OPEN, row_of_order(2, "K1"), close, **{"xl/styles.xml": styles.encode()})
            with self.subTest(number):
                if is_read:
                    self.assertEqual(len(order_table.parse_tables([("", data)], 24).submits), 1)
                else:
                    with self.assertRaisesRegex(table_files.BadTable, said):
                        table_files.parse_rows_and_add_notes(data)
        for font, fault in (("<b/><strike/><sz/>", "a font that strikes out"), ("<i val='0'/><strike val='0'/><vertAlign val='baseline'/>", None)):
            styles = f'<styleSheet xmlns="{made.MAIN[0]}"><fonts><font/></fonts><dxfs><dxf><font>{font}</font><fill/></dxf></dxfs></styleSheet>'
            close = made.CLOSE.replace(b"</sheetData>", f"</sheetData>{condition.format(0)}".encode())
            data = made.workbook_of_sheet(made.OPEN, row_of_order(2, "K1"), close, **{"xl/styles.xml": styles.encode()})
            self.check_conditions(data, fault and f"with {fault}")
        for rule, fault in (
            ('<iconSet showValue="0"><cfvo/></iconSet>', "that hides numbers"), ('<dataBar showValue=" false "><cfvo/><color/></dataBar>', "that hides numbers"),
            ('<dataBar><cfvo/><cfvo/><color/></dataBar>', None), ('<iconSet iconSet="3Arrows" showValue="1"><cfvo/></iconSet>', None),
            ("<colorScale><cfvo/><color/></colorScale>", None),
        ):  # fmt: skip
            close = f'</sheetData><conditionalFormatting sqref="E2:E9"><cfRule>{rule}<extLst/></cfRule></conditionalFormatting>'
            self.check_conditions(made.workbook_of_sheet(made.OPEN, row_of_order(2, "K1"), made.CLOSE.replace(b"</sheetData>", close.encode())), fault)

    def test_conditional_formats_of_extensions(self):
        later = "http://schemas.microsoft.com/office/spreadsheetml/2009/9/main"
        for rule, kind in (
            ('<x:dxf><numFmt formatCode="0%"/></x:dxf>', "with a number format"),
            ("<x:dxf><font><b/><strike/></font></x:dxf>", "with a font that strikes out"),
            ('<x:iconSet showValue=" 0"><x:cfvo/></x:iconSet>', "that hides numbers"),
            ('<x:dataBar showValue="false"/>', "that hides numbers"),
            ('<x:dxf><font><b/><strike val="0"/></font></x:dxf>', None),
            ('<x:iconSet iconSet="3Stars"><x:cfvo/></x:iconSet><x:dataBar showValue="1"/>', None),
        ):
            formats = f'<x:conditionalFormatting xmlns:x="{later}"><x:cfRule>{rule}</x:cfRule></x:conditionalFormatting>'
            close = made.CLOSE.replace(b"</sheetData>", f"</sheetData><extLst><ext>{formats}</ext></extLst>".encode())
            self.check_order(made.workbook_of_sheet(made.OPEN, row_of_order(2, "K1"), close), kind and f"it has a conditional format {kind}: delete it")

    def test_colours_of_conditions(self):
        """A condition, or a style of a table, may give a text the colour of its own cell."""
        white, black = '<color rgb="FFFFFFFF"/>', '<bgColor theme="1"/>'
        font, fill = "<font>{}</font>", "<fill><patternFill><fgColor indexed='64'/>{}</patternFill></fill>"
        later = "http://schemas.microsoft.com/office/spreadsheetml/2009/9/main"
        said = "a font in the colour of its cells"
        for form, style, is_hidden in (
            (font.format(white), 0, True), (fill.format(black), 0, True), (font.format(white), 1, True), (font.format(white) + fill.format(black), 0, False),
            (font.format("") + fill.format(""), 0, False), (font.format("<color rgb='FF9C0006'/>") + fill.format("<bgColor rgb='FFFFC7CE'/>"), 0, False),
            (font.format("<color rgb='12345'/>"), 0, False), (font.format("<color theme='4'/>"), 1, True), (font.format("<color theme='4'/>"), 0, False),
            (fill.format("<bgColor indexed='12'/>"), 1, True), (fill.format("<bgColor indexed='12'/>"), 0, False), (font.format("<color indexed='3'/>"), 0, True),
            (font.format("<color rgb='FF203040'/>") + fill.format("<bgColor rgb='00203040'/>"), 0, True), ("<border><left>" + white + "</left></border>", 0, False),
        ):  # fmt: skip
            cells = "<fonts><font/><font><color indexed='12'/></font></fonts><fills><fill/><fill><patternFill patternType='solid'><fgColor theme='4'/></patternFill></fill></fills>"
            cells += "<cellXfs><xf/><xf fontId='1' fillId='1'/></cellXfs>"
            own = "<rgbColor rgb='00112233'/>" * 3 + "<rgbColor rgb='00FFFFFF'/>"
            own = f"<colors><indexedColors>{own}</indexedColors><mruColors>{white}</mruColors></colors>"
            table = '<tableStyles><tableStyle name="a"><tableStyleElement dxfId="0"/></tableStyle></tableStyles>'
            styles = f'<styleSheet xmlns="{made.MAIN[0]}">{cells}<dxfs><dxf>{form}</dxf></dxfs>{{}}{own}</styleSheet>'
            row = row_of_order(2, "K1").replace(b'r="E2"', b'r="E2" s="%d"' % style)
            conditions = '<conditionalFormatting sqref="E2:E9"><cfRule dxfId="0"/></conditionalFormatting>'
            extension = f'<x:conditionalFormatting xmlns:x="{later}"><x:cfRule><x:dxf>{form}</x:dxf></x:cfRule>{{}}</x:conditionalFormatting>'
            extension = f"<extLst><ext>{extension}</ext></extLst>"
            for part, after, fault in (
                ("", conditions, f"the cells 'E2:E9' have a conditional format with {said}: delete it"),
                ("", extension.format("<x:sqref>E2</x:sqref>"), f"it has a conditional format with {said}: delete it"),
                (table, "<tableParts><tablePart/></tableParts>", f"it has a table, and the workbook a style of tables with {said}: delete the style"),
                (table, "", None),
            ):
                close = made.CLOSE.replace(b"</sheetData>", f"</sheetData>{after}".encode())
                self.check_order(made.workbook_of_sheet(made.OPEN, row, close, **{made.STYLES: styles.format(part).encode()}), fault if is_hidden else None)

    def test_colours_with_numbers(self):
        """A workbook may have others than Excel has, in which a text may be hidden: one of a cell, or a part of one."""
        own = "<colors><indexedColors>" + "<rgbColor rgb='00FF0000'/>" * 10 + "<rgbColor rgb='00FFFFFF'/></indexedColors></colors>"
        for number, colours, is_hidden in (("10", own, True), (" 010", own, True), ("10", "", False), ("9", own, False), ("9", "", True), ("64", own, False)):
            font = f"<color indexed='{number}'/>"
            cells = f"<fonts><font/><font>{font}</font></fonts><cellXfs><xf/><xf fontId='1'/></cellXfs>{colours}"
            parts = {made.STYLES: f'<styleSheet xmlns="{made.MAIN[0]}">{cells}</styleSheet>'.encode()}
            parts[made.SHARED] = f'<sst xmlns="{made.MAIN[0]}"><si><r><rPr>{font}</rPr><t>8</t></r></si></sst>'.encode()
            for cell in ('<c s="1"><v>8</v></c>', '<c t="s"><v>0</v></c>', f'<c t="inlineStr"><is><r><rPr>{font}</rPr><t>8</t></r></is></c>'):
                with self.subTest(number, colours=colours, cell=cell):
                    fault = self.read(parts, E=cell)[1] or ""
                    self.assertEqual("hidden by the colour" in fault or "is a text with a format" in fault, is_hidden, fault)

    def test_styles_of_tables(self):
        """The fonts of a style of tables may strike the orders of a table out."""
        fault = "it has a table, and the workbook a style of tables that strikes out: delete the style"
        dxfs = '<dxfs><dxf><font/></dxf><dxf><font><strike/></font><numFmt formatCode="0%"/></dxf></dxfs>'
        for number, tables, said in (("1", "<tablePart/>", fault), ("0", "<tablePart/>", None), ("1", "", None)):
            style = f'<tableStyles><tableStyle name="a"><tableStyleElement dxfId="{number}"/></tableStyle></tableStyles>'
            styles = f'<styleSheet xmlns="{made.MAIN[0]}">{dxfs}{style}</styleSheet>'
            close = made.CLOSE.replace(b"</sheetData>", f"</sheetData><tableParts>{tables}</tableParts>".encode())
            self.check_order(made.workbook_of_sheet(made.OPEN, row_of_order(2, "K1"), close, **{"xl/styles.xml": styles.encode()}), said)

    def check_conditions(self, data, fault):
        """A workbook of one order, whose conditional format has a fault or none."""
        self.check_order(data, fault and f"the cells 'E2:E9' have a conditional format {fault}: delete it")

    def check_order(self, data, fault):
        """A workbook of one order, whose sheet has a fault or none."""
        with self.subTest(fault):
            if fault:
                with self.assertRaisesRegex(table_files.BadTable, f"^sheet 'orders': {fault}$"):
                    table_files.parse_rows_and_add_notes(data)
            else:
                self.assertEqual(len(order_table.parse_tables([("", data)], 24).submits), 1)

    def test_struck_out_cells(self):
        """Who strikes an order out doesn't want it any more."""
        fonts = "<fonts><font/><font><b/><strike/><sz val='11'/></font><font><strike val='0'/><vertAlign val='superscript'/></font></fonts>"
        cells = "<cellXfs><xf/><xf fontId='1'/><xf fontId='2'/></cellXfs>"
        parts = {"xl/styles.xml": f'<styleSheet xmlns="{made.MAIN[0]}">{fonts}{cells}</styleSheet>'.encode()}
        parts[made.SHARED] = f'<sst xmlns="{made.MAIN[0]}"><si><t>8</t></si></sst>'.encode()
        for letter, name in self.COLUMNS.items():
            for cell in (
                '<c s="{}"><v>8</v></c>', '<c s="{}" t="s"><v>0</v></c>', '<c s="{}" t="str"><v>8</v></c>',
                '<c s="{}" t="inlineStr"><is><t>8</t></is></c>',
            ):  # fmt: skip
                _, said = self.read(parts, **{letter: cell.format(1)})
                fault = f"line 2, column {name}: '8' is struck out: remove its row, or clear its formats"
                self.assertEqual(said, None if name == "note" else fault)
                for style in (0, 2):
                    _, said = self.read(parts, **{letter: cell.format(style)})
                    self.assertNotIn("struck out", said or "", cell)

        heads = made.OPEN.replace(b"<c t='inlineStr'><is><t>group<", b"<c s='1' t='inlineStr'><is><t>group<")
        said = "(?m)^line 1, column 9: 'group' is struck out: remove its row, or clear its formats$"
        with self.assertRaisesRegex(order_table.BadOrders, said):
            order_table.parse_tables([("", made.workbook_of_sheet(heads, row_of_order(2, "K1"), made.CLOSE, **parts))], 24)

    def test_cells_that_a_font_hides(self):
        """White on white, and the like, symbols in place of letters, or a size that can't be read: as white digits of a format."""
        fills = "".join(f"<fill>{fill}</fill>" for fill in (
            "<patternFill patternType='none'/>", "<patternFill patternType='gray125'/>", "<patternFill patternType='solid'><fgColor rgb='FF203040'/><bgColor indexed='64'/></patternFill>",
            "<patternFill patternType='solid'><fgColor theme='0'/></patternFill>", "<gradientFill><stop><color rgb='FFFFFFFF'/></stop></gradientFill>",
            "<patternFill patternType='solid'><fgColor theme='1'/></patternFill>", "<patternFill/>", "<patternFill patternType='solid'><fgColor theme='4' tint='0.4'/></patternFill>",
        ))  # fmt: skip
        white = "<color rgb='FFFFFFFF'/>"
        for font, fill, is_hidden in (
            (white, 0, True), (white, 3, True), (white, 6, True), (white, 1, False), (white, 2, False), (white, 4, False), (white, 5, False), (white, 9, True),
            ("<color rgb='FEFDF0'/>", 0, True), ("<color theme='0'/>", 0, True), ("<color theme='0' tint='-0.0499'/>", 0, True), ("<color indexed='9'/>", 0, True),
            ("<color theme=' 0 ' tint='-0.35'/>", 0, False), ("<color rgb='FFEF00FF'/>", 0, False), ("<color theme='1'/>", 0, False), ("<color auto='1'/>", 0, False),
            ("<color indexed='8'/>", 0, False), ("<color theme='1'/>", 5, True), ("", 5, True), ("<color rgb='00203040'/>", 2, True), ("", 2, False),
            ("<color theme='4' tint='0.4'/>", 7, True), ("<color theme='4'/>", 7, False), ("<color theme='1' tint='0.99'/>", 0, True),
            ("<sz val='1'/>", 0, True), ("<sz val='3.5'/>", 0, True), ("<sz val='4'/>", 0, False), ("<sz val='x'/>", 0, False), ("<sz val='8'/>", 2, False),
            ("<name val='Wingdings'/>", 0, True), ("<sz val='11'/><name val=' SYMBOL '/>", 0, True), ("<name val='Calibri'/><charset val='2'/>", 0, True),
            ("<name val='Calibri'/><family val='2'/><charset val='0'/>", 0, False),
        ):  # fmt: skip
            parts = f"<fonts><font/><font>{font}</font></fonts><fills>{fills}</fills><cellXfs><xf/><xf fontId='1' fillId='{fill}'/></cellXfs>"
            parts = {made.STYLES: f'<styleSheet xmlns="{made.MAIN[0]}">{parts}</styleSheet>'.encode()}
            parts[made.SHARED] = f'<sst xmlns="{made.MAIN[0]}"><si><t>8</t></si></sst>'.encode()
            for letter, name in (("B", "order"), ("E", "price_eur_mwh"), ("F", "periods"), ("I", "group"), ("J", "note")):
                for kind in ("", ' t="s"', ' t="str"'):
                    value = 0 if "t=\"s\"" in kind else 8
                    _, said = self.read(parts, **{letter: f'<c s="1"{kind}><v>{value}</v></c>'})
                    fault = f"line 2, column {name}: '8' is hidden by the colour, the size or the symbols of its font: clear its formats"
                    with self.subTest(font, fill=fill, kind=kind, letter=letter):
                        self.assertEqual(said, fault if is_hidden and letter != "J" else None)
        heads = made.OPEN.replace(b"<c t='inlineStr'><is><t>group<", b"<c s='1' t='inlineStr'><is><t>group<")
        parts[made.STYLES] = parts[made.STYLES].replace(b"<name val='Calibri'/>", b"<name val='Wingdings'/>")
        with self.assertRaisesRegex(order_table.BadOrders, "^line 1, column 9: 'group' is hidden by the colour"):
            order_table.parse_tables([("", made.workbook_of_sheet(heads, row_of_order(2, "K1"), made.CLOSE, **parts))], 24)
        for form, things in (("<fonts>{}</fonts>", "fonts"), ("<fills>{}</fills>", "fills")):
            many = f'<styleSheet xmlns="{made.MAIN[0]}">{form.format(f"<{things[:-1]}/>" * 20_001)}</styleSheet>'
            with self.assertRaisesRegex(order_table.BadOrders, "it has more than 20,000 fonts, fills, "):
                order_table.parse_tables([("", made.workbook_of_sheet(made.OPEN, row_of_order(2, "K1"), made.CLOSE, **{made.STYLES: many.encode()}))], 24)

    def test_cells_that_are_shown_from_right_to_left(self):
        """Excel shows 10;20 as 20;10 then, but not if only the columns of the sheet go from right to left."""
        cells = "".join(f"<xf>{'' if number is None else f'<alignment readingOrder={number}/>'}</xf>" for number in (None, '"0"', '"1"', '"2"', '" 02"'))
        styles = f'<styleSheet xmlns="{made.MAIN[0]}"><cellXfs>{cells}</cellXfs></styleSheet>'.encode()
        fault = "line 2, column {}: '{}' is shown from right to left: give its cell the text direction Left-to-Right"
        for letter, words, changes in (
            ("G", "10;20", True), ("F", "8;9", True), ("F", "8-9", True), ("F", "8\u20139", True), ("F", "07:00-09:00", True), ("E", "-5", True),
            ("E", "1 2", True), ("B", "8-A", True), ("B", "-A", True), ("B", "A-", True), ("I", "8-20", True), ("E", "5-", True), ("E", "1.2.3", True),
            ("B", "K1", False), ("B", "WIND-8", False), ("B", "8A", False), ("B", "7", False), ("C", "block", False), ("E", "12.5", False),
            ("E", "12,50", False), ("F", "8", False), ("G", "5.5", False), ("H", "", False), ("J", "1;2", False), ("G", " 5 ", False),
        ):  # fmt: skip
            parts = {"xl/styles.xml": styles, made.SHARED: f'<sst xmlns="{made.MAIN[0]}"><si><t>{words}</t></si></sst>'.encode()}
            for style in range(5):
                for kind, content in (("str", f"<v>{words}</v>"), ("inlineStr", f"<is><t>{words}</t></is>"), ("s", "<v>0</v>")):
                    _, said = self.read(parts, **{letter: f'<c s="{style}" t="{kind}">{content}</c>'})
                    with self.subTest(words, style=style, kind=kind):
                        if changes and style > 2:
                            self.assertEqual(said, fault.format(self.COLUMNS[letter], words))
                        else:
                            self.assertNotIn("from right to left", said or "")
                            self.assertTrue(changes or said is None, said)
        for style in range(5):
            for number in ("-5", "-0.5", "5", "0", "12.5"):
                found, said = self.read({"xl/styles.xml": styles}, E=f'<c s="{style}"><v>{number}</v></c>')
                changes = number[0] == "-" and style > 2
                self.assertEqual((said, found is None), (fault.format("price_eur_mwh", number) if changes else None, changes))
        view = b"<sheetViews><sheetView rightToLeft='1'/></sheetViews><sheetData>"
        lists = row_of_order(2, "K1").replace(b"<v>8</v>", b"<v>8;9</v>").replace(b"<v>5</v>", b"<v>10;20</v>")
        data = made.workbook_of_sheet(made.OPEN.replace(b"<sheetData>", view), lists, made.CLOSE)
        self.assertEqual(order_table.parse_tables([("", data)], 24).submits[0][1].order.volumes, ((8, 100), (9, 200)))

    def test_hidden_rows_and_columns(self):
        """They are read as the others."""
        heads = made.OPEN.replace(b"<sheetData>", b'<cols><col min="9" max="9" width="0" hidden="1" customWidth="1"/></cols><sheetData>')
        hidden = row_of_order(3, "K2", ("I3", "G1")).replace(b"<row ", b'<row hidden="1" ')
        orders = order_table.parse_tables([("", made.workbook_of_sheet(heads, row_of_order(2, "K1", ("I2", "G1")), hidden, made.CLOSE))], 24)
        self.assertEqual([(submit.name, submit.order.group) for _, submit in orders.submits], [("K1", "G1"), ("K2", "G1")])
        self.assertIn("hidden rows and columns too", " ".join((TOP / "docs" / "TABLES.md").read_text().split()))

    def test_parts_of_texts_with_fonts(self):
        """A part may be struck out, or a number have the mark of a note, which would be read as its last digit."""
        for font, is_read in (
            ("<strike/>", False), ("<b/><strike val='1'/><vertAlign val='baseline'/>", False), ("<vertAlign val='superscript'/><sz val='8'/>", False),
            ("<vertAlign val='subscript'/><strike val='false'/>", False), ("<rFont/><strike val='0'/><u/>", True), ("<vertAlign val='baseline'/>", True),
            ("<color rgb='FFFFFFFF'/>", False), ("<sz val='1'/>", False), ("<rFont val='Wingdings 2'/>", False), ("<charset val='2'/>", False),
            ("<b/><color theme='1'/><sz val='11'/><rFont val='Arial'/><family val='2'/><charset val='1'/>", True),
        ):  # fmt: skip
            runs = f"<r><t>9</t></r><r><rPr>{font}</rPr><t>2</t></r>"
            parts = {made.SHARED: f'<sst xmlns="{made.MAIN[0]}"><si>{runs}</si><si><t>92</t></si></sst>'.encode()}
            for cell in ('<c t="s"><v>0</v></c>', f'<c t="inlineStr"><is>{runs}</is></c>'):
                found, said = self.read(parts, E=cell, I='<c t="s"><v>1</v></c>')
                fault = "line 2, column price_eur_mwh: '92' is a text with a format: clear its formats"
                self.assertEqual((found and found.order.price, said), (9_200, None) if is_read else (None, fault), font)


if __name__ == "__main__":
    unittest.main()
