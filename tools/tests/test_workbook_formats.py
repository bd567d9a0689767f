"""Formats of Excel workbooks: numbers that Excel shows in another way than they are stored."""

import re
import time
import unittest

from workbook_support import OrderOfWorkbook, row_of_cells, row_of_order, styles_without_formats

from shared import drawn_workbooks as made
from lib.tables import command_table, order_table, table_files
from lib.workbooks import number_formats
from lib.workbooks.cells import Changed, Formatted, Rounded


class Formats(OrderOfWorkbook):
    """Cells that Excel shows in another way than they are stored."""

    PERCENTAGE = "'{}' is a number that Excel shows as a percentage: give its cell the format General"

    def test_a_heading_and_a_command_with_a_format(self):
        """Excel may show the price's column with the name of the volumes, and a cancel as an amend."""
        styles = '<numFmts><numFmt numFmtId="164" formatCode=";;;&quot;volume_mw&quot;"/></numFmts><cellXfs><xf/><xf numFmtId="164"/></cellXfs>'
        parts = {"xl/styles.xml": f'<styleSheet xmlns="{made.MAIN[0]}">{styles}</styleSheet>'.encode()}
        heading = b"<c t='inlineStr'><is><t>price_eur_mwh</t></is></c>"
        heads = made.OPEN.replace(heading, heading.replace(b"<c ", b"<c s='1' "))
        self.assertNotEqual(heads, made.OPEN)
        said = "(?m)^line 1, column 5: 'price_eur_mwh' is a text with a format: clear its formats$"
        with self.assertRaisesRegex(order_table.BadOrders, said):
            order_table.parse_tables([("", made.workbook_of_sheet(heads, row_of_order(2, "K1"), made.CLOSE, **parts))], 24)
        heads = b"<worksheet xmlns='%s'><sheetData>" % made.MAIN[0].encode() + row_of_cells(1, ("A1", "participant"), ("B1", "order"), ("C1", "what"))
        cancel = row_of_cells(2, ("A2", "A"), ("B2", "K1"), ("C2", "cancel"))
        for cell, fault in ((b'<c r="C2" t', None), (b'<c r="C2" s="1" t', "'cancel' is a text with a format: clear its formats")):
            found = order_table.parse_cells(made.workbook_of_sheet(heads, cancel.replace(b'<c r="C2" t', cell), made.CLOSE, **parts))
            if fault:
                with self.assertRaisesRegex(order_table.BadOrders, f"^line 2, column what: {fault}$"):
                    command_table.parse_commands_and_notes(found, 24)
            else:
                self.assertEqual(len(list(command_table.parse_commands_and_notes(found, 24)[0])), 1)

    def test_names_that_excel_shows_in_another_way(self):
        """A name such as 8-20 becomes a date, 007 may be a 7 with a format, and TRUE is another word in another language."""
        texts = {letter: name for letter, name in self.COLUMNS.items() if name in order_table.NAMES}
        codes = ("General", "0", " @", "000", "0.00", "d.m")
        codes = "".join(f'<numFmt numFmtId="{164 + at}" formatCode="{code}"/>' for at, code in enumerate(codes))
        numbers = [0, 1, 49, 164, 165, 166, 2, 10, 167, 168, 14, 20, 169]
        formats = "".join(f'<xf numFmtId="{number}"/>' for number in numbers)
        formats = f'<styleSheet xmlns="{made.MAIN[0]}"><numFmts>{codes}</numFmts><cellXfs>{formats}</cellXfs></styleSheet>'
        styles = {"xl/styles.xml": formats.encode()}
        for letter, name in texts.items():
            for style, number in enumerate(numbers):
                found, fault = self.read(styles, **{letter: f'<c s="{style}"><v>7</v></c>'})
                if number in numbers[:6] and name != "participant" and name != "parent":
                    self.assertIn("7", (found.name, found.order.group), number)
                elif number not in numbers[:6]:
                    shown, kind = ("1900-01-07", "a date or a time") if number in numbers[-3:] else ("7", "a number with a format")
                    said = f"'{shown}' is {kind}: make the cell one of text"
                    self.assertEqual(fault, f"line 2, column {name}: {said if number != 10 else self.PERCENTAGE.format(7)}", number)
            for cell, shown, kind in (
                ("<c t='b'><v>1</v></c>", "TRUE", "a truth value"),
                ("<c t='d'><v>2026-08-20T06:00:00</v></c>", "2026-08-20", "a date or a time"),
            ):
                _, fault = self.read(styles, **{letter: cell})
                self.assertEqual(fault, f"line 2, column {name}: '{shown}' is {kind}: make the cell one of text")
        found, _ = self.read(styles, E='<c s="6"><v>7</v></c>', F='<c s="8"><v>7</v></c>')  # a number is what it is
        self.assertEqual((found.order.price, found.order.volumes), (700, ((7, 50),)))

    def test_percentages(self):
        """Excel shows a price of 0.95 as 95%, so either may be meant."""
        codes = "0%", "[Red]0.0%;-0.0%", "# %", "0 [$%]", "[$%-409]0", "0.00_%"
        formats = "".join(f'<numFmt numFmtId="{164 + at}" formatCode="{code}"/>' for at, code in enumerate(codes))
        # a number may have zeros, a sign and blanks before it
        numbers = "9", "10", "09", "+10", " 9&#10;", "0164", *map(str, range(164, 164 + len(codes)))
        cells = "".join(f'<xf numFmtId="{number}"/>' for number in numbers)
        styles = f'<styleSheet xmlns="{made.MAIN[0]}"><numFmts>{formats}</numFmts><cellXfs>{cells}</cellXfs></styleSheet>'
        for style, number in enumerate(numbers):
            for letter, value in (("E", 0.95), ("F", 8), ("G", 0.9)):
                found, fault = self.read({"xl/styles.xml": styles.encode()}, **{letter: f'<c s="{style}"><v>{value}</v></c>'})
                said = f"line 2, column {self.COLUMNS[letter]}: {self.PERCENTAGE.format(value)}"
                self.assertEqual((fault, found is None), (said, True) if number != numbers[-1] else (None, False), number)
        _, fault = self.read({"xl/styles.xml": styles.encode()}, E='<c s=" +0&#9;"><v>0.5</v></c>')
        self.assertEqual(fault, f"line 2, column price_eur_mwh: {self.PERCENTAGE.format('0.5')}")

    def test_numbers_that_excel_shows_in_another_way(self):
        """A format may show a thousandth, add digits, or show nothing, also of some numbers alone."""
        for code, changed in (
            ("0.0,", "5"), ('#,##0.0,&quot; MW&quot;', "5"), ("0,.0", "5"), ("0\\.00", "5"), ("&quot;9&quot;0", "5"), ("&quot;50&quot;", "5"),
            ("90", "5"), (";;;", "5"), ("0&quot;-20&quot;", "5"), ("0&quot;;60&quot;", "5"), ("0[$1]", "5"), ("0\\,0", "5"),
            ("0;&quot;7&quot;", "-5"), ("0;-0;", "0"), ("[&gt;9]0;&quot;7&quot;", "5"), ("0;0;0,;@", "0"),
            ("-0", "5"), ("&quot;-&quot;0", "5"), ("(0)", "5"), ("\\-0", "5"), ("-General", "5"), ("0-0", "12"), ("0&quot;:&quot;0", "12"),
            ("0\\:00", "12"), ("0&quot;\uff10&quot;", "5"), ("0&quot;\u00bd&quot;", "5"), ("0&quot;x&quot;0", "12"), ("\uff150", "5"),
            ("0;0", "-5"), ("0.00;0.00", "-5"), ("0.00;[Red]0.00", "-5"), ("\uff0e0", "5"), ("&quot;\u066b&quot;0", "5"),
            ("0 0", "12"), ("00 00", "1020"), ("00'00", "1020"), ("0_ 0", "12"), ("0* 0", "12"), ("0&quot; &quot;0", "12"), ("0\\ 0", "12"),
            ("0\u00a00", "12"), ("0[$ ]0", "12"), ("0&#10;0", "12"), ("0\\&#10;0", "12"), ("0&quot;&#10;&quot;0", "12"), ("0&#9;0", "12"), ("000 0", "1020"), ("0 00", "120"), ("#  ##0", "1020"), ("#' ##0", "1020"), ("#* ##0", "1020"),
            ("0.0 0", "5.25"), ("0 .0", "5"), ("0. 0", "5"), ("0.000 000", "5"), ("0E+ 0", "5"), ("0/ 0", "5"), ("# ? /?", "5"), ("0;0 0;0", "-12"),
            ("0;-0;0 0", "0"), ("#,##0 0", "5"), ("General 0", "5"), ("General0", "5"),
            ("#", "0"), ("#,###.##", "0"), ("#&quot; EUR&quot;", "0"), ("0;0;#", "0"), ("&quot;\u202e&quot;0", "12"), ("#,###", None),
            ("0.0.0", "5"), ("0).0", "5"), ("0&quot;x&quot;.0", "5"), ("0&quot; MW&quot;,", "5"), ("0*x,", "5"),
            ("0.00;[Red]0.00", None), ("0.00;(0.00)", None), ("0.00E-00", None), ("#\\ ##0.0", None), ("0.00&quot; EUR-MWh&quot;", None),
            ("#,##0.00", None), ("0.00;[Red]-0.00", None), ("0;-0;;@", None), ("0.0&quot; EUR/MWh&quot;", None), ("[$€-407] 0.00", None),
            ("0.00E+00", None), ("# ?/?", None), ("General&quot; EUR&quot;", None), ("0;&quot;7&quot;", None), ("0;-0;", None),
            ("???0", None), ("&quot;MAX -EUR &quot;0", "5"),
            ("# ##0", None), ("#\u202f##0.00", None), ("0 000 000", None), ("#'##0.0", None), ("#_ ##0", None), ("??? ??0", None), ("# ###.0#", None),
            ("0&#10;&quot;EUR&quot;", None), ("# ##0.00E+0", None), ("# ??/??", None), ("# ##0&quot; &quot;?/?", None), ("?/?", None), ("_ * # ##0_ ", None), ("0;0 0", None),
            ("[White]0.00", "5"), ("[white]General", "5"), ("[Color2]0", "5"), ("[COLOR 2]0", "5"), ("0;[White]-0", "-5"), ("0;-0;[White]0", "0"),
            ("[&gt;3][White]0;0", "5"), ("0;[White]-0", None), ("[Red]0.00", None), ("[Color 22]0", None),
        ):  # fmt: skip
            styles = f'<numFmts><numFmt numFmtId="164" formatCode="{code}"/></numFmts><cellXfs><xf/><xf numFmtId="164"/></cellXfs>'
            styles = {"xl/styles.xml": f'<styleSheet xmlns="{made.MAIN[0]}">{styles}</styleSheet>'.encode()}
            with self.subTest(code, changed=changed):
                found, said = self.read(styles, E=f'<c s="1"><v>{changed or 5}</v></c>')
                way = f"'{changed}' is a number that Excel shows in another way: give its cell the format General"
                self.assertEqual((said, found is None), (f"line 2, column price_eur_mwh: {way}", True) if changed else (None, False))
        found, said = self.read(B="<c><v>-0.0</v></c>")
        self.assertEqual((found.name, said), ("0", None))

    def shown(self, code, number, attributes="/>", letter="E"):
        """The order with a price of a format, or with a number in another column, or its fault."""
        styles = f'<numFmts><numFmt numFmtId="164" formatCode="{code}"/></numFmts><cellXfs><xf/><xf numFmtId="164"{attributes}</cellXfs>'
        styles = {"xl/styles.xml": f'<styleSheet xmlns="{made.MAIN[0]}">{styles}</styleSheet>'.encode()}
        return self.read(styles, **{letter: f'<c s="1"><v>{number}</v></c>'})

    def test_formats_that_add_words(self):
        """They may say another unit, or a multiple of one; accounts in EUR are harmless."""
        said = "line 2, column price_eur_mwh: '5' is a number whose format adds '{}': give its cell the format General"
        for code, words in (
            ('0" kW"', " kW"), ("[$kW] 0", "kW"), ('0" GW"', " GW"), ('0"k"', "k"), ('0" thousand"', " thousand"), ('0" Mio"', " Mio"),
            ('0" percent"', " percent"), ("0\\%", "%"), ('0"%"', "%"), ("0‰", "‰"), ('"minus "0', "minus "), ("$0", "$"),
            ('_("$"* #,##0.00_);_("$"* \\(#,##0.00\\);_("$"* "-"??_);_(@_)', "$"), ('[>3]0" kW";0', " kW"), ('0\\ "k"\\W', " kW"),
            ("0k", "k"), ('0" EUR/kWh"', " EUR/kWh"), ('"A - B "0', "A - B "), ("0*k", "k"), ("0~", "~"), ('"EUR "0" ct"', " ct"),
            ('0" MWh"', " MWh"), ('"EUR "0" MW"', " MW"), ("0\\ [$CHF]", " CHF"), ("[$£-809]0", "£"), ('[>3]0" MW";0" EUR"', " EUR"),
            ('0" mW"', " mW"), ('0" Mw"', " Mw"), ('0" EUR/mWh"', " EUR/mWh"),
        ):  # fmt: skip
            found, fault = self.shown(code.replace('"', "&quot;").replace(">", "&gt;"), 5)
            self.assertEqual((fault, found), (said.format(words), None), code)
        for code in (
            '0" EUR/MWh"', "0.00\\ €", '0"/MWh"', "#,##0.00\\ [$€-407];[RED]-#,##0.00\\ [$€-407]", "[$EUR] 0.00",
            '_-* #,##0.00\\ "€"_-;\\-* #,##0.00\\ "€"_-;_-* "-"??\\ "€"_-;_-@_-', "_(* #,##0.00_);_(* \\(#,##0.00\\);_(* \"-\"??_);_(@_)",
            '"EUR "0"/MWh"', '0" €/MWh"', '0;-0" kW"', "#\\ ##0.00", "0.00E+00", "# ?/?", '"€"#,##0.00;-"€"#,##0.00', '0" Euro per MWh"',
        ):  # fmt: skip
            self.assertEqual(self.shown(code.replace('"', "&quot;"), 5)[1], None, code)
        _, fault = self.shown("0;-0&quot; kW&quot;", -5)
        self.assertEqual(fault, said.format(" kW").replace("5", "-5"))

    def test_formats_with_a_unit_of_another_column(self):
        """A column of prices has numbers in EUR or EUR/MWh, one of volumes in MW, and one of periods in no unit."""
        of_prices = "0[$€-407]", '"EUR "0', '0" EUR/MWh"', '0" €/MWh"', '0" Euro per MWh"', '[>9]0" EUR";0', '"EUR "0"/MWh"'
        of_volumes = '0" MW"', '0"MW"', "0\\ [$MW]", '0" (MW)"', '[>9]0" MW";0'
        for codes, unit, right in ((of_prices, "EUR", "E"), (of_volumes, "MW", "G")):
            for code in (each.replace('"', "&quot;").replace(">", "&gt;") for each in codes):
                for letter, column in (("E", "is in EUR/MWh"), ("G", "is in MW"), ("F", "has no unit")):
                    found, fault = self.shown(code, 8, letter=letter)
                    words = f"'8' is a number whose format says {unit}, but the column {column}: check it, and give its cell the format General"
                    said = None if letter == right else f"line 2, column {self.COLUMNS[letter]}: {words}"
                    self.assertEqual((fault, found is None), (said, said is not None), code)
                self.assertIsNone(self.shown(code, 8, letter="J")[1], code)

    def test_formats_of_the_currency_of_each_system(self):
        """Excel shows the same cell in EUR on one computer and in USD on another one, unless the workbook has the format itself."""
        numbers = 5, 6, 7, 8, 23, 24, 25, 26, 42, 44, 63, 64, 65, 66
        cells = "".join(f'<xf numFmtId="{number}"/>' for number in numbers)
        own = '<numFmts><numFmt numFmtId="{}" formatCode="0.00 [$€]"/></numFmts>'
        for letter in "EFG":
            words = f"line 2, column {self.COLUMNS[letter]}: '8' is a number that Excel shows with the currency of each system"
            for style, number in enumerate(numbers):
                for formats, said in (("", f"{words}: give its cell the format General"), (own.format(number) if letter == "E" else None, None)):
                    if formats is not None:
                        styles = f'<styleSheet xmlns="{made.MAIN[0]}">{formats}<cellXfs>{cells}</cellXfs></styleSheet>'
                        _, fault = self.read({"xl/styles.xml": styles.encode()}, **{letter: f'<c s="{style}"><v>8</v></c>'})
                        self.assertEqual(fault, said, number)

    def test_repeated_characters(self):
        """One that fills a cell may be a digit, or look like a sign; and a cell may be filled with its number."""
        for code in ("0*0", "*50", "[&gt;3]*50;0", "0*.", "*-0", "*\uff150"):
            for number in (2, 5):
                _, said = self.shown(code, number)
                self.assertIn(f"'{number}' is a number that Excel shows in another way", said or "", code)
        for code in ("* 0", "**0", "_-* 0_-"):
            self.assertEqual(self.shown(code, 5)[1], None, code)
        said = "is a number that fills its cell again and again: give its cell another horizontal alignment"
        for code in ("General", "0", "0.00", "0.00;0.00"):
            for number in (20, -20, 0):
                _, fault = self.shown(code, number, attributes='><alignment horizontal="fill"/></xf>')
                self.assertEqual(fault, f"line 2, column price_eur_mwh: '{number}' {said}", code)
        styles = f'<styleSheet xmlns="{made.MAIN[0]}"><cellXfs><xf/><xf><alignment horizontal="fill"/></xf></cellXfs></styleSheet>'
        for letter in "BEFGHI":
            _, fault = self.read({"xl/styles.xml": styles.encode()}, **{letter: '<c s="1"><v>7</v></c>'})
            self.assertEqual(fault, f"line 2, column {self.COLUMNS[letter]}: '7' {said}")

    def test_formats_that_show_another_sign(self):
        """A positive number with a minus or brackets of any script, or a negative one without them."""
        minuses = *"-\u2013\u2014\u2212\uff0d\ufe63\u207b\u2011\u00b1\u25b2", "\\-", "*-"
        codes = [f"{minus if len(minus) > 1 else f'&quot;{minus}&quot;'}0" for minus in minuses]
        codes += ["\uff080\uff09", "&quot;\uff08&quot;0&quot;\uff09&quot;", "\uff0d0", "\ufe590\ufe5a", "&quot;[&quot;0&quot;]&quot;", "0)"]
        codes += [f"&quot;{words}&quot;0" for words in ("EUR -", "-EUR ", "- EUR ", "(EUR ", "()")]
        codes += [f"0&quot;{words}&quot;" for words in (" -", "- EUR", " EUR-", " EUR)")]
        for code in codes:
            _, said = self.shown(code, 5)
            self.assertIn("'5' is a number that Excel shows in another way", said or "", code)
            self.assertEqual(self.shown(f"0;{code};0", 5)[1], None, code)
            self.assertEqual(self.shown(f"0;{code};0", -5)[1], None, code)
        plain = [f"&quot;{words}&quot;0" for words in ("(EUR) ", "EUR-MWh ", "+")]
        plain += [f"0&quot;{words}&quot;" for words in ("", " (MW)", "-MW", " EUR-MWh")]
        for code in plain:
            letter = "G" if "MW&" in code or "MW)" in code else "E"
            self.assertEqual(self.shown(code, 5, letter=letter)[1], None, code)
            self.assertEqual(self.shown(f"0.0;{code}", 5)[1], None, code)
            for codes in (f"0.0;{code}", f"0.0;[Red]{code};0"):
                _, said = self.shown(codes, -5)
                self.assertIn("'-5' is a number that Excel shows in another way", said or "", codes)
        for code in ("# ?/?", "General", "_-* #,##0_-;-* #,##0_-;_-* &quot;-&quot;??_-", "#;-#;0"):
            self.assertEqual(self.shown(code, 0)[1], None, code)
        for code in ("0", "0.00;(0.00)", "#,##0_);[Red]\\(#,##0\\)", "General;[Red]-General", "0.00&quot; EUR-MWh&quot;", "0;-* 0"):
            self.assertEqual(self.shown(code, -5)[1], None, code)
        for code, number in (("[&lt;0]0;0", -5), ("[&gt;9]0;0", -5), ("[&gt;9]0;-0", 5), ("[&gt;9]0;(0)", 0)):
            _, said = self.shown(code, number)
            self.assertIn(f"'{number}' is a number that Excel shows in another way", said or "", code)

    def test_numbers_with_more_digits_than_are_shown(self):
        """A format may round, also to a fraction or with a power of ten. The digits of a float beyond the 15th are none."""
        said = "line 2, column price_eur_mwh: '{}' is a number that Excel shows as {}: round it, or give its cell the format General"
        for code, number, other in (
            ("0", "0.4", "0"), ("0", "0.5", "1"), ("0.00", "12.345", "12.35"), ("0.0", "-0.25", "-0.3"), ("#,##0", "1234.5", "1235"),
            ("0.00;[Red]-0.0", "-1.25", "-1.3"), ("0.0#", "1.125", "1.13"), ("0.0&quot; EUR.MWh&quot;", "1.25", "1.3"), ("# ?/?", "12.34", "37/3"),
            ("0.00E+00", "1234", "1230"), ("##0.0E+0", "1234.5", "1200"), (".0E+0", "0.25", "0.3"), ("0E-0", "15", "20"), ("0;-0;0.00", "0.1", "0"),
            ("[&gt;9]0;0.00", "5.25", "5"), ("_-* #,##0.0_-;-* #,##0.0_-;_-* &quot;-&quot;??_-;_-@_-", "3.25", "3.3"), ("0.0E0", "5", ""),
            ("0.00", "12.34", None), ("0.00", "0.1", None), ("#,##0.0", "1234.5", None), ("0.0", "0.30000000000000004", None), ("0", "5.0", None),
            ("0.00;[Red]-0.00", "-1.25", None), ("# ?/?", "0.4", None), ("# ??/??", "12.34", None), ("0.00E+00", "1230", None), ("General", "12.34", None),
            ("##0.0E+0", "1200", None), ("0.00", "2900.1000000000004", None), ("0.??", "1.25", None), ("0.00&quot; EUR&quot;", "1.25", None),
            ("General&quot; EUR&quot;", "1.25", None), ("0.00;-0.0", "1.25", None), ("0.0000", "1.25", None), ("[$€-407] #,##0.00", "1234.5", None),
            ("0.00\\ [$EUR]", "1.25", None), ("@", "12.34", None), ("0;0.00", "0", None), ("0.00_);[Red]\\(0.00\\)", "-1.25", None),
        ):  # fmt: skip
            with self.subTest(code, number=number):
                found, fault = self.shown(code, number)
                if other == "":
                    self.assertIn("'5' is a number that Excel shows in another way", fault)
                else:
                    self.assertEqual((fault, found is None), (said.format(number, other), True) if other else (None, False))

    def test_many_fractions(self):
        """Of the first ones it is told how they are shown. The others take less time, and are faults too."""
        fractions = number_formats.Fractions()
        shown = [number_formats.format_function(code, fractions) for code in ("# ?/???", "[>9]# ?/???;# ?/???")]
        for take in (True, False):
            for each in shown:
                self.assertEqual((type(each("1.5")), type(each("0.3333"))), (Formatted, Rounded if take else Changed))
            fractions.left = 0
        other = number_formats.format_function("# ?/??", fractions)
        self.assertEqual((other("0.3333"), other("0.25")), ("0.3333 1/3", "0.25"))
        many, number, began = number_formats.format_function("# ?/" + "?" * 20, fractions), "1.23456789012345E-10", time.process_time()
        self.assertTrue(all(many(number) == number for _ in range(100_000)))
        self.assertLess(time.process_time() - began, 1.5)

    def test_own_formats_that_round(self):
        """Excel has formats of its own, by their numbers; and each column is read alike."""
        numbers = 0, 1, 2, 3, 4, 11, 12, 13, 37, 39, 43, 48
        cells = "".join(f'<xf numFmtId="{number}"/>' for number in numbers)
        styles = {"xl/styles.xml": f'<styleSheet xmlns="{made.MAIN[0]}"><cellXfs>{cells}</cellXfs></styleSheet>'.encode()}
        shown = dict(zip(numbers, (None, "13", "12.57", "13", "12.57", "12.6", "88/7", "88/7", "13", "12.57", "12.57", "12.6")))
        for style, number in enumerate(numbers):
            for letter in "ABEFGHI":
                _, fault = self.read(styles, **{letter: f'<c s="{style}"><v>12.571</v></c>'})
                said = f"line 2, column {self.COLUMNS[letter]}: '12.571' is a number that Excel shows as {shown[number]}: round it, or give its cell the format General"
                self.assertEqual(fault == said, number != 0, (number, fault))
        _, fault = self.read(styles, J='<c s="1"><v>12.571</v></c>')
        self.assertIsNone(fault)

    def test_a_sheet_that_hides_zeros(self):
        """Excel shows each zero of such a sheet as an empty cell."""
        view = b"<sheetViews><sheetView/><sheetView showZeros='%s'><pane/><selection/><extLst/></sheetView></sheetViews><cols/><sheetData>"
        price, text = row_of_order(2, "K1").replace(b'<c r="E2" t="str"><v>1</v>', b'<c r="E2"><v>0</v>'), row_of_order(2, "K1")
        fault = "'0' is a zero that its sheet hides: show the sheet's zeros (in Excel's advanced options)"
        for value, row, said in ((b"0", price, fault), (b" false", price, fault), (b"1", price, None), (b"0", text, None)):
            heads = made.OPEN.replace(b"<sheetData>", view % value)
            with self.subTest(value, row=row):
                if said:
                    with self.assertRaisesRegex(order_table.BadOrders, re.escape(f"line 2, column price_eur_mwh: {said}")):
                        order_table.parse_tables([("", made.workbook_of_sheet(heads, row, made.CLOSE))], 24)
                else:
                    self.assertEqual(len(order_table.parse_tables([("", made.workbook_of_sheet(heads, row, made.CLOSE))], 24).submits), 1)

    def test_a_custom_view_that_hides_zeros(self):
        """Who looks at it sees no zero, of any kind."""
        view = "</sheetData><customSheetViews><customSheetView guid='{{0}}' zeroValues='%s'/></customSheetViews>"
        price, text = row_of_order(2, "K1").replace(b'<c r="E2" t="str"><v>1</v>', b'<c r="E2"><v>0.0</v>'), row_of_order(2, "K1")
        fault = "^sheet 'orders', cell E2: it is a zero that a custom view of its sheet hides: delete the view$"
        for value, row, said in (("0", price, fault), (" false", price, fault), ("1", price, None), ("0", text, None)):
            data = made.workbook_of_sheet(made.OPEN, row, made.CLOSE.replace(b"</sheetData>", (view % value).encode()))
            with self.subTest(value, row=row):
                if said:
                    with self.assertRaisesRegex(table_files.BadTable, said):
                        table_files.parse_rows_and_add_notes(data)
                else:
                    self.assertEqual(len(order_table.parse_tables([("", data)], 24).submits), 1)

    def test_names_of_many_digits(self):
        """Excel shows 123456789012 as 1.23457E+11, unless its format is 0."""
        formats = "".join(f'<xf numFmtId="{number}"/>' for number in (0, 49, 164, 1, 165))
        codes = '<numFmt numFmtId="164" formatCode="general"/><numFmt numFmtId="165" formatCode="0"/>'
        content = f'<styleSheet xmlns="{made.MAIN[0]}"><numFmts>{codes}</numFmts><cellXfs>{formats}</cellXfs></styleSheet>'
        styles = {"xl/styles.xml": content.encode()}
        fault = "line 2, column order: '123456789012' is a number of which Excel shows fewer digits: make the cell one of text"
        for style in range(5):
            for number, is_short in (("12345678901", True), ("123456789012", False), ("1.23456789012E+11", False)):
                found, said = self.read(styles, B=f'<c s="{style}"><v>{number}</v></c>')
                if is_short or style > 2:
                    self.assertEqual(found.name, str(int(float(number))))
                else:
                    self.assertEqual(said, fault, (style, number))
        with self.assertRaisesRegex(order_table.BadOrders, "column order: '123456789012' is a number of which"):
            plain = b"<row><c t='str'><v>A</v></c><c><v>123456789012</v></c></row>"
            order_table.parse_tables([("", made.workbook_of_sheet(made.OPEN, plain, made.CLOSE, **{"xl/styles.xml": styles_without_formats()}))], 24)
        found, _ = self.read(styles, E='<c s="0"><v>0.10</v></c>')  # a price is what it is
        self.assertEqual(found.order.price, 10)

    def test_small_numbers_are_no_names(self):
        """Excel shows 1E-05 as 0.00001."""
        for number in ("1E-05", "0.00001", "1e-5"):
            found, said = self.read(B=f"<c><v>{number}</v></c>")
            self.assertEqual((found, said), (None, "line 2, column order: '0.00001' should be 1 to 12 of A to Z, 0 to 9 and -"), number)

    def test_formats_of_texts(self):
        """A format may hide a text, or show characters around it."""
        codes = ("@", "General", "0;0;0;@", "[Red]_-@_-", "0.00", "0;&quot;@&quot;", "0;0;0;General", "[$-409]@", "_-* @_-", "[$]@",
                 "0;-0;[White]0", "[White]0;0;0;@", ";;;", "[White]@", "[Color2]General", "0;0;0;[White]@",
                 "@&quot;-1&quot;", "0;0;0;&quot;G&quot;", "0;\\a@", "@@", "@[$X]", "[$A-409]@", "@*0", "General[$X]", "@")  # fmt: skip
        shown, fill = codes.index(";;;"), '><alignment horizontal="fill"/></xf>'
        formats = "".join(f'<numFmt numFmtId="{164 + at}" formatCode="{code}"/>' for at, code in enumerate(codes))
        cells = "".join(f'<xf numFmtId="{164 + at}"{"/>" if at < len(codes) - 1 else fill}' for at in range(len(codes)))
        styles = f'<styleSheet xmlns="{made.MAIN[0]}"><numFmts>{formats}</numFmts><cellXfs>{cells}</cellXfs></styleSheet>'
        strings = f'<sst xmlns="{made.MAIN[0]}"><si><t>K7</t></si></sst>'
        parts = {"xl/styles.xml": styles.encode(), made.SHARED: strings.encode()}
        for style, code in enumerate(codes):
            for kind, content in (("str", "<v>K7</v>"), ("inlineStr", "<is><t>K7</t></is>"), ("s", "<v>0</v>")):
                for letter, name in (("B", "order"), ("I", "group")):
                    found, said = self.read(parts, **{letter: f'<c s="{style}" t="{kind}">{content}</c>'})
                    fault = f"line 2, column {name}: 'K7' is a text with a format: clear its formats"
                    self.assertEqual(said, None if style < shown else fault, (code, kind))
                    self.assertTrue(style >= shown or "K7" in (found.name, found.order.group))
        hidden = f'<c s="{shown}" t="str"><v>'
        found, _ = self.read(parts, J=f"{hidden}x</v></c>")
        self.assertEqual(found.name, "K")
        for letter, words in (("C", "block"), ("D", "buy"), ("E", "1"), ("F", "8"), ("G", "5")):
            _, said = self.read(parts, **{letter: f"{hidden}{words}</v></c>"})
            self.assertEqual(said, f"line 2, column {self.COLUMNS[letter]}: '{words}' is a text with a format: clear its formats")
        _, said = self.read(parts, B=f'<c s=" {shown} " t="str"><v>K7</v></c>')
        self.assertIn("'K7' is a text with a format", said)
        _, said = self.read(parts, B=f'<c s="{len(codes) - 1}"><v>7</v></c>')
        self.assertIn("'7' is a number that fills its cell again and again", said)

    def test_formats_that_cant_be_read(self):
        """Two formats of one number may be either, and Excel reads no other numbers than whole ones."""
        for formats, fault in (
            ('<numFmt numFmtId="164" formatCode="0"/><numFmt numFmtId="0164" formatCode="0%"/>', "two formats have the number 164"),
            ('<numFmt numFmtId="-1" formatCode="0"/>', "a format has the number '-1'"),
            ('<numFmt numFmtId="164" formatCode="0"/><numFmt numFmtId="164" formatCode="0"/>', None),
        ):
            styles = f'<styleSheet xmlns="{made.MAIN[0]}"><numFmts>{formats}</numFmts><cellXfs><xf numFmtId="164"/></cellXfs></styleSheet>'
            data = made.workbook_of_sheet(made.OPEN, row_of_order(2, "K1"), made.CLOSE, **{"xl/styles.xml": styles.encode()})
            if fault:
                with self.assertRaisesRegex(table_files.BadTable, f"^line 1: the Excel workbook can't be read: {fault}$"):
                    table_files.parse_rows_and_add_notes(data)
            else:
                self.assertEqual(len(order_table.parse_tables([("", data)], 24).submits), 1)
        for style in ("x", "-1", "1.0", ""):
            for cell in (f'<c s="{style}"><v>7</v></c>', f'<c s="{style}" t="str"><v>K</v></c>'):
                _, fault = self.read(B=cell)
                self.assertEqual(fault, f"sheet 'orders', cell B2: it has no format '{style}'")

    def test_dates_of_both_systems(self):
        """A workbook may count days from 1904 on. A time of day is the same in both."""
        formats = '<cellXfs><xf numFmtId="0"/><xf numFmtId="14"/></cellXfs>'
        styles = {"xl/styles.xml": f'<styleSheet xmlns="{made.MAIN[0]}">{formats}</styleSheet>'.encode()}
        listed = '<workbook xmlns="{0}" xmlns:r="{1}">{2}<sheets><sheet name="orders" r:id="r1"/></sheets></workbook>'
        told = {"": 1462, '<workbookPr date1904="0"/>': 1462, '<workbookPr date1904="1"/>': 0, '<workbookPr date1904="true"/>': 0}
        for words, first in told.items():
            book = {"xl/workbook.xml": listed.format(made.MAIN[0], made.OFFICE[0], words).encode()}
            for number, shown in ((first + 1, "1904-01-02"), (first + 44_792.25, "2026-08-20"), (0.75, "18:00")):
                _, fault = self.read({**styles, **book}, B=f'<c s="1"><v>{number}</v></c>')
                self.assertIn(f"'{shown}' is a date or a time", fault)


if __name__ == "__main__":
    unittest.main()
