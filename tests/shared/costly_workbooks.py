"""Workbooks and texts of at most 5 MB that are made to take memory and time."""

import difflib
import functools
import itertools
from collections.abc import Callable, Iterable, Iterator

from shared.drawn_workbooks import BOOK, CLOSE, HEADS, MAIN, OFFICE, OPEN, RELATIONS, ROOT, SHARED, STYLES, archive_bytes, workbook_of_sheet
from lib.tables import order_table
from lib.workbooks import first_rows

Piece = bytes | Iterable[bytes]
TEXT = ";".join(order_table.ORDER).encode() + b"\n"
WIDE = "\U0001f600".encode()
FRACTION = b"# ?/" + b"?" * 240
LONG_NAME = "the name of an element has more than"


def table_workbook(*pieces: Piece, **parts: Piece) -> bytes:
    """A workbook of a table of orders, with these pieces after its first row; other parts by name."""
    return workbook_of_sheet(OPEN, *pieces, CLOSE, **parts)


def order_row(number: int, row: str = "") -> bytes:
    cells = "".join(f"<c t='inlineStr'><is><t>{cell}</t></is></c>" for cell in ("A", f"H{number}", "hour", "buy", 1, 8, 5))
    return f"<row{row}>{cells}</row>".encode()


def shared_strings(count: int, length: int) -> Iterator[bytes]:
    yield f'<sst xmlns="{MAIN[0]}">'.encode()
    yield from (b"<si><t>%d%s</t></si>" % (number, b"x" * length) for number in range(count))
    yield b"</sst>"


def wide_strings(count: int, form: bytes) -> Iterator[bytes]:
    yield f'<sst xmlns="{MAIN[0]}">'.encode()
    yield from (b"<si><t>%s</t></si>" % (form % number if b"%" in form else form) for number in range(count))
    yield b"</sst>"


def workbook_of_wide_strings(count: int, form: bytes) -> bytes:
    """A workbook with each of these strings in a cell."""
    cells = ([b"<c t='s'><v>%d</v></c>" % at for at in range(row, min(row + 30, count))] for row in range(0, count, 30))
    return table_workbook((b"<row>%s</row>" % b"".join(row) for row in cells), **{SHARED: wide_strings(count, form)})


def styles_of_formats(count: int, code: bytes) -> Iterator[bytes]:
    yield f'<styleSheet xmlns="{MAIN[0]}"><numFmts>'.encode()
    yield from (b'<numFmt numFmtId="%d" formatCode="%s"/>' % (number, code) for number in range(200, 200 + count))
    yield b'</numFmts><cellXfs><xf numFmtId="200"/></cellXfs></styleSheet>'


def styles_of_one_format(count: int) -> bytes:
    cells = '<xf numFmtId="2"/>' * count
    return f'<styleSheet xmlns="{MAIN[0]}"><cellXfs>{cells}</cellXfs></styleSheet>'.encode()


def rows_of_numbers(style: Callable[[int], bytes], count: int = 299_000) -> Iterator[bytes]:
    """Rows of numbers of 11 digits, each with a style by its place."""
    cell = b"<c s='%s'><v>%d</v></c>"
    return (b"<row>%s</row>" % b"".join(cell % (style(at), 10**10 + at) for at in range(row, row + 30)) for row in range(0, count, 30))


def rows_of_small_numbers(count: int) -> Iterator[bytes]:
    """Rows of numbers below 1 of 15 digits, with the first style."""
    cell = b"<c s='0'><v>%d.23456789012345E-%d</v></c>"
    return (b"<row>%s</row>" % b"".join(cell % (at % 9 + 1, row % 15 + 1) for at in range(row, row + 30)) for row in range(0, count, 30))


def rows_of_names(count: int, first: int = 0) -> list[bytes]:
    """A row of texts that have the letters of a name, each in another order, but aren't like it."""
    orders = map("".join, itertools.permutations(reversed(order_table.NEEDED[-1])))
    others = (each for each in orders if not difflib.get_close_matches(each, order_table.NEEDED, 1, first_rows.ALIKE))
    texts = itertools.islice(others, first, first + count)
    return [b"<row>", *(b"<c t='str'><v>%s</v></c>" % each.encode() for each in texts), b"</row>"]


def styles_of_fonts(count: int) -> bytes:
    """As many fonts and fills as there may be, each with a colour of its own, and a format of each pair."""
    fonts = "".join(f'<font><color theme="5" tint="0.{at}"/><sz val="11"/></font>' for at in range(count))
    fill = '<fill><patternFill patternType="solid"><fgColor theme="6" tint="0.{}"/></patternFill></fill>'
    fills = "".join(map(fill.format, range(count)))
    formats = "".join(f'<xf fontId="{at % count}" fillId="{at % count}"/>' for at in range(30_000))
    return f'<styleSheet xmlns="{MAIN[0]}"><fonts>{fonts}</fonts><fills>{fills}</fills><cellXfs>{formats}</cellXfs></styleSheet>'.encode()


def styles_of_most_formats(cells: int, conditions: int) -> bytes:
    """Formats of cells, no two alike, and formats of conditions, each with a font and a fill in colours of their own."""
    formats = "".join(f'<xf fontId="{at % 300}" fillId="{at // 300}"/>' for at in range(cells))
    colours = '<dxf><font><color rgb="FF{0:06X}"/></font><fill><patternFill><bgColor rgb="FF8{0:05X}"/></patternFill></fill></dxf>'
    made = "".join(map(colours.format, range(conditions)))
    return f'<styleSheet xmlns="{MAIN[0]}"><cellXfs>{formats}</cellXfs><dxfs>{made}</dxfs></styleSheet>'.encode()


def conditions(count: int) -> Iterator[bytes]:
    """Conditional formats that change nothing."""
    return (b"<conditionalFormatting sqref='E2'><cfRule dxfId='%d'/></conditionalFormatting>" % (at % 90 + 300) for at in range(count))


def styles_of_conditions(count: int) -> bytes:
    """A format of fractions under conditions, and as many formats of conditions with it."""
    code = b";".join(condition + b"# ?/" + b"?" * 15 for condition in (b"[&gt;9]", b"[&lt;0]", b""))
    made = b"".join(styles_of_formats(1, code)).replace(b"</styleSheet>", b"")
    return made + b"<dxfs>" + (b'<dxf><numFmt numFmtId="164" formatCode="%s"/></dxf>' % code) * count + b"</dxfs></styleSheet>"


def spelled_style(at: int) -> bytes:
    """The number of one of 30,000 formats, with zeros before it: no two are alike."""
    return b"%s%05d" % (b"0" * (at // 30_000), at % 30_000)


def workbook_of_names(count: int) -> bytes:
    """The list of sheets, with names of formulas, each of which has the name of the next one, and the last one a volatile function."""
    names = "".join(f'<definedName name="n{at}">{f"n{at + 1}+" * 9}1</definedName>' for at in range(count - 1))
    names += f'<definedName name="n{count - 1}">RAND()</definedName>'
    sheets = '<sheets><sheet name="orders" r:id="r1"/></sheets>'
    return f'<workbook xmlns="{MAIN[0]}" xmlns:r="{OFFICE[0]}">{sheets}<definedNames>{names}</definedNames></workbook>'.encode()


def namespace_declarations(count: int) -> bytes:
    return b"".join(b' xmlns:p%d="u"' % number for number in range(count))


def workbook_of_long_names(form: bytes) -> bytes:
    """A workbook with elements of this form, each with a long name in it."""
    elements = (form % (b"a" * 60_000 + b"%d" % number) for number in range(1_500))
    return workbook_of_sheet(ROOT, b"<cols>", elements, CLOSE)


def workbook_of_sheets(sheets: Iterable[Iterable[bytes]], styles: bytes = b"") -> bytes:
    """A workbook whose sheets have these rows, none of which is named as the one that is preferred; the last one is a table of orders. It
    has styles if they are given."""
    sheets = [*sheets, [b"<row>", HEADS, b"</row>", order_row(1)]]
    relation = '<Relationship Id="r{0}" Type="{1}/worksheet" Target="worksheets/{0}.xml"/>'
    listed = "".join(f'<sheet name="S{at}" sheetId="{at + 1}" r:id="r{at}"/>' for at in range(len(sheets)))
    rels = f'<Relationships xmlns="{RELATIONS}">{{}}</Relationships>'
    relations = [relation.format(at, OFFICE[0]) for at in range(len(sheets))]
    if styles:
        relations.append(f'<Relationship Id="styles" Type="{OFFICE[0]}/styles" Target="styles.xml"/>')
    texts = {
        "_rels/.rels": rels.format(f'<Relationship Id="r1" Type="{OFFICE[0]}/officeDocument" Target="xl/workbook.xml"/>'),
        "xl/workbook.xml": f'<workbook xmlns="{MAIN[0]}" xmlns:r="{OFFICE[0]}"><sheets>{listed}</sheets></workbook>',
        "xl/_rels/workbook.xml.rels": rels.format("".join(relations)),
    }
    cells = {f"xl/worksheets/{at}.xml": [ROOT, b"<sheetData>", *rows, CLOSE] for at, rows in enumerate(sheets)}
    made: dict[str, Piece] = {**{name: content.encode() for name, content in texts.items()}, **cells}
    return archive_bytes({**made, STYLES: styles} if styles else made)


# The few, and all: each with the words of its fault, None for a table that is read, and "" for either.
FEW: dict[str, tuple[str | None, Callable[[], bytes]]] = {
    "a row far away": ("the number '5000000'", lambda: table_workbook(order_row(1, ' r="5000000"'))),
    "the last row": (None, lambda: table_workbook(order_row(1, ' r="1048576"'))),
    "200,000 orders": ("at most 10,000 rows", lambda: table_workbook(map(order_row, range(200_000)))),
    "a million empty rows": (None, lambda: table_workbook((b"<row/>" * 1_000 for _ in range(1_000)), order_row(1))),
    "a cell of 16 MB": ("more than 32,767 characters", lambda: table_workbook(b"<row><c><v>", b"1" * 2**24, b"</v></c></row>")),
    "a tag of 16 MB": ("a tag has more than", lambda: table_workbook(b"<row a='", (b"1" * 2**16 for _ in range(256)), b"'/>")),
    "elements in one another": ("in one another", lambda: workbook_of_sheet(ROOT, b"<extLst>", b"<a>" * 2**20, CLOSE)),
    "names": ("names of elements", lambda: workbook_of_sheet(ROOT, b"<cols>", (b"<a%d/>" % number for number in range(10**6)), CLOSE)),
    "namespaces": ("namespaces", lambda: table_workbook((b"<row%s/>" % namespace_declarations(4_000) for _ in range(50)))),
    "long names": (LONG_NAME, lambda: workbook_of_long_names(b"<%s/>")),
    "long names of attributes": (LONG_NAME, lambda: workbook_of_long_names(b"<a %s=''/>")),
    "long namespaces": (LONG_NAME, lambda: workbook_of_long_names(b"<a xmlns='%s'/>")),
    "first rows": (None, lambda: workbook_of_sheets([[b"<row>", b"<c t='str'><v>%s</v></c>" % (b"x" * 32_000) * 124, b"</row>"]] * 23)),
    "parts": ("more than 2,000 parts", lambda: archive_bytes({str(number): b"" for number in range(12_000)})),
    "a text of empty lines": ("at most 1,048,576 lines", lambda: TEXT + b"\n" * 4_900_000),
    "a text of short cells": ("more than 300,000 cells", lambda: TEXT + (b"ab;" * 16_000 + b"\n") * 100),
}
LARGE: dict[str, tuple[str | None, Callable[[], bytes]]] = {
    "1 GB of spaces": ("MiB in its parts", lambda: table_workbook((b" " * 2**20 for _ in range(2**10)))),
    "lines": ("", lambda: table_workbook((b"\n" * 2**20 for _ in range(95)))),
    "formatted rows": (None, lambda: table_workbook((b'<row ht="15" customHeight="1" spans="1:9" s="0"/>' for _ in range(10**6)))),
    "three million cells": ("elements", lambda: table_workbook((b"<row>" + b"<c/>" * 10_000 + b"</row>" for _ in range(300)))),
    "attributes": ("", lambda: table_workbook(
        (b"<row%s/>" % b"".join(b' a%d=""' % number for number in range(3_000)) for _ in range(3_800)))),
    "wide rows": ("cells before this one", lambda: table_workbook(
        (b"<row>" + b"<c><v>1</v></c>" * 16_000 + b"</row>" for _ in range(40)))),
    "far cells": ("cells before this one", lambda: table_workbook(
        (b'<row r="%d"><c r="XFD%d"><v>1</v></c></row>' % (at, at) for at in range(2, 9_000)))),
    "many cells": ("", lambda: table_workbook((
        b"<row>%s</row>" % b"".join(b"<c t='str'><v>%d.%d</v></c>" % (row, at) for at in range(30)) for row in range(9_990)))),
    "wide characters": ("", lambda: table_workbook(
        (b"<row><c t='str'><v>" + b"\xf0\x9f\x98\x80" * 400 + b"</v></c></row>" for _ in range(10_000)))),
    "formats": (None, lambda: table_workbook(order_row(1), **{STYLES: styles_of_formats(5_000, b"[" * 20)})),
    "much text of formats": ("characters in its number formats", lambda: table_workbook(
        order_row(1), **{STYLES: styles_of_formats(5_000, b"[" * 255)})),
    "formats, and many cells": ("", lambda: table_workbook(
        rows_of_numbers(lambda at: b"0"), **{STYLES: styles_of_formats(5_000, b"0" * 20)})),
    "long formats": ("a format has more than", lambda: table_workbook(**{STYLES: styles_of_formats(1_500, b"[" * 60_000)})),
    "many formats": ("number formats", lambda: table_workbook(**{STYLES: styles_of_formats(10**6, b"[")})),
    "unused strings": (None, lambda: table_workbook(b"<row><c t='s'><v>5</v></c></row>", **{SHARED: shared_strings(700_000, 3)})),
    "strings of first rows": ("in the first rows of its sheets", lambda: workbook_of_sheets(
        [[b"<row>", *(b"<c t='s'><v>%d</v></c>" % (2**14 * sheet + at) for at in range(2**14)), b"</row>"] for sheet in range(40)])),
    "used strings": ("bytes of text in its cells", lambda: table_workbook(
        (b"<row><c t='s'><v>%d</v></c></row>" % row for row in range(9_999)), **{SHARED: shared_strings(10_000, 500)})),
    "formatted cells": ("", lambda: table_workbook((
        b"<row>%s</row>" % b"".join(b"<c s='3'><v>%d.%d</v></c>" % (row, at) for at in range(30)) for row in range(9_990)))),
    "numbers with one format": ("", lambda: table_workbook(rows_of_numbers(lambda at: b"0"), **{STYLES: styles_of_one_format(1)})),
    "fractions": ("", lambda: table_workbook(rows_of_small_numbers(299_000), **{STYLES: b"".join(styles_of_formats(1, FRACTION))})),
    "texts of first rows": ("in the first rows of its sheets", lambda: workbook_of_sheets([rows_of_names(16_000)] * 40)),
    "texts like names": (None, lambda: workbook_of_sheets([rows_of_names(16_000, 16_000 * at) for at in range(3)])),
    "49,000 texts like names in many sheets": (None, lambda: workbook_of_sheets(
        [[b"<row>", *cells, b"</row>"] for cells in zip(*[iter(rows_of_names(49_000)[1:-1])] * 50)])),
    "fonts, fills and formats": ("", lambda: table_workbook(rows_of_numbers(spelled_style, 150_000), **{STYLES: styles_of_fonts(20_000)})),
    "fractions, and conditions": ("", lambda: workbook_of_sheet(
        OPEN, rows_of_small_numbers(299_000), b"</sheetData>", conditions(400_000), b"</worksheet>",
        **{STYLES: styles_of_conditions(300)})),
    "fractions in first rows": (None, lambda: workbook_of_sheets(
        [[b"<row>", b"<c s='0'><v>1.23456789012345E-300</v></c>" * 2**14, b"</row>"]] * 45, b"".join(styles_of_formats(1, FRACTION)))),
    "long formulas": ("", lambda: table_workbook(
        (b"<row><c><f>%s</f><v>1</v></c></row>" % part * 3_000 for part in (b'"",' * 10_000, b"RAND " * 200)))),
    "long formulas with texts": ("", lambda: table_workbook(
        (b"<row><c><f>%s</f><v>1</v></c></row>" % (b'"",' * 10_000 + b'"RAND()"') for _ in range(1_000)))),
    "names of formulas": ("", lambda: table_workbook(
        (b"<row><c><f>%s</f><v>1</v></c></row>" % (b"a," * 16_000) for _ in range(1_000)), **{BOOK: workbook_of_names(20_000)})),
    "formats in many spellings": ("", lambda: table_workbook(rows_of_numbers(spelled_style), **{STYLES: styles_of_one_format(30_000)})),
    "these, and many parts": ("", lambda: table_workbook(
        rows_of_numbers(spelled_style), **{STYLES: styles_of_one_format(30_000), **{str(at): b"" for at in range(1_980)}})),
    "a text of empty cells": ("a row has at most 16384 cells", lambda: TEXT + (b";" * 10**6 + b"\n") * 3 + b";" * 10**6 + b"a"),
    "a text of wide characters": ("bytes of text up to this line", lambda: TEXT + (b"\xf0\x9f\x98\x80" * 30_000 + b";\n") * 41),
    "a text of spaces": ("line 2", lambda: TEXT + (b"A;K;block;buy;1;7:00%sx;5\n" % (b" " * 30_000)) * 130),
    "wide cells": ("bytes of text before this cell", lambda: table_workbook(
        (b"<row>" + b"<c t='str'><v>%s</v></c>" % (WIDE * 45) * 9 + b"</row>" for _ in range(10_000)))),
    **{f"{count} wide strings": ("", functools.partial(workbook_of_wide_strings, count, form))
       for count, form in ((299_900, WIDE * 6 + b"%d"), (210_000, WIDE * 4), (299_900, b"%d"), (210_000, WIDE + b"%d"))},
    "blocks of many periods": ("BlocksFull", lambda: table_workbook((
        b"<row>%s</row>" % b"".join(b"<c t='str'><v>%b</v></c>" % cell for cell in (b"A,K%d,block,sell,1,1-100,5" % at).split(b","))
        for at in range(9_999)))),
    "one string often": ("bytes of text before this cell", lambda: table_workbook(
        (b"<row>" + b"<c t='s'><v>0</v></c>" * 9 + b"</row>" for _ in range(9_999)), **{SHARED: shared_strings(1, 32_000)})),
}  # fmt: skip
