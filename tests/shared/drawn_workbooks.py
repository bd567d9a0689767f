"""Random Excel workbooks, each written in one of the many ways that Excel allows; and workbooks whose sheet is given."""

import io
import random
import zipfile
from collections.abc import Iterable, Mapping
from typing import NamedTuple

from lib.tables import order_table
from lib.workbooks.cells import Changed

Piece = bytes | Iterable[bytes]
TYPES = "http://schemas.openxmlformats.org/package/2006/content-types"
RELATIONS = "http://schemas.openxmlformats.org/package/2006/relationships"
MAIN = "http://schemas.openxmlformats.org/spreadsheetml/2006/main", "http://purl.oclc.org/ooxml/spreadsheetml/main"
OFFICE = "http://schemas.openxmlformats.org/officeDocument/2006/relationships", "http://purl.oclc.org/ooxml/officeDocument/relationships"
STYLE_SHEET = (
    '<styleSheet xmlns="{}"><numFmts count="5"><numFmt numFmtId="164" formatCode="[$-407]d\\.\\ mmm&quot;h&quot;"/>'
    '<numFmt numFmtId="165" formatCode="&quot;days&quot; 0.0\\h;[Red]-0"/><numFmt numFmtId="166" formatCode="0 0"/>'
    '<numFmt numFmtId="167" formatCode="#\\ ##0"/><numFmt numFmtId="168" formatCode="[White]0"/></numFmts>'
    '<fonts><font/><font><strike val="0"/><vertAlign val="superscript"/><sz val="8"/></font></fonts>'
    '<cellStyleXfs><xf numFmtId="14"/></cellStyleXfs><cellXfs><xf/><xf numFmtId="164"/><xf numFmtId="20"/>'
    '<xf numFmtId="165" fontId="1"/><xf numFmtId="166"/><xf numFmtId="167"/><xf numFmtId="168"/>'
    '<xf><alignment readingOrder="2"/></xf></cellXfs></styleSheet>'
)
WORDS = ["A", "H1", "hour", "Straße", "\U0001f600", "a  b", "1", "1;2,5", "&lt;v>5&lt;/v>", "&#65;B", "<![CDATA[<row>]]>"]
READ = {"&lt;v>5&lt;/v>": "<v>5</v>", "&#65;B": "AB", "<![CDATA[<row>]]>": "<row>"}
NUMBERS = {"5": "5", "-500": "-500", "12.5": "12.5", "0.30000000000000004": "0.3", "1E2": "100", "2.5E-1": "0.25", "007": "7"}
OTHERS = [  # cells that aren't of words, and the text of each
    ('t="b"', "<v>1</v>", "TRUE"),
    ('t="e"', "<v>#N/A</v>", "#N/A"),
    ('t="d"', "<v>2026-08-20T00:00:00</v>", "2026-08-20"),
    ('s="1"', "<v>46254</v>", "2026-08-20"),
    ('s="1"', "<v>59</v>", "1900-02-28"),
    ('s="2"', "<v>0.29166666666666669</v>", "07:00"),
    ('t="str"', '<f t="shared" si="0"/><v>A</v>', "A"),
    ('s="5"', "<v>1234</v>", "1234"),
    ('s="7"', "<v>12</v>", "12"),
    ('s="7" t="str"', "<v>K1</v>", "K1"),
    # cells that no column of orders may have
    ('s="3"', "<v>4</v>", Changed("4 days")),
    ('s="4"', "<v>12</v>", Changed("12")),
    ('s="6"', "<v>12</v>", Changed("12")),
    ('s="7"', "<v>-12</v>", Changed("-12")),
    ('s="7" t="str"', "<v>1;2</v>", Changed("1;2")),
    ("", "<f>B2*2</f>", Changed("=B2*2")),
    ("", "<f>B2*2</f><v/>", Changed("=B2*2")),
    ("", "<f>RAND()</f><v>5</v>", Changed("=RAND()")),
    ('t="str"', '<f ca="1">B2</f><v>A</v>', Changed("=B2")),
]
HABITS = ["", ' hidden="1"', ' spans="1:2"']
EMPTY = [("", ""), ('s="3"', ""), ('t="s"', ""), ("", "<v/>"), ('t="str"', "<f>A1</f><v></v>"), ('t="inlineStr"', "<is><t/></is>")]
# The first row of a sheet that is given has the columns of a table of orders.
HEADS = "".join(f"<c t='inlineStr'><is><t>{name}</t></is></c>" for name in order_table.ORDER).encode()
ROOT = f'<worksheet xmlns="{MAIN[0]}">'.encode()
OPEN, CLOSE = ROOT + b"<sheetData><row>" + HEADS + b"</row>", b"</sheetData></worksheet>"
BOOK, SHEET, SHARED, STYLES = "xl/workbook.xml", "xl/worksheets/sheet1.xml", "xl/sharedStrings.xml", "xl/styles.xml"


class Cell(NamedTuple):
    attributes: str
    content: str
    text: str


def column_letters(column: int) -> str:
    return (column_letters((column - 1) // 26) if column > 26 else "") + chr(65 + (column - 1) % 26)


class RandomWorkbook:
    """A random workbook: its cells by row and column, and how it is written. A broken one differs in one place."""

    def __init__(self, rng: random.Random) -> None:
        self.rng = rng
        self.strings: list[str] = []
        self.form = rng.randrange(2)
        self.prefix = rng.choice(["", "", "x:"])
        self.rows = self.draw_rows()
        self.has_places = rng.random() < 0.8
        self.name = rng.choice(["orders", "Sheet 1"])
        self.after = ""  # the cells
        self.changes: dict[str, bytes] = {}  # the bytes of parts, instead of the right ones

    def draw_rows(self) -> list[tuple[int, list[tuple[int, Cell]]]]:
        rng, rows, number = self.rng, [], 0
        for _ in range(rng.randint(2, 6)):
            number += rng.choice([1, 1, 1, 2, 1000])
            columns = sorted(rng.sample(range(1, 31 if rng.random() < 0.2 else 10), rng.randint(2, 5)))
            rows.append((number, [(column, self.draw_cell()) for column in columns]))
        return rows

    def draw_cell(self) -> Cell:
        rng, kind = self.rng, self.rng.randrange(8)
        words = rng.choice(WORDS)
        text = READ.get(words, words)
        if kind == 0:
            return Cell(*rng.choice(EMPTY), "")
        if kind == 1:
            return Cell(*rng.choice(OTHERS))
        if kind == 2:
            value, text = rng.choice(list(NUMBERS.items()))
            return Cell(rng.choice(["", 't="n"', 's="0"']), f"<v>{value}</v>", text)
        if kind == 3:
            return Cell('t="inlineStr"', f"<is><t>{words}</t></is>", text)
        if kind == 4:
            first = f"<r><rPr><b/><strike val='false'/></rPr><t>{words}</t></r>"
            rich = f"<is>{first}<r><t xml:space='preserve'> b_x0041_</t></r><rPh><t>no</t></rPh></is>"
            return Cell('t="inlineStr"', rich, f"{text} bA")
        self.strings.append(f"<si><t>{words}</t></si>" if kind < 7 else f"<si><r><t>{words}</t></r><r><t>_x005F_x</t></r></si>")
        return Cell('t="s"', f"<v>{len(self.strings) - 1}</v>", text if kind < 7 else f"{text}_x")

    def expected_rows(self) -> list[tuple[int, list[str]]]:
        """The rows that aren't empty, without the empty cells at their ends."""
        found = []
        for number, cells in self.rows:
            texts = [""] * 99
            for column, cell in cells:
                texts[column - 1] = cell.text
            if any(texts):
                found.append((number, trimmed(texts)))
        return found

    def draw_sheet_text(self) -> str:
        rng = self.rng
        parts = ["<worksheet><sheetPr/>", rng.choice(["", '<dimension ref="A1"/>', '<dimension ref="A1:B3"/>']), "<sheetData>"]
        last = 0
        for number, cells in self.rows:
            place = "" if number == last + 1 and not self.has_places else f' r="{number}"'
            parts.append(f"<row{place}{rng.choice(HABITS)}>")
            last, behind = number, 0
            for column, cell in cells:
                place = "" if column == behind + 1 and not self.has_places else f' r="{column_letters(column)}{number}"'
                parts.append(f"<c{place} {cell.attributes}>{cell.content}</c>")
                behind = column
            parts.append(rng.choice(["</row>", "<extLst><ext/></extLst></row>", "\n</row><!-- - -->"]))
        return "".join([*parts, "</sheetData>", self.after, "<mergeCells><mergeCell ref='AZ1:BA9000'/></mergeCells></worksheet>"])

    def draw_parts(self) -> dict[str, bytes]:
        """The parts of the workbook, by name."""
        rng, main, office = self.rng, MAIN[self.form], OFFICE[self.form]
        start = rng.choice(["", "/xl/", "./", "../xl/"])
        relations = [(1, "worksheet", "worksheets/sheet1.xml"), (2, "sharedStrings", "sharedStrings.xml"), (3, "styles", "styles.xml")]
        relations += [(4, "chartsheet", "chartsheets/1.xml"), (5, "worksheet", "worksheets/other.xml")]
        told = "".join(f'<Relationship Id="r{at}" Type="{office}/{kind}" Target="{start}{target}"/>' for at, kind, target in relations)
        named = [("Chart", 4), (self.name, 1), ("Other", 5)]
        if self.name == "orders":
            rng.shuffle(named)
        sheets = "".join(f'<sheet name="{name}" sheetId="{at}" r:id="r{at}"/>' for name, at in named)
        made = {
            "[Content_Types].xml": f'<Types xmlns="{TYPES}"/>',
            "_rels/.rels": f'<Relationships xmlns="{RELATIONS}"><Relationship Id="a" Type="{office}/officeDocument" '
            'Target="xl/workbook.xml"/></Relationships>',
            BOOK: f'<workbook xmlns="{main}" xmlns:r="{office}"><sheets>{sheets}</sheets></workbook>',
            "xl/_rels/workbook.xml.rels": f'<Relationships xmlns="{RELATIONS}">{told}</Relationships>',
            STYLES: STYLE_SHEET.format(main),
            SHARED: self.qualified_part(f"<sst>{''.join(self.strings)}</sst>"),
            SHEET: self.qualified_part(self.draw_sheet_text()),
            "xl/worksheets/other.xml": f'<worksheet xmlns="{main}"><sheetData><row><c><v>9</v></c></row></sheetData></worksheet>',
        }
        return {**{name: self.draw_encoded(content) for name, content in made.items()}, **self.changes}

    def qualified_part(self, content: str) -> str:
        """A part with its namespace, and with a prefix before each name."""
        root, rest = content[1:].split(">", 1)
        if not self.prefix:
            return f'<{root} xmlns="{MAIN[self.form]}">{rest}'
        rest = rest.replace("<![CDATA[<row>]]>", "&lt;row>").replace("<!--", "\0")
        rest = rest.replace("</", "\1").replace("<", "<x:").replace("\1", "</x:").replace("\0", "<!--")
        return f'<x:{root} xmlns:x="{MAIN[self.form]}">{rest}'

    def draw_encoded(self, content: str) -> bytes:
        how = self.rng.randrange(6)
        if how == 0:
            return ('<?xml version="1.0" encoding="UTF-16"?>' + content).encode("utf-16")
        return (b"\xef\xbb\xbf" if how == 1 else b'<?xml version="1.0" encoding="UTF-8"?>\r\n') + content.encode()

    def draw_bytes(self) -> bytes:
        return archive_bytes(self.draw_parts(), self.rng.choice([zipfile.ZIP_STORED, zipfile.ZIP_DEFLATED]))


def archive_bytes(parts: Mapping[str, bytes | Iterable[bytes]], compression: int = zipfile.ZIP_DEFLATED) -> bytes:
    """A zip archive of parts, each a name with bytes or with the pieces of them."""
    out = io.BytesIO()
    with zipfile.ZipFile(out, "w", compression) as file:
        for name, content in parts.items():
            with file.open(name, "w") as part:
                for piece in [content] if isinstance(content, bytes) else content:
                    part.write(piece)
    return out.getvalue()


def trimmed(texts: list[str]) -> list[str]:
    while texts and not texts[-1]:
        texts = texts[:-1]
    return texts


def workbook_of_sheet(*pieces: Piece, **parts: Piece) -> bytes:
    """A workbook of a sheet, whose pieces are bytes or make them; other parts by name."""
    drawn = RandomWorkbook(random.Random(1))
    drawn.form, drawn.name = 0, "orders"
    made: dict[str, Piece] = {**drawn.draw_parts(), **parts}
    flat = (each for piece in pieces for each in ([piece] if isinstance(piece, bytes) else piece))
    return archive_bytes({**made, SHEET: flat})
