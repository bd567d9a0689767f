"""A sheet: its rows of cells, and the settings that may change how they are shown."""

import functools
import re

from ..base import text
from .cell_content import CellContent
from .cells import CELLS, KINDS_OF_STRINGS, TEXTS, Cell, CellPlace, Numbers, Reversed, Rows, Styled
from .cells import column_name, column_number, text_of_kind, trimmed
from .fonts import BLACK, FONT, FONT_PARTS, OF_FONTS, PAPER, colour_of, strikes_out
from .formulas import has_name, has_volatile_function
from .limits import LAST_COLUMN, LAST_ROW, MOST_CELLS, MOST_ELEMENTS, MOST_OF_FORMULAS, MOST_RULES, MOST_TEXT, BadWorkbook, memory_size
from .part import ANY_OTHERS, EXTENSIONS, Attributes, truth_word, unsigned_number
from .styles import A_HIDING_FONT, A_NUMBER_FORMAT, A_STRIKING_FONT, Colours
from .texts import Strings, Texts
from .workbook import Workbook, is_calculation_due

PLACE = re.compile(r"[1-9][0-9]{0,6}")
RANGE = re.compile(r"\$?([A-Z]{1,3})\$?([1-9][0-9]{0,6})(?::\$?([A-Z]{1,3})\$?([1-9][0-9]{0,6}))?")
HIDING = "that hides numbers"


def hides_numbers(attributes: Attributes) -> bool:
    return truth_word(attributes, "showValue") == "FALSE"


class Sheet(CellContent):
    """The cells of a sheet. Rows and cells have to increase, so that none takes the place of another."""

    ROOT = "worksheet"
    PLACES = {
        "": ROOT,
        ROOT: "sheetViews sheetData sheetCalcPr mergeCells conditionalFormatting* tableParts extLst",
        "sheetViews": "sheetView* extLst",
        "sheetView": EXTENSIONS,
        "sheetData": "row*",
        "row": "c* extLst",
        "c": "f v is extLst",
        "is": Texts.TEXT,
        "r": Texts.RUN,
        "rPr": FONT,
        "rPh": Texts.PRONOUNCED,
        "mergeCells": "mergeCell*",
        "conditionalFormatting": "cfRule* extLst",
        "cfRule": "dataBar|iconSet* extLst",
        "tableParts": "tablePart*",
    }
    BETWEEN = {ROOT: {ANY_OTHERS, *(
        "sheetPr dimension sheetFormatPr cols sheetProtection protectedRanges scenarios autoFilter sortState"
        " dataConsolidate customSheetViews phoneticPr dataValidations hyperlinks printOptions pageMargins pageSetup"
        " headerFooter rowBreaks colBreaks customProperties cellWatches ignoredErrors smartTags drawing legacyDrawing legacyDrawingHF"
        " drawingHF picture oleObjects controls webPublishItems").split()},
        "sheetView": {ANY_OTHERS, *"pane selection pivotSelection".split()},
        "conditionalFormatting": {ANY_OTHERS}, "cfRule": {ANY_OTHERS, *"formula colorScale".split()},
        **dict.fromkeys(["dataBar", "iconSet"], {ANY_OTHERS, "cfvo", "color"}), "rPr": OF_FONTS}  # fmt: skip
    ELSEWHERE = {"dataBar", "iconSet", "rPr", *FONT_PARTS}

    def __init__(self, name: str, part: str, book: Workbook, most: int | None) -> None:
        super().__init__(f"sheet {text.quoted(name)}", book)
        self.part, self.most = part, most  # `most`: how many rows it may have after its first
        self.rows: Rows[Cell] = Rows(CELLS)
        self.needed = Numbers()  # the shared strings of its cells
        self.count_of_cells = self.size = self.size_of_formulas = self.count_of_rules = 0
        self.cells: list[Cell] = []  # of a row
        self.shared: str | None = None  # the number of the formula of a cell, if cells share it
        self.first_formula: CellPlace | None = None
        self.first_volatile: CellPlace | None = None
        self.is_volatile_alone, self.names_others = True, False  # whether all formulas are volatile; whether one names another sheet
        self.shared_volatile = Numbers()  # of the formulas that cells share, those that are volatile
        self.has_data = self.has_table = False
        self.fonts, self.fills = set[str | None]([BLACK]), set[str | None]([PAPER])  # colours of the cells below the first row
        self.later: Colours = {}  # of a conditional format of an extension
        self.is_font = False  # whether its font is read
        # Of each column in the range of a formula of many cells, the next row that needs a value, and the last one.
        self.unfilled: dict[int, list[int]] = {}

    def open_sheetView(self, attributes: Attributes) -> None:
        self.hides_zeros = self.hides_zeros or truth_word(attributes, "showZeros") == "FALSE"

    def open_sheetData(self, _: Attributes) -> None:
        self.has_data = True

    def open_row(self, attributes: Attributes) -> None:
        number_text = attributes.get("r", str(self.row + 1))
        number = int(number_text) if PLACE.fullmatch(number_text) else 0
        if not 1 <= number <= LAST_ROW:
            raise self.error_of(f"a row has the number {text.quoted(number_text)}: they go from 1 to {LAST_ROW}")
        self.refuse_unfilled_and_forget(number)
        last, self.row, self.column, self.cells, self.is_in_row = self.row, number, 0, [], True
        if number <= last:
            raise self.error_of("it occurs twice" if number == last else f"it stands after row {last}, but the rows should increase")

    def close_row(self) -> None:
        if self.cells:
            if self.most is not None and len(self.rows) > self.most:
                self.column = 0
                raise self.error_of(f"a table has at most {self.most:,} rows after its first")
            self.rows.add_row(self.row, self.cells)
        self.leave_row()

    def leave_row(self) -> None:
        self.column, self.cells, self.is_in_row = 0, [], False

    def open_c(self, attributes: Attributes) -> None:
        last = self.column
        found = attributes.get("r", f"{column_name(last + 1)}{self.row}")
        letters = found.rstrip("0123456789")
        column = column_number(letters)
        if not column or found != f"{letters}{self.row}":
            raise self.error_of(f"a cell of this row has the place {text.quoted(found)}")
        self.column = column
        if self.column > LAST_COLUMN:
            raise self.error_of(f"a row has at most {LAST_COLUMN} cells")
        if self.column <= last:
            words = f"it stands after {column_name(last)}{self.row}, but the cells of a row should increase"
            raise self.error_of("it occurs twice" if self.column == last else words)
        self.kind, self.style = attributes.get("t", "n"), attributes.get("s", "0")
        self.value = self.formula = self.shared = None
        self.is_marked = self.is_volatile = False

    def open_f(self, attributes: Attributes) -> None:
        self.is_volatile = truth_word(attributes, "ca") == "TRUE"
        self.shared = attributes.get("si")
        if attributes.get("t") in ("array", "dataTable") and "ref" in attributes:
            self.note_range_or_refuse(attributes.get("ref", ""))
        self.keep_text()

    def note_range_or_refuse(self, ref: str) -> None:
        """Notes the cells that a formula fills: each needs its value, which a program that doesn't compute formulas leaves out."""
        corners = RANGE.fullmatch(ref)
        if not corners or (column_number(corners[1]), int(corners[2])) != (self.column, self.row):
            raise self.error_of(f"its formula has the range {text.quoted(ref)}, which should begin at this cell")
        last, bottom = column_number(corners[3] or corners[1]), int(corners[4] or corners[2])
        for column in range(self.column, last + 1) if (last, bottom) != (self.column, self.row) else ():
            if column in self.unfilled:
                raise self.error_of("two formulas have it in their ranges")
            self.unfilled[column] = [self.row, bottom]

    def refuse_unfilled_and_forget(self, end: int) -> None:
        """Refuses the rows before this one if a cell in the range of a formula has no value there."""
        for column, (row, bottom) in list(self.unfilled.items()):
            if row < min(end, bottom + 1):
                words = "the formula that fills it was saved without its value here: open the workbook in Excel, and save it"
                raise self.error_at(CellPlace(row, column), words)
            if row > bottom:
                del self.unfilled[column]

    def close_sheetData(self) -> None:
        self.refuse_unfilled_and_forget(LAST_ROW + 1)

    def close_f(self) -> None:
        self.allow_no_text()
        self.formula = self.pop_text()
        self.count_formula_or_refuse(len(self.formula))
        self.note_volatile(self.formula)
        self.first_formula = self.first_formula or CellPlace(self.row, self.column)

    def count_formula_or_refuse(self, characters: int) -> None:
        self.size_of_formulas += characters
        if self.size_of_formulas > MOST_OF_FORMULAS:
            raise self.error_of(f"the sheet has more than {MOST_OF_FORMULAS:,} characters in its formulas up to this cell")

    def note_volatile(self, formula: str) -> None:
        """Notes whether the cell's formula is volatile. Of those that cells share, the first one has the text."""
        number = unsigned_number(self.shared or "")
        number = None if number is None or number >= MOST_ELEMENTS else number
        has_volatile = has_volatile_function(formula) or has_name(formula, self.book.volatile_names)
        self.is_volatile = self.is_volatile or has_volatile or number is not None and number in self.shared_volatile
        if self.is_volatile:
            self.first_volatile = self.first_volatile or CellPlace(self.row, self.column)
            if number is not None:
                self.shared_volatile.add(number)
        self.is_volatile_alone, self.names_others = self.is_volatile_alone and self.is_volatile, self.names_others or "!" in formula or "[" in formula

    def close_c(self) -> None:
        words = self.content_or_refuse()
        if self.column in self.unfilled and (self.value or self.value is not None and self.kind == "str"):
            self.unfilled[self.column][0] = self.row + 1
        if words == "":
            return
        if self.rows and (number := unsigned_number(self.style)) is not None and (found := self.book.styles.cell_format(number)):
            self.fonts.add(found.colours.font)
            self.fills.add(found.colours.fill)
        self.count_of_cells += self.column - len(self.cells)
        if self.count_of_cells > MOST_CELLS:
            raise self.error_of(f"the sheet has more than {MOST_CELLS:,} cells before this one: delete those that the table doesn't need")
        self.cells += [""] * (self.column - 1 - len(self.cells))
        self.cells.append(words)
        if isinstance(words, int):
            self.needed.add(words)
        else:
            self.count_text_or_refuse(words)

    def count_text_or_refuse(self, words: str) -> None:
        self.size += memory_size(words)
        if self.size > MOST_TEXT:
            raise self.error_of(f"the sheet has more than {MOST_TEXT:,} bytes of text before this cell")

    def open_sheetCalcPr(self, attributes: Attributes) -> None:
        """As `Workbook.open_calcPr`, but after the cells."""
        if self.first_formula and is_calculation_due(attributes):
            raise self.error_at(self.first_formula, "its formula was saved without its value: open the workbook in Excel, and save it")

    def open_mergeCell(self, attributes: Attributes) -> None:
        """Of merged cells only the first has a value, so that a row could seem to have none."""
        self.count_rule_or_refuse()
        ref = attributes.get("ref", "")
        corners = RANGE.fullmatch(ref)
        if not corners or not self.has_data:
            raise self.error_of(f"the merged cells {text.quoted(ref)} can't be read")
        if corners[3] is None or not self.rows:
            return
        (top, bottom), left = sorted((int(corners[2]), int(corners[4]))), min(column_number(corners[1]), column_number(corners[3]))
        is_apart = bottom < self.rows.numbers[0] or top > self.rows.numbers[-1] or left > self.width
        if not is_apart and (corners[1], corners[2]) != (corners[3], corners[4]):
            raise self.error_of(f"the cells {ref} are merged, but each row of a table has its own")

    def count_rule_or_refuse(self) -> None:
        self.count_of_rules += 1
        if self.count_of_rules > MOST_RULES:
            raise self.error_of(f"the sheet has more than {MOST_RULES:,} merged cells and conditional formats: delete those that the table doesn't need")

    def open_conditionalFormatting(self, attributes: Attributes) -> None:
        self.count_rule_or_refuse()
        self.ranges = attributes.get("sqref", "")

    def open_cfRule(self, attributes: Attributes) -> None:
        self.count_rule_or_refuse()
        number, styles = unsigned_number(attributes.get("dxfId", "")), self.book.styles
        if kind := styles.conditional.get(number):
            raise self.conditional_format_error(f"with {kind}")
        if self.hides_cells(styles.condition_colours.get(number, {})):
            raise self.conditional_format_error(f"with {A_HIDING_FONT}")

    @functools.cached_property
    def width(self) -> int:
        """The width of the widest row, once all cells are read."""
        return max(len(cells) for _, cells in self.rows)

    def hides_cells(self, colours: Colours) -> bool:
        """Whether the colours of a font and a fill, of which a format may leave cells their own, hide the text of a cell."""
        font, fill = colours.get("color"), colours.get("bgColor")
        return font == fill if font and fill else font in self.fills or fill in self.fonts

    def open_dataBar(self, attributes: Attributes) -> None:
        if hides_numbers(attributes):
            raise self.conditional_format_error(HIDING)

    open_iconSet = open_dataBar

    def conditional_format_error(self, kind: str) -> BadWorkbook:
        return self.error_of(f"the cells {text.quoted(self.ranges)} have a conditional format {kind}: delete it")

    def refuse_in_left_out_and_note_font(self, name: str, attributes: Attributes) -> None:
        """An extension has the conditional formats that Excel 2007 didn't have, each with its own number format and font."""
        kind = None
        if name == "numFmt":
            kind = f"with {A_NUMBER_FORMAT}"
        elif name == "strike" and strikes_out(attributes):
            kind = f"with {A_STRIKING_FONT}"
        elif name in ("dataBar", "iconSet") and hides_numbers(attributes):
            kind = HIDING
        elif name == "customSheetView" and self.zero and truth_word(attributes, "zeroValues") == "FALSE":
            raise self.error_at(self.zero, "it is a zero that a custom view of its sheet hides: delete the view")
        elif name == "bgColor" or name == "color" and self.is_font:
            self.later[name] = colour_of(attributes, self.palette)
        elif name in ("dxf", "sqref"):  # the latter is after the last format
            kind, self.later = f"with {A_HIDING_FONT}" if self.hides_cells(self.later) else None, {}
        self.is_font = name == "font" or self.is_font and name in FONT_PARTS | OF_FONTS
        if kind:
            raise self.error_of(f"it has a conditional format {kind}: delete it")

    def open_tablePart(self, _: Attributes) -> None:
        if self.book.styles.has_striking_tables:
            raise self.error_of("it has a table, and the workbook a style of tables that strikes out: delete the style")
        if not self.has_table and any(map(self.hides_cells, self.book.styles.table_colours)):
            raise self.error_of(f"it has a table, and the workbook a style of tables with {A_HIDING_FONT}: delete the style")
        self.has_table = True

    def rows_or_refuse(self, shared: Strings) -> Rows[str]:
        """The rows that aren't empty, with their shared strings."""
        if not self.has_data:
            raise self.error_of("it has no table of cells")
        rows: Rows[str] = Rows(TEXTS)
        self.is_in_row = True
        for self.row, cells in self.rows:
            if found := trimmed([self.text_or_refuse(cell, column, shared) for column, cell in enumerate(cells, 1)]):
                rows.add_row(self.row, found)
        return rows

    def text_or_refuse(self, cell: Cell, column: int, shared: Strings) -> str:
        if isinstance(cell, str):
            return cell
        self.column = column
        words = shared.texts.get(cell)
        if words is None:
            raise self.error_of(f"it has no string '{cell}'")
        kind = KINDS_OF_STRINGS[type(cell)]
        if kind in (str, Reversed) and cell in shared.styled:
            kind = Styled
        self.count_text_or_refuse(words)
        return text_of_kind(kind, words)
