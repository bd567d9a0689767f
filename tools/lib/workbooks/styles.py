"""The styles of a workbook: how each format of cells shows numbers and texts."""

from collections.abc import Iterable
from typing import NamedTuple

from ..base import text
from .cells import Currency, Date, Formatted, Percentage, Repeated, Reversed, Struck, Styled, Unseen
from .fonts import BLACK, FONT, FONT_PARTS, INDEXED, OF_FONTS, PAPER, colour_of, is_unreadable, strikes_out
from .limits import LONGEST_FORMAT, MOST_FORMATS, MOST_LOOKS, MOST_OF_FORMATS, MOST_OWN_FORMATS, broken_error, too_many_error
from .number_formats import Fractions, Shown, format_function, general_text, sections_function, shows_texts
from .part import ANY_OTHERS, BLANK, Attributes, Part, unsigned_number

# The numbers of Excel's own formats: of all digits, of dates and times, of percentages, of the currency of each system, and of some digits.
ROUNDING_FORMATS = {
    "0": (1,), "#,##0": (3, 37, 38, 41, 59, 61), "0.00": (2, 4, 39, 40, 43, 60, 62),
    "0.00E+00": (11,), "# ?/?": (12, 69), "# ??/??": (13, 70), "##0.0E+0": (48,),
}  # fmt: skip
OWN_FORMATS: list[tuple[Iterable[int], Shown]] = [
    ((0, 49), general_text), ({*range(14, 23), *range(27, 37), *range(45, 48), *range(50, 59), *range(71, 82)}, Date),
    ((9, 10, 67, 68), Percentage), ({*range(5, 9), *range(23, 27), 42, 44, *range(63, 67)}, Currency),
    *((numbers, sections_function(code, Fractions())) for code, numbers in ROUNDING_FORMATS.items()),
]  # fmt: skip


def format_number_or_refuse(attributes: Attributes) -> int:
    """The number of a format; 0 is that of General."""
    words = attributes.get("numFmtId", "0")
    number = unsigned_number(words)
    if number is None:
        raise broken_error(f"a format has the number {text.quoted(words)}")
    return number


PATTERN = ""  # the colour of a fill that has several, or one that isn't known
MOST_MERGED = 4_096  # formats of cells that are kept as they are shown
FROM_RIGHT = 2  # the reading order of an alignment: from right to left

# Why the format of a condition changes the shown value.
A_NUMBER_FORMAT, A_STRIKING_FONT, A_HIDING_FONT = "a number format", "a font that strikes out", "a font in the colour of its cells"

Colours = dict[str, str | None]  # of the elements of a format of conditions


class ColourPair(NamedTuple):
    font: str | None
    fill: str | None


class Format(NamedTuple):
    number: int  # of the format of numbers
    font: int | None
    fill: int | None
    is_filled: bool = False  # whether the cells are filled with their content again and again
    is_from_right: bool = False


class CellFormat(NamedTuple):
    """How cells with a format are shown."""

    numbers: Shown  # a `Date`, a `Percentage`, `general_text`, or by the sections of a format
    texts: type[str]  # the kind of a text
    is_from_right: bool
    colours: ColourPair


GENERAL_FORMAT = CellFormat(general_text, str, False, ColourPair(BLACK, PAPER))


class Styles(Part):

    ROOT = "styleSheet"
    PLACES = {
        "": ROOT,
        ROOT: "numFmts fonts fills cellXfs dxfs tableStyles colors extLst",
        "numFmts": "numFmt*",
        "fonts": "font*",
        "font": FONT,
        "fills": "fill*",
        "fill": "patternFill|gradientFill",
        "patternFill": "fgColor bgColor",
        "cellXfs": "xf*",
        "xf": "alignment extLst",
        "dxfs": "dxf*",
        "dxf": "font numFmt fill extLst",
        "tableStyles": "tableStyle*",
        "tableStyle": "tableStyleElement*",
        "colors": "indexedColors",
        "indexedColors": "rgbColor*",
    }
    BETWEEN = {
        ROOT: {ANY_OTHERS, *"borders cellStyleXfs cellStyles".split()},
        "xf": {ANY_OTHERS, "protection"},
        "dxf": {ANY_OTHERS, *"alignment border protection".split()},
        "colors": {ANY_OTHERS, "mruColors"},
        "fonts": {ANY_OTHERS},
        "fills": {ANY_OTHERS},
        "fill": {ANY_OTHERS},
        "gradientFill": {ANY_OTHERS, "stop"},
        "font": OF_FONTS,
    }
    OF_FILLS = {"fill", "patternFill", "gradientFill", "fgColor", "bgColor"}
    ELSEWHERE = {"numFmt", "xf", "alignment", "dxfs", "dxf", "font", *FONT_PARTS, *OF_FILLS}

    def __init__(self) -> None:
        super().__init__()
        self.fractions = Fractions()
        self.codes: dict[int, str] = {}  # of the workbook's own formats, by their numbers
        self.shown: dict[int, Shown] = {number: shown for numbers, shown in OWN_FORMATS for number in numbers}
        self.own = self.characters = 0  # how many formats the workbook has of its own, and their length
        self.formats: list[Format] = []
        self.cell_formats: dict[Format, CellFormat] = {}  # of those that cells have
        self.styled: set[int] = set()  # the numbers of formats that show texts in another way
        self.fonts = self.fills = self.own_colours = self.conditions = 0  # how many there are; the latter are formats
        self.looks = 0  # how many of these there are, and of the parts of styles of tables
        self.struck_fonts: set[int] = set()
        self.colours: dict[int | None, str] = {}  # of fonts
        self.unreadable: set[int] = set()  # the fonts that can't be read
        self.backgrounds: dict[int | None, str | None] = {}  # the colours of fills
        self.is_solid = False  # whether the fill that is read has one colour
        self.palette: dict[str, str | None] = dict(INDEXED)
        self.conditional: dict[int | None, str] = {}  # why some formats of conditions change the shown value
        self.condition_colours: dict[int | None, Colours] = {}
        self.has_striking_tables = False  # whether a style of tables strikes out
        self.of_table: dict[int | None, Colours] = {}  # the formats of a style of tables
        self.table_colours: list[Colours] = []  # of all these styles

    def open_numFmt(self, attributes: Attributes) -> None:
        code = attributes.get("formatCode", "")
        if len(code) > LONGEST_FORMAT:
            raise broken_error(f"a format has more than {LONGEST_FORMAT} characters")
        self.own += 1
        if self.own > MOST_OWN_FORMATS:
            raise too_many_error(MOST_OWN_FORMATS, "number formats")
        self.characters += len(code)
        if self.characters > MOST_OF_FORMATS:
            raise too_many_error(MOST_OF_FORMATS, "characters in its number formats")
        shown, is_plain = format_function(code, self.fractions), shows_texts(code)
        if self.within[-2] == "dxf":
            if shown is not general_text or not is_plain:
                self.conditional.setdefault(self.conditions - 1, A_NUMBER_FORMAT)
            return
        number = format_number_or_refuse(attributes)
        if self.codes.setdefault(number, code) != code:
            raise broken_error(f"two formats have the number {number}")
        self.shown[number] = shown
        if not is_plain:
            self.styled.add(number)

    def count_look_or_refuse(self) -> None:
        self.looks += 1
        if self.looks > MOST_LOOKS:
            raise too_many_error(MOST_LOOKS, "fonts, fills, formats of conditions and parts of styles of tables: delete those that no cell needs")

    def open_font(self, _: Attributes) -> None:
        if self.within[-2] == "fonts":
            self.fonts += 1
            self.count_look_or_refuse()

    def open_strike(self, attributes: Attributes) -> None:
        if strikes_out(attributes) and self.within[-3] == "fonts":
            self.struck_fonts.add(self.fonts - 1)
        elif strikes_out(attributes):
            self.conditional[self.conditions - 1] = A_STRIKING_FONT

    def open_color(self, attributes: Attributes) -> None:
        if colour := colour_of(attributes, {}):
            if self.within[-3] == "fonts":
                self.colours[self.fonts - 1] = colour
            elif "dxf" in self.within:
                self.condition_colours.setdefault(self.conditions - 1, {})[self.within[-1]] = colour

    open_bgColor = open_color  # which a format of conditions has for its fill

    def open_sz(self, attributes: Attributes) -> None:
        if self.within[-3] == "fonts" and is_unreadable(self.within[-1], attributes):
            self.unreadable.add(self.fonts - 1)

    open_name = open_charset = open_sz

    def open_fill(self, _: Attributes) -> None:
        if self.within[-2] == "fills":
            self.fills += 1
            self.count_look_or_refuse()

    def open_patternFill(self, attributes: Attributes) -> None:
        pattern = attributes.get("patternType", "none").strip(BLANK)
        self.is_solid = pattern == "solid"
        if pattern != "none" and self.within[-3] == "fills":
            self.backgrounds[self.fills - 1] = PATTERN

    def open_gradientFill(self, _: Attributes) -> None:
        if self.within[-3] == "fills":
            self.backgrounds[self.fills - 1] = PATTERN

    def open_fgColor(self, attributes: Attributes) -> None:
        if self.is_solid and self.within[-4] == "fills":
            self.backgrounds[self.fills - 1] = colour_of(attributes, {}) or PATTERN

    def open_rgbColor(self, attributes: Attributes) -> None:
        if self.own_colours < 64:  # Excel keeps the later ones
            self.palette[f"indexed {self.own_colours}"] = colour_of(attributes, {})
        self.own_colours += 1

    def close_styleSheet(self) -> None:
        for colours in self.condition_colours.values():
            colours.update({name: self.plain(colour) for name, colour in colours.items()})

    def cell_format(self, number: int) -> CellFormat | None:
        """The format of this number, if there is one, once all is read."""
        if number >= len(self.formats):
            return None
        form = self.formats[number]
        found = self.cell_formats.get(form)
        if found is None:
            if len(self.cell_formats) == MOST_MERGED:
                self.cell_formats.clear()
            found = self.cell_formats[form] = self.merged_format(form)
        return found

    def merged_format(self, form: Format) -> CellFormat:
        """Of several reasons why a text or a number is shown in another way, the one that counts most."""
        colours = ColourPair(self.plain(self.colours.get(form.font, BLACK)), self.plain(self.backgrounds.get(form.fill, PAPER)))
        numbers, texts = self.shown.get(form.number, Formatted), str
        if form.is_from_right:
            texts = Reversed
        if form.is_filled or form.number in self.styled:
            texts = Styled
        if form.font in self.unreadable or colours.font == colours.fill:
            numbers = texts = Unseen
        if form.font in self.struck_fonts:
            numbers = texts = Struck
        if form.is_filled and numbers not in (Date, Percentage):
            numbers = Repeated
        return CellFormat(numbers, texts, form.is_from_right, colours)

    def plain(self, colour: str | None) -> str | None:
        return colour and self.palette.get(colour, colour)

    def open_dxf(self, _: Attributes) -> None:
        self.conditions += 1
        self.count_look_or_refuse()

    def open_tableStyleElement(self, attributes: Attributes) -> None:
        """A style of tables has the fonts of formats that conditions may have too."""
        self.count_look_or_refuse()
        number = unsigned_number(attributes.get("dxfId", ""))
        self.has_striking_tables = self.has_striking_tables or self.conditional.get(number) == A_STRIKING_FONT
        if number in self.condition_colours:
            self.of_table[number] = self.condition_colours[number]

    def close_tableStyle(self) -> None:
        """A part of a table without a font or a fill of its own may have that of another part, which isn't known."""
        found, self.of_table = self.of_table.values(), {}
        told = set().union(*found)
        self.table_colours += [each for each in found if set(each) == told]

    def open_xf(self, attributes: Attributes) -> None:
        font, fill = (unsigned_number(attributes.get(name, "0")) for name in ("fontId", "fillId"))
        self.formats.append(Format(format_number_or_refuse(attributes), font, fill))
        if len(self.formats) > MOST_FORMATS:
            raise too_many_error(MOST_FORMATS, "formats of cells")

    def open_alignment(self, attributes: Attributes) -> None:
        """A cell may be filled with its text or number, again and again, or be shown from right to left."""
        is_from_right = unsigned_number(attributes.get("readingOrder", "0")) == FROM_RIGHT
        is_filled = attributes.get("horizontal", "").strip(BLANK) == "fill"
        self.formats[-1] = self.formats[-1]._replace(is_filled=is_filled, is_from_right=is_from_right)
