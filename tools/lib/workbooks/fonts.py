"""The fonts and colours of a workbook: which ones hide a text, or strike it out."""

import re
from collections.abc import Mapping

from .part import ANY_OTHERS, BLANK, Attributes, truth_word, unsigned_number

Palette = Mapping[str, str | None]  # of colours by their numbers, each in its written form; None for the one that a program chooses
# The parts of a font: of these, the ones that change the meaning of a text, and others.
FONT_PARTS = {"strike", "vertAlign", "color", "sz", "name", "rFont", "charset"}
FONT = "|".join(f"{name}*" for name in sorted(FONT_PARTS))
OF_FONTS = {ANY_OTHERS, *"b i condense extend outline shadow u family scheme".split()}
PAPER, BLACK = "FFFFFF", "000000"
INDEXED = {f"indexed {number}": colour for number, colour in {0: BLACK, 1: PAPER, 8: BLACK, 9: PAPER, 64: BLACK, 65: PAPER}.items()}
COLOUR, TINT = re.compile("(?:[0-9A-Fa-f]{2})?[0-9A-Fa-f]{6}"), re.compile(r"[+-]?[0-9]*\.?[0-9]+(?:[eE][+-]?[0-9]{1,2})?")
LEAST_SIZE = 4  # of a font, in points
SYMBOLS = {
    "wingdings", "wingdings 2", "wingdings 3", "webdings", "symbol", "marlett", "mt extra", "zapfdingbats", "zapf dingbats",
    "itc zapf dingbats", "opensymbol", "segoe mdl2 assets", "segoe fluent icons", "bookshelf symbol 7",
}  # fmt: skip
OF_SYMBOLS = "2"  # the characters of a font of symbols


def colour_of(attributes: Attributes, palette: Palette) -> str | None:
    """A colour, of which all that look white are one; None of the one that a program chooses. `palette`: the colours with numbers."""
    rgb, theme = (attributes.get(name, "").strip(BLANK) for name in ("rgb", "theme"))
    if COLOUR.fullmatch(rgb):
        return PAPER if all(byte >= 0xF0 for byte in bytes.fromhex(rgb[-6:])) else rgb[-6:].upper()
    tint = attributes.get("tint", "0").strip(BLANK)
    if theme:
        change = float(tint) if TINT.fullmatch(tint) else 0
        is_white = theme == "0" and change >= -0.06 or theme == "1" and change > 0.93
        return PAPER if is_white else BLACK if theme == "1" and not change else f"theme {theme} {change}"[:40]
    colour = f"indexed {unsigned_number(attributes.get('indexed', ''))}"
    return None if colour == "indexed None" else palette.get(colour, colour)


def is_unreadable(name: str, attributes: Attributes) -> bool:
    """Whether an element of a font makes it one of symbols, or too small to be read."""
    value = attributes.get("val", "").strip(BLANK)
    if name == "sz":
        return bool(TINT.fullmatch(value)) and float(value) < LEAST_SIZE
    return value == OF_SYMBOLS if name == "charset" else value.lower() in SYMBOLS


def changes_text(name: str, attributes: Attributes, palette: Palette) -> bool:
    """Whether an element of a font lets a part of a text count otherwise: one above or below the line, or one that isn't seen."""
    if name == "color":
        return colour_of(attributes, palette) == PAPER
    if name == "vertAlign":
        return attributes.get("val", "").strip(BLANK) != "baseline"
    return strikes_out(attributes) if name == "strike" else is_unreadable(name, attributes)


def strikes_out(attributes: Attributes) -> bool:
    return truth_word(attributes, "val") != "FALSE"
