"""The limits of the workbooks that are read, and the faults of the others."""

# A workbook that isn't larger than a table of orders needs keeps to these limits.
MOST_PARTS = 2_000  # files in it
MOST_UNPACKED = 96 * 2**20  # bytes of the parts that are read
MOST_ELEMENTS = 1_200_000  # in these parts
MOST_CELLS = 300_000  # of a table; an empty cell counts if one after it in its row has a value
MOST_TEXT = 4 * 2**20  # bytes that the characters of these cells take
MOST_NAMES, MOST_NAMED = 10_000, 2**20  # of elements, attributes and namespaces in a part, and characters of these
MOST_NAMESPACES = 100_000  # declared in a part
MOST_HEADS = 50_000  # strings in the first rows of all sheets
MOST_SHEETS, MOST_OWN_FORMATS = 1_000, 2_000
MOST_LOOKS = 20_000  # fonts, fills, formats of conditions, and parts of styles of tables
MOST_RULES = 100_000  # merged cells and conditional formats of a sheet
MOST_OF_FORMATS = 100_000  # characters of its own formats
MOST_OF_FORMULAS = 16 * 2**20  # characters of the formulas of a sheet, and of those in the first rows of all sheets
MOST_DEFINED, MOST_OF_DEFINED = 20_000, 2 * 2**20  # names of formulas, and characters of these formulas and names
LONGEST_MARKUP, LONGEST_NAME = 65_536, 1_000  # bytes of a tag or comment; characters of a name
DEEPEST = 32  # elements in one another
CHUNK = 65_536
# Those of Excel.
LAST_ROW, LAST_COLUMN, LONGEST_CELL, LONGEST_FORMAT, MOST_FORMATS = 2**20, 2**14, 32_767, 255, 65_490


class BadWorkbook(Exception):
    """A file that isn't a workbook, or a sheet that can't be read whole."""


def broken_error(words: str) -> BadWorkbook:
    return BadWorkbook(f"line 1: the Excel workbook can't be read: {words}")


def too_many_error(most: int, things: str) -> BadWorkbook:
    return broken_error(f"it has more than {most:,} {things}")


def memory_size(words: str) -> int:
    """The bytes that the characters of a text take in memory: each takes as many as the widest."""
    return len(words) * (1 if words.isascii() or (widest := max(words)) <= "\xff" else 2 if widest <= "\uffff" else 4)
