"""The ways in which a random workbook is broken: each changes a drawn one, or returns its bytes, and returns the words that the fault must
have."""

import random
import re
import zipfile
from collections.abc import Callable, Sequence

from shared.drawn_workbooks import SHEET, Cell, RandomWorkbook, archive_bytes, column_letters

Break = Callable[[RandomWorkbook], str | bytes]
Cells = list[tuple[int, Cell]]  # by column
Rows = list[tuple[int, Cells]]  # by number
ChangeOfRows = Callable[[random.Random, Rows], Rows]
ChangeOfCells = Callable[[random.Random, Cells], Cells]


def break_function_of_rows(words: str) -> Callable[[ChangeOfRows], Break]:
    """Makes a break of a change to the list of rows, with the words of its fault."""

    def breaking(change: ChangeOfRows) -> Break:
        def break_rows(drawn: RandomWorkbook) -> str:
            drawn.has_places = True
            drawn.rows = change(drawn.rng, list(drawn.rows))
            return words

        break_rows.__name__ = change.__name__
        return break_rows

    return breaking


@break_function_of_rows("should increase")
def swap_rows(rng: random.Random, rows: Rows) -> Rows:
    at = rng.randrange(1, len(rows))
    rows[at - 1], rows[at] = rows[at], rows[at - 1]
    return rows


@break_function_of_rows("occurs twice")
def repeat_row(rng: random.Random, rows: Rows) -> Rows:
    at = rng.randrange(1, len(rows))
    rows[at] = rows[at - 1][0], rows[at][1]
    return rows


@break_function_of_rows("they go from 1 to 1048576")
def add_row_far_away(rng: random.Random, rows: Rows) -> Rows:
    return [*rows, (rng.choice([1_048_577, 5_000_000, 999_999_999]), rows[0][1])]


def break_function_of_cells(words: str) -> Callable[[ChangeOfCells], Break]:
    """Makes a break of a change to the cells of one row, with the words of its fault."""

    def breaking(change: ChangeOfCells) -> Break:
        def change_row(rng: random.Random, rows: Rows) -> Rows:
            at = rng.randrange(len(rows))
            number, cells = rows[at]
            rows[at] = number, change(rng, list(cells))
            return rows

        change_row.__name__ = change.__name__
        return break_function_of_rows(words)(change_row)

    return breaking


@break_function_of_cells("should increase")
def swap_cells(rng: random.Random, cells: Cells) -> Cells:
    at = rng.randrange(1, len(cells))
    cells[at - 1], cells[at] = cells[at], cells[at - 1]
    return cells


@break_function_of_cells("occurs twice")
def repeat_cell(rng: random.Random, cells: Cells) -> Cells:
    at = rng.randrange(1, len(cells))
    cells[at] = cells[at - 1][0], cells[at][1]
    return cells


@break_function_of_cells("")
def add_cell_far_away(rng: random.Random, cells: Cells) -> Cells:
    return [*cells, (rng.choice([16_385, 20_000, 500_000]), cells[0][1])]


@break_function_of_cells("")
def replace_cell_by_no_kind(rng: random.Random, cells: Cells) -> Cells:
    wrong = ['t="x"|<v>1</v>', 't="b"|<v>2</v>', "|<v>NaN</v>", "|<v>1e999</v>", "|<v>1 2</v>", 't="s"|<v>9999</v>', 't="s"|<v>-1</v>']
    wrong += ["|<v>1</v><v>2</v>", "|<is><t>1</t></is>", 't="inlineStr"|<v>1</v>', "|<w>1</w>", "|<v>1<t>2</t></v>", 's="99"|<v>1</v>']
    wrong += ['s="x"|<v>1</v>', 's="1"|<v>-5</v>', "|<f>1</f><f>2</f><v>1</v>", f't="str"|<v>{"x" * 40_000}</v>', 't="d"|<v>May</v>']
    at = rng.randrange(len(cells))
    attributes, content = rng.choice(wrong).split("|")
    cells[at] = cells[at][0], Cell(attributes, content, "")
    return cells


def merge_cells(drawn: RandomWorkbook) -> str | bytes:
    if len(drawn.expected_rows()) < 2:
        return repeat_cell(drawn)
    (first, _), *_, (last, cells) = drawn.expected_rows()
    drawn.after = f'<mergeCells><mergeCell ref="A{first}:{column_letters(len(cells))}{last}"/></mergeCells>'
    return "are merged"


def add_second_table(drawn: RandomWorkbook) -> str:
    drawn.after = '<sheetData><row r="9999"/></sheetData>'
    return "two elements 'sheetData'"


def break_function_of_sheet(change: Callable[[random.Random, str], tuple[str, str]]) -> Break:
    """Makes a break of a change to the text of the sheet, which returns the words of its fault too."""

    def break_sheet(drawn: RandomWorkbook) -> str:
        content = drawn.draw_sheet_text()
        changed, words = change(drawn.rng, content)
        drawn.changes[SHEET] = drawn.qualified_part(changed).encode()
        return words

    break_sheet.__name__ = change.__name__
    return break_sheet


def draw_place(rng: random.Random, content: str, marks: Sequence[str]) -> int:
    """A place in a text before one of these marks."""
    mark = rng.choice([mark for mark in marks if mark in content])
    places = [found.start() for found in re.finditer(rf"(?<!CDATA\[){re.escape(mark)}", content)]
    return rng.choice(places)


@break_function_of_sheet
def wrap_row_or_cell(rng: random.Random, content: str) -> tuple[str, str]:
    """Puts a row or a cell into an element that is left out, or into another one."""
    name = rng.choice(["row", "c"])
    begin = next(re.finditer(rf"<{name}[ >]", content)).start()
    end = content.index(f"</{name}>", begin) + len(f"</{name}>")
    around = rng.choice(["extLst", "rPh", "rPr", "sheetData", "x", "cols"])
    return f"{content[:begin]}<{around}>{content[begin:end]}</{around}>{content[end:]}", "stands in"


@break_function_of_sheet
def add_row_behind_the_cells(rng: random.Random, content: str) -> tuple[str, str]:
    """Adds a row after the table of cells, or next to it."""
    row = '<row r="1048576"><c r="A1048576"><v>1</v></c></row>'
    around = rng.choice(["", "sheetPr", "x", "extLst", "sheetData"])
    row = f"<{around}>{row}</{around}>" if around else row
    end = content.index("</sheetData>") + len("</sheetData>")
    return f"{content[:end]}{row}{content[end:]}", ""


@break_function_of_sheet
def insert_text_in_wrong_place(rng: random.Random, content: str) -> tuple[str, str]:
    marks = ["<sheetData", "</row>", "</sheetData>", "<c ", "<v>", "<f>", "</c>", "<is>", "</is>", "<mergeCell", "<t>"]
    at = draw_place(rng, content, marks)
    text = rng.choice(["PAIR", "&#160;", "0", "<![CDATA[<row>]]>"])
    return f"{content[:at]}{text}{content[at:]}", "stands in"


def merge_cells_backwards(drawn: RandomWorkbook) -> str | bytes:
    """Merges the cells from the last one to the first one, or further."""
    if len(drawn.expected_rows()) < 2:
        return repeat_cell(drawn)
    (first, _), *_, (last, cells) = drawn.expected_rows()
    ends = [f"A{last + drawn.rng.choice([0, 9])}", f"{column_letters(len(cells) + drawn.rng.choice([0, 9]))}{first}"]
    if drawn.rng.random() < 0.5:
        ends = [f"{column_letters(len(cells))}{last + drawn.rng.choice([0, 9])}", f"A{first}"]
    drawn.after = f'<mergeCells><mergeCell ref="{":".join(ends)}"/></mergeCells>'
    return "are merged"


def place_cell_in_another_row(drawn: RandomWorkbook) -> str:
    number, cells = drawn.rows[0]
    drawn.has_places = True
    letters = column_letters(cells[0][0])
    content = drawn.qualified_part(drawn.draw_sheet_text()).replace(f'r="{letters}{number}"', f'r="{letters}{number + 1}"')
    drawn.changes[SHEET] = content.encode()
    return "a cell of this row has the place"


def add_cell_of_another_namespace(drawn: RandomWorkbook) -> str:
    """Adds a cell of another namespace, which Excel wouldn't show."""
    content = drawn.qualified_part(drawn.draw_sheet_text())
    at = content.index(f"</{drawn.prefix}row>")
    drawn.changes[SHEET] = f'{content[:at]}<o:c xmlns:o="other"><o:v>1</o:v></o:c>{content[at:]}'.encode()
    return "stands in 'row'"


def add_document_type(drawn: RandomWorkbook) -> str:
    content = drawn.qualified_part(drawn.draw_sheet_text())
    drawn.changes[SHEET] = f'<!DOCTYPE a [<!ENTITY e "1">]>{content}'.encode()
    return "document type"


def draw_archive_without_part(drawn: RandomWorkbook) -> bytes:
    name = drawn.rng.choice(["_rels/.rels", "xl/workbook.xml", "xl/_rels/workbook.xml.rels", SHEET, "xl/styles.xml"])
    return archive_bytes({each: content for each, content in drawn.draw_parts().items() if each != name})


def draw_archive_with_repeated_part(drawn: RandomWorkbook) -> bytes:
    parts = drawn.draw_parts()
    name = drawn.rng.choice(list(parts))
    return archive_bytes({**parts, name.swapcase(): parts[name]})


def draw_archive_with_cut_part(drawn: RandomWorkbook) -> bytes:
    parts = drawn.draw_parts()
    name = drawn.rng.choice([each for each in parts if each.startswith("xl/w")][:2])
    return archive_bytes({**parts, name: parts[name].rstrip()[:-1]})


def draw_archive_with_changed_byte(drawn: RandomWorkbook) -> bytes:
    """Changes one byte of a part, which isn't compressed."""
    data = bytearray(archive_bytes(drawn.draw_parts(), zipfile.ZIP_STORED))
    data[data.index(SHEET.encode()) + len(SHEET) + 200] ^= 1
    return bytes(data)


def draw_archive_with_changed_size(drawn: RandomWorkbook) -> bytes:
    """Lets the directory state another size of a part."""
    data = bytearray(drawn.draw_bytes())
    at = data.rindex(SHEET.encode()) - 46
    data[at + 24] ^= 1
    return bytes(data)


def draw_recompressed_archive(drawn: RandomWorkbook) -> bytes:
    return archive_bytes(drawn.draw_parts(), drawn.rng.choice([zipfile.ZIP_BZIP2, zipfile.ZIP_LZMA]))


def draw_cut_archive(drawn: RandomWorkbook) -> bytes:
    data = drawn.draw_bytes()
    return data[: drawn.rng.randrange(4, len(data) - 22)]


BREAKS: list[Break] = [
    swap_rows,
    repeat_row,
    add_row_far_away,
    swap_cells,
    repeat_cell,
    add_cell_far_away,
    replace_cell_by_no_kind,
    merge_cells,
    add_second_table,
    wrap_row_or_cell,
    add_row_behind_the_cells,
    insert_text_in_wrong_place,
    merge_cells_backwards,
    place_cell_in_another_row,
    add_cell_of_another_namespace,
    add_document_type,
    draw_archive_without_part,
    draw_archive_with_repeated_part,
    draw_archive_with_cut_part,
    draw_archive_with_changed_byte,
    draw_archive_with_changed_size,
    draw_recompressed_archive,
    draw_cut_archive,
]
