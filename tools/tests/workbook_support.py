"""The common parts of the tests of Excel workbooks."""

import csv
import unittest

from support import run_tool

from shared import drawn_workbooks as made
from lib.tables import order_table
from lib.tool import exits

READ = "of 2 sheets, 'orders' was read, but not 'Other'"


def row_of_cells(number, *cells):
    """A row of cells, each with its place and a text."""
    texts = "".join(f'<c r="{place}" t="str"><v>{words}</v></c>' for place, words in cells)
    return f'<row r="{number}">{texts}</row>'.encode()


def row_of_order(number, name, *others):
    cells = zip("ABCDEFG", ["A", name, "block", "buy", "1", "8", "5"])
    return row_of_cells(number, *((f"{letter}{number}", words) for letter, words in cells), *others)


def workbook_of_rows(*pieces):
    return made.workbook_of_sheet(made.OPEN, *pieces, made.CLOSE)


def styles_without_formats():
    return f'<styleSheet xmlns="{made.MAIN[0]}"/>'.encode()


class WorkbookOfTwoSheets(unittest.TestCase):
    """Reads workbooks of two sheets."""

    def capture_fault(self, data):
        status, out, err = run_tool("table", "--journal", "-", data=data)
        self.assertEqual((status, out), (exits.NO_INPUT, b""), err)
        return err.removesuffix(f"table: standard input: {READ}\n").removeprefix("table: standard input: ").removesuffix("\n")

    def capture_orders(self, data):
        status, out, err = run_tool("table", "--journal", "--open", "-", data=data)
        self.assertEqual((status, err), (0, f"table: standard input: {READ}\n"))
        return [(fields[2], fields[8]) for fields in csv.reader(out.decode().splitlines()[1:])]


class OrderOfWorkbook(unittest.TestCase):
    """Reads workbooks of one order."""

    HEADS = made.OPEN.replace(b"</row>", b"<c t='str'><v>note</v></c></row>")
    COLUMNS = dict(zip("ABCDEFGHIJ", [*order_table.ORDER, "note"]))

    def read(self, parts=(), **cells):
        """The order of a workbook, of which some cells are given by their column, and the first line of its faults."""
        plain = {letter: f"<c t='str'><v>{words}</v></c>" for letter, words in zip(self.COLUMNS, "A,K,block,buy,1,8,5,,,x".split(","))}
        data = made.workbook_of_sheet(self.HEADS, f"<row>{''.join({**plain, **cells}.values())}</row>".encode(), made.CLOSE, **dict(parts))
        try:
            return order_table.parse_tables([("", data)], 24).submits[0][1], None
        except order_table.BadOrders as fault:
            return None, str(fault).splitlines()[0]
