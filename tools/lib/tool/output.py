"""A table as a tool writes it: comma-separated values, JSON or an Excel workbook."""

import argparse
import tempfile
from collections.abc import Container, Iterable, Iterator, Mapping, Sequence

from ..tables import table_files, table_operations
from . import exits, file_io, modules

WORKBOOK, CSV = ".xlsx", ".csv"
OTHER_WORKBOOKS = (".xls", ".xlsm", ".xlsb", ".ods")  # a text with such a name would be no workbook


def add_options(parser: argparse.ArgumentParser) -> None:
    add = parser.add_argument
    add("--json", action="store_true", help="JSON instead of comma-separated values")
    add("--decimal-comma", action="store_true", help="numbers as 12,50, and semicolons between cells")
    add("-o", "--out", default="-", help="the file to write, an Excel workbook if its name ends with .xlsx (default: standard output)")


def exec_or_refuse_wrong_options(args: argparse.Namespace, *inputs: str | None) -> None:
    """Ends the tool if the options can't be used together, or would write over an input, or a package is missing."""
    file_io.refuse_input_as_output(args.out, *inputs)
    refuse_other_workbook(args.out)
    if args.json and args.decimal_comma:
        raise exits.Stop("--decimal-comma can't be used with --json", exits.COMMAND_LINE)
    if is_workbook_name(args.out):
        if args.json or args.decimal_comma:
            raise exits.Stop("--json and --decimal-comma can't be used with an Excel workbook", exits.COMMAND_LINE)
        modules.exec_or_require_modules("openpyxl")


def refuse_other_workbook(path: str | None) -> None:
    if path is not None and path.lower().endswith(OTHER_WORKBOOKS):
        raise exits.Stop(f"{exits.shown(path)}: a workbook is only written as {WORKBOOK}", exits.COMMAND_LINE)


def is_workbook_name(path: str | None) -> bool:
    return path is not None and path.lower().endswith(WORKBOOK)


def is_table_name(path: str) -> bool:
    return is_workbook_name(path) or path.lower().endswith(CSV)


def aligned_lines(rows: Iterable[Sequence[object]], to_the_left: Container[int]) -> Iterator[str]:
    """The lines of a table for readers. In the columns at these places the cells stand to the left, and in the others to the right."""
    texts = [[str(cell) for cell in row] for row in rows]
    widths = [max(map(len, column)) for column in zip(*texts)]
    for row in texts:
        placed = (cell.ljust(width) if at in to_the_left else cell.rjust(width) for at, (cell, width) in enumerate(zip(row, widths)))
        yield "  ".join(placed).rstrip()


def workbook_bytes_or_stop(tables: Mapping[str, Sequence[table_operations.Row]]) -> bytes:
    """The bytes of a workbook with a sheet for each table, by name."""
    try:
        return table_files.workbook_bytes_or_refuse(tables)
    except table_files.BadTable as fault:
        raise exits.Stop(f"{fault}: write it as {CSV}", exits.COMMAND_LINE) from None
    except OSError as fault:
        if fault.filename is not None:
            raise
        raise OSError(fault.errno, fault.strerror, tempfile.gettempdir()) from None  # of the sheets, until they are packed


def write_table(tool: str, args: argparse.Namespace, name: str, rows: Iterable[table_operations.Row], periods: int) -> None:
    """Writes a table, which is whole before the first byte is written."""
    rows = list(rows)
    if is_workbook_name(args.out):
        data = workbook_bytes_or_stop({name: rows})
    elif args.json:
        data = table_operations.json_text(name, rows, table_operations.day_record(periods)).encode()
    else:
        data = table_files.csv_text(rows, args.decimal_comma).encode()
    file_io.write_file_or_stdout(tool, args.out, data)
