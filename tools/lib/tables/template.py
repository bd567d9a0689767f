"""A workbook to fill in with orders: its first sheet has the columns, with the rules of their cells, and the second one example rows."""

import io
from collections.abc import Iterable, Sequence
from typing import TYPE_CHECKING

from ..base import rules, text
from . import table_files
from .day_tables import ORDER
from .order_table import NAMES

if TYPE_CHECKING:
    from openpyxl.worksheet.worksheet import Worksheet

ORDERS, EXAMPLES = "orders", "examples"  # the sheets
WIDTH = 16
LAST = 5_000  # the last line whose cells have rules
# The meaning of each column, for its comment.
WORDS = {
    "participant": text.A_PARTICIPANT,
    "order": f"the order's name, unique for the participant: {text.A_NAME}",
    "kind": "hour (one period) or block (one or more)",
    "side": "buy or sell",
    "price_eur_mwh": f"the limit in EUR/MWh, from {text.eur_per_mwh(rules.LOWEST_PRICE)} to {text.eur_per_mwh(rules.HIGHEST_PRICE)},"
    " with at most two decimals",
    "periods": "numbers or clock times, such as 8, 8-20, 1;3;5-7 or 07:00-20:00; the cells are texts, so that none becomes a date",
    "volume_mw": f"in MW, from 0.1 to {text.mw(rules.GREATEST_VOLUME)}, with at most one decimal: one for all periods, or one for each,"
    " such as 5;25",
    "parent": "for a block: the name of another block of the participant, in a row above; or empty",
    "group": "for a block: the name of its exclusive group; or empty",
}
CHOICES = {"kind": ["hour", "block"], "side": ["buy", "sell"]}
ROWS: list[list[str | int | None]] = [
    ["NORD", "WIND-8", "hour", "sell", 12, "8", 45, None, None],
    ["GAS", "UNIT-1", "block", "sell", 68, "8-20", 10, None, None],
]


def template_bytes() -> bytes:
    book = table_files.import_openpyxl().Workbook()
    sheet = book.active
    sheet.title = ORDERS
    fill_sheet(sheet, [])
    add_rules(sheet)
    fill_sheet(book.create_sheet(EXAMPLES), ROWS)
    out = io.BytesIO()
    book.save(out)
    return out.getvalue()


def fill_sheet(sheet: "Worksheet", rows: Iterable[Sequence[str | int | None]]) -> None:
    from openpyxl.comments import Comment
    from openpyxl.styles import Font
    from openpyxl.utils import get_column_letter

    for row in [ORDER, *rows]:
        sheet.append(row)
    for place, name in enumerate(ORDER, 1):
        head = sheet.cell(1, place)
        head.font, head.comment = Font(bold=True), Comment(WORDS[name], "dam")
        column = sheet.column_dimensions[get_column_letter(place)]  # type: ignore[attr-defined]  # openpyxl sets it in a call
        column.width = WIDTH
        if name == "periods" or name in NAMES:
            column.number_format = "@"
    sheet.freeze_panes = "A2"


def add_rules(sheet: "Worksheet") -> None:
    from openpyxl.utils import get_column_letter
    from openpyxl.worksheet.datavalidation import DataValidation

    ends = text.eur_per_mwh(rules.LOWEST_PRICE), text.eur_per_mwh(rules.HIGHEST_PRICE)
    checks = {name: DataValidation("list", formula1=f'"{",".join(words)}"') for name, words in CHOICES.items()}
    checks["price_eur_mwh"] = DataValidation("decimal", operator="between", formula1=ends[0], formula2=ends[1])
    for name, check in checks.items():
        column = get_column_letter(1 + ORDER.index(name))
        check.showErrorMessage, check.error = True, WORDS[name]
        check.add(f"{column}2:{column}{LAST}")
        sheet.add_data_validation(check)
