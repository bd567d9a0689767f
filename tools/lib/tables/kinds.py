"""Which of the texts that `dam` reads and prints a text looks like, to say so if it was given instead of another."""

import io
import re
import zipfile

from ..base import place, text
from ..workbooks import limits, package

JOURNAL, RESULTS, REPLIES, DAY, ORDERS = "a journal", "results", "replies", "the text of a day", "a table of orders"
EXCEL, OLD_EXCEL, OPEN = "an Excel workbook (.xlsx)", "an old Excel workbook (.xls)", "an OpenDocument workbook (.ods)"
BINARY, NUMBERS = "a binary Excel workbook (.xlsb)", "a workbook of Apple Numbers (.numbers)"
LOCKED, ENCRYPTED = "an Excel workbook with a password", "EncryptedPackage".encode("utf-16-le")  # in a container as old ones have
PDF, COMPRESSED, ZIP = "a PDF", "a compressed file (.gz)", "an archive (.zip)"
SIGNATURES = {
    b"PK\x03\x04": EXCEL,  # or another archive: its parts say so
    b"\xd0\xcf\x11\xe0\xa1\xb1\x1a\xe1": OLD_EXCEL,
    b"%PDF-": PDF,
    b"\x1f\x8b": COMPRESSED,
}
PAGE = re.compile(rb"\s*<(?:!doctype html|html)\b", re.IGNORECASE)
WEB_PAGE = "a web page (HTML)"
FILES = {*SIGNATURES.values(), LOCKED, OPEN, BINARY, NUMBERS, ZIP, WEB_PAGE}  # the kinds of whole files
PACKED = {COMPRESSED, ZIP}
SAVE = place.with_commands_of_here("save it as .xlsx, from which tools/table --journal FILE makes a journal, or as plain CSV")
# The command that reads or converts a file of a kind that is given in place of a text.
ADVICE = {
    EXCEL: place.with_commands_of_here("tools/table --journal FILE makes a journal of it, if it is a table of orders"),
    LOCKED: "save it without the password",
    **dict.fromkeys((OLD_EXCEL, BINARY, OPEN, NUMBERS), SAVE),
    PDF: "pdftotext -layout FILE shows its text",
    COMPRESSED: "gunzip FILE unpacks it",
    ZIP: "unzip FILE unpacks it",
    WEB_PAGE: "get the file itself, in place of the page that shows or links it",
}
HEAD = 65_536  # bytes, in which the kind of a text shows
COLUMNS = {b"participant", b"order", b"periods", b"volume_mw"}  # some that each table of orders has

REPLY = re.compile(rb"\d+,(?:done|refused,)")


def kind_of_archive(data: bytes) -> str:
    """The kind of an archive, by its parts: a workbook if it is broken, or has more parts than a workbook may have."""
    if data.count(package.DIRECTORY) > limits.MOST_PARTS:
        return EXCEL
    try:
        with zipfile.ZipFile(io.BytesIO(data)) as archive:
            names = set(archive.namelist())
    except (zipfile.BadZipFile, ValueError, EOFError, OSError, RuntimeError, NotImplementedError):
        return EXCEL
    if "content.xml" in names and "mimetype" in names:
        return OPEN
    if "xl/workbook.bin" in names:
        return BINARY
    if "Index.zip" in names or any(name.endswith(".iwa") for name in names):
        return NUMBERS
    return EXCEL if any(name.startswith("xl/") for name in names) else ZIP


def kind_of_bytes(data: bytes) -> str | None:
    """The kind of text that these bytes look like by their first lines; None for any other."""
    for signature, kind in SIGNATURES.items():
        if data.startswith(signature):
            if kind == OLD_EXCEL and ENCRYPTED in data:
                return LOCKED
            return kind_of_archive(data) if kind == EXCEL else kind
    head = data[:HEAD].removeprefix(text.MARK)
    if PAGE.match(head):
        return WEB_PAGE
    first, second = (head.split(b"\n", 2) + [b"", b""])[:2]
    if COLUMNS <= {cell.strip(b' \r"') for cell in re.split(rb"[,;\t]", first.lower())}:
        return ORDERS
    if not first.startswith(b"day,"):
        return None
    if first.count(b",") == 8:
        return DAY if re.search(rb"\nresults\r?\n", data) else JOURNAL
    if second.startswith(b"welfare,"):
        return RESULTS
    return REPLIES if REPLY.match(second) else None
