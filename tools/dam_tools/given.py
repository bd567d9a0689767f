"""The arguments that programs give: a file, its text, or a journal that was read; and the tools' messages about it, which are faults here."""

from __future__ import annotations

import contextlib
import os
from collections.abc import Iterator
from pathlib import Path
from typing import TypeAlias

from .lib.day import day_files
from .lib.journal import journal
from .lib.journal.journal import Journal
from .lib.runs.errors import Fault
from .lib.tables import order_table, table_operations
from .lib.tool import exits, file_io

REFUSED = 1  # the program's status for a text that it doesn't take
Source = str | os.PathLike[str] | bytes
JournalSource: TypeAlias = Source | Journal


@contextlib.contextmanager
def turning_into_faults() -> Iterator[None]:
    """The tools' message about a text, a table or a date is a fault here."""
    try:
        yield
    except (exits.Stop, order_table.BadOrders, table_operations.BadDate) as fault:
        raise Fault(str(fault)) from None


def is_text(source: object) -> bool:
    """Whether a source is a text itself: bytes, or a string of several lines, which is no path."""
    return isinstance(source, bytes) or isinstance(source, str) and "\n" in source


def source_name(source: object, otherwise: str) -> str:
    """The name of a source in a message."""
    return otherwise if is_text(source) or isinstance(source, Journal) else str(source)


def read_source_bytes(source: Source) -> bytes:
    """The bytes of a file, or of a text that was given."""
    if isinstance(source, bytes):
        return source
    if isinstance(source, str) and is_text(source):
        return source.encode(errors="surrogatepass")
    if source == "":
        raise Fault("a file with an empty name can't be read")
    with turning_into_faults():
        return file_io.read_bytes(Path(source))


def read_journal_bytes(source: JournalSource) -> bytes:
    """The bytes of a journal."""
    return journal.journal_text(source).encode() if isinstance(source, Journal) else read_source_bytes(source)


def read_one_of_many(source: JournalSource) -> bytes:
    """The bytes of a journal for which others wait, so that a device or a pipe, which may have no end, is a fault."""
    if not isinstance(source, (str, bytes, os.PathLike, Journal)):
        raise Fault(f"a journal should be a file, its text, or one that was read, and not of the type {type(source).__name__}")
    if isinstance(source, (str, os.PathLike)) and not is_text(source) and source != "" and (said := file_io.find_unread_reason(source)):
        raise Fault(said)
    return read_journal_bytes(source)


def read_journal(source: Source) -> Journal:
    """The journal of a file, or of a text: bytes, or a string with line ends. Of a text that isn't a journal the fault has the status with
    which the program refuses it."""
    data = read_source_bytes(source)
    try:
        return day_files.require_journal(source_name(source, "the text"), data)
    except exits.Stop as fault:
        raise Fault(str(fault), REFUSED) from None


def read_or_return_journal(source: JournalSource) -> Journal:
    return source if isinstance(source, Journal) else read_journal(source)
