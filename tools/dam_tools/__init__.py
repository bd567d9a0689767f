"""Days of the auction for Python programs: journals, their results by the program `dam`, and these as records or pandas frames.

    import dam_tools

    day = dam_tools.clear("day.csv")
    for row in dam_tools.records(day, "periods"):
        print(row["period"], row["price_eur_mwh"])
    frame = dam_tools.frame(day, "orders", long=True)
    paths = sorted(Path("days").glob("*.csv"))
    for path, day in zip(paths, dam_tools.clear_many(paths)):
        print(path, day)

The tables and their columns are those of tools/table, which docs/TABLES.md describes. Results are checked against the journal as
they are read: `Day.wrong` lists what breaks the market rules, and is empty for every result of the program; `Day.odd` lists how their
encoding differs from the program's."""

from __future__ import annotations

import collections.abc
import concurrent.futures
import datetime
import functools
import os
import sys
from collections.abc import Iterable, Iterator
from pathlib import Path
from typing import Any, NamedTuple

# This file can be read by an older Python, which can't read `lib`.
if sys.version_info < (3, 10):
    raise ImportError("dam_tools needs Python 3.10 or newer")

# In the tree that this module is part of, `lib` is next to it; if it is installed, inside it.
if not Path(__file__).with_name("lib").is_dir():
    __path__.append(str(Path(__file__).resolve().parents[1]))

from .checks import (
    Audit,
    AuditFault,
    BlockLimit,
    Change,
    Changes,
    Finding,
    LimitCase,
    Lint,
    OtherOrder,
    audit,
    lint,
    whatif_change,
    whatif_limit,
)
from .given import JournalSource, Source, read_journal, read_one_of_many, read_or_return_journal
from .given import read_source_bytes, source_name, turning_into_faults
from .lib.audit import day_audit
from .lib.base.rules import VERSION as __version__
from .lib.day.day_files import Day
from .lib.journal import book, journal
from .lib.journal.journal import Journal
from .lib.runs import by_library, by_program, engine, which
from .lib.runs.errors import Fault, TimedOut
from .lib.runs.which import find_engine as where
from .lib.tables import day_tables, order_table, table_operations
from .lib.tool import exits, modules

__all__ = [
    "Audit",
    "AuditFault",
    "BlockLimit",
    "Change",
    "Changes",
    "Day",
    "Fault",
    "Finding",
    "Journal",
    "LimitCase",
    "Lint",
    "OtherOrder",
    "Reply",
    "TABLES",
    "TableJournal",
    "TimedOut",
    "__version__",
    "audit",
    "clear",
    "clear_many",
    "frame",
    "journal_of_orders",
    "lint",
    "read_journal",
    "read_results",
    "records",
    "replay",
    "whatif_change",
    "whatif_limit",
    "where",
]

TABLES = tuple(day_tables.TABLES)
Program = str | os.PathLike[str]
Date = datetime.date | str


class TableJournal(Journal):
    """The journal of tables of orders. Its `notes` say how they were read, such as the sheet of a workbook, or a column that isn't used."""

    notes: list[str]


def journal_of_orders(*sources: Source, periods: int = 24, close: bool = True) -> TableJournal:
    """The journal of tables of orders, as tools/table --journal makes it of names in capitals. Each is a file (CSV or an Excel workbook) or
    bytes."""
    with turning_into_faults():
        named = [(exits.shown(source_name(source, "")), read_source_bytes(source)) for source in sources]
        orders = order_table.parse_tables(named, periods)
        made = TableJournal(*order_table.journal_of(orders, periods, close))
        made.notes = orders.notes
        return made


def read_results(source: JournalSource, results: Source) -> Day:
    """The day of a journal and its results: files, bytes, or a journal that was read."""
    with turning_into_faults():
        return Day(read_or_return_journal(source), read_source_bytes(results))


def clear(
    source: JournalSource,
    program: Program | None = None,
    workers: int | None = None,
    cut: int | None = None,
    nodes: int | None = None,
    timeout: float | None = None,
) -> Day:
    """The results of a journal: a file, its text, or one that was read. If neither a program nor an option is named, the library for C
    is called if there is one; otherwise the program is run: `where` says which. Both give the same answer, the library on one thread. The
    options are those of `dam clear`; none but a limit on nodes changes the answer. The environment variable DAM names the program to run,
    and DAM_LIBRARY the library, which comes first."""
    by_program.refuse_wrong_timeout(timeout)
    read = read_or_return_journal(source)
    path = which.find_library() if (program, workers, cut, nodes, timeout) == (None,) * 5 else None
    if path:
        return read_results(read, by_library.call_and_return_output(path, journal.journal_text(read).encode()))
    options = [f"--{name}={value}" for name, value in (("workers", workers), ("cut", cut), ("nodes", nodes)) if value is not None]
    return read_results(read, capture_output(read, [by_program.require_program(program), "clear", *options], timeout))


def capture_output(read: Journal, words: list[Any], timeout: float | None) -> bytes:
    """The output of a run of the program for a journal."""
    return by_program.capture_output(words, journal.journal_text(read).encode(), timeout)


class LateDay(Day):
    """A day of `clear_many`, whose results are read, and checked against the journal, when anything but its `text` is first asked for."""

    PARTS = frozenset(["journal", "book", "reasons", "problem", "published", "odd", "wrong", "outcome"])

    def __init__(self, source: JournalSource, text: bytes) -> None:
        self.source, self.text = source, text

    def __getattr__(self, name: str) -> Any:
        if name not in self.PARTS:
            raise AttributeError(f"a day has no {name}")
        with turning_into_faults():
            self.set_contents_or_stop(read_or_return_journal(self.source), self.text, "the journal", "the text")
        return self.__dict__[name]


def clear_many(
    journals: Iterable[JournalSource],
    jobs: int | None = None,
    executor: concurrent.futures.Executor | None = None,
    program: Program | None = None,
    quiet: bool = False,
    nodes: int | None = None,
    timeout: float | None = None,
) -> Iterator[Day | Fault]:
    """The results of many journals, in their order, as an iterator: for each a `Day`, or a `Fault` if the journal can't be read or cleared,
    which doesn't end the others. `journals` are files, bytes or journals that were read, as `clear` takes one, and may be any iterator:
    they are taken as they are needed.

    Without an executor `jobs` threads, as many as there are processors by default, call the library for C if it was built or installed,
    or run the program otherwise, or if one is named. With one, a `concurrent.futures.Executor`, its workers do the same, and need this
    package and the library or the program; at most `jobs` journals, 1,024 by default, then wait at the same time. If it loses a journal,
    that is the journal's fault; if it takes no more, `Fault` is raised, and so it is if there is neither library nor program.

    `nodes` limits each search, and `timeout` each run in seconds: a day that takes longer is the fault `TimedOut`. With a timeout the
    program is run, since a call of the library can't be stopped; without one, a run of the program may take an hour.

    The results of a day are read and checked when they are first used, so that a program which only wants `day.text`, the bytes that
    `dam clear` prints, waits for nothing else. At a terminal a bar of tqdm, if that is installed, says how far the days are, unless
    `quiet`."""
    if isinstance(journals, (str, bytes, os.PathLike, Journal)):
        raise TypeError("journals should be several, such as a list of files: clear takes one")
    if nodes is not None and not 1 <= nodes <= by_library.MOST_NODES:
        raise ValueError(f"nodes should be from 1 to {by_library.MOST_NODES}")
    by_program.refuse_wrong_timeout(timeout)
    if executor is None and (timeout is not None or where() is None):
        program = by_program.require_program(program)
    call = functools.partial(engine.clear_and_return_answer, nodes=nodes or by_library.MOST_NODES, timeout=timeout)
    return iterate_days(journals, quiet, lambda texts: engine.iterate_outputs_or_faults(texts, jobs, executor, program, call))


def iterate_days(journals: Iterable[JournalSource], quiet: bool, answers: Any) -> Iterator[Day | Fault]:
    """The days of journals, or their faults, by the engine of their texts."""
    whole = len(journals) if isinstance(journals, collections.abc.Sized) else None
    kept: collections.deque[Any] = collections.deque()  # the journals whose results are still to come

    def iterate_texts() -> Iterator[bytes | Fault]:
        for source in journals:
            text: bytes | Fault
            try:
                text = read_one_of_many(source)
            except Fault as fault:
                text = fault
            kept.append(source if isinstance(source, Journal) else text)
            yield text

    for found in engine.iterate_with_bar(answers(iterate_texts()), whole, quiet=quiet):
        source = kept.popleft()
        yield found if isinstance(found, Fault) else LateDay(source, found)


class Reply(NamedTuple):
    """The book's reply to a command: its number, from 1, and the reason if it is refused, otherwise None."""

    command: int
    reason: str | None

    @property
    def done(self) -> bool:
        return self.reason is None


def replay(source: JournalSource, program: Program | None = None, timeout: float | None = None) -> list[Reply]:
    """The book's reply to each command of a journal, by a run of the program. Other replies than the rules give are a fault."""
    by_program.refuse_wrong_timeout(timeout)
    read = read_or_return_journal(source)
    found = capture_output(read, [by_program.require_program(program), "replay"], timeout)
    reasons = book.book_and_refusals(read)[1]
    if found != book.replies_text_of(read.periods, reasons).encode():
        first, *_ = day_audit.reply_faults(read.periods, reasons, found)
        raise Fault(f"the program printed other replies than those of the journal ({first})")
    return [Reply(number, reason) for number, reason in enumerate(reasons, 1)]


def rows_of(day: Day | Journal, table: str, long: bool, date: Date | None) -> Any:
    made: Any = day_tables.LONG if long else day_tables.TABLES
    if table not in made:
        form = " in a long form" if long else ""
        raise ValueError(f"there is no table {table}{form}: the tables{form} are {', '.join(made)}")
    if isinstance(day, Journal):
        if table != "commands":
            raise ValueError("a journal without results has only the table commands")
        rows = day_tables.command_rows(day, book.book_and_refusals(day)[1])
    else:
        rows = made[table](day)
    periods = day.periods if isinstance(day, Journal) else day.problem.periods
    return rows if date is None else rows_with_times(table, list(rows), date, periods)


def rows_with_times(table: str, rows: list[Any], date: Date, periods: int) -> list[Any]:
    """A table with the times at which its periods begin."""
    if "period" not in rows[0]:
        raise Fault(f"a date can't be used with {table}, which has no column of periods" + (": long=True" if table in day_tables.LONG else ""))
    with turning_into_faults():
        modules.refuse_missing_zone(table_operations.ZONE)
        return list(table_operations.rows_with_times(rows, table_operations.as_date(date), periods))


def records(
    day: Day | Journal, table: str = "periods", long: bool = False, date: Date | None = None, flat: bool = False
) -> list[dict[str, Any]]:
    """The rows of a table, each a dictionary by column. With a date, a `datetime.date` or a text such as 2026-11-25, periods have the
    time at which they begin. If it is to be flat, lists of periods and volumes are texts, such as `8-20`."""
    return list(table_operations.records(rows_of(day, table, long, date), flat))


def frame(day: Day | Journal, table: str = "periods", long: bool = False, date: Date | None = None, flat: bool = False) -> Any:
    """The same as a pandas frame; the times at which periods begin are timestamps. Parquet and DuckDB take a flat one."""
    try:
        import pandas
    except ImportError:
        package = modules.PACKAGES["pandas"]
        words = f"this Python ({sys.executable}) has no pandas, which frames need: Debian has it in the package {package}"
        raise Fault(f"{words}: apt-get install {package}") from None
    rows = list(rows_of(day, table, long, date))
    made = pandas.DataFrame(list(table_operations.records(rows, flat)), columns=rows[0])
    for name in rows[0]:
        if table_operations.column_description(name, rows[0]).type == "number":
            made[name] = made[name].astype(float)  # also if each cell is empty
    if "begins" in made:
        made["begins"] = pandas.to_datetime(made["begins"], utc=True).dt.tz_convert(table_operations.ZONE)
    return made
