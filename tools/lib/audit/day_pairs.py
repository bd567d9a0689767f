"""The days that an audit of many checks: each journal of a folder with its results, or the pairs that a manifest lists."""

import os
from collections.abc import Iterator, Sequence
from pathlib import Path
from typing import NamedTuple

from ..base import text
from ..tables import kinds, table_files
from ..tool import exits, file_io

JOURNAL, RESULTS = ".csv", ".txt"
MOST_DAYS = 20_000  # of a manifest
NAME, COLUMNS = "day", ["journal", "results"]  # the columns of a manifest: the day's name, and those that it needs


class Pair(NamedTuple):
    """The files of a day; no results if the journal's file is the text of a day, or if they are missing."""

    name: str
    journal: Path
    results: Path | None
    unread: str | None = None  # why they can't be read, if that is known beforehand
    missing: str | None = None  # the message if there are no results, and the journal isn't the text of a day


def read_pairs_or_stop(place: str, notes: list[str]) -> list[Pair]:
    """The days of a folder, by name, or of a manifest, in its order. None of their files is read. Notes say how a manifest was read."""
    path = Path(place)
    try:
        pairs = list_pairs_by_name(path) if path.is_dir() else read_listed_pairs_or_stop(path, notes)
    except OSError as fault:
        raise exits.Stop(f"{exits.shown(place)} can't be read: {fault.strerror}") from None
    if not pairs:
        raise exits.Stop(f"{exits.shown(place)} has no days: a day is NAME{JOURNAL} with its results NAME{RESULTS}")
    return pairs


def list_pairs_by_name(folder: Path) -> list[Pair]:
    """Each journal of a folder with the results of the same name; results without a journal too. A suffix may have capital letters, but a
    day of which two files have one name isn't read."""
    found: dict[tuple[str, str], Path] = {}
    alike: dict[str, str] = {}
    paths = [path for path in sorted(folder.iterdir()) if stem_and_suffix(path.name)[1] in (JOURNAL, RESULTS)]
    file_io.refuse_own_outputs(paths)
    for path in paths:
        key = stem_and_suffix(path.name)
        if found.setdefault(key, path) is not path:
            said = f"{exits.shown(found[key])} and {exits.shown(path)} have one name: rename one of them"
            alike.setdefault(key[0], said)
    names = sorted({name for name, _ in found})
    pairs = (find_pair(name, *(found.get((name, suffix), folder / f"{name}{suffix}") for suffix in (JOURNAL, RESULTS))) for name in names)
    return [pair._replace(unread=alike[pair.name]) if pair.name in alike else pair for pair in pairs]


def stem_and_suffix(name: str) -> tuple[str, str]:
    """A file's name without its suffix, and the suffix in small letters. The file `.csv` is a day too, whose name is empty."""
    stem, dot, suffix = name.rpartition(".")
    return stem, f"{dot}{suffix.lower()}"


def find_pair(name: str, journal: Path, results: Path) -> Pair:
    unread = file_io.find_unread_reason(journal)
    if os.path.lexists(results):
        return Pair(name, journal, results, unread or file_io.find_unread_reason(results), None)
    return Pair(name, journal, None, unread, f"{exits.shown(results)} is missing")


def read_listed_pairs_or_stop(path: Path, notes: list[str]) -> list[Pair]:
    """The pairs of a manifest: a table with the columns `journal` and `results`, whose files are sought from its own folder."""
    data = file_io.read_bytes(path)
    kind = kinds.kind_of_bytes(data)
    if kind in kinds.FILES:
        raise exits.Stop(f"{exits.shown(path)} is {kind}: save the table of days as CSV")
    try:
        rows = iter(table_files.Text(data, notes, None, table_files.MANY))
        _, header = next(rows, (0, []))
        heads = table_files.column_names(header)
        refuse_wrong_heads(path, heads)
        refuse_lost_day(path, header)
        pairs: list[Pair] = []
        lines, repeated = dict[int, int](), False
        first_lines: dict[tuple[Path, Path | None], int] = {}
        for line, row in rows_within_limit_or_stop(path, rows):
            cells = {name: find_file_name_in_cell(path.parent, cell) for name, cell in zip(heads, row)}
            pairs.append(find_listed_pair(path.parent, cells, extra_cells_text(line, row, heads)))
            first = first_lines.setdefault((pairs[-1].journal, pairs[-1].results), line)
            if first != line and not repeated:
                notes.append(f"line {line}: it has the files of line {first}, whose day counts twice")
                repeated = True
            if cells.get(NAME):
                lines[len(pairs) - 1] = line
        mark_shared_names(pairs, lines)
    except table_files.BadTable as fault:
        raise exits.Stop(f"{exits.shown(path)} isn't a table of days: {fault}") from None
    if not pairs:
        raise exits.Stop(f"{exits.shown(path)} has no days: it has no row below its header")
    return pairs


def rows_within_limit_or_stop(path: Path, rows: Iterator[tuple[int, list[str]]]) -> Iterator[tuple[int, list[str]]]:
    """The rows of a manifest, which may not have too many days."""
    for count, row in enumerate(rows):
        if count == MOST_DAYS:
            raise exits.Stop(f"{exits.shown(path)} has more than {MOST_DAYS:,} days")
        yield row


def refuse_wrong_heads(path: Path, heads: Sequence[str]) -> None:
    """Ends the audit if the header of a manifest doesn't name each column once that it needs."""
    if not set(COLUMNS) <= set(heads):
        raise exits.Stop(f"{exits.shown(path)} isn't a table of days: its first line should name the columns {', '.join(COLUMNS)}")
    for name in (NAME, *COLUMNS):
        if heads.count(name) > 1:
            raise exits.Stop(f"{exits.shown(path)} isn't a table of days: its first line names the column {name} twice")


def refuse_lost_day(path: Path, header: Sequence[str]) -> None:
    """Ends the audit if the header of a manifest goes on with the files of a day."""
    for cell in header:
        if stem_and_suffix(cell.strip())[1] in (JOURNAL, RESULTS):
            words = f"{text.quoted(cell)} of its first line is no heading, but may be of a day: write each day on a line of its own"
            raise exits.Stop(f"{exits.shown(path)} isn't a table of days: {words}")


def extra_cells_text(line: int, row: Sequence[str], heads: list[str]) -> str | None:
    """Why a row of a manifest can't be read, if it has cells in no named column. A name with a comma that isn't quoted is two cells."""
    if len(row) > len(heads):
        return f"line {line} of the table has {len(row)} cells, but the header has {len(heads)}"
    unnamed = [f"line {line}, column {at}" for at, (head, cell) in enumerate(zip(heads, row), 1) if cell.strip() and not head]
    return f"{unnamed[0]} of the table: its cell is in a column without a name" if unnamed else None


def find_listed_pair(folder: Path, cells: dict[str, str], extra: str | None) -> Pair:
    journal, results = (folder / cells.get(name, "") for name in COLUMNS)
    has_results = bool(cells.get("results"))
    missing = None if has_results else f"its row names no results, and {exits.shown(journal)} has no line 'results'"
    unread = extra or unread_row_text(cells) or file_io.find_unread_reason(journal)
    unread = unread or (file_io.find_unread_reason(results) if has_results else None)
    return Pair(cells.get(NAME) or journal.stem, journal, results if has_results else None, unread, missing)


def mark_shared_names(pairs: list[Pair], lines: dict[int, int]) -> None:
    """Lets none of the pairs be read whose row gives it another's name. `lines` has the line of each row with a name, by the place of its
    pair."""
    places: dict[str, list[int]] = {}  # by name
    for place in lines:
        places.setdefault(pairs[place].name, []).append(place)
    for name, (first, *others) in places.items():
        for place in [first, *others] if others else []:
            both = f"lines {lines[first]} and {lines[others[0] if place == first else place]}"
            said = f"{both} of the table give two days the name {text.quoted(name)}: change one of them"
            pairs[place] = pairs[place]._replace(unread=pairs[place].unread or said)


def find_file_name_in_cell(folder: Path, cell: str) -> str:
    """A cell without the spaces around it, unless a file has them in its name."""
    return cell if "\0" not in cell and os.path.lexists(folder / cell) else cell.strip()


def unread_row_text(cells: dict[str, str]) -> str | None:
    """Why a row of a manifest names no files, if it names none."""
    if not cells.get("journal"):
        return "its row names no journal"
    for name in COLUMNS:
        if "\0" in cells.get(name, ""):
            return f"the name {text.quoted(cells[name])} has a NUL"
    return None
