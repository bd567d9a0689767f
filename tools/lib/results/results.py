"""The results text of a clearing: reading one against its problem, and writing the one that follows from a selection."""

import re
from collections.abc import Iterator, Mapping, Sequence
from typing import NamedTuple

from ..base import text
from .faults import FaultLine, line_fault, matched_pairs, moved_places
from .period import Clearing
from .selection import Outcome, Places, Problem

ANOTHER = "these seem to be the results of another journal"

NUMBER, DECISION = "<number>", "accepted|rejected"  # the forms of fields, as faults show them

# No welfare, surplus or volume of a result is as large, and no results or replies have as many lines.
LARGE, MOST_LINES = 10**16, 20_000


class Results(NamedTuple):
    welfare: int
    prices: list[int]  # of the periods from 1
    volumes: list[int]
    executed: list[int]  # of the hourly orders in book order
    accepted: set[int]  # places of blocks
    surpluses: list[int]  # of the blocks
    lines: dict[str, int]  # from the subject of a line, such as "period 3" or "block WHO,NAME", to its number


def subject_fault(words: str, kind: str, published: Results, about: str) -> FaultLine:
    """The fault of the line about something, of results that were read."""
    return line_fault(words, kind, published.lines[about], about)


class ExpectedLine(NamedTuple):
    about: str  # its subject
    known: list[str]  # the fields that are known beforehand
    forms: list[str]  # of the fields after them


def journal_and_results(data: bytes) -> tuple[bytes, bytes] | None:
    """The journal and the results of the text of a day, which the line `results` separates; None if there is no such line."""
    line = re.search(rb"^results\r?\n", data, re.MULTILINE)
    return (data[: line.start()], data[line.end() :]) if line else None


OTHER_NUMBER = re.compile(rb"[+-]?[0-9]{1,16}")


def number_or_none(field: bytes) -> int | None:
    return text.number_or_none(field, -LARGE, LARGE)


def expected_lines(problem: Problem) -> Iterator[ExpectedLine]:
    yield ExpectedLine("the day", ["day", str(problem.periods)], [])
    yield ExpectedLine("the welfare", ["welfare"], [NUMBER])
    for period in range(1, problem.periods + 1):
        yield ExpectedLine(f"period {period}", ["period", str(period)], [NUMBER, NUMBER])
    for row in problem.rows:
        kind = row.order.kind
        yield ExpectedLine(f"{kind} {row}", [kind, row.who, row.name], [NUMBER] if kind == "hour" else [DECISION, NUMBER])


def line_values(line: bytes, known: list[str], forms: list[str]) -> list[int] | None:
    """The values after the known fields of a line that begins with these: numbers, and for a decision whether the word is `accepted`.
    None if one of them hasn't its form."""
    fields = line.split(b",")
    if len(fields) != len(known) + len(forms):
        return None
    values = []
    for field, form in zip(fields[len(known) :], forms):
        value = {b"accepted": True, b"rejected": False}.get(field) if form == DECISION else number_or_none(field)
        if value is None:
            return None
        values.append(value)
    return values


def known_beginning(line: bytes) -> tuple[bytes, ...]:
    """The subject of a line, if it is one of results: its known fields."""
    fields = line.split(b",", 3)
    return tuple(fields[: {b"day": 2, b"welfare": 1, b"period": 2}.get(fields[0], 3)])


def unknown_orders_faults(wanted: Sequence[tuple[bytes, ...]], beginnings: Sequence[tuple[bytes, ...]]) -> list[FaultLine]:
    """A fault if most lines of orders are of none of this journal's; else none."""
    orders = [begin for begin in beginnings if begin[0] in (b"hour", b"block")]
    others = len(orders) - sum(map(set(wanted).__contains__, orders))
    if 2 * others <= len(orders):
        return []
    words = f"{ANOTHER}: {others} of their {len(orders)} lines of orders are of orders that this journal doesn't have"
    return [FaultLine(words, "journal")]


def foreign_results_fault(line: bytes, wanted: Sequence[tuple[bytes, ...]]) -> FaultLine:
    """The fault of results of which no line is one of this journal's."""
    for comma, name in ((b";", "semicolons"), (b"\t", "tabs")):
        if comma in line and known_beginning(line.replace(comma, b",")) in wanted:
            words = f"the fields of the results are separated by {name} instead of commas: the first line is {text.quoted(line)}"
            return FaultLine(words, "form", 1)
    return FaultLine(f"none of the lines of the results belongs to this journal: the first is {text.quoted(line)}", "journal", 1)


def parse_results_and_faults(problem: Problem, data: bytes) -> tuple[Results | None, list[FaultLine]]:
    """The results that a text is for this problem, and the faults of its form; results are None if something is."""
    wrong: list[FaultLine] = []
    lines, values = {}, []
    if not data.endswith(b"\n"):
        wrong.append(FaultLine("the last line of the results has no line end", "form"))
    given_lines, more = lines_and_faults(data)
    wrong += more
    expected = list(expected_lines(problem))
    last = 0  # the last line that was found
    wanted = [tuple(field.encode() for field in known) for _, known, _ in expected]
    beginnings = [known_beginning(line) for line in given_lines]
    if set(wanted).isdisjoint(beginnings):
        return None, [foreign_results_fault(given_lines[0], wanted) if data else FaultLine("the results are empty", "form")]
    pairs = matched_pairs(wanted, beginnings)
    away = moved_places(wanted, beginnings, pairs)
    elsewhere = set(away.values())
    for at, place in pairs:
        last = last if place is None else place + 1
        if place in away:
            wrong.append(line_fault(moved_line_text(expected, away[place]), "moved", last, expected[away[place]].about))
        elif at is None and place is not None:
            wrong.append(line_fault(stray_line_text(given_lines[place]), "stray", last, None))
        if at is None or at in elsewhere:
            continue
        about, known, forms = expected[at]
        if place is None or place in away:
            wrong.append(missing_line_fault(last + (place is None), len(given_lines), about))
            continue
        read = line_values(given_lines[place], known, forms) if beginnings[place] == wanted[at] else None
        lines[about] = last
        if read is None:
            wrong.append(line_fault(form_text(about, given_lines[place], known, forms), "form", last, about))
        else:
            values.append(read)
    if wrong:
        return None, unknown_orders_faults(wanted, beginnings) + wrong
    return results_of_values(problem, values, lines), wrong


def lines_and_faults(data: bytes) -> tuple[list[bytes], list[FaultLine]]:
    """The lines of a text that are looked at, and a fault if there are more, in a list."""
    found = data.removesuffix(b"\n").split(b"\n", MOST_LINES)
    if len(found) <= MOST_LINES:
        return found, []
    count = MOST_LINES + 1 + found.pop().count(b"\n")
    words = f"the text has {count:,} lines, and no day has as many: those after line {MOST_LINES:,} weren't looked at"
    return found, [FaultLine(words, "stray", MOST_LINES + 1)]


def missing_line_fault(line: int, lines: int, about: str) -> FaultLine:
    """The fault of a line that is missing before another, or at the end."""
    where = f"before results line {line}" if line <= lines else f"at the end of the results, as line {line}"
    return FaultLine(f"the line for {about} is missing {where}", "missing", line, about)


def form_text(about: str, line: bytes, known: list[str], forms: list[str]) -> str:
    """The message about a line whose fields after the known ones haven't their forms."""
    fields = line.split(b",")
    if len(fields) == len(known) + len(forms):
        for field, form in zip(fields[len(known) :], forms):
            if form == NUMBER and number_or_none(field) is None and OTHER_NUMBER.fullmatch(field):
                return f"{about}: {text.quoted(field)} isn't a number as dam writes it: no +, no leading zeros, no -0"
    return f"{about} should be '{','.join(known + forms)}' and is {text.quoted(line)}"


def moved_line_text(expected: Sequence[ExpectedLine], at: int) -> str:
    after = f"after that for {expected[at - 1].about}" if at else "before all others"
    return f"the line for {expected[at].about} stands here and belongs {after}"


def stray_line_text(line: bytes) -> str:
    return f"{text.quoted(line)} doesn't belong here" if line else "the line is empty, and should not be there"


def results_of_values(problem: Problem, values: list[list[int]], lines: dict[str, int]) -> Results:
    (_, (welfare,), *rest) = values
    periods, rows = rest[: problem.periods], rest[problem.periods :]
    kinds = list(zip(problem.rows, rows))
    blocks = [read for row, read in kinds if row.order.kind == "block"]
    return Results(
        welfare,
        [price for price, _ in periods],
        [volume for _, volume in periods],
        [read[0] for row, read in kinds if row.order.kind == "hour"],
        {place for place, (accepted, _) in enumerate(blocks) if accepted},
        [surplus for _, surplus in blocks],
        lines,
    )


def executed_by_row(problem: Problem, cleared: Mapping[int, Clearing | None]) -> dict[tuple[str, str], int | None]:
    """The executed volume of each hourly order, by participant and name; None in a period that doesn't balance."""
    volumes = {}
    for number, rows in problem.hourly.items():
        found = cleared[number]
        for at, row in enumerate(rows):
            volumes[row.who, row.name] = None if found is None else found.executed[at]
    return volumes


def results_text(problem: Problem, accepted: Places, outcome: Outcome) -> str:
    """The results that are published of an eligible selection."""
    lines = [f"day,{problem.periods}", f"welfare,{outcome.welfare}"]
    for number, found in outcome.cleared.items():
        assert found is not None
        lines.append(f"period,{number},{found.price},{outcome.bought[number]}")
    executed = executed_by_row(problem, outcome.cleared)
    place = 0
    for row in problem.rows:
        if row.order.kind == "hour":
            lines.append(f"hour,{row},{executed[row.who, row.name]}")
        else:
            word = "accepted" if place in accepted else "rejected"
            lines.append(f"block,{row},{word},{outcome.surpluses[place]}")
            place += 1
    return "".join(f"{line}\n" for line in lines)
