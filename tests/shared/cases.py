"""The worked cases of tests/cases/. A file there is a text with several cases, which `read_cases` reads and `case_text` returns.

It begins with the facts that its cases show, and maybe with the line `-- args` of the cases that have none. A case begins with a
line `== NAME`, and maybe with the fact that it shows. Then come its parts, each a line `-- PART`, most with lines below it:

    -- args WORD..          the program's arguments
    -- runs                 further arguments: the program is run once with those of each line
    -- stdin                the input
    -- stdout, -- stderr    the program's output; of several texts for a stream, each is right
    -- stdout begins        the first lines of its output; and so `-- stdout ends`, `-- stderr begins`, `-- stderr ends`
    -- status N             the status; without it, 0
    -- table                columns' names, and rows of cells, with two blanks or more between the cells: the case stands
                            for one case of each row, and in all its lines `{COLUMN}` is replaced by the cell

A text that is left out is empty. `-- PART as in CASE` takes the text of a case above, or of FILE/CASE, and
`-- PART from PATH` the text of a file of the repository. Empty lines at the end of a text don't count. Each other line
stands for itself and its line end, but for:

    {1..9}, {5 times}       the line stands once for each number, with that number here; or as many times, with nothing here
    \\n \\r \\x7b \\\\           a line end, a return, the byte 0x7b, a backslash
    \\ at the end            the line has no line end
"""

from __future__ import annotations

import re
from collections.abc import Iterable, Iterator, Sequence
from itertools import product
from pathlib import Path
from typing import NamedTuple

from shared.place import TOP

Row = dict[str, str]  # cells, by their columns
Block = tuple[int, str, list[tuple[int, str]]]  # the number of its line, a name, and the lines below it
FOLDER = TOP / "tests" / "cases"
STREAMS = ("stdout", "stderr")
KINDS = ("args", "runs", "stdin", *(f"{it}{end}" for it in STREAMS for end in (" begins", " ends", "")), "status", "table")
PLAIN = re.compile(r"(?:[ -~]*[!-~])?")
TIMES = re.compile(r"\{(?:(\d+)\.\.(\d+)|(\d+) times)\}")
BRACE = re.compile(r"\{([^{}]*)\}")
ESCAPE = re.compile(r"\\(x[0-9a-f]{2}|.?)")
ESCAPED = {"n": "\n", "r": "\r", "\\": "\\", "": ""}
# The text that doesn't stand for itself: the beginning of a heading, a blank at the end, and such bytes.
UNPLAIN = re.compile(r"^[=-](?=[=-] )| $|[^ -z|}~]|\\")


class CaseFault(Exception):
    """The fault of a file of cases; a first argument is the number of the line."""


class Expected(NamedTuple):
    """The right output of a stream: one of some texts, or any text that begins and ends so."""

    texts: list[bytes]
    begins: bytes = b""
    ends: bytes = b""

    @property
    def is_whole(self) -> bool:
        return not (self.begins or self.ends)

    def is_right(self, got: bytes) -> bool:
        return got in self.texts if self.is_whole else got.startswith(self.begins) and got.endswith(self.ends)


class Case(NamedTuple):
    name: str  # FILE/NAME
    words: list[str]  # its arguments
    runs: list[list[str]]  # the further arguments of each run
    stdin: bytes
    stdout: Expected
    stderr: Expected
    status: int

    @property
    def right_stdout(self) -> bytes:
        """The right standard output; the first, if several texts are."""
        return self.stdout.texts[0]

    def wrong_parts(self, status: int, stdout: bytes, stderr: bytes) -> list[str]:
        """The wrong parts of a run."""
        found = {"stdout": self.stdout.is_right(stdout), "status": status == self.status, "stderr": self.stderr.is_right(stderr)}
        return [what for what, is_right in found.items() if not is_right]


class Part(NamedTuple):
    number: int
    kind: str
    value: str
    lines: list[tuple[int, str]]  # each with its number

    def with_cells(self, row: Row) -> Part:
        lines = [(at, with_cells_of_row(at, line, row)) for at, line in self.lines]
        return Part(self.number, self.kind, with_cells_of_row(self.number, self.value, row), lines)


class CaseReader:
    """Reads a file of cases: `found` has them by their names."""

    def __init__(self, path: Path) -> None:
        self.path = path
        self.found: dict[str, Case] = {}

    def read_and_add_cases(self) -> None:
        first, *blocks = parse_blocks(self.path.read_bytes().decode("latin-1"))
        usual = parse_parts(first)
        for number, name, lines in blocks:
            parts = parse_parts((number, name, lines))
            for row in parse_rows([it for it in parts if it.kind == "table"]):
                its = [it.with_cells(row) for it in parts if it.kind != "table"]
                its += [it for it in usual if it.kind not in {own.kind for own in its}]
                self.read_and_add_case(number, with_cells_of_row(number, name, row), its)

    def read_and_add_case(self, number: int, name: str, parts: Sequence[Part]) -> None:
        kinds = [it.kind for it in parts]
        twice = [it for it in kinds if kinds.count(it) > 1 and it not in STREAMS or {f"{it} begins", f"{it} ends"} & {*kinds}]
        if twice or name in self.found or "args" not in kinds:
            raise CaseFault(number, f"{name} has no arguments, is there already, or has a part twice")
        values = {"status": "0", **{it.kind: it.value for it in parts}}
        if not values["status"].isdigit():
            raise CaseFault(number, f"the status of {name} is no number: {values['status']}")
        runs = [line.split() for it in parts if it.kind == "runs" for at, text in it.lines for line in parse_repeats(at, text)]
        stdin = [self.read_text_of(it) for it in parts if it.kind == "stdin"] or [b""]
        out, error = (self.read_expected(stream, parts) for stream in STREAMS)
        self.found[name] = Case(f"{self.path.stem}/{name}", values["args"].split(), runs or [[]], stdin[0], out, error, int(values["status"]))

    def read_expected(self, stream: str, parts: Iterable[Part]) -> Expected:
        its = [(it.kind, self.read_text_of(it)) for it in parts if it.kind.split()[0] == stream]
        texts, ends = [text for kind, text in its if kind == stream], dict(its)
        return Expected(texts or [b""], ends.get(f"{stream} begins", b""), ends.get(f"{stream} ends", b""))

    def read_text_of(self, part: Part) -> bytes:
        """The text of a part."""
        if not part.value:
            return b"".join(parse_escapes(at, line) for at, text in part.lines for line in parse_repeats(at, text))
        if part.lines:
            raise CaseFault(part.number, "a text from elsewhere, with lines below it")
        how, _, where = part.value.partition(" ")
        if how == "from" and (TOP / where).is_file():
            return (TOP / where).read_bytes()
        file, slash, name = where[len("in ") :].rpartition("/")
        found = self.found if not slash else read_cases_of_file(file) if case_path_of(file).is_file() else {}
        if how != "as" or name not in found:
            raise CaseFault(part.number, f"there is no text {part.value}")
        return found[name].stdin if part.kind == "stdin" else getattr(found[name], part.kind.split()[0]).texts[0]


def parse_blocks(text: str) -> list[Block]:
    """The text before the first case, and the cases: each the number of its line, its name, and the lines below it."""
    found: list[Block] = [(0, "", [])]
    for number, line in enumerate(text.split("\n"), 1):
        if not PLAIN.fullmatch(line):
            raise CaseFault(number, "a byte outside of printable ASCII, or a blank at the end: these have to be escaped")
        if line.startswith("== "):
            found.append((number, line[3:], []))
        else:
            found[-1][2].append((number, line))
    return found


def parse_parts(block: Block) -> list[Part]:
    """The parts of a case, without empty lines at their end."""
    found: list[Part] = []
    for number, line in block[2]:
        if line.startswith("-- "):
            kind = next((it for it in KINDS if f"{line} ".startswith(f"-- {it} ")), None)
            if not kind:
                raise CaseFault(number, f"there is no part {line[3:]}")
            found.append(Part(number, kind, line[3 + len(kind) :].strip(), []))
        elif found:
            found[-1].lines.append((number, line))
    for part in found:
        while part.lines and not part.lines[-1][1]:
            part.lines.pop()
        if part.lines and part.kind in ("args", "status"):
            raise CaseFault(part.number, f"lines below `-- {part.kind}`")
    return found


def parse_rows(tables: Sequence[Part]) -> list[Row]:
    """The rows of a case's table, each with its cells by their columns; one row without cells, if there is no table."""
    if not tables:
        return [{}]
    (_, columns), *rows = [(number, re.split("  +", line)) for number, line in tables[0].lines] or [(0, [])]
    if len(tables) > 1 or not rows:
        raise CaseFault(tables[-1].number, "a second table, or one without rows")
    for number, cells in rows:
        if len(cells) != len(columns):
            raise CaseFault(number, f"{len(cells)} cells below {len(columns)} columns")
    return [dict(zip(columns, cells)) for _, cells in rows]


def with_cells_of_row(number: int, text: str, row: Row) -> str:
    """The text with a row's cells."""

    def cell(brace: re.Match[str]) -> str:
        if brace[1] not in row and not TIMES.fullmatch(brace[0]):
            raise CaseFault(number, f"neither a column nor a range: {brace[0]}")
        return row.get(brace[1], brace[0])

    return BRACE.sub(cell, text)


def parse_repeats(number: int, line: str) -> Iterator[str]:
    """The lines for which a line stands that has ranges and numbers of times."""
    texts = TIMES.split(line)
    counts = zip(texts[1::4], texts[2::4], texts[3::4])
    ranges = [[""] * int(times) if times else range(int(least), int(most) + 1) for least, most, times in counts]
    if not all(ranges):
        raise CaseFault(number, f"a line that stands for none: {line}")
    for numbers in product(*ranges):
        yield texts[0] + "".join(f"{number}{text}" for number, text in zip(numbers, texts[4::4]))


def parse_escapes(number: int, line: str) -> bytes:
    """The bytes for which a line stands."""

    def byte(escape: re.Match[str]) -> str:
        word = escape[1]
        if word not in ESCAPED and len(word) < 3:
            raise CaseFault(number, f"there is no escape {escape[0]}")
        return ESCAPED[word] if word in ESCAPED else chr(int(word[1:], 16))

    is_cut = (len(line) - len(line.rstrip("\\"))) % 2 == 1
    return ESCAPE.sub(byte, line).encode("latin-1") + (b"" if is_cut else b"\n")


def read_cases(path: str | Path) -> dict[str, Case]:
    """The cases of a file by their names, in its order."""
    try:
        reader = CaseReader(Path(path))
        reader.read_and_add_cases()
        return reader.found
    except CaseFault as fault:
        if len(fault.args) == 1:
            raise
        raise CaseFault(f"{path}:{fault.args[0]}: {fault.args[1]}") from None


def read_cases_of_file(file: str) -> dict[str, Case]:
    """The cases of a file of tests/cases/, by their names."""
    return read_cases(case_path_of(file))


def case_path_of(file: str) -> Path:
    return FOLDER / f"{file}.txt"


def list_case_files() -> list[Path]:
    return sorted(FOLDER.glob("*.txt"))


def read_all_cases() -> list[Case]:
    """All cases of tests/cases/."""
    return [case for path in list_case_files() for case in read_cases(path).values()]


def case_text(name: str, words: Sequence[str], stdin: bytes, stdout: bytes = b"", stderr: bytes = b"", status: int = 0) -> str:
    """A case as it stands in a file."""
    lines = [f"== {name}", f"-- args {' '.join(words)}".rstrip()]
    for kind, text in ("stdin", stdin), ("stdout", stdout), ("stderr", stderr):
        if text:
            lines += [f"-- {kind}", *escaped_lines(text)]
    return "\n".join([*lines, f"-- status {status}", ""])


def escaped_lines(text: bytes) -> list[str]:
    """The lines that stand for a text."""
    *whole, rest = text.decode("latin-1").split("\n")
    lines = [UNPLAIN.sub(lambda it: "\\\\" if it[0] == "\\" else f"\\x{ord(it[0]):02x}", line) for line in (*whole, rest)]
    rest = lines.pop()
    if rest:
        return [*lines, rest + "\\"]
    # an empty line at the end wouldn't count
    return [*lines[:-1], lines[-1] or "\\n\\"]
