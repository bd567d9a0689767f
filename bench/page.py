#!/usr/bin/env python3
"""page.py: writes docs/MEASURED.md from the recorded figures in measured/. `bench/run` does this after each part that it records."""

import collections
import sys
from collections.abc import Iterable, Sequence
from pathlib import Path

sys.dont_write_bytecode = True
sys.path[:0] = [str(Path(__file__).resolve().parents[1] / folder) for folder in ("tools", "tests")]  # of `lib` and `shared`

from figures import ONE_RUN, Figure, Side, Targets, Verdict, span_text, target_of
from part import Part
from parts import PARTS
from records import PartRecord, read_figures, read_part_records
from running import TOP

PAGE = TOP / "docs" / "MEASURED.md"
HEAD = """# Measured figures

`bench/run` writes this page. A value is the median of several runs, with its quartiles in brackets if they were recorded, or the least and
the greatest of several variants, such as books. A target between quartiles is unclear. Compared programs run alternately. `A compared with
B` is A's time, rate or memory divided by B's. Some targets were [set later](../bench/NOTES.md). Each part's script describes its method,
[make_blocks.py](../bench/make_blocks.py) the kinds of books and their spread, and [make_family.py](../bench/make_family.py) the families.
The baseline and the twin are [plain Rust programs](../crates/WORDS.md#benchmarks). The load is the minute's before `bench/run`.
"""


def markdown_table(head: Sequence[str], rows: Iterable[Iterable[str]]) -> str:
    first, *others = (f"| {' | '.join(field.replace('|', '/') for field in row)} |\n" for row in [head, *rows])
    return "".join([first, "|---" * len(head) + "|\n", *others])


def value_text(figures: list[Figure]) -> str:
    """The value of a figure with its quartiles, or why it has none; or the least and the greatest of several."""
    least, *_, greatest = sorted(2 * figures, key=lambda figure: figure.sort_key)
    if least.value != greatest.value:
        return span_text(least.value, greatest.value)
    if least.value == "?":
        return least.details
    return least.value if least.quartiles in ("", ONE_RUN) or len(figures) > 1 else f"{least.value} ({least.quartiles})"


def missed_text(figures: list[Figure], targets: Targets) -> str:
    """How many figures of a kind missed their target, how many are unclear, and which is furthest from the target."""
    wrong = [figure for figure in figures if figure.is_wrong]
    if not wrong:
        return ""
    if len(figures) == 1:
        return f"**{wrong[0].verdict.value}**"
    verdicts = collections.Counter(figure.verdict for figure in wrong)
    counts = [f"{verdicts[verdict]} {verdict.value}" for verdict in (Verdict.MISSED, Verdict.UNCLEAR) if verdicts[verdict]]
    furthest = (min if target_of(targets, wrong[0].key).side is Side.LEAST else max)(wrong, key=lambda figure: figure.sort_key)
    return f"**{', '.join(counts)}** of {len(figures)}; worst: {furthest.variant}"


def table_of_kinds(figures: Iterable[Figure], targets: Targets) -> str:
    """A row for each kind of figure: those with one name and target."""
    kinds = collections.defaultdict(list)
    for figure in figures:
        kinds[figure.name, figure.target].append(figure)
    names = {kind: each[0].whole_name if len(each) == 1 else each[0].name for kind, each in kinds.items()}
    rows = ([names[kind], value_text(each), each[0].target, missed_text(each, targets)] for kind, each in kinds.items())
    return markdown_table(["Figure", "Value", "Target", "Missed"], rows)


def read_and_compose_section(part: Part) -> str:
    """The subject of a part, and its figures by kinds."""
    head = f"## `bench/run {part.name}`\n\n{part.subject}\n"
    return f"{head}\n{table_of_kinds(read_figures(part.name), part.targets)}"


def read_cells_of_part(record: PartRecord) -> list[str]:
    """The cells of the overview for a part: how many figures are recorded, how many of their targets are missed or unclear, the mean load
    of the minute before, the day and the commit, and the versions of its Debian packages."""
    figures = read_figures(record.part)
    counts = collections.Counter(figure.verdict for figure in figures if figure.verdict is not Verdict.NONE)
    unclear = f" ({counts[Verdict.UNCLEAR]} unclear)" if counts[Verdict.UNCLEAR] else ""
    link, missed = f"[{len(figures)}](../bench/measured/{record.part}.csv)", f"{counts[Verdict.MISSED]} of {counts.total()}{unclear}"
    return [record.part, link, missed, record.load.split(" ")[0], record.date, record.commit, record.versions]


def read_and_compose_page() -> str:
    """The page, from the recorded figures of all parts."""
    records = read_part_records()
    parts = [part for part in PARTS.values() if part.name in records]
    measured = [records[part.name] for part in parts]
    overview = markdown_table(["Part", "Figures", "Missed", "Load", "Day", "Commit", "Packages"], map(read_cells_of_part, measured))
    machines, kits = (" and ".join({getattr(record, column): "" for record in measured}) for column in ("machine", "kit"))
    return "\n".join([HEAD, overview, f"Machine: {machines}. Kit: {kits}.\n", *map(read_and_compose_section, parts)])


def write_page() -> None:
    PAGE.write_text(read_and_compose_page(), encoding="utf-8")


if __name__ == "__main__":
    if sys.argv[1:]:
        sys.exit(__doc__)
    write_page()
