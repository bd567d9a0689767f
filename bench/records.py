"""The record of each part in measured/: its figures, and the facts about its run, such as the day, the commit and the machine."""

import csv
import datetime
import os
import re
import subprocess
from collections.abc import Iterable, Sequence
from pathlib import Path
from typing import NamedTuple

from figures import Figure, Verdict
from running import BENCH

RECORDED = BENCH / "measured"
WRITTEN = ["docs/MEASURED.md", "bench/measured"]  # by the bench itself


class PartRecord(NamedTuple):
    """The facts about the run of a part, as a row of measured/parts.csv has them."""

    part: str
    date: str
    commit: str
    machine: str
    load: str
    kit: str
    versions: str

    def is_of_busy_machine(self) -> bool:
        return float(self.load.split()[0]) > int(self.machine.split()[0]) / 4


def capture_output(*words: str) -> str:
    """The output of a program, or nothing if it is missing or fails."""
    try:
        return subprocess.run(words, stdout=subprocess.PIPE, stderr=subprocess.DEVNULL, text=True, check=True).stdout.strip()
    except (OSError, subprocess.CalledProcessError):
        return ""


def capture_part_record(part: str, packages: Sequence[str]) -> PartRecord:
    """The facts about a run that is about to begin, with the versions of these Debian packages."""
    commit = capture_output("git", "-C", str(BENCH), "rev-parse", "--short", "HEAD") or "unknown"
    if capture_output("git", "-C", str(BENCH), "status", "--porcelain", "--", ":/", *(f":(top,exclude){name}" for name in WRITTEN)):
        commit += " with changes"
    processors = re.findall(r"(?m)^model name\s*: (.*)", Path("/proc/cpuinfo").read_text()) or [os.uname().machine]
    machine, load = f"{os.cpu_count()} processors ({processors[0]})", " ".join(Path("/proc/loadavg").read_text().split()[:3])
    versions = (f"{package} {capture_output('dpkg-query', '--show', '--showformat', '${Version}', package)}" for package in packages)
    return PartRecord(part, str(datetime.date.today()), commit, machine, load, capture_output("rt", "version"), "; ".join(versions))


def read_table(path: Path) -> list[dict[str, str]]:
    """The rows of a table, each by the names of its columns."""
    with open(path, encoding="utf-8", newline="") as text:
        return list(csv.DictReader(text))


def parse_figure(row: dict[str, str]) -> Figure:
    """The figure of a row of measured/PART.csv."""
    texts = {column: text for column, text in row.items() if column not in ("verdict", "median")}
    return Figure(**texts, verdict=Verdict(row["verdict"]), median=float(row["median"]) if row["median"] else None)


def row_of_figure(figure: Figure) -> list[str]:
    median = "" if figure.median is None else f"{figure.median:.6g}"
    return list({**figure._asdict(), "verdict": figure.verdict.value, "median": median}.values())


def read_figures(part: str) -> list[Figure]:
    return list(map(parse_figure, read_table(RECORDED / f"{part}.csv")))


def read_part_records() -> dict[str, PartRecord]:
    """The record of each part that has one, by its name."""
    path = RECORDED / "parts.csv"
    return {row["part"]: PartRecord(**row) for row in read_table(path)} if path.exists() else {}


def write_part(record: PartRecord, figures: list[Figure]) -> None:
    """Replaces the recorded figures and the record of a part by these."""
    RECORDED.mkdir(exist_ok=True)
    tables: dict[str, list[Iterable[str]]] = {record.part: [Figure._fields, *map(row_of_figure, figures)]}
    tables["parts"] = [PartRecord._fields, *(read_part_records() | {record.part: record}).values()]
    for name, rows in tables.items():
        with open(RECORDED / f"{name}.csv", "w", encoding="utf-8", newline="") as text:
            csv.writer(text, lineterminator="\n").writerows(rows)
