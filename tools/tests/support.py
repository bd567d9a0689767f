"""The common parts of the tests: the repository's worked cases, random days, and runs of the tools."""

import contextlib
import csv
import importlib.machinery
import importlib.util
import io
import itertools
import os
import random
import re
import runpy
import shlex
import signal
import subprocess
import sys
import tempfile
import unittest.mock
from pathlib import Path

TOP = Path(__file__).resolve().parents[2]
TOOLS = TOP / "tools"
sys.path[:0] = [f"{TOP}/tests", f"{TOP}/tools"]

from lib.crates import sources
from lib.day import day_files
from lib.journal import book, journal
from lib.results import results, selection
from lib.tables import table_files
from lib.tool import modules
from shared import cases as worked, days, timed_program

SECONDS = 300  # that a run may take
# Three examples, and their results.
AUCTION, QUARTERS, SUNNY = (TOP / "examples" / f"{name}.csv" for name in ("auction-day", "quarter-hours", "sunny-day"))
AUCTION_RESULTS, QUARTERS_RESULTS, SUNNY_RESULTS = (worked.FOLDER / f"{it.stem}.stdout" for it in (AUCTION, QUARTERS, SUNNY))
# A journal with orders in periods 8 and 9 alone.
FIRST = (TOP / "examples" / "first-day.csv").read_bytes()
# The sources of the library for C in a repository of two crates.
SOURCES_OF_LIBRARY = ["HANDLES", "crates/dam_c/src/lib.rt", "crates/low/src/lib.rt", *(f"library/{name}" for name in sources.IN_C)]


def load_tool(name):
    """A tool without an ending, as a module."""
    loader = importlib.machinery.SourceFileLoader(name.replace("-", "_"), str(TOOLS / name))
    module = importlib.util.module_from_spec(importlib.util.spec_from_loader(loader.name, loader))
    loader.exec_module(module)
    return module


def set_signal_handlers(case):
    """Lets a test's processes be interrupted: a shell's command in the background ignores the signal, and one of nohup that of a terminal
    that closes, and so would all that it starts."""
    for number, handler in ((signal.SIGINT, signal.default_int_handler), (signal.SIGHUP, signal.SIG_DFL)):
        case.addCleanup(signal.signal, number, signal.signal(number, handler))


def make_folder_for_case(case):
    """A folder, which is removed after a test."""
    folder = tempfile.TemporaryDirectory()
    case.addCleanup(folder.cleanup)
    return Path(folder.name)


def make_recorded_library(top):
    """A library for C without contents in such a repository, with the record of its sources."""
    library = Path(top, "library", "out", "libdam.so.1")
    for path in (library, *(Path(top, name) for name in SOURCES_OF_LIBRARY)):
        path.parent.mkdir(parents=True, exist_ok=True)
        path.touch()
    Path(top, "crates.txt").write_text("low:\ndam_c staticlib: low\n")
    with unittest.mock.patch.object(sources, "TOP", str(top)):
        sources.write_or_remove_records_and_see(sources.LIBRARY, sources.read_source_sums(sources.LIBRARY), str(library))
    return library


def read_worked_cases(file):
    """The worked cases of a file, by their names."""
    return worked.read_cases_of_file(file)


def read_cleared_cases():
    """The name, the journal and the results of each worked clearing."""
    return [(name, case.stdin, case.right_stdout) for name, case in read_worked_cases("clear").items() if case.status == 0]


def read_results(example):
    """The results of one of the three examples."""
    return (worked.FOLDER / f"{example.stem}.stdout").read_bytes()


def rows_of_csv(data):
    """The rows of a table in CSV, as dictionaries."""
    return list(csv.DictReader(io.StringIO(data.decode())))


def rows_as_written(rows):
    """The rows of a table as they are in its CSV."""
    return rows_of_csv(table_files.csv_text(rows).encode())


def problem_of(data):
    return selection.Problem(book.book_and_refusals(journal.parse_journal(data))[0])


def draw_texts():
    """Random days of few blocks, each with its eligible selections by the plain reading of the rules."""
    for number in itertools.count():
        day = problem_of(days.draw_text(random.Random(f"few blocks {number}"), 6).replace(b"close,,,,,,,,\n", b"") + b"close,,,,,,,,\n")
        if 0 < len(day.blocks) <= 6:
            yield day, ranked_selections(day)


# Those that a test has asked for, and the others.
FOUND, MORE = [], draw_texts()


def draw_small_problems(count):
    """Random days of at most six blocks, each with its eligible selections from the best one down. Every test has the same ones."""
    FOUND.extend(itertools.islice(MORE, max(count - len(FOUND), 0)))
    return FOUND[:count]


def ranked_selections(day):
    """The eligible selections of a problem, with their welfare, the best one first."""
    subsets = itertools.product([True, False], repeat=len(day.blocks))
    chosen = [frozenset(itertools.compress(range(len(day.blocks)), flags)) for flags in subsets]
    found = [(selection.eligible_welfare(day, accepted), accepted) for accepted in chosen]
    # The selections come from the one that accepts most in front, and the sort keeps that order among equals.
    return sorted(((welfare, accepted) for welfare, accepted in found if welfare is not None), key=lambda pair: -pair[0])


@contextlib.contextmanager
def writing_files(**contents):
    """The paths of files with these bytes, each of its name, which are removed at the end."""
    with tempfile.TemporaryDirectory() as folder:
        paths = [Path(folder, name) for name in contents]
        for path, content in zip(paths, contents.values()):
            path.write_bytes(content)
        yield paths


def day_of(data, text):
    """A day as the tools have it, of bytes."""
    with writing_files(journal=data, results=text) as paths:
        return day_files.Day.read_or_stop(*map(str, paths))


def results_of(data, accepted):
    """The results of a journal if these places are accepted."""
    day = problem_of(data)
    return results.results_text(day, accepted, selection.outcome(day, accepted)).encode()


def journal_of(*lines):
    """A closed journal of a day of 24 periods with these commands."""
    return "".join(f"{line}\n" for line in ["day,24,,,,,,,", *lines, "close,,,,,,,,"]).encode()


def run_tool(name, *words, data=b"", python=None):
    """A run of a tool: its status, output and errors. If no Python is named, it runs in a copy of this process, which has loaded already
    modules that a new Python loads each time. But HiGHS has threads, and a copy of a process that has used it would wait for them."""
    words = list(map(str, words))
    if python is None and "highs" not in words:
        load_packages(name)
        return run_in_fork(str(TOOLS / name), words, data)
    ran = subprocess.run([*(python or [sys.executable]), TOOLS / name, *words], input=data, capture_output=True)
    return ran.returncode, ran.stdout, ran.stderr.decode()


def capture_unsaid_members(name, record, *parts):
    """The members of a record of receipts or an office, and of its parts, that neither docs/FORMATS.md nor its command's help names."""
    page = (TOP / "docs" / "FORMATS.md").read_text().partition("\nThose of `tools/receipts` and `tools/office` have ")[2]
    text = run_tool(name, record["command"], "--help")[1].decode()
    words = re.search(r"^  --json +print .*?\bJSON,\s+with (.*?)(?=^  -|^$)", text, re.MULTILINE | re.DOTALL)[1]
    known = {*re.findall(r"`(\w+)`", page), *re.findall(r"\w+", words)}
    return {member for part in (record, *parts) for member in part} - known


def load_packages(name):
    """Loads the packages that a tool needs, for all runs of it."""
    if name in ("plot", "report") and modules.has_module("matplotlib") and modules.has_module("jinja2"):
        importlib.import_module("lib.report.page")


def run_in_fork(path, words, data=b""):
    """A run of a script in a copy of this process."""
    with timed_program.open_in_memory(data) as stdin, timed_program.open_in_memory() as stdout, timed_program.open_in_memory() as stderr:
        child = os.fork()
        if child == 0:
            run_and_exit(path, words, [stdin, stdout, stderr])
        is_late = not timed_program.wait_and_see_end(child, SECONDS)
        if is_late:
            os.kill(child, signal.SIGKILL)
        status = os.waitstatus_to_exitcode(os.waitpid(child, 0)[1])
        assert not is_late, f"{path} {words}: no end after {SECONDS} seconds"
        return status, timed_program.read_contents(stdout), timed_program.read_contents(stderr).decode()


def run_and_exit(path, words, files):
    """Runs a script in this process, with these files as its streams, and ends the process as Python does."""
    status = 1
    try:
        for number, file in enumerate(files):
            os.dup2(file.fileno(), number)
        sys.stdin, sys.stdout, sys.stderr = (open(number, mode, closefd=False) for number, mode in enumerate("rww"))
        sys.stderr.reconfigure(errors="backslashreplace", line_buffering=True)
        sys.argv = [path, *words]
        runpy.run_path(path, run_name="__main__")
        status = 0
    except SystemExit as end:
        status = end.code if isinstance(end.code, int) else int(end.code is not None)
        if end.code is not None and not isinstance(end.code, int):
            print(end.code, file=sys.stderr)
    except BaseException as fault:
        sys.excepthook(type(fault), fault, fault.__traceback__)
    finally:
        try:
            sys.stdout.flush()
        except (OSError, ValueError):
            status = 120
        os._exit(status)


def write_doctored_program(folder, program, mark, edit):
    """A program that prints the output of another one, with an edit of sed if the journal has a mark."""
    made = Path(folder, "doctored")
    run = f"printf '%s\\n' \"$text\" | {shlex.quote(str(program))} \"$@\""
    made.write_text(f"#!/bin/sh\ntext=$(cat)\ncase \"$text\" in\n*{mark}*) {run} | sed '{edit}' ;;\n*) {run} ;;\nesac\n")
    made.chmod(0o755)
    return made


def run_audit(data, text, *words):
    """A run of the audit on a journal and results."""
    with writing_files(journal=data, results=text) as paths:
        return run_tool("audit", *words, *paths)
