"""tests/rattle/run [--jobs N] [--seconds N] [--only WORD].. [--prove | --fmt] [CRATE..]: runs the tests of the crates of crates/.
tests/rattle/run [--jobs N] [--seconds N] --wrong-bodies [NAME..]: tries wrong bodies that the tests must find.

Everything under crates/ is proved; the tests are run. In a copy of the repository, tests/rattle/CRATE/ is laid over crates/CRATE/:
src/NAME.rt.test is appended to src/NAME.rt, or becomes that file if the crate has none, so a test sees what its module sees. If
the module above such a file doesn't declare it, a `mod` line for tests is appended there. A crate that is only here is a crate of tests,
or of what tests share. A test that needs only public names is cheapest in dam_tests, because each crate's run compiles all its libraries.
tests/rattle/libraries lists the libraries that tests need in addition to those of their crate.

`rt try --test` runs the tests of a crate without proving them, --jobs crates at the same time (default: the number of processors). A
test stops at an overflow, an index out of range, a failed unwrap or a failed assertion, and after --seconds N (default: 900). What a
called function requires is not tested. --only WORD runs only the tests with WORD in their paths, such as gate::passes::a_note_is_learnt,
which saves most of the time. --prove first proves the tests, with the proofs of proofs/NAME.antt.test, and so shows that too; it takes
hours. --fmt only runs `rt fmt` over all tests; a run of all tests fails if that would change one. The last line is 'N passed, M failed'; a
test that did not run has failed.

--wrong-bodies tries the wrong bodies of wrong-bodies.edit, or those of these names. They have the form of crates/*/wrong-bodies/*.edit,
but their paths begin with crates/CRATE/, and a line 'test: CRATE TEST' names the test that finds the wrong body. Each is tried alone, on
a copy without that crate's other tests, which would take most of the time. It counts as passed if its test runs and fails.
"""

import contextlib
import os
import re
import shutil
import signal
import subprocess
import sys
import tempfile
import threading
import time
from collections.abc import Callable, Iterable, Iterator, Mapping, Sequence
from concurrent.futures import ThreadPoolExecutor
from pathlib import Path

from lib.crates import crates
from shared.arguments import parser_of_docstring
from shared.counts import Counts
from shared.edit_files import WrongBody, read_edits_that_tests_find, read_text, write_text
from shared.place import TOP
from shared.processes import stdout_of

Result = tuple[int, int, float]  # how many passed and failed, and the seconds of a processor
HERE = f"{TOP}/tests/rattle"
ENDING = ".test"
RESULT = re.compile(r"(?m)^test result: \S+ (\d+) passed; (\d+) failed; (\d+) ignored")
A_TEST = re.compile(r"(?m)^(?:///.*\n)*#\[test\]\nfn (\w+)\((?s:.*?)^\}\n")
NO_FUNCTION = b"no function"  # a word of the command of the pass that only gives hints: no crate has a function of that name
PRINTING = threading.Lock()
RUNNING = set[int]()  # the numbers of the processes that were started and haven't ended


def read_crates_below() -> dict[str, list[str]]:
    """Returns each crate's libraries, of the repository's list and of the tests' own."""
    return crates.read_crates(str(TOP), f"{HERE}/libraries", with_kinds=True)


def find_tests_or_exit() -> Iterator[str]:
    """Yields the path, below tests/rattle, of each file that is laid over a crate."""
    for folder, _, names in os.walk(HERE):
        for path in sorted(os.path.relpath(f"{folder}/{name}", HERE) for name in names):
            if path.endswith(ENDING):
                yield path
            elif "/" in path:
                sys.exit(f"tests/rattle/{path} does not end in {ENDING}, so it would be left out")


def copy_crates_and_count_tests(copy: str, left_out: Iterable[str]) -> dict[str, int]:
    """Copies the crates and lays the tests over them. Returns how many tests each crate has."""
    shutil.copytree(f"{TOP}/crates", f"{copy}/crates", ignore=shutil.ignore_patterns("must-fail", "wrong-bodies", *left_out))
    shutil.copy(f"{TOP}/HANDLES", copy)
    write_text(f"{copy}/crates.txt", "".join(f"{name}: {' '.join(below)}\n" for name, below in read_crates_below().items()))
    counts: dict[str, int] = {}
    for path in find_tests_or_exit():
        crate, target = path.split("/")[0], f"{copy}/crates/{path[: -len(ENDING)]}"
        os.makedirs(os.path.dirname(target), exist_ok=True)
        text = read_text(f"{HERE}/{path}")
        with open(target, "a", encoding="utf-8") as file:
            file.write(("\n" if os.path.getsize(target) else "") + text)
        counts[crate] = counts.get(crate, 0) + len(re.findall(r"(?m)^\s*#\[test\]", text))
    for path in find_tests_or_exit():
        write_declaration_if_missing(f"{copy}/crates", path[: -len(ENDING)])
    return counts


def write_declaration_if_missing(top: str, path: str) -> None:
    """Declares the module of a file of tests in the module above it, unless that does so itself."""
    crate, part, *above, file = path.split("/")
    name, ending = os.path.splitext(file)
    if part != "src" or name in ("lib", "main"):
        return
    root = "main" if os.path.exists(f"{top}/{crate}/src/main{ending}") else "lib"
    parent = f"{top}/{crate}/src/{'/'.join(above) or root}{ending}"
    if not re.search(rf"(?m)^\s*(?:pub(?:\(\w+\))? )?mod {name}\b", read_text(parent)):
        with open(parent, "a", encoding="utf-8") as text:
            text.write(f"\n#[cfg(test)]\nmod {name};\n")


def format_and_return_changed_or_exit(copy: str, crates: Iterable[str]) -> dict[str, str]:
    """Runs `rt fmt` over the copied crates. Returns the formatted text of each file of tests that it changes, by its path."""
    for crate in crates:
        printed, status, _ = capture_output(["rt", "fmt"], f"{copy}/crates/{crate}")
        if status:
            sys.exit(f"{crate}: {printed}")
    changed = {}
    for path in find_tests_or_exit():
        source = f"{TOP}/crates/{path[: -len(ENDING)]}"
        before = read_text(source) + "\n" if os.path.exists(source) else ""
        text = read_text(f"{copy}/crates/{path[: -len(ENDING)]}")
        if not text.startswith(before):
            sys.exit(f"{source} is not formatted: run rt fmt in its crate first")
        if text[len(before) :] != read_text(f"{HERE}/{path}"):
            changed[path] = text[len(before) :]
    return changed


def write_and_print_formatted(texts: Mapping[str, str]) -> None:
    """Writes the formatted texts of tests in place of the others."""
    for path, text in texts.items():
        print(f"formatted tests/rattle/{path}")
        write_text(f"{HERE}/{path}", text)


def print_unformatted_and_return_result(texts: Mapping[str, str]) -> Result:
    """Prints the paths of these tests. Returns how many checks passed and failed, and no seconds of a processor."""
    for path in texts:
        print(f"not formatted: tests/rattle/{path} (tests/rattle/run --fmt formats it)", flush=True)
    return int(not texts), len(texts), 0


def find_hints_or_none(number: int) -> int | None:
    """Returns the number of the pass over the sources that `rt try` has started next to a run, if it has."""
    with open(f"/proc/{number}/task/{number}/children", encoding="ascii") as text:
        children = text.read().split()
    for child in children:
        with open(f"/proc/{child}/cmdline", "rb") as words:
            if NO_FUNCTION in words.read().split(b"\0"):
                return int(child)
    return None


def end_hints(number: int, has_ended: threading.Event) -> None:
    """Terminates that pass. It takes as long as compiling the tests, and only finds names that a check would reject. `run` shows them only
    if a test fails, and --prove rejects them."""
    while not has_ended.wait(0.2):
        with contextlib.suppress(OSError):
            hints = find_hints_or_none(number)
            if hints:
                os.kill(hints, signal.SIGTERM)
                return


def capture_output(command: Sequence[str], folder: str) -> tuple[str, int, float]:
    """Runs a command. Returns its output, its status and its seconds of a processor."""
    with subprocess.Popen(
        command, cwd=folder, stdin=subprocess.DEVNULL, stdout=subprocess.PIPE, stderr=subprocess.STDOUT, errors="replace"
    ) as process:
        RUNNING.add(process.pid)
        has_ended = threading.Event()
        hints = threading.Thread(target=end_hints, args=(process.pid, has_ended), daemon=True)
        hints.start()
        try:
            printed = stdout_of(process).read()
        finally:
            has_ended.set()
            hints.join()
        _, status, used = os.wait4(process.pid, 0)
        RUNNING.discard(process.pid)
        process.returncode = os.WEXITSTATUS(status) if os.WIFEXITED(status) else 128 + os.WTERMSIG(status)
    return printed, process.returncode, used.ru_utime + used.ru_stime


def run_tests_print_and_return_result(copy: str, crate: str, count: int, command: Sequence[str]) -> Result:
    """Runs the tests of a crate and prints their output. Returns how many passed and failed, and the seconds of a processor."""
    began = time.time()
    printed, status, used = capture_output(command, f"{copy}/crates/{crate}")
    found = RESULT.search(printed)
    passed, failed, ignored = map(int, found.groups()) if found else (0, 0, 0)
    wrong = []
    if not found:
        wrong.append(f"no test ran: {' '.join(command)} ended with status {status}")
    elif passed + failed != count or ignored:
        wrong.append(f"{passed + failed} tests ran, but there are {count}")
    elif status and not failed:
        wrong.append(f"{' '.join(command)} ended with status {status}")
    if wrong:
        failed += max(count - passed - failed, 1)
    with PRINTING:
        shown = printed if failed else "".join(it for it in printed.splitlines(True) if it.startswith("test "))
        print(f"== {crate}\n{shown.rstrip()}")
        for it in wrong:
            print(f"{crate}: {it}")
        print(f"{crate}: {passed} passed, {failed} failed, in {time.time() - began:.0f} s ({used:.0f} s of a processor)", flush=True)
    return passed, failed, used


def read_wrong_bodies(top: str | Path) -> dict[str, tuple[WrongBody, str, str]]:
    """Returns the wrong bodies that the tests must find, applied to the crates of this folder, by their names."""
    return {edit.name: (edit, crate, test) for edit, crate, test in read_edits_that_tests_find(f"{HERE}/wrong-bodies.edit", top)}


def remove_and_count_left_tests(folder: str, is_kept: Callable[[str], bool]) -> int:
    """Removes the tests of a crate whose paths aren't to be kept. Returns how many are left."""
    kept = 0
    for top, _, files in os.walk(f"{folder}/src"):
        for path in (f"{top}/{file}" for file in files):
            module = os.path.splitext(os.path.relpath(path, f"{folder}/src"))[0].replace("/", "::")
            names = A_TEST.findall(read_text(path))
            left = {it for it in names if is_kept(it if module in ("lib", "main") else f"{module}::{it}")}
            if left != set(names):
                write_text(path, A_TEST.sub(lambda it: it[0] if it[1] in left else "", read_text(path)))
            kept += len(left)
    return kept


def try_and_print_wrong_body(name: str, command: Sequence[str]) -> Result:
    """Tries a wrong body and prints what its test does. Returns how many passed and failed, and the seconds of a processor."""
    with tempfile.TemporaryDirectory(prefix="tests-") as copy:
        copy_crates_and_count_tests(copy, ["out"])
        edit, crate, test = read_wrong_bodies(copy)[name]
        why, used, found = edit.fault, 0.0, None
        if not why:
            for path, text in edit.texts.items():
                write_text(f"{edit.folder}/{path}", text)
            remove_and_count_left_tests(f"{copy}/crates/{crate}", lambda path: path == test)
            printed, status, used = capture_output(command, f"{copy}/crates/{crate}")
            found = re.search(rf"(?m)^test {test} \.\.\. (\w+)", printed)
            why = None if found else f"no test ran: {' '.join(command)} ended with status {status}\n{printed.rstrip()}"
    is_refused = found is not None and found[1] == "FAILED"
    with PRINTING:
        said = f"BAD EDIT: {why}" if why else f"refused: {crate} {test} failed" if is_refused else f"NOT REFUSED: {crate} {test} passed"
        print(f"{name}: {said} ({used:.0f} s of a processor)", flush=True)
    return int(is_refused), int(not is_refused), used


def end_all_and_exit(number: int, _: object) -> None:
    """Ends this with the processes that it started, and removes the copy."""
    for process in tuple(RUNNING):
        with contextlib.suppress(ProcessLookupError):
            os.kill(process, signal.SIGTERM)
    sys.exit(128 + number)


def print_totals_and_return_status_of(results: Iterable[Result]) -> int:
    """Prints the last lines, and returns the status."""
    passed, failed, used = map(sum, zip(*results))
    print(f"{used / 60:.1f} minutes of a processor")
    return Counts(passed, failed).print_totals_and_return_status()


def main() -> int:
    parser = parser_of_docstring(__doc__)
    parser.add_argument("--jobs", type=int, default=len(os.sched_getaffinity(0)))
    parser.add_argument("--seconds", type=int, default=900)
    parser.add_argument("--only", metavar="WORD", action="append")
    parser.add_argument("--prove", action="store_true")
    parser.add_argument("--fmt", action="store_true")
    parser.add_argument("--wrong-bodies", action="store_true")
    parser.add_argument("names", nargs="*", metavar="CRATE | NAME")
    given = parser.parse_args()
    for number in (signal.SIGHUP, signal.SIGTERM):
        if signal.getsignal(number) != signal.SIG_IGN:
            signal.signal(number, end_all_and_exit)
    command = ["rt", "test"] if given.prove else ["rt", "try", "--test", "--seconds", str(given.seconds)]
    if given.wrong_bodies:
        known = read_wrong_bodies(TOP)
        lacking = [it for it in given.names if it not in known]
        if lacking:
            sys.exit(f"tests/rattle/wrong-bodies.edit has no {', '.join(lacking)}")
        with ThreadPoolExecutor(given.jobs) as pool:
            return print_totals_and_return_status_of(list(pool.map(lambda it: try_and_print_wrong_body(it, command), given.names or known)))
    with tempfile.TemporaryDirectory(prefix="tests-") as copy:
        # A proof begins with the work that the repository's own checks of the crates kept.
        counts = copy_crates_and_count_tests(copy, [] if given.prove else ["out"])
        if given.fmt:
            write_and_print_formatted(format_and_return_changed_or_exit(copy, counts))
            return 0
        lacking = [it for it in given.names if not counts.get(it)]
        if lacking:
            sys.exit(f"tests/rattle has no folder with tests of {', '.join(lacking)}; dam_tests has the tests of public functions")
        crates = given.names or sorted(filter(counts.get, counts), key=lambda it: -counts[it])
        if given.only:
            counts = {it: remove_and_count_left_tests(f"{copy}/crates/{it}", lambda path: any(word in path for word in given.only)) for it in crates}
            crates = [it for it in crates if counts[it]]
            if not crates:
                sys.exit(f"there are no tests with {' or '.join(given.only)} in their paths")
        formats = [] if given.names or given.only else [print_unformatted_and_return_result(format_and_return_changed_or_exit(copy, counts))]
        with ThreadPoolExecutor(1 if given.prove else given.jobs) as pool:
            return print_totals_and_return_status_of([*formats, *pool.map(lambda it: run_tests_print_and_return_result(copy, it, counts[it], command), crates)])
