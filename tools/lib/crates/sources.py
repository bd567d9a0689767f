"""The sources that a program or the library for C is built of, and the record of each build.

The record stands next to the file that was built, as NAME.json. It has the SHA-256 of the file and that of the sources of each crate, and
names the kit. By it tools/package knows that a file was built of the present sources, regardless of the dates. A builder takes the
sums before, and the record is written only if they are the same afterwards.

    python3 tools/lib/crates/sources.py CRATE                  prints the sums of a crate's sources
    python3 tools/lib/crates/sources.py CRATE SUMS FILE..      records these files as built, if the sums are still those in the file SUMS
    python3 tools/lib/crates/sources.py CRATE --fault FILE     prints why a file was not built of the present sources, or dates it now

Python 3.8 is enough, since the launcher needs no newer one."""

from __future__ import annotations

import hashlib
import json
import os
import subprocess
import sys
import time
from pathlib import Path
from typing import Any, NoReturn

if __package__:
    from . import crates
else:
    sys.path.insert(0, os.path.dirname(os.path.realpath(__file__)))  # an isolated Python leaves it out
    import crates  # type: ignore[no-redef]  # the same module, if this one is run as a script

TOP = os.path.dirname(os.path.dirname(os.path.dirname(os.path.dirname(os.path.realpath(__file__)))))
PARTS = ("src", "specs", "proofs")
# The files of the library for C, besides its crate.
LIBRARY = "dam_c"
IN_C = ("build", "dam.h", "exports.map", "heap.c")


class UnreadableSource(Exception):
    """A file or a folder of the sources can't be read."""


def raise_fault(fault: OSError) -> NoReturn:
    raise fault


def unreadable_text(fault: OSError) -> str:
    """The message about a file of the repository, or a folder, that can't be read."""
    if fault.filename is None:
        return f"they can't be read: {fault.strerror}"
    name = os.path.relpath(fault.filename, TOP)
    if os.path.islink(fault.filename) and not os.path.exists(fault.filename):
        return f"{name} is a link to no file, as an editor makes it beside a file with unsaved changes"
    return f"{name} can't be read: {fault.strerror}"


def read_own_crates() -> dict[str, list[str]]:
    """Returns each crate of crates.txt with those of its libraries that belong to this repository."""
    return crates.without_foreign(crates.read_crates(TOP))


def list_source_files(name: str) -> list[str]:
    folders = [folder for folder in (f"{TOP}/crates/{name}/{part}" for part in PARTS) if os.path.isdir(folder)]
    return [f"{at}/{it}" for folder in folders for at, _, names in os.walk(folder, onerror=raise_fault) for it in names]


def read_file_sum(path: str | Path) -> str:
    with open(path, "rb") as file:
        return hashlib.sha256(file.read()).hexdigest()


def read_sum_of_files(folder: str, files: list[str], *words: str) -> str:
    """Returns the SHA-256 of some words and of files with their names."""
    rows = [f"{read_file_sum(path)}  {os.path.relpath(path, folder)}" for path in sorted(files)]
    return hashlib.sha256("\n".join([*words, *rows]).encode("utf-8", "surrogateescape")).hexdigest()


def read_source_sums(crate: str) -> dict[str, str]:
    """Returns the sum of the sources of a crate, and of each crate below it. Raises UnreadableSource if one of them can't be read."""
    try:
        return read_sums_of_crates(crate)
    except OSError as fault:
        raise UnreadableSource(unreadable_text(fault)) from None


def read_sums_of_crates(crate: str) -> dict[str, str]:
    below = crates.read_crates(TOP)
    # a repository without threads has no file HANDLES
    handles = read_file_sum(f"{TOP}/HANDLES") if os.path.exists(f"{TOP}/HANDLES") else ""
    found = {}
    for name in sorted({crate, *crates.crates_below(below, crate)}):
        found[name] = read_sum_of_files(f"{TOP}/crates/{name}", list_source_files(name), handles, *below[name])
    if crate == LIBRARY:
        found["library"] = read_sum_of_files(f"{TOP}/library", [f"{TOP}/library/{it}" for it in IN_C])
    return found


def capture_first_line(command: list[str]) -> str:
    try:
        ran = subprocess.run(command, cwd=TOP, stdin=subprocess.DEVNULL, stdout=subprocess.PIPE, stderr=subprocess.DEVNULL,
                             errors="replace")
    except OSError:
        return "unknown"
    return (ran.stdout.splitlines() or ["unknown"])[0]


def capture_kit() -> str:
    """The name and the logic of the kit, as `rt version` prints them."""
    return capture_first_line(["rt", "version"])


def record_path(path: str | Path) -> str:
    return f"{path}.json"


def write_or_remove_records_and_see(crate: str, before: dict[str, str], *paths: str | Path) -> bool:
    """Records that files were built of a crate, if its sources are still those whose sums were taken before. Otherwise removes the records
    of these files. Returns whether they have records."""
    is_same = read_source_sums(crate) == before
    for path in paths:
        if not is_same:
            if os.path.exists(record_path(path)):
                os.remove(record_path(path))
            continue
        told = {"sha256": read_file_sum(path), "kit": capture_kit(), "sources": before}
        if crate == LIBRARY:
            told["compiler"] = capture_first_line([*os.environ.get("CC", "cc").split(), "--version"])
        with open(record_path(path), "w", encoding="utf-8") as file:
            json.dump(told, file, indent=2, sort_keys=True)
            file.write("\n")
    return is_same


def read_record(path: str | Path) -> dict[str, Any] | None:
    try:
        with open(record_path(path), encoding="utf-8") as file:
            told = json.load(file)
    except (OSError, ValueError):
        return None
    return told if isinstance(told, dict) and {"sha256", "kit", "sources"} <= told.keys() else None


def read_stale_text(path: str | Path, crate: str) -> str | None:
    """Why a file was not built of the present sources."""
    name = os.path.relpath(path, TOP)
    if not os.path.isfile(path):
        return f"{name} is missing"
    told = read_record(path)
    if not told:
        return f"{name} has no record of the sources that it was built of"
    if told["sha256"] != read_file_sum(path):
        return f"{name} is not the file that was built: another one took its place"
    try:
        present = read_source_sums(crate)
    except UnreadableSource as fault:
        return f"{name} may be older than its sources: {fault}"
    others = sorted(it for it in {*present, *told["sources"]} if present.get(it) != told["sources"].get(it))
    return f"{name} was built of other sources: {', '.join(others)} changed since" if others else None


def print_or_touch_and_return_status(path: str, crate: str) -> int:
    """Prints why a file was not built of the present sources, and returns 1. Otherwise gives the file the date before they were read, so
    that it is newer than its sources, and returns 0."""
    began = time.time_ns()
    words = read_stale_text(path, crate)
    if words:
        print(words)
        return 1
    try:
        os.utime(path, ns=(began, began))
    except OSError:
        # in a clone that can't be written it keeps its date
        pass
    return 0


def main(words: list[str]) -> int:
    if len(words) == 1:
        print(json.dumps(read_source_sums(words[0])))
        return 0
    crate, before, *paths = words
    if before == "--fault":
        return print_or_touch_and_return_status(paths[0], crate)
    with open(before, encoding="utf-8") as file:
        return 0 if write_or_remove_records_and_see(crate, json.load(file), *paths) else 1


if __name__ == "__main__":
    try:
        sys.exit(main(sys.argv[1:]))
    except UnreadableSource as unreadable:
        sys.exit(f"sources.py: {unreadable}")
