"""The sources of a package: the clone's commit, its tracked files, and the files proved and built of them."""

import datetime
import json
import os
import re
import shutil
import subprocess
from pathlib import Path
from typing import Any

from lib.base.json_value import JsonObject
from lib.crates import sources
from lib.tool import exits
from lib.base.rules import VERSION
from manual import site

TOP = Path(sources.TOP)
PROGRAM, DESK = "crates/dam_cli/out/dam_cli", "crates/dam_desk/out/dam_desk"
SHARED, STATIC = "library/out/libdam.so.1", "library/out/libdam.a"
BUILT = {PROGRAM: "dam_cli", DESK: "dam_desk", SHARED: sources.LIBRARY, STATIC: sources.LIBRARY}
MADE_BY = {PROGRAM: "./dam prove", DESK: "./dam prove", SHARED: "library/build", STATIC: "library/build"}
CHECKED = TOP / "out" / "check.json"
NOT_TOTALS = OSError, ValueError, KeyError, TypeError, RecursionError  # faults of a file that no check wrote
SHOWN = 3  # changes that are named
# The commands that make a package, with Debian's package of each.
NEEDED = {
    "dpkg-deb": "dpkg",
    "dpkg-shlibdeps": "dpkg-dev",
    "git": "git",
    "go-md2man": "go-md2man",
    "gzip": "gzip",
    "help2man": "help2man",
    "strip": "binutils",
    "tar": "tar",
    "xz": "xz-utils",
}


def environment_at(seconds: int = 0) -> dict[str, str]:
    """The environment of the commands that make a package: nothing else may get into their output."""
    kept = {name: os.environ[name] for name in ("PATH", "HOME", "TMPDIR") if name in os.environ}
    return {**kept, "LC_ALL": "C.UTF-8", "TZ": "UTC", "COLUMNS": "100", "SOURCE_DATE_EPOCH": str(seconds)}


def run_git(*words: str) -> str:
    """The output of git."""
    ran = subprocess.run(["git", *words], cwd=TOP, capture_output=True)
    if ran.returncode:
        raise exits.Stop(f"git {words[0]} failed: {ran.stderr.decode(errors='replace').strip()}")
    return ran.stdout.decode(errors="surrogateescape")


class Clone:
    """A clone without changes, whose programs and libraries were built of its sources."""

    def __init__(self, commit: str, seconds: int, tracked: list[str], records: dict[str, JsonObject]) -> None:
        self.version, self.commit, self.seconds, self.tracked, self.records = VERSION, commit, seconds, tracked, records
        self.date = datetime.datetime.fromtimestamp(seconds, datetime.timezone.utc).strftime("%Y-%m-%dT%H:%M:%SZ")

    @classmethod
    def read_or_stop(cls) -> "Clone":
        """The clone of these tools, by git. Ends the tool if it has changes, or if a build is missing or stale."""
        refuse_missing_commands()
        commit, seconds = run_git("rev-parse", "HEAD").strip(), int(run_git("log", "-1", "--format=%ct"))
        tracked = [name for name in run_git("ls-files", "-z").split("\0") if name]
        refuse_changes()
        refuse_stale_builds()
        return cls(commit, seconds, tracked, {name: record for name in BUILT if (record := sources.read_record(TOP / name))})

    def tracked_paths_below(self, folder: str, *endings: str) -> list[str]:
        """The tracked files of a folder, and of those below it, with one of these endings."""
        return [name for name in self.tracked if name.startswith(f"{folder}/") and name.endswith(endings or ("",))]


def refuse_changes() -> None:
    """Ends the tool if a tracked file differs from the commit. Other files don't matter, unless they are among the sources of crates."""
    lines = run_git("status", "--porcelain", "--untracked-files=all").splitlines()
    changed = [line[3:] for line in lines if not line.startswith("??") or re.match(r"crates/.*/(src|specs|proofs)/", line[3:].strip('"'))]
    if changed:
        more = f" and {len(changed) - SHOWN} more" if len(changed) > SHOWN else ""
        raise exits.Stop(f"the clone has changes: commit or remove {', '.join(changed[:SHOWN])}{more}")


def refuse_stale_builds() -> None:
    """Ends the tool if something that was built is missing, or not of the present sources."""
    for name, crate in BUILT.items():
        fault = sources.read_stale_text(TOP / name, crate)
        if fault:
            raise exits.Stop(f"{fault}: run {MADE_BY[name]}")


def read_totals_or_raise(path: str | Path) -> tuple[JsonObject, Any]:
    """The totals that a check wrote, and its commit."""
    totals = json.loads(Path(path).read_text(encoding="utf-8"))
    return totals, totals["commit"]


def read_last_totals_or_none(commit: str) -> JsonObject | None:
    """The totals of the last check of this clone; None if there is none, or if it was of another commit."""
    try:
        totals, of = read_totals_or_raise(CHECKED)
    except NOT_TOTALS:
        return None
    return totals if of == commit else None


def read_totals_or_stop(path: str | Path, commit: str) -> JsonObject:
    """The totals of a check of this commit."""
    try:
        totals, of = read_totals_or_raise(path)
    except NOT_TOTALS:
        raise exits.Stop(f"{exits.shown(path)} isn't what ./check writes to out/check.json") from None
    if of != commit:
        raise exits.Stop(f"{exits.shown(path)} is of {'changed files' if of is None else f'commit {of}'}, and this clone of {commit}")
    return totals


def refuse_missing_commands() -> None:
    """Ends the tool if a command that it needs is missing."""
    for name, debian in NEEDED.items():
        if not shutil.which(name):
            words = f"it needs {name}, which Debian has in the package {debian}: apt-get install {debian}"
            raise exits.Stop(words, exits.FAILED)
    site.refuse_missing_packages()


def capture_versions() -> dict[str, str]:
    """The versions of the programs that make the files of a package here; other ones may make others. git makes none, and go-md2man doesn't
    say its version."""
    return {name: sources.capture_first_line([name, "--version"]) for name in NEEDED if name not in ("git", "go-md2man")}
