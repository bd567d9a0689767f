"""Copies of the working tree, and the packages that tools/package makes of them."""

import argparse
import io
import json
import os
import re
import shutil
import subprocess
import sys
import tarfile
from collections.abc import Sequence
from pathlib import Path
from typing import Any

from lib.base.rules import VERSION
from shared.counts import Counts
from shared.place import TOP

Ran = tuple[int, str, str]  # the status, the output and the errors of a command
STAND_IN = TOP / "tests/packages/stand_in.c"
PROGRAM, DESK = "crates/dam_cli/out/dam_cli", "crates/dam_desk/out/dam_desk"
SHARED, STATIC = "library/out/libdam.so.1", "library/out/libdam.a"
BUILT = {PROGRAM: "dam_cli", DESK: "dam_desk", SHARED: "dam_c", STATIC: "dam_c"}
DEBIAN, PLAIN = f"dam_{VERSION}_amd64.deb", f"dam-{VERSION}-x86_64-linux.tar.xz"
PREFIX = PLAIN[: -len(".tar.xz")]
SECONDS = 1_790_000_000  # the time of the commit
NAMES = {f"GIT_{who}_{what}": "test" for who in ("AUTHOR", "COMMITTER") for what in ("NAME", "EMAIL")}
# A second machine: other paths, times, languages and rights.
OTHER = {"TZ": "Asia/Tokyo", "LANG": "C", "LC_ALL": "C", "COLUMNS": "40", "GZIP": "-1", "XZ_OPT": "-1", "TAR_OPTIONS": "--mode=777"}
# A Python that leaves docstrings and the tool's folder out.
ISOLATED = {"PYTHONOPTIMIZE": "2", "PYTHONSAFEPATH": "1"}
# The Python modules that the office needs, with Debian's package of each.
OF_THE_OFFICE = {"aiohttp": "python3-aiohttp", "cryptography": "python3-cryptography", "jinja2": "python3-jinja2"}


def run_command(words: Sequence[object], folder: Path = TOP, **how: Any) -> Ran:
    """The status, the output and the errors of a command."""
    ran = subprocess.run([str(word) for word in words], cwd=folder, stdin=subprocess.DEVNULL, capture_output=True, **how)
    return ran.returncode, ran.stdout.decode(errors="replace"), ran.stderr.decode(errors="replace")


def commit_all(folder: Path, words: str = "all") -> None:
    when = {**os.environ, **NAMES, "GIT_AUTHOR_DATE": f"{SECONDS} +0000", "GIT_COMMITTER_DATE": f"{SECONDS} +0000"}
    for line in (["add", "--all"], ["commit", "--quiet", "-m", words]):
        subprocess.run(["git", *line], cwd=folder, env=when, check=True, stdout=subprocess.DEVNULL)


def capture_tracked_files() -> list[str]:
    """The files of the working tree that a commit would have."""
    _, shown, _ = run_command(["git", "ls-files", "-z", "--cached", "--others", "--exclude-standard"])
    return [name for name in shown.split("\0") if name and (TOP / name).is_file()]


def copy_and_commit_clone(folder: Path, stand_ins: Path | None) -> None:
    """Makes a copy of the working tree, with the built files."""
    folder.mkdir()
    for name in capture_tracked_files():
        (folder / name).parent.mkdir(parents=True, exist_ok=True)
        shutil.copy(TOP / name, folder / name)
    subprocess.run(["git", "init", "--quiet"], cwd=folder, check=True)
    commit_all(folder)
    for name, crate in BUILT.items():
        (folder / name).parent.mkdir(parents=True, exist_ok=True)
        if stand_ins:
            shutil.copy(stand_ins / Path(name).name, folder / name)
            write_build_record(folder, name, crate)
        else:
            shutil.copy(TOP / name, folder / name)
            shutil.copy(f"{TOP / name}.json", f"{folder / name}.json")


def write_build_record(folder: Path, name: str, crate: str) -> None:
    """Records a file as built of the present sources."""
    _, sums, _ = run_command([sys.executable, "tools/lib/crates/sources.py", crate], folder)
    (folder.parent / "sums").write_text(sums)
    run_command([sys.executable, "tools/lib/crates/sources.py", crate, folder.parent / "sums", folder / name], folder)


def make_stand_ins(folder: Path, given: argparse.Namespace) -> Path:
    """Compiles the stand-ins of the built files, in place of those that aren't given."""
    folder.mkdir()
    subprocess.run(["cc", STAND_IN, "-o", folder / "dam_cli"], check=True)
    (folder / "usage.h").write_text(f"#define USAGE {json.dumps(read_usage_of_desk())}\n")
    subprocess.run(["cc", "-DDESK", "-include", folder / "usage.h", STAND_IN, "-o", folder / "dam_desk"], check=True)
    shared = ["-DLIBRARY", "-shared", "-fPIC", "-Wl,-soname,libdam.so.1"]
    subprocess.run(["cc", *shared, STAND_IN, "-o", folder / "libdam.so.1"], check=True)
    shutil.copy(folder / "libdam.so.1", folder / "libdam.a")
    for name, path in ("dam_cli", given.dam), ("dam_desk", given.desk):
        if path:
            shutil.copy(path, folder / name)
    return folder


def read_usage_of_desk() -> str:
    """The help of dam-desk, from its source."""
    source = (TOP / "crates/dam_desk/src/command_line.rt").read_text()
    return re.findall(r'^pub\(crate\) const USAGE: &str = "(.*?)";$', source, re.M | re.S)[0]


def run_tool(folder: Path, *words: object, **how: Any) -> Ran:
    return run_command([sys.executable, "tools/package", *words], folder, **how)


def make_and_check_packages(counts: Counts, folder: Path, other: bool = False) -> Path:
    """Makes the packages of a copy: their folder."""
    room = folder.parent / f"made of {folder.name}"
    how = {"env": {**os.environ, **OTHER, "TMPDIR": str(folder.parent)}, "umask": 0o077} if other else {}
    status, out, error = run_tool(folder, "--out", room, **how)
    counts.check(f"the packages of {folder.name} are made: {error}", status == 0 and out == f"{room / DEBIAN}\n{room / PLAIN}\n")
    return room


def capture_tar(room: Path) -> bytes:
    return subprocess.run(["xz", "-dc", room / PLAIN], stdout=subprocess.PIPE, check=True).stdout


def capture_contents(room: Path) -> dict[str, bytes]:
    """The files of the archive that runs in place, by name."""
    with tarfile.open(fileobj=io.BytesIO(capture_tar(room))) as archive:
        files = [(it.name.partition("/")[2], archive.extractfile(it)) for it in archive if it.isfile()]
        return {name: file.read() for name, file in files if file}


def capture_command_names(program: Path) -> list[str]:
    """The commands in the help of `dam`."""
    return re.findall(r"^  (\w+) ", run_command([program, "--help"])[1].partition("\nCommands:\n")[2].partition("\n\n")[0], re.MULTILINE)
