"""pip's wheel of dam_tools, and the commands that it installs."""

import os
import re
import zipfile
from collections.abc import Mapping
from pathlib import Path

from lib.base.place import TOOLS
from lib.base.rules import VERSION
from packages import installed
from packages.making import ISOLATED, SHARED, run_command
from shared.counts import Counts
from shared.place import TOP


def check_wheel(counts: Counts, folder: Path, room: Path, files: Mapping[str, bytes], clears: bool) -> None:
    """pip's wheel has the Python files of the package, and the library, which clears a day if it is no stand-in."""
    if run_command(["/usr/bin/python3", "-c", "import setuptools, wheel, pip"])[0]:
        counts.count_and_print_left_out("the wheel: python3-pip, python3-setuptools or python3-wheel is missing")
        return
    words = ["-m", "pip", "wheel", "--quiet", "--no-index", "--no-deps", "--no-build-isolation", "--wheel-dir", room, "."]
    status, _, error = run_command(["/usr/bin/python3", *words], folder)
    found = list(room.glob("*.whl"))
    wanted = [f"dam_tools-{VERSION}-py3-none-linux_x86_64.whl"]
    counts.check(f"the wheel is made: {error}", status == 0 and [path.name for path in found] == wanted)
    if not found:
        return
    with zipfile.ZipFile(found[0]) as archive:
        held = {name.removeprefix("dam_tools/"): archive.read(name) for name in archive.namelist() if name.startswith("dam_tools/")}
        (entries,) = [archive.read(name).decode() for name in archive.namelist() if name.endswith("entry_points.txt")]
        (metadata,) = [archive.read(name).decode() for name in archive.namelist() if name.endswith("METADATA")]
    (ours_told,) = [data.decode() for name, data in files.items() if name.endswith("METADATA")]
    counts.check("the wheel has the library", held.pop(Path(SHARED).name, None) == (folder / SHARED).read_bytes())
    ours = {name.partition("dist-packages/dam_tools/")[2]: data for name, data in files.items() if "dist-packages/dam_tools/" in name}
    # the first line of a tool names Debian's Python in the package
    others = sorted(name for name in held.keys() | ours.keys() if name not in TOOLS and held.get(name) != ours.get(name))
    counts.check(f"the wheel has the Python files: {others[:5]}", not others and held.keys() == ours.keys())
    commands = re.findall(r"dam-(\w+) = dam_tools\.commands:(\w+)", entries)
    counts.check("the wheel has the commands", commands == [(tool, tool) for tool in TOOLS])
    counts.check("the wheel says that it is typed", "py.typed" in held)
    counts.check("the metadata of the package are those of the wheel", metadata_fields(ours_told) == metadata_fields(metadata))
    check_installed_by_pip(counts, found[0], room / "environment", clears)


def metadata_fields(metadata: str) -> object:
    """The fields of the metadata of a Python module, without those that only say how they are written."""
    fields = [line.partition(": ") for line in metadata.splitlines() if line]
    alike = str.maketrans({" ": "", "'": '"', "_": "-"})
    return sorted((name, value.translate(alike)) for name, _, value in fields if name not in ("Metadata-Version", "License-File"))


def check_installed_by_pip(counts: Counts, path: Path, at: Path, clears: bool) -> None:
    """In a virtual environment the commands of the wheel run, and its module calls the library that came with it."""
    run_command(["/usr/bin/python3", "-m", "venv", "--without-pip", at])
    words = ["-m", "pip", "--python", at / "bin/python", "install", "--quiet", "--no-index", "--no-deps", path]
    status, _, error = run_command(["/usr/bin/python3", *words])
    counts.check(f"the wheel is installed: {error}", status == 0)
    for tool in TOOLS:
        status, out, error = run_command([at / f"bin/dam-{tool}", "--version"], env={**os.environ, **ISOLATED})
        counts.check(f"dam-{tool} of the wheel: {out}{error}", (status, out) == (0, f"dam-{tool} {VERSION}\n"))
    own = {name: value for name, value in os.environ.items() if name not in ("DAM", "DAM_LIBRARY", "PYTHONPATH")}
    code = "import sys, dam_tools; print(*dam_tools.where())"
    if clears:
        code += "; sys.stdout.write(dam_tools.clear(sys.argv[1]).text.decode())"
    status, out, error = run_command([at / "bin/python", "-c", code, (TOP / "examples/sunny-day.csv").read_text()], env=own)
    (library,) = at.glob(f"lib/python3*/site-packages/dam_tools/{Path(SHARED).name}")
    results = installed.RESULTS.read_text() if clears else ""
    counts.check(f"dam_tools of the wheel: {out[:200]}{error}", out == f"library wheel {library}\n{results}")
