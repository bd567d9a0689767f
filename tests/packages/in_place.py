"""The archive runs in place: its links, its manual, its tools, the desk and the office."""

import json
import os
import re
import shutil
import subprocess
from pathlib import Path

from lib.base.place import TOOLS
from lib.base.rules import VERSION
from packages import installed
from packages.making import ISOLATED, OF_THE_OFFICE, PLAIN, PREFIX, run_command
from shared.counts import Counts
from shared.docs_pages import read_links
from shared.place import TOP
from shared.site import Site


def check_links(counts: Counts, at: Path) -> None:
    """Every link of a packaged page leads to a file that is packaged, and to a heading."""
    pages, seen = sorted((at / "share/doc/dam").rglob("*.md")), 0
    for page in pages:
        for link, wrong in read_links(page):
            counts.check(f"packaged {page.name}: {link}: {wrong}", wrong is None)
            seen += 1
    counts.check(f"{len(pages)} packaged pages with {seen} links", len(pages) > 40 and seen > 300)


def check_manual(counts: Counts, at: Path) -> None:
    """The packaged site of the manual is whole, has installed commands, and nobody but its owner can change it."""
    folder = at / "share/doc/dam/html"
    shown = Site.read(folder)
    faults = list(shown.read_faults())
    counts.check(f"the manual: {faults[:10]}", not faults and len(shown.pages) > 60)
    guide = shown.pages[shown.folder / "docs/GUIDE.html"]
    cloned = [block for block in guide.blocks if re.search(r"(?<![\w./-])(\./dam\b|tools/)", block)]
    counts.check(f"the manual has commands of a clone: {cloned}", not cloned and any("dam clear < " in block for block in guide.blocks))
    modes = {path.stat().st_mode & 0o777 for path in folder.rglob("*") if path.is_file()}
    counts.check(f"the manual's files: {modes}", modes == {0o644})


def check_desk(counts: Counts, at: Path, folder: Path, own: dict[str, str]) -> None:
    """The desk in place: a day's journal, which it gives back."""
    journal = (TOP / "examples/sunny-day.csv").read_bytes()
    ran = subprocess.run([at / "bin/dam-desk", folder / "day.desk"], input=journal, env=own, capture_output=True)
    first, *replies = ran.stdout.decode().splitlines()
    are_answers = len(replies) == journal.count(b"\n") - 1 and all(f"{number}," in it for number, it in enumerate(replies, 1))
    counts.check(f"dam-desk in place: {ran}", ran.returncode == 0 and first == "day,24" and are_answers)
    ran = subprocess.run([at / "bin/dam-desk", "--journal", folder / "day.desk"], env=own, capture_output=True)
    counts.check("dam-desk --journal in place", ran.stdout.count(b"\n") == journal.count(b"\n") and b"\nclose" in ran.stdout)


def check_office(counts: Counts, at: Path, folder: Path, own: dict[str, str], clears: bool) -> None:
    """The office in place runs the programs next to it, from an order to the results. Stand-ins clear nothing: they say so."""
    missing = [debian for module, debian in OF_THE_OFFICE.items() if run_command(["/usr/bin/python3", "-c", f"import {module}"])[0]]
    if missing:
        counts.count_and_print_left_out(f"the office in place: {', '.join(missing)} missing")
        return
    # other programs on the path aren't taken
    others = folder / "others"
    others.mkdir()
    for name in ("dam", "dam-desk"):
        (others / name).write_text("#!/bin/sh\nexit 9\n")
        (others / name).chmod(0o755)
    own = {name: value for name, value in own.items() if name != "DAM_DESK"}
    own["PATH"] = f"{others}:{own['PATH']}"
    status, out, error = run_command(["/usr/bin/python3", "-B", installed.DEMO, at / "bin/dam-office"], folder, env=own)
    counts.check(f"the demo in place: {error[-500:]}", status == 0)
    if status == 0:
        installed.check_told_by_demo(counts, json.loads(out), at, clears)


def check_in_place(counts: Counts, room: Path, clears: bool) -> None:
    """The archive runs where it is unpacked, and its tools leave nothing there."""
    folder = room / "a place"
    folder.mkdir()
    subprocess.run(["tar", "-xJf", room / PLAIN, "-C", folder], check=True)
    at = folder / PREFIX
    check_links(counts, at)
    check_manual(counts, at)
    code = "import dam_tools; print(*dam_tools.where())"
    own = {**os.environ, "PYTHONPATH": str(at / "lib/python3/dist-packages")}
    for name in ("DAM", "DAM_LIBRARY", "PYTHONDONTWRITEBYTECODE", "PYTHONPYCACHEPREFIX"):
        own.pop(name, None)
    sunny = at / "share/doc/dam/examples/sunny-day.csv"
    script = at / "share/doc/dam/examples/operating/day.sh"
    counts.check("the script of a day in place", os.access(script, os.X_OK) and bool(list(script.parent.glob("*.timer"))))
    status, out, error = run_command([at / "bin/dam-lint", sunny], env=own)
    counts.check(f"dam-lint in place: {error}", status == 1 and out.endswith("1 refused command\n"))
    days = folder / "days"
    days.mkdir()
    shutil.copy(sunny, days / "sunny.csv")
    shutil.copy(installed.RESULTS, days / "sunny.txt")
    for words in ((sunny, installed.RESULTS), ("--days", days)):
        status, out, error = run_command([at / "bin/dam-audit", "--best", "--jobs", "2", *words], env=own)
        counts.check(f"dam-audit in place: {out}{error}", status == 0 and bool(out))
    # the programs that it needs may be missing here, but it leaves nothing
    run_command([at / "bin/dam-report", sunny, installed.RESULTS, "-o", folder / "day.html"], env=own)
    for tool in TOOLS:
        status, out, error = run_command([at / f"bin/dam-{tool}", "--version"], env={**own, **ISOLATED})
        counts.check(f"dam-{tool} in place: {error}", (status, out) == (0, f"dam-{tool} {VERSION}\n"))
    status, out, error = run_command(["/usr/bin/python3", "-B", "-c", code], env=own)
    library = at / "lib/x86_64-linux-gnu/libdam.so.1"
    counts.check(f"dam_tools in place: {out}{error}", out == f"library package {library}\n")
    code = "import importlib.metadata as of; told = of.metadata('dam_tools'); print(told['Name'], told['Version'], told['Requires-Python'])"
    status, out, error = run_command(["/usr/bin/python3", "-B", "-c", code], env=own)
    counts.check(f"the metadata of dam_tools in place: {out}{error}", out == f"dam_tools {VERSION} >=3.10\n")
    check_desk(counts, at, folder, own)
    check_office(counts, at, folder, own, clears)
    own["PATH"] = f"{at / 'bin'}:{own['PATH']}"
    status, out, error = run_command(["dam-compare", "--version"], env=own)
    counts.check(f"dam-compare on the path: {error}", (status, out) == (0, f"dam-compare {VERSION}\n"))
    counts.check("a run in place leaves nothing there", not list(at.rglob("__pycache__")))
