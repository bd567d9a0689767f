"""tests/packages/run [--install] [--dam PROGRAM --desk DESK]: makes the package twice, in two folders, and tests tools/package.

The folders have copies of the working tree with a commit of its own, and what was built here of the present sources. If that isn't built,
stand-ins take its place, which clear no day; or these programs, and a stand-in for the library. The commands of the packaged pages are run
as an ordinary user. With --install the package is also installed in a fresh system, where neither kit, compiler nor clone is; this needs
root, and Debian's packages from where this machine has them. What can't run because something is missing is left out and named. The last
line is 'N passed, M failed', with ', K skipped' if something was left out."""

import argparse
import shutil
import tempfile
from pathlib import Path

from lib.crates import sources
from manual import site
from packages import installed, reader
from packages.confirming import (
    check_confirmation,
    check_hostile_packages,
    check_other_packing,
    check_refusals,
    check_same_bytes,
    check_totals,
)
from packages.in_place import check_in_place
from packages.making import (
    BUILT,
    DEBIAN,
    PLAIN,
    PROGRAM,
    capture_command_names,
    capture_contents,
    copy_and_commit_clone,
    make_and_check_packages,
    make_stand_ins,
    run_command,
)
from packages.packaged import (
    check_changelog_and_symbols,
    check_commands_of_pages,
    check_completions,
    check_dependencies,
    check_glibc,
    check_man_pages,
    check_pages_of_formats,
    check_provenance,
    check_traces,
    check_units,
)
from packages.wheels import check_wheel
from shared.arguments import parser_of_docstring
from shared.counts import Counts
from shared.place import TOP

NEEDED = ("git", "help2man", "go-md2man", "dpkg-deb", "dpkg-shlibdeps", "xz", "cc")


def check_package(counts: Counts, folder: Path, given: argparse.Namespace) -> None:
    faults = [fault for fault in (sources.read_stale_text(TOP / name, crate) for name, crate in BUILT.items()) if fault]
    if faults:
        counts.count_and_print_left_out(f"the package of what was built: {faults[0]}; stand-ins take its place")
    stand_ins = make_stand_ins(folder / "stand-ins", given) if faults else None
    clears = not faults or bool(given.dam and given.desk)
    one, two = folder / "one", folder / "a second place"
    for it in (one, two):
        copy_and_commit_clone(it, stand_ins)
    rooms = make_and_check_packages(counts, one), make_and_check_packages(counts, two, other=True)
    check_same_bytes(counts, *rooms)
    files = capture_contents(rooms[0])
    check_provenance(counts, one, rooms[0])
    check_man_pages(counts, files, capture_command_names(one / PROGRAM))
    check_commands_of_pages(counts, files)
    check_pages_of_formats(counts, files, rooms[0])
    check_changelog_and_symbols(counts, files, rooms[0])
    check_dependencies(counts, rooms[0])
    check_units(counts, files)
    check_completions(counts, files, one / PROGRAM)
    check_in_place(counts, rooms[0], clears)
    if clears:
        reader.check_pages(counts, rooms[0] / DEBIAN, rooms[0] / PLAIN, "bin/dam" if faults else None)
    else:
        counts.count_and_print_left_out("the commands of the pages, installed: stand-ins clear no day")
    check_wheel(counts, one, rooms[0], files, clears=not faults)
    if not faults:
        check_traces(counts)
        check_glibc(counts, files, rooms[0])
    check_confirmation(counts, one, rooms[1])
    check_other_packing(counts, one, rooms[1])
    check_hostile_packages(counts, one, rooms[1])
    check_totals(counts, one, rooms[1])
    if given.install and faults:
        counts.count_and_print_left_out("the package in a fresh system: stand-ins clear no day")
    elif given.install:
        installed.check_installed(counts, rooms[0] / DEBIAN, rooms[0] / PLAIN, TOP / "tests/library/caller.c")
    check_refusals(counts, one, rooms[1])


def main() -> int:
    parser = parser_of_docstring(__doc__)
    parser.add_argument("--install", action="store_true")
    parser.add_argument("--dam", metavar="PROGRAM")
    parser.add_argument("--desk", metavar="DESK")
    given = parser.parse_args()
    counts = Counts()
    missing = [*(name for name in NEEDED if not shutil.which(name)), *site.find_missing_packages()]
    if missing:
        counts.count_and_print_left_out(f"the package: {', '.join(missing)} missing")
    elif run_command(["git", "rev-parse", "HEAD"])[0]:
        counts.count_and_print_left_out("the package: this is no clone of a repository")
    else:
        with tempfile.TemporaryDirectory() as folder:
            check_package(counts, Path(folder).resolve(), given)
    return counts.print_totals_and_return_status()
