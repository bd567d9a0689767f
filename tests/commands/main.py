"""tests/commands/run [--write] [--dam PROGRAM] [--desk DESK] [PAGE ..]: runs the commands that the pages show, in a clone.

Each page's commands are run in order, in one shell, in a folder of their own, by the built program and desk. Each ends with status 0,
prints nothing on standard error, and prints the output that the page quotes. tests/packages/run does the same with the installed package.
With --write, the outputs that follow their commands are written into the named pages again. The last line is 'N passed, M failed', with
', K skipped' if something was left out."""

import os
import shutil
import subprocess
import sys
import tempfile
from collections.abc import Mapping
from pathlib import Path

from lib.base.place import TOOLS
from shared import docs_page_session
from shared.arguments import add_programs, parse_with_programs_or_exit, parser_of_docstring
from shared.docs_page_scenes import CLONE, ELSEWHERE, PAGES
from shared.docs_page_session import CUT
from shared.counts import Counts
from shared.place import TOP
from shared.shown import quoted_pairs

HELD = ("docs", "examples", "tests", "tools")  # folders of the clone that commands name


def make_reader_with_linked_commands(home: Path, program: Path, desk: Path) -> docs_page_session.PageReader:
    """A reader with a clone: `dam`, `dam-desk` and `dam-NAME` are its programs and tools."""
    commands = home.parent / "bin"
    commands.mkdir()
    for name, path in ("dam", program), ("dam-desk", desk), *((f"dam-{tool}", TOP / "tools" / tool) for tool in TOOLS):
        (commands / name).symlink_to(path)
    folders = f"{commands}:{Path(sys.executable).parent}:{os.environ['PATH']}"
    own = {"PATH": folders, "DAM": str(program), "DAM_DESK": str(desk), "PYTHONPATH": str(TOP / "tools"), "PYTHONDONTWRITEBYTECODE": "1"}
    return docs_page_session.PageReader(CLONE, TOP, [], docs_page_session.make_environment_with_browser(home, own))


def make_home_folder(room: Path, program: Path) -> Path:
    """Makes the folder of a clone for the commands of a page."""
    home = room / "home"
    home.mkdir()
    for name in HELD:
        (home / name).symlink_to(TOP / name)
    (home / "dam").symlink_to(program)
    return home


def run_git_and_check_ignored(counts: Counts, name: str, home: Path) -> None:
    """Git ignores the files that only their owner may read, such as private keys, which the commands write into the folder of a clone."""
    made = {os.fspath(path.relative_to(home)) for path in home.rglob("*") if path.is_file() and not path.stat().st_mode & 0o077}
    words = ["git", "-C", str(TOP), "-c", "safe.directory=*", "check-ignore", "--no-index", *made]
    found = set(subprocess.run(words, capture_output=True, text=True).stdout.split())
    counts.check(f"{name}: git doesn't ignore {sorted(made - found)}", made == found)


def text_with_outputs(text: str, printed: Mapping[str, str]) -> str:
    """A page with the outputs of its commands."""
    for quoted, shown in printed.items():
        if CUT not in quoted:
            text = text.replace(f"```text\n{quoted}```", f"```text\n{shown}```")
    return text


def check_pages_are_listed(counts: Counts) -> None:
    """Each page with commands is run, here or by another test."""
    pages = [TOP / "README.md", *(TOP / "docs").glob("*.md")]
    shown = {os.fspath(path.relative_to(TOP)) for path in pages if quoted_pairs(path.read_text())}
    counts.check(f"pages with commands: {sorted(shown ^ {*PAGES, *ELSEWHERE})}", shown == {*PAGES, *ELSEWHERE})


def run_and_check_page(counts: Counts, name: str, program: Path, desk: Path, writes: bool) -> None:
    with tempfile.TemporaryDirectory(ignore_cleanup_errors=True) as folder:
        room = Path(folder).resolve()
        home = make_home_folder(room, program)
        one = make_reader_with_linked_commands(home, program, desk)
        if missing := docs_page_session.find_missing_needs(name, one):
            counts.count_and_print_left_out(f"the commands of {name}: {', '.join(missing)} missing")
            return
        printed = docs_page_session.run_check_and_return_outputs(counts, name, one, room)
        if writes:
            (TOP / name).write_text(text_with_outputs((TOP / name).read_text(), printed))
        if (TOP / ".git").exists() and shutil.which("git"):
            run_git_and_check_ignored(counts, name, home)


def main() -> int:
    parser = parser_of_docstring(__doc__)
    add_programs(parser, "dam", "desk")
    parser.add_argument("--write", action="store_true")
    parser.add_argument("pages", metavar="PAGE", nargs="*", help="such as GUIDE")
    args, counts = parse_with_programs_or_exit(parser), Counts()
    program, desk = Path(args.dam), Path(args.desk)
    check_pages_are_listed(counts)
    for name in PAGES:
        if not args.pages or Path(name).stem in args.pages:
            run_and_check_page(counts, name, program, desk, args.write)
    return counts.print_totals_and_return_status()
