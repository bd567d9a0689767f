"""The commands that a page shows, run as a reader runs them: in order, in one shell, in a folder of their own."""

import contextlib
import os
import signal
import subprocess
import sys
from collections.abc import Collection, Iterator, Mapping, Sequence
from pathlib import Path
from typing import NamedTuple

from lib.base.place import with_installed_commands
from lib.base.rules import VERSION
from lib.process import children
from lib.tool import modules
from shared.counts import Counts
from shared.docs_page_scenes import CLONE, INSTALLED, PAGES
from shared.ports import find_free_port
from shared.shown import Block, blocks_of_page, code_spans

SECONDS = 200  # that the commands of a page may take
BROWSER = """#!/bin/sh
curl -fsS "$1" > "$HOME/../page.html"
kill -INT $PPID
"""
CUT = " [cut]"  # ends a quoted line of which the page shows only the beginning
PYTHON = "python3 - <<'END'\n{}END\n"
SHOWN = 600  # characters of an output in a message


class PageReader(NamedTuple):
    """A reader: how it has `dam`, the folder of its pages, the words that start its shell, its environment, and its root folder."""

    form: str
    pages: Path
    shell: list[str]
    environment: dict[str, str]
    root: Path = Path("/")


class PageStep(NamedTuple):
    """Commands of a page, or of its scene; the output that the page quotes, or None; and words of the lines on standard error."""

    about: str
    commands: str
    quoted: str | None = None
    says: str = ""
    is_whole: bool = True  # no line was left out


class FaultyScene(Exception):
    """A scene that doesn't fit its page."""


def make_environment_with_browser(home: Path, more: Mapping[str, str], root: Path = Path("/")) -> dict[str, str]:
    """The environment of a reader whose folder this is: with a port that is free, and a browser that ends what shows it a page."""
    browser = home.parent / "browser"
    browser.write_text(BROWSER)
    browser.chmod(0o755)
    kept = {name: os.environ[name] for name in ("LANG", "LC_ALL", "TZ") if name in os.environ}
    own = {"HOME": str(path_inside(home, root)), "BROWSER": f"{path_inside(browser, root)} %s"}
    own |= {"PORT": str(find_free_port()), "VERSION": VERSION}
    return {**kept, **own, **more}


def path_inside(path: Path, root: Path) -> Path:
    """A path as it is seen by one with this root folder."""
    return "/" / path.relative_to(root)


def find_missing_needs(name: str, reader: PageReader) -> list[str]:
    """The programs, and modules of Python, that the commands of a page need, and that the reader lacks."""
    return [need for need in PAGES[name].needs if not (run_and_see_module if need in modules.PACKAGES else has_program)(need, reader)]


def run_and_see_module(name: str, reader: PageReader) -> bool:
    if reader.form == CLONE:
        return modules.has_module(name) or modules.run_and_see_if_debian_has(name)
    find = [*modules.ISOLATED, "-c", f"import importlib.util, sys; sys.exit(importlib.util.find_spec({name!r}) is None)"]
    return subprocess.run([*reader.shell, *find], env=reader.environment).returncode == 0


def has_program(name: str, reader: PageReader) -> bool:
    return any(os.access(reader.root / folder[1:] / name, os.X_OK) for folder in reader.environment["PATH"].split(":"))


def place_or_raise(found: Sequence[Block], name: str, text: str) -> int:
    """The place of the block that has this text."""
    places = [at for at, block in enumerate(found) if text in block.commands]
    if len(places) != 1:
        raise FaultyScene(f"{name}: the text {text!r} is in {len(places)} of its blocks")
    return places[0]


def text_of_kept_lines(commands: str, left_out: Collection[str]) -> str:
    """The lines of a block but for those that are left out, each with those that go on it."""
    lines, is_out = list[str](), False
    for line in commands.splitlines(keepends=True):
        goes_on = is_continued(lines[-1]) if lines and not is_out else False
        is_out = not goes_on and any(line.startswith(words) for words in left_out)
        lines += [] if is_out else [line]
    return "".join(lines)


def is_continued(line: str) -> bool:
    return line.rstrip("\n").endswith("\\")


def text_with_edits(commands: str, edits: Mapping[str, str]) -> str:
    for old, new in edits.items():
        commands = commands.replace(old, new)
    return commands


def steps_or_raise(name: str, text: str, form: str) -> Iterator[PageStep]:
    """The steps of a page. Each text of its scene has to be on the page: one that isn't there any more is a fault."""
    scene, found, within = PAGES[name], blocks_of_page(text), code_spans(text)
    lines = [line for block in found for line in block.commands.splitlines()] + list(scene.spans)
    for what, missing in (
        ("the line left out", [words for words in scene.left_out if not any(line.startswith(words) for line in lines)]),
        ("the edit", [words for words in scene.edits if not any(words in line for line in lines)]),
        ("the command", [words for words in scene.spans if words not in within]),
    ):
        if missing:
            raise FaultyScene(f"{name}: {what} {missing[0]!r} isn't there")
    given, then, says = (
        {place_or_raise(found, name, key): words for key, words in texts.items()} for texts in (scene.given, scene.then, scene.says)
    )
    left_out = [line for line, out in scene.left_out.items() if form in out.forms]
    for at, block in enumerate(found):
        about, commands = f"{form}: {name}: {block.commands.splitlines()[0]}", text_of_kept_lines(block.commands, left_out)
        if not any(line.strip() and not line.startswith("#") for line in commands.splitlines()):
            continue
        if at in given:
            yield PageStep(f"{about}: what it takes as given", given[at])
        made = text_with_edits(shell_text(block.kind, commands), scene.edits)
        yield PageStep(about, made, block.quoted, says.get(at, ""), commands == block.commands)
        if at in then:
            yield PageStep(f"{about}: what came of it", then[at])
    if scene.spans:
        yield PageStep(f"{form}: {name}: what its sentences and tables take as given", scene.for_spans)
    for command, span in scene.spans.items():
        if text_of_kept_lines(command, left_out):
            made = with_status_test(text_with_edits(command_in_form(form, command), scene.edits), span.status)
            yield PageStep(f"{form}: {name}: {command}", made, says=span.says)


def shell_text(kind: str, commands: str) -> str:
    """A block as commands of a shell: a script is written to the file that its second line names."""
    if kind == "python":
        return PYTHON.format(commands)
    return f"cat > {commands.splitlines()[1].split()[1]} <<'END'\n{commands}END\n" if commands.startswith("#!") else commands


def command_in_form(form: str, command: str) -> str:
    """A command of a sentence: of a clone, or with the installed names in place of these."""
    return with_installed_commands(command) if form == INSTALLED else command


def with_status_test(command: str, status: int) -> str:
    """A command that has to end with this status."""
    return f"STATUS=0\n{command} || STATUS=$?\ntest $STATUS -eq {status}"


def script_text(made: Sequence[PageStep], room: Path) -> str:
    """One script of all steps, which keeps their outputs, and notes each step that is done. `$SHOWN` is the output of the last one."""
    parts = [f"set -e\ncd {room / 'home'}\n"]
    for number, step in enumerate(made):
        at = room / str(number)
        parts.append(f"{{\n{step.commands}\n}} > {at}.out 2> {at}.err\nSHOWN={at}.out\n: > {at}.done\n")
    return "".join(parts)


def is_as_quoted(printed: str, quoted: str, is_whole: bool) -> bool:
    """Whether an output is the one that a page quotes, or a part of it if lines were left out."""
    lines, wanted = without_spaces_at_ends(printed).splitlines(), quoted.splitlines()
    fits = [(len(wanted), 0)] if is_whole else [(len(lines), at) for at in range(len(wanted) - len(lines) + 1)]
    return bool(lines) and any(len(lines) == length and all(map(is_line, lines, wanted[at : at + length])) for length, at in fits)


def without_spaces_at_ends(printed: str) -> str:
    """An output without spaces at the end of a line."""
    return "".join(f"{line.rstrip()}\n" for line in printed.splitlines())


def is_line(line: str, wanted: str) -> bool:
    return line.startswith(wanted.removesuffix(CUT)) if wanted.endswith(CUT) else line == wanted


def run_check_and_return_outputs(counts: Counts, name: str, reader: PageReader, room: Path) -> dict[str, str]:
    """Runs the commands of a page in the folder home of a room, and checks each block. Returns the outputs by the quoted ones."""
    try:
        made = list(steps_or_raise(name, (reader.pages / name).read_text(encoding="utf-8"), reader.form))
    except FaultyScene as fault:
        counts.check(f"{reader.form}: {fault}", False)
        return {}
    for line, out in PAGES[name].left_out.items():
        if reader.form in out.forms:
            print(f"not run {reader.form}: {name}: {line}: {out.why}", flush=True)
    words = [*reader.shell, "sh", "-c", script_text(made, path_inside(room, reader.root))]
    page = str(path_inside(reader.pages / name, reader.root))
    own = {**reader.environment, "PAGE": page}
    with exiting_at_signals(), subprocess.Popen(words, stdin=subprocess.DEVNULL, start_new_session=True, env=own, umask=0o022) as process:
        try:
            process.wait(SECONDS)
        except subprocess.TimeoutExpired:
            counts.check(f"{reader.form}: {name}: its commands take longer than {SECONDS} seconds", False)
        finally:
            children.kill_group(process)
    ended = process.returncode
    printed = {}
    for number, step in enumerate(made):
        printed[step.quoted] = check_step_and_return_output_or_none(counts, step, room / str(number), ended)
    return {quoted: shown for quoted, shown in printed.items() if quoted and shown}


@contextlib.contextmanager
def exiting_at_signals() -> Iterator[None]:
    """Signals that end the test end what it has started, too."""
    before = {number: signal.signal(number, lambda number, _: sys.exit(128 + number)) for number in (signal.SIGHUP, signal.SIGTERM)}
    try:
        yield
    finally:
        for number, action in before.items():
            signal.signal(number, action)


def check_step_and_return_output_or_none(counts: Counts, step: PageStep, at: Path, status: int) -> str | None:
    """Checks a step by its files, and returns its output; None if it wasn't run."""
    if not Path(f"{at}.out").exists():
        counts.check(f"{step.about}: not run, since one before it failed", False)
        return None
    printed, said = (Path(f"{at}{ending}").read_text(errors="replace") for ending in (".out", ".err"))
    is_done = Path(f"{at}.done").exists()
    is_noted = step.says in said if step.says else not said
    is_right = is_done and is_noted and (step.quoted is None or is_as_quoted(printed, step.quoted, step.is_whole))
    end = "" if is_done else f" ends with status {status}"
    counts.check(f"{step.about}{end}: {said[-SHOWN:]}\n{printed[-SHOWN:]}", is_right)
    return without_spaces_at_ends(printed)
