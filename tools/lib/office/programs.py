"""The programs that an office runs: where they are, and their output."""

import asyncio
import os
import shutil
import subprocess
from asyncio.subprocess import PIPE
from pathlib import Path
from typing import NamedTuple

from ..process import async_child
from ..runs import by_program, errors, which
from ..tool import exits

EMPTY_DAY = b"day,24,,,,,,,\nclose,,,,,,,,\n"
TRIAL_SECONDS = 600  # that it may take to clear: a clone may compile its program first
MOST_SECONDS = 600  # that a program may take
DESK_BUILT = which.TOP / "crates" / "dam_desk" / "out" / "dam_desk"


class Programs(NamedTuple):
    dam: str
    desk: str


def compile_unproved(crate: str) -> str | None:
    """The program of a crate that is compiled without proofs, which only a clone can do; None elsewhere."""
    tool = which.TOP / "tools" / "unproved"
    if not os.access(tool, os.X_OK):
        return None
    ran = subprocess.run([tool, "--compile", crate], stdin=subprocess.DEVNULL, stdout=subprocess.PIPE, text=True)
    if ran.returncode:
        raise exits.Stop(f"{crate} was not compiled", exits.FAILED)  # its line on standard error says why
    exits.print_note("office", f"{crate} isn't proved here: this shows how the office works, and no results to rely on")
    return ran.stdout.removesuffix("\n")


def require_runnable(path: str | Path | None, name: str, option: str) -> str:
    """The path of a program that can be run: one that can't ends the office now, not at the close."""
    if path is None:
        raise exits.Stop(f"the program {name} is missing: `./dam prove` builds it, or name it with {option}", exits.FAILED)
    if shutil.which(path) is None:
        raise exits.Stop(f"the program {name} can't be run: {exits.shown(path)}", exits.FAILED)
    return os.path.abspath(path) if os.sep in str(path) else str(path)


def find_or_compile_dam_or_stop(named: str | None = None, may_compile: bool = False) -> str:
    """The program dam: the one that is named, or else the package's, the clone's or the system's; or, if it may be compiled, the clone's
    without proofs."""
    found = which.find_program()
    path = named or os.environ.get("DAM") or (found.path if found else None)
    path = path or (compile_unproved("dam_cli") if may_compile else None)
    return require_runnable(path, "dam", "--dam")


def find_or_compile_desk_or_stop(named: str | None = None, may_compile: bool = False) -> str:
    """The program dam-desk, found the same way."""
    here = str(DESK_BUILT) if os.access(DESK_BUILT, os.X_OK) else shutil.which("dam-desk")
    path = named or os.environ.get("DAM_DESK") or which.find_packaged("bin", "dam-desk") or here
    return require_runnable(path or (compile_unproved("dam_desk") if may_compile else None), "dam-desk", "--desk")


def run_and_require_clearing(path: str) -> None:
    """Clears an empty day: a program that can't, or is another one, ends the office now, not at the close."""
    try:
        with subprocess.Popen([path, "clear"], stdin=subprocess.PIPE, stdout=subprocess.PIPE) as process:
            try:
                out, _ = by_program.exchange_pipes(process, EMPTY_DAY, TRIAL_SECONDS, "it")
            except BaseException:
                process.kill()
                raise
    except OSError as wrong:
        fault = wrong.strerror
    except subprocess.TimeoutExpired:
        fault = f"it took more than {TRIAL_SECONDS} s"
    except errors.Fault as wrong:
        fault = str(wrong)
    else:
        if not process.returncode and by_program.has_results(out):
            return
        fault = f"it {async_child.end_text(process.returncode)}" if process.returncode else "it printed no results"
    raise exits.Stop(f"the program dam didn't clear an empty day: {exits.shown(path)}: {fault}", exits.FAILED)


def find_programs_and_clear_trial_or_stop(dam: str | None = None, desk: str | None = None, may_compile: bool = False) -> Programs:
    """The programs that an office runs."""
    found = Programs(find_or_compile_dam_or_stop(dam, may_compile), find_or_compile_desk_or_stop(desk, may_compile))
    run_and_require_clearing(found.dam)
    return found


class ProgramFailed(Exception):
    """A program failed, or the disk did."""


async def capture_output_or_raise(*words: str, data: bytes = b"", seconds: float = MOST_SECONDS) -> bytes:
    """The output of a program. It has no other part in this process: its fault, or a late end, is `ProgramFailed`."""
    process = await asyncio.create_subprocess_exec(*words, start_new_session=True, stdin=PIPE, stdout=PIPE, stderr=PIPE)
    try:
        out, err = await asyncio.wait_for(async_child.feed_and_capture_output_and_errors(process, words[0], data), seconds)
    except asyncio.TimeoutError:
        raise ProgramFailed(f"{os.path.basename(words[0])} took more than {seconds} s") from None
    finally:
        if process.returncode is None:
            process.kill()
            await process.wait()
    if process.returncode:
        said = err.decode(errors="replace").strip()
        raise ProgramFailed(f"{os.path.basename(words[0])} {async_child.end_text(process.returncode)}: {said}")
    return out
