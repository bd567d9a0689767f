"""Which engine takes a journal: the library for C or the program, and where it is."""

import ctypes
import functools
import os
import shutil
from pathlib import Path
from typing import NamedTuple

from ..base import place
from ..crates import sources

TOP = Path(__file__).resolve().parents[3]
# Where the program is built, in the tree that this module is part of.
BUILT = TOP / "crates" / "dam_cli" / "out" / "dam_cli"
# And the path of the library for C, if library/build has made it; an installed one has the same name.
LIBRARY = TOP / "library" / "out" / "libdam.so.1"
# Where the Debian package, or the archive that runs in place, has both, if this module is part of it: all is below one folder, such as
# /usr, and this module in lib/python3/dist-packages/dam_tools/.
PREFIX = Path(*place.FOLDER.parts[:-4]) if place.FOLDER.parts[-4:-1] == ("lib", "python3", "dist-packages") else None
# Where `pip install .` puts a library that was built.
WHEELS = place.FOLDER / LIBRARY.name


def is_library_built() -> bool:
    """Whether the library for C was built of the present sources, as the record says that stands next to it."""
    return sources.read_stale_text(LIBRARY, sources.LIBRARY) is None


@functools.cache
def was_library_built_at_first_look() -> bool:
    """Whether it was so when this was first asked: to read all sources takes longer than to clear a day."""
    return is_library_built()


class FoundEngine(NamedTuple):
    """The engine for a journal: the library or the program; of the package, the wheel or the clone that this module is part of, of the
    system, or named by the environment; and its path, or a name that the system finds."""

    what: str
    of: str
    path: str


def find_packaged(*parts: str) -> Path | None:
    """The path of a file of the package that this module is part of; None if there is none."""
    path = PREFIX and PREFIX.joinpath(*parts)
    return path if path and path.exists() else None


def find_engine() -> FoundEngine | None:
    """The engine of a journal if none is named. Those that belong to this module come before those that the system finds."""
    for what, name in ("library", "DAM_LIBRARY"), ("program", "DAM"):
        if path := os.environ.get(name):
            return FoundEngine(what, "environment", path)
    for of, library in (
        ("package", find_packaged("lib", "x86_64-linux-gnu", LIBRARY.name)),
        ("wheel", WHEELS if WHEELS.exists() else None),
        ("clone", LIBRARY if was_library_built_at_first_look() else None),
    ):
        if library:
            return FoundEngine("library", of, os.fspath(library))
    if not os.access(BUILT, os.X_OK) and can_load(LIBRARY.name):
        return FoundEngine("library", "system", LIBRARY.name)
    return find_program()


def find_program() -> FoundEngine | None:
    """The program that belongs to this module, or that the system finds; None if there is none."""
    cloned = BUILT if os.access(BUILT, os.X_OK) else None
    for of, path in ("package", find_packaged("bin", "dam")), ("clone", cloned), ("system", shutil.which("dam")):
        if path:
            return FoundEngine("program", of, os.fspath(path))
    return None


def find_library() -> str | None:
    """The path of the library for C, or its name if the system has it; None if there is none, or if a program is to be run instead."""
    found = find_engine()
    return found.path if found and found.what == "library" else None


@functools.cache
def can_load(name: str) -> bool:
    """Whether the system finds a library of this name, and it is this one."""
    try:
        return hasattr(ctypes.CDLL(name), "dam_clear_seeded")
    except OSError:
        return False
