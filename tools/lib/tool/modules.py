"""Python's modules that a tool needs: in this Python, or else in Debian's, with which the tool starts again."""

import importlib.util
import os
import subprocess
import sys
import zoneinfo

from ..process import ending
from .exits import FAILED, Stop

DEBIAN_PYTHON = "/usr/bin/python3"
ISOLATED = [DEBIAN_PYTHON, "-I"]  # from the environment and the working folder
# Debian's packages; tests/debian-packages lists them all.
PACKAGES = {
    "aiohttp": "python3-aiohttp",
    "cryptography": "python3-cryptography",
    "distributed": "python3-distributed",
    "jinja2": "python3-jinja2",
    "matplotlib": "python3-matplotlib",
    "numpy": "python3-numpy",
    "openpyxl": "python3-openpyxl",
    "pandas": "python3-pandas",
    "scipy": "python3-scipy",
    "tqdm": "python3-tqdm",
}


def has_module(module: str) -> bool:
    return importlib.util.find_spec(module) is not None


def is_debian_python() -> bool:
    """Whether this is Debian's Python, which has Debian's packages."""
    return os.path.realpath(sys.executable) == os.path.realpath(DEBIAN_PYTHON)


def words_of_this_python() -> list[str]:
    """The words that start this Python for another tool: isolated, if it is."""
    return [sys.executable, *(["-I"] if sys.flags.isolated else [])]


def run_and_see_if_debian_has(*modules: str) -> bool:
    """Whether Debian's Python is a different one and has the modules. With -c alone it would also find those of the working folder."""
    if is_debian_python():
        return False
    find = "import importlib.util, sys; sys.exit(None in map(importlib.util.find_spec, sys.argv[1:]))"
    try:
        return subprocess.run([*ISOLATED, "-c", find, *modules], stderr=subprocess.DEVNULL).returncode == 0
    except OSError as fault:
        if ending.is_lack_of_memory(fault) or ending.is_lack_of_files(fault):
            raise
        return False


def exec_with_modules(*modules: str) -> None:
    """Starts the tool again with Debian's Python, if that has the modules and this one lacks some."""
    if not all(map(has_module, modules)) and run_and_see_if_debian_has(*modules):
        # without -S, nothing would find Debian's packages for a program that ending.guard_tool doesn't guard
        late = ["-S"] if sys.flags.no_site else []
        os.execv(DEBIAN_PYTHON, [*ISOLATED, *late, str(sys.modules["__main__"].__file__), *sys.argv[1:]])


def has_zone(name: str) -> bool:
    try:
        zoneinfo.ZoneInfo(name)
    except (zoneinfo.ZoneInfoNotFoundError, ValueError, OSError):  # it is missing, or its file is another one
        return False
    return True


def refuse_missing_zone(name: str) -> None:
    if not has_zone(name):
        raise Stop("it needs the world's time zones, which Debian has in the package tzdata: apt-get install tzdata", FAILED)


def missing_message(*modules: str) -> str:
    packages = [PACKAGES[module] for module in modules]
    noun = "package" if len(packages) == 1 else "packages"
    which = f"which Debian has in the {noun} {' and '.join(packages)}"
    return f"it needs {' and '.join(modules)}, {which}: apt-get install {' '.join(packages)}"


def exec_or_require_modules(*modules: str) -> None:
    exec_with_modules(*modules)
    if lacking := [module for module in modules if not has_module(module)]:
        raise Stop(missing_message(*lacking), FAILED)
