"""The tools as commands, if dam_tools is installed by pip: `dam-audit` calls `audit` of this module, which runs the script `audit` of this
folder, and so on."""

import functools
import runpy
import sys
from pathlib import Path

from .lib.base.place import TOOLS

FOLDER = Path(__file__).resolve().parent


def run_tool(tool: str) -> None:
    """Runs a tool with the words of the command line. It finds its modules next to its own file, as in a clone."""
    if not getattr(sys.flags, "safe_path", False):
        del sys.path[0]  # the folder of the commands, or the working folder
    runpy.run_path(str(FOLDER / tool), run_name="__main__")


globals().update((tool, functools.partial(run_tool, tool)) for tool in TOOLS)
