"""Where these tools are: in a clone of the repository, or installed as commands of the package dam_tools."""

from __future__ import annotations

import re
from pathlib import Path

# The tools that are installed as commands.
TOOLS = ("audit", "compare", "lint", "office", "plot", "receipts", "report", "table", "whatif")
# The folder of the tools: tools/ in a clone, and the folder of dam_tools if they are installed.
FOLDER = Path(__file__).resolve().parents[2]
IS_INSTALLED = FOLDER.name == "dam_tools"
COMMAND_OF_CLONE = re.compile(rf"(?<![\w./-])(?:\./dam\b|tools/(?=(?:{'|'.join(TOOLS)})\b))")


def command_name(tool: str) -> str:
    """The name of a tool as a command: `audit` in a clone, where its file is named, and `dam-audit` if it is installed."""
    return f"dam-{tool.removeprefix('dam-')}" if IS_INSTALLED else tool


def with_installed_commands(words: str) -> str:
    """Words that name commands as in a clone, such as `tools/audit`, with the names that these have if they are installed."""
    return COMMAND_OF_CLONE.sub(lambda found: "dam" if found[0] == "./dam" else "dam-", words)


def with_commands_of_here(words: str) -> str:
    """Words that name commands as in a clone, with the names that these have here."""
    return with_installed_commands(words) if IS_INSTALLED else words


def read_docstring(path: str | Path, function: str | None = None) -> str:
    """The docstring of a script, or of a function in it, also if Python has left it out (python3 -OO)."""
    import ast

    tree: ast.Module | ast.FunctionDef = ast.parse(Path(path).read_bytes())
    if function is not None:
        tree = next(part for part in tree.body if isinstance(part, ast.FunctionDef) and part.name == function)
    return ast.get_docstring(tree, clean=False) or ""
