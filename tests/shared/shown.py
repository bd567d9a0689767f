"""The blocks of a page: commands, each with the output that the page quotes; and the commands within its sentences and tables."""

import re
from typing import NamedTuple

from .docs_pages import FENCE

BLOCK = re.compile(r"^```(sh|python)\n(.*?)^```$(?:\n\n```text\n(.*?)^```$)?", re.MULTILINE | re.DOTALL)


class Block(NamedTuple):
    """Commands, and the output right after them; None if there is none."""

    kind: str
    commands: str
    quoted: str | None


def blocks_of_page(text: str) -> list[Block]:
    return [Block(*found.groups()) for found in BLOCK.finditer(text)]


def code_spans(text: str) -> list[str]:
    """The words that stand as code within sentences and tables."""
    return [" ".join(found.split()) for found in re.findall(r"`([^`]+)`", FENCE.sub("", text))]


def quoted_pairs(text: str) -> list[tuple[str, str | None]]:
    """Each block of a shell's commands with the output that the page quotes."""
    return [(block.commands, block.quoted) for block in blocks_of_page(text) if block.kind == "sh"]
