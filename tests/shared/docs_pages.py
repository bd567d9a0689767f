"""The links of a page, and whether they lead somewhere."""

import re
from collections.abc import Iterator
from pathlib import Path

LINK = re.compile(r"\]\(([^)#\s]*)(?:#([^)\s]*))?\)")
FENCE = re.compile(r"^```.*?^```$", re.MULTILINE | re.DOTALL)


def read_prose(page: Path) -> str:
    return FENCE.sub("", page.read_text(encoding="utf-8"))


def read_anchors(page: Path) -> set[str]:
    """The names of a page's headings in links."""
    heads = re.findall(r"^#+ (.*)$", read_prose(page), re.MULTILINE)
    return {re.sub(r"[^\w\- ]", "", head.lower()).replace(" ", "-") for head in heads}


def read_links(page: Path) -> Iterator[tuple[str, str | None]]:
    """Each link of a page to a file or a heading, with its fault, or None."""
    for path, anchor in LINK.findall(read_prose(page)):
        target = (page.parent / path).resolve() if path else page
        wrong = None if target.exists() else "no such file"
        if anchor and not wrong and anchor not in read_anchors(target):
            wrong = "no such heading"
        yield f"{path}#{anchor}" if anchor else path, wrong
