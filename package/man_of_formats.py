"""The man pages of the formats and the tables, of section 5, made by go-md2man of the manual's pages."""

import re
import subprocess

from lib.base.place import with_installed_commands
from lib.tool import exits
from manual import pages

from .clone import TOP, environment_at

# Each man page: the manual's page, its name in a few words, and the commands that it names at its end.
PAGES = {
    "dam-formats": ("docs/FORMATS.md", "the texts that dam reads and prints", ("dam", "dam-audit", "dam-lint", "dam-receipts")),
    "dam-tables": ("docs/TABLES.md", "the tables of orders and results", ("dam-table", "dam-whatif")),
}
TABLE = re.compile(r"^(\|.*\|)\n\|[-|]+\|\n((?:\|.*\|\n)+)", re.MULTILINE)
OF_CLONES = re.compile(r"^\| 70 \| the launcher .*\n", re.MULTILINE)  # the status of a program that isn't packaged
CELL = re.compile(r"(?<!\\)\|")
# The words at the end of each man page.
MANUAL = (
    "The manual begins with html/index.html, and as text with README.md, in share/doc/dam/, below /usr or the folder of the archive."
)
WIDEST = 72  # columns of a table; a man page has 80, and its margin


def cells_of_row(row: str) -> list[str]:
    return [cell.strip() for cell in CELL.split(row.strip().strip("|"))]


def as_list_if_wide(found: re.Match[str]) -> str:
    """A table that is too wide for a terminal as a list: each first cell, and below it the others, the third and later with their heads."""
    heads, rows = cells_of_row(found[1]), [cells_of_row(row) for row in found[2].splitlines()]
    widths = (max(len(row[column].replace("`", "")) for row in [heads, *rows]) for column in range(len(heads)))
    if sum(width + 3 for width in widths) <= WIDEST:
        return found[0]
    told = lambda row: "; ".join([row[1], *(f"{head}: {cell}" for head, cell in zip(heads[2:], row[2:]) if cell)])
    return "".join(f"{row[0]}\n: {told(row)}\n\n" for row in rows)


def read_page_for_man(page: str) -> str:
    """A page of the manual as go-md2man takes it: with installed commands, and without links."""
    text = pages.COMMENT.sub("", (TOP / page).read_text(encoding="utf-8")).partition("\n")[2]
    text = OF_CLONES.sub("", text)
    text = TABLE.sub(as_list_if_wide, pages.with_lists_indented(pages.LINK.sub(r"\1", with_installed_commands(text))))
    text = re.sub(r"\[([^\]]*)\]\(#[^)\s]*\)", r"\1", text)
    return re.sub(r"^##(#*) (.*)$", lambda head: f"#{head[1]} {head[2] if head[1] else head[2].upper()}", text, flags=re.MULTILINE)


def capture_man_page(name: str, version: str) -> bytes:
    """A man page."""
    source, about, others = PAGES[name]
    see = ", ".join(f"**{other}**(1)" for other in others)
    text = f"# {name}\n\n# NAME\n\n{name} - {about}\n\n# DESCRIPTION\n\n{read_page_for_man(source)}\n# SEE ALSO\n\n{see}\n\n{MANUAL}\n"
    ran = subprocess.run(["go-md2man"], input=text.encode(), capture_output=True, env=environment_at())
    if ran.returncode:
        raise exits.Stop(f"go-md2man failed: {ran.stderr.decode(errors='replace')}", exits.FAILED)
    head = f'.TH {name.upper()} 5 "" "dam {version}" "Formats of dam"'
    return re.sub(r"^\.TH .*$", lambda _: head, ran.stdout.decode(), count=1, flags=re.MULTILINE).encode()


def capture_man_pages(version: str) -> dict[str, bytes]:
    """Each man page with its name."""
    return {name: capture_man_page(name, version) for name in PAGES}
