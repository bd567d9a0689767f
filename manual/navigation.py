"""The order of the site: for each reader the pages, with their short titles. Every page of docs/ has one place here."""

from collections.abc import Iterable
from typing import Any

NAVIGATION = {
    "Start": {
        "README.md": "Overview",
        "docs/USING.md": "Commands and recipes",
        "docs/EXAMPLES.md": "Two example days",
        "docs/GLOSSARY.md": "Glossary",
    },
    "Trade": {
        "docs/GUIDE.md": "A trader's guide",
        "docs/RULES.md": "The market rules",
        "docs/MARKET.md": "The laws of the market",
        "docs/WHATIF.md": "What if",
    },
    "Audit": {
        "docs/AUDIT.md": "Checking a published day",
        "docs/FORMATS.md": "Formats",
        "docs/TABLES.md": "Tables",
    },
    "Operate": {
        "docs/OPERATING.md": "Operating",
        "docs/DESK.md": "The desk",
        "docs/OFFICE.md": "The office",
        "docs/SECURITY.md": "Security of the office",
        "docs/MEASURED.md": "Measured figures",
    },
    "Embed": {
        "docs/C.md": "From C",
        "docs/PYTHON.md": "From Python",
        "docs/LIBRARY.md": "From Rattle",
        "docs/ARCHITECTURE.md": "The map of the crates",
    },
    "Trust": {
        "docs/TRUST.md": "Why trust a published day",
        "docs/ASSURANCE.md": "Proved and assumed",
        "docs/TESTED.md": "Only tested",
        "docs/THEOREM.md": "The theorem",
        "docs/BOUND.md": "The bound of the search",
        "docs/DEFINITIONS.md": "Notation",
    },
    "Maintain": {
        "docs/CONTRIBUTING.md": "Contributing",
        "docs/CHECK.md": "How to check",
        "docs/DECISIONS.md": "Decisions",
        "CHANGELOG.md": "Changes",
    },
}
TITLES = {page: title for pages in NAVIGATION.values() for page, title in pages.items()}
# The page below which the definitions stand, a page for each crate, and the folder of these.
NOTATION, DEFINITIONS = "docs/DEFINITIONS.md", "docs/definitions"
# The folders whose pages come in order of their names, after those for these readers.
OTHERS, OF_OTHERS = ("bench", "crates", "package", "tests", "tools"), "Maintain"


def is_other(page: str) -> bool:
    return page.partition("/")[0] in OTHERS


def faults_of_pages(pages: Iterable[str]) -> list[str]:
    """Why these pages can't be the site's: each that isn't in the table, and each of the table that is missing."""
    own = {page for page in pages if not is_other(page)}
    return [
        *(f"{page} isn't in the table of manual/navigation.py" for page in sorted(own - TITLES.keys())),
        *(f"{page} is in the table of manual/navigation.py, and isn't there" for page in sorted(TITLES.keys() - own)),
    ]


def title_of_other_page(page: str) -> str:
    """The title of a page that isn't in the table: its folder, and its kind if it isn't the folder's first one."""
    *folders, name = page.split("/")
    word = name.removesuffix(".md").lower()
    return folders[-1] if word == "readme" else f"{folders[-1]}: {word}"


def navigation_entries(pages: Iterable[str], crates_defined: Iterable[str]) -> list[dict[str, Any]]:
    """The navigation in the form of mkdocs. The second list has the crates that have a page of definitions."""
    found = []
    for reader, own in NAVIGATION.items():
        listed: list[dict[str, Any]] = [{title: page} for page, title in own.items()]
        if NOTATION in own:
            notation = listed.pop(list(own).index(NOTATION))
            listed.append({"Definitions": [notation, *({crate: f"{DEFINITIONS}/{crate}.md"} for crate in crates_defined)]})
        if reader == OF_OTHERS:
            listed.append({"Crates and notes": [{title_of_other_page(page): page} for page in sorted(filter(is_other, pages))]})
        found.append({reader: listed})
    return found
