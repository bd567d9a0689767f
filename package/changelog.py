"""The package's changelog in Debian's form, of CHANGELOG.md: an entry for each version, with a line for each of its points. The changes
under `## Next` have no version yet."""

import email.utils
import re
import textwrap

from . import clone as made_of

WIDTH = 78
SECTION = re.compile(r"^## (\d\S*)\n(.*?)(?=^## |\Z)", re.MULTILINE | re.DOTALL)
LINK = re.compile(r"\[([^\]]*)\]\([^)]*\)")


def read_maintainer() -> str:
    text = (made_of.TOP / "package" / "control").read_text(encoding="utf-8")
    return re.findall(r"^Maintainer: (.*)$", text, re.MULTILINE)[0]


def points(section: str) -> list[str]:
    """The points of a version's section, each as one line."""
    return [" ".join(point.split()) for point in re.findall(r"^- (.*?)(?=^- |\Z)", LINK.sub(r"\1", section), re.MULTILINE | re.DOTALL)]


def read_changelog_text(seconds: int) -> str:
    """The changelog. A version has no date of its own, so each entry has the commit's."""
    date, entries = email.utils.formatdate(seconds), []
    for version, section in SECTION.findall((made_of.TOP / "CHANGELOG.md").read_text(encoding="utf-8")):
        lines = (textwrap.fill(point, WIDTH, initial_indent="  * ", subsequent_indent="    ") for point in points(section))
        head, end = f"dam ({version}) stable; urgency=medium", f" -- {read_maintainer()}  {date.replace('-0000', '+0000')}"
        entries.append("\n".join([head, "", *lines, "", end, ""]))
    return "\n".join(entries)
