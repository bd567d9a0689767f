"""The pages of definitions: for each crate its definitions, each with its sentence, its text, and the pages that name it."""

import re
import subprocess
from collections.abc import Mapping
from pathlib import Path

from lib.crates.specs import Repository

from . import navigation, pages

# A section of the list that tools/reading-list prints, and a definition of it.
SECTION = re.compile(r"^## `(\w+)/specs/(\w+)\.antt`\n\n(.*?)(?=^## |\Z)", re.MULTILINE | re.DOTALL)
ENTRY = re.compile(r"^- `(\S+)`: (.*?)(?=^- |\Z)", re.MULTILINE | re.DOTALL)
# The words of the code that names of definitions may be, too: on other pages these are no links.
OF_CODE = re.compile(r"\b(?:fn|struct|enum|trait|mod)\s+(\w+)")


def capture_list(top: Path, environment: Mapping[str, str] | None = None) -> str:
    """The page of the notation with the list of the definitions below it, which no file of a clone has."""
    line = [str(top / "tools" / "reading-list"), "--definitions"]
    return subprocess.run(line, stdout=subprocess.PIPE, env=environment, check=True).stdout.decode()


class Definitions:
    """The definitions of a clone, with their places in the site. `listed` is their list, as `capture_list` returns it."""

    def __init__(self, top: Path, repository: Repository, listed: str) -> None:
        self.top, self.repository = top, repository
        self.notation = listed.partition("\n## `")[0] + "\n"
        self.modules: dict[str, dict[str, tuple[str, dict[str, str]]]] = {}
        self.pages: dict[tuple[str, str], str] = {}
        for crate, module, text in SECTION.findall(listed):
            first = next(ENTRY.finditer(text))
            entries = {name: " ".join(sentence.split()) for name, sentence in ENTRY.findall(text)}
            self.modules.setdefault(crate, {})[module] = " ".join(text[: first.start()].split()), entries
            self.pages.update({(crate, name): f"{navigation.DEFINITIONS}/{crate}.md" for name in entries})

    def read_pages_by_name(self) -> dict[str, str]:
        """The page of each name that means one definition, and looks like none of the code."""
        names = [name for _, name in self.pages]
        of_code = set()
        for path in (self.top / "crates").glob("*/src/**/*.rt"):
            of_code.update(OF_CODE.findall(path.read_text(encoding="utf-8")))
        is_plain = lambda name: name.islower() and "_" not in name
        return {name: page for (_, name), page in self.pages.items()
                if names.count(name) == 1 and name not in of_code and not is_plain(name)}

    def read_page_text(self, crate: str, naming: Mapping[str, Mapping[str, str]]) -> str:
        """The page of a crate. `naming` has, for a name, the pages that name it."""
        own = f"{navigation.DEFINITIONS}/{crate}.md"
        lines = [f"# The definitions of `{crate}`", "", f"[The notation](../{navigation.NOTATION.rpartition('/')[2]}#notation)", ""]
        for module, (subject, entries) in self.modules[crate].items():
            lines += [f"## {module}", "", f"{subject} (`crates/{crate}/specs/{module}.antt`)", ""]
            for name, sentence in entries.items():
                text = self.repository.read_definitions(crate, module)[name].rstrip("\n") + "\n"
                linked = pages.html_with_links(text, own, self.read_pages_of_used_names(crate, module, name))
                lines += [f"### `{name}` {{ #{name} }}", "", sentence, "", linked, ""]
                if naming.get(name):
                    links = (f"[{title}]({pages.relative_path(own, page)})" for page, title in naming[name].items())
                    lines += [f"Named in: {', '.join(links)}", ""]
        return "\n".join(lines)

    def read_pages_of_used_names(self, crate: str, module: str, name: str) -> dict[str, str]:
        """The page of each definition that a definition's text names."""
        nodes = self.repository.read_targets_named_in((crate, "specs", module, name))
        return {other: self.pages[home, other] for home, kind, _, other in nodes if kind == "specs" and (home, other) in self.pages}

    def notation_page_text(self) -> str:
        """The page of the notation, with a list of the pages below it."""
        lines = ["## By crate", ""]
        for crate, modules in self.modules.items():
            links = ", ".join(f"[{module}](definitions/{crate}.md#{module.lower()})" for module in modules)
            lines.append(f"- [`{crate}`](definitions/{crate}.md): {links}")
        return self.notation + "\n" + "\n".join(lines) + "\n"
