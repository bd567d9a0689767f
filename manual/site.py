"""Makes the site of the manual by mkdocs: the pages, their pictures and the definitions, with a search that works without a network.
Nothing in it says when or where it was made."""

import json
import os
import re
import shutil
import subprocess
from collections.abc import Mapping
from pathlib import Path
from typing import Any

from lib.crates.specs import Repository
from lib.tool import exits

from . import navigation, pages
from .definitions import Definitions, capture_list

TOP = Path(__file__).resolve().parents[1]
HERE = TOP / "manual"
THEME = Path("/usr/share/mkdocs/themes/material")
# The needs of the site: a command or a folder, with Debian's package of each.
NEEDED: dict[str | Path, str] = {"mkdocs": "mkdocs", THEME: "mkdocs-material"}
PICTURES = (".svg", ".png")
PAGE = re.compile(r"(?:docs/)?[^/]+\.md|crates/(?:[^/]+/)?(?:README|NOTES|PROOFS|TRACEABILITY|WORDS)\.md")
# Files of the theme that no page of the site needs: other languages, maps for those who debug it, and lists of pages for web servers.
LEFT_OUT = ("404.html", "sitemap.xml", "sitemap.xml.gz", "assets/javascripts/lunr", "**/*.map")
MAPPED = re.compile(rb"\n?(?://|/\*)# sourceMappingURL=\S+?(?: \*/|\*/)?\s*\Z")
INDEX = "search/search_index.json"


def find_missing_packages() -> list[str]:
    """The Debian packages that are missing."""
    return [package for name, package in NEEDED.items() if not (name.is_dir() if isinstance(name, Path) else shutil.which(name))]


def refuse_missing_packages() -> None:
    """Ends the tool if a package is missing."""
    if lacking := find_missing_packages():
        words = f"it needs {' and '.join(lacking)}, which Debian has: apt-get install {' '.join(lacking)}"
        raise exits.Stop(words, exits.FAILED)


def is_page(name: str) -> bool:
    """Whether a file of the repository is a page of the site."""
    return bool(PAGE.fullmatch(name))


def read_pages_and_list_pictures() -> tuple[dict[str, str], dict[str, Path]]:
    """The pages of this clone, by name, and the pictures of docs/."""
    folders = ("", "docs/", "crates/*/", *(f"{name}/" for name in navigation.OTHERS))
    paths = (path for folder in folders for path in sorted(TOP.glob(f"{folder}*")))
    found = {path.relative_to(TOP).as_posix(): path for path in paths}
    read = {name: path.read_text(encoding="utf-8") for name, path in found.items() if is_page(name)}
    return read, {name: path for name, path in found.items() if name.startswith("docs/") and name.endswith(PICTURES)}


def write_text(path: Path, text: str) -> None:
    path.parent.mkdir(parents=True, exist_ok=True)
    path.write_text(text, encoding="utf-8")


def write_pages_and_return_navigation(own: Mapping[str, str], drawn: Mapping[str, Path], folder: Path) -> list[dict[str, Any]]:
    """Writes the pages as mkdocs takes them. Returns the navigation."""
    if wrong := navigation.faults_of_pages(own):
        raise exits.Stop("; ".join(wrong))
    known = Definitions(TOP, Repository.read(TOP), capture_list(TOP))
    own = {**own, navigation.NOTATION: known.notation_page_text()}
    below = {f"{navigation.DEFINITIONS}/{crate}.md" for crate in known.modules}
    files, targets, naming = {*own, *drawn, *below}, known.read_pages_by_name(), dict[str, dict[str, str]]()
    for page, text in own.items():
        made = pages.text_for_site(text, page, files, targets)
        for name in sorted(set(re.findall(r"#(\w+)[)\"]", made)) & targets.keys()):
            naming.setdefault(name, {})[page] = navigation.TITLES.get(page) or navigation.title_of_other_page(page)
        write_text(folder / page, made)
    for crate in known.modules:
        write_text(folder / navigation.DEFINITIONS / f"{crate}.md", known.read_page_text(crate, naming))
    for name, path in drawn.items():
        shutil.copy(path, folder / name)
    return navigation.navigation_entries(own, known.modules)


def run_mkdocs_and_return_site(own: Mapping[str, str], drawn: Mapping[str, Path], room: Path) -> Path:
    """Makes the site of some pages and pictures in a folder of a room, which it returns."""
    source, made = room / "pages", room / "site"
    told = {
        "INHERIT": str(HERE / "mkdocs.yml"),
        "nav": write_pages_and_return_navigation(own, drawn, source),
        "docs_dir": str(source),
        "site_dir": str(made),
        "theme": {"custom_dir": str(HERE / "theme")},
    }
    (room / "mkdocs.yml").write_text(json.dumps(told), encoding="utf-8")
    kept = {name: os.environ[name] for name in ("PATH", "HOME", "TMPDIR") if name in os.environ}
    line = ["mkdocs", "build", "--quiet", "--config-file", str(room / "mkdocs.yml")]
    ran = subprocess.run(line, env={**kept, "LC_ALL": "C.UTF-8", "TZ": "UTC", "SOURCE_DATE_EPOCH": "0"}, capture_output=True)
    if ran.returncode:
        raise exits.Stop(f"mkdocs failed: {(ran.stderr + ran.stdout).decode(errors='replace').strip()}", exits.FAILED)
    write_index_and_remove_unneeded(made)
    return made


def read_generator(made: Path) -> str:
    """The versions of the programs that made a site."""
    return re.findall(r'<meta name="generator" content="([^"]*)">', (made / "index.html").read_text(encoding="utf-8"))[0]


def write_index_and_remove_unneeded(made: Path) -> None:
    """Leaves out the files that no page needs, and makes the index of the search a script too, for pages that are opened as files."""
    (made / INDEX).with_name("index.js").write_bytes(b"__index(" + (made / INDEX).read_bytes() + b")\n")
    for pattern in LEFT_OUT:
        for path in made.glob(pattern):
            shutil.rmtree(path) if path.is_dir() else path.unlink()
    for path in [*made.rglob("*.js"), *made.rglob("*.css")]:
        path.write_bytes(MAPPED.sub(b"\n", path.read_bytes()))


def refuse_other_files(folder: Path) -> None:
    """Ends the tool if a folder has files, and they are no site of its own."""
    if folder.exists() and not (folder / INDEX).is_file() and (not folder.is_dir() or any(folder.iterdir())):
        raise exits.Stop(f"{exits.shown(folder)} has other files: name a folder that is empty or missing")


def replace_folder(made: Path, folder: Path) -> None:
    """Puts a site into its place, in which an earlier one may be."""
    refuse_other_files(folder)
    shutil.rmtree(folder, ignore_errors=True)
    try:
        folder.parent.mkdir(parents=True, exist_ok=True)
        shutil.copytree(made, folder)
    except OSError as fault:
        raise exits.Stop(f"{exits.shown(folder)} can't be written: {fault.strerror}") from None
