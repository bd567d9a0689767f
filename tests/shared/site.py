"""The pages of a site in a folder: their links, the parts that they fetch, and whether each leads to a file and a place of the site."""

import os
import re
from collections.abc import Iterator
from html.parser import HTMLParser
from pathlib import Path
from urllib.parse import unquote, urlsplit

# Attributes whose file is fetched when a page is shown. `xlink:href` and `srcset` fetch too.
FETCHED = {("script", "src"), ("img", "src"), ("link", "href"), ("iframe", "src"), ("source", "src"), ("object", "data"), ("use", "href"),
           ("image", "href"), ("video", "src"), ("audio", "src"), ("embed", "src"), ("img", "srcset"), ("source", "srcset")}
OF_STYLES = re.compile(r"@import\s+[\"']?([^\"';)\s]+)|url\(\s*[\"']?([^\"')]+)")


class SitePage(HTMLParser):
    """A page: the names of its places, its links, the files that it fetches, the pages before and after it, its blocks of text, and how
    many items of lists and tables its article has."""

    def __init__(self, path: Path) -> None:
        super().__init__()
        self.path = path
        self.places: set[str] = set()
        self.neighbours: dict[str, str | None] = {}
        self.links: list[str] = []
        self.fetches: list[str] = []
        self.twice: list[str] = []
        self.blocks: list[str] = []
        self.items, self.tables, self.is_article, self.is_block = 0, 0, False, False

    @classmethod
    def read(cls, path: Path) -> "SitePage":
        page = cls(path)
        page.feed(path.read_text(encoding="utf-8"))
        return page

    def handle_starttag(self, tag: str, attrs: list[tuple[str, str | None]]) -> None:
        found = dict(attrs)
        self.is_article |= tag == "article"
        self.items += self.is_article and tag == "li"
        self.tables += self.is_article and tag == "table"
        if tag == "pre":
            self.is_block = True
            self.blocks.append("")
        for name in {name for name in (found.get("id"), found.get("name") if tag == "a" else None) if name is not None}:
            self.twice += [name] if name in self.places else []
            self.places.add(name)
        if tag in ("a", "area") and (link := found.get("href")):
            self.links.append(link)
        if (direction := found.get("rel")) in ("prev", "next"):
            self.neighbours[direction] = found.get("href")
        self.fetches += [value for name, value in attrs if value and (tag, name.removeprefix("xlink:")) in FETCHED]
        self.fetches += links_of_style(found.get("style") or "")

    handle_startendtag = handle_starttag

    def handle_endtag(self, tag: str) -> None:
        self.is_article &= tag != "article"
        self.is_block &= tag != "pre"

    def handle_data(self, data: str) -> None:
        if self.is_block:
            self.blocks[-1] += data

    def block_texts(self) -> set[str]:
        """The blocks of text, without the line ends around them."""
        return {block.strip("\n") for block in self.blocks}


def links_of_style(text: str) -> list[str]:
    """The files that a style fetches, but for those that it has in itself."""
    found = (one or other for one, other in OF_STYLES.findall(text))
    return [url for url in found if not url.startswith("data:") and not url.startswith("#")]


class Site:
    def __init__(self, folder: Path, pages: dict[Path, SitePage]) -> None:
        self.folder, self.pages = folder, pages

    @classmethod
    def read(cls, folder: Path | str) -> "Site":
        found = Path(folder).resolve()
        return cls(found, {path: SitePage.read(path) for path in sorted(found.rglob("*.html"))})

    def relative_name(self, path: Path) -> str:
        return path.relative_to(self.folder).as_posix()

    def find_fault_of_link_or_none(self, page: SitePage, url: str) -> str | None:
        """Why a link of a page leads nowhere in the site, if it doesn't."""
        parts = urlsplit(url)
        if parts.scheme or parts.netloc:
            return "another site"
        target = Path(os.path.normpath(page.path.parent / unquote(parts.path))) if parts.path else page.path
        if target != self.folder and self.folder not in target.parents:
            return "outside the site"
        if target.is_dir() or not target.exists():
            return "no such file"
        if parts.fragment and unquote(parts.fragment) not in self.pages[target].places:
            return "no such place"
        return None

    def read_faults(self) -> Iterator[str]:
        """Each link, fetched file and place of the site that is wrong, with its page."""
        for page in self.pages.values():
            for url in [*page.links, *page.fetches]:
                if wrong := self.find_fault_of_link_or_none(page, url):
                    yield f"{self.relative_name(page.path)}: {url}: {wrong}"
            yield from (f"{self.relative_name(page.path)}: two places are named {name}" for name in page.twice)
        for path in sorted(self.folder.rglob("*.css")):
            for url in links_of_style(path.read_text(encoding="utf-8")):
                if urlsplit(url).scheme or not (path.parent / url).is_file():
                    yield f"{self.relative_name(path)}: {url}: not in the site"
