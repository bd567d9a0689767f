"""The manual as a site: that the table of its pages is whole, that nothing of a page is lost in it, that each link leads somewhere in it,
and that it is read and searched in a browser, served and as files. And the man pages that are made of pages."""

import asyncio
import functools
import http.server
import os
import re
import shutil
import subprocess
import sys
import tempfile
import threading
import unittest
from collections import Counter
from pathlib import Path

from support import TOOLS, TOP, run_tool

sys.path.append(str(TOP))

from lib.base.place import with_installed_commands
from lib.crates.specs import Repository
from lib.tool import modules
from manual import navigation, pages, site
from package import man_of_formats
from shared.site import Site

if modules.has_module("aiohttp"):
    from shared import browser

MISSING = site.find_missing_packages()
NEEDS_MKDOCS = unittest.skipIf(MISSING, f"{' and '.join(MISSING)} missing")
NO_BROWSER = "python3-aiohttp is missing" if not modules.has_module("aiohttp") else None if browser.find_browser_or_none() else "chromium is missing"
SECONDS = 60  # that the index of the search may take
WIDTHS = {1_280: "dark", 390: "light"}
SCHEMES = {"dark": "slate", "light": "default"}
WIDE = "README.md", "docs/FORMATS.md", "docs/TRUST.md", "docs/definitions/dam_results.md"
# An item of a list. A line that begins with `0.` is the end of a sentence.
ITEM = re.compile(r"^ *(?:[-*]|[1-9]\d*\.) +\S", re.MULTILINE)


class Navigation(unittest.TestCase):
    def test_each_page_has_its_place(self):
        self.assertEqual(navigation.faults_of_pages(site.read_pages_and_list_pictures()[0]), [])
        self.assertEqual(sum(map(len, navigation.NAVIGATION.values())), len(navigation.TITLES))

    def test_a_page_that_comes_or_goes_is_named(self):
        own = {*navigation.TITLES, "docs/NEW.md", "crates/dam_book/README.md"} - {"docs/GUIDE.md"}
        told = ["docs/NEW.md isn't in the table of %s", "docs/GUIDE.md is in the table of %s, and isn't there"]
        self.assertEqual(navigation.faults_of_pages(own), [words % "manual/navigation.py" for words in told])


class Pages(unittest.TestCase):
    def test_lists_are_indented_by_four(self):
        text = "- a\n  b\n  - c\n    d\n\n1. e\n   - f\n\n     g\n   ```sh\n   h\n     - i\n   ```\n10. k\n    - l\n\nm\n"
        # an item of several parts is followed by an empty line
        wanted = "- a\n    b\n    - c\n        d\n\n1. e\n    - f\n\n        g\n    ```sh\n    h\n      - i\n    ```\n"
        wanted += "\n10. k\n    - l\n\nm\n"
        self.assertEqual(pages.with_lists_indented(text), wanted)

    def test_a_link_out_of_the_site_becomes_its_words(self):
        text = "[a](b.md#c), [d](../e/f.rs), [g](../README.md), [h\ni](https://j.example), [k](#l)"
        wanted = "[a](b.md#c), d, [g](../README.md), [h\ni](https://j.example), [k](#l)"
        self.assertEqual(pages.without_missing_links(text, "docs/m.md", {"docs/b.md", "README.md"}), wanted)
        self.assertEqual(pages.without_missing_links("[a](docs/b.md), ![c](c.png)", "README.md", {"docs/b.md", "c.png"}), "[a](docs/b.md), ![c](c.png)")

    def test_names_of_definitions_become_links(self):
        targets = {"IsBest": "docs/definitions/dam_hour.md"}
        text = "# `IsBest`\n`IsBest`, [`IsBest`](a.md), `IsBester`\n```text\nx : IsBest <\n```\n```sh\nIsBest\n```\n"
        link = "definitions/dam_hour"
        wanted = (f"# `IsBest`\n[`IsBest`]({link}.md#IsBest), [`IsBest`](a.md), `IsBester`\n"
                  f'<pre><code>x : <a href="{link}.html#IsBest">IsBest</a> &lt;\n</code></pre>\n```sh\nIsBest\n```\n')
        self.assertEqual(pages.with_linked_definitions(text, "docs/a.md", targets), wanted)


@unittest.skipUnless(shutil.which("go-md2man"), "go-md2man is missing")
class ManPages(unittest.TestCase):
    def test_no_word_of_a_page_is_lost(self):
        """But for the heads of tables, most of which become lists."""
        for name, made in man_of_formats.capture_man_pages("1.0.0").items():
            text = (TOP / man_of_formats.PAGES[name][0]).read_text(encoding="utf-8").partition("\n")[2]
            text = man_of_formats.OF_CLONES.sub("", pages.LINK.sub(r"\1", re.sub(r"^\|.*\|\n(?=\|[-|]+\|$)", "", text, flags=re.MULTILINE)))
            own = re.sub(r"\]\(#[^)]*\)|^```\w+$", "", with_installed_commands(text), flags=re.MULTILINE).upper()
            shown = re.sub(r"\\(?:f[A-Z]|&|)", "", made.decode()).upper()
            lost = Counter(re.findall(r"\w+", own)) - Counter(re.findall(r"\w+", shown))
            self.assertEqual(lost, Counter(), name)

    def test_lines_fit_on_a_terminal(self):
        """Wide tables are lists: their first cell, and the others with their heads."""
        table = "| Line | When | What to do |\n|---|---|---|\n| `a` | one | two |\n| `b` | three | |\n"
        wide = table.replace("three", "three " * 20).replace("two", "two " * 20)
        self.assertEqual(man_of_formats.TABLE.sub(man_of_formats.as_list_if_wide, table), table)
        listed = f"`a`\n: one; What to do: {'two ' * 20}".rstrip() + f"\n\n`b`\n: {'three ' * 20}".rstrip() + "\n\n"
        self.assertEqual(man_of_formats.TABLE.sub(man_of_formats.as_list_if_wide, wide), listed)
        for name, made in man_of_formats.capture_man_pages("1.0.0").items():
            self.assertIn(f".SH NAME\n.PP\n{name} \\- ", made.decode().replace(" - ", " \\- "))


@NEEDS_MKDOCS
class Made(unittest.TestCase):
    """The site of this clone, which is made once."""

    @classmethod
    def setUpClass(cls):
        cls.room = tempfile.TemporaryDirectory()
        cls.addClassCleanup(cls.room.cleanup)
        cls.folder = Path(cls.room.name, "site")
        cls.ended = run_tool("manual", "--out", cls.folder)
        assert cls.ended[0] == 0, cls.ended
        cls.site = Site.read(cls.folder)

    def page(self, name):
        name = re.sub(r"README\.md$", "index.md", name)
        return self.site.pages[self.site.folder / name.replace(".md", ".html")]

    def capture_definitions(self):
        """Each definition of the list, with its crate, module and sentence."""
        listed = run_tool("reading-list", "--definitions")[1].decode()
        for crate, module, body in re.findall(r"^## `(\w+)/specs/(\w+)\.antt`\n(.*?)(?=^## |\Z)", listed, re.MULTILINE | re.DOTALL):
            yield from ((crate, module, name) for name in re.findall(r"^- `(\S+)`:", body, re.MULTILINE))

    def test_it_is_made_and_made_again(self):
        self.assertEqual(self.ended, (0, f"{self.folder / 'index.html'}\n".encode(), ""))
        self.assertEqual([path for path in self.folder.rglob("*") if path.suffix in (".map", ".xml", ".gz") or path.name == "404.html"], [])

    def test_every_link_leads_somewhere_within(self):
        self.assertGreater(sum(len(page.links) for page in self.site.pages.values()), 5_000)
        self.assertEqual(list(self.site.read_faults()), [])

    def test_scripts_fetch_nothing_from_elsewhere(self):
        """The theme would have fetched fonts, and pages name other addresses only in examples."""
        elsewhere = re.compile(r"(?:fonts\.g|googleapis|cdn\.|src=.https?:)")
        for path in self.site.pages:
            self.assertIsNone(elsewhere.search(path.read_text(encoding="utf-8")), path)

    def test_the_next_pages_lead_through_all_of_it(self):
        page, seen, last = self.page("README.md"), [], None
        while page:
            seen.append(self.site.relative_name(page.path))
            self.assertLessEqual(len(seen), len(self.site.pages))
            before = page.neighbours.get("prev")
            self.assertEqual(before and (page.path.parent / before).resolve(), last, seen[-1])
            last, after = page.path, page.neighbours.get("next")
            page = after and self.site.pages[(page.path.parent / after).resolve()]
        self.assertEqual(sorted(seen), sorted(map(self.site.relative_name, self.site.pages)))

    def test_nothing_of_a_page_is_lost(self):
        """Each block of text, each item of a list and each table of a page are in the site."""
        own = site.read_pages_and_list_pictures()[0]
        for name in [*own, *sorted(navigation.TITLES)]:
            if name == navigation.NOTATION:
                continue
            made, text = self.page(name), own[name]
            blocks = [re.sub(rf"^{block[1]}", "", block[3], flags=re.MULTILINE).strip("\n") for block in pages.FENCED.finditer(text)]
            sentences = pages.FENCED.sub("", pages.COMMENT.sub("", text))
            with self.subTest(name):
                self.assertEqual([block for block in blocks if block not in made.block_texts()], [])
                self.assertEqual(made.items, len(ITEM.findall(sentences)))
                self.assertEqual(made.tables, len(re.findall(r"^ *\|[-|]+\|$", sentences, re.MULTILINE)))

    def test_each_definition_has_its_text_and_links_both_ways(self):
        repository, seen = Repository.read(TOP), 0
        for crate, module, name in self.capture_definitions():
            made = self.page(f"{navigation.DEFINITIONS}/{crate}.md")
            with self.subTest(name, crate=crate):
                self.assertIn(name, made.places)
                self.assertIn(repository.read_definitions(crate, module)[name].strip("\n"), made.block_texts())
            seen += 1
        self.assertGreater(seen, 400)
        self.assertIn("definitions/dam_hour.html#IsBest", self.page("docs/THEOREM.md").links)
        for name in navigation.TITLES.keys() - {navigation.NOTATION}:
            back = f"../{name.removeprefix('docs/').replace('.md', '.html')}"
            for url in self.page(name).links:
                home, _, place = url.partition("#")
                if home.startswith("definitions/") and place:
                    with self.subTest(url, of=name):
                        self.assertIn(back, self.page(f"docs/{home}".replace(".html", ".md")).links)

    def test_a_folder_of_others_is_left_alone(self):
        others = Path(self.room.name, "others")
        others.mkdir()
        (others / "kept").write_text("")
        status, out, err = run_tool("manual", "--out", others)
        self.assertEqual((status, out, err), (3, b"", f"manual: {others} has other files: name a folder that is empty or missing\n"))
        self.assertEqual([path.name for path in others.iterdir()], ["kept"])

    def test_a_missing_package_is_named(self):
        few = Path(self.room.name, "few")
        few.mkdir()
        (few / "python3").symlink_to(sys.executable)
        ran = subprocess.run([sys.executable, TOOLS / "manual"], env={**os.environ, "PATH": str(few)}, capture_output=True, text=True)
        self.assertEqual((ran.returncode, ran.stderr), (5, "manual: it needs mkdocs, which Debian has: apt-get install mkdocs\n"))

    @unittest.skipIf(NO_BROWSER, NO_BROWSER or "")
    def test_it_is_read_and_searched_in_a_browser(self):
        serve = functools.partial(Quiet, directory=str(self.folder))
        with http.server.ThreadingHTTPServer(("127.0.0.1", 0), serve) as server:
            threading.Thread(target=server.serve_forever, daemon=True).start()
            asyncio.run(read(self, f"http://127.0.0.1:{server.server_address[1]}/", WIDTHS))
            asyncio.run(read(self, f"{self.folder.as_uri()}/", [390]))
            server.shutdown()


class Quiet(http.server.SimpleHTTPRequestHandler):
    def log_message(self, *_):
        pass


async def shown(page, url):
    """Opens a page as for the first time."""
    await page.evaluate("localStorage.clear()")
    await page.call_browser("Page.navigate", url=url)
    await page.wait_until(f"location.href === '{url}' && document.readyState === 'complete'")


async def searched(page, words):
    """Searches for words, and opens the first result. While the index is read the search may pass over words, as it does over the same
    again."""
    for _ in range(SECONDS):
        for text in ("", words):
            await page.evaluate("document.querySelector('[data-md-component=search-query]').select()")
            await page.type_text(text)
            await page.press_key("Shift", 16)  # it looks when a key is let go
        for _ in range(10):
            if await page.evaluate("(() => { const link = document.querySelector('.md-search-result__link'); link?.click(); return !!link; })()"):
                return
            await asyncio.sleep(0.1)
    seen = await page.evaluate("[location.href, document.querySelector('.md-search-result__meta').textContent.trim()]")
    raise AssertionError(f"the search finds nothing: {seen}, {page.faults}")


async def read(case, top, widths):
    """Reads the site at some widths, light or dark: pages don't scroll sideways, the search finds, and the navigation leads on."""
    async with browser.running_browser_tab(f"{top}index.html") as page:
        for width in widths:
            await page.set_screen_size(width, scheme := WIDTHS[width])
            for name in WIDE:
                await shown(page, top + re.sub(r"README\.md$", "index.md", name).replace(".md", ".html"))
                case.assertEqual(await page.evaluate("document.body.dataset.mdColorScheme"), SCHEMES[scheme], name)
                case.assertLessEqual(await page.evaluate("document.documentElement.scrollWidth"), width, name)
            await shown(page, f"{top}docs/GUIDE.html")
            await page.evaluate("document.querySelector('label[for=__search]').click()")
            await page.evaluate("document.querySelector('[data-md-component=search-query]').focus()")
            await searched(page, "paradoxically rejected")
            await page.wait_until("location.pathname.endsWith('/docs/RULES.html') && document.readyState === 'complete'")
            await page.wait_until("document.querySelector('article mark')")
            await page.evaluate("document.querySelector('a[rel=next]').click()")
            await page.wait_until("location.pathname.endsWith('/docs/MARKET.html') && document.readyState === 'complete'")
            if width < 500:
                await page.evaluate("document.querySelector('label[for=__drawer]').click()")
            link = "[...document.querySelectorAll('nav a')].find((one) => one.textContent.trim() === 'What if')"
            case.assertTrue(await page.evaluate(f"{link}.checkVisibility()"))
            await page.evaluate(f"{link}.click()")
            await page.wait_until("location.pathname.endsWith('/docs/WHATIF.html') && document.readyState === 'complete'")
        case.assertEqual(page.faults, [])


if __name__ == "__main__":
    unittest.main()
