"""The pages: that links lead somewhere, that lines and cells can be read, that files and definitions which they name are there, and that
README's first example is printed."""

import re
import shlex
import subprocess
import sys
import tempfile
import unittest
from pathlib import Path

from support import AUCTION, AUCTION_RESULTS, SUNNY, TOP, book, journal, read_results, run_tool, selection

from lib.audit import recursive_enumeration
from lib.crates.specs import Repository
from shared.docs_pages import read_links, read_prose

NOTED = ("bench", "tests", "tools", "package")  # folders with a page of their own
CRATES = sorted(path for path in (TOP / "crates").iterdir() if (path / "src").is_dir())
PAGES = [TOP / "README.md", TOP / "CHANGELOG.md", *sorted((TOP / "docs").glob("*.md")), *sorted((TOP / "crates").glob("*/*.md"))]
PAGES += [*sorted((TOP / "crates").glob("*.md")), TOP / "tests" / "RUNS.md", *(TOP / folder / "NOTES.md" for folder in NOTED)]
MOST_CELL_CHARACTERS = 200  # characters of a cell
WIDEST = 140  # columns of a line that isn't of a table
# The files with comments, which are as wide at most.
COMMENTED = ["check", "dam", "bench/run", "bench/compare-programs", "library/build", "library/dam.h", "library/heap.c"]
COMMENTS = ["crates/*/src/**/*.rt", "crates/*/specs/**/*.antt", "crates/*/proofs/**/*.antt", "tests/**/*.test", "tests/**/*.py", "tests/*/run"]
COMMENTS += ["tests/run-*", "tests/shared/*.sh", "tools/*", "tools/**/*.py", "tools/tests/*.sh", "tools/lib/**/*.js", "bench/*.py", "bench/parts/*.py"]
COMMENTS += ["bench/probe/**/*.bench", "docs/drawings/*.py", "package/*.py"]
COMMENT = re.compile(r"\s*(#|//|--|/\*| \* )")
# The words for which the house rule of English has others, apart from the table of that rule.
OTHER_WORDS = re.compile(r"\b(anew|beside|dear|so many|want of|whoever)\b", re.IGNORECASE)
# Pages whose sentences with 'what' aren't looked at: examples, and sentences that stand in sources.
OTHER_PAGES = {"CONTRIBUTING.md", "CHECK.md", "OPERATING.md", "DEFINITIONS.md"}
# The most bytes of a page that has parts which a script writes, with these.
MOST_IN_ALL = {"THEOREM.md": 15_200}
# The most bytes of README and docs/ together: a page that says more says so in place of another.
MOST_OF_ALL = 235_520
# The most bytes of a page, without the parts that a script writes. A page that grows beyond is split, or says things twice.
MOST_BYTES = {
    "README.md": 7_168,
    "ARCHITECTURE.md": 3_000,
    "ASSURANCE.md": 18_432,
    "AUDIT.md": 8_704,
    "BOUND.md": 3_900,
    "C.md": 6_144,
    "CHECK.md": 6_656,
    "CONTRIBUTING.md": 10_240,
    "DECISIONS.md": 3_800,
    "DEFINITIONS.md": 3_900,
    "DESK.md": 7_168,
    "EXAMPLES.md": 5_888,
    "FORMATS.md": 18_944,
    "GLOSSARY.md": 3_400,
    "GUIDE.md": 12_300,
    "LIBRARY.md": 5_376,
    "MARKET.md": 8_192,
    "MEASURED.md": 8_000,
    "OPERATING.md": 7_200,
    "PYTHON.md": 6_200,
    "RULES.md": 10_640,
    "TABLES.md": 13_700,
    "TESTED.md": 6_656,
    "TRUST.md": 11_500,
    "USING.md": 8_704,
    "WHATIF.md": 6_912,
}
WRITTEN = re.compile(r"<!-- the (.*?): tools/reading-list --write -->.*?<!-- the end of the \1 -->", re.DOTALL)
# The headings of a crate's README.
HEADINGS = ["For whom", "Use", "Promises of its contracts", "Only tested", "Out of its scope"]
SCREEN = 45  # lines
IN_A_ROW = 9  # words that two pages may not share
# Each word of the code and of the definitions.
SOURCES = {
    word
    for crate in CRATES
    for folder, ending in (("src", "rt"), ("specs", "antt"))
    for path in (crate / folder).rglob(f"*.{ending}")
    for word in re.findall(r"\w+", path.read_text())
}
# The table of a crate's files in its notes.
FILES = re.compile(r"^\| File of `src/` \| Contents \|\n\|---\|---\|\n((?:\|.*\n)+)", re.MULTILINE)
# The section of the facts in the notes on the tests, a row of its table, and the path and the names of some tests in a cell.
TESTED = re.compile(r"^## How facts are tested\n(.*?)^## ", re.MULTILINE | re.DOTALL)
ROW_OF_FACT = re.compile(r"^\| .*\| (.+) \| (.+) \|$", re.MULTILINE)
TESTS = re.compile(r"`([^`]+)`(?:: ([^;]+))?")
EXAMPLE = re.compile(r"^```text\n(day,24\nwelfare.*?)^```$", re.MULTILINE | re.DOTALL)


def commented_files():
    files = [path for path in map(TOP.joinpath, COMMENTED) if path.is_file()]
    return files + [path for pattern in COMMENTS for path in sorted(TOP.glob(pattern)) if path.is_file() and "out" not in path.parts]


def comments(path):
    """The lines of a file's comments, and of its strings of several lines if it is in Python."""
    text = path.read_text(errors="replace")
    strings = re.findall(r'"""(.*?)"""', text, re.DOTALL) if path.suffix == ".py" or text.startswith("#!/usr/bin/env python3") else []
    return [line for line in text.splitlines() if COMMENT.match(line)] + [line for string in strings for line in string.splitlines()]


def sections(page):
    """The names that the section of each file has on the page of definitions."""
    found = re.findall(r"^## `(\w+)/specs/(\w+)\.antt`\n(.*?)(?=^## |\Z)", page, re.M | re.S)
    return {(crate, module): set(re.findall(r"^- `(\S+)`: .", body, re.M)) for crate, module, body in found}


def files_of_tests(path):
    """The files that a path of the notes on the tests is of: one in Rattle, a crate of tests, or a file or folder of the repository."""
    rattle = TOP / "tests" / "rattle"
    places = [rattle / "dam_tests" / "src" / f"{path}.rt.test", rattle / f"{path}.rt.test", rattle / path, TOP / path]
    return [file for place in places for file in [place, *place.rglob("*")] if file.is_file()]


def rows_of_words(page):
    """Each row of `IN_A_ROW` words in a sentence or cell of a page."""
    for part in re.sub(r"\]\([^)]*\)", "", read_prose(page)).replace("`", "").split("|"):
        words = re.findall(r"[\w'.:/-]+", part)
        for at in range(len(words) - IN_A_ROW + 1):
            yield " ".join(words[at : at + IN_A_ROW])


class Pages(unittest.TestCase):
    def test_links_lead_to_a_file_and_a_heading(self):
        for page in PAGES:
            for link, wrong in read_links(page):
                with self.subTest(page=page.name, link=link):
                    self.assertIsNone(wrong)

    def test_cells_of_tables_are_short(self):
        for page in PAGES:
            for line in read_prose(page).splitlines():
                if line.startswith("|"):
                    for cell in line.strip("|").split("|"):
                        with self.subTest(page=page.name, cell=cell[:40]):
                            self.assertLessEqual(len(cell.strip()), MOST_CELL_CHARACTERS)

    def test_tables_have_a_head(self):
        for page in PAGES:
            for table in re.findall(r"(?:^\|.*\n)+", read_prose(page), re.MULTILINE):
                with self.subTest(page=page.name, table=table[:40]):
                    self.assertRegex(table, r"\A\|.*\n\|[-|]+\n\|")

    def test_lines_are_not_too_wide(self):
        for page in PAGES:
            for line in page.read_text().splitlines():
                if not line.startswith("|"):
                    with self.subTest(page=page.name, line=line[:40]):
                        self.assertLessEqual(len(line), WIDEST)

    def test_lines_of_comments_are_not_too_wide(self):
        self.assertIn(f"Lines of comments and pages have at most {WIDEST} columns", (TOP / "docs" / "CONTRIBUTING.md").read_text())
        files = commented_files()
        self.assertGreater(len(files), 500)
        for path in files:
            for number, line in enumerate(path.read_text(errors="replace").splitlines(), 1):
                if COMMENT.match(line):
                    with self.subTest(path=str(path.relative_to(TOP)), line=number):
                        self.assertLessEqual(len(line), WIDEST)

    def test_pages_stay_short(self):
        for name, most in MOST_BYTES.items():
            (page,) = (page for page in PAGES if page.name == name and page.parent in (TOP, TOP / "docs"))
            with self.subTest(page=name):
                self.assertLessEqual(len(WRITTEN.sub("", page.read_text()).encode()), most)
        for name, most in MOST_IN_ALL.items():
            with self.subTest(page=name):
                self.assertLessEqual((TOP / "docs" / name).stat().st_size, most)

    def test_the_manual_stays_short(self):
        pages = [TOP / "README.md", *(TOP / "docs").glob("*.md")]
        self.assertLessEqual(sum(page.stat().st_size for page in pages), MOST_OF_ALL)

    def test_no_sentence_stands_on_two_pages(self):
        homes = {}
        for page in [TOP / "README.md", *sorted((TOP / "docs").glob("*.md"))]:
            for words in rows_of_words(page):
                with self.subTest(page=page.name, words=words):
                    self.assertEqual(homes.setdefault(words, page), page)

    def test_words_of_the_house_rule(self):
        for page in PAGES:
            for line in page.read_text().splitlines():
                if not (page.name == "CONTRIBUTING.md" and line.lstrip().startswith("|")):
                    with self.subTest(page=page.name, line=line[:40]):
                        self.assertIsNone(OTHER_WORDS.search(line))

    def test_words_of_the_house_rule_in_comments(self):
        for path in commented_files():
            with self.subTest(path=str(path.relative_to(TOP))):
                self.assertEqual([line for line in comments(path) if OTHER_WORDS.search(line)], [])

    def test_what_is_not_a_noun(self):
        """In sentences, 'what' only asks; headings, tables, quotes and the pages with examples of the rule are left out."""
        for page in PAGES:
            if page.name not in OTHER_PAGES:
                lines = (line for line in read_prose(page).splitlines() if not line.lstrip().startswith(("|", "#", "- [")))
                text = WRITTEN.sub("", "\n".join(lines))
                text = re.sub(r"`[^`]*`|\]\([^)]*\)|\[[^\]]*\?\]", "", text)
                for sentence in re.split(r"(?<=[.:;?])\s", text):
                    with self.subTest(page=page.name, sentence=sentence[:60]):
                        self.assertTrue(sentence.endswith("?") or not re.search(r"\b[Ww]hat\b(?! if\b)", sentence))

    def test_each_crate_has_a_readme_of_a_screen(self):
        for crate in CRATES:
            with self.subTest(crate=crate.name):
                page = (crate / "README.md").read_text()
                self.assertTrue(page.startswith(f"# {crate.name}: "))
                # a crate without notes names its files here
                own = [] if (crate / "NOTES.md").exists() else ["Files"]
                self.assertIn(re.findall(r"^## (.*)$", page, re.MULTILINE), (HEADINGS, HEADINGS + own))
                self.assertLessEqual(len(page.splitlines()), SCREEN)

    def test_what_a_crates_readme_names_is_there(self):
        for crate in CRATES:
            for word in re.findall(r"`(\w+(?:::\w+)*)`", (crate / "README.md").read_text()):
                with self.subTest(crate=crate.name, word=word):
                    self.assertTrue((TOP / "crates" / word).exists() or word.split("::")[-1] in SOURCES)

    def test_the_names_of_code_on_pages_are_there(self):
        """A crate of the kit and a package that tests need have names, too. A function is in a file with its type, or in its module."""
        others = set(re.findall(r"\w+", (TOP / "crates.txt").read_text() + (TOP / "tests" / "debian-packages").read_text()))
        sources = {path: path.read_text() for path in (TOP / "crates").glob("*/src/**/*.rt")}
        functions = {(home, name) for path, text in sources.items() for name in re.findall(r"\bfn (\w+)", text)
                     for home in {path.stem, *re.findall(r"\b[A-Z]\w+", text)}}
        modules = {(path.parts[-3], path.stem) for path in sources}
        for page in ("ARCHITECTURE", "ASSURANCE", "BOUND", "TESTED", "THEOREM"):
            for word in re.findall(r"`(\w+(?:::\w+)*)`", (TOP / "docs" / f"{page}.md").read_text()):
                *_, home, name = "", *word.split("::")
                with self.subTest(page=page, word=word):
                    self.assertIn(name, SOURCES | others)
                    self.assertTrue(not home or (home, name) in functions | modules)

    def test_the_files_that_notes_name_are_there(self):
        notes = sorted(path for path in (TOP / "crates").glob("*/*.md") if "The files of `src/`" in path.read_text())
        self.assertGreater(len(notes), 2)
        for path in notes:
            files = re.search(r"^The files of `src/`: (.*?)\n\n|\Z", path.read_text() + "\n", re.MULTILINE | re.DOTALL)[1] or ""
            for name in re.findall(r"(?:^|; |, |and )`(\w+)`", re.sub(r"\([^)]*\)", "", files).replace("\n", " ")):
                with self.subTest(path.parent.name, name=name):
                    self.assertTrue((path.parent / "src" / f"{name}.rt").exists())

    def test_the_tables_of_notes_have_each_file(self):
        tables = {path: FILES.search(path.read_text()) for path in sorted((TOP / "crates").glob("*/NOTES.md"))}
        tables = {path: found[1] for path, found in tables.items() if found}
        self.assertGreater(len(tables), 9)
        for path, rows in tables.items():
            named = sorted(name for cell in re.findall(r"^\| (.*?) \|", rows, re.MULTILINE) for name in re.findall(r"`(\w+)`", cell))
            with self.subTest(path.parent.name):
                self.assertEqual(named, sorted(file.stem for file in (path.parent / "src").glob("*.rt") if file.stem != "lib"))

    def test_the_tests_of_facts_are_there(self):
        """Each section of the page has rows. A name after a path is a function there, or a part of the tests."""
        page = TOP / "docs" / "TESTED.md"
        section = TESTED.search((TOP / "tests" / "NOTES.md").read_text())[1]
        self.assertEqual(section.count(f"](../docs/{page.name}#"), page.read_text().count("\n## "))
        rows = ROW_OF_FACT.findall(section)[1:]
        self.assertGreater(len(rows), 60)
        for fact, cell in rows:
            with self.subTest(fact=fact):
                self.assertTrue(TESTS.search(cell) or cell.startswith("by hand"))
            for path, names in TESTS.findall(cell):
                texts = [file.read_text(errors="replace") for file in files_of_tests(path)]
                with self.subTest(fact=fact, path=path):
                    self.assertGreater(len(texts), 0)
                for name in re.findall(r"`(\w+)`", names):
                    with self.subTest(fact=fact, path=path, name=name):
                        self.assertRegex("\n".join(texts), rf'\b(fn|def) {name}\(|"{name}": \w')

    def test_the_first_example_is_printed(self):
        lines = read_results(SUNNY).decode().splitlines()
        quoted = [line.split("  ")[0] for line in EXAMPLE.search((TOP / "README.md").read_text())[1].splitlines() if line != ".."]
        self.assertGreater(len(quoted), 4)
        self.assertEqual(quoted, [line for line in lines if line in quoted])

    def test_the_first_journal_is_that_of_the_example(self):
        """README's lines of a journal are in it, in order, and the book refuses the one that is said to be refused, and no other."""
        quoted = re.search(r"^```text\n(day,24,.*?)^```$", (TOP / "README.md").read_text(), re.MULTILINE | re.DOTALL)[1].splitlines()
        lines, commands = SUNNY.read_text().splitlines(), [line.split("  ")[0] for line in quoted]
        self.assertEqual((len(commands), commands), (6, [line for line in lines if line in commands]))
        _, reasons = book.book_and_refusals(journal.parse_journal(SUNNY.read_bytes()))
        refused = [lines[place + 1] for place, reason in enumerate(reasons) if reason]
        self.assertEqual(refused, [line.split("  ")[0] for line in quoted if "  refused: " in line])

    def test_the_files_of_the_demo(self):
        """GUIDE.md names the files that the office's page saves."""
        page, pages = (TOP / "docs" / "GUIDE.md").read_text(), TOP / "tools" / "lib" / "pages"
        self.assertIn("save(await ask(own(\"receipts\")), \"application/jsonl\", `${who()}-${state.day}.jsonl`)", (pages / "office.js").read_text())
        self.assertIn("`GAS-DAY.jsonl`", page)
        for name in re.findall(r'<a [^>]*download="([\w.]+)"', (pages / "office.html").read_text()):
            if name != "journal.csv":
                self.assertIn(f"`{name}`", page)

    def test_the_table_of_orders_makes_a_journal(self):
        table = re.search(r"```text\n(participant,order,.*?)```", (TOP / "docs" / "USING.md").read_text(), re.DOTALL)[1]
        status, made, said = run_tool("table", "--journal", "-", data=table.encode())
        self.assertEqual((status, said), (0, ""))
        closed, reasons = book.book_and_refusals(journal.parse_journal(made))
        self.assertEqual(reasons, [None] * len(table.splitlines()))
        problem = selection.Problem(closed)
        found, _ = recursive_enumeration.search_recursively(problem)
        prices = {number: cleared.price for number, cleared in selection.outcome(problem, found.accepted).cleared.items()}
        self.assertEqual((found.accepted, prices[8], prices[9]), (frozenset({0, 1}), 9_500, 9_500))

    def test_the_recipe_for_many_days(self):
        """A day that can't be cleared is named and leaves nothing; the others are audited."""
        (recipe,) = re.findall(r"```sh\n([^\n]*xargs.*?)```", (TOP / "docs" / "USING.md").read_text(), re.DOTALL)
        with tempfile.TemporaryDirectory() as folder:
            Path(folder, "days").mkdir()
            Path(folder, "tools").symlink_to(TOP / "tools")
            answer = f'if grep -q "^day,24,"; then cat "{AUCTION_RESULTS}"; else echo input: NotDay >&2; exit 1; fi'
            Path(folder, "dam").write_text(f"#!/bin/sh\n{answer}\n")
            Path(folder, "dam").chmod(0o755)
            for name, data in ("a", AUCTION.read_bytes()), ("b", b"x\n"), ("c d", AUCTION.read_bytes()), ("o'e", AUCTION.read_bytes()):
                Path(folder, "days", f"{name}.csv").write_bytes(data)
            Path(folder, "days", "b.txt").write_bytes(b"of an earlier run\n")
            python = f"{shlex.quote(sys.executable)} -B tools/audit"
            ran = subprocess.run(["sh", "-c", recipe.replace("tools/audit", python)], cwd=folder, capture_output=True, text=True)
            self.assertEqual(ran.returncode, 3, ran.stderr)
            self.assertEqual(sorted(ran.stderr.splitlines()), ["days/b.csv was not cleared", "input: NotDay"])
            self.assertEqual([line.split()[:2] for line in ran.stdout.splitlines()[1:3]], [["a", "right"], ["b", "unread"]])
            self.assertIn("3 right, 1 unread", ran.stdout)
            names = {path.name for path in Path(folder, "days").iterdir()}
            self.assertEqual(names, {"a.csv", "a.txt", "b.csv", "c d.csv", "c d.txt", "o'e.csv", "o'e.txt"})
            cleared = recipe.replace("tools/audit --best --days days", "")
            self.assertEqual(subprocess.run(["sh", "-c", cleared], cwd=folder, capture_output=True).returncode, 123)

    def test_the_refused_commands_are_refused(self):
        text = (TOP / "docs" / "USING.md").read_text()
        quoted = re.search(r"replay < examples/(\S+) \| grep refused\n```\n\n```text\n(.*?)```", text, re.DOTALL)
        read = journal.parse_journal((TOP / "examples" / quoted[1]).read_bytes())
        self.assertEqual(quoted[2].splitlines(), [line for line in book.replies_text(read).splitlines() if "refused" in line])


class Definitions(unittest.TestCase):
    def test_each_that_a_public_contract_cites_is_on_the_page(self):
        status, page, _ = run_tool("reading-list", "--definitions")
        self.assertEqual(status, 0)
        on_page = sections(page.decode())
        cited = {(node, function) for node, function in Repository.read(TOP).read_cited()}
        self.assertGreater(len(cited), 300)
        for (crate, _, module, name), function in sorted(cited):
            with self.subTest(f"{name} of {crate}, by {function}"):
                self.assertIn(name, on_page.get((crate, module), ()))


if __name__ == "__main__":
    unittest.main()
