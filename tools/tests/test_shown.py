"""Pages that show commands, which tests/commands/run runs: each text of a scene is on its page, and an output that differs is found. Each
number of TRUST.md is among what its section's commands print, and the orders that GUIDE.md quotes are in its journals."""

import re
import sys
import tempfile
import unittest
import unittest.mock
from pathlib import Path

from support import TOP

from lib.journal import book, journal
from shared import docs_page_session
from shared.counts import Counts
from shared.shown import quoted_pairs

from shared.docs_page_scenes import BOTH, CLONE, INSTALLED, PAGES, Out, Scene, Span

TRUST, GUIDE = TOP / "docs" / "TRUST.md", TOP / "docs" / "GUIDE.md"
NUMBER = re.compile(r"(?<![\w.-])-?\d[\d,]*(?:\.\d+)?(?![\w-])")
HIDDEN = re.compile(r"^```.*?^```$|`[^`\n]*`|\]\([^)]*\)|Python 3\.\d+", re.MULTILINE | re.DOTALL)  # the parts that aren't prose
PAGE = """
```sh
echo one
man dam
echo two
```

```text
one
two
```
"""


def numbers(text):
    """The sizes of the numbers of a text, regardless of the digits after the point and the commas between thousands."""
    return {abs(float(number.replace(",", ""))) for number in NUMBER.findall(text)}


class Scenes(unittest.TestCase):
    def run_page(self, scene, page=PAGE, form=CLONE):
        """How many blocks of a page passed, and how many failed."""
        counts = Counts()
        with unittest.mock.patch.dict(PAGES, {"page.md": scene}), tempfile.TemporaryDirectory() as folder:
            room = Path(folder).resolve()
            (room / "home").mkdir()
            (room / "page.md").write_text(page)
            reader = docs_page_session.PageReader(form, room, [], docs_page_session.make_environment_with_browser(room / "home", {"PATH": "/usr/bin:/bin"}))
            docs_page_session.run_check_and_return_outputs(counts, "page.md", reader, room)
        return counts.passed, counts.failed

    def test_each_text_is_on_its_page(self):
        for name in PAGES:
            for form in BOTH:
                with self.subTest(name, form=form):
                    self.assertTrue(list(docs_page_session.steps_or_raise(name, (TOP / name).read_text(), form)))

    def test_a_line_that_is_left_out(self):
        out = Out("why")
        self.assertEqual(self.run_page(Scene(left_out={"man dam": out})), (1, 0))
        self.assertEqual(self.run_page(Scene(left_out={"man dam": Out("why", (INSTALLED,))}), form=INSTALLED), (1, 0))
        # the page hasn't got the line any more, or a part of the quote isn't printed
        self.assertEqual(self.run_page(Scene(left_out={"man dam": out, "man other": out})), (0, 1))
        self.assertEqual(self.run_page(Scene(left_out={"man dam": out}), PAGE.replace("two\n```\n\n", "2\n```\n\n")), (0, 1))

    def test_what_fails(self):
        right = PAGE.replace("man dam\n", "")
        self.assertEqual(self.run_page(Scene(), right), (1, 0))
        for scene, page in (
            (Scene(), right.replace("\none\n", "\n1\n")),
            (Scene(), right.replace("two\n```\n\n", "two\nfalse\n```\n\n")),
            (Scene(), right.replace("two\n```\n\n", "two\necho note >&2\n```\n\n")),
            (Scene(says={"echo": "note"}), right),
            (Scene(given={"echo 3": "true"}), right),
            (Scene(edits={"echo 3": "echo 4"}), right),
        ):
            with self.subTest(scene=scene, page=page):
                self.assertEqual(self.run_page(scene, page), (0, 1))
        self.assertEqual(self.run_page(Scene(given={"echo": "false"}), right), (0, 2))
        self.assertEqual(self.run_page(Scene(then={"echo": "false"}), right), (1, 1))

    def test_a_command_of_a_sentence(self):
        page = "Run `tools/table --version`, or `cat lines`.\n"
        for span, found in (({}, (2, 0)), ({"status": 1}, (1, 1)), ({"says": "note"}, (1, 1))):
            with self.subTest(span):
                self.assertEqual(self.run_page(Scene(spans={"cat lines": Span(**span)}, for_spans="echo 1 > lines"), page), found)
        self.assertEqual(self.run_page(Scene(spans={"cat words": Span()}), page), (0, 1))
        self.assertEqual(self.run_page(Scene(spans={"cat lines": Span()}, left_out={"cat": Out("why")}), page), (1, 0))
        command = "echo 'test $1 = --version' > dam-table && chmod +x dam-table && PATH=.:$PATH"
        installed = Scene(spans={"tools/table --version": Span()}, for_spans=command)
        self.assertEqual(self.run_page(installed, page, INSTALLED), (2, 0))

    def test_a_line_of_which_the_beginning_is_shown(self):
        for quoted, is_same in (("one\nt [cut]\n", True), ("one\nx [cut]\n", False), ("o [cut]\n", False)):
            with self.subTest(quoted):
                self.assertEqual(docs_page_session.is_as_quoted("one  \ntwo\n", quoted, True), is_same)


class Shown(unittest.TestCase):
    def test_each_number_of_trust_is_printed(self):
        checked = 0
        for section in re.split(r"^## ", TRUST.read_text(), flags=re.MULTILINE):
            printed = set().union(*(numbers(quoted or "") for _, quoted in quoted_pairs(section)))
            said = numbers(HIDDEN.sub("", section))
            with self.subTest(section.splitlines()[0]):
                self.assertLessEqual(said, printed)
            checked += len(said)
        self.assertGreater(checked, 10)

    def test_the_journals_of_the_guide(self):
        """Each is valid, and has the orders that its step quotes."""
        steps = re.findall(r"^## (\d)\. .*?\n(.*?)(?=^## )", GUIDE.read_text(), re.MULTILINE | re.DOTALL)
        self.assertEqual(len(steps), 7)
        for number, text in steps:
            (path,) = (TOP / "examples" / "guide").glob(f"{number}-*.csv")
            with self.subTest(path.name):
                closed, reasons = book.book_and_refusals(journal.parse_journal(path.read_bytes()))
                self.assertEqual(set(reasons), {None})
                lines = path.read_text().splitlines()
                quoted = re.findall(r"^submit,.*$", text, re.MULTILINE)
                self.assertTrue(quoted)
                self.assertEqual(quoted, [line for line in lines if line in quoted])
                self.assertIn(f"examples/guide/{path.name}", text)


if __name__ == "__main__":
    unittest.main()
