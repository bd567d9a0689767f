"""The pages on the libraries: that their quotes of programs stand there; and the numbers of the library for C that copy others."""

import re
import unittest

from support import TOP

PAGES = [TOP / "docs" / "LIBRARY.md", TOP / "docs" / "C.md", TOP / "crates" / "dam_gate" / "NOTES.md"]
CRATE = TOP / "crates" / "dam_example"
GATE = TOP / "crates" / "dam_refusals"  # whose program holds a gate by hand
CALLERS = TOP / "tests" / "library"  # of the library for C
BLOCK = re.compile(r"^```(\w+)\n(.*?)^```$", re.MULTILINE | re.DOTALL)
NUMBER = r"([\d_]+)"


def numbers_of_lines(patterns):
    """The numbers that such lines have in each file of the repository."""
    found = {path: re.findall(line, (TOP / path).read_text(), re.MULTILINE) for path, line in patterns.items()}
    return {path: [int(number) for number in numbers] for path, numbers in found.items()}


def quotes(language):
    return [text for page in PAGES for found, text in BLOCK.findall(page.read_text()) if found == language]


class Library(unittest.TestCase):
    def test_code_stands_in_the_crates(self):
        crates = [path for crate in [CRATE, GATE] for path in sorted(crate.glob("src/*.rt"))]
        self.assertGreater(len(quotes("rust")), 5)
        callers = {"c": [CALLERS / "caller.c"], "python": [CALLERS / "caller.py"]}
        for language, paths in {"rust": [*crates, CALLERS / "caller.rs"], **callers}.items():
            self.assertTrue(quotes(language))
            sources = ["\n" + path.read_text() for path in paths]
            for quote in quotes(language):
                with self.subTest(quote):
                    self.assertTrue(any("\n" + quote in source for source in sources), "no source has these lines")

    def test_the_header_and_the_citation_have_the_version_of_the_changelog(self):
        header = (TOP / "library" / "dam.h").read_text()
        newest = re.search(r"^## (\d\S+)", (TOP / "CHANGELOG.md").read_text(), re.MULTILINE)[1]
        self.assertIn(f'#define DAM_VERSION "{newest}"', header)
        self.assertIn(f'\nversion: "{newest}"\n', (TOP / "CITATION.cff").read_text())

    def test_the_most_nodes_are_those_of_a_plan(self):
        sources = {
            "crates/dam_plan/src/plan.rt": rf"^pub const MOST_NODES: NodeCount = {NUMBER};$",
            "library/dam.h": rf"^#define DAM_MOST_NODES UINT\d+_C\({NUMBER}\)$",
            "tools/lib/runs/by_library.py": rf"^MOST_NODES, MOST_ANSWER = {NUMBER}, ",
        }
        found = numbers_of_lines(sources)
        self.assertEqual(found, dict.fromkeys(sources, found["crates/dam_plan/src/plan.rt"]))
        self.assertEqual(len(found["crates/dam_plan/src/plan.rt"]), 1)

    def test_callers_have_the_longest_answer_of_the_header(self):
        of_python = rf"^MOST_NODES, MOST_ANSWER = [\d_]+, {NUMBER}\b"
        sources = {
            "library/dam.h": rf"^#define DAM_MOST_ANSWER {NUMBER}$",
            "tools/lib/runs/by_library.py": of_python,
            "tests/library/caller.py": of_python,
            "tests/library/caller.rs": rf"^const MOST_ANSWER: usize = {NUMBER};$",
        }
        found = numbers_of_lines(sources)
        self.assertEqual(found, dict.fromkeys(sources, found["library/dam.h"]))
        self.assertEqual(len(found["library/dam.h"]), 1)

    def test_texts_are_the_line_of_the_crate_and_what_it_prints(self):
        line = next(line for line in (TOP / "crates.txt").read_text().splitlines() if line.startswith("dam_example:"))
        self.assertEqual(quotes("text"), [f"{line}\n", (CRATE / "stdout").read_text()])


if __name__ == "__main__":
    unittest.main()
