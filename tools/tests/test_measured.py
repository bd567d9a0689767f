"""The page of measured figures: that it is made of the kept figures, and how a part's figures are taken over."""

import ast
import os
import re
import runpy
import sys
import tempfile
import unittest
import unittest.mock
from pathlib import Path

from support import TOP

sys.path.insert(0, f"{TOP}/bench")
import page
import records
from figures import MIB, PER_SECOND, Figure, Verdict, multiple_text, seconds_text
from parts import PARTS
from running import BenchFault

THE_TWIN = "dam clear compared with the twin"
ROWS = [
    ["clear", "dam clear", "base 24, spread 50, seed 1", "2 ms", "1 to 3 ms", "at most 9 ms", "holds", "", "0.002"],
    ["clear", "dam clear", "base 96, spread 50, seed 1", "8 ms", "one run", "at most 9 ms", "holds", "", "0.008"],
    ["twin", THE_TWIN, "base 96, spread 50, seed 1", "2.46 x", "2.31 to 2.5 x", "at most 2.00 x", "MISSED", "8.1 ms", "2.46"],
    ["twin", THE_TWIN, "base 24, spread 50, seed 1", "2.70 x", "1.31 to 2.9 x", "at most 2.00 x", "unclear", "2.7 ms", "2.7"],
    ["enumeration", "the worst", "base 96, spread 50, seed 1", "0.03 x", "0.02 to 0.04 x", "at most 0.10 x", "holds", "2 books", "0.03"],
]


def defined_in(path):
    """The names that a module defines or imports."""
    found = set()
    for node in ast.parse(path.read_text(encoding="utf-8")).body:
        if isinstance(node, (ast.FunctionDef, ast.ClassDef)):
            found.add(node.name)
        elif isinstance(node, (ast.Import, ast.ImportFrom)):
            found.update((alias.asname or alias.name).split(".")[0] for alias in node.names)
        else:
            found.update(name.id for name in ast.walk(node) if isinstance(name, ast.Name) and isinstance(name.ctx, ast.Store))
    return found


class Benchmarks(unittest.TestCase):
    def test_each_imports_what_another_defines(self):
        """`./check` doesn't run them, so nothing else shows that a renamed function is still imported by its old name."""
        modules = {path.stem: path for folder in (records.BENCH, records.BENCH / "parts") for path in folder.glob("*.py")}
        for name, path in modules.items():
            nodes = list(ast.walk(ast.parse(path.read_text(encoding="utf-8"))))
            imported = {alias.name for node in nodes if isinstance(node, ast.Import) for alias in node.names} & modules.keys()
            for node in nodes:
                if isinstance(node, ast.ImportFrom) and node.module in modules:
                    with self.subTest(name, imports=node.module):
                        self.assertLessEqual({alias.name for alias in node.names}, defined_in(modules[node.module]))
                elif isinstance(node, ast.Attribute) and isinstance(node.value, ast.Name) and node.value.id in imported:
                    with self.subTest(name, names=f"{node.value.id}.{node.attr}"):
                        self.assertIn(node.attr, defined_in(modules[node.value.id]))


class Measured(unittest.TestCase):
    def test_the_page_is_made_of_the_kept_figures(self):
        self.assertEqual(page.PAGE.read_text(encoding="utf-8"), page.read_and_compose_page())

    def test_every_kept_file_is_of_a_part(self):
        self.assertEqual({path.stem for path in records.RECORDED.iterdir()}, {*PARTS, "parts"})
        self.assertEqual(set(records.read_part_records()), set(PARTS))

    def test_a_row_that_is_read_is_written_again(self):
        for part in PARTS:
            for row in records.read_table(records.RECORDED / f"{part}.csv"):
                self.assertEqual(records.row_of_figure(records.parse_figure(row)), list(row.values()))

    def test_a_busy_machine_records_nothing(self):
        idle, busy = (records.PartRecord("deep", "", "", "8 processors (x)", load, "", "") for load in ("2.00 9.00 9.00", "2.01 0.50 0.50"))
        self.assertEqual([idle.is_of_busy_machine(), busy.is_of_busy_machine()], [False, True])
        with unittest.mock.patch.object(sys, "path", list(sys.path)):
            main = runpy.run_path(f"{TOP}/bench/run", run_name="run")["main"]
        own = {"exec_or_require_packages": lambda parts: None, "capture_part_record": lambda name, packages: busy, "build_program": None}
        with unittest.mock.patch.dict(main.__globals__, own), unittest.mock.patch.object(sys, "argv", ["run", "deep"]):
            with unittest.mock.patch.dict(os.environ), self.assertRaisesRegex(BenchFault, "^the load is 2.01 0.50 0.50, more than one for"):
                for name in ("DAM", "DAM_DESK", "PROBE"):
                    os.environ.pop(name, None)
                main()

    def test_every_part_is_registered(self):
        """Under the name of its module, with programs that are built, and a first paragraph that is one sentence."""
        self.assertEqual({path.stem for path in (records.BENCH / "parts").glob("*.py")}, {*PARTS, "__init__"})
        for part in PARTS.values():
            self.assertEqual(part.measure.__module__, f"parts.{part.name}")
            self.assertRegex(part.subject.replace("\n", " "), r"\A[A-Z](?:[^.]|\.\d)*\.\Z")
            for program in part.programs:
                self.assertTrue(program in ("dam", "desk", "probe") or (records.BENCH / "plain" / f"{program}.rs").exists(), program)

    def test_every_figure_is_one_that_its_part_measures(self):
        """A part has a target for each key, or for its first word; and for each target it has a figure."""
        for part in PARTS.values():
            keys = {figure.key for figure in records.read_figures(part.name)}
            of_targets = {key if key in part.targets else key.partition("/")[0] for key in keys}
            self.assertEqual(of_targets, {*part.targets}, part.name)

    def test_the_target_of_every_figure_is_that_of_its_part(self):
        for part in PARTS.values():
            figures = [figure for figure in records.read_figures(part.name) if figure.target]
            for figure in figures:
                target = part.targets.get(figure.key) or part.targets[figure.key.partition("/")[0]]
                self.assertIn(figure.target, [target.text(shown) for shown in (seconds_text, multiple_text, MIB, PER_SECOND)])

    def test_every_figure_has_quartiles_or_none_were_recorded(self):
        for part in PARTS:
            for figure in records.read_figures(part):
                self.assertRegex(figure.quartiles, r"\A(one run|.* to .*|)\Z", figure)
                self.assertEqual(figure.verdict is Verdict.NONE, not figure.target, figure)

    def test_the_keys_of_a_part_are_different(self):
        """Those of one book, or of none."""
        for part in PARTS:
            keys = [(figure.key, figure.variant) for figure in records.read_figures(part)]
            self.assertEqual(len(set(keys)), len(keys), part)

    def test_every_missed_target_is_counted(self):
        """In the row of its kind, whose value has its own between its ends."""
        text, total = page.PAGE.read_text(encoding="utf-8"), 0
        for part in PARTS:
            wrong = [figure for figure in records.read_figures(part) if figure.is_wrong]
            (section,) = re.findall(rf"^## `bench/run {part}`\n(.*?)(?=^## |\Z)", text, re.MULTILINE | re.DOTALL)
            rows = re.findall(r"^\| ([^|]*) \| ([^|]*) \| (at [^|]*) \| ([^|]+) \|$", section, re.MULTILINE)
            with self.subTest(part):
                for verdict in (Verdict.MISSED, Verdict.UNCLEAR):
                    counts = [re.search(rf"(?:(\d+) |\*\*){verdict.value}", missed) for *_, missed in rows]
                    said = sum(int(count[1] or 1) for count in counts if count)
                    self.assertEqual(said, sum(figure.verdict == verdict for figure in wrong))
                for figure in wrong:
                    names = figure.name, figure.whole_name
                    self.assertTrue(any(name in names and target == figure.target for name, _, target, _ in rows))
                for name, value, target, missed in rows:
                    worst = missed.partition("worst: ")[2]
                    of_kind = [figure for figure in wrong if name in (figure.name, figure.whole_name) and figure.target == target]
                    found = [figure for figure in of_kind if not worst or figure.variant == worst]
                    self.assertTrue(any(figure.value.removeprefix("> ").split(" ")[0] in value for figure in found), (name, value))
            total += len(wrong)
        self.assertGreater(total, 10)

    def test_the_readme_has_the_slowest_of_the_measured_books(self):
        figures = [figure for figure in records.read_figures("deep") if figure.key == "clear"]
        plain = " ".join((TOP / "README.md").read_text(encoding="utf-8").split())
        ((count, said),) = re.findall(r"The slowest of (\d+) .*? deep books of 24 blocks took (\S+) ms\.", plain)
        self.assertEqual((count, said), (str(len(figures)), f"{max(figure.sort_key for figure in figures) * 1e3:.0f}"))

    def test_a_value(self):
        """Of one figure with its quartiles, if it has some, and of several from the least to the greatest."""
        def said(*values, quartiles=""):
            figures = [Figure("", "", "", value, quartiles, "", Verdict.NONE, "it failed", median) for median, value in values]
            return page.value_text(figures)

        self.assertEqual(said((1.9, "1.90 x"), (1.2, "1.20 x"), (1.5, "1.50 x")), "1.20 to 1.90 x")
        self.assertEqual(said((0.0019, "1.9 ms"), (0.0008, "800 us"), (0.1, "0.1 s")), "800 us to 0.1 s")
        two, failed = (0.002, "2 ms"), (None, "?")
        self.assertEqual((said(two), said(two, two), said(two, quartiles="one run")), ("2 ms",) * 3)
        self.assertEqual((said(two, failed), said(failed)), ("2 ms to ?", "it failed"))
        self.assertEqual(said(two, quartiles="1 to 3 ms"), "2 ms (1 to 3 ms)")
        self.assertEqual(said(two, (60.0, "> 60 s")), "2 ms to > 60 s")

    def test_a_part_is_recorded(self):
        with tempfile.TemporaryDirectory() as folder:
            here = Path(folder)
            with (
                unittest.mock.patch.object(page, "PAGE", here / "page.md"),
                unittest.mock.patch.object(records, "RECORDED", here / "measured"),
                unittest.mock.patch.object(records, "capture_output", lambda *words: words[0]),
            ):
                page.write_page()
                empty = page.PAGE.read_text()
                record = records.capture_part_record("deep", PARTS["deep"].packages)
                records.write_part(record, [records.parse_figure(dict(zip(Figure._fields, row))) for row in ROWS])
                page.write_page()
                text = page.PAGE.read_text()
        self.assertNotIn("## ", empty)
        self.assertEqual((record.commit, record.versions), ("git with changes", "python3-scipy dpkg-query; python3-numpy dpkg-query"))
        day = re.escape(record.date)
        row = rf"\| deep \| \[5\]\(../bench/measured/deep.csv\) \| 1 of 5 \(1 unclear\) \| .* \| {day} \| git with changes \| python3-scipy dpkg-q"
        self.assertRegex(text, row)
        self.assertIn(f"\n\nMachine: {record.machine}. Kit: rt.\n\n## ", text)
        self.assertIn("\n\nThe time of `dam clear` on 98 books of deep markets", text)
        self.assertIn("| dam clear | 2 to 8 ms | at most 9 ms |  |\n", text)
        self.assertIn("| the worst: base 96, spread 50, seed 1 | 0.03 x (0.02 to 0.04 x) | at most 0.10 x |  |\n", text)
        missed = "**1 MISSED, 1 unclear** of 2; worst: base 24, spread 50, seed 1"
        self.assertIn(f"| {THE_TWIN} | 2.46 to 2.70 x | at most 2.00 x | {missed} |\n", text)
        self.assertNotIn("8.1 ms", text)


if __name__ == "__main__":
    unittest.main()
