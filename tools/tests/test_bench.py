"""The lines of the bench with their verdicts, on one book and on many together, and HiGHS, which finds the welfare of the worked cases."""

import contextlib
import io
import os
import shutil
import subprocess
import sys
import tempfile
import types
import unittest
import unittest.mock
from pathlib import Path

from support import TOP, load_tool, worked

sys.path.insert(0, f"{TOP}/bench")
import highs
import make_family
import running
import timed_books
from figures import Figures, Label, Side, Target, at_least, at_most, multiple_text
from lib.tool import exits, modules
from part import Part
from running import BenchFault, Solved
from timed_books import Program

THIN = worked.read_cases_of_file("thin")


class Timed(timed_books.TimedBook):
    """A book whose runs took these seconds; those of `dam clear` and HiGHS, `answer` is that of HiGHS."""

    def __init__(self, name, answer=None, **seconds):
        self.seconds, self.answer = {Program[key.upper()]: each for key, each in seconds.items()}, answer
        self.drawn = types.SimpleNamespace(name=name, note="")

    def run_in_turns_with_highs(self, limit):
        clears = [Solved(7, each) for each in self.seconds[Program.CLEAR]]
        return {Program.CLEAR: clears, Program.HIGHS: [] if self.answer is None else [Solved(self.answer, 4.0)]}


class Printed(unittest.TestCase):
    def printed(self, show, **targets):
        """The lines that are printed and added, each as a list of its fields."""
        figures, printed = Figures(targets), io.StringIO()
        with contextlib.redirect_stdout(printed):
            show(figures)
        for line, figure in zip(printed.getvalue().splitlines(), figures.added, strict=True):
            self.assertEqual(line.split(), " ".join(figure.line).split())
        return [list(figure.line) for figure in figures.added]


class Lines(Printed):
    def test_a_missed_multiple_has_no_equal_figure(self):
        """And one that holds has two digits."""
        for value, shown in ((0.1734, ["0.173 x", "at most 0.167 x", "MISSED"]), (0.1634, ["0.16 x", "at most 0.17 x", "holds"])):
            (line,) = self.printed(lambda figures, value=value: figures.add_ratio(Label("sum", "a sum"), [value], [1]), sum=at_most(1 / 6))
            _, figure, quartiles, *fields, _ = line
            self.assertEqual(([figure, *fields], quartiles), (shown, "one run"))

    def test_a_small_multiple_has_two_digits_that_are_not_0(self):
        texts = list(map(multiple_text, (0.1, 0.0749, 0.000091, 1.0, 99.0, 12_345.6)))
        self.assertEqual(texts, ["0.10 x", "0.075 x", "0.000091 x", "1.00 x", "99.00 x", "12,346 x"])

    def test_a_target_between_the_quartiles_is_unclear(self):
        """Both for a figure that may be at most so much, and for one that must be at least so much."""
        targets = {(Side.MOST, 4): "holds", (Side.MOST, 3): "unclear", (Side.MOST, 1): "MISSED"}
        targets |= {(Side.LEAST, 2): "holds", (Side.LEAST, 4): "unclear", (Side.LEAST, 5): "MISSED"}
        runs = Label("runs", "runs")
        for target, verdict in targets.items():
            (line,) = self.printed(lambda figures: figures.add_ratio(runs, [1.0, 2.0, 3.0, 4.0, 5.0], [1.0]), runs=Target(*target))
            self.assertEqual((line[1], line[2], line[4]), ("3.00 x", "2.00 to 4.00 x", verdict))
        (line,) = self.printed(lambda figures: figures.add_ratio(runs, [2.0, 4.0], [1.0, 2.0, 3.0]), runs=at_most(3))
        self.assertEqual(line[1:5], ["1.50 x", "1.00 to 2.33 x", "at most 3.00 x", "holds"])
        (line,) = self.printed(lambda figures: figures.add_median(runs, [0.001, 0.002, 0.003]), runs=at_most(0.002))
        self.assertEqual(line[1:5], ["2 ms", "1.5 to 2.5 ms", "at most 2 ms", "unclear"])

    def test_a_target_is_of_a_key_or_of_its_first_word(self):
        targets = {"keep": at_most(1), "keep/1": at_most(3)}
        lines = self.printed(lambda figures: [figures.add_median(Label(f"keep/{size}", "a time"), [2.0]) for size in (1, 2)], **targets)
        self.assertEqual([line[3:5] for line in lines], [["at most 3 s", "holds"], ["at most 1 s", "MISSED"]])
        with self.assertRaisesRegex(BenchFault, "TARGETS has no 'kept'"):
            Figures(targets).add_median(Label("kept", "a time"), [2.0])

    def test_a_program_that_does_not_end_misses_an_upper_limit_and_meets_a_lower_one(self):
        label = Label("clear", "dam clear", "a")
        for target, verdict in ((at_most(3), "MISSED"), (at_least(3), "holds")):
            (line,) = self.printed(lambda figures: figures.add_unended(label, 60), clear=target)
            self.assertEqual((line[1], line[4]), ("> 60 s", verdict))

    def test_the_times_of_a_book(self):
        book, targets = Timed("a", clear=[1.0, 3.0, 2.0], twin=[4.0]), {"clear": at_most(3), "twin": at_most(0.4)}
        clear, twin = self.printed(book.add_seconds, **targets)
        self.assertEqual(clear, ["dam clear: a", "2 s", "1.5 to 2.5 s", "at most 3 s", "holds", ""])
        self.assertEqual(twin[1:5], ["0.50 x", "0.38 to 0.62 x", "at most 0.40 x", "unclear"])
        clear, twin = self.printed(Timed("a", clear=[], twin=[4.0]).add_seconds, **targets)
        self.assertEqual(clear[1], "> 60 s")
        self.assertEqual(twin, ["dam clear compared with the twin: a", "?", "", "", "", "one of them didn't end in 60 s"])

    def test_the_worst_of_the_enumerations(self):
        books = [Timed("a", clear=[1.0], enumeration=[8.0]), Timed("b", clear=[4.0], enumeration=[2.0]), Timed("c", clear=[9.0])]
        (line,) = self.printed(lambda figures: timed_books.add_worst_enumeration(figures, books), enumeration=at_most(0.5))
        self.assertEqual(line[:2], ["dam clear compared with the enumeration, the worst of 2 books: b", "2.00 x"])
        self.assertEqual(self.printed(lambda figures: timed_books.add_worst_enumeration(figures, books[2:])), [])

    def test_the_answers_of_highs(self):
        figures = {7: ["2.00 x", "MISSED", "4 s and 2 s"], 6: ["2.00 x", "MISSED", "4 s and 2 s; it finds less welfare, 6 of 7"]}
        for answer, wanted in {**figures, None: ["> 30.00 x", "holds", ""]}.items():
            (line,) = self.printed(Timed("a", answer, clear=[2.0]).measure_highs, highs=at_least(20))
            self.assertEqual([line[1], *line[4:]], wanted, answer)
        with self.assertRaisesRegex(BenchFault, "a: HiGHS finds the welfare 8, and dam clear 7"):
            Timed("a", 8, clear=[2.0]).measure_highs(Figures({}))


class Comparisons(Printed):
    """With a program that was built before a change."""

    @classmethod
    def setUpClass(cls):
        cls.tool = load_tool("../bench/compare-programs")

    def test_the_sums(self):
        """Of the medians and of both quartiles."""
        books = [Timed("a", clear=[1.0, 3.0, 2.0], before=[8.0]), Timed("b", clear=[4.0], before=[4.0])]
        for limit, verdict in ((0.6, "holds"), (0.5, "unclear"), (0.4, "MISSED")):
            (line,) = self.printed(lambda figures: self.tool.add_sum(figures, books), before=at_most(limit))
            wanted = ["0.50 x", "0.46 to 0.54 x", f"at most {limit:.2f} x", verdict, "6 s and 12 s"]
            self.assertEqual(line, ["dam clear compared with the program before: all books together", *wanted])

    def test_a_run_that_did_not_end_counts_as_the_limit(self):
        books = [Timed("a", clear=[1.0], before=[]), Timed("b", clear=[], before=[1.0]), Timed("c", clear=[1.0], before=[1.0])]
        (line,) = self.printed(lambda figures: self.tool.add_sum(figures, books), before=at_most(2))
        self.assertEqual(line[1:], ["1.00 x", "one run", "at most 2.00 x", "holds", "62 s and 62 s; 2 of 3 didn't end"])

    def test_a_book_with_other_results_has_a_note(self):
        drawn = make_family.book_of_family("ties", 10, 1)
        with tempfile.TemporaryDirectory() as folder, unittest.mock.patch.object(running, "OUT", Path(folder)):
            before, same, other = (Path(folder, name) for name in ("before", "same", "other"))
            for path, said in (before, "one"), (same, "one"), (other, "two"):
                path.write_text(f"#!/bin/sh\necho {said}\n")
                path.chmod(0o755)
            for after, noted in (same, False), (other, True):
                (line,) = self.printed(lambda figures: self.tool.measure_book(figures, drawn, before, after), before=at_most(1_000))
                self.assertEqual((line[0], line[4]), ("dam clear compared with the program before: ties 10, 24 periods", "holds"))
                self.assertEqual(line[5].endswith("; other results"), noted)


class Programs(unittest.TestCase):
    def test_a_program_that_fails_ends_the_bench(self):
        for words, said in (["false"], "false < /dev/null: status 1, "), (["sh", "-c", "echo why >&2; exit 3"], "status 3, why\n"):
            with self.assertRaisesRegex(BenchFault, said):
                running.run_program(words)

    def test_a_time_that_a_program_does_not_print_ends_the_bench(self):
        run = running.run_program(["sh", "-c", "echo looks 1500000000 >&2"])
        self.assertEqual(run.reported_seconds("looks"), 1.5)
        with self.assertRaisesRegex(BenchFault, "no time of 'calls'"):
            run.reported_seconds("calls")

    def test_a_program_that_does_not_end_is_ended(self):
        self.assertIsNone(running.run_in_time(["sleep", "60"], limit=0.1))
        with self.assertRaisesRegex(BenchFault, "sleep 60 < /dev/null: it didn't end in 0.1 s"):
            running.run_program(["sleep", "60"], limit=0.1)

    def test_a_fault_ends_the_bench_with_a_line(self):
        programs = {"DAM": "/bin/false", "DAM_DESK": "/bin/false"}
        ran = subprocess.run([TOP / "bench" / "run", "desk"], env={**os.environ, **programs}, capture_output=True, text=True)
        self.assertEqual(ran.returncode, exits.FAILED)
        self.assertRegex(ran.stderr, r"\Abench/run: \S*false \S*/day.desk < .*\.csv: status 1, \n\Z")

    def test_the_status_says_whether_a_target_is_missed(self):
        """Each missed or unclear figure has a line at the end; an unclear one leaves the status 0."""
        tool = load_tool("../bench/run")
        for seconds, status, verdict in (([1.0], 0, None), ([1.0, 2.0, 3.0], 0, "unclear"), ([3.0], 1, "MISSED")):
            measure = lambda figures, _: figures.add_median(Label("wait", "a wait", "long"), seconds)
            part = Part("waits", "Waits.", duration="", programs=[], targets={"wait": at_most(2)}, measure=measure)
            printed = io.StringIO()
            with unittest.mock.patch.object(tool, "parse_arguments", lambda: ([part], {}, False)), contextlib.redirect_stdout(printed):
                self.assertEqual(tool.main(), status)
            again = [line.split("\t") for line in printed.getvalue().splitlines() if "\t" in line]
            self.assertEqual([(line[0], line[4]) for line in again], [("a wait: long", verdict)] if verdict else [])

    def test_a_trial_or_another_program_is_not_recorded(self):
        tool = load_tool("../bench/run")
        for words, named, is_recorded in ([], {}, True), (["--try"], {}, False), ([], {"DAM": "/bin/dam"}, False), ([], {"PROBE": "p"}, False):
            with unittest.mock.patch.object(sys, "argv", ["run", *words, "thin"]), unittest.mock.patch.dict(os.environ, named, clear=True):
                parts, programs, found = tool.parse_arguments()
            self.assertEqual(([part.name for part in parts], len(programs), found), (["thin"], len(named), is_recorded))

    def test_a_part_needs_its_packages(self):
        tool = load_tool("../bench/run")
        part = Part("waits", "Waits.", duration="", programs=[], targets={}, measure=print, packages=["python3-numpy", "libsqlite3-0"])
        with unittest.mock.patch.object(tool.modules, "exec_or_require_modules") as required:
            tool.exec_or_require_packages([part])
        required.assert_called_once_with("numpy")

    def test_the_probe_is_built_again_by_sums_and_not_by_dates(self):
        tool = load_tool("../bench/build-probe")
        with tempfile.TemporaryDirectory() as folder, unittest.mock.patch.object(tool, "SOURCES", Path(folder)):
            source, sums = Path(folder, "main.rt.bench"), []
            for text, date in (("old", 1), ("old", 2), ("new", 1)):
                source.write_text(text)
                os.utime(source, (date, date))
                sums.append(tool.read_sums({"probe": ["dam_plan"], "dam_plan": []}))
        self.assertEqual(sums[0], sums[1])
        self.assertEqual({name for name in sums[0] if sums[0][name] != sums[2][name]}, {"probe"})
        self.assertEqual(set(sums[0]), {"kit", "probe", "dam_plan"})

    @unittest.skipUnless(shutil.which("rustc"), "rustc is missing")
    def test_a_call_at_a_full_plain_gate_fails(self):
        bench = TOP / "bench"
        with tempfile.TemporaryDirectory() as folder:
            gate, book = f"{folder}/gate", Path(folder, "book.csv")
            subprocess.run(["rustc", "-O", "--edition", "2024", "-o", gate, bench / "plain" / "gate.rs"], check=True)
            book.write_bytes(running.run_program([f"{bench}/make_family.py", "market", "200", "0"]).text)
            self.assertRegex(running.run_program([gate, "1", "100"], book).stderr, rb"\Alooks \d+\n\Z")
            with self.assertRaisesRegex(BenchFault, "the gate is full"):
                running.run_program([gate, "1", str(2 * 10**7)], book)


@unittest.skipUnless(modules.has_module("scipy"), "scipy is missing (Debian's python3-scipy)")
class Highs(unittest.TestCase):
    def test_highs_finds_the_same_welfare(self):
        for case in THIN.values():
            with self.subTest(case.name), tempfile.NamedTemporaryFile() as journal:
                Path(journal.name).write_bytes(case.stdin)
                solved = highs.run_highs(journal.name, 60)
                self.assertIn(f"\nwelfare,{solved.welfare}\n", case.right_stdout.decode())
                self.assertGreater(solved.seconds, 0)

    def test_highs_gives_up_at_the_limit(self):
        with tempfile.NamedTemporaryFile() as journal:
            Path(journal.name).write_bytes(next(iter(THIN.values())).stdin)
            self.assertIsNone(highs.run_highs(journal.name, 1e-9))


if __name__ == "__main__":
    unittest.main()
