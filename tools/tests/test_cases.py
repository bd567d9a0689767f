"""How the worked cases of tests/cases/ are read and written, and the counts of tests/run-cases and tests/run-units."""

import contextlib
import io
import os
import random
import re
import subprocess
import sys
import tempfile
import unittest
from pathlib import Path

from support import TOP, worked
from shared.counts import MOST_SHOWN, Counts

PIECES = [b"\n", b"\n", b"\\", b"{", b"}", b" ", b"== ", b"-- ", b"\r", b"\0", b"\xff", b"x7b", b"{1..3}", b"{2 times}", b"n", b"a,b", b"-", b"="]


class Cases(unittest.TestCase):
    def setUp(self):
        room = tempfile.TemporaryDirectory()
        self.addCleanup(room.cleanup)
        self.path = Path(room.name, "file.txt")

    def read(self, text):
        self.path.write_text(text, encoding="latin-1")
        return worked.read_cases(self.path)

    def one(self, text):
        (case,) = self.read(f"== a\n-- args b\n{text}").values()
        return case

    def test_the_parts_of_a_case(self):
        found = self.read("""\
What these show.

-- args clear --workers 1

== a
What this one shows.
-- stdin
day,24

close
-- stdout
x

== b c
-- args
-- runs
--cut 1

--cut {2..3} --workers {1..2}
-- stdin as in a
-- stdout as in a
-- stdout
y
-- stderr begins
z
z
-- stderr ends
z\\
-- status 3
""")
        self.assertEqual(list(found), ["a", "b c"])
        none = worked.Expected([b""])
        self.assertEqual(found["a"], worked.Case("file/a", ["clear", "--workers", "1"], [[]], b"day,24\n\nclose\n", worked.Expected([b"x\n"]), none, 0))
        two = worked.Expected([b"x\n", b"y\n"])
        plans = [["--cut", cut, "--workers", workers] for cut in "23" for workers in "12"]
        runs = [["--cut", "1"], [], *plans]
        self.assertEqual(found["b c"], worked.Case("file/b c", [], runs, b"day,24\n\nclose\n", two, worked.Expected([b""], b"z\nz\n", b"z"), 3))

    def test_lines_that_stand_for_others(self):
        self.assertEqual(self.one("-- stdin\na{9..11}b\n{2 times}c\n{1..2},{3..4}\n").stdin, b"a9b\na10b\na11b\nc\nc\n1,3\n1,4\n2,3\n2,4\n")
        self.assertEqual(self.one("-- stdin\n\\xff\\x7b\\\\n\\r\na\\\nb\\\\\nc\\n\\\n").stdin, b"\xff{\\n\r\nab\\\nc\n")

    def test_a_table_stands_for_a_case_of_each_row(self):
        found = self.read("== {name} of {words}\n-- args {words}\n-- stdin\n{1..2}{text}\\\n-- table\nname  words   text\na     x y z   b c\nd     --e  \\n\n")
        self.assertEqual([(it.name, it.words, it.stdin) for it in found.values()],
                         [("file/a of x y z", ["x", "y", "z"], b"1b c2b c"), ("file/d of --e", ["--e"], b"1\n2\n")])

    def test_texts_from_elsewhere(self):
        self.assertEqual(self.one("-- stdin from examples/first-day.csv\n").stdin, (TOP / "examples/first-day.csv").read_bytes())
        paradox = worked.read_cases_of_file("clear")["paradox"]
        case = self.one("-- stdin as in clear/paradox\n-- stdout as in clear/paradox\n")
        self.assertEqual((case.stdin, case.right_stdout), (paradox.stdin, paradox.right_stdout))

    def test_faults_have_their_place(self):
        for text, number, why in (
            ("-- stdin\n\xe9\n", 4, "a byte outside of printable ASCII"),
            ("-- stdin\na \n", 4, "a blank at the end"),
            ("-- stdon\n", 3, "no part stdon"),
            ("-- stdin\n\\q\n", 4, "no escape \\q"),
            ("-- stdin\n\\xf\n", 4, "no escape \\x"),
            ("-- stdin\n{1.2}\n", 4, "neither a column nor a range: {1.2}"),
            ("-- stdin as in b\n", 3, "no text as in b"),
            ("-- stdin as in clear/none\n", 3, "no text as in clear/none"),
            ("-- stdin as in none/none\n", 3, "no text as in none/none"),
            ("-- stdin b\n", 3, "no text b"),
            ("-- status b\n", 1, "the status of a is no number: b"),
            ("-- stdin from examples/none.csv\n", 3, "no text from examples/none.csv"),
            ("-- stdin as in a\nb\n", 3, "lines below it"),
            ("-- status 1\n2\n", 3, "lines below `-- status`"),
            ("-- stdin\n-- stdin\n", 1, "a part twice"),
            ("-- stdin\n== a\n-- args b\n", 4, "is there already"),
            ("-- stdout begins\nb\n-- stdout\nb\n", 1, "a part twice"),
            ("-- stderr ends\nb\n-- stderr\nb\n", 1, "a part twice"),
            ("-- stderr ends\nb\n-- stderr ends\nb\n", 1, "a part twice"),
            ("-- stdin\nb{2..1}\n", 4, "a line that stands for none: b{2..1}"),
            ("-- runs\nb{0 times}\n", 4, "a line that stands for none: b{0 times}"),
            ("-- table\nb  c\n1  2\n1\n", 6, "1 cells below 2 columns"),
            ("-- table\nb  c\n", 3, "without rows"),
            ("-- table\n", 3, "without rows"),
            ("-- table\nb\n1\n-- table\nb\n2\n", 6, "a second table"),
        ):
            with self.subTest(text):
                with self.assertRaises(worked.CaseFault) as fault:
                    self.one(text)
                place, _, said = str(fault.exception).partition(": ")
                self.assertEqual((place, why in said), (f"{self.path}:{number}", True), said)
        with self.assertRaisesRegex(worked.CaseFault, ":1: a has no arguments"):
            self.read("== a\n-- stdin\nb\n")

    def test_a_case_is_read_as_it_was_written(self):
        rng = random.Random(1)
        for _ in range(500):
            texts = [b"".join(rng.choice(PIECES) for _ in range(rng.randrange(8))) for _ in range(3)]
            case = self.read(worked.case_text("n", ["replay", "--x"], *texts, rng.randrange(4)))["n"]
            self.assertEqual([case.stdin, case.right_stdout, case.stderr.texts[0]], texts)
            self.assertEqual(self.read(worked.case_text("n", case.words, *texts, case.status))["n"], case)

    def test_what_differs(self):
        case = self.one("-- stdout\nx\n-- stdout\ny\n-- stderr begins\nz\n-- status 3\n")
        self.assertEqual(case.wrong_parts(3, b"y\n", b"z\nmore"), [])
        self.assertEqual(case.wrong_parts(0, b"xy\n", b"zz\n"), ["stdout", "status", "stderr"])
        case = self.one("-- stdout begins\nx\ny\n-- stdout ends\ny\nz\n-- stderr ends\nz\n")
        self.assertEqual(case.wrong_parts(0, b"x\ny\nw\ny\nz\n", b"more\nz\n"), [])
        for out in (b"x\ny\nw\nyz\n", b"x\nw\ny\nz\n", b"x\ny\nw\ny\nz"):
            self.assertEqual(case.wrong_parts(0, out, b"z\nmore"), ["stdout", "stderr"])

    def test_the_runner(self):
        program = self.path.with_name("program")
        program.write_text('#!/bin/sh\ncat\necho "$@" >&2\nexit 2\n')
        program.chmod(0o755)
        self.path.write_text("== a\n-- args b\n-- runs\n-c\n-d\n-- stdin\nx\n-- stdout\nx\n-- stderr\nb -d\n-- status 2\n")
        ran = subprocess.run([sys.executable, TOP / "tests/run-cases", "--dam", program, self.path], capture_output=True, text=True)
        self.assertEqual((ran.returncode, ran.stdout), (1, "differs: file/a -c: stderr\n1 passed, 1 failed\n"))
        self.path.write_text("")
        ran = subprocess.run([sys.executable, TOP / "tests/run-cases", "--dam", program, self.path], capture_output=True, text=True)
        self.assertEqual((ran.returncode, ran.stdout), (1, "differs: there is no case\n0 passed, 1 failed\n"))
        self.path.write_text("== a\n")
        ran = subprocess.run([sys.executable, TOP / "tests/run-cases", "--dam", program, self.path], capture_output=True, text=True)
        said = f"run-cases: {self.path}:1: a has no arguments, is there already, or has a part twice\n"
        self.assertEqual((ran.returncode, ran.stdout, ran.stderr), (1, "", said))
        shown = subprocess.run([sys.executable, TOP / "tests/run-cases", "--print", "clear/paradox"], capture_output=True)
        self.assertEqual(shown.stdout, worked.read_cases_of_file("clear")["paradox"].stdin)

    def test_a_part_shows_some_failures_of_each_kind(self):
        counts = Counts()
        with contextlib.redirect_stdout(io.StringIO()) as printed:
            counts.begin_part("first")
            for number in range(MOST_SHOWN + 3):
                counts.check(f"stream {number}: wrong", False)
            counts.check("names: wrong", False)
            counts.check("right", True)
            counts.begin_part("second")
            counts.count_and_print_runs(5, ["stream 1: wrong", "stream 1: wrong too"])
            counts.print_totals_and_return_status()
        streams = [f"differs: first: stream {number}: wrong" for number in range(MOST_SHOWN)]
        right = [*streams, "differs: first: names: wrong", "differs: first: stream: 3 more of this kind", "differs: second: stream 1: wrong",
                 "differs: second: stream 1: wrong too", f"4 passed, {MOST_SHOWN + 6} failed"]  # fmt: skip
        self.assertEqual(printed.getvalue().splitlines(), right)

    def test_an_exception_is_a_failure_of_its_part(self):
        counts = Counts()
        with contextlib.redirect_stdout(io.StringIO()) as printed, contextlib.redirect_stderr(io.StringIO()) as said:
            counts.begin_part("first")
            with counts.counting_exceptions("it ended early"):
                counts.check("right", True)
                raise KeyError("a")
            with counts.counting_exceptions("another one"):
                counts.check("right", True)
            self.assertEqual(counts.print_totals_and_return_status(), 1)
        self.assertEqual(printed.getvalue(), "differs: first: it ended early: KeyError: 'a'\n2 passed, 1 failed\n")
        self.assertTrue(said.getvalue().endswith("\nKeyError: 'a'\n"))

    def test_the_runner_on_a_mix_up(self):
        for words, said in (
            (("--dam", self.path), "isn't a program: `tools/unproved --compile dam_cli` builds one, and --dam names it"),
            (("/bin/cat", "--dam", self.path), "isn't a program:"),
            (("--dam", "/bin/cat", "clear/paradox"), "run-cases: clear/paradox: No such file or directory\n"),
            (("--print", "tests/cases/clear.txt"), "no stdin of a case tests/cases/clear.txt; FILE/CASE is for example"),
            (("--print", "clear/none"), "no stdin of a case clear/none;"),
            (("--print", "clear/paradox", "output"), "no output of a case clear/paradox;"),
        ):
            with self.subTest(words):
                ran = subprocess.run([sys.executable, TOP / "tests/run-cases", *words], capture_output=True, text=True)
                self.assertEqual((ran.returncode in (1, 2), ran.stdout), (True, ""))
                self.assertIn(said, ran.stderr)
                self.assertNotIn("Traceback", ran.stderr)

    def test_the_cases_of_the_repository(self):
        names = [case.name for case in worked.read_all_cases()]
        self.assertEqual(len(names), len(set(names)))
        used = re.findall(r"^-- stdout from (tests/cases/.*)$", "".join(path.read_text() for path in worked.list_case_files()), re.MULTILINE)
        self.assertEqual({TOP / path for path in used} | {*worked.list_case_files()}, {*worked.FOLDER.iterdir()})


TESTS = """
import unittest

class Four(unittest.TestCase):
    def test_right(self):
        pass

    def test_wrong(self):
        self.assertEqual(1, 2)

    def test_wrong_twice(self):
        for number in range(2):
            with self.subTest(number):
                self.assertEqual(number, 2)

    @unittest.skip("a package is missing")
    def test_left_out(self):
        self.fail()
"""


class Units(unittest.TestCase):
    """By the runner of the tests here, and by unittest."""

    def run_counted(self, test):
        for without in (False, True):
            with tempfile.TemporaryDirectory() as folder:
                Path(folder, "a").mkdir()
                Path(folder, "a", "test_a.py").write_text(test)
                if without:
                    Path(folder, "pytest.py").write_text("raise ImportError\n")
                run = [sys.executable, "-B", TOP / "tests" / "run-units", Path(folder, "a")]
                ran = subprocess.run(run, cwd=folder, capture_output=True, text=True, env={**os.environ, "PYTHONPATH": folder})
                if without:
                    self.assertIn("pytest is missing", ran.stdout)
                yield ran.returncode, *ran.stdout.splitlines()[-2:]

    def test_the_counts(self):
        left_out = "left out: 1 test: a package is missing"
        self.assertEqual(list(self.run_counted(TESTS)), [(1, left_out, "1 passed, 2 failed, 1 skipped")] * 2)
        right = TESTS.replace("1, 2", "1, 1").replace("number, 2", "number, number")
        self.assertEqual(list(self.run_counted(right)), [(0, left_out, "3 passed, 0 failed, 1 skipped")] * 2)

    def test_a_file_that_cannot_be_read(self):
        self.assertEqual([(status, last) for status, _, last in self.run_counted("no code")], [(1, "0 passed, 1 failed")] * 2)


if __name__ == "__main__":
    unittest.main()
