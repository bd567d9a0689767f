"""The fuzzer, on a program that is right and on some that aren't."""

import os
import random
import re
import subprocess
import sys
import tempfile
import unittest
from pathlib import Path
from unittest import mock

import support

import fake_dam
from shared import doctored_texts, timed_program
from shared.days import Profiles, periods_by_hour
from lib.base import rules
from lib.tool import exits, modules


def write_fake_program(folder, name):
    """A program in a folder that answers by the tools' reading of the rules."""
    program = Path(folder, name)
    fake = support.TOOLS / "tests" / "fake_dam.py"
    program.write_text(f'#!/bin/sh\nPYTHONPATH="{fake.parent}" exec "{sys.executable}" "{fake}" "$@"\n')
    program.chmod(0o755)
    return program


class Called:
    """The same program, called in the process of the fuzzer. The part after the last point of its file's name is its defect."""

    def __init__(self, path, seconds=timed_program.SECONDS):
        self.defect = Path(path).suffix.removeprefix(".")

    def capture_output(self, words, data):
        return fake_dam.answer_with_defect(words[0], words[1:], data, self.defect)

    def run_and_see_command(self, words):
        return True


def run_fuzzer(script, folder, *words, defect=""):
    """A run of a fuzzer with such a program: its status and output."""
    program = Path(folder, f"dam.{defect}")
    program.touch(0o755)
    with mock.patch.object(timed_program, "TimedProgram", Called):
        status, out, err = support.run_in_fork(str(support.TOP / "tests" / "fuzz" / script), ["--dam", str(program), *map(str, words)])
    return status, out.decode() + err


def write_other_programs(folder, *defects):
    """Programs to compare with."""
    for defect in defects:
        path = Path(folder, f"other.{defect}")
        path.touch()
        yield path


class OfBlocks(unittest.TestCase):
    """The profiles of blocks on random days."""

    def test_the_hours_of_each_day(self):
        for periods in rules.DAYS:
            hours = periods_by_hour(periods)
            self.assertEqual((len(hours), [period for own in hours for period in own]), (periods // len(hours[0]), [*range(1, periods + 1)]))
            self.assertIn(len(hours), rules.HOURS)

    def test_profiles_lie_in_the_day_and_some_differ_in_one_period(self):
        differ = whole = 0
        for seed in range(300):
            rng = random.Random(seed)
            periods = rng.choice(list(rules.DAYS))
            profiles = Profiles(rng, periods, lambda: rng.choice([1, 2, rules.GREATEST_VOLUME]))
            for _ in range(4):
                volumes = profiles.draw()
                self.assertTrue(volumes and 1 <= min(volumes) and max(volumes) <= periods)
                self.assertTrue(1 <= min(volumes.values()) and max(volumes.values()) <= rules.GREATEST_VOLUME)
                counts = sorted([*volumes.values()].count(volume) for volume in set(volumes.values()))
                whole += counts == [periods]
                differ += counts in ([1, periods - 1], [periods - 1])
        self.assertGreater(whole, 100)
        self.assertGreater(differ, 20)


class Fuzz(unittest.TestCase):
    def run_fuzzer(self, *words, defect="", apart=False):
        """A run of the fuzzer: its status and output, and the cases that it kept, as their inputs. The program answers in processes of
        its own, if it is apart."""
        with tempfile.TemporaryDirectory() as folder:
            found = Path(folder, "found")
            words = ["--keep", found, "--tries", "60", *words]
            if apart:
                run = [sys.executable, support.TOP / "tests" / "fuzz" / "run", "--dam", write_fake_program(folder, "dam"), *words]
                ran = subprocess.run(run, capture_output=True, text=True, env={**os.environ, "DAM_DEFECT": defect})
                status, out = ran.returncode, ran.stdout + ran.stderr
            else:
                status, out = run_fuzzer("run", folder, *words, defect=defect)
            kept = [path.read_bytes() for path in sorted(found.glob("*.csv"))] if found.is_dir() else []
            cases = [support.worked.read_cases(path)[path.stem] for path in sorted(found.glob("*.txt"))] if found.is_dir() else []
            self.assertEqual([case.stdin for case in cases], kept)
            return status, out, kept

    def test_a_program_that_is_right(self):
        self.assertEqual(self.run_fuzzer("--count", "12", apart=True), (0, "12 passed, 0 failed\n", []))
        self.assertEqual(self.run_fuzzer("--count", "12"), (0, "12 passed, 0 failed\n", []))
        self.assertEqual(self.run_fuzzer("--count", "12", "--commands", "day"), (0, "12 passed, 0 failed\n", []))

    def test_a_wrong_price_is_found_and_made_small(self):
        status, out, kept = self.run_fuzzer("--count", "6", "--seed", "a", "--commands", "clear", defect="price")
        self.assertEqual((status, "stdout differs" in out), (1, True))
        self.assertTrue(all(re.fullmatch(rb"day,(?:2[345]|9[26]|100),,,,,,,\nclose,,,,,,,,\n?", case) for case in kept), kept)
        self.assertGreater(len(kept), 0)

    def test_one_plan_that_differs_is_found(self):
        words = ["--count", "2", "--seed", "a", "--commands", "clear", "--every-plan", "--tries", "3"]
        self.assertEqual(self.run_fuzzer(*words), (0, "2 passed, 0 failed\n", []))
        status, out, _ = self.run_fuzzer(*words, defect="plan")
        self.assertEqual((status, "clear --workers 8 --cut 8: stdout differs" in out), (1, True), out)

    def test_a_wrong_status_is_found(self):
        for apart in (True, False):
            status, out, kept = self.run_fuzzer("--count", "4", "--seed", "b", "--commands", "replay", defect="status", apart=apart)
            self.assertEqual((status, "status differs" in out, b"" in kept), (1, True, True), out)

    def test_a_day_in_another_order_is_found(self):
        status, out, _ = self.run_fuzzer("--count", "3", "--seed", "d", "--commands", "day", defect="order")
        self.assertEqual((status, "in their order" in out), (1, True))

    def test_a_program_is_compared_with_another(self):
        words = ["--count", "6", "--seed", "a", "--commands", "clear"]
        with tempfile.TemporaryDirectory() as folder:
            same, wrong = write_other_programs(folder, "", "price")
            self.assertEqual(self.run_fuzzer(*words, "--like", str(same)), (0, "6 passed, 0 failed\n", []))
            status, out, kept = self.run_fuzzer(*words, "--like", str(wrong))
        self.assertEqual((status, "stdout differs" in out, b"" in kept), (1, True, False), out)

    def test_books_with_profiles(self):
        words = ["--count", "4", "--profiles", "--commands", "clear", "--tries", "3"]
        self.assertEqual(self.run_fuzzer(*words), (0, "4 passed, 0 failed\n", []))
        status, out, kept = self.run_fuzzer(*words, "--every-plan", defect="plan")
        self.assertEqual((status, "clear --workers 8 --cut 8: stdout differs" in out, b",block," in kept[0]), (1, True, True), out)

    def test_the_nodes_of_two_programs_are_compared(self):
        words = ["--count", "3", "--profiles", "--nodes", "--commands", "clear", "--tries", "3"]
        with tempfile.TemporaryDirectory() as folder:
            same, more = write_other_programs(folder, "", "nodes")
            self.assertEqual(self.run_fuzzer(*words, "--like", str(same)), (0, "3 passed, 0 failed\n", []))
            status, out, _ = self.run_fuzzer(*words, "--like", str(more))
        self.assertEqual(status, 1)
        self.assertRegex(out, r"clear --workers 1 --cut \d --nodes \d+: status differs", out)
        status, out, _ = self.run_fuzzer("--nodes", "--count", "1")
        self.assertEqual((status, out), (1, "fuzz: --nodes compares with the program of --like\n"))

    def test_a_program_that_takes_too_long_is_ended_and_its_input_kept(self):
        words = ["--count", "1", "--wait", "1", "--seed", "check", "--commands", "replay"]
        status, out, kept = self.run_fuzzer(*words, defect="late", apart=True)
        self.assertEqual((status, "no answer in time" in out, len(kept)), (1, True, 1), out)
        self.assertEqual(out.splitlines()[-1], "0 passed, 1 failed")


class Doctored(unittest.TestCase):
    """The fuzzer of doctored pairs, with a program that is right and with ones that aren't."""

    def doctored(self, *words, defect=""):
        with tempfile.TemporaryDirectory() as folder:
            return run_fuzzer("doctored.py", folder, *words, defect=defect)

    def test_a_program_that_is_right(self):
        status, out = self.doctored("--count", "12")
        self.assertEqual((status, out.splitlines()[-1]), (0, "12 passed, 0 failed"), out)
        self.assertRegex(out, r"^by status: .*\d with 1")

    def test_a_price_on_which_the_audit_and_the_program_differ_is_found(self):
        status, out = self.doctored("--count", "12", defect="price")
        self.assertEqual(status, 1)
        self.assertRegex(out, r"case \d+ of seed 1: .*: the status is \d and should be \d\n")

    def test_the_changes(self):
        """Each kind of change alters the text, except for a field that was so before; the content is the text without its encoding."""
        data, alike = support.read_results(support.AUCTION), 0
        for number in range(500):
            rng = random.Random(number)
            alike += doctored_texts.draw_doctored(rng, data)[1] == data
            words, other = doctored_texts.draw_other_encoding(rng, data)
            self.assertEqual((other != data, doctored_texts.decoded_or_none(other)), (True, data), words)
        self.assertLess(alike, 50)
        for text in (b"a,b\n\nc\n", b'"a,b",c\n', b"\xff\n"):
            self.assertIsNone(doctored_texts.decoded_or_none(text))


class Selections(unittest.TestCase):
    def selections(self, *words, defect=""):
        with tempfile.TemporaryDirectory() as folder:
            return run_fuzzer("enumerated.py", folder, *words, defect=defect)

    def test_a_program_that_is_right(self):
        status, out = self.selections("--blocks", "7", "--count", "10")
        lines = out.splitlines()
        self.assertEqual((status, lines[-1]), (0, "10 passed, 0 failed"))
        self.assertRegex(out, r"\b[1-9]\d* altered to an eligible selection of less welfare\n")

    def test_books_with_profiles(self):
        words = ["--profiles", "--jobs", "2", "--blocks", "6", "--count", "12"]
        status, out = self.selections(*words)
        self.assertEqual((status, out.splitlines()[-1]), (0, "12 passed, 0 failed"), out)
        status, out = self.selections(*words, defect="lower")
        self.assertEqual((status, "is better" in out), (1, True), out)

    def test_a_lower_selection_is_found(self):
        status, out = self.selections("--blocks", "7", "--count", "10", defect="lower")
        self.assertEqual(status, 1)
        self.assertRegex(out, r"differs: case \d+ of seed 1: the selection \[.+\] is better, with \d+\n")
        self.assertRegex(out, r"\n\d passed, [1-9]\d* failed\n$")

    def test_without_numpy_random_days_have_fewer_blocks(self):
        with mock.patch.multiple(modules, has_module=lambda module: False, run_and_see_if_debian_has=lambda *modules: False):
            status, out = self.selections("--blocks", "7", "--count", "3")
            self.assertEqual((status, out.splitlines()[-1]), (0, "3 passed, 0 failed"), out)
            status, out = self.selections("--blocks", "7", "--count", "3", defect="lower")
            self.assertEqual((status, "is better" in out), (1, True), out)
            status, out = self.selections("--thin")
            self.assertEqual((status, out), (exits.FAILED, f"fuzz: {modules.missing_message('numpy')}\n"))


class Full(unittest.TestCase):
    """The books at their limits; here the limits are low."""

    def full(self, defect=""):
        with tempfile.TemporaryDirectory() as folder:
            return run_fuzzer("full.py", folder, "--hourly", "30", "--blocks", "5", "--commands", "90", defect=defect)

    def test_a_program_that_is_right(self):
        self.assertEqual(self.full(), (0, "36 passed, 0 failed\n"))

    def test_each_defect_is_found(self):
        for defect, words in {
            "memory": "clear --workers 1 --cut 0: memory",
            "plan": "clear --workers 8 --cut 8: other results",
            "welfare": "the welfare is",
            "replies": "stdout differs",
        }.items():
            status, out = self.full(defect)
            self.assertEqual((status, words in out), (1, True), (defect, out))


if __name__ == "__main__":
    unittest.main()
