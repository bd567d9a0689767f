"""The examples: the output of their scripts, and the audit of the results that the worked case has. And the walks through example days in
EXAMPLES.md: the quoted lines are printed, and statements about other selections hold by the audit's reading of the rules."""

import re
import subprocess
import sys
import unittest
from fractions import Fraction

from support import QUARTERS, SUNNY, SUNNY_RESULTS, TOP, book, journal, problem_of, read_results, run_tool, selection

from lib.audit import recursive_enumeration

SCRIPT = TOP / "examples" / "make_sunny_day.py"
LINE = re.compile(r"`((?:period|hour|block),[^`]*|\d+,(?:done|refused,\w+))`")


class Examples(unittest.TestCase):
    def test_the_sunny_day_is_what_its_script_writes(self):
        ran = subprocess.run([sys.executable, SCRIPT], capture_output=True, check=True)
        self.assertEqual(ran.stdout, SUNNY.read_bytes())

    def test_no_selection_of_the_sunny_day_is_better(self):
        status, said, _ = run_tool("audit", "--best", "--by", "enumeration", SUNNY, SUNNY_RESULTS)
        self.assertEqual(status, 0)
        self.assertIn(b"8 of 12 blocks accepted", said)

    def test_its_prices_differ_from_hour_to_hour(self):
        prices = [int(line.split(b",")[2]) for line in read_results(SUNNY).splitlines() if line.startswith(b"period")]
        self.assertGreater(len(set(prices)), 20)
        self.assertLess(min(prices), 0)


def walk(heading):
    """The text of a section of the page, without its line ends."""
    page = (TOP / "docs" / "EXAMPLES.md").read_text()
    return " ".join(page.partition(f"\n## {heading}\n")[2].partition("\n## ")[0].split())


def replies(example):
    """The lines that `dam replay` prints, by the audit's reading of the rules."""
    _, reasons = book.book_and_refusals(journal.parse_journal(example.read_bytes()))
    return [f"{number},refused,{reason}" if reason else f"{number},done" for number, reason in enumerate(reasons, 1)]


class Walk:
    """A section on a day, and the example that it is about."""

    def setUp(self):
        self.text = walk(self.heading)
        self.problem = problem_of(self.example.read_bytes())
        names = {block.name: place for place, block in enumerate(self.problem.blocks)}
        lines = read_results(self.example).decode().splitlines()
        self.accepted = {names[line.split(",")[2]] for line in lines if re.match("block,.*,accepted,", line)}
        self.names = names

    def outcome(self, without=(), plus=()):
        """What the selection with some blocks left out and some others would lead to, and the blocks that would lose."""
        chosen = self.accepted - {self.names[name] for name in without} | {self.names[name] for name in plus}
        self.assertEqual(list(selection.link_breaches(self.problem, chosen)), [])
        found = selection.outcome(self.problem, chosen)
        losing = selection.losses_of(self.problem, chosen, found.surpluses)
        return found, {self.problem.blocks[place].name: loss for place, loss in losing.items()}

    def says(self, *amounts):
        for amount in amounts:
            self.assertIn(f"{amount:,}", self.text)

    def says_euros(self, *amounts):
        """That the page has these amounts in EUR, whole ones with two digits after the point or without."""
        for amount in amounts:
            said = f"{float(Fraction(amount) * self.problem.hours / 1_000):,.2f} EUR"
            self.assertTrue(said in self.text or said.replace(".00 ", " ") in self.text, said)

    def test_the_day_is_the_example(self):
        self.assertIn(f"`examples/{self.example.name}`", self.text)

    def test_the_lines_are_printed(self):
        quoted = LINE.findall(self.text)
        self.assertGreater(len(quoted), 9)
        printed = read_results(self.example).decode().splitlines() + replies(self.example)
        self.assertEqual([line for line in quoted if line not in printed], [])

    def test_the_welfare(self):
        welfare = self.outcome()[0].welfare
        self.says(welfare)
        self.says_euros(welfare)


class SunnyDay(Walk, unittest.TestCase):
    heading, example = "A day and its result", SUNNY

    def test_other_selections(self):
        for without, plus, losing in (
            (["START", "STAY", "EVENING"], [], []),
            (["NOON"], ["LONG"], []),
            (["NOON"], ["NIGHT"], ["NIGHT"]),
        ):
            with self.subTest(without=without, plus=plus):
                found, losses = self.outcome(without, plus)
                self.says_euros(found.welfare)
                self.assertEqual(list(losses), losing)

    def test_the_day_without_three_blocks(self):
        """The best selection of the day on which START, STAY and EVENING aren't submitted accepts UNIT-7."""
        lines = SUNNY.read_bytes().splitlines(keepends=True)
        left = problem_of(b"".join(line for line in lines if not re.match(b"[a-z]+,GAS,(START|STAY|EVENING),", line)))
        found, _ = recursive_enumeration.search_recursively(left)
        self.assertIn("UNIT-7", {left.blocks[place].name for place in found.accepted})
        self.assertEqual(len(left.blocks), len(self.problem.blocks) - 3)
        self.says_euros(found.welfare)

    def test_the_price_between_two_ends(self):
        found = self.outcome()[0].cleared[19]
        self.assertRegex(self.text, rf"from {found.low / 100:.2f} EUR, [^.]*, to {found.high // 100} EUR")

    def test_the_plants_of_the_evening_peak(self):
        """Of those with hourly orders, only the two with the highest limits don't run."""
        limits = dict(re.findall(r"^submit,(\w+,[\w-]+),hour,sell,(-?\d+),20:", SUNNY.read_text(), re.MULTILINE))
        dearest = sorted(limits, key=lambda order: int(limits[order]))[-2:]
        idle = [order for order in re.findall(r"^hour,(.*),0$", read_results(SUNNY).decode(), re.MULTILINE) if order in limits]
        self.assertEqual(sorted(idle), sorted(dearest))
        self.assertIn("All plants with hourly orders run except the two most expensive.", self.text)


class QuarterHours(Walk, unittest.TestCase):
    heading, example = "A day of quarter-hours", QUARTERS

    def test_the_paradoxical_block(self):
        found, losses = self.outcome(plus=["UNIT-7"])
        self.says_euros(found.welfare, losses["UNIT-7"])
        self.assertEqual(sorted(losses), ["PEAK", "RAMP", "RELEASE", "UNIT-7"])
        self.says_euros(self.outcome()[0].surpluses[self.names["UNIT-7"]])


if __name__ == "__main__":
    unittest.main()
