"""The pictures of docs/, by the scripts that draw them; and the list of crates, which one of them shows."""

import random
import subprocess
import sys
import tempfile
import unittest
from pathlib import Path

from support import TOP

from lib.crates import crates
from lib.results import selection
from lib.seal import merkle
from lib.tool import exits, modules
from shared.crash_files import UnsyncedChange, draw_torn_files, parse_marked_lines_or_none

sys.path.insert(0, f"{TOP}/docs/drawings")
import draw_bound
import draw_crates
import draw_desk
import draw_hour
import draw_office
import draw_receipt
import draw_trust

LIST = "# a comment\nlow:\nhigh staticlib: low kit # more\nmiddle: low\ntop: high middle low\nhigh: other\n"
WELFARE_OF_THE_SUNNY_DAY = 245_193_556_800  # the line `welfare` of `dam clear < examples/sunny-day.csv`
NEEDS_MATPLOTLIB = unittest.skipUnless(modules.has_module("matplotlib"), "matplotlib is missing (Debian's python3-matplotlib)")


class Crates(unittest.TestCase):
    def test_a_list(self):
        found = crates.parse_crates(LIST)
        self.assertEqual(found, {"low": [], "high": ["low", "kit", "other"], "middle": ["low"], "top": ["high", "middle", "low"]})
        self.assertEqual(list(crates.parse_crates(LIST, with_kinds=True)), ["low", "high staticlib", "middle", "top", "high"])
        self.assertEqual(crates.without_foreign(found)["high"], ["low"])
        self.assertEqual(crates.crates_below(found, "top"), {"low", "high", "middle"})

    def test_the_list_of_a_repository_and_another(self):
        with tempfile.TemporaryDirectory() as top:
            Path(top, "crates.txt").write_text("low:\nhigh: low")
            Path(top, "tests").write_text("test: high\nhigh: other\n")
            self.assertEqual(crates.read_crates(top, f"{top}/tests"), {"low": [], "high": ["low", "other"], "test": ["high"]})
        self.assertIn("dam_book", crates.read_crates(TOP))

    def test_a_line_by_way_of_another_is_left_out(self):
        used = crates.without_foreign(crates.parse_crates(LIST))
        self.assertEqual(draw_crates.direct(used, "top"), ["high", "middle"])
        self.assertEqual(list(draw_crates.ways({**used, "last": ["top", "low"]}))[-1], ["last", "top"])
        self.assertEqual(list(draw_crates.ways({"a": [], "b": ["a"], "c": ["b"], "d": ["c"], "e": ["a"]}))[-1],
                         ["e", ("e-a", 2), ("e-a", 1), "a"])

    def test_lines_that_need_not_cross_do_not(self):
        used = {"low": [], "below": [], "left": ["below"], "right": ["low"], "both": ["right", "left"]}
        self.assertEqual(draw_crates.rows(used)[:2], [["below", "low"], ["left", "right"]])

    def test_the_picture_is_that_of_the_list(self):
        used = draw_crates.read()
        programs = {path.parent.parent.name for path in (TOP / "crates").glob("*/src/main.rt")}
        self.assertEqual((TOP / "docs" / "crates.svg").read_text(), draw_crates.drawing(used, programs))


class Receipt(unittest.TestCase):
    def test_the_picture(self):
        self.assertEqual((TOP / "docs" / "receipt.svg").read_text(), draw_receipt.drawing())

    def test_the_hashes_of_the_receipt(self):
        """The marked nodes are those of the inclusion proof."""
        tree = merkle.Tree(merkle.leaf_hash(b"%d" % entry) for entry in range(1, draw_receipt.ENTRIES + 1))
        given = draw_receipt.kinds(dict(draw_receipt.nodes(0, draw_receipt.ENTRIES)))[1]
        self.assertEqual({tree.cached_hash(*node) for node in given}, set(tree.inclusion_proof(draw_receipt.OWN - 1)))


class Desk(unittest.TestCase):
    def test_the_picture(self):
        self.assertEqual((TOP / "docs" / "desk.svg").read_text(), draw_desk.drawing())

    def test_the_lines_that_count(self):
        """The blue lines are those that the reader of a desk's file finds."""
        for file in draw_desk.STATES:
            blue = "".join(f"{text}\n" for text, counts in draw_desk.rows(file) if counts)
            self.assertEqual(blue.encode(), draw_desk.HEAD + parse_marked_lines_or_none(file))
            self.assertTrue(file.endswith(b"\n-"))

    def test_the_steps_of_a_batch(self):
        """Each write changes only bytes after the mark, or the mark alone; and a crash meanwhile leaves the lines before, or all."""
        before, between, after = draw_desk.STATES
        place = len(before) - 1
        self.assertEqual((between[: place + 1], between[:place] + b"+" + between[place + 1 :]), (before, after))
        for old, change in [(before, UnsyncedChange(place + 1, between[place + 1 :])), (between, UnsyncedChange(place, b"+"))]:
            found = {parse_marked_lines_or_none(image) for image in draw_torn_files(old, change, random.Random(1))}
            self.assertEqual(found, {draw_desk.HELD} | ({parse_marked_lines_or_none(after)} if change.bytes == b"+" else set()))


class Bound(unittest.TestCase):
    """That the bound by its prices holds, and that the tree leaves out no better selection."""

    def setUp(self):
        self.day = draw_bound.read_sunny_day()
        self.prices = draw_bound.prices_of(self.day)
        self.bound, self.order = draw_bound.bound_by(self.day, self.prices), draw_bound.order_of(self.day)

    def selections(self, count, seed=1):
        """Drawn selections, admissible or not."""
        drawn = random.Random(seed)
        return [frozenset(place for place in self.order if drawn.random() < 0.5) for _ in range(count)]

    def test_no_selection_is_above_its_bound(self):
        for accepted in [frozenset(), frozenset(self.order), *self.selections(60)]:
            welfare = selection.outcome(self.day, accepted).welfare
            if welfare is not None:
                self.assertLessEqual(welfare, self.bound.of(accepted, ()))

    def test_any_prices_give_a_bound(self):
        other = draw_bound.bound_by(self.day, {number: price + 700 * (number % 5 - 2) for number, price in self.prices.items()})
        for accepted in self.selections(20, seed=2):
            welfare = selection.outcome(self.day, accepted).welfare
            if welfare is not None:
                self.assertLessEqual(welfare, other.of(accepted, ()))

    def test_a_bound_of_undecided_blocks(self):
        bound = draw_bound.Bound(100, [7, -3, 5, -2])
        self.assertEqual([bound.of({1}, [0, 3]), bound.of({0, 1, 2, 3}, []), bound.of((), [0, 1, 2, 3])], [104, 107, 112])

    def test_its_order(self):
        volumes = [sum(volume for _, volume in self.day.blocks[place].order.volumes) for place in self.order]
        self.assertEqual((sorted(self.order), volumes), ([*range(len(self.day.blocks))], sorted(volumes, reverse=True)))

    def test_its_result_is_that_of_dam(self):
        self.assertEqual(draw_bound.result(self.day, self.bound, self.order), WELFARE_OF_THE_SUNNY_DAY)

    @NEEDS_MATPLOTLIB
    def test_what_the_picture_says(self):
        from lib.pictures import canvas

        drawn = canvas.render_and_close(draw_bound.figure(), "svg", words_as_text=True).decode()
        for words in ("COAL BASE", "gains at these prices", "of 8,191 nodes", "accepted (solid)"):
            self.assertIn(words, drawn)


class Hour(unittest.TestCase):
    @NEEDS_MATPLOTLIB
    def test_what_the_picture_says(self):
        """The numbers of GUIDE.md's first step."""
        from lib.pictures import canvas

        drawn = canvas.render_and_close(draw_hour.figure(), "svg", words_as_text=True).decode()
        for words in ("WIND: 45 MW", "executed in full", "GAS: 50 MW", "35 MW executed", "not executed", "the price: 60.00", "TOWN buys 80 MW"):
            self.assertIn(words, drawn)


class Office(unittest.TestCase):
    def test_the_picture_is_of_the_page(self):
        self.assertEqual(draw_office.taken_of(), draw_office.page_sum(), "docs/drawings/draw_office.py takes the picture again")


class Trust(unittest.TestCase):
    @NEEDS_MATPLOTLIB
    def test_what_the_pictures_say(self):
        from lib.pictures import canvas

        day = draw_trust.read_sunny_day()
        for draw, words in (draw_trust.draw_effect, ["hour 19", "its limit: 130"]), (draw_trust.draw_selections, ["4,096 ways", "207 of"]):
            drawn = canvas.render_and_close(draw(day), "svg", words_as_text=True).decode()
            for word in words:
                self.assertIn(word, drawn)

    @unittest.skipUnless(modules.is_debian_python(), "this isn't Debian's Python")
    def test_they_need_matplotlib(self):
        words = [sys.executable, "-S", TOP / "docs" / "drawings" / "draw_trust.py", "unit-7", "--draw"]  # -S leaves out Debian's packages
        ran = subprocess.run(words, capture_output=True, text=True)
        self.assertEqual((ran.returncode, ran.stdout), (exits.FAILED, ""))
        self.assertRegex(ran.stderr, r"^\S*draw_trust\.py: it needs matplotlib, .*: apt-get install python3-matplotlib\n$")


if __name__ == "__main__":
    unittest.main()
