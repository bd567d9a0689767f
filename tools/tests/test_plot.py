"""The pictures: that each is drawn, says the right things, and can be told apart without colours."""

import json
import os
import sys
import tempfile
import unittest
from pathlib import Path
from unittest import mock

import support
from support import AUCTION, AUCTION_RESULTS, FIRST, QUARTERS, day_of, journal_of, results_of, run_tool

from lib.base import rules
from lib.results import trades
from lib.tool import exits, modules

PICTURES = ["day", "prices", "blocks"]
# runs a tool as if these packages were missing
WITHOUT = """import runpy, sys
sys.modules.update(dict.fromkeys(("matplotlib", "jinja2", "numpy")))
sys.argv = sys.argv[1:]
runpy.run_path(sys.argv[0], run_name="__main__")"""


class Missing(unittest.TestCase):
    def words(self, module):
        return f"{module}, which Debian has in the package python3-{module}: apt-get install python3-{module}"

    def test_packages_are_those_of_the_tests(self):
        listed = (support.TOP / "tests" / "debian-packages").read_text().split("\n")
        self.assertLessEqual({*modules.PACKAGES.values(), "tzdata"}, set(listed))

    @unittest.skipUnless(modules.is_debian_python(), "this isn't Debian's Python")
    def test_a_missing_package_is_named(self):
        without = sys.executable, "-c", WITHOUT
        both = (
            "matplotlib and jinja2, which Debian has in the packages python3-matplotlib and python3-jinja2: "
            "apt-get install python3-matplotlib python3-jinja2"
        )
        for name, words in (("plot", self.words("matplotlib")), ("report", both)):
            status, out, err = run_tool(name, AUCTION, python=without)
            self.assertEqual((status, out), (exits.FAILED, b""))
            self.assertEqual(err, f"{name}: it needs {words}\n")
        blocks = [f"submit,A,K{number},block,sell,1,1:1,," for number in range(rules.MOST_BLOCKS)]
        day = journal_of(*blocks)
        text = day + b"results\n" + results_of(day, frozenset())
        status, out, err = run_tool("audit", "--best", "-", data=text, python=without)
        self.assertEqual((status, out), (exits.FAILED, b""))
        self.assertEqual(err, f"audit: it needs {self.words('numpy')}\n")

    @unittest.skipUnless(modules.is_debian_python(), "this isn't Debian's Python")
    def test_the_record_of_an_office_names_a_missing_package(self):
        without = sys.executable, "-c", WITHOUT
        status, out, err = run_tool("office", "status", "folder", "--json", python=without)
        record = json.loads(out)
        self.assertEqual((status, record["command"], record["status"]), (exits.FAILED, "status", exits.FAILED))
        self.assertIn("which Debian has in the package", record["message"])
        self.assertEqual(err, f"office: {record['message']}\n")


@unittest.skipUnless(modules.has_module("matplotlib"), "matplotlib is missing (Debian's python3-matplotlib)")
class Pictures(unittest.TestCase):
    def test_days_with_little_in_them(self):
        from lib.pictures import canvas, pictures

        few = ["empty", "buy-block", "too-large-block", "floor-of-negative"]
        for name, data, text in (case for case in support.read_cleared_cases() if case[0] in few):
            day = day_of(data, text)
            for figure in (pictures.new_day_figure(day), pictures.new_period_figure(day, 1)):
                with self.subTest(name):
                    drawn = canvas.render_and_close(figure, "svg", words_as_text=True).decode()
                    for words in ("EUR/MWh", "MW"):
                        self.assertIn(words, drawn)

    def test_what_the_pictures_of_the_auction_day_say(self):
        from lib.pictures import canvas, pictures

        day = day_of(AUCTION.read_bytes(), support.read_results(AUCTION))
        drawn = canvas.render_and_close(pictures.new_day_figure(day), "svg", words_as_text=True).decode()
        said = ["GAS EVENING", "sell 90 MW at 93.00 EUR/MWh", "paradoxically rejected", "surplus at these prices, EUR"]
        said += ["supporting prices", ">24<", ">23:00<"]
        for words in said:
            self.assertIn(words, drawn)
        drawn = canvas.render_and_close(pictures.new_period_figure(day, 19), "svg", words_as_text=True).decode()
        for words in ("165.00", "accepted blocks sell 350.0 MW net", "730.0 MW of hourly buys are executed", "volume, MW"):
            self.assertIn(words, drawn)

    def test_what_the_pictures_of_a_quarter_hour_day_say(self):
        from lib.pictures import canvas, pictures

        day = day_of(QUARTERS.read_bytes(), support.read_results(QUARTERS))
        drawn = canvas.render_and_close(pictures.new_day_figure(day), "svg", words_as_text=True).decode()
        for words in ("GAS RAMP", "900.00", ">00:00<", ">93<", ">23:00<"):
            self.assertIn(words, drawn)
        for words in ("3,600.00", ">94<", ">23:15<"):
            self.assertNotIn(words, drawn)
        drawn = canvas.render_and_close(pictures.new_period_figure(day, 75), "svg", words_as_text=True).decode()
        for words in ("Period 75, 18:30 to 18:45", "165.00", "726.0 MW of hourly buys are executed"):
            self.assertIn(words, drawn)

    def test_periods_without_trade_do_not_set_the_scale(self):
        from lib.pictures import canvas, pictures

        day = day_of(FIRST, results_of(FIRST, frozenset()))
        figure = pictures.new_prices_figure(day)
        least, most = figure.axes[0].get_ylim()
        self.assertTrue(50 < least < 68 < most < 90, (least, most))
        drawn = canvas.render_and_close(figure, "svg", words_as_text=True).decode()
        self.assertEqual(drawn.count(">no trade<"), 2)

    def test_a_used_sheet_draws_what_a_new_one_does(self):
        from lib.pictures import canvas, curves, pictures

        data = journal_of("submit,A,B1,hour,buy,9000,8:8,,", "submit,B,S1,hour,sell,8000,8:8,,")
        auction = day_of(AUCTION.read_bytes(), support.read_results(AUCTION))
        few = day_of(data, results_of(data, frozenset()))
        for width in canvas.WIDTHS.values():
            sheet = curves.CurveSheet(width)
            # With many orders and few, none, and then many again; with accepted blocks that sell, and without.
            for day, number in ((auction, 19), (few, 8), (few, 19), (auction, 19), (auction, 3), (few, 19)):
                for words_as_text in (True, False):
                    fresh = canvas.render_and_close(pictures.new_period_figure(day, number, width), "svg", words_as_text)
                    self.assertEqual(canvas.render_and_close(sheet.redraw(day, number), "svg", words_as_text), fresh, (number, width))

    def test_the_axes_of_small_volumes_and_of_no_orders(self):
        from lib.pictures import canvas, pictures

        data = journal_of("submit,A,B1,hour,buy,9000,8:8,,", "submit,B,S1,hour,sell,8000,8:8,,")
        day = day_of(data, results_of(data, frozenset()))

        def ticks(number):
            axes = pictures.new_period_figure(day, number).axes[0]
            axes.figure.canvas.draw()
            return [[label.get_text() for label in axis.get_ticklabels()] for axis in (axes.xaxis, axes.yaxis)]

        self.assertEqual(ticks(8)[0][:6], ["0.0", "0.2", "0.4", "0.6", "0.8", "1.0"])
        self.assertEqual(ticks(19), [[], []])
        drawn = canvas.render_and_close(pictures.new_period_figure(day, 19), "svg", words_as_text=True).decode()
        self.assertIn("no hourly orders", drawn)

    def test_links_groups_and_surpluses_of_blocks(self):
        from lib.pictures import canvas, pictures

        day = day_of(AUCTION.read_bytes(), support.read_results(AUCTION))
        for width in canvas.WIDTHS.values():
            figure = pictures.new_blocks_figure(day, width)
            (axes,) = figure.axes
            # The two links: START to STAY, and STAY to EVENING.
            arrows = [note for note in axes.texts if getattr(note, "arrow_patch", None)]
            self.assertEqual([tuple(note.xy)[0] for note in arrows], [10.5, 16.5])
            self.assertEqual([text.get_text() for text in axes.texts].count("FILL"), 1)
            drawn = canvas.render_and_close(figure, "svg", words_as_text=True).decode()
            for words in ("-8,960.00", "146,520.00", "GAS START", "sell 80 MW at 120.00 EUR/MWh"):
                self.assertIn(words, drawn)

    def test_days_of_quarter_hours_have_no_outline_for_each_period(self):
        from lib.pictures import pictures

        for case in (AUCTION, QUARTERS):
            day = day_of(case.read_bytes(), support.read_results(case))
            bars = sum(volume > 0 for parts in trades.volume_shares(day).values() for volume in parts.values())
            bars *= day.problem.periods == 24
            self.assertEqual(len(pictures.new_prices_figure(day).axes[1].patches), bars)
            # Of each block one outline, since its periods follow one another.
            self.assertEqual(len(pictures.new_blocks_figure(day).axes[0].patches), len(day.problem.blocks))

    def test_the_same_day_gives_the_same_bytes(self):
        from lib.pictures import canvas, pictures

        day = day_of(AUCTION.read_bytes(), support.read_results(AUCTION))
        one, other = (canvas.render_and_close(pictures.new_day_figure(day), "svg") for _ in range(2))
        self.assertEqual(one, other)

    def test_what_matters_differs_in_lightness(self):
        from lib.pictures.canvas import COLOURS

        def lightness(name):
            red, green, blue = (int(COLOURS[name][at : at + 2], 16) for at in (1, 3, 5))
            return (0.2126 * red + 0.7152 * green + 0.0722 * blue) / 255

        for names in (
            ["ink", "paper"],
            ["buy", "sell"],
            ["sell", "paper"],
            ["accepted", "paradox"],
            ["accepted", "rejected"],
        ):
            one, other = map(lightness, names)
            self.assertGreater(abs(one - other), 0.25, names)
        self.assertEqual(len(set(COLOURS.values())), len(COLOURS))

    def test_command_line(self):
        with tempfile.TemporaryDirectory() as folder:
            texts = [AUCTION, AUCTION_RESULTS]
            begins = {"svg": b"<?xml", "png": b"\x89PNG"}
            for name in PICTURES:
                words = [f"--picture={name}"]
                self.assertEqual(run_tool("plot", *texts, *words, "-o", f"{folder}/a.svg"), (0, b"", ""))
                self.assertTrue(Path(folder, "a.svg").read_bytes().startswith(begins["svg"]))
            self.assertEqual(run_tool("plot", *texts, "--period", 19, "-o", f"{folder}/a.png"), (0, b"", ""))
            self.assertTrue(Path(folder, "a.png").read_bytes().startswith(begins["png"]))
            self.assertEqual(run_tool("plot", *texts, "--period", 19, "-o", "-")[1][:5], begins["svg"])
            status, _, err = run_tool("plot", *texts, "--period", 7, "--picture", "blocks", "-o", f"{folder}/b.svg")
            self.assertEqual((status, "not allowed with" in err), (exits.COMMAND_LINE, True))
            self.assertEqual(run_tool("plot", *texts, "--pict", "day")[0], exits.COMMAND_LINE)
            self.assertEqual(run_tool("plot", *texts, "-o", f"{folder}/.PNG"), (0, b"", ""))
            self.assertTrue(Path(folder, ".PNG").read_bytes().startswith(begins["png"]))
            for words in (["-o", f"{folder}/a.gif"], ["-o", "svg"], ["-o", f"{folder}/a.svg/png"], ["--period", 25, "-o", f"{folder}/a.svg"], ["--picture=x"]):
                self.assertEqual(run_tool("plot", *texts, *words)[0], exits.COMMAND_LINE)
            self.assertEqual(run_tool("plot", *texts, "-o", f"{folder}/none/a.svg")[0], exits.NO_INPUT)
            status, _, err = run_tool("plot", AUCTION, AUCTION, "-o", f"{folder}/a.svg")
            self.assertEqual((status, "has a journal instead of results" in err), (exits.NO_INPUT, True))


@unittest.skipUnless(modules.has_module("matplotlib"), "matplotlib is missing (Debian's python3-matplotlib)")
class Apart(unittest.TestCase):
    """matplotlib works in an empty folder of its own."""

    def test_the_working_folder_comes_back(self):
        from lib.pictures import matplotlib_settings

        before = os.getcwd()
        with matplotlib_settings.empty_settings():
            self.assertNotEqual(os.getcwd(), before)
            self.assertEqual((os.listdir("."), os.environ["MPLCONFIGDIR"]), ([], os.getcwd()))
        self.assertEqual(os.getcwd(), before)
        self.assertNotIn("MPLCONFIGDIR", os.environ)

    def test_a_working_folder_that_may_not_be_searched(self):
        """None of its files can be read, so it may stay."""
        from lib.pictures import matplotlib_settings

        before, opened = os.getcwd(), os.open

        def refused(path, *others, **more):
            if path == ".":
                raise PermissionError
            return opened(path, *others, **more)

        with mock.patch.object(matplotlib_settings.os, "open", refused), matplotlib_settings.empty_settings():
            self.assertEqual(os.getcwd(), before)
            self.assertEqual(os.listdir(os.environ["MPLCONFIGDIR"]), [])


if __name__ == "__main__":
    unittest.main()
