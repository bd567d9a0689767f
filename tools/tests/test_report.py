"""The page of a day: that it is whole, stands alone, and has the day's results."""

import functools
import html.parser
import importlib
import multiprocessing
import re
import signal
import tempfile
import unittest
import unittest.mock
from pathlib import Path

import support
from support import AUCTION, AUCTION_RESULTS, FIRST, QUARTERS, SUNNY, day_of, journal_of, read_results, results_of, run_tool

from lib.results import trades
from lib.tool import exits, modules

# Elements that have no end.
VOID = {"meta", "br", "use", "path", "rect", "stop", "line", "circle"}
THIN = ","


class Reader(html.parser.HTMLParser):
    """A page's elements, which must be ended in the order in which they are begun; its texts, and its identifiers."""

    def __init__(self, text):
        super().__init__()
        self.open, self.wrong, self.texts, self.names, self.cited, self.elements = [], [], [], [], set(), []
        self.feed(text)
        self.close()
        self.wrong += self.open

    def handle_starttag(self, tag, attributes):
        self.handle_startendtag(tag, attributes)
        if tag not in VOID:
            self.open.append(tag)

    def handle_startendtag(self, tag, attributes):
        self.elements.append(tag)
        for name, value in attributes:
            if name == "id":
                self.names.append(value)
            self.cited |= set(re.findall(r"url\(#([^)]*)\)", value or ""))
            if name.endswith("href"):
                self.cited.add(value.removeprefix("#"))

    def handle_endtag(self, tag):
        if tag not in VOID and (not self.open or self.open.pop() != tag):
            self.wrong.append(f"/{tag}")

    def handle_data(self, data):
        self.texts.append(data.strip())


class Trades(unittest.TestCase):
    def test_what_is_bought_is_sold_and_paid(self):
        for name, data, text in support.read_cleared_cases():
            with self.subTest(name):
                day = day_of(data, text)
                totals = trades.totals(day).values()
                self.assertEqual(sum(total.bought for total in totals), sum(day.published.volumes))
                self.assertEqual(sum(total.bought for total in totals), sum(total.sold for total in totals))
                self.assertEqual(sum(total.paid for total in totals), sum(total.received for total in totals))

    def test_the_gain_of_all_participants_is_the_welfare(self):
        for name, data, text in support.read_cleared_cases():
            with self.subTest(name):
                day = day_of(data, text)
                value = 0
                for row, made in trades.rows_and_trades(day):
                    sign = 1 if row.order.side == "buy" else -1
                    value += sum(sign * row.order.price * trade.volume for trade in made)
                self.assertEqual(value, day.published.welfare)


@functools.lru_cache(maxsize=None)
def make_page(data, text, curves):
    from lib.report import page

    return page.capture_day_page(day_of(data, text), "A <day> & its results", list(curves))


PACKAGES = "matplotlib or jinja2 is missing (Debian's python3-matplotlib, python3-jinja2)"


@unittest.skipUnless(modules.has_module("matplotlib") and modules.has_module("jinja2"), PACKAGES)
class Page(unittest.TestCase):
    def page(self, data, text, curves=()):
        return make_page(data, text, tuple(curves))

    def test_the_page_is_whole_and_stands_alone(self):
        for name in ("auction-day", "empty", "too-large-block"):
            case = support.read_worked_cases("clear")[name]
            text = self.page(case.stdin, case.right_stdout, [1, 2])
            read = Reader(text)
            with self.subTest(name):
                self.assertEqual((read.wrong, text.startswith("<!doctype html>\n")), ([], True))
                self.assertEqual(len(read.names), len(set(read.names)))
                self.assertEqual(read.cited - set(read.names), set())
                self.assertFalse({"link", "img", "iframe"} & set(read.elements))
                self.assertEqual((read.elements.count("script"), "<script>" in text), (1, True))
                self.assertNotRegex(text, r"(?i)<script [^>]|\bsrc=|@import|https?://(?!www\.w3\.org/|.*\.dtd)|fetch\(")
                self.assertIn("A <day> & its results", read.texts)
                self.assertEqual(re.findall(r'(?:fill|stroke)[:=] ?"?(#[0-9a-f]{6})', text), [])

    def test_what_it_says_of_the_auction_day(self):
        read = Reader(self.page(AUCTION.read_bytes(), read_results(AUCTION)))
        day = day_of(AUCTION.read_bytes(), read_results(AUCTION))
        for row in day.problem.rows:
            name = f"{row.who} {row.name}" if row.order.kind == "block" else row.name
            self.assertIn(name, read.texts)
        for words in (
            "165.00",
            f"3{THIN}021{THIN}520.00",
            "8 to 20",
            "group FILL",
            "paradoxically rejected",
            "loses at the prices by itself, and with STAY and EVENING it gains 9,760.00 EUR",
            "HasChildren",
            f"521{THIN}550.00",
        ):
            self.assertTrue(any(words in text for text in read.texts), words)

    def test_what_it_says_of_a_quarter_hour_day(self):
        read = Reader(self.page(QUARTERS.read_bytes(), read_results(QUARTERS)))
        # 4,000 units of welfare and surplus are one EUR.
        for words in (
            "96 periods",
            "18:30",
            "65 to 84",
            f"3{THIN}098{THIN}696.75",
            f"12{THIN}500.00",  # MWh
            "paradoxically rejected",
            "would gain 675.00 EUR at the prices, but if it were added and the other blocks stayed as they are, the block itself would lose"
            " 6,660.00 EUR, COAL,PEAK would lose 3,780.00 EUR",
            "PeriodOutOfDay",
        ):
            self.assertTrue(any(words in text for text in read.texts), words)

    def test_periods_without_trade_have_no_price(self):
        text = self.page(FIRST, results_of(FIRST, frozenset()), [1, 8])
        texts = Reader(text).texts
        self.assertEqual(texts.count("no trade"), 22 + 2 * 2)  # in the table, and in both pictures of prices
        self.assertIn("Period 1, 00:00 to 01:00: no trade", texts)
        self.assertFalse(any("750.00" in words for words in texts))
        # The price of periods 8 and 9 is 68 EUR.
        at = texts.index("mean price of the traded periods")
        self.assertIn("68.00", texts[at : at + 3])
        nothing = journal_of("submit,A,B1,hour,buy,6000,1:10,,")
        text = self.page(nothing, results_of(nothing, frozenset()), [1])
        self.assertEqual((text.count("mean price"), text.count("750.00"), text.count(">no trade<")), (0, 0, 26))

    def test_many_curves_are_opened_one_by_one(self):
        text = self.page(FIRST, results_of(FIRST, frozenset()), range(5, 11))
        self.assertEqual(Reader(text).wrong, [])
        self.assertEqual(text.count('<details name="curves">'), 6)
        self.assertIn("<b>Period 8</b> 07:00 to 08:00: <span class=\"soft\">68.00 EUR/MWh, 55.0 MW</span>", text)
        self.assertIn("<b>Period 7</b> 06:00 to 07:00: <span class=\"soft\">no trade</span>", text)

    def test_participants_add_up(self):
        texts = [words for words in Reader(self.page(AUCTION.read_bytes(), read_results(AUCTION))).texts if words]
        at = texts.index("all")
        self.assertEqual(texts[at + 1 : at + 7], ["89", f"12{THIN}910.0", f"12{THIN}910.0", *[f"1{THIN}238{THIN}670.00"] * 2, "0.00"])

    def test_tables_and_pictures_have_words(self):
        for case in (AUCTION, QUARTERS):
            text = self.page(case.read_bytes(), read_results(case), [1])
            read = Reader(text)
            tables, pictures = read.elements.count("table"), read.elements.count("figure")
            self.assertGreater(tables, 5)
            self.assertEqual((read.elements.count("caption"), text.count("<caption><span></span></caption>")), (tables, 0))
            self.assertEqual(read.elements.count("figcaption"), pictures)
            self.assertEqual(read.elements.count("th"), text.count("<th scope="))
            # Each picture has a form for broad screens and one for narrow ones.
            for kind in ("broad", "narrow"):
                self.assertEqual(text.count(f'<svg class="{kind}" role="img" aria-label="'), pictures)
        self.assertIn("The price goes from 50.00 EUR/MWh in period 1 to 165.00 EUR/MWh in period 75.", text)

    def test_areas_that_show_values(self):
        text = self.page(AUCTION.read_bytes(), read_results(AUCTION), [19])
        for words in (
            "<title>period 19, 18:00 to 19:00: 165.00 EUR/MWh, 730.0 MW</title>",
            "<title>GAS START: accepted; loses at the prices by itself, and with STAY and EVENING it gains 9,760.00 EUR</title>",
        ):
            self.assertGreaterEqual(text.count(words), 2, words)
        self.assertRegex(text, r"<title>supply: [0-9.,]+ to [0-9.,]+ MW at [0-9.,]+ EUR/MWh</title>")

    def test_the_tables_have_the_decision_first(self):
        text = self.page(AUCTION.read_bytes(), read_results(AUCTION))
        heads = re.findall(r"<th scope=\"col\"[^>]*>([^<]*)</th>", text[text.index('id="blocks"') :])
        self.assertEqual(heads[:4], ["block", "decision", "reason", "surplus, EUR"])
        self.assertIn("blocks name this one as their parent", text)

    def test_the_page_of_a_participant(self):
        texts = [AUCTION, AUCTION_RESULTS, "-o", "-"]
        status, out, err = run_tool("report", *texts, "--participant", "GAS")
        read, text = Reader(out.decode()), out.decode()
        self.assertEqual((status, err, read.wrong), (0, "", []))
        self.assertIn("auction-day: GAS", read.texts)
        for words in ("FLEX-1", "refused: HasChildren", "2,760.00", "428,340.00", "blocks name this one as their parent"):
            self.assertIn(words, read.texts)
        self.assertNotIn("LOAD-1", read.texts)
        self.assertFalse([words for words in ("STAD", "COAL BASE", "PUMP") if words in text])
        figures = re.findall(r"<dt>([^<]*)</dt>", text)
        self.assertEqual(figures[-2:], ["net", "gain"])
        self.assertIn("37,060.00", read.texts)
        # Blocks stand before hourly orders, and so do the commands that follow on them.
        own = [words for words in read.texts if words in ("START", "STAY", "EVENING", "FLEX-1", "FLEX-24")]
        self.assertLess(max(at for at, words in enumerate(own) if words in ("START", "STAY", "EVENING")), own.index("FLEX-1"))
        found = run_tool("report", *texts, "--participant", "NOBODY", "--curves", "none")
        self.assertEqual(found, (exits.NO_INPUT, b"", "report: NOBODY has no command in the journal\n"))
        self.assertEqual(run_tool("report", *texts, "--participant", "gas")[0], exits.COMMAND_LINE)

    def test_a_participants_rejected_block_says_which_limit_it_needed(self):
        """As the page of the day does, with amounts written alike."""
        day, whys = day_of(AUCTION.read_bytes(), read_results(AUCTION)), []
        place = next(place for place, block in enumerate(day.problem.blocks) if block.name == "UNIT-7")
        with unittest.mock.patch("lib.whatif.limits.capture_rejected_sentences_and_print_notes", lambda *_: {place: "With a limit of 92.00 EUR/MWh."}):
            for who in (None, "OLD"):
                page = importlib.import_module("lib.report.page").capture_day_page(day, "day", [], None, who)
                whys.append(re.search(r"[^>]*With a limit of 92.00 EUR/MWh[^<]*", page)[0].strip())
        self.assertEqual(whys[0], whys[1])
        self.assertIn("7,920.00 EUR", whys[0])

    def test_many_curves_are_the_same_as_few(self):
        """Several processes draw them, in their order."""
        from lib.report import page_pictures

        day = day_of(QUARTERS.read_bytes(), read_results(QUARTERS))
        numbers = list(range(60, 60 + page_pictures.FEW_CURVES + 2))
        with page_pictures.rendering_curves(day, numbers) as many:
            for child in multiprocessing.active_children():  # which this process ends at Ctrl-C
                blocked = re.search(r"^SigBlk:\t(\w+)$", Path(f"/proc/{child.pid}/status").read_text(), re.MULTILINE)[1]
                self.assertTrue(int(blocked, 16) >> signal.SIGINT - 1 & 1)
            self.assertNotIn(signal.SIGINT, signal.pthread_sigmask(signal.SIG_BLOCK, ()))
            self.assertEqual(list(many), [page_pictures.render_curves(day, number, True) for number in numbers])

    def test_the_axis_is_cut_about_the_price(self):
        """The limits go from -40 to 3,000 EUR/MWh; those far from the price are said in words."""
        from lib.pictures import canvas, curves, pictures

        day = day_of(SUNNY.read_bytes(), read_results(SUNNY))
        for number in (13, 20):
            drawn = canvas.render_and_close(pictures.new_period_figure(day, number), "svg", words_as_text=True).decode()
            self.assertIn("limits go up to 3,000.00 EUR/MWh", drawn)
            demand, supply = curves.curve_points(day.problem.orders[number], "buy", 0), curves.curve_points(day.problem.orders[number], "sell", 0)
            bottom, top = curves.price_range(day, number, (demand, supply))
            self.assertLess(top - bottom, 700)
            self.assertTrue(bottom < day.published.prices[number - 1] / 100 < top)

    def test_wrong_results_are_said_to_be_wrong(self):
        wrong = read_results(AUCTION).replace(b"period,1,9200", b"period,1,9300")
        text = self.page(AUCTION.read_bytes(), wrong)
        self.assertIn("These results break the rules of the market.", text)
        self.assertIn("period 1: the price is 9300", text)
        self.assertNotIn("These results break the rules of the market.", self.page(AUCTION.read_bytes(), read_results(AUCTION)))

    def test_results_that_cannot_be_are_shown_as_wrong(self):
        case = support.read_worked_cases("clear")["too-large-block"]
        text = self.page(case.stdin, case.right_stdout.replace(b"rejected", b"accepted"), [1])
        self.assertIn("period 1: no execution balances", text)
        worse = results_of(AUCTION.read_bytes(), frozenset({0}))
        self.assertRegex(self.page(AUCTION.read_bytes(), worse), r"the welfare would be [0-9.,]+ EUR greater")

    def test_a_participant_without_trades(self):
        data = journal_of("submit,A,B1,hour,buy,6000,1:10,,")
        texts = Reader(self.page(data, results_of(data, frozenset()))).texts
        at = texts.index("A", texts.index("net, EUR"))
        self.assertEqual([words for words in texts[at:] if words][:7], ["A", "1", "0.0", "0.0", "0.00", "0.00", "0.00"])

    def test_command_line(self):
        day = FIRST + b"results\n" + results_of(FIRST, frozenset())
        status, out, err = run_tool("report", "-", "-o", "-", "--curves", "none", "--title", "Today", data=day)
        self.assertEqual((status, err, b"<title>Today</title>" in out), (0, "", True))
        self.assertNotIn(b"Supply and demand in period", out)
        out = run_tool("report", "-", "-o", "-", "--curves", "none", "--title", "a\u00a0\udcff", data=day)[1]
        self.assertIn("<title>a\u00a0\\xff</title>".encode(), out)
        out = run_tool("report", "-", "-o", "-", "--curves", "none", "--title", "a\x1b[31m\x7f\x9b\n", data=day)[1]
        self.assertIn(b"<title>a\\x1b[31m\\x7f\\x9b\\n</title>", out)
        words = ["--date", "2026-11-25"] if modules.has_zone("Europe/Berlin") else []
        out = run_tool("report", "-", "-o", "-", "--curves", "4, 3-4,3", *words, data=day)[1]
        self.assertEqual([out.count(b"<figcaption>Supply and demand in period %d" % number) for number in (3, 4, 5)], [1, 1, 0])
        self.assertEqual(b"Wednesday, 25 November 2026. A delivery day of 24 periods" in out, bool(words))
        with tempfile.TemporaryDirectory() as folder:
            out = Path(folder, "none", "a.html")
            self.assertEqual(run_tool("report", "-", "--curves", "none", "-o", out, data=day)[0], exits.NO_INPUT)

    def test_wrong_command_lines(self):
        texts = [AUCTION, AUCTION_RESULTS, "-o", "-"]
        for words in ("25", "x", "1-25", "9-8", "0", ""):
            self.assertEqual(run_tool("report", *texts, "--curves", words)[0], exits.COMMAND_LINE)
        self.assertEqual(run_tool("report", *texts, "--curve", "3")[0], exits.COMMAND_LINE)
        if modules.has_zone("Europe/Berlin"):
            for words in ("2026-03-29", "25.11.2026"):
                self.assertEqual(run_tool("report", *texts, "--date", words)[0], exits.COMMAND_LINE)


if __name__ == "__main__":
    unittest.main()
