"""The tables that others publish: curves, blocks, figures, the long form, times, and JSON with the columns that the page describes."""

import datetime
import json
import re
import unittest
from fractions import Fraction

import support
from support import AUCTION, AUCTION_RESULTS, FIRST, QUARTERS, TOP, day_of, read_results, results_of, rows_as_written, run_tool

from lib.base import clock, rules, text
from lib.results import market_data, trades
from lib.tables import day_tables, table_operations
from lib.tool import exits, modules

PAGE = (TOP / "docs" / "TABLES.md").read_text()


def days():
    return [(name, day_of(data, text)) for name, data, text in support.read_cleared_cases()]


def total(rows, name):
    return sum(Fraction(row[name]) for row in rows)


class Curves(unittest.TestCase):
    def test_the_clearing_point_lies_on_both_curves(self):
        points = 0
        for name, day in days():
            rows = rows_as_written(market_data.curve_rows(day))
            for number in trades.traded_periods(day):
                own = [row for row in rows if row["period"] == str(number)]
                (point,) = [row for row in own if row["curve"] == "clearing"]
                price, volume = Fraction(point["price_eur_mwh"]), Fraction(point["to_mw"])
                with self.subTest(name, period=number):
                    for curve, sign in (("demand", 1), ("supply", -1)):
                        steps = [row for row in own if row["curve"] == curve]
                        self.assertEqual([row["from_mw"] for row in steps], ["0.0", *[row["to_mw"] for row in steps][:-1]])
                        limits = [sign * Fraction(row["price_eur_mwh"]) for row in steps]
                        self.assertEqual(limits, sorted(limits, reverse=True))
                        # Up to the volume nobody is worse than the price, and beyond it nobody is better.
                        for row, limit in zip(steps, limits):
                            if Fraction(row["from_mw"]) < volume:
                                self.assertGreaterEqual(limit, sign * price)
                            if Fraction(row["to_mw"]) > volume:
                                self.assertLessEqual(limit, sign * price)
                points += 1
        self.assertGreater(points, 100)

    def test_an_hour_of_the_auction_day(self):
        rows = [row[1:] for row in market_data.curve_rows(day_of(AUCTION.read_bytes(), read_results(AUCTION))) if row[0] == 19]
        self.assertEqual(
            rows,
            [
                ["demand", "hourly", "300.00", "0.0", "730.0"],
                ["demand", "hourly", "110.00", "730.0", "790.0"],
                ["supply", "blocks", text.eur_per_mwh(rules.LOWEST_PRICE), "0.0", "350.0"],
                ["supply", "hourly", "2.00", "350.0", "410.0"],
                ["supply", "hourly", "92.00", "410.0", "710.0"],
                ["supply", "hourly", "165.00", "710.0", "960.0"],
                ["clearing", "", "165.00", "730.0", "730.0"],
            ],
        )


class Blocks(unittest.TestCase):
    def test_the_auction_day(self):
        rows = {row["order"]: row for row in rows_as_written(day_tables.TABLES["blocks"](day_of(AUCTION.read_bytes(), read_results(AUCTION))))}
        # EXAMPLES.md works these out.
        self.assertEqual(rows["NOON"]["family_welfare_eur"], "3016400.000")
        self.assertEqual(rows["UNIT-7"]["family_welfare_eur"], "3024330.000")
        self.assertEqual((rows["UNIT-7"]["outcome"], rows["UNIT-7"]["family"]), ("paradoxically rejected", "UNIT-7"))
        self.assertIn("the block itself would lose 270.00 EUR", rows["UNIT-7"]["why"])
        self.assertEqual((rows["START"]["family"], rows["START"]["surplus_eur"]), ("", "-8960.000"))


class Figures(unittest.TestCase):
    def test_means_by_hand(self):
        # 24 prices; those from 8:00 to 20:00 are the periods 9 to 20.
        day = day_of(AUCTION.read_bytes(), read_results(AUCTION))
        prices = [int(line.split(b",")[2]) for line in read_results(AUCTION).splitlines() if line.startswith(b"period")]
        found = {row["figure"]: row["value"] for row in rows_as_written(market_data.figure_rows(day))}
        self.assertEqual(Fraction(found["base_price"]), Fraction(round(Fraction(sum(prices), 24)), 100))
        self.assertEqual(Fraction(found["peak_price"]), Fraction(round(Fraction(sum(prices[8:20]), 12)), 100))
        self.assertEqual(Fraction(found["off_peak_price"]), Fraction(round(Fraction(sum(prices[:8] + prices[20:]), 12)), 100))
        self.assertEqual((found["least_price"], found["greatest_price"]), ("47.00", "165.00"))
        self.assertEqual((found["welfare"], found["energy"]), ("3021520.000", "12910.0"))

    def test_periods_without_trade_are_left_out(self):
        day = day_of(FIRST, results_of(FIRST, frozenset()))
        found = {row["figure"]: row["value"] for row in rows_as_written(market_data.figure_rows(day))}
        self.assertEqual((found["traded_periods"], found["base_price"], found["greatest_price"]), ("2", "68.00", "68.00"))
        data = b"day,24,,,,,,,\nclose,,,,,,,,\n"
        day = day_of(data, results_of(data, frozenset()))
        found = {row["figure"]: row["value"] for row in rows_as_written(market_data.figure_rows(day))}
        self.assertEqual((found["traded_periods"], found["base_price"], found["by_volume_price"]), ("0", "", ""))

    def test_the_peak_is_by_the_clock(self):
        for periods in rules.DAYS:
            peak = [number for number in range(1, periods + 1) if market_data.is_peak(periods, number)]
            self.assertEqual(len(peak) * rules.DAYS[periods], 12)
            self.assertEqual(clock.begin_time(periods, peak[0]), "08:00")

    def test_sums_are_those_of_the_tables(self):
        """Also of quarter-hours, whose energy and amounts are a fourth."""
        lengths = set()
        for name, day in days():
            with self.subTest(name):
                lengths.add(day.problem.hours)
                found = {row["figure"]: row["value"] for row in rows_as_written(market_data.figure_rows(day))}
                participants = rows_as_written(day_tables.participant_rows(day))
                periods = rows_as_written(day_tables.period_rows(day))
                self.assertEqual(Fraction(found["energy"]), total(periods, "volume_mw") * day.problem.hours)
                self.assertEqual(Fraction(found["energy"]), total(participants, "bought_mwh"))
                self.assertEqual(Fraction(found["paid"]), total(participants, "paid_eur"))
                self.assertEqual(Fraction(found["welfare"]), Fraction(found["hourly_surplus"]) + Fraction(found["block_surplus"]))
                self.assertEqual(Fraction(found["welfare"]), day.published.welfare * day.problem.hours / 1_000)
        self.assertEqual(lengths, {1, Fraction(1, 4)})

    def test_rounding(self):
        self.assertEqual([market_data.mean(pair) for pair in ([1, 2], [-1, -2], [1, 1, 2], [])], [2, -1, 1, None])
        halves = [text.shown(Fraction(number, 8), 2) for number in (1, 3, -1, -3)]
        self.assertEqual(halves, ["0.13", "0.38", "-0.13", "-0.38"])  # away from 0


class Long(unittest.TestCase):
    def test_it_adds_up_to_the_tables(self):
        for name, day in days():
            with self.subTest(name):
                hours = day.problem.hours
                orders, long = rows_as_written(day_tables.order_rows(day)), rows_as_written(market_data.long_order_rows(day))
                self.assertEqual(total(long, "executed_mw") * hours, total(orders, "executed_mwh"))
                self.assertEqual(total(long, "offered_mw") * hours, total(orders, "offered_mwh"))
                self.assertEqual(total(long, "amount_eur"), 0)
                blocks = [row for row in orders if row["kind"] == "block"]
                self.assertEqual(total(rows_as_written(day_tables.LONG["blocks"](day)), "amount_eur"), total(blocks, "amount_eur"))
                participants, long = rows_as_written(day_tables.participant_rows(day)), rows_as_written(market_data.long_participant_rows(day))
                self.assertEqual(total(long, "paid_eur"), total(participants, "paid_eur"))
                self.assertEqual(total(long, "sold_mw") * hours, total(participants, "sold_mwh"))
                periods, long = rows_as_written(day_tables.period_rows(day)), rows_as_written(day_tables.LONG["periods"](day))
                volumes = [row for row in long if row["quantity"] == "volume_mw"]
                self.assertEqual(total(volumes, "value"), total(periods, "volume_mw"))


class Times(unittest.TestCase):
    @unittest.skipUnless(modules.has_zone(table_operations.ZONE), "the time zones are missing (Debian's tzdata)")
    def test_the_clocks_change(self):
        # In 2026 on 29 March and 25 October.
        for date, hours in (((2026, 3, 29), 23), ((2026, 10, 25), 25), ((2026, 11, 25), 24)):
            for periods in (hours, 4 * hours):
                times = table_operations.begin_times_or_raise(datetime.date(*date), periods)
                clocks = [clock.begin_time(periods, number) for number in range(1, periods + 1)]
                self.assertEqual([time.strftime("%H:%M") for time in times[:-1]], clocks)
                self.assertEqual(len({time.timestamp() for time in times}), periods + 1)
                self.assertEqual(times[-1].strftime("%H:%M"), "00:00")
            for wrong in set(rules.DAYS) - {hours, 4 * hours}:
                with self.assertRaises(table_operations.BadDate):
                    table_operations.begin_times_or_raise(datetime.date(*date), wrong)
        autumn = [time.isoformat() for time in table_operations.begin_times_or_raise(datetime.date(2026, 10, 25), 25)[2:4]]
        self.assertEqual(autumn, ["2026-10-25T02:00:00+02:00", "2026-10-25T02:00:00+01:00"])

    @unittest.skipUnless(modules.has_zone(table_operations.ZONE), "the time zones are missing (Debian's tzdata)")
    def test_command_line(self):
        texts = [AUCTION, AUCTION_RESULTS]
        rows = run_tool("table", *texts, "--date", "2026-11-25", "--only", "8-9;19")[1].decode().splitlines()
        self.assertEqual(rows[0].split(",")[:2], ["period", "begins"])
        self.assertEqual([row.split(",")[1] for row in rows[1:]], [f"2026-11-25T{hour}:00:00+01:00" for hour in ("07", "08", "18")])
        for words, said in (
            (["--date", "2026-03-29"], "2026-03-29 has 23 hours, so 23 or 92 periods, but the day has 24"),
            (["--date", "29.3.2026"], "it should be a day, such as 2026-11-25"),
            (["--date", "20261125"], "it should be a day, such as 2026-11-25"),
            (["--date", "2026-02-29"], "it should be a day, such as 2026-11-25"),
            (["--date", "2026-11-25", "--rows", "orders"], "--date can't be used with orders, which has no column of periods: add --long"),
            (["--only", "3", "--rows", "orders"], "--only can't be used with orders"),
            (["--only", "25"], "from 1 to 24"),
            (["--long", "--rows", "curves"], "--long can't be used with curves"),
            (["--long", "--participant", "GAS"], "--long can't be used with statement: give --rows orders --long"),
            (["--only", "8", "--participant", "GAS"], "statement, which has no column of periods: give --rows orders --long"),
        ):
            status, out, err = run_tool("table", *texts, *words)
            self.assertEqual((status, out, said in err), (exits.COMMAND_LINE, b"", True), err)


class Json(unittest.TestCase):
    def test_every_table_has_the_columns_of_the_page(self):
        day = day_of(QUARTERS.read_bytes(), read_results(QUARTERS))
        for name, of in day_tables.TABLES.items():
            heads = next(iter(of(day)))
            section = re.search(rf"^\*\*{name}\*\*.*?(?=^\*\*|^## )", PAGE, re.MULTILINE | re.DOTALL)[0]
            told = re.findall(r"`([a-z_]+)`", section)
            if name in ("blocks", "commands", "statement"):
                told += day_tables.ORDER + day_tables.RESULT
            if name == "statement":
                told += next(day_tables.command_rows(day.journal, day.reasons))
            with self.subTest(name):
                self.assertLessEqual(set(heads), set(told))
        for name, of in day_tables.LONG.items():
            for head in next(iter(of(day))):
                self.assertIn(f"`{head}`", PAGE)

    def test_the_schema(self):
        kinds = {"string": str, "number": (int, float), "integer": int, "boolean": bool, "array": list}
        for data, text in ((QUARTERS.read_bytes(), read_results(QUARTERS)), (FIRST, results_of(FIRST, frozenset()))):
            day = day_of(data, text)
            for form in (day_tables.TABLES, day_tables.LONG):
                for name, of in form.items():
                    made = json.loads(table_operations.json_text(name, of(day), {"date": None}))
                    self.assertEqual(list(made), ["table", "day", "columns", "rows"])
                    self.assertEqual(len(made["rows"]), len(list(of(day))) - 1)
                    self.assertEqual({tuple(column) for column in made["columns"]}, {("name", "type", "unit")})
                    for row in made["rows"]:
                        self.assertEqual(list(row), [column["name"] for column in made["columns"]])
                        for column in made["columns"]:
                            value = row[column["name"]]
                            self.assertTrue(value is None or isinstance(value, kinds[column["type"]]), (name, column, value))
                        if "volume_mw" in row and "periods" in row:
                            self.assertEqual(len(row["periods"]), len(row["volume_mw"]))

    def test_values_are_those_of_the_cells(self):
        day = day_of(AUCTION.read_bytes(), read_results(AUCTION))
        rows = json.loads(table_operations.json_text("periods", day_tables.period_rows(day), {}))["rows"]
        self.assertEqual([row["price_eur_mwh"] for row in rows], [cents / 100 for cents in day.published.prices])
        rows = json.loads(table_operations.json_text("blocks", day_tables.TABLES["blocks"](day), {}))["rows"]
        self.assertEqual(rows[2]["periods"], [7, 8, 9, 10])
        self.assertEqual((rows[2]["volume_mw"], rows[2]["parent"], rows[3]["parent"]), ([80.0] * 4, None, "START"))

    def test_command_line(self):
        texts = [AUCTION, AUCTION_RESULTS]
        made = json.loads(run_tool("table", *texts, "--json", "--rows", "curves", "--only", "19")[1])
        self.assertEqual((made["table"], len(made["rows"]), made["day"]["welfare_eur"]), ("curves", 7, 3021520.0))
        made = json.loads(run_tool("table", AUCTION, "--json", "--rows", "commands")[1])
        self.assertEqual((made["day"], made["rows"][92]["reason"]), ({"date": None, "periods": 24, "hours_per_period": 1.0}, "HasChildren"))


if __name__ == "__main__":
    unittest.main()
