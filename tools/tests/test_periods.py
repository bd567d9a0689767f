"""Periods as people write them: sets of them in words, and clock times, on the days too on which the clocks change."""

import unittest
from unittest import mock

import support  # noqa: F401 (it makes lib found)

from lib.base import clock, rules, spans


class Spans(unittest.TestCase):
    def test_what_is_read(self):
        for words, numbers in {
            "8": [8],
            "8-10": [8, 9, 10],
            "1;3;5-7": [1, 3, 5, 6, 7],
            " 2 ; 1 ;": [2, 1],
            "24-24": [24],
        }.items():
            self.assertEqual(spans.parse_periods(words, 24), numbers)
        self.assertEqual(spans.parse_periods("7, 3-4,9", 24, ",;"), [7, 3, 4, 9])

    def test_what_is_refused(self):
        for words in ("", ";", "0", "08", "25", "9-8", "3-", "-3", "x", "1,2", "1.5", "1--2", "1 2", "1\t2", "1;\n2", "1-2 4"):
            with self.subTest(words), self.assertRaises(ValueError) as fault:
                spans.parse_periods(words, 24)
            self.assertIn("from 1 to 24", str(fault.exception))

    def test_what_is_written_reads_back(self):
        for numbers in ([1], [1, 2], [1, 3], [1, 2, 3, 7, 9, 10]):
            self.assertEqual(spans.parse_periods(spans.spans_text(numbers), 24), numbers)
        self.assertEqual(spans.spans_text([1, 3, 4, 5, 9]), "1;3-5;9")
        self.assertEqual(spans.spans_text_in_prose([1, 3, 4, 5]), "1, 3 to 5")


class Clock(unittest.TestCase):
    def test_days_that_end_at_midnight(self):
        for periods in rules.DAYS:
            with self.subTest(periods):
                self.assertEqual(clock.begin_time(periods, 1), "00:00")
                self.assertEqual(clock.time_span(periods, periods)[-5:], "24:00")

    def test_usual_days(self):
        self.assertEqual([clock.begin_time(24, number) for number in (2, 3, 4, 24)], ["01:00", "02:00", "03:00", "23:00"])
        self.assertEqual([clock.begin_time(96, number) for number in (2, 9, 13, 96)], ["00:15", "02:00", "03:00", "23:45"])
        self.assertEqual(clock.time_span(24, 18), "17:00 to 18:00")
        self.assertEqual(clock.time_span(96, 71), "17:30 to 17:45")

    def test_an_hour_is_left_out_in_spring(self):
        self.assertEqual([clock.begin_time(23, number) for number in (1, 2, 3, 4, 23)], ["00:00", "01:00", "03:00", "04:00", "23:00"])
        self.assertEqual([clock.begin_time(92, number) for number in (8, 9, 92)], ["01:45", "03:00", "23:45"])
        self.assertEqual(clock.time_span(92, 8), "01:45 to 02:00")

    def test_an_hour_comes_twice_in_autumn(self):
        self.assertEqual([clock.begin_time(25, number) for number in (2, 3, 4, 5, 25)], ["01:00", "02:00", "02:00", "03:00", "23:00"])
        self.assertEqual([clock.begin_time(100, number) for number in (12, 13, 16, 17)], ["02:45", "02:00", "02:45", "03:00"])


class Between(unittest.TestCase):
    def refused(self, periods, first, last, words):
        with self.subTest(periods=periods, first=first, last=last), self.assertRaisesRegex(ValueError, f"^{words}$"):
            clock.parse_periods_between_times(periods, first, last)

    def test_times_of_each_length_of_a_day(self):
        for periods, length in rules.DAYS.items():
            hour = int(1 / length)
            evening = periods - 7 * hour
            with self.subTest(periods):
                self.assertEqual(clock.parse_periods_between_times(periods, "00:00", "24:00"), list(range(1, periods + 1)))
                self.assertEqual(clock.parse_periods_between_times(periods, "00:00", "01:00"), list(range(1, hour + 1)))
                self.assertEqual(clock.parse_periods_between_times(periods, "01:00", "03:00"), list(range(hour + 1, periods - 21 * hour + 1)))
                self.assertEqual(clock.parse_periods_between_times(periods, "17:00", "19:00"), list(range(evening + 1, evening + 2 * hour + 1)))
                self.refused(periods, "17:00", "16:00", "16:00 isn't after 17:00")
                self.refused(periods, "17:05", "18:00", "no period of the day begins at 17:05")

    def test_times_that_come_twice(self):
        twice = "comes twice on this day: write the numbers of periods, such as"
        for periods, begins, ends in (25, "3 or 4", "2 or 3"), (100, "9 or 13", "8 or 12"):
            self.refused(periods, "02:00", "04:00", f"02:00 {twice} {begins}")
            self.refused(periods, "00:00", "02:00", f"02:00 {twice} {ends}")
        self.refused(100, "02:45", "03:00", f"02:45 {twice} 12 or 16")

    def test_times_that_are_left_out(self):
        for periods in (23, 92):
            self.refused(periods, "02:00", "04:00", "no period of the day begins at 02:00")
            self.assertEqual(clock.parse_periods_between_times(periods, "00:00", "02:00"), clock.parse_periods_between_times(periods, "00:00", "03:00"))

    def test_times_of_a_day_are_computed_once(self):
        clock.periods_by_begin_and_end.cache_clear()
        with mock.patch.object(clock, "begin_minute", wraps=clock.begin_minute) as counted:
            for _ in range(50):
                self.assertEqual(clock.parse_periods_between_times(96, "00:15", "00:45"), [2, 3])
        self.assertLess(counted.call_count, 96 * 10)


if __name__ == "__main__":
    unittest.main()
