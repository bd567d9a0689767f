"""How far a long run is, shown at a terminal alone; and the end of its time."""

import io
import threading
import unittest
from unittest import mock

import support  # noqa: F401 (it makes lib found)

from lib.process.progress import Progress, StepBar


class Terminal(io.StringIO):
    def isatty(self):
        return True


class Told(unittest.TestCase):
    def shown_text(self, stream, **more):
        with mock.patch("sys.stderr", stream):
            progress = Progress("audit", 60, **more)
            progress.add_expected_steps(4)
            for _ in range(4):
                progress.count_and_show_or_raise()
            progress.stop_and_erase()
        return stream.getvalue()

    def test_at_a_terminal_the_line_is_written_over_and_taken_away(self):
        *lines, cleared, end = self.shown_text(Terminal()).split("\r")[1:]
        self.assertEqual(lines, [f"audit: {part} % of all selections, 0 s" for part in (25, 50, 75, 100)])
        self.assertEqual((cleared.strip(), len(cleared), end), ("", len(lines[-1]), ""))

    def test_elsewhere_nothing_is_told(self):
        self.assertEqual(self.shown_text(io.StringIO()), "")
        self.assertEqual(self.shown_text(Terminal(), quiet=True), "")


class Bars(unittest.TestCase):
    def shown_text(self, stream, seconds, **more):
        """The bar of ten steps, which take this many seconds each."""
        with mock.patch("sys.stderr", stream), mock.patch("time.monotonic", side_effect=(seconds * at for at in range(99))):
            bar = StepBar("audit", 10, "days", **more)
            for _ in range(10):
                bar.count_and_show(1, "1 wrong")
            bar.erase()
        return stream.getvalue()

    def test_a_bar_is_shown_after_a_moment(self):
        lines = self.shown_text(Terminal(), 0.2).split("\r")[1:-1]
        self.assertEqual(lines[0], "audit: [#########.....................] 3 of 10 days, 1 wrong, 1 s")
        self.assertEqual(lines[-2], f"audit: [{'#' * 30}] 10 of 10 days, 1 wrong, 2 s")
        self.assertEqual((lines[-1].strip(), len(lines)), ("", 9))

    def test_elsewhere_and_of_short_runs_nothing_is_told(self):
        self.assertEqual(self.shown_text(Terminal(), 0.01), "")
        self.assertEqual(self.shown_text(io.StringIO(), 1), "")
        self.assertEqual(self.shown_text(Terminal(), 1, quiet=True), "")


class Time(unittest.TestCase):
    def test_no_step_is_made_when_the_time_is_over(self):
        with self.assertRaisesRegex(TimeoutError, "^after 0 seconds, 0 of 0 selections have been tried: --seconds gives"):
            Progress("audit", 0).count_and_show_or_raise()
        progress = Progress("audit", 60)
        progress.begun = 8  # a sum with the system's own time may be rounded
        with mock.patch("time.monotonic", lambda: 67):
            progress.count_and_show_or_raise()
        with mock.patch("time.monotonic", lambda: 68), self.assertRaisesRegex(TimeoutError, "^after 60 seconds, "):
            progress.count_and_show_or_raise()

    def test_the_share_of_selections_that_were_tried_is_said(self):
        for steps, done, said in (8, 2, "2 of 8"), (16, 4, "about 2 of 8"), (16, 0, "0 of 8"):
            progress = Progress("audit", 60, whole=8)
            progress.add_expected_steps(steps)
            progress.count_and_show_or_raise(done)
            progress.stopped = True
            with self.assertRaisesRegex(TimeoutError, f"^after 60 seconds, {said} selections have been tried: --seconds gives more time$"):
                progress.count_and_show_or_raise()

    def test_words_and_the_time_are_shown(self):
        with mock.patch("sys.stderr", Terminal()) as stream:
            progress = Progress("audit", 60)
            progress.show_time_or_raise("HiGHS is still searching")
        self.assertEqual(stream.getvalue(), "\raudit: HiGHS is still searching, 0 s")
        with self.assertRaisesRegex(TimeoutError, "^after 0 seconds, HiGHS is still searching: --seconds gives more time$"):
            Progress("audit", 0).show_time_or_raise("HiGHS is still searching")

    def test_threads_end_when_it_is_over(self):
        progress, ended = Progress("audit", 60), []

        def run():
            try:
                while True:
                    progress.count_and_show_or_raise()
            except TimeoutError:
                ended.append(True)

        threads = [threading.Thread(target=run) for _ in range(3)]
        for thread in threads:
            thread.start()
        progress.stop_and_erase()
        for thread in threads:
            thread.join(10)
        self.assertEqual(ended, [True] * 3)


if __name__ == "__main__":
    unittest.main()
