"""The time and the progress of a long run: a line on standard error while it runs, if that is a terminal. Python 3.8 is enough."""

from __future__ import annotations

import os
import sys
import threading
import time


class Line:
    """A line on standard error, which is written over."""

    shown = 0  # columns of the line

    def show(self, line: str) -> None:
        """Writes over the line that was shown last."""
        sys.stderr.write(f"\r{line:{self.shown}}")
        sys.stderr.flush()
        self.shown = len(line)

    def erase(self) -> None:
        if self.shown:
            self.show("")
            sys.stderr.write("\r")
            sys.stderr.flush()
            self.shown = 0


class Progress(Line):
    """Counts the steps of a run, which several threads may report, and ends it at a step if its time is over or it is stopped."""

    def __init__(self, tool: str, seconds: float, quiet: bool = False, whole: int = 0) -> None:
        """`whole` is how many selections there are."""
        self.tool, self.seconds, self.whole = tool, seconds, whole
        self.is_shown = not quiet and sys.stderr.isatty()
        self.begun = time.monotonic()
        self.stopped = False
        self.done = self.steps = 0
        self.lock = threading.Lock()

    def add_expected_steps(self, steps: int) -> None:
        with self.lock:
            self.steps += steps

    def tried_count(self) -> int:
        """How many of the selections have been tried; of several steps for each it is a share of all."""
        return min(self.whole, self.whole * self.done // max(self.steps, 1))

    def tried_text(self) -> str:
        tried = self.tried_count()
        return f"{'about ' if tried and self.steps != self.whole else ''}{tried:,} of {self.whole:,} selections have been tried"

    def show_time_or_raise(self, words: str) -> None:
        """Shows words and the time. Raises TimeoutError if no time is left."""
        took = time.monotonic() - self.begun
        if took >= self.seconds:
            raise TimeoutError(self.timeout_message(words))
        if self.is_shown:
            self.show(f"{self.tool}: {words}, {took:.0f} s")

    def seconds_left(self) -> float:
        return self.begun + self.seconds - time.monotonic()

    def timeout_message(self, words: str) -> str:
        return f"after {self.seconds:g} seconds, {words}: --seconds gives more time"

    def count_and_show_or_raise(self, done: int = 1) -> None:
        """This many more steps are done. Raises TimeoutError if no time is left."""
        took = time.monotonic() - self.begun
        if self.stopped or took >= self.seconds:
            self.stopped = True
            raise TimeoutError(self.timeout_message(self.tried_text()))
        with self.lock:
            self.done += done
            if self.is_shown:
                self.show(f"{self.tool}: {100 * self.done // max(self.steps, 1)} % of all selections, {took:.0f} s")

    def stop_and_erase(self) -> None:
        """The run is over: no line is left, and its threads end at their next step."""
        self.stopped = True
        super().erase()


class StepBar(Line):
    """How far a run of many equal steps is: a line on standard error, if that is a terminal and the run takes longer than a moment."""

    MOMENT = 0.5  # seconds before the first line
    PAUSE = 0.1  # and between two
    WIDTH = 30

    def __init__(self, tool: str, whole: int, unit: str, quiet: bool = False) -> None:
        self.tool, self.whole, self.unit = tool, whole, unit
        self.is_shown = not quiet and sys.stderr.isatty()
        self.begun = self.last = time.monotonic()
        self.done = 0

    def count_and_show(self, steps: int = 1, words: str = "") -> None:
        self.done += steps
        now = time.monotonic()
        if self.is_shown and now - self.begun >= self.MOMENT and now - self.last >= self.PAUSE:
            self.last = now
            full = self.WIDTH * self.done // max(self.whole, 1)
            bar = "#" * full + "." * (self.WIDTH - full)
            more = f", {words}" if words else ""
            self.show(f"{self.tool}: [{bar}] {self.done:,} of {self.whole:,} {self.unit}{more}, {now - self.begun:.0f} s")


def minutes_text(seconds: float) -> str:
    seconds = max(int(seconds), 0)
    return f"{seconds // 60} min {seconds % 60} s" if seconds >= 60 else f"{seconds} s"


class ShareBar:
    """The launcher's bar: a line on standard error, if that is a terminal, with how far a run is, how long it has taken, and some words."""

    WIDTH = 24  # characters of the bar
    PAUSE = 0.2  # seconds between two lines

    def __init__(self, name: str) -> None:
        self.name, self.began, self.last, self.most = name, time.time(), 0.0, 0.0
        try:
            self.is_shown = os.isatty(2)
        except OSError:
            self.is_shown = False

    def show(self, share: float | None, words: str = "") -> None:
        """Shows how far this is, from 0 to 1, or None if that isn't known. The bar never goes back."""
        now = time.time()
        if not self.is_shown or now < self.last + self.PAUSE:
            return
        self.last, taken = now, minutes_text(now - self.began)
        if share is not None:
            self.most = max(self.most, min(share, 1.0))
        full = round(self.most * self.WIDTH)
        drawn = "" if share is None else f" [{'#' * full}{'.' * (self.WIDTH - full)}] {self.most:.0%}"
        self.write_stderr("\r\033[K" + self.line_cut_to_terminal(f"dam: {self.name}{drawn} {taken}{', ' if words else ''}{words}"))

    def line_cut_to_terminal(self, line: str) -> str:
        """Returns the line as far as the terminal is wide: a longer one would leave its first part behind."""
        try:
            # a terminal without a size says 0
            return line[: (os.get_terminal_size(2).columns or 120) - 1]
        except OSError:
            return line

    def write_stderr(self, text: str) -> None:
        if not sys.stderr:
            return
        try:
            sys.stderr.write(text)
            sys.stderr.flush()
        except OSError:
            self.is_shown = False

    def print_above(self, line: str) -> None:
        """Prints a line for good, above the bar."""
        self.write_stderr(f"\r\033[K{line}\n" if self.is_shown else f"{line}\n")
        self.last = 0

    def close(self) -> None:
        if self.is_shown and self.last:
            self.write_stderr("\r\033[K")
            self.last = 0
