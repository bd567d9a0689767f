"""The rate of an office with 50 connections compared with a plain one, and the times of a whole day of 9,950 commands.

Each connection is of a participant that sends its commands one after the other, and waits for each receipt. The plain office
(plain/office.py) of aiohttp and SQLite gives the same replies without receipts, in turns with the office. Then one office takes the whole
day; it is started again after a crash, and closes."""

import asyncio
import math
import statistics
import subprocess
import sys

from figures import PER_SECOND, Figures, Label, at_least, at_most
from part import Part
from running import BENCH, Programs, call_in_turns
from shared.office_load import OfficeLoad
from shared.served_office import ServedOffice, running_office

CONNECTIONS, TURNS, COMMANDS = 50, 5, 40  # COMMANDS of each connection in a turn
WHOLE_DAY = 199  # and on the whole day
TARGETS = {"rate": at_least(1), "time": at_most(1)}  # times those of the plain office
TARGETS |= {"day": at_least(1_000), "start": at_most(1), "close": at_most(0.5)}  # commands a second; seconds


class ServedPlain(ServedOffice):
    """The plain office, next to which a folder and tokens are made as for the office."""

    probe_and_see_readiness = ServedOffice.probe_and_see_listening

    def start_process(self) -> None:
        words = [sys.executable, "-B", f"{BENCH}/plain/office.py", f"{self.room.name}/rows", str(self.port)]
        self.started = subprocess.Popen(words, env=self.environment)


def measure_load(office: ServedOffice, count: int) -> tuple[float, float]:
    """The commands a second, and the median seconds of one."""
    load = OfficeLoad(office)
    took = asyncio.run(load.send_all_and_return_seconds(count))
    return len(load.seconds) / took, statistics.median(load.seconds)


def serve_and_measure_load(programs: Programs, kind: type[ServedOffice]) -> tuple[float, float]:
    with running_office(programs.dam, programs.desk, kind=kind, count=CONNECTIONS) as office:
        office.start_and_return_seconds()
        return measure_load(office, COMMANDS)


def measure_comparison(figures: Figures, programs: Programs) -> None:
    loads = {"ours": lambda _: serve_and_measure_load(programs, ServedOffice), "theirs": lambda _: serve_and_measure_load(programs, ServedPlain)}
    found = call_in_turns(loads, TURNS, math.inf)
    (our_rates, our_times), (their_rates, their_times) = (zip(*results) for results in found.values())
    name = "an office compared with a plain one"
    figures.add_ratio(Label("rate", f"{name}, commands a second"), our_rates, their_rates, PER_SECOND)
    figures.add_ratio(Label("time", f"{name}, time of a command"), our_times, their_times)


def measure_whole_day(figures: Figures, programs: Programs) -> None:
    with running_office(programs.dam, programs.desk, count=CONNECTIONS) as office:
        office.start_and_return_seconds()
        rate, _ = measure_load(office, WHOLE_DAY)
        figures.add_median(Label("day", "commands of a day that an office takes"), [rate], PER_SECOND)
        office.kill("office", "desk")
        figures.add_median(Label("start", "a start of an office after a crash"), [office.start_and_return_seconds()])
        figures.add_median(Label("close", "from the close to the results"), [office.close_day_and_return_seconds()])


def measure(figures: Figures, programs: Programs) -> None:
    measure_comparison(figures, programs)
    measure_whole_day(figures, programs)


PACKAGES = ["python3-aiohttp", "python3-cryptography", "python3-jinja2", "libsqlite3-0"]
PART = Part("office", __doc__, "a minute", ["dam", "desk"], targets=TARGETS, measure=measure, packages=PACKAGES)
