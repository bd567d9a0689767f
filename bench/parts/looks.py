"""The time of a look at a gate's book of 4,000 orders, while up to 3 other threads call and look, compared with a plain program; and the
time of a call with 100 to 4,000 orders held.

The plain program looks at a version through a lock-free pointer, and copies its book in every call. There are so few looks that the other
threads don't fill the gate meanwhile, which has room for 5,999 calls; a run in which a call or a look fails ends the bench."""

from collections.abc import Mapping

from figures import Figures, Label, at_most
from part import Part
from running import PLAIN_GATE, Programs, Words, make_journal, run_in_turns

LOOKS, CALLS = 20_000, 2_000
MARKET = "make_family.py", "market"  # hourly orders without blocks
TARGETS = {"look": at_most(2), "call": at_most(5e-6)}  # times as long; seconds


def measure_seconds(programs: Mapping[str, Words], name: str, repeats: int, journal: str) -> list[list[float]]:
    """The seconds of one look or call of each program, in several runs, with the book of a journal."""
    runs = run_in_turns(programs, journal)
    return [[each.reported_seconds(name) / repeats for each in found] for found in runs.values()]


def measure(figures: Figures, programs: Programs) -> None:
    for others in (0, 1, 3):
        words = [str(others), str(LOOKS)]
        both = {"ours": [programs.probe, "looks", *words], "plain": [PLAIN_GATE, *words]}
        ours, theirs = measure_seconds(both, "looks", LOOKS, make_journal(*MARKET, 4_000, 0))
        label = Label(f"look/{others}", "a look compared with a plain one", f"while {others} threads call and look")
        figures.add_ratio(label, ours, theirs)
    for orders in (100, 1_000, 4_000):
        calls = {"ours": [programs.probe, "calls", str(CALLS)]}
        (ours,) = measure_seconds(calls, "calls", CALLS, make_journal(*MARKET, orders, 0))
        figures.add_median(Label(f"call/{orders}", "a call", f"{orders:,} orders held"), ours)


PART = Part("looks", __doc__, "a minute", ["probe", "gate"], targets=TARGETS, measure=measure)
