"""The time of `dam replay` and `dam day` compared with a baseline, and of `dam clear` compared with `dam replay`; and the memory of a day.

The baseline is a plain Rust program with std only: a hash map, and a list of orders with gaps. For a day it has a thread for each
participant and one `Mutex`; it compares the receipts with the journal and prints that, and doesn't clear a book. The compared times also
have the start of a process in them."""

from figures import MIB, Figures, Label, at_most
from part import Part
from running import BASELINE, BenchFault, Programs, TimedRun, Words, make_journal, measure_peak_mebibytes, run_in_turns

TARGETS = {"replay": at_most(1), "clear": at_most(1.5), "day": at_most(1), "memory": at_most(1)}  # times as much


def run_both(words: Words, words_of_other: Words, journal: str) -> tuple[list[TimedRun], list[TimedRun]]:
    """The runs of two programs."""
    runs = run_in_turns({"one": words, "other": words_of_other}, journal, seconds=30)
    return runs["one"], runs["other"]


def measure(figures: Figures, programs: Programs) -> None:
    journal, whole_day = make_journal("make_journal.py"), make_journal("make_journal.py", "day")
    hourly = make_journal("make_family.py", "market", 4_000, 0)
    baseline, replay, day = [BASELINE, "day"], [programs.dam, "replay"], [programs.dam, "day"]
    ours, theirs = run_both(replay, [BASELINE], journal)
    if len({each.text for each in ours + theirs}) > 1:
        raise BenchFault("dam replay and the baseline print different texts")
    figures.add_times("replay", "dam replay compared with the baseline, 10,000 records", ours, theirs)
    runs = run_both([programs.dam, "clear"], replay, hourly)
    figures.add_times("clear", "dam clear compared with dam replay, 4,000 hourly orders", *runs)
    name = "dam day compared with the baseline with threads"
    figures.add_times("day", f"{name}, 9,999 commands", *run_both(day, baseline, whole_day))
    note = "the baseline keeps one book, and a gate that shows versions two; each entry and order has room for 100 volumes"
    our_peak, their_peak = ([measure_peak_mebibytes(words, whole_day)] for words in (day, baseline))
    figures.add_ratio(Label("memory", f"{name}, peak memory"), our_peak, their_peak, MIB, note)


PART = Part("commands", __doc__, "two minutes", ["dam", "baseline"], targets=TARGETS, measure=measure)
