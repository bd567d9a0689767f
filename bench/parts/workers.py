"""The rate of several workers compared with one, on four thin markets; and the time of the default plan compared with one worker, on these
and on the families.

One worker searches these markets for 0.1 to 2 s; the search is cut into up to 256 pieces. The seconds are the search's alone. A rate of 2 x
is a search in half the time.

A second worker costs the start of a thread, about a tenth of a millisecond, which a search that ends within a few milliseconds doesn't
win back. The size of a program's environment moves its stack, and with that the time of the same walk varies; so each turn has the stack
at another place."""

import make_family
from figures import Figures, Label, at_least, at_most
from make_blocks import book_of_kind
from part import Part
from running import DEFAULT_PLAN, ONE_WORKER, RUN_SECONDS, Plan, Programs, make_book, run_in_turns

ONE, *SEVERAL = CUT_PLANS = [Plan(workers, cut=8) for workers in (1, 2, 4)]
TARGETS = {"rate/2": at_least(1.8), "rate/4": at_least(3.2), "default": at_most(1)}  # times as fast, and as long, as one worker
# They are among the books of thin.py.
LONG = [
    book_of_kind("base", 0, 1, 1, 200),
    book_of_kind("shaped", 20, 1, 4, 500),
    book_of_kind("odd", 0, 1, 4, 1_500),
    book_of_kind("random", 50, 1, 4, 200),
]
BOOKS_OF_FAMILIES = [make_family.book_of_family(family, hourly, 1) for family in make_family.FAMILIES for hourly in make_family.DEEP_HOURLY]


def measure_searches(probe: str, plans: list[Plan], journal: str, most: int) -> dict[Plan, list[float]]:
    """The seconds of the search under each plan, in several runs; for one that doesn't end, the limit."""
    runs = run_in_turns({plan: [probe, "search", *map(str, plan)] for plan in plans}, journal, most, seconds=20)
    return {plan: [each.reported_seconds("search") for each in found] or [RUN_SECONDS] for plan, found in runs.items()}


def measure(figures: Figures, programs: Programs) -> None:
    for drawn in LONG:
        found = measure_searches(programs.probe, CUT_PLANS, make_book(drawn), most=8)
        for plan in SEVERAL:
            label = Label(f"rate/{plan.workers}", f"the rate of {plan.workers} workers compared with 1", drawn.name)
            figures.add_ratio(label, found[ONE], found[plan])
    for drawn in LONG + BOOKS_OF_FAMILIES:
        found = measure_searches(programs.probe, [DEFAULT_PLAN, ONE_WORKER], make_book(drawn), most=32)
        label = Label("default", "the search by the default plan compared with 1 worker", drawn.name)
        figures.add_ratio(label, found[DEFAULT_PLAN], found[ONE_WORKER])


PART = Part("workers", __doc__, "three minutes", ["probe"], targets=TARGETS, measure=measure)
