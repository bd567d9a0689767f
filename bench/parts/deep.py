"""The time of `dam clear` on 98 books of deep markets with 24 blocks: realistic, mixed and wide ones, and families hard for a search.

The days have 24 and 96 periods. 60 books have realistic blocks and 3,800 hourly orders. Their blocks are base (baseload), peaks (base, peak
and night), shaped (an hourly profile), odd (one odd profile among baseload) and random (a random volume in each period), with limits within
5 to 1,000 cents of the mean price. Four are mixed, with baseload, peak, night and other spans, and six wide, with blocks of different sizes
in every period. 28 are of families, half with 500 hourly orders, half with 4,000.

`dam clear` takes turns as timed_books.py says, and on the families with a plain twin of the search. The twin's bounds are by prices, as
those of `dam` are, a selection is a set of bits in both, and neither has a limit on nodes. `dam` reads and prints more, which counts in a
search of a few milliseconds."""

import make_blocks
import make_family
from figures import Figures, at_least, at_most
from part import Part
from running import DEFAULT_PLAN, TWIN, Programs
from timed_books import LEAST_OF_HIGHS, add_worst_enumeration, make_timed_book

# Seconds, and times as long.
TARGETS = {"clear": at_most(0.15), "highs": at_least(LEAST_OF_HIGHS), "twin": at_most(2), "enumeration": at_most(0.1)}
BOOKS = [*make_blocks.DEEP, *make_family.DEEP]


def measure(figures: Figures, programs: Programs) -> None:
    books = []
    for drawn in BOOKS:
        books.append(book := make_timed_book(drawn, programs.dam))
        book.measure(figures, [TWIN, *map(str, DEFAULT_PLAN)] if drawn in make_family.DEEP else ())
        book.measure_highs(figures)
    add_worst_enumeration(figures, books)


PACKAGES = ["python3-scipy", "python3-numpy"]
PART = Part("deep", __doc__, "10 to 20 minutes", ["dam", "twin"], targets=TARGETS, measure=measure, packages=PACKAGES)
