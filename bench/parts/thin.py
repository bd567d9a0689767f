"""The time of `dam clear` on 52 books of thin markets with 24 blocks that each move the prices.

They have 200 to 1,500 hourly orders on days of 24 and of 96 periods, every realistic kind of block, links and groups, and limits mostly
within 50 cents of the mean price. `dam clear` takes turns as timed_books.py says, without HiGHS.

The books are drawn by make_blocks.py and make_family.py, and only the ten hardest, and two more, were chosen by their time: of books drawn
at random for 20 minutes of one processor, those on which a plain search with bounds by prices took longest. If all limits are equal, a
search looks for a subset of the volumes with the best sum, and hardly any bound helps; the lines of such books say so."""

import make_blocks
import make_family
from figures import Figures, at_most
from part import Part
from running import Programs
from timed_books import add_worst_enumeration, make_timed_book

TARGETS = {"clear": at_most(3), "enumeration": at_most(0.5)}  # seconds; times as long
BOOKS = [*make_blocks.THIN, *make_family.THIN]


def measure(figures: Figures, programs: Programs) -> None:
    books = []
    for drawn in BOOKS:
        books.append(book := make_timed_book(drawn, programs.dam))
        book.measure(figures)
    add_worst_enumeration(figures, books)


PART = Part("thin", __doc__, "5 to 10 minutes", ["dam"], targets=TARGETS, measure=measure, packages=["python3-numpy"])
