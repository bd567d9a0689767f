"""HiGHS, a solver of programs in whole and real numbers that scipy contains.

It gets the program of tools/lib/audit/highs_search.py. This has the executions of the hourly orders, the balance of each period, blocks
that are accepted as a whole or not at all, links and groups, and prices that support the executions, at which no accepted block loses,
unless its descendants make up for that. It doesn't have the rule that chooses among supporting prices, nor the rule on ties. So HiGHS is
asked again without each selection that isn't eligible, and its answer may be another selection of the same welfare than that of `dam`."""

import time
from pathlib import Path

from lib.journal import book, journal
from lib.results import selection
from running import BenchFault, Solved


def run_highs(path: str, limit: float) -> Solved | None:
    """The greatest welfare of the selections of a journal's blocks, and the seconds of the solver alone; None if it takes longer than the
    limit."""
    from lib.audit import highs_search  # which needs scipy

    closed, _ = book.book_and_refusals(journal.parse_journal(Path(path).read_bytes()))
    problem, lasted = selection.Problem(closed), 0.0
    model = highs_search.Model(problem)
    model.restrict(0, [], highs_search.ROOM)
    while lasted < limit:
        begun = time.perf_counter()
        try:
            chosen = model.solve_for_selection(limit - lasted)
        except TimeoutError:
            return None
        lasted += time.perf_counter() - begun
        if chosen is None:
            raise BenchFault(f"{path}: HiGHS finds no selection")
        welfare = selection.eligible_welfare(problem, chosen)
        if welfare is not None and lasted < limit:  # at its limit HiGHS returns its selection, whether it is the best or not
            return Solved(welfare, lasted)
        model.forbid(chosen)
    return None
