"""The search for a better selection of blocks, and the lines about one. A search returns such a selection, or None, and how it looked."""

from collections.abc import Callable, Iterable, Iterator

from ..base import text
from ..process import child_call
from ..process.progress import Progress
from ..results import selection
from ..results.results import Results
from ..tool import exits, modules
from . import recursive_enumeration
from .recursive_enumeration import Selection

ENUMERATION, HIGHS = METHODS = ["enumeration", "highs"]

# Trying this many blocks takes less time than loading numpy.
FEW_BLOCKS = 10


def search_by_method_or_stop(
    problem: selection.Problem, published: Results, method: str, progress: Progress, jobs: int
) -> tuple[Selection | None, str]:
    """The search by a method for a selection that ranks above the one of right results. Ends the tool if the time is over, or if the
    search fails."""
    try:
        if method == HIGHS:
            return search_by_highs_in_child(problem, published, progress, jobs)
        return search_by_enumeration(problem, published, progress, jobs)
    except (TimeoutError, child_call.Died) as fault:
        status = exits.UNDECIDED if isinstance(fault, TimeoutError) else exits.FAILED
        raise exits.Stop(f"the results obey the other rules, but {fault}", status) from None


def search_by_enumeration(
    problem: selection.Problem, published: Results, progress: Progress, jobs: int, few: int = FEW_BLOCKS
) -> tuple[Selection | None, str]:
    """With numpy; without it if the blocks are few, or if it is missing and they aren't too many."""
    count = len(problem.blocks)
    if count <= few or count <= recursive_enumeration.ENUMERABLE and not modules.has_module("numpy"):
        try:
            found, how = recursive_enumeration.search_recursively(problem, progress)
        finally:
            progress.stop_and_erase()
        return (None if found.accepted == published.accepted else found), how
    modules.exec_or_require_modules("numpy")
    from . import numpy_enumeration

    return numpy_enumeration.search_with_numpy(problem, frozenset(published.accepted), published.welfare, progress, jobs)


def search_by_highs_in_child(problem: selection.Problem, published: Results, progress: Progress, jobs: int) -> tuple[Selection | None, str]:
    """By HiGHS, which takes no program of a day without blocks."""
    if not problem.blocks:
        return search_by_enumeration(problem, published, progress, jobs)
    modules.exec_or_require_modules("scipy")

    def ask(tell: Callable[[str], object]) -> tuple[Selection | None, str]:
        from . import highs_search

        try:
            return highs_search.search_with_highs(problem, frozenset(published.accepted), published.welfare, progress, tell)
        except highs_search.GaveUp as fault:
            raise TimeoutError(f"HiGHS gave up (its status is {fault}): without --by highs every selection is tried") from None

    return child_call.run_in_child(ask, progress, "HiGHS is still searching")


def block_names_text(problem: selection.Problem, places: Iterable[int]) -> str:
    return " ".join(str(problem.blocks[place]) for place in sorted(places)) or "no block"


def better_lines(problem: selection.Problem, published: Results, better_selection: Selection) -> Iterator[str]:
    """The lines about a better selection: its blocks and welfare, its prices, and how it differs from the published one."""
    more = better_selection.welfare - published.welfare
    if more:
        kind = f"it has a greater welfare, {problem.euros_text(better_selection.welfare)} EUR, which is {problem.euros_text(more)} EUR more"
        yield f"a better selection accepts {block_names_text(problem, better_selection.accepted)}: {kind}"
    else:
        first = problem.blocks[min(better_selection.accepted ^ published.accepted)]
        yield f"an equally good selection takes precedence: it accepts {first}, which is earlier in the book"
    turned = [("accepts", better_selection.accepted - published.accepted), ("rejects", published.accepted - better_selection.accepted)]
    yield "unlike the results it " + " and ".join(f"{does} {block_names_text(problem, places)}" for does, places in turned if places)
    prices = [cleared.price for cleared in selection.outcome(problem, better_selection.accepted).cleared.values() if cleared]
    changed = [(number, *pair) for number, pair in enumerate(zip(prices, published.prices), 1) if pair[0] != pair[1]]
    for number, price, published_price in changed:
        yield f"its price in period {number} is {text.eur_per_mwh(price)} EUR/MWh, and the results have {text.eur_per_mwh(published_price)}"
