"""Where a results text differs from the rules."""

from collections.abc import Iterator

from . import results, selection, sums
from .faults import FaultLine
from .period import Clearing
from .results import Results, subject_fault
from .selection import Outcome, Problem, Row

# If more than this part of the lines is wrong, the results seem to be of another journal. A block that is accepted and should not be
# makes many lines wrong.
MOST_WRONG, MOST_WRONG_WITH_FAULT = 1 / 2, 3 / 4


def limit_text(row: Row, price: int) -> str:
    if row.order.price == price:
        return "its limit is the price"
    better = row.order.price > price if row.order.side == "buy" else row.order.price < price
    return f"its limit {row.order.price} is {'better' if better else 'worse'} than the price {price}"


def results_and_faults(problem: Problem, data: bytes) -> tuple[Results | None, list[FaultLine]]:
    """The results of a text (None if it has none), and a fault for each difference from the results of their own selection of blocks:
    first the faults of the selection itself, then the numbers in the order of their lines, and last the sums that don't add up. One
    wrong block changes the prices of many periods, so its own fault is said before these."""
    published, wrong = results.parse_results_and_faults(problem, data)
    if published is None:
        return None, wrong
    follows = selection.outcome(problem, published.accepted)
    wrong += selection_faults(problem, published, follows)
    most = MOST_WRONG_WITH_FAULT if wrong else MOST_WRONG
    wrong += welfare_faults(problem, published, follows)
    wrong += period_faults(problem, published, follows)
    wrong += hourly_faults(problem, published, follows)
    wrong += surplus_faults(problem, published, follows)
    return published, [*mostly_wrong_faults(published, wrong, most), *wrong, *sums.sum_faults(problem, published)]


def mostly_wrong_faults(published: Results, wrong: list[FaultLine], most: float) -> list[FaultLine]:
    """A fault if more than this part of the lines is wrong; else none."""
    lines = {line.partition(": ")[0] for line in wrong}
    if len(lines) <= most * len(published.lines):
        return []
    return [FaultLine(f"{results.ANOTHER}: {len(lines)} of their {len(published.lines)} lines are wrong", "journal")]


def selection_faults(problem: Problem, published: Results, follows: Outcome) -> Iterator[FaultLine]:
    for place, kind, words in selection.link_breaches(problem, published.accepted):
        yield subject_fault(words, kind, published, f"block {problem.blocks[place]}")
    for place, loss in selection.losses_of(problem, published.accepted, follows.surpluses).items():
        block = f"block {problem.blocks[place]}"
        family = " together with its accepted descendants" if selection.accepted_rescuers(problem, published.accepted, place) else ""
        yield subject_fault(f"{block}: it is accepted and loses {loss}{family}", "loss", published, block)
    for number, found in follows.cleared.items():
        if found is None:
            words = f"period {number}: no execution balances the accepted blocks"
            yield subject_fault(words, "balance", published, f"period {number}")


def welfare_faults(problem: Problem, published: Results, follows: Outcome) -> Iterator[FaultLine]:
    if follows.welfare is not None and published.welfare != follows.welfare:
        shown, right = (f"{welfare} ({problem.euros_text(welfare)} EUR)" for welfare in (published.welfare, follows.welfare))
        words = f"the welfare is {shown}, and of these executions it is {right}"
        yield subject_fault(words, "welfare", published, "the welfare")


def right_price_text(cleared: Clearing) -> str:
    if cleared.low == cleared.high:
        return f"the only supporting price is {cleared.price} (cents)"
    return f"the supporting prices go from {cleared.low} to {cleared.high} (cents), and the rule takes {cleared.price}, {cleared.case}"


def period_faults(problem: Problem, published: Results, follows: Outcome) -> Iterator[FaultLine]:
    for number, found in follows.cleared.items():
        if found is None:
            continue
        about = f"period {number}"
        price, volume = published.prices[number - 1], published.volumes[number - 1]
        if price != found.price:
            yield subject_fault(f"{about}: the price is {price}; {right_price_text(found)}", "price", published, about)
        if volume != follows.bought[number]:
            words = f"{about}: the volume is {volume}, and the executed buys make {follows.bought[number]}"
            yield subject_fault(words, "volume", published, about)


def hourly_faults(problem: Problem, published: Results, follows: Outcome) -> Iterator[FaultLine]:
    right = results.executed_by_row(problem, follows.cleared)
    hourly = [row for row in problem.rows if row.order.kind == "hour"]
    for row, executed in zip(hourly, published.executed):
        found, wanted = follows.cleared[row.order.volumes[0][0]], right[row.who, row.name]
        if found is not None and executed != wanted:
            gives = f"the rule gives {wanted} ({limit_text(row, found.price)})"
            yield subject_fault(f"hour {row}: {executed} is executed, and {gives}", "executed", published, f"hour {row}")


def surplus_faults(problem: Problem, published: Results, follows: Outcome) -> Iterator[FaultLine]:
    for place, (block, surplus) in enumerate(zip(problem.blocks, follows.surpluses)):
        if surplus is not None and published.surpluses[place] != surplus:
            about = f"block {block}"
            words = f"{about}: the surplus is {published.surpluses[place]}, and at the prices {surplus}"
            yield subject_fault(words, "surplus", published, about)
