"""A line for each figure of the bench: its name, the value, its quartiles, its target, and the verdict: whether the target holds.

A value is the median of several runs, with their quartiles. The quartiles of a multiple are the least and the greatest that the quartiles
of both make. A target `holds` if the median and both quartiles meet it, and is `MISSED` if none of them does. Otherwise the verdict is
`unclear`: the runs differ too much to decide."""

import enum
import functools
import math
import statistics
from collections.abc import Callable, Mapping, Sequence
from typing import NamedTuple

from lib.tool import exits
from running import BenchFault, TimedRun

Values = Sequence[float]  # those of several runs
Text = Callable[[float], str]  # of a value with its unit
ONE_RUN = "one run"  # in place of quartiles


class Verdict(enum.Enum):
    HOLDS, MISSED, UNCLEAR, NONE = "holds", "MISSED", "unclear", ""  # none without a target


class Label(NamedTuple):
    """The key of a figure in its part, such as `replay/wall`, its name, and which of those of this name it is, such as that of a book."""

    key: str
    name: str
    variant: str = ""


class Figure(NamedTuple):
    """A figure: its value, quartiles and target as texts with their units, and its median as a number, in seconds or in the unit of the
    value. A figure without a value has no median."""

    key: str
    name: str
    variant: str
    value: str
    quartiles: str
    target: str
    verdict: Verdict
    details: str
    median: float | None

    @property
    def sort_key(self) -> float:
        return math.inf if self.median is None else self.median

    @property
    def whole_name(self) -> str:
        return f"{self.name}: {self.variant}" if self.variant else self.name

    @property
    def is_wrong(self) -> bool:
        return self.verdict in (Verdict.MISSED, Verdict.UNCLEAR)

    @property
    def line(self) -> tuple[str, ...]:
        return self.whole_name, self.value, self.quartiles, self.target, self.verdict.value, self.details


class Side(enum.Enum):
    """On which side of its limit a target has a figure."""

    LEAST, MOST = "at least", "at most"


class Target(NamedTuple):
    """The value that a figure must have at least or at most."""

    side: Side
    limit: float

    def is_met(self, value: float) -> bool:
        return value <= self.limit if self.side is Side.MOST else value >= self.limit

    def text(self, shown: Text) -> str:
        return f"{self.side.value} {shown(self.limit)}"


at_most, at_least = functools.partial(Target, Side.MOST), functools.partial(Target, Side.LEAST)
Targets = Mapping[str, Target]  # by the key of a figure, or by the first word of the key


def target_of(targets: Targets, key: str) -> Target:
    if target := targets.get(key) or targets.get(key.partition("/")[0]):
        return target
    raise BenchFault(f"TARGETS has no '{key}'")


class Quartiles(NamedTuple):
    """The median of several runs, between the lower and the upper quartile. One run has no others."""

    lower: float
    median: float
    upper: float


def quartiles_of(values: Values) -> Quartiles:
    return Quartiles(*(statistics.quantiles(values, method="inclusive") if len(values) > 1 else [values[0]] * 3))


def seconds_text(value: float) -> str:
    """A time with a unit that suits it."""
    for unit, size in (("s", 1), ("ms", 1e-3), ("us", 1e-6)):
        if value >= 0.9995 * size:  # which rounds to it
            return f"{value / size:.3g} {unit}"
    return f"{value / 1e-9:.3g} ns"


MIB, PER_SECOND = "{:.1f} MiB".format, "{:,.0f} a second".format


def multiple_text(value: float, digits: int = 2) -> str:
    """A multiple, with this number of digits after the point, or after its zeros there."""
    zeros = max(-1 - math.floor(math.log10(value)), 0)
    return f"{value:.{digits + zeros}f} x" if value < 100 else f"{value:,.0f} x"


def span_text(least: str, greatest: str) -> str:
    """From one figure to another, with their unit once if it is the same."""
    number, _, unit = least.partition(" ")
    return f"{number if unit and greatest.endswith(f' {unit}') else least} to {greatest}"


class Figures:
    """The figures of a part, each of which is printed, and their targets."""

    def __init__(self, targets: Targets) -> None:
        self.targets, self.added = targets, list[Figure]()

    def add(self, figure: Figure) -> None:
        self.added.append(figure)
        print("{:<76} {:>10}  {:<18} {:<18} {:<7} {}".format(*figure.line).rstrip(), flush=True)

    def add_quartiles(self, label: Label, value: Quartiles, shown: Text, details: str) -> None:
        """Adds a median between its quartiles, with the verdict on its target."""
        quartiles = ONE_RUN if value.lower == value.upper else span_text(shown(value.lower), shown(value.upper))
        target = target_of(self.targets, label.key)
        is_met = [target.is_met(each) for each in value]
        verdict = Verdict.HOLDS if all(is_met) else Verdict.UNCLEAR if any(is_met) else Verdict.MISSED
        self.add(Figure(*label, shown(value.median), quartiles, target.text(shown), verdict, details, median=value.median))

    def add_median(self, label: Label, values: Values, shown: Text = seconds_text, details: str = "") -> None:
        self.add_quartiles(label, quartiles_of(values), shown, details)

    def add_ratio(self, label: Label, ours: Values, theirs: Values, shown: Text = seconds_text, note: str = "") -> None:
        """Adds the median of our values as a multiple of the median of theirs; the details have both."""
        self.add_multiple(label, quartiles_of(ours), quartiles_of(theirs), shown, note)

    def add_multiple(self, label: Label, our: Quartiles, their: Quartiles, shown: Text = seconds_text, note: str = "") -> None:
        target = target_of(self.targets, label.key)
        value = Quartiles(our.lower / their.upper, our.median / their.median, our.upper / their.lower)
        # a figure on the wrong side of its target doesn't look equal to it
        is_equal = multiple_text(value.median) == multiple_text(target.limit)
        digits = 3 if is_equal and not target.is_met(value.median) else 2
        details = "; ".join(filter(None, [f"{shown(our.median)} and {shown(their.median)}", note]))
        self.add_quartiles(label, value, lambda each: multiple_text(each, digits), details)

    def add_times(self, key: str, name: str, ours: Sequence[TimedRun], theirs: Sequence[TimedRun]) -> None:
        """Adds the wall and the processor time of runs as multiples of those of theirs."""
        for field in ("wall", "processor"):
            one, other = ([getattr(each, field) for each in runs] for runs in (ours, theirs))
            self.add_ratio(Label(f"{key}/{field}", name, f"{field} time"), one, other)

    def add_unended(self, label: Label, least: float, shown: Text = seconds_text) -> None:
        """Adds a figure that is only known to be above this, since a program didn't end."""
        target = target_of(self.targets, label.key)
        verdict = Verdict.HOLDS if target.is_met(least) else Verdict.MISSED
        self.add(Figure(*label, f"> {shown(least)}", "", target.text(shown), verdict, details="", median=least))

    def add_without_value(self, label: Label, why: str) -> None:
        """Adds a figure that decides nothing."""
        self.add(Figure(*label, "?", quartiles="", target="", verdict=Verdict.NONE, details=why, median=None))


def print_verdicts_and_return_status(figures: Sequence[Figure]) -> int:
    """Prints the figures whose targets are missed or unclear, and the number of each verdict. The status is 1 if a target is missed."""
    for figure in figures:
        if figure.is_wrong:
            print(*figure.line, sep="\t")
    held, missed, unclear, _ = (sum(figure.verdict is verdict for figure in figures) for verdict in Verdict)
    print(f"{held} figures hold, {missed} are missed, {unclear} are unclear")
    return exits.DIFFERS if missed else exits.DONE
