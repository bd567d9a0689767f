"""How many tests passed, failed and were left out."""

import contextlib
import re
import traceback
from collections import Counter
from collections.abc import Iterator, Sequence

MOST_SHOWN = 20  # failures of one kind
KIND = re.compile(r"[^\d:\n]*")  # failures whose texts are equal up to a number or a colon are of one kind


class Counts:
    """The counts of a run. The lines of its failures name the part that it is in, if it has parts."""

    def __init__(self, passed: int = 0, failed: int = 0) -> None:
        self.passed, self.failed, self.skipped = passed, failed, 0
        self.part = ""
        self.kinds: Counter[str] = Counter()  # how many failures of each kind this part has

    def check(self, about: str, is_right: bool) -> None:
        self.passed += is_right
        if not is_right:
            self.count_and_print_failure(about)

    def count_and_print_runs(self, runs: int, wrong: Sequence[str]) -> None:
        """Counts runs, and the texts of their failures. A run may have several."""
        self.passed += runs - min(runs, len(wrong))
        for about in wrong:
            self.count_and_print_failure(about)

    def count_and_print_failure(self, about: str) -> None:
        """The first failures of a kind are printed, the others only counted."""
        kind = KIND.match(about)[0].strip()  # type: ignore[index]  # it matches any text
        self.failed += 1
        self.kinds[kind] += 1
        if self.kinds[kind] <= MOST_SHOWN:
            print(f"differs: {self.part}{about}", flush=True)

    @contextlib.contextmanager
    def counting_exceptions(self, about: str) -> Iterator[None]:
        """An exception in the block is printed and counted as a failure, so that the other tests run."""
        try:
            yield
        except Exception as error:
            traceback.print_exc()
            self.count_and_print_failure(f"{about}: {type(error).__name__}: {error}")

    def begin_part(self, name: str) -> None:
        self.end_part_and_print_others()
        self.part = f"{name}: "

    def end_part_and_print_others(self) -> None:
        """Says how many failures of the part weren't printed."""
        for kind, count in self.kinds.items():
            if count > MOST_SHOWN:
                print(f"differs: {self.part}{kind}: {count - MOST_SHOWN:,} more of this kind", flush=True)
        self.kinds.clear()
        self.part = ""

    def count_and_print_left_out(self, about: str, count: int = 1) -> None:
        self.skipped += count
        print(f"left out: {about}", flush=True)

    def print_totals_and_return_status(self) -> int:
        """Prints the last line, which the check reads, and returns the status."""
        self.end_part_and_print_others()
        print(f"{self.passed} passed, {self.failed} failed" + (f", {self.skipped} skipped" if self.skipped else ""))
        return 1 if self.failed else 0
