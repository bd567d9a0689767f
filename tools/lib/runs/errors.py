"""How a run of the program, or a call of the library for C, fails."""

FAILURES = (4, 5, 70)  # statuses of `dam` and its launcher that aren't about the journal: see docs/FORMATS.md


class Fault(Exception):
    """A file, text or date that can't be read, or a run of the program that failed: `status` is the program's, or None."""

    def __init__(self, words: str, status: int | None = None) -> None:
        super().__init__(words)
        self.status = status

    def is_failure(self) -> bool:
        """Whether the run failed for another reason than the journal: memory, a device, a signal, or a missing program."""
        return self.status is not None and (self.status < 0 or self.status in FAILURES)


class TimedOut(Fault):
    """A run of the program that took longer than its timeout."""


class Unstarted(Fault):
    """A run of the program that didn't begin: it is missing or can't be run, or memory or open files ran out. Or a library like that."""


class Wrong(Fault):
    """Results of a run of the program that break the rules of the market."""


class Lost(Fault):
    """The executor of all journals has gone away, so that no other has an answer either."""
