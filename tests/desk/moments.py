"""The moments of a run of a desk, at which it may crash."""

from collections.abc import Callable, Iterable, Iterator, Sequence

from desk.device import CUT, INPUT, OUTPUT, SYNC, WRITE, Event
from shared.crash_files import DiskMoment, UnsyncedChange, changes_with, count_acknowledged


def moments_of_run(
    events: Iterable[Event],
    base: bytes = b"",
    changes: Sequence[UnsyncedChange] = (),
    safe: int = 0,
    count_of_records_in: Callable[[int], int] = lambda lines: 0,
) -> Iterator[DiskMoment]:
    """The moments of a run. `count_of_records_in` says how many records are given by this many lines of input."""
    lines, given, begun = 0, count_of_records_in(0), count_of_records_in(0)
    for event in events:
        if event.kind == INPUT and event.bytes:
            lines += event.bytes.count(b"\n")
            given = count_of_records_in(lines)
        elif event.kind == OUTPUT and event.bytes:
            safe = count_acknowledged(event.bytes, safe)
        elif event.is_change and (event.kind == WRITE or event.answer >= 0):
            yield DiskMoment(base, tuple(changes), safe, begun)
            begun = given
            if event.kind == SYNC:
                base, changes = DiskMoment(base, tuple(changes), safe, given).seen_file, ()
            elif event.kind == CUT:
                changes = [*changes, UnsyncedChange(event.at, b"")]
            elif event.bytes:
                changes = changes_with(changes, UnsyncedChange(event.at, event.bytes))
    yield DiskMoment(base, tuple(changes), safe, begun)
