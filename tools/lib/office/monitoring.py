"""The log, one JSON object a line on standard error, and the counts for Prometheus. Neither ever has a token, a record or a name that a
stranger chose."""

import json
import logging
import sys
import time
from collections.abc import Callable
from typing import TextIO

COUNTERS = (  # 0 at first: an alert sees the first one only if 0 came before
    *("batches_total", "desk_ends_total", "entries_total", "publish_faults_total", "wrong_tokens_total"),
    *("connections_late_total", "connections_malformed_total", "connections_refused_total"),
)
BOUNDS = (0.005, 0.01, 0.025, 0.05, 0.1, 0.25, 0.5, 1, 2.5, 5)  # seconds, of the buckets of a histogram
DEFECT_SECONDS = 60  # between two lines on defects of one kind in a library


class Log:
    def __init__(self, stream: TextIO | None = None) -> None:
        self.stream = stream or sys.stderr

    def write_event(self, event: str, **details: object) -> None:
        """Logs an event. A log that can't be written is lost, but nothing else."""
        made: dict[str, object] = {"time": time.strftime("%Y-%m-%dT%H:%M:%SZ", time.gmtime()), "event": event, **details}
        try:
            print(json.dumps(made), file=self.stream, flush=True)
        except (OSError, ValueError):
            pass


class Defects(logging.Handler):
    """Logs the reports of a library by the kind of its exception alone, once a minute: the words of a report, and their number, may be a
    stranger's."""

    def __init__(self, log: Log, now: Callable[[], float] = time.monotonic) -> None:
        super().__init__(logging.ERROR)
        self.log, self.now = log, now
        self.last_times: dict[str, float] = {}  # when each kind was logged last

    def emit(self, record: logging.LogRecord) -> None:
        found, now = record.exc_info[0] if record.exc_info else None, self.now()
        kind = found.__name__ if found else "unknown"
        if now - self.last_times.get(kind, -DEFECT_SECONDS) >= DEFECT_SECONDS:
            self.last_times[kind] = now
            self.log.write_event("defect", library=record.name, kind=kind)


class Counts:
    """Counters, by a name and one label, and the histogram of the time from a command's arrival to its acknowledgement."""

    def __init__(self) -> None:
        self.counters = {(name, ""): 0 for name in COUNTERS}
        self.buckets, self.sum, self.count = [0] * len(BOUNDS), 0.0, 0

    def add(self, name: str, label: str = "", by: int = 1) -> None:
        self.counters[name, label] = self.counters.get((name, label), 0) + by

    def note_seconds(self, seconds: float) -> None:
        self.sum, self.count = self.sum + seconds, self.count + 1
        for at, bound in enumerate(BOUNDS):
            self.buckets[at] += seconds <= bound

    def prometheus_text(self, gauges: list[tuple[str, int]]) -> str:
        """The counts in the text format of Prometheus; `gauges` are pairs of a name with its labels, and a value."""
        lines = [f"dam_office_{name}{label} {value}" for (name, label), value in sorted(self.counters.items())]
        lines += [f"dam_office_{name} {value}" for name, value in gauges]
        buckets = [*zip(map(str, BOUNDS), self.buckets), ("+Inf", self.count)]
        lines += [f'dam_office_acknowledged_seconds_bucket{{le="{bound}"}} {count}' for bound, count in buckets]
        lines += [f"dam_office_acknowledged_seconds_sum {self.sum:.6f}", f"dam_office_acknowledged_seconds_count {self.count}"]
        return "".join(f"{line}\n" for line in lines)
