"""The audit of many days: each in a process of its own, so that one which breaks, or takes all memory, doesn't end the rest."""

import json
import os
import subprocess
import threading
import zlib
from argparse import Namespace
from collections.abc import Iterator, Sequence
from pathlib import Path

from ..base import text
from ..base.json_value import JsonObject
from ..day import day_files
from ..process import ending
from ..process.progress import StepBar
from ..runs.by_program import Running
from ..tool import exits, file_io, modules, output
from . import day_audit, day_pairs, record, verdict

MORE_SECONDS = 600  # that the audit of a day may take besides its search, before it is taken for one that hangs
MOST_SECONDS = 2_000_000  # that it may take at all: the system waits for no more than 2**31 ms
AWAKE = 1  # seconds after which the main thread looks for a signal that another thread got, as after SIGSTOP
TOOL = Path(__file__).resolve().parents[2] / "audit"
MOST_SHOWN = exits.LONGEST_PATH + 200  # characters of the first fault, which may begin with a file's name
PART = 1 << 16  # bytes of a record that are packed or printed at once
READING = threading.Lock()  # held while a record is read: it may have many faults, and two at once would take more memory
# Of the statuses of the days, the first that one of them has is the status of all.
WORST = [exits.DIFFERS, exits.FAILED, exits.NO_INPUT, exits.UNDECIDED, exits.ENCODING]
HEADS = ["day", "verdict", "periods", "hourly", "blocks", "accepted", "welfare, EUR", "refused", "faults", "seconds", "first fault"]
TO_THE_LEFT = {HEADS.index(head) for head in ("day", "verdict", "first fault")}


def options_of(args: Namespace) -> list[str]:
    words = ["--best"] if args.best else []
    words += ["--by", args.by] if args.by else []
    return words + (["--seconds", str(args.seconds)] if args.seconds is not None else [])


def path_that_is_no_dash(path: Path) -> str:
    """The name of a file on the command line of a day; `-` alone would be standard input."""
    return f"./{path}" if str(path) == "-" else str(path)


def seconds_of(args: Namespace) -> float:
    """How long the process of a day may take."""
    return min(MORE_SECONDS + (day_audit.SECONDS if args.seconds is None else args.seconds) * args.best, MOST_SECONDS)


def run_audit(pair: day_pairs.Pair, options: list[str], running: Running, seconds: float = MORE_SECONDS, is_json: bool = False) -> JsonObject:
    """As much as is kept of the record of the audit of a day, also if the audit fails."""
    if pair.unread is not None:
        return kept_part(record_without_verdict(pair, exits.NO_INPUT, pair.unread), is_json)
    try:
        status, out, err = capture_ended(pair, options, running, seconds)
        with READING:
            return kept_part(record_of_process(pair, status, out, err), is_json, out)
    except subprocess.TimeoutExpired as fault:
        made = record_without_verdict(pair, exits.FAILED, f"its process didn't end in {fault.timeout:g} seconds")
    except OSError as fault:
        made = record_without_verdict(pair, exits.FAILED, f"its process can't be started: {fault.strerror}")
    except Exception as fault:
        made = record_without_verdict(pair, exits.FAILED, ending.failure_text(fault))
    return kept_part(made, is_json)


def kept_part(day_record: JsonObject, is_json: bool, out: bytes = b"") -> JsonObject:
    """A day's record with the first fault alone, and the number of all; with --json also packed, as it is printed. `out` is the text of a
    process with the same record, if it has faults."""
    short = {**day_record, "faults": day_record["faults"][:1], "count": len(day_record["faults"])}
    if not is_json:
        return short
    if not day_record["faults"]:
        out = json.dumps({key: text.for_json(value) for key, value in day_record.items() if key != "name"}, indent=1).encode()
    return {**short, "printed": compressed_lines(day_record["name"], out.strip())}


def compressed_lines(name: str, out: bytes) -> bytes:
    """The lines of a day's record in the record of all days, compressed. `out` is the text of the record without the day's name."""
    stream = zlib.compressobj(1)
    parts = [stream.compress(f'  {{\n   "name": {json.dumps(text.for_json(name))},'.encode())]
    for at in range(len(b"{"), len(out), PART):
        parts.append(stream.compress(out[at : at + PART].replace(b"\n", b"\n  ")))
    return b"".join([*parts, stream.flush()])


def decompressed_parts(data: bytes) -> Iterator[bytes]:
    stream = zlib.decompressobj()
    while data:
        yield stream.decompress(data, PART)
        data = stream.unconsumed_tail
    yield stream.flush()


def record_parts(status: int, records: Sequence[JsonObject]) -> Iterator[bytes]:
    """The record of all days, in parts: the records of the days aren't unpacked together."""
    before, _, end = json.dumps({**record.record_of_days(status, records), "days": [[]]}, indent=1).encode().rpartition(b"  []")
    for made in records:
        yield before
        yield from decompressed_parts(made["printed"])
        before = b",\n"
    yield end + b"\n"


def capture_ended(pair: day_pairs.Pair, options: list[str], running: Running, seconds: float) -> tuple[int, bytes, bytes]:
    """The status of the process of a day, its output and its lines on standard error. Until it ends, it is among the `running`; after
    this number of seconds it is ended."""
    files = [path_that_is_no_dash(path) for path in (pair.journal, pair.results) if path is not None]
    words = [*modules.words_of_this_python(), os.fspath(TOOL), "--json", *options, "--", *files]
    with running.running_process(words, stdin=subprocess.DEVNULL, stdout=subprocess.PIPE, stderr=subprocess.PIPE) as process, process:
        try:
            out, err = process.communicate(timeout=seconds)
        except BaseException:
            process.kill()
            raise
    return process.returncode, out, err


def record_of_process(pair: day_pairs.Pair, status: int, out: bytes, err: bytes) -> JsonObject:
    try:
        made = json.loads(out)
        if made["status"] == status:
            if pair.missing and made["message"] == day_files.no_results_message(path_that_is_no_dash(pair.journal)):
                made["message"] = pair.missing
            return {"name": pair.name, **made}
    except (ValueError, KeyError, TypeError):
        pass
    said = err.decode(errors="replace").strip().splitlines()
    how = said[-1] if said else f"its process ended with {status}"
    return record_without_verdict(pair, exits.FAILED, how.removeprefix("audit: "))


def record_without_verdict(pair: day_pairs.Pair, status: int, message: str | None) -> JsonObject:
    """A record of a day without a verdict, of which no file was read."""
    files = [(role, path_that_is_no_dash(path)) for role, path in (("journal", pair.journal), ("results", pair.results)) if path]
    return {"name": pair.name, **record.unread_record(verdict.OF_STATUS[status], status, message, files)}


class Audits:
    """The audits of all days, which threads take one by one. `records` has those that are made, in the order of the days."""

    def __init__(self, pairs: Sequence[day_pairs.Pair], options: list[str], seconds: float, is_json: bool) -> None:
        self.pairs, self.options, self.seconds, self.is_json, self.running = pairs, options, seconds, is_json, Running()
        self.records: list[JsonObject | None] = [None] * len(pairs)
        self.places = iter(range(len(pairs)))
        self.lock, self.done = threading.Lock(), threading.Semaphore(0)
        self.wrong = 0  # how many of the records are of wrong days

    def take_next_place(self) -> int | None:
        """The place of the next day that no thread has taken; None if there is none."""
        with self.lock:
            return next(self.places, None)

    def run_audits_and_keep_records(self) -> None:
        """The work of a thread: audits days as long as there are any."""
        while (at := self.take_next_place()) is not None:
            try:
                made = run_audit(self.pairs[at], self.options, self.running, self.seconds, self.is_json)
                self.keep_record(at, made)
            except MemoryError:
                pass  # it gets its record at the end
            finally:
                self.done.release()

    def keep_record(self, at: int, day_record: JsonObject) -> None:
        with self.lock:
            self.records[at] = day_record
            self.wrong += day_record["status"] == exits.DIFFERS

    def start_threads(self, jobs: int) -> None:
        """Starts threads, or fewer if memory is short, and does the work itself if there is none."""
        for number in range(jobs):
            try:
                threading.Thread(target=self.run_audits_and_keep_records, daemon=True).start()
            except RuntimeError:
                if not number:
                    self.run_audits_and_keep_records()
                return

    def end_processes(self) -> None:
        """No day is begun any more, and those that run end."""
        with self.lock:
            self.places = iter(())
        self.running.kill_all()


def run_audits(
    pairs: Sequence[day_pairs.Pair], options: list[str], jobs: int, bar: StepBar, seconds: float = MORE_SECONDS, is_json: bool = False
) -> list[JsonObject]:
    """As much as is kept of the records of all days, in their order; each may take this number of seconds."""
    audits = Audits(pairs, options, seconds, is_json)
    try:
        audits.start_threads(jobs)
        for _ in pairs:
            while not audits.done.acquire(timeout=AWAKE):
                pass
            bar.count_and_show(1, f"{audits.wrong} wrong" if audits.wrong else "")
    finally:
        audits.end_processes()
        bar.erase()
    without = ending.failure_text(MemoryError())
    return [made or kept_part(record_without_verdict(pair, exits.FAILED, without), is_json) for pair, made in zip(pairs, audits.records)]


def row_of_day(day_record: JsonObject) -> list[str | int]:
    day, faults = day_record["day"] or {}, day_record["faults"]
    words = faults[0]["words"].split("\n")[:1] if faults else (day_record["message"] or "").split("\n")
    first = "; ".join(map(str.strip, words))
    welfare = day.get("welfare_eur")
    numbers = [day.get(name, "") for name in ("periods", "hourly_orders", "blocks", "accepted")]
    shown = text.grouped(welfare) if welfare is not None else ""
    ends = [day.get("refused", ""), day_record["count"], f"{day_record['seconds']:.1f}", text.safe(first, MOST_SHOWN)]
    return [text.safe(day_record["name"]), day_record["verdict"], *numbers, shown, *ends]


def total_row(records: Sequence[JsonObject]) -> list[str | int]:
    """The last row: how many days there are of each verdict, and the sums."""
    told = ", ".join(f"{count} {kind}" for kind, count in record.verdict_counts(records).items() if count)

    def summed(name: str) -> int:
        return sum((made["day"] or {}).get(name, 0) for made in records)

    sums = [summed(name) for name in ("hourly_orders", "blocks", "accepted")]
    faults, seconds = sum(made["count"] for made in records), sum(made["seconds"] for made in records)
    return [text.counted(len(records), "day"), told, "", *sums, "", summed("refused"), faults, f"{seconds:.1f}", ""]


def table_lines(records: Sequence[JsonObject]) -> Iterator[str]:
    return output.aligned_lines([HEADS, *map(row_of_day, records), total_row(records)], TO_THE_LEFT)


def status_of(records: Sequence[JsonObject]) -> int:
    found = {made["status"] for made in records}
    return next((status for status in WORST if status in found), exits.DONE)


def read_and_audit_days_or_stop(args: Namespace) -> list[JsonObject]:
    """As much as is kept of the records of all days."""
    notes: list[str] = []
    pairs = day_pairs.read_pairs_or_stop(args.days, notes)
    file_io.refuse_own_outputs(path for pair in pairs for path in (pair.journal, pair.results) if path is not None)
    for note in [] if args.quiet else notes:
        exits.print_note("audit", f"{exits.shown(args.days)}: {note}")
    jobs = min(args.jobs or os.cpu_count() or 1, len(pairs))
    bar = StepBar("audit", len(pairs), "days", args.quiet)
    return run_audits(pairs, options_of(args), jobs, bar, seconds_of(args), args.json)
