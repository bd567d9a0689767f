"""The files of an audit of a day, and a record of each."""

import hashlib
from argparse import Namespace
from types import SimpleNamespace

from ..base import place
from ..base.json_value import JsonObject
from ..day import day_files
from ..journal import journal
from ..results import results
from ..results.faults import FaultLine
from ..tables import kinds
from ..tool import exits, file_io

Options = Namespace | SimpleNamespace
HINTS = {
    kinds.REPLIES: "; --replies checks replies",
    kinds.DAY: "; give it as the only file",
    kinds.ORDERS: place.with_commands_of_here("; tools/table --journal makes a journal of it"),
}


class Inputs:
    """The files that the options of a command line name. `records` has one of each file that was begun, and `odd` the differences of
    encoding."""

    def __init__(self, options: Options) -> None:
        self.options = options
        self.records: list[JsonObject] = []
        self.odd: list[FaultLine] = []

    def read_and_note(self, role: str, path: str) -> bytes:
        told: JsonObject = {"role": role, "file": str(path), "bytes": None, "sha256": None}
        self.records.append(told)
        data = file_io.read_bytes(path)
        told.update(bytes=len(data), sha256=hashlib.sha256(data).hexdigest())
        return data

    def read_journal_and_published_bytes(self) -> tuple[journal.Journal, bytes | None]:
        """The journal, and the bytes of the results or replies. Only --sent allows none."""
        options = self.options
        if options.results is None:
            return self.read_day()
        written, data = self.read_and_note("journal", options.journal), self.read_and_note("results", options.results)
        day_files.refuse_other_kind(options.journal, written, kinds.JOURNAL, HINTS)
        day_files.refuse_other_kind(options.results, data, kinds.REPLIES if options.replies else kinds.RESULTS, HINTS)
        return day_files.require_journal(options.journal, written), data

    def read_day(self) -> tuple[journal.Journal, bytes | None]:
        """The same from the text of a day."""
        options = self.options
        day = self.read_and_note("day", options.journal)
        written, data = results.journal_and_results(day) or (day, None)
        if data is not None and day[len(written) :].startswith(b"results\r") and b"\r" not in data:
            self.odd.append(FaultLine("the line 'results' ends with CR LF instead of LF alone", "encoding"))
        day_files.refuse_other_kind(options.journal, written, kinds.JOURNAL, HINTS)
        if data is None:
            if options.sent is None or options.best:
                raise exits.Stop(day_files.no_results_message(options.journal))
            self.records[0]["role"] = "journal"
            return day_files.require_journal(options.journal, written), None
        read = day_files.require_journal(options.journal, written)
        if journal.journal_text(read).encode() != written:
            self.odd.append(FaultLine("the journal of the day isn't in its written form, but has the same commands", "encoding"))
        return read, data
