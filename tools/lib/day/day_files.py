"""The files of a day: a journal, and its results."""

from collections.abc import Mapping

from ..base import place, text
from ..journal import book, journal
from ..lint import lint
from ..results import encodings, results, selection
from ..tables import kinds
from ..tool import exits, file_io

SEE_AUDIT = place.with_commands_of_here("see tools/audit")


def read_day_texts(path: str, results_path: str | None) -> tuple[bytes, bytes]:
    """The bytes of a journal and of results: from two files, or from one with the text of a day."""
    data = file_io.read_bytes(path)
    if results_path is not None:
        return data, file_io.read_bytes(results_path)
    texts = results.journal_and_results(data)
    if texts is None and kinds.kind_of_bytes(data) in kinds.FILES:
        refuse_other_kind(path, data, kinds.JOURNAL)
    if texts is None:
        raise exits.Stop(no_results_message(path))
    return texts


def no_results_message(path: str) -> str:
    return f"{exits.shown(path)} has no line 'results': give the results file after the journal"


def refuse_other_kind(path: str, data: bytes, right: str, hints: Mapping[str, str] | None = None) -> None:
    """Ends the tool if a text looks like one of another kind. Hints give advice on some kinds."""
    kind = kinds.kind_of_bytes(data)
    if kind is not None and kind != right:
        advice = kinds.ADVICE.get(kind) if right == kinds.JOURNAL or kind in kinds.PACKED else None
        hint = (hints or {}).get(kind, f"; {advice}" if advice else "")
        raise exits.Stop(f"{exits.shown(path)} {'is' if kind in kinds.FILES else 'has'} {kind} instead of {right}{hint}")


def require_journal(path: str, data: bytes) -> journal.Journal:
    try:
        return journal.parse_journal(data)
    except journal.JournalFault as fault:
        raise exits.Stop(f"{exits.shown(path)} isn't a journal: {fault}{lint.first_fault_text(data)}") from None


class Day:
    """A journal with its results, whose form is right. `text` has the bytes of the results. `wrong` lists where they break the rules, and
    `odd` how they are encoded in another way than `dam` does it."""

    def __init__(self, read: journal.Journal, results_data: bytes, path: str = "the journal", results_path: str = "the text") -> None:
        """From a journal that was read, and from the bytes of its results. Ends the tool if they have no results of this journal."""
        self.set_contents_or_stop(read, results_data, path, results_path)

    @classmethod
    def read_or_stop(cls, path: str, results_path: str | None) -> "Day":
        """The day of these files."""
        journal_data, results_data = read_day_texts(path, results_path)
        read = require_journal(path, journal_data)
        if results_path is not None:
            refuse_other_kind(results_path, results_data, kinds.RESULTS)
        return cls(read, results_data, path, results_path or path)

    def __repr__(self) -> str:
        blocks = len(self.problem.blocks)
        hourly = text.counted(len(self.problem.rows) - blocks, "hourly order")
        wrong = f", {text.counted(len(self.wrong), 'fault')}" if self.wrong else ""
        welfare = f"welfare {self.problem.euros_text(self.published.welfare)} EUR"
        return f"<Day: {self.problem.periods} periods, {hourly}, {text.counted(blocks, 'block')}, {welfare}{wrong}>"

    def set_contents_or_stop(self, read: journal.Journal, results_data: bytes, path: str, results_path: str) -> None:
        """Sets all that follows from a journal and the bytes of its results. Ends the tool if they have no results of this journal."""
        from ..results import check

        self.journal, self.text = read, results_data
        self.book, self.reasons = book.book_and_refusals(read)
        if not self.book.closed:
            raise exits.Stop(f"no command of {exits.shown(path)} closes the book, so it has no results")
        self.problem = selection.Problem(self.book)
        data, self.odd = encodings.plain_text_and_faults(results_data)
        published, self.wrong = check.results_and_faults(self.problem, data)
        if published is None:
            raise exits.Stop(f"{exits.shown(results_path)} has no results of this journal: {self.wrong[0]}")
        self.published, self.outcome = published, selection.outcome(self.problem, published.accepted)

    @property
    def said(self) -> results.Results:
        """The published numbers, by the name that `dam_tools` first gave them, for the programs that use it."""
        return self.published

    def print_fault_and_return_status(self, tool: str, quiet: bool = False) -> int:
        """The status of a tool that has shown the results. It says on standard error if they are wrong, or encoded in another way."""
        if self.wrong and not quiet:
            exits.print_note(tool, f"the results break the rules ({self.wrong[0]}): {SEE_AUDIT}")
        elif self.odd and not quiet:
            exits.print_note(tool, f"the encoding of the results differs ({self.odd[0]}): {SEE_AUDIT}")
        return exits.DIFFERS if self.wrong else exits.DONE


def refuse_unknown_participant(who: str | None, read: journal.Journal) -> None:
    """Ends the tool if a participant is asked for that has no command in a journal, such as one whose name is misspelt."""
    if who and who not in {getattr(entry, "who", None) for entry in read.commands}:
        raise exits.Stop(f"{who} has no command in the journal")
