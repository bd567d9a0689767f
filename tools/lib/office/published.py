"""The published files of a day, as participants may see them: until the journal is published, a statement says nothing of others'
orders."""

import hashlib
import itertools
import json
import re
import threading
from collections.abc import Callable

from ..base.json_value import Json, JsonObject
from ..results import judgement
from ..seal import heads
from . import folder
from .ledger import Contradiction, Ledger

# How a reason of a rejected block begins, which its participant can compute from the prices and its own orders.
NAMES = r"[A-Z0-9-]+(?:, [A-Z0-9-]+)*(?: and [A-Z0-9-]+)?"
OWN_GAIN = re.compile(rf"(?:with {NAMES} it )?would gain (?:nothing|[0-9.,]+ EUR) at the prices")
# How it goes on, by its code, until the journal is published. The published words compare the result with another selection: its welfare,
# its losses and the periods that don't balance reveal others' limits and volumes. Five codes share one text, because the code alone reveals
# something of them.
MOST_GAIN = "but if it were accepted, a block would lose, a period wouldn't balance, or the welfare wouldn't be greater"
HIDDEN = {
    judgement.GROUP: "but another block of its group, or of a parent's group, is accepted",
    judgement.PARENT: "but a parent that it needs would lose even with it",
    **dict.fromkeys((judgement.UNBALANCED, judgement.WOULD_LOSE, judgement.LESS, judgement.TIE, judgement.BETTER), MOST_GAIN),
}
TOLD = (judgement.GROUP, judgement.PARENT)  # the codes among these that reveal no order of others
MOST_TEXTS = 16  # of statements that are kept as they are sent
# Of all participants' orders. From these, one could compute the limits of another.
SUMS = ("welfare_eur", "hourly_surplus_eur", "block_surplus_eur")


class Published:
    """The published parts of a day."""

    def __init__(self, files: folder.DayFolder) -> None:
        self.files = files
        self.rows: tuple[JsonObject, dict[str, str]] | None = None  # the day of the statement, and each participant's rows as a text
        self.text: str | None = None  # of the prices
        self.texts: dict[tuple[str, bool], str] = {}  # of statements, by participant and whether the journal is published
        self.lock = threading.Lock()

    @property
    def has_results(self) -> bool:
        return self.files.has_file(folder.RESULTS)

    @property
    def is_whole(self) -> bool:
        return self.has_results and self.files.has_file(folder.STATEMENT)

    @property
    def has_journal(self) -> bool:
        return self.has_results and self.files.has_file(folder.OPEN_JOURNAL)

    def read_and_cache_prices_text(self, periods: int) -> str:
        """The first lines of the results without the welfare: the day and the periods. They stay the same, and are read once."""
        if self.text is None:
            with self.files.path_of(folder.RESULTS).open(encoding="ascii") as results:
                lines = list(itertools.islice(results, 2 + periods))
            self.text = "".join(lines[:1] + lines[2:])
        return self.text

    def read_and_cache_statement(self, who: str) -> JsonObject | None:
        """A participant's commands with their outcomes; None before they are published. Until the journal is, only its prices and
        volumes depend on the orders of others."""
        if self.rows is None and self.is_whole:
            found = json.loads(self.files.read_file(folder.STATEMENT))
            by_owner: dict[str, list[Json]] = {}
            for row in found["rows"]:
                by_owner.setdefault(row["participant"], []).append(row)
            # as text: their objects take several times as much memory, as long as the office runs
            self.rows = found["day"], {owner: json.dumps(own) for owner, own in by_owner.items()}
        if self.rows is None:
            return None
        day, rows = self.rows[0], json.loads(self.rows[1].get(who, "[]"))
        if self.has_journal:
            return {"day": day, "rows": [{**row, "why": without_own_participant(row["why"], who)} for row in rows]}
        return {"day": {name: value for name, value in day.items() if name not in SUMS}, "rows": list(map(without_words_of_others, rows))}

    def read_and_cache_text(self, who: str) -> str | None:
        """The statement in JSON, which is kept as it is sent; None before there is one."""
        key = who, self.has_journal
        with self.lock:  # it is made in a thread of its own
            if key not in self.texts:
                found = self.read_and_cache_statement(who)
                if found is None:
                    return None
                while len(self.texts) >= MOST_TEXTS:
                    self.texts.pop(next(iter(self.texts)))
                self.texts[key] = json.dumps(found)
            return self.texts[key]


def without_own_participant(why: str | None, who: str) -> str | None:
    """A reason with the participant's own orders by their names alone."""
    return re.sub(rf"\b{who},(?=[A-Z0-9-]+ would lose )", "", why) if why else why


def without_words_of_others(row: JsonObject) -> JsonObject:
    """A row without the words, and the code, that reveal others' orders."""
    code = row.get("code")
    if code not in HIDDEN:
        return row
    gain = OWN_GAIN.match(row["why"] or "")
    why = f"{gain[0]}, {HIDDEN[code]}" if gain else HIDDEN[code].removeprefix("but ")
    return {**row, "why": why, "code": code if code in TOLD else None}


def read_published_ledger(files: folder.DayFolder, make_ledger: Callable[[], Ledger]) -> Ledger:
    """A new ledger with the journal of a day that is published, which has to be that of its head. The files of it are compared whole."""
    ledger = make_ledger()
    try:
        written, replies = files.read_file(folder.JOURNAL), files.read_file(folder.REPLIES)
        own = [line.partition(",")[2] for line in replies.decode("ascii").splitlines()[1:]]
        ledger.enter_rest_of_journal_or_raise(written.decode("ascii").splitlines()[1:], own)
        if (written, replies) != (ledger.journal_bytes(), ledger.replies_bytes()):
            raise Contradiction("the entries are right, and their files have other bytes")
        head = files.read_file(folder.HEAD)
    except (FileNotFoundError, ValueError, Contradiction):
        raise Contradiction(f"{folder.JOURNAL}, {folder.REPLIES} or {folder.HEAD} is missing or damaged") from None
    if heads.line_bytes_of(ledger.signed_head()) != head:
        raise Contradiction("the published head isn't of the journal next to it, or isn't of this key")
    read_results_and_refuse_changed(files)
    return ledger


def sha256_hex(data: bytes) -> str:
    return hashlib.sha256(data).hexdigest()


def read_results_and_refuse_changed(files: folder.DayFolder) -> None:
    """Ends with a contradiction if the results or the statement were changed since they were made."""
    try:
        sums = json.loads(files.read_file(folder.SUMS))
        changed = [name for name in (folder.RESULTS, folder.STATEMENT) if sums[name] != sha256_hex(files.read_file(name))]
    except FileNotFoundError:  # they were made without sums
        return
    except (ValueError, KeyError, TypeError):
        changed = [folder.SUMS]
    if changed:
        raise Contradiction(f"{changed[0]} isn't as it was made")
