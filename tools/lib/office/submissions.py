"""The submissions of a day: requests with commands, each of which waits until the desk has entered all of its commands."""

import asyncio
import dataclasses
from collections.abc import Callable

from ..journal.journal import Command, command_record_text
from . import folder
from .ledger import Ledger
from .refusals import RequestFault, Refused, unread_tokens_refusal

FULL_BATCH = 1_000  # a batch with as many commands takes no further request


@dataclasses.dataclass(eq=False)
class Submission:
    """Commands of one request. `first` is the number that the participant gave the first one. `is_authorized` says whether its token is
    still the participant's. `done` gets the numbers of the entries."""

    who: str
    first: int
    commands: list[Command]
    is_authorized: Callable[[], bool] = lambda: True
    done: asyncio.Future[list[int]] = dataclasses.field(default_factory=lambda: asyncio.get_running_loop().create_future())

    @property
    def is_close(self) -> bool:
        """Whether it closes the book: the office does that, so it has no participant."""
        return not self.who

    @property
    def last(self) -> int:
        """The number of the last command."""
        return self.first + len(self.commands) - 1


class SubmissionQueue:
    """Those that wait, in the order in which they came, and before them the batch at the desk: pairs of a command and its submission."""

    def __init__(self) -> None:
        self.waiting: list[Submission] = []
        self.batch: list[tuple[Command, Submission]] = []
        self.wake = asyncio.Event()  # one waits, or the desk has ended

    def add(self, submission: Submission) -> None:
        self.waiting.append(submission)
        self.wake.set()

    def make_batch_and_answer_others(self, ledger: Ledger) -> None:
        """Makes the next batch from those that wait. A submission whose numbers the batch has already waits until the batch is entered, and
        the close until all others are. Those that can't be entered, or are already, are answered."""
        batch: list[tuple[Command, Submission]] = []
        later: list[Submission] = []
        taken: dict[str, int] = {}  # the number of a participant's last command in the batch
        queue, self.waiting = self.waiting, []
        for place, one in enumerate(queue):
            if one.is_close:
                if not batch and not later and place == len(queue) - 1 and not ledger.is_closed:
                    batch.append((one.commands[0], one))
                elif not ledger.is_closed:
                    later.append(one)
                continue
            last = taken.get(one.who, ledger.own_count(one.who))
            if len(batch) >= FULL_BATCH or one.who in taken and one.first != last + 1:
                later.append(one)
            elif one.who not in taken and (fault := conflict_refusal(ledger, one)):
                fail_future(one.done, fault)
            elif not (new := one.commands[last - one.first + 1 :]):
                answer_entered(ledger, one)
            elif fault := read_token_refusal(one):
                fail_future(one.done, fault)
            else:
                batch += [(command, one) for command in new]
                taken[one.who] = last + len(new)
        self.waiting, self.batch = later + self.waiting, batch

    def pop_batch(self) -> list[Submission]:
        """Takes the batch away from the desk, and returns its submissions."""
        found, self.batch = submissions_of(self.batch), []
        return found

    def put_back_batch(self) -> None:
        """Lets the submissions of the batch wait again, before the others: the next opening of the desk shows which commands it entered."""
        self.waiting = self.pop_batch() + self.waiting

    def refuse_batch(self, fault: RequestFault, words: str) -> None:
        """Refuses the participants' submissions of the batch, of which nobody knows yet if they are entered, and leaves the close in it."""
        for one in submissions_of(self.batch):
            if not one.is_close:
                fail_future(one.done, Refused(fault, words))
        self.batch = [(command, one) for command, one in self.batch if one.is_close]

    def refuse_all(self, fault: RequestFault, words: str) -> None:
        """Refuses all submissions, which stay in the queue."""
        for one in self.waiting + submissions_of(self.batch):
            fail_future(one.done, Refused(fault, words))


def submissions_of(batch: list[tuple[Command, Submission]]) -> list[Submission]:
    """The submissions of a batch, each once."""
    return list(dict.fromkeys(one for _, one in batch))


def answer_entered(ledger: Ledger, submission: Submission) -> None:
    """Answers a submission whose commands are all entered."""
    if fault := conflict_refusal(ledger, submission):
        fail_future(submission.done, fault)
    elif not submission.done.done():
        submission.done.set_result(ledger.own[submission.who][submission.first - 1 : submission.last])


def conflict_refusal(ledger: Ledger, submission: Submission) -> Refused | None:
    """The fault of a submission of which a number is used for another command, or comes too early; None if it has none."""
    who, first, count = submission.who, submission.first, ledger.own_count(submission.who)
    for number, command in enumerate(submission.commands[: max(0, count - first + 1)], first):
        held = ledger.own_entry(who, number)
        if held.record != command_record_text(command):
            words = f"your command {number} is entry {held.entry}, and another command"
            return Refused(RequestFault.NUMBER_USED, words, number=number, next=count + 1)
    if first > count + 1:
        return Refused(RequestFault.NUMBER_AHEAD, f"your next command has the number {count + 1}", next=count + 1)
    return None


def read_token_refusal(submission: Submission) -> Refused | None:
    """The fault of a submission whose token isn't its participant's now; None if it is."""
    try:
        return None if submission.is_authorized() else Refused(RequestFault.TOKEN, "the token isn't of this participant any more")
    except folder.UNREADABLE:  # the submissions after this one, and the close, mustn't be lost
        return unread_tokens_refusal()


def fail_future(done: asyncio.Future[list[int]], fault: Refused) -> None:
    if not done.done():
        done.set_exception(fault)
        done.exception()  # nobody may be waiting for it any more
