"""The one writer of a day: it gives the desk the commands that wait, batch by batch, and closes the day once."""

from __future__ import annotations

import asyncio
import contextlib
import functools
import time
from collections.abc import Callable
from typing import TYPE_CHECKING, NamedTuple

from ..journal.journal import Close, Command, command_record_text
from ..seal import heads
from . import folder, monitoring, newest_head, published, publishing
from .desk import Desk, DeskEnded
from .ledger import Contradiction, Ledger
from .programs import Programs
from .refusals import CLOSED_WORDS, STOPPED_WORDS, RequestFault, Refused
from .submissions import Submission, SubmissionQueue, answer_entered

if TYPE_CHECKING:
    from .serve import Office

TICK = 0.1  # seconds between two looks at the clock
FIRST_PAUSE, LONGEST_PAUSE = 0.1, 2.0  # seconds before a desk is started again
ROOM_PAUSE = 1.0  # seconds between two looks whether a full disk has room
MOST_ENDS = 5  # of the desk at one batch, without an entry of it


class Clock:
    """The time, which never goes back: a clock that is set back stands still until it gets there again."""

    def __init__(self, now: Callable[[], float] = time.time) -> None:
        self.read, self.latest = now, now()

    def now(self) -> float:
        self.latest = max(self.latest, self.read())
        return self.latest


class DayState(NamedTuple):
    """The name of a day's state, as `folder` has it, and whether the day's statement and journal are published."""

    name: str
    has_statement: bool
    has_journal: bool


class DayWriter:
    """A day of an office that takes commands. `write_until_published` is its only task that enters them, and publishes."""

    def __init__(self, files: folder.DayFolder, office: Office, terms: folder.Terms, salts: heads.Salts) -> None:
        self.files, self.terms = files, terms
        self.make_ledger = functools.partial(Ledger, terms, salts, office.key)
        self.ledger: Ledger = self.make_ledger()
        self.is_known = asyncio.Event()  # the ledger has the journal's entries: before, nothing can be said of any
        self.programs: Programs = office.programs
        self.counts: monitoring.Counts = office.counts
        self.clock, self.log = office.clock, office.log
        self.queue = SubmissionQueue()
        self.answering: set[asyncio.Task[None]] = set()  # the tasks that answer batches
        self.desk: Desk | None = None
        self.watching: asyncio.Task[None] | None = None  # the task that watches the desk
        self.fault: str | None = None  # the fault that stops the day
        self.trouble: str | None = None  # why a batch wasn't entered, or a file not made, which passes
        self.is_ready, self.is_closing = asyncio.Event(), False
        self.published: published.Published = published.Published(files)
        self.newest = newest_head.Newest(files.path_of(folder.SIGNED), self.log_event)

    @classmethod
    def read(cls, files: folder.DayFolder, office: Office) -> "DayWriter":
        """The writer of a day of this folder, whose terms and salts are read."""
        return cls(files, office, files.read_terms(), files.read_salts())

    async def read_state(self) -> DayState:
        """The state of the day now. Its files are looked up in a thread: a slow disk holds up no other request."""
        return await asyncio.to_thread(self.read_state_of_files, self.fault is not None, self.ledger.is_closed, self.is_open())

    def read_state_of_files(self, is_stopped: bool, is_closed: bool, is_open: bool) -> DayState:
        name = self.files.read_state(is_stopped, is_closed, is_open)
        return DayState(name, self.published.is_whole, self.published.has_journal)

    @property
    def is_healthy(self) -> bool:
        """Whether the day takes commands, or after its close has the files that it should, and its newest head is kept."""
        return self.is_ready.is_set() and self.trouble is None and not self.newest.is_failing

    def is_open(self) -> bool:
        """Whether a command that arrives now is in time."""
        return not self.is_closing and not self.ledger.is_closed and self.clock.now() < self.terms.closes.timestamp()

    def log_event(self, event: str, **details: object) -> None:
        self.log.write_event(event, day=self.terms.day, **details)

    # --- requests

    def submit_or_refuse(
        self, who: str, first: int, commands: list[Command], is_authorized: Callable[[], bool] = lambda: True
    ) -> asyncio.Future[list[int]]:
        """The future numbers of the entries of commands. It is called once the whole request is here, and its time counts."""
        submission = Submission(who, first, commands, is_authorized)
        if submission.last <= self.ledger.own_count(who):
            answer_entered(self.ledger, submission)
            return submission.done
        if self.fault:
            raise Refused(RequestFault.UNAVAILABLE, STOPPED_WORDS)
        if not self.is_open():
            raise Refused(RequestFault.CLOSED, CLOSED_WORDS)
        if self.newest.is_failing:  # a start wouldn't miss entries that are acknowledged now
            raise Refused(RequestFault.UNAVAILABLE, "the office's disk can't be written: send the same command again later", seconds=1)
        share, count = self.ledger.share(who), self.ledger.own_count(who)
        if submission.last > share:
            raise Refused(RequestFault.SHARE_USED, f"you may enter {share} commands on this day, and have entered {count}", next=count + 1)
        self.queue.add(submission)
        return submission.done

    # --- the batches

    async def enter_batch(self, desk: Desk) -> None:
        """Enters the batch of the queue. Its submissions are answered once all of it is on the disk."""
        commands, begin = [command for command, _ in self.queue.batch], self.ledger.size
        records = list(map(command_record_text, commands))
        entries = zip(commands, records)
        async for reply in desk.iterate_replies(records):
            self.ledger.enter_or_raise(*next(entries), reply)
            self.counts.add("entries_total")
        self.counts.add("batches_total")
        self.trouble = None
        answering = asyncio.create_task(self.answer_batch(begin, self.ledger.size, self.queue.pop_batch()))
        self.answering.add(answering)
        answering.add_done_callback(self.answering.discard)

    async def answer_batch(self, begin: int, end: int, entered: list[Submission]) -> None:
        """Answers the submissions of a batch, with the heads of their receipts signed."""
        await self.ledger.sign_and_cache_heads(begin, end)
        self.newest.note_head(self.ledger.signed_head(end))
        for one in entered:
            if one.is_close:
                one.done.cancel()
            else:
                answer_entered(self.ledger, one)

    async def write_until_published(self) -> None:
        """Keeps the day until it is published. It ends earlier only if the journal contradicts the ledger or its head."""
        closer = asyncio.create_task(self.begin_close_in_time())
        try:
            with contextlib.suppress(OSError):
                self.files.remove(folder.STOPPED_DAY)
            if self.published.is_whole:
                self.ledger = await asyncio.to_thread(published.read_published_ledger, self.files, self.make_ledger)
                self.read_heads_and_refuse_missing_entries()
                self.is_known.set()
            else:
                await self.run_desk_until_closed()
                await self.end_desk()
                async for trouble in publishing.iterate_publishing_troubles(self):
                    self.trouble = trouble
            self.is_ready.set()
        except Contradiction as fault:
            self.mark_stopped_and_refuse_waiting(str(fault))
        except Exception as fault:
            self.mark_stopped_and_refuse_waiting(f"a defect of the office: {type(fault).__name__}: {ascii(str(fault))[:200]}")
        finally:
            closer.cancel()
            try:
                await asyncio.gather(*self.answering, return_exceptions=True)
            finally:  # also if it is cancelled here
                self.newest.stop_and_write()
                await self.end_desk()

    def mark_stopped_and_refuse_waiting(self, fault: str) -> None:
        """Stops the day, and no other: it takes no command, and gives no receipt, until the operator has looked."""
        self.is_ready.clear()
        self.fault = fault
        self.log_event("stopped", fault=fault)
        with contextlib.suppress(OSError):
            folder.write_synced(self.files.path_of(folder.STOPPED_DAY), f"{fault}\n".encode())
        self.queue.refuse_all(RequestFault.UNAVAILABLE, STOPPED_WORDS)

    async def run_desk_until_closed(self) -> None:
        """Opens the desk, and again whenever it ends, and enters all that comes, until the close is entered."""
        pause, ends = FIRST_PAUSE, 0
        while not self.ledger.is_closed:
            size = self.ledger.size
            try:
                desk, watching = await self.start_desk_and_watch()
                while not self.ledger.is_closed:
                    await self.wait_for_commands_or_raise(desk, watching)
                    self.queue.make_batch_and_answer_others(self.ledger)
                    if self.queue.batch:
                        await self.enter_batch(desk)
                        pause, ends = FIRST_PAUSE, 0
            except (DeskEnded, OSError, asyncio.TimeoutError) as fault:
                self.is_ready.clear()
                words = str(fault) or type(fault).__name__
                self.trouble = words if self.queue.batch else self.trouble
                await self.end_desk()
                self.counts.add("desk_ends_total")
                self.log_event("desk ended", fault=words, **({"entries": self.ledger.size} if self.is_known.is_set() else {}))
                ends = ends + 1 if self.ledger.size == size else 0
                if ends >= MOST_ENDS:
                    self.queue.refuse_batch(RequestFault.UNAVAILABLE, "the desk isn't running: send the same command again later")
                self.queue.put_back_batch()
                await asyncio.sleep(pause)
                pause = min(2 * pause, LONGEST_PAUSE)
        self.queue.refuse_all(RequestFault.CLOSED, CLOSED_WORDS)

    async def wait_for_commands_or_raise(self, desk: Desk, watching: asyncio.Task[None]) -> None:
        """Waits until a command waits. Ends as the desk does if it ends, also while none waits."""
        while not (self.queue.waiting or watching.done()):
            self.queue.wake.clear()
            await self.queue.wake.wait()
        if watching.done():
            watching.result()
            raise await desk.wait_and_return_fault()

    async def watch_desk(self, desk: Desk) -> None:
        """Wakes the writer once the desk has ended. After a batch wasn't entered, looks whether the disk has room again, unless a command
        shows it."""
        while True:
            try:
                await asyncio.wait_for(desk.wait_for_end(), ROOM_PAUSE if self.trouble else None)
                break
            except asyncio.TimeoutError:
                if not (self.queue.waiting or self.queue.batch):
                    await self.write_trial_and_clear_trouble()
        self.queue.wake.set()

    async def write_trial_and_clear_trouble(self) -> None:
        with contextlib.suppress(OSError):
            await asyncio.to_thread(self.files.write_trial_or_raise)
            self.trouble = None

    async def start_desk_and_watch(self) -> tuple[Desk, asyncio.Task[None]]:
        """Starts a desk, which has the day's journal, and a task that watches it."""
        began = time.monotonic()
        path = str(self.files.path_of(folder.DESK))
        self.desk, records, replies = await Desk.start(self.programs.desk, path, self.terms.periods)
        self.watching = asyncio.create_task(self.watch_desk(self.desk))
        self.ledger.enter_rest_of_journal_or_raise(records, replies)
        self.read_heads_and_refuse_missing_entries()
        self.is_known.set()
        if self.ledger.size:
            self.newest.note_head(self.ledger.signed_head())
        self.is_ready.set()
        self.log_event("desk opened", entries=self.ledger.size, seconds=round(time.monotonic() - began, 3))
        return self.desk, self.watching

    def read_heads_and_refuse_missing_entries(self) -> None:
        """Ends with a contradiction unless the journal has the entries of the heads that the folder has: one that was cut or replaced while
        no office had it in memory is seen here."""
        for name in (folder.SIGNED, folder.HEAD):
            if head := newest_head.read_signed_head(self.files.path_of(name), self.ledger.seal.key):
                self.ledger.refuse_other_beginning(head, name)
            elif self.files.has_file(name):
                self.log_event("signed head not whole", file=name)

    async def end_desk(self) -> None:
        desk, self.desk = self.desk, None
        if self.watching:
            self.watching.cancel()
        if desk:
            with contextlib.suppress(OSError):
                await desk.end_or_kill()

    # --- the close

    async def begin_close_in_time(self) -> None:
        """Closes the day at its time, or when the operator asks for it: after all commands that came before."""
        await self.is_ready.wait()
        while not self.ledger.is_closed:
            if self.clock.now() >= self.terms.closes.timestamp() or self.files.has_file(folder.CLOSE_NOW):
                self.begin_close()
                return
            await asyncio.sleep(TICK)

    def begin_close(self) -> None:
        if not self.is_closing:
            self.is_closing = True
            self.log_event("closing", entries=self.ledger.size)
            self.queue.add(Submission("", 0, [Close()]))
