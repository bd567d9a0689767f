"""The desk of a day: the child process that owns the journal. It answers each record once it is on the disk, with the line of `dam
replay`."""

from __future__ import annotations

import asyncio
import contextlib
import re
from asyncio.subprocess import PIPE
from collections.abc import AsyncIterator
from typing import NamedTuple

import async_timeout

from ..journal import journal
from ..process import async_child

LOCKED_SECONDS, LOCKED_STEP = 5, 0.05  # how long a desk that is still ending may hold the file
END_SECONDS = 10  # that a desk may take to end
ANSWER_SECONDS = 60  # and to answer a batch
REPLY = re.compile(r"([1-9][0-9]*),(.*)")
# A desk ends with one status for all faults of its file: only these words of its fault line say that another one still has the file.
LOCKED_WORDS = b"another process has it"
# A desk is given the day, which it may have already, and then an empty line, which enters nothing. It prints the replies to its journal,
# and then its answers to these two lines. So the answer to the empty line, which is its second one, comes once the desk is open. The
# part `words` of tests/office compares these words, and those above, with a desk's.
EMPTY_LINE, ANSWER_TO_EMPTY_LINE = b"\n", b"fault,2,NotOneRecord\n"
MOST_REPLIES = 1 << 20  # bytes that a desk prints until then: 10,000 replies have fewer


class DeskEnded(Exception):
    """The desk ended, or its line isn't an answer. The bytes on the disk are known only at the next opening."""


class Locked(DeskEnded):
    """Another desk has the file."""


async def capture_records(program: str, path: str) -> list[str]:
    """The records of the journal in a desk's file, the day first; none if it has none yet."""
    process = await asyncio.create_subprocess_exec(program, "--journal", path, stdin=PIPE, stdout=PIPE, stderr=PIPE)
    out, err = await async_child.feed_and_capture_output_and_errors(process, program)
    if process.returncode:
        raise DeskEnded(f"the desk can't show its journal: it {async_child.end_text(process.returncode)}: {fault_line(err)}")
    return out.decode("ascii").splitlines()


def fault_line(err: bytes) -> str:
    return err.decode(errors="replace").strip() or "no fault line"


class Opened(NamedTuple):
    """A desk that has opened its file, with its journal: the records, without the day, and the reply to each."""

    desk: Desk
    records: list[str]
    replies: list[str]


class Desk:
    """A running desk. `iterate_replies` gives it records; only one call runs at a time."""

    def __init__(self, process: asyncio.subprocess.Process) -> None:
        assert process.stdin and process.stdout and process.stderr  # they are pipes
        self.process, self.size = process, 0
        self.input, self.output, self.errors = process.stdin, process.stdout, process.stderr

    @classmethod
    async def start(cls, program: str, path: str, periods: int) -> Opened:
        """Starts a desk on its file, which may be missing."""
        loop = asyncio.get_running_loop()
        until = loop.time() + LOCKED_SECONDS
        while True:
            try:
                return await cls.start_and_read_day(program, path, periods)
            except Locked:
                if loop.time() > until:
                    raise
                await asyncio.sleep(LOCKED_STEP)

    @classmethod
    async def start_and_read_day(cls, program: str, path: str, periods: int) -> Opened:
        # in a session of its own, so that Ctrl-C at a terminal reaches the office alone, which ends the desk
        process = await asyncio.create_subprocess_exec(
            program, path, start_new_session=True, limit=MOST_REPLIES, stdin=PIPE, stdout=PIPE, stderr=PIPE
        )
        desk = cls(process)
        try:
            day = f"day,{periods}"
            desk.input.write(f"{journal.day_record_text(periods)}\n".encode() + EMPTY_LINE)
            lines = await desk.read_opening_lines()
            if set(lines[:1] + lines[-1:]) != {day}:
                raise DeskEnded(f"the desk's file isn't of a day with {periods} periods, or isn't a journal")
            replies = [desk.parse_and_count_reply(line) for line in lines[1:-1]]
            records = (await capture_records(program, path))[1:]
        except BaseException:
            await desk.end_or_kill()
            raise
        return Opened(desk, records, replies)

    async def read_opening_lines(self) -> list[str]:
        """The lines that the desk prints until it is open."""
        async with async_timeout.timeout(ANSWER_SECONDS):
            try:
                data = await self.output.readuntil(ANSWER_TO_EMPTY_LINE)
            except (asyncio.IncompleteReadError, asyncio.LimitOverrunError):
                raise await self.wait_and_return_fault() from None
        return data.removesuffix(ANSWER_TO_EMPTY_LINE).decode("ascii").splitlines()

    async def wait_for_end(self) -> None:
        """Waits until the desk has ended."""
        await self.process.wait()

    async def wait_and_return_fault(self) -> DeskEnded:
        err = await self.errors.read(async_child.MOST_FAULT)
        status = await self.process.wait()
        kind = Locked if LOCKED_WORDS in err else DeskEnded
        return kind(f"the desk {async_child.end_text(status)}: {fault_line(err)}")

    def parse_and_count_reply(self, line: str) -> str:
        """The reply to the next entry, from its line."""
        found = REPLY.fullmatch(line)
        if not found or int(found[1]) != self.size + 1:
            raise DeskEnded(f"the desk printed {line[:80]!r} in place of the reply to entry {self.size + 1}")
        self.size += 1
        return found[2]

    async def iterate_replies(self, records: list[str]) -> AsyncIterator[str]:
        """Enters records, and yields the reply to each, which comes once it is on the disk."""
        self.input.write("".join(f"{record}\n" for record in records).encode())
        async with async_timeout.timeout(ANSWER_SECONDS):
            for _ in records:
                data = await self.output.readline()
                if not data.endswith(b"\n"):
                    raise await self.wait_and_return_fault()
                yield self.parse_and_count_reply(data[:-1].decode("ascii"))

    async def end_or_kill(self) -> None:
        """Ends the desk: it enters the commands that it was given, and ends at the end of its input. Of one that was killed it doesn't read the rest,
        which asyncio reports unless something waits for it."""
        self.input.close()
        if self.process.returncode is None:
            try:
                await asyncio.wait_for(self.process.communicate(), END_SECONDS)
            except (asyncio.TimeoutError, ValueError):
                self.process.kill()
                await self.process.wait()
        with contextlib.suppress(OSError):
            await self.input.wait_closed()
