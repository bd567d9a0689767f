"""The common parts of the tests of the office: a desk in memory whose disk loses what wasn't synced, and offices that run on it."""

import argparse
import asyncio
import contextlib
import datetime
import io
import os
import signal
import tempfile
import unittest
from pathlib import Path
from unittest import mock

import support  # puts the tools on the path

from lib.base import rules
from lib.journal import book
from lib.seal import heads, merkle

try:
    import aiohttp
    import jinja2
    from lib.office import day_writer, folder, monitoring, programs, publishing, setup
    from lib.office.desk import Desk, DeskEnded
    from lib.seal import sealing, signing
except ImportError:  # without python3-aiohttp and the like
    aiohttp = None

DAY = "2026-11-29"
NAMES = ("A", "GAS", "LONGNAME")
LENGTHS = sorted(rules.DAYS)
SECONDS = 300  # that a test may take at most, also on a loaded machine
LATEST = 50  # that a desk may take to open
PAST, FUTURE = (datetime.datetime.fromtimestamp(seconds, datetime.timezone.utc) for seconds in (1_000, 4_000_000_000))


class Disk:
    """What a desk has on the disk, and at which of its next calls it ends."""

    def __init__(self):
        self.records, self.ends, self.openings = [], [], 0
        self.desk = None  # the one that was opened last


class DeskInMemory:
    """A desk as the writer sees it, on a disk that outlives it. Of a batch at which it ends, a beginning is on the disk, and a shorter one
    is answered."""

    def __init__(self, disk, periods):
        self.disk, self.book = disk, book.Book(periods)
        self.end = asyncio.Event()
        self.replies = [self.reply(record) for record in disk.records]
        disk.openings += 1

    def reply(self, record):
        return sealing.reply_of(self.book.apply_or_return_refusal(heads.command_of_record(record)))

    async def iterate_replies(self, records):
        await asyncio.sleep(0)
        kept, answered = self.disk.ends.pop(0) if self.disk.ends else (None, None)
        replies = []
        for record in records[:kept]:
            self.disk.records.append(record)
            replies.append(self.reply(record))
        for reply in replies[:answered]:
            yield reply
        if kept is not None:
            raise DeskEnded("as planned")

    async def wait_for_end(self):
        await self.end.wait()

    async def wait_and_return_fault(self):
        return DeskEnded("as planned")

    async def end_or_kill(self):
        await asyncio.sleep(0)


def raise_lateness(*_):
    raise AssertionError(f"no end after {SECONDS} seconds")


def patch_of_opening(disk):
    async def opened(program, path, periods):
        desk = disk.desk = DeskInMemory(disk, periods)
        return desk, list(disk.records), desk.replies

    return mock.patch.object(Desk, "start", opened)


async def iterate_untroubled_publishing(given):
    """In place of the programs after a close."""
    given.files.path_of(folder.RESULTS).write_bytes(b"")
    yield None


class Office(unittest.IsolatedAsyncioTestCase):
    def setUp(self):
        if aiohttp is None:
            self.skipTest("python3-aiohttp, python3-jinja2 or python3-cryptography is missing")
        self.addCleanup(signal.signal, signal.SIGALRM, signal.signal(signal.SIGALRM, raise_lateness))
        self.addCleanup(signal.setitimer, signal.ITIMER_REAL, 0)
        signal.setitimer(signal.ITIMER_REAL, SECONDS, 1)  # again and again, in case that something takes the first for a defect
        self.addCleanup(os.umask, os.umask(0o077))  # as the tool's
        room = tempfile.TemporaryDirectory()
        self.addCleanup(room.cleanup)
        self.office = folder.Folder(Path(room.name, "office"))
        for name in ("FIRST_PAUSE", "LONGEST_PAUSE", "TICK", "ROOM_PAUSE"):
            patch = mock.patch.object(day_writer, name, 0.001)
            patch.start()
            self.addCleanup(patch.stop)
        self.publish = publishing.iterate_publishing_troubles
        patch = mock.patch.object(publishing, "iterate_publishing_troubles", iterate_untroubled_publishing)
        patch.start()
        self.addCleanup(patch.stop)

    def write_office(self, periods=24, closes=None, names=NAMES, share=1_000):
        setup.make_office(self.office)
        setup.make_day_or_stop(self.office, folder.Terms(DAY, periods, closes or FUTURE, "UTC", dict.fromkeys(names, share)))
        self.key = self.office.read_key()

    def day_writer_of(self, clock=None, log=None):
        files = folder.DayFolder(self.office.path_of(folder.DAYS) / DAY)
        office = argparse.Namespace(key=self.key, programs=programs.Programs("dam", "dam-desk"), counts=monitoring.Counts())
        office.clock, office.log = clock or day_writer.Clock(), log or monitoring.Log(io.StringIO())
        return day_writer.DayWriter.read(files, office)

    @contextlib.asynccontextmanager
    async def running_writer(self, given):
        task = asyncio.create_task(given.write_until_published())
        try:
            await given.is_ready.wait()
            yield given
        finally:
            task.cancel()
            with contextlib.suppress(asyncio.CancelledError):
                await task

    async def wait_until(self, holds):
        while not holds():
            await asyncio.sleep(0.001)

    def assert_verified(self, given, receipt):
        """A receipt is right under its own head, and that head is of the journal."""
        self.assertTrue(signing.is_signed(self.key.public_key(), receipt.head))
        self.assertEqual(merkle.root_of_inclusion(receipt.leaf(), receipt.number - 1, receipt.head.size, receipt.path), receipt.head.root)
        self.assertEqual(given.ledger.seal.tree.root(receipt.head.size), receipt.head.root)


def commands_of_records(*records):
    return [heads.command_of_record(record) for record in records]


def draw_record(rng, who, number, periods):
    volumes = ";".join(
        f"{period}:{rng.randint(1, 99_999)}" for period in sorted(rng.sample(range(1, min(periods + 3, 101)), rng.choice([1, 1, 2, 5])))
    )
    name = rng.choice([f"O-{number}", f"O-{rng.randint(1, number)}", "ABCDEFGHIJKL"])
    kind = rng.choice(["hour", "block", "amend", "cancel"])
    if kind == "amend":
        return f"amend,{who},{name},,,{rng.randint(-50_000, 400_000)},{volumes},,"
    if kind == "cancel":
        return f"cancel,{who},{name},,,,,,"
    side, price = rng.choice(["buy", "sell"]), rng.randint(-50_000, 400_000)
    links = "," if kind == "hour" else f"{rng.choice(['', name])},{rng.choice(['', 'G'])}"
    return f"submit,{who},{name},{kind},{side},{price},{volumes.partition(';')[0] if kind == 'hour' else volumes},{links}"
