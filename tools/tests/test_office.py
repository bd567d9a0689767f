"""The office: crashes at each moment, and the opening of its files."""

import asyncio
import errno
import gc
import io
import json
import random
import re
import tempfile
import tracemalloc
import unittest
from pathlib import Path
from unittest import mock

from office_support import DAY, LATEST, LENGTHS, NAMES, SECONDS, Disk, Office, aiohttp, commands_of_records, draw_record, patch_of_opening
from support import TOOLS

from lib.base import rules
from lib.journal import book, journal
from lib.seal import heads
from lib.tool import exits

try:
    from lib.office import day_writer, fixed_files, folder, monitoring, participant_answers, published, refusals
    from lib.office.desk import Desk, DeskEnded
    from lib.seal import sealing
except ImportError:  # without python3-aiohttp and the like, whose tests are skipped
    pass


PAGES = TOOLS / "lib" / "pages"


class Crashes(Office):
    async def client(self, rng, who, count, periods, held, acknowledged):
        """Sends commands, some in one request, and sends each again until it is acknowledged; sometimes again after that."""
        records = [draw_record(rng, who, number, periods) for number in range(1, count + 1)]
        first = 1
        while first <= count:
            many = records[first - 1 : first - 1 + rng.choice([1, 1, 1, 3, 7])]
            try:
                given = held[0]
                entries = await asyncio.wait_for(asyncio.shield(given.submit_or_refuse(who, first, commands_of_records(*many))), 5)
            except (refusals.Refused, asyncio.TimeoutError) as fault:
                wrong = refusals.RequestFault.NUMBER_USED, refusals.RequestFault.NUMBER_AHEAD, refusals.RequestFault.MALFORMED
                self.assertNotIn(getattr(fault, "fault", None), wrong)
                self.assertIsNone(given.fault)
                await asyncio.sleep(0.001)
                continue
            self.assertEqual(len(entries), len(many))
            for number, (record, entry) in enumerate(zip(many, entries), first):
                self.assertEqual(acknowledged.setdefault((who, number), (record, entry)), (record, entry))
                receipt = given.ledger.receipt(entry)
                self.assertEqual((receipt.record, receipt.number), (record, entry))
                self.assert_verified(given, receipt)
            first = max(1, first - 2) if rng.random() < 0.2 else first + len(many)
        return records

    async def run_with_crashes(self, seed, periods):
        rng, disk, acknowledged = random.Random(f"office {seed}"), Disk(), {}
        held = [self.day_writer_of()]
        with patch_of_opening(disk):
            tasks = [asyncio.create_task(held[0].write_until_published())]
            clients = [
                asyncio.create_task(self.client(random.Random(f"{seed} {who}"), who, 40, periods, held, acknowledged)) for who in NAMES
            ]
            for _ in range(12):
                await asyncio.sleep(rng.uniform(0, 0.01))
                if rng.random() < 0.5:  # the desk ends: at most what is kept is answered
                    kept = rng.randint(0, 5)
                    disk.ends.append((kept, rng.randint(0, kept)))
                else:  # the office ends, in the middle of anything
                    tasks[-1].cancel()
                    await asyncio.gather(tasks[-1], return_exceptions=True)
                    held[0].queue.refuse_all(refusals.RequestFault.UNAVAILABLE, "no answer came")
                    held[0] = self.day_writer_of()
                    tasks.append(asyncio.create_task(held[0].write_until_published()))
            sent = dict(zip(NAMES, await asyncio.wait_for(asyncio.gather(*clients), SECONDS)))
            tasks[-1].cancel()
            await asyncio.gather(*tasks, return_exceptions=True)
        return disk, held[0], sent, acknowledged

    async def test_no_crash_loses_or_doubles_a_command(self):
        for seed, periods in enumerate(LENGTHS):
            with self.subTest(periods=periods):
                self.setUp()
                self.write_office(periods)
                disk, last, sent, acknowledged = await self.run_with_crashes(seed, periods)
                for who, records in sent.items():
                    self.assertEqual([record for record in disk.records if record.split(",")[1] == who], records)
                for (who, number), (record, entry) in acknowledged.items():
                    self.assertEqual((disk.records[entry - 1], last.ledger.own_entry(who, number).entry), (record, entry))
                read = journal.parse_journal(b"".join(f"{line}\n".encode() for line in [f"day,{periods},,,,,,,", *disk.records]))
                replies = [sealing.reply_of(why) for why in book.book_and_refusals(read)[1]]
                self.assertEqual([entry.reply for entry in last.ledger.seal.entries], replies)
                self.assertGreater(disk.openings, 4)

    async def test_a_receipt_is_the_same_after_a_crash(self):
        self.write_office()
        disk = Disk()
        with patch_of_opening(disk):
            async with self.running_writer(self.day_writer_of()) as given:
                entries = await given.submit_or_refuse("GAS", 1, commands_of_records("submit,GAS,A,hour,buy,1,1:1,,", "cancel,GAS,B,,,,,,"))
                before = [heads.line_bytes_of(given.ledger.receipt(entry)) for entry in entries]
                await given.submit_or_refuse("A", 1, commands_of_records("cancel,A,B,,,,,,"))
                self.assertEqual([heads.line_bytes_of(given.ledger.receipt(entry)) for entry in entries], before)
            async with self.running_writer(self.day_writer_of()) as given:
                again = await given.submit_or_refuse("GAS", 1, commands_of_records("submit,GAS,A,hour,buy,1,1:1,,", "cancel,GAS,B,,,,,,"))
                self.assertEqual([heads.line_bytes_of(given.ledger.receipt(entry)) for entry in again], before)
        self.assertEqual(len(disk.records), 3)

    async def test_a_token_that_was_revoked_enters_nothing_more(self):
        """Also a command that waits; what is entered already is answered."""
        self.write_office()
        disk, rights = Disk(), [True]
        with patch_of_opening(disk):
            async with self.running_writer(self.day_writer_of()) as given:
                await given.submit_or_refuse("GAS", 1, commands_of_records("cancel,GAS,A,,,,,,"))
                waiting = given.submit_or_refuse("GAS", 2, commands_of_records("cancel,GAS,B,,,,,,"), lambda: rights[0])
                rights[0] = False
                with self.assertRaises(refusals.Refused) as caught:
                    await waiting
                self.assertEqual(caught.exception.fault, refusals.RequestFault.TOKEN)
                self.assertEqual(await given.submit_or_refuse("GAS", 1, commands_of_records("cancel,GAS,A,,,,,,"), lambda: rights[0]), [1])
        self.assertEqual(len(disk.records), 1)

    async def test_tokens_that_cant_be_read_lose_no_request_and_no_close(self):
        self.write_office()
        disk = Disk()

        def unreadable():
            raise faults.pop()

        faults = [exits.Stop("damaged"), OSError(errno.EMFILE, "too many open files")]
        with patch_of_opening(disk):
            given = self.day_writer_of()
            task = asyncio.create_task(given.write_until_published())
            await given.is_ready.wait()
            waiting = [given.submit_or_refuse(who, 1, commands_of_records(f"cancel,{who},A,,,,,,"), unreadable) for who in ("GAS", "LONGNAME")]
            behind = given.submit_or_refuse("A", 1, commands_of_records("cancel,A,A,,,,,,"))
            given.begin_close()
            for one in waiting:
                with self.assertRaises(refusals.Refused) as caught:
                    await one
                self.assertEqual((caught.exception.fault, await behind), (refusals.RequestFault.UNAVAILABLE, [1]))
            await task
        self.assertEqual((disk.records, given.fault), (["cancel,A,A,,,,,,", "close,,,,,,,,"], None))

    def test_a_statement_is_kept_as_it_is_sent(self):
        self.write_office()
        files = self.office.list_folders_by_day()[DAY]
        found = published.Published(files)
        self.assertIsNone(found.read_and_cache_text("GAS"))
        rows = [{"participant": who, "code": "tie", "why": "would gain 1.00 EUR at the prices, but x"} for who in ("GAS", "A")]
        files.path_of(folder.STATEMENT).write_text(json.dumps({"day": {"welfare_eur": 1, "periods": 24}, "rows": rows}))
        files.path_of(folder.RESULTS).write_bytes(b"")
        first = found.read_and_cache_text("GAS")
        self.assertEqual((json.loads(first)["day"], len(json.loads(first)["rows"])), ({"periods": 24}, 1))
        self.assertIs(found.read_and_cache_text("GAS"), first)
        with mock.patch.object(published, "MOST_TEXTS", 1):
            found.read_and_cache_text("A")
            self.assertEqual(len(found.texts), 1)
        files.path_of(folder.OPEN_JOURNAL).write_bytes(b"")
        self.assertEqual(json.loads(found.read_and_cache_text("GAS")), {"day": {"welfare_eur": 1, "periods": 24}, "rows": rows[:1]})

    def test_the_statements_of_a_full_day_take_little_memory(self):
        self.write_office()
        files = self.office.list_folders_by_day()[DAY]
        volumes = [period + 0.5 for period in range(100)]
        rows = [{"participant": "GAS", "code": None, "why": None, "volume_mw": volumes} for _ in range(2_000)]
        files.path_of(folder.STATEMENT).write_text(json.dumps({"day": {}, "rows": rows}))
        files.path_of(folder.RESULTS).write_bytes(b"")
        found = published.Published(files)
        tracemalloc.start()
        self.addCleanup(tracemalloc.stop)
        self.assertEqual(json.loads(found.read_and_cache_text("A"))["rows"], [])
        kept, size = tracemalloc.get_traced_memory()[0], files.path_of(folder.STATEMENT).stat().st_size
        self.assertLess(kept, 2 * size)
        self.assertEqual(json.loads(found.read_and_cache_text("GAS"))["rows"], rows)

    async def test_many_receipts_are_written_in_turns(self):
        self.write_office()
        turns, seen = [0], set()

        async def others():
            while True:
                turns[0] += 1
                await asyncio.sleep(0)

        with patch_of_opening(Disk()):
            async with self.running_writer(self.day_writer_of()) as given:
                await given.submit_or_refuse("GAS", 1, commands_of_records(*(f"cancel,GAS,{number},,,,,," for number in range(100))))
                task = asyncio.create_task(others())
                with mock.patch.object(heads, "line_bytes_of", lambda value: seen.add(turns[0]) or b"\n"):
                    answer = await participant_answers.receipts_bytes(given.ledger, list(range(1, 101)))
                task.cancel()
        self.assertEqual(len(answer), 100)
        self.assertGreater(len(seen), 10)

    async def test_a_desk_that_contradicts_the_ledger_stops_the_day(self):
        self.write_office()
        disk = Disk()
        with patch_of_opening(disk):
            async with self.running_writer(self.day_writer_of()) as given:
                await given.submit_or_refuse("GAS", 1, commands_of_records("cancel,GAS,A,,,,,,", "cancel,GAS,B,,,,,,"))
                disk.records.pop()
                disk.ends.append((0, 0))
                with self.assertRaises(refusals.Refused) as caught:
                    await given.submit_or_refuse("GAS", 3, commands_of_records("cancel,GAS,C,,,,,,"))
                self.assertEqual(caught.exception.fault, refusals.RequestFault.UNAVAILABLE)
                self.assertIn("doesn't begin with the 2 entries", given.fault)
                self.assertEqual((await given.read_state()).name, "stopped")
                self.assertFalse(given.is_ready.is_set())
                with self.assertRaises(refusals.Refused):
                    given.submit_or_refuse("GAS", 3, commands_of_records("cancel,GAS,C,,,,,,"))

    async def test_an_idle_desk_that_ends_is_opened_again(self):
        self.write_office()
        disk, log = Disk(), io.StringIO()
        with patch_of_opening(disk):
            async with self.running_writer(self.day_writer_of(log=monitoring.Log(log))) as given:
                await given.submit_or_refuse("GAS", 1, commands_of_records("cancel,GAS,A,,,,,,"))
                self.assertTrue(given.is_healthy)
                with mock.patch.object(Desk, "start", side_effect=DeskEnded("unreadable")):
                    disk.desk.end.set()
                    await self.wait_until(lambda: "unreadable" in log.getvalue())
                    self.assertFalse(given.is_healthy)
                await self.wait_until(lambda: given.is_healthy)
                self.assertEqual(await given.submit_or_refuse("GAS", 2, commands_of_records("cancel,GAS,B,,,,,,")), [2])
        self.assertGreater(disk.openings, 1)

    async def test_a_day_is_right_again_once_a_batch_is_entered_or_there_is_room(self):
        full = [OSError(errno.ENOSPC, "full")]

        def need_room(_):
            for fault in full:
                raise fault

        for enters in (True, False):
            self.setUp()
            self.write_office()
            disk = Disk()
            disk.ends = [(0, 0)] * day_writer.MOST_ENDS
            with patch_of_opening(disk), mock.patch.object(folder.DayFolder, "write_trial_or_raise", need_room):
                async with self.running_writer(self.day_writer_of()) as given:
                    with self.assertRaises(refusals.Refused):
                        await given.submit_or_refuse("GAS", 1, commands_of_records("cancel,GAS,A,,,,,,"))
                    await given.is_ready.wait()
                    await asyncio.sleep(0.02)
                    self.assertFalse(given.is_healthy)
                    if enters:
                        await given.submit_or_refuse("GAS", 1, commands_of_records("cancel,GAS,A,,,,,,"))
                        self.assertTrue(given.is_healthy)
                    else:
                        full.clear()
                        await self.wait_until(lambda: given.is_healthy)

    async def test_a_batch_at_which_the_desk_always_ends_is_answered(self):
        self.write_office()
        disk = Disk()
        disk.ends = [(0, 0)] * day_writer.MOST_ENDS
        with patch_of_opening(disk):
            async with self.running_writer(self.day_writer_of()) as given:
                with self.assertRaises(refusals.Refused) as caught:
                    await given.submit_or_refuse("GAS", 1, commands_of_records("cancel,GAS,A,,,,,,"))
                self.assertEqual(caught.exception.fault, refusals.RequestFault.UNAVAILABLE)
                await given.submit_or_refuse("GAS", 1, commands_of_records("cancel,GAS,A,,,,,,"))
        self.assertEqual(disk.records, ["cancel,GAS,A,,,,,,"])


    async def test_requests_keep_their_order_if_the_desk_ends(self):
        """Those of the batch at which it ends come before those that came meanwhile, and the close comes last."""
        records = [f"cancel,GAS,{name},,,,,," for name in "AB"]
        for ends in ((0, 0), (1, 0)):
            self.setUp()
            self.write_office()
            disk = Disk()
            disk.ends = [ends]
            with patch_of_opening(disk):
                given = self.day_writer_of()
                task = asyncio.create_task(given.write_until_published())
                await given.is_ready.wait()
                first = given.submit_or_refuse("GAS", 1, commands_of_records(records[0]))
                while not given.queue.batch:
                    await asyncio.sleep(0)
                second = given.submit_or_refuse("GAS", 2, commands_of_records(records[1]))
                given.begin_close()
                self.assertEqual(await asyncio.gather(first, second), [[1], [2]])
                await task
            self.assertEqual((disk.records, disk.openings), ([*records, "close,,,,,,,,"], 2))


class Opening(unittest.IsolatedAsyncioTestCase):
    def setUp(self):
        if aiohttp is None:
            self.skipTest("python3-aiohttp, python3-jinja2 or python3-cryptography is missing")

    async def test_a_full_journal_with_the_longest_replies(self):
        """A program in place of the desk prints it at once."""
        reason = max(book.REASONS, key=len)
        lines = "".join(f"{number},refused,{reason}\n" for number in range(1, rules.MOST_RECORDS))
        records = "cancel,A,B,,,,,,\n" * (rules.MOST_RECORDS - 1)
        with tempfile.TemporaryDirectory() as room:
            path, program = Path(room, "day.desk"), Path(room, "dam-desk")
            path.write_text(f"day,24\n{lines}day,24\nfault,2,NotOneRecord\n")
            Path(room, "journal").write_text(f"day,24,,,,,,,\n{records}")
            program.write_text(f'#!/bin/sh\n[ "$1" != --journal ] || exec cat {room}/journal\ncat "$1"\nexec cat > {room}/given\n')
            program.chmod(0o755)
            desk, shown, replies = await asyncio.wait_for(Desk.start(program, path, 24), LATEST)
            await desk.end_or_kill()
            given = Path(room, "given").read_text()
        self.assertEqual((shown, replies), (records.splitlines(), [f"refused,{reason}"] * len(shown)))
        self.assertEqual((desk.size, given), (len(shown), "day,24,,,,,,,\n\n"))

    async def test_a_desk_that_hangs_once_its_output_is_closed(self):
        with tempfile.TemporaryDirectory() as room:
            program = Path(room, "dam-desk")
            program.write_text("#!/bin/sh\nexec >&-\nexec sleep 3600\n")
            program.chmod(0o755)
            with mock.patch.multiple("lib.office.desk", ANSWER_SECONDS=0.5, END_SECONDS=0.5):
                opening = asyncio.create_task(Desk.start(program, Path(room, "day.desk"), 24))
                ended, _ = await asyncio.wait([opening], timeout=LATEST)
                opening.cancel()
        self.assertEqual(ended, {opening})
        self.assertIsInstance(opening.exception(), asyncio.TimeoutError)

    async def test_a_desk_that_is_killed_while_it_is_written_to(self):
        """It has ended, and asyncio has no fault to report."""
        pipes = dict.fromkeys(("stdin", "stdout", "stderr"), asyncio.subprocess.PIPE)
        with self.assertNoLogs("asyncio", "ERROR"):
            desk = Desk(await asyncio.create_subprocess_exec("sleep", "3600", **pipes))
            entered = desk.iterate_replies(["x" * 2**20])
            asyncio.get_running_loop().call_later(0.1, desk.process.kill)
            with self.assertRaisesRegex(DeskEnded, "^the desk was ended by signal 9: no fault line$"):
                await entered.__anext__()
            await desk.end_or_kill()
            del desk, entered
            gc.collect()


@unittest.skipUnless(aiohttp, "aiohttp is missing (Debian's python3-aiohttp)")
class Description(unittest.TestCase):
    def test_its_faults_are_those_of_requests(self):
        schema = json.loads(fixed_files.read_openapi_text(is_demo=False))["components"]["schemas"]["Fault"]
        of_any = refusals.RequestFault.METHOD, refusals.RequestFault.DEFECT
        self.assertEqual(schema["properties"]["fault"]["enum"], [fault.word for fault in refusals.RequestFault if fault not in of_any])


@unittest.skipUnless(aiohttp, "aiohttp is missing (Debian's python3-aiohttp)")
class Page(unittest.TestCase):
    def test_it_asks_for_no_other_numbers_than_it_gets(self):
        asked = {name for path in PAGES.glob("office*.js") for name in re.findall(r"\bRULES\.(\w+)", path.read_text())}
        self.assertGreater(len(asked), 3)
        self.assertLessEqual(asked, {name.lower() for name in fixed_files.RULES})


if __name__ == "__main__":
    unittest.main()
