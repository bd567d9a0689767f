"""The office: signed heads, and the numbers of a participant's commands."""

import asyncio
import errno
import io
import os
import unittest
from unittest import mock

from office_support import DAY, Disk, Office, commands_of_records, patch_of_opening

from lib.seal import heads
from lib.tool import exits

try:
    from lib.office import day_writer, folder, monitoring, newest_head, operator_commands, refusals
    from lib.office.ledger import Contradiction, Ledger
    from lib.seal import signing
except ImportError:  # without python3-aiohttp and the like, whose tests are skipped
    pass


class SignedHeads(Office):
    """The newest signed head is in a file, and a journal that doesn't have its entries isn't served."""

    RECORDS = tuple(f"cancel,GAS,{name},,,,,," for name in "ABC")

    async def entered(self, disk):
        self.write_office()
        with patch_of_opening(disk):
            async with self.running_writer(self.day_writer_of()) as given:
                await given.submit_or_refuse("GAS", 1, commands_of_records(*self.RECORDS))
        return given.files.path_of(folder.SIGNED)

    async def started(self, disk):
        """The fault of a start, after which the same records are in the desk's file as before."""
        records = list(disk.records)
        with patch_of_opening(disk):
            given = self.day_writer_of()
            task = asyncio.create_task(given.write_until_published())
            await self.wait_until(lambda: given.fault or given.is_ready.is_set())
            if given.fault:
                with self.assertRaises(refusals.Refused):
                    given.submit_or_refuse("GAS", 9, commands_of_records("cancel,GAS,Z,,,,,,"))
            task.cancel()
            await asyncio.gather(task, return_exceptions=True)
        self.assertEqual(disk.records, records)
        return given.fault

    async def test_a_start_without_entries_that_were_signed_stops_until_they_are_back(self):
        disk = Disk()
        path = await self.entered(disk)
        kept, before = path.read_bytes(), list(disk.records)
        self.assertEqual(heads.parse_value_and_is_written(kept, heads.parse_head)[0].size, 3)
        other = [*before[:1], "cancel,GAS,OTHER,,,,,,", *before[2:]]
        for records, fault in (([], "LostEntries"), (before[:2], "LostEntries"), (other, "OtherEntries"), (before, None)):
            disk.records[:] = records
            for _ in range(2):  # it stays so at each start
                found = await self.started(disk)
                self.assertEqual(found and found.partition(":")[0], fault)
            self.assertEqual(path.read_bytes(), kept)
        disk.records[:] = before[:2]
        path.unlink()  # the operator knows
        self.assertIsNone(await self.started(disk))

    async def test_a_file_that_a_crash_cut_is_left_aside(self):
        disk = Disk()
        path = await self.entered(disk)
        whole = path.read_bytes()
        disk.records.pop()
        for data in (b"", whole[:-40], bytes(len(whole))):
            path.write_bytes(data)
            self.assertIsNone(await self.started(disk))
        path.write_bytes(whole)
        self.assertIn("LostEntries", await self.started(disk))

    async def test_a_start_with_another_key_stops(self):
        """Also with a head that was changed: no crash leaves one. The day goes on with its own key, or without the head."""
        disk = Disk()
        path = await self.entered(disk)
        kept, own = path.read_bytes(), self.key
        for name in (folder.SIGNED, folder.HEAD):
            path = path.replace(path.with_name(name))
            self.key = signing.draw_key()
            self.assertEqual(await self.started(disk), f"OtherKey: the head in {name} isn't signed by operator.pem, or was changed")
            self.assertEqual(path.read_bytes(), kept)
            self.key = own
            path.write_bytes(kept.replace(b'"size":3', b'"size":2'))
            self.assertIn("OtherKey", await self.started(disk))
            path.write_bytes(kept)
            self.assertIsNone(await self.started(disk))
        path.unlink()
        path.with_name(folder.SIGNED).unlink()  # which the last start wrote
        self.key = signing.draw_key()
        self.assertIsNone(await self.started(disk))

    async def test_nothing_is_entered_while_the_newest_head_isnt_kept(self):
        self.write_office()
        full = mock.patch.object(newest_head.os, "replace", mock.Mock(side_effect=OSError(errno.ENOSPC, "No space left on device")))
        with patch_of_opening(Disk()), mock.patch.object(newest_head, "PAUSE", 0.001):
            async with self.running_writer(self.day_writer_of()) as given:
                with full:
                    await given.submit_or_refuse("GAS", 1, commands_of_records("cancel,GAS,A,,,,,,"))
                    await self.wait_until(lambda: not given.is_healthy)
                    with self.assertRaises(refusals.Refused) as caught:
                        given.submit_or_refuse("GAS", 2, commands_of_records("cancel,GAS,B,,,,,,"))
                    self.assertEqual(caught.exception.fault, refusals.RequestFault.UNAVAILABLE)
                    self.assertEqual(await given.submit_or_refuse("GAS", 1, commands_of_records("cancel,GAS,A,,,,,,")), [1])  # which is entered
                await self.wait_until(lambda: given.is_healthy)
                self.assertEqual(await given.submit_or_refuse("GAS", 2, commands_of_records("cancel,GAS,B,,,,,,")), [2])
                await self.wait_until(lambda: given.newest.written is given.newest.head)
                with full:
                    await given.submit_or_refuse("GAS", 3, commands_of_records("cancel,GAS,C,,,,,,"))
                    await self.wait_until(lambda: not given.is_healthy)
                    given.begin_close()  # which needs no head
                    await self.wait_until(lambda: given.ledger.is_closed)

    async def test_a_stopped_day_says_so_and_isnt_closed(self):
        disk = Disk()
        await self.entered(disk)
        disk.records.pop()
        records = mock.patch.object(operator_commands.asyncio, "run", lambda _: ["day,24,,,,,,,", *disk.records])
        with mock.patch.object(operator_commands, "capture_records", mock.Mock()), records:
            self.assertEqual(operator_commands.capture_status_record(self.office, "dam-desk")["days"][0]["state"], "open")
            with patch_of_opening(disk), self.office.holding():
                given = self.day_writer_of()
                await given.write_until_published()
                found = operator_commands.capture_status_record(self.office, "dam-desk")
                self.assertEqual(found["days"][0]["state"], "stopped")
                self.assertRegex(list(operator_commands.status_lines(found))[2], "^  stopped: LostEntries: the desk's journal has 2 entries")
                with self.assertRaisesRegex(exits.Stop, f"^{DAY} is stopped, and wasn't closed: LostEntries"):
                    operator_commands.close_and_wait_or_stop(self.office, given.files)
            self.assertFalse(given.files.has_file(folder.CLOSE_NOW))
            self.assertEqual(operator_commands.capture_status_record(self.office, "dam-desk")["days"][0]["state"], "open")
        disk.records.append(self.RECORDS[-1])
        self.assertIsNone(await self.started(disk))
        self.assertFalse(given.files.has_file(folder.STOPPED_DAY))

    async def test_an_opening_shows_the_entries_and_the_replies_that_were_answered(self):
        self.write_office()
        with patch_of_opening(Disk()):
            async with self.running_writer(self.day_writer_of()) as given:
                await given.submit_or_refuse("GAS", 1, commands_of_records(*self.RECORDS))
                records, replies = map(list, zip(*((entry.record, entry.reply) for entry in given.ledger.seal.entries)))
                given.ledger.enter_rest_of_journal_or_raise(records, replies)
                others = [record.replace("GAS", "OIL") for record in records], ["done"] * 3
                self.assertNotIn("done", replies)
                for changed in ((others[0], replies), (records, others[1]), (records[:2], replies[:2])):
                    with self.subTest(changed), self.assertRaisesRegex(Contradiction, "journal doesn't begin with the 3 entries"):
                        given.ledger.enter_rest_of_journal_or_raise(*changed)
                self.assertEqual(given.ledger.size, 3)

    async def test_a_start_notes_the_head_of_the_journal_that_it_serves(self):
        disk = Disk()
        path = await self.entered(disk)
        path.unlink()
        self.assertIsNone(await self.started(disk))
        self.assertEqual(newest_head.read_signed_head(path, self.key).size, 3)

    async def test_a_head_that_is_not_whole_is_named(self):
        """The journal can't be compared with it."""
        disk = Disk()
        path = await self.entered(disk)
        for damage in (b"", b"{}", path.read_bytes()[:-9]):
            path.write_bytes(damage)
            with mock.patch.object(day_writer.DayWriter, "log_event") as told:
                self.assertIsNone(await self.started(disk))
            told.assert_any_call("signed head not whole", file=folder.SIGNED)

    async def test_the_last_head_is_held_too(self):
        disk = Disk()
        path = await self.entered(disk)
        os.rename(path, path.with_name(folder.HEAD))
        disk.records.pop()
        self.assertIn(folder.HEAD, await self.started(disk))

    async def test_the_file_is_soon_the_newest_head_and_never_an_older_one(self):
        self.write_office()
        with patch_of_opening(Disk()), mock.patch.object(newest_head, "PAUSE", 0.01):
            async with self.running_writer(self.day_writer_of()) as given:
                for number, record in enumerate(self.RECORDS, 1):
                    await given.submit_or_refuse("GAS", number, commands_of_records(record))
                    await self.wait_until(lambda: given.newest.written is not None and given.newest.written.size == number)
                    found = newest_head.read_signed_head(given.files.path_of(folder.SIGNED), self.key)
                    self.assertEqual((found, found.root), (given.ledger.signed_head(), given.ledger.seal.tree.root(number)))
                given.newest.note_head(given.ledger.signed_head(1))
                self.assertEqual(given.newest.head.size, 3)

    async def test_an_orderly_end_has_the_head_of_a_batch_that_is_still_signed(self):
        self.write_office()
        sign = Ledger.sign_and_cache_heads

        async def slow(*args):
            await asyncio.sleep(0.05)
            await sign(*args)

        with patch_of_opening(Disk()), mock.patch.object(Ledger, "sign_and_cache_heads", slow):
            async with self.running_writer(self.day_writer_of()) as given:
                given.submit_or_refuse("GAS", 1, commands_of_records(*self.RECORDS))
                await self.wait_until(lambda: given.ledger.size == 3)
        self.assertEqual(newest_head.read_signed_head(given.files.path_of(folder.SIGNED), self.key).size, 3)

    async def test_the_file_is_written_seldom_and_its_faults_are_logged_once(self):
        self.write_office()
        log = io.StringIO()
        with patch_of_opening(Disk()):
            async with self.running_writer(self.day_writer_of(log=monitoring.Log(log))) as given:
                given.files.path_of(f".{folder.SIGNED}").mkdir()
                with mock.patch.object(newest_head, "PAUSE", 0.001), mock.patch.object(os, "replace", wraps=os.replace) as replaced:
                    await given.submit_or_refuse("GAS", 1, commands_of_records(self.RECORDS[0]))
                    await asyncio.sleep(0.05)
                    self.assertEqual((log.getvalue().count("signed head not kept"), replaced.call_count), (1, 0))
                    given.files.path_of(f".{folder.SIGNED}").rmdir()
                    await self.wait_until(lambda: given.newest.written is not None)
                with mock.patch.object(newest_head, "PAUSE", 60), mock.patch.object(os, "replace", wraps=os.replace) as replaced:
                    await self.wait_until(given.newest.task.done)
                    for number, record in enumerate(self.RECORDS[1:], 2):
                        await given.submit_or_refuse("GAS", number, commands_of_records(record))
                    await asyncio.sleep(0.05)
                    self.assertLessEqual(replaced.call_count, 1)
        self.assertEqual(newest_head.read_signed_head(given.files.path_of(folder.SIGNED), self.key).size, 3)  # at an orderly end


class Numbers(Office):
    async def refused(self, given, who, first, *records):
        with self.assertRaises(refusals.Refused) as caught:
            await given.submit_or_refuse(who, first, commands_of_records(*records))
        return caught.exception.fault, caught.exception.more

    async def test_each_number_is_used_once(self):
        self.write_office(share=5)
        first, second, third = (f"cancel,GAS,{name},,,,,," for name in "ABC")
        disk, used, ahead = Disk(), refusals.RequestFault.NUMBER_USED, refusals.RequestFault.NUMBER_AHEAD
        with patch_of_opening(disk):
            async with self.running_writer(self.day_writer_of()) as given:
                self.assertEqual(await self.refused(given, "GAS", 2, first), (ahead, {"next": 1}))
                self.assertEqual(await given.submit_or_refuse("GAS", 1, commands_of_records(first, second)), [1, 2])
                self.assertEqual(await given.submit_or_refuse("GAS", 1, commands_of_records(first, second)), [1, 2])
                self.assertEqual(await given.submit_or_refuse("GAS", 2, commands_of_records(second, third)), [2, 3])
                self.assertEqual(await self.refused(given, "GAS", 2, first), (used, {"number": 2, "next": 4}))
                self.assertEqual(await self.refused(given, "GAS", 3, second, first), (used, {"number": 3, "next": 4}))
                self.assertEqual(await self.refused(given, "GAS", 1, first, third), (used, {"number": 2, "next": 4}))
                self.assertEqual(await self.refused(given, "GAS", 2, second, first, third), (used, {"number": 3, "next": 4}))
                self.assertEqual(await self.refused(given, "GAS", 4, first, first, first), (refusals.RequestFault.SHARE_USED, {"next": 4}))
                with self.assertRaisesRegex(refusals.Refused, "^you may enter 5 commands on this day, and have entered 3$"):
                    await given.submit_or_refuse("GAS", 4, commands_of_records(first, first, first))
                self.assertEqual((await self.refused(given, "OTHER", 1, "cancel,OTHER,A,,,,,,"))[0], refusals.RequestFault.SHARE_USED)
                self.assertEqual(await given.submit_or_refuse("A", 1, commands_of_records("cancel,A,A,,,,,,")), [4])
        self.assertEqual(disk.records, [first, second, third, "cancel,A,A,,,,,,"])

    async def test_requests_that_wait_together(self):
        """The same request twice, another one under its number, and the numbers after it in any order, all before the first is entered."""
        self.write_office()
        first, second, third = (f"cancel,GAS,{name},,,,,," for name in "ABC")
        with patch_of_opening(Disk()):
            async with self.running_writer(self.day_writer_of()) as given:
                waiting = [
                    given.submit_or_refuse("GAS", number, commands_of_records(*records))
                    for number, *records in ((1, first), (1, first), (1, second), (2, second), (1, first, third), (3, third))
                ]
                found = await asyncio.gather(*waiting, return_exceptions=True)
        faults, used = [one if isinstance(one, list) else one.fault for one in found], refusals.RequestFault.NUMBER_USED
        self.assertEqual(faults, [[1], [1], used, [2], used, [3]])


if __name__ == "__main__":
    unittest.main()
