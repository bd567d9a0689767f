"""The office: the close of a day, and what is published."""

import asyncio
import datetime
import errno
import functools
import io
import json
import threading
import unittest
from types import SimpleNamespace
from unittest import mock

from office_support import DAY, NAMES, PAST, Disk, Office, commands_of_records, patch_of_opening

from lib.seal import heads
from lib.tool import exits

try:
    from lib.office import admission, day_writer, folder, monitoring, operator_commands, public_answers, published, publishing, refusals
except ImportError:  # without python3-aiohttp and the like, whose tests are skipped
    pass


class Closing(Office):
    def clock(self, now):
        self.now = now
        return day_writer.Clock(lambda: self.now)

    async def test_the_close_comes_once_after_all_that_came_in_time(self):
        self.write_office(closes=datetime.datetime.fromtimestamp(5_000, datetime.timezone.utc))
        disk, clock = Disk(), self.clock(4_999)
        with patch_of_opening(disk):
            given = self.day_writer_of(clock)
            task = asyncio.create_task(given.write_until_published())
            await given.is_ready.wait()
            waiting = [given.submit_or_refuse(who, 1, commands_of_records(f"cancel,{who},A,,,,,,")) for who in NAMES]
            self.now = 5_000
            with self.assertRaises(refusals.Refused) as caught:
                given.submit_or_refuse("GAS", 2, commands_of_records("cancel,GAS,B,,,,,,"))
            self.assertEqual(caught.exception.fault, refusals.RequestFault.CLOSED)
            self.now = 4_000  # set back: it doesn't open again
            with self.assertRaises(refusals.Refused):
                given.submit_or_refuse("GAS", 2, commands_of_records("cancel,GAS,B,,,,,,"))
            self.assertEqual(await asyncio.gather(*waiting), [[1], [2], [3]])
            await task
            self.assertEqual((await given.read_state()).name, "results")
            self.assertEqual(await given.submit_or_refuse("GAS", 1, commands_of_records("cancel,GAS,A,,,,,,")), [2])  # sent again, after the close
        self.assertEqual(disk.records, [*(f"cancel,{who},A,,,,,," for who in NAMES), "close,,,,,,,,"])
        with patch_of_opening(disk):  # and not after a start with a clock that is set back either
            given = self.day_writer_of(self.clock(4_000))
            await given.write_until_published()
            with self.assertRaises(refusals.Refused) as caught:
                given.submit_or_refuse("GAS", 2, commands_of_records("cancel,GAS,B,,,,,,"))
            self.assertEqual(caught.exception.fault, refusals.RequestFault.CLOSED)
        self.assertEqual(disk.records.count("close,,,,,,,,"), 1)

    async def test_a_start_after_the_time_closes_before_it_enters_anything(self):
        self.write_office(closes=PAST)
        disk = Disk()
        disk.ends = [(0, 0), (1, 0)]  # the desk ends before the close, and after it is on the disk
        with patch_of_opening(disk):
            given = self.day_writer_of()
            with self.assertRaises(refusals.Refused):
                given.submit_or_refuse("GAS", 1, commands_of_records("cancel,GAS,A,,,,,,"))
            await given.write_until_published()
        self.assertEqual((disk.records, (await given.read_state()).name), (["close,,,,,,,,"], "results"))

    async def closed(self):
        """A closed day with its files."""
        self.write_office()
        with patch_of_opening(Disk()), mock.patch.object(publishing, "capture_output_or_raise", mock.AsyncMock(return_value=b"{}")):
            given = self.day_writer_of()
            task = asyncio.create_task(given.write_until_published())
            await given.is_ready.wait()
            await given.submit_or_refuse("GAS", 1, commands_of_records("cancel,GAS,A,,,,,,"))
            given.begin_close()
            await task
            await publishing.write_journal_and_head(given)
            await publishing.write_statement(given)
        return given

    async def shows_nothing(self):
        """A stopped day doesn't show the results, which may have been changed."""
        again = self.day_writer_of()
        await again.write_until_published()
        request, admitting = SimpleNamespace(path=f"/days/{DAY}/results"), SimpleNamespace(require_writer=lambda request: again)
        admitting.require_unstopped_writer = functools.partial(admission.Admission.require_unstopped_writer, admitting)
        for answer in (public_answers.PublicAnswers.answer_prices, public_answers.PublicAnswers.answer_published):
            with self.assertRaises(refusals.Refused) as caught:
                await answer(SimpleNamespace(admission=admitting), request)
            self.assertEqual(caught.exception.fault, refusals.RequestFault.UNAVAILABLE)

    async def test_a_start_sees_results_and_a_statement_that_were_changed(self):
        files = (await self.closed()).files
        kept = {name: files.read_file(name) for name in (folder.RESULTS, folder.STATEMENT, folder.SUMS)}

        async def fault():
            again = self.day_writer_of()
            await again.write_until_published()
            return again.fault

        self.assertIsNone(await fault())
        for name, damages in (
            (folder.RESULTS, (b"x", kept[folder.RESULTS] + b"\n")),
            (folder.STATEMENT, (b"", b"{} ", b"\xff")),
            (folder.SUMS, (b"", b"[]", b"{}", b"\xff", kept[folder.SUMS][:-9])),
        ):
            for damage in damages:
                files.path_of(name).write_bytes(damage)
                with self.subTest(name=name, damage=damage):
                    self.assertEqual(await fault(), f"{name} isn't as it was made")
                    await self.shows_nothing()
            files.path_of(name).write_bytes(kept[name])
        self.assertIsNone(await fault())
        files.remove(folder.SUMS)  # as before there were sums
        self.assertIsNone(await fault())

    async def test_a_statement_has_its_sum_at_any_crash(self):
        given = await self.closed()
        kept, put = given.files.read_file(folder.SUMS), folder.write_synced
        given.files.remove(folder.SUMS)
        given.files.remove(folder.STATEMENT)

        def ends(path, data):
            if path.name == folder.STATEMENT:
                raise OSError(errno.ENOSPC, "full")
            put(path, data)

        with mock.patch.object(publishing, "capture_output_or_raise", mock.AsyncMock(return_value=b"{}")):
            with mock.patch.object(folder, "write_synced", ends), self.assertRaises(OSError):
                await publishing.write_statement(given)
            self.assertEqual((given.files.read_file(folder.SUMS), given.published.is_whole), (kept, False))
            await publishing.write_statement(given)
        self.assertEqual((given.files.read_file(folder.SUMS), given.published.is_whole), (kept, True))

    async def test_a_published_day_is_that_of_its_head(self):
        given = await self.closed()
        begins, ends, load = threading.Event(), threading.Event(), published.read_published_ledger

        def slow(*words):
            made = load(*words)
            begins.set()
            ends.wait()
            return made

        with mock.patch.object(published, "read_published_ledger", slow):
            again = self.day_writer_of()
            task = asyncio.create_task(again.write_until_published())
            await asyncio.to_thread(begins.wait)
            self.assertEqual((again.is_known.is_set(), again.ledger.size), (False, 0))  # no part of the journal is seen
            with self.assertRaises(refusals.Refused) as caught:
                admission.refuse_unknown(again)
            self.assertEqual(caught.exception.fault, refusals.RequestFault.UNAVAILABLE)
            ends.set()
            await task
        self.assertTrue(again.is_known.is_set())
        self.assertEqual((again.fault, heads.line_bytes_of(again.ledger.signed_head())), (None, given.files.read_file(folder.HEAD)))
        journal_file, kept = given.files.path_of(folder.JOURNAL), given.files.read_file(folder.JOURNAL)
        journal_file.write_bytes(kept.replace(b"GAS,A,", b"GAS,B,"))
        again = self.day_writer_of()
        await again.write_until_published()
        self.assertIn("isn't of the journal", again.fault or "")
        replies = given.files.read_file(folder.REPLIES)
        for name, whole, damages in (
            (folder.JOURNAL, kept, (b"\xff", kept[:-3], kept + b"close,,,,,,,,\n", kept.replace(b"cancel", b"cancle"))),
            (folder.REPLIES, replies, (replies.replace(b"\n1,", b"\n2,"), replies.replace(b"\n1,", b"\n01,"), replies[:-1] + b"x\n")),
        ):
            first = whole.replace(b"day,24", b"day,25")
            for damage in (None, b"", first, whole.replace(b"\n", b"\r\n"), whole[:-1], whole + b"\n", b"\n" + whole, *damages):
                given.files.remove(name)
                if damage is not None:
                    self.assertNotEqual(damage, whole)
                    given.files.path_of(name).write_bytes(damage)
                again = self.day_writer_of()
                await again.write_until_published()
                with self.subTest(name=name, damage=damage):
                    self.assertEqual(again.fault, "journal.csv, replies.txt or head.json is missing or damaged")
            given.files.path_of(name).write_bytes(whole)
        again = self.day_writer_of()
        await again.write_until_published()
        self.assertIsNone(again.fault)
        given.files.remove(folder.HEAD)
        again = self.day_writer_of()
        await again.write_until_published()
        self.assertEqual(again.fault, "journal.csv, replies.txt or head.json is missing or damaged")

    async def test_a_day_whose_files_cant_be_made_isnt_right(self):
        self.write_office()
        step, faults = publishing.write_journal_and_head, [OSError(errno.ENOSPC, "full")] * 2

        async def sign(given):
            if faults:
                raise faults.pop()
            await step(given)
            rights.append(given.is_healthy)

        async def made(given):
            rights.append(given.is_healthy)

        rights, log = [], io.StringIO()
        with patch_of_opening(Disk()), mock.patch.object(publishing, "iterate_publishing_troubles", self.publish), mock.patch.multiple(
            publishing, FIRST_PAUSE=0.001, write_journal_and_head=sign, write_results=made, write_statement=made
        ):
            given = self.day_writer_of(log=monitoring.Log(log))
            task = asyncio.create_task(given.write_until_published())
            await given.is_ready.wait()
            given.begin_close()
            await task
        self.assertEqual((rights, given.is_healthy), ([False, True, True], True))
        self.assertEqual([one.get("file") for one in map(json.loads, log.getvalue().splitlines()) if one["event"] == "not made"], ["head.json"] * 2)

    async def test_each_file_has_its_own_pauses(self):
        """The failures of one file don't make the pauses of the next ones longer."""
        pauses, made = [], mock.AsyncMock(side_effect=3 * [OSError(errno.ENOSPC, "full"), OSError(errno.ENOSPC, "full"), None])

        async def note_pause(seconds):
            pauses.append(seconds)

        steps = mock.patch.multiple(publishing, write_journal_and_head=made, write_results=made, write_statement=made)
        with steps, mock.patch.object(publishing.asyncio, "sleep", note_pause):
            troubles = [trouble async for trouble in self.publish(mock.Mock())]
        self.assertEqual(troubles, 3 * ["[Errno 28] full", "[Errno 28] full", None])
        self.assertEqual(pauses, 3 * [publishing.FIRST_PAUSE, 2 * publishing.FIRST_PAUSE])

    async def test_the_states_of_a_day(self):
        """The office and the command status, which has the files alone, have the same words."""
        self.write_office()
        disk = Disk()

        async def touch_and_read_states():
            given.files.path_of(folder.DESK).touch()
            records = mock.patch.object(operator_commands.asyncio, "run", lambda _: ["day,24,,,,,,,", *disk.records])
            with mock.patch.object(operator_commands, "capture_records", mock.Mock()), records:
                shown = operator_commands.capture_day_record_or_stop(given.files, "dam-desk")["state"]
            return (await given.read_state()).name, shown

        with patch_of_opening(disk), mock.patch.object(publishing, "iterate_publishing_troubles", self.held):
            given = self.day_writer_of()
            task = asyncio.create_task(given.write_until_published())
            await given.is_ready.wait()
            self.assertEqual(await touch_and_read_states(), ("open", "open"))
            operator_commands.write_request(given.files, folder.CLOSE_NOW)
            given.begin_close()
            self.assertEqual(await touch_and_read_states(), ("closing", "closing"))
            await self.wait_until(lambda: given.ledger.is_closed)
            self.assertEqual(await touch_and_read_states(), ("closed", "closed"))
            given.files.path_of(folder.RESULTS).write_bytes(b"")
            self.assertEqual(await touch_and_read_states(), ("results", "results"))
            operator_commands.write_publish_request_or_stop(given.files)
            self.assertEqual(await touch_and_read_states(), ("published", "published"))
            task.cancel()
            await asyncio.gather(task, return_exceptions=True)

    async def test_a_slow_disk_holds_up_no_other_request(self):
        """The files of a day are looked up outside of the thread of the requests."""
        self.write_office()
        threads = set()

        def note_thread(files, name):
            threads.add(threading.get_ident())
            return name == folder.RESULTS

        given = self.day_writer_of()
        with mock.patch.object(folder.DayFolder, "has_file", note_thread):
            state = await given.read_state()
        self.assertEqual(state, day_writer.DayState("results", False, False))
        self.assertFalse(threads & {threading.get_ident()} or not threads)

    def test_records_that_are_no_journal_have_no_state(self):
        self.write_office()
        files = self.office.list_folders_by_day()[DAY]
        files.path_of(folder.DESK).touch()
        for records, fault in ((["day,24"], "FieldCount in record 1"), (["day,24,,,,,,,", "close,A,,,,,,,"], "BadField in record 2 field 2")):
            shown = mock.patch.object(operator_commands.asyncio, "run", lambda _: records)
            with mock.patch.object(operator_commands, "capture_records", mock.Mock()), shown, self.assertRaises(exits.Stop) as caught:
                operator_commands.capture_day_record_or_stop(files, "dam-desk")
            self.assertEqual(str(caught.exception), f"the journal of {DAY} can't be read: input: {fault}")

    async def held(self, _):
        await asyncio.Event().wait()
        yield None

    def test_a_close_says_why_it_waits(self):
        self.write_office()
        files = self.office.list_folders_by_day()[DAY]
        for served, room, words in (
            (False, None, []),
            (True, None, [f"{DAY} has no head yet: the office's log says why"]),
            (True, OSError(errno.ENOSPC, "No space left on device"), ["No space left on device"]),
        ):
            said = []
            with (
                mock.patch.multiple(operator_commands, CLOSE_SECONDS=0.2, TELL_SECONDS=0.02, STEP=0.001),
                mock.patch.object(self.office, "hold_and_see_if_served", lambda: served),
                mock.patch.object(files, "write_trial_or_raise", mock.Mock(side_effect=room)),
                mock.patch.object(exits, "print_note", lambda _, line: said.append(line)),
            ):
                if served:
                    with self.assertRaises(exits.Stop) as caught:
                        operator_commands.close_and_wait_or_stop(self.office, files)
                    self.assertEqual(caught.exception.status, exits.UNDECIDED)
                else:
                    self.assertFalse(operator_commands.close_and_wait_or_stop(self.office, files))
            self.assertEqual(len(said), len(words))
            for line, part in zip(said, words):
                self.assertIn(part, line)
        self.assertTrue(files.has_file(folder.CLOSE_NOW))  # the request stays

    async def test_the_operator_closes_early(self):
        self.write_office()
        disk = Disk()
        with patch_of_opening(disk):
            given = self.day_writer_of()
            task = asyncio.create_task(given.write_until_published())
            await given.is_ready.wait()
            await given.submit_or_refuse("GAS", 1, commands_of_records("cancel,GAS,A,,,,,,"))
            operator_commands.write_request(given.files, folder.CLOSE_NOW)
            await task
        self.assertEqual(disk.records, ["cancel,GAS,A,,,,,,", "close,,,,,,,,"])


if __name__ == "__main__":
    unittest.main()
