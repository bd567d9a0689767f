"""The comparison of a participant's sent commands with the published journal."""

import json
import random
import tempfile
import time
import unittest
from pathlib import Path

from support import AUCTION, AUCTION_RESULTS, journal_of, read_results, run_tool, writing_files

from shared import days
from lib.base import rules, subsequence
from lib.journal import book, journal
from lib.lint import sent
from lib.tool import exits, modules


def audit(published, own, who="A", *words):
    """A run of the tool on a journal and a participant's sent commands."""
    with writing_files(journal=published, sent=own) as (journal, sent_file):
        status, out, err = run_tool("audit", journal, "--sent", sent_file, "--participant", who, *words)
        return status, out.decode(), err.replace(f"{journal.parent}/", "")


def own_lines(data, who):
    return [line for line in data.decode().splitlines() if line.split(",")[1] == who]


PUBLISHED = journal_of(
    "submit,A,H1,hour,buy,100,1:10,,",
    "submit,B,H1,hour,sell,50,1:10,,",
    "submit,A,H1,hour,buy,200,1:10,,",
    "amend,A,H1,,,300,1:10,,",
    "cancel,B,H1,,,,,,",
    "submit,A,K1,block,buy,100,1:10;2:10,,",
)
OWN = own_lines(PUBLISHED, "A")
AS_SENT = "as sent: 4 commands of A, each once, in their order, and no others"


class Worked(unittest.TestCase):
    """By hand: A's records 1 to 4 are records 2, 4, 5 and 7 of the journal."""

    def differences(self, lines):
        status, out, err = audit(PUBLISHED, days.text_of_lines(lines))
        self.assertEqual((status, err), (exits.DIFFERS, ""))
        head, *wrong = out.splitlines()
        count = "1 difference" if len(wrong) == 1 else f"{len(wrong)} differences"
        self.assertEqual(head, f"not as sent: {count} in the commands of A")
        return wrong

    def test_as_sent(self):
        status, out, _ = audit(PUBLISHED, days.text_of_lines(OWN))
        self.assertEqual(status, exits.DONE)
        self.assertEqual(
            out.splitlines(),
            [
                "as sent: 4 commands of A, each once, in their order, and no others, 1 of 4 commands refused",
                f"sent record 1 is record 2 (command 1) of the journal; the book's reply is done: {OWN[0]}",
                f"sent record 2 is record 4 (command 3) of the journal; the book's reply is refused, NameTaken: {OWN[1]}",
                f"sent record 3 is record 5 (command 4) of the journal; the book's reply is done: {OWN[2]}",
                f"sent record 4 is record 7 (command 6) of the journal; the book's reply is done: {OWN[3]}",
            ],
        )
        self.assertEqual(audit(PUBLISHED, days.text_of_lines(OWN), "A", "--quiet"), (0, "", ""))

    def test_missing(self):
        lines = [*OWN[:2], "cancel,A,H2,,,,,,", *OWN[2:]]
        self.assertEqual(self.differences(lines), ["sent record 3 is missing in the journal: cancel,A,H2,,,,,,"])

    def test_twice(self):
        data = PUBLISHED.replace(b"cancel,B", f"{OWN[0]}\ncancel,B".encode())
        status, out, _ = audit(data, days.text_of_lines(OWN))
        said = ["not as sent: 1 difference in the commands of A", f"record 6 (command 5) of the journal repeats what was sent once: {OWN[0]}"]
        self.assertEqual((status, out.splitlines()), (exits.DIFFERS, said))
        self.assertEqual(audit(data, days.text_of_lines([*OWN[:3], OWN[0], OWN[3]]))[0], exits.DONE)

    def test_changed(self):
        other = OWN[2].replace(",300,", ",301,")
        said = f"sent record 3 is changed: it was '{other}', and record 5 (command 4) of the journal is '{OWN[2]}'"
        self.assertEqual(self.differences([*OWN[:2], other, OWN[3]]), [said])

    def test_several_changes_of_one_order(self):
        """They are pairs_and_rests in their order."""
        begin = "submit,A,H1,hour,buy,100,1:10,,"
        amends = [f"amend,A,H1,,,{price},1:10,," for price in (201, 301, 401)]
        others = [f"amend,A,H1,,,{price},1:10,," for price in (202, 302, 402)]
        status, out, _ = audit(journal_of(begin, *amends), days.text_of_lines([begin, *others]))
        said = [
            f"sent record {number} is changed: it was '{was}', and record {number + 1} (command {number}) of the journal is '{now}'"
            for number, (was, now) in enumerate(zip(others, amends), 2)
        ]
        self.assertEqual((status, out.splitlines()[1:]), (exits.DIFFERS, said))

    def test_moved(self):
        said = f"sent record 1 is moved: record 7 (command 6) of the journal is out of its order: {OWN[3]}"
        self.assertEqual(self.differences([OWN[3], *OWN[:3]]), [said])

    def test_not_sent(self):
        self.assertEqual(self.differences([*OWN[:2], OWN[3]]), [f"record 5 (command 4) of the journal was not sent: {OWN[2]}"])
        self.assertEqual(len(self.differences(["day,24,,,,,,,"])), 4)

    def test_forms_of_what_was_sent(self):
        """A journal of the participant's own, its day counted as a record and its close left out; a day's text; a table."""
        own = journal_of(*OWN)
        status, out, _ = audit(PUBLISHED, own)
        said = f"sent record 2 is record 2 (command 1) of the journal; the book's reply is done: {OWN[0]}"
        self.assertEqual((status, out.count("\n"), said in out), (exits.DONE, 5, True))
        self.assertEqual(audit(PUBLISHED, own.replace(b"\n", b"\r\n\r\n"))[0], exits.DONE)
        day = AUCTION.read_bytes() + b"results\n" + read_results(AUCTION)
        self.assertEqual(audit(day, days.text_of_lines(own_lines(AUCTION.read_bytes(), "GAS")), "GAS")[0], exits.DONE)
        table = b"participant,order,kind,side,price_eur_mwh,periods,volume_mw\nB,H1,hour,sell,0.50,1,1\n"
        self.assertEqual(audit(PUBLISHED.replace(b"cancel,B,H1,,,,,,\n", b""), table, "B")[0], exits.DONE)
        said = ["not as sent: 1 difference in the commands of B", "record 6 (command 5) of the journal was not sent: cancel,B,H1,,,,,,"]
        self.assertEqual(audit(PUBLISHED, table, "B")[1].splitlines(), said)
        # A whole market's file: of it, the participant's alone count.
        status, out, _ = audit(PUBLISHED, PUBLISHED)
        self.assertEqual((status, out.splitlines()[0]), (exits.DONE, f"{AS_SENT}, 1 of 4 commands refused (2 of others left out)"))
        self.assertEqual(audit(PUBLISHED, b"", "C")[0], exits.NO_INPUT)
        said = "as sent: 0 commands of C, each once, in their order, and no others\n"
        self.assertEqual(audit(PUBLISHED, b"day,24,,,,,,,\n", "C")[:2], (exits.DONE, said))

    def test_a_table_of_what_the_orders_are_at_the_end(self):
        """A table can't have an amend, and so is compared with the book too."""
        heads = "participant,order,kind,side,price_eur_mwh,periods,volume_mw"
        rows = ["A,H1,hour,buy,3.00,1,1", "A,K1,block,buy,1.00,1-2,1", "C,H9,hour,buy,3.00,1,1"]
        status, out, _ = audit(PUBLISHED, days.text_of_lines([heads, *rows]))
        said = "as in the table: 2 orders of A in the book at the end, and no others, after 4 commands of A, 1 of 4 commands refused"
        self.assertEqual((status, out), (exits.DONE, f"{said} (1 of others left out)\n"))
        for other in ([rows[1], rows[0]], rows[:1], [rows[0].replace("3.00", "3.01"), rows[1]]):
            self.assertEqual(audit(PUBLISHED, days.text_of_lines([heads, *other]))[0], exits.DIFFERS)

    def test_a_table_of_the_end_when_no_order_is_left(self):
        """B cancelled its only order, so a table of the orders at the end has none of it."""
        heads, row = "participant,order,kind,side,price_eur_mwh,periods,volume_mw", "A,H1,hour,buy,3.00,1,1"
        said = "as in the table: 0 orders of B in the book at the end, and no others, after 2 commands of B (1 of others left out)\n"
        self.assertEqual(audit(PUBLISHED, days.text_of_lines([heads, row]), "B"), (exits.DONE, said, ""))
        # Of one that has orders, or that the journal doesn't know, such a table says nothing; nor do records of others.
        uncancelled = PUBLISHED.replace(b"cancel,B,H1,,,,,,\n", b"")
        for data, own, who in ((uncancelled, [heads, row], "B"), (PUBLISHED, [heads, row], "C"), (PUBLISHED, OWN, "B")):
            self.assertEqual(audit(data, days.text_of_lines(own), who)[:2], (exits.NO_INPUT, ""))

    def test_a_row_of_no_participant_is_none_of_others(self):
        """A row whose participant can't be read may be of the participant that asks, and so may one that is shifted."""
        rows = ["participant,order,kind,side,price_eur_mwh,periods,volume_mw", "A,H1,hour,buy,3.00,1,1", "A,K1,block,buy,1.00,1-2,1"]
        for row, said in (
            (",H2,hour,buy,3.00,1,1", ", column participant: '' should be 1 to 8 capitals A to Z"),
            ("4,H2,hour,buy,3.00,1,1", ", column participant: '4' should be 1 to 8 capitals A to Z"),
            ("\u200bA,H2,hour,buy,3.00,1,1", ", column participant: '\\u200bA' should be 1 to 8 capitals A to Z"),
            ("ABCDEFGHI,H2,hour,buy,3.00,1,1", ", column participant: 'ABCDEFGHI' should be 1 to 8 capitals A to Z"),
            ("c,H2,hour,buy,3.00,1,1", ", column participant: 'c' should be 1 to 8 capitals A to Z: write C"),
            ("a,H2,hour,buy,3.00,1,1", ", column participant: 'a' should be 1 to 8 capitals A to Z: write A"),
            ("C,A,H2,hour,buy,3.00,1,1", ": it has 8 cells, but the header has 7"),
        ):
            found = f"audit: sent isn't what A sent: its table has rows that aren't orders: line 4{said}\n"
            self.assertEqual(audit(PUBLISHED, days.text_of_lines([*rows, row])), (exits.NO_INPUT, "", found))
        others = [f"{who},H1,hour,buy,x,1," for who in ("C", "ABCDEFGH")]
        self.assertEqual(audit(PUBLISHED, days.text_of_lines([*rows, *others]))[::2], (exits.DONE, ""))

    def test_a_table_is_compared_both_ways(self):
        """For one with the orders at the end, only the differences there are reported, and not each amend that led to them."""
        heads = "participant,order,kind,side,price_eur_mwh,periods,volume_mw"
        status, out, _ = audit(PUBLISHED, days.text_of_lines([heads, "A,H1,hour,buy,3.01,1,1", "A,K1,block,buy,1.00,1-2,1"]))
        was, now = "submit,A,H1,hour,buy,301,1:10,,", "submit,A,H1,hour,buy,300,1:10,,"
        said = ["not as sent: 1 difference in the commands of A"]
        said.append(f"sent record 1 is changed: it was '{was}', and order 1 in the book at the end is '{now}'")
        self.assertEqual((status, out.splitlines()), (exits.DIFFERS, said))
        rows = ["A,H1,hour,buy,3.00,1,1", "A,K1,block,buy,1.00,1-2,1", "A,K2,block,buy,1,1,1"]
        status, out, _ = audit(PUBLISHED, days.text_of_lines([heads, *rows]))
        self.assertEqual((status, "sent record 3 is missing in the book at the end: submit,A,K2," in out), (exits.DIFFERS, True))
        status, out, _ = audit(PUBLISHED, days.text_of_lines([heads, "A,H1,hour,buy,3.00,1,1"]))
        self.assertIn("\norder 2 in the book at the end was not sent: submit,A,K1,", out)

    def test_a_table_of_commands_is_no_table_of_orders(self):
        """Its cancels would count as orders."""
        heads = "what,participant,order,kind,side,price_eur_mwh,periods,volume_mw"
        rows = ["submit,A,H1,hour,buy,3.00,1,1", "cancel,A,K1,block,buy,1.00,1-2,1"]
        said = "it is a table of commands, with the column what: give records of a journal, or a table of orders"
        wanted = (exits.NO_INPUT, "", f"audit: sent isn't what A sent: {said}\n")
        self.assertEqual(audit(PUBLISHED, days.text_of_lines([heads, *rows])), wanted)
        heads, rows = heads.removeprefix("what,"), ["A,H1,hour,bye,3.00,1,1"]
        said = "audit: sent isn't what A sent: its table has rows that aren't orders: line 2, column side: 'bye' should be buy or sell\n"
        self.assertEqual(audit(PUBLISHED, days.text_of_lines([heads, *rows])), (exits.NO_INPUT, "", said))

    @unittest.skipUnless(modules.has_module("openpyxl"), "openpyxl is missing (Debian's python3-openpyxl)")
    def test_a_workbook(self):
        with tempfile.TemporaryDirectory() as folder:
            path = Path(folder, "orders.xlsx")
            run_tool("table", "--quiet", "--rows", "orders", AUCTION, AUCTION_RESULTS, "-o", path)
            status, out, err = run_tool("audit", AUCTION, "--sent", path, "--participant", "STAD")
            said = "as sent: 24 commands of STAD, each once, in their order, and no others (65 of others left out)"
            self.assertEqual((status, out.decode().splitlines()[0], err), (exits.DONE, said, ""))

    def test_notes_say_how_a_table_was_read(self):
        heads, row = "participant,order,kind,side,price_eur_mwh,periods,volume_mw,region", "A,H1,hour,buy,3.00,1,1,\u00fc"
        data = f"{heads}\n{row}\nA,K1,block,buy,1.00,1-2,1\n".encode("cp1252")
        notes = ["sent: line 2: the table isn't in UTF-8, and was read as Windows-1252", "sent: the column 'region' isn't used"]
        status, out, err = audit(PUBLISHED, data)
        self.assertEqual((status, err.splitlines()), (exits.DONE, [f"audit: {note}" for note in notes]))
        self.assertEqual(audit(PUBLISHED, data, "A", "--quiet"), (exits.DONE, "", ""))
        status, out, again = audit(PUBLISHED, data, "A", "--json")
        self.assertEqual(([note.rpartition("/")[2] for note in json.loads(out)["notes"]], again), (notes, err))
        made = json.loads(audit(PUBLISHED, days.text_of_lines(OWN), "A", "--json")[1])
        self.assertEqual((made["notes"], made["sent"]), ([], {"commands": 4, "refused": 1}))
        made = json.loads(audit(PUBLISHED, days.text_of_lines(OWN[:3]), "A", "--json")[1])  # the command that it doesn't have is counted too
        self.assertEqual((made["verdict"], made["sent"]), ("wrong", {"commands": 4, "refused": 1}))
        # Those of another table may be why it has none of the participant.
        said = ["audit: sent isn't what C sent: it has 2 commands of others, and none of C", *(note.removeprefix("sent: ") for note in notes)]
        self.assertEqual(audit(PUBLISHED, data, "C"), (exits.NO_INPUT, "", days.text_of_lines(said).decode()))
        made = json.loads(audit(b"", data, "A", "--json")[1])
        self.assertEqual((made["notes"], made["sent"]), ([], None))

    def test_with_results_the_lines_are_checked_too(self):
        data, right = AUCTION.read_bytes(), read_results(AUCTION)
        own = days.text_of_lines(own_lines(data, "GAS"))
        with tempfile.TemporaryDirectory() as folder:
            paths = [Path(folder, name) for name in ("journal", "results", "sent")]
            words = [*paths[:2], "--sent", paths[2], "--participant", "GAS"]

            def run(results, sent, *more):
                for path, content in zip(paths, (data, results, sent)):
                    path.write_bytes(content)
                status, out, _ = run_tool("audit", *words, *more)
                return status, out.decode()

            status, out = run(right, own, "--best")
            lines = [line for line in right.decode().splitlines() if line.split(",")[1] == "GAS"]
            self.assertEqual(status, exits.DONE)
            self.assertEqual([line.split(": ", 1)[1] for line in out.splitlines() if line.startswith("results line ")], lines)
            self.assertIn("no selection is better", out)
            status, out = run(right.replace(b"STAY,accepted", b"STAY,rejected"), own)
            self.assertEqual((status, "\nas sent: " in out, "\nas the rules say: " in out), (exits.DIFFERS, True, False))
            self.assertRegex(out, r"\Anot as the rules say: \d+ faults in the results\nresults line \d+: ")
            status, out = run(right, own.replace(b"STAY", b"STAI"))
            self.assertEqual((status, "is missing in the journal" in out), (exits.DIFFERS, True))
            self.assertEqual(("\nas sent: " in out, "\nas the rules say: " in out), (False, True))
            self.assertRegex(out, r"\Anot as sent: \d+ differences in the commands of GAS\nsent record \d+ is ")
            # Both wrong: each part has its headline, and is cut by itself.
            status, out = run(right.replace(b",500\n", b",501\n"), days.text_of_lines(["cancel,GAS,X,,,,,,"] * 30))
            heads = [line for line in out.splitlines() if line.startswith("not as ")]
            self.assertEqual((status, len(heads), out.count("more: --all")), (exits.DIFFERS, 2, 1))

    def test_what_no_participant_sends(self):
        for own, said in (
            (["submit,B,H1,hour,buy,100,1:10,,", "cancel,B,H1,,,,,,"], "it has 2 commands of others, and none of A"),
            (["day,23,,,,,,,", *OWN], "it is for a day of 23 periods, but the journal is for one of 24"),
            (
                [OWN[0], "cancel,A,H1"],
                "line 2: it has 3 fields and should have 9, so 6 commas are missing: complete it at its end",
            ),
            (
                [OWN[0], OWN[1].replace("200", "2.00")],
                f"line 2, price: '2.00': it should be whole cents per MWh from {rules.LOWEST_PRICE} to {rules.HIGHEST_PRICE}: "
                "write 200 for 2.00 EUR/MWh",
            ),
            ([OWN[0], "day,24,,,,,,,"], "line 2: the day appears twice: a journal has one, as its first line"),
            (
                ["\ufeff" + OWN[0]],
                "line 1: the text begins with a byte order mark: save it as plain CSV, in ASCII or UTF-8 without the mark",
            ),
            ([OWN[0].replace(",", ";")], "line 1: the fields are separated by semicolons: separate them by commas"),
            (
                ["Submit" + OWN[0].removeprefix("submit"), "cancel;A;H1;;;;;;"],
                "line 1, command: 'Submit': it should be submit, amend, cancel or close: write submit\n"
                "  line 2: the fields of this line are separated by semicolons: separate them by commas",
            ),
        ):
            self.assertEqual(audit(PUBLISHED, days.text_of_lines(own)), (exits.NO_INPUT, "", f"audit: sent isn't what A sent: {said}\n"))
        for own in (b"welfare,0\n", b"", b"\xff"):
            status, out, err = audit(PUBLISHED, own)
            self.assertEqual((status, out), (exits.NO_INPUT, ""))
            self.assertIn("audit: sent isn't what A sent: it has no journal records and isn't a table of orders: ", err)

    def test_command_line(self):
        for words in (
            ["--sent", AUCTION],
            ["--participant", "GAS"],
            ["--sent", AUCTION, "--participant", "gas"],
            ["--sent", AUCTION, "--participant", "GAS", "--replies"],
            [AUCTION, "--sent", AUCTION, "--participant", "GAS", "--replies"],
        ):
            self.assertEqual(run_tool("audit", AUCTION, *words)[:2], (exits.COMMAND_LINE, b""), words)
        self.assertEqual(run_tool("audit", "-", "--sent", "-", "--participant", "GAS")[0], exits.COMMAND_LINE)
        status, _, err = audit(read_results(AUCTION), days.text_of_lines(OWN))
        self.assertEqual((status, err), (exits.NO_INPUT, "audit: journal has results instead of a journal\n"))


class Drawn(unittest.TestCase):
    def days(self, count):
        """Random days and a participant's commands in them."""
        for number in range(count):
            rng = random.Random(f"sent {number}")
            read = journal.parse_journal(days.draw_text(rng, 8))
            commands = [entry for entry in read.commands if getattr(entry, "who", None) == "A"]
            if commands:
                yield rng, read, [sent.SentCommand(at, entry) for at, entry in enumerate(commands, 1)]

    def differences(self, read, own):
        return sent.difference_faults(own, sent.own_entries(read, book.book_and_refusals(read)[1], "A"))

    def test_what_was_sent_is_there_with_its_replies(self):
        tried = 0
        for _, read, own in self.days(200):
            self.assertEqual(self.differences(read, own), [])
            published = sent.own_entries(read, book.book_and_refusals(read)[1], "A")
            lines = book.replies_text(read).splitlines()
            for one, other in zip(own, published):
                self.assertEqual(read.commands[other.record - 2], one.command)
                self.assertEqual(lines[other.record - 1], f"{other.record - 1},{other.reply.replace(', ', ',')}")
                tried += 1
        self.assertGreater(tried, 500)

    def test_each_change_is_one_line(self):
        """A command less, more, twice, changed or elsewhere; as many lines as that takes, and each names a record."""
        for rng, read, own in self.days(200):
            at = rng.randrange(len(own))
            gone, entry = own[:at] + own[at + 1 :], own[at]
            self.check(read, gone, "was not sent|repeats what was sent")
            self.check(read, own[:at] + [sent.SentCommand(99, journal.Cancel("A", "NOWHERE"))] + own[at:], "sent record 99 is missing")
            self.check(read, own[:at] + [sent.SentCommand(99, entry.command)] + own[at:], r"sent record \d+ is (missing|moved)")
            if not isinstance(entry.command, journal.Cancel):
                other = self.changed(entry.command)
                if all(one.command != other for one in own):
                    self.check(read, own[:at] + [sent.SentCommand(99, other)] + own[at + 1 :], "sent record 99 is changed")
            if len(own) > 1 and entry.command not in [one.command for one in gone]:
                elsewhere = rng.choice([place for place in range(len(own)) if place != at])
                self.check(read, gone[:elsewhere] + [entry] + gone[elsewhere:], "is moved")

    def changed(self, entry):
        if isinstance(entry, journal.Submit):
            return entry._replace(order=entry.order._replace(price=entry.order.price ^ 1))
        return entry._replace(price=entry.price ^ 1)

    def check(self, read, own, said):
        found = self.differences(read, own)
        self.assertEqual(len(found), 1, found)
        self.assertRegex(found[0], said)

    def test_long_lists(self):
        """Many equal commands, and two lists with nothing in common, take no long time."""
        cancels = [sent.SentCommand(at, journal.Cancel("A", f"N{at % 3}")) for at in range(1, 9_000)]
        others = [sent.JournalCommand(at, journal.Cancel("A", f"M{at}"), None) for at in range(2, 9_000)]
        published = [sent.JournalCommand(one.record + 1, one.command, "UnknownOrder") for one in cancels]
        self.assertEqual(sent.difference_faults(cancels, published), [])
        self.assertEqual(len(sent.difference_faults(cancels[:4_000] + cancels[4_001:], published)), 1)
        self.assertEqual(len(sent.difference_faults(cancels, others)), len(cancels) + len(others))
        # One half is missing, and the other half is there.
        halved = [entry for entry in published if entry.record % 2]
        self.assertEqual(len(sent.difference_faults(cancels, halved)), len(cancels) - len(halved))

    def test_another_order_of_as_many_commands_as_a_journal_has(self):
        """It takes a few seconds at most, whatever the commands are."""
        count = 9_998
        one, other = (journal.Cancel("A", name) for name in "XY")
        many = [journal.Cancel("A", f"N{number}") for number in range(count)]
        rng = random.Random("order")
        few = [rng.choice(many[:20]) for _ in range(count)]
        for own, most in (
            ([[one, other] * (count // 2), [one] * (count // 2) + [other] * (count // 2)], count // 2 - 1),
            ([many, rng.sample(many, count)], count),
            ([many, many[::-1]], count - 1),
            ([few, rng.sample(few, count)], count),
        ):
            began = time.process_time()
            found = sent.difference_faults([sent.SentCommand(at, entry) for at, entry in enumerate(own[0], 1)],
                                     [sent.JournalCommand(at, entry, None) for at, entry in enumerate(own[1], 2)])
            self.assertLess(time.process_time() - began, 10)
            self.assertEqual({fault.kind for fault in found}, {"moved"})
            self.assertLessEqual(len(found), most)
        self.assertEqual(len(sent.difference_faults([sent.SentCommand(1, one), sent.SentCommand(2, other)], [sent.JournalCommand(2, other, None)])), 1)

    def test_the_time_that_the_comparison_may_take(self):
        words = ["--seconds", "0", "--json"]
        status, out, err = audit(PUBLISHED, days.text_of_lines([OWN[3], *OWN[:3]]), "A", *words)
        said = "after 0 seconds, the commands of A aren't compared yet: --seconds gives more time"
        self.assertEqual((status, json.loads(out)["message"], err), (exits.UNDECIDED, said, f"audit: {said}\n"))
        self.assertEqual(audit(PUBLISHED, days.text_of_lines(OWN), "A", *words)[0], exits.DONE)


class InOrder(unittest.TestCase):
    """The pairs are a longest common subsequence, by the plain table of its lengths."""

    def length(self, one, other):
        row = [0] * (len(other) + 1)
        for entry in one:
            last = row
            row = [0]
            for at, found in enumerate(other):
                row.append(last[at] + 1 if entry == found else max(row[at], last[at + 1]))
        return row[-1]

    def test_short_lists(self):
        rng = random.Random("in order")
        for _ in range(2_000):
            one, other = (rng.choices(range(rng.randint(1, 5)), k=rng.randint(0, 12)) for _ in range(2))
            pairs = subsequence.longest_pairs(one, other)
            self.assertEqual(len(pairs), self.length(one, other), (one, other))
            self.assertTrue(all(one[at] == other[place] for at, place in pairs))
            self.assertTrue(all(a < c and b < d for (a, b), (c, d) in zip(pairs, pairs[1:])))

    def test_lists_longer_than_a_word(self):
        rng = random.Random("long")
        for count in (59, 60, 61, 64, 65, 200, 700):
            one, other = (rng.choices(range(4), k=count) for _ in range(2))
            self.assertEqual(len(subsequence.longest_pairs(one, other)), self.length(one, other))


if __name__ == "__main__":
    unittest.main()
