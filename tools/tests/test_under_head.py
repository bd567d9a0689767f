"""The audit of a journal under the head that an operator signed, with earlier heads and with receipts."""

import hashlib
import json
import os
import re
import shutil
import unittest
from pathlib import Path
from unittest import mock

from signed import DAY, NEEDS_CRYPTOGRAPHY, Audited, lines_of, replies_of, sealed_of
from support import AUCTION, SUNNY, TOP, run_tool

from lib.journal import book, journal
from lib.seal import heads
from lib.tool import exits

try:
    from lib.receipts import receipts, under_head
    from lib.seal import sealing, signing
except ImportError:  # without python3-cryptography
    pass


@NEEDS_CRYPTOGRAPHY
class Audit(Audited):
    def test_the_audit_of_a_signed_day(self):
        self.seal()
        self.assertIn("as signed: the head of 2026-11-28", self.audit(0))
        self.assertRegex(self.audit(0, "day.csv", "--receipts", "sealed/receipts", "--best"), r"as signed: .*; \d+ receipts of its entries\n")
        self.assertIn("as signed", self.audit(0, "day.csv", "--replies", results="replies.txt"))

    def test_the_audit_finds_each_changed_entry(self):
        """An entry that is left out, repeated, moved or changed after the head was signed."""
        self.seal()
        first, *lines = AUCTION.read_bytes().splitlines(keepends=True)
        for at in range(0, len(lines) - 2, 7):
            for changed in (
                lines[:at] + lines[at + 1 :],
                [*lines[: at + 1], *lines[at:]],
                [*lines[:at], lines[at + 1], lines[at], *lines[at + 2 :]],
                [*lines[:at], lines[at].replace(b",hour,", b",block,", 1).replace(b"cancel,", b"cancel,X", 1), *lines[at + 1 :]],
            ):
                if changed == lines:
                    continue
                Path("other.csv").write_bytes(b"".join([first, *changed]))
                with self.subTest(at=at, changed=changed[at : at + 2]):
                    out = self.audit(1, "other.csv", "--receipts", "sealed/receipts")
                    self.assertIn("not as signed", out)
                    self.assertRegex(out, r"receipts/\w+\.jsonl line \d+: the operator signed entry")
                    self.assertNotIn("proved", out)  # anyone can make such a copy of the journal

    def test_the_audit_of_changed_receipts(self):
        self.seal()
        path = Path("sealed/receipts/STAD.jsonl")
        right = path.read_bytes()
        path.write_bytes(right.replace(b'"reply":"done"', b'"reply":"refused,Closed"', 1))
        out = self.audit(3, "day.csv", "--receipts", "sealed/receipts")
        self.assertIn("not compared: 1 receipt or head\nsealed/receipts/STAD.jsonl line 1: not the operator's: it isn't entry", out)
        self.assertNotIn("not as signed", out)
        self.assertIn("as signed: the head of 2026-11-28 with 94 entries; 93 receipts of its entries\nas the rules say", out)
        record = json.loads(self.audit(3, "day.csv", "--receipts", "sealed/receipts", "--json"))
        message = "not compared: 1 receipt or head: not the operator's, or of another day"
        self.assertEqual((record["verdict"], record["message"]), ("unread", message))
        self.assertEqual([fault["kind"] for fault in record["faults"]], ["foreign"])
        path.write_bytes(b"{}\n" + right)
        self.audit(3, "day.csv", "--receipts", "sealed/receipts")
        # A receipt of the same key for another journal of the day.
        other = sealed_of(SUNNY.read_bytes(), key=signing.parse_private(Path("key.pem").read_bytes()))
        path.write_bytes(b"".join(lines_of(other)[:1]))
        out = self.audit(1, "day.csv", "--receipts", path)
        self.assertRegex(out, r"the operator signed entry 1 as .*: the operator's fault, proved\n")
        self.assertIn("not as signed: 2 differences", out)
        # The same, changed: its head is the operator's all the same.
        path.write_bytes(lines_of(other)[0].replace(b'"reply":"done"', b'"reply":"refused,Closed"'))
        out = self.audit(1, "day.csv", "--receipts", path)
        self.assertIn("not compared: 1 receipt or head\n", out)
        self.assertIn("not as signed: 1 difference from what the operator signed\n", out)
        self.assertIn(f"{path} line 1: the head of 2026-11-28 with 983 entries: ", out)

    def test_the_audit_of_earlier_heads(self):
        lines = AUCTION.read_bytes().splitlines(keepends=True)
        Path("a.csv").write_bytes(b"".join(lines[:5]))
        Path("a.txt").write_bytes(replies_of(b"".join(lines[:5])))
        self.seal("a", "a.csv", "a.txt")
        self.run_tool(0, "extend", "a", "day.csv", "replies.txt", "--key", "key.pem", "-o", "sealed")
        self.assertIn("begins with 1 earlier head", self.audit(0, "day.csv", "--earlier", "a/head.json"))
        self.seal("b", "a.csv", "a.txt")  # other salts, so another tree
        out = self.audit(1, "day.csv", "--earlier", "a/head.json", "--earlier", "b/head.json")
        words = "the first 4 entries of the journal, with the book's replies and these salts, aren't the entries that the operator signed"
        self.assertIn(f"b/head.json: the head of 2026-11-28 with 4 entries: {words}: the operator's fault, proved\n", out)
        key = signing.parse_private(Path("key.pem").read_bytes())
        Path("c.json").write_bytes(heads.line_bytes_of(signing.head_with_signature(key, heads.Head(DAY, 96, 4, bytes(heads.HASH_BYTES)))))
        said = "c.json: the head of 2026-11-28 with 4 entries: the journal's day has 24 periods, and the head's 96"
        self.assertIn(f"{said}: the operator's fault, proved\n", self.audit(1, "day.csv", "--earlier", "c.json"))
        # Of a copy of the journal that isn't the head's, nothing is proved.
        Path("other.csv").write_bytes(Path("day.csv").read_bytes().replace(b",30000,1:3600,", b",30000,1:3601,"))
        for name in ("b/head.json", "c.json"):
            self.assertNotIn("proved", self.audit(1, "other.csv", "--earlier", name))

    def test_sent_commands_with_receipts(self):
        """Two commands without an entry, with a receipt and without one: in a journal that the operator signed, and in a copy of another
        one, which anyone can make."""
        first, *lines = AUCTION.read_bytes().splitlines(keepends=True)
        own = [line for line in lines if line.split(b",")[1] == b"STAD"]
        Path("mine.csv").write_bytes(b"".join(own))
        self.seal()
        Path("less.csv").write_bytes(b"".join([first, *(line for line in lines if line not in own[:2])]))
        Path("less.txt").write_bytes(replies_of(Path("less.csv").read_bytes()))
        Path("kept.jsonl").write_bytes(Path("sealed/receipts/STAD.jsonl").read_bytes().splitlines(keepends=True)[0])
        words = ["--sent", "mine.csv", "--participant", "STAD", "--receipts", "kept.jsonl"]
        self.assertIn("as sent", self.audit(0, "day.csv", *words))
        for is_signed in (False, True):
            with self.subTest(is_signed):
                out = self.audit(1, "less.csv", *words)
                signed = [line for line in out.splitlines() if "; the operator signed it as entry" in line]
                others = [line for line in out.splitlines() if "; no receipt proves" in line]
                self.assertEqual((len(signed), len(others)), (1, 1), out)
                self.assertIn(f" {own[0].decode().strip()}; ", signed[0])
                self.assertIn(own[1].decode().strip(), others[0])
                self.assertEqual(signed[0].endswith(": the operator's fault, proved"), is_signed)
                self.assertEqual("proved" in out, is_signed)
            shutil.rmtree("sealed")
            self.seal(journal="less.csv", replies="less.txt")

    def test_a_later_head_is_no_fault(self):
        """A published journal may begin a longer one that the operator signed later. It lacks the entries after its own, and no others."""
        first, *lines = AUCTION.read_bytes().splitlines(keepends=True)
        own = [line for line in lines if line.split(b",")[1] == b"STAD"]
        middle = lines.index(own[len(own) // 2])
        Path("a.csv").write_bytes(b"".join([first, *lines[:middle]]))
        Path("a.txt").write_bytes(replies_of(Path("a.csv").read_bytes()))
        Path("mine.csv").write_bytes(b"".join(own))
        self.seal("sealed", "a.csv", "a.txt")
        self.run_tool(0, "extend", "sealed", "day.csv", "replies.txt", "--key", "key.pem", "-o", "later")
        words = ["--sent", "mine.csv", "--participant", "STAD", "--receipts", "receipts.jsonl", "--all"]
        Path("receipts.jsonl").write_bytes(Path("later/receipts/STAD.jsonl").read_bytes())
        out = self.audit(1, "a.csv", *words)
        said = [line for line in out.splitlines() if "; the operator signed it as entry" in line]
        self.assertEqual(len(said), len(own) - len(own) // 2)
        self.assertNotIn("proved", out)
        # A receipt under another head, of an entry with a number that the journal has: of two receipts of a command, it is the proof.
        number = lines.index(own[-1]) + 1
        key = signing.parse_private(Path("key.pem").read_bytes())
        other = sealed_of(b"".join([first, own[-1], *lines[1:]]), key=key)
        with open("receipts.jsonl", "ab") as file:
            file.write(lines_of(other)[0])
        proved = [line for line in self.audit(1, "a.csv", *words).splitlines() if line.endswith(": the operator's fault, proved")]
        sent, receipt = proved
        self.assertIn("the operator signed it as entry 1 of the head of", sent)
        self.assertTrue(receipt.startswith(f"receipts.jsonl line {len(own) + 1}: the operator signed entry 1 as {own[-1].decode().strip()}, "))
        self.assertGreater(number, middle)

    def test_salts_that_are_not_the_journals(self):
        """They aren't signed. A receipt under the head tells whether they are of the journal; its own head does too, if it matches."""
        self.seal()
        Path("results.txt").write_bytes(Path("replies.txt").read_bytes())
        Path("other.csv").write_bytes(Path("day.csv").read_bytes().replace(b",30000,1:3600,", b",30000,1:3601,"))
        self.assertNotEqual(Path("other.csv").read_bytes(), Path("day.csv").read_bytes())
        right = Path("sealed/salts.json").read_bytes()
        wrong = heads.line_bytes_of(heads.Salts(DAY, bytes(heads.HASH_BYTES)))
        words = "the first 94 entries of the journal, with the book's replies"
        receipt = ["--receipts", "sealed/receipts/STAD.jsonl"]
        place = "sealed/receipts/STAD.jsonl line 1"
        for salts, day, more, said in (
            (wrong, "day.csv", [], f"{words}, aren't the entries that the operator signed, or the salts aren't this journal's"),
            (wrong, "day.csv", receipt, f"the salts aren't this journal's: the receipt in {place} has another salt"),
            (right, "other.csv", [], f"{words}, aren't the entries that the operator signed, or the salts aren't this journal's"),
            (right, "other.csv", receipt, f"{words}, aren't the entries that the operator signed; the salts are right, by {place}"),
        ):
            Path("sealed/salts.json").write_bytes(salts)
            with self.subTest(said, day=day):
                out = self.audit(1, day, "--replies", *more)
                self.assertIn(f"\nthe head of 2026-11-28 with 94 entries: {said}\n", out)
        # A receipt under another head doesn't decide: the operator may have sealed two journals, with two secrets.
        other = sealed_of(AUCTION.read_bytes(), key=signing.parse_private(Path("key.pem").read_bytes()))
        self.write_receipt(other)
        Path("sealed/salts.json").write_bytes(wrong)
        self.assertIn("or the salts aren't this journal's\n", self.audit(1, "day.csv", "--replies", "--receipts", "receipt.jsonl"))
        # The salts are those of the published head: the operator signed another journal, or this one with other salts.
        Path("sealed/salts.json").write_bytes(right)
        out = self.audit(1, "day.csv", "--replies", "--receipts", "receipt.jsonl")
        self.assertIn(f"receipt.jsonl line 1: the head of 2026-11-28 with 94 entries: {words} and these salts, aren't the entries that", out)
        self.assertNotIn("the salts aren't", out)

    def test_the_record_names_each_file(self):
        self.seal()
        shutil.copytree("sealed", "earlier")
        files = [("key", "key.pem.pub"), ("head", "sealed/head.json"), ("salts", "sealed/salts.json")]
        files += [("receipts", str(path)) for path in sorted(Path("sealed/receipts").iterdir())] + [("earlier", "earlier/head.json")]
        made = json.loads(self.audit(0, "day.csv", "--receipts", "sealed/receipts", "--earlier", "earlier/head.json", "--json"))
        told = {(entry["role"], entry["file"]): (entry["bytes"], entry["sha256"]) for entry in made["inputs"]}
        data = {one: Path(one[1]).read_bytes() for one in [("journal", "day.csv"), ("results", "results.txt"), *files]}
        self.assertEqual(told, {one: (len(text), hashlib.sha256(text).hexdigest()) for one, text in data.items()})
        page = (TOP / "docs" / "FORMATS.md").read_text()
        roles = re.search(r"with its `role` \((.*?)\)", page)[1]
        self.assertEqual(set(re.findall(r"`(\w+)`", roles)), {role for role, _ in told} | {"day", "sent"})

    def test_receipts_without_an_end(self):
        """Nothing is waited for, and what isn't a receipt ends the audit before the next line is read."""
        self.seal()
        os.mkfifo("sealed/receipts/A.jsonl")
        self.audit(3, "day.csv", "--receipts", "sealed/receipts")
        Path("sealed/receipts/A.jsonl").unlink()
        Path("sealed/receipts/A.jsonl").write_bytes(b"x\n" * heads.MOST_ENTRIES)
        counted = mock.patch.object(heads, "parse_value_and_is_written", wraps=heads.parse_value_and_is_written)
        with counted as parsed, self.assertRaisesRegex(exits.Stop, r"A\.jsonl line 1: "):
            under_head.read_findings_of_folder("sealed/receipts", receipts.read_key("key.pem.pub"))
        self.assertEqual(parsed.call_count, 1)

    def test_many_commands_that_the_journal_lacks(self):
        """Each with as many receipts of the same command: the time doesn't grow with the product."""
        count = 5_000
        seal = sealed_of(b"day,24,,,,,,,\n" + b"cancel,A,B,,,,,,\n" * count)
        finding = receipts.Finding("f", 1, receipts.RIGHT, "", seal.receipt(1, seal.signed_head()))
        read = journal.parse_journal(b"day,24,,,,,,,\n" + b"cancel,A,B,,,,,,\n" * count)
        signed = under_head.UnderHead(None, seal.signed_head(), seal.salts, read, book.book_and_refusals(read)[1], [finding] * count)
        with mock.patch.object(signed, "lacked_entry_text", side_effect=AssertionError):
            proofs = {signed.proof_text(one) for one in read.commands}
        self.assertEqual(proofs, {"; no receipt proves that the operator had it"})

    def test_the_audit_of_other_heads(self):
        """A journal that is longer than its head's, or of another length of a day; earlier heads of another key and another day."""
        key = signing.parse_private(Path("key.pem").read_bytes())
        self.seal()
        head, _ = heads.parse_value_and_is_written(Path("sealed/head.json").read_bytes(), heads.parse_head)
        salts, _ = heads.parse_value_and_is_written(Path("sealed/salts.json").read_bytes(), heads.parse_salts)
        seal = sealed_of(AUCTION.read_bytes(), key=key, salts=salts)
        shorter = signing.head_with_signature(key, head._replace(size=head.size - 1, root=seal.tree.root(head.size - 1)))
        for other, said in (
            (shorter, "the journal has 1 entry after the 93 that the operator signed"),
            (signing.head_with_signature(key, head._replace(periods=25)), "the journal's day has 24 periods, and the head's 25"),
        ):
            Path("sealed/head.json").write_bytes(heads.line_bytes_of(other))
            self.assertIn(said, self.audit(1))
        Path("sealed/head.json").write_bytes(heads.line_bytes_of(head))
        for earlier, said in (
            (signing.head_with_signature(signing.draw_key(), shorter), "it isn't signed by this key"),
            (signing.head_with_signature(key, shorter._replace(day="2026-11-29")), "it is of 2026-11-29"),
        ):
            Path("earlier.json").write_bytes(heads.line_bytes_of(earlier))
            out = self.audit(3, "day.csv", "--earlier", "earlier.json")
            self.assertIn(said, out)
            self.assertIn("\nas signed: the head of 2026-11-28 with 94 entries\n", out)

    def test_a_journal_with_other_periods_than_its_head_proves_no_fault(self):
        """It isn't the operator's own, so an earlier head of other entries may be right."""
        key = signing.parse_private(Path("key.pem").read_bytes())
        self.seal()
        head, _ = heads.parse_value_and_is_written(Path("sealed/head.json").read_bytes(), heads.parse_head)
        earlier = signing.head_with_signature(key, head._replace(size=head.size - 1))
        Path("earlier.json").write_bytes(heads.line_bytes_of(earlier))
        for periods, is_proved in ((24, True), (25, False)):
            Path("sealed/head.json").write_bytes(heads.line_bytes_of(signing.head_with_signature(key, head._replace(periods=periods))))
            lines = [line for line in self.audit(1, "day.csv", "--earlier", "earlier.json").splitlines() if line.startswith("earlier.json")]
            self.assertEqual([line.endswith(under_head.PROVED) for line in lines], [is_proved])

    def test_the_audit_of_receipts_of_other_days_and_forged_ones(self):
        """Neither is the operator's fault."""
        key = signing.parse_private(Path("key.pem").read_bytes())
        lines = AUCTION.read_bytes().splitlines(keepends=True)
        place = next(at for at, line in enumerate(lines) if line.startswith(b"submit,STAD"))
        Path("day.csv").write_bytes(b"".join(lines[:place] + lines[place + 1 :]))
        Path("replies.txt").write_bytes(replies_of(Path("day.csv").read_bytes()))
        Path("mine.csv").write_bytes(b"".join(line for line in lines if line.split(b",")[1] == b"STAD"))
        self.seal()
        words = ["--sent", "mine.csv", "--participant", "STAD", "--receipts", "receipt.jsonl"]
        other = sealed_of(AUCTION.read_bytes(), day="2026-11-27", key=key)
        self.write_receipt(other, place)
        said = "not compared: 1 receipt or head\nreceipt.jsonl line 1: it is of 2026-11-27, and the journal's head of 2026-11-28\n"
        self.assertIn(said, self.audit(3, "day.csv", "--receipts", "receipt.jsonl", "--replies", results="replies.txt"))
        self.assertIn(said, self.audit(1, "day.csv", *words))
        self.write_receipt(sealed_of(AUCTION.read_bytes()), place)  # by another key
        out = self.audit(1, "day.csv", *words)
        self.assertIn("receipt.jsonl line 1: not the operator's: its head isn't signed by this key", out)
        self.assertIn("no receipt proves that the operator had it", out)
        self.assertNotIn("the operator's fault", out)
        self.assertNotIn("not as signed", out)
        # Another key, and another day.
        self.write_receipt(sealed_of(AUCTION.read_bytes(), day="2026-11-27"), place)
        self.assertIn("receipt.jsonl line 1: not the operator's: its head isn't signed by this key", self.audit(1, "day.csv", *words))
        self.write_receipt(sealed_of(AUCTION.read_bytes(), key=key), place)
        self.assertIn("the operator's fault, proved", self.audit(1, "day.csv", *words))
        # The reply is signed too.
        seal = sealing.Seal(DAY, 24, sealing.draw_salts(DAY), key)
        entries = list(sealed_of(Path("day.csv").read_bytes()).entries)
        for entry in [entries[0]._replace(reply="refused,Closed"), *entries[1:]]:
            seal.append(entry)
        self.write_receipt(seal)
        self.assertIn("the operator signed entry 1 as", self.audit(1, "day.csv", "--receipts", "receipt.jsonl"))
        Path("folder").mkdir()
        Path("folder/STAD.json").write_bytes(b"")
        self.audit(3, "day.csv", "--receipts", "folder")

    def test_a_head_of_another_key_day_or_writing(self):
        self.seal()
        self.run_tool(0, "keys", "other.pem")
        signed = ["--salts", "sealed/salts.json", "--head", "sealed/head.json"]
        said = "sealed/head.json isn't signed by this key: it isn't the operator's, or it was changed"
        ran = run_tool("audit", "day.csv", "results.txt", *signed, "--key", "other.pem.pub")
        self.assertEqual(ran, (1, f"wrong: {said}\n".encode(), ""))
        status, out, err = run_tool("audit", "day.csv", "results.txt", *signed, "--key", "other.pem.pub", "--json")
        made = json.loads(out)
        self.assertEqual((status, made["verdict"], [fault["words"] for fault in made["faults"]], err), (1, "wrong", [said], ""))
        self.audit(0, "day.csv", "--day", DAY)
        self.assertEqual(self.audit(3, "day.csv", "--day", "2026-11-29"), "")
        head = Path("sealed/head.json")
        head.write_text(json.dumps(json.loads(head.read_text()), indent=1))
        self.assertIn("isn't in its written form", self.audit(6))
        Path("sealed/salts.json").write_bytes(heads.line_bytes_of(sealing.draw_salts("2026-11-29")))
        self.audit(3)

    def test_files_whose_names_begin_with_a_dot(self):
        """They are read, or named."""
        self.seal()
        path = Path("sealed/receipts/.STAD.jsonl")
        path.write_bytes(b"".join(lines_of(sealed_of(AUCTION.read_bytes(), key=signing.parse_private(Path("key.pem").read_bytes())))[:1]))
        self.assertIn(f"{path} line 1: ", self.audit(1, "day.csv", "--receipts", "sealed/receipts"))
        path.rename("sealed/receipts/.STAD")
        self.assertEqual(self.audit(3, "day.csv", "--receipts", "sealed/receipts"), "")

    def test_replies_under_another_head(self):
        """The verdict on the replies doesn't depend on the head."""
        self.seal()
        Path("other.csv").write_bytes(Path("day.csv").read_bytes().replace(b",30000,1:3600,", b",30000,1:3601,"))
        out = self.audit(1, "other.csv", "--replies", results="replies.txt")
        self.assertIn("not as signed: 1 difference", out)
        self.assertIn("as the rules say: 94 replies", out)

    def test_command_lines_of_the_audit(self):
        for words in (["--head", "h"], ["--day", "d"], ["--salts", "s", "--key", "k"], ["--receipts", "r"], ["--earlier", "e"]):
            self.assertEqual(run_tool("audit", "day.csv", "results.txt", *words)[0], 2)
        self.assertEqual(run_tool("audit", "--days", ".", "--head", "h", "--salts", "s", "--key", "k")[0], 2)
        for words in (["--head", "-", "--salts", "-", "--key", "k"], ["--head", "h", "--salts", "s", "--key", "k", "--earlier", "-", "--receipts", "-"]):
            self.assertEqual(run_tool("audit", "day.csv", "results.txt", *words)[0], 2)


if __name__ == "__main__":
    unittest.main()
