"""Receipts and heads: every change of one is found, and so is every entry that was left out, repeated, moved or changed."""

import contextlib
import hashlib
import json
import os
import random
import re
import resource
import shutil
import stat
import subprocess
import sys
import tempfile
import unittest
from pathlib import Path

from signed import DAY, NEEDS_CRYPTOGRAPHY, InFolder, lines_of, replies_of, sealed_of, verdict_of
from support import AUCTION, FIRST, QUARTERS, SUNNY, TOOLS, TOP, capture_unsaid_members, run_tool

from lib.journal import book, journal
from lib.seal import heads, merkle

try:
    from cryptography.hazmat.primitives import serialization
    from cryptography.hazmat.primitives.asymmetric.ed25519 import Ed25519PrivateKey, Ed25519PublicKey

    from lib.receipts import receipts
    from lib.seal import sealing, signing
except ImportError:  # without python3-cryptography
    pass

BY_OPENSSL = Path(__file__).with_name("verify_receipt.sh")
CHANGES = 5_000
# A block of 100 volumes with the longest names.
LONGEST_RECORD = ",".join(
    ["submit", "ABCDEFGH", "ABCDEFGHIJKL", "block", "sell", "-50000", ";".join(f"{period}:99999" for period in range(1, 101))]
    + ["M" * 12, "N" * 12]
)


@NEEDS_CRYPTOGRAPHY
class Receipts(unittest.TestCase):
    def setUp(self):
        self.key = signing.draw_key()
        self.public = self.key.public_key()

    def test_each_entry_has_a_receipt_on_each_length_of_a_day(self):
        for periods in (23, 24, 25, 92, 96, 100):
            record = LONGEST_RECORD.replace(f"{';'.join(f'{period}:99999' for period in range(1, 101))}", f"{periods}:1")
            last = f"submit,A,B,hour,buy,0,{periods}:1,,\ncancel,A,B,,,,,,\nclose,,,,,,,,\n"
            data = f"day,{periods},,,,,,,\n{LONGEST_RECORD}\n{record}\n{last}".encode()
            seal = sealed_of(data, key=self.key)
            head = seal.signed_head()
            self.assertEqual(head.size, 5)
            for line in lines_of(seal):
                self.assertEqual(verdict_of(line, head, self.public), receipts.RIGHT)
                self.assertLessEqual(len(line), 1_536 if LONGEST_RECORD not in line.decode() else 2_048)

    def test_the_largest_receipt(self):
        path = tuple(merkle.leaf_hash(b"%d" % level) for level in range(heads.LONGEST_PATH))
        head = heads.Head("D" * 32, 100, heads.MOST_ENTRIES, path[0], b"s" * heads.SIGNATURE_BYTES)
        reply = max(heads.REPLIES, key=len)
        largest = heads.line_bytes_of(heads.Receipt(heads.MOST_ENTRIES, LONGEST_RECORD, reply, path[0], path, head))
        self.assertLess(len(largest), heads.LONGEST_LINE)
        self.assertLessEqual(len(largest) - len(LONGEST_RECORD), 1_100)

    def test_the_longest_paths_of_a_full_journal_are_read(self):
        cancels = b"cancel,A,B,,,,,,\n" * (heads.MOST_ENTRIES - 1)
        seal = sealed_of(b"day,24,,,,,,,\n%sclose,,,,,,,,\n" % cancels, key=self.key)
        head = seal.signed_head()
        for number in (1, 8_192, 8_193, heads.MOST_ENTRIES):
            self.assertEqual(verdict_of(heads.line_bytes_of(seal.receipt(number, head)), head, self.public), receipts.RIGHT)
        self.assertEqual(len(seal.receipt(1, head).path), heads.LONGEST_PATH)
        old = max(range(1, head.size), key=lambda size: len(seal.tree.consistency_proof(size)))
        found, _ = heads.parse_value_and_is_written(heads.line_bytes_of(seal.require_extension(seal.signed_head(old), head)), heads.parse_extension)
        self.assertEqual((len(found.path), found.is_valid()), (heads.LONGEST_PROOF, True))

    def test_every_change_of_a_byte_is_found(self):
        """Changed bytes of receipts, of the published head and of the public key."""
        chance = random.Random("changes")
        seal = sealed_of(AUCTION.read_bytes(), key=self.key)
        head, public = seal.signed_head(), signing.public_bytes(self.key)
        lines, written = lines_of(seal), heads.line_bytes_of(head)
        for _ in range(CHANGES):
            line = chance.choice(lines)
            text, which = chance.choice([(line, "receipt")] * 3 + [(written, "head"), (public, "key")])
            at, byte = chance.randrange(len(text)), chance.randrange(256)
            changed = text[:at] + bytes([byte]) + text[at + 1 :]
            if byte == text[at]:
                continue
            with self.subTest(which=which, at=at, byte=byte, line=line):
                if which == "receipt":
                    self.assertNotEqual(verdict_of(changed, head, self.public), receipts.RIGHT)
                elif which == "head":
                    with contextlib.suppress(heads.BadRecord):
                        other, is_written = heads.parse_value_and_is_written(changed, heads.parse_head)
                        self.assertFalse(is_written and signing.is_signed(self.public, other))
                else:
                    with contextlib.suppress(signing.BadKey):
                        other = signing.parse_public(changed)
                        # Some bytes of PEM say nothing, such as a line end: then it is the same key.
                        self.assertTrue(raw_of(other) == raw_of(self.public) or not signing.is_signed(other, head))

    def test_every_other_value_of_a_member_is_found(self):
        seal = sealed_of(AUCTION.read_bytes(), key=self.key)
        head, other = seal.signed_head(), sealed_of(SUNNY.read_bytes(), key=self.key)
        own, foreign = seal.receipt(3, head), other.receipt(3, other.signed_head())
        for name, value in {
            "number": 4,
            "record": own.record.replace("submit", "cancel"),
            "reply": "refused,Closed",
            "salt": foreign.salt,
            "path": foreign.path,
            "head": foreign.head,
        }.items():
            with self.subTest(name):
                line = heads.line_bytes_of(own._replace(**{name: value}))
                self.assertIn(verdict_of(line, head, self.public), (receipts.WRONG, receipts.UNREAD))
        for name, value in {"day": "2026-11-29", "periods": 96, "size": head.size + 1, "root": foreign.salt}.items():
            with self.subTest(name):
                self.assertFalse(signing.is_signed(self.public, head._replace(**{name: value})))
                line = heads.line_bytes_of(own._replace(head=head._replace(**{name: value})))
                self.assertEqual(verdict_of(line, head, self.public), receipts.WRONG)

    def test_another_key_signed(self):
        other = sealed_of(AUCTION.read_bytes())
        line = heads.line_bytes_of(other.receipt(1, other.signed_head()))
        head = sealed_of(AUCTION.read_bytes(), key=self.key).signed_head()
        self.assertEqual(verdict_of(line, head, self.public), receipts.WRONG)

    def test_texts_that_are_no_receipts(self):
        seal = sealed_of(AUCTION.read_bytes(), key=self.key)
        head = seal.signed_head()
        line = heads.line_bytes_of(seal.receipt(1, head)).decode()
        value = json.loads(line)
        wrong = [b"", b"\n", b"{}", b"[]", b"null", b"\xff", b"[" * 20_000, b"1" * 5_000, b"{" + b'"a":' * 5_000, b" " * 20_000 + b"\n"]
        wrong += [json.dumps({**value, name: None}).encode() for name in value]
        wrong += [json.dumps({**value, name: True}).encode() for name in value]
        wrong += [json.dumps({**value, name: [1]}).encode() for name in value]
        wrong += [json.dumps({**value, name: {"a": []}}).encode() for name in value]
        wrong += [json.dumps({other: value[other] for other in value if other != name}).encode() for name in value]
        wrong += [json.dumps({**value, "more": 1}).encode(), line.replace('"number":1,', '"number":1,"number":1,').encode()]
        wrong += [line.replace('"number":1,', f'"number":{number},').encode() for number in ("0", "-1", "1.0", "1e0", "true", "10001", "9" * 5_000)]
        wrong += [line.replace("=", "", 1).encode(), line.replace("=", "==", 1).encode(), line.replace('"path":[', '"path":["",').encode()]
        wrong += [line.replace('"path":[', '"path":[' + '"' + "A" * 43 + '=",' * 1).encode(), json.dumps({**value, "path": value["path"] * 9}).encode()]
        wrong += [line.replace('"reply":"done"', f'"reply":"{reply}"').encode() for reply in ("", "Done", "refused", "refused,Nothing")]
        wrong += [line.replace('"record":"', f'"record":"{more}').encode() for more in ("\\n", " ", '\\"', "\\u00e9", "day,24,,,,,,,\\n")]
        for data in wrong:
            with self.subTest(data[:80]):
                self.assertIn(verdict_of(data, head, self.public), (receipts.UNREAD, receipts.WRONG))

    def test_what_a_strangers_text_can_say(self):
        """Messages quote at most 20 characters of it: it can't pass for a message of the tool."""
        seal = sealed_of(AUCTION.read_bytes(), key=self.key)
        value, said = json.loads(lines_of(seal)[0]), "the published head contradicts it: the operator signed entry 1 as a; and as b: the operator's fault, proved"
        with_member, without = {**value, said: 1}, {other: value[other] for other in value if other != "salt"}
        changed = [with_member, {**without, said: 1}, *({**value, name: said} for name in value), *({**value, name: {said: 1}} for name in value)]
        changed += [{**value, "path": [said]}, {**value, "number": [said]}, {**value, "head": {**value["head"], said: 1}}]
        changed += [{**value, "head": {**value["head"], name: made}} for name in value["head"] for made in (said, [said], {said: said}, 10**200)]
        for made in changed:
            with self.subTest(made):
                with self.assertRaises(heads.BadRecord) as caught:
                    heads.parse_value_and_is_written(json.dumps(made).encode(), heads.parse_receipt)
                self.assertNotIn(said[:21], str(caught.exception))
                self.assertLess(len(str(caught.exception)), 150)
        with self.assertRaisesRegex(heads.BadRecord, "^a dam-receipt-1 has no member 'the published head c..' \\(107 characters\\)$"):
            heads.parse_value_and_is_written(json.dumps(with_member).encode(), heads.parse_receipt)
        with self.assertRaisesRegex(heads.BadRecord, "^it lacks the member salt$"):
            heads.parse_value_and_is_written(json.dumps({**without, said: 1}).encode(), heads.parse_receipt)

    def test_a_record_stands_in_its_written_form(self):
        """Another writing of the same command would be another entry with the same meaning."""
        value = json.loads(lines_of(sealed_of(AUCTION.read_bytes(), key=self.key))[0])
        record = value["record"]
        self.assertEqual(heads.parse_value_and_is_written(json.dumps(value).encode(), heads.parse_receipt)[0].record, record)
        quoted = '"submit"' + record.removeprefix("submit")
        for other in (quoted, f"{record}\n", f"{record}\r", f"\n{record}", f"{record}\n{record}", f"{record} ", ""):
            with self.subTest(other), self.assertRaisesRegex(heads.BadRecord, "isn't a record of a written journal$"):
                heads.parse_value_and_is_written(json.dumps({**value, "record": other}).encode(), heads.parse_receipt)

    def test_each_base64(self):
        """With exactly its padding, on each Python: bits that say nothing are another writing of the same bytes."""
        for count in (heads.HASH_BYTES, heads.SIGNATURE_BYTES):
            data = bytes(range(count))
            word = heads.base64_of(data)
            last = word.rstrip("=")[-1]
            bits = word.replace(f"{last}=", f"{chr(ord(last) + 1)}=")
            self.assertEqual([heads.parse_base64(one, count) for one in (word, bits)], [data, data])
            self.assertNotEqual(word, bits)
            wrong = [f"{word}=", word[:-1], f" {word}", f"{word}\n", word.replace(word[4], "-"), word[:-4], f"{word[:-1]}A", None, 1, [word]]
            for other in wrong:
                with self.subTest(other), self.assertRaises(heads.BadRecord):
                    heads.parse_base64(other, count)

    def test_another_writing_of_a_right_receipt(self):
        seal = sealed_of(AUCTION.read_bytes(), key=self.key)
        head = seal.signed_head()
        line = heads.line_bytes_of(seal.receipt(1, head))
        value = json.loads(line)
        salt = value["salt"].encode()
        digits = b"ABCDEFGHIJKLMNOPQRSTUVWXYZabcdefghijklmnopqrstuvwxyz0123456789+/"
        bits = salt[:-2] + digits[digits.index(salt[-2]) + 1 :][:1] + b"="
        other_order = json.dumps({name: value[name] for name in reversed(value)}, separators=(",", ":")).encode() + b"\n"
        written = [line.removesuffix(b"\n"), line.replace(b"\n", b"\r\n"), line.replace(b",", b", ", 1), b" " + line, line.replace(salt, bits)]
        for data in (*written, other_order, line.replace(b'"submit', b'"\\u0073ubmit')):
            with self.subTest(data):
                self.assertEqual(verdict_of(data, head, self.public), receipts.ENCODING)
        unread = [b"\xef\xbb\xbf" + line, line + b"\n", line.replace(b'"number":1', b'"number":1.0'), line.replace(salt, salt + b"=")]
        unread += [line.replace(b"{", b'{"more":1,', 1), line.replace(b"{", b'{"number":1,', 1), line.replace(salt, salt[:-1])]
        for data in (*unread, line.replace(b"\n", b" " * heads.LONGEST_LINE + b"\n")):
            with self.subTest(data):
                self.assertEqual(verdict_of(data, head, self.public), receipts.UNREAD)
        # an empty line is white space of a head, which has a file of its own
        for data in (heads.line_bytes_of(head) + b"\n", b"\n" + heads.line_bytes_of(head)):
            odd = []
            self.assertEqual(receipts.parse_head_and_note("head", data, self.public, odd), head)
            self.assertEqual(receipts.verdict(odd), receipts.ENCODING)

    def test_the_first_of_several_statuses(self):
        order = (receipts.WRONG, receipts.UNREAD, receipts.UNDECIDED, receipts.ENCODING, receipts.RIGHT)
        self.assertEqual([receipts.STATUSES[verdict] for verdict in order], [1, 3, 4, 6, 0])
        page = (TOP / "docs" / "FORMATS.md").read_text()
        self.assertIn("The status of `verify` and `heads` is the first of 1, 3, 4, 6 and 0 that applies.", page)
        for one in receipts.STATUSES:
            self.assertIn(f"`{one}`", page)
        for at, first in enumerate(order):
            for others in (order[at:], order[: at - 1 : -1] if at else order[::-1]):
                self.assertEqual(receipts.verdict([receipts.Finding("file", 1, verdict, "") for verdict in others]), first)

    def test_entries_left_out_repeated_moved_or_changed(self):
        """Each receipt of a journal, compared with the head of a journal that differs: one of them isn't right."""
        seal = sealed_of(AUCTION.read_bytes(), key=self.key)
        every = list(seal.entries)
        chance = random.Random("entries")
        for way in range(200):
            entries = list(every)
            at, other = sorted(chance.sample(range(len(every)), 2))
            match way % 4:
                case 0:
                    del entries[at]
                case 1:
                    entries.insert(at, entries[other])
                case 2:
                    entries[at], entries[other] = entries[other], entries[at]
                case 3:
                    entries[at] = entries[at]._replace(reply="refused,Closed" if entries[at].reply == heads.DONE else heads.DONE)
            if entries == every:
                continue
            changed = sealing.Seal(DAY, seal.periods, seal.salts, self.key)
            for entry in entries:
                changed.append(entry)
            head = changed.signed_head()
            found = {verdict_of(line, head, self.public) for line in lines_of(seal)}
            self.assertTrue(found & {receipts.WRONG, receipts.UNDECIDED})
            if changed.tree.root() != seal.tree.root() and len(entries) >= len(every):
                with self.assertRaises(sealing.Differs):
                    changed.require_extension(seal.signed_head(), head)

    def test_a_path_shows_nothing_of_others(self):
        """Salts of other entries can't be found from a receipt, and equal entries of two days have other leaves."""
        seals = [sealed_of(FIRST, key=self.key) for _ in range(2)]
        leaves = [set(seal.tree.levels[0]) for seal in seals]
        self.assertFalse(leaves[0] & leaves[1])
        shown = b"".join(lines_of(seals[0])[:1])
        for number, entry in enumerate(seals[0].entries[1:], 2):
            self.assertNotIn(heads.base64_of(seals[0].salt(number)).encode(), shown)
            self.assertNotIn(entry.record.encode(), shown)

    def test_a_growing_journal(self):
        seal = sealing.Seal(DAY, 24, sealing.draw_salts(DAY), self.key)
        every = list(sealed_of(AUCTION.read_bytes()).entries)
        published = [seal.signed_head()]
        for entry in every:
            seal.append(entry)
            published.append(seal.signed_head())
        last = published[-1]
        with tempfile.TemporaryDirectory() as folder:
            for size in range(1, last.size):
                path = Path(folder, "extension.json")
                path.write_bytes(heads.line_bytes_of(seal.require_extension(published[size], last)))
                line = heads.line_bytes_of(seal.receipt(size, published[size]))
                self.assertEqual(verdict_of(line, last, self.public), receipts.UNDECIDED)
                self.assertEqual(verdict_of(line, last, self.public, receipts.OperatorStatements.read([path], self.public, [])), receipts.RIGHT)
            # A published head that ends before an entry, and one that has it.
            early = heads.line_bytes_of(seal.receipt(3, published[5]))
            statements = receipts.OperatorStatements(self.public)
            self.assertEqual(verdict_of(early, published[2], self.public, statements), receipts.WRONG)
            self.assertEqual(verdict_of(early, published[3], self.public, statements), receipts.UNDECIDED)
            path.write_bytes(heads.line_bytes_of(seal.require_extension(published[2], published[5])))
            self.assertEqual(verdict_of(early, published[2], self.public, receipts.OperatorStatements.read([path], self.public, [])), receipts.WRONG)
            path.write_bytes(heads.line_bytes_of(seal.require_extension(published[3], published[5])))
            self.assertEqual(verdict_of(early, published[3], self.public, receipts.OperatorStatements.read([path], self.public, [])), receipts.RIGHT)
            steps = []
            for size in range(1, last.size):
                steps.append(Path(folder, f"{size}.json"))
                steps[-1].write_bytes(heads.line_bytes_of(seal.require_extension(published[size], published[size + 1])))
            statements = receipts.OperatorStatements.read(steps, self.public, [])
            self.assertEqual(verdict_of(heads.line_bytes_of(seal.receipt(1, published[1])), last, self.public, statements), receipts.RIGHT)
            self.assertEqual(statements.verdict_and_text_on_two(published[0], last)[0], receipts.RIGHT)
            broken = receipts.OperatorStatements.read(steps[1:], self.public, [])
            self.assertEqual(verdict_of(heads.line_bytes_of(seal.receipt(1, published[1])), last, self.public, broken), receipts.UNDECIDED)

    def test_a_fork_shows_nothing_of_its_other_end(self):
        """Two journals with one secret: an entry that differs has another salt."""
        salts = sealing.draw_salts(DAY)
        one, other = (sealing.Seal(DAY, 24, salts, self.key) for _ in range(2))
        for seal, record in ((one, "cancel,A,X,,,,,,"), (other, "cancel,B,Y,,,,,,")):
            seal.append(sealing.Entry("cancel,C,Z,,,,,,", "refused,UnknownOrder", "C"))
            seal.append(sealing.Entry(record, "refused,UnknownOrder", record[7]))
        self.assertEqual(one.salt(1), other.salt(1))
        self.assertNotEqual(one.salt(2), other.salt(2))

    def test_each_journal_has_a_secret_of_its_own(self):
        """Each of its 32 bytes is drawn: it has many values in 64 journals."""
        drawn = [sealing.draw_salts(DAY).secret for _ in range(64)]
        self.assertEqual({len(secret) for secret in drawn}, {32})
        self.assertGreater(min(len(set(values)) for values in zip(*drawn)), 16)

    def test_two_journals_of_one_day(self):
        heads_of = [sealed_of(data, key=self.key).signed_head() for data in (FIRST, FIRST)]
        self.assertEqual(receipts.OperatorStatements(self.public).verdict_and_text_on_two(*heads_of)[0], receipts.WRONG)
        days = [sealed_of(data, key=self.key).signed_head() for data in (AUCTION.read_bytes(), QUARTERS.read_bytes())]
        self.assertEqual(receipts.OperatorStatements(self.public).verdict_and_text_on_two(*days)[0], receipts.WRONG)

    def test_the_example_of_the_formats(self):
        page = (TOP / "docs" / "FORMATS.md").read_text()
        line = re.search(r"```json\n(\{\"format\":\"dam-receipt-1.*?)```", page, re.DOTALL)[1].replace("\n", "").encode() + b"\n"
        key = signing.parse_public(re.search(r"-----BEGIN PUBLIC KEY-----.*?-----END PUBLIC KEY-----\n", page, re.DOTALL)[0].encode())
        receipt, is_written = heads.parse_value_and_is_written(line, heads.parse_receipt)
        self.assertTrue(is_written)
        self.assertEqual(verdict_of(line, receipt.head, key), receipts.RIGHT)
        salts = heads.Salts(DAY, bytes(range(32, 64)))
        read = journal.parse_journal(b"".join(FIRST.splitlines(keepends=True)[:4]))
        private = Ed25519PrivateKey.from_private_bytes(bytes(range(32)))
        seal = sealing.seal_of(read, book.book_and_refusals(read)[1], DAY, salts, private)
        self.assertEqual(heads.line_bytes_of(seal.receipt(2, seal.signed_head())), line)
        # The extension to it.
        words = "The path of the extension from two entries to three is the second hash above. The root and the signature of its `from` are"
        root, signature = re.search(rf"{words}\n\n```text\n(\S+)\n(\S+)\n```", page).groups()
        extension = seal.require_extension(seal.signed_head(2), seal.signed_head())
        self.assertTrue(extension.is_valid())
        self.assertEqual((heads.base64_of(extension.old.root), heads.base64_of(extension.old.signature)), (root, signature))
        self.assertEqual(extension.path, receipt.path[1:])

    def run_openssl(self, data, key=None):
        """What the second reading of the format says about the text of a receipt."""
        if not shutil.which("openssl"):
            self.skipTest("openssl is missing")
        with tempfile.TemporaryDirectory() as folder:
            public, receipt = Path(folder, "public.pem"), Path(folder, "receipt.json")
            public.write_bytes(signing.public_bytes(self.key) if key is None else key)
            receipt.write_bytes(data)
            ran = subprocess.run([BY_OPENSSL, receipt, public], capture_output=True, text=True)
        self.assertEqual(ran.returncode, 0 if ran.stdout.startswith("right: ") else 1)
        return ran.stdout

    def test_by_openssl(self):
        """The second reading of the format agrees."""
        seal = sealed_of(SUNNY.read_bytes(), key=self.key)
        head = seal.signed_head()
        for number in (1, 2, head.size // 2, head.size):
            made = seal.receipt(number, head)
            self.assertEqual(self.run_openssl(heads.line_bytes_of(made)), f"right: {made.record}, {made.reply}\n")
            for other in (made._replace(record=made.record.replace(",", ",,", 1)), made._replace(number=number % head.size + 1)):
                self.assertEqual(self.run_openssl(heads.line_bytes_of(other)), "wrong\n")

    def test_other_writings_by_openssl(self):
        """It takes the written form alone, as `verify` does for status 0."""
        seal = sealed_of(b"".join(FIRST.splitlines(keepends=True)[:4]), key=self.key)
        line = heads.line_bytes_of(seal.receipt(2, seal.signed_head()))
        self.assertEqual(self.run_openssl(line), "right: submit,STAD,BASE-8,hour,buy,9500,8:300,,, done\n")
        salt = re.search(rb'"salt":"(.*?)"', line)[1]
        digits = b"ABCDEFGHIJKLMNOPQRSTUVWXYZabcdefghijklmnopqrstuvwxyz0123456789+/"
        bits = salt[:-2] + digits[digits.index(salt[-2]) + 1 :][:1] + b"="  # the same bytes
        changes = [(b'"dam-receipt-1"', b'"nonsense"'), (b'{"format"', b'{"more":1,"format"'), (b'","reply"', b'","record":"x","reply"')]
        changes += [(b'=","', b'=""'), (b'=","', b'=,'), (b'"path":["', b'"path":[,"'), (b'=","', b'=",,"'), (b'"],"head', b'",],"head')]
        changes += [(b"\n", b""), (b"\n", b"\n\n"), (b"\n", b"\r\n"), (b"\n", b"\0\n"), (b"{", b" {"), (b'":', b'": ')]
        changes += [(salt, bits), (salt, salt + b"*"), (salt, salt[:-1]), (b'="],', b'=*"],'), (b'"number":2', b'"number":02')]
        self.assertEqual(self.run_openssl(line * 2), "wrong\n")
        for old, new in changes:
            other = line.replace(old, new, 1)
            with self.subTest(other):
                self.assertNotEqual(verdict_of(other, seal.signed_head(), self.public), receipts.RIGHT)
                self.assertEqual(self.run_openssl(other), "wrong\n")

    def test_other_members_by_openssl(self):
        """Members that no head or receipt may have, though they are signed."""
        entry = {"number": 1, "record": "cancel,A,B,,,,,,", "reply": heads.DONE}
        head = {"day": DAY, "periods": 24, "size": 1}

        def line_of(own, signed):
            own, root = {**entry, **own, "salt": bytes(32)}, {**head, **signed}
            root["root"] = heads.leaf_of(*own.values())
            return heads.line_bytes_of(heads.Receipt(**own, path=(), head=signing.head_with_signature(self.key, heads.Head(**root))))

        self.assertEqual(self.run_openssl(line_of({}, {})), "right: cancel,A,B,,,,,,, done\n")
        own = [{"number": 0}, {"record": "I OWE YOU"}, {"record": "cancel,A,B"}, {"record": "day,24,,,,,,,"}, {"record": "cancel,A,B ,,,,,,"}]
        own += [{"reply": "refused,"}, {"reply": "Done"}, {"reply": "done\ndone"}]
        signed = [{"day": "D" * 33}, {"day": "28 Nov"}, {"periods": 26}, {"size": 10_001}, {"size": 2}]
        for line in (*(line_of(one, {}) for one in own), *(line_of({}, one) for one in signed)):
            with self.subTest(line):
                self.assertNotEqual(verdict_of(line, None, self.public), receipts.RIGHT)
                self.assertEqual(self.run_openssl(line), "wrong\n")

    def test_keys_that_sign_for_anyone_by_openssl(self):
        """Each signature is right under its key."""
        seal = sealed_of(b"day,24,,,,,,,\ncancel,A,B,,,,,,\n", key=self.key)
        identity = bytes([1]) + bytes(31)
        for raw in signing.SMALL:
            for sign in (0, 128):
                key = Ed25519PublicKey.from_public_bytes(raw[:31] + bytes([raw[31] | sign]))
                every = (seal.signed_head()._replace(day=f"D{number}", signature=identity + bytes(32)) for number in range(1_000))
                head = next(head for head in every if signing.is_signed(key, head))
                line = heads.line_bytes_of(seal.receipt(1, seal.signed_head())._replace(head=head))
                text = key.public_bytes(serialization.Encoding.PEM, serialization.PublicFormat.SubjectPublicKeyInfo)
                self.assertEqual(self.run_openssl(line, text), "wrong\n")
        line = heads.line_bytes_of(seal.receipt(1, seal.signed_head()))
        self.assertEqual(self.run_openssl(line, signing.public_bytes(self.key) * 2), "wrong\n")

    def test_keys_that_sign_for_anyone(self):
        """Keys of small order, with either sign, and a file of two keys."""
        for raw in signing.SMALL:
            for sign in (0, 128):
                key = Ed25519PublicKey.from_public_bytes(raw[:31] + bytes([raw[31] | sign]))
                form = serialization.PublicFormat.SubjectPublicKeyInfo
                with self.assertRaisesRegex(signing.BadKey, "its order is small"):
                    signing.parse_public(key.public_bytes(serialization.Encoding.PEM, form))
        with self.assertRaises(signing.BadKey):
            signing.parse_public(signing.public_bytes(self.key) + signing.public_bytes(signing.draw_key()))

    def test_which_check_of_a_signature(self):
        """The one without the cofactor, and with a scalar below the group's order: signatures that only other checks take are refused."""
        seal = sealed_of(b"day,24,,,,,,,\ncancel,A,B,,,,,,\n", key=self.key)
        head, prime, order = seal.signed_head(), 2**255 - 19, 2**252 + 27742317777372353535851937790883648493

        def scalar(key):
            raw = key.private_bytes(serialization.Encoding.Raw, serialization.PrivateFormat.Raw, serialization.NoEncryption())
            half = bytearray(hashlib.sha512(raw).digest()[:32])
            half[0], half[31] = half[0] & 248, half[31] & 63 | 64
            return int.from_bytes(half, "little")

        def signature(point, more=0):
            """With the point of a nonce; `more` is added to the scalar."""
            hashed = hashlib.sha512(point + raw_of(self.public) + head.signed_bytes()).digest()
            made = (scalar(nonce) + int.from_bytes(hashed, "little") * scalar(self.key)) % order + more
            return point + made.to_bytes(32, "little")

        nonce = signing.draw_key()
        point = raw_of(nonce.public_key())
        number = int.from_bytes(point, "little")
        height, sign = number % 2**255, number >> 255
        moved = (prime - height | (1 - sign) << 255).to_bytes(32, "little")  # by the point of order 2
        for made, is_right in ((signature(point), True), (signature(moved), False), (signature(point, order), False)):
            signed = head._replace(signature=made)
            self.assertEqual(signing.is_signed(self.public, signed), is_right)
            said = self.run_openssl(heads.line_bytes_of(seal.receipt(1, head)._replace(head=signed)))
            self.assertEqual(said, "right: cancel,A,B,,,,,,, refused,UnknownOrder\n" if is_right else "wrong\n")

    def test_the_head_of_no_entry(self):
        head = sealing.Seal(DAY, 24, sealing.draw_salts(DAY), self.key).signed_head()
        self.assertEqual(heads.parse_value_and_is_written(heads.line_bytes_of(head), heads.parse_head)[0], head)
        with self.assertRaises(heads.BadRecord):
            heads.parse_value_and_is_written(heads.line_bytes_of(head._replace(root=merkle.leaf_hash(b""))), heads.parse_head)

    def test_extensions_that_connect_nothing(self):
        """One with another path, of other heads, or between two days or lengths of a day: anyone can make one of right heads, so it isn't a
        fault of the operator. A head of another key is wrong."""
        seal = sealed_of(AUCTION.read_bytes(), key=self.key)
        last, other = seal.signed_head(), sealed_of(AUCTION.read_bytes())
        early = signing.head_with_signature(self.key, heads.Head(DAY, 24, 5, seal.tree.root(5)))
        right = seal.require_extension(early, last)
        changes = [right._replace(path=(*right.path[:-1], merkle.leaf_hash(b""))), right._replace(path=())]
        for name, value in {"day": "2026-11-29", "periods": 25, "root": merkle.leaf_hash(b""), "size": 6}.items():
            changes.append(right._replace(old=signing.head_with_signature(self.key, early._replace(**{name: value}))))
            changes.append(right._replace(new=signing.head_with_signature(self.key, last._replace(**{name: value}))))
        foreign = [right._replace(old=signing.head_with_signature(other.key, early)), right._replace(new=signing.head_with_signature(other.key, last))]
        with tempfile.TemporaryDirectory() as folder:
            path, findings = Path(folder, "extension.json"), []
            path.write_bytes(heads.line_bytes_of(right))
            self.assertTrue(receipts.OperatorStatements.read([path], self.public, findings).has_path(early, last))
            self.assertEqual(findings, [])
            for changed in [*changes, *foreign]:
                path.write_bytes(heads.line_bytes_of(changed))
                findings = []
                statements = receipts.OperatorStatements.read([path], self.public, findings)
                with self.subTest(changed):
                    self.assertFalse(statements.earlier)
                    (finding,) = findings
                    self.assertEqual(finding.verdict, receipts.WRONG if changed in foreign else receipts.UNDECIDED)
                    self.assertIn("isn't signed by this key" if changed in foreign else "doesn't connect its heads", str(finding))
                    self.assertTrue(changed in foreign or not statements.has_path(early, last))

    def test_the_empty_journal_is_the_beginning_of_those_of_its_day(self):
        empty = sealing.Seal(DAY, 24, sealing.draw_salts(DAY), self.key).signed_head()
        head, statements = sealed_of(AUCTION.read_bytes(), key=self.key).signed_head(), receipts.OperatorStatements(self.public)
        self.assertEqual(statements.verdict_and_text_on_two(empty, head)[0], receipts.RIGHT)
        self.assertEqual(statements.verdict_and_text_on_two(empty._replace(day="2026-11-29"), head)[0], receipts.UNREAD)
        self.assertEqual(statements.verdict_and_text_on_two(empty._replace(periods=25), head)[0], receipts.WRONG)


def raw_of(public):
    return public.public_bytes(serialization.Encoding.Raw, serialization.PublicFormat.Raw)


@NEEDS_CRYPTOGRAPHY
class Command(InFolder):
    """The tool itself."""

    def test_a_day(self):
        self.assertIn("with receipts for", self.seal())
        every = sorted(Path("sealed/receipts").iterdir())
        said = ["entry 93: cancel,GAS,START,,,,,,, refused,HasChildren"]
        said.append("right: 94 receipts of the head of 2026-11-28 with 94 entries, 1 of them refused")
        self.assertEqual(self.verify(0, *every, "--day", DAY).splitlines(), said)
        self.assertIn("is the head of 2026-11-28 with 94 entries, and not of 2026-11-29", self.capture_error(3, "--day", "2026-11-29"))
        self.assertIn("right: 1 head", self.run_tool(0, "heads", "sealed/head.json", "--key", "key.pem.pub"))
        for path in (Path("key.pem"), Path("sealed/salts.json"), *every):
            self.assertEqual(stat.S_IMODE(path.stat().st_mode), 0o600)
        self.assertEqual(stat.S_IMODE(Path("sealed/receipts").stat().st_mode), 0o700)

    def test_the_members_of_each_record_are_described(self):
        def record(name, *words):
            return json.loads(run_tool("receipts", name, "--json", *words)[1])

        self.seal()
        receipt, head, key = "sealed/receipts/STAD.jsonl", "sealed/head.json", ["--key", "key.pem"]
        public = ["--key", "key.pem.pub"]
        found = record("verify", receipt, receipt, "--head", head, *public)
        wrong = record("heads", head, head, "nothing", *public)
        Path("replies").write_bytes(book.replies_text(journal.parse_journal(AUCTION.read_bytes())).encode())
        made = [record("keys", "other.pem"), record("seal", AUCTION, "replies", "--day", DAY, *key, "-o", "again")]
        made += [record("extend", "again", AUCTION, "replies", *key, "-o", "later")]
        for one, parts in [(one, []) for one in made] + [(found, found["receipts"]), (wrong, wrong["findings"])]:
            with self.subTest(one["command"]):
                self.assertIsNone(one["message"])
                self.assertEqual(capture_unsaid_members("receipts", one, *parts), set())
        self.assertTrue(found["receipts"] and wrong["findings"])

    def capture_error(self, status, *words):
        """What `verify` says on standard error."""
        ran = run_tool("receipts", "verify", "sealed/receipts/STAD.jsonl", "--key", "key.pem.pub", "--head", "sealed/head.json", *words)
        self.assertEqual(ran[:2], (status, b""))
        return ran[2]

    def test_a_journal_that_grew(self):
        lines = AUCTION.read_bytes().splitlines(keepends=True)
        for count, name in ((4, "a"), (9, "b"), (len(lines), "c")):
            Path(f"{name}.csv").write_bytes(b"".join(lines[:count]))
            Path(f"{name}.txt").write_bytes(replies_of(b"".join(lines[:count])))
        self.seal("a", "a.csv", "a.txt")
        self.run_tool(0, "extend", "a", "b.csv", "b.txt", "--key", "key.pem", "-o", "b")
        self.run_tool(0, "extend", "b", "c.csv", "c.txt", "--key", "key.pem", "-o", "c")
        early = sorted(Path("a/receipts").iterdir())
        self.assertIn("no extension shows that the head of 2026-11-28 with", self.verify(4, *early, head="c/head.json"))
        statements = ["--extension", "b/extension.json", "--extension", "c/extension.json"]
        self.verify(0, *early, *statements, head="c/head.json")
        self.run_tool(0, "heads", "a/head.json", "c/head.json", "b/head.json", *statements, "--key", "key.pem.pub")
        self.run_tool(4, "heads", "a/head.json", "c/head.json", "--key", "key.pem.pub")
        # A journal that doesn't begin with the sealed one.
        Path("d.csv").write_bytes(b"".join([lines[0], *lines[2:]]))
        Path("d.txt").write_bytes(replies_of(b"".join([lines[0], *lines[2:]])))
        out = self.run_tool(1, "extend", "a", "d.csv", "d.txt", "--key", "key.pem", "-o", "d")
        self.assertEqual(out, "wrong: the first 3 entries of this journal aren't the entries of the earlier head\n")
        self.assertFalse(Path("d").exists())

    def test_an_order_that_was_left_out(self):
        self.seal()
        lines = AUCTION.read_bytes().splitlines(keepends=True)
        place = next(at for at, line in enumerate(lines) if line.startswith(b"submit,STAD"))
        Path("less.csv").write_bytes(b"".join(lines[:place] + lines[place + 1 :]))
        Path("less.txt").write_bytes(replies_of(Path("less.csv").read_bytes()))
        self.seal("less", "less.csv", "less.txt")
        self.assertIn("no extension shows that the head of 2026-11-28 with", self.verify(4, "sealed/receipts/STAD.jsonl", head="less/head.json"))
        sent = b"".join(line for line in lines if line.split(b",")[1] == b"STAD")
        Path("mine.csv").write_bytes(sent)
        self.verify(0, "sealed/receipts/STAD.jsonl", "--sent", "mine.csv", "--participant", "STAD")
        out = self.verify(1, "less/receipts/STAD.jsonl", "--sent", "mine.csv", "--participant", "STAD", head="less/head.json")
        self.assertIn(f"is missing in the receipts: {lines[place].decode().strip()}", out)
        # A receipt under an earlier head is one too.
        out = self.verify(4, "sealed/receipts/STAD.jsonl", "--sent", "mine.csv", "--participant", "STAD", head="less/head.json")
        self.assertRegex(out, r"undecided: \d+ receipts undecided; with a receipt: \d+ commands; ")

    def test_receipts_of_other_commands_than_the_sent(self):
        """An operator that swaps a participant's commands, adds one in its name, or refuses one; receipts of others; one command twice."""
        amends = [b"submit,NORD,W,hour,sell,100,8:10,,\n", b"amend,NORD,W,,,200,8:10,,\n", b"amend,NORD,W,,,300,8:10,,\n"]
        Path("mine.csv").write_bytes(b"".join(amends))
        words = ["--sent", "mine.csv", "--participant", "NORD"]
        own = "x/receipts/NORD.jsonl"

        def seal_and_verify(status, commands, *more):
            shutil.rmtree("x", ignore_errors=True)
            Path("x.csv").write_bytes(b"day,24,,,,,,,\n" + b"".join(commands))
            Path("x.txt").write_bytes(replies_of(Path("x.csv").read_bytes()))
            self.seal("x", "x.csv", "x.txt")
            return self.verify(status, own, *more, *words, head="x/head.json")

        self.assertEqual(seal_and_verify(0, amends), "right: 3 receipts of the head of 2026-11-28 with 3 entries; as sent: 3 commands\n")
        self.assertIn("is out of its order", seal_and_verify(1, [amends[0], amends[2], amends[1]]))
        self.assertIn("the receipt of entry 4 was not sent: cancel,NORD,W,,,,,,", seal_and_verify(1, [*amends, b"cancel,NORD,W,,,,,,\n"]))
        self.assertIn("right: 3 receipts of the head of 2026-11-28 with 4 entries, 3 of them refused", seal_and_verify(0, [b"close,,,,,,,,\n", *amends]))
        self.assertIn("repeats what was sent once", seal_and_verify(1, [*amends, amends[2]]))
        self.assertIn("is missing in the receipts", seal_and_verify(1, amends[:2]))
        Path("mine.csv").write_bytes(b"".join([*amends, amends[2]]))
        self.assertIn("is missing in the receipts", seal_and_verify(1, amends))
        Path("mine.csv").write_bytes(b"".join(amends))
        seal_and_verify(0, [*amends, b"submit,GAS,W,hour,sell,100,8:10,,\n"])
        self.assertIn("it isn't a receipt of NORD", self.verify(3, own, "x/receipts/GAS.jsonl", "--participant", "NORD", head="x/head.json"))
        # A forged receipt, and one that was given twice.
        data = Path(own).read_bytes()
        Path(own).write_bytes(data.replace(b",300,", b",301,"))
        self.assertIn("wrong: 2 receipts right; 1 receipt wrong; 1 difference from", self.verify(1, own, *words, head="x/head.json"))
        Path(own).write_bytes(data + data)
        said = "right: 3 receipts of the head of 2026-11-28 with 4 entries; 3 more of the same entries; as sent: 3 commands\n"
        self.assertEqual(self.verify(0, own, *words, head="x/head.json"), said)
        Path("mine.csv").write_bytes(b"close,,,,,,,,\n")
        self.verify(1, own, *words, head="x/head.json")

    def test_heads_of_another_key_or_writing(self):
        self.seal()
        self.run_tool(0, "keys", "other.pem")
        said = "isn't signed by this key: it isn't the operator's, or it was changed\n"
        words = ["verify", "sealed/receipts/STAD.jsonl", "--head", "sealed/head.json", "--key", "other.pem.pub"]
        self.assertEqual(self.run_tool(1, *words), f"wrong: sealed/head.json {said}")
        record = json.loads(self.run_tool(1, *words, "--json"))
        self.assertEqual((record["verdict"], record["message"]), ("wrong", f"sealed/head.json {said[:-1]}"))
        out = self.run_tool(1, "heads", "sealed/head.json", "--key", "other.pem.pub")
        self.assertEqual(out, f"sealed/head.json: it {said}wrong: 0 heads of 0 days\n")
        out = self.run_tool(1, "extend", "sealed", "day.csv", "replies.txt", "--key", "other.pem", "-o", "later")
        self.assertEqual(out, f"wrong: sealed/head.json {said}")
        head = Path("sealed/head.json")
        head.write_text(json.dumps(json.loads(head.read_text()), indent=1))
        out = self.verify(6, "sealed/receipts/STAD.jsonl")
        self.assertIn("isn't in its written form", out)
        self.assertRegex(out, r"\nencoding: \d+ receipts right; 1 file encoding; the head")
        self.run_tool(6, "heads", "sealed/head.json", "--key", "key.pem.pub")

    def test_a_fork_between_other_heads(self):
        """Heads are compared by day, each with the next one."""
        key = signing.parse_private(Path("key.pem").read_bytes())
        made = [sealed_of(AUCTION.read_bytes(), key=key), sealed_of(AUCTION.read_bytes(), key=key), sealed_of(FIRST, day="2026-11-29", key=key)]
        paths = [Path(f"{name}.json") for name in "abc"]
        for path, seal in zip(paths, made):
            path.write_bytes(heads.line_bytes_of(seal.signed_head()))
        for order in ((0, 2, 1), (2, 0, 1), (0, 1, 2), (0, 0, 2, 1, 0)):
            out = self.run_tool(1, "heads", *(paths[at] for at in order), "--key", "key.pem.pub")
            self.assertIn("the operator signed two trees of 2026-11-28 with 94 entries", out)
        out = self.run_tool(0, "heads", paths[0], paths[2], "--key", "key.pem.pub")
        days = ["2026-11-28: 1 head, the last with 94 entries", "2026-11-29: 1 head, the last with 15 entries"]
        self.assertEqual(out.splitlines(), [*days, "right: 2 heads of 2 days"])
        self.verify(3, self.write_receipt(made[2]), head=paths[0])

    def test_files_of_many_lines(self):
        self.seal()
        Path("many.jsonl").write_bytes(b"\n" * 2_000_000)
        self.assertIn("many.jsonl: it isn't read: it has more than 10,000 lines\n", self.verify(3, "many.jsonl"))
        Path("many.jsonl").write_bytes(b"{}\n" * 9_000)
        *named, more, last = self.verify(3, "many.jsonl").splitlines()
        self.assertEqual(len(named), receipts.MOST_UNREAD)
        self.assertEqual(more, f"many.jsonl: {9_000 - len(named)} more lines without a receipt")
        self.assertEqual(last, "unread: 9000 lines unread; the head of 2026-11-28 with 94 entries")

    def test_salts_of_another_day(self):
        self.seal()
        salts = Path("sealed/salts.json")
        salts.write_bytes(heads.line_bytes_of(sealing.draw_salts("2026-11-29")))
        self.run_tool(3, "extend", "sealed", "day.csv", "replies.txt", "--key", "key.pem", "-o", "later")

    def test_replies_that_are_not_the_books(self):
        Path("wrong.txt").write_bytes(Path("replies.txt").read_bytes().replace(b"1,done", b"1,refused,Closed", 1))
        self.assertIn("wrong: wrong.txt isn't signed, since it isn't the book's", self.seal("wrong", replies="wrong.txt", status=1))
        self.seal("wrong", replies="day.csv", status=3)
        self.assertFalse(Path("wrong").exists())

    def test_no_half_of_a_key_is_left(self):
        """On a full disk, and if only the public half can't be written: its name is too long."""
        small = {"preexec_fn": lambda: resource.setrlimit(resource.RLIMIT_FSIZE, (50, 50))}
        ran = subprocess.run([sys.executable, TOOLS / "receipts", "keys", "new.pem"], capture_output=True, text=True, **small)
        self.assertEqual((ran.returncode, ran.stderr), (3, "receipts: new.pem can't be written: File too large\n"))
        self.run_tool(3, "keys", "n" * 252)
        self.assertEqual(sorted(os.listdir()), ["day.csv", "key.pem", "key.pem.pub", "replies.txt"])
        self.run_tool(0, "keys", "new.pem")

    def test_nothing_is_written_over(self):
        key = Path("key.pem").read_bytes()
        self.run_tool(3, "keys", "key.pem")
        self.seal()
        head = Path("sealed/head.json").read_bytes()
        self.seal(status=3)
        self.assertEqual((Path("key.pem").read_bytes(), Path("sealed/head.json").read_bytes()), (key, head))
        self.assertEqual(sorted(path.name for path in Path().iterdir()), ["day.csv", "key.pem", "key.pem.pub", "replies.txt", "sealed"])

    def test_a_folder_that_cant_be_written_has_the_name_that_was_given(self):
        """Its files are made in another one, which isn't there after the fault."""
        self.run_tool(0, "keys", "other.pem")
        before, limits = sorted(Path().iterdir()), resource.getrlimit(resource.RLIMIT_FSIZE)
        resource.setrlimit(resource.RLIMIT_FSIZE, (100, limits[1]))
        try:
            found = run_tool("receipts", "seal", "day.csv", "replies.txt", "--day", DAY, "--key", "other.pem", "-o", "sealed")
        finally:
            resource.setrlimit(resource.RLIMIT_FSIZE, limits)
        self.assertEqual(found, (3, b"", "receipts: sealed can't be made: File too large\n"))
        self.assertEqual(sorted(Path().iterdir()), before)

    def test_a_working_folder_that_is_gone(self):
        here, gone = Path.cwd(), Path("gone")
        gone.mkdir()
        os.chdir(gone)
        self.addCleanup(os.chdir, here)
        here.joinpath(gone).rmdir()
        words = [here / "day.csv", here / "replies.txt", "--day", DAY, "--key", here / "key.pem", "-o", "sealed"]
        self.assertEqual(run_tool("receipts", "seal", *words), (3, b"", "receipts: sealed can't be made: No such file or directory\n"))

    def test_files_of_other_kinds(self):
        self.seal()
        self.verify(3, "sealed/head.json")
        self.verify(3, "none.jsonl")
        self.verify(3, "sealed/receipts/STAD.jsonl", head="sealed/receipts/STAD.jsonl")
        self.run_tool(3, "verify", "sealed/receipts/STAD.jsonl", "--key", "key.pem", "--head", "sealed/head.json")
        self.run_tool(3, "seal", "day.csv", "replies.txt", "--day", DAY, "--key", "key.pem.pub", "-o", "other")
        self.run_tool(2, "seal", "day.csv", "replies.txt", "--day", "28 Nov", "--key", "key.pem", "-o", "other")
        self.run_tool(2, "verify", "sealed/receipts/STAD.jsonl", "--key", "key.pem.pub", "--head", "sealed/head.json", "--sent", "day.csv")
        self.run_tool(2)

    def test_records_for_programs(self):
        self.run_tool(0, "keys", "other.pem")
        Path("wrong.txt").write_bytes(Path("replies.txt").read_bytes().replace(b"1,done", b"1,refused,Closed", 1))
        for status, *words in (
            (0, "seal", "day.csv", "replies.txt", "--day", DAY, "--key", "key.pem", "-o", "sealed"),
            (0, "verify", "sealed/receipts/STAD.jsonl", "--key", "key.pem.pub", "--head", "sealed/head.json"),
            (3, "verify", "sealed/head.json", "--key", "key.pem.pub", "--head", "sealed/head.json"),
            (3, "verify", "none", "--key", "key.pem.pub", "--head", "sealed/head.json"),
            (1, "verify", "sealed/receipts/STAD.jsonl", "--key", "other.pem.pub", "--head", "sealed/head.json"),
            (1, "seal", "day.csv", "wrong.txt", "--day", DAY, "--key", "key.pem", "-o", "wrong"),
            (0, "heads", "sealed/head.json", "--key", "key.pem.pub"),
            (3, "keys", "key.pem"),
        ):
            record = json.loads(self.run_tool(status, *words, "--json"))
            self.assertEqual((record["command"], record["status"]), (words[0], status))


if __name__ == "__main__":
    unittest.main()
