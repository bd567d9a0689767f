"""What an operator signed, from all files: two heads or entries that no one journal can have are found in every file that may have them."""

import itertools
import json
import random
import unittest
from collections import Counter
from pathlib import Path
from unittest import mock

from signed import DAY, NEEDS_CRYPTOGRAPHY, InFolder, lines_of
from support import TOP

from lib.seal import heads, merkle

try:
    from lib.receipts import receipts
    from lib.receipts.contradictions import Signed, unsigned
    from lib.receipts.findings import Place
    from lib.seal import sealing, signing
except ImportError:  # without python3-cryptography
    pass

KEYS = ["--key", "key.pem.pub"]
TWO_TREES = "the operator signed two trees of 2026-11-28 with"
TWO_HASHES = "the operator signed two hashes of"
OR_ONE_TWICE = "two journals, or one journal twice"
ENTRY = "submit,TOWN,K{},hour,buy,{},8:10,,"


def grown(key, prices, sizes, salts=None, day=DAY, periods=24):
    """A journal of one entry for each price, and its heads with these sizes."""
    seal, signed = sealing.Seal(day, periods, salts or sealing.draw_salts(day), key), {}
    for number, price in enumerate(prices, 1):
        seal.append(sealing.Entry(ENTRY.format(number, price), heads.DONE, "TOWN"))
        if number in sizes:
            signed[number] = seal.signed_head()
    return seal, signed


def fork(prices, at):
    """The same, but for one."""
    return [price + (number == at) for number, price in enumerate(prices, 1)]


@NEEDS_CRYPTOGRAPHY
class Contradictions(InFolder):
    """A journal that grew (A, B, C), one that forks from it after A (F), and one with another first entry (A2, C2)."""

    def setUp(self):
        super().setUp()
        self.key = signing.parse_private(Path("key.pem").read_bytes())
        prices, salts = [100] * 18, sealing.draw_salts(DAY)
        for names, own in (("A B C", prices), ("A B F", fork(prices, 17)), ("A2 B2 C2", fork(prices, 1))):
            seal, signed = grown(self.key, own, (6, 9, 18), salts)
            for name, head in zip(names.split(), signed.values()):
                Path(f"{name}.head").write_bytes(heads.line_bytes_of(head))
                Path(f"{name}.receipts").write_bytes(b"".join(lines_of(seal, head)))
                if head.size > 6:
                    Path(f"{name}.extension").write_bytes(heads.line_bytes_of(seal.require_extension(signed[6], head)))

    def capture_lines(self, status, *words):
        """The lines of a run before the last one, and the last one."""
        *lines, last = self.run_tool(status, *words).splitlines()
        return lines, last

    def append_receipts(self, name, source, *numbers):
        """A file with some receipts of another one."""
        data = Path(f"{source}.receipts").read_bytes().splitlines(keepends=True)
        with open(name, "ab") as file:
            file.writelines(data[number - 1] for number in numbers)
        return name

    def test_two_heads_in_any_two_files(self):
        """Heads that are given, in extensions, and in receipts."""
        Path("cf.jsonl").write_bytes(Path("C.receipts").read_bytes() + Path("F.receipts").read_bytes())
        ends = ["--extension", "C.extension", "--extension", "F.extension"]
        for words, place, other, count in (
            (["heads", "A.head", "A2.head"], "A2.head", "A.head", 6),
            (["heads", "C2.head", "--extension", "C.extension"], "C2.head", "C.extension", 18),
            (["heads", "A.head", *ends], "F.extension", "C.extension", 18),
            (["heads", "A2.head", "C2.head", "--extension", "C.extension"], "C2.head", "C.extension", 18),
            (["heads", "A2.head", "--extension", "C.extension", "--extension", "C2.extension"], "C2.extension", "C.extension", 6),
            (["verify", "cf.jsonl", "--head", "A.head", *ends], "F.extension", "C.extension", 18),
            (["verify", "cf.jsonl", "--head", "A.head"], "cf.jsonl line 19", "cf.jsonl line 1", 18),
            (["verify", "A.receipts", "--head", "C2.head", "--extension", "C.extension"], "C2.head", "C.extension", 18),
            (["verify", "A.receipts", "A2.receipts", "--head", "C.head"], "A2.receipts line 1", "A.receipts line 1", 6),
            (["verify", "B2.receipts", "--head", "C.head", "--extension", "B.extension"], "B2.receipts line 1", "B.extension", 9),
        ):
            with self.subTest(words):
                lines, last = self.capture_lines(1, *words, *KEYS)
                said = f"{place}: {TWO_TREES} {count} entries: two journals, or one journal twice; the other one is in {other}"
                self.assertIn(said, lines)
                self.assertTrue(last.startswith("wrong: "), last)
                record = json.loads(self.run_tool(1, *words, *KEYS, "--json"))
                self.assertIn(said.split(": ", 1)[1], [finding["words"] for finding in record.get("findings", record.get("receipts"))])

    def test_what_grew_is_right(self):
        ends = ["--extension", "B.extension", "--extension", "C.extension"]
        for name, head, count in (("A", "C", 6), ("C", "C", 18), ("B", "B", 9), ("A", "B", 6)):
            lines, last = self.capture_lines(0, "verify", f"{name}.receipts", "--head", f"{head}.head", *ends, *KEYS)
            self.assertEqual(last, f"right: {count} receipts of the head of 2026-11-28 with {18 if head == 'C' else 9} entries")
        lines, last = self.capture_lines(0, "verify", "A.receipts", "B.receipts", "--head", "B.head", *ends, *KEYS)
        self.assertEqual(lines, ["the operator has signed a later head too: the head of 2026-11-28 with 18 entries"])
        self.assertEqual(last, "right: 9 receipts of the head of 2026-11-28 with 9 entries; 6 more of the same entries")

    def test_two_heads_with_other_periods(self):
        """Of one size, or of two."""
        for size in (6, 9):
            _, signed = grown(self.key, [100] * size, (size,), periods=96)
            Path("other.head").write_bytes(heads.line_bytes_of(signed[size]))
            lines, _ = self.capture_lines(1, "heads", "A.head", "other.head", *KEYS)
            self.assertIn("other.head: the operator signed 2026-11-28 with 96 periods, and with 24, in A.head", lines)
            lines, _ = self.capture_lines(1, "verify", "A.receipts", "--head", "other.head", *KEYS)
            self.assertIn("A.receipts line 1: the operator signed 2026-11-28 with 24 periods, and with 96, in other.head", lines)

    def test_two_signatures_of_one_head(self):
        """Anyone with the key can make them. They are of one tree."""
        head, _ = heads.parse_value_and_is_written(Path("A.head").read_bytes(), heads.parse_head)
        with mock.patch.object(signing, "is_signed", return_value=True):
            statements = receipts.OperatorStatements(self.key.public_key())
            for signature in (head.signature, bytes(64)):
                self.assertEqual(statements.add_and_find_signer("file", head._replace(signature=signature), []), "")
        self.assertEqual((statements.signed.contradictions(), statements.signed.heads()), ([], [unsigned(head)]))

    def test_one_number_with_two_entries(self):
        """No journal has both, whether their heads are connected or not."""
        first, other = (f"{ENTRY.format(1, price)}, done" for price in (100, 101))
        path = self.append_receipts("ab.jsonl", "A", 1)
        self.append_receipts("ab.jsonl", "B2", 1)
        lines, last = self.capture_lines(1, "verify", path, "--head", "C.head", *KEYS)
        said = f"the operator signed entry 1 of 2026-11-28 as {other}; and as {first}, in ab.jsonl line 1"
        self.assertEqual(lines[2:], [f"ab.jsonl line 2: {said}: two journals, or one journal twice"])
        self.assertEqual(last, "wrong: 2 receipts undecided; 1 contradiction; the head of 2026-11-28 with 18 entries")
        # Equal entries after the fork are no contradiction, unless the receipts show the fork. Two entries of a journal sealed twice are
        # one.
        path = self.append_receipts("same.jsonl", "A", 2)
        self.append_receipts("same.jsonl", "C", 2)
        self.capture_lines(4, "verify", path, "--head", "C.head", *KEYS)
        self.append_receipts("fork.jsonl", "A", 2)
        lines, _ = self.capture_lines(1, "verify", self.append_receipts("fork.jsonl", "B2", 2), "--head", "C.head", *KEYS)
        said = f"fork.jsonl line 2: {TWO_HASHES} entry 1 of 2026-11-28: {OR_ONE_TWICE}; the other one is in fork.jsonl line 1"
        self.assertEqual(lines[-1], said)
        seal, signed = grown(self.key, [100] * 7, (7,))
        Path("again.jsonl").write_bytes(lines_of(seal, signed[7])[1])
        lines, _ = self.capture_lines(1, "verify", path, "again.jsonl", "--head", "C.head", *KEYS)
        self.assertIn("again.jsonl line 1: the operator signed entry 2 of 2026-11-28 as", lines[-1])
        self.assertIn("; and with another salt, in same.jsonl line 1: ", lines[-1])
        # Of another day, and of another key: nothing is contradicted.
        seal, signed = grown(self.key, [101] * 7, (7,), day="2026-11-29")
        foreign, theirs = grown(signing.draw_key(), [101] * 7, (7,))
        Path("others.jsonl").write_bytes(lines_of(seal, signed[7])[0] + lines_of(foreign, theirs[7])[0])
        lines, _ = self.capture_lines(1, "verify", self.append_receipts("one.jsonl", "A", 1), "others.jsonl", "--head", "A.head", *KEYS)
        self.assertFalse([line for line in lines if "the operator signed" in line])

    def test_a_changed_receipt_contradicts_nothing(self):
        """Its head is the operator's, and its entry isn't."""
        line = Path("A.receipts").read_bytes().splitlines(keepends=True)[0]
        Path("changed.jsonl").write_bytes(line + line.replace(b",100,", b",101,"))
        lines, last = self.capture_lines(1, "verify", "changed.jsonl", "--head", "A.head", *KEYS)
        self.assertEqual(len(lines), 1)
        self.assertTrue(lines[0].startswith("changed.jsonl line 2: it isn't entry 1 of the head"))
        self.assertEqual(last, "wrong: 1 receipt right; 1 receipt wrong; the head of 2026-11-28 with 6 entries")
        Path("changed.jsonl").write_bytes(Path("F.receipts").read_bytes().splitlines(keepends=True)[0].replace(b",100,", b",101,"))
        lines, _ = self.capture_lines(1, "verify", "changed.jsonl", "--head", "C.head", *KEYS)
        self.assertIn(f"changed.jsonl line 1: {TWO_TREES} 18 entries: two journals, or one journal twice; the other one is in C.head", lines)

    def test_the_later_head(self):
        """It is one that the operator signed, of this day."""
        said = "the operator has signed a later head too: the head of 2026-11-28 with {} entries"
        for others, size in ((["B"], 9), (["B", "C"], 18), ([], None)):
            files = [self.append_receipts(f"{name}{size}.jsonl", name, *range(1, 7)) for name in others]
            words = ["verify", "A.receipts", *files, "--head", "A.head"]
            words += [word for name in others for word in ("--extension", f"{name}.extension")]
            lines, _ = self.capture_lines(0, *words, *KEYS)
            self.assertEqual(lines, [said.format(size)] if size else [])
            later = json.loads(self.run_tool(0, *words, *KEYS, "--json"))["later"]
            self.assertEqual(later and later["size"], size)
        line = Path("C.receipts").read_bytes().splitlines(keepends=True)[0]
        other, signed = grown(self.key, [100] * 18, (18,), day="2026-11-29")
        Path("others.jsonl").write_bytes(line.replace(b'"size":18', b'"size":19') + lines_of(other, signed[18])[0])
        lines, _ = self.capture_lines(1, "verify", "others.jsonl", "--head", "A.head", *KEYS)
        self.assertFalse([line for line in lines if "later head" in line])
        lines, _ = self.capture_lines(0, "verify", "A.receipts", "--head", "A.head", "--extension", "C.extension", *KEYS)
        self.assertEqual(lines, [said.format(18)])

    def test_extensions_from_two_heads_to_one(self):
        """Both are beginnings of it, so the longer one begins with the shorter one."""
        seal, signed = grown(self.key, [100] * 18, (6, 9, 18), sealing.draw_salts(DAY))
        for size, head in signed.items():
            Path(f"{size}.head").write_bytes(heads.line_bytes_of(head))
            Path(f"{size}.extension").write_bytes(heads.line_bytes_of(seal.require_extension(head, signed[18])))
        files, ends = ["6.head", "9.head", "18.head"], ["--extension", "6.extension", "--extension", "9.extension"]
        self.assertEqual(self.capture_lines(0, "heads", *files, *ends, *KEYS)[1], "right: 3 heads of 1 day")
        self.assertEqual(self.capture_lines(4, "heads", *files, *ends[:2], *KEYS)[1], "undecided: 3 heads of 1 day")
        Path("six.jsonl").write_bytes(b"".join(lines_of(seal, signed[6])))
        self.capture_lines(0, "verify", "six.jsonl", "--head", "9.head", *ends, *KEYS)
        self.capture_lines(4, "verify", "six.jsonl", "--head", "9.head", *ends[:2], *KEYS)

    def test_any_extensions(self):
        """Heads are connected exactly if the extensions prove it: of two beginnings of one journal, one begins with the other."""
        chance = random.Random("extensions")
        seal, signed = grown(self.key, [100] * 8, range(1, 9))
        every = list(itertools.combinations(range(1, 9), 2))
        for _ in range(60):
            chosen = chance.sample(every, chance.randrange(12))
            paths = [Path(f"{old}-{new}.json") for old, new in chosen]
            for path, (old, new) in zip(paths, chosen):
                path.write_bytes(heads.line_bytes_of(seal.require_extension(signed[old], signed[new])))
            statements, proved = receipts.OperatorStatements.read(paths, self.key.public_key(), []), closed(chosen)
            for old, new in every:
                self.assertEqual(statements.has_path(signed[old], signed[new]), (old, new) in proved, (chosen, old, new))

    def test_an_extension_that_connects_nothing(self):
        """Anyone can make one of two right heads: the operator isn't at fault, and the rest is as it is without it."""
        extension, _ = heads.parse_value_and_is_written(Path("C.extension").read_bytes(), heads.parse_extension)
        Path("no.extension").write_bytes(heads.line_bytes_of(extension._replace(path=extension.path[::-1])))
        said = "no.extension: it doesn't connect its heads: its path doesn't lead from the earlier one to the later one"
        lines, last = self.capture_lines(4, "verify", "A.receipts", "--head", "C.head", "--extension", "no.extension", *KEYS)
        self.assertEqual((lines[0], len(lines)), (said, 7))
        self.assertEqual(last, "undecided: 6 receipts undecided; 1 extension undecided; the head of 2026-11-28 with 18 entries")
        lines, last = self.capture_lines(4, "heads", "A.head", "--extension", "no.extension", *KEYS)
        self.assertEqual((lines[0], last), (said, "undecided: 2 heads of 1 day"))
        # Its heads are the operator's all the same.
        lines, _ = self.capture_lines(1, "heads", "C2.head", "--extension", "no.extension", *KEYS)
        self.assertIn(f"C2.head: {TWO_TREES} 18 entries: two journals, or one journal twice; the other one is in no.extension", lines)
        self.run_tool(0, "keys", "other.pem")
        lines, last = self.capture_lines(1, "heads", "A.head", "--extension", "no.extension", "--key", "other.pem.pub")
        self.assertEqual(last, "wrong: 0 heads of 0 days")
        self.assertIn("no.extension: the head of 2026-11-28 with 6 entries isn't signed by this key", lines[0])

    def test_two_keys(self):
        """On the day on which a new key comes: two heads under two published keys are compared, and each is shown with its key."""
        self.run_tool(0, "keys", "new.pem")
        new = signing.parse_private(Path("new.pem").read_bytes())
        for day, status in ((DAY, 1), ("2026-11-29", 0)):
            _, signed = grown(new, [101] * 6, (6,), day=day)
            Path("new.head").write_bytes(heads.line_bytes_of(signed[6]))
            lines, _ = self.capture_lines(status, "heads", "A.head", "new.head", *KEYS, "--key", "new.pem.pub")
            # Each key signs a journal of its own, and one may be a stranger's: nothing else is told.
            said = [line for line in lines if "signed by" not in line and "the last with" not in line]
            self.assertEqual(said, ["new.head: two keys signed 2026-11-28: new.pem.pub, and key.pem.pub in A.head"] if status else [])
            self.assertIn("A.head: the head of 2026-11-28 with 6 entries, signed by key.pem.pub", lines)
            self.assertIn(f"new.head: the head of {day} with 6 entries, signed by new.pem.pub", lines)
        Path("key again.pub").write_bytes(Path("key.pem.pub").read_bytes())
        self.capture_lines(0, "heads", "A.head", *KEYS, "--key", "key again.pub")
        made = json.loads(self.run_tool(1, "heads", "A.head", "new.head", *KEYS, "--json"))
        self.assertEqual(made["keys"], ["key.pem.pub", None])
        lines, _ = self.capture_lines(1, "heads", "A.head", "new.head", *KEYS)
        self.assertIn("new.head: it isn't signed by this key: it isn't the operator's, or it was changed", lines)

    def test_two_keys_of_one_day(self):
        """The heads are of one journal, and may be the same. An extension between two keys is refused; anyone can make one of two days."""
        self.run_tool(0, "keys", "new.pem")
        new, keys = signing.parse_private(Path("new.pem").read_bytes()), [*KEYS, "--key", "new.pem.pub"]
        extension, _ = heads.parse_value_and_is_written(Path("B.extension").read_bytes(), heads.parse_extension)
        mixed = extension._replace(new=signing.head_with_signature(new, extension.new))
        Path("again.head").write_bytes(heads.line_bytes_of(mixed.new))
        Path("mixed.extension").write_bytes(heads.line_bytes_of(mixed))
        said = "two keys signed 2026-11-28: {}, and {} in {}"
        other, own = said.format("new.pem.pub", "key.pem.pub", "{}"), said.format("key.pem.pub", "new.pem.pub", "{}")
        refused = "mixed.extension: it doesn't connect its heads: they are signed with two keys, key.pem.pub and new.pem.pub"
        self.assertIn(f"again.head: {other.format('B.head')}", self.capture_lines(1, "heads", "B.head", "again.head", *keys)[0])
        self.assertIn(f"B.head: {own.format('again.head')}", self.capture_lines(1, "heads", "again.head", "B.head", *keys)[0])
        lines, _ = self.capture_lines(1, "heads", "A.head", "again.head", "--extension", "mixed.extension", *keys)
        self.assertIn(refused, lines)
        self.assertIn(f"mixed.extension: {other.format('mixed.extension')}", lines)
        statements = receipts.OperatorStatements.read(["mixed.extension"], signing.Keys({path: receipts.read_key(path) for path in keys[1::2]}), [])
        self.assertFalse(statements.has_path(mixed.old, mixed.new))
        self.capture_lines(0, "heads", "A.head", "B.head", "--extension", "B.extension", *keys)
        mixed = extension._replace(new=signing.head_with_signature(new, extension.new._replace(day="2026-11-29")))
        Path("mixed.extension").write_bytes(heads.line_bytes_of(mixed))
        lines, _ = self.capture_lines(4, "heads", "A.head", "--extension", "mixed.extension", *keys)
        self.assertEqual(lines[0], refused)

    def write_forked(self):
        """Files of two journals, left and right, that differ in entry 7: heads, receipts, and extensions between any two sizes."""
        salts = sealing.draw_salts(DAY)
        for name, prices in (("left", [100] * 18), ("right", fork([100] * 18, 7))):
            seal, signed = grown(self.key, prices, range(1, 19), salts)
            for size, head in signed.items():
                Path(f"{name}{size}.head").write_bytes(heads.line_bytes_of(head))
                Path(f"{name}{size}.receipts").write_bytes(b"".join(lines_of(seal, head)))
                for old in range(1, size + 1):
                    Path(f"{name}{old}-{size}.extension").write_bytes(heads.line_bytes_of(seal.require_extension(signed[old], head)))

    def test_two_hashes_of_the_same_entries(self):
        """Heads of other sizes, extensions and receipts of equal entries show a fork by the hashes that they have in common."""
        self.write_forked()

        def receipts_of(*every):
            name = f"{'-'.join(f'{source}.{number}' for source, number in every)}.jsonl"
            for source, number in every:
                self.append_receipts(name, source, number)
            return name

        head = "--head", "right18.head"
        eight, two, late, far = (receipts_of(("left9", one), ("right18", other)) for one, other in ((8, 8), (2, 2), (9, 1), (9, 18)))
        small = receipts_of(("left7", 7), ("right8", 8))
        for words, place, entries, other in (
            (["heads", "left6.head", "left6-9.extension", "right6-18.extension"], "right6-18.extension", "entries 7 to 8", "left6-9.extension"),
            (["verify", eight, *head], f"{eight} line 2", "entry 7", f"{eight} line 1"),
            (["verify", two, *head], f"{two} line 2", "entries 5 to 8", f"{two} line 1"),
            (["verify", two, *head, "left6-9.extension"], f"{two} line 2", "entries 5 to 8", "left6-9.extension"),
            (["verify", late, *head], f"{late} line 2", "entries 1 to 8", f"{late} line 1"),
            (["verify", small, "--head", "right8.head"], f"{small} line 2", "entry 7", f"{small} line 1"),
            # A head, whose root another file has or computes.
            (["heads", "left8.head", "right6-18.extension"], "left8.head", "entries 1 to 8", "right6-18.extension"),
            (["heads", "left8.head", "right15-16.extension"], "left8.head", "entries 1 to 8", "right15-16.extension"),
            # The hashes of its parts make another root.
            (["heads", "right10.head", "left11-13.extension"], "left11-13.extension", "entries 1 to 10", "right10.head"),
            (["heads", "right10.head", "left8-9.extension", "left11-13.extension"], "right10.head", "entries 1 to 10", None),
        ):
            with self.subTest(words):
                words = [word for one in words for word in (["--extension", one] if one.endswith(".extension") else [one])]
                lines, last = self.capture_lines(1, *words, *KEYS)
                self.assertTrue(last.startswith("wrong: "))
                told = [line for line in lines if TWO_HASHES in line or TWO_TREES in line]
                self.assertEqual(len(told), 1, lines)
                where = f"is in {other}" if other else "follows from left8-9.extension, left11-13.extension"
                self.assertEqual(told, [f"{place}: {TWO_HASHES} {entries} of 2026-11-28: {OR_ONE_TWICE}; the other one {where}"])
        for words in (
            ["heads", "left9.head", "right18.head"],
            ["heads", "left7.head", "--extension", "right16-18.extension"],
            ["verify", far, *head],
        ):
            with self.subTest(words):
                lines, last = self.capture_lines(4, *words, *KEYS)
                self.assertTrue(last.startswith("undecided: "))

    def test_an_extension_from_the_entries_of_another_head(self):
        """Its path leads to the later head alone. No one can make such a path to heads of one journal, so it proves the fork."""
        self.write_forked()
        both = (Path(f"{name}7-18.extension").read_bytes() for name in ("left", "right"))
        left, right = (heads.parse_value_and_is_written(data, heads.parse_extension)[0] for data in both)
        Path("mixed.extension").write_bytes(heads.line_bytes_of(right._replace(old=left.old)))
        lines, _ = self.capture_lines(1, "heads", "left7.head", "--extension", "mixed.extension", *KEYS)
        said = f"mixed.extension: {TWO_HASHES} entries 1 to 7 of 2026-11-28: {OR_ONE_TWICE}; the other one is in mixed.extension"
        self.assertEqual([line for line in lines if TWO_HASHES in line], [said])
        Path("mixed.extension").write_bytes(heads.line_bytes_of(left._replace(new=right.new)))  # the earlier head's: anyone can make one
        self.capture_lines(4, "heads", "left7.head", "--extension", "mixed.extension", *KEYS)

    def test_any_files_of_two_journals(self):
        """A contradiction is found exactly if two hashes of the same entries are shown, or follow from all that is shown."""
        chance, salts, most = random.Random("subtrees"), sealing.draw_salts(DAY), 16
        found = Counter()
        for _ in range(1_500):
            at = chance.randrange(1, most + 1)
            seals = [grown(self.key, prices, range(1, most + 1), salts) for prices in ([100] * most, fork([100] * most, at))]
            signed, facts = Signed(), set()
            for number in range(chance.randrange(2, 5)):
                (seal, ends), place = chance.choice(seals), Place(f"file {number}")
                size = chance.randrange(1, most + 1)
                old, head = chance.randrange(1, size + 1), ends[size]
                tree = seal.tree
                signed.add_head(head, place, "")
                facts.add(((0, size), head.root))
                kind = chance.choice(("head", "receipt", "extension"))
                if kind == "receipt":
                    signed.add_entry(seal.receipt(old, head), place, "")
                    facts |= {((old - 1, old), tree.cached_hash(old - 1, old)), *facts_of(tree, merkle.inclusion_parts(old - 1, size))}
                elif kind == "extension":
                    signed.add_head(ends[old], place, "")
                    signed.add_extension(seal.require_extension(ends[old], head), place, "")
                    facts |= {((0, old), ends[old].root), *(facts_of(tree, merkle.consistency_parts(old, size)) if old < size else ())}
            is_shown = bool(signed.contradictions())
            self.assertEqual(is_shown, is_contradicted(facts, most))
            found[is_shown] += 1
        self.assertGreater(min(found.values()), 200)

    def test_a_head_and_the_receipt_of_its_last_entry_under_a_later_head(self):
        """Of two journals, they contradict each other exactly if these differ in an entry of the head: the receipt shows all its parts."""
        most, places, salts = 20, (1, 2, 5, 7, 8, 11, 13, 16, 17, 19), sealing.draw_salts(DAY)
        _, ends = grown(self.key, [100] * most, range(1, most + 1), salts)
        forks = {at: grown(self.key, fork([100] * most, at), range(1, most + 1), salts) for at in places}
        found = Counter()
        for small, large in itertools.combinations(range(1, most + 1), 2):
            for at, (other, other_ends) in forks.items():
                signed = Signed()
                signed.add_head(ends[small], Place("head"), "")
                signed.add_head(other_ends[large], Place("receipt"), "")
                signed.add_entry(other.receipt(small, other_ends[large]), Place("receipt"), "")
                with self.subTest(small=small, large=large, at=at):
                    self.assertEqual(bool(signed.contradictions()), at <= small)
                found[at <= small] += 1
        self.assertGreater(min(found.values()), 500)

    def test_a_file_that_is_none_hides_nothing(self):
        """It is named, the others are judged, and the status is 1 if they prove a fault."""
        Path("bad.json").write_bytes(b"garbage\n")
        self.run_tool(0, "keys", "new.pem")
        bad = ["bad.json: it isn't {}: it isn't JSON in ASCII", "none.json: it can't be read: No such file or directory"]
        for name in ("bad.json", "none.json"):
            for place in range(3):
                files = ["A.head", "A2.head"]
                files.insert(place, name)
                lines, last = self.capture_lines(1, "heads", *files, *KEYS)
                self.assertIn(f"A2.head: {TWO_TREES} 6 entries: {OR_ONE_TWICE}; the other one is in A.head", lines)
                self.assertIn(bad[name == "none.json"].format("a head"), lines)
                self.assertEqual(last, "wrong: 2 heads of 1 day")
            lines, last = self.capture_lines(1, "heads", "A.head", "A2.head", "--extension", name, *KEYS)
            self.assertIn(bad[name == "none.json"].format("an extension"), lines)
            self.assertEqual(self.capture_lines(3, "heads", "A.head", name, *KEYS)[1], "unread: 1 head of 1 day")
            made = json.loads(self.run_tool(3, "heads", "A.head", name, *KEYS, "--json"))
            self.assertEqual(([head and head["size"] for head in made["heads"]], made["keys"]), ([6, None], ["key.pem.pub", None]))
            words = ["verify", "A.receipts", "A2.receipts", "--head", "A.head", *KEYS]
            lines, last = self.capture_lines(1, *words, "--extension", name)
            self.assertEqual(lines[0], bad[name == "none.json"].format("an extension"))
            lines, last = self.capture_lines(1, words[0], "none.jsonl", *words[1:])
            self.assertEqual(lines[0], "none.jsonl: it can't be read: No such file or directory")
            self.assertIn("1 file unread", last)

    def test_why_an_extension_connects_nothing(self):
        extension, _ = heads.parse_value_and_is_written(Path("C.extension").read_bytes(), heads.parse_extension)
        other, periods = (signing.head_with_signature(self.key, extension.new._replace(**more)) for more in ({"day": "2026-11-29"}, {"periods": 25}))
        for changed, status, said in (
            (extension._replace(old=extension.new, new=extension.old), 4, "the first one has 18 entries, and the second one 6"),
            (extension._replace(new=other), 4, "they are of two days, 2026-11-28 and 2026-11-29"),
            (extension._replace(new=periods), 1, "they have 24 and 25 periods"),
        ):
            Path("no.extension").write_bytes(heads.line_bytes_of(changed))
            lines, _ = self.capture_lines(status, "heads", "A.head", "--extension", "no.extension", *KEYS)
            self.assertEqual(lines[0], f"no.extension: it doesn't connect its heads: {said}")

    def test_receipts_that_the_published_head_contradicts(self):
        """They are the operator's own: they count as receipts of the commands that were sent, and aren't called wrong."""
        for name, first in (("mine", 100), ("other", 101)):
            prices = [first] + [100] * 5
            Path(f"{name}.csv").write_text("".join(f"{ENTRY.format(number, price)}\n" for number, price in enumerate(prices, 1)))
        own = ["--sent", "mine.csv", "--participant", "TOWN"]
        trees = f"{TWO_TREES} 6 entries: two journals, or one journal twice"
        lines, last = self.capture_lines(1, "verify", "A.receipts", "--head", "A2.head", *own, *KEYS)
        entries = [f"entry {number} of the head of 2026-11-28 with 6 entries: {ENTRY.format(number, 100)}, done" for number in range(1, 7)]
        said = [f"A.receipts line {number}: {entry}; the published head contradicts it: {trees}" for number, entry in enumerate(entries, 1)]
        self.assertEqual(lines, [*said, f"A.receipts line 1: {trees}; the other one is in A2.head"])
        self.assertEqual(last, "wrong: 6 receipts contrary to the published head; 1 contradiction; with a receipt: 6 commands; the head of 2026-11-28 with 6 entries")
        made = json.loads(self.run_tool(1, "verify", "A.receipts", "--head", "A2.head", *own, *KEYS, "--json"))
        self.assertEqual((made["verdict"], {one["verdict"] for one in made["receipts"]}), ("wrong", {"contrary", "wrong"}))
        # Together with receipts under the published head, which may be of the same commands, or of the others.
        self.append_receipts("some.jsonl", "A2", 2, 3, 4, 5, 6)
        self.append_receipts("one.jsonl", "A", 1)
        for files, name in ((["A.receipts", "A2.receipts"], "mine"), (["A.receipts", "A2.receipts"], "other"), (["some.jsonl", "one.jsonl"], "mine")):
            _, last = self.capture_lines(1, "verify", *files, "--head", "A2.head", "--sent", f"{name}.csv", "--participant", "TOWN", *KEYS)
            self.assertIn("; with a receipt: 6 commands; ", last)
        lines, last = self.capture_lines(1, "verify", "one.jsonl", "--head", "A2.head", *own, *KEYS)
        self.assertEqual([line.split(": ")[1] for line in lines[2:]], [f"sent record {number} is missing in the receipts" for number in range(2, 7)])
        # Those of another participant don't count.
        Path("city.csv").write_text(f"{ENTRY.format(1, 100)}\n".replace("TOWN", "CITY"))
        lines, _ = self.capture_lines(1, "verify", "A.receipts", "--head", "A2.head", "--sent", "city.csv", "--participant", "CITY", *KEYS)
        self.assertTrue(lines[-1].startswith("city.csv: sent record 1 is missing in the receipts: "), lines)
        # The published head ends before an entry; or no book gives the reply.
        self.append_receipts("late.jsonl", "B", *range(1, 8))
        Path("late.csv").write_text("".join(f"{ENTRY.format(number, 100)}\n" for number in range(1, 8)))
        _, last = self.capture_lines(1, "verify", "late.jsonl", "--head", "A.head", "--extension", "B.extension", "--sent", "late.csv", *own[2:], *KEYS)
        words = "wrong: 6 receipts right; 1 receipt contrary to the published head; with a receipt: 7 commands; the head of 2026-11-28 with 6 entries"
        self.assertEqual(last, words)

    def test_the_guides_words_of_evidence(self):
        """A line has each of them, if a file contradicts another one."""
        self.run_tool(0, "keys", "new.pem")
        for name, key, more in (("periods", self.key, {"periods": 96}), ("keys", signing.parse_private(Path("new.pem").read_bytes()), {})):
            _, signed = grown(key, [100] * 9, (9,), **more)
            Path(f"{name}.head").write_bytes(heads.line_bytes_of(signed[9]))
        seal, signed = grown(self.key, [100] * 7, (7,))
        Path("again.jsonl").write_bytes(b"".join(lines_of(seal, signed[7])))
        lines, _ = self.capture_lines(1, "verify", "A.receipts", "A2.receipts", "again.jsonl", "--head", "A.head", *KEYS)
        for name in ("periods", "keys"):
            lines += self.capture_lines(1, "heads", "A.head", f"{name}.head", *KEYS, "--key", "new.pem.pub")[0]
        lines += self.capture_lines(1, "verify", self.append_receipts("two.jsonl", "A", 2), self.append_receipts("more.jsonl", "B2", 2), "--head", "C.head", *KEYS)[0]
        said = "\n".join(lines)
        page = " ".join((TOP / "docs" / "GUIDE.md").read_text().split())
        for words in ("the published head contradicts it", "the operator signed", "; and with another salt", "two keys signed"):
            self.assertIn(f"`{words}`", page)
            self.assertIn(words, said)
        self.assertIn("`the operator signed` with two trees, hashes or periods, two entries of one number (`as ..; and as ..`", page)
        for words in ("two trees of", "two hashes of entry 1 of", r"\S+ with 96 periods, and with 24,", "entry 1 of .* as .*; and as "):
            self.assertRegex(said, f"the operator signed {words}")

    def test_lines_that_are_no_receipts(self):
        """They are named, and the others are verified. If there is no other, nothing is said about the commands that were sent."""
        Path("mine.csv").write_text("".join(f"{ENTRY.format(number, 100)}\n" for number in range(1, 7)))
        own = ["--sent", "mine.csv", "--participant", "TOWN"]
        data = Path("A.receipts").read_bytes().splitlines(keepends=True)
        Path("damaged.jsonl").write_bytes(b"".join([data[0], data[1][:100] + b"\n", *data[2:]]))
        lines, last = self.capture_lines(3, "verify", "damaged.jsonl", "--head", "A.head", *KEYS)
        said = "damaged.jsonl line 2: it isn't a receipt: it isn't JSON in ASCII"
        self.assertEqual((lines, last), ([said], "unread: 5 receipts right; 1 line unread; the head of 2026-11-28 with 6 entries"))
        lines, last = self.capture_lines(1, "verify", "damaged.jsonl", "--head", "A.head", *own, *KEYS)
        self.assertEqual(lines, [said, f"mine.csv: sent record 2 is missing in the receipts: {ENTRY.format(2, 100)}"])
        words = "wrong: 5 receipts right; 1 line unread; 1 difference from the commands that were sent; the head of 2026-11-28 with 6 entries"
        self.assertEqual(last, words)
        lines, last = self.capture_lines(3, "verify", "A.head", "--head", "A.head", *own, *KEYS)
        self.assertEqual(lines[1:], ["mine.csv isn't compared, since no receipt could be read"])
        self.assertEqual(last, "unread: 1 line unread; the head of 2026-11-28 with 6 entries")
        Path("many.jsonl").write_bytes(b"\n" * 10_001)
        lines, _ = self.capture_lines(3, "verify", "many.jsonl", "--head", "A.head", *own, *KEYS)
        self.assertEqual(lines[1:], ["mine.csv isn't compared, since no receipt could be read"])
        Path("empty.jsonl").write_bytes(b"")  # it has no receipt, and that can be read
        lines, _ = self.capture_lines(1, "verify", "empty.jsonl", "--head", "A.head", *own, *KEYS)
        self.assertEqual(sum(" is missing in the receipts: " in line for line in lines), 6)

    def test_a_table_of_orders(self):
        """Its rows are the submits; the audit takes the orders at the end too, and so may find no difference."""
        seal = sealing.Seal(DAY, 24, sealing.draw_salts(DAY), self.key)
        for record in ("submit,TOWN,K,hour,buy,5000,8:100,,", "amend,TOWN,K,,,6000,8:100,,"):
            seal.append(sealing.Entry(record, heads.DONE, "TOWN"))
        for size, price, status in ((1, "50", 0), (1, "60", 1), (2, "60", 1)):
            head = seal.signed_head(size)
            Path("own.head").write_bytes(heads.line_bytes_of(head))
            Path("own.jsonl").write_bytes(b"".join(lines_of(seal, head)))
            Path("mine.csv").write_text(f"participant,order,kind,side,price_eur_mwh,periods,volume_mw\nTOWN,K,hour,buy,{price},8,10\n")
            lines, last = self.capture_lines(status, "verify", "own.jsonl", "--head", "own.head", "--sent", "mine.csv", "--participant", "TOWN", *KEYS)
            said = "mine.csv is a table of orders, and each row counts as a submit that was sent: after amends or cancels, give records of a journal"
            self.assertEqual(said in lines, status == 1)
            self.assertEqual("; as sent: 1 command" in last, status == 0)

    def test_the_names_of_days(self):
        """One day under two names is seen by their lines."""
        _, signed = grown(self.key, [101] * 6, (6,), day="2026.11.28")
        Path("other.head").write_bytes(heads.line_bytes_of(signed[6]))
        days = ["2026-11-28: 2 heads, the last with 9 entries", "2026.11.28: 1 head, the last with 6 entries"]
        words = ["heads", "A.head", "other.head", "B.head", "--extension", "B.extension", *KEYS]
        self.assertEqual(self.capture_lines(0, *words), (days, "right: 3 heads of 2 days"))

    def test_counts(self):
        """Of several receipts of an entry one counts, and files that aren't right are no receipts."""
        path = self.append_receipts("thrice.jsonl", "A", 1, 1, 1)
        Path("mine.csv").write_text(f"{ENTRY.format(1, 100)}\n")
        for more, said in (([], ""), (["--sent", "mine.csv", "--participant", "TOWN"], "; as sent: 1 command")):
            _, last = self.capture_lines(0, "verify", path, "--head", "A.head", *more, *KEYS)
            self.assertEqual(last, f"right: 1 receipt of the head of 2026-11-28 with 6 entries; 2 more of the same entries{said}")
        Path("odd.head").write_bytes(Path("A.head").read_bytes().replace(b":", b": "))
        Path("odd.jsonl").write_bytes(b"{}\n")
        _, last = self.capture_lines(3, "verify", path, "odd.jsonl", "--head", "odd.head", *KEYS)
        words = "unread: 1 receipt right; 1 file encoding; 1 line unread; 2 more of the same entries; the head of 2026-11-28 with 6 entries"
        self.assertEqual(last, words)

    def test_refusals_are_printed(self):
        seal = sealing.Seal(DAY, 24, sealing.draw_salts(DAY), self.key)
        for number, reply in enumerate((heads.DONE, "refused,Closed", "refused,NameTaken"), 1):
            seal.append(sealing.Entry(ENTRY.format(number, 100), reply, "TOWN"))
        head = seal.signed_head()
        Path("own.head").write_bytes(heads.line_bytes_of(head))
        Path("own.jsonl").write_bytes(b"".join([*reversed(lines_of(seal, head)), lines_of(seal, head)[1]]))
        lines, last = self.capture_lines(0, "verify", "own.jsonl", "--head", "own.head", *KEYS)
        said = [f"entry 2: {ENTRY.format(2, 100)}, refused,Closed", f"entry 3: {ENTRY.format(3, 100)}, refused,NameTaken"]
        self.assertEqual(lines, said)
        self.assertEqual(last, "right: 3 receipts of the head of 2026-11-28 with 3 entries, 2 of them refused; 1 more of the same entries")

    def test_a_reply_for_a_period_that_the_day_lacks(self):
        for record, reply, status in (
            ("submit,TOWN,K,hour,buy,1,24:1,,", heads.DONE, 0),
            ("submit,TOWN,K,hour,buy,1,25:1,,", heads.DONE, 1),
            ("amend,TOWN,K,,,1,1:1;100:1,,", heads.DONE, 1),
            ("submit,TOWN,K,block,sell,1,23:1;25:1,,", "refused,PeriodOutOfDay", 0),
            ("cancel,TOWN,K,,,,,,", heads.DONE, 0),
        ):
            seal = sealing.Seal(DAY, 24, sealing.draw_salts(DAY), self.key)
            seal.append(sealing.Entry(record, reply, "TOWN"))
            head = seal.signed_head()
            Path("own.head").write_bytes(heads.line_bytes_of(head))
            Path("own.jsonl").write_bytes(lines_of(seal, head)[0])
            with self.subTest(record):
                lines, last = self.capture_lines(status, "verify", "own.jsonl", "--head", "own.head", *KEYS)
                self.assertEqual("which no book gives" in "".join(lines), status == 1)
                self.assertEqual(last.startswith("wrong: 1 receipt with an impossible reply; "), status == 1)
                Path("mine.csv").write_text(f"{record}\n")
                _, last = self.capture_lines(status, "verify", "own.jsonl", "--head", "own.head", "--sent", "mine.csv", "--participant", "TOWN", *KEYS)
                self.assertIn(f"; {'with a receipt' if status else 'as sent'}: 1 command", last)


def facts_of(tree, parts):
    return {((begin, end), tree.cached_hash(begin, end)) for begin, end in parts}


def is_contradicted(facts, most):
    """Whether the hashes of some entries, and all that follow from them, give any entries two: by all subtrees of all trees."""
    parts = [(begin, end) for begin, end in itertools.combinations(range(most + 1), 2) if end - begin > 1]
    found = {}
    for part, hashed in facts:
        found.setdefault(part, set()).add(hashed)
    for begin, end in sorted(parts, key=lambda part: part[1] - part[0]):
        middle = begin + merkle.left_half(end - begin)
        for left, right in itertools.product(found.get((begin, middle), ()), found.get((middle, end), ())):
            found.setdefault((begin, end), set()).add(merkle.node_hash(left, right))
    return any(len(hashes) > 1 for hashes in found.values())


def closed(pairs):
    """The pairs of heads of which the later one is proved to begin with the earlier one, by all pairs that follow from the given ones."""
    proved = set(pairs)
    while True:
        more = {(one, other) for (one, end), (other, last) in itertools.product(proved, repeat=2) if end == last and one < other}
        more |= {(one, last) for (one, end), (other, last) in itertools.product(proved, repeat=2) if end == other}
        if more <= proved:
            return proved
        proved |= more


if __name__ == "__main__":
    unittest.main()
