"""The parts that the tests of receipts share: journals under a seal, and a folder with a sealed day."""

import os
import unittest
from pathlib import Path
from unittest import mock

from support import AUCTION, AUCTION_RESULTS, make_folder_for_case, run_tool

from lib.journal import book, journal
from lib.seal import heads
from lib.tool import exits, file_io

try:
    from lib.receipts import receipts
    from lib.seal import sealing, signing
except ImportError:  # without python3-cryptography
    signing = None

DAY = "2026-11-28"
NEEDS_CRYPTOGRAPHY = unittest.skipIf(signing is None, "python3-cryptography is missing")


def sealed_of(data, day=DAY, salts=None, key=None):
    read = journal.parse_journal(data)
    return sealing.seal_of(read, book.book_and_refusals(read)[1], day, salts or sealing.draw_salts(day), key or signing.draw_key())


def replies_of(data):
    return book.replies_text(journal.parse_journal(data)).encode()


def verdict_of(data, head, key, statements=None):
    """The verdict on the text of a receipt, compared with a head."""
    with mock.patch.object(file_io, "read_bytes", lambda path: data):
        return receipts.verdict(list(receipts.iterate_findings_of_file("receipts", head, key, statements or receipts.OperatorStatements(key))))


def lines_of(seal, head=None):
    head = head or seal.signed_head()
    return [heads.line_bytes_of(seal.receipt(number, head)) for number in range(1, head.size + 1)]


class InFolder(unittest.TestCase):
    """A test in a folder of its own, with a key, a journal and its replies."""

    def setUp(self):
        folder = make_folder_for_case(self)
        self.addCleanup(os.chdir, os.getcwd())
        os.chdir(folder)
        Path("day.csv").write_bytes(AUCTION.read_bytes())
        Path("replies.txt").write_bytes(replies_of(AUCTION.read_bytes()))
        self.run_tool(0, "keys", "key.pem")

    def run_tool(self, status, *words):
        """The output of `tools/receipts`, which ends with a status. A verdict is on standard output alone."""
        ran = run_tool("receipts", *map(str, words))
        self.assertEqual(ran[0], status, ran)
        if status == exits.DIFFERS:
            self.assertTrue(ran[1])
            self.assertEqual(ran[2], "")
        return ran[1].decode()

    def seal(self, out="sealed", journal="day.csv", replies="replies.txt", status=0):
        return self.run_tool(status, "seal", journal, replies, "--day", DAY, "--key", "key.pem", "-o", out)

    def verify(self, status, *words, head="sealed/head.json"):
        return self.run_tool(status, "verify", *words, "--key", "key.pem.pub", "--head", head)

    def write_receipt(self, seal, number=1):
        path = Path("receipt.jsonl")
        path.write_bytes(lines_of(seal)[number - 1])
        return path


class Audited(InFolder):
    """The same, with the results."""

    def setUp(self):
        super().setUp()
        Path("results.txt").write_bytes(AUCTION_RESULTS.read_bytes())

    def audit(self, status, journal="day.csv", *words, results="results.txt"):
        signed = ["--head", "sealed/head.json", "--salts", "sealed/salts.json", "--key", "key.pem.pub"]
        ran = run_tool("audit", journal, results, *signed, *map(str, words))
        self.assertEqual(ran[0], status, ran)
        return ran[1].decode()
