"""Strangers' text never reaches a terminal as it is: each tool escapes it, and cuts long lines."""

import tempfile
import unittest
from pathlib import Path

from support import AUCTION, read_results, run_tool

from lib.base import text

BAD = "\x1b[31m\x07\x9b2J\u202e\r\x00"
HEADER = "participant,order,kind,side,price_eur_mwh,periods,volume_mw,parent,group"


class Safe(unittest.TestCase):
    def test_nothing_is_left_that_a_terminal_obeys(self):
        shown = text.safe(BAD)
        self.assertEqual(shown, "\\x1b[31m\\x07\\x9b2J\\u202e\\r\\x00")
        self.assertEqual(text.safe(b"\x1b\xff\xc3\xa9"), "\\x1b\\xffé")
        self.assertEqual(text.safe("days/a\udcff"), "days/a\\xff")
        self.assertEqual(text.escaped(shown), shown)
        self.assertTrue(all(text.escaped(chr(at)).isprintable() for at in range(0x11000)))

    def test_what_is_long_is_cut(self):
        self.assertEqual(text.quoted("7" * 80), f"'{'7' * 80}'")
        self.assertEqual(text.quoted("7" * 6_000), f"'{'7' * 80}..' (6,000 characters)")
        self.assertEqual(text.safe(b"7" * 81), f"{'7' * 80}.. (81 characters)")


class Tools(unittest.TestCase):
    def capture_output(self, name, *words, data=b""):
        """The output of a tool, which nothing in it may change: neither a terminal, nor a line of 1,000 characters."""
        _, out, err = run_tool(name, *words, data=data)
        lines = (out.decode() + err).splitlines()
        for line in lines:
            self.assertTrue(line.isprintable(), ascii(line))
            self.assertLess(len(line), 1_000)
        return "\n".join(lines)

    def test_each_field_of_a_journal(self):
        line = "submit,NORD,WIND-8,hour,sell,1200,8:450,,".split(",")
        for long in (BAD, "9" * 6_000):
            shown = text.safe(long)[:10]
            for at in range(9):
                fields = [*line[:at], long.replace("\r", ""), *line[at + 1 :]]
                data = f"day,24,,,,,,,\n{','.join(fields)}\nclose,,,,,,,,\n".encode()
                self.assertIn(shown, self.capture_output("lint", "-", data=data))
                if at in (0, 2, 6):
                    self.capture_output("audit", "-", AUCTION, data=data)
                    self.capture_output("table", "--rows", "commands", "-", data=data)
                    self.capture_output("audit", AUCTION, "--sent", "-", "--participant", "GAS", data=data)
            data = f"day,{long},,,,,,,\n".encode()
            self.assertIn(shown, self.capture_output("lint", "-", data=data))
            self.assertIn(shown, self.capture_output("lint", "-", data=long.encode()))

    def test_each_cell_of_a_table_of_orders(self):
        line = "NORD,WIND-8,hour,sell,12.5,8,45,,".split(",")
        for long in (BAD.replace("\x00", "").replace("\r", ""), "9" * 6_000):
            shown = text.safe(long)[:10]
            for at in range(9):
                fields = ",".join([*line[:at], long, *line[at + 1 :]])
                said = self.capture_output("table", "--journal", "-", data=f"{HEADER}\n{fields}\n".encode())
                self.assertIn(shown if at < 5 else "column", said)
            heads = HEADER.replace("kind", long)
            self.assertIn(shown, self.capture_output("table", "--journal", "-", data=f"{heads}\n{','.join(line)}\n".encode()))

    def test_lines_of_results_and_names_of_files(self):
        data, right = AUCTION.read_bytes(), read_results(AUCTION)
        for long in (BAD, "9" * 6_000):
            wrong = right.replace(b"period,3,", b"period,3," + long.encode())
            self.assertIn(text.safe(long)[:10], self.capture_output("audit", AUCTION, "-", data=wrong))
            replies = f"day,24\n1,done\n{long}\n".encode()
            self.assertIn(text.safe(long)[:5], self.capture_output("audit", "--replies", AUCTION, "-", data=replies))
        with tempfile.TemporaryDirectory() as folder:
            path = Path(folder, BAD.replace("\x00", ""))
            path.write_bytes(data)
            for name, words in (("lint", []), ("audit", [path]), ("table", ["--journal"]), ("table", []), ("plot", [path, "-o", "a.svg"])):
                self.capture_output(name, *words, f"{path}.none")
            self.capture_output("plot", path, "-o", path)
            self.capture_output("audit", path, f"--{BAD[:-1]}", path)
            for words in ([path] * 2 + ["x\nas the rules say"], ["--x\nas the rules say"]):
                self.assertIn(r"arguments: x\nas the rules say" if path in words else r"\nas the rules say", self.capture_output("audit", *words))


if __name__ == "__main__":
    unittest.main()
