"""The bar of the launcher, at terminals of several widths and elsewhere."""

import fcntl
import os
import re
import struct
import subprocess
import sys
import termios
import unittest

from support import TOOLS

# Shows the bar with these words, above it a line for good, then the bar again, and takes it away.
SHOWN = """import sys
sys.path.insert(0, sys.argv[1])
from lib.process import progress
shown = progress.ShareBar("proving")
shown.show(0.25, sys.argv[2])
shown.print_above(f"proved {sys.argv[2]}")
shown.show(0.5, sys.argv[2])
shown.close()
"""
LONG = "some 12 min left: " + ", ".join(f"crate_{it}" for it in range(30))
DRAWN = ("dam: proving [######..................] 25% ", "dam: proving [############............] 50% ")


def capture_shown_parts(columns, words):
    """Returns the parts that the bar writes to a terminal of this width. Each takes the place of the one before."""
    ours, theirs = os.openpty()
    fcntl.ioctl(theirs, termios.TIOCSWINSZ, struct.pack("HHHH", 24, columns, 0, 0))
    subprocess.run([sys.executable, "-Bc", SHOWN, TOOLS, words], stderr=theirs, check=True, timeout=60)
    os.close(theirs)
    told = os.read(ours, 10_000).decode()
    os.close(ours)
    return told.split("\r\x1b[K")


class ShareBars(unittest.TestCase):
    def test_a_line_is_not_longer_than_the_terminal_is_wide(self):
        # a terminal without a size says 0
        for columns, most in ((80, 79), (50, 49), (300, 299), (0, 119)):
            with self.subTest(columns=columns):
                before, first, above, second, after = capture_shown_parts(columns, LONG)
                self.assertEqual((before, above, after), ("", f"proved {LONG}\r\n", ""))
                for line, drawn in zip((first, second), DRAWN):
                    self.assertRegex(line, rf"\A{re.escape(drawn)}\d s")
                    self.assertEqual(len(line), most)
                    self.assertTrue(LONG.startswith(line.partition(", ")[2]))

    def test_a_line_that_fits_is_shown_whole(self):
        for line, drawn in zip(capture_shown_parts(80, "less than a minute left: low")[1::2], DRAWN):
            self.assertRegex(line, rf"\A{re.escape(drawn)}\d s, less than a minute left: low\Z")

    def test_elsewhere_it_prints_only_the_line_above(self):
        ran = subprocess.run([sys.executable, "-Bc", SHOWN, TOOLS, LONG], stderr=subprocess.PIPE, check=True, timeout=60)
        self.assertEqual(ran.stderr.decode(), f"proved {LONG}\n")


if __name__ == "__main__":
    unittest.main()
