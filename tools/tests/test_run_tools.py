"""tests/run-tools with a Python that runs nothing: its totals, the order of its output, and its end by a signal."""

import os
import shutil
import signal
import subprocess
import sys
import tempfile
import time
import unittest
from pathlib import Path

from support import TOP

# Each line answers one of the commands, as the shell matches its words.
PYTHON = """#!/bin/sh
case "$*" in
"-c import numpy") exit 1 ;;
-c*) exit 0 ;;
"-m mypy"*) echo "of mypy" ;;
*run-units*) echo "3 passed, 1 failed, 2 skipped"; exit 1 ;;
*workbooks.py*) echo "5 passed, 0 failed" ;;
*fixed.py*) echo "no totals" ;;
*market/run*) echo "2 passed, 0 failed"; exit 3 ;;
*commands/run*) [ ! -e wait ] || { echo $$ > waits; exec sleep 100; }; echo "1 passed, 0 failed" ;;
*"--seed plans"*) mkdir "$5"; echo an input > "$5/plans-1"; echo "0 passed, 1 failed"; exit 1 ;;
*) echo "1 passed, 0 failed" ;;
esac
"""
WITHOUT = "of mypy\n3 passed, 1 failed, 2 skipped\n5 passed, 0 failed\n9 passed, 1 failed, 2 skipped\n"


class RunTools(unittest.TestCase):
    def setUp(self):
        room = tempfile.TemporaryDirectory()
        self.addCleanup(room.cleanup)
        self.top = Path(room.name)
        (self.top / "tests" / "shared").mkdir(parents=True)
        for name in ("run-tools", "shared/arguments.py", "shared/counts.py", "shared/place.py"):
            shutil.copy(TOP / "tests" / name, self.top / "tests" / name)
        self.write_script("python", PYTHON)
        self.write_script("dam", "#!/bin/sh\n")
        self.programs = ["--dam", str(self.top / "dam"), "--desk", str(self.top / "dam")]
        self.write_script("tests/new-python", f"#!/bin/sh\necho '{self.top}/python'\n")

    def write_script(self, name, text):
        path = self.top / name
        path.write_text(text)
        path.chmod(0o755)

    def start(self, *words):
        return subprocess.Popen([sys.executable, self.top / "tests" / "run-tools", *words], stdout=subprocess.PIPE, stderr=subprocess.PIPE, text=True)

    def run_and_read(self, *words):
        with self.start(*words) as process:
            out, err = process.communicate(timeout=100)
        return process.returncode, out, err

    def test_without_programs(self):
        self.assertEqual(self.run_and_read("--without-programs"), (1, WITHOUT, ""))

    def test_with_a_program(self):
        """A run without totals has failed, and so has one with another status and no failure. What was found is shown."""
        status, out, _ = self.run_and_read(*self.programs)
        self.assertEqual(status, 1)
        missing = "left out: scans of every limit, and every selection of more than 12 blocks: python3-numpy is missing\n"
        self.assertTrue(out.startswith(missing + WITHOUT.rpartition("9 passed")[0] + "no totals\n"), out)
        self.assertIn("differs: fixed ends with status 0, and its last line has no totals\n", out)
        self.assertIn("2 passed, 0 failed\ndiffers: market ends with status 3\n", out)
        self.assertTrue(out.endswith("==> plans-1 <==\nan input\n\n17 passed, 4 failed, 3 skipped\n"), out)

    def test_without_python(self):
        self.write_script("dam", "#!/bin/sh\n")
        self.programs = ["--dam", str(self.top / "dam"), "--desk", str(self.top / "dam")]
        self.write_script("tests/new-python", "#!/bin/sh\n")
        said = "left out: the tests of tools/, and random journals: Python 3.10 or newer is missing\n0 passed, 0 failed, 1 skipped\n"
        self.assertEqual(self.run_and_read(*self.programs), (0, said, ""))

    def test_words_that_it_refuses(self):
        for words in ([], ["--dam", ""], ["--without-programs", "--all"], [*self.programs, "dam"]):
            self.assertEqual(self.run_and_read(*words)[:2], (2, ""), words)

    def test_a_signal_ends_what_it_started(self):
        (self.top / "wait").touch()
        waits, until = self.top / "waits", time.monotonic() + 60
        with self.start(*self.programs) as process:
            while not (waits.exists() and waits.read_text()) and time.monotonic() < until:
                time.sleep(0.01)
            process.send_signal(signal.SIGTERM)
            process.communicate(timeout=60)
        self.assertEqual(process.returncode, 1)
        with self.assertRaises(ProcessLookupError):
            os.kill(int(waits.read_text()), 0)


if __name__ == "__main__":
    unittest.main()
