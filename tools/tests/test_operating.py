"""The script of docs/OPERATING.md for each day, as an example of the package: whole results or none, and never two runs in a folder."""

import os
import random
import re
import signal
import subprocess
import sys
import tempfile
import time
import unittest
from pathlib import Path

from support import AUCTION, AUCTION_RESULTS, TOOLS, TOP, make_folder_for_case, read_results, set_signal_handlers

from lib.journal import book, journal
from lib.runs import which

FOLDER = TOP / "examples" / "operating"
SCRIPT = FOLDER / "day.sh"
FAKE = Path(__file__).with_name("fake_dam.py")
SECONDS = 100  # that a run may take
# Ctrl-C goes to the group of the script, which `timeout` isn't in; other signals to the script alone.
SIGNALS = [(signal.SIGINT, os.killpg), (signal.SIGTERM, os.kill), (signal.SIGHUP, os.kill)]


def kill(run):
    """Ends a run that a failed test has left, with all that it started."""
    if run.poll() is None:
        os.killpg(run.pid, signal.SIGKILL)
        run.communicate()


class Day(unittest.TestCase):
    def setUp(self):
        folder = make_folder_for_case(self)
        self.bin, self.day = folder / "bin", folder / "2026 11-29"
        for path in (self.bin, self.day):
            path.mkdir()
        for tool in ("audit", "lint"):
            self.write_script(f"dam-{tool}", f'exec "{sys.executable}" -B "{TOOLS / tool}" "$@"')
        program = f'"{which.BUILT}"' if which.BUILT.exists() else f'"{sys.executable}" -B "{FAKE}"'
        self.write_script("dam", f'PYTHONPATH="{FAKE.parent}" exec {program} "$@"')
        Path(self.day, "day.csv").write_bytes(AUCTION.read_bytes())

    def write_script(self, name, line):
        path = self.bin / name
        path.write_text(f"#!/bin/sh\n{line}\n")
        path.chmod(0o755)

    def start(self, *folder, **environment):
        own = {**os.environ, "PATH": f"{self.bin}:{os.environ['PATH']}", **environment}
        words = {"cwd": self.bin.parent, "env": own, "stdout": subprocess.PIPE, "stderr": subprocess.PIPE, "text": True}
        return subprocess.Popen([SCRIPT, *folder], start_new_session=True, **words)

    def run_once(self, *folder, **environment):
        """The status of a run, and its last lines on standard output and error."""
        run = self.start(*(folder or [self.day]), **environment)
        self.addCleanup(kill, run)
        out, err = run.communicate(timeout=SECONDS)
        return run.returncode, out.splitlines()[-1:], err.splitlines()[-1:]

    def names(self):
        return sorted(path.name for path in self.day.iterdir() if path.name != "lock")

    def test_the_page_has_the_script(self):
        page = (TOP / "docs" / "OPERATING.md").read_text()
        self.assertIn(f"```sh\n{SCRIPT.read_text()}```", page)
        self.assertTrue(os.access(SCRIPT, os.X_OK))
        said = re.search(r"The script exits with (10) .*?, (20) .*?, (75) ", " ".join(page.split())).groups()
        self.assertEqual(set(re.findall(r"\bexit (\d+)", SCRIPT.read_text())), set(said))

    def test_a_day(self):
        replies = book.replies_text(journal.parse_journal(AUCTION.read_bytes())).encode()
        for _ in range(2):
            status, out, _ = self.run_once()
            self.assertEqual((status, self.names()), (0, ["day.csv", "replies.txt", "results.txt"]), out)
            self.assertEqual(Path(self.day, "results.txt").read_bytes(), AUCTION_RESULTS.read_bytes())
            self.assertEqual(Path(self.day, "replies.txt").read_bytes(), replies)

    def test_a_day_of_a_desk(self):
        """Its journal is taken from the desk's file; if that can't be read, there are no results."""
        Path(self.day, "day.desk").write_bytes(AUCTION.read_bytes())
        Path(self.day, "day.csv").unlink()
        self.write_script("dam-desk", 'test "$1" = --journal && cat "$2"')
        status, out, _ = self.run_once()
        self.assertEqual((status, self.names()), (0, ["day.csv", "day.desk", "replies.txt", "results.txt"]), out)
        self.assertEqual(Path(self.day, "day.csv").read_bytes(), AUCTION.read_bytes())
        for line, words in (("exit 4", "desk: 4"), ("echo day,24; exit 4", "desk: 4"), ("exit 0", "no journal")):
            self.write_script("dam-desk", line)
            self.assertEqual(self.run_once()[:2], (10, [words]))
            self.assertNotIn("results.txt", self.names())
            self.assertEqual(Path(self.day, "day.csv").read_bytes(), AUCTION.read_bytes(), "the last journal that was read stays")
        self.write_script("dam-desk", 'cat "$2"')
        self.write_script("mv", 'case $1 in */day.csv) exit 1 ;; *) exec /bin/mv "$@" ;; esac')
        self.assertEqual(self.run_once()[:2], (10, ["no journal"]), "an older journal isn't cleared in place of the desk's")
        self.assertNotIn("results.txt", self.names())

    def test_a_desk_that_is_a_link_to_a_missing_file(self):
        """Such as one on a disk that isn't mounted: an older journal isn't cleared in place of it."""
        Path(self.day, "day.desk").symlink_to("/nonexistent/desk")
        self.write_script("dam-desk", 'cat "$2" || exit 4')
        self.assertEqual(self.run_once()[:2], (10, ["desk: 4"]))
        self.assertNotIn("results.txt", self.names())

    def test_files_that_cannot_be_removed_or_moved(self):
        """Old results that stay are never taken for those of the run."""
        self.assertEqual(self.run_once()[0], 0)
        before = self.names()
        self.write_script("rm", "exit 1")
        self.assertEqual((self.run_once()[0], self.names()), (10, before))
        (self.bin / "rm").unlink()
        self.write_script("mv", 'case $1 in */results.txt) exit 1 ;; *) exec /bin/mv "$@" ;; esac')
        self.assertEqual(self.run_once()[0], 10)
        self.assertNotIn("results.txt", self.names())

    def test_two_runs_at_once(self):
        """The second one ends, says why, and spoils nothing of the first."""
        go = self.bin / "go"
        self.write_script("dam-lint", f'touch "{go}.begun"; while [ ! -e "{go}" ]; do sleep 0.05; done')
        first = self.start(self.day)
        while not Path(f"{go}.begun").exists():
            time.sleep(0.05)
        second = self.run_once()
        self.addCleanup(kill, first)
        self.assertEqual(second, (75, [], [f"{self.day}: another run has the lock"]))
        go.touch()
        first.communicate(timeout=SECONDS)
        self.assertEqual((first.returncode, self.names()), (0, ["day.csv", "replies.txt", "results.txt"]))
        self.assertEqual(Path(self.day, "results.txt").read_bytes(), AUCTION_RESULTS.read_bytes())

    def test_a_failed_run_leaves_no_results(self):
        """Those of an earlier run are gone, and its own files are kept until the next run."""
        for name, line, status, last, kept in (
            ("dam", "exit 4", 10, "replay: 4", ["replies.txt"]),
            ("dam", 'if [ "$1" = clear ]; then exit 1; fi', 10, "clear: 1", ["replies.txt", "results.txt"]),
            ("dam-audit", "exit 6", 20, "audit: 6", ["replies.txt", "results.txt"]),
        ):
            before = (self.bin / name).read_text()
            self.assertEqual(self.run_once()[0], 0)
            self.write_script(name, line)
            found = self.run_once()
            self.assertEqual(found[:2], (status, [last]))
            room = self.day / "new"
            self.assertEqual((self.names(), sorted(path.name for path in room.iterdir())), (["day.csv", room.name], kept))
            (self.bin / name).write_text(before)

    def test_a_run_that_is_killed_leaves_no_results_and_no_lock(self):
        self.assertEqual(self.run_once()[0], 0)
        begun, before = self.bin / "begun", (self.bin / "dam-audit").read_text()
        self.write_script("dam-audit", f'touch "{begun}"; exec sleep 60')
        run = self.start(self.day)
        while not begun.exists():
            time.sleep(0.05)
        os.killpg(run.pid, signal.SIGKILL)
        run.communicate()
        self.assertNotIn("results.txt", self.names())
        (self.bin / "dam-audit").write_text(before)
        self.assertEqual((self.run_once()[0], self.names()), (0, ["day.csv", "replies.txt", "results.txt"]))

    def test_a_signal_ends_a_step_too(self):
        """The lock is free at once."""
        set_signal_handlers(self)
        begun = self.bin / "begun"
        for name, line in (("dam", '[ "$1" = replay ] || '), ("dam-audit", "")):
            before = (self.bin / name).read_text()
            self.write_script(name, f'{line}{{ touch "{begun}"; exec sleep 60; }}')
            for number, send in SIGNALS:
                with self.subTest(name, number=number):
                    run = self.start(self.day)
                    self.addCleanup(kill, run)
                    while not begun.exists():
                        time.sleep(0.05)
                    send(run.pid, number)
                    self.assertEqual(run.wait(timeout=SECONDS / 2), 10)
                    self.assertEqual(subprocess.run(["flock", "-n", self.day / "lock", "true"]).returncode, 0)
                    self.assertNotIn("kill", run.communicate()[1])
                    self.assertNotIn("results.txt", self.names())
                begun.unlink()
            (self.bin / name).write_text(before)

    def test_a_signal_ends_a_desk_too(self):
        """And any other step, also one that has just begun; the lock is free at once. Before there is a lock, the shell may end by itself."""
        set_signal_handlers(self)
        begun, desk = self.bin / "begun", Path(self.day, "day.desk")
        desk.write_bytes(AUCTION.read_bytes())
        for name in ("lint", "audit"):
            self.write_script(f"dam-{name}", "exec sleep 60")
        for line, pauses in (
            (f'touch "{begun}"; exec sleep 60', [0]),
            ("exec sleep 60", [number / 3_000 for number in range(40)]),  # it may come at any moment of the beginning
            ('cat "$2"', [number / 500 for number in range(12)]),
        ):
            self.write_script("dam-desk", line)
            for pause in pauses:
                number, send = random.choice(SIGNALS)
                with self.subTest(line, pause=pause, number=number):
                    self.run_signalled(number, send, pause, begun if "begun" in line else None)
                    self.assertLessEqual({"results.txt", "replies.txt"} & set(self.names()), set())
                begun.unlink(missing_ok=True)

    def run_signalled(self, number, send, pause, begun=None):
        """A run that gets a signal after a pause, and ends with the lock free."""
        run = self.start(self.day)
        self.addCleanup(kill, run)
        while begun and not begun.exists():
            time.sleep(0.01)
        time.sleep(pause)
        send(run.pid, number)
        status = run.wait(timeout=SECONDS / 2)
        self.assertIn(status, (10, *[-number] * (not begun)))
        self.assertEqual(subprocess.run(["flock", "-n", self.day / "lock", "true"]).returncode, 0)
        self.assertNotIn("kill", run.communicate()[1])

    def test_a_signal_leaves_a_whole_day_or_none(self):
        """Old results are removed together, and new ones put there together."""
        set_signal_handlers(self)
        whole, ends = ["day.csv", "replies.txt", "results.txt"], 'sleep 0.2; kill -{0} $PPID; kill -{0} 0; sleep 0.2'
        for number, _ in SIGNALS:
            self.assertEqual((self.run_once()[0], self.names()), (0, whole))
            self.write_script("rm", f'/bin/rm -f results.txt; {ends.format(number)}; exec /bin/rm "$@"')
            with self.subTest(number=number, step="rm"):
                self.assertEqual((self.run_once()[0], self.names()), (10, ["day.csv"]))
            (self.bin / "rm").unlink()
            self.write_script("mv", f'/bin/mv "$@"; {ends.format(number)}')
            with self.subTest(number=number, step="mv"):
                self.assertEqual((self.run_once()[0], self.names()), (0, whole))
            (self.bin / "mv").unlink()

    def test_a_folder_that_is_not_there(self):
        self.day = self.day / "none"
        self.assertEqual(self.run_once()[0], 10)

    def test_no_other_folder_is_touched(self):
        """Neither the working folder, if no folder is named, nor one that the environment names."""
        other = self.bin.parent / "other" / self.day.name
        other.mkdir(parents=True)
        kept = [folder / "results.txt" for folder in (self.bin.parent, other)]
        for path in kept:
            path.touch()
        for words in ([], [""], ["-"]):
            run = self.start(*words, OLDPWD=str(other))
            run.communicate(timeout=SECONDS)
            self.assertEqual((run.returncode, [path.exists() for path in kept]), (10, [True, True]), words)
        self.assertEqual(self.run_once(self.day.name, CDPATH="other")[0], 0)
        self.assertEqual((self.names(), kept[1].exists()), (["day.csv", "replies.txt", "results.txt"], True))

    def test_a_lock_that_cannot_be_opened(self):
        """A redirection of `exec` alone that fails would end the shell, with its own status."""
        Path(self.day, "lock").mkdir()
        self.assertEqual((self.run_once()[0], self.names()), (10, ["day.csv"]))

    def test_a_lock_of_another_kind(self):
        """A pipe would wait for a reader, and the file behind a link would be emptied."""
        lock, other = Path(self.day, "lock"), self.bin.parent / "other"
        os.mkfifo(lock)
        self.assertEqual((self.run_once()[0], self.names()), (10, ["day.csv"]))
        lock.unlink()
        other.write_text("kept")
        lock.symlink_to(other)
        self.assertEqual((self.run_once()[0], other.read_text()), (0, "kept"))

    def test_a_journal_that_is_a_pipe(self):
        """It would wait for a writer, with the lock."""
        for name in ("day.csv", "day.desk"):
            Path(self.day, "day.csv").unlink(missing_ok=True)
            os.mkfifo(Path(self.day, name))
            self.assertEqual((self.run_once()[0], self.names()), (10, [name]))
            Path(self.day, name).unlink()

    def test_without_flock(self):
        """That isn't a lock which another run has."""
        for status, wanted in ((127, 10), (1, 75)):
            self.write_script("flock", f"exit {status}")
            self.assertEqual((self.run_once()[0], self.names()), (wanted, ["day.csv"]))

    def test_the_units(self):
        service, timer = ((FOLDER / f"dam-day.{kind}").read_text() for kind in ("service", "timer"))
        command = re.search(r"^ExecStart=/bin/sh -c '(.*)'$", service, re.MULTILINE)[1].replace("%%", "%")
        shown = command.replace("exec /usr/local/bin/day.sh", "echo")
        found = subprocess.run(["sh", "-c", shown], stdout=subprocess.PIPE, text=True).stdout
        self.assertRegex(found, r"^/srv/dam/\d{4}-\d\d-\d\d\n$")
        self.assertIn("\nPrivateNetwork=yes\n", service)
        self.assertRegex(timer, r"\nOnCalendar=\*-\*-\* \d\d:\d\d:00 Europe/Brussels\n")


class Upgrade(unittest.TestCase):
    def test_the_loop_over_archived_days(self):
        """Archived days are cleared again; one that differs is named."""
        loop = re.search(r"^! for day in .*?^done \| grep \.", (TOP / "docs" / "OPERATING.md").read_text(), re.MULTILINE | re.DOTALL)[0]
        with tempfile.TemporaryDirectory() as folder:
            replies = book.replies_text(journal.parse_journal(AUCTION.read_bytes()))
            for name in ("one", "two"):
                day = Path(folder, "archive", name)
                day.mkdir(parents=True)
                Path(day, "day.csv").write_bytes(AUCTION.read_bytes())
                Path(day, "results.txt").write_bytes(read_results(AUCTION))
                Path(day, "replies.txt").write_text(replies)
            Path(folder, "replies").write_text(replies)
            line = f'case $1 in clear) cat "{AUCTION_RESULTS}" ;; *) cat "{folder}/replies" ;; esac'
            Path(folder, "dam").write_text(f"#!/bin/sh\n{line}\n")
            Path(folder, "dam").chmod(0o755)
            own = {**os.environ, "PATH": f"{folder}:{os.environ['PATH']}"}
            words = ["sh", "-c", loop.replace("/srv/dam/", f"{folder}/archive/")]
            self.assertEqual(subprocess.run(words, env=own).returncode, 0)
            Path(folder, "archive", "two", "replies.txt").write_text(replies + "x\n")
            ran = subprocess.run(words, env=own, stdout=subprocess.PIPE, stderr=subprocess.DEVNULL, text=True)
            self.assertEqual((ran.returncode, ran.stdout.splitlines()[-1]), (1, f"{folder}/archive/two/ differs"))


if __name__ == "__main__":
    unittest.main()
