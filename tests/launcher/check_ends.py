"""The end of ./check: signals, totals, and the rows of the crates."""

import contextlib
import json
import os
import signal
import subprocess
import sys
import tempfile
import types
from collections.abc import Sequence
from importlib.machinery import SourceFileLoader

from launcher.repository import FORKING, RepositoryCase

# A part of a check: it starts a process that doesn't end at SIGTERM, and while any of them runs, the file `running` is open.
PART = """#!/bin/sh
exec > running
sh -c 'trap "" TERM; echo begun; exec sleep 100' &
wait
"""

# Runs parts that print files, and prints the end of a check of these.
PRINT_PARTS = """
import sys, types
from importlib.machinery import SourceFileLoader
check = types.ModuleType("check")
check.__file__ = f"{sys.path[0]}/check"
SourceFileLoader("check", check.__file__).exec_module(check)
alone = {"ended": ["tests/run"]}
done = [check.run_and_print_part(name, ["cat", name], alone=alone.get(name)) for name in ["first", "right", "other", "ended", "empty"]]
check.run_yardstick_and_print_table(done, check.total_of(done))
"""


class CheckTests(RepositoryCase):
    def start_and_assert_end(self, status: int, signals: Sequence[int], ignored: Sequence[str] = ()) -> None:
        """Starts a check that ignores some signals, sends signals to it, but not to the part that is running, and sees how both end."""
        running = os.open(f"{self.at.top}/running", os.O_RDONLY | os.O_NONBLOCK)
        shell = [f"trap '' {name}" for name in ignored] + ['exec "$0" --no-install']
        words = ["sh", "-c", "; ".join(shell), f"{self.at.top}/check"]
        with self.at.start(*words) as process:
            self.wait_for(lambda: self.read_pipe_or_none(running) == b"begun\n")
            for number in signals:
                process.send_signal(number)
            out, error = process.communicate(timeout=60)
        self.assertEqual((process.returncode, out, error), (status, "== edits: tests/wrong-bodies --apply-only\n", ""))
        self.wait_for(lambda: self.read_pipe_or_none(running) == b"")
        os.close(running)

    def read_pipe_or_none(self, running: int) -> bytes | None:
        """The written bytes: nothing (None) as yet, or no bytes if nobody has it open for writing."""
        try:
            return os.read(running, 100)
        except BlockingIOError:
            return None

    def test_proved_or_kept_libraries_are_copied(self) -> None:
        check = types.ModuleType("check")
        check.__file__ = f"{self.at.top}/check"
        SourceFileLoader("check", check.__file__).exec_module(check)
        for name in ("low", "left", "right"):
            self.at.write(f"crates/{name}/out/rlib/{name}.rlib/checked", name)
        crates = check.ProofWatch(f"{self.at.top}/copied")
        crates.note_line_and_copy_library("rt: low proved")
        crates.note_line_and_copy_library("rt: left is kept: an earlier run on this machine proved the same files over the same libraries")
        crates.note_line_and_copy_library("rt: right NOT PROVED")
        rows = list(crates.rows())
        self.assertEqual(sorted(os.listdir(f"{self.at.top}/copied")), ["left.rlib", "low.rlib"])
        self.assertEqual(self.at.read("copied/left.rlib/checked"), "left")
        self.assertIn("proved 0.0 minutes after the start", rows[0])
        self.assertIn("proved by an earlier run", rows[1])

    def test_a_crate_takes_the_time_of_its_proof(self) -> None:
        check = types.ModuleType("check")
        check.__file__ = f"{self.at.top}/check"
        SourceFileLoader("check", check.__file__).exec_module(check)
        works = ["-c", "while True: pass", "--crate-name", "low"]
        with contextlib.ExitStack() as ends:
            places = f"{self.at.top}/crates/low", ends.enter_context(tempfile.TemporaryDirectory(prefix="rt-edit-"))
            with FORKING:
                proof, edit = (subprocess.Popen([sys.executable, *works], cwd=place) for place in places)
                # its parent ends at once, so that the check has nothing to do with it
                words = ["sh", "-c", '"$0" "$@" > /dev/null & echo $!', sys.executable, *works]
                stranger = subprocess.run(words, cwd=places[0], stdout=subprocess.PIPE, text=True, check=True).stdout.strip()
            for process in (proof, edit):
                ends.callback(process.wait)
                ends.callback(process.kill)
            ends.callback(os.kill, int(stranger), signal.SIGKILL)
            crates = check.ProofWatch(f"{self.at.top}/copied")
            crates.start_thread()
            counted = {("low", False, str(proof.pid)), ("low", True, str(edit.pid))}
            self.wait_for(lambda: {it for it, seconds in list(crates.seconds.items()) if seconds} == counted)
            crates.note_line_and_copy_library("rt: low proved")
            crates.end_thread()
            self.assertEqual(len(list(crates.rows())), 1)
            self.assertEqual(set(crates.seconds), counted)

    def test_failures_are_repeated_at_the_end(self) -> None:
        own = ["differs: streams: stream 2: a line", "FAILED tools/tests/test_a.py::A::test - x", "a_test ... FAILED", "low/edit: NOT REFUSED: why",
               "rt: low NOT PROVED", "case 3 of seed check: a: b", "json.JSONDecodeError: why", "KeyError"]  # fmt: skip
        others = ["a_test ... ok", "it differs: no", "the Error: no", "low/edit: refused", "rt: low proved"]
        many = [f"differs: case {number}" for number in range(52)]
        for name, lines in (
            ("first", [*own, *others, "9 passed, 8 failed"]),
            ("right", [*others, "9 passed, 0 failed"]),
            ("other", [*many, "0 passed, 52 failed"]),
            ("ended", others),
            ("empty", ["0 passed, 0 failed"]),
        ):
            self.at.write(name, "".join(f"{line}\n" for line in lines))
        self.at.write("crates/refusing_alloc/src/lib.rt", "")
        self.at.write("print_parts.py", PRINT_PARTS)
        status, out, error = self.at.run(sys.executable, "print_parts.py", cwd=self.at.top)
        self.assertEqual((status, error), (0, ""))
        repeated = {
            "first": ["8 failed; to run it alone: cat first", *own],
            "other": ["52 failed; to run it alone: cat other", *many[:50], "and 2 more"],
            "ended": ["1 failed; to run it alone: tests/run", "ended with status 0, and its last line has no totals"],
            "empty": ["1 failed; to run it alone: cat empty", "nothing was run"],
        }
        right = [f"failed: {name}: {line}" for name, its in repeated.items() for line in its]
        self.assertEqual(out.splitlines()[-len(right) - 1 :][1:], right)
        self.assertEqual(out.count("\nfailed: "), len(right))

    def test_totals_are_written_with_the_commit(self) -> None:
        check = types.ModuleType("check")
        check.__file__ = f"{self.at.top}/check"
        SourceFileLoader("check", check.__file__).exec_module(check)
        whole = check.Part("all")
        whole.passed, whole.failed = 7, 1
        before = check.query_clean_commit_or_none()
        self.assertIsNone(before, "no repository")
        self.at.write(".gitignore", "out/\ncrates/*/out/\n")
        names = [word for who in ("user.name", "user.email") for word in ("-c", f"{who}=test")]
        for line in (["init", "--quiet"], ["add", "--all"], [*names, "commit", "--quiet", "-m", "all"]):
            self.assertEqual(self.at.run("git", *line, cwd=self.at.top)[0], 0)
        commit = check.query_clean_commit_or_none()
        self.assertEqual(commit, self.at.run("git", "rev-parse", "HEAD", cwd=self.at.top)[1].strip())
        for changed, of in ((None, commit), ("crates/low/src/lib.rt", None)):
            if changed:
                self.at.write(changed, "changed meanwhile")
            check.write_totals_record(whole, commit, False)
            told = json.loads(self.at.read("out/check.json"))
            self.assertEqual((told["commit"], told["command"], told["passed"], told["failed"]), (of, "./check", 7, 1))

    def test_a_signal_ends_the_part_as_a_whole(self) -> None:
        with FORKING:
            self.at.write("tests/wrong-bodies", PART)
        os.chmod(f"{self.at.top}/tests/wrong-bodies", 0o755)
        os.mkfifo(f"{self.at.top}/running")
        for number in (signal.SIGTERM, signal.SIGINT, signal.SIGHUP):
            self.start_and_assert_end(128 + number, [number])
        self.start_and_assert_end(128 + signal.SIGTERM, [signal.SIGHUP, signal.SIGINT, signal.SIGTERM], ["HUP", "INT"])
