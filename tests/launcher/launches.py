"""./dam runs a program: which one, with which input, output and status."""

import os
import signal
import subprocess
import sys
import time

from launcher.repository import IGNORING_SIGCHLD, PROGRAM, DamCase
from shared.processes import pipes_of, stdout_of


class LaunchTests(DamCase):
    """Which program ./dam runs, before and after it is proved; its input, output and status."""

    def test_answers_before_anything_is_proved(self) -> None:
        for count in range(3):
            ran = self.at.run_dam("clear", "a  b", "", "--cut", "9", given="text")
            self.assertEqual(ran, (0, "words: clear a  b  --cut 9\ntext", self.line_of_unproved()))
        self.assertEqual(self.read_verbs(), ["try"], "compiled once")
        self.assertEqual(len(self.list_kept()), 1)
        self.assertFalse(os.path.exists(self.at.program))

    def test_once_proved_the_line_goes(self) -> None:
        self.at.run_dam("clear", given="text")
        status, out, error = self.at.run_dam("prove")
        self.assertEqual((status, out), (0, ""))
        self.assertRegex(error, r"(?m)^proved dam_cli in \d+ s")
        self.assertEqual({it[1] for it in self.at.read_calls()}, {"low", "left", "right", "high", "dam_cli", "dam_desk"})
        for words in ((), ("--proved",)):
            self.assertEqual(self.at.run_dam(*words, "clear", "a  b", "", given="text"), (0, "words: clear a  b \ntext", ""))
            # the program takes the launcher's place
            with self.at.start(f"{self.at.top}/dam", *words, "x") as process:
                self.assertEqual(stdout_of(process).readline(), "words: x\n")
                with open(f"/proc/{process.pid}/cmdline", encoding="utf-8") as line:
                    self.assertIn(self.at.program, line.read().split("\0"))
                process.communicate()
        self.assertEqual(self.read_verbs().count("try"), 1)
        self.assertTrue(self.at.has_no_copy())

    def test_prove_takes_the_words_of_the_tool(self) -> None:
        status, out, error = self.at.run_dam("prove", "--plan", "--jobs", "2")
        self.assertEqual((status, error), (0, ""))
        self.assertIn("of a processor", out)
        self.assertEqual(self.at.run_dam("prove", "--jobs", "0")[0], 2)
        # in another place it is a word of the program
        self.assertEqual(self.at.run_dam("clear", "prove")[1], "words: clear prove\n")

    def test_status_and_error_are_the_programs(self) -> None:
        for line in (self.line_of_unproved(), ""):
            for status in (0, 1, 2, 3, 6, 70, 126):
                self.assertEqual(self.at.run_dam("ends", str(status)), (status, f"words: ends {status}\n", line))
            self.assertEqual(self.at.run_dam("says", "no\\n"), (0, "words: says no\\n\n", line + "no\n"))
            self.assertEqual(self.at.run_dam(), (2, "", line + "help\n"))
            self.assertEqual(self.at.run_dam("--help"), (0, "help\n", line))
            self.prove_program_and_assert()

    def test_the_status_if_sigchld_is_ignored(self) -> None:
        for status in (0, 3):
            ran = self.at.run(sys.executable, "-c", IGNORING_SIGCHLD, f"{self.at.top}/tools/unproved", "ends", str(status))
            self.assertEqual(ran[:2], (status, f"words: ends {status}\n"))

    def test_the_program_has_the_same_streams(self) -> None:
        """Also if the input is silent for a time, closed or without end, and if nobody reads the output."""
        for before in (False, True):
            with self.at.start(f"{self.at.top}/dam", "x") as process:
                stdin, stdout = pipes_of(process)
                stdin.write("first ")
                stdin.flush()
                self.assertEqual(stdout.readline(), "words: x\n")
                time.sleep(0.3)
                stdin.write("last")
                stdin.close()
                out = stdout.read()
            self.assertEqual((process.returncode, out), (0, "first last"))
            with self.at.start(f"{self.at.top}/dam", "--help") as process:
                self.assertEqual(process.wait(60), 0)
            words = '"$1" x <&-; echo "$?"; yes | "$1" x | head -1; "$1" x 2>&- < /dev/null'
            out = self.at.run("sh", "-c", words, "", f"{self.at.top}/dam")[1]
            self.assertEqual(out, "words: x\n0\nwords: x\nwords: x\n")
            if not before:
                self.prove_program_and_assert()

    def test_a_directory_as_input(self) -> None:
        """Python doesn't start with it, and the program says what it says of it."""
        for before in (False, True):
            status, out, error = self.at.run("sh", "-c", '"$1" x < /', "", f"{self.at.top}/dam")
            self.assertEqual((status, out), (0, "words: x\n"))
            self.assertTrue(error.startswith(f"{'' if before else self.line_of_unproved()}cat: "), error)
            if not before:
                self.prove_program_and_assert()
        # the sums are looked at
        self.at.write("crates/low/src/lib.rt", "# edited\n")
        self.at.touch_newer("crates/low/src/lib.rt")
        error = self.at.run("sh", "-c", '"$1" --proved x < /', "", f"{self.at.top}/dam")[2]
        self.assertIn("low changed since", error)

    def test_an_edit_after_the_proof(self) -> None:
        self.prove_program_and_assert()
        paths = ("crates/low/src/lib.rt", "crates/dam_cli/src/main.rt", "crates/high/proofs/p.antt", "crates/right/specs/s.antt",
                 "crates.txt")
        for count, path in enumerate(paths):
            before = self.at.read(path) if os.path.exists(f"{self.at.top}/{path}") else None
            self.at.write(path, f"{before or ''}\n# edited\n")
            self.at.touch_newer(path)
            changed = "low, left, right, high" if path == "crates.txt" else path.split("/")[1]
            name = "crates/dam_cli/out/dam_cli was built of other sources"
            status, out, error = self.at.run_dam("x", given="text")
            if path != "crates.txt":
                line = self.line_of_unproved(f"{name}: {changed} changed since")
                self.assertEqual((status, out, error), (0, "words: x\ntext", line), path)
                self.assertEqual(self.read_verbs().count("try"), count + 1)
                status, out, error = self.at.run_dam("--proved", "x", given="text")
                self.assertEqual((status, out), (70, ""))
                self.assertEqual(error, f"dam: {name}: {changed} changed since: './dam prove' proves and builds the program\n")
            # as it was, at a later date: the sums decide
            if before is None:
                os.remove(f"{self.at.top}/{path}")
            else:
                self.at.write(path, before)
            for words in ((), ("--proved",)):
                self.assertEqual(self.at.run_dam(*words, "x", given="text"), (0, "words: x\ntext", ""))
                # the sums needn't be looked at again
                dates = [os.path.getmtime(it) for it in (self.at.program, f"{self.at.top}/{path}") if os.path.exists(it)]
                self.assertEqual(max(dates), dates[0])
        # crates of no concern, and files that aren't sources
        for path in ("crates/far/src/lib.rt", "crates/other/src/main.rt", "crates/dam_cli/args"):
            self.at.write(path, "edited")
            self.at.touch_newer(path)
        self.assertEqual(self.at.run_dam("--proved", "x", given="text"), (0, "words: x\ntext", ""))

    def run_and_assert_stale(self, *changed: str) -> None:
        """Runs the proved program, of whose crates these changed since."""
        why = f"crates/dam_cli/out/dam_cli was built of other sources: {', '.join(changed)} changed since"
        self.assertEqual(self.at.run_dam("x", given="text"), (0, "words: x\ntext", self.line_of_unproved(why)))
        error = f"dam: {why}: './dam prove' proves and builds the program\n"
        self.assertEqual(self.at.run_dam("--proved", "x"), (70, "", error))

    def test_an_edit_of_the_handles(self) -> None:
        """The proofs of all crates depend on the file HANDLES."""
        self.prove_program_and_assert()
        self.assertEqual(self.at.run_dam("x"), (0, "words: x\n", ""))
        self.at.write("HANDLES", "Handles allowed: Threads, Wait.\n")
        self.at.touch_newer("HANDLES")
        self.run_and_assert_stale("dam_cli", "high", "left", "low", "right")
        self.at.write("HANDLES", "Handles allowed: Threads.\n")
        self.assertEqual(self.at.run_dam("x"), (0, "words: x\n", ""))
        os.remove(f"{self.at.top}/HANDLES")
        self.run_and_assert_stale("dam_cli", "high", "left", "low", "right")

    def test_a_removed_source(self) -> None:
        self.at.write("crates/low/src/more.rt", "")
        self.prove_program_and_assert()
        os.remove(f"{self.at.top}/crates/low/src/more.rt")
        self.run_and_assert_stale("low")

    def test_a_source_replaced_by_an_older_one(self) -> None:
        self.prove_program_and_assert()
        for count, way in enumerate((["cp", "-p"], ["mv"])):
            self.at.write("older", f"// older {count}\n")
            os.utime(f"{self.at.top}/older", (1e9, 1e9))
            self.assertEqual(self.at.run(*way, f"{self.at.top}/older", f"{self.at.top}/crates/left/src/lib.rt"), (0, "", ""))
            self.assertEqual(os.path.getmtime(f"{self.at.top}/crates/left/src/lib.rt"), 1e9)
            self.run_and_assert_stale("left")
            self.at.write("crates/left/src/lib.rt", "// left\n")
            self.assertEqual(self.at.run_dam("x"), (0, "words: x\n", ""))

    def test_dates_that_cant_be_compared(self) -> None:
        self.prove_program_and_assert()
        lacks = self.at.make_environment_without("find")
        self.assertEqual(self.at.run_dam("x", env=lacks), (0, "words: x\n", ""))
        self.at.write("crates/low/src/lib.rt", "// edited\n")
        self.assertIn("low changed since", self.at.run_dam("x", env=lacks)[2])

    def run_and_assert_unreadable(self, fault: str, *drop: str) -> None:
        """Runs the proved program, of whose sources one can't be read."""
        dam = [*drop, f"{self.at.top}/dam"]
        self.assertEqual(self.at.run(*dam, "x", cwd=self.at.top), (70, "", f"dam: {fault}\n"))
        line = f"crates/dam_cli/out/dam_cli may be older than its sources: {fault}: './dam prove' proves and builds the program"
        self.assertEqual(self.at.run(*dam, "--proved", "x", cwd=self.at.top), (70, "", f"dam: {line}\n"))

    def test_a_link_to_no_file_among_the_sources(self) -> None:
        """As an editor makes it. The kit refuses it too."""
        self.prove_program_and_assert()
        link = f"{self.at.top}/crates/low/src/.#lib.rt"
        os.symlink("user@host.1:2", link)
        fault = "crates/low/src/.#lib.rt is a link to no file, as an editor makes it beside a file with unsaved changes"
        self.run_and_assert_unreadable(fault)
        self.assertEqual(self.at.run_dam("prove"), (1, "", f"{fault}\n"))
        # with an edited source as well
        self.at.write("crates/low/src/lib.rt", "// edited\n")
        self.run_and_assert_unreadable(fault)
        os.remove(link)
        self.run_and_assert_stale("low")
        self.at.write("crates/low/src/lib.rt", "// low\n")
        self.assertEqual(self.at.run_dam("--proved", "x"), (0, "words: x\n", ""))

    def test_sources_that_cant_be_read(self) -> None:
        self.prove_program_and_assert()
        # root may read everything, so it becomes nobody
        drop = [] if os.geteuid() else ["setpriv", "--reuid=65534", "--regid=65534", "--clear-groups"]
        os.chmod(self.at.kept.name, 0o755)
        self.assertEqual(self.at.run(*drop, f"{self.at.top}/dam", "--proved", "x"), (0, "words: x\n", ""))
        for path, mode in (("crates/right/src/lib.rt", 0o644), ("crates/right/src", 0o755), ("crates.txt", 0o644)):
            os.chmod(f"{self.at.top}/{path}", 0)
            self.addCleanup(os.chmod, f"{self.at.top}/{path}", mode)
            if path != "crates.txt":
                self.run_and_assert_unreadable(f"{path} can't be read: Permission denied", *drop)
            status, out, error = self.at.run(*drop, f"{self.at.top}/dam", "--proved", "x")
            self.assertEqual((status, out), (70, ""))
            self.assertIn(f"may be older than its sources: {path} can't be read: Permission denied", error)
            os.chmod(f"{self.at.top}/{path}", mode)

    def test_sums_that_cant_be_taken(self) -> None:
        self.prove_program_and_assert()
        for text in ("import sys; sys.exit(1)", "import os; os.kill(os.getpid(), 9)", "import nothing", "("):
            self.at.write("tools/lib/crates/sources.py", text)
            status, out, error = self.at.run_dam("--proved", "x")
            self.assertEqual((status, out), (70, ""))
            line = "dam: the program may be older than its sources: they can't be read: './dam prove' proves and builds the program\n"
            self.assertTrue(error.endswith(line), error)

    def test_proved_runs_nothing_else(self) -> None:
        status, out, error = self.at.run_dam("--proved", "x", given="text")
        self.assertEqual((status, out), (70, ""))
        self.assertEqual(error, "dam: crates/dam_cli/out/dam_cli is missing: './dam prove' proves and builds the program\n")
        self.at.run_dam("x")
        self.assertEqual(self.at.run_dam("--proved", "x")[0], 70, "compiled without proofs")
        self.prove_program_and_assert()
        self.at.write("crates/dam_cli/out/dam_cli", f"{PROGRAM}# another")
        self.assertIn("another one took its place", self.at.run_dam("--proved", "x")[2])
        os.remove(f"{self.at.program}.json")
        self.assertIn("has no record", self.at.run_dam("--proved", "x")[2])
        status, out, error = self.at.run_dam("x", given="text")
        why = "crates/dam_cli/out/dam_cli has no record of the sources that it was built of"
        self.assertEqual((status, out, error), (0, "words: x\ntext", self.line_of_unproved(why)))

    def test_unproved_runs_no_proved_program(self) -> None:
        self.prove_program_and_assert()
        line = self.line_of_unproved("--unproved asks for this")
        ended = self.at.run_dam("--unproved", "x", "a  b", "", "--", "--unproved", given="text")
        self.assertEqual(ended, (0, "words: x a  b  -- --unproved\ntext", line))
        self.assertEqual(self.read_verbs().count("try"), 1)
        # a file that can't be run is none
        os.chmod(self.at.program, 0o644)
        self.assertEqual(self.at.run_dam("x"), (0, "words: x\n", self.line_of_unproved()))

    def test_without_python(self) -> None:
        lacks = self.at.make_environment_without("python3")
        for words in (["x"], ["--unproved", "x"], ["--proved", "x"], ["prove"]):
            status, out, error = self.at.run_dam(*words, env=lacks)
            self.assertEqual((status, out), (70, ""))
            self.assertIn("there is no python3 on the path", error)
        self.prove_program_and_assert()
        self.assertEqual(self.at.run_dam("x", given="text", env=lacks), (0, "words: x\ntext", ""))

    def test_through_links(self) -> None:
        os.makedirs(f"{self.at.top}/some where/deep\n")
        os.symlink(f"{self.at.top}/dam", f"{self.at.top}/some where/one")
        os.symlink("../one", f"{self.at.top}/some where/deep\n/two")
        for way in ([f"{self.at.top}/some where/deep\n/two"], ["sh", "some where/deep\n/two"], ["some where/one", "--unproved"]):
            status, out, _ = self.at.run(*way, "x", given="text", cwd=self.at.top)
            self.assertEqual((status, out), (0, "words: x\ntext"))
        self.assertEqual(len(self.list_kept()), 1)

    def test_from_a_folder_on_the_path_of_cd(self) -> None:
        """There `cd` prints the folder that it goes to."""
        above, name = os.path.split(self.at.top)
        environment = {**self.at.environment, "CDPATH": above}
        for before in (False, True):
            for cwd, way in ((above, f"{name}/dam"), (above, f"./{name}/dam"), (self.at.top, "./dam")):
                ran = self.at.run(way, "x", given="text", cwd=cwd, env=environment)
                self.assertEqual(ran, (0, "words: x\ntext", "" if before else self.line_of_unproved()), way)
            if not before:
                self.prove_program_and_assert()

    def test_version(self) -> None:
        self.assertEqual(self.at.run_dam("--version", env=self.at.make_environment_without("rt")), (0, "dam 1.2.3\n", ""))
        self.assertEqual(self.at.read_calls(), [])
        # with other words it is one of the program's
        for words in (["clear", "--version"], ["--version", "x"], ["--version", ""], ["--version", "--version"]):
            self.assertEqual(self.at.run_dam(*words)[:2], (0, f"words: {' '.join(words)}\n"))

    def test_signals(self) -> None:
        """While it compiles and while the program runs, to the whole group and to the launcher alone."""
        room = f"{self.at.top}/tmp"
        os.makedirs(room)
        how = {"env": {**self.at.environment, "TMPDIR": room}}
        for text, runs in ((f"{PROGRAM}# SECONDS 100", False), ("[ $1 = --help ] || { : > began; exec sleep 100; }", True)):
            self.at.write("crates/dam_cli/src/main.rt", f"#!/bin/sh\n{text}")
            for number, to_group in ((signal.SIGINT, True), (signal.SIGTERM, False), (signal.SIGHUP, False), (signal.SIGINT, False)):
                with self.at.start(f"{self.at.top}/dam", "x", cwd=self.at.top, **how) as process:
                    self.wait_for(lambda: os.path.exists(f"{self.at.top}/began") if runs else os.listdir(room))
                    time.sleep(0.2)
                    (os.killpg if to_group else os.kill)(process.pid, number)
                    process.communicate(timeout=60)
                self.assertEqual(process.returncode, 128 + number)
                self.assertEqual(os.listdir(room), [])
                self.assertEqual(len(self.list_kept()), int(runs))
                if runs:
                    os.remove(f"{self.at.top}/began")

    def start_with_ignored(self, ignored: str, *words: str) -> subprocess.Popen[str]:
        """Starts ./dam as nohup does: it ignores the signals with these names."""
        return self.at.start("sh", "-c", f"trap '' {ignored}; exec \"$0\" \"$@\"", f"{self.at.top}/dam", *words)

    def signal_and_assert_running(self, process: subprocess.Popen[str], *numbers: int) -> None:
        """Sends signals to a whole group, which goes on."""
        for number in numbers:
            os.killpg(process.pid, number)
        time.sleep(0.5)
        self.assertIsNone(process.poll(), "it runs")

    def test_ignored_signals(self) -> None:
        """While it compiles, while the program runs, and in a proof."""
        each = signal.SIGHUP, signal.SIGINT, signal.SIGTERM
        self.at.write("crates/dam_cli/src/main.rt", f"{PROGRAM}# SECONDS 2")
        self.at.write("crates/low/src/lib.rt", "SECONDS 2")
        with self.start_with_ignored("HUP INT TERM", "x") as process:
            self.wait_for(lambda: os.path.exists(f"{self.at.top}/out/unproved/lock"))
            self.signal_and_assert_running(process, *each)
            self.assertEqual(stdout_of(process).readline(), "words: x\n")
            self.signal_and_assert_running(process, *each)
            self.assertEqual(process.communicate("text", timeout=60), ("text", self.line_of_unproved()))
        self.assertEqual(process.returncode, 0)
        with self.start_with_ignored("HUP", "prove") as process:
            self.wait_for(lambda: self.at.read_moved_work("low"))
            self.signal_and_assert_running(process, signal.SIGHUP)
            process.terminate()
            self.assertIn("stopped; what was proved so far is kept\n", process.communicate(timeout=60)[1])
        self.assertEqual(process.returncode, 128 + signal.SIGTERM)
        self.assertEqual(self.at.read("crates/low/out/incremental/begun"), "begun\n")
        with self.start_with_ignored("HUP INT TERM", "prove") as process:
            self.wait_for(lambda: self.at.read_moved_work("low") == "begun\n" * 2)
            self.signal_and_assert_running(process, *each)
            self.assertNotIn("stopped", process.communicate(timeout=60)[1])
        self.assertEqual(process.returncode, 0)
        self.assertEqual(self.at.run_dam("--proved", "x"), (0, "words: x\n", ""))
