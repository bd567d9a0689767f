"""tools/prove proves the crates in copies, as many at once as it is told."""

import os
import shutil
import signal
import subprocess
import sys
import time

from launcher.repository import FORKING, IGNORING_SIGCHLD, LIBRARIES, PROGRAM, RepositoryCase, TerminalRun
from shared.place import TOP

# Prints `read_possible_jobs` of tools/prove with a number of processors and with files, each given by its path and its text.
JOBS = """import builtins, io, os, sys
sys.path.insert(0, sys.argv[1])
from lib.proving import plan
files = dict(zip(sys.argv[3::2], sys.argv[4::2]))

def open_given_file(path, **_):
    if path not in files:
        raise FileNotFoundError(path)
    return io.StringIO(files[path])

os.sched_getaffinity = lambda _: range(int(sys.argv[2]))
builtins.open = open_given_file
print(plan.read_possible_jobs())
"""


class ProveTests(RepositoryCase):
    def test_order_and_copies(self) -> None:
        for name in ("left", "right"):
            self.at.write(f"crates/{name}/src/lib.rt", f"SECONDS 0.6 {name}")
        status, out, error = self.at.run_prove("--jobs", "2", "dam_cli")
        self.assertEqual((status, out), (0, ""))
        said = {name: (verb, words, float(began), float(ended)) for verb, name, words, began, ended, _, _ in self.at.read_calls()}
        for name, below in LIBRARIES.items():
            for it in below.split():
                self.assertLess(said[it][3], said[name][2], f"{it} before {name}")
        self.assertLess(max(said["left"][2], said["right"][2]), min(said["left"][3], said["right"][3]), "side by side")
        self.assertEqual(said["left"][:2], ("lib", "--jobs 1"))
        self.assertEqual(said["dam_cli"][:2], ("run", "--jobs 2 -- greets"))
        self.assertRegex(error, r"(?m)^proving left \(1 job\)\n")
        self.assertRegex(error, r"(?m)^proved dam_cli in \d+ s \(\d+ s of a processor\)\n\Z")
        self.assertTrue(self.at.has_no_copy())
        for name in ("low", "left", "right", "high"):
            self.assertEqual(self.at.read(f"crates/{name}/out/rlib/{name}.rlib/checked"), name)

    def test_proofs_end_if_sigchld_is_ignored(self) -> None:
        words = sys.executable, "-c", IGNORING_SIGCHLD, f"{self.at.top}/tools/prove", "dam_cli"
        self.assertEqual(self.at.run(*words)[0], 0)
        self.at.write("crates/dam_cli/src/main.rt", f"{PROGRAM}# REFUSED")
        self.assertEqual(self.at.run(*words)[0], 1)

    def test_kept_work(self) -> None:
        self.at.run_prove("dam_cli")
        self.at.run_prove("dam_cli")
        self.assertEqual(self.at.read("crates/low/out/incremental/begun"), "begun\n" * 2)

    def test_other_programs(self) -> None:
        self.assertEqual(self.at.run_prove("other")[0], 0)
        self.assertTrue(os.access(f"{self.at.top}/crates/other/out/other", os.X_OK))
        for wrong in (("low",), ("nothing",), ("--jobs", "0", "dam_cli"), ()):
            status, out, error = self.at.run_prove(*wrong)
            self.assertEqual((status, out), (2, ""))
        lacks = self.at.make_environment_without("rt")
        self.assertEqual(self.at.run_prove("dam_cli", env=lacks), (1, "", "there is no rt on the path\n"))

    def test_two_programs(self) -> None:
        """They are proved side by side; each library is proved once, and each program is recorded."""
        for name in ("dam_cli", "dam_desk"):
            self.at.write(f"crates/{name}/src/main.rt", f"{PROGRAM}# SECONDS 1.5")
        self.assertEqual(self.at.run_prove("--jobs", "4", "dam_cli", "dam_desk", "dam_cli")[:2], (0, ""))
        said = self.at.read_calls()
        self.assertEqual(sorted(name for _, name, *_ in said), ["dam_cli", "dam_desk", "high", "left", "low", "right"])
        begins, ends = ({it[1]: float(it[at]) for it in said} for at in (3, 4))
        self.assertLess(max(begins["dam_cli"], begins["dam_desk"]), min(ends["dam_cli"], ends["dam_desk"]), "side by side")
        for name in ("dam_cli", "dam_desk"):
            self.assertIsNone(self.capture_stale_words_or_none(name))
        self.assertTrue(self.at.has_no_copy())
        for wrong in (["dam_cli", "low"], ["low", "dam_cli"]):
            self.assertEqual(self.at.run_prove(*wrong)[:2], (2, ""))

    def test_one_of_two_programs_fails(self) -> None:
        for refused, other in (("dam_cli", "dam_desk"), ("dam_desk", "dam_cli")):
            self.at.write(f"crates/{refused}/src/main.rt", f"{PROGRAM}# REFUSED")
            status, _, error = self.at.run_prove("dam_cli", "dam_desk")
            self.assertEqual(status, 1)
            self.assertIn(f"{refused} is not proved", error)
            self.assertEqual(self.capture_stale_words_or_none(refused), f"crates/{refused}/out/{refused} is missing")
            self.at.write(f"crates/{refused}/src/main.rt", PROGRAM)
            self.assertEqual(self.at.run_prove("dam_cli", "dam_desk")[0], 0)
            self.assertIsNone(self.capture_stale_words_or_none(refused))
            shutil.rmtree(f"{self.at.top}/crates/{other}/out")

    def test_the_files_of_a_programs_run(self) -> None:
        """The files of data/ are in the folder of the run, and none of them gets into the crate's. Its input is the file stdin."""
        self.at.write("crates/dam_desk/data/of/it", "the data")
        self.at.write("crates/dam_desk/src/main.rt", '#!/bin/sh\n[ "$(cat of/it) $(cat)" = "the data for the first run" ] && : > of/made && : > made')
        self.assertEqual(self.at.run_prove("dam_desk")[0], 0)
        self.assertEqual(sorted(os.listdir(f"{self.at.top}/crates/dam_desk")), ["args", "data", "out", "src", "stdin"])
        self.assertEqual(os.listdir(f"{self.at.top}/crates/dam_desk/data/of"), ["it"])
        self.at.write("crates/dam_desk/data/of/it", "other data")
        self.assertEqual(self.at.run_prove("dam_desk")[0], 1)

    def test_a_program_runs_while_it_is_proved(self) -> None:
        self.at.run_prove("dam_cli")
        self.at.write("crates/dam_cli/out/more", "kept")
        self.at.write("crates/dam_cli/src/main.rt", f"{PROGRAM}# SECONDS 1.5")
        with self.at.start(f"{self.at.top}/tools/prove", "dam_cli") as process:
            self.wait_for(lambda: self.at.read_moved_work("dam_cli") == "begun\n" * 2)
            self.assertEqual(self.at.run(self.at.program, "x", given="text"), (0, "words: x\ntext", ""))
            process.communicate(timeout=60)
        self.assertEqual(process.returncode, 0)
        self.assertIn("SECONDS 1.5", self.at.read("crates/dam_cli/out/dam_cli"))
        self.assertIsNone(self.capture_stale_words_or_none())
        self.assertEqual(self.at.read("crates/dam_cli/out/incremental/begun"), "begun\n" * 2)
        self.assertEqual(self.at.read("crates/dam_cli/out/more"), "kept")
        self.assertTrue(self.at.has_no_copy())

    def test_a_crate_fails(self) -> None:
        self.at.write("crates/left/src/lib.rt", "REFUSED")
        self.at.write("crates/right/src/lib.rt", "SECONDS 100")
        self.at.write("crates/right/out/incremental/begun", "before\n")
        began = time.time()
        status, _, error = self.at.run_prove("--jobs", "2", "dam_cli")
        self.assertEqual(status, 1)
        self.assertLess(time.time() - began, 60)
        self.assertIn("crate left: not proved", error)
        self.assertIn("left is not proved: rt ended with status 1\n", error)
        self.assertEqual(self.at.read("crates/right/out/incremental/begun"), "before\nbegun\n")
        self.assertEqual(self.at.read("crates/left/out/incremental/begun"), "begun\n")
        self.assertFalse([it for it in self.at.read_calls() if it[1] in ("high", "dam_cli")])
        self.assertTrue(self.at.has_no_copy())

    def test_the_program_fails(self) -> None:
        self.at.write("crates/dam_cli/src/main.rt", f"{PROGRAM}# REFUSED")
        status, _, error = self.at.run_prove("dam_cli")
        self.assertEqual(status, 1)
        self.assertIn("dam_cli is not proved", error)
        self.assertFalse(os.path.exists(self.at.program))

    def test_a_killed_rt(self) -> None:
        """It ends without a status of its own, and the earlier program stays, with its record."""
        self.at.run_prove("dam_cli")
        name = "crates/dam_cli/out/dam_cli"
        record = self.at.read(f"{name}.json")
        for killed, source in (("low", "src/lib.rt"), ("high", "src/lib.rt"), ("dam_cli", "src/main.rt")):
            before, called = self.at.read(f"crates/{killed}/{source}"), len(self.at.read_calls())
            self.at.write(f"crates/{killed}/{source}", f"{before}# KILLED")
            status, out, error = self.at.run_prove("--jobs", "1", "dam_cli")
            self.assertEqual((status, out), (1, ""))
            self.assertTrue(error.endswith(f"{killed} is not proved: rt ended with status {-signal.SIGKILL}\n"), error)
            above = {"low": "left right high dam_cli", "high": "dam_cli", "dam_cli": ""}[killed].split()
            self.assertFalse([it for it in self.at.read_calls()[called:] if it[1] in above], "above it nothing is proved")
            self.assertEqual((self.at.read(name), self.at.read(f"{name}.json")), (PROGRAM, record))
            self.assertEqual(self.capture_stale_words_or_none(), f"{name} was built of other sources: {killed} changed since")
            self.assertTrue(self.at.has_no_copy())
            self.at.write(f"crates/{killed}/{source}", before)

    def test_an_edit_meanwhile(self) -> None:
        self.at.write("crates/low/src/lib.rt", "SECONDS 1")
        with self.at.start(f"{self.at.top}/tools/prove", "dam_cli") as process:
            self.wait_for(lambda: os.path.isdir(f"{self.at.top}/crates/dam_cli/out/beside/low/crates/low/out"))
            self.at.write("crates/high/src/lib.rt", "edited")
            process.communicate(timeout=60)
        self.assertEqual(process.returncode, 0)
        sources = {name: source for _, name, _, _, _, _, source in self.at.read_calls()}
        self.assertEqual(sources["high"], "// high")
        self.assertLess(os.path.getmtime(self.at.program), os.path.getmtime(f"{self.at.top}/crates/high/src/lib.rt"))
        self.assertFalse(os.path.exists(f"{self.at.program}.json"))

    def capture_stale_words_or_none(self, name: str = "dam_cli") -> str | None:
        """Returns the answer of tools/lib/crates/sources.py about a program."""
        path = f"{self.at.top}/crates/{name}/out/{name}"
        asked = f"from lib.crates import sources; print(sources.read_stale_text({path!r}, {name!r}) or '')"
        with FORKING:
            command, folder = [sys.executable, "-Bc", asked], f"{self.at.top}/tools"
            process = subprocess.Popen(command, cwd=folder, stdout=subprocess.PIPE, text=True)
        return process.communicate()[0].rstrip("\n") or None

    def test_the_record_of_the_sources(self) -> None:
        name = "crates/dam_cli/out/dam_cli"
        self.assertEqual(self.capture_stale_words_or_none(), f"{name} is missing")
        self.at.run_prove("dam_cli")
        self.assertIsNone(self.capture_stale_words_or_none())
        self.assertIn('"kit": "no kit logic none"', self.at.read(f"{name}.json"))
        self.at.write("crates/far/src/lib.rt", "of another program")
        self.assertIsNone(self.capture_stale_words_or_none())
        self.at.write("crates/low/src/more.rt", "")
        self.at.write("crates/high/proofs/one", "")
        self.assertEqual(self.capture_stale_words_or_none(), f"{name} was built of other sources: high, low changed since")
        self.at.run_prove("dam_cli")
        self.assertIsNone(self.capture_stale_words_or_none())
        self.at.write(name, "another")
        self.assertEqual(self.capture_stale_words_or_none(), f"{name} is not the file that was built: another one took its place")
        os.remove(f"{self.at.program}.json")
        self.assertEqual(self.capture_stale_words_or_none(), f"{name} has no record of the sources that it was built of")

    def test_stopped_while_it_waits(self) -> None:
        self.at.write("crates/low/src/lib.rt", "SECONDS 3")
        with self.at.start(f"{self.at.top}/tools/prove", "dam_cli") as first:
            self.wait_for(lambda: "begun" in self.at.read_moved_work("low"))
            for number in (signal.SIGTERM, signal.SIGINT, signal.SIGHUP):
                with self.at.start(f"{self.at.top}/tools/prove", "dam_cli") as second:
                    assert second.stderr
                    self.assertIn("waiting for another run of rt to end", second.stderr.readline())
                    second.send_signal(number)
                    second.communicate(timeout=30)
                self.assertEqual(second.returncode, 128 + number)
                self.assertIn("begun", self.at.read_moved_work("low"))
            first.communicate(timeout=30)
        self.assertEqual(first.returncode, 0)
        self.assertTrue(self.at.has_no_copy())

    def test_killed(self) -> None:
        self.at.write("crates/low/src/lib.rt", "LOCKED SECONDS 1.5")
        self.at.write("crates/low/out/incremental/begun", "before\n")
        with self.at.start(f"{self.at.top}/tools/prove", "dam_cli") as process:
            self.wait_for(lambda: os.path.isdir(f"{self.at.top}/crates/dam_cli/out/beside/low/crates/low/out/locked"))
            process.kill()
            for pipe in (process.stdin, process.stdout, process.stderr):
                assert pipe
                pipe.close()
            process.wait(30)
        self.at.write("crates/low/src/lib.rt", "")
        status, _, error = self.at.run_prove("dam_cli")
        self.assertEqual(status, 0)
        self.assertIn("waiting for another run of rt to end", error)
        self.assertEqual(self.at.read("crates/low/out/incremental/begun"), "before\nbegun\nbegun\n")

    def test_plan(self) -> None:
        status, out, error = self.at.run(f"{TOP}/tools/prove", "--plan", "--jobs", "4", "dam_cli")
        self.assertEqual((status, error), (0, ""))
        names = [line.partition(":")[0] for line in out.splitlines()[:-1]]
        self.assertEqual(len(names), len({*names}))
        self.assertEqual(names[-1], "dam_cli")
        self.assertIn(" minutes, ", out.splitlines()[-1])

    def test_the_number_of_jobs(self) -> None:
        """It is limited by the processors and by the free memory, of the machine and of the control group."""
        meminfo = lambda free: {"/proc/meminfo": f"MemTotal:       65536000 kB\nMemFree:        1024 kB\nMemAvailable:   {free} kB\n"}
        group = lambda name, text: {f"/sys/fs/cgroup/{name}": f"{text}\n"}
        # 2.5 GB are 2,441,406.25 KiB
        many, three, two, one = (meminfo(free) for free in (50_000_000, 7_324_219, 7_324_218, 2_441_407))
        held = group("memory.current", 1_000_000_000)
        rows: list[tuple[int, dict[str, str], int]] = [
            (8, {}, 8),
            (8, many, 8),
            (2, many, 2),
            (8, three, 3),
            (8, two, 2),
            (8, one, 1),
            (8, meminfo(100_000), 1),
            (8, many | group("cpu.max", "350000 100000"), 3),
            (8, many | group("cpu.max", "50000 100000"), 1),
            (8, many | group("cpu.max", "max 100000"), 8),
            (8, many | group("memory.max", 11_000_000_000) | held, 4),
            (8, many | group("memory.max", 10_999_999_999) | held, 3),
            (8, two | group("memory.max", 11_000_000_000) | held, 2),
            (8, many | group("memory.max", 900_000_000) | held, 1),
            (8, many | group("memory.max", "max") | held, 8),
        ]
        for processors, files, jobs in rows:
            words = [word for it in files.items() for word in it]
            ran = self.at.run(sys.executable, "-c", JOBS, f"{self.at.top}/tools", f"{processors}", *words)
            self.assertEqual(ran, (0, f"{jobs}\n", ""), (processors, files))

    def test_the_bar_of_a_proof(self) -> None:
        self.at.write("crates/left/src/lib.rt", "SECONDS 2")
        terminal = TerminalRun(self.at, f"{self.at.top}/dam", "prove")
        self.assertEqual(terminal.close_and_return_status_and_output(), (0, ""))
        self.assertRegex(terminal.shown, r"\r\x1b\[Kdam: proving \[#*\.*\] \d+% \d s, (some \d+ min|less than a minute) left: left")
        self.assertRegex(terminal.shown, r"\r\x1b\[Kproved low in \d+ s")
        self.assertRegex(terminal.shown, r"left: dam_cli")
        self.assertNotIn("proving low (", terminal.shown)
