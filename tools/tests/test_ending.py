"""How a tool ends that fails itself, is interrupted, or can't write: one line on standard error, and a status that is no verdict."""

import ast
import contextlib
import errno
import functools
import io
import itertools
import json
import math
import os
import re
import resource
import shlex
import signal
import subprocess
import sys
import tempfile
import threading
import time
import unittest
from pathlib import Path
from unittest import mock

from support import AUCTION, AUCTION_RESULTS, TOOLS, TOP, journal_of, results_of, set_signal_handlers

from lib.audit import better
from lib.base import place
from lib.process import child_call, children, ending
from lib.process.progress import Progress
from lib.runs import by_program, errors
from lib.tool import exits, modules

GUARD = "from lib.process import ending; ending.guard_tool('audit')"
CODE_OF_CALL = f"{GUARD}; from lib.tool import exits; exits.run_and_exit('audit', lambda: CALL)"
IGNORING_SIGCHLD = "import os, signal, sys; signal.signal(signal.SIGCHLD, signal.SIG_IGN); os.execv(sys.argv[1], sys.argv[1:])"
SECONDS = 60
# A run of a tool that gets Ctrl-C as soon as it imports a module.
CODE_OF_INTERRUPTED_IMPORT = """
import builtins, os, signal, sys
sys.dont_write_bytecode, path, sought, real = True, sys.argv[1], sys.argv[2], builtins.__import__
def imported(name, *words, **more):
    if name == sought:
        builtins.__import__ = real
        os.kill(os.getpid(), signal.SIGINT)
    return real(name, *words, **more)
builtins.__import__, sys.argv = imported, [path, "--help"]
exec(compile(open(path).read(), path, "exec"), {"__name__": "__main__", "__file__": path})
"""
# A signal comes while an object goes away, some times.
CODE_OF_SIGNALS = """
import os, sys, time, weakref
from lib.process import ending
ending.guard_tool("audit")
from lib.tool import exits
class Object: pass
def going(_):
    os.kill(os.getpid(), int(sys.argv[1]))
    time.sleep(0.05)
def main():
    for _ in range(int(sys.argv[2])):
        a = Object()
        held = weakref.ref(a, going)
        del a
    time.sleep(60)
exits.run_and_exit("audit", main)
"""
# A run that begins what a signal has to end.
CODE_OF_AUDITS = """
import os, sys, time
from pathlib import Path
from lib.process import ending
ending.guard_tool("audit")
from lib.audit import day_pairs, days
from lib.process.progress import StepBar
from lib.pictures import matplotlib_settings
from lib.tool import exits
days.TOOL = Path(sys.argv[1])
pairs = [day_pairs.Pair(str(number), Path(sys.argv[1]), None) for number in range(8)]
def main():
    with matplotlib_settings.empty_settings():
        days.run_audits(pairs, [], 3, StepBar("audit", 8, "days"))
exits.run_and_exit("audit", main)
"""
# A run that has no memory for the rows of a sheet, and prints how many temporary files there are then.
CODE_WITHOUT_MEMORY = """
import os
from lib.process import ending
ending.guard_tool("table")
from lib.tables import table_files
from lib.tool import exits
def fail(_):
    print(len(os.listdir(os.environ["TMPDIR"])), flush=True)
    raise MemoryError
def main():
    table_files.import_openpyxl()
    from openpyxl.worksheet import _writer
    _writer.WorksheetWriter.write_rows = fail
    table_files.workbook_bytes_or_refuse({"periods": [["period"], [1]]})
exits.run_and_exit("table", main)
"""
SLEEPING_TOOL = "import os, sys, time; open(os.path.dirname(sys.argv[0]) + '/pids', 'a').write(f'{os.getpid()}\\n'); time.sleep(600)"
PACKAGES = {"audit": [], "lint": [], "plot": ["matplotlib"], "report": ["matplotlib", "jinja2"], "table": []}


def run_in_little_memory(words, megabytes, data=b""):
    """A run of a tool that may have no more memory than this."""
    most = int(megabytes * 2**20)

    def limit():
        resource.setrlimit(resource.RLIMIT_AS, (most, most))

    ran = subprocess.run([sys.executable, *map(str, words)], input=data, capture_output=True, preexec_fn=limit)
    return ran.returncode, ran.stdout, ran.stderr.decode()


def opened(pipe):
    """The pipe, opened for writing as soon as a tool has opened it for reading."""
    end = time.monotonic() + SECONDS
    while True:
        try:
            return os.open(pipe, os.O_WRONLY | os.O_NONBLOCK)
        except OSError as fault:
            if fault.errno != errno.ENXIO or time.monotonic() >= end:
                raise
            time.sleep(0.01)


def wait_until_asleep(process):
    """Returns once the process sleeps, because it waits for what isn't there yet. A signal that comes between two calls of the system is
    only seen after the second, so a tool that is about to read from a pipe would wait for its end."""
    end = time.monotonic() + SECONDS
    while "\nState:\tS" not in Path(f"/proc/{process.pid}/status").read_text():
        if time.monotonic() >= end:
            raise TimeoutError(f"process {process.pid} didn't wait for its journal")
        time.sleep(0.01)


class Failing(unittest.TestCase):
    """A failure gets one line, and a traceback only if it is asked for."""

    def run_failing(self, call, **environment):
        words = [sys.executable, "-B", "-c", CODE_OF_CALL.replace("CALL", call)]
        ran = subprocess.run(words, cwd=TOOLS, capture_output=True, text=True, env=environment)
        return ran.returncode, ran.stdout, ran.stderr

    def test_a_defect(self):
        said = "audit: a defect of this tool, please report it: KeyError: 'no' (DAM_DEBUG=1 shows where)\n"
        self.assertEqual(self.run_failing("{}['no']"), (exits.FAILED, "", said))
        status, out, err = self.run_failing("{}['no']", DAM_DEBUG="1")
        self.assertEqual((status, out), (exits.FAILED, ""))
        self.assertTrue(err.startswith("Traceback (most recent call last):\n") and err.endswith(said), err)
        self.assertIn("\\x1b[31m", self.run_failing("{}['\\x1b[31m']")[2])

    def test_a_defect_of_the_launcher(self):
        """It has statuses of its own: `tools/unproved` prints the status of the program."""
        said = "a defect of this tool, please report it: RuntimeError: no (DAM_DEBUG=1 shows where)\n"
        for name, status, prefix in (("prove", 1, "prove"), ("unproved", 70, "dam")):
            script = (TOOLS / name).read_text()
            begin = script[: script.rindex("\n\n\nif __name__")].replace("import _signal\n", f"import _signal\n\n__file__ = {str(TOOLS / name)!r}\n", 1)
            code = begin + "\nraise RuntimeError('no')\n"
            ran = subprocess.run([sys.executable, "-I", "-S", "-c", code], capture_output=True, text=True)
            self.assertEqual((ran.returncode, ran.stdout, ran.stderr), (status, "", f"{prefix}: {said}"))
            for folder in ("process/ending", "base/place", "process/surroundings"):
                ast.parse((TOOLS / "lib" / f"{folder}.py").read_text(), feature_version=(3, 8))

    def test_memory(self):
        said = (exits.FAILED, "", "audit: out of memory\n")
        for call in (
            "[0] * 10**15",
            "(_ for _ in ()).throw(OSError(12, 'Cannot allocate memory'))",
            "(_ for _ in ()).throw(ImportError('failed to map segment'))",
            "(_ for _ in ()).throw(RuntimeError('can\\'t start new thread'))",
            "(_ for _ in ()).throw(ValueError(\"field 'args' is required for FunctionDef\"))",
            "(_ for _ in ()).throw(SystemError('error return without exception set'))",
            "(_ for _ in ()).throw(SystemError('<built-in function a> returned NULL without setting an exception'))",
        ):
            self.assertEqual(self.run_failing(call), said)

    @unittest.skipUnless(modules.has_module("openpyxl"), "openpyxl is missing (Debian's python3-openpyxl)")
    def test_memory_for_a_sheet(self):
        """Its temporary file is removed, too."""
        with tempfile.TemporaryDirectory() as room:
            words = [sys.executable, "-B", "-c", CODE_WITHOUT_MEMORY]
            ran = subprocess.run(words, cwd=TOOLS, capture_output=True, text=True, env={**os.environ, "TMPDIR": room})
            self.assertEqual((ran.returncode, ran.stdout, ran.stderr), (exits.FAILED, "1\n", "table: out of memory\n"))
            self.assertEqual(os.listdir(room), [])

    def test_memory_before_a_tool_is_watched(self):
        """If it is enough for Python to read the script, the last line names it; each limit is near the least one that is enough."""
        for name, *words in (["lint", "-"], ["table", "-", "--rows", "commands"]):
            read = ["-I", "-S", "-c", f"compile(open({str(TOOLS / name)!r}).read(), 'a', 'exec')"]
            sizes = (size / 2 for size in range(12, 120))
            enough = next(size for size in sizes if not any(run_in_little_memory(read, size + more)[0] for more in (0, 0.5, 1)))
            for more in range(4, 12):
                status, out, err = run_in_little_memory(["-I", "-S", TOOLS / name, *words], enough + more / 4)
                self.assertEqual((status, out, err.splitlines()[-1:]), (exits.FAILED, b"", [f"{name}: out of memory"]))
                self.assertNotIn("Traceback", err)

    def test_a_small_stack(self):
        """Without it, the system would end Python in the midst of a picture, or at a text that is nested too deep."""
        for name in place.TOOLS:
            for kib, is_enough in ((64, False), (511, False), (512, True)):
                limit = functools.partial(resource.setrlimit, resource.RLIMIT_STACK, (kib << 10, kib << 10))
                words = [sys.executable, "-I", "-S", TOOLS / name, "--version"]
                ran = subprocess.run(words, capture_output=True, text=True, preexec_fn=limit)
                said = "" if is_enough else f"{name}: its stack may have {kib} KiB: raise the limit (ulimit -s)\n"
                self.assertEqual((ran.returncode, ran.stderr), (exits.FAILED * (not is_enough), said))

    def test_a_tool_without_its_parts(self):
        with tempfile.TemporaryDirectory() as folder:
            for name in place.TOOLS:
                path = Path(folder, name)
                path.write_bytes((TOOLS / name).read_bytes())
                ran = subprocess.run([sys.executable, "-I", "-S", path], capture_output=True, text=True)
                said = f"{name}: it can't start: [Errno 2] No such file or directory: '{folder}/lib/start.py'\n"
                self.assertEqual((ran.returncode, ran.stdout, ran.stderr), (exits.FAILED, "", said))
            Path(folder, "lib").mkdir()
            Path(folder, "lib", "start.py").write_bytes((TOOLS / "lib" / "start.py").read_bytes())
            for name in place.TOOLS:
                ran = subprocess.run([sys.executable, "-I", "-S", Path(folder, name)], capture_output=True, text=True)
                said = f"{name}: it can't start: No module named 'lib.process'\n"
                self.assertEqual((ran.returncode, ran.stdout, ran.stderr), (exits.FAILED, "", said))

    def test_right_results_are_never_called_wrong(self):
        """The search for a better selection needs far more memory than the rest."""
        if not modules.has_module("numpy"):
            self.skipTest("numpy is missing (Debian's python3-numpy)")
        data = journal_of(*[f"submit,A,K{number},block,sell,1,1:1,," for number in range(24)])
        text = data + b"results\n" + results_of(data, frozenset())
        found = set()
        for megabytes in (40, 60, 80, 120, 180, 270, 400):
            status, out, err = run_in_little_memory([TOOLS / "audit", "--best", "-"], megabytes, text)
            found.add(status)
            if status != exits.DONE:
                self.assertEqual((status, out, err), (exits.FAILED, b"", "audit: out of memory\n"), megabytes)
        self.assertIn(exits.FAILED, found)

    def test_a_journal_with_more_faults_than_memory(self):
        data = b"day,24,,,,,,,\n" + b"cancel,A,B,,,,,,\n" * 9_000
        for megabytes in (40, 1_000):
            status, out, err = run_in_little_memory([TOOLS / "lint", "-"], megabytes, data * 400 if megabytes == 40 else data)
            if megabytes == 40:
                self.assertEqual((status, out, err), (exits.FAILED, b"", "lint: out of memory\n"))
            else:
                self.assertEqual((status, out.count(b"\n"), err), (exits.FAULTY, 9_002, ""))

    def test_a_record_of_more_faults_than_memory(self):
        """The faults have room, and their record doesn't."""
        data = b"day,24,,,,,,,\n" + b"submit,a,b,c,d,e,f,g,h\n" * 9_000
        for megabytes in (40, 60, 80):
            status, out, err = run_in_little_memory([TOOLS / "lint", "--json", "-"], megabytes, data)
            made = json.loads(out)
            found = made["verdict"], made["status"], made["message"], made["faults"]
            self.assertEqual((status, err, found), (exits.FAILED, "lint: out of memory\n", ("failed", exits.FAILED, "out of memory", [])))

    def test_a_failed_import(self):
        run = "import sys; from lib.process import ending; ending.guard_tool('lint'); raise MemoryError"
        ran = subprocess.run([sys.executable, "-B", "-c", run], cwd=TOOLS, capture_output=True, text=True)
        self.assertEqual((ran.returncode, ran.stderr), (exits.FAILED, "lint: out of memory\n"))


class Start(unittest.TestCase):
    """The first lines of tools, which each has for itself: nothing that they share can be imported before."""

    INTERRUPT = re.compile(r'"""\n\n(?:from __future__ import annotations\n\n)?(import _signal\n(?:import posix\n)?\nif .*\n    _signal.signal.*\n)\n')
    START = re.compile(r'"""\n\n(import _signal\n(?:.*\n)*?    posix._exit\(5\)\n)')

    def test_tools_start_alike(self):
        """Each says why it can't start; those of the launcher start by themselves, with an older Python too."""
        names = {path.name for path in TOOLS.iterdir() if path.is_file() and "/lib/start.py" in path.read_text()}
        self.assertLessEqual({*place.TOOLS, "manual", "package", "reading-list"}, names)
        starts = {self.START.search((TOOLS / name).read_text())[1].replace(f"{name}: ", "TOOL: ") for name in names}
        self.assertEqual(len(starts), 1)

    def test_each_tool_can_be_interrupted_from_its_first_line(self):
        names = [path.name for path in TOOLS.iterdir() if path.is_file() and path.read_text().startswith("#!/usr/bin/env -S python3 ")]
        self.assertGreater(len(names), 12)
        found = {self.INTERRUPT.search((TOOLS / name).read_text())[1].replace("import posix\n", "") for name in names}
        self.assertEqual(len(found), 1)


class Interrupted(unittest.TestCase):
    """Ctrl-C ends a tool with a status of its own, without a traceback."""

    def setUp(self):
        set_signal_handlers(self)

    def run_interrupted(self, name, *words, number=signal.SIGINT):
        """The end of a tool that gets a signal while it waits for its journal."""
        with tempfile.TemporaryDirectory() as folder:
            pipe = Path(folder, "journal")
            os.mkfifo(pipe)
            running = subprocess.Popen([sys.executable, TOOLS / name, *words, pipe], stdout=subprocess.PIPE, stderr=subprocess.PIPE, cwd=folder)
            try:
                writing = opened(pipe)
                wait_until_asleep(running)
                running.send_signal(number)
                out, err = running.communicate(timeout=SECONDS)
                os.close(writing)
            finally:
                running.kill()
                running.communicate()
            return running.returncode, out, err.decode()

    def test_each_tool(self):
        for name, packages in PACKAGES.items():
            if all(map(modules.has_module, packages)):
                with self.subTest(name):
                    self.assertEqual(self.run_interrupted(name), (130, b"", f"{name}: interrupted\n"))

    def test_an_audit_without_a_record(self):
        """docs/FORMATS.md has the statuses with which it prints none."""
        page = " ".join(TOP.joinpath("docs", "FORMATS.md").read_text().split())
        end = r" or if its memory, stack or files run out at the start\."
        said = re.search(rf"`tools/audit --json` prints a JSON object, even without a verdict, except with statuses ([0-9, and]+),{end}", page)[1]
        ran = subprocess.run([sys.executable, TOOLS / "audit", "--json", ""], capture_output=True)
        found = [(ran.returncode, ran.stdout)]
        for number in (signal.SIGHUP, signal.SIGINT, signal.SIGTERM):
            self.addCleanup(signal.signal, number, signal.signal(number, signal.SIG_DFL))  # whatever this process ignores
            found.append(self.run_interrupted("audit", "--json", number=number)[:2])
        self.assertEqual(found, [(int(status), b"") for status in re.findall("[0-9]+", said)])
        self.assertIn("`tools/lint --json` prints one with the same exceptions:", page)
        found = [self.run_interrupted("lint", "--json", number=number)[:2] for number in (signal.SIGHUP, signal.SIGINT, signal.SIGTERM)]
        few = functools.partial(resource.setrlimit, resource.RLIMIT_NOFILE, (4, 4))
        for words, limit in ((["--json", ""], None), (["--json", AUCTION], few)):
            ran = subprocess.run([sys.executable, "-I", "-S", TOOLS / "lint", *words], capture_output=True, preexec_fn=limit)
            found.append((ran.returncode, ran.stdout))
        self.assertEqual([status for status, out in found if not out], [129, 130, 143, exits.COMMAND_LINE, exits.FAILED])

    def test_while_it_imports(self):
        """At its first module, then with one line: in the midst of an import that may take the exception for its own."""
        names = [path.name for path in sorted(TOOLS.iterdir()) if path.is_file() and path.read_bytes().startswith(b"#!")]
        self.assertEqual(len(names), 14)
        for name in names:
            with self.subTest(name):
                is_launchers = name in ("prove", "unproved")
                late = ("lib.crates",) if is_launchers else ("lib.tool", "argparse")
                for module in ("sys", "lib.process", *late):
                    words = [sys.executable, "-I", "-S", "-B", "-c", CODE_OF_INTERRUPTED_IMPORT, TOOLS / name, module]
                    ran = subprocess.run(words, capture_output=True, text=True, stdin=subprocess.DEVNULL)
                    said = f"{'dam' if name == 'unproved' else name}: interrupted\n"
                    right = (exits.INTERRUPTED, "", said) if module in late else (-signal.SIGINT, "", "")
                    self.assertEqual((ran.returncode, ran.stdout, ran.stderr), right, module)
                # Packages of the system may run code before the tool, unless Python is to leave them.
                self.assertEqual((TOOLS / name).read_text().partition("\n")[0], "#!/usr/bin/env -S python3 -I -S")

    def test_a_signal_while_an_object_goes_away(self):
        """Python ignores an exception of a call for it, and says so."""
        for number, said in ((signal.SIGTERM, "ended by SIGTERM"), (signal.SIGHUP, "ended by SIGHUP"), (signal.SIGINT, "interrupted")):
            self.addCleanup(signal.signal, number, signal.signal(number, signal.SIG_DFL))  # whatever this process ignores
            for times in (1, 3):
                words = [sys.executable, "-B", "-c", CODE_OF_SIGNALS, str(int(number)), str(times)]
                ran = subprocess.run(words, cwd=TOOLS, capture_output=True, text=True, timeout=SECONDS)
                self.assertEqual((ran.returncode, ran.stdout, ran.stderr), (128 + number, "", f"audit: {said}\n"), times)

    def test_an_ignored_interrupt_stays_ignored(self):
        code = "import os, signal, sys; signal.signal(signal.SIGINT, signal.SIG_IGN); os.execv(sys.executable, [sys.executable, *sys.argv[1:]])"
        for module in ("sys", "argparse"):
            words = [sys.executable, "-c", code, "-I", "-S", "-B", "-c", CODE_OF_INTERRUPTED_IMPORT, TOOLS / "lint", module]
            ran = subprocess.run(words, capture_output=True, text=True, stdin=subprocess.DEVNULL)
            self.assertEqual((ran.returncode, ran.stdout[:6], ran.stderr), (0, "usage:", ""), module)

    def test_each_signal_leaves_no_process_and_no_folder(self):
        if not modules.has_module("matplotlib"):
            self.skipTest("matplotlib is missing (Debian's python3-matplotlib)")
        for number, said in ((signal.SIGTERM, "ended by SIGTERM"), (signal.SIGHUP, "ended by SIGHUP"), (signal.SIGINT, "interrupted")):
            self.addCleanup(signal.signal, number, signal.signal(number, signal.SIG_DFL))  # whatever this process ignores
            with self.subTest(said), tempfile.TemporaryDirectory() as folder:
                tool, pids, room = Path(folder, "tool"), Path(folder, "pids"), Path(folder, "room")
                room.mkdir()
                tool.write_text(SLEEPING_TOOL)
                words = [sys.executable, "-B", "-c", CODE_OF_AUDITS, tool]
                running = subprocess.Popen(words, stderr=subprocess.PIPE, cwd=TOOLS, text=True, env={**os.environ, "TMPDIR": str(room)})
                self.assertEqual(self.children_of(running, pids, 3), 3)
                self.assertEqual(len(list(room.iterdir())), 1)
                running.send_signal(number)
                _, err = running.communicate(timeout=SECONDS)
                self.assertEqual((running.returncode, err), (128 + number, f"audit: {said}\n"))
                self.assertEqual(list(room.iterdir()), [])
                self.assertEqual([pid for pid in pids.read_text().split() if not self.wait_or_kill(pid)], [])

    def children_of(self, running, pids, count):
        """How many processes a run has started, of as many as it should."""
        self.addCleanup(lambda: (running.kill(), running.communicate()))
        end = time.monotonic() + SECONDS
        while time.monotonic() < end and running.poll() is None and (not pids.exists() or pids.read_text().count("\n") < count):
            time.sleep(0.02)
        return pids.read_text().count("\n") if pids.exists() else 0

    def wait_or_kill(self, pid):
        """Whether a process ends at once."""
        end = time.monotonic() + SECONDS
        while Path(f"/proc/{pid}/stat").exists() and Path(f"/proc/{pid}/stat").read_text().rpartition(")")[2].split()[0] != "Z":
            if time.monotonic() >= end:
                os.kill(int(pid), signal.SIGKILL)
                return False
            time.sleep(0.02)
        return True

    def test_a_program_that_is_just_starting_ends_too(self):
        """Its thread may be between the start and the note of it, and none begins another one."""
        running, begun = by_program.Running(), threading.Event()

        class Slow(subprocess.Popen):
            def __init__(self, *words, **more):
                begun.set()
                time.sleep(0.3)
                super().__init__(*words, **more)

        found = []

        def run():
            with running.running_process(["/bin/sleep", "600"]) as process:
                found.append(process)
                process.wait()

        with mock.patch.object(subprocess, "Popen", Slow):
            thread = threading.Thread(target=run, daemon=True)
            thread.start()
            begun.wait()
            running.kill_all()
        thread.join(SECONDS)
        self.assertEqual([process.returncode for process in found], [-signal.SIGKILL])
        with self.assertRaisesRegex(errors.Fault, "^/bin/sleep isn't run any more$"), running.running_process(["/bin/sleep", "600"]):
            pass

    def test_copies_of_a_tool_end_without_a_word(self):
        """As those of a pool, which ends them by SIGTERM."""
        copy = "made = multiprocessing.get_context('fork').Process(target=time.sleep, args=(600,))"
        ends = "made.start(), time.sleep(0.5), made.terminate(), made.join(), print(made.exitcode)"
        main = f"def main():\n    {copy}\n    {ends}\n"
        code = f"import multiprocessing, time\nfrom lib.tool import exits\n{main}exits.run_and_exit('report', main)\n"
        ran = subprocess.run([sys.executable, "-B", "-c", code], cwd=TOOLS, capture_output=True, text=True, timeout=SECONDS)
        self.assertEqual((ran.returncode, ran.stdout, ran.stderr), (0, f"{-signal.SIGTERM}\n", ""))

    def test_signals_after_one(self):
        """They don't stop its end, but a later one is heeded again."""
        for first, kind in ((signal.SIGTERM, ending.EndedBySignal), (signal.SIGINT, KeyboardInterrupt)):
            with mock.patch.object(ending.Guarded, "heeded", -math.inf), mock.patch.object(time, "monotonic") as clock:
                for now, is_heeded in ((100, True), (100, False), (104, False), (105, True)):
                    clock.return_value = now
                    if is_heeded:
                        self.assertRaises(kind, ending.raise_signal, first, None)
                    else:
                        self.assertIsNone(ending.raise_signal(signal.SIGHUP, None))
                        self.assertIsNone(ending.raise_signal(signal.SIGINT, None))

    def test_signals_at_once(self):
        """One of them decides, and no other is a defect of the tool. After a stop, any thread may get them."""
        said = {signal.SIGHUP: "ended by SIGHUP", signal.SIGINT: "interrupted", signal.SIGTERM: "ended by SIGTERM"}
        for number in said:
            self.addCleanup(signal.signal, number, signal.signal(number, signal.SIG_DFL))  # whatever this process ignores
        for sent in itertools.chain(itertools.combinations(said, 2), [said]):
            with self.subTest(sent), tempfile.TemporaryDirectory() as folder:
                tool, pids = Path(folder, "tool"), Path(folder, "pids")
                tool.write_text(SLEEPING_TOOL)
                running = subprocess.Popen([sys.executable, "-B", "-c", CODE_OF_AUDITS, tool], stderr=subprocess.PIPE, cwd=TOOLS, text=True)
                self.assertEqual(self.children_of(running, pids, 3), 3)
                for number in (signal.SIGSTOP, *sent, signal.SIGCONT):
                    running.send_signal(number)
                _, err = running.communicate(timeout=SECONDS)
                self.assertIn((running.returncode, err), [(128 + number, f"audit: {said[number]}\n") for number in sent])

    def test_a_call_of_a_library_ends_at_once(self):
        """Python wouldn't see a signal until its end."""
        for number in (signal.SIGTERM, signal.SIGHUP):
            before = signal.getsignal(number)
            self.addCleanup(signal.signal, number, before)
            signal.signal(number, ending.raise_signal)
            with ending.exiting_at_signals():
                self.assertEqual(signal.getsignal(number), signal.SIG_DFL)
            self.assertEqual(signal.getsignal(number), ending.raise_signal)
            signal.signal(number, signal.SIG_IGN)
            with ending.exiting_at_signals():
                self.assertEqual(signal.getsignal(number), signal.SIG_IGN)

    def test_signals_are_held(self):
        """Each ends the tool at the end of the steps that belong together, also if one of them fails, unless it is ignored."""
        for number, kind in ((signal.SIGINT, KeyboardInterrupt), (signal.SIGTERM, ending.EndedBySignal), (signal.SIGHUP, ending.EndedBySignal)):
            self.addCleanup(signal.signal, number, signal.getsignal(number))
            for fault in (None, OSError):
                signal.signal(number, ending.raise_signal)
                with self.subTest(number, fault=fault), mock.patch.object(ending.Guarded, "heeded", -math.inf):
                    done = []
                    with self.assertRaises(kind), ending.holding_signals():
                        for _ in range(3):
                            os.kill(os.getpid(), number)
                            done.append(number)
                        if fault:
                            raise fault
                    self.assertEqual((len(done), signal.getsignal(number)), (3, ending.raise_signal))
            signal.signal(number, signal.SIG_IGN)
            with ending.holding_signals():
                self.assertEqual(signal.getsignal(number), signal.SIG_IGN)

    def test_a_step_of_a_run(self):
        def main():
            raise KeyboardInterrupt

        said = io.StringIO()
        with self.assertRaises(SystemExit) as end, contextlib.redirect_stderr(said):
            exits.run_and_exit("audit", main)
        self.assertEqual((end.exception.code, said.getvalue()), (exits.INTERRUPTED, "audit: interrupted\n"))

    def test_a_call_that_keeps_python_from_everything(self):
        """As HiGHS does; its process ends with the tool."""
        call = "lambda tell: (tell(str(os.getpid())), ctypes.PyDLL(None).sleep(600))"
        shown = "type('', (), {'show_time_or_raise': lambda self, words: print(words, flush=True), 'stop_and_erase': lambda self: None})()"
        run = f"exits.run_and_exit('audit', lambda: child_call.run_in_child({call}, {shown}, ''))"
        main = f"import ctypes, os; from lib.process import child_call; from lib.tool import exits; {run}"
        words = [sys.executable, "-B", "-c", main]
        running = subprocess.Popen(words, stdout=subprocess.PIPE, stderr=subprocess.PIPE, cwd=TOOLS, text=True)
        try:
            while not (child := running.stdout.readline().strip()):
                pass
            running.send_signal(signal.SIGINT)
            _, err = running.communicate(timeout=SECONDS)
        finally:
            running.kill()
            running.communicate()
        self.assertEqual((running.returncode, err), (exits.INTERRUPTED, "audit: interrupted\n"))
        self.assertFalse(Path(f"/proc/{child}").exists())

    def test_a_call_that_aborts(self):
        """Code in C says why; the tool has one line of its own."""
        shown = "type('', (), {'show_time_or_raise': lambda self, words: None, 'stop_and_erase': lambda self: None})()"
        call = "lambda tell: (os.write(2, b'no memory: ABORT'), os.abort())"
        said = "audit: a defect of this tool, please report it: Died: the search ended without an answer: memory may have run out (DAM_DEBUG=1 shows where)\n"
        run = f"exits.run_and_exit('audit', lambda: child_call.run_in_child({call}, {shown}, ''))"
        main = f"import os; from lib.process import child_call; from lib.tool import exits; {run}"
        ran = subprocess.run([sys.executable, "-B", "-c", f"from lib.process import ending; ending.guard_tool('audit'); {main}"], capture_output=True, text=True, cwd=TOOLS)
        self.assertEqual((ran.returncode, ran.stderr), (exits.FAILED, said))

    def test_a_call_that_dies(self):
        with self.assertRaisesRegex(child_call.Died, "^the search ended without an answer: memory may have run out$"):
            child_call.run_in_child(lambda tell: os._exit(1), Progress("audit", SECONDS), "")
        for fault, status in ((child_call.Died("it ended"), exits.FAILED), (TimeoutError("it is late"), exits.UNDECIDED)):
            with mock.patch.object(better, "search_by_highs_in_child", side_effect=fault), self.assertRaises(exits.Stop) as stop:
                better.search_by_method_or_stop(None, None, better.HIGHS, None, 1)
            self.assertEqual((stop.exception.status, str(stop.exception)), (status, f"the results obey the other rules, but {fault}"))

    def test_what_a_call_returns_reports_and_raises(self):
        progress = Progress("audit", SECONDS)
        with mock.patch.object(progress, "show_time_or_raise") as look:
            self.assertEqual(child_call.run_in_child(lambda tell: tell("half") or 7, progress, ""), 7)
        look.assert_any_call("half")
        with self.assertRaises(ZeroDivisionError):
            child_call.run_in_child(lambda tell: 1 // 0, progress, "")
        with self.assertRaisesRegex(TimeoutError, "^after 0 seconds, it isn't done: --seconds gives more time$"):
            child_call.run_in_child(lambda tell: time.sleep(SECONDS), Progress("audit", 0), "it isn't done")


class Written(unittest.TestCase):
    """A failed write is a fault of its own in every tool, and no verdict."""

    def run_shell(self, words, redirection):
        line = f"exec {shlex.join(map(str, words))} {redirection}"
        ran = subprocess.run(["sh", "-c", line], capture_output=True, text=True, stdin=subprocess.DEVNULL)
        return ran.returncode, ran.stdout, ran.stderr.splitlines()[-1:]

    def test_each_tool(self):
        texts = [AUCTION, AUCTION_RESULTS]
        for name, packages in PACKAGES.items():
            if all(map(modules.has_module, packages)):
                words = [sys.executable, TOOLS / name, AUCTION, *texts[1:][: name != "lint"]]
                words += ["-o", "-"] if name in ("plot", "report") else []
                for given in (words, [sys.executable, TOOLS / name, "--help"]):
                    for redirection, fault in (">/dev/full", "No space left on device"), (">&-", "Bad file descriptor"):
                        with self.subTest(name, words=given[2:], to=redirection):
                            said = f"{name}: standard output can't be written: {fault}"
                            self.assertEqual(self.run_shell(given, redirection), (exits.NO_INPUT, "", [said]))

    def test_other_closed_streams(self):
        words = [sys.executable, TOOLS / "lint", "-"]
        said = "lint: standard input can't be read: Bad file descriptor"
        self.assertEqual(self.run_shell(words, "<&-"), (exits.NO_INPUT, "", [said]))
        for redirection in ("2>&-", "2>/dev/full"):
            for given in (["/nowhere/a.csv"], ["--none"]):
                status, out, _ = self.run_shell([sys.executable, TOOLS / "lint", *given], redirection)
                self.assertEqual((status in (exits.COMMAND_LINE, exits.NO_INPUT), out), (True, ""))
            words = [sys.executable, TOOLS / "table", AUCTION, AUCTION_RESULTS]
            status, out, _ = self.run_shell(words, redirection)
            self.assertEqual((status, len(out.splitlines())), (0, 25))
        self.assertEqual(self.run_shell([sys.executable, TOOLS / "lint", "--quiet", AUCTION], ">&-"), (exits.DIFFERS, "", []))


class Children(unittest.TestCase):
    """A tool sees how its processes end, also if the one that started it ignores that."""

    def test_days(self):
        with tempfile.TemporaryDirectory() as folder:
            Path(folder, "a.csv").write_bytes(AUCTION.read_bytes())
            Path(folder, "a.txt").write_bytes(AUCTION_RESULTS.read_bytes().replace(b"welfare,3", b"welfare,4"))
            ran = subprocess.run([sys.executable, "-c", IGNORING_SIGCHLD, TOOLS / "audit", "--days", folder], capture_output=True, text=True)
            self.assertEqual((ran.stdout.splitlines()[1].split()[:2], ran.returncode), (["a", "wrong"], exits.DIFFERS), ran.stderr)

    def test_runs_of_the_program(self):
        """A process that isn't a tool's can't see it, and so doesn't begin a run."""
        self.addCleanup(signal.signal, signal.SIGCHLD, signal.signal(signal.SIGCHLD, signal.SIG_IGN))
        with self.assertRaisesRegex(errors.Fault, "^/bin/false can't be run: this process ignores SIGCHLD"):
            by_program.run_program_and_relay_lines(["/bin/false"], b"")
        children.stop_ignoring_children()
        self.assertEqual(by_program.run_program_and_relay_lines(["/bin/false"], b"")[0], 1)


class WithoutPython(unittest.TestCase):
    """The statuses of a tool that doesn't start are those that docs/FORMATS.md says."""

    def test_python_does_not_start(self):
        page = TOP.joinpath("docs", "FORMATS.md").read_text()
        said = re.search(r"If Python doesn't start,\s+the\s+status may also be ([0-9, ]+), a signal's or ([0-9]+)\.", page)
        statuses = {*map(int, said[1].split(", ")), int(said[2])}
        words = f"{shlex.quote(str(TOOLS / 'audit'))} --json {AUCTION} {AUCTION_RESULTS}"
        with tempfile.TemporaryDirectory() as folder:
            Path(folder, "python3").mkdir()
            Path(folder, "other").mkdir()
            Path(folder, "other", "python3").write_text("no program")
            for line in ("PATH=/nowhere", f"PATH={folder}", f"PATH={folder}/other", "ulimit -v 10240;", "ulimit -n 3;"):
                ran = subprocess.run(["sh", "-c", f"{line} {words}"], capture_output=True, text=True)
                self.assertIn(ran.returncode, statuses, (line, ran.stderr))
                self.assertEqual(ran.stdout, "")


if __name__ == "__main__":
    unittest.main()
