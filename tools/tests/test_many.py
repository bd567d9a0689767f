"""Many journals at once: the order of their results, their faults, executors, and the work that ends with its caller."""

import concurrent.futures
import itertools
import contextlib
import io
import math
import os
import re
import shutil
import signal
import subprocess
import sys
import time
import tracemalloc
import unittest
import unittest.mock
from pathlib import Path

import support
from support import AUCTION, FIRST, QUARTERS, journal_of, make_folder_for_case, read_results

import dam_tools
from dam_tools.lib.runs import by_library, by_program, engine, which
from lib.tool import modules

FAKE = Path(__file__).with_name("fake_dam.py")
SECONDS = 30
OPEN = b"day,24,,,,,,,\n"
EMPTY = "printf 'day,24\\nwelfare,0\\n'"  # the beginning of results, by a shell
# A stand-in for the library: it answers with the text itself, or with status 1 if that is empty.
ECHO = """
#include <stdint.h>
#include <string.h>
#include <unistd.h>
struct answer { uint8_t status; size_t length; };
struct answer dam_clear_seeded(const uint8_t *secret, size_t secret_length, const uint8_t *text, size_t length, uint32_t nodes,
                               uint8_t *buffer, size_t room) {
    struct answer found = {length == 0 || secret_length != 16 || nodes != MOST_NODES, length};
    if (found.status) found.length = 14;
    memcpy(buffer, found.status ? "input: NotDay\\n" : (const char *)text, found.length < room ? found.length : room);
    return found;
}
""".replace("MOST_NODES", str(by_library.MOST_NODES))


def ends(process):
    """Whether a process ends in time; one that has ended and isn't waited for counts."""
    until = time.monotonic() + SECONDS
    while time.monotonic() < until:
        try:
            if Path(f"/proc/{process}/stat").read_text().rpartition(")")[2].split()[0] == "Z":
                return True
        except OSError:
            return True
        time.sleep(0.02)
    return False


class Many(unittest.TestCase):
    def setUp(self):
        self.folder = make_folder_for_case(self)
        self.program = self.write_script("dam", f'PYTHONPATH="{FAKE.parent}" exec "{sys.executable}" "{FAKE}" "$@"')

    def write_script(self, name, line):
        path = Path(self.folder, name)
        path.write_text(f"#!/bin/sh\n{line}\n")
        path.chmod(0o755)
        return path

    def test_results_come_in_order_and_a_fault_ends_nothing(self):
        given = [AUCTION, OPEN, dam_tools.read_journal(FIRST), "/nowhere/a.csv", QUARTERS.read_bytes(), b"x\n"]
        found = list(dam_tools.clear_many(given, program=self.program))
        self.assertEqual([isinstance(day, dam_tools.Fault) for day in found], [False, True, False, True, False, True])
        self.assertEqual([found[0].text, found[4].text], [read_results(AUCTION), read_results(QUARTERS)])
        self.assertEqual([day.problem.periods for day in found[::2]], [24, 24, 96])
        self.assertEqual([day.wrong for day in found[::2]], [[], [], []])
        self.assertEqual(dam_tools.records(found[0], "orders"), dam_tools.records(dam_tools.clear(AUCTION, self.program), "orders"))
        said = ["input: StillOpen", "/nowhere/a.csv is missing", "input: NotDay"]
        self.assertEqual([str(fault) for fault in found[1::2]], said)
        self.assertEqual([fault.status for fault in found[1::2]], [1, None, 1])
        with self.assertRaises(AttributeError):
            found[0].nothing

    def test_a_slow_journal_keeps_its_place(self):
        slow = self.write_script("slow", f"read line; sleep $line; {EMPTY}; echo $line")
        given = [f"{seconds}\n".encode() for seconds in ("0.3", "0.01", "0.02", "0.15", "0")]
        wanted = [b"day,24\nwelfare,0\n" + text for text in given]
        self.assertEqual([day.text for day in dam_tools.clear_many(given, 3, program=slow)], wanted)

    def test_a_path_without_a_file_ends_nothing(self):
        """Nor does a file without an end, or one that is larger than the memory."""
        pipe, large = (Path(self.folder, name) for name in ("pipe", "large"))
        os.mkfifo(pipe)
        large.touch()
        os.truncate(large, 8 << 30)
        bad = ["", "a\0b.csv", "\ud800.csv", self.folder, large, pipe, "/dev/zero"]
        given = [source for one in bad for source in (one, AUCTION)]
        found = list(dam_tools.clear_many(given, program=self.program))
        self.assertEqual([day.text for day in found[1::2]], [read_results(AUCTION)] * len(bad))
        name = "can't be read: its name has a NUL, or a character that this locale lacks"
        said = ["a file with an empty name can't be read", f"a\\x00b.csv {name}", f"\\ud800.csv {name}"]
        said += [f"{self.folder} can't be read: Is a directory", f"{large} has more than 67,108,864 bytes"]
        said += [f"{path} is a device or a pipe, and should be a file" for path in (pipe, "/dev/zero")]
        self.assertEqual([str(fault) for fault in found[::2]], said)
        for one in bad[1:5]:
            with self.assertRaises(dam_tools.Fault):
                dam_tools.read_journal(one)

    def test_journals_are_taken_as_they_are_needed(self):
        taken = []

        def journals():
            for number in itertools.count():
                taken.append(number)
                yield f"day,24\nwelfare,{number}\n".encode()

        days = dam_tools.clear_many(journals(), 2, program=self.write_script("echo", "cat"))
        self.assertEqual([next(days).text for _ in range(5)], [b"day,24\nwelfare,%d\n" % number for number in range(5)])
        self.assertLess(len(taken), 12)
        days.close()

    def test_what_runs_ends_with_the_iterator(self):
        hang = self.write_script("hang", f'echo $$ >> {self.folder}/pids; read line; [ "$line" = day ] || exec sleep 600')
        days = dam_tools.clear_many([b"day\n", b"x\n", b"x\n", b"x\n", b"x\n"], 3, program=hang)
        next(days)
        while len(Path(self.folder, "pids").read_text().split()) < 3:
            time.sleep(0.02)
        days.close()
        self.assertTrue(all(map(ends, Path(self.folder, "pids").read_text().split())))

    def run_interrupted(self, code, environment, begun):
        """The lines of a program that is interrupted once something has begun."""
        support.set_signal_handlers(self)
        environment = {**os.environ, "PYTHONPATH": str(support.TOOLS), **environment}
        running = subprocess.Popen([sys.executable, "-B", "-c", code], env=environment, stderr=subprocess.PIPE, start_new_session=True)
        try:
            while not begun():
                time.sleep(0.02)
            running.send_signal(signal.SIGINT)
            _, said = running.communicate(timeout=SECONDS)
        finally:
            running.kill()
            running.communicate()
        return said

    def test_an_interrupt_ends_what_runs(self):
        hang = self.write_script("hang", f"echo $$ >> {self.folder}/pids; exec sleep 600")
        code = f"import dam_tools\nlist(dam_tools.clear_many([b'x'] * 9, 2, program={str(hang)!r}))"
        pids = Path(self.folder, "pids")
        said = self.run_interrupted(code, {}, lambda: pids.exists() and len(pids.read_text().split()) >= 2)
        self.assertIn(b"KeyboardInterrupt", said)
        self.assertTrue(all(map(ends, pids.read_text().split())))

    def test_an_interrupt_does_not_wait_for_the_library(self):
        begun = Path(self.folder, "begun")
        slow = ECHO.replace("    struct answer found", f'    fclose(fopen("{begun}", "w"));\n    sleep(600);\n    struct answer found')
        path = self.compile_library(f"#include <stdio.h>\n#include <unistd.h>\n{slow}")
        code = "import dam_tools\nlist(dam_tools.clear_many([b'x'] * 9, 2))"
        said = self.run_interrupted(code, {"DAM_LIBRARY": path}, begun.exists)
        self.assertIn(b"KeyboardInterrupt", said)

    def compile_library(self, source):
        """A stand-in for the library."""
        if not shutil.which("gcc"):
            self.skipTest("gcc is missing")
        path = os.fspath(Path(self.folder, "libdam.so"))
        subprocess.run(["gcc", "-shared", "-fPIC", "-x", "c", "-", "-o", path], input=source, text=True, check=True)
        return path

    def test_bad_calls(self):
        with self.assertRaisesRegex(ValueError, "jobs should be 1 or more"):
            list(dam_tools.clear_many([AUCTION], 0, program="/nowhere/dam"))
        (fault,) = dam_tools.clear_many([AUCTION], program="/nowhere/dam")
        self.assertEqual((str(fault), fault.status), ("/nowhere/dam can't be run: No such file or directory", None))
        self.assertEqual(list(dam_tools.clear_many([], program="/nowhere/dam")), [])
        for one in ("day.csv", Path("day.csv"), b"day,24,,,,,,,\n", dam_tools.read_journal(AUCTION)):
            with self.assertRaisesRegex(TypeError, "^journals should be several"):
                dam_tools.clear_many(one)
        for nodes in (0, by_library.MOST_NODES + 1):
            with self.assertRaisesRegex(ValueError, f"^nodes should be from 1 to {by_library.MOST_NODES}$"):
                dam_tools.clear_many([AUCTION], nodes=nodes)
        with self.assertRaisesRegex(dam_tools.Fault, "^a file with an empty name can't be read$"):
            dam_tools.clear("")

    def test_neither_library_nor_program(self):
        with unittest.mock.patch.multiple(which, find_engine=lambda: None, find_program=lambda: None):
            with unittest.mock.patch.object(dam_tools, "where", which.find_engine), unittest.mock.patch.dict(os.environ, {"DAM": ""}):
                with self.assertRaisesRegex(dam_tools.Fault, "^no program was found: "):
                    dam_tools.clear_many([AUCTION, AUCTION])

    def test_a_program_that_prints_no_results(self):
        for line in (":", "cat", "echo day,24"):
            other = self.write_script("other", line)
            (fault,) = dam_tools.clear_many([AUCTION], program=other)
            self.assertIsInstance(fault, dam_tools.Fault)
            self.assertEqual((str(fault), fault.status), (f"{other} printed no results of this journal", None))

    def test_a_program_that_says_that_it_is_not_proved(self):
        launcher = self.write_script("launcher", f'echo "dam: this run is not proved" >&2; exec {self.program} "$@"')
        with unittest.mock.patch.object(by_program, "RELAYED", set()), contextlib.redirect_stderr(io.StringIO()) as said:
            for _ in range(2):
                self.assertEqual(dam_tools.clear(AUCTION, launcher).text, dam_tools.clear(AUCTION, self.program).text)
        self.assertEqual(said.getvalue(), "dam: this run is not proved\n")

    def test_a_program_that_says_much(self):
        """Of its standard error the last part is kept, and of its output no more than any results have."""
        much = "head -c 60000000 /dev/zero | tr '\\0' x >&2; echo >&2; echo last >&2"
        most, wanted = by_program.MOST_SAID, 60_000_000 + len("\nlast\n")
        begin, end = f"[the first {wanted - most:,} bytes of its standard error are left out]\n", "x" * (most - len("\nlast\n")) + "\nlast"
        tracemalloc.start()
        self.addCleanup(tracemalloc.stop)
        with self.assertRaises(dam_tools.Fault) as raised:
            dam_tools.clear(AUCTION, self.write_script("fails", f"{much}; exit 3"))
        self.assertEqual((str(raised.exception) == begin + end, raised.exception.status), (True, 3), str(raised.exception)[:200])
        with unittest.mock.patch.object(by_program, "RELAYED", set()), contextlib.redirect_stderr(io.StringIO()) as said:
            found = dam_tools.clear(AUCTION, self.write_script("right", f'{much}; exec {self.program} "$@"')).text
        self.assertEqual((found, said.getvalue() == f"{begin}{end}\n"), (read_results(AUCTION), True), said.getvalue()[:200])
        for call in dam_tools.clear, dam_tools.replay:
            other = self.write_script("other", "exec head -c 60000000 /dev/zero")
            with self.assertRaisesRegex(dam_tools.Fault, f"^{other} printed more than {by_program.MOST_PRINTED_BYTES:,} bytes$"):
                call(AUCTION, other)
        self.assertLess(tracemalloc.get_traced_memory()[1], 8 << 20)

    def test_a_program_that_says_something_else_each_time(self):
        run = self.write_script("run", f'echo "$$" >&2; exec {self.program} "$@"')
        with (
            unittest.mock.patch.multiple(by_program, RELAYED=set(), MOST_RELAYED=3),
            contextlib.redirect_stderr(io.StringIO()) as said,
        ):
            for _ in range(6):
                dam_tools.clear(AUCTION, run)
            self.assertEqual(len(by_program.RELAYED), 4)
        *lines, last = said.getvalue().splitlines()
        self.assertEqual((len(lines), last), (3, "further lines of the program aren't shown"))

    def test_a_program_that_fails_without_words(self):
        for line, status in ("exit 1", 1), ("kill -9 $$", -9), ("exit 70", 70):
            silent, said = self.write_script("silent", line), f"the program ended with status {status}"
            (fault,) = dam_tools.clear_many([AUCTION], program=silent)
            self.assertEqual((str(fault), fault.status), (said, status))
            for call in dam_tools.clear, dam_tools.replay:
                with self.assertRaises(dam_tools.Fault) as raised:
                    call(AUCTION, silent)
                self.assertEqual((str(raised.exception), raised.exception.status), (said, status))

    def test_threads_call_at_the_same_time(self):
        """Each gets the answer to its own journal: by the program, and by a library that answers with the text."""
        given = [AUCTION, QUARTERS] * 4
        with concurrent.futures.ThreadPoolExecutor(len(given)) as threads:
            found = threads.map(lambda path: dam_tools.clear(path, self.program).text, given)
            self.assertEqual(list(found), list(map(read_results, given)))
            library = self.compile_library(ECHO.replace("    return found;", "    usleep(1000);\n    return found;"))
            texts = [str(number).encode() * 1_000 for number in range(100, 200)]
            self.assertEqual(list(threads.map(lambda text: by_library.call_and_return_output(library, text), texts)), texts)

    def test_an_answer_that_is_longer_than_the_header_says(self):
        library = self.compile_library(ECHO)
        longest = bytes(by_library.MOST_ANSWER)
        self.assertEqual(by_library.call_library(library, longest), (0, longest))
        with self.assertRaisesRegex(dam_tools.Fault, " has an answer of 300,001 bytes, and may have at most 300,000$"):
            by_library.call_library(library, longest + b"1")

    def test_a_fault_has_each_status_of_the_page(self):
        formats, python = ((support.TOP / "docs" / name).read_text() for name in ("FORMATS.md", "PYTHON.md"))
        (table,) = re.findall(r"^## Statuses and faults\n\n((?:\|.*\n)+)", formats, re.MULTILINE)
        statuses = [int(status) for status in re.findall(r"^\| (\d+) \|", table, re.MULTILINE)]
        self.assertIn(70, statuses)
        for status in filter(None, statuses):
            with self.subTest(status), self.assertRaises(dam_tools.Fault) as raised:
                dam_tools.clear(AUCTION, self.write_script("ends", f"exit {status}"))
            self.assertEqual(raised.exception.status, status)
        # so the page has all of them
        self.assertRegex(python, r"\n\| `Fault\.status` \| the \[status\]\(FORMATS\.md#statuses-and-faults\) of a failed run, ")

    def test_limits_of_nodes_and_time(self):
        days = dam_tools.clear_many([AUCTION], program=self.write_script("nodes", f"{EMPTY}; echo $*"), nodes=7)
        self.assertEqual(next(days).text.splitlines()[-1], b"clear --workers=1 --cut=0 --nodes=7")
        slow = self.write_script("slow", f'read line; [ "$line" = day ] || exec sleep 600; {EMPTY}')
        with unittest.mock.patch.dict(os.environ, {"DAM": os.fspath(slow), "DAM_LIBRARY": "/nowhere/libdam.so"}):
            late, found = dam_tools.clear_many([b"x\n", b"day\n"], timeout=0.5)
        self.assertIsInstance(late, dam_tools.TimedOut)
        self.assertEqual(str(late), f"{slow} took longer than 0.5 seconds")
        self.assertEqual(found.text, b"day,24\nwelfare,0\n")
        for call in (dam_tools.clear, dam_tools.replay, lambda path, **how: dam_tools.clear_many([path], **how)):
            for timeout in (math.nan, math.inf, 1e7):
                with self.assertRaisesRegex(ValueError, "^timeout should be a number of seconds, at most 1,000,000$"):
                    call(AUCTION, program=self.program, timeout=timeout)

    def test_what_is_no_journal_does_not_end_the_others(self):
        *faults, found = dam_tools.clear_many([None, 5, bytearray(b"day"), AUCTION], program=self.program)
        said = "a journal should be a file, its text, or one that was read, and not of the type "
        self.assertEqual([str(fault) for fault in faults], [f"{said}{name}" for name in ("NoneType", "int", "bytearray")])
        self.assertEqual(found.text, read_results(AUCTION))

    def test_one_broken_journal_has_one_status(self):
        broken = OPEN + b"submit,x\n"
        (fault,) = dam_tools.clear_many([broken], program=self.program)
        with self.assertRaises(dam_tools.Fault) as raised:
            dam_tools.clear(broken, self.program)
        self.assertEqual((fault.status, raised.exception.status), (1, 1))

    def test_each_day_has_its_text(self):
        self.assertEqual(dam_tools.clear(AUCTION, self.program).text, read_results(AUCTION))
        self.assertEqual(dam_tools.read_results(AUCTION, read_results(AUCTION)).text, read_results(AUCTION))

    def test_an_executor(self):
        given = [AUCTION, OPEN, QUARTERS, AUCTION]
        with concurrent.futures.ProcessPoolExecutor(2) as pool:
            found = list(dam_tools.clear_many(given, executor=pool, program=self.program))
        self.assertEqual([found[at].text for at in (0, 2, 3)], [read_results(AUCTION), read_results(QUARTERS), read_results(AUCTION)])
        self.assertEqual((str(found[1]), found[1].status), ("input: StillOpen", 1))
        with self.assertRaisesRegex(dam_tools.Fault, "^the executor takes no more journals: "):
            list(dam_tools.clear_many(given, executor=pool, program=self.program))

    def test_a_worker_that_dies_is_said_of_its_journals(self):
        kill = self.write_script("kill", "kill -9 $PPID")
        with concurrent.futures.ProcessPoolExecutor(1) as pool:
            found = list(dam_tools.clear_many([AUCTION, AUCTION], executor=pool, program=kill))
        self.assertEqual([str(fault)[:40] for fault in found], ["the executor failed: BrokenProcessPool: "] * 2)

    def test_the_calls_of_a_library(self):
        path = self.compile_library(ECHO)
        texts = [b"%d" % number * 70_000 for number in range(10)]
        with unittest.mock.patch.dict(os.environ, {"DAM_LIBRARY": path, "DAM": "/nowhere/dam"}):
            found = list(dam_tools.clear_many([*texts, b""]))
        self.assertEqual([day.text for day in found[:-1]], [text[:300_000] for text in texts])
        self.assertEqual((str(found[-1]), found[-1].status), ("input: NotDay", 1))
        with unittest.mock.patch.dict(os.environ, {"DAM_LIBRARY": "/nowhere/libdam.so"}):
            (fault,) = dam_tools.clear_many([AUCTION])
        self.assertTrue(str(fault).startswith("the library /nowhere/libdam.so can't be used: "), fault)

    def test_each_call_of_a_library_has_a_secret_of_its_own(self):
        """Each of its 16 bytes is drawn: it has many values in 64 calls."""
        path = self.compile_library(ECHO.replace("(const char *)text", "(const char *)secret"))
        drawn = [by_library.call_and_return_output(path, bytes(16)) for _ in range(64)]
        self.assertEqual({len(secret) for secret in drawn}, {16})
        self.assertGreater(min(len(set(values)) for values in zip(*drawn)), 16)

    def test_a_bar_is_for_terminals(self):
        results = iter(())
        self.assertIs(engine.iterate_with_bar(results), results)
        with unittest.mock.patch.object(sys, "stderr", unittest.mock.Mock(isatty=lambda: True)):
            self.assertIs(engine.iterate_with_bar(results, quiet=True), results)
            with unittest.mock.patch.dict(sys.modules, {"tqdm": None}):
                self.assertIs(engine.iterate_with_bar(results), results)
            if modules.has_module("tqdm"):
                self.assertIsNot(engine.iterate_with_bar(results), results)

    @unittest.skipUnless(which.BUILT.exists(), "the program isn't built")
    def test_the_built_program(self):
        cases = support.read_cleared_cases()
        texts = [data for _, data, _ in cases]
        found = list(dam_tools.clear_many(texts, program=which.BUILT))
        for (name, _, wanted), day in zip(cases, found, strict=True):
            with self.subTest(name):
                self.assertEqual(day.text, wanted)
        (fault,) = dam_tools.clear_many([journal_of("x")], program=which.BUILT)
        self.assertEqual((str(fault), fault.status), ("input: FieldCount in record 2", 1))


if __name__ == "__main__":
    unittest.main()
