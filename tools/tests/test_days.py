"""The audit of many days: one broken pair doesn't end the rest, and the status is the worst one's."""

import errno
import functools
import json
import os
import resource
import shutil
import signal
import subprocess
import sys
import tracemalloc
import unittest
import unittest.mock
from pathlib import Path

from support import AUCTION, QUARTERS, TOOLS, make_folder_for_case, read_results, results_of, run_tool

from lib.audit import day_pairs, days, record, verdict
from lib.base import text
from lib.results import faults
from lib.runs import by_program
from lib.tool import exits, file_io

DATA, TEXT = AUCTION.read_bytes(), read_results(AUCTION)


class Days(unittest.TestCase):
    def setUp(self):
        self.folder = make_folder_for_case(self)

    def write(self, **texts):
        for name, (data, text) in texts.items():
            (self.folder / f"{name}.csv").write_bytes(data)
            if text is not None:
                (self.folder / f"{name}.txt").write_bytes(text)

    def audit(self, *words, place=None):
        status, out, err = run_tool("audit", "--days", place or self.folder, *words)
        return status, out.decode(), err

    def test_right_days(self):
        self.write(a=(DATA, TEXT), b=(QUARTERS.read_bytes(), read_results(QUARTERS)), c=(DATA + b"results\n" + TEXT, None))
        status, out, err = self.audit("--best", "--jobs", "2")
        lines = [line.split() for line in out.splitlines()]
        self.assertEqual((status, err, lines[0][:3]), (0, "", ["day", "verdict", "periods"]))
        self.assertEqual([line[:3] for line in lines[1:4]], [["a", "right", "24"], ["b", "right", "96"], ["c", "right", "24"]])
        self.assertEqual(lines[4][:4], ["3", "days", "3", "right"])
        self.assertEqual(lines[1][6], "3,021,520.00")
        self.assertEqual(self.audit("--quiet"), (0, "", ""))

    def test_one_broken_pair_does_not_end_the_rest(self):
        wrong = TEXT.replace(b"welfare,3", b"welfare,4")
        self.write(
            a=(DATA, wrong),
            b=(b"\x1b[31m", TEXT),
            c=(DATA, TEXT.replace(b"\n", b"\r\n")),
            d=(DATA, None),
            e=(DATA, results_of(DATA, frozenset({0, 1}))),
            f=(DATA, TEXT),
        )
        (self.folder / "g.txt").write_bytes(TEXT)
        status, out, err = self.audit("--best")
        found = {line.split()[0]: line.split()[1] for line in out.splitlines()[1:-1]}
        kinds = [verdict.WRONG, verdict.UNREAD, verdict.ENCODING, verdict.UNREAD, verdict.WRONG, verdict.RIGHT, verdict.UNREAD]
        self.assertEqual((status, err, list(found.values())), (exits.DIFFERS, "", kinds))
        self.assertEqual("".join(found), "abcdefg")
        self.assertTrue(out.replace("\n", "").isprintable())
        self.assertIn("7 days  1 right, 2 wrong, 1 encoding, 3 unread", out)
        self.assertIn("a better selection accepts", out)
        self.assertIn("/d.txt is missing", out)

    def test_a_day_without_a_name(self):
        """The files `.csv` and `.txt` are a day too, and `csv` is none."""
        self.write(**{"": (DATA, TEXT.replace(b"welfare,3", b"welfare,4")), "a": (DATA, TEXT), ".b": (DATA, TEXT)})
        (self.folder / "csv").write_bytes(DATA)
        status, out, _ = self.audit("--json")
        self.assertEqual([(day["name"], day["status"]) for day in json.loads(out)["days"]], [("", 1), (".b", 0), ("a", 0)])
        self.assertEqual(status, 1)

    def test_suffixes_in_capitals(self):
        for name, content in (("A.CSV", DATA), ("A.txt", TEXT), ("B.CSV", DATA), ("C.TXT", TEXT)):
            (self.folder / name).write_bytes(content)
        status, out, _ = self.audit()
        found = [line.split()[:2] for line in out.splitlines()[1:4]]
        self.assertEqual((status, found), (exits.NO_INPUT, [["A", "right"], ["B", "unread"], ["C", "unread"]]))
        for name, others in (("A.csv", ["unread", "unread", "unread"]), ("C.txt", ["unread", "unread", "unread"])):
            (self.folder / name).write_bytes(DATA)
            status, out, err = self.audit()
            self.assertEqual((status, err, [line.split()[1] for line in out.splitlines()[1:4]]), (exits.NO_INPUT, "", others))
        self.assertEqual([out.count(f"{self.folder}/{name} have one name: rename one of them") for name in ("A.csv", "C.txt")], [1, 1])
        self.write(D=(DATA, TEXT))
        status, out, _ = self.audit()
        self.assertEqual((status, out.splitlines()[4].split()[:2]), (exits.NO_INPUT, ["D", "right"]))

    def test_a_file_that_would_wait(self):
        """Some files of the system have no end, and a read of them waits for more."""
        self.write(a=(DATA, TEXT))
        (self.folder / "b.csv").symlink_to("/proc/kmsg")
        (self.folder / "b.txt").write_bytes(TEXT)
        status, out, err = self.audit()
        found = [line.split()[1] for line in out.splitlines()[1:3]]
        self.assertEqual((status, err, found), (exits.NO_INPUT, "", ["right", "unread"]))
        reading, writing = os.pipe()
        self.addCleanup(os.close, reading)
        self.addCleanup(os.close, writing)
        os.write(writing, b"x" * 9)
        words = f"{reading} can't be read: {os.strerror(errno.EAGAIN)}$"
        with unittest.mock.patch.object(file_io.stat, "S_ISREG", return_value=True), self.assertRaisesRegex(exits.Stop, words):
            file_io.read_bytes(f"/proc/self/fd/{reading}")

    def test_the_status_is_that_of_the_worst(self):
        self.write(a=(DATA, TEXT))
        for texts, wanted in (
            ({"b": (DATA, TEXT[:-1])}, exits.ENCODING),
            ({"c": (b"", TEXT)}, exits.NO_INPUT),
            ({"d": (DATA, b"")}, exits.DIFFERS),
        ):
            self.write(**texts)
            self.assertEqual(self.audit()[0], wanted)
        for statuses, worst in (((0, 4, 6), 4), ((3, 4, 5), 5), ((0, 0), 0), ((5, 1, 3), 1)):
            self.assertEqual(days.status_of([{"status": status} for status in statuses]), worst)

    def test_the_time_that_each_may_take(self):
        self.write(a=(DATA, TEXT))
        status, out, _ = self.audit("--best", "--seconds", "0")
        self.assertEqual((status, out.splitlines()[1].split()[1]), (exits.UNDECIDED, "undecided"))

    def test_amounts_for_readers(self):
        for number, shown in (("-1234567.500", "-1,234,567.50"), ("-0.001", "-0.001"), ("0.000", "0.00"), ("12.12500", "12.125")):
            self.assertEqual(text.grouped(number), shown)

    def test_records(self):
        self.write(a=(DATA, TEXT), b=(DATA, None))
        status, out, _ = self.audit("--json")
        made = json.loads(out)
        self.assertEqual((status, made["status"], [day["verdict"] for day in made["days"]]), (3, 3, ["right", "unread"]))
        self.assertEqual(out, f"{json.dumps(made, indent=1)}\n")
        self.assertEqual(made["counts"], {**dict.fromkeys(record.VERDICTS, 0), "right": 1, "unread": 1})
        self.assertEqual(made["days"][0]["day"]["periods"], 24)
        self.assertEqual(made["days"][0].keys(), made["days"][1].keys())
        inputs = made["days"][1]["inputs"]
        self.assertEqual([entry.keys() for entry in inputs], [made["days"][0]["inputs"][0].keys()] * len(inputs))

    def test_a_manifest(self):
        self.write(a=(DATA, TEXT), b=(DATA + b"results\n" + TEXT, None))
        (self.folder / "list").write_text("\ufeffday,journal,results\nMonday,a.csv,a.txt\n,b.csv,\n\nnone,c.csv,a.txt\n")
        status, out, _ = self.audit(place=self.folder / "list")
        self.assertEqual([line.split()[:2] for line in out.splitlines()[1:4]], [["Monday", "right"], ["b", "right"], ["none", "unread"]])
        self.assertEqual(status, exits.NO_INPUT)
        (self.folder / "list").write_text("\n \n;;\njournal;results\na.csv;a.txt\n")
        self.assertEqual(self.audit("--quiet", place=self.folder / "list"), (0, "", ""))
        (self.folder / "list").write_text("journal\na.csv\n")
        said = f"audit: {self.folder / 'list'} isn't a table of days: its first line should name the columns journal, results\n"
        self.assertEqual(self.audit(place=self.folder / "list"), (exits.NO_INPUT, "", said))

    def test_a_manifest_in_another_code_or_form(self):
        self.write(a=(DATA, TEXT))
        path = self.folder / "list"
        path.write_bytes(b"day,journal,results\nd\xe9c,a.csv,a.txt\n")
        said = f"audit: {path}: line 2: the table isn't in UTF-8, and was read as Windows-1252\n"
        self.assertEqual(self.audit(place=path)[::2], (0, said))
        self.assertEqual(self.audit("--quiet", place=path)[::2], (0, ""))
        for data, kind in ((b"PK\x03\x04\x81", "an Excel workbook (.xlsx)"), (b"\x1f\x8b", "a compressed file (.gz)")):
            path.write_bytes(data)
            said = f"audit: {path} is {kind}: save the table of days as CSV\n"
            self.assertEqual(self.audit(place=path), (exits.NO_INPUT, "", said))

    def test_two_rows_of_a_manifest_with_one_name(self):
        """Neither is read: a reader could take the verdict of one for the other's. Names that no row gives may be equal."""
        self.write(a=(DATA, TEXT), b=(DATA, TEXT))
        (self.folder / "more").mkdir()
        for name in ("a.csv", "a.txt"):
            shutil.copy(self.folder / name, self.folder / "more")
        rows = "Monday,a.csv,a.txt", "b,b.csv,b.txt", "", " Monday ,b.csv,b.txt", ",a.csv,a.txt", ",more/a.csv,more/a.txt", "Monday,b.csv,b.txt,"
        (self.folder / "list").write_text("\n".join(["day,journal,results", *rows, "MONDAY,a.csv,a.txt", ""]))
        status, out, err = self.audit("--json", place=self.folder / "list")
        found = [(day["name"], day["verdict"], day["message"]) for day in json.loads(out)["days"]]
        said = "lines 2 and 5 of the table give two days the name 'Monday': change one of them"
        extra = "line 8 of the table has 4 cells, but the header has 3"
        wanted = [("Monday", "unread", said), ("b", "right", None), ("Monday", "unread", said), ("a", "right", None), ("a", "right", None)]
        wanted += [("Monday", "unread", extra), ("MONDAY", "right", None)]
        said = f"audit: {self.folder / 'list'}: line 5: it has the files of line 3, whose day counts twice\n"
        self.assertEqual((status, err, found), (exits.NO_INPUT, said, wanted))

    def test_a_manifest_with_many_columns(self):
        """Cells that aren't used take no memory."""
        heads = ["journal", "results", *(f"c{number}" for number in range(16_000))]
        row = ",".join(["a.csv", "a.txt", *["x" * 9] * 16_000])
        (self.folder / "list").write_text("\n".join([",".join(heads), *[row] * 20]))
        self.write(a=(DATA, TEXT))
        tracemalloc.start()
        self.addCleanup(tracemalloc.stop)
        self.assertEqual(len(day_pairs.read_pairs_or_stop(self.folder / "list", [])), 20)
        self.assertLess(tracemalloc.get_traced_memory()[1], 16 * 2**20)

    def test_the_files_of_a_day_twice(self):
        self.write(a=(DATA, TEXT), b=(DATA, TEXT))
        (self.folder / "list").write_text("day,journal,results\none,a.csv,a.txt\n,b.csv,b.txt\ntwo,a.csv,a.txt\n,b.csv,b.txt\n,b.csv,a.txt\n")
        notes = []
        self.assertEqual(len(day_pairs.read_pairs_or_stop(self.folder / "list", notes)), 5)
        self.assertEqual(notes, ["line 4: it has the files of line 2, whose day counts twice"])

    def test_cells_of_a_manifest_in_no_column(self):
        """A name with a comma that isn't quoted is two cells, and the files are others."""
        self.write(a=(DATA, TEXT))
        right = "right,a.csv,a.txt,\n"
        (self.folder / "list").write_text(f"day,journal,results\nmore,a,b.csv,a.txt\nother,a.csv,a.txt\n,,,note\n{right}")
        status, out, _ = self.audit(place=self.folder / "list")
        more, other, last, empty = out.splitlines()[1:5]
        self.assertEqual((status, other.split()[1]), (exits.NO_INPUT, verdict.RIGHT))
        for line, number in ((more, 2), (last, 4), (empty, 5)):
            self.assertTrue(line.endswith(f"  line {number} of the table has 4 cells, but the header has 3"), line)
        (self.folder / "list").write_text(f"day,journal,results, ,note\nb,a.csv,a.txt,x\n{right}")
        other, last = self.audit(place=self.folder / "list")[1].splitlines()[1:3]
        self.assertTrue(other.endswith("  line 2, column 4 of the table: its cell is in a column without a name"), other)
        self.assertEqual(last.split()[1], verdict.RIGHT)
        for name in ("day", "journal", "results"):
            (self.folder / "list").write_text(f"day,journal,results,{name.upper()}\n{right}")
            said = f"audit: {self.folder / 'list'} isn't a table of days: its first line names the column {name} twice\n"
            self.assertEqual(self.audit(place=self.folder / "list"), (exits.NO_INPUT, "", said))

    def test_a_day_on_the_line_of_the_header(self):
        """It would be lost."""
        self.write(a=(DATA, TEXT))
        row = "right,a.csv,a.txt"
        for between in ("", " ", ",", "\v", "\u2028"):
            (self.folder / "list").write_text(f"day,journal,results,note{between}{row}\n{row}\n", encoding="utf-8")
            said = f"audit: {self.folder / 'list'} isn't a table of days: "
            said += "line 1, column 4" if between and not between.isascii() or between == "\v" else "'a.csv' of its first line is no heading"
            status, out, err = self.audit(place=self.folder / "list")
            self.assertEqual((status, out, err[: len(said)]), (exits.NO_INPUT, "", said))
        (self.folder / "list").write_text(f"day,journal,results,note{',x' * 3}\n{row},note\v{row}\n")
        said = f"audit: {self.folder / 'list'} isn't a table of days: line 2, column 4: 'note\\x0bright' has a character"
        self.assertIn(said, self.audit(place=self.folder / "list")[2])

    def test_names_of_a_manifest_with_spaces_around_them(self):
        """They are left out, unless a file has them."""
        self.write(a=(DATA, TEXT))
        rows = 'a , a.csv,a.txt\nb," a.csv"," a.txt"\n'
        (self.folder / "list").write_text(f"day,journal,results\n{rows}")
        self.assertEqual([line.split()[:2] for line in self.audit(place=self.folder / "list")[1].splitlines()[1:3]], [["a", "right"], ["b", "right"]])
        (self.folder / " a.csv").write_bytes(QUARTERS.read_bytes())
        self.assertEqual([line.split()[:2] for line in self.audit(place=self.folder / "list")[1].splitlines()[1:3]], [["a", "wrong"], ["b", "wrong"]])

    def test_a_manifest_of_many_days(self):
        (self.folder / "list").write_text("journal,results\n" + "x,y\n" * (day_pairs.MOST_DAYS + 1))
        said = f"audit: {self.folder / 'list'} has more than 20,000 days\n"
        self.assertEqual(self.audit(place=self.folder / "list"), (exits.NO_INPUT, "", said))

    def test_a_folder_named_like_the_end_of_options(self):
        (self.folder / "--").mkdir()
        (self.folder / "--" / "a.csv").write_bytes(DATA)
        (self.folder / "--" / "a.txt").write_bytes(TEXT)
        ran = subprocess.run([sys.executable, TOOLS / "audit", "--days=--"], cwd=self.folder, capture_output=True, text=True)
        self.assertEqual((ran.returncode, ran.stdout.splitlines()[1].split()[:2]), (0, ["a", "right"]), ran.stderr)

    def test_a_python_that_the_environment_names(self):
        """It could say anything of a day."""
        self.write(a=(DATA, TEXT.replace(b"\nwelfare,", b"\nwelfare,9", 1)))
        named = self.folder / "python"
        named.write_text("#!/bin/sh\nexec touch ran\n")
        named.chmod(0o755)
        for name in ("./python", str(named), "/bin/false"):
            ran = subprocess.run([TOOLS / "audit", "--days", "."], cwd=self.folder, capture_output=True, text=True, env={"PATH": "/usr/bin:/bin", "PYTHONEXECUTABLE": name})
            self.assertEqual((ran.returncode, ran.stdout.splitlines()[1].split()[:2]), (exits.DIFFERS, ["a", "wrong"]), ran.stderr)
        self.assertFalse((self.folder / "ran").exists())

    def test_rows_of_a_manifest_that_name_no_files(self):
        self.write(a=(DATA, TEXT))
        (self.folder / "list").write_bytes(b"day,journal,results\nnul,a\0.csv,a.txt\nempty,,a.txt\nright,a.csv,a.txt\nalone,a.csv,\nfolder,.,\n")
        status, out, err = self.audit(place=self.folder / "list")
        nul, empty, right, alone, folder = out.splitlines()[1:6]
        self.assertEqual((status, err, right.split()[1]), (exits.NO_INPUT, "", verdict.RIGHT))
        self.assertEqual((nul.split()[1], empty.split()[1]), (verdict.UNREAD, verdict.UNREAD))
        self.assertTrue(nul.endswith("the name 'a\\x00.csv' has a NUL"), nul)
        self.assertTrue(empty.endswith("its row names no journal"), empty)
        self.assertTrue(folder.endswith(f"{self.folder} can't be read: Is a directory"), folder)
        self.assertTrue(alone.endswith(f"its row names no results, and {self.folder / 'a.csv'} has no line 'results'"), alone)

    def test_a_name_that_the_locale_lacks(self):
        """A manifest is in UTF-8, but the names of files are in the encoding of the locale."""
        if not shutil.which("localedef"):
            self.skipTest("localedef is missing")
        locale = self.folder / "en_US.ISO-8859-1"
        if subprocess.run(["localedef", "-i", "en_US", "-f", "ISO-8859-1", locale], capture_output=True).returncode:
            self.skipTest("the sources of locales are missing")
        self.write(a=(DATA, TEXT))
        (self.folder / "list").write_text("day,journal,results\nlacks,\u65e5.csv,a.txt\nright,a.csv,a.txt\n", "utf-8")
        own = {**os.environ, "LOCPATH": str(self.folder), "LC_ALL": locale.name}
        ran = subprocess.run([sys.executable, "-I", TOOLS / "audit", "--days", self.folder / "list"], env=own, capture_output=True)
        lacks, right = ran.stdout.decode().splitlines()[1:3]
        self.assertEqual((ran.returncode, ran.stderr, right.split()[1]), (exits.NO_INPUT, b"", verdict.RIGHT))
        self.assertTrue(lacks.endswith(".csv can't be read: its name has a NUL, or a character that this locale lacks"), lacks)

    def test_a_process_that_cannot_be_started(self):
        pair, full = day_pairs.Pair("a", Path("a.csv"), Path("a.txt")), OSError(errno.EMFILE, os.strerror(errno.EMFILE))
        with unittest.mock.patch.object(days.subprocess, "Popen", side_effect=full):
            made = days.run_audit(pair, [], by_program.Running())
        said = "its process can't be started: Too many open files"
        self.assertEqual((made["status"], made["verdict"], made["message"]), (exits.FAILED, verdict.FAILED, said))

    def test_a_process_that_hangs(self):
        """It's ended, and another day has its record."""
        hanging, real, begun = self.folder / "hanging", subprocess.Popen, []
        hanging.write_text("import time; time.sleep(600)")
        hung = day_pairs.Pair("a", Path("a.csv"), Path("a.txt"))

        def start(*words, **streams):
            begun.append(real(*words, **streams))
            return begun[-1]

        with unittest.mock.patch.object(days, "TOOL", hanging), unittest.mock.patch.object(subprocess, "Popen", side_effect=start):
            found = days.run_audits([hung, hung._replace(unread="x")], [], 2, unittest.mock.Mock(), 0.5)
        self.assertEqual([made["message"] for made in found], ["its process didn't end in 0.5 seconds", "x"])
        self.assertEqual([made["status"] for made in found], [exits.FAILED, exits.NO_INPUT])
        self.assertEqual([process.returncode for process in begun], [-signal.SIGKILL])

    def test_a_process_that_is_left(self):
        """Whatever ends the wait for it, it's ended too."""
        hanging = self.folder / "hanging"
        hanging.write_text("import time; time.sleep(600)")
        for fault in (MemoryError, OverflowError, KeyboardInterrupt):
            with (
                unittest.mock.patch.object(days, "TOOL", hanging),
                unittest.mock.patch.object(subprocess.Popen, "communicate", side_effect=fault, autospec=True) as call,
                self.assertRaises(fault),
            ):
                days.capture_ended(day_pairs.Pair("a", Path("a.csv"), None), [], by_program.Running(), 1)
            process = call.call_args_list[0].args[0]
            self.addCleanup(process.kill)
            self.assertEqual(process.returncode, -signal.SIGKILL)

    def test_how_long_a_process_may_take(self):
        """Its search has its own limit. The system waits for no more than 2**31 ms."""
        args = unittest.mock.Mock(best=False, seconds=None)
        self.assertEqual(days.seconds_of(args), 600)
        for seconds, whole in ((None, 1_200), (0, 600), (7.5, 607.5), (3e6, days.MOST_SECONDS), (1e300, days.MOST_SECONDS)):
            args = unittest.mock.Mock(best=True, seconds=seconds)
            self.assertEqual(days.seconds_of(args), whole)
        self.write(a=(DATA, TEXT))
        self.assertEqual(self.audit("--best", "--seconds", "1e300", "--quiet"), (0, "", ""))

    def test_each_day_is_read_under_its_own_guard(self):
        """Files without an end, that are too large for the memory, or that are none; each day has its record, and the good one its verdict."""
        self.write(a=(DATA, TEXT))
        (self.folder / "b.csv").touch()
        os.truncate(self.folder / "b.csv", 8 << 30)
        for name in ("c.csv", "c.txt", "d.txt"):
            (self.folder / name).symlink_to("nowhere")
        os.mkfifo(self.folder / "e.csv")
        (self.folder / "f.csv").mkdir()
        (self.folder / "list").write_text("day,journal,results\ng,/dev/zero,\nh,a.csv,/dev/zero\nright,a.csv,a.txt\n")
        wanted = [("a", "right", None), ("b", "unread", "b.csv has more than 67,108,864 bytes")]
        wanted += [("c", "unread", "c.csv is a link to a file that is missing"), ("d", "unread", "d.csv is missing")]
        wanted += [("e", "unread", "e.csv is a device or a pipe, and should be a file"), ("f", "unread", "f.csv can't be read: Is a directory")]
        self.assertEqual(self.run_in_little_memory(self.folder), wanted)
        device = "zero is a device or a pipe, and should be a file"
        self.assertEqual(self.run_in_little_memory(self.folder / "list"), [("g", "unread", device), ("h", "unread", device), ("right", "right", None)])

    def run_in_little_memory(self, place):
        """The days of the record of a run in little memory, each with its verdict and the end of the message."""
        words = [sys.executable, TOOLS / "audit", "--json", "--jobs", "2", "--days", place]
        limit = functools.partial(resource.setrlimit, resource.RLIMIT_AS, (1 << 30, 1 << 30))
        ran = subprocess.run(words, capture_output=True, preexec_fn=limit)
        made = json.loads(ran.stdout)
        self.assertEqual((ran.returncode, made["status"], ran.stderr), (exits.NO_INPUT, exits.NO_INPUT, b""))
        return [(day["name"], day["verdict"], day["message"] and day["message"].rpartition("/")[2]) for day in made["days"]]

    def test_a_name_that_would_be_standard_input(self):
        """`-` in a manifest is a file, and so is `--`, which a command line may leave out; without one, nothing is judged."""
        self.write(a=(DATA, TEXT))
        for name in ("-", "--", "---", "-o", "--json"):
            for row, others in ((f"a.csv,{name}", b""), (f"{name},a.txt", QUARTERS.read_bytes())):
                (self.folder / "list").write_text(f"day,journal,results\nno file,{row}\n")
                self.assertEqual(self.run_manifest(), (exits.NO_INPUT, f"{name} is missing"), row)
                (self.folder / name).write_bytes(others)
                status, said = self.run_manifest()
                self.assertEqual((status, said == "the results are empty"), (exits.DIFFERS, not others), row)
                (self.folder / name).unlink()

    def run_manifest(self):
        """The status of the audit of a manifest, and the first fault of its only day."""
        ran = subprocess.run([sys.executable, TOOLS / "audit", "--days", "list"], cwd=self.folder, capture_output=True, text=True)
        return ran.returncode, ran.stdout.splitlines()[1].rpartition("  ")[2]

    def test_without_a_path(self):
        """Python doesn't know its own path then."""
        self.write(a=(DATA, TEXT))
        for path in ({}, {"PATH": ""}, {"PATH": "/nowhere"}):
            words = ["python3", "-I", "-S", TOOLS / "audit", "--days", self.folder]
            ran = subprocess.run(words, executable=os.path.realpath(sys.executable), env=path, capture_output=True, text=True)
            self.assertEqual((ran.returncode, ran.stderr), (0, ""), ran.stdout)

    def test_memory_or_threads_for_a_day_that_run_out(self):
        pairs, bar = [day_pairs.Pair(name, Path("a.csv"), Path("a.txt")) for name in "ab"], unittest.mock.Mock()
        for patched, faults in (("capture_ended", [MemoryError]), ("record_without_verdict", [MemoryError, unittest.mock.DEFAULT])):
            with unittest.mock.patch.object(days, patched, side_effect=faults * 2, wraps=getattr(days, patched)):
                found = days.run_audits(pairs, ["--none"], 1, bar)
            self.assertEqual([(made["name"], made["status"]) for made in found], [("a", exits.FAILED), ("b", exits.FAILED)])
            self.assertIn("out of memory", [made["message"] for made in found])
        with unittest.mock.patch.object(days.threading.Thread, "start", side_effect=RuntimeError("can't start new thread")):
            found = days.run_audits([pairs[0]._replace(unread="x")] * 2, [], 2, bar)
        self.assertEqual([made["message"] for made in found], ["x", "x"])

    def test_days_with_many_faults(self):
        """The faults of all days aren't in memory together. The record is the same as if they were."""
        wrong = [faults.line_fault("'hour,A,NAME,1' doesn't belong here", "stray", line, None).record() for line in range(3_000)]
        made = {**record.unread_record(verdict.WRONG, exits.DIFFERS, None), "faults": wrong}
        out = json.dumps(made, indent=1).encode() + b"\n"
        pairs = [day_pairs.Pair(f"{number}\udcff", Path("a.csv"), None, "x" if number == 3 else None) for number in range(8)]
        unread = {"name": "3\\xff", **record.unread_record(verdict.UNREAD, exits.NO_INPUT, "x", [("journal", "a.csv")])}
        wanted = [unread if number == 3 else {"name": f"{number}\\xff", **made} for number in range(8)]
        for words in ({}, {"is_json": True}):
            tracemalloc.start()
            self.addCleanup(tracemalloc.stop)
            with unittest.mock.patch.object(days, "capture_ended", return_value=(exits.DIFFERS, out, b"")):
                found = days.run_audits(pairs, [], 2, unittest.mock.Mock(), **words)
            self.assertLess(tracemalloc.get_traced_memory()[0], len(out))
            tracemalloc.stop()
            self.assertIn("  3000      0.0  results line 0: 'hour,A,NAME,1' doesn't belong here", list(days.table_lines(found))[1])
        parts = list(days.record_parts(exits.DIFFERS, found))
        self.assertLessEqual(max(map(len, parts)), days.PART)
        self.assertEqual(b"".join(parts).decode(), f"{json.dumps(record.record_of_days(exits.DIFFERS, wanted), indent=1)}\n")

    def test_the_time_grows_with_the_number_of_days(self):
        """While days are audited, the records of others aren't gone through again."""
        reads, bar = [], unittest.mock.Mock()

        class Counted(dict):
            def __getitem__(self, name):
                reads.append(name)
                return super().__getitem__(name)

        with unittest.mock.patch.object(days, "run_audit", side_effect=lambda *_: Counted(status=exits.DIFFERS)):
            found = days.run_audits([day_pairs.Pair("a", Path("a.csv"), None)] * 50, [], 2, bar)
        self.assertEqual((len(found), len(reads), bar.count_and_show.call_args.args), (50, 50, (1, "50 wrong")))

    def test_a_record_without_days(self):
        for place in ("/nowhere", self.folder):
            status, out, err = self.audit("--json", place=place)
            made = json.loads(out)
            self.assertEqual((status, made["status"], made["days"], f"audit: {made['message']}\n"), (3, 3, [], err))
            self.assertEqual(made["counts"], dict.fromkeys(record.VERDICTS, 0))

    def test_the_first_fault_is_one_line_and_whole(self):
        name = "d" * 200
        self.write(**{"a": (DATA, results_of(DATA, frozenset({0, 1}))), name: (b"x", TEXT)})
        _, out, _ = self.audit("--best")
        self.assertNotIn("\\n", out)
        self.assertIn(f"{name}.csv isn't a journal: input: NotDay", out)

    def test_standard_output_is_no_file_of_a_day(self):
        """Also if it is of a day that a fault comes before, of none before the shell made it, or of two files with one name."""
        self.write(a=(DATA, TEXT), b=(DATA, TEXT))
        (self.folder / "list").write_text("journal,results\nnone.csv,none.txt\nb.csv,b.txt\n")
        (self.folder / "c.TXT").write_text("")
        own = [(self.folder, name) for name in ("a.txt", "b.csv", "new.txt", "c.txt")]
        for place, name in (*own, (self.folder / "list", "b.txt")):
            for words in ([], ["--json"], ["--quiet"]):
                path = self.folder / name
                with self.subTest(place=place, name=name, words=words), path.open("ab") as out:
                    before = path.read_bytes()
                    ran = subprocess.run([sys.executable, TOOLS / "audit", *words, "--days", place], stdout=out, stderr=subprocess.PIPE)
                    said = f"audit: standard output goes to {path}, which is one of the inputs: write to another file\n"
                    self.assertEqual((ran.returncode, ran.stderr.decode(), path.read_bytes()), (exits.NO_INPUT, said, before))

    def test_command_lines(self):
        said = f"audit: {self.folder} has no days: a day is NAME.csv with its results NAME.txt\n"
        self.assertEqual(self.audit(), (exits.NO_INPUT, "", said))
        self.assertEqual(self.audit(place="/nowhere")[0], exits.NO_INPUT)
        (self.folder / "list").write_text("journal,results\n,\n")
        said = f"audit: {self.folder / 'list'} has no days: it has no row below its header\n"
        self.assertEqual(self.audit(place=self.folder / "list"), (exits.NO_INPUT, "", said))
        for words, said in (
            ([AUCTION], "--days can't be used with a journal"),
            (["--replies"], "--days can't be used with --replies"),
            (["--sent", AUCTION, "--participant", "GAS"], "--days can't be used with --sent"),
            (["--participant", "GAS"], "--days can't be used with --participant"),
            (["--seconds", "3"], "--seconds goes with --best"),
        ):
            status, out, err = self.audit(*words)
            self.assertEqual((status, out, err.splitlines()[-1]), (exits.COMMAND_LINE, "", f"audit: error: {said}"))


if __name__ == "__main__":
    unittest.main()
