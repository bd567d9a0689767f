"""The files that tools read and write: no input is lost, written files are named, and oddities of results are reported."""

import contextlib
import errno
import functools
import gzip
import io
import itertools
import math
import os
import re
import resource
import signal
import subprocess
import sys
import tempfile
import unittest
import zipfile
from pathlib import Path
from unittest import mock

from support import AUCTION, AUCTION_RESULTS, TOOLS, make_folder_for_case, read_results, run_tool

from lib.process import ending, replacing
from lib.tables import day_tables
from lib.tool import exits, file_io, modules

PACKAGES = {"plot": ["matplotlib"], "report": ["matplotlib", "jinja2"], "table": []}
MARK, OLD = b"\xef\xbb\xbf", b"\xd0\xcf\x11\xe0\xa1\xb1\x1a\xe1"
TOOLS_HERE = [name for name, packages in PACKAGES.items() if all(map(modules.has_module, packages))]
NOTE = "table: 1 of 94 commands was refused (of GAS): see --rows commands\n"


def run_at_a_terminal(name, *words, cwd):
    """The lines of a tool on standard error, if that is a terminal."""
    ours, theirs = os.openpty()
    subprocess.run([sys.executable, TOOLS / name, *words], stderr=theirs, check=True, cwd=cwd)
    os.close(theirs)
    said = b""
    with contextlib.suppress(OSError):  # all is read
        while data := os.read(ours, 10_000):
            said += data
    os.close(ours)
    return re.sub(r"(\r[^\r\n]+)*\r +\r", "", said.decode().replace("\r\n", "\n"))  # without a bar that is erased


class Files(unittest.TestCase):
    def setUp(self):
        self.folder = make_folder_for_case(self)
        self.journal, self.results = self.folder / "day.csv", self.folder / "results.txt"
        self.write(AUCTION.read_bytes(), read_results(AUCTION))

    def write(self, data, text):
        self.journal.write_bytes(data)
        self.results.write_bytes(text)

    def test_no_input_is_written_over(self):
        texts = self.journal, self.results
        link = self.folder / "link.svg"
        link.symlink_to(self.results)
        for name in TOOLS_HERE:
            for out in [link] if name == "plot" else [link, self.journal]:
                said = f"{name}: {out} is one of the inputs, and would be lost: write to another file\n"
                self.assertEqual(run_tool(name, *texts, "-o", out), (exits.COMMAND_LINE, b"", said))
        orders = self.folder / "orders.csv"
        self.assertEqual(run_tool("table", *texts, "--rows", "orders", "-o", orders)[0], 0)
        made = orders.read_bytes()
        for words in (["--journal", orders, "-o", orders], [self.journal, orders, "--all", self.folder]):
            status, _, err = run_tool("table", *words)
            self.assertEqual((status, "is one of the inputs" in err, orders.read_bytes()), (exits.COMMAND_LINE, True, made))
        with orders.open() as given:
            words = [sys.executable, TOOLS / "table", "--journal", "-", "-o", orders]
            self.assertEqual(subprocess.run(words, stdin=given, stderr=subprocess.DEVNULL).returncode, exits.COMMAND_LINE)
        self.assertEqual([path.read_bytes() for path in (*texts, orders)], [AUCTION.read_bytes(), read_results(AUCTION), made])

    def test_standard_output_is_no_input(self):
        """The text of a tool would follow the published results, or a table that is read again."""
        texts = self.journal, self.results
        for name, words in (("audit", texts), ("lint", [self.journal]), ("table", texts), ("table", ["-", self.results])):
            for path in (self.journal, self.results)[: len(words)]:
                with self.subTest(name, path=path), path.open("ab") as out, self.journal.open() as given:
                    shown = "standard input" if words[0] == "-" and path == self.journal else path
                    ran = subprocess.run([sys.executable, TOOLS / name, *words], stdin=given, stdout=out, stderr=subprocess.PIPE)
                    said = f"{name}: standard output goes to {shown}, which is one of the inputs: write to another file\n"
                    self.assertEqual((ran.returncode, ran.stderr.decode()), (exits.NO_INPUT, said))
                    recorded = [sys.executable, TOOLS / name, "--json", *words]
                    ran = subprocess.run(recorded, stdin=given, stdout=out, stderr=subprocess.PIPE)
                    self.assertEqual((ran.returncode, ran.stderr.decode()), (exits.NO_INPUT, said))
        self.assertEqual([path.read_bytes() for path in texts], [AUCTION.read_bytes(), read_results(AUCTION)])
        with self.journal.open("ab") as out:
            said = f"standard output goes to {self.journal}, "
            key = self.folder / "key.pem"
            subprocess.run(["openssl", "genpkey", "-algorithm", "ed25519", "-out", key], check=True, stderr=subprocess.DEVNULL)
            public = self.folder / "public.pem"
            subprocess.run(["openssl", "pkey", "-in", key, "-pubout", "-out", public], check=True)
            words = [sys.executable, TOOLS / "receipts", "heads", "--json", self.journal, "--key", public]
            ran = subprocess.run(words, stdout=out, stderr=subprocess.PIPE)
            self.assertEqual((ran.returncode, said in ran.stderr.decode()), (exits.NO_INPUT, True), ran.stderr)
            # also if another fault comes first
            absent = self.folder / "absent"
            for words in (
                ["receipts", "verify", "--json", self.journal, "--key", public, "--head", absent],
                ["receipts", "verify", "--json", absent, "--key", public, "--head", absent, "--extension", self.journal],
                ["receipts", "heads", "--json", absent, self.journal, "--key", absent],
                ["receipts", "seal", "--json", absent, self.journal, "--key", absent, "--day", "2026-12-01"],
                ["audit", "--json", absent, self.journal],
                ["audit", "--json", absent, "--sent", self.journal, "--participant", "GAS"],
                ["audit", "--json", absent, "--head", absent, "--salts", absent, "--key", absent, "--earlier", self.journal],
                ["audit", "--json", absent, "--head", absent, "--salts", absent, "--key", absent, "--receipts", self.folder],
            ):
                ran = subprocess.run([sys.executable, TOOLS / words[0], *words[1:]], stdout=out, stderr=subprocess.PIPE)
                self.assertEqual((ran.returncode, said in ran.stderr.decode()), (exits.NO_INPUT, True), ran.stderr)
        self.assertEqual(self.journal.read_bytes(), AUCTION.read_bytes())
        # a program that has closed it, and reads a file by dam_tools, may give its number to the file
        code = f"import sys; sys.path.insert(0, {str(TOOLS)!r}); import dam_tools; dam_tools.read_results(*sys.argv[1:])"
        closed = subprocess.run(["sh", "-c", 'exec "$@" >&-', "sh", sys.executable, "-c", code, *texts], stderr=subprocess.PIPE)
        self.assertEqual((closed.returncode, closed.stderr), (0, b""))

    def test_an_old_file_stays_until_the_new_one_is_whole(self):
        out, words = self.folder / "a.csv", [sys.executable, TOOLS / "table", "--quiet", self.journal, self.results, "-o"]
        small = {"preexec_fn": lambda: resource.setrlimit(resource.RLIMIT_FSIZE, (1_000, 1_000))}  # as on a full disk
        out.write_text("old")
        for path in (out, self.folder / "new.csv"):
            ran = subprocess.run([*words, path], capture_output=True, text=True, **small)
            self.assertEqual((ran.returncode, ran.stderr), (exits.NO_INPUT, f"table: {path} can't be written: File too large\n"))
        self.assertEqual(out.read_text(), "old")
        self.assertEqual(sorted(path.name for path in self.folder.iterdir()), ["a.csv", "day.csv", "results.txt"])

    def test_the_name_of_a_folder_is_none_of_a_file(self):
        """Also if no folder has it; and a slash after the name of an input doesn't hide that it would be lost."""
        before = self.journal.read_bytes()
        for out in ("dir/", "a.csv/", "a.csv/.", "a.xlsx/", "day.csv/", "day.csv/.", "."):
            said = f"table: {self.folder}/{out} can't be written: Is a directory\n"
            found = run_tool("table", "--quiet", self.journal, self.results, "-o", f"{self.folder}/{out}")
            self.assertEqual(found, (exits.NO_INPUT, b"", said))
        self.assertEqual(self.journal.read_bytes(), before)
        self.assertEqual(sorted(path.name for path in self.folder.iterdir()), ["day.csv", "results.txt"])

    @unittest.skipUnless(modules.has_module("openpyxl"), "openpyxl is missing (Debian's python3-openpyxl)")
    def test_a_workbook_whose_temporary_files_cant_be_written(self):
        small = {"preexec_fn": lambda: resource.setrlimit(resource.RLIMIT_FSIZE, (1_000, 1_000))}
        for words in (["--all", self.folder / "a.xlsx", self.journal, self.results], ["--template", self.folder / "a.xlsx"]):
            ran = subprocess.run([sys.executable, TOOLS / "table", "--quiet", *words], capture_output=True, text=True, **small)
            self.assertEqual(ran.returncode, exits.NO_INPUT, ran.stderr)
            self.assertTrue(ran.stderr.endswith(": File too large\n"), ran.stderr)

    def test_an_old_file_that_cant_be_replaced_stays_on_a_full_disk(self):
        out, old = self.folder / "a.csv", b"old" * 100
        out.write_bytes(old)
        number, limits = out.stat().st_ino, resource.getrlimit(resource.RLIMIT_FSIZE)
        with mock.patch.object(replacing, "write_and_return_rename", side_effect=OSError(errno.EBUSY, "")):
            resource.setrlimit(resource.RLIMIT_FSIZE, (1_000, limits[1]))
            try:
                with self.assertRaisesRegex(OSError, "File too large"):
                    replacing.write_replacing(out, b"new" * 1_000)
            finally:
                resource.setrlimit(resource.RLIMIT_FSIZE, limits)
            self.assertEqual(out.read_bytes(), old)
            for data in (b"new" * 1_000, b"less", b""):
                replacing.write_replacing(out, data)
                self.assertEqual((out.read_bytes(), out.stat().st_ino), (data, number))

    def test_the_rights_of_an_old_file_and_a_link_to_it_stay(self):
        out, link = self.folder / "a.csv", self.folder / "link"
        out.write_text("old")
        out.chmod(0o640)
        link.symlink_to("a.csv")
        number = out.stat().st_ino
        replacing.write_replacing(link, b"new")
        self.assertEqual((link.readlink(), out.read_bytes(), out.stat().st_mode & 0o777), (Path("a.csv"), b"new", 0o640))
        self.assertNotEqual(out.stat().st_ino, number)
        before = os.umask(0o027)
        self.addCleanup(os.umask, before)
        link.unlink()
        link.symlink_to("none.csv")
        replacing.write_replacing(link, b"made")
        made = self.folder / "none.csv"
        self.assertEqual((made.read_bytes(), made.stat().st_mode & 0o777), (b"made", 0o640))

    def test_some_files_are_written_in_place(self):
        """A pipe, an open file, and one that can't be replaced: its folder belongs to somebody else, or it is mounted."""
        words = [sys.executable, TOOLS / "table", "--quiet", self.journal, self.results]
        right = subprocess.run(words, capture_output=True).stdout
        self.assertEqual(subprocess.run([*words, "-o", "/dev/stdout"], capture_output=True).stdout, right)
        out, pipe = self.folder / "a.csv", self.folder / "pipe"
        with out.open("wb") as file:
            file.write(b"first\n")
            file.flush()
            with out.open("ab") as more:
                subprocess.run([*words, "-o", "/dev/fd/1"], stdout=more, check=True)
                subprocess.run([*words, "-o", "/dev/stdout"], stdout=more, check=True)
                subprocess.run([*words, "-o", "/proc/thread-self/fd/1"], stdout=more, check=True)
        self.assertEqual(out.read_bytes(), b"first\n" + right * 3)
        for path, said in (("/dev/fd/99", "No such file or directory"), ("/dev/fd/0", "Bad file descriptor")):
            ran = subprocess.run([*words, "-o", path], stdin=out.open("rb"), capture_output=True)
            self.assertEqual((ran.returncode, ran.stderr.decode()), (exits.NO_INPUT, f"table: {path} can't be written: {said}\n"))
        self.assertEqual(out.read_bytes(), b"first\n" + right * 3)
        os.mkfifo(pipe)
        with subprocess.Popen(["cat", pipe], stdout=subprocess.PIPE) as reader:
            replacing.write_replacing(pipe, b"new")
            self.assertEqual(reader.stdout.read(), b"new")
        self.assertTrue(pipe.is_fifo())
        number = out.stat().st_ino
        for fault in replacing.FIXED:
            with mock.patch.object(os, "rename", side_effect=OSError(fault, "")):
                replacing.write_replacing(out, b"%d" % fault)
            self.assertEqual((out.read_bytes(), out.stat().st_ino), (b"%d" % fault, number))
        self.assertEqual(sorted(path.name for path in self.folder.iterdir()), ["a.csv", "day.csv", "pipe", "results.txt"])

    def test_at_a_terminal_the_file_is_named(self):
        texts = [self.journal.name, self.results.name]
        for name in TOOLS_HERE:
            out = {"plot": "day.svg", "report": "day.html", "table": "a.csv"}[name]
            words = ["-o", out] if name == "table" else []
            note = NOTE if name == "table" else ""
            self.assertEqual(run_at_a_terminal(name, *texts, *words, cwd=self.folder), f"{note}{name}: {out} was written\n")

    def test_a_name_that_a_tool_chooses_replaces_no_file(self):
        """A page has the name of the journal, which may be a stranger's choice."""
        here, texts = Path.cwd(), [self.journal.name, self.results.name]
        os.chdir(self.folder)
        self.addCleanup(os.chdir, here)
        for name, out, *words in (("plot", "day.svg"), ("report", "day.html", "--no-limits", "--curves", "none")):
            own = self.folder / out
            for kind in ("a file", "a link"):
                own.write_bytes(b"mine") if kind == "a file" else own.symlink_to("gone")
                said = f"{name}: {out} is there already: name it by --out to replace it\n"
                self.assertEqual(run_tool(name, *texts, *words), (exits.COMMAND_LINE, b"", said), kind)
                self.assertEqual(own.is_symlink() or own.read_bytes(), kind == "a link" or b"mine")
                own.unlink()
            self.assertEqual(run_tool(name, *texts, *words), (0, b"", ""))
            right = own.read_bytes()
            own.write_bytes(b"mine")
            self.assertEqual((run_tool(name, *texts, *words, "-o", out), own.read_bytes()), ((0, b"", ""), right))

    def test_no_file_of_another_run_is_replaced(self):
        """That run makes it after this one has looked, and before it writes."""
        here, texts, look = Path.cwd(), [self.journal.name, self.results.name], file_io.refuse_to_replace
        os.chdir(self.folder)
        self.addCleanup(os.chdir, here)
        Path("tables").mkdir()
        advice = ": name another folder, or replace it by --replace; new by now: tables/periods.csv"
        lines = [("table", "tables/orders.csv", ["--all", "tables", *texts], advice)]
        filled = ", and may have been filled in: write to another file"
        lines += [("table", "a.xlsx", ["--template", "a.xlsx"], filled)] * modules.has_module("openpyxl")
        for name, out, *words in (("plot", "day.svg"), ("report", "day.html", "--no-limits", "--curves", "none")):
            lines += [(name, out, [*texts, *words], file_io.NAMED_BY_OUT)] * (name in TOOLS_HERE)

        def looked(made, path, advice):
            look(path, advice)
            if path == made:
                Path(path).write_bytes(b"of another run")

        for name, out, words, advice in lines:
            with mock.patch.object(file_io, "refuse_to_replace", functools.partial(looked, out)):
                found = run_tool(name, *words)
            said = f"{NOTE if '--all' in words else ''}{name}: {out} is there already{advice}\n"
            self.assertEqual((found, Path(out).read_bytes()), ((exits.COMMAND_LINE, b"", said), b"of another run"))
        self.assertEqual([path for path in self.folder.rglob(".*")], [])

    def test_a_new_file_takes_no_name_that_another_has(self):
        """Also on a file system without links."""
        own, fault = self.folder / "a.csv", OSError(errno.EPERM, os.strerror(errno.EPERM))
        for links in (contextlib.nullcontext(), mock.patch.object(os, "link", side_effect=fault)):
            for make in (lambda: own.write_bytes(b"mine"), lambda: own.symlink_to("gone")):
                with links, contextlib.ExitStack() as cleanups:
                    put = replacing.write_new_beside_and_return_put(own, b"new", cleanups)
                    make()
                    self.assertRaises(FileExistsError, put)
                self.assertTrue(own.is_symlink() or own.read_bytes() == b"mine")
                own.unlink()
            with links, contextlib.ExitStack() as cleanups:
                replacing.write_new_beside_and_return_put(own, b"new", cleanups)()
                self.assertEqual(own.read_bytes(), b"new")
                self.assertEqual(sorted(path.name for path in self.folder.iterdir()), ["a.csv", "day.csv", "results.txt"])
            own.unlink()

    def test_a_new_file_is_written_whole_or_not_at_all(self):
        """On a file system without links."""
        own, limits = self.folder / "a.csv", resource.getrlimit(resource.RLIMIT_FSIZE)
        with mock.patch.object(os, "link", side_effect=OSError(errno.EPERM, "")), contextlib.ExitStack() as cleanups:
            put = replacing.write_new_beside_and_return_put(own, b"new" * 1_000, cleanups)
            resource.setrlimit(resource.RLIMIT_FSIZE, (1_000, limits[1]))
            try:
                with self.assertRaisesRegex(OSError, "File too large"):
                    put()
            finally:
                resource.setrlimit(resource.RLIMIT_FSIZE, limits)
        self.assertEqual(sorted(path.name for path in self.folder.iterdir()), ["day.csv", "results.txt"])

    def test_a_folder_is_made(self):
        texts, folder = [self.journal, self.results], self.folder / "a" / "b"
        self.assertEqual(run_tool("table", *texts, "--all", folder), (0, b"", NOTE))
        self.assertEqual({path.name for path in folder.iterdir()}, {f"{name}.csv" for name in day_tables.TABLES})
        said = f"{NOTE}table: {self.journal} can't be made: File exists\n"
        self.assertEqual(run_tool("table", *texts, "--all", self.journal), (exits.NO_INPUT, b"", said))

    def test_tables_replace_no_file_that_is_there(self):
        """Not by names that the tool gives them: the other tables aren't written either."""
        texts, own = [self.journal, self.results], self.folder / "orders.csv"
        for kind in ("a file", "a link"):
            if kind == "a file":
                own.write_bytes(b"orders of mine\n")
            else:
                own.unlink()
                own.symlink_to("gone.csv")
            for words in ([], ["--decimal-comma"]):
                said = f"table: {own} is there already: name another folder, or replace it by --replace\n"
                found = run_tool("table", *texts, "--all", self.folder, *words)
                self.assertEqual(found, (exits.COMMAND_LINE, b"", said), kind)
        self.assertEqual({path.name for path in self.folder.iterdir()}, {"day.csv", "results.txt", "orders.csv"})
        self.assertEqual(run_tool("table", *texts, "--all", self.folder, "--json"), (0, b"", NOTE))
        self.assertTrue(own.is_symlink())

    def test_tables_replace_all_files_or_none(self):
        """A folder has the name of one, or the disk is full."""
        texts, folder = (self.journal, self.results), self.folder / "tables"
        self.assertEqual(run_tool("table", *texts, "--all", folder), (0, b"", NOTE))
        for path in folder.iterdir():
            path.write_bytes(b"old")
        names, limits = sorted(folder.iterdir()), resource.getrlimit(resource.RLIMIT_FSIZE)
        resource.setrlimit(resource.RLIMIT_FSIZE, (10_000, limits[1]))
        try:
            found = run_tool("table", *texts, "--replace", "--all", folder)
        finally:
            resource.setrlimit(resource.RLIMIT_FSIZE, limits)
        said = f"{NOTE}table: {folder / 'statement.csv'} can't be written: File too large\n"
        self.assertEqual((found, [path.read_bytes() for path in folder.iterdir()]), ((exits.NO_INPUT, b"", said), [b"old"] * len(names)))
        (folder / "figures.csv").unlink()
        (folder / "figures.csv").mkdir()
        said = f"{NOTE}table: {folder / 'figures.csv'} can't be written: Is a directory\n"
        self.assertEqual(run_tool("table", *texts, "--replace", "--all", folder), (exits.NO_INPUT, b"", said))
        self.assertEqual({path.read_bytes() for path in folder.iterdir() if path.is_file()}, {b"old"})
        self.assertEqual(sorted(folder.iterdir()), names)

    def test_the_fault_of_one_of_several_files_names_the_new_ones(self):
        old, new = os.rename, {str(self.folder / name): b"new" for name in ("a", "b", "c")}

        def rename(made, path):
            if path.endswith("/c"):
                raise OSError(errno.ENOSPC, os.strerror(errno.ENOSPC))
            old(made, path)

        said = f"^{self.folder / 'c'} can't be written: No space left on device; new by now: {self.folder / 'a'}, {self.folder / 'b'}$"
        with mock.patch.object(os, "rename", rename), self.assertRaisesRegex(exits.Stop, said):
            file_io.write_files("table", new)
        self.assertEqual(sorted(path.name for path in self.folder.iterdir() if path.read_bytes() == b"new"), ["a", "b"])

    def test_a_full_folder_of_temporary_files_is_named(self):
        """A workbook is made there, and its own disk may have room."""
        limits = resource.getrlimit(resource.RLIMIT_FSIZE)
        resource.setrlimit(resource.RLIMIT_FSIZE, (100, limits[1]))
        try:
            status, _, err = run_tool("table", "--quiet", self.journal, self.results, "-o", self.folder / "x.xlsx")
        finally:
            resource.setrlimit(resource.RLIMIT_FSIZE, limits)
        self.assertEqual((status, err), (exits.NO_INPUT, f"table: {tempfile.gettempdir()} can't be used: File too large\n"))

    def heed_interrupts(self):
        """From now on Ctrl-C is an exception, as it is in a tool."""
        self.addCleanup(signal.signal, signal.SIGINT, signal.signal(signal.SIGINT, ending.raise_signal))
        patch = mock.patch.object(ending.Guarded, "heeded", -math.inf)
        patch.start()
        self.addCleanup(patch.stop)

    def test_an_interrupt_leaves_all_files_or_none(self):
        """Before the first is in its place none is written, and from then on all are."""
        self.heed_interrupts()
        for advice, call in ((None, "rename"), (file_io.NAMED_BY_OUT, "link")):
            for name, is_written in (("open", False), ("fsync", False), (call, True)):
                paths, real = [str(self.folder / f"{call} {name} {number}") for number in range(4)], getattr(os, name)

                def interrupted(*words):
                    returned = real(*words)
                    os.kill(os.getpid(), signal.SIGINT)
                    return returned

                ending.Guarded.heeded = -math.inf
                with self.subTest(call, name=name), mock.patch.object(os, name, interrupted):
                    self.assertRaises(KeyboardInterrupt, file_io.write_files, "table", dict.fromkeys(paths, b"new"), advice)
                    self.assertEqual([os.path.exists(path) for path in paths], [is_written] * 4)
                    self.assertEqual([path for path in self.folder.iterdir() if path.name.startswith(".")], [])

    def test_an_interrupt_ends_the_wait_for_a_reader(self):
        self.heed_interrupts()
        pipe, came = self.folder / "pipe", []
        os.mkfifo(pipe)

        def interrupt_or_read(*_):
            if came:
                self.addCleanup(os.close, os.open(pipe, os.O_RDONLY | os.O_NONBLOCK))  # it waits still: the test fails
            came.append(1)
            os.kill(os.getpid(), signal.SIGINT)

        self.addCleanup(signal.signal, signal.SIGALRM, signal.signal(signal.SIGALRM, interrupt_or_read))
        self.addCleanup(signal.setitimer, signal.ITIMER_REAL, 0)
        signal.setitimer(signal.ITIMER_REAL, 0.2, 20)
        self.assertRaises(KeyboardInterrupt, file_io.write_files, "table", {str(pipe): b"new"})
        self.assertEqual(len(came), 1)

    def test_tables_replace_files_if_they_are_asked_to(self):
        texts, folder = [self.journal, self.results], self.folder / "tables"
        folder.mkdir()
        Path(folder, "orders.csv").write_bytes(b"of another day\n")
        Path(folder, "mine.csv").write_bytes(b"mine\n")
        for _ in range(2):
            self.assertEqual(run_tool("table", *texts, "--replace", "--all", folder), (0, b"", NOTE))
        self.assertEqual(Path(folder, "orders.csv").read_bytes(), run_tool("table", *texts, "--rows", "orders")[1])
        self.assertEqual(Path(folder, "mine.csv").read_bytes(), b"mine\n")
        said = f"table: {self.journal} is one of the inputs, and would be lost: write to another file\n"
        named = self.folder / "periods.csv"
        self.journal.rename(named)
        self.journal.symlink_to(named.name)
        found = run_tool("table", *texts, "--replace", "--all", self.folder)
        self.assertEqual(found, (exits.COMMAND_LINE, b"", said.replace("day.csv", "periods.csv")))
        for words in ([], ["--all", self.folder / "a.xlsx"], ["-o", self.folder / "a.csv"], ["--journal"]):
            status, out, err = run_tool("table", *texts, "--replace", *words)
            said = "--replace goes with --all and the name of a folder"
            self.assertEqual((status, out, said in err), (exits.COMMAND_LINE, b"", True), words)

    def test_what_is_odd_about_results_is_said_in_words(self):
        """They are read nevertheless, and every tool first says the same as the audit."""
        text = read_results(AUCTION)
        for name in TOOLS_HERE:
            words = ["-o", "-"]
            self.write(AUCTION.read_bytes(), text)
            right = run_tool(name, self.journal, self.results, *words)
            for other, said in (
                (text.replace(b"\n", b"\r\n"), "the lines end with CR LF instead of LF alone"),
                (MARK + text, "the text begins with a byte order mark"),
            ):
                self.write(AUCTION.read_bytes(), other)
                status, out, err = run_tool(name, self.journal, self.results, *words)
                self.assertEqual(status, 0)
                if name != "report":  # which says it too
                    self.assertEqual(out, right[1])
                self.assertEqual(err, f"{right[2]}{name}: the encoding of the results differs ({said}): see tools/audit\n")

    def test_results_that_break_the_rules_are_said_to(self):
        self.write(AUCTION.read_bytes(), read_results(AUCTION).replace(b"welfare,3", b"welfare,4"))
        for name in TOOLS_HERE:
            status, _, err = run_tool(name, self.journal, self.results, "-o", "-")
            said = f"{name}: the results break the rules (results line 2: the welfare is 4"
            self.assertEqual((status, err.removeprefix(NOTE)[: len(said)]), (exits.DIFFERS, said))
        day = [self.journal, self.results]
        status, _, err = run_tool("compare", *day, AUCTION, AUCTION_RESULTS)
        said = "compare: the results break the rules"
        self.assertEqual((status, err[: len(said)]), (exits.DIFFERS, said))
        self.assertEqual(run_tool("compare", AUCTION, AUCTION_RESULTS, *day)[0], exits.DIFFERS)


class OtherKinds(unittest.TestCase):
    """Files of other kinds are named, with the command that reads them."""

    def archive(self, *names):
        made = io.BytesIO()
        with zipfile.ZipFile(made, "w") as archive:
            for name in names:
                archive.writestr(name, AUCTION.read_bytes())
        return made.getvalue()

    def test_every_tool_names_them(self):
        excel = "an Excel workbook (.xlsx)"
        table = "tools/table --journal FILE makes a journal"
        marked = "the text is in UTF-16: save it as plain CSV, in ASCII or UTF-8 without the mark, or convert it: iconv -f UTF-16"
        files = {
            gzip.compress(AUCTION.read_bytes()): ("a compressed file (.gz)", "gunzip FILE unpacks it"),
            self.archive("auction-day.csv"): ("an archive (.zip)", "unzip FILE unpacks it"),
            self.archive("[Content_Types].xml", "xl/workbook.xml"): (excel, table),
            self.archive("mimetype", "content.xml"): ("an OpenDocument workbook (.ods)", f"save it as .xlsx, from which {table}"),
            self.archive("xl/workbook.bin"): ("a binary Excel workbook (.xlsb)", f"save it as .xlsx, from which {table}"),
            self.archive("Index/Document.iwa"): ("a workbook of Apple Numbers (.numbers)", f"save it as .xlsx, from which {table}"),
            OLD + "EncryptedPackage".encode("utf-16-le"): ("an Excel workbook with a password", "save it without the password"),
            OLD + "Workbook".encode("utf-16-le"): ("an old Excel workbook (.xls)", f"save it as .xlsx, from which {table}"),
            AUCTION.read_text().encode("utf-16"): ("", marked),
        }
        tools = {
            "lint": ["-"],
            "audit": ["-", AUCTION_RESULTS],
            "table": ["-", AUCTION_RESULTS],
            "whatif": ["limit", "--participant", "GAS", "--all", "-", "--program", "false"],
            "compare": ["-", AUCTION_RESULTS, AUCTION, AUCTION_RESULTS],
            **{name: ["-", AUCTION_RESULTS, "-o", "-"] for name in TOOLS_HERE if name != "table"},
        }
        for (name, words), (data, (kind, advice)) in itertools.product(tools.items(), files.items()):
            with self.subTest(name, kind=kind):
                status, out, err = run_tool(name, *words, data=data)
                self.assertEqual(status, exits.FAULTY if name == "lint" else exits.NO_INPUT)
                said = (out.decode() if name == "lint" else err).splitlines()[:2]
                self.assertTrue(any(kind in line and advice in line for line in said), said)

    def test_results_and_tables_of_other_kinds(self):
        packed = gzip.compress(read_results(AUCTION))
        for name in ("audit", *TOOLS_HERE):
            status, _, err = run_tool(name, AUCTION, "-", *([] if name == "audit" else ["-o", "-"]), data=packed)
            said = f"{name}: standard input is a compressed file (.gz) instead of results; gunzip FILE unpacks it\n"
            self.assertEqual((status, err), (exits.NO_INPUT, said))
        # a workbook isn't results, and no tool makes results of it
        _, _, err = run_tool("table", AUCTION, "-", data=self.archive("xl/workbook.xml"))
        self.assertEqual(err, "table: standard input is an Excel workbook (.xlsx) instead of results\n")
        for data, kind in ((packed, "a compressed file (.gz): gunzip FILE"), (self.archive("a.csv"), "an archive (.zip): unzip FILE")):
            status, _, err = run_tool("table", "--journal", "-", data=data)
            self.assertEqual((status, err), (exits.NO_INPUT, f"table: standard input: this is {kind} unpacks it\n"))
        # alone, in place of the text of a day
        _, _, err = run_tool("table", "-", data=packed)
        self.assertEqual(err, "table: standard input is a compressed file (.gz) instead of a journal; gunzip FILE unpacks it\n")


if __name__ == "__main__":
    unittest.main()
