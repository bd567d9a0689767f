"""Files that aren't a desk's, full journals, hostile lines, and lines that are cut: a named fault, and nothing is changed."""

import contextlib
import errno
import fcntl
import itertools
import os
import pty
import random
import re
import resource
import select
import socket
import subprocess
import termios
import time
from collections.abc import Iterator
from pathlib import Path
from typing import Any

from desk import journals, kills, streams
from desk.device import (
    ABOVE_ANY_CALL,
    DESK,
    INPUT,
    LOCKED_LINE,
    OUTPUT,
    READ,
    ROOM,
    SECONDS,
    STREAM,
    SYNC,
    WRITE,
    DeskProgram,
    DeskRun,
    RefusedFileCalls,
    parse_events,
)
from desk.journals import DamProgram
from lib.base import rules
from shared.counts import Counts
from shared.crash_files import HEAD, MOST_FILE_BYTES, is_at_rest, parse_marked_lines_or_none
from shared.preload import HostileProgram, Words
from shared.printed import Printed
from shared.processes import pipes_of
from shared.records import CLOSE, DAY

NO_JOURNAL, TOO_LONG = b"file: the file isn't a desk's journal\n", b"file: the file has more than %d bytes\n" % MOST_FILE_BYTES
NO_FILE, FULL = b"file: it isn't a regular file with one name, or FILE-wal next to it isn't\n", b"file: the journal is full\n"
OWN_OUTPUT = b"file: standard output goes to it\n"
DATABASE, NOT_WRITTEN = b"file: a database's files have its name\n", b"file: its lines aren't as a desk writes them\n"
NO_LINES = b"file: its lines aren't a journal: "
NOBODY = 65_534
NO_TEXT = os.fsdecode(b"\xff")  # a word that isn't UTF-8
BATCH = 65_536  # bytes of a read
FULL_READS = (BATCH - 1, BATCH, BATCH + 1, 2 * BATCH)  # bytes that come in at once
AT_ONCE = sorted({*((1 << power) + step for power in range(9, 17) for step in (-1, 0, 1)), *FULL_READS, 3 * BATCH, 5 * BATCH, ROOM})
READS = 70_000  # more than 16 bits count
LINES = 300_000  # of an input that comes in by as many reads
LENGTHS = [round(1.5**power) for power in range(1, 29)]  # of lines, up to one that is too long
MANY_BEFORE = (300, 1_000, 8_000, 70_000)  # lines with a fault before a record
PATHS = (1_001, 1_024, 2_500, 4_000)  # bytes of long paths
LONG_WORDS = (9_000, 100_000, 131_000)  # letters; Linux takes words of 131,071 bytes at most
MEMORY = 32 << 20  # bytes of addresses, for the longest inputs and files
TOO_MANY_BYTES = (MOST_FILE_BYTES + 1, 3 << 30, 1 << 32)  # of a file
OTHER_FILES = [(0, 0, 1), (0, 0, 1 << 32), (0, 1, 0), (1, 0, 0)]  # how much greater their devices and numbers are than the desk's file's
FEW_FAULTS, MANY_FAULTS = 40_000, 90_000  # lines that have the same fault, of more than one batch
END = b"\x04"  # the byte that Ctrl-D sends to a terminal: a read ends there
# A line for each fault that a line has after its day.
LINES_BY_FAULT = {"NotAscii,7": b"cancel,\xff,,,,,,,\n", "NotOneRecord": b"\r\n", "FieldCount": b"cancel,A\n",
                  "BadField,3": b"cancel,A,a,,,,,,\n", "OtherDay": b"day,25,,,,,,,\n"}  # fmt: skip
HELP = b"""\
Usage: dam-desk FILE < COMMANDS
       dam-desk --journal FILE

Keeps the journal of a day in FILE. Each line of standard input is a record
of the journal, with the day first if FILE is new. Each line is answered on
standard output once its record is safe in FILE.

      --journal FILE  prints the journal in FILE, also while a desk has it
      --help          prints this help
"""


def fault_of_error(number: int) -> bytes:
    return f"file: {os.strerror(number)} (os error {number})\n".encode()


def file_of_records(*records: bytes) -> bytes:
    """A file of a desk with these lines."""
    return HEAD + b"".join(b"+" + record for record in records) + b"-"


def refused_files() -> Iterator[tuple[str, bytes, bytes]]:
    """Yields files that no desk wrote: each with its name, its bytes, and the fault of its opening or the beginning of that."""
    rng = random.Random("garbage")
    close = CLOSE
    for about, bytes_ in [
        ("two bytes", b"xy"), ("a line end", b"\n\n"), ("random bytes", rng.randbytes(5_000)), ("zero bytes", bytes(4_096)),
        ("a journal for replay", DAY + close), ("a program", b"\x7fELF" + bytes(60)), ("a database", b"SQLite format 3\0" + bytes(4_080)),
        ("another version", b"+dam-desk 2\n+" + DAY + b"-"), ("a longer version", b"+dam-desk 10\n-"), ("no mark", HEAD[1:] + b"+" + DAY),
        ("no line end", HEAD[:-1]), ("a return", b"+dam-desk 1\r\n-"), ("another mark", b"-dam-desk 1\n+" + DAY),
        ("a byte order mark", b"\xef\xbb\xbf" + HEAD),
        ("half a head", HEAD[:6]), ("a new file and more", b"-dam-desk 1\n--"),
    ]:  # fmt: skip
        yield about, bytes_, NO_JOURNAL
    yield "a byte too many", file_of_records(DAY).ljust(MOST_FILE_BYTES + 1), TOO_LONG
    yield "no room for a mark", HEAD + b"+".ljust(MOST_FILE_BYTES - len(HEAD) - 1, b"A") + b"\n", FULL
    for about, records, why in [
        ("no day", [close], b"the first record is not a day"), ("a word", [b"x\n"], b"the first record is not a day"),
        ("a broken command", [DAY, close, b"cancel,A,a,,,,,,\n"], b"field 3 of record 3 is bad"),
        ("fields that are missing", [DAY, b"close\n"], b"record 2 does not have nine fields"),
        ("a byte", [DAY, b"cancel,\xe9,,,,,,,\n"], b"byte"), ("a second day", [DAY, DAY], b"field 1 of record 2 is bad"),
        ("too many records", [DAY, *[close] * rules.MOST_RECORDS], b""),
    ]:  # fmt: skip
        yield about, file_of_records(*records), NO_LINES + why
    for about, torn in [("no mark at its end", b""), ("a torn end", b"x\n+" + close + b"x")]:
        yield f"no day and {about}", file_of_records(close)[:-1] + torn, NO_LINES + b"the first record is not a day"
        yield f"an empty line and {about}", file_of_records(DAY, b"\n")[:-1] + torn, NOT_WRITTEN
    for about, records in [
        ("quotes", [DAY, b'"close",,,,,,,,\n']), ("a return in a line", [DAY[:-1] + b"\r\n"]), ("an empty line", [DAY, b"\n", close]),
    ]:  # fmt: skip
        yield about, file_of_records(*records), NOT_WRITTEN


def check_files(counts: Counts, desk: DeskProgram, dam: DamProgram, whole: bool) -> None:
    begun = time.monotonic()
    before = counts.passed + counts.failed
    files = FileTests(counts, desk, dam)
    for about, bytes_, fault in refused_files():
        files.check_refused(about, bytes_, fault)
    files.check_kinds()
    files.check_privileges()
    files.check_command_lines()
    files.check_other_day()
    files.check_longest_file()
    files.check_too_long_files()
    files.check_cut_lines()
    files.check_lengths_of_lines()
    files.check_records_after_many_lines()
    files.check_faults_of_lines()
    files.check_closed_pipe()
    files.check_own_output()
    files.check_own_output_by_other_paths()
    files.check_other_output()
    files.check_full_journals()
    files.check_half_a_line()
    files.check_bytes_at_once()
    files.check_end_at_terminal()
    files.check_long_batches()
    files.check_many_reads()
    files.check_many_lines()
    files.check_hostile_lines(whole)
    files.check_memory_of_faults()
    print(f"files: {counts.passed + counts.failed - before} checks; {time.monotonic() - begun:.1f} s", flush=True)


class FileTests:
    def __init__(self, counts: Counts, desk: DeskProgram, dam: DamProgram) -> None:
        self.counts, self.desk, self.dam = counts, desk, dam

    def run_on_text(self, words: Words, text: bytes = CLOSE, **how: Any) -> Printed:
        return self.desk.capture_output(words, text, **how)

    def check_run(self, about: str, got: Printed, status: int, stdout: bytes, stderr: bytes, is_beginning: bool = False) -> None:
        is_line = got.stderr.startswith(stderr) and got.stderr.count(b"\n") == 1 if is_beginning else got.stderr == stderr
        self.counts.check(f"{about}: {got!r:.300}", (got.status, got.stdout) == (status, stdout) and is_line)

    def check_refused(self, about: str, bytes_: bytes, fault: bytes) -> None:
        """Opens a file that has to be refused, and prints its journal; it has to stay as it is."""
        file = self.desk.make_path()
        file.write_bytes(bytes_)
        before = file.stat().st_mtime_ns
        got = self.run_on_text([file])
        self.check_run(f"a file with {about}", got, 1, b"", fault, is_beginning=True)
        shown = self.run_on_text(["--journal", file])
        self.check_run(f"--journal of a file with {about}", shown, 1, b"", fault, is_beginning=True)
        after = file.read_bytes(), file.stat().st_mtime_ns
        self.counts.check(f"a file with {about} stays as it is", after == (bytes_, before))
        left = {path.name for path in file.parent.iterdir()}
        self.counts.check(f"a file with {about}: {left} are in its folder", left <= {"day.desk", "day.desk-wal"})

    def check_kinds(self) -> None:
        """Names that aren't regular files, or have other names."""
        for make, status, fault, may_print in [
            (lambda path: path.mkdir(), 1, NO_FILE, False),
            (lambda path: os.mkfifo(path), 1, NO_FILE, False),
            (lambda path: path.symlink_to("nowhere"), 1, NO_FILE, None),
            (lambda path: path.symlink_to("/dev/null"), 1, NO_FILE, False),
            (lambda path: path.symlink_to("/dev/zero"), 1, NO_FILE, False),
            (lambda path: path.symlink_to(path.name), 4, fault_of_error(40), False),
            (lambda path: socket.socket(socket.AF_UNIX).bind(str(path)), 1, NO_FILE, None),
            (lambda path: (path.parent / "other").write_bytes(b"") or path.hardlink_to(path.parent / "other"), 1, NO_FILE, True),
            (lambda path: (path.parent / "day.desk-journal").write_bytes(b"x"), 1, DATABASE, True),
            (lambda path: (path.parent / "day.desk-wal").mkdir(), 1, NO_FILE, True),
            (lambda path: (path.parent / "day.desk-wal").symlink_to("other"), 1, NO_FILE, True),
        ]:  # fmt: skip
            folder = self.desk.make_folder()
            path = folder / "day.desk"
            make(path)
            mode = oct(path.lstat().st_mode) if os.path.lexists(path) else "no file"
            about = f"{sorted(it.name for it in folder.iterdir())}, {mode}"
            before = read_facts_by_name(folder)
            self.check_run(about, self.run_on_text([path]), status, b"", fault)
            kept = {name: facts for name, facts in read_facts_by_name(folder).items() if name != "day.desk-wal" and name in before}
            self.counts.check(f"{about} stays as it is", kept == {name: facts for name, facts in before.items() if name != "day.desk-wal"})
            if may_print is False:
                self.check_run(f"--journal of {about}", self.run_on_text(["--journal", path]), status, b"", fault)
        self.check_run("a device", self.run_on_text(["/dev/null"]), 1, b"", NO_FILE)
        folder = self.desk.make_folder()
        self.check_run("a missing folder", self.run_on_text([folder / "none" / "day.desk"]), 4, b"", fault_of_error(2))
        self.check_run("a file as a folder", self.run_on_text([make_desk_file(folder) / "day.desk"]), 4, b"", fault_of_error(20))
        self.check_run("a missing file's journal", self.run_on_text(["--journal", folder / "none.desk"]), 4, b"", fault_of_error(2))
        self.check_run("a name that is too long", self.run_on_text([folder / ("A" * 256)]), 4, b"", fault_of_error(36))
        self.counts.check("no file was made", {it.name for it in folder.iterdir()} == {"plain"})
        self.check_journals_that_no_desk_opens()
        self.check_link()
        self.check_long_path()
        self.check_odd_names()

    def check_journals_that_no_desk_opens(self) -> None:
        """The journal of a file is printed though no desk opens it, for its second name or for what is next to it."""
        for make in [
            lambda file: file.with_name("second").hardlink_to(file),
            lambda file: file.with_name("plain-journal").write_bytes(b"x"),
            lambda file: file.with_name("plain-wal").mkdir(),
            lambda file: file.with_name("plain-wal").symlink_to("other"),
        ]:
            file = make_desk_file(self.desk.make_folder(), file_of_records(DAY, CLOSE))
            make(file)
            before = read_facts_by_name(file.parent)
            about = f"a desk's file in {sorted(before)}"
            self.check_run(f"--journal of {about}", self.run_on_text(["--journal", file]), 0, DAY + CLOSE, b"")
            self.counts.check(f"--journal changes nothing of {about}", read_facts_by_name(file.parent) == before)
            self.counts.check(f"{about} isn't opened", self.run_on_text([file]).status == 1)
            self.counts.check(f"{about} stays as it is", file.read_bytes() == file_of_records(DAY, CLOSE))

    def check_odd_names(self) -> None:
        """The journals of files whose names are like options, or have one character, and the same names after `./`; and desks with
        the names that aren't like options."""
        for name in ("-x.desk", "--help", "--journal", "-", "x", " ", "\n", "\U0001f4a1", "..."):
            folder = self.desk.make_folder()
            file = make_desk_file(folder, file_of_records(DAY)).rename(folder / name)
            self.check_run(f"--journal {name!r}", self.run_on_text(["--journal", name], b"", cwd=folder), 0, DAY, b"")
            self.check_run(f"./{name!r}", self.run_on_text([f"./{name}"], cwd=folder), 0, b"day,24\n1,done\n", b"")
            self.counts.check(f"the file {name!r}", file.read_bytes() == file_of_records(DAY, CLOSE))
            if not name.startswith("-"):
                self.check_run(repr(name), self.run_on_text([name], b"", cwd=folder), 0, b"day,24\n1,done\n", b"")

    def check_long_path(self) -> None:
        """A file under a long path with spaces and letters outside ASCII, and by its name alone."""
        for length in (0, *PATHS):
            folder = self.desk.make_folder() / "Märkte von morgen" / ("día " * 40 + "2026")
            folder.mkdir(parents=True)
            while (missing := length - len(os.fsencode(folder)) - len("/ein Tag.desk")) > 0:
                folder /= "A" * (missing - 1 if missing < 202 else 100)
                folder.mkdir()
            file = folder / "ein Tag.desk"
            about = f"a path of {len(os.fsencode(file)):,} bytes"
            self.counts.check(about, length in (0, len(os.fsencode(file))))
            self.check_run(about, self.run_on_text([file], DAY + CLOSE), 0, b"day,24\n1,done\n", b"")
            self.check_run(f"the journal under {about}", self.run_on_text(["--journal", file]), 0, DAY + CLOSE, b"")
            self.check_run("the same file by its name", self.run_on_text([file.name], b"", cwd=folder), 0, b"day,24\n1,done\n", b"")
            self.check_run("its journal by its name", self.run_on_text(["--journal", file.name], cwd=folder), 0, DAY + CLOSE, b"")

    def check_link(self) -> None:
        """A link to a file is followed; so two desks have one file."""
        folder = self.desk.make_folder()
        link, file = folder / "link", folder / "day.desk"
        file.write_bytes(b"")
        link.symlink_to("day.desk")
        self.check_run("a link", self.run_on_text([link], DAY + CLOSE), 0, b"day,24\n1,done\n", b"")
        self.counts.check("a link's file", file.read_bytes() == file_of_records(DAY, CLOSE) and link.is_symlink())
        self.check_run("a link's journal", self.run_on_text(["--journal", link]), 0, DAY + CLOSE, b"")
        with self.desk.start(link) as first:
            stdin, stdout = pipes_of(first)
            stdout.readline()
            self.check_run("a second desk by the file's name", self.run_on_text([file]), 4, b"", LOCKED_LINE)
            stdin.close()

    def check_privileges(self) -> None:
        """A file or a folder that may be read only, or not at all."""
        folder = self.desk.make_folder()
        for path in (self.desk.room, folder):
            path.chmod(0o755)
        own: dict[str, Any] = {"user": NOBODY, "group": NOBODY, "extra_groups": []} if os.geteuid() == 0 else {}
        file = make_desk_file(folder, file_of_records(DAY))
        for mode, fault, shown in [(0o444, fault_of_error(13), DAY), (0o000, fault_of_error(13), None)]:
            file.chmod(mode)
            self.check_run(f"a file of mode {mode:o}", self.run_on_text([file], **own), 4, b"", fault)
            right = (0, shown, b"") if shown else (4, b"", fault)
            self.check_run(f"--journal of a file of mode {mode:o}", self.run_on_text(["--journal", file], **own), *right)
        file.chmod(0o666)
        folder.chmod(0o555)
        self.check_run("a folder that may only be read", self.run_on_text([file], **own), 4, b"", fault_of_error(13))
        self.check_run("a new file in such a folder", self.run_on_text([folder / "new"], **own), 4, b"", fault_of_error(13))
        self.check_run("--journal in such a folder", self.run_on_text(["--journal", file], **own), 0, DAY, b"")
        is_alone = [it.name for it in folder.iterdir()] == ["plain"]
        self.counts.check("nothing was made", is_alone and file.read_bytes() == file_of_records(DAY))

    def check_command_lines(self) -> None:
        """Command lines that aren't the desk's."""
        lines: list[list[str]] = [
            [], ["a", "b"], ["a", "--journal"], ["--journal"], ["--journal", "a", "b"], ["--journal"] * 3, ["--other"], ["-h"], ["-"],
            ["--help", "a"], ["a", ""], ["", "a"], ["--journal", "a", ""], ["", "--help"], [NO_TEXT], ["--journal", NO_TEXT],
        ]  # fmt: skip
        complete = [["a"], ["--journal", "a"], ["--help"]]
        lines += [[*words, *["extra"] * count] for words in complete for count in (1, 2, 1_000)]
        for word in ("A" * length for length in LONG_WORDS):
            lines += [["-" + word], ["--" + word], [word, "a"], ["a", word], ["--journal", word, "a"], ["--journal=" + word]]
        for words in lines:
            shown = f"{[word[:20] for word in words[:4]]} of {[*map(len, words[:4])]} letters"
            folder, about = self.desk.make_folder(), f"{len(words)} words, {shown}"
            self.check_run(about, self.run_on_text(words, cwd=folder), 2, b"", b"command line\n" + HELP)
            self.counts.check(f"{about} make no file", not list(folder.iterdir()))
        ran = subprocess.run([NO_TEXT, "--help"], executable=self.desk.words[0], capture_output=True, timeout=SECONDS)
        self.check_run("a program whose path isn't UTF-8", Printed(ran.returncode, ran.stdout, ran.stderr), 0, HELP, b"")
        for option, length in itertools.product(((), ("--journal",)), LONG_WORDS):
            fault = fault_of_error(errno.ENAMETOOLONG)
            self.check_run(f"{option} and a name of {length:,} letters", self.run_on_text([*option, "A" * length]), 4, b"", fault)
        for words in ([""], ["--journal", ""]):
            self.check_run(f"an empty name in {words}", self.run_on_text(words), 4, b"", fault_of_error(errno.ENOENT))
        got = self.run_on_text(["--help"])
        self.check_run("the help", got, 0, HELP, b"")

    def check_other_day(self) -> None:
        """Another day's record enters nothing."""
        for periods in rules.DAYS:
            for other in rules.DAYS:
                file = self.desk.make_path()
                own, their = (b"day,%d,,,,,,,\n" % it for it in (periods, other))
                self.run_on_text([file], own)
                before = file.read_bytes(), file.stat().st_mtime_ns
                answer = b"day,%d\n" % periods
                right = answer + (answer if own == their else b"fault,1,OtherDay\n")
                self.check_run(f"a day of {other} after {periods}", self.run_on_text([file], their), 0, right, b"")
                self.counts.check("nothing was changed", before == (file.read_bytes(), file.stat().st_mtime_ns))

    def check_longest_file(self) -> None:
        """A file of the greatest length, most of which doesn't count."""
        file = make_desk_file(self.desk.make_folder(), file_of_records(DAY).ljust(MOST_FILE_BYTES))
        self.check_run("a file of the greatest length", self.run_on_text([file]), 0, b"day,24\n1,done\n", b"")
        held = parse_marked_lines_or_none(file.read_bytes())
        self.counts.check("a file of the greatest length holds both lines", held == b"+" + DAY + b"+" + CLOSE)
        file.write_bytes((file_of_records(DAY) + b"\n" * 9).ljust(MOST_FILE_BYTES, b"+"))
        self.check_run("a file with line ends after its mark", self.run_on_text([file]), 0, b"day,24\n1,done\n", b"")
        self.counts.check("a file with line ends after its mark is at rest", is_at_rest(file.read_bytes()))

    def check_too_long_files(self) -> None:
        """Files that are too long are refused by their length: no byte of them is read, and no memory taken for them."""
        for count, words in itertools.product(TOO_MANY_BYTES, [(), ("--journal",)]):
            file = make_desk_file(self.desk.make_folder(), file_of_records(DAY))
            os.truncate(file, count)
            got = self.run_on_text([*words, file], preexec_fn=limit_memory)
            self.check_run(f"{words} of a file of {count:,} bytes, in little memory", got, 1, b"", TOO_LONG)
            self.counts.check(f"{words} of a file of {count:,} bytes: it stays as long", file.stat().st_size == count)
            if got.stderr == TOO_LONG:
                read = [event for event in self.desk.run(file, words=words).events if event.kind == READ]
                self.counts.check(f"{words} of a file of {count:,} bytes: {len(read)} reads", not read)
            file.unlink()

    def check_cut_lines(self) -> None:
        """An input that ends anywhere: the last line isn't entered, even if it is a record."""
        text = DAY + b"submit,A,S1,hour,sell,3000,1:10,,\r\n" + b"cancel,A,S1,,,,,,\n"
        for length in range(len(text) + 1):
            file = self.desk.make_path()
            reader = streams.expected_desk_of(text[:length])
            right = b"".join(reader.capture_output_of_dam(self.dam))
            self.check_run(f"an input of {length} bytes", self.run_on_text([file], text[:length]), 0, right, b"")
            marked = b"".join(b"+" + record for record in reader.records)
            self.counts.check(f"the file after {length} bytes", parse_marked_lines_or_none(file.read_bytes()) == marked)

    def check_lengths_of_lines(self) -> None:
        """Lines of each length: a day and a command after empty records, a byte over 127 at the end, and one in which the input ends."""
        for length in sorted({*LENGTHS, *(1 << power for power in range(17)), streams.LONGEST_LINE - 1, streams.LONGEST_LINE + 1}):
            lines = [record.rjust(length + 1, b"\r") for record in (DAY, b"cancel,A,S1,,,,,,\n", CLOSE)]
            text = b"".join([*lines, b"\xff\n".rjust(length + 1, b"A"), b"A" * length])
            reader = streams.expected_desk_of(DAY + text)
            file = self.desk.make_path()
            right = b"".join(reader.capture_output_of_dam(self.dam))
            self.check_run(f"lines of {length:,} bytes", self.run_on_text([file], DAY + text), 0, right, b"")
            marked = b"".join(b"+" + record for record in reader.records)
            self.counts.check(f"the file after lines of {length:,} bytes", parse_marked_lines_or_none(file.read_bytes()) == marked)
            reader, file = streams.expected_desk_of(text), self.desk.make_path()
            right = b"".join(reader.capture_output_of_dam(self.dam))
            self.check_run(f"a day of {length:,} bytes", self.run_on_text([file], text), 0, right, b"")

    def check_records_after_many_lines(self) -> None:
        """The day, commands and a line that is cut, after many lines with a fault."""
        for count in MANY_BEFORE:
            text = b"".join([b"A\n" * count, DAY, b"A\n" * count, CLOSE, b"day,25,,,,,,,\n", DAY, CLOSE, CLOSE[:-1]])
            words = [*[b"NotDay"] * count, None, *[b"FieldCount"] * count, None, b"OtherDay", None, None, b"CutShort"]
            replies = iter([b"day,24\n", b"1,done\n", b"day,24\n", b"2,refused,Closed\n"])
            right = b"".join(b"fault,%d,%b\n" % (at, word) if word else next(replies) for at, word in enumerate(words, 1))
            file = self.desk.make_path()
            self.check_run(f"records after {count:,} lines with a fault", self.run_on_text([file], text), 0, right, b"")
            self.counts.check(f"the file after {count:,} such lines", file.read_bytes() == file_of_records(DAY, CLOSE, CLOSE))

    def check_faults_of_lines(self) -> None:
        """A fault in each field, and lines of several records, which a return parts: before the day, and on a day of each length."""
        order = b"submit,A,B1,block,buy,1,1:1,,"
        whole = [DAY[:-1].split(b","), order.split(b",")]
        lines = [b",".join([*fields[:at], b"?", *fields[at + 1 :]]) for fields in whole for at in range(9)]
        lines += [b"\r".join(records) for records in ([order, DAY[:-1]], [DAY[:-1], order], [b"", b""], [b"", order, b"", order])]
        lines += [b"\r".join([record[:-1]] * count) for record in (CLOSE, DAY) for count in (2, 3, 100, streams.LONGEST_LINE // len(DAY))]
        for periods in rules.DAYS:
            text = b"".join(line + b"\n" for line in [*lines, b"day,%d,,,,,,," % periods, *lines])
            reader, file = streams.expected_desk_of(text), self.desk.make_path()
            right = b"".join(reader.capture_output_of_dam(self.dam))
            self.check_run(f"lines with faults on {periods} periods", self.run_on_text([file], text), 0, right, b"")
            is_right = right.count(b"fault,") == 2 * len(lines) and file.read_bytes() == file_of_records(*reader.records)
            self.counts.check(f"all of {len(lines)} lines have a fault, on {periods} periods", is_right)

    def check_closed_pipe(self) -> None:
        """Nobody reads the answers."""
        file = self.desk.make_path()
        ours, theirs = os.pipe()
        os.close(ours)
        ran = subprocess.run([*self.desk.words, str(file)], input=DAY + CLOSE, stdout=theirs, stderr=subprocess.PIPE, restore_signals=False)
        os.close(theirs)
        self.check_run("answers that nobody reads", Printed(ran.returncode, b"", ran.stderr), 4, b"", b"device: write after 0 bytes\n")
        self.check_run("opened again", self.run_on_text([file], b""), 0, b"day,24\n1,done\n", b"")
        for stream in ("<&-", ">&-", "2>&-", "<&- >&- 2>&-"):
            file = self.desk.make_path()
            words = ["sh", "-c", f'exec "$0" "$@" {stream}', *self.desk.words, str(file)]
            subprocess.run(words, input=DAY + CLOSE, stdout=subprocess.PIPE, stderr=subprocess.PIPE)
            marked = parse_marked_lines_or_none(file.read_bytes())
            self.counts.check(f"a closed stream {stream}: {marked!r}", marked in (b"", b"+" + DAY + b"+" + CLOSE))

    def check_own_output(self) -> None:
        """A file that is the desk's own output, which would destroy it: of no bytes, of a day alone, of over a megabyte, and a longest."""
        longest = (file_of_records(*journals.longest_records(count)) for count in (1_500, rules.MOST_RECORDS - 2))
        for mode, before in itertools.product(("ab", "r+b"), [b"", file_of_records(DAY), *longest]):
            file = make_desk_file(self.desk.make_folder(), before)
            got = self.run_with_output(file, file, mode)
            self.check_run(f"an output to the file itself, opened as {mode}, of {len(before):,} bytes", got, 1, before, OWN_OUTPUT)

    def check_own_output_by_other_paths(self) -> None:
        """The same if the path is another one of that file."""
        for before in (b"", file_of_records(DAY)):
            folder, linked = self.desk.make_folder(), self.desk.make_folder() / "linked"
            file = make_desk_file(folder)
            (folder / "symbolic").symlink_to(file.name)
            (folder / "second").symlink_to("symbolic")
            (folder / "hard").hardlink_to(file)
            linked.symlink_to(folder)
            paths = [file.name, f"./{file.name}", "symbolic", "second", "hard", "/dev/stdout", "/dev/fd/1", "/proc/self/fd/1"]
            for path in [*paths, str(linked / file.name), str(linked / "symbolic")]:
                file.write_bytes(before)
                got = self.run_with_output(path, file, cwd=folder)
                self.check_run(f"an output to the file at {path}, of {len(before)} bytes", got, 1, before, OWN_OUTPUT)

    def check_other_output(self) -> None:
        """An output to another file, which may differ from the desk's by its number alone or by its device alone."""
        for more in ((0, 0, 0), *OTHER_FILES):
            folder = self.desk.make_folder()
            file = make_desk_file(folder, file_of_records(DAY))
            said = self.desk.environment_for(file, DESK_OUTPUT=" ".join(map(str, more)))
            got = self.run_with_output(file, folder / "answers", env=said)
            right, entered = ((0, b"day,24\n1,done\n", b""), [CLOSE]) if any(more) else ((1, b"", OWN_OUTPUT), [])
            self.check_run(f"an output to a file whose device and number are {more} greater", got, *right)
            self.counts.check(f"the desk's file, {more} before that", file.read_bytes() == file_of_records(DAY, *entered))

    def run_with_output(self, path: str | Path, output: Path, mode: str = "ab", **how: Any) -> Printed:
        """Runs the desk with its output to a file; that file's bytes are what it printed."""
        with output.open(mode) as stdout:
            ran = subprocess.run([*self.desk.words, str(path)], input=CLOSE, stdout=stdout, stderr=subprocess.PIPE, timeout=SECONDS, **how)
        return Printed(ran.returncode, output.read_bytes(), ran.stderr)

    def check_full_journals(self) -> None:
        """A journal at its limit takes a close, and then nothing."""
        rng = random.Random("full")
        most = rules.MOST_RECORDS - 2
        _, *commands = kills.draw_load(rng, most)
        each_day = [(f"orders on {periods} periods", [b"day,%d,,,,,,,\n" % periods, *commands]) for periods in rules.DAYS]
        for about, records in [*each_day, ("closes", [DAY] + [CLOSE] * most), ("long names", journals.draw_long_names(rng, most)),
                               ("wide orders", journals.longest_records(most))]:  # fmt: skip
            self.check_full_journal(about, journals.Journal([*records, CLOSE], self.dam))

    def check_full_journal(self, about: str, journal: journals.Journal) -> None:
        file, count = self.desk.make_path(), len(journal) - 1
        full = b"fault,%d,JournalFull\n"
        extra = [b"cancel,A,B,,,,,,\n", b"cancel,A\n", journal.records[0]]
        got = self.run_on_text([file], b"".join([*journal.records[:count], *extra, CLOSE, *extra, CLOSE]))
        day = journal.answers[0]
        fields = b"fault,%d,FieldCount\n"
        more = [full % (count + 1), fields % (count + 2), day, journal.answers[count],
                full % (count + 5), fields % (count + 6), day, full % (count + 8)]  # fmt: skip
        self.check_run(f"a full journal of {about}", got, 0, journal.printed_text(count) + b"".join(more), b"")
        before = file.read_bytes(), file.stat().st_mtime_ns
        self.counts.check(f"the file of {about}", before[0] == HEAD + journal.all_marked + b"-")
        got = self.run_on_text([file], CLOSE + extra[0])
        self.check_run(f"a full journal of {about} is opened", got, 0, journal.all_printed + full % 1 + full % 2, b"")
        self.counts.check(f"a full journal of {about} stays as it is", before == (file.read_bytes(), file.stat().st_mtime_ns))
        shown = self.run_on_text(["--journal", file])
        self.check_run(f"the journal of {about}", shown, 0, journal.text(len(journal)), b"")
        is_right = self.dam.capture_replay(shown.stdout).stdout == journal.all_printed
        self.counts.check(f"the journal of {about} is replayed", is_right)

    def check_half_a_line(self) -> None:
        """Whole lines are answered while the next one is still to come whole."""
        with self.desk.start(self.desk.make_path()) as desk:
            stdin, stdout = pipes_of(desk)
            stdin.write(DAY + CLOSE[:3])
            stdin.flush()
            ready, _, _ = select.select([stdout], [], [], SECONDS)
            got = os.read(stdout.fileno(), 1 << 16) if ready else b""
            self.counts.check(f"a line is answered before the next one is whole: {got!r}", got == b"day,24\n")
            rest, _ = desk.communicate(CLOSE[3:])
            self.counts.check(f"and that one then: {rest!r}", rest == b"1,done\n")

    def check_bytes_at_once(self) -> None:
        """Whole lines are answered before the desk reads on, however many bytes come in at once: those of a full read, of several, of a few
        more, and others. They enter records, or have a fault; they are short, or of 512 bytes and more."""
        parts = [DAY, *(text_of_length(b"A\n", b"A", 2, length) for length in FULL_READS)]
        count = b"".join(parts).count(b"\n")
        self.check_parts("lines with a fault", parts, [b"day,24\n", *(b"fault,%d,FieldCount\n" % number for number in range(2, count + 1))])
        self.check_records("records", [text_of_length(b"cancel,A,S1,,,,,,\n", b"\r", 512, length) for length in AT_ONCE])
        for length in FULL_READS:
            self.check_records("short records", [text_of_length(CLOSE, b"\r", len(CLOSE), length)])

    def check_records(self, about: str, parts: list[bytes]) -> None:
        parts = [DAY, *parts]
        self.check_parts(about, parts, streams.expected_desk_of(b"".join(parts)).capture_output_of_dam(self.dam))

    def check_parts(self, about: str, parts: list[bytes], answers: list[bytes]) -> None:
        """Writes each part once the lines of all before it are answered, while the desk waits for more."""
        left = iter(answers)
        file = self.desk.make_path()
        log = file.with_name("log")
        log.write_bytes(b"")
        with self.desk.start(file, env={**os.environ, **self.desk.environment_for(file, DESK_LOG=str(log))}) as desk:
            given, answered = (pipe.fileno() for pipe in pipes_of(desk))
            fcntl.fcntl(given, fcntl.F_SETPIPE_SZ, ROOM)
            for part in parts:
                os.write(given, part)
                right = b"".join(itertools.islice(left, part.count(b"\n")))
                got = read_answers(answered, len(right))
                self.counts.check(f"{about}: {len(got)} of {len(right)} bytes answer {len(part):,} that came in at once", got == right)
                if got != right:
                    break
            rest, _ = desk.communicate()
            self.counts.check(f"{about}: a desk ends after {len(parts)} parts: {desk.returncode}, {rest!r:.80}", (desk.returncode, rest) == (0, b""))
        made = [event.answer for event in parse_events(log.read_bytes()) if event.kind == INPUT]
        whole = [min(BATCH, len(part) - at) for part in parts for at in range(0, len(part), BATCH)]
        self.counts.check(f"{about}: reads of {made} bytes, and not {whole}", made == [*whole, 0])

    def check_end_at_terminal(self) -> None:
        """At a terminal, one Ctrl-D at the beginning of a line ends the input, and one in a line doesn't. Two more are typed, so that a
        desk that reads on ends too."""
        cut = CLOSE[:3]
        for typed, stdout, counts in [
            ([b""], b"", [0]),
            ([DAY], b"day,24\n", [len(DAY), 0]),
            ([DAY + CLOSE], b"day,24\n1,done\n", [len(DAY), len(CLOSE), 0]),
            ([DAY + cut, CLOSE[3:]], b"day,24\n1,done\n", [len(DAY), len(cut), len(CLOSE) - len(cut), 0]),
            ([DAY + cut, b""], b"day,24\nfault,2,CutShort\n", [len(DAY), len(cut), 0]),
        ]:  # fmt: skip
            ran = self.run_at_terminal(b"".join(part + END for part in [*typed, b"", b""]))
            read = [event.answer for event in ran.events if event.kind == INPUT]
            about = f"{typed} typed, with Ctrl-D after each: {ran.printed}, reads of {read} bytes"
            self.counts.check(about, (ran.printed, read) == ((0, stdout, b""), counts))

    def run_at_terminal(self, typed: bytes) -> DeskRun:
        """Runs the desk with a terminal as its input, at which this was typed before."""
        ours, theirs = pty.openpty()
        modes = termios.tcgetattr(theirs)
        modes[3] &= ~termios.ECHO
        termios.tcsetattr(theirs, termios.TCSANOW, modes)
        os.write(ours, typed)
        try:
            return self.desk.run_on_source(self.desk.make_path(), theirs)
        finally:
            os.close(ours)
            os.close(theirs)

    def check_long_batches(self) -> None:
        """A file as the input comes in by reads of 65,536 bytes, and each of these is a batch of two syncs, two writes and one output."""
        text = DAY + b"cancel,ABCDEFGH,NAME-NUMBER1,,,,,,\n" * 6_000
        counted = []
        for given in (b"", text):
            folder = self.desk.make_folder()
            path = make_desk_file(folder, given)
            with path.open("rb") as source:
                events = self.desk.run_on_source(folder / "day.desk", source).events
            kinds = [event.kind for event in events if event.target in (DESK, STREAM)]
            counted.append([kinds.count(kind) for kind in (SYNC, WRITE, OUTPUT)])
        most = -(-len(text) // BATCH)
        for kind, without, made, each in zip((SYNC, WRITE, OUTPUT), *counted, (2, 2, 1)):
            about = f"{made - without} calls {kind} for {len(text):,} bytes, at most {each * most}"
            self.counts.check(about, 0 < made - without <= each * most)
        again = self.desk.run(folder / "day.desk")
        outputs = sum(event.kind == OUTPUT for event in again.events)
        self.counts.check(f"{outputs} writes of {len(again.stdout)} bytes at an opening", outputs == 1 and len(again.stdout) > BATCH)

    def check_many_reads(self) -> None:
        """A desk reads as long as there is input: each line is sent once the one before is answered."""
        with self.desk.start(make_desk_file(self.desk.make_folder(), file_of_records(DAY))) as desk:
            (given, answered), number = (pipe.fileno() for pipe in pipes_of(desk)), 0
            is_right = os.read(answered, BATCH) == b"day,24\n"
            while is_right and number < READS:
                number += 1
                with contextlib.suppress(BrokenPipeError):
                    os.write(given, b"A\n")
                is_right = os.read(answered, BATCH) == b"fault,%d,FieldCount\n" % number
            self.counts.check(f"line {number} of as many reads is answered", is_right)
            rest, _ = desk.communicate()
            self.counts.check(f"a desk ends after {number} reads: status {desk.returncode}", (desk.returncode, rest) == (0, b""))

    def check_many_lines(self) -> None:
        """The same for more lines, which are all there at once: each read moves the two bytes of one."""
        file = make_desk_file(self.desk.make_folder(), file_of_records(DAY))
        refusal = " ".join(map(str, RefusedFileCalls(INPUT, 1, ABOVE_ANY_CALL, most=2)))
        got = self.run_on_text([file], b"A\n" * LINES, env=self.desk.environment_for(file, DESK_REFUSE=refusal))
        right = b"day,24\n" + b"".join(b"fault,%d,FieldCount\n" % number for number in range(1, LINES + 1))
        about = f"{LINES:,} lines in as many reads: status {got.status}, {got.stderr[:80]!r}, {got.stdout[-60:]!r}"
        self.counts.check(about, got == (0, right, b""))

    def check_hostile_lines(self, whole: bool) -> None:
        """16 MB of lines that aren't records, in little memory."""
        length = 16_000_000
        rows = [("one line that never ends", b"A" * length, lambda number: b"CutShort"),
                ("lines that are too long", (b"A" * 65_537 + b"\n") * (length // 65_538), lambda number: b"TooLong"),
                ("the longest lines", (b"," * 65_536 + b"\n") * (length // 65_537), lambda number: b"FieldCount"),
                ("quotes", (b'"' * 65_536 + b"\n") * (length // 65_537), lambda number: b"FieldCount"),
                ("zero bytes", (bytes(65_000) + b"\n") * (length // 65_001), lambda number: b"FieldCount"),
                ("lines of many lengths", b"".join(b"A" * length + b"\n" for length in LENGTHS),
                 lambda number: b"TooLong" if LENGTHS[number - 1] > 65_536 else b"FieldCount"),
                ("bytes over 127", (b"cancel,A,\xff\n" * 65_536)[: 11 << 16], lambda number: b"NotAscii,9"),
                ("empty lines", b"\n" * (length if whole else 1 << 20), lambda number: b"NotOneRecord")]  # fmt: skip
        for about, text, word in rows:
            file = make_desk_file(self.desk.make_folder(), file_of_records(DAY))
            begun = time.monotonic()
            got = self.run_on_text([file], text, preexec_fn=limit_memory)
            count = max(1, text.count(b"\n"))
            right = b"day,24\n" + b"".join(b"fault,%d,%b\n" % (number, word(number)) for number in range(1, count + 1))
            is_right = got == (0, right, b"") and file.read_bytes() == file_of_records(DAY)
            about = f"{about}: status {got.status}, {got.stderr[:80]!r}, {got.stdout[:60]!r}, {time.monotonic() - begun:.1f} s"
            self.counts.check(about, is_right)

    def check_memory_of_faults(self) -> None:
        """Many lines with a fault take as much memory as few: what the answer to a line took is given back, whichever fault it says. Two faults
        aren't tried: `TooLong`, whose lines are long, and `CutShort`, which comes once."""
        program = HostileProgram(self.desk.words[0], self.desk.room)
        full = file_of_records(DAY, *[CLOSE] * (rules.MOST_RECORDS - 1))
        after_day = [(word, file_of_records(DAY), line) for word, line in LINES_BY_FAULT.items()]
        for word, before, line in [("NotDay", b"", CLOSE), ("JournalFull", full, CLOSE), *after_day]:
            few, many = (self.measure_peak_of_fault(program, word, before, line * count) for count in (FEW_FAULTS, MANY_FAULTS))
            about = f"{MANY_FAULTS:,} lines with the fault {word} hold {many:,} bytes, and {FEW_FAULTS:,} of them {few:,}"
            self.counts.check(about, many < few + BATCH)

    def measure_peak_of_fault(self, program: HostileProgram, word: str, before: bytes, text: bytes) -> int:
        """The most bytes that a desk holds while it answers lines with this fault."""
        printed, peak, _ = program.measure_peak([make_desk_file(self.desk.make_folder(), before)], text)
        answered = len(re.findall(rb"^fault,\d+,%b$" % word.encode(), printed.stdout, re.MULTILINE))
        is_right = (printed.status, printed.stderr, answered) == (0, b"", text.count(b"\n"))
        self.counts.check(f"{answered:,} lines are answered with the fault {word}: {printed!r:.300}", is_right)
        return peak


def text_of_length(line: bytes, padding: bytes, width: int, length: int) -> bytes:
    """A text of this length in lines that mean the same: all have this width, but the first is as much longer as is needed."""
    count, rest = divmod(length, width)
    return line.rjust(width + rest, padding) + line.rjust(width, padding) * (count - 1)


def read_answers(pipe: int, count: int) -> bytes:
    """This many bytes of a desk's answers, or those that came within a time limit."""
    found, end = b"", time.monotonic() + SECONDS
    while len(found) < count and select.select([pipe], [], [], max(0, end - time.monotonic()))[0]:
        if not (more := os.read(pipe, count - len(found))):
            break
        found += more
    return found


def limit_memory() -> None:
    """This process has little memory."""
    resource.setrlimit(resource.RLIMIT_AS, (MEMORY, MEMORY))


def make_desk_file(folder: Path, bytes_: bytes = b"x") -> Path:
    path = folder / "plain"
    path.write_bytes(bytes_)
    return path


def read_facts_by_name(folder: Path) -> dict[str, tuple[int, int, int]]:
    """The names in a folder, each with its kind, length and time."""
    facts = {path.name: path.lstat() for path in folder.iterdir()}
    return {name: (it.st_mode, it.st_size, it.st_mtime_ns) for name, it in facts.items()}
