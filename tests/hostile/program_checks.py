"""Checks of the program on its own, each of one property: its streams, threads, seeds, texts, stacks and books of each size."""

import fcntl
import io
import itertools
import os
import subprocess
import sys
from collections.abc import Iterator, Sequence

from hostile import costs_by_shape, peaks, right_answers
from hostile.rows import AUCTION, OPEN_AUCTION
from hostile.row_runner import AnswerToRow, RowRunner
from lib.base import rules
from shared.generated_books import generate_book
from shared.preload import LEFT, SECONDS, HostileProgram, RefusedCalls, Words
from shared.printed import Printed
from shared.records import CLOSE, DAY, journal_text, submits_of_book

CHUNK = 65_536  # bytes of a read
LENGTHS = [10_000, CHUNK - 1, CHUNK, 2 * CHUNK, 100_000, 1_000_000, 4_000_000, 10_000_000, rules.MOST_BYTES]  # of texts that are read
PIPE = 1 << 20  # the most bytes of a pipe
COMMANDS = [1_001, 4_097, rules.MOST_DAY_COMMANDS]  # of larger days
AMENDS = [9, 1_100, rules.MOST_DAY_COMMANDS - rules.MOST_BLOCKS - 100]  # of all periods, whose journals have 40 KB, 900 KB and 8 MB
SMALL_BOOK, STEP = 30, 250  # orders, and those that a book has more than the one before


def run_with_closed_stream(program: HostileProgram, words: Words, data: bytes, stream: str) -> Printed:
    """The output if a standard stream is closed from the start."""
    command = ["sh", "-c", f'exec "$0" "$@" {stream}', program.path, *words]
    with open(program.write_input(data), "rb") as stdin:
        ran = subprocess.run(command, stdin=stdin, stdout=subprocess.PIPE, stderr=subprocess.PIPE, timeout=SECONDS)
    return Printed(ran.returncode, ran.stdout, ran.stderr)


def check_devices(runs: RowRunner) -> None:
    """Standard streams that are closed or full, or that no program reads."""
    for words, data in [(["replay"], AUCTION), (["clear"], AUCTION), (["day"], OPEN_AUCTION), (["--help"], b"")]:
        runs.check(f"{words[0]} to a closed stream", is_failed_write(run_with_closed_stream(runs.program, words, data, ">&-")))
        status = run_with_closed_stream(runs.program, words, data, ">&- 2>&-").status
        runs.check(f"{words[0]} with no standard error", status == right_answers.MACHINE)
        if data:
            runs.check(f"{words[0]} of a closed stream", run_with_closed_stream(runs.program, words, data, "<&-") == right_answers.READ)
        with open("/dev/full", "wb") as full:
            got, _ = runs.program.run(words, data, right_answers.NOTHING_REFUSED, stdout=full)
        runs.check(f"{words[0]} to a full device", is_failed_write(got))
        ours, theirs = os.pipe()
        os.close(ours)
        got, _ = runs.program.run(words, data, right_answers.NOTHING_REFUSED, stdout=theirs)
        os.close(theirs)
        runs.check(f"{words[0]} to a closed pipe", is_failed_write(got))


def is_failed_write(got: Printed) -> bool:
    line = right_answers.WRITE.fullmatch(got.stderr)
    return line is not None and line[1] == b"0" and got == Printed(right_answers.MACHINE, b"", got.stderr)


def check_seeds(runs: RowRunner) -> None:
    """Each engine draws one seed. This also shows that calls are counted at all."""
    for words, data in [(["replay"], AUCTION), (["clear"], AUCTION), (["day"], OPEN_AUCTION)]:
        _, asked = runs.program.run(words, data, RefusedCalls("random"))
        runs.check(f"{words[0]} asks for random bytes {asked} times, and not once", asked == 1)


def check_threads(runs: RowRunner) -> None:
    """A search starts a thread for each worker but one, whose work the calling thread does, and so does a day for its participants: also
    on a full book, and on days of many commands."""
    lines = [b"cancel,%c,X,,,,,,\n" % ord(code) for code in "ABCDEFGH"[: rules.MOST_DAY_PARTICIPANTS]]
    tried: list[tuple[str, bytes, int, Sequence[int], list[str]]] = [
        ("clear", AUCTION, 0, range(1, 9), []),
        ("clear", AUCTION, 0, (1, 8), ["--nodes", "67108863"]),
        ("day", OPEN_AUCTION, 7, (1, 3, 8), []),
    ]
    for periods in rules.DAYS:
        day = b"day,%d,,,,,,,\n" % periods
        tried += [("clear", AUCTION.replace(DAY, day), 0, range(1, 9), more) for more in (list[str](), ["--nodes", "10"])]
        tried += [("day", day + b"".join(lines[: others + 1]), others, (1,), []) for others in range(len(lines))]
        tried.append(("day", day + 40 * b"".join(lines), len(lines) - 1, (1, 8), []))
        for count, others in itertools.product(COMMANDS, range(1, len(lines))):
            given = b"".join(itertools.islice(itertools.cycle(lines[: others + 1]), count))
            tried.append(("day", day + given, others, (1,), []))
    for workers, periods in zip(range(1, 9), itertools.cycle(rules.DAYS)):
        full = journal_text(submits_of_book(periods), True, periods)
        tried.append(("clear", full, 0, (workers,), ["--nodes", "10"]))
    for word, data, others, counts, more in tried:
        for workers in counts:
            words = [word, "--workers", str(workers), "--cut", "8", *more]
            got, started = runs.program.run(words, data, RefusedCalls("thread"))
            about = f"{' '.join(words)} of {data[:10]!r}, {len(data.splitlines()):,} lines, {others} participants more: {started} threads"
            runs.check(about, started == workers - 1 + others)
            runs.check(f"{about}, status {got.status}, {got.stderr[:80]!r}", got.status in (0, right_answers.UNFINISHED))


def check_strays(runs: RowRunner) -> None:
    """A program that writes while a thread of it still runs is found, so the runs of the rows leave none, whatever call is refused."""
    script = "import threading; threading.Thread(target=threading.Event().wait, daemon=True).start(); print()"
    got, _ = HostileProgram(sys.executable, runs.program.room).run(["-c", script], b"", right_answers.NOTHING_REFUSED)
    runs.check("a thread that isn't joined is found", got.stderr == LEFT)


def check_freed_texts(runs: RowRunner) -> None:
    """The journal's text is freed before the search, and before the participants of a day are started."""
    for word, data in [("clear", AUCTION), ("day", OPEN_AUCTION)]:
        words, text = [word, "--workers", "8"], data + b"\n" * (1 << 20)
        for least, is_held in [(len(text), False), (1, True)]:
            _, started = runs.program.run(words, text, RefusedCalls("held", most=least))
            runs.check(f"{word} starts {started} threads with a block of {least} bytes or more", (started > 0) == is_held)
    # as often as a run that has the text, and then comes to a fault
    for word, data, faulty in [("clear", AUCTION, OPEN_AUCTION), ("day", OPEN_AUCTION, AUCTION)]:
        for workers in map(str, range(1, costs_by_shape.MOST_WORKERS + 1)):
            tried = (([word, "--workers", workers], it + b"\n" * (1 << 20), RefusedCalls("beside", most=1 << 20)) for it in (data, faulty))
            (_, made), (_, least) = (runs.program.run(*it) for it in tried)
            runs.check(f"{word} --workers {workers} asks for memory {made} times with its text, and not {least}", made == least)


def check_reads(runs: RowRunner) -> None:
    """A text is read in pieces of 65,536 bytes. A program that reads it byte by byte would be seen: it has as many reads as bytes."""
    for word, data in [("replay", AUCTION), ("clear", AUCTION), ("day", OPEN_AUCTION)]:
        text = data + b"\n" * (1 << 18)
        for most, least, greatest in [(0, 1, len(text) // CHUNK + 2), (1, len(text), len(text) + 1)]:
            _, made = runs.program.run([word], text, RefusedCalls("read", most=most))
            at_once = "one byte" if most else "as much as it asks for"
            runs.check(f"{word} reads {len(text)} bytes by {made} calls that give {at_once}", least <= made <= greatest)
        answer, rest = runs.capture_answer([word], data), data.removeprefix(DAY)
        for length in LENGTHS:
            empty = b"\n" * (length - len(data))
            for text in (data + empty, DAY + empty + b"\n" + rest.removesuffix(b"\n")):
                check_whole_reads(runs, word, text, answer)


def check_whole_reads(runs: RowRunner, word: str, text: bytes, answer: AnswerToRow) -> None:
    """A text of any length is read by as few calls, from a file and from a pipe that holds it. Its empty lines change no answer."""
    about, right = f"{word} reads {len(text):,} bytes that end with {text[-1:]!r} of", -(-len(text) // CHUNK) + 1
    tried = [("file", lambda: runs.program.run([word], text, RefusedCalls("read")))]
    if len(text) <= PIPE:
        tried.append(("pipe", lambda: run_from_pipe(runs.program, word, text)))
    for source, run in tried:
        got, made = run()
        is_right = answer.run_and_see_if_given(got) and made == right
        runs.check(f"{about} a {source} by {made} calls, and not {right}, or gives another answer: status {got.status}", is_right)
    runs.program.write_input(text).unlink()


def run_from_pipe(program: HostileProgram, word: str, text: bytes) -> tuple[Printed, int]:
    with open_full_pipe(text) as pipe:
        return program.run([word], text, RefusedCalls("read"), source=pipe)


def open_full_pipe(text: bytes) -> io.FileIO:
    """The end of a pipe that has this text, and then nothing more."""
    ours, theirs = os.pipe()
    fcntl.fcntl(theirs, fcntl.F_SETPIPE_SZ, PIPE)
    os.write(theirs, text)
    os.close(theirs)
    return open(ours, "rb", buffering=0)


def check_writes(runs: RowRunner) -> None:
    """A text of any length is written by one call, if the stream takes it whole."""
    refused = DAY + b"cancel,ABCDEFGH,NAME-NUMBER1,,,,,,\n" * rules.MOST_DAY_COMMANDS
    tried = [("replay", AUCTION, 500, b""), ("replay", refused, 200_000, b""), ("clear", AUCTION, 500, b""), ("day", OPEN_AUCTION, 500, b"")]
    tried += [it for count in AMENDS for it in capture_amended_journals(runs.program, count)]
    for word, data, least, right in tried:
        got, made = runs.program.run([word], data, RefusedCalls("write"))
        about = f"{word} writes {len(got.stdout):,} bytes by {made} calls: status {got.status}, {got.stderr[:80]!r}"
        runs.check(about, got.status == 0 and len(got.stdout) >= least and made == 1)
        if right:
            runs.check(f"{word} of {len(data):,} bytes has another output", got.stdout == right)
        runs.program.write_input(data).unlink()


def capture_amended_journals(program: HostileProgram, count: int) -> Iterator[tuple[str, bytes, int, bytes]]:
    """Yields a day of one participant whose blocks are amended so often, and its closed journal, each with its right output. All blocks
    are accepted, at one price. What a block gains shows its last amend."""
    begin = [b"day,100,,,,,,,\n", *map(peaks.block_submit, peaks.NAMES)]
    begin += [b"submit,ABCDEFGH,B-%d,hour,buy,%d,%d:%d,,\n" % (at, rules.HIGHEST_PRICE, at, rules.GREATEST_VOLUME) for at in range(1, 101)]
    volumes = [b";".join(b"%d:%d" % (period, 1_000 + at * period % 3_001) for period in range(1, 101)) for at in range(100)]
    numbered = zip(range(count), itertools.cycle(peaks.NAMES), itertools.cycle(volumes))
    amends = [peaks.block_amend(name, at * 7_919 % rules.HIGHEST_PRICE, text) for at, name, text in numbered]
    closed = b"".join([*begin, *amends, peaks.CLOSE])
    short, _ = program.run(["clear"], b"".join([*begin, *amends[-len(peaks.NAMES) :], peaks.CLOSE]), right_answers.NOTHING_REFUSED)
    yield "day", closed.removesuffix(peaks.CLOSE), 700 * count, closed + b"results\n" + short.stdout
    yield "clear", closed, 100, short.stdout


def check_books_by_size(runs: RowRunner) -> None:
    """Books of a few orders, and larger ones with a block, up to a full one, on each length of a day. With more orders, a run asks for
    memory at least as often, and holds at least as many bytes: a copy that is made of books of one size only would be seen."""
    sides, sizes = [b"buy", b"sell"], range(STEP, rules.MOST_HOURLY + 1, STEP)
    orders = [b"submit,A,%d,hour,%b,%d,%d:1,,\n" % (at, sides[at % 2], at % 97, at % 23 + 1) for at in range(rules.MOST_HOURLY)]
    block = b"submit,A,K,block,sell,-100,1:1;23:1,,\n"
    for words, periods in itertools.product([costs_by_shape.REPLAY, costs_by_shape.CLEAR, costs_by_shape.DAY], rules.DAYS):
        for first, counts in ((b"", range(SMALL_BOOK + 1)), (block, sizes)):
            begin, end = b"day,%d,,,,,,,\n" % periods + first, CLOSE * (words != costs_by_shape.DAY)
            texts = [begin + b"".join(orders[:count]) + end for count in counts]
            found = list(runs.pool.map(lambda text: runs.program.measure_peak(words, text), texts))
            for count, (got, held, growths), (_, more_held, more) in zip(counts, found, [*found[1:], found[-1]]):
                about = f"{words[0]} of {count} hourly orders{' and a block' * (first == block)} on {periods} periods"
                runs.check(f"{about}: status {got.status}, {got.stderr[:80]!r}", (got.status, got.stderr) == (0, b""))
                runs.check(f"{about}: {growths} calls for memory, and {more} with more orders", growths <= more)
                runs.check(f"{about}: {held} bytes, and {more_held} with more orders", held <= more_held)


def check_stacks(runs: RowRunner) -> None:
    """512 KiB of stack are enough for a search, also of these books, whose search has prices of its own for the decisions on most of the 24
    blocks, one after the other."""
    small = ["sh", "-c", 'ulimit -s 512; exec "$@"', "sh"]
    for family in (["paradox", "500"], ["paradox", "4000", "24", "4"], ["nearties", "4000"]):
        data = generate_book("make_family.py", *family)
        for limit, status in (list[str](), 0), (["--nodes", "100"], right_answers.UNFINISHED):
            words = ["clear", "--workers", "1", "--cut", "0", *limit]
            got, _ = runs.program.run(words, data, right_answers.NOTHING_REFUSED, under=small)
            about = f"{' '.join(words)} of {' '.join(family)} with 512 KiB of stack"
            runs.check(f"{about}: status {got.status}, {got.stderr[:80]!r}", got.status == status)


def check_copies(runs: RowRunner) -> None:
    """A day asks for memory as often for each command, however many orders the book holds: no command copies all orders, each into a block
    of its own. The instructions of runs on full books, which the part `shapes` counts, would show another copy."""
    records = ["submit,%s,N-%d,hour,buy,0,1:1,,\n", "amend,%s,N-%d,,,1,1:1,,\n", "cancel,%s,N-%d,,,,,,\n"]
    tried = [(24, "A", rules.MOST_HOURLY), *((periods, codes, 600) for periods in rules.DAYS for codes in ("A", "AB", "ABCDEFGH"))]
    for (periods, codes, orders), last in itertools.product(tried, range(len(records))):
        kinds = records[: last + 1]
        most = min(orders, rules.MOST_DAY_COMMANDS // len(kinds))
        few, many = (
            "".join([f"day,{periods},,,,,,,\n", *(kind % (codes[at % len(codes)], at) for kind in kinds for at in range(count))]).encode()
            for count in (most // 2, most)
        )
        asked, twice = (runs.program.run(["day"], data, RefusedCalls("memory"))[1] for data in (few, many))
        about = f"{most} orders of {len(codes)} participants on {periods} periods, of {len(kinds)} kinds of commands"
        wrong = f"a day with half of {about} asks for memory {asked} times, and {twice} times with all"
        runs.check(wrong, most // 2 < asked < twice < 3 * asked)
