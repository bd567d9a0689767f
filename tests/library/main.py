"""tests/library/run [--build | --over FOLDER] [--dam PROGRAM]: compiles callers of the library for C, and calls it from C, C++, Python and Rust.

With --over, library/build first proves and builds it over the libraries of a folder, which `rt ci` has just proved; with --build it proves
these too, if that isn't done. Without either the library has to be there, built of the present sources. If it isn't, or can't be built here,
the calls are left out and named. The records of library/build are tested in a small repository, with a fake kit.

On each journal of tests/cases/ and examples/ it answers what the built program prints, with its status: `dam replay`, and `dam clear` by
one worker that doesn't divide the search, with and without a limit on nodes. It is also called with buffers that are too small, with
texts of no bytes, from several threads at once, from 1,000 threads in turn, with secrets, with each request for memory refused, and 10,000
times, and the bytes that it holds are counted. By `dam_tools.clear_many`, which calls it on threads and in other processes, each journal
gets the same answer. What can't run because a compiler, valgrind or a newer Python is missing is left out and named. The last line is
'N passed, M failed', with ', K skipped' if something was left out.
"""

import concurrent.futures
import ctypes
import glob
import itertools
import math
import multiprocessing
import os
import re
import shutil
import struct
import subprocess
import sys
import tempfile
import threading
import time
from collections.abc import Callable, Sequence
from typing import Any

from lib.base import rules
from lib.crates import sources
from lib.runs.by_library import MOST_NODES
from library import building
from shared import cases
from shared.arguments import add_programs, parse_with_programs_or_exit, parser_of_docstring
from shared.counts import Counts
from shared.generated_books import generate_book
from shared.place import TOP
from shared.preload import HostileProgram, RefusedCalls

Arguments = tuple[Any, ...]  # of a call of the library
Answered = tuple[int, bytes]  # a status, and an answer
HERE, BUILT = f"{TOP}/tests/library", f"{TOP}/library/out"
LIMITS = (1, 20, MOST_NODES)
ODD_LIMITS = (0, 2**32 - 1)
EXPORTS = {"dam_clear", "dam_clear_seeded", "dam_replay", "dam_replay_seeded"}
DAY = f"{TOP}/examples/auction-day.csv"
SMALL = f"{TOP}/examples/first-day.csv"
SMALL_TEXT = 2_000  # bytes of the longest text that is tried with memory refused
MOST_HELD, MOST_LIMITED = 1 << 17, 1 << 18  # bytes for a small text, and with a limit on nodes: 15 KB and 134 KB were held
MOST_TIMES, MOST_MORE = 4, 10 << 20  # a call holds at most so many times the text's bytes, and so many bytes more: dam.h promises it
SECRET = bytes(range(16))
SEVERAL = (b"\1\1", b"\1\377", b"\1\0\1", b"\1\2\3", b"\1\2\375")  # bytes whose exclusive or, or whose sum, is zero
LIMITED_CALLS: tuple[tuple[str, tuple[int, ...]], ...] = (("dam_replay", ()), ("dam_clear", (MOST_NODES,)), ("dam_clear", (20,)))
FILLED = 0xAA
UNSEEDED = 1.6  # times as long is too long without a secret
MORE = 1.3  # times as many instructions or bytes as the program's are too many for a call
SMALL_STACK = """
import ctypes, sys, threading
sys.argv[0:1] = []
calls, text, found = ctypes.CDLL(sys.argv[1]), open(sys.argv[2], "rb").read(), []
class Answer(ctypes.Structure):
    _fields_ = [("status", ctypes.c_uint8), ("length", ctypes.c_size_t)]
bytes_ = [ctypes.c_char_p, ctypes.c_size_t]
calls.dam_clear.restype = calls.dam_replay.restype = Answer
calls.dam_clear.argtypes, calls.dam_replay.argtypes = [*bytes_, ctypes.c_uint32, *bytes_], [*bytes_, *bytes_]
buffer = ctypes.create_string_buffer(300_000)
def call():
    found.append(calls.dam_replay(text, len(text), buffer, 300_000).status)
    for nodes in int(sys.argv[3]), 100:
        found.append(calls.dam_clear(text, len(text), nodes, buffer, 300_000).status)
threading.stack_size(512 * 1024)
thread = threading.Thread(target=call)
thread.start()
thread.join()
print(*found)
"""
SECONDS = 600
# Names that collide take more than this many times as long under the fixed seed as under a secret: 41 times were measured.
LEAST_COLLIDING = 3
# The oldest Rust that knows `unsafe extern`, and the status of library/build if something that it needs is missing.
RUST = 1, 82
CAN_NOT = 69


class LibraryAnswer(ctypes.Structure):
    _fields_ = [("status", ctypes.c_uint8), ("length", ctypes.c_size_t)]


class CalledLibrary:
    """The library, called by ctypes."""

    BYTES: list[Any] = [ctypes.c_char_p, ctypes.c_size_t]

    def __init__(self, path: str) -> None:
        self.calls = ctypes.CDLL(path)
        for secret in (list[Any](), self.BYTES):
            ending = "_seeded" if secret else ""
            self.declare_call(f"dam_replay{ending}", [*secret, *self.BYTES, *self.BYTES])
            self.declare_call(f"dam_clear{ending}", [*secret, *self.BYTES, ctypes.c_uint32, *self.BYTES])

    def declare_call(self, name: str, arguments: Sequence[Any]) -> None:
        call = getattr(self.calls, name)
        call.restype, call.argtypes = LibraryAnswer, arguments

    def call_into(self, name: str, given: Arguments, room: int) -> tuple[int, int, bytes]:
        """The status, the length that was answered, and the buffer with 16 more bytes after its end."""
        buffer = ctypes.create_string_buffer(bytes([FILLED]) * (room + 16), room + 16)
        answer = getattr(self.calls, name)(*given, buffer, room)
        return answer.status, answer.length, buffer.raw

    def call_and_read_answer(self, name: str, given: Arguments) -> Answered:
        """The status and the whole answer."""
        status, length, shown = self.call_into(name, given, 4096)
        if length > 4096:
            status, length, shown = self.call_into(name, given, length)
        return status, shown[:length]

    def replay(self, text: bytes) -> Answered:
        return self.call_and_read_answer("dam_replay", (text, len(text)))

    def clear(self, text: bytes, nodes: int = MOST_NODES) -> Answered:
        return self.call_and_read_answer("dam_clear", (text, len(text), nodes))


def capture_output(words: Sequence[str], data: bytes) -> Answered:
    """The status and the output, on standard output if the status is 0 and else on standard error."""
    ran = subprocess.run(words, input=data, stdout=subprocess.PIPE, stderr=subprocess.PIPE, timeout=SECONDS)
    return ran.returncode, ran.stderr if ran.returncode else ran.stdout


def read_text(path: str) -> bytes:
    with open(path, "rb") as file:
        return file.read()


def read_journals() -> dict[bytes, str]:
    """The journals of the cases and the examples, without those that are the same."""
    examples = {read_text(path): os.path.relpath(path, TOP) for path in sorted(glob.glob(f"{TOP}/examples/*.csv"))}
    return {**{case.stdin: f"the input of {case.name}" for case in cases.read_all_cases()}, **examples}


def check_like_program(counts: Counts, program: str, library: CalledLibrary, caller: str | None) -> None:
    """Compares every journal's answers with the program's output."""
    for text, path in read_journals().items():
        replies = capture_output([program, "replay"], text)
        counts.check(f"replay < {path}", library.replay(text) == replies)
        seeded = library.call_and_read_answer("dam_replay_seeded", (SECRET, len(SECRET), text, len(text)))
        counts.check(f"replay with a secret < {path}", seeded == replies)
        if caller:
            counts.check(f"caller replay < {path}", capture_output([caller, "replay"], text) == replies)
        for nodes in LIMITS:
            results = capture_output([program, "clear", "--workers", "1", "--cut", "0", "--nodes", str(nodes)], text)
            counts.check(f"clear {nodes} < {path}", library.clear(text, nodes) == results)
            seeded = library.call_and_read_answer("dam_clear_seeded", (SECRET, len(SECRET), text, len(text), nodes))
            counts.check(f"clear {nodes} with a secret < {path}", seeded == results)
            if caller:
                counts.check(f"caller clear {nodes} < {path}", capture_output([caller, "clear", str(nodes)], text) == results)


def check_buffers(counts: Counts, library: CalledLibrary) -> None:
    """A buffer with too little room holds the first bytes, and no byte beyond it is written."""
    text = read_text(DAY)
    for name, given, whole in (
        ("dam_replay", (text, len(text)), library.replay(text)[1]),
        ("dam_clear", (text, len(text), MOST_NODES), library.clear(text)[1]),
        ("dam_clear", (text, len(text), 1), library.clear(text, 1)[1]),
        ("dam_replay", (b"", 0), library.replay(b"")[1]),
    ):
        near = [room for power in range(13) for room in ((1 << power) - 1, 1 << power, (1 << power) + 1)]
        for room in sorted({*near, *(len(whole) + step for step in (-1, 0, 1))}):
            front = whole[:room]
            for call, secret in ((name, ()), (f"{name}_seeded", (SECRET, len(SECRET)))):
                _, length, shown = library.call_into(call, (*secret, *given), room)
                untouched = bytes([FILLED]) * (len(shown) - len(front))
                right = length == len(whole) and shown == front + untouched
                counts.check(f"{call} with room for {room} of {len(whole)}", right)


RECORD, SUBMIT = b"day,%d,,,,,,,\n", b"submit,ABCDEFGH,%b,%b,%b,%d,%b,,\n"


def journal_of_full_book(cancels: int = 0) -> bytes:
    """A journal with as many rows as a book holds, each with the longest line of results, and with cancels that the book refuses."""
    pairs = [b"%d:%d" % (period, rules.GREATEST_VOLUME) for period in range(1, rules.GREATEST_PERIOD + 1)]
    sides = [(b"buy", b"sell")[number % 2] for number in range(rules.MOST_HOURLY)]
    rows = b"".join(SUBMIT % (b"ORDER-%06d" % number, b"hour", side, 0, pairs[-1]) for number, side in enumerate(sides))
    whole = b"block", b"sell", rules.HIGHEST_PRICE, b";".join(pairs)
    blocks = b"".join(SUBMIT % (b"BLOCK-%06d" % number, *whole) for number in range(rules.MOST_BLOCKS))
    return RECORD % rules.GREATEST_PERIOD + rows + blocks + b"cancel,A,X,,,,,,\n" * cancels + b"close,,,,,,,,\n"


def journal_at_limits() -> bytes:
    """A journal of a full book, and with as many records as a journal has."""
    return journal_of_full_book(rules.MOST_RECORDS - 2 - rules.MOST_HOURLY - rules.MOST_BLOCKS)


def long_journal() -> bytes:
    """A journal of nearly 10 MB, as long as one with the most records is: each has a volume in every period of the longest day."""
    pairs = b";".join(b"%d:%d" % (period, rules.GREATEST_VOLUME) for period in range(1, rules.GREATEST_PERIOD + 1))
    rows = (SUBMIT % (b"BLOCK-%06d" % number, b"block", b"sell", rules.HIGHEST_PRICE, pairs) for number in range(rules.MOST_RECORDS - 2))
    return RECORD % rules.GREATEST_PERIOD + b"".join(rows) + b"close,,,,,,,,\n"


def check_longest_texts(counts: Counts, library: CalledLibrary, program: str) -> None:
    """A text of many MB has the program's answers, and so have the greatest one and the next, which are no journals."""
    for text in (long_journal(), b"\n" * rules.MOST_BYTES, b"\n" * (rules.MOST_BYTES + 1)):
        for call, limit, words in (("replay", (), ["replay"]), ("clear", (MOST_NODES,), ["clear", "--workers", "1", "--cut", "0"])):
            printed, given = capture_output([program, *words], text), (text, len(text), *limit)
            for name, secret in ((f"dam_{call}", ()), (f"dam_{call}_seeded", (SECRET, len(SECRET)))):
                counts.check(f"{name} of {len(text):,} bytes", library.call_and_read_answer(name, (*secret, *given)) == printed)


def check_unseeded(counts: Counts, library: CalledLibrary) -> None:
    """A call without a secret takes about as long as the same with one."""
    text = journal_of_full_book()
    for call, limit in (("dam_replay", ()), ("dam_clear", (MOST_NODES,))):
        given = (text, len(text), *limit)
        plain, seeded = (
            min(measure_call_or_nan(lambda: library.call_and_read_answer(name, words)) for _ in range(5))
            for name, words in ((call, given), (f"{call}_seeded", (SECRET, len(SECRET), *given)))
        )
        counts.check(f"{call} takes {plain / seeded:.2f} times as long without a secret", plain < UNSEEDED * seeded)


def check_longest_answers(counts: Counts, library: CalledLibrary) -> None:
    """No answer is longer than the header says: the longest replies, and the results of the longest book."""
    header = read_text(f"{TOP}/library/dam.h").decode()
    most = int(re.findall(r"#define DAM_MOST_ANSWER (\d+)", header)[0])
    late = RECORD % 96 + SUBMIT % (b"ABCDEFGHIJKL", b"hour", b"buy", 1, b"97:1") * (rules.MOST_RECORDS - 1)
    for name, answered in (("replay", library.replay(late)), ("clear", library.clear(journal_of_full_book()))):
        counts.check(f"{name}: {len(answered[1])} bytes, at most {most}", answered[0] == 0 and 130_000 < len(answered[1]) <= most)


def check_odd_limits(counts: Counts, library: CalledLibrary) -> None:
    """A limit of no node ends each search, and one that is too great ends none."""
    for path in (DAY, SMALL):
        none, all_nodes = (library.clear(read_text(path), nodes) for nodes in ODD_LIMITS)
        counts.check(f"clear 0 < {path}", none == (3, b"unfinished: piece 0 after 0 nodes\n"))
        counts.check(f"clear {ODD_LIMITS[1]} < {path}", all_nodes == library.clear(read_text(path)))


def check_exports(counts: Counts) -> None:
    """The shared object shows its calls and nothing else."""
    if not shutil.which("nm"):
        counts.count_and_print_left_out("what the shared object exports: nm is missing")
        return
    shown = subprocess.run(["nm", "-D", "--defined-only", f"{BUILT}/libdam.so"], stdout=subprocess.PIPE).stdout.decode()
    names = {line.split()[-1] for line in shown.splitlines()}
    counts.check(f"exported: {sorted(names)}", names == EXPORTS)


def check_soname(counts: Counts) -> None:
    """A program that is linked with the shared object asks at its start for that of this major version."""
    if not shutil.which("readelf"):
        counts.count_and_print_left_out("the soname of the shared object: readelf is missing")
        return
    shown = subprocess.run(["readelf", "-d", f"{BUILT}/libdam.so.1"], stdout=subprocess.PIPE).stdout.decode(errors="replace")
    names = re.findall(r"\(SONAME\).*\[(.*)\]", shown)
    counts.check(f"the soname of the shared object: {names}", names == ["libdam.so.1"])


def check_small_stacks(counts: Counts, library: CalledLibrary, folder: str) -> None:
    """Calls on a thread with a small stack, also for books of 24 blocks, which a search decides one after the other."""
    texts = {"the auction day": read_text(DAY), "a full book": journal_of_full_book()}
    for family in (["paradox", "500"], ["nearties", "4000"]):
        texts[" ".join(family)] = generate_book("make_family.py", *family)
    given = f"{folder}/given.csv"
    for name, text in texts.items():
        with open(given, "wb") as file:
            file.write(text)
        wanted = [library.replay(text)[0], library.clear(text)[0], library.clear(text, 100)[0]]
        status, shown = capture_output([sys.executable, "-c", SMALL_STACK, HERE, f"{BUILT}/libdam.so", given, str(MOST_NODES)], b"")
        about = f"calls for {name} with 512 KiB of stack: {status}, {shown!r}"
        counts.check(about, (status, shown.split()) == (0, [b"%d" % one for one in wanted]))


def check_empty_texts(counts: Counts, library: CalledLibrary, program: str) -> None:
    counts.check("replay of no bytes", library.replay(b"") == capture_output([program, "replay"], b""))
    counts.check("clear of no bytes", library.clear(b"") == capture_output([program, "clear"], b""))


def check_secrets(counts: Counts, library: CalledLibrary) -> None:
    """No answer depends on the secret."""
    text = read_text(DAY)
    for secret in (b"", b"seven..", bytes(range(16)), bytes(range(40)), bytes(range(255)), bytes(range(256)), bytes(range(256)) * 16):
        given = (secret, len(secret), text, len(text))
        answer = library.call_and_read_answer("dam_replay_seeded", given)
        counts.check(f"replay with a secret of {len(secret)}", answer == library.replay(text))
        cleared = library.call_and_read_answer("dam_clear_seeded", (*given, MOST_NODES))
        counts.check(f"clear with a secret of {len(secret)}", cleared == library.clear(text))


def measure_call_or_nan(call: Callable[[], Answered]) -> float:
    """The seconds of a processor that a call takes in this process; not a number if it fails."""
    began = time.process_time()
    status, _ = call()
    took = time.process_time() - began
    return took if status == 0 else math.nan


def check_colliding(counts: Counts, library: CalledLibrary, folder: str) -> None:
    """The first 16 bytes of a secret of any length seed the book's map, each of them in its place, and nothing else does."""
    collide = f"{folder}/collide"
    if not compile_program_or_print(["cc", "-O2", "-std=c11", "-pthread", f"{TOP}/tests/shared/collide.c"], collide):
        counts.check("the program that finds names that collide compiles", False)
        return
    check_colliding_under_zeros(counts, library, collide)
    check_colliding_under_secret(counts, library, collide)


def capture_journal_that_collides(collide: str, secret: bytes, periods: int = 24) -> bytes:
    """A journal of orders whose names collide if these bytes seed the book's map."""
    names = subprocess.run([collide, "4000", "A", *map(str, struct.unpack("<2Q", secret))], stdout=subprocess.PIPE, check=True).stdout.split()
    return RECORD % periods + b"".join(b"submit,A,%b,hour,buy,0,1:1,,\n" % name for name in names) + b"close,,,,,,,,\n"


def check_colliding_under_zeros(counts: Counts, library: CalledLibrary, collide: str) -> None:
    """Names that collide under the fixed seed, which has zeros alone, take many times as long with no secret and with one of zeros as with one
    that has another byte at any of these 16 places, on each length of a day; and as with one that has several."""
    texts, last = {periods: capture_journal_that_collides(collide, bytes(16), periods) for periods in rules.DAYS}, 16
    longer = (last + 1, 64, 1_000_000)
    zeros = [*(bytes(length) for length in (0, 1, last - 1, last)), *(bytes(last) + b"\1" * (length - last) for length in longer)]
    others = [bytes(place) + b"\1" + bytes(last - 1 - place) for place in range(last)]
    others += [b"\1", bytes(2) + b"\1", b"\1" + bytes(31), bytes(last - 1) + b"\1" * 17]
    others += [bytes(2) + b"\1" + bytes(length - 3) for length in (last - 1, *longer, 255, 256, 4_096, 1 << 16, 1 << 24)]
    others += [bytes([byte]) * last for byte in (1, 85, 128, 255)]
    others += [bytes(place) + some + bytes(last - place - len(some)) for some in SEVERAL for place in range(last + 1 - len(some))]
    for call, limit in LIMITED_CALLS:

        def measure_call(name: str, *secret: Any, periods: int = 24) -> float:
            given = (*secret, texts[periods], len(texts[periods]), *limit)
            return measure_call_or_nan(lambda: library.call_and_read_answer(name, given))

        seeded = f"{call}_seeded"
        quick = [measure_call(seeded, secret, len(secret)) for secret in others]
        quick += [measure_call(seeded, SECRET, len(SECRET), periods=periods) for periods in rules.DAYS]
        slow = [measure_call(call), *(measure_call(seeded, secret, len(secret)) for secret in zeros)]
        about = f"{call}: with a secret of zeros, names that collide take {min(slow) / max(quick):.1f} times as long"
        counts.check(about, all(one > LEAST_COLLIDING * other for one in slow for other in quick))


def check_colliding_under_secret(counts: Counts, library: CalledLibrary, collide: str) -> None:
    """Names that collide under a secret take many times as long with it as with one that has the same bytes in another order, another bit, or
    two other bytes of the same sum or the same exclusive or."""
    given, last = bytes((37 * place + 91) % 256 for place in range(16)), 16
    text = capture_journal_that_collides(collide, given)
    others = {given[turn:] + given[:turn] for turn in range(1, last)} | {given[::-1], bytes(byte ^ 255 for byte in given), bytes(last)}
    for one, other in itertools.combinations(range(last), 2):
        for change in ((1, 1), (128, 128), (1, -1)):
            others.add(with_changes(given, {one: change[0], other: change[1]}))
        others.add(with_changes(given, {one: given[other] - given[one], other: given[one] - given[other]}))
    others |= {given[:place] + bytes([given[place] ^ 1 << bit]) + given[place + 1 :] for place in range(last) for bit in range(8)}
    for call, limit in LIMITED_CALLS:

        def took(secret: bytes) -> float:
            words = (secret, len(secret), text, len(text), *limit)
            return measure_call_or_nan(lambda: library.call_and_read_answer(f"{call}_seeded", words))

        quick = [took(secret) for secret in sorted(others)]
        slow = [took(secret) for secret in (given, given + b"\1", given + bytes(1_000))]
        about = f"{call}: names that collide under a secret take {min(slow) / max(quick):.1f} times as long with it as with {len(quick)} others"
        counts.check(about, all(one > LEAST_COLLIDING * other for one in slow for other in quick))


def with_changes(secret: bytes, changes: dict[int, int]) -> bytes:
    """The secret with these numbers added to its bytes at these places."""
    return bytes((byte + changes.get(place, 0)) % 256 for place, byte in enumerate(secret))


def check_threads(counts: Counts, library: CalledLibrary) -> None:
    """Four threads call at the same time, on two journals."""
    texts = [read_text(DAY), read_text(SMALL)]
    wanted = [(library.clear(text), library.replay(text)) for text in texts]
    wrong = []

    def work(number: int) -> None:
        text, want = texts[number % 2], wanted[number % 2]
        for _ in range(50):
            if (library.clear(text), library.replay(text)) != want:
                wrong.append(number)

    workers = [threading.Thread(target=work, args=(number,)) for number in range(4)]
    for worker in workers:
        worker.start()
    for worker in workers:
        worker.join()
    counts.check(f"four threads at the same time: {len(wrong)} of 200 calls were wrong", not wrong)


def check_many(counts: Counts, library: CalledLibrary) -> None:
    """`dam_tools.clear_many` by the library: for each journal, in order, the answer of one call, on threads and in other processes."""
    os.environ["DAM_LIBRARY"] = f"{BUILT}/libdam.so"
    import dam_tools

    texts = list(read_journals()) * 3
    answers = [library.clear(text) for text in texts]
    with concurrent.futures.ProcessPoolExecutor(2, multiprocessing.get_context("spawn")) as processes:
        ways: list[tuple[str, dict[str, Any]]] = [("threads", {"jobs": 4}), ("processes", {"executor": processes})]
        for name, options in ways:
            found = list(dam_tools.clear_many(texts, quiet=True, **options))
            said = [(day.status, f"{day}\n".encode()) if isinstance(day, dam_tools.Fault) else (0, day.text) for day in found]
            counts.check(f"{len(said)} of {len(texts)} journals are cleared by dam_tools on {name}", len(said) == len(texts))
            for number, (one, other) in enumerate(zip(answers, said), 1):
                counts.check(f"journal {number} has another answer by dam_tools on {name}", one == other)
    day = dam_tools.clear(DAY)
    counts.check("a day that dam_tools clears by the library", day.wrong == [] and dam_tools.records(day, "blocks") != [])


def compile_program_or_print(words: Sequence[str], target: str) -> bool:
    """Whether the compiler made the program without a warning."""
    ran = subprocess.run([*words, "-o", target], stdout=subprocess.PIPE, stderr=subprocess.STDOUT, errors="replace")
    if ran.returncode or ran.stdout:
        print(ran.stdout, end="")
    return ran.returncode == 0 and not ran.stdout


def is_library_built() -> bool:
    """Whether library/build made the library of the present sources, as the records of its files say."""
    paths = f"{BUILT}/libdam.a", f"{BUILT}/libdam.so.1"
    return all(sources.read_stale_text(path, sources.LIBRARY) is None for path in paths)


def run_and_see_rustc() -> bool:
    """Whether there is a compiler of Rust that knows `unsafe extern`."""
    if not shutil.which("rustc"):
        return False
    printed = subprocess.run(["rustc", "--version"], stdout=subprocess.PIPE, stderr=subprocess.DEVNULL, errors="replace").stdout
    found = re.match(r"rustc (\d+)\.(\d+)", printed)
    return found is not None and (int(found[1]), int(found[2])) >= RUST


def check_compilers(counts: Counts, folder: str) -> None:
    """The header, the allocator and the callers are accepted by the compilers, without a warning."""
    strict = ["-O2", "-Wall", "-Wextra", "-pedantic", "-Werror", f"-I{TOP}/library", "-c"]
    for source in (f"{TOP}/library/heap.c", f"{HERE}/caller.c"):
        is_compiled = compile_program_or_print(["cc", "-std=c11", *strict, source], f"{folder}/one.o")
        counts.check(f"{os.path.relpath(source, TOP)} compiles", is_compiled)
    if not shutil.which("c++"):
        counts.count_and_print_left_out("the caller in C as a program in C++: there is no compiler `c++`")
    if run_and_see_rustc():
        words = ["rustc", "--edition", "2021", "--emit", "metadata", f"{HERE}/caller.rs"]
        counts.check("the caller in Rust is accepted", compile_program_or_print(words, f"{folder}/caller.rmeta"))
    else:
        counts.count_and_print_left_out(f"the caller in Rust: rustc {RUST[0]}.{RUST[1]} or newer is missing")


def compile_caller_or_none(counts: Counts, folder: str) -> str | None:
    """Compiles the caller in C. Returns it, or nothing."""
    caller = f"{folder}/caller"
    strict = ["-O2", "-std=c11", "-Wall", "-Wextra", "-pedantic", "-Werror", f"-I{TOP}/library"]
    is_made = compile_program_or_print(["cc", *strict, f"{HERE}/caller.c", f"{BUILT}/libdam.a"], caller)
    counts.check("the caller in C compiles", is_made)
    return caller if is_made else None


def check_refused_memory(counts: Counts, library: CalledLibrary, folder: str) -> None:
    """Each request for memory is refused in turn, and no block is left after 10,000 calls: for small journals, texts that aren't journals,
    open books, searches that end at a limit, and searches that end before it."""
    target = f"{folder}/refusals"
    words = ["cc", "-O2", "-std=c11", "-Wall", "-Wextra", "-Werror", f"-I{TOP}/library", f"{HERE}/refusals.c"]
    if not compile_program_or_print([*words, f"{BUILT}/libdam.a"], target):
        counts.check("the program that refuses memory compiles", False)
        return
    paths = []
    texts = [text for text in read_journals() if len(text) <= SMALL_TEXT]
    for number, text in enumerate(texts):
        paths.append(f"{folder}/small-{number}")
        with open(paths[-1], "wb") as file:
            file.write(text)
    for nodes in LIMITS:
        statuses = {library.clear(text, nodes)[0] for text in texts}
        counts.check(f"small texts have the statuses {statuses} with {nodes} nodes", statuses == {0, 1, *[3] * (nodes < MOST_NODES)})
    for call, nodes in (("replay", MOST_NODES), *(("clear", nodes) for nodes in LIMITS)):
        most = MOST_LIMITED if nodes < MOST_NODES else MOST_HELD
        for name in (call, f"{call}_seeded"):
            limit = "" if call == "replay" else f" and {nodes} nodes"
            about = f"{name} with small texts{limit}, with memory refused, and 10,000 times"
            check_by_program(counts, about, [target, name, str(nodes), str(most), *paths])


def check_by_program(counts: Counts, about: str, words: Sequence[str]) -> None:
    """Runs a program in C that makes checks and counts them."""
    shown = subprocess.run(words, stdout=subprocess.PIPE, timeout=SECONDS).stdout
    found = re.search(rb"(\d+) passed, (\d+) failed\n\Z", shown)
    print(f"{about}: {shown.decode()}", end="")
    counts.passed += int(found[1]) if found else 0
    counts.failed += int(found[2]) if found else 1


def check_heap(counts: Counts, folder: str) -> None:
    """The functions of heap.c give, change and take back blocks, and answer that a block isn't there if malloc or realloc is refused."""
    target, wrapped = f"{folder}/blocks", ("malloc", "realloc", "free")
    words = ["cc", "-O2", "-std=gnu11", "-fno-builtin", "-Wall", "-Wextra", "-Werror"]
    words += [f"{HERE}/blocks.c", f"{TOP}/library/heap.c", *(f"-Wl,--wrap={name}" for name in wrapped)]
    if compile_program_or_print(words, target):
        check_by_program(counts, "calls of heap.c", [target])
    else:
        counts.check("the program that calls heap.c compiles", False)


def check_threads_in_turn(counts: Counts, folder: str) -> None:
    """A thread's calls leave no block of heap.c, and 1,000 threads in turn take no more memory than the first ones."""
    target, wrapped = f"{folder}/threads", ("malloc", "calloc", "realloc", "aligned_alloc", "free")
    words = ["cc", "-O2", "-std=c11", "-pthread", "-Wall", "-Wextra", "-Werror", f"-I{TOP}/library", f"{HERE}/threads.c"]
    if compile_program_or_print([*words, f"{BUILT}/libdam.a", *(f"-Wl,--wrap={name}" for name in wrapped)], target):
        check_by_program(counts, "calls on 1,000 threads in turn", [target, DAY])
    else:
        counts.check("the program that calls on threads compiles", False)


def check_peaks(counts: Counts, caller: str, program: str, folder: str) -> None:
    """With the memory of heap.c, a call holds at most the bytes that the header promises, and not many more than the program holds for the
    same text."""
    words = ["cc", "-O2", "-fPIC", "-shared", f"{TOP}/tests/shared/refuse.c", "-ldl"]
    if not compile_program_or_print(words, f"{folder}/refuse.so"):
        counts.check("the library that counts bytes compiles", False)
        return
    texts = {
        "a small day": read_text(SMALL),
        "the example day": read_text(DAY),
        "a full book": journal_of_full_book(),
        "a full book and journal": journal_at_limits(),
        "a long journal": long_journal(),
        "empty lines": b"\n" * rules.MOST_BYTES,
    }
    alone, limit = ["clear", "--workers", "1", "--cut", "0"], "10"
    calls = [(["replay"], ["replay"]), (["clear"], alone), (["clear", limit], [*alone, "--nodes", limit])]
    for about, text in texts.items():
        for words, same in calls:
            (own, held), (other, most) = (
                HostileProgram(path, folder).run(given, text, RefusedCalls("peak")) for path, given in ((caller, words), (program, same))
            )
            call = f"{' '.join(words)} of {about}"
            counts.check(f"{call}: the statuses {own.status} and {other.status}", own.status == other.status)
            promised = MOST_TIMES * len(text) + MOST_MORE
            counts.check(f"{call} holds {held:,} bytes, and {promised:,} are promised", 0 < held <= promised)
            counts.check(f"{call} holds {held:,} bytes, and the program {most:,}", held < MORE * most)


def check_memory(counts: Counts, caller: str) -> None:
    """valgrind finds no fault of memory and no leak."""
    if not shutil.which("valgrind"):
        counts.count_and_print_left_out("the library under valgrind: valgrind is missing")
        return
    for word in ("replay", "clear"):
        words = ["valgrind", "-q", "--leak-check=full", "--error-exitcode=99", caller, word]
        for about, text in (("of a small day", read_text(SMALL)), ("of a full book", journal_of_full_book())):
            counts.check(f"valgrind {word} {about}", capture_output(words, text) == capture_output([caller, word], text))


def measure_instructions(words: Sequence[str], text: bytes, folder: str) -> int:
    """How many instructions a run takes, which valgrind counts."""
    log = f"{folder}/instructions"
    count = ["valgrind", "--tool=cachegrind", "--cache-sim=no", "--cachegrind-out-file=/dev/null", f"--log-file={log}", *words]
    subprocess.run(count, input=text, stdout=subprocess.DEVNULL, stderr=subprocess.DEVNULL)
    return int(re.findall(r"I +refs: +([\d,]+)", read_text(log).decode())[0].replace(",", ""))


def check_costs(counts: Counts, caller: str, program: str, folder: str) -> None:
    """A call takes about as many instructions as the program on the same text."""
    if not shutil.which("valgrind"):
        counts.count_and_print_left_out("the instructions of the library: valgrind, which counts them, is missing")
        return
    alone, limit = ["clear", "--workers", "1", "--cut", "0"], "100000"
    calls = [(["replay"], ["replay"]), (["clear"], alone), (["clear", limit], [*alone, "--nodes", limit])]
    for about, text in (("a small day", read_text(SMALL)), ("the example day", read_text(DAY)), ("a full book", journal_of_full_book())):
        for words, same in calls:
            times = measure_instructions([caller, *words], text, folder) / measure_instructions([program, *same], text, folder)
            counts.check(f"{' '.join(words)} of {about} takes {times:.2f} times the instructions of the program", times < MORE)


def check_on_examples(counts: Counts, language: str, words: Sequence[str], library: CalledLibrary) -> None:
    """Compares a caller with the library on each example."""
    for path in sorted(glob.glob(f"{TOP}/examples/*.csv")):
        text, name = read_text(path), os.path.basename(path)
        counts.check(f"caller in {language}, replay < {name}", capture_output([*words, "replay"], text) == library.replay(text))
        counts.check(f"caller in {language}, clear < {name}", capture_output([*words, "clear"], text) == library.clear(text))


def check_from_cpp(counts: Counts, folder: str, library: CalledLibrary) -> None:
    """The caller in C is a program in C++ too. It is linked with the static library, and with the shared object."""
    if not shutil.which("c++"):
        return
    strict = ["-O2", "-std=c++11", "-Wall", "-Wextra", "-pedantic", "-Werror", f"-I{TOP}/library"]
    for name, linked in (("libdam.a", [f"{BUILT}/libdam.a"]), ("libdam.so", [f"-L{BUILT}", "-ldam", f"-Wl,-rpath,{BUILT}"])):
        caller = f"{folder}/caller-cpp-{name}"
        is_made = compile_program_or_print(["c++", *strict, "-x", "c++", f"{HERE}/caller.c", "-x", "none", *linked], caller)
        counts.check(f"the caller in C++ compiles, and is linked with {name}", is_made)
        if is_made:
            check_on_examples(counts, f"C++, with {name}", [caller], library)


def check_from_rust(counts: Counts, folder: str, library: CalledLibrary) -> None:
    if not run_and_see_rustc():
        return
    caller = f"{folder}/caller-rs"
    words = ["rustc", "-O", "--edition", "2021", f"{HERE}/caller.rs", "-L", f"native={BUILT}", "-l", "static=dam"]
    is_made = compile_program_or_print(words, caller)
    counts.check("the caller in Rust compiles", is_made)
    if is_made:
        check_on_examples(counts, "Rust", [caller], library)


def check_calls(counts: Counts, folder: str, program: str) -> None:
    """Every test of the built library."""
    library, caller = CalledLibrary(f"{BUILT}/libdam.so"), compile_caller_or_none(counts, folder)
    check_like_program(counts, program, library, caller)
    check_buffers(counts, library)
    check_longest_answers(counts, library)
    check_longest_texts(counts, library, program)
    check_exports(counts)
    check_soname(counts)
    check_small_stacks(counts, library, folder)
    check_empty_texts(counts, library, program)
    check_odd_limits(counts, library)
    check_secrets(counts, library)
    check_unseeded(counts, library)
    check_colliding(counts, library, folder)
    check_threads(counts, library)
    check_many(counts, library)
    check_refused_memory(counts, library, folder)
    check_threads_in_turn(counts, folder)
    if caller:
        check_memory(counts, caller)
        check_peaks(counts, caller, program, folder)
        check_costs(counts, caller, program, folder)
    check_on_examples(counts, "Python", [sys.executable, f"{HERE}/caller.py", f"{BUILT}/libdam.so"], library)
    check_from_cpp(counts, folder, library)
    check_from_rust(counts, folder, library)


def prove_build_and_see_success(counts: Counts, words: Sequence[str]) -> bool:
    """Proves and builds the library. Returns whether that can be done here."""
    built = subprocess.run([f"{TOP}/library/build", *words], stdout=subprocess.PIPE, stderr=subprocess.STDOUT, errors="replace")
    print("".join(line + "\n" for line in built.stdout.splitlines() if built.returncode or line.startswith("logic=")), end="", flush=True)
    if built.returncode == CAN_NOT:
        counts.count_and_print_left_out(f"the library is not built: {built.stdout.splitlines()[-1]}")
        return False
    counts.check("the library is proved and built", built.returncode == 0)
    return True


def main() -> int:
    parser = parser_of_docstring(__doc__)
    parser.add_argument("--build", action="store_true")
    parser.add_argument("--over", metavar="FOLDER")
    add_programs(parser, "dam")
    given = parse_with_programs_or_exit(parser)
    counts = Counts()
    if not shutil.which("cc"):
        counts.count_and_print_left_out("the library: there is no C compiler `cc`")
    else:
        with tempfile.TemporaryDirectory() as folder:
            check_compilers(counts, folder)
            check_heap(counts, folder)
            building.check_records(counts, folder, EXPORTS)
            words = ["--over", given.over] if given.over else []
            can_build = prove_build_and_see_success(counts, words) if given.build or words else True
            if is_library_built():
                check_calls(counts, folder, given.dam)
            elif can_build:
                counts.count_and_print_left_out("the calls: the library isn't built (library/build builds it, and so does ./check)")
    return counts.print_totals_and_return_status()
