"""The most bytes that the program holds at once, on the longest texts: at most TIMES the text's, and ROOM.

A journal's text is read into one block, which moves as it grows. A field is a part of that block, unless quotes part its bytes: then they
are joined in a block of their own, which moves as it grows, and is at most as long as the text. A block that moves counts twice, and may
have grown to twice its length. So a text and its longest field take at most TIMES the text's bytes, however many fields a record has.

ROOM is for a book at its limits, the journal of a day and the search, which take 5 MiB with the shortest text of such a book, and 10 MiB
if a limit on nodes may stop the search: its bounds take most of them, with 8 workers as with one. With that text, and with a text of as
many short commands as a day takes, each engine without such a limit holds at most MORE times what it held with a full book; with a few
commands it holds at most LITTLE, and with some hundred at most EACH times the text's bytes more. `read_journal`, which `dam_refusals` calls
twice, holds at most as much each time."""

import itertools
from collections.abc import Iterable, Iterator

from hostile.retried_calls import REFUSALS
from hostile.right_answers import UNFINISHED
from hostile.row_runner import RowRunner
from lib.base import rules
from shared.preload import HostileProgram, RefusedCalls
from shared.printed import Printed

TIMES, ROOM = 4, 10 << 20
HELD, MORE = {"replay": 2.5, "clear": 2.8, "day": 4.9}, 1.5  # the megabytes that were held with a full book; a copy of the book takes 2
SHORT = 1 << 20  # a text of fewer bytes isn't a long one
FEW, LITTLE = 1 << 10, 64 << 10  # the bytes of a text of a few commands, and the most that is held then
SOME, EACH = 8 << 10, 40  # the bytes of a text of some hundred commands, and how many are held for each of them
ENGINES = [["replay"], ["clear", "--workers", "8", "--cut", "8"], ["day", "--workers", "8", "--cut", "8"]]
REPLAY, CLEAR, DAY = ENGINES
ALONE = ["clear", "--workers", "1", "--cut", "0"]
LIMIT = ["--nodes", "10"]
DAY_RECORD, CLOSE = b"day,100,,,,,,,\n", b"close,,,,,,,,\n"
PERIODS = b";".join(b"%d:%d" % (period, rules.GREATEST_VOLUME) for period in range(1, 101))
NAMES = [b"K-%010d" % number for number in range(rules.MOST_BLOCKS)]


def filled_text(begin: bytes, part: bytes, end: bytes = b"") -> bytes:
    """A text of the greatest length, or a few bytes less, with that part as often as it fits."""
    return begin + part * ((rules.MOST_BYTES - len(begin) - len(end)) // len(part)) + end


def faulty_texts() -> Iterator[tuple[str, bytes, bytes]]:
    """Yields texts that aren't journals, each with the line of its fault."""
    for number, begin in [(1, b"day,24"), (2, DAY_RECORD)]:
        line = b"input: FieldCount in record %d\n" % number
        yield f"commas in record {number}", filled_text(begin, b","), line
        yield f"quoted empty fields in record {number}", filled_text(begin + b",", b'"",'), line
    line = b"input: FieldCount in record 2\n"
    yield "one field", filled_text(DAY_RECORD, b"A"), line
    yield "one quoted field", filled_text(DAY_RECORD + b'"', b"A", b'"'), line
    yield "one field with doubled quotes", filled_text(DAY_RECORD + b'"', b"A" * 1_000 + b'""', b'"'), line
    yield "one field, quoted in part", filled_text(DAY_RECORD + b'"A"', b"A"), line
    yield "quotes alone", filled_text(b"", b'"'), b"input: NotDay\n"
    long_name = filled_text(DAY_RECORD + b'cancel,A,"', b"A" * 1_000 + b'""', b'",,,,,,\n')
    yield "a long name", long_name, b"input: BadField in record 2 field 3\n"
    yield "many records", filled_text(DAY_RECORD, CLOSE), b"input: TooManyRecords\n"
    last = DAY_RECORD + CLOSE * (rules.MOST_RECORDS - 2) + CLOSE.replace(b"\n", b"x\n")
    yield "a bad field in the last record", filled_text(last, b"\n"), b"input: BadField in record %d field 9\n" % rules.MOST_RECORDS
    yield "a last byte that isn't ASCII", filled_text(DAY_RECORD, b"\n", b"\xff"), b"input: NotAscii at %d\n" % (rules.MOST_BYTES - 1)
    yield "empty lines", filled_text(b"", b"\r\n"), b"input: NotDay\n"
    yield "a byte too many", filled_text(b"", b"A") + b"A", b"input: TooLong\n"


def block_submit(name: bytes) -> bytes:
    return b"submit,ABCDEFGH,%b,block,sell,%d,%b,,G-%b\n" % (name, rules.HIGHEST_PRICE, PERIODS, name[2:])


def block_amend(name: bytes, cents: int = rules.HIGHEST_PRICE, volumes: bytes = PERIODS) -> bytes:
    return b"amend,ABCDEFGH,%b,,,%d,%b,,\n" % (name, cents, volumes)


def with_quotes(records: Iterable[bytes]) -> bytes:
    return b"".join(b'"%b"\r\n' % record.replace(b",", b'","') for record in b"".join(records).splitlines())


def hourly_submits(count: int) -> list[bytes]:
    """As many hourly orders, in the shortest form."""
    sides = [b"buy", b"sell"]
    return [b"submit,A,%d,hour,%b,0,%d:1,,\n" % (at, sides[at % 2], at % 100 + 1) for at in range(count)]


def long_journals() -> Iterator[tuple[str, bytes, list[list[str]]]]:
    """Yields journals, each with the engines that take it."""
    begin = [DAY_RECORD, *map(block_submit, NAMES)]
    full = [*begin, *(block_amend(NAMES[at % len(NAMES)]) for at in range(rules.MOST_DAY_COMMANDS - len(NAMES)))]
    text = with_quotes(full)
    yield "blocks of every period, in quotes", text + b"\n" * (rules.MOST_BYTES - len(text)), [REPLAY, DAY]
    yield "blocks of every period", b"".join([*full, CLOSE]), [REPLAY, CLEAR]
    short = b"".join([*begin, *hourly_submits(rules.MOST_HOURLY)])
    yield "a full book", short, [REPLAY, DAY]
    yield "a full book, closed", short + CLOSE, [REPLAY, CLEAR]
    yield "short commands", DAY_RECORD + b"cancel,A,X,,,,,,\n" * rules.MOST_DAY_COMMANDS, [REPLAY, DAY]
    whose = itertools.cycle(b",%c," % code for code in b"ABCDEFGH"[: rules.MOST_DAY_PARTICIPANTS])
    submits = zip(hourly_submits(rules.MOST_DAY_COMMANDS), whose)
    shared = b"".join([DAY_RECORD, *(record.replace(b",A,", who, 1) for record, who in submits)])
    yield "commands of all participants by turns", shared, [REPLAY, DAY]
    few = b"".join([DAY_RECORD, *(b"cancel,%c,X,,,,,,\n" % code for code in b"ABCDEFGH"[: rules.MOST_DAY_PARTICIPANTS])])
    yield "a command of each participant", few, [REPLAY, DAY]
    yield "a command of each participant, closed", few + CLOSE, [REPLAY, CLEAR]
    some = b"".join([DAY_RECORD, *hourly_submits(SOME // 40)])
    yield "some orders", some, [REPLAY, DAY]
    yield "some orders, closed", some + CLOSE, [REPLAY, CLEAR]
    yield "a close after empty lines", filled_text(DAY_RECORD, b"\n", CLOSE), [REPLAY, CLEAR]


def limited_journals() -> Iterator[tuple[str, bytes, list[list[str]]]]:
    """Yields journals of a book at its limits, each with the engines whose search comes to a limit on nodes."""
    book = b"".join([DAY_RECORD, *map(block_submit, NAMES), *hourly_submits(rules.MOST_HOURLY)])
    full = book + b"cancel,A,X,,,,,,\n" * (rules.MOST_DAY_COMMANDS - rules.MOST_HOURLY - rules.MOST_BLOCKS)
    for about, text in [("a full book", book), ("a full book and journal", full)]:
        yield f"{about}, closed", text + CLOSE, [[*words, *LIMIT] for words in (CLEAR, ALONE)]
        yield about, text, [[*DAY, *LIMIT]]


def texts_with_engines() -> Iterator[tuple[str, bytes, list[list[str]], bytes]]:
    """Yields each text, with the engines that it is tried with and the line of its fault, if it has one."""
    for about, text, line in faulty_texts():
        yield about, text, ENGINES, line
    for about, text, engines in long_journals():
        yield about, text, engines, b""


def most_bytes_allowed(engine: str, size: int) -> float:
    """The most bytes that an engine may hold at once, of a text of this size."""
    if size < SOME:
        return LITTLE + EACH * size * (size >= FEW)
    return HELD[engine] * MORE * 1e6 if size < SHORT else TIMES * size + ROOM


def check_peaks(runs: RowRunner) -> None:
    """Runs each text, and compares the most bytes that the program held with the text's."""
    most = 0
    for about, text, engines, line in texts_with_engines():
        found = runs.pool.map(lambda words: (words[0], *runs.program.run(words, text, RefusedCalls("peak"))), engines)
        for word, got, peak in found:
            is_right = got == Printed(1, b"", line) if line else got.status == 0 and got.stdout != b""
            runs.check(f"{word} of {about}: status {got.status}, {got.stderr[:80]!r}", is_right)
            fits = 0 < peak <= most_bytes_allowed(word, len(text))
            runs.check(f"{word} of {about}: {peak:,} bytes were held, and the text has {len(text):,}", fits)
            most = max(most, peak)
        runs.program.write_input(text).unlink()
    for about, text, engines in limited_journals():
        for words in engines:
            got, peak = runs.program.run(words, text, RefusedCalls("peak"))
            fits = (got.status, got.stdout) == (UNFINISHED, b"") and peak <= TIMES * len(text) + ROOM
            runs.check(f"{' '.join(words)} of {about}: status {got.status}, {peak:,} bytes were held, and the text has {len(text):,}", fits)
    check_journals_read(runs)
    print(f"the longest texts: at most {most / 1e6:.1f} MB were held at once", flush=True)


def check_journals_read(runs: RowRunner) -> None:
    """The same of the journals that `read_journal` returns, of short texts: `dam_refusals` holds two of each."""
    reader = HostileProgram(REFUSALS, runs.program.room)
    for about, text, _ in long_journals() if REFUSALS.exists() else ():
        if len(text) < SOME:
            got, peak = reader.run(["read"], text, RefusedCalls("peak"))
            is_right = got.stdout.endswith(b" commands, 0 calls refused\n") and 0 < peak <= 2 * most_bytes_allowed("read", len(text))
            runs.check(f"read_journal of {about}: {got.stdout[:80]!r}, {peak:,} bytes were held, and the text has {len(text):,}", is_right)
