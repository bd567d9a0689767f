#!/usr/bin/env python3
"""Runs the program on fixed texts, and compares what it prints with the rules as `tools/lib` reads them: an empty day, and a journal with
each kind of record, in two spellings, cut after every byte; texts with as many bytes as may be read, and with one more; the auction day of
examples/ under every plan, and its day of quarter-hours under nine; and a day with the greatest number of commands, all of the
greatest length. The last line is 'N passed, M failed'."""

import argparse
import sys
from collections.abc import Iterator
from pathlib import Path

sys.dont_write_bytecode = True
sys.path[:1] = [str(Path(__file__).resolve().parents[2] / folder) for folder in ("tests", "tools")]

from shared import right_output, timed_program
from shared.arguments import add_programs, parse_with_programs_or_exit
from shared.counts import Counts
from lib.base import rules
from shared.place import EXAMPLES
from shared.records import CLOSE

OPEN = b"""day,24,,,,,,,
submit,NORD,WIND-8,hour,sell,1200,8:450,,
submit,GAS,START,block,sell,8900,7:800;8:800,,
submit,GAS,STAY,block,sell,-7400,9:800,START,FILL
submit,STAD,TOWN,hour,buy,30000,9:900,,
amend,GAS,START,,,0,7:10;10:20,,
amend,STAD,TOWN,,,29999,9:1000,,
cancel,NORD,WIND-8,,,,,,
"""
CLOSED = OPEN + CLOSE
EMPTY = b"day,24,,,,,,,\n" + CLOSE
LETTERS = "ABCDEFGH"


def with_quotes(text: bytes) -> bytes:
    """The same journal, with every field quoted, line ends of two bytes, and an empty line after each record."""
    return b"".join(b'"%b"\r\n\r\n' % record.replace(b",", b'","') for record in text.splitlines())


def fronts_of(text: bytes) -> list[bytes]:
    return [text[:count] for count in range(len(text) + 1)]


def long_day() -> bytes:
    """The greatest number of commands and participants of a day: blocks with a volume in each of 100 periods. The names have the greatest
    length, and so have nearly all numbers. The book refuses all but the first 24."""
    last = rules.GREATEST_PERIOD
    volumes = ";".join(f"{period}:{rules.GREATEST_VOLUME - period}" for period in range(1, last + 1))
    lines = [f"day,{last},,,,,,,"]
    for number in range(1, rules.MOST_DAY_COMMANDS + 1):
        who = LETTERS[number % rules.MOST_DAY_PARTICIPANTS] * 8
        side, price = ("buy", rules.LOWEST_PRICE) if number % 2 else ("sell", rules.HIGHEST_PRICE)
        lines.append(f"submit,{who},K-{number:010},block,{side},{price},{volumes},,G-{number:010}")
    return "".join(f"{line}\n" for line in lines).encode()


def read_inputs_with_commands() -> Iterator[tuple[str, list[str], bytes]]:
    """The commands, words and texts."""
    for closed in (EMPTY, CLOSED, with_quotes(EMPTY), with_quotes(CLOSED)):
        for front in fronts_of(closed):
            yield "replay", [], front
            yield "clear", [], front
    for front in fronts_of(OPEN) + fronts_of(with_quotes(OPEN)):
        yield "day", [], front
    for command in ("replay", "clear", "day"):
        for end in (b"\n", b"A"):
            yield command, [], end * rules.MOST_BYTES
            yield command, [], end * (rules.MOST_BYTES + 1)
        yield command, [], OPEN + b"\n" * (rules.MOST_BYTES - len(OPEN))
    auction, quarters = ((EXAMPLES / name).read_bytes() for name in ("auction-day.csv", "quarter-hours.csv"))
    for workers in range(1, 9):
        for cut in range(9):
            yield "clear", ["--workers", str(workers), "--cut", str(cut)], auction
    for workers in (1, 2, 8):
        for cut in (0, 3, 8):
            yield "clear", ["--workers", str(workers), "--cut", str(cut)], quarters
    day = long_day()
    yield "replay", [], day
    yield "day", [], day


def main() -> int:
    parser = argparse.ArgumentParser(prog="tests/fuzz/fixed.py", description=__doc__)
    add_programs(parser, "dam")
    program, counts = timed_program.TimedProgram(parse_with_programs_or_exit(parser).dam), Counts()
    for command, words, text in read_inputs_with_commands():
        wrong = right_output.try_command(program, command, words, text)
        counts.check(f"{' '.join([command, *words])} of {len(text)} bytes that end with {text[-20:]!r}: {''.join(wrong[:1])}", not wrong)
    return counts.print_totals_and_return_status()


sys.exit(main())
