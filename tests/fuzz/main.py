"""Runs the program on random journals and hostile bytes, and compares what it prints with the rules as `tools/lib` reads them.

`clear` and `day` are run under a random plan, if the program takes plans; with --every-plan, under each of five. With --like, `replay` and
`clear` are compared with another program in place of the rules, such as one built before a change: on larger books too, and under limits on
nodes; with --nodes also under the least limit with which the other program ends, and under one less. With --profiles the books have blocks
as users have them, over the whole day, its peak or its night, by the hour, and so on, in deep markets, in thin ones, where each block moves
the prices, and in wide ones, with one price and a volume of each block in every period. Each case depends only on the seed and its number,
so it can be run again with --first and --count. An input that shows a difference is made smaller and kept in a folder, also as a case of
tests/run-cases; docs/RULES.md and docs/FORMATS.md decide whether the program or the tool is wrong. A case without an answer in time has
failed too, and its input is kept unchanged. The progress is reported on standard error, every 10,000 cases and if the run is interrupted or
terminated. The last line is 'N passed, M failed'."""

import argparse
import random
import signal
import sys
import time
from collections.abc import Callable, Iterator, Sequence
from pathlib import Path
from typing import NamedTuple

from shared import broken_texts, cases, days, right_output, timed_program
from shared.arguments import add_programs, parse_with_programs_or_exit
from shared.counts import Counts
from shared.printed import Printed

COMMANDS = ["replay", "clear", "day"]
MOST_WORKERS, MOST_CUT = 8, 8
EVERY_PLAN = [(1, 0), (1, 8), (2, 3), (4, 2), (8, 8)]
# The most blocks of a book: the rules try every selection, a program doesn't.
SMALL, LARGE = [6, 8], [6, 8, 12, 16, 24]
NODES = [1, 5, 20, 80, 400]  # limits for a program
MOST_NODES = 1 << 16  # of a search whose nodes are counted
# How many blocks a book with profiles has, if no selections are tried. The last number takes a search long, and comes seldom.
WITH_PROFILES, LONG, SELDOM = [3, 5, 8, 10, 12, 14, 16], 24, 0.01


class Programs(NamedTuple):
    """The program, the other one that it is compared with, and the commands to run. `has_plans` says whether the program takes plans."""

    program: timed_program.TimedProgram
    like: timed_program.TimedProgram | None
    commands: list[str]
    has_plans: bool


def parse_arguments() -> argparse.Namespace:
    parser = argparse.ArgumentParser(
        prog="tests/fuzz/run", description=__doc__, formatter_class=argparse.RawDescriptionHelpFormatter
    )
    add_programs(parser, "dam")
    parser.add_argument("--seed", default="1", help="the seed of the random cases (1)")
    parser.add_argument("--first", type=int, default=1, help="the number of the first case (1)")
    parser.add_argument("--count", type=int, help="how many cases to run; without it and --seconds the run doesn't end")
    parser.add_argument("--seconds", type=float, help="how long to run; the last case is finished")
    parser.add_argument("--wait", type=float, default=timed_program.SECONDS, help="how many seconds the program may take to answer (60)")
    parser.add_argument("--commands", help="which commands to run, separated by commas (all that the program has)")
    parser.add_argument("--every-plan", action="store_true", help="run `clear` and `day` under five plans, from one worker to eight")
    parser.add_argument("--profiles", action="store_true", help="only closed books, with blocks as users have them")
    parser.add_argument("--like", metavar="PROGRAM", help="another program to compare with, in place of the rules")
    parser.add_argument("--nodes", action="store_true", help="with --like: the program must visit as many nodes as the other one")
    parser.add_argument("--keep", default="found", help="the folder for inputs that show a difference (found)")
    parser.add_argument("--tries", type=int, default=400, help="how many smaller inputs to try for a difference (400)")
    return parse_with_programs_or_exit(parser)


def draw_input(args: argparse.Namespace, rng: random.Random, closing: bool) -> bytes:
    """A journal, or a text made of one."""
    most_blocks = LARGE if args.like else SMALL
    if args.profiles and closing:
        largest = LONG if args.like and rng.random() < SELDOM else rng.choice(WITH_PROFILES if args.like else SMALL)
        return days.draw_day_with_profiles(rng, rng.randint(1 + largest // 2, largest))
    kind = rng.random()
    if kind < 0.02:
        return broken_texts.draw_noise(rng)
    text = days.draw_text(rng, rng.choice(most_blocks), closing)
    if kind > 0.9995:
        return broken_texts.lengthened(rng, text)
    return text if kind < 0.55 else broken_texts.draw_broken(rng, text)


def draw_words(args: argparse.Namespace, programs: Programs, rng: random.Random, command: str, data: bytes) -> list[list[str]]:
    """The words for each run of a command: a random plan, or each of five; and compared with a program, some with a limit on nodes."""
    if not programs.has_plans or command == "replay":
        return [[]]
    plans = EVERY_PLAN if args.every_plan else [(rng.randint(1, MOST_WORKERS), rng.randint(0, MOST_CUT))]
    words = [["--workers", str(workers), "--cut", str(cut)] for workers, cut in plans]
    if programs.like:  # which nodes are visited may differ from run to run if there are several workers
        one_worker = ["--workers", "1", "--cut", str(rng.randint(0, MOST_CUT)), "--nodes"]
        limits = {rng.choice(NODES)}
        if args.nodes and command == "clear":
            limits.update(search_for_least_limits(programs.like, one_worker, data))
        words += [[*one_worker, str(limit)] for limit in sorted(limits)]
    return words


def search_for_least_limits(program: timed_program.TimedProgram, words: Sequence[str], data: bytes) -> list[int]:
    """The least limit on nodes with which a program ends, and one less; none if it is too great, or no limit changes anything."""
    ends = lambda limit: not program.capture_output(["clear", *words, str(limit)], data).status
    if ends(1) or not ends(MOST_NODES):
        return []
    least, more = 1, MOST_NODES
    while more - least > 1:
        middle = (least + more) // 2
        least, more = (least, middle) if ends(middle) else (middle, more)
    return [least, more]


def run_and_write_kept(folder: Path, programs: Programs, name: str, command: str, words: Sequence[str], data: bytes) -> Path:
    """Writes the input, a case with it, the arguments and the output that the rules require, and the program's output."""
    folder.mkdir(parents=True, exist_ok=True)
    given = folder / f"{name}.csv"
    given.write_bytes(data)
    try:
        right = None if command == "day" else right_output.capture_right_output_or_none(command, words, data, programs.like)
    except Exception:  # the tool fails on it, which is why it is kept
        right = None
    printed = right or Printed(0, b"", b"")
    case = cases.case_text(name, [command, *words], data, printed.stdout, printed.stderr, printed.status)
    given.with_suffix(".txt").write_text(case)
    got = programs.program.capture_output([command, *words], data)
    given.with_suffix(".got").write_bytes(got.stdout + got.stderr + f"status {got.status}\n".encode())
    return given


def try_case(args: argparse.Namespace, programs: Programs, number: int) -> Iterator[str]:
    """The faults of a case: a line for each command whose output differs."""
    rng = random.Random(f"{args.seed} {number}")
    closed = draw_input(args, rng, True)
    for command in programs.commands:
        data = draw_input(args, rng, False) if command == "day" else closed
        for words in draw_words(args, programs, rng, command, data):
            wrong = right_output.try_command(programs.program, command, words, data, programs.like)
            if wrong:
                yield f"case {number} of seed {args.seed}: {write_smaller_and_return_fault(args, programs, number, command, words, data, wrong)}"
                break


def run_and_see_difference_in_time(programs: Programs, command: str, words: Sequence[str], data: bytes) -> bool:
    wrong = right_output.try_command(programs.program, command, words, data, programs.like)
    return wrong not in ([], [timed_program.LATE])


def write_smaller_and_return_fault(
    args: argparse.Namespace, programs: Programs, number: int, command: str, words: Sequence[str], data: bytes, wrong: list[str]
) -> str:
    """Keeps an input that shows a difference, made smaller, and reports the differences."""
    if wrong != [timed_program.LATE]:  # smaller inputs might take as long, each of them
        data = search_for_smaller(data, lambda part: run_and_see_difference_in_time(programs, command, words, part), args.tries)
    case = run_and_write_kept(Path(args.keep), programs, f"{command}-{args.seed}-{number}", command, words, data)
    return f"{' '.join([command, *words])}: {wrong[0]}; kept as {case}"


def search_for_needed_parts(parts: list[bytes], fails: Callable[[bytes], bool], tries: int) -> tuple[list[bytes], int]:
    """Leaves out runs of parts, long ones first, while what is left still fails. Returns that, and how many tries are left."""
    size = len(parts) // 2
    while size >= 1:
        at = 0
        while at < len(parts) and tries > 0:
            fewer = parts[:at] + parts[at + size :]
            tries -= 1
            if fails(b"".join(fewer)):
                parts = fewer
            else:
                at += size
        size //= 2
    return parts, tries


def search_for_smaller(data: bytes, fails: Callable[[bytes], bool], tries: int) -> bytes:
    """A part of the input that still fails: with fewer lines, then with fewer bytes. At most `tries` smaller inputs are tried."""
    lines, tries = search_for_needed_parts(data.splitlines(keepends=True), fails, tries)
    data = b"".join(lines)
    parts, _ = search_for_needed_parts([data[at : at + 1] for at in range(len(data))], fails, tries)
    return b"".join(parts)


def require_program_or_exit(path: str, seconds: float) -> timed_program.TimedProgram:
    if not Path(path).is_file():
        sys.exit(f"fuzz: there is no program {path}: `./dam replay < examples/first-day.csv` builds it")
    return timed_program.TimedProgram(path, seconds)


def find_programs_and_run_commands_or_exit(args: argparse.Namespace) -> Programs:
    """The programs that the command line names, and the commands that it or else the program has."""
    program = timed_program.TimedProgram(args.dam, args.wait)
    like = require_program_or_exit(args.like, args.wait) if args.like else None
    # The order of a day's entries may differ from run to run.
    commands = [command for command in COMMANDS if command != "day" or not like]
    known = [command for command in commands if program.run_and_see_command([command])]
    has_plans = program.run_and_see_command(["clear", "--workers", "1", "--cut", "0"])
    return Programs(program, like, args.commands.split(",") if args.commands else known, has_plans)


def main() -> int:
    args = parse_arguments()
    signal.signal(signal.SIGTERM, signal.default_int_handler)
    if args.nodes and not args.like:
        sys.exit("fuzz: --nodes compares with the program of --like")
    programs = find_programs_and_run_commands_or_exit(args)
    counts = Counts()
    begun, number = time.monotonic(), args.first
    try:
        while args.count is None or number < args.first + args.count:
            if args.seconds is not None and time.monotonic() - begun > args.seconds:
                break
            wrong = list(try_case(args, programs, number))
            counts.check("\ndiffers: ".join(wrong), not wrong)
            number += 1
            if (number - args.first) % 10_000 == 0:
                print(f"case {number - 1}: {counts.passed} passed, {counts.failed} failed", file=sys.stderr, flush=True)
    except KeyboardInterrupt:
        print(f"ended in case {number}", file=sys.stderr)
    return counts.print_totals_and_return_status()
