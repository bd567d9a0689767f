#!/usr/bin/env python3
"""A stand-in for the program, to try the fuzzer on: it answers by tools/lib, but for the defect named in DAM_DEFECT."""

import os
import random
import sys
import time

sys.dont_write_bytecode = True

import support  # noqa: F401 (it makes lib and the fuzzer's modules found)

from shared import right_output
from shared.printed import Printed, commands_by_participant
from lib.base import rules
from lib.journal import book, journal
from lib.results import results, selection

# The price of a period without orders, and its line.
MIDDLE = (rules.LOWEST_PRICE + rules.HIGHEST_PRICE) // 2
NOMINAL = b"period,1,%d" % MIDDLE


def commands_in_drawn_order(commands):
    """The participants' commands in some order that keeps each one's own."""
    lists, rng = list(commands_by_participant(commands).values()), random.Random(1)
    while any(lists):
        yield rng.choice([own for own in lists if own]).pop(0)


def answer_to_day(data):
    try:
        given = journal.parse_journal(data)
        fault = right_output.fault_of_day_or_none(given)
    except journal.JournalFault as found:
        fault = found
    if fault:
        return right_output.refused_output(fault)
    run = journal.Journal(given.periods, [*commands_in_drawn_order(given.commands), journal.Close()])
    text = journal.journal_text(run).encode() + b"results\n"
    return Printed(0, text + right_output.right_results_or_none(run).stdout, b"")


def text_of_lower_results(data):
    """The results of the selection that accepts no block."""
    problem = selection.Problem(book.book_and_refusals(journal.parse_journal(data))[0])
    return results.results_text(problem, frozenset(), selection.outcome(problem, frozenset())).encode()


def answer_within_limit(answer, words, data, more):
    """The answer under the limit on nodes of a command line. A search here visits a node for each order, and some more."""
    limit = int(words[words.index("--nodes") + 1])
    if answer.status or limit >= data.count(b"\nsubmit,") + more:
        return answer
    return Printed(3, b"", f"unfinished: piece 0 after {limit} nodes\n".encode())


def answer_with_defect(command, words, data, defect):
    """The answer to a command with its options."""
    answer = answer_to_day(data) if command == "day" else right_output.right_output(command, data)
    if defect == "late" and data:
        time.sleep(60)
    if defect == "price" and NOMINAL in answer.stdout:
        answer = answer._replace(stdout=answer.stdout.replace(NOMINAL, b"period,1,%d" % (MIDDLE + 1)))
    if defect == "memory" and words == ["--workers", "1", "--cut", "0"]:
        return Printed(4, b"", b"memory\n")
    if defect == "welfare":
        answer = answer._replace(stdout=answer.stdout.replace(b"welfare,", b"welfare,1", 1))
    if defect == "replies" and command == "replay":
        answer = answer._replace(stdout=answer.stdout.replace(b",done\n", b",refused,Closed\n", 1))
    if defect == "lower" and command == "clear" and answer.status == 0:
        answer = answer._replace(stdout=text_of_lower_results(data))
    if defect == "plan" and words == ["--workers", "8", "--cut", "8"]:
        answer = answer._replace(stdout=answer.stdout.replace(b"welfare,", b"welfare,1", 1))
    if "--nodes" in words:
        answer = answer_within_limit(answer, words, data, 3 if defect == "nodes" else 2)
    if defect == "status" and answer.status:
        answer = answer._replace(status=answer.status + 1)
    if defect == "order" and b"results\n" in answer.stdout:
        first, *rest = answer.stdout.split(b"\n", 3)
        answer = answer._replace(stdout=b"\n".join([first, *rest[1::-1], *rest[2:]]))
    return answer


def main():
    answer = answer_with_defect(sys.argv[1], sys.argv[2:], sys.stdin.buffer.read(), os.environ.get("DAM_DEFECT"))
    sys.stdout.buffer.write(answer.stdout)
    sys.stderr.buffer.write(answer.stderr)
    sys.exit(answer.status)


if __name__ == "__main__":
    main()
