"""Desks with one fault each, by stand_in.c: the tests have to find it. The same desk without a fault has to pass."""

import errno
import os
import random
import time
from collections.abc import Callable

from desk import crashes, journals, kills, refused
from desk.device import LOCKED_LINE, SYNC, DeskProgram, RefusedFileCalls
from shared.processes import pipes_of
from desk.journals import DamProgram, DeskInput
from shared.counts import Counts

OPENED = 300  # files of crashes that are opened
KILLS, MOST_KILLS = 10, 200  # of a desk without a fault, and of one with a fault if none finds it


def try_crashes(desk: DeskProgram, given: DeskInput) -> list[str]:
    """The files that a crash leaves, opened and crashed again."""
    return crashes.Crashes(desk, "crashes", given, "stand-ins").try_moments(OPENED)


def try_refused_syncs(desk: DeskProgram, given: DeskInput) -> list[str]:
    """Each sync refused in turn."""
    row = refused.RunsWithRefusals(desk, "syncs", given)
    ran = desk.run(row.make_held_file(), given.batches)
    for number in range(1, 1 + sum(event.kind == SYNC for event in ran.events)):
        row.run_and_check_refused(RefusedFileCalls(SYNC, number, number, errno.EIO), lambda refusal, found: True)
    return row.wrong


def try_repair(desk: DeskProgram, given: DeskInput) -> list[str]:
    """Files whose end a crash left torn, opened and crashed again."""
    row = crashes.Crashes(desk, "repair", given, "stand-ins")
    row.open_and_check_repaired()
    return row.wrong


def try_kills(desk: DeskProgram, given: DeskInput) -> list[str]:
    """Kills at random moments. Whether one finds a fault depends on the load of the machine, so it may take several."""
    row = kills.Kills(desk, given.journal, "stand-ins")
    for _ in range(MOST_KILLS if desk.surroundings["STAND_IN"] else KILLS):
        row.run_kill_and_check(may_be_at_once=False)
        if row.wrong:
            break
    return row.wrong


def try_second_desk(desk: DeskProgram, given: DeskInput) -> list[str]:
    """A second desk is started while the first one runs."""
    file = desk.make_path()
    surroundings = {**os.environ, **desk.surroundings}
    with desk.start(file, env=surroundings) as first:
        stdin, stdout = pipes_of(first)
        stdin.write(given.journal.records[0])
        stdin.flush()
        stdout.readline()
        got = desk.capture_output([file], env=surroundings)
        first.communicate(b"")
    return [] if got == (4, b"", LOCKED_LINE) else [f"a second desk: {got}"]


# Each fault of stand_in.c, and the test that has to find it.
FAULTS = [
    ("early", try_kills, "answers before the write"),
    ("early", try_crashes, "answers before the write"),
    ("answer before sync", try_crashes, "answers before the last sync"),
    ("one sync", try_crashes, "syncs both writes at once"),
    ("mark first", try_crashes, "opens the mark before the lines are there"),
    ("torn line", try_repair, "takes a line without its end"),
    ("takes all", try_crashes, "takes lines after the mark that doesn't count"),
    ("drops last", try_crashes, "drops the last acknowledged record"),
    ("no first sync", try_crashes, "prints records that it found and didn't sync"),
    ("no folder", try_crashes, "doesn't sync the folder of a new file"),
    ("unsynced repair", try_crashes, "doesn't sync its repair of a file"),
    ("mark before blanks", try_repair, "writes the mark before the lines after it are gone"),
    ("retry", try_refused_syncs, "goes on after a sync that failed"),
    ("book after", try_crashes, "answers with the book after the record"),
    ("twice", try_crashes, "enters a record twice after it was opened again"),
    ("second desk", try_second_desk, "lets a second desk in"),
]


def draw_inputs(dam: DamProgram) -> tuple[DeskInput, DeskInput]:
    """A short input, and a long one for kills."""
    rng = random.Random("stand-ins")
    short = journals.draw_input(dam, "stand-ins", journals.draw_short_names, 9, most=4)
    records = list(kills.draw_load(rng, 3_000))
    return short, journals.DeskInput(journals.Journal(records, dam), [b"".join(records)], [True] * len(records))


def check_stand_ins(counts: Counts, desk: DeskProgram, dam: DamProgram, _: bool) -> None:
    begun = time.monotonic()
    short, long = draw_inputs(dam)

    def try_on_stand_in(fault: str, test: Callable[[DeskProgram, DeskInput], list[str]]) -> list[str]:
        given = long if test is try_kills else short
        replies = desk.room / f"replies-{len(given.journal)}"
        replies.write_bytes(given.journal.all_printed)
        wrong_desk = DeskProgram([desk.room / "stand_in"], desk.room, {"STAND_IN": fault, "STAND_IN_REPLIES": str(replies)}, desk.jobs)
        return test(wrong_desk, given)

    for test in (
        try_crashes,
        try_refused_syncs,
        try_repair,
        try_kills,
        try_second_desk,
    ):
        wrong = try_on_stand_in("", test)
        counts.check(f"a desk without a fault, {test.__name__}: {wrong[:2]}", not wrong)
    for fault, test, about in FAULTS:
        counts.check(f"a desk that {about}, {test.__name__}: nothing was found", bool(try_on_stand_in(fault, test)))
    print(f"stand-ins: {len(FAULTS)} faults to find; {time.monotonic() - begun:.1f} s", flush=True)
