"""The files of a closed day are made: the signed head, then the results and, for each participant, the outcomes of its commands. The
journal is published only if the operator says so."""

from __future__ import annotations

import asyncio
import sys
import time
from collections.abc import AsyncIterator
from typing import TYPE_CHECKING

from ..base import place
from ..process import replacing
from ..seal import heads
from . import folder
from .programs import ProgramFailed, capture_output_or_raise
from .published import sha256_hex

if TYPE_CHECKING:
    from .day_writer import DayWriter

FIRST_PAUSE, LONGEST_PAUSE = 1.0, 60.0  # seconds before a step that failed is tried again


async def iterate_publishing_troubles(writer: DayWriter) -> AsyncIterator[str | None]:
    """Makes the files of a closed day, each once; a step that fails is tried again. After each try, it yields why its file wasn't made, or
    None if it was."""
    for step, name in ((write_journal_and_head, folder.HEAD), (write_results, folder.RESULTS), (write_statement, folder.STATEMENT)):
        pause = FIRST_PAUSE
        while True:
            began = time.monotonic()
            try:
                await step(writer)
                break
            except (ProgramFailed, OSError) as fault:
                yield str(fault)
                writer.log_event("not made", file=name, fault=str(fault))
                writer.counts.add("publish_faults_total")
                await asyncio.sleep(pause)
                pause = min(2 * pause, LONGEST_PAUSE)
        yield None
        writer.log_event("made", file=name, seconds=round(time.monotonic() - began, 3))


async def write_journal_and_head(writer: DayWriter) -> None:
    """The head of the whole journal, which no later one follows, with the journal and its replies."""
    for name, data in ((folder.JOURNAL, writer.ledger.journal_bytes()), (folder.REPLIES, writer.ledger.replies_bytes())):
        with folder.naming_file(writer.files.path_of(name)):
            replacing.write_replacing(writer.files.path_of(name), data)
    folder.write_synced(writer.files.path_of(folder.HEAD), heads.line_bytes_of(writer.ledger.signed_head()))


async def write_results(writer: DayWriter) -> None:
    """The results, by `dam clear`."""
    if not writer.published.has_results:
        made = await capture_output_or_raise(writer.programs.dam, "clear", data=writer.files.read_file(folder.JOURNAL))
        folder.write_synced(writer.files.path_of(folder.RESULTS), made)


async def write_statement(writer: DayWriter) -> None:
    """The outcome of each command, by tools/table, in a process of its own."""
    if not writer.files.has_file(folder.STATEMENT):
        tool = str(place.FOLDER / "table")
        paths = (str(writer.files.path_of(name)) for name in (folder.JOURNAL, folder.RESULTS))
        made = await capture_output_or_raise(sys.executable, "-I", "-B", tool, "--rows", "statement", "--json", "--quiet", *paths)
        sums = {folder.RESULTS: sha256_hex(writer.files.read_file(folder.RESULTS)), folder.STATEMENT: sha256_hex(made)}
        folder.write_synced(writer.files.path_of(folder.SUMS), folder.json_bytes(sums))  # first: a statement that is there has its sum
        folder.write_synced(writer.files.path_of(folder.STATEMENT), made)
