"""tests/desk/run [--all | --count] [--dam PROGRAM] [--desk DESK] [PART ..] [--only N]: looks whether a desk's acknowledged records are safe.

PART is one of these; without one, all run:
  stand_ins  desks with one fault each: each fault has to be found
  crashes    every file that a crash may leave at each moment of recorded runs, opened, and crashed again while it is opened
  kills      SIGKILL at random moments of a load, and a planted desk that answers early
  refused    each call of a file or a stream refused in turn, and each growth
  files      files that aren't a desk's, its own output, full journals, hostile lines, the memory of faults, inputs and pipes that end
  openings   the syncs, reads and writes of an opening; files with a torn end, and days of each length and any number of commands
  streams    random inputs, compared with `dam replay`; two desks, and the journal while a desk runs; --only N runs the input N alone
  names      names that collide in a book's map under the fixed seed, whose instructions valgrind counts
  shapes     journals of each shape: their instructions and bytes compared with counted.csv, their calls for memory with growths.csv;
             --count writes both, and runs nothing else
Without --all, `crashes` opens a sample of the files with the program, and the others by its own reader only; `kills` has 10 rounds in
place of 200, and `streams` 300 inputs in place of 1,000.

The line of a failure names its part. The files are in memory if /dev/shm allows that. It needs Linux, a C compiler as `cc`, Python 3.10 and
the GNU C library; without one of them it runs nothing, and says so. The last line is 'N passed, M failed', with ', K skipped' if something
was left out."""

import shutil
import sys
import time
from pathlib import Path

sys.dont_write_bytecode = True
sys.path[:1] = [str(Path(__file__).resolve().parents[2] / folder) for folder in ("tests", "tools")]

from desk import crashes, files, kills, names, openings, refused, shape_costs, stand_ins, streams
from desk.device import DeskProgram
from desk.journals import DamProgram
from shared.arguments import add_programs, parser_of_docstring
from shared.counts import Counts
from shared.parts_asked import parse_parts_or_exit
from shared.processes import read_processor_time

PARTS = {
    "stand_ins": stand_ins.check_stand_ins,
    "crashes": crashes.check_crashes,
    "kills": kills.check_kills,
    "refused": refused.check_refused_calls,
    "files": files.check_files,
    "openings": openings.check_openings,
    "streams": streams.check_streams,
    "names": names.check_names,
    "shapes": shape_costs.check_shape_costs,
}


def main() -> int:
    room, *words = sys.argv[1:]  # tests/desk/run makes the folder
    parser = parser_of_docstring(__doc__)
    add_programs(parser, "dam", "desk")
    parser.add_argument("--only", metavar="N", type=int)
    asked = parse_parts_or_exit(parser, words, PARTS)
    if asked.only is not None and asked.parts != ["streams"]:
        parser.error("--only is for the part streams")
    counts, dam, path = Counts(), DamProgram(asked.dam), Path(room) / "dam-desk"
    shutil.copyfile(asked.desk, path)  # so that another user can run it
    path.chmod(0o755)
    desk = DeskProgram([path], room)
    if asked.count:
        shape_costs.run_and_write_cost_tables(desk)
        return 0
    for name in asked.parts:
        begun = time.monotonic(), read_processor_time()
        counts.begin_part(name)
        with counts.counting_exceptions("the part ended early"):
            if asked.only is None:
                PARTS[name](counts, desk, dam, asked.all)
            else:
                streams.check_stream(counts, desk, dam, asked.only)
        print(f"{name}: {time.monotonic() - begun[0]:.0f} s, {read_processor_time() - begun[1]:.0f} s of a processor", flush=True)
    return counts.print_totals_and_return_status()


if __name__ == "__main__":
    sys.exit(main())
