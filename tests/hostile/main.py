"""tests/hostile/run [--all | --count] [--dam PROGRAM] [PART ..]: runs the built program on a hostile system.

PART is one of these; without one, all run:
  memory   each call for memory refused, one in each run: in the worked cases of tests/cases, and in days and other runs
  calls    each call for a thread, for random bytes or of a device refused; standard streams that are closed or full
  retries  the program dam_refusals, which makes each call of the libraries again whose memory was refused
  threads  how many threads start, whether all are joined, and when random bytes are drawn
  texts    when the text's memory is freed, and by how many calls texts are read and written
  books    calls for memory and bytes on books of each size; days whose commands copy no book
  stacks   searches with a stack of 512 KiB
  peaks    the bytes held on the longest texts
  names    names of orders that collide in a book's map
  cancels  many cancels
  full     books at their limits
  shapes   journals of each shape: their instructions and bytes compared with counted.csv, their calls for memory with growths.csv;
           --count writes both, and runs nothing else
In the last four, valgrind counts the instructions. Of the larger runs of `memory`, `calls` and `retries` only some calls are refused,
evenly spread; they print how many runs are left out: none with --all.

The line of a failure names its part. The run needs a C compiler as `cc`, Python 3.10 and the GNU C library; without one of them it runs
nothing, and says so. The last line is 'N passed, M failed', with ', K skipped' if something was left out."""

import shutil
import sys
from pathlib import Path

sys.dont_write_bytecode = True
sys.path[:1] = [str(Path(__file__).resolve().parents[2] / folder) for folder in ("tests", "tools")]

from hostile import costs_by_shape, instruction_costs, peaks, program_checks, retried_calls, rows
from hostile.row_runner import RowRunner
from shared.arguments import add_programs, parser_of_docstring
from shared.cost_tables import check_costs, write_tables
from shared.parts_asked import parse_parts_or_exit
from shared.preload import HostileProgram


def check_memory(runs: RowRunner) -> None:
    runs.check_rows("memory refused once in the worked cases", rows.read_rows_of_cases())
    runs.check_rows("memory refused from one call on in the worked cases", rows.read_rows_of_cases_without_memory())
    runs.check_rows("memory refused in days and other runs", rows.rows_of_memory())


def check_calls(runs: RowRunner) -> None:
    runs.check_rows("threads refused", rows.rows_of_threads())
    runs.check_rows("random bytes refused", rows.rows_of_random_bytes())
    runs.check_rows("reads and writes that fail", rows.rows_of_devices())
    program_checks.check_devices(runs)


def check_retries(runs: RowRunner) -> None:
    retried_calls.check_rows(runs, runs.program.room, rows.capture_rows_of_calls(runs.program))


def check_texts(runs: RowRunner) -> None:
    program_checks.check_freed_texts(runs)
    program_checks.check_reads(runs)
    program_checks.check_writes(runs)


def check_threads(runs: RowRunner) -> None:
    program_checks.check_seeds(runs)
    program_checks.check_threads(runs)
    program_checks.check_strays(runs)


def check_books(runs: RowRunner) -> None:
    program_checks.check_books_by_size(runs)
    program_checks.check_copies(runs)


def check_shapes(runs: RowRunner) -> None:
    check_costs(runs, costs_by_shape.HERE, costs_by_shape.measure_costs(runs))


PARTS = {
    "memory": check_memory,
    "calls": check_calls,
    "retries": check_retries,
    "threads": check_threads,
    "texts": check_texts,
    "books": check_books,
    "stacks": program_checks.check_stacks,
    "peaks": peaks.check_peaks,
    "names": instruction_costs.check_names,
    "cancels": instruction_costs.check_cancels,
    "full": instruction_costs.check_full_books,
    "shapes": check_shapes,
}
COUNTED = ["names", "cancels", "full", "shapes"]  # by valgrind


def main() -> int:
    room, *words = sys.argv[1:]  # tests/hostile/run makes the folder
    parser = parser_of_docstring(__doc__)
    add_programs(parser, "dam")
    asked = parse_parts_or_exit(parser, words, PARTS)
    runs = RowRunner(HostileProgram(asked.dam, room), asked.all)
    if asked.count:
        write_tables(costs_by_shape.HERE, costs_by_shape.measure_costs(runs))
        return 0
    for name in asked.parts:
        runs.begin_part(name)
        if name in COUNTED and not shutil.which("valgrind"):
            runs.count_and_print_left_out(f"{name}: valgrind, which counts instructions, is missing")
        else:
            with runs.counting_exceptions("the part ended early"):
                PARTS[name](runs)
    return runs.print_totals_and_return_status()


if __name__ == "__main__":
    sys.exit(main())
