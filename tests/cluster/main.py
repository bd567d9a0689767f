"""tests/cluster/run [--dam PROGRAM]: many days on a local dask cluster of two worker processes, one of which is killed in the middle.

Each journal's result has to come, in order, and be what the program prints by itself: if the workers run the program, and if they call the
library for C. And tools/whatif ends with a fault if the scheduler ends or hangs, has no workers, or one of these hangs,
and at once after Ctrl-C. It needs Debian's python3-distributed, and the library for its part; what is missing is left out. The last line is
'N passed, M failed', with ', K skipped' if something was left out."""

import logging
import os
import signal
from collections.abc import Sequence
from typing import Any

from cluster import lost
from shared import cases
from shared.arguments import add_programs, parse_with_programs_or_exit, parser_of_docstring
from shared.counts import Counts
from shared.place import TOP

REPEATS = 10  # of each journal
AHEAD = 40  # journals that are waiting, so that most come after the kill
KILL_AFTER = 20  # results


def read_journals() -> list[bytes]:
    """The worked cases of clearings, and the examples, some times over: faults too."""
    worked = [case.stdin for case in cases.read_cases_of_file("clear").values()]
    return [*worked, *(path.read_bytes() for path in sorted((TOP / "examples").glob("*.csv")))] * REPEATS


def text_or_fault_and_status(found: Any) -> object:
    """A result to compare: its text, or the fault."""
    import dam_tools

    return (str(found), found.status) if isinstance(found, dam_tools.Fault) else found.text


def clear_kill_worker_and_return_results(texts: Sequence[bytes], counts: Counts) -> list[object]:
    """The results of the cluster. A worker is killed after some of them."""
    import dam_tools
    import distributed

    found = []
    options = {"n_workers": 2, "threads_per_worker": 1, "processes": True, "host": "127.0.0.1", "dashboard_address": None}
    options["silence_logs"] = logging.CRITICAL  # a worker that is killed is reported at length
    with distributed.LocalCluster(**options) as cluster, distributed.Client(cluster) as client:
        victim = next(iter(client.run(os.getpid).values()))
        counts.check("the workers are other processes", victim != os.getpid() and len(set(client.run(os.getpid).values())) == 2)
        for day in dam_tools.clear_many(texts, jobs=AHEAD, executor=client.get_executor(), quiet=True):
            found.append(text_or_fault_and_status(day))
            if len(found) == KILL_AFTER:
                os.kill(victim, signal.SIGKILL)
        counts.check("the killed worker is gone", victim not in client.run(os.getpid).values())
    return found


def run_and_check_results(counts: Counts, by: str, texts: Sequence[bytes], wanted: Sequence[object]) -> None:
    """The results of a cluster, compared with those of the program."""
    found = clear_kill_worker_and_return_results(texts, counts)
    counts.check(f"{len(found)} results of {len(texts)} journals by {by}", len(found) == len(texts))
    for number, (one, other) in enumerate(zip(wanted, found), 1):
        counts.check(f"journal {number} has another result on the cluster by {by}", one == other)


def main() -> int:
    parser = parser_of_docstring(__doc__)
    add_programs(parser, "dam")
    program, counts = parse_with_programs_or_exit(parser).dam, Counts()
    try:
        import distributed  # noqa: F401
    except ImportError:
        counts.count_and_print_left_out("many days on a cluster: python3-distributed is missing")
        return counts.print_totals_and_return_status()
    import dam_tools
    from dam_tools.lib.runs import which

    texts = read_journals()
    # The workers take these over.
    os.environ["PYTHONPATH"] = str(TOP / "tools")
    os.environ["DAM"] = program
    wanted = [text_or_fault_and_status(day) for day in dam_tools.clear_many(texts, program=program, quiet=True)]
    run_and_check_results(counts, "the program", texts, wanted)
    if which.is_library_built():
        del os.environ["DAM"]
        os.environ["DAM_LIBRARY"] = str(which.LIBRARY)
        run_and_check_results(counts, "the library", texts, wanted)
    else:
        counts.count_and_print_left_out("many days on a cluster by the library for C: it isn't built from the present sources")
    lost.run_and_check_whatif(counts, program)
    return counts.print_totals_and_return_status()
