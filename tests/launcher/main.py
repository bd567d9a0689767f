"""tests/launcher/run: tests ./dam, tools/prove, tools/unproved and the end of ./check in small repositories, with a fake kit: its rt proves
nothing, and its compiler copies programs of the shell.

The last line is 'N passed, M failed'.
"""

import os
import signal
import sys
import unittest
from concurrent.futures import ThreadPoolExecutor

from launcher import check_ends, compilations, launches, proofs
from launcher.repository import STARTED
from lib.process import children
from shared.arguments import parser_of_docstring
from shared.counts import Counts


def end_processes_and_exit(number: int, _: object) -> None:
    """Ends this and the processes that the tests started."""
    for process in STARTED:
        if process.returncode is None:
            children.kill_group(process)
    sys.exit(128 + number)


def run_print_and_see_success(test: unittest.TestCase) -> bool:
    """Runs a test, says how it ended, and returns whether well."""
    result = unittest.TestResult()
    test.run(result)
    told = "".join(text for _, text in [*result.failures, *result.errors])
    print(f"{test.id().partition('.')[2]} ... {'ok' if not told else 'FAILED'}\n{told}", end="", flush=True)
    return not told


def main() -> int:
    parser_of_docstring(__doc__).parse_args()
    # the process that starts this may ignore signals, as a shell does for background jobs; the ones started here may not
    for number in (signal.SIGHUP, signal.SIGINT, signal.SIGTERM):
        signal.signal(number, end_processes_and_exit)
    load = unittest.defaultTestLoader.loadTestsFromModule
    suites = [suite for module in (launches, compilations, proofs, check_ends) for suite in load(module)]
    tests = [test for suite in suites if isinstance(suite, unittest.TestSuite) for test in suite if isinstance(test, unittest.TestCase)]
    with ThreadPoolExecutor(len(os.sched_getaffinity(0))) as pool:
        passed = sum(pool.map(run_print_and_see_success, tests))
    return Counts(passed, len(tests) - passed).print_totals_and_return_status()
