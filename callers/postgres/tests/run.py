"""Tests of the adapter with PostgreSQL servers of this machine.

The last line is `N passed, M failed`, and `, K skipped` if a program or a package is missing.

    test                 runs everything, and the load for some seconds
    test --minute        runs the load for a minute
    test --missing       prints what is missing for any of the tests, and runs nothing
    test NAME..          runs some modules, classes or tests: test_round_trip, test_walls.Walls
"""
from __future__ import annotations

import glob
import io
import logging
import os
import signal
import sys
import time
import unittest
from typing import Any

HERE = os.path.dirname(os.path.abspath(__file__))
CALLERS = os.path.dirname(os.path.dirname(HERE))
sys.path[:0] = [HERE, os.path.dirname(HERE), os.path.join(CALLERS, "python")]

from limits import TooSlow

# A test that misses a time limit is run again, because the machine may have been busy.
ATTEMPTS = 3


def missing_requirement() -> str:
    """Returns the name of the missing program or package, or an empty text."""
    try:
        import cedar_store
        import psycopg
        import psycopg_pool
    except ImportError as error:
        return f"{error.name or 'libcedar.so'} for this python3"
    if sys.version_info < (3, 11):
        return "python3 3.11"
    import servers

    return "" if servers.program_folder() else "initdb of PostgreSQL"


class TimedResult(unittest.TextTestResult):
    """A test result that prints the duration of each test, and that counts the passed and names the slow tests."""

    def __init__(self, *arguments: Any) -> None:
        super().__init__(*arguments)
        self.passed = 0
        self.slow: list[str] = []

    def addFailure(self, test: unittest.TestCase, error: Any) -> None:
        if isinstance(error[1], TooSlow):
            self.slow.append(test.id())
            self.stream.writeln(f"too slow: {error[1]}")
        else:
            super().addFailure(test, error)

    def addSuccess(self, test: unittest.TestCase) -> None:
        self.passed += 1
        super().addSuccess(test)

    def startTest(self, test: unittest.TestCase) -> None:
        self._start = time.monotonic()
        super().startTest(test)

    def stopTest(self, test: unittest.TestCase) -> None:
        self.stream.writeln(f"    {time.monotonic() - self._start:.1f} s")
        super().stopTest(test)


def main(arguments: list[str]) -> int:
    missing = missing_requirement()
    if arguments == ["--missing"]:
        print(missing)
        return 0
    if missing:
        print(f"{missing} is missing: NOT RUN: the adapter for PostgreSQL")
        print("0 passed, 0 failed, 1 skipped")
        return 0
    if "--minute" in arguments:
        os.environ["CEDAR_LOAD_SECONDS"] = "60"
    names = [argument for argument in arguments if argument != "--minute"]
    names = names or sorted(os.path.basename(path)[:-3] for path in glob.glob(os.path.join(HERE, "test_*.py")))
    output = io.StringIO()
    logging.getLogger("asyncio").setLevel(logging.ERROR)  # it reports slow steps
    logging.getLogger("psycopg.pool").setLevel(logging.CRITICAL)  # it reports each connection that a test cuts
    signal.signal(signal.SIGTERM, signal.default_int_handler)  # so that the servers are stopped
    passed, failed, skipped = 0, 0, list[Any]()
    for _ in range(ATTEMPTS):
        tests = unittest.defaultTestLoader.loadTestsFromNames(names)
        result: Any = unittest.TextTestRunner(stream=output, verbosity=2, resultclass=TimedResult).run(tests)
        passed, failed = passed + result.passed, failed + len(result.failures) + len(result.errors)
        skipped += result.skipped
        names = result.slow
        if not names:
            break
    failed += len(names)
    if failed or os.environ.get("CEDAR_VERBOSE"):
        print(output.getvalue())
    for test, reason in skipped:
        print(f"{reason}: NOT RUN: {test.id()}")
    print(f"{passed} passed, {failed} failed{f', {len(skipped)} skipped' if skipped else ''}")
    return failed != 0


if __name__ == "__main__":
    sys.exit(main(sys.argv[1:]))
