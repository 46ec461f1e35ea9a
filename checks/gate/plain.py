"""Runs the tests of this folder with unittest, for a machine without pytest. checks/run calls it: JOBS all|short [NAME..]"""
import concurrent.futures
import multiprocessing
import os
import signal
import sys
import unittest
from typing import Any, Iterator, List, Tuple

import common

# Only the tests, not the scripts that they try, find modules by the path that checks/run has set.
os.environ.pop("PYTHONPATH", None)


class Cases(unittest.TestResult):
    """Counts cases: the subtests of a test, or a test that has none."""

    passed = parts = 0

    def addSubTest(self, test: unittest.TestCase, subtest: unittest.TestCase, err: Any) -> None:
        super().addSubTest(test, subtest, err)
        self.parts, self.passed = self.parts + 1, self.passed + (err is None)

    def addSuccess(self, test: unittest.TestCase) -> None:
        self.passed += not self.parts


def tests_of(suite: unittest.TestSuite) -> Iterator[unittest.TestCase]:
    for one in suite:
        yield from tests_of(one) if isinstance(one, unittest.TestSuite) else [one]


def seconds_of(test: unittest.TestCase) -> int:
    return common.seconds_of(getattr(test, test.id().rpartition(".")[2], None), test)


def tried(name: str) -> Tuple[str, int, List[str], List[str]]:
    """Runs one test: its name, how many of its cases passed, which failed, and the reasons to skip."""
    cases, test = Cases(), next(tests_of(unittest.defaultTestLoader.loadTestsFromName(name)))
    try:
        common.on_signals(common.interrupted)
        unittest.TestSuite([test]).run(cases)
        common.on_signals(signal.SIG_DFL)
    except KeyboardInterrupt:
        test.doCleanups()
        os._exit(130)
    return name, cases.passed, [f"{it}\n{why}" for it, why in cases.errors + cases.failures], [why for _, why in cases.skipped]


def results_of(names: List[str], jobs: int) -> "Iterator[Tuple[str, int, List[str], List[str]]]":
    """Runs the tests side by side, in this order. A signal ends all of them and this process."""
    with concurrent.futures.ProcessPoolExecutor(jobs, multiprocessing.get_context("fork"), common.on_signals, (signal.SIG_DFL,)) as pool:
        try:
            for done in concurrent.futures.as_completed([pool.submit(tried, name) for name in names]):
                yield done.result()
        except KeyboardInterrupt:
            workers = multiprocessing.active_children()
            for worker in workers:
                worker.terminate()
            for worker in workers:
                worker.join()
            os._exit(130)


def main(jobs: str, which: str, *names: str) -> int:
    """Runs the tests. Returns the exit status."""
    common.on_signals(common.interrupted)
    print(f"checks/gate with unittest, of {common.PGO} and {common.COLD}", flush=True)
    loader, counts = unittest.TestLoader(), common.Counts()
    found = list(tests_of(loader.loadTestsFromNames(names) if names else loader.discover(str(common.HERE))))
    chosen = [test for test in found if names or which == "all" or seconds_of(test) < common.LONG]
    for name, passed, failed, reasons in results_of([it.id() for it in sorted(chosen, key=seconds_of, reverse=True)], int(jobs)):
        counts.add(name, passed, len(failed), reasons)
        print("".join(f"FAILED: {it}\n" for it in failed) or ".", end="", flush=True)
    print("", *counts.lines(), sep="\n")
    return 1 if counts.failed or not chosen else 0


if __name__ == "__main__":
    sys.exit(main(*sys.argv[1:]))
