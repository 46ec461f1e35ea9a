"""Fits pytest to the checks of this folder: subtests count as cases, long tests are marked and begun first, a signal ends all.

pytest itself runs a test of unittest only up to its first subtest that fails, and counts it as one.
"""
import contextlib
import os
import pathlib
import signal
import sys
import traceback
import unittest
from typing import Any, Dict, Iterator, List, Sequence

import pytest

sys.dont_write_bytecode = True
import common  # noqa: E402

COUNTS = common.Counts()
ENDED = (pytest.ExitCode.OK, pytest.ExitCode.TESTS_FAILED)


class Found:
    """The subtests of the test that runs: how many passed, what failed, and the reasons to skip."""

    def __init__(self) -> None:
        self.passed = 0
        self.failed: List[str] = []
        self.reasons: List[str] = []

    def of(self, report: pytest.TestReport) -> "Dict[str, Any]":
        """Returns the cases of the test, of which this is pytest's report."""
        subtests = self.passed or self.failed or self.reasons
        own = [report.longrepr[2].removeprefix("Skipped: ")] if report.skipped and isinstance(report.longrepr, tuple) else []
        passed = self.passed + (report.passed and not subtests)
        return {"passed": passed, "failed": len(self.failed) + report.failed, "reasons": self.reasons + own}


FOUND = Found()


@contextlib.contextmanager
def subtest(case: unittest.TestCase, title: object = "", **values: object) -> Iterator[None]:
    """Takes the place of unittest's own `subTest`: keeps what fails, and goes on."""
    before = len(FOUND.failed)
    try:
        yield
    except unittest.SkipTest as reason:
        FOUND.reasons.append(str(reason))
    except Exception:
        words = [f"[{title}]" if title else "", *(f"{name}={value!r}" for name, value in values.items())]
        FOUND.failed.append(f"{case.id()} {' '.join(words)}\n{traceback.format_exc()}")
    else:
        FOUND.passed += len(FOUND.failed) == before


def pytest_configure(config: pytest.Config) -> None:
    setattr(unittest.TestCase, "subTest", subtest)
    common.on_signals(common.interrupted)


def pytest_sessionstart(session: pytest.Session) -> None:
    reporter = session.config.pluginmanager.get_plugin("terminalreporter")
    if reporter and not hasattr(session.config, "workerinput"):
        reporter.write_line(f"checks/gate with pytest, of {common.PGO} and {common.COLD}")


def children() -> Iterator[int]:
    """The processes that this one started."""
    for path in pathlib.Path("/proc").glob("[0-9]*/stat"):
        with contextlib.suppress(OSError):
            if int(path.read_text().rpartition(")")[2].split()[1]) == os.getpid():
                yield int(path.parent.name)


def pytest_keyboard_interrupt() -> None:
    """Ends the workers: each then ends what its test has started."""
    for child in children():
        with contextlib.suppress(ProcessLookupError):
            os.kill(child, signal.SIGTERM)


def dealt(items: Sequence[pytest.Item], workers: int) -> List[pytest.Item]:
    """Orders the tests, longest first. xdist gives each worker an equal run of the first quarter, so these get equal times."""
    ordered = sorted(items, key=lambda item: -seconds_of(item))
    size = max(len(items) // workers // 4, 2)
    piles: List[List[pytest.Item]] = [[] for _ in range(workers)]
    for item in ordered[: workers * size]:
        min((pile for pile in piles if len(pile) < size), key=lambda pile: sum(map(seconds_of, pile))).append(item)
    return [item for pile in piles for item in pile] + ordered[workers * size :]


def seconds_of(item: pytest.Item) -> int:
    return common.seconds_of(getattr(item, "obj", None), getattr(item, "cls", None))


def pytest_itemcollected(item: pytest.Item) -> None:
    if seconds_of(item) >= common.LONG:
        item.add_marker("long")
        item.add_marker(pytest.mark.timeout(20 * seconds_of(item)))


@pytest.hookimpl(trylast=True)
def pytest_collection_modifyitems(config: pytest.Config, items: List[pytest.Item]) -> None:
    items[:] = dealt(items, getattr(config, "workerinput", {"workercount": 1})["workercount"])


def pytest_runtest_setup() -> None:
    global FOUND
    FOUND = Found()


@pytest.hookimpl(hookwrapper=True)
def pytest_runtest_makereport(item: pytest.Item, call: Any) -> Iterator[None]:
    """Adds the subtests to the report of a test."""
    report = (yield).get_result()  # type: ignore
    if report.when == "call":
        report.user_properties.append(("cases", FOUND.of(report)))
        if FOUND.failed:
            own = [report.longreprtext] if report.failed else []
            report.outcome, report.longrepr = "failed", "\n".join([*FOUND.failed, *own])


def pytest_runtest_logreport(report: pytest.TestReport) -> None:
    """Counts the cases of a test. A report without them is of a test that could not begin or end, or that was skipped."""
    if report.when == "call":
        cases: Any = dict(report.user_properties)["cases"]
    elif not report.passed:
        cases = Found().of(report)
    else:
        return
    COUNTS.add(report.nodeid.rpartition("/")[2], **cases)


@pytest.hookimpl(hookwrapper=True, tryfirst=True)
def pytest_sessionfinish(session: pytest.Session, exitstatus: int) -> Iterator[None]:
    """Prints the counts last, unless the run was interrupted."""
    yield
    reporter = session.config.pluginmanager.get_plugin("terminalreporter")
    if reporter and exitstatus in ENDED and not hasattr(session.config, "workerinput"):
        reporter.write_line("\n".join(COUNTS.lines()))
