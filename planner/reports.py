"""Keeps what becomes of tests, and ends them early: `pytest -p planner.reports --reports FILE --seconds 20`.

FILE has a line of JSON for each part of a test: the test, and `killed` if it fails by itself, or else `passed`, `in a
fixture`, `by time` or `not loaded`. The run ends with the first test that fails by itself, or after some seconds of the
processor.
"""
from __future__ import annotations

import json
import time
from typing import Any

import pytest

PASSED, KILLED, FIXTURE = "passed", "killed", "in a fixture"
TIME, NOT_LOADED = "by time", "not loaded"


def pytest_addoption(parser: pytest.Parser) -> None:
    """Adds the options of this plugin."""
    parser.addoption("--reports", metavar="FILE", required=True)
    parser.addoption("--seconds", type=float, required=True)


def pytest_configure(config: pytest.Config) -> None:
    """Keeps what becomes of tests."""
    config.pluginmanager.register(Reports(config))


def outcome_of(report: Any) -> str:
    """Returns the outcome of a part of a test. A failure that names a limit of time is none of the test itself."""
    if report.outcome != "failed":
        return PASSED
    if "Timeout >" in report.longreprtext:
        return TIME
    return KILLED if report.when == "call" else FIXTURE


class Reports:
    """Writes a line as each part of a test ends, which stays if the process is killed."""

    def __init__(self, config: pytest.Config) -> None:
        self.file = open(config.getoption("--reports"), "w", encoding="utf-8")
        self.end = time.process_time() + config.getoption("--seconds")

    def pytest_sessionstart(self, session: pytest.Session) -> None:
        self.session = session

    def pytest_collectreport(self, report: Any) -> None:
        if report.outcome == "failed":
            self.write(report.nodeid, NOT_LOADED)

    def pytest_runtest_logreport(self, report: Any) -> None:
        outcome = outcome_of(report)
        self.write(report.nodeid, outcome)
        if outcome == KILLED or time.process_time() > self.end:
            self.session.shouldstop = "enough is known"

    def write(self, test: str, outcome: str) -> None:
        print(json.dumps([test, outcome]), file=self.file, flush=True)
