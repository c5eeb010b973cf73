"""Fixtures of the tests of the theory."""
from __future__ import annotations

import pytest

from planner.tests.conftest import leave_as_written


@pytest.fixture(params=["compiled", "as written"])
def each_way(request: pytest.FixtureRequest, monkeypatch: pytest.MonkeyPatch) -> None:
    """Has the loops of the modules that a test file names run as they are compiled, then as they are written."""
    if request.param == "as written":
        leave_as_written(monkeypatch, *request.module.LOOPS)
