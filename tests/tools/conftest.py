"""Fixtures of the tests of the tools."""
from __future__ import annotations

from pathlib import Path

import pytest

from .machine import Machine


@pytest.fixture
def machine(tmp_path: Path) -> Machine:
    """Returns a machine of the test's own."""
    return Machine(tmp_path)
