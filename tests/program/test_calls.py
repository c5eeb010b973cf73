"""What calls of the crates take is what calls.csv says."""
from __future__ import annotations

from pathlib import Path

import pytest

from tests.program.calls import CALLS, figures_of, stored_rows


@pytest.mark.parametrize("call", CALLS)
def test_calls(call: str, preload_library: Path, room: Path) -> None:
    """A test that makes a call takes what the table says."""
    assert figures_of(call, preload_library, room) == stored_rows()[call]


def test_table() -> None:
    """The table has the calls, each once and in their order."""
    assert list(stored_rows()) == list(
        CALLS
    ), "write it anew: python -m tests.program.calls"
