"""Each command of the formats is known to these tests, with what it reads and with right bytes, and no other one is."""
from __future__ import annotations

import pytest
from crnplan import formats

from tests.hostile.known import COMMANDS, READS


@pytest.mark.parametrize("usage", sorted({*formats.COMMANDS, *filter(None, READS)}))
def test_command_is_known(usage: str) -> None:
    """The command stands in the formats, in READS and among COMMANDS."""
    assert usage in formats.COMMANDS
    assert usage in READS
    assert usage.split()[0] in {it.words[0] for it in COMMANDS}
