"""Which functions of the loops of a policy's thread the built program calls.

The loop over a batch's blocks has all code of a whole block's four periods. LLVM leaves a function out that has grown
too large, or that a second place calls, with no message: then the largest run takes up to a quarter longer, and
nothing else shows it. The loop that loads a batch is a function of its own: within the other, with too few registers
for both, the largest run takes a twentieth longer. What is left out has a symbol.
"""
from __future__ import annotations

import re
import shutil
import subprocess
from pathlib import Path

import pytest

# The functions of the loops, as their symbols begin.
LOOP = re.compile(
    r"crn_stock::(period|terms)::|crn_stock::state::State::(advance|run_|take_)"
    r"|crn_draw::(guide::(draw|searched)|weights::Weights::pick)|crn_ring::ring::Ring::load_"
    r"|crn_steps::shared_words::SharedWords::(base|load_|store_|publish_)"
)
# Those that are left out: what a block that the end of a replication cuts short needs, the search for a draw, and the
# loop that loads a batch.
LEFT_OUT = {
    "crn_stock::state::State::run_short_block",
    "crn_draw::guide::searched",
    "crn_ring::ring::Ring::load_rows",
}


def test_loop_has_its_code(program: Path) -> None:
    """Of the functions of the loops only those that are left out have a symbol."""
    if not shutil.which("nm"):
        pytest.skip("there is no nm")
    listed = subprocess.run(
        ["nm", program], capture_output=True, text=True, check=True
    ).stdout
    names = {
        line.split(" ", 2)[2].split("::<")[0]
        for line in listed.splitlines()
        if line[:1] != " "
    }
    assert {it for it in names if LOOP.match(it)} == LEFT_OUT
