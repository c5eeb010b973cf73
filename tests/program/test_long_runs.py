"""The oracle's long runs are its runs: the same report, and the same checkpoint at each block."""
from __future__ import annotations

from typing import Any

import tomlkit
from hypothesis import given, settings
from hypothesis import strategies as st

from tests.program import oracle
from tests.program.long_runs import LongRun


def laws(least: int, most: int) -> st.SearchStrategy[dict[str, Any]]:
    """Returns a strategy for tables of values in a range, with weights of which one is not 0."""
    rows = st.dictionaries(
        st.integers(least, most), st.integers(0, 9000), min_size=1, max_size=4
    )
    return rows.filter(lambda its: any(its.values())).map(
        lambda its: {
            "values": sorted(its),
            "weights": [its[value] for value in sorted(its)],
        }
    )


def policy_of(levels: tuple[int, int]) -> dict[str, Any]:
    """Returns a policy with these levels."""
    return {"name": "P", "s": min(levels), "S": max(levels)}


COSTS = st.fixed_dictionaries(
    {it: st.integers(0, 10_000) for it in ("setup", "unit", "holding", "backlog")}
)
LEVELS = st.integers(0, 50)
POLICIES = st.lists(st.tuples(LEVELS, LEVELS).map(policy_of), min_size=1, max_size=3)
SCENARIOS = st.fixed_dictionaries(
    {
        "key": st.lists(
            st.integers(0, 2**64 - 1).map("{:016x}".format), min_size=4, max_size=4
        ),
        "periods": st.integers(1, 30),
        "replications": st.integers(1, 5),
        "initial": st.integers(0, 60),
        "costs": COSTS,
        "demand": laws(0, 20),
        "lead": laws(1, 32),
        "policy": POLICIES,
    },
    optional={"returns": laws(0, 20)},
)


@settings(max_examples=60)
@given(SCENARIOS)
def test_long_run_is_the_run(tree: dict[str, Any]) -> None:
    """Both runs of a scenario have the same report, and the same checkpoint at each block."""
    text = tomlkit.dumps(tree)
    long, short = LongRun(text, range(tree["replications"])), oracle.run_of(text)
    assert oracle.report_of(long) == oracle.report_of(short)
    for block in range(short.scenario.total + 1):
        assert oracle.checkpoint_of(long, block) == oracle.checkpoint_of(short, block)
