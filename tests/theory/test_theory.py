"""The theory is right: beside sums over all draws, and beside its own shorter way."""
from __future__ import annotations

import itertools
import math
from typing import Any

import pytest

from tests.program import oracle
from tests.theory.expected import Expected, chances_of

Table = tuple[list[int], list[int]]

# Small scenarios: values and weights of demands, lead times and returns, and the levels of a policy.
SMALL: list[tuple[Table, Table, Table, tuple[int, int]]] = [
    (([0, 3], [2, 1]), ([1, 3], [1, 2]), ([0], [1]), (2, 5)),
    (([1, 4], [3, 1]), ([2], [1]), ([0, 2], [1, 1]), (4, 4)),
    (([0, 2], [1, 1]), ([1, 2], [1, 1]), ([0, 1], [2, 1]), (3, 6)),
]


def small_tree(
    demand: Table, lead: Table, back: Table, levels: tuple[int, int], periods: int = 4
) -> dict[str, Any]:
    """Returns a small scenario."""
    laws = {"demand": demand, "lead": lead, "returns": back}
    tables = {
        name: {"values": values, "weights": weights}
        for name, (values, weights) in laws.items()
    }
    return {
        "periods": periods,
        "initial": 3,
        "costs": {"setup": 7, "unit": 2, "holding": 1, "backlog": 4},
        **tables,
        "policy": [{"s": levels[0], "S": levels[1]}],
    }


class Drawn:
    """A scenario of the oracle whose draws are given."""

    def __init__(self, tree: dict[str, Any]) -> None:
        """Takes a tree without a key."""
        self.tree, self.periods, self.costs = tree, tree["periods"], tree["costs"]


def sum_over_draws(tree: dict[str, Any]) -> float:
    """Returns the expected cost of a replication as the sum over all that its periods may draw."""
    laws = [chances_of(tree[name]) for name in ("demand", "lead", "returns")]
    periods, total = list(itertools.product(*(law.items() for law in laws))), 0.0
    for draws in itertools.product(periods, repeat=tree["periods"]):
        chance = math.prod(part[1] for period in draws for part in period)
        words = [[period[it][0] for period in draws] for it in range(3)]
        total += chance * sum(oracle.history(Drawn(tree), tree["policy"][0], words)[2])
    return total


@pytest.mark.parametrize(
    "small", SMALL, ids=["orders overtake", "returns", "returns and two lead times"]
)
def test_sum_over_all_draws(small: Any) -> None:
    """The expected cost is the mean over all that the periods of a small scenario may draw."""
    tree = small_tree(*small)
    assert Expected(tree, tree["policy"][0]).cost() == pytest.approx(
        sum_over_draws(tree), abs=1e-9
    )


def test_one_lead_time_the_general_way() -> None:
    """The shorter way for one lead time gives what the general way gives."""
    tree = small_tree(*SMALL[1], periods=9)
    policy = Expected(tree, tree["policy"][0])
    general = policy.cost(
        lambda reviews, position: policy.general_cost(reviews, position, 0)
    )
    assert policy.cost() == pytest.approx(general, abs=1e-9)
