"""Catalogues of the tests of demand, and what is learned from them."""
from __future__ import annotations

import itertools

import pytest

from crnplan.demand.learning import Prior, learn
from planner.tests.demand.made import history


@pytest.fixture(scope="session")
def known() -> Prior:
    """Returns what is learned from 400 items of one law."""
    return learn([history(seed, 100) for seed in range(400)])


@pytest.fixture(scope="session")
def mixed() -> dict[str, list[int]]:
    """Returns 130 items of four laws, by name."""
    laws = itertools.cycle([(0.1, 2.0), (0.2, 8.0), (0.5, 3.0), (0.95, 12.0)])
    items = {}
    for seed, law in zip(range(130), laws):
        items[f"item {seed}"] = history(seed, 40 + seed % 2, *law)
    return items


@pytest.fixture(scope="session")
def packed(mixed: dict[str, list[int]]) -> dict[str, list[int]]:
    """Returns the items of `mixed`, and 31 with demands in packs; one has sizes that only in packs are of the grid."""
    items = {**mixed}
    for seed in range(31):
        pack = 6 if seed else 90
        items[f"packs {seed}"] = [pack * it for it in history(seed, 50, 0.3)]
    return items
