"""Makes histories whose law is known, and chances as arrays."""
from __future__ import annotations

import tomllib
from collections.abc import Sequence
from pathlib import Path

import numpy as np
import pytest
from scipy import stats

from crnplan.chances import Floats
from crnplan.demand import grid
from crnplan.demand.learning import GridPrior
from crnplan.demand.sample import Sample
from crnplan.law import Law

GIVEN: dict[str, list[int]] = tomllib.loads(
    Path(__file__).with_name("histories.toml").read_text("utf-8")
)
ERRATIC, SMOOTH, RARE, BULKY, SHORT, SINGLE = GIVEN.values()
HISTORIES = pytest.mark.parametrize(
    "numbers", [ERRATIC, SMOOTH, RARE], ids=["erratic", "smooth", "rare"]
)
# Of the items of `known`; the mean is that of sizes less 1.
TRUE_SHARE, TRUE_MEAN, TRUE_SIZE = 0.2, 4.0, 1.6


def history(
    seed: int,
    periods: int = 52,
    share: float = TRUE_SHARE,
    mean: float = TRUE_MEAN,
    size: float = TRUE_SIZE,
) -> list[int]:
    """Draws a history of the family that the grid has."""
    random = np.random.default_rng(seed)
    sizes = 1 + random.negative_binomial(size, size / (size + mean), periods)
    return [int(it) for it in np.where(random.random(periods) < share, sizes, 0)]


def logarithms(numbers: Sequence[int]) -> Floats:
    """Returns the logarithms of a history's likelihoods by scipy's laws: points of the share, points of the sizes."""
    data = np.array(numbers, int).reshape(-1, 1)
    shares = stats.bernoulli.logpmf(data > 0, grid.SHARES.ravel()).sum(axis=0)
    chances = grid.SIZE_DISPERSIONS / (grid.SIZE_DISPERSIONS + grid.SIZE_MEANS)
    sizes = stats.nbinom(grid.SIZE_DISPERSIONS, chances)
    its = sizes.logpmf(data[data > 0][:, None, None] - 1).sum(axis=0)
    return np.add.outer(shares, its.ravel())


def pulled(histories: Sequence[Sequence[int]], whole: GridPrior) -> Floats:
    """Returns the prior of some items that is pulled to that of the catalogue, as if by 30 more."""
    chunks = grid.chunks_of(Sample.of(it) for it in histories)
    return grid.estimated(chunks, whole.chances, 30 * whole.chances)


def chances_of(law: Law, size: int = 0) -> Floats:
    """Returns the chances of 0, 1, 2 and so on; at least so many."""
    chances = np.zeros(max(size, law.values[-1] + 1))
    chances[[*law.values]] = law.weights
    return chances / sum(law.weights)


def check_law(law: Law, size: int | None = 65_536) -> None:
    """Checks that a law is one that a scenario can have, whose weights add up to a size."""
    assert (
        0 <= law.values[0]
        and law.values[-1] <= 10_000
        and [*law.values] == sorted({*law.values})
    )
    assert min(law.weights) > 0 and (
        1 <= sum(law.weights) <= 65_536 if size is None else sum(law.weights) == size
    )


def check_mean(laws: Floats, expected: Floats, rounded: float) -> None:
    """Checks that the mean of drawn laws is a law: each distribution function within five standard errors of it."""
    width = laws.shape[1]
    below, wanted = np.cumsum(laws, axis=1), np.zeros(width)
    wanted[: len(expected)] = expected[:width]
    errors = below.std(axis=0) / np.sqrt(len(below))
    off = np.abs(below.mean(axis=0) - np.cumsum(wanted))
    assert (off <= 5 * errors + rounded).all()
