"""Tests of fitted laws of lead times, whose chances go in part to their neighbours."""
from __future__ import annotations

from collections.abc import Sequence

import numpy as np
import pytest
from hypothesis import given, strategies as st

from crnplan.chances import blurred
from crnplan.demand.fitting import fit_lead
from crnplan.law import Law
from planner.tests.demand.made import check_law

LEADS = st.integers(1, 32)


@given(numbers=st.lists(LEADS, min_size=2, max_size=19))
def test_blurred_law(numbers: list[int]) -> None:
    """The law is within a period of what was seen and within 1 to 32, its weights add up, and the mean stays inside."""
    law = fit_lead(numbers)
    check_law(law)
    assert law.family == "blurred" and 1 <= law.values[0] and law.values[-1] <= 32
    assert {*law.values} <= {*np.add.outer(numbers, [-1, 0, 1]).flat}
    assert law == fit_lead(sorted(numbers))
    if 1 < min(numbers) and max(numbers) < 32:
        assert law.figures.mean == pytest.approx(np.mean(numbers), abs=32 / 65_536)
        added = law.figures.variance - np.var(numbers)  # that of the kernel
        assert added == pytest.approx(2 * law.diagnostics.side, abs=0.02)


@given(numbers=st.lists(LEADS, min_size=20) | st.lists(LEADS, min_size=1, max_size=1))
def test_many_lead_times_or_one(numbers: list[int]) -> None:
    """Twenty lead times are enough, and a single one is what the supplier says: they stay as they are."""
    law = fit_lead(np.array(numbers))
    assert law == fit_lead(numbers, method="empirical")
    assert law.table == Law.of_numbers(numbers)


def test_twenty_are_enough() -> None:
    assert fit_lead([3] * 19).values == (2, 3, 4) and fit_lead([3] * 20).values == (3,)


@pytest.mark.parametrize(
    "weights, expected",
    [
        ([0, 3, 0, 0, 1, 0], [3, 24, 3, 1, 8, 1]),
        ([1, 0, 0], [9, 1, 0]),
        ([0, 1], [1, 9]),
        ([0, 1, 1, 0], [1, 9, 9, 1]),
    ],
)
def test_kernel(weights: list[int], expected: list[int]) -> None:
    """A part goes to both neighbours, but not below 1 or above 32."""
    assert 10 * blurred(np.array(weights), 0.1) == pytest.approx(expected)


@pytest.mark.parametrize(
    "numbers", [[4, 4, 4, 4, 4], [3, 4, 5, 6, 4], [2, 2, 9, 2, 9, 9, 10]], ids=str
)
def test_fitted_share(numbers: Sequence[int]) -> None:
    """The share is the mean over 0 to 0.3 under the likelihood of each lead time from the others, by sums."""
    sides, likelihood = np.linspace(0, 0.3, 3001), np.ones(3001)
    for lead in numbers:
        same = numbers.count(lead) - 1
        beside = numbers.count(lead - 1) + numbers.count(lead + 1)
        near = same * (1 - 2 * sides) + beside * sides
        likelihood *= 0.95 * near / (len(numbers) - 1) + 0.05 / 32
    mean = np.average(sides, weights=likelihood)
    assert fit_lead(numbers).diagnostics.side == pytest.approx(mean, abs=0.0002)
