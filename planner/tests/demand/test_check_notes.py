"""Tests of what is noted of a history: few and large demands, packs, and no recent demand."""
from __future__ import annotations

import bisect
import math
from typing import Any

import numpy as np
import pytest
from scipy import stats

from crnplan.demand.checks import check_history, largest_periods
from crnplan.demand.outliers import outliers_of, rosner_bound
from crnplan.read.dates import period_name
from planner.tests.demand.test_checks import CASES, said


@pytest.mark.parametrize(
    "counts, periods, chance",
    [
        # By hand: 10! 13! / (3! 20!)
        ([3, 1, 0, 2, 5, 0, 0, 1, 4, 2], 10, 1.548e-3),
        ([0] * 5 + [2, 0, 1], 44, 0.0211),
        ([7], 20, 0.0476),
    ],
)
def test_no_recent_demand(counts: list[int], periods: int, chance: float) -> None:
    """Periods without demand at the end are named with their hypergeometric chance, if that is small."""
    notes = {it.code: it.facts for it in check_history(counts + [0] * periods).notes}
    facts = notes["no recent demand"]
    law = stats.hypergeom(len(counts) + periods, np.count_nonzero(counts), periods)
    assert (facts["periods"], facts["last"]) == (periods, f"period {len(counts)}")
    assert facts["chance"] == pytest.approx(law.pmf(0))
    assert facts["chance"] == pytest.approx(chance, rel=0.01)
    shorter = check_history(counts + [0] * (periods // 4)).notes
    assert "no recent demand" not in [it.code for it in shorter]


@pytest.mark.parametrize("case", CASES["note"], ids=lambda it: str(it["often"]))
def test_notes(case: dict[str, Any]) -> None:
    """Few demands, packs and demands far above all others are named."""
    times, *numbers = case["often"]
    checks = check_history(numbers * times + case.get("last", []))
    assert said(checks.notes) == case["notes"]


@pytest.mark.parametrize("above, bound", [(0, 3.158794), (1, 3.151430), (2, 3.143890)])
def test_published_bounds(above: int, bound: float) -> None:
    """Bounds are those of the NIST/SEMATECH e-Handbook, section 1.3.5.17.3."""
    assert rosner_bound(54, above, 0.05 / 2) == pytest.approx(bound, abs=2e-6)


@pytest.mark.parametrize(
    "often, last, pack, outliers",
    [
        ([4, 5, 6, 5] * 10, [90, 80, 85], 1, [90, 85, 80]),
        ([24, 30, 36, 30] * 10, [540], 6, [540]),
        ([1] * 60, [2], 1, []),
        ([12] * 60, [24], 12, []),
        ([4, 5, 6, 5] * 10, [90, 80, 85, 95], 1, [95, 90, 85]),  # at most three
    ],
)
def test_outliers(
    often: list[int], last: list[int], pack: int, outliers: list[int]
) -> None:
    """Outliers may hide one another."""
    assert outliers_of(often + last, pack) == outliers


def test_largest_demands() -> None:
    """The largest demands stand with their weeks and their share of the variance; nothing is said of few demands."""
    numbers = [*[1] * 7, 6, *[1] * 8, 3, 9]
    (remark,) = largest_periods(numbers, "week", 2930)
    squares = (np.array(numbers) - np.mean(numbers)) ** 2
    share = squares[[7, 16, 17]].sum() / squares.sum()
    assert remark.facts["share"] == pytest.approx(share)
    for rank, (demand, place) in enumerate([(9, 17), (6, 7), (3, 16)], 1):
        assert remark.facts[f"demand_{rank}"] == demand
        week = period_name(2930 + place, "week")
        assert remark.facts[f"period_{rank}"] == week
    line = "demand: the largest demands (9 in period 18, 6 in period 8, 3 in period 17) make "
    assert "\n".join(check_history(numbers).lines).count(line) == 1


@pytest.mark.parametrize("count, is_few", [(9, True), (10, False)])
def test_nine_demands_are_few(count: int, is_few: bool) -> None:
    """Nothing is said of the largest of nine demands, nor of one far above all others; of ten it is."""
    numbers = [0, 0, *[1] * (count - 1), 900]
    codes = {it.code for it in check_history(numbers).notes}
    assert ("few demands in record" in codes) == ("far demands" not in codes) == is_few
    assert (outliers_of(numbers, 1) == []) == (largest_periods(numbers) == ()) == is_few


@pytest.mark.parametrize(
    "numbers",
    [
        *([4, 5, 6, 5] * 4 + [most] for most in range(7, 20, 2)),
        [1] * 11 + [2],
        [3] * 12,
    ],
    ids=lambda it: str(it[-1]),
)
def test_share_of_the_variance(numbers: list[int]) -> None:
    """The largest demands make as much of the variance as the largest one, and two of those just below it."""
    squares = (np.sort(numbers)[:-4:-1] - np.mean(numbers)) ** 2
    share = squares.sum() / max(len(numbers) * np.var(numbers), 1e-9)
    (found,) = check_history(numbers).largest
    assert found.facts["share"] == pytest.approx(share)


@pytest.mark.parametrize("seed", range(8))
def test_the_least_outlier(seed: int) -> None:
    """A demand is far above all others from a size on that is computed here, in pieces of which 1,000 are a pack."""
    others = np.random.default_rng(seed).geometric(0.55, 12 + 2 * seed)
    count = len(others) + 1
    quantile = stats.t.ppf(1 - 0.01 / count, count - 2)
    bound = (count - 1) * quantile / math.sqrt(count * (count - 2 + quantile**2))

    def is_far(demand: int) -> bool:
        """Returns whether it is, by the test of Rosner with a variance of 1/12 of a pack for its rounding."""
        packs = np.append(others, demand / 1_000)
        logarithms = np.log(packs)
        variance = np.var(logarithms, ddof=1) + np.mean(1 / 12 / packs**2)
        far = logarithms.max() - logarithms.mean()
        return bool(far > bound * math.sqrt(variance))

    near = int(1_000 * others.max())
    least = near + bisect.bisect_left(range(near, 1_000 * near), True, key=is_far)
    assert least > near and not is_far(least - 1)
    pieces = (1_000 * others).tolist()
    assert outliers_of([*pieces, least - 1], 1_000) == []
    assert outliers_of([*pieces, least], 1_000) == [least]
