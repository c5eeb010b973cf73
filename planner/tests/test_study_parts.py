"""Tests how the studies measure: their laws and items, costs and regrets of policies, summaries."""
from __future__ import annotations

import math
from collections.abc import Sequence
from typing import Any

import numpy as np
import pandas as pd
import pytest
from scipy import stats

from crnplan.demand.fitted import Diagnostics, FittedLaw
from crnplan.demand.borrowing import fit_demand
from crnplan.law import Law
from crnplan.runs import Scenario
from crnplan.theory.lattice import theories_of
from planner.studies import borrowing, dependence, doubt, fills, laws
from planner.studies.dependence import Case
from planner.studies.made_catalogues import (
    KINDS,
    catalogue,
    customers,
    negative_binomial,
    poisson,
)
from planner.tests.demand.made import chances_of
from planner.tests.plan.items import stocks_of
from planner.tests.theory.long_run_costs import costs_of, fills_of, shortfall_of

# Means and variances of the true laws, as their names say.
MOMENTS = {
    "P2": (2, 2),
    "NB3_9": (3, 9),
    "NB10_60": (10, 60),
    "INT": (0.8, 0.1 * 120 - 0.64),
    "LN100": (100, 3600),
    "PACK6": (3, 18),
    "PROJ": (4.5, 3 + 900 * 0.05 * 0.95),
    "NB1_4": (1, 4),
    "binomial": (9, 2.25),
    "even": (6, 14),
    "contracts": (3.5, 0.5 * (49 + 4)),
    "promotions": (6.8, 6 + 0.04 * 410 - 0.64),
}


def moments(law: Any) -> tuple[float, float]:
    cells = np.arange(len(law))
    return float(law @ cells), float(law @ cells**2 - (law @ cells) ** 2)


def scenario_with(
    demand: Any, lead: int, setup: float, backlog: int, today: tuple[int, int]
) -> Scenario:
    costs = {"setup": int(setup), "holding": 1, "backlog": backlog}
    return Scenario.of(demand, {lead: 1}, **costs, today=today)


def test_best_policies() -> None:
    """Best policies and costs are those of theories."""
    law = fit_demand([0, 3, 1, 0, 2, 7, 4, 0, 1, 1])
    runs, orders = laws.LongRuns(chances_of(law), 60, 160), {2: 40, 8: 300}
    choices = runs.best(np.array([*orders.values()]))
    for at, (lead, backlog, cover) in enumerate(laws.SETTINGS):
        theory, _ = theories_of(
            scenario_with(law, lead, orders[cover], backlog, (1, 2))
        )
        choice, best = choices[at], theory.best()
        assert (choice.level - choice.gap, choice.level) == (best.point, best.level)
        assert choice.cost == pytest.approx(best.cost)
        cost = runs.cost(at, orders[cover], choice.gap, choice.level)
        assert cost == pytest.approx(best.cost)


@pytest.mark.parametrize("point, level", [(5, 18), (20, 25)])
def test_true_fills(point: int, level: int) -> None:
    """True fill rates and costs are those of a second theory."""
    truth, levels = laws.Truth("INT"), np.array([level])
    scenario = fills.scenarios_of(fills.table_of(truth.law[:60]), truth.mean)[0]
    figures = theories_of(scenario)[0].figures(point, level)
    short = shortfall_of(scenario, level - point)
    fill, cost = fills_of(scenario, short, levels), costs_of(scenario, short, levels)
    assert [figures.fill] == pytest.approx(fill, abs=1e-9)
    assert [figures.cost] == pytest.approx(cost, rel=1e-9)


@pytest.mark.parametrize("name", MOMENTS)
def test_moments_of_laws(name: str) -> None:
    """The true laws have the moments that their names say."""
    mean, variance = moments(laws.LAWS[name] / laws.LAWS[name].sum())
    assert mean == pytest.approx(MOMENTS[name][0], rel=0.002)
    assert variance == pytest.approx(MOMENTS[name][1], rel=0.01)


def test_laws() -> None:
    assert {*laws.GROUPS.values()} == {"designed", "others", "unseen"}
    wide = moments(negative_binomial(6, 0.8))
    assert wide == pytest.approx((6, 6 + 36 / 0.8), rel=1e-6)
    assert moments(poisson(7.5)) == pytest.approx((7.5, 7.5), rel=1e-6)


def test_summary() -> None:
    """A summary has means, errors and the worst law."""
    rows = pd.DataFrame(
        {
            "group": "others",
            "periods": 52,
            "method": "auto",
            "law": ["a", "b"],
            "regret": [4.0, 8.0],
            "promise": [-1.0, -3.0],
            "gain": [1.0, -0.5],
            "regret_error": [0.3, 0.4],
            "promise_error": [0.6, 0.8],
            "gain_error": [0.0, 0.2],
        }
    )
    line = laws.summary(rows).iloc[0]
    wanted = {"regret": 6.0, "promise": -2.0, "gain": 0.25}
    wanted |= {"regret_error": 0.25, "promise_error": 0.5, "gain_error": 0.1}
    assert line[[*wanted]].to_dict() == pytest.approx(wanted)
    worst = line[["worst", "worst_gain", "worst_error"]].tolist()
    assert worst == ["b", -0.5, 0.2]


def test_summary_of_doubt() -> None:
    figures = {name: [80.0, 90.0] for name in doubt.FIGURES}
    errors = {f"{name}_error": [3.0, 4.0] for name in doubt.FIGURES}
    keys = {"group": ["designed", "others"], "law": ["a", "b"], "periods": 26}
    rows = doubt.summary(pd.DataFrame(keys | figures | errors))
    assert rows["group"].tolist() == ["designed", "others", "all"]
    assert rows["promise"].tolist() == [80, 90, 85]
    assert rows["promise_error"].tolist() == [3, 4, 2.5]
    assert rows["fill_held_worst"].tolist() == ["80 (a)", "90 (b)", "80 (a)"]


def test_errors_of_pairs() -> None:
    """Errors of a difference and a ratio are those of repeated draws."""
    random, found = np.random.default_rng(5), []
    for _ in range(2000):
        others = random.gamma(4, 1, 50)
        found.append(borrowing.paired(0.5 * others + random.gamma(2, 0.5, 50), others))
    means, spread = np.mean(found, axis=0), np.std(found, axis=0)
    assert means[[0, 2]] == pytest.approx([-1, 0.75], abs=0.02)
    assert means[[1, 3]] == pytest.approx(spread[[0, 2]], rel=0.1)


@pytest.mark.parametrize("kind", KINDS)
def test_made_items(kind: str) -> None:
    """Items have laws of chances that add up to 1, their histories are drawn from them, and a seed gives the same."""
    made = catalogue(kind, 40, 400, 3)
    assert made.histories == catalogue(kind, 40, 400, 3).histories
    assert made.histories != catalogue(kind, 40, 400, 4).histories
    distances = []
    for (law, _), history in zip(made.items, made.histories):
        mean, variance = moments(law)
        assert law.sum() == pytest.approx(1) and law.min() >= 0 and len(history) == 400
        distances.append((np.mean(history) - mean) / np.sqrt(variance / 400))
    assert abs(np.mean(distances)) < 4 / np.sqrt(40) and 0.6 < np.std(distances) < 1.5


class Medians(np.random.Generator):
    """Draws 0 each time, so that parameters are their medians."""

    def standard_normal(self, *_: object) -> float:  # type: ignore[override]
        return 0.0


def test_customers() -> None:
    """The law of a Poisson number of customers is the sum over their number."""
    law = customers(Medians(np.random.PCG64(1))).law
    ends = np.arange(int(4 * np.exp(3.2)) + 2) + 0.5
    sizes = np.diff(stats.lognorm(0.8, scale=4).cdf(ends), prepend=0.0)
    sizes[:2] = 0, sizes[:2].sum()
    expected, power = np.zeros(4000), np.ones(1)
    for chance in stats.poisson.pmf(np.arange(15), 0.3):
        expected[: len(power)] += chance * power
        power = np.convolve(power, sizes / sizes.sum())[:4000]
    found = np.pad(law, (0, 4000))[:4000]
    assert np.abs(found - expected).max() < 1e-9 and moments(law)[0] > 0


def test_regret() -> None:
    """The true law has no regret, and another law that of the policies of `planner.studies.laws`."""
    chances = laws.LAWS["NB3_9"] / laws.LAWS["NB3_9"].sum()
    truth, none = borrowing.Truth(chances), Diagnostics(Law((0,), (1,)), "auto")
    true = FittedLaw.made(Law.of_chances(chances), "true", none)
    assert truth.regret(true) == pytest.approx(0, abs=0.01)
    numbers = stats.nbinom.rvs(1.5, 1 / 3, size=30, random_state=4)
    fitted = fit_demand(numbers)
    regrets = np.array([*laws.Truth("NB3_9").regrets(fitted)])[:, 0]
    is_rare = np.array([cover == 8 for *_, cover in laws.SETTINGS])
    wanted = 100 * regrets[is_rare].mean()
    assert truth.regret(fitted) == pytest.approx(wanted)


@pytest.mark.parametrize(
    "numbers",
    [[0, 0, 3, 0, 1, 9, 0, 0, 2, 5, 0, 4], [6, 0, 12, 6, 0, 6, 18, 0], [40] * 9 + [2]],
)
def test_predictive_law(numbers: list[int]) -> None:
    found = borrowing.predictive_law(fit_demand(numbers), numbers)
    expected = fit_demand(numbers, method="predictive")
    assert (found.table, found.family) == (expected.table, expected.family)


def simulated_cost(
    demand: Sequence[int],
    lead: int,
    low: int,
    level: int,
    costs: tuple[float, float],
    used: int,
) -> float:
    """Returns the mean cost of a period of a policy, period by period: setup and backlog; holding costs 1.

    Orders count in the first `used` periods, and the stock `lead` periods later.
    """
    total = 0.0
    walk = stocks_of((low, level), demand, lead, level)
    for period, (order, end) in enumerate(walk):
        total += costs[0] * (order > 0 and period < used)
        if lead <= period < used + lead:
            total += max(end, 0) + costs[1] * max(-end, 0)
    return total / used


def test_costs_on_paths() -> None:
    """Costs of one pass are those of policies alone. Each half of the paths chooses the best policy for the other."""
    demand = np.random.default_rng(6).negative_binomial(1.5, 1 / 3, (400, 2))
    on_paths = dependence.Paths(demand, 12, 40)
    for setting, (lead, backlog, _) in enumerate(laws.SETTINGS):
        costs = on_paths.costs(setting, 7.0)
        for gap, level in ((0, 3), (4, 17), (11, 38)):
            levels = level - gap, level
            for path, numbers in enumerate(demand.T.tolist()):
                alone = simulated_cost(numbers, lead, *levels, (7.0, backlog), 394)
                assert costs[path, gap, level] == pytest.approx(alone)
        assert costs[0, 11, 10] == math.inf
    costs = np.ones((4, 1, 3)) * [[[4.0, 2, 3]], [[4, 3, 2]], [[4, 2, 3]], [[4, 3, 2]]]
    regrets, level = dependence.judged(costs, laws.Choice(0, 0, 0.0))
    assert regrets == pytest.approx([1 / 3] * 4) and level == 1.5


@pytest.mark.parametrize("law, mean, variance", [("steady", 10, 10), ("erratic", 3, 9)])
@pytest.mark.parametrize("size", [0, 30, 60])
def test_chains(law: str, mean: float, variance: float, size: int) -> None:
    """A chain has the law of the study and the autocorrelation that it is named by."""
    case, random = Case("autocorrelation", law, size), np.random.default_rng(7)
    drawn = dependence.chain(case, random, 2000, 50).astype(float)
    assert drawn.mean() == pytest.approx(mean, rel=0.03)
    assert drawn.var() == pytest.approx(variance, rel=0.05)
    for lag in (1, 2):
        found = ((drawn[lag:] - mean) * (drawn[:-lag] - mean)).mean() / variance
        assert found == pytest.approx((size / 100) ** lag, abs=0.03)


def test_figures_of_several_laws() -> None:
    """Costs, fill rates and least costs are theory's."""
    weighted = [{0: 3, 1: 2, 4: 2, 9: 1}, {0: 1, 2: 3, 3: 1}]
    chances = [np.bincount([*its], [*its.values()]) for its in weighted]
    orders = [30.0, 200.0, 30.0, 200.0]
    runs = doubt.PickedRuns(chances, 60, 160)
    least = runs.least(orders)
    for row, weights in enumerate(weighted):
        alone = doubt.PickedRuns(chances[row : row + 1], 60, 160)
        for at, (lead, backlog, _) in enumerate(doubt.PICKED):
            scenario = scenario_with(weights, lead, orders[at], backlog, (9, 20))
            theory, _ = theories_of(scenario)
            figures, filled = theory.figures(9, 20), theory.best(0.98)
            assert runs.cost(at, orders[at], 11, 20)[row] == pytest.approx(figures.cost)
            assert runs.fill(at, 11, 20)[row] == pytest.approx(figures.fill)
            assert least[row, at] == pytest.approx(theory.best().cost)
            gap, level = alone.filled(at, orders[at], 0.98)
            own = theory.figures(level - gap, level)
            assert own.cost == pytest.approx(filled.cost, rel=0.011)
            assert own.fill >= 0.98


def test_bounds_without_a_doubt() -> None:
    """Without a doubt about the law, bounds hold."""
    case = doubt.Case("P2")
    best = [case.truth.best[place] for place in doubt.PLACES]
    costs, fills = case.under(case.runs, best, [(it.gap, it.level) for it in best])
    assert costs[0] == pytest.approx(case.best) == case.runs.least(case.orders)[0]
    assert ((0.5 < fills) & (fills < 1)).all()
