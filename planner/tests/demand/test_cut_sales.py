"""Tests of the demand that is expected in periods whose sales are cut: against the greatest likelihood as scipy finds it."""
from __future__ import annotations

import dataclasses
import math
from collections.abc import Callable
from typing import Any

import numpy as np
import pytest
from scipy import optimize, stats

from crnplan.demand.cut_sales import expected_demands, fit_of, spread, stratified
from crnplan.demand.families import FAMILIES
from crnplan.demand.borrowing import fit_demand
from crnplan.demand.sample import Sample
from crnplan.plan.choice import allowed_by
from crnplan.plan.one import remarks_of_past
from crnplan.plan.question import expected_of, question_of
from planner.tests.plan.items import alone, item_of


VALUES = np.arange(400)


def negative_binomial(place: Any) -> Any:
    size, mean = np.exp(place)
    return stats.nbinom.pmf(VALUES, size, size / (size + mean))


def hurdle(place: Any) -> Any:
    """Returns the law of a share of periods without demand, and of sizes above 0 that are Poisson, less 1."""
    share = 1 / (1 + math.exp(-place[0]))
    above = (1 - share) * stats.poisson.pmf(VALUES - 1, math.exp(place[1]))
    return np.where(VALUES == 0, share, above)


# By family: its law by free parameters, and where a search for the likeliest begins.
LAWS: dict[str, tuple[Callable[[Any], Any], list[float]]] = {
    "poisson": (lambda place: stats.poisson.pmf(VALUES, np.exp(place[0])), [1.5]),
    "negative-binomial": (negative_binomial, [0.0, 1.5]),
    "hurdle-poisson": (hurdle, [0.0, 1.5]),
}


def cut_history(seed: int, count: int = 80) -> tuple[list[int], list[int]]:
    """Returns demands that are known, and the sales of periods in which a shelf was empty."""
    random = np.random.default_rng(seed)
    asked, shelf = random.negative_binomial(2, 0.25, (2, count))
    is_cut = (asked >= shelf) & (random.random(count) < 0.5)
    return asked[~is_cut].tolist(), shelf[is_cut].tolist()


@pytest.mark.parametrize("name", LAWS)
@pytest.mark.parametrize("seed", range(3))
def test_the_likeliest_member_is_that_of_at_least_the_sales(
    name: str, seed: int
) -> None:
    """The law, its likelihood and so its BIC are those of the greatest likelihood, in which a cut period has the chance
    of at least its sales."""
    known, least = cut_history(seed)
    law_of, start = LAWS[name]

    def loss(place: Any) -> float:
        law = law_of(place)
        tails = law[::-1].cumsum()[::-1]
        return -float(np.log(law[known]).sum() + np.log(tails[least]).sum())

    tight = {"xatol": 1e-9, "fatol": 1e-9, "maxiter": 9999}
    best = optimize.minimize(loss, start, method="Nelder-Mead", options=tight)
    fit = fit_of(FAMILIES[name], Sample.of(known), Sample.of(least))
    assert fit is not None
    free = len(start) * math.log(len(known) + len(least))
    assert fit.bic == pytest.approx(2 * best.fun + free, abs=1e-3)
    assert fit.law[:40] == pytest.approx(law_of(best.x)[:40], abs=1e-4)


def test_cut_periods_are_spread_by_hand() -> None:
    """Of two periods of at least 1 and one of at least 2, by chances of 1/2, 1/4, 1/8 and 1/8: 1 and 2 share each tail."""
    law = np.array([4, 2, 1, 1]) / 8
    assert spread(law, Sample.of([1, 1, 2])).tolist() == [0, 1, 1, 1]


def test_parts_of_a_law_by_hand() -> None:
    """One number has the mean of the tail; two have the means of its halves, whichever comes first; sales beyond the law
    stay. What is rounded off counts in the next number."""
    law = np.array([2, 2, 2, 1, 1, 0]) / 8
    assert stratified(law, [2]) == [3]  # (4 + 3 + 4) / 4 is 2.75
    assert sorted(stratified(law, [0, 0])) == [0, 3]  # 0.5, and 2.75 with the rest
    assert stratified(law, [5]) == [5]


@pytest.mark.parametrize("seed", range(4))
def test_expected_demands(seed: int) -> None:
    """Each is at least its sales, their sum is that of the means of the tails but for rounding and parts, and they don't
    depend on the order of periods."""
    known, least = cut_history(seed, 400)
    least = [number for number in least if number]
    demands = expected_demands(known, least, "negative-binomial")
    fit = fit_of(FAMILIES["negative-binomial"], Sample.of(known), Sample.of(least))
    assert fit is not None
    values = np.arange(len(fit.law))
    means = [fit.law[n:] @ values[n:] / fit.law[n:].sum() for n in sorted(least)]
    assert all(n >= own for n, own in zip(demands, sorted(least), strict=True))
    assert sum(demands) == pytest.approx(sum(means), rel=0.03)
    assert demands == expected_demands(known[::-1], least[::-1], "negative-binomial")


@pytest.mark.parametrize("method", ["empirical", "bulk", "hurdle-lognormal"])
def test_methods_without_a_likelihood_leave_cut_periods_out(method: str) -> None:
    known, least = cut_history(1)
    assert expected_demands(known, least, method) == ()


@pytest.mark.parametrize(
    "known, least", [([3, 1, 4], [0, 0]), ([0, 0], [2]), ([2, 2, 2, 2], [])]
)
def test_periods_that_say_nothing(known: list[int], least: list[int]) -> None:
    """A period without sales says nothing, and one demand in all allows no family."""
    assert expected_demands(known, least) == ()


def test_packs_stay_packs() -> None:
    """If all known demands are packs, so are those that are expected."""
    known, least = cut_history(2)
    demands = expected_demands([6 * n for n in known], [6 * n for n in least])
    assert {n % 6 for n in demands} == {0} and demands


@pytest.mark.parametrize("seed", range(3))
def test_the_bias_of_sales_is_taken_away(seed: int) -> None:
    """Of 2,000 periods of mean 6, sales and what is not cut are far below, and the law with cut periods is not."""
    known, least = cut_history(seed, 2_000)
    both = [*known, *expected_demands(known, least)]
    assert np.mean([*known, *least]) < 5.4 and np.mean(known) < 5.4
    assert np.mean(both) == pytest.approx(6, abs=4 * math.sqrt(24 / 2_000))


def test_large_sales_are_counted_in_boxes() -> None:
    """Sales beyond the program's range make boxes, in which the expected demand is counted."""
    counts = (*[3_000, 5_000, 4_400, 6_100] * 5, 15_000)
    item = item_of(0, counts=counts, unknown=(20,), cut=(20,))
    (expected,) = expected_of(item, "auto")
    assert item.box == 2 and expected >= 15_000 and expected % 2 == 0


def test_a_plan_takes_cut_periods() -> None:
    """The law of a plan and the laws that the history allows are of known and expected demands, and it is said."""
    item = item_of(3, fill=None)
    places = [place for place, count in enumerate(item.counts) if count > 2][:5]
    cut = dataclasses.replace(item, unknown=(0, *places), cut=(*places,))
    least = [item.counts[place] for place in places]
    demands = expected_demands(cut.known.counts, least)
    question = question_of(cut, alone())
    assert len(demands) == 5 and question.demand == fit_demand(
        cut.known.counts + demands
    )
    completed = dataclasses.replace(item, counts=cut.known.counts + demands)
    assert allowed_by(question) == allowed_by(question_of(completed, alone()))
    (said, *_) = remarks_of_past(question, None)
    facts = {"periods": 5, "used": 5, "sales": sum(least), "expected": sum(demands)}
    assert (said.code, said.facts) == ("cut periods", facts)
    (said, *_) = remarks_of_past(question_of(cut, alone(fit="empirical")), None)
    assert said.code == "cut periods left out" and said.facts["used"] == 0
    assert question.alone().demand == question.demand
