"""Compares what the start and the end of a run add with a chain of all states, and with runs of the program."""
from __future__ import annotations

import itertools
import math
from collections.abc import Sequence
from dataclasses import replace
from pathlib import Path

import numpy as np
import pytest
from hypothesis import example, given, settings, strategies as st

from crnplan.policies import Policy
from crnplan.money import Costs
from crnplan.runs import Scenario
from crnplan.theory import reviews, run_effects
from crnplan.theory.lattice import NoTheory, theories_of
from crnplan.theory.run_effects import PolicyRuns, end_effects, start_bias, theory_of
from planner.tests.theory.chain import by_chain, expected
from planner.tests.theory.scenarios import Weights, scenario_of, table

LOOPS = (reviews,)
COSTS = Costs(40, 3, 2, 9)
DEMAND = {0: 5, 1: 3, 3: 1}
CASES = {
    "one lead time": scenario_of(DEMAND, [2]),
    "least demand above 0": scenario_of({1: 2, 2: 2, 4: 1}),
    "several lead times": scenario_of(DEMAND, {1: 2, 2: 1, 4: 1}),
    "returns": scenario_of(DEMAND, [2], {0: 8, 1: 1}),
    "returns and several lead times": scenario_of(
        {0: 3, 1: 2, 2: 1}, {1: 2, 3: 1}, {0: 7, 1: 1}
    ),
}
# These do not settle within a run.
SLOW = {
    "the same demand in all periods": scenario_of([1], [2]),
    "rare demand": scenario_of({0: 90, 1: 1, 9: 1}, ((3, 5), (1, 0))),
}
# Policies, and the stock before the first period: below s, between, at S, and above.
STARTS = [(4, 11, 0), (4, 11, 7), (4, 11, 11), (2, 6, 15), (5, 5, 5), (0, 20, 3)]
LONG = 40  # periods


def asked_of(
    scenario: Scenario, s: int, S: int, initial: int, periods: int
) -> Scenario:
    return replace(
        scenario,
        costs=COSTS,
        periods=periods,
        initial=initial,
        policies=(Policy("it", s, S),),
    )


def biases_of_chain(asked: Scenario) -> np.ndarray:
    """Returns what one period, two and so on cost more than in the long run, by a chain."""
    net = asked.demand.mean - (asked.returns.mean if asked.returns else 0)
    usual = by_chain(asked)[0] + asked.costs.unit * float(net)
    return np.cumsum(np.array(expected(asked)) - usual)


@pytest.mark.parametrize("start", STARTS, ids=str)
@pytest.mark.parametrize("case", [*CASES, *SLOW])
def test_biases_are_those_of_a_chain(case: str, start: tuple[int, int, int]) -> None:
    """Of a period, of three and of many."""
    asked = asked_of((CASES | SLOW)[case], *start, LONG)
    wanted, usual = biases_of_chain(asked), by_chain(asked)[0]
    for periods in (1, 3, LONG):
        found = start_bias(replace(asked, periods=periods))
        assert found.theory.exact
        assert found.costs == pytest.approx([usual], rel=1e-8)
        assert found.biases == pytest.approx(wanted[[periods - 1]], abs=1e-5 * periods)


@pytest.mark.usefixtures("each_way")
@pytest.mark.parametrize("start", [(4, 11, 7), (2, 6, 15), (5, 5, 5)], ids=str)
@pytest.mark.parametrize("case", ["one lead time", "least demand above 0"])
def test_loops(case: str, start: tuple[int, int, int]) -> None:
    """They give the biases of a chain, also if the chances of orders settle before the end."""
    asked = asked_of(CASES[case], *start, LONG)
    wanted = biases_of_chain(asked)[-1:]
    assert start_bias(asked).biases == pytest.approx(wanted, abs=1e-5 * LONG)
    settled, later = (start_bias(replace(asked, periods=it)) for it in (500, 700))
    assert later.biases == pytest.approx(settled.biases, abs=1e-7)


@pytest.mark.usefixtures("each_way")
@pytest.mark.parametrize("initial", [60, 53, 0])
def test_a_run_that_is_too_short_for_an_order(initial: int) -> None:
    """The stock lasts longer than the run, whatever is asked for, or after an order of the first review."""
    for periods in (1, 9, 20, 50):
        asked = asked_of(scenario_of([1, 1], [2]), 0, 60, initial, periods)
        wanted = biases_of_chain(asked)[-1:]
        assert start_bias(asked).biases == pytest.approx(wanted, abs=1e-5 * periods)


@pytest.mark.usefixtures("each_way")
@pytest.mark.parametrize("name", ["sums_one_by_one", "sums_by_doubling"])
@pytest.mark.parametrize("count", [1, 2, 3, 4, 5, 7, 8, 20])
def test_laws_of_sums(count: int, name: str) -> None:
    """The chances of 0 to 6 are those of all sums, one by one: of less than so many numbers, and of no more than can be
    within the width. A number is 1, 2 or 4, else it is beyond the width."""
    chances = {1: 0.5, 2: 0.25, 4: 0.125}
    law, size = np.zeros(7), 7
    law[[*chances]] = [*chances.values()]
    found = getattr(reviews, name)(law, count)
    assert min(count, size) <= len(found) <= count
    for number, row in enumerate(found):
        wanted = np.zeros(size)
        for each in itertools.product(chances, repeat=min(number, size)):
            if sum(each) < size and number < size:
                wanted[sum(each)] += math.prod(chances[it] for it in each)
        assert row == pytest.approx(wanted, abs=1e-15)


@pytest.mark.usefixtures("each_way")
@pytest.mark.parametrize("trials, most", [(1, 1), (5, 3), (5, 5), (5, 9)])
def test_counts_are_binomial(trials: int, most: int) -> None:
    """A row has the chances of 0, 1, .. events in as many trials as there are rows before, of which a third has one."""
    found = reviews.counts_of(1 / 3, trials, most)
    assert found.shape == (trials, most)
    for row, events in np.ndindex(trials, most):
        wanted = math.comb(row, events) * 2.0 ** (row - events) / 3**row
        assert found[row, events] == pytest.approx(wanted)


@pytest.mark.usefixtures("each_way")
def test_chances_of_renewals() -> None:
    """They are those of closed forms: of steps of 1 or 2 as likely, of steps of 2 alone, of none, of steps of 1 half of which
    end all, and of steps of any size, each half as likely as the one before, after half of which all ends. Feller, volume I,
    section XIII.3.
    """
    places = np.arange(200)
    first = np.eye(1, 200)[0]
    cases = {
        (1.0, -0.5, -0.5): 2 / 3 + (-0.5) ** places / 3,
        (1.0, 0.0, -1.0): 1.0 - places % 2,
        (1.0,): first,
        (1.0, -0.5): 0.5**places,
    }
    ending = (1.0, *(-0.25 * 0.5 ** places[:-1]))
    cases[ending] = np.concatenate([[1.0], 0.25 * 0.75 ** places[:-1]])
    for divisor, wanted in cases.items():
        found = reviews.quotient(first, np.array(divisor))
        assert found == pytest.approx(wanted, rel=1e-9, abs=1e-12)
        # Another walk begins after 150 steps, when the chances of the first one have settled.
        both = reviews.quotient(first + np.roll(first, 150), np.array(divisor))
        later = np.concatenate([np.zeros(150), wanted[:50]])
        assert both == pytest.approx(wanted + later, rel=1e-9, abs=1e-12)
        assert not reviews.quotient(0 * first, np.array(divisor)).any()


def test_means_of_runs(program: Path, top: Path) -> None:
    """The mean cost of 256 replications lies within 4 standard errors, for each policy and each difference."""
    asked = Scenario.read(top / "examples/mail_order.toml").changed(
        replications=256, initial=0, periods=60
    )
    found, rows = start_bias(asked), asked.run(program=program).rows
    assert asked.returns
    net = float(asked.demand.mean - asked.returns.mean)
    wanted = np.add(found.biases, 60 * (np.array(found.costs) + asked.costs.unit * net))
    base = rows[0]
    assert base.cov is not None
    for row, its in zip(rows, wanted):
        assert row.diff_var is not None and row.cov is not None
        own = 256 * row.diff_var - base.cov + 2 * row.cov
        assert abs(row.total / 256 - its) <= 4 * math.sqrt(own / 256)
        off = abs(float(row.diff_mean) - (its - wanted[0]))
        assert off <= 4 * math.sqrt(row.diff_var)
    assert np.abs(found.biases).min() > 10


@pytest.mark.parametrize("case", ["one lead time", "several lead times"])
def test_steps_of_several_items(case: str, monkeypatch: pytest.MonkeyPatch) -> None:
    """On a coarser lattice the biases are about the same, and the figures say so."""
    demand = {value: 1 + value // 3 % 4 for value in range(0, 200, 3)}
    asked = replace(
        CASES[case],
        demand=table(demand),
        periods=100,
        initial=900,
        costs=Costs(900, 0, 1, 9),
        policies=(Policy("low", 300, 700), Policy("high", 700, 1300)),
    )
    exact = start_bias(asked)
    monkeypatch.setattr(run_effects, "MOST_BIAS_GAPS", 150)
    monkeypatch.setattr("crnplan.theory.lattice.MOST_WORK", 600_000)
    monkeypatch.setattr(run_effects, "MOST_WORK", 0)
    coarse = start_bias(asked)
    assert coarse.theory.step > 3 and not coarse.theory.exact
    assert coarse.biases == pytest.approx(exact.biases, rel=0.02, abs=100 * 900 / 1e3)
    assert coarse.biases != pytest.approx(exact.biases, rel=1e-9)


@pytest.mark.parametrize("lead", [[2], [1, 3]], ids=["one lead time", "two lead times"])
def test_starts_on_and_beside_the_lattice(lead: Weights) -> None:
    """With demand in packs the bias is exact if the start is some packs below S, or too low, and says so."""
    scenario = scenario_of({0: 5, 5: 3, 10: 1}, lead)
    for initial in (2, 5, 6, 11, 13, 16):
        asked = asked_of(scenario, 4, 11, initial, 30)
        found, is_on = start_bias(asked), initial in (2, 6, 11, 16)
        error = abs(found.biases[0] - biases_of_chain(asked)[-1])
        assert (found.theory.step, found.on_lattice) == (5, is_on)
        assert (error < 1e-5) == is_on and error < by_chain(asked)[0]


def test_costs_of_0() -> None:
    """The laws do not depend on costs, so the bias is linear in each."""
    asked = asked_of(CASES["several lead times"], 4, 11, 30, 12)
    whole, biases, costs = start_bias(asked), 0.0, 0.0
    for part in np.diag([COSTS.setup, COSTS.unit, COSTS.holding, COSTS.backlog]):
        found = start_bias(replace(asked, costs=Costs(*part.tolist())))
        biases += found.biases[0]
        costs += found.costs[0]
    assert whole.biases == pytest.approx([biases])
    assert whole.costs == pytest.approx([costs])


@pytest.mark.parametrize("case", CASES)
def test_many_periods(case: str, monkeypatch: pytest.MonkeyPatch) -> None:
    """All ways to compute many reviews agree with single reviews, and the bias settles as the periods grow."""
    asked = asked_of(CASES[case], 4, 11, 30, 1024).with_policies(
        [Policy("it", 4, 11), Policy("other", 9, 9)]
    )
    found = pytest.approx(start_bias(asked).biases, abs=1e-7)
    assert start_bias(replace(asked, periods=900)).biases == found
    monkeypatch.setattr(run_effects, "MOST_SUMS", -1)
    assert start_bias(asked).biases == found


@settings(max_examples=20, deadline=None)
@given(
    st.lists(st.integers(0, 9), min_size=2, max_size=40).filter(lambda it: any(it[1:])),
    st.sampled_from([[1], [5], {2: 1, 3: 5, 7: 2}]),
    st.integers(0, 150),
    st.integers(0, 250),
    st.integers(0, 400),
    st.sampled_from([1, 2, 6, 7, 8, 300]),
)
@example([500, 0, 1], [1], 3, 90, 50, 700)
@example([0, 0, 3, 1, 0, 2], [1], 3, 0, 40, 40)
@example([0, 0, 0, 0, 1], [2, 3], 4, 90, 200, 90)
@example([1] * 200, [2], 100, 700, 100, 90)
def test_all_reviews_at_once(
    weights: list[int], lead: Weights, s: int, gap: int, initial: int, periods: int
) -> None:
    """The biases are those of reviews one by one, which are computed if items come back."""
    scenario = scenario_of((range(len(weights)), weights), lead)
    asked = asked_of(scenario, s, s + gap, initial, periods)
    theory, policy = theory_of(asked), asked.policies[0]
    (gap, _), *_ = theory.gaps_of(s, s + gap)
    runs = PolicyRuns(theory, asked)
    at_once = runs.bias(policy, gap)
    runs.sums = None
    assert at_once == pytest.approx(runs.bias(policy, gap), rel=1e-8, abs=1e-7)


@pytest.mark.parametrize("case", CASES)
def test_theory_that_is_known(case: str, monkeypatch: pytest.MonkeyPatch) -> None:
    """A theory with other costs gives the same biases, and none is made anew unless it is too coarse."""
    asked, made = asked_of(CASES[case], 4, 11, 30, LONG), []

    def making(*words: object) -> object:
        made.append(words)
        return theory_of(*words)

    known, own = theories_of(replace(asked, costs=Costs(1, 0, 3, 70)))[0], start_bias(
        asked
    )
    known.figures(4, 11)
    monkeypatch.setattr(run_effects, "theory_of", making)
    found = start_bias(asked, known)
    assert found.biases == pytest.approx(own.biases, rel=1e-9)
    assert found.costs == pytest.approx(own.costs, rel=1e-9)
    assert not made and found.theory.step == own.theory.step
    known.exact = False
    start_bias(asked, known)
    assert made


def ends_of(scenario: Scenario, pairs: Sequence[tuple[int, int]]) -> list[float]:
    """Returns what `unit` adds by the final stock of policies with these levels."""
    found = end_effects(scenario, [Policy.of_levels(*pair) for pair in pairs])
    assert found is not None
    return found


@pytest.mark.parametrize(
    "demand, back, pairs",
    [
        (
            {0: 8, 1: 14, 2: 22, 3: 4, 5: 1},
            None,
            [(10, 26), (7, 26), (10, 20), (7, 20), (9, 9)],
        ),
        ({1: 3, 4: 1, 7: 2}, None, [(0, 0), (3, 30), (5, 6), (1, 12)]),
        (
            {0: 3, 1: 3, 2: 2, 4: 2},
            {0: 6, 1: 3, 3: 1},
            [(4, 12), (2, 12), (6, 6), (0, 25)],
        ),
        ([0, 3], [0, 1, 2], [(5, 9), (5, 30), (8, 9)]),
    ],
)
def test_end_effects_are_those_of_a_chain(
    demand: Weights, back: Weights | None, pairs: Sequence[tuple[int, int]]
) -> None:
    scenario = scenario_of(demand, back=back, costs=Costs(0, 10, 1, 1))
    policies = [scenario.with_policies([Policy.of_levels(*pair)]) for pair in pairs]
    means = np.array([by_chain(it)[-1] for it in policies])
    wanted = 10 * (means - means[0])
    assert ends_of(scenario, pairs) == pytest.approx(wanted, abs=1e-4)


def test_end_effects_of_large_numbers(monkeypatch: pytest.MonkeyPatch) -> None:
    """Far below S the mean depth grows by half of what S - s grows by. Steps hardly matter."""
    costs = Costs(0, 1, 1, 1)
    wide = scenario_of([*range(0, 10_001, 5)], costs=costs)
    effects = ends_of(wide, [(0, 20_000), (0, 60_000), (30_000, 70_000)])
    assert effects == pytest.approx([0, 20_000, 40_000], abs=150)
    demand = {value: 1 + value // 3 % 4 for value in range(0, 501, 3)}
    middle = scenario_of(demand, costs=costs)
    pairs = [(0, 3000), (0, 1500), (900, 1000), (700, 700)]
    exact = ends_of(middle, pairs)
    monkeypatch.setattr(run_effects, "lattice_of", lambda *_: (9, False))
    off = np.abs(np.subtract(ends_of(middle, pairs), exact))
    assert 1e-9 < off.max() < 1


@pytest.mark.parametrize(
    "demand, back",
    [([1], [1]), ({0: 30_000, 1: 30_001}, [0, 1])],
    ids=["nothing to order", "hardly anything to order"],
)
def test_no_long_run(demand: Weights, back: Weights) -> None:
    scenario = scenario_of(demand, back=back)
    policies = [Policy.of_levels(1, 2), Policy.of_levels(3, 4)]
    assert end_effects(scenario, policies) is None
    said = "nothing to order in the long run|too far apart"
    with pytest.raises(NoTheory, match=said):
        start_bias(scenario)
