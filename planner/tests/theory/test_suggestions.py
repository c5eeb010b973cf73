"""Tests which policies are suggested, their figures, the scenario that is written, and when policies behave alike."""
from __future__ import annotations

import tomllib
from pathlib import Path

import numpy as np
import pytest
from hypothesis import given, settings, strategies as st

from crnplan.crnsim.program import run_program
from crnplan.policies import Policy
from crnplan.money import Costs
from crnplan.runs import Scenario
from crnplan.theory.suggestions import Depths, Suggestions, suggestions_of
from planner.tests.theory.long_run_costs import best_of_all, cost_of, shortfall_of
from planner.tests.theory.scenarios import Weights, large, scenario_of

EXAMPLES = ["two_policies", "spare_part", "mail_order", "case/scenario"]
COARSE = large(range(10_001), [6] * 10_001, [32], 10**8)
LARGE = {
    "10,001 demands, one lead time": COARSE,
    "10,001 demands, 32 lead times": large(
        range(10_001), [6] * 10_001, range(1, 33), 10**6
    ),
}
SHARES = [0.95, 0.98, 0.99, 0.995]
MOST_HEIGHT = 200


def example(top: Path, name: str) -> Scenario:
    return Scenario.read(top / "examples" / f"{name}.toml")


@pytest.fixture(scope="module", params=[*EXAMPLES, *LARGE])
def found(request: pytest.FixtureRequest, top: Path) -> Suggestions:
    """Returns the suggestions of a scenario: an example, or a large one."""
    return suggestions_of(LARGE.get(request.param) or example(top, request.param))


def check_suggestions(found: Suggestions) -> None:
    """Checks policies and figures: all is within its range, no two behave alike, and each reason holds, but for rounding
    or the error of a coarse lattice. The scenario that is written has the policies."""
    frame, scenario, close = found.frame, found.scenario, found.error or 1e-9
    first = found.rows[0]
    assert first.policy == scenario.policies[0] and first.reasons[0] == "today's policy"
    depths = Depths(scenario)
    behaviours = {depths.behaviour(it.policy.s, it.policy.S) for it in found.rows}
    assert len(behaviours) == frame.policy.nunique() == len(frame) == len(found.rows)
    assert 2 <= len(frame) <= 16 and frame.policy[1] in ("best", "best_")
    assert ((0 <= frame.s) & (frame.s <= frame.S) & (frame.S <= 1_000_000)).all()
    assert frame.reasons.all()
    best = next(it.figures.cost for it in found.rows if "the best" in it.reasons)
    least = scenario.costs.setup * frame.orders + scenario.costs.holding * frame.stock
    assert (frame.cost >= np.maximum(best, least) * (1 - close)).all()
    assert frame.fill.between(-close, 1 + close).all() and (frame.stock >= 0).all()
    assert frame.short.between(-close, 1).all()
    assert ((frame.orders > 0) & (frame.orders <= 1 + close)).all()
    for row in found.rows:
        for share in SHARES:
            if (
                f"the cheapest with a fill rate of at least {100 * share:g}%"
                in row.reasons
            ):
                assert row.figures.fill >= share - (5e-5 if found.error else 1e-9)
    text = found.toml()
    assert Scenario.parse(text) == scenario.with_policies(
        it.policy for it in found.rows
    )
    for it in found.rows:
        cost, fill = f"{it.figures.cost:.2f} a period", f"fill {it.figures.fill:.2%}"
        comment = f"# {'; '.join(it.reasons)} (by theory {cost}, {fill})\n[[policy]]\n"
        policy = f'name = "{it.policy.name}"\ns = {it.policy.s}\nS = {it.policy.S}\n'
        assert f"\n{comment}{policy}" in text


def test_the_suggestions(found: Suggestions, program: Path) -> None:
    check_suggestions(found)
    assert run_program(program, found.toml()).count("\n") == len(found.rows) + 1
    exact = found.scenario not in LARGE.values()
    assert ("\nerror: exact but for rounding\n" in found.notes) == exact
    assert ("rounded to steps of" in found.notes) != exact
    assert (found.error is None) == exact


@pytest.mark.parametrize("name", EXAMPLES)
def test_costs_are_those_of_a_second_theory(name: str, top: Path) -> None:
    scenario = example(top, name)
    frame = suggestions_of(scenario).frame
    for point, level, cost in zip(frame.s, frame.S, frame.cost):
        wanted = cost_of(scenario, shortfall_of(scenario, level - point), level)
        assert cost == pytest.approx(wanted, rel=1e-6)
    assert frame.cost.min() <= best_of_all(scenario).cost * (1 + 1e-9)


@settings(max_examples=12)
@given(
    weights=st.lists(st.integers(0, 9), min_size=2, max_size=9).filter(
        lambda it: any(it[1:])
    ),
    lead=st.sampled_from([[1], [4], [1, 3]]),
    point=st.integers(0, 30),
    gap=st.integers(0, 30),
    costs=st.builds(
        Costs,
        st.integers(0, 900),
        st.integers(0, 9),
        st.integers(1, 99),
        st.integers(1, 999),
    ),
    name=st.sampled_from(["today", "best", "best_", "lower"]),
)
def test_any_scenario(
    weights: list[int], lead: Weights, point: int, gap: int, costs: Costs, name: str
) -> None:
    scenario = scenario_of((range(len(weights)), weights), lead, costs=costs)
    found = suggestions_of(scenario.with_policies([Policy(name, point, point + gap)]))
    check_suggestions(found)
    columns = "policy s S cost fill short stock orders reasons"
    assert [*found.frame] == columns.split()
    for row, its in zip(found.rows, found.frame.itertuples(index=False)):
        policy = row.policy.name, row.policy.s, row.policy.S
        assert its == (*policy, *row.figures, "; ".join(row.reasons))


def test_a_level_below_half_a_step() -> None:
    """No policy of a coarse lattice has such an S with s >= 0, so none keeps today's."""
    found = suggestions_of(COARSE.with_policies([Policy("today", 0, 0)]))
    assert found.step > 2 and len(found.rows) > 10
    assert found.rows[0].reasons == ("today's policy",)
    assert "same_S" not in [*found.frame.policy]


def test_the_text_keeps_and_has(top: Path) -> None:
    """Head and order of the tables stay; what is left out in the source, or has a scale, is left so."""
    text = (top / "examples/spare_part.toml").read_text("utf-8")
    head = text[: text.index("\nversion")]
    assert suggestions_of(Scenario.parse(text)).toml().startswith(head)
    turned = (
        "# Another\r\n\r\n# no head\nring = 8\ninitial = 1\nreplications = 1\nversion = 1 # one\nperiods = 3\n"
        f'key = {["0" * 16] * 4}\nlead = {{ weights = [1], values = [1] }}\n[demand]\nweights = [1, 1]\n'
        "values = [0, 3]\n[costs]\nunit = 1\nsetup = 5\nbacklog = 9\nholding = 1\n"
        "[[policy]]\nS = 9\ns = 2\nname = 'A'\n"
    ).replace("'", '"')
    told = suggestions_of(Scenario.parse(turned)).toml()
    assert told.startswith(
        "# Another\nring = 8\ninitial = 1\nreplications = 1\nversion = 1\nperiods = 3\nkey = ["
    )
    assert (
        "\n\n[lead]\nweights = [1]\nvalues = [1]\n\n[demand]\nweights = [1, 1]\nvalues = [0, 3]\n\n[costs]\n"
        in told
    )
    wanted, its = tomllib.loads(turned.replace("\r", "")), tomllib.loads(told)
    assert its.pop("policy")[0] == wanted.pop("policy")[0] and its == wanted
    scenario = example(top, "mail_order").changed(
        returns=None, initial=7, costs={"setup": 10}
    )
    found = suggestions_of(scenario)
    check_suggestions(found)
    assert found.toml().startswith("# A mail-order shop sells ")
    demand = {0: 5, 1: 3, 5: 2}
    scenario = Scenario.of(
        demand, [2, 2, 3], setup="20.5", holding=2, backlog=9, today=(3, 9)
    )
    text = suggestions_of(scenario).toml()
    assert Scenario.parse(text).costs == scenario.costs
    scale = f"# Costs: {scenario.scale} for one unit of money\nversion = 1\n"
    assert text.startswith(scale)


def differ(scenario: Scenario, first: tuple[int, int], second: tuple[int, int]) -> bool:
    """Returns whether two policies ever place different orders after a common first one: over all paths.

    Both positions start from the same S. If the levels differ, the first order does. Returns lift up to a height.
    """
    backs = scenario.returns.values if scenario.returns else (0,)
    nets = np.subtract.outer(scenario.demand.values, backs).ravel()
    seen, waiting = {first[1]}, [first[1]]
    for position in waiting:
        orders = {S - position if position < s else 0 for s, S in (first, second)}
        if first[1] != second[1] or len(orders) > 1:
            return True
        for after in (position + orders.pop() - nets).tolist():
            if after <= first[1] + MOST_HEIGHT and after not in seen:
                seen.add(after)
                waiting.append(after)
    return False


def values(most: int) -> st.SearchStrategy[Weights]:
    """Returns up to four values."""
    return st.lists(st.integers(0, most), min_size=1, max_size=4, unique=True)


@settings(max_examples=150)
@given(
    demand=values(15).filter(max),
    back=st.none() | values(6),
    level=st.integers(0, 60),
    gaps=st.tuples(st.integers(0, 60), st.integers(0, 60)),
    higher=st.sampled_from([0, 0, 0, 1, 5]),
)
def test_alike_on_all_paths(
    demand: list[int],
    back: list[int] | None,
    level: int,
    gaps: tuple[int, int],
    higher: int,
) -> None:
    if back and np.mean(back) >= np.mean(demand):
        back = None
    scenario, other = scenario_of(demand, back=back), level + higher
    first, second = (max(0, level - gaps[0]), level), (max(0, other - gaps[1]), other)
    behaviour = Depths(scenario).behaviour
    is_other = behaviour(*first) != behaviour(*second)
    assert is_other == differ(scenario, first, second)


@pytest.mark.parametrize(
    "demand, back, gap, last",
    [
        ([0, 6, 12], None, 17, 12),
        ([6, 10], None, 15, 12),
        ([6, 10], None, 29, 28),
        ([6, 10], None, 1_000_001, 1_000_000),
        ([0, 7], [0, 1], 11, 11),
        ([4, 6], [0, 2], 9, 8),
        ([5], [0, 1], 11, 10),
        ([5], [0, 1], 7, 5),
        ([3], None, 2, 0),
        (range(5_001, 10_001), None, 10_000, 10_000),
        (range(5_001, 10_001), None, 5_000, 0),
        (((1, 6), (0, 1)), None, 11, 6),
    ],
)
def test_the_last_depth(
    demand: Weights, back: Weights | None, gap: int, last: int
) -> None:
    assert Depths(scenario_of(demand, back=back)).last(gap) == last


def test_the_best_is_a_twin_of_todays() -> None:
    scenario = scenario_of({0: 6, 6: 3, 12: 1}, [2])
    rows, behaviour = suggestions_of(scenario).rows, Depths(scenario).behaviour
    best = next(it.policy for it in rows if "the best" in it.reasons)
    near, S = best.s - 1, best.S
    if behaviour(near, S) != behaviour(best.s, S):
        near = best.s + 1
    found = suggestions_of(scenario.with_policies([Policy("mine", near, S)]))
    assert behaviour(near, S) == behaviour(best.s, S)
    assert found.rows[0].policy.name == "mine" and "the best" in found.rows[0].reasons
    assert "best" not in [*found.frame.policy]
