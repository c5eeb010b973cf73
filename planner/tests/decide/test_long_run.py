"""Tests decisions of the long run: intervals, correction of a common start, warnings, commands, and their study."""
from __future__ import annotations

import json
import math
from collections.abc import Callable, Sequence
from dataclasses import replace
from pathlib import Path

import pandas as pd
import pytest
from scipy import stats

from crnplan.crnsim.report import ReportRow
from crnplan.decide import long_run
from crnplan.decide.long_run import LongRunReport, start_warning
from crnplan.decide.verdicts import Compared, Decision
from crnplan.law import Law
from crnplan.remarks import Remark
from crnplan.policies import Policy
from crnplan.money import Costs
from crnplan.runs import Scenario
from crnplan.theory.lattice import NoTheory
from crnplan.sentences import sentence
from planner.studies.long_run import (
    SEEDS,
    SMALL,
    Outcome,
    exact_costs,
    outcomes_of,
    scenario_of as studied,
    table_of,
)
from planner.studies.long_run_items import items_of
from planner.tests.conftest import Answer, Command
from planner.tests.theory.chain import by_chain, expected
from planner.tests.theory.scenarios import scenario_of

KEY = ("0123456789abcdef", "fedcba9876543210", "00000000ffffffff", "ffffffff00000000")
PART = replace(
    scenario_of(([0, 1, 3], [5, 3, 1]), ([1, 3], [2, 1])),
    key=KEY,
    costs=Costs(40, 3, 2, 9),
    periods=40,
    replications=64,
    initial=25,
    policies=(Policy("today", 4, 11), Policy("more", 6, 14), Policy("less", 2, 6)),
)
FREE = replace(PART, costs=replace(PART.costs, unit=0))
FORMS = "", "--csv", "--json"
SLOW = replace(
    PART,
    demand=Law((0, 1), (60_000, 1)),
    policies=(Policy("today", 1, 9), Policy("more", 2, 12)),
)
EVEN = replace(
    PART,
    demand=Law((1,), (1,)),
    lead=Law((1,), (1,)),
    policies=(Policy("today", 1, 5), Policy("equal", 1, 5)),
)
# Today's levels of some items of seed 1, by number, as the generator of whole catalogues has written them.
LEVELS = {0: (8, 46), 1: (15, 384), 3: (2623, 4069), 4: (55, 85), 5: (25, 139)}


def corrected(scenario: Scenario, program: Path) -> Decision:
    """Returns what a run of a scenario says of the long run, without the bias of its start."""
    rows = scenario.run(program=program).rows
    return LongRunReport.of(rows, scenario, scenario.replications).decide()


def by_name(found: Decision) -> dict[str, Compared]:
    return {it.policy: it for it in found.rows}


@pytest.fixture(scope="module")
def report(program: Path) -> LongRunReport:
    return PART.long_run(program=program)


def bias_of(scenario: Scenario, policy: Policy) -> float:
    """Returns by a chain what the start adds to the cost of a period of a policy."""
    alone = scenario.with_policies([policy])
    return sum(expected(alone)) / scenario.periods - by_chain(alone)[0]


def check_intervals(
    scenario: Scenario, rows: Sequence[ReportRow], found: Decision, level: float
) -> None:
    """Compares costs, differences and intervals with those of exact costs, less the bias by a chain. It moves intervals,
    and leaves their widths."""
    count, periods, base = scenario.replications, scenario.periods, rows[0]
    joint, alone = stats.t.ppf([1 - (1 - level) / 4, 1 - (1 - level) / 2], count - 1)
    first = bias_of(scenario, scenario.policies[0])
    for policy, exact in zip(scenario.policies, rows, strict=True):
        row, bias = by_name(found)[policy.name], bias_of(scenario, policy)
        assert exact.diff_var is not None
        assert exact.cov is not None is not base.cov
        own = math.sqrt(exact.diff_var - base.cov / count + 2 * exact.cov / count)
        cost, half = float(exact.per_period) - bias, alone * own / periods
        costs = [row.cost, row.cost_low, row.cost_high]
        assert costs == pytest.approx([cost, cost - half, cost + half], abs=1e-6)
        if exact is base:
            assert row.verdict == "base"
            assert row.low is None
            continue
        error = math.sqrt(exact.diff_var) / periods
        diff, half = float(exact.diff_mean) / periods - bias + first, joint * error
        assert [row.diff, row.std_error] == pytest.approx([diff, error], abs=1e-6)
        ends = [diff - half, diff + half]
        assert [row.low, row.high] == pytest.approx(ends, abs=1e-6)


def test_intervals_are_paired_t_intervals(report: LongRunReport) -> None:
    scenario, found = report.scenario, report.decide(0.9)
    assert (scenario.periods, scenario.replications) == (1024, 48)
    assert scenario.costs.unit == 0
    check_intervals(scenario, report.rows, found, 0.9)


@pytest.mark.parametrize("unit", [0, 3])
def test_corrected_costs_are_less_the_bias_of_a_chain(unit: int, program: Path) -> None:
    asked = replace(PART, costs=replace(PART.costs, unit=unit))
    found, rows = corrected(asked, program), asked.run(program=program).rows
    check_intervals(asked, rows, found, 0.95)


def test_figures_of_theory_stand_beside(report: LongRunReport) -> None:
    found = report.decide()
    exact = {
        policy.name: by_chain(PART.with_policies([policy]))[0]
        for policy in PART.policies
    }
    for name, row in by_name(found).items():
        assert row.theory_cost == pytest.approx(exact[name], abs=1e-7)
    assert found.warnings == ()
    assert found.theory
    assert sentence(found.theory) == "exact but for rounding"
    assert found.frame.loc["more", "theory_cost"] == pytest.approx(exact["more"])
    pd.testing.assert_frame_equal(report.frame, found.frame)


@pytest.mark.parametrize("returns", [None, {0: 3, 1: 1, 2: 1}], ids=["none", "returns"])
def test_what_items_cost_is_left_out(
    returns: dict[int, int] | None, program: Path
) -> None:
    """Each policy buys what is asked for less what comes back, so a run differs by its end alone."""
    asked = PART.changed(returns=returns, periods=60)
    free, priced = (
        by_name(corrected(its, program))
        for its in (asked, asked.changed(costs={"unit": 10}))
    )
    for name, row in free.items():
        assert priced[name].cost == pytest.approx(
            row.cost, abs=10 * 0.05 * float(asked.demand.mean)
        )
        assert priced[name].theory_cost == pytest.approx(row.theory_cost)


def test_effects_of_the_start(program: Path, monkeypatch: pytest.MonkeyPatch) -> None:
    """Nothing is said of the start if theory is not exact or knows nothing, and with nothing to compare."""
    rows = PART.run(program=program).rows
    assert LongRunReport.of(rows, PART, PART.replications).strong == ["more", "less"]
    assert start_warning(rows, PART)
    assert not start_warning(rows[:1], PART)
    assert not start_warning(rows, replace(PART, replications=1))
    bias = long_run.start_bias(PART)
    bias.theory.exact = False
    monkeypatch.setattr(long_run, "start_bias", lambda scenario, known: bias)
    assert not start_warning(rows, PART)
    monkeypatch.setattr(long_run, "start_bias", refuse)
    assert not start_warning(rows, PART)


def effects_of(scenario: Scenario, rows: Sequence[ReportRow]) -> dict[str, float]:
    """Returns by a chain what the start adds to each difference, in standard errors."""
    first, *others = (bias_of(scenario, it) for it in scenario.policies)
    return {
        row.policy: scenario.periods * (bias - first) / math.sqrt(row.diff_var or 0)
        for bias, row in zip(others, rows[1:])
    }


@pytest.mark.parametrize("initial", [25, 9, 3])
@pytest.mark.parametrize("unit", [0, 5])
def test_the_start_of_a_report_is_warned_of(
    initial: int, unit: int, program: Path
) -> None:
    """The warning names the policies for which the effect by a chain is strong. It leaves `unit` out."""
    asked = replace(PART, initial=initial, costs=replace(PART.costs, unit=unit))
    rows = asked.run(program=program).rows
    free = replace(asked, costs=replace(asked.costs, unit=0))
    strong = [
        name for name, effect in effects_of(free, rows).items() if abs(effect) > 0.25
    ]
    facts = {
        "periods": 40,
        "initial": initial,
        "most": 0.25,
        "policies": ", ".join(strong),
    }
    assert start_warning(rows, asked) == [
        Remark("start of coming periods", facts)
    ] * bool(strong)
    assert strong or initial != 25


def test_no_interval(program: Path) -> None:
    """There is none for fewer than two orders, and without spread."""
    for found in (
        SLOW.long_run(keys=2, program=program).decide(),
        corrected(SLOW, program),
    ):
        row = by_name(found)["more"]
        ends = row.std_error, row.low, row.high, row.cost_low
        assert ends == (None,) * 4
        assert row.verdict == "undecided"
        assert Remark("few orders", {"policies": "more", "least": 2}) in found.warnings
    found = EVEN.long_run(program=program).decide()
    row = by_name(found)["equal"]
    assert (row.diff, row.std_error, row.low) == (0, None, None)
    assert row.verdict == "undecided"
    assert found.warnings == (Remark("no spread", {"policies": "equal"}),)


@pytest.mark.parametrize(
    "initial, said",
    [(21, ""), (25, ", but the bias of the start is rounded to steps of 5 items")],
    ids=["on it", "beside it"],
)
def test_a_start_beside_the_packs_is_said(
    initial: int, said: str, program: Path
) -> None:
    """Both policies order up to a whole number of packs above 21."""
    asked = replace(
        PART,
        demand=Law((0, 5, 10), (5, 3, 1)),
        initial=initial,
        policies=(Policy("today", 4, 11), Policy("more", 9, 26)),
    )
    theory = corrected(asked, program).theory
    assert theory
    assert sentence(theory) == "exact but for rounding" + said


def test_disagreement_with_theory_is_said(report: LongRunReport) -> None:
    """Theory's costs are made wrong by a fifth, then said to be on a coarse lattice."""
    bias = report.bias._replace(costs=tuple(1.2 * cost for cost in report.bias.costs))
    (warning,) = replace(report, bias=bias).decide().warnings
    assert warning == Remark("far from theory", {"policies": "today, more, less"})
    beside = replace(report, bias=bias._replace(on_lattice=False))
    assert beside.decide().warnings == ()
    with pytest.raises(NoTheory, match="nothing to order in the long run"):
        replace(PART, version=2, returns=PART.demand).long_run()


def refuse(*words: object) -> None:
    raise NoTheory("too far apart")


@pytest.fixture
def asked(crnplan: Command, room: Path) -> Callable[..., Answer]:
    """Returns a function that runs a line of words in a folder with a scenario, and with one whose items cost nothing."""
    (room / "part.toml").write_text(PART.toml())
    (room / "free.toml").write_text(FREE.toml())
    return lambda line: crnplan(*line.split())


def test_run(asked: Callable[..., Answer], program: Path, room: Path) -> None:
    long_run = "run part.toml --long-run"
    text, table, tree = (asked(f"{long_run} {it}").output for it in FORMS)
    assert text.startswith("The long run\n\npolicy ")
    assert "over 1,024 periods, less the bias of that start" in text
    cells = [",".join(line.split()) for line in text.splitlines()[2:6]]
    assert cells == table.splitlines()
    assert json.loads(tree)["horizon"] == "the long run"
    pair = asked(f"{long_run} --csv --policies 6,14 --keys 5 --level 0.5")
    names = [line.split(",")[0] for line in pair.output.splitlines()[1:]]
    assert names == ["today", "s6_S14"]
    assert "replications: 5, comparisons with today: 1, joint level: 0.5" in pair.errors
    near, words = PART.changed(periods=12, initial=3), "--horizon 12 --stock 3"
    found = asked(f"run part.toml {words} --out near.csv")
    assert found.output.startswith("The coming 12 periods from a stock of 3\n\n")
    assert (room / "near.csv").read_text() == near.run(program=program).text
    asked("run part.toml --stock 25 --out own.csv")
    assert (room / "own.csv").read_text() == PART.run(program=program).text


def test_a_run_and_its_report(
    asked: Callable[..., Answer], room: Path, program: Path
) -> None:
    """A report that is read says what its run says, with the warnings of both."""
    rows = FREE.run(program=program)
    (room / "report.csv").write_text(rows.text)
    (warning,) = map(sentence, start_warning(rows.rows, FREE))
    for words in ("run report.csv --scenario free.toml", "run free.toml"):
        text, table, tree = (asked(f"{words} {it}") for it in FORMS)
        said = "The coming 40 periods from a stock of 25\n\npolicy "
        assert text.output.startswith(said)
        end = f"\n\nWARNING: {warning}\n"
        assert text.output.endswith(end)
        assert table.errors.endswith(end)
        read = json.loads(tree.output)
        assert read["warnings"] == [warning]
        assert read["horizon"] == "the coming 40 periods from a stock of 25"
    assert "WARNING" not in asked("run report.csv --replications 64").output


def test_another_key(asked: Callable[..., Answer], program: Path) -> None:
    """All is as in the scenario with that key, for both horizons."""
    other = PART.changed(key="another")
    assert other.key != PART.key
    found = asked("run part.toml --long-run --key another")
    assert found == (0, other.long_run(program=program).decide().text, "")
    assert found != asked("run part.toml --long-run")
    run = asked("run part.toml --key another --out other.csv")
    assert run.status == 0
    assert Path("other.csv").read_text() == other.run(program=program).text


def test_exact_savings_are_those_of_a_chain() -> None:
    found = {item.number: item for item in items_of(1, 300)}
    assert {number: found[number].today for number in LEVELS} == LEVELS
    small = list[Scenario]()
    for item in found.values():
        is_small = max(item.lead.values) <= 2 and item.today[1] <= 25
        if is_small and len(item.demand.values) <= 5 and not item.returns:
            scenario = studied(item, 1)
            small += [scenario] if scenario and scenario.policies[1].S <= 40 else []
    assert len(small) > 3
    for scenario in small[:4]:
        for policy, costs in zip(scenario.policies, exact_costs(scenario) or ()):
            chain = by_chain(scenario.with_policies([policy]))
            assert costs == pytest.approx((chain[0], chain[4]), rel=1e-6)


@pytest.fixture(scope="module")
def outcomes(program: Path) -> list[Outcome]:
    return outcomes_of(items_of(SEEDS[0], SMALL), SEEDS[0], program, 1)


def test_small_part(outcomes: list[Outcome]) -> None:
    """Corrected intervals hold as often as 95% intervals do, but for a chance of 1 in 1,000."""
    least = stats.binom.ppf(0.001, len(outcomes), 0.95)
    assert len(outcomes) > 0.8 * SMALL
    for place in (0, 1):
        halves = (
            (it, stats.t.ppf(0.975, it.found[place][2]) * it.found[place][1])
            for it in outcomes
        )
        held = [
            abs(it.found[place][0] - it.saving) <= half + 1e-9 * it.cost
            for it, half in halves
        ]
        assert sum(held) >= least
    for it in outcomes:
        assert it.found[1][0] == pytest.approx(it.found[2][0] - it.bias)
    lines = table_of({1: outcomes}).splitlines()
    assert lines[0].split()[:5] == ["seed", "interval", "items", "held", "%"]
    assert [line[:20].split()[0] for line in lines[1:7]] == ["1"] * 3 + ["all"] * 3
