"""Compares runs from own starts, and checkpoints, with an independent program, a slow simulation and a Markov chain, and
then the long run of crnplan with runs from own starts: an outside value, which uses no theory."""
from __future__ import annotations

import math
import random
from collections.abc import Callable, Iterator
from dataclasses import replace
from pathlib import Path

import numpy as np
import pytest

from crnplan.decide.long_run import long_run_of
from crnplan.errors import ProgramError, Refused
from crnplan.law import Law
from crnplan.policies import Policy
from crnplan.money import Costs
from crnplan.runs import Scenario
from planner.studies import own_starts
from planner.studies.own_starts import (
    KEYS,
    OWN_PERIODS,
    OWN_STREAMS,
    START_STREAM,
    keys_of,
    places_of,
    own_starts_of,
    settled,
    words_of_keys,
)
from planner.tests.conftest import script
from planner.tests.crnsim.slow import History, draws_of, key_words, simulate
from planner.tests.theory.chain import by_chain
from tests.program import oracle

KEY = ("0123456789abcdef", "fedcba9876543210", "00000000ffffffff", "ffffffff00000000")
PLAIN = Scenario(
    1,
    KEY,
    5,
    3,
    20,
    8,
    Costs(50, 3, 1, 9),
    Law((0, 1, 4), (5, 3, 1)),
    Law((1, 3, 6), (2, 2, 1)),
    (Policy("today", 6, 14), Policy("more", 9, 20), Policy("each", 8, 8)),
)
SCENARIOS = {
    "several lead times": PLAIN,
    "returns": replace(PLAIN, version=2, returns=Law((0, 1), (9, 1))),
    "one lead time": replace(PLAIN, lead=Law((2, 5), (1, 0))),
    "few orders": replace(
        PLAIN,
        demand=Law((0, 1), (400, 1)),
        policies=(Policy("a", 1, 9), Policy("b", 0, 5)),
    ),
    "stock far below 0": replace(
        PLAIN, demand=Law((0, 9_000), (1, 1)), lead=Law((30, 32), (1, 1))
    ),
}


@pytest.fixture(params=SCENARIOS)
def scenario(request: pytest.FixtureRequest) -> Scenario:
    return SCENARIOS[request.param]


@pytest.mark.parametrize("count", [1, 2, 7, 65_536, 1_000_001])
def test_places(count: int) -> None:
    source = random.Random(1)
    words = [0, 1, 2**32 - 1, 2**32, 2**63, 2**64 - 1]
    words += [source.getrandbits(64) for _ in range(2_000)]
    found = places_of(np.array(words, np.uint64), count)
    assert found.tolist() == [word * count >> 64 for word in words]


def histories(
    scenario: Scenario, key: tuple[str, ...]
) -> Iterator[tuple[Policy, History]]:
    """Yields each policy with its history in our own periods of a key, by the slow simulation."""
    draws = draws_of(scenario, key, OWN_PERIODS, OWN_STREAMS)
    number = oracle.threefry(key_words(key), [0, START_STREAM, 0, 0])[0]
    for policy in scenario.policies:
        first = oracle.pick(range(policy.s, policy.S + 1), number)
        yield policy, simulate(scenario, policy, History(first), draws)


def test_costs_are_those_of_a_slow_simulation(
    scenario: Scenario, program: Path
) -> None:
    """Only stocks that a checkpoint may not have at block 1 lead to a later one: most runs count 1,020 periods."""
    asked = replace(scenario, costs=replace(scenario.costs, unit=0))
    found = own_starts_of(scenario, 2, program)
    settled_orders = settled(scenario, words_of_keys(keys_of(scenario.key, 2))).orders
    for key, orders, costs in zip(
        keys_of(scenario.key, 2), settled_orders.tolist(), found.costs
    ):
        draws = draws_of(asked, key, 1024)[1024 - found.periods :]
        pairs = [*histories(asked, key)]
        assert [len(history.orders) for _, history in pairs] == orders
        for (policy, history), cost in zip(pairs, costs, strict=True):
            simulate(asked, policy, history, draws)
            assert cost == sum(history.costs[OWN_PERIODS:])
    far = scenario is SCENARIOS["stock far below 0"]
    assert found.periods == (1024 - 4 * 8 if far else 1020)


def means(samples: np.ndarray) -> Iterator[tuple[float, float]]:
    """Yields the mean of each column with its standard error, and then those of differences from the first column."""
    for columns in (samples, samples - samples[:, :1]):
        yield from zip(
            columns.mean(axis=0), columns.std(axis=0, ddof=1) / math.sqrt(len(samples))
        )


CHAINS = {
    "several lead times": replace(PLAIN, lead=Law((1, 3), (2, 1))),
    "one lead time": replace(PLAIN, lead=Law((2,), (1,))),
    "returns": replace(SCENARIOS["returns"], lead=Law((1, 2), (1, 1))),
}


@pytest.mark.parametrize("scenario", CHAINS.values(), ids=CHAINS)
def test_mean_costs_are_those_of_a_chain(scenario: Scenario, program: Path) -> None:
    """The mean of each cost, and of each difference, lies within 4 standard errors of a Markov chain's."""
    exact = [
        by_chain(scenario.with_policies([policy]))[0] for policy in scenario.policies
    ]
    wanted = [*exact, *(cost - exact[0] for cost in exact)]
    found = own_starts_of(scenario, KEYS, program)
    for (mean, error), cost in zip(
        means(np.array(found.costs) / found.periods), wanted, strict=True
    ):
        assert abs(mean - cost) <= 4 * error


@pytest.mark.parametrize("name", ["several lead times", "returns", "one lead time"])
def test_long_run_is_that_of_own_starts(name: str, program: Path) -> None:
    """The bias by theory is right: costs, and differences, lie within 4 standard errors of runs without any theory."""
    scenario = SCENARIOS[name]
    own = own_starts_of(scenario, KEYS, program)
    found = long_run_of(scenario, KEYS, program).estimates
    figures = [(estimate.cost, estimate.own_error or 0.0) for estimate in found]
    figures += [(estimate.difference, estimate.error or 0.0) for estimate in found]
    for (mean, error), (cost, run_error) in zip(
        means(np.array(own.costs) / own.periods), figures, strict=True
    ):
        assert abs(mean - cost) <= 4 * math.hypot(error, run_error)


def test_more_policies_than_a_run_takes(program: Path) -> None:
    pairs = [(6 + place % 5, 14 + place) for place in range(33)]
    whole = PLAIN.with_policies([Policy.of_levels(*pair) for pair in pairs])
    found = long_run_of(whole, 2, program)
    assert [(row.s, row.S) for row in found.rows] == pairs
    halves = (
        long_run_of(whole.with_policies([whole.policies[0], *half]), 2, program)
        for half in (whole.policies[1:15], whole.policies[15:])
    )
    alone = {row.policy: row for half in halves for row in half.rows}
    assert [alone[row.policy] for row in found.rows] == [*found.rows]


@pytest.mark.parametrize(
    "run",
    [
        lambda scenario, program: scenario.run(program=program),
        lambda scenario, program: long_run_of(scenario, 2, program),
    ],
    ids=["report", "long run"],
)
def test_a_program_whose_base_differs(
    run: Callable[[Scenario, Path], object], program: Path, tmp_path: Path
) -> None:
    """A program is refused that has for the base's total how many lines it writes: 17 and 3."""
    other = script(
        tmp_path / "other",
        f"""lines=$("{program}" "$@")
echo "$lines" | sed "2s/^\\([^,]*,[^,]*,[^,]*\\),[^,]*/\\1,$(echo "$lines" | wc -l)/" """,
    )
    with pytest.raises(
        ProgramError, match="other: the base has not the same .* name crnsim with"
    ):
        run(
            PLAIN.with_policies(
                [Policy.of_levels(6, 14 + place) for place in range(17)]
            ),
            other,
        )


def test_keys_and_their_starts(monkeypatch: pytest.MonkeyPatch) -> None:
    """Keys follow from all words of a key, and each has a start of its own."""
    keys = {
        key
        for word in range(4)
        for key in keys_of([*KEY[:word], "0" * 16, *KEY[word + 1 :]], 48)
    }
    assert len(keys | set(keys_of(KEY, 48))) == 5 * 48
    monkeypatch.setattr(own_starts, "OWN_PERIODS", 0)
    wide = PLAIN.with_policies([Policy("wide", 0, 1_000_000)])
    starts = settled(wide, words_of_keys(keys_of(KEY, 48))).stocks[:, 0]
    assert len(set(starts.tolist())) == 48
    assert abs(starts.mean() - 500_000) < 4 * 1_000_000 / math.sqrt(12 * 48)


@pytest.mark.parametrize(
    "scenario, keys, message",
    [
        (PLAIN, 1, "keys=1: the long run takes 2 to 256 keys"),
        (PLAIN, 257, "keys=257"),
        (replace(PLAIN, ring=3), 2, "ring"),
        (
            replace(PLAIN, version=2, returns=PLAIN.demand),
            2,
            "nothing to order in the long run",
        ),
        (replace(PLAIN, demand=Law((0,), (1,))), 2, "no item is ever asked for"),
    ],
    ids=["one key", "many keys", "no ring", "as much comes back", "no demand"],
)
def test_refusals(scenario: Scenario, keys: int, message: str, program: Path) -> None:
    with pytest.raises(Refused, match=message):
        long_run_of(scenario, keys, program)
