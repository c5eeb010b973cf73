"""Simulates periods slowly from words of tests/program/oracle.py: it adds up all earlier orders anew in each period."""
from __future__ import annotations

from collections.abc import Iterable, Sequence
from dataclasses import dataclass, field

from hypothesis import strategies as st

from crnplan.law import Law
from crnplan.policies import Policy
from crnplan.money import Costs
from crnplan.runs import Scenario
from tests.program import oracle

Draw = tuple[int, int, int]  # demand, lead time, returns


@dataclass
class History:
    """What a policy has gone through: the first stock, orders with their periods of arrival, and net demands."""

    first: int
    placed: list[tuple[int, int]] = field(default_factory=list)
    net: list[int] = field(default_factory=list)
    costs: list[int] = field(default_factory=list)

    @property
    def orders(self) -> list[int]:
        return [period for period, (amount, _) in enumerate(self.placed) if amount]

    def stock(self) -> int:
        arrived = sum(amount for amount, due in self.placed if due < len(self.net))
        return self.first + arrived - sum(self.net)

    def due(self) -> dict[int, int]:
        """Returns the amounts that arrive later, by the number of periods from the next one."""
        found: dict[int, int] = {}
        for amount, due in self.placed:
            if amount and due >= len(self.net):
                found[due - len(self.net)] = found.get(due - len(self.net), 0) + amount
        return found


def spread(law: Law | None) -> list[int]:
    """Returns each value as often as its weight says."""
    law = law or Law((0,), (1,))
    return [
        value for value, weight in zip(law.values, law.weights) for _ in range(weight)
    ]


def key_words(key: Iterable[str]) -> tuple[int, ...]:
    return tuple(int(word, 16) for word in key)


def draws_of(
    scenario: Scenario,
    key: Iterable[str],
    periods: int,
    streams: Sequence[int] = (0, 1, 2),
) -> list[Draw]:
    """Returns what the first periods of a key draw from three streams."""
    words, columns = key_words(key), []
    for stream, law in zip(streams, (scenario.demand, scenario.lead, scenario.returns)):
        numbers = [
            word
            for block in range(-(-periods // 4))
            for word in oracle.threefry(words, [block, stream, 0, 0])
        ]
        values = spread(law)
        columns.append([oracle.pick(values, word) for word in numbers[:periods]])
    return list(zip(*columns))


def simulate(
    scenario: Scenario, policy: Policy, history: History, draws: Iterable[Draw]
) -> History:
    """Goes on with a history, period by period."""
    its = scenario.costs
    for demand, lead, back in draws:
        position = (
            history.first
            + sum(amount for amount, _ in history.placed)
            - sum(history.net)
        )
        amount = policy.S - position if position < policy.s else 0
        history.placed.append((amount, len(history.net) + lead))
        history.net.append(demand - back)
        stock = history.stock()
        history.costs.append(
            (its.setup + its.unit * amount if amount else 0)
            + (its.holding * stock if stock >= 0 else -its.backlog * stock)
        )
    return history


def laws(least: int, most: int) -> st.SearchStrategy[Law]:
    """Draws laws of a few values in a range."""
    values = st.integers(least, most)
    weights = st.dictionaries(values, st.integers(1, 9), min_size=1, max_size=5)
    return weights.map(Law.of)


@st.composite
def scenarios(draw: st.DrawFn) -> Scenario:
    """Draws scenarios with or without returns, with lead times that let orders overtake, and all costs. Levels and demands
    may be at their greatest."""
    most, rate = draw(st.sampled_from([3, 60, 9_000, 1_000_000])), st.integers(0, 50)
    costs = Costs(draw(st.integers(0, 2_000)), draw(rate), draw(rate), draw(rate))
    pair = st.tuples(st.integers(0, most), st.integers(0, most)).map(sorted)
    pairs = draw(st.lists(pair, min_size=1, max_size=4))
    key = tuple(f"{draw(st.integers(0, 2**64 - 1)):016x}" for _ in range(4))
    returns = draw(st.none() | laws(0, min(most, 10_000)))
    return Scenario(
        2 if returns else 1,
        key,
        draw(st.integers(1, 30)),
        draw(st.integers(2, 3)),
        draw(st.integers(0, most)),
        1024,
        costs,
        draw(laws(0, min(most, 10_000))),
        draw(laws(1, draw(st.sampled_from([3, 32])))),
        tuple(Policy(f"P{place}", *pair) for place, pair in enumerate(pairs)),
        returns,
    )
