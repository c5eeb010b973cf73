"""A second program for reports and checkpoints, which shares no line with crnsim.

    python -m tests.program.oracle report SCENARIO        the report of the scenario in this file
    python -m tests.program.oracle leg N SCENARIO         its checkpoint at block N
    python -m tests.program.oracle old V N SCENARIO       the same in version V of the format, if that can hold it
    python -m tests.program.oracle words K0 K1 K2 K3 N    the words of block N

It is written from docs/DEFINITIONS.md and docs/FORMATS.md: it carries no stock on, but adds up all earlier orders,
demands and returned items anew in each period, and draws from the spread-out list. Scenarios are taken to be without a
fault.
The time for that grows with the square of the periods; long_runs.py is for long runs.
"""
from __future__ import annotations

import sys
import tomllib
from collections.abc import Sequence
from fractions import Fraction
from functools import cache
from pathlib import Path
from typing import Any

from crnplan import formats

MASK = 2**64 - 1
PARITY = 0x1BD11BDAA9FC1A22
ROTATIONS = [
    (14, 16),
    (52, 57),
    (23, 40),
    (5, 37),
    (25, 33),
    (46, 12),
    (58, 22),
    (32, 32),
]
STREAMS = formats.DRAWS
NEWEST = formats.CHECKPOINT_VERSIONS[-1]

Tree = dict[str, Any]
Key = tuple[int, ...]
# Each period's order with its period of arrival, the stock at its end, and its cost.
History = tuple[list[tuple[int, int]], list[int], list[int]]
# Stock, running cost, outstanding orders by period of arrival, and the costs of replications.
State = tuple[int, int, dict[int, int], list[int]]

# ---- the stream


def rotl(word: Any, places: int) -> Any:
    """Returns the word moved up, the bits that fall out put in below."""
    return (word << places | word >> (64 - places)) & MASK


def threefry(key: Key, counter: Sequence[Any]) -> list[Any]:
    """Returns the four words of Threefry4x64-20. A word of the counter may be an array of numpy's unsigned 64 bits."""
    keys = [*key, PARITY ^ key[0] ^ key[1] ^ key[2] ^ key[3]]
    words = list(counter)
    for number in range(21):
        if number % 4 == 0:
            words = [
                (word + keys[(number // 4 + i) % 5]) & MASK
                for i, word in enumerate(words)
            ]
            words[3] = (words[3] + number // 4) & MASK
        if number < 20:
            for pair, places in enumerate(ROTATIONS[number % 8]):
                left, right = 2 * pair, (
                    2 * pair + 1 if number % 2 == 0 else 3 - 2 * pair
                )
                words[left] = (words[left] + words[right]) & MASK
                words[right] = rotl(words[right], places) ^ words[left]
    return words


def stream_words(key: Key, number: int, stream: str) -> list[int]:
    """Returns the words of a stream in block `number`."""
    return threefry(key, [number, STREAMS.index(stream), 0, 0])


def words_text(key: Key, number: int) -> str:
    """Returns the text of a block's words."""
    return "".join(
        f"{it} {' '.join(f'{word:016x}' for word in stream_words(key, number, it))}\n"
        for it in STREAMS
    )


# ---- draws


def spread(weighted: Tree) -> list[int]:
    """Returns each value as often as its weight says, in order."""
    return [
        it
        for value, weight in zip(weighted["values"], weighted["weights"])
        for it in [value] * weight
    ]


def pick(spread_out: list[int], word: int) -> int:
    """Returns the item of the spread-out list for a word."""
    return spread_out[word * len(spread_out) >> 64]


class Scenario:
    """A scenario's numbers, and what follows from them."""

    def __init__(self, text: str) -> None:
        """Reads a text without a fault."""
        self.tree: Tree = tomllib.loads(text)
        self.key = tuple(int(word, 16) for word in self.tree["key"])
        self.periods, self.replications = (
            self.tree["periods"],
            self.tree["replications"],
        )
        self.policies, self.costs = self.tree["policy"], self.tree["costs"]
        # Four periods to a block; words left over in a replication's last block are skipped.
        self.blocks = (self.periods + 3) // 4
        self.total = self.replications * self.blocks
        self.spreads = {it: spread(self.tree[it]) for it in STREAMS if it in self.tree}

    def draws(self, replication: int, stream: str) -> list[int]:
        """Returns what a replication's periods draw from a stream; without returns nothing is returned."""
        if stream not in self.spreads:
            return [0] * self.periods
        words = [
            word
            for block in range(
                replication * self.blocks, (replication + 1) * self.blocks
            )
            for word in stream_words(self.key, block, stream)
        ]
        return [pick(self.spreads[stream], word) for word in words[: self.periods]]


# ---- inventory


def history(scenario: Any, policy: Tree, draws: Sequence[Sequence[int]]) -> History:
    """Returns the history of a policy in a replication, by what its periods draw from each stream."""
    demands, leads, returned = draws
    initial, costs = scenario.tree["initial"], scenario.costs
    placed: list[tuple[int, int]] = []
    stocks: list[int] = []
    spent: list[int] = []
    for period in range(scenario.periods):
        position = (
            initial
            + sum(amount for amount, _ in placed)
            + sum(returned[:period])
            - sum(demands[:period])
        )
        order = policy["S"] - position if position < policy["s"] else 0
        placed.append((order, period + leads[period]))
        arrived = sum(amount for amount, due in placed if due <= period)
        stock = (
            initial + arrived + sum(returned[: period + 1]) - sum(demands[: period + 1])
        )
        stocks.append(stock)
        spent.append(
            (costs["setup"] + costs["unit"] * order if order else 0)
            + (costs["holding"] * stock if stock >= 0 else costs["backlog"] * -stock)
        )
    return placed, stocks, spent


class Run:
    """The histories of each policy in each replication of a scenario."""

    def __init__(self, text: str) -> None:
        """Runs the scenario of a text."""
        self.scenario = scenario = Scenario(text)
        draws = [
            [scenario.draws(replication, it) for it in STREAMS]
            for replication in range(scenario.replications)
        ]
        self.histories: list[dict[int, History]] = [
            {place: history(scenario, policy, it) for place, it in enumerate(draws)}
            for policy in scenario.policies
        ]

    def costs(self, policy: int) -> list[int]:
        """Returns the cost of each replication of a policy, by its number."""
        return [sum(spent) for _, _, spent in self.histories[policy].values()]

    def state(self, policy: int, block: int) -> State:
        """Returns the state before a block."""
        done, periods = block // self.scenario.blocks, block % self.scenario.blocks * 4
        if periods == 0:
            return self.scenario.tree["initial"], 0, {}, self.costs(policy)[:done]
        placed, stocks, spent = self.histories[policy][done]
        due: dict[int, int] = {}
        for amount, period in placed[:periods]:
            if amount and period >= periods:
                due[period] = due.get(period, 0) + amount
        return stocks[periods - 1], sum(spent[:periods]), due, self.costs(policy)[:done]


@cache
def run_of(text: str) -> Run:
    """Returns the run of a scenario's text."""
    return Run(text)


# ---- texts


def over_pairs(left: Sequence[int], right: Sequence[int]) -> int:
    """Returns the sum of the products of differences over all pairs of replications."""
    return sum(
        (left[i] - left[j]) * (right[i] - right[j])
        for j in range(len(left))
        for i in range(j)
    )


def fraction(num: int, den: int) -> str:
    """Returns a fraction's text; one that has nothing to divide by is none."""
    if den == 0:
        return "-"
    it = Fraction(num, den)
    return f"{it.numerator}/{it.denominator}"


def report_of(run: Run) -> str:
    """Returns the report of a run."""
    count, periods = run.scenario.replications, run.scenario.periods
    rows = [formats.HEADER]
    first = run.costs(0)
    for number, policy in enumerate(run.scenario.policies):
        costs = run.costs(number)
        differences = [its - base for its, base in zip(costs, first)]
        rows.append(
            ",".join(
                map(
                    str,
                    [
                        policy["name"],
                        policy["s"],
                        policy["S"],
                        sum(costs),
                        fraction(sum(costs), count * periods),
                        sum(differences),
                        fraction(sum(differences), count),
                        fraction(
                            over_pairs(differences, differences),
                            count**2 * (count - 1),
                        ),
                        fraction(over_pairs(costs, first), count * (count - 1)),
                    ],
                )
            )
        )
    return "".join(f"{row}\n" for row in rows)


def checkpoint_text(
    tree: Tree, block: int, states: Sequence[State], version: int = NEWEST
) -> str:
    """Returns the checkpoint of a scenario's tree at a block, with these states of its policies."""
    if version == 1 and "returns" in tree:
        raise ValueError("there is no such checkpoint")
    rows: list[list[Any]] = [
        ["checkpoint", version, block, tree["periods"], tree["replications"]],
        ["key", *tree["key"]],
        ["costs", *(tree["costs"][it] for it in formats.COSTS)],
        [
            "sizes",
            tree["initial"],
            len(tree["demand"]["values"]),
            len(tree["lead"]["values"]),
            len(tree["policy"]),
        ],
    ]
    if version > 1:
        rows.append(["returns", len(tree.get("returns", {"values": []})["values"])])
    for table, name in zip(STREAMS, formats.DRAW_ROWS, strict=True):
        if table in tree:
            rows += [
                [name, value, weight]
                for value, weight in zip(tree[table]["values"], tree[table]["weights"])
            ]
    for policy, (stock, cost, due, costs) in zip(tree["policy"], states, strict=True):
        rows.append(["policy", policy["name"], policy["s"], policy["S"]])
        rows.append(["state", stock, cost, len(due), len(costs)])
        rows += [["due", period, due[period]] for period in sorted(due)]
        rows += [["cost", replication, its] for replication, its in enumerate(costs)]
    rows.append(["end"])
    return "".join(
        ",".join(map(str, row + ["-"] * (5 - len(row)))) + "\n" for row in rows
    )


def checkpoint_of(run: Run, block: int, version: int = NEWEST) -> str:
    """Returns the checkpoint of a run at a block."""
    if block > run.scenario.total:
        raise ValueError("there is no such checkpoint")
    states = [run.state(number, block) for number in range(len(run.scenario.policies))]
    return checkpoint_text(run.scenario.tree, block, states, version)


def checkpoint(text: str, block: int, version: int = NEWEST) -> str:
    """Returns the checkpoint of a scenario at a block."""
    return checkpoint_of(run_of(text), block, version)


def answer(words: Sequence[str], text: str) -> str | None:
    """Returns what crnsim writes for the words of its command line and a scenario; None for an unknown command."""
    match words:
        case [] | ["run"] | ["lanes"]:
            return report_of(run_of(text))
        case ["leg", block]:
            return checkpoint(text, int(block))
        case ["words", _, _, _, _, number]:
            return words_text(tuple(int(word, 16) for word in words[1:5]), int(number))
    return None


def main(words: Sequence[str]) -> str | None:
    """Returns the text that the words of the command line ask for."""
    match words:
        case ["report", name]:
            return answer(["run"], Path(name).read_text("utf-8"))
        case ["leg", block, name]:
            return answer(["leg", block], Path(name).read_text("utf-8"))
        case ["old", version, block, name]:
            return checkpoint(Path(name).read_text("utf-8"), int(block), int(version))
        case ["words", _, _, _, _, _]:
            return answer(words, "")
    raise SystemExit(__doc__)


if __name__ == "__main__":
    sys.stdout.write(main(sys.argv[1:]) or "")
