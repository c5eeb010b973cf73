"""Computes costs of the long run without theory: each policy of a run starts from a state of its own.

It is the outside value of what `theory.run_effects` takes out of a run from a common start:

- Each of the keys is one replication. A uniform number of that key puts each policy on a position even over s to S.
- 256 periods of our own follow, with the same demands, lead times and returns for all policies. They are drawn by the
  program's rule from streams of the same key that the program does not use. Stream j of block n has the four words of
  Threefry4x64 with 20 rounds (Salmon and others, Parallel random numbers: as easy as 1, 2, 3, 2011) at the counter
  (n, j, 0, 0). The program uses the streams 0 to 2 (docs/FORMATS.md, "Words of a block"). Higher streams are
  independent of these in the same way as these are of one another.
- Stock and outstanding orders then stand in a checkpoint with cost 0. The program resumes it and counts what is left of
  its 1,024 periods.

So the cost of each key is exact and proved for its stream, from a start that is not. Costs leave `unit` out.
"""
from __future__ import annotations

import tempfile
from collections.abc import Iterable, Mapping, Sequence
from dataclasses import dataclass, field, replace
from pathlib import Path
from typing import NamedTuple

import numpy as np
import numpy.typing as npt

from crnplan import formats
from crnplan.crnsim.program import find_program, run_all
from crnplan.crnsim.report import joined, parts_of, rows_of
from crnplan.law import Law
from crnplan.changing import key_words
from crnplan.runs import Scenario
from crnplan.toml.scenarios import plain_text

Words = npt.NDArray[np.uint64]
Whole = npt.NDArray[np.int64]
Key = tuple[str, ...]

KEYS = 48
OWN_PERIODS = 256
PERIODS_OF_BLOCK = 4
FIELDS = 5  # of a row of a checkpoint
# The streams of our own periods, in the order of formats.DRAWS, and that of the start.
OWN_STREAMS = (3, 4, 5)
START_STREAM = 6
AGES = formats.MOST_LEAD + 1

# Of the cipher.
PARITY = np.uint64(0x1BD11BDAA9FC1A22)
ROUNDS = 20
ROTATIONS = (
    (14, 16),
    (52, 57),
    (23, 40),
    (5, 37),
    (25, 33),
    (46, 12),
    (58, 22),
    (32, 32),
)
HALF = np.uint64(32)
LOW_HALF = np.uint64(2**32 - 1)


@dataclass(frozen=True)
class State:
    """The state of a policy between two blocks: its stock, the cost of the current replication so far, the items that
    arrive, by period of the replication, and the cost of each replication that is done.
    """

    stock: int
    cost: int = 0
    due: Mapping[int, int] = field(default_factory=dict)
    costs: tuple[int, ...] = ()


class Settled(NamedTuple):
    """What our own periods lead to, by key and policy: stocks, later arrivals by period (first axis), orders."""

    stocks: Whole
    due: Whole
    orders: Whole


class OwnStarts(NamedTuple):
    """Exact costs of the long run: by key those of each policy over so many periods."""

    costs: tuple[tuple[int, ...], ...]
    periods: int


def checkpoint_text(scenario: Scenario, block: int, states: Sequence[State]) -> str:
    """Returns the checkpoint of a scenario before a block, with a state for each policy. Ranges are not checked."""
    laws = [getattr(scenario, name) for name in formats.DRAWS]
    sizes = [len(law.values) if law else 0 for law in laws]
    rows: list[tuple[object, ...]] = [
        (
            "checkpoint",
            formats.CHECKPOINT_VERSIONS[-1],
            block,
            scenario.periods,
            scenario.replications,
        ),
        ("key", *scenario.key),
        ("costs", *(getattr(scenario.costs, name) for name in formats.COSTS)),
        ("sizes", scenario.initial, *sizes[:2], len(scenario.policies)),
        ("returns", sizes[2]),
    ]
    for kind, law in zip(formats.DRAW_ROWS, laws):
        rows += [
            (kind, value, weight)
            for value, weight in (zip(law.values, law.weights) if law else ())
        ]
    for policy, state in zip(scenario.policies, states, strict=True):
        rows += [
            ("policy", policy.name, policy.s, policy.S),
            ("state", state.stock, state.cost, len(state.due), len(state.costs)),
            *(("due", period, state.due[period]) for period in sorted(state.due)),
            *(("cost", number, cost) for number, cost in enumerate(state.costs)),
        ]
    return "".join(
        ",".join([*map(str, row), *"-" * (FIELDS - len(row))]) + "\n"
        for row in (*rows, ("end",))
    )


def resume_all(program: Path, runs: Iterable[tuple[str, str]]) -> list[str]:
    """Continues runs, each the text of a scenario and that of its checkpoint, several at a time, and returns their
    reports in order. Raises ProgramError."""
    with tempfile.TemporaryDirectory(prefix="crnplan-") as folder:
        resumed = []
        for number, (scenario, checkpoint) in enumerate(runs):
            path = Path(folder, f"{number}.csv")
            path.write_text(checkpoint, "ascii")
            resumed.append((scenario, "resume", str(path)))
        return run_all(program, resumed)


def keys_of(key: Sequence[str], count: int) -> list[Key]:
    """Returns the keys that follow from a scenario's key. All words of one follow from all words of the other."""
    return [
        tuple(key_words(f"long run {number} {' '.join(key)}"))
        for number in range(count)
    ]


def words_of_keys(keys: Sequence[Sequence[str]]) -> Words:
    """Returns keys, each of four words of 16 digits, as rows of four numbers."""
    return np.array([[int(word, 16) for word in key] for key in keys], np.uint64)


def _mixed(left: Words, right: Words, places: int) -> tuple[Words, Words]:
    total = left + right
    return (
        total,
        ((right << np.uint64(places)) | (right >> np.uint64(64 - places))) ^ total,
    )


def stream_words(keys: Words, blocks: int, stream: int) -> Words:
    """Returns the words of a stream in its first blocks: a row of 4 * blocks words for each key, a row of 4 numbers."""
    parts = [keys[:, place : place + 1] for place in range(4)]
    parts.append(PARITY ^ parts[0] ^ parts[1] ^ parts[2] ^ parts[3])
    counter = np.zeros((4, len(keys), blocks), np.uint64)
    counter[0], counter[1] = np.arange(blocks), stream
    its: list[Words] = [word + part for word, part in zip(counter, parts)]
    for number in range(ROUNDS):
        first, second = ROTATIONS[number % 8]
        one, other = (1, 3) if number % 2 == 0 else (3, 1)
        its[0], its[one] = _mixed(its[0], its[one], first)
        its[2], its[other] = _mixed(its[2], its[other], second)
        if number % 4 == 3:
            turn = (number + 1) // 4
            its = [word + parts[(turn + place) % 5] for place, word in enumerate(its)]
            its[3] = its[3] + np.uint64(turn)
    words: Words = np.stack(its, axis=-1).reshape(len(keys), 4 * blocks)
    return words


def places_of(words: Words, count: int) -> Whole:
    """Returns for each word w the place w * count / 2^64, rounded down: 0 to `count` - 1. `count` is below 2^31."""
    most = np.uint64(count)
    return (
        ((words >> HALF) * most + ((words & LOW_HALF) * most >> HALF)) >> HALF
    ).astype(np.int64)


def drawn(words: Words, table: Law) -> Whole:
    """Returns what each word draws, as the program does: from a list with each value as often as its weight says."""
    ends = np.cumsum(table.weights)
    return np.array(table.values, np.int64)[
        np.searchsorted(ends, places_of(words, int(ends[-1])), side="right")
    ]


def settled(scenario: Scenario, keys: Words) -> Settled:
    """Runs our own periods, as docs/FORMATS.md has them, from a position even over s to S by one number of the key."""
    laws = [scenario.demand, scenario.lead, scenario.returns or Law((0,), (1,))]
    demand, lead, back = (
        drawn(stream_words(keys, OWN_PERIODS // PERIODS_OF_BLOCK, stream), law)
        for stream, law in zip(OWN_STREAMS, laws)
    )
    low, high = (
        np.array([getattr(policy, name) for policy in scenario.policies])
        for name in "sS"
    )
    number = stream_words(keys, 1, START_STREAM)[:, 0]
    stocks = np.stack(
        [it.s + places_of(number, it.S - it.s + 1) for it in scenario.policies], axis=1
    )
    position = stocks.copy()
    due, orders, each = (
        np.zeros((AGES, *stocks.shape), np.int64),
        np.zeros_like(stocks),
        np.arange(len(keys)),
    )
    for period in range(OWN_PERIODS):
        place = period % AGES
        stocks += due[place]
        due[place] = 0
        placed = np.where(position < low, high - position, 0)
        orders += placed > 0
        due[(period + lead[:, period]) % AGES, each] += placed
        change = (back[:, period] - demand[:, period])[:, None]
        stocks += change
        position += placed + change
    return Settled(stocks, np.roll(due, -OWN_PERIODS % AGES, axis=0)[:-1], orders)


def first_block(scenario: Scenario) -> int:
    """Returns the first block at which a checkpoint may have any stock that can be: its least depends on the block.

    A position after a review is at least s, and all that was on order then has arrived after the longest lead time.
    """
    demand, lead = (
        max(value for value, weight in zip(it.values, it.weights) if weight)
        for it in (scenario.demand, scenario.lead)
    )
    lowest = min(it.s for it in scenario.policies) - (lead + 1) * demand
    return max(1, -(lowest // (PERIODS_OF_BLOCK * formats.MOST_DEMAND)))


def _totals(
    program: Path, scenario: Scenario, block: int, states: Mapping[Key, Sequence[State]]
) -> tuple[tuple[int, ...], ...]:
    """Continues a run under each key from the states of its policies, and returns the cost of each from then on."""
    runs = []
    for key, its in states.items():
        own = dict(zip(scenario.policies, its, strict=True))
        runs += [
            (part, [own[policy] for policy in part.policies])
            for part in parts_of(replace(scenario, key=key))
        ]
    texts = resume_all(
        program,
        (
            (plain_text(part.tree), checkpoint_text(part, block, its))
            for part, its in runs
        ),
    )
    reports = [rows_of(part, text, program) for (part, _), text in zip(runs, texts)]
    count = len(reports) // len(states)
    return tuple(
        tuple(row.total for row in joined(reports[first : first + count], program))
        for first in range(0, len(reports), count)
    )


def own_starts_of(
    scenario: Scenario, keys: int = KEYS, program: str | Path | None = None
) -> OwnStarts:
    """Runs the policies of a scenario, each from a state of its own under each of so many keys."""
    block, words = first_block(scenario), keys_of(scenario.key, keys)
    own, first = settled(scenario, words_of_keys(words)), block * PERIODS_OF_BLOCK
    asked = replace(
        scenario,
        periods=formats.MOST_PERIODS,
        replications=1,
        initial=0,
        ring=formats.RING_SIZES[-1],
        costs=replace(scenario.costs, unit=0),
        source=None,
    )
    states = {
        word: [
            State(
                int(stock),
                due={
                    first + int(age): int(amounts[age])
                    for age in np.flatnonzero(amounts)
                },
            )
            for stock, amounts in zip(stocks, due)
        ]
        for word, stocks, due in zip(words, own.stocks, np.moveaxis(own.due, 0, 2))
    }
    return OwnStarts(
        _totals(find_program(program), asked, block, states), asked.periods - first
    )
