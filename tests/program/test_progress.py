"""When a ring ends, by a search over all schedules, and by the program on the schedules that take longest.

`crn_proto::laws::progress` proves that all actors have finished after so many rounds. The search shows that block by
block they may need as many, and as many turns a round, so neither number can be lower. With batches of up to two blocks
they need a round fewer than is proved, if there is a block. Five wrong protocols need more rounds, or never end.
"""
from __future__ import annotations

import random
from itertools import chain
from pathlib import Path

import pytest

from tests.program.protocol import Batches, Protocol, Reader, Schedule, State, trace_of
from tests.runs import run

WORDS = 12
# A ring's slots, readers, blocks and words a block, and the rounds after which it has ended. By hand: one to publish
# each block, one to take the last and to mark the end, and one to see the end. On one slot the producer waits a round
# for the readers between two blocks.
ROUNDS = {
    (2, 2, 3, 1): 5,
    (2, 1, 0, 1): 2,
    (2, 1, 2, 2): 4,
    (2, 1, 4, 1): 6,
    (4, 1, 3, 1): 5,
    (1, 1, 0, 1): 2,
    (1, 1, 1, 1): 3,
    (1, 1, 3, 1): 7,
    (1, 2, 2, 1): 5,
}


class WaitsForOneThatLeft(Protocol):
    """The producer waits for a reader that has left."""

    def lets_in(self, published: int, reader: Reader) -> bool:
        return published < reader.taken + self.size


class KeepsASlotFree(Protocol):
    """The producer keeps one slot free."""

    def lets_in(self, published: int, reader: Reader) -> bool:
        return super().lets_in(published + 1, reader)


class KeepsTheLastBlock(Protocol):
    """A reader does not free the slot of the last block that is published, before the end."""

    def frees(self, state: State, reader: Reader) -> bool:
        return state.ended or reader.taken + 1 < state.published


class NeverLoadsAnew(Protocol):
    """The producer remembers the counts of the opening, and never loads them anew."""

    def lets_in(self, published: int, reader: Reader) -> bool:
        return published < self.size


class EndsOnceOneHasLeft(Protocol):
    """The end is marked only once all blocks are taken and a reader has left."""

    def may_end(self, state: State) -> bool:
        readers = state.readers
        return any(it.has_left for it in readers) and all(
            it.has_left or it.taken == state.published for it in readers
        )


WRONG = [
    WaitsForOneThatLeft,
    KeepsASlotFree,
    KeepsTheLastBlock,
    NeverLoadsAnew,
    EndsOnceOneHasLeft,
]


@pytest.mark.parametrize("ring", ROUNDS, ids=str)
def test_rounds(ring: tuple[int, int, int, int]) -> None:
    """Under every schedule all have finished after these rounds, and under some not before."""
    assert Protocol(*ring).rounds_needed() == ROUNDS[ring]


@pytest.mark.parametrize("fewer", [(1, 0), (0, 1)], ids=["producer", "reader"])
def test_a_turn_fewer(fewer: tuple[int, int]) -> None:
    """With one turn a round fewer, of the producer or of the reader, these rounds are not enough."""
    ring = (2, 1, 4, 1)
    protocol = Protocol(*ring)
    turns = tuple(had - less for had, less in zip(protocol.turns_a_round(), fewer))
    needed = protocol.rounds_needed(turns)
    assert needed is not None and needed > ROUNDS[ring]


def rounds_proved(size: int, blocks: int) -> int:
    """Returns the rounds after which all have finished, as is proved, with batches of any size."""
    return 2 * blocks + 1 if size == 1 and blocks else blocks + 2


@pytest.mark.parametrize("ring", ROUNDS, ids=str)
def test_bound_is_tight(ring: tuple[int, int, int, int]) -> None:
    """Block by block the proved number of rounds is needed."""
    size, _, blocks, _ = ring
    assert ROUNDS[ring] == rounds_proved(size, blocks)


@pytest.mark.parametrize(
    "ring",
    [
        (2, 1, 0, 1),
        (2, 1, 2, 1),
        (2, 1, 3, 1),
        (4, 1, 3, 1),
        (1, 1, 2, 1),
        (1, 2, 1, 1),
    ],
    ids=str,
)
def test_batches(ring: tuple[int, int, int, int]) -> None:
    """With batches of one or two blocks and remembered counts, a ring with blocks needs one round fewer than is
    proved."""
    size, _, blocks, _ = ring
    assert Batches(*ring, 2).rounds_needed() == rounds_proved(size, blocks) - (
        blocks > 0
    )


@pytest.mark.parametrize("wrong", WRONG, ids=lambda it: it.__name__)
def test_wrong_protocols(wrong: type[Protocol]) -> None:
    """Under some schedule a wrong protocol never ends on one slot. On two it takes more rounds, or never ends."""
    assert wrong(1, 2, 2, 1).rounds_needed() is None
    needed = wrong(2, 1, 4, 1).rounds_needed()
    assert needed is None or needed > ROUNDS[2, 1, 4, 1]


def slowest(protocol: Protocol) -> list[Schedule]:
    """Returns the rounds of a schedule that takes longest: those who wait have their turns first.

    On two slots these are always the readers. On one slot they are the readers and the producer in turn.
    """
    turns = protocol.turns_a_round()
    producer = ["p"] * turns[0]
    readers = [
        f"r{number}" for number, count in enumerate(turns[1:]) for _ in range(count)
    ]
    return [
        producer + readers if protocol.size == 1 and number % 2 else readers + producer
        for number in range(12)
    ]


def trace(program: Path, protocol: Protocol, schedule: Schedule) -> list[list[str]]:
    """Returns the fields of each line of the trace that the program writes of a schedule."""
    words = [
        "replay",
        *(str(it) for it in (protocol.size, protocol.readers, protocol.blocks)),
    ]
    shown = run(program, words, "".join(f"{it}\n" for it in schedule).encode())
    assert (shown.status, shown.errors) == (0, b"")
    return [line.split() for line in shown.output.decode().splitlines()]


def has_ended(lines: list[list[str]]) -> bool:
    """Returns whether a trace's last lines say that the end is marked, and that each reader has seen it or has left."""
    return all(
        "1" in (it[3:] if it[0] == "published" else it[5:])
        for it in lines
        if it[0] in ("published", "reader")
    )


@pytest.mark.parametrize(
    "ring, needed",
    [((2, 2, 3), 5), ((8, 3, 20), 22), ((1, 1, 1), 3), ((1, 2, 4), 9)],
    ids=str,
)
def test_program(program: Path, ring: tuple[int, int, int], needed: int) -> None:
    """The ring of `replay` needs these rounds too, and ends in them, under the schedule that takes longest."""
    rounds = (slowest(Protocol(*ring, WORDS)) * 2)[:needed]
    whole, short = list(chain(*rounds)), list(chain(*rounds[:-1]))
    assert [
        has_ended(trace(program, Protocol(*ring, WORDS), it)) for it in (short, whole)
    ] == [False, True]


@pytest.mark.parametrize(
    "ring, stores", [((2, 2, 3), 48), ((1, 1, 0), 2), ((8, 3, 20), 324)], ids=str
)
def test_most_stores(program: Path, ring: tuple[int, int, int], stores: int) -> None:
    """A run in which each reader sees the end and leaves has all the stores that are proved to be the most.

    For each block 12 words and a store that publishes it, and the end mark; for each reader one for each block, and one
    to leave.
    """
    leaves = [f"l{number}" for number in range(ring[1])]
    lines = trace(
        program,
        Protocol(*ring, WORDS),
        [*chain(*slowest(Protocol(*ring, WORDS)) * 2), *leaves],
    )
    assert (
        has_ended(lines) and sum(it[1] in ("P2", "P3", "R3") for it in lines) == stores
    )


@pytest.mark.parametrize("ring", [(2, 2, 3), (1, 1, 2), (4, 3, 9), (1, 3, 5)], ids=str)
def test_program_keeps_the_protocol(program: Path, ring: tuple[int, int, int]) -> None:
    """The program's traces of random schedules are those of the protocol that is searched."""
    protocol, drawn = Protocol(*ring, WORDS), random.Random(57)
    for ends in (0, 1):
        # Seldom a turn that ends early or leaves: most schedules go on to the end.
        actors = protocol.actors()
        weights = [40] * (1 + protocol.readers) + [ends] * (1 + protocol.readers)
        schedule = drawn.choices(actors, weights, k=2000)
        lines = trace(program, protocol, schedule)
        wanted = list(trace_of(protocol, schedule))
        assert [
            [*it[:3], "?"] if it[1] in ("P2", "R2") else it for it in lines
        ] == wanted
