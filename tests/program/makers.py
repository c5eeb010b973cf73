"""Texts that are too long to be written down, made of some numbers for the cases of this folder.

Policy p costs 1,000 + 10 p + (p + 1) i in replication i. With R replications the sum of (i - j)^2 over pairs is
R^2 (R^2 - 1) / 12, so the variance of the mean difference to policy 0 is p^2 (R + 1) / 12 and the covariance
(p + 1) R (R + 1) / 12.
"""
from __future__ import annotations

import itertools
import tomllib
from collections.abc import Iterator

import numpy as np

from tests.program import oracle


def scenario(policies: int, replications: int) -> str:
    """Returns a scenario of so many policies over so many replications of one block each."""
    head = f"""version = 1
key = ["0000000000000000", "0000000000000000", "0000000000000000", "0000000000000000"]
periods = 4
replications = {replications}
initial = 10
ring = 2
costs = {{ setup = 7, unit = 2, holding = 1, backlog = 4 }}
demand = {{ values = [3], weights = [1] }}
lead = {{ values = [1], weights = [1] }}
"""
    return head + "".join(
        f'[[policy]]\nname = "p{p}"\ns = {p}\nS = {100 + p}\n' for p in range(policies)
    )


def checkpoint(policies: int, replications: int, version: int = oracle.NEWEST) -> str:
    """Returns its checkpoint at the end, as if the policies had cost what is said above."""
    states = [
        (10, 0, {}, [1000 + 10 * p + (p + 1) * i for i in range(replications)])
        for p in range(policies)
    ]
    return oracle.checkpoint_text(
        tomllib.loads(scenario(policies, replications)), replications, states, version
    )


def words(number: int | str) -> str:
    """Returns the words of a block of the zero key."""
    return oracle.words_text((0, 0, 0, 0), int(number))


def producer_steps(size: int, readers: int, blocks: int) -> Iterator[str]:
    """Yields the producer's steps for so many blocks, one after the other, on a ring whose readers have all left."""
    numbers = np.arange(blocks, dtype=np.uint64)
    words = np.stack(
        [
            word
            for it in range(len(oracle.STREAMS))
            for word in oracle.threefry((0, 0, 0, 0), [numbers, it, 0, 0])
        ],
        axis=1,
    )
    for block, stored in enumerate(words.tolist()):
        yield from (f"p P1 {1 + reader} 8000000000000000" for reader in range(readers))
        first = 1 + readers + len(stored) * (block % size)
        yield from (
            f"p P2 {place} {word:016x}" for place, word in enumerate(stored, first)
        )
        yield f"p P3 0 {2 * (block + 1):016x}"


def trace(size: int, readers: int, turns: int) -> str:
    """Returns the trace of a ring whose readers all leave before the producer takes so many turns."""
    # The producer loads each cursor, stores the words of a block and publishes.
    words_of_block = 4 * len(oracle.STREAMS)
    published = turns // (readers + words_of_block + 1)
    lines = [f"l{reader} R3 {1 + reader} 8000000000000000" for reader in range(readers)]
    lines += itertools.islice(producer_steps(size, readers, published + 1), turns)
    lines.append(f"published {published} ended 0")
    lines += [f"reader {reader} taken 0 left 1 ended 0" for reader in range(readers)]
    return "".join(f"{line}\n" for line in lines)
