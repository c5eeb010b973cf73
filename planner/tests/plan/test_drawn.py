"""Tests which items sums over all are estimated from, and that such estimates are right in the mean."""
from __future__ import annotations

import random

import numpy as np
import pytest

from crnplan.plan.drawn import Draws, estimated

MOST, MOST_TAKEN = 120, 80


def drawn_of(sizes: dict[str, float]) -> Draws:
    draws = Draws(MOST, MOST_TAKEN)
    for name, size in sizes.items():
        draws.add(name, size)
    return draws


def test_all_of_few_items_are_taken() -> None:
    sizes = {f"P{place}": 1.0 + place for place in range(MOST)}
    drawn = drawn_of(sizes).drawn(sum(sizes.values()))
    assert drawn.names == sorted(sizes)
    assert not drawn.chances


def test_items_that_carry_four_fifths_are_taken() -> None:
    """Ten items carry 85 of 100, and nine of them 81. Others are drawn with chances in proportion to their sizes, whatever
    the order in which they come."""
    large = {f"L{place}": 9.0 for place in range(9)} | {"L9": 4.0}
    small = {f"S{place:04}": 0.005 if place % 2 else 0.01 for place in range(2_000)}
    sizes = large | small
    total = sum(sizes.values())
    drawn = drawn_of(sizes).drawn(total)
    assert drawn.taken == {name for name in large if name != "L9"} | {
        "L9"
    }  # L9 would be drawn with a chance of 1.
    left, count = total - sum(large.values()), MOST - 10
    assert len(drawn.chances) == count
    assert drawn.chances == pytest.approx(
        {name: count * sizes[name] / left for name in drawn.chances}
    )
    assert sum(sizes[name] == 0.01 for name in drawn.chances) > count / 2
    assert drawn_of(dict(reversed(sizes.items()))).drawn(total) == drawn


def test_no_more_are_taken_than_that() -> None:
    """Of 1,000 equal items 800 carry four fifths. So many are not taken."""
    sizes = {f"P{place}": 1.0 for place in range(1_000)} | {"without a size": 0.0}
    drawn = drawn_of(sizes).drawn(1_000.0)
    assert len(drawn.taken) == MOST_TAKEN
    assert len(drawn.chances) == MOST - MOST_TAKEN
    assert {*drawn.chances.values()} == {(MOST - MOST_TAKEN) / (1_000 - MOST_TAKEN)}


def test_estimate_by_hand() -> None:
    """Of three drawn items, with chances in proportion to their sizes, the ratios are 2, 1.5 and 7/3: their mean is 35/18.
    So 12 items' worth of size have 70/3."""
    sizes, chances = np.array([1.0, 2, 3]), np.array([0.25, 0.5, 0.75])
    value = estimated(np.array([2.0, 3, 7]), sizes, chances, 12.0)
    assert value == pytest.approx(70 / 3)


def test_nothing_is_left_or_too_little_is_drawn() -> None:
    one = np.array([1.0])
    assert estimated(np.ones(2), np.ones(2), np.ones(2), 0.0) == 0
    assert estimated(one, one, one, 5.0) == 0


def test_estimates_are_right_in_the_mean() -> None:
    """Of 2,000 items with lognormal sizes, one of which carries half, a figure that differs from item to item is found
    to a few percent, and in the mean of many draws to less. Other names draw other items.
    """
    source = random.Random(5)
    sizes = [source.lognormvariate(0, 1.5) for _ in range(2_000)]
    sizes[7] = sum(sizes)
    parts = [size * source.lognormvariate(0, 0.8) for size in sizes]
    total, wanted, errors = sum(sizes), sum(parts), list[float]()
    for draw in range(100):
        names = [f"{draw} {place}" for place in range(len(sizes))]
        place_of = {name: place for place, name in enumerate(names)}
        drawn = drawn_of(dict(zip(names, sizes))).drawn(total)
        taken = [place_of[name] for name in drawn.taken]
        others = [place_of[name] for name in drawn.chances]
        value = estimated(
            np.array([parts[place] for place in others]),
            np.array([sizes[place] for place in others]),
            np.array([*drawn.chances.values()]),
            total - sum(sizes[place] for place in taken),
        )
        errors.append((value + sum(parts[place] for place in taken)) / wanted - 1)
    assert np.sqrt(np.mean(np.square(errors))) < 0.06
    assert abs(np.mean(errors)) < 0.015
