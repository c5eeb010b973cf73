"""Tests what is learned of the weeks of a quarter: planted months of 4, 4 and 5 weeks, and what is none."""
from __future__ import annotations

import numpy as np
import pytest

from crnplan.chances import Floats
from crnplan.demand.quarter import quarter_of
from crnplan.demand.standing_out import Amounts

FIRST = 2_711  # 208 quarters and 7 weeks
ENDS = 3, 7, 12  # the last weeks of months of 4, 4 and 5 weeks


def drawn(seed: int, rates: Floats, items: int = 12) -> list[Amounts]:
    """Returns items whose demand has a variance of twice its mean."""
    random = np.random.default_rng(seed)
    rows = random.negative_binomial(10 * rates, 0.5, (items, len(rates)))
    return [Amounts(FIRST, row.astype(float)) for row in rows]


def ending_high(weeks: int) -> Floats:
    """Returns how many times the mean is asked for if the last week of a month has three times the others."""
    places = (FIRST + np.arange(weeks)) % 13
    rates = np.where(np.isin(places, ENDS), 3.0, 1.0)
    return np.asarray(rates * 13 / 19)


@pytest.mark.parametrize("weeks", [104, 109, 130])
def test_months_that_end_high(weeks: int) -> None:
    """Wherever a record begins and ends, weeks have the rates that were planted, by their numbers."""
    wanted = np.where(np.isin(np.arange(13), ENDS), 3.0, 1.0) * 13 / 19
    found = quarter_of(drawn(1, ending_high(weeks), 40))
    assert found == pytest.approx(wanted, rel=0.1)
    assert np.mean(found) == pytest.approx(1)


def test_too_few_say_nothing() -> None:
    assert quarter_of(drawn(2, ending_high(103), 40)) == ()
    assert quarter_of(drawn(2, ending_high(104), 9)) == ()
    slight = drawn(3, 1 + 0.05 * (ending_high(104) - 1), 400)
    assert quarter_of(slight) == ()
    twice = np.ones(104)
    twice[[5, 5 + 3 * 13]] = 4
    assert quarter_of(drawn(5, twice, 40)) == ()


def test_false_alarms_are_rare() -> None:
    """Of 300 classes without it, at most 2% are seen to have it: with a season, or with good and bad weeks that last."""
    random, seen = np.random.default_rng(4), 0
    wave = 1 + 0.5 * np.sin(2 * np.pi * np.arange(104) / 52)
    for seed in range(100):
        lasting, noise = np.zeros(104), random.normal(0, 0.3, 104)
        for week in range(1, 104):
            lasting[week] = 0.5 * lasting[week - 1] + noise[week]
        for rates in (np.ones(104), wave, np.exp(lasting)):
            seen += quarter_of(drawn(seed, rates)) != ()
    assert seen <= 6
