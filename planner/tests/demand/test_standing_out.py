"""Tests the weeks that stand out in a class: planted ones, false alarms, seasons, and what says nothing."""
from __future__ import annotations

from collections.abc import Sequence
from datetime import date

import numpy as np
import pytest

from crnplan.chances import Floats
from crnplan.demand.seasons import Calendar, easters
from crnplan.demand.standing_out import (
    Amounts,
    HighWeeks,
    class_means,
    in_each_year,
    standing_out,
)
from crnplan.read.dates import first_day, period_of

FIRST = period_of(date(2021, 9, 27), "week")
EASTERS = date(2022, 4, 17), date(2023, 4, 9), date(2024, 3, 31)


def drawn(seed: int, lifts: Floats, items: int = 20, mean: float = 10) -> list[Amounts]:
    """Returns items whose demand has a variance of 1.5 times its mean, by week so many times the usual."""
    random = np.random.default_rng(seed)
    size = 2 * mean * lifts
    rows = random.negative_binomial(size, 2 / 3, (items, len(lifts)))
    return [Amounts(FIRST, row.astype(float)) for row in rows]


def lifted(weeks: Sequence[int], size: int = 104, lift: float = 3) -> Floats:
    """Returns how many times the usual is asked for: a lift in some weeks."""
    lifts = np.ones(size)
    lifts[[*weeks]] = lift
    return lifts


@pytest.mark.parametrize("weeks", [[7], [0, 30, 31, 103], [5, 20, 48, 61, 90]])
def test_planted_weeks_are_found(weeks: list[int]) -> None:
    """They are, and no others, by their numbers; also if some of them are not known of single items."""
    items = drawn(1, lifted(weeks))
    found = HighWeeks(tuple(FIRST + week for week in weeks))
    assert standing_out(items) == found
    items[3].by_week[weeks[0]] = items[4].by_week[50] = np.nan
    assert standing_out(items) == found


def test_false_alarms_are_rare() -> None:
    """Of 3,120 weeks without a promotion, at most 5 in a thousand are found, with a season and without."""
    wave = 1 + 0.5 * np.sin(2 * np.pi * np.arange(104) / 52)
    for level in (np.ones(104), wave):
        found = [len(sum(standing_out(drawn(it, level)), ())) for it in range(30)]
        assert sum(found) <= 0.005 * 30 * 104


def test_a_week_that_is_high_in_each_year_is_season() -> None:
    """Christmas is no promotion: of two years, the weeks that are high in both stay, and in three those of all three, if
    they are half as high again in the others."""
    two = lifted([20, 50, 102])
    wanted = HighWeeks((FIRST + 20,), (FIRST + 50, FIRST + 102))
    assert standing_out(drawn(2, two)) == wanted
    three = standing_out(drawn(3, lifted([20, 50, 72, 102, 154], 156)))
    assert three.promoted == (FIRST + 20, FIRST + 72) and len(three.recurring) == 3
    two[102], wide = 2, np.random.default_rng(6)
    loud = [Amounts(FIRST, wide.gamma(1.2, two)) for _ in range(60)]
    high = standing_out(loud)
    assert FIRST + 50 in high.recurring and high.promoted == (FIRST + 20,)
    is_high = np.zeros(110, bool)
    is_high[[3, 55, 107, 4, 56, 60]] = True
    assert [*np.flatnonzero(in_each_year(is_high))] == [3, 55, 107]
    assert not in_each_year(np.ones(40, bool)).any()


def test_small_lifts_and_few_items_say_nothing() -> None:
    """A lift of a quarter is too small, and so is a class of nine items, or one that is hardly asked for."""
    assert standing_out(drawn(4, lifted([30], lift=1.25), items=300)) == HighWeeks()
    assert standing_out(drawn(5, lifted([30]))[:9]) == HighWeeks()
    slow = [Amounts(FIRST, np.eye(104)[place % 104]) for place in range(20)]
    assert standing_out(slow) == HighWeeks() == standing_out([])
    mixed = [*slow, *drawn(5, lifted([30]))[:9]]
    assert standing_out(mixed) == HighWeeks()
    assert standing_out([*slow, *drawn(5, lifted([30]))]).promoted == (FIRST + 30,)


def at_easter(years: int, lifts: Sequence[float]) -> Floats:
    """Returns how many times the usual is asked for: a lift in some weeks, of which the last is that of Easter."""
    by_week = np.ones(52 * years)
    for day in EASTERS[:years]:
        week = (day - first_day(FIRST, "week")).days // 7
        by_week[week - len(lifts) + 1 : week + 1] = lifts
    return by_week


@pytest.mark.parametrize("years", [2, 3])
@pytest.mark.parametrize("lifts", [(1, 1, 4), (1, 2, 4), (3, 1, 1)])
def test_easter(years: int, lifts: Sequence[float]) -> None:
    """The weeks around Easter have the lifts that were planted, also those of a class that has promotions; none of them is
    one, and none stands out in the same week of each year."""
    by_week = at_easter(years, lifts)
    by_week[[3, 60]] = 3
    found = standing_out(drawn(7, by_week, items=60))
    assert found.easter == pytest.approx((*lifts, 1), rel=0.12)
    assert found[:2] == ((FIRST + 3, FIRST + 60), ())
    seen_once = at_easter(years, lifts)
    seen_once[:52] = 1
    assert years > 2 or standing_out(drawn(8, seen_once, items=60)).easter == ()


def test_weeks_of_the_year_are_not_easter() -> None:
    """Of two Easters that are a week apart, three weeks that are high in the same weeks of both years are a season, also if
    Easter is among them. What is high at one Easter alone is a promotion."""
    weeks = at_easter(2, (3,))
    first, second = np.flatnonzero(weeks > 1)
    assert second - first == 51
    fixed = lifted(
        [week for it in (first, first + 52) for week in (it - 1, it, it + 1)]
    )
    found = standing_out(drawn(9, fixed, items=60))
    assert found.easter == () and len(found.recurring) == 6
    once = standing_out(drawn(9, lifted([int(first)]), items=60))
    assert once == HighWeeks((FIRST + int(first),))


def test_false_easters_are_rare() -> None:
    """Of 200 classes with as many promotions as the study has, at most 2% are taken for moved by Easter."""
    random, seen = np.random.default_rng(12), 0
    for seed in range(200):
        by_week = np.where(random.random(104) < 0.06, 3.0, 1.0)
        seen += standing_out(drawn(seed, by_week)).easter != ()
    assert seen <= 4


def test_roots_of_a_class() -> None:
    """By hand: the means of the square roots of demand beside its mean, from the first week of all, where ten are known."""
    one = Amounts(3, np.array([4.0, 0, 2, np.nan]))
    two = Amounts(4, np.array([8.0, 2]))
    first, roots = class_means([one] * 9 + [two] * 3, 0.5)
    assert first == 3 and np.isnan(roots[[0, 3]]).all()
    wanted = [(9 * 0 + 3 * 1.6**0.5) / 12, (9 * 1 + 3 * 0.4**0.5) / 12]
    assert roots[1:3] == pytest.approx(wanted)


def test_calendar() -> None:
    """By hand: Easter Sundays are 9 April 2023 and 31 March 2024, and weeks begin on Mondays. The second week before is 12
    weeks after that of 26 December; a record that begins or ends amid these weeks has the rest of them.
    """
    first = period_of(date(2022, 12, 26), "week")
    places = [[12, 13, 14, 15], [63, 64, 65, 66]]
    assert easters(first, 104).tolist() == places
    assert easters(first, 66).tolist() == places[:1]
    assert easters(first + 13, 104).tolist() == [[50, 51, 52, 53]]
    calendar = Calendar(easter=(1.0, 2.0, 4.0, 0.5))
    assert calendar.factors(first + 13, 4).tolist() == [2, 4, 0.5, 1]
    assert calendar.factors(first, 14).tolist() == [1.0] * 13 + [2.0]
    quarter = Calendar(quarter=(3.0, *[1.0] * 12))
    assert np.flatnonzero(quarter.factors(13 * 200 + 12, 28) == 3).tolist() == [
        1,
        14,
        27,
    ]
    assert (Calendar().factors(first, 52) == 1).all()
