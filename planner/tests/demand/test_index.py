"""Tests of seasons: ratios against pandas, the test against scipy, shrinking and levelling by hand and by many draws."""
from __future__ import annotations

import math
from datetime import date

import numpy as np
import pandas as pd
import pytest
from scipy import stats

from crnplan.demand import index
from crnplan.demand.index import (
    FLAT,
    Index,
    Years,
    class_index,
    in_years,
    own_alarms,
    own_index,
    pooled,
)
from crnplan.demand.seasons import CALENDAR
from crnplan.read.dates import period_of

RANDOM = np.random.default_rng(20261129)
MONTHS = 12
STRONG = 1 + 0.6 * np.sin(2 * math.pi * np.arange(MONTHS) / MONTHS)
FIRST = date(2021, 2, 3)
LENGTHS = {"day": 800, "week": 130, "month": 30}  # two years and some periods


@pytest.fixture(autouse=True)
def seeded() -> None:
    """Has each test draw the same numbers, whatever ran before."""
    RANDOM.bit_generator.state = np.random.default_rng(20261129).bit_generator.state


def counts_of(length: int) -> list[int]:
    return RANDOM.poisson(5, length).tolist()


@pytest.mark.parametrize("every", LENGTHS)
def test_ratios(every: str) -> None:
    """The ratios are those of means by year from the end and by month, or by 14 days from 1 January on, of weeks by their
    Thursday."""
    counts = counts_of(LENGTHS[every])
    periods = pd.period_range(
        FIRST, periods=len(counts), freq={"day": "D", "week": "W", "month": "M"}[every]
    )
    middle = periods.start_time + pd.Timedelta(days=3 if every == "week" else 0)
    age = (len(counts) - 1 - np.arange(len(counts))) // CALENDAR[every]["season"]
    part = middle.month
    if every != "month":
        part = ((middle.dayofyear - 1) // 14).where(middle.dayofyear <= 350, 25)
    table = pd.DataFrame({"n": counts, "age": age, "part": part})
    means = table.groupby(["age", "part"])["n"].mean().unstack()
    ratios = means.div(table.groupby("age")["n"].mean(), axis=0)
    years = Years.of(counts, every, period_of(FIRST, every))
    assert years.ratios == pytest.approx(ratios.loc[[0, 1]].to_numpy())
    asked = (table["n"] > 0).groupby(table["age"]).mean()
    assert years.asked == pytest.approx(asked.loc[[0, 1]].to_numpy())


def test_years_without_demand() -> None:
    years = Years.of([0] * 12 + [0] * 11 + [12] + [0] * 12, "month", 2021 * 12)
    assert years.ratios.tolist() == [[0.0] * 12, [0.0] * 11 + [12.0], [0.0] * 12]
    assert years.asked.tolist() == [0, 1 / 12, 0]
    assert Years.of([1] * 11, "month", 2021 * 12).ratios.shape == (0, 12)


def test_years_with_unknown_periods() -> None:
    """A week counts as the other of its 14 days, and a month of which nothing is known as the others of its year."""
    by_half = Years.of([1, 3] * 6, "month", 2021 * 12, [0, 2])
    assert by_half.ratios[0, :4] * 2.2 == pytest.approx([2.2, 3, 2.2, 3])
    weeks = [5] * 52
    weeks[10] = 0
    first = period_of(date(2021, 1, 4), "week")
    assert Years.of(weeks, "week", first, [10]).ratios == pytest.approx(1)
    nothing = Years.of([7] * 12, "month", 2021 * 12, range(12))
    assert not nothing.ratios.any()


def test_pooled() -> None:
    """Items weigh by their periods with demand; a year that fewer than half of them have is left out."""
    row = np.arange(12.0)
    young = Years(np.array([row]), np.array([3.0]))
    old = Years(np.array([2 * row, 3 * row]), np.array([1.0, 5.0]))
    assert index.pooled([young, old]).tolist() == [
        (1.25 * row).tolist(),
        (3 * row).tolist(),
    ]
    assert len(index.pooled([young, young, old])) == 1
    assert len(index.pooled([])) == 0


def test_chance() -> None:
    """The p value is twice the lower one of the F laws of two slow frequencies together and of faster ones, whatever line
    each year has: up to four times a year of months, and six of two weeks."""
    for parts, most in ((12, 4), (26, 6)):
        far = RANDOM.normal(0, 1, (3, parts))
        time = np.arange(parts) / parts
        columns, chances = [np.ones(parts), time], []
        for frequencies in (range(1, 3), range(3, most + 1)):
            alike, within = 0.0, 0.0
            for frequency in frequencies:
                angle = 2 * math.pi * frequency * (time + 0.5 / parts)
                for wave in (np.cos(angle), np.sin(angle)):
                    fit = np.linalg.lstsq(np.transpose(columns), wave, rcond=None)[0]
                    rest = wave - np.transpose(columns) @ fit
                    part = far @ rest / np.linalg.norm(rest)
                    columns.append(wave)
                    alike += 3 * part.mean() ** 2
                    within += ((part - part.mean()) ** 2).sum()
            waves = 2 * len(frequencies)
            ratio = (alike / waves) / (within / (2 * waves))
            chances.append(stats.f.sf(ratio, waves, 2 * waves))
        expected = min(1, 2 * min(chances))
        assert index.chance_of(far) == pytest.approx(expected)
        lines = far + np.outer([1, -3, 8], time) + 2
        assert index.chance_of(lines) == pytest.approx(expected)


@pytest.mark.parametrize("years", [2, 3, 5])
def test_chances_of_no_season(years: int) -> None:
    """P values of independent years are those of twice the lower one of two even numbers."""
    drawn = [index.chance_of(RANDOM.normal(0, 1, (years, MONTHS))) for _ in range(2000)]
    lower = 1 - (1 - np.array(drawn) / 2) ** 2
    assert stats.kstest(lower[lower < 0.75], stats.uniform(0, 0.75).cdf).pvalue > 0.001
    assert np.mean(np.array(drawn) == 1) == pytest.approx(0.25, abs=0.04)
    assert index.chance_of(np.zeros((2, MONTHS))) == 1
    assert index.chance_of(np.tile(STRONG, (years, 1))) == pytest.approx(0)


def test_shrinking() -> None:
    """Two years that differ by 0.2 in each month, beside a mean that varies by 0.3: a ninth of it is error."""
    wave = np.tile([1.0, -1.0], 6)
    index_, low = index.index_of(1 + np.outer([0.4, 0.2], wave)), np.full(12, 0.05)
    assert index_.share == pytest.approx(1 - 0.1**2 / 0.3**2)
    assert index_.values == pytest.approx(1 + 0.3 * (8 / 9) * wave)
    assert index_.years == 2
    assert index.index_of(1 + np.outer([0.3, -0.3], wave)).values == (1.0,) * 12
    low[0] = 11.45  # nearly all in January
    rare = index.index_of(np.tile(low, (2, 1)))
    raised = np.array([11.45] + 11 * [0.2])
    assert rare.values == pytest.approx(raised / raised.mean())


def item_with(season: np.ndarray | float, years: int, mean: float = 20) -> Years:
    counts = RANDOM.poisson(mean * np.tile(season * np.ones(MONTHS), years)).tolist()
    return Years.of(counts, "month", 2021 * 12)


def test_season_of_a_class() -> None:
    """A class with a season has about the true index, one without has none, nor has one of less than ten items."""
    class_ = [item_with(STRONG, 3) for _ in range(12)]
    seen = class_index(class_)
    assert seen and seen.values == pytest.approx(STRONG, abs=0.1)
    assert class_index(class_[:9]) is None
    assert class_index([item_with(FLAT, 3) for _ in range(12)]) is None
    assert class_index([item_with(STRONG, 1) for _ in range(12)]) is None


def test_small_seasons() -> None:
    """A season of less than 0.9 to 1.1 is not planned, however clear; of an item that is its difference from its class."""
    for size, is_planned in ((0.09, False), (0.12, True)):
        wave = 1 + size * (STRONG - 1) / 0.6
        class_ = [item_with(wave, 3, 1e6) for _ in range(10)]
        assert bool(class_index(class_)) is is_planned
        assert bool(own_index(class_[0], None)) is is_planned
        of_class = Index(tuple(STRONG.tolist()), 0.0, 1.0, 3)
        own = own_index(item_with(STRONG + wave - 1, 3, 1e6), of_class)
        assert (own is not of_class) is is_planned


def test_season_of_fewer_years_by_hand() -> None:
    """Of what two years show 0.8 are left, so their error is a fifth, and that of one year two fifths: of what it shows 0.8
    in 1.2 are left. Two years are as they were."""
    items = [Years(np.array([STRONG, 2 - STRONG]), np.ones(2))] * 10
    index = Index((1.0,) * MONTHS, 0.001, 0.8, 2)
    one = in_years(index, [Years(it.ratios[:1], it.asked[:1]) for it in items])
    assert one and one.years == 1 and one.share == pytest.approx(2 / 3)
    assert np.array(one.values) == pytest.approx(1 + 2 / 3 * (STRONG - 1))
    two = in_years(index, items)
    assert two and two.share == pytest.approx(0.8)
    assert np.array(two.values) == pytest.approx(np.ones(MONTHS))
    none = Years(np.empty((0, MONTHS)), np.empty(0))
    assert in_years(index, [none] * 10) is None


def test_season_of_an_item() -> None:
    """An item has a season of its own if that is clear in three years or more with demand."""
    of_class = Index(tuple(STRONG.tolist()), 0.0, 1.0, 3)
    turned = np.roll(STRONG, 6)
    own = own_index(item_with(turned, 4, 200), of_class)
    assert own and own.values == pytest.approx(turned, abs=0.1)
    assert own_index(item_with(turned, 2, 1e6), of_class) is of_class
    assert own_index(item_with(STRONG, 4, 200), of_class) is of_class
    assert own_index(item_with(FLAT, 4, 200), None) is None
    years = item_with(turned, 4, 200)
    assert own_index(years._replace(asked=np.full(4, 0.5)), of_class) is not of_class
    few = years._replace(asked=np.array([0.5, 0.9, 1.0, 0.4]))
    assert own_index(few, of_class) is of_class


def half_turned(items: int, years: int = 2) -> list[Years]:
    """Returns a class whose every other item has its season half a year later."""
    seasons = STRONG, np.roll(STRONG, MONTHS // 2)
    return [item_with(seasons[place % 2], years, 2_000) for place in range(items)]


def test_class_whose_items_differ() -> None:
    """Two years show the seasons of items of a class in which they differ, and none of a class in which they do not."""
    class_ = half_turned(12)
    assert class_index(class_) is None
    alarms = own_alarms(class_)
    for place, item in enumerate(class_):
        own = own_index(item, None, alarms)
        turned = np.roll(STRONG, MONTHS // 2 * (place % 2))
        assert own and own.values == pytest.approx(turned, abs=0.1)
    alike = [item_with(STRONG, 2, 200) for _ in range(12)]
    assert own_alarms(alike) == 0
    of_class = class_index(alike)
    assert of_class and own_index(alike[0], of_class) is of_class


def test_alarms_of_a_class() -> None:
    """By adjusted p values (Yekutieli and Benjamini, 1999): those of the items up to the greatest that is at most 5%. Items
    that are hardly asked for are not tested, and fewer than 10 say nothing, nor does a class of one year.
    """
    class_ = [*half_turned(6), *(item_with(FLAT, 2, 30) for _ in range(30))]
    class_.append(class_[0]._replace(asked=np.array([1.0, 0.4])))
    means, tested = pooled(class_), class_[:-1]
    chances = sorted(index.chance_of(item.ratios - means) for item in tested)
    ranks = np.arange(1, len(chances) + 1)
    adjusted = np.array(chances) * len(chances) / ranks
    adjusted = np.minimum.accumulate(adjusted[::-1])[::-1]
    seen = int((adjusted <= 0.05).sum())
    assert 4 <= seen <= 10
    assert own_alarms(class_) == pytest.approx(0.05 * seen / len(chances))
    assert chances[seen - 1] <= own_alarms(class_) < chances[seen]
    assert own_alarms(half_turned(9)) == 0
    assert own_alarms(half_turned(12, 1)) == 0
