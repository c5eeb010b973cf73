"""Tests of the checks of a history: planted effects, and the lines for planners."""
from __future__ import annotations

import time
import tomllib
from collections.abc import Collection, Sequence
from datetime import date
from pathlib import Path
from typing import Any

import numpy as np
import pytest
from hypothesis import given, settings, strategies as st
from scipy import stats

import crnplan as crn
from crnplan.demand.checks import Checks, check_history, checks_of
from crnplan.demand.order_tests import OrderTest
from crnplan.demand.seasons import Season, seasons_of
from crnplan.demand.permutation import drawn_orders
from crnplan.errors import Refused
from crnplan.read.dates import period_name, period_of
from crnplan.remarks import Remark
from crnplan.sentences import advised, sentence

CASES = tomllib.loads(Path(__file__).with_name("checks.toml").read_text("utf-8"))
RANDOM = np.random.default_rng(8)
SINE = np.sin(2 * np.pi * (np.arange(208) + 0.5) / 52)
STEADY = RANDOM.poisson(10, 208).tolist()
RISING = RANDOM.poisson(10 * np.linspace(0.5, 1.5, 104)).tolist()
RAISED = RANDOM.poisson(np.where(np.arange(104) < 78, 10, 16)).tolist()
SEASONAL = RANDOM.poisson(10 * (1 + 0.6 * SINE)).tolist()
# A Poisson chain with mean 10 and an autocorrelation of 0.6.
CHAINED = [10]
for new in RANDOM.poisson(4, 103).tolist():
    CHAINED.append(int(RANDOM.binomial(CHAINED[-1], 0.6)) + new)
BOTH = RANDOM.poisson(10 * (1 + 0.6 * SINE) * np.linspace(0.6, 1.4, 208)).tolist()


def dated(
    numbers: Sequence[int], first: date, every: str, season: int | None = None
) -> Checks:
    """Returns the checks of demand whose first period has a day."""
    return checks_of(numbers, every, period_of(first, every), season=season)


def named(checks: Checks, name: str) -> Any:
    return next(it for it in checks.tests if it.name == name)


def said(remarks: Sequence[Remark]) -> list[str]:
    return [advised(remark) for remark in remarks]


def seasons(length: int, first: date, every: str) -> list[Season]:
    return seasons_of(every, period_of(first, every), length, None)[0]


def test_quiet_history() -> None:
    """Independent demand has no warning, which is no proof. Tests warn up to 5% over their number."""
    tests = [OrderTest(str(p), p, 0.0, {}) for p in (0.0125, 0.0126, 0.05, 0.9)]
    assert Checks(9, 9, tuple(tests)).warned == ("0.0125",)
    assert Checks(9, 9, tuple(tests[:1])).level == 0.05
    checks = check_history(STEADY, season=52)
    assert (checks.warnings, checks.notes, checks.warned) == ((), (), ())
    assert (checks.periods, checks.demands, checks.level) == (208, 208, 0.0125)
    assert checks.lines[1] == (
        "demand: no warning is no proof: a backtest says what plans on the past would have missed"
    )


def test_trend() -> None:
    """A planted trend is named by the means of the thirds and its slope."""
    checks = check_history(RISING)
    ratio = np.mean(RISING[-34:]) / np.mean(RISING[:34])
    words = f"the mean of the last third is {ratio - 1:.0%} above that of the first"
    line = f"demand has a trend: {words} (p 0.001). Plan from the part of the "
    assert said(checks.warnings)[0].startswith(line)
    assert "shift" in checks.warned
    assert "shift" not in [it.code for it in checks.warnings]
    slope = np.polyfit(range(104), RISING, 1)[0] * 103 / 2
    assert named(checks, "trend").size == pytest.approx(slope / np.mean(RISING))
    text = said(check_history(RISING[::-1]).warnings)[0]
    assert f"{1 - 1 / ratio:.0%} below that of the first" in text


def test_autocorrelation() -> None:
    """A planted dependence is named, and what to do about it."""
    checks, far = check_history(CHAINED), np.array(CHAINED) - np.mean(CHAINED)
    found = far[1:] @ far[:-1] / (far @ far)
    assert named(checks, "autocorrelation").size == pytest.approx(found)
    text = said(checks.warnings)[-1]
    line = f"periods are not independent: autocorrelation {found:.2f} at lag 1 (p 0.001). Ask what "
    assert text.startswith(line)
    turns = said(check_history(([2, 9, 3, 8, 1, 9] * 12)[:70]).warnings)[0]
    assert "High and low periods take turns" in turns


def test_shift() -> None:
    """A planted shift is named by its first period or day, and by how to read the record since then."""
    checks, places = check_history(RAISED), range(11, 94)
    far = [stats.ttest_ind(RAISED[:it], RAISED[it:]).statistic for it in places]
    after = places[np.abs(far).argmax()]
    more = np.mean(RAISED[after:]) / np.mean(RAISED[:after]) - 1
    assert abs(after - 78) < 5
    assert named(checks, "shift").size == pytest.approx(more)
    assert said(checks.warnings)[0].startswith(
        f"the level of demand has changed: from period {after + 1} on the mean is {more:.0%} above that before "
        "(p 0.001). If that is for good, plan from the record since then (leave out the rows before period "
        f"{after + 1})"
    )
    assert "trend" not in [it.code for it in checks.warnings]
    checks = dated([3] * 40 + [9, 8] * 10, date(2025, 1, 6), "week")
    text = said(checks.warnings)[0]
    assert "from 2025-W42 on the mean is 183% above that before" in text
    assert "(start=2025-10-13)" in text
    assert said(checks.unknown)[-1] == "a season is tested from 104 weeks on"
    nothing = check_history([0] * 30 + [4, 5] * 15)
    assert "there is no demand before period 31" in said(nothing.warnings)[0]
    found = Remark("found trend", named(nothing, "trend").facts)
    assert sentence(found) == "the first third has no demand"


def test_season() -> None:
    """A planted season is named by its fullest and emptiest part. A named length counts from the first period."""
    checks = check_history(SEASONAL, season=52)
    shares = np.reshape(SEASONAL, (4, 4, 13)).mean(axis=(0, 2)) / np.mean(SEASONAL)
    first, last = 13 * shares.argmax(), 13 * shares.argmin()
    line, other = said(checks.warnings)
    assert (
        f"{shares.max():.2g} times the mean in periods {first + 1} to {first + 13} of 52, "
        f"{shares.min():.2g} times in periods {last + 1} to {last + 13} of 52 (p 0.001)"
    ) in line
    assert named(checks, "season").size == pytest.approx(0.6, abs=0.1)
    # The season raises and lowers the level within a year, but that is no shift.
    assert checks.warned == ("autocorrelation", "season")
    assert other.endswith("What the other warnings say may be why")
    assert "no season was tested" in said(check_history(SEASONAL).unknown)[-1]
    assert {"trend", "season"} <= {*check_history(BOTH, season=52).warned}
    checks = dated([4, 1, 1, 1, 1] * 8, date(2025, 1, 6), "week", season=5)
    assert checks.warned[-1] == "season"
    assert "2.5 times the mean in period 1 of 5" in said(checks.warnings)[0]
    short = said(check_history([1, 2] * 10, season=11).unknown)[-1]
    assert short == "a season is tested from 22 periods on"
    assert named(check_history([1, 2] * 11, season=11), "season")


@pytest.mark.parametrize(
    "season, message",
    [(1, "season: 1 is not from 2 to 65,536"), (2.5, "season: 2.5 ")],
)
def test_no_season(season: Any, message: str) -> None:
    with pytest.raises(Refused, match=message):
        check_history([1, 2] * 10, season=season)


def test_quarters() -> None:
    """Months have the calendar's quarters, weeks that of their Thursday, days from two years on."""
    place = np.arange(2, 38)
    numbers = np.where(place % 12 >= 9, 30, 10) + (place - 2) % 3
    checks = dated(numbers.tolist(), date(2023, 3, 1), "month")
    assert "times the mean from October to December, " in said(checks.warnings)[0]
    (months,) = seasons(36, date(2023, 3, 1), "month")
    (weeks,) = seasons(120, date(2024, 1, 1), "week")
    assert months.part_of[:11].tolist() == [0, 1, 1, 1, 2, 2, 2, 3, 3, 3, 0]
    assert weeks.part_of[[12, 13, 51, 52]].tolist() == [0, 1, 3, 0]
    weekday, season = seasons(800, date(2024, 1, 1), "day")
    assert (weekday.name, weekday.length) == ("weekday", 7)
    assert (season.name, season.length) == ("season", 365)
    assert weekday.part_of[:8].tolist() == [0, 1, 2, 3, 4, 5, 6, 0]
    assert season.part_of[:92].tolist() == [0] * 91 + [1]


def test_weekdays() -> None:
    numbers = [5, 6, 7, 5, 6, 0, 0, 6, 7, 5, 6, 7, 0, 0, 7, 5, 6, 7, 5, 0, 0] * 3
    checks = dated(numbers + numbers[:7], date(2025, 1, 6), "day")
    text = said(checks.warnings)[0]
    assert text.startswith("demand follows the weekdays: 1.4 times the mean on ")
    assert "0 times on Sat" in text and "Take weeks (every=week)" in text
    assert said(checks.unknown)[-1] == "a season is tested from 730 days on"
    assert named(checks, "weekday").p < 0.002
    short, untested = seasons_of("day", period_of(date(2024, 1, 1), "day"), 12, None)
    assert not short and said(untested)[0] == "weekdays are tested from 14 days on"


@pytest.mark.parametrize("length", [2, 7, 8, 10, 30, 53])
def test_parts_of_a_season(length: int) -> None:
    """A season of up to seven periods has as many parts, a longer one four; each has its first and its last place."""
    (season,) = seasons_of(None, 1, 2 * length + 1, length)[0]
    parts = length if length <= 7 else 4
    assert season.parts == parts and season.part_of[-1] == 0
    sizes = np.bincount(season.part_of[:length], minlength=parts)
    assert np.ptp(sizes) <= 1
    ends = np.cumsum(sizes)
    expected = [*zip(ends - sizes + 1, ends)]
    assert [season.ends(part) for part in range(parts)] == expected


@pytest.mark.parametrize(
    "numbers", [[5], [0, 1], [3] * 30, [0] * 30, [3, 4, 9, 1, 5, 2, 6]], ids=str
)
def test_nothing_to_test(numbers: list[int]) -> None:
    """Without order there are no tests; a short history says so."""
    checks = check_history(numbers)
    assert checks.tests == checks.warnings == () and checks.level == 0.05
    assert len(checks.frame) == 0
    few = f"{len(numbers)} periods are too few to test whether they are independent and of one law"
    assert said(checks.unknown) == ([few] if len(numbers) < 8 else [])
    assert check_history([3, 4, 9, 1, 5, 2, 6, 4]).tests


@settings(max_examples=40)
@given(
    numbers=st.lists(
        st.integers(0, 10_000) | st.integers(0, 2), min_size=1, max_size=50
    )
    | st.sampled_from([STEADY, RISING, RAISED, SEASONAL, CHAINED])
    | st.sampled_from([[0] * 40 + [5, 9] * 6, [3, 4] * 20]),
    season=st.sampled_from([None, 4, 52]) | st.integers(2, 30),
)
def test_any_history(numbers: list[int], season: int | None) -> None:
    """Checks are always the same, with p values of 1,200ths. An item of a catalogue has the same warnings and notes."""
    checks = check_history(numbers, season=season)
    assert checks == check_history(iter(numbers), season=season)
    brief = checks_of(numbers, in_full=False, season=season)
    assert (brief.warnings, brief.notes) == (checks.warnings, checks.notes)
    for test in checks.tests:
        assert test.p * 1200 == pytest.approx(round(test.p * 1200)) and 0 < test.p <= 1
    for line in checks.lines:
        assert line.startswith("demand: ") and "nan" not in line
    has_season = season is not None and 2 * season <= len(numbers)
    assert len(checks.tests) in (0, 3 + has_season)


def test_frame() -> None:
    """The table has a row for each test."""
    frame = crn.check_history(SEASONAL, season=52).frame
    assert [*frame.index] == ["autocorrelation", "trend", "shift", "season"]
    assert [*frame["warns"]] == [True, False, False, True]
    assert [*frame.columns] == ["p", "warns", "size", "words"]


@pytest.mark.serial
def test_time() -> None:
    """208 periods take at most 50 ms of processor time, with all orders drawn anew. The best of five runs counts."""
    times = []
    for _ in range(5):
        drawn_orders.cache_clear()
        start = time.process_time()
        check_history(STEADY, season=52)
        times.append(time.process_time() - start)
    assert min(times) <= 0.05


def test_gaps_keep_the_dates_of_periods() -> None:
    """Beside unknown weeks, the largest demand and the last one have their own weeks, and a season has its own parts; it is
    not tested if one of these has no week that is known."""
    counts = [3, 5, 4, 2, 6, 4, 3, 5, 4, 2, 6, 4, 5] * 8
    counts[60] = 40

    def without(unknown: Collection[int]) -> Checks:
        """Returns the checks if the demand of some weeks is not known."""
        places = [place for place in range(104) if place not in unknown]
        numbers = [counts[place] for place in places]
        return checks_of(numbers, "week", 2870, places=places)

    checks = without(range(8, 60, 4))
    assert checks.largest[0].facts["period_1"] == period_name(2870 + 60, "week")
    assert "season" in [test.name for test in checks.tests]
    quarters = seasons_of("week", 2870, 104, None)[0][0].part_of
    gone = np.flatnonzero(quarters == 2).tolist()
    checks = without(gone)
    assert checks.periods == 104 - len(gone)
    assert "season" not in [test.name for test in checks.tests]


def test_a_shift_after_a_gap_has_its_date() -> None:
    """The period since which demand is another is that of the record, also behind unknown ones."""
    counts = [1, 2, 1, 2, 1] * 6 + [9, 8, 9, 8, 9] * 6
    rows = [*counts[:10], *[None] * 7, *counts[10:]]
    (shift,) = [test for test in crn.check_history(rows).tests if test.name == "shift"]
    assert shift.facts["name"] == "period 38"
