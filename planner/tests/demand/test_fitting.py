"""Tests of fitted laws of demand: how a method chooses, caps, mixes, rounds and refuses."""
from __future__ import annotations

import math
import tomllib
from collections import Counter
from pathlib import Path
from typing import Any

import numpy as np
import pandas as pd
import pytest
from hypothesis import given, settings, strategies as st
from scipy import special, stats

from crnplan.chances import in_items
from crnplan.demand import borrowing, fitting, posterior
from crnplan.demand.families import FAMILIES, METHODS, fits_of, predictive_of
from crnplan.demand.fitted import Borrowed, Diagnostics, FittedLaw, fit_words
from crnplan.demand.borrowing import fit_demand
from crnplan.demand.fitting import cap_of, fit_lead, seen_share, share_of
from crnplan.demand.posterior import allowed_laws
from crnplan.demand.sample import Sample, Shares
from crnplan.errors import Refused
from crnplan.law import Law
from crnplan.remarks import Remark
from planner.tests.demand.made import chances_of, check_law

HERE = Path(__file__).parent
RANDOM = np.random.default_rng(2)
POISSON = RANDOM.poisson(4, 80).tolist()
ERRATIC = RANDOM.negative_binomial(1.5, 1 / 3, 104).tolist()
RARE = np.where(RANDOM.random(104) < 0.15, RANDOM.geometric(1 / 8, 104), 0).tolist()
PROJECTS = (
    RANDOM.poisson(3, 104) + 30 * (RANDOM.random(104) < 0.05)
).tolist()  # two humps
TWO_SIZES = [7, 13, 7, 7, 13, 13, 7, 13] * 13  # no family has such a law
HISTORIES = pytest.mark.parametrize(
    "numbers", [POISSON, ERRATIC, RARE], ids=["poisson", "erratic", "rare"]
)


def cases(name: str) -> list[dict[str, Any]]:
    """Returns the cases of a TOML file beside the tests, in which {NAME} stands for one of its texts."""
    text = (HERE / name).read_text("utf-8")
    for key, its in tomllib.loads(text).get("texts", {}).items():
        text = text.replace(f"{{{key}}}", its)
    found: list[dict[str, Any]] = tomllib.loads(text)["case"]
    return found


@given(chances=st.lists(st.floats(0, 1), min_size=1, max_size=300).filter(sum))
def test_weights(chances: list[float]) -> None:
    """Weights add up to 65,536, and no share of the tail is off by more than half a unit."""
    law = Law.of_chances(np.array(chances) / sum(chances))
    check_law(law)
    found = np.cumsum(chances_of(law, len(chances))[::-1])
    wanted = np.cumsum(chances[::-1]) / sum(chances)
    assert 65_536 * found == pytest.approx(65_536 * wanted, abs=0.5001)
    # So the mean, a sum of these shares, is off by at most half a unit for each value.
    mean = np.average(np.arange(len(chances)), weights=chances)
    assert abs(float(law.mean) - mean) <= len(chances) * 0.5001 / 65_536


def test_weights_within_range() -> None:
    chances = np.bincount([3, 10_000, 10_399], [0.5, 0.25, 0.25])
    assert Law.of_chances(chances) == Law((3, 10_000), (32_768, 32_768))


@pytest.mark.parametrize(
    "pack, shares", [(3, [1, 2, 1]), (5_001, [1, 2]), (5_000, [1, 2, 1])]
)
def test_items_in_packs(pack: int, shares: list[int]) -> None:
    """A law of packs is one of items, without those above 10,000."""
    law = in_items(np.array([0.25, 0.5, 0.25]), pack)
    assert np.flatnonzero(law).tolist() == [*range(0, pack * len(shares), pack)]
    assert law[::pack] == pytest.approx(np.array(shares) / sum(shares))


@HISTORIES
@pytest.mark.parametrize("family", FAMILIES)
def test_named_family(family: str, numbers: list[int]) -> None:
    """A named family's law is its predictive law, but for rounding."""
    law = fit_demand(numbers, method=family)
    base = predictive_of(family, Sample.of(numbers))
    assert (law.family, law.table) == (family, Law.of_chances(base))
    assert law.figures.mean == pytest.approx(float(law.mean))
    assert law.diagnostics.bic.keys() == fits_of(Sample.of(numbers)).keys()


def test_the_guard_decides() -> None:
    """The least BIC is taken if its histories look like this one, within 10 units of BIC; else the history."""
    its = fit_demand(PROJECTS).diagnostics
    least = min(its.bic.values())
    near = {name for name, bic in its.bic.items() if bic <= least + 10}
    assert its.guard.keys() == near != its.bic.keys()
    law = fit_demand(ERRATIC, method="predictive")
    best = min(law.diagnostics.bic, key=law.diagnostics.bic.__getitem__)
    assert law.family == best and law.diagnostics.guard[best].passes
    for method in ("predictive", "auto"):
        law = fit_demand(TWO_SIZES, method=method)
        assert law.family == "empirical" and law.table == Law.of_numbers(TWO_SIZES)
        guard = law.diagnostics.guard
        assert guard and not any(it.passes for it in guard.values())
    assert fit_demand(POISSON, method="predictive").family == "poisson"


@HISTORIES
def test_auto(numbers: list[int]) -> None:
    """The law is the mixture of the passing families by BIC, cut at the cap, and of the history if that is likelier."""
    law = fit_demand(numbers)
    its = law.diagnostics
    passing = [name for name, it in its.guard.items() if it.passes]
    likely = special.softmax([-its.bic[name] / 2 for name in passing])
    assert [*its.families] == passing and law.family == passing[0]
    assert [*its.families.values()] == pytest.approx(likely)
    most = max(numbers)
    times = min(max(math.log(300) / math.log(1 + np.count_nonzero(numbers)), 2), 3)
    assert its.cap == math.ceil(times * most)
    base, width = np.zeros(10_001), its.cap + 1
    for name, weight in zip(passing, likely):
        part = predictive_of(name, Sample.of(numbers))
        base[: len(part)] += weight * part
    expected = its.share * base[:width] / base[:width].sum()
    expected += (1 - its.share) * np.bincount(numbers, minlength=width) / len(numbers)
    off = np.cumsum(chances_of(law, width)) - np.cumsum(expected)
    assert np.abs(off).max() <= 1 / 65_536


@settings(max_examples=100, deadline=None)
@given(seed=st.integers(0, 10**6), size=st.integers(20, 80), mean=st.floats(2, 5))
def test_share_of_the_law(seed: int, size: int, mean: float) -> None:
    """The share has the greatest Dirichlet-multinomial likelihood, as the chances of an urn have it."""
    numbers = np.random.default_rng(seed).poisson(3, size)
    base, counts = stats.poisson.pmf(np.arange(30), mean), np.bincount(numbers)
    grid = size * np.logspace(-2, 2, 41)
    rises = special.poch(grid[:, None] * base[: len(counts)], counts)
    values = np.log(rises).sum(axis=1)
    values -= np.log(grid[:, None] + np.arange(size)).sum(axis=1)
    share = share_of(Sample.of(numbers.tolist()), base)
    if values.max() - values[-1] < 0.49:
        assert share == 1
    elif values.max() - values[-1] > 0.51:
        periods = size * share / (1 - share)
        place = np.abs(grid / periods - 1).argmin()
        assert periods == pytest.approx(grid[place], rel=1e-9)
        assert values[place] == pytest.approx(values.max(), abs=1e-6)


def test_share_of_what_was_seen() -> None:
    """The share is the least of a grid whose mixture has a mean of 0.97 and a variance of 0.8 of those seen."""
    grid, values = np.linspace(0, 1, 2001), np.arange(120)
    for seed in range(100):
        random = np.random.default_rng(seed)
        numbers = random.poisson(3, random.integers(6, 60))
        numbers[0] *= random.integers(1, 7)
        law = stats.poisson.pmf(values, random.uniform(0.5, 6))
        seen = np.bincount(numbers, minlength=len(values)) / len(numbers)
        mixed = np.outer(1 - grid, law) + np.outer(grid, seen)
        means = mixed @ values
        variances = mixed @ values**2 - means**2
        kept = means >= 0.97 * numbers.mean()
        kept &= variances >= 0.8 * numbers.var(ddof=1)
        found = seen_share(Sample.of(numbers.tolist()), law)
        assert found == pytest.approx(grid[kept.argmax()], abs=6e-4)


@pytest.mark.parametrize("seed", [27, 83, 135])
def test_promotions_keep_both_moments(
    seed: int, monkeypatch: pytest.MonkeyPatch
) -> None:
    """Weeks with promotions have a mean or a variance that families lose; without them the law would be named."""
    random = np.random.default_rng(seed)
    weeks = np.where(
        random.random(52) < 0.15,
        random.integers(80, 430, 52),
        random.negative_binomial(1, 1 / 31, 52),
    )
    law = fit_demand(weeks)
    assert law.diagnostics.share < 1 and law.lower is None
    assert law.figures.mean >= 0.9699 * weeks.mean()
    assert (law.figures.variance or 0) >= 0.7999 * weeks.var(ddof=1)
    monkeypatch.setattr(fitting, "seen_share", lambda *_: 0.0)
    lower = fit_demand(weeks).lower
    assert lower and lower.facts["seen_mean"] == pytest.approx(weeks.mean())


@pytest.mark.parametrize(
    "demands, cap", [(2, 30), (6, 30), (10, 24), (15, 21), (20, 20), (500, 20)]
)
def test_cap(demands: int, cap: int) -> None:
    """The cap is 3 times the largest demand after few demands, and twice after many."""
    assert cap_of(Sample.of([0] * 40 + [3] * (demands - 1) + [10])) == cap


@pytest.mark.parametrize(
    "numbers, pack",
    [
        ([6, 12, 0, 6, 18], 6),
        ([6, 12, 0, 6], 1),
        ([2, 4] * 4, 2),
        ([2, 4, 2, 4, 2, 4, 2], 1),
        ([40, 80], 1),
        ([40, 80, 40], 40),
        ([6, 12, 6, 18, 9], 1),
        ([3] * 5, 1),
        ([3] * 6, 3),
    ],
)
def test_packs(numbers: list[int], pack: int) -> None:
    """If all demands are packs, and not by luck, so are those of the law."""
    assert fit_demand(numbers).diagnostics.pack == pack


def test_packs_and_bulks() -> None:
    """A law of packs is that of their numbers. Projects beside steady demand are bulks."""
    packs = np.random.default_rng(2).poisson(0.7, 60)
    law, inner = fit_demand(6 * packs), fit_demand(packs)
    assert law.diagnostics.pack == 6 and law.weights == inner.weights
    assert law.values == tuple(6 * it for it in inner.values)
    for pack in (1, 5):
        projects = pack * np.array(PROJECTS)
        law, bulks = fit_demand(projects), projects[projects >= 25 * pack]
        assert law.family == "bulk"
        assert law.diagnostics.bulks == (len(bulks), min(bulks))
        assert law.figures.mean == pytest.approx(projects.mean(), rel=0.1)
    assert fit_demand(PROJECTS, method="predictive").family == "bulk"
    assert fit_demand(TWO_SIZES).diagnostics.bulks is None


@pytest.mark.parametrize(
    "numbers", [[5], [0, 0, 4], [0, 0], [7] * 30, [0, 1] * 20], ids=str
)
@pytest.mark.parametrize("method", ["auto", "predictive"])
def test_histories_that_say_little(numbers: list[int], method: str) -> None:
    """With less than two demands, and if none of the families looks like it, the history stays."""
    law = fit_demand(numbers, method=method)
    assert law == fit_demand(numbers, method="empirical")
    assert law.diagnostics.seen.size == len(numbers)


@settings(max_examples=25, deadline=None)
@given(
    numbers=st.lists(
        st.integers(0, 10_000) | st.integers(0, 40), min_size=1, max_size=40
    ),
    method=st.sampled_from(METHODS[:3]),
    seed=st.integers(0, 1000),
)
def test_any_history(numbers: list[int], method: str, seed: int) -> None:
    """Each history has a law within the range of a scenario, always the same, and allows laws with demand if it has."""
    law = fit_demand(numbers, method=method)
    check_law(law, None)
    assert law == fit_demand(iter(numbers), method=method)
    if method == "auto":
        assert law.values[-1] <= 3 * max(numbers)
    for allowed in allowed_laws(numbers, times=5, seed=seed):
        check_law(allowed)
        assert (allowed.values[-1] > 0) == any(numbers)


def quantiles_of(numbers: Any) -> dict[float, int]:
    shares = (0.95, 0.99, 0.999)
    return dict(zip(shares, np.quantile(numbers, shares, method="inverted_cdf")))


def test_diagnostics() -> None:
    law = fit_demand(ERRATIC)
    drawn, seen = np.repeat(law.values, law.weights), law.diagnostics.history
    assert law.figures.quantiles == quantiles_of(drawn)
    assert law.figures.variance == pytest.approx(np.var(drawn))
    assert seen.quantiles == quantiles_of(ERRATIC)
    wanted = np.mean(ERRATIC), np.var(ERRATIC, ddof=1)
    assert (seen.mean, seen.variance) == pytest.approx(wanted)
    law = fit_demand([0, 0, 2, 6], method="empirical")
    seen = law.diagnostics.history
    assert (seen.mean, seen.variance, seen.most) == (2.0, 8.0, 6)
    assert (law.diagnostics.seen.size, law.figures.variance) == (4, 6)
    assert fit_demand([3], method="empirical").diagnostics.history.variance is None


@pytest.mark.parametrize("case", cases("notes.toml"), ids=lambda it: it["lines"][:1])
def test_notes(case: dict[str, Any]) -> None:
    """It is said how a law was fitted."""
    facts, learned = case.get("facts", {}), case.get("borrowed")
    if "guard" in facts:
        facts["guard"] = {name: Shares(*it) for name, it in facts["guard"].items()}
    if learned:
        box = learned.pop("box", None)
        learned["alone"] = box and Remark("demand in boxes", {"box": box})
        learned["guard"] = "guard" in learned and Shares(*learned["guard"]) or None
        facts["borrowed"] = Borrowed(**learned)
    diagnostics = Diagnostics(Law((0, 2, 6), (2, 1, 1)), case["method"], **facts)
    law = FittedLaw.made(Law((0, 4), (3, 1)), case["family"], diagnostics)
    assert [*fit_words(law)] == case["lines"]


@given(numbers=st.lists(st.integers(0, 120_000), min_size=1), box=st.integers(12, 1000))
def test_empirical_law(numbers: list[int], box: int) -> None:
    """The weight of a number of boxes is how often it was observed, and values rise."""
    law = fit_demand(numbers, method="empirical", box=box)
    expected = Counter(-(-number // box) for number in numbers)
    assert law.table == Law(law.values, law.weights) == Law.of(expected)
    assert (law.box, law.family) == (box, "empirical")


@pytest.mark.parametrize(
    "numbers",
    [
        [1, 2, 2],
        (1.0, 2.0, 2.0),
        np.array([1, 2, 2], np.uint8),
        np.array([1.0, 2, 2]),
        pd.Series([1, 2, 2]),
        iter([1, 2, 2]),
        pd.Series([1, 2, 2], dtype="Int64"),
    ],
    ids=lambda it: f"{type(it).__name__}-{getattr(it, 'dtype', '')}",
)
def test_whole_numbers_of_any_kind(numbers: Any) -> None:
    """Whole numbers of Python, numpy and pandas are taken, and floats that are whole."""
    law = fit_lead(numbers, method="empirical")
    assert law.table == Law((1, 2), (1, 2))
    assert {type(it) for it in law.values} == {int}


@pytest.mark.parametrize("case", cases("refused.toml"), ids=lambda it: it["said"][:60])
def test_refused(case: dict[str, Any]) -> None:
    """Numbers that are not whole, or out of the range of a scenario, and methods, families, boxes and numbers of laws
    that are none, are refused, with the box that is large enough."""
    call = {**vars(borrowing), **vars(fitting), **vars(posterior)}[
        case.get("call", "fit_demand")
    ]
    with pytest.raises(Refused) as refused:
        call(case["numbers"], **case.get("words", {}))
    assert case["said"] in str(refused.value)


def test_what_has_no_text() -> None:
    """A number that is not there, and too many, are refused. The greatest number of boxes is taken."""
    for numbers, said in (
        ([None], "demand: there are 0 numbers"),
        ([1] * 65_537, "65,537 numb"),
    ):
        with pytest.raises(Refused, match=said):
            fit_demand(numbers)
    law = fit_demand([10_001, 3, 70_001, 80_000], method="empirical", box=8)
    assert law.values == (1, 1251, 8751, 10_000)
