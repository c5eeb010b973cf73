"""Tests of the laws that a history allows, against scipy's laws, sums over a grid, and moments of Dirichlet laws."""
from __future__ import annotations

from collections.abc import Sequence

import numpy as np
import pytest
from scipy import special, stats

from crnplan.chances import Floats, mixture
from crnplan.demand import posterior
from crnplan.demand.count_laws import greatest_mean
from crnplan.demand.families import FAMILIES, fits_of, predictive_of
from crnplan.demand.family import UNIFORMS
from crnplan.demand.fitting import fit_lead
from crnplan.demand.posterior import (
    allowed_laws,
    allowed_leads,
    demand_laws,
    members_of,
    round_history,
    stratified,
)
from crnplan.demand.sample import Sample
from crnplan.law import Law
from planner.tests.demand.made import (
    ERRATIC,
    HISTORIES,
    RARE,
    SHORT,
    SINGLE,
    SMOOTH,
    chances_of,
    check_law,
    check_mean,
)


def uniform(times: int, seed: int = 1) -> Floats:
    """Returns columns of uniform numbers, independent of one another, for so many laws."""
    return np.random.default_rng(seed).random((UNIFORMS, times, 1))


def is_of(drawn: Floats, law: object) -> bool:
    """Returns whether draws may be of a law of scipy."""
    return bool(stats.kstest(drawn.ravel(), law.cdf).pvalue > 1e-4)  # type: ignore[attr-defined]


# The families that fit each history; the smooth one varies too little for some.
FITS = [
    pytest.param(family, numbers, id=f"{family}-{max(numbers)}")
    for numbers in (ERRATIC, SMOOTH, RARE, SHORT)
    for family in fits_of(Sample.of(numbers))
]


@pytest.mark.parametrize(("family", "numbers"), FITS)
def test_mean_of_drawn_laws(family: str, numbers: Sequence[int]) -> None:
    """It is the posterior predictive law, within the error of the draws."""
    sample, its = Sample.of(numbers), FAMILIES[family]
    laws = its.chances(np.arange(100), *its.drawn(sample, uniform(3000), 1.0))
    check_mean(laws, predictive_of(family, sample), 1e-4)


@HISTORIES
def test_members_and_allowed_laws(numbers: Sequence[int]) -> None:
    """Members' laws are scaled. Weights add up, the same seed gives the same laws, and each ends within its range."""
    sample, its = Sample.of(numbers), FAMILIES["hurdle-lognormal"]
    parameters = its.drawn(sample, uniform(20), 1.0)
    laws = its.laws(parameters, max(numbers))
    more = its.chances(np.arange(laws.shape[1]), *parameters)
    assert laws.sum(axis=1) == pytest.approx(1)
    assert np.allclose(laws, more, rtol=1e-3)
    found = allowed_laws(numbers, times=200)
    assert found == allowed_laws(numbers, times=200)
    assert found != allowed_laws(numbers, times=200, seed=2)
    assert len(found) == 200
    for law in found:
        check_law(law)
        assert law.values[-1] <= posterior.end_of(sample) * max(numbers)
    mean = np.mean([float(law.mean) for law in found])
    assert mean == pytest.approx(np.mean(numbers), rel=0.25)


@pytest.mark.parametrize(
    "family", sorted(FAMILIES.keys() - {"bulk"})
)  # Twice the numbers have other bulks.
def test_coarsened_posterior(family: str) -> None:
    """If each number counts half, the posterior of a history is that of its half."""
    half, whole, its = Sample.of(ERRATIC), Sample.of(ERRATIC * 2), FAMILIES[family]
    found, expected = its.drawn(whole, uniform(200), 0.5), its.drawn(
        half, uniform(200), 1
    )
    # The greatest mean and the unbiased deviation are of all numbers.
    for one, other in zip(found, expected):
        ratio = np.median(one / np.maximum(other, 1e-300))
        assert ratio == pytest.approx(1, rel=0.05)
        assert one.std() == pytest.approx(other.std(), rel=0.15)


@HISTORIES
def test_drawn_parameters(numbers: Sequence[int]) -> None:
    """They have the gamma, beta and t laws of scipy."""
    sample, demands = Sample.of(numbers), np.array([it for it in numbers if it])
    seen, zeros = len(demands), len(numbers) - len(demands)
    (mean,) = FAMILIES["poisson"].drawn(sample, uniform(2000), 1.0)
    assert is_of(mean, stats.gamma(sum(numbers) + 0.5, scale=1 / len(numbers)))
    share, chance = FAMILIES["hurdle-geometric"].drawn(sample, uniform(2000), 1.0)
    assert is_of(chance, stats.beta(seen + 1, demands.sum() - seen + 1))
    if zeros:
        assert is_of(share, stats.beta(zeros + 0.5, seen + 0.5))
    else:
        assert not share.any()
    _, mean, deviation = FAMILIES["hurdle-lognormal"].drawn(sample, uniform(2000), 1.0)
    logarithms = np.log(demands)
    far = np.sqrt(seen) * (mean - logarithms.mean()) / deviation
    assert is_of(far, stats.norm())
    squares = (seen - 1) * logarithms.var(ddof=1) / deviation**2
    if (deviation < 2).all():
        assert is_of(squares, stats.chi2(seen - 1))


def test_drawn_negative_binomial() -> None:
    """Means have the posterior law that sums over a fine grid of mean and size give, flat in both logarithms."""
    sample = Sample.of(ERRATIC)
    means = np.geomspace(sample.mean / 30, greatest_mean(sample), 800)
    sizes = np.geomspace(sample.mean / 50, sample.mean / 0.02, 100)
    law = stats.nbinom(sizes, sizes / (sizes + means[:, None]))
    logarithms = sum(law.logpmf(value) for value in ERRATIC)
    below = np.cumsum(np.exp(logarithms).sum(axis=1))
    size, rest = FAMILIES["negative-binomial"].drawn(sample, uniform(4000), 1.0)
    drawn = size * rest / (1 - rest)
    shares = np.array([0.05, 0.25, 0.5, 0.75, 0.95])
    places = np.searchsorted(below / below[-1], shares)
    error = np.sqrt(shares * (1 - shares) / 4000)
    found = (drawn <= means[places]).mean(axis=0)
    assert (np.abs(found - shares) <= 5 * error + 2e-3).all()
    assert drawn.max() <= greatest_mean(sample) * (1 + 1e-9)


@pytest.mark.parametrize("share", [0.0, 0.3, 0.8])
def test_round_history(share: float) -> None:
    """A share of a Dirichlet law has the mean and the variance of a beta law."""
    sample, base = Sample.of(ERRATIC), stats.poisson.pmf(np.arange(40), 5)
    random, drawn = np.random.default_rng(1), np.zeros(4000)
    for at in range(4000):
        drawn[at] = round_history(base, sample, share, random)[5:40].sum()
    mean = share * base[5:].sum() + (1 - share) * np.mean(np.array(ERRATIC) >= 5)
    counted = len(ERRATIC) / (1 - share)
    assert is_of(drawn, stats.beta(mean * counted, (1 - mean) * counted))
    assert round_history(base, sample, 1.0, random) is base


def test_history_alone() -> None:
    """Without a family, what was seen has Dirichlet weights. Two sizes in turn stay two. Packs are as in a fit."""
    found = allowed_laws(SINGLE, times=2000)
    assert len(found) == 2000 and {*found[0].values} == {0, 7}
    drawn = np.array([it.chances.get(7, 0) for it in found])
    assert is_of(drawn, stats.beta(posterior.COUNTED, 4 * posterior.COUNTED))
    between = []
    for law in allowed_laws([3, 40] * 40):
        between.append(chances_of(law, 41)[9:35].sum())
    assert np.median(between) < 0.05
    for law in allowed_laws([6 * it for it in ERRATIC], times=20):
        assert not np.mod(law.values, 6).any()
    boxes = allowed_laws([4 * it - (it > 0) for it in ERRATIC], times=20, box=4)
    assert boxes == allowed_laws(ERRATIC, times=20)


def test_concentrations(monkeypatch: pytest.MonkeyPatch) -> None:
    """They have the marginal likelihoods of Dirichlet processes round Poisson laws, by sums over a grid of means."""
    monkeypatch.setattr(posterior, "COUNTED", 1.0)
    monkeypatch.setattr(posterior, "MEMBERS", 4000)
    sample, means = Sample.of(ERRATIC), np.linspace(0.5, 12, 400)
    fit = fits_of(sample)["poisson"]
    found = members_of(fit, sample, np.random.default_rng(1)).likely
    chances, expected = stats.poisson.pmf(sample.values, means[:, None]), []
    for periods in len(ERRATIC) * posterior.CONCENTRATIONS:
        # Of a Dirichlet-multinomial law (scipy's has no density for sums of weights below 1), and Jeffreys's prior.
        risen = special.poch(periods * chances, sample.counts).prod(axis=1)
        divisor = special.poch(periods, len(ERRATIC))
        expected.append((risen / divisor / np.sqrt(means)).sum())
    wanted = np.array(expected) / sum(expected)
    assert special.softmax(found) == pytest.approx(wanted, rel=0.1, abs=1e-3)


def test_families_without_a_doubt(monkeypatch: pytest.MonkeyPatch) -> None:
    """If laws are those of families, and no end is drawn, their mean is that of the predictive laws by BIC."""
    for name, value in {
        "COUNTED": 1.0,
        "PROPOSED": 1.0,
        "MEMBERS": 2000,
        "CONCENTRATIONS": np.array([1e9]),
        "SHARES": [1.0],
        "DEMANDS_OF_END": 1e30,
        "LEAST_END": 1e4,
    }.items():
        monkeypatch.setattr(posterior, name, value)
    sample = Sample.of(RARE)
    laws = demand_laws(sample, 2000, np.random.default_rng(2))
    fits = fits_of(sample)
    more = np.array([fit.bic for fit in fits.values()])
    more -= more.min()
    weights = dict(zip(fits, special.softmax(np.where(more <= 10, -more / 2, -np.inf))))
    mixed = mixture(
        (share, predictive_of(name, sample)) for name, share in weights.items()
    )
    padded = [np.pad(law, (0, 60))[:60] for law in laws]
    check_mean(np.array(padded), mixed, 3e-3)


def test_ends_and_strata() -> None:
    """Laws end at the largest of 30,000 demands, or before. One number stays. Each stratum has one number of a row."""
    for demands, times in ((2, 9.4), (12, 4.0), (172, 2.0), (5000, 1.5)):
        end = posterior.end_of(Sample.of([0] * 3 + [4] * demands))
        assert end == pytest.approx(times, abs=0.05)
    assert {*allowed_leads([3], times=4)} == {Law((3,), (65_536,))}
    rare = posterior.law_of_chances(np.array([1.0, 1e-9]), 7)
    assert rare == Law((0, 7), (65_535, 1))
    assert posterior.law_of_chances(np.array([1.0]), 0) == Law((0,), (65_536,))
    rows = stratified(np.random.default_rng(1), 3, 50)
    assert (np.sort(np.floor(50 * rows)) == np.arange(50)).all()
    assert len({*rows[:, 0]}) == 3 and len({*np.floor(50 * rows[:, 0])}) > 1
    assert (np.abs(np.corrcoef(rows) - np.eye(3)) < 4 / np.sqrt(50)).all()


@pytest.mark.parametrize(
    "numbers", [[2, 3, 2, 4], [5] * 7, [1, 1, 32, 31, 9] * 5], ids=str
)
def test_allowed_leads(numbers: list[int]) -> None:
    """Their mean is the fitted law, and a share of what was seen varies as in a Dirichlet law."""
    found, is_many = allowed_leads(numbers, times=1000), len(numbers) >= 20
    drawn = np.array([chances_of(it, 33) for it in found])
    check_mean(drawn, chances_of(fit_lead(numbers), 33), 1 / 65_536)
    assert found == allowed_leads(numbers, times=1000)
    assert found != allowed_leads(numbers, times=1000, seed=3)
    if is_many:
        assert is_of(drawn[:, 9], stats.beta(5, 20))
