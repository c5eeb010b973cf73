"""Tests of the families of laws: fits and predictive laws, against scipy, integrals and closed forms."""
from __future__ import annotations

import math
from collections.abc import Sequence
from typing import Any

import numpy as np
import pytest
from hypothesis import example, given, settings, strategies as st
from scipy import integrate, optimize, special, stats

from crnplan.chances import DEMANDS, Floats, scaled
from crnplan.demand import families
from crnplan.demand.count_laws import beta_negative_binomial, greatest_mean
from crnplan.demand.families import cells_of, fits_of, parts_of, predictive_of
from crnplan.demand.borrowing import fit_demand
from crnplan.demand.posterior import allowed_laws
from crnplan.demand.sample import Sample
from planner.tests.demand.made import BULKY, HISTORIES

EACH_FAMILY = pytest.mark.parametrize("name", families.FAMILIES)


def negative_binomial(size: Any, mean: Any) -> Any:
    return stats.nbinom(size, size / (size + mean))


def posterior_share(numbers: Sequence[int]) -> float:
    """Returns the chance of a demand by a hurdle with Jeffreys's prior, if there were periods without one."""
    zeros = numbers.count(0)
    return 1 - (zeros + 0.5) / (len(numbers) + 1) if zeros else 1.0


def test_adding_a_family(monkeypatch: pytest.MonkeyPatch) -> None:
    """A line in the registry is enough: the family is fitted, chosen and drawn, with its closed forms.

    Of geometric numbers, none is likelier than the geometric family. By its flat prior of p, the law of the next number
    has the chance (n + 1) / (n + total + 2) of a 0.
    """
    numbers = (np.random.default_rng(3).geometric(0.3, 60) - 1).tolist()
    assert "geometric" not in fit_demand(numbers).diagnostics.families
    others = allowed_laws(numbers, times=50)
    monkeypatch.setitem(families.FAMILIES, "geometric", families.Geometric())
    law = fit_demand(numbers, method="geometric")
    assert law.family == "geometric"
    assert law.weights[0] / 65_536 == pytest.approx(61 / (62 + sum(numbers)), abs=1e-5)
    assert fit_demand(numbers).family == "geometric"
    drawn = allowed_laws(numbers, times=50)
    assert len({*drawn} - {*others}) > 10


@EACH_FAMILY
def test_no_demand_above_the_range(name: str) -> None:
    """The next demand by a family is at most 10,000, the greatest of a scenario, also after such demands."""
    assert len(predictive_of(name, Sample.of([0, 1, 5_000, 10_000] * 5))) <= 10_001


def test_demand_in_two_of_the_most_periods() -> None:
    """The size of a negative binomial law is then far below 1, and none beside it is likelier."""
    sample, mean = Sample.of([0] * 65_534 + [2, 2]), 4 / 65_536
    found = families.FAMILIES["negative-binomial"].likeliest(sample)
    assert found
    size, rest = found
    law = negative_binomial(size * np.array([0.9, 1, 1.1]), mean)
    less, own, more = 65_534 * law.logpmf(0) + 2 * law.logpmf(2)
    assert 0 < size < 1e-4 and size * rest / (1 - rest) == pytest.approx(mean)
    assert own > max(less, more)


def geometric(mean: float) -> Any:
    return stats.geom(1 / (1 + mean), -1)


def most(data: Floats, law: Any, *start: float) -> float:
    """Returns the greatest likelihood of a law over the logarithms of its parameters."""
    found = optimize.minimize(
        lambda it: -law(*np.exp(it)).logpmf(data).sum(),
        np.log(start),
        method="Nelder-Mead",
        options={"xatol": 1e-8, "fatol": 1e-10, "maxiter": 4000},
    )
    return -float(found.fun)


@HISTORIES
def test_fits_are_the_most_likely(numbers: Sequence[int]) -> None:
    """Likelihoods are as great as a general search finds. BIC counts parameters, and the least comes first."""
    fits, data, hurdle = fits_of(Sample.of(numbers)), np.array(numbers), 0 in numbers
    sizes, share = data[data > 0] - 1, np.mean(data == 0)
    zeros = len(data) * -stats.entropy([share, 1 - share])

    # How many parameters there are, and the likelihood.
    expected = {
        "poisson": (1, most(data, stats.poisson, 1)),
        "hurdle-geometric": (1 + hurdle, zeros + most(sizes, geometric, 1)),
        "hurdle-poisson": (1 + hurdle, zeros + most(sizes, stats.poisson, 1)),
        "hurdle-lognormal": (2 + hurdle, fits["hurdle-lognormal"].log_likelihood),
    }
    for name, its, base in (("", data, 0), ("hurdle-", sizes, zeros)):
        is_spread = np.var(its) > np.mean(its)
        assert (f"{name}negative-binomial" in fits) == is_spread
        if is_spread:
            likelihood = base + most(its, negative_binomial, 1, 2)
            count = 2 + (hurdle and name != "")
            expected[f"{name}negative-binomial"] = count, likelihood
    if parts := parts_of(Sample.of(numbers)):
        order = [*fits_of(parts.ordinary), "poisson", "negative-binomial"]
        is_spread = order.index("poisson") > order.index("negative-binomial")
        expected["bulk"] = 4 + is_spread, fits["bulk"].log_likelihood
    assert expected.keys() == fits.keys()
    for name, fit in fits.items():
        count, likelihood = expected[name]
        assert fit.log_likelihood == pytest.approx(likelihood, abs=1e-6)
        bic = count * math.log(len(numbers)) - 2 * fit.log_likelihood
        assert fit.bic == pytest.approx(bic)
    values = [fit.bic for fit in fits.values()]
    assert values == sorted(values)


@HISTORIES
def test_lognormal_sizes(numbers: Sequence[int]) -> None:
    """A fit has scipy's chances of the rounded sizes. The logarithm of the next size has Student's law."""
    data, ends = np.array(numbers), np.arange(1, 41) + 0.5
    logarithms = np.log(data[data > 0])
    count, mean, deviation = len(logarithms), logarithms.mean(), logarithms.std(ddof=1)
    law = stats.lognorm(deviation, scale=math.exp(mean))
    share = np.mean(data == 0)
    chances = np.diff([0, share, *share + (1 - share) * law.cdf(ends)])
    fit = fits_of(Sample.of(numbers))["hurdle-lognormal"]
    assert fit.law(max(numbers))[1:21] == pytest.approx(chances[1:21], rel=2e-7)
    assert fit.log_likelihood == pytest.approx(np.log(chances[data]).sum())
    student = stats.t(count - 1, mean, deviation * math.sqrt(1 + 1 / count))
    below = posterior_share(numbers) * student.cdf(np.log(ends[:20]))
    found = np.cumsum(predictive_of("hurdle-lognormal", Sample.of(numbers))[1:21])
    assert found == pytest.approx(below, abs=0.0015)


@HISTORIES
def test_predictive_poisson_and_geometric(numbers: Sequence[int]) -> None:
    """Predictive laws are integrals of scipy's laws over the posterior of their parameter."""
    data, some = np.array(numbers), posterior_share(numbers)
    sizes = data[data > 0] - 1
    mean = stats.gamma(data.sum() + 0.5, scale=1 / len(data))
    size = stats.gamma(sizes.sum() + 0.5, scale=1 / len(sizes))
    chance = stats.beta(len(sizes) + 1, sizes.sum() + 1)
    for name, share, law, less, posterior, most in (
        ("poisson", 1, stats.poisson, 0, mean, 60),
        ("hurdle-geometric", some, stats.geom, 0, chance, 1),
        ("hurdle-poisson", some, stats.poisson, 1, size, 60),
    ):
        found = predictive_of(name, Sample.of(numbers))
        # Gauss and Legendre, on 400 points.
        points, weights = special.roots_legendre(400)
        points = most / 2 * (1 + points)
        densities = most / 2 * weights * posterior.pdf(points)
        for value in (1, 2, 5, 11):
            wanted = share * densities @ law.pmf(value - less, points)
            assert found[value] == pytest.approx(wanted, rel=1e-5)


@HISTORIES
def test_predictive_negative_binomial(numbers: Sequence[int]) -> None:
    """The law is the sum over a fine grid of mean and size, flat in both logarithms."""
    sample, mean = Sample.of(numbers), np.mean(numbers)
    most = math.log(greatest_mean(sample))
    means = np.exp(np.linspace(most - 14, most, 400))[:, None]
    sizes = np.geomspace(mean / 50, mean / 0.02, 150)
    laws = negative_binomial(sizes, means).pmf(np.arange(31)[:, None, None])
    likelihood = np.prod(laws[numbers], axis=0)
    likelihood[[0, -1]] /= 2  # the trapezoidal rule
    likelihood[:, [0, -1]] /= 2
    expected = (likelihood * laws).sum(axis=(1, 2)) / likelihood.sum()
    found = predictive_of("negative-binomial", sample)[:31]
    assert found == pytest.approx(expected, rel=0.005)


def split(numbers: Sequence[int], least: int) -> tuple[Floats, Floats]:
    """Returns the numbers below a least one, and the others."""
    data = np.array(numbers)
    return data[data < least], data[data >= least]


def bulk_figures(bulks: Floats) -> tuple[int, float, float]:
    """Returns how many bulks there are, their mean and the sum of squares, with two of the prior's."""
    mean, count = np.mean(bulks), len(bulks)
    return count, float(mean), float(count * np.var(bulks) + 2 * (mean / 4) ** 2)


@settings(max_examples=60, deadline=None)
@given(
    numbers=st.lists(st.integers(0, 3) | st.integers(0, 30), min_size=4, max_size=40)
)
@example(numbers=BULKY)
def test_parts(numbers: list[int]) -> None:
    """The split has the greatest likelihood of scipy's laws, of all with ordinary demand and not too many bulks."""

    def likelihood(least: int) -> float:
        """Returns the likelihood's logarithm, if bulks are the numbers from a least one on."""
        ordinary, bulks = split(numbers, least)
        mean, variance = np.mean(ordinary), np.var(ordinary)
        law = stats.poisson(mean)
        if variance > mean * (1 + mean / 1e4):
            law = negative_binomial(mean**2 / (variance - mean), mean)
        count, middle, squares = bulk_figures(bulks)
        shares = -stats.entropy([len(ordinary), count]) * len(numbers)
        normal = stats.norm(middle, math.sqrt(squares / (count + 2)))
        return float(law.logpmf(ordinary).sum() + normal.logpdf(bulks).sum() + shares)

    likelihoods = {}
    for least in {*numbers}:
        ordinary, bulks = split(numbers, least)
        if len(bulks) <= len(numbers) / 2 and ordinary.any():
            likelihoods[least] = likelihood(least)
    parts = parts_of(Sample.of(numbers))
    assert (parts is None) == (not likelihoods)
    if parts:
        least, most = parts[1].values[0], max(likelihoods.values())
        assert likelihoods[least] == pytest.approx(most, abs=0.05)
        for part, its in zip(parts, split(numbers, least)):
            assert np.repeat(part.values, part.counts).tolist() == sorted(its)


def test_bulk() -> None:
    """Ordinary demand is mixed with scipy's normal law of bulks, whose predictive law is summed over the variance."""
    ordinary, bulks = split(BULKY, 10)
    fits = fits_of(Sample.of(BULKY))
    assert [*fits][0] == "bulk"
    assert [*parts_of(Sample.of(BULKY))[1].values] == sorted(bulks)
    count, mean, squares = bulk_figures(bulks)
    normal = stats.norm(mean, math.sqrt(squares / (count + 2)))
    sizes = np.diff(normal.cdf(np.arange(41) + 0.5), prepend=0.0)
    sizes[:2] = 0, sizes[:2].sum()
    share, often = count / len(BULKY), stats.poisson(np.mean(ordinary))
    law, fit = share * sizes + (1 - share) * often.pmf(range(41)), fits["bulk"]
    assert fit.law(max(BULKY))[:31] == pytest.approx(law[:31])
    assert fit.log_likelihood == pytest.approx(np.log(law[BULKY]).sum())
    assert fit.bic == pytest.approx(4 * math.log(len(BULKY)) - 2 * fit.log_likelihood)
    # No ordinary demand, no bulk, too many bulks.
    for few in ([0, 0, 5, 5], [4] * 8, [0, 2, 9, 9, 9]):
        assert "bulk" not in fits_of(Sample.of(few))
    variance = stats.invgamma((count + 1) / 2, scale=squares / 2)
    share = count / (len(BULKY) + 1)
    found = np.cumsum(predictive_of("bulk", Sample.of(BULKY)))
    base = np.cumsum(predictive_of("poisson", Sample.of(ordinary.tolist())))
    for value in (1, 9, 12, 20, 30):
        far = (value + 0.5 - mean) / math.sqrt(1 + 1 / count)
        below = variance.expect(lambda it: stats.norm.cdf(far / np.sqrt(it)))
        wanted = share * below + (1 - share) * base[min(value, len(base) - 1)]
        assert found[value] == pytest.approx(wanted, abs=1e-5)


@EACH_FAMILY
@pytest.mark.parametrize(
    "numbers, width, most",
    [
        (BULKY, 40, 10_000),
        (BULKY, 20, 200),
        ([0] * 40 + [1, 2, 8], 25, 10_000),
        ([0, 0, 3, 900, 40, 0, 9], 2_000, 10_000),
        ([0, 1, 90, 30, 0, 0, 12], 101, 100),
    ],
    ids=["light", "packs", "rare", "heavy", "all"],
)
def test_cells(name: str, numbers: list[int], width: int, most: int) -> None:
    """The last cell has the chance of all its numbers, as a law with a cell for each of them says."""
    sample, family = Sample.of(numbers), families.FAMILIES[name]
    if name in fits_of(sample):
        law = scaled(family.predictive(sample, DEMANDS[: most + 1]))
        expected = np.add.reduceat(law, np.arange(min(width, most) + 1))
        found = scaled(family.predictive(sample, cells_of(width, most)))
        assert found == pytest.approx(expected, rel=1e-7, abs=1e-12)


@settings(max_examples=10, deadline=None)
@given(
    numbers=st.lists(st.integers(0, 400), min_size=2, max_size=60).filter(
        lambda it: np.count_nonzero(it) > 1
    )
)
def test_any_history(numbers: list[int]) -> None:
    """Whatever the history, all laws of its families are laws, and the chance of no demand is that of the hurdle."""
    sample = Sample.of(numbers)
    figures = len(numbers), sum(numbers), max(numbers)
    assert (sample.size, sample.total, sample.most) == figures
    assert sample.variance == pytest.approx(np.var(numbers, ddof=1))
    for name, fit in fits_of(sample).items():
        law = predictive_of(name, sample)
        assert len(law) <= len(DEMANDS)
        for its in (law, fit.law(max(numbers))):
            assert (its >= 0).all() and its.sum() == pytest.approx(1)
        if name.startswith("hurdle"):
            assert law[0] == pytest.approx(1 - posterior_share(numbers), abs=1e-6)


@pytest.mark.parametrize(
    "size, periods, total, most_mean",
    [
        (0.05, 30, 12, 3.0),
        (2.5, 104, 300, 4.1),
        (900.0, 52, 5_000, 120.0),
        (0.15, 14, 92, 40.0),
    ],
)
def test_beta_negative_binomial(
    size: float, periods: int, total: int, most_mean: float
) -> None:
    """Each chance is an integral of negative binomial chances over p, up to the bound."""
    sizes, law = np.array([[size]]), stats.beta(periods * size, total)
    words = sizes, periods * sizes, total, most_mean, np.arange(61)
    (chances,) = beta_negative_binomial(*words)
    least = size / (size + most_mean)
    places = least, min(max(float(law.mean()), least), 1.0), 1
    for value in (0, 1, 7, 60):

        def density(p: float) -> float:
            return law.pdf(p) * stats.nbinom.pmf(value, size, p)

        low, high = (
            integrate.quad(density, *ends, limit=400)[0]
            for ends in zip(places, places[1:])
        )
        assert chances[value] == pytest.approx(low + high, rel=1e-6, abs=1e-12)
