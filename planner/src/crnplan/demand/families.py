"""The families of laws of demand. A family is a class with its fit, its predictive law and draws of its members.

A law is an array of chances: those of 0, 1, 2 and so on. All figures are rounded and unproved. The priors are weak
(Gelman and others, Bayesian Data Analysis, third edition, sections 2.4 to 3.3):

- Jeffreys's for a Poisson mean and for the share of periods without demand; flat for the p of a geometric law;
- flat in the logarithms of mean and size for a negative binomial law;
- flat in the mean and in the logarithm of the deviation for lognormal sizes;
- flat in the logarithm of the share of bulks, which may have any order of magnitude, and in their mean; their variance
  has a scaled inverse chi-square law.

A predictive law has cells of numbers, of which the last may hold many: `ends` has the last number of each, which are 0, 1,
2 and so on, and that of the last cell. The number is at most that.

A new family is a class with its name, and an instance in `FAMILIES`; docs/GUIDE.md says what it is for.
"""
from __future__ import annotations

import math
from collections.abc import Callable, Mapping
from dataclasses import dataclass
from typing import Any, NamedTuple

import numpy as np
from scipy import special

from ..chances import DEMANDS, Floats, Whole, cut, scaled
from . import EMPIRICAL, LEAST_DEMANDS
from .count_laws import MOST_SIZE, NEGATIVE_BINOMIAL, POISSON, Geometric, ways
from .family import LEAST_CHANCE, Family, Fit, Parameters
from .sample import Sample

WORSE = 10.0  # in BIC: families further behind the best are not looked at


# Lognormal sizes.
LEAST_DEVIATION = 0.01
DEVIATIONS = 50  # over which the posterior is summed
MOST_DEVIATION = 2.0  # of the logarithm of a size: beyond, a size varies by more than a factor of 50 both ways

# Bulks. Beforehand, the deviation of a bulk is about a quarter of its mean, as two more bulks would say.
MOST_BULKS = 0.5  # the largest share of bulks
BULK_VARIATION, BULK_FREEDOM = 0.25, 2.0


@dataclass(frozen=True)
class Hurdle(Family):
    """A period has demand with one chance, and the size of a demand less 1 has a law of the family `sizes` (Mullahy,
    Specification and testing of some modified count data models, 1986, section 2). The first parameter is the share of
    periods without demand."""

    sizes: Family

    @property
    def name(self) -> str:
        return f"hurdle-{self.sizes.name}"

    def likeliest(self, sample: Sample) -> Parameters | None:
        member = self.sizes.likeliest(sample.excess)
        return None if member is None else (sample.zeros / sample.size, *member)

    def predictive(self, sample: Sample, ends: Whole) -> Floats:
        """Returns the predictive law. If each period had demand, none is taken to have none."""
        share = (sample.zeros + 0.5) / (sample.size + 1) if sample.zeros else 0.0
        above = scaled(self.sizes.predictive(sample.excess, ends[1:] - 1))
        return np.concatenate([[share], (1 - share) * above])

    def drawn(
        self, sample: Sample, uniform: Floats, counted: float = 1.0
    ) -> Parameters:
        """Draws the share, whose posterior is a beta law, and the parameters of sizes."""
        zeros = counted * sample.zeros
        demands = counted * (sample.size - sample.zeros)
        share = (
            special.betaincinv(zeros + 0.5, demands + 0.5, uniform[-1])
            if zeros
            else np.zeros_like(uniform[-1])
        )
        return share, *self.sizes.drawn(sample.excess, uniform[:-1], counted)

    def logarithms(self, values: Whole, *parameters: Any) -> Floats:
        share, *rest = parameters
        above = special.log1p(-share) + self.sizes.logarithms(
            np.maximum(values - 1, 0), *rest
        )
        return np.where(values == 0, special.xlogy(1, share), above)


class Lognormal(Family):
    """Rounded lognormal sizes, less 1, as samples are; what is below 1.5 counts as 1. The parameters are mean and
    deviation of a size's logarithm."""

    name = "lognormal"

    def likeliest(self, sample: Sample) -> Parameters | None:
        """Returns the member with the moments of the logarithms. None if these hardly vary."""
        mean, deviation = self._moments(sample)
        return None if deviation < LEAST_DEVIATION else (mean, deviation)

    def predictive(self, sample: Sample, ends: Whole) -> Floats:
        """Returns the predictive law: the logarithm has Student's law, but for the bound of the deviation."""
        mean, deviations = self._drawn_moments(
            sample, (np.arange(DEVIATIONS)[:, None] + 0.5) / DEVIATIONS, 1.0
        )
        deviations *= math.sqrt(1 + 1 / sample.size)
        below = special.ndtr((np.log(ends + 1.5) - mean) / deviations).mean(axis=0)
        return np.diff(below, prepend=0.0)

    def drawn(
        self, sample: Sample, uniform: Floats, counted: float = 1.0
    ) -> Parameters:
        mean, deviations = self._drawn_moments(sample, uniform[0], counted)
        return (
            mean
            + deviations / math.sqrt(counted * sample.size) * special.ndtri(uniform[1]),
            deviations,
        )

    def chances(self, values: Whole, *parameters: Any) -> Floats:
        mean, deviation = parameters
        return rounded(
            values + 1, lambda sizes: special.ndtr((np.log(sizes) - mean) / deviation)
        )

    @staticmethod
    def _moments(sample: Sample) -> tuple[float, float]:
        """Returns the mean and the unbiased deviation of the logarithms of sizes."""
        logarithms = np.log(sample.values + 1)
        mean = float(logarithms @ sample.counts) / sample.size
        return mean, math.sqrt(
            float(sample.counts @ (logarithms - mean) ** 2) / max(sample.size - 1, 1)
        )

    def _drawn_moments(
        self, sample: Sample, uniform: Floats, counted: float
    ) -> tuple[float, Floats]:
        """Returns the mean of the logarithms, and deviations by uniform numbers: from a chi-square law, and at most 2,
        since with few degrees of freedom the tails of Student's law have no mean."""
        mean, deviation = self._moments(sample)
        freedom = max(counted * sample.size - 1, 1.0)
        squares = 2 * special.gammaincinv(freedom / 2, uniform)
        return mean, np.minimum(deviation * np.sqrt(freedom / squares), MOST_DEVIATION)


def rounded(sizes: Whole, below: Callable[[Floats], Any]) -> Floats:
    """Returns the chances of rounded sizes from 1 on, whose distribution function is `below`. What is below 1.5 counts
    as 1."""
    return np.asarray(below(sizes + 0.5) - np.where(sizes > 1, below(sizes - 0.5), 0.0))


class Parts(NamedTuple):
    """A sample in two parts: ordinary numbers, with their fit, and bulks, which are larger."""

    ordinary: Sample
    bulks: Sample
    fit: Fit

    def squares(self, counted: float = 1.0) -> float:
        """Returns the sum of the squared distances of bulks from their mean, with that of the prior."""
        prior = BULK_FREEDOM * (BULK_VARIATION * self.bulks.mean) ** 2
        return counted * self.bulks.squares + prior


class Bulk(Family):
    """Ordinary demand, which is Poisson or negative binomial, and in some periods a much larger normal bulk instead.
    The parameters are the share of bulks, their mean and deviation, and the parameters of ordinary demand.
    """

    name = "bulk"

    def likeliest(self, sample: Sample) -> Parameters | None:
        """Fits both parts, each for itself. None if there are no two parts."""
        parts = parts_of(sample)
        if parts is None:
            return None
        bulks = parts.bulks
        deviation = math.sqrt(parts.squares() / (bulks.size + BULK_FREEDOM))
        return bulks.size / sample.size, bulks.mean, deviation, *parts.fit.member

    def predictive(self, sample: Sample, ends: Whole) -> Floats:
        """Returns the predictive law of ordinary demand and of bulks, whose size has Student's law."""
        parts = parts_of(sample)
        assert parts is not None
        bulks = parts.bulks
        freedom = parts.bulks.size - 1 + BULK_FREEDOM
        deviation = math.sqrt(parts.squares() / freedom * (1 + 1 / bulks.size))
        share = bulks.size / (sample.size + 1)
        below = special.stdtr(freedom, (ends[1:] + 0.5 - bulks.mean) / deviation)
        sizes = np.append(0.0, np.diff(below, prepend=0.0))
        return share * sizes + (1 - share) * scaled(
            parts.fit.family.predictive(parts.ordinary, ends)
        )

    def drawn(
        self, sample: Sample, uniform: Floats, counted: float = 1.0
    ) -> Parameters:
        parts = parts_of(sample)
        assert parts is not None
        bulks = counted * parts.bulks.size
        share = special.betaincinv(
            bulks, counted * parts.ordinary.size + 1, uniform[-1]
        )
        freedom = bulks - 1 + BULK_FREEDOM
        deviation = np.sqrt(
            parts.squares(counted) / (2 * special.gammaincinv(freedom / 2, uniform[-2]))
        )
        mean = parts.bulks.mean + deviation / math.sqrt(bulks) * special.ndtri(
            uniform[-3]
        )
        return (
            share,
            mean,
            deviation,
            *parts.fit.family.drawn(parts.ordinary, uniform[:-3], counted),
        )

    def chances(self, values: Whole, *parameters: Any) -> Floats:
        share, mean, deviation, *rest = parameters
        sizes = rounded(values, lambda sizes: special.ndtr((sizes - mean) / deviation))
        ordinary = (POISSON if len(rest) == 1 else NEGATIVE_BINOMIAL).chances(
            values, *rest
        )
        return np.asarray(
            share * np.where(values > 0, sizes, 0.0) + (1 - share) * ordinary
        )


def parts_of(sample: Sample) -> Parts | None:
    """Divides a sample into the most likely parts (Scott and Symons, Clustering methods based on likelihood ratio
    criteria, 1971). None if there is no ordinary number above 0 below at most half of all.
    """
    size = sample.size
    bulks = size - np.cumsum(sample.counts.astype(float))[:-1]
    allowed = (bulks <= MOST_BULKS * size) & (sample.values[:-1] > 0)
    if not allowed.any():
        return None
    shares = special.xlogy(bulks, bulks / size)
    shares += special.xlog1py(size - bulks, -bulks / size)
    up_to, beyond = likelihoods_of(sample)
    likelihoods = up_to - beyond + shares
    place = int(np.argmax(np.where(allowed, likelihoods, -np.inf))) + 1
    ordinary = Sample(sample.values[:place], sample.counts[:place])
    fits = [family.fit(ordinary) for family in (POISSON, NEGATIVE_BINOMIAL)]
    best = min(filter(None, fits), key=lambda fit: fit.bic)
    return Parts(ordinary, Sample(sample.values[place:], sample.counts[place:]), best)


def likelihoods_of(sample: Sample) -> tuple[Floats, Floats]:
    """Returns for each place but the last the logarithms of likelihoods: of the values up to there, by the negative
    binomial law with their moments (Poisson if they vary no more), and, with the other sign, of the values beyond, by a
    normal law."""
    values = sample.values.astype(float)
    counts = sample.counts.astype(float)
    moments = [counts * values**power for power in range(3)]
    periods, sums, squares = (np.cumsum(moment)[:-1, None] for moment in moments)
    means = np.maximum(sums / periods, LEAST_CHANCE)
    over = squares / periods - means**2 - means
    sizes = np.where(
        over > means**2 / MOST_SIZE,
        means**2 / np.maximum(over, LEAST_CHANCE),
        MOST_SIZE,
    )
    logarithms = ways(values, sizes) + sizes * np.log(sizes / (sizes + means))
    up_to = np.tril(logarithms + values * np.log(means / (sizes + means))) @ counts
    beyond, sums, squares = (np.cumsum(moment[:0:-1])[::-1] for moment in moments)
    means = sums / beyond
    distances = np.maximum(squares - beyond * means**2, 0)
    prior = BULK_FREEDOM * (BULK_VARIATION * means) ** 2
    variances = (distances + prior) / (beyond + BULK_FREEDOM)
    of_bulks = beyond * np.log(2 * math.pi * variances) + distances / variances
    return up_to, 0.5 * of_bulks


FAMILIES: dict[str, Family] = {
    family.name: family
    for family in (
        POISSON,
        NEGATIVE_BINOMIAL,
        Hurdle(Geometric()),
        Hurdle(POISSON),
        Hurdle(NEGATIVE_BINOMIAL),
        Hurdle(Lognormal()),
        Bulk(),
    )
}
METHODS = ("auto", "predictive", EMPIRICAL, *FAMILIES)


def fits_of(sample: Sample) -> dict[str, Fit]:
    """Returns all families that a sample allows, the least BIC first; none for less than two numbers above 0."""
    if sample.demands < LEAST_DEMANDS:
        return {}
    fits = sorted(
        filter(None, (family.fit(sample) for family in FAMILIES.values())),
        key=lambda fit: fit.bic,
    )
    return {fit.family.name: fit for fit in fits}


def near_of(fits: Mapping[str, Fit]) -> dict[str, Fit]:
    """Returns the families that are not far behind the best."""
    return {
        name: fit
        for name, fit in fits.items()
        if fit.bic <= min(fit.bic for fit in fits.values()) + WORSE
    }


def cells_of(width: int, most: int) -> Whole:
    """Returns the last numbers of cells: one for each number below a width, and one for all from there to `most`."""
    return np.append(DEMANDS[:width], most) if width <= most else DEMANDS[: most + 1]


def predictive_of(name: str, sample: Sample, ends: Whole = DEMANDS) -> Floats:
    """Returns the posterior predictive law of a family that the sample allows, without the end of its tail. Numbers are
    at most the last one of `ends`, which has the last one of each cell."""
    return cut(FAMILIES[name].predictive(sample, ends))
