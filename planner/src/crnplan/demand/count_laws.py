"""The families of Poisson, geometric and negative binomial laws: see `families.py`."""
from __future__ import annotations

import math
from typing import Any

import numpy as np
from scipy import special

from ..chances import DEMANDS, Floats, Whole, scaled
from .family import Family, Parameters
from .sample import Sample

# Negative binomial laws.
# With the greatest size, such a law is all but a Poisson law. Of a single demand in as many periods as there may be, the
# size is 1e-6.
LEAST_SIZE, MOST_SIZE = 1e-9, 1e4
ROOT = 1e-12  # how exact the logarithm of a size is
SIZES = 48  # over which the posterior is summed
MIDDLES: Floats = (
    np.arange(SIZES) + 0.5
) / SIZES  # of their equal parts, by logarithms
LEAST_RATIO, MOST_RATIO, LARGE_MEAN = (
    0.02,
    50.0,
    20.0,
)  # of mean to size k; it may be larger for means above LARGE_MEAN
LEAST_SHARE = 1e-6  # of a size in the posterior
LEAST_BEYOND = 1e-9  # of a law; a smaller part beyond its cells counts in the last one
# The greatest mean: so many standard errors above the one seen, and at most so much above it in the logarithm, since a
# mean that is flat in its logarithm has too heavy a tail after few demands.
MOST_ERRORS, MOST_LOGARITHM = 4.0, 2.5


class Poisson(Family):
    """Poisson laws. The parameter is the mean."""

    name = "poisson"

    def likeliest(self, sample: Sample) -> Parameters | None:
        return (sample.mean,) if sample.total else None

    def logarithms(self, values: Whole, *parameters: Any) -> Floats:
        return np.asarray(
            special.xlogy(values, parameters[0])
            - special.gammaln(values + 1)
            - parameters[0]
        )

    def predictive(self, sample: Sample, ends: Whole) -> Floats:
        """Returns the law of a number whose mean has a gamma law: it is negative binomial."""
        size = sample.total + 0.5
        rest = 1 / (sample.size + 1)
        chances = NEGATIVE_BINOMIAL.chances(DEMANDS[: len(ends)], size, rest)
        return with_rest(chances, ends, special.betainc(size, ends[-1] + 1, 1 - rest))

    def drawn(
        self, sample: Sample, uniform: Floats, counted: float = 1.0
    ) -> Parameters:
        """Draws means, whose posterior is a gamma law."""
        return (
            special.gammaincinv(counted * sample.total + 0.5, uniform[0])
            / (counted * sample.size),
        )


class Geometric(Family):
    """Geometric laws on 0, 1, 2 and so on. The parameter is p."""

    name = "geometric"

    def likeliest(self, sample: Sample) -> Parameters | None:
        return (1 / (1 + sample.mean),) if sample.total else None

    def logarithms(self, values: Whole, *parameters: Any) -> Floats:
        return np.asarray(
            np.log(parameters[0]) + special.xlog1py(values, -parameters[0])
        )

    def predictive(self, sample: Sample, ends: Whole) -> Floats:
        """Returns the law of a number whose p has a beta law, from a flat prior of p."""
        first = sample.size + 1.0
        second = sample.total + 1.0
        at_least = np.exp(
            special.betaln(first, second + np.append(0, ends + 1))
            - special.betaln(first, second)
        )
        return -np.diff(at_least)

    def drawn(
        self, sample: Sample, uniform: Floats, counted: float = 1.0
    ) -> Parameters:
        """Draws p, whose posterior is a beta law."""
        return (
            special.betaincinv(
                counted * sample.size + 1, counted * sample.total + 1, uniform[0]
            ),
        )


class NegativeBinomial(Family):
    """Negative binomial laws. The parameters are the size k and 1 - p; the mean is k (1 - p) / p."""

    name = "negative-binomial"

    def likeliest(self, sample: Sample) -> Parameters | None:
        """Returns the parameters; None if the numbers vary no more than under a Poisson law. The score has a single
        root if the variance with the divisor n is above the mean, else none (Levin and Reeds, Compound multinomial
        likelihood functions are unimodal, 1977)."""
        from scipy.optimize import brentq  # which takes long to import

        def score(logarithm: float) -> float:
            """Returns the derivative of the likelihood's logarithm by the size, whose logarithm is given. In it,
            digamma(n + size) - digamma(size) is a sum over 0 to n - 1."""
            size = math.exp(logarithm)
            rise = sample.above @ (1 / (steps + size))
            return float(rise - sample.size * math.log1p(sample.mean / size))

        steps = np.arange(sample.most)
        high = math.log(MOST_SIZE)
        if sample.squares <= sample.total or score(high) >= 0:
            return None
        size = math.exp(brentq(score, math.log(LEAST_SIZE), high, xtol=ROOT))
        return size, sample.mean / (size + sample.mean)

    def logarithms(self, values: Whole, *parameters: Any) -> Floats:
        size, rest = parameters
        return np.asarray(
            ways(values, size)
            + special.xlog1py(size, -rest)
            + special.xlogy(values, rest)
        )

    def predictive(self, sample: Sample, ends: Whole) -> Floats:
        """Returns the posterior predictive law. For a given size p has a beta law, so only the sizes are summed."""
        sizes, likelihoods = self._posterior(sample, 1.0)
        shares = scaled(np.exp(likelihoods - likelihoods.max()))
        sizes = sizes[shares > LEAST_SHARE]
        shares = shares[shares > LEAST_SHARE]
        most_mean = greatest_mean(sample)
        above = most_mean / (sizes + most_mean)
        first = sample.size * sizes
        total = float(shares @ special.betainc(sample.total, first, above))
        # Numbers beyond the cells are at most as likely as with the greatest mean.
        beyond = float(shares @ special.betainc(ends[-1] + 1, sizes, above))
        is_narrow = beyond < LEAST_BEYOND * total
        numbers = DEMANDS[: len(ends)] if is_narrow else DEMANDS[: ends[-1] + 1]
        chances = shares @ beta_negative_binomial(
            sizes[:, None], first[:, None], sample.total, most_mean, numbers
        )
        if not is_narrow:
            return scaled(np.add.reduceat(chances, np.append(0, ends[:-1] + 1)))
        return scaled(with_rest(chances, ends, total))

    def drawn(
        self, sample: Sample, uniform: Floats, counted: float = 1.0
    ) -> Parameters:
        """Draws sizes and 1 - p. For a given size, p has a beta law that is cut at the greatest mean."""
        sizes, likelihoods = self._posterior(sample, counted)
        most_mean = greatest_mean(sample)
        size = counted * sample.size
        total = counted * sample.total
        within = special.betainc(total, size * sizes, most_mean / (sizes + most_mean))
        shares = within * np.exp(likelihoods - likelihoods.max())
        place = np.searchsorted(np.cumsum(shares)[:-1] / shares.sum(), uniform[0])
        return sizes[place], special.betaincinv(
            total, size * sizes[place], uniform[1] * within[place]
        )

    @staticmethod
    def _posterior(sample: Sample, counted: float) -> tuple[Floats, Floats]:
        """Returns the sizes over which the posterior is summed, and the logarithm of how likely each is."""
        most_ratio = MOST_RATIO * max(1.0, sample.mean / LARGE_MEAN)
        sizes = sample.mean / most_ratio * (most_ratio / LEAST_RATIO) ** MIDDLES
        rises = (
            special.gammaln(sample.values + sizes[:, None])
            - special.gammaln(sizes)[:, None]
        )
        likelihoods = counted * (rises @ sample.counts)
        return sizes, likelihoods + special.betaln(
            counted * sample.size * sizes, counted * sample.total
        )


def greatest_mean(sample: Sample) -> float:
    """Returns the greatest mean that the prior of a negative binomial law allows."""
    error = math.sqrt(max(sample.squares / sample.size, sample.mean) / sample.size)
    return sample.mean * math.exp(
        min(MOST_ERRORS * error / sample.mean, MOST_LOGARITHM)
    )


def ways(values: Any, size: Any) -> Floats:
    """Returns the logarithms of the binomial coefficients of negative binomial laws."""
    return np.asarray(
        special.gammaln(values + size)
        - special.gammaln(size)
        - special.gammaln(values + 1)
    )


def beta_negative_binomial(
    size: Floats, first: Floats, second: float, most_mean: float, values: Whole
) -> Floats:
    """Returns the chances of 0, 1 and so on, the `values`, of negative binomial numbers whose p has a beta law, and that
    their mean is at most so much: a row for each size. Without the bound it is the beta negative binomial law (Johnson,
    Kemp and Kotz, Univariate Discrete Distributions, third edition, section 6.2.3)."""
    above = most_mean / (size + most_mean)  # the greatest value of 1 - p
    a = second + values
    b = first + size
    scale = special.betaln(first + size, second)

    def rising(start: Floats, ratios: Floats) -> Floats:
        """Returns numbers by the logarithm of the first one, and the ratio of each further one to that before it."""
        return np.asarray(
            np.exp(np.cumsum(np.hstack([start, np.log(ratios[:, :-1])]), axis=1))
        )

    # The chance that a beta number is below the bound falls from one a to the next one by what is known (Abramowitz and
    # Stegun, Handbook of Mathematical Functions, 26.5.16). It is summed from the last one on, so nothing cancels.
    steps = rising(
        second * np.log(above) + b * np.log1p(-above) - scale - math.log(second),
        above * (a + b) / (a + 1),
    )
    steps[:, -1:] = special.betainc(a[-1], b, above)
    within = np.cumsum(steps[:, ::-1], axis=1)[:, ::-1]
    ratios = (values + size) * a / ((values + 1) * (a + b))
    return np.asarray(rising(scale - special.betaln(first, second), ratios) * within)


def with_rest(chances: Floats, ends: Whole, total: float) -> Floats:
    """Returns chances of 0, 1 and so on with that of the last cell, by the chance of all cells."""
    if ends[-1] >= len(ends):
        chances[-1] = max(total - chances[:-1].sum(), 0.0)
    return chances


POISSON = Poisson()
NEGATIVE_BINOMIAL = NegativeBinomial()
