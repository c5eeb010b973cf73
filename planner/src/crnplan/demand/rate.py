"""Moves a law of demand to another rate: customers come more often, or less, and take as much as before.

Demand of independent customers over a longer time is a sum of what comes in its parts, so mean and variance grow with
the time alike (Feller, An Introduction to Probability Theory and Its Applications, volume II, second edition, 1971,
section VI.3). A law with such a mean and variance is negative binomial, Poisson or binomial, which are closed under that
(Klugman, Panjer and Willmot, Loss Models, fourth edition, 2012, section 6.5). Where most periods are without demand, its
sizes are what a law knows, and only how often they come moves.
"""
from __future__ import annotations

import math
from collections.abc import Sequence

import numpy as np
from scipy import special

from ..chances import DEMANDS, Floats, Whole, cut, mixture, scaled
from ..law import Law
from .count_laws import MOST_SIZE, NEGATIVE_BINOMIAL, POISSON

NOTHING: Floats = np.ones(1)  # the law of no demand
RARE = 0.5  # the least chance of no demand of a law whose sizes stay


def at_rate(law: Law, factor: float) -> Law:
    """Returns a law of demand whose rate is so many times as high, from 0 on, and its mean with it. What is above the
    greatest value of a scenario counts there."""
    if factor == 1 or not law.values[-1]:
        return law
    chances = np.bincount(law.values, law.weights) / law.size
    if chances[0] >= RARE:
        return Law.of_chances(oftener(chances, factor))
    mean = float(law.mean)
    variance = float(np.square(law.values) @ law.weights) / law.size - mean**2
    return Law.of_chances(spread(factor * mean, factor * variance))


def oftener(chances: Floats, factor: float) -> Floats:
    """Returns what comes in so many periods in a row, of which a part has that chance to come at all."""
    whole = math.floor(factor)
    moved = mixture([(factor - whole, chances), (1 - factor + whole, NOTHING)])
    for _ in range(whole):
        moved = np.convolve(moved, chances)
    return cut(moved)


def spread(mean: float, variance: float) -> Floats:
    """Returns a law with this mean, above 0, and as nearly this variance as can be: negative binomial if that is above
    the mean, binomial if it is below."""
    # So far a tail goes that is lighter than that of a geometric law.
    values = DEMANDS[: 128 + 20 * math.ceil(mean)]
    tries = mean**2 / (mean - variance) if variance < mean else math.inf
    if variance > mean * (1 + mean / MOST_SIZE):
        member = mean**2 / (variance - mean), 1 - mean / variance
        chances = NEGATIVE_BINOMIAL.chances(values, *member)
    elif tries > MOST_SIZE:
        chances = POISSON.chances(values, mean)
    else:
        chances = binomial(values, max(math.ceil(mean), round(tries)), mean)
    chances[-1] += max(0.0, 1 - chances.sum())
    return cut(chances)


def binomial(values: Whole, tries: int, mean: float) -> Floats:
    """Returns the chances of values by the binomial law of so many tries with this mean."""
    hits, share = np.minimum(values, tries), mean / tries
    misses = tries - hits
    ways = special.gammaln(tries + 1) - special.gammaln([hits + 1, misses + 1]).sum(0)
    chances = np.exp(
        ways + special.xlogy(hits, share) + special.xlog1py(misses, -share)
    )
    return np.where(values <= tries, chances, 0.0)


def without_rate(
    counts: Sequence[int], rates: Floats, random: np.random.Generator
) -> tuple[int, ...]:
    """Returns counts as they might have been at one rate all the time, the mean of the rates of their periods. Their sum
    stays.

    A record is divided into as many equal parts of operational time, of which each period has as much as its rate says
    (Feller, section X.7). What came in a period is shared among its parts as in a negative binomial process, for which
    shares have a Dirichlet law (Johnson, Kotz and Balakrishnan, Discrete Multivariate Distributions, 1997, section
    35.13): the rarer and larger demands are, the more of one stays together.
    """
    known = np.array(counts)
    periods = len(known)
    if not known.any():
        return tuple(counts)
    lengths = rates / rates.mean()
    ends = np.cumsum(lengths)
    edges = np.union1d(ends[:-1], np.arange(1, periods))
    starts = np.append(0.0, edges)
    within = np.diff(np.append(starts, periods))
    middle = starts + within / 2
    owner = np.minimum(np.searchsorted(ends, middle), periods - 1)
    cell = np.minimum(middle.astype(int), periods - 1)
    weights = shares_of(within * size_of(known, lengths), owner, random)
    moved = np.zeros(periods, int)
    places = np.flatnonzero(known)
    firsts = np.searchsorted(owner, places)
    lasts = np.searchsorted(owner, places, side="right")
    for place, first, last in zip(places, firsts, lasts):
        parts = scaled(weights[first:last])
        moved[cell[first:last]] += random.multinomial(known[place], parts)
    return tuple(moved.tolist())


def as_far(counts: Sequence[int], rates: Floats) -> list[int]:
    """Returns counts at one rate, the mean of those of their periods, that are as many standard deviations from what is
    expected there, of which the variance grows with the rate: none below 0."""
    lengths = rates / rates.mean()
    mean = sum(counts) / len(counts)
    far = mean + (np.array(counts) - mean * lengths) / np.sqrt(lengths)
    whole: list[int] = np.rint(np.maximum(far, 0)).astype(int).tolist()
    return whole


def size_of(counts: Whole, lengths: Floats) -> float:
    """Returns the size of a negative binomial law of a period of mean length, by the variance of counts beside what
    their lengths let expect."""
    mean = float(counts.mean())
    expected = mean * lengths
    ratio = float(((counts - expected) ** 2 / expected).mean())
    return mean / max(ratio - 1, mean / MOST_SIZE)


def shares_of(sizes: Floats, owner: Whole, random: np.random.Generator) -> Floats:
    """Returns gamma numbers of these sizes, of each owner in units of its greatest."""
    # Tiny sizes give numbers below the least float: so they are made of logarithms.
    logarithms = np.log(random.standard_gamma(sizes + 1))
    logarithms += np.log(random.random(len(sizes))) / sizes
    greatest = np.full(owner[-1] + 1, -np.inf)
    np.maximum.at(greatest, owner, logarithms)
    return np.asarray(np.exp(logarithms - greatest[owner]))
