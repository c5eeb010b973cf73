"""Draws the laws of demand and of lead times that a history allows.

Each law is a draw from what is known after the history: a mixture of Dirichlet processes round the families of
`families` (Antoniak, Mixtures of Dirichlet processes with applications to Bayesian nonparametric problems, 1974). So a
law is that of a family, or as unlike it as the history is. Drawn are, one after the other,

- the family, and for how many periods it counts beside the history (the concentration), by their likelihood;
- the parameters of the family, with the priors of its predictive law;
- where the law ends, which no history shows: from the largest demand seen to `end_of` times it, evenly in the
  logarithm;
- the law, from the Dirichlet process round this member, which has seen the history. If no family fits at all, it is
  that of the Bayesian bootstrap: random weights of the periods (Rubin, The Bayesian bootstrap, 1981).

No family is quite right, so a period of the history counts less than one (`COUNTED`): a coarsened posterior (Miller and
Dunson, Robust Bayesian inference via coarsening, 2019). `COUNTED` and the ends were chosen on some laws such that what
is said of the doubt holds about as often as it says: see planner/studies/README.md, "Doubt".
"""
from __future__ import annotations

import math
from collections.abc import Iterable
from typing import Any, NamedTuple

import numpy as np
from scipy import special

from ..chances import Floats, cut, in_items, scaled
from ..formats import MOST_WEIGHT
from ..law import Law
from .families import fits_of, near_of
from .family import UNIFORMS, Family, Fit, Parameters
from .fitting import (
    FEW,
    LEAST_LEADS,
    SIDES,
    boxes_of,
    counts_of,
    lead_law,
    leads_of,
    risen,
    sides_of,
)
from .sample import Sample

MEMBERS = 500  # of a family, among which laws are drawn
# For how many periods a family counts beside each of the history; the last stands for the family itself.
CONCENTRATIONS = np.logspace(-2, 2, 9)
SHARES = [
    *(CONCENTRATIONS[:-1] / (1 + CONCENTRATIONS[:-1])).tolist(),
    1.0,
]  # of the family in the mean of its laws
LEAST_SEEN = 1e-12  # in place of 0, whose logarithm is not finite
PROPOSED = 0.3  # what a number counts for the draws of members
COUNTED = 0.5  # what a number counts in the posterior
# Laws end at the largest demand seen, at the largest of so many demands, at least so many times the former, or between.
DEMANDS_OF_END = 30_000
LEAST_END = 1.5


def stratified(random: np.random.Generator, rows: int, times: int) -> Floats:
    """Returns rows of uniform numbers, one in each of `times` equal strata, so few draws are spread evenly (McKay,
    Beckman and Conover, A comparison of three methods for selecting values of input variables, 1979).
    """
    strata = np.array([random.permutation(times) for _ in range(rows)])
    return np.asarray((strata + random.random((rows, times))) / times)


def round_history(
    base: Floats,
    sample: Sample,
    share: float,
    random: np.random.Generator,
    counted: float = 1.0,
) -> Floats:
    """Draws a law from a Dirichlet process round a law that has seen a sample: in the mean this share of the law and
    the rest of the sample, so with 0 the Bayesian bootstrap. Each number counts as `counted` numbers.
    """
    if share == 1:
        return base
    periods = sample.size * share / (1 - share)
    weights = np.zeros(max(len(base), sample.most + 1))
    weights[: len(base)] = periods * base
    weights[sample.values] += sample.counts
    return scaled(random.standard_gamma(counted * weights))


class Members(NamedTuple):
    """Members of a family that were drawn, as columns of parameters, with the shares by which they are picked, summed
    up, and the logarithm of how likely each concentration is."""

    family: Family
    parameters: Parameters
    below: Floats
    likely: Floats


def members_of(fit: Fit, packs: Sample, random: np.random.Generator) -> Members:
    """Draws members of a family, as if each number counted `PROPOSED`, and weighs them by how likely they are.

    A concentration is as likely as Dirichlet processes round all members make the sample. Members are picked by their
    own likelihood alone: a process takes equal demands as one, so members by its likelihood would be off in the mean.
    What is common to a family is approximated as in the Bayesian information criterion. Source of the weights: Rubin,
    Using the SIR algorithm to simulate posterior distributions, 1988.
    """
    parameters = fit.family.drawn(
        packs, stratified(random, UNIFORMS, MEMBERS)[:, :, None], PROPOSED
    )
    seen = np.maximum(fit.family.chances(packs.values, *parameters), LEAST_SEEN)
    own = np.log(seen) @ packs.counts
    periods = packs.size * CONCENTRATIONS[:, None, None]
    likely = risen(periods * seen, packs.counts)
    likely += special.gammaln(periods[:, :, 0]) - special.gammaln(
        periods[:, :, 0] + packs.size
    )
    common = (PROPOSED - 1) * fit.log_likelihood - fit.bic / 2
    below = np.cumsum(np.exp((COUNTED - PROPOSED) * (own - own.max())))
    return Members(
        fit.family,
        parameters,
        below / below[-1],
        special.logsumexp(COUNTED * likely - PROPOSED * own, axis=1) + common,
    )


def end_of(sample: Sample) -> float:
    """Returns where laws end at most, in largest demands seen: at that of 30,000 demands (as `fitting.cap_of`). After
    few demands it may be many times the largest one seen."""
    return max(math.log(DEMANDS_OF_END) / math.log(sample.demands + 1), LEAST_END)


def demand_laws(
    sample: Sample, times: int, random: np.random.Generator
) -> list[Floats]:
    """Draws laws of demand, as chances."""
    packs = sample.packs
    pack = sample.pack
    fits = near_of(fits_of(packs))
    if not fits:
        return [
            round_history(np.zeros(1), sample, 0.0, random, COUNTED)
            for _ in range(times)
        ]
    members = [members_of(fit, packs, random) for fit in fits.values()]
    ends = sample.most * end_of(sample) ** stratified(random, 1, times)[0]
    likely = np.array([its.likely for its in members])
    below = np.cumsum(np.exp(likely - likely.max()))
    places = np.searchsorted(
        below[:-1] / below[-1], (np.arange(times) + random.random()) / times
    )
    families, concentrations = np.unravel_index(
        random.permutation(places), likely.shape
    )
    drawn: list[Floats] = []
    for end, place, periods, uniform in zip(
        ends, families, concentrations, stratified(random, 1, times)[0]
    ):
        family, parameters, shares, _ = members[place]
        member = np.searchsorted(shares[:-1], uniform)
        (law,) = family.laws(tuple(its[member] for its in parameters), packs.most)
        base = scaled(in_items(cut(law), pack)[: int(end) + 1])
        drawn.append(round_history(base, sample, SHARES[periods], random, COUNTED))
    return drawn


def law_of_chances(chances: Floats, most: int) -> Law:
    """Returns the law of chances. If it has no demand, one unit of its weight goes to the largest demand seen."""
    law = Law.of_chances(chances)
    return Law((0, most), (MOST_WEIGHT - 1, 1)) if law.values == (0,) and most else law


def allowed_laws(
    observed: Iterable[Any],
    *,
    times: int = 100,
    box: int = 1,
    seed: int = 1,
) -> tuple[Law, ...]:
    """Draws laws of demand that a history allows, whose weights add up to 65,536. The same seed gives the same laws.

    `observed` and `box` are as in `fit_demand`, and so is what is raised. No law has demands above some times the
    largest one seen (`end_of`: 9 times after 2 demands, 4 after 12, 2 after 172), those above 10,000 count as 10,000,
    and what is less likely than 1 in 131,072 is left out. A law has at least one demand above 0, if the history has.
    """
    random = np.random.default_rng([seed, 0])
    sample = Sample.of(boxes_of(observed, box))
    laws = demand_laws(sample, times, random)
    return tuple(law_of_chances(law, sample.most) for law in laws)


def allowed_leads(
    observed: Iterable[Any], *, times: int = 100, seed: int = 1
) -> tuple[Law, ...]:
    """Draws laws of lead times that the observed ones allow. The same seed gives the same laws.

    Each has random weights of what was seen (the Bayesian bootstrap). As in `fit_lead(method="auto")`, 2 to 19 lead
    times are blurred: how much is drawn too. A single lead time is what a supplier says, and stays as it is. Raises
    RefusedFaults.
    """
    random = np.random.default_rng([seed, 1])
    numbers = leads_of(observed)
    if len(numbers) < LEAST_LEADS:
        return (Law(tuple(numbers), (MOST_WEIGHT,)),) * times
    counts = counts_of(numbers)
    sides = np.zeros(times)
    if len(numbers) < FEW:
        below = np.cumsum(sides_of(counts))[:-1]
        sides = SIDES[np.searchsorted(below, stratified(random, 1, times)[0])]
    weights = np.zeros((times, len(counts)))
    weights[:, counts > 0] = random.standard_gamma(
        counts[counts > 0], (times, np.count_nonzero(counts))
    )
    return tuple(map(lead_law, weights, sides))
