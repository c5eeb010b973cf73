"""Says what was asked for in periods whose sales are cut: at least what was sold, since the item ran out.

A family is fitted by the likelihood of at least the sales of such a period, and of the demand of all others (Nahmias,
Demand estimation in lost sales inventory systems, 1994; Agrawal and Smith, Estimating negative binomial demand for retail
inventory management with unobservable lost sales, 1996). Its likeliest member is found by expectation and maximisation
(Dempster, Laird and Rubin, Maximum likelihood from incomplete data via the EM algorithm, 1977): the demand of a cut period
is spread over all numbers from its sales on, as the last member has them, and the next member is fitted to that. So a
family takes part that is fitted by its likelihood alone; others see no cut periods.

Laws of all kinds are then fitted to whole numbers: those that are known, and in each cut period what the likeliest member
expects. planner/studies/cut_sales.py says what that is worth.
"""
from __future__ import annotations

import math
from collections.abc import Sequence
from typing import NamedTuple

import numpy as np

from ..chances import Floats, Whole
from . import EMPIRICAL, LEAST_DEMANDS
from .families import FAMILIES
from .family import LEAST_CHANCE, Family, Parameters
from .sample import Sample

# The families whose likeliest member has the greatest likelihood of all.
BY_LIKELIHOOD = (
    "poisson",
    "negative-binomial",
    "hurdle-geometric",
    "hurdle-poisson",
    "hurdle-negative-binomial",
)
PARTS = 1_000  # in which a period counts, so that one that is spread has whole counts
STEPS = 200  # of expectation and maximisation, at most
# Its multiples, modulo 1, spread evenly: so does an order by them.
GOLDEN = (math.sqrt(5) - 1) / 2


class CutFit(NamedTuple):
    """The law of the likeliest member of a family, as chances of 0, 1, 2 and so on, with the Bayesian information
    criterion."""

    law: Floats
    bic: float


def tails_of(law: Floats) -> Floats:
    """Returns the chances of at least 0, 1, 2 and so on."""
    return np.asarray(np.cumsum(law[::-1])[::-1])


def spread(law: Floats, cuts: Sample) -> Floats:
    """Returns how many cut periods a law expects to have had a demand of 0, 1, 2 and so on. Sales that are beyond the law
    stay as they are."""
    tails = np.maximum(tails_of(law)[cuts.values], LEAST_CHANCE)
    shares = np.zeros(len(law))
    shares[cuts.values] = cuts.counts / tails
    return law * np.cumsum(shares)


def fit_of(family: Family, known: Sample, cuts: Sample) -> CutFit | None:
    """Returns the fit of a family to numbers that are known, and to others of which it is known that they are at least so
    large; None if these do not allow it. There is a number of either kind."""
    most = max(known.most, cuts.most)
    own = _counted(known, most + 1)
    counts = own + _counted(cuts, most + 1)
    member: Parameters = ()
    for _ in range(STEPS):
        values = np.flatnonzero(counts)
        found = family.likeliest(Sample(values, counts[values]))
        if found is None:
            return None
        member = found
        law = family.laws(member, most)[0]
        before, counts = counts, np.rint(PARTS * spread(law, cuts)).astype(np.int64)
        counts[: most + 1] += own
        size = min(len(before), len(counts))
        if np.array_equal(before[:size], counts[:size]):
            break
    logarithms = np.log(np.maximum(law, LEAST_CHANCE))
    tails = np.log(np.maximum(tails_of(law), LEAST_CHANCE))
    likelihood = float(known.counts @ logarithms[known.values])
    likelihood += float(cuts.counts @ tails[cuts.values])
    free = len(member) - (member[0] == 0)
    return CutFit(law, free * math.log(known.size + cuts.size) - 2 * likelihood)


def _counted(sample: Sample, width: int) -> Whole:
    """Returns how often each number below a width was seen, in parts."""
    counts = np.zeros(width, np.int64)
    counts[sample.values] = PARTS * sample.counts
    return counts


def expected_demands(
    known: Sequence[int], least: Sequence[int], method: str = "auto"
) -> tuple[int, ...]:
    """Returns what was asked for in periods of which the least is known, beside others whose demand is known: whole
    numbers, each at least that, with the spread and the mean that the likeliest law has. Periods without sales say
    nothing, and have none. It is that of a family, if `method` names it, else that of the least BIC. Returns nothing if
    no family allows it, and for what was seen as it is.
    """
    cuts = sorted(filter(None, least))
    own = Sample.of(known)
    if not cuts or own.demands + len(cuts) < LEAST_DEMANDS or method == EMPIRICAL:
        return ()
    pack = own.pack
    packs, cut_packs = own.packs, Sample.of(-(-number // pack) for number in cuts)
    names = [name for name in BY_LIKELIHOOD if method not in FAMILIES or name == method]
    fits = [fit_of(FAMILIES[name], packs, cut_packs) for name in names]
    best = min(filter(None, fits), key=lambda fit: fit.bic, default=None)
    if best is None:
        return ()
    numbers = np.repeat(cut_packs.values, cut_packs.counts).tolist()
    return tuple(pack * number for number in stratified(best.law, numbers))


def stratified(law: Floats, least: Sequence[int]) -> list[int]:
    """Returns a whole number for each of some rising least ones: the mean of a part of the law from that on. The parts are
    as many as there are numbers, as likely, and each is taken once, so that the numbers have the mean of the law and
    nearly its spread. What is rounded off counts in the next number."""
    size = len(least)
    order = np.argsort([place * GOLDEN % 1 for place in range(1, size + 1)])
    rank = np.argsort(order)
    numbers, rest = list[int](), 0.0
    for place, number in enumerate(least):
        chances = law[number:]
        below = np.append(0.0, np.cumsum(chances))
        if below[-1] <= LEAST_CHANCE:
            numbers.append(number)
            continue
        ends = np.clip(size * below / below[-1] - rank[place], 0.0, 1.0)
        mean = number + float(np.diff(ends) @ np.arange(len(chances)))
        nearest = math.floor(mean + rest + 0.5)
        numbers.append(min(max(number, nearest), len(law) - 1))
        rest += mean - numbers[-1]
    return numbers
