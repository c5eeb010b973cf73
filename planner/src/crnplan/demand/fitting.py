"""Fits laws of demand and of lead times to what was observed.

A table of what was seen promises too low a cost, since the largest demands of the future are not in it. So a law of
demand may be the posterior predictive law of a family, if drawn histories of that family look like the real one.
"""
from __future__ import annotations

import math
from collections import Counter
from collections.abc import Iterable, Sequence
from dataclasses import replace

import numpy as np
from scipy import special

from ..arguments import judged
from ..chances import Floats, Whole, blurred, in_items, mixture, scaled
from ..errors import Refused, argument
from ..formats import MOST_DEMAND, MOST_LEAD
from ..law import Law
from ..money import Number
from ..read.item import STATED
from . import EMPIRICAL, LEAD_METHODS
from .families import (
    FAMILIES,
    cells_of,
    fits_of,
    near_of,
    parts_of,
    predictive_of,
)
from .fitted import (
    LEAST_MEAN,
    LEAST_VARIANCE,
    Diagnostics,
    FittedLaw,
    numbers_of,
    seen_law,
)
from .sample import Sample, Shares, shares_of

# The cap is about the largest of so many demands, by the largest of those seen.
DEMANDS_OF_CAP = 300
LEAST_TIMES, MOST_TIMES = 2.0, 3.0  # the cap of `auto`, in largest demands seen
PERIODS = np.logspace(-2, 2, 41)  # for which a law counts beside each of the history
LIKELIHOOD_RATIO = 0.5  # of logarithms, by which the history must speak against a law to be mixed with it
FEW = 20  # lead times: with so many, what was seen stays as it is
LEAST_LEADS = 2  # one lead time is what a supplier says, not a sample
SIDES = (
    np.arange(30) + 0.5
) / 100  # the shares that the kernel may move to each neighbour
ELSEWHERE = 0.05  # the chance, in the fit of the kernel, that a lead time is like none that was seen


def below_0(number: int, most: int) -> str:
    """Returns what is wrong with a demand below 0."""
    return "is below 0; correct it" if number < 0 else ""


def boxes_of(observed: Iterable[Number], box: int) -> list[int]:
    """Returns the demand that is known in boxes of `box` items, rounded up. Raises RefusedFaults with the place of each
    number that is too large for a scenario or below 0."""

    def wrong(number: int, most: int) -> str:
        if number <= box * MOST_DEMAND:
            return below_0(number, most)
        return (
            f"is above {MOST_DEMAND:,}{f' in boxes of {box}' if box > 1 else ''}; count in larger boxes: "
            f"{argument('box', str(-(-most // MOST_DEMAND)))} or more"
        )

    numbers = numbers_of(observed, "demand", wrong, may_lack=True)
    return [-(-number // box) for number in numbers]


def risen(weights: Floats, counts: Whole) -> Floats:
    """Returns the sums over the last axis of the logarithms of rising factorials: products of a weight, the weight plus
    1 and so on, of as many factors as a count says."""
    once = counts == 1
    others = weights[..., ~once]
    rises: Floats = np.log(weights[..., once]).sum(axis=-1)
    rises += (special.gammaln(others + counts[~once]) - special.gammaln(others)).sum(
        axis=-1
    )
    return rises


def share_of(sample: Sample, base: Floats) -> float:
    """Returns the share of a law in its mixture with the sample: 1 if the sample does not speak against the law.

    A Dirichlet process round the law counts for as many periods beside the sample as make its marginal likelihood
    greatest (Minka, Estimating a Dirichlet distribution, 2000).
    """
    chances = np.zeros(max(len(base), sample.most + 1))
    chances[: len(base)] = base
    # A single value without a chance would rule the law out, whatever else was seen.
    seen = np.maximum(chances[sample.values], 1e-9)
    periods = sample.size * PERIODS
    likelihood = special.gammaln(periods) - special.gammaln(periods + sample.size)
    likelihood += risen(periods[:, None] * seen, sample.counts)
    best = int(np.argmax(likelihood))
    if likelihood[best] - likelihood[-1] < LIKELIHOOD_RATIO:
        return 1.0
    return float(periods[best] / (periods[best] + sample.size))


def seen_share(sample: Sample, law: Floats) -> float:
    """Returns the least share of what was seen with which its mixture with a law has a mean of at least `LEAST_MEAN`
    and a variance of at least `LEAST_VARIANCE` of those that were seen."""
    values = np.arange(len(law))
    mean = float(law @ values)
    variance = float(law @ (values - mean) ** 2)
    own = sample.squares / sample.size
    lower = sample.mean - mean
    missing = LEAST_VARIANCE * sample.variance - variance
    of_mean = 0.0
    if mean < LEAST_MEAN * sample.mean:
        of_mean = 1 - (1 - LEAST_MEAN) * sample.mean / lower
    if missing <= 0:
        return of_mean
    # With a share x of what was seen the variance is higher by x (own - variance + lower^2) - x^2 lower^2.
    rise = own - variance + lower**2
    square = rise**2 - 4 * missing * lower**2
    if (
        rise <= 0 or square < 0
    ):  # of fewer than five periods: the unbiased variance is above that of the history
        return 1.0
    return min(max(of_mean, 2 * missing / (rise + math.sqrt(square))), 1.0)


def cap_of(sample: Sample) -> int:
    """Returns the largest demand that `auto` allows: that of 300 demands, two to three times the largest one seen.

    The largest of n sizes with an exponential tail grows as the logarithm of n (Gumbel, Statistics of Extremes, 1958,
    section 4.2).
    """
    times = math.log(DEMANDS_OF_CAP) / math.log(sample.demands + 1)
    return math.ceil(min(max(times, LEAST_TIMES), MOST_TIMES) * sample.most)


def family_law(boxes: Sequence[int], method: str, box: int = 1) -> FittedLaw:
    """Returns a law of families: of a named one, or of those that the guard lets pass. Raises Refused if the history
    does not allow the named one."""
    sample = Sample.of(boxes)
    packs = sample.packs
    pack = sample.pack
    fits = fits_of(packs)
    if method in FAMILIES and method not in fits:
        raise Refused(
            f"the history does not allow the family {method}; it allows {', '.join(fits) or 'none'}"
        )
    guard = dict[str, Shares]()
    for name, fit in near_of(fits).items():
        guard[name] = shares_of(packs, fit.law(packs.most))
    names = [name for name, shares in guard.items() if shares.passes]
    if method in FAMILIES:
        names = [method]
    bic = {name: fit.bic for name, fit in fits.items()}
    known = Diagnostics(Law.of_numbers(boxes), method, pack, bic, guard)
    if not names:
        return FittedLaw.made(known.seen, EMPIRICAL, known, box)
    if method == "auto":
        known, law = mixed_law(sample, names, known)
    else:
        law = in_items(predictive_of(names[0], packs), pack)
    return FittedLaw.made(Law.of_chances(law), names[0], known, box)


def mixed_law(
    sample: Sample, names: Sequence[str], known: Diagnostics
) -> tuple[Diagnostics, Floats]:
    """Returns the law of `auto`, by the families that the guard lets pass, and what is known of it.

    Their posterior chances are those of families that are as likely beforehand (Raftery, Bayesian model selection in
    social research, 1995, section 4.1).
    """
    packs = sample.packs
    # Above the cap the law has nothing, so all that is there counts in one cell.
    cap = cap_of(sample)
    ends = cells_of(cap // sample.pack + 1, MOST_DEMAND)
    bic = known.bic
    likely = [math.exp((bic[names[0]] - bic[name]) / 2) for name in names]
    weights = [value / sum(likely) for value in likely]
    laws = (in_items(predictive_of(name, packs, ends), sample.pack) for name in names)
    law = scaled(mixture(zip(weights, laws))[: cap + 1])
    share = min(share_of(sample, law), 1 - seen_share(sample, law))
    known = replace(known, families=dict(zip(names, weights)), cap=cap, share=share)
    parts = parts_of(packs) if "bulk" in names else None
    if parts:
        least = sample.pack * int(parts.bulks.values[0])
        known = replace(known, bulks=(parts.bulks.size, least))
    return known, mixture([(share, law), (1 - share, sample.law)])


def stated_law(law: Law, counts: Sequence[int], box: int) -> FittedLaw:
    """Returns a law that is stated for an item, in boxes of `box` items, rounded up, beside what was seen of it."""
    weights = Counter[int]()
    for value, weight in zip(law.values, law.weights):
        weights[-(-value // box)] += weight
    seen = seen_law([-(-count // box) for count in counts])
    return FittedLaw.made(Law.of(weights), STATED, Diagnostics(seen, STATED), box)


def leads_of(leads: Iterable[Number]) -> list[int]:
    """Returns lead times in periods. Raises RefusedFaults with the place of each that is not from 1 to 32."""
    above = f"is above {MOST_LEAD}; take longer periods (weeks for days, months for weeks), for demands too"
    below = "is below 1; write 1 if the order is there for the next period's demand"

    def wrong(number: int, most: int) -> str:
        if number > MOST_LEAD:
            return above
        return below if number < 1 else ""

    return numbers_of(leads, "leads", wrong)


def sides_of(counts: Floats) -> Floats:
    """Returns the chance of each of `SIDES` by leave-one-out likelihoods. `counts` are those of the lead times from 1.

    Source: Stone, Cross-validatory choice and assessment of statistical predictions, 1974. All shares from 0 to 0.3 are
    as likely beforehand. A lead time may be like none of the others with a small chance, so one outlier decides little.
    """
    likelihoods = np.ones(len(SIDES))
    for place in np.flatnonzero(counts):
        others = counts - np.eye(MOST_LEAD)[place]
        chances = blurred(others[:, None] / others.sum(), SIDES)[place]
        likelihoods *= ((1 - ELSEWHERE) * chances + ELSEWHERE / MOST_LEAD) ** counts[
            place
        ]
    return scaled(likelihoods)


@judged("fit")
def fit_lead(leads: Iterable[Number], *, method: str = "auto") -> FittedLaw:
    """Fits the law of lead times to observed ones.

    Parameters
    ----------
    leads : iterable of int
        Whole numbers of periods, from 1 to 32.
    method : {"auto", "empirical"}, default "auto"
        With `empirical` each lead time counts as often as it was seen. `auto` moves a part of 2 to 19 observed ones to the
        periods beside them, since a short record has not seen all.

    Returns
    -------
    FittedLaw
        The law, in periods.

    Raises
    ------
    RefusedFaults
        With the place of each lead time that is out of range.
    Refused
        If there is no such method.

    Examples
    --------
    >>> law = crn.fit_lead([2, 2, 3, 2], method="empirical")
    >>> law.values, law.weights
    ((2, 3), (3, 1))
    """
    if method not in LEAD_METHODS:
        raise Refused(
            f"there is no method {method!r} to fit lead times; say {' or '.join(LEAD_METHODS)}"
        )
    numbers = leads_of(leads)
    seen = Law.of_numbers(numbers)
    if method == EMPIRICAL or not LEAST_LEADS <= len(numbers) < FEW:
        return FittedLaw.made(seen, EMPIRICAL, Diagnostics(seen, method, side=0.0))
    counts = counts_of(numbers)
    side = float(SIDES @ sides_of(counts))
    return FittedLaw.made(
        lead_law(counts, side), "blurred", Diagnostics(seen, method, side=side)
    )


def counts_of(leads: Sequence[int]) -> Floats:
    """Returns how often each lead time from 1 to 32 was seen."""
    return np.bincount(leads, minlength=MOST_LEAD + 1)[1:].astype(float)


def lead_law(weights: Floats, side: float) -> Law:
    """Returns the law of lead times from 1 on with these weights, of which the share `side` goes to each neighbour."""
    return Law.of_chances(np.append(0.0, blurred(scaled(weights), side)))
