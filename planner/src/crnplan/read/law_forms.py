"""Makes laws of demand of what is stated of them: values with chances, moments, quantiles or sample paths.

Values may have weights, and moments are a mean and a variance. Each law is of whole items.

A mean and a variance have a law of whole numbers if the variance is at least f (1 - f), where f is what the mean has
beside whole items. It is Poisson if both are equal, negative binomial if the variance is greater, and else the mixture of
two binomials of Adan, van Eenige and Resing, Fitting discrete distributions on the first two moments, Probability in the
Engineering and Informational Sciences 9, 1995.
"""
from __future__ import annotations

import bisect
import itertools
import math
from collections.abc import Callable, Collection, Iterator, Mapping
from fractions import Fraction

import numpy as np

from ..chances import Floats
from ..formats import MOST_DEMAND, MOST_WEIGHT
from ..law import MOST_OFF, Law
from ..remarks import Remark, Value

LAWS = "laws"  # the kind of the table
# The forms of a table of laws by their names, each with the columns that it has, one of each group.
VALUES, MOMENTS, QUANTILES, PATHS = (
    "values with chances",
    "a mean and a variance",
    "quantiles",
    "sample paths",
)
FORMS: Mapping[str, tuple[tuple[str, ...], ...]] = {
    VALUES: (("value",), ("chance", "weight")),
    MOMENTS: (("mean",), ("variance", "deviation")),
    QUANTILES: (("quantile",), ("value",)),
    PATHS: (("path",), ("period",), ("value",)),
}
SHARED = "value"  # the column of several forms
# What says for which time a law holds. In sample paths it numbers the periods.
TIME = "period"
COMMON = SHARED, TIME
CLOSE = (
    1e-6  # The ratio of a variance to its mean differs from 1 by less in a Poisson law.
)
LEAST_QUANTILES, LEAST_PATHS = 3, 2
HALF = 0.5 / MOST_WEIGHT  # what is rounded to no weight
LEAST_STEP = 0.5  # between two quantiles, of a tail through these
Above = Callable[[Floats], Floats]  # the chance of a law to be above numbers


class Unlawful(Exception):
    """What is stated that no law can have. It has the role of the column, and a remark."""

    def __init__(self, role: str, code: str, /, **facts: Value) -> None:
        super().__init__(code)
        self.role, self.remark = role, Remark(code, facts)


def form_of(roles: Collection[str]) -> str | None:
    """Returns the form of a table with columns of these roles, which has no fault; None if it has none."""
    return next((form for form in FORMS if marks_of(form, roles)), None)


def columns_of(form: str) -> list[str]:
    """Returns the columns that a form may have."""
    return [role for group in FORMS[form] for role in group]


def marks_of(form: str, roles: Collection[str]) -> list[str]:
    """Returns those of some roles that no other form has, but for the period."""
    return [role for role in columns_of(form) if role in roles and role not in COMMON]


def needs_of(form: str) -> str:
    """Returns the columns that a form must have."""
    return ", ".join(" or ".join(group) for group in FORMS[form])


def form_faults(roles: Collection[str]) -> Iterator[Remark]:
    """Yields why a table with columns of these roles is of no one form of laws: what it lacks, and which columns of it say
    the same, or have no place in it."""
    marks = {form: marks for form in FORMS if (marks := marks_of(form, roles))}
    if len(marks) > 1:
        (form, (role, *_)), (other, (column, *_)), *_ = marks.items()
        facts = {"form": form, "role": role, "other": other, "column": column}
        yield Remark("two forms of laws", facts)
        return
    if not marks:
        forms = "; ".join(f"{form} ({needs_of(form)})" for form in FORMS)
        yield Remark("no form of laws", {"forms": forms})
    for form in marks:
        for group in FORMS[form]:
            there = [role for role in group if role in roles]
            facts = {"form": form, "needs": needs_of(form), "roles": " or ".join(group)}
            if not there:
                yield Remark("no column of the form", facts)
            if len(there) > 1:
                yield Remark("two columns of the form", {**facts, "role": there[1]})
        if SHARED in roles and SHARED not in columns_of(form):
            yield Remark("no place in the form", {"form": form, "role": SHARED})


def law_of_weights(weights: Mapping[int, int]) -> Law:
    """Returns the law of values with whole weights: as they are if they add up to at most 65,536."""
    if sum(weights.values()) <= MOST_WEIGHT:
        return Law.of(weights)
    return Law.of_parts({value: Fraction(weight) for value, weight in weights.items()})


def law_of_chances(chances: Mapping[int, Fraction]) -> Law:
    """Returns the law of values with chances, which add up to 1 but for rounding. Raises Unlawful."""
    total = sum(chances.values(), Fraction(0))
    if abs(total - 1) > MOST_OFF:
        raise Unlawful("chance", "sum of chances", total=float(total))
    return Law.of_parts(chances)


def least_variance(mean: float) -> float:
    """Returns the least variance of a whole number with a mean."""
    part = mean - math.floor(mean)
    return part * (1 - part)


def above_of(mean: float, variance: float) -> Above:
    """Returns the chances to be above numbers of the law of a mean above 0 and a variance that whole numbers can have."""
    from scipy.special import betainc, gammainc

    excess = variance - mean
    if abs(excess) <= CLOSE * mean:
        return lambda numbers: np.asarray(gammainc(numbers + 1, mean))
    if excess > 0:
        size, share = mean**2 / excess, excess / variance
        return lambda numbers: np.asarray(betainc(numbers + 1, size, share))
    return binomials_above(mean, variance)


def binomials_above(mean: float, variance: float) -> Above:
    """Returns the chances to be above numbers of the mixture of two binomials with a mean and a variance below it: of k
    and k + 1 trials with one chance p, the first one with the share q."""
    from scipy.special import bdtrc

    a = (variance - mean) / mean**2
    k = max(1, math.floor(-1 / a))
    q = 1.0
    if a > -1:
        root = math.sqrt(max(0.0, -a * k * (1 + k) - k))
        q = min(1.0, max(0.0, (1 + a * (1 + k) + root) / (1 + a)))
    p = min(1.0, mean / (k + 1 - q))

    def above(numbers: Floats) -> Floats:
        fewer, more = np.minimum(numbers, k), np.minimum(numbers, k + 1)
        return np.asarray(q * bdtrc(fewer, k, p) + (1 - q) * bdtrc(more, k + 1, p))

    return above


def law_above(above: Above) -> Law:
    """Returns the law with chances to be above numbers, in items, or in boxes of several if a period of it could have more
    than a scenario can: an amount counts as the next box."""

    def is_beyond(number: int) -> bool:
        return bool(above(np.array([float(number)]))[0] < HALF)

    most = 1
    while not is_beyond(most):
        most *= 2
    most = bisect.bisect_left(range(most), True, key=is_beyond)
    box = max(1, -(-most // MOST_DEMAND))
    values = box * np.arange(-(-most // box) + 1)
    return Law.of_tails(values, np.append(1.0, above(values[:-1].astype(float))))


def law_of_moments(mean: float, variance: float) -> Law:
    """Returns the law of a mean and a variance: see the module. Raises Unlawful."""
    if mean <= 0:
        raise Unlawful("mean", "law without demand")
    least = least_variance(mean)
    if variance < least * (1 - CLOSE):
        facts = {"variance": variance, "mean": mean, "least": least}
        raise Unlawful("variance", "small variance", **facts)
    if variance < CLOSE * mean and round(mean) > 0:
        return Law.of({round(mean): 1})
    return law_above(above_of(mean, max(variance, least)))


def law_of_quantiles(values: Mapping[Fraction, Fraction]) -> Law:
    """Returns the law of values by their shares, at least three: straight lines between them, and an exponential tail
    through the first two, and through the last two. An amount counts as the whole number next to it.

    planner/studies/stated_laws.py compares it with the nearest law of a family. Raises Unlawful.
    """
    if len(values) < LEAST_QUANTILES:
        facts = {"count": len(values), "least": LEAST_QUANTILES}
        raise Unlawful("quantile", "few quantiles", **facts)
    shares = sorted(values)
    numbers = [values[share] for share in shares]
    for lower, upper in itertools.pairwise(numbers):
        if lower > upper:
            ends = {"lower": float(lower), "upper": float(upper)}
            raise Unlawful("value", "falling quantiles", **ends)
    if not numbers[-1]:
        raise Unlawful("value", "law without demand")
    below = np.array([*map(float, shares)])
    return law_above(between(below, spread(np.array([*map(float, numbers)]))))


def spread(numbers: Floats) -> Floats:
    """Returns rising numbers of which equal ones are spread over the place of a whole number: all of these are that."""
    places = numbers.copy()
    for number in np.unique(numbers):
        same = numbers == number
        if same.sum() > 1:
            places[same] += np.linspace(-0.5, 0.5, same.sum() + 2)[1:-1]
    rising: Floats = np.maximum.accumulate(places)
    return rising


def between(shares: Floats, numbers: Floats) -> Above:
    """Returns the chances to be above whole numbers of the law with rising numbers as its quantiles."""
    low = max(numbers[1] - numbers[0], LEAST_STEP) / math.log(shares[1] / shares[0])
    falls = math.log((1 - shares[-2]) / (1 - shares[-1]))
    high = max(numbers[-1] - numbers[-2], LEAST_STEP) / falls

    def above(ends: Floats) -> Floats:
        middles = ends + 0.5
        rest = 1 - np.interp(middles, numbers, shares)
        before = 1 - shares[0] * np.exp(np.minimum(middles - numbers[0], 0) / low)
        behind = np.exp(np.minimum(numbers[-1] - middles, 0) / high)
        is_before = middles < numbers[0]
        return np.asarray(np.where(is_before, before, rest * behind))

    return above


def moments_of_paths(paths: Floats, periods: int) -> tuple[float, float]:
    """Returns the mean and the variance of a period by sample paths, a row each with a column for each coming period.

    The variance is that of the sum of so many periods in a row, as orders of a lead time and a period cover, divided by
    their number: demands of one path may belong together. All such sums count alike, so a level that changes over the
    paths counts too; since their paths alone are independent, it is that of a sample of these. With fewer periods, these
    are taken apart. Raises Unlawful.
    """
    count, ahead = paths.shape
    if count < LEAST_PATHS:
        raise Unlawful("path", "few paths", least=LEAST_PATHS)
    together = periods if periods <= ahead else 1
    sums = np.lib.stride_tricks.sliding_window_view(paths, together, axis=1).sum(-1)
    variance = float(sums.var()) * count / (count - 1) / together
    return float(paths.mean()), variance
