"""Defines fitted laws: what is known of the fit and of what was observed, and what is to be said of it."""
from __future__ import annotations

from collections.abc import Callable, Iterable, Iterator, Mapping, Sequence
from dataclasses import dataclass, field
from functools import cached_property
from typing import Any

import numpy as np

from ..errors import Fault, Refused, RefusedFaults
from ..formats import MOST_WEIGHT
from ..law import Law
from ..money import is_missing, whole
from ..read.item import STATED
from ..remarks import Remark
from ..sentences import counted, sentence
from . import EMPIRICAL, LEAST_DEMANDS
from .sample import Shares

MOST_NAMED = 20  # of the faults of numbers
QUANTILES = (0.95, 0.99, 0.999)
LEAST_WEIGHT = 0.005  # of a family that is named
LEAST_MEAN, LEAST_VARIANCE = (
    0.97,
    0.8,
)  # of a law of demand, beside those of what was seen; less is named


@dataclass(frozen=True)
class LawSummary:
    """Mean, variance (None of a single number), quantiles and the largest value of a law, or of what was observed."""

    mean: float
    variance: float | None
    most: int
    quantiles: Mapping[float, int]

    @classmethod
    def of(cls, law: Law, *, is_sample: bool = False) -> LawSummary:
        """Computes the figures of a law. A sample has its unbiased variance."""
        values = np.array(law.values)
        weights = np.array(law.weights)
        size = law.size
        mean = float(weights / size @ values)
        places = np.searchsorted(
            np.cumsum(weights), [np.ceil(share * size - 1e-6) for share in QUANTILES]
        )
        variance: float | None = None
        if size > is_sample:
            variance = float(weights @ (values - mean) ** 2) / (size - is_sample)
        return cls(
            mean,
            variance,
            law.values[-1],
            dict(zip(QUANTILES, values[places].tolist())),
        )


@dataclass(frozen=True)
class Borrowed:
    """What an item has learned from others.

    It has so many periods with `demands`, and the `prior` of a class, or that of "all". `alone` says why the law of its
    own history is taken; None if the borrowed law is. `share` is the part of that which was learned; the rest is from
    its own history. `guard` has the shares of drawn histories, None with no or one demand; `log10_bayes` is of the
    Bayes factor for the learned prior against the flat one. Both are None if nothing was learned for such an item.
    """

    demands: int
    prior: str
    alone: Remark | None = None
    share: float = 0.0
    guard: Shares | None = None
    log10_bayes: float | None = None

    @property
    def unlike(self) -> bool:
        """Returns whether the flat prior makes the history likelier. Then at most half of the law was learned."""
        return self.log10_bayes is not None and self.log10_bayes < 0

    @property
    def few(self) -> bool:
        """Returns whether the history has no or one demand, so the law is all but that of the catalogue."""
        return self.demands < LEAST_DEMANDS


@dataclass(frozen=True)
class Diagnostics:
    """What is known of a fit.

    `seen` is the empirical law of what was observed, and `method` how it was fitted. Of a law of families: `pack` is
    the size of the packs that were fitted, `bic` has the families, the least BIC first, and `guard` the shares of drawn
    histories of those not far behind. `families` has the chances of those in the law, `cap` is its largest demand,
    `share` its part beside what was seen, and `bulks` how many demands are bulks, and the least of them. `side` is the
    part of lead times that counts a period earlier, and as much later.
    """

    seen: Law
    method: str
    pack: int = 1
    bic: Mapping[str, float] = field(default_factory=dict)
    guard: Mapping[str, Shares] = field(default_factory=dict)
    families: Mapping[str, float] = field(default_factory=dict)
    cap: int | None = None
    share: float = 1.0
    bulks: tuple[int, int] | None = None
    side: float | None = None
    borrowed: Borrowed | None = None

    @cached_property
    def history(self) -> LawSummary:
        """Returns the figures of what was observed."""
        return LawSummary.of(self.seen, is_sample=True)


@dataclass(frozen=True)
class FittedLaw(Law):
    """A law of demand or of lead times that was fitted.

    Attributes
    ----------
    values, weights : tuple of int
        Those of the law: demand in boxes, or lead times in periods.
    family : str
        How it was fitted: the name of a family, `empirical`, `blurred`, `borrowed` or `stated`.
    diagnostics : Diagnostics
        What is known of the fit and of what was observed.
    box : int
        The items of a box.
    """

    family: str
    diagnostics: Diagnostics = field(compare=False, repr=False)
    box: int = 1

    @classmethod
    def made(
        cls, law: Law, family: str, diagnostics: Diagnostics, box: int = 1
    ) -> FittedLaw:
        """Makes a law that was fitted from a law.

        Parameters
        ----------
        law : Law
            Its values and weights are taken.
        family : str
            How it was fitted.
        diagnostics : Diagnostics
            What is known of the fit.
        box : int, default 1
            The items of a box.

        :meta private:
        """
        return cls(law.values, law.weights, family, diagnostics, box)

    def like(self, law: Law) -> FittedLaw:
        """Returns another law as one that was fitted as this one.

        Parameters
        ----------
        law : Law
            Its values and weights are taken.

        :meta private:
        """
        return self.made(law, self.family, self.diagnostics, self.box)

    @cached_property
    def figures(self) -> LawSummary:
        """Returns mean, variance, quantiles and the largest value of the law."""
        return LawSummary.of(self)

    @property
    def is_of_leads(self) -> bool:
        """Returns whether this is a law of lead times."""
        return self.diagnostics.side is not None

    @property
    def lower(self) -> Remark | None:
        """Returns a remark if a law of demand has a much lower mean or variance than what was seen; both are in
        items."""
        seen = self.diagnostics.history
        law = self.figures
        if (
            self.is_of_leads
            or self.family == EMPIRICAL
            or not seen.variance
            or self.diagnostics.share == 0
        ):
            return None
        assert law.variance is not None
        if (
            round(law.mean / seen.mean, 2) >= LEAST_MEAN
            and round(law.variance / seen.variance, 2) >= LEAST_VARIANCE
        ):
            return None
        return Remark(
            "law below history",
            {
                "mean": law.mean * self.box,
                "seen_mean": seen.mean * self.box,
                "variance": law.variance * self.box**2,
                "seen_variance": seen.variance * self.box**2,
            },
        )


def seen_law(numbers: Sequence[int]) -> Law:
    """Returns the law of what was seen, perhaps of nothing."""
    return Law.of_numbers(numbers) if numbers else Law((), ())


def numbers_of(
    observed: Iterable[Any],
    what: str,
    wrong: Callable[[int, int], str],
    may_lack: bool = False,
) -> list[int]:
    """Returns the numbers of `placed_numbers`.

    `wrong` says by a number and the largest one why a scenario can't have it; nothing if it can. Raises RefusedFaults with
    the places of all such numbers, and as `placed_numbers` does.
    """
    known = placed_numbers(observed, what, may_lack)
    most = max(known.values())
    faults = []
    for place, number in known.items():
        reason = wrong(number, most)
        if reason:
            faults.append(Fault(f"{what}: entry {place + 1}, {number}, {reason}"))
    if faults:
        lines = [fault.message for fault in faults[:MOST_NAMED]]
        if len(faults) > MOST_NAMED:
            lines.append(f"and {len(faults) - MOST_NAMED:,} more")
        raise RefusedFaults(faults, "\n".join(lines))
    return [*known.values()]


def placed_numbers(
    observed: Iterable[Any], what: str, may_lack: bool
) -> dict[int, int]:
    """Returns observed whole numbers of any kind, also floats that are whole, by their places from 0. If
    numbers `may_lack`, those that are None or NaN are left out. A Series of pandas by
    period has 0 in each period that it lacks.

    Raises Refused for what is no whole number, if there is none or there are too many, and for a Series by dates whose
    periods are not known, are not in order, or stand twice.
    """
    known = dict(enumerate(_dense(observed, what)))
    if {*map(type, known.values())} != {int}:
        known = {
            place: whole(number, f"{what}: entry {place + 1}")
            for place, number in known.items()
            if not (may_lack and is_missing(number))
        }
    if not 1 <= len(known) <= MOST_WEIGHT:
        raise Refused(
            f"{what}: there are {len(known):,} numbers; give 1 to {MOST_WEIGHT:,}"
        )
    return known


def _dense(observed: Any, what: str) -> Any:
    index: Any = getattr(observed, "index", None)
    kind = type(index).__name__
    if isinstance(observed, Mapping) or not hasattr(observed, "__iter__"):
        raise Refused(
            f"{what}: {type(observed).__name__} is no list of whole numbers",
            "give a list of them",
        )
    if kind not in ("PeriodIndex", "DatetimeIndex"):
        is_whole = isinstance(observed, np.ndarray) and observed.dtype.kind in "iu"
        # Numbers of Python are read faster.
        return observed.tolist() if is_whole else observed
    if not index.is_unique or not index.is_monotonic_increasing:
        raise Refused(
            f"{what}: its dates stand twice or are not in order",
            "sum it by period, and sort it",
        )
    if kind == "PeriodIndex":
        import pandas as pd

        every = pd.period_range(index[0], index[-1]) if len(index) else index
        return observed.reindex(every, fill_value=0)
    if (
        len(index) > 1
        and index.freq is None
        and (len(index) == 2 or index.inferred_freq is None)
    ):
        raise Refused(
            f"{what}: its dates have gaps, or are not those of periods",
            "sum it by period, as with "
            'resample("W").sum(), so that periods without demand count 0',
        )
    return observed


def fit_words(law: FittedLaw) -> Iterator[str]:
    """Yields how a law was fitted; nothing of one that was asked for as it was seen, or that is stated. `diagnostics` has
    the rest: what the history says for and against each family."""
    fit = law.diagnostics
    borrowed = law.diagnostics.borrowed
    if fit.method in (EMPIRICAL, STATED):
        return
    if fit.side:
        yield (
            f"of each of the {fit.seen.size} lead times seen, {fit.side:.1%} count one period earlier, and as much "
            "one later"
        )
    if law.is_of_leads:
        return
    if borrowed:
        yield from _words_of_borrowed(borrowed)
    if borrowed is None or borrowed.alone:
        yield from _words_of_families(law)


def _words_of_borrowed(borrowed: Borrowed) -> Iterator[str]:
    if borrowed.alone:
        yield sentence(borrowed.alone)
    else:
        source = (
            "the whole catalogue"
            if borrowed.prior == "all"
            else f"class {borrowed.prior}"
        )
        yield f"learned from {source}, with {counted(borrowed.demands, 'demand')} seen{_mixed(borrowed.share)}"
        if borrowed.few:
            yield "with so few demands the law is all but that of the catalogue; look at it"
    if borrowed.log10_bayes is not None:
        yield (
            f"the history is 10^{borrowed.log10_bayes:.1f} times as likely under what was learned as without it"
            + ": unlike the catalogue; look at it" * borrowed.unlike
        )


def _words_of_families(law: FittedLaw) -> Iterator[str]:
    fit = law.diagnostics
    if fit.pack > 1:
        yield f"all demands are packs of {fit.pack}, so packs are fitted"
    if law.family == EMPIRICAL:
        yield "no family gives back this history, so it stays as it is"
    elif fit.families:
        named = {
            family: weight
            for family, weight in fit.families.items()
            if weight >= LEAST_WEIGHT
        }
        yield (
            ", ".join(f"{family} {weight:.0%}" for family, weight in named.items())
            + _mixed(fit.share)
            + f"; at most {fit.cap}, as {fit.history.most} is the largest demand seen"
        )
        if fit.bulks and "bulk" in named:
            yield f"for the family bulk, the {counted(fit.bulks[0], 'demand')} of at least {fit.bulks[1]} are bulks"
    else:
        yield law.family


def _mixed(share: float) -> str:
    return f", mixed with {1 - share:.0%} of what was seen" * (share < 1)
