"""Lets items with few orders learn their law of demand from the whole catalogue (empirical Bayes).

Five orders in a year cannot show their law; thousands of items show which laws there are. `learning.learn` estimates
from all histories a prior over the share of periods with demand, the mean size of a demand and its dispersion. An item
has the law that this prior and its own history say (Robbins, An empirical Bayes approach to statistics, 1956).
"""
from __future__ import annotations

import math
from collections.abc import Iterable
from dataclasses import dataclass, replace
from functools import cached_property
from typing import Any

import numpy as np

from ..arguments import judged
from ..chances import Floats, Whole, cut, in_items, mixture, scaled
from ..errors import Refused
from ..formats import MOST_DEMAND
from ..law import Law
from ..money import Number
from ..remarks import Remark
from . import EMPIRICAL
from .families import FAMILIES, METHODS
from .fitted import Borrowed, Diagnostics, FittedLaw, seen_law
from .fitting import boxes_of, cap_of, family_law, share_of
from .grid import (
    FLAT,
    MOST_SIZE,
    SHARES,
    SIZE_CELLS,
    share_likelihoods,
    size_laws,
    size_likelihoods,
)
from .learning import NONE, Prior, is_outside
from .posterior import (
    allowed_laws,
    law_of_chances,
    round_history,
    stratified,
)
from .sample import Sample, shares_of

FAMILY = "borrowed"
LEVEL = 0.05  # Each share of the guard is above it, else the law of the single item is taken.
ROWS = 4  # of uniform numbers for a drawn law; the last one chooses its part
# Of a cell that is left out of a predictive law: all 192 cells together have a hundredth of the least weight, 1 / 65,536.
LEAST_CHANCE = 1e-9


@dataclass(frozen=True, eq=False)
class Posterior:
    """What is known of an item under a prior (cells of the share, cells of sizes): its history, counted in packs, and
    the likelihoods of that (cells, points) of both. No demand is above `most`. The history of a new item is too short
    to speak against what was learned."""

    packs: Sample
    prior: Floats
    shares: Floats
    sizes: Floats
    most: int = MOST_DEMAND
    is_new: bool = False

    @classmethod
    def of(cls, packs: Sample, prior: Floats, is_new: bool = False) -> Posterior:
        """Computes the likelihoods of a history."""
        return cls(
            packs,
            prior,
            share_likelihoods([packs])[0],
            size_likelihoods([packs])[0],
            is_new=is_new,
        )

    @cached_property
    def bayes(self) -> float:
        """Returns the Bayes factor (Kass and Raftery, Bayes factors, 1995, section 2) for the prior against the flat
        one."""
        shares = self.shares.mean(axis=1)
        sizes = self.sizes.mean(axis=1)
        return float(shares @ self.prior @ sizes / (shares @ FLAT @ sizes))

    @cached_property
    def predictive(self) -> Floats:
        """Returns the posterior predictive law of the next period, without the end of its tail."""
        means = self.sizes.mean(axis=1)
        demand = (self.shares * SHARES).mean(
            axis=1
        ) @ self.prior  # of each cell of sizes, with a demand next
        share = float(demand @ means / (self.shares.mean(axis=1) @ self.prior @ means))
        weights = demand[:, None] * self.sizes
        weights /= weights.sum()
        cells = np.flatnonzero(weights.sum(axis=1) > LEAST_CHANCE)
        laws = size_laws()
        sizes = mixture(
            (1.0, weights[cell] @ laws[cell][:, : self.most]) for cell in cells
        )
        return cut(np.append(1 - share, share * sizes))

    @cached_property
    def share(self) -> float:
        """Returns the share of the predictive law in its mixture with the history."""
        return 1.0 if self.is_new else share_of(self.packs, self.predictive)

    @property
    def law(self) -> Floats:
        """Returns the mixture of both."""
        return mixture(
            [(self.share, self.predictive), (1 - self.share, self.packs.law)]
        )

    def drawn(self, uniform: Floats) -> list[Floats]:
        """Draws laws of demand, one for each column of uniform numbers. Its three rows choose the cell, the point of
        the share within it, and that of the sizes."""
        cells = np.cumsum(
            self.prior * np.outer(self.shares.mean(axis=1), self.sizes.mean(axis=1))
        )
        share_cells, size_cells = np.divmod(
            np.searchsorted(cells[:-1] / cells[-1], uniform[0]), SIZE_CELLS
        )
        shares = SHARES[share_cells, places(self.shares[share_cells], uniform[1])]
        points = places(self.sizes[size_cells], uniform[2])
        sizes = (size_laws()[cell][point] for cell, point in zip(size_cells, points))
        return [
            np.concatenate([[1 - share], share * law])
            for share, law in zip(shares, sizes)
        ]


def places(weights: Floats, uniform: Floats) -> Whole:
    """Draws a place in each row of weights by a uniform number."""
    below = np.cumsum(weights, axis=1)
    return np.asarray((below[:, :-1] <= uniform[:, None] * below[:, -1:]).sum(axis=1))


def why_alone(prior: Prior, sample: Sample, box: int) -> Remark | None:
    """Returns why an item learns from no others, without a look at its law; None if it does."""
    if prior.borrow == NONE:
        return Remark("nothing borrowed")
    if box > 1:
        return Remark("demand in boxes", {"box": box})
    if sample.pack > 1 and not prior.packs:
        return Remark("packs of few others", {"pack": sample.pack})
    if is_outside(sample.packs):
        return Remark(
            "large sizes" + " in packs" * (sample.pack > 1), {"most": MOST_SIZE}
        )
    return None


def sample_of(
    observed: Iterable[Any], box: int, is_new: bool
) -> tuple[list[int], Sample]:
    """Returns a history in boxes, and as a sample. That of a new item may have no periods."""
    is_empty = is_new and isinstance(observed, tuple) and not observed
    boxes = [] if is_empty else boxes_of(observed, box)
    return boxes, Sample.of(boxes)


def looked_at(
    prior: Prior, sample: Sample, item_class: str | None, box: int, is_new: bool = False
) -> tuple[Borrowed, list[tuple[float, Posterior]]]:
    """Returns what is known of an item, and the parts of its law; none if the law of the item alone is to be taken.

    The parts, by the learned prior and by the flat one, have the weights that they are likely with after the history,
    from even odds (Berger and Berliner, Robust Bayes and empirical Bayes analysis with epsilon-contaminated priors,
    1986). Under the flat prior, demands are at most as large as in `fit_demand`. An item with no or one demand has no
    such part, nor has a new one.
    """
    name, learned = prior.of_item(item_class, sample.pack)
    known = Borrowed(sample.demands, name, why_alone(prior, sample, box))
    packs = sample.packs
    if known.alone or not learned:
        return known, []
    posterior = Posterior.of(packs, learned.chances, is_new)
    known = replace(known, log10_bayes=math.log10(posterior.bayes))
    if known.few or is_new:
        return replace(known, share=posterior.share), [(1.0, posterior)]
    guard = shares_of(packs, posterior.predictive)
    known = replace(known, guard=guard)
    if min(guard) <= LEVEL:
        return replace(known, alone=Remark("unlike histories")), []
    alike = posterior.bayes / (1 + posterior.bayes)
    flat = replace(posterior, prior=FLAT, most=cap_of(packs))
    return replace(known, share=alike * posterior.share), [
        (alike, posterior),
        (1 - alike, flat),
    ]


def law_of(
    prior: Prior,
    observed: Iterable[Any],
    item_class: str | None = None,
    *,
    box: int = 1,
    is_new: bool = False,
) -> FittedLaw:
    """Fits the law of demand to a history with few orders, by what its catalogue has learned (`learn`).

    It is the posterior predictive law under what the item's class, the catalogue, or all items in packs have learned,
    mixed with the history as far as this speaks against it. The item may be like no other, so the law under a flat
    prior has a part too. Drawn histories of the learned law must look like the real one (`LEVEL`), else the law is that
    of the item alone: `fit_demand(method="auto")`. So it is for boxes, for packs if few others have some, and for sizes
    outside the grid. An item with no or one demand has the learned law in any case, since its history alone has none, and
    so has one that is new: what it was seen to ask for, in perhaps no periods, only counts for which law is likely.

    `diagnostics.borrowed` has what is known. `observed` and `box` are as in `fit_demand`, and so is what is raised.
    Weights add up to 65,536.
    """
    boxes, sample = sample_of(observed, box, is_new)
    known, parts = looked_at(prior, sample, item_class, box, is_new)
    if not parts:
        single = family_law(boxes, "auto", box)
        return replace(single, diagnostics=replace(single.diagnostics, borrowed=known))
    law = in_items(mixture((weight, part.law) for weight, part in parts), sample.pack)
    return FittedLaw.made(
        Law.of_chances(law),
        FAMILY,
        Diagnostics(seen_law(boxes), FAMILY, borrowed=known),
    )


def borrowed_laws(
    prior: Prior,
    observed: Iterable[Any],
    item_class: str | None = None,
    *,
    times: int = 100,
    box: int = 1,
    seed: int = 1,
    is_new: bool = False,
) -> tuple[Law, ...]:
    """Draws laws of demand that an item's history and its catalogue allow. The same seed gives the same laws.

    Their mean is the law of `law_of`, all but the end of its tail: each is drawn from the item's posterior under the
    learned prior or the flat one, and then from a Dirichlet process round it as far as the history speaks against it.
    If the law of the item alone is taken, so is its `allowed_laws`. Arguments are as in `law_of`, and so is what is
    raised; `times` is the number of laws.
    """
    random = np.random.default_rng([seed])
    boxes, sample = sample_of(observed, box, is_new)
    _, parts = looked_at(prior, sample, item_class, box, is_new)
    if not parts:
        return allowed_laws(boxes, times=times, seed=seed)
    *uniform, choice = stratified(random, ROWS, times)
    chosen = np.searchsorted(
        np.cumsum([weight for weight, _ in parts])[:-1], choice, side="right"
    )
    laws = (
        round_history(scaled(law[: part.most + 1]), part.packs, part.share, random)
        for place, (_, part) in enumerate(parts)
        for law in part.drawn(np.array(uniform)[:, chosen == place])
    )
    return tuple(
        law_of_chances(in_items(law, sample.pack), sample.most) for law in laws
    )


@judged("fit")
def fit_demand(
    demand: Iterable[Number],
    *,
    method: str = "auto",
    box: int = 1,
    borrow: Prior | None = None,
    item_class: str | None = None,
) -> FittedLaw:
    """Fits the law of demand to a history, or to any whole numbers from 0, one for each period.

    Parameters
    ----------
    demand : iterable of int
        The demand of each period, in items. One that is None or NaN is not known, and left out, as are the unknown periods
        of a history.
    method : str, default "auto"
        How the law is fitted:

        - `empirical`: each value counts as often as it was seen.
        - `predictive`: the posterior predictive law of the family with the least BIC of those whose drawn histories look
          like this one; what was seen, if there is none. Its promised costs are nearest to the true ones. But after few
          periods it orders too much if sizes are bounded or those of a price list (`rare-bulk` and `prices` in the study
          planner/studies/laws.py).
        - `auto`: the mixture of such laws by the likelihood of their families, without demands above two to three times
          the largest one seen. It is mixed with what was seen too, if that speaks against it, or if the mean would be
          below 0.97 or the variance below 0.8 of what was seen. It costs more than what was seen most where a law ends
          abruptly (`cut-NB` in the study).
        - the name of a family (`poisson`, `negative-binomial`, `hurdle-geometric`, `hurdle-poisson`,
          `hurdle-negative-binomial`, `hurdle-lognormal` or `bulk`): its posterior predictive law, whether it fits or not.
          In `bulk`, ordinary demand is Poisson or negative binomial, and in some periods a much larger bulk comes in its
          place.
    box : int, default 1
        The items of a box, at least 1. Numbers are counted in boxes, rounded up.
    borrow : Prior, optional
        What a catalogue has learned (`learn`). The law is then learned from it, in place of a method.
    item_class : str, optional
        The class of the item in what was learned.

    Returns
    -------
    FittedLaw
        The law, which says how it was fitted.

    Raises
    ------
    RefusedFaults
        With the place of each number that is too large for a scenario.
    Refused
        If there is no such method, or a named family does not fit at all.

    Examples
    --------
    >>> law = crn.fit_demand([3, 0, 5, 4, 0, 2, 6, 3], method="empirical")
    >>> law.values, law.weights
    ((0, 2, 3, 4, 5, 6), (2, 1, 2, 1, 1, 1))
    >>> crn.fit_demand([3, 0, 5, 4, 0, 2, 6, 3]).values[-1]
    18
    """
    if borrow is not None:
        if method != "auto":
            raise Refused(
                f"a law is either borrowed or fitted by the method {method!r}; leave one out"
            )
        return law_of(borrow, demand, item_class, box=box)
    if method not in METHODS and method not in FAMILIES:
        raise Refused(
            f"there is no method {method!r} to fit demand; say {', '.join(METHODS[:-1])} or {METHODS[-1]}"
        )
    boxes = boxes_of(demand, box)
    if method != EMPIRICAL:
        return family_law(boxes, method, box)
    seen = Law.of_numbers(boxes)
    return FittedLaw.made(seen, EMPIRICAL, Diagnostics(seen, method), box)
