"""Searches for the (s,S) policy of a scenario that costs least in the long run.

A search looks at all gaps S - s that may be best, unless these take too long. Let m(j) be the chance that the place j
cells below S is a low of a cycle, and M(g) their sum up to the gap g. A policy with the gap g costs a period

    C(g, S) = setup / (span M(g)) + the mean of G(the stock's low)

where G(y) is the mean cost of stock and backlog of a period that starts from a low at y. With one lead time the mean is
that of G(S - j) over j = 0 .. g by m(j) / M(g). Of each gap the least level is sought that meets the share and is at
least the newsvendor's (compare Zheng and Federgruen, Finding optimal (s,S) policies is about as simple as evaluating a
single policy, 1991). Gaps are left out that cost more than another one:

1. The lows are a renewal sequence, so M(k) + M(g - 1 - k) is at least M(g). By summing over k, the lows of a cycle are
   at most g / 2 below S on average.
2. The mean stock less the mean backlog is the mean position less the mean net demand of a lead time and a period, since
   that much is under way on average (Little's law). So a policy costs at least `holding` times (s + g / 2 - `offset`):
   see `widest`.
3. By the same law, a policy that had the shortest lead time alone would have as much less of stock less backlog as is
   under way for longer on average. Its backlog would be no more, since its stock is never less. So a policy costs no
   less than that one, but for holding what is under way for longer: see `floors`.
4. With one lead time, let C be the least cost of the gap g, and F that of any low. The lows of a wider gap n cost
   M(g) C and F for each further one, if not more. So if a policy costs B, none with the gap n is better as long as
   M(n) - M(g) is less than M(g) (C - B) / (B - F): see `levels.walked`.
5. With one lead time, if G(s) is above C(g, S), the policy with the gap g - 1 and the same S costs less, and meets more
   demand at once, since the lowest of all lows meets least. So the best policy has G(s) of at most its cost, unless its
   gap is the least feasible one: see `lowest_point`.

A share is one of demand that is met at once, or of periods that end with nothing owed (`counts_periods`). Both rise with
the stock of a low. So all of this holds of either.
"""
from __future__ import annotations

import copy
import math
from collections.abc import Callable, Iterator, Sequence
from functools import cached_property
from typing import Any, NamedTuple

import numpy as np

from ..chances import Floats, Whole
from ..scenario import Costs, ScenarioData
from .feasible import ALL, Feasible, Places
from .figures import Figured, PolicyFigures
from .grid import CLOSE, gap_grid, search
from .levels import NEAR, Bounds, walked
from .shortfalls import work_of
from .walk import convolved, power_of

FEW = 4  # Of the gaps of a grid, one in so many is looked at for a first policy. So many are looked at without floors.
MOST_WORK = 20_000_000  # for all gaps of a search with several lead times, by `work_of`
MOST_WALKED = 1_000  # Up to so many lows, sums over them take less time than those of all levels at once.
EVEN = 1e-10  # Chances that differ by no more than this share are taken as the same by a search, not for figures.
MOST_LEVEL = 1 << 60  # no bound; sums with it stay within 64 bits
NONE = np.empty(0, int)


class Candidate(NamedTuple):
    """A reorder point and an order-up-to level, with the cost of a period. The least cost comes first in order."""

    cost: float
    point: int
    level: int

    @property
    def levels(self) -> tuple[int, int]:
        return self.point, self.level


NO_POLICY = Candidate(math.inf, 0, 0)

# For each of some gaps a level in items, or -1, and what it costs, or infinity.
SearchedLevels = tuple[Whole, Floats]
# Returns the reorder points and levels of some gaps.
Fixed = Callable[[Whole], tuple[Whole, Whole]]


class Sought(NamedTuple):
    """What is sought of some gaps: the cheapest feasible levels that meet a share, or fixed ones. But for the first gap,
    s is at least `lowest`. Policies with the greatest S of all are only looked at `to_the_top`, if their gap would
    rather have a higher one."""

    share: float = 0.0
    lowest: int = 0
    fixed: Fixed | None = None
    to_the_top: bool = False


def evened(lows: Floats, table: Floats) -> tuple[Floats, int]:
    """Returns the rows of sums of `walked`, and the place from which on lows have the same chance."""
    if len(lows) < MOST_WALKED:
        return table, len(lows)
    low = lows[-1]
    even = int(np.flatnonzero(np.append(True, abs(lows - low) > EVEN * low))[-1])
    added = np.zeros_like(table[:3])
    if even:
        for row, figures in enumerate(table[:3]):
            added[row] = convolved(lows[:even] - low, figures)[: len(figures)]
    return np.concatenate([added, np.cumsum(table[:3], axis=1)]), even


class LongRun(Figured):
    """The figures of a scenario's policies on a lattice, and searches for the cheapest of feasible ones, which look at
    all gaps that matter, unless these take too long."""

    # Whether a search looked at a grid of gaps alone. Else its policy is the best of all feasible pairs.
    is_searched = False
    # What a share counts that is wanted: demand that is met at once, or the periods that end with nothing owed.
    counts_periods = False

    def __init__(
        self,
        scenario: ScenarioData,
        step: int,
        exact: bool,
        most: int,
        feasible: Feasible = ALL,
    ) -> None:
        """Makes the laws of a scenario. `most` is the largest gap that a search looks at."""
        super().__init__(scenario, step, exact)
        self.feasible = feasible
        self.found = dict[float, Candidate]()
        self.most = most

    def within(self, feasible: Feasible) -> LongRun:
        """Returns the same theory with other feasible policies."""
        other = copy.copy(self)
        other.feasible = feasible
        other.found = {}
        return other

    def priced(self, costs: Costs, most: int, feasible: Feasible) -> LongRun:
        """Returns the same theory with other costs, another `most` and other feasible policies."""
        other = self.within(feasible)
        other.setup = costs.setup
        other.holding = costs.holding
        other.backlog = costs.backlog
        other.most = most
        # Figures that are known have the former costs, and so has what `free` keeps.
        other.figured = {}
        other.__dict__.pop("free", None)
        return other

    def counting(self, periods: bool) -> LongRun:
        """Returns the same theory with wanted shares of periods without a shortage, or of demand."""
        if periods == self.counts_periods:
            return self
        other = self.within(self.feasible)
        other.counts_periods = periods
        other.__dict__.pop("free", None)
        return other

    @cached_property
    def free(self) -> LongRun:
        """Returns the same theory with all policies feasible."""
        return self if self.feasible == ALL else self.within(ALL)

    def has(self, policy: Candidate) -> bool:
        """Returns whether a policy is feasible, or one with its gap and level."""
        gap = self.gap_of(policy.point, policy.level)
        return bool(self.fits(gap, policy.level - self.items(gap), policy.level))

    @property
    def ratio(self) -> float:
        """Returns the share of periods without backlog that is best for a newsvendor, but for rounding."""
        return self.backlog / (self.backlog + self.holding) * (1 - NEAR)

    def widest(self, cost: float, lowest: int) -> int:
        """Returns the greatest gap of a policy with s of at least `lowest` that costs no more: see the module."""
        reach = CLOSE * cost / self.holding + self.offset  # of lows on average, at most
        return int(
            min(
                self.feasible.widest // self.step,
                max(0, 2 * (reach - lowest) // self.step),
            )
        )

    def items(self, gap: Places) -> Places:
        """Returns S - s of a gap: see `Feasible.gap_in`."""
        return self.feasible.gap_in(gap, self.step, self.exact)

    def every_gap(self, first: int, most: int) -> Whole:
        """Returns the gaps from the first to the most that feasible policies may have. If orders are rounded up, gaps that
        order as narrower ones do are left out."""
        gaps = np.arange(first, min(most, self.feasible.widest // self.step) + 1)
        if not self.spare or not len(gaps):
            return gaps
        wanted = range(first, int(gaps[-1]) + len(self.falls))
        ordered = np.array([self.lot.order(cells) for cells in wanted])
        rises = np.append(0, np.cumsum(np.diff(ordered) > 0))
        is_new = rises[len(self.falls) - 1 :] > rises[: len(gaps)]
        is_new[0] = True
        return gaps[is_new]

    def grid(self) -> Whole:
        """Returns a few gaps that feasible policies may have, further apart as they grow; none if there are none."""
        gaps = self.every_gap(0, self.most)
        return gaps[gap_grid(len(gaps) - 1)[::FEW]] if len(gaps) else gaps

    def policy(self, gap: int, level: int, point: int | None = None) -> Candidate:
        """Returns the policy of a gap with a level, and perhaps a point; none if it is not feasible."""
        point = level - self.items(gap) if point is None else point
        if not self.fits(gap, point, level):
            return NO_POLICY
        return Candidate(self.figures_of_gap(gap, level).cost, point, level)

    def fits(self, gap: Any, point: Any, level: Any) -> Any:
        """Returns whether policies are feasible and have these gaps."""
        items = self.items(gap)
        span = level - point
        is_of_gap = (
            (items <= span)
            & (span < (gap + 1) * self.step)
            & (span <= self.feasible.most_gap)
        )
        return is_of_gap & self.feasible.has(point, level)

    def allowed(self, share: float) -> float:
        """Returns how much demand of a period may not be met at once, in items, if this share is to be met."""
        if self.counts_periods or not share:
            return math.inf
        return (1 - share) * self.asked * (1 + NEAR)

    def held(self, share: float) -> float:
        """Returns the least chance that a period ends with nothing owed, if this share is to be met."""
        return share * (1 - NEAR) if self.counts_periods else 0.0

    def met(self, figures: PolicyFigures) -> float:
        """Returns what a policy meets of that of which a share is wanted."""
        return 1 - figures.short if self.counts_periods else figures.fill

    def walk(
        self,
        gaps: Whole,
        leasts: Whole,
        fixed: Whole = NONE,
        *,
        share: float = 0.0,
        ratio: float = 0.0,
        is_nested: bool = True,
        feasible: Feasible | None = None,
        cut: int = MOST_LEVEL,
        base: float = -math.inf,
        known: float | None = None,
    ) -> SearchedLevels:
        """Returns the best or fixed levels of some rising gaps that meet a share, with what they cost: see `walked`.
        Nested gaps have the lows of one lead time. Any level is feasible if no bounds are given, and no gap is left out
        if no cost is known."""
        lows = self.lows_of(int(gaps[-1]))
        if self.spare:  # the lows of a cycle up to each gap, in the mean
            lows = np.zeros(int(gaps[-1]) + 1)
            lows[gaps] = np.diff(self.periods_of(gaps) / self.span, prepend=0.0)
        above = 0 if is_nested else self.above
        turned = (lows[None] if is_nested else self.rows_of(gaps))[:, ::-1].copy()
        width = turned.shape[1]
        # Levels are no less than their gaps, if these are nested and no s is below 0.
        origin = 2 if is_nested and feasible and feasible.least_point >= 0 else width
        # With a level below the last one, nothing is ever owed.
        least = self.items(int(gaps[-1])) + self.feasible.least_point
        last = max(-(-least // self.step), width - above + self.after.high) + 1
        cells = np.arange(above - origin, above + last + 1)
        table = self.figures_from(self.step * cells, is_nested)
        top = feasible.most_level if feasible else MOST_LEVEL
        return walked(
            gaps,
            leasts,
            fixed,
            lows,
            turned,
            table,
            *(evened(lows, table) if is_nested else (table, MOST_LEVEL)),
            Bounds(origin, self.step, top, cut),
            self.setup / self.span,
            base,
            self.holding * self.step / 2,
            self.allowed(share),
            ratio,
            self.held(share),
            math.inf if known is None else known,
            is_nested,
            known is not None,
        )

    def levels_with_fill(
        self, gaps: Sequence[int], shares: Sequence[float]
    ) -> Iterator[tuple[int, list[int]]]:
        """Yields rising gaps, each with the least levels, in items, that meet these shares."""
        for some in self.parts(gaps):
            levels = [
                self.walk(some, 0 * some, share=share, is_nested=self.is_nested)[0]
                for share in shares
            ]
            yield from zip(some.tolist(), np.transpose(levels).tolist())

    def floors(self, share: float, gaps: Whole) -> Floats:
        """Returns what a policy that meets a share costs at least, by some rising gaps: see the module."""
        _, costs = self.walk(gaps, 0 * gaps, share=share, ratio=self.ratio)
        return costs - self.holding * self.step * self.one.mean * float(self.late.sum())

    def first_gap(self, cost: float, most: int) -> int:
        """Returns the first gap up to the most whose orders alone cost no more."""
        cycles = self.cycles(most + self.spare)[self.spare :]
        return int(np.argmax(cycles * cost * CLOSE >= self.setup))

    def lowest_point(self, cost: float) -> int:
        """Returns the least s, but for the least feasible gap, of a policy that costs no more: see the module."""
        if not self.is_nested:
            return self.feasible.least_point
        first = self.feasible.least_point // self.step
        levels = self.step * np.arange(min(first, 0), self.after.high + 2)
        cheap = int((self.figures_from(levels)[0] <= CLOSE * cost).argmax())
        lowest = int(levels[cheap]) - self.step + 1
        return max(self.feasible.least_point, lowest)

    def levels_of(
        self, gaps: Whole, sought: Sought, known: float = math.inf
    ) -> SearchedLevels:
        """Returns for each of some rising gaps the level that is sought, with its cost. Gaps that cost more than a known
        policy are left out."""
        levels = np.full(len(gaps), -1)
        costs = np.full(len(gaps), math.inf)
        looked = np.arange(len(gaps))
        fixed = NONE
        if sought.fixed:
            points, fixed = sought.fixed(gaps)
            looked = np.flatnonzero(self.fits(gaps, points, fixed))
        has_floors = not (self.has_one_lead or self.spare)
        if has_floors and len(looked) > FEW and known < math.inf:
            looked = looked[self.floors(sought.share, gaps[looked]) <= CLOSE * known]
        # A gap has no level if the best of all is above the greatest S of all.
        is_cut = self.feasible.has_all_levels and not sought.to_the_top
        cut = self.feasible.most_level if is_cut else MOST_LEVEL
        base = self.holding * (sought.lowest - self.offset)
        start = 0
        for some in self.parts(gaps[looked]):
            here = looked[start : start + len(some)]
            start += len(some)
            levels[here], costs[here] = self.walk(
                some,
                # The best S is never below 0.
                np.maximum(self.items(some) + self.feasible.least_point, 0),
                fixed[here] if len(fixed) else NONE,
                share=sought.share,
                ratio=self.ratio,
                is_nested=self.is_nested,
                feasible=self.feasible,
                cut=cut,
                base=base,
                known=known,
            )
        return levels, costs

    def least_of(
        self, gaps: Whole, sought: Sought, known: float = math.inf
    ) -> Candidate:
        """Returns the cheapest of `levels_of`, with its gap in place of the reorder point."""
        if not len(gaps):
            return NO_POLICY
        levels, costs = self.levels_of(gaps, sought, known)
        # The first of costs that are equal but for rounding. With several lead times, transforms have rounded them.
        ratio = 1 + NEAR if self.is_nested else CLOSE
        best = int((costs <= costs.min() * ratio).argmax())
        return Candidate(float(costs[best]), int(gaps[best]), int(levels[best]))

    def cheapest(self, sought: Sought) -> Candidate:
        """Returns the cheapest policy of all gaps that may cost least, or what a search finds if these take too long.
        Its gap stands in place of the reorder point."""
        grid = self.grid()
        # The gap of the economic order quantity (Zipkin 2000, section 3.2).
        gap = math.sqrt(2 * self.setup * self.one.mean / (self.holding * self.step))
        usual = min(self.most, round(gap))
        most = self.most
        known = NO_POLICY
        first = self.every_gap(usual, usual)
        for gaps in (first if len(first) else grid[-1:], grid):
            if known.cost == math.inf or not self.is_nested:
                few = self.least_of(gaps[gaps <= most], sought, known.cost)
                known = min(known, few)
                if known.cost < math.inf:
                    most = self.widest(known.cost, sought.lowest)
        if known.cost == math.inf:
            return NO_POLICY
        if not sought.fixed:
            sought = sought._replace(
                lowest=max(sought.lowest, self.lowest_point(known.cost))
            )
        most = self.widest(known.cost, sought.lowest)
        reviews = -(-self.longest // self.review)
        room = power_of(self.net, reviews).high + most
        of_gap = self.review * work_of(room, reviews) + self.spare * room
        if (most + 1) * of_gap > MOST_WORK and not self.is_nested:
            self.is_searched = True
            return self.searched(sought, known.cost, most)
        gaps = self.every_gap(self.first_gap(known.cost, most), most)
        found = self.least_of(
            gaps, sought._replace(to_the_top=self.is_nested), known.cost
        )
        return found if found.cost <= CLOSE * known.cost else known

    def searched(self, sought: Sought, known: float, most: int) -> Candidate:
        """Returns the cheapest policy of a grid of gaps that gets finer beside the best: see `grid.search`."""
        every = self.every_gap(0, self.most)

        def policies_of(places: Sequence[int]) -> list[Candidate]:
            """Returns policies of gaps, with infinite costs if they cost more than one that is known."""
            gaps = every[[*places]]
            levels, costs = self.levels_of(gaps[gaps <= most], sought, known)
            policies = [*map(Candidate, costs.tolist(), gaps.tolist(), levels.tolist())]
            return policies + [NO_POLICY] * (len(gaps) - len(policies))

        return search(policies_of, len(every) - 1)

    def best(self, share: float = 0.0) -> Candidate:
        """Returns the cheapest feasible policy that meets at least this share: that of all policies, if it is feasible."""
        if share not in self.found:
            free = self.free.best(share) if self.feasible != ALL else NO_POLICY
            if free.cost < math.inf and self.has(free):
                point = free.level - self.items(self.gap_of(free.point, free.level))
                self.found[share] = free._replace(point=point)
            else:
                self.found[share] = self.at_gap(
                    self.cheapest(Sought(share, lowest=self.feasible.least_point))
                )
        return self.found[share]

    def best_below_0(self, known: Candidate) -> Candidate:
        """Returns the cheapest policy if s may be below 0, beside the best one with s of at least 0. No low of it costs more
        than a period of the known one, and a low y below 0 costs at least `backlog` times -y.
        """
        least = -math.ceil(known.cost / self.backlog)
        below = self.within(Feasible(least_point=least))
        return below.at_gap(below.cheapest(Sought(lowest=least)))

    def at_gap(self, found: Candidate, point: int | None = None) -> Candidate:
        """Returns the policy of what a search has found, and perhaps a point."""
        return (
            self.policy(found.point, found.level, point)
            if found.cost < math.inf
            else NO_POLICY
        )

    def cheapest_of_gaps(self, gaps: Sequence[int], share: float) -> Candidate:
        """Returns the cheapest feasible policy of rising gaps that meets a share."""
        return self.at_gap(self.least_of(np.array(gaps), Sought(share)))

    def fullest(self) -> Candidate:
        """Returns the feasible policy that meets most demand at once, and has the fewest periods with a shortage: that of
        the greatest S and the least gap."""
        return self.policy(0, self.feasible.most_level)

    def nearest(self, share: float) -> Candidate:
        """Returns the cheapest feasible policy that meets a share, or the one that meets most."""
        best = self.best(share)
        return best if best.cost < math.inf else self.fullest()

    def best_with_point(self, point: int) -> Candidate:
        """Returns the cheapest feasible policy with a reorder point.

        If demand comes in packs, all S up to a pack higher have one gap. Their costs bend only at multiples of it. So
        S may cost least with what these rests have beyond the least of a gap, in items; or the greatest S may.
        """
        rests = sorted({0, -point % self.step, self.step - 1}) if self.exact else [0]
        found = [self.best_with_rest(point, rest) for rest in rests]
        top = min(self.feasible.most_level, point + self.feasible.most_gap)
        if len(rests) > 1 and top < ALL.most_level:
            found.append(self.policy(self.gap_of(point, top), top, point))
        return min(found)

    def best_with_rest(self, point: int, rest: int) -> Candidate:
        """Returns the cheapest feasible policy with a reorder point and a rest of S. If that S is not feasible, it is
        the first from there on."""

        def fixed(gaps: Whole) -> tuple[Whole, Whole]:
            spans: Whole = self.items(gaps)
            if self.exact:
                spans = gaps * self.step + rest
            return np.full(len(gaps), point), point + spans

        return self.at_gap(self.cheapest(Sought(lowest=point, fixed=fixed)), point)

    def best_with_level(self, level: int) -> Candidate:
        """Returns the cheapest feasible policy with an order-up-to level."""

        def fixed(gaps: Whole) -> tuple[Whole, Whole]:
            return level - self.items(gaps), np.full(len(gaps), level)

        return self.at_gap(self.cheapest(Sought(fixed=fixed)))
