"""What is asked for an item: its facts, its laws, and how it is to be planned."""
from __future__ import annotations

from collections.abc import Mapping, Sequence
from dataclasses import dataclass, field, replace
from fractions import Fraction
from functools import cached_property

from ..demand.cut_sales import expected_demands
from ..demand.fitted import Borrowed, FittedLaw, seen_law
from ..demand.borrowing import fit_demand, law_of
from ..demand.fitting import fit_lead, stated_law
from ..demand.learning import Prior
from ..errors import CrnplanError, Refused
from ..formats import MOST_DEMAND, MOST_ITEMS, MOST_LEAD, limits
from ..law import Law
from ..money import Costs, rounded_costs
from ..read.bounds import OrderBounds
from ..read.item import NEW, Item
from ..remarks import Remark, Value
from ..policies import Levels as Levels
from ..runs import Scenario
from ..theory.lattice import lattice_of, shape_of, theory_on
from ..theory.long_run import LongRun
from ..sentences import advice, sentence
from .answer import Figures, Laws
from .bounds import feasible_of
from .following import AtLevel
from .how import CLASS, NONE, Settings, without_season
from .prices import weight_of
from .seasons import InSeason, Stretch

MOST_GAPS = 4_000  # of a lattice: with 150 times as many, a search takes half a minute


class Unplanned(CrnplanError):
    """An item that has no plan, by a fault that is a remark."""

    def __init__(self, fault: Remark) -> None:
        super().__init__(sentence(fault), advice(fault))
        self.fault = fault


class NoPolicy(Unplanned, Refused):
    """There is no best policy within the ranges of s and S, or none with the wanted share of demand met at once, or
    nothing to plan for or by."""


def rounded(levels: Levels | None, box: int) -> Levels | None:
    """Returns levels in boxes, rounded; None if there are none."""
    return levels and (round(levels[0] / box), round(levels[1] / box))


@dataclass(frozen=True, eq=False)
class Terms:
    """What theory takes of an item: its facts, its costs as whole rates of a box with their scale, its laws in boxes,
    and the settings. `known` is a theory of the same laws and other costs, whose tables are used.
    """

    item: Item
    settings: Settings
    rates: Mapping[str, int]
    scale: Fraction
    demand: Law
    lead: Law
    returns: Law | None
    known: LongRun | None = field(default=None, kw_only=True)

    @property
    def levels(self) -> Levels | None:
        """Returns today's policy in boxes; None if there is none."""
        return rounded(self.item.levels, self.item.box)

    @property
    def override(self) -> Levels | None:
        """Returns the policy in boxes that the planner has set; None if there is none."""
        override = self.item.override
        return rounded(override.levels, self.item.box) if override else None

    @property
    def has_backlog(self) -> bool:
        return self.item.backlog is not None

    @property
    def is_new(self) -> bool:
        return self.item.past == NEW

    @property
    def is_stated(self) -> bool:
        """Returns whether the law of demand is stated, whatever the history says."""
        return self.item.law is not None

    @property
    def bounds(self) -> OrderBounds:
        """Returns the bounds of the item's policies, in items."""
        return self.settings.bounds_of(self.item)

    @property
    def together(self) -> str | None:
        """Returns the group with which the item is planned together; None if it is planned by itself."""
        return self.settings.group_of(self.item)

    @property
    def price(self) -> float | None:
        """Returns what a box costs that is not met at once, beside orders and stock, by the price of the item's group: in
        money. None if there is none."""
        group, prices = self.together, self.settings.prices
        if group is None or prices is None or group not in prices.groups:
            return None
        weight = weight_of(self.item)
        return prices.groups[group].price * weight * self.item.box

    def whole_cost(self, figures: Figures) -> float:
        """Returns what a policy costs a period, with what it does not meet at once by the price of the item's group."""
        unmet = (1 - figures.fill) * float(self.demand.mean)
        return figures.cost + (self.price or 0.0) * unmet

    @property
    def wanted(self) -> Fraction | float | None:
        """Returns the share that is wanted, of demand at once or of periods without a shortage; of an item that is planned
        together with others the least one. None if none is wanted."""
        if self.together is None:
            return self.item.wanted
        return self.settings.floor

    @property
    def usual(self) -> Sequence[float]:
        """Returns demands of the item, by whose mean it is slow or fast: the law has that of a new one, or of one whose
        law is stated."""
        if self.is_new or self.is_stated:
            return [float(self.demand.mean) * self.item.box]
        return self.item.known.counts

    @property
    def aim(self) -> float | None:
        """Returns the share at which the plan aims by the law: the wanted one, or what the past of the catalogue makes of a
        wanted fill rate. None if none is wanted."""
        wanted, aims = self.wanted, self.settings.aims
        if wanted is None:
            return None
        if aims is None or self.counts_periods:
            return float(wanted)
        return aims.aim(self.usual, float(wanted))

    @property
    def counts_periods(self) -> bool:
        """Returns whether a share of periods without a shortage is wanted."""
        return self.item.no_shortage is not None

    def met(self, figures: Figures) -> float:
        """Returns what a policy meets of that of which a share is wanted: of demand at once, or of periods."""
        return figures.no_shortage if self.counts_periods else figures.fill

    @property
    def implied_backlog(self) -> int:
        """Returns the backlog rate; without one, that by which the wanted share would be best for a newsvendor."""
        share = self.item.wanted
        if share is None or self.has_backlog:
            return self.rates["backlog"]
        return max(1, round(self.rates["holding"] * share / (1 - share)))

    @property
    def laws(self) -> Laws:
        """Returns the laws as they are kept."""
        returns = self.returns and self.returns.table
        return Laws(self.item.box, self.demand.table, self.lead.table, returns)

    def items(self, levels: Levels) -> dict[str, Value]:
        """Returns s and S of a policy in items, as facts of a remark."""
        return {"s": levels[0] * self.item.box, "S": levels[1] * self.item.box}

    def money(self, amount: float) -> float:
        return amount / float(self.scale)

    @cached_property
    def _scenario(self) -> Scenario:
        """Returns the scenario of today's policy, or of none, with the rates. What was read or fitted is within the
        program's ranges, but cases and smaller boxes may have larger demands and levels: raises ScenarioError. Costs of
        cases may be larger too, as theory has no range for them."""
        settings, today = self.settings, self.levels
        made = Scenario.of_laws(
            self.demand,
            self.lead,
            self.returns,
            Costs(**{"backlog": 1, **self.rates, "unit": 0}),
            today,
            0,
            settings.periods,
            settings.replications,
            f"{settings.seed}\n{self.item.name}",
        )
        lot = self.bounds.lot.counted_in(self.item.box)
        made = replace(made, review=self.item.review, lot=lot)
        fits = (
            self.demand.values[-1] <= MOST_DEMAND
            and self.lead.values[-1] <= MOST_LEAD
            and (today is None or today[1] <= MOST_ITEMS)
        )
        if fits:
            return made
        return made.changed()  # which checks it, and names all faults

    def scenario(self, backlog: int | None = None, initial: int = 0) -> Scenario:
        """Returns the scenario of today's policy, or of none, with a backlog rate, by default that of the rates or else
        1, without which theory finds no best policy. Its key follows from the item's name and the seed.
        """
        scenario = self._scenario
        if backlog is not None:
            costs = replace(scenario.costs, backlog=backlog)
            scenario = replace(scenario, costs=costs)
        return replace(scenario, initial=initial)

    def for_theory(self) -> Scenario:
        """Returns the scenario with a backlog rate by which theory has policies that meet a wanted share: with hardly any
        it would be far too coarse."""
        return self.scenario(self.implied_backlog)

    @cached_property
    def theory(self) -> LongRun:
        """Returns the theory of the item. Raises Refused if there is none.

        Without a backlog cost only setup and stock cost something. The lattice is then chosen by the implied backlog
        rate.
        """
        scenario, (point, level) = self.scenario(), self.levels or (0, 0)
        feasible = feasible_of(self.bounds, self.item.box, self.demand)
        shape = shape_of(self.for_theory())
        lattice = lattice_of(scenario, shape, level - point, MOST_GAPS)
        theory = theory_on(scenario, shape, *lattice, feasible, self.known)
        return theory.counting(self.counts_periods)

    @property
    def by_run(self) -> bool:
        """Returns whether costs and savings are those of a run: if theory is rounded, unless orders are, as no run's are."""
        return not (self.theory.exact or self.theory.spare)

    def figures(self, levels: Levels) -> Figures:
        """Returns theory's figures of a policy, whose levels are in boxes. Without a backlog cost only orders and stock
        cost something."""
        known, box, rates = self.theory.figures(*levels), self.item.box, self.rates
        cost = known.cost
        if not self.has_backlog:
            cost = rates["setup"] * known.orders + rates["holding"] * known.stock
        point, level = levels[0] * box, levels[1] * box
        if self.item.levels and levels == self.levels:  # may be in parts of boxes
            point, level = self.item.levels
        money, stock = self.money(cost), known.stock * box
        return Figures(
            point, level, money, known.fill, known.short, stock, known.orders
        )


@dataclass(frozen=True, eq=False)
class Question(Terms):
    """What is asked for an item: its terms, with laws that are fitted.

    `expected` is what was asked for in its cut periods, as its likeliest law has it, to which its law is fitted too.
    `borrow` says from whom its law is learned, and `prior` what was learned. `rate_error` is by which share a rate is
    rounded. `before` is the policy of an earlier plan in boxes; None if there is none, or not in whole boxes. An item
    that is planned by its season has the counts that it might have had without, and the law of a part of the year; None for others.
    One whose `level` is followed has the law of its record at that; None for others.
    """

    demand: FittedLaw
    lead: FittedLaw
    returns: FittedLaw | None
    prior: Prior = field(repr=False)
    borrow: str
    rate_error: float
    before: Levels | None = None
    season: InSeason | None = field(default=None, repr=False)
    level: AtLevel | None = field(default=None, repr=False)
    expected: tuple[int, ...] = ()

    @property
    def counts(self) -> tuple[int, ...]:
        """Returns the demands that the law is fitted to: those that are known, and what is expected of cut periods."""
        return self.item.known.counts + self.expected

    @property
    def group(self) -> str | None:
        """Returns the class from which the law is learned; None if that is all."""
        return self.item.group if self.borrow == CLASS else None

    @property
    def learned(self) -> Borrowed | None:
        """Returns what the law has learned from other items. None if it was not to learn, or its guard spoke against
        that."""
        borrowed = self.demand.diagnostics.borrowed
        return borrowed if borrowed and not borrowed.alone else None

    def seed(self, purpose: str) -> int:
        """Returns the seed of random numbers for a purpose."""
        return self.settings.seed_of(purpose, self.item.name)

    @property
    def as_read(self) -> Item:
        """Returns the item with the counts that it had."""
        return self.season.item if self.season else self.item

    @property
    def all_year(self) -> FittedLaw:
        """Returns the law of demand, without a season that the item may have."""
        return self.season.law if self.season else self.demand

    @property
    def flat(self) -> Question:
        """Returns the question as if there were no season, by the counts and the law without it."""
        return replace(self, demand=self.all_year, season=None)

    @property
    def of_record(self) -> FittedLaw:
        """Returns the law of the item's record, without a season, and whatever its level is now."""
        return self.level.law if self.level else self.all_year

    def coming(self, law: Law) -> Law:
        """Returns a law of the record as it is at the level and in the part of the year of the question."""
        for moved in (self.level, self.season):
            law = moved.of(law) if moved else law
        return law

    def at(self, season: InSeason) -> Question:
        """Returns the question of a part of the year, by the season as it is in that."""
        demand = season.law.like(season.of(season.law))
        return replace(self, demand=demand, season=season)

    @property
    def as_sold(self) -> FittedLaw:
        """Returns the law of what is sold: with a season, in its part of the year."""
        return self.season.as_sold if self.season else self.demand

    @property
    def seen(self) -> Law:
        """Returns the empirical law of what was sold, in boxes: with a season, in its part of each year."""
        counts = self.season.sold if self.season else self.item.known.counts
        return seen_law([-(-count // self.item.box) for count in counts])

    def during(self, stretch: Stretch, before: Levels | None = None) -> Question:
        """Returns the question of another part of the year, which perhaps has the s and S of an earlier plan."""
        assert self.season is not None
        asked = self.at(replace(self.season, stretch=stretch))
        return replace(asked, before=in_boxes(before, self.item.box))

    def moved(self, level: AtLevel | None, season: InSeason | None) -> Question:
        """Returns a question whose law of demand is that of the record with the level and the season of another one, if
        that has any."""
        question, law = self, self.demand
        if level:
            level, law = replace(level, law=law), law.like(level.of(law))
            question = replace(self, demand=law, level=level)
        if season:
            question = question.at(replace(season, law=law))
        return question

    def alone(self) -> Question:
        """Returns the question of an item that learns its law from no other."""
        law = fit_demand(self.counts, box=self.item.box)
        asked = replace(self, borrow=NONE, prior=Prior(NONE), demand=law)
        return asked.moved(self.level, self.season)


def finest(
    rates: Mapping[str, int], scale: Fraction
) -> tuple[dict[str, int], Fraction]:
    """Returns rates and their scale times the greatest power of ten that the program's ranges allow.

    Beside them a backlog rate of 1, without which theory finds no best policy, then says next to nothing.
    """
    most = min(limits("costs", name)[1] // rate for name, rate in rates.items() if rate)
    times = 10 ** (len(str(most)) - 1)
    return {name: rate * times for name, rate in rates.items()}, scale * times


def in_boxes(levels: Levels | None, box: int) -> Levels | None:
    """Returns levels in boxes; None if there are none, or if they are not in whole boxes."""
    if levels is None or levels[0] % box or levels[1] % box:
        return None
    return levels[0] // box, levels[1] // box


def rates_of(item: Item) -> tuple[dict[str, int], Fraction, float]:
    """Returns the costs of a box of an item as whole rates, with their scale and the share by which one is rounded.
    Raises Refused if its costs are too far apart."""
    box = item.box
    costs = {"setup": item.setup, "holding": box * item.holding}
    if item.backlog is not None:
        costs["backlog"] = box * item.backlog
    rates, scale, error = rounded_costs(costs, "holding")
    if item.backlog is None:
        rates, scale = finest(rates, scale)
    return rates, scale, error


def terms_of(item: Item, laws: Laws, settings: Settings) -> Terms:
    """Returns the terms of an item with the laws of its plan. Raises Refused if its costs are too far apart."""
    rates, scale, _ = rates_of(item)
    return Terms(item, settings, rates, scale, laws.demand, laws.lead, laws.returns)


def expected_of(item: Item, fit: str) -> tuple[int, ...]:
    """Returns what was asked for in the cut periods of an item by its likeliest law, in whole boxes; nothing for periods
    without sales, and if no law of the method says it."""
    if item.law or not any(item.least):
        return ()
    box = item.box
    known = [-(-count // box) for count in item.known.counts]
    least = [-(-count // box) for count in item.least]
    return tuple(box * count for count in expected_demands(known, least, fit))


def why_unknown(item: Item, prior: Prior, borrow: str) -> str | None:
    """Returns the code for which a new item learns its law from no others; None if it does."""
    if NONE in (borrow, prior.borrow):
        return "new without learning"
    return "new without class" if borrow == CLASS and not item.group else None


def question_of(
    item: Item,
    settings: Settings,
    prior: Prior | None = None,
    before: Levels | None = None,
) -> Question:
    """Returns the question of an item, whose law is perhaps learned, and which has perhaps the s and S of an earlier
    plan. Raises Refused if its numbers are none of a scenario, and NoPolicy for a new item without a law to learn.
    """
    as_read, prior = item, prior or Prior(NONE)
    item, index = without_season(item, settings)
    borrow = item.borrow or settings.borrow or NONE
    if settings.fit != "auto" or item.law:
        borrow = NONE
    if item.past == NEW and (why := why_unknown(item, prior, borrow)):
        raise NoPolicy(Remark(why, {"periods": len(item.known.counts)}))
    known, box, expected = item.known, item.box, expected_of(item, settings.fit)
    counts = known.counts + expected
    rates, scale, error = rates_of(item)
    if item.law:
        demand = stated_law(item.law, counts, box)
    elif borrow == NONE:
        demand = fit_demand(counts, method=settings.fit, box=box)
    else:
        group = item.group if borrow == CLASS else None
        demand = law_of(prior, counts, group, box=box, is_new=item.past == NEW)
    returns = None
    if known.returns:
        returns = fit_demand(known.returns, method=settings.fit, box=box)
    lead = fit_lead(item.leads)
    question = Question(
        item,
        settings,
        rates,
        scale,
        demand,
        lead,
        returns,
        Prior(NONE) if borrow == NONE else prior,
        borrow,
        error,
        in_boxes(before, box),
        expected=expected,
    )
    level = settings.following and settings.following.at_level(item, demand)
    season = None
    if settings.seasons and index:
        season = settings.seasons.in_season(as_read, index, demand, lead)
    return question.moved(level or None, season)
