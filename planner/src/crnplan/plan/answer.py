"""What is answered for an item: numbers, codes and facts. Words are made of them where they are shown."""
from __future__ import annotations

from dataclasses import dataclass, replace
from fractions import Fraction
from typing import NamedTuple

from ..demand.rate import at_rate
from ..law import Law
from ..read.item import NEW, Item
from ..remarks import Remark

# Policies: today's, the chosen one, the one that the item would get by its own history alone, that of an earlier plan,
# and the one that would be chosen if that one did not stay.
TODAY, CHOSEN, ALONE, BEFORE, UNDAMPED = (
    "today",
    "chosen",
    "alone",
    "before",
    "undamped",
)
OVERRIDE = "override"  # that of the planner
# Verdicts. `more service`: today's policy misses the wanted fill, and keeping it costs more; or that costs less and
# meets less than the price of items that are planned together pays for. `bounded`: no policy
# within the bounds of the item has the wanted fill; the chosen one meets most.
CHEAPER, DEARER, UNDECIDED, SAME, SERVICE = (
    "cheaper",
    "dearer",
    "undecided",
    "same",
    "more service",
)
BOUNDED = "bounded"
COMPARED = CHEAPER, DEARER, UNDECIDED, SAME, SERVICE, BOUNDED, NEW
UNCOMPARED = "no policy today"  # the verdict on an item without one, beside which nothing is compared
# Whose figures costs and savings are: those of theory where it is exact, else those of the run.
THEORY, RUN = "theory", "run"
OURS = "disagrees", "failed"  # codes of faults of ours
IDLE = "no demand in record"  # the code of an item that nobody has asked for
BY_ITSELF = "planned by itself"  # the code of an item that has no price, by which it would weigh with others
NO_RUN = "no run"  # the code of an item whose policies crnsim can't run
DAMPED = "damped"  # the code of an item whose policy of an earlier plan stays


@dataclass(frozen=True)
class Figures:
    """A policy by theory in the long run: s (`point`) and S (`level`) in items; of a period the cost in money, the
    share of demand met at once, the share of periods that end with items owed, the mean stock in items, and orders.
    """

    point: int
    level: int
    cost: float
    fill: float
    short: float
    stock: float
    orders: float

    @property
    def levels(self) -> tuple[int, int]:
        return self.point, self.level

    @property
    def no_shortage(self) -> float:
        """Returns the share of periods that end with nothing owed."""
        return 1 - self.short


@dataclass(frozen=True)
class Correction:
    """The fill rate at which a plan aims by the past of its catalogue, the mean stock in items, by theory, of the policy
    that aims at the wanted one, and the share of demand that plans of the class with this aim met on the past, which is
    what the plan promises."""

    aim: float
    plain_stock: float
    met: float


@dataclass(frozen=True)
class Share:
    """What an item that is planned together with others adds to the share of demand that these meet: the name of its
    group, the share that is `wanted` of that, what an item of stock weighs, whether its policy has the fill rate that
    each has at least, and by the price of the group what an item costs that is not met at once, in money.
    """

    group: str
    wanted: float
    weight: float
    is_least: bool
    price: float


@dataclass(frozen=True)
class LawFacts:
    """The law of demand: its family, its share beside what was seen, the log10 of the Bayes factor for what it has
    learned from others (None if nothing), and its mean and standard deviation in items a period.
    """

    family: str
    share: float
    log10_bayes: float | None
    mean: float
    spread: float


@dataclass(frozen=True)
class Laws:
    """The laws of a plan: of a period's demand and of what comes back, in boxes of `box` items, and of lead times, in
    periods. `returns` is None if nothing comes back."""

    box: int
    demand: Law
    lead: Law
    returns: Law | None


@dataclass(frozen=True)
class CheckRun:
    """The run of crnsim beside the figures of theory, today's policy and the chosen one on the same random numbers.

    Exact: totals in the program's units, of which `scale` are one of money, with the rates of a box and the initial
    stock in boxes; the difference of both costs (chosen less today) in a replication on average, and the variance of
    that mean. With the bias of the start taken out, in money of a period of the long run: both costs, what the chosen
    policy saves, and the standard error of that with the ends of its interval, which are None if the run has none.
    Without a policy today all that is beside that one is None.
    """

    key: str
    periods: int
    replications: int
    initial: int
    scale: Fraction
    setup: int
    holding: int
    backlog: int
    total_chosen: int
    cost_chosen: float
    total_today: int | None = None
    difference: Fraction | None = None
    variance: Fraction | None = None
    cost_today: float | None = None
    saving: float | None = None
    error: float | None = None
    low: float | None = None
    high: float | None = None


@dataclass(frozen=True)
class Answer:
    """The plan of an item.

    `saving`, and `cost_today` and `cost_chosen`, in money of a period of the long run, are those of `source`: of theory
    where it is exact, else of the run. What is beside today's policy, and that, are None if there is none. `alone` is
    the policy of the item's own history under the law that it has; None if there is none. So is `before`, that of an
    earlier plan, and `undamped`, which would be chosen if that one did not stay because a change gains too little.
    Theory counts in steps of `step` boxes. `confidence_cost` is what the confidence in a wanted fill costs a period,
    None without one; `coverage_cost` is what it costs that S, or S - s, covers no more periods of demand, None if that
    does not bind. `cost_promised` is what the chosen policy is promised to cost by the past of the catalogue, None if
    that was not tried. `correction` is None if the wanted fill is not corrected. `override` is the policy that the planner has set, None if there is none. `share` is None if the item is planned by itself.

    Of an item that is planned by its season, `calendar` has the levels of the coming year by its parts. Its costs,
    its savings and the figures of its policies are means over that year, each part as if it lasted, and its law is that
    without the season; all else is of the first part. It is empty for others.
    """

    verdict: str
    source: str
    cost_today: float | None
    cost_chosen: float
    saving: float | None
    today: Figures | None
    chosen: Figures
    alone: Figures | None
    before: Figures | None
    undamped: Figures | None
    step: int
    confidence_cost: float | None
    coverage_cost: float | None
    correction: Correction | None
    law: LawFacts
    laws: Laws
    run: CheckRun | None
    remarks: tuple[Remark, ...]
    override: Figures | None = None
    share: Share | None = None
    calendar: tuple[YearPart, ...] = ()
    cost_promised: float | None = None

    @property
    def parts(self) -> list[YearPart]:
        """Returns the parts of the calendar, which are plain tuples where they are read from a store."""
        return [YearPart(*cells) for cells in self.calendar]

    def part(self, period: int) -> YearPart | None:
        """Returns the part of the year of a coming period: of one after the year that of the same time of the year, and of one of
        the record the first. None without a season."""
        parts = self.parts
        if not parts:
            return None
        start, end = parts[0].first, parts[-1].end
        place = start + max(0, period - start) % (end - start)
        return next(part for part in parts if place < part.end)

    def laws_in(self, period: int) -> Laws:
        """Returns the laws of the part of the year of a coming period."""
        part = self.part(period)
        if part is None:
            return self.laws
        return replace(self.laws, demand=at_rate(self.laws.demand, part.factor))

    def chosen_in(self, period: int) -> Figures:
        """Returns the chosen policy with the levels of the part of the year of a coming period."""
        part = self.part(period)
        if part is None:
            return self.chosen
        return replace(self.chosen, point=part.s, level=part.S)

    @property
    def override_cost(self) -> float | None:
        """Returns what the planner's policy costs a period more than the chosen one, by theory; None without one."""
        return None if self.override is None else self.override.cost - self.chosen.cost

    @property
    def is_compared(self) -> bool:
        """Returns whether the item is compared with a policy of today. If so, it is in all sums, be it new or not."""
        return self.today is not None and self.verdict in COMPARED


class YearPart(NamedTuple):
    """The levels of an item in coming periods of one part of the year: the numbers of the first of them, and of the one after the
    last; s and S in items; and at which rate the law of demand without the season is.
    """

    first: int
    end: int
    s: int
    S: int
    factor: float


class CostParts(NamedTuple):
    """What a policy of an item costs a period, in money: its orders, its stock, and items that are late."""

    orders: float
    stock: float
    late: float

    @classmethod
    def of(cls, item: Item, figures: Figures, cost: float) -> CostParts:
        """Returns the parts of a cost of a policy: those of theory. If the cost is that of a run, each is the same share
        of it as of the cost by theory."""
        orders = float(item.setup) * figures.orders
        stock = float(item.holding) * figures.stock
        late = 0.0 if item.backlog is None else max(0.0, figures.cost - orders - stock)
        known = orders + stock + late
        times = cost / known if known else 0.0
        return cls(times * orders, times * stock, times * late)
