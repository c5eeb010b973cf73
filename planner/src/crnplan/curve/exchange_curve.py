"""Draws the exchange curve of a planned folder: stock value against the share of demand, by value, met at once."""
from __future__ import annotations

import itertools
import json
import math
from collections.abc import Iterable, Iterator, Mapping
from dataclasses import dataclass, replace
from functools import cached_property
from pathlib import Path
from typing import TYPE_CHECKING, Any, NamedTuple

from ..arguments import judged
from ..columns import columns_of
from ..drawing.pictures import Picture
from ..drawing.rendering import Money
from ..store.files import own_folder
from ..store.clusters import Scheduler
from ..store.means import Means
from ..money import Currency
from ..plan.answer import CHOSEN, TODAY, Answer
from ..plan.catalogue import planned_folder
from ..plan.how import Settings
from ..read.catalogue_reading import CATALOGUE
from ..store.stored import Store
from ..table import DataTable, Json, Result, aligned
from ..theory.levels import NEAR
from ..sentences import PREMISE, advised, sentence
from .budget import Budget, OffCurve, chosen_by, gap_of, with_more_orders
from .exchange import Items
from .gathered import Gathered, gather
from .parts import CurveChoice, Point
from .pictures import exchange_plot

if TYPE_CHECKING:
    import pandas as pd

CURVE, POLICIES = "curve.csv", "curve_policies.csv"


class CurvePoint(NamedTuple):
    """A point of the curve: of a price, or one that has a name, with what it is for a reader and its gap."""

    name: str
    point: Point
    gap: float = 0.0
    price: float | None = None
    said: str = ""


COLUMNS = columns_of("curve", "curve")
POLICY_COLUMNS = columns_of("curve", "policies")
ON_CURVE, SAME_STOCK, SAME_SERVICE, BUDGET = (
    "curve",
    "same stock",
    "same service",
    "budget",
)
# What each point is, for a reader.
SAID = {
    TODAY: "today",
    CHOSEN: "chosen item by item",
    SAME_STOCK: "today's stock, best service",
    SAME_SERVICE: "today's service, least stock",
    BUDGET: "your budget",
}
TOGETHER = "chosen together"  # the point of a plan with one price
KEPT = "currency", "table", "text", "policy_table"  # of a curve by its folder
DRAWN = "curve"  # the fact with the points, beside the answers of a plan
NOTES = (
    "Met at once: the share of demand by value. All figures are by theory, rounded and unproved, of the long run under "
    f"the laws fitted to the histories, {PREMISE}.",
    "One price for a unit of value that is not met at once chooses the policy of each item, with setup and holding as "
    "in the masters. Points with more orders or fewer lie beside the curve.",
    "Above the best: setup and holding are at most so much above the least of all policies that were looked at with "
    "the same service (and no more orders or stock, where these are bounded too).",
)


@dataclass(frozen=True, eq=False, repr=False)
class ExchangeCurve(Result):
    """The curve: its points by price, the points that have a name, and why others are missing. `written` names the point
    whose policies are written: those of the `choice`. Tables are read from the folder when they are first asked for; a
    pickle has them all.
    """

    gathered: Gathered
    curve: list[CurvePoint]
    points: dict[str, CurvePoint]
    missing: dict[str, str]
    written: str
    choice: CurveChoice

    @property
    def content(self) -> list[list[dict[str, Json]]]:
        """Returns the points, and the policy of each item, as plain data."""
        return [self.table.records, self.policy_table.records]

    @property
    def named(self) -> dict[str, Point]:
        """Returns the points that have a name by what they are."""
        return {its.said: its.point for its in self.points.values()}

    @property
    def _drawn(self) -> list[tuple[str, Point]]:
        """Returns the points of its picture: the named ones with what they are, then those of the line."""
        return [(its.said, its.point) for its in (*self.points.values(), *self.curve)]

    def keep(self) -> ExchangeCurve:
        """Reads all tables, and returns the curve, which no longer needs the folder."""
        for name in KEPT:
            getattr(self, name)
        return self

    def __getstate__(self) -> dict[str, Any]:
        """Returns what a pickle has: all but what is in the folder."""
        return {
            name: its for name, its in vars(self.keep()).items() if name != "gathered"
        }

    @cached_property
    def currency(self) -> Currency:
        """Returns the currency of values and costs."""
        return self.gathered.folder.currency

    @cached_property
    def table(self) -> DataTable:
        """Returns the points: named ones first, then the curve by rising price."""
        rows = [*self.points.values(), *self.curve]
        return self.gathered.folder.table(COLUMNS, rows)

    @cached_property
    def text(self) -> str:
        """Returns the named points as a table, and what they mean."""
        folder, parts = self.gathered.folder, self.gathered.parts
        first = f"{self.gathered.items.count:,} items are on the curve"
        for name, remark in itertools.islice(parts.left_out(), 1):
            first += f"; {parts.out:,} are left out, as {name}: {sentence(remark)} ({POLICIES} names all)"
        lines = [first, "", aligned(self._rows())]
        if parts.without_today:
            lines.append(
                f"Today counts the chosen policy of {parts.without_today:,} items that have none today."
            )
        for name, why in self.missing.items():
            lines.append(f"{SAID[name]}: there is no such point: {why}")
        policies = SAID.get(self.written, "the least stock")
        lines += [
            self.notes,
            f'{CURVE} has the curve; {POLICIES} has the policies of "{policies}", in {folder.path}.',
        ]
        return "\n".join(lines) + "\n"

    def _rows(self) -> list[list[str]]:
        """Returns the named points as rows of texts, behind their heading."""
        folder = self.gathered.folder
        money, every = folder.currency.places, folder.every
        unit = f", {folder.currency.code}" if folder.currency.code else ""
        rows = [
            [
                "",
                f"stock value{unit}",
                "met at once",
                f"orders a {every}",
                f"setup and holding a {every}{unit}",
                "above the best",
            ]
        ]
        for its in self.points.values():
            rows.append(
                [
                    its.said,
                    f"{its.point.value:,.{money}f}",
                    f"{its.point.fill:.2%}",
                    f"{its.point.orders:,.4g}",
                    f"{its.point.cost:,.{money}f}",
                    gap_text(its.gap),
                ]
            )
        return rows

    @property
    def notes(self) -> str:
        """Returns what the figures mean."""
        return "\n".join(NOTES)

    def plot(self) -> Picture:
        """Draws the curve with its named points."""
        money = Money(self.currency.code, self.currency.decimals)
        return Picture.of([exchange_plot(self._drawn, money)])

    @property
    def policies(self) -> pd.DataFrame:
        """Returns the policy of each item, with its figures of a period; and the items that are not on the curve, with
        the reason."""
        return self.policy_table.frame

    @property
    def policy_lines(self) -> Iterator[str]:
        """Yields the policies as lines of a file. They may be many: they are not kept."""
        rows = policy_rows(self.gathered, self.choice)
        return self.gathered.folder.table(POLICY_COLUMNS, rows).lines

    @cached_property
    def policy_table(self) -> DataTable:
        """Returns the policy of each item, as `policies`."""
        rows = [*policy_rows(self.gathered, self.choice)]
        return self.gathered.folder.table(POLICY_COLUMNS, rows)


def policy_rows(
    gathered: Gathered, choice: CurveChoice
) -> Iterator[Mapping[str, object]]:
    """Yields the policy of each item in a choice with its figures, and then each item that is not on the curve, with the
    reason and what to do."""
    for policy in gathered.items.policies(choice):
        yield {"chosen": policy}
    for name, remark in gathered.parts.left_out():
        yield {"chosen": {"name": name}, "left_out": advised(remark)}


def points_of(
    gathered: Gathered, budget: Budget
) -> tuple[dict[str, CurveChoice], dict[str, str]]:
    """Returns the choices that have a name, and of others why there are none. Raises Refused for a budget that no
    choice keeps."""
    today = gathered.points[TODAY]
    choices = dict[str, CurveChoice]()
    missing = dict[str, str]()
    for name, asked in (
        (SAME_STOCK, Budget(value=today.value)),
        (SAME_SERVICE, Budget(fill=today.fill)),
    ):
        try:
            choices[name] = _as_today(gathered.items, today, asked)
        except OffCurve as off:
            missing[name] = off.why
    if budget.orders is not None and budget.value is budget.fill is None:
        budget = Budget(fill=today.fill, orders=budget.orders)
    if budget != Budget():
        choices[BUDGET] = chosen_by(gathered.items, budget)
    return choices, missing


def _as_today(items: Items, today: Point, asked: Budget) -> CurveChoice:
    """Returns the choice with today's stock or service.

    With many small orders today may be better than the curve, which has fewer; or the curve begins above it. Then the
    choice has more orders, at most today's.
    """
    try:
        choice = chosen_by(items, asked)
    except OffCurve:
        choice = None
    if (
        choice
        and choice.point.fill >= today.fill * (1 - NEAR)
        and choice.point.value <= today.value * (1 + NEAR)
    ):
        return choice
    try:
        return with_more_orders(items, replace(asked, orders=today.orders))
    except OffCurve:
        if choice is None:
            raise
        return choice


def curve_points(items: Items) -> list[CurvePoint]:
    """Returns the points of the curve: for each price of the grid at which some item's policy changes."""
    points = list[CurvePoint]()
    for stretch in items.ladder().grid[:-1]:
        point = items.point(stretch.after)
        if not points or point != points[-1].point:
            points.append(CurvePoint(ON_CURVE, point, price=stretch.high))
    return points


def said_of(name: str, settings: Settings) -> str:
    """Returns what a point is, for a reader: that of a plan whose items are planned together is not one item by item."""
    if name == CHOSEN and settings.prices:
        return TOGETHER
    return SAID[name]


def draw(gathered: Gathered, budget: Budget) -> ExchangeCurve:
    """Returns the curve with its points."""
    choices, missing = points_of(gathered, budget)
    items = gathered.items
    points = dict[str, CurvePoint]()
    for name, point in gathered.points.items():
        said = said_of(name, gathered.folder.settings)
        points[name] = CurvePoint(name, point, gap_of(items, point), said=said)
    for name, choice in choices.items():
        said = SAID[name]
        if choice.dearer.stock:
            said += " (more orders)"
        if choice.dearer.orders:
            said += " (fewer orders)"
        gap = gap_of(items, choice.point, choice.dearer)
        points[name] = CurvePoint(name, choice.point, gap, said=said)
    named = [name for name in (BUDGET, SAME_SERVICE, SAME_STOCK) if name in choices]
    # If neither of today's figures is on the curve, the policies are those of its beginning.
    written, *_ = *named, ON_CURVE
    choice = choices[written] if choices else items.ladder().with_price(0)
    curve = curve_points(items)
    return ExchangeCurve(gathered, curve, points, missing, written, choice)


def gap_text(gap: float) -> str:
    """Returns a gap for a reader, rounded up: it is a bound."""
    return (
        f"{math.ceil(gap * 10_000 - 1e-6) / 100:.2f}%"
        if gap < math.inf
        else "not known"
    )


def keep_curve(answers: Store[Answer], points: Iterable[tuple[str, Point]]) -> None:
    """Keeps the points of the curve of these answers for its page, the named ones first. Each has what it is for a
    reader: nothing on the line itself."""
    rows = [{"name": name, **point._asdict()} for name, point in points]
    answers.keep_facts({DRAWN: json.dumps({"plan": answers.digest, "points": rows})})


def kept_curve(answers: Store[Answer]) -> list[tuple[str, Point]] | None:
    """Returns the points of the curve that is kept beside answers: none if they are of an earlier plan, None if there
    is no curve."""
    text = answers.fact(DRAWN)
    if text is None:
        return None
    tree = json.loads(text)
    rows = tree["points"] if tree["plan"] == answers.digest else []
    return [(row.pop("name"), Point(**row)) for row in rows]


@judged("curve", "call", "common")
def exchange_curve(
    folder: str | Path,
    *,
    stock_value: float | None = None,
    fill: float | None = None,
    orders: float | None = None,
    jobs: int | None = None,
    cluster: Scheduler | None = None,
    progress: bool = False,
) -> ExchangeCurve:
    """Returns the exchange curve of a planned folder: how much service a stock of some value can give.

    Points are `today`, `chosen` (item by item, by the plan), `same stock` and `same service` (as today's, on the curve),
    `budget`, and `curve` by rising price of a unit of value that is not met at once. Source: Silver, Pyke and Thomas,
    Inventory and Production Management in Supply Chains, 2017, exchange curves.

    Parameters
    ----------
    folder : str or Path
        The folder of a plan. It gets curve.csv with the points, and curve_policies.csv with the policies of the budget (without
        one, of today's service with the least stock) and the items without a price or a plan.
        Candidates are kept there.
    stock_value : float, above 0, optional
        A budget: the value of the mean stock at most, in money.
    fill : float, above 0 and below 1, optional
        A budget: the share of demand by value that is met at once, at least.
    orders : float, optional
        The orders of a period at most, above 0. With it alone the service is today's.
    jobs : int, from 1 to 1,024, optional
        How many processes work; by default one for each processor. The bytes are the same.
    cluster : str or distributed.Client, optional
        The address of a Dask scheduler, or a client, whose workers work in place of processes.
    progress : bool, default False
        Shows on standard error how many items are done.

    Returns
    -------
    ExchangeCurve
        `frame` has the points and `policies` the policy of each item. Columns, of a period in the long run and by theory: point,
        price, value (of the mean stock, in money), fill (the share of demand by value that is met at once), orders, cost
        (setup and holding, in money), and gap (the share by which the cost is at most above the least with this service).

    Raises
    ------
    Refused
        For a folder without a plan, and a budget that no policies keep.

    Examples
    --------
    >>> curve = crn.exchange_curve(plan.path, fill=0.95, jobs=1)
    >>> list(curve.frame["point"][:3])
    ['today', 'chosen', 'same stock']
    >>> list(curve.policies["item"])
    ['bolt', 'nut', 'washer']
    """
    budget, path = Budget(stock_value, fill, orders), Path(folder)
    means = Means(jobs, cluster, shown=progress)
    with (
        planned_folder(path) as planned,
        own_folder(path, CATALOGUE, (CURVE, POLICIES)) as own,
        gather(own, planned, means) as gathered,
    ):
        drawn = draw(gathered, budget)
        own.write(CURVE, drawn.table.lines)
        own.write(POLICIES, drawn.policy_lines)
        keep_curve(planned.store, drawn._drawn)
    return drawn
