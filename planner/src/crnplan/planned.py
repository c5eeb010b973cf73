"""What a notebook gets: the plan of a catalogue and that of one item as values."""
from __future__ import annotations

import datetime
from collections.abc import Iterable
from dataclasses import dataclass, field, fields, replace
from functools import cached_property
from pathlib import Path
from typing import TYPE_CHECKING, Any, ClassVar, SupportsIndex

from .curve.exchange_curve import ExchangeCurve, exchange_curve
from .drawing.pictures import Picture, savings_picture
from .arguments import judged
from .catalogues import Catalogue
from .given import taken, taking
from .read.items import Reading
from .errors import CrnplanError, Refused, argument
from .store.files import Room
from .store.clusters import Scheduler
from .show.catalogue_page import report, words_on
from .show.catalogue_tables import (
    catalogue_summary,
    decisions_of,
    details_of,
    hardly_planned,
    rejects_of,
)
from .show.change_tables import change_lines, changes_of
from .show.calendars import levels_of
from .show.lateness import lateness_of
from .show.today_tables import OrdersToday, orders_today
from .show.workbook import write_workbook
from .show.item_plots import history_plot
from .show.item_page import ItemWords, item_page, item_summary, policies_of
from .plan.catalogue import planned_folder
from .plan.totals import Totals
from .plan.survey import Survey
from .read.catalogue_reading import READ
from .read.frames import name_of
from .read.opening import Table
from .remarks import Remark
from .runs import Scenario
from .table import DataTable, Json, Result
from .sentences import counted

if TYPE_CHECKING:
    import pandas as pd


@dataclass(frozen=True, eq=False, repr=False)
class ItemFigures(Result):
    """A table of an item's plan, with what is said of it."""

    cells: DataTable = field(repr=False)
    said: str = field(default="", repr=False)

    @property
    def table(self) -> DataTable:
        """Returns the table."""
        return self.cells

    @property
    def notes(self) -> str:
        """Returns what is said of it."""
        return self.said


@dataclass(frozen=True, eq=False, repr=False)
class PlannedItem(Result):
    """The plan of one item. `frame` has its policies, the cheapest first: cost by theory and by crnsim, service, stock,
    orders, and the difference from today's, or else from the chosen one's, with its interval. `text` says what was decided.
    """

    words: ItemWords = field(repr=False)
    brief: ClassVar = "policy s S cost difference verdict fill stock".split()

    @property
    def headline(self) -> str:
        """Returns the item, s and S of its chosen policy, and what that costs a period."""
        words = self.words
        chosen, cost = words.whole.chosen, words.money(words.whole.cost_chosen)
        levels = f"s {chosen.point:,}, S {chosen.level:,}"
        return f"{words.item.name}: {levels}, costs {cost} a {words.every}"

    @property
    def table(self) -> DataTable:
        """Returns the policies of the item, the cheapest first."""
        return policies_of(self.words)

    @cached_property
    def text(self) -> str:
        """Returns what was decided, the policies, and what must be said of them."""
        return item_summary(self.words)

    @property
    def scenario(self) -> Scenario:
        """Returns the scenario by which the item is planned, in boxes: its laws, costs and policies."""
        depth = self.words.depth
        return replace(depth.scenario, scale=depth.question.scale)

    @property
    def notes(self) -> str:
        """Returns what was decided, in sentences."""
        return "\n".join(
            [self.words.headline, *self.words.said, *self.words.warnings, ""]
        )

    def doubt(self) -> ItemFigures:
        """Returns what each policy costs and meets under the laws that the item's history allows."""
        return ItemFigures(self.words.doubt, self.words.promise)

    def plot(self) -> Picture:
        """Draws the history of the item with its law."""
        words = self.words
        names = words.period_names
        return Picture.of([history_plot(words.depth, names, words.every)])

    @property
    def page(self) -> str:
        """Returns the page of the item as HTML, which asks for no other file."""
        return item_page(self.words)


# The words of reading that a day's orders show.
OF_TODAY = "columns", "units", "where", "supplier_min"


@dataclass(frozen=True, eq=False, repr=False)
class Plan(Result):
    """The plan of a catalogue. `frame` and `decisions` have a row for each item, unrounded; `text` says what it comes to.

    Attributes
    ----------
    path : Path
        The folder with what was planned, which goes with the plan, or stays where `out` said.
    learned : tuple of Remark
        What is to be said of what items learned from one another.
    program : str, Path or None
        The path of crnsim, if one was named.
    """

    path: Path
    learned: tuple[Remark, ...] = field(default=(), repr=False)
    program: str | Path | None = field(default=None, repr=False)
    room: Room | None = field(default=None, repr=False, compare=False)
    brief: ClassVar = (
        "item s_chosen S_chosen saving verdict s_today S_today fill_chosen".split()
    )

    @property
    def headline(self) -> str:
        """Returns how many items are planned, by how many periods, and what that saves; or why that is not known."""
        try:
            with planned_folder(self._folder) as folder:
                items = counted(len([*self.table.rows]), "item")
                periods = counted(folder.read.length, folder.every)
                saving = folder.currency.text(float(self.totals["saving"]))
                lost = hardly_planned(folder.counts["items"])
        except CrnplanError as fault:
            return str(fault)
        parts = [items, periods, f"saves {saving} a {folder.every}", *lost]
        return ", ".join(parts)

    @property
    def content(self) -> list[list[dict[str, Json]]]:
        """Returns the decisions with their details, what is left out, the levels by month, and the changes, as plain
        data."""
        with planned_folder(self._folder) as folder:
            left = rejects_of(folder.read.rejects(Survey.of(folder).faults))
            details = details_of(folder, folder.answers())
            tables = self.table, details, left, levels_of(folder), changes_of(folder)
            return [table.records for table in tables]

    def __getstate__(self) -> dict[str, Any]:
        """Returns what a pickle has: the path of the folder. Raises Refused if that is a temporary one."""
        names = [its.name for its in fields(self)]
        kept = {name: vars(self)[name] for name in names}
        return {**kept, "path": self.path.absolute()}

    @property
    def _folder(self) -> Path:
        """Returns the folder of the plan. Raises Refused if it is gone."""
        if not self.path.is_dir():
            raise Refused(
                f"{self.path}: the folder of this plan is gone",
                f"plan again with {argument('out', 'FOLDER')}, or call open_plan(FOLDER) if it was moved",
            )
        return self.path

    @cached_property
    def table(self) -> DataTable:
        """Returns the decisions, by item."""
        with planned_folder(self._folder) as folder:
            table = decisions_of(folder, folder.answers())
            return replace(table, rows=[*table.rows])

    @property
    def decisions(self) -> pd.DataFrame:
        """Returns a typed row for each planned item: the chosen policy, what it saves a period, today's policy (empty if
        there is none), costs, service, value of the stock, orders and warnings. `item` is a whole number of the type that
        the data frame of the masters has, or a text. docs/TABLES.md has all columns.
        """
        return self.frame

    @cached_property
    def details(self) -> pd.DataFrame:
        """Returns all else on the items of `decisions`, in the same rows: laws, crnsim's run beside with its interval,
        the policy by the item's own history alone, corrections and levels of the planner. docs/TABLES.md has all columns.
        """
        with planned_folder(self._folder) as folder:
            return details_of(folder, folder.answers()).frame

    @property
    def controls(self) -> pd.DataFrame:
        """Returns rows, sums, value and dates of each file and of what is used, to tick off against the source."""
        return Catalogue(self._folder / READ).controls

    @cached_property
    def rejects(self) -> pd.DataFrame:
        """Returns what was left out or is suspicious: kind, file, line, item, column, text, reason, advice, rows."""
        with planned_folder(self._folder) as folder:
            rejects = folder.read.rejects(Survey.of(folder).faults)
            return rejects_of(rejects, folder.keys).frame

    @cached_property
    def changes(self) -> pd.DataFrame:
        """Returns a row for each item of this plan and of the earlier one: what has moved, why, what that gains, and
        how the earlier policy did since. It has no rows without `after`. docs/TABLES.md has all columns.
        """
        with planned_folder(self._folder) as folder:
            return changes_of(folder).frame

    @cached_property
    def levels(self) -> pd.DataFrame:
        """Returns the levels of items that are planned by their season, a row for each part of the coming year: the first
        and the last day, s and S. It has no rows if no season is planned.
        """
        with planned_folder(self._folder) as folder:
            return levels_of(folder).frame

    @cached_property
    def lateness(self) -> pd.DataFrame:
        """Returns a row for each supplier with receipts, the latest first: the stated lead time, what receipts took in the
        mean and at the 90% quantile (days), and the share that took longer than stated.
        """
        with planned_folder(self._folder) as folder:
            return lateness_of(folder.read).frame

    @cached_property
    def totals(self) -> Totals:
        """Returns the sums over all items, as `totals["saving"]`, and counts of items."""
        with planned_folder(self._folder) as folder:
            return folder.totals

    @cached_property
    def text(self) -> str:
        """Returns what became of all rows and items, and the totals."""
        with planned_folder(self._folder) as folder:
            return catalogue_summary(
                folder, self.totals, self.learned, change_lines(folder)
            )

    @judged("call")
    def item(self, name: str | SupportsIndex) -> PlannedItem:
        """Returns the plan of an item, with what else can be asked of it.

        Parameters
        ----------
        name : str or int
            The item, as it is named in `decisions` or in the tables that were read.

        Raises
        ------
        Refused
            If it is not there, left out, or without a run, and why.

        Examples
        --------
        >>> print(plan.item("nut").notes.splitlines()[0])
        Below 14, order up to 78: cheaper than today's policy (20, 60)
        """
        with planned_folder(self._folder) as folder:
            return PlannedItem(words_on(folder, name_of(name), self.program))

    def curve(
        self,
        *,
        stock_value: float | None = None,
        fill: float | None = None,
        orders: float | None = None,
        jobs: int | None = None,
        cluster: Scheduler | None = None,
    ) -> ExchangeCurve:
        """Returns how much service the whole stock can give for its value: see `exchange_curve`.

        Parameters
        ----------
        stock_value, fill, orders : float, optional
            A budget: the value of the mean stock, the share of demand by value that is met at once, and the orders of a period.
        jobs : int, from 1 to 1,024, optional
            How many processes work; by default one for each processor.
        cluster : str or distributed.Client, optional
            The address of a Dask scheduler, or a client, whose workers work in place of processes.

        Returns
        -------
        ExchangeCurve
            `frame` has the points, and `policies` the policy of each item for the budget.
        """
        drawn = exchange_curve(
            self._folder,
            stock_value=stock_value,
            fill=fill,
            orders=orders,
            jobs=jobs,
            cluster=cluster,
        )
        # The folder may end with this plan, and the curve may be used for longer.
        return drawn.keep() if self.room else drawn

    @judged("today", "call")
    @taking(Reading, shown=OF_TODAY)
    def orders_today(
        self,
        stock: Table | None = None,
        on_order: Table | None = None,
        date: datetime.date | str | None = None,
        *,
        placed: Table | None = None,
        quantities: Table | None = None,
        **words: object,
    ) -> OrdersToday:
        """Returns what to order on a date, what lies too long, and what is owed. Nothing is planned again.

        Tables are read as those of the plan were, unless a word says otherwise.

        Parameters
        ----------
        stock : path, DataFrame, or Series or dict by item, optional
            A row for each item, or for each of its places: item, stock, perhaps owed (items), which add up; a stock below 0 is
            owed. With a date the rows of the last day count. Without a table the stock of the masters counts.
        on_order : path, DataFrame, or Series or dict by item, optional
            What is to come: item, quantity (or ordered, received and cancelled), perhaps due and closed.
        date : date or str, optional
            By default today.
        placed : path, DataFrame, or Series or dict by item, optional
            What was ordered since the table of what is on order was exported: item, quantity, perhaps due. It adds to that.
        quantities : path, DataFrame, or Series or dict by item, optional
            What a planner orders that day in place of what the plan says, in whole packs: item, quantity, perhaps reason. 0 leaves
            an order out, and an item that is not due is added.
        **words
            Words of reading, as of `Reading`, in place of those of the plan.

        Returns
        -------
        OrdersToday
            `frame` has a row for each order, the most urgent first.

        Raises
        ------
        Refused
            For what can't be read or meant, and if the plan is not as the rows that were read last.

        Examples
        --------
        >>> to_come = pd.DataFrame({"item": ["bolt"], "quantity": [60], "due": ["2026-01-05"]})
        >>> orders = plan.orders_today(on_order=to_come, date="2025-12-29")
        >>> orders.frame[["item", "stock", "s", "S"]].to_dict("records")
        [{'item': 'washer', 'stock': 3.0, 's': 4, 'S': 42}]
        """
        tables = {
            "stock": stock,
            "on_order": on_order,
            "placed": placed,
            "quantities": quantities,
        }
        return orders_today(self._folder, tables, taken(Reading, words), date)

    def plot(self) -> Picture:
        """Draws the greatest savings and losses by item, at most 15.

        Raises
        ------
        Refused
            If no item has a policy today.
        """
        with planned_folder(self._folder) as folder:
            savings = {
                str(row["item"]): row["saving"]
                for row in self.table.records
                if isinstance(row["saving"], float)
            }
            if not savings:
                raise Refused(
                    "no item has a policy today, beside which another could save"
                )
            money = f"{folder.currency.code or 'money'} a {folder.every}"
            return savings_picture(savings, money)

    @judged("page", "call")
    def to_excel(self, path: str | Path, orders: OrdersToday | None = None) -> None:
        """Writes the plan as a workbook: its summary, decisions, orders, what is left out, the curve if it was drawn, classes, and
        what each column means.

        Parameters
        ----------
        path : str or Path
            The file, which ends with .xlsx.
        orders : OrdersToday, optional
            What `orders_today` gave. Without it those of today by the stock of the masters are written, if these have one, as
            orders without what is on order.

        Raises
        ------
        Refused
            If the file can't be written, or the orders are those of another plan.
        """
        write_workbook(self._folder, Path(path), orders)

    def report(
        self,
        items: Iterable[str | SupportsIndex] = (),
        *,
        orders: OrdersToday | None = None,
    ) -> Path:
        """Writes report.html, and pages of items, into the folder of the plan: see `report`.

        Parameters
        ----------
        items : iterable of str, optional
            Items that get pages of their own.
        orders : OrdersToday, optional
            What `orders_today` gave.

        Returns
        -------
        Path
            That of report.html.
        """
        return report(self._folder, items, orders=orders, program=self.program)
