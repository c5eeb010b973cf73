"""Tests plans on a catalogue's own past, as a value for a notebook, and into a folder."""
from __future__ import annotations

import tempfile
from dataclasses import dataclass, field
from pathlib import Path
from typing import TYPE_CHECKING, ClassVar

from .api import rules_of, take_tables
from .arguments import judged
from .catalogues import Catalogue, warn_of_lost
from .given import COMMON, joined, taken, taking
from .plan.how import Settings
from .read.items import Reading
from .errors import Refused
from .store.files import Folder, own_folder
from .store.clusters import Scheduler
from .store.means import Means
from .drawing.pictures import Picture
from .show.backtest_page import backtest_page, curve_plot, summed_of
from .show.backtest_tables import (
    BACKTEST,
    PAGE,
    SUMMARY,
    SUMS,
    backtest_of,
    backtest_summary,
    first_line,
    sums_table,
)
from .show.verdicts import gains_said, past_said
from .plan.backtest.catalogue import Tested, backtest_into
from .plan.backtest.methods import Walk
from .read.catalogue_reading import CATALOGUE, READ
from .read.opening import Table
from .table import DataTable, Json, Result

if TYPE_CHECKING:
    import pandas as pd


@dataclass(frozen=True, eq=False, repr=False)
class Backtests(Result):
    """What the plans of a catalogue promised on its own past, and what came. `frame` has a row for each item, `sums`
    one for all items and for each class; `text` says what it comes to."""

    tested: Tested = field(repr=False)
    brief: ClassVar = (
        "item class periods promised_fill_planned fill_planned stock_planned cost_planned left_out"
    ).split()

    @property
    def headline(self) -> str:
        """Returns how many items were tested, and by what."""
        return first_line(self.tested.whole)

    @property
    def content(self) -> list[list[dict[str, Json]]]:
        """Returns the rows of the tests, and of their sums, as plain data."""
        return [self.table.records, sums_table(self.tested).records]

    @property
    def table(self) -> DataTable:
        """Returns the tests by item: promised and realized cost and fill, stock and orders of each policy."""
        return backtest_of(self.tested)

    @property
    def sums(self) -> pd.DataFrame:
        """Returns the sums of all items and of each class, with their standard errors and the verdict."""
        return sums_table(self.tested).frame

    @property
    def verdict(self) -> str:
        """Returns whether the promised fill of the catalogue was met, in words."""
        sums = self.tested.whole
        return past_said(sums.verdict) if sums else first_line(sums)

    @property
    def gains(self) -> str:
        """Returns which ways need less than the plan beyond their errors, in words, or that none does."""
        sums = self.tested.whole
        return gains_said(sums.gains) if sums else first_line(sums)

    @property
    def text(self) -> str:
        """Returns what was promised, what came, and the verdicts."""
        return f"{first_line(self.tested.whole)}\n{backtest_summary(self.tested)}"

    def plot(self) -> Picture:
        """Draws what each way met at once by its stock.

        Raises
        ------
        Refused
            If no item was tested.
        """
        if self.tested.whole is None:
            raise Refused(first_line(None), "test longer records")
        tests = [test for _, test in summed_of(self.tested)]
        return Picture.of([curve_plot(tests, self.tested.whole.promised)])

    @property
    def page(self) -> str:
        """Returns the page of the tests as HTML, which asks for no other file."""
        return backtest_page(self.tested)


def write_backtest(
    folder: Folder, settings: Settings, walk: Walk, means: Means
) -> Backtests:
    """Tests the catalogue that was read into a folder, and writes its tables and its summary there."""
    tests = Backtests(backtest_into(folder, settings, walk, means))
    folder.write(BACKTEST, tests.table.lines)
    folder.write(SUMS, sums_table(tests.tested).lines)
    folder.write(SUMMARY, tests.text)
    folder.write(PAGE, tests.page)
    return tests


@judged("backtest", "call", "plan", "common")
@taking(Reading, Settings, shown=COMMON)
def backtest(
    sales: Table | Catalogue,
    masters: Table | None = None,
    orders: Table | None = None,
    *,
    record: int = 52,
    every: int = 13,
    window: int | None = None,
    reading: Reading | None = None,
    settings: Settings | None = None,
    out_of_stock: Table | None = None,
    out: str | Path | None = None,
    period: str | None = None,
    jobs: int | None = None,
    cluster: Scheduler | None = None,
    progress: bool = False,
    **words: object,
) -> Backtests:
    """Tests plans on a catalogue's own past: what they would have promised, and what came.

    At the service that was promised, how much stock and how many orders would each whole way of planning have needed? Each
    item is planned from its first `record` periods, and anew after each `every` periods from all until then, and the plans
    are run on the periods that came. No crnsim is needed. These ways are run:

    - the plan as `plan` makes it with the same words: with its season, its level, and one price for what is not met
    - the same with each item alike, without a season, and with the level of the last periods or of the record
    - today's levels
    - rules of thumb: the mean or exponential smoothing with a normal safety stock, and periods of cover

    Which classes have a season, and how far they follow their level, is learned from all periods; all else from those
    before. Each way is run at aims above and below its own too, so that stocks are compared where as much is met at once. Lead
    times of the past are drawn from the item's own law. Random numbers follow from
    the `seed` and the item's name.

    Parameters
    ----------
    sales : path, DataFrame or Catalogue
        As in `plan`: movements, or a Catalogue that `read_catalogue` has read.
    masters : path or DataFrame, optional
        A row for each item. It is needed unless `sales` is a Catalogue.
    orders : path or DataFrame, optional
        Dates of orders: item, ordered, received.
    record : int, at least 1, default 52
        The periods from which the first plan is made. An item with fewer than `record` and `every` periods is left out.
    every : int, at least 1, default 13
        The periods from one plan to the next.
    window : int, at least 1, optional
        Plans are made of so many last periods; by default of all until then.
    reading : Reading, optional
        Words of reading that several calls share. A word is said there or by itself.
    settings : Settings, optional
        Words of planning that several calls share.
    out_of_stock : path or DataFrame, optional
        The times in which there was none of an item: item, from, to.
    out : str or Path, optional
        A folder that keeps tables and all tests: tested again, only what has changed is tested.
    period : {"day", "week", "month"}, optional
        The period, which is `every` of `plan` and of `reading`; by default "week".
    jobs : int, from 1 to 1,024, optional
        How many processes work; by default one for each processor. The result is the same.
    cluster : str or distributed.Client, optional
        The address of a Dask scheduler, or a client, whose workers work in place of processes.
    progress : bool, default False
        Shows on standard error how many items are tested.
    **words
        Any other word of `Reading` and of `Settings`.

    Returns
    -------
    Backtests
        `verdict` says whether the promise was met, `gains` which ways need less, `sums` has all items and each class with
        standard errors, and `frame` a row for each item.

    Raises
    ------
    Refused
        For what can't be read or meant.

    Examples
    --------
    >>> tests = crn.backtest(sales, masters, jobs=1)
    >>> list(tests.frame["item"])
    ['bolt', 'nut', 'washer']
    """
    own = {} if period is None else {"every": period}
    known = joined({**words, **own}, reading=reading, settings=settings)
    tables = {"masters": masters, "orders": orders, "out_of_stock": out_of_stock}
    rules = rules_of(sales, {**tables, "period": period}, known)
    ways = taken(Settings, known)
    walk = Walk(record, every, window)
    means = Means(jobs, cluster, shown=progress)
    with tempfile.TemporaryDirectory(prefix="crnplan-") as room, own_folder(
        Path(out or room), CATALOGUE
    ) as folder:
        take_tables(folder, sales, masters, orders, out_of_stock, rules, jobs)
        warn_of_lost(Catalogue(folder.path / READ))
        return write_backtest(folder, ways, walk, means)
