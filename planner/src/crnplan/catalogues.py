"""Reads catalogues, plans them and writes what they come to: the one way of the commands and of notebooks."""
from __future__ import annotations

import contextlib
import warnings
from collections.abc import Mapping, Sequence
from dataclasses import dataclass, field
from pathlib import Path
from typing import TYPE_CHECKING, Any, cast

from .arguments import judged
from .errors import CrnplanError, Failed, argument
from .spelling import worded
from .given import COMMON, joined, taken, taking
from .plan.how import Settings
from .store.files import Folder, Room
from .store.jobs import batched
from .store.means import Means
from .show.catalogue_page import FOUND, MOST_ROWS, write_catalogue, writing_tables
from .show.catalogue_tables import REJECTS, hardly_planned, rejects_of
from .show.control_tables import controls_of
from .drawing.rendering import rendered
from .plan.catalogue import planning
from .plan.survey import Survey
from .plan.totals import Totals
from .read.catalogue_reading import (
    Catalogued,
    defaulted,
    missing_of,
    read_alone,
)
from .read.frames import DEMAND
from .read.items import Counts, Reading
from .read.lateness import receipt_remarks
from .read.law_forms import LAWS
from .read.moves import OUT
from .read.opening import Table
from .read.stated_laws import StatedTable
from .read.configuration import merged, told_of
from .remarks import Remark
from .table import Json
from .vocabulary import Kind
from .sentences import advised

if TYPE_CHECKING:
    import pandas as pd

ROWS_AT_ONCE = 100  # of the tables that are written side by side


class Lost(Failed):
    """Rows or items whose counts do not add up. This is a fault of crnplan."""


@dataclass(frozen=True)
class Catalogue:
    """A catalogue that was read: its items, what was left out, and the counts that say that nothing is lost.

    Attributes
    ----------
    path : Path
        The file that has it.
    """

    path: Path
    # A folder for the time that the catalogue is used, if it was not read into a named one.
    room: Room | None = field(default=None, repr=False, compare=False)

    def opened(self) -> contextlib.closing[Catalogued]:
        """Returns what was read, to be closed after use.

        :meta private:
        """
        return contextlib.closing(Catalogued(self.path))

    def fact(self, name: str) -> Json:
        """Returns a fact of the catalogue.

        Parameters
        ----------
        name : str
            `counts`, `found`, `said`, `sources`, `every`, `currency`, `decimals` or `periods`.

        :meta private:
        """
        with self.opened() as read:
            return cast(Json, read.fact(name))

    @property
    def counts(self) -> Counts:
        """Returns how many rows of each file there are, by what became of them, and how many items."""
        return cast(Counts, self.fact("counts"))

    def __repr__(self) -> str:
        parts = [repr(str(self.path))]
        with contextlib.suppress(CrnplanError):
            parts += hardly_planned(self.counts["items"])
        return f"Catalogue({', '.join(parts)})"

    @property
    def found(self) -> str:
        """Returns what was stated of the files and what was found in them, as TOML that gives the same reading."""
        return stated_of(self, {})

    @property
    def said(self) -> list[str]:
        """Returns what is to be said of the files, as units that were converted, where defaults hold, and which receipts
        are not used or late."""
        with self.opened() as read:
            remarks = [
                *read.remarks(),
                *defaulted(read.fact("sources")),
                *receipt_remarks(read),
            ]
            return [*map(worded, read.fact("said")), *map(advised, remarks)]

    @property
    def missing(self) -> list[str]:
        """Returns what is lost: one line for each file, and for the items, whose counts do not add up."""
        counts = self.counts
        return missing_of(counts, counts["items"]["ready"])

    @property
    def controls(self) -> pd.DataFrame:
        """Returns rows, sums, value and dates of each file and of what is used, to tick off against the source:
        docs/TABLES.md has all columns."""
        with self.opened() as read:
            return controls_of(
                read.controls(), read.fact("decimals"), read.fact("currency")
            ).frame

    @property
    def rejects(self) -> pd.DataFrame:
        """Returns what was left out or is suspicious: kind (row, item, suspicious), file, line, item, column, text,
        reason, advice, and rows (of demand that are left out)."""
        with self.opened() as read:
            return rejects_of(read.rejects(), read.fact("keys")).frame


def read_sales(value: Any) -> Any:
    """Returns a table of demand, or a catalogue that was read."""
    return value if isinstance(value, Catalogue) else DEMAND.read(value)


SALES = Kind(read_sales)


def warn_of_lost(catalogue: Catalogue) -> None:
    """Warns the caller of a judged call, from which this is called, that most items of a catalogue are left out."""
    for line in hardly_planned(catalogue.counts["items"]):
        warnings.warn(f"{line}; `rejects` says why: correct the tables", stacklevel=4)


def stated_of(catalogue: Catalogue, more: Mapping[str, Any]) -> str:
    """Returns what was stated of the files of a catalogue and found in them, with more words, as those of planning."""
    with catalogue.opened() as read:
        facts, told = read.fact("found"), read.fact("told") | more
    named = {table["kind"] for table in facts["tables"]}
    told = {
        name: value for name, value in told.items() if name not in ("every", *named)
    }
    words = {name: value for name, value in told.items() if not isinstance(value, dict)}
    groups = {
        name: value
        for name, value in merged(told, facts["stated"]).items()
        if isinstance(value, dict)
    }
    formats = worded(argument("date_formats"))
    return rendered(
        "found.toml", {**facts, "formats": formats, "words": words, "groups": groups}
    )


@judged("call", "plan", "common")
@taking(Reading, shown=COMMON)
def read_catalogue(
    demand: Table,
    items: Table,
    orders: Table | None = None,
    *,
    out_of_stock: Table | None = None,
    laws: StatedTable | None = None,
    reading: Reading | None = None,
    jobs: int | None = None,
    **words: object,
) -> Catalogue:
    """Reads a catalogue from CSV files of any size, also gzipped, sheets of workbooks (FILE.xlsx!SHEET) or data frames.

    Nothing is lost: each row and item that is left out is in `rejects`, with its place, the reason and advice. This call, `plan` and
    `backtest` warn if more than half of the items to plan are left out: those of masters with demand or a law that no status
    ends. Amounts of money with more than 8 decimals are rounded to these.

    Parameters
    ----------
    demand : path, DataFrame or Series
        A row for each movement (item, date, quantity, perhaps returned and promotion), or for each item, with a column for
        each period. A Series by date is the demand of the item of its name.
        There may be several files with one heading, as `demand-2026-*.csv`. A file whose rows are all in another file is
        refused, unless `twice` is said.
    items : path or DataFrame
        The masters, a row for each item: item, setup (money an order), holding and backlog (money an item and period) or fill
        (the wanted share of demand met at once) or no_shortage (the wanted share of periods that end with nothing owed), lead
        (with its unit, as "lead (days)"), and perhaps review, s and S (items), description, stock, price, class, status,
        borrow, order_min, pack, s_min, coverage and shelf_life. A status is active, phase out, stopped, or successor of
        another item, whose demand is then taken.
    orders : path or DataFrame, optional
        The dates of orders: item, ordered, received. There may be several files.
    out_of_stock : path or DataFrame, optional
        The times in which there was none of an item: item, from, to. Both days are included, and without an end it lasts. The
        demand of such a period is not known.
    laws : path, DataFrame, or dict or Series of Law by item, optional
        Laws of the demand of a period. Items are then planned by these, with a history or without one. A table has for an
        item:

        - a row for each value with its chance (they add up to 1) or whole weight,
        - one row with a mean and a variance (or deviation),
        - a row for each of three or more quantiles, with its value,
        - or a row for each period of a sample path (path, period, value), or for each path, with a column for each period.

        What a law can't be, and an item with a row that can't be read, is left out.
    reading : Reading, optional
        Words of reading that several calls share. A word is said there or by itself.
    jobs : int, from 1 to 1,024, optional
        How many processes read large files; by default one for each processor.
    **words
        Any other word of `Reading`.

    Returns
    -------
    Catalogue
        What was read, for `plan` and `backtest`.

    Raises
    ------
    Refused
        For words that can't be meant.
    RefusedFaults
        For files that can't be read.

    Examples
    --------
    >>> read = crn.read_catalogue(sales, masters)
    >>> read.counts["items"]["ready"]
    3
    >>> len(read.rejects)
    0
    """
    rules = taken(Reading, joined(words, reading=reading))
    room = Room("pickle the tables, and read them where they are needed")
    tables: dict[str, Any] = {"demand": demand, "items": items, "orders": orders}
    tables |= {OUT: out_of_stock, LAWS: laws}
    read = Catalogue(read_alone(room.path, tables, rules, jobs), room)
    warn_of_lost(read)
    return read


def write_found(folder: Folder, read: Catalogue, settings: Settings) -> str:
    """Writes what was stated of the tables of a catalogue and of its planning, and what was found, and returns it."""
    found = stated_of(read, told_of(settings))
    folder.write(FOUND, found)
    return found


@dataclass(frozen=True)
class Done:
    """What a run has done: how many items were planned now, and kept from before, whether laws were learned before, the
    totals, remarks on what was learned, what is lost, and the summary."""

    planned: int
    kept: int
    has_learned: bool
    totals: Totals
    learned: tuple[Remark, ...]
    missing: Sequence[str]
    summary: str


def plan_catalogue(
    folder: Folder,
    settings: Settings,
    means: Means = Means(),
    after: Path | None = None,
    again: bool = False,
) -> Done:
    """Plans the catalogue that was read into a folder, and writes its tables and pages: see `plan`."""
    with planning(folder, settings, means, after, again) as run:
        planned, work, learned = run.planned, run.work, run.learned.remarks
        folder.write(REJECTS, rejects_of(planned.read.rejects()).lines)
        survey = Survey(planned, MOST_ROWS)
        with writing_tables(folder, planned) as write:
            for decided in batched(survey.seen(run.answers), ROWS_AT_ONCE):
                write(decided)
        run.keep_changes(folder)
        totals = survey.totals
        missing = missing_of(planned.counts, totals.answered)
        summary = write_catalogue(folder, planned, survey, learned, missing)
        is_kept = run.learned.is_kept
        return Done(work.now, work.kept, is_kept, totals, learned, missing, summary)
