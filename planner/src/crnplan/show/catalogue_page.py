"""Draws the plan of a catalogue as one HTML page, and writes all that a plan exports.

The page has what it saves, the exchange curve, what is left out, and all items. None of it is read again, but by
people.
"""
from __future__ import annotations

import contextlib
import itertools
import math
from collections import Counter
from collections.abc import Callable, Iterable, Iterator, Mapping, Sequence
from pathlib import Path
from typing import NamedTuple, SupportsIndex
from urllib.parse import quote

from ..arguments import judged
from ..crnsim.program import find_program
from ..curve.exchange_curve import kept_curve
from ..store.digests import sha256
from ..store.files import IN_KEPT, Folder, own_folder
from ..plan.answer import Answer
from ..plan.backtest.catalogue import past_of
from ..plan.catalogue import Decided, PlannedFolder, planned_folder
from ..plan.item import depth_of
from ..plan.survey import Survey, saving_of
from ..read.catalogue_reading import CATALOGUE, missing_of
from ..read.frames import name_of
from ..read.item import Item
from ..remarks import Remark
from ..table import DataTable
from .backtest_tables import past_line
from .board import board_of
from .calendars import LEVELS, item_parts, levels_of
from .catalogue_tables import (
    DECISION_COLUMNS,
    DECISIONS,
    DETAILS,
    REJECTS,
    ItemDecision,
    catalogue_summary,
    decisions_of,
    details_of,
    reasons_of,
    rejects_of,
)
from .change_tables import CHANGES, change_lines, changes_of, moved_rows
from ..columns import declared
from .control_tables import controls_of
from ..curve.pictures import exchange_plot
from .item_page import ItemWords, item_page, scenario_text
from .lateness import LATENESS, lateness_of
from .promise_tables import aims_of, costs_of, together_of
from ..drawing.rendering import Money, rendered
from .today_tables import OrdersToday, orders_by_masters
from .verdicts import VERDICTS

SUMMARY, PAGE, FOUND = "summary.txt", "report.html", "found.toml"
SCENARIO = "scenario.toml"  # of the run of a plan's only item
CATALOGUE_FILES = (DECISIONS, DETAILS, REJECTS, SUMMARY, PAGE, FOUND)
ITEMS = "items"  # the folder of their pages
# How the names of stores begin that earlier versions have kept.
OLD = f"{IN_KEPT}swings.", f"{IN_KEPT}curve_"
MOST_ROWS = 5_000  # items in the table
ROWS_A_GROUP = 45  # which are laid out together; the first group is printed
MOST_REASONS = 12  # of each kind
FIRST_REASONS = 3  # on the first screen
# A name whose file would have more letters is cut, and its digest stands behind it. File systems allow 255 bytes.
MOST_LETTERS, KEPT_LETTERS, DIGITS = 120, 80, 32
MOST_DIGITS = 16  # of a number in the table of items
PADDING, LETTER = 2, 1.25  # of a cell, and the width of a letter, in digits


class ShownItem(NamedTuple):
    """An item in the table, planned or without demand, with its cells as decisions.csv has them."""

    item: Item
    answer: Answer | Remark
    cells: Mapping[str, str]

    @property
    def remarks(self) -> tuple[Remark, ...]:
        return ItemDecision.of(self.item, self.answer).remarks


class ItemColumn(NamedTuple):
    """A column of the table of items. Of a text a line has at most so many `letters`. An optional one is left out if no
    item has a figure in it."""

    name: str
    heading: str = ""
    letters: int = 0
    is_printed: bool = False
    is_optional: bool = False
    width: int = 0

    @property
    def title(self) -> str:
        """Returns what stands above the column."""
        return self.heading or self.name.replace("_", " ")

    def is_filled(self, rows: Sequence[ShownItem]) -> bool:
        return any(row.cells[self.name] for row in rows)

    def among(self, rows: Sequence[ShownItem]) -> ItemColumn:
        """Returns the column with its width in digits, with its padding: it has room for its texts up to a limit, and for
        each word of its heading with the sign of its order."""
        longest = max((len(row.cells[self.name]) for row in rows), default=0)
        widths = [min(longest, MOST_DIGITS)]
        if self.letters:
            widths = [math.ceil(min(longest, self.letters) * LETTER)]
        widths += (len(word) + 2 for word in self.title.split())
        return self._replace(heading=self.title, width=PADDING + max(widths))


TRAITS = declared("show/texts.toml")["items"]
ITEM_COLUMNS = [ItemColumn(its.name, **TRAITS[its.name]) for its in DECISION_COLUMNS]


def catalogue_page(
    folder: PlannedFolder, survey: Survey, orders: OrdersToday | None = None
) -> str:
    """Returns the page of a planned catalogue, with a link to the page of each item that has one, and perhaps with the
    orders of a day."""
    curve = kept_curve(folder.store)
    money = money_of(folder)
    rows = shown_items(survey.greatest, folder.currency.digits)
    plot = exchange_plot(curve, money) if curve else None
    named = [point for name, point in curve or () if name]
    return rendered(
        "catalogue.html",
        {
            "money": money.exact,
            "orders": orders,
            "controls": controls_of(
                folder.read.controls(), folder.currency.decimals, folder.currency.code
            ),
            "aims": aims_of(folder, survey.totals),
            "costs": costs_of(folder),
            "changes": change_lines(folder),
            "moved": moved_rows(folder),
            "most_reasons": MOST_REASONS,
            "plot": plot,
            "points": zip(named, plot.points if plot else ()),
            "curve": curve,
            "verdicts": VERDICTS,
            **board_facts(folder, survey),
            **table_facts(folder.path, rows),
        },
    )


def money_of(folder: PlannedFolder) -> Money:
    """Returns how money is shown on pages of a plan."""
    return Money(folder.currency.code, folder.currency.decimals)


def board_facts(folder: PlannedFolder, survey: Survey) -> dict[str, object]:
    """Returns what the first screen of a plan has."""
    totals = survey.totals
    return {
        "folder": folder,
        "every": folder.every,
        "settings": folder.settings,
        "sources": folder.counts["files"],
        "named": folder.counts["items"]["named"],
        "totals": totals,
        "ends": totals.run_ends(folder.settings.level),
        "board": board_of(folder, survey, money_of(folder)),
        "groups": together_of(folder, totals),
        "lost": missing_of(folder.counts, totals.answered),
        "past": past_line(past_of(folder)),
        "reasons": reasons_of(folder.read.rejects(survey.faults)),
        "first_reasons": FIRST_REASONS,
        "asked": math.fsum(survey.asked),
    }


def table_facts(folder: Path, rows: Sequence[ShownItem]) -> dict[str, object]:
    """Returns what the table of items has, and the codes by which it filters."""
    codes = Counter[str]()
    for row in rows:
        codes.update({remark.code for remark in row.remarks})
    columns = []
    for column in ITEM_COLUMNS:
        if not column.is_optional or column.is_filled(rows):
            columns.append(column.among(rows))
    return {
        "rows": rows,
        "rows_a_group": ROWS_A_GROUP,
        "columns": columns,
        "pages": pages_of(folder, rows),
        "codes": sorted(codes.items()),
        "warned": sum(row.cells["warnings"] != "" for row in rows),
    }


def rank_of(decided: Decided) -> tuple[bool, float, str]:
    """Returns what sorts items by falling saving; those without one come last."""
    item, answer = decided
    saving = saving_of(answer)
    return saving is None, -(saving or 0.0), item.name


def shown_items(decided: Iterable[Decided], digits: int) -> list[ShownItem]:
    """Returns the items of the table by falling saving; those without one come last. Money has so many digits."""
    kept = sorted(decided, key=rank_of)
    decisions = [ItemDecision.of(item, answer) for item, answer in kept]
    cells = DataTable.of(DECISION_COLUMNS, decisions, digits, "").cells(is_shown=True)
    return [ShownItem(item, answer, own) for (item, answer), own in zip(kept, cells)]


def pages_of(folder: Path, rows: Iterable[ShownItem]) -> dict[str, str]:
    """Returns the addresses of the pages of items that are there."""
    there = {path.name for path in (folder / ITEMS).glob("*.html")}
    if not there:
        return {}
    files = {row.item.name: file_name(row.item.name) for row in rows}
    return {
        name: quote(f"{ITEMS}/{file}") for name, file in files.items() if file in there
    }


def file_name(name: str) -> str:
    """Returns the name of the file of an item's page: plain ASCII, and a name of its own for each item.

    Letters, digits, - and _ stand as they are, and so does a dot that does not come first. All else is percent-encoded
    (RFC 3986, section 2.1). Some file systems ignore the case of letters. So behind a tilde, which encoding never
    leaves, stands which letters are small: a bit for each, in hexadecimal. Item numbers in capitals have no tilde.
    """
    plain = quote(name, safe="").replace("~", "%7E")
    if plain.startswith("."):
        plain = "%2E" + plain[1:]
    if len(plain) > MOST_LETTERS:
        return f"{plain[:KEPT_LETTERS]}~~{sha256(name)[:DIGITS]}.html"
    small = sum(1 << place for place, letter in enumerate(plain) if letter.islower())
    if small:
        return f"{plain}~{small:x}.html"
    return f"{plain}.html"


def file_of(folder: Path, name: str) -> Path:
    """Returns the path of an item's page in a planned folder."""
    return folder / ITEMS / file_name(name)


@contextlib.contextmanager
def writing_tables(
    folder: Folder, planned: PlannedFolder
) -> Iterator[Callable[[Sequence[Decided]], None]]:
    """Writes the tables of decisions and of details within the block: by the function that it gives, which takes some items
    with their answers."""
    with folder.writing(DECISIONS) as decisions, folder.writing(DETAILS) as details:
        tables = (decisions, decisions_of), (details, details_of)

        def write(decided: Sequence[Decided], first: int = 1) -> None:
            for file, table_of in tables:
                lines = table_of(planned, decided).lines
                file.writelines(itertools.islice(lines, first, None))

        write([], 0)
        yield write


def write_catalogue(
    folder: Folder,
    planned: PlannedFolder,
    survey: Survey,
    learned: Sequence[Remark],
    missing: Sequence[str],
) -> str:
    """Writes what a planned catalogue has beside its tables, the summary and the page, and returns the summary."""
    folder.write(REJECTS, rejects_of(planned.read.rejects(survey.faults)).lines)
    old = [name for name in folder.names if name.startswith(OLD)]
    folder.remove(CHANGES, LATENESS, LEVELS, *old)
    if planned.planned.earlier:
        folder.write(CHANGES, changes_of(planned).lines)
    if any(item_parts(planned)):
        folder.write(LEVELS, levels_of(planned).lines)
    lateness = lateness_of(planned.read)
    if lateness.rows:
        folder.write(LATENESS, lateness.lines)
    summary = catalogue_summary(
        planned, survey.totals, learned, change_lines(planned), missing
    )
    folder.write(SUMMARY, summary)
    folder.write(PAGE, catalogue_page(planned, survey))
    return summary


def words_on(
    planned: PlannedFolder, name: str, program: str | Path | None
) -> ItemWords:
    """Returns the words on an item of a planned folder. Raises Refused if it has no page, and why."""
    item, answer = planned.item(name)
    question, path = planned.question(item), str(find_program(program))
    depth = depth_of(question, answer, path)
    return ItemWords(depth, planned.every, planned.currency)


def write_item(
    own: Folder, planned: PlannedFolder, name: str, program: str | Path | None
) -> None:
    """Writes the page of an item of a planned folder, and beside it the scenario of its run."""
    words = words_on(planned, name, program)
    own.claim(f"{ITEMS}/", in_place=True)
    (own.path / ITEMS).mkdir(exist_ok=True)
    page = Path(ITEMS, file_name(name))
    own.write(str(page), item_page(words))
    own.write(str(page.with_suffix(".toml")), scenario_text(words))


def write_scenario(own: Folder, program: str | Path | None) -> None:
    """Writes the scenario of the run of a planned folder's item, if it has one alone that crnsim runs."""
    own.remove(SCENARIO)
    with planned_folder(own.path) as planned:
        answers = [*itertools.islice(planned.answers(), 2)]
        if len(answers) > 1:
            return
        for item, answer in answers:
            if isinstance(answer, Answer) and answer.run:
                words = words_on(planned, item.name, program)
                own.write(SCENARIO, scenario_text(words))


@judged("page", "common", "call")
def report(
    folder: str | Path,
    items: Iterable[str | SupportsIndex] = (),
    *,
    orders: OrdersToday | None = None,
    program: str | Path | None = None,
) -> Path:
    """Writes the page of a planned folder, report.html, and returns its path.

    The page has what the plan saves a year, with service and stock before and after, the exchange curve if
    `exchange_curve` has drawn it, what was left out and why, and a table of all items, the greatest saving first, which sorts
    and filters; above 5,000 items, of those with the greatest saving or loss. It is one file that asks for no other; the same plan
    and orders give the same bytes.

    Parameters
    ----------
    folder : str or Path
        That of `plan`, or of `crnplan plan`, in which the run has ended.
    items : iterable of str, optional
        Items that get pages of their own first, below `items` in the folder, to which the table links. These need crnsim.
    orders : OrdersToday, optional
        The orders that `Plan.orders_today` gives. Without them the page has those of today by the stock of the masters, if
        these have one, and says that it is not known what is on order.
    program : str or Path, optional
        The path of crnsim: see `find_program`.

    Returns
    -------
    Path
        That of report.html.

    Raises
    ------
    Refused
        For a folder without a finished plan of the rows that were read last, for an item that is not planned, and for a
        folder that cannot be written.
    ProgramError
        If a run by crnsim fails.

    Examples
    --------
    >>> crn.report(plan.path).name
    'report.html'
    """
    path = Path(folder)
    orders = orders or orders_by_masters(path)
    with planned_folder(path) as planned, own_folder(path, CATALOGUE) as own:
        planned.check()
        if orders:
            orders.check(planned)
        for name in map(name_of, items):
            write_item(own, planned, name, program)
        survey = Survey.of(planned, MOST_ROWS)
        own.write(PAGE, catalogue_page(planned, survey, orders))
    return path / PAGE
