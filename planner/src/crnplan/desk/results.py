"""The page Result: what a plan saves, all its items, and what is downloaded of it."""
from __future__ import annotations

import contextlib
import io
import json
import math
import operator
import tempfile
from collections import Counter
from collections.abc import Collection, Iterator, Mapping, Sequence
from dataclasses import replace
from pathlib import Path
from typing import Any, NamedTuple
from urllib.parse import urlencode

from flask import Blueprint, Response, request, send_file, send_from_directory
from markupsafe import Markup

from ..errors import Refused, argument
from ..plan.catalogue import PlannedFolder, planned_folder
from ..plan.survey import Survey
from ..show.catalogue_page import ITEM_COLUMNS, PAGE, ItemColumn, board_facts
from ..show.catalogue_tables import (
    DECISION_COLUMNS,
    DECISIONS,
    REJECTS,
    ItemDecision,
    decided,
)
from ..drawing.rendering import rendered
from ..show.verdicts import VERDICTS
from ..store.digests import digest_of
from ..store.files import IN_KEPT
from ..table import TableCell, Column, is_missing
from ..toml.documents import shown
from .front import (
    PREPARED,
    Front,
    command_of,
    front,
    page,
    state_of,
    whole_of,
    whole_page,
)
from .kept import Desk
from .language import ENGLISH, words_of

pages = Blueprint("results", __name__)
ROWS = 50  # of a page
SUFFIXES = ".py", ".toml", ".html"  # of our own code
WORKBOOK = "plan.xlsx"
LIST = f"{IN_KEPT}result.json"  # what the page has of the last plan
COLUMNS = {column.name: column for column in ITEM_COLUMNS}
FIGURES = [column.name for column in ITEM_COLUMNS if not column.letters]
FILTERS = "class", "verdict", "code", "supplier"
SEARCHED = "item", "description"
ASKED = "plan", "words", *FILTERS, "sort", "falls"


class ResultRow(NamedTuple):
    """An item of the table: its cells, what sorts them, and by what it is filtered."""

    cells: Sequence[str]
    values: Sequence[TableCell]
    traits: Mapping[str, Sequence[str]]


class ListedPlan(NamedTuple):
    """What the page has of a plan: the first screen, the table, and by name how many items have what it is filtered by."""

    board: Markup
    columns: Sequence[ItemColumn]
    rows: Sequence[ResultRow]
    choices: Mapping[str, Mapping[str, int]]

    @classmethod
    def of(cls, board: str, columns: Any, rows: Any, choices: Any) -> ListedPlan:
        """Returns what was kept as plain data."""
        return cls(
            Markup(board),
            [ItemColumn(*parts) for parts in columns],
            [ResultRow(*parts) for parts in rows],
            choices,
        )


def traits_of(decision: ItemDecision) -> Mapping[str, Sequence[str]]:
    """Returns by what an item is filtered."""
    return {
        "class": [decision.item.category],
        "verdict": [decision.verdict],
        "code": [*{remark.code for remark in decision.remarks}],
        "supplier": [decision.item.supplier],
    }


def headed(column: Column, units: Mapping[str, str]) -> ItemColumn:
    """Returns a column of the table with its heading, which names the unit of money."""
    own = COLUMNS[column.name]
    if not column.unit.startswith("money"):
        return own
    return own._replace(heading=f"{own.title}, {units[column.name]}")


def made_list(planned: PlannedFolder) -> ListedPlan:
    """Looks once at all items of a plan for the page."""
    survey, traits = Survey(planned), list[Mapping[str, Sequence[str]]]()
    choices = {name: Counter[str]() for name in FILTERS}

    def noted() -> Iterator[ItemDecision]:
        for decision in decided(survey.seen(planned.answers())):
            traits.append(traits_of(decision))
            for name, values in traits[-1].items():
                choices[name].update(filter(None, values))
            yield decision

    past = words_of(ENGLISH)["result"]["past"]  # as all words of the first screen
    table = planned.table(DECISION_COLUMNS, noted())
    table = replace(table, rows=[*table.rows], decimals=planned.currency.digits)
    table = table.without_empty(FIGURES)
    _, *spelt = table.spelt(is_shown=True)
    return ListedPlan(
        Markup(rendered("board.html", board_facts(planned, survey) | {"past": past})),
        [headed(column, table.units) for column in table.columns],
        [ResultRow(*parts) for parts in zip(spelt, table.rows, traits)],
        choices,
    )


def sign_of(path: Path) -> str:
    """Returns a sign of all that the page has of a plan: of its name and stores, and of our own code."""
    files = sorted(Path(__file__).parents[1].rglob("*.*"))
    code = [it.stat().st_mtime_ns for it in files if it.suffix in SUFFIXES]
    return digest_of(path.name, state_of(path), code)


def keep_list(desk: Desk, sign: str, found: ListedPlan) -> None:
    """Keeps what the page has of a plan, in place of another one."""
    text = json.dumps([sign, *found], ensure_ascii=False)
    with desk.lock:
        desk.folder.write(LIST, text)


def kept_list(desk: Desk, sign: str) -> ListedPlan | None:
    """Returns what is kept by a sign; None if that of another plan, or of another time, is."""
    with contextlib.suppress(OSError, ValueError, TypeError):
        kept, *parts = json.loads((desk.path / LIST).read_text("utf-8"))
        return ListedPlan.of(*parts) if kept == sign else None
    return None


def listed(own: Front, name: str) -> ListedPlan:
    """Returns what the page has of a plan. It is computed once; that of the last plan is kept for when the desk is opened
    again."""

    def make() -> ListedPlan:
        with own.held(name) as path:
            sign = sign_of(path)
            found = kept_list(own.desk, sign)
            if found is None:
                with planned_folder(path) as planned:
                    planned.check()
                    found = made_list(planned)
                if path.name == own.desk.state.plans[-1]:
                    keep_list(own.desk, sign, found)
            return found

    return own.once("listed", own.version(name), make)


PREPARED.append(lambda own: listed(own, ""))


def check(name: str, value: str, choices: Collection[str]) -> None:
    """Raises Refused if the value of a field is none of the choices that a plan has."""
    if value not in choices:
        what = f"{argument(name)}: {shown(value)} is not in this plan"
        raise Refused(what, "choose one that is")


def in_order(rows: Sequence[ResultRow], place: int, falls: bool) -> list[ResultRow]:
    """Returns rows sorted by a column; those without a value in it come last."""

    def value_of(row: ResultRow) -> Any:
        value = row.values[place]
        return None if is_missing(value) or value == "" else value

    known = [row for row in rows if value_of(row) is not None]
    empty = [row for row in rows if value_of(row) is None]
    return [*sorted(known, key=value_of, reverse=falls), *empty]


def chosen_rows(found: ListedPlan, asked: Mapping[str, str]) -> list[ResultRow]:
    """Returns the rows that a query asks for, in its order. Raises Refused for a filter or a column that there is not."""
    words = asked["words"].casefold()
    names = [column.name for column in found.columns]
    searched = operator.itemgetter(*map(names.index, SEARCHED))
    rows = [
        row for row in found.rows if words in "\n".join(searched(row.cells)).casefold()
    ]
    for name in FILTERS:
        value = asked[name]
        if value:
            check(name, value, found.choices[name])
            rows = [row for row in rows if value in row.traits[name]]
    sort, falls = asked["sort"], asked["falls"]
    if not sort:
        sort, falls = ("saving", "1") if "saving" in names else (names[0], "")
    check("sort", sort, names)
    return in_order(rows, names.index(sort), bool(falls))


@pages.get("/result")
def result() -> str:
    own = front()
    state = own.desk.state
    if not state.plans:
        return page("result.html", found=None)
    asked = {name: request.args.get(name, "").strip() for name in ASKED}
    path = own.plan(asked["plan"]).path
    found = listed(own, path.name)
    rows = chosen_rows(found, asked)
    last = max(1, math.ceil(len(rows) / ROWS))
    number = whole_of("page", 1, last) or 1

    def link(**changes: str | int) -> str:
        query = [pair for pair in (asked | changes).items() if pair[1]]
        return f"/result?{urlencode(query)}"

    return page(
        "result.html",
        plan=path.name,
        found=found,
        count=len(rows),
        rows=rows[(number - 1) * ROWS : number * ROWS],
        number=number,
        last=last,
        asked=asked,
        link=link,
        verdicts=VERDICTS,
        overrides=[one for one in [*state.overrides.values()] if one.holds],
        command=command_of("report", path),
    )


@pages.get(f"/result/<any('{PAGE}', '{DECISIONS}', '{REJECTS}', '{WORKBOOK}'):name>")
def file(name: str) -> Response:
    """Returns a file of a plan: its page as it is, and tables and a workbook to download."""
    plan = front().plan(request.args.get("plan", ""))
    if name == PAGE:
        return whole_page(plan.path, name)
    if name != WORKBOOK:
        return send_from_directory(plan.path.absolute(), name, as_attachment=True)
    # Each answer has a file of its own: another plan may be downloaded meanwhile.
    with tempfile.TemporaryDirectory() as room:
        path = Path(room) / WORKBOOK
        plan.to_excel(path)
        data = io.BytesIO(path.read_bytes())
    return send_file(data, download_name=WORKBOOK, as_attachment=True)
