"""The page of an item: its plan, what other levels come to, and what its planner sets for it."""
from __future__ import annotations

from collections.abc import Mapping
from dataclasses import replace
from typing import NamedTuple
from urllib.parse import urlencode

from flask import Blueprint, redirect, request
from markupsafe import Markup
from werkzeug.wrappers import Response as Redirect

from ..errors import CrnplanError, Refused, argument
from ..formats import MOST_ITEMS, MOST_LEAD
from ..plan.answer import Answer, Figures
from ..plan.catalogue import PlannedFolder
from ..plan.what_ifs import asked_figures
from ..read.amounts import share_of
from ..read.item import Item
from ..show.item_page import item_facts
from ..drawing.rendering import rendered
from ..vocabulary import read_argument
from .front import Front, command_of, front, page, whole_of
from .kept import DeskOverride
from .results import listed

pages = Blueprint("items", __name__)
FIELDS = "s", "S", "lead", "fill"


class DrawnItem(NamedTuple):
    """What is decided for an item and its pictures, as parts of a page; or why there are none."""

    head: str = ""
    figures: str = ""
    why: str = ""


def drawn(own: Front, plan: str, name: str, is_asked: bool) -> DrawnItem | None:
    """Returns the parts of the page of an item, which are computed once and only if they are asked for; None if they are not
    computed yet, as that takes a second."""
    of = own.version(plan), name
    if not is_asked:
        parts: DrawnItem | None = own.recalled("item", of)
        return parts

    def make() -> DrawnItem:
        with own.reading(plan):
            facts = item_facts(own.plan(plan).item(name).words)
        head, figures = (
            Markup(rendered(f"item_{part}.html", facts)) for part in ("head", "figures")
        )
        return DrawnItem(head, figures)

    try:
        return own.once("item", of, make)
    except CrnplanError as why:
        return DrawnItem(why=str(why))


def levels_asked() -> tuple[int, int] | None:
    """Returns s and S in the fields of a form; None if both are empty. Raises Refused if they can't be meant."""
    s, S = (whole_of(name, 0, MOST_ITEMS) for name in ("s", "S"))
    if s is None and S is None:
        return None
    if s is None or S is None or s > S:
        raise Refused("s and S are no two levels", "write both, s at most S")
    return s, S


def form_figures(
    planned: PlannedFolder, item: Item, answer: Answer
) -> Mapping[str, Figures]:
    """Returns what policies come to as the form asks. The best one promises nothing."""
    lead, text = whole_of("lead", 1, MOST_LEAD), request.args.get("fill", "").strip()
    share = float(read_argument("fill", text, share_of)) if text else None
    settings = replace(planned.settings, confidence=None)
    return asked_figures(item, answer, settings, levels_asked(), lead, share)


def known_item(planned: PlannedFolder, own: Front, name: str) -> Answer | None:
    """Returns the answer to an item; None if it has none. Raises Refused for an item that nobody knows."""
    if planned.read.item(name) is None and name not in own.desk.state.overrides:
        planned.item(name)  # says why
    answer = planned.store.answer(name)
    return answer if isinstance(answer, Answer) else None


@pages.get("/item")
def item() -> str:
    own = front()
    plan, name = request.args.get("plan", ""), request.args.get("item", "")
    path = own.plan(plan).path
    asked = {field: request.args.get(field, "") for field in FIELDS}
    with own.reading(plan) as planned:
        answer, every = known_item(planned, own, name), planned.every
        currency = planned.currency
        figures: Mapping[str, Figures] = {}
        if answer and any(asked.values()):
            figures = form_figures(planned, planned.item(name)[0], answer)
    found = listed(own, path.name)
    rows = [row.cells for row in found.rows if row.values[0] == name]
    return page(
        "item.html",
        at="result",
        plan=path.name,
        name=name,
        columns=found.columns,
        rows=rows,
        drawn=drawn(own, plan, name, "drawn" in request.args or answer is None),
        has_answer=answer is not None,
        asked=asked,
        figures=figures,
        every=every,
        currency=currency,
        override=own.desk.state.overrides.get(name),
        command=command_of("report", path, item=name),
    )


@pages.post("/item/override")
def override() -> Redirect:
    own, form = front(), request.form
    plan, name = form.get("plan", ""), form.get("item", "")
    reason = " ".join(form.get("reason", "").split())
    with own.reading(plan) as planned:
        known_item(planned, own, name)
    if not reason:
        raise Refused(f"{argument('reason')} is missing", "say why, for later")
    match form.get("way"):
        case "levels" if levels := levels_asked():
            stated = DeskOverride(name, *levels, reason=reason)
        case "stop":
            stated = DeskOverride(name, is_stopped=True, reason=reason)
        case "end":
            stated = DeskOverride(name, reason=reason)
        case _:
            raise Refused("nothing is set", "write s and S, or choose another way")
    with own.desk.changing() as state:
        state.overrides[name] = stated
    return redirect(f"/item?{urlencode({'plan': plan, 'item': name})}#override", 303)
