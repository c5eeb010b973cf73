"""The page on which plans are begun, watched and stopped."""
from __future__ import annotations

from collections.abc import Sequence
from dataclasses import replace

from flask import Blueprint, Response, jsonify, redirect, request
from werkzeug.wrappers import Response as Redirect

from ..errors import Refused
from ..plan.catalogue import planned_folder
from ..read.file_kinds import NEEDED, PLANNED
from ..show.change_tables import change_lines
from .front import PAGES, command_of, front, page, words
from .kept import OVERRIDES, PLANS, Begun, Desk
from .work import PLANNING, STOPPED, DeskWork

pages = Blueprint("plans", __name__)


def changes_of(desk: Desk) -> list[dict[str, object]]:
    """Returns the plans of a desk, the last one first, each with what has moved since the one before."""
    plans = []
    for name in reversed(desk.state.plans):
        with planned_folder(desk.plan_path(name)) as planned:
            totals, items = planned.totals, planned.counts["items"]
            facts = {
                "name": name,
                "items": totals.planned,
                "left": items["named"] - items["ready"],
                "compared": totals.compared,
                "saving": planned.currency.text(float(totals["saving"])),
                "every": planned.every,
                "changes": change_lines(planned),
            }
        plans.append(facts)
    return plans


def command_on(
    desk: Desk, name: str, kinds: Sequence[str] = PLANNED, **options: object
) -> str:
    """Returns a command on some kinds of the files of the desk, and on what its planner has set if plans are made."""
    tables = {kind: f"{kind}.csv" for kind in NEEDED} | desk.tables(kinds)
    overrides = desk.path / OVERRIDES
    if kinds == PLANNED and overrides.is_file():
        tables["overrides"] = str(overrides)
    words = [f"{kind}={table}" for kind, table in tables.items()]
    return command_of(name, *words, config=desk.config, **options)


def asked_commands(desk: Desk, out: str, after: str) -> str:
    """Returns the commands that plan as the desk does, and write its page."""
    planning = command_on(
        desk,
        "plan",
        after=desk.path / after if after else None,
        out=desk.path / out,
    )
    return f"{planning} &&\n{command_of('report', desk.path / out)}"


@pages.get("/plan")
def plan() -> str:
    own = front()
    desk = own.desk
    last = desk.state.plans[-1] if desk.state.plans else ""
    is_new = desk.state.planned != desk.state.changed
    begun = desk.state.begun
    out = begun.out if begun and begun.kind == PLANNING else f"{PLANS}/{own.new_name()}"
    return page(
        "plan.html",
        last=last,
        is_new=is_new,
        plans=own.once(
            "plans", [*desk.state.plans, desk.state.ended], lambda: changes_of(desk)
        ),
        command=asked_commands(desk, out, begun.after if begun else ""),
        is_stopped=desk.state.has_ended(PLANNING, STOPPED),
    )


@pages.post("/plan/begin")
def begin() -> Redirect:
    own = front()
    state = own.desk.state
    last = f"{PLANS}/{state.plans[-1]}" if state.plans else ""
    match request.form.get("way"):
        case "again" if last:
            begun = Begun(PLANNING, last)
        case "after" if last:
            begun = Begun(PLANNING, f"{PLANS}/{own.new_name()}", after=last)
        case _:
            begun = Begun(PLANNING, f"{PLANS}/{own.new_name()}")
    own.begin(replace(begun, changed=state.changed))
    return redirect("/plan", 303)


@pages.post("/plan/stop")
def stop() -> Redirect:
    front().stop()
    back = request.form.get("back", "").strip("/")
    return redirect(f"/{back if back in PAGES else 'plan'}", 303)


@pages.post("/plan/go-on")
def go_on() -> Redirect:
    own = front()
    begun = own.desk.state.begun
    if begun is None:
        raise Refused("nothing was stopped", "begin a plan")
    own.begin(begun)
    return redirect("/plan", 303)


def shown_progress(work: DeskWork) -> str:
    """Returns how far work is, in words."""
    facts, own = work.progress, words()["all"]
    if not facts:
        return ""
    text: str = own["done"].format(
        done=f"{facts['done']:,}", total=f"{facts['total']:,}"
    )
    if facts["left"]:
        text += ", " + own["left"].format(left=facts["left"])
    return text


@pages.get("/progress")
def progress() -> Response:
    """Returns how far the work is, for the script of the pages."""
    work = front().work
    if work is None:
        return jsonify({})
    return jsonify(work.progress | {"kind": work.kind, "shown": shown_progress(work)})
