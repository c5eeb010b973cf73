"""The page Past: how plans would have done on the past of the files."""
from __future__ import annotations

from flask import Blueprint, Response, redirect
from werkzeug.wrappers import Response as Redirect

from ..read.file_kinds import TESTED
from ..show.backtest_tables import PAGE, SUMMARY
from .front import front, page, whole_page
from .kept import LAST_TEST, Begun
from .plans import command_on
from .work import TESTING

pages = Blueprint("past", __name__)


@pages.get("/past")
def past() -> str:
    desk = front().desk
    summary = desk.path / LAST_TEST / SUMMARY
    begun = desk.state.begun
    return page(
        "past.html",
        text=summary.read_text("utf-8") if summary.is_file() else "",
        is_last=begun is not None and begun.kind == TESTING,
        command=command_on(desk, "backtest", TESTED, out=desk.path / LAST_TEST),
    )


@pages.post("/past/begin")
def begin() -> Redirect:
    own = front()
    own.begin(Begun(TESTING, LAST_TEST, changed=own.desk.state.changed))
    return redirect("/past", 303)


@pages.get(f"/past/{PAGE}")
def whole() -> Response:
    """Returns the page of the test as it is."""
    return whole_page(front().desk.path / LAST_TEST, PAGE)
