"""Tests of what the pages of a desk share: where one begins, and work that is begun, refused, gone on with and ended."""
from __future__ import annotations

import json
import subprocess
import sys
import webbrowser
from pathlib import Path
from typing import Any

import pytest

from crnplan.desk import front as fronts
from crnplan.desk.server import show_address
from crnplan.desk.work import PLANNING, STOPPED
from planner.tests.desk.conftest import MADE_PLAN, Planner, add_made_plan, wait_for

ROWS = {
    "demand": "item,date,quantity\nA,2026-01-05,3\n",
    "items": "item,setup,holding,backlog,lead (weeks)\nA,1,1,5,2\n",
}
CRASH = """
from crnplan.desk import work

def crash(*words):
    return 1 / 0

work.WORK["read"] = crash
work.main()
"""


class Idle:
    """Work that does nothing until it is stopped."""

    def __init__(self, asked: dict[str, Any], room: Path, end: Any) -> None:
        self.asked, self.kind, self.end = asked, asked["kind"], end
        self.progress: dict[str, Any] = {}
        self.ended, self.said = "", list[str]()

    def close(self) -> None:
        self.ended = STOPPED
        self.end(self)


@pytest.fixture
def filed(planner: Planner, monkeypatch: pytest.MonkeyPatch) -> Planner:
    """Returns who asks a desk with files, whose work does nothing."""
    monkeypatch.setattr(fronts, "DeskWork", Idle)
    for kind, text in ROWS.items():
        with (planner.desk.folder.room() / "rows").open("w+b") as file:
            file.write(text.encode())
            file.seek(0)
            name = planner.desk.add_file(f"{kind}.csv", file).name
        planner.desk.set_file(name, kind, "")
    return planner


def test_first_page(planner: Planner) -> None:
    """A planner begins with files, and with a plan on the orders of today."""
    assert planner.get("/").location == "/files"
    add_made_plan(planner.front, 2)
    assert planner.get("/").location == "/today"


def test_plan_needs_files(planner: Planner) -> None:
    answer = planner.post("/plan/begin", {})
    assert answer.status_code == 400
    assert "no file has demand; drop one on the page Files" in answer.text


def test_one_work_at_a_time(filed: Planner) -> None:
    """What is begun while other work is under way is refused. Stopped work goes on as it was asked for."""
    add_made_plan(filed.front, 2)
    assert filed.post("/plan/begin", {"way": "after"}).status_code == 303
    work: Any = filed.front.work
    assert work.kind == PLANNING and work.asked["after"].endswith(MADE_PLAN)
    answer = filed.post("/plan/begin", {})
    assert answer.status_code == 400 and "other work is under way" in answer.text
    assert filed.post("/plan/stop", {}).status_code == 303
    assert filed.front.work is None and filed.desk.state.ended == STOPPED
    assert filed.post("/plan/go-on", {}).location == "/plan"
    again: Any = filed.front.work
    assert again is not work and again.asked == work.asked


def test_closed_desk_goes_on_later(filed: Planner) -> None:
    """Work that is under way when a desk is closed has not ended for it."""
    filed.post("/plan/begin", {})
    begun = filed.desk.state.begun
    filed.front.close()
    state = filed.desk.state
    assert (filed.front.work, state.begun, state.ended) == (None, begun, "")
    filed.front.go_on()
    assert filed.front.work is not None
    filed.front.work = None


def test_browser_is_opened(
    tmp_path: Path, monkeypatch: pytest.MonkeyPatch, capsys: pytest.CaptureFixture[str]
) -> None:
    """It is led by the file that its owner alone reads; the address is printed."""
    opened = list[str]()
    monkeypatch.setattr(webbrowser, "open", opened.append)
    show_address(tmp_path, "http://127.0.0.1:1/enter/x", True)
    wait_for(lambda: bool(opened))
    assert opened == [(tmp_path / "kept/open.html").as_uri()]
    assert capsys.readouterr().out == "http://127.0.0.1:1/enter/x\n"


def test_fault_of_work_is_said(planner: Planner) -> None:
    """A fault of crnplan ends the process with what is to be reported."""
    desk = planner.desk
    asked = {"kind": "read", "config": str(desk.config), "out": str(desk.path / "read")}
    with subprocess.Popen(
        [sys.executable, "-c", CRASH],
        stdin=subprocess.PIPE,
        stdout=subprocess.PIPE,
        text=True,
    ) as process:
        assert process.stdin and process.stdout
        print(json.dumps(asked), file=process.stdin, flush=True)
        begun, told = map(json.loads, process.stdout)
    assert begun == {} and told["ended"] == "refused"
    assert "a fault of crnplan itself: ZeroDivisionError" in told["said"][0]
