"""Tests how much is shown of a plan that is made in a notebook."""
from __future__ import annotations

from pathlib import Path
from typing import Any

import nbformat
import pytest

from crnplan.store import work
from tests.documents.notebooks import executed

CELLS = """
import pandas as pd, crnplan as crn
days = pd.date_range("2026-01-05", periods=20, freq="7D")
sales = pd.concat([pd.DataFrame({"item": name, "date": days, "quantity": 3}) for name in "ABC"])
columns = ["item", "setup", "holding", "backlog", "lead (weeks)", "s", "S"]
masters = pd.DataFrame([(name, 20, 1, 9, 1, 5, 20) for name in "ABC"], columns=columns)
words = {"jobs": 1, "fit": "empirical", "periods": 64, "replications": 4}
---
shown = crn.plan(sales, masters, progress=True, **words)
---
hidden = crn.plan(sales, masters, **words)
---
crn.backtest(sales, masters, record=13, every=4, jobs=1); None
"""


def test_a_notebook_has_one_bar(program: Path, tmp_path: Path) -> None:
    """A plan shows one bar, which goes when it is full, and nothing on standard error; without `progress` nothing is
    shown at all."""
    cells = [*map(nbformat.v4.new_code_cell, CELLS.split("---"))]
    path = tmp_path / "plan.ipynb"
    nbformat.write(nbformat.v4.new_notebook(cells=cells), path)
    book = executed(path, program)
    outputs: list[Any] = [cell.outputs for cell in book.cells]
    assert {its.name for cell in outputs for its in cell if "name" in its} == {"stdout"}
    assert [len(cell) > 0 for cell in outputs] == [False, True, False, False]
    text = "".join(its.text for its in outputs[1])
    assert "\n" not in text.strip()
    assert "0 kept" in text and "3/3" in text.replace(" ", "")


@pytest.mark.parametrize("config, is_one", [({"IPKernelApp": {}}, True), ({}, False)])
def test_a_shell_is_no_notebook(
    config: dict[str, Any], is_one: bool, monkeypatch: pytest.MonkeyPatch
) -> None:
    """A notebook is known by its shell, which a terminal has too."""
    shell = type("Shell", (), {"config": config})()
    module = type("IPython", (), {"get_ipython": staticmethod(lambda: shell)})
    monkeypatch.setitem(work.sys.modules, "IPython", module)
    assert work.in_notebook() is is_one
    monkeypatch.delitem(work.sys.modules, "IPython")
    assert not work.in_notebook()


@pytest.mark.parametrize("is_shown", [True, False])
def test_a_bar_as_text(
    is_shown: bool,
    monkeypatch: pytest.MonkeyPatch,
    capsys: pytest.CaptureFixture[str],
) -> None:
    """Without widgets the bar of a notebook is a text on standard output, in one line, and goes at the end."""
    monkeypatch.setattr(work, "in_notebook", lambda: True)
    with work.progress(3, is_shown, "items", kept=1) as done:
        done.add(0)
        done.add(2)
    shown = capsys.readouterr()
    assert shown.err == ""
    assert "\n" not in shown.out
    assert ("1/3" in shown.out) is is_shown
    assert shown.out.endswith("\r") or not is_shown
