"""The Python of pages runs as it stands, and says what the page says."""
from __future__ import annotations

import contextlib
import io
from pathlib import Path
from typing import Any

import pandas as pd
import pytest

from tests.documents.markdown import FENCE, text_of
from tests.runs import TOP

CATALOGUE = TOP / "examples" / "catalogue"


def python_of(page: str) -> str:
    """Returns the one block of Python of a page."""
    (block,) = [text for kind, text in FENCE.findall(text_of(page)) if kind == "py"]
    return block


@pytest.fixture
def run(program: Path, monkeypatch: pytest.MonkeyPatch) -> Any:
    """Returns a function that runs a text in a folder, and returns its names."""

    def run_in(folder: Path, text: str) -> dict[str, Any]:
        monkeypatch.setenv("CRNSIM", str(program))
        monkeypatch.chdir(folder)
        names: dict[str, Any] = {}
        with contextlib.redirect_stdout(io.StringIO()):
            exec(compile(text, "page", "exec"), names)
        return names

    return run_in


def test_first_screen(run: Any) -> None:
    """README's Python plans the catalogue of the examples, and its table has the greatest savings of that plan."""
    decisions = run(TOP, python_of("README.md"))["plan"].decisions
    rows = []
    for row in decisions.nlargest(2, "saving").itertuples():
        levels = f"({row.s_today}, {row.S_today}) | ({row.s_chosen}, {row.S_chosen})"
        rows.append(f"| {row.item} | {levels} | {row.saving:.2f} |\n")
    assert "| item | today | chosen | saves a week |\n|---|---|---|---|\n" + "".join(
        rows
    ) in text_of("README.md")


def test_page_of_the_package(run: Any, tmp_path: Path) -> None:
    """The Python of the package's own page runs on two files with the columns that it names."""
    items = ["K-114", "K-121", "K-137"]
    for name in ("demand", "items"):
        table = pd.read_csv(CATALOGUE / f"{name}.csv")
        table[table["item"].isin(items)].to_csv(tmp_path / f"{name}.csv", index=False)
    names = run(tmp_path, python_of("planner/README.md"))
    assert names["plan"].decisions["item"].to_list() == items
    assert sorted(it.name for it in tmp_path.iterdir()) == ["demand.csv", "items.csv"]
