"""The notebooks of the examples run, and print what they have kept."""
from __future__ import annotations

from pathlib import Path
from typing import Any

import nbformat
import pytest

from tests.documents.notebooks import NOTEBOOKS, executed


def printed(notebook: Any) -> list[list[tuple[str, str]]]:
    """Returns what each cell with code prints: the kinds of its outputs, with their texts. Pictures have none."""
    cells = []
    for cell in notebook.cells:
        outputs = []
        for output in cell.get("outputs", []):
            if output.output_type == "stream":
                outputs.append((output.name, output.text))
                continue
            text = output.data.get("text/plain", "")
            is_picture = "image/svg+xml" in output.data
            outputs.append(("picture", "") if is_picture else ("value", text))
        cells.append(outputs)
    return cells


def test_all_are_kept() -> None:
    """There are two notebooks, and each cell with code has been run, without a word on standard error."""
    assert [path.name for path in NOTEBOOKS] == ["published.ipynb", "tour.ipynb"]
    for path in NOTEBOOKS:
        notebook = nbformat.read(path, as_version=4)
        assert all(cell.get("execution_count", 1) for cell in notebook.cells)
        kinds = {kind for cell in printed(notebook) for kind, _ in cell}
        assert "stderr" not in kinds
        for cell, outputs in zip(notebook.cells, printed(notebook)):
            has_picture = ("picture", "") in outputs
            assert has_picture == (cell.cell_type == "code" and "plot" in cell.source)


@pytest.mark.timeout(600)
@pytest.mark.parametrize("path", NOTEBOOKS, ids=lambda path: path.stem)
def test_notebook(path: Path, program: Path) -> None:
    """A notebook prints what it has kept when it runs anew."""
    kept = printed(nbformat.read(path, as_version=4))
    assert printed(executed(path, program)) == kept
