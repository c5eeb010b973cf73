"""Tests how open orders and stock of systems are read: right, or with a question that names the columns. Expected values are
worked by hand."""
from __future__ import annotations

from pathlib import Path
from typing import Any

import pytest

from crnplan.errors import RefusedFaults
from crnplan.read.items import Reading
from crnplan.read.stock import Holdings, read_holdings
from crnplan.remarks import Remark
from planner.tests.read.catalogues import cases_of

TABLES = cases_of("today"), cases_of("today_exports")


def read(folder: Path, kind: str, case: dict[str, Any]) -> Holdings:
    """Reads the table of a case for the items A and B."""
    path = folder / f"{kind}.csv"
    path.write_text(case["lines"].strip() + "\n", "utf-8")
    words = {**case.get("words", {})}
    words["where"] = tuple(words.get("where", ()))
    return read_holdings({kind: path}, Reading(**words), dict.fromkeys("AB"))


def found(kind: str, holdings: Holdings) -> dict[str, Any]:
    """Returns what is on hand of each item, or to come with its days."""
    if kind == "stock":
        return {name: hand.stock for name, hand in (holdings.on_hand or {}).items()}
    return {
        name: [
            [it.items, *([str(it.due)] if it.due is not None else [])]
            for it in arrivals
        ]
        for name, arrivals in holdings.arrivals.items()
    }


@pytest.mark.parametrize(
    "kind, case",
    [
        pytest.param(kind, case, id=case["name"])
        for table in TABLES
        for kind in ("on_order", "stock")
        for case in table[kind]
    ],
)
def test_tables_of_systems(tmp_path: Path, kind: str, case: dict[str, Any]) -> None:
    """Each table is read right, or is refused with all columns that must be asked about, and no others."""
    if "is" not in case:
        with pytest.raises(RefusedFaults, match=case.get("refused")) as why:
            read(tmp_path, kind, case)
        said = [it.said for it in why.value.faults if isinstance(it.said, Remark)]
        columns = [remark.facts["column"] for remark in said if "asked" in case]
        assert columns == case.get("asked", [])
        return
    holdings = read(tmp_path, kind, case)
    assert found(kind, holdings) == case["is"]
    assert holdings.counts[kind]["other"] == case.get("other", 0)
    assert str(holdings.as_of) == case.get("as_of", "None")
    codes = {remark.code for remark in holdings.remarks}
    assert bool(codes & {"closed rows", "earlier stock"}) == (
        "other" in case and "where" not in case.get("words", {})
    )
