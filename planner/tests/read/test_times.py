"""Tests that no unit of a time is guessed: it stands in the heading, in the cell or in a word."""
from __future__ import annotations

import tomllib
from collections.abc import Mapping, Sequence
from pathlib import Path
from typing import Any

import pandas as pd
import pytest

import crnplan as crn
from planner.tests.conftest import Command
from planner.tests.read.catalogues import (
    MASTER,
    TODAY,
    but,
    cases_of,
    catalogue_of,
    day_of,
    demand_of,
    items_of,
    masters_of,
)

CASES = cases_of("times")
Receipts = Mapping[str, Sequence[int]]
BARE = but("lead")


def orders_of(receipts: Receipts) -> pd.DataFrame:
    """Returns an order each two weeks of each item, with the days that it took, and one that is still open."""
    rows = [("A", "2026-11-02", "")]
    for item, days in receipts.items():
        rows += [
            (item, str(day_of(2 * place)), str(day_of(2 * place, took)))
            for place, took in enumerate(days)
        ]
    return pd.DataFrame(rows, columns=["item", "ordered", "received"])


@pytest.fixture
def files(tmp_path: Path) -> dict[str, Any]:
    """Returns the words by which a command checks items A and B, and those that add orders of item A."""
    demand_of("A", "B").to_csv(tmp_path / "demand.csv", index=False)
    masters_of(BARE, BARE).to_csv(tmp_path / "items.csv", index=False)
    orders_of({"A": [13, 14, 16]}).to_csv(tmp_path / "orders.csv", index=False)
    words = ["plan", tmp_path / "demand.csv", tmp_path / "items.csv", "--check"]
    return {"words": words, "orders": [tmp_path / "orders.csv"]}


@pytest.mark.parametrize("every", ["day", "week", "month"])
@pytest.mark.parametrize("role", ["lead", "coverage", "shelf_life"])
def test_a_time_without_a_unit_is_refused(role: str, every: str) -> None:
    """Neither weeks nor days are guessed: both are named, and each is taken if it is said."""
    units = {"items": {"holding": "week", "backlog": "week"}}
    with pytest.raises(crn.Refused) as refused:
        catalogue_of({**but(role), role: "14"}, every=every, units=units, least=1)
    assert f"'{role}' names no unit" in str(refused.value)
    for unit in ("day", "week"):
        assert f'units={{"items": {{"{role}": "{unit}"}}}}' in str(refused.value)


def test_receipts_say_no_unit(crnplan: Command, files: dict[str, Any]) -> None:
    """Stated 14 is refused also beside receipts after 13 to 16 days, which may be late. A word says the unit."""
    words, orders = files.values()
    masters_of({**BARE, "lead": 14}, {**BARE, "lead": 28}).to_csv(words[2], index=False)
    receipts = {"A": [13, 14, 16], "B": [27, 28, 30]}
    orders_of(receipts).to_csv(orders[0], index=False)
    stated = crnplan(*words, *orders, "--set", "units.items.lead=day")
    assert stated.status == 0
    refused = crnplan(*words, *orders)
    advice = "say --set units.items.lead=day or --set units.items.lead=week"
    assert refused.status == 2 and advice in refused.errors


@pytest.mark.parametrize("lead, every, leads", CASES["defaults"])
def test_a_lead_time_for_items_without_one(
    lead: str, every: str, leads: list[int]
) -> None:
    """A default is that of items for which neither masters nor receipts say one, and it is counted of how many."""
    masters = masters_of(*({**MASTER, "lead (weeks)": own} for own in ("4", "", "")))
    orders = orders_of({"B": [21]})
    units = {"items": {"holding": "week", "backlog": "week"}}
    words: dict[str, Any] = {"every": every, "units": units, "least": 1, "lead": lead}
    read = crn.read_catalogue(
        demand_of("A", "B", "C"), masters, orders, today=TODAY, **words
    )
    days = 7 if every == "day" else 1
    found = {name: [*item.leads] for name, item in items_of(read).items()}
    assert found == {"A": [4 * days], "B": [3 * days], "C": leads}
    said = "lead: 1 item by the masters, 1 item by receipts of orders, 1 item by the default"
    assert said in read.said
    assert tomllib.loads(read.found)["catalogue"]["lead"] == lead


def test_a_default_by_word_and_by_key(
    crnplan: Command, files: dict[str, Any], tmp_path: Path
) -> None:
    """--set lead and the key of crnplan.toml say the same. A command says that lead times are those of receipts if no column has them."""
    words, orders = files.values()
    left = crnplan(*words)
    assert left.status == 1 and "receipts" not in left.errors
    assert "or say --set 'lead=14 days' for all items" in left.output
    stated = crnplan(*words, "--set", "lead=14 days")
    assert stated.status == 0 and "2 items by the default\n" in stated.errors
    settings, config = tmp_path / "mine.toml", ["--config", tmp_path / "mine.toml"]
    settings.write_text('[catalogue]\nlead = "14 days"\n', "utf-8")
    assert crnplan(*words, *config).output == stated.output
    settings.write_text('[catalogue]\nlead = "14"\n', "utf-8")
    assert "14 days or 14 weeks" in crnplan(*words, *config).errors
    by = "# items.csv: no column is the lead, so lead times are those of receipts of orders: of 1 item\n"
    assert by in crnplan(*words, *orders).errors
