"""Tests the column of demand that marks promotions: how it is read, and what is kept of the marks."""
from __future__ import annotations

import dataclasses
from pathlib import Path
from typing import Any

import pandas as pd
import pytest

import crnplan as crn
from crnplan.plan.learned import has_marks
from crnplan.read.catalogue_reading import Catalogued
from crnplan.read.successors import summed
from planner.tests.conftest import Command
from planner.tests.plan.items import item_of
from planner.tests.read.catalogues import (
    MASTER,
    MASTERS,
    TODAY,
    cases_of,
    day_of,
    demand_of,
    items_of,
    masters_of,
    read_text,
)

CASES = cases_of("promotions")
HEADING = "item,date,quantity,promotion\n"


def marked(*rows: str, heading: str = HEADING) -> bytes:
    """Returns a file of demand."""
    return (heading + "".join(f"{row}\n" for row in rows)).encode()


@pytest.mark.parametrize("word", [*CASES["yes"], *CASES["no"]])
def test_words_of_marks(tmp_path: Path, word: str) -> None:
    """A cell says that its row is of a promotion, or that it is not, as an empty one does."""
    rows = f"A,{day_of(0)},5,no", f"A,{day_of(1)},4,{word}"
    item = items_of(read_text(tmp_path, marked(*rows), least=1))["A"]
    assert (item.counts, item.promoted) == (
        (5, 4),
        (1,) if word in CASES["yes"] else (),
    )


@pytest.mark.parametrize("word", CASES["rejected"])
def test_other_words_are_rejected(tmp_path: Path, word: str) -> None:
    """The row is left out, with its line, and what to write."""
    rows = f"A,{day_of(0)},5,yes", f"A,{day_of(1)},4,{word}", f"A,{day_of(2)},3,"
    read = read_text(tmp_path, marked(*rows), least=1)
    (reject,) = read.rejects.itertuples()
    assert (reject.kind, reject.line, reject.column) == ("row", 3, "promotion")
    assert f"{word!r} does not say whether the row is of a promotion" in reject.reason
    assert "write yes or no, or say columns=" in reject.advice
    item = items_of(read)["A"]
    assert (item.counts, item.promoted) == ((5, 0, 3), (0,))
    none = {"columns": {"demand": {"promotion": ""}}}
    item = items_of(read_text(tmp_path, marked(*rows), least=1, **none))["A"]
    assert (item.counts, item.promoted) == ((5, 4, 3), ())


def test_a_period_is_promoted_if_one_of_its_rows_is(tmp_path: Path) -> None:
    """Also by a row without a quantity, whose period is unknown too; another item's marks are its own. All is counted."""
    rows = [
        *(f"A,{day_of(0)},5,", f"A,{day_of(0, 2)},1,yes", f"A,{day_of(1)},4,no"),
        *(f"A,{day_of(3)},,x", f"A,{day_of(4)},2,", f"B,{day_of(1)},2,yes"),
        *(f"B,{day_of(4)},2,no", f"C,{day_of(4)},2,no"),
    ]
    lines = MASTERS.splitlines()
    masters = "\n".join([*lines, *(lines[1].replace("A", it, 1) for it in "BC"), ""])
    read = read_text(tmp_path, marked(*rows), masters, least=1)
    items = items_of(read)
    assert [items[name].promoted for name in "ABC"] == [(0, 3), (1,), ()]
    assert items["A"].unknown == (3,) and items["B"].first == items["A"].first
    remarks = {it.code: it.facts for it in items["A"].remarks}
    assert remarks["promoted"] == {"periods": 2, "every": "week", "of": 5}
    assert "items with promoted periods: 2, with 3 such" in str(read.said)
    assert has_marks(Catalogued(read.path))


@pytest.mark.parametrize("heading", [*CASES["headings"], *CASES["others"]])
def test_headings(heading: str) -> None:
    """The column is found by its whole name alone, in frames of truth values too. Without one, nothing is marked."""
    demand = demand_of("A")
    demand[heading] = [week in (2, 9) for week in range(26)]
    read = crn.read_catalogue(demand, masters_of(MASTER), today=TODAY)
    is_found = heading in CASES["headings"]
    assert items_of(read)["A"].promoted == ((2, 9) if is_found else ())
    assert has_marks(Catalogued(read.path)) == is_found
    assert read.rejects.empty and ("promoted" in str(read.said)) == is_found


def test_months_and_days() -> None:
    """A month or a day with a marked row is promoted."""
    demand = demand_of("A")
    demand["promotion"] = ["yes" if week in (6, 7) else "" for week in range(26)]
    for every, places in (("month", (1,)), ("day", (42, 49))):
        units = dict.fromkeys(("holding", "backlog"), every)
        words: dict[str, Any] = {"every": every, "units": {"items": units}, "least": 1}
        read = crn.read_catalogue(demand, masters_of(MASTER), today=TODAY, **words)
        item = items_of(read)["A"]
        assert item.promoted == places


def test_parts_of_an_item_keep_their_marks() -> None:
    """By places of the part: of some periods, without some, and of the known ones; a successor has both items'."""
    item = item_of(3, promoted=(2, 5, 9), unknown=(4, 5), returns=())
    assert len(item.counts) >= 12
    assert item.part(3, 10).promoted == (2, 6)
    assert item.without([0, 2, 3]).promoted == (2, 6)
    assert item.known.promoted == (2, 7)
    earlier = {"first": item.first - 2, "counts": (1, 1, *item.counts)}
    old = dataclasses.replace(item, **earlier, promoted=(1, 4, 11))
    assert summed(item, old).promoted == (1, 4, 7, 11)


def test_wide_tables_have_no_marks() -> None:
    """A column of a table with one for each period marks no period; one that is stated so is refused."""
    wide = {"item": ["A"], "promo": ["yes"]}
    wide |= {str(day_of(week)): [week % 3 + 1] for week in range(26)}
    tables = pd.DataFrame(wide), masters_of(MASTER)
    read = crn.read_catalogue(*tables, today=TODAY)
    assert items_of(read)["A"].promoted == () and not has_marks(Catalogued(read.path))
    columns = {"demand": {"promotion": "promo"}}
    with pytest.raises(crn.Refused, match="has no column of the role promotion"):
        crn.read_catalogue(*tables, today=TODAY, columns=columns)


def test_the_command_states_the_column(crnplan: Command, tmp_path: Path) -> None:
    """`crnplan plan` says which column it is, and how many periods it marks."""
    rows = [
        f"A,{day_of(week)},{week % 3 + 1},{'ja' * (week == 8)}" for week in range(26)
    ]
    (tmp_path / "demand.csv").write_bytes(
        marked(*rows, heading=HEADING.replace("promotion", "Aktion"))
    )
    (tmp_path / "items.csv").write_text(MASTERS)
    files = tmp_path / "demand.csv", tmp_path / "items.csv"
    status, _, errors = crnplan("plan", *files, "--check")
    assert status == 0 and 'promotion = "Aktion"' in errors
    assert "items with promoted periods: 1, with 1 such" in errors
