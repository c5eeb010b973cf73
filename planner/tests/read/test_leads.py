"""Tests from where lead times are, and how late suppliers are: expected values are worked by hand, or by pandas."""
from __future__ import annotations

import datetime
import random
from collections.abc import Sequence
from fractions import Fraction
from pathlib import Path
from typing import Any

import openpyxl
import pandas as pd
import pytest

import crnplan as crn
from crnplan.show.lateness import lateness_of
from crnplan.read.leads import leads_from
from crnplan.catalogues import read_catalogue
from crnplan.sentences import sentence
from planner.tests.conftest import Command
from planner.tests.plan.items import QUICK
from planner.tests.read.catalogues import items_of

MONDAY = datetime.date(2026, 1, 5)
SEEN = (13, 14, 20, 21, 29)  # days from a Monday on, which are 1, 2, 2, 3 and 4 weeks


def day(days: int) -> datetime.date:
    return MONDAY + datetime.timedelta(days)


def tables(
    stated: dict[str, str], seen: dict[str, Sequence[int]]
) -> tuple[pd.DataFrame, pd.DataFrame, pd.DataFrame]:
    """Returns sales, masters with a lead time in days by item, empty if there is none, and orders that took so many
    days."""
    sales, masters, orders = [], [], []
    for item, lead in stated.items():
        sales += [(item, day(7 * week), 1 + week % 3) for week in range(60)]
        supplier = "Bosch" if item < "C" else ""
        masters.append((item, 20, "0.5", "95%", lead, 3, 12, 5, supplier))
    for item, days in seen.items():
        orders += [(item, MONDAY, day(took)) for took in days]
    columns = "item,setup,holding,fill,lead (days),s,S,price,supplier".split(",")
    return (
        pd.DataFrame(sales, columns=["item", "date", "quantity"]),
        pd.DataFrame(masters, columns=columns),
        pd.DataFrame(orders, columns=["item", "ordered", "received"]),
    )


@pytest.mark.parametrize(
    "stated, seen, source, wanted",
    [
        ((2,), (1, 2, 2, 3, 4), "orders", (1, 2, 2, 3, 4)),
        ((2,), (1, 2, 2, 3), "orders", (2,)),
        ((), (3,), "orders", (3,)),
        ((2,), (), "orders", (2,)),
        ((2,), (1, 2, 2, 3, 4), "masters", (2,)),
        ((), (3, 4), "masters", (3, 4)),
        # Together the stated one counts as one more receipt, in whole periods rounded up.
        ((2,), (1, 4), "both", (1, 4, 2)),
        ((1, 1, 2), (4,), "both", (4, 2)),
        ((), (3,), "both", (3,)),
        ((1, 2), (), "both", (1, 2)),
    ],
)
def test_which_lead_times_count(
    stated: tuple[int, ...], seen: tuple[int, ...], source: str, wanted: tuple[int, ...]
) -> None:
    assert leads_from(stated, seen, source) == wanted


@pytest.mark.parametrize(
    "source, code, leads, unused",
    [
        ("", "lead of receipts", {"A": (1, 2, 2, 3, 4), "B": (2,)}, 2),
        ("masters", "lead as stated", {"A": (2,), "B": (2,)}, 7),
        ("both", "lead of both", {"A": (1, 2, 2, 3, 4, 2), "B": (4, 4, 2)}, 0),
    ],
)
def test_lead_times_of_a_catalogue(
    source: str, code: str, leads: dict[str, tuple[int, ...]], unused: int
) -> None:
    """By default five receipts of an item count before what its master states; fewer do not, and are counted. What differs
    by a tenth is said of the item, whichever counts."""
    stated = {"A": "14", "B": "14", "C": "", "D": "14"}
    seen = {"A": SEEN, "B": (29, 29), "C": (21,)}
    words: Any = {"lead_from": source} if source else {}
    read = read_catalogue(*tables(stated, seen), **words)
    items = items_of(read)
    found = {name: item.leads for name, item in items.items()}
    assert found == {**leads, "C": (3,), "D": (2,)}
    assert (items["A"].receipts, items["A"].stated) == (SEEN, 14)
    assert (items["C"].stated, items["D"].receipts) == (None, ())
    said = [line for line in read.said if "receipts that are not used" in line]
    assert [line.split()[0] for line in said] == [str(unused)] * bool(unused)
    (remark,) = items["A"].remarks
    # 20, 21 and 29 days are late, of five that took 19.4 in the mean.
    late = (
        "5 receipts took 19.4 days in the mean, 60% of them longer than the stated 14"
    )
    assert remark.code == code and late in sentence(remark)
    assert not items["B"].remarks and not items["D"].remarks


@pytest.mark.parametrize(
    "every, stated", [("day", 2), ("week", 14), ("month", Fraction(487, 8))]
)
def test_stated_lead_times_are_in_days(every: str, stated: Fraction) -> None:
    """Two periods are so many days: a month has 487/16. Receipts took 13 days and more: all took longer than 2 days, three
    of five longer than 14 days, and none longer than 2 months."""
    sales, masters, orders = tables({"A": "2"}, {"A": SEEN})
    masters = masters.rename(columns={"lead (days)": f"lead ({every}s)"})
    words: Any = {"every": every, "units": {"items": {"holding": every}}}
    read = read_catalogue(sales, masters, orders, lead_from="masters", **words)
    (item,) = items_of(read).values()
    assert (item.leads, item.stated) == ((2,), stated)
    (remark,) = (it for it in item.remarks if it.code == "lead as stated")
    late = {"day": "100%", "week": "60%", "month": "0%"}[every]
    assert f"{late} of them longer than the stated" in sentence(remark)


def test_receipts_as_stated_are_not_said() -> None:
    """At a tenth nothing is said: of ten receipts one is late, and the mean is less than a tenth off."""
    seen = {"A": [14] * 9 + [20], "B": [14] * 8 + [15] * 2, "C": [12] * 9}
    items = items_of(read_catalogue(*tables(dict.fromkeys("ABC", "14"), seen)))
    assert [bool(items[name].remarks) for name in "ABC"] == [False, True, True]


def test_a_mean_stated_lead_time_in_days() -> None:
    """Receipts are compared in days: a lead time of 10 days is late after 11."""
    read = read_catalogue(*tables({"A": "10"}, {"A": [10] * 5 + [11]}))
    item = items_of(read)["A"]
    assert item.stated == 10
    assert "17% of them longer than the stated 10" in sentence(item.remarks[0])


def test_lateness_by_pandas() -> None:
    """The table of suppliers is that of pandas from the receipts, the latest supplier first."""
    source, stated = random.Random(7), dict[str, str]()
    seen: dict[str, list[int]] = {name: [] for name in "ABCDEFGH"}
    for place, name in enumerate(seen):
        stated[name] = "" if name == "H" else str(7 + 3 * place)
    for _ in range(200):
        seen[source.choice("ABCDEFGH")].append(source.randint(1, 40))
    sales, masters, orders = tables(stated, seen)
    masters["supplier"] = ["x", "y", "z", "x", "y", "z", "x", ""]
    with read_catalogue(sales, masters, orders).opened() as read:
        table = lateness_of(read).frame.set_index("supplier")
    orders = orders.merge(masters, on="item")
    days = pd.to_datetime(orders.received) - pd.to_datetime(orders.ordered)
    orders["seen"] = days.dt.days
    orders["stated"] = pd.to_numeric(orders["lead (days)"])
    orders["late"] = (orders.seen > orders.stated).where(orders.stated.notna())
    groups = orders.astype({"late": float}).groupby("supplier")
    wanted = groups[["stated", "seen", "late"]].mean()
    wanted["items"], wanted["receipts"] = groups.item.nunique(), groups.size()
    late = wanted.late.dropna().sort_values(ascending=False)
    assert [*table.index] == [*late.index, ""]
    table = table.loc[wanted.index]
    for name in wanted:
        found = table[name].astype(float)
        assert [*found] == pytest.approx([*wanted[name]], nan_ok=True)
    # The least time that nine tenths of the receipts take at most.
    for name, took in groups.seen:
        assert table.seen_90[name] == sorted(took)[-(-9 * len(took) // 10) - 1]


def test_a_plan_by_receipts(
    tmp_path: Path, crnplan: Command, program: Path, monkeypatch: pytest.MonkeyPatch
) -> None:
    """A plan by receipts has a higher s than one by a shorter stated lead time, by any of the ways to say it. The summary
    and the folder have the lateness of suppliers."""
    monkeypatch.chdir(tmp_path)
    made = tables({"A": "14", "B": "14"}, {"A": (21, 28, 28, 35, 35, 35), "B": (35,)})
    for name, table in zip(("demand", "items", "orders"), made):
        table.to_csv(f"{name}.csv", index=False)
    Path("mine.toml").write_text('[catalogue]\nlead_from = "masters"\n', "utf-8")
    files = "demand.csv", "items.csv", "orders.csv", "--jobs", "1"
    levels = {}
    for source in ("orders", "masters", "both", "config"):
        words = ["--set", f"lead_from={source}"]
        if source == "config":
            words = ["--config", "mine.toml"]
        out = "--out", source, "--program", program
        answer = crnplan("plan", *files, *words, *out)
        assert answer.status == 0, answer.errors
        levels[source] = pd.read_csv(f"{source}/decisions.csv").s_chosen[0]
        assert ("receipts that are not used" in answer.output) == (source != "both")
        late = "supplier 'Bosch': 7 receipts took 31 days in the mean, 100% of them longer than the stated 14"
        assert late in answer.output
    assert levels["masters"] == levels["config"] < levels["both"] <= levels["orders"]
    assert pd.read_csv("orders/lateness.csv").supplier[0] == "Bosch"


def test_lateness_of_a_plan(tmp_path: Path, program: Path) -> None:
    """Python and the workbook have the lateness of suppliers; without orders there is none."""
    made = tables({"A": "14", "B": "14"}, {"A": (21, 28, 28, 35, 35, 35), "B": (35,)})
    plan = crn.plan(*made, program=program, **QUICK)
    (supplier,) = plan.lateness.itertuples(index=False)
    assert [*supplier][:6] == ["Bosch", 2, 7, 14, 31, 35] and supplier.late == 1
    plan.to_excel(tmp_path / "plan.xlsx")
    sheet = openpyxl.load_workbook(tmp_path / "plan.xlsx")["Suppliers"]
    assert [cell.value for cell in sheet[2]][:4] == ["Bosch", 2, 7, 14]
    assert crn.plan(*made[:2], program=program, **QUICK).lateness.empty
    said = "lead_from: 'stock' is not one of orders, masters, both"
    with pytest.raises(crn.Refused, match=said):
        crn.plan(*made, lead_from="stock", program=program, **QUICK)


def test_what_a_stated_lead_time_promises(program: Path) -> None:
    """Receipts that take 13 to 29 days keep the wanted fill rate if the plan takes them, and not by the stated 14 days."""
    seen = [*range(13, 30), 20, 22, 24]
    made = tables({"A": "14"}, {"A": seen})
    weeks = [max(1, days // 7) for days in seen]  # from a Monday on
    law, lead = crn.fit_demand([1, 2, 3], method="empirical"), crn.fit_lead(weeks)
    fills = {}
    for source in ("masters", "orders"):
        plan = crn.plan(*made, lead_from=source, program=program, **QUICK)
        row = plan.decisions.loc[0]
        today = int(row.s_chosen), int(row.S_chosen)
        costs = {"setup": 20, "holding": 1, "backlog": 9}
        scenario = crn.Scenario.of(law, lead, today=today, **costs)
        fills[source] = scenario.suggest().frame.set_index("policy").fill["today"]
    assert fills["orders"] >= 0.95 and fills["masters"] < 0.9
