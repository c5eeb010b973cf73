"""Compares plans by another forecast with crnplan's own, on weeks that neither has seen.

    python3 examples/compare_forecasts.py

The other forecast has for each item a mean and a variance of a week, by exponential weights. Items are planned from the
weeks before a day: once by it (`laws`), and once by the laws that crnplan fits. What both policies cost is then computed
for the demand of the weeks that came.
"""
from __future__ import annotations

from pathlib import Path

import pandas as pd

import crnplan as crn

HERE = Path(__file__).parent / "catalogue"
CUT, END = "2026-01-05", "2026-11-16"  # Mondays
HALF_LIFE = 13  # weeks


def weekly(sales: pd.DataFrame) -> pd.DataFrame:
    """Returns the demand of each full week before the end, with a column for each item."""
    dated = sales.assign(date=pd.to_datetime(sales["date"])).dropna()
    weeks = dated.groupby(
        [pd.Grouper(key="date", freq="W-MON", label="left", closed="left"), "item"]
    )
    return weeks["quantity"].sum().unstack(fill_value=0).loc[:END].iloc[:-1]


def forecast(history: pd.DataFrame) -> pd.DataFrame:
    """Returns the mean and the variance of the demand of a week by item, in items."""
    weights = history.ewm(halflife=HALF_LIFE)
    return pd.DataFrame(
        {"mean": weights.mean().iloc[-1], "variance": weights.var().iloc[-1]}
    ).reset_index()


def cost_of(
    master: pd.Series, came: pd.Series, policies: dict[str, tuple[int, int]]
) -> pd.Series:
    """Returns what each policy of an item costs a week, if weeks like those that came go on."""
    scenario = crn.Scenario.of(
        came.astype(int),
        [int(master["lead weeks"])],
        setup=master["setup"],
        holding=master["holding"],
        backlog=master["backlog"],
        today=(int(master["s"]), int(master["S"])),
    )
    frame = scenario.long_run(policies, keys=16).frame
    return frame.loc[["today", *policies], "cost"]


def main() -> pd.DataFrame:
    """Returns what today's policy and both plans cost a week, by item."""
    sales = pd.read_csv(HERE / "demand.csv")
    masters = pd.read_csv(HERE / "items.csv").dropna(subset=["backlog", "lead weeks"])
    demand = weekly(sales[sales["item"].isin(masters["item"])])
    before, came = demand.loc[:CUT].iloc[:-1], demand.loc[CUT:]
    wide = before.set_index(before.index.strftime("%Y-%m-%d")).T.reset_index()
    masters = masters[masters["item"].isin(before)].set_index("item")
    plans = {
        "own": crn.plan(wide, masters),
        "forecast": crn.plan(wide, masters, laws=forecast(before)),
    }
    chosen = {
        name: plan.decisions.set_index("item")[["s_chosen", "S_chosen"]]
        for name, plan in plans.items()
    }
    costs = {}
    for item in chosen["own"].index.intersection(chosen["forecast"].index):
        policies = {}
        for name, levels in chosen.items():
            s, S = levels.loc[item]
            policies[name] = int(s), int(S)
        costs[item] = cost_of(masters.loc[item], came[item], policies)
    return pd.DataFrame(costs).T


if __name__ == "__main__":
    table = main()
    table.loc["sum"] = table.sum()
    print(table.round(2).rename_axis("item").reset_index().to_string(index=False))
