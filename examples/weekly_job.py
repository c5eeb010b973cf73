"""Plans the items of each supplier anew each week, on the workers of a Dask cluster, and writes this week's orders.

    python3 examples/weekly_job.py FOLDER ADDRESS

FOLDER keeps the plans: in the next week only what has changed is planned. ADDRESS is that of a scheduler of Dask, as
tcp://127.0.0.1:8786. The suppliers are planned at the same time, each in a thread of its own.
"""
from __future__ import annotations

import sys
import warnings
from concurrent.futures import ThreadPoolExecutor
from functools import partial
from pathlib import Path

import pandas as pd
from distributed import Client

import crnplan as crn

HERE = Path(__file__).parent / "catalogue"
TODAY = "2026-11-20"
# Dask of Debian 12 warns about how it starts itself, which is no matter of this job.
warnings.filterwarnings("ignore", "make_current is deprecated", DeprecationWarning)


def planned(
    supplier: str,
    sales: pd.DataFrame,
    masters: pd.DataFrame,
    folder: Path,
    client: Client,
) -> pd.DataFrame:
    """Plans the items of a supplier into a folder of its own, and returns their orders of today."""
    own = masters[masters["supplier"] == supplier]
    sold = sales[sales["item"].isin(own["item"])]
    plan = crn.plan(sold, own, currency="EUR", out=folder / supplier, cluster=client)
    to_come = pd.read_csv(HERE / "open.csv")
    to_come = to_come[to_come["item"].isin(own["item"])]
    return plan.orders_today(on_order=to_come, date=TODAY).frame


def main(folder: Path, address: str) -> None:
    """Plans all suppliers, and writes orders.csv into the folder."""
    sales = pd.read_csv(HERE / "demand.csv")
    masters = pd.read_csv(HERE / "items.csv")
    suppliers = sorted(masters["supplier"].unique())
    with Client(address) as client, ThreadPoolExecutor() as threads:
        one = partial(
            planned, sales=sales, masters=masters, folder=folder, client=client
        )
        orders = pd.concat(threads.map(one, suppliers), ignore_index=True)
    orders.to_csv(folder / "orders.csv", index=False)
    print(orders[["supplier", "item", "placed", "value"]].to_string(index=False))


if __name__ == "__main__":
    main(Path(sys.argv[1]), sys.argv[2])
