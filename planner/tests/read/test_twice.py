"""Tests files that are there twice, rows of totals of masters, and items that differ by leading zeros."""
from __future__ import annotations

import datetime
from collections.abc import Sequence
from pathlib import Path
from typing import Any

import pandas as pd
import pytest

import crnplan as crn
from crnplan.read.blocks import Sizes
from crnplan.read.catalogue_reading import read_alone
from crnplan.read.items import Reading
from crnplan.catalogues import Catalogue

TODAY = datetime.date(2026, 11, 26)
HEADING = "item,setup,holding (per week),backlog (per week),lead (weeks),price,stock\n"
MASTERS = HEADING + "A,20,0.06,0.9,2,2.5,12\nB,20,0.06,0.9,2,0.5,7\n"


def months(
    names: Sequence[str], items: Sequence[str] = ("A", "B")
) -> dict[str, pd.DataFrame]:
    """Returns the movements of some months, by the name of a file."""
    found = {}
    for month, name in enumerate(names, 1):
        table = pd.DataFrame({"quantity": [1 + day % 4 for day in range(1, 29)]})
        table["item"] = [items[day % len(items)] for day in range(1, 29)]
        table["date"] = [f"2026-{month:02}-{day:02}" for day in range(1, 29)]
        found[name] = table
    return found


YEAR = ["jan", "feb", "mar", "apr"]


def write(
    folder: Path, files: dict[str, pd.DataFrame], masters: str = MASTERS
) -> dict[str, Path]:
    """Writes files of demand and the masters, and returns the tables by kind."""
    for name, frame in files.items():
        frame.to_csv(folder / f"{name}.csv", index=False)
    (folder / "masters.txt").write_text(masters, "utf-8")
    return {"demand": folder / "*.csv", "items": folder / "masters.txt"}


def read(
    folder: Path, tables: dict[str, Path], sizes: Sizes = Sizes(), **words: Any
) -> Catalogue:
    asked = Reading(today=TODAY, **words)
    return Catalogue(read_alone(folder / "plan", tables, asked, 1, sizes))


PARTS = pytest.mark.parametrize(
    "sizes", [Sizes(), Sizes(1_000, 500, plain=0)], ids=["one part", "parts"]
)


@PARTS
def test_files_that_are_there_twice(tmp_path: Path, sizes: Sizes) -> None:
    """The same rows in two files, or a file whose rows are all in another one, are refused unless a word allows it."""
    files = months(YEAR[:3])
    tables, rows = write(tmp_path, files), sum(map(len, files.values()))

    def counts(**words: Any) -> tuple[int, int]:
        """Returns how many rows of demand are used and rejected."""
        demand = read(tmp_path, tables, sizes, **words).counts["files"]["demand"]
        return demand["used"], demand["rejected"]

    def copy(frame: pd.DataFrame) -> None:
        write(tmp_path, {"copy of feb": frame})

    assert counts() == (rows, 0)
    copy(files["feb"].sample(frac=1, random_state=1))
    said = "copy of feb.csv: all of its 28 rows are in feb.csv too; leave one out, or say twice=keep or twice=leave-out"
    with pytest.raises(crn.Refused, match=said):
        counts()
    assert counts(twice="keep") == (rows + 28, 0)
    assert counts(twice="leave-out") == (rows, 28)
    copy(pd.concat([files["jan"], files["feb"][:5]]))
    said = "jan.csv: all of its 28 rows are in copy of feb.csv too"
    with pytest.raises(crn.Refused, match=said):
        counts()
    copy(files["jan"].assign(quantity=9))
    write(tmp_path, {"empty": files["jan"][:0]})
    assert counts() == (rows + 28, 0)


@pytest.mark.parametrize(
    "total", ["Total,,,,,,19", "Summe,,,,,,", "GRAND TOTAL,40,0.12,1.8,4,3,19"]
)
def test_total_row_of_masters(tmp_path: Path, total: str) -> None:
    """A row that is called a total and has the sum of a column, or nothing, is no item, and is named."""
    tables = write(tmp_path, months(YEAR), f"{MASTERS}{total}\n")
    catalogue = read(tmp_path, tables)
    (row,) = catalogue.rejects.itertuples()
    said = "the row looks like a total of the rows above"
    assert (row.kind, row.line, row.reason) == ("row", 4, said)
    assert catalogue.counts["items"]["named"] == 2
    counts = catalogue.counts["files"]["items"]
    assert (counts["read"], counts["used"], counts["rejected"]) == (3, 2, 1)
    assert counts["blank"] == counts["with_item"] == counts["other"] == 0


@pytest.mark.parametrize(
    "items, master",
    [("AB", "Total 5W30,20,0.06,0.9,2,30,4"), ("ABT", "T,20,0.06,0.9,2,3,19")],
)
def test_items_that_are_called_total(tmp_path: Path, items: str, master: str) -> None:
    """An item that is called so and has no sum, or that is sold, is an item."""
    names = [name.replace("T", "Total") for name in items]
    masters = MASTERS + master.replace("T,", "Total,") + "\n"
    catalogue = read(tmp_path, write(tmp_path, months(YEAR, names), masters))
    assert catalogue.rejects.empty and catalogue.counts["items"]["named"] == 3


@PARTS
@pytest.mark.parametrize("is_alike", [False, True])
def test_items_that_differ_by_zeros(
    tmp_path: Path, sizes: Sizes, is_alike: bool
) -> None:
    """It is said how many items would have a master but for zeros before their names."""
    files = months(YEAR, ("17", "018", "20", "K-1"))
    names = "0017 18 20 0K-1 0021"
    if is_alike:
        names = "17 0017 018 20 K-1 0021"
    rows = [f"{name},20,0.06,0.9,2,2.5,1\n" for name in names.split()]
    tables = write(tmp_path, files, "".join([HEADING, *rows]))
    text = "\n".join(read(tmp_path, tables, sizes).said)
    said = "2 items of the demand would have a master but for zeros before their names, as '018' and '18'"
    assert (said in text) != is_alike and ("zeros" in text) != is_alike
