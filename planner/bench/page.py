"""Writes the tables of README.md beside it from the stored figures: python -m planner.bench.page."""
from __future__ import annotations

import itertools
from collections.abc import Callable, Iterator, Mapping, Sequence
from operator import itemgetter
from pathlib import Path
from typing import Any

import pandas as pd

from planner.bench.stored import stored
from planner.studies.page import markdown, page_with

PAGE = Path(__file__).with_name("README.md")
MILLION = 1_000_000
ITEM = "item"  # the part that plans one item, of examples/case
MACHINES = 10
FAR = (
    100_000,
    MILLION,
    10 * MILLION,
)  # items of catalogues of which the hours are extrapolated
# What some stored figures are.
LOOK, CANDIDATES = "one look at all items with their plans", "reading all candidates"
# What is sent to workers and back.
SENT = ("an item's facts", "the answer of a plan", "candidates of the curve")
SUMS, MOSTS = ("wall", "processor", "bytes"), ("own", "all", "load")
Rows = Sequence[Mapping[str, Any]]


def times_of(row: Mapping[str, Any], search: str) -> str:
    """Returns mean, median and 99th percentile of the times of a search."""
    return " / ".join(f"{row[f'{search}_{it}']:.1f}" for it in ("mean", "50", "99"))


def compared_table(rows: Rows) -> str:
    """Returns the table of both searches as Markdown."""
    lines = [
        {
            "items": row["which"],
            "number": f"{row['items']:,}",
            "crnplan, ms": times_of(row, "crnplan"),
            "published, ms": times_of(row, "published"),
            "published s below 0": row["below"],
            "other policies": row["other"],
            "most difference of cost": f"{row['most_dearer']:.0e}",
        }
        for row in rows
    ]
    return str(markdown(pd.DataFrame(lines)))


def summed(rows: Rows) -> dict[str, Any]:
    """Returns what some parts take together: memory is that of the largest."""
    return {
        **{name: sum(row[name] for row in rows) for name in SUMS},
        **{
            name: max(row[name] for row in rows)
            for name in MOSTS
            if all(name in row for row in rows)
        },
    }


def with_sums(rows: Rows) -> list[Mapping[str, Any]]:
    """Returns the parts of catalogues, with what all parts of each take."""
    lines: list[Mapping[str, Any]] = []
    for _, parts in itertools.groupby(rows, itemgetter("items")):
        its = [*parts]
        several = [row for row in its if row["part"] != ITEM]
        before = [row["before"] for row in several if "before" in row]
        whole = {
            **its[0],
            "part": "**all**",
            **summed(several),
            **({"before": summed(before)} if before else {}),
        }
        lines += [*its, *([whole] if len(several) > 1 else [])]
    return lines


def whole_table(rows: Rows) -> str:
    """Returns the table of the parts of catalogues as Markdown, beside another checkout if that was measured."""
    lines = []
    for row in with_sums(rows):
        before, items = row.get("before"), 1 if row["part"] == ITEM else row["items"]
        lines.append(
            {
                "items": f"{items:,}",
                "rows": "-" if row["part"] == ITEM else f"{row['rows']:,}",
                "part": row["part"],
                "s": f"{row['wall']:.1f}",
                "processor s": f"{row['processor']:.1f}",
                **(
                    {
                        "before": f"{before['processor']:.1f}",
                        "share": f"{row['processor'] / before['processor']:.2f}",
                    }
                    if before
                    else {}
                ),
                "ms an item": f"{1000 * row['processor'] / items:.1f}",
                "MB, main process": f"{row['own']:.0f}",
                "MB, all processes": f"{row['all']:.0f}",
                "kB kept an item": f"{row['bytes'] / 1000 / items:.1f}",
                "load": row.get("load", "-"),
            }
        )
    return str(markdown(pd.DataFrame(lines)))


def million_table(rows: Rows) -> str:
    """Returns the table of what grows with the items as Markdown."""
    return str(
        markdown(
            pd.DataFrame(
                [
                    {
                        "what": row["what"],
                        "figure": f"{row['figure']:,}",
                        "unit": row["unit"],
                    }
                    for row in rows
                ]
            )
        )
    )


def needs_of(figures: Mapping[str, Any]) -> Iterator[tuple[str, float, str]]:
    """Yields what a million items would need of one process and of disks, in proportion to stored figures: what it is,
    the amount, and the unit."""
    its = {row["what"]: row["figure"] for row in figures["million"]["rows"]}
    for what in (LOOK, CANDIDATES):
        yield what, its[what] * MILLION / 1e6 / 60, "minutes"
    yield "to workers and back", sum(its[name] for name in SENT) / 1000, "GB"
    kept = [name for name in its if name.endswith("on disk")]
    yield "kept in the folder", sum(its[name] for name in kept) / 1000, "GB"


def handed_table(rows: Rows) -> str:
    """Returns the table of how fast items are handed out as Markdown."""
    return str(
        markdown(
            pd.DataFrame(
                [
                    {
                        "items": f"{row['items']:,}",
                        "workers": row["jobs"],
                        "way": row["way"],
                        "items a second": f"{row['rate']:,.0f}",
                        "a second of the main process": f"{row['own']:,.0f}",
                        "MB, main process": f"{row['memory']:.0f}",
                    }
                    for row in rows
                ]
            )
        )
    )


def long(hours: float) -> str:
    """Returns how long something takes, in hours, or else in minutes."""
    return f"{hours:.1f} h" if hours >= 1 else f"{60 * hours:.1f} min"


def far_lines(figures: Mapping[str, Any]) -> Iterator[dict[str, str]]:
    """Yields how long catalogues take on one machine, in proportion to what was measured on its processors, and on ten:
    these share planning and the curve. One of them reads."""
    (read,) = figures["reading"]["rows"]
    parts = {row["part"]: row for row in figures["four"]["rows"]}
    measured = parts["plan"]["items"]
    for items in (measured, *FAR):
        reading, plan, curve = (
            items * row["wall"] / row["items"] / 3600
            for row in (read, parts["plan"], parts["curve"])
        )
        yield {
            "items": f"{items:,}",
            "reading": long(reading),
            "plan": long(plan),
            "curve": long(curve),
            "one machine": long(reading + plan + curve),
            f"{MACHINES} machines": long(reading + (plan + curve) / MACHINES),
        }


TABLES: dict[str, Callable[[Rows], str]] = {
    "compared": compared_table,
    "whole": whole_table,
    "four": whole_table,
    "reading": whole_table,
    "million": million_table,
    "handed": handed_table,
}


def measured_line(measured: Mapping[str, Any]) -> str:
    """Returns in which circumstances something was measured."""
    jobs = f"{measured['jobs']} process{'es' * (measured['jobs'] > 1)}"
    return (
        f"{measured['date']}, {jobs}, {measured['processors']} virtual processors with a load of "
        f"{measured['load']} at the start:"
    )


def all_tables() -> dict[str, str]:
    """Returns the tables of the stored figures by name, each with a line on the circumstances, and what follows for a
    million items."""
    figures = stored()
    needs = [
        {"at a million items": what, "amount": f"{amount:.3g}", "unit": unit}
        for what, amount, unit in needs_of(figures)
    ]
    return {
        "far": str(markdown(pd.DataFrame(far_lines(figures)))),
        "needs": str(markdown(pd.DataFrame(needs))),
        **{
            name: f"{measured_line(part['measured'])}\n\n{TABLES[name](part['rows'])}"
            for name, part in figures.items()
        },
    }


if __name__ == "__main__":
    PAGE.write_text(
        page_with(PAGE.read_text(encoding="utf-8"), all_tables()), encoding="utf-8"
    )
