"""Writes the tables of tables.md beside it from the stored figures of the studies: python -m planner.studies.page.

A table stands between `<!-- NAME -->` and `<!-- end -->`. Each study has a function `tables`, which returns its tables
as Markdown by name.
"""
from __future__ import annotations

import importlib
import re
from pathlib import Path

import pandas as pd

PAGE = Path(__file__).with_name("tables.md")
STUDIES = (
    "laws",
    "laws_leads",
    "long_run",
    "warnings",
    "dependence",
    "fills",
    "cut_sales",
    "stated_laws",
    "search",
    "reviews",
    "borrowing",
    "doubt",
    "seasons",
    "calendars",
    "season_plans",
    "season_year",
    "beside_rules",
    "next_year",
    "floors",
    "season_real",
    "by_commands",
    "walk_forward",
    "broken",
    "level_spread_tail",
    "correction",
    "costs",
    "moving",
    "promotions",
)
PLACE = re.compile(
    r"(?P<start><!-- (?P<name>[a-z-]+) -->\n).*?(?P<end><!-- end -->)", re.DOTALL
)


def markdown(table: pd.DataFrame) -> str:
    """Returns a table of texts as Markdown, its columns with numbers to the right."""
    right = [
        all(re.match(r"-?[0-9]|-$", str(it)) for it in table[name]) for name in table
    ]
    rows = [
        [*map(str, table.columns)],
        ["--:" if it else "---" for it in right],
        *([*map(str, row)] for row in table.itertuples(index=False)),
    ]
    return "".join(f"| {' | '.join(row)} |\n" for row in rows)


def all_tables() -> dict[str, str]:
    """Returns the tables of all studies by name."""
    return {
        name: text
        for study in STUDIES
        for name, text in importlib.import_module(f"planner.studies.{study}")
        .tables()
        .items()
    }


def page_with(text: str, tables: dict[str, str]) -> str:
    """Returns a page with these tables in their places. Raises KeyError for a place without a table."""
    return PLACE.sub(
        lambda it: f"{it['start']}\n{tables[it['name']]}\n{it['end']}", text
    )


if __name__ == "__main__":
    PAGE.write_text(
        page_with(PAGE.read_text(encoding="utf-8"), all_tables()), encoding="utf-8"
    )
