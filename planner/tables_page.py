"""Writes docs/TABLES.md from the declared columns: `python -m planner.tables_page` at the top of the repository."""
from __future__ import annotations

from collections.abc import Mapping, Sequence
from pathlib import Path

from crnplan.crnsim import report
from crnplan.curve import exchange_curve
from crnplan.decide import doubt, verdicts
from crnplan.show import (
    backtest_tables,
    calendars,
    catalogue_tables,
    change_tables,
    control_tables,
    item_page,
    lateness,
)
from crnplan.show.today_tables import TABLES as ON_A_DAY
from crnplan.given import words_of
from crnplan.plan.how import Settings
from crnplan.read.items import Reading
from crnplan.read.configuration import COLUMNS
from crnplan.table import Column
from crnplan.theory import suggestions

PAGE = Path(__file__).parents[1] / "docs/TABLES.md"
HEAD = """# The tables of crnplan

Each table is declared once, in Python; this page follows from that. A file has a heading and a row for each item, policy or period, in
UTF-8 with commas; only orders of suppliers have semicolons, decimal commas and a byte order mark by `today --csv-style de` or `fr`. A text
that a spreadsheet would run as a formula stands behind an apostrophe. Data frames, JSON and workbooks have the same columns, unrounded. Money is that of the
masters or settings, in files with as many decimals as its smallest unit has. `-` or an empty cell stands for no figure.
"""
WORDS = """
## crnplan.toml

The keys of the table `[catalogue]`, which are arguments of calls and fields of the desk too. A value is read alike wherever it is said: a
share is `95%` or `0.95`, a table of names is a table or texts `NAME=VALUE`. A command takes `--set KEY=VALUE` for once, and
`--set KEY.NAME=VALUE` for an entry of a table, as `--set service.A=98%` and `--set demand.quantity=Menge`. Tables `[catalogue.demand]`, `[catalogue.items]` and so on have
the columns of a table by their roles.
"""
AS_ORDERS = "Other columns are as in `today_orders.csv`."


def more(columns: Sequence[Column]) -> list[Column]:
    """Returns the columns that no table of orders has."""
    return [column for column in columns if column not in ON_A_DAY["orders"]]


TABLES: Mapping[str, tuple[str, Sequence[Column]]] = {
    "decisions.csv": (
        "A planned catalogue: a row for each item, by name.",
        catalogue_tables.DECISION_COLUMNS,
    ),
    "details.csv": (
        "All else on the items of `decisions.csv`, in the same rows.",
        catalogue_tables.DETAIL_COLUMNS,
    ),
    "controls, summary.txt, today_controls.csv": (
        "Control totals: what the files come to, by what became of their rows.",
        control_tables.CONTROL_COLUMNS,
    ),
    "levels.csv": (
        "The levels of items that are planned by their season: a row for each part of the coming year.",
        calendars.COLUMNS,
    ),
    "rejects.csv, today_left_out.csv": (
        "What was left out of tables, or only named.",
        catalogue_tables.REJECT_COLUMNS,
    ),
    "changes.csv": (
        "What has changed since an earlier plan: a row for each item of either plan.",
        change_tables.CHANGE_COLUMNS,
    ),
    "lateness.csv": (
        "How late suppliers are: a row for each with receipts, the latest first.",
        lateness.COLUMNS,
    ),
    "backtest.csv": (
        "The test of a catalogue on its own past: a row for each item.",
        backtest_tables.BACKTEST_COLUMNS,
    ),
    "backtest_sums.csv": (
        "What these add up to: all items, and each class.",
        backtest_tables.SUM_COLUMNS,
    ),
    "curve.csv": (
        "The exchange curve: named points, then the curve by rising price.",
        exchange_curve.COLUMNS,
    ),
    "curve_policies.csv": (
        "The policies of one point of the curve, and then the items that are not on it.",
        exchange_curve.POLICY_COLUMNS,
    ),
    "today_orders.csv": (
        "What to order on a day, the most urgent first; then items of which nothing is known.",
        ON_A_DAY["orders"],
    ),
    "today_lists.csv": (
        f"Items above S, stock that nobody has asked for, items that are owed, and those that are ordered no longer. {AS_ORDERS}",
        more(ON_A_DAY["lists"]),
    ),
    "today_groups.csv": (
        "What these come to by class, and by supplier.",
        ON_A_DAY["groups"],
    ),
    "today_added.csv": (
        f"What fills up orders of suppliers. {AS_ORDERS}",
        more(ON_A_DAY["added"]),
    ),
    "today_lines.csv, today_supplier_001.csv": (
        "The orders of all suppliers line by line, and of each supplier alone, whose file ends with the last digits of its "
        "`number`.",
        ON_A_DAY["lines"],
    ),
    "today_at_risk.csv": (
        f"Items with overdue orders, or with less stock than mean demand up to the next receipt. "
        f"{AS_ORDERS}",
        more(ON_A_DAY["at_risk"]),
    ),
    "PlannedItem.compare, crnplan suggest": (
        "The policies of an item, in Python, the cheapest first; and those that are suggested, with the figures of theory.",
        suggestions.COLUMNS,
    ),
    "PlannedItem.doubt": (
        "Policies under the laws that a history allows.",
        doubt.COLUMNS,
    ),
    "The laws of an item": ("On its page.", item_page.LAW_COLUMNS),
    "crnplan run --out": ("A report of crnsim, exactly.", report.COLUMNS),
    "crnplan run, Scenario.long_run": (
        "Policies beside the base, the cheapest first. In the long run differences are of a period.",
        verdicts.COLUMNS,
    ),
}


def page_of(columns: Sequence[Column]) -> str:
    """Returns the columns as a table of a page in Markdown."""
    rows = (
        f"| `{column.name}` | {column.unit or column.kind} | {column.meaning} |\n"
        for column in columns
    )
    return "| Column | Unit | Meaning |\n|---|---|---|\n" + "".join(rows)


def words_page() -> str:
    """Returns the words of reading and planning as a table of a page in Markdown, by their keys."""
    rows = list[str]()
    for word in words_of(Reading, Settings).values():
        if word.key and word.name != COLUMNS:
            kind = word.kind.type.replace("|", "or")
            stated = word.default not in (None, (), "", {})
            default = f"; `{word.default}`" if stated else ""
            rows.append(f"| `{word.key}` | {kind}{default} | {word.help} |\n")
    return f"{WORDS}\n| Key | Type; default | Meaning |\n|---|---|---|\n{''.join(rows)}"


def page() -> str:
    """Returns the page."""
    parts = (
        f"\n## {name}\n\n{words}\n\n{page_of(columns)}"
        for name, (words, columns) in TABLES.items()
    )
    return HEAD + "".join(parts) + words_page()


if __name__ == "__main__":
    PAGE.write_text(page(), "utf-8")
