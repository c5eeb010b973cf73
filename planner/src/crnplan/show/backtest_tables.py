"""The tables of a catalogue's test on its past: a row for each item, and the sums of all items and of each class."""
from __future__ import annotations

import dataclasses
from collections.abc import Collection, Sequence
from typing import NamedTuple

from ..plan.backtest.catalogue import Past, Tested
from ..plan.backtest.one import Backtest
from ..plan.backtest.estimates import Estimate
from ..plan.backtest.methods import METHODS, PLANNED
from ..plan.backtest.sums import LITTLE, MUCH, SLACK, Sums, moves_of
from ..read.item import Item
from ..remarks import Remark
from ..table import Column, DataTable, aligned
from ..sentences import advised
from ..columns import columns_of
from ..drawing.rendering import met, number, percent, points, rendered
from .verdicts import GAIN, METHOD_WORDS, gains_said, past_said

BACKTEST, SUMS, SUMMARY, PAGE = (
    "backtest.csv",
    "backtest_sums.csv",
    "backtest.txt",
    "backtest.html",
)


class BacktestRow(NamedTuple):
    """An item with its test, or with why it has none."""

    item: Item
    test: Backtest | None
    why: Remark | None

    @classmethod
    def of(cls, item: Item, test: Backtest | Remark) -> BacktestRow:
        if isinstance(test, Remark):
            return cls(item, None, test)
        return cls(item, test, None)

    @property
    def periods(self) -> int | None:
        if self.test:
            return len(self.test.demands)
        return None

    @property
    def left_out(self) -> str | None:
        if self.why:
            return advised(self.why)
        return None


def verdict_of(sums: Sums) -> str:
    return past_said(sums.verdict)


CODES = [method.code for method in METHODS]
CELLS = {"verdict": verdict_of}
# Columns that ways lack which promise nothing; and the plan, beside itself.
UNPROMISED = {
    f"promised_fill_{method.code}" for method in METHODS if not method.is_promising
}
BESIDE_ITSELF = {
    f"{figure}_{PLANNED}{end}"
    for figure in "stock cost equal_fill equal_stock equal_spent".split()
    for end in ("", "_error")
}


def _columns(
    table: str, codes: Sequence[str], lacking: Collection[str]
) -> tuple[Column, ...]:
    """Returns the columns of a table with those of each method, without some."""
    each = [{"policy": code, "words": METHOD_WORDS[code].meaning} for code in codes]
    columns = columns_of("show", table, CELLS, each, slack=f"{100 * SLACK:g}")
    return tuple(column for column in columns if column.name not in lacking)


BACKTEST_COLUMNS = _columns("backtest", CODES, UNPROMISED)
SUM_COLUMNS = _columns("backtest_sums", CODES, BESIDE_ITSELF)


def backtest_of(tested: Tested) -> DataTable:
    """Returns the tests by item. An item without one has the reason."""
    rows = [BacktestRow.of(item, test) for item, test in tested.items]
    return DataTable.of(BACKTEST_COLUMNS, rows, tested.decimals, "", keys=tested.keys)


def sums_table(tested: Tested) -> DataTable:
    """Returns the sums of all items, and of each class."""
    return DataTable.of(SUM_COLUMNS, tested.sums, tested.decimals, "")


def side_rows(sums: Sums) -> list[list[str]]:
    """Returns ways side by side, with a heading: what each met at once, and in percent beside the plan its stock, cost, and
    stock, alone and with orders, where both meet what was promised."""
    at = f"at {percent(sums.promised)}"
    heading = ["way", "met at once", "stock", "cost", "orders", "changes"]
    rows = [[*heading, f"stock {at}", f"stock and orders {at}"]]
    for method in METHODS:
        code = method.code
        if code in sums.unmet:
            rows.append(
                [
                    METHOD_WORDS[code].name,
                    met(sums.unmet[code]),
                    more(sums.stock.get(code)),
                    more(sums.beside.get(code)),
                    number(sums.orders[code], 3),
                    number(sums.changes[code], 3),
                    *equal_cells(sums, code),
                ]
            )
    return rows


def class_rows(all_sums: Sequence[Sums]) -> list[list[str]]:
    """Returns a row for all items and for each class, with a heading: what was promised and came, how far that moved from
    the first half of the later periods to the second, the verdict, and what needs less.
    """
    heading = ["class", "verdict", "what needs less", "items", "missed by over a point"]
    rows = [[*heading, "promised", "met at once", "second half beside first"]]
    for sums in all_sums:
        rows.append(
            [
                sums.group or "all",
                past_said(sums.verdict),
                gains_said(sums.gains) if sums.has_verdict else "-",
                number(sums.items),
                number(sums.broken),
                percent(sums.promised),
                met(sums.unmet[PLANNED]),
                moved(sums.drift),
            ]
        )
    return rows


def moved(drift: Estimate | None) -> str:
    """Returns by how many points what was met at once moved, by what was left unmet more; - if that is not known."""
    if drift is None:
        return "-"
    return points(dataclasses.replace(drift, value=-drift.value), "+")


def equal_cells(sums: Sums, code: str) -> tuple[str, str]:
    """Returns what stock, alone and with orders, is above that of the plan where both meet as much; with where that
    is, if it is not what was promised."""
    equal = sums.equal.get(code)
    if equal is None:
        return "-", "-"
    at = percent(equal.fill)
    place = "" if at == percent(sums.promised) else f" at {at}"
    return f"{more(equal.stock)}{place}", f"{more(equal.spent)}{place}"


def more(share: Estimate | None) -> str:
    """Returns a share above another one in percent, with its standard error; - if there is none."""
    return f"{points(share, '+')}%" if share else "-"


def sides_text(sums: Sums) -> str:
    """Returns ways side by side as lines of a text."""
    return aligned(side_rows(sums)).rstrip("\n")


def backtest_summary(tested: Tested) -> str:
    """Returns what was promised, what came and the verdicts, as a text."""
    return rendered(
        "backtest.txt",
        {
            "tested": tested,
            "planned": len(tested.items),
            "left_out": sum(isinstance(test, Remark) for _, test in tested.items),
            "file": BACKTEST,
            "verdict": past_said,
            "sides": sides_text,
            "gains": gains_said,
            "moves": moves_of(tested.sums),
        },
    )


def first_line(sums: Sums | None) -> str:
    """Returns the line of the first screen: what the plan met of its promise, and which way would have needed least, or
    that none needs less and which need more."""
    if sums is None:
        return "No item has a test on its own past."
    met, promised = percent(sums.met[PLANNED]), percent(sums.promised)
    line = f"On your own past the plan met {met} at once of {promised} promised"
    verdict, gains = sums.verdict, sums.gains
    if not sums.has_verdict:
        return f"{line}."
    if verdict.code in (MUCH, LITTLE):
        line += f", with {sized('excess', verdict, '+')} stock beside what that needed"
    if gains:
        by = METHOD_WORDS[gains[0].code].meaning
        return f"{line}; for as much {by} needs {sized('spent', gains[0], '+')} stock and orders."
    more = [
        f"{METHOD_WORDS[it.code].name} {sized('spent', it, '+')}" for it in sums.losses
    ]
    line += f"; {GAIN['none']}"
    return f"{line}, and these need more: {', '.join(more)}." if more else f"{line}."


def sized(name: str, found: Remark, sign: str = "") -> str:
    """Returns a figure of a remark in percent with its error."""
    figure, error = found.facts[name], found.facts[f"{name}_error"]
    return f"{figure:{sign}.1f} ± {error:.1f}%"


def past_line(past: Past | None) -> str:
    """Returns the line of a plan's first screen: what the test in its folder says, or how there comes to be one."""
    if past is None:
        return (
            "Whether such promises held on your own past is said by crnplan backtest FOLDER, and then crnplan "
            "report FOLDER."
        )
    if past.is_old:
        return (
            "The test on your own past is not of this plan. Run crnplan backtest FOLDER again, then crnplan report "
            "FOLDER."
        )
    return first_line(past.sums)
