"""Stores figures as JSON, and compares others with them: each number, text and list by its key."""
from __future__ import annotations

import json
import math
from collections.abc import Iterator
from fnmatch import fnmatchcase
from fractions import Fraction
from pathlib import Path
from typing import Any, NamedTuple

STORED = Path(__file__).with_name("stored")
# Figures are the same if they differ by no more than this share, or by this amount: sums of floats in another order.
SHARE, AMOUNT = 1e-9, 1e-10
MISSING = "-"
# Keys of figures that will become one: the saving of an item by theory and by the program, of both commands.
EXPECTED_TO_MOVE = (
    "*/items/*/saving",
    "*/items/*/error",
    "*/items/*/low",
    "*/items/*/high",
    "*/items/*/verdict",
    "*/items/*/run_cost",
    "*/items/*/exact/*",
    "items/*/decision/*",
    "items/*/check/*",
    "items/*/costs/*",
    "items/*/laws/*",
    "case/item/decision/*",
    "case/item/check/*",
    "case/item/costs/*",
)


class Difference(NamedTuple):
    """A figure that differs: its key, the stored and the new value, and their relative difference (nan if none is)."""

    key: str
    old: Any
    new: Any
    share: float

    @property
    def is_expected(self) -> bool:
        """Returns whether the figure is one of those that will become one with others."""
        return any(fnmatchcase(self.key, pattern) for pattern in EXPECTED_TO_MOVE)


def plain(value: Any) -> Any:
    """Returns a value as JSON holds it: fractions as texts, numbers of numpy as Python's."""
    if isinstance(value, dict):
        return {str(name): plain(its) for name, its in value.items()}
    if isinstance(value, (list, tuple)):
        return [plain(its) for its in value]
    if isinstance(value, Fraction):
        return str(value)
    value = value.item() if hasattr(value, "item") else value
    return (
        str(value) if isinstance(value, float) and not math.isfinite(value) else value
    )


def flat(value: Any, key: str) -> Iterator[tuple[str, Any]]:
    """Yields the figures of a nested table with their keys."""
    if not isinstance(value, (dict, list)):
        yield key, value
        return
    for name, its in value.items() if isinstance(value, dict) else enumerate(value):
        yield from flat(its, f"{key}/{name}")


def store(part: str, figures: Any, folder: Path = STORED) -> int:
    """Stores the figures of a part, a line for each table of its second level, and returns how many there are."""
    folder.mkdir(exist_ok=True)
    its = plain(figures)
    lines = [f"{json.dumps(name)}: {text_of(value)}" for name, value in its.items()]
    (folder / f"{part}.json").write_text(
        "{\n" + ",\n".join(lines) + "\n}\n", encoding="utf-8"
    )
    return sum(1 for _ in flat(its, part))


def text_of(value: Any) -> str:
    """Returns a table as JSON with a line for each of its entries."""
    if not isinstance(value, (dict, list)):
        return json.dumps(value)
    dumped = [
        json.dumps(its, ensure_ascii=False, separators=(",", ":"))
        for its in (value.values() if isinstance(value, dict) else value)
    ]
    if isinstance(value, list):
        return "[\n" + ",\n".join(dumped) + "\n]"
    return (
        "{\n"
        + ",\n".join(f"{json.dumps(name)}: {text}" for name, text in zip(value, dumped))
        + "\n}"
    )


def share_of(old: Any, new: Any) -> float | None:
    """Returns the relative difference of two values, None if they are the same, nan if they are no numbers."""
    are_numbers = all(
        isinstance(it, (int, float)) and not isinstance(it, bool) for it in (old, new)
    )
    if (
        old == new
        or are_numbers
        and math.isclose(old, new, rel_tol=SHARE, abs_tol=AMOUNT)
    ):
        return None
    if not are_numbers:
        return math.nan
    return (new - old) / abs(old) if old else math.inf


def compared(
    part: str, figures: Any, folder: Path = STORED
) -> tuple[int, list[Difference]]:
    """Returns how many figures a part has, and those that differ from the stored ones, in the order of the keys."""
    path = folder / f"{part}.json"
    stored = json.loads(path.read_text("utf-8")) if path.is_file() else {}
    old, new = dict(flat(stored, part)), dict(flat(plain(figures), part))
    found = []
    for key in [*old, *(new.keys() - old.keys())]:
        pair = old.get(key, MISSING), new.get(key, MISSING)
        share = share_of(*pair)
        if share is not None:
            found.append(Difference(key, *pair, share))
    return len(old.keys() | new.keys()), found


def line_of(its: Difference) -> str:
    """Returns a line on a difference."""
    share = "" if math.isnan(its.share) else f" ({its.share:+.2g})"
    return (
        f"{its.key}: {its.old!r} -> {its.new!r}{share}"
        + "  [expected to move]" * its.is_expected
    )
