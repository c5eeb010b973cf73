"""Reads the policies that a command names."""
from __future__ import annotations

import csv
import io
import re
from collections.abc import Iterator

from .errors import Refused
from .policies import Policy
from .scenario import ScenarioData
from .toml.documents import read_bytes, shown


def read_policies(word: str) -> list[Policy]:
    """Returns the policies of a word: a pair such as 10,30, or a file, which is a scenario (.toml) or a CSV table.

    The table has the columns s and S, and perhaps policy; `-` is standard input. Raises Refused, and ScenarioError.
    """
    pair = re.fullmatch(r"\s*([0-9]{1,9})\s*,\s*([0-9]{1,9})\s*", word)
    if pair:
        return [Policy.of_levels(int(pair[1]), int(pair[2]))]
    if word.endswith(".toml"):
        return list(ScenarioData.read(word).policies)
    data = read_bytes(word)
    try:
        return [*_policies_of_rows(data.decode("utf-8-sig"), word)]
    except (UnicodeDecodeError, csv.Error) as fault:
        raise Refused(
            f"{word}: this is no table of policies: {fault}; save it as CSV in UTF-8"
        ) from fault


def _policies_of_rows(text: str, place: str) -> Iterator[Policy]:
    """Yields the policies of a CSV table."""
    rows = csv.DictReader(io.StringIO(text, newline=""))
    missing = [name for name in "sS" if name not in (rows.fieldnames or [])]
    if missing:
        raise Refused(
            f"{place}:1: there is no column {' and no column '.join(missing)}; name them policy, s and S"
        )
    for row in rows:
        for name in "sS":
            level = row[name] or ""
            if not re.fullmatch("[0-9]{1,9}", level):
                raise Refused(
                    f"{place}:{rows.line_num}: column {name}: {shown(level)} is not a whole number; write the "
                    "level in items"
                )
        yield Policy.of_levels(int(row["s"]), int(row["S"]), row.get("policy") or "")
