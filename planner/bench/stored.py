"""Keeps measured figures in figures.json beside it, each part with the circumstances of its measurement."""
from __future__ import annotations

import datetime
import json
import os
from pathlib import Path
from typing import Any

FIGURES = Path(__file__).with_name("figures.json")


def circumstances() -> dict[str, Any]:
    """Returns when and on how busy a machine something is measured. The load is the mean of the last minute."""
    return {
        "date": str(datetime.date.today()),
        "processors": os.cpu_count(),
        "load": round(os.getloadavg()[0], 1),
    }


def stored(path: Path = FIGURES) -> dict[str, Any]:
    """Returns the stored figures by part."""
    figures: dict[str, Any] = (
        json.loads(path.read_text(encoding="utf-8")) if path.is_file() else {}
    )
    return figures


def keep(
    part: str,
    measured: dict[str, Any],
    rows: list[dict[str, Any]],
    path: Path = FIGURES,
) -> None:
    """Keeps the rows of a part with the circumstances in which they were measured, in place of those before."""
    figures = stored(path) | {part: {"measured": measured, "rows": rows}}
    path.write_text(
        json.dumps(figures, indent=1, sort_keys=True) + "\n", encoding="utf-8"
    )
