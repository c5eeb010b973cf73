"""The commands that plan one item, and that draw the curve of a catalogue. Each imports what takes long itself."""
from __future__ import annotations

from pathlib import Path
from typing import Any

import crnplan as crn
from .commands import command


@command()
def curve(folder: Path, plot: Path | None, is_csv: bool, **options: Any) -> None:
    drawn = crn.exchange_curve(folder, progress=True, **options)
    if plot:
        drawn.plot().save(plot)
    print(drawn.table.csv if is_csv else drawn.text, end="")
