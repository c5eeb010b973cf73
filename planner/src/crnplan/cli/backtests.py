"""The command that tests plans on a catalogue's own past."""
from __future__ import annotations

from collections.abc import Sequence
from pathlib import Path

import click

from ..backtesting import write_backtest
from ..errors import Refused
from ..store.files import own_folder
from ..store.means import Means
from ..plan.backtest.methods import Walk
from ..plan.catalogue import planned_folder
from ..plan.settings import read_config
from ..read.catalogue_reading import CATALOGUE, read_into
from ..read.file_kinds import TESTED
from .catalogues import files_said
from .keys import words_of
from .commands import command


@command()
def backtest(
    tables: Sequence[str],
    out: Path | None,
    record: int,
    every: int,
    window: int | None,
    stated: Sequence[str],
    config: str | None,
    jobs: int | None,
    cluster: str | None,
) -> None:
    files = None
    if out:
        words, settings = words_of({"stated": stated}, read_config(config))
        files = files_said(tables, words, TESTED)
    elif len(tables) != 1:
        raise Refused("name a folder of crnplan plan, or tables and --out")
    elif stated or config:
        raise Refused("a planned folder has its own --set and --config: leave them out")
    else:
        with planned_folder(Path(tables[0])) as planned:
            settings = planned.settings
    walk = Walk(record, every, window)
    with own_folder(out or Path(tables[0]), CATALOGUE) as folder:
        if files is not None:
            read_into(folder, files, words, jobs)
        means = Means(jobs, cluster, shown=True)
        tests = write_backtest(folder, settings, walk, means)
    click.echo(tests.text, nl=False)
