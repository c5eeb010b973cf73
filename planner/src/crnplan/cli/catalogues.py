"""The command that plans all items of a catalogue."""
from __future__ import annotations

import tempfile
from collections.abc import Iterable, Iterator, Mapping, Sequence
from pathlib import Path
from typing import Any

import click

import crnplan as crn
from ..catalogues import Catalogue, Lost, plan_catalogue, write_found
from ..store.files import Folder, named_text, own_folder
from ..store.means import Means
from ..show.catalogue_page import CATALOGUE_FILES, write_scenario
from ..show.catalogue_tables import (
    counted_rows,
    hardly_planned,
    hardly_read,
    planned_of,
    reasons_of,
    rejects_of,
)
from ..plan.catalogue import check_earlier
from ..plan.how import Settings
from ..plan.settings import CONFIG, read_config
from ..read.catalogue_reading import CATALOGUE, read_into
from ..read.file_kinds import NEEDED, OF_PLANS, PLANNED, files_by_kind
from ..read.items import Reading
from ..read.opening import Table
from ..read.overriding import set_overrides
from ..read.stock import OVERRIDES
from . import note
from .keys import words_of
from .commands import command

# So many reasons are named on the terminal.
MOST_REASONS = 10
KINDS = {
    "row": "rows left out",
    "item": "items left out",
    "suspicious": "named, and kept",
}


@command()
def plan(tables: Sequence[str], **asked: Any) -> int:
    config = read_config(asked["config"])
    if asked["after"] is None:
        config.pop("least_gain", None)  # It is that of plans after an earlier one.
    path = Path(asked["config"] or CONFIG)
    if path.is_file():
        click.echo(f"# settings are from {path}", err=True)
    words, settings = words_of(asked, config)
    if not asked["only_read"] and asked["out"] is None:
        raise crn.Refused(
            "--out is missing; name the folder for the plan, or say --check to only read the files"
        )
    check_earlier(asked["after"], asked["out"], settings)
    files = files_said(tables, words)
    with tempfile.TemporaryDirectory(prefix="crnplan-") as room:
        out = Path(room) if asked["only_read"] else asked["out"]
        with own_folder(out, CATALOGUE, CATALOGUE_FILES) as folder:
            read = read_files(folder, files, words, settings, asked)
            if asked["only_read"]:
                missing = only_read(read, asked["rejects"])
            else:
                missing = planned(folder, settings, asked)
            for line in reason_lines(read):
                click.echo(line)
            reasons = [] if asked["anyway"] else unusable(read)
    for line in missing:
        note(line)
    status = status_of(reasons)
    return Lost.status if missing else status


def files_said(
    names: Sequence[str], words: Reading, kinds: Sequence[str] = OF_PLANS
) -> dict[str, Table | None]:
    """Returns the files of a command by kind, and says what each is. Raises RefusedFaults for those that can't be told."""
    tables, said = files_by_kind(names, words, kinds)
    for fault in said:
        click.echo(f"# {fault}", err=True)
    return tables


def read_files(
    folder: Folder,
    files: Mapping[str, Table | None],
    words: Reading,
    settings: Settings,
    asked: Mapping[str, Any],
) -> Catalogue:
    """Reads the files of a catalogue into a folder, and says what is to be said of them: also what was found in them, if
    their columns are guessed."""
    tables = {kind: files[kind] for kind in PLANNED}
    read = Catalogue(read_into(folder, tables, words, asked["jobs"]))
    set_overrides(folder, files[OVERRIDES], words, asked["after"])
    found = write_found(folder, read, settings)
    if words.columns.keys().isdisjoint(NEEDED):
        click.echo(found, err=True)
    for line in read.said:
        click.echo(f"# {line}", err=True)
    return read


def only_read(read: Catalogue, rejects: Path | None) -> list[str]:
    """Says what became of all rows, and writes what was left out into a file if one is named. Returns what is lost."""
    if rejects:
        with read.opened() as base, named_text(rejects) as file:
            file.writelines(rejects_of(base.rejects()).lines)
    for line in counted_rows(read.counts["files"]):
        click.echo(line)
    return read.missing


def planned(folder: Folder, settings: Settings, asked: Mapping[str, Any]) -> list[str]:
    """Plans a catalogue that was read into a folder, and says what comes of it. Returns what is lost or broken."""
    means = Means(asked["jobs"], asked["cluster"], asked["program"], shown=True)
    done = plan_catalogue(folder, settings, means, asked["after"], asked["learn_again"])
    write_scenario(folder, asked["program"])
    line = (
        f"{folder.path}: {done.planned:,} items planned, {done.kept:,} kept from before"
    )
    if done.has_learned:
        line += "; laws of demand were learned in an earlier run"
    click.echo(line, err=True)
    click.echo(done.summary, nl=False)
    missing = [*done.missing]
    if done.totals.broken:
        missing.append(
            f"{done.totals.broken:,} items are not planned by a fault of crnplan: please report them with "
            "their rows"
        )
    return missing


def unusable(read: Catalogue) -> list[str]:
    """Returns why a plan of the files that were read is of no use."""
    items = read.counts["items"]
    lines = [*hardly_read(read.counts["files"]), *hardly_planned(items)]
    if not planned_of(items):
        lines.insert(0, "no item can be planned")
    return lines


def status_of(reasons: Iterable[str]) -> int:
    """Says why the answer is no, and returns the status: 1, or 0 without a reason."""
    status = 0
    for line in reasons:
        note(f"{line}; correct the files, or say --anyway")
        status = 1
    return status


def reason_lines(catalogue: Catalogue) -> Iterator[str]:
    """Yields the most frequent reasons why rows and items were left out or named, each with how often and its first."""
    with catalogue.opened() as read:
        reasons = sorted(reasons_of(read.rejects()), key=lambda reason: -reason.count)
    for reason in reasons[:MOST_REASONS]:
        yield f"{reason.count:,} {KINDS[reason.kind]}, {reason.column}: {reason.pattern} ({reason.example})"
    others = reasons[MOST_REASONS:]
    if others:
        rest = sum(reason.count for reason in others)
        yield f"{rest:,} more for {len(others):,} other reasons: see rejects.csv"
