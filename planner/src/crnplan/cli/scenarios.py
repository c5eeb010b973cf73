"""The commands that suggest policies of a scenario, and that run it or read its reports, and the one on the program."""
from __future__ import annotations

import contextlib
import sys
from collections.abc import Iterator, Sequence
from dataclasses import replace
from pathlib import Path
from typing import TYPE_CHECKING, Any

import click

import crnplan as crn
from .. import formats
from ..crnsim.program import build_of_package, program_and_reason, writes_known_report
from ..errors import RefusedFaults
from ..store.digests import sha256
from ..named_policies import read_policies
from ..toml.documents import places_of
from .commands import command, refuse_words, show

if TYPE_CHECKING:
    from ..crnsim.report import ReportRow
    from ..decide.verdicts import Decision

# The words about a run, and those about reports, by their names.
OF_RUNS = ("words", "key", "horizon", "stock", "long_run", "keys", "program")
OF_REPORTS = ("path", "replications")


def given_bytes(file: str) -> tuple[str, bytes]:
    """Returns the name of a file with its bytes; `-` is standard input."""
    if file == "-":
        return "", sys.stdin.buffer.read()
    try:
        return file, Path(file).read_bytes()
    except OSError as fault:
        raise crn.Refused(f"{file}: {fault.strerror}") from fault


def decided_reports(
    reports: Sequence[tuple[str, bytes]], asked: dict[str, Any], level: float
) -> tuple[Sequence[ReportRow], Decision]:
    """Returns the rows of all reports together, and what they say over the coming periods."""
    from ..decide.long_run import coming_decision
    from ..decide.reports import check_policies, read_reports
    from ..decide.verdicts import decided

    refuse_words(OF_RUNS, "a scenario that is run, and this is a report")
    path, count = asked["path"], asked["replications"]
    if path is None:
        if count is None:
            click.get_current_context().fail("give --scenario or --replications")
        rows = read_reports(reports, count)
        return rows, decided(rows, count * len(reports), level)
    scenario = crn.Scenario.read(path)
    if count not in (None, scenario.replications):
        raise crn.Refused(
            f"{path}: it has {scenario.replications} replications, not {count}"
        )
    rows = read_reports(reports, scenario.replications)
    check_policies(rows, scenario.policies, reports[0][0], path)
    whole = replace(scenario, replications=scenario.replications * len(reports))
    return rows, coming_decision(rows, whole, level)


def decided_run(
    data: bytes, name: str, asked: dict[str, Any], level: float
) -> tuple[Sequence[ReportRow], Decision]:
    """Returns the rows of the run of a scenario, and what they say."""
    from ..decide.long_run import KEYS, coming_decision

    names = {"key": "key", "horizon": "periods", "stock": "initial"}
    changes = {names[it]: asked[it] for it in names if asked[it] is not None}
    if asked["long_run"]:
        refuse_words(("horizon", "stock"), "coming periods, not of --long-run")
    else:
        refuse_words(("keys",), "--long-run")
    scenario, program = crn.Scenario.parse(data, name), asked["program"]
    if changes:
        scenario = scenario.changed(**changes)
    policies = None
    if asked["words"]:
        policies = [policy for word in asked["words"] for policy in read_policies(word)]
    if asked["long_run"]:
        count = KEYS if asked["keys"] is None else asked["keys"]
        runs = scenario.long_run(policies, keys=count, program=program)
        return runs.rows, runs.decide(level)
    report = scenario.run(policies, program=program)
    return report.rows, coming_decision(report.rows, report.scenario, level)


@contextlib.contextmanager
def theory_of(scenario: crn.Scenario, path: str) -> Iterator[None]:
    """Raises RefusedFaults with the place in a scenario for what theory can't compute."""
    from ..theory.lattice import NoTheory

    try:
        yield
    except NoTheory as fault:
        place = places_of(scenario.source or "", scenario.tree).get(fault.path, (0, 0))
        raise RefusedFaults(
            [crn.Fault(str(fault), path.removeprefix("-"), *place)]
        ) from None


@command()
def suggest(scenario: str, initial: bool, unit_zero: bool, form: str | None) -> None:
    read = crn.Scenario.read(scenario)
    with theory_of(read, scenario):
        suggested = read.suggest()
    if form:
        show(suggested, form)
    else:
        print(suggested.text, end="", file=sys.stderr)
        print(suggested.toml(initial=initial, unit_zero=unit_zero), end="")


@command()
def run(
    files: tuple[str, ...],
    level: float,
    every: bool,
    out: Path | None,
    form: str | None,
    **asked: Any,
) -> None:
    given = [*map(given_bytes, files)]
    (name, data), *more = given
    are_reports = data.startswith(formats.HEADER.encode()) or bool(more)
    if are_reports or any(asked[it] is not None for it in OF_REPORTS):
        reports = [(name or "standard input", data) for name, data in given]
        rows, decision = decided_reports(reports, asked, level)
    else:
        rows, decision = decided_run(data, name, asked, level)
    if out:
        from ..crnsim.report import csv_of
        from ..store.files import named_text

        with named_text(out) as file:
            file.write(csv_of(rows))
    if every:
        decision = replace(decision, most=len(rows))
    show(decision, form)


@command()
def where(program: str | None) -> int:
    path, reason = program_and_reason(program)
    digest, build = sha256(path.read_bytes()), build_of_package()
    origin, match = "in a checkout", ""
    if build:
        origin = f"built from commit {build.commit}\npages and examples: {build.folder}"
        built = "built" if build.program == digest else "not built"
        match = f" ({built} with this crnplan)"
    print(
        f"crnplan {crn.__version__}, {origin}\n{path} ({reason})\nsha256 {digest}{match}"
    )
    is_right = writes_known_report(path)
    verdict = "is right" if is_right else "differs from the known one"
    print(f"its report on a small scenario {verdict}")
    return int(not is_right)
