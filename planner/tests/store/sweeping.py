"""Runs many scenarios as a plan runs items: the work by which tests look at processes and clusters."""
from __future__ import annotations

import contextlib
import sys
from argparse import ArgumentParser
from dataclasses import dataclass, replace
from pathlib import Path
from typing import Any

from crnplan.cli import Spelling
from crnplan.crnsim.program import program_for, run_program
from crnplan.errors import CrnplanError
from crnplan.spelling import spelt, worded
from crnplan.policies import Policy
from crnplan.runs import Scenario
from crnplan.store.digests import digest_of
from crnplan.store.files import own_folder
from crnplan.store.means import Means
from crnplan.store.stored import Store
from crnplan.store.work import Work
from crnplan.toml.scenarios import plain_text

REPORTS = "sweep.sqlite"
SCENARIOS = 8


@dataclass(frozen=True)
class Kept:
    """What the program has written for a scenario."""

    report: str


def run_part(part: Scenario, program: str) -> Kept:
    return Kept(run_program(Path(program), plain_text(part.tree)))


def swept(
    base: str | Path,
    *,
    jobs: int | None = None,
    cluster: Any = None,
    program: str | Path | None = None,
    out: str | Path | None = None,
    shown: bool = False,
) -> str:
    """Runs a scenario with each of some levels, and returns all reports. A folder keeps them."""
    scenario, means = Scenario.read(base), Means(jobs, cluster, shown=shown)
    path = program_for(program, cluster)
    of_program, parts = means.program_digest(path), dict[str, Scenario]()
    for number in range(SCENARIOS):
        policies = [scenario.base, Policy.of_levels(50 + number, 70)]
        parts[f"{number:05}"] = replace(scenario, policies=tuple(policies))
    digests = {
        name: digest_of(plain_text(part.tree), of_program)
        for name, part in parts.items()
    }
    with contextlib.ExitStack() as stack:
        place = Path(":memory:")
        if out is not None:
            folder = stack.enter_context(own_folder(Path(out), "sweep"))
            place = folder.store(REPORTS)
        store = stack.enter_context(contextlib.closing(Store(place, Kept)))
        words = {"unit": "scenarios", "batch": 1}
        work = Work(
            store, digests.items, parts.__getitem__, run_part, (path,), **words  # type: ignore[arg-type]
        )
        work.finish(means.workers(path), shown=means.shown)
        return "".join(answer.report for _, _, answer in store.answers())


def main() -> None:
    """Runs as a command does, with its words, its refusals and its status."""
    parser = ArgumentParser()
    parser.add_argument("base")
    for name in ("cluster", "program", "out"):
        parser.add_argument(f"--{name}")
    words = vars(parser.parse_args())
    with spelt(Spelling()):
        try:
            print(swept(**words, shown=True), end="")
        except CrnplanError as refusal:
            print(f"crnplan: {worded(refusal.message)}", file=sys.stderr)
            sys.exit(refusal.status)


if __name__ == "__main__":
    main()
