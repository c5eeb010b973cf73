"""Runs the tests of crnplan that a change touches, and a small cover of all, in a minute: tools/quick [--since COMMIT]."""
from __future__ import annotations

import subprocess
import sys
import tempfile
from collections import defaultdict
from collections.abc import Iterable

import click

from planner.lines import TOP
from planner.touched import Kept, NoCommit, changed, git, read, touched

# What is touched is tested for so many processor seconds, and after it so many of all lines are.
SECONDS, SHARE = 120, 0.9
# What stands for the cover as long as no map is kept.
FIXED = (
    "planner/tests/test_results.py",
    "planner/tests/item/test_item.py",
    "planner/tests/plan/test_today_command.py",
)


def within(names: Iterable[str], kept: Kept, seconds: float) -> list[str]:
    """Returns the first of some tests, or of files of tests as a whole, that take so many seconds."""
    of, taken, left = defaultdict[str, list[str]](list), list[str](), seconds
    for test in kept.seconds:
        of[test.partition("::")[0]].append(test)
    for name in names:
        cost = kept.cost(of.get(name, [name]))
        if cost <= left:
            taken.append(name)
            left -= cost
    return taken


def base() -> str:
    """Returns the commit on which this branch stands: that of the repository that was cloned, or this one."""
    try:
        return git("merge-base", "HEAD", "origin/HEAD")[0]
    except NoCommit:
        return "HEAD"


@click.command()
@click.option("--since", metavar="COMMIT", help="[default: where the branch stands]")
def main(since: str | None) -> None:
    """Run the tests that a change since COMMIT touches, and a small cover of all, in a minute."""
    kept, paths = read(), changed(since or base())
    names = touched(paths, kept)
    if kept:
        taken = within(names, kept, SECONDS)
        cover = [it for it in kept.cover(SHARE, 1) if it not in taken]
        said = f"{len(taken)} of {len(names)} touched tests and files, {len(cover)} of a cover"
    else:
        taken, cover = names, [it for it in FIXED if it not in names]
        said = f"{len(names)} touched files of tests, and a fixed cover, since no gate has kept which tests run a line"
    click.echo(f"tools/quick: {len(paths)} changed files, {said}")
    if proved := sorted({it.split("/")[1] for it in paths if it.startswith("crates/")}):
        click.echo(f"tools/quick: prove {', '.join(proved)} by rt check")
    sys.exit(run([*taken, *cover]))


def run(names: list[str]) -> int:
    """Runs tests and files of tests on all processors, and returns the status."""
    files = dict.fromkeys(name.partition("::")[0] for name in names)
    with tempfile.NamedTemporaryFile("w", encoding="utf-8") as file:
        file.write("\n".join(names))
        file.flush()
        words = ["-m", "pytest", "-q", "-n", "auto", "-m", "not serial", *files]
        ran = subprocess.run([sys.executable, *words, "--only", file.name], cwd=TOP)
    return ran.returncode


if __name__ == "__main__":
    main()
