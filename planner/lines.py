"""Lists the lines of crnplan that no test runs, and that planner/lines.toml gives no reason for.

    .venv/bin/python -m pytest planner/tests -n 4 --lines FOLDER
    .venv/bin/python -m planner.lines FOLDER

With `--lines` each process of the tests, and each Python that they start, keeps in FOLDER which lines of crnplan it has
run. A process that is killed keeps nothing: its file is moved to FOLDER once it is whole. One that was killed while it
wrote its file is named. The status is 1 if a line was not run and has no reason, or if a reason stands for a line that
was run or is not there.
"""
from __future__ import annotations

import json
import os
import sys
import tomllib
from collections import Counter, defaultdict
from collections.abc import Iterator, Mapping
from pathlib import Path

import click
import coverage

TOP = Path(__file__).parents[1]
SOURCE, REASONS = TOP / "planner/src/crnplan", Path(__file__).with_name("lines.toml")
# What is read by mypy alone, or never ends with a value.
LEFT_OUT = (r"if TYPE_CHECKING:", r"^\s*\.\.\.$", r"@overload")
# In this file of its folder a run names the tests that it does not measure.
UNMEASURED = "unmeasured.json"
SETTINGS = """[run]
data_file = {folder}/writing/data
parallel = true
source = {source}
context = ${{CRNPLAN_TEST-}}
disable_warnings = no-data-collected,module-not-imported,module-not-measured,already-imported
"""
# Python runs this file as it starts, if its folder is in PYTHONPATH. What is registered first is done last.
STARTING = """import atexit
import os

import coverage


def keep():
    path = measured.get_data().data_filename() if measured else ""
    if os.path.exists(path):
        folder, name = os.path.split(path)
        os.replace(path, os.path.join(os.path.dirname(folder), name))


atexit.register(keep)
measured = coverage.process_startup()
"""


def measure(folder: Path) -> coverage.Coverage:
    """Measures which lines this process runs from now on, and those that it starts. `keep` ends that."""
    folder = folder.resolve()
    (folder / "writing").mkdir(parents=True, exist_ok=True)
    settings = SETTINGS.format(folder=folder, source=SOURCE)
    (folder / "settings.ini").write_text(settings, "utf-8")
    (folder / "sitecustomize.py").write_text(STARTING, "utf-8")
    os.environ["COVERAGE_PROCESS_START"] = str(folder / "settings.ini")
    paths = [str(folder), *filter(None, [os.environ.get("PYTHONPATH")])]
    os.environ["PYTHONPATH"] = os.pathsep.join(paths)
    measured = coverage.Coverage(config_file=str(folder / "settings.ini"))
    measured.start()
    return measured


def keep(measured: coverage.Coverage, seconds: Mapping[str, float]) -> None:
    """Keeps which lines were run, and the processor seconds of each test."""
    measured.stop()
    measured.save()
    path = Path(measured.get_data().data_filename())
    if path.exists():
        path.replace(path.parents[1] / path.name)
        own = path.parents[1] / f"seconds-{os.getpid()}.json"
        own.write_text(json.dumps(seconds), "utf-8")


def files_of(folder: Path) -> Iterator[coverage.CoverageData]:
    """Yields what each process has kept."""
    for path in sorted(folder.glob("data.*")):
        data = coverage.CoverageData(str(path))
        data.read()
        yield data


def read_from(folder: Path) -> coverage.Coverage:
    """Returns the lines that any process has run, which are not written. Of what a process has kept the lines are joined
    here: `combine` would read all that it has joined so far for each further file."""
    settings = str(folder.resolve() / "settings.ini")
    read = coverage.Coverage(data_file=None, config_file=settings)
    for pattern in LEFT_OUT:
        read.exclude(pattern)
    lines = defaultdict[str, set[int]](set)
    for data in files_of(folder):
        for path in data.measured_files():
            lines[path].update(data.lines(path) or [])
    read.get_data().add_lines(lines)
    return read


def missing(folder: Path) -> dict[str, dict[int, str]]:
    """Returns the lines that no process has run, by file and number."""
    read, found = read_from(folder), dict[str, dict[int, str]]()
    for path in sorted(SOURCE.rglob("*.py")):
        lines = path.read_text("utf-8").splitlines()
        found[str(path.relative_to(SOURCE))] = {
            number: lines[number - 1].strip() for number in read.analysis2(str(path))[3]
        }
    return found


def cut(folder: Path) -> list[str]:
    """Returns the files of processes that were killed as they wrote which lines they had run."""
    return sorted(path.name for path in (folder / "writing").glob("data.*"))


def is_in_part(folder: Path) -> bool:
    """Returns whether some tests of a run were not measured, since others run their lines."""
    path = folder / UNMEASURED
    return path.exists() and bool(json.loads(path.read_text("utf-8")))


def tests_of(folder: Path) -> dict[tuple[str, int], list[str]]:
    """Returns the tests that run each line, by file and number, those first that run fewest lines.

    Lines that run as a module is loaded are left out.
    """
    ran, sizes = defaultdict[tuple[str, int], set[str]](set), Counter[str]()
    for data in files_of(folder):
        for path in data.measured_files():
            file = str(Path(path).relative_to(SOURCE))
            for line, names in data.contexts_by_lineno(path).items():
                ran[file, line].update(filter(None, names))
    found = {at: [*names] for at, names in ran.items() if names}
    for tests in found.values():
        sizes.update(tests)
    for tests in found.values():
        tests.sort(key=lambda name: (sizes[name], name))
    return found


def seconds_of(folder: Path) -> dict[str, float]:
    """Returns the processor seconds that each test has taken."""
    found = dict[str, float]()
    for path in folder.glob("seconds-*.json"):
        found |= json.loads(path.read_text("utf-8"))
    return found


def verdicts(
    found: Mapping[str, Mapping[int, str]], reasons: Mapping[str, Mapping[str, str]]
) -> Iterator[str]:
    """Yields what is wrong: lines that are not run and have no reason, and reasons for other lines."""
    named: defaultdict[str, set[str]] = defaultdict(set)
    for file, lines in found.items():
        for number, text in lines.items():
            named[file].add(text)
            if text not in reasons.get(file, {}):
                yield f"{file}:{number}: no test runs `{text}`"
    for file, texts in reasons.items():
        for text in texts:
            if text not in named[file]:
                yield f"{REASONS.name}: {file}: `{text}` is run, or is not there; remove its reason"


@click.command()
@click.argument("folder", type=click.Path(exists=True, path_type=Path))
def main(folder: Path) -> None:
    """List the lines of crnplan that no test has run, from the FOLDER of `pytest --lines`."""
    found = missing(folder)
    wrong = [*verdicts(found, tomllib.loads(REASONS.read_text("utf-8")))]
    for line in wrong:
        click.echo(line)
    for name in cut(folder):
        click.echo(
            f"{name}: a process was killed as it wrote the lines that it had run"
        )
    if wrong and is_in_part(folder):
        click.echo("not all tests were measured: .ci/run --anew measures all")
    count = sum(map(len, found.values()))
    click.echo(f"{count} lines of crnplan are not run by any test; {len(wrong)} faults")
    sys.exit(bool(wrong))


if __name__ == "__main__":
    main()
