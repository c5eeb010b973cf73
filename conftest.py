"""What all suites of the repository share: options, the built program, counted cases, and tests that must run alone.

    .venv/bin/python -m pytest -n 4                   all suites
    .venv/bin/python -m pytest tests/program -k resume
    .venv/bin/python -m pytest --program=PATH         the tests of another program
    .venv/bin/python -m pytest --free                 new random texts on each run
"""
from __future__ import annotations

import collections
import contextlib
import fcntl
import os
import sys
import tempfile
from collections.abc import Callable, Iterable, Iterator
from pathlib import Path
from typing import Any

import pytest
from hypothesis import HealthCheck, settings

# Each worker is one processor's work, so the threads of linear algebra would only wait for one another.
for threads in ("OMP_NUM_THREADS", "OPENBLAS_NUM_THREADS"):
    os.environ.setdefault(threads, "1")

TOP = Path(__file__).resolve().parent
PROGRAM = TOP / "crates" / "crnsim" / "out" / "crnsim"
# The property of a test that stands for so many cases.
CASES = "cases"
LOCK = "serial_lock"
# The properties of a run that have which lines are run, and what traces them; and how the names of the tests begin whose
# lines count: all that call crnplan in this process. Others would take twice the processor time, and so would those in a
# browser and others that take long, whose lines others run: not even the processes that they start are measured.
MEASURED, TRACER = "measured_lines", "tracer"
COUNTED = "planner/", "tests/documents/", "tests/tools/test_planner_"
UNMEASURED = (
    "planner/tests/browser/",
    "planner/tests/catalogue/test_interrupted.py",
    "planner/tests/crnsim/test_own_starts.py",
    "planner/tests/read/test_alike.py",
    "planner/tests/read/test_tiny.py",
    "tests/documents/test_commands.py",
)
# By these variables a process of Python is measured from its start, and knows the test that has started it.
STARTED, TEST = "COVERAGE_PROCESS_START", "CRNPLAN_TEST"
# The processor seconds of each test, and those whose lines others run.
SPENT = pytest.StashKey[dict[str, float]]()
LEFT_OUT = pytest.StashKey[frozenset[str]]()
# A worker of a parallel run has at most so many tests waiting, and gets more if half of them are done.
MOST_WAITING = 6
# A failure names so many of its cases, and says how many more there are.
MOST_NAMED = 20

Cases = Iterable[tuple[str, object]]


def pytest_addoption(parser: pytest.Parser) -> None:
    """Adds the options of the repository."""
    group = parser.getgroup("crnsim")
    default = PROGRAM.relative_to(TOP)
    group.addoption(
        "--program",
        metavar="PATH",
        type=Path,
        help=f"test this program (default: {default})",
    )
    group.addoption(
        "--lines",
        metavar="FOLDER",
        type=Path,
        help="keep in FOLDER which lines of crnplan are run",
    )
    group.addoption(
        "--by-test",
        action="store_true",
        help="with --lines, measure those tests too that take long",
    )
    group.addoption(
        "--mapped",
        action="store_true",
        help="with --lines, measure no test whose lines others run, by the map that the last gate has kept",
    )
    group.addoption(
        "--only",
        metavar="FILE",
        type=Path,
        help="run those tests and files of tests alone that FILE names, one a line",
    )
    group.addoption(
        "--free",
        action="store_true",
        help="draw new random examples on each run, not the same ones",
    )


def pytest_configure(config: pytest.Config) -> None:
    """Chooses the profile of hypothesis, makes the file whose lock the tests of a parallel run take, and measures which
    lines of crnplan are run."""
    shared: dict[str, Any] = {
        "deadline": None,
        "database": None,
        "suppress_health_check": [HealthCheck.too_slow],
    }
    settings.register_profile("gate", derandomize=True, **shared)
    settings.register_profile("free", print_blob=True, **shared)
    settings.load_profile("free" if config.getoption("--free") else "gate")
    config.stash[SPENT], config.stash[LEFT_OUT] = {}, frozenset()
    if folder := config.getoption("--lines"):
        from planner.lines import measure

        setattr(config, MEASURED, measure(folder))
        setattr(config, TRACER, sys.gettrace())
        if config.getoption("--mapped"):
            from planner.touched import unmeasured

            config.stash[LEFT_OUT] = unmeasured(folder)
    named = config.getoption("--program")
    if named and not os.access(named, os.X_OK):
        raise pytest.UsageError(f"--program {named}: there is no such program")
    if not hasattr(config, "workerinput") and getattr(
        config.option, "numprocesses", None
    ):
        handle, path = tempfile.mkstemp(prefix="crnsim-")
        os.close(handle)
        config.add_cleanup(lambda: os.unlink(path))
        setattr(config, LOCK, path)


@pytest.hookimpl(trylast=True)
def pytest_sessionfinish(session: pytest.Session) -> None:
    """Keeps which lines were run. A worker that has said that it is done may be killed, so this comes before."""
    if hasattr(session.config, MEASURED):
        from planner.lines import keep

        keep(getattr(session.config, MEASURED), session.config.stash[SPENT])


@pytest.hookimpl(optionalhook=True)
def pytest_configure_node(node: Any) -> None:
    """Tells a worker of a parallel run where the lock is."""
    node.workerinput[LOCK] = getattr(node.config, LOCK)


@pytest.hookimpl(optionalhook=True)
def pytest_xdist_make_scheduler(config: pytest.Config, log: Any) -> Any:
    """Hands tests to workers a few at a time, so that none has a long tail of slow ones while the others are done."""
    if config.getoption("dist") != "load":
        return None
    from xdist.scheduler.load import LoadScheduling

    class FewAtATime(LoadScheduling):
        """Sends tests to a worker that has but few left."""

        def check_schedule(self, node: Any, duration: float = 0) -> None:
            """Sends a worker more tests, or ends it if there are none."""
            waiting = len(self.node2pending[node])
            if not self.pending and not node.shutting_down:
                node.shutdown()
            elif self.pending and waiting <= MOST_WAITING // 2:
                self._send_tests(node, MOST_WAITING - waiting)

        def _send_tests(self, node: Any, num: int) -> None:
            super()._send_tests(node, min(num, MOST_WAITING))

    return FewAtATime(config, log)


def pytest_collection_modifyitems(
    config: pytest.Config, items: list[pytest.Item]
) -> None:
    """Leaves out the tests that are not named, if some are. Puts the tests that run alone last, and before them those whose
    lines are not measured: what a process computes once and keeps is then computed under measurement. Of each part those
    that may take longer than others come first, so that no worker ends with one. The others stay in their order.
    """
    if path := config.getoption("--only"):
        named = {*path.read_text("utf-8").splitlines()}
        items[:] = [
            it for it in items if named & {it.nodeid, it.nodeid.partition("::")[0]}
        ]
    items.sort(key=lambda it: (is_serial(it), is_unmeasured(it), not is_long(it)))


def is_long(item: pytest.Item) -> bool:
    """Returns whether a test has a limit of time of its own."""
    return item.get_closest_marker("timeout") is not None


def is_unmeasured(item: pytest.Item) -> bool:
    """Returns whether a test is one whose lines are not measured."""
    if item.config.getoption("--by-test"):
        return False
    return (
        item.nodeid.startswith(UNMEASURED) or item.nodeid in item.config.stash[LEFT_OUT]
    )


def is_serial(item: pytest.Item) -> bool:
    """Returns whether a test must run alone."""
    return item.get_closest_marker("serial") is not None


@pytest.hookimpl(hookwrapper=True, tryfirst=True)
def pytest_runtest_protocol(item: pytest.Item) -> Iterator[None]:
    """Runs a test, in a worker under a lock that all share but those that run alone. Waiting is not timed."""
    path = getattr(item.config, "workerinput", {}).get(LOCK)
    with open(path, encoding="ascii") if path else contextlib.nullcontext() as file:
        if file:
            fcntl.flock(file, fcntl.LOCK_EX if is_serial(item) else fcntl.LOCK_SH)
        with measuring(item):
            yield


@contextlib.contextmanager
def measuring(item: pytest.Item) -> Iterator[None]:
    """Measures which lines a test runs, and the processor time that it takes with the processes that it starts."""
    measured = getattr(item.config, MEASURED, None)
    if not measured:
        yield
        return
    is_left_out = is_unmeasured(item)
    is_counted = item.nodeid.startswith(COUNTED) and not is_left_out
    # A test may have taken the measurement away.
    sys.settrace(getattr(item.config, TRACER) if is_counted else None)
    measured.switch_context(item.nodeid)
    started = os.environ.pop(STARTED, "") if is_left_out else ""
    os.environ[TEST], began = item.nodeid, sum(os.times()[:4])
    yield
    item.config.stash[SPENT][item.nodeid] = sum(os.times()[:4]) - began
    if started:
        os.environ[STARTED] = started


def pytest_report_teststatus(
    report: pytest.TestReport, config: pytest.Config
) -> tuple[str, str, str] | None:
    """Names a test as soon as it fails, which the summary does only at the end."""
    if not report.failed or config.option.verbose > 0:
        return None
    kind = "failed" if report.when not in ("setup", "teardown") else "error"
    return kind, f"\n{report.nodeid}: {kind}\n", kind.upper()


def pytest_terminal_summary(terminalreporter: Any) -> None:
    """Says how many cases the tests of each folder stand for."""
    counts: collections.Counter[str] = collections.Counter()
    for report in terminalreporter.getreports("passed"):
        folder = os.path.dirname(report.nodeid.split("::")[0])
        counts[folder] += dict(report.user_properties).get(CASES, 1)
    for folder, count in sorted(counts.items()):
        terminalreporter.write_line(f"{folder}: {count:,} cases")


@pytest.fixture(scope="session")
def top() -> Path:
    """Returns the folder of the repository."""
    return TOP


@pytest.fixture(scope="session")
def program(request: pytest.FixtureRequest) -> Path:
    """Returns the absolute path of the program that is tested. Without one the run ends."""
    path = Path(os.path.abspath(request.config.getoption("--program") or PROGRAM))
    if not os.access(path, os.X_OK):
        request.session.shouldfail = (
            f"there is no program {path}: run tools/build, or give --program=PATH"
        )
        pytest.fail(request.session.shouldfail, pytrace=False)
    return path


@pytest.fixture
def check_all(
    record_property: Callable[[str, object], None]
) -> Callable[[Cases], None]:
    """Returns a function that checks the cases of a test: pairs of a name and a verdict.

    True is a case that holds. Anything else is one that does not; a text says why. Those that fail are named, also if
    the test runs out of time, and the summary counts each case.
    """

    def check(cases: Cases) -> None:
        verdicts: list[tuple[str, object]] = []
        try:
            verdicts.extend(cases)
        except pytest.fail.Exception as fault:
            verdicts.append(
                (f"after {verdicts[-1][0]}" if verdicts else "at once", str(fault))
            )
        record_property(CASES, len(verdicts))
        assert verdicts, "there are no cases"
        failed = [
            f"{name}: {its}" if isinstance(its, str) else name
            for name, its in verdicts
            if its is not True
        ]
        if failed:
            more = (
                [f"and {len(failed) - MOST_NAMED} more"]
                if len(failed) > MOST_NAMED
                else []
            )
            lines = [
                f"{len(failed)} of {len(verdicts)} cases",
                *failed[:MOST_NAMED],
                *more,
            ]
            pytest.fail("\n".join(lines), pytrace=False)

    return check
