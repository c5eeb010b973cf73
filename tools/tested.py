"""Tries the wrong implementations that contracts let through: crates/NAME/tested/*.edit.

Used by `tools/rounds.py --tested`; tools/edits.py has the format. Each edit is planted in a copy of the repository,
over the work that is kept in crates/*/out/: that of `rt check`, or the libraries that `rt ci` has left. What its test
needs is built, the program or a crate of tests, which also proves the changed crate and those above it. Then the test is
run. An edit passes only if its test fails, and for the reason that the edit gives; it fails if the test passes, if
another part of the test fails, or if the edit is not proved.

The control runs each test once without an edit, where it must not fail.
"""
import collections
import os
import shlex
import shutil
import signal
import subprocess
import tempfile
import threading
import time

from edits import TOP, BadEdit, crates, edits_of, texts_of

PROGRAM = "crnsim"
# How tests by pytest are run: by the Python that tools/setup has made.
PYTEST = [f"{TOP}/.venv/bin/python", "-m", "pytest", "-q", "-p", "no:cacheprovider"]
# What is said of an edit whose proof or build did not end in time.
LATE = "its proof or its build has not ended"
# What the last lines of a crate's tests say if all of those named pass.
PASSED = "test result: ok"
# After so many seconds the test of a crate counts as one that does not end: it fails.
SECONDS_OF_A_TEST = 60

Test = collections.namedtuple("Test", "crate words fails")
# What a test has printed; its status, which is None if it was stopped; and whether its time was over.
Shown = collections.namedtuple("Shown", "lines status is_late")
Try = collections.namedtuple("Try", "edit test texts")


def test_of(edit):
    """Returns the test that an edit names: that of a crate of tests, a test by pytest, or a command for the program.
    The last two have a text that a failure must contain."""
    words = shlex.split(edit.seen_by)
    if not edit.what or not words:
        raise BadEdit("it lacks a head line, 'what:' or 'seen by:'")
    if words[0] in crates():
        if len(words) != 2:
            raise BadEdit(f"'{edit.seen_by}' names no test of {words[0]}")
        return Test(words[0], tuple(words[1:]), edit.fails)
    is_test = (
        words[0] == "pytest"
        and len(words) > 1
        and os.path.exists(f"{TOP}/{words[1].partition('::')[0]}")
    )
    if not is_test and (
        not os.path.isfile(f"{TOP}/{words[0]}") or "PROGRAM" not in words
    ):
        raise BadEdit(
            f"'{edit.seen_by}' is neither a test of a crate nor a command of the repository for PROGRAM, nor "
            f"tests by pytest"
        )
    if not edit.fails:
        raise BadEdit("it lacks the head line 'fails:'")
    return Test("", tuple(words), edit.fails)


def tries_of(name, names):
    """The edits of a crate that are to be tried, and those that cannot be, with the reason."""
    tries, failed = [], []
    for edit in edits_of(name, "tested"):
        if names and edit.name not in names:
            continue
        try:
            tries.append(Try(edit, test_of(edit), texts_of(edit)))
        except BadEdit as fault:
            failed.append((f"{name}/{edit.name}", str(fault)))
    return tries, failed


def are_left_by_ci(libraries, kit):
    """Returns whether some libraries are what `rt ci` has left: they have no stamp, since they fit only one another. None of
    their files may have changed since."""
    if any(os.path.exists(f"{it.folder}/out/rlib/stamp") for it in libraries):
        return False
    return all(
        os.stat(file).st_ctime < os.stat(f"{it.rlib}/format").st_ctime
        for it in libraries
        for file in kit.files_of(it.folder)
    )


def copied(room, link, kit):
    """Copies the repository into a folder, with links to the work that its crates keep. Libraries that `rt ci` has left
    get a stamp there, so that `rt` does not build them again."""
    every = [kit.Crate(f"{TOP}/crates/{name}", TOP, {}) for name in crates()]
    libraries = [it for it in every if os.path.isfile(f"{it.rlib}/format")]
    stamped = libraries if are_left_by_ci(libraries, kit) else []
    shutil.copytree(
        TOP,
        room,
        ignore=shutil.ignore_patterns(".*", "out", "__pycache__"),
        dirs_exist_ok=True,
    )
    os.makedirs(f"{room}/.git")
    for crate in every:
        for part in ("rlib", "incremental"):
            if os.path.isdir(f"{crate.folder}/out/{part}"):
                link(
                    f"{crate.folder}/out/{part}",
                    f"{room}/crates/{crate.name}/out/{part}",
                )
    for crate in stamped:
        with open(
            f"{room}/crates/{crate.name}/out/rlib/stamp", "w", encoding="utf-8"
        ) as file:
            file.write(crate.stamp())


def shown_of(words, folder, limit, ends_at=lambda line: False):
    """Runs a command until it ends, until a line that is waited for, or until its time is over."""
    lines, is_late, stopped = [], threading.Event(), False
    process = subprocess.Popen(
        words,
        cwd=folder,
        stdin=subprocess.DEVNULL,
        stdout=subprocess.PIPE,
        stderr=subprocess.STDOUT,
        text=True,
        errors="replace",
        env={**os.environ, "PYTHONUNBUFFERED": "1"},
        start_new_session=True,
    )

    def stop():
        """Stops the command and all that it has started."""
        if process.poll() is None:
            os.killpg(process.pid, signal.SIGKILL)

    def end():
        is_late.set()
        stop()

    timer = threading.Timer(limit, end)
    timer.start()
    for line in process.stdout:
        lines.append(line.rstrip("\n"))
        if ends_at(lines[-1]):
            stopped = True
            stop()
            break
    status = process.wait()
    timer.cancel()
    return Shown(
        lines, None if stopped or is_late.is_set() else status, is_late.is_set()
    )


def has_failed_so(test, line):
    """Whether a line says that a test fails for the reason that an edit gives."""
    return line.startswith("FAILED ") and test.fails in line


def fault_of(test, shown):
    """Why a test has not passed without an edit, or ""."""
    if shown.is_late:
        return "it has not ended"
    if test.crate:
        is_good = shown.status == 0 and any(
            line.startswith(PASSED) for line in shown.lines
        )
        return "" if is_good else f"it fails: {' | '.join(shown.lines[-3:])[:300]}"
    if so := [line for line in shown.lines if has_failed_so(test, line)]:
        return f"it fails: {so[0][:300]}"
    return (
        ""
        if shown.lines and " passed" in shown.lines[-1]
        else f"it breaks off: {(shown.lines or [''])[-1][:300]}"
    )


def unseen(test, shown):
    """Why a test has not seen an edit, or ""."""
    if test.crate:
        if shown.status == 0:
            return "its test passes"
        is_right = test.fails in "\n".join(shown.lines)
        return (
            ""
            if is_right
            else f"its test fails for another reason: {' | '.join(shown.lines[-3:])[:300]}"
        )
    if any(has_failed_so(test, line) for line in shown.lines):
        return ""
    if shown.is_late:
        return "its test has not ended, and had not failed so before"
    others = [line for line in shown.lines if line.startswith("FAILED ")]
    if others:
        return f"its test fails for another reason: {others[0][:300]}"
    return (
        "its test passes"
        if shown.status == 0
        else f"its test breaks off: {(shown.lines or [''])[-1][:300]}"
    )


class Copy:
    """A copy of the repository, in which edits are planted one after another."""

    def __init__(self, room, options, link, kit):
        self.room, self.options = room, options
        copied(room, link, kit)

    def plant(self, each, which):
        """Writes the files of an edit, as they are before it (0) or after it (1)."""
        for file, text in each.texts[which].items():
            with open(
                f"{self.room}/crates/{each.edit.crate}/{file}", "w", encoding="utf-8"
            ) as written:
                written.write(text)

    def built(self, test):
        """Builds what a test needs; what was said if that failed."""
        name, words = (test.crate, ["test"]) if test.crate else (PROGRAM, ["run"])
        jobs = str(self.options.lanes or len(os.sched_getaffinity(0)))
        # The crate's tests are built and none is run, since no test has that name; of the program, the help is asked
        # for.
        words = [
            self.options.builder or "rt",
            *words,
            "--jobs",
            jobs,
            "--",
            "no_test_has_this_name" if test.crate else "help",
        ]
        made = self.target(test)
        if os.path.exists(made):
            os.remove(made)
        shown = shown_of(words, f"{self.room}/crates/{name}", self.options.limit)
        if os.path.exists(made) and (test.crate or shown.status == 0):
            return ""
        if shown.is_late:
            return f"{LATE} after {self.options.limit} seconds"
        told = [
            line
            for line in shown.lines
            if "NOT" in line or "not proved" in line or "error" in line
        ]
        return " | ".join((told or shown.lines)[:3])[:400] or "nothing was said"

    def target(self, test):
        """The program that is built for a test."""
        if test.crate:
            return f"{self.room}/crates/{test.crate}/out/{test.crate}_tests"
        return f"{self.room}/crates/{PROGRAM}/out/{PROGRAM}"

    def run(self, test, is_control):
        """Runs a test. With an edit, a command is stopped once it has failed as it must."""
        if test.crate:
            return shown_of(
                [self.target(test), *test.words],
                self.room,
                min(self.options.limit, SECONDS_OF_A_TEST),
            )
        ends_at = (
            (lambda line: False)
            if is_control
            else lambda line: has_failed_so(test, line)
        )
        return shown_of(self.words(test), self.room, self.options.limit, ends_at)

    def words(self, test):
        """Returns the command line of a test that is no crate's."""
        if test.words[0] == "pytest":
            return [*PYTEST, f"--program={self.target(test)}", *test.words[1:]]
        first, *others = (
            self.target(test) if it == "PROGRAM" else it for it in test.words
        )
        return [f"{self.room}/{first}", *others]


class Tested:
    """All edits that tests must see."""

    def __init__(self, copy, tries):
        self.copy, self.tries, self.passed, self.failed = copy, tries, 0, 0
        self.built, self.shown = {}, {}

    def control(self, test):
        """Why a test says nothing, since it does not pass without an edit, or ""."""
        key, began = test._replace(fails=""), time.monotonic()
        if test.crate not in self.built:
            self.built[test.crate] = self.copy.built(test)
        said = self.built[test.crate]
        if key not in self.shown:
            self.shown[key] = None if said else self.copy.run(test, True)
            print(
                f"control, {test.crate or ''} {' '.join(test.words)}: {time.monotonic() - began:.0f} s".replace(
                    ",  ", ", "
                ),
                flush=True,
            )
        return (
            f"it is not built without an edit: {said}"
            if said
            else fault_of(test, self.shown[key])
        )

    def outcome(self, each):
        """Why an edit is not seen, or ""."""
        self.copy.plant(each, 1)
        try:
            said = self.copy.built(each.test)
            if said:
                return said if said.startswith(LATE) else f"it is not proved: {said}"
            return unseen(each.test, self.copy.run(each.test, False))
        finally:
            self.copy.plant(each, 0)

    def run(self):
        """Tries all edits, after the controls of their tests."""
        lost = [self.control(each.test) for each in self.tries]
        for each, why in zip(self.tries, lost):
            began = time.monotonic()
            why = (
                f"its test does not pass without an edit: {why}"
                if why
                else self.outcome(each)
            )
            label = f"{each.edit.crate}/{each.edit.name}"
            self.passed, self.failed = self.passed + (not why), self.failed + bool(why)
            print(
                f"FAILED {label}: {why}"
                if why
                else f"{label}: seen, {time.monotonic() - began:.0f} s",
                flush=True,
            )


def try_tested(names, options, link, kit):
    """Tries the edits of these crates; how many passed and failed, and that none passed by a kept verdict."""
    found = [tries_of(name, options.names) for name in names]
    bad = [it for _, failed in found for it in failed]
    for label, why in bad:
        print(f"FAILED {label}: {why}")
    tries = [it for each, _ in found for it in each]
    if not tries:
        return 0, len(bad), 0
    with tempfile.TemporaryDirectory(prefix="tested-") as room:
        tested = Tested(Copy(room, options, link, kit), tries)
        tested.run()
    return tested.passed, tested.failed + len(bad), 0
