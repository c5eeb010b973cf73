"""Tests tools/setup on a copy, with fakes of Debian's commands."""
from __future__ import annotations

import re
import shutil
import time
import tomllib
from collections.abc import Callable
from pathlib import Path

import pytest

from .machine import Machine, Ran, changed, write_script

COPIED = ["tools/setup", "tools/environment.py", "tools/debian-packages.txt", "planner"]
PROJECT, VERSION = "planner/pyproject.toml", "planner/src/crnplan/__init__.py"
ALL_THERE = "tools/setup: all is there\n"
DONE = "tools/setup: done\n"
MAKING = "tools/setup: making .venv from /usr/bin/python3 and its libraries, since {}\n"
INSTALLING = (
    "tools/setup: installing crnplan in .venv, since {}\n"
    "tools/setup: compiling the inner loops of crnplan\n"
)
MADE = MAKING.format("there is none") + INSTALLING.format("there is none") + DONE
PIP = "python3 -m venv --copies .venv && .venv/bin/pip install -e 'planner[cluster,test]' && rm -f .venv/lib64"
OPTIONS = "apt-get -q -y -o DPkg::Lock::Timeout=900 -o APT::Update::Error-Mode=any"
UPDATE = f"{OPTIONS} update"
INSTALL = f"{OPTIONS} install --no-install-recommends"
# The commands of the list of packages, and those that any system has.
COMMANDS = [
    "python3",
    "chromium",
    "chromedriver",
    "pdftotext",
    "cc",
    "nm",
    "valgrind",
    "mandoc",
    "git",
    "dpkg-deb",
    "lintian",
    "desktop-file-validate",
]
BASICS = [
    "awk",
    "bash",
    "cat",
    "dirname",
    "flock",
    "id",
    "mktemp",
    "paste",
    "rm",
    "sed",
    "wc",
]
# Prints all packages as installed, but those of the file `missing`.
DPKG_QUERY = r"""
for it in "${@:4}"; do grep -qxF "$it" "$HOME/missing" || echo "installed $it"; done
echo 'dpkg-query: no packages found matching it' >&2
"""
# Writes its words down, and fails as often as the file `failures` has lines, each with that line. It installs what it
# is asked for.
APT_GET = r"""
echo "apt-get $*" >>"$LOG"
echo 'Reading package lists...'
if [[ -s $HOME/failures ]]; then
    head -n 1 "$HOME/failures" >&2
    sed -i 1d "$HOME/failures"
    exit 100
fi
for it in "$@"; do sed -i "/^$it\$/d" "$HOME/missing"; done
"""


def debian(folder: Path, top: Path) -> Machine:
    """Returns a machine with what tools/setup reads, on a fake Debian."""
    machine = Machine(folder)
    machine.copy(top, *COPIED)
    machine.fake("dpkg-query", DPKG_QUERY)
    machine.fake("apt-get", APT_GET)
    machine.fake("id", 'echo "${IDENTITY:-0}"')
    machine.fake("sleep", 'echo "sleep $*" >>"$LOG"')
    return machine


@pytest.fixture
def machine(tmp_path: Path, top: Path) -> Machine:
    """Returns a fake Debian of the test's own."""
    return debian(tmp_path, top)


@pytest.fixture(scope="module")
def kept(tmp_path_factory: pytest.TempPathFactory, top: Path) -> Machine:
    """Returns a fake Debian on which all is set up, with a copy of that."""
    machine = debian(tmp_path_factory.mktemp("kept"), top)
    assert set_up(machine).stdout == MADE
    shutil.copytree(machine.top, machine.folder / "as it was", symlinks=True)
    return machine


@pytest.fixture
def made(kept: Machine) -> Machine:
    """Returns a fake Debian on which all is set up."""
    shutil.rmtree(kept.top)
    shutil.copytree(kept.folder / "as it was", kept.top, symlinks=True)
    return kept


def set_up(machine: Machine, missing: str = "", failures: str = "", **more: str) -> Ran:
    """Runs tools/setup as root. `missing` has packages, `failures` the faults of apt-get's first runs, one a line."""
    (machine.folder / "missing").write_text(missing, encoding="utf-8")
    (machine.folder / "failures").write_text(failures, encoding="utf-8")
    return machine.run("tools/setup", **more)


def elsewhere(machine: Machine, *commands: str) -> Ran:
    """Runs tools/setup where there is no Debian, with these commands of its list."""
    folder = machine.folder / "only"
    folder.mkdir()
    for name in (*BASICS, *commands):
        (folder / name).symlink_to(shutil.which(name) or "/bin/true")
    return machine.run("tools/setup", PATH=str(folder))


def test_fresh_debian_gets_the_missing_packages_and_an_environment(
    machine: Machine,
) -> None:
    ran = set_up(machine, "gcc\nvalgrind\n")
    assert (ran.returncode, ran.stderr) == (0, "")
    assert ran.stdout == f"tools/setup: installing of Debian: gcc valgrind\n{MADE}"
    assert machine.logged() == [UPDATE, f"{INSTALL} gcc valgrind"]
    assert machine.run(".venv/bin/crnplan", "--version").stdout.startswith("crnplan ")
    where = machine.run(
        ".venv/bin/python", "-c", "import crnplan, numpy; print(crnplan.__file__)"
    )
    assert where.stdout == f"{machine.top}/planner/src/crnplan/__init__.py\n"
    again = set_up(machine)
    assert (again.returncode, again.stdout, again.stderr, len(machine.logged())) == (
        0,
        ALL_THERE,
        "",
        2,
    )


def test_environment_needs_no_root(machine: Machine) -> None:
    ran = set_up(machine, IDENTITY="1000")
    assert (ran.returncode, ran.stdout) == (0, MADE)
    assert set_up(machine, IDENTITY="1000").stdout == ALL_THERE


def test_variables_of_python_and_pip_change_nothing(machine: Machine) -> None:
    of_pip = {"PIP_REQUIRE_VIRTUALENV": "1", "PIP_TARGET": "/none", "PIP_USER": "1"}
    ran = set_up(machine, PYTHONHOME="/none", PYTHONPATH="/none", **of_pip)
    assert (ran.returncode, ran.stderr) == (0, "")


@pytest.mark.parametrize(
    "line, sleeps",
    [
        pytest.param(
            "E: Failed to fetch http://deb.debian.org/gcc.deb",
            ["sleep 5", "sleep 10", "sleep 15"],
            id="network",
        ),
        pytest.param(
            "E: Could not get lock /var/lib/apt/lists/lock. It is held by process 7",
            ["sleep 2"] * 9,
            id="lock",
        ),
    ],
)
def test_apt_is_tried_again(made: Machine, line: str, sleeps: list[str]) -> None:
    before = len(made.logged())
    ran = set_up(made, "gcc\n", f"{line}\n" * len(sleeps))
    assert (ran.returncode, ran.stderr) == (0, "")
    assert [it for it in made.logged()[before:] if it.startswith("sleep")] == sleeps
    assert made.logged()[-2:] == [UPDATE, f"{INSTALL} gcc"]


def test_lists_that_cannot_be_had_do_not_keep_what_can_be_installed(
    made: Machine,
) -> None:
    ran = set_up(made, "gcc\n", "E: The repository has no Release file\n" * 4)
    assert ran.returncode == 0
    assert (
        "tools/setup: apt-get update failed; going on with the lists of packages that are here\n"
        in ran.stdout
    )


def test_apt_that_fails_shows_its_output_as_faults(machine: Machine) -> None:
    ran = set_up(machine, "gcc\n", "E: no network\n" * 8)
    assert ran.returncode == 1
    assert ran.stderr == (
        "Reading package lists...\nE: no network\n"
        "tools/setup: apt-get install failed; its output is above\n"
    )
    assert "Reading" not in ran.stdout
    assert not (machine.top / ".venv").exists()


def test_apt_that_installs_nothing_is_seen(machine: Machine) -> None:
    machine.fake("apt-get", "exit 0")
    ran = set_up(machine, "gcc\nvalgrind\n")
    said = (
        "tools/setup: apt-get ended well, but these are not installed: gcc valgrind\n"
    )
    assert (ran.returncode, ran.stderr) == (1, said)


def test_without_root_missing_packages_are_named(machine: Machine) -> None:
    ran = set_up(machine, "gcc\npython3-scipy\n", IDENTITY="1000")
    assert (ran.returncode, ran.stdout, machine.logged()) == (1, "", [])
    assert ran.stderr == (
        "tools/setup: these packages are missing, and only root may install them: apt-get install "
        f"python3-scipy gcc\ntools/setup: .venv has to be made, since there is none: {PIP}\n"
    )
    assert not (machine.top / ".venv").exists()


def test_without_debian_missing_commands_are_named(machine: Machine) -> None:
    ran = elsewhere(machine, "python3", "cc", "mandoc")
    assert (ran.returncode, ran.stdout) == (1, "")
    assert ran.stderr == (
        "tools/setup: these commands are missing (with Debian's packages that bring them): "
        "chromium (chromium), chromedriver (chromium-driver), pdftotext (poppler-utils), nm "
        "(binutils), valgrind (valgrind), git (git), dpkg-deb (dpkg), lintian (lintian), "
        "desktop-file-validate (desktop-file-utils)\n"
        f"tools/setup: .venv has to be made, since there is none: {PIP}\n"
    )
    assert not (machine.top / ".venv").exists()


def test_without_debian_nothing_is_asked_for_that_is_there(made: Machine) -> None:
    ran = elsewhere(made, *COMMANDS)
    assert (ran.returncode, ran.stdout, ran.stderr) == (0, ALL_THERE, "")


def replaced(top: Path, text: str) -> None:
    """Puts a script in place of the Python of .venv."""
    (top / ".venv" / "bin" / "python").unlink()
    write_script(top / ".venv" / "bin" / "python", text)


def of_another_folder(top: Path) -> None:
    """Lets .venv find crnplan in another folder."""
    shutil.copytree(top / "planner", top / "other")
    changed(next((top / ".venv").rglob("__editable__*.pth")), "planner", "other")


# What makes .venv stale: a change of the copy, and what tools/environment.py says of it.
NO_COMMAND = "install .venv/bin/crnplan is missing or of another place"
HAS_CHANGED = f"install what {PROJECT} declares has changed"
STALE: dict[str, tuple[Callable[[Path], object], str]] = {
    "no command": (lambda it: (it / ".venv/bin/crnplan").unlink(), NO_COMMAND),
    "a command of elsewhere": (
        lambda it: changed(it / ".venv/bin/crnplan", ".venv", ".venv2"),
        NO_COMMAND,
    ),
    "another version": (
        lambda it: changed(it / VERSION, '__version__ = "0', '__version__ = "9'),
        HAS_CHANGED,
    ),
    "another requirement": (
        lambda it: changed(it / PROJECT, "click>=8.1", "click>=8.0"),
        HAS_CHANGED,
    ),
    "another name": (
        lambda it: changed(it / PROJECT, 'crnplan = "crn', 'planner = "crn'),
        HAS_CHANGED,
    ),
    "crnplan of another folder": (
        of_another_folder,
        "install crnplan is that of .*/other/src/crnplan",
    ),
    "no crnplan": (
        lambda it: shutil.rmtree(next((it / ".venv").rglob("crnplan-*.dist-info"))),
        "install crnplan is missing",
    ),
    "a library that is too old": (
        lambda it: changed(it / PROJECT, "numpy>=1", "numpy>=1001"),
        r"make numpy [\d.]+ is older than 1001[\d.]+",
    ),
    "a library that is missing": (
        lambda it: changed(it / PROJECT, "numpy>=1", "no-such-library>=1"),
        "make no-such-library is missing",
    ),
    "without the system's": (
        lambda it: changed(
            it / ".venv/pyvenv.cfg", "packages = true", "packages = false"
        ),
        "make [a-z-]+ is missing",
    ),
    "a link": (
        lambda it: (it / ".venv/lib64").symlink_to("lib"),
        "make it has a link, for which rt refuses the repository",
    ),
    "another place": (
        lambda it: changed(it / ".venv/bin/activate", "a copy", "a place"),
        "make it was made at another place",
    ),
}
# What makes .venv stale so that its Python does not even run.
BROKEN: dict[str, Callable[[Path], object]] = {
    "a Python that is gone": lambda it: (it / ".venv/bin/python").unlink(),
    "a Python that fails": lambda it: replaced(it, "exit 1"),
    "a file": lambda it: (shutil.rmtree(it / ".venv"), (it / ".venv").touch()),
    "an empty folder": lambda it: (shutil.rmtree(it / ".venv"), (it / ".venv").mkdir()),
}


def test_environment_that_is_right_has_nothing_said_of_it(made: Machine) -> None:
    assert (
        made.run(
            ".venv/bin/python", "-I", f"{made.top}/tools/environment.py", "/usr"
        ).stdout
        == ""
    )
    assert (
        made.run(".venv/bin/python", "-I", f"{made.top}/tools/environment.py").stdout
        == ""
    )


@pytest.mark.parametrize("name", STALE)
def test_what_is_stale_is_said(made: Machine, name: str) -> None:
    change, why = STALE[name]
    change(made.top)
    said = made.run(
        ".venv/bin/python", "-I", f"{made.top}/tools/environment.py", "/usr"
    ).stdout
    assert re.fullmatch(why, said)


def test_environment_of_another_python_is_stale(made: Machine) -> None:
    said = made.run(
        ".venv/bin/python", "-I", f"{made.top}/tools/environment.py", "/opt"
    ).stdout
    assert said == "make it is made from the Python of /usr"


def test_stale_package_is_installed_again(made: Machine) -> None:
    (made.top / ".venv" / "bin" / "crnplan").unlink()
    ran = set_up(made)
    assert (ran.returncode, ran.stderr) == (0, "")
    assert (
        ran.stdout
        == INSTALLING.format(".venv/bin/crnplan is missing or of another place") + DONE
    )
    assert set_up(made).stdout == ALL_THERE


@pytest.mark.parametrize(
    "change", [pytest.param(it, id=name) for name, it in BROKEN.items()]
)
def test_broken_environment_is_made_again(
    made: Machine, change: Callable[[Path], object]
) -> None:
    change(made.top)
    ran = set_up(made)
    assert (ran.returncode, ran.stderr) == (0, "")
    assert ran.stdout.startswith(MAKING.format("its Python does not run"))
    assert set_up(made).stdout == ALL_THERE


def test_requirement_that_debian_cannot_meet_is_refused(machine: Machine) -> None:
    changed(machine.top / PROJECT, "numpy>=1", "numpy>=1001")
    ran = set_up(machine)
    assert ran.returncode == 1
    said = r"tools/setup: something is wrong with the new \.venv: numpy [\d.]+ is older than 1001[\d.]+\n"
    assert re.fullmatch(said, ran.stderr)


def test_install_that_fails_shows_why(machine: Machine) -> None:
    changed(machine.top / PROJECT, "[project]", "[project")
    ran = set_up(machine)
    assert (ran.returncode, DONE in ran.stdout) == (1, False)
    assert "tools/setup: this failed: .venv/bin/python" in ran.stderr


def test_two_at_once_make_one_environment(machine: Machine) -> None:
    (machine.folder / "missing").touch()
    with machine.start("tools/setup") as one, machine.start("tools/setup") as two:
        outputs = sorted([one.communicate()[0], two.communicate()[0]])
    assert (one.returncode, two.returncode) == (0, 0)
    assert outputs == [DONE, MADE]


def test_each_requirement_of_crnplan_is_on_the_list(top: Path) -> None:
    with open(top / PROJECT, "rb") as file:
        project = tomllib.load(file)["project"]
    asked = [
        *project["dependencies"],
        *(it for extra in project["optional-dependencies"].values() for it in extra),
    ]
    names = {re.split(r"[^\w-]", it)[0] for it in asked}
    lines = (
        (top / "tools" / "debian-packages.txt").read_text(encoding="utf-8").splitlines()
    )
    packages = {it.split()[0] for it in lines if it and not it.startswith("#")}
    assert {it if it in packages else f"python3-{it}" for it in names} <= packages


@pytest.mark.serial
def test_nothing_to_do_takes_under_a_second(made: Machine) -> None:
    began = time.monotonic()
    assert set_up(made).stdout == ALL_THERE
    assert time.monotonic() - began < 1
