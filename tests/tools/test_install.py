"""Tests tools/install on a copy, with a script in place of the program and the repository's Python."""
from __future__ import annotations

import sys
from pathlib import Path

import pytest

from .machine import Machine, Ran, changed, write_script
from .program import PROGRAM

COMPLETED = """
source "$1"
COMP_WORDS=("${@:3}")
COMP_CWORD=$((${#COMP_WORDS[@]} - 1))
"$2" "$3"
printf '%s\\n' "${COMPREPLY[@]}"
"""


def with_install(folder: Path, top: Path) -> Machine:
    """Returns a machine with what tools/install reads, and whose tools/setup does nothing."""
    machine = Machine(folder)
    machine.copy(
        top, "tools/install", "tools/installing.py", "tools/manual.py", "planner"
    )
    write_script(machine.top / "tools" / "setup", "echo 'tools/setup: all is there'")
    write_script(machine.folder / "built", PROGRAM)
    (machine.top / ".venv").symlink_to(sys.prefix)
    return machine


@pytest.fixture
def machine(tmp_path: Path, top: Path) -> Machine:
    """Returns a machine of the test's own."""
    return with_install(tmp_path, top)


@pytest.fixture(scope="module")
def installed(tmp_path_factory: pytest.TempPathFactory, top: Path) -> Machine:
    """Returns a machine on which all is installed, and whose copy of the repository is gone."""
    machine = with_install(tmp_path_factory.mktemp("installed"), top)
    ran = install(machine)
    assert (ran.returncode, ran.stderr) == (0, "")
    machine.top.rename(machine.folder / "gone")
    return machine


def prefix(machine: Machine) -> Path:
    """Returns the folder that is installed into. Its name has a blank."""
    return machine.folder / "my files"


def install(machine: Machine, *words: str) -> Ran:
    """Runs tools/install."""
    more = (
        [] if "--uninstall" in words else ["--program", str(machine.folder / "built")]
    )
    return machine.run("tools/install", "--prefix", str(prefix(machine)), *more, *words)


def files_of(folder: Path) -> set[str]:
    """Returns the names of all files below a folder, and of empty folders."""
    return {
        str(it.relative_to(folder))
        for it in folder.rglob("*")
        if not it.is_dir() or not any(it.iterdir())
    }


def completions(machine: Machine, function: str, *words: str) -> list[str]:
    """Returns the completions of words in bash."""
    source = prefix(machine) / "share" / "bash-completion" / "completions" / words[0]
    path = f"{prefix(machine)}/bin:/usr/bin:/bin"
    return machine.run(
        "bash", "-c", COMPLETED, "bash", source, function, *words, PATH=path
    ).stdout.splitlines()


def test_program_is_the_one_that_is_given(installed: Machine) -> None:
    assert (prefix(installed) / "bin" / "crnsim").read_bytes() == (
        installed.folder / "built"
    ).read_bytes()
    assert installed.run(
        prefix(installed) / "bin" / "crnsim", "words"
    ).stdout.startswith("Writes the words")


def test_crnplan_does_not_need_the_repository(installed: Machine) -> None:
    crnplan = prefix(installed) / "bin" / "crnplan"
    assert installed.run(crnplan, "--version").stdout.startswith("crnplan ")
    ran = installed.run(crnplan, "run", "-", text="version = 3\n")
    assert ran.returncode == 2 and "fault 2" in ran.stderr
    python = prefix(installed) / "lib" / "crnplan" / "venv" / "bin" / "python"
    where = installed.run(
        python, "-c", "import crnplan; print(crnplan.__file__)"
    ).stdout
    assert where.startswith(f"{prefix(installed)}/lib/crnplan/venv/lib/")


def test_each_command_has_a_manual_page(installed: Machine) -> None:
    names = {it.name for it in (prefix(installed) / "share" / "man" / "man1").iterdir()}
    assert {
        "crnsim.1",
        "crnsim-leg.1",
        "crnplan.1",
        "crnplan-desk.1",
        "crnplan-run.1",
        "crnplan-suggest.1",
    } <= names


@pytest.mark.parametrize(
    "words, found",
    [
        (["crnsim", "le"], ["leg"]),
        (["crnsim", "h"], ["help"]),
        (["crnsim", "help", "w"], ["words"]),
        (["crnsim", "leg", "w"], [""]),
    ],
)
def test_bash_completes_the_words_of_the_program(
    installed: Machine, words: list[str], found: list[str]
) -> None:
    assert completions(installed, "_crnsim", *words) == found


@pytest.mark.parametrize(
    "words, found",
    [(["crnplan", "pl"], "plan"), (["crnplan", "curve", "--clu"], "--cluster")],
)
def test_bash_completes_the_words_of_crnplan(
    installed: Machine, words: list[str], found: str
) -> None:
    assert completions(installed, "_crnplan_completion", *words) == [found]


@pytest.mark.parametrize(
    "path, words",
    [
        (
            "zsh/site-functions/_crnsim",
            ["#compdef crnsim", "'leg:Runs a scenario'\\''s blocks 0 to N - 1 and"],
        ),
        (
            "zsh/site-functions/_crnplan",
            [
                "#compdef crnplan",
                "_CRNPLAN_COMPLETE=zsh_complete",
                '_crnplan_completion "$@"',
            ],
        ),
        (
            "fish/vendor_completions.d/crnsim.fish",
            ["complete -c crnsim -n __fish_use_subcommand -f -a leg -d 'Runs"],
        ),
        (
            "fish/vendor_completions.d/crnplan.fish",
            ["_CRNPLAN_COMPLETE=fish_complete", "--command crnplan"],
        ),
    ],
)
def test_other_shells_have_completions(
    installed: Machine, path: str, words: list[str]
) -> None:
    text = (prefix(installed) / "share" / path).read_text(encoding="utf-8")
    assert [it for it in words if it not in text] == []


def test_sources_are_left_as_they_are(installed: Machine, machine: Machine) -> None:
    assert files_of(installed.folder / "gone") == files_of(machine.top)


def test_installed_again_and_removed_nothing_is_left(machine: Machine) -> None:
    assert [install(machine).returncode for _ in range(2)] == [0, 0]
    ran = install(machine, "--uninstall")
    said = f"tools/install: crnsim and crnplan are removed from {prefix(machine)}/bin\n"
    assert (ran.returncode, ran.stdout) == (0, said)
    assert not prefix(machine).exists()


def test_files_and_folders_of_others_stay(machine: Machine) -> None:
    for name in ("bin/other", "share/man/man1/crnsim-other.1"):
        (prefix(machine) / name).parent.mkdir(parents=True)
        (prefix(machine) / name).touch()
    (prefix(machine) / "share" / "fish").mkdir()
    before = files_of(prefix(machine))
    install(machine)
    (prefix(machine) / "share" / "zsh" / "kept").touch()
    install(machine, "--uninstall")
    assert files_of(prefix(machine)) == before | {"share/zsh/kept"}


@pytest.mark.parametrize(
    "name",
    ["bin/crnplan", "bin/crnsim", "share/man/man1/crnplan.1", "lib/crnplan/some"],
)
def test_file_of_others_is_not_replaced(machine: Machine, name: str) -> None:
    (prefix(machine) / name).parent.mkdir(parents=True)
    (prefix(machine) / name).write_text("mine", encoding="utf-8")
    ran = install(machine)
    there = prefix(machine) / ("lib/crnplan" if name.startswith("lib") else name)
    assert ran.returncode == 1
    assert (
        ran.stderr
        == f"tools/install: these are there, and were not installed by tools/install: {there}\n"
    )
    assert files_of(prefix(machine)) == {name}


def test_install_that_breaks_off_can_be_removed(machine: Machine) -> None:
    changed(machine.top / "planner" / "pyproject.toml", "[project]", "[project")
    ran = install(machine)
    assert ran.returncode == 1
    assert "tools/install: this failed" in ran.stderr
    assert install(machine, "--uninstall").returncode == 0
    assert not prefix(machine).exists()


def test_nothing_to_remove_is_said(machine: Machine) -> None:
    ran = install(machine, "--uninstall")
    assert (ran.returncode, ran.stderr) == (
        1,
        f"tools/install: nothing is installed below {prefix(machine)}\n",
    )


def test_missing_program_is_said(machine: Machine) -> None:
    (machine.folder / "built").unlink()
    ran = install(machine)
    assert (ran.returncode, ran.stderr) == (
        1,
        f"tools/install: there is no program {machine.folder}/built\n",
    )


def test_program_of_the_repository_is_built_first(machine: Machine) -> None:
    made = "crates/crnsim/out/crnsim"
    build = f'cd "$(dirname "$0")/.."; mkdir -p crates/crnsim/out; cp ../built {made}'
    write_script(machine.top / "tools" / "crnsim", build)
    ran = machine.run("tools/install", "--prefix", str(prefix(machine)))
    assert (ran.returncode, ran.stderr) == (0, "")
    assert (prefix(machine) / "bin" / "crnsim").read_bytes() == (
        machine.top / made
    ).read_bytes()
