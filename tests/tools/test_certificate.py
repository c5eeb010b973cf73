"""tools/certificate certifies a report that the program of the repository writes, and no other."""
from __future__ import annotations

import tomllib
from pathlib import Path

import pytest

from .machine import Machine, changed, write_script

# By `sha256sum`, of `abc` and of nothing.
OF_ABC = "ba7816bf8f01cfea414140de5dae2223b00361a396177a9cb410ff61f20015ad"
OF_NOTHING = "e3b0c44298fc1c149afbf4c8996fb92427ae41e4649b934ca495991b7852b855"
COMMIT = "0123456789abcdef0123456789abcdef01234567"


@pytest.fixture
def able(machine: Machine, top: Path) -> Machine:
    """Returns a machine with a scenario of no byte and its report `abc`, which the program writes."""
    machine.copy(top, "tools/certificate")
    write_script(machine.top / "tools/crnsim", "printf abc")
    program = machine.top / "crates/crnsim/out/crnsim"
    program.parent.mkdir(parents=True)
    program.write_text("abc", "utf-8")
    machine.fake("rt", "echo kit-1 logic f00d")
    machine.fake("git", f"echo {COMMIT}")
    (machine.folder / "scenario").write_text("", "utf-8")
    (machine.folder / "report").write_text("abc", "utf-8")
    return machine


def certified(machine: Machine) -> tuple[int, str, str]:
    """Returns what the tool ends with: its status, and what it writes to standard output and standard error."""
    ran = machine.run(
        "tools/certificate", machine.folder / "scenario", machine.folder / "report"
    )
    return ran.returncode, ran.stdout, ran.stderr


def test_certificate(able: Machine) -> None:
    status, output, _ = certified(able)
    assert status == 0
    assert tomllib.loads(output) == {
        "scenario": OF_NOTHING,
        "report": OF_ABC,
        "program": OF_ABC,
        "commit": COMMIT,
        "kit": "kit-1",
        "logic": "f00d",
    }


@pytest.mark.parametrize("report", ["abd", "ab", "abc\n"])
def test_another_report_is_not_certified(able: Machine, report: str) -> None:
    (able.folder / "report").write_text(report, "utf-8")
    assert certified(able) == (
        1,
        "",
        "tools/certificate: the program writes another report\n",
    )


def test_program_that_fails_certifies_nothing(able: Machine) -> None:
    changed(able.top / "tools/crnsim", "printf abc", "printf abc; echo no >&2; exit 2")
    assert certified(able) == (
        1,
        "",
        "tools/certificate: the program fails with status 2: no\n",
    )


@pytest.mark.parametrize("name", ["scenario", "report"])
def test_missing_file_is_said(able: Machine, name: str) -> None:
    (able.folder / name).unlink()
    status, output, errors = certified(able)
    assert (status, output) == (1, "")
    assert errors.startswith("tools/certificate: ") and name in errors
