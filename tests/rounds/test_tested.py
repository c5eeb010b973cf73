"""`tools/rounds.py --tested` fails when it must: a small crate is given edits that a test must see, with a program and tests
that are scripts.
"""
from __future__ import annotations

import re
from collections.abc import Iterator
from pathlib import Path

import pytest

from tests.rounds.small_crate import (
    CODE,
    Case,
    CheckAll,
    last_line,
    of_edit,
    run_tool,
    write,
)

# In place of rt: the program is the crate's text, its tests are a script, and a sum of a thousand is not proved.
BUILDER = """#!/bin/sh
grep -q 'n + 1000' ../tiny/src/lib.rt && echo 'fn tiny::next: not proved' && exit 1
mkdir -p out
cp ../tiny/src/lib.rt out/crnsim
cat > out/tiny_tests << 'END'
#!/bin/sh
grep -q 'n + 2$' crates/tiny/src/lib.rt && echo "$1 FAILED" && exit 101
echo "test result: ok"
END
chmod +x out/tiny_tests
"""
# A part of the tests. It fails, hangs, or fails and then hangs by what stands in the program.
PART = """#!/bin/sh
grep -q 'first + 9' "$1" && sleep 600
grep -q 'first + 8' "$1" && echo 'FAILED sums: above' && sleep 600
grep -q 'n + 2$' "$1" && echo 'FAILED sums: next' && echo '1 passed, 1 failed' && exit 1
echo '2 passed, 0 failed'
"""
# Tests by pytest, which also fail by what stands in the program.
OPTION = 'def pytest_addoption(parser):\n    parser.addoption("--program")\n'
SUMS = """def test_next(request):
    with open(request.config.getoption("--program")) as program:
        assert "n + 2\\n" not in program.read()
"""
BROKEN = "#!/bin/sh\necho 'FAILED sums: next'\necho '0 passed, 1 failed'\nexit 1\n"
BREAKS_OFF = "#!/bin/sh\necho 'no such file'\nexit 2\n"
OTHER_SUM = "file: src/lib.rt\nold:     n + 1\nnew:     n + 2\n"
OTHER_PROOF = (
    "file: proofs/above/Answers.antt\nold: first_is c = c\nnew: first_is c =  c\n"
)
SAME_SUM = (
    "file: src/lib.rt\nold:         Way::Stay => n,\nnew:         Way::Stay => n + 0,\n"
)


def seen_by(command: str, fails: str = "sums: next") -> str:
    """Returns the lines of an edit on the command that must see it."""
    return f"seen by: {command}\nfails: {fails}\n"


def sum_with(number: int) -> str:
    """Returns the pair of an edit of the last sum."""
    return f"file: src/lib.rt\nold:     first + 2\nnew:     first + {number}\n"


BY_PART, BY_CRATE = seen_by("tests/part PROGRAM"), "seen by: tiny sums\n"
BY_PYTEST = seen_by("pytest tests/test_sums.py -k next", "test_next")
# Edits that a test must see: the head and the pairs, and what becomes of each.
TESTED = {
    "seen": (BY_PART + OTHER_SUM, ""),
    "seen_by_a_crate": (BY_CRATE + OTHER_SUM, ""),
    "seen_for_its_reason": (BY_CRATE + "fails: sums FAILED\n" + OTHER_SUM, ""),
    "seen_by_pytest": (BY_PYTEST + OTHER_SUM, ""),
    "not_seen_by_pytest": (BY_PYTEST + SAME_SUM, "its test passes"),
    "other_reason_of_pytest": (
        seen_by("pytest tests/test_sums.py", "test_above") + OTHER_SUM,
        "fails for another reason: FAILED tests/test_sums.py::test_next",
    ),
    "no_such_pytest": (
        seen_by("pytest tests/test_products.py") + OTHER_SUM,
        "is neither a test of a crate nor",
    ),
    "seen_before_it_hangs": (
        seen_by("tests/part PROGRAM", "sums: above") + sum_with(8),
        "",
    ),
    "of_a_proof": (BY_PART + OTHER_SUM + OTHER_PROOF, ""),
    "of_a_proof_alone": (BY_PART + OTHER_PROOF, "its test passes"),
    "not_seen": (BY_PART + SAME_SUM, "its test passes"),
    "not_seen_by_a_crate": (BY_CRATE + SAME_SUM, "its test passes"),
    "other_reason": (
        seen_by("tests/part PROGRAM", "sums: above") + OTHER_SUM,
        "fails for another reason: FAILED sums: next",
    ),
    "other_reason_of_a_crate": (
        BY_CRATE + "fails: products\n" + OTHER_SUM,
        "fails for another reason: sums FAILED",
    ),
    "hangs": (BY_PART + sum_with(9), "its test has not ended"),
    "not_proved": (
        BY_PART + OTHER_SUM.replace("n + 2", "n + 1000"),
        "it is not proved: fn tiny::next: not proved",
    ),
    "fails_anyway": (
        seen_by("tests/broken PROGRAM") + OTHER_SUM,
        "does not pass without an edit: it fails: FAILED",
    ),
    "breaks_off": (
        seen_by("tests/off PROGRAM") + OTHER_SUM,
        "does not pass without an edit: it breaks off",
    ),
    "no_command": (
        seen_by("tests/none PROGRAM") + OTHER_SUM,
        "is neither a test of a crate nor",
    ),
    "no_test": ("seen by: tiny\n" + OTHER_SUM, "names no test of tiny"),
    "no_reason": (
        "seen by: tests/part PROGRAM\n" + OTHER_SUM,
        "it lacks the head line 'fails:'",
    ),
    "no_head": (OTHER_SUM, "it lacks a head line"),
    "no_text": (BY_PART + OTHER_SUM.replace("n + 1", "n + 3"), "stands 0 times"),
    "no_code": (
        BY_PART + "file: specs/Lib.antt\nold: pub mod Moves\nnew: mod Moves\n",
        "no file of src/ or proofs/",
    ),
}


@pytest.fixture
def tested(repository: Path, top: Path) -> Path:
    """Returns the repository with edits that a test must see."""
    for name, text in (
        ("builder", BUILDER),
        ("tests/part", PART),
        ("tests/broken", BROKEN),
        ("tests/off", BREAKS_OFF),
        ("tests/conftest.py", OPTION),
        ("tests/test_sums.py", SUMS),
    ):
        write(repository / name, text, 0o755)
    (repository / ".venv").symlink_to(top / ".venv")
    write(repository / "crates" / "crnsim" / "src" / "main.rt", "")
    for name, (text, _) in TESTED.items():
        head = f"what: A wrong {name}.\n" if name != "no_head" else ""
        write(repository / "crates" / "tiny" / "tested" / f"{name}.edit", head + text)
    return repository


def test_edits_that_a_test_must_see(tested: Path, check_all: CheckAll) -> None:
    """Each edit is seen, or fails as it must; so do the last line and the status."""
    wanted = {edit: part for edit, (_, part) in TESTED.items()}
    status, lines = run_tool(
        tested, "--tested", "--builder", tested / "builder", "--limit", "20"
    )

    def cases() -> Iterator[Case]:
        for edit, part in wanted.items():
            yield edit, of_edit(edit, lines, part)
            seen = any(line.startswith(f"tiny/{edit}: seen, ") for line in lines)
            yield f"{edit} is {'not ' if part else ''}seen", seen == (not part) or str(
                lines
            )
        yield "the last line", lines[-1] == last_line(wanted) or lines[-1]
        yield "the status", status == 1 or str(status)

    check_all(cases())


@pytest.mark.parametrize(
    "name, text, wanted",
    [
        ("crates/tiny/README.md", "More.\n", "[0-9a-f]{64}"),
        ("crates/tiny/src/lib.rt", f"{CODE}\n", "none"),
        ("crates/tiny/out/rlib/stamp", "of rt check", "of rt check"),
    ],
    ids=["all_is_as_built", "a_file_has_changed", "of_rt_check"],
)
def test_libraries_that_rt_ci_has_left(
    tested: Path, name: str, text: str, wanted: str
) -> None:
    """They count as built, unless a file has changed since; those of `rt check` have a stamp of their own."""
    write(
        tested / "crates" / "tiny" / "out" / "rlib" / "tiny.rlib" / "format",
        "rattle rlib\n",
    )
    write(tested / name, text)
    write(
        tested / "looks",
        f"#!/bin/sh\ncat ../tiny/out/rlib/stamp > {tested}/found || echo none > {tested}/found\n",
        0o755,
    )
    run_tool(
        tested, "--tested", "--names", "seen_by_a_crate", "--builder", tested / "looks"
    )
    assert re.fullmatch(wanted, (tested / "found").read_text("utf-8").strip())


def test_list_of_edits_that_a_test_must_see(tested: Path) -> None:
    """The list has a row for each."""
    row = "| `tiny` | `tested` | `seen` | A wrong seen. | `tests/part PROGRAM`: sums: next |"
    assert row in run_tool(tested, "--list").lines


def test_tested_edits_are_not_run_unasked(tested: Path) -> None:
    """Without its word the tool runs no edit that a test must see."""
    assert run_tool(tested).lines[-1] == "0 passed, 1 failed (0 judged, 0 kept)"
