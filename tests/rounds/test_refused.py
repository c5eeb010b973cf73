"""tools/rounds.py judges an edit again after each change that its verdict depends on, and not before.

The prover is a script that refuses each edit as long as a file says so. First it refuses the edit; then it would prove
it. The edit passes by its kept verdict until something changes, and then fails. So each change that the digest misses
is seen.
"""
from __future__ import annotations

import json
import os
import subprocess
from collections.abc import Callable
from dataclasses import dataclass, field
from pathlib import Path
from shutil import copy2, which

import pytest

from tests.rounds.small_crate import Said, write

LOW = """//! A constant.
pub fn step() -> u64
    ensures { result ≡ 2 }
{
    2
}
"""
TINY = """//! Two sums.
pub fn next(n: u64) -> u64
    requires { n < 1000 }
    ensures { result ≡ n + 1 }
{
    n + 1
}

pub fn above(n: u64) -> u64
    requires { n < 1000 }
    ensures { result ≡ n + 3 }
{
    next(n) + 2
}
"""
# The words of the check that name functions, and a verdict on each; and the kept work, of which it says what it finds.
PROVER = """#!/bin/sh
echo "$*" >> {room}/asked
read -r verdict < {room}/verdict
case $verdict in crashes) kill -SEGV $$ ;; esac
for word; do
    case $before in
    --only) echo "fn tiny::$word: $verdict" ;;
    --incremental)
        mkdir -p "$word"
        echo $(ls "$word") >> {room}/found
        touch "$word/proved" ;;
    esac
    before=$word
done
case $verdict in proved) echo logic=proved; exit 0 ;; esac
echo logic=not-proved
exit 1
"""
REFUSES, PROVES, CRASHES = "search did not prove `returns`", "proved", "crashes"
KIT = '#!/bin/sh\necho "rattle-kit-13b"\n'
NEXT = "what: A wrong sum.\nrefused by: next\nfile: src/lib.rt\nold:     n + 1\nnew:     n + 2\n"
FILES = {
    "crates.txt": "low:\ntiny: low\n",
    "crates/low/src/lib.rt": LOW,
    "crates/low/specs/Lib.antt": "pub mod Steps\n",
    "crates/low/specs/Steps.antt": "-- A step.\n",
    "crates/low/proofs/Lib.antt": "-- Proofs.\n",
    "crates/low/out/rlib/low.rlib/format": "rattle rlib\n",
    "crates/low/out/rlib/low.rlib/lang/a": "fn step\n",
    "crates/tiny/src/lib.rt": TINY,
    "crates/tiny/src/part.rt": "//! A part.\n",
    "crates/tiny/specs/Lib.antt": "pub mod Moves\n",
    "crates/tiny/specs/Moves.antt": "-- A move.\n",
    "crates/tiny/proofs/above/Answers.antt": "-- Answers.\n",
    "crates/tiny/wrong/next.edit": NEXT,
}


@dataclass
class Repository:
    """A repository with two small crates, a kit and a prover."""

    room: Path
    caches: dict[str, str] = field(default_factory=dict)

    @property
    def top(self) -> Path:
        """Returns the folder of the repository."""
        return self.room / "top"

    def make(self, top: Path) -> None:
        """Writes all files."""
        for tool in ("rounds.py", "edits.py", "tested.py", "refused.py"):
            write(
                self.top / "tools" / tool,
                (top / "tools" / tool).read_text("utf-8"),
                0o755,
            )
        for name, text in FILES.items():
            write(self.top / name, text)
        (self.top / ".git").mkdir()
        write(self.room / "prover", PROVER.format(room=self.room), 0o755)
        write(self.room / "kit" / "bin" / "rt", KIT, 0o755)
        write(self.room / "kit" / "WHAT", "a kit\n")
        for library in ("std", "itoa"):
            (self.room / "kit" / "rlibs" / f"{library}.rlib").mkdir(parents=True)
        found = which("rt")
        assert found
        copy2(Path(found).resolve().with_name("rtlib.py"), self.room / "kit" / "bin")
        self.caches = {"XDG_CACHE_HOME": str(self.room / "caches")}

    @property
    def kept(self) -> list[Path]:
        """Returns the files of the kept verdicts."""
        return sorted((self.room / "caches" / "crnsim" / "refused").glob("*"))

    def run(self, verdict: str, *words: str | Path, **more: str) -> Said:
        """Runs the tool with a prover that has this verdict on each function."""
        (self.room / "verdict").write_text(f"{verdict}\n", "utf-8")
        environment = {
            **os.environ,
            "PATH": f"{self.room}/kit/bin:{os.environ['PATH']}",
            **self.caches,
            **more,
        }
        done = subprocess.run(
            [
                self.top / "tools" / "rounds.py",
                "--proved",
                "--prover",
                self.room / "prover",
                *words,
            ],
            stdin=subprocess.DEVNULL,
            stdout=subprocess.PIPE,
            stderr=subprocess.STDOUT,
            text=True,
            check=False,
            env={name: value for name, value in environment.items() if value},
        )
        return Said(done.returncode, done.stdout.splitlines())

    def checks(self) -> int:
        """Returns how many checks there were."""
        return len((self.room / "asked").read_text("utf-8").splitlines())

    def git(self, *words: str) -> None:
        """Runs git, at a time that does not change."""
        who = {
            f"GIT_{it}_{part}": "tiny"
            for it in ("AUTHOR", "COMMITTER")
            for part in ("NAME", "EMAIL")
        }
        when = {
            f"GIT_{it}_DATE": "2026-01-01T00:00:00Z" for it in ("AUTHOR", "COMMITTER")
        }
        alone = {"GIT_CONFIG_GLOBAL": os.devnull, "GIT_CONFIG_SYSTEM": os.devnull}
        subprocess.run(
            ["git", "-C", self.top, *words],
            check=True,
            capture_output=True,
            env={**os.environ, **who, **when, **alone},
        )


@pytest.fixture
def repository(room: Path, top: Path) -> Repository:
    """Returns a repository in which one edit is to be judged."""
    made = Repository(room)
    made.make(top)
    return made


def passed(judged: int, kept: int) -> tuple[int, str]:
    """Returns the status and the last line if all edits pass."""
    return 0, f"{judged + kept} passed, 0 failed ({judged} judged, {kept} kept)"


def failed(judged: int) -> tuple[int, str]:
    """Returns the status and the last line if all edits are judged and fail."""
    return 1, f"0 passed, {judged} failed ({judged} judged, 0 kept)"


def ends(said: Said) -> tuple[int, str]:
    """Returns the status and the last line."""
    return said.status, said.lines[-1]


def appends(name: str, text: str = "-- more\n") -> Callable[[Repository], None]:
    """Returns a change: a text at the end of a file."""

    def change(repository: Repository) -> None:
        path = repository.room / name
        path.write_text(path.read_text("utf-8") + text, "utf-8")

    return change


def replaces(name: str, old: str, new: str) -> Callable[[Repository], None]:
    """Returns a change: a text in place of another."""

    def change(repository: Repository) -> None:
        path = repository.room / name
        text = path.read_text("utf-8")
        assert text.count(old) == 1
        path.write_text(text.replace(old, new), "utf-8")

    return change


def renames(old: str, new: str) -> Callable[[Repository], None]:
    """Returns a change: another name for a file."""

    def change(repository: Repository) -> None:
        (repository.room / old).rename(repository.room / new)

    return change


CHANGES = {
    "what the edit writes": replaces(
        "top/crates/tiny/wrong/next.edit", "n + 2", "n + 5"
    ),
    "the function that the edit names": replaces(
        "top/crates/tiny/wrong/next.edit", "by: next", "by: above"
    ),
    "the code that the edit changes": appends(
        "top/crates/tiny/src/lib.rt", "// more\n"
    ),
    "other code of the crate": appends("top/crates/tiny/src/part.rt", "// more\n"),
    "a name of a file of the crate": renames(
        "top/crates/tiny/src/part.rt", "top/crates/tiny/src/parts.rt"
    ),
    "a contract of the crate": replaces(
        "top/crates/tiny/src/lib.rt", "n + 3 }", "3 + n }"
    ),
    "a definition": appends("top/crates/tiny/specs/Moves.antt"),
    "a proof": appends("top/crates/tiny/proofs/above/Answers.antt"),
    "a contract of the crate below": replaces(
        "top/crates/low/src/lib.rt", "result ≡ 2", "result ≡ 1 + 1"
    ),
    "a definition of the crate below": appends("top/crates/low/specs/Steps.antt"),
    "a proof of the crate below": appends("top/crates/low/proofs/Lib.antt"),
    "the library of the crate below": appends(
        "top/crates/low/out/rlib/low.rlib/lang/a"
    ),
    "what the crate stands on": replaces(
        "top/crates.txt", "tiny: low", "tiny: low itoa"
    ),
    "what the crate below stands on": replaces(
        "top/crates.txt", "low:\n", "low: itoa\n"
    ),
    "the version of the kit": replaces("kit/bin/rt", "kit-13b", "kit-13c"),
    "the prover": appends("prover", "# more\n"),
    "the tool": appends("top/tools/rounds.py", "# more\n"),
    "the reader of edits": appends("top/tools/edits.py", "# more\n"),
    "the tool that keeps": appends("top/tools/refused.py", "# more\n"),
}


@pytest.mark.parametrize(
    "change", CHANGES.values(), ids=[it.replace(" ", "_") for it in CHANGES]
)
def test_edit_is_judged_again_after_a_change(
    repository: Repository, change: Callable[[Repository], None]
) -> None:
    """A kept verdict passes the edit, until something changes: then an edit that is no longer refused fails."""
    assert ends(repository.run(REFUSES)) == passed(1, 0)
    assert ends(repository.run(PROVES)) == passed(0, 1)
    assert repository.checks() == 1
    change(repository)
    said = repository.run(PROVES)
    assert ends(said) == failed(1)
    assert any(
        line.startswith("FAILED tiny/next: it is not refused: ") for line in said.lines
    )
    assert not any("KEPT VERDICT" in line for line in said.lines)


@pytest.mark.parametrize(
    "change",
    [
        appends("top/README.md", "More.\n"),
        appends("top/tools/tested.py", "# more\n"),
        appends("top/planner/item.py", "# more\n"),
        appends("top/crates/tiny/wrong/other.edit", "no edit\n"),
        renames("top", "clone"),
    ],
)
def test_other_changes_leave_verdicts(
    repository: Repository, change: Callable[[Repository], None]
) -> None:
    """What no verdict depends on is no reason to judge again: other files, another edit, the place of the clone."""
    for name in ("README.md", "planner/item.py", "crates/tiny/wrong/other.edit"):
        write(repository.top / name, "")
    repository.run(REFUSES)
    change(repository)
    if (repository.room / "clone").exists():
        (repository.room / "top").symlink_to("clone")
    assert "tiny: 1 edits refused as before, 0 to judge" in repository.run(PROVES).lines


def test_anew_judges_all(repository: Repository) -> None:
    """--anew and --alone read no kept verdict, and say so if one was wrong. It is then no longer kept."""
    repository.run(REFUSES)
    assert ends(repository.run(REFUSES, "--anew")) == passed(1, 0)
    assert ends(repository.run(REFUSES, "--alone")) == passed(1, 0)
    assert any(
        "A KEPT VERDICT SAID THAT IT IS REFUSED" in line
        for line in repository.run(PROVES, "--anew").lines
    )
    assert repository.kept == []
    assert ends(repository.run(PROVES)) == failed(1)


def test_only_refusals_are_kept(repository: Repository) -> None:
    """An edit that fails is judged again, and so is one whose check breaks off."""
    for verdict in (PROVES, CRASHES):
        assert ends(repository.run(verdict)) == failed(1)
        assert repository.kept == []
    repository.run(REFUSES)
    assert ends(repository.run(CRASHES, "--anew")) == failed(1)
    assert len(repository.kept) == 1


@pytest.mark.parametrize(
    "change",
    [
        lambda text: "",
        lambda text: text[:-9],
        lambda text: "[]",
        lambda text: text.replace("did not", "could not"),
        lambda text: text.replace('"sum"', '"some"'),
        lambda text: "null",
        lambda text: json.dumps({**json.loads(text), "goal": None}),
    ],
)
def test_damaged_verdict_is_none(
    repository: Repository, change: Callable[[str], str]
) -> None:
    """A kept verdict is checked when it is read."""
    repository.run(REFUSES)
    (path,) = repository.kept
    path.write_text(change(path.read_text("utf-8")), "utf-8")
    said = repository.run(PROVES)
    assert ends(said) == failed(1)
    assert any("its kept verdict is damaged" in line for line in said.lines)
    assert not any("KEPT VERDICT SAID" in line for line in said.lines)


def test_verdict_under_another_digest_is_none(repository: Repository) -> None:
    """The file of a verdict cannot be used for another edit."""
    repository.run(REFUSES)
    (other,) = repository.kept
    text = other.read_text("utf-8")
    CHANGES["what the edit writes"](repository)
    repository.run(REFUSES)
    for path in repository.kept:
        path.write_text(text, "utf-8")
    assert ends(repository.run(PROVES)) == failed(1)


def test_goals_of_kept_verdicts_are_shown(repository: Repository) -> None:
    """--goals prints the goal that refused an edit, also from a kept verdict."""
    for _ in range(2):
        assert f"tiny/next: {REFUSES}" in repository.run(REFUSES, "--goals").lines


def test_folder_of_verdicts(repository: Repository) -> None:
    """The verdicts are kept in the folder of caches, which is named by a whole path or is in the user's folder."""
    home = repository.room / "home"
    repository.run(REFUSES, XDG_CACHE_HOME="", HOME=str(home))
    assert len(list((home / ".cache" / "crnsim" / "refused").iterdir())) == 1
    repository.run(REFUSES, XDG_CACHE_HOME="caches", HOME=str(home))
    assert len(list((home / ".cache" / "crnsim" / "refused").iterdir())) == 1
    assert repository.checks() == 1 and not (repository.top / "caches").exists()


def test_folder_that_cannot_be_made(repository: Repository) -> None:
    """If nothing can be kept, all is judged, and a line says so."""
    write(repository.room / "caches", "a file\n")
    for _ in range(2):
        said = repository.run(REFUSES)
        assert ends(said) == passed(1, 0)
        assert any(
            line.startswith("verdicts cannot be kept in ") for line in said.lines
        )


def test_old_verdicts_are_removed(repository: Repository) -> None:
    """A verdict that no run has read for sixty days is removed; one that is read is not."""
    repository.run(REFUSES)
    (path,) = repository.kept
    os.utime(path, (0, 0))
    assert ends(repository.run(REFUSES)) == passed(0, 1)
    assert repository.kept == [path]
    CHANGES["a proof"](repository)
    os.utime(path, (0, 0))
    assert ends(repository.run(REFUSES)) == passed(1, 0)
    assert len(repository.kept) == 1 and repository.kept != [path]


def test_rounds_begin_where_the_last_ones_ended(repository: Repository) -> None:
    """What checks have proved is left to the next rounds. With --anew it counts for nothing; the crate's own comes first."""
    for words in ((), (), ("--anew",), ()):
        CHANGES["a proof"](repository)
        repository.run(REFUSES, *words)
    write(repository.top / "crates" / "tiny" / "out" / "incremental" / "own", "")
    CHANGES["a proof"](repository)
    repository.run(REFUSES)
    found = (repository.room / "found").read_text("utf-8")
    assert found.splitlines() == ["", "proved", "", "proved", "own"]


def test_stale_library_is_refused(repository: Repository) -> None:
    """A library that was built of other files is none to judge over."""
    write(
        repository.top / "crates" / "low" / "out" / "rlib" / "stamp", "of other files"
    )
    said = repository.run(REFUSES)
    assert (
        said.status == 1
        and "tiny needs the library low, which is not built of its files"
        in said.lines[-1]
    )


def test_some_are_judged_anew_in_each_commit(repository: Repository) -> None:
    """Of a hundred kept verdicts some five are judged anew in each commit, and others in the next. If the prover
    contradicts one, the run fails and says so."""
    for number in range(99):
        write(
            repository.top / "crates" / "tiny" / "wrong" / f"sum_{number}.edit",
            NEXT.replace("n + 2", f"{number}"),
        )
    repository.run(REFUSES)
    (repository.top / ".git").rmdir()
    repository.git("init", "-q")
    seen: list[set[str]] = []
    for _ in range(3):
        repository.git("commit", "-q", "--allow-empty", "-m", "A step")
        assert repository.run(REFUSES).status == 0
        before = len(repository.kept)
        said = repository.run(PROVES)
        wrong = {
            line.split(": ")[0]
            for line in said.lines
            if line.startswith("FAILED tiny/")
        }
        assert all(
            "A KEPT VERDICT SAID THAT IT IS REFUSED" in line
            for line in said.lines
            if line.startswith("FAILED")
        )
        count = len(wrong)
        assert 1 <= count <= 15 and (said.status, len(repository.kept)) == (
            1,
            before - count,
        )
        assert (
            said.lines[-1]
            == f"{100 - count} passed, {count} failed ({count} judged, {100 - count} kept)"
        )
        seen.append(wrong)
    assert seen[0] != seen[1] != seen[2]
