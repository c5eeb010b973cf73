"""A repository with a small crate, in which tools/rounds.py runs, and what it says of an edit."""
from __future__ import annotations

import os
import shutil
import subprocess
from collections.abc import Callable, Iterator
from pathlib import Path
from typing import NamedTuple

Case = tuple[str, object]
CheckAll = Callable[[Iterator[Case]], None]
CODE = """//! Small functions with contracts.
#![tactic(auto)]

ghost use Rattle.std.specs.Prelude.{◌≡◌, ◌+◌, ◌<◌};
ghost use Rattle.tiny.specs.Moves.{place_after};

const STEP: u64 = 2;

pub fn next(n: u64) -> u64
    requires { n < 1000 }
    ensures { result ≡ n + 1 }
{
    n + 1
}

pub fn following(n: u64) -> u64
    requires { n < 1000 }
    ensures { result ≡ n + 1 }
{
    1 + n
}

pub fn above(n: u64) -> u64
    requires { n < 1000 }
    ensures { result ≡ n + 3 }
{
    let first = next(n);
    first + 2
}

pub fn last(n: u64) -> u64
    requires { n < 1000 }
    ensures { result ≡ n + 1 }
{
    let one = next(n);
    one
}

pub fn step() -> u64
    ensures { result ≡ 2 }
{
    STEP
}

#[derive(Clone, Copy)]
pub enum Way {
    Up,
    Down,
    Stay,
}

pub fn moved(way: Way, n: u64) -> u64
    requires { n < 1000 }
    ensures { result ≡ place_after way n }
{
    match way {
        Way::Up => n + 1,
        Way::Down => n + 2,
        Way::Stay => n,
    }
}
"""
MOVES = """-- Where one stands after a move.
use Rattle.std.specs.Prelude.{ℕ, ◌+◌}
use Rattle.tiny.specs.declared.Way.{Way}
use Rattle.tiny.specs.declared.Way.TheVariants as way

abbrev pub place_after : Way → ℕ → ℕ
place_after way.Up n = n + 1
place_after way.Down n = n + 2
place_after way.Stay n = n
"""
ANSWERS = """use Rattle.std.proofs.Common.{◌≡◌, ◌+◌, arith}
use Rattle.tiny.proofs.above.Goals as goal

first_is : (c : goal.After-next-first) → c.next-first.result ≡ c.args.n + 1
first_is c = c.next-first.ensures

pub returns : goal.returns
returns c = omega (arith, first_is c)
"""
# An answer that is a fact, and not a tactic.
FACT = """use Rattle.tiny.proofs.last.Goals as goal

pub returns : goal.returns
returns c = c.next-one.ensures
"""


class Said(NamedTuple):
    """What the tool says: its status and its lines."""

    status: int
    lines: list[str]


def write(path: Path, text: str, mode: int = 0o644) -> None:
    """Writes a file."""
    path.parent.mkdir(parents=True, exist_ok=True)
    path.write_text(text, "utf-8")
    path.chmod(mode)


def make_repository(room: Path, top: Path) -> None:
    """Makes a repository with the small crate and the tool, and proves the crate."""
    for tool in ("rounds.py", "edits.py", "tested.py", "refused.py"):
        (room / "tools").mkdir(parents=True, exist_ok=True)
        shutil.copy2(top / "tools" / tool, room / "tools")
    write(room / "crates.txt", "tiny:\n")
    crate = room / "crates" / "tiny"
    write(crate / "src" / "lib.rt", CODE)
    write(crate / "specs" / "Lib.antt", "pub mod Moves\n")
    write(crate / "specs" / "Moves.antt", MOVES)
    write(crate / "proofs" / "above" / "Answers.antt", ANSWERS)
    write(crate / "proofs" / "last" / "Answers.antt", FACT)
    (room / ".git").mkdir()
    ran = subprocess.run(
        ["rt", "check"],
        cwd=crate,
        stdin=subprocess.DEVNULL,
        capture_output=True,
        text=True,
        check=False,
    )
    assert ran.returncode == 0, f"the small crate is not proved: {ran.stdout[-400:]}"


def run_tool(repository: Path, *words: str | Path) -> Said:
    """Runs the tool with these words."""
    done = subprocess.run(
        [repository / "tools" / "rounds.py", *words],
        stdin=subprocess.DEVNULL,
        stdout=subprocess.PIPE,
        stderr=subprocess.STDOUT,
        text=True,
        check=False,
        env={**os.environ, "XDG_CACHE_HOME": str(repository / "caches")},
    )
    return Said(done.returncode, done.stdout.splitlines())


def of_edit(edit: str, lines: list[str], part: str) -> bool | str:
    """Returns the verdict on what is said of an edit: nothing if it passes, else one failure with this part."""
    said = [line for line in lines if line.startswith(f"FAILED tiny/{edit}: ")]
    return (
        not said if not part else len(said) == 1 and part in said[0]
    ) or f"it says {said or lines}"


def last_line(wanted: dict[str, str]) -> str:
    """Returns the last line, by what becomes of each edit, if none is kept."""
    failed = sum(map(bool, wanted.values()))
    return (
        f"{len(wanted) - failed} passed, {failed} failed ({len(wanted)} judged, 0 kept)"
    )
