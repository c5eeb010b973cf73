"""tools/rounds.py fails when it must.

A small crate is proved in a temporary repository and given wrong implementations, one set after another. Those that are
refused for a reason of their own pass, and every other kind fails by its name.
"""
from __future__ import annotations

from collections.abc import Iterator
from pathlib import Path

import pytest

from tests.rounds.small_crate import Case, CheckAll, last_line, of_edit, run_tool, write

# Provers that give no verdict: one that crashes, one that does not end, one that ends with no last line.
CRASHES = "#!/bin/sh\nkill -SEGV $$\n"
HANGS = "#!/bin/sh\nexec sleep 600\n"
# An error of a proof file that says in its next line that a name is gone.
TELLS_IN_TWO_LINES = """#!/bin/sh
cat << END
./proofs/above/Answers.antt:3:5: error: \\`returns\\`: module \\`Rattle.tiny.proofs.above.Goals\\`
  has no \\`returns\\` that can be named from here
fn tiny::above: no proof: expected answers in ./proofs/above/Answers.antt
logic=not-proved
END
exit 1
"""
IS_SILENT = "#!/bin/sh\necho 'fn tiny::next: not proved'\nexit 1\n"
# A prover that says of the second of three functions, and of the third, only that they call the first.
HIDES = """#!/bin/sh
count=0
for word; do
    [ "$before" = --only ] && count=$((count + 1)) && functions="$functions $word"
    before=$word
done
for function in $functions; do
    echo "fn tiny::$function: ${says:-\\`search\\` did not prove \\`returns\\`}"
    [ $count -gt 2 ] && says="no proof: it calls \\`tiny::above\\`, which is not proved"
done
echo logic=not-proved
exit 1
"""
# No prover but the kit's, and no control first.
NO_CONTROL = ""

# Each edit: the function that is to refuse it, the old text and the new one.
TWO_MORE = ("next", "    n + 1\n", "    n + 2\n")
OTHER_FOLLOWS = ("following", "    1 + n\n", "    2 + n\n")
HARMLESS = ("following", "    1 + n\n", "    n + 1\n")
OTHER_CONSTANT = ("step", "const STEP: u64 = 2;\n", "const STEP: u64 = 3;\n")
SAME_CONSTANT = ("step", "const STEP: u64 = 2;\n", "const STEP: u64 = 1 + 1;\n")
ANOTHER_SUM = ("above", "    first + 2\n", "    first + 1\n")
ANOTHER_NAME = (
    "above",
    "    let first = next(n);\n    first + 2\n",
    "    let second = next(n);\n    second + 2\n",
)
MISFIT = ("last", "    one\n", "    one - 1\n")
ONLY_ABOVE = ("above", "    n + 1\n", "    n + 2\n")
UP = ("moved, arm Up", "        Way::Up => n + 1,\n", "        Way::Up => n + 2,\n")
DOWN = (
    "moved, arm Down",
    "        Way::Down => n + 2,\n",
    "        Way::Down => n + 1,\n",
)
HARMLESS_STAY = (
    "moved, arm Stay",
    "        Way::Stay => n,\n",
    "        Way::Stay => n + 0,\n",
)
UP_AS_STAY = (
    "moved, arm Stay",
    "        Way::Up => n + 1,\n",
    "        Way::Up => n + 2,\n",
)
ENDLESS = (
    "next, measure",
    "    n + 1\n",
    "    let mut k = n; while k > 0 { k = n; } n + 1\n",
)
ENDLESS_ALONE = (
    "next",
    "    n + 1\n",
    "    let mut k = n; while k > 0 { k = n; } n + 1\n",
)
NO_TYPE = ("following", "    1 + n\n", "    1 + true\n")
NO_FUNCTION = ("follows", "    1 + n\n", "    2 + n\n")
NO_TEXT = ("following", "    3 + n\n", "    2 + n\n")

# Each case: its name, the edits by name, what becomes of each ("" if it passes, else a part of the message), and a
# prover.
CASES = [
    # Together, since a check takes long however little it checks.
    (
        "edits that are refused, of functions, of arms and of a constant, and edits that show nothing",
        {
            "next": TWO_MORE,
            "again": ("next", "    n + 1\n", "    n\n"),
            "following": OTHER_FOLLOWS,
            "above": ANOTHER_SUM,
            "constant": OTHER_CONSTANT,
            "up": UP,
            "down": DOWN,
            "endless": ENDLESS,
            "harmless": HARMLESS,
            "same_constant": SAME_CONSTANT,
            "name": ANOTHER_NAME,
            "only_above": ONLY_ABOVE,
            "text": NO_TEXT,
            "function": NO_FUNCTION,
            "stay": HARMLESS_STAY,
            "other_arm": UP_AS_STAY,
            "alone": ENDLESS_ALONE,
            "sum": ("following, measure", *OTHER_FOLLOWS[1:]),
            "misfit": MISFIT,
            "misfit_by_hand": MISFIT,
            "open_by_hand": TWO_MORE,
            "harmless_by_hand": HARMLESS,
        },
        {
            "next": "",
            "again": "",
            "following": "",
            "above": "",
            "constant": "",
            "up": "",
            "down": "",
            "endless": "",
            "harmless": "it is not refused: following is still proved",
            "same_constant": "it is not refused: step is still proved",
            "name": "above is refused only because its proof file names what the edit took away",
            "only_above": "above is not refused by itself",
            "text": "stands 0 times",
            "function": "there is no function follows",
            "stay": "it is not refused: moved is still proved",
            "other_arm": "no goal of the arm Stay of moved is open",
            "alone": "next has no open goal of its own",
            "sum": "following has no open goal of its own",
            "misfit": "last is refused only because an answer does not fit the goal that the edit has changed",
            "misfit_by_hand": "",
            "open_by_hand": "a goal of next is open, so tools/by_hand.toml must not list it",
            "harmless_by_hand": "it is not refused: following is still proved",
            "gone_by_hand": "tools/by_hand.toml lists it, and there is no such edit",
        },
        None,
    ),
    (
        "edits that are hidden by one that does not compile",
        {"type": NO_TYPE, "next": TWO_MORE, "above": ANOTHER_SUM},
        {"type": "its check ended with status", "next": "", "above": ""},
        None,
    ),
    (
        "a name that is gone, which the second line of an error says",
        {"above": ANOTHER_SUM},
        {
            "above": "above is refused only because its proof file names what the edit took away"
        },
        TELLS_IN_TWO_LINES,
    ),
    (
        "names of functions that are not there, without a control",
        {
            "next": TWO_MORE,
            "function": NO_FUNCTION,
            "other": ("folows", "    1 + n\n", "    3 + n\n"),
            "above": ANOTHER_SUM,
        },
        {
            "next": "",
            "function": "there is no function follows",
            "other": "there is no function folows",
            "above": "",
        },
        NO_CONTROL,
    ),
    (
        "edits that one hides, which then share a check",
        {"next": TWO_MORE, "following": OTHER_FOLLOWS, "above": ANOTHER_SUM},
        {"next": "", "following": "", "above": ""},
        HIDES,
    ),
    (
        "a prover that crashes",
        {"next": TWO_MORE},
        {"next": "its check was killed by signal 11"},
        CRASHES,
    ),
    (
        "a prover that is cut off",
        {"next": TWO_MORE},
        {"next": "its check was killed by signal 9"},
        HANGS,
    ),
    (
        "a prover that ends without a verdict",
        {"next": TWO_MORE},
        {"next": "and no verdict"},
        IS_SILENT,
    ),
]


def edit_text(function: str, old: str, new: str) -> str:
    """Returns the text of an edit: a pair for each of its lines."""
    pairs = zip(old.rstrip("\n").split("\n"), new.rstrip("\n").split("\n"))
    changed = "".join(
        f"old: {one}\nnew: {other}\n" for one, other in pairs if one != other
    )
    return f"what: A wrong {function}.\nrefused by: {function}\nfile: src/lib.rt\n{changed}"


@pytest.mark.timeout(1200)
@pytest.mark.parametrize(
    "edits, wanted, prover",
    [pytest.param(*it[1:], id=it[0].replace(" ", "_")) for it in CASES],
)
def test_wrong_implementations(
    repository: Path,
    check_all: CheckAll,
    edits: dict[str, tuple[str, str, str]],
    wanted: dict[str, str],
    prover: str | None,
) -> None:
    """Each edit passes or fails as it must, and so do the last line and the status."""
    for name, edit in edits.items():
        write(
            repository / "crates" / "tiny" / "wrong" / f"{name}.edit", edit_text(*edit)
        )
    listed = [it for it in wanted if it.endswith("_by_hand")]
    write(
        repository / "tools" / "by_hand.toml",
        "[tiny]\n" + "".join(f'{it} = "It is false."\n' for it in listed),
    )
    words: list[str | Path] = ["--proved"] * (prover is not None)
    if prover:
        write(repository / "prover", prover, 0o755)
        words += ["--prover", repository / "prover", "--limit", "3"]
    status, lines = run_tool(repository, *words)

    def cases() -> Iterator[Case]:
        yield from ((edit, of_edit(edit, lines, part)) for edit, part in wanted.items())
        if prover in (NO_CONTROL, HIDES):
            yield "the others share a check", any(
                it.startswith("tiny: 2 edits, ") for it in lines
            ) or str(lines)
        if listed:
            yield "the reason", "tiny/misfit_by_hand, judged by hand: It is false." in lines or str(
                lines
            )
            yield "the count", "1 of the edits are judged by hand (tools/by_hand.toml)" in lines or str(
                lines
            )
        yield "the last line", lines[-1] == last_line(wanted) or lines[-1]
        yield "the status", status == any(wanted.values()) or str(status)

    check_all(cases())


def test_no_edits(repository: Path) -> None:
    """No edit at all is a failure."""
    status, lines = run_tool(repository)
    assert (status, lines[-1]) == (1, "0 passed, 1 failed (0 judged, 0 kept)")


def test_edit_without_a_head(repository: Path) -> None:
    """An edit without its head is a failure."""
    write(
        repository / "crates" / "tiny" / "wrong" / "bare.edit",
        "file: src/lib.rt\nold:     n + 1\nnew:     n + 2\n",
    )
    assert any(
        "FAILED tiny/bare: it lacks a head line" in line
        for line in run_tool(repository).lines
    )
