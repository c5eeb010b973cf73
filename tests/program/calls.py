"""What calls of the crates take: python -m tests.program.calls writes the table anew.

The calls are made by tests of the crates, as the gate has built them, and calls.csv has their figures: the allocations
and the bytes that they ask for, and the threads that are started (counted by tests/preload.c). Most are of calls that
no command makes, such as `run_plain`, which could allocate more than they need and nothing else would show it.
"""
from __future__ import annotations

import tempfile
from pathlib import Path

from tests import preload
from tests.runs import TOP, library, run

HERE = Path(__file__).resolve().parent
TABLE = HERE / "calls.csv"
HEAD = """# What tests of the crates take. calls.py says what each column has.
# A figure changes only by a commit that says why: python -m tests.program.calls
"""
COLUMNS = ("allocations", "bytes", "threads")
# What is called, and by which test of which crate.
CALLS = {
    "Checkpoint::start": ("tests_model", "sequential::start_of_the_base_scenario"),
    "run_plain": ("tests_model", "sequential::base_scenario"),
    "run_plain up to a block": ("tests_model", "sequential::two_legs"),
    "State::copy": ("tests_model", "stock::copied"),
    "State::restore": ("tests_model", "stock::restored"),
    "Weights::new": ("tests_model", "draw::items_of_examples"),
    "Pair::of": ("tests_model", "pair::three_replications"),
    "first_blocks": ("uses", "tests::a_reader_takes_some_blocks_or_all"),
    "run_for": ("uses", "tests::a_run_stops_after_a_block"),
}


def figures_of(call: str, built: Path, room: Path) -> dict[str, str]:
    """Returns the figures of the test that makes a call, by their columns. It must pass."""
    crate, test = CALLS[call]
    program = TOP / "crates" / crate / "out" / f"{crate}_tests"
    assert (
        program.exists()
    ), f"there are no tests {program}: run `rt test` in crates/{crate}"
    shown = run(
        program, [test], environment=preload.environment(built, room / "counts")
    )
    assert shown.status == 0 and shown.output.endswith(b"\ntest result: ok\n"), shown
    counts = preload.counts_of(room / "counts")
    assert counts is not None
    return {it: str(getattr(counts, it)) for it in COLUMNS}


def stored_rows() -> dict[str, dict[str, str]]:
    """Returns the stored figures of each call by its name."""
    header, *rows = (
        it.split(";")
        for it in TABLE.read_text("ascii").splitlines()
        if not it.startswith("#")
    )
    return {row[0]: dict(zip(header[1:], row[1:], strict=True)) for row in rows}


def main() -> None:
    """Writes the table anew."""
    with tempfile.TemporaryDirectory(prefix="crnsim-") as folder:
        built, rows = library(HERE.parent / "preload.c", Path(folder)), []
        for call in CALLS:
            figures = figures_of(call, built, Path(folder))
            rows.append(";".join([call, *(figures[it] for it in COLUMNS)]))
    TABLE.write_text(
        HEAD + "\n".join([";".join(["call", *COLUMNS]), *rows]) + "\n", "ascii"
    )


if __name__ == "__main__":
    main()
