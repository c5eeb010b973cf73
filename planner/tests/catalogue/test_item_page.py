"""Tests the page of an item of a catalogue: its figures, what has no page, and that each has a file of its own."""
from __future__ import annotations

import contextlib
import re
import shutil
import sqlite3
from collections.abc import Callable
from pathlib import Path

import pytest
from hypothesis import example, given, strategies as st

import crnplan
from crnplan import plan
from crnplan.errors import CrnplanError, Refused
from crnplan.show.catalogue_page import file_name, file_of, report
from crnplan.catalogues import read_catalogue
from crnplan.plan.catalogue import ANSWERS
from crnplan.read.catalogue_reading import READ
from planner.tests.catalogue.conftest import FILES
from planner.tests.catalogue.made import IDLE, NO_PLAN, TODAY, made, teaching
from planner.tests.conftest import rows_of, script, shared
from planner.tests.planned_tables import runs_of, whole_rows
from planner.tests.show.page_reader import Page

PAIRS = "Today's and the chosen policy, as in decisions.csv and details.csv"
ALL = "All policies in the long run"
# The rows of the table of both policies, and the columns of both tables without the policy's name.
COLUMNS = {
    "s": "s",
    "S": "S",
    "cost a week": "cost",
    "met at once": "fill",
    "mean stock": "stock",
    "value of the mean stock": "value",
    "orders a week": "orders",
}
SAVINGS = {
    "saving a week": "saving",
    "saving a week, by crnsim": "run_saving",
    "its low end": "run_low",
    "its high end": "run_high",
}

NAMES = st.text(st.characters(blacklist_categories=["Cs"]), min_size=1, max_size=60)
# Names that a careless spelling would give one file, or a file elsewhere.
LIKE = st.text("aA%~./\\41 ", min_size=1, max_size=6)


def plain(text: str) -> str:
    """Returns a number of the page without separators of thousands, and with a plain minus sign."""
    return text.replace(",", "").replace("\u2212", "-")


def negated(text: str) -> str:
    return (
        text.lstrip("-") if text.startswith("-") or not text.strip("0.") else f"-{text}"
    )


def spoken(text: str) -> str:
    """Returns a saving in words."""
    return f"{text.lstrip('-')} {'more' if text.startswith('-') else 'less'}"


def item_page(folder: Path, name: str, program: Path) -> Path:
    report(folder, [name], program=program)
    return file_of(folder, name)


@pytest.fixture(scope="module")
def folder(planned: Path, tmp_path_factory: pytest.TempPathFactory) -> Path:
    """Returns a copy of the planned folder, in which pages may stand."""
    return Path(shutil.copytree(planned, tmp_path_factory.mktemp("pages") / "plan"))


@pytest.fixture(scope="module")
def names(folder: Path) -> list[str]:
    """Returns an item of each verdict, with and without a backlog cost, with returns, and with several lead times."""
    rows = rows_of(folder / "decisions.csv")
    special = [name for name in ("A-000", "A-005", "A-006") if name in rows]
    kinds = {
        (rows[name]["verdict"], bool(rows[name]["fill_wanted"])): name
        for name in [*rows, *special]
        if name != IDLE
    }
    return sorted({*kinds.values(), *special})


@pytest.fixture(scope="module")
def pages(folder: Path, names: list[str], program: Path) -> dict[str, Page]:
    return {name: Page(item_page(folder, name, program)) for name in names}


def test_figures_are_those_of_the_tables(folder: Path, pages: dict[str, Page]) -> None:
    """All figures of the tables are there to the digit. A cost by crnsim is in the middle of its interval."""
    decisions, runs = whole_rows(folder), runs_of(folder)
    # No run of one item stands for a plan of several.
    assert not (folder / "scenario.toml").exists()
    for name, page in pages.items():
        row, shown, words = (
            decisions[name],
            {it[0]: it for it in page.tables[ALL]},
            plain(page.words),
        )
        wanted = [
            [words, row[f"{it}_today"] or "-", row[f"{it}_chosen"] or "-"]
            for words, it in COLUMNS.items()
        ]
        wanted += [[words, "", row[it] or "-"] for words, it in SAVINGS.items()]
        assert page.tables[PAIRS][1:] == wanted
        beside = file_of(folder, name).with_suffix(".toml").read_text("utf-8")
        assert "".join(page.parts["scenario"]) == beside
        report = [line.split(",") for line in "".join(page.parts["report"]).split()]
        totals = {cells[0]: cells[3] for cells in report}
        for policy in ("today", "chosen"):
            total = getattr(runs[name][1], f"total_{policy}")
            assert totals.get(policy, totals["today"]) == str(total)
        version = 2 if name == "A-006" else 1  # This item alone has returns.
        key = runs[name][1].key
        assert f"Key {key}; scenario of version {version}. " in page.words
        assert f"Written by crnplan {crnplan.__version__}." in page.words
        assert f"Below {row['s_chosen']} order up to {row['S_chosen']}: " in words
        for policy in ("today", "chosen") if row["verdict"] != "same" else ("today",):
            cells = [plain(it) for it in shown[policy]]
            assert cells[:3] == [policy, row[f"s_{policy}"], row[f"S_{policy}"]]
            assert cells[3 if row["by"] == "theory" else 8] == row[f"cost_{policy}"]
        if row["verdict"] != "same":
            assert f"policy costs {spoken(row['saving'])} a week than today's " in words
        if row["verdict"] != "same" and row["run_low"]:
            mean, low, high = (
                negated(row[it]) for it in ("saving", "run_high", "run_low")
            )
            assert any(
                plain(it).startswith(f"chosen: {mean} from {low} to {high} ")
                for it in page.pictures
            )
            assert (
                f"from {spoken(row['run_low'])} to {spoken(row['run_high'])} at 95%"
                in words
            )
        for *_, cost, ends in page.tables[ALL][1:]:
            if "-" not in plain(ends).split(" to ")[0]:
                low, high = (float(plain(it)) for it in ends.split(" to "))
                assert abs((low + high) / 2 - float(plain(cost))) <= 1e-4


def forget(folder: Path) -> None:
    """Changes what the plan of an item depends on, as if a row had changed since."""
    with contextlib.closing(sqlite3.connect(folder / READ)) as base, base:
        base.execute("UPDATE items SET setup = '1/3' WHERE name = 'A-040'")


REFUSED: dict[str, tuple[str, Callable[[Path], object], str]] = {
    "no such item": (
        "A-04",
        lambda folder: None,
        "there is no item 'A-04'; did you mean 'A-0",
    ),
    "left out": (
        "A-031",
        lambda folder: None,
        "item 'A-031' is left out: Artikel.csv:",
    ),
    "not planned": (
        NO_PLAN,
        lambda folder: None,
        "it could not be planned: costs: these are too far apart",
    ),
    "changed": (
        "A-040",
        forget,
        "its plan is not as the rows that were read last; run crnplan plan again",
    ),
    "no plan": (
        "A-040",
        lambda folder: (folder / ANSWERS).unlink(),
        "no plan is in it; run crnplan ",
    ),
    "no folder": ("A-040", shutil.rmtree, "no plan is in it; run crnplan plan"),
}


@pytest.mark.parametrize("case", REFUSED)
def test_refused(case: str, planned: Path, tmp_path: Path, program: Path) -> None:
    """What has no page is refused with one message that names the folder, and nothing is written."""
    name, change, part = REFUSED[case]
    folder = Path(shutil.copytree(planned, tmp_path / "plan"))
    change(folder)
    with pytest.raises(Refused) as refused:
        item_page(folder, name, program)
    assert (
        part in str(refused.value)
        and str(folder) in str(refused.value)
        and "\n" not in str(refused.value)
    )
    assert not (folder / "items").exists()


def test_other_program(
    folder: Path, names: list[str], tmp_path: Path, program: Path
) -> None:
    other = script(
        tmp_path / "other",
        f"{program} \"$@\" | sed 's/^\\(today,[^,]*,[^,]*,\\)/\\11/'",
    )
    with pytest.raises(
        CrnplanError, match="gives other totals than the plan has|total"
    ):
        item_page(folder, names[0], other)


def parts_of(page: Page) -> tuple[str, str]:
    """Returns the source of a page without what is folded away for statisticians, and that."""
    before, _, rest = page.source.partition("<details>")
    folded, _, after = rest.partition("</details>")
    assert folded.strip().startswith("<summary>For statisticians</summary>")
    return before + after, folded


@pytest.fixture(scope="module")
def learned(tmp_path_factory: pytest.TempPathFactory, program: Path) -> Path:
    """Returns a planned folder whose items learn from one another. Few of them have a plan."""

    def make(place: Path) -> None:
        source = teaching(made(), ("A-034", "A-035", "A-036", "A-038"))
        read = read_catalogue(*(source.write(place) / it for it in FILES), today=TODAY)
        words = {"borrow": "all", "periods": 16, "replications": 2, "confidence": 0.8}
        plan(read, out=place / "plan", jobs=1, program=program, **words)

    return shared(tmp_path_factory, "learned", make) / "plan"


def test_learned_law_stands_beside_the_items_own(learned: Path, program: Path) -> None:
    """The page names the learned law, and has that of the item alone in table and picture."""
    rows = whole_rows(learned)
    name = next(
        it
        for it, row in rows.items()
        if row["law"] == "borrowed" and row["s_alone"] and row["fill_wanted"]
    )
    page = Page(item_page(learned, name, program))
    laws = [row[1] for row in page.tables["Figures of the laws"][1:]]
    assert laws[:3][1].startswith("the law learned from all items of the catalogue")
    assert laws[2] == "the law of this item alone"
    picture = next(
        text
        for title, text in page.pictures.items()
        if title.startswith("In how many weeks")
    )
    assert "the law of this item alone: " in picture
    open_words, folded = parts_of(page)
    assert (
        "Demand is planned by the law learned from all items of the catalogue"
        in open_words
    )
    assert (
        "10^" in folded
        and "10^" not in open_words
        and "guard" not in open_words.casefold()
    )
    assert "Learned from the whole catalogue" in folded
    row = rows[name]
    levels = [
        f"({row[f's_{it}']}, {row[f'S_{it}']})" for it in ("today", "chosen", "alone")
    ]
    assert len({*levels}) < 3 or [row["s_alone"], row["S_alone"]] in [
        it[1:3] for it in page.tables[ALL]
    ]
    assert re.search(r"A fill rate of \d+(\.\d+)?% is wanted", page.words)


@given(st.lists(NAMES | LIKE, min_size=2, max_size=8, unique=True))
@example(["a", "A", "a~1", "A~1", "%41", "~", "%7E", ".", "..", "%2E."])
@example(["x" * 200, "x" * 201, "X" * 200, "x" * 120, "x" * 119])
def test_names_that_differ_have_files_that_differ(names: list[str]) -> None:
    """Each item has a file of its own, of plain ASCII, also where the case of letters is ignored."""
    files = [file_name(it) for it in names]
    assert len({it.lower() for it in files}) == len(files)
    assert all(
        re.fullmatch("[A-Za-z0-9_%-][A-Za-z0-9_.%~-]*[.]html", it) and len(it) <= 200
        for it in files
    )


@given(NAMES | LIKE)
def test_file_stands_in_its_folder(name: str) -> None:
    folder = Path("/plan")
    assert file_of(folder, name).resolve().parent == folder / "items"


@pytest.mark.parametrize(
    "name, wanted",
    [
        ("P01118", "P01118.html"),
        ("A-1_2.5", "A-1_2.5.html"),
        ("M8/40", "M8%2F40.html"),
        ("Ä", "%C3%84.html"),
        ("../B", "%2E.%2FB.html"),
        ("Ab", "Ab~2.html"),
        ("ab", "ab~3.html"),
        ("A~", "A%7E.html"),
    ],
)
def test_spelling(name: str, wanted: str) -> None:
    """An item number in capitals stays as it is."""
    assert file_name(name) == wanted
