"""Tests the plan of an item alone: the worked case, its laws and its summary, and the run that can be cited."""
from __future__ import annotations

import re
import subprocess
from pathlib import Path
from typing import NoReturn

import pytest

import crnplan as crn
from crnplan.decide.doubt import Doubt
from crnplan.demand.posterior import allowed_laws, allowed_leads
from crnplan.plan import item
from crnplan.theory.lattice import NoTheory
from crnplan.theory.many_laws import figures_of_laws
from crnplan.theory.suggestions import suggestions_of
from crnplan.sentences import sentence
from planner.tests.conftest import Command
from planner.tests.item.conftest import Alone, page_of
from planner.tests.planned_tables import runs_of
from planner.tests.show.page_reader import Page

PART = "spare part"  # the item of the worked case
LEADS = [2, 3, 2, 4]
SEVERAL = {"lead (weeks)": "2; 3; 2; 4"}


def spoken(text: str) -> str:
    """Returns a text as one line."""
    return " ".join(text.split())


def test_from_data_to_a_run_that_can_be_cited(
    top: Path, tmp_path: Path, crnplan: Command, program: Path
) -> None:
    """The worked case has the best policy of its suggestions, with their figures. The program's report on its scenario is
    that of its page, byte for byte, and has the totals of the plan."""
    case, out = top / "examples/case", tmp_path / "plan"
    used = "--program", program
    tables = case / "history.csv", case / "items.csv"
    for words in (
        ["plan", *tables, "--out", out],
        ["report", out, "--item", PART],
        ["run", out / "scenario.toml", "--out", tmp_path / "report.csv"],
    ):
        told = crnplan(*words, *used)
        assert told.status == 0, told.errors
    page = Page(next(out.glob("items/*.html")))
    report = "".join(page.parts["report"])
    assert (tmp_path / "report.csv").read_text("utf-8") == report
    scenario = (out / "scenario.toml").read_bytes()
    assert "".join(page.parts["scenario"]).encode() == scenario
    assert next(out.glob("items/*.toml")).read_bytes() == scenario
    ran = subprocess.run([program], input=scenario, capture_output=True, check=True)
    assert ran.stdout.decode() == report

    _, run = runs_of(out)[PART]
    cells = [line.split(",") for line in report.splitlines()]
    totals = {name: total for name, _, _, total, *_ in cells}
    wanted = [str(total) for total in (run.total_today, run.total_chosen)]
    assert [totals["today"], totals["chosen"]] == wanted

    suggested = (case / "suggested.txt").read_text("utf-8").splitlines()
    stored = {words[0]: words[1:5] for words in map(str.split, suggested) if words}
    shown = {row[0]: row for row in page.tables["All policies in the long run"]}
    for mine, its in (("today", "today"), ("chosen", "best")):
        s, S, cost, fill = stored[its]
        assert shown[mine][1:4] == [s, S, f"{float(cost):,.0f}"]
        met = float(shown[mine][4].strip("%"))
        assert met == pytest.approx(float(fill.strip("%")), abs=0.06)
    laws = crn.Scenario.read(out / "scenario.toml")
    of_case = crn.Scenario.read(case / "scenario.toml")
    assert (laws.demand, laws.lead) == (of_case.demand, of_case.lead)


def test_laws_that_the_history_allows(alone: Alone, counts: list[int]) -> None:
    """Policies are suggested, and the choice is doubted, by laws that the history and the lead times allow."""
    its = alone(words={"confidence": 0.95}, **SEVERAL)
    names = [policy.name for policy in its.scenario.policies]
    wanted = {row.policy.name: row.policy for row in suggestions_of(its.scenario).rows}
    assert {"fill_95", "fill_99", "fewer_orders"} <= {*names}
    assert any(name.startswith("sure_") for name in names)
    for policy in its.scenario.policies:
        if policy.name in ("fill_95", "fill_99", "fewer_orders"):
            assert wanted[policy.name] == policy
    laws = [*zip(allowed_laws(counts), allowed_leads(LEADS))]
    policies = its.scenario.policies
    found = Doubt(policies, figures_of_laws(its.scenario, laws, policies)).frame
    rows = its.doubt().frame
    for name in ("today", "chosen"):
        assert rows.cost[name] == pytest.approx(found.cost[name], rel=0.05)
    assert (rows.fill_10 <= rows.fill).all()
    said = spoken(its.text)
    assert f"of these {len(names)} policies under " in said
    assert (
        f"The cost to promise is {rows.cost['chosen']:,.2f} a week in the long run, the mean over these laws, if the "
        "coming year is like the last one." in said
    )


def test_no_law_has_a_long_run(
    alone: Alone, whole: crn.PlannedItem, monkeypatch: pytest.MonkeyPatch
) -> None:
    """If under each allowed law as much comes back as is asked for, nothing is doubted, and the choice stays."""

    def comes_back(*_: object) -> NoReturn:
        raise NoTheory("as much comes back as is asked for")

    with monkeypatch.context() as patch:
        patch.setattr(item, "figures_of_laws", comes_back)
        its = alone()
        assert "laws that the history allows" not in its.text
        assert its.doubt().table.records == []
    assert whole.doubt().table.rows
    assert its.table.csv == whole.table.csv


@pytest.mark.parametrize("fit", ["auto", "empirical", "hurdle-geometric"])
def test_a_page_says_by_which_law(
    fit: str, alone: Alone, counts: list[int], tmp_path: Path
) -> None:
    """The laws are those of the fit that is asked for, and the summary and the page name it."""
    its = alone(words={"fit": fit}, **SEVERAL)
    law, lead = crn.fit_demand(counts, method=fit), crn.fit_lead(LEADS)
    assert (its.scenario.demand, its.scenario.lead) == (law.table, lead.table)
    words = {
        "empirical": "this history.",
        "hurdle-geometric": "the law fitted to this history (hurdle-geometric).",
    }
    page = page_of(its, tmp_path)
    before, _, folded = page.source.partition("<details>")
    plain = {"empirical": "Demand is planned by this history."}
    fitted = "Demand is planned by the law fitted to this history."
    assert plain.get(fit, fitted) in before
    assert "Of each of the 4 lead times seen, " in folded
    for text in (spoken(its.text), page.words):
        assert words.get(fit, "the law fitted to this history (auto: ") in text


def test_checks_of_the_history(
    alone: Alone, whole: crn.PlannedItem, tmp_path: Path
) -> None:
    """What the checks of the history find is warned of on the page and in the summary, and the page says what they can't
    see."""
    counts = [3 + week // 4 + week % 3 for week in range(60)]
    its, checks = alone(counts), crn.check_history(counts, season=52)
    page = page_of(its, tmp_path)
    assert checks.warnings
    assert "\nWARNING: Demand has a trend" in its.text
    for remark in (*checks.warnings, *checks.notes):
        assert sentence(remark)[1:] in page.words
    assert "A season is tested from 104 weeks on" in page.words
    assert "No warning is no proof: " in whole.page


def test_today_is_the_best(alone: Alone, whole: crn.PlannedItem) -> None:
    """If theory finds nothing better, today's policy is kept."""
    best = re.match(r"Below (\d+), order up to (\d+)", whole.text)
    assert best
    s, S = map(int, best.groups())
    kept = alone(s=s, S=S)
    assert kept.text.startswith(f"Below {s}, order up to {S}: keep today's policy\n")


def test_table_of_the_summary(whole: crn.PlannedItem) -> None:
    """Each column of the text has the figures of its column of the policies, rounded."""
    lines = whole.text.split("\npolicy ")[1].split("\n\n")[0].splitlines()
    names = ["policy", *lines[0].split()]
    rows = {str(row["policy"]): row for row in whole.table.records}
    assert {"fill", "short", "theory_cost", "run_cost", "verdict"} < {*names}
    assert len(lines) == 1 + len(rows)
    for line in lines[1:]:
        cells = dict(zip(names, line.split(maxsplit=len(names) - 1), strict=True))
        row = rows[cells.pop("policy")]
        assert cells.pop("verdict") == row["verdict"]
        for name, cell in cells.items():
            per = 100 if cell.endswith("%") else 1
            number = float(cell.strip("%").replace(",", "")) / per
            assert number == pytest.approx(row[name], rel=0.01, abs=0.0006), name


def test_a_wanted_fill_rate(alone: Alone) -> None:
    """The cheapest policy with the wanted fill rate is chosen."""
    its = alone(backlog=None, fill=0.99)
    said, rows = spoken(its.text), its.frame
    assert "%, if the coming year is like the last one." in said
    assert "A fill rate of 99% is wanted." in said
    assert rows.fill["today"] < 0.99 <= rows.fill["chosen"] < 0.995


def test_boxes(alone: Alone, tmp_path: Path) -> None:
    """Large demand is counted in boxes by itself; levels and stock stay items', and savings are the run's."""
    counts = [10_000 * (week % 4) + 7 for week in range(24)]
    its = alone(counts, {"fit": "empirical"}, s=40_000, S=90_000, stock=50_000)
    assert max(its.scenario.demand.values) < 10_000
    rows = its.frame
    assert (rows.s["today"], rows.S["today"]) == (40_000, 90_000)
    assert rows.S["chosen"] > 10_000
    assert f"{sum(counts):,} items" in page_of(its, tmp_path).words
    saving = rows.run_cost["today"] - rows.run_cost["chosen"]
    said = re.search(
        r"In the long run, by crnsim \([^)]*\), the chosen policy costs ([0-9,.]+) less a",
        spoken(its.text),
    )
    assert said
    assert float(said[1].replace(",", "")) == pytest.approx(saving, abs=0.02)
