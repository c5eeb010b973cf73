"""Says which call of crnplan yields which figure: the only module of the golden data that knows how crnplan is built.

If a package moves, the calls below follow it, and the figures keep their names. Each function returns figures as nested
tables, down to numbers, texts and lists of them, unrounded.
"""
from __future__ import annotations

import contextlib
import itertools
from collections.abc import Iterable, Mapping, Sequence
from dataclasses import asdict, replace
from fractions import Fraction
from pathlib import Path
from typing import Any

import crnplan as crn
from crnplan.curve.gathered import CANDIDATES, OnCurve
from crnplan.decide.doubt import Doubt
from crnplan.decide.long_run import LongRunReport
from crnplan.demand.checks import check_history
from crnplan.demand.posterior import allowed_laws, allowed_leads
from crnplan.plan.answer import CHOSEN, Answer
from crnplan.plan.catalogue import planned_folder
from crnplan.plan.how import NONE, Settings
from crnplan.plan.item import Depth, depth_of
from crnplan.plan.one import plan_one
from crnplan.plan.question import question_of
from crnplan.read.catalogue_reading import READ, Catalogued
from crnplan.read.item import Item
from crnplan.remarks import Remark
from crnplan.store.stored import Store
from crnplan.theory.lattice import theories_of
from crnplan.theory.many_laws import Promises, figures_of_laws
from crnplan.theory.suggestions import (
    FILLS,
    by_theory,
    chosen_policies,
    suggestions_of,
)

Figures = dict[str, Any]


def by_policy(rows: Iterable[Mapping[str, Any]]) -> Figures:
    """Returns rows as tables by their policy."""
    return {
        row["policy"]: {name: value for name, value in row.items() if name != "policy"}
        for row in rows
    }


def by_frame(result: Any) -> Figures:
    """Returns the rows of a result by their policy."""
    return by_policy(records(result.frame))


def records(frame: Any) -> list[Figures]:
    """Returns the rows of a DataFrame, with its index as columns if it has a name. None stands for nan."""
    frame = frame.reset_index() if frame.index.name else frame
    return [
        {str(name): None if value != value else value for name, value in row.items()}
        for row in frame.to_dict("records")
    ]


def law_figures(law: Any) -> Figures:
    """Returns a fitted law: its family, values and weights."""
    return {
        "family": law.family,
        "values": [*law.values],
        "weights": [*law.weights],
        "share": law.diagnostics.share if law.diagnostics.families else None,
    }


def fitted(counts: Any, leads: Any) -> Figures:
    """Returns the laws of a history by each method, and what its checks find."""
    checks = check_history(counts)
    tests = {it.name: {"p": it.p, "size": it.size} for it in checks.tests}
    laws = {
        method: law_figures(crn.fit_demand(counts, method=method))
        for method in ("auto", "empirical", "predictive")
    }
    return {"demand": laws, "lead": law_figures(crn.fit_lead(leads)), "checks": tests}


def run_rows(scenario: crn.Scenario, program: str) -> Figures:
    """Returns the exact rows of a run with their intervals, and the long run that theory makes of them."""
    report = scenario.run(program=program)
    found = {"rows": by_policy(map(asdict, report.rows))}
    if scenario.replications > 1:
        found["decided"] = by_frame(report.decide())
        corrected = LongRunReport.of(report.rows, scenario, scenario.replications)
        found["corrected"] = by_frame(corrected.decide())
    return found


def theory_rows(scenario: crn.Scenario) -> Figures:
    """Returns the suggested policies with theory's figures."""
    found = suggestions_of(scenario)
    return {
        "step": found.step,
        "error": found.error,
        "position": found.position,
        "net": found.net,
        "policies": {
            it.policy.name: {"s": it.policy.s, "S": it.policy.S, **it.figures._asdict()}
            for it in found.rows
        },
    }


def long_run_rows(scenario: crn.Scenario, program: str, keys: int) -> Figures:
    """Returns the long run by the program, and its check under new keys."""
    report = scenario.long_run(keys=keys, program=program)
    *others, best = scenario.policies
    checked = replace(scenario, key=("2b7e151628aed2a7", *scenario.key[1:]))
    check = checked.with_policies([best, *others]).long_run(keys=keys, program=program)
    return {
        "rows": by_policy(map(asdict, report.rows)),
        "decision": by_frame(report.decide()),
        "check": by_frame(check.decide()),
    }


def suggested(
    scenario: crn.Scenario, counts: Sequence[int], leads: Sequence[int]
) -> crn.Scenario:
    """Returns a scenario with suggested policies: also those that keep a fill rate under most laws that a history allows."""
    found, (theory, _) = suggestions_of(scenario), theories_of(scenario)
    best, laws = theory.best(), (allowed_laws(counts), allowed_leads(leads))
    gap, fills = theory.gap_of(*best.levels), [*FILLS.values()]
    promises = Promises(scenario, theory, gap, zip(*laws), fills)
    chosen = chosen_policies(scenario, theory, best, promises).policies.values()
    rows = by_theory(scenario, [policy for policy, _ in chosen]).rows
    return crn.Scenario.parse(replace(found, rows=rows).toml())


def doubt_rows(scenario: crn.Scenario, counts: Any, leads: Any) -> Figures:
    """Returns the figures of policies under the laws that a history allows."""
    laws = [*zip(allowed_laws(counts), allowed_leads(leads))]
    figures = figures_of_laws(scenario, laws, scenario.policies)
    return by_frame(Doubt(scenario.policies, figures))


def sweep_rows(scenario: crn.Scenario, program: str) -> Figures:
    """Returns the exact rows of a grid of policies."""
    grid = itertools.product(range(6, 17, 5), range(20, 41, 10))
    return by_policy(map(asdict, scenario.run([*grid], program=program).rows))


def plan_catalogue(
    files: Mapping[str, Any], folder: Path, program: str, jobs: int, **settings: Any
) -> None:
    """Reads a catalogue and plans it into a folder."""
    crn.plan(
        crn.read_catalogue(files["demand"], files["items"], files["orders"]),
        out=folder,
        jobs=jobs,
        program=program,
        **settings,
    )


def plan_rows(folder: Path) -> dict[str, Figures]:
    """Returns the answer to each item of a planned folder."""
    with planned_folder(folder) as its:
        return {
            item.name: answer_figures(item, answer) for item, answer in its.answers()
        }


def policy_figures(its: Any, scale: float = 1.0) -> Figures:
    """Returns levels and figures of a policy; its cost times a scale."""
    names = ("fill", "short", "stock", "orders")
    levels = {"s": its.point, "S": its.level, "cost": its.cost * scale}
    return levels | {name: getattr(its, name) for name in names}


def run_figures(run: Any) -> Figures:
    """Returns what a run says exactly, with all that it takes."""
    names = ("setup", "holding", "backlog")
    return {
        "scale": str(run.scale),
        "key": run.key,
        "initial": run.initial,
        "rates": {"unit": 0} | {name: getattr(run, name) for name in names},
        "totals": [run.total_today, run.total_chosen],
        "diff_mean": str(run.difference),
        "diff_var": str(run.variance),
    }


def answer_figures(item: Item, answer: Answer | Remark) -> Figures:
    """Returns the figures of an item's answer: what belongs to a policy below its name, and codes of remarks."""
    if isinstance(answer, Remark):
        return {"fault": True}
    run, law, figures = answer.run, answer.law, Figures()
    for name in ("today", "chosen", "alone"):
        if its := getattr(answer, name):
            figures[name] = policy_figures(its)
            if name != "alone":
                figures[name]["run_cost"] = getattr(run, f"cost_{name}")
    return figures | {
        "verdict": answer.verdict,
        "saving": answer.saving,
        "error": run.error,
        "low": run.low,
        "high": run.high,
        "confidence_cost": answer.confidence_cost,
        "law": law.family,
        "share": law.share,
        "log10_bayes": law.log10_bayes,
        "mean": law.mean,
        "demands": sum(count > 0 for count in item.counts),
        "periods": len(item.counts),
        "step": answer.step,
        "warnings": [it.code for it in answer.remarks],
        "exact": run_figures(run),
    }


def read_rows(folder: Path) -> Figures:
    """Returns what became of the rows of a catalogue: counts, and the places of what was left out."""
    with contextlib.closing(Catalogued(folder / READ)) as read:
        files = {
            kind: {name: value for name, value in its.items() if name != "name"}
            for kind, its in read.fact("counts")["files"].items()
        }
        rejects = [
            [it.kind, it.line, it.item, it.column, it.text, it.rows]
            for it in read.rejects()
        ]
        return {
            "files": files,
            "items": read.fact("counts")["items"],
            "rejects": rejects,
        }


def curve_rows(folder: Path, jobs: int, **budget: float) -> list[Figures]:
    """Returns the points of the exchange curve under a budget, the named ones first."""
    return records(crn.exchange_curve(folder, jobs=jobs, **budget).frame)


def candidate_rows(folder: Path, names: Iterable[str]) -> dict[str, Figures]:
    """Returns the candidates of items by variant of costs: in full as they are, and the sums of each column else."""
    found: dict[str, Figures] = {}
    with contextlib.closing(Store(folder / CANDIDATES, OnCurve)) as answers:
        for name in names:
            answer = answers.answer(name)
            if not isinstance(answer, OnCurve):
                found[name] = {"fault": True}
                continue
            its, rows = answer.candidates, dict[int, list[list[float]]]()
            for variant, *row in its.rows.tolist():
                rows.setdefault(int(variant), []).append(row)
            sums = {
                str(variant): [len(some), *map(sum, zip(*some))]
                for variant, some in rows.items()
                if variant
            }
            found[name] = {"demand": its.demand, "rows": rows[0], "sums": sums}
    return found


def item_rows(name: str, item: Item, program: str) -> Figures:
    """Plans an item alone, and returns each figure: of theory, of the program and of doubt."""
    assert item.backlog is not None
    holding = float(
        f"{float(item.holding):.1g}"
    )  # so that all costs are whole numbers of one unit
    backlog = round(item.backlog / item.holding) * holding
    alone = Item(
        name,
        item.counts,
        item.leads,
        item.levels,
        item.setup,
        Fraction(f"{holding:.6f}"),
        Fraction(f"{backlog:.6f}"),
        stock=Fraction(item.levels[1]) if item.levels else None,
    )
    return item_figures(planned(alone, program))


def planned(item: Item, program: str) -> Depth:
    """Plans an item alone, and returns the deeper look at it."""
    question = question_of(item, Settings(borrow=NONE))
    return depth_of(question, plan_one(question, program), program)


def item_figures(depth: Depth) -> Figures:
    """Returns the figures of an item's plan, in the program's units as its scenario has them."""
    scale, names = float(depth.question.scale), {CHOSEN: "best"}
    figures: Figures = {name: {} for name in ("laws", "theory", "decision")}
    for name in ("demand", "lead"):
        law = getattr(depth.scenario, name)
        figures["laws"][name] = {
            "mean": float(law.mean),
            "largest": law.values[-1],
            "values": len(law.values),
        }
    for it in depth.compared:
        name = names.get(it.name, it.name)
        figures["theory"][name] = policy_figures(it.figures, scale)
        figures["decision"][name] = {
            "cost": it.run.cost * scale,
            "diff": it.run.diff * scale,
            "verdict": it.verdict,
        }
    rows = records(depth.doubt.frame) if depth.doubt else []
    figures["doubt"] = by_policy(
        {**row, "policy": names.get(row["policy"], row["policy"])} for row in rows
    )
    return figures


def items_of(files: Mapping[str, Any], folder: Path) -> dict[str, Item]:
    """Reads a catalogue in a folder, and returns its items."""
    read = crn.read_catalogue(files["demand"], files["items"], files["orders"])
    with contextlib.closing(Catalogued(read.path)) as base:
        return {item.name: item for item in base.items()}
