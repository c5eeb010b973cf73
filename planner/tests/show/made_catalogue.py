"""Makes the folder of a planned catalogue without planning it: what was read, and answers, of so many items."""
from __future__ import annotations

import contextlib
import math
import random
from collections.abc import Iterable, Sequence
from dataclasses import replace
from fractions import Fraction
from pathlib import Path
from typing import Any

from crnplan.curve.parts import Point
from crnplan.curve.exchange_curve import keep_curve
from crnplan.demand.learning import Prior
from crnplan.store.files import Folder, own_folder
from crnplan.store.jobs import Workers
from crnplan.law import Law
from crnplan.show.catalogue_page import (
    CATALOGUE_FILES,
    MOST_ROWS,
    write_catalogue,
    writing_tables,
)
from crnplan.plan.answer import (
    CHEAPER,
    RUN,
    SAME,
    SERVICE,
    THEORY,
    UNCOMPARED,
    UNDECIDED,
    Answer,
    Figures,
    LawFacts,
    Laws,
    CheckRun,
)
from crnplan.plan.catalogue import ANSWERS, TOTALS, Planned, PlannedFolder
from crnplan.plan.how import Settings
from crnplan.plan.survey import Survey
from crnplan.plan.totals import Totals
from crnplan.read.catalogue_reading import (
    ADD_ITEM,
    ADD_REJECT,
    CATALOGUE,
    READ,
    Catalogued,
    Writer,
)
from crnplan.read.items import Reject
from crnplan.read.item import Item
from crnplan.read.parts import ITEM, REJECT
from crnplan.remarks import Remark
from crnplan.store.stored import Store
from crnplan.store.work import Work
from planner.tests.show.page_reader import Page

DECIMALS = 2
# The quantile of Student's t at 95% with 23 degrees of freedom (24 replications), from a published table.
QUANTILE = 2.0687
NOUNS = "bearing gasket pump filter valve belt sensor fuse hose relay seal lamp".split()
REMARKS = (
    (),
    (),
    (),
    (),
    (Remark("few demands", {"demands": 3, "learned": 0}),),
    (Remark("unlike the catalogue"),),
)
REASONS = (
    ("the lead time 0 is not from 1 to 32 periods", "correct it"),
    ("the cell is empty", "give it a value"),
    ("there is no row of demand in the record", "plan it by hand"),
)
LAWS = Laws(1, Law((0, 3), (2, 1)), Law((2,), (1,)), None)
Pair = tuple[Item, Answer]


def made_folder(
    path: Path,
    items: int,
    names: Sequence[str] = (),
    has_curve: bool = True,
    change: tuple[Item, Answer | Remark] | None = None,
    currency: str = "",
) -> Path:
    """Makes a folder with so many planned items, with its tables and its page, and returns it.

    The first items are called as `names` say, the others P00000 and so on. One item in twelve more is left out. Figures
    follow from the number of items alone. `has_curve` adds an exchange curve, `change` one more item, and money
    may be in a currency.
    """
    source = random.Random(items)
    called = [*names, *(f"P{number:05}" for number in range(len(names), items))]
    pairs: list[tuple[Item, Answer | Remark]] = [
        made_pair(source, name) for name in called[:items]
    ]
    pairs += [change] if change else []
    with own_folder(path, CATALOGUE, CATALOGUE_FILES) as folder:
        write_read(folder, pairs, made_rejects(source, items), currency)
        planned = Planned(Settings(), Prior("none"), "made")
        with (
            contextlib.closing(Catalogued(path / READ)) as read,
            contextlib.closing(Store(folder.store(ANSWERS), Answer)) as answers,
        ):
            given = [dict((item.name, answer) for item, answer in pairs)]
            work = Work(
                answers, lambda: read.digests(planned.common), str, made_answer, given
            )
            totals = {TOTALS: Totals.of(pairs).json}
            here = contextlib.nullcontext(Workers())
            work.finish(here, planned.facts | totals, shown=False)
            if has_curve:
                keep_curve(answers, made_curve(pairs))
            its = PlannedFolder(path, read, answers, planned)
            with writing_tables(folder, its) as write:
                write([*its.answers()])
            write_catalogue(folder, its, Survey.of(its, MOST_ROWS), (), ())
    return path


def write_read(
    folder: Folder,
    pairs: Sequence[tuple[Item, Answer | Remark]],
    rejects: Sequence[Reject],
    currency: str,
) -> None:
    """Writes what was read of a catalogue."""
    writer = Writer(folder)
    writer.add_rows(ADD_ITEM, (ITEM.cells(item) for item, _ in pairs))
    writer.add_rows(ADD_REJECT, map(REJECT.cells, rejects))
    facts: dict[str, Any] = {"every": "week", "decimals": DECIMALS, "abc": [80, 95]}
    facts |= {"periods": [1000, 1003], "currency": currency, "keys": ""}
    facts |= {"sources": {}, "remarks": [], "told": {}, "controls": []}
    writer.finish(facts | {"counts": made_counts(len(pairs), rejects)})


def made_answer(name: str, answers: dict[str, Answer | Remark]) -> Answer | Remark:
    """Answers what is asked by what was made."""
    return answers[name]


def made_run(
    source: random.Random, cost: float, saving: float, error: float
) -> CheckRun:
    """Returns a run beside theory: the saving is off by its error at most."""
    near = saving + error * source.uniform(-1, 1)
    seen = "0 0 0 0", 1024, 24, 9, Fraction(100), 900, 60, 900
    chosen = 900_000, cost - near
    today = 1_000_000, Fraction(-near), Fraction(error) ** 2, cost, near, error
    return CheckRun(
        *seen, *chosen, *today, near - QUANTILE * error, near + QUANTILE * error
    )


def made_pair(source: random.Random, name: str) -> Pair:
    """Returns an item with its answer: plausible figures, unrounded."""
    price = Fraction(round(100 * source.lognormvariate(3, 1)) + 1, 100)
    demand, s = source.lognormvariate(1, 1.5), source.randint(0, 60)
    cost = source.lognormvariate(2, 1.2)
    saving = cost * source.triangular(-0.1, 0.8, 0.2)
    error = cost * 0.01 * source.random()

    def figures(
        low: int, high: int, cost: float, fill: float, short: float, part: int
    ) -> Figures:
        """Returns the figures of a policy that meets at least this share."""
        shares = source.uniform(fill, 1), short
        stock = demand * source.uniform(2, 12)
        return Figures(low, high, cost, *shares, stock, demand / part)

    today = figures(s, s + 9, cost, 0.6, 0.1, 9)
    chosen = figures(s + 2, s + 20, cost - saving, 0.93, 0.05, 14)
    run = made_run(source, cost, saving, error)
    group = source.choice(("X", "Y", "Z", "U", "V", "W", "T", ""))
    item = Item(
        name,
        (0, 3, 1),
        (2,),
        (s, s + 9),
        Fraction(9),
        Fraction(3, 5),
        Fraction(9),
        first=1000,
        line=7,
        rows=90,
        group=group,
        category=group,
        price=price if source.random() > 0.05 else None,
        description=f"{source.choice(NOUNS)} {source.randrange(100)}",
    )
    verdict = CHEAPER if saving > 0 else SERVICE
    costs, law = (cost, cost - saving, saving), ("poisson", 0.5, None, demand, 2.0)
    without = None, None, None, 1, None, None, None
    facts = LawFacts(*law), LAWS, run, source.choice(REMARKS)
    answer = Answer(verdict, THEORY, *costs, today, chosen, *without, *facts)
    return item, with_verdict(source, answer)


def without_today(answer: Answer) -> Answer:
    """Returns an answer to an item that has no policy today."""
    beside = "total_today difference variance cost_today saving error low high".split()
    return replace(
        answer,
        verdict=UNCOMPARED,
        today=None,
        cost_today=None,
        saving=None,
        run=replace(answer.run, **dict.fromkeys(beside)),
    )


def with_verdict(source: random.Random, answer: Answer) -> Answer:
    """Returns the answer; few of them without a change, without an interval, or by the run."""
    draw, run = source.random(), answer.run
    if draw < 0.03:
        same = replace(
            run, cost_chosen=answer.cost_today, saving=0.0, error=0.0, low=0.0, high=0.0
        )
        return replace(
            answer,
            verdict=SAME,
            chosen=answer.today,
            cost_chosen=answer.cost_today,
            saving=0.0,
            run=same,
        )
    if draw < 0.06:
        return replace(
            answer,
            run=replace(run, error=None, low=None, high=None),
            remarks=(Remark("no interval", {"orders": 1.0}),),
        )
    if draw < 0.16:
        low, high = run.low or 0.0, run.high or 0.0
        verdict = CHEAPER if low > 0 else SERVICE if high < 0 else UNDECIDED
        return replace(
            answer,
            source=RUN,
            cost_chosen=run.cost_chosen,
            saving=run.saving,
            verdict=verdict,
        )
    return answer


def made_rejects(source: random.Random, items: int) -> list[Reject]:
    """Returns what is left out: items, rows, and rows that are suspicious."""

    def remark(what: str, advice: str) -> Remark:
        return Remark("refused", {"what": what, "advice": advice})

    left, rows, twice = list[Reject](), list[Reject](), list[Reject]()
    for line in range(2, 2 + items // 12):
        place = "items.csv", line, f"L{line:05}", "lead", "0"
        reason = remark(*source.choice(REASONS))
        left.append(Reject("item", *place, reason, source.randint(1, 90)))
    for number, text in enumerate(["n/a", "five", "12 pcs"] * (items // 60 + 1)):
        place = "demand.csv", 50 + 7 * number, f"P{number:05}", "quantity", text
        reason = remark(f"{text!r} is not a number", "write digits alone")
        rows.append(Reject("row", *place, reason, 1))
    for number in range(items // 20):
        name = f"P{number:05}"
        place = "demand.csv", 400 + number, name, "item", name
        reason = Remark("rows twice", {"rows": number})
        twice.append(Reject("suspicious", *place, reason, 0))
    return [*left, *rows, *twice]


def made_counts(items: int, rejects: Sequence[Reject]) -> dict[str, Any]:
    """Returns the counts of rows and items, which add up."""
    left = [it for it in rejects if it.kind == "item"]
    rejected = sum(it.kind == "row" for it in rejects)
    files = {
        "demand": (100 * items, rejected, sum(it.rows for it in left)),
        "items": (items, 0, len(left)),
        "orders": (3 * items, 0, 0),
    }
    counts: dict[str, Any] = {}
    for kind, (used, out, held) in files.items():
        counts[kind] = {"name": f"{kind}.csv", "read": used + out + held, "blank": 0}
        counts[kind] |= {"used": used, "rejected": out, "with_item": held, "other": 0}
    ready = {"named": items + len(left), "ready": items, "left_out": len(left)}
    return {
        "files": counts,
        "items": ready | {"twice": items // 20, "open_orders": 0, "late": 0},
    }


def made_curve(
    pairs: Iterable[tuple[Item, Answer | Remark]]
) -> list[tuple[str, Point]]:
    """Returns the points of an exchange curve: today's and the chosen one as the items have them, others beside."""
    today = chosen = 0.0
    for item, answer in pairs:
        if item.price is not None and isinstance(answer, Answer):
            today += float(item.price) * answer.today.stock
            chosen += float(item.price) * answer.chosen.stock
    most = max(today, chosen) or 1.0

    def point(name: str, value: float, less: float, *rest: float) -> tuple[str, Point]:
        """Returns a point, below the best share that its stock value can give."""
        best = 1 - 0.3 * math.exp(-4.5 * value / most)
        return name, Point(value, best - less, *rest)

    return [
        point("today", today, 0.06, 250.0, 1900.0),
        point("chosen item by item", chosen, 0.004, 215.0, 1500.0),
        point("today's stock, best service", today, 0.0, 214.0, 1450.0),
        point("today's service, least stock", 0.4 * today, 0.0, 203.0, 900.0),
        *(
            point("", most * step / 12, 0.0, 210.0, 1000.0 + step)
            for step in range(1, 30)
        ),
    ]


def page_of(folder: Path, items: int = 0, has_curve: bool = False, **more: Any) -> Page:
    """Returns the page of a folder that is made, of the item of `change` alone if no other is asked for."""
    made_folder(folder, items, has_curve=has_curve, **more)
    return Page(folder / "report.html")
