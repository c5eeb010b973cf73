"""Says in sentences and tables what was decided for an item, and draws its page: the same for its page and a notebook.
Amounts are items and money."""
from __future__ import annotations

import itertools
from collections.abc import Iterable
from dataclasses import replace
from functools import cached_property
from typing import Any, NamedTuple

from ..decide.doubt import COLUMNS, WITHIN
from ..demand import EMPIRICAL
from ..demand.checks import Checks, checks_of
from ..demand.fitted import LawSummary, FittedLaw, fit_words
from ..money import Currency
from ..plan.answer import THEORY, Figures
from ..plan.item import Depth
from ..plan.question import Question
from ..read.dates import EVERY, period_name
from ..policies import Policy
from ..table import DataTable
from ..theory.suggestions import COLUMNS as POLICY_COLUMNS
from ..sentences import advised, exactness, part_of_year, sentence
from .catalogue_tables import DECISION_COLUMNS, DETAIL_COLUMNS, ItemDecision
from ..columns import columns_of
from .calendars import ItemPart
from .item_plots import ALONE, history_plot, law_plot
from .law_names import law_name, plain_words
from ..drawing.plots import Scale
from ..drawing.rendering import capital, number, rendered, templates
from .verdicts import VERDICTS

# The columns of the table of the summary.
SUMMARY = "policy s S theory_cost fill short stock orders run_cost verdict".split()
MOST_DOUBTED = 10  # policies of which the page shows the doubt


class Range(NamedTuple):
    """A policy with a mean, both ends of its interval and a verdict."""

    name: str
    mean: float
    low: float | None
    high: float | None
    verdict: str = ""


LAW_COLUMNS = columns_of("show", "laws")


class ItemWords:
    """The words on an item. A period is a day, week, month or period (`every`); money is in a currency. Of an item
    with a season what was decided is of the coming year (`whole`), and all else of its first part.
    """

    def __init__(self, depth: Depth, every: str, currency: Currency) -> None:
        self.depth, self.every, self.currency = depth, every, currency
        self.question, self.answer = depth.question, depth.answer
        self.whole = depth.whole
        self.item, self.settings = self.question.as_read, self.question.settings
        self.decimals = currency.decimals
        self.level = f"{100 * self.settings.level:g}%"
        self.near = f"within {100 * WITHIN:g}%"
        self.law = law_name(self.question.all_year)
        self.by, step = "crnsim", self.answer.step * self.item.box
        self.exactness = exactness(step)
        if self.answer.source == THEORY:
            self.by, self.exactness = "theory", exactness(None)

    @cached_property
    def figures(self) -> dict[str, Figures]:
        return {policy.name: policy.figures for policy in self.depth.compared}

    @cached_property
    def doubt(self) -> DataTable:
        """Returns what each policy costs and meets under the laws that the history allows, the least mean cost first;
        no policy if none of these laws has a long run."""
        doubt, rows = self.depth.doubt, []
        for row in doubt.rows if doubt else ():
            name, cost = row["policy"].name, self.question.money(row["cost"])
            policy = Policy(name, *self.figures[name].levels)
            rows.append({**row, "policy": policy, "cost": cost})
        return DataTable.of(COLUMNS, rows, self.decimals, index="policy")

    @cached_property
    def doubted(self) -> dict[str, dict[str, Any]]:
        return {str(row["policy"]): row for row in self.doubt.records}

    @property
    def period_names(self) -> list[str]:
        names = []
        for place in range(self.item.first, self.item.first + len(self.item.counts)):
            is_dated = self.every in EVERY
            names.append(period_name(place, self.every) if is_dated else str(place))
        return names

    def money(self, amount: float | None) -> str:
        """Returns an amount of money; - if there is none."""
        digits = self.currency.digits
        return "-" if amount is None else self.currency.named(number(amount, digits))

    def spoken(self, saving: float) -> str:
        return f"{self.money(abs(saving))} {'more' if saving < 0 else 'less'}"

    def _sentences(self, name: str, *facts: object) -> str:
        """Returns the sentences of a macro of item_text.txt."""
        macros = templates(False).get_template("item_text.txt").module
        return " ".join(getattr(macros, name)(self, *facts).split())

    @property
    def title(self) -> str:
        group = f"class {self.item.category}" if self.item.category else ""
        return ", ".join(filter(None, (self.item.name, self.item.description, group)))

    @property
    def headline(self) -> str:
        today, chosen = self.whole.today, self.whole.chosen
        levels = f"{today.point:,}, {today.level:,}" if today else ""
        verdict = VERDICTS[self.whole.verdict].said.format(levels)
        when = f"In {self.part} below" if self.part else "Below"
        return f"{when} {chosen.point:,}, order up to {chosen.level:,}: {verdict}"

    @property
    def part(self) -> str:
        """Returns the part of the year of the levels of an item with a season; nothing for others."""
        season = self.question.season
        return part_of_year(season.part, season.days) if season else ""

    @property
    def horizon(self) -> str:
        """Returns for which time the figures of policies hold."""
        return f"if {self.part} lasted" if self.part else "in the long run"

    @property
    def span(self) -> str:
        """Returns for which time that holds which was decided."""
        return "in the mean of the coming year" if self.part else "in the long run"

    @property
    def nearness(self) -> str:
        """Returns how exact the theory of what was decided is."""
        return "each part of it as if it lasted" if self.part else self.exactness

    @property
    def promise(self) -> str:
        """Returns how sure the choice is under the laws that the history allows, and which cost to promise."""
        if self.depth.chosen in self.doubted and self.question.has_backlog:
            return self._sentences("promise")
        return ""

    @property
    def largest(self) -> str:
        """Returns which demands are the largest, and what the decision would be without them; nothing if few periods
        have demand."""
        return self._sentences("largest", self.checks.largest)

    @cached_property
    def checks(self) -> Checks:
        """Returns the checks of the record."""
        item, every = self.item, self.settings.every
        places = item.known_places
        return checks_of(item.known.counts, every, item.first, places=places)

    @property
    def said(self) -> list[str]:
        """Returns what was decided in sentences: what it saves, what it meets at once, and how sure that is."""
        parts = self._sentences("saving"), self._sentences("service"), self.promise
        return [*filter(None, parts)]

    @property
    def facts(self) -> str:
        """Returns what is known of the history and of the lead times."""
        item, periods = self.item.known, f"{self.every}s"
        least, most = min(item.leads), max(item.leads)
        span = str(least) if least == most else f"{least} to {most}"
        back = f", {sum(item.returns):,} returned" if item.returns else ""
        unknown = len(self.item.unknown)
        gaps = f", and {unknown:,} {periods} not known" if unknown else ""
        return (
            f"{item.name}: {len(item.counts):,} {periods}, {sum(item.counts):,} items{back}, "
            f"{item.counts.count(0):,} {periods} without demand{gaps}. Lead times: {len(item.leads):,}, of {span} "
            f"{periods}."
        )

    @property
    def warnings(self) -> list[str]:
        return [capital(sentence(remark)) for remark in self.answer.remarks]

    @property
    def plain_notes(self) -> list[str]:
        """Returns what is to be said of the history, and what its checks can't see."""
        notes = [*map(sentence, self.item.remarks)]
        if not (self.question.is_stated or self.question.is_new):
            notes += map(advised, self.checks.unknown)
        return [*map(capital, notes)]

    @property
    def statistics(self) -> list[str]:
        """Returns how the laws of demand and of lead times were fitted, for statisticians; nothing of one that is as it was
        seen."""
        lead = self.question.lead
        words = [*fit_words(self.question.all_year)]
        if lead.diagnostics.side:
            words += fit_words(lead)
        return [*map(capital, words)]

    @property
    def law_said(self) -> str:
        """Returns in plain words by which law demand is planned."""
        return f"Demand is planned by {plain_words(self.question.all_year)}."

    @property
    def below(self) -> str:
        """Returns by what the figures of the summary are."""
        return self._sentences("below")


def policies_of(words: ItemWords) -> DataTable:
    rows = words.depth.compared
    return DataTable.of(POLICY_COLUMNS, rows, words.decimals, index="policy")


def laws_of(question: Question, single: FittedLaw | None) -> DataTable:
    """Returns the figures of the laws: of what was seen, and its own if a law was fitted. Below a law that is learned
    from others stands that of the item alone, `single`, if there is one. With a season, those of demand are of its
    first part."""
    rows = list[dict[str, object]]()

    def add(table: str, name: str, figures: LawSummary) -> None:
        shares = {}
        for share, value in figures.quantiles.items():
            shares[f"{1000 * share:.0f}"] = value
        row = {"table": table, "law": name, "figures": figures, "quantiles": shares}
        rows.append(row)

    for table, law in {
        "demand": question.as_sold,
        "returns": question.returns,
        "lead": question.lead,
    }.items():
        if law is None:
            continue
        name, is_seen = law_name(law), law.family == EMPIRICAL
        seen = law.diagnostics.seen
        if table == "demand" and question.season:
            seen, is_seen = question.seen, False
        if seen.values:  # A new item may have no periods yet.
            own = name if is_seen else "what was seen"
            add(table, own, LawSummary.of(seen, is_sample=True))
        if not is_seen:
            add(table, name, law.figures)
        if table == "demand" and single is not None:
            add(table, ALONE, single.figures)
    return DataTable.of(LAW_COLUMNS, rows)


def item_summary(words: ItemWords) -> str:
    """Returns what comes of an item's plan: its policies, the cheapest first, and all that must be said of them."""
    table, code = policies_of(words).with_columns(SUMMARY), words.currency.code
    columns = [column.for_notebook(code) for column in table.columns]
    warned = [f"WARNING: {warning}" for warning in words.warnings]
    below = filter(None, [*words.said, *warned, words.largest, words.below])
    rows = replace(table, columns=columns).text
    return "\n".join([words.headline, words.facts, "", rows, *below, ""])


def item_page(words: ItemWords) -> str:
    """Returns the page of an item as HTML."""
    return rendered("item.html", item_facts(words))


def item_facts(words: ItemWords) -> dict[str, object]:
    """Returns what the page of an item has."""
    depth, item = words.depth, words.item
    decided_of = ItemDecision.of(item, words.whole)
    columns = [*DECISION_COLUMNS, *DETAIL_COLUMNS]
    (decision,) = DataTable.of(columns, [decided_of], words.decimals).cells()
    doubted = dict(itertools.islice(words.doubted.items(), MOST_DOUBTED))
    parts = [ItemPart(item.name, it, words.every) for it in words.whole.parts]
    regrets, decided = [], []
    for name, row in doubted.items():
        regrets.append(Range(name, 100 * row["regret"], 0.0, 100 * row["regret_90"]))
    for policy in depth.compared:
        ends = policy.run.low, policy.run.high
        decided.append(Range(policy.name, policy.difference, *ends, policy.verdict))
    return {
        "words": words,
        "scale_of": scale_of,
        "decision": decision,
        "scenario": scenario_text(words),
        "doubted": doubted,
        "regrets": regrets,
        "decided": decided,
        "laws": [*laws_of(words.question, depth.single).spelt(is_shown=True)],
        "history_plot": history_plot(depth, words.period_names, words.every),
        "parts": parts,
        "law_plot": law_plot(depth, words.every),
    }


def scale_of(rows: Iterable[Range]) -> Scale:
    """Returns the scale of the intervals of policies."""
    ends = list[float]()
    for row in rows:
        ends += [end for end in (row.mean, row.low, row.high) if end is not None]
    return Scale.of(ends)


def scenario_text(words: ItemWords) -> str:
    """Returns the scenario of the run with all policies, as the program reads it."""
    item, scale = words.item, words.question.scale
    boxes = f" Items are counted in boxes of {item.box}." if item.box > 1 else ""
    return (
        f"# {item.name}: the run of its plan. Costs count {scale} for one unit of money.{boxes}\n"
        f"{words.depth.scenario.toml()}"
    )
