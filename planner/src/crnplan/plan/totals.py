"""Adds up the answers to the items of a catalogue."""
from __future__ import annotations

import json
import math
from collections import Counter
from collections.abc import Iterable
from dataclasses import dataclass, field
from fractions import Fraction
from statistics import NormalDist
from typing import TYPE_CHECKING

from ..read.item import ENDED, NO_DEMAND, UNORDERED, Item
from ..remarks import Remark
from .answer import (
    BY_ITSELF,
    CHOSEN,
    OURS,
    RUN,
    TODAY,
    Answer,
    CostParts,
    Figures,
    Share,
)
from .prices import weight_of

if TYPE_CHECKING:
    import pandas as pd

# The name of sums over chosen policies that are compared with none.
UNCOMPARED = "uncompared"


def asked_value(item: Item, answer: Answer) -> float:
    """Returns the value of the demand of a period, in money; 0 without a price."""
    return weight_of(item) * answer.law.mean


def policy_sums(
    name: str, item: Item, answer: Answer, figures: Figures, cost: float
) -> dict[str, float]:
    """Returns what a policy of an item adds to the sums of its name."""
    parts = CostParts.of(item, figures, cost)
    return {
        f"cost_{name}": cost,
        f"ordering_{name}": parts.orders,
        f"holding_{name}": parts.stock,
        f"late_{name}": parts.late,
        f"value_{name}": weight_of(item) * figures.stock,
        f"met_{name}": asked_value(item, answer) * figures.fill,
        f"fill_{name}": figures.fill,
        f"orders_{name}": figures.orders,
    }


@dataclass
class Totals:
    """What adds up over items. Sums are exact, so that they are those of any order, and are rounded at the end.

    Sums of the policies of today and the chosen ones, over the items that have both, as `totals["cost_today"]` and
    `totals["cost_chosen"]`, and over the chosen ones of other planned items, as `totals["cost_uncompared"]`: of money a
    period `cost`, and its parts `ordering`, `holding` and `late`; the `value` of the mean stock; of the value of demand
    what is `met` at once; of shares of demand met at once `fill`; and of orders a period `orders`.

    Other sums over the items that are compared: `saving` and `saving VERDICT`; `run_saving`, by runs, with its
    `run_variance`; and the value of the demand of a period, `demand`, which other planned items have as
    `demand_uncompared`. Of items without demand `value_idle` is what their stock is worth, and `value_ended` of
    those that have stopped or are phased out, as far as that is known: of so many of the `idle` and the `ended` ones,
    `valued`. Of all planned ones `confidence_cost` and `coverage_cost` of a period, `override_cost`,
    by which the policies of planners cost more than the chosen ones, and
    of items whose wanted fill is corrected, what it costs a period to hold the mean stock, `held`, and that of the
    policies that aim at the wanted fill, `held_plain`, the shares of demand that they meet by theory, `aimed`, and that
    such plans met on the past, `met_past`. Of items whose cost is promised by the past that promise, `cost_past`, and
    what theory says, `cost_theory`. Of each group of items that are planned together the weight of
    the demand of a period, `together GROUP`, and of what is met at once of it, `met together GROUP`.

    Counts of items: by verdict, those that are `compared`, those that are not planned (`faults`), those of them by a
    fault of ours (`broken`), with a confidence in their fill rate (`promised`), whose S, or S - s, may cover no more
    periods (`covered`), by the wanted fill, if that is `corrected`, whose cost is promised by the past (`costed`), and by the `letters` A, B, C of their
    classes, and those with levels of the planner (`overridden`); of those that are compared, those with the run's figures (`by_run`), without an interval of the run, and
    with a price. `shared` has by group how many are planned together, `least` how many of these have the fill rate that
    each has at least, `fills` the least fill rate and the greatest one, and `half` how many meet less than half of what is
    wanted of all together; and so many that should be planned together are planned by themselves (`by_itself`). Of
    `by_periods` a share of periods without a shortage is wanted: sums are `no_shortage_wanted`, and `no_shortage_chosen`
    by theory. So many are planned by theory alone, `without_run`, which save `saving_without_run`.
    """

    parts: dict[str, Fraction] = field(default_factory=dict)
    verdicts: Counter[str] = field(default_factory=Counter)
    valued: Counter[str] = field(default_factory=Counter)
    compared: int = 0
    faults: int = 0
    broken: int = 0
    by_run: int = 0
    without_interval: int = 0
    promised: int = 0
    covered: int = 0
    priced: int = 0
    overridden: int = 0
    letters: Counter[str] = field(default_factory=Counter)
    corrected: Counter[float] = field(default_factory=Counter)
    costed: int = 0
    shared: Counter[str] = field(default_factory=Counter)
    least: Counter[str] = field(default_factory=Counter)
    half: Counter[str] = field(default_factory=Counter)
    fills: dict[str, list[float]] = field(default_factory=dict)
    by_itself: int = 0
    by_periods: int = 0
    without_run: int = 0

    @classmethod
    def of(cls, answers: Iterable[tuple[Item, Answer | Remark]]) -> Totals:
        """Adds up items with their answers, or their faults."""
        totals = cls()
        for item, answer in answers:
            totals.note(item, answer)
        return totals

    def note(self, item: Item, answer: Answer | Remark) -> None:
        """Adds an item with its answer, or its fault."""
        if isinstance(answer, Answer):
            self.add(item, answer)
        elif item.past in UNORDERED:
            self.verdicts[item.past] += 1
            kind = "idle" if item.past == NO_DEMAND else "ended"
            if item.value is not None:
                self.valued[kind] += 1
                self.add_to(f"value_{kind}", float(item.value))
        else:
            self.faults += 1
            self.broken += answer.code in OURS

    def add_to(self, name: str, value: float) -> None:
        """Adds a value to a sum."""
        self.parts[name] = self.parts.get(name, 0) + Fraction(value)

    @classmethod
    def parse(cls, text: str) -> Totals:
        """Returns totals of a text that `json` has made. Raises ValueError, LookupError or TypeError for another one."""
        tree = json.loads(text)
        totals = cls(**tree)
        totals.parts = {name: Fraction(part) for name, part in tree["parts"].items()}
        for name in ("verdicts", "valued", "letters", "shared", "least", "half"):
            setattr(totals, name, Counter(getattr(totals, name)))
        totals.corrected = Counter(dict(tree["corrected"]))
        return totals

    @property
    def json(self) -> str:
        """Returns the totals as a text of JSON, without rounding."""
        parts = {name: str(part) for name, part in self.parts.items()}
        corrected = sorted(self.corrected.items())
        return json.dumps({**vars(self), "parts": parts, "corrected": corrected})

    @property
    def planned(self) -> int:
        return self.verdicts.total() - self.verdicts[NO_DEMAND] - self.ended

    @property
    def ended(self) -> int:
        """Returns how many items are ordered no longer: they have stopped, are phased out, or their planner says so."""
        return sum(self.verdicts[past] for past in ENDED)

    @property
    def answered(self) -> int:
        """Returns how many items are planned, are known to need no order, or have a fault."""
        return self.verdicts.total() + self.faults

    @property
    def uncompared(self) -> int:
        """Returns how many planned items are not compared with a policy of today."""
        return self.planned - self.compared

    @property
    def frame(self) -> pd.DataFrame:
        """Returns a row for each sum: figure, and value (money, items, or shares added up)."""
        import pandas as pd

        figures = sorted(self.parts)
        values = [self[figure] for figure in figures]
        return pd.DataFrame({"figure": figures, "value": values})

    def __getitem__(self, name: str) -> float:
        """Returns a sum, rounded once; 0 if nothing was added."""
        return float(self.parts.get(name, 0))

    def add(self, item: Item, answer: Answer) -> None:
        self.verdicts[answer.verdict] += 1
        self.letters.update((item.abc,))
        self.promised += answer.confidence_cost is not None
        self.covered += answer.coverage_cost is not None
        self.overridden += answer.override is not None
        self.without_run += answer.run is None
        values = {
            "confidence_cost": answer.confidence_cost or 0.0,
            "coverage_cost": answer.coverage_cost or 0.0,
            "override_cost": answer.override_cost or 0.0,
        }
        if answer.correction and item.fill is not None:
            holding = float(item.holding)
            self.corrected[float(item.fill)] += 1
            values["held"] = holding * answer.chosen.stock
            values["held_plain"] = holding * answer.correction.plain_stock
            values["aimed"] = answer.chosen.fill
            values["met_past"] = answer.correction.met
        if answer.cost_promised is not None:
            self.costed += 1
            values["cost_theory"] = answer.cost_chosen
            values["cost_past"] = answer.cost_promised
        if item.no_shortage is not None:
            self.by_periods += 1
            values["no_shortage_wanted"] = float(item.no_shortage)
            values["no_shortage_chosen"] = answer.chosen.no_shortage
        self.by_itself += any(remark.code == BY_ITSELF for remark in answer.remarks)
        if answer.share:
            values |= self._shared(answer, answer.share)
        if answer.is_compared:
            values |= self._compared(item, answer)
        else:
            values |= policy_sums(
                UNCOMPARED, item, answer, answer.chosen, answer.cost_chosen
            )
            values[f"demand_{UNCOMPARED}"] = asked_value(item, answer)
        for name, value in values.items():
            self.add_to(name, value)

    def _shared(self, answer: Answer, share: Share) -> dict[str, float]:
        """Counts an item that is planned together with others, and returns what it adds to sums."""
        fill, asked = answer.chosen.fill, share.weight * answer.law.mean
        low, high = self.fills.get(share.group, [fill, fill])
        self.fills[share.group] = [min(low, fill), max(high, fill)]
        self.shared[share.group] += 1
        self.least[share.group] += share.is_least
        self.half[share.group] += 2 * fill < share.wanted
        return {
            f"together {share.group}": asked,
            f"met together {share.group}": asked * fill,
        }

    def _compared(self, item: Item, answer: Answer) -> dict[str, float]:
        """Counts an item that is compared with a policy of today, and returns what it adds to sums."""
        run, saving = answer.run, answer.saving or 0.0
        self.compared += 1
        self.by_run += answer.source == RUN
        self.without_interval += bool(run and run.error is None)
        self.priced += bool(item.price)
        assert answer.today is not None
        return {
            "saving": saving,
            f"saving {answer.verdict}": saving,
            "run_saving": (run and run.saving) or 0.0,
            "run_variance": ((run and run.error) or 0.0) ** 2,
            "saving_without_run": saving * (run is None),
            "demand": asked_value(item, answer),
            **policy_sums(TODAY, item, answer, answer.today, answer.cost_today or 0.0),
            **policy_sums(CHOSEN, item, answer, answer.chosen, answer.cost_chosen),
        }

    @property
    def unserved(self) -> Remark | None:
        """Returns that some items that are planned together meet less than half of what is wanted; None if none does."""
        items = self.half.total()
        return Remark("met by less than half", {"items": items}) if items else None

    def fill(self, policy: str) -> float | None:
        """Returns the share of demand by value that policies meet at once, which are `today`, `chosen` or `uncompared`;
        None if no item has a price."""
        asked = self["demand_uncompared" if policy == UNCOMPARED else "demand"]
        return self[f"met_{policy}"] / asked if asked else None

    def service(self, policy: str) -> float | None:
        """Returns the share of demand met at once: by value, or the mean over items if none has a price."""
        fill = self.fill(policy)
        items = self.uncompared if policy == UNCOMPARED else self.compared
        if fill is None and items:
            return self[f"fill_{policy}"] / items
        return fill

    def run_ends(self, level: float) -> tuple[float, float]:
        """Returns the interval of all savings by runs. Those of different items are independent."""
        error, saving = math.sqrt(self["run_variance"]), self["run_saving"]
        half = NormalDist().inv_cdf((1 + level) / 2) * error
        return saving - half, saving + half
