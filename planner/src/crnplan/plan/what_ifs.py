"""Says what policies of an item come to if a lead time or the wanted share differs. Figures are theory's of the long run,
rounded and unproved."""
from __future__ import annotations

from collections.abc import Sequence
from dataclasses import replace
from fractions import Fraction

import numpy as np

from ..law import Law
from ..read.item import Item
from ..policies import Levels
from .answer import CHOSEN, TODAY, Answer, Figures
from .choice import best_of
from .how import Settings, without_season
from .question import Terms, rounded, terms_of
from .yearly import mean_of

TYPED, ALL_YEAR, BEST = "typed", "all_year", "best"


def what_if(
    terms: Terms,
    policies: Sequence[Levels],
    lead: int | None = None,
    share: float | None = None,
) -> list[Figures]:
    """Returns the figures of policies in boxes, and those of the best one last, if each lead time had so many periods, and
    another share were wanted. An item of which a share is asked for is planned by itself. Raises Refused if there is no
    best policy."""
    asked = terms
    if share is not None:
        name = "no_shortage" if terms.counts_periods else "fill"
        item = replace(terms.item, **{name: Fraction(share)})
        settings = replace(
            terms.settings, together={}, alike=True, prices=None, at_least=None
        )
        asked = replace(terms, item=item, settings=settings)
    if lead is not None:
        asked = replace(asked, lead=Law((lead,), (1,)))
    best = best_of(asked)[0].levels
    return [*map(asked.figures, (*policies, best))]


def asked_figures(
    item: Item,
    answer: Answer,
    settings: Settings,
    typed: Levels | None,
    lead: int | None,
    share: float | None,
) -> dict[str, Figures]:
    """Returns what the chosen policy of an item, today's, a typed one and the best one come to: see `what_if`. If neither
    lead time nor share differs, the plan's is the best. Of an item with a season all are means over the coming year, by
    the law and the chosen levels of each part of it. As those that the plan shows, typed levels are of the first; what
    comes of them if they are kept all year is there too. Raises Refused if there is no best policy.
    """
    plain, _ = without_season(item, settings)
    spans = [(part.first, part.end) for part in answer.parts] or [(0, 1)]
    rows, means = list[dict[str, Figures]](), list[float]()
    for first, _ in spans:
        terms = terms_of(plain, answer.laws_in(first), settings)
        chosen = answer.chosen_in(first).levels
        asked = {
            CHOSEN: chosen,
            TODAY: item.levels,
            TYPED: chosen if typed and rows else typed,
            ALL_YEAR: typed if answer.parts else None,
        }
        boxes = dict[str, Levels]()
        for name, levels in asked.items():
            in_boxes = rounded(levels, plain.box)
            if in_boxes:
                boxes[name] = in_boxes
        if lead is None and share is None:
            figures = [*map(terms.figures, (*boxes.values(), boxes[CHOSEN]))]
        else:
            figures = what_if(terms, [*boxes.values()], lead, share)
        rows.append(dict(zip([*boxes, BEST], figures)))
        means.append(float(terms.demand.mean))
    periods = np.array([end - first for first, end in spans], float)
    return {
        name: mean_of([row[name] for row in rows], periods, periods * means)
        for name in rows[0]
    }
