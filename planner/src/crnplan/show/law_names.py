"""Says by which law an item is planned."""
from __future__ import annotations

from ..demand import EMPIRICAL
from ..demand.fitted import FittedLaw
from ..read.item import STATED


def source_words(prior: str) -> str:
    """Returns from which items a law was learned: all, or those of a class."""
    if prior == "all":
        return "all items of the catalogue"
    return f"the items of class {prior}"


def plain_words(law: FittedLaw) -> str:
    """Returns in plain words by which law demand is planned."""
    borrowed = law.diagnostics.borrowed
    if law.family == STATED:
        return "the law that is stated for it"
    if law.family == EMPIRICAL:
        return "this history"
    if borrowed and not borrowed.alone:
        return f"the law learned from {source_words(borrowed.prior)}"
    return "the law fitted to this history"


def law_name(law: FittedLaw) -> str:
    """Returns in words what a figure is by that rests on a law: the same with what a statistician asks for."""
    its, method = law.diagnostics, law.diagnostics.method
    more = ""
    if law.family == EMPIRICAL:
        if method != EMPIRICAL and not law.is_of_leads:
            more = f"{method}: no family gives it back"
    elif its.borrowed and not its.borrowed.alone:
        if its.borrowed.share < 1:
            more = f"{1 - its.borrowed.share:.0%} from what was seen"
    elif law.family != STATED:
        more = f"{method}: " * (method != law.family) + law.family
        others = len(its.families) - 1
        if others > 0:
            more += f" {its.families.get(law.family, 1):.0%} and {others} more"
        if its.share < 1:
            more += f"; {1 - its.share:.0%} from what was seen"
    return f"{plain_words(law)} ({more})" if more else plain_words(law)
