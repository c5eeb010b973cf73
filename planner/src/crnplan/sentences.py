"""The words of everything that is said as a code with facts: one sentence for each code, without a full stop.

sentences.toml and record_sentences.toml have them as formats of Python over the facts of a remark, and over what follows from
these by the functions of DERIVED. A pair has what is said of a code, and what to do about it. Nothing reads these words
again.
"""
from __future__ import annotations

import datetime
import re
import tomllib
from collections.abc import Callable, Mapping
from functools import partial
from pathlib import Path
from typing import Any

from .spelling import argument, worded
from .formats import MOST_ITEMS
from .remarks import Remark

# What each promise rests on, beside it.
PREMISE = "if the coming year is like the last one"
MONTHS = (
    *("January", "February", "March", "April", "May", "June", "July"),
    *("August", "September", "October", "November", "December"),
)
Facts = Mapping[str, Any]
Say = str | Callable[[Facts], str]
Derive = Callable[[Facts], object]


def counted(count: int, noun: str) -> str:
    """Returns a number of things, as `1,000 items`."""
    return f"{count:,} {noun}" if count == 1 else f"{count:,} {noun}s"


def exactness(step: int | None) -> str:
    """Returns how exact theory's figures are on a lattice of so many items; None if that is exact."""
    return (
        "exact but for rounding"
        if step is None
        else f"rounded to steps of {step} items"
    )


def _templates(file: str) -> dict[str, tuple[Say, Say]]:
    """Returns what a table says of each code, and what to do about it, with its parts in place and arguments marked."""
    table = tomllib.loads(Path(__file__).with_name(file).read_text("utf-8"))
    parts: dict[str, str] = {"premise": PREMISE, **table.pop("parts", {})}

    def marked(text: str) -> str:
        whole = re.sub("<[+](.*?)>", lambda part: parts[part[1]], text)
        return re.sub(
            "<(.*?)(?:=(.*?))?>", lambda name: argument(name[1], name[2] or ""), whole
        )

    pairs: dict[str, tuple[Say, Say]] = {}
    for code, said in table.items():
        what, advice = (said, "") if isinstance(said, str) else said
        pairs[code] = marked(what), marked(advice)
    return pairs


def _several(which: int) -> Say:
    """Returns the function that gives what is wrong with several cells of a row, or what to do about them."""

    def said(facts: Facts) -> str:
        words: dict[str, None] = {}
        for place in filter(str.isdecimal, facts):
            own = {
                name.removeprefix(f"{place} "): value
                for name, value in facts.items()
                if name != place
            }
            words[_said(WORDS[facts[place]][which], own)] = None
        return " and ".join(filter(None, words))

    return said


# What follows from the facts of an answer to an item (plan/one.py).
def _owner(facts: Facts) -> str:
    return "all items" if facts["prior"] == "all" else f"class {facts['prior']}"


def _allowed_fill(facts: Facts) -> str:
    if facts["low"] is None:
        return ""
    return f"; by 80% of the laws that this allows it meets {facts['low']:.1%} to {facts['high']:.1%} of demand at once"


def _sums_of_paths(facts: Facts) -> str:
    if facts["is_apart"]:
        return f"of which each is taken by itself, as {facts['together']} in a row lack"
    return f"that of sums of {facts['together']} in a row, over their number"


def _but_promotions(facts: Facts) -> str:
    promoted = facts.get("promoted")
    if not promoted:
        return ""
    return f", but for {counted(promoted, 'promoted period')}"


def part_of_year(part: int, days: int) -> str:
    """Returns the words for a part of the year, from 0 on: its first day if parts have so many days, or its month if they
    have 0."""
    if not days:
        return MONTHS[part]
    first = datetime.date(2001, 1, 1) + datetime.timedelta(part * days)
    return f"the {days} days from {first.day} {MONTHS[first.month - 1]}"


def _in_year(name: str) -> Derive:
    """Returns the function that gives the words for the part of the year at a fact."""
    return lambda facts: part_of_year(facts[f"part_{name}"], facts["days"])


def _how_known(facts: Facts) -> str:
    return "nearly that of the catalogue" if facts["learned"] else "hardly known"


def _no_interval(facts: Facts) -> str:
    if facts["orders"] >= 2:
        return "the difference is the same in all replications"
    return "the rarer policy places fewer than 2 orders in all replications"


def _meets(facts: Facts) -> str:
    return "has no shortage in" if facts.get("of_periods") else "meets"


def _of_what(facts: Facts) -> str:
    return "of periods" if facts.get("of_periods") else "of demand at once"


def _wanted(facts: Facts) -> str:
    if facts.get("of_periods"):
        return "its share of periods without a shortage"
    return "its fill rate"


def _not_reached(facts: Facts) -> str:
    if facts["fill"] is None:
        return "is best"
    return f"{_meets(facts)} {facts['fill']:g} {_of_what(facts)}"


# What follows from the facts of a catalogue (read/defaults.py, plan/catalogue.py).
SOURCES = {
    "masters": "the masters",
    "class": "the class",
    "orders": "receipts of orders",
    "default": "the default",
}


def _sources(facts: Facts) -> str:
    parts = [
        f"{counted(facts[source], 'item')} by {words}"
        for source, words in SOURCES.items()
        if facts[source]
    ]
    return ", ".join(parts)


def _and_classes(facts: Facts) -> str:
    return f" and {facts['classes']:,} classes" if facts["classes"] else ""


# What follows from the facts of what may have moved a policy (plan/changes.py, plan/after.py).
def _in_rows(facts: Facts) -> str:
    return "" if facts["rows"] is None else f" in {counted(facts['rows'], 'row')}"


def _spelt(value: object) -> str:
    if isinstance(value, float):
        return f"{value:g}"
    return "none" if value in (None, "") else str(value)


def _moved(facts: Facts) -> str:
    """Returns how values have changed whose names stand before `before` and `after`."""
    moves = []
    for fact in facts:
        name = fact.removesuffix(" after")
        if name != fact:
            moves.append(
                f"{name} {_spelt(facts[f'{name} before'])} to {_spelt(facts[fact])}"
            )
    return ", ".join(moves)


def _policy_today(facts: Facts) -> str:
    if facts["s"] is None:
        return "no policy is in use today"
    earlier = ", that of the earlier plan" if facts["earlier"] else ""
    return f"today's policy is ({facts['s']}, {facts['S']}){earlier}"


# What follows from the facts of the checks of a history (demand/checks.py).
WEEKDAYS = "Monday Tuesday Wednesday Thursday Friday Saturday Sunday".split()
QUARTERS = (
    "January to March",
    "April to June",
    "July to September",
    "October to December",
)


def _compared(change: float) -> str:
    return f"{abs(change):.0%} {'above' if change >= 0 else 'below'}"


def _trend(facts: Facts) -> str:
    if facts["change"] is None:
        return "the first third has no demand"
    return (
        f"the mean of the last third is {_compared(facts['change'])} that of the first"
    )


def _shift(facts: Facts) -> str:
    if facts["change"] is None:
        return f"there is no demand before {facts['name']}"
    return (
        f"from {facts['name']} on the mean is {_compared(facts['change'])} that before"
    )


def _part(facts: Facts, name: str) -> str:
    first, last = facts[f"{name}_first"], facts[f"{name}_last"]
    if facts["unit"] == "weekday":
        return f"on {WEEKDAYS[first - 1]}s"
    if facts["unit"] != "place":
        return f"from {QUARTERS[first - 1]}"
    periods = f"period {first}" if first == last else f"periods {first} to {last}"
    return f"in {periods} of {facts['length']}"


def _season(facts: Facts) -> str:
    most, least = _part(facts, "most"), _part(facts, "least")
    return (
        f"{facts['most']:.2g} times the mean {most}, {facts['least']:.2g} times {least}"
    )


def _autocorrelation(facts: Facts) -> str:
    text = f"autocorrelation {facts['at_1']:.2f} at lag 1"
    if facts["lag"] != 1:
        text += f", {facts['at_lag']:.2f} at lag {facts['lag']}"
    return text


def _since(facts: Facts) -> str:
    """Returns how a plan is made from a shift on: by the argument if the record has dates."""
    since = facts.get("since")
    return (
        argument("start", since)
        if since
        else f"leave out the rows before {facts.get('name')}"
    )


# What is found by each test, what follows from that in words, and what to do about it.
TESTS = {
    "trend": (
        "demand has a trend",
        _trend,
        "Plan from the part of the record that is like what you expect "
        f"({argument('start')}, or fewer rows)",
    ),
    "shift": (
        "the level of demand has changed",
        _shift,
        "If that is for good, plan from the record since then ({since})",
    ),
    "season": (
        "demand has a season",
        _season,
        "Plan each part of the season from its own periods, with levels of its own",
    ),
    "weekday": (
        "demand follows the weekdays",
        _season,
        f"Take weeks ({argument('every', 'week')})",
    ),
    "autocorrelation": (
        "periods are not independent",
        _autocorrelation,
        "Ask what comes in runs (projects, campaigns, one customer), and plan that apart",
    ),
}


def _heeded(name: str, facts: Facts) -> str:
    """Returns what to do about a warning."""
    if name == "autocorrelation" and facts["beside"]:
        return "What the other warnings say may be why"
    if name == "autocorrelation" and facts["at_1"] < 0:
        return "High and low periods take turns, so a plan from the table holds too much; ask who orders in turns"
    return TESTS[name][2].format(since=_since(facts))


def _largest(facts: Facts) -> str:
    ranks = [rank for rank in range(1, 4) if f"demand_{rank}" in facts]
    return ", ".join(
        f"{facts[f'demand_{rank}']} in {facts[f'period_{rank}']}" for rank in ranks
    )


def _untested(facts: Facts) -> str:
    return "weekdays are" if facts["season"] == "weekday" else "a season is"


# What follows from the facts of suggestions (theory/suggestions.py).
# What follows from facts, by its name in the tables of words.
DERIVED: dict[str, Derive] = {
    "owner of the law": _owner,
    "allowed fill": _allowed_fill,
    "how it is known": _how_known,
    "whose record": lambda facts: "its own" if facts["is_own"] else "its class",
    "sums of paths": _sums_of_paths,
    "but promotions": _but_promotions,
    "part of most": _in_year("most"),
    "part of least": _in_year("least"),
    "periods with demand": lambda facts: counted(facts["demands"], "period"),
    "reason of no interval": _no_interval,
    "meets": _meets,
    "of what": _of_what,
    "what is wanted": _wanted,
    "what is not reached": _not_reached,
    "most items": lambda facts: f"{MOST_ITEMS:,}",
    "sources": _sources,
    "for a reason": lambda facts: f" ({facts['reason']})" if facts["reason"] else "",
    "and classes": _and_classes,
    "in rows": _in_rows,
    "moves": _moved,
    "policy today": _policy_today,
    "largest": _largest,
    "what is untested": _untested,
    "far": lambda facts: abs(facts["today"] - facts["mean"]),
    "side": lambda facts: "above" if facts["today"] > facts["mean"] else "below",
    **{f"found {name}": found for name, (_, found, advice) in TESTS.items()},
}


class _Known(dict[str, Any]):
    """Facts, and those that follow from them: also `counted things` of the number `things`."""

    def __missing__(self, name: str) -> object:
        if name in DERIVED:
            return DERIVED[name](self)
        things = name.removeprefix("counted ")
        if things == name:
            raise KeyError(name)
        return counted(self[things.rpartition(" ")[2]], things.removesuffix("s"))


class _Blank(str):
    """A fact that is left out."""

    def __format__(self, style: str) -> str:
        return "\u2026"

    def __repr__(self) -> str:
        return "\u2026"


class _Blanked(dict[str, Any]):
    """Blanks in place of facts, and what follows from the facts themselves."""

    def __init__(self, facts: Facts) -> None:
        super().__init__(dict.fromkeys(facts, _Blank()))
        self.known = _Known(facts)

    def __missing__(self, name: str) -> object:
        return self.known[name]


# What is said of a code, and what to do about it.
WORDS: dict[str, tuple[Say, Say]] = {
    **_templates("sentences.toml"),
    **_templates("record_sentences.toml"),
    "several": (_several(0), _several(1)),
}
for _name in TESTS:
    _title, _found = TESTS[_name][0], f"{{found {_name}}}"
    WORDS[f"found {_name}"] = _found, ""
    WORDS[_name] = f"{_title}: {_found} (p {{p:.3f}})", partial(_heeded, _name)


def _said(say: Say, facts: Facts) -> str:
    if isinstance(say, str):
        return say.format_map(_Known(facts))
    return say(facts)


def sentence(remark: Remark) -> str:
    """Returns what is said of a remark, without a full stop."""
    return worded(_said(WORDS[remark.code][0], remark.facts))


def pattern(remark: Remark) -> str:
    """Returns what is said of all remarks with this code: facts are left out. Words that a function makes, or that are
    a fact alone, are those of this remark."""
    say = WORDS[remark.code][0]
    if isinstance(say, str):
        text = worded(say.format_map(_Blanked(remark.facts)))
        if any(map(str.isalpha, text)):
            return text
    return sentence(remark)


def advice(remark: Remark) -> str:
    """Returns what to do about a remark; nothing if there is no advice."""
    return worded(_said(WORDS[remark.code][1], remark.facts))


def message(remark: Remark, sign: str = "; ") -> str:
    """Returns what is said of a remark, and what to do about it, before arguments are spelt."""
    what, advice = WORDS[remark.code]
    return sign.join(
        filter(None, [_said(what, remark.facts), _said(advice, remark.facts)])
    )


def advised(remark: Remark) -> str:
    """Returns what is said of a remark, and what to do about it."""
    return worded(message(remark, ". "))
