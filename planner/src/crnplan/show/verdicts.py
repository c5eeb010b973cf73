"""The words of verdicts on items and on the past of a catalogue, which sentences.toml has."""
from __future__ import annotations

from collections.abc import Sequence
from typing import NamedTuple

from ..columns import declared
from ..remarks import Remark


class Verdict(NamedTuple):
    """What a verdict says of an item, with place for today's policy; what it means for a reader; and the style of what is
    better or worse."""

    meaning: str
    said: str = ""
    style: str = ""


WORDS = declared("show/texts.toml")
# By verdict, in the order in which a page names them.
VERDICTS = {name: Verdict(**words) for name, words in WORDS["verdicts"].items()}
PAST: dict[str, str] = WORDS["past"]
GAIN: dict[str, str] = WORDS["gain"]


class MethodWords(NamedTuple):
    """The name of a method that a test runs, what it is, and the style of its lines."""

    name: str
    meaning: str
    style: str = ""


METHOD_WORDS = {code: MethodWords(*words) for code, words in WORDS["methods"].items()}


def past_said(verdict: Remark) -> str:
    """Returns what a verdict says of the past of a catalogue."""
    return PAST[verdict.code].format(**verdict.facts)


def gain_said(gain: Remark) -> str:
    """Returns what a way needs beside the plan that meets as much."""
    return GAIN["one"].format(name=METHOD_WORDS[gain.code].name, **gain.facts)


def gains_said(gains: Sequence[Remark], word: str = "less") -> str:
    """Returns which ways need less than the plan, or more, the best first, and how much."""
    if not gains:
        return GAIN["none"]
    return f"{GAIN[word]}: {', '.join(map(gain_said, gains))}"
