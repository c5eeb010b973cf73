"""Tests the parser of amounts and times on random texts: against a second reader that is written from the rules alone, and
by what a text was made of. What is read is what was written, or it is refused."""
from __future__ import annotations

import re
import tomllib
from collections.abc import Sequence
from fractions import Fraction
from pathlib import Path

import pytest
from hypothesis import assume, given, settings
from hypothesis import strategies as st

import crnplan
from crnplan.read.amounts import AmountReader, amounts_of
from crnplan.read.cells import Unreadable
from crnplan.read.times import TimeReader

HEADINGS = Path(crnplan.__file__).parent / "read/headings.toml"
SIGNS = tomllib.loads(HEADINGS.read_text("utf-8"))["money"]
# A sign of money that is a code, and the other ones with the code that they stand for.
MONEY = {code: code for code in SIGNS["codes"]} | dict(SIGNS["signs"])
UNITS = {
    "days": "day",
    "D": "day",
    "wk": "week",
    "Wochen": "week",
    "Monate": "month",
    "%": "percent",
    "pcs": "item",
}
GROUPS = " \u00a0\u2009\u202f'\u2019"
BELOW = "-\u2212\u25b2\u25b3"  # a number behind one of these is below 0
PIECES = "1 12 123 0 000 045 7 234 , . ' \u2019 - + \u2212 \u25b2 \u25b3 ( ) %".split()
PIECES += "days D wk Wochen pcs moons EUR \u20ac $ US$ z\u0142 kr Ft \u5186".split()
PIECES += [" ", " ", "\u00a0", "\u202f"]
Said = tuple[Fraction, str, str]  # a number, its currency, and its unit
Lead = tuple[Fraction, str]


def number_by(text: str, decimal: str) -> Fraction | None:
    """Returns the number of digits by a decimal sign; None if they are none. A whole number has digits alone, or a first
    group of one to three that does not begin with 0, and groups of three behind one and the same sign.
    """
    whole, sign, part = text.partition(decimal)
    groups = re.escape(GROUPS + ",.".replace(decimal, ""))
    form = rf"\d+|[1-9]\d{{0,2}}([{groups}])\d{{3}}(\1\d{{3}})*"
    if not re.fullmatch(form, whole) or sign and not part.isdigit():
        return None
    return Fraction(int(re.sub(r"\D", "", whole) + part), 10 ** len(part))


def around(before: str, behind: str) -> tuple[str, str, str] | None:
    """Returns the signs, the currency and the unit of what stands around digits; None if there is something else."""
    signs = "".join(letter for letter in before if letter in f"+{BELOW}")
    first = "".join(letter for letter in before if letter not in f"+{BELOW}")
    first = "".join(first.split())
    last = behind.removeprefix("-").lstrip()
    signs += "-" * behind.startswith("-")
    word = last.removesuffix(".")
    if first not in ("", *MONEY) or first and last:
        return None
    if last in MONEY:
        return signs, MONEY[last], ""
    if not last or last in UNITS or word.isalpha():
        return signs, MONEY.get(first, ""), UNITS.get(word, last)
    return None


def read_again(text: str) -> dict[str, Said]:
    """Returns what a text says by each decimal sign."""
    wrapped = re.fullmatch(r"([^()\d]*)\(([^()]*)\)([^()\d]*)", text)
    if wrapped:
        before, inside, behind = wrapped.groups()
        text = before + inside.strip() + behind
    parts = re.fullmatch(r"([^()\d]*)(\d[^()]*\d|\d)([^()\d]*)", text)
    said = around(parts[1], parts[3]) if parts and len(text) <= 60 else None
    if parts is None or said is None:
        return {}
    signs, currency, unit = said
    signs += "-" * bool(wrapped)
    found = {}
    for decimal in ".,":
        number = number_by(parts[2], decimal)
        if number is not None and len(signs) <= 1:
            found[decimal] = (
                -number if signs not in ("", "+") else number,
                currency,
                unit,
            )
    return found


@settings(max_examples=600)
@given(st.lists(st.sampled_from(PIECES), min_size=1, max_size=9))
def test_any_pieces_are_read_as_by_the_rules(pieces: Sequence[str]) -> None:
    """Texts of digits, signs, blanks, money and units are read as the second reader reads them, by each decimal sign."""
    text, found = "".join(pieces).strip(), dict[str, Said]()
    for sign, amount in amounts_of(text).items():
        found[sign] = amount.number, amount.currency, amount.unit
    assert found == read_again(text)


def spelt(number: Fraction, decimal: str, group: str) -> str:
    """Returns a number as it is written."""
    whole, part = divmod(abs(number.numerator) * 10**6 // number.denominator, 10**6)
    decimals = f"{part:06}".rstrip("0")
    return f"{whole:,}".replace(",", group) + (decimal + decimals if decimals else "")


def number_of(digits: int, places: int) -> Fraction:
    return Fraction(digits, 10**places)


NUMBERS = st.builds(number_of, st.integers(0, 10**15 - 1), st.integers(0, 4))
FORMS = "{} +{} -{} \u2212{} {}- ({}) \u25b2{} -$\u00a0{} $({}) \u20ac{} {}EUR".split(
    " "
)


@settings(max_examples=300)
@given(
    numbers=st.lists(NUMBERS, min_size=1, max_size=5),
    decimal=st.sampled_from(".,"),
    data=st.data(),
    form=st.sampled_from([*FORMS, "- {}", "\u20ac {}", "{} EUR"]),
    is_stated=st.booleans(),
)
def test_a_column_is_read_as_it_was_written(
    numbers: Sequence[Fraction],
    decimal: str,
    data: st.DataObject,
    form: str,
    is_stated: bool,
) -> None:
    """Numbers of one column that were written alike are read as such, or refused with both readings."""
    group = data.draw(st.sampled_from(["", *GROUPS, ",.".replace(decimal, "")]))
    texts = [form.format(spelt(number, decimal, group)) for number in numbers]
    reader = AmountReader(decimal if is_stated else None, {})
    reader.look(texts)
    below = -1 if any(sign in form for sign in f"({BELOW}") else 1
    for number, text in zip(numbers, texts):
        try:
            assert reader.amount(text).number == below * number
        except Unreadable as why:
            assert not is_stated and why.remark.code == "two readings"
            assert len({*amounts_of(text).values()}) == 2


DAYS = {"day": 1, "week": 7, "month": Fraction("30.4375")}
SMALL = st.builds(number_of, st.integers(1, 5_000_000), st.integers(0, 3))
TIMES = st.one_of(st.integers(1, 400).map(Fraction), SMALL)
WORDS = {
    "day": [" days", " day", "D"],
    "week": [" wk", " Wochen", "wk"],
    "month": [" months", " Monate"],
}


@settings(max_examples=300)
@given(
    leads=st.lists(st.tuples(TIMES, st.sampled_from([*DAYS])), min_size=1, max_size=4),
    separator=st.sampled_from(["; ", ";", " / ", "|", ", ", ",", " "]),
    decimal=st.sampled_from(".,"),
    has_units=st.booleans(),
    is_stated=st.booleans(),
    data=st.data(),
)
def test_lead_times_are_read_as_they_were_written(
    leads: Sequence[Lead],
    separator: str,
    decimal: str,
    has_units: bool,
    is_stated: bool,
    data: st.DataObject,
) -> None:
    """A list of lead times is read as it was written, or refused: no number is cut, and none is lost. Units that become
    smaller behind blanks are one time. Nobody has a comma both between lead times and in them.
    """
    assume(separator != "," or decimal != ",")
    group = data.draw(st.sampled_from(["", " ", ",.".replace(decimal, "")]))
    texts, written = [], list[Lead]()
    for number, unit in leads:
        word = data.draw(st.sampled_from(WORDS[unit])) if has_units else ""
        texts.append(spelt(number, decimal, group) + word)
        written.append((number, unit if has_units else ""))
    try:
        read = TimeReader(decimal if is_stated else None).read(separator.join(texts))
    except Unreadable as why:
        assert why.remark.code in ("two readings", "no number by this sign", "no time")
        return
    units = [unit for _, unit in leads]
    if separator == " " and has_units and len({*units}) > 1:
        days = [DAYS[unit] for unit in units]
        assert days == sorted({*days}, reverse=True) and read == (tuple(written),)
    else:
        assert read == tuple((lead,) for lead in written)


@pytest.mark.parametrize(
    "text, count",
    [("14; 21; 28", 3), ("2 weeks 3 days", 1), ("12.5", 1), ("7,14,21", 3)],
)
def test_usual_lists_are_read(text: str, count: int) -> None:
    """Usual lists are not refused."""
    assert len(TimeReader().read(text)) == count
