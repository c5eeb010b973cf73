"""What holds for items of a catalogue whose masters say nothing: costs, a wanted fill rate, and a currency."""
from __future__ import annotations

import re
from collections.abc import Callable, Collection, Mapping, Sequence
from dataclasses import dataclass
from fractions import Fraction
from functools import partial
from typing import Any, NamedTuple, TypeVar

from ..errors import Refused, argument
from ..money import Number
from ..table import names_of
from ..vocabulary import PAIRS, Kind, Vocabulary, by_name, named, table_in, word
from ..sentences import message
from .amounts import SIGNS, amount_of, share_of
from .cells import HEADINGS, Cell, Unreadable
from .times import PERIOD, TimeReader

Made = TypeVar("Made")
ABC = (80, 95)
# What is done with rows that stand twice, and with items with far amounts.
KEEP, LEAVE_OUT = "keep", "leave-out"
MOST_CLASSES = 10  # that are named
SOURCES = MASTERS, CLASS, ORDERS, DEFAULT = (
    "masters",
    "class",
    "orders",
    "default",
)  # where a value is from
# The currencies that an ambiguous sign may stand for.
MAY_BE: Mapping[str, Collection[str]] = HEADINGS["money"]["may_be"]
CODE = re.compile("[A-Z]{3}")


class Goals(NamedTuple):
    """What is wanted of an item: a share of demand at once, or one of periods without a shortage, each None if it is not;
    and by its name where that is from, which is empty if nothing is wanted."""

    fill: Fraction | None
    no_shortage: Fraction | None
    sources: Mapping[str, str]


def shares_of(value: Any) -> dict[str, Fraction]:
    """Returns shares by class, such as {"A": "98%"} or A=98%; a single one is that of all other classes, under an empty
    name. Raises Refused."""
    stated = table_in(value, may_lack_name=True)
    return named(share_of, dict(sorted(stated.items())))


def time_in(value: Any, read: Callable[..., Any], unit: str, every: str) -> str:
    """Returns a time, or several, as a text that can be read. Raises Refused. How long it is in the periods of a plan is
    judged with these."""
    text = str(value).strip()
    try:
        read(text, unit, every)
    except Unreadable as why:
        if why.remark.code != "lead range":
            raise Refused(message(why.remark)) from why
    return text


def cuts_of(value: str | Sequence[Number]) -> tuple[int, int]:
    """Returns two rising shares in percent, such as "80,95" or (80, 95). Raises Refused."""
    parts: list[str] = []
    if isinstance(value, str):
        parts = value.split(",")
    elif isinstance(value, Sequence):
        parts = [*map(str, value)]
    if len(parts) == 2 and all(part.strip().isdecimal() for part in parts):
        first, second = map(int, parts)
        if 0 < first < second < 100:
            return first, second
    raise Refused(
        f"{value!r} are no two rising whole numbers of percent", "write 80,95"
    )


def currency_of(cell: Cell) -> str:
    """Returns the code of a currency, or its sign. Raises Refused for anything else."""
    text = str(cell).strip()
    sign = SIGNS.get(text, text)
    if sign in MAY_BE:
        return sign
    code = sign.upper()
    if not CODE.fullmatch(code):
        raise Refused(
            f"{text!r} is no code of a currency", "write three letters, as EUR"
        )
    return code


TIMES = TimeReader()
MONEY = Kind(amount_of, "float or str", "MONEY")
SHARE = Kind(share_of, "share, as 0.2 or '20%'", "SHARE")


@dataclass(frozen=True, init=False, repr=False)
class Defaults(Vocabulary):
    """What holds for items of a catalogue whose masters say nothing. What the row of an item says counts first, then its
    class, or its receipts. What items are wanted to meet `together` by class, or all others under an empty name, is the
    wanted share of items for which nothing else says one. Without any wanted share or backlog cost an item wants
    `no_shortage` in that share of periods. Raises Refused for two shares that are both of such items.
    """

    setup: Fraction | None = word(
        MONEY, help="The cost of an order, for items whose masters say none."
    )
    holding_rate: Fraction | None = word(
        SHARE,
        help="What holding costs a year, as 20% of the price, for items whose masters say no holding cost.",
    )
    fill: Fraction | None = word(
        SHARE,
        help="The share of demand that items whose masters say none meet at once, as 97%: all together, by value and at one price, "
        "with a floor for single items. Without a price an item meets it by itself.",
    )
    no_shortage: Fraction | None = word(
        SHARE,
        help="The wanted chance that a period ends with no item owed, as 95%, for items whose masters say no goal. It is no "
        "cycle service level, which is of the end of a lead time, and no fill rate.",
    )
    lead: str | None = word(
        Kind(partial(time_in, read=TIMES.leads, unit="", every="month"), "str", "TIME"),
        help="The lead time, as '14 days', of items for which neither masters nor receipts say one.",
    )
    review: str | None = word(
        Kind(
            partial(time_in, read=TIMES.span, unit=PERIOD, every="day"),
            "int or str",
            "TIME",
        ),
        help="Review items once in so many periods, as 4 or '28 days', if their masters say nothing; by default in each. s and S "
        "are then looked at on these days alone.",
    )
    service: Mapping[str, Fraction] = word(
        by_name(share_of, "dict, or texts as 'A=98%'", "CLASS=SHARE"),
        {},
        "The share that items of a class meet so, as A=98%, which counts before `fill`.",
    )
    currency: str | None = word(
        Kind(currency_of, "str", "CODE"),
        help="The currency of all money, as EUR, if the masters do not say it.",
    )
    abc: tuple[int, int] = word(
        Kind(cuts_of, "str or tuple", "SHARES"),
        ABC,
        "The shares of the value of demand, in percent, at which the classes A and B end, as 80,95.",
    )
    supplier_min: Mapping[str, Fraction] = word(
        by_name(amount_of, "dict, or texts as 'Bosch=500'", "NAME=MONEY"),
        {},
        "The least value of an order of a supplier, as Bosch=500, beside those of the masters.",
    )
    together: Mapping[str, Fraction] = word(
        Kind(shares_of, "", shape=PAIRS), {}, hidden=True
    )

    def _check(self) -> None:
        super()._check()
        others = {"fill": self.fill, "together": self.together.get("")}
        for name, share in others.items():
            if share is not None and self.no_shortage is not None:
                raise Refused(
                    f"{argument(name)} and {argument('no_shortage')} are both of all items for which nothing else says "
                    "a wanted share",
                    "leave one out",
                )

    @property
    def roles(self) -> set[str]:
        """Returns the roles of masters that each item needs and for which there is a default.

        :meta private:
        """
        roles = set()
        if self.setup is not None:
            roles.add("setup")
        if self.holding_rate is not None:
            roles.add("holding")
        return roles

    def leads(self, every: str) -> tuple[int, ...]:
        """Returns the lead times in whole periods of an item for which nothing else says one; none without a default.
        Raises Refused.

        :meta private:
        """
        leads = TIMES.leads
        return tuple(self._read("lead", leads, "", every)) if self.lead else ()

    def reviews(self, every: str) -> int:
        """Returns the periods from one review to the next of an item whose row does not say it: 1 without a default. A
        number counts periods. Raises Refused.

        :meta private:
        """
        if self.review is None:
            return 1
        return self._read("review", TIMES.review, PERIOD, every)

    def _read(
        self, name: str, read: Callable[..., Made], unit: str, every: str
    ) -> Made:
        """Returns a time in periods. Raises Refused with the name of its word."""
        stated = getattr(self, name)
        try:
            return read(stated, unit, every)
        except Unreadable as why:
            raise Refused(f"{argument(name, stated)}: {message(why.remark)}") from why

    def goals_of(self, group: str, read: Mapping[str, Any]) -> Goals:
        """Returns what is wanted of an item of a class by the values of its row, and where that is from.

        :meta private:
        """
        if read["no_shortage"] is not None:
            return Goals(read["fill"], read["no_shortage"], {"no_shortage": MASTERS})
        has_cost = read["backlog"] is not None
        stated = [
            (MASTERS, read["fill"]),
            (CLASS, self.service.get(group)),
            (DEFAULT, self.fill),
        ]
        if not has_cost:
            stated += [
                (CLASS, self.together.get(group)),
                (DEFAULT, self.together.get("")),
            ]
        for source, fill in stated:
            if fill is not None:
                return Goals(fill, None, {"fill": source})
        if self.no_shortage is not None and not has_cost:
            return Goals(None, self.no_shortage, {"no_shortage": DEFAULT})
        return Goals(None, None, {"fill": ""})

    def check_classes(self, groups: Collection[str]) -> None:
        """Raises Refused if a share is wanted for a class that no item has.

        :meta private:
        """
        shares = [("service", *pair) for pair in self.service.items()]
        shares += [("together", *pair) for pair in self.together.items() if pair[0]]
        for word, name, share in shares:
            if name not in groups:
                stated = argument(word, f"{name}={float(share):g}")
                known = names_of(sorted(filter(None, groups)), MOST_CLASSES)
                raise Refused(
                    f"{stated}: no item has the class {name!r}",
                    f"the classes are {known}",
                )


def currency_in(cell: Cell) -> str:
    """Returns the currency of a cell. Raises Unreadable."""
    try:
        return currency_of(cell)
    except Refused as why:
        raise Unreadable("no currency", cell) from why


def distinct(currencies: Mapping[str, str]) -> dict[str, str]:
    """Returns currencies without those ambiguous signs that another one of them may mean: $ beside USD is USD."""
    return {
        code: text
        for code, text in currencies.items()
        if not currencies.keys() & {*MAY_BE.get(code, ())}
    }
