"""Says by its name what a column beside a quantity is: a part of an order, a mark, or a kind of stock.

A mark says which lines are closed.
"""
from __future__ import annotations

import re
from collections.abc import Collection, Iterator, Mapping, Sequence
from typing import TYPE_CHECKING

from .amounts import ITEM, UNITS
from .cells import HEADINGS, plain_name

if TYPE_CHECKING:
    from .sources import SourceColumn

# A role that the name of a column may have, whether it is its very name, and the words of it that are not known.
Match = tuple[str | None, bool, list[str]]
NO_MATCH: Match = (None, False, [])
# What a column of open orders has the quantity of; of one that is `OTHER` that is not known.
PARTS = OPEN, CANCELLED, RECEIVED, ORDERED = "open", "cancelled", "received", "ordered"
BARE, OTHER = "bare", "other"
# The roles that a part of an order may have.
ROLES_OF: Mapping[str, set[str]] = {
    OPEN: {"quantity"},
    BARE: {"quantity", "ordered"},
    ORDERED: {"quantity", "ordered"},
    RECEIVED: {"received"},
    CANCELLED: {"cancelled"},
}
# What is asked of a column: which lines are closed, which kind of stock is meant, which rows of demand count, what its
# numbers are, and what its marks say, if it has some.
CLOSED, KIND, ROWS, COUNT, MARK = "closed", "kind", "rows", "count", "mark"
# Whether a text says yes or no.
MARKS: Mapping[str, bool] = {
    word: mark == "yes" for mark, words in HEADINGS["marks"].items() for word in words
}
WORDS = {
    name: {*words} for name, words in (HEADINGS["parts"] | HEADINGS["asked"]).items()
}
ENDS = tuple(HEADINGS["parts"]["ends"])
BASE = {*HEADINGS["base"]["words"]}
KNOWN = WORDS["quantity"].union(*(WORDS[part] for part in PARTS))
# Words of what came back, which demand may have beside it.
RETURNED = {it for it in HEADINGS["demand"]["returned"] if " " not in it} | {"return"}
# What the name of a mark says of an item: a status, that its master is deleted, or that nothing is ordered.
OF_ITEMS = WORDS[CLOSED].union(HEADINGS["do_not_order"]["words"])
for _status in ("active", "phase out", "stopped"):
    OF_ITEMS.update(it for it in HEADINGS["statuses"][_status] if it != "a")
AMOUNT = re.compile("[2-9]|[1-9][0-9 ]+|0 [0-9]+")  # a plain text that is no mark
SHORT = re.compile("(?<=[a-z])['\u2019](?=d\\b)")  # as in Rcv'd
CAMEL = re.compile("(?<=[a-z])(?=[A-Z])")  # between the words of QtyReceived


def words_of(name: str) -> list[str]:
    """Returns the words of a name in plain form, without those that say until when it counts."""
    plain = plain_name(CAMEL.sub(" ", SHORT.sub("", name)))
    return plain.removesuffix(" to date").split()


def is_base(name: str) -> bool:
    """Returns whether the name of a column says that it counts base units, as `Quantity (Base)`."""
    return not BASE.isdisjoint(words_of(name)[1:])


def is_quantity(word: str) -> bool:
    """Returns whether a word says that a column is a quantity, as `qty` and `Fehlmenge`."""
    return word.endswith(ENDS) or word in WORDS["quantity"]


def part_of(name: str) -> str:
    """Returns of which part of an order a column has the quantity, by its name; empty if it is no quantity."""
    words = {*words_of(name)} - WORDS["filling"]
    has_quantity = any(map(is_quantity, words))
    parts = [part for part in PARTS if words & WORDS[part]]
    named = {*words} if has_quantity else words - WORDS["part"]
    says = has_quantity or any(named & WORDS[part] for part in parts)
    if not says or words & WORDS["none"]:
        return ""
    if parts[1:] == [ORDERED] and not words & WORDS[ORDERED] - WORDS["part"]:
        parts.remove(ORDERED)  # `PO received`
    if words - UNITS.keys() - KNOWN:
        return OTHER if has_quantity else ""
    if len(parts) > 1 and OPEN not in parts:
        return OTHER
    return parts[0] if parts else BARE


def parted(
    heading: Sequence[str], matches: list[Match], stated: Mapping[str, str]
) -> set[str]:
    """Gives columns of open orders the roles of what is still to come, ordered, received and cancelled, by their words,
    and returns which of these the table needs. A quantity is what was ordered if one received or cancelled stands beside
    it; what is still to come makes all others needless."""
    parts = [*map(part_of, heading)]
    is_known = not {OPEN, BARE, ORDERED}.isdisjoint(parts)
    for place, (role, is_exact, unknown) in enumerate(matches):
        if role == "quantity" and unknown and (is_known or not parts[place]):
            matches[place] = NO_MATCH
        elif role == "quantity" and not unknown and parts[place] in ("", OTHER):
            has_none = not WORDS["none"].isdisjoint(words_of(heading[place]))
            parts[place] = OPEN if is_exact or not has_none else ""
        elif role not in (None, "quantity") and not unknown:
            parts[place] = ""
    is_open = bool(stated.get("quantity", OPEN in parts))
    taken = {
        part
        for part in (RECEIVED, CANCELLED)
        if stated.get(part, not is_open and part in parts)
    }
    for place, part in enumerate(parts):
        matches[place] = _of_part(part, matches[place], is_open, taken)
    return {ORDERED} if taken and not is_open else {"quantity"}


def _of_part(part: str, match: Match, is_open: bool, taken: set[str]) -> Match:
    """Returns which role a column has that is a part of an order, beside what is open, or is taken off what is ordered."""
    if part == OPEN:
        return "quantity", True, []
    if is_open or part in (RECEIVED, CANCELLED) and part not in taken:
        is_other = part in PARTS or match[0] == "quantity"
        return NO_MATCH if is_other else match
    if part in taken:
        return part, True, []
    if taken and part in (BARE, ORDERED):
        return ORDERED, True, []
    return NO_MATCH if taken and match[0] == "quantity" else match


def narrowed(
    heading: Sequence[str], matches: Sequence[Match], amounts: Collection[str]
) -> Iterator[Match]:
    """Yields the roles of columns without those beside others of the same role that count base units, and without days
    of something else, as the last receipt. A unit of measure has its name alone: others that begin so are none.
    """
    base = set[str | None]()
    for name, (role, _, unknown) in zip(heading, matches):
        if role in amounts and is_base(name) and not unknown:
            base.add(role)
    for name, match in zip(heading, matches):
        role, is_exact, unknown = match
        is_other = role in base and not is_base(name)
        is_other |= role == "date" and not WORDS["last"].isdisjoint(unknown)
        is_other |= role in ("measure", "factor") and not is_exact
        yield NO_MATCH if is_other else match


def drop_units(columns: dict[str, SourceColumn], amounts: Collection[str]) -> bool:
    """Leaves out the unit of measure if the names of all amounts say what they count. Returns whether those of some say it,
    and there is no unit of measure for the others."""
    said = {
        columns[role].unit_said
        for role in columns.keys() - {"factor"}
        if role in amounts
    }
    measures = columns.keys() & {"measure", "factor"}
    for role in measures if "" not in said else ():
        del columns[role]
    return "" in said and said - {"", ITEM} != set() and not measures


def is_state(words: Collection[str]) -> bool:
    """Returns whether a name is that of a state, but for those of invoices and the like."""
    has_state = any(word.endswith("status") for word in words)
    has_state |= not WORDS["status"].isdisjoint(words)
    return has_state and WORDS["other"].isdisjoint(words)


def asked_of_demand(name: str, first: Collection[str]) -> str:
    """Returns what is asked of a column of demand without a role, with the plain texts of its first cells: which rows count,
    what its numbers beside the quantity are, or what its marks say."""
    said = {*words_of(name)} - WORDS["filling"]
    telling = WORDS[CLOSED] | WORDS[ROWS] | RETURNED
    is_telling = said & telling and said <= telling | WORDS["marking"]
    if is_telling or plain_name(name) in WORDS[CLOSED]:
        return COUNT if any(map(AMOUNT.fullmatch, first)) else ROWS
    part = part_of(name)
    if part == OTHER and (said & RETURNED or not said & WORDS["later"]):
        return COUNT
    if part or said & (WORDS["none"] | WORDS["harmless"]):
        return COUNT if part == CANCELLED else ""
    return MARK if MARKS.keys() >= {*first} else ""


def asked_of_master(name: str, first: Collection[str]) -> str:
    """Returns what is asked of a column of masters without a role, with the plain texts of its first cells: which items count,
    if it has marks of a status."""
    plain = f" {' '.join(words_of(name))} "
    is_state = any(f" {word} " in plain for word in OF_ITEMS)
    return ROWS if is_state and MARKS.keys() >= {*first} else ""


def asked_of_order(name: str, parts: Collection[str]) -> str:
    """Returns what is asked of a column of open orders without a role, beside quantities of some parts."""
    words = words_of(name)
    said = {*words} - WORDS["filling"]
    is_mark = said & WORDS[CLOSED] and said <= WORDS[CLOSED] | WORDS["marking"]
    if is_state(words) or is_mark or plain_name(name) in WORDS[CLOSED]:
        return CLOSED
    part = part_of(name)
    if said and said <= WORDS["later"] | WORDS["separate"] | WORDS["reserved"]:
        part = OTHER
    if not part:
        return "" if said & WORDS["none"] else MARK
    if OPEN in parts and part != OTHER:
        return ""
    is_settled = OPEN in parts or RECEIVED in parts
    return "" if is_settled and not WORDS["later"].isdisjoint(words) else COUNT


def asked_of_stock(name: str, stock: str) -> str:
    """Returns what is asked of a column of a table of stock without a role, beside the column of the stock."""
    words = {*words_of(name)}
    if is_state(words) or plain_name(name) in WORDS[KIND]:
        return KIND
    if words & WORDS["none"]:
        return ""
    if words & WORDS["separate"]:
        return "" if WORDS["free"] & {*words_of(stock)} else COUNT
    is_stock = not WORDS["stock"].isdisjoint(words) or any(map(is_quantity, words))
    return COUNT if is_stock or words & WORDS["reserved"] else MARK
