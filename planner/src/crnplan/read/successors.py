"""Gives items that succeed others the demand of these, as masters state it: that of a chain of items, each period's.

A successor has the history of its predecessors before its own; in periods of several, the demand of all. A predecessor is
phased out. Either of both may state it, or both. A chain that leads back to an item, two successors of one item, and a predecessor that is stated to be active
are refused, since the demand of an item would count twice.
"""
from __future__ import annotations

import itertools
from collections.abc import Callable, Iterable, Mapping
from dataclasses import replace
from typing import Any

from ..errors import Refused
from ..remarks import Remark, Value
from ..sentences import message
from .dates import period_name
from .item import PHASE_OUT, STOPPED, Item, some
from .items import Reading
from .quiet import QUIET, quiet_remark
from .status import ACTIVE, past_of

Find = Callable[[str], Item | None]
Pair = tuple[str, str]  # an item and the one that succeeds it


def summed(item: Item, old: Item) -> Item:
    """Returns an item with the demand, and what came back, of another one too, from the first period of both on. A
    period is known if that of each is, and promoted if that of one is."""
    first = min(item.first, old.first)
    facts: dict[str, Any] = {"first": first}
    for name in ("counts", "returns"):
        rows = list[tuple[int, ...]]()
        for part in (item, old):
            amounts = getattr(part, name) or (0,) * len(part.counts)
            rows.append((0,) * (part.first - first) + amounts)
        facts[name] = tuple(map(sum, zip(*rows, strict=True)))
    places = {name: set[int]() for name in ("unknown", "cut", "promoted", "seen")}
    for part in (item, old):
        own = {**vars(part), "seen": {*part.unknown} - {*part.cut}}
        for name, joint in places.items():
            joint.update(part.first - first + place for place in own[name])
    places["cut"] -= places.pop("seen")
    facts |= {name: tuple(sorted(joint)) for name, joint in places.items()}
    return replace(item, **facts | {"returns": some(facts["returns"])})


def chain_of(name: str, successors: Mapping[str, str]) -> list[str]:
    """Returns an item and those that succeed it, one behind the other. Raises Refused for a chain that leads back."""
    chain = [name]
    while (heir := successors.get(chain[-1])) is not None:
        chain.append(heir)
        if heir in chain[:-1]:
            items = " > ".join(reversed(chain))
            raise refused("successors in a circle", items=items)
    return chain


def successors_in(pairs: Iterable[Pair]) -> dict[str, str]:
    """Returns the successor of each item that has one, each item behind those that it succeeds. Raises Refused for chains
    that lead back to an item, and for an item with two successors."""
    distinct = sorted({*pairs})
    successors = dict(distinct)
    chains = {old: chain_of(old, successors) for old in successors}
    for (old, first), (other, second) in itertools.pairwise(distinct):
        if old == other:
            raise refused("two successors", item=old, items=f"{first} and {second}")
    longest_first = sorted(successors, key=lambda old: -len(chains[old]))
    return {old: successors[old] for old in longest_first}


def refused(code: str, **facts: Value) -> Refused:
    return Refused(message(Remark(code, facts)))


def succeeded(pairs: Iterable[Pair], find: Find, words: Reading) -> dict[str, Item]:
    """Returns the items that change: those that succeed another one, and these. `find` gives an item that was read, or
    None. Raises Refused."""
    changed = dict[str, Item]()
    for name, new in successors_in(pairs).items():
        old, item = (changed.get(each) or find(each) for each in (name, new))
        if old is None:
            assert item is not None
            unknown = Remark("unknown predecessor", {"item": name})
            changed[new] = with_remark(item, unknown)
            continue
        ended = old if old.status == STOPPED else replace(old, past=PHASE_OUT)
        code = "unknown successor" if item is None else "succeeded"
        changed[name] = with_remark(ended, Remark(code, {"item": new}))
        if item is None:
            continue
        if old.status == ACTIVE:
            raise refused("active predecessor", item=name, successor=new)
        changed[new] = heir(item, old, words)
    return changed


def heir(item: Item, old: Item, words: Reading) -> Item:
    """Returns an item that succeeds another one, with its demand."""
    joint = summed(item, old)
    past = past_of(joint, words)
    first = period_name(old.first, words.every)
    # Its own record said that: the joint one is judged anew.
    remarks = [remark for remark in item.remarks if remark.code != QUIET]
    facts: dict[str, Value] = {"items": sum(old.known.counts), "first": first}
    remarks.append(Remark("successor", {"item": old.name, **facts}))
    joint = replace(joint, past=past, remarks=tuple(remarks))
    if past == STOPPED and item.status != STOPPED:
        joint = with_remark(joint, quiet_remark(joint, words.every))
    return joint


def with_remark(item: Item, remark: Remark) -> Item:
    return replace(item, remarks=(*item.remarks, remark))
