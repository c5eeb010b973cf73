"""Makes items of the rows of a catalogue: their demand by period, lead times and masters, or why they are left out."""
from __future__ import annotations

import functools
from collections import Counter
from collections.abc import Callable, Iterator, Mapping, Sequence
from dataclasses import replace
from fractions import Fraction

import numpy as np

from ..formats import MOST_ITEMS
from ..remarks import Remark, Value
from .cells import Flags, Numbers, fault, named_lines, printable, text_of
from .marks import named_values, places_of
from .controls import Controls, controls_of, together
from .dates import period_name, periods_of_days
from .defaults import LEAVE_OUT
from .table_files import WholeTables
from .item import PHASE_OUT, STOPPED, Item, overridden, some
from .items import OUTSIDE, Left, Reject, Reading
from .leads import remark_on
from .masters import Master, Masters
from .moves import (
    NO_SPANS,
    OUT,
    Movements,
    is_marked,
    outages_in,
    places_of_spans,
    receipts_in,
    unread_in,
)
from .observed import summed, sums_of
from .law_forms import LAWS
from .quiet import quiet_remark
from .repeated import is_called_total, total_rows
from .rows import Rows
from .sources import NONE
from .stated_laws import StatedLaws
from .status import past_of
from .tables import PLACES, REJECTED, USED, WITH_ITEM, TableReader

# What items are counted by.
COUNTED = ("open_orders", "twice", "named", "ready", "left_out", "late")


def check_level(item: Item) -> None:
    """Raises Left for an item whose S is more than the program counts."""
    if item.levels and round(item.levels[1] / item.box) > MOST_ITEMS:
        wrong = fault("S", item.levels[1], "S too large", most=MOST_ITEMS)
        raise Left("items", item.line, wrong)


class Reader:
    """Makes the items of a catalogue, or of a part of it, and hands them on with what is left out."""

    def __init__(
        self,
        rows: Mapping[str, Rows],
        words: Reading,
        whole: WholeTables,
        add: Callable[[Reject], None] | None = None,
    ) -> None:
        """Finds the movements of items in the rows, which may be those of a part of the items. What is left out or
        suspicious is handed on to `add`, if it is given."""
        self.rows = rows
        self.words = words
        self.whole = whole
        self.record = whole.record
        self.decimals = 0
        self.names = rows["items"].names
        self.tables = dict[str, TableReader]()
        for kind, own in rows.items():
            dates = whole.dates[kind]
            self.tables[kind] = TableReader(kind, own, dates, whole.amounts, add)
        self.demand = self.tables["demand"]
        self.is_named = add is not None
        masters = rows["items"]
        for row in np.flatnonzero(total_rows(rows, whole.sums, whole.amounts)).tolist():
            total = fault("item", masters.cell("item", row), "total")
            self.tables["items"].reject(row, [total])
            masters.good[row] = False
        self.masters = Masters(self.tables["items"], whole, words)
        self.masters_of = masters.by_item(masters.good)
        self.sources = Counter[tuple[str, str]]()
        self.letters = dict[int, str]()
        self.twice = Counter[int]()
        self.numbers = Counter(dict.fromkeys(COUNTED, 0))
        self.moves_of, totals = self._moves()
        self.outages_of = NO_SPANS
        if OUT in self.tables:
            self.outages_of = outages_in(self.tables[OUT], self.record)
        self.laws = None
        if LAWS in self.tables:
            self.laws = StatedLaws(self.tables[LAWS], words.every)
        known = self.places.keys() - totals
        self.items = sorted(known, key=self.names.__getitem__)

    @functools.cached_property
    def named(self) -> Callable[[int], Numbers]:
        """Returns the function that gives the rows of demand of an item."""
        return self.demand.rows.by_item(self.demand.rows.good)

    @functools.cached_property
    def places(self) -> dict[int, tuple[str, int]]:
        """Returns the table and the line of the first good row of each item."""
        places = dict[int, tuple[str, int]]()
        for kind, own in self.rows.items():
            items, firsts = np.unique(own.items[own.good], return_index=True)
            lines = own.lines[own.good][firsts].tolist()
            for item, line in zip(items.tolist(), lines):
                places.setdefault(item, (kind, line))
        return places

    def _items_of(self, *kinds: str) -> set[int]:
        """Returns the items of some tables, also of rows that can't be used."""
        items = set[int]()
        for own in (self.rows[kind] for kind in kinds if kind in self.rows):
            items.update(own.items[~own.other].tolist())
        return items

    @functools.cached_property
    def asked(self) -> set[int]:
        """Returns the items of masters that have demand or a stated law."""
        return self._items_of("items") & self._items_of("demand", LAWS)

    def _is_lost(self, item: int) -> bool:
        """Returns whether an item that is left out would else be planned: it is asked for, and its status does not end
        it."""
        values, _ = self.masters.values(self._row(item))
        status, _ = values["status"] or ("", "")
        return item in self.asked and status not in (STOPPED, PHASE_OUT)

    def values(self) -> list[Fraction | None]:
        """Returns the value of the mean demand of each item, in order of names; None without a price or demand."""
        return [self._value_of_demand(item) for item in self.items]

    def _value_of_demand(self, item: int) -> Fraction | None:
        moves = self.moves_of(item).known
        price = self.masters.price(self._row(item))
        if price is None:
            return None
        if not len(moves.lines):
            mean = self.laws.mean(item) if self.laws else None
            return None if mean is None else price * mean
        first = self.record.first_of(int(moves.periods.min()))
        periods = self.record.periods.stop - first
        unknown = [*set[int]().union(*self._unknown(item, first, periods))]
        is_known = ~np.isin(moves.periods - first, unknown)
        asked = int(moves.asked[is_known].sum())
        if asked <= 0:
            return None
        return price * Fraction(asked, periods - len(unknown))

    def _row(self, item: int, is_sure: bool = False) -> int | None:
        """Returns the first row of the master of an item; None if it has none, or several if one must be sure."""
        rows = self.masters_of(item)
        if not len(rows) or is_sure and not self._are_equal(rows):
            return None
        return int(rows[0])

    def _are_equal(self, masters: Numbers) -> bool:
        return len({*self.rows["items"].hashes[masters].tolist()}) <= 1

    def read(self, letters: Sequence[str]) -> Iterator[Item]:
        """Yields all items in order of names, in which their classes by value are given. Those of totals alone are
        none."""
        self.letters = dict(zip(self.items, letters, strict=True))
        receipts_of = NO_SPANS
        if "orders" in self.tables:
            orders = self.tables["orders"]
            receipts_of, is_open = receipts_in(orders, self.words.every)
            self.numbers["open_orders"] += is_open
        became = dict[int, str]()
        for item in self.items:
            moves = self.moves_of(item)
            self.numbers["named"] += 1
            try:
                yield self._item(item, moves, *receipts_of(item).tolist())
                became[item] = USED
                self.numbers["ready"] += 1
            except Left as left:
                kind, line, *faults = left.args
                value = self.masters.value(self._row(item, is_sure=True))
                name, rows = self.names[item], len(moves.lines)
                self.tables[kind].name("item", line, name, faults, rows, value)
                became[item] = WITH_ITEM
                self.numbers["left_out"] += 1
                if self._is_lost(item):
                    self.numbers["lost"] += 1
        for table in self.tables.values():
            table.close(became)

    def controls(self) -> Controls:
        """Returns the controls of all rows, after all items were read."""

        @functools.cache
        def price_of(item: int) -> Fraction | None:
            return self.masters.price(self._row(item, is_sure=True))

        return together(
            controls_of(table, price_of, self.words.factors)
            for table in self.tables.values()
        )

    def _moves(self) -> tuple[Callable[[int], Movements], set[int]]:
        """Returns the function that gives the movements of an item, and the items of totals alone. Rows with faults,
        and twins if they are to be left out, are rejected."""
        demand = self.demand
        rows = demand.rows
        words = self.words
        days = demand.read_days("date", self.record.check)
        is_net = words.net or words.negate
        asked = demand.read_amounts("quantity", "whole" if is_net else "sales")
        back = np.zeros_like(asked)
        if "returned" in rows.columns:
            back = demand.read_amounts("returned", "returns")
        if words.negate:
            asked = -asked
        sizes = rows.sizes(words.factors)
        asked, back = asked * sizes, back * sizes
        marked = np.zeros_like(asked)
        if "promotion" in rows.columns:
            marked = demand.read_whole("promotion", is_marked)
        blank = demand.blank("quantity")
        bad = demand.bad & ~blank
        blank &= words.empty != NONE
        totals = self._reject_moves(np.flatnonzero(rows.good & bad))
        good = self._without_twins(rows.good & ~bad)
        periods = periods_of_days(days, words.every)
        unread = unread_in(demand, bad, blank, np.stack([periods, periods, asked]))
        self.gaps_of, self.undated_of, counts = unread
        self.numbers.update(counts)
        facts = np.stack([rows.lines, periods, asked, back, blank, marked])
        moves = rows.by_item(good, facts)
        return lambda item: Movements(*moves(item)), totals

    def _reject_moves(self, bad: Numbers) -> set[int]:
        """Rejects rows of demand with what is wrong with their cells, and returns the items that are no items: those of
        totals alone. A row is one if it looks so, and has no date."""
        rows = self.demand.rows
        totals = Counter[int]()
        for row, item in zip(bad.tolist(), rows.items[bad].tolist()):
            faults = self.demand.faults(row)
            if rows.cell("date", row) == "" and is_called_total(self.names[item]):
                faults = [fault("item", self.names[item], "total")]
                totals[item] += 1
            self.demand.reject(row, faults)
        alone = {item for item in totals if totals[item] == len(self.named(item))}
        for kind, others in self.rows.items():
            if alone and kind != "demand":
                alone -= {*others.items[others.good].tolist()}
        return alone

    def _without_twins(self, good: Flags) -> Flags:
        """Names the rows that are the same as others, once for each item, and takes them out if that is wanted."""
        demand = self.demand
        leaves = self.words.twice == LEAVE_OUT
        if not (self.is_named or leaves):
            return good
        lines = demand.rows.lines.tolist()
        called = demand.rows.sheet.called
        firsts = demand.rows.twins(good)
        twins_of = dict[int, list[int]]()
        for row in firsts:
            twins_of.setdefault(int(demand.rows.items[row]), []).append(row)
        for item, twins in sorted(twins_of.items()):
            self.twice[item] = count = len(twins)
            name = self.names[item]
            twin = fault(
                "item",
                name,
                "twins" if count > 1 else "twin",
                count=count,
                lines=named_lines([called(lines[row]) for row in twins]),
                first=called(lines[firsts[twins[0]]]),
            )
            what = "row" if leaves else "suspicious"
            demand.name(what, lines[twins[0]], name, [twin], count * leaves)
        self.numbers["twice"] += len(firsts)
        if leaves:
            good = good.copy()
            good[[*firsts]] = False
            demand.states[[*firsts]] = PLACES[REJECTED]
        return good

    def _item(
        self, code: int, moves: Movements, leads: Sequence[int], receipts: Sequence[int]
    ) -> Item:
        """Returns an item by its code, with what its orders took in periods and in days. Raises Left."""
        self._check_measures(code)
        master = self._master(code, leads, moves)
        far = moves.far(self.demand.rows.sheet.called)
        if far and self.words.far == LEAVE_OUT:
            raise Left("demand", *far)
        stated = self.laws and self.laws.law(code, master.item.leads)
        first = self._first(master.since, moves.known)
        if stated and not len(moves.lines):
            first = self.record.periods.stop  # It has no history.
        asked, back, netted = self._counts(moves.known, first)
        gaps, cut = self._unknown(code, first, len(asked))
        item = replace(
            master.item,
            law=stated and stated.law,
            counts=tuple(asked),
            returns=some(back),
            unknown=tuple(sorted(gaps | cut)),
            cut=tuple(sorted(cut)),
            promoted=tuple(sorted(moves.promoted_places(first, len(asked)))),
            first=first,
            rows=len(moves.lines),
            abc=self.letters.get(code, ""),
            receipts=tuple(receipts),
        )
        item = replace(item, past=past_of(item, self.words))
        check_level(item)
        self.decimals = max(self.decimals, master.decimals)
        self.sources.update(master.sources.items())
        is_bare = stated is not None and not asked
        is_late = not is_bare and self._begins_late(first, master)
        self.numbers["late"] += is_late
        self._note_unknown(item, moves)
        remarks = tuple(self._remarks(item, code, is_late, netted))
        if stated:
            remarks = (stated.remark, *remarks)
            self.numbers.update(stated=1, bare=is_bare)
        return overridden(replace(item, remarks=remarks), item.override)

    def _begins_late(self, first: int, master: Master) -> bool:
        """Returns whether an item's record begins after that of the table, without a word of its master."""
        return first > self.record.periods[0] and master.since is None

    def _unknown(self, code: int, first: int, count: int) -> tuple[set[int], set[int]]:
        """Returns the places of the periods of which a row of an item has no amount that can be read, of so many from one
        on, and those of the others in which it was out of stock."""
        gaps = places_of_spans(self.gaps_of(code), first, count)
        return gaps, places_of_spans(self.outages_of(code), first, count) - gaps

    def _note_unknown(self, item: Item, moves: Movements) -> None:
        """Counts the promoted and the unknown periods of an item, and names the rows that leave these so, if no word says
        that they do."""
        counted = {"promoted": item.promoted, "unknown": item.unknown, "cut": item.cut}
        for name, places in counted.items():
            if places:
                self.numbers[name] += 1
                self.numbers[f"{name}_periods"] += len(places)
        lines = moves.lines[moves.blank == 1].tolist()
        if lines and item.unknown and self.words.empty is None:
            named = named_lines([*map(self.demand.rows.sheet.called, lines)])
            what = fault("quantity", "", "unknown rows", lines=named, rows=len(lines))
            self.demand.name("suspicious", lines[0], item.name, [what])

    def _remarks(
        self, item: Item, code: int, is_late: bool, netted: int
    ) -> Iterator[Remark]:
        """Yields what is to be said of an item and of its rows: of where it begins, of the amounts that were taken off
        earlier periods, and of the rows that stand twice."""
        masters, twins = len(self.masters_of(code)), self.twice[code]
        if masters > 1:
            yield Remark("equal masters", {"masters": masters})
        if item.first > self.record.periods[0] and not (item.law and not item.counts):
            start = period_name(item.first, self.words.every)
            yield Remark("late" if is_late else "since", {"period": start})
        if item.box > 1:
            yield Remark("boxes", {"items": item.box})
        facts: dict[str, Value] = {"every": self.words.every, "of": len(item.counts)}
        if len(item.unknown) > len(item.cut):
            gaps = len(item.unknown) - len(item.cut)
            yield Remark("unknown periods", {**facts, "periods": gaps})
        if item.cut:
            yield Remark("out of stock", {**facts, "periods": len(item.cut)})
        _, _, undated = self.undated_of(code)
        if undated.size:
            lost = {"rows": undated.size, "items": int(undated.sum())}
            yield Remark("undated rows", {**facts, **lost})
        if item.promoted:
            yield Remark("promoted", {**facts, "periods": len(item.promoted)})
        if netted:
            yield Remark("taken off earlier", {"amounts": netted})
        if item.stock and item.stock < 0:
            yield Remark("stock below 0", {"owed": float(-item.stock)})
        if twins:
            yield Remark("rows twice", {"rows": twins})
        if item.past in (STOPPED, PHASE_OUT):
            if item.status == item.past:
                yield Remark("stated status", {"status": item.past})
            else:
                yield quiet_remark(item, self.words.every)
        late = remark_on(item, self.words.lead_from)
        if late:
            yield late

    def _first(self, since: int | None, moves: Movements) -> int:
        """Returns where the history of an item begins: in the period since when its master has it, which may be behind the
        record, or earlier if it was seen then. Without that as it is seen first, and with the record if it never is.
        """
        periods = self.record.periods
        seen = [int(moves.periods.min())] if len(moves.lines) else []
        if since is not None:
            return min(max(min([since, *seen]), periods.start), periods.stop)
        return self.record.first_of(seen[0]) if seen else periods.start

    def _counts(self, moves: Movements, first: int) -> tuple[list[int], list[int], int]:
        """Returns demand and returns by period from one on, and how many amounts were taken off earlier periods. Raises
        Left."""
        periods = self.record.periods.stop - first
        if not len(moves.lines):
            return [0] * periods, [], 0
        asked, netted, unmet = summed(moves.periods - first, moves.asked, periods)
        if unmet is not None:
            amount = int(moves.asked[unmet])
            period = period_name(int(moves.periods[unmet]), self.words.every)
            wrong = fault(
                "quantity", amount, "unmet return", amount=-amount, period=period
            )
            raise Left("demand", int(moves.lines[unmet]), wrong)
        if not moves.back.any():
            return asked, [], netted
        back = sums_of(moves.periods - first, moves.back, periods).tolist()
        returned = sum(back)
        if returned >= sum(asked):
            wrong = fault(
                "quantity", returned, "all comes back", back=returned, asked=sum(asked)
            )
            raise Left("demand", 0, wrong)
        return asked, back, netted

    def _check_measures(self, item: int) -> None:
        """Raises Left if the rows of an item are in several units of measure."""
        rows = self.demand.rows
        if "measure" not in rows.columns:
            return
        lines = dict[str, int]()
        for row in self.named(item).tolist():
            lines.setdefault(text_of(rows.cell("measure", row)), int(rows.lines[row]))
        unknown = [unit for unit in lines if unit not in self.words.factors]
        if len(unknown) > 1:
            last = unknown[-1]
            measures = " and ".join(map(repr, unknown))
            wrong = fault("measure", last, "measures", measures=measures, text=last)
            raise Left("demand", lines[last], wrong)

    def _master(self, item: int, leads: Sequence[int], moves: Movements) -> Master:
        """Returns the master of an item, whose orders took some lead times. Raises Left."""
        name = self.names[item]
        rows = self.masters_of(item)
        if not len(rows):
            kind, line = self.places[item]
            if len(moves.lines):
                kind, line = "demand", int(moves.lines[0])
            raise Left(kind, line, fault("item", name, "no master"))
        lines = self.rows["items"].lines[rows].tolist()
        if not self._are_equal(rows):
            column, places = places_of(self.rows["items"], rows)
            several = fault(
                "item",
                name,
                "masters of places" if column else "several masters",
                masters=len(rows),
                lines=named_lines(lines),
                column=column,
                first=str(next(iter(places), "")),
                values=named_values(places),
            )
            raise Left("items", lines[1], several)
        row = int(rows[0])
        cells = self.rows["items"].cells(row)
        stated = printable(cells.get("class"))
        group = stated if any(self.whole.groups) else self.letters.get(item, "")
        read, faults = self.masters.read(row, leads, group)
        rounded = self.masters.fine.intersection(cells.items())
        if rounded:
            self.numbers["rounded"] += len(rounded)
        is_empty = not len(moves.lines) and not (self.laws and self.laws.line(item))
        if not faults and is_empty and self._has_row_inside(item):
            faults = [fault("item", name, "no rows")]
        if faults:
            raise Left("items", lines[0], *faults)
        return self.masters.item(name, lines[0], read, leads, group)

    def _has_row_inside(self, item: int) -> bool:
        """Returns whether an item has a row of demand that is not outside the record."""
        codes = self.demand.rows.columns["date"].codes[self.named(item)].tolist()
        wrong = self.demand.wrong["date"]
        return any(
            code not in wrong or wrong[code].code not in OUTSIDE for code in codes
        )
