"""The tables of a planned catalogue (decisions, details, what was left out), and its summary as a text."""
from __future__ import annotations

from collections.abc import Iterable, Iterator, Mapping, Sequence
from dataclasses import dataclass, field
from fractions import Fraction
from functools import cached_property
from typing import TYPE_CHECKING, Any

from ..plan.answer import RUN, THEORY, Answer, Figures
from ..read.catalogue_reading import defaulted
from ..read.item import NO_DEMAND, UNORDERED, Item
from ..read.items import OUTSIDE, Reject
from ..read.lateness import receipt_remarks
from ..remarks import Remark
from ..table import DataTable
from ..sentences import advice, counted, pattern, sentence
from ..columns import columns_of
from .control_tables import controls_of
from ..drawing.rendering import rendered
from .promise_tables import aims_of, costs_of, together_of

if TYPE_CHECKING:
    from ..plan.catalogue import PlannedFolder
    from ..plan.catalogue import Decided
    from ..plan.totals import Totals
    from ..read.items import FileCounts

DECISIONS, DETAILS, REJECTS = "decisions.csv", "details.csv", "rejects.csv"
UNREAD_ROWS, READ_ROWS = (
    "unread",
    "read",
)  # Rows that are left out: for a cell that can't be read, or for what it says.
AS_READ = frozenset(
    (*OUTSIDE, "total", "twin", "twins", "before order", "lead range")
)  # codes of the latter
PLANNED_BY = {THEORY: "theory", RUN: "crnsim"}
# A share of rows or items: if more of them are left out, a command ends with status 1, and a call warns.
MOST_LOST = 0.5


def codes_of(remarks: Iterable[Remark]) -> str:
    return "; ".join(remark.code for remark in remarks)


def words_of(remarks: Iterable[Remark]) -> str:
    return "; ".join(map(sentence, remarks))


@dataclass(frozen=True)
class ItemDecision:
    """An item with its answer, None if nothing is ordered of it, and all that must be said of it."""

    item: Item
    answer: Answer | None
    remarks: tuple[Remark, ...]

    @classmethod
    def of(cls, item: Item, answer: Answer | Remark) -> ItemDecision:
        """Takes why nothing is ordered in place of an answer."""
        if isinstance(answer, Answer):
            return cls(item, answer, (*item.remarks, *answer.remarks))
        return cls(item, None, (*item.remarks, answer))

    @property
    def verdict(self) -> str:
        if self.answer:
            return self.answer.verdict
        return self.item.past

    @property
    def fill_wanted(self) -> Fraction | None:
        """Returns the fill rate that is wanted of the item; None if it is planned together with others."""
        if self.answer and self.answer.share:
            return None
        return self.item.fill

    @property
    def no_shortage(self) -> Mapping[str, Fraction | float]:
        """Returns the share of periods without a shortage that is wanted, and that of the chosen policy; nothing if none is."""
        wanted = self.item.no_shortage
        if wanted is None:
            return {}
        if self.answer is None:
            return {"wanted": wanted}
        return {"wanted": wanted, "chosen": self.answer.chosen.no_shortage}

    @property
    def planned_by(self) -> str | None:
        """Returns whose figures costs and savings are."""
        if self.answer:
            return PLANNED_BY[self.answer.source]
        return None

    @property
    def mean(self) -> float | None:
        """Returns the mean of the law of demand; 0 for an item without any."""
        if self.answer:
            return self.answer.law.mean
        if self.item.past == NO_DEMAND:
            return 0.0
        return None

    @property
    def periods(self) -> int:
        """Returns how many periods of the history are known."""
        return len(self.item.known.counts)

    @property
    def abc(self) -> str | None:
        if self.answer:
            return self.item.abc
        return None

    @property
    def codes(self) -> str:
        return codes_of(self.remarks)

    @property
    def warnings(self) -> str:
        return words_of(self.remarks)

    @cached_property
    def today(self) -> Mapping[str, Any]:
        """Returns s and S, the mean stock and its value of today's policy; without an answer those of the masters."""
        if self.answer:
            return self._facts(self.answer.today)
        point, level = self.item.levels or (None, None)
        return {
            "s": point,
            "S": level,
            "stock": self.item.stock,
            "value": self.item.value,
        }

    @cached_property
    def chosen(self) -> Mapping[str, Any]:
        """Returns the same of the chosen policy; if nothing is ordered, s and S are 0."""
        if self.answer:
            return self._facts(self.answer.chosen)
        return {"s": 0, "S": 0}

    def _facts(self, figures: Figures | None) -> Mapping[str, Any]:
        if figures is None:
            return {}
        price = self.item.price
        value = None if price is None else float(price) * figures.stock
        return {
            "s": figures.point,
            "S": figures.level,
            "stock": figures.stock,
            "value": value,
        }


def line_of(reject: Reject) -> int | None:
    return reject.line or None


def reason_of(reject: Reject) -> str:
    return sentence(reject.remark)


def advice_of(reject: Reject) -> str:
    return advice(reject.remark)


DECISION_COLUMNS = columns_of("show", "decisions")
DETAIL_COLUMNS = columns_of("show", "details")
REJECT_COLUMNS = columns_of(
    "show", "rejects", {"line": line_of, "reason": reason_of, "advice": advice_of}
)


def decided(answers: Iterable[Decided]) -> Iterator[ItemDecision]:
    """Yields the decision on each item that is planned, or of which no order is."""
    for item, answer in answers:
        if isinstance(answer, Answer) or item.past in UNORDERED:
            yield ItemDecision.of(item, answer)


def decisions_of(folder: PlannedFolder, answers: Iterable[Decided]) -> DataTable:
    """Returns the decisions of a folder: of its items with their answers a row for each that is planned, or of which no
    order is."""
    return folder.table(DECISION_COLUMNS, decided(answers))


def details_of(folder: PlannedFolder, answers: Iterable[Decided]) -> DataTable:
    """Returns all else on the items that have decisions, in their order."""
    return folder.table(DETAIL_COLUMNS, decided(answers))


def was_read(remark: Remark) -> bool:
    """Returns whether the cells of a row that is left out were read, and it is left out for what they say."""
    if remark.code != "several":
        return remark.code in AS_READ
    return all(
        code in AS_READ for place, code in remark.facts.items() if place.isdigit()
    )


@dataclass
class Reason:
    """Why rows or items were left out or named: how often, the items and the rows of demand, and the first of them. Of
    `valued` items it is known what their stock is worth, together `value`."""

    kind: str
    column: str
    first: Reject
    count: int = 0
    rows: int = 0
    valued: int = 0
    value: Fraction = Fraction(0)
    items: set[str] = field(default_factory=set)

    def add(self, reject: Reject) -> None:
        """Counts one more that is left out or named."""
        self.count += 1
        self.rows += reject.rows
        self.valued += reject.value is not None
        self.value += reject.value or 0
        self.items.add(reject.item)

    @property
    def group(self) -> str:
        """Returns its kind; of rows that are left out `unread` or `read`."""
        if self.kind != "row":
            return self.kind
        if was_read(self.first.remark):
            return READ_ROWS
        return UNREAD_ROWS

    @property
    def lines(self) -> int:
        """Returns how many rows there are: of an item all that it has."""
        if self.kind == "item":
            return self.rows
        return max(self.rows, self.count)

    @property
    def pattern(self) -> str:
        return pattern(self.first.remark)

    @property
    def example(self) -> str:
        """Returns the first of them: file and line, item, what is wrong, and what to do."""
        first = self.first
        place = ":".join(filter(None, (first.file, str(first.line or ""))))
        named = f", item {first.item}" if first.item else ""
        advised = f"; {advice_of(first)}" if advice_of(first) else ""
        return f"{place}{named}: {reason_of(first)}{advised}"

    @property
    def rank(self) -> tuple[object, ...]:
        """Returns what sorts reasons: the most frequent of a kind first."""
        return self.kind, -self.count, self.column, self.first.remark.code


def reasons_of(rejects: Iterable[Reject]) -> list[Reason]:
    """Returns the reasons by kind, column and code, the most frequent of each kind first."""
    reasons: dict[tuple[object, ...], Reason] = {}
    for reject in rejects:
        key = (
            reject.kind,
            reject.column,
            reject.remark.code,
            reject.remark.facts.get("what"),
        )
        reasons.setdefault(key, Reason(reject.kind, reject.column, reject)).add(reject)
    return sorted(reasons.values(), key=lambda reason: reason.rank)


def rejects_of(rejects: Iterable[Reject], keys: str = "") -> DataTable:
    """Returns what was left out or named, with the reason and what to do. Items have `keys` of a type in a frame."""
    return DataTable.of(REJECT_COLUMNS, rejects, missing="", keys=keys)


def counted_rows(files: Mapping[str, FileCounts]) -> Iterator[str]:
    """Yields a line for each file on what became of its rows."""
    for counts in files.values():
        other = f" + {counts['other']:,} other rows" if counts["other"] else ""
        blank = f"; {counts['blank']:,} blank rows" if counts["blank"] else ""
        yield (
            f"{counts['name']}: {counts['read']:,} rows = {counts['used']:,} used + {counts['rejected']:,} rejected "
            f"+ {counts['with_item']:,} left out with their item{other}{blank}"
        )


def hardly_read(files: Mapping[str, FileCounts]) -> Iterator[str]:
    """Yields a line for each file of which more than MOST_LOST of the rows were rejected, or no row is used."""
    for counts in files.values():
        read, rejected = counts["read"], counts["rejected"]
        if rejected > MOST_LOST * read:
            yield f"{counts['name']}: {rejected:,} of {read:,} rows were rejected, more than half"
        elif read and not counts["used"]:
            yield f"{counts['name']}: none of {counted(read, 'row')} is used"


def planned_of(items: Mapping[str, int]) -> int:
    """Returns how many of the items that were read have a plan."""
    counts = (items.get(past.replace(" ", "_"), 0) for past in UNORDERED)
    return items["ready"] - sum(counts)


def hardly_planned(items: Mapping[str, int]) -> Iterator[str]:
    """Yields a line if more than MOST_LOST of the items that would be planned are left out. These are in masters, have
    demand or a law, and no status or record ends them. Without any such item all that are left out count.
    """
    lost = items.get("lost", 0)
    asked = lost + planned_of(items)
    if not asked:
        lost = asked = items["left_out"]
    if lost > MOST_LOST * asked:
        yield f"{lost:,} of {asked:,} items to plan were left out, more than half"


def catalogue_summary(
    folder: PlannedFolder,
    totals: Totals,
    learned: Sequence[Remark],
    changes: Iterable[str] = (),
    missing: Iterable[str] = (),
) -> str:
    """Returns as a text what became of all rows and items, what was learned, the totals, lines on what has changed
    since an earlier plan, and what is lost."""
    read, settings = folder.read, folder.settings
    return rendered(
        "summary.txt",
        {
            "settings": settings,
            "every": folder.every,
            "items": folder.counts["items"],
            "totals": totals,
            "files": counted_rows(folder.counts["files"]),
            "rejects": REJECTS,
            "learned": learned,
            "changes": changes,
            "ends": totals.run_ends(settings.level),
            "missing": missing,
            "aims": aims_of(folder, totals),
            "costs": costs_of(folder),
            "together": together_of(folder, totals),
            "money": folder.currency.text,
            "remarks": read.remarks(),
            "controls": controls_of(
                read.controls(), folder.currency.decimals, folder.currency.code
            ),
            "sources": [*defaulted(read.fact("sources")), *receipt_remarks(read)],
            "cuts": read.fact("abc"),
        },
    )
