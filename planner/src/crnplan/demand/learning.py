"""Learns from the histories of a catalogue which laws of demand there are: a prior over laws on a grid.

The prior that makes the histories most likely is a mixture of few points (Kiefer and Wolfowitz, Consistency of the
maximum likelihood estimator in the presence of infinitely many incidental parameters, 1956; Laird, Nonparametric
maximum likelihood estimation of a mixing distribution, 1978): see `grid.py`. Priors are kept as text.
"""
from __future__ import annotations

import json
from collections import defaultdict
from collections.abc import Iterable, Mapping, Sequence
from dataclasses import asdict, dataclass, field
from functools import cached_property
from typing import TYPE_CHECKING, Any

import numpy as np

from ..arguments import judged
from ..chances import Floats, Whole
from ..errors import Fault, Refused, RefusedFaults, argument
from ..formats import MOST_DEMAND
from ..money import exact, is_missing
from ..read.frames import name_of
from ..read.item import BORROW
from ..toml.documents import shown
from .fitted import numbers_of
from .fitting import below_0
from .grid import FLAT, MOST_SIZE, chunks_of, estimated, group_of, marginal
from .sample import Sample

if TYPE_CHECKING:
    import pandas as pd

VERSION = 2  # of the text; another grid is another version
UNITS = (
    2**40
)  # of a chance of 1: the last bits of a sum, which differ by machine, are rounded off
KIND = "prior of crnplan"
NONE, CLASS, ALL = BORROW  # "all" is the name of the prior of the whole catalogue too
LEAST_ITEMS = 100  # from which on items learn from each other unasked
LEAST_ON_REQUEST = 30  # from which on they learn if asked
MOST_ITEMS = 3000  # on which a prior is estimated
FLAT_ITEMS = 1  # that the flat prior counts for
CLASS_ITEMS = 30  # that the prior of the catalogue counts for in a class
MOST_PULLED = 300  # A class with more items has a prior of its own.

History = Sequence[int]
Histories = Mapping[str, History] | Iterable[History]
Classes = Mapping[str, str | None] | Iterable[str | None]


@dataclass(frozen=True, eq=False)
class GridPrior:
    """A prior on the grid (cells of the share, cells of sizes), in whole units of 2^-40. It has so many `items` of the
    catalogue or class within the grid, was estimated on those `sampled`, and `gain` is the mean log10 of their Bayes
    factors for it against the flat prior."""

    items: int
    sampled: int
    gain: float
    units: Whole

    @classmethod
    def of(cls, chances: Floats, items: int, sampled: int, gain: float) -> GridPrior:
        """Rounds chances to units, and a gain to six decimals."""
        return cls(
            items,
            sampled,
            round(gain, 6),
            np.maximum(np.rint(UNITS * chances), 1).astype(np.int64),
        )

    @cached_property
    def chances(self) -> Floats:
        """Returns the chances of the cells."""
        return np.asarray(self.units / self.units.sum())

    @classmethod
    def from_tree(cls, tree: Mapping[str, Any]) -> GridPrior:
        """Returns what a text has. Raises ValueError, TypeError or LookupError if it cannot be."""
        units = np.array(tree["units"], np.int64).reshape(FLAT.shape)
        if units.min() < 1:
            raise ValueError("units are positive")
        return cls(int(tree["items"]), int(tree["sampled"]), float(tree["gain"]), units)


@dataclass(frozen=True, eq=False)
class Prior:
    """What a catalogue says of the laws of demand of its items. Processes may share it: as a text, or pickled.

    Attributes
    ----------
    borrow : {"all", "class", "none"}
        From what each item learns: the whole catalogue, its class, or nothing.
    seed : int
        What draws the items of a large catalogue.
    items : int
        How many items there were.
    outside : int
        How many items were left out, since their sizes are larger than those of the grid.
    whole : Learned or None
        The prior of the catalogue; None with "none".
    classes : mapping of str to Learned
        Those of classes, in the order of their names.
    packs : Learned or None
        That of all items in packs, counted in packs; None if there are too few of them.
    """

    borrow: str
    seed: int = 1
    items: int = 0
    outside: int = 0
    whole: GridPrior | None = field(default=None, repr=False)
    classes: Mapping[str, GridPrior] = field(default_factory=dict, repr=False)
    packs: GridPrior | None = field(default=None, repr=False)

    def __eq__(self, other: object) -> bool:
        return isinstance(other, Prior) and self.text == other.text

    def __hash__(self) -> int:
        return hash(self.text)

    def of_item(
        self, item_class: str | None, pack: int = 1
    ) -> tuple[str, GridPrior | None]:
        """Returns the prior of an item, with its name.

        Parameters
        ----------
        item_class : str or None
            The class of the item. If it has none that was learned, the prior is that of the catalogue.
        pack : int, default 1
            The items of a pack. An item in packs has the prior of all items in packs.

        :meta private:
        """
        if pack > 1:
            return ALL, self.packs
        own = self.classes.get(item_class or "")
        if own is None:
            return ALL, self.whole
        return str(item_class), own

    @property
    def frame(self) -> pd.DataFrame:
        """Returns a row for each group that was learned from: its name, how many `items` it has within the grid, how many of
        them were `sampled`, and the `gain`: the mean log10 of their Bayes factors for what was learned.
        """
        import pandas as pd

        groups = {ALL: self.whole, **self.classes, "packs": self.packs}
        rows = []
        for name, its in groups.items():
            if its:
                rows.append([name, its.items, its.sampled, its.gain])
        return pd.DataFrame(rows, columns=["group", "items", "sampled", "gain"])

    @property
    def text(self) -> str:
        """Returns all of it as JSON in one line, of the same bytes each time."""
        tree = {"kind": KIND, "version": VERSION, **asdict(self)}
        text = json.dumps(
            tree,
            ensure_ascii=False,
            separators=(",", ":"),
            default=lambda units: units.ravel().tolist(),
        )
        return text + "\n"

    @classmethod
    @judged("text")
    def parse(cls, text: str | bytes, name: str) -> Prior:
        """Returns what `text` gave.

        Parameters
        ----------
        text : str or bytes
            A text that `Prior.text` gave. Raises Refused for any other.
        name : str
            Where the text stands, for the error.
        """
        try:
            tree = json.loads(text)
            kind = tree.pop("kind")
            version = tree.pop("version")
        except (ValueError, TypeError, LookupError, AttributeError):
            raise Refused(
                f"{name}: this is no {KIND}", "learn one from the catalogue"
            ) from None
        if (kind, version) != (KIND, VERSION):
            raise Refused(
                f"{name}: this is a {kind} of version {version}, not {VERSION}",
                "learn it anew",
            )
        try:
            if tree["borrow"] not in BORROW or (tree["borrow"] == NONE) is bool(
                tree["whole"]
            ):
                raise ValueError("something is learned unless nothing is borrowed")
            tree["classes"] = {
                name: GridPrior.from_tree(learned)
                for name, learned in tree["classes"].items()
            }
            for part in ("whole", "packs"):
                tree[part] = GridPrior.from_tree(tree[part]) if tree[part] else None
            for count in ("seed", "items", "outside"):
                tree[count] = int(tree[count])
            return cls(**tree)
        except (ValueError, TypeError, LookupError, AttributeError, OverflowError):
            raise Refused(f"{name}: the {KIND} is damaged", "learn it anew") from None


def is_outside(sample: Sample) -> bool:
    """Returns whether the sizes of a history are larger than those of the grid."""
    return sample.total > MOST_SIZE * sample.demands or sample.most > MOST_DEMAND


def samples_of(items: Iterable[tuple[str, Any]]) -> list[Sample]:
    """Counts the numbers of histories by name. Raises RefusedFaults with the faults of all."""
    samples: list[Sample] = []
    faults: list[Fault] = []
    for name, observed in items:
        try:
            samples.append(
                Sample.of(
                    numbers_of(observed, f"histories: {name}", below_0, may_lack=True)
                )
            )
        except RefusedFaults as refused:
            faults.extend(refused.faults)
        except Refused as refused:
            faults.append(Fault(str(refused)))
    if faults:
        raise RefusedFaults(faults)
    return samples


def by_item(values: Any, name: str) -> list[tuple[Any, Any]] | None:
    """Returns what a mapping or a Series has by item, or a DataFrame by column; None of what has an order alone. Raises
    Refused with the name of the argument for what is neither."""
    items = getattr(values, "items", None)
    if callable(items):
        return [*items()]
    if isinstance(values, (str, bytes)) or not isinstance(values, Iterable):
        raise Refused(
            f"{argument(name)}: {shown(values)} is no list",
            "give one for each item, by item or in an order",
        )
    return None


def class_of(name: Any) -> str:
    """Returns the name of a class; empty if there is none. Raises Refused for what is no name."""
    if is_missing(name):
        return ""
    if not isinstance(name, str) and exact(name) is None:
        raise Refused(f"{argument('classes')}: {shown(name)} is no name of a class")
    return name_of(name)


def classes_of(
    items: Sequence[tuple[Any, Any]], are_named: bool, classes: Classes | None
) -> list[str]:
    """Returns the class of each item; empty if it has none. Items may be named, else they have an order."""
    given = argument("classes")
    if classes is None:
        raise Refused(
            f"{given}: there are none to borrow from",
            f'give a class for each item, or {argument("borrow")}="{ALL}"',
        )
    named = by_item(classes, "classes")
    if named is None if are_named else isinstance(classes, Mapping):
        raise Refused(
            f"{given}: these are not as the histories",
            "give classes by item if the histories are by item, else in their order",
        )
    names = [*classes]
    if named and are_named:
        known = dict(named)
        names = [known.get(name) for name, _ in items]
    if len(names) != len(items):
        raise Refused(
            f"{given}: there are {len(items):,} histories and {len(names):,} classes",
            "give one for each",
        )
    return [*map(class_of, names)]


def learned(
    samples: Sequence[Sample], seed: int, above: Floats | None = None
) -> GridPrior:
    """Estimates the prior of a catalogue, or of a class from that of the catalogue, `above`. It does not depend on the
    order of histories; of more than 3,000 so many are drawn at random."""
    order = sorted(
        (*group_of(sample), sample.values.tolist(), sample.counts.tolist(), place)
        for place, sample in enumerate(samples)
    )
    every = [samples[place] for *_, place in order]
    if len(every) > MOST_ITEMS:
        random = np.random.default_rng(seed)
        places = random.choice(len(every), MOST_ITEMS, replace=False)
        every = [every[place] for place in np.sort(places)]
    chunks = chunks_of(every)
    start, items = FLAT, FLAT_ITEMS
    if above is not None and len(samples) <= MOST_PULLED:
        start, items = above, CLASS_ITEMS
    chances = estimated(chunks, start, items * start)
    gains = np.log10(marginal(chunks, chances) / marginal(chunks, FLAT))
    return GridPrior.of(chances, len(samples), len(gains), float(gains.mean()))


@judged("learn")
def learn(
    histories: Histories,
    classes: Classes | None = None,
    borrow: str = "all",
    seed: int = 1,
    *,
    least: int = LEAST_ITEMS,
) -> Prior:
    """Learns from the histories of a catalogue which laws of demand there are.

    The prior is that under which the histories are most likely, smoothed; of more than 3,000 so many are drawn at random. It
    depends on neither the order nor the names of the items. Items with a mean size above 101 are outside the grid and left
    out. Items whose demands are packs learn from all others in packs, as one class counted in packs, if there are 30. The
    study planner/studies/borrowing.py says what is gained, and which items pay.

    Parameters
    ----------
    histories : mapping, DataFrame, Series or iterable of histories
        A history for each item, by item or in any order, each as in `fit_demand`, without boxes. A DataFrame has one in each
        column.
    classes : mapping, Series or iterable of str, optional
        The class of each item, by item or in the order of the histories. An item without one (None, NaN) learns from the
        whole catalogue.
    borrow : {"all", "class", "none"}, default "all"
        From what each item learns:

        - `all`: from the whole catalogue.
        - `class`: from its class. A class with up to 300 items is pulled to the catalogue, which counts for 30 items; a
          larger one has a prior of its own.
        - `none`: from its own history alone.
    seed : int, default 1
        Draws the items of a catalogue with more than 3,000.
    least : int, default 100
        The fewest items to learn from, at least 30.

    Returns
    -------
    Prior
        What was learned, for the argument `borrow` of `fit_demand`.

    Raises
    ------
    Refused
        If there are fewer than `least` items, or no classes to borrow from.
    RefusedFaults
        With the faults of all histories.

    Examples
    --------
    >>> random = np.random.default_rng(1)
    >>> prior = crn.learn(random.poisson(3, (40, 20)).tolist(), least=30)
    >>> prior.items, prior.outside
    (40, 0)
    >>> crn.fit_demand([0, 0, 4], borrow=prior).family
    'borrowed'
    """
    if borrow == NONE:
        return Prior(borrow, seed)
    named = by_item(histories, "histories")
    items = named or [(f"item {place}", it) for place, it in enumerate(histories, 1)]
    names = classes_of(items, bool(named), classes) if borrow == CLASS else []
    samples = samples_of(items)
    within = [sample for sample in samples if not is_outside(sample)]
    outside = len(samples) - len(within)
    if len(within) < least:
        raise too_few(len(within), outside, least)
    whole = learned(within, seed)
    groups = defaultdict[str, list[Sample]](list)
    for sample, name in zip(samples, names):
        if name and not is_outside(sample):
            groups[name].append(sample)
    by_class = dict[str, GridPrior]()
    for name, group in sorted(groups.items()):
        by_class[name] = learned(group, seed, whole.chances)
    packs = [sample.packs for sample in samples if sample.pack > 1]
    packs = [sample for sample in packs if not is_outside(sample)]
    of_packs = None
    if len(packs) >= LEAST_ON_REQUEST:
        of_packs = learned(packs, seed, whole.chances)
    return Prior(borrow, seed, len(items), outside, whole, by_class, of_packs)


def too_few(count: int, outside: int, least: int) -> Refused:
    """Returns that a catalogue has too few items to learn from, if so many more have too large sizes."""
    left_out = ""
    remedy = 'fit each item alone, with borrow="none"'
    if outside:
        left_out = f" ({outside:,} more have larger sizes than can be learned from)"
    if count >= LEAST_ON_REQUEST:
        remedy = f'ask for it with least={count}, or fit each alone with borrow="none"'
    what = f"histories: there are {count} items to learn from{left_out}, and it takes {least}"
    return Refused(what, remedy)
