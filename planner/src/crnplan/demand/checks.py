"""Checks whether a history is what a table takes it for: many independent periods of one law."""
from __future__ import annotations

from collections.abc import Iterable, Iterator, Sequence
from dataclasses import dataclass, field, replace
from typing import TYPE_CHECKING

import numpy as np

from ..chances import Floats
from ..arguments import judged
from ..money import Number
from ..read.quiet import chance_of_quiet, quiet_periods
from ..remarks import Remark, Value
from ..sentences import advised, sentence
from .fitted import placed_numbers
from .order_tests import (
    FALSE_ALARMS,
    LEAST_PERIODS,
    LEVELS,
    OrderTest,
    TestedHistory,
    tests_of,
)
from .outliers import LEAST_DEMANDS, outliers_of
from .rate import as_far
from .permutation import centred, in_order, statistics_in
from .sample import Sample
from .seasons import seasons_of

if TYPE_CHECKING:
    import pandas as pd

MOST_LARGEST = 3  # periods that are shown with the law, with the share of the variance that they make
# So many periods without demand at the end of the record are named if as many come by luck with at most this chance.
NO_DEMAND = 0.05


@dataclass(frozen=True)
class Checks:
    """What is known of a history beside its table: tests of its order, warnings, notes, the largest demands, and what stays
    unknown.

    Each test warns if its p value is at most `level`, 5% over the number of tests, so an independent history of one law
    has a false alarm with a chance of at most 5% (Dunn, Multiple comparisons among means, 1961). `periods` and `demands`
    count those of the history; `tests`, `warnings`, `notes`, `unknown` and `largest` are tuples.
    """

    periods: int
    demands: int
    tests: tuple[OrderTest, ...]
    warnings: tuple[Remark, ...] = field(default=(), repr=False)
    notes: tuple[Remark, ...] = field(default=(), repr=False)
    unknown: tuple[Remark, ...] = field(default=(), repr=False)
    largest: tuple[Remark, ...] = field(default=(), repr=False)

    @property
    def level(self) -> float:
        """Returns the p value up to which each test warns."""
        return FALSE_ALARMS / max(len(self.tests), 1)

    @property
    def warned(self) -> tuple[str, ...]:
        """Returns the names of the tests that warn."""
        return tuple(test.name for test in self.tests if test.p <= self.level)

    @property
    def frame(self) -> pd.DataFrame:
        """Returns a table with a row for each test, and the columns `p`, `warns`, `size` and `words`."""
        import pandas as pd

        rows = list[list[object]]()
        for test in self.tests:
            words = sentence(Remark(f"found {test.name}", test.facts))
            warns = test.name in self.warned
            rows.append([test.name, test.p, warns, test.size, words])
        names = ["test", "p", "warns", "size", "words"]
        return pd.DataFrame(rows, columns=names).set_index("test")

    @property
    def lines(self) -> list[str]:
        """Returns what is to be said of the demand, in lines: warnings, notes, the largest demands, and what stays
        unknown."""
        warnings = (f"warning: {advised(remark)}" for remark in self.warnings)
        return [
            f"demand: {line}"
            for line in (
                *warnings,
                *map(advised, (*self.notes, *self.largest, *self.unknown)),
            )
        ]

    @property
    def text(self) -> str:
        """Returns `lines` as a text, or that there is nothing to be said."""
        lines = self.lines or ["demand: there is nothing to be said of it"]
        return "\n".join([*lines, ""])


@judged("fit")
def check_history(demand: Iterable[Number], *, season: int | None = None) -> Checks:
    """Checks the demand of periods in their order: whole numbers from 0.

    Permutation tests look for autocorrelation (Ljung and Box), a trend (Spearman), a shift of the level, and a season
    (Kruskal and Wallis) of a stated length. Notes name few periods with demand, a long time without any, packs, and demands far
    above all others.

    Parameters
    ----------
    demand : iterable of int
        The demand of each period, in items. Unknown ones (None, NaN) are left out, and are no neighbours of others.
    season : int, optional
        The periods of a season, at least 2: 52 of weeks, 12 of months.

    Returns
    -------
    Checks
        `frame` has a row for each test; `largest` has the three largest demands and their share of the variance.

    Raises
    ------
    Refused
        For numbers that are not whole, with all of them, and for a season of less than 2 periods.

    Examples
    --------
    >>> crn.check_history([number // 4 for number in range(40)]).warned
    ('autocorrelation', 'trend', 'shift')
    """
    known = placed_numbers(demand, "demand", may_lack=True)
    numbers, places = [*known.values()], [*known]
    checks = checks_of(numbers, places=places, season=season)
    lacking = places[-1] + 1 - len(places)
    if lacking:
        note = Remark(
            "periods are unknown", {"count": lacking, "periods": places[-1] + 1}
        )
        checks = replace(checks, notes=(note, *checks.notes))
    return checks


def checks_of(
    numbers: Sequence[int],
    every: str | None = None,
    first: int = 1,
    in_full: bool = True,
    places: Sequence[int] | None = None,
    sold: Sequence[int] | None = None,
    rates: Floats | None = None,
    season: int | None = None,
) -> Checks:
    """Returns the checks of whole numbers; in full with the p values of all tests, and with the largest demands, else they
    take a few milliseconds. `every` is their period, if they have dates, `first` the number of the first one, and `places`
    has those of all, from 0: by default they stand one after another. If the numbers are without a season, the notes name
    what was `sold`, at which `rates`. `season` is as in `check_history`.
    """
    if places is None or not places or len(places) == places[-1] + 1:
        places = None  # the numbers have no gaps
    size = len(numbers) if places is None else places[-1] + 1
    seasons, untested = seasons_of(every, first, size, season)
    if places is not None:
        of_known = (season.at(places) for season in seasons)
        seasons = [season for season in of_known if season.is_whole]
    facts = TestedHistory(
        numbers, seasons, every, first, known=places, sold=sold, rates=rates
    )
    checks = Checks(
        len(numbers), len(numbers) - numbers.count(0), tests_of(facts, in_full)
    )
    unknown = list[Remark]()
    if checks.tests:
        if not checks.warned:
            unknown.append(Remark("silent tests"))
        unknown += untested
    elif len(numbers) < LEAST_PERIODS:
        unknown.append(Remark("few periods", {"periods": len(numbers)}))
    largest = largest_periods(numbers, every, first, places) if in_full else ()
    return replace(
        checks,
        warnings=tuple(_warnings(facts, checks)),
        notes=tuple(_notes(facts)),
        unknown=tuple(unknown),
        largest=largest,
    )


def _warnings(facts: TestedHistory, checks: Checks) -> Iterator[Remark]:
    """Yields a warning for each test that warns. Of a trend and a shift, the one that explains more is named."""
    kinds = {test.name: test for test in checks.tests if test.name in checks.warned}
    if {*LEVELS} <= {*kinds}:
        far = centred(replace(facts, taken=tuple(kinds)).left)
        no_parts = np.empty((0, len(far)), int)
        order = in_order(len(far))
        _, trend, shift = statistics_in(far, far, order, no_parts, facts.places)[0]
        del kinds["trend" if shift > trend else "shift"]
    for name in (*LEVELS, "season", "weekday", "autocorrelation"):
        if name not in kinds:
            continue
        test = kinds[name]
        beside = int(len(kinds) > 1)
        yield Remark(name, {"p": test.p, **test.facts, "beside": beside})


def _notes(facts: TestedHistory) -> Iterator[Remark]:
    """Yields what `check_history` says beside the tests."""
    numbers = facts.numbers
    demands = sorted((number for number in facts.numbers if number), reverse=True)
    if not demands:
        yield Remark("no demand")
        return
    pack = Sample.of(numbers).pack
    if pack > 1:
        yield Remark("packs", {"pack": pack})
    if (chance := chance_of_quiet(numbers)) <= NO_DEMAND:
        quiet = quiet_periods(numbers)
        yield Remark(
            "no recent demand",
            {
                "periods": quiet,
                "last": facts.name(len(numbers) - 1 - quiet),
                "chance": chance,
            },
        )
    if len(demands) < LEAST_DEMANDS:
        yield Remark(
            "few demands in record",
            {
                "demands": len(demands),
                "periods": len(numbers),
                "least": LEAST_DEMANDS,
                **_largest(facts, 1),
            },
        )
        return
    if facts.sold and facts.rates is not None:
        beside = as_far(facts.sold, facts.rates)
        far = len(outliers_of(beside, 1))
        if far:
            yield Remark("far in season", _largest(replace(facts, numbers=beside), far))
        return
    far = len(outliers_of(demands, pack))
    if far:
        yield Remark("far demands", {"next": demands[far], **_largest(facts, far)})


def largest_places(numbers: Sequence[int], count: int = MOST_LARGEST) -> list[int]:
    """Returns the places of so many largest demands, the largest first."""
    return sorted(range(len(numbers)), key=lambda place: -numbers[place])[:count]


def share_of_variance(numbers: Sequence[int], places: Sequence[int]) -> float:
    """Returns the share of the variance that the demands at some places make; 0 if there is no variance."""
    squares = centred(np.array(numbers, dtype=float)) ** 2
    return float(squares[places].sum() / squares.sum()) if squares.any() else 0.0


def largest_periods(
    numbers: Sequence[int],
    every: str | None = None,
    first: int = 1,
    places: Sequence[int] | None = None,
) -> tuple[Remark, ...]:
    """Returns a remark on the three largest demands, with their periods and the share of the variance that they make;
    nothing if fewer than 10 periods have demand. `every`, `first` and `places` are those of `checks_of`.
    """
    if len(numbers) - numbers.count(0) < LEAST_DEMANDS:
        return ()
    share = share_of_variance(numbers, largest_places(numbers))
    return (
        Remark(
            "largest periods",
            {
                "share": share,
                **_largest(
                    TestedHistory(numbers, (), every, first, known=places), MOST_LARGEST
                ),
            },
        ),
    )


def _largest(facts: TestedHistory, count: int) -> dict[str, Value]:
    """Returns the largest demands with their periods, as facts."""
    places, sold = largest_places(facts.numbers, count), facts.sold or facts.numbers
    demands: dict[str, Value] = {
        f"demand_{rank}": sold[place] for rank, place in enumerate(places, 1)
    }
    return demands | {
        f"period_{rank}": facts.name(place) for rank, place in enumerate(places, 1)
    }
