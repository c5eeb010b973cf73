"""Makes scenarios of crnsim from data, reads them, changes them and writes them, as immutable values.

Numbers are the program's whole numbers. Whether it takes a scenario is proved of the program, not of this module.
"""
from __future__ import annotations

import dataclasses
from collections.abc import Iterable, Mapping, Sequence
from dataclasses import dataclass, field
from fractions import Fraction
from pathlib import Path
from typing import Self

from .arguments import judged
from . import formats
from .changing import change_tree, key_words
from .toml.documents import Tree, check_size, read_bytes, text_of_document
from .toml.scenarios import (
    check_tree,
    error_of,
    plain_text,
    read_scenario,
    toml_text,
)
from .errors import Refused
from .law import Chances, Law, law_of
from .money import Amount, Costs as Costs, scaled_costs, whole
from .policies import Lot, Policy, levels_of
from .table import Json

NO_POLICY = range(1)  # the number of policies of a scenario that is made without one
# What is said of all figures of a scenario.
BY_ITS_LAWS = "by this law of demand, and this law of lead times; the history allows others, as the page of an item says"


@dataclass(frozen=True)
class ScenarioData:
    """What is asked for, what it costs, and which policies are compared: see `Scenario`, which can also be run."""

    version: int
    key: tuple[str, ...]
    periods: int
    replications: int
    initial: int
    ring: int
    costs: Costs
    demand: Law
    lead: Law
    policies: tuple[Policy, ...]
    returns: Law | None = None
    # The text that it was read from, for its comments. Two scenarios with the same numbers are equal.
    source: str | None = field(default=None, compare=False, repr=False)
    # What one unit of the money that it was made from counts in `costs`: a power of ten.
    scale: Fraction = field(default=Fraction(1), compare=False)
    # One review in so many periods, for theory alone: the program reviews in each period.
    review: int = 1
    # What can be ordered, for theory alone: the program orders up to S.
    lot: Lot = Lot()
    # Whether the stock at the start is known. If not, it is halfway between s and S of the first policy that is run.
    has_initial: bool = field(default=True, compare=False, repr=False)

    @classmethod
    def of_tree(cls, tree: Mapping[str, object], source: str | None = None) -> Self:
        """Makes a scenario from a tree as tomllib gives it, which is known to have no fault.

        :meta private:
        """
        fields: Tree = {**tree}
        fields |= {
            name: Law(**fields[name]) for name in formats.DRAWS if name in fields
        }
        fields |= {"key": tuple(fields["key"]), "costs": Costs(**fields["costs"])}
        return cls(
            policies=tuple(Policy(**policy) for policy in fields.pop("policy")),
            source=source,
            **fields,
        )

    @property
    def tree(self) -> dict[str, Json]:
        """Returns the tree that tomllib would read: a new dict of str, int and list."""
        returns = {"returns": self.returns.tree} if self.returns else {}
        return {
            "version": self.version,
            "key": list(self.key),
            "periods": self.periods,
            "replications": self.replications,
            "initial": self.initial,
            "ring": self.ring,
            "costs": {**vars(self.costs)},
            "demand": self.demand.tree,
            "lead": self.lead.tree,
            **returns,
            "policy": [{**vars(policy)} for policy in self.policies],
        }

    @classmethod
    @judged("call")
    def read(cls, path: str | Path) -> Self:
        """Reads and checks a TOML file.

        Parameters
        ----------
        path : str or Path
            The file; `-` is standard input.

        Raises
        ------
        Refused
            If it cannot be read.
        ScenarioError
            With all faults and their places.

        Examples
        --------
        >>> crn.Scenario.read("examples/two_policies.toml").policies[0]
        Policy(name='A', s=20, S=40)
        """
        return cls.parse(read_bytes(path), "" if str(path) == "-" else str(path))

    @classmethod
    @judged("text")
    def parse(cls, data: bytes | str, name: str = "") -> Self:
        """Reads and checks a text. Raises as `read` does.

        Parameters
        ----------
        data : bytes or str
            The text, as TOML.
        name : str, optional
            What stands before each fault, as the name of a file.
        """
        document = data.encode() if isinstance(data, str) else data
        check_size(document, name)
        tree, faults = read_scenario(document)
        if faults:
            raise error_of(faults, name)
        return cls.of_tree(tree, text_of_document(document))

    @classmethod
    def of(
        cls,
        demand: Chances,
        lead: Chances,
        *,
        setup: Amount,
        holding: Amount,
        backlog: Amount,
        unit: Amount = 0,
        returns: Chances | None = None,
        today: tuple[int, int] | None = None,
        initial: int | None = None,
        periods: int = 104,
        replications: int = 64,
        key: str | Sequence[str] = "crnsim",
    ) -> Self:
        """Makes a scenario from laws, tables, mappings or observed whole numbers.

        Parameters
        ----------
        demand, lead : Law, mapping of int to int, or iterable of int
            The demand of a period in items, and the periods until an order arrives: a law, values with weights, or what was
            observed.
        setup, holding, backlog : number or str
            The cost of an order, and of an item in stock or owed at the end of a period: amounts of money, as 12.5, "12.50" or a
            Decimal.
        unit : number or str, default 0
            The cost of an item ordered.
        returns : Law, mapping of int to int, or iterable of int, optional
            What customers give back in a period, in items.
        today : tuple of int, optional
            The levels (s, S) in items, from 0 to 1,000,000, of the policy `today`. Without it the scenario has no policy: `suggest`
            and `theory` need none, and `run` takes the first one that it is given as the base.
        initial : int, optional
            The stock at the start, in items; by default halfway between s and S of the base.
        periods : int, default 104
            The periods of a replication, from 1 to 1,024.
        replications : int, default 64
            From 1 to 256.
        key : str or sequence of str, default "crnsim"
            Four words of 16 digits of 0-9a-f, or any text from which they follow.

        Returns
        -------
        Scenario
            `scale` says what one unit of money counts in its `costs`. What is computed of it is in money again.

        Raises
        ------
        Refused
            For what can't be meant.
        ScenarioError
            With all faults.

        Examples
        --------
        >>> made = crn.Scenario.of(
        ...     {0: 3, 5: 2}, [2, 3, 2], setup=12.5, holding=0.1, backlog=2, today=(10, 40)
        ... )
        >>> made.costs
        Costs(setup=125, unit=0, holding=1, backlog=20)
        """
        costs, scale = scaled_costs(
            {"setup": setup, "unit": unit, "holding": holding, "backlog": backlog}
        )
        levels = None if today is None else levels_of(today, "today")
        start = 0 if levels is None else sum(levels) // 2
        made = cls.of_laws(
            law_of(demand, "demand"),
            law_of(lead, "lead"),
            None if returns is None else law_of(returns, "returns"),
            Costs(**costs),
            levels,
            start if initial is None else whole(initial, "initial"),
            whole(periods, "periods"),
            whole(replications, "replications"),
            key,
        )
        check_tree(made.tree, NO_POLICY)
        is_known = levels is not None or initial is not None
        return dataclasses.replace(made, scale=scale, has_initial=is_known)

    @classmethod
    def of_laws(
        cls,
        demand: Law,
        lead: Law,
        returns: Law | None,
        costs: Costs,
        today: tuple[int, int] | None,
        initial: int,
        periods: int,
        replications: int,
        key: str | Sequence[str],
    ) -> Self:
        """Makes a scenario without a check: see `of`. Without levels of today it has no policy.

        :meta private:
        """
        version = formats.version_with(["returns"] if returns else [])
        policies = (Policy("today", *today),) if today else ()
        return cls(
            version,
            tuple(key_words(key)),
            periods,
            replications,
            initial,
            formats.RING_SIZES[-1],
            costs,
            demand.table,
            lead.table,
            policies,
            returns and returns.table,
        )

    def changed(self, **changes: object) -> Self:
        """Returns the scenario with changed fields, checked.

        Parameters
        ----------
        **changes
            New values by the names of fields. `setup`, `unit`, `holding` and `backlog` are amounts of money, as `of` takes them;
            `costs` may be a mapping of some of them in the program's whole numbers. Laws are given as to `of`, policies as to
            `run`. The version follows from `returns`, unless it is given.

        Raises
        ------
        Refused
            For a field that there is not, or a value that can't be meant.
        ScenarioError
            With all faults.

        Examples
        --------
        >>> scenario.changed(costs={"backlog": 19}, periods=52).costs.backlog
        19
        """
        tree: Tree = {**self.tree}
        amounts: Tree = {
            name: changes.pop(name) for name in formats.COSTS if name in changes
        }
        if amounts and "costs" in changes:
            raise Refused(
                f"costs and {next(iter(amounts))} are both given",
                "give amounts of money, or whole numbers as the program counts them",
            )
        change_tree(tree, changes)
        scale = self.scale
        if amounts:
            known: Tree = {name: cost / scale for name, cost in tree["costs"].items()}
            tree["costs"], scale = scaled_costs(known | amounts)
        if "returns" in changes and "version" not in changes:
            tree["version"] = formats.version_with(tree)
        is_bare = not self.policies and "policies" not in changes
        check_tree(tree, NO_POLICY if is_bare else ())
        made = self.of_tree(tree, self.source)
        has_initial = self.has_initial or "initial" in changes
        return dataclasses.replace(made, scale=scale, has_initial=has_initial).started()

    def with_policies(self, policies: Iterable[Policy]) -> Self:
        """Returns the scenario with these policies in place of its own, unchecked.

        :meta private:
        """
        return dataclasses.replace(self, policies=tuple(policies))

    def toml(self) -> str:
        """Returns the scenario as the program reads it: its source, if that says the same, else with the comments at its top."""
        if self.source is not None:
            return toml_text(self.tree, self.source)
        return f"# Costs: {self.scale} for one unit of money\n\n" * (
            self.scale != 1
        ) + plain_text(self.tree)

    def money(self, amount: float) -> float:
        """Returns an amount of the program's whole numbers in the money that the scenario was made from.

        :meta private:
        """
        return amount if self.scale == 1 else amount / float(self.scale)

    def started(self) -> Self:
        """Returns the scenario with a stock at the start: halfway between s and S of its base, if none is stated.

        :meta private:
        """
        if self.has_initial or not self.policies:
            return self
        initial = (self.base.s + self.base.S) // 2
        return dataclasses.replace(self, initial=initial, has_initial=True)

    @property
    def base(self) -> Policy:
        """Returns the first policy, with which others are compared. Raises Refused if there is none."""
        if not self.policies:
            raise Refused("the scenario has no policy", "give policies, or `today`")
        return self.policies[0]
