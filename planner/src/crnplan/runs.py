"""Has scenarios that can be run and asked, and their reports, as values."""
from __future__ import annotations

from dataclasses import dataclass
from pathlib import Path
from typing import TYPE_CHECKING

from .crnsim.report import COLUMNS, MONEY_COLUMNS, ReportRow, csv_of, rows_of_run
from .decide.verdicts import Decision, decided
from .policies import Policies, Policy, policies_of
from .arguments import judged
from .scenario import ScenarioData
from .table import DataTable, Json, Result

if TYPE_CHECKING:
    from .decide.long_run import LongRunReport
    from .theory.suggestions import ByTheory, Suggestions


@dataclass(frozen=True, eq=False, repr=False)
class Report(Result):
    """What crnsim reports of a scenario: exact rows, the base first, in the money that the scenario was made from."""

    rows: tuple[ReportRow, ...]
    scenario: Scenario

    @property
    def text(self) -> str:
        """Returns the report as the program writes it: in whole numbers, as the `costs` of the scenario."""
        return csv_of(self.rows, self.scenario.scale)

    @property
    def table(self) -> DataTable:
        """Returns the rows, indexed by `policy`: whole numbers, fractions, or None if there is no figure."""
        columns = COLUMNS if self.scenario.scale == 1 else MONEY_COLUMNS
        return DataTable.of(columns, self.rows, index="policy")

    @property
    def tree(self) -> dict[str, Json]:
        """Returns the rows as plain data: fractions as texts, None if there is no figure."""
        return {"policies": self.table.records}

    @judged("run")
    def decide(self, level: float = 0.95) -> Decision:
        """Returns all policies by rank, the cheapest first, with paired-t intervals and verdicts.

        Parameters
        ----------
        level : float, above 0 and below 1, default 0.95
            The joint level of the intervals.

        Returns
        -------
        Decision
            `frame` has a row for each policy.

        Examples
        --------
        >>> scenario.run([(4, 25)]).decide().frame["verdict"].to_list()
        ['base', 'worse']
        """
        return decided(self.rows, self.scenario.replications, level)


class Scenario(ScenarioData):
    """A scenario of crnsim: what is asked for, what it costs, and which policies are compared. Made by `of` or `read`.

    Attributes
    ----------
    demand, lead, returns : Law
        The demand of a period and what customers give back in it, in items, and lead times in periods. `returns` is None if
        nothing comes back; then `version` may be 1.
    costs : Costs
        In the program's whole numbers, of which `scale` count one unit of the money that the scenario was made from. Figures of
        all results are in that money; `costs`, `toml` and the text of a report are in the whole numbers.
    policies : tuple of Policy
        The first one is the base.
    initial : int
        The stock at the start, in items.
    periods, replications : int
        How long and how often it is run: 1 to 1,024, and 1 to 256.
    key : tuple of str
        The four words that random numbers follow from.
    version, ring, source, scale, review
        The version of the format, the size of the ring, the text that it was read from, the scale of its money, and one review
        in so many periods, for theory alone.
    """

    def suggest(self) -> Suggestions:
        """Returns suggested policies with exact long-run figures, today's first: policy, s, S (items), cost (money a
        period, without `unit`), fill (the share of demand met at once), short (the share of periods that end with items
        owed), stock (items), orders (a period), and the reasons for each. Raises NoTheory.
        """
        from .theory.suggestions import suggestions_of

        return suggestions_of(self)

    def _with_base(self, policies: Policies) -> Scenario:
        """Returns the scenario with its first policy, if it has one, and then these, each pair of levels once unless it is
        named; and with the stock at the start."""
        made = self.with_policies([*self.policies[:1], *policies_of(policies)])
        base = made.base
        unnamed = Policy.of_levels(base.s, base.S)
        others = (
            policy for policy in made.policies[1:] if policy not in (base, unnamed)
        )
        return made.with_policies(dict.fromkeys([base, *others])).started()

    def theory(self, policies: Policies | None = None) -> ByTheory:
        """Returns the figures of any number of policies in the long run, by theory. Nothing is run.

        Parameters
        ----------
        policies : Policies, optional
            As `run` takes them, of which a base is none; by default those of the scenario.

        Returns
        -------
        ByTheory
            `frame` has for each policy s, S (items), cost (money a period, without `unit`), fill (the share of demand met at
            once), short (the share of periods that end with items owed), stock (items) and orders (a period).

        Raises
        ------
        Refused
            For what is no policy, or if there is none.
        NoTheory
            If there is no long run, or if the numbers of the scenario are too far apart.

        Examples
        --------
        >>> scenario.theory([(6, 25), (8, 30)]).frame["cost"].round(2).to_list()
        [22.22, 20.74]
        """
        from .theory.suggestions import by_theory

        some = self.policies if policies is None else policies_of(policies)
        chosen = self.with_policies(dict.fromkeys(some))
        return by_theory(chosen, [chosen.base, *chosen.policies[1:]])

    @judged("call", "common")
    def run(
        self, policies: Policies | None = None, *, program: str | Path | None = None
    ) -> Report:
        """Runs crnsim on any number of policies and returns the exact report.

        Parameters
        ----------
        policies : Policies, optional
            Those that are compared with the base, the scenario's first policy; by default the scenario's own. They are Policy
            objects, pairs (s, S), a mapping of names to pairs, or a table with the columns s and S, and `policy` as a column or
            its index. More than 16 go in several runs with the base in each.
        program : str or Path, optional
            The path of crnsim: see `find_program`.

        Returns
        -------
        Report
            The base first.

        Raises
        ------
        Refused
            For what is no policy.
        ScenarioError
            With all faults.
        ProgramError
            If a run fails.

        Examples
        --------
        >>> report = scenario.run({"lower": (6, 25)})
        >>> report.frame[["s", "S", "total"]].loc["lower"].to_list()
        [6, 25, 147032]
        """
        asked = self if policies is None else self._with_base(policies)
        return Report(rows_of_run(asked, program), asked)

    @judged("run", "call", "common")
    def long_run(
        self,
        policies: Policies | None = None,
        *,
        keys: int = 48,
        program: str | Path | None = None,
    ) -> LongRunReport:
        """Runs crnsim on any number of policies, and takes what the start adds to their costs out, by theory.

        All policies start with the mean position of the base. The stock, the periods and the replications of the scenario play no
        part, and `unit` is left out.

        Parameters
        ----------
        policies : Policies, optional
            Those that are compared with the base: see `run`.
        keys : int, default 48
            The replications of 1,024 periods, from 2 to 256.
        program : str or Path, optional
            The path of crnsim: see `find_program`.

        Returns
        -------
        LongRunReport
            The costs of a period in the long run.

        Raises
        ------
        Refused
            For what is no policy, or another number of keys.
        ScenarioError
            With all faults.
        NoTheory
            If there is no long run, or if the numbers of the scenario are too far apart.
        ProgramError
            If a run fails.

        Examples
        --------
        >>> report = scenario.long_run({"lower": (6, 25)}, keys=8)
        >>> list(report.frame.index)
        ['today', 'lower']
        """
        from .decide.long_run import long_run_of

        asked = self if policies is None else self._with_base(policies)
        return long_run_of(asked, keys, program)
