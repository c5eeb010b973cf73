"""Leads a planner from a history of demand to stock decisions, with the proved simulator crnsim.

Each public name is imported from its module when it is first used, so that a command starts fast.
"""
from __future__ import annotations

import importlib
import sys
from types import ModuleType
from typing import TYPE_CHECKING, Any

__version__ = "0.1.0"

if TYPE_CHECKING:
    from .errors import (
        CrnplanError as CrnplanError,
        Failed as Failed,
        Fault as Fault,
        ProgramError as ProgramError,
        Refused as Refused,
        ScenarioError as ScenarioError,
    )
    from .policies import Policy as Policy
    from .money import Costs as Costs
    from .runs import Report as Report, Scenario as Scenario
    from .law import Law as Law
    from .crnsim.program import find_program as find_program
    from .demand.checks import Checks as Checks, check_history as check_history
    from .demand.fitted import FittedLaw as FittedLaw
    from .demand.borrowing import fit_demand as fit_demand
    from .demand.fitting import fit_lead as fit_lead
    from .demand.learning import Prior as Prior, learn as learn
    from .decide.long_run import LongRunReport as LongRunReport
    from .planned import Plan as Plan, PlannedItem as PlannedItem
    from .read.items import Reading as Reading
    from .plan.how import Settings as Settings
    from .given import read_config as read_config
    from .api import (
        open_plan as open_plan,
        plan as plan,
    )
    from .backtesting import Backtests as Backtests, backtest as backtest
    from .catalogues import Catalogue as Catalogue, read_catalogue as read_catalogue
    from .curve.exchange_curve import exchange_curve as exchange_curve
    from .show.catalogue_page import report as report
    from .show.today_tables import OrdersToday as OrdersToday

# The public names by their modules. Checkers of types know them by the same imports above.
_NAMES = {
    "errors": (
        "CrnplanError",
        "Failed",
        "Fault",
        "ProgramError",
        "Refused",
        "ScenarioError",
    ),
    "policies": ("Policy",),
    "money": ("Costs",),
    "runs": ("Report", "Scenario"),
    "law": ("Law",),
    "crnsim.program": ("find_program",),
    "demand.checks": ("Checks", "check_history"),
    "demand.fitted": ("FittedLaw",),
    "demand.borrowing": ("fit_demand",),
    "demand.fitting": ("fit_lead",),
    "demand.learning": ("Prior", "learn"),
    "decide.long_run": ("LongRunReport",),
    "planned": ("Plan", "PlannedItem"),
    "read.items": ("Reading",),
    "plan.how": ("Settings",),
    "given": ("read_config",),
    "api": ("open_plan", "plan"),
    "backtesting": ("Backtests", "backtest"),
    "catalogues": ("Catalogue", "read_catalogue"),
    "curve.exchange_curve": ("exchange_curve",),
    "show.catalogue_page": ("report",),
    "show.today_tables": ("OrdersToday",),
}
_HOMES = {name: module for module, names in _NAMES.items() for name in names}
__all__ = ["__version__", *_HOMES]


def __getattr__(name: str) -> Any:
    """Imports a public name from its module."""
    if name not in _HOMES:
        raise AttributeError(f"module {__name__!r} has no attribute {name!r}")
    return getattr(importlib.import_module(f"{__name__}.{_HOMES[name]}"), name)


def __dir__() -> list[str]:
    """Returns the public names, for completion in a shell."""
    return sorted(__all__)


class _Package(ModuleType):
    """The package. A public function keeps its name if a module of the package has the same: `plan`."""

    def __setattr__(self, name: str, value: Any) -> None:
        """Sets an attribute, but for an imported module with a public name."""
        if name not in _HOMES or not isinstance(value, ModuleType):
            super().__setattr__(name, value)


sys.modules[__name__].__class__ = _Package
