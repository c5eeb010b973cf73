"""Has the words of calls on catalogues, given one by one or together as values that several calls share."""
from __future__ import annotations

import inspect
from collections.abc import Callable, Collection, Mapping
from pathlib import Path
from typing import Any, TypeVar

from .arguments import judged
from .errors import Refused, argument
from .options import CALL, SEEN
from .plan.how import Settings
from .plan.settings import read_config as config_in
from .read.items import Reading
from .read.configuration import made_from
from .vocabulary import Vocabulary, explain, words_in, words_of

Call = TypeVar("Call", bound=Callable[..., Any])
Made = TypeVar("Made", bound=Vocabulary)
# The words that a call shows among its own arguments; it takes the others too.
COMMON = (
    *("columns", "units", "every", "start", "end", "holding_rate", "fill", "service"),
    *("together", "correct", "season", "seed"),
)


def joined(words: Mapping[str, Any], **values: Vocabulary | None) -> dict[str, Any]:
    """Returns the words of a call with those of its values. Raises Refused for a word that is said twice."""
    known = dict(words)
    for name, value in values.items():
        own = value.given if value else {}
        # What is wanted is a word of both values, read from one place.
        for word in own:
            if word in words:
                raise Refused(
                    f"{argument(word)} is said by itself and in {argument(name)}",
                    "leave one out",
                )
        known |= own
    return known


def taking(*kinds: type, shown: Collection[str]) -> Callable[[Call], Call]:
    """Returns a decorator of a call that takes the words of some classes. Its docstring and the signature that users see
    have those that are `shown`."""

    def made(function: Call) -> Call:
        signature = inspect.signature(function)
        *own, rest = signature.parameters.values()
        names = {part.name for part in own}
        words = [word for word in words_of(*kinds).values() if word.name not in names]
        seen = [word for word in words if word.name in shown]
        whole = [*own, *(word.parameter for word in words)]
        visible = [*own, *(word.parameter for word in seen), rest]
        setattr(function, "__signature__", signature.replace(parameters=whole))
        setattr(function, SEEN, signature.replace(parameters=visible))
        explain(function, seen, "Other Parameters", "Returns")
        return function

    return made


def taken(kind: type[Made], known: Mapping[str, Any]) -> Made:
    """Returns a value of a class with its own of some words."""
    return kind(**{name: known[name] for name in words_in(kind) if name in known})


@judged(CALL)
def read_config(path: str | Path) -> tuple[Reading, Settings]:
    """Reads crnplan.toml for calls: what it says of reading, and of planning.

    Parameters
    ----------
    path : str or Path
        A file with the table [catalogue], as found.toml of a plan.

    Returns
    -------
    tuple of Reading and Settings
        The words of the file, for `plan`, `read_catalogue` and `backtest`.

    Raises
    ------
    Refused
        If the file can't be read.
    RefusedFaults
        With all that is wrong with it.

    Examples
    --------
    >>> reading, settings = crn.read_config(plan.path / "found.toml")
    >>> reading.every
    'week'
    """
    tree = config_in(path)
    return made_from(Reading, tree), made_from(Settings, tree)
