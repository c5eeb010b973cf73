"""How commands are made of their pages and options, and how their results are printed."""
from __future__ import annotations

import json
import sys
from collections.abc import Callable, Collection
from typing import Any

import click
from click.core import ParameterSource

from ..table import Result
from ..vocabulary import FLAG, FORM, PAIRS, TEXTS, Word
from . import COMMANDS, options_of


def parameter_of(word: Word) -> Callable[[Callable[..., Any]], Callable[..., Any]]:
    """Returns a decorator that adds a word to a command, as an option or an argument of texts that the word reads."""

    def read(context: click.Context, parameter: click.Parameter, said: Any) -> Any:
        return said if said in (None, ()) else word.meant(said)

    facts: dict[str, Any] = {
        "type": str,
        "metavar": word.kind.metavar,
        "default": word.default,
        "callback": read,
    }
    are_several = word.kind.shape in (TEXTS, PAIRS)
    if word.positional:
        facts |= {"required": word.default is None, "nargs": -1 if are_several else 1}
        return click.argument(word.name, **facts)
    if word.kind.shape == FLAG:
        return click.option(word.flag, word.name, help=word.help, is_flag=True)
    if word.kind.shape == FORM:
        facts["flag_value"] = word.flag.removeprefix("--")
    help = word.help + " May be given several times." * are_several
    default = f"default: {word.default}" if word.shown else ""
    more = "; ".join(filter(None, [default, word.kind.ends]))
    facts |= {"multiple": are_several, "help": f"{help}  [{more}]" if more else help}
    return click.option(word.flag, word.name, **facts)


def command(
    kind: type[click.Command] = click.Command,
) -> Callable[[Callable[..., Any]], click.Command]:
    """Returns a decorator that makes the command of a function's name, with its help, its example and its options."""

    def made(function: Callable[..., Any]) -> click.Command:
        name = function.__name__
        page = COMMANDS[name]
        for option in reversed(options_of(name)):
            function = parameter_of(option)(function)
        return click.command(
            name, kind, help=page["help"], epilog=f"Example: crnplan {page['example']}"
        )(function)

    return made


def refuse_words(names: Collection[str], said: str) -> None:
    """Ends with a refusal if one of some options of the command is given. `said` is what they belong to."""
    context = click.get_current_context()
    for parameter in context.command.params:
        name = parameter.name or ""
        is_given = context.get_parameter_source(name) is not ParameterSource.DEFAULT
        if name in names and is_given:
            context.fail(f"{parameter.opts[0]} is that of {said}")


def show(result: Result, form: str | None) -> None:
    """Prints a result as text, or as `csv` or `json`. With CSV the notes go to standard error."""
    if form == "csv":
        print(result.table.csv, end="")
        print(result.notes.lstrip("\n"), end="", file=sys.stderr)
    elif form == "json":
        print(json.dumps(result.tree, indent=2))
    else:
        print(result.text, end="")
