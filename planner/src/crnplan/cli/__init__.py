"""The command crnplan. Subcommands are in the modules of this folder, each imported only if it is asked for.

There is no arithmetic in a command: it reads its words, calls the package and prints.
"""
from __future__ import annotations

import contextlib
import difflib
import importlib
import io
import os
import shlex
import signal
import sys
import tomllib
import traceback
from collections.abc import Callable, Mapping
from contextlib import redirect_stderr, redirect_stdout
from dataclasses import dataclass, replace
from pathlib import Path
from typing import Any, TextIO

import click

from .. import __version__
from ..errors import CrnplanError, Failed, Refused
from ..spelling import escaped, spelt, worded
from ..store.files import faults_of
from ..store.interrupts import heed_interrupt, heeding_interrupts
from ..options import word_of
from ..vocabulary import Word, several, words_of

# The threads of linear algebra gain nothing here. Beside other work they wait for one another, busily.
for _threads in ("OMP_NUM_THREADS", "OPENBLAS_NUM_THREADS"):
    os.environ.setdefault(_threads, "1")

INTERRUPTED = 128 + signal.SIGINT  # as shells have it
STREAMS = "stdin", "stdout", "stderr"  # in the order of their numbers
# The subcommands: the module of each, its help, and its options in order.
COMMANDS: dict[str, dict[str, Any]] = tomllib.loads(
    Path(__file__).with_name("help.toml").read_text("utf-8")
)
RETIRED: dict[str, dict[str, str]] = tomllib.loads(
    Path(__file__).with_name("retired.toml").read_text("utf-8")
)


def options_of(command: str) -> list[Word]:
    """Returns the options of a command. A name without its table is that of an own option, else of a common one, else a word
    of reading or planning. The texts of such a word are kept, and read beside the keys of crnplan.toml.
    """
    options = list[Word]()
    for name in COMMANDS[command]["options"]:
        *table, name = name.split(".")
        word = word_of(name, table or (command, "common"))
        if not word:
            word = known_words()[name]
            kind = replace(word.kind, read=several(str))
            word = replace(word, kind=kind, default=None)
        options.append(word)
    return options


def known_words() -> Mapping[str, Word]:
    """Returns the words of reading and planning by name."""
    from ..plan.how import Settings
    from ..read.items import Reading

    return words_of(Reading, Settings)


@dataclass
class Spelling:
    """Spells arguments of the library as the options that have their names: of the subcommand that runs, else of
    `crnplan plan`, since pages and tables tell what that has read; else as keys for --set.
    """

    command: str = ""

    def __call__(self, name: str, value: str) -> str:
        """Returns an argument as an option, perhaps with a value."""
        words = [value] if value else []
        for command in filter(None, (self.command, "plan")):
            for option in options_of(command):
                if option.name == name and not option.positional:
                    return shlex.join([option.flag, *words])
        from ..read.file_kinds import NONE, OF_PLANS
        from .keys import entry_text

        if name in (*OF_PLANS, NONE):
            return shlex.quote(f"{name}={value or 'FILE'}")
        word = known_words().get(name)
        if word and word.key:
            return shlex.join(["--set", *filter(None, [entry_text(word, value)])])
        return shlex.join([f"--{name.replace('_', '-')}", *words])


class CommandGroup(click.Group):
    """A group whose subcommands are imported when they are asked for."""

    def list_commands(self, ctx: click.Context) -> list[str]:
        return list(COMMANDS)

    def get_command(self, ctx: click.Context, cmd_name: str) -> click.Command | None:
        if cmd_name not in COMMANDS:
            return None
        module = importlib.import_module(f"{__name__}.{COMMANDS[cmd_name]['module']}")
        command: click.Command = getattr(module, cmd_name)
        return command

    def resolve_command(
        self, ctx: click.Context, args: list[str]
    ) -> tuple[str | None, click.Command | None, list[str]]:
        """Finds the subcommand, or suggests those that are spelt like it."""
        name = args[0]
        if name in COMMANDS and isinstance(ctx.obj, Spelling):
            ctx.obj.command = name
        elif name not in COMMANDS and not name.startswith("-"):
            close = difflib.get_close_matches(name, COMMANDS, 2)
            advice = f"; they are {', '.join(COMMANDS)}"
            if name in RETIRED["commands"]:
                advice = f" any more; {RETIRED['commands'][name]}."
            elif close:
                advice = f"; did you mean {' or '.join(close)}?"
            raise click.UsageError(f"there is no command '{name}'{advice}", ctx)
        return super().resolve_command(ctx, args)

    def format_commands(
        self, ctx: click.Context, formatter: click.HelpFormatter
    ) -> None:
        """Lists the subcommands without importing them."""
        with formatter.section("Commands"):
            lines = [(name, page["line"]) for name, page in COMMANDS.items()]
            formatter.write_dl(lines)


@click.group(
    cls=CommandGroup,
    context_settings={"help_option_names": ["-h", "--help"], "max_content_width": 100},
    epilog="Example: crnplan plan demand.csv items.csv --out plan",
)
@click.version_option(
    __version__, "-V", "--version", prog_name="crnplan", message="%(prog)s %(version)s"
)
def group() -> None:
    """Lead from a history of demand to a stock decision.

    What the program crnsim computes is exact and proved for its stream; what theory computes is rounded and unproved.

    \b
    Files:
      ~/.cache/crnplan  Compiled loops and templates of pages. They stay if crnplan
                        is removed, and you may remove them: what is missing is
                        compiled again.
    """


def note(message: str) -> None:
    """Prints the lines of a message on standard error, with the options of the command for the arguments of the
    library, or whatever stands for them in the block `spelling.spelt`."""
    for line in worded(message).splitlines():
        click.echo(f"crnplan: {line}", err=True)


def main() -> None:
    """Runs the command. Ends with status 0; 1 if the answer is no; 2 if an input or a word is refused; 3 if no input is
    to blame; 130 if interrupted."""
    status, spelling = Failed.status, Spelling()
    open_streams()
    output: Any = _Shown(sys.stdout, BrokenPipeError)
    errors: Any = _Shown(sys.stderr, OSError)
    with redirect_stdout(output), redirect_stderr(errors), spelt(
        spelling
    ), heeding_interrupts():
        try:
            with faults_of(Path("crnplan")):
                result: Any = group.main(
                    prog_name="crnplan", standalone_mode=False, obj=spelling
                )
                # What is still to be written may fail: here, where it is said, and not when Python ends.
                print(end="", flush=True)
            status = result if isinstance(result, int) else 0
        except click.ClickException as refusal:
            note(_with_help(refusal))
            status = Refused.status
        except CrnplanError as refusal:
            note(refusal.message)
            status = refusal.status
        except (KeyboardInterrupt, click.Abort):
            heed_interrupt()
            note("interrupted")
            status = INTERRUPTED
        except MemoryError:
            note("out of memory; close other programs, or use a machine with more")
        except Exception as crash:
            last = traceback.extract_tb(crash.__traceback__)[-1]
            place = f"{Path(last.filename).name}:{last.lineno}"
            note(
                f"a fault of crnplan itself: {type(crash).__name__}: {crash} ({place}); please report this line"
            )
    sys.exit(status)


def _with_help(refusal: click.ClickException) -> str:
    message, context = refusal.format_message(), getattr(refusal, "ctx", None)
    if isinstance(refusal, click.NoSuchOption):
        name = context.info_name if context else ""
        message = retired_option(name, refusal.option_name) or message
    if context:
        end = "" if message.endswith(("?", ".")) else "."
        message += f"{end} {context.command_path} --help shows the words."
    return message


def retired_option(command: str, flag: str) -> str:
    """Returns what replaces an option that a command has no longer; nothing if it had none."""
    from ..read.file_kinds import OF_PLANS
    from .keys import entry_text

    options = COMMANDS.get(command, {}).get("options", ())
    kind = flag.strip("-").replace("-", "_")
    keys = {word.flag: word for word in known_words().values() if word.key}
    said = RETIRED["options"].get(f"{command} {flag}")
    if said:
        return f"{flag} is no option any more: {said}"
    if "tables" in options and kind in OF_PLANS:
        return f"{flag} is no option any more: name the file, or say {kind}=FILE"
    if "stated" not in options or flag not in keys:
        return ""
    entry = entry_text(keys[flag], keys[flag].kind.metavar)
    return f"{flag} is no option any more: say it in crnplan.toml, or --set {entry}"


def open_streams() -> None:
    """Opens the null device in place of each standard stream that is closed: what is printed there is read by nobody, as
    if its reader had gone. Else the next file that is opened would have its number, and be written into.
    """
    for number, name in enumerate(STREAMS):
        with contextlib.suppress(OSError):
            if not is_open(number):
                os.open(
                    os.devnull, os.O_RDWR
                )  # It gets the lowest number that is free.
        if getattr(sys, name) is None:
            mode = "r" if name == "stdin" else "w"
            setattr(sys, name, open(number, mode, encoding="utf-8", closefd=False))


def is_open(number: int) -> bool:
    """Returns whether a descriptor is open."""
    try:
        os.fstat(number)
    except OSError:
        return False
    return True


class _Shown:
    """A standard stream on which texts of others may be shown: control characters are escaped. That its reader has gone
    is no fault, and nor is any error of `faults`: what is left is dropped, and the command goes on.
    """

    def __init__(self, stream: TextIO, faults: type[OSError]) -> None:
        if isinstance(stream, io.TextIOWrapper):
            stream.reconfigure(errors="backslashreplace")
        self.stream, self.faults = stream, faults

    def __getattr__(self, name: str) -> Any:
        return getattr(self.stream, name)

    def write(self, text: str) -> int:
        self._try(self.stream.write, escaped(text))
        return len(text)

    def flush(self) -> None:
        self._try(self.stream.flush)

    def _try(self, step: Callable[..., object], *words: str) -> None:
        """Takes a step, after which nothing is written any more if that can't be."""
        try:
            step(*words)
        except self.faults:
            os.dup2(os.open(os.devnull, os.O_WRONLY), self.stream.fileno())
