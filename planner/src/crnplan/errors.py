"""The errors of the package, each with the exit status that a command ends with.

A message has a line for each thing that is wrong: where, what, and what to do. It names arguments by `argument`, so
that a function shows them as they are called and a command as its options.
"""
from __future__ import annotations

from collections.abc import Sequence
from dataclasses import dataclass
from typing import Any, ClassVar

from .remarks import Remark
from .spelling import argument as argument, worded
from .sentences import message


class CrnplanError(Exception):
    """Any error that the package raises on purpose. Its text is meant for the user.

    Attributes
    ----------
    what : str
        What is wrong.
    advice : str
        What to do; empty if there is nothing to say.
    """

    status: ClassVar[int] = 2

    def __init__(self, what: str = "", advice: str = "") -> None:
        """Keeps what is wrong and what to do apart. The text has both."""
        self.what, self.advice = what, advice
        super().__init__(f"{what}; {advice}" if advice else what)

    def __reduce__(self) -> tuple[Any, ...]:
        """Says how it is made again in another process, whatever its own `__init__` takes."""
        return Exception.__new__, (type(self), *self.args), self.__dict__

    @property
    def message(self) -> str:
        """Returns the message before its arguments are spelt."""
        return super().__str__()

    def __str__(self) -> str:
        """Returns the message with arguments as a call of Python has them."""
        return worded(self.message)


class Refused(CrnplanError, ValueError):
    """An input, an option or an argument that cannot be used: what is wrong with it, and what to do."""


class Failed(CrnplanError):
    """What no input is to blame for: the disk, memory, a store, a worker, a cluster, the program, or crnplan itself."""

    status = 3


class ProgramError(CrnplanError):
    """The program crnsim was not found, or it has refused its input."""


class ProgramFailed(ProgramError, Failed):
    """The program crnsim was ended by force, or has failed for want of memory, threads or the disk."""


@dataclass(frozen=True)
class Fault:
    """One thing that is wrong with an input.

    Attributes
    ----------
    said : str or Remark
        A remark, or what another reader says of it.
    file : str
        The file, if it is known.
    line, column : int
        Its place, counted from 1; 0 if there is none.
    """

    said: str | Remark
    file: str = ""
    line: int = 0
    column: int = 0

    @property
    def what(self) -> str:
        """Returns what is wrong and what to do, before arguments are spelt."""
        if isinstance(self.said, str):
            return self.said
        return message(self.said)

    @property
    def message(self) -> str:
        """Returns `FILE:LINE:COLUMN: WHAT`, without the parts that are not known, before arguments are spelt."""
        known = [str(part) for part in (self.file, self.line, self.column) if part]
        return ": ".join(filter(None, [":".join(known), self.what]))

    def __str__(self) -> str:
        return worded(self.message)


class RefusedFaults(Refused):
    """An input with faults, all of which were found in one pass: `faults`."""

    def __init__(self, faults: Sequence[Fault], text: str = "") -> None:
        """Keeps the faults. The text is that of the faults, one a line, if none is given."""
        self.faults = tuple(faults)
        super().__init__(text or "\n".join(fault.message for fault in self.faults))


class ScenarioError(RefusedFaults):
    """A scenario that crnsim would refuse, with all its faults.

    Attributes
    ----------
    faults : tuple of Fault
        What is wrong, in the order of the text.
    """
