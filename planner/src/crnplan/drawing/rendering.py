"""Renders pages by jinja2 from the templates of the package, and spells their numbers. A page needs no other file."""
from __future__ import annotations

import base64
import contextlib
import functools
import json
import math
from collections.abc import Iterable, Mapping
from typing import TYPE_CHECKING, Any, NamedTuple, Protocol

from .. import __version__
from ..store.caches import cache_folder
from ..store.digests import sha256
from ..money import Currency
from ..sentences import PREMISE, advised, counted, sentence

if TYPE_CHECKING:
    import jinja2
    from markupsafe import Markup

# From which amount on, how much of it is one, and its word: of amounts of money.
WORDS = (
    (1e12, 1e12, "trillion"),
    (1e9, 1e9, "billion"),
    (1e6, 1e6, "million"),
    (1e5, 1e3, "thousand"),
)
MINUS = "\u2212"  # as wide as a digit, so that columns stay in line
FIGURES = 3  # of an amount that is rounded for a reader
LARGE = 1_000  # Sums of so much money are shown in whole numbers.


def number(value: float, digits: int = 0) -> str:
    """Returns a number with separators of thousands and a minus sign; - if there is none."""
    if math.isnan(value):
        return "-"
    # So that 0 has no sign: -0.0 + 0.0 is 0.0.
    known = round(value, digits) + 0.0
    return f"{known:,.{digits}f}".replace("-", MINUS)


def percent(share: str | float | None, digits: int = 1) -> str:
    """Returns a share in percent: not -0.0%, if rounding has made it less than none; - if there is no share."""
    if share is None:
        return "-"
    known = max(float(share), 0.0)
    return f"{known:.{digits}%}"


class Measured(Protocol):
    """A figure with its standard error."""

    @property
    def value(self) -> float:
        ...

    @property
    def error(self) -> float:
        ...


def points(share: Measured, sign: str = "") -> str:
    """Returns a share with its standard error, both in hundredths; with a sign "+" also if it is above 0."""
    return f"{100 * share.value:{sign}z.1f} ± {100 * share.error:.1f}"


def met(unmet: Measured) -> str:
    """Returns the share of demand that is met at once, by what is not met, with its standard error."""
    return f"{100 - 100 * unmet.value:.1f} ± {100 * unmet.error:.1f}%"


class Unit(NamedTuple):
    """In what an amount of money is shown: so much of it is one, in a word, with so many digits."""

    size: float
    word: str
    digits: int

    @classmethod
    def of(cls, most: float, decimals: int) -> Unit:
        """Returns the unit of amounts of which `most` is the largest. Below 100 of money it has its decimals."""
        for least, size, word in WORDS:
            if most >= least:
                return cls(size, word, max(0, FIGURES - len(str(int(most / size)))))
        return cls(1.0, "", 0 if most >= 10 ** (FIGURES - 1) else decimals)

    def cell(self, amount: float) -> str:
        """Returns an amount in a column of this unit."""
        return number(amount / self.size, self.digits)


class Money(Currency):
    """How money is shown on a page."""

    def exact(self, amount: float) -> str:
        """Returns a sum with all digits of its whole number, or if it is small with decimals."""
        return self.named(number(amount, 0 if abs(amount) >= LARGE else self.places))

    def rounded(self, amount: float) -> str:
        """Returns an amount as people say it: by three figures, and large ones in thousands, millions or billions."""
        if abs(amount) >= 10 ** (FIGURES - 1):
            amount = float(f"{amount:.{FIGURES}g}")
        unit = Unit.of(abs(amount), self.places)
        return self.named(f"{unit.cell(amount)} {unit.word}".strip())

    def unit(self, amounts: Iterable[float]) -> Unit:
        """Returns the unit of a column, or of an axis, of these amounts."""
        return Unit.of(
            max((abs(amount) for amount in amounts), default=0.0), self.places
        )

    def unit_name(self, unit: Unit) -> str:
        """Returns the name of a unit, as EUR million, or millions; nothing if there is nothing to say."""
        if self.code:
            return self.named(unit.word).strip()
        if unit.word:
            return f"{unit.word}s"
        return ""

    def heading(self, words: str, unit: Unit) -> str:
        """Returns the name of an axis, or the heading of a column, of this unit."""
        return ", ".join(filter(None, (words, self.unit_name(unit))))


def capital(text: str) -> str:
    """Returns a sentence with its first letter as a capital, and a full stop."""
    return f"{text[:1].upper()}{text[1:]}."


def tick(value: float) -> str:
    return f"{value:,.10g}".replace("-", MINUS)


def quoted(value: object) -> str:
    """Returns a value as JSON and TOML have it."""
    return json.dumps(value, ensure_ascii=False)


def source(text: str) -> Markup:
    """Returns the source by which a content security policy allows this style or script: its SHA-256.

    Source: W3C, Content Security Policy Level 3, section 2.3.1. 'none' allows nothing, and stands for no text.
    """
    from markupsafe import Markup

    if not text:
        return Markup("'none'")
    digest = base64.b64encode(bytes.fromhex(sha256(text)))
    return Markup(f"'sha256-{digest.decode()}'")


FILTERS = (number, percent, points, met, capital, sentence, advised, source, quoted)


@functools.cache
def templates(is_html: bool) -> jinja2.Environment:
    """Returns the templates of the package. As numba does with loops, jinja2 keeps what it compiles in the user's folder
    for caches, if it can."""
    import jinja2

    class Kept(jinja2.FileSystemBytecodeCache):
        def load_bytecode(self, bucket: jinja2.bccache.Bucket) -> None:
            with contextlib.suppress(OSError):
                super().load_bytecode(bucket)

        def dump_bytecode(self, bucket: jinja2.bccache.Bucket) -> None:
            with contextlib.suppress(OSError):
                super().dump_bytecode(bucket)

    own = cache_folder()
    pages = jinja2.Environment(
        loader=jinja2.PackageLoader("crnplan"),
        autoescape=is_html,
        trim_blocks=True,
        lstrip_blocks=True,
        keep_trailing_newline=True,
        undefined=jinja2.StrictUndefined,
        bytecode_cache=Kept(str(own)) if own else None,
    )
    pages.filters |= {function.__name__: function for function in FILTERS}
    pages.globals |= {"version": __version__, "premise": PREMISE, "counted": counted}
    return pages


def rendered(template: str, context: Mapping[str, Any]) -> str:
    """Returns a page, a picture or a text from a template of the package."""
    is_html = template.endswith((".html", ".svg"))
    return templates(is_html).get_template(template).render(context)
