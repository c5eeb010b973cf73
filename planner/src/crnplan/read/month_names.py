"""Knows the names of months in many languages, and which month a name means among the others of a table.

The names are those of Babel, which are those of Unicode (CLDR).

A name may mean two months: `lis` is October in Croatian, and November in Polish and Czech. Those languages decide that
have all names of the table. Where they don't, both readings are returned. A language that is official in no country
decides nothing beside those that are.
"""
from __future__ import annotations

import functools
import re
from collections.abc import Iterable, Mapping

from .cells import some_of, without_accents

# What some languages write before or behind a name, as in `6 de enero de 2025`, `6 d’abril`.
BESIDE_NAME = re.compile(r"^(?:de[l ] ?|d['’]|of )|(?: de| del| of)$")
# A short name of Windows that Babel's tables lack, with its language.
OF_WINDOWS = {"mrz": ("de", 3)}
WIDTHS = [
    (context, width)
    for context in ("format", "stand-alone")
    for width in ("wide", "abbreviated")
]
OFFICIAL = ("official", "de_facto_official")
MOST_LANGUAGES = 3  # of a reading in a message

Months = dict[str, dict[str, set[int]]]  # by name and language


def plain_month(name: str) -> str:
    """Returns a name in lower case, without accents, dots and the words beside it."""
    plain = without_accents(name.casefold().replace("ı", "i"))
    return BESIDE_NAME.sub("", plain.strip(" .,-'’")).strip(" .'’")


@functools.cache
def _months_in(is_official: bool) -> Months:
    """Returns the months that names mean in languages that are official in a country, or in the others, apart from what
    single countries write otherwise."""
    from babel import Locale, localedata
    from babel.core import get_global

    official = {
        language
        for languages in get_global("territory_languages").values()
        for language, facts in languages.items()
        if facts.get("official_status") in OFFICIAL
    }
    months: Months = {}
    loaded = getattr(localedata, "_cache", {})
    for language in sorted(localedata.locale_identifiers()):
        if (language in official) != is_official or "_" in language and not is_official:
            continue
        names = Locale.parse(language).months
        for context, width in WIDTHS:
            for month, name in names[context][width].items():
                months.setdefault(plain_month(name), {}).setdefault(
                    language, set()
                ).add(month)
        loaded.pop(language, None)  # All languages together take 200 MB.
    for name, (language, month) in OF_WINDOWS.items() if is_official else ():
        months.setdefault(name, {}).setdefault(language, set()).add(month)
    return months


def _called(languages: Iterable[str]) -> str:
    """Returns the English names of the first of these languages."""
    from babel import Locale

    names = sorted({str(Locale.parse(language).english_name) for language in languages})
    return some_of(names, MOST_LANGUAGES)


def months_of(names: Iterable[str]) -> Mapping[str, Mapping[int, str]]:
    """Returns the months that each of the plain names of a table may mean, with the languages in which it does; names that
    no language has are left out."""
    known: Months = {}
    for name in names:
        of_name = _months_in(True).get(name) or _months_in(False).get(name)
        if of_name:
            known[name] = of_name
    common = set[str]().union(*known.values()).intersection(*known.values())
    meanings = dict[str, dict[int, str]]()
    for name, of_name in known.items():
        by_month: dict[int, list[str]] = {}
        for language in sorted(common or of_name):
            for month in of_name[language]:
                by_month.setdefault(month, []).append(language)
        meanings[name] = dict.fromkeys(sorted(by_month), "")
        if len(by_month) > 1:
            for month, languages in by_month.items():
                meanings[name][month] = _called(languages)
    return meanings
