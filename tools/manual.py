#!/usr/bin/env python3
"""Writes manual pages from the help texts of a program: tools/manual.py PROGRAM FOLDER.

PROGRAM is asked `--help`, and `NAME --help` for each of its commands. For each text there is a page in FOLDER:
PROGRAM.1 and PROGRAM-NAME.1. It prints their paths.
"""
import argparse
import datetime
import os
import re
import subprocess
import sys
import textwrap
import time

SECONDS = 60
# The first line of a block of help that has a heading, and a sentence of it that goes on.
HEADING = re.compile(r"([A-Z][^:;,]*)([;,] [^:]*)?:")
EXAMPLE = re.compile(r"(Examples?): (.*)", re.DOTALL)
# A term and what is said of it.
ENTRY = re.compile(r"(\S.*?)(?:  +(.*))?")
# What stands first on a page.
FIRST = ["NAME", "SYNOPSIS", "DESCRIPTION"]


class NoHelp(Exception):
    """A program gave no help."""


def help_of(program, *words):
    """Returns the help text of a program or of one of its commands."""
    wide = {**os.environ, "COLUMNS": "100", "NO_COLOR": "1"}
    how = {
        "stdin": subprocess.DEVNULL,
        "capture_output": True,
        "text": True,
        "timeout": SECONDS,
    }
    ran = subprocess.run([program, *words, "--help"], env=wide, check=False, **how)
    if ran.returncode != 0:
        raise NoHelp(
            f"{' '.join([program, *words, '--help'])} failed: {ran.stderr or ran.stdout}"
        )
    return ran.stdout


def entries_of(lines):
    """Returns the terms of a list, each with what is said of it. A line that is set in by more than one blank more than
    the least goes on with the term before."""
    entries = []
    least = min(len(it) - len(it.lstrip()) for it in lines)
    for line in lines:
        text = line.strip()
        if len(line) - len(line.lstrip()) > least + 1 and entries:
            entries[-1][1] = f"{entries[-1][1]} {text}".strip()
        else:
            term, said = ENTRY.fullmatch(text).groups()
            entries.append([term, said or ""])
    return entries


def blocks_of(text):
    """Yields the blocks of a help text: a section, a kind (`usage`, `text`, `list` or `code`) and what it says."""
    for block in re.split(r"\n\s*\n", text.strip("\n")):
        lines = textwrap.dedent(block).splitlines()
        heading, example = HEADING.fullmatch(lines[0]), EXAMPLE.fullmatch(
            "\n".join(lines)
        )
        if lines[0].startswith("Usage:"):
            yield "SYNOPSIS", "usage", " ".join(
                it.strip() for it in lines
            ).removeprefix("Usage:").strip()
        elif example:
            yield example[1].upper(), "code", [example[2].replace("\n", " ")]
        elif heading and lines[1:]:
            section = heading[1].upper()
            if heading[2]:
                yield section, "text", f"{heading[2][2].upper()}{heading[2][3:]}:"
            if section.startswith("EXAMPLE"):
                yield section, "code", textwrap.dedent(
                    "\n".join(lines[1:])
                ).splitlines()
            else:
                yield section, "list", entries_of(lines[1:])
        elif any(it.startswith(" ") for it in lines):
            yield "DESCRIPTION", "code", lines
        else:
            yield "DESCRIPTION", "text", " ".join(lines)


def commands_of(text):
    """Returns the commands that a help text lists, each with its line, but for `help` itself."""
    return {
        name: said
        for section, kind, entries in blocks_of(text)
        if section == "COMMANDS" and kind == "list"
        for name, said in entries
        if name != "help"
    }


def escaped(text):
    """Returns a line as roff prints it."""
    text = text.replace("\\", "\\e").replace("-", "\\-")
    return "\\&" + text if text.startswith((".", "'")) else text


def wrapped(text):
    """Returns the lines of roff for a paragraph."""
    lines = textwrap.wrap(text, 72, break_long_words=False, break_on_hyphens=False)
    return list(map(escaped, lines)) or ["\\&"]


def lines_of(kind, said):
    """Yields the lines of roff for a block."""
    if kind == "list":
        for term, text in said:
            yield from (".TP", f".B {escaped(term)}", *wrapped(text))
    elif kind == "code":
        yield from (".PP", ".nf", ".RS 4", *map(escaped, said), ".RE", ".fi")
    elif kind == "usage":
        name, _, words = said.partition(" ")
        yield from (f".B {escaped(name)}", *wrapped(words))
    else:
        yield from (".PP", *wrapped(said))


def page(name, about, text, others, day):
    """Returns the manual page of a program or command, made of a line on it, its help and the names of other pages."""
    sections = {it: [] for it in FIRST}
    sections["NAME"] = wrapped(f"{name} - {about.rstrip('.')}")
    for section, kind, said in blocks_of(text):
        sections.setdefault(section, []).extend(lines_of(kind, said))
    if others:
        sections["SEE ALSO"] = [
            f".BR {escaped(it)} (1){',' if it != others[-1] else ''}" for it in others
        ]
    lines = [
        f".TH {escaped(name.upper())} 1 {day} {name.partition('-')[0]} \"User Commands\""
    ]
    for section, within in sections.items():
        # A paragraph needs no mark below a heading.
        lines += [
            f".SH {section}" if " " not in section else f'.SH "{section}"',
            *within[within[:1] == [".PP"] :],
        ]
    return "\n".join(lines) + "\n"


def today():
    """Returns the date in UTC, or that of SOURCE_DATE_EPOCH if it is set, in seconds since 1970."""
    seconds = int(os.environ.get("SOURCE_DATE_EPOCH", time.time()))
    return (
        datetime.datetime.fromtimestamp(seconds, datetime.timezone.utc)
        .date()
        .isoformat()
    )


def pages_of(program, name):
    """Returns the manual pages of a program with a name, by the names of their files."""
    text, day = help_of(program), today()
    about = next(
        said
        for section, kind, said in blocks_of(text)
        if (section, kind) == ("DESCRIPTION", "text")
    )
    commands = commands_of(text)
    pages = {
        f"{name}.1": page(
            name,
            re.split(r"[.:] ", about)[0],
            text,
            [f"{name}-{it}" for it in commands],
            day,
        )
    }
    for command, line in commands.items():
        pages[f"{name}-{command}.1"] = page(
            f"{name}-{command}", line, help_of(program, command), [name], day
        )
    return pages


def main():
    """Writes the pages; the exit status."""
    words = argparse.ArgumentParser(
        description=__doc__, formatter_class=argparse.RawDescriptionHelpFormatter
    )
    words.add_argument("program", metavar="PROGRAM")
    words.add_argument("folder", metavar="FOLDER")
    asked = words.parse_args()
    try:
        pages = pages_of(asked.program, os.path.basename(asked.program))
    except (NoHelp, OSError) as fault:
        print(f"tools/manual.py: {fault}", file=sys.stderr)
        return 1
    for name, text in pages.items():
        with open(f"{asked.folder}/{name}", "w", encoding="utf-8") as file:
            file.write(text)
        print(f"{asked.folder}/{name}")
    return 0


if __name__ == "__main__":
    sys.exit(main())
