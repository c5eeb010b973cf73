"""Packs both commands for other machines: tools/package [--out FOLDER].

In FOLDER, by default dist, it makes two files of the last commit and of the program that is built from it:

    crnplan-VERSION-py3-none-PLATFORM.whl    for pip
    crnsim_VERSION_amd64.deb                 for apt-get on Debian 12

Each has crnsim and crnplan, their manual pages and completions, the planner's pages and the examples. The Debian package
has an entry in menus and an icon too. VERSION ends with the time of the commit, and PLATFORM names the oldest C library
that will do. A commit and a program make the same bytes each time. The program is stripped of its symbols. What is
missing is set up and built first.

    --program PATH    packs this program in place of the repository's
"""
import argparse
import datetime
import email.utils
import gzip
import hashlib
import os
import re
import shutil
import sys
import tempfile
import tomllib
import zipfile
from collections import namedtuple
from pathlib import Path

# Compiled text is not to stand in the repository.
sys.dont_write_bytecode = True
from environment import VERSION, requirements, version_of_crnplan
from installing import COMPLETIONS, TOP, Refused, program_of, run, texts_of
from manual import NoHelp

PYTHON = TOP / ".venv" / "bin" / "python"
# What is taken from the commit: the package, and what stands in its folder of documents.
DOCUMENTS = ["docs/GUIDE.md", "docs/FORMATS.md", "docs/TABLES.md", "examples"]
SOURCES = ["planner/pyproject.toml", "planner/README.md", "planner/src", *DOCUMENTS]
# In the package: these documents, the program, and what says of what all is built.
PAGES = "share/doc/crnsim"
INSIDE = "crnsim/bin/crnsim"
BUILT = "crnsim/built.toml"
# The least version of the C library that a wheel can name, and the libraries that every Linux with it has, each with
# its package of Debian.
OLDEST_GLIBC = (2, 17)
LIBRARIES = {
    "libc.so.6": "libc6",
    "libm.so.6": "libc6",
    "libpthread.so.0": "libc6",
    "libdl.so.2": "libc6",
    "ld-linux-x86-64.so.2": "libc6",
    "libgcc_s.so.1": "libgcc-s1",
}
WHEEL_BUILD = (
    "import sys; from setuptools import build_meta; build_meta.build_wheel(sys.argv[1])"
)
# A wheel with a program is of a platform, and this one of any Python.
SETUP = """
import setuptools


class Platform(setuptools.Distribution):
    def has_ext_modules(self):
        return True

    def get_command_class(self, name):
        command = super().get_command_class(name)
        if name != "bdist_wheel":
            return command

        class AnyPython(command):
            def get_tag(self):
                return "py3", "none", super().get_tag()[-1]

        return AnyPython


setuptools.setup(distclass=Platform)
"""
SETTINGS = "[bdist_wheel]\nplat_name = manylinux_{0[0]}_{0[1]}_x86_64\n"
# The command crnsim of pip, which a checkout has not.
COMMANDS = '[project.scripts]\ncrnsim = "crnplan.crnsim.command:main"\n'
# Where Debian has Python's packages, and the completions of zsh that a package brings.
DEBIAN_PYTHON = "lib/python3/dist-packages"
DEBIAN_ZSH = "share/zsh/vendor-completions/_{}"
# What of the package is at another place there, below /usr: the program, its pages, and the icon of the desk.
ELSEWHERE = {
    INSIDE: "bin/crnsim",
    PAGES: PAGES,
    "desk/static/icon.svg": "share/icons/hicolor/scalable/apps/crnplan.svg",
}
# The desk in menus.
ENTRY = "share/applications/crnplan-desk.desktop"
DESKTOP = """[Desktop Entry]
Type=Application
Name=crnplan
Comment=Plan stocks, and order what is due today
Exec=crnplan desk
Icon=crnplan
Terminal=false
Categories=Office;
Keywords=stock;inventory;demand;orders;
"""
CRNPLAN = """#!/usr/bin/python3
import sys
from crnplan.__main__ import main
sys.exit(main())
"""
CONTROL = """Package: crnsim
Version: {version}
Architecture: amd64
Maintainer: {author}
Installed-Size: {size}
Depends: {depends}
Suggests: {suggests}
Section: science
Priority: optional
Description: stock decisions from a history of demand by a proved simulator
 crnsim compares (s, S) inventory policies by common random numbers: every
 policy meets the same demands and delivery times. Each of its functions is
 proved to meet its contract.
 .
 crnplan leads a planner from a history of demand to a checked decision: it
 fits laws of demand and of lead times, finds the best policy of each item by
 theory, and checks it with crnsim. It is a command, pages in a browser, and a
 Python package.
 .
 The planner's guide and examples are in /usr/{pages}.
"""
COPYRIGHT = """crnsim and crnplan

Copyright {year} {author}

No licence is given yet: the repository has none. Copyright law alone says what
you may do with this package; ask the author for anything more.
"""
CHANGELOG = """crnsim ({version}) unstable; urgency=medium

  * Pack commit {commit}.

 -- {author}  {date}
"""
# Much as debhelper writes them.
POSTINST = """#!/bin/sh
set -e
if command -v py3compile >/dev/null 2>&1; then
	py3compile -p crnsim
fi
"""
PRERM = """#!/bin/sh
set -e
if command -v py3clean >/dev/null 2>&1; then
	py3clean -p crnsim
fi
"""

Commit = namedtuple("Commit", "name moment author")
Needs = namedtuple("Needs", "glibc packages")


def last_commit():
    """Returns the last commit: its name, its time in UTC, and who made it. Nothing may be changed since."""
    git = ["git", "-C", TOP]
    changed = run(*git, "status", "--porcelain", "--untracked-files=no").splitlines()
    if changed:
        raise Refused(
            f"commit what is changed first: {', '.join(it[3:] for it in changed)}"
        )
    name, seconds, author = run(
        *git, "log", "-1", "--format=%H%n%ct%n%an <%ae>"
    ).splitlines()
    return Commit(
        name,
        datetime.datetime.fromtimestamp(int(seconds), datetime.timezone.utc),
        author,
    )


def needs_of(program):
    """Returns the least version of the C library with which the program runs, and the packages of Debian that it needs."""
    text = run(
        "readelf",
        "--wide",
        "-h",
        "-d",
        "-V",
        program,
        env={**os.environ, "LC_ALL": "C"},
    )
    libraries = set(re.findall(r"\(NEEDED\).*\[(.*)\]", text))
    if "X86-64" not in text or libraries - LIBRARIES.keys():
        raise Refused(
            f"{program} is not for x86-64, or needs other libraries than {', '.join(LIBRARIES)}"
        )
    versions = [tuple(map(int, it)) for it in re.findall(r"\bGLIBC_(\d+)\.(\d+)", text)]
    return Needs(
        max([OLDEST_GLIBC, *versions]), sorted({LIBRARIES[it] for it in libraries})
    )


def write(path, text, mode=0o644):
    """Writes a file with its folders."""
    path.parent.mkdir(parents=True, exist_ok=True)
    path.write_text(text, encoding="utf-8")
    path.chmod(mode)


def place_program(program, path):
    """Copies the program, so that it can be run."""
    path.parent.mkdir(parents=True, exist_ok=True)
    shutil.copyfile(program, path)
    path.chmod(0o755)


def stripped(program, room):
    """Returns the path of a copy of the program without symbols."""
    path = room / "crnsim"
    run(
        "strip",
        "--remove-section=.comment",
        "--remove-section=.note",
        "-o",
        path,
        program,
    )
    return path


def sources_of(commit, program, room):
    """Lays out in a folder what the wheel is built of, and returns the folder of the project."""
    run(
        "git",
        "-C",
        TOP,
        "-c",
        "tar.umask=0022",
        "archive",
        "-o",
        room / "sources.tar",
        commit.name,
        *SOURCES,
    )
    shutil.unpack_archive(room / "sources.tar", room)
    package = room / "planner" / "src" / "crnplan"
    for name in DOCUMENTS:
        (package / PAGES / name).parent.mkdir(parents=True, exist_ok=True)
        (room / name).rename(package / PAGES / name)
    for name, text in texts_of(program, PYTHON.with_name("crnplan")).items():
        write(package / name, text)
    place_program(program, package / INSIDE)
    digest = hashlib.sha256(program.read_bytes()).hexdigest()
    write(
        package / BUILT,
        f'commit = "{commit.name}"\nprogram = "{digest}"\npages = "{PAGES}"\n',
    )
    return room / "planner"


def version_of(commit):
    """Returns the version: that of crnplan, and the time of a commit in UTC."""
    return f"{version_of_crnplan()}+{commit.moment:%Y%m%d%H%M%S}"


def change(path, old, new):
    """Changes the one place of a file that matches."""
    text, count = re.subn(old, new, path.read_text(encoding="utf-8"), 0, re.MULTILINE)
    if count != 1:
        raise Refused(f"{path}: {count} places match {old}")
    write(path, text)


def wheel_of(commit, program, needs, room):
    """Builds the wheel in a folder, and returns its path."""
    home = sources_of(commit, program, room)
    change(
        home / "src/crnplan/__init__.py",
        VERSION.pattern,
        f'__version__ = "{version_of(commit)}"',
    )
    change(home / "pyproject.toml", r"^\[project\.scripts\]\n", COMMANDS)
    write(home / "setup.cfg", SETTINGS.format(needs.glibc))
    write(home / "setup.py", SETUP)
    run(PYTHON, "-I", "-W", "ignore", "-c", WHEEL_BUILD, room, cwd=home)
    return next(room.glob("*.whl"))


def debian_place(name):
    """Returns where a file of the wheel is on Debian, below /usr, or None if it is not there: the list of files is
    dpkg's."""
    path = name.removeprefix("crnplan/")
    if path in ELSEWHERE:
        return ELSEWHERE[path]
    if path.startswith("share/"):
        zsh = re.fullmatch(COMPLETIONS["zsh"].format("(.*)"), path)
        return DEBIAN_ZSH.format(zsh[1]) if zsh else path
    is_of_pip = Path(name).name in ("RECORD", "WHEEL", "top_level.txt")
    return None if is_of_pip else f"{DEBIAN_PYTHON}/{name}"


def stage_of(wheel, room):
    """Lays out the files of the wheel in a folder as they are below / on Debian, and returns it."""
    stage = room / "debian"
    with zipfile.ZipFile(wheel) as packed:
        for name in packed.namelist():
            place = debian_place(name)
            if place is not None:
                place_bytes(stage / "usr" / place, packed.read(name))
    (stage / "usr/bin/crnsim").chmod(0o755)
    write(stage / "usr/bin/crnplan", CRNPLAN, 0o755)
    write(stage / "usr" / ENTRY, DESKTOP)
    # The package finds all where a wheel has them.
    for inside, place in ELSEWHERE.items():
        link = stage / "usr" / DEBIAN_PYTHON / "crnplan" / inside
        link.parent.mkdir(parents=True, exist_ok=True)
        link.symlink_to(os.path.relpath(stage / "usr" / place, link.parent))
    return stage


def place_bytes(path, data):
    """Writes a file with its folders, a manual page packed."""
    is_page = "/man/" in str(path)
    path.parent.mkdir(parents=True, exist_ok=True)
    path.with_name(path.name + ".gz" * is_page).write_bytes(
        gzip.compress(data, mtime=0) if is_page else data
    )


def debian_names(texts):
    """Returns the packages of Debian for some requirements of Python, as a list in a control file."""
    return ", ".join(
        f"python3-{name.lower()} (>= {least})"
        for name, least in requirements(texts).items()
    )


def sums_of(stage):
    """Returns the list of the files and their MD5 digests, with which dpkg finds changed ones."""
    files = sorted(
        it for it in (stage / "usr").rglob("*") if it.is_file() and not it.is_symlink()
    )
    return "".join(
        f"{hashlib.md5(it.read_bytes()).hexdigest()}  {it.relative_to(stage)}\n"
        for it in files
    )


def control_of(version, commit, needs, stage):
    """Returns the control file of the Debian package."""
    with open(TOP / "planner" / "pyproject.toml", "rb") as file:
        project = tomllib.load(file)["project"]
    libraries = [
        "libc6 (>= {}.{})".format(*needs.glibc),
        *(it for it in needs.packages if it != "libc6"),
    ]
    size = sum(it.lstat().st_size for it in stage.rglob("*") if it.is_file())
    return CONTROL.format(
        version=version,
        author=commit.author,
        size=-(-size // 1024),
        pages=PAGES,
        depends=", ".join(
            [
                *libraries,
                f"python3 ({project['requires-python'].replace('>=', '>= ')})",
                debian_names(project["dependencies"]),
            ]
        ),
        suggests=debian_names(project["optional-dependencies"]["cluster"]),
    )


def deb_of(wheel, commit, needs, room):
    """Builds the Debian package of what is in the wheel, and returns its path."""
    stage = stage_of(wheel, room)
    about, version = stage / "usr" / PAGES, version_of(commit)
    words = {
        "version": version,
        "author": commit.author,
        "commit": commit.name,
        "date": email.utils.format_datetime(commit.moment),
        "year": commit.moment.year,
    }
    write(about / "copyright", COPYRIGHT.format(**words))
    (about / "changelog.gz").write_bytes(
        gzip.compress(CHANGELOG.format(**words).encode(), mtime=0)
    )
    write(stage / "DEBIAN" / "control", control_of(version, commit, needs, stage))
    write(stage / "DEBIAN" / "md5sums", sums_of(stage))
    write(stage / "DEBIAN" / "postinst", POSTINST, 0o755)
    write(stage / "DEBIAN" / "prerm", PRERM, 0o755)
    seconds = commit.moment.timestamp()
    for path in (stage, *stage.rglob("*")):
        os.utime(path, (seconds, seconds), follow_symlinks=False)
    path = room / f"crnsim_{version}_amd64.deb"
    run("dpkg-deb", "--root-owner-group", "--threads-max=1", "--build", stage, path)
    return path


def pack(named, out):
    """Makes both files."""
    commit = last_commit()
    print(run(TOP / "tools" / "setup"), end="", flush=True)
    program = program_of(named)
    needs = needs_of(program)
    # All that is made names this time in place of that of its making, and has the same modes.
    os.environ["SOURCE_DATE_EPOCH"] = f"{commit.moment.timestamp():.0f}"
    os.umask(0o022)
    with tempfile.TemporaryDirectory(prefix="crnsim-") as folder:
        wheel = wheel_of(commit, stripped(program, Path(folder)), needs, Path(folder))
        deb = deb_of(wheel, commit, needs, Path(folder))
        out.mkdir(parents=True, exist_ok=True)
        for path in (wheel, deb):
            shutil.copy(path, out)
            print(f"{out / path.name} ({path.stat().st_size / 1e6:.1f} MB)")


def main():
    """Packs; the exit status."""
    words = argparse.ArgumentParser(
        "tools/package",
        description=__doc__,
        formatter_class=argparse.RawDescriptionHelpFormatter,
    )
    words.add_argument("--out", metavar="FOLDER", type=Path, default=TOP / "dist")
    words.add_argument("--program", metavar="PATH", type=Path)
    asked = words.parse_args()
    try:
        pack(asked.program, asked.out)
    except (Refused, NoHelp, OSError) as fault:
        print(f"tools/package: {fault}", file=sys.stderr)
        return 1
    return 0


if __name__ == "__main__":
    sys.exit(main())
