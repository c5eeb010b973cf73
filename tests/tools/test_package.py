"""Tests tools/package on a copy with a history of its own: the files that it makes, and what they do when installed."""
from __future__ import annotations

import configparser
import gzip
import hashlib
import os
import re
import shutil
import signal
import subprocess
import sys
import xml.etree.ElementTree
import zipfile
from pathlib import Path
from urllib.parse import urljoin
from urllib.request import HTTPCookieProcessor, ProxyHandler, build_opener

import pytest

from crnplan.cli import COMMANDS

from .machine import SECONDS, Machine, Ran, changed, write_script
from .program import PROGRAM

AUTHOR = "A Planner <a.planner@example.org>"
# At 2033-05-18 03:33:20 UTC, which no clock says yet.
MOMENT, VERSION = "2000000000 +0900", "0.1.0+20330518033320"
COPIED = [
    "tools/package",
    "tools/packing.py",
    "tools/installing.py",
    "tools/manual.py",
    "tools/environment.py",
    "planner",
    "examples",
    "docs/GUIDE.md",
    "docs/FORMATS.md",
    "docs/TABLES.md",
]
# What else the Debian package has below /usr than Python. In place of crnplan stands tests/tools/program.py.
PAGES = {
    "crnsim": [
        "",
        "-run",
        "-lanes",
        "-leg",
        "-resume",
        "-migrate",
        "-words",
        "-replay",
    ],
    "crnplan": ["", "-run", "-leg", "-words"],
}
SHELLS = [
    "share/bash-completion/completions/{}",
    "share/fish/vendor_completions.d/{}.fish",
    "share/zsh/vendor-completions/_{}",
]
ENTRY = "share/applications/crnplan-desk.desktop"
ICON = "share/icons/hicolor/scalable/apps/crnplan.svg"
OWN_ICON = "planner/src/crnplan/desk/static/icon.svg"
BESIDE = {
    *(ENTRY, ICON),
    *(f"bin/{name}" for name in PAGES),
    *(place.format(name) for name in PAGES for place in SHELLS),
    *(
        f"share/man/man1/{name}{end}.1.gz"
        for name, ends in PAGES.items()
        for end in ends
    ),
}


@pytest.fixture(scope="module")
def packed(
    tmp_path_factory: pytest.TempPathFactory, top: Path, program: Path
) -> Machine:
    """Returns a machine on which both files are made of the tested program and of a commit."""
    machine = Machine(tmp_path_factory.mktemp("packed"))
    machine.copy(top, *COPIED)
    write_script(machine.top / ".venv/bin/python", f'exec {sys.executable} "$@"')
    write_script(machine.top / ".venv/bin/crnplan", PROGRAM)
    write_script(machine.top / "tools/setup", "echo 'tools/setup: all is there'")
    git(machine, "init", "-q")
    git(machine, "add", "planner", "examples", "docs")
    git(machine, "commit", "-q", "-m", "All")
    assert pack(machine, program, "dist").stderr == ""
    return machine


def git(machine: Machine, *words: str) -> str:
    """Runs git on the copy as the author of a commit, and returns what it prints."""
    name, mail = AUTHOR[:-1].split(" <")
    who = {
        f"GIT_{role}_{key}": value
        for role in ("AUTHOR", "COMMITTER")
        for key, value in (("NAME", name), ("EMAIL", mail), ("DATE", MOMENT))
    }
    ran = machine.run("git", "-C", str(machine.top), *words, **who)
    assert ran.returncode == 0, ran.stderr
    return ran.stdout


def pack(
    machine: Machine, program: Path, out: str, umask: str = "077", **more: str
) -> Ran:
    """Runs tools/package, by default with new files that nobody else may read."""
    words = f'umask {umask}; exec tools/package --program "$1" --out "../{out}"'
    return machine.run("bash", "-c", f'cd "$0"; {words}', machine.top, program, **more)


def made(machine: Machine, end: str, out: str = "dist") -> Path:
    """Returns the path of the file that was made with an ending."""
    (path,) = (machine.folder / out).glob(f"*{end}")
    return path


def told(machine: Machine, inside: Path, pages: Path) -> list[str]:
    """Returns what `crnplan where` has to print of a package with the program at one path, and its pages at another."""
    return [
        f"crnplan {VERSION}, built from commit {git(machine, 'rev-parse', 'HEAD').strip()}",
        f"pages and examples: {pages}",
        f"{inside} (the one inside crnplan)",
        f"sha256 {hashlib.sha256(inside.read_bytes()).hexdigest()} (built with this crnplan)",
        "its report on a small scenario is right",
    ]


def check_commands(
    machine: Machine, commands: Path, inside: Path, pages: Path, room: Path, **more: str
) -> None:
    """Both commands of an installed package run: `where` finds all that came with it, though another crnsim is on PATH,
    an item of the examples is planned, and the desk opens."""
    machine.fake("crnsim", "exit 9")

    def printed(command: str, *words: str | Path, text: str = "") -> str:
        ran = machine.run(commands / command, *words, text=text, **more)
        assert (ran.returncode, ran.stderr) == (0, ""), ran.stderr
        return ran.stdout

    assert printed("crnplan", "--version") == f"crnplan {VERSION}\n"
    assert printed("crnplan", "where").splitlines() == told(machine, inside, pages)
    examples = pages / "examples"
    assert printed(
        "crnsim", text=(examples / "two_policies.toml").read_text("utf-8")
    ) == (examples / "two_policies.csv").read_text("utf-8")
    case, plan = examples / "case", room / "plan"
    for words in (
        ["plan", case / "history.csv", case / "items.csv", "--out", plan],
        ["report", plan, "--item", "spare part"],
    ):
        ran = machine.run(commands / "crnplan", *words, **more)
        assert ran.returncode == 0, ran.stderr
    page, _ = ran.stdout.splitlines()
    assert "Below 12" in Path(page).read_text("utf-8")
    check_desk(machine, commands / "crnplan", room / "desk", **more)


def check_desk(machine: Machine, command: Path, folder: Path, **more: str) -> None:
    """The desk says on its first line where it is, has there a page and its icon, and ends well when it is told to."""
    words = [str(command), "desk", "--no-browser", str(folder)]
    browser = build_opener(ProxyHandler({}), HTTPCookieProcessor())
    with machine.start(*words, **more) as desk:
        assert desk.stdout
        try:
            address = desk.stdout.readline().strip()
            with browser.open(address, timeout=SECONDS) as page:
                assert page.read().startswith(b"<!doctype html>")
            with browser.open(urljoin(address, "/icon.svg"), timeout=SECONDS) as icon:
                assert icon.read() == (machine.top / OWN_ICON).read_bytes()
        finally:
            desk.terminate()
            assert desk.wait(SECONDS) == 0


def files_below(folder: Path) -> set[str]:
    """Returns the paths of all files and folders below a folder."""
    return {str(it.relative_to(folder)) for it in folder.rglob("*")}


def test_wheel_in_a_bare_environment(packed: Machine, tmp_path: Path) -> None:
    """pip takes the wheel with the libraries of the system, both commands run, and pip removes all of it."""
    home = tmp_path / "home"
    assert (
        packed.run(
            sys.executable,
            *("-I", "-m", "venv", "--system-site-packages", "--without-pip"),
            home,
        ).returncode
        == 0
    )
    before, python = files_below(home), home / "bin/python"
    pip = [str(python), "-I", "-m", "pip", "--isolated", "--disable-pip-version-check"]
    ran = packed.run(*pip, "install", "-q", "--no-index", made(packed, ".whl"))
    assert (ran.returncode, ran.stdout) == (0, "")
    (package,) = home.glob("lib/python3*/site-packages/crnplan")
    inside = package / "crnsim/bin/crnsim"
    check_commands(packed, home / "bin", inside, package / "share/doc/crnsim", tmp_path)
    assert packed.run(*pip, "uninstall", "-q", "-y", "crnplan").returncode == 0
    assert files_below(home) == before


def test_status_and_signals_of_the_command(packed: Machine, tmp_path: Path) -> None:
    """The command crnsim of pip is the program: with its words, its status, and the signals that Python ignores."""
    with zipfile.ZipFile(made(packed, ".whl")) as wheel:
        wheel.extractall(tmp_path)
    write_script(
        tmp_path / "crnplan/crnsim/bin/crnsim",
        """printf '%s|' "$@"; cat; grep SigIgn /proc/$$/status; exit 7""",
    )
    command = "import sys; from crnplan.crnsim.command import main; sys.exit(main())"
    ran = packed.run(
        *(sys.executable, "-c", command, "leg", "a_b"),
        text="all\n",
        PYTHONPATH=str(tmp_path),
    )
    assert (ran.returncode, ran.stderr) == (7, "")
    line, _, ignored = ran.stdout.replace("\n", " ").split()
    kept = {signal.SIGPIPE, signal.SIGXFSZ}
    assert line == "leg|a_b|all"
    assert not any(int(ignored, 16) >> number - 1 & 1 for number in kept)


def test_wheel_is_of_its_platform(packed: Machine, program: Path) -> None:
    """It names the platform of the program, which it has once and stripped, and its own page."""
    symbols = subprocess.run(
        ["objdump", "-T", program], capture_output=True, text=True, check=True
    ).stdout
    needed = max(
        tuple(map(int, it)) for it in re.findall(r"GLIBC_(\d+)\.(\d+)", symbols)
    )
    path, tag = (
        made(packed, ".whl"),
        f"py3-none-manylinux_{needed[0]}_{needed[1]}_x86_64",
    )
    assert path.name == f"crnplan-{VERSION}-{tag}.whl"
    with zipfile.ZipFile(path) as wheel:
        texts = {it: wheel.read(it) for it in wheel.namelist()}
    about = f"crnplan-{VERSION}.dist-info"
    assert f"Root-Is-Purelib: false\nTag: {tag}\n" in texts[f"{about}/WHEEL"].decode()
    named, page = texts[f"{about}/METADATA"].decode().split("\n\n", 1)
    for line in ("Requires-Python: >=3.11", "Description-Content-Type: text/markdown"):
        assert f"\n{line}\n" in f"{named}\n"
    assert page.strip() == (packed.top / "planner/README.md").read_text("utf-8").strip()
    programs = [name for name, text in texts.items() if text.startswith(b"\x7fELF")]
    assert programs == ["crnplan/crnsim/bin/crnsim"]


def code_of(program: Path, room: Path) -> bytes:
    """Returns the code and the constants of a program."""
    words = ["objcopy", "-O", "binary", "-j", ".text", "-j", ".rodata"]
    subprocess.run([*words, program, room / "code"], check=True)
    return (room / "code").read_bytes()


def test_program_is_stripped(packed: Machine, program: Path, tmp_path: Path) -> None:
    """Both files have the same program: the code of the tested one, without its symbols."""
    with zipfile.ZipFile(made(packed, ".whl")) as wheel:
        inside = Path(wheel.extract("crnplan/crnsim/bin/crnsim", tmp_path))
    assert packed.run("dpkg-deb", "-x", made(packed, ".deb"), tmp_path).returncode == 0
    assert (tmp_path / "usr/bin/crnsim").read_bytes() == inside.read_bytes()
    assert packed.run("nm", program).stdout != "" == packed.run("nm", inside).stdout
    assert code_of(inside, tmp_path) == code_of(program, tmp_path)


@pytest.fixture
def root(tmp_path: Path, packed: Machine) -> Path:
    """Returns a bare root of Debian: of the packages that the made one depends on, it knows but the versions of this
    machine. What py3compile and py3clean do, fakes do below the root."""
    folder = tmp_path / "root"
    for name in ("info", "updates", "triggers"):
        (folder / "var/lib/dpkg" / name).mkdir(parents=True)
    fields = packed.run("dpkg-deb", "-f", made(packed, ".deb"), "Depends").stdout
    stanza = "Package: ${Package}\nStatus: install ok installed\nVersion: ${Version}\n"
    stanza += "Architecture: ${Architecture}\nMaintainer: x\nDescription: x\n\n"
    status = packed.run(
        "dpkg-query", "-W", "-f", stanza, *re.findall(r"(?:^|, )([\w-]+)", fields)
    )
    (folder / "var/lib/dpkg/status").write_text(status.stdout, "utf-8")
    for name in re.findall(r"Package: (.*)", status.stdout):
        (folder / f"var/lib/dpkg/info/{name}.list").touch()
    below = '"$DPKG_ROOT/usr/lib/python3/dist-packages"'
    written = 'echo "$(basename "$0") $*" >> "$LOG"'
    packed.fake("py3compile", f"{written}; {sys.executable} -m compileall -q {below}")
    packed.fake("py3clean", f"{written}; /usr/bin/py3clean {below}")
    return folder


def dpkg(machine: Machine, root: Path, *words: str | Path) -> str:
    """Runs dpkg on a root, as any user, and returns what it prints."""
    how = ["not-root", "script-chrootless", "unsafe-io", "bad-path"]
    ran = machine.run("dpkg", f"--root={root}", f"--force-{','.join(how)}", *words)
    assert (ran.returncode, ran.stderr) == (0, "")
    return ran.stdout


def test_debian_package_in_a_bare_root(
    packed: Machine, root: Path, tmp_path: Path
) -> None:
    """dpkg takes the package, both commands run, and a purge leaves nothing."""
    before = files_below(root)
    dpkg(packed, root, "--install", made(packed, ".deb"))
    assert dpkg(packed, root, "--verify", "crnsim") == ""
    home = root / "usr/lib/python3/dist-packages"
    assert (home / "crnplan/__pycache__").is_dir()
    assert {f"usr/{ENTRY}", f"usr/{ICON}"} <= files_below(root)
    inside, pages = home / "crnplan/crnsim/bin/crnsim", root / "usr/share/doc/crnsim"
    assert inside.resolve() == root / "usr/bin/crnsim"
    check_commands(
        packed, root / "usr/bin", inside, pages, tmp_path, PYTHONPATH=str(home)
    )
    dpkg(packed, root, "--purge", "crnsim")
    assert {it for it in files_below(root) - before if "lib/dpkg" not in it} == set()
    assert packed.logged() == ["py3compile -p crnsim", "py3clean -p crnsim"]


# What lintian says of the package, each with the reason for which it stays.
KNOWN = {
    "I: crnsim: hardening-no-fortify-functions [usr/bin/crnsim]": "no function of C is compiled into the program",
}


def test_lintian_has_nothing_to_say(packed: Machine) -> None:
    words = ["--allow-root", "--display-info", "--pedantic", "--tag-display-limit", "0"]
    ran = packed.run("lintian", *words, made(packed, ".deb"))
    assert (ran.returncode, ran.stderr) == (0, "")
    assert set(ran.stdout.splitlines()) == set(KNOWN)


def test_entry_in_menus(packed: Machine, top: Path, tmp_path: Path) -> None:
    """It starts a command that crnplan has, without a terminal, and has the icon of the desk's pages."""
    assert packed.run("dpkg-deb", "-x", made(packed, ".deb"), tmp_path).returncode == 0
    judged = packed.run("desktop-file-validate", tmp_path / "usr" / ENTRY)
    assert (judged.returncode, judged.stdout, judged.stderr) == (0, "", "")
    read = configparser.ConfigParser(interpolation=None)
    read.read(tmp_path / "usr" / ENTRY, "utf-8")
    entry = read["Desktop Entry"]
    program, command = entry["Exec"].split()
    assert os.access(tmp_path / "usr/bin" / program, os.X_OK)
    assert command in COMMANDS
    assert entry["Terminal"] == "false"
    picture = tmp_path / "usr" / Path(ICON).with_stem(entry["Icon"])
    assert picture.read_bytes() == (top / OWN_ICON).read_bytes()
    svg = xml.etree.ElementTree.parse(picture).getroot()
    assert svg.tag == "{http://www.w3.org/2000/svg}svg"


def test_pages_of_the_debian_package(packed: Machine, tmp_path: Path) -> None:
    """It says that no licence is given, of which commit it is and when that was made."""
    assert packed.run("dpkg-deb", "-x", made(packed, ".deb"), tmp_path).returncode == 0
    about = tmp_path / "usr/share/doc/crnsim"
    licence = (about / "copyright").read_text("utf-8")
    assert f"Copyright 2033 {AUTHOR}\n" in licence
    assert "No licence is given yet" in licence
    assert (
        gzip.decompress((about / "changelog.gz").read_bytes()).decode()
        == f"""crnsim ({VERSION}) unstable; urgency=medium

  * Pack commit {git(packed, 'rev-parse', 'HEAD').strip()}.

 -- {AUTHOR}  Wed, 18 May 2033 03:33:20 +0000
"""
    )
    page = tmp_path / "usr/share/man/man1/crnsim.1.gz"
    assert b".TH CRNSIM 1 2033-05-18 " in gzip.decompress(page.read_bytes())


def test_files_of_the_debian_package(packed: Machine) -> None:
    """It has all files of the package and the examples in the commit, and what is declared, for all to read."""
    lines = packed.run("dpkg-deb", "-c", made(packed, ".deb")).stdout.splitlines()
    rows = [
        re.fullmatch(r"(\S+) (\S+) .*? \./(?:usr/)?(.*?)(?: -> .*)?", line)
        for line in lines
    ]
    modes = {row[3]: row[1] for row in rows if row and not row[1].startswith("d")}
    committed = git(packed, "ls-files", "planner/src", "docs", "examples").splitlines()
    home = "lib/python3/dist-packages"
    wanted = {
        name.replace("planner/src", home)
        if name.startswith("planner")
        else f"share/doc/crnsim/{name}"
        for name in committed
    }
    infos = {
        f"{home}/crnplan-{VERSION}.dist-info/{it}"
        for it in ("METADATA", "entry_points.txt")
    }
    inside = "crnsim/bin/crnsim", "share/doc/crnsim", "desk/static/icon.svg"
    links = {f"{home}/crnplan/{it}" for it in inside}
    built = {f"{home}/crnplan/crnsim/built.toml", *links}
    about = {f"share/doc/crnsim/{it}" for it in ("changelog.gz", "copyright")}
    assert set(modes) == wanted | infos | built | about | BESIDE
    assert {name: mode for name, mode in modes.items() if mode != "-rw-r--r--"} == {
        "bin/crnsim": "-rwxr-xr-x",
        "bin/crnplan": "-rwxr-xr-x",
        **dict.fromkeys(links, "lrwxrwxrwx"),
    }
    assert {row and row[2] for row in rows} == {"root/root"}


def test_debian_package_depends_on_the_libraries(packed: Machine, top: Path) -> None:
    """It names just those that tools/setup installs for crnplan."""
    listed = (top / "tools/debian-packages.txt").read_text("utf-8")
    libraries = re.findall(
        "^python3-.*$", listed.split("# crnplan\n")[1].split("#")[0], re.MULTILINE
    )
    fields = packed.run("dpkg-deb", "-f", made(packed, ".deb")).stdout
    assert re.findall(r"python3-[\w-]+", fields) == libraries
    for line in (
        "Package: crnsim",
        f"Version: {VERSION}",
        "Architecture: amd64",
        f"Maintainer: {AUTHOR}",
    ):
        assert f"{line}\n" in fields


@pytest.mark.parametrize("status", [0, 1])
def test_fresh_machine_gets_python_first(
    machine: Machine, top: Path, status: int
) -> None:
    """Without Python the machine is set up first. If that fails, its status is that of tools/package."""
    machine.copy(top, "tools/package")
    for name in ("bash", "dirname", "readlink"):
        machine.fake(name, f'exec /bin/{name} "$@"')
    write_script(machine.folder / "python3", 'echo "$@"')
    bring = f'/bin/cp "{machine.folder}/python3" "{machine.folder}/bin/"'
    write_script(machine.top / "tools/setup", f"{bring}; exit {status}")
    ran = machine.run("tools/package", "--out", "x y", PATH=f"{machine.folder}/bin")
    said = f"{machine.top}/tools/packing.py --out x y\n" if status == 0 else ""
    assert (ran.returncode, ran.stdout, ran.stderr) == (status, said, "")


def test_same_commit_makes_the_same_bytes(packed: Machine, program: Path) -> None:
    assert pack(packed, program, "again", "002", TZ="Asia/Tokyo").returncode == 0
    for end in (".whl", ".deb"):
        assert made(packed, end).read_bytes() == made(packed, end, "again").read_bytes()


def test_what_is_no_commit_is_refused(
    packed: Machine, program: Path, tmp_path: Path
) -> None:
    """Neither a program for other machines is packed nor a change that is not committed."""
    shutil.copytree(packed.top, tmp_path / "a copy")
    machine, other = Machine(tmp_path), bytearray(program.read_bytes())
    other[18:20] = (183).to_bytes(2, "little")  # e_machine of the header: AArch64
    (tmp_path / "other").write_bytes(other)
    (tmp_path / "other").chmod(0o755)
    ran = pack(machine, tmp_path / "other", "dist")
    assert ran.returncode == 1 and ran.stderr.startswith(
        f"tools/package: {tmp_path}/other is not for x86-64, or needs"
    )
    changed(machine.top / "docs/GUIDE.md", "crnplan", "crnplans")
    ran = pack(machine, program, "dist")
    assert (ran.returncode, ran.stderr) == (
        1,
        "tools/package: commit what is changed first: docs/GUIDE.md\n",
    )
    assert not (tmp_path / "dist").exists()
