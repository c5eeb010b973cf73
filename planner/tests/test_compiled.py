"""Loops that numba compiles, and where they are kept."""
from __future__ import annotations

import importlib.util
import os
import shutil
import subprocess
import sys
import tempfile
from collections.abc import Callable, Iterator
from pathlib import Path
from types import ModuleType

import numpy as np
import pytest

from crnplan.store.caches import cache_folder
from crnplan.compiled import compiled
from planner.tests.conftest import heed_interrupts


def loop(values: np.ndarray) -> float:
    total = 0.0
    for value in values:
        total += value
    return total


LOOPS = """
from crnplan.compiled import compiled

@compiled
def half(number):
    return number / SHARE

@compiled
def halves(values):
    def added(total, value):
        return total + value
    total = 0.0
    for value in values:
        total = added(total, half(value))
    return total
"""


@pytest.fixture
def installed(
    tmp_path: Path, monkeypatch: pytest.MonkeyPatch
) -> Iterator[Callable[..., ModuleType]]:
    """Returns a function that installs a module of loops in a folder. Nothing is compiled yet, and nothing kept."""
    from numba import config

    monkeypatch.setattr(config, "CACHE_DIR", "")
    monkeypatch.setenv("XDG_CACHE_HOME", str(tmp_path / "caches"))
    # Kept bytecode would be that of another text of the same second and size.
    monkeypatch.setattr(sys, "dont_write_bytecode", True)

    def install(
        folder: str, text: str = LOOPS, share: float = 2, name: str = "loops"
    ) -> ModuleType:
        path = tmp_path / folder / "loops.py"
        path.parent.mkdir(exist_ok=True)
        path.write_text(text, "utf-8")
        spec = importlib.util.spec_from_file_location(name, path)
        assert spec
        assert spec.loader
        found = importlib.util.module_from_spec(spec)
        vars(found)["SHARE"] = share
        monkeypatch.setitem(sys.modules, name, found)
        spec.loader.exec_module(found)
        return found

    yield install


def sum_and_compiled(module: ModuleType) -> tuple[float, int]:
    """Returns what a loop returns, and how many functions were compiled for it."""
    from numba.core.event import install_recorder

    with install_recorder("numba:compile") as recorder:
        found = module.halves(np.arange(4.0))
    names = [
        str(event.data["dispatcher"]) for _, event in recorder.buffer if event.is_start
    ]
    return found, sum("half" in name or "halves" in name for name in names)


def test_installations_share_loops(installed: Callable[..., ModuleType]) -> None:
    """What one installation has compiled another one finds, whatever its folder and the time of its files."""
    assert sum_and_compiled(installed("one")) == (3.0, 2)
    path = Path(str(installed("two").__file__))
    os.utime(path, (9, 9))
    assert sum_and_compiled(installed("two")) == (3.0, 0)


def test_moved_loops_are_compiled(
    installed: Callable[..., ModuleType], monkeypatch: pytest.MonkeyPatch
) -> None:
    """A loop that stands in another module now does not look for the one where it was."""
    assert sum_and_compiled(installed("one")) == (3.0, 2)
    monkeypatch.delitem(sys.modules, "loops")
    assert sum_and_compiled(installed("two", name="moved.loops")) == (3.0, 2)


def test_changed_loops_are_compiled(installed: Callable[..., ModuleType]) -> None:
    """A change of a loop, of a function in it or of a loop that it calls, or of a number that these name, is heeded: also
    if the text was changed after it was read."""
    assert sum_and_compiled(installed("one")) == (3.0, 2)
    assert sum_and_compiled(
        installed("one", LOOPS.replace("total = 0.0", "total = 1.0"))
    ) == (4.0, 1)
    assert sum_and_compiled(
        installed("one", LOOPS.replace("number /", "3 * number /"))
    ) == (9.0, 2)
    assert sum_and_compiled(
        installed("one", LOOPS.replace("total + value", "total - value"))
    ) == (-3.0, 1)
    assert sum_and_compiled(installed("one", share=4)) == (1.5, 2)
    before = installed("one", LOOPS.replace("number /", "5 * number /"))
    installed("one", LOOPS.replace("number /", "7 * number /"))
    assert sum_and_compiled(before) == (15.0, 2)
    assert sum_and_compiled(
        installed("one", LOOPS.replace("number /", "7 * number /"))
    ) == (21.0, 2)
    assert sum_and_compiled(installed("one")) == (3.0, 0)


def test_a_folder_that_cannot_be_written(
    installed: Callable[..., ModuleType],
    tmp_path: Path,
    monkeypatch: pytest.MonkeyPatch,
) -> None:
    """Loops are compiled, and not kept."""
    (tmp_path / "caches").touch()
    monkeypatch.setattr(tempfile, "tempdir", str(tmp_path / "caches"))
    for _ in range(2):
        assert sum_and_compiled(installed("one")) == (3.0, 2)


def test_a_full_disk(
    installed: Callable[..., ModuleType], monkeypatch: pytest.MonkeyPatch
) -> None:
    """Loops are compiled, and not kept."""

    def full(*words: object, **more: object) -> None:
        raise OSError(28, "No space left on device")

    monkeypatch.setattr(Path, "touch", full)
    assert sum_and_compiled(installed("one")) == (3.0, 2)


LOADED = """
import importlib, pkgutil, sys
import crnplan
for module in pkgutil.walk_packages(crnplan.__path__, "crnplan."):
    if module.name != "crnplan.__main__":
        importlib.import_module(module.name)
print("numba" in sys.modules)
crnplan.Scenario.of({0: 3, 1: 2, 2: 1}, {1: 1}, setup=32, holding=1, backlog=9).suggest()
print("numba" in sys.modules)
"""


def test_the_first_call_of_a_loop_loads_numba() -> None:
    """No module of the package loads it."""
    words = [sys.executable, "-c", LOADED]
    ran = subprocess.run(words, capture_output=True, text=True, check=True)
    assert ran.stdout.split() == ["False", "True"]


INTERRUPTED = """
import os, signal, sys
import crnplan

class Interrupting:
    @staticmethod
    def find_spec(name, path, target=None):
        if name == "numba.core.typing":
            sys.meta_path.remove(Interrupting)
            os.kill(os.getpid(), signal.SIGINT)

sys.meta_path.insert(0, Interrupting)
scenario = crnplan.Scenario.of({0: 3, 1: 2, 2: 1}, {1: 1}, setup=32, holding=1, backlog=9)
try:
    scenario.suggest()
except KeyboardInterrupt:
    print(scenario.suggest().best.S)
"""


def test_an_interrupt_does_not_break_off_the_loading_of_numba() -> None:
    """It comes once numba is there as a whole."""
    words = [sys.executable, "-c", INTERRUPTED]
    ran = subprocess.run(
        words, capture_output=True, text=True, preexec_fn=heed_interrupts
    )
    assert ran.stderr == ""
    assert int(ran.stdout) > 1


@pytest.fixture
def home(tmp_path: Path, monkeypatch: pytest.MonkeyPatch) -> Path:
    """Returns the home of a user who has kept nothing yet, and has a folder for temporary files too."""
    for name in ("home", "temporary"):
        (tmp_path / name).mkdir()
    monkeypatch.setenv("HOME", str(tmp_path / "home"))
    monkeypatch.delenv("XDG_CACHE_HOME", raising=False)
    monkeypatch.setattr(tempfile, "tempdir", str(tmp_path / "temporary"))
    return tmp_path / "home"


def test_folder_of_loops(
    monkeypatch: pytest.MonkeyPatch, home: Path, tmp_path: Path
) -> None:
    """It is the user's own, also below a folder that all may write; a relative name counts for nothing."""
    assert cache_folder() == home / ".cache/crnplan"
    assert (home / ".cache/crnplan").stat().st_mode & 0o777 == 0o700
    monkeypatch.setenv("XDG_CACHE_HOME", "caches")
    assert cache_folder() == home / ".cache/crnplan"
    tmp_path.chmod(0o1777)
    monkeypatch.setenv("XDG_CACHE_HOME", str(tmp_path))
    assert cache_folder() == tmp_path / "crnplan"


def spoil(folder: Path, way: str) -> None:
    """Makes a folder that is not this user's alone."""
    folder.parent.mkdir(exist_ok=True)
    if way == "symlink":
        folder.symlink_to(folder.parent)
    elif way == "file":
        folder.touch()
    else:
        folder.mkdir()
        folder.chmod({"group": 0o770, "all": 0o777, "owner": 0o700}[way])
    if way == "owner" and os.geteuid() == 0:
        os.chown(folder, 1234, 1234)


@pytest.mark.parametrize("way", ["owner", "group", "all", "symlink", "file"])
def test_folders_of_others(
    monkeypatch: pytest.MonkeyPatch, home: Path, tmp_path: Path, way: str
) -> None:
    """A folder that others own or can write is left alone: code that they put there would be run."""
    if way == "owner" and os.geteuid():
        monkeypatch.setattr(os, "geteuid", lambda: 4321)
    own, other = home / ".cache/crnplan", tmp_path / f"temporary/crnplan-{os.geteuid()}"
    spoil(own, way)
    if way == "owner" and os.getuid():
        assert cache_folder() is None
        return
    assert cache_folder() == other
    assert other.stat().st_mode & 0o777 == 0o700
    other.rmdir()
    spoil(other, way)
    assert cache_folder() is None
    before = sorted(tmp_path.rglob("*"))
    assert compiled(loop)(np.ones(3)) == 3
    assert sorted(tmp_path.rglob("*")) == before


def test_numba_of_others(
    monkeypatch: pytest.MonkeyPatch, home: Path, tmp_path: Path
) -> None:
    """The folder that numba was told to use counts if it is the user's own."""
    from numba import config

    told = tmp_path / "told"
    for way, is_own in (("all", False), ("own", True)):
        told.mkdir() if is_own else spoil(told, way)
        monkeypatch.setattr(config, "CACHE_DIR", str(told))
        assert compiled(loop)(np.ones(3)) == 3
        assert config.CACHE_DIR == str(told)
        assert any(told.iterdir()) == is_own
        assert (home / ".cache/crnplan").exists() != is_own
        if not is_own:
            told.rmdir()
            shutil.rmtree(home / ".cache/crnplan")


# Plans items of all kinds, with a curve and tests on the past, and prints what was compiled meanwhile.
PLANNED = """
import sys
from numba.core.event import install_recorder
from pathlib import Path
from crnplan.cli import main
from planner.bench.made import make

folder, program = Path(sys.argv[1]), sys.argv[2]
paths, plan = make(folder / "files", 40).paths, str(folder / "plan")
commands = [["plan", str(paths["demand"]), str(paths["items"]), str(paths["orders"]), "--out", plan,
             "--jobs", "1", "--program", program],
            ["curve", plan, "--jobs", "1"], ["backtest", plan, "--jobs", "1"],
            ["report", plan, "--program", program]]
with install_recorder("numba:compile") as recorder:
    for sys.argv[1:] in commands:
        try:
            main()
        except SystemExit as ended:
            assert not ended.code, sys.argv
print([(str(event.data["dispatcher"]), event.data["args"]) for _, event in recorder.buffer if event.is_start])
"""


@pytest.mark.timeout(900)
def test_all_is_compiled_beforehand(tmp_path: Path, program: Path) -> None:
    """Once all loops are compiled, plans, curves and tests on the past compile none."""
    (tmp_path / "plan.py").write_text(PLANNED, "utf-8")
    top = Path(__file__).resolve().parents[2]
    paths = os.pathsep.join(filter(None, [str(top), os.environ.get("PYTHONPATH")]))
    environment = {
        **os.environ,
        "XDG_CACHE_HOME": str(tmp_path / "caches"),
        "PYTHONPATH": paths,
    }
    subprocess.run(
        [sys.executable, "-m", "crnplan.compile_loops"], env=environment, check=True
    )
    words = [sys.executable, "plan.py", str(tmp_path), str(program)]
    ran = subprocess.run(
        words, cwd=tmp_path, env=environment, check=True, capture_output=True, text=True
    )
    assert ran.stdout.splitlines()[-1] == "[]"
