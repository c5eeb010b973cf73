"""Tests the browser and its rules: each finds the fault that is planted for it, and none in a sound page."""
from __future__ import annotations

import tomllib
from pathlib import Path
from typing import Any

import psutil
import pytest

from planner.tests.browser.browser import FORMS, Browser, Form, commands
from planner.tests.browser.rules import RULES, faults_of

HERE = Path(__file__).parent
SOUND = (HERE / "sound.html").read_text("utf-8")
(POLICY,) = [it for it in SOUND.splitlines() if "Content-Security-Policy" in it]
PLANTS = tomllib.loads((HERE / "plants.toml").read_text("utf-8"))["plant"]
Plant = dict[str, Any]


def planted(folder: Path, plant: Plant) -> Path:
    sound = SOUND.replace(POLICY, "") if plant.get("without_policy") else SOUND
    old = plant.get("old", "<!-- plant -->")
    assert sound.count(old) == 1
    page = folder / "page.html"
    page.write_text(sound.replace(old, plant.get("new", "")), "utf-8")
    return page


@pytest.mark.parametrize("form", FORMS, ids=str)
def test_sound_page_has_no_fault(browser: Browser, form: Form) -> None:
    browser.open(HERE / "sound.html", form)
    assert faults_of(browser) == []


@pytest.mark.parametrize("plant", PLANTS, ids=[it["what"] for it in PLANTS])
def test_planted_fault_is_found(browser: Browser, tmp_path: Path, plant: Plant) -> None:
    browser.open(
        planted(tmp_path, plant),
        Form(plant.get("width", 1280), plant.get("scheme", "light")),
    )
    faults = faults_of(browser, plant["rule"])
    assert any(plant["says"] in it for it in faults), faults


def test_each_rule_has_a_plant() -> None:
    assert {it["rule"] for it in PLANTS} == set(RULES)


def test_missing_browser_is_said_in_one_line(
    tmp_path: Path, monkeypatch: pytest.MonkeyPatch
) -> None:
    """Where there is no Chromium, the tests of pages fail with what to do."""
    monkeypatch.setenv("PATH", str(tmp_path))
    with pytest.raises(
        FileNotFoundError,
        match="^these commands are missing: chromium, chromedriver, pdftotext; run "
        "tools/setup$",
    ):
        commands()


def test_browser_ends_with_its_driver(tmp_path: Path) -> None:
    browser = Browser(tmp_path)
    driver = psutil.Process(browser.driver.service.process.pid)
    started = driver.children(recursive=True)
    assert any("chrom" in it.name() for it in started)
    driver.kill()
    assert psutil.wait_procs(started, timeout=60)[1] == []
