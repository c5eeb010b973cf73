"""A headless Chromium that shows pages and keeps what they print and request."""
from __future__ import annotations

import base64
import json
import os
import shutil
import subprocess
from dataclasses import dataclass
from pathlib import Path
from typing import Any

import psutil
from selenium import webdriver
from selenium.webdriver.chrome.options import Options
from selenium.webdriver.chrome.service import Service

RULES = Path(__file__).with_name("rules.js").read_text("utf-8")
COMMANDS = ("chromium", "chromedriver", "pdftotext")
SCRIPTS = "profile.managed_default_content_settings.javascript"
# A loaded machine may need this long for a page or a script, in seconds.
LONGEST = 100
# If the driver is killed, its pipe closes and the browser ends. No name is resolved, so nothing leaves the machine;
# the desk is at an address of it.
SWITCHES = """--headless=new --no-sandbox --disable-gpu --disable-dev-shm-usage --remote-debugging-pipe --no-first-run
    --no-default-browser-check --disable-extensions --disable-breakpad --disable-background-networking
    --disable-component-update --disable-default-apps --disable-domain-reliability --disable-sync --no-pings
    --hide-scrollbars --force-color-profile=srgb --lang=en-US""".split() + [
    "--host-resolver-rules=MAP * ~NOTFOUND, EXCLUDE 127.0.0.1",
    # With it an element says the name and the role that a screen reader is told.
    "--enable-blink-features=ComputedAccessibilityInfo",
]


@dataclass(frozen=True)
class Form:
    """How a page is shown: its width and height in CSS pixels, its colours and its medium."""

    width: int
    scheme: str = "light"
    medium: str = "screen"
    height: int = 900

    def __str__(self) -> str:
        """Returns a name, such as screen-light-1280."""
        return f"{self.medium}-{self.scheme}-{self.width}"


# The width of A4 between the margins of print, in CSS pixels, upright; and a height that whole pages have room in.
PAPER, TALL = 718, 12_000
WIDE = Form(1280)
FORMS = (
    *(
        Form(width, scheme, height=TALL)
        for width in (1280, 390)
        for scheme in ("light", "dark")
    ),
    *(Form(PAPER, scheme, "print", TALL) for scheme in ("light", "dark")),
)


def commands() -> dict[str, str]:
    """Returns the path of each command that the tests of pages run. Raises FileNotFoundError if one is missing."""
    paths = {name: shutil.which(name) for name in COMMANDS}
    missing = [name for name, path in paths.items() if path is None]
    if missing:
        raise FileNotFoundError(
            f"these commands are missing: {', '.join(missing)}; run tools/setup"
        )
    return {name: path for name, path in paths.items() if path is not None}


class Browser:
    """A browser with one page, as `Form` says. Leave it by `close`."""

    def __init__(self, folder: Path, has_scripts: bool = True) -> None:
        """Starts a browser that keeps its files in an empty folder, perhaps with scripts off. Raises FileNotFoundError
        without Chromium."""
        paths = commands()
        options = Options()
        options.binary_location = paths["chromium"]
        for switch in (*SWITCHES, f"--user-data-dir={folder}"):
            options.add_argument(switch)
        if not has_scripts:
            options.add_experimental_option("prefs", {SCRIPTS: 2})
        options.set_capability(
            "goog:loggingPrefs", {"browser": "ALL", "performance": "ALL"}
        )
        options.ignore_local_proxy_environment_variables()
        service = Service(
            paths["chromedriver"], env={**os.environ, "HOME": str(folder)}
        )
        self.driver = webdriver.Chrome(service=service, options=options)
        self.driver.set_page_load_timeout(LONGEST)
        self.driver.set_script_timeout(LONGEST)
        self.folder, self._pdftotext = folder, paths["pdftotext"]
        # Without it a page that is loaded later may have no focus to show.
        self.command("Emulation.setFocusEmulationEnabled", enabled=True)
        # Without it all names of a page are computed anew for each of its elements.
        self.command("Accessibility.enable")
        self._messages: list[str] = []
        self._requests: list[str] = []

    def close(self) -> list[str]:
        """Ends the browser, and returns the processes that are left behind."""
        driver = psutil.Process(self.driver.service.process.pid)
        started = [driver, *driver.children(recursive=True)]
        self.driver.quit()
        _, left = psutil.wait_procs(started, timeout=LONGEST)
        return [str(it) for it in left]

    def show(self, form: Form) -> None:
        """Shows the page in another form."""
        self.command(
            "Emulation.setDeviceMetricsOverride",
            width=form.width,
            height=form.height,
            deviceScaleFactor=1,
            mobile=False,
        )
        # A page that is set to the medium screen would be printed so, too.
        self.command(
            "Emulation.setEmulatedMedia",
            media=form.medium.removeprefix("screen"),
            features=[{"name": "prefers-color-scheme", "value": form.scheme}],
        )

    def open(self, page: Path, form: Form = WIDE) -> None:
        """Loads a page in a form, as `visit` does."""
        self.visit(page.as_uri(), form)

    def visit(self, address: str, form: Form = WIDE) -> None:
        """Loads what is at an address in a form. What the page before has printed and requested is forgotten."""
        self.driver.get("about:blank")
        self.show(form)
        self._read()
        self._messages, self._requests = [], []
        self.driver.get(address)

    def command(self, name: str, **values: Any) -> dict[str, Any]:
        """Runs a command of the Chrome DevTools Protocol and returns its result."""
        result: dict[str, Any] = self.driver.execute_cdp_cmd(name, values)
        return result

    def run(self, script: str, *values: Any) -> Any:
        """Runs a script in the page, which sees `rules` and its values as `arguments`, and returns its result."""
        return self.driver.execute_script(f"{RULES}\n{script}", *values)

    @property
    def messages(self) -> list[str]:
        """Returns what the page has printed on the console so far, faults of scripts and of the policy included."""
        self._read()
        return self._messages

    @property
    def requests(self) -> list[str]:
        """Returns the address of each request of the page so far, that of the page itself first."""
        self._read()
        return self._requests

    def _read(self) -> None:
        """Reads what the page has printed and requested since the last time."""
        self._messages += [it["message"] for it in self.driver.get_log("browser")]
        events = (
            json.loads(it["message"])["message"]
            for it in self.driver.get_log("performance")
        )
        sent = (
            it["params"] for it in events if it["method"] == "Network.requestWillBeSent"
        )
        self._requests += [it["request"]["url"] for it in sent]

    def printed(self, landscape: bool = False) -> list[str]:
        """Prints the page on A4 and returns the text of each sheet."""
        printed = self.command(
            "Page.printToPDF",
            landscape=landscape,
            printBackground=True,
            preferCSSPageSize=True,
            paperWidth=8.27,
            paperHeight=11.69,
        )
        command = [self._pdftotext, "-layout", "-enc", "UTF-8", "-", "-"]
        text = subprocess.run(
            command,
            input=base64.b64decode(printed["data"]),
            capture_output=True,
            check=True,
            timeout=LONGEST,
        ).stdout.decode("utf-8")
        return text.removesuffix("\f").split("\f")
