"""What a page must hold in each form, rule by rule."""
from __future__ import annotations

from collections.abc import Callable, Iterable

from selenium.webdriver.common.action_chains import ActionChains
from selenium.webdriver.common.keys import Keys

from planner.tests.browser.browser import Browser, Form

# Of the links of thousands of rows and other controls, so many are reached by Tab.
MOST = 80
# A browser may stop at so many places more, such as what scrolls.
STOPS = 10
Faults = Iterable[str]
Rule = Callable[[Browser], Faults]


def by_script(name: str) -> Rule:
    """Returns the rule of this name of rules.js."""

    def judge(browser: Browser) -> Faults:
        found: list[str] = browser.run(f"return rules.{name}();")
        return found

    return judge


def console(browser: Browser) -> Faults:
    """Yields what the page prints on the console."""
    yield from browser.messages


def requests(browser: Browser) -> Faults:
    """Yields each request but that of the page itself."""
    yield from (
        f"the page requests {it}"
        for it in browser.requests
        if it != browser.driver.current_url
    )


def keyboard(browser: Browser) -> Faults:
    """Yields controls that Tab does not reach, or whose focus is not seen (WCAG 2.1, 2.1.1 and 2.4.7)."""
    count = min(browser.run("return rules.watch();"), MOST)
    ActionChains(browser.driver).send_keys(Keys.TAB * (count + STOPS)).perform()
    yield from browser.run("return window.unreached(arguments[0]);", count)


RULES: dict[str, Rule] = {
    "console": console,
    "requests": requests,
    "keyboard": keyboard,
    **{
        it: by_script(it)
        for it in (
            "names",
            "roles",
            "overflow",
            "clipped",
            "overlaps",
            "cards",
            "contrast",
            "tables",
            "headings",
            "page",
            "policy",
            "regions",
            "labels",
            "ids",
        )
    },
}


def rules_of(form: Form) -> list[str]:
    """Returns the names of the rules whose verdict may differ in a form: a name and a role have no colour."""
    return [
        name
        for name in RULES
        if form.scheme == "light" or name not in ("names", "roles")
    ]


def faults_of(browser: Browser, *names: str) -> list[str]:
    """Returns the faults of the page that is shown, each after the name of its rule; by default of all rules."""
    return [
        f"{name}: {fault}" for name in names or RULES for fault in RULES[name](browser)
    ]
