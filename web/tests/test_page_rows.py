"""The rows of a list: which one is open, chosen and highlighted, in any order and among hidden kinds."""

import time

from web.tests.browser import LONG, Page, soon
from web.tests.gestures import Keys
from support.machines import CHAMPION, CHAMPION_OF_FOUR, HALT

CHOSEN = "return $$('#shown [aria-selected=true]').map((row) => row.children[1].textContent)"
OPEN = "return $$('#shown [aria-current=true]').map((row) => row.children[1].textContent)"
LINES = [HALT, "1RA1RA", LONG, "1LB0LA_1RA---", CHAMPION_OF_FOUR]
ORDERS = """
const order = $("order");
for (const value of arguments[0]) {
  order.value = value;
  order.dispatchEvent(new Event("change"));
}
"""


def machines(tab: Page) -> list[str]:
    return [row[1] for row in tab.rows()]


def is_marked(tab: Page, machine: str) -> bool:
    """Return whether this machine is open, and its row alone is highlighted."""
    return bool(tab.text("machine-text") == machine and tab.js(CHOSEN) == [machine])


def test_first_line_is_opened(tab: Page) -> None:
    """Also if other lines are answered before it."""
    for machine in ("1RA1RA", LONG):
        tab.open_list(machine, HALT)
        assert is_marked(tab, machine)
    tab.open_list(CHAMPION, *[HALT] * 400, plan={"steps": 50_000_000}, mode="decide")
    assert is_marked(tab, CHAMPION)


def test_chosen_line_stays(tab: Page) -> None:
    """In another order, and among hidden kinds for `p`. The open line is marked where another one is chosen."""
    tab.open_list(*LINES)
    tab.press("rows", Keys.HOME, Keys.ARROW_DOWN)
    assert soon(lambda: tab.js(OPEN) == LINES[:1]) and tab.js(CHOSEN) == LINES[1:2]
    tab.open_row(1)
    tab.js(ORDERS, ["down"])
    assert soon(lambda: machines(tab) != LINES)
    assert is_marked(tab, LINES[1])
    tab.js(ORDERS, ["list"])
    assert machines(tab) == LINES and is_marked(tab, LINES[1])
    tab.open_row(4)
    tab.click("kind-halt")
    assert tab.js(CHOSEN) == []
    tab.press("rows", "p")
    assert is_marked(tab, LINES[3])


def test_last_order_counts(tab: Page) -> None:
    """Of two orders chosen at once. The next list opens its first line, not that of the order."""
    tab.open_list(*LINES)
    tab.js(ORDERS, ["down", "list"])
    time.sleep(1)
    assert machines(tab) == LINES
    tab.js(ORDERS, ["down"])
    tab.open_list("1RA1RA", HALT)
    assert soon(lambda: machines(tab) == [HALT, "1RA1RA"] and is_marked(tab, "1RA1RA"))


def test_lists_without_a_machine_or_with_one_kind(tab: Page) -> None:
    """A list of comments shows no machine. Buttons of kinds are reused, so clicks and focus aren't lost."""
    tab.js("window.chip = $('kind-halt')")
    tab.open_list("# nothing")
    assert soon(lambda: tab.get("machine", "hidden"))
    tab.open_list(HALT, HALT)
    assert not tab.get("machine", "hidden")
    assert tab.js("return window.chip === $('kind-halt')")
    assert tab.text("kind-halt") == "halt 2"
