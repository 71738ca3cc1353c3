"""Leaving a machine or a list: old pictures, focus, late replies, and memory of workers."""

import time

from web.tests.browser import LONG, Page, soon
from web.tests.gestures import Keys, press_key
from support.machines import CHAMPION, CHAMPION_OF_FOUR, HALT

STEPS = 50_000_000
# Opens the next line, and returns soon after what diagram and tape show; the champion's trace takes longer.
NEXT = """
const done = arguments[arguments.length - 1];
$("rows").dispatchEvent(new KeyboardEvent("keydown", { key: "n", bubbles: true }));
const play = $("tape-play").textContent;
setTimeout(() => {
  const canvas = $("diagram");
  const data = canvas.getContext("2d").getImageData(0, 0, canvas.width, canvas.height).data;
  const text = $("machine-text").textContent;
  done([play, text, canvas.dataset.state, data.some(Boolean), $("tape-cells").children.length]);
}, 180);
"""
WORKERS = """
window.workers = [];
window.Worker = class extends Worker {
  constructor(...words) {
    super(...words);
    window.workers.push(this);
  }
};
"""
HEARING = "return window.workers.filter((one) => one.onmessage !== null || one.onerror !== null).length"


def require_focus(tab: Page, name: str, wanted: str, times: int = 1) -> None:
    """Press a button some times, and require the focus to be where it is wanted."""
    tab.focus_on(name)
    for _ in range(times):
        press_key(tab, Keys.ENTER)
    assert soon(lambda: tab.focus() == wanted)


def test_next_machine_shows_nothing_of_the_one_before(tab: Page) -> None:
    tab.open_list("1RA1RA", CHAMPION, plan={"steps": STEPS}, mode="decide")
    tab.wait_until_drawn()
    assert tab.tape_is_at("")
    tab.click("tape-play")
    assert tab.text("tape-play") == "Pause"
    play, machine, state, is_painted, cells = tab.wait_for_js(NEXT)
    assert (play, machine, state) == ("Play", CHAMPION, "requested")
    assert not is_painted and cells == 0
    tab.wait_until_drawn()
    assert tab.tape_is_at("")


def test_slow_first_machine_hides_the_one_before(tab: Page) -> None:
    """The focus moves to the rows, a refused limit leaves the work alone, and the next list's machine is shown."""
    tab.open_list("1RA1RA")
    tab.wait_until_drawn()
    tab.focus_on("copy-text")
    tab.run_endless(LONG, "1RA1RA")
    assert soon(lambda: tab.get("machine", "hidden"))
    assert tab.focus() == "rows" and tab.text("status").startswith("Running")
    tab.type("steps", "many")
    tab.run()
    assert soon(lambda: tab.get("steps", "ariaInvalid") == "true")
    time.sleep(0.3)
    assert tab.text("status").startswith("Running")
    tab.click("stop")
    tab.open_list(HALT, plan={})
    assert not tab.get("machine", "hidden") and tab.text("machine-text") == HALT


def test_old_machines_are_left(tab: Page) -> None:
    """Another list gets no reply for one that is decided again, nor is it replaced by the old list's."""
    tab.open_list(CHAMPION, plan={"steps": STEPS // 10}, mode="decide")
    tab.click("again")
    assert tab.text("again") == "Stop"
    tab.run_endless(LONG)
    time.sleep(3)
    assert tab.text("again") != "Stop" and "halts" not in tab.text("live")
    tab.click("stop")
    tab.open_list(*[CHAMPION_OF_FOUR] * 150_000, plan={"steps": 50}, mode="decide")
    tab.click("left")
    tab.type("list", "1RA1RA\n")
    tab.run()
    time.sleep(3)
    assert "1 decided" in tab.text("status") and tab.get("file-shown", "hidden")


def test_focus_of_buttons(tab: Page) -> None:
    """It moves where the button is hidden or disabled, and stays where the page scrolls to a machine."""
    tab.resize(800)
    tab.open_list("1RA1RA", HALT, LONG)
    require_focus(tab, "row-next", "row-next")
    press_key(tab, Keys.ENTER)
    assert soon(lambda: tab.text("machine-text") == LONG)
    tab.resize(0)
    tab.open_machine(HALT)
    assert tab.tape_is_at("0")
    require_focus(tab, "tape-on", "tape", 6)
    require_focus(tab, "tape-first", "tape")
    require_focus(tab, "tape-on", "tape-on")
    require_focus(tab, "tape-back", "tape")
    for name, wanted in (("again", "copy-text"), ("left", "rows")):
        tab.open_list(CHAMPION_OF_FOUR, plan={"steps": 50})
        require_focus(tab, name, wanted)
    tab.wait_until_done()
    tab.open_list("1RA1RA", "no machine")
    tab.focus_on("diagram")
    tab.click("row-next")
    assert soon(lambda: tab.focus() == "row-next")
    tab.run_endless(LONG)
    tab.until(lambda: tab.text("status").startswith("Running"))
    require_focus(tab, "stop", "run")


def test_refused_memory_ends_the_list(tab: Page) -> None:
    """An allocation failure of the page is reported."""
    tab.js("Uint8Array.prototype.slice = () => { throw new RangeError('Array buffer allocation failed'); }")
    tab.type("list", "1RA1RA\n")
    tab.run()
    assert soon(lambda: tab.text("error").startswith("Out of memory"))
    assert tab.state() == "ended"


def test_waiting_workers_keep_nothing(tab: Page) -> None:
    """Their listeners for lists and requests are gone."""
    added = tab.add_script(WORKERS)
    tab.open()
    tab.open_list(*["1RA1RA"] * 200)
    tab.wait_until_drawn()
    tab.until(lambda: "\u2026" not in tab.text("facts"))
    assert tab.js("return window.workers.length") > 1
    assert soon(lambda: tab.js(HEARING) == 0)
    tab.remove_script(added)
