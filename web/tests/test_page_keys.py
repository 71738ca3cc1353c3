"""The page by keyboard alone, and the keys of the tape."""

from web.tests.browser import COLOUR, Page, contrast, soon
from web.tests.gestures import Keys, press_key, type_text
from support.machines import CHAMPION_OF_FOUR

MACHINE = "1LB0LA_1RA---"
# Names of the controls in focus order, before and after the verdict.
BEFORE = (
    "Example, Clear, Machines or verdict lines, Decide, Choose a file, The lines are, Limits and deciders"
).split(", ")
BEHIND = (
    "translated 1, What do these words mean?, Order, Copy, Save, Lines, Previous, Next, Previous undecided, "
    "Next undecided, Copy text, Copy link, Open at bbchallenge.org, Space-time diagram of 1LB0LA_1RA---, "
    "Zoom in, Zoom out, Whole, Marked steps, Exact start, Save PNG, Copy PNG, Tape. Step, First step, "
    "One step back, Play, One step on, Go to step, Go, Table of the machine, Last uses"
).split(", ")
# Whether the focused control is visible and outlined.
FOCUS = """
const one = document.activeElement;
let ground = one.parentElement;
while (ground.parentElement && (parse(getComputedStyle(ground).backgroundColor)[3] ?? 1) === 0) {
  ground = ground.parentElement;
}
const { left, top, right, bottom, width, height } = one.getBoundingClientRect();
const style = getComputedStyle(one);
const isIn = right > 0 && bottom > 0 && left < innerWidth && top < innerHeight;
const x = (Math.max(left, 0) + Math.min(right, innerWidth)) / 2;
const y = (Math.max(top, 0) + Math.min(bottom, innerHeight)) / 2;
const upper = document.elementFromPoint(x, y);
return {
  is_body: one === document.body,
  is_seen: one.checkVisibility() && width > 0 && height > 0 && isIn && one.contains(upper),
  is_outlined: one.matches(":focus-visible") && style.outlineStyle === "solid"
    && parseFloat(style.outlineWidth) >= 2,
  colours: [style.outlineColor, getComputedStyle(ground).backgroundColor].map(parse),
};
"""


def name_of(tab: Page) -> str:
    """Return the accessible name of the focused control."""
    return str(tab.driver.switch_to.active_element.accessible_name)


def is_outside(tab: Page) -> bool:
    """Return whether nothing in the page has the focus."""
    return bool(tab.js("return document.activeElement === document.body"))


def walk(tab: Page, names: list[str], back: bool = False) -> None:
    """Press Tab, or Shift and Tab, through the controls of these names; each must be visible and outlined."""
    for wanted in names:
        press_key(tab, Keys.TAB, back)
        found, focus = name_of(tab), tab.js(COLOUR + FOCUS)
        assert found.startswith(wanted) and not focus["is_body"]
        assert focus["is_seen"] and focus["is_outlined"] and contrast(*focus["colours"]) >= 3, (wanted, focus)


def test_page_by_keys(tab: Page) -> None:
    """A machine is typed and decided, and every control is reached in both directions."""
    tab.js("document.activeElement.blur(); scrollTo(0, 0)")
    walk(tab, BEFORE[:3])
    tab.js("$('list').select()")
    type_text(tab, MACHINE)
    walk(tab, BEFORE[3:4])
    tab.await_answer(lambda: press_key(tab, Keys.ENTER))
    assert soon(lambda: tab.text("machine-says").startswith("It never halts: at steps 4 and 8"))
    assert tab.text("machine-text") == MACHINE
    tab.wait_until_drawn()
    assert tab.tape_is_at("4:")
    assert name_of(tab) == "Decide"
    walk(tab, BEFORE[4:] + BEHIND)
    leave_and_come_back(tab)
    walk(tab, [*reversed(BEFORE + BEHIND)], back=True)
    press_key(tab, Keys.TAB, True)
    assert is_outside(tab) or name_of(tab) in BEHIND


def leave_and_come_back(tab: Page) -> None:
    """Leave the page behind the table, past scrolling boxes only, and return to the table."""
    passed = 0
    press_key(tab, Keys.TAB)
    while not is_outside(tab) and name_of(tab) != BEFORE[0] and passed < 4:
        passed += 1
        press_key(tab, Keys.TAB)
    assert passed < 4
    for _ in range(passed + 1):
        press_key(tab, Keys.TAB, True)
    assert name_of(tab) == BEHIND[-1]
    press_key(tab, Keys.TAB)


def test_keys_of_fields_and_buttons(tab: Page) -> None:
    """Fields keep the tape's keys for themselves, and buttons keep Space."""
    tab.open_machine(CHAMPION_OF_FOUR)
    assert tab.tape_is_at("0:")
    tab.put("tape-step", "value", "")
    tab.press("tape-step", "1 000", Keys.HOME, "9")
    assert tab.get("tape-step", "value") == "91 000"
    assert tab.text("tape-play") == "Play"
    tab.press("tape-on", Keys.SPACE)
    assert tab.tape_is_at("1:") and not soon(lambda: tab.text("tape-play") != "Play", 0.6)
    assert tab.tape_is_at("1:")
    tab.press("tape", Keys.SPACE)
    assert soon(lambda: tab.text("tape-play") == "Pause")
    tab.press("tape", Keys.SPACE)
