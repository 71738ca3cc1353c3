"""Moving and zooming a diagram by mouse and fingers."""

import pytest
from web.tests.browser import Page, View, soon
from web.tests.gestures import (
    Keys,
    Point,
    cell_at,
    drag,
    pinch,
    place_of,
    send_mouse,
    swipe,
    tap,
    window_point,
)
from support.machines import CHAMPION
from support.traces import trace

STEPS = 10_000
# A step to open, with legible cells.
NEAR = 6_000
# Sends events of the mouse at places of the canvas; returns the tape's text right after them.
EVENTS = """
const canvas = $("diagram");
canvas.setPointerCapture = () => {};
const { left, top } = canvas.getBoundingClientRect();
for (const [kind, button, x, y] of arguments[0]) {
  canvas.dispatchEvent(new PointerEvent("pointer" + kind, {
    pointerId: 1, pointerType: "mouse", button, bubbles: true,
    clientX: left + canvas.clientLeft + x, clientY: top + canvas.clientTop + y,
  }));
}
delete canvas.setPointerCapture;
return $("tape-text").textContent;
"""


def visible_area(tab: Page) -> tuple[float, float, float, float]:
    """Return the first and last step and the first and last position in view."""
    view = tab.wait_until_drawn()
    width, height = tab.size()
    down, right = (height - view["y"]) / view["high"], (width - view["x"]) / view["wide"]
    last, end = view["top"] + down * view["every"], view["left"] + right * view["across"]
    return view["top"], last, view["left"], end


def open_near(tab: Page) -> View:
    """Open a run at a step with legible cells."""
    tab.open_machine(CHAMPION, "&steps=%d" % STEPS)
    tab.go_to(str(NEAR))
    tab.scroll_to_diagram()
    return tab.wait_until_drawn(lambda view: view["top"] > 0)


def require_cells(tab: Page) -> None:
    """Require the cells in view to have the colours of the program's rows."""
    colours, view = tab.palette(), tab.wait_until_drawn()
    first, last = int(view["top"]), int(view["top"] + 12)
    rows = {row.step: row for row in trace(tab.program, CHAMPION, last)}
    left, columns = int(view["left"]), int((tab.size()[0] - view["x"]) / view["wide"])
    cells = [(rows[step], at) for step in range(first, last + 1) for at in range(left, left + columns)]
    # A head's frame is in its own cell.
    plain = [(row, at) for row, at in cells if at != row.head]
    wide, high = view["wide"], view["high"]
    places = [[(at - left + 0.5) * wide, (row.step - first + 0.5) * high] for row, at in plain]
    assert plain and tab.pixels(places) == [colours[row.symbol(at)] for row, at in plain]


def test_mouse_moves_the_picture(tab: Page) -> None:
    """By its first button, and the cell under the mouse stays under it."""
    before = open_near(tab)
    moves = [("down", 2, 200, 200), ("move", -1, 200, 160), ("move", -1, 200, 120), ("up", 2, 200, 120)]
    tab.js(EVENTS, moves)
    assert not soon(lambda: tab.wait_until_drawn() != before, 0.5)
    high, wide = before["high"], before["wide"]
    assert before["every"] == 1 and high >= 6
    first = visible_area(tab)
    begin = (before["x"] + 30.5 * wide, before["y"] + 20.5 * high)
    # Neither is a multiple of a cell's size, and each move of the mouse is shorter than a cell.
    end = (begin[0] - 7.25 * wide, begin[1] - 9.25 * high)
    drag(tab, window_point(tab, *begin), window_point(tab, *end))
    after = tab.wait_until_drawn(lambda view: view["top"] == before["top"] + 9)
    then = visible_area(tab)
    assert [b - a for a, b in zip(first, then)] == [9, 9, 7, 7]
    assert (after["high"], after["wide"]) == (high, wide)
    assert cell_at(before, begin) == cell_at(after, end)
    require_cells(tab)
    assert tab.text("tape-text").startswith("Step {:,}".format(NEAR))
    drag(tab, window_point(tab, *end), window_point(tab, *begin))
    assert tab.wait_until_drawn(lambda view: view["top"] == before["top"]) == before
    drag(tab, window_point(tab, *begin), window_point(tab, begin[0] + 1, begin[1] + 1))
    step = cell_at(before, begin)[0]
    assert soon(lambda: tab.text("tape-text").startswith("Step {:,}".format(step)))
    assert tab.wait_until_drawn() == before


def test_keys_zoom_at_the_mouse(tab: Page) -> None:
    """The description is of the view, and a click counts before the tape's row comes. A late row is dropped."""
    tab.open_machine(CHAMPION, "&steps=47200000")
    assert tab.tape_is_at("0:")
    tab.press("tape", Keys.END, Keys.HOME)
    assert not soon(lambda: not tab.text("tape-text").startswith("Step 0:"), 2)
    tab.press("tape", Keys.END)
    assert tab.tape_is_at("47,176,870: halted")
    before = tab.open_machine(CHAMPION, "&steps=47200000")
    tab.scroll_to_diagram()
    place = (before["x"] + 300.5, before["y"] + 250.5)
    send_mouse(tab, "mouseMoved", window_point(tab, *place))
    tab.press("diagram", "+")
    after = tab.wait_until_drawn(lambda view: view["every"] < before["every"])
    require_place(after, cell_at(before, place), place)
    assert tab.text("place-text").startswith("Step {:,}, ".format(cell_at(after, place)[0]))
    assert tab.js(EVENTS, [("down", 0, *place), ("up", 0, *place)]).startswith("Going to step")
    assert tab.tape_is_at("{:,}:".format(cell_at(after, place)[0]))
    tab.press("diagram", Keys.ARROW_DOWN)
    assert soon(lambda: tab.text("place-text") != "")
    tab.go_to("40")
    assert tab.wait_until_drawn(lambda view: view["every"] == 1)["every"] == 1
    assert tab.text("place-text") == ""


@pytest.mark.slow
def test_drag_ends_at_the_edges(tab: Page) -> None:
    """At the first step, and before the last visited cells leave the view."""
    before = tab.open_machine(CHAMPION, "&steps=%d" % STEPS)
    tab.scroll_to_diagram()
    begin, end = window_point(tab, 150, 100), window_point(tab, 350, 300)
    for _ in range(4):
        drag(tab, begin, end)
    assert tab.wait_until_drawn(lambda view: view["left"] < before["left"])["top"] == 0
    _, _, left, right = visible_area(tab)
    assert left <= trace(tab.program, CHAMPION, STEPS)[-1].low <= right


def require_place(view: View, cell: tuple[int, int], middle: Point) -> None:
    """Require a cell to be at a place, within a cell."""
    x, y = place_of(view, *cell)
    assert abs(x - middle[0]) <= 1 + 2 * view["wide"]
    assert abs(y - middle[1]) <= 1 + 2 * view["high"]


@pytest.mark.slow
def test_two_fingers_zoom(phone: Page) -> None:
    """Around the cell between them, in both directions."""
    before = open_near(phone)
    tap(phone, window_point(phone, before["x"] + 100, before["y"] + 100))
    soon(lambda: phone.js("return document.activeElement.id") == "diagram")
    before = phone.wait_until_drawn()
    begun = visible_area(phone)
    middle = (before["x"] + 120.5, before["y"] + 150.5)
    cell = cell_at(before, middle)
    pinch(phone, window_point(phone, *middle), 60, 90)
    near = phone.wait_until_drawn(lambda view: view["high"] > before["high"])
    nearer = visible_area(phone)
    assert nearer[1] - nearer[0] < 0.6 * (begun[1] - begun[0])
    assert nearer[3] - nearer[2] < 0.6 * (begun[3] - begun[2])
    require_place(near, cell, middle)
    require_cells(phone)
    # In steps of which each zooms less than to the next size of a cell.
    pinch(phone, window_point(phone, *middle), 160, 60)
    far = phone.wait_until_drawn(lambda view: view["high"] < before["high"])
    farther = visible_area(phone)
    assert farther[1] - farther[0] > 3 * (nearer[1] - nearer[0])
    require_place(far, cell, middle)
    assert phone.js("return visualViewport.scale") == 1


@pytest.mark.slow
def test_one_finger_scrolls_or_moves(phone: Page) -> None:
    """One finger scrolls the page until the picture is tapped, and then moves the picture."""
    before = phone.open_machine(CHAMPION, "&steps=100000")
    phone.scroll_to_diagram()
    assert "Tap into the picture first" in phone.get("diagram-keys", "innerText")
    width, height = phone.size()
    box = window_point(phone, width / 2, height / 2)
    place = phone.js("return scrollY")
    swipe(phone, box, (box[0], box[1] - 120))
    assert soon(lambda: phone.js("return scrollY") != place)
    assert phone.wait_until_drawn() == before
    phone.scroll_to_diagram()
    box = window_point(phone, width / 2, height / 2)
    tap(phone, box)
    soon(lambda: phone.js("return document.activeElement.id") == "diagram")
    place = phone.js("return scrollY")
    swipe(phone, box, (box[0], box[1] - 120))
    after = phone.wait_until_drawn(lambda view: view["top"] > before["top"])
    moved = (after["top"] - before["top"]) / before["every"] * before["high"]
    assert phone.js("return scrollY") == place
    assert abs(moved - 120) <= before["high"]
