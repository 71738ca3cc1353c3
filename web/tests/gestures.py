"""Input events by mouse, fingers and keys."""

from typing import Any, Sequence

from web.tests.browser import Page, View

Point = tuple[float, float]
# The moves of a gesture.
MOVES = 12
# The canvas's corner in the window, inside its border.
BOX = """
const canvas = $("diagram");
const { x, y } = canvas.getBoundingClientRect();
return [x + canvas.clientLeft, y + canvas.clientTop];
"""


class Keys:
    """Keys as WebDriver encodes them."""

    TAB, ENTER, SHIFT = "\ue004", "\ue007", "\ue008"
    SPACE, END, HOME = "\ue00d", "\ue010", "\ue011"
    ARROW_LEFT, ARROW_UP, ARROW_RIGHT, ARROW_DOWN = "\ue012", "\ue013", "\ue014", "\ue015"


def send_mouse(page: Page, kind: str, place: Point, **words: Any) -> None:
    x, y = place
    page.command("Input.dispatchMouseEvent", type=kind, x=x, y=y, **words)


def send_touch(page: Page, kind: str, places: Sequence[Point]) -> None:
    points = [{"x": x, "y": y, "id": number} for number, (x, y) in enumerate(places)]
    page.command("Input.dispatchTouchEvent", type=kind, touchPoints=points)


def press_key(page: Page, key: str, shift: bool = False) -> None:
    """Press a key in the focused element."""
    page.driver.switch_to.active_element.send_keys(Keys.SHIFT + key if shift else key)


def type_text(page: Page, text: str) -> None:
    page.command("Input.insertText", text=text)


def points_between(begin: Point, end: Point) -> list[Point]:
    """Return the places between two, with the last one."""
    (x, y), (to_x, to_y) = begin, end
    shares = [k / MOVES for k in range(1, MOVES + 1)]
    return [(x + share * (to_x - x), y + share * (to_y - y)) for share in shares]


def cell_at(view: View, place: Point) -> tuple[int, int]:
    """Return the step and the position at a place of the canvas."""
    right, down = place[0] - view["x"], place[1] - view["y"]
    step = view["top"] + down // view["high"] * view["every"]
    return int(step), int(view["left"] + right // view["wide"] * view["across"])


def place_of(view: View, step: float, position: float) -> Point:
    """Return the place of the canvas where a step and a position begin."""
    right = (position - view["left"]) / view["across"] * view["wide"]
    return view["x"] + right, view["y"] + (step - view["top"]) / view["every"] * view["high"]


def window_point(page: Page, right: float, down: float) -> Point:
    """Return a place of the canvas in the window."""
    x, y = page.js(BOX)
    return (x + right, y + down)


def drag(page: Page, begin: Point, end: Point) -> None:
    """Drag the mouse from one place of the window to another."""
    button: dict[str, Any] = {"button": "left", "buttons": 1, "clickCount": 1}
    send_mouse(page, "mouseMoved", begin)
    send_mouse(page, "mousePressed", begin, **button)
    for place in points_between(begin, end):
        send_mouse(page, "mouseMoved", place, **button)
    send_mouse(page, "mouseReleased", end, **{**button, "buttons": 0})


def swipe(page: Page, begin: Point, end: Point) -> None:
    send_touch(page, "touchStart", [begin])
    for place in points_between(begin, end):
        send_touch(page, "touchMove", [place])
    send_touch(page, "touchEnd", [])


def tap(page: Page, place: Point) -> None:
    send_touch(page, "touchStart", [place])
    send_touch(page, "touchEnd", [])


def pinch(page: Page, middle: Point, apart: float, then: float) -> None:
    """Move two fingers, one above the other, from one distance to another."""
    x, y = middle

    def places(far: float) -> list[Point]:
        return [(x, y - far / 2), (x, y + far / 2)]

    send_touch(page, "touchStart", places(apart))
    for far, _ in points_between((apart, 0), (then, 0)):
        send_touch(page, "touchMove", places(far))
    send_touch(page, "touchEnd", [])
