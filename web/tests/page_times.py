"""Times of the page's views of the five-state champion's run, by its own clock."""

import time

from web.tests.browser import Page
from support.machines import CHAMPION

# The last step of the views, and the step where they are zoomed.
STEPS, LATE = 10_000_000, 9_900_000
# A step near the halt, which is the 47,176,870th.
NEAR_END = 47_176_860
SEEN = 100
MOST_GESTURES = 12
NOTCHES = 2
# A turn of the wheel so small that the view shares no rows with others, and needs a trace.
SMALL_TURN, SMALL_TURNS = 0.7, 8
# A person's pause between gestures, in seconds.
PAUSE = 0.3
# The wheel's place in the picture: from the left edge, and the least distance from the lower edge.
RIGHT, LOWEST = 220, 10
GO = """
$("tape-step").value = arguments[0];
canvas.dataset.state = "requested";
$("tape-form").requestSubmit();
"""


def height(page: Page) -> float:
    """Return the height of the picture in pixels."""
    return float(page.get("diagram", "clientHeight") - page.wait_until_drawn()["y"])


def steps_seen(page: Page) -> float:
    view = page.wait_until_drawn()
    return height(page) / float(view["high"]) * float(view["every"])


def zoom_after(page: Page, notches: float, pause: float) -> float:
    """After a pause turn the wheel at the late step, and return the seconds until the view is drawn."""
    time.sleep(pause)
    view = page.wait_until_drawn()
    down = (LATE - view["top"]) / view["every"] * view["high"]
    return float(page.time_zoom(notches, RIGHT, min(max(down, 0), height(page) - LOWEST)))


def open_champion(page: Page, steps: int) -> None:
    page.open_machine(CHAMPION, "&steps=%d" % steps)
    time.sleep(1)


def views(page: Page, pause: float) -> list[float]:
    """Zoom from all steps to a hundred late ones, and back; return the seconds of each view."""
    open_champion(page, STEPS)
    taken: list[float] = []
    while steps_seen(page) > SEEN and len(taken) < MOST_GESTURES:
        taken.append(zoom_after(page, NOTCHES, pause))
    return taken + [zoom_after(page, -NOTCHES, pause) for _ in taken]


def traced_views(page: Page, pause: float) -> list[float]:
    """Zoom at the late step by small turns; return the seconds of each view."""
    open_champion(page, STEPS)
    return [zoom_after(page, SMALL_TURN, pause) for _ in range(SMALL_TURNS)]


def end(page: Page) -> float:
    """Go to a step near the halt, and return the seconds until tape and diagram show it."""
    open_champion(page, 50_000_000)
    return float(page.time_drawing(GO, "{:,}".format(NEAR_END)))
