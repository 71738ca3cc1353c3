"""Axes of a diagram, and descriptions of the cells under the pointer and the keyboard cursor."""

import re
from typing import NamedTuple

from web.tests.browser import HEAD, Page, soon
from web.tests.gestures import Keys, cell_at, send_mouse, window_point
from support.machines import CHAMPION, CHAMPION_OF_FOUR, HALT
from support.traces import Row, trace

STEPS = 10_000
# A step with both ends of the tape in view.
EARLY = 301
# Records the texts and rectangles of the last drawing.
PAINTED = """
window.painted = { texts: [], marks: [] };
const pen = CanvasRenderingContext2D.prototype;
const painting = (name, note) => {
  const paint = pen[name];
  pen[name] = function (...words) {
    this.canvas.id === "diagram" && note(this, words);
    return paint.apply(this, words);
  };
};
painting("scale", () => { window.painted = { texts: [], marks: [] }; });
painting("fillText", ({ textAlign }, [text, x, y]) => window.painted.texts.push([text, x, y, textAlign]));
painting("fillRect", (_, words) => window.painted.marks.push(words));
"""
# The least distances of ticks in pixels, for legible numbers.
STEPS_APART, POSITIONS_APART = 20, 40


class Tick(NamedTuple):
    """A number on an axis, and the offsets of its text and its mark."""

    number: int
    text: float
    mark: float


def number_of(text: str) -> int:
    return int(text.replace(",", "").replace("\u2212", "-"))


def ticks(tab: Page, view: dict[str, float]) -> tuple[list[Tick], list[Tick]]:
    """Return the ticks of the steps and of the positions."""
    painted = tab.js("return window.painted")
    texts, marks = painted["texts"], painted["marks"]
    downs = [y for x, y, wide, high in marks if (x, wide, high) == (view["x"] - 4, 4, 1)]
    rights = [x for x, y, wide, high in marks if (y, wide, high) == (view["y"] - 4, 1, 4)]
    steps = [(text, y) for text, x, y, align in texts if align == "right" and x == view["x"] - 9]
    positions = [(text, x) for text, x, y, align in texts if align == "center" and y == view["y"] - 11]
    found = [zip(steps, downs), zip(positions, rights)]
    both = [[Tick(number_of(text), at, mark) for (text, at), mark in one] for one in found]
    return both[0], both[1]


def require_ticks(tab: Page) -> None:
    """Require each number to be at its pixel, beside a visible mark."""
    view = tab.wait_until_drawn()
    steps, positions = ticks(tab, view)
    down, right = view["high"] / view["every"], view["wide"] / view["across"]
    soft, panel, accent = (tab.colour(name) for name in ("--soft", "--panel", "--accent"))
    for found, first, scale, begin, size, apart in (
        (steps, view["top"], down, view["y"], view["high"], STEPS_APART),
        (positions, view["left"], right, view["x"], view["wide"], POSITIONS_APART),
    ):
        assert len(found) >= 2
        wanted = [begin + (tick.number - first) * scale + size / 2 for tick in found]
        # A 0 at an edge is moved into the picture.
        most = [5.01 if tick.number == 0 else 0.01 for tick in found]
        assert all(abs(a.text - at) < by and a.mark == int(at) for a, at, by in zip(found, wanted, most))
        assert len({b.number - a.number for a, b in zip(found, found[1:])}) == 1
        assert all(b.text - a.text >= apart for a, b in zip(found, found[1:]))
        places = [tick.mark - begin for tick in found]
        marks = [[-2.0, at] if found is steps else [at, -2.0] for at in places]
        # The arrow at the chosen step may stand before a mark.
        assert all(colour in (soft, accent) for colour in tab.pixels(marks))
        beside = [[x, y + 6] if found is steps else [x + 6, y] for x, y in marks]
        assert all(colour in (panel, accent) for colour in tab.pixels(beside))


def require_rows(tab: Page, rows: dict[int, Row]) -> None:
    """Require the rows at the steps' numbers to have their cells and heads at the positions' numbers."""
    colours, view = tab.palette(), tab.wait_until_drawn()
    steps, positions = ticks(tab, view)
    first, last = positions[0], positions[-1]
    apart = (last.text - first.text) / (last.number - first.number)
    for step in steps:
        row, cells = rows[step.number], range(first.number, last.number + 1)
        middles = [first.text - view["x"] + apart * k for k in range(len(cells))]
        # A head's frame is at the edge of its cell.
        rights = [x - apart / 2 + 1 if at == row.head else x for x, at in zip(middles, cells)]
        kinds = [HEAD if at == row.head else row.symbol(at) for at in cells]
        found = tab.pixels([[x, step.text - view["y"]] for x in rights])
        assert len(kinds) > 20 and found == [colours[kind] for kind in kinds]
    assert any(first.number <= rows[step.number].head <= last.number for step in steps)


def require_places(tab: Page, rows: dict[int, Row]) -> None:
    """Require the description of the cell under the pointer to be the program's."""
    view = tab.wait_until_drawn()
    width, height = tab.size()
    for right, down in ((0.05, 0.03), (0.5, 0.5), (0.97, 0.4), (0.3, 0.9), (0.52, 0.2)):
        x = int(view["x"] + right * (width - view["x"] - 1))
        y = int(view["y"] + down * (height - view["y"] - 1))
        send_mouse(tab, "mouseMoved", window_point(tab, x, y))
        step, position = cell_at(view, (x, y))
        wanted = rows[step].place_words(position) if step in rows else None
        assert wanted is None or soon(lambda: tab.text("place-text") == wanted), wanted


def test_axes_and_pointer(tab: Page) -> None:
    """From the whole run to single cells."""
    made = tab.add_script(PAINTED)
    assert tab.open_machine(CHAMPION, "&steps=%d" % STEPS)["every"] > 1
    tab.scroll_to_diagram()
    rows = {row.step: row for row in trace(tab.program, CHAMPION, STEPS)}
    require_ticks(tab)
    require_places(tab, rows)
    for _ in range(3):
        tab.time_zoom(1.3, 190, 130)
        tab.wait_until_drawn()
        require_ticks(tab)
        require_places(tab, rows)
    tab.go_to(str(EARLY))
    tab.wait_until_drawn(lambda view: view["every"] == 1 and view["top"] > EARLY / 2)
    require_ticks(tab)
    require_rows(tab, rows)
    require_places(tab, rows)
    # Nothing is numbered behind a halt.
    view = tab.open_machine(HALT)
    steps, positions = ticks(tab, view)
    assert steps[0].number == 0 and steps[-1].number <= 6 and 0 in [tick.number for tick in positions]
    tab.remove_script(made)


def enter_step(tab: Page) -> int:
    """Require Enter to show the tape at the described step, and return it."""
    found = re.match(r"Step ([\d,]*\d)", tab.text("place-text"))
    assert found
    tab.press("diagram", Keys.ENTER)
    assert tab.tape_is_at("%s:" % found[1])
    return number_of(found[1])


def test_keys_name_the_row_that_enter_shows(tab: Page) -> None:
    """Also if a row is many steps, or out of view: Enter shows the tape at the described step."""
    tab.open_machine(CHAMPION, "&steps=50000000")
    tab.go_to("1000000")
    assert tab.tape_is_at("1,000,000")
    tab.press("diagram", "0")
    every = tab.wait_until_drawn(lambda view: view["every"] > 10_000)["every"]
    for way in ((Keys.ARROW_DOWN,), (Keys.ARROW_DOWN, Keys.ARROW_RIGHT), (Keys.ARROW_UP,) * 3):
        tab.press("diagram", *way)
        assert enter_step(tab) % every == 0
    # Beyond the view the cell is described once the picture has it.
    tab.open_machine(CHAMPION_OF_FOUR)
    tab.press("diagram", "+", "+")
    top = tab.wait_until_drawn()["top"]
    for _ in range(3):
        tab.press("diagram", *[Keys.ARROW_DOWN] * 13)
        assert soon(lambda: tab.text("place-text") != "", 2)
    assert tab.wait_until_drawn()["top"] > top
    enter_step(tab)
