"""Diagrams: pixels, scaling, zooming and marks; the tape and the backward tree."""

import json
import random
import re
import time

import pytest
from web.tests.browser import HEAD, WHEEL, Page, soon
from web.tests.gestures import Keys, cell_at, place_of, send_mouse, window_point
from support.machines import CHAMPION, CHAMPION_OF_FOUR, LATE, TREE, seldom_halting
from web.tests.node import Engine
from web.tests.page_times import PAUSE, end, steps_seen, traced_views, views
from support.traces import Row, format_number, trace

TRANSLATED = "1LB0LA_1RA---"
# A machine of four symbols; it halts after 3,932,964 steps.
FOUR_SYMBOLS = "1RB2LA1RA1RA_1LB1LA3RB1RZ"
# Limits under which 1RA1RA is undecided and exceeds the cells.
FEW_CELLS = "&steps=1000&cells=8&depth=2&cyclers=off&translated=off&backward=off"
TURN = "const canvas = $('diagram');" + WHEEL
GO_AND_PLAY = """
const part = (name) => $("tape-" + name);
part("form").requestSubmit();
part("play").click();
return [part("text").textContent, part("play").textContent];
"""
CELLS = """
return $$("#tape-cells .cell").filter((one) => !one.querySelector(".blank"))
  .map((one) => [Number(one.dataset.at), one.querySelector(".symbol").textContent]);
"""
LEVELS = "return $$('.level').map((one) => Number(one.dataset.count))"


def row_requests(source: random.Random) -> list[dict[str, int]]:
    """Return successive requests for rows; later ones repeat some rows."""
    every = source.choice([1, 2, 3, 4])
    begin = every * source.randrange(50)
    found = [{"from": begin, "every": every, "upto": begin + 600 * every}]
    for _ in range(5):
        times, skipped = source.randint(1, 5), source.randrange(40)
        first = begin + every * skipped
        upto = source.choice([first + every * source.randrange(200), begin + 600 * every])
        found.append({"from": first, "every": every * times, "upto": upto})
    return found


@pytest.mark.parametrize("count", [20, pytest.param(200, marks=pytest.mark.slow)])
def test_kept_rows_are_those_of_the_program(bb: str, engine: Engine, rng: random.Random, count: int) -> None:
    """Also those selected from others."""
    machines = [seldom_halting(rng, rng.randint(2, 5), rng.randint(2, 10)) for _ in range(count)]
    machines += [CHAMPION, CHAMPION_OF_FOUR, LATE, TREE]
    known = 0
    for machine in machines:
        requests = row_requests(rng)
        plan = {"cells": 512, "requests": requests, "last": 5_000}
        reply = json.loads(engine.call("rows", plan, machine.encode()).reply)
        run = {row.step: row for row in trace(bb, machine, 5_000, 512)}
        for one, found in zip(requests, reply["lines"]):
            steps = range(one["from"], one["upto"] + 1, one["every"])
            wanted = [run[step].line for step in steps if step in run]
            assert found == wanted, (machine, one)
        end = max(run.values())
        assert reply["last"] == [end.step, end.low, len(end.cells)], machine
        known += reply["known"]
    print("%d machines; %d requests needed no trace" % (len(machines), known))
    assert known > 2 * len(machines)


@pytest.mark.parametrize(
    "machine, upto, limits",
    [
        (CHAMPION_OF_FOUR, 107, ""),
        ("1RB1LB_1LA1RZ", 6, ""),
        # It halts after 38 steps: before, nothing is marked over the cells.
        ("1RB2LB1RZ_2LA2RB1LB", 30, "&steps=30"),
    ],
)
def test_cells_have_their_colours(tab: Page, machine: str, upto: int, limits: str) -> None:
    """Of their symbols, or the head's."""
    view, colours = tab.open_machine(machine, limits), tab.palette()
    wide, high, left = view["wide"], view["high"], view["left"]
    is_framed = wide >= 6 and high >= 6
    places, wanted = [], []
    # Of small cells those above a halt's mark are behind its halo.
    hidden = upto - 1 if high <= 3 else -1
    for row in trace(tab.program, machine, upto):
        for at, symbol in enumerate("" if row.step == hidden else row.cells, row.low):
            x, y = (at - left) * wide, (row.step - view["top"]) // view["every"] * high
            is_head = at == row.head
            places.append([x + 1, y + high / 2] if is_head and is_framed else [x + wide / 4, y + high * 0.1])
            wanted.append(colours[HEAD if is_head else int(symbol)])
    assert tab.pixels(places) == wanted


def sample(engine: Engine, machine: str, step: int) -> Row:
    """Return a row of a machine by the engine's trace of that step."""
    reply = engine.call("trace", {"steps": step, "from": step, "every": 1}, machine.encode())
    _, state, head, low, cells = reply.reply.decode().split()
    return Row(step, state, int(head), int(low), cells)


def require_means(tab: Page, source: random.Random, row: Row) -> None:
    """Require pixels of a row to have the mean colours of their cells."""
    view, colours = tab.wait_until_drawn(), tab.palette()
    across = int(view["across"])
    columns = [source.randrange(1, tab.size()[0] - int(view["x"]) - 40) for _ in range(40)]
    for x, pixel in zip(columns, tab.pixels([[x + 20, row.step / view["every"]] for x in columns])):
        begin = int(view["left"]) + across * (x + 20)
        cells = [colours[row.symbol(at)] for at in range(begin, begin + across)]
        means = [sum(part) / across for part in zip(*cells)]
        assert all(abs(a - b) <= 1 for a, b in zip(pixel, means)), (row.step, x)


def test_means_of_four_symbols(tab: Page, engine: Engine, rng: random.Random) -> None:
    view = tab.open_machine(FOUR_SYMBOLS, "&steps=3000000")
    assert view["across"] > 1
    for number in (60, 200, 400):
        require_means(tab, rng, sample(engine, FOUR_SYMBOLS, number * int(view["every"])))


@pytest.mark.slow
def test_whole_run_of_the_champion(tab: Page, engine: Engine, rng: random.Random) -> None:
    """The view shows all steps and cells; a pixel has the mean colour of its cells."""
    view, shown = tab.open_machine(CHAMPION, "&steps=50000000"), tab.text("diagram-text")
    every = int(view["every"])
    assert "mean colour of %d cells" % view["across"] in shown and "; 12,289 visited cells" in shown
    last = int(re.sub(r"\D", "", shown.split(" to ")[1].split(" every")[0]))
    assert last <= 47_176_870 < last + every and view["top"] == 0
    # The last row has a mark.
    for number in rng.sample(range(50, last // every - 6), 6):
        require_means(tab, rng, sample(engine, CHAMPION, number * every))


def test_resized_window_shows_the_whole(tab: Page) -> None:
    """A chosen view stays."""
    tab.open_machine(CHAMPION_OF_FOUR, "&steps=200")
    for width in (390, 1280):
        tab.resize(width)
        assert "; 14 visited cells" in tab.text("diagram-text")
    tab.press("diagram", "+")
    chosen = tab.wait_until_drawn()
    assert tab.resize(1000)["high"] == chosen["high"]
    tab.resize(0)


@pytest.mark.slow
def test_zoom_to_single_cells_and_back(tab: Page) -> None:
    """From 10^7 steps to 100 at the head in at most nine gestures."""
    whole, gestures = tab.open_machine(CHAMPION, "&steps=10000000"), 0
    assert steps_seen(tab) >= 10**7
    tab.click("fit")
    while steps_seen(tab) > 100 and gestures < 20:
        tab.press("diagram", "+")
        gestures += 1
    assert gestures <= 9
    near = tab.wait_until_drawn()
    assert near["high"] >= 6 and near["wide"] == near["high"]
    head = trace(tab.program, CHAMPION, int(near["top"]) + 3)[-1].head
    assert 0 <= (head - near["left"]) * near["wide"] < 900
    for _ in range(gestures):
        tab.press("diagram", "-")
    assert steps_seen(tab) >= 0.9 * 10**7
    tab.press("diagram", "0")
    assert tab.wait_until_drawn() == whole


@pytest.mark.slow
@pytest.mark.timing
def test_views_are_drawn_soon(tab: Page) -> None:
    """Views from cached rows are faster than traced ones, and block the page for less."""
    taken, traced = views(tab, PAUSE), traced_views(tab, PAUSE)
    assert len(taken) > 6 and steps_seen(tab) < 10**7
    last = end(tab)
    assert tab.text("tape-text").startswith("Step 47,176,860:")
    longest = tab.js("return window.longest") / 1_000
    print("views up to step 10^7: %.3f s at most" % max(taken))
    print("traced anew: %.3f s at most; the champion's last steps: %.3f s" % (max(traced), last))
    print("the page stood still for %.3f s" % longest)
    assert sorted(taken)[len(taken) // 2] <= max(traced) and longest < last


def test_wheel_zooms_at_the_pointer(tab: Page) -> None:
    """If the picture has the focus: the step under the pointer stays."""
    before = tab.open_machine(CHAMPION, "&steps=10000000")
    cell, turn = cell_at(before, (300, 200)), (2, 300 - before["x"], 200 - before["y"])
    tab.js(TURN, *turn)
    assert tab.wait_until_drawn() == before
    tab.focus_on("diagram")
    tab.js(TURN, *turn)
    after = tab.wait_until_drawn(lambda view: view != before)
    assert after["every"] < before["every"]
    assert abs(place_of(after, *cell)[1] - 200) <= 2 + after["high"]


@pytest.mark.slow
def test_going_to_a_step(tab: Page, engine: Engine) -> None:
    """The tape plays once its row is there. The diagram shows a step's cells, and the tape its row."""
    tab.open_machine(CHAMPION, "&steps=50000000")
    assert tab.tape_is_at("0:")
    tab.put("tape-step", "value", "47000000")
    shown, play = tab.js(GO_AND_PLAY)
    assert shown.startswith("Going to step 47,000,000") and play == "Pause"
    assert tab.tape_is_at("47,000,003:")
    tab.click("tape-play")
    assert tab.text("tape-play") == "Play"
    tab.go_to("47,176,860")
    tab.until(lambda: "47,176,860" in tab.text("tape-text"))
    view = tab.wait_until_drawn(lambda view: view["every"] == 1)
    row = sample(engine, CHAMPION, 47_176_860)
    assert view["top"] <= 47_176_860 <= view["top"] + 400 / view["high"]
    assert tab.text("tape-text").startswith(tape_words(row))


def tape_words(row: Row) -> str:
    """Return the beginning of the tape's description of a row."""
    words = (row.step, row.state, row.read(row.head), format_number(row.head))
    return "Step {:,}: state {} reads {} at position {}".format(*words)


def require_tape(tab: Page, row: Row) -> None:
    """Require the tape to show a row's cells, description and next entry."""
    symbol = row.read(row.head)
    entry = CHAMPION_OF_FOUR.split("_")[ord(row.state) - ord("A")][3 * symbol : 3 * symbol + 3]
    assert tab.text("tape-text").startswith("%s; %s:" % (tape_words(row), entry))
    assert all(row.read(at) == int(shown) for at, shown in tab.js(CELLS))
    used = tab.js("return document.querySelector('#machine-table td.used')?.dataset.entry")
    assert used == "%s%d" % (row.state, symbol)


@pytest.mark.slow
def test_tape_goes_step_by_step(tab: Page) -> None:
    """By buttons and keys. With reduced motion it steps instead of playing."""
    tab.open_machine(CHAMPION_OF_FOUR)
    for row in trace(tab.program, CHAMPION_OF_FOUR, 107)[:60]:
        assert tab.tape_is_at("%d:" % row.step)
        require_tape(tab, row)
        tab.click("tape-on") if row.step % 2 else tab.press("tape", Keys.ARROW_RIGHT)
    tab.click("tape-back")
    assert tab.tape_is_at("59:")
    tab.press("tape", Keys.ARROW_LEFT, Keys.HOME)
    assert tab.tape_is_at("0:")
    tab.click("tape-play")
    assert tab.text("tape-play") == "Pause"
    tab.until(lambda: int(tab.text("tape-text").split(":")[0].split()[1]) >= 2)
    tab.click("tape-play")
    assert tab.text("tape-play") == "Play"
    before = tab.text("tape-text")
    tab.media(prefers_reduced_motion="reduce")
    tab.until(lambda: tab.text("tape-play") == "Step")
    tab.click("tape-play")
    tab.until(lambda: tab.text("tape-text") != before)
    after = tab.text("tape-text")
    time.sleep(0.6)
    assert tab.text("tape-text") == after
    tab.media()


def test_tape_ends_where_the_cells_do(tab: Page) -> None:
    """The tape ends where the limit of cells ends the run."""
    tab.open_machine("1RA1RA", FEW_CELLS)
    assert "the limit of cells ends the trace" in tab.text("diagram-text")
    for keys in ([Keys.END], [Keys.HOME, *[Keys.ARROW_RIGHT] * 7], [Keys.HOME, Keys.END]):
        tab.press("tape", *keys)
        assert tab.tape_is_at("7:") and soon(lambda: tab.get("tape-on", "disabled"))
        tab.press("tape", Keys.SPACE)
        assert soon(lambda: tab.text("tape-play") == "Play", 1.5)
        assert tab.get("tape-play", "disabled") and tab.tape_is_at("7:")


def test_place_under_the_pointer(tab: Page) -> None:
    """Its description, and that of the cell under the keyboard cursor."""
    view = tab.open_machine(CHAMPION_OF_FOUR)
    tab.scroll_to_diagram()
    for row in trace(tab.program, CHAMPION_OF_FOUR, 107)[::7]:
        for at in range(row.low, row.low + len(row.cells)):
            place = window_point(tab, *place_of(view, row.step + 0.5, at + 0.5))
            send_mouse(tab, "mouseMoved", place)
            assert soon(lambda: tab.text("place-text") == row.place_words(at))
    send_mouse(tab, "mouseMoved", (1, 1))
    tab.press("diagram", "0", *["+"] * 3, Keys.ARROW_DOWN, Keys.ARROW_DOWN, Keys.ARROW_RIGHT)
    tab.wait_until_drawn()
    assert "Step 2, state" in tab.text("place-text")
    tab.press("diagram", Keys.ENTER)
    assert tab.tape_is_at("2:")


def test_stretch_of_a_translated_cycler(tab: Page) -> None:
    """Its cells are outlined."""
    line = tab.program_output("decide", {}, TRANSLATED.encode()).decode().split()
    first, second, _, length = map(int, line[3:])
    view, mark = tab.open_machine(TRANSLATED), tab.colour("--mark")
    tab.until(lambda: tab.js("return $$('#behind .same').length") == 2 * length)
    tab.until(lambda: "show it" in tab.text("behind"))
    rows = trace(tab.program, TRANSLATED, second)
    for step in (first, second):
        x = (rows[step].head - view["left"]) * view["wide"]
        y = (step - view["top"]) // view["every"] * view["high"]
        above = tab.pixels([[x + view["wide"] * (k + 0.3), y - 1] for k in range(length)])
        assert all(one == mark for one in above)


@pytest.mark.slow
def test_late_marks_are_in_view(tab: Page) -> None:
    """The view opens on them, apart from each other."""
    line = tab.program_output("decide", {}, LATE.encode()).decode().split()
    first, second = int(line[3]), int(line[4])
    assert second - first < second / 40
    view = tab.open_machine(LATE)
    upper, lower = (place_of(view, step, 0)[1] for step in (first, second))
    assert view["y"] <= upper <= lower - 8 and lower < tab.size()[1]
    tab.click("fit")
    assert tab.wait_until_drawn(lambda whole: whole["top"] == 0)["top"] == 0
    tab.click("marked")
    assert tab.wait_until_drawn(lambda marked: marked == view) == view


def test_levels_of_a_tree(tab: Page) -> None:
    """The page draws the levels and nodes of the line."""
    tab.open("#machine=" + TREE)
    levels, nodes = tab.program_output("decide", {}, TREE.encode()).decode().split()[2:]
    counts = tab.js(LEVELS)
    assert (len(counts), sum(counts)) == (int(levels), int(nodes))
    assert tab.js("return document.querySelector('#behind .error') === null")
