"""The exact recurrence of an open machine: its facts, its last uses, and its marks in the diagram."""

import pytest
from web.tests.browser import Page, View
from web.tests.gestures import Keys
from support.machines import CHAMPION, HALT, LATE
from support.recurrences import reply_to_pair
from support.traces import format_number, trace

LEFT, CYCLE = "1RB---_1LB0RB", "0RB---_0LA---"
# A machine that quasihalts, and one of three symbols that repeats later than it is found to.
QUASIHALTS, LATER = "1RB0LB_1LA0RC_1LC1LA", "1RB0LA---_1LB2LA0RB"
TABLE = "return $$('#uses tr').map((row) => [...row.children].map((one) => one.textContent))"
WORDS = {"*": "for ever", "-": "never"}


def open_exact(tab: Page, machine: str) -> View:
    """Opens a machine, and waits for its recurrence and its diagram."""
    tab.open_machine(machine)
    tab.until(lambda: not tab.get("exact", "hidden"))
    return tab.wait_until_drawn()


def exact_of(tab: Page, machine: str) -> list[str]:
    """The words of the machine's recurrence with entries, by brute force."""
    line = tab.program_output("decide", {}, machine.encode()).decode().rstrip()
    return reply_to_pair(line, True).split(" ")[2:]


@pytest.mark.parametrize("machine", [LEFT, CYCLE, QUASIHALTS, LATER, LATE, "1RA1RA"])
def test_facts(tab: Page, machine: str) -> None:
    open_exact(tab, machine)
    start, period, shift, *words = exact_of(tab, machine)
    assert tab.text("exact-start") == "Step {:,}.".format(int(start))
    assert tab.text("exact-period") == "{:,} step{}.".format(int(period), "s" * (int(period) > 1))
    side = "right" if int(shift) > 0 else "left"
    cells = "%d cell%s to the %s." % (abs(int(shift)), "s" * (abs(int(shift)) > 1), side)
    assert tab.text("exact-shift") == (cells if int(shift) else "None: the configuration comes again.")
    steps = int(words[words.index("quasihalts") + 1]) if "quasihalts" in words else None
    stops = "After {:,} step{}.".format(steps, "s" * (steps > 1)) if steps else "No state has a last use."
    assert tab.text("exact-quasihalt") == stops
    uses, entries = words[: machine.count("_") + 1], words[words.index("entries") + 1 :]
    symbols = len(entries) // len(uses)
    texts = [WORDS.get(use) or "{:,}".format(int(use)) for use in (*uses, *entries)]
    rows = [[use, *texts[len(uses) + k * symbols :][:symbols]] for k, use in enumerate(texts[: len(uses)])]
    assert [row[1:] for row in tab.js(TABLE)[1:]] == rows
    assert [row[0] for row in tab.js(TABLE)[1:]] == [chr(65 + k) for k in range(len(uses))]


@pytest.mark.usefixtures("scheme")
@pytest.mark.parametrize("machine", [LEFT, QUASIHALTS])
def test_marks(tab: Page, machine: str) -> None:
    """The head's cell is outlined at the start, a period later, and at each last use of a state."""
    open_exact(tab, machine)
    tab.press("exact", Keys.ENTER)
    start, period, _, *words = exact_of(tab, machine)
    uses = [int(use) for use in words[: machine.count("_") + 1] if use.isdecimal()]
    first = int(start)
    assert tab.tape_is_at(format_number(first))
    view = tab.wait_until_drawn(lambda view: view["top"] <= first)
    rows = trace(tab.program, machine, first + int(period))
    assert view["every"] == 1 and view["high"] >= 4
    for step in (first, first + int(period), *(use for use in uses if use >= view["top"])):
        x = (rows[step].head - view["left"]) * view["wide"]
        y = (step - view["top"] + 0.5) * view["high"]
        around = tab.pixels([[x + side + k, y] for side in (0, view["wide"]) for k in (-2, -1, 0, 1)])
        assert tab.colour("--exact") in around, (step, around)


def test_machines_without_one(tab: Page) -> None:
    """A halt, an undecided machine and a refuted pair show none, also after one that has it."""
    tab.plan({"steps": 1_000}, "auto")
    tab.open_list(LEFT, HALT, CHAMPION, "x")
    tab.until(lambda: not tab.get("exact", "hidden"))
    for row in (1, 2, 3):
        tab.open_row(row)
        assert tab.get("recurrence", "hidden") and tab.get("exact", "hidden")
    tab.open_row(0)
    tab.until(lambda: not tab.get("exact", "hidden"))
    tab.plan({}, "check")
    tab.open_list(CYCLE + " cycler 2 5", CYCLE + " cycler 4 16", plan={}, mode="check")
    assert tab.get("recurrence", "hidden")
    tab.open_row(1)
    tab.until(lambda: not tab.get("recurrence", "hidden"))
    assert tab.text("exact-start") == "Step 0."
    assert tab.text("exact-period") == "2 steps."


def test_by_keyboard(tab: Page) -> None:
    """The button is reached behind that of the marked steps; each shows its steps again. A phone has room."""
    open_exact(tab, LATER)
    start = int(exact_of(tab, LATER)[0])
    tab.press("marked", Keys.TAB)
    assert tab.focus() == "exact"
    tab.press("exact", Keys.SPACE)
    assert tab.tape_is_at(format_number(start))
    tab.focus_on("uses")
    assert tab.focus() == "uses"
    tab.resize(390)
    for machine in (QUASIHALTS, LATE):
        open_exact(tab, machine)
        assert tab.js("return document.documentElement.scrollWidth") <= 390
    tab.resize(0)
