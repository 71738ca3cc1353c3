"""The view of one machine: facts, copies, and opening other rows."""

import math
import pathlib
import random
import time

import budlarem
import pytest
from web.tests.browser import LONG, Page, soon
from support.claims import with_other_number
from web.tests.gestures import Keys
from support.machines import CHAMPION, HALT, LATE, SWAPPED, TREE, random_machines
from support.program import as_lines
from support.traces import trace

MACHINES = "1RA1RA 1LB0LA_1RA--- 1LC1RZ_1RB---_1RA1LA 1RB---_1LB1LA".split()
MACHINES += [HALT, LONG, TREE, CHAMPION, LATE]
SMALL = {"steps": 1_000, "cells": 400, "depth": 20, "nodes": 100}
ON_BLANK = "A on the blank tape alone"
# Records copies.
COPY = """
window.copied = [];
navigator.clipboard.writeText = async (text) => { window.copied.push(text); };
navigator.clipboard.write = async ([item]) => {
  const png = await item.getType("image/png");
  window.copied.push(png.type + " " + (png.size > 100));
};
"""


@pytest.mark.slow
@pytest.mark.parametrize("machine", MACHINES)
def test_facts_are_those_of_the_package(tab: Page, library: pathlib.Path, machine: str) -> None:
    verdict = budlarem.parse(tab.program_output("decide", {}, machine.encode()).decode().rstrip())
    tab.open_facts(machine)
    (line,) = budlarem.lines_of([machine], steps=10_000)
    assert tab.text("fact-line").startswith(line.line if line.line != machine else "It is its own line.")
    assert tab.text("fact-mirror") == machine.translate(SWAPPED)
    try:
        place = budlarem.at(verdict, 10**15)
    except ValueError:
        assert "head at" not in tab.text("fact-later")
        return
    position = "{:,}".format(place.position).replace("-", "\u2212")
    assert tab.text("fact-later") == "state %s, head at %s." % (place.state, position)


def test_same_machines_of_a_list(tab: Page) -> None:
    """By their lines: mirror images and other names, and the entry where the line halts."""
    tab.open_list("1RB1LB_1LA1RZ", "1LB1RB_1RA1LZ", "1RB1LB_1LA---", "1RB---_1RA---", "1LB0RB_1LA1LB")
    alike = "the same%s, up to the names of states and symbols, and left and right."
    for row, words in enumerate(("Line 2 does", "Line 1 does", "None.", "Line 5 does", "Line 4 does")):
        tab.open_row(row)
        span = " for at least 10,000 steps" if row >= 3 else ""
        expected = words if words == "None." else "%s %s" % (words, alike % span)
        tab.until(lambda: tab.text("fact-same") == expected)
    tab.open_list(*random_machines(201, random.Random(1)))
    tab.until(lambda: tab.text("fact-same") == "Lists of more than 200 lines aren\u2019t compared.")


@pytest.mark.parametrize("machine", MACHINES)
def test_growth(tab: Page, machine: str, steps: int = 5_000) -> None:
    """Visited cells after a hundredth, a tenth and all of the steps, or at the halt."""
    tab.open_facts(machine, "&steps=%d" % steps)
    rows = trace(tab.program, machine, steps)
    if len(rows) <= steps:
        cells = len(rows[-1].cells)
        assert tab.text("fact-growth") == "The run ends, with %d cell%s." % (cells, "s" * (cells > 1))
        return
    visited = [len(rows[steps // part].cells) for part in (100, 10, 1)]
    power = math.log10(visited[2] / visited[0]) / 2
    grows = "Logarithmic growth" if power < 0.2 else "Growth like a root" if power < 0.8 else "Linear growth"
    words = "No growth" if visited[1] == visited[2] else grows
    counts = "{:,}, {:,} and {:,} cells after".format(*visited)
    assert tab.text("fact-growth").startswith("%s, estimated by %s" % (words, counts))


def test_growth_up_to_the_limit_of_cells(tab: Page) -> None:
    """Long before the limit of steps."""
    tab.open_facts("1RA1RA")
    visited = "656, 6,551 and 65,501 cells after 1 %, 10 % and 100 % of 65,535 steps"
    assert tab.text("fact-growth") == "Linear growth, estimated by %s." % visited


@pytest.mark.parametrize(
    "machine, completions, starts",
    [
        (HALT, "no undefined entry", ON_BLANK),
        (LONG, "Any completion of its --- has the same", ON_BLANK),
        ("1RB---_1LA1RA", "Completions of only the other ---", ON_BLANK),
        (TREE, "No completion of its --- halts", "it halts within 11 steps"),
    ],
)
def test_what_a_verdict_says_of_others(tab: Page, machine: str, completions: str, starts: str) -> None:
    """About completions of `---`, and other starts."""
    tab.open_facts(machine)
    assert completions in tab.text("fact-completions")
    assert starts in tab.text("fact-starts")
    assert tab.get("elsewhere", "href") == "https://bbchallenge.org/" + machine


# Claims that the checker refutes, each with the difference that the page names.
DIFFERENCES = {
    "1RA1RA translated R 1 2 99 1": "The head is 1 cell farther out.",
    "1RA1RA translated L 1 2 1 1": "At step 1 the head isn\u2019t farther left than ever.",
    "1RA1RA translated R 1 3 1 1": "The head is 2 cells farther out.",
    "1RA1RA translated R 1 2 1 9": "The stretch has 1 cell.",
    "1RB1LB_1LA1RZ halt 5 4": "It doesn\u2019t halt there: its next entry is 1RZ.",
    "1RB1LB_1LA1RZ halt 6 3": "It has 4 nonzero cells.",
    "1RB1LB_1LA1RZ halt 7 4": "The run ends at step 6.",
    "0RB---_0LA--- cycler 2 3": "The states differ, A and B.",
    "0RB---_0LA--- cycler 4 2": "The second step doesn\u2019t come after the first.",
    "1RB1LB_1LA1LB cycler 1 3": "The head\u2019s positions differ, 1 and \u22121.",
}


def test_refuted_claims(tab: Page, rng: random.Random) -> None:
    """The page says only of what the checker confirms that the rows show it, and names the first difference."""
    machines = [HALT, LONG, TREE, "1LB0LA_1RA---", "1RB0LC_1RC0RC_1LA0RB", *random_machines(9, rng)]
    decided = tab.program_output("decide", SMALL, as_lines(machines)).decode().splitlines()
    lines = [line for line in decided if not line.startswith("refused") and "undecided" not in line]
    lines = [*DIFFERENCES, *lines, *(with_other_number(line, rng) for line in lines * 3)]
    tab.open_list(*lines, plan=SMALL, mode="check")
    for row, (line, answer) in enumerate(zip(lines, tab.save().decode().splitlines())):
        tab.press("rows", Keys.ARROW_DOWN if row else Keys.HOME, Keys.ENTER)
        if answer not in ("ok", "bad"):
            continue
        assert soon(lambda: tab.text("machine-text") == line.split()[0] and tab.text("behind") != "")
        errors = tab.js("return $$('#behind .error').map((one) => one.textContent)")
        is_shown, is_claimed = ("above show" in tab.text("behind"), "Claimed" in tab.text("behind"))
        assert is_claimed == (answer == "bad") == (len(errors) == 1), (line, errors)
        assert is_shown == (answer == "ok" and " backward " not in line), line
        assert line not in DIFFERENCES or errors == [DIFFERENCES[line]], (line, errors)


def test_text_link_and_picture_are_copied(tab: Page) -> None:
    """The link has the limits and switches, and opens the machine with them."""
    tab.open("#machine=1RA1RA&steps=9&cells=700&translated=off&cyclers=off&backward=off")
    assert tab.save() == b"1RA1RA undecided steps\n"
    tab.click("link")
    limits = "#machine=1RA1RA&steps=9&cells=700&cyclers=off&translated=off&backward=off"
    assert tab.js("return location.hash") == limits
    tab.command("Browser.grantPermissions", permissions=["clipboardReadWrite"])
    tab.js(COPY)
    tab.open_list("1RA1RA", plan={})
    tab.wait_until_drawn()
    for name in ("copy-text", "link", "copy-png"):
        tab.click(name)
    tab.until(lambda: len(tab.js("return window.copied")) == 3)
    text, link, png = tab.js("return window.copied")
    assert (text, png) == ("1RA1RA", "image/png true") and link.endswith("#machine=1RA1RA")


def test_keys_and_buttons_open_other_rows(tab: Page) -> None:
    mirrored = CHAMPION.translate(SWAPPED)
    tab.open_list(HALT, CHAMPION, "1RA1RA", mirrored, plan={"steps": 100})
    for key, machine in zip("nnpNP", (CHAMPION, "1RA1RA", CHAMPION, mirrored, CHAMPION)):
        tab.press("rows", key)
        assert tab.text("machine-text") == machine
    tab.click("row-before")
    assert tab.text("machine-text") == HALT
    tab.click("open-next")
    assert tab.text("machine-text") == CHAMPION
    tab.click("kind-halt")
    tab.click("save-shown")
    undecided = "%s undecided steps"
    kinds = [undecided % CHAMPION, "1RA1RA translated R 1 2 1 1", undecided % mirrored]
    assert tab.read_download() == as_lines(kinds)


def test_late_answers_are_dropped(tab: Page) -> None:
    """Late replies for a line aren't shown with the next one."""
    tab.open_list("1RA1RA", HALT, CHAMPION, plan={"steps": 100})
    tab.js("for (let k = 0; k < 2; k += 1) $('row-next').click()")
    tab.until(lambda: tab.wait_until_drawn() and "\u2026" not in tab.text("facts"))
    time.sleep(0.5)
    assert "Steps 0 to 100" in tab.text("diagram-text")
    assert tab.text("behind") == ""
    assert "doesn\u2019t say" in tab.text("fact-later")
