"""The passes over a list: a first one of few steps, a second one by the limits, and new decisions."""

import re
import time

import pytest
from web.tests.browser import ENDLESS, LONG, Page
from support.examples import README
from support.machines import CHAMPION_OF_FOUR, HALT
from support.program import as_lines

# Backward reasoning decides these within 1,000 steps; a longer run finds them translated.
FOUND_LATER = "1RB0LD_0LA1RC_1RE0RB_1RE1LA_1LD0RC 1RB0LE_1LE0RD_0RB1RC_0LD0RC_0LA1LA".split()
HALTS_LATE = "halts after 107 steps"


def test_first_pass_comes_before_long_machines(tab: Page) -> None:
    """A stop saves final verdicts, and reports the omitted ones of the first pass. The next list runs."""
    tab.plan(ENDLESS, "decide")
    tab.submit_file(as_lines([LONG] * 32 + [HALT] * 6_368))
    tab.until(lambda: "Second pass" in tab.text("status"))
    assert "6,368 decided, 0 undecided" in tab.text("status")
    assert "32 waiting for the second pass" in tab.text("status")
    assert tab.rows()[0][2] == "undecided steps first pass"
    tab.click("stop")
    assert "omit 32 lines of the first pass" in tab.text("status")
    assert tab.state() == "stopped"
    assert tab.save() == as_lines([HALT + " halt 6 4"] * 6_368)
    tab.require_same("decide", {}, README)


def test_long_machine_is_named_while_others_are_decided(tab: Page) -> None:
    """A stop keeps the others' verdicts."""
    tab.plan(ENDLESS, "decide")
    tab.submit_file(as_lines([HALT] * 700 + [LONG] + [HALT] * 700))
    tab.until(lambda: LONG in tab.text("under-way") and re.search("1,[34]\\d\\d decided", tab.text("status")))
    before = tab.text("status")
    assert re.search(r", \d+ % done\. ", before)
    time.sleep(0.5)
    assert tab.text("status") != before
    tab.click("stop")
    assert tab.state() == "stopped"
    assert tab.save().startswith(as_lines([HALT + " halt 6 4"] * 700))


@pytest.mark.parametrize("every", [2_000, pytest.param(100, marks=pytest.mark.slow)])
def test_second_pass_has_the_bytes_of_the_program(tab: Page, four_states: list[str], every: int) -> None:
    """Also if it changes a verdict of the first pass. Saved verdict lines are detected as such."""
    given = as_lines([*FOUND_LATER, CHAMPION_OF_FOUR, "no machine", "1RA1RA"] * 20)
    first = tab.program_output("decide", {"steps": 1_000}, given)
    assert first.count(b" backward ") > tab.require_same("decide", {}, given).count(b" backward ")
    assert "econd pass" not in tab.text("status") and "% done" not in tab.text("status")
    assert "first pass" not in str(tab.rows())
    decided = tab.require_same("decide", {"steps": 20_000}, as_lines(four_states[::every]))
    tab.plan({}, "auto")
    tab.answer_file(decided)
    assert "verdict lines, checked" in tab.text("status")


@pytest.mark.slow
@pytest.mark.timing
def test_four_states_are_decided_soon(tab: Page, four_states: list[str]) -> None:
    """99 % of them in less time than the program takes for all."""
    given = as_lines(four_states)
    tab.plan({}, "decide")
    tab.submit_file(given)
    begun = time.monotonic()
    tab.until(lambda: "Second pass" in tab.text("status"))
    page = time.monotonic() - begun
    tab.click("stop")
    begun = time.monotonic()
    tab.program_output("decide", {}, given)
    program = time.monotonic() - begun
    print("99 %% of four states after %.1f s; the program takes %.1f s for all" % (page, program))
    assert page < program


def test_machine_decided_again_comes_into_its_row(tab: Page) -> None:
    """The row is marked, and saved."""
    tab.open_list(HALT, CHAMPION_OF_FOUR, plan={"steps": 50})
    tab.press("rows", "n")
    tab.click("again")
    tab.until(lambda: HALTS_LATE in tab.text("machine-says"))
    assert "halt 107 13. Its row is updated" in tab.text("again-text")
    assert tab.rows()[1][2:] == ["halt 107 13 again, 500 steps", "ok"]
    status = tab.text("status")
    assert "2 decided, 0 undecided" in status and "1 decided again with larger limits" in status
    assert tab.save().endswith(b"\n%s halt 107 13\n" % CHAMPION_OF_FOUR.encode())
    tab.click("link")
    assert "steps=500&cells=262144" in tab.js("return location.hash")


def test_undecided_machines_are_decided_again(tab: Page) -> None:
    """In their rows, with larger limits each time; list, limits and open line stay."""
    lines = [HALT, CHAMPION_OF_FOUR, "# a comment", "1RA1RA"]
    tab.open_list(*lines, plan={"steps": 5})
    for steps, verdict in ((50, "undecided steps"), (500, "halt 107 13")):
        tab.await_answer(lambda: tab.click("left"))
        rows = tab.rows()
        assert [row[0] for row in rows] == ["1", "2", "4"]
        assert rows[1][2] == "%s again, %d steps" % (verdict, steps)
    assert rows[2][2].startswith("translated R") and rows[0][2] == "halt 6 4 again, 50 steps"
    assert (tab.get("list", "value"), tab.get("steps", "value")) == ("\n".join([*lines, ""]), "5")
    assert "6 steps" in tab.text("machine-says")
    assert tab.save().endswith(b"halt 107 13\n1RA1RA translated R 1 2 1 1\n")
    assert tab.get("left", "hidden")


def test_checked_claims(tab: Page) -> None:
    """Only confirmed ones count as decided. One is kept when its machine is decided again."""
    tab.plan({"steps": 50}, "check")
    tab.open_list(HALT + " halt 6 4", HALT + " halt 7 4", CHAMPION_OF_FOUR + " halt 107 13")
    assert "1 decided, 0 undecided, 0 refused" in tab.text("status")
    assert "2 not confirmed" in tab.text("status") and "1 bad, 1 over" in tab.text("status")
    tab.open_list(CHAMPION_OF_FOUR + " undecided steps")
    tab.click("again")
    tab.until(lambda: HALTS_LATE in tab.text("machine-says"))
    assert tab.rows()[0][2] == "undecided steps"
    assert tab.save() == b"open\n"
