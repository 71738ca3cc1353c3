"""Input to the page: lists, settings, files, dropped texts, and what a reload keeps."""

import pathlib
import time
from typing import Callable

from support import TOP
from web.tests.browser import LONG, Page, soon
from web.tests.gestures import type_text
from support.machines import CHAMPION, CHAMPION_OF_FOUR

SELECTED = """
const { selectionStart: first, selectionEnd: end, value } = $("list");
return end - first === value.length ? "all" : end - first;
"""
DROP_TEXT = """
const moved = new DataTransfer();
moved.setData("text/plain", "1RA1RA");
const event = new DragEvent("drop", { dataTransfer: moved, bubbles: true, cancelable: true });
document.querySelector(arguments[0]).dispatchEvent(event);
return event.defaultPrevented;
"""
DRAG = "document.body.dispatchEvent(new DragEvent(arguments[0], { bubbles: true }))"
HASH = "return location.hash"


def list_of(tab: Page) -> str:
    return str(tab.get("list", "value"))


def select_by_click(tab: Page) -> object:
    """Click into the list, and return the number of selected characters, or `all`."""
    tab.driver.find_element("id", "list").click()
    return tab.js(SELECTED)


def is_refused(tab: Page, name: str) -> bool:
    return bool(tab.get(name, "ariaInvalid") == "true")


def test_first_click_selects_an_example(tab: Page) -> None:
    """Typing replaces it. A second click, or one into another list, selects nothing."""
    assert select_by_click(tab) == "all"
    assert select_by_click(tab) == 0
    tab.open()
    select_by_click(tab)
    type_text(tab, "1RA1RA")
    assert list_of(tab) == "1RA1RA"
    assert select_by_click(tab) == 0
    tab.choose_example("claims")
    assert tab.save() == (TOP / "examples" / "claims" / "expected.txt").read_bytes()
    assert select_by_click(tab) == "all"


def test_clear_empties_the_list(tab: Page) -> None:
    """It also removes a file, and focuses the list."""
    tab.press("clear", "\n")
    assert list_of(tab) == ""
    assert tab.focus() == "list"
    assert "2 decided" in tab.text("status")
    tab.answer_file(b"1RA1RA\n")
    tab.click("clear")
    assert tab.get("file-shown", "hidden") and not tab.get("list", "hidden")
    tab.choose_example("claims")
    tab.click("clear")
    assert tab.get("examples", "value") == ""


def test_examples_bring_their_settings(tab: Page) -> None:
    """A reload keeps them. Another list and the button for the defaults reset them."""

    def settings() -> list[object]:
        return [tab.get("steps", "value"), tab.get("clean", "checked"), tab.get("mode", "value")]

    usual = settings()
    tab.choose_example("small limits")
    assert settings()[:2] != usual[:2]
    tab.reload()
    assert tab.text("limits-text") != ""
    tab.type("list", "1RA1RA\n")
    assert settings() == usual and tab.get("examples", "value") == "" == tab.text("limits-text")
    # The default, written otherwise.
    tab.type("steps", "1e6")
    assert tab.text("limits-text") == ""
    tab.type("steps", "7")
    tab.put("clean", "checked", False)
    tab.choose_option("mode", "check")
    tab.click("defaults")
    assert settings() == usual


def test_limits_as_people_write_them(tab: Page) -> None:
    """With separators between groups of three digits, or by a power of ten; others are refused."""
    for text in ["many", "1,5e3", "1,5", "1,00,000", ",100", "1 5", "1_5", "1,000 000", "1 000 00"]:
        tab.type("steps", text)
        tab.run()
        assert soon(lambda: is_refused(tab, "steps"))
        tab.click("defaults")
        assert not is_refused(tab, "steps") and "number" not in tab.text("steps-range")
    grouped = ("47 176 870", "47\u202f176\u202f870", "47_176_870", " +47,176,870 ")
    written = {"1e3": 1000, "1_000": 1000, "10^3": 1000, "1.5e3": 1500, "1,000": 1000}
    for text, steps in {**dict.fromkeys(grouped, 47_176_870), **written}.items():
        tab.open_list(CHAMPION, plan={"steps": text})
        assert tab.text("machine-says").startswith("It halts after 47,176,870 steps") == (text in grouped)
        tab.click("link")
        assert tab.js(HASH).endswith("&steps=%d" % steps)


def test_step_is_written_as_a_limit(tab: Page) -> None:
    """A refusal is announced, and stays until another step or machine is shown."""
    tab.open_machine(CHAMPION_OF_FOUR)
    tab.go_to("1e2")
    assert soon(lambda: tab.text("tape-text").startswith("Step 100:"))
    tab.go_to("many")
    assert soon(lambda: "whole number" in tab.text("live"))
    shows: list[Callable[[], object]] = [
        lambda: tab.click("tape-on"),
        lambda: tab.go_to("7"),
        lambda: tab.open_list("1RB1LB_1LA1RZ"),
    ]
    for show in shows:
        tab.go_to("many")
        time.sleep(0.1)
        assert "whole number" in tab.text("tape-refused") and is_refused(tab, "tape-step")
        show()
        assert soon(lambda: tab.text("tape-refused") == "", 2)
        assert not is_refused(tab, "tape-step")


def test_chosen_file(tab: Page) -> None:
    """The button says what it gets. If it changed since, this is reported, and it can be chosen again."""
    tab.answer_file(b"1RA1RA\n")
    for mode, words in (("check", "Check"), ("decide", "Decide"), ("check", "Check"), ("auto", "Decide")):
        tab.choose_option("mode", mode)
        assert soon(lambda: tab.text("run") == words)
    path = pathlib.Path(tab.folder) / "list"
    time.sleep(1.1)
    path.write_bytes(b"1RB1LB_1LA1RZ\n1RA1RA\n")
    tab.run()
    assert soon(lambda: "can\u2019t be read" in tab.text("error"))
    tab.js("$('file').click = () => {}")
    tab.click("file-choose")
    assert tab.js("return $('file').files.length") == 0
    tab.choose(str(path))
    assert soon(lambda: tab.text("machine-text") == "1RB1LB_1LA1RZ")


def test_dropped_text(tab: Page) -> None:
    """The browser inserts a text dropped into the list. Elsewhere it replaces the list."""
    given = list_of(tab)
    assert not tab.js(DROP_TEXT, "#list") and list_of(tab) == given
    # A text of the page's own stays where it is.
    tab.js(DRAG, "dragstart")
    tab.js(DROP_TEXT, "h1")
    assert list_of(tab) == given
    tab.js(DRAG, "dragend")
    assert tab.js(DROP_TEXT, "h1") and list_of(tab) == "1RA1RA"


def test_reload_keeps_a_link_or_the_list_after_it(tab: Page) -> None:
    """A list run after a link is kept and removes the link from the address."""
    tab.open("#1RA1RA")
    tab.reload()
    assert (tab.js(HASH), list_of(tab)) == ("#1RA1RA", "1RA1RA\n")
    tab.open_list(LONG)
    assert tab.js(HASH) == ""
    tab.reload()
    assert list_of(tab) == "%s\n" % LONG
    tab.open("#1RA1RA")
    tab.type("list", "%s\n" % LONG)
    tab.reload()
    assert list_of(tab) == "%s\n" % LONG
    tab.open("#" + CHAMPION)
    assert tab.text("machine-text") == CHAMPION


def test_reload_keeps_what_is_typed(tab: Page) -> None:
    """List and limits, run or not, also after undecided lines are decided again."""
    for given in ("1RA1RA\n%s\n" % LONG, "1RB1LB_1LA1RZ\n%s\n" % CHAMPION_OF_FOUR):
        tab.type("list", given)
        tab.type("steps", "50")
        tab.reload()
        assert (list_of(tab), tab.get("steps", "value")) == (given, "50")
    tab.await_answer(lambda: tab.click("left"))
    tab.reload()
    assert list_of(tab) == given and tab.get("list-gone", "hidden")


def test_reload_names_a_list_that_is_gone(tab: Page) -> None:
    """A file, or a list too long to store. Typing a list removes the message."""

    def missing_text() -> str:
        tab.driver.refresh()
        return str(tab.until(lambda: tab.text("list-gone")))

    tab.plan({"steps": 50}, "auto", True)
    tab.answer_file(b"%s\n" % CHAMPION_OF_FOUR.encode())
    tab.await_answer(lambda: tab.click("left"))
    for _ in range(2):
        assert missing_text().startswith("The file list isn\u2019t kept")
    tab.type("list", "1RA1RA\n")
    assert tab.get("list-gone", "hidden")
    tab.open_list("# " + "x" * 1_000_001, "1RA1RA")
    assert "1,000,0" in missing_text()
    tab.js("sessionStorage.clear()")
